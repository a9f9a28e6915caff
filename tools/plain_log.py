"""What holds of every log by itself, and of the data components beside it, by the plain model alone.

A log is a list of events, which `read_log` makes of their bytes. `replayed`: which locks and operations may be
together; `Legal`: which event may come next; `serial`: the calls one after another; `audit`: all of that beside
the lists and rows of the data components, in the words that procd prints.
"""
import collections

from plain_model import FOUR, PROCEDURES, SUBS, DataComponent, Transaction, Wire, fits, record_text

ADMIT, ASK, ANSWER, UNDO, END, CHECKPOINT = range(1, 7)
OPERATIONS = {sub: word for word, sub in SUBS.items()}
ANSWERS = {2: ("absent",), 3: ("done", None), 5: ("duplicate",), 6: ("missing",), 7: ("noroom",)}
AMPLE = 1 << 30  # rows and operations, where there is to be room
FEW = 1 << 62  # admissions and numbers behind which a log may begin

Event = collections.namedtuple("Event", "kind sub txn word op said args")


def read_event(data):
    """The event of these bytes; which of its fields mean something is up to its kind."""
    kind, sub = data[0], data[1]
    dc, table = int.from_bytes(data[2:4], "little"), int.from_bytes(data[4:6], "little")
    txn, word, key, *args = [int.from_bytes(data[i : i + 8], "little") for i in range(8, 96, 8)]
    value, op, said = data[32:], None, None
    if kind in (ASK, UNDO):
        op = (OPERATIONS[sub], (dc, table, key), value)[: 3 if sub in (SUBS["insert"], SUBS["update"]) else 2]
    if kind == ANSWER:
        said = {1: ("value", value), 4: ("done", value)}.get(sub) or ANSWERS[sub]
    return Event(kind, sub, txn, word, op, said, tuple(args[:sub]))


def read_log(records):
    return [read_event(data) for data in records]


def outcome_of(event):
    """The outcome of an End."""
    return {1: ("committed",), 2: ("aborted", event.word), 3: ("noroom",)}[event.sub]


# ---- locks that are held and operations in flight


class Replay:
    """Locks that are held and operations in flight, event by event, and between them what was told and redone."""

    def __init__(self, names):
        self.names, self.numbers = names, 0
        self.calls, self.held = {}, {}  # locks by transaction: of all, and of those that are open
        self.open, self.waiting = {}, {}  # operations by number, numbers by transaction
        self.done, self.down = {}, {}  # operations answered Done by number; data components that are down

    def admitted(self, event):
        wanted = PROCEDURES[self.names[event.word]].locks(event.args)
        for held in self.held.values():
            if any(r in held and "write" in (held[r], wanted[r]) for r in wanted):
                return "locks that exclude each other are held"
        self.calls[event.txn] = self.held[event.txn] = wanted
        return None

    def sent(self, event):
        self.numbers += 1
        if event.word != self.numbers:
            return f"number {event.word} isn't the next"
        if event.txn not in self.held:
            return f"transaction {event.txn} isn't open"
        if event.txn in self.waiting:
            return f"transaction {event.txn} has an operation in flight already"
        self.open[event.word], self.waiting[event.txn] = (event.op, event.txn), event.word
        return self.clash()

    def answered(self, event):
        if self.waiting.get(event.txn) != event.word:
            return f"number {event.word} isn't in flight for transaction {event.txn}"
        del self.waiting[event.txn]
        op = self.open.pop(event.word)
        if event.said[0] == "done":
            self.done[event.word] = op
        return None

    def finished(self, event):
        if event.txn in self.waiting:
            return f"transaction {event.txn} has an operation in flight"
        if self.held.pop(event.txn, None) is None:
            return f"transaction {event.txn} isn't open"
        return None

    def flying(self):
        """The operations in flight: of a data component that is down the one under redo alone."""
        yield from (it for it in self.open.values() if it[0][1][0] not in self.down)
        for dc, above in self.down.items():
            again = min((n for n, (op, _) in self.done.items() if op[1][0] == dc and n > above), default=None)
            if again:
                yield self.done[again]

    def clash(self):
        """Why the operations in flight can't be there together, or None."""
        reads_only = {}
        for op, txn in self.flying():
            record, is_read = op[1], op[0] == "read"
            if self.calls[txn].get(record) not in (("read", "write") if is_read else ("write",)):
                return "the operation isn't covered by a lock"
            if record in reads_only and not (is_read and reads_only[record]):
                return "two operations in flight conflict"
            reads_only[record] = is_read
        return None

    def began(self, event):
        if self.numbers or self.calls:
            return "a checkpoint stands behind other events"
        self.numbers = event.word
        return None

    def event(self, event):
        """Takes an event in, and answers why it can't come here, or None."""
        takes = {ADMIT: self.admitted, ASK: self.sent, ANSWER: self.answered, UNDO: self.sent, END: self.finished}
        takes[CHECKPOINT] = self.began
        return takes[event.kind](event)

    def note(self, word, dc, *above):
        """Takes in what was told of a data component, redone there, or that it is up again."""
        if word == "up":
            del self.down[dc]
        else:
            self.down[dc] = above[0]
        return self.clash()


def replayed(log, names, notes=()):
    """Why this log can't be one, or None; each of the notes comes behind so many of its events."""
    replay, later = Replay(names), collections.deque(notes)
    for at in range(len(log) + 1):
        while later and later[0][0] == at:
            why = replay.note(*later.popleft()[1:])
            if why:
                return f"before event {at}: {why}"
        why = replay.event(log[at]) if at < len(log) else None
        if why:
            return f"event {at}: {why}"
    return None


# ---- legal logs


class Legal:
    """The transactions of a log, event by event: which event may come next."""

    def __init__(self, names):
        self.names, self.txns, self.serials, self.numbers, self.open = names, {}, 0, 0, {}
        self.is_new = True

    def begins(self, event):
        if not self.is_new or max(event.txn, event.word) > FEW:
            return False
        self.serials, self.numbers = event.txn, event.word
        return True

    def admits(self, event):
        if event.txn != self.serials + 1 or event.word >= len(self.names):
            return False
        procedure = PROCEDURES[self.names[event.word]]
        if event.sub != procedure.args:
            return False
        wanted = procedure.locks(event.args)
        for held in (txn.locks for txn in self.txns.values()):
            if any(r in held and "write" in (held[r], wanted[r]) for r in wanted):
                return False
        self.serials += 1
        self.txns[event.txn] = Transaction(procedure, event.args)
        return True

    def sends(self, event):
        txn = self.txns.get(event.txn)
        if txn is None or txn.open or event.word != self.numbers + 1:
            return False
        if event.kind == ASK and (txn.outcome or event.op != txn.next):
            return False
        if event.kind == UNDO:
            if not txn.to_undo() or event.op != txn.writes[-1] or txn.tries == FOUR:
                return False
            txn.tries += 1
        self.numbers += 1
        txn.open, self.open[event.word] = event.word, (event.op, event.kind == UNDO)
        return True

    def answers(self, event):
        txn = self.txns.get(event.txn)
        if txn is None or txn.open != event.word or not fits(self.open[event.word][0], event.said):
            return False
        txn.answered(*self.open.pop(event.word), event.said)
        return True

    def ends(self, event):
        txn = self.txns.get(event.txn)
        if txn is None or txn.open or txn.outcome != outcome_of(event) or txn.to_undo():
            return False
        del self.txns[event.txn]
        return True

    def event(self, event):
        """Takes an event in, and answers whether it can come here."""
        takes = {ADMIT: self.admits, ASK: self.sends, ANSWER: self.answers, UNDO: self.sends, END: self.ends}
        takes[CHECKPOINT] = self.begins
        is_legal, self.is_new = takes[event.kind](event), False
        return is_legal

    def first_illegal(self, log):
        """Takes events in up to the first that can't come there, whose place is answered, or None."""
        return next((place for place, event in enumerate(log) if not self.event(event)), None)


# ---- calls one after another


def alone(rows, name, args):
    """What a call that nothing disturbs is answered, and the rows that it leaves; room is ample."""
    store, numbers, txn = DataComponent(AMPLE, AMPLE), 0, Transaction(PROCEDURES[name], args)
    store.rows = dict(rows)
    while txn.next or txn.to_undo():
        is_undo, numbers = not txn.next, numbers + 1
        op = txn.writes[-1] if is_undo else txn.next
        txn.answered(op, is_undo, store.perform(Wire(numbers, 0, 0, False, op)))
    return " ".join(map(str, txn.outcome)), store.rows


def serial(log, names, dcs, base=()):
    """Why the calls one after another, in the order of their Ends, don't explain this log and these rows, or None.

    `dcs` has the rows of those data components that are up, by number, `base` the rows that were there at first. A call
    that got no room leaves nothing.
    """
    rows, calls = dict(base), {}
    for event in log:
        if event.kind == ADMIT:
            calls[event.txn] = (names[event.word], event.args)
        if event.kind == END:
            outcome, call = " ".join(map(str, outcome_of(event))), calls.pop(event.txn)
            answer, after = alone(rows, *call) if outcome != "noroom" else (outcome, rows)
            if answer != outcome:
                return f"one after another transaction {event.txn} is {answer}, not {outcome}"
            rows = after
    held = {record for name, args in calls.values() for record in PROCEDURES[name].locks(args)}
    for dc, here in dcs.items():
        for record in sorted((here.keys() | {record for record in rows if record[0] == dc}) - held):
            if here.get(record) != rows.get(record):
                return f"one after another {record_text(record)} is left with another value"
    return None


# ---- the audit


class Numbers:
    """The numbers of a legal log: what each asked, and what it was answered."""

    def __init__(self, log):
        self.asked, self.said = {}, {}
        for event in log:
            if event.kind in (ASK, UNDO):
                self.asked[event.word] = event.op
            if event.kind == ANSWER:
                self.said[event.word] = event.said

    def not_asked(self, dcs):
        """U2: the first entry of a list that the log doesn't ask of its data component."""
        for at, dc in enumerate(dcs):
            for place, (n, (op, _)) in enumerate(dc.list.items()):
                if self.asked.get(n) != op or op[1][0] != at:
                    return f"U2 NotAsked dc {at} place {place}"
        return None

    def is_kept(self, n, dc):
        """Whether the data component's list has this answer, where it can't have lost it."""
        if n in dc.list:
            return dc.list[n][1] == self.said[n]
        return self.said[n][0] != "done" and dc.incarnation != 0

    def mismatch(self, dcs):
        """U3: the first number whose answer isn't kept, or isn't what those before it leave; and what is left."""
        store = DataComponent(AMPLE, AMPLE)
        store.rows = {record: value for dc in dcs for record, value in dc.base.items()}
        for n in sorted(self.said):
            op, said = self.asked[n], self.said[n]
            if not self.is_kept(n, dcs[op[1][0]]):
                return f"U3 Mismatch {n}", store.rows
            if said != ("noroom",) and store.first(op, True) != said:
                return f"U3 Mismatch {n}", store.rows
        return None, store.rows


def other_rows(dcs, left, held):
    """U4: the first record that nobody holds and whose value isn't the one that was left."""
    here = {record: value for dc in dcs for record, value in dc.rows.items()}
    for record in sorted((here.keys() | left.keys()) - held):
        if here.get(record) != left.get(record):
            return f"U4 Rows {record_text(record)}"
    return None


def audit(log, names, dcs):
    """The line of an audit of this log and these data components."""
    legal = Legal(names)
    place = legal.first_illegal(log)
    if place is not None:
        return f"refused U1 LogIllegal place {place}"
    numbers = Numbers(log)
    why = numbers.not_asked(dcs)
    if not why:
        why, left = numbers.mismatch(dcs)
    why = why or other_rows(dcs, left, {record for txn in legal.txns.values() for record in txn.locks})
    ended = sum(event.kind == END for event in log)
    return f"refused {why}" if why else f"audit ok ended {ended} open {len(legal.txns)}"
