"""A plain model of what `procd world` and `procd run` do, which shares no code with procd.

Procedures as generators of operations that are sent the answers; data components whose restarts lose;
transactions that undo; the world of messages, whose steps answer the lines that procd is to print; the
log's bytes. Written from the formats (docs/FORMATS.md) and from the paper. What holds of every log by
itself is in plain_log.py.
"""
import collections

from procedures import GET, MOVE, PUT

ZEROS = bytes(64)
FOUR = 4  # numbers that an undo is given at most


def number(n):
    return n.to_bytes(8, "little")


def put_at(value, place, n):
    return value[:place] + number(n % 2**64) + value[place + 8 :]


# ---- procedures: the text, and what it does, as a generator of operations that is sent the answers

TEXTS = {
    "put": PUT,
    "get": GET,
    "move": MOVE,
    "pair": """\
proc pair 2
slot write 0 0 $0
slot write 1 7 $0
  ldxdw r6, [r1+8]
  mov r1, 0
  call 5
  stxdw [r0+0], r6
  mov r1, 0
  call 2
  mov r1, 1
  call 5
  stxdw [r0+8], r6
  mov r1, 1
  call 2
  mov r0, r6
  exit
end
""",
    "renew": """\
proc renew 2
slot write 1 7 $0
  ldxdw r6, [r1+8]
  mov r1, 0
  call 4
  mov r7, r0
  mov r1, 0
  call 5
  stxdw [r0+0], r6
  mov r1, 0
  call 2
  lsh r0, 1
  add r0, r7
  exit
end
""",
    "churn": """\
proc churn 1
slot write 0 0 $0
slot write 1 7 3
  mov r1, 0
  call 1
  jeq r0, 0, +3
  stdw [r0+8], 9
  mov r1, 0
  call 3
  mov r1, 1
  call 4
  mov r1, 1
  call 2
  mov r0, 4
  exit
end
""",
}


def failed(said):
    return int(said[0] in ("duplicate", "missing"))


def put(args):
    return failed((yield "insert", (0, 0, args[0]), put_at(ZEROS, 0, args[1])))


def get(args):
    return int((yield "read", (0, 0, args[0]))[0] == "absent")


def move(args):
    first, second = (0, 0, args[0]), (0, 0, args[1])
    one = yield "read", first
    if one[0] == "absent":
        return 1
    two = yield "read", second
    if two[0] == "absent":
        return 1
    take = put_at(one[1], 0, int.from_bytes(one[1][:8], "little") - args[2])
    give = put_at(two[1], 0, int.from_bytes(two[1][:8], "little") + args[2])
    yield "update", first, take
    return failed((yield "update", second, give))


def pair(args):
    yield "insert", (0, 0, args[0]), put_at(ZEROS, 0, args[1])
    yield "insert", (1, 7, args[0]), put_at(ZEROS, 8, args[1])
    return args[1]


def renew(args):
    gone = failed((yield "delete", (1, 7, args[0])))
    return 2 * failed((yield "insert", (1, 7, args[0]), put_at(ZEROS, 0, args[1]))) + gone


def churn(args):
    said = yield "read", (0, 0, args[0])
    if said[0] == "value":
        yield "update", (0, 0, args[0]), put_at(said[1], 8, 9)
    yield "delete", (1, 7, 3)
    yield "insert", (1, 7, 3), ZEROS
    return 4


Procedure = collections.namedtuple("Procedure", "run args locks")
PROCEDURES = {
    "put": Procedure(put, 2, lambda a: {(0, 0, a[0]): "write"}),
    "get": Procedure(get, 1, lambda a: {(0, 0, a[0]): "read"}),
    "move": Procedure(move, 3, lambda a: {(0, 0, a[0]): "write", (0, 0, a[1]): "write"}),
    "pair": Procedure(pair, 2, lambda a: {(0, 0, a[0]): "write", (1, 7, a[0]): "write"}),
    "renew": Procedure(renew, 2, lambda a: {(1, 7, a[0]): "write"}),
    "churn": Procedure(churn, 1, lambda a: {(0, 0, a[0]): "write", (1, 7, 3): "write"}),
}

# ---- texts


def record_text(record):
    return "%d/%d/%d" % record


def value_text(value):
    if any(value[8:]):
        return "x" + value.hex()
    return str(int.from_bytes(value[:8], "little"))


def op_text(op):
    return " ".join([op[0], record_text(op[1]), *map(value_text, op[2:])])


def said_text(said):
    if said[0] == "done":
        return "done" if said[1] is None else "done was " + value_text(said[1])
    return " ".join([said[0], *map(value_text, said[1:])])


# ---- log records of 96 bytes

SUBS = {"read": 1, "insert": 2, "update": 3, "delete": 4}


def record_bytes(kind, sub, dc=0, table=0, txn=0, word=0, key=0, value=b""):
    head = bytes([kind, sub]) + dc.to_bytes(2, "little") + table.to_bytes(2, "little") + bytes(2)
    return head + number(txn) + number(word) + number(key) + value.ljust(64, b"\0")


def admit_bytes(txn, procedure, args):
    return record_bytes(1, len(args), txn=txn, word=procedure, value=b"".join(map(number, args)))


def sent_bytes(kind, txn, n, op):
    dc, table, key = op[1]
    return record_bytes(kind, SUBS[op[0]], dc, table, txn, n, key, op[2] if len(op) > 2 else b"")


def answer_bytes(txn, n, said):
    subs = {"value": 1, "absent": 2, "duplicate": 5, "missing": 6, "noroom": 7}
    if said[0] == "done":
        return record_bytes(3, 3 if said[1] is None else 4, txn=txn, word=n, value=said[1] or b"")
    return record_bytes(3, subs[said[0]], txn=txn, word=n, value=said[1] if said[0] == "value" else b"")


def checkpoint_bytes(admitted, given):
    return record_bytes(6, 0, txn=admitted, word=given)


def end_bytes(txn, outcome):
    sub = {"committed": 1, "aborted": 2, "noroom": 3}[outcome[0]]
    return record_bytes(5, sub, txn=txn, word=outcome[1] if len(outcome) > 1 else 0)


# ---- the model

SPENT = 2**62  # the incarnation with which a data component restarts no more

Wire = collections.namedtuple("Wire", "number low incarnation redo op")
Reply = collections.namedtuple("Reply", "number incarnation said")
News = collections.namedtuple("News", "dc incarnation mark")


class DataComponent:
    """Performs each number once, and keeps what it answered (CIDR 2009); a restart loses what came after the
    last checkpoint, and is an incarnation of its own, which hears no other's wires.
    """

    def __init__(self, rows, ops):
        self.rows_most, self.ops_most, self.incarnation = rows, ops, 0
        self.rows, self.list, self.mark = {}, {}, 0
        self.forget()

    def checkpoint(self):
        self.saved = dict(self.rows), dict(self.list), self.mark

    def forget(self):
        """Keeps what it has, and only its rows are left of that."""
        self.base, self.list = dict(self.rows), {}
        self.checkpoint()

    def can_forget(self, low):
        return len(self.rows) <= self.rows_most and max(self.list, default=0) <= low

    def restart(self):
        """Its new incarnation and the mark that it kept."""
        rows, performed, self.mark = self.saved
        self.rows, self.list = dict(rows), dict(performed)
        self.incarnation += 1
        return self.incarnation, self.mark

    def perform(self, wire):
        """What it says to this wire, or None: silence."""
        if wire.incarnation != self.incarnation:
            return None
        self.mark = max(self.mark, wire.low)
        if wire.number <= self.mark:
            return ("old",)
        if wire.number in self.list:
            return self.list[wire.number][1]
        if len(self.list) >= self.ops_most:
            return None
        said = self.first(wire.op, wire.redo)
        self.list[wire.number] = wire.op, said
        return said

    def first(self, op, redo):
        """What it says to an operation that it performs; one that is redone always has room."""
        there = self.rows.get(op[1])
        if op[0] == "read":
            return ("absent",) if there is None else ("value", there)
        if op[0] == "insert":
            if there is not None:
                return ("duplicate",)
            if len(self.rows) >= self.rows_most and not redo:
                return ("noroom",)
            self.rows[op[1]] = op[2]
            return ("done", None)
        if there is None:
            return ("missing",)
        if op[0] == "update":
            self.rows[op[1]] = op[2]
        else:
            del self.rows[op[1]]
        return ("done", there)


class Site:
    """What the transaction component knows of a data component: its incarnation, and while it is down the mark of
    the news and the number from above which is to be redone.
    """

    def __init__(self):
        self.incarnation, self.mark, self.redone = 0, None, None

    def is_down(self):
        return self.redone is not None

    def told(self, news):
        self.incarnation, self.mark, self.redone = news.incarnation, news.mark, news.mark

    def up(self):
        self.mark, self.redone = None, None


def fits(op, said):
    if op[0] == "read":
        return said[0] in ("value", "absent")
    if op[0] == "insert":
        return said in (("done", None), ("duplicate",), ("noroom",))
    return said[0] == "missing" or (said[0] == "done" and said[1] is not None)


def inverse(op, former):
    if op[0] == "insert":
        return "delete", op[1]
    return ("update" if op[0] == "update" else "insert"), op[1], former


class Transaction:
    def __init__(self, procedure, args):
        self.locks, self.run = procedure.locks(args), procedure.run(args)
        self.writes, self.tries, self.open, self.last = [], 0, None, None
        self.outcome, self.next = None, None
        self.advance(None)

    def advance(self, said):
        try:
            self.next = self.run.send(said)
        except StopIteration as end:
            self.next, self.outcome = None, (("committed",) if end.value == 0 else ("aborted", end.value))

    def is_stuck(self):
        return bool(self.writes) and self.tries == FOUR

    def to_undo(self):
        return bool(self.outcome) and self.outcome != ("committed",) and bool(self.writes)

    def answered(self, op, is_undo, said):
        self.open = None
        if is_undo:
            if said[0] == "done":
                self.writes.pop()
                self.tries = 0
        elif said[0] == "noroom":
            self.next, self.outcome = None, ("noroom",)
        else:
            if said[0] == "done":
                self.writes.append(inverse(op, said[1]))
            self.advance(said)


class World:
    """Data components (rows and operations at most), procedures by name, and what was sent.

    Beside the log `notes` has what was told and redone, each with the length that the log had then, and `events` the
    methods that logged each event, with what they were handed.
    """

    def __init__(self, dcs, names):
        self.dcs, self.names = [DataComponent(*it) for it in dcs], names
        self.sites = [Site() for _ in dcs]
        self.copies, self.replies, self.news, self.notes = [], [], [], []
        self.begin()

    def begin(self):
        """Nothing is logged."""
        self.log, self.events, self.txns, self.unanswered, self.done = [], [], {}, {}, {}
        self.serials, self.last, self.begun = 0, 0, 0

    def event(self, data, *method):
        self.log.append(data)
        self.events.append(method)

    def low(self):
        return min(self.unanswered, default=self.last + 1) - 1

    def send(self, n, op):
        self.copies.append(Wire(n, self.low(), self.sites[op[1][0]].incarnation, False, op))
        return f"sent {len(self.copies) - 1} number {n} {op_text(op)} low {self.low()}"

    def step(self, word, *args):
        """The line that this step is answered with."""
        return getattr(self, word)(*args)

    def note(self, word, *args):
        self.notes.append((len(self.log), word, *args))

    def holders(self, record, mode):
        """The transactions whose locks exclude this one."""
        held = [(t, txn.locks[record]) for t, txn in self.txns.items() if record in txn.locks]
        return [t for t, other in held if "write" in (mode, other)]

    def admit(self, name, *args):
        if len(args) != PROCEDURES[name].args:
            return "illegal I1 Refused B5 ArgumentCount"
        txn = Transaction(PROCEDURES[name], args)
        for record in sorted(txn.locks):
            holders = self.holders(record, txn.locks[record])
            if holders:
                return f"illegal I1 Refused B1 Busy {record_text(record)} holder {min(holders)}"
        self.admitted(name, args)
        return f"admitted {self.serials}"

    def admitted(self, name, args):
        self.serials += 1
        self.txns[self.serials] = Transaction(PROCEDURES[name], args)
        self.event(admit_bytes(self.serials, self.names.index(name), args), self.admitted, name, args)

    def began(self, admitted, given):
        self.serials, self.last, self.begun = admitted, given, given
        self.event(checkpoint_bytes(admitted, given), self.began, admitted, given)

    def given(self, kind, t, op):
        self.last += 1
        self.txns[t].open, self.txns[t].last = self.last, self.last
        self.txns[t].tries += kind == 4
        self.unanswered[self.last] = (t, op, kind == 4)
        self.event(sent_bytes(kind, t, self.last, op), self.given, kind, t, op)

    def answered(self, n, said):
        t, op, is_undo = self.unanswered.pop(n)
        if said[0] == "done":
            self.done[n] = op, said
        self.event(answer_bytes(t, n, said), self.answered, n, said)
        self.txns[t].answered(op, is_undo, said)

    def ended(self, t):
        outcome = self.txns.pop(t).outcome
        self.event(end_bytes(t, outcome), self.ended, t)

    def give(self, kind, t, op):
        """Gives the operation a number, and sends it where its data component isn't down."""
        self.given(kind, t, op)
        if self.sites[op[1][0]].is_down():
            return f"held number {self.last} {op_text(op)}"
        return self.send(self.last, op)

    def ask(self, t):
        if t not in self.txns:
            return "illegal I2 NoTxn"
        txn = self.txns[t]
        if txn.open:
            return f"illegal I3 Waits {txn.open}"
        if txn.is_stuck():
            return f"stuck {t} number {txn.last}"
        if txn.outcome:
            return f"undoing {t}" if txn.to_undo() else f"over {t}"
        return self.give(2, t, txn.next)

    def undo(self, t):
        if t not in self.txns:
            return "illegal I2 NoTxn"
        txn = self.txns[t]
        if txn.open:
            return f"illegal I3 Waits {txn.open}"
        if not txn.outcome or txn.outcome == ("committed",):
            return "illegal I4 Running"
        if txn.is_stuck():
            return f"stuck {t} number {txn.last}"
        if not txn.writes:
            return f"over {t}"
        return self.give(4, t, txn.writes[-1])

    def end(self, t):
        if t not in self.txns:
            return "illegal I2 NoTxn"
        txn = self.txns[t]
        if txn.open or not txn.outcome or txn.to_undo():
            return "illegal I5 NotOver"
        self.ended(t)
        return f"ended {t} {' '.join(map(str, txn.outcome))} at {len(self.log) - 1}"

    def resend(self, t):
        if t not in self.txns:
            return "illegal I2 NoTxn"
        n = self.txns[t].open
        if not n:
            return "illegal I6 NothingOpen"
        op = self.unanswered[n][1]
        if self.sites[op[1][0]].is_down():
            return f"illegal I13 Down {op[1][0]}"
        return self.send(n, op)

    def perform(self, i):
        if i >= len(self.copies):
            return "illegal I7 NoCopy"
        wire = self.copies[i]
        dc = self.dcs[wire.op[1][0]]
        said = dc.perform(wire)
        if said is None:
            return "silent"
        self.replies.append(Reply(wire.number, dc.incarnation, said))
        return f"reply {len(self.replies) - 1} number {wire.number} {said_text(said)}"

    def take(self, i):
        if i >= len(self.replies):
            return "illegal I8 NoReply"
        n, incarnation, said = self.replies[i]
        if n not in self.unanswered:
            return self.take_redone(self.replies[i])
        op = self.unanswered[n][1]
        site = self.sites[op[1][0]]
        if site.is_down() or incarnation != site.incarnation or not fits(op, said):
            return "illegal I9 Stranger"
        self.answered(n, said)
        return f"took number {n}"

    def under_redo(self, d):
        """The number that is redone at a data component that is down: the least one answered Done above the last."""
        above = self.sites[d].redone
        return min((n for n, (op, _) in self.done.items() if op[1][0] == d and n > above), default=None)

    def take_redone(self, reply):
        """A reply to a number that isn't open can be the one to what is redone somewhere, by the logged answer."""
        for d, site in enumerate(self.sites):
            if not site.is_down() or self.under_redo(d) != reply.number:
                continue
            if (reply.incarnation, reply.said) == (site.incarnation, self.done[reply.number][1]):
                site.redone = reply.number
                self.note("redone", d, reply.number)
                return f"redone number {reply.number}"
        return "illegal I9 Stranger"

    def checkpoint(self, d):
        if d >= len(self.dcs):
            return "illegal I10 NoDc"
        self.dcs[d].checkpoint()
        return f"checkpoint {d} mark {self.dcs[d].mark}"

    def restart(self, d):
        if d >= len(self.dcs):
            return "illegal I10 NoDc"
        if self.dcs[d].incarnation >= SPENT:
            return "illegal I12 IncarnationsSpent"
        self.news.append(News(d, *self.dcs[d].restart()))
        return f"restarted {d}"

    def tell(self, i):
        if i >= len(self.news):
            return "illegal I14 NoNews"
        news = self.news[i]
        if news.incarnation <= self.sites[news.dc].incarnation:
            return "illegal I15 OldNews"
        if news.mark < self.begun:
            return "illegal I18 Forgotten"
        self.sites[news.dc].told(news)
        self.note("told", news.dc, news.mark)
        return f"told {news.dc} incarnation {news.incarnation} mark {news.mark}"

    def redo(self, d):
        if d >= len(self.dcs):
            return "illegal I10 NoDc"
        site = self.sites[d]
        if not site.is_down():
            return "illegal I16 NotDown"
        n = self.under_redo(d)
        if n is None:
            site.up()
            self.note("up", d)
            return f"up {d}"
        op = self.done[n][0]
        self.copies.append(Wire(n, site.mark, site.incarnation, True, op))
        return f"redo {len(self.copies) - 1} number {n} {op_text(op)}"

    def forge(self, n, said):
        self.replies.append(Reply(n, 0, said))
        return f"forged {len(self.replies) - 1}"

    def is_written(self, p, behind=None):
        """Whether the first p events of the log tell of all that was carried: it begins behind this number, or its own."""
        methods = [(method.__name__, *of) for method, *of in self.events[:p]]
        begun = behind if behind is not None else self.begun if methods else 0
        given = begun + sum(name == "given" for name, *_ in methods)
        answered = {of[0] for name, *of in methods if name == "answered"}
        low = min(set(range(begun + 1, given + 1)) - answered, default=given + 1) - 1
        numbers = [it.number for it in self.copies + self.replies]
        numbers += [n for dc in self.dcs for n in (*dc.list, *dc.saved[1])]
        marks = [wire.low for wire in self.copies] + [mark for dc in self.dcs for mark in (dc.mark, dc.saved[2])]
        marks += [it.mark for it in self.news] + [site.mark for site in self.sites if site.is_down()]
        is_redone = answered.issuperset(wire.number for wire in self.copies if wire.redo and wire.number > begun)
        return is_redone and max(numbers, default=0) <= given and max(marks, default=0) <= low

    def crash(self, p):
        """Comes back from the first p events of the log; a redo begins anew."""
        if p > len(self.log) or not self.is_written(p):
            return "illegal I17 NotWritten"
        events = self.events[:p]
        self.begin()
        for method, *of in events:
            method(*of)
        self.notes = [(min(at, p), *note) for at, *note in self.notes]
        for d, site in enumerate(self.sites):
            if site.is_down():
                site.redone = site.mark
                self.note("told", d, site.mark)
        return f"crashed {p} open {len(self.txns)}"

    def kept_mark(self, d):
        """The mark that this data component keeps, once it has heard the low-water mark."""
        is_heard = self.dcs[d].incarnation == self.sites[d].incarnation
        return max(self.dcs[d].mark, self.low()) if is_heard else self.dcs[d].mark

    def why_not_cut(self):
        if self.txns:
            return f"I19 NotCut G2 Open {len(self.txns)}"
        for d, dc in enumerate(self.dcs):
            if not dc.can_forget(self.low()):
                return f"I20 Unforgettable {d}"
        if not self.log:
            return "I19 NotCut G1 Nothing"
        if any(site.is_down() for site in self.sites):
            return "I19 NotCut G4 Down"
        if any(self.kept_mark(d) < self.last for d in range(len(self.dcs))):
            return "I19 NotCut G5 Behind"
        return None

    def cut(self):
        """Data components keep their rows, and forget the rest; the log begins anew behind all that was logged."""
        why = self.why_not_cut()
        if why:
            return f"illegal {why}"
        for d, dc in enumerate(self.dcs):
            dc.mark = self.kept_mark(d)
            dc.forget()
        admitted, given = self.serials, self.last
        self.begin()
        self.notes = []
        self.began(admitted, given)
        return f"cut {admitted} {given}"

    def base(self):
        """The rows with which data components begin."""
        return {record: value for dc in self.dcs for record, value in dc.base.items()}

    def unheard(self):
        """The data components that are down or of another incarnation than the one known, and which of it."""
        for d, (site, dc) in enumerate(zip(self.sites, self.dcs)):
            if site.is_down():
                yield d, "down"
            elif site.incarnation != dc.incarnation:
                yield d, "restarted"

    def rows(self):
        return [f"row {record_text(r)} {value_text(dc.rows[r])}" for dc in self.dcs for r in sorted(dc.rows)]
