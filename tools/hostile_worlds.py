"""Hostile worlds: a transaction that commits and one that is undone, whose lines are known, and behind
each step in turn a reply that nobody sent, a repeated operation, a repeated request, a restart, a crash of the
transaction component or a cut of its log.

What is printed stays but for the lines that are added, and places of later wires and replies, greater by as
many as were added. A restart that nobody is told of leaves no row, and the first wire behind it is not heard;
one that is told of, with a checkpoint before it or none, and whose redo is gone through, leaves all as it was. So
does a crash that finds the whole log written; and one that is to find more of it isn't possible. A cut is possible
where no transaction is open, and makes later places in the log less.
"""
import re
from collections import namedtuple

from procedures import BAD, PUT
from trying import some_of

SCRIPT = f"""\
dc 4 100
{PUT}{BAD}"""

# Each step, and the line that it is to print.
STEPS = [
    ("admit put 5 100", "admitted 1"),
    ("ask 1", "sent 0 number 1 insert 0/0/5 100 low 0"),
    ("perform 0", "reply 0 number 1 done"),
    ("take 0", "took number 1"),
    ("ask 1", "over 1"),
    ("end 1", "ended 1 committed at 3"),
    ("admit bad 5", "admitted 2"),
    ("ask 2", "sent 1 number 2 read 0/0/5 low 1"),
    ("perform 1", "reply 1 number 2 value 100"),
    ("take 1", "took number 2"),
    ("ask 2", "sent 2 number 3 update 0/0/5 7 low 2"),
    ("perform 2", "reply 2 number 3 done was 100"),
    ("take 2", "took number 3"),
    ("ask 2", "undoing 2"),
    ("undo 2", "sent 3 number 4 update 0/0/5 100 low 3"),
    ("perform 3", "reply 3 number 4 done was 7"),
    ("take 3", "took number 4"),
    ("ask 2", "over 2"),
    ("end 2", "ended 2 aborted 5 at 11"),
]
ROWS = ["row 0/0/5 100"]
SAIDS = ["value 7", "absent", "done", "done was 7", "duplicate", "missing", "noroom", "old"]
PLACES = {"take": "reply", "perform": "sent"}


Tried = namedtuple("Tried", "steps rows status")


def as_ever(steps):
    """A script whose rows and status are those of the steps alone."""
    return Tried(steps, ROWS, 0)


def count_of(word, lines):
    """How many wires were sent, or replies."""
    words = ("reply", "forged") if word == "reply" else (word,)
    return sum(line.split()[0] in words for line in lines)


def moved(text, words, first, by):
    """The text with its place greater, where it begins with one of the words and isn't below the first."""
    word, _, rest = text.partition(" ")
    found = re.fullmatch(r"(\d+)(.*)", rest)
    if word not in words or not found or int(found[1]) < first:
        return text
    return f"{word} {int(found[1]) + by}{found[2]}"


def moved_all(steps, made, first, by):
    """The steps and lines with so many wires (`sent`) or replies more before those from the first on."""
    words = {made, "take" if made == "reply" else "perform"}
    return [(moved(step, words, first, by), moved(line, words, first, by)) for step, line in steps]


def inserted(at, step, line, made):
    """The steps and lines with one more at this place, which makes a wire (`sent`) or a reply."""
    first = count_of(made, [line for _, line in STEPS[:at]])
    return as_ever([*STEPS[:at], (step, line.format(first)), *moved_all(STEPS[at:], made, first, 1)])


# ---- restarts


class Told:
    """What the lines of the first steps say: which requests were sent, performed and answered."""

    def __init__(self, at):
        words = [step.split() for step, _ in STEPS[:at]]
        lines = [line for _, line in STEPS[:at]]
        self.txns = [(word[1], line) for word, line in zip(words, lines) if line.startswith("sent")]
        self.said = [line.split(maxsplit=4)[4] for line in lines if line.startswith("reply")]
        self.taken = count_of("took", lines)

    def request(self, place):
        """The number of this wire, its operation, and its mark."""
        return re.fullmatch(r"sent \d+ number (\d+) (.*) low (\d+)", self.txns[place][1]).groups()

    def mark(self):
        """The data component's mark: that of the last wire that it performed."""
        return int(self.request(len(self.said) - 1)[2]) if self.said else 0


def redone(told, mark):
    """The steps and lines of a redo from above this mark: each operation answered Done, and then none is left."""
    steps, wire, reply = [], len(told.txns), len(told.said)
    for place in range(told.taken):
        number, operation, _ = told.request(place)
        if int(number) > mark and told.said[place].startswith("done"):
            steps += [("redo 0", f"redo {wire} number {number} {operation}")]
            steps += [(f"perform {wire}", f"reply {reply} number {number} {told.said[place]}")]
            steps += [(f"take {reply}", f"redone number {number}")]
            wire, reply = wire + 1, reply + 1
    return steps + [("redo 0", "up 0")]


def recovered(at, is_kept):
    """The script with a restart, its news and its redo more; the open request, if any, is sent and performed again."""
    told = Told(at)
    mark = told.mark() if is_kept else 0
    steps = [("checkpoint 0", f"checkpoint 0 mark {mark}")] if is_kept else []
    redo = redone(told, mark)
    steps += [("restart 0", "restarted 0"), ("tell 0", f"told 0 incarnation 1 mark {mark}"), *redo]
    again = len(redo) // 3  # how many were redone, by three steps each, with a wire and a reply more
    wires, replies, later = len(told.txns), len(told.said), STEPS[at:]
    first, by = wires, again
    if told.taken < wires:
        txn, line = told.txns[-1]
        steps += [(f"resend {txn}", moved(line, {"sent"}, 0, again + 1))]
        first, by = wires - 1, again + 1
    later = moved_all(later, "sent", first, by)
    first, by = replies, again
    if told.taken < replies:
        number = told.request(replies - 1)[0]
        steps += [(f"perform {wires + again}", f"reply {replies + again} number {number} {told.said[-1]}")]
        first, by = replies - 1, again + 1
    return as_ever([*STEPS[:at], *steps, *moved_all(later, "reply", first, by)])


# What a step says once the first wire behind a restart wasn't heard, by whose transaction it was.
UNHEARD = {
    "1": {"ask 1": "I3 Waits 1", "end 1": "I5 NotOver", "admit bad 5": "I1 Refused B1 Busy 0/0/5 holder 1"},
    "2": dict.fromkeys(("ask 2", "undo 2"), "I3 Waits {}") | {"end 2": "I5 NotOver"},
}


def unheard(at):
    """The script with a restart more that nobody is told of."""
    steps, txn, number = [*STEPS[:at], ("restart 0", "restarted 0")], None, None
    for step, line in STEPS[at:]:
        word, _, whom = step.partition(" ")
        if txn is None and word == "perform":
            txn, number = "1" if whom == "0" else "2", int(whom) + 1
            line = "silent"
        elif txn:
            known = {"take": "I8 NoReply", "perform": "I7 NoCopy"}.get(word, "I2 NoTxn")
            line = "illegal " + UNHEARD[txn].get(step, known).format(number)
        steps.append((step, line))
    return Tried(steps, [], int(txn is not None))


def restarted():
    """Each script with a restart more."""
    for at in range(len(STEPS) + 1):
        yield unheard(at)
        yield recovered(at, False)
        yield recovered(at, True)


# ---- crashes of the transaction component


def crashed():
    """Each script with a crash more, behind which the whole log was written, and with one that isn't possible."""
    for at in range(len(STEPS) + 1):
        words = [line.split()[0] for _, line in STEPS[:at]]
        events = sum(word in ("admitted", "sent", "took", "ended") for word in words)
        left = words.count("admitted") - words.count("ended")
        yield as_ever([*STEPS[:at], (f"crash {events}", f"crashed {events} open {left}"), *STEPS[at:]])
        more = (f"crash {events + 1}", "illegal I17 NotWritten")
        yield Tried([*STEPS[:at], more, *STEPS[at:]], ROWS, 1)


# ---- cuts of the log


def earlier(line, by):
    """The line with its place in the log less."""
    return re.sub(r"(?<= at )\d+$", lambda place: str(int(place[0]) - by), line)


def cut():
    """Each script with a cut more."""
    for at in range(len(STEPS) + 1):
        words = [line.split()[0] for _, line in STEPS[:at]]
        admitted, events = words.count("admitted"), sum(word in ("admitted", "sent", "took", "ended") for word in words)
        left = admitted - words.count("ended")
        if left or not events:
            why = f"G2 Open {left}" if left else "G1 Nothing"
            yield Tried([*STEPS[:at], ("cut", f"illegal I19 NotCut {why}"), *STEPS[at:]], ROWS, 1)
        else:
            later = [(step, earlier(line, events - 1)) for step, line in STEPS[at:]]
            yield as_ever([*STEPS[:at], ("cut", f"cut {admitted} {words.count('sent')}"), *later])


# ---- messages


def forged():
    """Each script with a reply more that nobody sent."""
    for at in range(len(STEPS) + 1):
        for number in range(6):
            for said in SAIDS:
                yield inserted(at, f"forge {number} {said}", "forged {}", "reply")


def repeated(at):
    """The script with this step done again: a wire is performed, or a request sent, a second time."""
    step, line = STEPS[at]
    if step.startswith("perform"):
        yield inserted(at + 1, step, re.sub(r"\d+", "{}", line, count=1), "reply")
    if line.startswith("sent"):
        txn = step.split()[1]
        yield inserted(at + 1, f"resend {txn}", re.sub(r"\d+", "{}", line, count=1), "sent")


def hostile_worlds(program, tally, every):
    """Runs each of them; of those with a forged reply one of so many."""
    again = [script for at in range(len(STEPS)) for script in repeated(at)]
    for steps, rows, status in [as_ever(STEPS), *restarted(), *crashed(), *cut(), *again, *some_of(forged(), every)]:
        text = SCRIPT + "".join(step + "\n" for step, _ in steps)
        ran = program.run(["world", "-"], text.encode())
        lines = ran.out.decode().splitlines()
        tally.add("scripts")
        tally.add("steps", len(steps))
        wanted = [line for _, line in steps] + rows
        if lines != wanted or ran.status != status:
            differs = next((it for it in zip(lines, wanted) if it[0] != it[1]), (len(lines), len(wanted)))
            tally.fault(f"{[step for step, _ in steps]}: status {ran.status}, {differs[0]} for {differs[1]}")
