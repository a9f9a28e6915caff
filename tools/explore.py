#!/usr/bin/env python3
"""Random schedules: `procd world --log` and `procd run` beside a plain model that shares no code with them.

usage: tools/explore.py [--procd PATH] [--audit] [--seconds N] [--seed N] [--seeds N] [--steps N]

From each seed come a world and some runs. The script of a world has random steps: calls that overlap,
operations asked for in any order, messages that are lost, repeated, late and forged, data components that
keep checkpoints and restart, news of that which come late and again, redo, undos that fail, crashes of the
transaction component, cuts of its log. The model says what each step prints, which rows are left and what is logged; and the log that procd prints is replayed by
itself: no two operations in flight conflict, each is covered by its transaction's locks, numbers rise one by
one. Where no message was forged, the calls one after another have to give the same answers and rows. With
`--audit` procd's audit has to say what the model's does. The script of a run has random calls, made by up to
64 workers; there has to be an order of the calls in which the model, call after call, gives each its answer
and leaves the rows.

At the first difference the seed and a short script that shows it are printed, with status 1: no step of it
can be left out, and others were looked through for a shorter one. Else: how many steps of which kind
were made, and how many calls ended how.
"""
import argparse
import collections
import pathlib
import random
import subprocess
import sys
import tempfile
import time

from built import PROCD
from plain_log import alone, audit, read_log, replayed, serial
from plain_model import PROCEDURES, TEXTS, ZEROS, World, fits, put_at, record_text, said_text, value_text

AMPLE = [(20, 5000)] * 2  # rows and operations of the data components, where they don't matter
HUNTED = 300  # how many further scripts are looked through for a shorter one
AGAIN = 10  # how often a script of calls is run before it is said to show nothing
WORDS = {"admit": 3, "ask": 2, "undo": 2, "end": 2, "resend": 3, "perform": 5, "take": 5}
WORDS |= {"checkpoint": 1, "restart": 1, "tell": 2, "redo": 2, "forge": 1, "crash": 1, "cut": 1}
FORGED, RESTARTED, CRASHED = [0, 0, 1, 5], [0, 1, 3], [0, 1, 4]  # weights of these words, of which a script has one
CUT = [0, 1, 1, 4]  # the same of cuts; at rest there is one now and then besides
FAILURES = [0, 3, 3, 1, 3, 4]  # of the undos of a write in a script with forged replies, how many are to fail


class Procd:
    """The program, the file that it reads scripts from, and whether it audits."""

    def __init__(self, path, file, audit=False):
        self.path, self.file, self.audit = path, file, ["--audit"] if audit else []

    def __call__(self, words, text):
        """Its lines, its status and what it said on standard error."""
        self.file.write_text(text)
        ran = subprocess.run([self.path, *words, *self.audit, self.file], capture_output=True, text=True)
        return ran.stdout.splitlines(), ran.returncode, ran.stderr


def script_of(dcs, names, lines):
    return "".join([f"dc {rows} {ops}\n" for rows, ops in dcs] + [TEXTS[name] for name in names] + lines)


def first_difference(printed, wanted):
    """The place of the first line that differs, and how, or None."""
    for at in range(max(len(printed), len(wanted))):
        one, other = [lines[at] if at < len(lines) else "(no line)" for lines in (printed, wanted)]
        if one != other:
            return at, f"line {at}: printed `{one}`, wanted `{other}`"
    return None


# ---- steps of a world


def line_of(step):
    word, *args = step
    if word == "forge":
        return f"forge {args[0]} {said_text(args[1])}\n"
    return " ".join(map(str, step)) + "\n"


def some_forgery(draw, world):
    """A reply that nobody sent: mostly to a number that is open, and often one that fits."""
    value = put_at(ZEROS, 0, draw.randrange(4))
    said = [("value", value), ("done", None), ("done", value)]
    said += [(word,) for word in ("absent", "duplicate", "missing", "noroom", "old")]
    if not world.unanswered or draw.random() < 0.3:
        return "forge", draw.randrange(world.last + 2), draw.choice(said)
    n = draw.choice(list(world.unanswered))
    if draw.random() < 0.6:
        said = [it for it in said if fits(world.unanswered[n][1], it)]
    return "forge", n, draw.choice(said)


def some_call(draw, keys):
    name = draw.choice(list(PROCEDURES))
    return name, *(draw.randrange(keys) for _ in range(PROCEDURES[name].args))


def some_admission(draw):
    name, *args = some_call(draw, 5)
    if draw.random() < 0.03:
        args = [draw.randrange(5) for _ in range(draw.randrange(9))]
    return "admit", name, *args


def next_step(draw, world, weights):
    """A step with which some open transaction goes on, or None."""
    going = [serial for serial, txn in world.txns.items() if txn.open or not txn.is_stuck()]
    if not going:
        return None
    serial = draw.choice(going)
    txn = world.txns[serial]
    if txn.open:
        return waiting_step(draw, world, serial, weights)
    if txn.outcome:
        return ("undo" if txn.to_undo() else "end"), serial
    return "ask", serial


def waiting_step(draw, world, serial, weights):
    """A step with which a transaction comes nearer to the answer that it waits for."""
    n = world.txns[serial].open
    _, op, is_undo = world.unanswered[n]
    site = world.sites[op[1][0]]
    if site.is_down():
        return redoing_step(draw, world, op[1][0])
    if is_undo and weights["forge"] and site.incarnation == 0 and is_to_fail(world.txns[serial], serial):
        return failing_step(world, n, ("duplicate",) if op[0] == "insert" else ("missing",))
    heard = [i for i, (other, by, said) in enumerate(world.replies) if (other, by) == (n, site.incarnation)]
    heard = [i for i in heard if fits(op, world.replies[i].said)]
    return ("take", draw.choice(heard)) if heard else performing_step(draw, world, n, op[1][0], ("resend", serial))


def is_to_fail(txn, serial):
    """Whether this undo of the transaction's last write is to fail."""
    return txn.tries <= FAILURES[(serial + len(txn.writes)) % len(FAILURES)]


def failing_step(world, n, said):
    """A step with which an undo comes nearer to being answered so, by a reply that nobody sent."""
    forged = [i for i, reply in enumerate(world.replies) if reply == (n, 0, said)]
    return ("take", forged[0]) if forged else ("forge", n, said)


def redoing_step(draw, world, d):
    """A step with which a data component that is down comes nearer to being up."""
    n = world.under_redo(d)
    if n is None:
        return "redo", d
    wanted = (n, world.sites[d].incarnation, world.done[n][1])
    heard = [i for i, reply in enumerate(world.replies) if reply == wanted]
    return ("take", draw.choice(heard)) if heard else performing_step(draw, world, n, d, ("redo", d))


def performing_step(draw, world, n, d, send):
    """A step with which this number comes nearer to being performed; `send` makes a wire for it."""
    known = world.sites[d].incarnation
    if known != world.dcs[d].incarnation:
        return "tell", max(i for i, news in enumerate(world.news) if news.dc == d)
    here = [i for i, wire in enumerate(world.copies) if (wire.number, wire.incarnation) == (n, known)]
    return ("perform", draw.choice(here)) if here else send


def any_step(draw, world, weights):
    """Any step: mostly late, repeated or out of place."""
    word = draw.choices(list(weights), weights.values())[0]
    if word == "admit":
        return some_admission(draw)
    if word == "forge":
        return some_forgery(draw, world)
    places = {"perform": world.copies, "take": world.replies, "tell": world.news}
    places |= dict.fromkeys(("restart", "checkpoint", "redo"), world.dcs)
    if word in places:
        return word, draw.randrange(len(places[word]) + 1)
    if word == "crash":
        return word, some_beginning(draw, len(world.log))
    if word == "cut":
        return (word,)
    return word, draw.choice(list(world.txns) + [0, world.serials + 1])


def some_beginning(draw, events):
    """How many events a crash is to find written: mostly nearly all, and now and then more than there are."""
    return max(events - draw.randrange(-1, 8), 0) if draw.random() < 0.9 else draw.randrange(events + 2)


def resting_step(draw, world, weights):
    """A step with which the world comes nearer to being at rest, and at rest a cut."""
    for d, why in world.unheard():
        if why == "down":
            return redoing_step(draw, world, d)
        if draw.random() < 0.9:
            return "tell", max(i for i, news in enumerate(world.news) if news.dc == d)
    return next_step(draw, world, weights) or ("cut",)


def some_step(draw, world, weights):
    if draw.random() < 0.6:
        return next_step(draw, world, weights) or some_admission(draw)
    return any_step(draw, world, weights) if draw.random() < 0.7 else some_admission(draw)


# What a step refers to in its first word: a transaction, a wire, a reply, a number or news.
REFERS = dict.fromkeys(("ask", "undo", "end", "resend"), "txn")
REFERS |= {"perform": "wire", "take": "reply", "forge": "number", "tell": "news"}


class Steps:
    """A script of a world."""

    def __init__(self, dcs, names, steps):
        self.dcs, self.names, self.parts = dcs, names, steps

    @staticmethod
    def drawn(draw, count):
        dcs = [(draw.choice([1, 2, 3, 20]), draw.choice([50] + 7 * [5000])) for _ in range(2)]
        weights = {**WORDS, "forge": draw.choice(FORGED), "restart": draw.choice(RESTARTED)}
        weights["crash"], weights["cut"] = draw.choice(CRASHED), draw.choice(CUT)
        world, steps, is_resting = World(dcs, list(PROCEDURES)), [], False
        for _ in range(count):
            is_resting = is_resting or bool(weights["cut"]) and draw.random() < 0.02
            choose = resting_step if is_resting and draw.random() < 0.9 else some_step
            steps.append(choose(draw, world, weights))
            world.step(*steps[-1])
            is_resting = is_resting and steps[-1] != ("cut",)
        return Steps(dcs, list(PROCEDURES), steps)

    def text(self):
        return script_of(self.dcs, self.names, [line_of(step) for step in self.parts])

    def words(self):
        return ["world", "--log"]

    def told(self):
        """What the model prints of each step, and the world behind them."""
        world = World(self.dcs, self.names)
        return [world.step(*step) for step in self.parts], world

    def difference(self, procd):
        """The place of the first line that differs from the model's, and how, or None."""
        told, world = self.told()
        printed, status, said = procd(self.words(), self.text())
        wanted = told + world.rows() + self.audited(procd, world) + [data.hex() for data in world.log]
        differs = first_difference(printed, wanted)
        if differs:
            return differs if not said else (differs[0], f"{differs[1]} ({said.strip()})")
        illegal = int(any(line.startswith(("illegal", "refused")) for line in wanted))
        if status != illegal:
            return len(printed), f"status {status}, wanted {illegal}"
        why = replayed(read_log(world.log), self.names, world.notes) or self.unexplained(world)
        return why and (len(printed), why)

    def unexplained(self, world):
        """Why the calls one after another don't explain this world, or None; forged replies are no lies of theirs."""
        if any(step[0] == "forge" for step in self.parts):
            return None
        lost = dict(world.unheard())
        rows = {d: dc.rows for d, dc in enumerate(world.dcs) if d not in lost}
        return serial(read_log(world.log), self.names, rows, world.base())

    def audited(self, procd, world):
        """The line of the audit, where it is asked for: a data component that is down or not known isn't audited."""
        if not procd.audit:
            return []
        skipped = [f"audit skipped dc {d} {why}" for d, why in world.unheard()]
        return skipped[:1] or [audit(read_log(world.log), self.names, world.dcs)]

    def made(self):
        for step, line in zip(self.parts, self.told()[0]):
            words = line.split()
            yield " ".join([step[0], *words[: 2 if words[0] == "illegal" else 1]])

    def heads(self):
        """The places of admissions, the last first: without one all that comes of it goes."""
        return [at for at, step in reversed(list(enumerate(self.parts))) if step[0] == "admit"]

    def without(self, first, count):
        """Scripts without these steps, the likelier first."""
        rest = self.parts[:first] + self.parts[first + count :]
        yield Steps(self.dcs, self.names, self.renumbered(first, count))
        yield Steps(self.dcs, self.names, rest)

    def simpler(self):
        """Scripts whose steps stay, with less before them, the likelier first."""
        used = {step[1] for step in self.parts if step[0] == "admit"}
        if len(used) < len(self.names):
            yield Steps(self.dcs, [name for name in self.names if name in used], self.parts)
        if self.dcs != AMPLE:
            yield Steps(AMPLE, self.names, self.parts)

    def renumbered(self, first, count):
        """The steps without these and those that refer to what these made; the others still refer to what they did."""
        kept, gone, made = [], collections.defaultdict(set), collections.Counter()
        for at, (step, line) in enumerate(zip(self.parts, self.told()[0])):
            kind = REFERS.get(step[0])
            is_left_out = first <= at < first + count or kind and step[1] in gone[kind]
            if not is_left_out:
                fewer = sum(other < step[1] for other in gone[kind]) if kind else 0
                kept.append((step[0], step[1] - fewer, *step[2:]) if fewer else step)
            for what, which in new_things(step, line, made):
                made[what] += 1
                if is_left_out:
                    gone[what].add(which)
        return kept


def new_things(step, line, made):
    """What a step made, by its printed line: a transaction, a wire, a reply, a number, or news, which are counted."""
    words = line.split()
    if words[0] == "admitted":
        yield "txn", int(words[1])
    if words[0] in ("sent", "redo"):
        yield "wire", int(words[1])
    if words[0] in ("sent", "held") and step[0] != "resend":
        yield "number", int(words[words.index("number") + 1])
    if words[0] in ("reply", "forged"):
        yield "reply", int(words[1])
    if words[0] == "restarted":
        yield "news", made["news"]


# ---- calls by workers

KEYS = 10  # keys of a group; calls of different groups have no record in common


def some_group(draw, group, most):
    """Calls on a few keys of this group's own. `churn` has a record of the first group beside its own."""
    keys = draw.randrange(1, 5)
    for _ in range(most):
        name, *args = some_call(draw, keys)
        if name != "churn" or group == 0:
            records = 2 if name == "move" else 1
            yield name, *(KEYS * group + arg for arg in args[:records]), *args[records:]


class Calls:
    """A script of calls, the first ones by one worker."""

    def __init__(self, names, first, calls, workers):
        self.names, self.first, self.parts, self.workers, self.answers = names, first, calls, workers, []

    @staticmethod
    def drawn(draw, count):
        groups = range(count // 10)
        first = [call for group in groups for call in some_group(draw, group, draw.randrange(3))]
        calls = [call for group in groups for call in some_group(draw, group, draw.randrange(2, 7))]
        return Calls(list(PROCEDURES), first, calls, draw.choice([2, 3, 4, 8, 64]))

    def text(self):
        lines = [" ".join(map(str, ("first", *call))) + "\n" for call in self.first]
        lines += [" ".join(map(str, ("call", *call))) + "\n" for call in self.parts]
        return script_of([(1000, 50000)] * 2, self.names, lines)

    def words(self):
        return ["run", "--workers", str(self.workers)]

    def run(self, procd):
        """What each call was answered, and the rows; None where the lines aren't those of such calls."""
        printed, status, _ = procd(self.words(), self.text())
        places = [f"first {i} " for i in range(len(self.first))] + [f"call {i} " for i in range(len(self.parts))]
        answers = [line[len(place) :] for line, place in zip(printed, places) if line.startswith(place)]
        return (answers, printed[len(places) :]) if status == 0 and len(answers) == len(places) else None

    def groups(self, answers):
        """For each group its first calls and its calls, each with its answer."""
        found = collections.defaultdict(lambda: ([], []))
        for place, (call, answer) in enumerate(zip(self.first + self.parts, answers)):
            found[call[1] // KEYS][place >= len(self.first)].append((call, answer))
        return found

    def difference(self, procd):
        """The place and the group of calls that no order explains, or None."""
        ran = self.run(procd)
        if ran is None:
            return 0, "the lines aren't answers of these calls"
        answers, rows = ran
        if procd.audit and rows[-1:] != [f"audit ok ended {len(answers)} open 0"]:
            return 0, f"the audit says {rows[-1:]}"
        rows = rows[: len(rows) - len(procd.audit)]
        self.answers = answers[len(self.first) :]
        for group, (first, calls) in self.groups(answers).items():
            here = [row for row in rows if int(row.split()[1].split("/")[2]) // KEYS == group]
            if here not in orders(first, calls):
                said = [f"{' '.join(map(str, call))}: {answer}" for call, answer in first + calls]
                return 0, f"no order of {said} gives these answers and {here}"
        return None

    def made(self):
        for answer in self.answers:
            yield f"call {answer.split()[0]} by {self.workers} workers"

    def heads(self):
        return []

    def without(self, first, count):
        yield Calls(self.names, self.first, self.parts[:first] + self.parts[first + count :], self.workers)

    def simpler(self):
        for at in range(len(self.first)):
            yield Calls(self.names, self.first[:at] + self.first[at + 1 :], self.parts, self.workers)
        used = {call[0] for call in self.first + self.parts}
        if len(used) < len(self.names):
            yield Calls([name for name in self.names if name in used], self.first, self.parts, self.workers)


def orders(first, calls):
    """The lines of the rows that are left by some order of the calls in which each gets its answer."""
    ends = {(frozenset(), frozenset())}
    for call in first:
        ends = {(frozenset(), rows) for _, rows in advanced(ends, 0, *call)}
    for _ in calls:
        ends = set().union(*(advanced(ends, at, *call) for at, call in enumerate(calls)))
    return [[f"row {record_text(r)} {value_text(value)}" for r, value in sorted(rows)] for _, rows in ends]


def advanced(ends, at, call, answer):
    """The ends to which this call comes next, where it is given this answer."""
    further = set()
    for done, rows in ends:
        if at not in done:
            said, left = alone(dict(rows), call[0], call[1:])
            if said == answer:
                further.add((done | {at}, frozenset(left.items())))
    return further


# ---- shortest scripts


def thinned(case, places, size, shows):
    """The case without those runs of so many parts, at these places, that the difference doesn't need."""
    for at in places:
        for fewer in case.without(at, size):
            if len(fewer.parts) < len(case.parts) and shows(fewer):
                case = fewer
                break
    return case


def shortest(case, shows):
    """A case that still shows a difference, and of which no part can be left out."""
    place, size = shows(case)[0], len(case.parts)
    for cut in case.without(place + 1, size):
        case = cut if shows(cut) else case
    case = thinned(case, case.heads(), 1, shows)
    while size:
        count = len(case.parts)
        case = thinned(case, [max(at, 0) for at in range(count - size, -size, -size)], size, shows)
        size = size // 2 if len(case.parts) == count else size
    simpler = True
    while simpler:
        simpler = next((it for it in case.simpler() if shows(it)), None)
        case = simpler or case
    return case


def shows_again(procd):
    """A test of cases: what workers do differs from run to run."""

    def shows(case):
        tries = AGAIN if isinstance(case, Calls) else 1
        return next(filter(None, (case.difference(procd) for _ in range(tries))), None)

    return shows


def hunted(seed, case, shows):
    """The shortest case of this one and of others, no longer than it, that are drawn for it."""
    for other in range(HUNTED if isinstance(case, Steps) else 0):
        drawn = Steps.drawn(random.Random(f"{seed} {other}"), len(case.parts))
        if shows(drawn):
            case = min(case, shortest(drawn, shows), key=lambda it: len(it.parts))
    return case


def tell(seed, place, case, why, procd):
    shows = shows_again(procd)
    print(f"seed {seed}, script {place}: {why}", flush=True)
    short = hunted(seed, shortest(case, shows), shows) if shows(case) else case
    command = " ".join(short.words() + procd.audit)
    _, why = shows(short) or (0, f"it didn't come again in {AGAIN} runs")
    print(f"a short script of {len(short.parts)} steps, for `procd {command}`: {why}")
    print(short.text(), end="")


def explored(procd, options, made):
    """Counts what is made from each seed until the time or the seeds are over; tells of the first difference, if any."""
    until = time.monotonic() + options.seconds
    for seed in range(options.seed, options.seed + options.seeds):
        if time.monotonic() > until:
            break
        draw = random.Random(seed)
        for place, kind in enumerate((Steps, Calls, Calls)):
            case = kind.drawn(draw, options.steps)
            differs = case.difference(procd)
            if differs:
                tell(seed, place, case, differs[1], procd)
                return False
            made.update(case.made())
            made[kind] += 1
    return True


def main():
    parser = argparse.ArgumentParser(description=__doc__, formatter_class=argparse.RawDescriptionHelpFormatter)
    parser.add_argument("--procd", default=PROCD, help="the program (that of crates/procd/out)")
    parser.add_argument("--audit", action="store_true", help="let the program audit each run")
    parser.add_argument("--seconds", type=float, default=60, help="how long to go on (60)")
    parser.add_argument("--seed", type=int, default=1, help="the first seed (1); then the next")
    parser.add_argument("--seeds", type=int, default=1_000_000, help="how many seeds at most (1,000,000)")
    parser.add_argument("--steps", type=int, default=500, help="steps a script (500)")
    options, made = parser.parse_args(), collections.Counter()
    if not pathlib.Path(options.procd).exists():
        parser.error(f"there is no {options.procd}: ./procd builds it")
    with tempfile.TemporaryDirectory() as folder:
        if not explored(Procd(options.procd, pathlib.Path(folder) / "script.txt", options.audit), options, made):
            sys.exit(1)
    worlds, runs = made.pop(Steps, 0), made.pop(Calls, 0)
    calls = sum(count for word, count in made.items() if word.startswith("call "))
    print(f"explored: {worlds} scripts of {sum(made.values()) - calls} steps, {runs} of {calls} calls, no difference")
    for word, count in made.most_common():
        print(f"{count:>10} {word}")


if __name__ == "__main__":
    main()
