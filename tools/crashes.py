#!/usr/bin/env python3
"""Kills `procd run --log` at random moments, and looks whether anything that it told is lost.

usage: tools/crashes.py [--kills N] [--moves N] [--workers N] [--seed N] [--forget | --control] [--procd PATH]

A log's file is filled by one run that puts a hundred records. Then `procd run --log FILE --tell` is started on calls
that move amounts between them, one of four of which aborts behind both writes, so that these are undone; each has its
own number as a further argument, so that it is known in the log. It is killed at a random moment, from right at its
start, while it comes back, to its end, and is started again on the same file, by other workers, until that is too long
and the filled one takes its place. Behind each kill a copy of the file is looked at:

- each call that was told, by this run or an earlier one, has the End in `procd log` that it has to have; none is there
  twice;
- `procd log --audit` audits the file beside data components that are redone from it: it says ok, with as many ended and
  open transactions as that log has;
- a run of no calls comes back with as many events and open transactions, drops the end that isn't whole, ends all that
  was open as it has to end, and is left with the rows that the committed calls come to, so that their sum is what it
  was.

Of the log that a file ends with the plain model, which shares no code with the program, says that each event is one
that may come there, and that the calls one after another, in the order of their Ends, end the same.

One of ten kills meets the run that fills a file: another one then puts what that hadn't put. Before the kills a run is
refused while another one has the file, and runs meet a full disk (files may not grow any further): each says so, and
when there is room again goes on with all that was told.

--forget: the runs that are killed stand behind forgetful.c: what they have written and not synced is lost with them,
or some part of it is, torn anywhere. --control: syncs are lies there, so this tool has to find that calls are lost.
The status is 1 where something was wrong; the file is then kept.
"""
import argparse
import collections
import os
import pathlib
import random
import re
import shutil
import signal
import struct
import subprocess
import sys
import tempfile
import time

from built import PROCD
from hostile_faults import limited_to
from plain_log import ADMIT, Legal, read_log, replayed, serial
from plain_model import PROCEDURES, move
from procedures import BACK, MOVE, PUT
from trying import Program, Ran, preloaded

RECORDS, AMOUNT, MOST_AMOUNT = 100, 1_000_000, 100
WORKERS = (1, 4, 16, 64)
LOGGED = 700  # bytes of a log are less than a move takes
RUNS = 3  # so many whole runs a file may have, about, before the filled one takes its place
SCRIPT = f"dc {RECORDS} 1000000\n" + PUT + (MOVE + BACK).replace("move 3", "move 4").replace("back 3", "back 4")
CALL = re.compile(r"^\d+ admit (\d+) procedure (\d+) ([\d ]+)$", re.MULTILINE)
END = re.compile(r"^\d+ end (\d+) (.*)$", re.MULTILINE)
TOLD = re.compile(r"^told (\d+) (.+)$", re.MULTILINE)
UNDO = re.compile(r"^\d+ undo (\d+) ", re.MULTILINE)
NAMES = ["put", "move", "back"]
ENDS = ["committed", "committed", "aborted 5"]  # how a call of each ends
ENDED = ("committed", "aborted", "noroom")  # answers that name an End
BACKS = 4  # one of so many calls is of the last
HEAD, NOTE, EVENT = 24, 32, 96  # bytes
HEADER = b"mazzulpe" + struct.pack("<3Q", 1, 1, len(NAMES))  # what the first payload begins with
MOMENTS = ["while they began a file", "before a call was told", "while calls ran", "which ended before"]

# What `procd log` says of a file: the calls of its transactions that move, by transaction; which of these have ended;
# of those that are open how each has to end, and how many have begun to undo.
Kept = collections.namedtuple("Kept", "events moves ended open undoing unfinished")
Move = collections.namedtuple("Move", "source target amount number name")


def back(args):
    """What the model does for a move that aborts behind both writes."""
    return (yield from move(args)) or 5


PROCEDURES["back"] = PROCEDURES["move"]._replace(run=back)


class Wrong(Exception):
    """What was found."""


def wanted(what, found, asked):
    """Sees that this was found."""
    if found != asked:
        raise Wrong(f"{what}: {found!r:.500}, not {asked!r:.500}")


def listed(program, path):
    """What stands in the log."""
    ran = program.run(["log", path])
    wanted("log", (ran.status, ran.err), (0, b""))
    text, unfinished = ran.out.decode(), 0
    if cut := re.search(r"^unfinished (\d+) bytes\n\Z", text, re.MULTILINE):
        text, unfinished = text[: cut.start()], int(cut[1])
    calls, ends = CALL.findall(text), dict(END.findall(text))
    names = {txn: NAMES[int(procedure)] for txn, procedure, _ in calls}
    moves = {txn: Move(*map(int, words.split()), names[txn]) for txn, _, words in calls if names[txn] != "put"}
    wanted("numbers of calls", len({move.number for move in moves.values()}), len(moves))
    due = {txn: ENDS[NAMES.index(name)] for txn, name in names.items()}
    wanted("Ends", ends, {txn: due[txn] for txn in ends})
    opened = {int(txn): how for txn, how in due.items() if txn not in ends}
    undoing = {int(txn) for txn in UNDO.findall(text)} & opened.keys()
    return Kept(text.count("\n"), moves, {txn for txn in moves if txn in ends}, opened, len(undoing), unfinished)


def events_of(data):
    """The events of whole frames, by what the formats' page says; of moves without their numbers."""
    at, payloads = 0, []
    while at < len(data):
        number, length, _ = struct.unpack_from("<3Q", data, at)
        payloads.append(data[at + HEAD : at + HEAD + length])
        wanted("the frame's number and length", (number, length), (len(payloads) - 1, len(payloads[-1])))
        at += HEAD + length
    wanted("the header", payloads[0][: len(HEADER)], HEADER)
    begins = [8 + NOTE * int.from_bytes(payload[:8], "little") for payload in payloads]
    rows = b"".join(payload[begin:] for begin, payload in list(zip(begins, payloads))[1:])
    log = read_log(rows[i : i + EVENT] for i in range(0, len(rows), EVENT))
    are_moves = [event.kind == ADMIT and NAMES[event.word] != "put" for event in log]
    return [e._replace(sub=e.sub - 1, args=e.args[:-1]) if is_move else e for e, is_move in zip(log, are_moves)]


def rows_behind(moves):
    """The lines of all rows behind these moves, of which those that abort leave nothing."""
    rows = [AMOUNT] * RECORDS
    for move in (move for move in moves if move.name == "move"):
        rows[move.source] -= move.amount
        rows[move.target] += move.amount
    return [f"row 0/0/{key} {value % 2**64}" for key, value in enumerate(rows)]


class Runs:
    """Runs on one file, and what they told."""

    def __init__(self, program, folder, options):
        self.program, self.folder, self.options = program, folder, options
        self.draw, self.tally = random.Random(options.seed), collections.Counter()
        self.path, self.filled, self.copy = [folder / name for name in ("calls.log", "filled.log", "copy.log")]
        self.script, self.out, self.err = [folder / name for name in ("script.txt", "out.txt", "err.txt")]
        self.none = program.file(SCRIPT.encode())
        puts = "".join(f"first put {key} {AMOUNT}\n" for key in range(RECORDS))
        self.fills = ["run", "--log", str(self.path), program.file((SCRIPT + puts).encode())]
        self.told, self.first, self.answers = set(), 0, []
        self.back, self.takes = 0.0, 0.0  # seconds that a run takes to come back, and then for its calls

    def fill(self):
        """Puts the records, but for those that an earlier run has put into the file; answers how many it put."""
        ran = self.program.run(self.fills)
        lines = [line for line in ran.out.decode().splitlines() if line.startswith(("first ", "row "))]
        put = lines[:RECORDS].count
        answers = [f"first {i} {'committed' if put(f'first {i} committed') else 'aborted 1'}" for i in range(RECORDS)]
        wanted("filling", (ran.status, ran.err, lines), (0, b"", [*answers, *rows_behind([])]))
        return sum(answer.endswith("committed") for answer in answers)

    def fill_anew(self):
        """Fills a file that isn't there, and keeps it."""
        self.path.unlink(missing_ok=True)
        wanted("records that were put", self.fill(), RECORDS)
        shutil.copy(self.path, self.filled)

    def kill_filling(self):
        """Kills a run that fills a file which isn't there; another one puts what that hadn't put."""
        self.path.unlink(missing_ok=True)
        env = {**os.environ, **self.faults()}
        nobody = {"stdin": subprocess.DEVNULL, "stdout": subprocess.DEVNULL, "stderr": subprocess.DEVNULL}
        process = subprocess.Popen([self.program.path, *self.fills], env=env, **nobody)
        time.sleep(self.back * self.draw.random())
        process.kill()
        process.wait()
        self.tally[MOMENTS[0]] += 1
        self.fill()

    def begin(self):
        """From the filled file on, of which nothing was told."""
        shutil.copy(self.filled, self.path)
        self.told = set()

    def faults(self):
        """What stands before the C library of the next run."""
        if not (self.options.forget or self.options.control):
            return {}
        seed, library = str(self.draw.randrange(1, 2**31)), preloaded("forgetful", self.folder)
        how = {"FORGETFUL_LIES": "1"} if self.options.control else {"FORGETFUL_SEED": seed}
        return {"LD_PRELOAD": str(library), "FORGETFUL_FILE": str(self.path), **how}

    def words(self):
        """The words of a run of further calls, whose numbers are new, and what they are to be answered."""
        self.first += self.options.moves
        lines, self.answers = [SCRIPT], []
        for number in range(self.first, self.first + self.options.moves):
            source, target = self.draw.sample(range(RECORDS), 2)
            name = NAMES[1 if self.draw.randrange(BACKS) else 2]
            lines.append(f"call {name} {source} {target} {self.draw.randint(1, MOST_AMOUNT)} {number}\n")
            self.answers.append(f"call {number - self.first} {ENDS[NAMES.index(name)]}")
        self.script.write_text("".join(lines))
        workers = self.options.workers or self.draw.choice(WORKERS)
        words = ["run", "--log", self.path, "--tell", "--workers", workers, self.script]
        return [self.program.path, *map(str, words)]

    def start(self):
        """Starts a run of further calls."""
        with open(self.out, "wb") as out, open(self.err, "wb") as err:
            env = {**os.environ, **self.faults()}
            return subprocess.Popen(self.words(), stdin=subprocess.DEVNULL, stdout=out, stderr=err, env=env)

    def take(self, told):
        """Takes in the whole lines of what a run told; answers how many calls ended by it, and what else it said."""
        lines = told[: told.rfind(b"\n") + 1].decode().splitlines()
        said = [line for line in lines if not line.startswith("told ")]
        answers = {int(call): answer for call, answer in TOLD.findall("\n".join(lines))}
        wanted("calls told", len(answers), len(lines) - len(said))
        ended = {call: answer for call, answer in answers.items() if answer.startswith(ENDED)}
        as_printed = [f"call {call} {answer}" for call, answer in ended.items()]
        wanted("answers told", as_printed, [self.answers[call] for call in ended])
        self.told |= {self.first + call for call in ended}
        self.tally["told"] += len(ended)
        return len(ended), said

    def ended(self, status, out, told):
        """Sees that a run that wasn't killed has told each call, and printed that it ended as it has to."""
        wanted("status, told and else said", (status, *self.take(told)), (0, self.options.moves, []))
        wanted("answers", [line for line in out.decode().splitlines() if line.startswith("call ")], self.answers)

    def whole(self):
        """A run to its end."""
        began = time.monotonic()
        status = self.start().wait()
        self.took(time.monotonic() - began, self.options.moves)
        self.ended(status, self.out.read_bytes(), self.err.read_bytes())

    def took(self, seconds, told):
        """What a run of so many seconds that told so many calls says of how long its calls take."""
        if told:
            self.takes = max(0.0, seconds - self.back) * self.options.moves / told

    def kill(self):
        """A run that is killed at a random moment, one of five while it comes back; how many calls it told."""
        is_early, moment = self.draw.randrange(5) == 0, self.draw.random()
        process, began = self.start(), time.monotonic()
        try:
            process.wait(self.back * moment if is_early else self.back + 1.1 * self.takes * moment)
        except subprocess.TimeoutExpired:
            process.kill()
        status, seconds = process.wait(), time.monotonic() - began
        if status != -signal.SIGKILL:
            self.took(seconds, self.options.moves)
            self.ended(status, self.out.read_bytes(), self.err.read_bytes())
            self.tally[MOMENTS[3]] += 1
            return self.options.moves
        told, said = self.take(self.err.read_bytes())
        self.took(seconds, told)
        wanted("it said", said, [])
        if told < self.options.moves:
            wanted("printed before its end", self.out.read_bytes(), b"")
        self.tally[MOMENTS[2] if told else MOMENTS[1]] += 1
        return told

    def lost(self, kept):
        """The calls that were told and haven't ended in the log."""
        return self.told - {kept.moves[txn].number for txn in kept.ended}

    def look(self):
        """Looks at a copy of the file: at its log, at the audit, and at what a run of no calls comes back with."""
        shutil.copy(self.path, self.copy)
        kept = listed(self.program, self.copy)
        wanted("calls that were told and are lost", sorted(self.lost(kept)), [])
        self.audit(len(kept.ended) + RECORDS, len(kept.open), kept.unfinished)
        self.come_back(kept)
        self.audit(len(kept.moves) + RECORDS, 0)

    def replay(self):
        """Goes through the log of the copy that was looked at, by the plain model."""
        log = events_of(self.copy.read_bytes())
        wanted("events", len(log), listed(self.program, self.copy).events)
        wanted("the first event that may not come there", Legal(NAMES).first_illegal(log), None)
        wanted("the replay", replayed(log, NAMES) or serial(log, NAMES, {}), None)
        self.tally["events"] += len(log)

    def audit(self, ended, left, unfinished=0):
        """Sees that an audit of the copy is ok, and speaks of so many transactions, and of the end that isn't whole."""
        ran = self.program.run(["log", "--audit", self.copy, self.none])
        cut = f"unfinished {unfinished} bytes\n" if unfinished else ""
        wanted("audit", ran, Ran(0, f"audit ok ended {ended} open {left}\n{cut}".encode(), b""))

    def come_back(self, kept):
        """Sees that a run of no calls on the copy comes back with what is kept, and ends all of it."""
        began = time.monotonic()
        ran = self.program.run(["run", "--log", self.copy, self.none])
        self.back = time.monotonic() - began
        wanted("coming back", (ran.status, ran.err), (0, b""))
        found = re.sub(r"(?m)^(resumed \d+ .* at) \d+$", r"\1", ran.out.decode()).splitlines()
        lines = [f"recovered {kept.events} events, {len(kept.open)} open"]
        lines += [f"dropped {kept.unfinished} bytes to {self.copy}.dropped"] if kept.unfinished else []
        lines += [f"resumed {txn} {how} at" for txn, how in sorted(kept.open.items())]
        wanted("coming back", found, [*lines, *rows_behind(kept.moves.values())])
        self.tally["came back"] += len(kept.open)
        self.tally["undoing"] += kept.undoing
        self.tally["ends"] += kept.unfinished > 0


def second_process(runs):
    """A run is refused while another one has the file, which stands still for so long."""
    process = runs.start()
    while process.poll() is None and not runs.err.stat().st_size:
        time.sleep(0.001)
    process.send_signal(signal.SIGSTOP)
    ran = runs.program.run(["run", "--log", runs.path, runs.none])
    process.kill()
    wanted("the first process", (process.wait(), runs.out.read_bytes()), (-signal.SIGKILL, b""))
    wanted("a second process", ran, Ran(1, b"refused log Busy\n", b""))
    runs.take(runs.err.read_bytes())
    runs.look()


def no_room(runs, words, limit):
    """A run of these words whose files may be so long at most says that it can't write; nobody is told more."""
    env = {**os.environ, **runs.faults()}
    ran = subprocess.run(words, capture_output=True, env=env, preexec_fn=lambda: limited_to(limit))
    _, said = runs.take(ran.stderr)
    wanted("a full disk", (ran.returncode, ran.stdout, said), (3, b"", [f"cannot write {runs.path}: file too large"]))


def full_disk_at_the_beginning(runs, room):
    """A run that can't even begin its file says so; another does."""
    runs.path.unlink()
    no_room(runs, [runs.program.path, *runs.fills], room)
    runs.fill()


def full_disk(runs, room):
    """A run whose files may grow by so many bytes alone says that it can't write; another goes on."""
    runs.begin()
    no_room(runs, runs.words(), runs.path.stat().st_size + room)
    runs.look()
    runs.whole()
    runs.look()


def crashes(runs, options):
    """All of it; the line that says what was tried."""
    second_process(runs)
    beginnings, rooms = [0, 50], [0, runs.draw.randrange(LOGGED * options.moves)]
    for room in beginnings:
        full_disk_at_the_beginning(runs, room)
    for room in rooms:
        full_disk(runs, room)
    few = -(-options.kills // 10)
    for _ in range(few):
        runs.kill_filling()
    runs.begin()
    for _ in range(options.kills - few):
        if runs.path.stat().st_size > RUNS * LOGGED * options.moves:
            runs.replay()
            runs.begin()
        runs.kill()
        runs.look()
    runs.whole()
    runs.look()
    runs.replay()
    tally = runs.tally
    moments = ", ".join(f"{tally[name]:,} {name}" for name in MOMENTS)
    full = len(beginnings) + len(rooms)
    print(f"crashes: {options.kills:,} runs to be killed ({moments}), {full} with a full disk, one beside another;")
    return (
        f"{tally['told']:,} calls told, none lost; {tally['came back']:,} open transactions came back, "
        f"{tally['undoing']:,} of them from within an undo, {tally['ends']:,} ends were cut off; "
        f"{tally['events']:,} events by the plain model, no difference"
    )


def control(runs, options):
    """Runs whose syncs are lies: calls have to be lost. The line that says so."""
    killed, lost = 0, 0
    while killed < options.kills:
        runs.begin()
        if runs.kill():
            found = runs.lost(listed(runs.program, runs.path))
            killed, lost = killed + 1, lost + len(found)
            if not found:
                raise Wrong("syncs were lies, and nothing that was told is lost")
    return f"crashes: {killed:,} controls, whose syncs are lies: of {runs.tally['told']:,} calls told {lost:,} are lost"


def main():
    parser = argparse.ArgumentParser(description=__doc__, formatter_class=argparse.RawDescriptionHelpFormatter)
    parser.add_argument("--procd", default=PROCD, help="the program (that of crates/procd/out)")
    parser.add_argument("--kills", type=int, default=1000, help="how many runs are killed (1000)")
    parser.add_argument("--moves", type=int, default=10_000, help="calls a run (10000)")
    parser.add_argument("--workers", type=int, help="workers of each run (1, 4, 16 or 64, drawn for each)")
    parser.add_argument("--seed", type=int, default=1)
    how = parser.add_mutually_exclusive_group()
    how.add_argument("--forget", action="store_true", help="what isn't synced is lost")
    how.add_argument("--control", action="store_true", help="syncs are lies")
    options = parser.parse_args()
    if not pathlib.Path(options.procd).exists():
        parser.error(f"there is no {options.procd}: ./procd builds it")
    folder = pathlib.Path(tempfile.mkdtemp(prefix="crashes-"))
    runs = Runs(Program(options.procd, folder), folder, options)
    if (options.forget or options.control) and not preloaded("forgetful", folder):
        print("crashes: left out, since there is no C compiler")
        return
    began = time.monotonic()
    try:
        runs.fill_anew()
        runs.look()
        runs.whole()
        told = control(runs, options) if options.control else crashes(runs, options)
    except Wrong as wrong:
        sys.exit(f"crashes: seed {options.seed}, {dict(runs.tally)}: {wrong}; {folder} has the file")
    shutil.rmtree(folder)
    print(f"{told}, {time.monotonic() - began:.0f} s")


if __name__ == "__main__":
    main()
