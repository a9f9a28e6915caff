#!/usr/bin/env python3
"""Kills `procd run --partitions --log LOG` at random moments, and looks whether anything that it printed is lost.

usage: tools/partition_crashes.py [--kills N] [--calls N] [--seed N] [--procd PATH]

Four components, which no procedure joins, are filled by runs of inserts of new records, each killed at a random moment,
from right at its start to its end; the next run goes on from the files LOG.0 to LOG.3. Behind each kill copies of them are
looked at:

- `procd log --audit` says ok of each, with as many ended and open transactions as `procd log` lists;
- a run of no calls tells of each partition what its file has, in the order of their numbers, and prints the records whose
  inserts ended there or are ended now, each of its own component, and none that no call inserts;
- all records whose calls a run printed as committed are among them.

A run is refused, with no call begun, while another process has one of the files, or where one is another's. So it is where two
of the files are exchanged, whether their logs have calls or begin with records; of files without either it isn't.
The status is 1 where something was wrong; the files are then kept.
"""
import argparse
import collections
import fcntl
import pathlib
import random
import re
import shutil
import subprocess
import sys
import tempfile
import time

from built import PROCD
from procedures import PUT
from trying import Program, Ran

PARTS = 4
RECORDS = 40_000  # a component, before other files are begun
SCRIPT = PARTS * f"dc {RECORDS} {4 * RECORDS}\n" + "".join(
    PUT.replace("proc put", f"proc put{part}").replace("slot write 0", f"slot write {part}") for part in range(PARTS))
END = re.compile(r"^\d+ end (\d+) committed$", re.MULTILINE)
ADMIT = re.compile(r"^\d+ admit (\d+) procedure (\d+) (\d+) \d+$", re.MULTILINE)
ROW = re.compile(r"^row (\d)/0/(\d+) (\d+)$")
CALL = re.compile(r"^call (\d+) committed$", re.MULTILINE)


class Wrong(Exception):
    """What was found."""


def wanted(what, found, asked):
    """Sees that this was found."""
    if found != asked:
        raise Wrong(f"{what}: {found!r:.500}, not {asked!r:.500}")


def value_of(key):
    """The value that the call for this record inserts."""
    return 3 * key + 1


class Runs:
    """Runs over the files of all partitions."""

    def __init__(self, folder, options):
        self.folder, self.options = folder, options
        self.program = Program(options.procd, folder)
        self.draw, self.counts = random.Random(options.seed), collections.Counter()
        self.none = self.program.file(SCRIPT.encode())
        self.script, self.out = folder / "script.txt", folder / "out.txt"
        self.takes = 0.0  # seconds
        self.begin()

    def begin(self):
        """Other files."""
        self.log = self.folder / f"log{self.counts['files']}"
        self.counts["files"] += 1
        self.used, self.printed, self.calls = [0] * PARTS, set(), []

    def words(self, script, log=None):
        """The words of a run."""
        return ["run", "--partitions", "--log", log or self.log, "--workers", self.draw.choice([1, 4, 16]), script]

    def start(self):
        """Starts a run of further inserts."""
        self.calls = []
        for _ in range(self.options.calls):
            part = self.draw.randrange(PARTS)
            self.calls.append((part, self.used[part]))
            self.used[part] += 1
        self.script.write_text(SCRIPT + "".join(f"call put{part} {key} {value_of(key)}\n" for part, key in self.calls))
        with open(self.out, "wb") as out:
            words = map(str, [self.program.path, *self.words(self.script)])
            return subprocess.Popen(list(words), stdin=subprocess.DEVNULL, stdout=out)

    def kill(self):
        """A run that is killed at a random moment, if it hasn't ended then."""
        process, began = self.start(), time.monotonic()
        try:
            process.wait(1.2 * self.takes * self.draw.random())
        except subprocess.TimeoutExpired:
            process.kill()
        status = process.wait()
        out = self.out.read_bytes()
        told = {self.calls[int(call)] for call in CALL.findall(out[: out.rfind(b"\n") + 1].decode())}
        if status == 0:
            self.takes = time.monotonic() - began
            wanted("calls printed", len(told), self.options.calls)
        self.printed |= told
        self.counts["ended" if status == 0 else "killed"] += 1
        self.counts["printed"] += len(told)

    def copy(self, part):
        """A copy of a partition's file."""
        copied = self.folder / f"copy.{part}"
        copied.unlink(missing_ok=True)
        if pathlib.Path(f"{self.log}.{part}").exists():
            shutil.copy(f"{self.log}.{part}", copied)
        return copied

    def kept(self, part):
        """The records whose inserts a copy has, in its log, and the lines of a run that comes back from there."""
        copied = self.copy(part)
        if not copied.exists() or not copied.stat().st_size:
            return set(), []
        ran = self.program.run(["log", copied])
        text, unfinished = ran.out.decode(), 0
        if cut := re.search(r"^unfinished (\d+) bytes\n\Z", text, re.MULTILINE):
            text, unfinished = text[: cut.start()], int(cut[1])
        if text == "refused log Empty\n":
            return set(), []
        wanted("log", (ran.status, ran.err), (0, b""))
        calls, ends = ADMIT.findall(text), set(END.findall(text))
        wanted("procedures", {procedure for _, procedure, _ in calls} - {str(part)}, set())
        opened = len(calls) - len(ends)
        audit = f"audit ok ended {len(ends)} open {opened}\n" + (f"unfinished {unfinished} bytes\n" if unfinished else "")
        wanted("audit", self.program.run(["log", "--audit", copied, self.none]), Ran(0, audit.encode(), b""))
        events = text.count("\n")
        lines = [f"recovered {events} events, {opened} open"] if events else []
        lines += [f"dropped {unfinished} bytes to {copied}.dropped"] if unfinished else []
        lines += [f"resumed {txn} committed at" for txn, _, _ in calls if txn not in ends]
        self.counts["came back"] += opened
        self.counts["ends"] += unfinished > 0
        return {(part, int(key)) for _, _, key in calls}, [f"partition {part}", *lines] if lines else []

    def look(self):
        """Looks at copies of all files."""
        kept = [self.kept(part) for part in range(PARTS)]
        ran = self.program.run(self.words(self.none, self.folder / "copy"))
        wanted("coming back", (ran.status, ran.err), (0, b""))
        found = re.sub(r"(?m)^(resumed \d+ committed at) \d+$", r"\1", ran.out.decode()).splitlines()
        rows = [f"row {part}/0/{key} {value_of(key)}" for part, key in sorted(set().union(*(rows for rows, _ in kept)))]
        wanted("what comes back", found, [line for _, lines in kept for line in lines] + rows)
        there = {(int(row[1]), int(row[2])) for row in map(ROW.match, rows)}
        wanted("records that were printed and are lost", sorted(self.printed - there), [])

    def refusals(self):
        """A file that another process has, and another's, refuse the run: then none of the others changes."""
        def begun():
            return [pathlib.Path(f"{self.log}.{part}").read_bytes() for part in range(PARTS)]
        began = time.monotonic()
        wanted("a whole run", self.start().wait(), 0)
        self.takes = time.monotonic() - began
        before = begun()
        with open(f"{self.log}.2", "rb") as held:
            fcntl.flock(held, fcntl.LOCK_EX)
            ran = self.program.run(self.words(self.script))
        wanted("a file that another process has", ran, Ran(1, b"partition 2\nrefused log Busy\n", b""))
        wanted("files behind it", begun(), before)
        self.exchanged("logs")
        for part in (0, 2):
            words = ["run", "--log", f"{self.log}.{part}", "--checkpoint", self.none]
            wanted("a log that begins anew", self.program.run(words).status, 0)
        self.exchanged("logs that begin anew")
        before = begun()
        pathlib.Path(f"{self.log}.3").write_bytes(b"somebody else's")
        ran = self.program.run(self.words(self.script))
        wanted("another's file", ran, Ran(1, b"partition 3\nrefused log Other\n", b""))
        wanted("files behind that", begun()[:3], before[:3])
        self.begin()
        wanted("files without calls", self.program.run(self.words(self.none)), Ran(0, b"", b""))
        self.exchange()
        wanted("exchanged files without calls", self.program.run(self.words(self.none)), Ran(0, b"", b""))
        self.begin()

    def exchange(self):
        """Exchanges the files of partitions 0 and 2."""
        one, other, aside = (pathlib.Path(f"{self.log}.{part}") for part in (0, 2, "aside"))
        one.rename(aside)
        other.rename(one)
        aside.rename(other)

    def exchanged(self, what):
        """Files of two partitions that are exchanged refuse the run, and stay; exchanged back they don't."""
        def begun():
            return [pathlib.Path(f"{self.log}.{part}").read_bytes() for part in range(PARTS)]
        self.exchange()
        before = begun()
        ran = self.program.run(self.words(self.script))
        wanted(f"exchanged {what}", ran, Ran(1, b"partition 0\nrefused log Other partition 2\n", b""))
        wanted(f"{what} behind that", begun(), before)
        self.exchange()
        wanted(f"{what} that are not exchanged", self.program.run(self.words(self.none)).status, 0)


def main():
    parser = argparse.ArgumentParser(description=__doc__, formatter_class=argparse.RawDescriptionHelpFormatter)
    parser.add_argument("--procd", default=PROCD, help="the program (that of crates/procd/out)")
    parser.add_argument("--kills", type=int, default=300, help="how many runs (300)")
    parser.add_argument("--calls", type=int, default=4_000, help="calls a run (4000)")
    parser.add_argument("--seed", type=int, default=1)
    options = parser.parse_args()
    if not pathlib.Path(options.procd).exists():
        parser.error(f"there is no {options.procd}: ./procd builds it")
    folder = pathlib.Path(tempfile.mkdtemp(prefix="partition-crashes-"))
    runs, began = Runs(folder, options), time.monotonic()
    try:
        runs.refusals()
        for _ in range(options.kills):
            if max(runs.used) + options.calls > RECORDS:
                runs.begin()
            runs.kill()
            runs.look()
    except Wrong as wrong:
        sys.exit(f"partition crashes: seed {options.seed}, {dict(runs.counts)}: {wrong}; {folder} has the files")
    shutil.rmtree(folder)
    counts = runs.counts
    print(
        f"partition crashes: {counts['killed']:,} runs killed, {counts['ended']:,} ended before; {counts['printed']:,} calls "
        f"printed, none lost; {counts['came back']:,} open transactions came back, {counts['ends']:,} ends were cut off, "
        f"{time.monotonic() - began:.0f} s")


if __name__ == "__main__":
    main()
