#!/usr/bin/env python3
"""Kills `procd run --log LOG --checkpoint --stats` while LOG begins anew, and looks whether anything that it told is lost.

usage: tools/cut_crashes.py [--kills N] [--seed N] [--upgrade] [--room N] [--forget | --control] [--procd PATH]

Each run inserts new records, a call for each, and writes LOG anew before its first call and behind its last. It is killed
a moment after LOG.new is seen, or right after it is gone again, and the next run goes on from what is left. Behind each
kill a copy of LOG is come back from: each record whose call was told as committed is there, with its value, and none
that no call inserts; `procd log --audit` says ok. What is left in LOG.new is in nobody's way.

--upgrade: after each kill LOG goes on under other procedures. It is refused, and not changed, until a run of its own has
left a checkpoint alone; the run that upgrades it is killed too, and the rows stay as they were.
--room: the component has room for so many operations, fewer than a run makes, and LOG is written anew between calls too,
before there may be none left.

--forget: LOG.new stands behind forgetful.c: what is written to it and not synced is lost with the process, or some part of
it is, torn anywhere. --control: syncs of it are lies, so this tool has to find that calls are lost.
The status is 1 where something was wrong; the files are then kept.
"""
import argparse
import collections
import os
import pathlib
import random
import re
import shutil
import subprocess
import sys
import tempfile
import time

from built import PROCD
from procedures import PUT
from trying import preloaded

RECORDS = 40_000  # of a file, before another one is begun
CALLS = 200, 2_000  # so many a run makes
LINGER = 0.004  # seconds behind a sight of LOG.new, at most
ANY_SIZE, NO_SIZE = "0", "1000000000"  # bytes, above which LOG is written anew
REFUSED = "refused log Other digest: checkpoint it with its own procedures first\n"
TOLD = re.compile(r"^told (\d+) (\w+)", re.MULTILINE)
ROW = re.compile(r"^row 0/0/(\d+) (\d+)$", re.MULTILINE)


class Wrong(Exception):
    """What was found."""


def versions_of(room):
    """A script whose component has room for so many operations, and the same with other code that does the same."""
    script = f"dc {RECORDS + CALLS[1]} {room}\n" + PUT
    return script, script.replace("  mov r1, 0\n", "  mov r7, 1\n  mov r1, 0\n", 1)


def value_of(key):
    """The value that the call for this record inserts."""
    return 3 * key + 1


class Runs:
    """One file after another, each filled by runs that are killed."""

    def __init__(self, folder, options):
        self.folder, self.options = folder, options
        self.draw = random.Random(options.seed)
        self.counts = collections.Counter()
        self.files = 0
        self.versions = versions_of(options.room or 4 * RECORDS)
        self.begin()

    def begin(self):
        """Another file."""
        self.files += 1
        self.log = self.folder / f"log{self.files}"
        self.new = pathlib.Path(f"{self.log}.new")
        self.next, self.told, self.version = 1, set(), 0

    def environment(self):
        """What the run is started with."""
        if not (self.options.forget or self.options.control):
            return os.environ
        lies = {"FORGETFUL_LIES": "1"} if self.options.control else {"FORGETFUL_SEED": str(self.draw.randrange(1, 2**31))}
        library = preloaded("forgetful", self.folder)
        return {**os.environ, "LD_PRELOAD": str(library), "FORGETFUL_FILE": str(self.new), **lies}

    def run(self, *words):
        """A run to its end: what it prints."""
        ran = subprocess.run([self.options.procd, *words], capture_output=True, text=True, check=False)
        if ran.returncode:
            raise Wrong(f"{words}: status {ran.returncode}: {ran.stdout[:300]} {ran.stderr[:300]}")
        return ran.stdout

    def watch(self, process):
        """Waits for one of the moments at which the process is to be killed."""
        # the file before the first call, or the one behind the last; or one between calls
        seen = self.draw.randint(1, 9) if self.options.room else self.draw.choice((1, 1, 2))
        behind = self.draw.random() < 0.3
        is_there, sights = False, 0
        while process.poll() is None:
            there = self.new.exists()
            sights += there and not is_there
            if sights == seen and (there if not behind else is_there and not there):
                break
            is_there = there
        time.sleep(self.draw.random() * LINGER * self.draw.choice((0, 0.1, 1)))

    def kill(self):
        """One run, killed; answers the keys that it was to insert."""
        keys = range(self.next, self.next + self.draw.randint(*CALLS))
        script = self.folder / "calls.txt"
        script.write_text(self.versions[self.version] + "".join(f"call put {key} {value_of(key)}\n" for key in keys))
        self.next = keys.stop
        over = NO_SIZE if self.options.room else ANY_SIZE
        words = ["run", "--log", str(self.log), "--checkpoint", "--checkpoint-over", over, "--tell", "--stats", "--workers", self.draw.choice("148"), str(script)]
        before = self.log.stat().st_ino if self.log.exists() else None
        with open(self.folder / "err", "w+", encoding="utf-8") as err:
            with subprocess.Popen([self.options.procd, *words], stdout=subprocess.DEVNULL, stderr=err, env=self.environment()) as process:
                self.watch(process)
                process.kill()
                status = process.wait()
            err.seek(0)
            told = err.read()
        if status not in (-9, 0):
            raise Wrong(f"status {status}: {told[-500:]}")
        answers = TOLD.findall(told)
        if undone := [(call, how) for call, how in answers if how != "committed"]:
            raise Wrong(f"calls that aren't committed: {undone[:10]}")
        self.told |= {keys[int(call)] for call, _ in answers}
        self.counts["ended before" if status == 0 else "LOG.new there" if self.new.exists() else "no LOG.new"] += 1
        self.counts["LOG is another file" if self.log.exists() and self.log.stat().st_ino != before else "LOG is the same"] += 1

    def look(self):
        """Comes back from a copy of the file."""
        if not self.log.exists():
            raise Wrong("there is no LOG")
        copy, empty = self.folder / "copy", self.folder / "empty.txt"
        shutil.copyfile(self.log, copy)
        empty.write_text(self.versions[self.version])
        rows = {int(key): int(value) for key, value in ROW.findall(self.run("run", "--log", str(copy), str(empty)))}
        if lost := self.told - rows.keys():
            raise Wrong(f"{len(lost)} calls that were told are lost, of {len(self.told)}: {sorted(lost)[:10]}")
        if wrong := {key: value for key, value in rows.items() if not 0 < key < self.next or value != value_of(key)}:
            raise Wrong(f"rows that no call makes: {dict(list(wrong.items())[:10])}")
        if not (found := self.run("log", "--audit", str(copy), str(empty))).startswith("audit ok "):
            raise Wrong(f"the audit: {found}")
        return rows

    def others(self):
        """What a run of the other procedures, without calls, is refused for, if it is."""
        words = ["run", "--log", str(self.log), str(self.folder / "others.txt")]
        ran = subprocess.run([self.options.procd, *words], capture_output=True, text=True, check=False)
        if ran.returncode == 1:
            return ran.stdout
        if ran.returncode:
            raise Wrong(f"{words}: status {ran.returncode}: {ran.stdout[:300]} {ran.stderr[:300]}")
        return None

    def upgrade(self, rows):
        """Has the file go on under the other procedures, with these rows."""
        other = self.folder / "others.txt"
        other.write_text(self.versions[1 - self.version])
        before = self.log.read_bytes()
        if (refused := self.others()) is not None:
            if refused != REFUSED or self.log.read_bytes() != before:
                raise Wrong(f"an upgrade of a log that isn't cut: {refused}, the same bytes: {self.log.read_bytes() == before}")
            if "no checkpoint G1 Nothing\n" in self.run("run", "--log", str(self.log), "--checkpoint", str(self.folder / "empty.txt")):
                self.counts["without an event"] += 1
                return
            self.counts["refused until cut"] += 1
            words = [self.options.procd, "run", "--log", str(self.log), str(other)]
            with subprocess.Popen(words, stdout=subprocess.DEVNULL, stderr=subprocess.DEVNULL, env=self.environment()) as process:
                self.watch(process)
                process.kill()
        if refused := self.others():
            raise Wrong(f"an upgrade of a checkpoint alone: {refused}")
        self.version = 1 - self.version
        self.counts["upgraded"] += 1
        if (now := self.look()) != rows:
            raise Wrong(f"an upgrade changes rows: {len(rows)} before, {len(now)} after")

    def step(self):
        """One kill, and what is left."""
        if self.next > RECORDS:
            self.counts["calls told"] += len(self.told)
            self.begin()
        self.kill()
        rows = self.look()
        if self.options.upgrade:
            self.upgrade(rows)


def main():
    parser = argparse.ArgumentParser(description=__doc__, formatter_class=argparse.RawDescriptionHelpFormatter)
    parser.add_argument("--kills", type=int, default=100)
    parser.add_argument("--seed", type=int, default=1)
    parser.add_argument("--room", type=int)
    parser.add_argument("--procd", default=str(PROCD))
    parser.add_argument("--upgrade", action="store_true")
    how = parser.add_mutually_exclusive_group()
    how.add_argument("--forget", action="store_true")
    how.add_argument("--control", action="store_true")
    options = parser.parse_args()
    folder = pathlib.Path(tempfile.mkdtemp(prefix="cut-crashes-"))
    if (options.forget or options.control) and not preloaded("forgetful", folder):
        print("cut_crashes: no C compiler: left out")
        return 0
    runs, found = Runs(folder, options), None
    for kill in range(options.kills):
        try:
            runs.step()
        except Wrong as wrong:
            found = f"kill {kill}: {wrong}"
            break
    runs.counts["calls told"] += len(runs.told)
    counts = ", ".join(f"{count} {what}" for what, count in sorted(runs.counts.items()))
    if options.control:
        print(f"cut_crashes: control: {'loses, as it has to: ' + found if found else 'nothing is lost'}")
        shutil.rmtree(folder)
        return 0 if found else 1
    print(f"cut_crashes: {counts}; {'wrong: ' + found if found else 'nothing told is lost'}")
    if found:
        print(f"cut_crashes: the files are in {folder}")
        return 1
    shutil.rmtree(folder)
    return 0


if __name__ == "__main__":
    sys.exit(main())
