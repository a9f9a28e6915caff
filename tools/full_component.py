#!/usr/bin/env python3
"""Runs reads over a data component that is full, ten times as many the second time: each call beyond its room is in doubt
by the rule, the component and its count are named whatever the options, `--strict` says so by the status, and the run takes
a processor's time in proportion. Where the log begins anew above a size, whatever that is, all calls commit, those of the
first list too, and those of a run that comes back from the log.

usage: tools/full_component.py [--procd PATH] [--reads N]

Where the time grew with the square of the calls, the second run would take a hundred times as much. It is counted in
processors' time, which other work on the machine doesn't lengthen as it does the clock's. The status is 1 where something
was wrong.
"""
import argparse
import pathlib
import re
import resource
import sys
import tempfile

from built import PROCD
from trying import Program

ROOM = 1000  # operations that it has room for
MOST = 40  # times as much at most: four times what proportion asks for
SCRIPT = f"dc 10 {ROOM}\nproc look 1\nslot read 0 0 $0\n mov r1, 0\n call 1\n mov r0, 0\n exit\nend\n"


def spent():
    """The processors' time, in seconds, that programs which have ended took."""
    it = resource.getrusage(resource.RUSAGE_CHILDREN)
    return it.ru_utime + it.ru_stime


def seconds_of(program, reads, faults):
    """The processors' time that so many reads took, the least of two runs."""
    script = (SCRIPT + "".join(f"call look {i % 7}\n" for i in range(reads))).encode()
    least = float("inf")
    for _ in range(2):
        before = spent()
        ran = program.run(["run", "--stats", "--workers", "4", "-"], script)
        least = min(least, spent() - before)
        full = b"full dc 0 %d operations\n" % ROOM
        if ran.status != 0 or not ran.err.endswith(full):
            faults.append(f"{reads} reads: status {ran.status}, and {ran.err!r} doesn't end with {full!r}")
        waits = re.search(rb"\np50 (\d+) us\np99 (\d+) us\nlongest wait (\d+) us\n", ran.err)
        if waits is None or sorted(waits.groups(), key=int) != list(waits.groups()):
            faults.append(f"{reads} reads: no rising p50, p99 and longest wait in {ran.err!r}")
        committed, doubted = ran.out.count(b" committed\n"), ran.out.count(b" in doubt ")
        if (committed, doubted) != (ROOM, reads - ROOM):
            faults.append(f"{reads} reads: {committed} committed and {doubted} in doubt")
    return least


def check_told(program, faults):
    """What is told of the component, and the status, whatever the options."""
    script = (SCRIPT + "call look 1\n" * (ROOM + 1)).encode()
    for words, status in ([], 0), (["--partitions"], 0), (["--strict"], 1), (["--partitions", "--strict"], 1):
        ran = program.run(["run", *words, "-"], script)
        if (ran.status, ran.err) != (status, b"full dc 0 %d operations\n" % ROOM):
            faults.append(f"{words}: status {ran.status}, and {ran.err!r}")


def check_renewed(program, faults):
    """Far more calls than there is room for, where the log begins anew before there is none."""
    lines = [f"{word} look {i % 7}\n" for word in ("first", "call") for i in range(3 * ROOM)]
    answers = "".join(f"{word} {i} committed\n" for word in ("first", "call") for i in range(3 * ROOM)).encode()
    with tempfile.TemporaryDirectory(prefix="full-component-") as folder:
        for over in ("0", "1000000000"):
            log = pathlib.Path(folder) / f"log{over}"
            for _ in range(2):
                ran = program.run(["run", "--log", log, "--checkpoint-over", over, "--strict", "-"], (SCRIPT + "".join(lines)).encode())
                told = b"".join(line for line in ran.out.splitlines(True) if line.startswith((b"first ", b"call ")))
                if (ran.status, ran.err, told) != (0, b"", answers):
                    faults.append(f"checkpoints over {over}: status {ran.status}, {told.count(b' committed')} committed, and {ran.err!r}")


def main():
    words = argparse.ArgumentParser()
    words.add_argument("--procd", default=str(PROCD))
    words.add_argument("--reads", type=int, default=20_000)
    asked = words.parse_args()
    faults, program = [], Program(asked.procd, None)
    check_told(program, faults)
    check_renewed(program, faults)
    few, many = (seconds_of(program, n, faults) for n in (asked.reads, 10 * asked.reads))
    if many > MOST * few:
        faults.append(f"{asked.reads} reads took a processor {few:.2f} s and {10 * asked.reads} took {many:.2f} s")
    for fault in faults:
        print(fault)
    wrong = len(faults) if faults else "nothing"
    print(f"full_component: {asked.reads} reads in {few:.2f} s of a processor, ten times as many in {many:.2f} s, {wrong} wrong")
    return bool(faults)


if __name__ == "__main__":
    sys.exit(main())
