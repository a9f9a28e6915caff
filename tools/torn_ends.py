#!/usr/bin/env python3
"""Reads a log's file of 8 MB whose last frame is torn, and looks whether that takes a processor no more than three times as long
as the whole file.

usage: tools/torn_ends.py [--procd PATH] [--megabytes N]

The one batch has the rows of calls one after another, as a run with many workers writes them, so that many of its words look
like the number and the length of a frame. It is torn a byte before its end, and half way; once more with its length in a hole;
and a quarter of it is all heads that each claim the bytes up to its end, as values may hold them. A later frame behind a
damaged one is found in each of them. The status is 1 where something was wrong.
"""
import argparse
import pathlib
import resource
import statistics
import subprocess
import sys
import tempfile

from built import PROCD
from log_files import batch, event, frame, header, numbers
from plain_log import ADMIT, ANSWER, ASK, END
from trying import Program

MOST = 3  # times as long as the whole file
CROWDED = 40  # of a quarter of it, where heads claim each byte some 40,000 times
ROUNDS = 3


def rows_of(calls):
    """The rows of calls that insert a record each, one after another."""
    for txn in range(calls):
        body = numbers(txn + 1, 1)
        yield event(ADMIT, 2, txn, 0, body=body)
        yield event(ASK, 2, txn, txn, (0, 0, txn + 1), body=numbers(1))
        yield event(ANSWER, 3, txn, txn)
        yield event(END, 1, txn)


def crowded(first, size):
    """So many bytes, or a few less, of heads of a later frame, each of which claims all bytes behind it."""
    size -= size % 24
    return b"".join(numbers(first + 1, size - place - 24, 0) for place in range(0, size, 24))


def spent():
    """The seconds of a processor that programs have taken so far."""
    used = resource.getrusage(resource.RUSAGE_CHILDREN)
    return used.ru_utime + used.ru_stime


class Reader:
    """`procd log`, and how long it takes."""

    def __init__(self, program):
        self.program, self.wrong, self.count = program, [], 0

    def seconds(self, what, data, wanted):
        """The median of some rounds; the last line has to be this."""
        path, took = self.program.file(data), []
        for _ in range(ROUNDS):
            begun = spent()
            ran = subprocess.run([self.program.path, "log", path], capture_output=True)
            took.append(spent() - begun)
        self.count += 1
        last = ran.stdout.decode().splitlines()[-1]
        if not last.startswith(wanted):
            self.wrong.append(f"{what}: {last} where {wanted} was wanted")
        return statistics.median(took)

    def no_longer(self, what, took, whole, most):
        """Whether it took no longer than so many times the whole file."""
        self.count += 1
        print(f"{what}: {took:.2f} s, {took / whole:.1f} times the whole file's {whole:.2f} s")
        if took > most * whole:
            self.wrong.append(f"{what}: over {most} times as long")


def try_all(reader, megabytes):
    """Each torn end, and a later frame behind it."""
    head = frame(0, header(1))
    calls = megabytes * 1_000_000 // (4 * 96)
    payload = batch(*rows_of(calls))
    big, later = frame(1, payload), frame(2, batch())
    whole = reader.seconds("whole", head + big, f"{calls * 4 - 1} end {calls - 1} committed")
    ends = {
        "a byte short": (big[:-1], MOST),
        "half of it": (big[: len(big) // 2], MOST),
        "its length in a hole": (big[:8] + bytes(8) + big[16:-1], MOST),
        "crowded with heads": (big[:24] + crowded(1, len(payload) // 4), CROWDED),
    }
    for what, (end, most) in ends.items():
        took = reader.seconds(what, head + end, f"unfinished {len(end)} bytes")
        reader.no_longer(what, took, whole, most)
        if end[8:16] != bytes(8):
            end = end[:8] + numbers(len(big) * 2) + end[16:]
        took = reader.seconds(f"{what}, with a later frame", head + end + later, "refused log Damaged frame 1")
        reader.no_longer(f"{what}, with a later frame", took, whole, most)


def main():
    words = argparse.ArgumentParser(description=__doc__, formatter_class=argparse.RawDescriptionHelpFormatter)
    words.add_argument("--procd", default=str(PROCD))
    words.add_argument("--megabytes", type=int, default=8)
    given = words.parse_args()
    with tempfile.TemporaryDirectory() as folder:
        reader = Reader(Program(given.procd, pathlib.Path(folder)))
        try_all(reader, given.megabytes)
    for line in reader.wrong[:20]:
        print(line)
    print(f"torn_ends: {reader.count:,} looked at, {len(reader.wrong) or 'nothing'} wrong")
    return 1 if reader.wrong else 0


if __name__ == "__main__":
    sys.exit(main())
