#!/usr/bin/env python3
"""How long a machine takes to start, and how the cost of locks, refusals, numbers, the log, its check and audit, a data component, transactions and redo grows with what there is.

usage: bench/costs.py [--bench PATH] [WHAT..]

WHAT names some of the measurements (starts locks refusals reads doubts numbers log store restarts checkpoints
steps redo checks audits); without it all are done. The program `bench` has to be built: `rt run` in crates/bench
does that, and `tools/unproved.py bench` in a minute or two without the proofs. Each figure is the
least of several runs, measured from outside: the processor time of a run with the work less that of
one without it, and the peaks of resident memory of both, each told as 14 MB or so at least, which this
script has itself.
"""
import argparse
import os
import pathlib
import subprocess

BUILT = pathlib.Path(__file__).resolve().parent.parent / "crates" / "bench" / "out" / "bench"
TRIES = 3


class Bench:
    """The program that is measured."""

    def __init__(self, path):
        self.path = path

    def run(self, *words):
        """The least processor time, and the least peak of memory in bytes, of several runs."""
        seconds, peak = float("inf"), float("inf")
        for _ in range(TRIES):
            child = subprocess.Popen([self.path, *map(str, words)], stdin=subprocess.DEVNULL, stdout=subprocess.DEVNULL)
            _, status, used = os.wait4(child.pid, 0)
            child.returncode = os.waitstatus_to_exitcode(status)
            if child.returncode:
                raise SystemExit(f"{self.path} {' '.join(map(str, words))} ended with {child.returncode}")
            seconds = min(seconds, used.ru_utime + used.ru_stime)
            peak = min(peak, used.ru_maxrss * 1024)
        return seconds, peak

    def each(self, *words, times):
        """The seconds that each repeat takes; the peak of memory with them all, and without."""
        seconds, peak = self.run(*words, times)
        without, before = self.run(*words, 0)
        return (seconds - without) / times, f"{peak / 1e6:.0f} MB at the peak, {before / 1e6:.0f} without"

    def one(self, *words, times):
        """The seconds that each repeat takes."""
        return self.each(*words, times=times)[0]


def say(what, beside, cost, unit):
    print(f"{what:<10} {beside:>9} {cost:>10.2f} {unit}", flush=True)


def starts(bench):
    for slots in (0, 2, 16):
        say("starts", slots, bench.one("starts", slots, times=5_000_000) * 1e9, "ns a machine's start and two instructions")


def locks(bench):
    for held in (10, 1_000, 10_000, 100_000):
        say("locks", held, bench.one("locks", held, times=1_000_000) * 1e6, "us a grant and a release")


def refusals(bench):
    for held in (100, 10_000, 100_000):
        say("refusal", held, bench.one("busy", held, times=1_000_000) * 1e6, "us a refusal by one of so many holders")


def reads(bench):
    for held in (1, 100, 10_000, 100_000):
        say("reads", held, bench.one("reads", held, times=1_000_000) * 1e6, "us a grant and a release beside so many readers")
    for held in (100, 10_000, 100_000):
        say("read", held, bench.one("read", held, times=1_000_000) * 1e6, "us a refusal by a record that so many read")


def doubts(bench):
    for opened in (100, 10_000, 100_000):
        cost = bench.one("give-ups", opened, times=1_000_000 // opened) / opened
        say("give up", opened, cost * 1e6, "us a transaction admitted, asked and given up")
    for opened in (100, 10_000, 100_000):
        cost = bench.one("doubts", opened, times=1_000_000)
        say("blocked", opened, cost * 1e6, "us whether a call is blocked, so many in doubt")


def numbers(bench):
    for held in (1, 100, 10_000, 100_000):
        cost = bench.one("numbers", held, times=1_000_000)
        say("numbers", held, cost * 1e6, "us to give out and answer a number")


def log(bench):
    for events in (1_000, 10_923, 100_000):
        cost = bench.one("log", events, times=1_000_000 // events) / events
        say("log", events, cost * 1e9, "ns an event, printed and read")


def store(bench):
    for rows in (10, 1_000, 65_536):
        cost = (bench.run("store", rows, 500_000, 0)[0] - bench.run("store", rows, 0, 0)[0]) / 500_000
        say("update", rows, cost * 1e9, "ns an operation")
    for rows in (10, 1_000, 65_536):
        say("insert", rows, bench.run("store", rows, 0, 0)[0] / rows * 1e9, "ns an operation (and the program's start)")


def restarts(bench):
    for rows in (10, 1_000, 65_536):
        cost = bench.one("store", rows, 1_000_000 - rows, times=3)
        say("restart", rows, cost * 1e3, "ms for 1,000,000 operations")


def checkpoints(bench):
    for kept in (10, 1_000, 1_000_000):
        cost = bench.one("checkpoints", 10, kept - 10, times=20_000_000)
        say("checkpoint", kept, cost * 1e9, "ns a rise of the mark and a checkpoint, so many operations kept")


# four events a transaction that has ended
def steps(bench):
    for events, opened in ((1_000, 0), (100_000, 0), (1_000_000, 0), (1_000, 1), (1_000, 100), (1_000, 10_000)):
        times = 100_000 if opened < 10_000 else 10_000
        cost = bench.one("steps", events // 4, opened, times=times)
        say("steps", events, cost * 1e6, f"us a transaction of one insert, {opened} open")


def redo(bench):
    for events in (10_000, 100_000, 1_000_000):
        cost = bench.one("redo", events // 4, 0, times=10_000_000 // events)
        say("redo", events, cost / events * 1e9, "ns an event of the log, of which a quarter is redone")
    for opened in (0, 1, 10, 100):
        say("redo", 100_000, bench.one("redo", 25_000, opened, times=10) * 1e3, f"ms a redo, {opened} numbers open")


def checks(bench):
    for events in (10_000, 100_000, 1_000_000):
        seconds, memory = bench.each("check", events // 4, times=2_000_000 // events)
        say("check", events, seconds / events * 1e9, f"ns an event; {memory}")


# A row is put by four events and one entry; a call that moves an amount has ten and four.
def audits(bench):
    sizes = [(events, 1_000) for events in (10_000, 100_000, 1_000_000)]
    for events, rows in (*sizes, (1_000_000, 10), (1_000_000, 65_536), (1_000_000, 250_000)):
        ended = (events - 4 * rows) // 10
        seconds, memory = bench.each("audits", ended, rows, times=2_000_000 // events)
        beside = f"{4 * ended + rows} entries, {rows} rows"
        say("audit", events, seconds / events * 1e9, f"ns an event, {beside}; {memory}")


MEASURED = {
    "starts": starts,
    "locks": locks,
    "refusals": refusals,
    "reads": reads,
    "doubts": doubts,
    "numbers": numbers,
    "log": log,
    "store": store,
    "restarts": restarts,
    "checkpoints": checkpoints,
    "steps": steps,
    "redo": redo,
    "checks": checks,
    "audits": audits,
}


def main():
    parser = argparse.ArgumentParser(description=__doc__, formatter_class=argparse.RawDescriptionHelpFormatter)
    parser.add_argument("--bench", default=BUILT, type=pathlib.Path)
    parser.add_argument("what", nargs="*")
    given = parser.parse_args()
    if unknown := [word for word in given.what if word not in MEASURED]:
        parser.error(f"there is no measurement {unknown[0]}")
    if not given.bench.is_file():
        raise SystemExit(f"{given.bench} isn't there: `rt run` in crates/bench builds it")
    bench = Bench(given.bench.resolve())
    for word in given.what or MEASURED:
        MEASURED[word](bench)


main()
