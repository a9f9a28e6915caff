#!/usr/bin/env python3
"""How many calls a second one worker makes over a link that takes a millisecond a wire, by how many it has on their way.

usage: bench/windows.py [--bench PATH]

A put is one operation on a record of its own; a move is four on two of a thousand records, which other moves may have.
`bench` has to be built: `rt run` in crates/bench does that, and `tools/unproved.py bench` without the proofs. Each figure
is the best of three runs, measured from outside, less the time of a run without calls.
"""
import argparse
import pathlib
import subprocess
import time

BUILT = pathlib.Path(__file__).resolve().parent.parent / "crates" / "bench" / "out" / "bench"
# How many calls are made with so many on their way.
CALLS = {"slow": {1: 1_000, 64: 30_000, 4096: 200_000}, "slow-moves": {1: 500, 64: 10_000, 4096: 50_000}}


def seconds(bench, *words):
    least = float("inf")
    for _ in range(3):
        begin = time.perf_counter()
        subprocess.run([bench, *map(str, words)], stdin=subprocess.DEVNULL, stdout=subprocess.DEVNULL, check=True)
        least = min(least, time.perf_counter() - begin)
    return least


def main():
    parser = argparse.ArgumentParser(description=__doc__.splitlines()[0])
    parser.add_argument("--bench", default=BUILT)
    bench = parser.parse_args().bench
    for what, each in CALLS.items():
        for window, calls in each.items():
            taken = seconds(bench, what, 1, calls, window) - seconds(bench, what, 1, 0, window)
            print(f"{what:<11} {window:>5} on their way {calls / taken:>10,.0f} calls/s", flush=True)


main()
