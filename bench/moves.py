#!/usr/bin/env python3
"""How many moves between two records a second, by 1, 2 and 4 workers, over a data component behind a
lock and over one in a thread of its own, beside plain Rust and SQLite in one run.

usage: bench/moves.py

The program `bench` has to be built: `rt run` in crates/bench does that. The plain programs of
bench/baseline are built by `rustc -O`: moves/ (rows, a lock table and a log, with no verified code, no
resends and no undo, in five shapes), which is the upper end of what a transaction component could reach,
and sqlite.rs, SQLite with its rows in memory by one thread, which is left out where the system has none.

The plain shapes are timed twice: with logs that are emptied, so that their memory is used again, and, as
`whole`, with as many moves as ours and logs that are kept, in memory that is new, as ours is. A ratio of 2
means that the plain program makes twice as many moves; `rings` is set beside our rings, all else beside
our locks.
"""
import pathlib
import subprocess
import sys
import tempfile
import time

TOP = pathlib.Path(__file__).resolve().parent.parent
PROGRAM = TOP / "crates" / "bench" / "out" / "bench"
BASELINE = TOP / "bench" / "baseline"
WORKERS = (1, 2, 4)
CALLS = 100_000


def seconds(link, workers, calls):
    least = float("inf")
    for _ in range(3):
        begin = time.perf_counter()
        subprocess.run([PROGRAM, link, str(workers), str(calls)], stdin=subprocess.DEVNULL, stdout=subprocess.DEVNULL, check=True)
        least = min(least, time.perf_counter() - begin)
    return least


def moves_a_second(link, workers):
    return CALLS / (seconds(link, workers, CALLS) - seconds(link, workers, 0))


def built(source, program, *flags):
    """Whether a plain program could be built."""
    done = subprocess.run(["rustc", "--edition", "2024", "-O", *flags, "-o", program, source], stderr=subprocess.DEVNULL)
    return done.returncode == 0


def rates(program, *words):
    """Shape, workers and moves a second of each line that a plain program prints below its heading."""
    printed = subprocess.run([program, *words], capture_output=True, text=True, check=True).stdout
    lines = (line.split() for line in printed.splitlines() if not line.startswith("shape"))
    return [(words[0], int(words[1]), float(words[2])) for words in lines]


def show(name, workers, rate, beside=""):
    print(f"{name:<14} {workers:>8} {rate:>14.0f} moves/s{beside}", flush=True)


def main():
    if not PROGRAM.exists():
        sys.exit(f"{PROGRAM} isn't there: `rt run` in crates/bench builds it")
    locks = {workers: moves_a_second("calls", workers) for workers in WORKERS}
    for workers, rate in locks.items():
        show("our locks", workers, rate)
    rings = {workers: moves_a_second("rings", workers) for workers in WORKERS}
    for workers, rate in rings.items():
        show("our rings", workers, rate, f", a lock makes {locks[workers] / rate:.1f} times as many")
    with tempfile.TemporaryDirectory() as folder:
        moves = f"{folder}/moves"
        if not built(BASELINE / "moves" / "main.rs", moves):
            sys.exit("rustc didn't build bench/baseline/moves")
        for name, words in (("", ["1"]), ("whole ", ["--whole", str(CALLS)])):
            for shape, workers, rate in rates(moves, *words):
                ours = (rings if shape == "rings" else locks)[workers]
                show(name + shape, workers, rate, f", {rate / ours:.1f} times as many")
        sqlite = f"{folder}/sqlite"
        if built(BASELINE / "sqlite.rs", sqlite, "-l", "sqlite3"):
            for shape, workers, rate in rates(sqlite, str(CALLS)):
                show(shape, workers, rate, f", {rate / locks[workers]:.2f} times as many")
        else:
            print("sqlite         isn't there, or couldn't be linked")


main()
