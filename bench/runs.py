#!/usr/bin/env python3
"""How many moves between two records a second `procd run` makes by 1, 2, 4 and 16 workers, with nothing else on the
processors, and with two other busy processes for each of them, beside SQLite with its rows in memory.

usage: bench/runs.py [--procd PATH] [--rounds N] [--moves N] [--partitions]

Loading the script doesn't count (transfers.py). SQLite makes as many by one thread with prepared statements, and keeps no
log: bench/baseline/sqlite.rs, which `rustc -O` builds over the system's library. All are done in turns, one of four moves
on busy processors; a figure is the median of the rounds, with the least and the most. The ratio behind it is that to SQLite
on quiet processors, and of busy ones that to the same run on quiet ones.

--partitions: instead, moves within one of four data components each, which no procedure joins: by one worker, by four, and
by four that are spread over the partitions. The ratio is that to one worker.
"""
import argparse
import contextlib
import os
import pathlib
import statistics
import subprocess
import sys
import tempfile

from transfers import PROCD, Scripts, build_sqlite, moves_a_second

WORKERS = (1, 2, 4, 16)
BUSY = 2  # processes a processor
FEWER = 4  # of so many moves one is made on busy processors
PARTS = 4
APART = (("1 worker", 1, ()), (f"{PARTS} workers", PARTS, ()), (f"{PARTS} workers, {PARTS} partitions", PARTS, ("--partitions",)))


@contextlib.contextmanager
def busy():
    """Other processes that are never idle."""
    count = BUSY * len(os.sched_getaffinity(0))
    others = [subprocess.Popen([sys.executable, "-c", "while True: pass"]) for _ in range(count)]
    try:
        yield
    finally:
        for other in others:
            other.kill()
            other.wait()


def sqlite(peer, moves):
    """Moves a second of SQLite in memory."""
    printed = subprocess.run([peer, str(moves)], capture_output=True, text=True, check=True).stdout
    return float(printed.split()[2])


def spread(figures):
    return f"{statistics.median(figures):>9,.0f} ({min(figures):,.0f} to {max(figures):,.0f}) moves a second"


def measured(options, folder, peer):
    """Each round's figures: of SQLite, and of runs on quiet processors and on busy ones by workers."""
    whole, short = Scripts(folder, options.moves), Scripts(folder, options.moves // FEWER)
    theirs, rates = [], {workers: ([], []) for workers in WORKERS}
    for _ in range(options.rounds):
        theirs.append(sqlite(peer, options.moves))
        for workers, (quiet, among_others) in rates.items():
            quiet.append(moves_a_second(options.procd, whole, workers))
            with busy():
                among_others.append(moves_a_second(options.procd, short, workers))
    return theirs, rates


def told_apart(options, folder):
    """Prints what partitions make."""
    scripts = Scripts(folder, options.moves, PARTS)
    rates = {name: [] for name, _, _ in APART}
    for _ in range(options.rounds):
        for name, workers, words in APART:
            rates[name].append(moves_a_second(options.procd, scripts, workers, options=words))
    alone = statistics.median(rates[APART[0][0]])
    for name, figures in rates.items():
        print(f"{name:<24}{spread(figures)}, {statistics.median(figures) / alone:.2f} of one worker's")


def main():
    parser = argparse.ArgumentParser(description=__doc__, formatter_class=argparse.RawDescriptionHelpFormatter)
    parser.add_argument("--procd", default=PROCD, help="the program (that of crates/procd/out)")
    parser.add_argument("--rounds", type=int, default=5)
    parser.add_argument("--moves", type=int, default=40_000, help="of each run (40000)")
    parser.add_argument("--partitions", action="store_true", help="time partitions alone")
    options = parser.parse_args()
    if not pathlib.Path(options.procd).exists():
        parser.error(f"there is no {options.procd}: ./procd builds it")
    with tempfile.TemporaryDirectory() as name:
        if options.partitions:
            told_apart(options, pathlib.Path(name))
            return
        peer = f"{name}/sqlite"
        build_sqlite(peer)
        theirs, rates = measured(options, pathlib.Path(name), peer)
    beside = statistics.median(theirs)
    print(f"SQLite              {spread(theirs)}")
    for workers, (quiet, among_others) in rates.items():
        alone = statistics.median(quiet)
        print(f"{workers} workers, quiet    {spread(quiet)}, {alone / beside:.2f} of SQLite's")
        print(f"{workers} workers, busy     {spread(among_others)}, {statistics.median(among_others) / alone:.2f} of quiet")


main()
