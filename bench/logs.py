#!/usr/bin/env python3
"""How many moves between two records a second with the log on a disk, by 1, 4, 16 and 64 workers, beside SQLite in a
file, and how long the disk takes for a sync.

usage: bench/logs.py [--procd PATH] [--folder FOLDER] [--rounds N] [--moves N]

`procd run --log` begins a log, puts a thousand records and makes the moves; only these count (transfers.py).
SQLite does the same in a new file by as many threads, each with a connection and prepared statements of its own, in
transactions that begin as writing ones (`BEGIN IMMEDIATE`) and wait for one another, with `journal_mode=WAL` and
`synchronous=FULL`, so that a commit is on the disk before it is told: bench/baseline/sqlite.rs, which `rustc -O` builds
over the system's library. Both are done in turns, and before each round a file grows by 96 bytes a sync, and by 4096.
All files lie in FOLDER (the system's for temporary ones), on whose disk all depends. A figure is the median of the
rounds, with the least and the most. Each worker makes N moves, so that about as many syncs are waited for by one as by
64; SQLite, whose threads come one behind another, makes N in all.
"""
import argparse
import os
import pathlib
import statistics
import subprocess
import tempfile
import time

from transfers import PROCD, Scripts, build_sqlite, moves_a_second

WORKERS = (1, 4, 16, 64)
SIZES = (96, 4096)
SYNCS = 100


def procd(program, folder, workers, moves):
    """Moves a second of a run that keeps its log."""
    return moves_a_second(program, Scripts(folder, moves), workers, folder / "calls.log")


def sqlite(program, folder, workers, moves):
    """Moves a second of SQLite in a file."""
    words = [program, str(moves), folder / "calls.db", str(workers)]
    printed = subprocess.run(words, capture_output=True, text=True, check=True).stdout
    for file in folder.glob("calls.db*"):
        file.unlink()
    return float(printed.split()[2])


def sync(folder, size):
    """Seconds of a sync behind so many bytes."""
    with open(folder / "synced", "ab", buffering=0) as file:
        took = []
        for _ in range(SYNCS):
            file.write(bytes(size))
            began = time.perf_counter()
            os.fdatasync(file.fileno())
            took.append(time.perf_counter() - began)
    return statistics.median(took)


def spread(figures, unit):
    return f"{statistics.median(figures):>9,.{unit}f} ({min(figures):,.{unit}f} to {max(figures):,.{unit}f})"


def measured(options, folder, peer):
    """Each round's figures: of syncs by bytes, and of both programs by workers."""
    syncs = {size: [] for size in SIZES}
    rates = {workers: ([], []) for workers in WORKERS}
    for _ in range(options.rounds):
        for size in SIZES:
            syncs[size].append(1000 * sync(folder, size))
        for workers, (ours, theirs) in rates.items():
            ours.append(procd(options.procd, folder, workers, options.moves * workers))
            theirs.append(sqlite(peer, folder, workers, options.moves))
    return syncs, rates


def main():
    parser = argparse.ArgumentParser(description=__doc__, formatter_class=argparse.RawDescriptionHelpFormatter)
    parser.add_argument("--procd", default=PROCD, help="the program (that of crates/procd/out)")
    parser.add_argument("--folder", help="where the files lie")
    parser.add_argument("--rounds", type=int, default=5)
    parser.add_argument("--moves", type=int, default=1000, help="of each worker (1000)")
    options = parser.parse_args()
    if not pathlib.Path(options.procd).exists():
        parser.error(f"there is no {options.procd}: ./procd builds it")
    with tempfile.TemporaryDirectory(dir=options.folder) as name:
        folder, peer = pathlib.Path(name), f"{name}/sqlite"
        build_sqlite(peer)
        syncs, rates = measured(options, folder, peer)
    for size, took in syncs.items():
        print(f"a sync of {size:>4} bytes  {spread(took, 2)} ms")
    for workers, (ours, theirs) in rates.items():
        times = statistics.median(ours) / statistics.median(theirs)
        both = f"procd {spread(ours, 0)}, SQLite {spread(theirs, 0)}"
        print(f"{workers:>2} workers  {both} moves a second, {times:.1f} times as many")


main()
