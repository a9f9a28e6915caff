#!/usr/bin/env python3
"""Calls by workers over links that are against them, and what their logs say.

usage: tools/storms.py [--bench PATH] [--runs N] [--calls N] [--workers N] [--seed N] [--cuts]

Each run is one of `bench trace`: so many calls that move 1 between two of a thousand records, by so
many workers, over a link that loses, repeats, delays, forges and answers late, and over a data
component that keeps checkpoints and restarts, whose news are lost, late and repeated, at random from
the run's seed. With `--cuts` as many are of `bench cuts`: there the log begins anew behind each hundred
calls, where it may, and the component forgets what it has performed. The last run is one of `bench
restarts`: over a component that does it all the time. Behind each the component restarts once more,
is redone, and is audited with the log. The log (where it was cut, all that there were, one behind
another) is gone through by the plain model, which shares no code with the crates: numbers are given
out one after another, each operation is covered by its transaction's locks, locks that are held and
operations in flight don't exclude each other, an answer belongs to an operation in flight; each event
is the one that its transaction's procedure comes to; the calls one after another, in the order of
their Ends, end the same; and there is an End for each call that was answered by one. As many calls are
in doubt as transactions stay open; each call that is told blocked, and no other, was never begun, and
wants a record of these. A difference is told with its seed, and the status is then 1.

crates/bench/out/bench has to be there: `rt run` in crates/bench builds it.
"""
import argparse
import collections
import re
import subprocess
import sys
import time

from built import BENCH
from plain_log import ADMIT, ASK, CHECKPOINT, END, UNDO, Legal, read_log, replayed, serial
from plain_model import PROCEDURES as MEANT

RECORDS = 1000
EVENT = 96
COMMITTED = 1
ENDED = ["committed", "in doubt", "blocked"]  # how calls may end
PROCEDURES = ["put", "move"]
MASK = (1 << 64) - 1


def traced(bench, weather, workers, calls, seed):
    """What a run counted, what its audit said, and the events of its logs."""
    words = [bench, weather, str(seed), str(workers), str(calls)]
    ran = subprocess.run(words, stdin=subprocess.DEVNULL, capture_output=True, text=True)
    if ran.returncode != 0:
        sys.exit(f"{weather} of seed {seed}: {bench} ended with status {ran.returncode}: {ran.stderr.strip()}")
    said, audit, text = ran.stdout.split("\n", 2)
    counts = {name: int(count) for name, count in re.findall(r"(\D+) (\d+) ?", said)}
    logs = [bytes.fromhex(line) for line in text.split()]
    return counts, audit, [read_log(log[i : i + EVENT] for i in range(0, len(log), EVENT)) for log in logs]


def joined(logs):
    """The events of all, without those with which logs begin anew: None where one of these says other numbers."""
    whole = list(logs[0])
    for log in logs[1:]:
        admitted = sum(event.kind == ADMIT for event in whole)
        given = sum(event.kind in (ASK, UNDO) for event in whole)
        if (log[0].kind, log[0].txn, log[0].word) != (CHECKPOINT, admitted, given):
            return None
        whole += log[1:]
    return whole


def moves(calls):
    """The arguments of so many calls that `bench` makes, in their order: its records are drawn by Marsaglia's xorshift."""
    seed, drawn = 0x9E37_79B9_7F4A_7C15, []
    for _ in range(2 * calls):
        seed ^= seed << 13 & MASK
        seed ^= seed >> 7
        seed ^= seed << 17 & MASK
        drawn.append(seed % RECORDS)
    return [(source, target, 1) for source, target in zip(drawn[::2], drawn[1::2])]


def unblocked(counts, log, open_ones, calls):
    """What is wrong with the calls that no transaction was begun for, each of which has to want a record of one that stays open."""
    wanted = collections.Counter(moves(calls))
    wanted.subtract(tuple(event.args) for event in log if event.kind == ADMIT and PROCEDURES[event.word] == "move")
    left = [args for args, count in wanted.items() for _ in range(count)]
    if min(wanted.values(), default=0) < 0:
        return "a call was made that nobody wants, or twice"
    if len(left) != counts["blocked"]:
        return f"{counts['blocked']} calls are blocked, and {len(left)} weren't begun"
    held = {record for txn in open_ones for record in txn.locks}
    free = [args for args in left if held.isdisjoint(MEANT["move"].locks(args))]
    return f"the call {free[0]} wasn't begun, and no open transaction has its records" if free else None


def difference(counts, audit, logs, calls):
    """What is wrong with a run, or None."""
    log = joined(logs)
    if log is None:
        return "a log begins anew behind other numbers than there were"
    if sum(counts[name] for name in ENDED) != calls:
        return f"the calls ended as {counts}"
    ends = [event for event in log if event.kind == END]
    committed = sum(event.sub == COMMITTED for event in ends)
    if committed != RECORDS + counts["committed"]:
        return f"{committed} committed Ends, and {counts['committed']} calls answered committed behind {RECORDS}"
    legal = Legal(PROCEDURES)
    place = legal.first_illegal(log)
    if place is not None:
        return f"event {place}: no procedure comes to it"
    if counts["in doubt"] != len(legal.txns):
        return f"{counts['in doubt']} calls are in doubt, and {len(legal.txns)} transactions are open"
    ended = sum(event.kind == END for event in logs[-1])
    if audit != f"audit ok ended {ended} open {len(legal.txns)}":
        return f"{ended} ended, {len(legal.txns)} are open: {audit}"
    return unblocked(counts, log, legal.txns.values(), calls) or replayed(log, PROCEDURES) or serial(log, PROCEDURES, {})


def main():
    parser = argparse.ArgumentParser(description=__doc__, formatter_class=argparse.RawDescriptionHelpFormatter)
    parser.add_argument("--bench", default=BENCH)
    parser.add_argument("--runs", type=int, default=200)
    parser.add_argument("--calls", type=int, default=5000)
    parser.add_argument("--workers", type=int, default=8)
    parser.add_argument("--seed", type=int, default=1)
    parser.add_argument("--cuts", action="store_true")
    options = parser.parse_args()
    total, events, cuts, begun = collections.Counter(), 0, 0, time.monotonic()
    seeds = range(options.seed, options.seed + options.runs)
    runs = [(weather, seed) for weather in ["trace"] + ["cuts"] * options.cuts for seed in seeds]
    for weather, seed in [*runs, ("restarts", options.seed)]:
        counts, audit, logs = traced(options.bench, weather, options.workers, options.calls, seed)
        why = difference(counts, audit, logs, options.calls)
        if why:
            sys.exit(f"{weather} of seed {seed}: {why}")
        events += sum(map(len, logs))
        cuts += len(logs) - 1
        total.update(counts)
    told = ", ".join(f"{count:,} {name}" for name, count in total.items())
    took = time.monotonic() - begun
    print(f"storms: {len(runs) + 1} runs of {options.calls:,} calls by {options.workers} workers: {told};")
    print(f"{events:,} events of their logs, cut {cuts:,} times, no difference, {took:.0f} s")
    if options.cuts and not cuts:
        sys.exit("no log was cut")


if __name__ == "__main__":
    main()
