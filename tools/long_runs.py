#!/usr/bin/env python3
"""Long runs of calls.

usage: tools/long_runs.py [--procd PATH] [--bench PATH] [--calls N] [--seed N] [--cut BYTES]

1. `procd run --workers 8` on a script of N calls (200,000) that move an amount between two of a
   thousand records: each call has to be committed, and the records' sum has to stay.
2. The same by the program `bench` over a link that loses, repeats, delays, forges and answers late, and
   a data component that keeps checkpoints and restarts, at random from the seed, each number sent ten
   times at most: each call has to be committed, in doubt, or blocked on a record of one in doubt, and
   the audit behind it has to say ok.
3. With `--cut BYTES` alone: the script of 1 with `--log` and `--checkpoint-over BYTES`, by four workers.
   All have to be committed, an audit of the log has to say ok, and the rows have to be those of the moves,
   also when a second run comes back from it. It says how much memory and time both took, and how large the log's file is.

crates/procd/out/procd and crates/bench/out/bench have to be there: `rt run` in each crate builds it.
"""
import argparse
import os
import pathlib
import random
import re
import subprocess
import sys
import tempfile
import time

from built import BENCH, PROCD
from plain_model import TEXTS

RECORDS, AMOUNT, MOST_OPERATIONS = 1000, 1_000_000, 1 << 20

PROCEDURES = TEXTS["put"] + TEXTS["move"]


def script(calls, seed):
    draw = random.Random(seed)
    lines = [f"dc {RECORDS} {min(4 * calls + RECORDS, MOST_OPERATIONS)}\n", PROCEDURES]
    lines += [f"first put {key} {AMOUNT}\n" for key in range(RECORDS)]
    lines += ["call move %d %d 1\n" % tuple(draw.sample(range(RECORDS), 2)) for _ in range(calls)]
    return "".join(lines)


def by_script(procd, calls, seed):
    with tempfile.NamedTemporaryFile("w", suffix=".txt") as file:
        file.write(script(calls, seed))
        file.flush()
        ran = subprocess.run([procd, "run", "--workers", "8", file.name], capture_output=True, text=True)
    lines = ran.stdout.splitlines()
    answers = [f"first {i} committed" for i in range(RECORDS)] + [f"call {i} committed" for i in range(calls)]
    rows = [line.split() for line in lines[len(answers) :]]
    total = sum(int(value) for _, _, value in rows) % 2**64
    good = ran.returncode == 0 and lines[: len(answers)] == answers
    good = good and len(rows) == RECORDS and total == RECORDS * AMOUNT
    said = "all committed, the sum stays" if good else "WRONG " + ran.stderr
    print(f"script: {calls} calls by 8 workers, {said}", flush=True)
    return good


def by_storm(bench, calls, seed):
    words = [bench, "storm", str(seed), "8", str(calls)]
    ran = subprocess.run(words, stdin=subprocess.DEVNULL, capture_output=True, text=True)
    good = ran.returncode == 0 and bool(re.search(r" other 0 restarts \d+\naudit ok ", ran.stdout))
    print(f"storm of seed {seed}: {', '.join(ran.stdout.splitlines())}{'' if good else ' WRONG'}", flush=True)
    return good


def timed(words):
    """What a command printed, its status, its greatest memory in KB, and its seconds."""
    began = time.monotonic()
    with tempfile.TemporaryFile("w+") as out:
        ran = subprocess.Popen(words, stdin=subprocess.DEVNULL, stdout=out)
        _, status, used = os.wait4(ran.pid, 0)
        out.seek(0)
        return out.read(), os.waitstatus_to_exitcode(status), used.ru_maxrss, time.monotonic() - began


def rows_behind(text):
    """The rows that the moves of this script leave, in whatever order they are made."""
    rows = [AMOUNT] * RECORDS
    for source, target in re.findall(r"^call move (\d+) (\d+) 1$", text, re.MULTILINE):
        rows[int(source)] -= 1
        rows[int(target)] += 1
    return [f"row 0/0/{key} {amount}" for key, amount in enumerate(rows)]


def rows_of(lines):
    """The rows among these lines."""
    return [line for line in lines if line.startswith("row ")]


def by_log(procd, calls, seed, cut):
    with tempfile.TemporaryDirectory() as folder:
        text, none, log = (pathlib.Path(folder) / it for it in ("calls.txt", "none.txt", "calls.log"))
        said = script(calls, seed)
        text.write_text(said)
        none.write_text(said[: said.index("first")])
        run = [procd, "run", "--workers", "4", "--log", log, "--checkpoint-over", str(cut)]
        said, status, memory, seconds = timed([*run, text])
        lines = said.splitlines()
        good = status == 0 and sum(line.endswith(" committed") for line in lines) == calls + RECORDS
        rows = rows_behind(text.read_text())
        good = good and rows_of(lines) == rows
        print(f"log: {calls} calls, {memory} KB at most, {seconds:.1f} s, LOG has {log.stat().st_size} bytes", flush=True)
        said, status, memory, seconds = timed([procd, "log", "--audit", log, none])
        good = good and status == 0 and said.startswith("audit ok ")
        said, status, memory, seconds = timed([*run, none])
        good = good and status == 0 and rows_of(said.splitlines()) == rows
        print(f"log: back in {seconds:.2f} s with {memory} KB, {'the rows are those of the moves' if good else 'WRONG'}", flush=True)
        return good


def main():
    parser = argparse.ArgumentParser(description=__doc__, formatter_class=argparse.RawDescriptionHelpFormatter)
    parser.add_argument("--procd", default=PROCD)
    parser.add_argument("--bench", default=BENCH)
    parser.add_argument("--calls", type=int, default=200_000)
    parser.add_argument("--seed", type=int, default=1)
    parser.add_argument("--cut", type=int, metavar="BYTES")
    options = parser.parse_args()
    if options.cut:
        sys.exit(0 if by_log(options.procd, options.calls, options.seed, options.cut) else 1)
    good = by_script(options.procd, options.calls, options.seed)
    sys.exit(0 if by_storm(options.bench, options.calls, options.seed) and good else 1)


if __name__ == "__main__":
    main()
