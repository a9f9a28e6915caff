#!/usr/bin/env python3
"""Times procd's hot paths on code against a plain interpreter, in one run.

usage: bench/ratios.py [--only WORD] [--rounds N] [--kernel PROGRAM]

bench/baseline has bench.rs and workloads.tsv: a plain Rust interpreter in two shapes, which prints
for each workload how long it decodes (ns a slot) and executes (ns an instruction). It is built by
`rustc -O`. The program `bench` has to be built: `rt run` in crates/bench does that.

Each figure is the least of many short runs, the programs in turns. The proved one is timed from
outside: a run with the work less a run without it. Below 1 the proved program is faster.

PROGRAM is the dispatch loop of the Linux kernel (kernel/bpf/core.c), built in user space. `PROGRAM bench
FILE` prints a heading and then a line for each workload: its name, how many slots it has, how many
instructions it executes, ns an instruction, and 'answer ok'. The loop is timed in turns with the
others. It has no figure where it answers something else, or traps: it doesn't guard a division by zero.
"""
import argparse
import pathlib
import subprocess
import sys
import tempfile
import time

TOP = pathlib.Path(__file__).resolve().parent.parent
PROGRAM = TOP / "crates" / "bench" / "out" / "bench"
BASELINE = TOP / "bench" / "baseline"


def seconds(words, text):
    begin = time.perf_counter()
    subprocess.run([PROGRAM, *map(str, words)], input=text, stdout=subprocess.DEVNULL, check=True)
    return time.perf_counter() - begin


def is_refused(text):
    done = subprocess.run([PROGRAM, "code", "0", "0"], input=text, capture_output=True, check=True)
    return b"refused 0" not in done.stdout


def plain(program, text, folder):
    """What the plain program prints of a workload: ns a slot to decode, ns an instruction in each shape."""
    kept = folder / "workload.tsv"
    kept.write_bytes(text)
    printed = subprocess.run([program, kept], capture_output=True, text=True, check=True).stdout
    return [float(word) for word in printed.splitlines()[1].split()[-3:]]


def of_kernel(program, text, folder):
    """ns an instruction by the kernel's loop, and no number where it doesn't come to the answer."""
    kept = folder / "workload.tsv"
    kept.write_bytes(text)
    done = subprocess.run([program, "bench", kept], capture_output=True, text=True)
    said = done.stdout.splitlines()
    words = said[1].split() if done.returncode == 0 and len(said) > 1 else []
    return float(words[-3]) if words[-2:] == ["answer", "ok"] else float("nan")


def measured(program, kernel, folder, text, slots, executed, rounds):
    """ns a slot to load and to decode plainly; ns an instruction to run, to run plainly and by the kernel's
    loop; the programs in turns."""
    loads = 100_000 // slots + 1
    runs = 4_000_000 // executed + 1
    base = load = run = decode = execute = outside = float("inf")
    for _ in range(rounds):
        for _ in range(10):
            base = min(base, seconds(["code", 0, 0], text))
            load = min(load, seconds(["code", loads, 0], text))
            run = min(run, seconds(["code", 0, runs], text))
        first, *shapes = plain(program, text, folder)
        decode, execute = min(decode, first), min(execute, *shapes)
        if kernel is not None:
            outside = min(of_kernel(kernel, text, folder), outside)
    return (load - base) * 1e9 / (loads * slots), decode, (run - base) * 1e9 / (runs * executed), execute, outside


def main():
    parser = argparse.ArgumentParser()
    parser.add_argument("--only", default="")
    parser.add_argument("--rounds", type=int, default=4)
    parser.add_argument("--kernel", type=lambda word: pathlib.Path(word).resolve())
    options = parser.parse_args()
    if not PROGRAM.exists():
        sys.exit(f"{PROGRAM} isn't there: `rt run` in crates/bench builds it")
    of_loop = f" {'kernel':>7} {'ratio':>6}" if options.kernel else ""
    print(f"{'workload':<22} {'slots':>5} {'ns/slot':>8} {'ratio':>6} {'ns/ins':>7} {'ratio':>6}{of_loop}")
    with tempfile.TemporaryDirectory() as build:
        folder = pathlib.Path(build)
        program = folder / "plain"
        words = ["rustc", "--edition", "2021", "-O", "-A", "warnings", "-o", program, BASELINE / "bench.rs"]
        subprocess.run(words, check=True)
        for line in (BASELINE / "workloads.tsv").read_text().splitlines():
            words = line.split("\t")
            if options.only not in words[0]:
                continue
            text = line.encode() + b"\n"
            if is_refused(text):
                print(f"{words[0]:<22} refused by the verifier", flush=True)
                continue
            slots, executed = len(words[1]) // 16, int(words[-1])
            all_programs = (program, options.kernel, folder)
            load, decode, run, execute, outside = measured(*all_programs, text, slots, executed, options.rounds)
            of_loop = f" {outside:>7.2f} {run / outside:>6.2f}" if options.kernel else ""
            figures = f"{load:>8.1f} {load / decode:>6.2f} {run:>7.2f} {run / execute:>6.2f}{of_loop}"
            print(f"{words[0]:<22} {slots:>5} {figures}", flush=True)


main()
