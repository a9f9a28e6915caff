#!/usr/bin/env python3
"""Runs commands side by side, and prints of each what it said when it has ended.

  tools/side_by_side.py [--most N] [--following FILE] < COMMANDS

COMMANDS has a line each, for sh, in this repository's folder; N run at once at most, one a processor if it isn't given. A line
that begins with `then ` waits for the one before it. One that begins with `once CRATE[,CRATE..] ` waits until FILE, which gets
what `rt ci` prints, says of each that it is proved or kept, and fails where a line `gate: ..` comes without that. Where whoever
called this is gone, no other begins. The last line is `N passed, M failed`, and the status is 1 where one failed.
"""
import argparse
import concurrent.futures
import os
import re
import subprocess
import sys
import time

from built import TOP

THEN, ONCE = "then ", "once "
# What `rt ci` says of a crate whose library is there, and the gate's own first line behind it.
PROVED = re.compile(r"(?m)^rt: (\w+) (?:proved$|is kept:)")
OVER = re.compile(r"(?m)^gate: ")


def chains(lines):
    """The commands, in lists of those that wait for one another."""
    found = []
    for line in filter(None, map(str.strip, lines)):
        if line.startswith(THEN) and found:
            found[-1].append(line.removeprefix(THEN))
        else:
            found.append([line])
    return found


def ran(command):
    """Runs it; answers whether it ended well."""
    began = time.monotonic()
    it = subprocess.run(["sh", "-c", command], cwd=TOP, stdin=subprocess.DEVNULL, stdout=subprocess.PIPE,
                        stderr=subprocess.STDOUT, check=False)
    said = it.stdout.decode("utf-8", "replace").rstrip()
    how = "" if it.returncode == 0 else f" ended with {it.returncode}"
    print(f"{said}\n-- {command}{how}, {time.monotonic() - began:.0f} s".lstrip("\n"), flush=True)
    return it.returncode == 0


def all_ran(chain):
    """Runs these one after the other; answers of each whether it ended well."""
    return [ran(command) for command in chain]


def not_run(chain):
    """Says that these weren't run."""
    for command in chain:
        print(f"-- {command}: what it waits for isn't proved", flush=True)
    return [False] * len(chain)


def crates_and_chain(chain):
    """The crates that these wait for, and their commands."""
    if not chain[0].startswith(ONCE):
        return set(), chain
    _, crates, first = chain[0].split(maxsplit=2)
    return set(crates.split(",")), [first, *chain[1:]]


def followed(file, left, pool):
    """Runs these, each once the file says that its crates are proved; answers of each command whether it ended well."""
    begun, proved, said, caller = [], set(), "", os.getppid()
    while left or not all(it.done() for it in begun):
        said = said[said.rfind("\n") + 1:] + file.read()
        proved |= set(PROVED.findall(said))
        begun += [pool.submit(all_ran, chain) for crates, chain in left if crates <= proved]
        left = [it for it in left if not it[0] <= proved]
        if OVER.search(said):
            begun += [pool.submit(not_run, chain) for _, chain in left]
            left = []
        if os.getppid() != caller:
            pool.shutdown(cancel_futures=True)
            sys.exit("side_by_side: whoever called this is gone")
        time.sleep(0.2)
    return [well for it in begun for well in it.result()]


def main():
    parser = argparse.ArgumentParser(description=__doc__, formatter_class=argparse.RawDescriptionHelpFormatter)
    parser.add_argument("--most", type=int, default=len(os.sched_getaffinity(0)))
    parser.add_argument("--following", default=os.devnull)
    options = parser.parse_args()
    given = [crates_and_chain(chain) for chain in chains(sys.stdin)]
    with open(options.following, encoding="utf-8", errors="replace") as file:
        with concurrent.futures.ThreadPoolExecutor(options.most) as pool:
            passed = followed(file, given, pool)
    print(f"{sum(passed)} passed, {len(passed) - sum(passed)} failed")
    return 0 if all(passed) else 1


if __name__ == "__main__":
    sys.exit(main())
