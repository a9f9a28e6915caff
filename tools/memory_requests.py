#!/usr/bin/env python3
"""Requests for memory: none behind an admission, and each refused in turn where there are some.

usage: tools/memory_requests.py [--tests PATH] [--procd PATH] [--scripts N] [--steps N] [--seed N] [SECTION..]

`pairs`: the worked runs are tests of `component_tests`, in pairs: one stops at the admission, the other goes on to the end.
Both are run, their requests counted, and the second is to make no more than the first. `worlds`: random scripts
(those of explore.py) go through `world` of the program that tools/unproved.py makes; of the requests of each it is
counted which were made within each call of the transaction component. In a proved program those calls are no functions,
since they are inlined. `refused`: of each test of calls that ask for memory the first request is refused, then
the second, until a run meets none; it is to pass each time. With no SECTION the first two are run. The status is 1
where something was wrong.
"""
import argparse
import collections
import itertools
import os
import pathlib
import random
import re
import struct
import subprocess
import sys
import tempfile

from built import TOP
from explore import Procd, Steps
from trying import preloaded

PAIRS = [("put_admitted", "put_ended"), ("abort_admitted", "abort_ended"), ("delete_admitted", "delete_stuck")]
ASKING = ["admit"]  # calls that may ask for memory
# `wire` and `told` may be part of their callers' code in the program.
CALLS = ["ask", "undo_next", "answer", "give_up", "end", "redo_next", "redone"]
NUMBER = 8  # bytes
MOST = 64  # functions that are watched at once
SHOWN = 5  # of what is wrong, how much is shown


class Counting:
    """Runs a program before which memory_requests.c counts."""

    def __init__(self, folder, functions=()):
        self.library = preloaded("memory_requests", folder) or sys.exit("there is no C compiler")
        self.counts, self.functions = folder / "counts", list(functions)

    def run(self, words):
        """How it ran; how many requests it made; how often each function was entered, and the requests within."""
        self.counts.write_bytes(bytes(NUMBER * (1 + 2 * MOST)))
        places = ",".join(f"{begin:x}" for _, begin in self.functions)
        settings = {"LD_PRELOAD": str(self.library), "COUNTS_TO": str(self.counts), "FUNCTIONS": places}
        ran = subprocess.run(list(map(str, words)), capture_output=True, text=True, env={**os.environ, **settings})
        requests, *numbers = struct.unpack(f"<{1 + 2 * MOST}q", self.counts.read_bytes())
        return ran, requests, list(zip(numbers[::2], numbers[1::2]))[: len(self.functions)]


def test_requests(counting, tests, name):
    """How many requests a test makes."""
    ran, requests, _ = counting.run([tests, f"state_tests::{name}"])
    if ran.returncode or "test result: ok" not in ran.stdout:
        sys.exit(f"state_tests::{name}: status {ran.returncode}, {ran.stdout}{ran.stderr}")
    return requests


def pairs_agree(options, folder):
    """Whether each run to its end asks for memory as often as the one that stops at the admission."""
    counting, good = Counting(folder), True
    for admitted, ended in PAIRS:
        first, second = [test_requests(counting, options.tests, name) for name in (admitted, ended)]
        print(f"{admitted}: {first} requests, {ended}: {second}, between: {second - first}", flush=True)
        good = good and first == second > 0
    return good


def functions_of(program):
    """The calls of the transaction component that are functions of the program, and where they begin."""
    found = {}
    symbols = subprocess.run(["nm", program], capture_output=True, text=True, check=True).stdout
    for line in symbols.splitlines():
        words = line.split(maxsplit=2)
        called = len(words) == 3 and re.fullmatch(r"tc_core::\w+::\w+::(\w+)(::<.*>)?", words[2])
        if called and called[1] in ASKING + CALLS:
            found[words[2]] = (words[2], int(words[0], 16))
    return [found[name] for name in sorted(found)]


class CountedProcd(Procd):
    """The program, with a count of its requests."""

    def __init__(self, path, folder):
        super().__init__(path, folder / "script.txt")
        self.counting = Counting(folder, functions_of(path))
        self.requests, self.entries, self.within = 0, collections.Counter(), collections.Counter()

    def __call__(self, words, text):
        self.file.write_text(text)
        ran, requests, functions = self.counting.run([self.path, *words, self.file])
        self.requests += requests
        for (name, _), (entries, within) in zip(self.counting.functions, functions):
            self.entries[name] += entries
            self.within[name] += within
        return ran.stdout.splitlines(), ran.returncode, ran.stderr


def worlds_agree(options, folder):
    """Whether each call of the transaction component was entered, and none asked for memory but those that may."""
    procd, steps, good = CountedProcd(options.procd, folder), collections.Counter(), True
    for seed in range(options.seed, options.seed + options.scripts):
        script = Steps.drawn(random.Random(seed), options.steps)
        differs = script.difference(procd)
        if differs:
            sys.exit(f"seed {seed}, {differs[1]}")
        steps.update(script.made())
    print(f"{options.scripts} scripts of {sum(steps.values())} steps, {procd.requests} requests, of which within")
    for call in ASKING + CALLS:
        names = [name for name in procd.entries if re.search(rf"::{call}\b", name)]
        entries, within = [sum(counted[name] for name in names) for counted in (procd.entries, procd.within)]
        missing = "" if names else ", since it is no function of this program: tools/unproved.py makes one in which it is"
        print(f"{call}, entered {entries} times: {within}{missing}", flush=True)
        good = good and entries > 0 and (within == 0 or call in ASKING)
    return good


def refused_once(tests, name, library, told):
    """How many requests of a test were refused, one in each run, and those runs in which it didn't pass."""
    failed = []
    for at in itertools.count(1):
        told.write_bytes(bytes(NUMBER))
        faults = {"LD_PRELOAD": str(library), "ALLOCATIONS_TO": str(told), "ALLOCATION_FAILS": str(at)}
        ran = subprocess.run([tests, name], capture_output=True, text=True, env={**os.environ, **faults})
        if ran.returncode or "test result: ok" not in ran.stdout:
            failed.append(f"{name}, request {at}: status {ran.returncode}, {ran.stdout}{ran.stderr}".strip())
        if int.from_bytes(told.read_bytes(), "little") < at:
            return at - 1, failed


def refusals_pass(options, folder):
    """Whether each test of calls that ask for memory passes whichever request is refused."""
    library, good = preloaded("faults", folder) or sys.exit("there is no C compiler"), True
    listed = subprocess.run([options.tests, "--list"], capture_output=True, text=True, check=True).stdout
    names = re.findall(r"^(memory_\w*tests::\w+): test$", listed, re.MULTILINE)
    if not names:
        sys.exit(f"{options.tests} has no test of calls that ask for memory")
    for name in names:
        refused, failed = refused_once(options.tests, name, library, folder / "allocations")
        print(f"{name}: {refused} requests refused, {len(failed) or 'none'} failed", flush=True)
        for text in failed[:SHOWN]:
            print(f"  {text}")
        good = good and refused > 0 and not failed
    return good


SECTIONS = {"pairs": pairs_agree, "worlds": worlds_agree, "refused": refusals_pass}


def main():
    parser = argparse.ArgumentParser(description=__doc__, formatter_class=argparse.RawDescriptionHelpFormatter)
    tests, procd = TOP / "crates/component_tests/out/component_tests_tests", TOP / "out-unproved/procd"
    parser.add_argument("--tests", default=tests, help="the built tests (those of crates/component_tests/out)")
    parser.add_argument("--procd", default=procd, help="the program (that of tools/unproved.py, in which no call is inlined)")
    parser.add_argument("--scripts", type=int, default=10000, help="how many scripts (10000)")
    parser.add_argument("--steps", type=int, default=40, help="steps a script (40)")
    parser.add_argument("--seed", type=int, default=1, help="the first script's seed (1); then the next")
    parser.add_argument("sections", nargs="*", metavar="SECTION", help=f"{', '.join(SECTIONS)} (the first two)")
    options = parser.parse_args()
    if not set(options.sections) <= set(SECTIONS):
        parser.error(f"the sections are {', '.join(SECTIONS)}")
    sections = options.sections or ["pairs", "worlds"]
    for section in sections:
        path, builds = options.tests, "rt test in the crate of that name"
        if section == "worlds":
            path, builds = options.procd, "tools/unproved.py"
        if not pathlib.Path(path).exists():
            parser.error(f"there is no {path}: {builds} builds it")
    with tempfile.TemporaryDirectory() as folder:
        good = [SECTIONS[section](options, pathlib.Path(folder)) for section in sections]
    sys.exit(0 if all(good) else 1)


if __name__ == "__main__":
    main()
