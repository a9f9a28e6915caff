#!/usr/bin/env python3
"""Proves a crate and those that it stands on, side by side, and builds it if it is a program.

  tools/build.py [CRATE]   (procd, if none is named)

`rt` works in one crate of a checkout at a time. So each crate is proved in a copy of its own, over the libraries that are
built by then: as many at once as there are processors and memory for, first those with the longest chain behind them. What
rt makes of a crate comes back to its crates/NAME/out. Standard error says what is proved, and how long what is left takes
by what was seen so far. The status is 70 where something isn't proved.
"""
import fcntl
import os
import re
import shutil
import signal
import subprocess
import sys
import time

import built
from built import NO_KIT, TOP

PARTS = ("src", "specs", "proofs")
GIGABYTE = 1 << 30
SHORTEST = 5  # seconds: what took less was built before, and says nothing of the pace


class Crate:
    """A crate, what it stands on, and how much there is to prove in it."""

    def __init__(self, name, known):
        self.name, self.folder, self.line = name, f"{TOP}/crates/{name}", known.lines[name]
        own = [known[it] for it in known.uses[name] if it in known.uses]
        self.below = list(dict.fromkeys(crate for it in own for crate in [*it.below, it]))
        self.is_program = os.path.isfile(f"{self.folder}/src/main.rt")
        files = [f"{at}/{it}" for part in PARTS for at, _, names in os.walk(f"{self.folder}/{part}") for it in names]
        self.work = sum(count_of_lines(it) * (3 if it.endswith(".rt") else 1) for it in files if not it.endswith("tests.rt"))
        # A check takes one gigabyte, and more by what it proves and what it loads of the crates below.
        self.memory = GIGABYTE + (self.work // 3 + sum(it.work for it in self.below) // 40) * 1_000_000

    def stored_words(self):
        """The words that the program is run with."""
        path = f"{self.folder}/args"
        if not os.path.isfile(path):
            return []
        with open(path, encoding="utf-8") as it:
            return it.read().split("\n")[:-1]

    def stored_input(self):
        """The file that it is run on."""
        path = f"{self.folder}/stdin"
        return path if os.path.isfile(path) else os.devnull


class Known(dict):
    """The crates of crates.txt, each made when it is asked for."""

    def __init__(self):
        super().__init__()
        self.lines, self.uses = built.lines(), built.uses()

    def __missing__(self, name):
        self[name] = Crate(name, self)
        return self[name]


def count_of_lines(path):
    with open(path, "rb") as it:
        return it.read().count(b"\n")


def tell(text):
    print(f"procd: {text}", file=sys.stderr, flush=True)


def available():
    """The memory that is free for it."""
    with open("/proc/meminfo", encoding="ascii") as it:
        return int(re.search(r"MemAvailable:\s+(\d+)", it.read())[1]) * 1024


def linked(one, other):
    """Copies a folder by links: rt puts a new file in the place of one that it made, and writes into none."""
    if os.path.isdir(one):
        shutil.copytree(one, other, copy_function=os.link)


def removed(path):
    """Removes a file or a folder, if there is one."""
    if os.path.isdir(path):
        shutil.rmtree(path)
    elif os.path.lexists(path):
        os.remove(path)


class Proof:
    """One crate that is being proved, in a copy of what it needs."""

    def __init__(self, crate, place, jobs):
        self.crate, self.jobs, self.began = crate, jobs, time.time()
        self.place = f"{place}/{crate.name}"
        needed = [*crate.below, crate]
        for it in needed:
            there = f"{self.place}/crates/{it.name}"
            for part in PARTS:
                if os.path.isdir(f"{it.folder}/{part}"):
                    shutil.copytree(f"{it.folder}/{part}", f"{there}/{part}")
            for kept in ("rlib", "incremental") if it is crate else ("rlib",):
                linked(f"{it.folder}/out/{kept}", f"{there}/out/{kept}")
        shutil.copyfile(f"{TOP}/HANDLES", f"{self.place}/HANDLES")
        with open(f"{self.place}/crates.txt", "w", encoding="utf-8") as listed:
            listed.writelines(f"{it.line}\n" for it in needed)
        self.run = self.begun()

    def begun(self):
        words, given = ["rt", "lib", "--jobs", str(self.jobs)], os.devnull
        if self.crate.is_program:
            # To build a program is to run it, here on what is stored for it.
            words = ["rt", "run", "--jobs", str(self.jobs), "--", *self.crate.stored_words()]
            given = self.crate.stored_input()
        with open(given, "rb") as given, open(f"{self.place}/said", "wb") as said:
            where = f"{self.place}/crates/{self.crate.name}"
            return subprocess.Popen(words, cwd=where, stdin=given, stdout=said, stderr=subprocess.STDOUT, start_new_session=True)

    def said(self):
        with open(f"{self.place}/said", encoding="utf-8", errors="replace") as it:
            return it.read()

    def bring_back(self):
        """Puts what rt made in the place of what was there, while no other rt works on it."""
        held = os.open(self.crate.folder, os.O_RDONLY)
        fcntl.flock(held, fcntl.LOCK_EX)
        made, kept = f"{self.place}/crates/{self.crate.name}/out", f"{self.crate.folder}/out"
        os.makedirs(kept, exist_ok=True)
        for name in os.listdir(made):
            removed(f"{kept}/{name}")
            os.rename(f"{made}/{name}", f"{kept}/{name}")
        os.close(held)
        shutil.rmtree(self.place)

    def stop(self):
        if self.run.poll() is None:
            os.killpg(self.run.pid, signal.SIGTERM)
            self.run.wait()


class Plan:
    """What is left to prove, what is being proved, and how fast it went."""

    def __init__(self, top, place):
        self.left, self.place = [*top.below, top], place
        self.count, self.began, self.lanes = len(self.left), time.time(), len(os.sched_getaffinity(0))
        self.memory, self.running, self.seen = 0.85 * available(), [], []
        self.behind = {crate: 0 for crate in self.left}
        for crate in reversed(self.left):
            self.behind[crate] += crate.work
            for it in crate.below:
                self.behind[it] = max(self.behind[it], self.behind[crate])

    def start_what_can(self):
        """Begins the ready crates that there are processors and memory for; one with no other beside it gets several."""
        waiting = {it for it in self.left} | {it.crate for it in self.running}
        ready = sorted((it for it in self.left if not waiting & set(it.below)), key=lambda it: -self.behind[it])
        for at, crate in enumerate(ready):
            idle = self.lanes - sum(it.jobs for it in self.running)
            room = self.memory - sum(it.crate.memory * (1 + 0.6 * (it.jobs - 1)) for it in self.running)
            if idle > 0 and (not self.running or crate.memory <= room):
                jobs = max(1, min(4, idle // (len(ready) - at), 1 + int((room / crate.memory - 1) / 0.6)))
                self.left.remove(crate)
                self.running.append(Proof(crate, self.place, jobs))

    def end_what_has(self):
        """Takes in what has been proved; answers one that wasn't, if there is one."""
        for proof in [it for it in self.running if it.run.poll() is not None]:
            if proof.run.returncode:
                return proof
            self.running.remove(proof)
            if (took := time.time() - proof.began) > SHORTEST:
                self.seen.append((took, proof.crate.work))
            proof.bring_back()
            self.tell_of(proof.crate)
        return None

    def tell_of(self, crate):
        """Says how far it is. What is left takes its longest chain, or all of it by all processors, at the pace that was seen."""
        open_ones = [*self.left, *(it.crate for it in self.running)]
        done = self.count - len(open_ones)
        text = f"{done} of {self.count} crates proved ({crate.name}), {clock(time.time() - self.began)} so far"
        if open_ones and self.seen:
            pace = sum(it for it, _ in self.seen) / sum(it for _, it in self.seen)
            chain = max(self.behind[it] for it in open_ones)
            text += f", some {clock(pace * max(chain, sum(it.work for it in open_ones) / self.lanes))} left"
        tell(text)

    def all(self):
        """Proves all; answers whether it could."""
        try:
            while self.left or self.running:
                self.start_what_can()
                failed = self.end_what_has()
                if failed:
                    tell(f"{failed.crate.name} isn't proved; rt said:")
                    print(failed.said(), end="", file=sys.stderr)
                    return False
                time.sleep(0.2)
            return True
        finally:
            for it in self.running:
                it.stop()


def clock(seconds):
    return f"{int(seconds) // 60} min {int(seconds) % 60:02} s"


def swept():
    """A folder for the copies; those of runs that were killed are removed."""
    for name in os.listdir(TOP):
        if (found := re.fullmatch(r"out-proving-(\d+)", name)) and not os.path.exists(f"/proc/{found[1]}"):
            shutil.rmtree(f"{TOP}/{name}")
    return f"{TOP}/out-proving-{os.getpid()}"


def main():
    name = sys.argv[1] if len(sys.argv) > 1 else "procd"
    known = Known()
    if len(sys.argv) > 2 or name not in known.uses:
        print(__doc__, file=sys.stderr)
        return 2
    if not shutil.which("rt"):
        tell(NO_KIT)
        return 70
    signal.signal(signal.SIGTERM, lambda *_: sys.exit(70))
    place = swept()
    try:
        plan = Plan(known[name], place)
        tell(f"proving the {plan.count} crates of {name}, on {plan.lanes} processors")
        return 0 if plan.all() else 70
    except KeyboardInterrupt:
        return 70
    finally:
        shutil.rmtree(place, ignore_errors=True)


if __name__ == "__main__":
    sys.exit(main())
