#!/usr/bin/env python3
"""Where the time of proofs goes: by process and crate of a gate that ran, by function of what a check kept.

  tools/costs.py [FILE]              tables of a gate's processes, as it noted them (out-gate/costs)
  tools/costs.py --functions [N]     the N (50) functions whose proofs are dearest, by crates/*/out/incremental
  tools/costs.py --of PID --to FILE  notes what the process PID and those that it starts take, each second, until it ends

A gate runs the last of these beside it. What a process takes is its time of a processor. One that lives for less than a second
is counted with the one that started it. The modules that `rt check` keeps of a function tell what its proof takes without a run:
`Lts` is the borrow checker's part, `Tie` and `Proof` join it to the contract. A second of a processor makes a megabyte of
small modules, and a third of one of the largest.
"""
import argparse
import collections
import os
import pathlib
import re
import signal
import sys
import time

from built import TOP

NOTED = TOP / "out-gate/costs"
TICKS = os.sysconf("SC_CLK_TCK")
# Seconds of a processor for a megabyte of a module, up to each size in megabytes.
PACE = [(0.5, 1.0), (2, 1.5), (5, 1.9), (float("inf"), 3.1)]
# What a process is for, by its words; the first that fits decides, and else what its parent is for.
TOOLS = [
    (re.compile(r"edits_by_function\.py"), "edits by function"),
    (re.compile(r"unproved\.py|archive\.py --unproved"), "builds without proofs"),
    (re.compile(r"c_interface|archive\.py"), "library for C"),
    (re.compile(r"rt-edit-|must-fail"), "edits in must-fail"),
    (re.compile(r"tools/(costs|side_by_side)\.py|tools/gate\.sh"), "the gate itself"),
    (re.compile(r"\btools/\w+\.(py|sh)|out/bench"), "tries"),
    (re.compile(r"\brt-run-|rattle-test"), "runs of tests and programs"),
    (re.compile(r"/rt ci$"), "rt itself"),
]


class Process:
    """What was seen of a process: what it is for, and what it took so far, with what those took that it waited for."""

    def __init__(self, parent):
        self.parent, self.children, self.is_alive = parent, [], True
        self.name = self.words = self.purpose = None
        self.crate = ""
        self.own = self.waited = 0.0
        if parent:
            parent.children.append(self)

    def runs(self, name, words, place):
        """Notes which program it runs, at first or from now on."""
        self.name, self.words = name, words
        self.purpose = self.found(place) or (self.parent.purpose if self.parent else "the gate itself")

    def found(self, place):
        """What it is for, if its words say so."""
        if os.path.basename(self.words[0]) == "rattle" and "--crate-name" in self.words:
            self.crate = self.words[self.words.index("--crate-name") + 1]
            if self.parent and self.parent.purpose in ("edits by function", "library for C"):
                return self.parent.purpose
            if os.path.basename(place).startswith("rt-edit-"):
                return "edits in must-fail"
            if "--crate-checked" in self.words:
                return f"builds by {self.words[self.words.index('--backend') + 1]}"
            return "tests" if "--test" in self.words else "proofs"
        said = " ".join(self.words)
        return next((purpose for fits, purpose in TOOLS if fits.search(said)), None)

    def add_to(self, sums):
        """Adds what it and those below it took; answers that in seconds. What lived too short to be seen is its own."""
        ended = sum(it.add_to(sums) for it in self.children if not it.is_alive)
        alive = sum(it.add_to(sums) for it in self.children if it.is_alive)
        unseen = max(0.0, self.waited - ended)
        sums[self.purpose, self.crate] += self.own + unseen
        return self.own + unseen + ended + alive


def read(path):
    """The bytes of a file of /proc, or nothing where the process is gone."""
    try:
        return pathlib.Path(path).read_bytes()
    except OSError:
        return b""


class Watch:
    """A process, and all that it starts."""

    def __init__(self, top):
        self.top, self.known = top, {}

    def look(self):
        """Looks at all processes once; answers whether the first one is there."""
        stats = {int(name): read(f"/proc/{name}/stat") for name in os.listdir("/proc") if name.isdigit()}
        # The name stands in brackets, and may have any bytes.
        fields = {pid: [stat[:stat.rfind(b")")], *stat[stat.rfind(b")") + 2:].split()] for pid, stat in stats.items() if stat}
        for it in self.known.values():
            it.is_alive = False
        for pid in sorted(fields, key=lambda it: int(fields[it][20])):
            self.take_in(pid, fields)
        return self.top in fields and fields[self.top][1] != b"Z"

    def take_in(self, pid, fields):
        """Notes what one process took, if it is one of ours."""
        (name, *of), key = fields[pid], (pid, fields[pid][20])
        parent = int(of[1])
        above = self.known.get((parent, fields[parent][20])) if parent in fields else None
        it = self.known.get(key)
        if it is None and (above or pid == self.top):
            it = self.known[key] = Process(above)
        if it and it.name != name:
            words = read(f"/proc/{pid}/cmdline").decode("utf-8", "replace").split("\0")[:-1]
            it.runs(name, words or [""], self.place(pid))
        if it:
            user, system, user_waited, system_waited = (int(ticks) / TICKS for ticks in of[11:15])
            it.own, it.waited, it.is_alive = user + system, user_waited + system_waited, True

    @staticmethod
    def place(pid):
        """The folder in which it works."""
        try:
            return os.readlink(f"/proc/{pid}/cwd")
        except OSError:
            return ""


def follow(top, to):
    """Notes what the process and those that it starts take, until it ends."""
    watch, began, looks = Watch(top), time.monotonic(), 0
    while watch.look():
        if looks % 5 == 0:
            write(to, watch, time.monotonic() - began)
        looks += 1
        time.sleep(1)


def write(to, watch, lasted):
    """Writes what was seen so far: the clock's seconds, and a line for each crate and purpose."""
    sums = collections.Counter()
    for it in watch.known.values():
        if it.parent is None:
            it.add_to(sums)
    lines = [f"clock\t\t{lasted:.0f}", *(f"{purpose}\t{crate}\t{took:.1f}" for (purpose, crate), took in sums.items())]
    pathlib.Path(f"{to}.new").write_text("\n".join(lines) + "\n", encoding="utf-8")
    os.replace(f"{to}.new", to)


def tables(path):
    """Prints a noted gate: minutes by purpose, and seconds by crate."""
    rows = [line.split("\t") for line in path.read_text(encoding="utf-8").splitlines()]
    clock, rows = float(rows[0][2]), [(purpose, crate, float(took)) for purpose, crate, took in rows[1:]]
    by_purpose, by_crate = collections.Counter(), collections.defaultdict(collections.Counter)
    for purpose, crate, took in rows:
        by_purpose[purpose] += took
        if crate:
            by_crate[crate][purpose] += took
    print(f"{sum(by_purpose.values()) / 60:.1f} minutes of a processor in {clock / 60:.1f} minutes of the clock")
    for purpose, took in by_purpose.most_common():
        print(f"{took / 60:8.1f} min  {purpose}")
    print("seconds of a processor, by crate:")
    for crate, those in sorted(by_crate.items(), key=lambda it: -it[1].total()):
        print(f"{those.total():8.0f}  {crate:<18}" + ", ".join(f"{purpose} {took:.0f}" for purpose, took in those.most_common()))


def seconds(size):
    """What a module of so many bytes takes, by its size."""
    return size / 1e6 * next(pace for largest, pace in PACE if size / 1e6 <= largest)


def functions():
    """The modules that checks kept, by function: seconds, and megabytes of each kind."""
    found = collections.defaultdict(collections.Counter)
    for path in TOP.glob("crates/*/out/incremental/*/*.oantt"):
        said = re.fullmatch(r"Rattle-(\w+)-proofs\.(.+)\.(Lts|Tie|Proof)", path.stem)
        if said:
            found[f"{said[1]}::{said[2]}"][said[3]] += path.stat().st_size
    return found


def dearest(count):
    """Prints the functions whose proofs take the most."""
    found = {name: (sum(map(seconds, sizes.values())), sizes) for name, sizes in functions().items()}
    total = sum(took for took, _ in found.values())
    print(f"{len(found)} functions, some {total / 60:.0f} minutes of a processor by the size of what was kept of them")
    print("seconds    Lts    Tie  Proof  (megabytes)")
    for name, (took, sizes) in sorted(found.items(), key=lambda it: -it[1][0])[:count]:
        print(f"{took:7.0f} " + " ".join(f"{sizes[kind] / 1e6:6.1f}" for kind in ("Lts", "Tie", "Proof")) + f"  {name}")


def main():
    parser = argparse.ArgumentParser(description=__doc__, formatter_class=argparse.RawDescriptionHelpFormatter)
    parser.add_argument("--of", type=int, metavar="PID")
    parser.add_argument("--to", metavar="FILE", default=NOTED)
    parser.add_argument("--functions", type=int, nargs="?", const=50, metavar="N")
    parser.add_argument("file", nargs="?", type=pathlib.Path, default=NOTED)
    options = parser.parse_args()
    signal.signal(signal.SIGPIPE, signal.SIG_DFL)
    if options.of:
        follow(options.of, options.to)
    elif options.functions:
        dearest(options.functions)
    elif options.file.exists():
        tables(options.file)
    else:
        parser.error(f"no gate noted anything in {options.file}; tools/gate.sh does")


if __name__ == "__main__":
    sys.exit(main())
