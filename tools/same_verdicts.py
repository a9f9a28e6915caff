#!/usr/bin/env python3
"""Compares what procd says of code that comes as bytes, in an object file and as text.

  tools/same_verdicts.py [--procd PROCD] [--jobs N] [CORPUS..]

A CORPUS has a case a line, as tools/outside/*/cases.jsonl, which are taken where none is named: JSON with a name and the
code as hex digits. Each code, as that of a procedure without arguments and slots, gets one verdict, that it is accepted,
or the fault and its slot: by `verify` of an object file, by `verify` of a script with its disassembly where it decodes, and
by `exec`. The same is asked, but of `exec`, where the procedure has 8 arguments and two slots, so that calls can be good.
"""
import argparse
import collections
import concurrent.futures
import json
import os
import pathlib
import re
import sys
import tempfile

from built import PROCD, TOP
from objects import named, object_of, taking
from trying import SHOWN, Program, undocumented

# How many arguments, and slots: data component, table, flags (1: writes, 2: the key is an argument's number) and key.
SHAPES = {"plain": (0, []), "with slots": (8, [(0, 0, 1, 7), (0, 1, 2, 5)])}
LINES = {(0, 0, 1, 7): "slot write 0 0 7", (0, 1, 2, 5): "slot read 0 1 $5"}


def codes_of(paths):
    """The different codes of these files."""
    found = {}
    for path in paths:
        for line in pathlib.Path(path).read_text(encoding="utf-8").splitlines():
            if line.strip():
                case = json.loads(line)
                found.setdefault(bytes.fromhex(case["hex"]), case["name"])
    return found


class Asked:
    """One code, and what is said of it; `wrong` are ends that no page knows."""

    def __init__(self, program, code):
        self.program, self.code, self.wrong = program, code, []
        self.path = program.file(code)

    def ran(self, *words, given=b""):
        said = self.program.run(words, given)
        if (why := undocumented(said)) or said.status > 1:
            self.wrong.append(f"{' '.join(map(str, words))}: {why or said}")
        return said

    def by_object(self, args, slots):
        data = object_of(named(b"p", self.code, taking(args, *slots)))
        return self.ran("verify", self.program.file(data)).out.decode().rstrip("\n")

    def by_text(self, text, args, slots):
        script = f"dc 1 1\nproc p {args}\n" + "".join(f"{LINES[it]}\n" for it in slots) + text + "end\n"
        return self.ran("verify", "-", given=script.encode()).out.decode().rstrip("\n")

    def by_exec(self):
        return self.ran("exec", "--raw", self.path).out.decode().rstrip("\n")

    def verdicts(self):
        """What was said of it, by shape and by how it was asked."""
        text = self.ran("dis", "--raw", self.path)
        for shape, (args, slots) in SHAPES.items():
            yield shape, "object", self.by_object(args, slots)
            if text.status == 0:
                yield shape, "text", self.by_text(text.out.decode(), args, slots)
        yield "plain", "exec", self.by_exec()


def verdict_in(how, said):
    """The verdict in what was printed, alike however it was asked: `accepted`, or a code, its name, and the slot."""
    if how == "exec":
        return re.sub(r"^refused ", "", said) if said.startswith("refused ") else "accepted"
    if said.startswith("refused object p "):
        return said.removeprefix("refused object p ")
    return re.sub(r"^accepted \d+$", "accepted", said.removeprefix("p "))


def differences(program, code):
    """How many verdicts there were, each, and those of one shape that differ."""
    asked, by_shape = Asked(program, code), collections.defaultdict(dict)
    for shape, how, said in asked.verdicts():
        by_shape[shape][how] = verdict_in(how, said)
    wrong = asked.wrong + [f"{shape}: {found}" for shape, found in by_shape.items() if len(set(found.values())) > 1]
    return [next(iter(found.values())).split()[0] for found in by_shape.values()], wrong


def main():
    said = argparse.ArgumentParser(description=__doc__, formatter_class=argparse.RawDescriptionHelpFormatter)
    said.add_argument("--procd", default=PROCD)
    said.add_argument("--jobs", type=int, default=os.cpu_count())
    said.add_argument("corpus", nargs="*", default=sorted(TOP.glob("tools/outside/*/cases.jsonl")))
    options = said.parse_args()
    codes, counts, wrong = codes_of(options.corpus), collections.Counter(), []
    with tempfile.TemporaryDirectory() as folder, concurrent.futures.ThreadPoolExecutor(options.jobs) as pool:

        def one(code):
            with tempfile.TemporaryDirectory(dir=folder) as own:
                return differences(Program(options.procd, pathlib.Path(own)), code)

        for name, (verdicts, differing) in zip(codes.values(), pool.map(one, codes)):
            counts.update(verdicts)
            wrong += [f"{name}: {text}" for text in differing]
    print(f"verdicts: {len(codes):,} codes, {', '.join(f'{it} {counts[it]:,}' for it in sorted(counts))}, {len(wrong) or 'nothing'} wrong")
    for text in wrong[:SHOWN]:
        print(f"  {text}")
    return bool(wrong)


if __name__ == "__main__":
    sys.exit(main())
