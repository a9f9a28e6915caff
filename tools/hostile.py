#!/usr/bin/env python3
"""Hostile use of the program: code, texts, object files, worlds, memory and files that are against it.

usage: tools/hostile.py [--procd PATH] [--every N] [SECTION..]

Each section prints a line with what it tried and what of it was wrong, and behind it the first of that.
The status is 1 where something was wrong.
"""
import argparse
import pathlib
import sys
import tempfile

from built import PROCD
from hostile_code import hostile_code
from hostile_faults import hostile_files, hostile_memory
from hostile_objects import hostile_objects
from hostile_texts import hostile_texts
from hostile_worlds import hostile_worlds
from trying import Program, Tally

SECTIONS = {
    "code": hostile_code,
    "texts": hostile_texts,
    "objects": hostile_objects,
    "worlds": hostile_worlds,
    "memory": hostile_memory,
    "files": hostile_files,
}


def main():
    parser = argparse.ArgumentParser(description=__doc__, formatter_class=argparse.RawDescriptionHelpFormatter)
    parser.add_argument("--procd", default=PROCD, help="the program (that of crates/procd/out)")
    parser.add_argument("--every", type=int, default=1, help="try one of N of what there is to try (1: all)")
    parser.add_argument("sections", nargs="*", metavar="SECTION", help=f"{', '.join(SECTIONS)} (all)")
    options, good = parser.parse_args(), True
    if not pathlib.Path(options.procd).exists():
        parser.error(f"there is no {options.procd}: ./procd builds it")
    if not set(options.sections) <= set(SECTIONS):
        parser.error(f"the sections are {', '.join(SECTIONS)}")
    with tempfile.TemporaryDirectory() as folder:
        program = Program(options.procd, pathlib.Path(folder))
        for section in options.sections or SECTIONS:
            tally = Tally(section)
            SECTIONS[section](program, tally, options.every)
            good = tally.told() and good
    sys.exit(0 if good else 1)


if __name__ == "__main__":
    main()
