#!/usr/bin/env python3
"""Where this repository and its built programs are, and which crates there are.

  tools/built.py CRATE    prints where the crate's program lies
"""
import os
import pathlib
import sys

TOP = pathlib.Path(__file__).resolve().parent.parent


def program(name):
    """The program as it was proved and built, or, with MZ_UNPROVED in the environment, as tools/unproved.py compiled it."""
    return TOP / (f"out-unproved/{name}" if os.environ.get("MZ_UNPROVED") else f"crates/{name}/out/{name}")


PROCD = program("procd")
BENCH = program("bench")
NO_KIT = "the Rattle kit isn't in the path (no command rt): README.md, 'Try it in two minutes', says which kit; what is built needs none"


def lines():
    """The lines of crates.txt by the crates that they name, without comments."""
    said = [line.split("#")[0].rstrip() for line in (TOP / "crates.txt").read_text(encoding="utf-8").splitlines()]
    return {line.split(":")[0].split()[0]: line for line in said if ":" in line}


def uses():
    """The crates of crates.txt, each with the libraries that it uses."""
    return {name: line.partition(":")[2].split() for name, line in lines().items()}


if __name__ == "__main__":
    print(*map(program, sys.argv[1:]))
