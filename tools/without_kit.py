#!/usr/bin/env python3
"""What a fresh clone says where the Rattle kit isn't in the path: `./procd` and the tools that build, one line each.

usage: tools/without_kit.py
"""
import os
import pathlib
import re
import shutil
import subprocess
import sys
import tempfile

TOP = pathlib.Path(__file__).resolve().parent.parent
COMMANDS = [
    ["./procd", "verify", "-"],
    ["./procd", "--unproved", "verify", "-"],
    ["tools/build.py"],
    ["tools/unproved.py"],
    ["tools/archive.py"],
]


def clone(place):
    """A copy of the repository's files that are asked for, with nothing built."""
    shutil.copytree(TOP / "tools", f"{place}/tools", ignore=shutil.ignore_patterns("__pycache__"))
    shutil.copyfile(TOP / "crates.txt", f"{place}/crates.txt")
    shutil.copy(TOP / "procd", f"{place}/procd")
    for crate in (TOP / "crates").iterdir():
        shutil.copytree(crate / "src", f"{place}/crates/{crate.name}/src")


def path_without_kit(place):
    """A folder of commands that has all of the path's but `rt`."""
    commands = f"{place}/commands"
    os.mkdir(commands)
    for folder in os.environ["PATH"].split(":"):
        for name in os.listdir(folder) if os.path.isdir(folder) else []:
            if name != "rt" and not os.path.lexists(f"{commands}/{name}"):
                os.symlink(f"{folder}/{name}", f"{commands}/{name}")
    return commands


def main():
    good = True
    with tempfile.TemporaryDirectory() as place:
        clone(place)
        env = {**os.environ, "PATH": path_without_kit(place)}
        for words in COMMANDS:
            given = {"cwd": place, "env": env, "stdin": subprocess.DEVNULL}
            ran = subprocess.run(words, **given, capture_output=True, text=True, check=False)
            is_said = re.fullmatch(r"\w+: [^\n]*the Rattle kit[^\n]*README.md[^\n]*\n", ran.stderr)
            if ran.returncode != 70 or ran.stdout or not is_said:
                good = False
                print(f"without_kit: {' '.join(words)}: status {ran.returncode}, {ran.stdout!r}, {ran.stderr!r}")
    print(f"without_kit: {len(COMMANDS)} commands, {'nothing wrong' if good else 'wrong'}")
    sys.exit(0 if good else 1)


if __name__ == "__main__":
    main()
