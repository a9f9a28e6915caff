#!/usr/bin/env python3
"""Runs the commands of README.md word by word, where they are said to be run: at the top of a clone.

usage: tools/readme.py [--unproved] [--procd PATH]

The clone is made of the files that git knows here, as they are now, in a folder of its own; the built program takes the place there
of each that `./procd` would make. Each line of a code block that begins with `$ ` is a command; the lines up to the next one are what
it prints. With --unproved each `./procd` is followed by that word, where README doesn't say it. Then `./procd --version` is asked which
commit it is of, and whether it is proved. A line for each that is otherwise, and one with the count; the status is 1 where one was.
"""
import argparse
import os
import pathlib
import re
import shutil
import subprocess
import sys
import tempfile

from built import PROCD, TOP
from dist import release, said_by

PLACES = ("crates/procd/out/procd", "out-unproved/procd")


def commands(text):
    """Each command of the code blocks, with what it is said to print."""
    for block in re.findall(r"^```\n(.*?)^```$", text, re.DOTALL | re.MULTILINE):
        for said in re.split(r"^\$ ", block, flags=re.MULTILINE)[1:]:
            command, _, printed = said.partition("\n")
            yield command, printed.removesuffix("\n")


def clone(top, procd):
    """A clone's files, and the program as if it had been made there."""
    for name in said_by("git", "ls-files").splitlines():
        if os.path.exists(f"{TOP}/{name}"):
            os.makedirs(os.path.dirname(f"{top}/{name}"), exist_ok=True)
            shutil.copy(f"{TOP}/{name}", f"{top}/{name}")
    for place in PLACES:
        os.makedirs(os.path.dirname(f"{top}/{place}"), exist_ok=True)
        shutil.copyfile(procd, f"{top}/{place}")
        os.chmod(f"{top}/{place}", 0o755)


def run(command, top):
    """What it prints, and how it ends."""
    ran = subprocess.run(["sh", "-c", command], cwd=top, capture_output=True, text=True, check=False)
    return ran.stdout.removesuffix("\n"), ran.returncode, ran.stderr


def readme(top, unproved):
    """Runs each; answers how many there are, and what went otherwise."""
    wrong, count = [], 0
    for command, wanted in commands(pathlib.Path(top, "README.md").read_text(encoding="utf-8")):
        count += 1
        if unproved:
            command = re.sub(r"\./procd (?!--unproved )", "./procd --unproved ", command)
        printed, status, told = run(command, top)
        if (printed, status) != (wanted, 0):
            wrong.append(f"{command}: status {status}, it prints {printed!r}, not {wanted!r}; {told}")
    return count, wrong


def versions(top):
    """What `./procd --version` says of itself where that is otherwise: this clone has no commit until it is made."""
    git = "git -c user.name=it -c user.email=it@example.org"
    for made, state in (("true", "commit unknown"), (f"git init -q && git add -A && {git} commit -qm it", None), (f"echo >> crates.txt && touch {' '.join(PLACES)}", "changed")):
        run(made, top)
        commit = state if state == "commit unknown" else f"commit {run('git rev-parse HEAD', top)[0]}"
        whole = f"{commit}, changed" if state == "changed" else commit
        for word, proved in (("", "proved"), ("--unproved ", "NOT PROVED")):
            wanted = f"procd {release()}\n{whole}, {proved}"
            printed = run(f"./procd {word}--version", top)
            if printed[:2] != (wanted, 0):
                yield f"./procd {word}--version: {printed}, not {wanted!r}"


def main():
    parser = argparse.ArgumentParser(description=__doc__, formatter_class=argparse.RawDescriptionHelpFormatter)
    parser.add_argument("--unproved", action="store_true")
    parser.add_argument("--procd", default=str(PROCD), help="the program (that of crates/procd/out)")
    words = parser.parse_args()
    with tempfile.TemporaryDirectory(prefix="readme-") as top:
        clone(top, words.procd)
        count, wrong = readme(top, words.unproved)
        wrong += versions(top)
    for line in wrong:
        print(f"readme: {line}")
    print(f"readme: {count} commands, {'wrong' if wrong else 'nothing wrong'}")
    sys.exit(1 if wrong or not count else 0)


if __name__ == "__main__":
    main()
