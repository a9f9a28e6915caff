#!/usr/bin/env python3
"""Tries the edits crates/NAME/more-edits/*.edit, which aren't part of the gate: the prover has to refuse each.

  tools/edits.py [NAME..]            those of all crates, or of these
  tools/edits.py NAME/EDIT [..]      these alone, as tc_core/sent-while-down

They are like the edits of must-fail/, which `rt ci` tries; these stand apart to keep it short, since each takes a processor
for 20 to 40 seconds. Here they take the place of the others in a copy of the repository, for `rt must-fail NAME..`, or
`rt ci NAME..` where the kit has it, which say of each what became of it. The libraries that `rt check` built here are taken
over, those that it didn't are proved. The last line is `N refused, M not`; M counts those that can't be applied too.
"""
import os
import re
import shutil
import subprocess
import sys
import tempfile

from build import PARTS
from built import TOP

MORE = "more-edits"
BUILT = "out/rlib"
TRIED = re.compile(r"must-fail (\S+/\S+)\.edit: (.*)")


def edits_of(crate):
    """The names of a crate's further edits."""
    at = f"{TOP}/crates/{crate}/{MORE}"
    return sorted(it.removesuffix(".edit") for it in os.listdir(at) if it.endswith(".edit")) if os.path.isdir(at) else []


def wanted(words):
    """The edits that the words name, as CRATE/EDIT; nothing where one names none."""
    if not words:
        words = os.listdir(f"{TOP}/crates")
        return [f"{crate}/{it}" for crate in sorted(words) for it in edits_of(crate)]
    found = []
    for word in words:
        crate, _, edit = word.partition("/")
        of_word = [f"{crate}/{it}" for it in edits_of(crate) if edit in ("", it)]
        if not of_word:
            return []
        found += of_word
    return found


def copied(place, edits):
    """Copies the repository, with these edits as those that must fail and no others."""
    for name in ("crates.txt", "HANDLES"):
        shutil.copyfile(f"{TOP}/{name}", f"{place}/{name}")
    os.mkdir(f"{place}/.git")  # (the copy is the top of a repository)
    for crate in os.listdir(f"{TOP}/crates"):
        for part in [*PARTS, BUILT]:
            if os.path.isdir(f"{TOP}/crates/{crate}/{part}"):
                shutil.copytree(f"{TOP}/crates/{crate}/{part}", f"{place}/crates/{crate}/{part}")
    for it in edits:
        crate, name = it.split("/")
        os.makedirs(f"{place}/crates/{crate}/must-fail", exist_ok=True)
        shutil.copyfile(f"{TOP}/crates/{crate}/{MORE}/{name}.edit", f"{place}/crates/{crate}/must-fail/{name}.edit")


def command(names):
    """What tries the edits of these crates: some kits have `rt ci NAME..`, which takes over what it proved before."""
    usage = subprocess.run(["rt", "--help"], stdout=subprocess.PIPE, stderr=subprocess.STDOUT, text=True).stdout
    return ["rt", "ci" if re.search(r"rt ci \[?[A-Z]", usage) else "must-fail", *names]


def main():
    edits = wanted(sys.argv[1:])
    if not edits:
        print(__doc__, file=sys.stderr)
        return 2
    refused = set()
    with tempfile.TemporaryDirectory(prefix="out-edits-", dir=TOP) as place:
        copied(place, edits)
        names = sorted({it.split("/")[0] for it in edits})
        with subprocess.Popen(command(names), cwd=place, stdout=subprocess.PIPE, stderr=subprocess.STDOUT, text=True) as ran:
            for line in ran.stdout:
                tried = TRIED.search(line)
                if tried:
                    print(line, end="", flush=True)
                    if tried[2].startswith("refused, "):
                        refused.add(tried[1])
    others = [it for it in edits if it not in refused]
    print("".join(f"not refused: {it}\n" for it in others), end="")
    print(f"{len(refused)} refused, {len(others)} not")
    return 1 if others else 0


if __name__ == "__main__":
    sys.exit(main())
