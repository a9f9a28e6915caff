#!/usr/bin/env python3
"""Tries edits crates/NAME/more-edits/*.edit that say of which functions they are: the prover has to refuse one of these.

  tools/edits_by_function.py --list                the crates that have such edits
  tools/edits_by_function.py CRATE|CRATE/EDIT ..   tries these, or all of a crate

Such an edit has a line `of: FUNCTION ..`, names as a check prints them, or their ends. The functions and what they call are
checked alone, over the libraries that `rt ci` built here. Edits of different functions of a crate are applied together, since a
proof rests on what others promise and not on their bodies; where it isn't plain that a function is refused for its own body, its
edit is tried again alone, over what was proved the first time. An edit of must-fail/ costs its crate a second proof.
"""
import os
import re
import shutil
import subprocess
import sys
import tempfile

from built import TOP, uses
from unproved import Failed, below, kit

MORE = "more-edits"
OF = re.compile(r"(?m)^of: (.+)$")
ENDED = re.compile(r"(?m)^only=\d+ proved=\d+$")
# What a check says of a function: that it is proved, also that it may wait, or that it isn't for what it calls.
JUDGED = re.compile(r"(?m)^fn (\S+): (.*)$")
PROVED = re.compile(r"proved(,|$)")
CALLS = re.compile(r"; it calls |: it calls ")
OWN = "did not prove"
# What the front end says of a text that the prover never reads.
UNREAD = re.compile(r"\berror\[[\w-]+\]")


def text_of(edit):
    """The text of an edit."""
    crate, name = edit.split("/")
    return (TOP / "crates" / crate / MORE / f"{name}.edit").read_text(encoding="utf-8")


def edits():
    """The edits that say of which functions they are."""
    found = sorted((TOP / "crates").glob(f"*/{MORE}/*.edit"))
    return [it for path in found if OF.search(text_of(it := f"{path.parts[-3]}/{path.stem}"))]


def functions_of(edit):
    """The functions that it turns."""
    found = OF.search(text_of(edit))
    if not found:
        raise Failed(f"{edit} doesn't say of which function it is")
    return found[1].split()


def apply(edit, place):
    """Applies it to the copy of its crate in the folder."""
    path = old = None
    for line in text_of(edit).splitlines():
        key, _, said = line.partition(": ") if ": " in line else line.partition(":")
        if key == "file":
            path = f"{place}/{said.strip()}"
        elif key == "old":
            old = said
        elif key == "new":
            with open(path, encoding="utf-8") as file:
                text = file.read()
            if text.count(old) != 1:
                raise Failed(f"{edit}: its text stands {text.count(old)} times: {old}")
            with open(path, "w", encoding="utf-8") as file:
                file.write(text.replace(old, said))


def copy(crate, place):
    """Copies what a check of the crate reads."""
    for part in ("src", "specs", "proofs"):
        if (TOP / "crates" / crate / part).is_dir():
            shutil.copytree(TOP / "crates" / crate / part, f"{place}/{part}")


def command(crate, functions, kit_at):
    """What checks these functions of the crate in the folder where it is run."""
    known = uses()
    built = lambda name: f"{TOP}/crates/{name}/out/rlib"
    words = [f"{kit_at}/bin/rattle", "check", "--crate-name", crate, "--extern", f"std={kit_at}/rlibs/std.rlib"]
    for name in known[crate]:
        words += ["--extern", f"{name}={built(name) if name in known else f'{kit_at}/rlibs'}/{name}.rlib"]
    for place in [f"{kit_at}/rlibs", *map(built, below(crate, known))]:
        words += ["-L", f"dependency={place}"]
    words += ["--antt-project", f"{kit_at}/rattle/logic/antt-project.json", "--logic-built", f"{kit_at}/logic_built"]
    words += ["--links", f"{crate}=", "--jobs", "1"]
    return words + [word for it in functions for word in ("--only", it)] + ["src/lib.rt"]


def judged(crate, edits, kit_at, kept):
    """Applies these to one copy of the crate, and has what they turn checked: by function, what the prover said of it.

    What it proves is kept in this folder, for the next time.
    """
    functions = list(dict.fromkeys(it for edit in edits for it in functions_of(edit)))
    with tempfile.TemporaryDirectory(prefix="edit-") as place:
        copy(crate, place)
        for edit in edits:
            apply(edit, place)
        called = [*command(crate, functions, kit_at), "--incremental", kept]
        ran = subprocess.run(called, cwd=place, stdout=subprocess.PIPE, stderr=subprocess.STDOUT, check=False)
    said = ran.stdout.decode("utf-8", "replace")
    if UNREAD.search(said) or not ENDED.search(said) or ran.returncode not in (0, 1):
        raise Failed(f"{' '.join(edits)}: it didn't reach the prover:\n{said[:2000]}")
    return {it: [how for name, how in JUDGED.findall(said) if f"::{name}".endswith(f"::{it}")] for it in functions}


def is_refused(edit, found, is_alone):
    """Whether one of its functions is refused for its own body, where that is plain, or nothing else can be the reason."""
    said = [how for it in functions_of(edit) for how in found[it] if not PROVED.match(how)]
    return any(is_alone or OWN in how or not CALLS.search(how) for how in said)


def rounds(edits):
    """The edits in lists, in each of which no two are of one function."""
    found = []
    for edit in edits:
        mine = set(functions_of(edit))
        place = next((it for it in found if not mine & it[0]), None)
        if place is None:
            place = (set(), [])
            found.append(place)
        place[0].update(mine)
        place[1].append(edit)
    return [those for _, those in found]


def try_all(crate, edits, kit_at):
    """Tries a crate's edits; says of each what came of it, and answers whether all were refused."""
    refused = {}
    with tempfile.TemporaryDirectory(prefix="edits-") as kept:
        for those in rounds(edits):
            found = judged(crate, those, kit_at, kept)
            refused |= {edit: is_refused(edit, found, len(those) == 1) for edit in those}
        for edit in [it for it, is_well in refused.items() if not is_well]:
            refused[edit] = is_refused(edit, judged(crate, [edit], kit_at, kept), True)
    for edit, is_well in refused.items():
        print(f"{edit}: {'refused' if is_well else 'NOT REFUSED: proved with it: ' + ' '.join(functions_of(edit))}", flush=True)
    return all(refused.values())


def main():
    if len(sys.argv) == 1 or sys.argv[1].startswith("-") and sys.argv[1:] != ["--list"]:
        print(__doc__, file=sys.stderr)
        return 2
    if sys.argv[1:] == ["--list"]:
        print("\n".join(dict.fromkeys(it.split("/")[0] for it in edits())))
        return 0
    wanted = {}
    for word in sys.argv[1:]:
        crate = word.split("/")[0]
        wanted.setdefault(crate, []).extend([word] if "/" in word else [it for it in edits() if it.split("/")[0] == crate])
    try:
        kit_at = kit()
        return 0 if all([try_all(crate, those, kit_at) for crate, those in wanted.items()]) else 1
    except (Failed, OSError) as error:
        print(f"edits_by_function: {error}", file=sys.stderr)
        return 1


if __name__ == "__main__":
    sys.exit(main())
