#!/usr/bin/env python3
"""outside_rows.py: code and the answers that others give to it, as rows for the definitions.

outside/SUITE/cases.jsonl has code as hex, its arguments and the answer of an interpreter or a
compiler; outside/README.md says where each suite comes from. Each case becomes a lemma of
crates/semantics/proofs/SUITERows.antt: the definitions, computed by the prover on these bytes,
give that answer. A suite that is too long for one file is cut into SUITERows1.antt, SUITERows2.antt
and so on. Writes these files."""
import glob
import json
import os
import textwrap

HERE = os.path.dirname(os.path.abspath(__file__))
PROOFS = os.path.join(HERE, "..", "crates", "semantics", "proofs")

LINES_IN_A_FILE = 780

HEAD = """-- Code, and answers of others to it: {said}.
-- The definitions, computed, give these answers.
-- A slot is written as the 64-bit number that its bytes are, little-endian. Made by tools/outside_rows.py.
use Rattle.std.proofs.Common.{{◌≡◌, [], ◌∷◌, Some, refl}}
use Rattle.semantics.specs.Row.{{answer_to}}
"""

SAID = {
    "atomics": "the Linux kernel's interpreter, on programs with each atomic operation",
    "boundaries": "the Linux kernel's interpreter, on programs at the boundaries of each instruction",
    "c-functions": "compiled C functions, and what the same functions answer on the host",
}


def slots(code):
    data = bytes.fromhex(code)
    return [hex(int.from_bytes(data[i : i + 8], "little")) for i in range(0, len(data), 8)]


def listed(items):
    return " ∷ ".join(list(items) + ["[]"])


def wrapped(statement):
    """The statement on lines of at most 120 columns, its answer on one of them."""
    start, answer = statement.rsplit(" ≡ ", 1)
    kept = start + " ≡\0" + answer.replace(" ", "\0")
    lines = textwrap.fill(kept, 120, subsequent_indent="    ", break_long_words=False, break_on_hyphens=False)
    return lines.replace("\0", " ")


def rows(path, suite):
    with open(path) as file:
        for number, line in enumerate(file):
            case = json.loads(line)
            args = listed(str(a) for a in case["args"])
            name = f"{suite.replace('-', '_')}_{number}"
            statement = f"{name} : answer_to ({listed(slots(case['hex']))}) ({args}) ≡ Some {case['expected']}"
            yield f"-- {case['name']}\n{wrapped(statement)}\n{name} = refl\n"


def files(suite, made):
    """The modules of a suite, each with its rows."""
    parts = [[]]
    lines = 0
    for row in made:
        lines += row.count("\n") + 1
        if lines > LINES_IN_A_FILE:
            parts.append([])
            lines = row.count("\n") + 1
        parts[-1].append(row)
    module = "".join(part.capitalize() for part in suite.split("-")) + "Rows"
    for number, part in enumerate(parts, 1):
        yield (module if len(parts) == 1 else f"{module}{number}"), part


def write(module, suite, made):
    with open(os.path.join(PROOFS, module + ".antt"), "w") as file:
        file.write(HEAD.format(said=SAID[suite]) + "\n" + "\n".join(made))
    print(module, len(made))


def main():
    for path in sorted(glob.glob(os.path.join(HERE, "outside", "*", "cases.jsonl"))):
        suite = os.path.basename(os.path.dirname(path))
        for module, made in files(suite, list(rows(path, suite))):
            write(module, suite, made)


main()
