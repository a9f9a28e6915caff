#!/usr/bin/env python3
"""kernel_answers.py KERNEL_INTERP [LLVM_MC]: whole answers, by the Linux kernel's interpreter.

KERNEL_INTERP is the program that kernel/build.sh makes. The programs of boundaries.py and of
atomics.py are assembled by LLVM_MC (llvm-mc-19) and become cases.jsonl of boundaries and atomics
with what the interpreter answers.
"""
import json
import os
import re
import subprocess
import sys

import atomics
import boundaries

HERE = os.path.dirname(os.path.abspath(__file__))


def answers(program, cases):
    text = "".join(" ".join([code, *map(str, args)]) + "\n" for code, args in cases)
    printed = subprocess.run([program], input=text, capture_output=True, text=True, check=True).stdout
    return [None if line == "trap" else int(line) for line in printed.splitlines()]


def assembled(assembler, lines):
    """The bytes of these lines, as hex digits."""
    words = [assembler, "-triple", "bpfel", "-mcpu=v4", "-show-encoding"]
    printed = subprocess.run(words, input="\n".join(lines) + "\n", capture_output=True, text=True, check=True).stdout
    found = re.findall(r"encoding: \[([^]]*)\]", printed)
    if len(found) != len(lines):
        sys.exit(f"{assembler} did not encode each of {lines}")
    return "".join(byte.strip()[2:] for encoding in found for byte in encoding.split(","))


def made(program, assembler, suite, programs):
    """The cases of a suite whose programs are made here."""
    texts = list(programs)
    codes = [assembled(assembler, lines) for _, lines in texts]
    found = answers(program, [(code, []) for code in codes])
    if None in found:
        sys.exit(f"{suite}: no answer to {texts[found.index(None)]}")
    cases = [
        {"name": name, "hex": code, "args": [], "expected": value}
        for (name, _), code, value in zip(texts, codes, found)
    ]
    os.makedirs(os.path.join(HERE, suite), exist_ok=True)
    with open(os.path.join(HERE, suite, "cases.jsonl"), "w") as file:
        file.writelines(json.dumps(case) + "\n" for case in cases)
    print(suite, len(cases))


def main():
    program = sys.argv[1]
    assembler = sys.argv[2] if len(sys.argv) > 2 else "llvm-mc-19"
    made(program, assembler, "boundaries", boundaries.programs())
    made(program, assembler, "atomics", atomics.programs())


main()
