#!/usr/bin/env python3
"""The line of the source that `verify` names beside each slot, against what LLVM reads in the same object file.

usage: tools/line_tables.py [--procd PATH] [--store NAME OBJECT]

Of each object file each slot in turn gets an opcode that there isn't, which `verify` then names with its line. Object files
are those of outside/lines/objects.jsonl, with the lines that llvm-dwarfdump and llvm-objdump say; and, where clang and these
are there, what clang makes of each C file of examples/. `--store` adds an object file under a name to the stored ones instead.
A line for each slot whose line is another, and one with the count. The status is 1 where one is.
"""
import argparse
import collections
import itertools
import json
import pathlib
import re
import shutil
import subprocess
import sys
import tempfile

from built import PROCD, TOP
from objects import CODE, UNKNOWN, code_of, patched, with_lines
from trying import Program

OBJECTS = TOP / "tools" / "outside" / "lines" / "objects.jsonl"
TOOLS = ["clang", "llvm-dwarfdump", "llvm-objdump"]
OPTIONS = [[f"-gdwarf-{version}", *further] for version in (4, 5) for further in (["-O1", "-mcpu=v1"], ["-O2", "-mcpu=v3"])]
NONE = "-"

Row = collections.namedtuple("Row", "address line file")


def said(*words):
    return subprocess.run([str(word) for word in words], stdout=subprocess.PIPE, text=True, check=True).stdout


def sequences(path):
    """The rows of each sequence of the line table, by llvm-dwarfdump."""
    files, rows, number = {}, [], None
    for line in said("llvm-dwarfdump", "--debug-line", path).splitlines():
        if begin := re.match(r"file_names\[ *(\d+)\]:", line):
            number = int(begin[1])
        elif name := re.match(r'\s+name: "(.*)"$', line):
            files[number] = re.sub("[^!-~]", "?", name[1].rpartition("/")[2])
        elif row := re.match(r"0x([0-9a-f]{16}) +(\d+) +\d+ +(\d+) +\d+ +\d+ *(.*)$", line):
            rows.append(Row(int(row[1], 16), int(row[2]), files.get(int(row[3]))))
            if "end_sequence" in row[4]:
                yield rows
                rows = []


def places(path):
    """The section of each sequence, by the relocations of its addresses, which llvm-objdump lists in their order."""
    of_lines = said("llvm-objdump", "-r", path).partition("RELOCATION RECORDS FOR [.debug_line]:")[2]
    symbols = re.findall(r"(?m)^[0-9a-f]+ \S+ +([^.\s]\S*)$", of_lines.partition("RELOCATION RECORDS")[0])
    return [section for section, _ in itertools.groupby(symbols)]


def lines_by_llvm(path, data):
    """Of each procedure the line of each slot."""
    found = {name: [NONE] * (size // 8) for name, (_, size) in code_of(data).items()}
    for section, rows in zip(places(path), sequences(path), strict=True):
        for row, behind in zip(rows, rows[1:]):
            for address in range(row.address, behind.address, 8) if section.startswith(CODE) and row.line else ():
                found[section.removeprefix(CODE)][address // 8] = f"{row.file}:{row.line}"
    return found


def compiled(folder):
    """What clang makes of the C files here, and the lines that LLVM's tools say."""
    for source in sorted(TOP.glob("examples/*/*.c")):
        for options in OPTIONS:
            path = folder / "compiled.o"
            said("clang", "-target", "bpf", *options, "-c", source, "-o", path)
            data = path.read_bytes()
            yield f"{source.name} {' '.join(options)}", data, lines_by_llvm(path, data)


def named(program, data, name, place, slot):
    """The slot that is named where this one's opcode is none, and the line beside it."""
    printed = program.run(["verify", "-"], patched(data, (place + 8 * slot, UNKNOWN))).out.decode()
    found = re.search(rf"(?m)^{name} E[56] \w+ slot (\d+)(?: (\S+))?$", printed)
    return (int(found[1]), found[2] or NONE) if found else (slot, printed)


def differences(program, case, data, lines):
    """How many slots there are, and a text for each whose line is another."""
    count, wrong = 0, []
    for name, (place, _) in code_of(data).items():
        for slot in range(len(lines[name])):
            at, line = named(program, data, name, place, slot)
            count += 1
            if line != lines[name][at]:
                wrong.append(f"{case}: {name} slot {at}: {line!r}, not {lines[name][at]!r}")
    return count, wrong


def store(name, path):
    data = pathlib.Path(path).read_bytes()
    case = {"name": name, "lines": lines_by_llvm(path, data), "object": data.hex()}
    with OBJECTS.open("a") as cases:
        cases.write(json.dumps(case) + "\n")


def main():
    parser = argparse.ArgumentParser(description=__doc__, formatter_class=argparse.RawDescriptionHelpFormatter)
    parser.add_argument("--procd", default=PROCD, help="the program (that of crates/procd/out)")
    parser.add_argument("--store", nargs=2, metavar=("NAME", "OBJECT"), help="adds a case")
    options = parser.parse_args()
    if options.store:
        store(*options.store)
        return
    if not pathlib.Path(options.procd).exists():
        parser.error(f"there is no {options.procd}: ./procd builds it")
    missing = [tool for tool in TOOLS if not shutil.which(tool)]
    program, files, slots, wrong = Program(options.procd, None), 0, 0, []
    with tempfile.TemporaryDirectory() as folder:
        cases = list(with_lines()) + ([] if missing else list(compiled(pathlib.Path(folder))))
    for case, data, lines in cases:
        count, differing = differences(program, case, data, lines)
        files, slots, wrong = files + 1, slots + count, wrong + differing
    for text in wrong:
        print(f"line_tables: {text}")
    left_out = f", compiled files left out, since there is no {', '.join(missing)}" if missing else ""
    print(f"line_tables: {files} object files, {slots} slots{left_out}, {len(wrong) or 'nothing'} wrong")
    sys.exit(1 if wrong else 0)


if __name__ == "__main__":
    main()
