#!/usr/bin/env python3
"""What the program tells a terminal on standard error, by a pseudo-terminal, and how a signal ends it.

usage: tools/terminal.py [--procd PATH]

Of a script that is refused, the word that is at fault; of an object file's procedures, which line of C is at fault and
how it is mended; of a long run, how many calls are answered, of how many, and how many a second; SIGINT and SIGTERM end
a run at once, with nothing on standard output. The expected lines are written by hand. A line for each that is otherwise, and one with the count; the
status is 1 where one was.
"""
import argparse
import errno
import os
import pty
import re
import signal
import subprocess
import sys
import tempfile
import time

from built import PROCD
from objects import named, object_of, unit
from printed_rows.objects import GET, WITH_FIELD, with_lines

DC = "dc 65536 1048576\n"
PROC = "proc {0} 2\nslot write {1} 0 $0\nldxdw r6, [r1+8]\nmov r1, 0\ncall 5\nstxdw [r0+0], r6\n"
PROC += "mov r1, 0\ncall 2\nmov r0, 0\nexit\nend\n"
PUT = DC + PROC.format("put", 0)
# So many calls take some seconds, on fast processors too; a data component performs a million.
CALLS, DCS = 2_700_000, 3
BEGINS = "is no word that a line outside of procedures begins with"
# A command, a script, its line on standard output, and what the terminal is told.
REFUSED = [
    (
        "run", "dc 1 1\nfoo 1\n", "line 2 F1 BadLine",
        f'line 2: "foo" {BEGINS}; of run these are dc, proc, first and call',
    ),
    ("verify", "foo\n", "line 1 F1 BadLine", f'line 1: "foo" {BEGINS}; of verify these are dc and proc'),
    (
        "world", "dc 1 1\n\nFirst a\n", "line 3 F1 BadLine",
        f'line 3: "First" {BEGINS}; of world these are dc, proc and the steps, as admit or ask',
    ),
    ("run", "dc 1 1\nask 1\n", "line 2 F1 BadLine", 'line 2: "ask" is a word of scripts for world alone'),
    ("world", PUT + "call put 1 2\n", "line 13 F1 BadLine", 'line 13: "call" is a word of scripts for run alone'),
    ("run", "dc 4\n", "line 1 F1 BadLine", 'line 1: a line that begins with "dc" is of the form dc ROWS OPS'),
    (
        "run", "dc 1 1\nproc a 0\nslot reed 0 0 1\n", "line 3 F1 BadLine",
        'line 3: a line that begins with "slot" is of the form slot read|write DC TABLE KEY',
    ),
    (
        "verify", "dc 1 1\nproc a 0\n exit\n", "line 3 F1 BadLine",
        'line 3: the script ends inside of a procedure: a line "end" is missing',
    ),
    (
        "verify", "dc 1 1\nproc a 0\ncall 1\n", "line 3 F1 BadLine",
        'line 3: the script ends inside of a procedure: a line "end" is missing',
    ),
    (
        "run", "dc 1 1\nproc a 0\nslot read 0 70000 1\n", "line 3 F2 BadNumber",
        'line 3: "70000" is no number from 0 to 65535 in decimal digits',
    ),
    (
        "run", "dc 1 1\nproc a 0\nslot read 0 0 $256\n", "line 3 F2 BadNumber",
        'line 3: "256" is no number from 0 to 255 in decimal digits',
    ),
    ("run", "dc +4 1\n", "line 1 F2 BadNumber", 'line 1: "+4" is no number from 0 to 65536 in decimal digits'),
    (
        "run", "dc 4 1048577\n", "line 1 F2 BadNumber",
        'line 1: "1048577" is no number from 0 to 1048576 in decimal digits',
    ),
    (
        "run", "dc 1 1\nproc a 256\n", "line 2 F2 BadNumber",
        'line 2: "256" is no number from 0 to 255 in decimal digits',
    ),
    ("run", PUT + "call put 1 x\n", "line 13 F2 BadNumber", 'line 13: "x" is no number of 64 bits in decimal digits'),
    (
        "world", "dc 1 1\nrestart 70000\n", "line 2 F2 BadNumber",
        'line 2: "70000" is no number from 0 to 65535 in decimal digits',
    ),
    (
        "world", "dc 1 1\nforge 1 done was y\n", "line 2 F2 BadNumber",
        'line 2: "y" is no number of 64 bits in decimal digits',
    ),
    (
        "world", "dc 1 1\nforge 1 value -1\n", "line 2 F2 BadNumber",
        'line 2: "-1" is no number of 64 bits in decimal digits',
    ),
    (
        "run", "\tf\x1boo\n", "line 1 F1 BadLine",
        f'line 1: "f\\u{{1b}}oo" {BEGINS}; of run these are dc, proc, first and call',
    ),
    ("run", "proc a 0\n", "line 1 F9 Order", ""),
    ("verify", PUT + "first put 1 2\n", "line 13 F1 BadLine", 'line 13: "first" is a word of scripts for run alone'),
    ("verify", PUT + "admit put 1 2\n", "line 13 F1 BadLine", 'line 13: "admit" is a word of scripts for world alone'),
    ("run --workers 65", PUT, "G1 Workers", "--workers <N>: 65 is no number from 1 to 64"),
    ("run --partitions --workers 0", PUT, "G1 Workers", "--workers <N>: 0 is no number from 1 to 64"),
    ("run --tries 1001", PUT, "G2 Tries", "--tries <N>: 1001 is no number from 1 to 1000"),
]
# Takes a line of progress away, before another line and at the end.
CLEARED = "\r\x1b[K"
TESTED = "test what record_read returned against 0 before its use"
# Object files, what `verify` prints, and what the terminal is told.
CURED = [
    (object_of(GET), "get V10 MaybeNull slot 2\n", f"get: {TESTED}\n"),
    (with_lines(unit((0, 3))), "get V10 MaybeNull slot 2 bad.c:3\n", f"get: {TESTED}\n"),
    (object_of(named(b"seven") + named(b"used", WITH_FIELD)), "seven accepted 2\nused E5 UnusedField slot 1\n", ""),
]
# A source with a line of 300 letters, one that would erase the terminal, and none at all; what is told of its lines 1 to 5.
SOURCE = b"int x;\n\treturn\x1b[2J*p;\n" + b"x" * 300 + b"\n\xc3\xa4\n"
QUOTED = ["int x;", " return?[2J*p;", "x" * 200, "\u00e4", None]


def on_terminal(words, given):
    """Runs it with a terminal as standard error: the status, standard output, and what the terminal got."""
    reader, terminal = pty.openpty()
    with tempfile.TemporaryFile() as script, tempfile.TemporaryFile() as out:
        script.write(given)
        script.seek(0)
        with subprocess.Popen(words, stdin=script, stdout=out, stderr=terminal) as process:
            os.close(terminal)
            told = b""
            while chunk := read_some(reader):
                told += chunk
        out.seek(0)
        printed = out.read().decode()
    os.close(reader)
    return process.returncode, printed, told.decode().replace("\r\n", "\n")


def read_some(reader):
    """What a terminal's other side gives; nothing once nobody has it open."""
    try:
        return os.read(reader, 4096)
    except OSError as error:
        if error.errno != errno.EIO:
            raise
        return b""


def refusals(procd):
    """Each script that is refused, where that went otherwise."""
    for command, script, why, told in REFUSED:
        wanted = (1, f"refused {why}\n", f"{told}\n" if told else "")
        ended = on_terminal([procd, *command.split(), "-"], script.encode())
        if ended != wanted:
            yield f"{command} of {script!r}: {ended}, not {wanted}"


def cures(procd):
    """Each object file with a procedure that is refused, where that went otherwise."""
    for file, *wanted in CURED:
        ended = on_terminal([procd, "verify", "-"], file)
        if ended != (1, *wanted):
            yield f"verify of {wanted[0]!r}: {ended}"


def told_of_line(procd, folder, line, source):
    """What a terminal is told of a procedure whose refused slot comes from this line of `bad.c` in the folder, which has the source."""
    with open(f"{folder}/bad.o", "wb") as it:
        it.write(with_lines(unit((0, line))))
    with open(f"{folder}/calls.txt", "w", encoding="utf-8") as it:
        it.write("dc 1 1\n")
    with open(f"{folder}/bad.c", "wb") as it:
        it.write(source)
    for words in (["verify", "bad.o"], ["run", "bad.o", "calls.txt"], ["world", "bad.o", "calls.txt"]):
        yield on_terminal([procd, words[0], *(f"{folder}/{word}" for word in words[1:])], b"")[2]


def quotes(procd):
    """Each line of a source that a terminal isn't shown as it should be."""
    with tempfile.TemporaryDirectory() as folder:
        for number, line in enumerate(QUOTED, 1):
            quoted = "" if line is None else f"{folder}/bad.c:{number}: {line}\n"
            for told in told_of_line(procd, folder, number, SOURCE):
                if told != f"{quoted}get: {TESTED}\n":
                    yield f"line {number}: {told!r}"
        for told in told_of_line(procd, folder, 1, b"\xff\n"):
            if told != f"get: {TESTED}\n":
                yield f"a source that is no text: {told!r}"
        os.remove(f"{folder}/bad.c")
        os.mkfifo(f"{folder}/bad.c")
        _, _, told = on_terminal([procd, "verify", f"{folder}/bad.o"], b"")
        if told != f"get: {TESTED}\n":
            yield f"a pipe in the place of a source: {told!r}"


def long_run():
    """A script of so many calls."""
    procedures = "".join(PROC.format(f"put{dc}", dc) for dc in range(DCS))
    return (DC * DCS + procedures + "".join(f"call put{call % DCS} {call % 60000} 1\n" for call in range(CALLS))).encode()


def progress(procd):
    """A long run, where it told no progress or told it otherwise."""
    status, _, told = on_terminal([procd, "run", "--workers", "1", "-"], long_run())
    lines = told.split(CLEARED)[1:]
    form = re.compile(rf"\x1b\[\?7l(\d+) of {CALLS} calls answered, (\d+) a second\x1b\[\?7h")
    if status or len(lines) < 2 or lines[-1] or not told.startswith(CLEARED):
        yield f"progress: status {status}, {told!r}"
    for line in lines[:-1]:
        met = form.fullmatch(line)
        if not met or not 0 < int(met[1]) <= CALLS or int(met[2]) == 0:
            yield f"progress: {line!r}"


def heeds_signals():
    """A shell has what it runs in the background ignore SIGINT, which a program inherits."""
    for number in (signal.SIGINT, signal.SIGTERM):
        signal.signal(number, signal.SIG_DFL)


def signals(procd):
    """A run that a signal meets, where it doesn't end at once and in silence."""
    script_text = long_run()
    words = [procd, "run", "--tell", "--workers", "1", "-"]
    for number in (signal.SIGINT, signal.SIGTERM):
        with tempfile.TemporaryFile() as script, tempfile.TemporaryFile() as out:
            script.write(script_text)
            script.seek(0)
            with subprocess.Popen(words, stdin=script, stdout=out, stderr=subprocess.PIPE, preexec_fn=heeds_signals) as process:
                process.stderr.readline()
                process.send_signal(number)
                began = time.time()
                process.stderr.read()
            out.seek(0)
            printed = out.read()
        if process.returncode != -number or printed or time.time() - began > 5:
            yield f"{number.name}: status {process.returncode}, {printed[:80]!r}"


def main():
    parser = argparse.ArgumentParser(description=__doc__, formatter_class=argparse.RawDescriptionHelpFormatter)
    parser.add_argument("--procd", default=str(PROCD), help="the program (that of crates/procd/out)")
    procd = parser.parse_args().procd
    wrong = [*refusals(procd), *cures(procd), *quotes(procd), *progress(procd), *signals(procd)]
    for line in wrong:
        print(f"terminal: {line}")
    ended = "wrong" if wrong else "nothing wrong"
    print(f"terminal: {len(REFUSED)} refusals, {len(CURED)} cures, {len(QUOTED) + 2} sources, progress of {CALLS:,} calls, 2 signals, {ended}")
    sys.exit(1 if wrong else 0)


if __name__ == "__main__":
    main()
