#!/usr/bin/env python3
"""Gives `procd run --log` and `procd log` files that are no log of its script, and looks whether any is changed.

  tools/foreign_files.py [--files N] [--seed N] [--procd PROCD]

Texts, binaries, zeros, beginnings of SQLite files, logs of other procedures and layouts, logs with something behind
their last frame, one log behind another, and beginnings of logs. Each is refused as the formats' page says, and left as
it is to the byte, with no file beside it; or it is this script's log with an end that a crash can leave: then FILE is
its whole frames, and what more, and what was cut off stands in FILE.dropped. Devices are refused at once.
"""
import argparse
import collections
import os
import pathlib
import pty
import random
import subprocess
import sys
import tempfile
import time

from built import PROCD
from log_files import batch, event, frame, frames, header, procedure
from plain_file import is_end, stands_whole, whole
from trying import Program

SCRIPT = "dc 1 100\nproc nothing 0\nmov r0, 5\nexit\nend\n"
NOTHING = procedure(0, [], bytes.fromhex("b700000005000000 9500000000000000"))
OWN = header(1, NOTHING)
# Other headers, and how their logs are refused.
OTHERS = {
    header(2, NOTHING): "Other dcs 2 script 1",
    header(1): "Other procedures 0 script 1",
    header(1, procedure(0, [], bytes.fromhex("b700000006000000 9500000000000000"))): "Other digest: checkpoint it with its own procedures first",
    header(1, NOTHING, version=2): "Other",
    header(1, NOTHING, version=3, session=[7]): "Other session",
    OWN[:-1]: "Other",
    OWN + b"?": "Other",
}
ENDED = [event(1, 0, 1), event(5, 2, 1, 5)]
SQLITE = b"SQLite format 3\0" + bytes([16, 0, 1, 1, 0, 64, 32, 32])
DEVICES = {"/dev/zero": "character device", "/dev/full": "character device"}


def wanted_of(data):
    """The refusal of a run on this file, or None where it is gone on from."""
    number, place = whole(data)
    end = data[place:]
    if not number:
        if stands_whole(0, end):
            return "Damaged frame 0"
        return None if frames(OWN).startswith(data) else "Other"
    if not is_end(number, end):
        return f"Damaged frame {number}"
    if data.startswith(frames(OWN)):
        return None
    return next((said for first, said in OTHERS.items() if data.startswith(frames(first))), "Other")


def some_log(draw, first=OWN):
    """A log of this header with up to three batches."""
    return frames(first, *[batch(*ENDED)][: draw.randrange(2)], *[batch() for _ in range(draw.randrange(3))])


def text(draw):
    return " ".join(draw.choice(["log", "frame", "# page", "0", "the"]) for _ in range(draw.randrange(1, 400))).encode()


def binary(draw):
    return draw.randbytes(draw.choice([1, 7, 8, 24, 87, 88, 89, draw.randrange(5000)]))


def torn(draw):
    """A log and a part of its next frame, perhaps with a hole."""
    log = some_log(draw)
    cut = bytearray(frame(whole(log)[0], batch(*ENDED))[: draw.randrange(1, 224)])
    if draw.randrange(2):
        place = 8 * draw.randrange(-(-len(cut) // 8))
        cut[place : place + 8] = bytes(len(cut[place : place + 8]))
    return log + cut


KINDS = {
    "texts": text,
    "binaries": binary,
    "zeros": lambda draw: bytes(draw.randrange(1, 300)),
    "SQLite": lambda draw: SQLITE + draw.randbytes(draw.randrange(4096)),
    "logs of others": lambda draw: some_log(draw, draw.choice(list(OTHERS))),
    "logs with texts": lambda draw: some_log(draw) + text(draw),
    "logs with binaries": lambda draw: some_log(draw) + binary(draw),
    "logs behind logs": lambda draw: some_log(draw) + some_log(draw),
    "beginnings": lambda draw: (log := some_log(draw))[: draw.randrange(1, len(log) + 1)],
    "torn logs": torn,
}


def fault_of(program, script, path, data):
    """What is wrong with how this file is taken, if anything, and whether it is refused."""
    path.write_bytes(data)
    dropped = pathlib.Path(f"{path}.dropped")
    listed = program.run(["log", path])
    ran = program.run(["run", "--log", path, script])
    left, cut = path.read_bytes(), dropped.read_bytes() if dropped.exists() else b""
    dropped.unlink(missing_ok=True)
    refusal = wanted_of(data)
    if refusal:
        if (ran.status, ran.out) != (1, f"refused log {refusal}\n".encode()):
            return f"{ran} where {refusal} is wanted", True
        if not refusal.startswith("Other") and listed.out != ran.out:
            return f"log: {listed}", True
        return (None if (left, cut) == (data, b"") else "the file was changed"), True
    end = data[whole(data)[1] :]
    line = f"dropped {len(end)} bytes to {path}.dropped\n".encode()
    if ran.status or ran.err or (line in ran.out) != bool(end) or cut != end:
        return f"{ran}, and {len(cut)} bytes kept of {len(end)}", False
    return (None if left.startswith(data[: len(data) - len(end)]) else "whole frames were changed"), False


def devices_are_refused(program, script, folder):
    """What isn't a file is refused by its kind, at once; a terminal too."""
    fifo, place = folder / "fifo", folder / "folder"
    os.mkfifo(fifo)
    place.mkdir()
    _, terminal = pty.openpty()
    kinds = {**DEVICES, os.ttyname(terminal): "character device", fifo: "fifo", place: "directory"}
    for path, kind in kinds.items():
        for words in ["run", "--log", path, script], ["log", path], ["log", "--audit", path, script]:
            ran = subprocess.run([program.path, *words], capture_output=True, timeout=20)
            if (ran.returncode, ran.stdout) != (1, f"refused log NotAFile {kind}\n".encode()):
                return f"{words}: {ran}"
    return None


def begun_otherwise(program, script, folder):
    """Files of 2 GiB that don't begin as a log does: refused at once, in little memory."""
    path = folder / "huge"
    for first in b"", SQLITE, b"a text\n" * 20, frames(OWN)[:16].replace(b"@", b"A"):
        path.write_bytes(first)
        os.truncate(path, 2 << 30)
        for words in ["log", path], ["log", "--tail", "1", path], ["log", "--rows", path], ["log", "--audit", path, script]:
            with open(folder / "said", "wb+") as said:
                began = time.monotonic()
                process = os.posix_spawn(program.path, [program.path, *map(str, words)], os.environ, file_actions=[(os.POSIX_SPAWN_DUP2, said.fileno(), 1)])
                _, status, used = os.wait4(process, 0)
                took = time.monotonic() - began
                said.seek(0)
                ended = os.waitstatus_to_exitcode(status), said.read()
            if ended != (1, b"refused log Other\n") or took > 2 or used.ru_maxrss > 100_000:
                return f"{words}: {ended}, {took:.1f} s, {used.ru_maxrss} kB"
    path.unlink()
    return None


def main():
    options = argparse.ArgumentParser(usage=__doc__)
    options.add_argument("--files", type=int, default=2000)
    options.add_argument("--seed", type=int, default=1)
    options.add_argument("--procd", default=PROCD)
    options = options.parse_args()
    draw, tally = random.Random(options.seed), collections.Counter()
    with tempfile.TemporaryDirectory() as name:
        folder = pathlib.Path(name)
        program = Program(options.procd, folder)
        script = program.file(SCRIPT.encode())
        wrong = devices_are_refused(program, script, folder) or begun_otherwise(program, script, folder)
        for turn in range(options.files):
            if wrong:
                break
            kind = list(KINDS)[turn % len(KINDS)]
            wrong, refused = fault_of(program, script, folder / "log", KINDS[kind](draw))
            wrong = wrong and f"{kind}, file {turn}: {wrong}"
            tally["refused" if refused else "gone on from"] += 1
    if wrong:
        print(f"foreign_files: {wrong}")
        return 1
    print(f"foreign_files: {tally['refused']} files refused and as they were, {tally['gone on from']} logs gone on from")
    return 0


if __name__ == "__main__":
    sys.exit(main())
