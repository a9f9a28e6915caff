#!/usr/bin/env python3
"""Follows logs by `procd log --follow` while they grow, and looks whether it prints each event once and in order.

usage: tools/followed_logs.py [--procd PATH]

A run writes a log that is followed; a log begins anew in a file that takes this one's place, once and many times in a
run; a frame is written in two parts; frames are damaged; another log takes the place; the file is cut and written again,
or removed; nobody reads what is printed. What is printed is each time that of `procd log`, by parts where logs follow one
another, and what wasn't seen between two of them is told on standard error. The status is 1 where something was wrong.
"""
import argparse
import os
import pathlib
import re
import shutil
import subprocess
import sys
import tempfile
import time

from built import PROCD
from log_files import frame
from procedures import PUT
from trying import Program

WAIT = 20  # so many seconds a line may take
QUIET = 0.7  # so many seconds nothing comes where nothing is to come: three looks
CALLS = 3000
EVENTFUL = 100  # a frame of more bytes has events
PLACE, CHECKPOINT = re.compile(rb"(\d+) "), re.compile(rb"0 checkpoint (\d+) (\d+)\n")
ADMIT, UNSEEN = re.compile(rb"\d+ admit (\d+) "), re.compile(rb"unseen (\d+) transactions (\d+) numbers\n")


def script_of(first, count):
    """Calls that put so many records, from a key on."""
    calls = "".join(f"call put {key} 1\n" for key in range(first, first + count))
    return f"dc {CALLS * 4} {CALLS * 4}\n{PUT}{calls}".encode()


class Follower:
    """`procd log --follow` of a file, and what it printed."""

    def __init__(self, program, path, *options):
        self.out, self.err = (program.folder / f"followed.{name}" for name in ("out", "err"))
        with open(self.out, "wb") as out, open(self.err, "wb") as err:
            self.process = subprocess.Popen([program.path, "log", "--follow", *options, path], stdout=out, stderr=err)

    def __enter__(self):
        return self

    def __exit__(self, *_):
        self.process.kill()
        self.process.wait()

    def printed(self):
        return self.out.read_bytes()

    def told(self):
        return self.err.read_bytes()

    def until(self, done):
        """What is printed once that is so, or when nothing more can be waited for."""
        ends = time.monotonic() + WAIT
        while not done(self.printed()) and self.process.poll() is None and time.monotonic() < ends:
            time.sleep(0.02)
        return self.printed()

    def prints(self, expected, what):
        """What is wrong where these are not the lines, and all of them, if anything."""
        self.until(lambda printed: len(printed) >= len(expected))
        time.sleep(QUIET)
        return self.differs(expected, what, None, b"")

    def ends(self, expected, status, told, what):
        """The same, and it ends by itself, with this status and these lines on standard error."""
        self.until(lambda printed: False)
        return self.differs(expected, what, status, told)

    def differs(self, expected, what, status, told):
        printed, said, ended = self.printed(), self.told(), self.process.poll()
        if (printed, said, ended) == (expected, told, status):
            return []
        place = next((i for i, pair in enumerate(zip(printed, expected)) if pair[0] != pair[1]), min(len(printed), len(expected)))
        return [f"{what}: status {ended}, told {said[-200:]!r}, byte {place}: {printed[place:][:80]!r} instead of {expected[place:][:80]!r}"]


def events_of(program, path, *options):
    return program.run(["log", *options, path]).out


def log_of(program, name, *scripts):
    """A log that runs of these scripts wrote, by one worker."""
    path = program.folder / name
    for script in scripts:
        run(program, path, script)
    return path


def run(program, path, script, *options):
    ran = program.run(["run", "--log", path, "--workers", "1", *options, program.file(script)])
    if ran.status:
        raise SystemExit(f"followed_logs: a run of status {ran.status}: {ran.err!r}")


def grows(program):
    """A log that a run writes on, from several places."""
    short, path = script_of(0, 4), log_of(program, "grows", script_of(0, 4))
    before = events_of(program, path).splitlines(keepends=True)
    parts = {(): 0, ("--from", "0"): 0, ("--from", "5"): 5, ("--from", str(len(before) + 7)): len(before) + 7}
    parts |= {("--tail", "0"): len(before), ("--tail", "3"): len(before) - 3, ("--tail", "9999999"): 0}
    for turn, (options, first) in enumerate(parts.items()):
        copy = path.with_name(f"grows{turn}")
        shutil.copy(path, copy)
        with Follower(program, copy, *options) as follower:
            follower.until(lambda printed: printed.count(b"\n") >= len(before) - first)
            run(program, copy, short)
            lines = events_of(program, copy).splitlines(keepends=True)
            yield from follower.prints(b"".join(lines[first:]), f"grows {options}")


def grows_meanwhile(program):
    """A log that a long run writes on: what is printed is at any time a beginning of its events."""
    path = log_of(program, "long", script_of(0, 1))
    with Follower(program, path) as follower:
        script, seen = program.file(script_of(1, CALLS)), []
        with subprocess.Popen([program.path, "run", "--log", path, script], stdout=subprocess.DEVNULL) as process:
            while process.poll() is None:
                seen.append(follower.printed())
                time.sleep(0.05)
        events = events_of(program, path)
        yield from follower.prints(events, "a long run")
        yield from [f"a long run: {len(part)} bytes weren't a beginning" for part in seen if not events.startswith(part)][:1]


def begins_anew(program):
    """A log that is cut at the end of a run, and written on behind that."""
    path = log_of(program, "anew", script_of(0, 5))
    whole = path.with_name("whole")
    shutil.copy(path, whole)
    with Follower(program, path) as follower:
        follower.until(lambda printed: printed == events_of(program, path))
        run(program, path, script_of(5, 5), "--checkpoint")
        run(program, path, script_of(10, 5))
        run(program, whole, script_of(5, 5))
        now = events_of(program, path)
        if not CHECKPOINT.match(now):
            yield f"a log that is cut begins with {now[:40]!r}"
        yield from follower.prints(events_of(program, whole) + now, "begins anew")


def begins_often(program):
    """A log that is cut many times while a run goes on: its parts fit together, but for what is told as unseen."""
    path = log_of(program, "often", script_of(0, 1))
    with Follower(program, path) as follower:
        run(program, path, script_of(1, CALLS), "--checkpoint-over", "20000")
        events = events_of(program, path)
        printed = follower.until(lambda printed: printed.endswith(events))
        told = follower.told()
    if not printed.endswith(events):
        yield f"begins often: ends with {printed[-80:]!r}"
    parts = [[]]
    for line in printed.splitlines(keepends=True):
        if line.startswith(b"0 ") and parts[-1]:
            parts.append([])
        parts[-1].append(line)
    if len(parts) < 2:
        yield "begins often: it was never seen to begin anew"
    unseen = [tuple(map(int, gap)) for gap in UNSEEN.findall(told)]
    if UNSEEN.sub(b"", told):
        yield f"begins often: {told[-200:]!r}"
    yield from [f"begins often: {what}" for what in seams(parts, unseen)]


def seams(parts, unseen):
    """What doesn't fit together in these parts of a log and the gaps between them."""
    gaps, admitted = 0, 0
    for number, part in enumerate(parts):
        if [int(PLACE.match(line)[1]) for line in part] != list(range(len(part))):
            yield f"part {number} has other places"
        if number:
            begins = int(CHECKPOINT.match(part[0])[1])
            gaps += begins - admitted
            admitted = begins
        for serial in (int(admit[1]) for admit in map(ADMIT.match, part) if admit):
            if serial != admitted + 1:
                yield f"transaction {serial} behind {admitted} in part {number}"
            admitted = serial
    if gaps != sum(gap[0] for gap in unseen):
        yield f"{gaps} transactions are missing, and {sum(gap[0] for gap in unseen)} told"


def ends_of_frames(data):
    """Where the frames of a file end."""
    ends, place = [], 0
    while place < len(data):
        place += 24 + int.from_bytes(data[place + 8 : place + 16], "little")
        ends.append(place)
    return ends


def half_a_frame(program):
    """A frame that is written in two parts, with a pause between in which its beginning is looked at."""
    data = log_of(program, "halves", script_of(0, 3), script_of(3, 3)).read_bytes()
    ends = ends_of_frames(data)
    start, end = [pair for pair in zip(ends, ends[1:]) if pair[1] - pair[0] > EVENTFUL][-1]
    before, behind = (events_of(program, program.file(data[:cut])) for cut in (start, end))
    if before == behind:
        yield "half a frame: it has no event"
    for cut in (start + 1, (start + end) // 2, end - 1):
        path = pathlib.Path(program.file(data[:cut]))
        with Follower(program, path) as follower:
            yield from follower.prints(before, f"half a frame, {cut - start} of {end - start} bytes")
            with open(path, "ab") as log:
                log.write(data[cut:end])
            yield from follower.prints(behind, f"a frame behind its first {cut - start} bytes")


def damaged(program):
    """What came of a log isn't one: a damaged frame before others, and one that no log has. It is refused behind its events."""
    path = log_of(program, "damaged", script_of(0, 2))
    count = len(path.read_bytes())
    run(program, path, script_of(2, 20))
    data = path.read_bytes()
    starts = [end for end in ends_of_frames(data) if end >= count]
    flipped = bytearray(data)
    flipped[starts[0] + 30] ^= 1
    for name, bad in (("damaged", bytes(flipped)), ("no log's", data[:count] + frame(ends_of_frames(data).index(count) + 1, b"?" * 40))):
        path.write_bytes(data[:count])
        before = events_of(program, path)
        with Follower(program, path) as follower:
            follower.until(lambda printed: len(printed) >= len(before))
            with open(path, "ab") as log:
                log.write(bad[count:])
            refusal = program.run(["log", path])
            if refusal.status != 1:
                yield f"{name}: `log` ends with status {refusal.status}"
            yield from follower.ends(before + refusal.out, 1, b"", name)


def another_log(program):
    """Another log takes the place; then a file that is none; and one that is cut and written again."""
    path, other = log_of(program, "one", script_of(0, 2)), log_of(program, "another", script_of(0, 3))
    first, second = events_of(program, path), events_of(program, other)
    with Follower(program, path) as follower:
        follower.until(lambda printed: printed == first)
        other.rename(path)
        follower.until(lambda printed: printed == first + second)
        path.with_name("none").write_bytes(b"no log, though it has some bytes in it")
        path.with_name("none").rename(path)
        refusal = program.run(["log", path])
        yield from follower.ends(first + second + refusal.out, 1, b"another log\n", "another log")


def removed(program):
    """A file that isn't there, is no longer, or is a folder."""
    missing = program.folder / "missing"
    line = f"cannot read {missing}: no such file or directory\n".encode()
    with Follower(program, missing) as follower:
        yield from follower.ends(b"", 3, line, "a file that is missing")
    path = log_of(program, "missing", script_of(0, 2))
    events = events_of(program, path)
    with Follower(program, path) as follower:
        follower.until(lambda printed: printed == events)
        path.unlink()
        yield from follower.ends(events, 3, line, "a file that is removed")
    refusal = program.run(["log", program.folder])
    with Follower(program, program.folder) as follower:
        yield from follower.ends(refusal.out, 1, b"", "a folder")


def input_and_output(program):
    """Standard input has an end, and standard output may take nothing."""
    path = log_of(program, "input", script_of(0, 2))
    ran, plain = program.run(["log", "--follow", "--tail", "3", "-"], path.read_bytes()), program.run(["log", "--tail", "3", path])
    if ran != plain:
        yield f"standard input: {ran}"
    if os.path.exists("/dev/full"):
        with open("/dev/full", "wb") as full:
            ended = subprocess.run([program.path, "log", "--follow", path], stdout=full, stderr=subprocess.PIPE)
        if (ended.returncode, ended.stderr) != (3, b"cannot write: no space left on device\n"):
            yield f"a full standard output: {ended}"


def main():
    parser = argparse.ArgumentParser(description=__doc__, formatter_class=argparse.RawDescriptionHelpFormatter)
    parser.add_argument("--procd", default=PROCD, help="the program (that of crates/procd/out)")
    path = parser.parse_args().procd
    tries = (grows, grows_meanwhile, begins_anew, begins_often, half_a_frame, damaged, another_log, removed, input_and_output)
    with tempfile.TemporaryDirectory() as name:
        program = Program(path, pathlib.Path(name))
        wrong = [line for each in tries for line in each(program)]
    for line in wrong:
        print(f"followed_logs: {line}")
    print(f"followed_logs: logs followed in {len(tries)} ways, {'wrong' if wrong else 'nothing wrong'}")
    return 1 if wrong else 0


if __name__ == "__main__":
    sys.exit(main())
