#!/usr/bin/env python3
"""Takes the log's file away from `procd run --log` while the run goes on, and looks whether it says so.

usage: tools/moved_files.py [--procd PATH]

The file is removed, moved, replaced, moved while another name of it is left, cut, and written to by another program.
Each time the run ends with status 3, nothing on standard output, and the line of the formats' page behind what it told;
and what it told has its End in the file, where that is left. A file that may be read and not written, one that can't be
made, one that may grow no further, and one that has more bytes than its length are refused with the system's reason.
Where LOG.new can't be renamed to LOG, the run says so, takes LOG.new away, and leaves LOG to the next one.
The status is 1 where something was wrong.
"""
import argparse
import os
import pathlib
import re
import subprocess
import sys
import tempfile

from built import PROCD
from hostile_faults import limited_to
from log_files import numbers
from plain_file import whole
from procedures import PUT
from trying import Program, preloaded

CALLS, PIPE = 1000, 4096  # so many calls that what is told of them fills a pipe of so many bytes
SCRIPT = f"dc {CALLS} {CALLS}\n" + PUT
GONE, RESIZED = "it was removed, moved or replaced", "another program changed its length"
TOLD, END = re.compile(rb"told (\d+) committed\n"), re.compile(rb"\d+ end (\d+) committed\n")
NOBODY = 65534


def replace(path):
    other = path.with_name("other")
    other.write_bytes(b"another file")
    other.rename(path)


def move_beside_a_link(path):
    os.link(path, path.with_name("link"))
    path.unlink()


def append(path):
    with open(path, "ab") as log:
        log.write(b"?")


# What is done to the file, where its bytes are left, and what the run says.
TAKEN = {
    "removed": (lambda path: path.unlink(), None, GONE),
    "moved": (lambda path: path.rename(path.with_name("moved")), "moved", GONE),
    "replaced": (replace, None, GONE),
    "linked": (move_beside_a_link, "link", GONE),
    "cut": (lambda path: os.truncate(path, 0), None, RESIZED),
    "written": (append, None, RESIZED),
}


def is_taken_away(program, folder, script, how):
    """What is wrong with a run whose file this happens to once some calls are told, if anything."""
    take, left, reason = TAKEN[how]
    path = folder / "log"
    path.unlink(missing_ok=True)
    words = [program.path, "run", "--log", path, "--tell", "--workers", "1", script]
    with subprocess.Popen(words, stdout=subprocess.PIPE, stderr=subprocess.PIPE, pipesize=PIPE) as process:
        first = process.stderr.readline()  # the pipe fills, and the run waits
        take(path)
        out, told = process.communicate()
    told, line = first + told, f"cannot write {path}: {reason}\n".encode()
    if (process.returncode, out) != (3, b"") or not told.endswith(line):
        return f"status {process.returncode}, {out[:80]!r}, {told[-200:]!r}"
    calls = [int(call) for call in TOLD.findall(told)]
    if left:
        ends = {int(txn) for txn in END.findall(program.run(["log", folder / left]).out)}
        lost = [call for call in calls if call + 1 not in ends]
        if lost:
            return f"{len(lost)} of {len(calls)} calls that were told have no End, as {lost[:3]}"
    return None if 0 < len(calls) <= CALLS else f"{len(calls)} calls were told"


def refused(program, words, prepare=None):
    ran = subprocess.run([program.path, *map(str, words)], capture_output=True, preexec_fn=prepare)
    return ran.returncode, ran.stdout, ran.stderr.decode()


def as_nobody():
    """Another user, where this one may write everything."""
    if os.geteuid() == 0:
        os.setuid(NOBODY)


def reasons(program, folder, script):
    """Files that aren't opened or written, and why: what is wrong, if anything."""
    plain, lonely = folder / "plain", folder / "no" / "folder"
    program.run(["run", "--log", plain, script])
    plain.chmod(0o444)
    closed = folder / "closed"
    closed.write_bytes(plain.read_bytes())
    closed.chmod(0)
    denied = "permission denied"
    for path, said, prepare in [
        (plain, f"cannot write {plain}: {denied}", as_nobody),
        (closed, f"cannot read {closed}: {denied}", as_nobody),
        (folder / "new", f"cannot write {folder / 'new'}: {denied}", as_nobody),
        (lonely, f"cannot write {lonely}: no such file or directory", None),
        (folder / "full", f"cannot write {folder / 'full'}: file too large", lambda: limited_to(50)),
        (folder / "fuller", f"cannot write {folder / 'fuller'}: file too large", lambda: limited_to(500)),
    ]:
        ended = refused(program, ["run", "--log", path, script], prepare)
        if ended != (3, b"", f"{said}\n"):
            yield f"{said}: {ended}"
    left = (folder / "fuller").read_bytes()
    if whole(left)[1] != len(left):
        yield f"a full disk leaves {len(left) - whole(left)[1]} bytes of a frame"
    yield from undropped(program, folder, plain.read_bytes(), script)


def undropped(program, folder, data, script):
    """What is wrong with a run that has no room for what it is to cut off, if anything."""
    torn, dropped = folder / "torn", folder / "torn.dropped"
    torn.write_bytes(data + numbers(whole(data)[0]) + bytes(2000))
    ended = refused(program, ["run", "--log", torn, script], lambda: limited_to(500))
    said = f"cannot write {dropped}: file too large\n"
    if (*ended, dropped.read_bytes(), torn.stat().st_size) != (3, b"", said, b"", len(data) + 2008):
        yield f"{said}: {ended}, {dropped.stat().st_size} bytes there"


def unrenamed(program, folder, short):
    """What is wrong with a run that writes its log anew and can't rename the file, if anything."""
    shim, path = preloaded("faults", folder), folder / "kept"
    if not shim:
        return
    new, words = path.with_name("kept.new"), ["run", "--log", path, "--checkpoint", short]
    ran = program.run(words, faults={"LD_PRELOAD": str(shim), "RENAME_FAILS": "1"})
    said = f"cannot write {path}: input/output error\n".encode()
    if (ran.status, ran.out, ran.err) != (3, b"", said):
        yield f"a rename that fails: status {ran.status}, {ran.out!r}, {ran.err!r}"
    if new.exists():
        yield "a rename that fails leaves LOG.new"
    again = program.run(["run", "--log", path, "--checkpoint", short])
    if again.status != 0 or b"\ncheckpoint " not in again.out or new.exists():
        yield f"behind a rename that failed: status {again.status}, {again.out!r}, {again.err!r}"


def main():
    parser = argparse.ArgumentParser(description=__doc__, formatter_class=argparse.RawDescriptionHelpFormatter)
    parser.add_argument("--procd", default=PROCD, help="the program (that of crates/procd/out)")
    path = parser.parse_args().procd
    with tempfile.TemporaryDirectory() as name:
        folder = pathlib.Path(name)
        folder.chmod(0o755)
        program = Program(path, folder)
        calls = "".join(f"call put {call} 1\n" for call in range(CALLS))
        script, short = program.file((SCRIPT + calls).encode()), program.file((SCRIPT + "call put 0 1\n").encode())
        found = {how: is_taken_away(program, folder, script, how) for how in TAKEN}
        wrong = [f"{how}: {what}" for how, what in found.items() if what] + [*reasons(program, folder, short), *unrenamed(program, folder, short)]
    for line in wrong:
        print(f"moved_files: {line}")
    print(f"moved_files: {len(TAKEN)} files taken from their runs, 6 not opened or written, {'wrong' if wrong else 'nothing wrong'}")
    return 1 if wrong else 0


if __name__ == "__main__":
    sys.exit(main())
