"""Memory that is refused, and files that can't be read or written, for each command of the program.

Faults come from a small library in C before the C library (faults.c); others from the system itself.
"""
import collections
import itertools
import os
import resource
import signal
import subprocess

from hostile_worlds import SCRIPT, recovered
from log_files import base_row, batch, cut, event, frames, header, numbers
from objects import OBJECT
from trying import Ran, preloaded, undocumented

HEX = b"b7 00 00 00 07 00 00 00\nb7 01 00 00 05 00 00 00\n0f 10 00 00 00 00 00 00\n95 00 00 00 00 00 00 00\n"
RAW = bytes.fromhex("7910080000000000 9500000000000000")
ASSEMBLY = b"lddw r0, 0x0000000100000007\nmod32 r0, 0 ; stays\nexit\n"
WORLD = (SCRIPT + "".join(f"{step}\n" for step, _ in recovered(15, True).steps)).encode()
RUN = (SCRIPT + "first put 5 100\n" + "call bad 5\n" * 3 + "call put 6 1\n").encode()
LOG = frames(
    header(1),
    batch(event(1, 1, 1, body=numbers(5)), event(2, 2, 1, 1, (0, 0, 5), numbers(9)), notes=[(0, 2, 1, 0)]),
    batch(event(3, 3, 1, 1), event(5, 1, 1)),
)
CUT = cut(header(1, version=2), [base_row((0, 0, 5), numbers(9))], batch(event(6, 0, 3, 4)))
NO_MEMORY = Ran(4, b"", b"memory\n")
NO_THREAD = Ran(1, b"refused G4 NoThread\n", b"")

# Words behind which the file's name comes, the words behind it, and what is in the file.
Command = collections.namedtuple("Command", "before behind data")
COMMANDS = [
    Command(["exec"], [], HEX),
    Command(["exec", "--raw"], [5, 6], RAW),
    Command(["exec"], [], b"b7 0"),
    Command(["asm"], [], ASSEMBLY),
    Command(["asm"], [], b"mov r11, 0\n"),
    Command(["dis"], [], HEX),
    Command(["dis", "--raw"], [], RAW),
    Command(["verify"], [], SCRIPT.encode()),
    Command(["verify"], [], SCRIPT.replace("r1+8", "r1+16").encode()),
    Command(["verify"], [], OBJECT),
    Command(["verify"], [], OBJECT[:-1]),
    Command(["world", "--log", "--audit"], [], WORLD),
    Command(["world"], [], WORLD.replace(b"ask 1", b"ask 3")),
    Command(["run", "--workers", 1], [], RUN),
    Command(["run", "--audit", "--workers", 8], [], RUN),
    Command(["run", "--workers", 65], [], RUN),
    Command(["log"], [], LOG),
    Command(["log"], [], LOG[:-1]),
    Command(["log", "--rows"], [], CUT),
]
NO_FILE = [["--help"], ["exec", "--help"], ["exec"], ["fly"], [], ["exec", "-", "x"], ["run", "--tries", "-1", "-"]]


class Faulty:
    """The program with faults, and the tally of what it did."""

    def __init__(self, program, tally):
        self.program, self.tally, self.library = program, tally, preloaded("faults", program.folder)

    def run(self, words, given, **faults):
        settings = {name.upper(): str(value) for name, value in faults.items()}
        return self.program.run(words, given, {"LD_PRELOAD": str(self.library), **settings})

    def wanted(self, words, given, ran, ends):
        """Sees that it is one of these ends."""
        self.tally.add("runs")
        if ran not in ends:
            self.tally.fault(f"{ran} for {ends[0]}, procd {' '.join(map(str, words))} on {given}")

    def check(self, words, given, end, **faults):
        """Runs it with these faults, and sees that it comes to this end."""
        self.wanted([*words, faults], given, self.run(words, given, **faults), [end])


def every_command(program):
    """The words of each command, by a file and by standard input, and what standard input has."""
    for command in COMMANDS:
        yield [*command.before, program.file(command.data), *command.behind], b""
        yield [*command.before, "-", *command.behind], command.data
    for words in NO_FILE:
        yield words, b""


def audited(program):
    """The words of an audit of a log that the program has kept."""
    path, script = program.file(b""), program.file(RUN)
    program.run(["run", "--log", path, script])
    return ["log", "--audit", path, script]


def refused_memory(faulty, words, given, setting, every):
    """Refuses the first request, the second and so on, until a run meets none."""
    usual, told = faulty.run(words, given), faulty.program.folder / "allocations"
    ends = [usual, NO_MEMORY, *[NO_THREAD][: words[:1] == ["run"]]]
    for at in itertools.count(1, every):
        told.write_bytes(bytes(8))
        ran = faulty.run(words, given, allocations_to=told, **{setting: at})
        is_met = int.from_bytes(told.read_bytes(), "little") >= at
        faulty.wanted([*words, setting, at], given, ran, ends if is_met else [usual])
        faulty.tally.add("ended for want of memory", ran == NO_MEMORY)
        if not is_met:
            break


def hostile_memory(program, tally, every):
    """Each request refused, alone and with all behind it."""
    faulty = Faulty(program, tally)
    if not faulty.library:
        return tally.skip("no C compiler")
    for words, given in [*every_command(program), (audited(program), b"")]:
        tally.add("command lines")
        refused_memory(faulty, words, given, "allocation_fails", every)
        refused_memory(faulty, words, given, "allocations_fail_from", every)
    return None


def failing_reads(faulty, words, given, size, every):
    """A read fails behind each byte in turn, gives less than it was asked for, or is interrupted."""
    usual, name = faulty.run(words, given), next(str(word) for word in words if word == "-" or "/" in str(word))
    for count in range(0, size + 1, every):
        faulty.check(words, given, Ran(3, b"", f"cannot read {name}: input/output error\n".encode()), read_fails_after=count)
    for most in (1, 7):
        faulty.check(words, given, usual, read_most=most)
        faulty.check(words, given, usual, read_most=most, read_interrupted=1)


def failing_writes(faulty, words, given, every):
    """A write fails behind each byte in turn, takes less than it was given, or is interrupted."""
    usual = faulty.run(words, given)
    for count in range(0, len(usual.out), every):
        faulty.check(words, given, Ran(3, usual.out[:count], b"cannot write: no space left on device\n"), write_fails_after=count)
    if usual.out:
        faulty.check(words, given, Ran(3, b"", b"cannot write: failed to write whole buffer\n"), write_nothing=1)
    for most in (1, 7):
        faulty.check(words, given, usual, write_most=most)
        faulty.check(words, given, usual, write_most=most, write_interrupted=1)
    faulty.check(words, given, usual, write_fails_after=len(usual.out))


def hostile_files(program, tally, every):
    """Reads and writes that fail, by the library and by the system."""
    faulty = Faulty(program, tally)
    from_system(faulty)
    if not faulty.library:
        return tally.skip("no C compiler")
    for command in COMMANDS:
        file = program.file(command.data)
        for words, given in ([file], b""), (["-"], command.data):
            words = [*command.before, *words, *command.behind]
            failing_reads(faulty, words, given, len(command.data), every)
    for words, given in every_command(program):
        tally.add("command lines")
        failing_writes(faulty, words, given, every)
    if every == 1:
        end = Ran(3, b"", b"cannot read /dev/zero: no end within 16777216 reads\n")
        faulty.check(["exec", "--raw", "/dev/zero"], b"", end, read_most=1)
    return None


# ---- faults of the system itself


def limited_to(count):
    """Files may grow to so many bytes; what goes past that is an error, not a signal."""
    signal.signal(signal.SIGXFSZ, signal.SIG_IGN)
    resource.setrlimit(resource.RLIMIT_FSIZE, (count, count))


def to_file(program, words, out, prepare=None):
    """Runs it with standard output there."""
    process = subprocess.run(
        [program.path, *words], stdin=subprocess.DEVNULL, stdout=out, stderr=subprocess.PIPE, preexec_fn=prepare
    )
    return process.returncode, process.stderr


def to_closed_pipe(program, words):
    """Runs it where nobody reads its standard output any more."""
    reader, writer = os.pipe()
    os.close(reader)
    try:
        return to_file(program, words, writer)
    finally:
        os.close(writer)


# Names, `.` for a folder that there is, and why they can't be read.
UNREADABLE = [
    (".", "is a directory"),
    ("./none", "no such file or directory"),
    ("\u00e9/\u00e9", "no such file or directory"),
    ("/dev/zero", "no end within {most} bytes"),
]
MOST, MOST_OF_CODE = 268435456, 16777216
# In a log's place these are refused instead.
NO_FILES = {".": "directory", "/dev/zero": "character device"}


def from_system(faulty):
    """A folder, no such file, an endless device, a full one, a file that may not grow, a pipe that nobody reads."""
    program, folder = faulty.program, str(faulty.program.folder)
    for command in COMMANDS:
        for name, why in UNREADABLE:
            kind = NO_FILES.get(name) if command.before[0] == "log" else None
            name = folder + name[1:] if name.startswith(".") else name
            words = [*map(str, command.before), name, *map(str, command.behind)]
            most = MOST_OF_CODE if command.before[0] in ("exec", "dis") else MOST
            end = Ran(3, b"", f"cannot read {name}: {why.format(most=most)}\n".encode())
            if kind:
                end = Ran(1, f"refused log NotAFile {kind}\n".encode(), b"")
            faulty.wanted(words, b"", program.run(words), [end])
    words = ["world", "--log", program.file(WORLD)]
    whole, limit = program.run(words).out, 100
    with open("/dev/full", "wb") as full:
        faulty.wanted([*words, "> /dev/full"], b"", to_file(program, words, full), [(3, b"cannot write: no space left on device\n")])
    faulty.wanted([*words, "| nobody"], b"", to_closed_pipe(program, words), [(3, b"")])
    path = faulty.program.folder / "limited"
    with open(path, "wb") as limited:
        ended = to_file(program, words, limited, lambda: limited_to(limit))
    faulty.wanted([*words, "> limited"], b"", (*ended, path.read_bytes()), [(3, b"cannot write: file too large\n", whole[:limit])])
    for words, given in every_command(program):
        why = undocumented(program.run(words, given))
        if why:
            faulty.tally.fault(f"{words}: {why}")
