"""`run --partitions --log LOG`, where each partition has a file of its own."""
import atexit
import pathlib
import tempfile

from .row import CURE, Row
from .runs import APART, APART_AUDITS, APART_PRINTED

NONE = APART[: APART.index("first alone")]
ROWS = APART_PRINTED[APART_PRINTED.index("row "):]
# Of component 0 and 2 there are the rows that the partition of the first has.
ROWS_OF_0 = "".join(line for line in ROWS.splitlines(True) if not line.startswith("row 1/"))
# Partition 0: four calls of two inserts each, and one that asks for nothing. Partition 1: three calls of an insert each.
FRONT_0 = "partition 0\nrecovered 26 events, 0 open\n"
FRONT_1 = "partition 1\nrecovered 12 events, 0 open\n"
# What is of component 3 nobody has called: its file has a log all the same.
AUDITS = APART_AUDITS + "partition 3\naudit ok ended 0 open 0\n"
LOG_1 = """\
0 admit 1 procedure 1 5
1 ask 1 number 1 insert 1/0/5 0
2 answer 1 number 1 done
3 end 1 committed
"""


def exchange(one, other):
    """Exchanges two files."""
    aside = one.with_name("aside")
    one.rename(aside)
    other.rename(one)
    aside.rename(other)


def rows(_program):
    """What is printed of runs behind one another, on files of their own."""
    folder = tempfile.TemporaryDirectory(prefix="partitioned-")
    atexit.register(folder.cleanup)
    place = pathlib.Path(folder.name)
    calls, none, other = place / "calls", place / "none", place / "other"
    calls.write_text(APART)
    none.write_text(NONE)
    other.write_text(NONE.replace("mov r0, 7", "mov r0, 8"))

    def run(name, printed, *words, text=none, status=0, told=b""):
        return Row(["run", "--partitions", "--log", str(place / name), *words, str(text)], b"", printed.encode(), status, told)

    for name, words in (("one", ["--workers", "1"]), ("two", []), ("three", ["--workers", "64"])):
        yield run(name, APART_PRINTED + AUDITS, "--audit", *words, text=calls)
        yield run(name, FRONT_0 + FRONT_1 + ROWS + AUDITS, "--audit", *words)
        yield run(name, FRONT_0 + FRONT_1 + ROWS)
        yield Row(["log", "--audit", str(place / f"{name}.0"), str(none)], b"", b"audit ok ended 5 open 0\n", 0)
        yield Row(["log", str(place / f"{name}.3")], b"", b"", 0)
    # a partition's file is a log's file like others: here it begins anew
    checkpoint = ["run", "--log", str(place / "two.0"), "--checkpoint", str(none)]
    yield Row(checkpoint, b"", ("recovered 26 events, 0 open\ncheckpoint 5 8\n" + ROWS_OF_0).encode(), 0)
    yield run("two", "partition 0\nrecovered 1 events, 0 open\n" + FRONT_1 + ROWS)
    # two files that are exchanged are told apart by their calls and operations, and by the records with which a log begins
    for one, another, printed in ((0, 1, "partition 0\nrefused log Other partition 1\n"), (0, 3, "partition 3\nrefused log Other partition 0\n")):
        exchange(place / f"three.{one}", place / f"three.{another}")
        yield run("three", printed, text=calls, status=1)
        yield run("three", printed, text=calls, status=1)
        exchange(place / f"three.{one}", place / f"three.{another}")
        yield run("three", FRONT_0 + FRONT_1 + ROWS)
    exchange(place / "two.0", place / "two.3")
    yield run("two", "partition 3\nrefused log Other partition 0\n", text=calls, status=1)
    idle = place / "idle"
    idle.write_text(NONE + "call none\n")
    yield run("eleven", "call 0 aborted 7\n", text=idle)
    exchange(place / "eleven.0", place / "eleven.1")
    yield run("eleven", "partition 1\nrefused log Other partition 0\n", text=idle, status=1)
    # where there is none of them any file will do
    yield run("twelve", "")
    exchange(place / "twelve.0", place / "twelve.1")
    yield run("twelve", "call 0 aborted 7\n", text=idle)
    # only the calls of one partition: the others' files are begun all the same
    first = place / "first"
    first.write_text(NONE + "first alone 5\n")
    yield run("four", "first 0 committed\nrow 1/0/5 0\n", text=first)
    yield Row(["log", str(place / "four.1")], b"", LOG_1.encode(), 0)
    yield run("four", "partition 1\nrecovered 4 events, 0 open\nrow 1/0/5 0\n")
    # one component, which no slot names
    bare = place / "bare"
    bare.write_text("dc 1 1\nproc a 0\nmov r0, 0\nexit\nend\ncall a\n")
    yield run("five", "call 0 committed\n", text=bare)
    yield run("five", "partition 0\nrecovered 2 events, 0 open\ncall 0 committed\n", text=bare)
    # an end that isn't whole is cut off
    with open(place / "four.1", "ab") as file:
        file.write(bytes(5))
    yield run("four", f"partition 1\nrecovered 4 events, 0 open\ndropped 5 bytes to {place}/four.1.dropped\nrow 1/0/5 0\n")
    # where one is refused nothing else is printed
    yield run("one", f"partition 0\nrefused log Other digest: {CURE}\n", text=other, status=1)
    (place / "seven.0").mkdir()
    yield run("seven", "partition 0\nrefused log NotAFile directory\n", text=calls, status=1)
    (place / "eight.3").write_text("somebody else's\n")
    yield run("eight", "partition 3\nrefused log Other\n", text=calls, status=1)
    yield run("eight", "partition 3\nrefused log Other\n", text=calls, status=1)
    yield run("nowhere/nine", "", text=calls, status=3, told=f"cannot write {place}/nowhere/nine.0: no such file or directory\n".encode())
    yield run("ten", "refused G1 Workers\n", "--workers", "65", text=calls, status=1)
    bad = place / "bad"
    bad.write_text(NONE + "call nobody\n")
    yield run("ten", f"refused line {NONE.count(chr(10)) + 1} F4 NameUnknown\n", text=bad, status=1)

