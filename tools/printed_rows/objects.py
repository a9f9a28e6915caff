"""Object files: what `verify` says of their procedures, `run` and `world` with a script beside them, and why a file is refused."""
import atexit
import pathlib
import struct
import tempfile

from objects import EXIT, MOV_7, REL, RELA, SEVEN, named, object_of, patched, taking, unit
from procedures import PUT
from .row import CURE, Row

# mov r1, 0; call 1; ldxdw r0, [r0+0]; exit
UNTESTED = bytes.fromhex("b701000000000000 8500000001000000 7900000000000000 9500000000000000")
# the same behind jeq r0, 0, +1
TESTED = bytes.fromhex("b701000000000000 8500000001000000 1500010000000000 7900000000000000 9500000000000000")
READS = taking(1, (0, 0, 2, 0))

TWO = object_of(named(b"seven") + named(b"get", TESTED, READS))
PLAIN = object_of(named(b"seven"))
TABLE = len(PLAIN) - 4 * 64  # where its section header table begins, whose entry 3 is that of the names


def entry(number, place, form, value):
    """A field of an entry of the table of PLAIN, put otherwise."""
    return patched(PLAIN, (TABLE + 64 * number + place, struct.pack(form, value)))


# Files, what is printed, and the status.
FILES = [
    (TWO, "seven accepted 2\nget accepted 5\n", 0),
    (object_of([]), "refused object NoProcedures\n", 1),
    (object_of([(b".text", SEVEN), (b"license", b"GPL\0")]), "refused object NoProcedures\n", 1),
    (object_of([(b"accesses/seven", taking(0))]), "refused object NoProcedures\n", 1),
    # accesses may stand before the code, and of other procedures too
    (object_of(named(b"b")[::-1] + named(b"a") + [(b"accesses/c", taking(0))]), "b accepted 2\na accepted 2\n", 0),
    (object_of(named(b"seven") + named(b"get", UNTESTED, READS)), "seven accepted 2\nget V10 MaybeNull slot 2\n", 1),
    (object_of(named(b"put", TESTED.replace(b"\x85\0\0\0\1", b"\x85\0\0\0\4"), READS)), "put V13 ModeTooWeak slot 1\n", 1),
    # code that isn't decoded: a line of its own, and the others have theirs
    (object_of(named(b"none", b"") + named(b"seven")), "none E1 NoCode\nseven accepted 2\n", 1),
    (object_of(named(b"cut", SEVEN[:-1])), "cut E2 Length\n", 1),
    (object_of(named(b"long", MOV_7 * 4096 + EXIT)), "long E3 TooLong\n", 1),
    (object_of(named(b"full", MOV_7 * 4095 + EXIT)), "full accepted 4096\n", 0),
    (object_of(named(b"wide", MOV_7 + bytes.fromhex("1800000000000000"))), "wide E4 WideCut slot 1\n", 1),
    (object_of(named(b"used", MOV_7 + bytes.fromhex("9500000001000000"))), "used E5 UnusedField slot 1\n", 1),
    (object_of(named(b"seven") + named(b"far", MOV_7 + bytes.fromhex("8510000001000000"))), "seven accepted 2\nfar E7 OutsideProfile slot 1 LocalCall\n", 1),
    # names of 32 bytes, and of 33
    (object_of(named(b"a" * 32)), "a" * 32 + " accepted 2\n", 0),
    (object_of(named(b"a" * 33)), "refused object BadName section 1 procedure/" + "a" * 33 + "\n", 1),
    (object_of(named(b"seven") + named(b"Seven")), "refused object BadName section 3 procedure/Seven\nseven accepted 2\n", 1),
    (object_of(named(b"")), "refused object BadName section 1 procedure/\n", 1),
    (object_of(named(b"s\xff")), "refused object BadName section 1 procedure/s?\n", 1),
    # a fault of the file comes before a name
    (object_of(named(b"Seven") + [(b"procedure/x", SEVEN)]), "refused object NoAccesses section 3 procedure/x\nrefused object BadName section 1 procedure/Seven\n", 1),
    # a header's faults
    (b"\x7fELF", "refused object NotElf\n", 1),
    (PLAIN[:63], "refused object NotElf\n", 1),
    (patched(PLAIN, (4, b"\1")), "refused object NotLittle64\n", 1),
    (patched(PLAIN, (5, b"\2")), "refused object NotLittle64\n", 1),
    (patched(PLAIN, (16, b"\3\0")), "refused object NotRelocatable 3\n", 1),
    (object_of(named(b"seven"), machine=62), "refused object NotBpf 62\n", 1),
    (patched(PLAIN, (58, b"\x38\0")), "refused object EntrySize 56\n", 1),
    (patched(PLAIN, (60, b"\1\x10")), "refused object TooManySections 4097\n", 1),
    (PLAIN[:-1], "refused object NoTable\n", 1),
    (patched(PLAIN, (62, b"\4\0")), "refused object NoNames\n", 1),
    (patched(PLAIN, (62, b"\1\0")), "refused object NoNames\n", 1),
    # those of sections
    (entry(1, 0, "<I", 9999), "refused object NoName section 1\n", 1),
    (entry(2, 32, "<Q", 9999), "refused object Outside section 2 accesses/seven\nrefused object NoAccesses section 1 procedure/seven\n", 1),
    (object_of(named(b"seven") + named(b"get", TESTED, READS), relocated=[3]), "refused object Relocated section 3 procedure/get\nseven accepted 2\n", 1),
    (object_of(named(b"seven") + [(b"procedure/seven", SEVEN)]), "refused object Twice section 3 procedure/seven\nseven accepted 2\n", 1),
    (object_of([(b"procedure/seven", SEVEN), (b"accesses/seve", taking(0))]), "refused object NoAccesses section 1 procedure/seven\n", 1),
    (object_of(named(b"seven", SEVEN, b"")), "refused object AccessesSize section 2 accesses/seven\n", 1),
    (object_of(named(b"seven", SEVEN, taking(0) + b"\0")), "refused object AccessesSize section 2 accesses/seven\n", 1),
    (object_of(named(b"seven", SEVEN, taking(0, *[(0, 0, 0, 1)] * 17))), "refused object AccessesSize section 2 accesses/seven\n", 1),
    (object_of(named(b"seven", SEVEN, taking(0, *[(0, 0, 0, 1)] * 16))), "seven accepted 2\n", 0),
    (object_of(named(b"seven", SEVEN, READS[16:])), "refused object NoArguments section 2 accesses/seven\n", 1),
    (object_of(named(b"seven", SEVEN, taking(256))), "refused object NoArguments section 2 accesses/seven\n", 1),
    (object_of(named(b"seven", SEVEN, taking(1, (0, 0, 2, 0), (0, 0, 4, 0)))), "refused object NoSlot section 2 entry 1 accesses/seven\n", 1),
    (object_of(named(b"seven", SEVEN, taking(9))), "refused object Declared section 2 S1 TooManyArgs accesses/seven\n", 1),
    (object_of(named(b"seven", SEVEN, taking(1, (0, 0, 2, 0), (0, 0, 2, 1)))), "refused object Declared section 2 S3 NoSuchArg slot 1 accesses/seven\n", 1),
]


GET = named(b"get", UNTESTED, READS)
THREE_ROWS = (0, 3), (8, 4), (16, 5)
TOLD = unit(*THREE_ROWS)


def with_lines(*units):
    """`get`, which is refused at slot 2, with these units of a line table, each of its code."""
    return object_of(GET, units=[(it, 1, 0) for it in units])


# Object files with lines, what is printed behind `get V10 MaybeNull slot 2`.
LINES = [
    (with_lines(TOLD), " bad.c:5"),
    (with_lines(unit((0, 3), (24, 5))), " bad.c:3"),
    (with_lines(unit((0, 3), (16, 70000))), " bad.c:70000"),
    # behind the last slash; what is no visible character of ASCII is a question mark
    (with_lines(unit(*THREE_ROWS, name=b"./src.c/bad.c")), " bad.c:5"),
    (with_lines(unit(*THREE_ROWS, name=b"a b\xc3\xa4~!.c")), " a?b??~!.c:5"),
    (with_lines(unit(*THREE_ROWS, name=b"c" * 255)), " " + "c" * 255 + ":5"),
    (with_lines(unit(*THREE_ROWS, name=b"c" * 256)), ""),
    (with_lines(unit(*THREE_ROWS, name=b"src/")), ""),
    # no row covers it; line 0; another section's; a place further on
    (with_lines(unit((24, 3))), ""),
    (with_lines(unit((0, 3), end=16)), ""),
    (with_lines(unit((0, 3), (16, 0))), ""),
    (object_of(GET, units=[(TOLD, 2, 0)]), ""),
    (object_of(GET, units=[(TOLD, 1, 8)]), " bad.c:4"),
    # a unit of another version is passed; of those that say one the first counts
    (with_lines(unit((16, 9), version=3), TOLD), " bad.c:5"),
    (with_lines(unit((0, 9), end=16), TOLD, unit((16, 6))), " bad.c:5"),
    # a table that is cut
    (with_lines((TOLD[0][:-1], TOLD[1])), ""),
    (object_of(GET + [(b".debug_line", TOLD[0])]), ""),
    (object_of(GET + [(b".debug_line", b"")]), ""),
]
FILES += [(file, f"get V10 MaybeNull slot 2{place}\n", 1) for file, place in LINES]
WITH_FIELD, LOCAL_CALL = MOV_7 + bytes.fromhex("9500000001000000"), MOV_7 + bytes.fromhex("8510000001000000")
BOTH_TOLD = [(TOLD, 1, 0), (unit((0, 7)), 3, 0)]
FILES += [
    (object_of(named(b"used", WITH_FIELD), units=[(TOLD, 1, 0)]), "used E5 UnusedField slot 1 bad.c:4\n", 1),
    (object_of(named(b"far", LOCAL_CALL), units=[(TOLD, 1, 0)]), "far E7 OutsideProfile slot 1 LocalCall bad.c:4\n", 1),
    (object_of(named(b"cut", SEVEN[:-1]), units=[(TOLD, 1, 0)]), "cut E2 Length\n", 1),
    (object_of(named(b"seven") + GET, units=BOTH_TOLD), "seven accepted 2\nget V10 MaybeNull slot 2 bad.c:7\n", 1),
]


# What a section refers to that is to be relocated, and where, and what is printed of that.
REFERRING = [
    (REL, 16, b"counter", " symbol counter bad.c:7"),
    (RELA, 8, b"counter", " symbol counter bad.c:6"),
    (REL, 12, b"a b", " symbol a?b bad.c:6"),
    # a section; none; names that are too long and that aren't there
    (REL, 0, 1, " symbol procedure/seven bad.c:5"),
    (REL, 0, 99, " bad.c:5"),
    (REL, 0, b"", " bad.c:5"),
    (REL, 0, b"c" * 266, " symbol " + "c" * 266 + " bad.c:5"),
    (REL, 0, b"c" * 267, " bad.c:5"),
    (REL, 32, b"counter", " symbol counter"),
]
GET_TOLD = [(unit((0, 5), (8, 6), (16, 7)), 3, 0)]
FILES += [
    (object_of(named(b"seven") + GET, units=GET_TOLD, referring=[(kind, 3, place, symbol)]),
     f"refused object Relocated section 3 procedure/get{told}\nseven accepted 2\n", 1)
    for kind, place, symbol, told in REFERRING
]
FILES += [
    # without lines; two of three are refused, each with its own
    (object_of(named(b"seven") + GET, referring=[(REL, 3, 16, b"counter")]), "refused object Relocated section 3 procedure/get symbol counter\nseven accepted 2\n", 1),
    (object_of(named(b"seven") + GET + named(b"put"), referring=[(REL, 5, 0, b"helper"), (REL, 1, 8, b"counter")]),
     "refused object Relocated section 1 procedure/seven symbol counter\nrefused object Relocated section 5 procedure/put symbol helper\n"
     "get V10 MaybeNull slot 2\n", 1),
]


USED = object_of(named(b"seven") + named(b"used", MOV_7 + bytes.fromhex("9500000001000000")))
UNSAFE = object_of(named(b"seven") + named(b"get", UNTESTED, READS))
SAFE_AND_NOT = object_of(named(b"seven") + GET, units=BOTH_TOLD)
FAR = object_of(named(b"seven") + named(b"get", TESTED, taking(1, (1, 0, 2, 0))))

# Object files, the scripts beside them, what `run` prints, and the status.
RUNS = [
    (TWO, "dc 8 100\n" + PUT + "first put 5 9\ncall seven\ncall get 5\ncall get 6\n",
     "first 0 committed\ncall 0 aborted 7\ncall 1 aborted 9\ncall 2 committed\nrow 0/0/5 9\n", 0),
    (TWO, "dc 8 100\ncall get\ncall seven\n", "call 0 refused B5 ArgumentCount\ncall 1 aborted 7\n", 0),
    (object_of([]), "dc 1 1\n", "refused object NoProcedures\n", 1),
    # the script's own faults
    (TWO, "dc 1 1\nproc get 0\n", "refused line 2 F3 NameTaken\n", 1),
    (TWO, "dc 1 1\ncall other\n", "refused line 2 F4 NameUnknown\n", 1),
    (TWO, "dc 1 1\ncall seven\ndc 1 1\n", "refused line 3 F9 Order\n", 1),
    (TWO, "dc 1 1\n" + PUT + "dc 1 1\n", "refused line 12 F9 Order\n", 1),
    (TWO, "", "refused line 0 F9 Order\n", 1),
    (TWO, "dc 1 1\nproc a 0\nexit\nend\n", "refused line 4 F7 Verify V5 EmptyRegister slot 0\n", 1),
    # a data component that the script doesn't have, unless it has a fault
    (FAR, "dc 1 1\n", "refused object get F8 DcUnknown\n", 1),
    (FAR, "dc 1 1\nproc a 0\nexit\nend\n", "refused object get F8 DcUnknown\n", 1),
    (FAR, "dc 1 1\nfly\n", "refused line 2 F1 BadLine\n", 1),
    (FAR, "dc 1 1\ndc 1 2\ncall get 5\n", "call 0 committed\n", 0),
    # what the verifier refuses comes before the faults of lines
    (UNSAFE, "dc 1 1\nfly\n", "refused object get F7 Verify V10 MaybeNull slot 2\n", 1),
    (UNSAFE, "dc 1 1\nproc a 0\nexit\nend\n", "refused object get F7 Verify V10 MaybeNull slot 2\n", 1),
    # a slot's line of the source stands behind it, of the object file's procedures alone
    (SAFE_AND_NOT, "dc 1 1\n", "refused object get F7 Verify V10 MaybeNull slot 2 bad.c:7\n", 1),
    (SAFE_AND_NOT, "dc 1 1\nproc get 0\nexit\nend\n", "refused object get F7 Verify V10 MaybeNull slot 2 bad.c:7\n", 1),
    (object_of(named(b"seven"), units=[(TOLD, 1, 0)]), "dc 1 1\nproc a 0\nexit\nend\n", "refused line 4 F7 Verify V5 EmptyRegister slot 0\n", 1),
    (with_lines(unit((24, 3))), "dc 1 1\n", "refused object get F7 Verify V10 MaybeNull slot 2\n", 1),
    # before all that come those of the object file
    (USED, "fly\n", "refused object used E5 UnusedField slot 1\n", 1),
    (object_of(named(b"used", WITH_FIELD), units=[(TOLD, 1, 0)]), "fly\n", "refused object used E5 UnusedField slot 1 bad.c:4\n", 1),
    (object_of(named(b"cut", SEVEN[:-1]), units=[(TOLD, 1, 0)]), "fly\n", "refused object cut E2 Length\n", 1),
    (object_of(named(b"Seven")), "fly\n", "refused object BadName section 1 procedure/Seven\n", 1),
    (object_of(named(b"seven") + GET, units=GET_TOLD, referring=[(REL, 3, 16, b"counter")]), "fly\n",
     "refused object Relocated section 3 procedure/get symbol counter bad.c:7\n", 1),
    (PLAIN[:-1], "dc 1 1\n", "refused object NoTable\n", 1),
    (b"dc 1 1\n", "dc 1 1\n", "refused object NotElf\n", 1),
]

STEPS = "dc 1 1\nadmit get 5\nask 1\nperform 0\ntake 0\nask 1\nend 1\n"
WORLDS = [
    (TWO, STEPS, "admitted 1\nsent 0 number 1 read 0/0/5 low 0\nreply 0 number 1 absent\ntook number 1\nover 1\nended 1 committed at 3\n", 0),
    (TWO, "dc 1 1\ncall seven\n", "refused line 2 F1 BadLine\n", 1),
    (UNSAFE, STEPS, "refused object get F7 Verify V10 MaybeNull slot 2\n", 1),
    (SAFE_AND_NOT, STEPS, "refused object get F7 Verify V10 MaybeNull slot 2 bad.c:7\n", 1),
    (FAR, STEPS, "refused object get F8 DcUnknown\n", 1),
]


def rows(_program):
    """All rows, each with the object file on standard input."""
    for file, out, status in FILES:
        yield Row(["verify", "-"], file, out.encode(), status)
    # three bytes of the four are a text, which is no script
    yield Row(["verify", "-"], b"\x7fEL", b"refused line 1 F1 BadLine\n", 1)
    folder = tempfile.TemporaryDirectory()
    atexit.register(folder.cleanup)
    words = [(["run", "--workers", "1", "-"], it) for it in RUNS] + [(["world", "-"], it) for it in WORLDS]
    for place, (before, (file, text, out, status)) in enumerate(words):
        script = pathlib.Path(folder.name, f"script{place}")
        script.write_text(text)
        yield Row([*before, str(script)], file, out.encode(), status)
    script, marked, log = (pathlib.Path(folder.name, name) for name in ("seven", "marked", "log"))
    script.write_text("dc 1 1\ncall seven\n")
    marked.write_bytes(b"\xef\xbb\xbfdc 1 1\n")
    logged = ["run", "--log", str(log), "-", str(script)]
    for out in ("", "recovered 2 events, 0 open\n"):
        yield Row(logged, PLAIN, f"{out}call 0 aborted 7\n".encode(), 0)
    yield Row(logged, TWO, b"refused log Other procedures 1 script 2\n", 1)
    yield Row(logged, object_of(named(b"seven", MOV_7 + SEVEN)), f"refused log Other digest: {CURE}\n".encode(), 1)
    given, other = pathlib.Path(folder.name, "given"), pathlib.Path(folder.name, "other")
    given.write_bytes(PLAIN)
    other.write_bytes(TWO)
    # a log of its checkpoint alone goes on under other procedures
    anew = ["run", "--checkpoint", "--log", str(log), "-", str(script)]
    missing = b"cannot read no-such-file: no such file or directory\n"
    audit = ["log", "--audit", str(log)]
    yield Row([*audit, str(given), str(script)], b"", b"audit ok ended 2 open 0\n", 0)
    yield Row([*audit, str(other), str(script)], b"", b"refused log Other procedures 1 script 2\n", 1)
    yield Row([*audit, "no-such-file", str(script)], b"", b"", 3, missing)
    yield Row([*audit, str(given), "no-such-file"], b"", b"", 3, missing)
    no_script = b"it is an object file, and no SCRIPT stands behind it\n"
    yield Row([*audit, str(given)], b"", b"", 3, b"cannot read %b: %b" % (str(given).encode(), no_script))
    yield Row([*audit, str(script), str(given)], b"", b"", 3, b"cannot read %b: it isn't UTF-8\n" % str(given).encode())
    yield Row(anew, PLAIN, b"recovered 4 events, 0 open\ncall 0 aborted 7\ncheckpoint 3 0\n", 0)
    yield Row(logged, TWO, b"recovered 1 events, 0 open\ncall 0 aborted 7\n", 0)
    yield Row(logged, PLAIN, b"refused log Other procedures 2 script 1\n", 1)
    beside = pathlib.Path(folder.name, "beside")
    for command in ("run", "world"):
        beside.write_bytes(PLAIN)
        yield Row([command, str(beside), "-"], b"dc 1 1\n", b"", 0)
        yield Row([command, str(beside), "-"], b"", b"refused line 0 F9 Order\n", 1)
        yield Row([command, "-", "no-such-script"], TWO, b"", 3, b"cannot read no-such-script: no such file or directory\n")
        why = b"it begins with a byte order mark (U+FEFF); save it as UTF-8 without one"
        yield Row([command, "-", str(marked)], TWO, b"", 3, b"cannot read %b: %b\n" % (str(marked).encode(), why))
        yield Row([command, "-"], b"\x7fELF", b"", 3, b"cannot read -: " + no_script)
