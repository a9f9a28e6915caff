"""`log`: the events of a log's file, and a file beside the script of its procedures."""
import atexit
import os
import pathlib
import socket
import tempfile

from log_files import base_row, batch, cut, event, frames, header, numbers, procedure
from .row import CURE, Row

SCRIPT = """\
dc 1 100
dc 2 2
proc note 1
slot write 1 2 $0
  mov r0, 0
  exit
end
proc nothing 0
  mov r0, 5
  exit
end
proc keep 1
slot write 1 2 $0
  mov r1, 0
  call 2
  mov r0, 0
  exit
end
"""
NOTE = procedure(1, [(1, 1, 2, 0, 0)], bytes.fromhex("b700000000000000 9500000000000000"))
NOTHING = procedure(0, [], bytes.fromhex("b700000005000000 9500000000000000"))
INSERTS = bytes.fromhex("b701000000000000 8500000002000000 b700000000000000 9500000000000000")
KEEP = procedure(1, [(1, 1, 2, 0, 0)], INSERTS)
OWN = header(2, NOTE, NOTHING, KEEP)
CUT = header(2, NOTE, NOTHING, KEEP, version=2)
ENGINES = header(2, NOTE, NOTHING, KEEP, version=3, session=[2**64 - 1])
ENGINES_CUT = header(2, NOTE, NOTHING, KEEP, version=4, session=[5])

ADMITTED = event(1, 1, 1, body=numbers(77))
ENDED = event(5, 1, 1)
SECOND = event(1, 0, 2, 1)
ABORTED = event(5, 2, 2, 5)


def kept(txn, key, *said, number=None):
    """The events of a transaction that inserts a record of zeros, and is answered so."""
    number = number or txn
    asked = [event(1, 1, txn, 2, body=numbers(key)), event(2, 2, txn, number, (1, 2, key))]
    return asked + [event(3, said[0], txn, number, body=numbers(*said[1:])), event(5, 1, txn)] if said else asked


DONE, DUPLICATE = 3, 5

# One event of each kind and of each sub, whatever procedures would do, and its line.
REC = (1, 2, 3)
LINES = [
    (event(1, 0, 1, 4), "admit 1 procedure 4"),
    (event(1, 2, 2, 0, body=numbers(7, 18446744073709551615)), "admit 2 procedure 0 7 18446744073709551615"),
    (event(2, 1, 1, 1, REC), "ask 1 number 1 read 1/2/3"),
    (event(3, 1, 1, 1, body=numbers(9)), "answer 1 number 1 value 9"),
    (event(3, 1, 1, 2, body=numbers(1, 1)), "answer 1 number 2 value x01" + "00" * 7 + "01" + "00" * 55),
    (event(2, 2, 1, 3, REC, numbers(8)), "ask 1 number 3 insert 1/2/3 8"),
    (event(2, 3, 1, 4, REC, numbers(6)), "ask 1 number 4 update 1/2/3 6"),
    (event(2, 4, 1, 5, REC), "ask 1 number 5 delete 1/2/3"),
    (event(3, 2, 1, 6), "answer 1 number 6 absent"),
    (event(3, 3, 1, 7), "answer 1 number 7 done"),
    (event(3, 4, 1, 8, body=numbers(5)), "answer 1 number 8 done was 5"),
    (event(3, 5, 1, 9), "answer 1 number 9 duplicate"),
    (event(3, 6, 1, 10), "answer 1 number 10 missing"),
    (event(3, 7, 1, 11), "answer 1 number 11 noroom"),
    (event(4, 4, 1, 12, REC), "undo 1 number 12 delete 1/2/3"),
    (event(5, 1, 1), "end 1 committed"),
    (event(5, 2, 2, 5), "end 2 aborted 5"),
    (event(5, 3, 3), "end 3 noroom"),
    (event(6, 0, 9, 11), "checkpoint 9 11"),
]
ROWS = [row for row, _line in LINES]
PRINTED = "".join(f"{place} {line}\n" for place, (_row, line) in enumerate(LINES))

# Files, and what is printed of their events.
LISTED = [
    (frames(OWN), ""),
    (frames(OWN, batch()), ""),
    (frames(OWN, batch(*ROWS)), PRINTED),
    (frames(ENGINES, batch(*ROWS)), PRINTED),
    (frames(header(0), batch(*ROWS[:7]), batch(*ROWS[7:])), PRINTED),
    (frames(OWN, batch(ENDED, notes=[(1, 1, 3, 4), (0, 2, 1, 0)])), "0 end 1 committed\n"),
    (frames(OWN, batch(ENDED))[:-1], "unfinished 127 bytes\n"),
    (frames(OWN, batch(ENDED)) + b"\0", "0 end 1 committed\nunfinished 1 bytes\n"),
    (frames(OWN, batch(ENDED)) + b"\2", "0 end 1 committed\nunfinished 1 bytes\n"),
]
DAMAGED = bytearray(frames(OWN, batch(ENDED), batch()))
DAMAGED[-33] ^= 1

# Logs that begin behind an earlier one: 3 transactions were admitted there, and 4 numbers given out.
BEGUN = event(6, 0, 3, 4)
HERE, THERE, LAST = base_row((0, 5, 1), numbers(9)), base_row((1, 2, 77), b""), base_row((1, 2, 78), bytes(63) + b"\1")
MANY = [base_row((1, 2, key), numbers(key)) for key in range(4097)]
MANY_LINES = "".join(f"row 1/2/{key} {key}\n" for key in range(4097))
# Files, and what is printed of their events, of their rows, and of an end.
WITH_ROWS = [
    (frames(OWN, batch(*ROWS)), PRINTED, "", ""),
    (frames(OWN, batch(event(6, 0, 3, 4))), "0 checkpoint 3 4\n", "", ""),
    (cut(CUT, [], batch(BEGUN)), "0 checkpoint 3 4\n", "", ""),
    (cut(CUT, [HERE], batch(BEGUN)), "0 checkpoint 3 4\n", "row 0/5/1 9\n", ""),
    (cut(CUT, [THERE, LAST], batch(BEGUN)), "0 checkpoint 3 4\n", f"row 1/2/77 0\nrow 1/2/78 x{'0' * 126}01\n", ""),
    (cut(CUT, [HERE], batch(), batch(BEGUN), batch(ENDED)), "0 checkpoint 3 4\n1 end 1 committed\n", "row 0/5/1 9\n", ""),
    (cut(CUT, [HERE], batch(BEGUN)) + b"\3", "0 checkpoint 3 4\n", "row 0/5/1 9\n", "unfinished 1 bytes\n"),
    (cut(header(0, version=2), [base_row((65535, 65535, 2**64 - 1), b"")], batch(BEGUN)), "0 checkpoint 3 4\n",
     "row 65535/65535/18446744073709551615 0\n", ""),
    (cut(CUT, MANY, batch(BEGUN)), "0 checkpoint 3 4\n", MANY_LINES, ""),
    (cut(ENGINES_CUT, [], batch(BEGUN)), "0 checkpoint 3 4\n", "", ""),
    (cut(ENGINES_CUT, [HERE], batch(BEGUN)) + b"\3", "0 checkpoint 3 4\n", "row 0/5/1 9\n", "unfinished 1 bytes\n"),
    (cut(CUT, MANY[:-1], batch(BEGUN)), "0 checkpoint 3 4\n", MANY_LINES[: -len("row 1/2/4096 4096\n")], ""),
]
UNREAD = [
    (b"", "log Empty"),
    (frames(OWN)[:-1], "log Empty"),
    (b"# A page\n", "log Other"),
    (bytes(88), "log Other"),
    (frames(OWN)[:16] + bytes(73), "log Other"),
    (frames(OWN, batch(ENDED)) + b"?", "log Damaged frame 2"),
    (frames(OWN, batch(ENDED)) * 2, "log Damaged frame 2"),
    (frames(OWN) * 2, "log Damaged frame 1"),
    (frames(b""), "log Other"),
    (frames(ENGINES)[:-1], "log Empty"),
    (frames(ENGINES)[:16] + bytes(79), "log Empty"),
    (frames(ENGINES)[:16] + bytes(80), "log Other"),
    (frames(header(2, version=2)), "log Other"),
    (frames(header(2, version=3)), "log Other"),
    (frames(header(2, version=5, session=[1])), "log Other"),
    (frames(ENGINES_CUT), "log Other"),
    (frames(header(65536)), "log Other"),
    (frames(OWN + b"\0"), "log Other"),
    (bytes(DAMAGED), "log Damaged frame 1"),
    (frames(OWN, batch(), b""), "log NoBatch frame 2"),
    (frames(OWN, batch(ENDED[:-1])), "log NoBatch frame 1"),
    (frames(OWN, batch(notes=[(2, 0, 0, 0)])), "log NoBatch frame 1"),
    (frames(OWN, batch(notes=[(0, 3, 0, 0)])), "log NoBatch frame 1"),
    (frames(OWN, batch(ENDED), batch(ENDED, bytes(96))), "log L2 Kind 2"),
    (frames(CUT + numbers(0) + b"\0", batch(BEGUN)), "log Other"),
    (frames(CUT + numbers(0)), "log NoBase frame 1"),
    (frames(CUT + numbers(0), batch(ENDED)), "log NoBase frame 1"),
    (cut(CUT, [HERE]), "log NoBase frame 2"),
    (cut(CUT, [HERE], batch()), "log NoBase frame 2"),
    (cut(CUT, [HERE], batch(ENDED, BEGUN)), "log NoBase frame 2"),
    (frames(CUT + numbers(1), batch(BEGUN)), "log NoBase frame 1"),
    (frames(CUT + numbers(1), HERE + THERE, batch(BEGUN)), "log NoBase frame 1"),
    (frames(CUT + numbers(2), HERE, batch(BEGUN)), "log NoBase frame 1"),
    (frames(CUT + numbers(2), HERE, THERE, batch(BEGUN)), "log NoBase frame 1"),
    (frames(CUT + numbers(0), HERE, batch(BEGUN)), "log NoBatch frame 1"),
    (cut(CUT, [THERE, HERE], batch(BEGUN)), "log NoBase frame 1"),
    (cut(CUT, [HERE, HERE], batch(BEGUN)), "log NoBase frame 1"),
    (cut(CUT, [HERE[:4] + b"\1" + HERE[5:]], batch(BEGUN)), "log NoBase frame 1"),
    (cut(CUT, MANY[:4096] + [HERE], batch(BEGUN)), "log NoBase frame 2"),
    (frames(CUT + numbers(2**64 - 1), HERE, batch(BEGUN)), "log NoBase frame 1"),
    (cut(CUT, [HERE], batch(BEGUN), b""), "log NoBatch frame 3"),
    (cut(CUT, [HERE], batch(BEGUN, bytes(96))), "log L2 Kind 1"),
]
AUDITED = [
    (frames(OWN), "audit ok ended 0 open 0\n", 0),
    (frames(OWN, batch(ADMITTED)), "audit ok ended 0 open 1\n", 0),
    (frames(OWN, batch(ADMITTED, ENDED), batch(SECOND, ABORTED)), "audit ok ended 2 open 0\n", 0),
    (frames(OWN, batch(ADMITTED, ENDED)) + b"\2", "audit ok ended 1 open 0\nunfinished 1 bytes\n", 0),
    (frames(OWN, batch(*kept(1, 77))), "audit ok ended 0 open 1\n", 0),
    (frames(OWN, batch(*kept(1, 77, DONE)[:3])), "audit ok ended 0 open 1\n", 0),
    (frames(OWN, batch(*kept(1, 77, DONE), *kept(2, 78, DONE))), "audit ok ended 2 open 0\n", 0),
    (frames(OWN, batch(*kept(1, 77, DONE), *kept(2, 77, DUPLICATE))), "audit ok ended 2 open 0\n", 0),
    (frames(OWN, batch(*kept(1, 77, DONE), *kept(2, 78, DUPLICATE))), "refused U3 Mismatch 2\n", 1),
    (frames(OWN, batch(*kept(1, 77, DUPLICATE))) + b"\2", "refused U3 Mismatch 1\nunfinished 1 bytes\n", 1),
    (frames(OWN, batch(*kept(1, 77, DONE), *kept(2, 77, DONE))), "refused log Otherwise dc 1\n", 1),
    (frames(OWN, batch(*kept(1, 1, DONE), *kept(2, 2, DONE), *kept(3, 3, DONE))), "refused log NoRoom dc 1\n", 1),
    (frames(OWN, batch(ENDED)), "refused U1 LogIllegal place 0\n", 1),
    (frames(OWN, batch(ADMITTED, SECOND, ENDED, ENDED)), "refused U1 LogIllegal place 3\n", 1),
    (frames(OWN, batch(event(6, 0, 0, 0), ADMITTED, ENDED)), "audit ok ended 1 open 0\n", 0),
    (frames(ENGINES, batch(ADMITTED, ENDED)), "audit ok ended 1 open 0\n", 0),
    (frames(OWN, batch(event(6, 0, 1, 0), SECOND, ABORTED)), "audit ok ended 1 open 0\n", 0),
    (frames(OWN, batch(event(6, 0, 1, 0), ADMITTED)), "refused U1 LogIllegal place 1\n", 1),
    (frames(OWN, batch(ADMITTED, ENDED, event(6, 0, 1, 0))), "refused U1 LogIllegal place 2\n", 1),
    (frames(OWN, batch(event(6, 0, (1 << 62) + 1, 0))), "refused U1 LogIllegal place 0\n", 1),
    (frames(OWN, batch(event(6, 0, 3, 4))), "refused log Forgotten dc 0\n", 1),
    (frames(OWN, batch(ADMITTED, event(5, 2, 1, 5))) + b"\2", "refused U1 LogIllegal place 1\n", 1),
    (b"", "refused log Empty\n", 1),
    (cut(CUT, [HERE], batch(BEGUN)), "audit ok ended 0 open 0\n", 0),
    (cut(CUT, [], batch(BEGUN, *kept(4, 77, DONE, number=5))), "audit ok ended 1 open 0\n", 0),
    (cut(CUT, [HERE, THERE], batch(BEGUN, *kept(4, 77, DUPLICATE, number=5))), "audit ok ended 1 open 0\n", 0),
    (cut(CUT, [THERE], batch(BEGUN, *kept(4, 78, DONE, number=5))), "audit ok ended 1 open 0\n", 0),
    (cut(CUT, [THERE], batch(BEGUN, *kept(4, 78, number=5))) + b"\3", "audit ok ended 0 open 1\nunfinished 1 bytes\n", 0),
    (cut(CUT, [THERE], batch(BEGUN, *kept(4, 78, DUPLICATE, number=5))), "refused U3 Mismatch 5\n", 1),
    (cut(CUT, [LAST], batch(BEGUN, *kept(4, 78, DONE, number=5))), "refused log Otherwise dc 1\n", 1),
    (cut(CUT, [HERE], batch(BEGUN, *kept(4, 77, DONE, number=4))), "refused U1 LogIllegal place 2\n", 1),
    (cut(CUT, [HERE], batch(BEGUN, *kept(1, 77, DONE, number=5))), "refused U1 LogIllegal place 1\n", 1),
    (cut(CUT, [HERE], batch(BEGUN, BEGUN)), "refused U1 LogIllegal place 1\n", 1),
    (cut(CUT, [HERE], batch(event(6, 0, 0, (1 << 62) + 1))), "refused U1 LogIllegal place 0\n", 1),
    (cut(CUT, [HERE, base_row((0, 5, 2), b"")], batch(BEGUN)), "refused log NoRoom dc 0\n", 1),
    (cut(CUT, MANY[:3], batch(BEGUN)), "refused log NoRoom dc 1\n", 1),
    (cut(CUT, [HERE, THERE, base_row((2, 0, 0), b"")], batch(BEGUN)), "refused log NoDc dc 2\n", 1),
    (cut(CUT, [*MANY[:3], base_row((9, 0, 0), b"")], batch(BEGUN)) + b"\3", "refused log NoDc dc 9\n", 1),
]
# Logs of others, and what an audit and a run say of them.
OTHERS = [
    (frames(header(3, NOTE, NOTHING, KEEP)), "dcs 3 script 2"),
    (frames(header(1, NOTE)), "dcs 1 script 2"),
    (frames(header(0), batch(*ROWS)), "dcs 0 script 2"),
    (frames(header(2, NOTE)), "procedures 1 script 3"),
    (frames(header(2)) + b"\1", "procedures 0 script 3"),
    (frames(header(2, NOTE, KEEP, NOTHING)), "digest"),
    (frames(header(2, NOTE, NOTHING, NOTHING)), "digest"),
    (frames(header(1, NOTE, version=3, session=[1])), "dcs 1 script 2"),
]
CUT_OTHERS = [
    (cut(header(3, NOTE, NOTHING, KEEP, version=2), [HERE], batch(BEGUN)), "dcs 3 script 2"),
    (cut(header(2, NOTE, NOTHING, version=2), [HERE], batch(BEGUN)), "procedures 2 script 3"),
    (cut(header(2, NOTE, KEEP, NOTHING, version=2), [base_row((9, 0, 0), b"")], batch(BEGUN)), "digest"),
]
# Logs of other procedures that are a checkpoint alone, or nearly, and what a run says of them.
UPGRADED = [
    (cut(header(2, NOTE, NOTHING, version=2), [HERE], batch(BEGUN)), "recovered 1 events, 0 open\nrow 0/5/1 9\n"),
    (cut(header(1, version=2), [HERE], batch(BEGUN)), "recovered 1 events, 0 open\nrow 0/5/1 9\n"),
    (cut(header(2, NOTE, KEEP, NOTHING, version=2), [base_row((9, 0, 0), b"")], batch(BEGUN)), "refused log NoDc dc 9\n"),
    (cut(header(2, NOTE, version=2), MANY[:3], batch(BEGUN)), "refused log NoRoom dc 1\n"),
    (cut(header(3, NOTE, NOTHING, KEEP, version=2), [HERE], batch(BEGUN)), "refused log Other dcs 3 script 2\n"),
    (cut(header(2, NOTE, KEEP, NOTHING, version=2), [HERE], batch(BEGUN)) + b"\3", f"refused log Other digest: {CURE}\n"),
    (cut(header(2, NOTE, KEEP, NOTHING, version=2), [HERE], batch(BEGUN), batch(*ROWS)), f"refused log Other digest: {CURE}\n"),
]
# Logs that leave a data component of the script with more records than it has room for, or just as many.
ROOM = {
    "dc 1 100\ndc 2 9\n": b"recovered 8 events, 0 open\nrow 1/2/1 0\nrow 1/2/2 0\n",
    "dc 1 100\ndc 1 9\n": b"refused log NoRoom dc 1\n",
    "dc 1 100\ndc 2 1\n": b"refused log NoRoom dc 1\n",
}
# What isn't read as anybody's, as a run says it.
NOBODYS = [
    (b"# A page\n", "Other"),
    (frames(ENGINES), "Other session"),
    (cut(ENGINES_CUT, [], batch(BEGUN)), "Other session"),
    (frames(header(2, NOTE, KEEP, NOTHING, version=3, session=[0])), "Other session"),
    (frames(ENGINES)[:-1], "Other"),
    (frames(header(2, NOTE), b""), "Other"),
    (frames(header(2, version=2)), "Other"),
    (frames(OWN, b""), "NoBatch frame 1"),
    (frames(OWN, batch(bytes(96))), "L2 Kind 0"),
]


def kinds(folder, script):
    """What is no file of bytes, in the place of a log."""
    fifo, place, listener = folder / "fifo", folder / "folder", socket.socket(socket.AF_UNIX)
    os.mkfifo(fifo)
    place.mkdir()
    listener.bind(str(folder / "socket"))
    named = {fifo: "fifo", place: "directory", folder / "socket": "socket"}
    named |= {"/dev/zero": "character device", "/dev/full": "character device"}
    for path, kind in named.items():
        for words in (["log", path], ["log", "--audit", path, script], ["run", "--log", path, script]):
            yield Row(list(map(str, words)), b"", f"refused log NotAFile {kind}\n".encode(), 1)
    yield Row(["log", "--audit", str(fifo), "no-such-script"], b"", b"refused log NotAFile fifo\n", 1)


def rows(_program):
    """All rows."""
    folder = tempfile.TemporaryDirectory()
    atexit.register(folder.cleanup)
    script, bad = pathlib.Path(folder.name, "script"), pathlib.Path(folder.name, "bad")
    script.write_text(SCRIPT)
    bad.write_text("dc 1\n")
    audit = ["log", "--audit", "-"]
    for given, printed in LISTED:
        yield Row(["log", "-"], given, printed.encode(), 0)
    for given, events, its_rows, end in WITH_ROWS:
        yield Row(["log", "-"], given, (events + end).encode(), 0)
        yield Row(["log", "--rows", "-"], given, (events + its_rows + end).encode(), 0)
    for given, why in UNREAD:
        yield Row(["log", "-"], given, f"refused {why}\n".encode(), 1)
        yield Row(["log", "--rows", "-"], given, f"refused {why}\n".encode(), 1)
        yield Row([*audit, str(script)], given, f"refused {why}\n".encode(), 1)
    for given, differs in OTHERS + CUT_OTHERS:
        yield Row([*audit, str(script)], given, f"refused log Other {differs}\n".encode(), 1)
    cured = {"digest": f"digest: {CURE}"}
    refusals = [(given, f"Other {cured.get(differs, differs)}") for given, differs in OTHERS] + NOBODYS
    for place, (given, why) in enumerate(refusals):
        log = pathlib.Path(folder.name, f"log{place}")
        log.write_bytes(given)
        yield Row(["run", "--log", str(log), str(script)], b"", f"refused log {why}\n".encode(), 1)
    for place, (given, printed) in enumerate(UPGRADED):
        log = pathlib.Path(folder.name, f"upgraded{place}")
        log.write_bytes(given)
        yield Row(["run", "--log", str(log), str(script)], b"", printed.encode(), int(printed.startswith("refused")))
    for place, (dcs, printed) in enumerate(ROOM.items()):
        smaller, log = pathlib.Path(folder.name, f"smaller{place}"), pathlib.Path(folder.name, f"room{place}")
        smaller.write_text(dcs + SCRIPT[SCRIPT.index("proc") :])
        log.write_bytes(frames(OWN, batch(*kept(1, 1, DONE), *kept(2, 2, DONE))))
        yield Row(["run", "--log", str(log), str(smaller)], b"", printed, int(printed.startswith(b"refused")))
    # a run that is refused opens no file, and begins no call of either list
    first, unmade = pathlib.Path(folder.name, "first"), pathlib.Path(folder.name, "unmade")
    first.write_text(SCRIPT + "first keep 1\n")
    for words, why in ((["--workers", "65"], "G1 Workers"), (["--tries", "0"], "G2 Tries")):
        yield Row(["run", "--log", str(unmade), *words, str(first)], b"", f"refused {why}\n".encode(), 1)
        yield Row(["log", str(unmade)], b"", b"", 3, f"cannot read {unmade}: no such file or directory\n".encode())
    yield from kinds(pathlib.Path(folder.name), script)
    for given, printed, status in AUDITED:
        yield Row([*audit, str(script)], given, printed.encode(), status)
    yield Row([*audit, str(bad)], frames(OWN), b"refused line 1 F1 BadLine\n", 1)
    yield Row([*audit, "no-such-script"], frames(OWN), b"", 3, b"cannot read no-such-script: no such file or directory\n")
    yield Row(["log", "no-such-file"], b"", b"", 3, b"cannot read no-such-file: no such file or directory\n")
    yield Row(["log", "--audit", "-"], b"", b"", 2, b"error: ")
    yield Row(["log", "-", str(script)], b"", b"", 2, b"error: ")
    yield Row(["log", "--rows", "-", str(script)], b"", b"", 2, b"error: ")
    yield Row(["log", "--rows", *audit[1:], str(script)], b"", b"", 2, b"error: log takes one of --rows")
