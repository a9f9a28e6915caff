"""`log --from`, `--tail`, `--follow` and `--picture`: parts of a log's events, and the files that pictures are not written to."""
import atexit
import pathlib
import tempfile

from log_files import batch, frames
from .logs import ENDED, LINES, OWN, ROWS, UNREAD
from .row import Row, no_number

WHOLE = frames(OWN, batch(*ROWS[:7]), batch(*ROWS[7:]))
COUNT = len(ROWS)
MOST = 2**64 - 1
ONE = b"error: log takes one of --rows, --audit, --picture and --follow"
PARTS = b"error: log takes one of --from and --tail"
UNWANTED = b"error: log takes --from and --tail with neither --rows nor --audit"
# Words behind `log`, before the file and behind it, and what standard error begins with. `{svg}` isn't there yet.
WRONG = [
    (["--from", "1", "--tail", "1"], [], PARTS),
    (["--picture", "{svg}", "--from", "1", "--tail", "1"], [], PARTS),
    (["--rows", "--from", "0"], [], UNWANTED),
    (["--rows", "--tail", "1"], [], UNWANTED),
    (["--audit", "--from", "1"], ["script"], UNWANTED),
    (["--audit", "--tail", "1"], ["script"], UNWANTED),
    (["--rows", "--picture", "{svg}"], [], ONE),
    (["--audit", "--picture", "{svg}"], ["script"], ONE),
    (["--rows", "--audit", "--picture", "{svg}"], ["script"], ONE),
    (["--rows", "--follow"], [], ONE),
    (["--audit", "--follow"], ["script"], ONE),
    (["--picture", "{svg}", "--follow"], [], ONE),
    (["--follow", "--from", "1", "--tail", "1"], [], PARTS),
    (["--follow"], ["script"], b"error: log takes a SOURCE with --audit alone"),
    (["--audit"], ["object", "script", "more"], b"error: "),
    (["--picture", "{svg}"], ["script"], b"error: log takes a SOURCE with --audit alone"),
    (["--audit", "--tail", "1"], [], b"error: log --audit takes a SOURCE as well"),
    (["--from", "x"], [], no_number("--from <P>", "x")),
    (["--from", ""], [], no_number("--from <P>", "")),
    (["--from", "+1"], [], no_number("--from <P>", "+1")),
    (["--tail", "+1"], [], no_number("--tail <N>", "+1")),
    (["--tail", "-1"], [], b"error: "),
    (["--tail", str(MOST + 1)], [], no_number("--tail <N>", str(MOST + 1))),
    (["--from", "1", "--from", "2"], [], b"error: "),
    (["--picture"], [], b"error: "),
]


def listed(first):
    """The lines of the events from this place on."""
    return "".join(f"{place} {line}\n" for place, (_row, line) in enumerate(LINES) if place >= first).encode()


def part_rows():
    """Listings of parts."""
    for place in [0, 1, 7, COUNT - 1, COUNT, COUNT + 1, MOST]:
        for words in ["--from"], ["--follow", "--from"]:
            yield Row(["log", *words, str(place), "-"], WHOLE, listed(place), 0)
    for wanted in [0, 1, 12, COUNT - 1, COUNT, COUNT + 1, MOST]:
        yield Row(["log", "--tail", str(wanted), "-"], WHOLE, listed(COUNT - wanted), 0)
    torn = frames(OWN, batch(ENDED, ENDED)) + b"\2"
    yield Row(["log", "--tail", "1", "-"], torn, b"1 end 1 committed\nunfinished 1 bytes\n", 0)
    yield Row(["log", "--from", "9", "-"], torn, b"unfinished 1 bytes\n", 0)
    yield Row(["log", "--tail", "1", "-"], b"", b"refused log Empty\n", 1)


def unwritten_rows(folder):
    """Pictures that aren't written: FILE isn't read, or there is something already, or no folder for it."""
    there, nowhere = folder / "there.svg", folder / "no-such-folder" / "log.svg"
    there.write_text("kept\n")
    for given, why in UNREAD:
        yield Row(["log", "--picture", str(folder / "log.svg"), "-"], given, f"refused {why}\n".encode(), 1)
    yield Row(["log", "--picture", str(there), "-"], b"", b"refused log Empty\n", 1)
    yield Row(["log", "--picture", "-", "-"], WHOLE, b"", 3, b"cannot write -: it names no file here; ./- does\n")
    yield Row(["log", "--picture", str(there), "-"], WHOLE, b"", 3, f"cannot write {there}: file exists\n".encode())
    yield Row(["log", "--picture", str(folder), "-"], WHOLE, b"", 3, f"cannot write {folder}: file exists\n".encode())
    missing = f"cannot write {nowhere}: no such file or directory\n".encode()
    yield Row(["log", "--picture", str(nowhere), "--tail", "3", "-"], WHOLE, b"", 3, missing)
    yield Row(["log", "--picture", str(nowhere), "no-such-log"], b"", b"", 3, b"cannot read no-such-log: no such file or directory\n")


def rows(_program):
    """All rows."""
    home = tempfile.TemporaryDirectory()
    atexit.register(home.cleanup)
    folder = pathlib.Path(home.name)
    yield from part_rows()
    yield from unwritten_rows(folder)
    for before, behind, told in WRONG:
        words = [word.format(svg=folder / "log.svg") for word in before]
        yield Row(["log", *words, "-", *behind], WHOLE, b"", 2, told)
