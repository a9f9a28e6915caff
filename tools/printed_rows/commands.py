"""Command lines: which aren't understood, and what can't be read."""
from objects import OBJECT
from .row import Row, no_number

# Words, and what standard error begins with.
WRONG = [
    ([], b"error: a command is missing"),
    (["dance"], b"error: "),
    (["exec"], b"error: "),
    (["exec", "-", "18446744073709551616"], no_number("[ARG]...", "18446744073709551616")),
    (["exec", "-", "1", "+2", "0x3", "y"], no_number("[ARG]...", "0x3")),
    (["run", "--workers", "abc", "-"], no_number("--workers <N>", "abc", "from 1 to 64")),
    (["run", "--workers", "+4", "-"], no_number("--workers <N>", "+4", "from 1 to 64")),
    (["run", "--workers", "4", "--tries", "", "-"], no_number("--tries <N>", "", "from 1 to 1000")),
    (["run", "--workers", "4", "--tries", "3x", "-"], no_number("--tries <N>", "3x", "from 1 to 1000")),
    (["run", "--log", "no-such-folder/log", "--checkpoint-over", "1k", "-"], no_number("--checkpoint-over <BYTES>", "1k")),
    (["run", "--partitions", "--workers", "+1", "-"], no_number("--workers <N>", "+1", "from 1 to 64")),
    (["world", "--stats", "-"], b"error: unexpected argument '--stats' found\n\nUsage: procd"),
]

# A byte order mark, U+FEFF in UTF-8.
MARK = b"\xef\xbb\xbf"
MARKED = "-: it begins with a byte order mark (U+FEFF); save it as UTF-8 without one"
NO_SCRIPT = "it is an object file, and no SCRIPT stands behind it"
# Words, standard input, and what can't be read and why.
UNREAD = [
    (["exec", "no-such-file"], b"", "no-such-file: no such file or directory"),
    (["verify", "/"], b"", "/: is a directory"),
    (["world", "/dev/zero"], b"", "/dev/zero: no end within 268435456 bytes"),
    (["exec", "/dev/zero"], b"", "/dev/zero: no end within 16777216 bytes"),
    (["dis", "--raw", "/dev/zero"], b"", "/dev/zero: no end within 16777216 bytes"),
    (["exec", "-"], b" " * (16 << 20) + b"9", "-: no end within 16777216 bytes"),
    (["run", "-"], OBJECT, f"-: {NO_SCRIPT}"),
    (["run", "--partitions", "-"], OBJECT, f"-: {NO_SCRIPT}"),
    (["world", "-"], OBJECT, f"-: {NO_SCRIPT}"),
    (["asm", "-"], b"exit ; \xff\n", "-: it isn't UTF-8"),
    (["asm", "-"], MARK + b"exit\n", MARKED),
    (["verify", "-"], MARK + b"dc 1 1\n", MARKED),
    (["world", "-"], MARK + b"dc 1 1\n", MARKED),
    (["run", "-"], MARK + b"dc 1 1\n", MARKED),
]


def rows(_program):
    """All rows."""
    given = b"b700000000000000 9500000000000000"
    yield from (Row(words, given, b"", 2, told) for words, told in WRONG)
    yield from (Row(words, given, b"", 3, f"cannot read {why}\n".encode()) for words, given, why in UNREAD)
    yield Row(["run", "--log", "-", "-"], b"dc 1 1\n", b"", 3, b"cannot write -: it names no file here; ./- does\n")
    yield Row(["exec", "-"], MARK + given, b"refused H1 NotHex at 0\n", 1)
    yield Row(["exec", "-"], given + b" " * ((16 << 20) - len(given)), b"answer 0\nexecuted 2\n", 0)
