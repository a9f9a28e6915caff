"""A row: words, what is on standard input, and what has to be printed."""
import collections

# The program's words, standard input, standard output, the status, and standard error; where that begins with `error: `,
# only how it begins, since the rest is the text of a library.
Row = collections.namedtuple("Row", "words given out status told", defaults=(b"",))


# What lets other procedures go on from a log.
CURE = "checkpoint it with its own procedures first"


def row(words, given, out, status=0):
    """A row of texts, with nothing on standard error."""
    return Row(words.split(), given.encode(), out.encode(), status)


def refused(words, given, why):
    """A row of a text that is refused."""
    return row(words, given, f"refused {why}\n", 1)


def no_number(shown, given, numbers="of 64 bits"):
    """How it is told that what was given there is no number."""
    return f"error: invalid value '{given}' for '{shown}': no number {numbers} in decimal digits\n".encode()


def events(*rows):
    """Rows of a log in hex, each filled up with zeros to its 96 bytes."""
    return "".join(f"{it:0<192}\n" for it in rows)
