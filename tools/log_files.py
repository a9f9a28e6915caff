"""A log's file, written by the formats' page alone: frames, a header, a base, batches, and the rows of events."""
import hashlib
import struct

MAGIC = b"mazzulpe"
PART = 4096  # so many base records a frame has, but for the last one


def numbers(*them):
    """Numbers of eight bytes, the lowest first."""
    return struct.pack(f"<{len(them)}Q", *them)


def fnv(data):
    """FNV-1a of 64 bits."""
    hashed = 0xCBF29CE484222325
    for byte in data:
        hashed = (hashed ^ byte) * 0x100000001B3 % (1 << 64)
    return hashed


def frame(number, payload):
    """The frame of this number."""
    return numbers(number, len(payload), fnv(numbers(number, len(payload)) + payload)) + payload


def frames(*payloads):
    """Frames one behind another, from number 0 on."""
    return b"".join(frame(number, payload) for number, payload in enumerate(payloads))


def procedure(args, slots, code):
    """A procedure's declaration and code; a slot is its mode, data component, table, kind of key and key."""
    words = numbers(args, len(slots)) + b"".join(numbers(*slot) for slot in slots)
    return words + numbers(len(code)) + code


def header(dcs, *procedures, version=1, session=()):
    """The payload of a log's first frame; in layouts 3 and 4 it has one session."""
    digest = hashlib.sha256(b"".join(procedures)).digest()
    return MAGIC + numbers(version, dcs, len(procedures)) + digest + numbers(*session)


def base_row(record, value):
    """A record with which its data component begins."""
    return struct.pack("<HHxxxxQ", *record) + value.ljust(64, b"\0")


def parts(base):
    """The payloads of a base's records."""
    return [b"".join(base[place : place + PART]) for place in range(0, len(base), PART)]


def cut(head, base, *batches):
    """The frames of a log that begins behind an earlier one: `head` is a header of version 2 or 4."""
    return frames(head + numbers(len(base)), *parts(base), *batches)


def batch(*rows, notes=()):
    """The payload of what one sync writes; a note is a data component, its kind, incarnation and mark."""
    return numbers(len(notes)) + b"".join(numbers(*note) for note in notes) + b"".join(rows)


def event(kind, sub, txn, word=0, record=(0, 0, 0), body=b""):
    """The row of an event."""
    dc, table, key = record
    return struct.pack("<BBHHxxQQQ", kind, sub, dc, table, txn, word, key) + body.ljust(64, b"\0")
