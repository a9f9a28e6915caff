"""What a log's file says, by the plain model alone: its frames, its header, the records with which data components
begin, and its events; or why it isn't read. Lines are those of `procd log --rows`.
"""
import collections
import struct

from log_files import MAGIC, PART, fnv, frame, numbers
from plain_log import ADMIT, ANSWER, ASK, CHECKPOINT, END, outcome_of, read_event
from plain_model import admit_bytes, answer_bytes, checkpoint_bytes, end_bytes, sent_bytes
from plain_model import op_text, record_text, said_text, value_text

# What is read: how many data components there are, the base, where there is one, the rows of the events, and how many
# bytes behind them are no whole frame.
Stored = collections.namedtuple("Stored", "dcs base records unfinished")

LENGTHS = {1: 64, 2: 72, 3: 72, 4: 80}  # of a header, by its layout
NEAR = 16  # so many numbers behind that of a frame that isn't whole are looked for whatever stands behind them


class Refused(Exception):
    """Why a file isn't read."""


# ---- frames


def whole(data):
    """How many frames stand whole at the front, and where they end."""
    place = number = 0
    while len(data) - place >= 24:
        length = int.from_bytes(data[place + 8 : place + 16], "little")
        payload = data[place + 24 : place + 24 + length]
        if len(payload) < length or data[place : place + 24 + length] != frame(number, payload):
            break
        place, number = place + 24 + length, number + 1
    return number, place


def may_stand(first, number, after):
    """Whether a frame of this number, behind which these bytes stand, may be where the first one would begin."""
    followed = len(after) == 8 and int.from_bytes(after, "little") == number + 1
    return first <= number and (number <= first + NEAR or followed)


def stands_whole(first, data):
    """Whether a whole frame stands anywhere that may be where the first one would begin, or any at the front."""
    for place in range(len(data) - 23):
        number, length, said = (int.from_bytes(data[place + at : place + at + 8], "little") for at in (0, 8, 16))
        end = place + 24 + length
        if end <= len(data) and (not place or may_stand(first, number, data[end : end + 8])):
            if said == fnv(numbers(number, length) + data[place + 24 : end]):
                return True
    return False


def is_end(number, end):
    """Whether a crash can have left this of the frame of this number."""
    first, length = end[:8], int.from_bytes(end[8:16], "little")
    numbered = first in (numbers(number)[: len(first)], bytes(len(first)))
    return numbered and (len(end) < 16 or length == 0 or len(end) <= 24 + length) and not stands_whole(number, end)


def payloads_of(data):
    """The payloads of the whole frames, and how many bytes stand behind them."""
    count, end = whole(data)
    rest, payloads, place = data[end:], [], 0
    if not count:
        if stands_whole(0, rest):
            raise Refused("Damaged frame 0")
        begins = any(len(data) < 24 + size and data[:16] == numbers(0, size)[: len(data)] for size in (LENGTHS[1], LENGTHS[3]))
        raise Refused("Empty" if begins else "Other")
    if not is_end(count, rest):
        raise Refused(f"Damaged frame {count}")
    while place < end:
        length = int.from_bytes(data[place + 8 : place + 16], "little")
        payloads.append(data[place + 24 : place + 24 + length])
        place += 24 + length
    return payloads, len(rest)


# ---- what their payloads say


def header_in(payload):
    """How many data components the header says, and how many base records, or None where it begins at the beginning."""
    version, dcs = (int.from_bytes(payload[at : at + 8], "little") for at in (8, 16))
    if payload[:8] != MAGIC or LENGTHS.get(version) != len(payload) or dcs >= 1 << 16:
        raise Refused("Other")
    return dcs, int.from_bytes(payload[-8:], "little") if version in (2, 4) else None


def base_in(payloads, count):
    """The base of so many records behind the header: each record with its value, rising."""
    base, number = [], 0
    while len(base) < count:
        number += 1
        size, part = min(count - len(base), PART), payloads[number] if number < len(payloads) else b""
        for place in range(0, len(part), 80):
            dc, table, zero, key = struct.unpack("<HHIQ", part[place : place + 16].ljust(16, b"?"))
            if zero or base and base[-1][0] >= (dc, table, key):
                raise Refused(f"NoBase frame {number}")
            base.append(((dc, table, key), part[place + 16 : place + 80]))
        if len(part) != 80 * size:
            raise Refused(f"NoBase frame {number}")
    return base, number


def is_note(note, dcs):
    dc, kind, incarnation, mark = struct.unpack("<4Q", note)
    return dc < dcs and kind <= 2 and (kind or not incarnation) and (kind == 1 or not mark)


def rows_in(payload, dcs):
    """The rows of a batch, or None where it is none."""
    notes = int.from_bytes(payload[:8], "little")
    rest = payload[8 + 32 * min(notes, len(payload)) :]
    if len(payload) < 8 + 32 * notes or len(rest) % 96:
        return None
    if not all(is_note(payload[8 + 32 * i : 40 + 32 * i], dcs) for i in range(notes)):
        return None
    return [rest[place : place + 96] for place in range(0, len(rest), 96)]


def printed(event):
    """The bytes of an event."""
    if event.kind == ADMIT:
        return admit_bytes(event.txn, event.word, event.args)
    if event.kind == ANSWER:
        return answer_bytes(event.txn, event.word, event.said)
    if event.kind == END:
        return end_bytes(event.txn, outcome_of(event))
    if event.kind == CHECKPOINT:
        return checkpoint_bytes(event.txn, event.word)
    return sent_bytes(event.kind, event.txn, event.word, event.op)


def is_event(row):
    """Whether the row is an event's: its fields are written again."""
    is_kind = row[0] in range(1, 7) and (row[0] != ADMIT or row[1] <= 8)
    try:
        return is_kind and printed(read_event(row)) == row and not (row[:2] == b"\5\2" and row[16:24] == bytes(8))
    except KeyError:
        return False


def read_file(data):
    """What these bytes say."""
    payloads, unfinished = payloads_of(data)
    dcs, count = header_in(payloads[0])
    base, front = base_in(payloads, count) if count is not None else (None, 0)
    records = []
    for number, payload in enumerate(payloads[front + 1 :], front + 1):
        rows = rows_in(payload, dcs)
        if rows is None:
            raise Refused(f"NoBatch frame {number}")
        records += rows
    for place, row in enumerate(records):
        if not is_event(row):
            raise Refused(f"L2 Kind {place}")
    if base is not None and not (records and records[0][0] == CHECKPOINT):
        raise Refused(f"NoBase frame {front + 1}")
    return Stored(dcs, base, records, unfinished)


# ---- lines


def event_line(event):
    if event.kind == ADMIT:
        return " ".join(map(str, ("admit", event.txn, "procedure", event.word, *event.args)))
    if event.kind == END:
        return " ".join(map(str, ("end", event.txn, *outcome_of(event))))
    if event.kind == CHECKPOINT:
        return f"checkpoint {event.txn} {event.word}"
    if event.kind == ANSWER:
        return f"answer {event.txn} number {event.word} {said_text(event.said)}"
    return f"{'ask' if event.kind == ASK else 'undo'} {event.txn} number {event.word} {op_text(event.op)}"


def lines(data):
    """What `procd log --rows` prints of these bytes."""
    try:
        stored = read_file(data)
    except Refused as why:
        return [f"refused log {why}"]
    told = [f"{place} {event_line(read_event(row))}" for place, row in enumerate(stored.records)]
    told += [f"row {record_text(record)} {value_text(value)}" for record, value in stored.base or []]
    return told + ([f"unfinished {stored.unfinished} bytes"] if stored.unfinished else [])
