#!/usr/bin/env python3
"""Random logs that were cut, and files near to such: what `procd log` says of them, beside the plain model.

  tools/cut_logs.py [--files N] [--seed N] [--procd PATH]

The log and the records with which its data components begin are those of a random script of explore.py. They come in
random batches and notes; of three files two are changed: a record of the base is left out, added, changed or moved, a
payload has another byte, is left out, comes twice or changes places, or the file is cut or has something behind it.
`log --rows` has to print what plain_file.py reads, and `log --audit` what plain_log.py finds of data components that
begin with the base and are redone by the plain model. The status is 1 where one says otherwise.
"""
import argparse
import collections
import pathlib
import random
import sys
import tempfile

from built import PROCD
from explore import Steps, script_of
from log_files import base_row, batch, frames, numbers, parts
from plain_file import Refused, lines, read_file
from plain_log import ANSWER, ASK, CHECKPOINT, UNDO, Legal, audit, read_log
from plain_model import DataComponent, Wire, put_at
from trying import Program

STEPS = 300
FILES_OF_ONE = 20  # so many files are made of one log

# A script's limits and procedures, the header of its logs but for the layout, a log's records, and the base.
World = collections.namedtuple("World", "dcs names header records base")


def world_of(program, draw, turn):
    """What stands behind a random script, or None where its log isn't cut."""
    script = Steps.drawn(draw, STEPS)
    world = script.told()[1]
    records = list(world.log)
    if not records or records[0][0] != CHECKPOINT:
        return None
    path = program.folder / f"begun{turn}"
    program.run(["run", "--log", path, program.file(script_of(script.dcs, script.names, []).encode())])
    header = path.read_bytes()[40:88]
    return World(script.dcs, script.names, header, records, sorted(world.base().items()))


# ---- files


def other_base(draw, base):
    """The base with one record left out, added, changed, or in another place."""
    base, place = list(base), draw.randrange(len(base) + 1)
    record = tuple(draw.choice(them) for them in ((0, 0, 1, 2), (0, 7), range(30)))
    way = draw.randrange(4)
    if way == 0:
        return base[:place] + base[place + 1 :]
    if way == 1:
        return sorted({**dict(base), record: put_at(bytes(64), 8, 5)}.items())
    if way == 2 and place < len(base):
        base[place] = (base[place][0], put_at(base[place][1], 0, 3))
    elif way == 3:
        draw.shuffle(base)
    return base


def batches(draw, records, dcs):
    """The records in batches, with notes."""
    while records:
        count = draw.randrange(len(records) + 1)
        notes = [(draw.randrange(dcs), *draw.choice([(0, 0, 0), (1, 2, 3), (2, 4, 0)])) for _ in range(draw.randrange(3))]
        yield batch(*records[:count], notes=notes)
        records = records[count:]


def changed(draw, payloads):
    """The payloads with one change."""
    place = draw.randrange(len(payloads))
    one = bytearray(payloads[place])
    way = draw.randrange(4)
    if way == 0 and one:
        one[draw.randrange(len(one))] ^= draw.choice([1, 2, 128, 255])
        return [*payloads[:place], bytes(one), *payloads[place + 1 :]]
    if way == 1:
        return payloads[:place] + payloads[place + 1 :]
    if way == 2:
        return payloads[:place] + [bytes(one)] + payloads[place:]
    return draw.sample(payloads, len(payloads)) if draw.randrange(2) else payloads[:place] + payloads[place:][::-1]


def a_file(draw, world):
    """A file, and how it was changed."""
    how = draw.choice(["whole", "base", "payloads", "end", "no base"])
    base = other_base(draw, world.base) if how == "base" else world.base
    rows = [base_row(*row) for row in base]
    session = draw.choice([b"", draw.randbytes(8)])
    layout = 4 if session else 2
    payloads = [b"mazzulpe" + numbers(layout) + world.header + session + numbers(len(rows)), *parts(rows)]
    if how == "no base":
        payloads = [b"mazzulpe" + numbers(layout - 1) + world.header + session]
    payloads += batches(draw, world.records, len(world.dcs))
    data = frames(*changed(draw, payloads)) if how == "payloads" else frames(*payloads)
    if how == "end":
        data = data[: draw.randrange(len(data))] if draw.randrange(2) else data + draw.randbytes(draw.randrange(1, 40))
    return data, how


# ---- what an audit is to say


def begun(dcs, base, mark):
    """Data components that begin with these records behind a mark, and have restarted."""
    began = []
    for d, (rows, ops) in enumerate(dcs):
        dc = DataComponent(rows, ops)
        dc.rows, dc.mark = {record: value for record, value in base if record[0] == d}, mark
        dc.forget()
        dc.restart()
        began.append(dc)
    return began


def done_in(log):
    """Of each number that was answered Done the operation and the answer."""
    asked, done = {}, {}
    for event in log:
        if event.kind in (ASK, UNDO):
            asked[event.word] = event.op
        if event.kind == ANSWER and event.said[0] == "done":
            done[event.word] = asked[event.word], event.said
    return done


def not_redone(dcs, log, mark):
    """Redoes what the log says that was done, and answers why that doesn't end, or None."""
    done = done_in(log)
    for d, dc in enumerate(dcs):
        for n in sorted(n for n, (op, _) in done.items() if op[1][0] == d):
            said = dc.perform(Wire(n, mark, dc.incarnation, True, done[n][0]))
            if said is None:
                return f"refused log NoRoom dc {d}"
            if said != done[n][1]:
                return f"refused log Otherwise dc {d}"
    return None


def not_begun(dcs, base):
    """Why data components can't begin with these records, or None."""
    for (dc, _, _), _ in base:
        if dc >= len(dcs):
            return f"refused log NoDc dc {dc}"
    for d, (rows, _) in enumerate(dcs):
        if sum(record[0] == d for record, _ in base) > rows:
            return f"refused log NoRoom dc {d}"
    return None


def audited(world, stored):
    """The lines of an audit of this log."""
    log = read_log(stored.records)
    mark = log[0].word if log and log[0].kind == CHECKPOINT else 0
    why = not_begun(world.dcs, stored.base or [])
    place = None if why else Legal(world.names).first_illegal(log)
    if place is not None:
        why = f"refused U1 LogIllegal place {place}"
    elif not why and stored.base is None and mark:
        why = "refused log Forgotten dc 0"
    if why:
        return [why]
    dcs = begun(world.dcs, stored.base or [], mark if stored.base is not None else 0)
    why = not_redone(dcs, log, mark)
    if why:
        return [why]
    return [audit(log, world.names, dcs)] + ([f"unfinished {stored.unfinished} bytes"] if stored.unfinished else [])


def audit_of(world, data):
    """The lines of an audit of this file, or how the first begins."""
    try:
        stored = read_file(data)
    except Refused as why:
        return [f"refused log {why}"]
    return audited(world, stored) if data[40:88] == world.header else ["refused log Other "]


def difference(program, world, script, data):
    """What procd says of this file otherwise than the model, or None, and what its audit says."""
    listed = program.run(["log", "--rows", "-"], data)
    wanted = lines(data)
    is_refused = wanted[:1] != [] and wanted[0].startswith("refused")
    if (listed.status, listed.out.decode().splitlines(), listed.err) != (int(is_refused), wanted, b""):
        return f"log --rows: {listed}, wanted {wanted}", ""
    found = program.run(["log", "--audit", "-", script], data)
    said, wanted = found.out.decode().splitlines(), audit_of(world, data)
    is_same = said[0].startswith(wanted[0]) if wanted[0].endswith("Other ") else said == wanted
    if not is_same or found.err or found.status != int(wanted[0].startswith("refused")):
        return f"log --audit: {found}, wanted {wanted}", ""
    return None, " ".join(word for word in said[0].split()[:3] if not word.isdecimal())


def main():
    options = argparse.ArgumentParser(description=__doc__, formatter_class=argparse.RawDescriptionHelpFormatter)
    options.add_argument("--files", type=int, default=2000)
    options.add_argument("--seed", type=int, default=1)
    options.add_argument("--procd", default=PROCD)
    options = options.parse_args()
    draw, tally, made, turn, wrong = random.Random(options.seed), collections.Counter(), 0, 0, None
    with tempfile.TemporaryDirectory() as name:
        program = Program(options.procd, pathlib.Path(name))
        while made < options.files and not wrong:
            turn += 1
            world = world_of(program, draw, turn)
            if world is None:
                continue
            script = program.file(script_of(world.dcs, world.names, []).encode())
            for _ in range(FILES_OF_ONE):
                data, how = a_file(draw, world)
                wrong, said = difference(program, world, script, data)
                made += 1
                tally[said] += 1
                if wrong:
                    wrong = f"file {made} ({how}): {wrong}"
                    break
    told = ", ".join(f"{count} {said}" for said, count in tally.most_common())
    print(f"cut_logs: {wrong or f'{made} files, no difference; {told}'}")
    return 1 if wrong else 0


if __name__ == "__main__":
    sys.exit(main())
