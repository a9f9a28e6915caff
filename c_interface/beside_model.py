#!/usr/bin/env python3
"""The library's frames beside the plain model of tools/, which shares no code with it.

usage: beside_model.py [--library PATH] [--procd PATH] [--steps N] [--seed N]

From each seed come random steps of a world, as tools/explore.py draws them: calls that overlap, messages that are lost,
repeated, late and forged, data components that keep checkpoints and restart, news that come late and again, redo, undos that
fail, crashes of the transaction component. Between them data components hear a low-water mark and forget, and the log begins anew, at times that fit and at others.
Each step is made by the frames of a transaction component and two data components of the shared library, and what it says is
compared with the model's line; behind the steps the rows and the log's bytes are compared. At the first difference it prints
the seed and the step, with status 1. The procedures are assembled by procd.
"""
import argparse
import collections
import ctypes
import pathlib
import random
import subprocess
import sys

HERE = pathlib.Path(__file__).resolve().parent
sys.path.insert(0, str(HERE.parent / "tools"))
from explore import CRASHED, FORGED, RESTARTED, WORDS, next_step, some_step  # noqa: E402
from plain_model import PROCEDURES, TEXTS, Reply, Wire, World, op_text, record_bytes, record_text, said_text, value_text  # noqa: E402

START_TC, START_DC, BYTES, SLOT, CLEAR, LOAD, NOTE, RECOVER = 1, 2, 10, 11, 12, 13, 15, 16
ADMIT, ASK, UNDO, WIRE, ANSWER, END, LOG_LENGTH, LOG_BYTES, TOLD, REDO_NEXT, REDONE = 20, 22, 23, 24, 25, 27, 29, 30, 32, 33, 34
SITE, LOG_ANEW, LOW_WATER, OPEN_FROM, RETAKE, RESULT = 31, 35, 36, 37, 38, 62
PERFORM, RESTART, ROWS, ROW, CHECKPOINT, HEAR_MARK, FORGET = 40, 41, 43, 44, 46, 48, 49
ILLEGAL = {"I2": "NoTxn", "I5": "NotOver", "I6": "NothingOpen", "I9": "Stranger", "I10": "NoDc", "I12": "IncarnationsSpent"}
ILLEGAL |= {"I15": "OldNews", "I16": "NotDown", "Q3": "Forgotten"}
OPERATIONS = {1: "read", 2: "insert", 3: "update", 4: "delete"}
ANSWERS = {1: "value", 2: "absent", 3: "done", 4: "done", 5: "duplicate", 6: "missing", 7: "noroom", 8: "old"}
EACH = 2000  # steps of a seed


# The access slot by which a procedure makes its operation at this place, from 0; where it isn't named, the first.
SLOTS = {"move": lambda at, op: at % 2, "pair": lambda at, op: at, "churn": lambda at, op: int(op[1][1] == 7)}
SLOT_COUNT = {"move": 2, "pair": 2, "churn": 2}


def held_behind(held, op, said):
    """What a slot holds behind an operation by it: the bytes of its buffer, and whether a record is there."""
    value, there = held
    if op[0] == "read":
        return (said[1], True) if said[0] == "value" else (bytes(64), False)
    return (op[2] if len(op) > 2 else value), (op[0] != "delete" if said[0] == "done" else there)


class AnewWorld(World):
    """The model with a log that begins anew, data components that forget what they performed, and what slots of calls hold."""

    def begin(self):
        super().begin()
        self.begun = 0
        self.said = {}  # of each transaction its procedure's name, and the operations of its run with what was said to them

    def admitted(self, name, args):
        super().admitted(name, args)
        self.said[self.serials] = name, []

    def answered(self, n, said):
        t, op, is_undo = self.unanswered[n]
        if not is_undo:
            self.said[t][1].append((op, said))
        super().answered(n, said)

    def result(self, t, slot):
        if t not in self.txns:
            return "I2"
        name, said = self.said[t]
        if slot >= SLOT_COUNT.get(name, 1):
            return "W6"
        if not self.txns[t].outcome:
            return "I5"
        held = bytes(64), False
        for at, (op, answer) in enumerate(said):
            if SLOTS.get(name, lambda at, op: 0)(at, op) == slot:
                held = held_behind(held, op, answer)
        return held

    def hear(self, d, incarnation, mark):
        dc = self.dcs[d]
        if dc.incarnation == incarnation:
            dc.mark = max(dc.mark, mark)
        return f"heard {d}"

    def forget(self, d):
        dc = self.dcs[d]
        rows, saved, mark = dc.saved
        may = len(saved) == len(dc.list) and len(dc.rows) <= dc.rows_most and all(n <= mark for n in dc.list)
        if may:
            dc.list, dc.saved = {}, (rows, {}, mark)
        return f"forgot {int(may)}"

    def anew(self, kept):
        """The log is one event, of how many were admitted and given out, or it stays as it is."""
        if not self.log:
            return "G1"
        if self.txns:
            return "G2"
        if any(site.is_down() for site in self.sites):
            return "G4"
        if kept < self.last:
            return "G5"
        self.done, self.events, self.log = {}, [], []
        self.began(self.serials, self.last)
        return f"anew behind {self.low()}"

    def began(self, serials, last):
        self.serials, self.last, self.begun = serials, last, last
        self.event(record_bytes(6, 0, txn=serials, word=last), self.began, serials, last)

    def is_written(self, p):
        return (p > 0 or not self.begun) and super().is_written(p, self.begun)

    def tell(self, i):
        if i < len(self.news):
            d, incarnation, mark = self.news[i]
            if incarnation > self.sites[d].incarnation and mark < self.begun:
                return "illegal Q3 Forgotten"
        return super().tell(i)


def anew_steps(draw, world):
    """What a caller does before its log begins anew, at whatever time, and some of it left out; at last by the least mark that
    was kept, or by one that wasn't.
    """
    mark = world.low() + draw.choice([0, 0, 0, 0, -1, 1])
    for d, site in enumerate(world.sites):
        yield "hear", d, site.incarnation if draw.random() < 0.9 else site.incarnation + 1, max(mark, 0)
        if draw.random() < 0.9:
            yield "checkpoint", d
        if draw.random() < 0.9:
            yield "forget", d
    yield "anew", min(dc.saved[2] for dc in world.dcs) if draw.random() < 0.85 else max(mark, 0)


class Frame(ctypes.Structure):
    _fields_ = [(it, ctypes.c_uint32) for it in ("what", "kind", "op", "count")]
    _fields_ += [("dc", ctypes.c_uint16), ("table", ctypes.c_uint16), ("redo", ctypes.c_uint32)]
    _fields_ += [(it, ctypes.c_uint64) for it in ("txn", "number", "low_water", "incarnation", "key", "word", "place")]
    _fields_ += [("args", ctypes.c_uint64 * 8), ("value", ctypes.c_uint8 * 64), ("bytes", ctypes.c_uint8 * 256)]


class Handle:
    """An engine of the library."""

    def __init__(self, library, what, word, place=0):
        self.library = library
        self.room = ctypes.create_string_buffer(library.mazzulpe_size() + 16)
        at = -(-ctypes.addressof(self.room) // 16) * 16
        self.at, self.frame = ctypes.c_void_p(at), Frame.from_address(at)
        library.mazzulpe_open(self.at)
        code = self(what, word=word, place=place)
        assert code == "", code

    def close(self):
        self.library.mazzulpe_close(self.at)

    def __call__(self, what, **fields):
        """Makes a call with these fields of the frame; its code as text, "" where it is done."""
        for name, value in fields.items():
            setattr(self.frame, name, value)
        self.frame.what = what
        code = self.library.mazzulpe_call(self.at)
        return f"{chr(code >> 8)}{code & 255}" if code else ""

    def put_bytes(self, data):
        ctypes.memmove(self.frame.bytes, data, len(data))
        self.frame.count = len(data)

    def put_value(self, data):
        ctypes.memmove(self.frame.value, data, 64)

    def value(self):
        return bytes(self.frame.value)

    def record(self):
        return self.frame.dc, self.frame.table, self.frame.key

    def operation(self):
        word = OPERATIONS[self.frame.op]
        return (word, self.record(), self.value())[: 3 if word in ("insert", "update") else 2]

    def put_operation(self, op):
        self.frame.op = next(n for n, word in OPERATIONS.items() if word == op[0])
        self.frame.dc, self.frame.table, self.frame.key = op[1]
        self.put_value(op[2] if len(op) > 2 else bytes(64))

    def wire(self):
        f = self.frame
        return Wire(f.number, f.low_water, f.incarnation, bool(f.redo), self.operation())

    def said(self):
        kind = self.frame.kind
        return (ANSWERS[kind], *({1: [self.value()], 3: [None], 4: [self.value()]}.get(kind, [])))

    def put_said(self, said):
        was = said[0] == "done" and said[1] is not None
        self.frame.kind = 4 if was else next(n for n, word in ANSWERS.items() if word == said[0])
        self.put_value(said[1] if len(said) > 1 and said[1] is not None else bytes(64))


def illegal(code):
    return f"illegal {code} {ILLEGAL[code]}"


class Frames:
    """A world made of the library's handles, whose steps say what the model's do."""

    def __init__(self, library, dcs, procedures):
        self.dcs = [Handle(library, START_DC, *it) for it in dcs]
        self.library, self.procedures, self.names = library, procedures, list(procedures)
        self.wires, self.replies, self.news = [], [], []
        self.begin()

    def begin(self):
        """A transaction component to which nothing has happened."""
        self.tc, self.txns = Handle(self.library, START_TC, len(self.dcs)), set()
        self.open = {}  # numbers that wait for an answer, with their transaction and operation
        for name, (code, slots, args) in self.procedures.items():
            self.load(name, code, slots, args)

    def close(self):
        for handle in [self.tc, *self.dcs]:
            handle.close()

    def hand_in(self, data):
        assert not self.tc(CLEAR)
        for at in range(0, len(data), 256):
            self.tc.put_bytes(data[at : at + 256])
            assert not self.tc(BYTES)

    def load(self, name, code, slots, args):
        self.hand_in(code)
        for write, dc, table, by_argument, key in slots:
            assert not self.tc(SLOT, kind=write, dc=dc, table=table, op=by_argument, key=key)
        self.tc.put_bytes(name.encode())
        assert not self.tc(LOAD, word=args)

    def step(self, word, *args):
        return getattr(self, word)(*args)

    def admit(self, name, *args):
        for i, arg in enumerate(args):
            self.tc.frame.args[i] = arg
        code = self.tc(ADMIT, word=self.names.index(name), count=len(args))
        if code == "B1":
            return f"illegal I1 Refused B1 Busy {record_text(self.tc.record())} holder {self.tc.frame.txn}"
        if code:
            return "illegal I1 Refused B5 ArgumentCount" if code == "B5" else code
        self.txns.add(self.tc.frame.txn)
        return f"admitted {self.tc.frame.txn}"

    def sent(self, wire):
        self.wires.append(wire)
        return f"sent {len(self.wires) - 1} number {wire.number} {op_text(wire.op)} low {wire.low}"

    def asked(self, what, t):
        f = self.tc.frame
        code = self.tc(what, txn=t)
        if code:
            return illegal(code)
        if f.kind in (1, 8):
            self.open[f.number] = t, self.tc.operation()
        if f.kind == 1:
            return self.sent(self.tc.wire())
        if f.kind == 8:
            return f"held number {f.number} {op_text(self.tc.operation())}"
        told = {2: f"undoing {t}", 3: f"over {t}", 4: f"stuck {t} number {f.number}", 5: f"illegal I3 Waits {f.number}"}
        return told.get(f.kind, "illegal I4 Running")

    def ask(self, t):
        return self.asked(ASK, t)

    def undo(self, t):
        return self.asked(UNDO, t)

    def resend(self, t):
        code = self.tc(WIRE, txn=t)
        if code == "I13":
            return f"illegal I13 Down {next(op[1][0] for other, op in self.open.values() if other == t)}"
        if code == "I6" and t not in self.txns:
            return illegal("I2")
        return illegal(code) if code else self.sent(self.tc.wire())

    def end(self, t):
        code = self.tc(END, txn=t)
        f = self.tc.frame
        if code:
            return illegal(code)
        self.txns.discard(t)
        return f"ended {t} {({1: 'committed', 2: f'aborted {f.word}', 3: 'noroom'})[f.kind]} at {f.place}"

    def result(self, t, slot):
        code = self.tc(RESULT, txn=t, place=slot)
        return code or (self.tc.value(), self.tc.frame.word == 1)

    def perform(self, i):
        if i >= len(self.wires):
            return "illegal I7 NoCopy"
        wire = self.wires[i]
        dc = self.dcs[wire.op[1][0]]
        dc.put_operation(wire.op)
        f = dc.frame
        f.number, f.low_water, f.incarnation, f.redo = wire.number, wire.low, wire.incarnation, int(wire.redo)
        code = dc(PERFORM)
        if code:
            return "silent" if code == "W7" else code
        self.replies.append(Reply(f.number, f.incarnation, dc.said()))
        return f"reply {len(self.replies) - 1} number {f.number} {said_text(dc.said())}"

    def take(self, i):
        if i >= len(self.replies):
            return "illegal I8 NoReply"
        n, incarnation, said = self.replies[i]
        self.tc.put_said(said)
        if n in self.open:
            code = self.tc(ANSWER, txn=self.open[n][0], number=n, incarnation=incarnation)
            if code:
                return illegal(code)
            del self.open[n]
            return f"took number {n}"
        for d in range(len(self.dcs)):
            if not self.tc(REDONE, dc=d, number=n, incarnation=incarnation):
                return f"redone number {n}"
        return illegal("I9")

    def checkpoint(self, d):
        if d >= len(self.dcs):
            return illegal("I10")
        dc = self.dcs[d]
        return dc(CHECKPOINT) or f"checkpoint {d} mark {dc.frame.low_water}"

    def hear(self, d, incarnation, mark):
        return self.dcs[d](HEAR_MARK, incarnation=incarnation, low_water=mark) or f"heard {d}"

    def forget(self, d):
        return self.dcs[d](FORGET) or f"forgot {self.dcs[d].frame.word}"

    def anew(self, kept):
        code = self.tc(LOG_ANEW, low_water=kept)
        return code or self.tc(LOW_WATER) or f"anew behind {self.tc.frame.low_water}"

    def restart(self, d):
        if d >= len(self.dcs):
            return illegal("I10")
        dc = self.dcs[d]
        code = dc(RESTART)
        if code:
            return illegal(code)
        self.news.append((d, dc.frame.incarnation, dc.frame.low_water))
        return f"restarted {d}"

    def tell(self, i):
        if i >= len(self.news):
            return "illegal I14 NoNews"
        d, incarnation, mark = self.news[i]
        code = self.tc(TOLD, dc=d, incarnation=incarnation, low_water=mark)
        return illegal(code) if code else f"told {d} incarnation {incarnation} mark {mark}"

    def redo(self, d):
        code = self.tc(REDO_NEXT, dc=d)
        if code:
            return illegal(code)
        if self.tc.frame.kind == 2:
            return f"up {d}"
        wire = self.tc.wire()
        self.wires.append(wire)
        return f"redo {len(self.wires) - 1} number {wire.number} {op_text(wire.op)}"

    def noted(self, d):
        """What is known of a data component, as NOTE has it."""
        assert not self.tc(SITE, dc=d)
        return {name: getattr(self.tc.frame, name) for name in ("kind", "incarnation", "low_water")}

    def crash(self, p):
        rows, notes = [*self.log()][:p], [self.noted(d) for d in range(len(self.dcs))]
        self.tc.close()
        self.begin()
        self.hand_in(b"".join(rows))
        for note in notes:
            assert not self.tc(NOTE, **note)
        code, f = self.tc(RECOVER), self.tc.frame
        place = 0
        while not code and not self.tc(OPEN_FROM, place=place):
            t, place = f.txn, f.place + 1
            self.txns.add(t)
            if f.kind == 2:
                self.open[f.number] = t, self.tc.operation()
                assert not self.tc(RETAKE) and self.open[f.number] == (t, self.tc.operation())
        return code or f"crashed {p} open {len(self.txns)}"

    def forge(self, n, said):
        self.replies.append(Reply(n, 0, said))
        return f"forged {len(self.replies) - 1}"

    def rows(self):
        for dc in self.dcs:
            dc(ROWS)
            for place in range(dc.frame.word):
                dc(ROW, place=place)
                yield f"row {record_text(dc.record())} {value_text(dc.value())}"

    def log(self):
        self.tc(LOG_LENGTH)
        for place in range(self.tc.frame.word):
            assert not self.tc(LOG_BYTES, place=place)
            yield bytes(self.tc.frame.bytes[: self.tc.frame.count])


def assembled(procd):
    """Each procedure's code, its access slots and how many arguments it takes, by its text."""
    procedures = {}
    for name, text in TEXTS.items():
        lines = text.splitlines()
        slots = [line.split()[1:] for line in lines if line.startswith("slot ")]
        body = "\n".join(line for line in lines if line.startswith("  ")) + "\n"
        said = subprocess.run([procd, "asm", "-"], input=body, capture_output=True, text=True, check=True).stdout
        parsed = [(int(mode == "write"), int(dc), int(table), int(key[0] == "$"), int(key.strip("$"))) for mode, dc, table, key in slots]
        procedures[name] = bytes.fromhex(said), parsed, PROCEDURES[name].args
    return procedures


def difference(library, procedures, seed, count, made):
    """How the frames differ from the model on the steps of a seed, or None."""
    draw = random.Random(seed)
    dcs = [(draw.choice([1, 2, 3, 20]), draw.choice([50] + 7 * [5000])) for _ in range(2)]
    weights = {**WORDS, "forge": draw.choice(FORGED), "restart": draw.choice(RESTARTED)}
    weights["crash"], weights["cut"] = draw.choice(CRASHED), 0  # (a cut is the frames' `anew`, with data components told by hand)
    world, frames = AnewWorld(dcs, list(PROCEDURES)), Frames(library, dcs, procedures)
    rests, anew = draw.random() < 0.5, iter(())
    for at in range(count):
        if draw.random() < (0.02 if world.txns else 0.2):
            anew = anew_steps(draw, world)
        step = next(anew, None) or some_step(draw, world, weights)
        if rests and at % 100 >= 30 and step[0] == "admit":  # (so that at times nothing is open)
            step = next_step(draw, world, weights) or step
        t, slot = draw.choice([*world.txns, world.serials, world.serials + 1]), draw.randrange(3)
        if (it := world.result(t, slot)) != (other := frames.result(t, slot)):
            return f"step {at}: of transaction {t} and slot {slot} the frames say {other}, the model {it}"
        made["result", it if isinstance(it, str) else "told"] += 1
        wanted = world.step(*step)
        said = wanted if "NotWritten" in wanted else frames.step(*step)  # (of that no frame can tell)
        made[step[0], said if step[0] == "forget" else said.split()[0]] += 1
        if wanted != said:
            return f"step {at} {step}: the frames say `{said}`, the model `{wanted}`"
    wanted, said = world.rows() + world.log, [*frames.rows(), *frames.log()]
    frames.close()
    return None if wanted == said else "rows or log differ"


def main():
    options = argparse.ArgumentParser(description=__doc__, formatter_class=argparse.RawDescriptionHelpFormatter)
    options.add_argument("--library", type=pathlib.Path, default=HERE / "build/libmazzulpe.so")
    options.add_argument("--procd", type=pathlib.Path, default=HERE.parent / "crates/procd/out/procd")
    options.add_argument("--steps", type=int, default=100000)
    options.add_argument("--seed", type=int, default=1)
    wanted = options.parse_args()
    library = ctypes.CDLL(str(wanted.library))
    library.mazzulpe_size.restype = ctypes.c_size_t
    library.mazzulpe_call.restype = ctypes.c_uint32
    procedures, made = assembled(wanted.procd), collections.Counter()
    for seed in range(wanted.seed, wanted.seed + -(-wanted.steps // EACH)):
        why = difference(library, procedures, seed, EACH, made)
        if why:
            print(f"seed {seed}: {why}")
            return 1
    counts = f"{made['anew', 'anew']} logs begun anew, {made['forget', 'forgot 1']} lists forgotten, {made['crash', 'crashed']} crashes"
    results = sum(count for (word, _), count in made.items() if word == "result")
    print(f"beside the model: {sum(made.values()) - results} steps, {counts}, {made['result', 'told']} results, no difference")
    return 0


if __name__ == "__main__":
    sys.exit(main())
