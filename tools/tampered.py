#!/usr/bin/env python3
"""Audits of a log and lists in which one place was changed, beside the audits of the plain model.

usage: tools/tampered.py [--bench PATH] [--steps N] [--seed N] [--every N]

The log and the lists are those of a random script of explore.py, whose data components restart and are redone, and
no reply of which is forged and whose log isn't cut. One place after another is changed in each of some ways: an event is left out, comes
twice, changes places with the next, or says another transaction, number, operation, record, value, answer or
outcome; an entry of a list is left out, comes later, is of another component, or has another number, operation,
record or value. `bench audit` is handed each, and has to say what the model's audit says: the same fault at the same
place, or that all is right. The status is 1 where it says otherwise.

crates/bench/out/bench has to be there: `rt run` in crates/bench builds it.
"""
import argparse
import collections
import random
import re
import subprocess
import sys

from built import BENCH
from explore import Steps, script_of
from plain_log import ADMIT, ANSWER, ASK, CHECKPOINT, END, UNDO, audit, outcome_of, read_log
from plain_model import ZEROS, DataComponent, Wire, admit_bytes, answer_bytes, end_bytes, put_at, sent_bytes
from trying import some_of

VALUE = put_at(ZEROS, 0, 77)
SAIDS = [("value", VALUE), ("absent",), ("done", None), ("done", VALUE), ("duplicate",), ("missing",), ("noroom",)]
# What `bench audit` prints of a fault, and what is found in it.
FAULTS = {
    r"LogIllegal\((\d+)\)": "U1 LogIllegal place {}",
    r"NotAsked\((\d+), (\d+)\)": "U2 NotAsked dc {} place {}",
    r"Mismatch\((\d+)\)": "U3 Mismatch {}",
    r"Rows\(Record \{ dc: (\d+), table: (\d+), key: (\d+) \}\)": "U4 Rows {}/{}/{}",
}

# What is audited: the limits of each data component and how often it restarted, the log, and the lists, whose
# entries have a number, an operation and whether it is performed for want of room or not.
Given = collections.namedtuple("Given", "dcs restarts names log lists")


def given_by(script):
    """What stands behind a script, and whether each data component is heard."""
    world = script.told()[1]
    lists = [[(n, op, said != ("noroom",)) for n, (op, said) in dc.list.items()] for dc in world.dcs]
    restarts = [dc.incarnation for dc in world.dcs]
    return Given(script.dcs, restarts, script.names, read_log(world.log), lists), not list(world.unheard())


def drawn(seed, steps):
    """What stands behind the first script from this seed on in which nothing is forged or cut and all restarted."""
    while True:
        script = Steps.drawn(random.Random(seed), steps)
        given, is_heard = given_by(script)
        is_whole = all(event.kind != CHECKPOINT for event in given.log)
        if is_heard and is_whole and all(given.restarts) and not any(step[0] == "forge" for step in script.parts):
            return seed, given
        seed += 1


# ---- changes


def other_op(op):
    """Operations that differ from this one in their word, their record or their value."""
    dc, table, key = op[1]
    for record in ((dc, table, key + 1), (dc, table + 1, key), (1 - dc, table, key)):
        yield op[0], record, *op[2:]
    if len(op) > 2:
        yield *op[:2], put_at(op[2], 56, 1)
        yield "delete", op[1]
    else:
        yield "insert", op[1], VALUE
        yield ("delete" if op[0] == "read" else "read"), op[1]


def other_outcomes(event):
    here = outcome_of(event)
    return [it for it in (("committed",), ("aborted", event.word + 1), ("noroom",)) if it != here]


def other_events(event, names):
    """Events that differ from this one in one field."""
    yield event._replace(txn=event.txn + 1)
    if event.kind == ADMIT:
        yield event._replace(word=(event.word + 1) % len(names))
        yield event._replace(word=len(names))
        yield event._replace(args=event.args[:-1], sub=event.sub - 1)
        yield event._replace(args=(event.args[0] + 1, *event.args[1:]))
    if event.kind in (ASK, UNDO):
        yield event._replace(kind=ASK + UNDO - event.kind)
        yield from (event._replace(op=op) for op in other_op(event.op))
    if event.kind == ANSWER:
        yield from (event._replace(said=said) for said in SAIDS if said != event.said)
    if event.kind in (ASK, UNDO, ANSWER):
        yield event._replace(word=event.word + 1)
    if event.kind == END:
        for outcome in other_outcomes(event):
            sub = {"committed": 1, "aborted": 2, "noroom": 3}[outcome[0]]
            yield event._replace(sub=sub, word=outcome[1] if len(outcome) > 1 else 0)


def other_logs(log, names):
    """Logs that differ from this one at one place."""
    for at, event in enumerate(log):
        before, behind = log[:at], log[at + 1 :]
        yield before + behind
        yield before + [event, event] + behind
        if behind:
            yield before + [behind[0], event] + behind[1:]
        yield from (before + [other] + behind for other in other_events(event, names))


def other_lists(lists):
    """Lists of which one entry isn't the same."""
    for dc, entries in enumerate(lists):
        for at, (n, op, redo) in enumerate(entries):
            before, behind = entries[:at], entries[at + 1 :]
            here = [before + behind, before + behind[:1] + [(n, op, redo)] + behind[1:]]
            here += [before + [(other, op, redo)] + behind for other in (n + 1, n + 1000)]
            here += [before + [(n, other, redo)] + behind for other in other_op(op)]
            yield from (lists[:dc] + [other] + lists[dc + 1 :] for other in here)
            moved = [before + behind, lists[1 - dc] + [(n, op, redo)]]
            yield moved if dc == 0 else moved[::-1]


def changed(given):
    yield from (given._replace(log=log) for log in other_logs(given.log, given.names))
    yield from (given._replace(lists=lists) for lists in other_lists(given.lists))


# ---- both audits


def by_model(given):
    """The line of the model's audit."""
    dcs = [DataComponent(*limits) for limits in given.dcs]
    for dc, restarts, entries in zip(dcs, given.restarts, given.lists):
        for _ in range(restarts):
            dc.restart()
        for n, op, redo in entries:
            dc.perform(Wire(n, 0, restarts, redo, op))
    return audit(given.log, given.names, dcs)


def event_bytes(event):
    if event.kind == ADMIT:
        return admit_bytes(event.txn, event.word, event.args)
    if event.kind in (ASK, UNDO):
        return sent_bytes(event.kind, event.txn, event.word, event.op)
    if event.kind == ANSWER:
        return answer_bytes(event.txn, event.word, event.said)
    return end_bytes(event.txn, outcome_of(event))


def text_of(given):
    """What `bench audit` reads."""
    lines = [script_of(given.dcs, given.names, []), "log\n", b"".join(map(event_bytes, given.log)).hex(), "\n"]
    for dc, (restarts, entries) in enumerate(zip(given.restarts, given.lists)):
        entries = b"".join(sent_bytes(UNDO if redo else ASK, 1, n, op) for n, op, redo in entries)
        lines += [f"restart {dc}\n"] * restarts + [f"list {dc} {entries.hex()}\n"]
    return "".join(lines)


def by_bench(bench, given):
    """The line of the program's audit, in the words of the model's."""
    ran = subprocess.run([bench, "audit", "0", "0"], input=text_of(given), capture_output=True, text=True)
    line = ran.stdout.strip()
    for pattern, words in FAULTS.items():
        found = re.fullmatch("audit " + pattern, line)
        if found:
            return "refused " + words.format(*found.groups())
    return line or f"status {ran.returncode}"


def main():
    parser = argparse.ArgumentParser(description=__doc__, formatter_class=argparse.RawDescriptionHelpFormatter)
    parser.add_argument("--bench", default=BENCH, help="the program `bench` (that of crates/bench/out)")
    parser.add_argument("--steps", type=int, default=2000, help="steps of the script (2000)")
    parser.add_argument("--seed", type=int, default=1, help="the first seed that is looked at (1)")
    parser.add_argument("--every", type=int, default=1, help="try one of N changes (1: all)")
    options = parser.parse_args()
    seed, given = drawn(options.seed, options.steps)
    found = collections.Counter()
    for other in [given, *some_of(changed(given), options.every)]:
        wanted, said = by_model(other), by_bench(options.bench, other)
        if said != wanted:
            print(f"seed {seed}: printed `{said}`, wanted `{wanted}` of\n{text_of(other)}")
            sys.exit(1)
        found[" ".join(wanted.split()[: 3 if wanted.startswith("refused") else 2])] += 1
    told = ", ".join(f"{count:,} {what}" for what, count in found.most_common())
    entries = sum(map(len, given.lists))
    print(f"tampered: seed {seed}, {len(given.log)} events, {entries} entries, {found.total():,} audits: {told}")


if __name__ == "__main__":
    main()
