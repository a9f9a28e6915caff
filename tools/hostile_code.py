"""Hostile code: each prefix of four procedures' bytes, each of these with each byte changed in turn.

`exec` decodes and verifies each by itself, and runs what is accepted. Those that decode are put back
into scripts as text, with the slots of the procedure that they came from: `verify` judges them, and
`world` runs each accepted one with every answer that fits of a short list, to its end by undo too.
"""
import collections
import re

from trying import some_of, undocumented

# Bytes as LLVM's assembler makes them, and the declaration.
Procedure = collections.namedtuple("Procedure", "code args slots")
ONE_READ, ONE_WRITE = ("slot read 0 0 $0\n",), ("slot write 0 0 $0\n",)
PROCEDURES = [
    Procedure(
        "7916080000000000 b701000000000000 8500000005000000 7b60000000000000 b701000000000000 8500000002000000"
        "9500000000000000",
        2,
        ONE_WRITE,
    ),
    Procedure(
        "b701000000000000 8500000001000000 1500020000000000 b700000000000000 9500000000000000 b700000001000000"
        "9500000000000000",
        1,
        ONE_READ,
    ),
    Procedure(
        "b701000000000000 8500000001000000 1500050000000000 7a00000007000000 b701000000000000 8500000003000000"
        "b700000005000000 9500000000000000 b700000001000000 9500000000000000",
        1,
        ONE_WRITE,
    ),
    Procedure(
        "7916100000000000 b701000000000000 8500000001000000 1500100000000000 bf07000000000000 b701000001000000"
        "8500000001000000 15000c0000000000 bf08000000000000 7972000000000000 1f62000000000000 7b27000000000000"
        "7982000000000000 0f62000000000000 7b28000000000000 b701000000000000 8500000003000000 b701000001000000"
        "8500000003000000 9500000000000000 b700000001000000 9500000000000000",
        3,
        (*ONE_WRITE, "slot write 0 0 $1\n"),
    ),
]

# The answers that fit an operation, of a short list.
ANSWERS = {
    "read": ["absent", "value 0"],
    "insert": ["done", "duplicate"],
    "update": ["done was 0", "missing"],
    "delete": ["done was 0", "missing"],
}
REFUSED = rb"refused (E1 NoCode|E2 Length|E4 WideCut slot \d+|E5 UnusedField slot \d+|E6 Undefined slot \d+"
REFUSED += rb"|E7 OutsideProfile slot \d+ (Packet|WideSubtype|LocalCall|BtfCall))\n"
VIOLATION = r"V(1 Backward|2 OutOfCode|3 IntoWide|4 FallsOff|5 EmptyRegister|6 WritesR10|7 NotAPointer|8 OutOfBounds"
VIOLATION += r"|9 ReadOnly|10 MaybeNull|11 UnknownHelper|12 SlotUnknown|13 ModeTooWeak|14 PointerReturned) slot (\d+)"
AT_ONCE = 300  # codes in one script

Code = collections.namedtuple("Code", "name procedure data text")
Run = collections.namedtuple("Run", "code steps word")


def changed(code):
    """Each prefix, and each of these with each byte set to 0, to 255 and with its top bit turned."""
    for length in range(len(code) + 1):
        prefix = code[:length]
        yield prefix
        for at, byte in enumerate(prefix):
            for other in (0, 255, byte ^ 128):
                yield prefix[:at] + bytes([other]) + prefix[at + 1 :]


def chosen(procedure, every):
    """The changed codes without repetitions; one of so many, and fewer of those that end within a slot."""
    codes = list(dict.fromkeys(changed(bytes.fromhex(procedure.code))))
    whole, cut = ([code for code in codes if bool(len(code) % 8) == is_cut] for is_cut in (False, True))
    return some_of(whole, every) + some_of(cut, 1 if every == 1 else 10 * every)


def of_execution(ran, data):
    """What is wrong with the end of `exec` of this code, or None."""
    done = re.fullmatch(rb"answer \d+\nexecuted (\d+)\n", ran.out)
    if ran.status == 0:
        return None if done and 1 <= int(done[1]) <= len(data) // 8 else f"{ran.out}"
    if not data or len(data) % 8:
        return None if ran.out == (b"refused E2 Length\n" if data else b"refused E1 NoCode\n") else f"{ran.out}"
    violation = re.fullmatch("refused " + VIOLATION + "\n", ran.out.decode())
    if violation and int(violation[2]) < len(data) // 8 or re.fullmatch(REFUSED, ran.out):
        return undocumented(ran)
    return f"status {ran.status}, {ran.out} {ran.err}"


def decoded(program, tally, procedure, data, name):
    """The code as text, where it decodes."""
    tally.add("codes")
    file = program.folder / "code"
    file.write_bytes(data)
    ran = program.run(["exec", "--raw", file, *[0] * procedure.args])
    why = of_execution(ran, data)
    if why:
        tally.fault(f"exec --raw of {data.hex()}: {why}")
    if why or ran.out.startswith(b"refused E"):
        return None
    tally.add("decoded")
    text = program.run(["dis", "--raw", file])
    if text.status != 0:
        tally.fault(f"dis --raw of {data.hex()}: status {text.status}, but exec decoded it")
        return None
    return Code(name, procedure, data, text.out.decode())


def script_of(codes, lines=()):
    """A script with these codes as procedures."""
    text = ["dc 4 100\n"]
    for code in codes:
        text += [f"proc {code.name} {code.procedure.args}\n", *code.procedure.slots, code.text, "end\n"]
    return "".join([*text, *lines]).encode()


def reassembled(program, tally, codes):
    """Whether the texts assemble to the bytes that they came from."""
    ran = program.run(["asm", "-"], "".join(code.text for code in codes).encode())
    if bytes.fromhex(ran.out.decode()) != b"".join(code.data for code in codes):
        tally.fault(f"asm of the text of {[code.data.hex() for code in codes]}: other bytes")


def accepted(program, tally, codes):
    """Those that `verify` accepts."""
    ran, found = program.run(["verify", "-"], script_of(codes)), []
    lines = ran.out.decode().splitlines()
    for code, line in zip(codes, lines):
        violation = re.fullmatch(f"{code.name} {VIOLATION}", line)
        if line == f"{code.name} accepted {len(code.data) // 8}":
            found.append(code)
        elif not violation or int(violation[2]) >= len(code.data) // 8:
            tally.fault(f"verify of {code.data.hex()}: {line}")
    if ran.status != int(len(found) < len(codes)) or len(lines) != len(codes):
        tally.fault(f"verify of {len(codes)} codes: status {ran.status}, {len(lines)} lines, {ran.err}")
    tally.add("accepted", len(found))
    return found


def arguments(txn, count):
    """Arguments with which no two transactions meet."""
    return [4 * txn + 1, 4 * txn + 2, 7][:count]


def steps_of(runs):
    """The steps that bring each run to where it stands, and then its next word."""
    lines, numbers = [], 0
    for txn, run in enumerate(runs, 1):
        lines.append(" ".join(map(str, ["admit", run.code.name, *arguments(txn, run.code.procedure.args)])))
        for word, said in run.steps:
            lines += [f"{word} {txn}", f"forge {numbers + 1} {said}", f"take {numbers}"]
            numbers += 1
    return [line + "\n" for line in lines + [f"{run.word} {txn}" for txn, run in enumerate(runs, 1)]]


def is_covered(run, txn, operation, record):
    """Whether a slot of the procedure allows the operation."""
    keys = arguments(txn, len(run.code.procedure.slots))
    modes = [slot.split()[1] for slot in run.code.procedure.slots]
    return any(record == f"0/0/{key}" and (operation == "read" or mode == "write") for key, mode in zip(keys, modes))


def further(run, txn, line):
    """How a run goes on behind this line; none where it is at its end. None where the line is wrong."""
    words = line.split()
    if words[0] == "sent" and is_covered(run, txn, words[4], words[5]):
        asked = sum(word == "ask" for word, _ in run.steps) + (run.word == "ask")
        if asked > run.code.text.count("call "):
            return None
        return [Run(run.code, (*run.steps, (run.word, said)), run.word) for said in ANSWERS[words[4]]]
    if line == f"undoing {txn}" and run.word == "ask":
        return [Run(run.code, run.steps, "undo")]
    if line == f"over {txn}" and run.word != "end":
        return [Run(run.code, run.steps, "end")]
    is_stuck = run.word == "undo" and re.fullmatch(rf"stuck {txn} number \d+", line)
    return [] if is_stuck or re.fullmatch(rf"ended {txn} (committed|aborted \d+) at \d+", line) else None


def advanced(program, tally, runs):
    """The runs one line further, each with every answer that fits."""
    ran = program.run(["world", "-"], script_of(dict.fromkeys(run.code for run in runs), steps_of(runs)))
    lines = ran.out.decode().splitlines()
    if ran.status != 0 or len(lines) != len(steps_of(runs)):
        tally.fault(f"world, as {runs[0]}: status {ran.status}, {lines[-1:]}, {ran.err}")
        return []
    found = []
    for (txn, run), line in zip(enumerate(runs, 1), lines[-len(runs) :]):
        tally.add("runs ended", not (more := further(run, txn, line)))
        if more is None:
            tally.fault(f"{run.code.data.hex()}, {run.steps}, {run.word}: {line}")
        found += more or []
    return found


def hostile_code(program, tally, every):
    """Decodes, verifies and runs."""
    codes = []
    for place, procedure in enumerate(PROCEDURES):
        for at, data in enumerate(chosen(procedure, every)):
            codes.append(decoded(program, tally, procedure, data, f"p{place}_{at}"))
    codes = [code for code in codes if code]
    for first in range(0, len(codes), AT_ONCE):
        some = codes[first : first + AT_ONCE]
        for at in range(0, len(some), AT_ONCE // 2):
            reassembled(program, tally, some[at : at + AT_ONCE // 2])
        runs = [Run(code, (), "ask") for code in accepted(program, tally, some)]
        while runs:
            runs = advanced(program, tally, runs)
