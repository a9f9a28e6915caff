"""Hostile texts: of each command's input each prefix, and the input with each byte changed in turn.

Each ends with documented lines and status: a text that isn't UTF-8 can't be read, a refusal is one line,
and each step and call that stands in the text has its line.
"""
import re

from hostile_code import REFUSED, VIOLATION
from hostile_faults import COMMANDS
from trying import Ran, some_of, undocumented

RECORD, VALUE, NUMBER = r"\d+/\d+/\d+", r"(\d+|x[0-9a-f]{128})", r"\d+"
SAID = rf"(value {VALUE}|absent|done|done was {VALUE}|duplicate|missing|noroom|old)"
OPERATION = rf"((read|delete) {RECORD}|(insert|update) {RECORD} {VALUE})"
REFUSAL = rf"(B1 Busy {RECORD} holder {NUMBER}|B5 ArgumentCount)"
ASSEMBLY = "A(1 UnknownWord|2 BadRegister|3 BadNumber|4 OutOfRange|5 Operands|7 TooLong|8 NoCode)"
DECLARATION = r"S(1 TooManyArgs|2 TooManySlots|3 NoSuchArg slot \d+)"
SCRIPT = rf"F(1 BadLine|2 BadNumber|3 NameTaken|4 NameUnknown|5 Decl {DECLARATION}|6 Asm {ASSEMBLY}"
SCRIPT += rf"|7 Verify {VIOLATION}|8 DcUnknown|9 Order)"
CODE = rf"(H1 NotHex at \d+|S1 TooManyArgs|{VIOLATION})"
ENDED = rf"(committed|aborted {NUMBER}|noroom)"
ILLEGAL = rf"(I1 Refused {REFUSAL}|I2 NoTxn|I3 Waits {NUMBER}|I4 Running|I5 NotOver|I6 NothingOpen|I7 NoCopy"
ILLEGAL += r"|I8 NoReply|I9 Stranger|I10 NoDc|I12 IncarnationsSpent|I13 Down \d+|I14 NoNews|I15 OldNews|I16 NotDown"
ILLEGAL += r"|I17 NotWritten|I18 Forgotten|I19 NotCut (G1 Nothing|G2 Open \d+|G4 Down|G5 Behind|G6 Spent)|I20 Unforgettable \d+)"
STEP = rf"(admitted \d+|sent \d+ number \d+ {OPERATION} low \d+|held number \d+ {OPERATION}|undoing \d+|over \d+"
STEP += rf"|stuck \d+ number \d+|reply \d+ number \d+ {SAID}|silent|forged \d+|took number \d+"
STEP += rf"|ended \d+ {ENDED} at \d+|checkpoint \d+ mark \d+|restarted \d+|told \d+ incarnation \d+ mark \d+"
STEP += rf"|redo \d+ number \d+ {OPERATION}|redone number \d+|up \d+|crashed \d+ open \d+|cut \d+ \d+|illegal {ILLEGAL})"
AUDIT = r"audit (ok ended \d+ open \d+|skipped dc \d+ (down|restarted))\n"
ROW, EVENT = rf"row {RECORD} {VALUE}", "[0-9a-f]{192}"
LOGGED = rf"\d+ (admit \d+ procedure \d+( \d+)*|(ask|undo) \d+ number \d+ {OPERATION}|answer \d+ number \d+ {SAID}|end \d+ {ENDED}|checkpoint \d+ \d+)"
CALL = rf"(first|call) \d+ ({ENDED}|in doubt \d+|blocked {RECORD}|refused {REFUSAL})"

# What each command prints of what it doesn't refuse, and its refusals.
DONE = {
    "exec": r"answer \d+\nexecuted \d+\n",
    "asm": r"((\w\w ){7}\w\w\n)+",
    "dis": r"([a-z][a-z0-9_]*( [^\n]+)?\n)+",
    "verify": rf"([a-z0-9_]{{1,32}} (accepted \d+|{VIOLATION})\n)*",
    "world": rf"({STEP}\n)*({ROW}\n)*({AUDIT})?({EVENT}\n)*",
    "run": rf"({CALL}\n)*({ROW}\n)*({AUDIT})?",
    "log": rf"({LOGGED}\n)*({ROW}\n)*(unfinished \d+ bytes\n)?",
}
REFUSALS = {
    "exec": rf"refused {CODE}\n|{REFUSED.decode()}",
    "asm": rf"refused {ASSEMBLY} line \d+\n",
    "dis": rf"refused {CODE}\n|{REFUSED.decode()}",
    "run": rf"refused (line \d+ {SCRIPT}|G1 Workers)\n",
    "log": r"refused log (Empty|Other|Damaged frame \d+|NoBase frame \d+|NoBatch frame \d+|L2 Kind \d+)\n",
}
SCRIPT_REFUSED = rf"refused line \d+ {SCRIPT}\n"
REFUSALS |= dict.fromkeys(("verify", "world"), SCRIPT_REFUSED)


def changed(data):
    """Each prefix, and the whole with each byte set to 0, to 255, to a line's end and with its top bit turned."""
    for at, byte in enumerate(data):
        yield data[:at]
        for other in (0, 255, 10, byte ^ 128):
            yield data[:at] + bytes([other]) + data[at + 1 :]


def is_text(data):
    try:
        data.decode()
    except UnicodeDecodeError:
        return False
    return True


def wrong(command, data, ran):
    """What is wrong with this end, or None."""
    word = command.before[0]
    if word not in ("exec", "dis", "log") and not is_text(data):
        return None if ran == Ran(3, b"", b"cannot read -: it isn't UTF-8\n") else "no text"
    printed = ran.out.decode()
    if ran.status == 1 and re.fullmatch(REFUSALS[word], printed):
        return undocumented(ran)
    may_be_refused = word in ("verify", "world") and bool(re.search(r"(?m)^\w+ V\d|^illegal", printed))
    if ran.status != int(may_be_refused) or not re.fullmatch(DONE[word], printed):
        return f"status {ran.status}"
    return undocumented(ran)


def hostile_texts(program, tally, every):
    """Each command on its changed texts."""
    for command in COMMANDS:
        if command.data.startswith(b"\x7fELF"):
            continue  # hostile_objects.py changes those
        for data in some_of(changed(command.data), every):
            ran = program.run([*command.before, "-", *command.behind], data)
            tally.add("texts")
            tally.add("refused", ran.status == 1)
            tally.add("not UTF-8", ran.status == 3)
            why = wrong(command, data, ran)
            if why:
                tally.fault(f"{why}: {ran}, procd {' '.join(map(str, command.before))} - on {data}")
