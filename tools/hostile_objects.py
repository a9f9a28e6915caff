"""Hostile object files: each prefix, and the file with each byte changed, for `verify` to each other one; and others with each
byte changed of what says lines of the source.

Each ends with documented lines and status: a line for each procedure, why the file is refused, or, where it
doesn't begin with ELF's magic number any more, as any script does. `run` makes calls of its procedures. Whatever says lines,
the verdicts stay.
"""
import re

from hostile_code import VIOLATION
from hostile_texts import CALL, DECLARATION, SCRIPT_REFUSED, is_text
from objects import OBJECT, UNKNOWN, code_of, patched, sections, with_lines
from trying import Ran, some_of, undocumented

SECTION = "NoName|Outside|Relocated|Twice|NoAccesses|AccessesSize|NoArguments|BadName"
WHOLE = r"(NotElf|NotLittle64|(NotRelocatable|NotBpf|EntrySize|TooManySections) \d+|NoTable|NoNames)"
NAME = r"( [!-~]{1,266})?"
PART = rf"((({SECTION}) section \d+|NoSlot section \d+ entry \d+|Declared section \d+ {DECLARATION}){NAME}"
PART += rf"( symbol [!-~]{{1,266}})?( [!-~]{{1,255}}:[1-9]\d*)?|NoProcedures)"
FAULT = rf"({WHOLE}|{PART})"
CODE = r"E(1 NoCode|2 Length|3 TooLong|[456] (WideCut|UnusedField|Undefined) slot \d+"
CODE += r"|7 OutsideProfile slot \d+ (Packet|WideSubtype|LocalCall|BtfCall))"
PLACE = r" [!-~]{1,255}:[1-9]\d*"
LINES = rf"(refused object {PART}\n)*([a-z0-9_]{{1,32}} (accepted \d+|({VIOLATION}|{CODE})({PLACE})?)\n)*"
SAYING_LINES = [".debug_line", ".debug_line_str", ".rel.debug_line", ".symtab"]


# A script beside it, what `run` prints then, and its refusals.
SCRIPT = "dc 8 100\ndc 8 100\ncall seven\ncall get 5\n"
RUN = rf"({CALL}\n)*"
RUN_REFUSED = rf"refused (object ({FAULT}|[a-z0-9_]{{1,32}} (({CODE}|F7 Verify {VIOLATION})({PLACE})?|F8 DcUnknown))|line [34] F4 NameUnknown)\n"


def changed(data, values):
    """Each prefix, and the whole with each byte set to others, which these are."""
    for at, byte in enumerate(data):
        yield data[:at]
        for other in values(byte):
            if other != byte:
                yield data[:at] + bytes([other]) + data[at + 1 :]


def all_values(_byte):
    return range(256)


def some_values(byte):
    """Zero, all bits, its top bit turned, its lowest bit turned."""
    return 0, 255, byte ^ 128, byte ^ 1


def wrong(data, ran):
    """What is wrong with this end of `verify`, or None."""
    printed = ran.out.decode()
    if not data.startswith(b"\x7fELF"):
        if not is_text(data):
            return None if ran == Ran(3, b"", b"cannot read -: it isn't UTF-8\n") else "no text"
        return undocumented(ran) if ran.status == 1 and re.fullmatch(SCRIPT_REFUSED, printed) else "no script's line"
    if ran.status == 1 and re.fullmatch(rf"refused object {WHOLE}\n", printed):
        return undocumented(ran)
    is_refused = bool(re.search(r"(?m)^(\w+ [VE]\d|refused object)", printed))
    if not printed:
        return "neither a procedure nor a refusal"
    if ran.status != int(is_refused) or not re.fullmatch(LINES, printed):
        return "not a documented end"
    return undocumented(ran)


def wrong_run(ran):
    """What is wrong with this end of `run`, or None."""
    if not re.fullmatch(RUN_REFUSED if ran.status == 1 else RUN, ran.out.decode()):
        return "not a documented end"
    return undocumented(ran)


def refused_with_lines():
    """Object files that say lines, each with a procedure that is refused."""
    for _, data, _ in with_lines():
        place, size = list(code_of(data).values())[-1]
        yield patched(data, (place + size - 8, UNKNOWN))


def saying_otherwise(data):
    """The file with each byte changed of what says lines."""
    for name, place, size in sections(data):
        for at in range(place, place + size) if name in SAYING_LINES else ():
            for byte in some_values(data[at]):
                yield patched(data, (at, bytes([byte])))


def hostile_lines(program, tally, every):
    """`verify` on files whose lines are said otherwise: the same verdicts."""
    for whole in refused_with_lines():
        verdicts = re.sub(PLACE, "", program.run(["verify", "-"], whole).out.decode())
        for data in some_of(saying_otherwise(whole), every):
            ran = program.run(["verify", "-"], data)
            tally.add("with lines")
            if ran.status != 1 or ran.err or re.sub(PLACE, "", ran.out.decode()) != verdicts:
                tally.fault(f"other verdicts: {ran}, procd verify - on {data.hex()}")


def hostile_objects(program, tally, every):
    """`verify` and `run` on each changed object file."""
    hostile_lines(program, tally, every)
    for data in some_of(changed(OBJECT, all_values), every):
        ran = program.run(["verify", "-"], data)
        tally.add("objects")
        tally.add("refused", ran.out.startswith(b"refused object"))
        why = wrong(data, ran)
        if why:
            tally.fault(f"{why}: {ran}, procd verify - on {data.hex()}")
    script = program.file(SCRIPT.encode())
    for data in some_of(changed(OBJECT, some_values), every):
        ran = program.run(["run", "--workers", 1, "-", script], data)
        tally.add("runs")
        why = wrong_run(ran)
        if why:
            tally.fault(f"{why}: {ran}, procd run - SCRIPT on {data.hex()}")
