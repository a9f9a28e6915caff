"""`verify`: scripts, their procedures' verdicts, and why a script is refused."""
from procedures import BAD, FOUR, GET, MOVE, PUT
from .row import refused, row

# Scripts, what is printed for their procedures, and the status.
VERIFIED = [
    (
        "dc 1 1\nproc a 1\nslot read 0 0 0\nmov r1, 0\ncall 1\nldxdw r1, [r0+0]\nmov r0, 0\nexit\nend\n",
        "a V10 MaybeNull slot 2\n",
        1,
    ),
    (
        "dc 1 1\nproc a 1\nslot read 0 0 0\nmov r1, 0\ncall 1\njeq r0, 0, +1\nldxdw r1, [r0+56]\nmov r0, 0\nexit\nend\n",
        "a accepted 6\n",
        0,
    ),
    (
        "dc 1 1\nproc a 1\nslot read 0 0 0\nmov r1, 0\ncall 1\njeq r0, 0, +1\nldxdw r1, [r0+57]\nmov r0, 0\nexit\nend\n",
        "a V8 OutOfBounds slot 3\n",
        1,
    ),
    (
        "dc 1 1\nproc a 1\nslot read 0 0 0\nmov r1, 0\ncall 1\nmov r6, r0\njeq r0, 0, +1\nldxdw r1, [r6+0]\nmov r0, 0\nexit\nend\n",
        "a V10 MaybeNull slot 4\n",
        1,
    ),
    (
        "dc 1 1\nproc a 1\nslot read 0 0 0\nmov r1, 0\ncall 3\nexit\nend\n",
        "a V13 ModeTooWeak slot 1\n",
        1,
    ),
    (
        "dc 1 1\nproc a 1\nslot read 0 0 0\nmov r1, 1\ncall 1\nexit\nend\n",
        "a V12 SlotUnknown slot 1\n",
        1,
    ),
    (
        "dc 1 1\nproc a 1\nslot read 0 0 0\nmov r1, 0\ncall 1\nmov r0, r1\nexit\nend\n",
        "a V5 EmptyRegister slot 2\n",
        1,
    ),
    (
        "\tdc  1 1 ; rows and operations\r\n\nproc a_1 0\nmov r0, 0\nexit\nend\nproc b 0\nexit\nend",
        "a_1 accepted 2\nb V5 EmptyRegister slot 0\n",
        1,
    ),
    ("dc 1 1\n", "", 0),
]

ACCEPTED = """\
put accepted 7
get accepted 7
bad accepted 10
move accepted 22
"""

# It has two arguments, and reads a third.
BEYOND_ITS_ARGUMENTS = PUT.replace("[r1+8]", "[r1+16]")

REFUSED_AND_ACCEPTED = """\
put V8 OutOfBounds slot 0
get accepted 7
bad accepted 10
move accepted 22
"""

# Scripts that are refused, at which line and why.
MISWRITTEN = [
    ("", 0, "F9 Order"),
    ("; nothing\n; at all\n", 2, "F9 Order"),
    ("proc a 0\n", 1, "F9 Order"),
    ("dc 4 100\nproc a 0\n  exit\n\n", 4, "F1 BadLine"),
    ("dc 4\n", 1, "F1 BadLine"),
    ("dc 4 100 1\n", 1, "F1 BadLine"),
    ("dc x 1\n", 1, "F2 BadNumber"),
    ("dc 65537 1\n", 1, "F2 BadNumber"),
    ("dc 4 1048577\n", 1, "F2 BadNumber"),
    ("dc +4 1\n", 1, "F2 BadNumber"),
    ("dc 18446744073709551616 1\n", 1, "F2 BadNumber"),
    ("foo 1\n", 1, "F1 BadLine"),
    ("dc 1 1\nproc A 0\n", 2, "F1 BadLine"),
    (
        "dc 1 1\nproc abcdefghijklmnopqrstuvwxyz0123456 0\n",
        2,
        "F1 BadLine",
    ),
    ("dc 1 1\nproc a 256\n", 2, "F2 BadNumber"),
    (
        "dc 1 1\nproc a 0\nmov r0, 0\nexit\nend\nproc a 0\n",
        6,
        "F3 NameTaken",
    ),
    (
        "dc 1 1\nproc a 9\nmov r0, 0\nexit\nend\n",
        5,
        "F5 Decl S1 TooManyArgs",
    ),
    (
        "dc 1 1\nproc a 1\nslot read 0 0 1\nslot write 0 0 $1\nexit\nend\n",
        6,
        "F5 Decl S3 NoSuchArg slot 1",
    ),
    (
        "dc 1 1\nproc a 0\nmov r0, 4294967296\n",
        3,
        "F6 Asm A4 OutOfRange",
    ),
    ("dc 1 1\nproc a 0\nfoo\n", 3, "F6 Asm A1 UnknownWord"),
    ("dc 1 1\nproc a 0\nmov r11, 0\n", 3, "F6 Asm A2 BadRegister"),
    ("dc 1 1\nproc a 0\nmov r0, x\n", 3, "F6 Asm A3 BadNumber"),
    ("dc 1 1\nproc a 0\nadd r1\n", 3, "F6 Asm A5 Operands"),
    ("dc 1 1\nproc a 0\ncall\n", 3, "F6 Asm A5 Operands"),
    ("dc 1 1\nproc a 0\nexit\nproc a 0\n", 4, "F3 NameTaken"),
    ("dc 1 1\nproc a 0\nslot read 0 0 1 2\n", 3, "F1 BadLine"),
    ("dc 1 1\nadmit a\n", 2, "F1 BadLine"),
    ("dc 1 1\nproc a 0\nend\n", 3, "F6 Asm A8 NoCode"),
    ("dc 1 1\nproc a 0\nslot read 1 0 1\n", 3, "F8 DcUnknown"),
    ("dc 1 1\nproc a 0\nslot reed 0 0 1\n", 3, "F1 BadLine"),
    ("dc 1 1\nproc a 0\nslot read 0 65536 1\n", 3, "F2 BadNumber"),
    ("dc 1 1\nproc a 0\nslot read 0 0 $256\n", 3, "F2 BadNumber"),
    (
        "dc 1 1\nproc a 0\nmov r0, 0\nslot read 0 0 1\n",
        4,
        "F9 Order",
    ),
    ("dc 1 1\nproc a 0\nend 1\n", 3, "F1 BadLine"),
    ("dc 1 1\nproc a 0\ndc 1 1\n", 3, "F9 Order"),
    ("dc 1 1\nproc a 0\nask 1\n", 3, "F1 BadLine"),
    ("dc 1 1\ncall 1\n", 2, "F1 BadLine"),
    ("dc 1 1\nmov r0, 0\n", 2, "F9 Order"),
    ("dc 1 1\nend\n", 2, "F9 Order"),
    ("dc 1 1\nslot read 0 0 1\n", 2, "F9 Order"),
    (
        "dc 1 1\nproc a 0\nmov r0, 0\nexit\nend\ndc 1 1\n",
        6,
        "F9 Order",
    ),
    (
        "dc 1 1\n" * 17,
        17,
        "F9 Order",
    ),
]


def rows(_program):
    """All rows."""
    yield from (row("verify -", script, out, status) for script, out, status in VERIFIED)
    yield row("verify -", FOUR, ACCEPTED)
    yield row("verify -", "dc 4 100\n" + BEYOND_ITS_ARGUMENTS + GET + BAD + MOVE, REFUSED_AND_ACCEPTED, 1)
    yield from (refused("verify -", script, f"line {line} {why}") for script, line, why in MISWRITTEN)
    # code has 4096 slots, and not 4097; 16 slots are declared, and not 17
    for count, out, status in [(4095, "a accepted 4096\n", 0), (4096, "refused line 4099 F6 Asm A7 TooLong\n", 1)]:
        yield row("verify -", "dc 1 1\nproc a 0\n" + "mov r0, 0\n" * count + "exit\nend\n", out, status)
    for count, out, status in [(16, "a accepted 2\n", 0), (17, "refused line 22 F5 Decl S2 TooManySlots\n", 1)]:
        yield row("verify -", "dc 1 1\nproc a 0\n" + "slot read 0 0 1\n" * count + "mov r0, 0\nexit\nend\n", out, status)
