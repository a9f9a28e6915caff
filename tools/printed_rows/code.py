"""`exec`, `asm` and `dis`: code and assembly text, what it answers, and why it is refused."""
from .row import Row, refused, row

# Code, and what is printed for it.
ANSWERS = [
    # mov r0, 7; mov r1, 5; add r0, r1; exit
    (
        "b7 00 00 00 07 00 00 00\nb7 01 00 00 05 00 00 00\n0f 10 00 00 00 00 00 00\n95 00 00 00 00 00 00 00\n",
        "answer 12\nexecuted 4\n",
    ),
    # mov r0, 7; jeq r0, 7, +1; mov r0, 1; exit
    (
        "b700000007000000 1500010007000000 b700000001000000 9500000000000000",
        "answer 7\nexecuted 3\n",
    ),
    # 7 / 0 and 7 mod 0
    (
        "b700000007000000 b701000000000000 3f10000000000000 9500000000000000",
        "answer 0\nexecuted 4\n",
    ),
    (
        "b700000007000000 b701000000000000 9F10000000000000 9500000000000000",
        "answer 7\nexecuted 4\n",
    ),
    # lddw r0, 0x0000000100000007; mod32 r0, r1 with r1 = 0
    (
        "1800000007000000 0000000001000000 b701000000000000 9c10000000000000 9500000000000000",
        "answer 7\nexecuted 4\n",
    ),
    # lddw r0, 0x8000000000000000; sdiv r0, -1
    (
        "1800000000000000 0000000000000080 37000100ffffffff 9500000000000000",
        "answer 9223372036854775808\nexecuted 3\n",
    ),
    # the same with smod r0, -1, and with lsh r0, 64
    (
        "1800000000000000 0000000000000080 97000100ffffffff 9500000000000000",
        "answer 0\nexecuted 3\n",
    ),
    (
        "1800000000000000 0000000000000080 6700000040000000 9500000000000000",
        "answer 9223372036854775808\nexecuted 3\n",
    ),
    # mov r0, 4660; be16 r0
    (
        "b700000034120000 dc00000010000000 9500000000000000",
        "answer 13330\nexecuted 3\n",
    ),
    # mov32 r0, -1
    (
        "b4000000ffffffff 9500000000000000",
        "answer 4294967295\nexecuted 2\n",
    ),
    # mov r0, 0; exit; mov r0, r5; exit
    (
        "b700000000000000 9500000000000000 bf50000000000000 9500000000000000",
        "answer 0\nexecuted 2\n",
    ),
]

# Code, and why it is refused.
REFUSALS = [
    ("b7 0", "H1 NotHex at 3"),
    ("95 0 0", "H1 NotHex at 3"),
    ("", "E1 NoCode"),
    ("180100008877665500000000443322", "E2 Length"),
    ("1801000088776655", "E4 WideCut slot 0"),
    ("1801000088776655 0000010044332211", "E5 UnusedField slot 1"),
    ("9500000001000000", "E5 UnusedField slot 0"),
    ("8f00000000000000", "E6 Undefined slot 0"),
    ("b70b000000000000", "E6 Undefined slot 0"),
    ("3000000000000000", "E7 OutsideProfile slot 0 Packet"),
    ("1810000000000000", "E7 OutsideProfile slot 0 WideSubtype"),
    ("8510000001000000", "E7 OutsideProfile slot 0 LocalCall"),
    ("8520000001000000", "E7 OutsideProfile slot 0 BtfCall"),
    # atomic operations that no imm selects
    ("db1af8ff02000000 9500000000000000", "E6 Undefined slot 0"),
    ("c31af8ffe0000000 9500000000000000", "E6 Undefined slot 0"),
    # E7 before E6, E5 and E4; E6 before E5 and E4; E5 before E4
    ("300b000000000000", "E7 OutsideProfile slot 0 Packet"),
    ("3000010000000000", "E7 OutsideProfile slot 0 Packet"),
    ("181b010000000000", "E7 OutsideProfile slot 0 WideSubtype"),
    ("070b010000000000", "E6 Undefined slot 0"),
    ("180b000000000000", "E6 Undefined slot 0"),
    ("1870010000000000", "E6 Undefined slot 0"),
    ("1800010000000000", "E5 UnusedField slot 0"),
    ("0500ffff00000000", "V1 Backward slot 0"),
    ("0500070000000000 9500000000000000", "V2 OutOfCode slot 0"),
    # ja +1; lddw r0, 0; exit
    (
        "0500010000000000 1800000000000000 0000000000000000 9500000000000000",
        "V3 IntoWide slot 0",
    ),
    ("b700000000000000", "V4 FallsOff slot 0"),
    (
        "bf20000000000000 9500000000000000",
        "V5 EmptyRegister slot 0",
    ),
    ("b70a000000000000 9500000000000000", "V6 WritesR10 slot 0"),
    (
        "b700000000000000 8500000006000000 9500000000000000",
        "V11 UnknownHelper slot 1",
    ),
]

# Assembly text, and what its code prints when it is run.
ASSEMBLED = [
    (
        "mov r0, 128\nmovs8 r0, r0\nexit",
        "answer 18446744073709551488\nexecuted 3\n",
    ),
    (
        "mov r0, 128\nmovs8_32 r0, r0\nexit",
        "answer 4294967168\nexecuted 3\n",
    ),
    (
        "mov r0, -7\nsdiv r0, 2\nexit",
        "answer 18446744073709551613\nexecuted 3\n",
    ),
    (
        "mov r0, -7\nsmod r0, 2\nexit",
        "answer 18446744073709551615\nexecuted 3\n",
    ),
    (
        "mov32 r0, -8\narsh32 r0, 1\nexit",
        "answer 4294967292\nexecuted 3\n",
    ),
    (
        "mov r0, -1\njslt32 r0, 0, +1\nmov r0, 9\nexit",
        "answer 18446744073709551615\nexecuted 3\n",
    ),
    (
        "; twice a number\n\n  mov r0, 0x15 ; 21\n\tadd\tr0 , r0\r\nexit\n",
        "answer 42\nexecuted 3\n",
    ),
]

# Assembly text that uses memory, the arguments it is run with, and what is printed.
WITH_MEMORY = [
    (
        "mov r0, r10\nexit",
        [],
        "refused V14 PointerReturned slot 1\n",
    ),
    (
        "mov r0, r10\nxor r0, 0\nexit",
        [],
        "answer 66048\nexecuted 3\n",
    ),
    (
        "stxdw [r10-512], r1\nmov r0, 0\nexit",
        [],
        "answer 0\nexecuted 3\n",
    ),
    (
        "stxdw [r10-513], r1\nmov r0, 0\nexit",
        [],
        "refused V8 OutOfBounds slot 0\n",
    ),
    (
        "stxdw [r10-4], r1\nmov r0, 0\nexit",
        [],
        "refused V8 OutOfBounds slot 0\n",
    ),
    (
        "ldxdw r0, [r1+8]\nexit",
        ["5", "6"],
        "answer 6\nexecuted 2\n",
    ),
    (
        "ldxdw r0, [r1+8]\nexit",
        ["5"],
        "refused V8 OutOfBounds slot 0\n",
    ),
    (
        "stdw [r10-8], -2\nldxh r0, [r10-7]\nexit",
        [],
        "answer 65535\nexecuted 3\n",
    ),
    (
        "stb [r10-1], 128\nldxsb r0, [r10-1]\nexit",
        [],
        "answer 18446744073709551488\nexecuted 3\n",
    ),
    (
        "mov r2, 65536\nldxdw r0, [r2+0]\nexit",
        [],
        "refused V7 NotAPointer slot 1\n",
    ),
    (
        "stdw [r1+0], 1\nmov r0, 0\nexit",
        ["5"],
        "refused V9 ReadOnly slot 0\n",
    ),
    (
        "mov r10, 0\nmov r0, 0\nexit",
        [],
        "refused V6 WritesR10 slot 0\n",
    ),
    (
        "ldxdw r1, [r1+0]\ncall 1\nexit",
        ["5"],
        "refused V12 SlotUnknown slot 1\n",
    ),
    (
        "mov r1, 0\ncall 1\nexit",
        [],
        "refused V12 SlotUnknown slot 1\n",
    ),
    ("call 6\nexit", [], "refused V11 UnknownHelper slot 0\n"),
    (
        "mov r1, 7\nstdw [r10-8], 40\natomic_fetch_add_dw [r10-8], r1\nldxdw r0, [r10-8]\nadd r0, r1\nexit",
        [],
        "answer 87\nexecuted 6\n",
    ),
    (
        "mov r0, 40\nmov r1, 9\nstdw [r10-8], 40\natomic_cmpxchg_dw [r10-8], r1\nldxdw r2, [r10-8]\nadd r0, r2\nexit",
        [],
        "answer 49\nexecuted 7\n",
    ),
    (
        "mov r0, 41\nmov r1, 9\nstdw [r10-8], 40\natomic_cmpxchg_dw [r10-8], r1\nldxdw r2, [r10-8]\nadd r0, r2\nexit",
        [],
        "answer 80\nexecuted 7\n",
    ),
    (
        "lddw r0, 0x0000000100000028\nmov r1, 9\nstdw [r10-8], 40\natomic_cmpxchg_w [r10-8], r1\nexit",
        [],
        "answer 40\nexecuted 5\n",
    ),
    (
        "atomic_add_dw [r1+0], r1\nmov r0, 0\nexit",
        ["5"],
        "refused V9 ReadOnly slot 0\n",
    ),
    (
        "mov r1, 9\nstdw [r10-8], 40\natomic_cmpxchg_dw [r10-8], r1\nexit",
        [],
        "refused V5 EmptyRegister slot 2\n",
    ),
    (
        "stdw [r10-8], 1\nmov r0, 0\natomic_xchg_dw [r10-8], r10\nexit",
        [],
        "refused V6 WritesR10 slot 2\n",
    ),
    (
        "stdw [r10-8], 1\nmov r0, 0\natomic_cmpxchg_dw [r10-8], r10\nexit",
        [],
        "answer 1\nexecuted 4\n",
    ),
    (
        "mov r0, 1\natomic_add_dw [r10-4], r0\nexit",
        [],
        "refused V8 OutOfBounds slot 1\n",
    ),
    (
        "mov r0, 1\natomic_add_w [r0+0], r0\nexit",
        [],
        "refused V7 NotAPointer slot 1\n",
    ),
]

# Assembly text, and its code in hex.
SPELLED = [
    (
        "mov r0, 128\nmovs8 r0, r0",
        "b7 00 00 00 80 00 00 00\nbf 00 08 00 00 00 00 00\n",
    ),
    ("movs8_32 r0, r0", "bc 00 08 00 00 00 00 00\n"),
    ("ja32 +1", "06 00 00 00 01 00 00 00\n"),
    ("add r1, 287454020", "07 01 00 00 44 33 22 11\n"),
    (
        "lddw r1, 0x1122334455667788",
        "18 01 00 00 88 77 66 55\n00 00 00 00 44 33 22 11\n",
    ),
    # as LLVM's assembler for BPF writes them
    (
        "atomic_fetch_add_dw [r10-8], r1\natomic_cmpxchg_w [r1+4], r2",
        "db 1a f8 ff 01 00 00 00\nc3 21 04 00 f1 00 00 00\n",
    ),
]

# Assembly text, and why it is refused.
MISSPELLED = [
    ("foo r1", "A1 UnknownWord line 1"),
    ("exit\n\nexit\r", "A1 UnknownWord line 3"),
    ("mov r11, 0", "A2 BadRegister line 1"),
    ("ldxdw r0, [r11+0]", "A2 BadRegister line 1"),
    ("ldxdw r0, [r1 +0]", "A2 BadRegister line 1"),
    ("mov r0, x", "A3 BadNumber line 1"),
    ("mov r0, +1", "A3 BadNumber line 1"),
    ("mov r0, -0x5", "A3 BadNumber line 1"),
    ("mov r0, 0X5", "A3 BadNumber line 1"),
    ("mov r0, 0x", "A3 BadNumber line 1"),
    ("ja 1", "A3 BadNumber line 1"),
    ("ldxdw r0, [r1+]", "A3 BadNumber line 1"),
    ("ldxdw r0, [r1--1]", "A3 BadNumber line 1"),
    ("ldxdw r0, [r1+8]]", "A3 BadNumber line 1"),
    ("mov r0, 2147483648", "A4 OutOfRange line 1"),
    ("lddw r0, 18446744073709551616", "A4 OutOfRange line 1"),
    ("ja -32769", "A4 OutOfRange line 1"),
    ("add r1", "A5 Operands line 1"),
    ("ldxdw r0, [r1]", "A5 Operands line 1"),
    ("exit r0", "A5 Operands line 1"),
    ("atomic_add_w r1, [r10-8]", "A5 Operands line 1"),
    ("; nothing", "A8 NoCode line 0"),
]

# Too many arguments come behind what is wrong with the text and the code, and before what the verifier says.
TOO_MANY_ARGUMENTS = [
    ("b7 0", "H1 NotHex at 3"),
    ("", "E1 NoCode"),
    ("b700000000000000", "S1 TooManyArgs"),
]

SLOT = "b700000000000000"
EXIT = "9500000000000000"


def raw(slots, out, status):
    """A row of code as its bytes."""
    return Row(["exec", "--raw", "-"], bytes.fromhex("".join(slots)), out.encode(), status)


def executed(program, text, args=""):
    """Assembled text as the hex that `asm` prints, for `exec` with these arguments."""
    assembled = program.run(["asm", "-"], text.encode())
    return f"exec - {args}", assembled.out.decode()


def rows(program):
    """All rows; assembly text is assembled by the program first."""
    yield from (row("exec -", given, out) for given, out in ANSWERS)
    yield from (refused("exec -", given, why) for given, why in REFUSALS)
    yield from (row(*executed(program, text), out) for text, out in ASSEMBLED)
    for text, args, out in WITH_MEMORY:
        yield row(*executed(program, text, " ".join(args)), out, 1 if out.startswith("refused") else 0)
    for text, code in SPELLED:
        yield row("asm -", text, code)
        yield row("dis -", code, f"{text}\n")
    yield from (refused("asm -", text, why) for text, why in MISSPELLED)
    yield from (refused("exec - 1 2 3 4 5 6 7 8 9", given, why) for given, why in TOO_MANY_ARGUMENTS)
    yield row("exec - 1 2 3 4 5 6 7 8", f"{SLOT} {EXIT}", "answer 0\nexecuted 2\n")
    yield raw([SLOT] * 4095 + [EXIT], "answer 0\nexecuted 4096\n", 0)
    yield raw([SLOT] * 4095 + [EXIT] * 2, "refused E3 TooLong\n", 1)
    wide = "lddw r0, 1\n"
    yield row("asm -", wide * 2048, "18 00 00 00 01 00 00 00\n00 00 00 00 00 00 00 00\n" * 2048)
    yield refused("asm -", f"{wide * 2048}\nexit\n", "A7 TooLong line 2050")
