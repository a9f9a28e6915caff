"""Programs at the boundaries of each instruction, in the syntax of LLVM's assembler for BPF.

`programs()` gives pairs of a name and the text. A program does one instruction, in its forms, to
several numbers. Each number that comes of it goes into a sum, so that the answer tells all of them,
with all 64 bits.
"""

WIDE = 0x8123456789ABCDEF
OTHER = 0xFEDCBA9876543217
LOW_NEGATIVE = 0x1122334499667788
LOW_POSITIVE = 0x9122334419667788

ALU = {"+=": "add", "-=": "sub", "*=": "mul", "|=": "or", "&=": "and", "^=": "xor", "/=": "div", "%=": "mod", "s/=": "sdiv", "s%=": "smod"}
SHIFTS = {"<<=": "lsh", ">>=": "rsh", "s>>=": "arsh"}
CONDITIONS = {"==": "jeq", ">": "jgt", ">=": "jge", "&": "jset", "!=": "jne", "s>": "jsgt", "s>=": "jsge", "<": "jlt", "<=": "jle", "s<": "jslt", "s<=": "jsle"}
WIDTHS = {"r": "", "w": "32"}
# The second number is written as an immediate too. The numbers are equal, less and greater, in
# either sign, differ in the upper half alone, share the top bit alone, and share no bit.
PAIRS = [(5, 5), (5, 7), (7, 5), (2**64 - 1, 1), (1, -1), (2**32 + 5, 5), (2**63, -(2**31)), (6, 9), (-7 % 2**64, -7), (2**31 + 5, 5)]


def number(register, value):
    return f"r{register} = {value} ll"


def summed(parts):
    """The parts, each of which leaves a number in register 0, and a sum of these numbers."""
    lines = list(parts[0]) + ["r9 = r0"]
    for part in parts[1:]:
        lines += list(part) + ["r9 *= 31", "r9 += r0"]
    return lines + ["r0 = r9"]


def arithmetic():
    for sign, name in ALU.items():
        for letter, suffix in WIDTHS.items():
            pairs = ((WIDE, OTHER), (LOW_NEGATIVE, 3), (OTHER, LOW_POSITIVE))
            parts = [[number(0, a), number(1, b), f"{letter}0 {sign} {letter}1"] for a, b in pairs]
            parts += [[number(0, a), f"{letter}0 {sign} {b}"] for a, b in ((WIDE, -559038737), (LOW_NEGATIVE, 7))]
            yield f"{name}{suffix}", summed(parts)


def shifts():
    for sign, name in SHIFTS.items():
        for letter, suffix in WIDTHS.items():
            counts = (0, 1, 33, 63) if letter == "r" else (0, 1, 31)
            parts = [["r0 = r6", f"r1 = {count}", f"{letter}0 {sign} {letter}1"] for count in (0, 1, 31, 32, 33, 63, 64, 65, 95, 127)]
            parts += [["r0 = r6", f"{letter}0 {sign} {count}"] for count in counts]
            yield f"{name}{suffix}", [number(6, WIDE)] + summed(parts)


def conversions():
    moved = (WIDE, LOW_NEGATIVE, LOW_POSITIVE, 0x7F, 0x80, 0x7FFF, 0x8000, 0x7FFFFFFF, 0x80000000, 2**64 - 1)
    for letter, suffix, widths in (("r", "", (8, 16, 32)), ("w", "_32", (8, 16))):
        for bits in widths:
            yield f"movs{bits}{suffix}", summed([[number(1, value), f"{letter}0 = (s{bits}){letter}1"] for value in moved])
    for bits in (16, 32, 64):
        for name, word in (("le", "le"), ("be", "be"), ("swap", "bswap")):
            yield f"{name}{bits}", summed([[number(0, value), f"r0 = {word}{bits} r0"] for value in (WIDE, OTHER)])
    plain = (WIDE, LOW_NEGATIVE, LOW_POSITIVE, 2**63, 2**31, 0, 1)
    for letter, suffix in WIDTHS.items():
        yield f"neg{suffix}", summed([[number(0, value), f"{letter}0 = -{letter}0"] for value in plain])
        by_register = [[number(1, value), f"{letter}0 = {letter}1"] for value in plain]
        by_number = [[number(0, WIDE), f"{letter}0 = {value}"] for value in (-1, -(2**31), 2**31 - 1)]
        yield f"mov{suffix}", summed(by_register + by_number)
    yield "lddw", summed([[number(0, value)] for value in plain])


def conditions():
    # the bit of a pair is set where the jump isn't taken
    for sign, name in CONDITIONS.items():
        for letter, suffix in WIDTHS.items():
            by_register, by_number = ["r0 = 0"], ["r0 = 0"]
            for place, (a, b) in enumerate(PAIRS):
                said = f"r0 += {1 << place}"
                by_register += [number(1, a), number(2, b % 2**64), f"if {letter}1 {sign} {letter}2 goto +1", said]
                by_number += [number(1, a), f"if {letter}1 {sign} {b} goto +1", said]
            yield f"{name}{suffix} by register", by_register
            yield f"{name}{suffix} by number", by_number


def jumps():
    for word in ("goto", "gotol"):
        for offset in (0, 1, 3):
            yield f"{word} +{offset}", ["r0 = 1", f"{word} +{offset}", "r0 += 2", "r0 += 4", "r0 += 8", "r0 += 16"]


def memory():
    # sixteen bytes from the stack's end down, with the sign's bit set in each other one
    filled = [number(1, WIDE), "*(u64 *)(r10 - 8) = r1", number(1, 0x7F00FF8001020304), "*(u64 *)(r10 - 16) = r1"]
    for kind in ("u8", "u16", "u32", "u64", "s8", "s16", "s32"):
        yield f"load of {kind}", filled + summed([[f"r0 = *({kind} *)(r10 {offset:+d})"] for offset in (-16, -13, -11, -8)])
    all_of_it = [["r0 = *(u64 *)(r10 - 8)"], ["r0 = *(u64 *)(r10 - 16)"]]
    for kind in ("u8", "u16", "u32", "u64"):
        yield f"store of {kind}", filled + [number(2, OTHER)] + [f"*({kind} *)(r10 {offset:+d}) = r2" for offset in (-13, -8)] + summed(all_of_it)
        yield f"store of a number as {kind}", filled + [f"*({kind} *)(r10 {offset:+d}) = -2" for offset in (-13, -8)] + summed(all_of_it)


def programs():
    for part in (arithmetic, shifts, conversions, conditions, jumps, memory):
        for name, lines in part():
            yield name, lines + ["exit"]
