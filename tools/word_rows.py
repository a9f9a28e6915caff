#!/usr/bin/env python3
"""word_rows.py [LLVM_MC]: each word of the assembly text with the bytes that LLVM's assembler gives.

Each word of the text stands here beside the same instruction in the syntax of LLVM_MC (llvm-mc-19),
which says the bytes. Writes crates/bpf_asm/proofs/WordRows1.antt and so on: the definitions, computed
by the prover, give these bytes for the text."""
import os
import re
import subprocess
import sys

HERE = os.path.dirname(os.path.abspath(__file__))
PROOFS = os.path.join(HERE, "..", "crates", "bpf_asm", "proofs")

HEAD = """-- Each word of the assembly text: what it says is what LLVM's assembler (llvm-mc 19) writes for the text beside it.
-- A slot is written as the 64-bit number that its bytes are, little-endian. Made by tools/word_rows.py.
use Rattle.std.proofs.Common.{◌≡◌, [], ◌∷◌, refl}
use Rattle.std.specs.Prelude.{codes}
use Rattle.bpf_asm.specs.Cutting.{trim}
use Rattle.bpf_asm.proofs.WordStart.{said, spelled}

"""

ROWS_IN_A_FILE = 100

ALU = {
    "add": "+=",
    "sub": "-=",
    "mul": "*=",
    "div": "/=",
    "sdiv": "s/=",
    "or": "|=",
    "and": "&=",
    "lsh": "<<=",
    "rsh": ">>=",
    "mod": "%=",
    "smod": "s%=",
    "xor": "^=",
    "mov": "=",
    "arsh": "s>>=",
}
JUMPS = {"jeq": "==", "jgt": ">", "jge": ">=", "jset": "&", "jne": "!=", "jsgt": "s>", "jsge": "s>=", "jlt": "<", "jle": "<=", "jslt": "s<", "jsle": "s<="}
ATOMICS = {"add": "+=", "or": "|=", "and": "&=", "xor": "^="}
SIZES = {"b": 8, "h": 16, "w": 32, "dw": 64}


def words():
    """Pairs of a text and the same in LLVM's syntax."""
    for at, (word, sign) in enumerate(ALU.items()):
        dst, src = at % 10, (at + 3) % 11
        yield f"{word} r{dst}, r{src}", f"r{dst} {sign} r{src}"
        yield f"{word} r{dst}, -{at + 1}", f"r{dst} {sign} -{at + 1}"
        yield f"{word}32 r{dst}, r{src}", f"w{dst} {sign} w{src}"
        yield f"{word}32 r{dst}, 0x{at + 7:X}", f"w{dst} {sign} {at + 7}"
    yield "neg r1", "r1 = -r1"
    yield "neg32 r2", "w2 = -w2"
    for at, bits in enumerate((16, 32, 64)):
        yield f"le{bits} r{at}", f"r{at} = le{bits} r{at}"
        yield f"be{bits} r{at + 3}", f"r{at + 3} = be{bits} r{at + 3}"
        yield f"swap{bits} r{at + 6}", f"r{at + 6} = bswap{bits} r{at + 6}"
    for at, bits in enumerate((8, 16, 32)):
        yield f"movs{bits} r{at}, r{at + 1}", f"r{at} = (s{bits})r{at + 1}"
    for at, bits in enumerate((8, 16)):
        yield f"movs{bits}_32 r{at + 4}, r{at + 5}", f"w{at + 4} = (s{bits})w{at + 5}"
    yield "lddw r1, 0x1122334455667788", "r1 = 0x1122334455667788 ll"
    yield "lddw r9, 18446744073709551615", "r9 = -1 ll"
    yield "ja +3", "goto +3"
    yield "ja -2", "goto -2"
    yield "ja32 +700", "gotol +700"
    for at, (word, sign) in enumerate(JUMPS.items()):
        dst, src, offset = at % 11, (at + 4) % 11, at - 5
        for suffix, letter in (("", "r"), ("32", "w")):
            yield f"{word}{suffix} r{dst}, r{src}, {offset:+d}", f"if {letter}{dst} {sign} {letter}{src} goto {offset:+d}"
            yield f"{word}{suffix} r{dst}, {7 - at}, {offset:+d}", f"if {letter}{dst} {sign} {7 - at} goto {offset:+d}"
    for at, (letter, bits) in enumerate(SIZES.items()):
        yield f"ldx{letter} r{at}, [r{at + 1}+{at + 8}]", f"r{at} = *(u{bits} *)(r{at + 1} + {at + 8})"
        yield f"st{letter} [r{at + 7}-{at + 8}], -{at + 1}", f"*(u{bits} *)(r{at + 7} - {at + 8}) = -{at + 1}"
        yield f"stx{letter} [r{at + 5}+{at}], r{at}", f"*(u{bits} *)(r{at + 5} + {at}) = r{at}"
        if bits < 64:
            yield f"ldxs{letter} r{at + 2}, [r{at + 3}-{at + 8}]", f"r{at + 2} = *(s{bits} *)(r{at + 3} - {at + 8})"
    for at, (name, sign) in enumerate(ATOMICS.items()):
        for width, bits, letter in (("w", 32, "w"), ("dw", 64, "r")):
            place, src = f"r{at + 1} + {8 * at}", f"{letter}{at + 3}"
            yield f"atomic_{name}_{width} [r{at + 1}+{8 * at}], r{at + 3}", f"lock *(u{bits} *)({place}) {sign} {src}"
            yield f"atomic_fetch_{name}_{width} [r{at + 1}+{8 * at}], r{at + 3}", f"{src} = atomic_fetch_{name}((u{bits} *)({place}), {src})"
    yield "atomic_xchg_w [r1-4], r2", "w2 = xchg32_32(r1 - 4, w2)"
    yield "atomic_xchg_dw [r10-8], r3", "r3 = xchg_64(r10 - 8, r3)"
    yield "atomic_cmpxchg_w [r4-4], r5", "w0 = cmpxchg32_32(r4 - 4, w0, w5)"
    yield "atomic_cmpxchg_dw [r6-8], r7", "r0 = cmpxchg_64(r6 - 8, r0, r7)"
    yield "call 5", "call 5"
    yield "exit", "exit"


def slots(assembler, lines):
    """The slots of each line, as 64-bit numbers."""
    command = [assembler, "-triple", "bpfel", "-mcpu=v4", "-show-encoding"]
    printed = subprocess.run(command, input="\n".join(lines) + "\n", capture_output=True, text=True, check=True).stdout
    found = [bytes(int(byte, 16) for byte in text.split(",")) for text in re.findall(r"encoding: \[([^]]*)\]", printed)]
    if len(found) != len(lines):
        sys.exit(f"{assembler} encoded {len(found)} of {len(lines)} lines")
    return [[hex(int.from_bytes(data[at : at + 8], "little")) for at in range(0, len(data), 8)] for data in found]


def main():
    pairs = list(words())
    found = slots(sys.argv[1] if len(sys.argv) > 1 else "llvm-mc-19", [other for _, other in pairs])
    rows = []
    for number, ((text, other), numbers) in enumerate(zip(pairs, found)):
        rows.append(f'-- {other}\nword_{number} : said (codes "{text}") ≡ spelled ({" ∷ ".join(numbers + ["[]"])})\nunfolding trim\nword_{number} = refl\n')
    for part, start in enumerate(range(0, len(rows), ROWS_IN_A_FILE), 1):
        with open(os.path.join(PROOFS, f"WordRows{part}.antt"), "w") as file:
            file.write(HEAD + "\n".join(rows[start : start + ROWS_IN_A_FILE]))
    print(len({text.split()[0] for text, _ in pairs}), "words", len(rows), "rows")


main()
