"""Programs with atomic operations, in the syntax of LLVM's assembler for BPF.

`programs()` gives pairs of a name and the text. Each program ends with all 64 bits of what it
computed in register 0: what is in memory afterwards, and registers 0 and 1.
"""

OLD = 0x8123456789ABCDEF
OTHER = 0xFEDCBA9876543217
LOW_OF_OLD = OLD % 2**32
SIGNS = {"+=": "add", "|=": "or", "&=": "and", "^=": "xor"}


def number(register, value):
    return f"r{register} = {value} ll"


def around(said, zero):
    """What is said of the old number, and a sum that tells memory and both registers."""
    before = [number(2, OLD), "*(u64 *)(r10 - 8) = r2", "*(u64 *)(r10 - 16) = r2", number(0, zero), number(1, OTHER)]
    after = ["r0 *= 31", "r0 += r1", "r0 *= 31", "r3 = *(u64 *)(r10 - 8)", "r0 += r3", "r0 *= 31", "r3 = *(u64 *)(r10 - 16)", "r0 += r3"]
    return before + said + after


def plain():
    for sign, name in SIGNS.items():
        yield f"{name}_dw", f"lock *(u64 *)(AT) {sign} r1"
        yield f"{name}_w", f"lock *(u32 *)(AT) {sign} w1"
        yield f"fetch_{name}_dw", f"r1 = atomic_fetch_{name}((u64 *)(AT), r1)"
        yield f"fetch_{name}_w", f"w1 = atomic_fetch_{name}((u32 *)(AT), w1)"
    yield "xchg_dw", "r1 = xchg_64(AT, r1)"
    yield "xchg_w", "w1 = xchg32_32(AT, w1)"


def compared():
    yield "cmpxchg_dw", "r0 = cmpxchg_64(r10 - 8, r0, r1)"
    yield "cmpxchg_w", "w0 = cmpxchg32_32(r10 - 8, w0, w1)"


def programs():
    # the second time across both numbers, with what the first one left in register 1
    for name, said in plain():
        yield name, around([said.replace("AT", at) for at in ("r10 - 8", "r10 - 13")], OTHER) + ["exit"]
    # equal in all bits, in the low half alone, in the high half alone, in none
    for zero in (OLD, OTHER - OTHER % 2**32 + LOW_OF_OLD, OLD ^ 1, LOW_OF_OLD, OTHER):
        for name, said in compared():
            yield f"{name} against {zero:#x}", around([said], zero) + ["exit"]
