"""Object files for BPF: made by the tables of the System V ABI, without a compiler; and those with lines that are stored."""
import json
import pathlib
import struct

PROGBITS, SYMTAB, STRTAB, RELA, REL = 1, 2, 3, 4, 9
ABSOLUTE = 2  # R_BPF_64_ABS64
HEADER = 64
MOV_7, EXIT = bytes.fromhex("b700000007000000"), bytes.fromhex("9500000000000000")
SEVEN = MOV_7 + EXIT
CODE = "procedure/"  # a section of code, and then the procedure's name
UNKNOWN = b"\xff"  # an opcode that there isn't


def taking(args, *slots):
    """A section of accesses: how many arguments there are, and then a slot each, as data component, table, flags and key."""
    return b"".join(struct.pack("<HHHHQ", dc, table, flags, 0, key) for dc, table, flags, key in [(0, 0, 4, args), *slots])


def named(name, code=SEVEN, accesses=taking(0)):
    """Both sections of a procedure."""
    return [(b"procedure/" + name, code), (b"accesses/" + name, accesses)]


def leb(value):
    """LEB128 with sign (DWARF 5, section 7.6)."""
    low, high = value & 127, value >> 7
    ends = high == (-1 if low & 64 else 0)
    return bytes([low]) if ends else bytes([low | 128]) + leb(high)


def unit(*rows, name=b"bad.c", end=32, version=4):
    """A unit of .debug_line, of DWARF 4, with one file: rows of address and line in one sequence, up to an end; and where
    in the unit the address stands that it begins with."""
    fields = struct.pack("<BBBbBB12B", 8, 1, 1, -5, 14, 13, 0, 1, 1, 1, 1, 0, 0, 0, 1, 0, 0, 1)
    header = fields + b"\0" + name + b"\0\0\0\0" + b"\0"
    program, address, line = b"\0\x09\2" + bytes(8), 0, 1
    for at, of_source in rows:
        program += b"\2" + leb((at - address) // 8) + b"\3" + leb(of_source - line) + b"\1"
        address, line = at, of_source
    program += b"\2" + leb((end - address) // 8) + b"\0\1\1"
    body = struct.pack("<HI", version, len(header)) + header + program
    return struct.pack("<I", len(body)) + body, 4 + 6 + len(header) + 3


def symbols_of(symbol):
    """A symbol table and its strings: nothing, and then a symbol of this name, or one that is the section of this number."""
    is_section = isinstance(symbol, int)
    name, kind, section, text = (0, 3, symbol, b"") if is_section else (1, 1, 1, symbol + b"\0")
    return bytes(24) + struct.pack("<IBBHQQ", name, kind, 0, section, 0, 0), b"\0" + text


def object_of(sections, relocated=(), machine=247, units=(), referring=()):
    """The file with these sections, from number 1 on, then relocations of those with these numbers, then a line table of units, each
    with the section and the place there that its address is, then sections of relocations, each with its type, the section's number,
    the place there, and what it refers to, and last the names."""
    names, data, table = b"\0", b"", [bytes(64)]

    def add(name, kind, content, info=0, link=0):
        nonlocal names, data
        table.append(struct.pack("<IIQQQQIIQQ", len(names), kind, 0, 0, HEADER + len(data), len(content), link, info, 8, 0))
        names, data = names + name + b"\0", data + content

    for name, content in sections:
        add(name, PROGBITS, content)
    for number in relocated:
        add(b".rel", REL, bytes(16), number)
    if units:
        lines, symbols, relocations = b"", bytes(24), b""
        for (content, operand), section, place in units:
            relocations += struct.pack("<QII", len(lines) + operand, ABSOLUTE, len(symbols) // 24)
            symbols += struct.pack("<IBBHQQ", 0, 3, 0, section, place, 0)
            lines += content
        number = len(table)
        add(b".debug_line", PROGBITS, lines)
        add(b".symtab", SYMTAB, symbols)
        add(b".rel.debug_line", REL, relocations, number, number + 1)
    for kind, section, place, symbol in referring:
        entries, strings = symbols_of(symbol)
        number = len(table)
        add(b".strings", STRTAB, strings)
        add(b".symbols", SYMTAB, entries, link=number)
        add(b".relocations", kind, struct.pack("<QII", place, 1, 1) + bytes(8 if kind == RELA else 0), section, number + 1)
    add(b".strtab", STRTAB, names + b".strtab\0")
    begin = struct.pack("<4sBBB9xHHIQQQIHHHHHH", b"\x7fELF", 2, 1, 1, 1, machine, 1, 0, 0, HEADER + len(data), 0, 64, 0, 0, 64, len(table), len(table) - 1)
    return begin + data + b"".join(table)


def sections(data):
    """Name, place and size of each section of a file."""
    table, = struct.unpack_from("<Q", data, 40)
    count, names = struct.unpack_from("<HH", data, 60)
    entries = [struct.unpack_from("<IIQQQQ", data, table + 64 * number) for number in range(count)]
    text = data[entries[names][4] :]
    return [(text[name : text.index(b"\0", name)].decode(), place, size) for name, _, _, _, place, size in entries]


def code_of(data):
    """Where the code of each procedure is, and how many bytes it has."""
    return {name.removeprefix(CODE): (place, size) for name, place, size in sections(data) if name.startswith(CODE)}


def with_lines():
    """The object files of outside/lines/: name, bytes, and of each procedure the line of each slot."""
    for line in (pathlib.Path(__file__).parent / "outside" / "lines" / "objects.jsonl").read_text().splitlines():
        case = json.loads(line)
        yield case["name"], bytes.fromhex(case["object"]), case["lines"]


def patched(data, *changes):
    """The same with other bytes at some places."""
    data = bytearray(data)
    for place, content in changes:
        data[place : place + len(content)] = content
    return bytes(data)


# Two procedures; the second has two slots, and its code is:
# mov r1, 0; call 1; jeq r0, 0, +1; ldxdw r0, [r0+0]; lddw r2, 5; exit
TESTED_READ = bytes.fromhex(
    "b701000000000000 8500000001000000 1500010000000000 7900000000000000 1802000005000000 0000000000000000 9500000000000000"
)
OBJECT = object_of(named(b"seven") + named(b"get", TESTED_READ, taking(1, (0, 0, 2, 0), (1, 3, 1, 5))))
