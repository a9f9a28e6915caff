#!/usr/bin/env python3
"""Compares what is written twice by hand: rust/mazzulpe.rs has each function of mazzulpe.h, mazzulpe_object.h and mazzulpe_pool.h, and
with the header the same codes, words of codes, numbers of calls and fields of the frame; crates/embedding has the codes, numbers and
fields too. Says each difference, with status 1.
"""
import pathlib
import re
import sys

HERE = pathlib.Path(__file__).resolve().parent
HEADERS = ("mazzulpe.h", "mazzulpe_object.h", "mazzulpe_pool.h")
EMBEDDING = HERE.parent / "crates/embedding/src"
WIDTHS = {"uint8_t": "u8", "uint16_t": "u16", "uint32_t": "u32", "uint64_t": "u64"}


def public_functions(text):
    """The functions of a header that aren't in a part that is headed `inside`."""
    inside = False
    for line in text.splitlines():
        if line.startswith("/* ----"):
            inside = line.startswith("/* ---- inside")
        found = re.match(r"static inline .*?\b(mz_\w+)\(", line)
        if found and not inside:
            yield found[1]


def in_rust(name):
    """The function of the wrapper for one of the header, None where the language has it."""
    if name in ("mz_little", "mz_pool_open_batched") or name.endswith("_free"):
        return None
    other = {"mz_code_text": "Refusal::code_text", "mz_event_of": "Event::event_of", "mz_pool_lock": "Pool::look",
             "mz_pool_unlock": "Pool::look"}
    kind, word = re.match(r"mz_(?:(tc|dc|program|pool)_)?(\w+)", name).groups()
    return other.get(name) or f"{(kind or 'tc').capitalize()}::{word}"


def rust_functions(text):
    """The public functions, as Type::name."""
    kind = None
    for line in text.splitlines():
        if found := re.match(r"impl(?:<.*?>)? (\w+)(?:<\w+>)? \{", line):
            kind = found[1]
        if found := re.match(r"    pub fn (\w+)", line):
            yield f"{kind}::{found[1]}"


def header_codes(text):
    """Each code's name and letter with number, and its word."""
    words = dict(re.findall(r'case MZ_(\w+): return "(\w+)";', text))
    codes = re.findall(r"#define MZ_(\w+) MZ_CODE\('(\w)', (\d+)\)", text)
    return {name: (letter, int(n), words.get(name)) for name, letter, n in codes}


def rust_codes(text):
    words = dict(re.findall(r'^ +([A-Z_]+) => "(\w+)",', text, re.MULTILINE))
    codes = re.findall(r"const (\w+): Refusal = code\('(\w)', (\d+)\)", text)
    return {name: (letter, int(n), words.get(name)) for name, letter, n in codes}


def words_of_faults(text, names):
    """The words of what the verifier, the decoder and a declaration say, which stand in a list each."""
    lists = [re.search(rf"\b{name}(?:\[\]|: \[&str; \d+\]) =\s*[{{\[](.*?)[}}\]];", text, re.DOTALL)[1] for name in names]
    return [re.findall(r'"(\w+)"', it) for it in lists]


def header_calls(text):
    """The numbers of the calls, which an enum counts up."""
    body, numbers, last = re.search(r"enum \{\s*(MZ_CALL_START_TC.*?)\}", text, re.DOTALL)[1], {}, 0
    for name, at in re.findall(r"MZ_CALL_(\w+)(?: = (\d+))?", body):
        last = numbers[name] = int(at) if at else last + 1
    return numbers


def constants(text):
    return {name: int(n) for name, n in re.findall(r"pub const (\w+): u32 = (\d+);", text)}


def header_frame(text):
    body = re.search(r"typedef struct \{([^}]*)\} mz_frame;", text)[1]
    sizes = {"MZ_ARGS": "8", "MZ_VALUE": "64"}
    for width, names in re.findall(r"(uint\d+_t) ([^;]*);", body):
        for name, size in re.findall(r"(\w+)(?:\[(\w+)\])?", names):
            yield name, f"[{WIDTHS[width]}; {sizes.get(size, size)}]" if size else WIDTHS[width]


def rust_frame(text):
    body = re.search(r"(?:pub )?struct Frame \{(.*?)\n\}", text, re.DOTALL)[1]
    return re.findall(r"^ +(?:pub )?(\w+): ([^,]*),$", body, re.MULTILINE)


def differences():
    headers = {name: (HERE / name).read_text() for name in HEADERS}
    rust = "\n".join(it.read_text() for it in [HERE / "rust/mazzulpe.rs", *sorted((HERE / "rust/mazzulpe").rglob("*.rs"))])
    ours = {name: (EMBEDDING / name).read_text() for name in ("call.rt", "codes.rt", "frame.rt")}
    header = headers["mazzulpe.h"]
    functions = [in_rust(name) for text in headers.values() for name in public_functions(text)]
    missing = sorted(set(filter(None, functions)) - set(rust_functions(rust)))
    yield from (f"{name} of the header isn't in rust/mazzulpe.rs" for name in missing)
    calls = header_calls(header)
    in_crate, in_wrapper = constants(ours["call.rt"]), constants(rust.split("mod call {")[1].split("\n}")[0])
    if calls != in_crate:
        yield f"numbers of calls: {sorted(calls.items() ^ in_crate.items())}"
    if not in_wrapper.items() <= calls.items():
        yield f"numbers of calls in rust/mazzulpe.rs: {sorted(in_wrapper.items() - calls.items())}"
    if header_codes(header) != rust_codes(rust):
        yield f"codes: {sorted(header_codes(header).items() ^ rust_codes(rust).items())}"
    faults = words_of_faults(header, "ves"), words_of_faults(rust, ("VIOLATIONS", "CODE_FAULTS", "SLOT_FAULTS"))
    if faults[0] != faults[1]:
        yield f"words of faults: {faults}"
    # (what the verifier and the decoder say are numbers alone; of G3 a caller by frames can't be told)
    known = {ord(letter) << 8 | n for letter, n, _ in header_codes(header).values()} | {0x4703}
    strange = {int(it, 16) for it in re.findall(r"0x([0-9a-f]{4})", ours["codes.rt"])} - known
    yield from (f"{it:#x} of crates/embedding is no code of the header" for it in strange if it >> 8 not in b"ESV")
    frames = [list(it) for it in (header_frame(header), rust_frame(rust), rust_frame(ours["frame.rt"]))]
    if not frames[0] == frames[1] == frames[2]:
        yield f"the frame's fields: {frames}"


def main():
    said = list(differences())
    print("\n".join(said) or "Rust: every function, code and number of the header")
    return bool(said)


if __name__ == "__main__":
    sys.exit(main())
