#!/usr/bin/env python3
"""believed.py [--write] [--of CRATE[.NAME]]: looks whether docs/BELIEVED.md is as this program writes it. The page lists,
each with its lines, the definitions that a reader has to believe: those of specs/ that a public item's contract speaks
of (a function's clauses, what contracts see of a type and what the type keeps), and all that these are made of. None of
them may stand in specs/Joining, whose definitions only join bodies to others. Of the headline alone it lists the
definitions that the table in docs/PROVED.md names, and what these are made of. With --write the page is written anew.
With --of it says instead which public items lead to that crate's definitions, or to the one of that name.
The status is 1 where something differs."""
import difflib
import pathlib
import re
import sys

TOP = pathlib.Path(__file__).resolve().parent.parent
PAGE = TOP / "docs" / "BELIEVED.md"
HEADLINE = TOP / "docs" / "PROVED.md"
CLAUSES = re.compile(r"^## The headline, clause by clause\n.*?^## ", re.M | re.S)
NAMED = re.compile(r"`(\w+)` in `(\w+)/specs/(\w+)\.antt`")
WORD = re.compile(r"[^\s(){}\[\],;.λ→×⊎≡≢≤<+*&|∷∙=\"'`@:]+(?:\.[^\s(){}\[\],;.]+)*")
USE = re.compile(r"use Rattle\.(\w+)\.specs\.((?:Joining\.)?\w+)(?:\.\{([^}]*)\}|\.(\w+))?(?: as (\w+))?;?")

# What a reader has to believe, in reading order, with the crates that have it. A file of a crate that stands twice is named by itself.
GROUPS = [
    ("a slot's fields, how instructions are spelled, which code bytes name, the first fault", "bpf_encoding"),
    ("what a line of assembly text says", "bpf_asm"),
    ("arithmetic, memory, one step by fields and by instruction, whole runs, safety", "semantics"),
    ("records, declarations, operations and answers, locks, conflict", "access_slots"),
    ("the table of register states, and what each says of a register's value", "register_kinds"),
    ("the verdict on code, what an accepted one promises, its flat form", "verifier"),
    ("where a machine stands, what it keeps and gives", "interpreter"),
    ("which locks are held, and what is in the way", "lock_table"),
    ("which data components no procedure joins", "partitions"),
    ("request numbers, the low-water mark", "request_numbers"),
    ("events and their bytes", "tc_log"),
    ("what a log says: locks, operations, redo; one that begins anew", "history"),
    ("a data component's list, its rules, checkpoints and restarts", "data_component"),
    ("transactions, legal histories, what is in flight", "transactions"),
    ("the transaction component's calls, what its state keeps, what a call's slots hold", "tc_core call_results"),
    ("the procedures of an object file, the lines of its source", "object_file source_lines"),
    ("a file that a crash may cut short", "frame_file"),
    ("a log's file, a file of the system, whose log it is, a journal over it, an engine's", "log_file disk_file procedure_digest log_journal engine_log"),
    ("the steps of a world", "tc_world"),
    ("crashes of the transaction component", "tc_world.Recovery tc_world.Lives tc_world.Ahead"),
    ("an engine that writes its log's file ahead", "engine_recovery"),
    ("transaction components that take over from one another", "succession"),
    ("recovery from a log alone, and from the records that one begins with", "coming_back base_records"),
    ("one at a time, audits", "serial audit tc_world.OneAtATime"),
    ("what a script says, and an object file's procedures for one", "scripts object_procedures"),
    ("what workers report, acknowledgements, journals, data components that are served", "worker_pool dc_links"),
    ("a call through a frame of plain numbers", "embedding"),
    (
        "what the program prints, on both streams, and for which words",
        "command_line report_texts text_commands script_loading state_lines world_command run_metrics run_ground run_calls run_log run_command partitioned_run log_picture log_part log_command program_files procd",
    ),
]

PAGE_TEXT = """# Definitions to believe

`tools/believed.py --write` writes this page. A proof is worth as much as the definitions that it speaks of. These are
all that the contracts of public functions speak of, and what they are made of, each file with its lines, in reading
order; [DEFINITIONS.md](DEFINITIONS.md) goes through them in words. Files in `specs/Joining` only join bodies to these,
and a mistake there can't make a claim of [PROVED.md](PROVED.md) false.

| Definitions of | Files, with their lines |
|---|---|
{rows}

That is {total} lines without imports and blank ones.

For the headline alone {needed} lines of {files} files are enough, those that its table names and what they are made of:

{crates}
"""


def imported(line):
    """The names that a `use` line brings, each with the definition that it stands for: (crate, module, name)."""
    match = USE.search(line)
    if not match or match[2] == "declared":
        return
    crate, module, names, one, alias = match.groups()
    if names is None and one is None:
        yield alias, (crate, module, None)
    for part in (names or one or "").split(","):
        words = part.split()
        if words:
            yield words[-1], (crate, module, words[0])


class Module:
    """A file of definitions: the lines of each, and what it is made of."""

    HEAD = re.compile(r"^\s*(?:abbrev|record|data)(?: pub)? ([^\s:({]+)|^\s*pub (?:abbrev|record|data) ([^\s:({]+)")

    def __init__(self, file):
        self.names, self.lines, self.words = {}, {}, {}
        name, comment = None, 0
        for line in file.read_text().split("\n"):
            if re.match(r"(pub )?use ", line):
                self.names.update(imported(line))
                continue
            if not line.strip():
                continue
            if line.lstrip().startswith("--"):
                comment += 1
                continue
            head = self.HEAD.match(line)
            if head:
                name = head[1] or head[2]
                self.lines[name] = self.lines.get(name, 0)
            if name is None:
                continue
            self.lines[name] += 1 + comment
            comment = 0
            self.words.setdefault(name, set()).update(WORD.findall(line.split(" -- ")[0]))


def modules():
    """Each file of definitions of the repository, by crate and module."""
    found = {}
    for file in TOP.glob("crates/*/specs/**/*.antt"):
        crate, *path = file.relative_to(TOP / "crates").with_suffix("").parts
        if path[-1] not in ("Lib", "Joining"):
            found[crate, ".".join(path[1:])] = Module(file)
    return found


def looked_up(words, names, all_modules, home=None):
    """The definitions that these words stand for."""
    for word in words:
        first, _, rest = word.partition(".")
        if home and first in all_modules[home].lines:
            yield (*home, first)
            continue
        target = names.get(word) or names.get(first)
        if not target:
            continue
        crate, module, name = target
        name = name or rest
        if (crate, module) in all_modules and name in all_modules[crate, module].lines:
            yield crate, module, name


def closing(text, start):
    """The place behind the brace that closes the one at this place."""
    depth = 0
    for place in range(start, len(text)):
        depth += {"{": 1, "}": -1}.get(text[place], 0)
        if depth == 0:
            return place + 1
    return len(text)


CLAUSE = re.compile(r"\s*(?:requires|ensures|measure|decreases)\*?\s*(?:\w+\s*)?\{")
FUNCTION = re.compile(r"^\s*pub (?:const )?fn (\w+)", re.M)
IMPL = re.compile(r"^impl(?:<[^{]*?>)? ([^{]*?)\{", re.M)
TRAIT = re.compile(r"^pub trait (\w+)[^{]*\{", re.M)


def clauses(text, start):
    """The clauses of the function whose signature begins at this place."""
    depth, place = 0, start
    while place < len(text):
        if text[place] in "([":
            depth += 1
        elif text[place] in ")]":
            depth -= 1
        elif depth == 0 and CLAUSE.match(text, place):
            break
        elif depth == 0 and text[place] in "{;":
            return
        place += 1
    while match := CLAUSE.match(text, place):
        end = closing(text, match.end() - 1)
        yield text[match.end() : end - 1]
        place = end


def uses(text):
    return dict(pair for line in re.findall(r"ghost use [^;]*;", text) for pair in imported(line))


class Source:
    """What a file's public items speak of: pairs of an item's name and the definitions."""

    def __init__(self, crate, file, public, all_modules):
        self.crate, self.all_modules = crate, all_modules
        self.text = re.sub(r"//[^\n]*", "", file.read_text())
        self.public = public
        blocks = [(m.start(), closing(self.text, m.end() - 1), m) for m in IMPL.finditer(self.text)]
        blocks += [(m.start(), closing(self.text, m.end() - 1), m) for m in TRAIT.finditer(self.text)]
        outside = self.text
        for start, end, _ in sorted(blocks, reverse=True, key=lambda block: block[0]):
            outside = outside[:start] + outside[end:]
        self.outer = uses(outside)
        self.outside, self.blocks = outside, blocks

    def spoken(self):
        for match in FUNCTION.finditer(self.outside):
            if self.public(match[1]):
                yield from self.function(match[1], self.outside, match.start(), self.outer)
        for start, end, match in self.blocks:
            yield from self.block(match, self.text[start:end])

    def block(self, match, body):
        owner = re.split(r"[<\s]", match[1].split(" for ")[-1].strip())[0]
        if not self.public(owner):
            return
        names = {**self.outer, **uses(body)}
        if match[1].startswith("Model for ") or body.startswith("pub trait"):
            for ghost in re.findall(r"ghost (?:Value|view|invariant)[^=]*=\s*(\{.*?\};)", body, re.S):
                yield f"{self.crate}::{owner}", looked_up(WORD.findall(ghost), names, self.all_modules)
        pattern = re.compile(r"^\s*fn (\w+)", re.M) if body.startswith("pub trait") else FUNCTION
        for function in pattern.finditer(body):
            yield from self.function(f"{owner}::{function[1]}", body, function.start(), names)

    def function(self, name, text, start, names):
        for clause in clauses(text, start):
            yield f"{self.crate}::{name}", looked_up(WORD.findall(clause), names, self.all_modules)


def sources(all_modules):
    """What each public item speaks of."""
    for root in sorted(TOP.glob("crates/*/src/*.rt")):
        if root.name not in ("lib.rt", "main.rt"):
            continue
        crate, head = root.parts[-3], root.read_text()
        shown = {name for group in re.findall(r"^pub use [\w:]*::(?:\{([^}]*)\}|\w+)", head, re.M) for name in re.findall(r"\w+", group)}
        shown |= set(re.findall(r"^pub use [\w:]*::(\w+);", head, re.M))
        if root.name == "main.rt":
            shown |= set(re.findall(r"\w+", head))
        for file in sorted(root.parent.rglob("*.rt")):
            whole = root.name == "lib.rt" and (file == root or re.search(rf"^pub mod {file.stem};", head, re.M))
            yield from Source(crate, file, (lambda name: True) if whole else (lambda name: name in shown), all_modules).spoken()


def believed(all_modules):
    """Each definition that has to be believed, with the public item that leads to it."""
    return made_of([(target, item) for item, targets in sources(all_modules) for target in targets], all_modules)


def made_of(wait, all_modules):
    """These definitions and all that they are made of, each with the item that leads to it."""
    found = {}
    while wait:
        target, item = wait.pop()
        if target in found:
            continue
        found[target] = item
        crate, module, name = target
        home = all_modules[crate, module]
        wait += [(part, item) for part in looked_up(home.words.get(name, ()), home.names, all_modules, (crate, module))]
    return found


def counted(found, all_modules):
    """The lines to believe, by crate and module."""
    lines = {}
    for crate, module, name in found:
        lines[crate, module] = lines.get((crate, module), 0) + all_modules[crate, module].lines[name]
    return lines


def files_of(crate, lines):
    """A crate's files, as the page has them."""
    return f"`{crate}`: " + ", ".join(f"{module} {count}" for module, count in sorted(lines.items()))


def by_crate(lines):
    """The lines to believe of each crate's modules."""
    crates = {}
    for (crate, module), count in lines.items():
        crates.setdefault(crate, {})[module] = count
    return sorted(crates.items())


def group_of(crate, module):
    """The place of the group that has this file: the one that names it, else the one that names its crate."""
    for name in (f"{crate}.{module}", crate):
        for place, (_, members) in enumerate(GROUPS):
            if name in members.split():
                return place
    sys.exit(f"believed: {crate} stands in no group of this program")


def rows(lines):
    """The table of all files to believe, in the order of GROUPS."""
    grouped = [{} for _ in GROUPS]
    for (crate, module), count in lines.items():
        grouped[group_of(crate, module)][crate, module] = count
    for (what, _), members in zip(GROUPS, grouped):
        yield f"| {what} | {'; '.join(files_of(crate, modules) for crate, modules in by_crate(members))} |"


def alone(all_modules):
    """The lines of the definitions that the headline needs."""
    named = [((crate, file, name), "the headline") for name, crate, file in NAMED.findall(CLAUSES.search(HEADLINE.read_text())[0])]
    unknown = [f"{crate}.{file}.{name}" for (crate, file, name), _ in named if name not in all_modules[crate, file].lines]
    if unknown:
        sys.exit(f"believed: the headline's table names {', '.join(unknown)}, which isn't there")
    return counted(made_of(named, all_modules), all_modules)


def page(found, all_modules):
    """The page as it is to be."""
    lines, needed = counted(found, all_modules), alone(all_modules)
    return PAGE_TEXT.format(
        total=sum(lines.values()),
        rows="\n".join(rows(lines)),
        needed=sum(needed.values()),
        files=len(needed),
        crates="\n".join(f"- {files_of(crate, modules)}" for crate, modules in by_crate(needed)),
    )


def told_of(wanted, found):
    crate, _, name = wanted.partition(".")
    for target, item in sorted(found.items()):
        if target[0] == crate and (not name or name in target[1:]):
            print(f"{'.'.join(target)}: {item}")


def main():
    all_modules = modules()
    found = believed(all_modules)
    if "--of" in sys.argv[1:]:
        told_of(sys.argv[sys.argv.index("--of") + 1], found)
        return 0
    wanted = page(found, all_modules)
    faults = [f"{crate} {module} {name} stands in Joining, and {item} speaks of it" for (crate, module, name), item in sorted(found.items()) if module.startswith("Joining.")]
    if "--write" in sys.argv[1:]:
        PAGE.write_text(wanted)
    there = PAGE.read_text().split("\n") if PAGE.exists() else []
    differing = (line for line in difflib.ndiff(there, wanted.split("\n")) if line[:1] in "-+")
    faults += [f"docs/BELIEVED.md {'lacks' if line[0] == '+' else 'has'}: {line[2:]}" for line in differing]
    for fault in faults:
        print(f"believed: {fault}")
    if not faults:
        print(f"believed: {len(counted(found, all_modules))} files of definitions, as docs/BELIEVED.md has them")
    return 1 if faults else 0


if __name__ == "__main__":
    sys.exit(main())
