"""Running the program, and what each of its ends has to look like."""
import collections
import os
import pathlib
import random
import re
import shutil
import subprocess

Ran = collections.namedtuple("Ran", "status out err")
REASONS = {3: rb"cannot read [^\n]+\n|cannot write: [^\n]+\n", 4: rb"memory\n"}
FULL = rb"(?:full dc \d+ \d+ operations\n)*"  # what a run tells of data components
SHOWN = 5  # of what is wrong, how much is shown


def some_of(items, every):
    """All of them, or one of so many, drawn the same way every time."""
    items = list(items)
    places = random.Random(every).sample(range(len(items)), -(-len(items) // every))
    return [items[place] for place in sorted(places)]


def preloaded(name, folder):
    """The library that stands before the C library, of the source tools/NAME.c, where there is a C compiler."""
    compiler = shutil.which("cc") or shutil.which("clang")
    path = folder / f"{name}.so"
    if compiler and not path.exists():
        source = pathlib.Path(__file__).with_name(f"{name}.c")
        subprocess.run([compiler, "-O1", "-shared", "-fPIC", "-o", path, source, "-ldl"], check=True)
    return path if compiler else None


class Program:
    """The program, and a folder for the files that it reads."""

    def __init__(self, path, folder):
        self.path, self.folder, self.files = str(path), folder, 0

    def file(self, data):
        """A file with these bytes."""
        path = self.folder / f"file{self.files}"
        self.files += 1
        path.write_bytes(data)
        return str(path)

    def run(self, words, given=b"", faults=None):
        """Runs it with these words, on this standard input, with these faults in its environment."""
        env = {**os.environ, **faults} if faults else None
        ran = subprocess.run([self.path, *map(str, words)], input=given, capture_output=True, env=env)
        return Ran(ran.returncode, ran.stdout, ran.stderr)


def undocumented(ran):
    """What of this end the documents don't know, or None."""
    if ran.status not in range(5):
        return f"status {ran.status}"
    told = ran.err if ran.status >= 2 else re.sub(rb"\A" + FULL, b"", ran.err)
    if bool(told) != (ran.status >= 2):
        return f"status {ran.status} and {ran.err} on standard error"
    if ran.status in REASONS and not re.fullmatch(REASONS[ran.status], ran.err):
        return f"{ran.err} on standard error"
    if ran.out and (ran.status in (2, 4) or ran.err.startswith(b"cannot read")):
        return f"status {ran.status} and {ran.out} on standard output"
    return None


class Tally:
    """What a section did, and what of it was wrong."""

    def __init__(self, section):
        self.section, self.counts, self.wrong, self.skipped = section, collections.Counter(), [], None

    def add(self, what, count=1):
        self.counts[what] += count

    def fault(self, text):
        self.wrong.append(text)

    def skip(self, why):
        self.skipped = why

    def told(self):
        """Prints the section's line, and says whether all was right."""
        counts = [f"{count:,} {what}" for what, count in self.counts.items()]
        counts += [f"not all tried ({self.skipped})"] if self.skipped else []
        print(f"hostile {self.section}: {', '.join(counts)}, {len(self.wrong) or 'nothing'} wrong", flush=True)
        for text in self.wrong[:SHOWN]:
            print(f"  {text}", flush=True)
        return not self.wrong
