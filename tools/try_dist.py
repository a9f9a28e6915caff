#!/usr/bin/env python3
"""Tries the packages of tools/dist.py as a new user would: in empty folders, with neither the Rattle kit nor this checkout in sight.

usage: tools/try_dist.py [--unproved]

The archive: the first run of its README, each example against what is stored here, tests of the library by its Makefile, and the C
program of docs/EMBEDDING.md over the unpacked headers and libraries, by pkg-config and over the shared library. The Debian
package: its program, and the same C program. Both: their sums; made twice they have the same bytes; the program asks for libc
alone; no file names a path of this machine; all say one version. And what a package says of a gate is what is noted of its
program, its library and its commit, or nothing.
"""
import os
import pathlib
import re
import shutil
import subprocess
import sys
import tempfile

import dist

sys.path.insert(0, f"{dist.TOP}/c_interface")
from try_page import Page  # noqa: E402, which stands in another folder

TOP = pathlib.Path(dist.TOP)
# Commands behind it see empty folders where the kit and this checkout are.
FENCE = 'for place; do mount -t tmpfs none "$place" || exit; done; exec env -i HOME="$HOME" PATH=/usr/bin:/bin sh -ec "$0"'
# What the program may ask of the system: libc, by the loader that all of it asks for.
INTERPRETER, LIBRARY = "/lib64/ld-linux-x86-64.so.2", "libc.so.6"


def runs(words):
    """Whether a command is there, and ends well."""
    return shutil.which(words[0]) is not None and subprocess.run(words, capture_output=True, check=False).returncode == 0


class Place:
    """A folder for a user of the packages."""

    def __init__(self, home, words):
        self.home, self.wrong = home, 0
        self.packages = f"{home}/packages"
        self.words = words
        self.hidden = [dist.TOP, *([dist.kit()] if shutil.which("rt") else [])]
        fence = ["unshare", "--map-root-user", "--mount"]
        self.fence = fence if runs([*fence, "true"]) else []
        if not self.fence:
            print("dist: kit and checkout are out of the path, but not hidden: unshare isn't there, or isn't permitted")

    def said(self, what, commands, folder):
        """What the commands print there; None, and it is said, where one ends otherwise than well."""
        env = {"HOME": self.home, "PATH": "/usr/bin:/bin"}
        words = [*self.fence, "sh", "-c", FENCE, commands, *(self.hidden if self.fence else [])]
        ran = subprocess.run(words, cwd=folder, env=env, stdin=subprocess.DEVNULL, capture_output=True, text=True, check=False)
        if ran.returncode == 0:
            return ran.stdout
        self.is_so(False, f"{what}: status {ran.returncode}\n{ran.stdout}{ran.stderr}")
        return None

    def is_so(self, so, what):
        if not so:
            self.wrong += 1
            print(f"dist: NOT so: {what}")

    def prints(self, what, commands, folder, printed):
        """Whether the commands print this there."""
        said = self.said(what, commands, folder)
        self.is_so(said in (None, printed), f"{what} prints what is stored, but\n{said}")


def made(place):
    """Makes the packages, twice; answers their files."""
    for again in (f"{place.home}/again", place.packages):
        ran = subprocess.run([f"{TOP}/tools/dist.py", "--to", again, *place.words], capture_output=True, text=True, check=False)
        if ran.returncode:
            print(ran.stderr, file=sys.stderr, end="")
            sys.exit(1)
    sums = [pathlib.Path(folder, "SHA256SUMS").read_text() for folder in (f"{place.home}/again", place.packages)]
    place.is_so(sums[0] == sums[1], "made twice, they have the same bytes")
    place.said("the sums", "sha256sum -c SHA256SUMS", place.packages)
    return [line.split()[1] for line in sums[1].splitlines()]


def asks_for_libc_alone(place, program):
    """Of the system, and of no folder that is written into it."""
    said = dist.said_by("readelf", "-Wdl", str(program))
    place.is_so(re.findall(r"\(NEEDED\).*\[(.*)\]", said) == [LIBRARY], f"{program.name} asks for {LIBRARY} alone:\n{said}")
    place.is_so(f"interpreter: {INTERPRETER}]" in said and "PATH)" not in said, f"{program.name} has no paths:\n{said}")


def names_no_path(place, folder):
    """Of this checkout, the kit or whoever made it."""
    for path in filter(pathlib.Path.is_file, pathlib.Path(folder).rglob("*")):
        for hidden in [*place.hidden, place.home]:
            place.is_so(f"{hidden}/".encode() not in path.read_bytes(), f"{path.name} doesn't name {hidden}")


def first_run(place, archive):
    """The README's, in an empty folder with the archive; answers the unpacked folder."""
    folder = pathlib.Path(place.home, "first")
    folder.mkdir()
    shutil.copy(f"{place.packages}/{archive}", folder)
    unpacked = folder / archive.removesuffix(".tar.gz")
    readme = subprocess.run(["tar", "-xzOf", archive, f"{unpacked.name}/README.md"], cwd=folder, capture_output=True, text=True, check=True)
    (block,) = re.findall(r"```\n(.*?)```", readme.stdout, re.DOTALL)
    commands = "".join(line[2:] + "\n" for line in block.splitlines() if line.startswith("$ "))
    printed = "".join(line + "\n" for line in block.splitlines() if not line.startswith("$ "))
    place.prints("the first run", commands, folder, printed)
    return unpacked


def examples(place, unpacked):
    """Each by the unpacked program, against what is stored here; answers how many."""
    stored = [path.parent for path in sorted(TOP.glob("examples/*/printed"))]
    for folder in stored:
        words, status = (folder / "words").read_text().split(), (folder / "status").read_text().strip()
        commands = f'{unpacked}/bin/procd {" ".join(words)} || [ $? = {status} ]'
        place.prints(f"example {folder.name}", commands, unpacked / "examples" / folder.name, (folder / "printed").read_text())
    return len(stored)


def one_number(place, unpacked):
    """The programs and pkg-config say the header's."""
    version = dist.release()
    asked = ["bin/procd --version", "bin/mz_skeleton --version", "PKG_CONFIG_PATH=lib/pkgconfig pkg-config --modversion mazzulpe"]
    answers = [f"procd {version}\n", f"mz_skeleton {version}\n", f"{version}\n"]
    for commands, printed in zip(asked, answers if shutil.which("pkg-config") else answers[:2]):
        place.prints(commands, commands, unpacked, printed)


def makefile(place, unpacked):
    """The unpacked Makefile takes the unpacked library."""
    said = place.said("the unpacked Makefile", "make -s -C c_interface check_misuse check_same", unpacked)
    place.is_so(said is not None and "misuse: refused" in said, f"misuse of the unpacked library is refused: {said}")


def page_of_archive(place, page, archive):
    """The page's commands over an unpacked archive; then the same program over the shared library."""
    folder = page.written(place.home)
    shutil.copy(f"{place.packages}/{archive}", folder)
    if place.said("unpacking as the page says", page.unpack, folder) is None:
        return
    place.prints("the page's program", page.use, folder, page.printed)
    (compiled,) = re.findall(r"^cc .*", page.use, re.MULTILINE)
    shared = 'cc -o shared main.c $(pkg-config --cflags mazzulpe) -L"$HOME/mazzulpe/lib" -lmazzulpe -Wl,-rpath,"$HOME/mazzulpe/lib"'
    commands = page.use.replace(compiled, shared).replace("./main", "./shared")
    place.prints("it, over the shared library", commands, folder, page.printed)
    said = place.said("what the shared one asks for", "readelf -d shared", folder)
    place.is_so(said is not None and "libmazzulpe.so." in said, "it asks for the shared library")


def debian(place, page, package):
    """Its program and its library, unpacked below a folder as if that were the root."""
    root, folder = f"{place.home}/root", f"{place.home}/debian"
    os.mkdir(folder)
    place.said("unpacking the Debian package", f"dpkg-deb -x {place.packages}/{package} {root}", folder)
    bank = f"{root}/usr/share/doc/mazzulpe/examples/bank"
    stored = (TOP / "examples/bank/printed").read_text()
    place.prints("the Debian package's program", f"cd {bank} && {root}/usr/bin/procd $(cat words)", folder, stored)
    if not page:
        return
    for name, text in (("bank.c", page.procedures), ("main.c", page.program)):
        pathlib.Path(folder, name).write_text(text)
    below = f"export PKG_CONFIG_LIBDIR={root}/usr/lib/pkgconfig PKG_CONFIG_SYSROOT_DIR={root} PKG_CONFIG_ALLOW_SYSTEM_CFLAGS=1\n"
    below += "export PKG_CONFIG_ALLOW_SYSTEM_LIBS=1\n"
    commands = re.sub(r"^export .*\n", "", page.use, flags=re.MULTILINE).replace("$HOME/mazzulpe", f"{root}/usr")
    place.prints("the page's program over the Debian package", below + commands, folder, page.printed)


def claims_no_gate_but_its_own(place):
    """What a package says of a gate: of the program, library and commit that the gate noted, and of no other."""
    built, ended = tuple(f"{place.home}/{name}" for name in ("program", "library")), "3 passed, 0 failed"
    dist.TOP, dist.PASSED, dist.BUILT = "", f"{place.home}/gate/passed", built
    here, changed, other = ("c0ffee", True), ("c0ffee", False), ("decade", True)

    def claims(noted_at, packed_at, rebuilt=None):
        for path in built:
            pathlib.Path(path).write_text(path)
        dist.state = lambda: noted_at
        dist.note(ended)
        dist.state = lambda: packed_at
        if rebuilt:
            pathlib.Path(rebuilt).write_text("another")
        said = dist.gate_line(built)
        return ended in said and "No gate" not in said

    place.is_so(claims(here, here), "a gate is named where it passed just this")
    for case in ((here, changed), (here, other), (changed, here), (changed, changed), (here, here, built[0]), (here, here, built[1])):
        place.is_so(not claims(*case), f"no gate is named of {case}")
    for line in ("3 passed, 1 failed", "0 passed, 0 failed", "passed"):
        try:
            dist.note(line)
            place.is_so(False, f"the gate's note isn't `{line}`")
        except dist.Failed:
            pass
    os.remove(dist.PASSED)
    place.is_so("No gate" in dist.gate_line(built), "without a note no gate is named")


def page_here():
    """The page, where what it asks for is here."""
    there = runs(["clang", "-target", "bpf", "-x", "c", "-c", os.devnull, "-o", os.devnull]) and runs(["pkg-config", "--version"])
    return Page() if there else None


def tried(place):
    """Tries all; says what was left out, and what was wrong."""
    archive, *package = made(place)
    page = page_here()
    unpacked = first_run(place, archive)
    asks_for_libc_alone(place, unpacked / "bin/procd")
    names_no_path(place, unpacked)
    count = examples(place, unpacked)
    one_number(place, unpacked)
    makefile(place, unpacked)
    if page:
        page_of_archive(place, page, archive)
    for name in package:
        debian(place, page, name)
    claims_no_gate_but_its_own(place)
    if not package:
        print("dist: the Debian package is left out, dpkg-deb isn't there")
    if not page:
        print("dist: the page's program is left out, clang with its BPF target or pkg-config isn't there")
    what = f"archive{' and Debian package' if package else ''}, first run, {count} examples{', page' if page else ''}"
    print(f"dist: {what}: {'as stored' if not place.wrong else 'WRONG'}")


def main():
    words = sys.argv[1:]
    if words not in ([], ["--unproved"]):
        print(__doc__, file=sys.stderr)
        return 2
    with tempfile.TemporaryDirectory(prefix="try-dist-") as home:
        place = Place(home, words)
        tried(place)
    return place.wrong != 0


if __name__ == "__main__":
    sys.exit(main())
