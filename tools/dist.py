#!/usr/bin/env python3
"""Makes packages of what is built: an archive for x86-64 Linux, a Debian package of the same, and their SHA256SUMS.

  tools/dist.py [--unproved] [--to FOLDER]      below dist/, or in the folder
  tools/dist.py --passed "N passed, 0 failed"   the gate's word at its end: notes in out-gate/passed what it has passed

It takes crates/procd/out/procd and crates/mazzulpe/out/libmazzulpe.a (tools/archive.py), or with --unproved those of out-unproved,
and says so in the packages' names. A package says which gate it has passed where out-gate/passed names its very program and
library, and the commit that is checked out here, with nothing changed; else it says that none has. The same commit and builds
make the same bytes. It needs make, a C compiler, ar and readelf; without dpkg-deb the Debian package is left out.
"""
import argparse
import gzip
import hashlib
import os
import pathlib
import re
import shutil
import subprocess
import sys
import tarfile
import tempfile

from built import TOP, uses
from unproved import Failed, below_in_kit, kit

BUILT = ("crates/procd/out/procd", "crates/mazzulpe/out/libmazzulpe.a")
UNPROVED = ("out-unproved/procd", "out-unproved/libmazzulpe.a")
PASSED = f"{TOP}/out-gate/passed"
# What is packed as it stands in the repository, so that pages and examples find each other.
FOLDERS = ("c_interface", "docs", "examples", "bench/MEASUREMENTS.md")
# What is below /usr in a Debian package.
INSTALLED = ("bin", "include", "lib")
CONTROL = """Package: mazzulpe
Version: {version}
Architecture: amd64
Maintainer: the Mazzulpe authors
Depends: libc6 (>= {glibc})
Suggests: clang, gcc | c-compiler, pkg-config
Section: database
Priority: optional
Installed-Size: {size}
Description: verified transaction component
 The program procd and a library for C, which run verified BPF procedures
 as transactions over data components.
 .
 {gate}
"""


def said_by(*words, where=TOP):
    """What a command prints."""
    try:
        return subprocess.run(words, cwd=where, capture_output=True, text=True, check=True).stdout.strip()
    except OSError as error:
        raise Failed(f"{words[0]}: {error.strerror}") from error
    except subprocess.CalledProcessError as error:
        raise Failed(f"{words[0]} ended with {error.returncode}\n{error.stderr}") from error


def release():
    """The one number of all that is packed."""
    header = pathlib.Path(TOP, "c_interface/mazzulpe.h").read_text(encoding="utf-8")
    return re.search(r'^#define MZ_RELEASE "([\d.]+)"', header, re.MULTILINE)[1]


def sum_of(path):
    return hashlib.sha256(pathlib.Path(path).read_bytes()).hexdigest()


def state():
    """What is checked out, and whether nothing of it is changed."""
    try:
        return said_by("git", "rev-parse", "HEAD"), said_by("git", "status", "--porcelain") == ""
    except Failed:
        return "unknown", False


def note(passed):
    """Notes that the gate has passed what is built."""
    if not re.fullmatch(r"[1-9]\d* passed, 0 failed", passed):
        raise Failed(f"`{passed}` isn't the end of a gate that passes")
    commit, unchanged = state()
    os.makedirs(os.path.dirname(PASSED), exist_ok=True)
    with open(PASSED, "w", encoding="utf-8") as it:
        it.write(f"{commit} {'as committed' if unchanged else 'changed'}: {passed}\n")
        it.writelines(f"{sum_of(f'{TOP}/{path}')}  {path}\n" for path in BUILT)


def gate_line(built):
    """Which gate these have passed."""
    commit, unchanged = state()
    kept = pathlib.Path(PASSED).read_text(encoding="utf-8").splitlines() if os.path.exists(PASSED) else []
    found = re.fullmatch(r"(\w+) as committed: (.*)", kept[0]) if kept else None
    sums = [f"{sum_of(f'{TOP}/{path}')}  {path}" for path in built]
    if found and kept[1:] == sums and found[1] == commit and unchanged:
        return f"Built from commit {commit}, whose gate proved this program and this library, and ended with `{found[2]}`."
    what = f"Packed at commit {commit}{'' if unchanged else ', changed'}. No gate has passed this program and this library."
    return f"{what} They are NOT PROVED: compiled without the proofs." if built == UNPROVED else what


def licences(place):
    """Puts the licences there of what is linked in, and says what is missing."""
    try:
        kit_at, known = kit(), uses()
    except Failed:
        return "Those of the Rattle kit's crates that are linked in are missing here: the kit wasn't at hand when this was packed."
    without = []
    for name in sorted(dict.fromkeys(name for crate in ("procd", "mazzulpe") for name in below_in_kit(crate, known, kit_at))):
        texts = sorted(pathlib.Path(f"{kit_at}/rattle/{name}").glob("LICENSE*"))
        for text in texts:
            copied(text, f"{place}/licences/{name}-{text.name}")
        without += [] if texts else [f"`{name}`"]
    return f"`licences/` has those of the Rattle kit's crates that are linked in; of {', '.join(without)} the kit has none."


def copied(file, to, mode=0o644):
    os.makedirs(os.path.dirname(to), exist_ok=True)
    shutil.copyfile(file, to)
    os.chmod(to, mode)


def pages(place):
    """Puts what stands in the repository there: the files that git knows, or where there is no git all but what is made."""
    try:
        files = said_by("git", "ls-files", *FOLDERS).splitlines()
    except Failed:
        found = (path for name in FOLDERS for path in [pathlib.Path(TOP, name), *pathlib.Path(TOP, name).rglob("*")])
        files = [str(path.relative_to(TOP)) for path in found if path.is_file() and not {"build", "__pycache__"} & {*path.parts}]
    for file in [*files, "LICENSE-MIT", "LICENSE-APACHE"]:
        if os.path.exists(f"{TOP}/{file}"):
            copied(f"{TOP}/{file}", f"{place}/{file}", 0o755 if os.access(f"{TOP}/{file}", os.X_OK) else 0o644)


def programs(place, built):
    """Installs the program and the library there, as below /usr."""
    program, library = built
    with tempfile.TemporaryDirectory(prefix="dist-") as made:
        said_by("make", "-s", "-C", f"{TOP}/c_interface", "install", f"B={made}/build", f"RATTLE_ARCHIVE={TOP}/{library}",
                f"DESTDIR={made}", "PREFIX=/usr")
        shutil.copytree(f"{made}/usr", place, symlinks=True)
    copied(f"{TOP}/{program}", f"{place}/bin/procd", 0o755)


def glibc(place):
    """The glibc that the programs and the shared library ask for."""
    files = [*pathlib.Path(place, "bin").iterdir(), *pathlib.Path(place, "lib").glob("*.so")]
    asked = {n for file in files for n in re.findall(r"GLIBC_(\d+)\.(\d+)", said_by("readelf", "-VW", str(file)))}
    return ".".join(map(str, max((int(major), int(minor)) for major, minor in asked)))


def tree(place):
    """The paths below a folder, each folder before what it has."""
    return sorted(pathlib.Path(place).rglob("*"))


def archive(place, file, made_at):
    """An archive of the folder."""
    def plain(it):
        it.uid = it.gid = 0
        it.uname = it.gname = "root"
        it.mtime = made_at
        return it

    with open(file, "wb") as raw, gzip.GzipFile("", "wb", fileobj=raw, mtime=made_at) as packed:
        with tarfile.open(fileobj=packed, mode="w", format=tarfile.PAX_FORMAT) as it:
            for path in [pathlib.Path(place), *tree(place)]:
                it.add(path, str(path.relative_to(pathlib.Path(place).parent)), recursive=False, filter=plain)


def debian(place, file, made_at, told):
    """A Debian package of the folder, as it lies below the root."""
    files = [path for path in tree(place) if path.is_file() and not path.is_symlink()]
    size = sum(path.stat().st_size for path in files) // 1024 + 1
    os.mkdir(f"{place}/DEBIAN")
    with open(f"{place}/DEBIAN/control", "w", encoding="utf-8") as it:
        it.write(CONTROL.format(size=size, **told))
    with open(f"{place}/DEBIAN/md5sums", "w", encoding="utf-8") as it:
        it.writelines(f"{hashlib.md5(path.read_bytes()).hexdigest()}  {path.relative_to(place)}\n" for path in files)
    for path in [*tree(place), pathlib.Path(place)]:
        os.utime(path, (made_at, made_at), follow_symlinks=False)
    environment = {**os.environ, "SOURCE_DATE_EPOCH": str(made_at)}
    words = ["dpkg-deb", "--root-owner-group", "--build", place, file]
    ran = subprocess.run(words, env=environment, capture_output=True, text=True, check=False)
    if ran.returncode:
        raise Failed(f"dpkg-deb ended with {ran.returncode}\n{ran.stderr}")


def filled(told):
    """The package's README."""
    text = pathlib.Path(TOP, "tools/package.md").read_text(encoding="utf-8")
    return re.sub(r"@(\w+)@", lambda found: told[found[1].lower()], text)


def documents(whole, doc):
    """What a Debian package has below share/doc: all of the archive but what is installed."""
    for path in pathlib.Path(whole).iterdir():
        if path.name not in INSTALLED:
            (shutil.copytree if path.is_dir() else copied)(path, f"{doc}/{path.name}")
    texts = [pathlib.Path(whole, name).read_text(encoding="utf-8") for name in ("LICENSE-MIT", "LICENSE-APACHE")]
    head = "Mazzulpe, under either of these licences; those of what is linked in are in the folder licences."
    pathlib.Path(doc, "copyright").write_text("\n\n".join([head, *texts]), encoding="utf-8")


def epoch():
    """The time of all that is packed: the commit's."""
    commit, _ = state()
    return int(os.environ.get("SOURCE_DATE_EPOCH", 0) if commit == "unknown" else said_by("git", "log", "-1", "--format=%ct"))


def packed(built, to, made):
    """Makes the packages by way of the folder `made`; answers their files."""
    version = release() + ("" if built == BUILT else "~unproved")
    name = f"mazzulpe-{version.replace('~', '-')}-linux-x86_64"
    files = [f"{name}.tar.gz", f"mazzulpe_{version}_amd64.deb"]
    whole, root = f"{made}/{name}", f"{made}/root"
    programs(whole, built)
    shutil.copytree(whole, f"{root}/usr", symlinks=True)
    told = {"version": version, "glibc": glibc(whole), "gate": gate_line(built)}
    pc = pathlib.Path(whole, "lib/pkgconfig/mazzulpe.pc")
    pc.write_text(pc.read_text(encoding="utf-8").replace("prefix=/usr\n", "prefix=${pcfiledir}/../..\n"), encoding="utf-8")
    pages(whole)
    told |= {"archive": files[0], "folder": name, "debian": files[1], "licences": licences(whole)}
    pathlib.Path(whole, "README.md").write_text(filled(told), encoding="utf-8")
    documents(whole, f"{root}/usr/share/doc/mazzulpe")
    for path in [pathlib.Path(made), *tree(made)]:
        if path.is_dir():
            os.chmod(path, 0o755)
    archive(whole, f"{to}/{files[0]}", epoch())
    if not shutil.which("dpkg-deb"):
        return files[:1]
    debian(root, f"{to}/{files[1]}", epoch(), told)
    return files


def dist(built, to):
    """Makes the packages in this folder, and says so."""
    missing = [path for path in built if not os.path.exists(f"{TOP}/{path}")]
    if missing:
        raise Failed(f"{', '.join(missing)} isn't built yet: tools/gate.sh makes it, or `./procd` and tools/archive.py")
    os.makedirs(to, exist_ok=True)
    with tempfile.TemporaryDirectory(prefix="dist-") as made:
        files = packed(built, to, made)
    with open(f"{to}/SHA256SUMS", "w", encoding="utf-8") as it:
        it.writelines(f"{sum_of(f'{to}/{file}')}  {file}\n" for file in files)
    for file in files:
        print(f"{to}/{file}")
    if len(files) == 1:
        print("Debian package: left out, dpkg-deb isn't there")
    print(gate_line(built))


def main():
    given = argparse.ArgumentParser(usage=__doc__)
    given.add_argument("--unproved", action="store_true")
    given.add_argument("--to", default=f"{TOP}/dist")
    given.add_argument("--passed")
    words = given.parse_args()
    try:
        if words.passed is not None:
            note(words.passed)
        else:
            dist(UNPROVED if words.unproved else BUILT, words.to)
    except (Failed, OSError) as error:
        print(f"dist: {error}", file=sys.stderr)
        return 70
    return 0


if __name__ == "__main__":
    sys.exit(main())
