#!/usr/bin/env python3
"""Builds the library for C over the libraries that `rt ci` leaves: crates/mazzulpe/out/libmazzulpe.a, as `rt lib` does
in crates/mazzulpe, which would prove all below once more, since it takes nothing that it hasn't built itself.

  tools/archive.py              that one
  tools/archive.py --unproved   out-unproved/libmazzulpe.a, compiled without any proof in a minute: to try the interface

The kit's `rattle build` proves the functions of `mazzulpe` anew and takes each library below as it was proved; where
one isn't there, or was built over another state of a library below it, nothing is made.

Without proofs the library's source is compiled as a program is by tools/unproved.py, whose `main` calls each of its functions;
of the module that the kit makes of that the functions are then made visible, and `main` is left out.
"""
import os
import re
import shutil
import subprocess
import sys
import tempfile

from built import TOP, uses
from unproved import CHECKED, Failed, below, kit, module_of

CRATE = "mazzulpe"
# Behind the library's source: calls each function that it exports.
MAIN = """
fn main(rt: HostRuntime) {
    let mut frame = Frame::zeros();
    let at = &mut frame as *mut Frame;
    frame.word = (mazzulpe_size() + mazzulpe_frame_size()) as u64 + u64::from(mazzulpe_version());
    unsafe {
        mazzulpe_open(rt.alloc(), at);
        mazzulpe_call(at);
        mazzulpe_close(at);
    }
}
"""


def library(name):
    """Where a crate's proved library lies."""
    return f"{TOP}/crates/{name}/out/rlib/{name}.rlib"


def words(kit_at, made):
    """What `rattle build` is called with."""
    known = uses()
    ours = below(CRATE, known)
    missing = [name for name in ours if not os.path.isdir(library(name))]
    if missing:
        raise Failed(f"`rt ci` left no library of {', '.join(missing)}")
    said = ["--crate-name", CRATE, "src/lib.rt", "--crate-type", "staticlib", "--links", f"{CRATE}="]
    for name in dict.fromkeys(["core", "std", *known[CRATE]]):
        said += ["--extern", f"{name}={library(name) if name in ours else f'{kit_at}/rlibs/{name}.rlib'}"]
    for kept in [os.path.dirname(library(name)) for name in ours] + [f"{kit_at}/rlibs"]:
        said += ["-L", f"dependency={kept}"]
    said += ["--toolchain", f"{kit_at}/toolchain"]
    said += ["--antt-project", f"{kit_at}/rattle/logic/antt-project.json", "--logic-built", f"{kit_at}/logic_built"]
    return [*said, "-o", made]


def proved(kit_at, made):
    """Builds the library over what is proved; answers the kit's status."""
    called = [f"{kit_at}/bin/rattle", "build", *words(kit_at, made)]
    return subprocess.run(called, cwd=f"{TOP}/crates/{CRATE}", check=False).returncode


def ran(tool, place):
    """Runs a tool of the kit in the folder."""
    done = subprocess.run(tool, cwd=place, capture_output=True, text=True, check=False)
    if done.returncode:
        raise Failed(f"{os.path.basename(tool[0])} ended with {done.returncode}\n{done.stderr}")


def unproved(kit_at, made):
    """Compiles the library without its proofs."""
    with tempfile.TemporaryDirectory(prefix="archive-") as place:
        os.mkdir(f"{place}/src")
        shutil.copyfile(f"{TOP}/crates/{CRATE}/src/lib.rt", f"{place}/src/main.rt")
        with open(f"{place}/src/main.rt", "a", encoding="utf-8") as it:
            it.write(MAIN)
        left_out = (CHECKED, "-O0", "-fPIE", "-o", "module.bc", "module.o")
        given = [word for word in module_of(CRATE, f"{place}/src/main.rt", kit_at, place) if word not in left_out]
        clang = f"{kit_at}/toolchain/bin/clang"
        as_text = ["-x", "ir", "-S", "-emit-llvm", "-Xclang", "-disable-llvm-passes"]
        ran([clang, *as_text, "module.bc", "-o", "module.ll"], place)
        with open(f"{place}/module.ll", encoding="utf-8") as it:
            text = it.read().replace("define i32 @main()", "define internal i32 @main()")
        text = re.sub(rf'(?m)^define internal (.*)@"{CRATE}::({CRATE}_\w+)"', r"define \1@\2", text)
        text = re.sub(rf'@"{CRATE}::({CRATE}_\w+)"', r"@\1", text)
        with open(f"{place}/module.ll", "w", encoding="utf-8") as it:
            it.write(text)
        ran([clang, *given, "module.ll", "-o", "module.o", "-O1", "-fPIC"], place)
        if os.path.exists(made):
            os.remove(made)
        ran([f"{kit_at}/toolchain/bin/llvm-ar", "rcs", made, "module.o"], place)
    return 0


def main():
    without = sys.argv[1:] == ["--unproved"]
    if len(sys.argv) > 1 and not without:
        print(__doc__, file=sys.stderr)
        return 2
    made = f"{TOP}/out-unproved/lib{CRATE}.a" if without else f"{TOP}/crates/{CRATE}/out/lib{CRATE}.a"
    os.makedirs(os.path.dirname(made), exist_ok=True)
    try:
        kit_at = kit()
        status = unproved(kit_at, made) if without else proved(kit_at, made)
    except (Failed, OSError) as error:
        print(f"archive: {error}", file=sys.stderr)
        return 70
    if status == 0:
        print(made)
    return status


if __name__ == "__main__":
    sys.exit(main())
