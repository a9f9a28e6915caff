#!/usr/bin/env python3
"""Tries docs/EMBEDDING.md as a new user would: installs into a folder of its own, writes the page's files into an empty
folder, gives the page's commands there word for word, and compares what is printed with what the page says.

usage: try_page.py [C++ COMPILER]

With a compiler it does the same once more by that one, with the program as it stands, over a PREFIX that is relative and has a
space in it, whose flags a shell has to read as pkg-config quotes them.
"""
import os
import pathlib
import re
import shutil
import subprocess
import sys
import tempfile
import time

HERE = pathlib.Path(__file__).resolve().parent


def shell(commands, folder, env):
    """What the commands print; each has to end well."""
    return subprocess.run(["sh", "-ec", commands], cwd=folder, env=env, check=True, stdout=subprocess.PIPE, text=True).stdout


def told(what, said, printed):
    """Whether it printed something else than the page says; and says so."""
    print(f"{what}: as it says" if said == printed else f"{what}: DIFFERS, printed\n{said}", flush=True)
    return said != printed


def by_cxx(compiler, use, folder, home):
    """The page's commands by a C++ compiler, over an installation in a relative folder with a space."""
    prefix = pathlib.Path(home, "a prefix")
    env = {**os.environ, "HOME": home, "PKG_CONFIG_PATH": f"{prefix}/lib/pkgconfig", "PREFIX": os.path.relpath(prefix, HERE)}
    shell('make -s install PREFIX="$PREFIX"', HERE, env)
    shutil.copyfile(f"{folder}/main.c", f"{folder}/main.cpp")
    with_flags = re.search(r"^cc .*(\$\(pkg-config .*\))$", use, re.MULTILINE)
    commands = use.replace("$HOME/mazzulpe/", "$HOME/a prefix/")
    commands = re.sub(r"^export .*$", "", commands, flags=re.MULTILINE)
    flags = "-Wall -Wextra -pedantic -Werror"
    commands = commands.replace(with_flags[0], f'eval "{compiler} {flags} -o main main.cpp {with_flags[1]}"')
    return shell(commands, folder, env)


class Page:
    """What the page says: commands (to unpack a package, to build here, to use either), what they print, and two files."""

    def __init__(self):
        text = (HERE.parent / "docs/EMBEDDING.md").read_text()
        blocks = re.findall(r"```(\w*)\n(.*?)```", text, re.DOTALL)
        self.unpack, self.build, self.use = [block for kind, block in blocks if kind == "sh"]
        self.procedures, self.program = [block for kind, block in blocks if kind == "c"]
        (self.printed,) = [block for kind, block in blocks if kind == ""]

    def written(self, home):
        """A folder with the page's two files."""
        folder = pathlib.Path(home, "bank")
        folder.mkdir()
        (folder / "bank.c").write_text(self.procedures)
        (folder / "main.c").write_text(self.program)
        return folder


def main():
    page = Page()
    with tempfile.TemporaryDirectory() as home:
        folder = page.written(home)
        env = {**os.environ, "HOME": home}
        shell(page.build, HERE.parent, env)
        began = time.monotonic()
        wrong = told("page", shell(page.use, folder, env), page.printed)
        print(f"page: {time.monotonic() - began:.1f} s from the two files to what it prints")
        for compiler in sys.argv[1:]:
            wrong += told(f"page by {compiler}, PREFIX with a space", by_cxx(compiler, page.use, folder, home), page.printed)
    return wrong != 0


if __name__ == "__main__":
    sys.exit(main())
