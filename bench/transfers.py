"""A script of moves between two records at random, how many of them a second `procd run` makes, and SQLite to set beside
it."""
import pathlib
import random
import subprocess
import sys
import time

TOP = pathlib.Path(__file__).resolve().parent.parent
sys.path.append(str(TOP / "tools"))

from procedures import MOVE, PUT  # noqa: E402

PROCD = TOP / "crates" / "procd" / "out" / "procd"
SQLITE = TOP / "bench" / "baseline" / "sqlite.rs"
RECORDS, AMOUNT = 1000, 1_000_000


def procedure(text, dc):
    """A procedure of data component 0, over this one, by its name with the number behind."""
    name = text.split()[1]
    return text.replace(f"proc {name} ", f"proc {name}{dc} ").replace(" 0 0 $", f" {dc} 0 $")


def script(moves, dcs=1):
    """A script of so many moves, each between two records at random, by turns of each of so many data components."""
    draw = random.Random(moves)
    lines = [f"dc {RECORDS} {4 * moves + RECORDS}\n"] * dcs
    lines += [procedure(text, dc) for dc in range(dcs) for text in (PUT, MOVE)]
    lines += [f"first put{dc} {key} {AMOUNT}\n" for dc in range(dcs) for key in range(RECORDS)]
    lines += ["call move%d %d %d 1\n" % (move % dcs, *draw.sample(range(RECORDS), 2)) for move in range(moves)]
    return "".join(lines)


class Scripts:
    """A script of so many moves and one of none, in files."""

    def __init__(self, folder, moves, dcs=1):
        self.moves, self.with_moves, self.without = moves, folder / f"{moves}-{dcs}.txt", folder / f"none-{dcs}.txt"
        self.with_moves.write_text(script(moves, dcs))
        self.without.write_text(script(0, dcs))


def took(words, status):
    """Seconds of a command that ends so, and what it printed."""
    began = time.perf_counter()
    ran = subprocess.run(words, stdin=subprocess.DEVNULL, capture_output=True, text=True)
    seconds = time.perf_counter() - began
    if ran.returncode != status:
        sys.exit(f"{words[0]} ended with {ran.returncode}: {ran.stderr or ran.stdout}")
    return seconds, ran.stdout


def moves_a_second(program, scripts, workers, log=None, options=()):
    """How many of the moves, each of which has to commit, are made a second: by how much longer the run takes than one of
    none, where one that is refused once its script is loaded (by no workers) takes off what it takes longer to load."""

    def running(text):
        words = [program, "run", *options, "--workers", str(workers), text]
        if log is None:
            return took(words, 0)
        ran = took([*words, "--log", log], 0)
        log.unlink()
        return ran

    def loading(text):
        return took([program, "run", *options, "--workers", "0", text], 1)[0]

    seconds, printed = running(scripts.with_moves)
    committed = sum(line.startswith("call ") and line.endswith(" committed") for line in printed.splitlines())
    if committed != scripts.moves:
        sys.exit(f"{program} committed {committed} of {scripts.moves} moves")
    seconds -= running(scripts.without)[0]
    return scripts.moves / (seconds - (loading(scripts.with_moves) - loading(scripts.without)))


def build_sqlite(peer):
    """Builds the program that makes the same moves in SQLite."""
    build = ["rustc", "--edition", "2024", "-O", "-l", "sqlite3", "-o", peer, SQLITE]
    if subprocess.run(build, stderr=subprocess.DEVNULL).returncode:
        sys.exit("rustc didn't build bench/baseline/sqlite.rs over the system's library")
