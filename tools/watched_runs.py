#!/usr/bin/env python3
"""What `procd run` tells of a run by `--stats`, `--metrics` and `--trace`: the same, and what the answers say.

usage: tools/watched_runs.py [--procd PATH]

Figures by procedure, waits, resends and syncs against the lines of the calls; the frames of the log's file, which are as
few where a run is watched; a scrape of the metrics while the run lasts and behind it; each phase of the trace within its
call, and no two calls of a lane at once; files that aren't the program's are left alone. A line for each that is otherwise,
and one with the count; the status is 1 where one was.
"""
import argparse
import collections
import json
import os
import pathlib
import pty
import re
import struct
import subprocess
import sys
import tempfile
import threading
import time

from built import PROCD
from procedures import BAD, GET, MOVE, PUT

SCRIPT = "dc 100 1048576\n" + PUT + GET + BAD + MOVE + "first put 1 1000\nfirst put 2 1000\n"
FEW = SCRIPT + "call get 1\ncall get 9\ncall move 1 2 5\ncall bad 2\ncall put 3 7\ncall move 2 1 1\n"
# What those of FEW are answered: by procedure, in the order of their numbers.
FEW_SAID = [
    "procedure put 1 committed 1 aborted 0 in doubt 0 blocked 0",
    "procedure get 2 committed 1 aborted 1 in doubt 0 blocked 0",
    "procedure bad 1 committed 0 aborted 1 in doubt 0 blocked 0",
    "procedure move 2 committed 2 aborted 0 in doubt 0 blocked 0",
    "waits for locks 0",
    "resends 0",
]
MOVES = 2_000
OFTEN = 3_000
PHASES = ("waiting", "asking", "carrying", "keeping")
SAMPLE = re.compile(r"([a-z_]+)((?:\{[a-z]+=\"[^\"]+\"\})?) (\d+(?:e-?\d+)?)")


class Checks:
    """What was seen to be otherwise, and how many things were looked at."""

    def __init__(self, procd):
        self.procd, self.count, self.wrong = procd, 0, []

    def same(self, what, found, wanted):
        self.count += 1
        if found != wanted:
            self.wrong.append(f"{what}: {found!r}, not {wanted!r}")

    def run(self, words, script):
        """Runs calls; the lines of both streams."""
        ran = subprocess.run(
            [self.procd, "run", *map(str, words), "-"], input=script, capture_output=True, text=True, check=False
        )
        self.same(f"the status of {words}", ran.returncode, 0)
        return ran.stdout.splitlines(), ran.stderr.splitlines()


def outcomes(lines):
    """How many calls were answered how, by their lines."""
    words = (line.split()[2] for line in lines if line.startswith("call "))
    return collections.Counter({"in": "in_doubt", "noroom": "aborted"}.get(word, word) for word in words)


def samples(text):
    """The samples of a scrape, each family with its help and its type before it; None where it is written otherwise."""
    found, named, typed = {}, None, {}
    if not text.endswith("\n"):
        return None
    for line in text.splitlines():
        if line.startswith("# HELP "):
            named = line.split()[2]
        elif line.startswith("# TYPE "):
            if line.split()[2] != named:
                return None
            typed[named] = line.split()[3]
        else:
            sample = SAMPLE.fullmatch(line)
            if sample is None or named is None or not sample[1].startswith(named) or named not in typed:
                return None
            found[sample[1] + sample[2]] = float(sample[3])
    return found


def figures(checks, folder):
    """Figures by procedure, of a log's file, and of what was sent again."""
    lines, told = checks.run(["--stats", "--workers", 1], FEW)
    checks.same("figures by procedure", [line for line in told if line in FEW_SAID], FEW_SAID)
    log = folder / "calls.log"
    lines, told = checks.run(["--stats", "--workers", 1, "--log", log], FEW)
    checks.same("bytes of the log", [line for line in told if line.startswith("log bytes ")], [f"log bytes {log.stat().st_size}"])
    syncs = [int(line.split()[1]) for line in told if line.startswith("syncs ")]
    checks.same("a sync or more for each call of one worker", len(syncs) == 1 and syncs[0] >= 6, True)
    full = "dc 10 5\nproc look 1\nslot read 0 0 $0\n mov r1, 0\n call 1\n mov r0, 0\n exit\nend\n" + "call look 1\n" * 9
    for tries in (1, 3):
        lines, told = checks.run(["--stats", "--workers", 2, "--tries", tries], full)
        doubted = outcomes(lines)["in_doubt"]
        checks.same("calls behind a full component", doubted, 4)
        checks.same(f"resends of {tries} tries", [line for line in told if line.startswith("resends")], [f"resends {4 * (tries - 1)}"])


def frames_of(path):
    """How many frames a log's file has."""
    data, place, count = path.read_bytes(), 0, 0
    while place < len(data):
        (length,) = struct.unpack_from("<Q", data, place + 8)
        place, count = place + 24 + length, count + 1
    return count


def drained(terminal):
    """Reads what a terminal is told, to its end."""
    try:
        while os.read(terminal, 65536):
            pass
    except OSError:
        pass


def frames_by(checks, folder, words):
    """How many frames the log has of moves between a hundred records by 16 workers; on a terminal where no words are given."""
    log, script = folder / "moves.log", folder / "moves.txt"
    log.unlink(missing_ok=True)
    script.write_text(
        SCRIPT.replace("first put 1 1000\nfirst put 2 1000\n", "".join(f"first put {k} 1000\n" for k in range(100)))
        + "".join(f"call move {i % 100} {(i * 7 + 1) % 100} 1\n" for i in range(OFTEN))
    )
    terminal, error = pty.openpty() if words is None else (None, subprocess.DEVNULL)
    if terminal:
        threading.Thread(target=drained, args=(terminal,), daemon=True).start()
    asked = [checks.procd, "run", "--workers", "16", "--log", log, *(words or []), script]
    ran = subprocess.run(list(map(str, asked)), stdout=subprocess.DEVNULL, stderr=error, check=False)
    checks.same(f"the status of {OFTEN} moves", ran.returncode, 0)
    if terminal:
        os.close(error)
    return frames_of(log)


def group_commit(checks, folder):
    """A run that is watched has about as many frames as one that isn't."""
    plain = min(frames_by(checks, folder, []) for _ in range(3))
    for words in (["--stats"], ["--tell"], ["--metrics", folder / "m.prom"], ["--trace", folder / "t.json"], None):
        frames = min(frames_by(checks, folder, words) for _ in range(3))
        if frames > 1.2 * plain + 12:
            checks.wrong.append(f"{frames} frames by {words or 'a terminal'}, {plain} unwatched")
        checks.count += 1


def metrics_fit(checks, text, lines, told):
    """A scrape behind a run says what its lines and figures say."""
    found = samples(text)
    checks.same("a scrape's form", found is not None, True)
    if found is None:
        return
    counted = outcomes(lines)
    for outcome in ("committed", "aborted", "in_doubt", "blocked", "refused"):
        checks.same(f"calls {outcome}", found[f'procd_calls_answered_total{{outcome="{outcome}"}}'], counted[outcome])
    buckets = [value for name, value in found.items() if "_bucket" in name]
    checks.same("buckets rise", buckets, sorted(buckets))
    checks.same("calls of the last bucket", buckets[-1], found["procd_call_duration_seconds_count"])
    checks.same("calls with a duration", buckets[-1], found["procd_calls_wanted"] - counted["refused"] - counted["blocked"])
    for line in told:
        name, _, value = line.rpartition(" ")
        metric = {"waits for locks": "procd_lock_waits_total", "resends": "procd_resends_total"}.get(name)
        if metric:
            checks.same(name, found[metric], float(value))
        metric = {"syncs": "procd_log_syncs_total", "log bytes": "procd_log_bytes"}.get(name)
        if metric:
            checks.same(name, found.get(metric), float(value))


def metrics(checks, folder):
    """The metrics behind a run, and in the middle of one."""
    path = folder / "calls.prom"
    for log in ([], ["--log", folder / "metrics.log"]):
        lines, told = checks.run(["--stats", "--metrics", path, *log], FEW)
        metrics_fit(checks, path.read_text(), lines, told)
    script = SCRIPT + "call move 1 2 1\ncall get 1\n" * 15_000
    whole = answered = 0
    with tempfile.TemporaryFile("w+") as given:
        given.write(script)
        given.seek(0)
        with subprocess.Popen(
            [checks.procd, "run", "--metrics", path, "--log", folder / "long.log", "-"], stdin=given, stdout=subprocess.DEVNULL
        ) as process:
            while process.poll() is None:
                found = samples(path.read_text())
                checks.same("a scrape in the middle", found is not None, True)
                now = found['procd_calls_answered_total{outcome="committed"}'] if found else 0
                whole += answered < now < 30_000
                answered = now
                time.sleep(0.02)
    checks.same("a scrape in the middle of a run that has some calls", whole > 0, True)
    checks.same("nothing is left beside it", (folder / "calls.prom.new").exists(), False)


def trace_fits(checks, path, lines, told):
    """Each call has a span whose phases fill it, and no two of a lane meet."""
    trace = json.loads(path.read_text())
    calls = [event for event in trace["traceEvents"] if event.get("cat") == "call"]
    phases = [event for event in trace["traceEvents"] if event.get("cat") == "phase"]
    said = {int(line.split()[1]): line.split()[2] for line in lines if line.startswith("call ")}
    checks.same("calls left out", trace["otherData"]["left_out"], len(said) - len(calls))
    checks.same("calls of the trace", len(calls), len(said))
    short = {event["args"]["call"]: event["args"]["outcome"].replace("in_doubt", "in") for event in calls}
    checks.same("outcomes", short, said)
    within, waiting, until, last = collections.Counter(), 0, {}, None
    for event in trace["traceEvents"][1:]:
        begun, end = event["ts"], round(event["ts"] + event["dur"], 3)
        if event["cat"] == "call":
            checks.same("a lane that is free", until.get(event["tid"], 0) <= begun, True)
            until[event["tid"]], last, place = end, event, begun
        else:
            checks.same("a phase of its call", (event["tid"], event["ts"]), (last["tid"], place))
            place = end
            within[event["name"]] += 1
            waiting += event["name"] == "waiting"
            checks.same("the call's end", end <= round(last["ts"] + last["dur"], 3), True)
    checks.same("names of phases", set(within) <= set(PHASES), True)
    checks.same("phases", len(phases) >= 3 * len(calls), True)
    checks.same("waits", [line for line in told if line.startswith("waits")], [f"waits for locks {waiting}"])
    return waiting


def traces(checks, folder):
    """The trace of calls apart, and of calls in each other's way."""
    path = folder / "calls.json"
    lines, told = checks.run(["--stats", "--workers", 1, "--trace", path], FEW)
    trace_fits(checks, path, lines, told)
    names = [event["name"] for event in json.loads(path.read_text())["traceEvents"] if event.get("cat") == "call"]
    checks.same("names", names, ["get", "get", "move", "bad", "put", "move"])
    script = SCRIPT + "call move 1 2 1\n" * MOVES
    trace_fits(checks, path, *checks.run(["--stats", "--workers", 4, "--trace", path, "--log", folder / "moves.log"], script))
    # Behind the gets the component is full: of each record one call sends its wire a thousand times, and the other waits.
    script = f"dc 100 {MOVES}\n" + PUT + GET + "call get 1\n" * MOVES + "".join(f"call put {k} 1\n" * 2 for k in range(10))
    waits = trace_fits(checks, path, *checks.run(["--stats", "--workers", 4, "--tries", 1000, "--trace", path], script))
    checks.same("calls in each other's way wait", waits > 0, True)


def foreign(checks, folder):
    """What isn't the program's is left alone, and told once."""
    path = folder / "notes.txt"
    for option, what in (("--metrics", "metrics"), ("--trace", "trace")):
        path.write_text("mine\n")
        _, told = checks.run([option, path], FEW)
        checks.same(f"a file that isn't {what}", (path.read_text(), told), ("mine\n", [f"cannot write {path}: it isn't a run's {what}"]))
        gone = folder / "gone" / "file"
        _, told = checks.run([option, gone], FEW)
        checks.same(f"{what} in no folder", len(told) == 1 and told[0].startswith(f"cannot write {gone}: "), True)
        os.makedirs(folder / "taken", exist_ok=True)
        _, told = checks.run([option, folder / "taken"], FEW)
        checks.same(f"{what} in a folder's place", told, [f"cannot write {folder / 'taken'}: it is no file"])
        path.write_text("#" if option == "--metrics" else "{")
        _, told = checks.run([option, path], FEW)
        checks.same(f"{what} over one byte", (len(path.read_text()), told), (1, [f"cannot write {path}: it isn't a run's {what}"]))


def links(checks, folder):
    """A link stays one, and the file that it leads to is written; a draft is made new."""
    for option, what in (("--metrics", "metrics"), ("--trace", "trace")):
        target, link, other = folder / f"{what}.file", folder / f"{what}.link", folder / f"{what}.other"
        target.write_bytes(b"")
        link.symlink_to(target)
        _, told = checks.run([option, link], FEW)
        checks.same(f"{what} through a link", (link.is_symlink(), target.stat().st_size > 100, told), (True, True, []))
        other.write_text("mine\n")
        draft = pathlib.Path(f"{target}.new")
        draft.symlink_to(other)
        _, told = checks.run([option, target], FEW)
        left = (draft.is_symlink(), other.read_text(), told)
        checks.same(f"{what} beside a link", left, (True, "mine\n", [f"cannot write {target}.new: it isn't a run's {what}"]))
        draft.unlink()
        lost = folder / f"{what}.lost"
        lost.symlink_to(folder / "nothing")
        _, told = checks.run([option, lost], FEW)
        checks.same(f"{what} through a link to nothing", (lost.is_symlink(), len(told)), (True, 1))
        _, told = checks.run([option, "/dev/stdout"], FEW)
        checks.same(f"{what} into a pipe", told, ["cannot write /dev/stdout: it is no file"])
        checks.same("/dev/stdout", pathlib.Path("/dev/stdout").is_symlink(), True)


def main():
    words = argparse.ArgumentParser(description=__doc__, formatter_class=argparse.RawDescriptionHelpFormatter)
    words.add_argument("--procd", default=str(PROCD))
    checks = Checks(words.parse_args().procd)
    for section in (figures, group_commit, metrics, traces, foreign, links):
        with tempfile.TemporaryDirectory() as folder:
            section(checks, pathlib.Path(folder))
    for line in checks.wrong[:20]:
        print(line)
    print(f"watched_runs: {checks.count:,} looked at, {len(checks.wrong) or 'nothing'} wrong")
    return 1 if checks.wrong else 0


if __name__ == "__main__":
    sys.exit(main())
