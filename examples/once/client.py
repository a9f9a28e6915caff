#!/usr/bin/env python3
"""A client that makes each payment once, though `procd` is killed again and again.

  client.py [--payments N] [--kills N] [--seed N] [--procd PROCD] [--control]

It numbers its payments, calls `pay` with all that it has no answer to, and reads which are told. After each kill it calls the
rest again, under their own numbers: those too that had committed before their answers came. In the end the accounts are
what the payments come to, each made once. --control: each call has a new number, so that payments are made twice, and the
accounts have to show it.
"""
import argparse
import collections
import pathlib
import random
import re
import subprocess
import sys
import tempfile

HERE = pathlib.Path(__file__).resolve().parent
ACCOUNTS, AMOUNT = 10, 1_000_000
COMPONENT = "dc 60000 1000000\n"
TOLD = re.compile(r"told (\d+) (.+)\n")
ROW = re.compile(r"^row 0/0/(\d+) (\d+)$", re.MULTILINE)


def script_of(folder, calls):
    """A script that makes these calls."""
    script = folder / "script"
    script.write_text(COMPONENT + "".join(f"{call}\n" for call in calls))
    return script


def words(options, folder, calls, *more):
    return [options.procd, "run", "--log", folder / "log", *more, HERE / "once.o", script_of(folder, calls)]


def answered(options, folder, calls, last):
    """Which of these calls are told, by their places, until the program is killed, once it has told so many, or at its end; and
    whether it was killed."""
    process = subprocess.Popen(words(options, folder, calls, "--tell"), stdout=subprocess.DEVNULL, stderr=subprocess.PIPE, text=True)
    told = {}
    for line in process.stderr:
        if said := TOLD.fullmatch(line):
            told[int(said[1])] = said[2]
        if len(told) == last:
            process.kill()
    return told, process.wait() == -9


def paid(options, folder, payments, draw):
    """Makes all payments, through kills: how many of these there were, and how many calls."""
    waiting, kills, calls = dict(enumerate(payments)), 0, 0
    while waiting:
        numbers = list(waiting)
        own = {place: number + (calls if options.control else 0) for place, number in enumerate(numbers)}
        lines = [f"call pay {own[place]} {source} {target} {amount}" for place, (source, target, amount) in enumerate(waiting.values())]
        last = draw.randrange(1, len(lines) // 2 + 2) if kills < options.kills else None
        told, killed = answered(options, folder, lines, last)
        kills, calls = kills + killed, calls + len(lines)
        for place, said in told.items():
            if said != "committed":
                sys.exit(f"{lines[place]}: {said}")
            del waiting[numbers[place]]
        if not told and not killed:
            sys.exit("nothing is told")
    return kills, calls


def balances(payments):
    """What the accounts have where each payment was made once."""
    has = collections.Counter({account: AMOUNT for account in range(ACCOUNTS)})
    for source, target, amount in payments:
        has[source] -= amount
        has[target] += amount
    return has


def main():
    options = argparse.ArgumentParser(usage=__doc__)
    options.add_argument("--payments", type=int, default=20000)
    options.add_argument("--kills", type=int, default=20)
    options.add_argument("--seed", type=int, default=1)
    options.add_argument("--procd", default=HERE.parents[1] / "procd")
    options.add_argument("--control", action="store_true")
    options = options.parse_args()
    draw = random.Random(options.seed)
    payments = [(*draw.sample(range(ACCOUNTS), 2), draw.randrange(1, 10)) for _ in range(options.payments)]
    with tempfile.TemporaryDirectory() as name:
        folder = pathlib.Path(name)
        deposits = [f"first deposit {account} {AMOUNT}" for account in range(ACCOUNTS)]
        subprocess.run(words(options, folder, deposits), check=True, stdout=subprocess.DEVNULL)
        kills, calls = paid(options, folder, payments, draw)
        rows = subprocess.run(words(options, folder, []), check=True, capture_output=True, text=True).stdout
    once = {int(account): int(amount) for account, amount in ROW.findall(rows)} == balances(payments)
    print(f"{kills} kills, {calls} calls of {len(payments)} payments: {'each made once' if once else 'some made twice'}")
    sys.exit(once == options.control)


if __name__ == "__main__":
    main()
