#!/usr/bin/env python3
"""Times restoring the accounts of a ledger in a file. See README.md.

The program only restores, as `farebox rebuild` does before it prints lines.

Status 1: another number of accounts, taps or corrections was restored than the file has, or the program was not built
or failed.
"""

import argparse
import os
import random
import sqlite3
import statistics
import subprocess
import sys
import tempfile
from typing import NamedTuple

sys.dont_write_bytecode = True
from programs import ROOT, built, on_one_core
from oracle.loads import MONDAY, trip_taps
from oracle.rules import service_day

FARES = f"{ROOT}/examples/sample.toml"
STANDS_ON = "pay_rules pay_editions pay_book pay_ledger sqlite"
TAPS_EACH, ONE_IN = 4, 10
KINDS = ("IN", "OUT", "BUS")
CREDIT, PENCE = 2, 100
# As docs/FILES.md has them.
TABLES = """
CREATE TABLE meta (name TEXT NOT NULL PRIMARY KEY, version INTEGER NOT NULL) STRICT;
CREATE TABLE postings2 (id INTEGER PRIMARY KEY AUTOINCREMENT, account INTEGER NOT NULL, week INTEGER NOT NULL, \
through INTEGER NOT NULL, version INTEGER NOT NULL, due INTEGER NOT NULL, amount INTEGER NOT NULL, \
edition INTEGER NOT NULL, UNIQUE (account, week, through, version)) STRICT;
CREATE TABLE shares2 (posting INTEGER NOT NULL REFERENCES postings2 (id), operator INTEGER NOT NULL, \
amount INTEGER NOT NULL, PRIMARY KEY (posting, operator)) STRICT;
CREATE TABLE taps (account INTEGER NOT NULL, reader INTEGER NOT NULL, seq INTEGER NOT NULL, utc INTEGER NOT NULL, \
day INTEGER NOT NULL, second INTEGER NOT NULL, place INTEGER NOT NULL, kind INTEGER NOT NULL, \
PRIMARY KEY (account, reader, seq)) STRICT;
CREATE TABLE fixes (account INTEGER NOT NULL, staff INTEGER NOT NULL, seq INTEGER NOT NULL, what INTEGER NOT NULL, \
a INTEGER NOT NULL, b INTEGER NOT NULL, c INTEGER NOT NULL, d INTEGER NOT NULL, e INTEGER NOT NULL, \
PRIMARY KEY (account, staff, seq)) STRICT;
INSERT INTO meta VALUES ('farebox', 2);
"""


class Took(NamedTuple):
    """The seconds that restoring took, and the most memory in bytes that the program held."""

    seconds: float
    peak: int


def row(tap):
    # In winter London's clocks show UTC.
    stamp = (tap.utc, service_day(tap.utc), tap.utc % 86_400)
    return (tap.account, tap.reader, tap.seq, *stamp, tap.place, KINDS.index(tap.kind))


def write(path, accounts, seed):
    """A ledger with four taps of each account in the order of a close, and a Credit of each tenth; returns how many
    taps and corrections."""
    draw = random.Random(seed)
    with sqlite3.connect(path) as db:
        db.executescript(TABLES)
        taps = [row(tap) for account in range(1, accounts + 1) for tap in sorted(trip_taps(draw, account, TAPS_EACH))]
        fixes = [
            (account, 1, account, CREDIT, MONDAY, PENCE, 0, 0, 0) for account in range(ONE_IN, accounts + 1, ONE_IN)
        ]
        db.executemany(f"INSERT INTO taps VALUES ({', '.join('?' * 8)})", taps)
        db.executemany(f"INSERT INTO fixes VALUES ({', '.join('?' * 9)})", fixes)
    db.close()
    return len(taps), len(fixes)


def built_program():
    """The program, whose one run where it is built is over an empty ledger."""
    with tempfile.TemporaryDirectory() as folder:
        return built("restore", STANDS_ON, [FARES, f"{folder}/ledger.db"])


def restore(program, path, wanted):
    """One run; its peak is that of the whole program, with the page cache of the file."""
    with tempfile.TemporaryFile() as told, tempfile.TemporaryFile() as took:
        started = subprocess.Popen(
            [program, FARES, path], stdin=subprocess.DEVNULL, stdout=told, stderr=took, preexec_fn=on_one_core
        )
        _, status, used = os.wait4(started.pid, 0)
        told.seek(0)
        took.seek(0)
        answer = tuple(map(int, told.read().split()))
        if status or answer != wanted:
            sys.exit(f"restore: status {status}, and {answer} was restored where the ledger has {wanted}")
        return Took(int(took.read()) / 1e9, 1_024 * used.ru_maxrss)


def main():
    words = argparse.ArgumentParser(description=__doc__)
    words.add_argument("--accounts", type=int, nargs="+", default=[1_000, 10_000, 100_000])
    words.add_argument("--seed", type=int, default=1)
    words.add_argument("--rounds", type=int, default=5)
    words.add_argument("--program", help="a program to measure, in the place of the built one")
    words = words.parse_args()
    program = words.program or built_program()
    print(f"{words.rounds} rounds on one core; medians\n")
    print("| Accounts | Taps | Corrections | Restored in | Taps and corrections a second | The program's peak |")
    print("|---|---|---|---|---|---|")
    with tempfile.TemporaryDirectory() as folder:
        for accounts in words.accounts:
            path = f"{folder}/{accounts}.db"
            taps, fixes = write(path, accounts, words.seed)
            took = [restore(program, path, (accounts, taps, fixes)) for _ in range(words.rounds)]
            middle, peak = statistics.median(it.seconds for it in took), max(it.peak for it in took) / 2**20
            print(
                f"| {accounts:,} | {taps:,} | {fixes:,} | {middle:.3f} s | "
                f"{(taps + fixes) / middle:,.0f} | {peak:.1f} MiB |"
            )


if __name__ == "__main__":
    main()
