#!/usr/bin/env python3
"""Times closes of a day through farebox: a first one, and the same again after a tenth of the accounts had a late tap;
and the same rows through Python's SQLite. See README.md."""

import argparse
import random
import sqlite3
import statistics
import subprocess
import sys
import threading
import time
from typing import NamedTuple

sys.dont_write_bytecode = True
from programs import LONDON, ROOT, asked, on_one_core, peak_bytes
from oracle import rules
from oracle.loads import FARES, MONDAY, DAYS, trip_taps

FARE_FILE, TAPS_EACH, ONE_IN = "sample.toml", 4, 10
AIM_GROWTH, AIM_BESIDE = 11, 1.0
SUNDAY = MONDAY + DAYS - 1


class Load(NamedTuple):
    """The lines of two closes: what stands before each, and the replies to all by the rules."""

    accounts: int
    before: tuple
    replies: tuple


class Took(NamedTuple):
    """The seconds of a close, and the most memory in bytes that was held before it and at its end."""

    seconds: float
    before: int
    after: int


CLOSE = rules.Close(SUNDAY)

# The tables that a close is posted to (docs/FILES.md).
TABLES = """
create table postings2 (id integer primary key autoincrement, account integer not null, week integer not null,
  through integer not null, version integer not null, due integer not null, amount integer not null,
  edition integer not null, unique (account, week, through, version));
create table shares2 (posting integer not null references postings2 (id), operator integer not null,
  amount integer not null, primary key (posting, operator));
create table taps (account integer not null, reader integer not null, seq integer not null, utc integer not null,
  day integer not null, second integer not null, place integer not null, kind integer not null,
  primary key (account, reader, seq));
create table fixes (account integer not null, staff integer not null, seq integer not null, what integer not null,
  a integer not null, b integer not null, c integer not null, d integer not null, e integer not null,
  primary key (account, staff, seq));
"""
READS = (
    "select id, week, through, version, due, amount, edition from postings2 where account = ? order by +id",
    "select posting, operator, amount from shares2 where posting in (select id from postings2 where account = ?)",
    "select reader, seq, utc, day, second, place, kind from taps where account = ?",
    "select staff, seq, what, a, b, c, d, e from fixes where account = ?",
)
POST = """insert into postings2 (account, week, through, version, due, amount, edition) values (?, ?, ?, ?, ?, ?, 4)
  returning id"""
SHARE = "insert into shares2 values (?, ?, ?)"
ARCHIVE = "insert into taps values (?, ?, ?, ?, ?, ?, ?, ?)"


def load(accounts, seed):
    """Four taps of each account by bus and rail on days of one week, then a fifth of each tenth account."""
    draw = random.Random(seed)
    taps = {account: trip_taps(draw, account, TAPS_EACH + 1) for account in range(1, accounts + 1)}
    first = [tap for account in taps for tap in taps[account][:TAPS_EACH]]
    late = [taps[account][TAPS_EACH] for account in taps if account % ONE_IN == 0]
    for part in (first, late):
        draw.shuffle(part)
    kept, ledger = {}, {}
    replies = tuple(
        ([rules.reply(FARES[FARE_FILE], kept, tap) for tap in part], rules.reply(FARES[FARE_FILE], kept, CLOSE, ledger))
        for part in (first, late)
    )
    return Load(accounts, (first, late), replies)


def tell(process, commands, wanted):
    """Sends commands, and compares the replies."""

    def give():
        process.stdin.writelines(rules.line(command).encode() for command in commands)
        process.stdin.flush()

    giving = threading.Thread(target=give)
    giving.start()
    for want in wanted:
        got = process.stdout.readline().decode()
        if got != want:
            sys.exit(f"bench: {got!r} was answered, and by the rules it is {want!r}")
    giving.join()


def close(process, wanted):
    """Closes the Sunday; the time is that from its line to the last line of its reply, which a pipe takes."""
    before, asked = peak_bytes(process), rules.line(CLOSE).encode()
    began = time.perf_counter()
    process.stdin.write(asked)
    process.stdin.flush()
    got = [process.stdout.readline()]
    while got[-1].startswith(b"PAY "):
        got.append(process.stdout.readline())
    took = time.perf_counter() - began
    if b"".join(got).decode() != wanted:
        sys.exit(
            f"bench: a close was answered by {len(got)} lines, the last of "
            f"them {got[-1]!r}, and not by those of the rules"
        )
    return Took(took, before, peak_bytes(process))


def session(program, it):
    """One session with both closes."""
    command = [program, "run", f"{ROOT}/examples/{FARE_FILE}", LONDON]
    with subprocess.Popen(command, stdin=subprocess.PIPE, stdout=subprocess.PIPE, preexec_fn=on_one_core) as process:
        took = []
        for commands, (replies, closed) in zip(it.before, it.replies):
            tell(process, commands, replies)
            took.append(close(process, closed))
        process.stdin.close()
    if process.returncode:
        sys.exit(f"bench: {program} ended with status {process.returncode}")
    return took


def beside(it):
    """The seconds of the same closes through Python and its SQLite, in memory. It prices nothing: in one transaction it
    reads what each account has, by four statements, and adds the rows that are new, one by one."""
    ledger = sqlite3.connect(":memory:", isolation_level=None)
    ledger.executescript(TABLES)
    took, posted = [], set()
    for commands, (_, reply) in zip(it.before, it.replies):
        quotes = [line.split()[1:] for line in reply.splitlines() if line.startswith("PAY ")]
        taps = {int(account): [] for account, *_ in quotes}
        for tap in commands:
            taps[tap.account].append(tap)
        began = time.perf_counter()
        ledger.execute("begin")
        for account, week, through, version, due, amount, *shares in quotes:
            account = int(account)
            for read in READS:
                ledger.execute(read, (account,)).fetchall()
            if (account, version) in posted:
                continue
            posted.add((account, version))
            posting = ledger.execute(POST, (account, int(week), int(through), int(version), int(due), int(amount)))
            (number,) = posting.fetchone()
            for share in shares:
                operator, part = share.split("=")
                ledger.execute(SHARE, (number, int(operator), int(part)))
            for tap in taps[account]:
                day, second = divmod(tap.utc, 86_400)
                kind = ("IN", "OUT", "BUS").index(tap.kind)
                ledger.execute(ARCHIVE, (account, tap.reader, tap.seq, tap.utc, day, second, tap.place, kind))
        ledger.execute("commit")
        took.append(time.perf_counter() - began)
    return took


def report(it, which, rounds):
    """Prints a row for the closes of one kind, and returns the seconds of the middle round."""
    middle = statistics.median(round.seconds for round in rounds)
    before, after = (max(getattr(round, when) for round in rounds) / 2**20 for when in ("before", "after"))
    print(
        f"{it.accounts:>8,}  {which:<6} {middle:>9.3f} s {it.accounts / middle:>18,.0f} "
        f"{1e6 * middle / it.accounts:>13.1f}"
        f" {before:>12.1f} MiB {after:>9.1f} MiB"
    )
    return middle


def main():
    words = argparse.ArgumentParser(description=__doc__)
    words.add_argument("--accounts", type=int, nargs="+", default=[1_000, 10_000])
    words.add_argument("--seed", type=int, default=1)
    words.add_argument("--rounds", type=int, default=5)
    words = asked(words)
    loads = [load(accounts, words.seed) for accounts in words.accounts]
    took = [[] for _ in loads]
    other = [[] for _ in loads]
    for _ in range(words.rounds):
        for it, rounds, others in zip(loads, took, other):
            rounds.append(session(words.program, it))
            others.append(beside(it))
    print(f"{words.rounds} rounds in turn on one core; medians; all replies are those that the rules give\n")
    print(
        f"{'accounts':>8}  {'close':<6} {'time':>11} {'accounts a second':>18} "
        f"{'us an account':>13} {'peak before':>16} {'at its end':>13}"
    )
    for which, name in enumerate(("first", "again")):
        middles = [report(it, name, [closes[which] for closes in rounds]) for it, rounds in zip(loads, took)]
        for it, middle, others in zip(loads, middles, other):
            peer = statistics.median(closes[which] for closes in others)
            met = "met" if peer / middle >= AIM_BESIDE else "MISSED"
            print(
                f"  {name}: the same rows of {it.accounts:,} accounts take {peer:.3f} s through Python's SQLite, "
                f"{peer / middle:.2f} of the close (aim: {AIM_BESIDE}) {met}"
            )
        for (least, less), (most, more) in zip(zip(loads, middles), zip(loads[1:], middles[1:])):
            growth, met = more / less, "met" if more / less <= AIM_GROWTH else "MISSED"
            print(
                f"  {name}: {most.accounts:,} accounts take {growth:.1f} times the time of "
                f"{least.accounts:,} (aim: at most {AIM_GROWTH}) {met}"
            )


if __name__ == "__main__":
    main()
