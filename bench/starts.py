#!/usr/bin/env python3
"""starts: how long a session takes to open its ledger and compare it with its journal, and the memory, beside one that
has the journal alone. See README.md."""

import argparse
import os
import statistics
import subprocess
import sys
import time

sys.dont_write_bytecode = True
from programs import LONDON, OUT, ROOT, asked, on_one_core, peak_bytes

FARES = f"{ROOT}/examples/bus.toml"
JOURNAL, LEDGER = f"{OUT}/start-journal", f"{OUT}/start-ledger"
# 07:00 of a Monday in London, and its Sunday.
SEVEN, SUNDAY = 1_704_697_200, 19_736


def write_journal(accounts, each):
    """So many boardings of each account, one after another, in the order in which they are made: within six days of one
    week."""
    taps = accounts * each
    with open(JOURNAL, "w", encoding="ascii") as it:
        for number in range(taps):
            it.write(
                f"TAP {1 + number // accounts} {number} {1 + number % accounts} "
                f"{SEVEN + number * 6 * 86_400 // taps} 50 BUS\n"
            )


def run(words, lines=b""):
    """The seconds and the peak of memory of a session of these lines."""
    began = time.perf_counter()
    with subprocess.Popen([*words], stdin=subprocess.PIPE, stdout=subprocess.PIPE, preexec_fn=on_one_core) as ran:
        # The session has begun, and compared, once it has answered.
        ran.stdin.write(lines or b"DUE 1 19730\n")
        ran.stdin.flush()
        ran.stdout.readline()
        took, peak = time.perf_counter() - began, peak_bytes(ran)
        ran.stdin.close()
        for _ in ran.stdout:
            pass
    if ran.returncode:
        sys.exit(f"starts: {' '.join(words)} ended with status {ran.returncode}")
    return took, peak


def main():
    words = argparse.ArgumentParser(description=__doc__, formatter_class=argparse.RawDescriptionHelpFormatter)
    words.add_argument("--accounts", type=int, default=100_000)
    words.add_argument("--each", type=int, default=10, help="boardings of each account")
    words.add_argument("--rounds", type=int, default=3)
    words = asked(words)
    session = [words.program, "run", FARES, LONDON, "--journal", JOURNAL]
    for path in (LEDGER, f"{LEDGER}-wal", f"{JOURNAL}.fares", f"{JOURNAL}.posted"):
        if os.path.exists(path):
            os.remove(path)
    write_journal(words.accounts, words.each)
    took, _ = run([*session, "--ledger", LEDGER], f"CLOSE {SUNDAY}\n".encode())
    taps = words.accounts * words.each
    print(
        f"{taps:,} boardings of {words.accounts:,} accounts; the first close, with the start, took {took:.1f} s; each "
        f"session on one core, medians of {words.rounds}"
    )
    # The same fares by another text, which are compared with those that are kept beside the journal.
    other = f"{OUT}/start-fares.toml"
    with open(FARES, encoding="utf-8") as fares, open(other, "w", encoding="utf-8") as it:
        it.write(f"# the same\n{fares.read()}")
    alone, compared, others = [], [], []
    for _ in range(words.rounds):
        alone.append(run(session))
        compared.append(run([*session, "--ledger", LEDGER]))
        others.append(run([*session[:2], other, *session[3:]]))
    (first, memory), (second, more), (third, _) = (
        [statistics.median(column) for column in zip(*rows)] for rows in (alone, compared, others)
    )
    print(f"the journal alone              {first:8.2f} s {memory / 2**20:8.0f} MiB")
    print(f"with the ledger compared       {second:8.2f} s {more / 2**20:8.0f} MiB")
    print(f"with other fares compared      {third:8.2f} s")
    print(
        f"opened and compared            {second - first:8.2f} s, {(second - first) / first:.2f} of the time of "
        f"replaying; memory {more / memory:.2f} of that of the accounts"
    )


if __name__ == "__main__":
    main()
