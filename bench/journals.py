#!/usr/bin/env python3
"""journals: taps a second of a session without a journal, with one, and with one that is synced at each line; and how
long a journal of 1,000,000 lines is replayed, beside a session that reads the same lines. See README.md."""

import argparse
import contextlib
import os
import shutil
import statistics
import subprocess
import sys
import time

sys.dont_write_bytecode = True
from programs import LONDON, OUT, ROOT, asked, on_one_core
from oracle import rules
from oracle.loads import DAY

FARES = f"{ROOT}/examples/{DAY.fares}"
JOURNAL = f"{OUT}/journal"


def write_lines(path, commands):
    with open(path, "w", encoding="ascii") as it:
        it.writelines(map(rules.line, commands))


def seconds(command, lines):
    """The time of one run on one core, with the lines as its standard input and its output to /dev/null."""
    with open(lines, "rb") as given:
        began = time.perf_counter()
        ran = subprocess.run(command, stdin=given, stdout=subprocess.DEVNULL, preexec_fn=on_one_core)
        took = time.perf_counter() - began
    if ran.returncode:
        sys.exit(f"journals: {' '.join(command)} ended with status {ran.returncode}")
    return took


def kept_seconds(command, lines, more):
    """The time of a session with a journal that it makes. It then has all of the lines, since all are accepted."""
    with contextlib.suppress(FileNotFoundError):
        os.remove(JOURNAL)
    took = seconds([*command, "--journal", JOURNAL, *more], lines)
    if os.path.getsize(JOURNAL) != os.path.getsize(lines):
        sys.exit(f"journals: the journal has not the lines of {lines}")
    return took


def report(name, took, count):
    """Prints a row, and gives the lines a second of the middle round."""
    middle = statistics.median(took)
    print(
        f"{name:<28} {count:>9,} {count / middle:>14,.0f} {1e6 * middle / count:>10.2f} {min(took):>12.3f} s "
        f"{max(took):>12.3f} s"
    )
    return count / middle


def head(title):
    print(
        f"\n{title:<28} {'lines':>9} {'lines a second':>14} "
        f"{'us a line':>10} {'fastest round':>14} {'slowest round':>14}"
    )


def measure_sessions(run, words):
    """Sessions without a journal and with one, and the lines of a shorter one that is synced at each line, in turn."""
    commands = DAY.commands(words.seed, words.taps)
    lines, first = f"{OUT}/taps", f"{OUT}/first-taps"
    write_lines(lines, commands)
    write_lines(first, commands[:words.synced])
    sessions = {
        "no journal": (lambda: seconds(run, lines), words.taps),
        "--journal": (lambda: kept_seconds(run, lines, ()), words.taps),
        "no journal, the first lines": (lambda: seconds(run, first), words.synced),
        "--journal, the first lines": (lambda: kept_seconds(run, first, ()), words.synced),
        "--journal --sync": (lambda: kept_seconds(run, first, ("--sync",)), words.synced),
    }
    took = {name: [] for name in sessions}
    for _ in range(words.rounds):
        for name, (measured, _) in sessions.items():
            took[name].append(measured())
    head("a session")
    return {name: report(name, took[name], count) for name, (_, count) in sessions.items()}


def measure_replays(program, run, words):
    """A session that reads many lines, and a replay of them and the start of a session that has them as its journal, in
    turn."""
    lines = f"{OUT}/journal-lines"
    write_lines(lines, DAY.commands(words.seed, words.replayed))
    took = {name: [] for name in ("no journal", "replay", "--journal, and no line")}
    for _ in range(words.replays):
        took["no journal"].append(seconds(run, lines))
        took["replay"].append(seconds([program, "replay", FARES, LONDON, lines], os.devnull))
        shutil.copyfile(lines, JOURNAL)
        took["--journal, and no line"].append(seconds([*run, "--journal", JOURNAL], os.devnull))
    head("many lines")
    return {name: report(name, each, words.replayed) for name, each in took.items()}


def main():
    words = argparse.ArgumentParser(description=__doc__, formatter_class=argparse.RawDescriptionHelpFormatter)
    words.add_argument("--taps", type=int, default=200_000, help="of each session that is not synced at each line")
    words.add_argument("--synced", type=int, default=5_000, help="the first of these, which are synced one by one")
    words.add_argument("--replayed", type=int, default=1_000_000)
    words.add_argument("--rounds", type=int, default=5)
    words.add_argument("--replays", type=int, default=3, help="rounds of the replays")
    words.add_argument("--seed", type=int, default=1)
    words = asked(words)
    program = words.program
    run = [program, "run", FARES, LONDON]
    print(f"{DAY.title}, four an account, with {DAY.fares}; each session on one core, output to /dev/null, medians")
    kept = measure_sessions(run, words)
    replayed = measure_replays(program, run, words)
    print(f"\nwith a journal {kept['--journal'] / kept['no journal']:.2f} of the speed without, and synced at each line"
          f" {kept['--journal --sync'] / kept['no journal, the first lines']:.4f};"
          f" a replay {replayed['replay'] / replayed['no journal']:.2f} of the speed of a session")


if __name__ == "__main__":
    main()
