#!/usr/bin/env python3
"""Times taps, corrections and quotes through farebox, beside a plain loop that only reads the lines and answers. See
README.md."""

import argparse
import contextlib
import itertools
import os
import shutil
import statistics
import subprocess
import sys
import threading
import time
from typing import NamedTuple

sys.dont_write_bytecode = True
from programs import HERE, LONDON, OUT, ROOT, asked, on_one_core, peak_bytes
from oracle import rules
from oracle.loads import BANDED_WEEK, CAPPED_DAY, CAPPED_WEEK, DAY, FARES, LOADS, QUOTED_WEEK

NULL, FILE, PIPE = "/dev/null", f"{OUT}/replies", "a pipe"
SINKS = {NULL: "/dev/null", FILE: "a file", PIPE: "a pipe"}

AIM_RATIO, AIM_SPEED, AIM_BYTES = 0.5, 100_000, 400
# How much of a load's speed another fare file has to leave.
AIMS_OF_CAPS = ((CAPPED_DAY, DAY, 0.6), (BANDED_WEEK, CAPPED_WEEK, 0.5))


class Prepared(NamedTuple):
    """A load with its lines in a file, what answers them, and how many there are."""

    lines: str
    commands: dict
    count: int


def by_rules(fares, commands):
    """The replies that the rules give, priced from scratch at each tap and correction; and the accounts after them."""
    accounts = {}
    return [rules.reply(fares, accounts, command) for command in commands], accounts


def fare_file(name):
    """The path of a fare file: one of the examples, or one that is written here."""
    example, made = f"{ROOT}/examples/{name}", f"{OUT}/{name}"
    if os.path.exists(example):
        return example
    write_lines(made, rules.fare_file(FARES[name]))
    return made


def write_lines(path, lines):
    with open(path, "w", encoding="ascii") as it:
        it.writelines(lines)


@contextlib.contextmanager
def opened(sink):
    """Where a run's output goes: a pipe to a process that reads it and drops it, or a file, /dev/null too."""
    if sink != PIPE:
        with open(sink, "wb") as taken:
            yield taken
        return
    with subprocess.Popen(["cat"], stdin=subprocess.PIPE, stdout=subprocess.DEVNULL) as reader:
        yield reader.stdin


def seconds(command, lines, sink):
    """The time of one run on one core, with the lines as its standard input and its output to `sink`."""
    with open(lines, "rb") as given, opened(sink) as taken:
        began = time.perf_counter()
        ran = subprocess.run(command, stdin=given, stdout=taken, preexec_fn=on_one_core)
        took = time.perf_counter() - began
    if ran.returncode:
        sys.exit(f"bench: {command[0]} ended with status {ran.returncode}")
    return took


def peak_of_run(command, lines, count):
    """The most memory that a run held, after its last reply and before the end of its input."""
    ran = subprocess.Popen(command, stdin=subprocess.PIPE, stdout=subprocess.PIPE)

    def give():
        with open(lines, "rb") as given:
            shutil.copyfileobj(given, ran.stdin)
        ran.stdin.flush()

    giving = threading.Thread(target=give)
    giving.start()
    for _ in range(count):
        ran.stdout.readline()
    giving.join()
    held = peak_bytes(ran)
    ran.stdin.close()
    if ran.stdout.read() or ran.wait():
        sys.exit(f"bench: {command[0]} did not answer one reply a line and end with status 0")
    ran.stdout.close()
    return held


def build_plain():
    if not shutil.which("rustc"):
        sys.exit("bench: rustc is needed for the plain loop, and is not in PATH")
    subprocess.run(["rustc", "-O", "--edition", "2021", "-o", f"{OUT}/plain", f"{HERE}/plain.rs"], check=True)


def check_answers(program, fares, commands, replies, accounts, days):
    """Compares the replies to all commands, and after them to SHOW for each account and each of the days, with those of
    the rules."""
    shows = [(account, day) for account in accounts for day in days]
    wanted = replies + [line for show in shows for line in rules.shown(fares, accounts, *show)]
    lines = f"{OUT}/checked.txt"
    write_lines(lines, [*map(rules.line, commands), *(f"SHOW {account} {day}\n" for account, day in shows)])
    seconds(program, lines, FILE)
    with open(FILE, encoding="ascii", errors="replace") as written:
        for at, (given, want) in enumerate(itertools.zip_longest(written, wanted), 1):
            if given != want:
                sys.exit(f"bench: line {at} of bench/out/replies is {given!r}, and by the rules it is {want!r}")
    print(f"replies: all {len(replies):,} are those that the rules give")
    if shows:
        print(
            f"shown after them: all {len(wanted) - len(replies) - len(shows):,} journeys in "
            f"{len(shows):,} replies to SHOW are those that the rules give"
        )


def time_rounds(loads, rounds):
    """For each load the seconds of each round, by where the output goes and the program. In a round all take turns."""
    took = {}
    for _ in range(rounds):
        for sink in SINKS:
            for load, prepared in loads.items():
                for name, command in prepared.commands.items():
                    took.setdefault(load, {}).setdefault((sink, name), []).append(
                        seconds(command, prepared.lines, sink)
                    )
    return took


def report_speed(took, count):
    """Prints a row for each kind of output and program, and returns the lines a second of the middle round of each."""
    print(
        f"\n{'output to':<10} {'program':<8} {'lines a second':>14} "
        f"{'us a line':>9} {'fastest round':>14} {'slowest round':>14}"
    )
    speed = {}
    for (sink, name), rounds in took.items():
        middle = statistics.median(rounds)
        speed[sink, name] = count / middle
        print(
            f"{SINKS[sink]:<10} {name:<8} {count / middle:>14,.0f} "
            f"{1e6 * middle / count:>9.2f} {min(rounds):>12.3f} s {max(rounds):>12.3f} s"
        )
    return speed


def report_memory(commands, lines, count):
    """Prints each program's peak memory, and returns farebox's bytes for each line."""
    one_line = f"{OUT}/empty"
    write_lines(one_line, ["-\n"])
    print(f"\n{'program':<10} {'peak memory':>14} {'of an empty run':>16} {'bytes a line':>12}")
    each = {}
    for name, command in commands.items():
        full, empty = peak_of_run(command, lines, count), peak_of_run(command, one_line, 1)
        each[name] = (full - empty) / count
        print(f"{name:<10} {full / 2**20:>10.1f} MiB {empty / 2**20:>12.1f} MiB {each[name]:>12.1f}")
    return each["farebox"]


def report_aim(text, is_met):
    print(f"{text:<80} {'met' if is_met else 'MISSED'}")


def report_aims(speed, each):
    print("\nAims")
    for sink, shown in SINKS.items():
        farebox, plain = speed[sink, "farebox"], speed[sink, "plain"]
        report_aim(
            f"to {shown}: {farebox / plain:.2f} of the plain loop's speed (aim: at least {AIM_RATIO})",
            farebox / plain >= AIM_RATIO,
        )
        report_aim(f"to {shown}: {farebox:,.0f} lines a second (aim: at least {AIM_SPEED:,})", farebox >= AIM_SPEED)
    report_aim(f"{each:.1f} bytes of peak memory a line (aim: at most {AIM_BYTES})", each <= AIM_BYTES)


def report_aims_of_caps(speeds):
    """Prints what caps and many bands cost, of those loads that were measured."""
    for load, other, aim in AIMS_OF_CAPS:
        if load in speeds and other in speeds:
            for sink, shown in SINKS.items():
                ratio = speeds[load][sink, "farebox"] / speeds[other][sink, "farebox"]
                report_aim(
                    f"{load.name} to {shown}: {ratio:.2f} of the speed of {other.name} (aim: at least {aim})",
                    ratio >= aim,
                )


def report_quotes(took, prepared):
    """Prints how many quotes a second there are, by the time that they take on top of the taps before them, and how
    many taps."""
    taps, quotes = prepared[CAPPED_WEEK].count, prepared[QUOTED_WEEK].count - prepared[CAPPED_WEEK].count
    print(f"\n{'output to':<10} {'quotes a second':>15} {'us a quote':>10} {'taps a second':>14}")
    for sink, shown in SINKS.items():
        without, quoted = (took[load][sink, "farebox"] for load in (CAPPED_WEEK, QUOTED_WEEK))
        on_top = statistics.median(late - early for early, late in zip(without, quoted))
        speed = f"{quotes / on_top:>15,.0f} {1e6 * on_top / quotes:>10.2f}" if on_top > 0 else f"{'-':>15} {'-':>10}"
        print(f"{shown:<10} {speed} {taps / statistics.median(without):>14,.0f}")


def prepare(load, words, program):
    """Writes the lines of a load, and compares the answers to them with those of the rules."""
    asked, fares = load.commands(words.seed, words.taps), FARES[load.fares]
    replies, accounts = by_rules(fares, asked)
    lines = f"{OUT}/{load.name}.txt"
    write_lines(lines, map(rules.line, asked))
    middle_reply = sorted(replies, key=len)[len(asked) // 2].rstrip()
    commands = {"farebox": [program, "run", fare_file(load.fares), LONDON], "plain": [f"{OUT}/plain", middle_reply]}
    print(
        f"{load.name}: {load.title}, with {load.fares}; {len(asked):,} lines "
        f"of {len(accounts):,} accounts, seed {words.seed}"
    )
    check_answers(commands["farebox"], fares, asked, replies, accounts, load.days_shown)
    return Prepared(lines, commands, len(asked))


def main():
    words = argparse.ArgumentParser(description=__doc__)
    words.add_argument("--load", choices=[*LOADS, "all"], default="all")
    words.add_argument("--seed", type=int, default=1)
    words.add_argument(
        "--taps", type=int, default=200_000,
        help="of each load; 4 an account in a day, 20 in a week; corrections and quotes come on top",
    )
    words.add_argument("--rounds", type=int, default=7)
    words = asked(words)
    build_plain()
    names = LOADS if words.load == "all" else [words.load]
    if QUOTED_WEEK.name in names and CAPPED_WEEK.name not in names:
        # What quotes take is told by the same taps without them.
        names = [CAPPED_WEEK.name, *names]
    loads = {LOADS[name]: prepare(LOADS[name], words, words.program) for name in names}
    took, speeds = time_rounds(loads, words.rounds), {}
    for load, prepared in loads.items():
        print(f"\n{load.name}: {words.rounds} rounds in turn on one core; medians")
        speeds[load] = report_speed(took[load], prepared.count)
        report_aims(speeds[load], report_memory(prepared.commands, prepared.lines, prepared.count))
    print("\nAims of caps")
    report_aims_of_caps(speeds)
    if QUOTED_WEEK in loads:
        report_quotes(took, loads)


if __name__ == "__main__":
    main()
