#!/usr/bin/env python3
"""Times late commands of one account, by what a book keeps and from scratch, as a table and as a plot. See README.md.

Status 1: the prices of both differ, or the program was not built or failed.
"""

import argparse
import math
import subprocess
import sys
from typing import NamedTuple

sys.dont_write_bytecode = True
from programs import HERE, ROOT, built, on_one_core

STANDS_ON = "pay_day pay_tables pay_rules pay_editions pay_account pay_book"
FARES, PLOT = f"{ROOT}/examples/sample.toml", f"{HERE}/late.svg"
BOOK, ACCOUNT = "book", "account"
SHAPES = ("bus", "rail", "void", "chain")
# How many taps are stored in the end, and how many rounds a run has of the one and of the other: more where a round is
# short.
ROUNDS = {
    128: {BOOK: 2_000, ACCOUNT: 50}, 1_024: {BOOK: 400, ACCOUNT: 5}, 2_048: {BOOK: 200, ACCOUNT: 2},
    16_384: {BOOK: 40, ACCOUNT: 1},
}
# Corrections are looked through at each command, so there are as many of them at each size.
VOIDS, CHAINED = 32, 16


class Measured(NamedTuple):
    """The sum of the prices, and of the late commands the most steps of one, the mean of the steps and the nanoseconds
    of one."""

    prices: int
    most_steps: int
    mean_steps: float
    nanoseconds: float


def counts(shape, size):
    """How many taps come in order, so that `size` are stored in the end, and how many commands come late."""
    if shape == "chain":
        return size - 1, CHAINED
    late = VOIDS if shape == "void" else size // 4
    return size - late, late


def measure(program, kind, shape, size, rounds):
    stored, late = counts(shape, size)
    words = [program, kind, shape, stored, late, rounds, FARES]
    ran = subprocess.run([*map(str, words)], stdin=subprocess.DEVNULL, capture_output=True, preexec_fn=on_one_core)
    if ran.returncode:
        sys.exit(f"late: {' '.join(map(str, words))} ended with status {ran.returncode}")
    most, steps, nanoseconds = map(int, ran.stderr.split())
    return Measured(int(ran.stdout), most, steps / late, nanoseconds / late)


def measure_all(program, runs, fewer):
    """What is measured of each shape, size and kind: of a book in the fastest of some runs, in which all take turns."""
    found = {}
    for run in range(runs):
        for size, rounds in ROUNDS.items():
            for shape in SHAPES:
                for kind in (BOOK, ACCOUNT)[: 1 if run else 2]:
                    now = measure(program, kind, shape, size, max(1, rounds[kind] // fewer))
                    before = found.setdefault((shape, size, kind), now)
                    found[shape, size, kind] = min(before, now, key=lambda it: it.nanoseconds)
    return found


def report(found):
    print("| Shape | Taps stored | Greatest steps | Mean steps | `Book`, ns a late command | `Account` |")
    print("|---|---|---|---|---|---|")
    for shape in SHAPES:
        for size in ROUNDS:
            book, account = found[shape, size, BOOK], found[shape, size, ACCOUNT]
            if book.prices != account.prices:
                sys.exit(
                    f"late: the prices of {shape} at {size} taps come to {book.prices} by "
                    f"what is kept, and to {account.prices} from scratch"
                )
            print(
                f"| {shape} | {size:,} | {book.most_steps:,} | {book.mean_steps:,.1f} | "
                f"{book.nanoseconds:,.0f} | {account.nanoseconds:,.0f} |"
            )


# What a shape looks like: its colour, dashes and size of dots, so that lines in one place can be told apart; and what
# it is.
LOOKS = {
    "bus": ("#0072b2", "none", 4, "a boarding half way between two"),
    "rail": ("#d55e00", "none", 5, "an Out within a pair"),
    "void": ("#009e73", "7 5", 3, "the Void of such an Out"),
    "chain": ("#aa3377", "none", 4, "one that changes all boardings"),
}
WIDTH, HEIGHT, TOP, ACROSS, DOWN = 960, 500, 120, 350, 310
PANELS = ((95, "nanoseconds", "nanoseconds"), (570, "stored taps read, at most", "most_steps"))


def text(x, y, words, more=""):
    return f'<text x="{x:.1f}" y="{y:.1f}" {more}>{words}</text>'


def line(points, more):
    return f'<polyline points="{" ".join(f"{x:.1f},{y:.1f}" for x, y in points)}" fill="none" {more}/>'


def panel(left, label, values):
    """The lines of a panel: both axes by logarithms, the values of each shape by size. A value below 1 is drawn at
    1."""
    logs = {shape: {size: math.log10(max(it, 1)) for size, it in row.items()} for shape, row in values.items()}
    drawn = [it for row in logs.values() for it in row.values()]
    low, high = math.floor(min(drawn)), max(math.ceil(max(drawn)), math.floor(min(drawn)) + 1)
    first, last = math.log10(min(ROUNDS)), math.log10(max(ROUNDS))

    def across(size):
        return left + 20 + (ACROSS - 40) * (math.log10(size) - first) / (last - first)

    def down(log):
        return TOP + DOWN * (high - log) / (high - low)

    for log in range(low, high + 1):
        yield line([(left, down(log)), (left + ACROSS, down(log))], 'stroke="#dddddd"')
        yield text(left - 8, down(log) + 4, f"{10 ** log:,}", 'text-anchor="end"')
    for size in ROUNDS:
        yield line([(across(size), TOP), (across(size), TOP + DOWN)], 'stroke="#dddddd"')
        yield text(across(size), TOP + DOWN + 18, f"{size:,}", 'text-anchor="middle"')
    yield line([(left, TOP), (left, TOP + DOWN), (left + ACROSS, TOP + DOWN)], 'stroke="#333333"')
    yield text(left + ACROSS / 2, TOP + DOWN + 42, "taps stored", 'text-anchor="middle"')
    yield text(left - 8, TOP - 16, label, 'font-weight="bold"')
    for shape, row in logs.items():
        (colour, dashes, dot, _), points = LOOKS[shape], [(across(size), down(log)) for size, log in row.items()]
        yield line(points, f'stroke="{colour}" stroke-dasharray="{dashes}" stroke-width="2"')
        yield from (f'<circle cx="{x:.1f}" cy="{y:.1f}" r="{dot}" fill="{colour}"/>' for x, y in points)


def plot(found):
    """Draws the time and the greatest steps of a book's late commands."""
    lines = [
        f'<svg xmlns="http://www.w3.org/2000/svg" viewBox="0 0 {WIDTH} {HEIGHT}" font-family="sans-serif" '
        f'font-size="13">'
    ]
    lines += [
        f'<rect width="{WIDTH}" height="{HEIGHT}" fill="white"/>',
        text(95, 30, "A late command of one account, by what its book keeps", 'font-size="16"'),
    ]
    for at, (shape, (colour, dashes, _, meaning)) in enumerate(LOOKS.items()):
        x, y = PANELS[at % 2][0], 56 + 20 * (at // 2)
        lines += [
            line([(x, y), (x + 26, y)], f'stroke="{colour}" stroke-dasharray="{dashes}" stroke-width="3"'),
            text(x + 34, y + 4, f"{shape}: {meaning}"),
        ]
    for left, label, field in PANELS:
        lines += panel(
            left,
            label,
            {shape: {size: getattr(found[shape, size, BOOK], field) for size in ROUNDS} for shape in SHAPES},
        )
    with open(PLOT, "w", encoding="ascii") as it:
        it.write("\n".join([*lines, "</svg>", ""]))


def main():
    words = argparse.ArgumentParser(description=__doc__, formatter_class=argparse.RawDescriptionHelpFormatter)
    words.add_argument("--program", help="the program late_taps to measure, in the place of the built one")
    words.add_argument("--runs", type=int, default=5, help="how often a book is measured; the fastest run counts")
    words.add_argument("--fewer", type=int, default=1, help="divides the rounds of each run, to try the script")
    given = words.parse_args()
    program = given.program or built("late_taps", STANDS_ON, [BOOK, "bus", "2", "1", "1", FARES])
    found = measure_all(program, max(1, given.runs), max(1, given.fewer))
    report(found)
    plot(found)


if __name__ == "__main__":
    main()
