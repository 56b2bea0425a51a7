#!/usr/bin/env python3
"""journal: 1,000,000 boardings of 60,000 accounts in one session. How long each reply takes through pipes, since no
growth may hold one up, and the most memory that the program held beside what it holds after the last reply. See
README.md."""

import argparse
import random
import statistics
import subprocess
import sys
import time

sys.dont_write_bytecode = True
from programs import LONDON, ROOT, asked, on_one_core, peak_bytes

# Monday 2024-01-08, 04:30 in London, and the seconds of a service day.
MORNING, A_DAY = 1_704_688_200, 86_400
AIM = 1.15


def lines(boardings, accounts, seed):
    """Boardings at random instants of one week, each account in its turn."""
    draw = random.Random(seed)
    return [
        f"TAP 1 {number} {number % accounts + 1} {MORNING + draw.randrange(7 * A_DAY)} 50 BUS\n".encode()
        for number in range(boardings)
    ]


def held_bytes(process):
    """The memory that a running process holds."""
    with open(f"/proc/{process.pid}/status", encoding="ascii", errors="replace") as status:
        return 1024 * next(int(it.split()[1]) for it in status if it.startswith("VmRSS:"))


def session(program, asked):
    """The seconds of each reply, the most memory that was held, and what is held after the last reply."""
    command = [program, "run", f"{ROOT}/examples/bus.toml", LONDON]
    with subprocess.Popen(
        command, stdin=subprocess.PIPE, stdout=subprocess.PIPE, bufsize=0, preexec_fn=on_one_core
    ) as process:
        took, give, take = [], process.stdin.write, process.stdout.read
        for line in asked:
            began = time.perf_counter()
            give(line)
            reply = take(128)
            took.append(time.perf_counter() - began)
            if not (reply.startswith(b"OK ") and reply.endswith(b"\n")):
                sys.exit(f"journal: {line!r} was answered {reply!r}")
        peak, held = peak_bytes(process), held_bytes(process)
        process.stdin.close()
    return took, peak, held


def main():
    words = argparse.ArgumentParser(description=__doc__, formatter_class=argparse.RawDescriptionHelpFormatter)
    words.add_argument("--boardings", type=int, default=1_000_000)
    words.add_argument("--accounts", type=int, default=60_000)
    words.add_argument("--seed", type=int, default=1)
    words = asked(words)
    took, peak, held = session(words.program, lines(words.boardings, words.accounts, words.seed))
    ranked = sorted(took)
    slowest = max(range(len(took)), key=took.__getitem__)
    print(
        f"{len(took):,} boardings of {words.accounts:,} accounts, each sent once the reply to the one before has come"
    )
    print(
        f"a reply through pipes: middle {1e6 * statistics.median(took):,.1f} us, 99.9 of 100 within "
        f"{1e6 * ranked[-len(took) // 1000]:,.1f} us,"
        f" the slowest {1e3 * ranked[-1]:,.2f} ms (number {slowest:,}), the second slowest {1e3 * ranked[-2]:,.2f} ms"
    )
    met = "met" if peak <= AIM * held else "MISSED"
    print(
        f"memory: {peak / 2**20:,.1f} MiB at most, {held / 2**20:,.1f} MiB after the last reply, {peak / held:.3f} "
        f"times that (aim: at most {AIM}) {met};"
        f" {peak / len(took):,.0f} bytes a boarding"
    )


if __name__ == "__main__":
    main()
