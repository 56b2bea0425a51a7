#!/usr/bin/env python3
"""pages: how long pages and texts of one account take beside two million lines of others, with a ledger and without one, and the
memory of what shows them. See README.md."""

import argparse
import contextlib
import http.client
import os
import statistics
import subprocess
import sys
import time

sys.dont_write_bytecode = True
from programs import LONDON, OUT, ROOT, asked, on_one_core, peak_bytes
from serve import HOST, free_port

FARES = f"{ROOT}/examples/bus.toml"
JOURNAL, LEDGER = f"{OUT}/page-journal", f"{OUT}/page-ledger"
# 07:00 of a Monday in London; how many days the lines are of; and the account that is asked for.
SEVEN, MONDAY, DAYS, ACCOUNT = 1_704_697_200, 19_730, 100, 7
LAST = MONDAY + DAYS - 1
SUNDAY = LAST + (MONDAY - 1 - LAST) % 7


def write_journal(lines, accounts, own):
    """Boardings in the order in which they are made, within a hundred days. So many of them are of the account that is
    asked for, with as many of others between any two."""
    every = lines // own
    with open(JOURNAL, "w", encoding="ascii") as it:
        for number in range(lines):
            account = ACCOUNT if number % every == 0 and number // every < own else 100 + number % accounts
            it.write(f"TAP 1 {number} {account} {SEVEN + number * (DAYS - 1) * 86_400 // lines} 50 BUS\n")


def write_ledger(program):
    """A ledger into which the last week of all accounts was closed."""
    for path in (LEDGER, f"{LEDGER}-wal", f"{JOURNAL}.fares", f"{JOURNAL}.posted"):
        if os.path.exists(path):
            os.remove(path)
    words = [program, "run", FARES, LONDON, "--journal", JOURNAL, "--ledger", LEDGER]
    subprocess.run(words, input=f"CLOSE {SUNDAY}\n".encode(), stdout=subprocess.DEVNULL, check=True)


def seconds(command):
    """The time of one run on one core, with its output to /dev/null."""
    began = time.perf_counter()
    ran = subprocess.run(command, stdin=subprocess.DEVNULL, stdout=subprocess.DEVNULL, preexec_fn=on_one_core)
    took = time.perf_counter() - began
    if ran.returncode:
        sys.exit(f"pages: {' '.join(command)} ended with status {ran.returncode}")
    return took


def status_of(port, target):
    """The status of an answer that was read to its end, or none where nobody answers."""
    peer = http.client.HTTPConnection(HOST, port, timeout=60)
    with contextlib.closing(peer):
        try:
            peer.request("GET", target)
            it = peer.getresponse()
        except ConnectionRefusedError:
            return None
        it.read()
        return it.status


def measure_pages(program, requests, ledger):
    """How long it takes until there are pages, with these words about a ledger, the times of requests for one, and the peak of memory."""
    port = free_port(1)
    began = time.perf_counter()
    words = [program, "page", FARES, LONDON, "--journal", JOURNAL, "--port", str(port), *ledger]
    with subprocess.Popen(words, stdin=subprocess.DEVNULL, stderr=subprocess.DEVNULL) as process:
        try:
            while status_of(port, "/healthz") != 200:
                if process.poll() is not None or time.perf_counter() - began > 600:
                    sys.exit("pages: there are no pages")
                time.sleep(0.01)
            ready, took = time.perf_counter() - began, []
            for _ in range(requests):
                asked = time.perf_counter()
                if status_of(port, f"/week?account={ACCOUNT}&day={LAST}") != 200:
                    sys.exit("pages: no page of the week")
                took.append(time.perf_counter() - asked)
            return ready, took, peak_bytes(process)
        finally:
            process.kill()


def main():
    words = argparse.ArgumentParser(description=__doc__, formatter_class=argparse.RawDescriptionHelpFormatter)
    words.add_argument("--lines", type=int, default=2_000_000)
    words.add_argument("--accounts", type=int, default=60_000, help="of the lines of others")
    words.add_argument("--own", type=int, default=500, help="lines of the account that is asked for")
    words.add_argument("--requests", type=int, default=200)
    words.add_argument("--rounds", type=int, default=3)
    words = asked(words)
    program = words.program
    write_journal(words.lines, words.accounts, words.own)
    write_ledger(program)
    posted = ["--ledger", LEDGER]
    explain = [program, "explain", FARES, LONDON, str(ACCOUNT), str(LAST), "--journal", JOURNAL, "--week"]
    replay = [program, "replay", FARES, LONDON, JOURNAL]
    texts = {"explain --week": explain, "the same, --ledger": [*explain, *posted], "replay": replay}
    times = {name: [] for name in texts}
    for _ in range(words.rounds):
        for name, command in texts.items():
            times[name].append(seconds(command))
    print(f"{words.lines:,} lines, {words.own} of the account; texts on one core, medians of {words.rounds}")
    for name, took in times.items():
        print(f"{name:<20} {statistics.median(took):8.2f} s")
    for name, ledger in (("pages", []), ("pages --ledger", posted)):
        ready, took, peak = measure_pages(program, words.requests, ledger)
        middle, longest = 1e3 * statistics.median(took), 1e3 * max(took)
        print(f"{name:<20} {ready:8.2f} s until they are there, {peak / 2**20:.0f} MiB, {peak / words.lines:.0f} bytes a line")
        print(f"{'  a week':<20} {middle:8.1f} ms, the longest of {len(took)} {longest:.1f} ms")


if __name__ == "__main__":
    main()
