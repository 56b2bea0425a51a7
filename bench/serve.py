#!/usr/bin/env python3
"""Times taps through farebox's lanes at sockets, without journals and with them, beside a session through a pipe: many
ahead, one at a time, and none; and the start of a service over journals. See README.md."""

import argparse
import contextlib
import multiprocessing
import os
import random
import socket
import statistics
import subprocess
import sys
import tempfile
import time
from typing import NamedTuple

sys.dont_write_bytecode = True
from programs import LONDON, OUT, ROOT, asked
from oracle import rules
from oracle.loads import DAY, MONDAY

HOST, FIRST_PORT, LAST_PORT = "127.0.0.1", 20_000, 32_000
FARES = f"{ROOT}/examples/{DAY.fares}"
# How many lines a client sends before it waits for replies, and the seconds between a lone tap's reply and the next
# lone tap.
AHEAD, PAUSE = 64, 0.005
CLIENTS = multiprocessing.get_context("fork")


class Way(NamedTuple):
    """How a client sends bytes, and how it takes what has come."""

    send: object
    take: object


def way_of_socket(port):
    it = socket.create_connection((HOST, port))
    it.setsockopt(socket.IPPROTO_TCP, socket.TCP_NODELAY, 1)
    return Way(it.sendall, lambda: it.recv(1 << 16))


def way_of_pipes(process):
    return Way(process.stdin.write, lambda: os.read(process.stdout.fileno(), 1 << 16))


def told(way):
    """What has come, or the end of this script where nothing comes any more."""
    came = way.take()
    if not came:
        sys.exit("serve: a session ended before its last reply")
    return came


def exchange(way, lines):
    """Sends lines of one reply line each, many at a time and so many ahead, and returns when the first was sent and the
    last reply came."""
    sent = replied = 0
    began = time.perf_counter()
    while replied < len(lines):
        if sent < len(lines) and sent - replied <= AHEAD // 2:
            more = lines[sent:replied + AHEAD]
            way.send(b"".join(more))
            sent += len(more)
        replied += told(way).count(b"\n")
    return began, time.perf_counter()


def one_at_a_time(way, lines):
    """The seconds of each reply, where each line is sent some time after the reply to the one before."""
    took = []
    for line in lines:
        time.sleep(PAUSE)
        began = time.perf_counter()
        way.send(line)
        while not told(way).endswith(b"\n"):
            pass
        took.append(time.perf_counter() - began)
    return took


def free_port(lanes):
    """The first of so many free ports in a row."""
    for first in random.sample(range(FIRST_PORT, LAST_PORT), LAST_PORT - FIRST_PORT):
        with contextlib.ExitStack() as held, contextlib.suppress(OSError):
            for port in range(first, first + lanes):
                held.enter_context(socket.socket()).bind((HOST, port))
            return first
    sys.exit("serve: no ports are free")


@contextlib.contextmanager
def serving(program, lanes, shards, folder=None):
    """A service that listens, and its first port. Each lane serves one session, and the service has ended with a close
    afterwards. In a folder it has journals."""
    port = free_port(lanes)
    numbers = {"port": port, "lanes": lanes, "shards": shards, "sessions": 1, "close": MONDAY}
    command = [
        program, "serve", FARES, LONDON,
        *(word for name, number in numbers.items() for word in (f"--{name}", str(number))),
    ]
    command += ["--journal", folder] if folder else []
    with subprocess.Popen(command, stdin=subprocess.DEVNULL, stdout=subprocess.PIPE, stderr=subprocess.PIPE) as process:
        # A service with journals first warns that the fare file has no bands.
        if not any(process.stderr.readline().startswith(b"farebox: listening") for _ in range(2 if folder else 1)):
            sys.exit("serve: the service does not listen")
        yield process, port
        # With journals and without a ledger the day is not closed.
        last, status = (b"NO 34 NotHere", 1) if folder else (b"DONE ", 0)
        if not process.communicate()[0].splitlines()[-1].startswith(last) or process.returncode != status:
            sys.exit(f"serve: the service ended with status {process.returncode}")


def client(port, lines, work, ready, came):
    """A process of its own, which begins its work once all clients are connected."""
    way = way_of_socket(port)
    ready.wait()
    came.put(work(way, lines))
    way.send(b"QUIT\n")
    while way.take():
        pass


def at_lanes(port, dealt, work):
    """What comes of a client for each lane, all at once."""
    ready, came = CLIENTS.Barrier(len(dealt)), CLIENTS.Queue()
    clients = [
        CLIENTS.Process(target=client, args=(port + lane, lines, work, ready, came)) for lane, lines in enumerate(dealt)
    ]
    for it in clients:
        it.start()
    results = [came.get() for _ in clients]
    for it in clients:
        it.join()
    return results


def by_serve(program, count, lines, work, keeps=False):
    """What comes of a service of so many lanes and shards, which may keep journals that are made anew."""
    os.makedirs(OUT, exist_ok=True)
    with tempfile.TemporaryDirectory(dir=OUT) as folder, serving(
        program, count, count, folder if keeps else None
    ) as (_, port):
        return at_lanes(port, [lines[lane::count] for lane in range(count)], work)


def seconds_to_begin(program, count, lines):
    """How long a service of a lane and so many shards takes until it speaks that has these lines in its journals."""
    os.makedirs(OUT, exist_ok=True)
    with tempfile.TemporaryDirectory(dir=OUT) as folder:
        for shard in range(count):
            with open(os.path.join(folder, f"{shard}.lines"), "wb") as journal:
                journal.write(b"".join(lines[shard::count]))
        began = time.perf_counter()
        with serving(program, 1, count, folder) as (_, port):
            way = way_of_socket(port)
            way.send(b"QUIT\n")
            told(way)
            return time.perf_counter() - began


def by_run(program, lines, work):
    with subprocess.Popen(
        [program, "run", FARES, LONDON], stdin=subprocess.PIPE, stdout=subprocess.PIPE, bufsize=0
    ) as process:
        came = work(way_of_pipes(process), lines)
        process.stdin.close()
    return [came]


def taps_a_second(results, count):
    return count / (max(ended for _, ended in results) - min(began for began, _ in results))


def processor_seconds(process):
    """The processor time that a process has taken, its system calls with it."""
    with open(f"/proc/{process.pid}/stat", encoding="ascii", errors="replace") as stat:
        # After the name, which may have spaces in it.
        words = stat.read().rpartition(")")[2].split()
    return sum(map(int, words[11:13])) / os.sysconf("SC_CLK_TCK")


def idle_share(program, shards, seconds):
    """Which part of a processor a service of so many shards takes that nobody speaks to."""
    with serving(program, 1, shards) as (process, port):
        time.sleep(0.5)
        before = processor_seconds(process)
        time.sleep(seconds)
        took = processor_seconds(process) - before
        way = way_of_socket(port)
        way.send(b"QUIT\n")
        while way.take():
            pass
    return took / seconds


def measured(programs, lines, lone, rounds):
    """Of each program the taps a second of each round, and the seconds of all lone taps. In a round all take turns."""
    speed, took = {name: [] for name in programs}, {name: [] for name in programs}
    for _ in range(rounds):
        for name, through in programs.items():
            speed[name].append(taps_a_second(through(lines, exchange), len(lines)))
            took[name] += [it for lane in through(lone, one_at_a_time) for it in lane]
    return speed, took


def main():
    words = argparse.ArgumentParser(description=__doc__)
    words.add_argument("--taps", type=int, default=200_000)
    words.add_argument("--lone", type=int, default=400, help="how many taps are sent one at a time in each round")
    words.add_argument(
        "--lanes", type=int, nargs="+", default=[1, 2, 4], help="how many lanes and as many shards are measured"
    )
    words.add_argument("--rounds", type=int, default=5)
    words.add_argument("--idle", type=float, default=5, help="for how many seconds nobody speaks to a service")
    words.add_argument("--seed", type=int, default=1)
    words = asked(words)
    program = words.program
    lines = [rules.line(it).encode() for it in DAY.commands(words.seed, words.taps)]
    lone = lines[:words.lone]
    programs = {"run, a pipe": lambda lines, work: by_run(program, lines, work)}
    for count in words.lanes:
        programs[f"serve, {count} and {count}"] = lambda lines, work, count=count: by_serve(program, count, lines, work)
    most = max(words.lanes)
    programs[f"{most} and {most}, kept"] = lambda lines, work: by_serve(program, most, lines, work, True)
    speed, took = measured(programs, lines, lone, words.rounds)
    print(
        f"{len(lines):,} taps of a day, {AHEAD} ahead, many a send; {len(lone):,} lone taps a round, {1e3 * PAUSE:.0f} "
        "ms apart on each lane;"
        f" {words.rounds} rounds in turn, middles; {os.cpu_count()} processors, the clients' among them\n"
    )
    print(
        f"{'lanes, shards':<16} {'taps a second':>14} {'slowest':>10} "
        f"{'fastest':>10} {'lone tap':>12} {'99 of 100':>12}"
    )
    for name, rounds in speed.items():
        ranked = sorted(took[name])
        print(f"{name:<16} {statistics.median(rounds):>14,.0f} {min(rounds):>10,.0f} {max(rounds):>10,.0f}"
              f" {1e6 * statistics.median(ranked):>9,.0f} us {1e6 * ranked[len(ranked) * 99 // 100]:>9,.0f} us")
    begun = statistics.median(seconds_to_begin(program, most, lines) for _ in range(words.rounds))
    print(f"\na service of {most} shards over journals of {len(lines):,} lines speaks after {begun:.2f} s")
    print(
        f"\nan idle service of 16 shards takes {100 * idle_share(program, 16, words.idle):.1f} percent of a processor"
    )


if __name__ == "__main__":
    main()
