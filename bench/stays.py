#!/usr/bin/env python3
"""Times a service that stays: a hundred readers over connections of their own, many that are silent beside them, what
questions leave in memory, and taps while a day is closed. See README.md."""

import argparse
import contextlib
import os
import resource
import select
import socket
import statistics
import subprocess
import sys
import tempfile
import threading
import time

sys.dont_write_bytecode = True
from programs import LONDON, PROGRAM, ROOT, build
from oracle.loads import DAY, MONDAY
from serve import HOST, exchange, free_port, way_of_socket

FARES = f"{ROOT}/examples/{DAY.fares}"
SEVEN = 1_704_697_200
LANES, SHARDS, READERS, ROUNDS = 2, 2, 100, 50


def boarding(account, seq=1):
    return b"TAP 1 %d %d %d 50 BUS\n" % (seq, account, SEVEN)


@contextlib.contextmanager
def staying(program, folder):
    """A service over new files that answers lines, its two ports and its process."""
    port = free_port(2)
    journals = os.path.join(folder, "taps")
    os.mkdir(journals)
    words = [
        program, "serve", FARES, LONDON, f"--port={port}", f"--lanes={LANES}", f"--shards={SHARDS}",
        f"--control={port + 1}", f"--journal={journals}", f"--ledger={os.path.join(folder, 'ledger.db')}",
    ]
    with subprocess.Popen(words, stdin=subprocess.DEVNULL, stderr=subprocess.PIPE) as process:
        if not any(process.stderr.readline().startswith(b"farebox: listening") for _ in range(3)):
            sys.exit("stays: the service does not listen")
        try:
            yield port, port + 1, process
        except BaseException:
            process.kill()
            raise
        with socket.create_connection((HOST, port + 1)) as staff:
            staff.sendall(b"STOP\n")
            if staff.recv(100) != b"BYE\n" or process.wait(60):
                sys.exit(f"stays: the service ended with status {process.returncode}")


def line_of(peer):
    """What a peer hears through a newline, within a minute."""
    peer.settimeout(60)
    came = b""
    while not came.endswith(b"\n"):
        more = peer.recv(1 << 16)
        if not more:
            sys.exit("stays: a connection ended")
        came += more
    return came


def readers(port, first):
    """The seconds of each reply to a hundred readers, each of which taps now and then."""
    with contextlib.ExitStack() as opened:
        peers = [opened.enter_context(socket.create_connection((HOST, port))) for _ in range(READERS)]
        for peer in peers:
            peer.setsockopt(socket.IPPROTO_TCP, socket.TCP_NODELAY, 1)
        waiting, by_number = select.poll(), {peer.fileno(): peer for peer in peers}
        for peer in peers:
            waiting.register(peer, select.POLLIN)
        took = []
        for turn in range(ROUNDS):
            sent = {}
            for number, peer in enumerate(peers):
                sent[peer] = time.perf_counter()
                peer.sendall(boarding(first + turn * READERS + number))
            while sent:
                for number, _ in waiting.poll(60_000):
                    peer = by_number[number]
                    line_of(peer)
                    took.append(time.perf_counter() - sent.pop(peer))
            time.sleep(0.02)
        return sorted(took)


def told(name, took):
    """Prints what became of these seconds."""
    middle, ninety_nine, most = statistics.median(took), took[len(took) * 99 // 100], took[-1]
    print(f"{name:46}{1000 * middle:8.2f} ms {1000 * ninety_nine:8.2f} ms {1000 * most:8.2f} ms", flush=True)


def resident(process):
    """The bytes that a process has in memory."""
    with open(f"/proc/{process.pid}/statm", encoding="ascii") as it:
        return int(it.read().split()[1]) * os.sysconf("SC_PAGE_SIZE")


def with_silent(port, process, count):
    """The same while so many connections are silent, and what each of these takes."""
    before = resident(process)
    with contextlib.ExitStack() as opened:
        for _ in range(count):
            opened.enter_context(socket.create_connection((HOST, port)))
        time.sleep(0.5)
        each = (resident(process) - before) / count
        told(f"a tap of {READERS} readers beside {count:,} silent", readers(port, 1_000_000))
        print(f"{'memory of a silent connection':46}{each:8.0f} bytes", flush=True)


def with_questions(port, process, count):
    """What so many questions, and as many repeats of a tap, leave in memory."""
    for name, line in (("question", b"DUE 1 %d\n" % MONDAY), ("repeat", boarding(1))):
        exchange(way_of_socket(port), [line] * 10_000)
        before = resident(process)
        for _ in range(10):
            exchange(way_of_socket(port), [line] * (count // 10))
        print(f"{f'memory of each of {count:,} {name}s':46}{(resident(process) - before) / count:8.2f} bytes", flush=True)


def while_closing(port, control, accounts):
    """The seconds of each lone tap while a day of so many accounts is closed, and how long the close took."""
    exchange(way_of_socket(port), [boarding(2_000_000 + number) for number in range(accounts)])
    took, is_over = [], threading.Event()

    def taps():
        with socket.create_connection((HOST, port)) as peer:
            peer.setsockopt(socket.IPPROTO_TCP, socket.TCP_NODELAY, 1)
            number = 0
            while not is_over.is_set():
                number += 1
                began = time.perf_counter()
                peer.sendall(boarding(3_000_000 + number))
                line_of(peer)
                took.append(time.perf_counter() - began)
                time.sleep(0.001)

    tapping = threading.Thread(target=taps)
    tapping.start()
    began = time.perf_counter()
    with socket.create_connection((HOST, control)) as staff:
        staff.sendall(b"CLOSE %d\n" % MONDAY)
        came = b""
        while b"\nDONE " not in came:
            came = came[-100:] + staff.recv(1 << 20)
    seconds = time.perf_counter() - began
    is_over.set()
    tapping.join()
    told(f"a tap while {accounts:,} accounts are closed", sorted(took))
    print(f"{'that close':46}{seconds:8.2f} s", flush=True)


def main():
    parse = argparse.ArgumentParser(description=__doc__)
    parse.add_argument("--silent", type=int, default=2_000, help="how many connections are silent")
    parse.add_argument("--questions", type=int, default=1_000_000, help="how many questions are asked")
    parse.add_argument("--accounts", type=int, default=100_000, help="how many accounts are closed")
    given = parse.parse_args()
    most = resource.getrlimit(resource.RLIMIT_NOFILE)[1]
    resource.setrlimit(resource.RLIMIT_NOFILE, (most, most))
    if given.silent + READERS + 100 > most:
        sys.exit(f"stays: the system allows {most:,} open files, too few for {given.silent:,} connections")
    build()
    print(f"{'':46}{'median':>11} {'99 of 100':>11} {'longest':>11}")
    with tempfile.TemporaryDirectory() as folder, staying(PROGRAM, folder) as (port, control, process):
        told(f"a tap of {READERS} readers", readers(port, 1))
        with_silent(port, process, given.silent)
        with_questions(port, process, given.questions)
        while_closing(port, control, given.accounts)


if __name__ == "__main__":
    main()
