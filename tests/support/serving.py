"""Services: how one is started and ended, and how a client speaks to it."""

import contextlib
import random
import socket
import struct
import subprocess
import threading

from support.repository import LONDON
from support.running import FARES, MONDAY, SEVEN, TIME_TO_REPLY, End, end_of, fault, heard, started

HOST = "127.0.0.1"
# Ports below those that the system gives to clients.
PORTS = range(20_000, 32_000)
# How many lines a client sends before it waits for replies.
AHEAD = 64


def is_free(port):
    with socket.socket() as it:
        it.setsockopt(socket.SOL_SOCKET, socket.SO_REUSEADDR, 1)
        try:
            it.bind((HOST, port))
        except OSError:
            return False
        return True


def listens(port):
    """Whether somebody listens at a port."""
    with contextlib.suppress(OSError), socket.create_connection((HOST, port)):
        return True
    return False


def free_ports(count):
    """The first of so many free ports in a row."""
    draw = random.SystemRandom()
    while True:
        first = draw.choice(PORTS)
        if all(map(is_free, range(first, first + count))):
            return first


def words_of(port, lanes=1, shards=1, sessions=1, close=MONDAY, fares=FARES, zone=LONDON):
    numbers = {"port": port, "lanes": lanes, "shards": shards, "sessions": sessions, "close": close}
    return ["serve", fares, zone, *(word for name, number in numbers.items() for word in (f"--{name}", str(number)))]


def listening(port, lanes):
    """What is said once all ports are taken."""
    return f"farebox: listening on {HOST}:{port}{f' to {port + lanes - 1}' if lanes > 1 else ''}\n".encode()


@contextlib.contextmanager
def serving(lanes, shards, sessions, fares=FARES, close=MONDAY, more=(), stdin=subprocess.DEVNULL, **how):
    """A service that listens, its first port, and what it said."""
    port = free_ports(lanes)
    with started([*words_of(port, lanes, shards, sessions, close, fares), *more], stdin=stdin, **how) as ran:
        said = heard(ran.stderr, len(listening(port, lanes)))
        yield ran, port, said


def ended(ran, said):
    """What a service comes to, with what it said at first."""
    came = end_of(ran)
    return came._replace(errors=said + (came.errors or b""))


def closed(port, lanes, output):
    """What a service comes to that closes its day."""
    return End(0, output, listening(port, lanes))


def failed(port, lanes, line, output=b""):
    """What a service comes to that fails once it listens."""
    wanted = fault(line, output)
    return wanted._replace(errors=listening(port, lanes) + wanted.errors)


def connected(port):
    it = socket.create_connection((HOST, port), timeout=TIME_TO_REPLY)
    it.setsockopt(socket.IPPROTO_TCP, socket.TCP_NODELAY, 1)
    return it


def rest_of(peer):
    """What a peer hears until the other side ends."""
    taken = b""
    while True:
        more = peer.recv(1 << 16)
        if not more:
            return taken
        taken += more


def talk(port, lines, ends=False):
    """What is replied to these lines on a connection of their own, on which no more comes if it ends."""
    with connected(port) as peer:
        peer.sendall(lines)
        if ends:
            peer.shutdown(socket.SHUT_WR)
        return rest_of(peer)


def come_and_go(port, count):
    """So many connections on which nothing is sent. Now and then one waits for its end, so that the system has room for
    the next."""
    for number in range(1, count + 1):
        with connected(port) as peer:
            if number % 64 == 0 or number == count:
                peer.shutdown(socket.SHUT_WR)
                rest_of(peer)


def count_replies(lines):
    """How many replies there are in whole lines; one that shows a day has further lines."""
    return lines.count(b"\n") - lines.count(b"\nJNY ") - lines.startswith(b"JNY ")


def talk_ahead(port, lines):
    """The replies to these lines and to QUIT, with no more than so many lines unanswered."""
    lines, sent, replied, taken, cut = [*lines, b"QUIT\n"], 0, 0, [], b""
    with connected(port) as peer:
        while replied < len(lines):
            if sent < len(lines) and sent - replied <= AHEAD // 2:
                more = lines[sent:replied + AHEAD]
                peer.sendall(b"".join(more))
                sent += len(more)
            more = peer.recv(1 << 16)
            if not more:
                break
            taken.append(more)
            whole, newline, cut = (cut + more).rpartition(b"\n")
            replied += count_replies(whole + newline)
        return b"".join(taken) + rest_of(peer)


def side_by_side(calls):
    """What comes of calls, each in a thread of its own, in their order."""
    came = [None] * len(calls)

    def into(at, call):
        came[at] = call()

    threads = [threading.Thread(target=into, args=it) for it in enumerate(calls)]
    for it in threads:
        it.start()
    for it in threads:
        it.join()
    return came


def boarding(account, seq=1):
    return f"TAP 1 {seq} {account} {SEVEN} 50 BUS\n"


def paid(account, pence=175):
    return f"PAY {account} {MONDAY} {MONDAY} 1 {pence} {pence} 4={pence}\n"


def break_off(peer):
    """Breaks a connection, so that what is on its way is lost."""
    peer.setsockopt(socket.SOL_SOCKET, socket.SO_LINGER, struct.pack("ii", 1, 0))
    peer.close()
