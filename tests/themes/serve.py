"""Sessions at sockets: lanes and shards at once, peers that are hostile or go, and ports, threads, memory or an output
that are not to be had."""

import contextlib
import functools
import os
import random
import re
import select
import socket
import subprocess
import tempfile

from oracle import loads, rules
from support.preloads import preloaded
from support.repository import LONDON, SAMPLE
from support.running import (
    MISSING, MONDAY, SEVEN, TIME_TO_REPLY, WEEK_DAYS, answers, closing, fault, heard, opened_pipe, run,
)
from support.serving import (
    HOST, boarding, break_off, closed, come_and_go, connected, ended, failed, free_ports, listening, paid, rest_of,
    serving, side_by_side, talk, talk_ahead, words_of,
)
from support.theme import Theme

A_BOARDING = "OK 19730 175 175\n"

ACCOUNTS, LANES, SHARDS, LINES = 300, 4, 4, 12_000


def connecting(host, port):
    """How the system answers who connects to an address."""
    with socket.socket() as it:
        it.settimeout(TIME_TO_REPLY)
        return answers(os.strerror(it.connect_ex((host, port))).encode())


class Sessions(Theme):
    """Sessions on lanes, and how they end."""

    def test_two_lanes(self):
        """Two lanes over two shards, each with one session, and the close at the end, which no session may ask for."""
        with serving(2, 2, 1) as (ran, port, said):
            first = talk(port, (boarding(7) + f"CLOSE {MONDAY}\nQUIT\n").encode())
            second = talk(port + 1, (boarding(8) + "QUIT\n").encode())
            self.check("the first lane", answers(first), answers(f"{A_BOARDING}NO 34 NotHere\nBYE\n".encode()))
            self.check("the second lane", answers(second), answers(f"{A_BOARDING}BYE\n".encode()))
            self.check(
                "two lanes and their close",
                ended(ran, said),
                closed(port, 2, f"{paid(7)}{paid(8)}DONE {MONDAY} 2\n".encode()),
            )

    def test_ends_of_sessions(self):
        """A session ends by QUIT, by the end of input and by a cut line, and the lane serves the next; what stands
        after QUIT is dropped."""
        with serving(1, 1, 4) as (ran, port, said):
            after = talk(port, b"QUIT\n" + boarding(7).encode() * 20_000)
            self.check("QUIT, and much after it", answers(after), answers(b"BYE\n"))
            for name, lines, replies in (
                ("no line", b"", b""),
                ("a line, and the end of input", boarding(7).encode(), A_BOARDING.encode()),
                ("a cut line, and the end of input", boarding(7).encode()[:-1], b"NO 50 BadLine\n"),
            ):
                with connected(port) as peer:
                    peer.sendall(lines)
                    peer.shutdown(socket.SHUT_WR)
                    self.check(name, answers(rest_of(peer)), answers(replies))
            self.check(
                "four sessions and their close",
                ended(ran, said),
                closed(port, 1, f"{paid(7)}DONE {MONDAY} 1\n".encode()),
            )

    def test_another_address(self):
        """A service is at 127.0.0.1 alone: at another address of the same host, on each of its ports, nobody
        listens."""
        with serving(2, 1, 1) as (ran, port, said):
            for lane in (port, port + 1):
                refused = answers(b"Connection refused")
                self.check(f"127.0.0.2, port {lane - port + 1} of 2", connecting("127.0.0.2", lane), refused)
                self.check("a session there", answers(talk(lane, b"QUIT\n")), answers(b"BYE\n"))
            self.check("how it ends", ended(ran, said), closed(port, 2, f"DONE {MONDAY} 0\n".encode()))

    def test_replies_that_leave(self):
        """The reply to a line comes though only half of the next has come, and the replies to lines that come together
        come in their order."""
        with serving(1, 1, 1) as (ran, port, said):
            more = boarding(8)
            with connected(port) as peer:
                peer.sendall((boarding(7) + more[:5]).encode())
                self.check(
                    "a line and half of the next", answers(heard(peer, len(A_BOARDING))), answers(A_BOARDING.encode())
                )
                peer.sendall((more[5:] + 1_000 * "none\n" + "QUIT\n").encode())
                wanted = A_BOARDING + 1_000 * "NO 50 BadLine\n" + "BYE\n"
                self.check("the rest and many lines", answers(rest_of(peer)), answers(wanted.encode()))
            self.check(
                "how it ends", ended(ran, said), closed(port, 1, (paid(7) + paid(8) + f"DONE {MONDAY} 2\n").encode())
            )


def drawn_commands(draw):
    """Taps and corrections of accounts in any order, some of them twice, with lines that ask for a day or for what is
    due among them."""
    commands = loads.corrected_week(draw, ACCOUNTS)
    commands += draw.sample(commands, len(commands) // 10)
    lines = [rules.line(it) for it in commands]
    while len(lines) < LINES:
        account, day = draw.randint(1, ACCOUNTS), draw.choice(WEEK_DAYS)
        lines.append(draw.choice((f"SHOW {account} {day}\n", f"DUE {account} {day}\n")))
    draw.shuffle(lines)
    return commands, [it.encode() for it in lines]


def questions():
    """Each account is asked for each day of the week, and for what is due of it in the end."""
    for account in range(1, ACCOUNTS + 1):
        for day in WEEK_DAYS:
            yield f"SHOW {account} {day}\n".encode()
        yield f"DUE {account} {WEEK_DAYS[-1]}\n".encode()


def replies_by_rules(commands):
    """The replies to the questions by the rules of tests/oracle/rules.py, for accounts that have accepted these taps
    and corrections."""
    accounts = {account: rules.Account({}, {}) for account in range(1, ACCOUNTS + 1)}
    for it in commands:
        account = accounts[it.account]
        (account.taps if isinstance(it, rules.Tap) else account.fixes)[it.number] = it
    for account in accounts:
        for day in WEEK_DAYS:
            yield from rules.shown(rules.SAMPLE, accounts, account, day)
        yield rules.reply(rules.SAMPLE, accounts, rules.Due(account, WEEK_DAYS[-1]))


def accepted(lines, text):
    """Of lines beside their replies those that were accepted, and how many replies there are beside that to QUIT."""
    replies = [it for it in text.splitlines() if not it.startswith(b"JNY ")]
    return [
        line for line, reply in zip(lines, replies) if line[:3] in (b"TAP", b"FIX") and not reply.startswith(b"NO ")
    ], len(replies) - 1


class Crowds(Theme):
    """Many lines over several lanes."""

    def test_crowd(self):
        """12,000 lines of 300 accounts, dealt over four lanes and shards, come to what they come to in one session in
        any order."""
        commands, lines = drawn_commands(random.Random(23))
        dealt = [lines[lane::LANES] for lane in range(LANES)]
        asked = list(questions())
        with serving(LANES, SHARDS, 2, fares=SAMPLE) as (ran, port, said):
            replies = side_by_side([lambda lane=lane: talk_ahead(port + lane, dealt[lane]) for lane in range(LANES)])
            told = talk_ahead(port, asked)
            for lane in range(1, LANES):
                come_and_go(port + lane, 1)
            came = ended(ran, said)
        kept = []
        for lane, text in enumerate(replies):
            taken, count = accepted(dealt[lane], text)
            kept += taken
            self.check(f"replies on lane {lane}", answers(b"%d" % count), answers(b"%d" % len(dealt[lane])))
        self.check("each tap and correction is accepted", answers(b"%d" % len(kept)), answers(b"%d" % len(commands)))
        self.check(
            "what is told by the rules", answers(told), answers("".join(replies_by_rules(commands)).encode() + b"BYE\n")
        )
        one_order = run(["run", SAMPLE, LONDON], b"".join(kept + asked) + b"QUIT\n")
        self.check(
            "what is told after one session",
            answers(b"\n".join(one_order.output.splitlines()[len(kept):]) + b"\n"),
            answers(told),
        )
        self.check(
            "how it ends",
            came._replace(output=came.output.splitlines()[-1]),
            closed(port, LANES, b"DONE %d %d" % (MONDAY, came.output.count(b"PAY "))),
        )


def held_bytes(ran):
    """The memory that a process holds."""
    with open(f"/proc/{ran.pid}/status", encoding="ascii", errors="replace") as status:
        return 1024 * next(int(it.split()[1]) for it in status if it.startswith("VmRSS:"))


def garbage(port):
    """Bytes that are no lines."""
    with connected(port) as peer:
        peer.sendall(random.Random(5).getrandbits(8 << 20).to_bytes(1 << 20, "big").replace(b"QUIT", b"quit") + b"\n")
        peer.shutdown(socket.SHUT_WR)
        return rest_of(peer)


def endless_line(port, count):
    """So many bytes without a newline, and then a newline."""
    with connected(port) as peer:
        for _ in range(count >> 20):
            peer.sendall(bytes(1 << 20))
        peer.sendall(b"\nQUIT\n")
        return rest_of(peer)


def reset(port):
    """Goes in the midst of a line."""
    peer = connected(port)
    peer.sendall(boarding(9).encode()[:-3])
    break_off(peer)


def never_read(port):
    """Asks as long as the other side takes questions, reads none of the replies, and goes. How many it asked."""
    asked = f"SHOW 7 {MONDAY}\n".encode() * 1_000
    with socket.socket() as peer:
        peer.setsockopt(socket.SOL_SOCKET, socket.SO_RCVBUF, 4_096)
        peer.connect((HOST, port))
        peer.settimeout(1)
        sent = 0
        with contextlib.suppress(socket.timeout):
            while sent < 100_000_000:
                sent += peer.send(asked)
        break_off(peer)
        return sent


# How many sessions each lane serves, and of these on the good lane and by peers that break off in each of the two
# rounds.
MANY, GOOD, BROKEN = 1_000, 200, 100
# How many bytes more the service may hold after the second round than after the first.
FLAT = 4 << 20


def hostile_round(port, number, size):
    """What comes of a round of hostile peers, each on its lane: of so many bytes without a newline, and of good
    sessions beside them."""
    good, hostile, deaf, hasty = range(port, port + 4)
    first = GOOD * number
    unended, _, taken, _ = side_by_side([
        lambda: endless_line(hostile, size),
        lambda: never_read(deaf),
        lambda: [talk(good, (boarding(7, first + seq) + "QUIT\n").encode()) for seq in range(GOOD)],
        lambda: come_and_go(hasty, MANY // 2),
    ])
    for _ in range(BROKEN):
        reset(hostile)
    return unended, b"".join(sorted(set(taken))), len(taken), garbage(hostile)


class Peers(Theme):
    """Peers that are hostile, and ports that are taken."""

    def test_hostile_peers(self):
        """Peers that send garbage or no newline, break off, never read, come and go, or fall silent hold up their own
        lane alone."""
        with serving(5, 2, MANY) as (ran, port, said):
            silent, replied = port + 4, A_BOARDING.encode() + b"BYE\n"
            half = connected(silent)
            half.sendall(boarding(9).encode()[:-3])
            held = []
            for number, size in enumerate((10 << 20, 50 << 20)):
                unended, good, count, bad = hostile_round(port, number, size)
                self.check(f"{size >> 20} MB without a newline", answers(unended), answers(b"NO 51 LongLine\nBYE\n"))
                self.check(f"{count} sessions of the lane beside it", answers(good), answers(replied))
                self.check(
                    "bytes that are no lines",
                    answers(b" ".join(sorted(set(bad.splitlines())))),
                    answers(b"NO 50 BadLine NO 51 LongLine"),
                )
                held.append(held_bytes(ran))
            grown = held[1] - held[0]
            self.check(
                f"memory, {grown:,} bytes more after the second round",
                answers(b"%r" % (grown < FLAT)),
                answers(b"True"),
            )
            half.sendall(boarding(9).encode()[-3:])
            self.check(
                "the half line, once its end is there",
                answers(heard(half, len(A_BOARDING))),
                answers(A_BOARDING.encode()),
            )
            half.close()
            left = (MANY - 2 * GOOD, MANY - 2 * (BROKEN + 2), MANY - 2, 0, MANY - 1)
            side_by_side([
                lambda at=at, count=count: come_and_go(port + at, count) for at, count in enumerate(left) if count
            ])
            output = f"PAY 7 {MONDAY} {MONDAY} {2 * GOOD} 175 175 4=175\n{paid(9)}DONE {MONDAY} 2\n"
            self.check("nothing is lost", ended(ran, said), closed(port, 5, output.encode()))

    def test_ports_that_are_taken(self):
        """A port that is not to be had, the first or a later one, is told before anything else is said, and after a
        fault of the texts."""
        first = free_ports(3)
        for lanes, taken in ((1, 1), (3, 1), (3, 2), (3, 3)):
            with socket.socket() as it:
                it.setsockopt(socket.SOL_SOCKET, socket.SO_REUSEADDR, 1)
                it.bind((HOST, first + taken - 1))
                it.listen()
                self.check(f"port {taken} of {lanes} is taken", run(words_of(first, lanes)), fault("cannot listen"))
        with serving(2, 1, 1) as (ran, port, said):
            for name, words, wanted in (
                ("a port of another service", words_of(port + 1), "cannot listen"),
                ("a port that is taken, and a bad zone", words_of(port, zone="no zone"), "bad zone"),
                (
                    "a port that is taken, and no fare file",
                    words_of(port, fares=MISSING, zone="no zone"),
                    "cannot read fares",
                ),
            ):
                self.check(name, run(words), fault(wanted))
            for lane in (port, port + 1):
                self.check(
                    "a session beside services that do not begin", answers(talk(lane, b"QUIT\n")), answers(b"BYE\n")
                )
            self.check(
                "a service beside those that do not begin",
                ended(ran, said),
                closed(port, 2, f"DONE {MONDAY} 0\n".encode()),
            )


def heard_of(call):
    """What a peer hears, or nothing where its connection is refused or broken, or goes silent."""
    with contextlib.suppress(OSError):
        return call()
    return b""


class Threads(Theme):
    """Threads that are refused."""

    def test_threads_that_are_refused(self):
        """A thread that the system refuses, of a shard or of a lane, is told, and nothing is served or closed, though
        peers wait at all ports."""
        library, lanes, shards = preloaded(self.folder), 3, 2
        for number in range(1, shards + lanes + 1):
            how = {"stdin": subprocess.PIPE, "env": {"LD_PRELOAD": library, "THREAD": str(number)}}
            with serving(lanes, shards, 1, **how) as (ran, port, said), contextlib.ExitStack() as peers:
                waiting = [peers.enter_context(connected(port + lane)) for lane in range(lanes)]
                for peer in waiting:
                    peer.sendall(boarding(7).encode())
                # Until this input ends the thread is not refused yet, and a lane that began before the others has time
                # to reply.
                select.select(waiting, [], [], 0.1)
                ran.stdin.close()
                came = ended(ran, said)
                replies = b"".join(heard_of(lambda peer=peer: rest_of(peer)) for peer in waiting)
                self.check(
                    f"thread {number} of {shards + lanes}",
                    came._replace(output=replies + came.output),
                    failed(port, lanes, "35 NoThread"),
                )


# A boarding of one account, and of another a touch in by rail, whose touch out is filled in.
SHORT = (
    rules.Tap(SEVEN, 1, 1, 7, rules.ROUTE, "BUS"), rules.Tap(SEVEN, 1, 2, 8, 10, "IN"),
    rules.Fix(3, 1, 8, "FILL", (SEVEN + 1_800, 12, "OUT")),
    rules.Due(8, MONDAY),
)


def short_session(accounts):
    """The lines of a short session, each with how it is answered by the rules over these accounts."""
    for command in SHORT:
        yield rules.line(command), functools.partial(rules.reply, rules.BUS, accounts, command)
    yield f"SHOW 8 {MONDAY}\n", lambda: "".join(rules.shown(rules.BUS, accounts, 8, MONDAY))
    yield "QUIT\n", lambda: "BYE\n"


def short_service(library, first, last):
    """A short service of a lane and a shard whose allocations from the first through the last are refused: its port,
    what its one peer heard and it came to, and whether it came to the first of them."""
    lines = "".join(line for line, _ in short_session({})).encode()
    with tempfile.TemporaryFile() as told:
        around = {"LD_PRELOAD": library, "FIRST": str(first), "LAST": str(last), "TELL": str(told.fileno())}
        with serving(1, 1, 1, env=around, pass_fds=[told.fileno()]) as (ran, port, said):
            replies = heard_of(lambda: talk(port, lines))
            came = ended(ran, said)
        return port, replies, came, os.fstat(told.fileno()).st_size > 0


NO_MEMORY = "NO 90 Memory\n"
# By what a close for which memory is refused may be answered.
NOT_CLOSED = (NO_MEMORY, "NO 43 Store\n", "NO 44 DeskFault\n")


def by_rules(replies):
    """What these replies have to be and what is then closed, where some lines are refused for memory, and all others
    answered as if those had not been sent."""
    accounts, wanted = {}, ""
    for _, reply in short_session(accounts):
        wanted += NO_MEMORY if replies.startswith((wanted + NO_MEMORY).encode()) else reply()
    return wanted, rules.closed(rules.BUS, accounts, {}, MONDAY)


def ends_without_memory(port, replies):
    """All that a short service may come to whose peer heard these replies, with them before its output."""
    # A connection for which there is no memory hears nothing.
    wanted, close = by_rules(replies) if replies else ("", f"DONE {MONDAY} 0\n")
    ends = [closed(port, 1, (wanted + close).encode())]
    ends += [ends[0]._replace(status=1, output=(wanted + refused).encode()) for refused in NOT_CLOSED]
    if not replies:
        # A thread for which there is no memory is none.
        ends += [fault("90 Memory"), fault("43 Store"), failed(port, 1, "90 Memory"), failed(port, 1, "35 NoThread")]
    return ends


def count_refusals(end):
    return len(re.findall(rb"^(?:NO|farebox:) \d", end.output + end.errors, re.MULTILINE))


def first_listening(library):
    """The first allocation that may be refused and the service listens all the same."""
    low, high = 1, 1 << 16
    while low < high:
        middle = (low + high) // 2
        port, _, came, _ = short_service(library, middle, middle)
        low, high = (low, middle) if came.errors.startswith(listening(port, 1)) else (middle + 1, high)
    return low


# How many allocations are passed over after one whose like `run` makes too, as tests/allocations.py has it refused:
# before the service listens, and in its close.
PASSED = 10
# For how many allocations memory is refused where it is for a while. Were it for good, a shard without room in its
# journal would answer nothing, and each reply be late.
A_WHILE = 64


class Memory(Theme):
    """Want of memory."""

    def test_memory_that_is_refused(self):
        """Where memory is refused once or for a while, a line, the connection, the close or all is refused, and the
        rest is right."""
        library = preloaded(self.folder)
        first = first_listening(library)
        self.check("allocations before it listens", answers(b"%r" % (1 < first < 1 << 16)), answers(b"True"))
        for number, count, most in ((1, 1, 1), (first, A_WHILE, A_WHILE)):
            was_refused = True
            while was_refused:
                port, replies, came, was_refused = short_service(library, number, number + count - 1)
                came = came._replace(output=replies + came.output)
                right = closed(port, 1, "".join(by_rules(b"")).encode())
                is_refusal = was_refused and came in ends_without_memory(port, replies) and count_refusals(came) <= most
                self.check(f"{count} refused from allocation {number} on", came, came if is_refusal else right)
                number += PASSED if number + PASSED < first or came.output.endswith(NO_MEMORY.encode()) else 1


UNWRITABLE = {
    "without room": (functools.partial(open, "/dev/full", "wb"), {}),
    "that nobody reads": (opened_pipe, {}),
    "closed": (contextlib.nullcontext, closing(1)),
}


class Outputs(Theme):
    """Outputs that fail."""

    def test_outputs_that_fail(self):
        """Where the lines of the close cannot be written, that is told, and the sessions had all their replies."""
        for name, (opened, how) in UNWRITABLE.items():
            with opened() as output, serving(2, 2, 1, stdout=output, **how) as (ran, port, said):
                for lane in range(2):
                    replies = talk(port + lane, (boarding(7 + lane) + "QUIT\n").encode())
                    self.check(
                        f"lane {lane} of a service with an output {name}",
                        answers(replies),
                        answers(A_BOARDING.encode() + b"BYE\n"),
                    )
                self.check(f"a service with an output {name}", ended(ran, said), failed(port, 2, "output fault"))
