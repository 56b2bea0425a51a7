"""A service that stays, and its readers, staff and strangers."""

import collections
import contextlib
import os
import resource
import selectors
import time
from typing import Callable, NamedTuple, Optional

from soak_clients import FORMS, LATE, Fault
from soak_lines import WEEK_DAYS, question
from soak_services import status_bytes
from staying_world import Known
from support.serving import break_off, connected
from support.staying import but_for_log

# After how many seconds a reply does not come, and a service does not end.
SILENCE, TO_END = 30, 12
# How many bytes a service may grow by for each accepted line, for each other one, for each connection, for each account
# of a close, and in any case.
BYTES_ACCEPTED, BYTES_OTHER, BYTES_A_PEER, BYTES_A_QUOTE, BYTES = 400, 60, 12_288, 1_500, 8 << 20
# How many lines a reader sends at once, and how many may wait for their replies.
AT_ONCE, AHEAD = (1, 1, 1, 2, 5, 20), 64
# What lines are answered that wait for a shard which cannot keep its lines.
NOT_NOW = b"NO 30 Busy\n", b"NO 31 Window\n", LATE
HELLO = b"\x16\x03\x01\x02\x00\x01\x00\x01\xfc\x03\x03" + bytes(range(11, 255)) * 2
PAGE = b"POST / HTTP/1.1\r\nHost: 127.0.0.1\r\n\r\nFIX 3 1 7 CREDIT 19730 25\nCLOSE 19736\nSTOP\n"


class Asked(NamedTuple):
    """What waits for a reply: what is done with it, the tap or correction if it is one, and since when."""

    judge: Callable
    known: Optional[Known]
    since: float


class Peer:
    """A connection, and what waits for its replies there."""

    # Whether the service may end it.
    may_end = False

    def __init__(self, serve, port):
        self.serve, self.asked, self.out, self.cut, self.reply = serve, collections.deque(), b"", b"", []
        self.socket = connected(port)
        self.socket.setblocking(False)
        serve.selector.register(self.socket, selectors.EVENT_READ, self)
        serve.peers.add(self)
        serve.world.count["connections"] += 1

    def ask(self, text, judge, known=None):
        self.asked.append(Asked(judge, known, time.monotonic()))
        self.send(text)

    def tell(self, known, begun=0):
        """Sends a tap or a correction, of which so many bytes were sent."""
        was_taken = known.is_taken
        known.sent += 1
        self.serve.world.sent.append(known)
        self.ask(known.text[begun:], lambda reply: self.serve.judge(known, was_taken, reply), known)

    def send(self, text):
        if self not in self.serve.peers:
            return
        before, self.out = self.out, self.out + text
        with contextlib.suppress(OSError):
            self.out = self.out[self.socket.send(self.out):]
        if bool(before) != bool(self.out):
            events = selectors.EVENT_READ | (selectors.EVENT_WRITE if self.out else 0)
            self.serve.selector.modify(self.socket, events, self)

    def ready(self, events):
        if events & selectors.EVENT_WRITE:
            self.send(b"")
        if events & selectors.EVENT_READ and not self.hear():
            if not (self.may_end or self.serve.may_end):
                raise Fault(f"a connection was ended that waits for {len(self.asked)} replies")
            self.leave()

    def hear(self):
        """Hears what has come. Whether more may come."""
        more = b""
        try:
            more = self.socket.recv(1 << 18)
        except BlockingIOError:
            return True
        except ConnectionError:
            pass
        *lines, self.cut = (self.cut + more).split(b"\n")
        for line in lines:
            self.reply.append(line)
            first = self.reply[0]
            is_shown = first.startswith(b"SHOW ") and len(self.reply) <= int(first.split()[3])
            if not is_shown and not line.startswith(b"PAY "):
                whole, self.reply = b"\n".join(self.reply) + b"\n", []
                self.take(whole)
        return bool(more)

    def take(self, reply):
        if not self.asked:
            raise Fault(f"{reply[:200]!r} came, and nothing was asked")
        self.serve.heard += 1
        self.asked.popleft().judge(reply)

    def leave(self, is_reset=False):
        """Ends the connection. What has no reply is lost."""
        if self not in self.serve.peers:
            return
        self.serve.selector.unregister(self.socket)
        self.serve.peers.discard(self)
        break_off(self.socket) if is_reset else self.socket.close()
        self.serve.lost += sum(1 for it in self.asked if it.known)
        for it in reversed(self.asked):
            if it.known:
                self.serve.world.lose(it.known)
        self.asked.clear()


class Stranger(Peer):
    """Who is answered that a line is none, if at all."""

    may_end = True

    def take(self, reply):
        if reply not in (b"NO 50 BadLine\n", b"NO 51 LongLine\n"):
            raise Fault(f"a stranger was answered {reply[:200]!r}")


def byte_by_byte(serve):
    peer = Peer(serve, serve.port)
    for _ in range(serve.draw.randint(1, 5)):
        known = serve.world.next_tap()
        serve.held.append(known)
        for at in range(len(known.text) - 1):
            peer.send(known.text[at:at + 1])
            yield
        if peer not in serve.peers:
            return
        serve.held.remove(known)
        peer.tell(known, len(known.text) - 1)
        while peer.asked:
            yield
    peer.leave()


def stranger(serve):
    """Garbage, a web page's words, a TLS hello, or no newline."""
    draw = serve.draw
    peer = Stranger(serve, draw.choice((serve.port, serve.port, serve.control)))
    garbage = bytes(draw.randrange(256) for _ in range(draw.randint(1, 3_000)))
    for text in draw.choice(((garbage,), (PAGE,), (HELLO,), (b"x" * 1_000,) * 10, (*(b"x" * 1_000,) * 10, b"\n"))):
        peer.send(text)
        yield
    for _ in range(draw.randint(1, 200)):
        yield
    peer.leave(draw.random() < 0.5)


def never_reads(serve):
    with connected(serve.port) as it:
        it.setblocking(False)
        for _ in range(serve.draw.randint(100, 3_000)):
            with contextlib.suppress(BlockingIOError):
                it.send(b"DUE 7 19730\n" * 500)
            yield


def comes_and_goes(serve):
    for _ in range(serve.draw.randint(1, 300)):
        for _ in range(10):
            with connected(serve.port) as it:
                serve.world.count["connections"] += 1
                if serve.draw.random() < 0.5:
                    break_off(it)
        yield


KINDS = byte_by_byte, stranger, stranger, never_reads, comes_and_goes


class Reader:
    """Who taps, and connects again where the connection was lost."""

    def __init__(self, serve):
        self.serve, self.peer = serve, Peer(serve, serve.port)

    def act(self):
        serve, draw = self.serve, self.serve.draw
        if self.peer not in serve.peers:
            self.peer = Peer(serve, serve.port)
        waiting = self.peer.asked
        if waiting and time.monotonic() - waiting[0].since > SILENCE:
            raise Fault(f"no reply for {SILENCE} seconds, while {len(waiting)} lines wait")
        if draw.random() < 0.01 and (serve.plan.is_lossy or not waiting):
            if serve.plan.is_lossy:
                self.say()
            known = serve.world.next_tap()
            self.peer.send(known.text[:draw.randrange(len(known.text))])
            self.peer.leave(draw.random() < 0.5)
            serve.world.lose(known)
            serve.world.count["connections lost"] += 1
        elif len(waiting) < AHEAD:
            self.say()

    def say(self):
        serve, draw = self.serve, self.serve.draw
        for _ in range(draw.choice(AT_ONCE)):
            if draw.random() < 0.9:
                self.peer.tell(serve.world.next_tap())
            elif draw.random() < 0.1:
                self.peer.ask(b"CLOSE 19730\n", serve.expects((b"NO 34 NotHere\n",)))
            else:
                it = question(draw.randint(1, serve.world.accounts or 1), draw.choice(WEEK_DAYS), draw.random() < 0.7)
                self.peer.ask(it.text, serve.expects(it.fits))


class Serve:
    """One service from its beginning to its end."""

    def __init__(self, world, plan, service):
        self.world, self.plan, self.draw, self.service = world, plan, world.draw, service
        self.process, self.port, self.control = service.ran, service.port, service.control
        self.selector, self.peers, self.held = selectors.DefaultSelector(), set(), []
        # The replies that were heard, OK and AGAIN among them, and the taps and corrections whose replies were lost.
        self.heard, self.verbs, self.lost = 0, [0, 0], 0
        # Whether connections may end, whether nobody speaks, and what STATS said last.
        self.may_end, self.is_quiet, self.stats = False, False, None
        self.base, self.grown, self.most = status_bytes(self.process, "VmRSS"), 0, 0
        self.closing, self.acts = 0, 0.0
        self.before = self.next_close = self.next_stats = time.monotonic()

    def expects(self, fits):
        def judge(reply):
            if not (self.is_held_up(reply) or reply.startswith(fits) and FORMS.fullmatch(reply)):
                raise Fault(f"what should be answered {fits} was answered {reply[:200]!r}")

        return judge

    def is_held_up(self, reply):
        """Whether a line is refused as a shard cannot keep lines."""
        is_so = reply in NOT_NOW and self.plan.end == "FULL" and self.may_end
        self.world.count["held up"] += is_so
        return is_so

    def judge(self, known, was_taken, reply):
        if self.is_held_up(reply):
            self.lost += 1
            self.world.lose(known)
        else:
            self.verbs[not self.world.judge(known, was_taken, reply)] += 1

    def begin(self):
        self.staff = [Peer(self, self.control) for _ in range(2)]
        self.readers = [Reader(self) for _ in range(self.plan.readers)]
        self.strangers = [self.draw.choice(KINDS)(self) for _ in range(self.plan.strangers)]

    def step(self):
        """Hears what has come, and has some speak."""
        self.world.count["steps"] += 1
        for key, events in self.selector.select(0.004):
            if key.data in self.peers:
                key.data.ready(events)
        if self.process.poll() is not None and not self.may_end:
            raise Fault("the service ended")
        now = time.monotonic()
        self.acts, self.before = min(self.acts + self.plan.rate * (now - self.before), 400), now
        if self.is_quiet:
            return
        try:
            while self.acts >= 1:
                self.acts -= 1
                self.draw.choice(self.readers).act()
            for at, it in enumerate(self.strangers):
                if next(it, self) is self:
                    self.strangers[at] = self.draw.choice(KINDS)(self)
            self.have_staff_speak(now)
        except OSError:
            if not self.may_end:
                raise

    def have_staff_speak(self, now):
        first, second = self.staff
        if first not in self.peers or second not in self.peers:
            return
        fixes = self.world.fixes
        while len(fixes) * 14 > len(self.world.taps) + 14 and len(second.asked) < AHEAD:
            self.draw.choice(self.staff if not first.asked else [second]).tell(fixes.popleft())
        if now > self.next_close and not self.closing:
            self.close(first)
            if self.draw.random() < 0.2:
                self.close(second)
        if now > self.next_stats:
            self.next_stats = now + 0.5
            second.ask(b"STATS\n", self.take_stats)

    def close(self, peer):
        day, had = self.world.day, dict(self.world.has)
        self.closing += 1

        def judge(reply):
            self.closing -= 1
            self.next_close = time.monotonic() + self.plan.pause
            if not (self.plan.end == "FULL" and self.may_end and reply == b"NO 43 Store\n"):
                self.world.judge_close(day, had, reply)

        peer.ask(b"CLOSE %d\n" % day, judge)

    def take_stats(self, reply):
        """Keeps what is counted, but for STATS itself, and looks at the memory."""
        self.heard -= 1
        name, *words = reply.decode().split()
        self.stats = {word: int(number) for word, number in (it.split("=") for it in words)}
        accepted, lines = self.stats["accepted"], self.stats["lines"]
        if name != "STATS" or self.stats["dropped"]:
            raise Fault(f"STATS is {reply!r}")
        self.grown = status_bytes(self.process, "VmRSS") - self.base
        most = BYTES_ACCEPTED * accepted + BYTES_OTHER * (lines - accepted) + BYTES_A_QUOTE * len(self.world.has)
        most += BYTES + BYTES_A_PEER * len(self.peers)
        self.most = max(self.most, self.grown / most)
        if self.grown > most:
            raise Fault(f"it holds {self.grown:,} bytes more after {accepted:,} accepted lines of {lines:,}")

    def until(self, is_so, what):
        began = time.monotonic()
        while not is_so():
            self.step()
            if time.monotonic() - began > SILENCE:
                raise Fault(f"{what} did not come in {SILENCE} seconds")

    def counted(self):
        """Whether STATS counts what was answered: exactly, where no reply was lost."""
        self.stats = None
        self.staff[1].ask(b"STATS\n", self.take_stats)
        self.until(lambda: self.stats, "STATS")
        counts = self.stats["accepted"], self.stats["again"]
        more = [count - heard for count, heard in zip(counts, self.verbs)]
        return min(more) >= 0 and sum(more) <= self.lost and self.stats["lines"] >= self.heard

    def settle(self):
        """Waits until all is answered, and compares what is counted."""
        self.is_quiet = True
        self.until(lambda: not any(peer.asked for peer in self.peers), "the last replies")
        until = time.monotonic() + 2
        while not self.counted():
            if time.monotonic() > until:
                raise Fault(f"STATS counts {self.stats}, and {self.verbs} were heard, and {self.lost} lost")
        self.world.count["counted exactly"] += not self.lost
        self.is_quiet = False

    def go(self):
        """Goes its way, and ends."""
        self.begin()
        until, next_settle = time.monotonic() + self.plan.seconds, time.monotonic() + 2
        while time.monotonic() < until:
            self.step()
            if time.monotonic() > next_settle:
                self.settle()
                next_settle = time.monotonic() + 4
        if self.plan.end != "KILL":
            self.settle()
        began, self.may_end = time.monotonic(), True
        self.end()
        while self.process.poll() is None:
            self.step()
            if time.monotonic() - began > TO_END:
                raise Fault(f"it did not end by {self.plan.end} in {TO_END} seconds")
        self.check_end(time.monotonic() - began)

    def end(self):
        if self.plan.end == "STOP":
            self.staff[1].ask(b"STOP\n", lambda reply: self.stopped.append(reply))
            self.stopped = []
        elif self.plan.end == "KILL":
            self.process.kill()
        else:
            # One of the journals has room for a line or a few.
            name = self.draw.choice([it for it in os.listdir(self.world.journals) if it.endswith(".lines")])
            room = os.path.getsize(os.path.join(self.world.journals, name)) + self.draw.randint(0, 100)
            resource.prlimit(self.process.pid, resource.RLIMIT_FSIZE, (room, resource.RLIM_INFINITY))

    def check_end(self, seconds):
        for peer in list(self.peers):
            while peer.hear():
                pass
            peer.leave()
        for known in self.held:
            self.world.lose(known)
        for it in self.strangers:
            it.close()
        self.selector.close()
        status, said = self.process.returncode, but_for_log(self.process.stderr.read()).decode()
        if self.plan.end == "STOP":
            is_right = status == 0 and not said and self.stopped == [b"BYE\n"]
        elif self.plan.end == "KILL":
            is_right = status == -9 and not said
        else:
            is_right = status == 1 and "farebox: cannot keep lines in " in said and said.endswith(": journal fault\n")
        if not is_right:
            raise Fault(f"it ended by {self.plan.end} with status {status}, and said {said!r}")
        self.world.count[f"ended by {self.plan.end}"] += 1
        self.seconds_to_end = seconds
