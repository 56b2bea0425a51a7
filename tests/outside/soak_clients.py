"""Clients that lose their connections, and send again what has no reply."""

import collections
import contextlib
import re
import socket
import time
from typing import NamedTuple

from support.serving import break_off, connected

# The seconds after which a lane without a reply hangs: more than memory is ever out, and a late reply on top of it.
SILENCE = 90
# How often a line may be refused for now.
MOST_TRIES = 50_000
# How many connections of a lane are kept for what is left when the others are used up.
SPARE = 40

LATE, NO_MEMORY = b"NO 52 Late\n", b"NO 90 Memory\n"
FOR_NOW = (NO_MEMORY, b"NO 30 Busy\n", b"NO 31 Window\n", LATE)
FORMS = re.compile(
    rb"(?:(?:OK|AGAIN) \d+ \d+ \d+|DUE \d+ \d+ \d+ \d+ \d+(?: \d+=\d+)*|NO \d+ [A-Za-z]+"
    rb"|SHOW \d+ \d+ \d+ \d+(?:\nJNY (?:RAIL|SAME|LONE|BUS) \d+ \d+ \d+ \d+)*)\n"
)


class Fault(Exception):
    """What must not be."""


class Way(NamedTuple):
    """How a connection goes: how many lines are sent, how many ahead, and how it ends."""

    count: int
    ahead: int
    # By QUIT, by the end of what is sent, by a close or by a reset. The last two lose all but so many replies.
    end: str
    heard: int = 0
    # How much of the next line is sent without the rest of it, and how many lines after QUIT.
    cut: float = 0
    after: int = 0

    @property
    def is_lost(self):
        return self.end in ("close", "reset")


WHOLE = Way(count=1 << 60, ahead=64, end="quit")
NOTHING = WHOLE._replace(count=0)


def way_of(draw):
    count = draw.randint(0, draw.choice((2, 20, 100, 400)))
    end = draw.choices(("quit", "end", "close", "reset"), (2, 2, 3, 3))[0]
    cut = draw.random() if draw.random() < 0.3 else 0
    return Way(count, draw.choice((1, 4, 16, 64, 256)), end, draw.randint(0, count), cut, draw.choice((0, 0, 3)))


def grouped(lines):
    """Replies, each with all its lines."""
    lines = iter(lines)
    for first in lines:
        reply = [first]
        if first.startswith(b"SHOW "):
            reply += (next(lines, b"") for _ in range(int(first.split()[3])))
        elif first.startswith(b"PAY "):
            while reply[-1].startswith(b"PAY "):
                reply.append(next(lines, b""))
        yield b"".join(it + b"\n" for it in reply)


class Connection:
    """A connection of a client, which goes its way."""

    def __init__(self, client, way, peer):
        self.client, self.way, self.peer = client, way, peer
        # Where what is said on it begins, how many replies were heard, and how many are still to be heard before it may
        # be lost.
        self.first, self.heard, self.needed = len(client.said), 0, 0
        self.cut_line = b""
        self.replies = grouped(self.lines())

    @property
    def sent(self):
        return len(self.client.said) - self.first

    def lines(self):
        """The lines that come until the other side ends."""
        while True:
            try:
                more = self.peer.recv(1 << 16)
            except socket.timeout:
                raise Fault(f"the lane is silent for {SILENCE} seconds") from None
            except ConnectionError:
                return
            if not more:
                return
            *whole, self.cut_line = (self.cut_line + more).split(b"\n")
            yield from whole

    def send(self, text):
        """Sends bytes. That the other side has broken the connection shows when it is heard."""
        with contextlib.suppress(ConnectionError):
            self.peer.sendall(text)

    def is_all_sent(self):
        return self.sent >= self.way.count or not self.client.left

    def send_ahead(self):
        """Sends lines, as many ahead as may be, once half of those are answered."""
        if self.sent - self.heard > self.way.ahead // 2:
            return
        more = []
        while not self.is_all_sent() and self.sent - self.heard < self.way.ahead:
            line = self.client.left.popleft()
            self.client.said.append([line, None])
            self.needed += line in self.client.unsure
            more.append(line.text)
        if more:
            self.send(b"".join(more))

    def hear(self):
        """Hears the reply to the oldest line that has none. Whether one came."""
        reply = next(self.replies, None)
        if reply is None:
            return False
        said = self.client.said[self.first + self.heard]
        self.heard += 1
        self.needed -= said[0] in self.client.unsure
        self.client.judge(said, reply)
        return True

    def is_to_be_lost(self):
        return self.way.is_lost and self.heard >= self.way.heard and not (
            self.client.service.plan.shape.fills and self.needed
        )

    def speak(self):
        """Sends lines and hears replies until nothing is to be sent, or the connection is to be lost. Whether the
        replies came."""
        while True:
            self.send_ahead()
            if self.is_to_be_lost() or self.heard == self.sent or not self.way.is_lost and self.is_all_sent():
                return True
            if not self.hear():
                return False

    def cut(self):
        """A line without its newline, or a part of it."""
        text = self.client.left[0].text[:-1] if self.client.left else b"TAP 1 1 7 1704697200 50 BUS"
        return text[:max(1, int(self.way.cut * (len(text) + 1)))]

    def lose(self):
        if self.way.cut:
            self.send(self.cut())
        if self.way.end == "reset":
            break_off(self.peer)
        self.client.count[f"lost by a {self.way.end}"] += 1

    def finish(self):
        """Ends what is sent, and hears all that is to come. Whether it came."""
        last = None
        if self.way.end == "quit":
            after = [it.text for it, _ in zip(self.client.left, range(self.way.after))]
            self.send(b"QUIT\n" + b"".join(after))
            last = b"BYE\n"
        else:
            cut = self.cut() if self.way.cut else b""
            if cut:
                self.send(cut)
                last = b"NO 51 LongLine\n" if len(cut) > 128 else b"NO 50 BadLine\n"
            with contextlib.suppress(OSError):
                self.peer.shutdown(socket.SHUT_WR)
        while self.heard < self.sent:
            if not self.hear():
                return False
        came = b"".join(self.replies) + self.cut_line
        if came == b"" and last and not self.sent:
            return False
        if came != (last or b""):
            raise Fault(f"after the last line came {came[:200]!r}, and not {last!r}")
        self.client.count[f"ended by {'QUIT' if self.way.end == 'quit' else 'the end of what is sent'}"] += 1
        return True

    def go(self):
        """Goes its way. Whether the service took part."""
        if not self.speak():
            return False
        if not self.way.is_lost:
            return self.finish()
        self.lose()
        return True


class Client:
    """Who speaks on a lane: what is left to be said, and what was said, each with the reply that was heard."""

    def __init__(self, service, lane, lines, draw):
        self.service, self.lane, self.port, self.draw = service, lane, service.port + lane, draw
        self.left = collections.deque(lines)
        self.said = []
        # Between which places of what was said replies were lost with the connection.
        self.losses = []
        # The lines of which a reply was lost, and none was heard since.
        self.unsure = set()
        self.connections = 0
        self.tries = collections.Counter()
        self.count = collections.Counter()

    def judge(self, said, reply):
        """Keeps the reply to a line, which has to be one of its kind."""
        line = said[0]
        said[1] = reply
        if reply in FOR_NOW:
            self.try_again(line, reply)
        elif reply.startswith(line.fits) and FORMS.fullmatch(reply):
            self.unsure.discard(line)
        else:
            raise Fault(f"{line.text!r} was answered {reply[:200]!r}")
        self.count[(reply[:-1] if reply.startswith(b"NO ") else reply.split(b" ", 1)[0]).decode()] += 1

    def try_again(self, line, reply):
        """Has a line sent again that is refused for now."""
        may_be = self.service.may_lack if reply == NO_MEMORY else self.service.may_be_late
        if not (line.is_put and may_be):
            raise Fault(
                f"{line.text!r} was answered {reply!r}, though "
                f"{'nothing is wanting' if line.is_put else 'no shard answers it'}"
            )
        self.tries[line] += 1
        if self.tries[line] > MOST_TRIES:
            raise Fault(f"{line.text!r} was refused {MOST_TRIES:,} times, at last by {reply!r}")
        self.left.appendleft(line)
        self.count["again"] += 1
        if not self.service.lifted.is_set():
            time.sleep(0.005)

    def connect(self, way):
        """One connection. What has no reply after it is to be sent again."""
        self.connections += 1
        if self.connections >= self.service.plan.sessions:
            raise Fault(
                f"no connection is left for {len(self.left):,} lines; for "
                f"{self.count['without memory']:,} there was no memory"
            )
        try:
            opened = connected(self.port)
        except OSError as error:
            raise Fault(f"connection {self.connections} of {self.service.plan.sessions} is refused: {error}") from None
        with opened as peer:
            peer.settimeout(SILENCE)
            it = Connection(self, way, peer)
            first = it.first
            is_served = it.go()
        self.count["sent"] += it.sent
        if is_served:
            self.keep_unheard(first + it.heard)
            return
        if it.heard or it.cut_line or not self.service.may_lack:
            raise Fault(f"the service ended a connection after {it.heard} of {it.sent} replies")
        # Without memory for a connection nothing is taken.
        self.count["without memory"] += 1
        self.count["again"] += it.sent
        self.left.extendleft(line for line, _ in reversed(self.said[first:]))
        del self.said[first:]
        self.service.lifted.wait(SILENCE)

    def keep_unheard(self, first):
        unheard = [line for line, _ in self.said[first:]]
        if unheard:
            self.losses.append((first, len(self.said)))
            self.left.extendleft(reversed(unheard))
            self.unsure.update(unheard)
            self.count["again"] += len(unheard)

    def say_all(self):
        """Says all lines, and loses connections as long as enough of them are left."""
        while self.left:
            is_short = self.connections >= self.service.plan.sessions - SPARE
            self.connect(WHOLE if is_short else way_of(self.draw))

    def ask(self, lines):
        """The replies to questions, while nothing is wanting."""
        first = len(self.said)
        self.left.extend(lines)
        self.connect(WHOLE)
        return [reply for _, reply in self.said[first:]]
