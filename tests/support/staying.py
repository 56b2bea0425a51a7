"""Services that stay: how one is started, and how whoever comes speaks to it."""

import contextlib
import re
import subprocess
from typing import NamedTuple

from support.repository import LONDON
from support.running import FARES, End, answers, heard, started
from support.serving import HOST, ended, free_ports, talk


# What the log has of the ordinary course, but for where a service listens.
ORDINARY = (
    rb"farebox: (?:took \d+ lines of journals in \d+\.\d s|closed day \d+, [-\d]{10}: \d+ postings|connection lost: [^\n]*"
    rb"|staff stop the service|stopped)\n"
)


def but_for_log(errors):
    """What standard error has but for the ordinary course."""
    return re.sub(ORDINARY, b"", errors)


class Staying(NamedTuple):
    """A service, its port for everybody, that for staff, and what it said until it answered lines."""

    ran: subprocess.Popen
    port: int
    control: int
    said: bytes

    def ended(self):
        """What it comes to, but for what its log has of the ordinary course."""
        came = ended(self.ran, self.said)
        return came._replace(errors=but_for_log(came.errors))

    def stopped(self, greeting=b""):
        """The same where it is told to stop, after its greeting, if it has one."""
        replies = talk(self.control, greeting + b"STOP\n")
        came = self.ended()
        return came._replace(output=replies + came.output)

    def wanted(self):
        """What it has to come to then."""
        return End(0, b"BYE\n", both_listening(self.port, self.control))


def staying_words(port, control, journals, ledger, lanes=2, shards=2, fares=FARES, more=()):
    numbers = {"port": port, "lanes": lanes, "shards": shards, "control": control}
    files = ["--journal", journals, "--ledger", ledger]
    return ["serve", fares, LONDON, *(f"--{name}={number}" for name, number in numbers.items()), *files, *more]


def both_listening(port, control):
    """What is said once lines are answered."""
    return f"farebox: listening on {HOST}:{port}, for staff on {HOST}:{control}\n".encode()


def said_at_start(stream, port, control):
    """What is said until lines are answered."""
    said = b""
    while not said.endswith(both_listening(port, control)):
        line = line_heard(stream)
        if not line:
            break
        said += line
    return said


@contextlib.contextmanager
def staying(journals, ledger, lanes=2, shards=2, more=(), fares=FARES, **how):
    """A service that stays, once it answers lines."""
    port = free_ports(2)
    words = staying_words(port, port + 1, journals, ledger, lanes, shards, fares, more)
    with started(words, stdin=subprocess.DEVNULL, **how) as ran:
        yield Staying(ran, port, port + 1, said_at_start(ran.stderr, port, port + 1))


def asked(peer, line, reply):
    """What a peer hears to a line, as many bytes as this reply has."""
    peer.sendall(line.encode())
    return answers(heard(peer, len(reply)))


def line_heard(peer):
    """A line that a peer hears, however long it is."""
    line = b""
    while not line.endswith(b"\n"):
        byte = heard(peer, 1)
        if not byte:
            break
        line += byte
    return line
