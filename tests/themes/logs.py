"""The log: lines for people on standard error, by their levels where that is the system's journal, and what a service that
stays says of its course."""

import os
import re
import select
import time

from support.journals import new_folder
from support.repository import BUS, LONDON
from support.running import (
    FARES, MISSING, MONDAY, RUN, TIME_TO_REPLY, USAGE, End, answers, dated, fault, run, written,
)
from support.serving import boarding, break_off, connected, ended, paid, talk
from support.staying import asked, both_listening, line_heard, staying
from support.theme import Theme

BOARDED = "OK 19730 175 175\n"
# A day whose end is to come, and one that no clock is before.
TO_COME = 40_000
TOOK = rb"farebox: took (\d+) lines of journals in \d+\.\d s\n"
LOST = rb"farebox: connection lost: connection reset(?: \((\d+) more in between\))?\n"
# How the program is run by a service manager that takes its standard error into the system's journal, and without one.
BY_HAND = dict(os.environ)
OF_A_SERVICE = {**BY_HAND, "JOURNAL_STREAM": "8:12345"}


def with_level(level, errors):
    """Lines as the journal reads their level."""
    return b"".join(b"<%d>" % level + line for line in errors.splitlines(keepends=True))


def numbers_of(line):
    """The numbers of a reply to STATS, by their names."""
    return {name: int(number) for name, number in (it.split("=") for it in line.decode().split()[1:])}


class Logs(Theme):
    """What people are told, and where."""

    def files(self):
        return new_folder(self.folder), os.path.join(self.folder, "ledger.db")

    def test_levels(self):
        """Each line begins with its level where standard error is the system's journal, and with nothing elsewhere."""
        _, ledger = self.files()
        bad, warned = written(self.folder, "bad.toml", b"="), End(0, b"", b"farebox: warning: no bands\n")
        missing = f"cannot keep refused lines in {MISSING}"
        early = fault(f"close of {dated(TO_COME)} refused: it is not over (see --early)", b"NO 49 NotOver\n")
        with_ledger = [*RUN, "--ledger", ledger]
        service = ["serve", FARES, LONDON, "--port=9", "--control=10", "--journal", new_folder(self.folder, "taps")]
        service += ["--lanes=1", "--shards=1", "--ledger", ledger]
        for name, level, words, lines, wanted in (
            ("no words", 3, [], b"", USAGE),
            ("no fares", 3, ["run", MISSING, LONDON], b"", fault("cannot read fares")),
            ("fares that are none", 3, ["check", MISSING], b"", fault("cannot read fares")),
            ("fares that are bad", 3, ["check", bad], b"", fault("10 NotToml")),
            ("fares without caps", 4, ["run", BUS, LONDON, *with_ledger[-2:]], b"", warned),
            ("a day to come", 4, with_ledger, f"CLOSE {TO_COME}\n".encode(), early),
            ("no file for refused lines", 3, [*service, "--refused", MISSING], b"", fault(missing)),
        ):
            self.check(f"{name}, by hand", run(words, lines, env=BY_HAND), wanted)
            leveled = wanted._replace(errors=with_level(level, wanted.errors))
            self.check(f"{name}, of a service", run(words, lines, env=OF_A_SERVICE), leveled)

    def test_course(self):
        """A service says what its start took, what it closes, and how it ends."""
        journals, ledger = self.files()
        written(journals, "0.lines", boarding(8).encode())
        # A part of a line, which is cut off.
        written(journals, "1.lines", (boarding(7) + boarding(9) + boarding(11)[:20]).encode())
        for name, how, prefix in (("by hand", BY_HAND, b""), ("of a service", OF_A_SERVICE, b"<6>")):
            with staying(journals, ledger, env=how) as service:
                self.check(f"{name}, how its start went", re.sub(TOOK, rb"\1", service.said.replace(prefix, b"")),
                           b"3" + both_listening(service.port, service.control))
                made = 3 if not prefix else 0
                talk(service.control, b"CLOSE 19730\nCLOSE 19730\nQUIT\n")
                talk(service.control, b"STOP\n")
                came = ended(service.ran, b"")
                self.check(f"{name}, its course", came, answers(b"")._replace(errors=with_prefix(prefix, (
                    f"closed {dated(MONDAY)}: {made} postings", f"closed {dated(MONDAY)}: 0 postings",
                    "staff stop the service", "stopped",
                ))))

    def test_lost_connections(self):
        """Connections that are lost are told once a second, whichever lane had them, and none goes uncounted."""
        journals, ledger = self.files()
        count = 40
        with staying(journals, ledger, lanes=3, env=BY_HAND) as service:
            begun = time.monotonic()
            for number in range(count):
                self.lose(service, number)
            time.sleep(1.2)
            self.lose(service, count)
            said = []
            while self.lost(said) < count + 1 and time.monotonic() < begun + TIME_TO_REPLY:
                if select.select([service.ran.stderr], [], [], 0.1)[0]:
                    said.append(line_heard(service.ran.stderr))
            passed = time.monotonic() - begun
            self.check("how many are told or counted", self.lost(said), count + 1)
            self.check("whether that is once a second", 1 < len(said) <= passed + 1, True)
            self.check("what else is said", [line for line in said if not re.fullmatch(LOST, line)], [])
            # One that ends by itself is not lost.
            talk(service.port, b"DUE 7 19730\nQUIT\n")
            self.check("how it ends", service.stopped(), service.wanted())

    def lose(self, service, number):
        """Breaks a connection of which a line was answered."""
        peer = connected(service.port)
        asked(peer, boarding(100 + number), BOARDED)
        break_off(peer)

    @staticmethod
    def lost(said):
        """How many connections were lost by these lines."""
        return sum(1 + int(found[1] or 0) for found in (re.fullmatch(LOST, line) for line in said) if found)

    def test_numbers(self):
        """STATS says what the journals and the memory take, and what the last close was."""
        journals, ledger = self.files()
        written(journals, "9.lines", boarding(8).encode())
        with staying(journals, ledger, lanes=1) as service, connected(service.control) as staff:
            numbers = self.numbers(staff)
            self.check("before a close", sorted(it for it in numbers if it.startswith("close")), [])
            self.check("what the journals take", numbers["journal_bytes"], len(boarding(8)))
            for account in 7, 9:
                self.check("a tap", asked(staff, boarding(account), BOARDED), answers(BOARDED.encode()))
            began = time.monotonic()
            reply = f"{paid(7)}{paid(8)}{paid(9)}DONE {MONDAY} 3\n"
            self.check("a close", asked(staff, "CLOSE 19730\n", reply), answers(reply.encode()))
            time.sleep(1.1)
            numbers = self.numbers(staff)
            passed = time.monotonic() - began
            self.check("what they take then", numbers["journal_bytes"], sum(len(boarding(it)) for it in (7, 8, 9)))
            self.check("the close", [numbers[f"close_{it}"] for it in ("day", "postings")], [MONDAY, 3])
            self.check("when that was", 1 <= numbers["close_seconds"] <= passed, True)
            with open(f"/proc/{service.ran.pid}/statm", encoding="ascii") as sizes:
                resident = int(sizes.read().split()[1]) * 4096
            self.check("the memory", abs(numbers["memory_bytes"] - resident) <= 1 << 20, True)
            reply = f"{paid(7)}{paid(8)}{paid(9)}DONE {MONDAY} 3\n"
            self.check("the same close", asked(staff, "CLOSE 19730\n", reply), answers(reply.encode()))
            self.check("what it made", self.numbers(staff)["close_postings"], 0)
            refused = f"CLOSE {TO_COME}\n", "NO 49 NotOver\n"
            self.check("one that is refused", asked(staff, *refused), answers(refused[1].encode()))
            self.check("the last close", self.numbers(staff)["close_day"], MONDAY)

    @staticmethod
    def numbers(staff):
        staff.sendall(b"STATS\n")
        return numbers_of(line_heard(staff))


def with_prefix(prefix, lines):
    """Lines of the log, each behind this."""
    return b"".join(prefix + f"farebox: {line}\n".encode() for line in lines)
