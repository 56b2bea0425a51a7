"""Services that stay: who may ask what, who comes and stays, what staff close, and how they end and go on."""

import contextlib
import os
import resource
import shutil
import signal
import socket
import threading
import time

from support.journals import new_folder, with_both
from support.kept import rows_of_ledger
from support.running import (
    MISSING, MONDAY, RUN, SEVEN, answers, bytes_of, fault, heard, limited_to, run, written,
)
from support.serving import (
    boarding, break_off, come_and_go, connected, is_free, paid, rest_of, side_by_side, talk, talk_ahead,
)
from support.staying import asked, both_listening, line_heard, staying, staying_words
from support.theme import Theme

CREDIT = "FIX 3 1 7 CREDIT 19730 25\n"
BOARDED, AGAIN, NOT_HERE = "OK 19730 175 175\n", "AGAIN 19730 175 175\n", "NO 34 NotHere\n"


def due(account, pence=175):
    return f"DUE {account} {MONDAY} {MONDAY} 1 {pence} 4={pence}\n"


def path_of(journals, number):
    return os.path.join(journals, f"{number}.lines")


def hears_nothing_more(peer):
    """That a peer's connection has ended."""
    try:
        return rest_of(peer) == b""
    except ConnectionResetError:
        return True


def counted(line):
    """What STATS counts of connections and lines: what it knows of files stands behind the last refusal."""
    words = line.decode().split()
    return words[:1 + max(place for place, word in enumerate(words) if word.startswith("refused_"))]


# Account 7 boards, is charged, boards again after more than an hour, and is charged again.
POSTED_TWICE = [
    "   1.75  through day 19730, 2024-01-08: 1.75 due; taps and corrections accepted: 1 then, 2 now",
    "         1.75  of it to operator 4",
    "   1.75  through day 19730, 2024-01-08: 3.50 due; taps and corrections accepted: 2 then, 2 now",
    "         1.75  of it to operator 4",
]


class Stays(Theme):
    """One service, and those that go on with its files."""

    def files(self):
        return new_folder(self.folder), os.path.join(self.folder, "ledger.db")

    def check_talk(self, name, peer, pairs):
        for line, reply in pairs:
            self.check(f"{name}, {line.rstrip()[:40]}", asked(peer, line, reply), answers(reply.encode()))

    def check_stopped(self, name, service):
        self.check(name, service.stopped(), service.wanted())

    def check_is(self, name, is_so):
        self.check(name, answers(str(is_so).encode()), answers(b"True"))

    def test_who_may_ask(self):
        """Readers and customers tap and ask; staff correct, close and stop too."""
        journals, ledger = self.files()
        with staying(journals, ledger) as service:
            with connected(service.port) as reader, connected(service.control) as staff:
                self.check_talk(
                    "at the port for everybody", reader,
                    (
                        (boarding(7), BOARDED), (boarding(7), AGAIN), ("DUE 7 19730\n", due(7)), (CREDIT, NOT_HERE),
                        ("CLOSE 19730\n", NOT_HERE), ("STOP\n", "NO 50 BadLine\n"), (boarding(8), BOARDED),
                    ),
                )
                self.check_talk(
                    "at that for staff", staff,
                    (
                        (boarding(9), BOARDED), (CREDIT, BOARDED),
                        ("DUE 7 19730\n", f"DUE 7 {MONDAY} {MONDAY} 2 150 4=150\n"),
                        (
                            "CLOSE 19730\n",
                            f"PAY 7 {MONDAY} {MONDAY} 2 150 150 4=150\n{paid(8)}{paid(9)}DONE {MONDAY} 3\n",
                        ),
                        ("STOPS\n", "NO 50 BadLine\n"), (" STOP\n", "NO 50 BadLine\n"), ("QUIT\n", "BYE\n"),
                    ),
                )
                self.check_is("whether staff's connection has ended", hears_nothing_more(staff))
                self.check_talk("and the other goes on", reader, ((boarding(10), BOARDED),))
            self.check_stopped("how it ends", service)
        lines = (boarding(8) + boarding(10), boarding(7) + boarding(9) + CREDIT)
        self.check("what shard 0 kept", bytes_of(path_of(journals, 0)), lines[0].encode())
        # Account 7 was corrected after account 9 had its tap.
        self.check("what shard 1 kept", bytes_of(path_of(journals, 1)), lines[1].encode())
        # A session with the same lines, closed once, has the same ledger.
        other = os.path.join(self.folder, "other.db")
        journal = written(self.folder, "journal", "".join((*lines[1:], lines[0])).replace(boarding(10), "").encode())
        run([*RUN, "--journal", journal, "--ledger", other], b"CLOSE 19730\nQUIT\n")
        self.check("what its ledger has", rows_of_ledger(ledger), rows_of_ledger(other))

    def test_goes_on(self):
        """Another service, with other numbers of lanes and shards, begins with what this one had."""
        journals, ledger = self.files()
        with staying(journals, ledger) as service:
            self.check_stopped_after(service, (boarding(7), BOARDED))
        with staying(journals, ledger, lanes=3, shards=5) as service:
            with connected(service.control) as staff:
                self.check_talk(
                    "the next", staff,
                    (
                        (boarding(7), AGAIN), ("CLOSE 19730\n", f"{paid(7)}DONE {MONDAY} 1\n"),
                        (CREDIT, BOARDED),
                        ("CLOSE 19730\n", f"PAY 7 {MONDAY} {MONDAY} 2 150 -25 4=-25\nDONE {MONDAY} 1\n"),
                    ),
                )
            service.ran.kill()
        with staying(journals, ledger, lanes=1, shards=16) as service:
            with connected(service.control) as staff:
                self.check_talk(
                    "the one after a kill", staff,
                    (
                        (CREDIT, "AGAIN 19730 175 175\n"),
                        ("CLOSE 19730\n", f"PAY 7 {MONDAY} {MONDAY} 2 150 -25 4=-25\nDONE {MONDAY} 1\n"),
                    ),
                )
            self.check_stopped("how it ends", service)

    def check_stopped_after(self, service, *pairs):
        with connected(service.port) as reader:
            self.check_talk("the first", reader, pairs)
        self.check_stopped("how the first ends", service)

    def test_many_readers(self):
        """Many readers hold a connection each, and none of them holds a lane."""
        journals, ledger = self.files()
        count = 400
        with staying(journals, ledger, shards=4) as service, contextlib.ExitStack() as opened:
            silent = [opened.enter_context(connected(service.port)) for _ in range(50)]
            # One has sent a line in part.
            silent[0].sendall(boarding(1).encode()[:9])
            readers = [opened.enter_context(connected(service.port)) for _ in range(count)]
            turns = (boarding, lambda _: BOARDED), (lambda account: f"DUE {account} {MONDAY}\n", due)
            for turn, (line_of, reply_of) in enumerate(turns):
                for account, reader in enumerate(readers, 2):
                    reader.sendall(line_of(account).encode())
                for account, reader in enumerate(readers, 2):
                    reply = reply_of(account)
                    self.check(
                        f"turn {turn} of account {account}", answers(heard(reader, len(reply))), answers(reply.encode())
                    )
            silent[0].sendall(boarding(1).encode()[9:])
            self.check("the line in two parts", answers(heard(silent[0], len(BOARDED))), answers(BOARDED.encode()))
            reply = "".join(map(paid, range(1, count + 2))) + f"DONE {MONDAY} {count + 1}\n"
            with connected(service.control) as staff:
                self.check("their close", asked(staff, "CLOSE 19730\n", reply), answers(reply.encode()))
            self.check_stopped("how it ends", service)
            self.check_is("whether all connections have ended", all(map(hears_nothing_more, readers[:20])))

    def test_byte_by_byte(self):
        """Two peers whose lines come byte by byte, in turns."""
        journals, ledger = self.files()
        with staying(journals, ledger, lanes=1) as service:
            with connected(service.port) as first, connected(service.port) as second:
                for pair in zip(boarding(17), boarding(18)):
                    for peer, byte in zip((first, second), pair):
                        peer.sendall(byte.encode())
                        time.sleep(0.0005)
                for name, peer in (("the first", first), ("the second", second)):
                    self.check(name, answers(heard(peer, len(BOARDED))), answers(BOARDED.encode()))
                # A last number may have been cut.
                first.sendall(b"DUE 17 19730")
                first.shutdown(socket.SHUT_WR)
                self.check("a rest without a newline", answers(rest_of(first)), answers(b"NO 50 BadLine\n"))
            self.check_stopped("how it ends", service)

    def test_strangers(self):
        """What begins with no command is ended after its first line: no web page speaks to a port, and nothing of it
        is taken."""
        journals, ledger = self.files()
        with staying(journals, ledger) as service:
            for number, (text, reply) in enumerate((
                (b"GET / HTTP/1.1\r\nHost: 127.0.0.1\r\n\r\n", b"NO 50 BadLine\n"),
                (b"POST / HTTP/1.1\r\nHost: a\r\n\r\n" + CREDIT.encode() + b"STOP\n", b"NO 50 BadLine\n"),
                (b"\x16\x03\x01" + bytes(200) + b"\n" + boarding(7).encode(), b"NO 51 LongLine\n"),
                (b"fly\n" + boarding(7).encode(), b"NO 50 BadLine\n"),
            )):
                for name, port in (("everybody", service.port), ("staff", service.control)):
                    self.check(f"stranger {number} at the port of {name}", answers(talk(port, text)), answers(reply))
            come_and_go(service.port, 300)
            with connected(service.port) as gone:
                gone.sendall(boarding(7).encode()[:12])
                break_off(gone)
            self.check(
                "what was accepted", answers(talk(service.port, b"DUE 7 19730\nQUIT\n")),
                answers(b"DUE 7 19730 19730 0 0\nBYE\n"),
            )
            self.check_stopped("how it ends", service)

    def test_requests_behind_a_line(self):
        """A line of HTTP ends a connection behind a good line too. What only looks like one does not."""
        journals, ledger = self.files()
        with staying(journals, ledger) as service:
            begun, lines = b"DUE 7 19730\n", b"DUE 7 19730\nQUIT\n"
            none, bad = b"DUE 7 19730 19730 0 0\n", b"NO 50 BadLine\n"
            for method in b"GET", b"POST", b"PUT", b"HEAD", b"OPTIONS", b"DELETE", b"PATCH", b"CONNECT", b"TRACE":
                for name, port in (("everybody", service.port), ("staff", service.control)):
                    came = talk(port, begun + method + b" / HTTP/1.1\r\n" + lines)
                    self.check(f"{method} at the port of {name}", answers(came), answers(none + bad))
            came = talk(service.port, begun + b"GET /" + b"a" * 200 + b"\n" + lines)
            self.check("a long one", answers(came), answers(none + b"NO 51 LongLine\n"))
            for line in b"get / HTTP/1.1", b"GET", b"GETS /", b" GET / HTTP/1.1", b"HTTP/1.1 200 OK":
                came = talk(service.port, begun + line + b"\n" + lines)
                self.check(f"{line}", answers(came), answers(none + bad + none + b"BYE\n"))
            self.check_stopped("how it ends", service)

    def test_greeting(self):
        """With --greeting a connection has to begin with that line. Nothing counts before it, not even a word of
        staff, and what is refused for it is counted and kept."""
        journals, ledger = self.files()
        path = os.path.join(self.folder, "refused")
        since, greeting, lines = int(time.time()), b"let me in\n", boarding(7).encode() + b"QUIT\n"
        strangers = (
            (lines, boarding(7).rstrip()), (b"\n" + greeting + lines, ""),
            (b"STOP\n" + greeting + lines, "STOP"), (b"STATS\n", "STATS"), (b"QUIT\n", "QUIT"),
            (b"let me\n" + greeting + lines, "let me"), (b"let me inside\n" + lines, "let me inside"),
            (b"let me in\r\n" + lines, "let me in\\x0d"), (b"Let me in\n" + lines, "Let me in"),
            (b"GET / HTTP/1.1\r\n" + lines, "GET / HTTP/1.1\\x0d"), (b"x" * 128 + b"\n" + lines, "x" * 128),
        )
        with staying(journals, ledger, more=("--greeting", "let me in", "--refused", path)) as service:
            kept = ""
            for port in service.port, service.control:
                for text, line in strangers:
                    self.check(f"{line[:40]!r} at {port}", answers(talk(port, text)), answers(b"NO 50 BadLine\n"))
                    kept += f"50 {line}\n"
                came = talk(port, greeting[:-1] + b"x" * 200 + b"\n" + lines)
                self.check(f"a long line at {port}", answers(came), answers(b"NO 51 LongLine\n"))
                kept += f"51 let me in{'x' * 120}\n"
                self.check(f"no line at {port}", answers(talk(port, greeting[:-1], ends=True)), answers(b""))
                came = talk(port, greeting + b"DUE 7 19730\nQUIT\n")
                self.check(f"a friend at {port}", answers(came), answers(b"DUE 7 19730 19730 0 0\nBYE\n"))
                self.check(f"no line behind it at {port}", answers(talk(port, greeting, ends=True)), answers(b""))
                came = talk(port, greeting + greeting + b"DUE 7 19730\n")
                self.check(f"it twice at {port}", answers(came), answers(b"NO 50 BadLine\n"))
                kept += "50 let me in\n"
            self.check_refused("what is kept", path, kept, since)
            with connected(service.port) as reader, connected(service.control) as staff:
                for byte in greeting + boarding(8).encode():
                    reader.sendall(bytes([byte]))
                    time.sleep(0.0005)
                self.check("byte by byte", answers(heard(reader, len(BOARDED))), answers(BOARDED.encode()))
                staff.sendall(greeting + b"STATS\n")
                # Each port refused the strangers, a long line, and a second greeting; it answered DUE and QUIT.
                count = len(strangers)
                wanted = f" lines={2 * count + 9} accepted=1 again=0 taps=1 corrections=0 refused_50={2 * count + 2} "
                self.check_is("whether that is counted", wanted in " ".join(counted(line_heard(staff))))
            self.check("how it ends", service.stopped(greeting), service.wanted())

    def test_stats(self):
        """What STATS counts, over all lanes; and the room for staff."""
        journals, ledger = self.files()
        with staying(journals, ledger, lanes=3) as service, contextlib.ExitStack() as opened:
            first, second = (opened.enter_context(connected(service.port)) for _ in range(2))
            self.check_talk(
                "a reader", first,
                (
                    (boarding(7), BOARDED), (boarding(7), AGAIN),
                    (f"TAP 1 1 7 {SEVEN + 1} 50 BUS\n", "NO 20 Conflict\n"),
                    (CREDIT, NOT_HERE), ("fly\n", "NO 50 BadLine\n"), ("DUE 7 19730\n", due(7)),
                ),
            )
            self.check_talk("another", second, ((boarding(8), BOARDED), ("fly high\n", "NO 50 BadLine\n")))
            second.sendall(b"QUIT\n")
            self.check("its end", answers(rest_of(second)), answers(b"BYE\n"))
            second.close()
            time.sleep(0.3)
            staff = [opened.enter_context(connected(service.control)) for _ in range(16)]
            # Lines around the word are answered in their places.
            staff[0].sendall(b"DUE 8 19730\nSTATS\n" + CREDIT.encode())
            came = heard(staff[0], len(due(8))).decode()
            line = line_heard(staff[0])
            came += " ".join(it for it in counted(line) if not it.startswith("seconds=")) + "\n"
            came += heard(staff[0], len(BOARDED)).decode()
            counts = "connections=17 connections_in_all=18 dropped=0 lines=10 accepted=2 again=1 taps=2 corrections=0"
            wanted = f"{due(8)}STATS {counts} refused_20=1 refused_34=1 refused_50=2\n{BOARDED}"
            self.check("what is counted", answers(came.encode()), answers(wanted.encode()))
            self.check_is("whether one more of staff is dropped", hears_nothing_more(connected(service.control)))
            staff[0].sendall(b"STATS\n")
            line = line_heard(staff[0])
            self.check_is(
                "whether that is counted",
                b" dropped=1 lines=11 accepted=3 again=1 taps=2 corrections=1 refused_20=1 " in line,
            )
            staff.pop().close()
            time.sleep(0.3)
            self.check_stopped("how it ends", service)

    def test_open_accounts(self):
        """OPEN says how many accounts owe something else for the week of a day, through it, than what was posted for
        them, and posts nothing."""
        journals, ledger = self.files()
        sunday = MONDAY + 6
        late, credit = f"TAP 1 2 7 {SEVEN + 9000} 50 BUS\n", CREDIT.replace(" 7 ", " 8 ")
        tuesday, close = boarding(9).replace(str(SEVEN), str(SEVEN + 86400)), f"CLOSE {sunday}\n"

        def is_open(count, day=sunday):
            return f"OPEN {day}\n", f"OPEN {day} {count}\n"

        def closed(*postings):
            lines = "".join(f"PAY {account} {MONDAY} {sunday} {rest}\n" for account, rest in postings)
            return close, f"{lines}DONE {sunday} {len(postings)}\n"

        both = closed((7, "1 175 175 4=175"), (8, "1 175 175 4=175"))
        again = closed((7, "2 350 175 4=175"), (8, "2 150 -25 4=-25"))
        with staying(journals, ledger) as service:
            with connected(service.port) as reader, connected(service.control) as staff:
                self.check_talk("before a tap", staff, (is_open(0), is_open(0, 4), is_open(0, 50_000)))
                self.check_talk(
                    "a reader", reader,
                    ((boarding(7), BOARDED), (boarding(8), BOARDED), (is_open(0)[0], "NO 50 BadLine\n")),
                )
                self.check_talk("before a close", staff, (is_open(2), is_open(2, MONDAY), is_open(2), both, is_open(0)))
                self.check_talk("a late tap", reader, ((late, "OK 19730 350 350\n"),))
                self.check_talk(
                    "after a close", staff,
                    (is_open(1), (credit, BOARDED), is_open(2), is_open(0, sunday + 1), again, is_open(0)),
                )
                self.check_talk("a later day", reader, ((tuesday, "OK 19731 175 175\n"),))
                text = f"OPEN {MONDAY}\nOPEN {sunday}\nDUE 7 {MONDAY}\nOPEN {sunday + 7}\nQUIT\n"
                wanted = f"OPEN {MONDAY} 0\nOPEN {sunday} 1\nDUE 7 {MONDAY} {MONDAY} 2 350 4=350\n"
                wanted += f"OPEN {sunday + 7} 0\nBYE\n"
                came = talk(service.control, text.encode())
                self.check("several weeks", answers(came), answers(wanted.encode()))
                for line in (
                    "OPEN", "OPEN ", "OPEN 0", "OPEN 3", "OPEN 50001", "OPEN 019736", "OPEN +19736", "OPEN -1",
                    f"OPEN  {sunday}", f"OPEN {sunday} ", f" OPEN {sunday}", f"OPEN {sunday} 1", f"OPEN 7 {sunday}",
                    f"OPEN {sunday}\r", f"open {sunday}", f"OPENS {sunday}", "OPEN 4294967300",
                ):
                    self.check_talk("no day", staff, ((f"{line}\n", "NO 50 BadLine\n"),))
                staff.sendall(b"STATS\n")
                # Four taps, the credit, two closes, DUE, QUIT, the reader's OPEN, and 17 that name no day.
                self.check_is("whether STATS counts no OPEN", b" lines=27 " in line_heard(staff))
            self.check_stopped("how it ends", service)
        # A session that is closed as often has the same ledger.
        other, journal = os.path.join(self.folder, "other.db"), os.path.join(self.folder, "journal")
        lines = boarding(7), boarding(8), close, late, credit, close, "QUIT\n"
        run([*RUN, *with_both(journal, other)], "".join(lines).encode())
        self.check("what its ledger has", rows_of_ledger(ledger), rows_of_ledger(other))

    def test_loads(self):
        """STATS has the accounts that have accepted something, also those that journals give back, and how many
        commands wait for each shard."""
        journals, ledger = self.files()
        with staying(journals, ledger, shards=3) as service, connected(service.control) as staff:
            self.check_loads("before a line", staff, "accounts=0 waiting_0=0 waiting_1=0 waiting_2=0")
            self.check_talk(
                "two accounts", staff,
                (
                    (boarding(7), BOARDED), (boarding(8), BOARDED), (boarding(7), AGAIN), (CREDIT, BOARDED),
                    ("DUE 12 19730\n", "DUE 12 19730 19730 0 0\n"), ("SHOW 13 19730\n", "SHOW 13 19730 0 0\n"),
                ),
            )
            self.check_loads("what they come to", staff, "accounts=2 waiting_0=0 waiting_1=0 waiting_2=0")
            opens = "FIX 3 2 11 CREDIT 19730 25\n"
            self.check_talk("two more", staff, ((opens, "OK 19730 0 0\n"), (boarding(10), BOARDED)))
            self.check_loads("what all come to", staff, "accounts=4 waiting_0=0 waiting_1=0 waiting_2=0")
            self.check_stopped("how it ends", service)
        with staying(journals, ledger) as service, connected(service.control) as staff:
            self.check_loads("by the next", staff, "accounts=4 waiting_0=0 waiting_1=0")
            self.check_stopped("how that ends", service)

    def check_loads(self, name, staff, wanted):
        """What STATS has of accounts, and of what waits."""
        staff.sendall(b"STATS\n")
        words = line_heard(staff).decode().split()
        came = " ".join(word for word in words if word.startswith(("accounts=", "waiting_")))
        self.check(name, answers(came.encode()), answers(wanted.encode()))

    def test_one_that_does_not_read(self):
        """A peer that sends and does not read is not read on, keeps nobody waiting, and loses nothing."""
        journals, ledger = self.files()
        lines = 300_000
        with staying(journals, ledger, lanes=1) as service:
            with connected(service.port) as flood, connected(service.port) as other:
                sent = threading.Thread(target=flood.sendall, args=(b"DUE 7 19730\n" * lines + b"QUIT\n",))
                sent.start()
                self.check_talk("another", other, ((boarding(8), BOARDED), ("DUE 8 19730\n", due(8))))
                came = rest_of(flood)
                sent.join()
                wanted = b"DUE 7 19730 19730 0 0\n" * lines + b"BYE\n"
                self.check("the one that reads late", answers(came), answers(wanted))
            self.check_stopped("how it ends", service)

    def test_closes_while_taps_go_on(self):
        """A day is closed again and again while readers tap: each account is charged what it owes, and once."""
        journals, ledger = self.files()
        each, lanes = 400, 3
        with staying(journals, ledger, lanes=lanes, shards=4) as service:

            def taps(first):
                lines = [boarding(account).encode() for account in range(first, first + each)]
                return lambda: talk_ahead(service.port, lines)

            def closes():
                replies = b""
                for _ in range(6):
                    replies += talk(service.control, b"CLOSE 19730\nQUIT\n")
                return replies

            firsts = [1 + each * lane for lane in range(lanes)]
            *heard_by, closed = side_by_side([*map(taps, firsts), closes])
            for first, came in zip(firsts, heard_by):
                self.check(
                    f"the reader from account {first} on", answers(came), answers(BOARDED.encode() * each + b"BYE\n")
                )
            self.check("how many closes were done", closed.count(b"DONE 19730 "), 6)
            last = "".join(map(paid, range(1, lanes * each + 1))) + f"DONE {MONDAY} {lanes * each}\nBYE\n"
            self.check("the last close", answers(talk(service.control, b"CLOSE 19730\nQUIT\n")), answers(last.encode()))
            self.check_stopped("how it ends", service)
        amounts = [line for line in rows_of_ledger(ledger).split(b"\n") if line.endswith(b", 175, 175, 4)")]
        self.check("how many postings there are", len(amounts), lanes * each)

    def test_a_line_that_cannot_be_kept(self):
        """A shard that cannot keep a line ends the service soon, and the next goes on with what was kept."""
        journals, ledger = self.files()
        with staying(journals, ledger) as service:
            self.check_stopped("a first one", service)
        many = "".join(boarding(account) for account in range(2, 12_000, 2)).encode()
        path = written(journals, "0.lines", many)
        with staying(journals, ledger, **limited_to(len(many) + 5)) as service:
            with connected(service.port) as reader, connected(service.port) as other:
                self.check_talk("what is kept already", reader, ((boarding(2), AGAIN), (boarding(1), BOARDED)))
                begun = time.monotonic()
                reader.sendall(boarding(20_000).encode())
                self.check_is("whether the other has ended", hears_nothing_more(other))
                came = rest_of(reader)
            self.check_is("whether the line was not accepted", b"OK" not in came)
            wanted = fault("journal fault")
            wanted = wanted._replace(
                errors=both_listening(service.port, service.control)
                + f"farebox: cannot keep lines in {path}\n".encode() + wanted.errors
            )
            self.check("how it ends", service.ended(), wanted)
            self.check_is("whether it ended within three seconds", time.monotonic() - begun < 3)
        with staying(journals, ledger) as service:
            with connected(service.port) as reader:
                self.check_talk("the next", reader, ((boarding(20_000), BOARDED), (boarding(1), AGAIN)))
            self.check_stopped("how the next ends", service)

    def test_taps_ahead_of_the_clock(self):
        """With --ahead a tap that is more seconds ahead of the clock is refused, and kept nowhere."""
        for more, reply in (("--ahead", "3600"), "NO 1 OutOfTime\n"), ((), "OK "):
            journals = new_folder(self.folder, f"journals{len(more)}")
            with staying(journals, f"{journals}.db", more=more) as service:
                now = int(time.time())
                for name, port in (("everybody", service.port), ("staff", service.control)):
                    with connected(port) as peer:
                        for seconds, wanted in ((3000, "OK "), (7200, reply)):
                            line = f"TAP {port} {seconds} 7 {now + seconds} 50 BUS\n"
                            peer.sendall(line.encode())
                            came = heard(peer, len(wanted))
                            while wanted == "OK " and not came.endswith(b"\n"):
                                came += heard(peer, 1)
                            self.check_is(
                                f"{seconds} ahead at the port of {name}, {more}", came.startswith(wanted.encode())
                            )
                self.check_stopped(f"how it ends, {more}", service)
            kept = sum(bytes_of(path_of(journals, number)).count(b"\n") for number in range(16))
            self.check(f"how many lines are kept, {more}", answers(str(kept).encode()), answers(b"2" if more else b"4"))

    def check_refused(self, name, path, wanted, since):
        """What a file of refused lines has, but for their instants, which lie between the start and now."""
        lines = [line.split(b" ", 2) for line in bytes_of(path).splitlines(keepends=True)]
        self.check(name, answers(b"".join(b"%s %s" % (line[0], line[-1]) for line in lines)), answers(wanted.encode()))
        self.check_is(f"whether {name} came now", all(since <= int(line[1]) <= time.time() for line in lines))

    def test_refused_lines(self):
        """With --refused FILE what is refused is kept before its reply, whoever sent it, and what was kept stays."""
        journals, ledger = self.files()
        path = os.path.join(self.folder, "refused")
        since, wanted = int(time.time()), ""
        others = f"TAP 1 1 7 {SEVEN + 1} 50 BUS\n"
        with staying(journals, ledger, more=("--refused", path)) as service:
            with connected(service.port) as reader, connected(service.control) as staff:
                for peer, line, reply, kept in (
                    (reader, boarding(7), BOARDED, ""),
                    (reader, others, "NO 20 Conflict\n", "20 " + others),
                    (staff, f"TAP 1 2 7 {SEVEN} 99 BUS\n", "NO 15 UnknownPlace\n", f"15 TAP 1 2 7 {SEVEN} 99 BUS\n"),
                    (reader, "TAP 1 3 7 604799 50 BUS\n", "NO 1 OutOfTime\n", "1 TAP 1 3 7 604799 50 BUS\n"),
                    (staff, CREDIT, BOARDED, ""), (staff, CREDIT, BOARDED.replace("OK", "AGAIN"), ""),
                    (staff, CREDIT.replace("25", "26"), "NO 22 FixConflict\n", "22 " + CREDIT.replace("25", "26")),
                    # What comes to nothing that is lost: it belongs elsewhere, or it is a question.
                    (reader, CREDIT, NOT_HERE, ""), (reader, "CLOSE 19730\n", NOT_HERE, ""),
                    (reader, "DUE 7 19730\n", f"DUE 7 {MONDAY} {MONDAY} 2 150 4=150\n", ""),
                    (reader, "STOP\n", "NO 50 BadLine\n", "50 STOP\n"),
                    # A carriage return, a backslash, a tilde, and what is beyond it; and a line without bytes.
                    (reader, "QUIT\r\n", "NO 50 BadLine\n", "50 QUIT\\x0d\n"),
                    (staff, "a\\b ~\x7f\x00\t\n", "NO 50 BadLine\n", "50 a\\\\b ~\\x7f\\x00\\x09\n"),
                    (reader, "\n", "NO 50 BadLine\n", "50 \n"),
                    # The longest line, and longer ones.
                    (reader, "x" * 128 + "\n", "NO 50 BadLine\n", f"50 {'x' * 128}\n"),
                    (reader, "x" * 129 + "\n", "NO 51 LongLine\n", f"51 {'x' * 129}\n"),
                    (reader, "y" * 9000 + "\n", "NO 51 LongLine\n", f"51 {'y' * 129}\n"),
                    (reader, boarding(8), BOARDED, ""),
                ):
                    came = asked(peer, line, reply)
                    self.check(f"the reply to {line[:40]!r}", came, answers(reply.encode()))
                    wanted += kept
                    self.check_refused(f"what is kept once {line[:40]!r} is answered", path, wanted, since)
                # In pieces; and several lines in one, around others.
                for byte in others.encode():
                    reader.sendall(bytes([byte]))
                    time.sleep(0.0005)
                self.check("in pieces", answers(heard(reader, 15)), answers(b"NO 20 Conflict\n"))
                lines = "fly\n" + others + boarding(9) + others.replace("TAP 1 1", "TAP 01 1") + "fly high"
                reader.sendall(lines.encode())
                reader.shutdown(socket.SHUT_WR)
                replies = f"NO 50 BadLine\nNO 20 Conflict\n{BOARDED}NO 50 BadLine\nNO 50 BadLine\n"
                self.check("several lines, and a rest", answers(rest_of(reader)), answers(replies.encode()))
                wanted += f"20 {others}50 fly\n20 {others}50 {others.replace('TAP 1 1', 'TAP 01 1')}50 fly high\n"
                self.check_refused("what is kept of these", path, wanted, since)
            self.check_stopped("how it ends", service)
        self.check("who may read them", os.stat(path).st_mode & 0o777, 0o600)
        # The next adds to them. A part of a line that a crash left is ended first.
        with open(path, "ab") as it:
            it.write(b"20 17046")
        with staying(journals, ledger, lanes=3, more=(f"--refused={path}",)) as service:
            readers = [boarding(account).replace("TAP 1 1", "TAP 9 9") * 30 for account in range(20, 26)]
            readers = [(lines + lines.replace(str(SEVEN), str(SEVEN + 1))).encode() for lines in readers]
            side_by_side([
                lambda lines=lines: talk_ahead(service.port, lines.splitlines(keepends=True)) for lines in readers
            ])
            self.check_stopped("how the next ends", service)
        came = bytes_of(path).splitlines(keepends=True)
        first = wanted.count("\n")
        self.check("a part of a line", came[first], b"20 17046\n")
        kept = sorted(line.split(b" ", 2)[2] for line in came[first + 1:])
        wanted = sorted(
            line for lines in readers for line in lines.splitlines(keepends=True) if str(SEVEN + 1).encode() in line
        )
        self.check("what readers at the same time lost", kept, wanted)

    def test_refused_lines_that_cannot_be_kept(self):
        """A file that is another's is a fault, and stays as it is; one that takes no more loses no reply."""
        journals, ledger = self.files()
        with staying(journals, ledger) as service:
            self.check_stopped_after(service, (boarding(7), BOARDED))
        for name, path in (
            ("a journal", path_of(journals, 1)), ("an empty journal", path_of(journals, 0)), ("the ledger", ledger),
            ("what is kept beside them", os.path.join(journals, "all.fares")),
            ("a new file there", os.path.join(journals, "refused")), ("a folder", journals), ("no file", "/dev/null"),
            ("a folder that is missing", os.path.join(self.folder, "missing", "file")),
        ):
            before = bytes_of(path) if os.path.isfile(path) else b""
            came = run(staying_words(9, 10, journals, ledger, more=(f"--refused={path}",)))
            self.check(f"{name} for refused lines", came, fault(f"cannot keep refused lines in {path}"))
            self.check(f"what {name} has", bytes_of(path) if os.path.isfile(path) else b"", before)
        path = written(self.folder, "refused", b"50 0 fly\n" * 20_000)
        with staying(journals, ledger, more=("--refused", path), **limited_to(180_002)) as service:
            with connected(service.port) as reader:
                self.check_talk(
                    "over a disk that is full", reader,
                    (
                        (boarding(8), BOARDED), ("fly\n", "NO 50 BadLine\n"), ("fly\n", "NO 50 BadLine\n"),
                        (boarding(9), BOARDED),
                    ),
                )
            wanted = service.wanted()
            errors = wanted.errors + f"farebox: cannot keep refused lines in {path}\n".encode()
            self.check("how it ends", service.stopped(), wanted._replace(errors=errors))

    def check_copied(self, name, reply, path):
        """The reply to a backup: the bytes of its files, which are their owner's alone."""
        files = [it for it in (path, f"{path}-wal") if os.path.exists(it)]
        self.check(f"the reply to {name}", answers(reply), answers(b"OK %d\n" % sum(map(os.path.getsize, files))))
        self.check(f"who may read {name}", {os.stat(it).st_mode & 0o777 for it in files}, {0o600})

    def backed_up(self, name, journals, staff, before="", after=""):
        """A folder that is backed up as docs/OPERATIONS.md says, and the replies to lines beside the backup, which come
        together with it."""
        folder = new_folder(self.folder, name)
        taps, path = new_folder(folder, "taps"), os.path.join(folder, "ledger.db")
        shutil.copy(os.path.join(journals, "all.fares"), taps)
        if os.path.exists(os.path.join(journals, "all.posted")):
            shutil.copy(os.path.join(journals, "all.posted"), taps)
        staff.sendall(f"{before}BACKUP {path}\n{after}".encode())
        replies = b""
        for _ in range(before.count("\n")):
            while not replies.endswith(b"\nDONE %d 1\n" % MONDAY):
                replies += line_heard(staff)
        self.check_copied(name, line_heard(staff), path)
        for number in range(16):
            shutil.copy(path_of(journals, number), taps)
        return folder, replies

    def check_audit(self, name, folder, wanted=b""):
        taps, path = os.path.join(folder, "taps"), os.path.join(folder, "ledger.db")
        self.check(f"the audit of {name}", run(["audit", *RUN[1:], *with_both(taps, path)]), answers(wanted))

    def check_rows(self, name, folder, *lines):
        """That a copy has what the ledger of a session with these lines has."""
        journal, other = os.path.join(self.folder, f"{name}.journal"), os.path.join(self.folder, f"{name}.other")
        run([*RUN, *with_both(journal, other)], "".join((*lines, "QUIT\n")).encode())
        self.check(f"the rows of {name}", rows_of_ledger(os.path.join(folder, "ledger.db")), rows_of_ledger(other))

    def test_backups(self):
        """BACKUP copies the ledger while the service goes on: before the first close, right after a close, right before
        one, and with a log or without. A copy agrees with the journals, and a service goes on with it."""
        journals, ledger = self.files()
        close, later = "CLOSE 19730\n", f"TAP 1 2 7 {SEVEN + 9000} 50 BUS\n"
        with staying(journals, ledger) as service:
            with connected(service.port) as reader, connected(service.control) as staff:
                self.check_talk("a reader", reader, ((boarding(7), BOARDED), ("BACKUP /tmp/a\n", "NO 50 BadLine\n")))
                early, _ = self.backed_up("early", journals, staff)
                first, replies = self.backed_up("first", journals, staff, before=close)
                self.check("the close before it", answers(replies), answers(f"{paid(7)}DONE 19730 1\n".encode()))
                self.check_talk("a reader", reader, ((later, "OK 19730 350 350\n"),))
                second, _ = self.backed_up("second", journals, staff, after=close)
                reply = f"PAY 7 {MONDAY} {MONDAY} 2 350 175 4=175\nDONE {MONDAY} 1\n"
                self.check("the close after it", answers(heard(staff, len(reply))), answers(reply.encode()))
                third, _ = self.backed_up("third", journals, staff)
                # What has the service's ledger still is the service alone.
                came = run(["audit", *RUN[1:], *with_both(journals, ledger)])
                self.check("the service's own ledger", came, fault("43 Store"))
                explain = ["explain", *RUN[1:], "7", str(MONDAY), "--journal", journals, "--ledger"]
                self.check("the same to explain a day", run([*explain, ledger]), fault("43 Store"))
                came = run([*explain, os.path.join(third, "ledger.db")])
                self.check("what was posted, by a copy", came.output.decode().splitlines()[-4:], POSTED_TWICE)
                staff.sendall(b"STATS\n")
                self.check_is("whether STATS counts no backup", b" lines=5 " in line_heard(staff))
            self.check_stopped("how it ends", service)
        with staying(journals, ledger) as service:
            with connected(service.control) as staff:
                fourth, _ = self.backed_up("fourth", journals, staff)
            self.check_stopped("how the next ends", service)
        self.check_rows("early", early)
        self.check_rows("first", first, boarding(7), close)
        self.check_rows("second", second, boarding(7), close)
        unsettled = f"UNSETTLED 7 {MONDAY} {MONDAY} 350 175 2024-01-08 2024-01-08\nCLOSE 19730\n".encode()
        for name, folder, wanted in (
            ("early", early, b""), ("first", first, b""), ("second", second, unsettled), ("third", third, b""),
            ("fourth", fourth, b""),
        ):
            self.check_audit(name, folder, wanted)
        for name, folder in ("third", third), ("fourth", fourth):
            self.check_rows(name, folder, boarding(7), close, later, close)
        with staying(os.path.join(second, "taps"), os.path.join(second, "ledger.db")) as service:
            with connected(service.control) as staff:
                pairs = (boarding(7), AGAIN.replace("175", "350")), (close, reply)
                self.check_talk("a service with a copy", staff, pairs)
            self.check_stopped("how it ends", service)

    def test_backups_while_taps_go_on(self):
        """The ledger is copied again and again, between closes, while readers tap: each copy is whole, and the last has
        all that was posted."""
        journals, ledger = self.files()
        copies = new_folder(self.folder, "copies")
        each, paths = 50, [os.path.join(copies, str(number)) for number in range(4)]
        with staying(journals, ledger, lanes=3, shards=4) as service:

            def taps(first):
                lines = [boarding(account).encode() for account in range(first, first + each)]
                return lambda: talk_ahead(service.port, lines)

            def backups():
                return [
                    talk(service.control, f"CLOSE {MONDAY}\nBACKUP {path}\nQUIT\n".encode()).splitlines()[-2]
                    for path in paths
                ]

            *heard_by, replies = side_by_side([*map(taps, (1, 1 + each, 1 + 2 * each)), backups])
            for number, came in enumerate(heard_by):
                self.check(f"reader {number}", answers(came), answers(BOARDED.encode() * each + b"BYE\n"))
            for path, reply in zip(paths, replies):
                self.check_copied(os.path.basename(path), reply + b"\n", path)
            last = os.path.join(copies, "last")
            with connected(service.control) as staff:
                staff.sendall(f"CLOSE {MONDAY}\nBACKUP {last}\n".encode())
                while not line_heard(staff).startswith(b"DONE "):
                    pass
                self.check_copied("the last", line_heard(staff), last)
            self.check_stopped("how it ends", service)
        counts = []
        for path in paths:
            rows = rows_of_ledger(path).splitlines()
            self.check(f"whether copy {os.path.basename(path)} is whole", rows[0], b"('ok',)")
            counts.append(sum(row.endswith(b", 175, 175, 4)") for row in rows))
        self.check("whether each has what those before it have", counts, sorted(counts))
        self.check("what the last has", rows_of_ledger(last), rows_of_ledger(ledger))

    def test_backups_that_cannot_be_made(self):
        """A backup that is not made leaves what is there, makes nothing, and is told on standard error; and a line with
        another path is no command."""
        journals, ledger = self.files()
        copies = new_folder(self.folder, "copies")
        there, taken = written(copies, "there", b"mine"), os.path.join(copies, "taken")
        written(copies, "taken-wal", b"mine")
        os.symlink(os.path.join(copies, "nowhere"), os.path.join(copies, "link"))
        exists, invalid = "File exists (os error 17)", "invalid input parameter"
        missing, long = "No such file or directory (os error 2)", f"{MISSING}/{'a' * (120 - len(MISSING))}"
        refused = (
            (there, exists), (taken, exists), (new_folder(copies, "folder"), exists),
            (os.path.join(copies, "link"), exists),
            (f"{MISSING}/a.db", missing), (long, missing),
            (ledger, invalid), (f"{ledger}-wal", invalid), (os.path.join(self.folder, "new.db"), invalid),
            (path_of(journals, 1), invalid), (os.path.join(journals, "all.posted"), invalid),
            (os.path.join(journals, "..", "new.db"), invalid),
        )
        # Its log is copied into a ledger that is stopped.
        with staying(journals, ledger) as service:
            with connected(service.control) as staff:
                pairs = (boarding(7), BOARDED), ("CLOSE 19730\n", f"{paid(7)}DONE 19730 1\n")
                self.check_talk("a close", staff, pairs)
            self.check_stopped("how the first ends", service)
        # So that a file which is too large for the system is no signal.
        with staying(journals, ledger, **limited_to(1 << 30)) as service:
            with connected(service.port) as reader, connected(service.control) as staff:
                before = sorted(os.listdir(self.folder)), sorted(os.listdir(copies)), sorted(os.listdir(journals))
                errors = ""
                for path, why in refused:
                    self.check_talk("a backup", staff, ((f"BACKUP {path}\n", "NO 53 NoBackup\n"),))
                    errors += f"farebox: cannot back up to {path}: {why}\n"
                for line in (
                    "BACKUP", "BACKUP ", "BACKUP a.db", "BACKUP  /a.db", "BACKUP /a.db ", "BACKUP /a b", "BACKUP /a\t",
                    "BACKUP /a.db\r", "BACKUP /\xe9", "BACKUP /\0", "backup /a.db", " BACKUP /a.db", f"BACKUP {long}a",
                ):
                    reply = "NO 51 LongLine\n" if len(line.encode()) > 128 else "NO 50 BadLine\n"
                    self.check_talk("no backup", staff, ((f"{line}\n", reply),))
                # A disk that is full, at the copy of the log and at that of the ledger.
                full = os.path.join(copies, "full")
                room = service.ran.pid, resource.RLIMIT_FSIZE
                limits = resource.prlimit(*room)
                self.check_is("whether the log is short", 40 < os.path.getsize(f"{ledger}-wal") < 500)
                for count in 40, 500, os.path.getsize(ledger) - 1:
                    resource.prlimit(*room, (count, limits[1]))
                    self.check_talk(f"over {count} bytes", staff, ((f"BACKUP {full}\n", "NO 53 NoBackup\n"),))
                    errors += f"farebox: cannot back up to {full}: File too large (os error 27)\n"
                resource.prlimit(*room, limits)
                after = sorted(os.listdir(self.folder)), sorted(os.listdir(copies)), sorted(os.listdir(journals))
                self.check("what is made", after, before)
                self.check("what was there", [bytes_of(there), bytes_of(f"{taken}-wal")], [b"mine"] * 2)
                staff.sendall(f"BACKUP {full}\n".encode())
                self.check_copied("the next", line_heard(staff), full)
                self.check_talk("the service goes on", reader, ((boarding(8), BOARDED),))
            came = service.stopped()
        wanted = service.wanted()
        self.check("how it ends", came, wanted._replace(errors=wanted.errors + errors.encode()))

    def test_a_backup_that_is_cut_off(self):
        """A service that is killed in the midst of a backup leaves what is no ledger, and goes on."""
        journals, ledger = self.files()
        path = os.path.join(new_folder(self.folder, "copies"), "cut")
        with staying(journals, ledger) as service:
            with connected(service.control) as staff:
                pairs = (boarding(7), BOARDED), ("CLOSE 19730\n", f"{paid(7)}DONE 19730 1\n")
                self.check_talk("a close", staff, pairs)
            self.check_stopped("how the first ends", service)
        size = os.path.getsize(ledger) // 2
        with staying(journals, ledger) as service:
            resource.prlimit(service.ran.pid, resource.RLIMIT_FSIZE, (size, size))
            with connected(service.control) as staff:
                staff.sendall(f"BACKUP {path}\n".encode())
                self.check_is("whether there is no reply", hears_nothing_more(staff))
            self.check("how it ends", service.ended().status, -signal.SIGXFSZ)
        self.check("how much is there", os.path.getsize(path), size)
        self.check("its audit", run(["audit", *RUN[1:], *with_both(journals, path)]), fault("40 NotALedger"))
        with staying(journals, ledger) as service:
            with connected(service.control) as staff:
                self.check_talk(
                    "the next", staff,
                    (
                        (f"BACKUP {path}\n", "NO 53 NoBackup\n"), (boarding(7), AGAIN),
                        ("CLOSE 19730\n", f"{paid(7)}DONE 19730 1\n"),
                    ),
                )

    def test_ports(self):
        """A port that is taken is a fault, before a line is answered; and both are free once a service has ended."""
        journals, ledger = self.files()
        with staying(journals, ledger) as service:
            port, control = service.port, service.control
            for name, taken in (("everybody", (port, control + 1)), ("staff", (control + 1, control))):
                others = new_folder(self.folder, f"others of {name}")
                came = run(staying_words(*taken, others, f"{others}.db"))
                self.check(f"the port of {name} is taken", came, fault("cannot listen"))
            self.check_stopped("how it ends", service)
        self.check_is("whether its ports are free", is_free(service.port) and is_free(service.control))
