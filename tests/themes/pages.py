"""The pages of customer service over HTTP: what a browser asks for, and what it is answered, while journals grow; and what
a ledger has beside them. The amounts are by hand."""

import contextlib
import hashlib
import json
import os
import re
import resource
import select
import shutil
import socket
import ssl
import time
from concurrent.futures import ThreadPoolExecutor

from support.journals import new_folder
from support.pages import CSS, HTML, TEXT, Answer, asked, cells_of, page_words, shown, soon, text_answer
from support.repository import LONDON, SAMPLE
from support.running import MISSING, MONDAY, TIME_TO_REPLY, End, bytes_of, dated, fault, heard, in_lines, run, taps_of, written
from support.schemas import lacks, referred
from support.serving import HOST, boarding, connected, free_ports, talk
from support.sessions import BUS_DAY, ZONE_DAY
from support.staying import staying
from support.theme import Theme

UNAVAILABLE = b"The journals cannot be read. The log of the page says why.\n"
HOPPER_DAY = [(1704697200, 50, "BUS"), (1704700200, 50, "BUS"), (1704702200, 50, "BUS")]


class Pages(Theme):
    """Requests and their answers."""

    def journal(self, taps=HOPPER_DAY, name="journal"):
        return written(self.folder, name, "".join(f"{line}\n" for line in taps_of(taps)).encode())

    def test_paths(self):
        """Each path has its answer, and each answer all fields."""
        with shown(self.journal()) as (_, port):
            form = asked(port, "/")
            self.check("the form", form, text_answer(200, form.body, HTML))
            self.check("asks for a week", b'<form action="/week" method="get">' in form.body, True)
            self.check("the form for HEAD", asked(port, "/", "HEAD"), Answer(200, form.fields, b""))
            style = asked(port, "/style.css")
            self.check("the style sheet", style, text_answer(200, style.body, CSS))
            self.check("styles tables", b"\ntable {" in style.body, True)
            self.check("health", asked(port, "/healthz"), text_answer(200, b"ready\n"))
            self.check("localhost", asked(port, "/healthz", host=f"localhost:{port}").status, 200)
            unknown = text_answer(404, b"There is no such page.\n")
            for path in ("/days", "/day/", "//", "/Day?account=7&day=19730", "/style.css/", "/healthz/x", "/%64ay"):
                self.check(f"no page {path}", asked(port, path), unknown)
            for path in (
                "/day", "/week", "/day?", "/day?account=7", "/day?day=19730&account=7", "/day?account=0&day=19730",
                "/day?account=4294967296&day=19730", "/day?account=-7&day=19730", "/day?account=7&day=3",
                "/day?account=7&day=50001", "/day?account=7&day=2024-02-30", "/day?account=7&day=2024-1-8",
                "/day?account=7&day=19730&day=19731", "/week?account=&day=", "/week?account=7;day=19730",
                "/week?account=%37&day=19730", "/week?account=7&day=19730%20",
            ):
                self.check(f"the form again for {path}", asked(port, path), form._replace(status=400))
            for method in ("POST", "PUT", "DELETE", "OPTIONS", "TRACE", "PATCH", "FOO"):
                self.check(
                    method, asked(port, "/day?account=7&day=19730", method, body=b"" if method == "POST" else None),
                    text_answer(405, b"Pages are only read here.\n", TEXT, ("allow", "GET, HEAD")),
                )
            elsewhere = text_answer(421, b"This page is for 127.0.0.1 and localhost.\n")
            self.check("no host", asked(port, "/day?account=7&day=19730", host="").status, 400)
            for host in ("example.com", f"example.com:{port}", HOST, f"{HOST}:{port + 1}", f"localhost.example.com:{port}"):
                self.check(f"the host {host!r}", asked(port, "/day?account=7&day=19730", host=host), elsewhere)
            self.check("another site's form", asked(port, "/", "POST", host="example.com", body=b"x"), elsewhere)
            self.check("a target that names a host", asked(port, f"http://example.com:{port}/"), elsewhere)

    def test_days_and_weeks(self):
        """A page tells what the rules say of a day and of a week, by numbers and dates."""
        rows = [
            ["1", "1.75", "07:00:00", "bus 50, paid: the first boarding"],
            ["2", "0.00", "07:50:00", "bus 50, free: within 3600 s of the boarding at 07:00:00"],
            ["3", "1.75", "08:23:20", "bus 50, paid: more than 3600 s after the boarding at 07:00:00"],
            ["All but maximum fares, without a cap", "3.50"],
            ["Maximum fares", "0.00"],
            ["The day", "3.50"],
        ]
        with shown(self.journal()) as (_, port):
            page = asked(port, "/day?account=7&day=2024-01-08")
            self.check("a day", page, text_answer(200, page.body, HTML))
            self.check("its title", b"<title>Account 7, Monday, day 19730, 2024-01-08</title>" in page.body, True)
            self.check("its rows", [row for row in cells_of(page.body) if "Amount" not in row], rows)
            self.check("by its number", asked(port, "/day?account=7&day=19730"), page)
            self.check("with a plus and zeros", asked(port, "/day?account=+007&day=019730"), page)
            week = asked(port, "/week?account=7&day=19736")
            self.check("a week", week, text_answer(200, week.body, HTML))
            self.check("its Monday", any(row[-1:] == ["3.50"] for row in cells_of(week.body)), True)
            nobody = asked(port, "/day?account=8&day=19730")
            self.check("another account", b"<p>No journey began on this day.</p>" in nobody.body, True)

    def test_sentences(self):
        """Each line that `explain` writes of a day is a row of its page, in the same order."""
        lone = [*ZONE_DAY[:6], (1704708000, 14, "IN")]
        for name, taps in (("buses", BUS_DAY), ("trains", ZONE_DAY), ("a lone tap", lone)):
            journal, rows = self.journal(taps, name.replace(" ", "-")), []
            told = run(["explain", SAMPLE, LONDON, "7", str(MONDAY), "--journal", journal]).output.decode()
            for line in told.splitlines()[1:]:
                amount, what = line.split(None, 1)
                time_of, space, rest = what.partition(" ")
                if re.fullmatch(r"\d\d:\d\d:\d\d", time_of):
                    rows.append([str(len(rows) + 1), amount, time_of, rest])
                else:
                    rows.append([what[0].upper() + what[1:], amount])
            with shown(journal) as (_, port):
                page = asked(port, f"/day?account=7&day={MONDAY}").body
                self.check(name, [row for row in cells_of(page) if "Amount" not in row], rows)

    def test_growing_journals(self):
        """What is added to a journal is on the next page, once its line is whole."""
        journal = self.journal(HOPPER_DAY[:2])
        third = taps_of(HOPPER_DAY)[2].encode() + b"\n"
        with shown(journal) as (_, port):
            day = f"/day?account=7&day={MONDAY}"

            def count():
                return asked(port, day).body.count(b"bus 50")

            before = count()
            with open(journal, "ab") as it:
                it.write(third[:-1])
            time.sleep(0.5)
            self.check("a line that is cut", count(), before)
            with open(journal, "ab") as it:
                it.write(third[-1:])
            self.check("the same once it is whole", soon(lambda: count() > before), True)
            grown = count()
            with open(journal, "ab") as it:
                it.write(third * 200_000)
            time.sleep(2)
            self.check("repeats change nothing", count(), grown)

    def test_services(self):
        """The pages of a service that stays have each tap that was answered."""
        journals, ledger = new_folder(self.folder), os.path.join(self.folder, "ledger.db")
        with staying(journals, ledger) as service, shown(journals) as (_, port):
            target = f"/day?account=7&day={MONDAY}"
            self.check("nothing yet", b"No journey began" in asked(port, target).body, True)
            for number in range(1, 4):
                talk(service.port, boarding(7, number).encode() + b"QUIT\n")
                self.check(f"after {number} taps", soon(lambda: asked(port, target).body.count(b"bus 50") >= number), True)
            came = service.stopped()
            self.check("the service", came, service.wanted())
            self.check("after it", asked(port, target).status, 200)

    def test_faults(self):
        """What is refused at the start, and what is said of a journal that is no longer itself."""
        journal, port = self.journal(), free_ports(1)
        words = ["--journal", journal, "--port", str(port)]
        bad = written(self.folder, "bad.toml", b"=")
        for name, given, wanted in (
            ("no fare file", ["page", MISSING, LONDON, *words], fault("cannot read fares")),
            ("a bad fare file", ["page", bad, LONDON, *words], fault("10 NotToml")),
            ("no zone", ["page", SAMPLE, "London", *words], fault("bad zone")),
            ("no journal", ["page", SAMPLE, LONDON, "--journal", MISSING, "--port", str(port)], fault("cannot use journal")),
            (
                "an empty folder", ["page", SAMPLE, LONDON, "--journal", new_folder(self.folder, "none"), "--port", str(port)],
                fault("cannot use journal"),
            ),
        ):
            self.check(name, run(given), wanted)
        other = written(self.folder, "other", b"TAP 1 1 7 1704697200 50 BUS\nSHOW 7 19730\n")
        came = run(["page", SAMPLE, LONDON, "--journal", other, "--port", str(port)])
        first = f"farebox: {other}, line 2 after byte 0: no tap and no correction\n".encode()
        self.check("a line that is no tap", came, End(1, b"", first + b"farebox: journal fault\n"))
        with connected_listener(port):
            self.check("a port that is taken", run(["page", SAMPLE, LONDON, *words]), fault("cannot listen"))
        with shown(journal) as (ran, at):
            os.truncate(journal, 10)
            self.check("a journal that is cut", soon(lambda: asked(at, "/healthz") == text_answer(503, UNAVAILABLE)), True)
            self.check("and its pages", asked(at, f"/day?account=7&day={MONDAY}"), text_answer(503, UNAVAILABLE))
            said = f"farebox: cannot read {journal}, or it is not the file that it was\n".encode()
            self.check("it is said", heard(ran.stderr, len(said)), said)
            self.check("the form is there", asked(at, "/").status, 200)

    def test_a_line_that_is_not_accepted(self):
        """It takes the pages of its own account away, and of no other; the log says which it is."""
        lines = [*taps_of(HOPPER_DAY[:2]), "TAP 1 2 7 1704700201 50 BUS", *taps_of(HOPPER_DAY[:1], 8)]
        journal = written(self.folder, "conflict", "".join(f"{line}\n" for line in lines).encode())
        with shown(journal) as (ran, port):
            self.check("its account", asked(port, f"/day?account=7&day={MONDAY}"), text_answer(503, UNAVAILABLE))
            said = f"farebox: {journal}, line 3 of account 7: 20 Conflict\n".encode()
            self.check("what is said", heard(ran.stderr, len(said)), said)
            self.check("another account", asked(port, f"/day?account=8&day={MONDAY}").status, 200)
            self.check("health", asked(port, "/healthz").status, 200)

    def test_hostile_peers(self):
        """Peers that are slow, silent or strange keep nobody else from an answer."""
        with shown(self.journal()) as (ran, port):
            silent = [connected(port) for _ in range(6)]
            began = time.monotonic()
            self.check("beside silent peers", asked(port, "/healthz").status, 200)
            self.check("in some seconds", time.monotonic() - began < 8, True)
            for it in silent:
                it.close()
            for _ in range(1_000):
                connected(port).close()
            self.check("after a thousand that come and go", asked(port, "/healthz").status, 200)
            for name, lines, status in (
                ("no HTTP", b"TAP 1 1 7 1704697200 50 BUS\r\n\r\n", b"400"),
                ("a long head", b"GET / HTTP/1.1\r\nHost: x\r\nX: " + b"a" * 20_000 + b"\r\n\r\n", b"431"),
                ("a long target", b"GET /" + b"a" * 20_000 + b" HTTP/1.1\r\n\r\n", b"414"),
                ("a long body", b"POST / HTTP/1.1\r\nHost: x\r\nContent-Length: 5000\r\n\r\n", b"413"),
                ("a bad host", b"GET / HTTP/1.1\r\nHost: a b\r\n\r\n", b"400"),
            ):
                with connected(port) as peer:
                    peer.sendall(lines)
                    self.check(name, heard(peer, 12), b"HTTP/1.1 " + status)
            with connected(port) as half:
                half.sendall(b"POST / HTTP/1.1\r\nHost: x\r\nContent-Length: 10\r\n\r\nabc")
                self.check("beside half a body", asked(port, "/healthz").status, 200)
                self.check("half a body", (everything_of(half), time.monotonic() - began < 60), (b"", True))
            self.check("it goes on", ran.poll(), None)

    def test_strange_requests(self):
        """What is no request of a page ends its connection, with one answer or none, in the time that it has."""
        with shown(self.journal()) as (ran, port):
            host = f"Host: {HOST}:{port}\r\n".encode()
            with connected(port) as slow:
                began, pieces = time.monotonic(), iter(b"GET /healthz HTTP/1.1\r\n" + host)
                while not select.select([slow], [], [], 1)[0] and time.monotonic() - began < 20:
                    slow.sendall(bytes([next(pieces)]))
                self.check("a head of a byte a second: no answer", everything_of(slow), b"")
                self.check("a head of a byte a second: given up", 4 < time.monotonic() - began < 9, True)
            for name, lines, first in (
                ("the hello of TLS", tls_hello(), b"HTTP/1.1 400"),
                ("two hosts", b"GET /healthz HTTP/1.1\r\n" + host + b"Host: example.com\r\n\r\n", b"HTTP/1.1 400"),
                ("HTTP/1.1 without a host", b"GET /healthz HTTP/1.1\r\n\r\n", b"HTTP/1.1 400"),
                ("another host", b"GET /healthz HTTP/1.1\r\nHost: example.com\r\n\r\n", b"HTTP/1.1 421"),
                ("a form without its length", b"POST /fix HTTP/1.1\r\n" + host + b"\r\n", b"HTTP/1.1 405"),
                ("a length that is none", b"POST / HTTP/1.1\r\n" + host + b"Content-Length: x\r\n\r\n", b"HTTP/1.1 400"),
                ("a long body", b"POST / HTTP/1.1\r\n" + host + b"Content-Length: 4097\r\n\r\n", b"HTTP/1.1 413"),
            ):
                with connected(port) as peer:
                    peer.sendall(lines)
                    came = everything_of(peer)
                    self.check(name, (came[:12], came.count(b"HTTP/1.1 ")), (first, 1))
            with connected(port) as peer:
                peer.sendall((b"GET /healthz HTTP/1.1\r\n" + host + b"\r\n") * 3)
                came = everything_of(peer)
                self.check("three at once get one answer", (came[:12], came.count(b"HTTP/1.1 ")), (b"HTTP/1.1 200", 1))
                self.check("and it is said", b"\r\nconnection: close\r\n" in came.lower(), True)
            self.check("it goes on", ran.poll(), None)

    def test_a_thousand_at_once(self):
        """A thousand connections at once that say nothing, or what is no request, leave nothing behind."""
        with shown(self.journal()) as (ran, port), descriptors(2_000):
            self.check("before them", asked(port, "/healthz").status, 200)
            least, held = len(descriptors_of(ran.pid)), []
            for number in range(4):
                crowd = [begun(port) for _ in range(1_000)]
                _, open_now, _ = select.select([], [it for it in crowd if it.fileno() < 1_024], [], TIME_TO_REPLY)
                self.check(f"some are open, time {number}", len(open_now) > 0, True)
                for it in open_now if number % 2 else []:
                    with contextlib.suppress(OSError):
                        it.sendall(os.urandom(100) + b"\r\n\r\n")
                for it in crowd:
                    it.close()
                began = time.monotonic()
                self.check(f"after them, time {number}", asked(port, "/healthz").status, 200)
                self.check(f"in time, time {number}", time.monotonic() - began < 10, True)
                self.check(f"a page, time {number}", asked(port, f"/day?account=7&day={MONDAY}").status, 200)
                self.check(f"descriptors, time {number}", soon(lambda: len(descriptors_of(ran.pid)) <= least), True)
                held.append(memory_of(ran.pid))
            # What the first needed stays; after it nothing is added.
            self.check("memory", max(held[1:]) - held[0] < 8 * 1024 * 1024, True)
            self.check("it goes on", ran.poll(), None)


def everything_of(peer):
    """All that a peer says until it ends the connection."""
    came = b""
    with contextlib.suppress(ConnectionResetError):
        while True:
            more = peer.recv(4096)
            if not more:
                break
            came += more
    return came


def tls_hello():
    """What a client of TLS says first."""
    came, sends = ssl.MemoryBIO(), ssl.MemoryBIO()
    context = ssl.create_default_context()
    with contextlib.suppress(ssl.SSLWantReadError):
        context.wrap_bio(came, sends, server_hostname="localhost").do_handshake()
    return sends.read()


def begun(port):
    """A connection that begins, and is perhaps never taken."""
    it = socket.socket()
    it.setblocking(False)
    it.connect_ex((HOST, port))
    return it


@contextlib.contextmanager
def descriptors(count):
    """Room for so many of them in this process, where the system gives it."""
    soft, hard = resource.getrlimit(resource.RLIMIT_NOFILE)
    most = count if hard == resource.RLIM_INFINITY else min(count, hard)
    resource.setrlimit(resource.RLIMIT_NOFILE, (max(soft, most), hard))
    try:
        yield
    finally:
        resource.setrlimit(resource.RLIMIT_NOFILE, (soft, hard))


def descriptors_of(process):
    """The open descriptors of a program."""
    return os.listdir(f"/proc/{process}/fd")


def memory_of(process):
    """How many bytes a program holds."""
    with open(f"/proc/{process}/status", encoding="ascii") as lines:
        return 1024 * next(int(it.split()[1]) for it in lines if it.startswith("VmRSS:"))


# A session over a ledger: an In alone of account 7 is closed at the maximum fare, then with its Out, then with a boarding
# of the next day, and a Credit comes after all closes. What is due is 860, 340 and 515, of which 175 fall to operator 4,
# whose route 50 is; account 8 has a boarding of Monday.
CLOSED = [
    "TAP 1 1 7 1704697200 10 IN", "TAP 2 1 8 1704697200 50 BUS", "CLOSE 19730", "TAP 1 2 7 1704699000 12 OUT",
    "CLOSE 19730", "TAP 1 3 7 1704783600 50 BUS", "CLOSE 19731", "FIX 3 1 7 CREDIT 19735 100",
]
# Each posting of account 7: its amount, its day, what was due then, and the version at which it was posted, all in pence,
# with the operator that it falls to.
POSTED = [(860, 19730, 860, 1, 1), (-520, 19730, 340, 2, 1), (175, 19731, 515, 3, 4)]
HEAD = ["Amount", "Through", "Due then", "Taps and corrections accepted", "Operators"]
UNKNOWN, NOTHING = b"<h2>Posted</h2>\n<p>What was posted is not known now.</p>\n", b"<h2>Posted</h2>\n<p>Nothing was posted for the week.</p>\n"
NOT_A_LEDGER = b"farebox: cannot read ledger: 40 NotALedger\n"


def pounds(pence):
    return f"{'-' if pence < 0 else ''}{abs(pence) // 100}.{abs(pence) % 100:02}"


def rows_of(posted, now, names=()):
    """The rows of postings of an account that has so many taps and corrections by its journals."""
    for amount, day, due, then, operator in posted:
        ahead = f"the ledger is ahead of the journal: {then} then, {now} in the journal"
        called = dict(names).get(operator, str(operator))
        yield [
            pounds(amount), dated(day), pounds(due), f"{then} then, {now} now" if then <= now else ahead,
            f"{pounds(amount)} to operator {called}",
        ]


def documents_of(posted, now):
    """The same for programs."""
    return [
        {
            "amount_pence": amount, "through": {"day": day, "date": dated(day)[-10:]}, "due_pence": due, "accepted_then": then,
            "accepted_now": now, "shares": [{"operator": {"number": operator}, "amount_pence": amount}],
        }
        for amount, day, due, then, operator in posted
    ]


def posted_in(page):
    """The rows of the postings of a page, or nothing if it has none."""
    rows = cells_of(page)
    return rows[rows.index(HEAD) + 1:] if HEAD in rows else None


class Posted(Theme):
    """What was posted, on the page of a week and in its document, by a copy of the ledger."""

    def close(self, lines=CLOSED):
        """A session over a journal and a ledger: the journal, and a copy of the ledger as it stands then."""
        journal, ledger, copy = (os.path.join(self.folder, name) for name in ("journal", "ledger", "copy"))
        came = run(["run", SAMPLE, LONDON, "--journal", journal, "--ledger", ledger], in_lines(lines))
        self.check("the session", (came.status, came.errors), (0, b""))
        shutil.copyfile(ledger, f"{copy}.new")
        os.replace(f"{copy}.new", copy)
        return journal, copy

    def test_rows(self):
        """Each posting of the account and the week, whichever day of it is asked for, and of no other."""
        journal, copy = self.close()
        before = bytes_of(copy)
        of_eight = [
            *rows_of([(175, 19730, 175, 1, 4)], 1), ["0.00", dated(19731), "1.75", "1 then, 1 now", ""],
        ]
        with shown(journal, ledger=copy) as (_, port), shown(journal) as (_, without):
            for account, day, rows in (
                (7, MONDAY, list(rows_of(POSTED, 4))), (7, 19731, list(rows_of(POSTED, 4))), (7, 19736, list(rows_of(POSTED, 4))),
                (8, 19736, of_eight),
            ):
                page = asked(port, f"/week?account={account}&day={day}").body
                self.check(f"account {account} through {day}", posted_in(page), rows)
                self.check("its heading", page.count(b"<h2>Posted</h2>"), 1)
            for account, day in ((9, MONDAY), (7, 19737), (7, 19729), (8, 19729)):
                page = asked(port, f"/week?account={account}&day={day}").body
                self.check(f"nothing for account {account} through {day}", (page.count(NOTHING), posted_in(page)), (1, None))
            for path in (f"/day?account=7&day={MONDAY}", f"/day.json?account=7&day={MONDAY}", "/"):
                self.check(f"the same as without a ledger: {path}", asked(port, path), asked(without, path))
            page = asked(without, f"/week?account=7&day={MONDAY}").body
            self.check("without a ledger", b"Posted" in page, False)
        self.check("the copy stays", bytes_of(copy), before)

    def test_documents(self):
        """The same for programs, as the schema says it."""
        journal, copy = self.close()
        with shown(journal, ledger=copy) as (_, port), shown(journal) as (_, without):
            described = json.loads(asked(port, "/openapi.json").body)
            schema = referred("#/components/schemas/Week", described)
            for account, day, posted in ((7, 19736, documents_of(POSTED, 4)), (9, 19736, []), (7, 19737, [])):
                document = json.loads(asked(port, f"/week.json?account={account}&day={day}").body)
                self.check(f"account {account} through {day}", document["posted"], posted)
                self.check("its schema", lacks(schema, document, described), None)
                del document["posted"]
                other = json.loads(asked(without, f"/week.json?account={account}&day={day}").body)
                self.check("all else is as without a ledger", document, other)
            of_eight = json.loads(asked(port, f"/week.json?account=8&day={MONDAY}").body)["posted"]
            self.check("nobody's share of nothing", [it["shares"] for it in of_eight][1:], [[]])

    def test_operators(self):
        """Operators by the names that the fare file gives them."""
        journal, copy = self.close()
        named = b'operators = [{ operator = 1, name = "Metro <b>" }, { operator = 17, name = "None" }]\n' + bytes_of(SAMPLE)
        with shown(journal, written(self.folder, "named.toml", named), ledger=copy) as (_, port):
            page = asked(port, f"/week?account=7&day={MONDAY}").body
            self.check("by name", posted_in(page), list(rows_of(POSTED, 4, [(1, "Metro <b> (1)")])))
            self.check("as text", b"Metro &lt;b&gt; (1)" in page, True)
            document = json.loads(asked(port, f"/week.json?account=7&day={MONDAY}").body)
            share = {"operator": {"number": 1, "name": "Metro <b>"}, "amount_pence": -520}
            self.check("for programs", document["posted"][1]["shares"], [share])

    def test_a_ledger_that_is_ahead(self):
        """Where the journal lacks lines, each posting that had them says so."""
        _, copy = self.close()
        journal = written(self.folder, "short", in_lines([CLOSED[0], CLOSED[3]]))
        with shown(journal, ledger=copy) as (_, port):
            page = asked(port, f"/week?account=7&day={MONDAY}").body
            self.check("two taps", posted_in(page), list(rows_of(POSTED, 2)))
            document = json.loads(asked(port, f"/week.json?account=7&day={MONDAY}").body)
            self.check("for programs", document["posted"], documents_of(POSTED, 2))

    def test_another_copy(self):
        """A newer copy is seen; one that is none is told, and the page is there without it."""
        journal, copy = self.close(CLOSED[:3])
        week = f"account=7&day={MONDAY}"
        with shown(journal, ledger=copy) as (ran, port):
            self.check("one close", posted_in(asked(port, f"/week?{week}").body), list(rows_of(POSTED[:1], 1)))
            self.close(CLOSED[3:])
            self.check(
                "a newer copy", soon(lambda: posted_in(asked(port, f"/week?{week}").body) == list(rows_of(POSTED, 4))), True
            )
            whole = bytes_of(copy)
            written(self.folder, "text", b"no ledger at all, but some bytes of text\n")
            os.replace(os.path.join(self.folder, "text"), copy)
            page = asked(port, f"/week?{week}")
            self.check("a text in its place", (page.status, page.body.count(UNKNOWN), posted_in(page.body)), (200, 1, None))
            self.check("it is said", heard(ran.stderr, len(NOT_A_LEDGER)), NOT_A_LEDGER)
            self.check("for programs", json.loads(asked(port, f"/week.json?{week}").body)["posted"], None)
            self.check("a day", asked(port, f"/day?{week}").status, 200)
            os.remove(copy)
            self.check("no file in its place", asked(port, f"/week?{week}").body.count(UNKNOWN), 1)
            self.check("none is made", os.path.exists(copy), False)
            written(self.folder, "again", whole)
            os.replace(os.path.join(self.folder, "again"), copy)
            self.check("the copy again", posted_in(asked(port, f"/week?{week}").body), list(rows_of(POSTED, 4)))

    def test_a_copy_that_stays_open(self):
        """The copy is opened once, and again where something was written into it; to no other program."""
        journal, copy = self.close()
        whole, week = bytes_of(copy), f"account=7&day={MONDAY}"
        explain = ["explain", SAMPLE, LONDON, "7", str(MONDAY), "--journal", journal, "--ledger", copy]
        with shown(journal, ledger=copy) as (_, port):
            for after in ("its start", "another program"):
                self.check(f"a page after {after}", posted_in(asked(port, f"/week?{week}").body), list(rows_of(POSTED, 4)))
                self.check(f"another program after {after}", run(explain), fault("43 Store"))
            # No program opens a file of two names.
            os.link(copy, f"{copy}.other")
            self.check("with another name", posted_in(asked(port, f"/week?{week}").body), list(rows_of(POSTED, 4)))
            os.remove(f"{copy}.other")
            with open(copy, "r+b") as it:
                it.write(b"no ledger at all")
            self.check("written over", asked(port, f"/week?{week}").body.count(UNKNOWN), 1)
            with open(copy, "r+b") as it:
                it.write(whole[:16])
            self.check("mended", posted_in(asked(port, f"/week?{week}").body), list(rows_of(POSTED, 4)))
        self.check("another program, after its end", run(explain).status, 0)

    def test_what_is_no_ledger(self):
        """What is no ledger is refused at the start, and so is one that a service has open."""
        journal, _ = self.close()
        port = free_ports(1)
        text = written(self.folder, "text", b"no ledger at all, but some bytes of text\n")
        byte, none = written(self.folder, "byte", b"\0"), os.path.join(self.folder, "none")
        for name, path, wanted in (
            ("no file", none, "no such ledger"), ("a byte", byte, "no such ledger"), ("a text", text, "40 NotALedger"),
        ):
            self.check(name, run(page_words(journal, port, ledger=path)), fault(wanted))
        self.check("no file is made", os.path.exists(none), False)
        journals, ledger = new_folder(self.folder), os.path.join(self.folder, "ledger.db")
        with staying(journals, ledger) as service:
            self.check("one that is open", run(page_words(journals, port, ledger=ledger)), fault("43 Store"))
            came = service.stopped()
            self.check("the service", came, service.wanted())

    def test_many_at_once(self):
        """Browsers that ask side by side each get the postings of their own account."""
        journal, copy = self.close()
        rows = {7: list(rows_of(POSTED, 4)), 9: None}
        with shown(journal, ledger=copy) as (_, port), ThreadPoolExecutor(8) as browsers:
            def page(number):
                account = 7 if number % 3 else 9
                return account, posted_in(asked(port, f"/week?account={account}&day={MONDAY}").body)
            for account, came in browsers.map(page, range(24)):
                self.check(f"account {account}", came, rows[account])

    def test_links_to_corrections(self):
        """A day and a week link to the corrections of the day where clerks may correct, and nowhere else."""
        journal, _ = self.close()
        staff = written(self.folder, "staff", f"17 5000 {hashlib.sha256(b'sesame').hexdigest()} Ann\n".encode())
        with shown(journal, control=free_ports(1), staff=staff) as (_, port), shown(journal) as (_, without):
            for path, day, label in (("day", 19731, "Correct this day"), ("week", 19736, "Correct its last day")):
                link = f'<li><a href="/correct?account=7&amp;day={day}">{label}</a></li>\n'.encode()
                page, plain = asked(port, f"/{path}?account=7&day={day}").body, asked(without, f"/{path}?account=7&day={day}").body
                self.check(f"a {path}", page.count(link), 1)
                self.check("all else", page.replace(link, b""), plain)
                self.check("no link", b"/correct" in plain, False)


@contextlib.contextmanager
def connected_listener(port):
    """A port that another program has."""
    with socket.socket() as it:
        it.setsockopt(socket.SOL_SOCKET, socket.SO_REUSEADDR, 1)
        it.bind((HOST, port))
        it.listen()
        yield
