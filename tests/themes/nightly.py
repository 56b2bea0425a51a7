"""The nightly close of contrib/nightly and the lines of contrib/staff, at a stand-in for the port for staff, and at a
service that stays."""

import contextlib
import os
import socket
import stat
import subprocess
import sys
import threading
import time

from support.journals import new_folder, with_both
from support.repository import LONDON, PROGRAM, ROOT, RUN_SAMPLE
from support.running import MISSING, RUN, TIME_TO_END, TIME_TO_REPLY, End, answers, bytes_of, in_lines, run, written
from support.serving import HOST, boarding, free_ports, paid, talk
from support.staying import both_listening, staying
from support.theme import Theme

NIGHTLY, STAFF = f"{ROOT}/contrib/nightly", f"{ROOT}/contrib/staff"

# The closes of docs/LINES.md and docs/RULES.md, of Monday 2024-01-08 and the Tuesday.
MONDAY, TUESDAY, SUNDAY = "2024-01-08", "2024-01-09", "2024-01-07"
PAID = ["PAY 7 19730 19730 9 610 610 1=292 2=167 4=151", "DONE 19730 1"]
BACK = ["PAY 7 19730 19730 1 175 175 4=175", "PAY 8 19730 19730 2 0 -175 4=-175", "DONE 19730 2"]
NEXT_DAY = ["PAY 7 19730 19731 10 600 -10 1=-5 2=-2 4=-3", "DONE 19731 1"]

# Replies that none to CLOSE 19730 can be: of each the lines before BYE, and the line that is not as it has to be.
NO_REPLIES = (
    ("another day", ["DONE 19729 0"], 1),
    ("too few", [PAID[0], "DONE 19730 2"], 2),
    ("too many", ["DONE 19730 1"], 1),
    ("an account twice", [BACK[0], BACK[0], "DONE 19730 2"], 2),
    ("accounts that fall", [*reversed(BACK[:2]), "DONE 19730 2"], 2),
    ("through another day", [NEXT_DAY[0], "DONE 19730 1"], 1),
    ("of another week", ["PAY 7 19723 19730 1 175 175 4=175", "DONE 19730 1"], 1),
    ("shares that come to another amount", ["PAY 7 19730 19730 1 175 175 4=174", "DONE 19730 1"], 1),
    ("no shares", ["PAY 7 19730 19730 1 175 175", "DONE 19730 1"], 1),
    ("another spelling", ["PAY 7 19730 19730 01 175 175 4=175", "DONE 19730 1"], 1),
    ("a minus 0", ["PAY 7 19730 19730 1 0 -0", "DONE 19730 1"], 1),
    ("a refusal after a posting", [PAID[0], "NO 43 Store"], 2),
    ("the reply to another line", ["OK 19730 175 175"], 1),
)


# What has a call of the script answer, in a process of its own, since it sets the zone of its process.
CALLING = """
import importlib.machinery, importlib.util, sys
loader = importlib.machinery.SourceFileLoader("nightly", sys.argv[1])
module = importlib.util.module_from_spec(importlib.util.spec_from_loader("nightly", loader))
loader.exec_module(module)
print(eval(sys.argv[2], vars(module)))
"""


def called(expression):
    """What this expression comes to by the names of the script."""
    return ran([sys.executable, "-B", "-c", CALLING, NIGHTLY, expression])


class Port:
    """A port of this host, at which a thread serves connections."""

    def __enter__(self):
        self.listener = socket.create_server((HOST, 0))
        self.listener.settimeout(TIME_TO_REPLY)
        self.port = self.listener.getsockname()[1]
        self.thread = threading.Thread(target=self.serve)
        self.thread.start()
        return self

    def __exit__(self, *_):
        self.thread.join()
        self.listener.close()


class Session(Port):
    """A port of which one connection is a session of the program with these words."""

    def __init__(self, words):
        self.words = words

    def serve(self):
        with contextlib.suppress(OSError):
            peer, _ = self.listener.accept()
            with peer:
                peer.settimeout(None)
                subprocess.run(
                    [PROGRAM, *self.words], stdin=peer, stdout=peer, stderr=subprocess.DEVNULL, timeout=TIME_TO_END
                )


class Staff(Port):
    """A stand-in for the port for staff: each of these replies goes to one connection, once that has sent a line QUIT
    or STOP. What connections sent is kept."""

    def __init__(self, replies, waits=0):
        self.replies, self.waits, self.heard = list(replies), waits, []

    def serve(self):
        for reply in self.replies:
            with contextlib.suppress(OSError):
                peer, _ = self.listener.accept()
                with peer:
                    self.answer(peer, reply)

    def answer(self, peer, reply):
        peer.settimeout(TIME_TO_REPLY)
        taken = b""
        while not taken.endswith((b"QUIT\n", b"STOP\n")):
            more = peer.recv(1 << 16)
            if not more:
                break
            taken += more
        self.heard.append(taken)
        time.sleep(self.waits)
        # As it may come: cut somewhere in a line.
        peer.sendall(reply[:7])
        peer.sendall(reply[7:])


def whole(lines):
    return in_lines([*lines, "BYE"])


def ran(words, **settings):
    """What a script comes to, with these settings in place of those of this machine."""
    known = {name: value for name, value in os.environ.items() if name not in ("CONTROL", "ZONE", "MAINPID", "TZ")}
    given = {**known, "FAREBOX_CONF": MISSING, **settings}
    came = subprocess.run(
        words, stdin=subprocess.DEVNULL, stdout=subprocess.PIPE, stderr=subprocess.PIPE, timeout=TIME_TO_END, env=given
    )
    return End(came.returncode, came.stdout, came.stderr)


class Nightly(Theme):
    """The nightly close."""

    def setUp(self):
        super().setUp()
        self.into = os.path.join(self.folder, "postings")

    def close(self, replies, *words, waits=0, into=None, **settings):
        """What comes of a close at a port that replies so, and what it was sent."""
        with Staff(replies, waits) as staff:
            came = ran([NIGHTLY, "--into", into or self.into, *words], CONTROL=str(staff.port), **settings)
        return came, answers(b"".join(staff.heard))

    def closed(self, day, date, postings, pence, number=""):
        path = f"{self.into}/{date}{number}.txt"
        return f"nightly: day {day} ({date}) closed: {postings} postings of {pence} pence in {path}\n"

    def failed(self, status, why, day=19730, date=MONDAY):
        return End(status, b"", f"nightly: close of day {day} ({date}): {why}\n".encode())

    def files(self):
        """The files of postings, by their names."""
        if not os.path.isdir(self.into):
            return answers(b"none")
        return answers(repr({name: bytes_of(f"{self.into}/{name}") for name in sorted(os.listdir(self.into))}).encode())

    def has(self, **files):
        named = {f"2024-01-{name[1:].replace('_', '-')}.txt": in_lines(lines) for name, lines in files.items()}
        return answers(repr(named).encode())

    def test_closes(self):
        """A day is closed, and what was posted is in a file of the day, which its owner alone may read."""
        came, heard = self.close([whole(PAID)], "19730")
        self.check("a close", came, answers(self.closed(19730, MONDAY, 1, 610).encode()))
        self.check("what is sent", heard, answers(b"CLOSE 19730\nQUIT\n"))
        self.check("its file", self.files(), self.has(_08=PAID))
        for path, mode in ((self.into, b"0o700"), (f"{self.into}/{MONDAY}.txt", b"0o600")):
            self.check(f"the mode of {path}", answers(oct(stat.S_IMODE(os.stat(path).st_mode)).encode()), answers(mode))
        came, _ = self.close([whole(NEXT_DAY)], "19731")
        self.check("the next day", came, answers(self.closed(19731, TUESDAY, 1, -10).encode()))
        came, _ = self.close([whole(["DONE 19729 0"])], "19729")
        self.check("a day of nobody", came, answers(self.closed(19729, SUNDAY, 0, 0).encode()))
        self.check("all files", self.files(), self.has(_07=["DONE 19729 0"], _08=PAID, _09=NEXT_DAY))

    def test_closes_again(self):
        """No posting is written over: another reply has a file of its own, and the same reply has the one that is
        there."""
        for lines, number, pence in (
            (PAID, "", 610), (PAID, "", 610), (BACK, "-2", 0), (BACK, "-2", 0), (PAID, "-3", 610),
        ):
            came, _ = self.close([whole(lines)], "19730")
            wanted = self.closed(19730, MONDAY, len(lines) - 1, pence, number)
            self.check(f"file {number or 'one'}", came, answers(wanted.encode()))
        self.check("all files", self.files(), self.has(_08_2=BACK, _08_3=PAID, _08=PAID))

    def test_week_before(self):
        """The Sunday of the week before is closed first, and what comes of the one close does not bar the other."""
        came, heard = self.close([whole(["DONE 19729 0"]), whole(NEXT_DAY)], "19731", "--week-before")
        wanted = self.closed(19729, SUNDAY, 0, 0) + self.closed(19731, TUESDAY, 1, -10)
        self.check("both", came, answers(wanted.encode()))
        self.check("what is sent", heard, answers(b"CLOSE 19729\nQUIT\nCLOSE 19731\nQUIT\n"))
        refused = self.failed(1, "refused: 43 Store", 19729, SUNDAY)
        came, _ = self.close([whole(["NO 43 Store"]), whole(NEXT_DAY)], "19731", "--week-before")
        self.check("the first is refused", came, refused._replace(output=self.closed(19731, TUESDAY, 1, -10).encode()))
        came, heard = self.close([whole(["DONE 19722 0"]), whole(["DONE 19729 0"])], "19729", "--week-before")
        self.check("of a Sunday", heard, answers(b"CLOSE 19722\nQUIT\nCLOSE 19729\nQUIT\n"))
        came, heard = self.close([whole(["DONE 8 0"])], "8", "--week-before")
        self.check("before the first week there is none", heard, answers(b"CLOSE 8\nQUIT\n"))

    def test_open_weeks(self):
        """After the close it says which of the weeks before have open accounts."""
        done, closed = whole(NEXT_DAY), self.closed(19731, TUESDAY, 1, -10)
        weeks = whole(["OPEN 19715 0", "OPEN 19722 3", "OPEN 19729 1"])
        came, heard = self.close([done, weeks], "19731", "--open", "3")
        told = (
            "nightly: week through day 19722 (2023-12-31): 3 open accounts\n"
            "nightly: week through day 19729 (2024-01-07): 1 open account\n"
        )
        self.check("two of three", came, answers((closed + told).encode()))
        self.check("what is sent", heard, answers(b"CLOSE 19731\nQUIT\nOPEN 19715\nOPEN 19722\nOPEN 19729\nQUIT\n"))
        none = "nightly: no open accounts in the weeks before\n"
        came, _ = self.close([done, whole(["OPEN 19729 0"])], "19731", "--open", "1")
        self.check("none", came, answers((closed + none).encode()))
        for reply in "NO 43 Store", "OPEN 19728 1", "OPEN 19729 01":
            came, _ = self.close([done, whole([reply])], "19731", "--open", "1")
            why = f"nightly: open accounts: the service answers {reply}\n"
            self.check(reply, came, End(1, closed.encode(), why.encode()))
        came, heard = self.close([whole(["DONE 8 0"])], "8", "--open", "2")
        first = self.closed(8, "1970-01-09", 0, 0)
        self.check("before the first week there is none", came, answers((first + none).encode()))
        self.check("and nobody is asked", heard, answers(b"CLOSE 8\nQUIT\n"))

    def test_closes_of_the_program(self):
        """The replies of the program are taken: to a close, to the same once more, to the next day's, and two
        refusals."""
        files = ["--journal", os.path.join(self.folder, "taps"), "--ledger", os.path.join(self.folder, "ledger")]
        words = [*RUN_SAMPLE, *files]
        taps = in_lines(["TAP 1 1 7 1704697200 50 BUS", "TAP 1 1 8 1704697200 10 IN"])
        self.check("two taps", run(words, taps), answers(in_lines(["OK 19730 175 175", "OK 19730 860 860"])))
        first = ["PAY 7 19730 19730 1 175 175 4=175", "PAY 8 19730 19730 1 860 860 1=860", "DONE 19730 2"]
        next_day = ["PAY 7 19730 19731 1 175 0", "PAY 8 19730 19731 1 860 0", "DONE 19731 2"]
        over = self.failed(1, "refused: 49 NotOver", 50000, "2106-11-24")
        for name, day, wanted in (
            ("a close", 19730, answers(self.closed(19730, MONDAY, 2, 1035).encode())),
            ("the same again", 19730, answers(self.closed(19730, MONDAY, 2, 1035).encode())),
            ("the next day", 19731, answers(self.closed(19731, TUESDAY, 2, 0).encode())),
            ("a stale one", 19730, self.failed(1, "refused: 42 StaleQuote")),
            ("a day to come", 50000, over),
        ):
            with Session(words) as session:
                came = ran([NIGHTLY, str(day), "--into", self.into], CONTROL=str(session.port))
            self.check(name, came, wanted)
        self.check("the files", self.files(), self.has(_08=first, _09=next_day))

    def test_refusals(self):
        """A refusal is said, and no file is written."""
        for refusal in ("34 NotHere", "42 StaleQuote", "43 Store", "44 DeskFault", "49 NotOver", "90 Memory"):
            came, _ = self.close([whole([f"NO {refusal}"])], "19730")
            self.check(refusal, came, self.failed(1, f"refused: {refusal}"))
        self.check("the files", self.files(), answers(b"none"))

    def test_what_is_no_reply(self):
        """A reply that none to this close can be is not taken."""
        for name, lines, number in NO_REPLIES:
            came, _ = self.close([whole(lines)], "19730")
            why = f"line {number} of the reply is not as it has to be: {lines[number - 1]}"
            self.check(name, came, self.failed(4, why))
        came, _ = self.close([in_lines([*PAID, PAID[0]])], "19730")
        self.check("more after the end", came, self.failed(4, "after the reply comes another line than BYE"))
        self.check("the files", self.files(), answers(b"none"))

    def test_replies_that_end_early(self):
        """A reply is taken whole, wherever its connection ends, or not at all."""
        text, why = whole(BACK), "the connection ended before the reply did"
        done, bye = text.index(b"DONE"), text.index(b"BYE")
        for size in (0, 1, len(text) // 2, done, bye - 1, bye, len(text) - 1):
            came, _ = self.close([text[:size]], "19730")
            self.check(f"{size} bytes", came, self.failed(3, why))
        self.check("the files", self.files(), answers(b"none"))

    def test_no_service(self):
        """Nobody listens, or nobody answers."""
        port = free_ports(1)
        came = ran([NIGHTLY, "19730", "--into", self.into, "--control", str(port)])
        self.check("nobody listens", came, self.failed(3, f"{HOST}:{port}: [Errno 111] Connection refused"))
        came, _ = self.close([whole(PAID)], "19730", "--timeout", "1", waits=2)
        self.check("nobody answers", came._replace(errors=came.errors[-12:]), End(3, b"", b": timed out\n"))
        self.check("the files", self.files(), answers(b"none"))

    def test_no_backup(self):
        """Where the service copies no ledger, or nobody can write there, that is said, and nothing is left."""
        journals, saved = new_folder(self.folder), new_folder(self.folder, "saved")
        written(journals, "0.lines", boarding(7).encode())
        told = self.closed(19730, MONDAY, 1, 610).encode()
        for name, reply, folder, why in (
            ("no copy", b"NO 53 NoBackup\nBYE\n", saved, "the service answers NO 53 NoBackup"),
            ("another reply", b"OK\nBYE\n", saved, "the service answers OK"),
            ("a reply that is cut", b"OK 12", saved, "the connection ended before the reply did"),
            ("no folder", b"", f"{saved}/no", "[Errno 2] No such file or directory"),
        ):
            replies = [whole(PAID), reply] if reply else [whole(PAID)]
            came, heard = self.close(replies, "19730", "--backup", folder, "--journals", journals)
            self.check(name, came._replace(errors=came.errors.partition(b": '")[0].rstrip(b"\n")),
                       End(6, told, f"nightly: no backup in {folder}: {why}".encode()))
            asked = [line.split(b" ")[0] for line in heard.output.splitlines()[2:]]
            self.check(f"what is sent, {name}", asked, [b"BACKUP", b"QUIT"][:len(reply)])
        self.check("what is left", os.listdir(saved), [])

    def test_no_folder(self):
        """Where the file cannot be written, that is said, and that the day is closed."""
        into = os.path.join(written(self.folder, "file", b""), "postings")
        came, _ = self.close([whole(PAID)], "19730", into=into)
        why = f"the day is closed, and its postings could not be written: [Errno 20] Not a directory: '{into}'"
        self.check("a folder below a file", came, self.failed(5, why))

    def test_last_day_over(self):
        """Without a day it is the last one that is over, by the clocks of the zone: the day before that of the instant,
        as docs/RULES.md has it."""
        for zone, instant, day in (
            (LONDON, 1704688199, 19729), (LONDON, 1704688200, 19730), (LONDON, 1711855799, 19812),
            (LONDON, 1711855800, 19813), ("UTC0", 1711855799, 19812), ("UTC0", 1711859399, 19812),
            ("UTC0", 1711859400, 19813),
        ):
            self.check(
                f"at {instant} in {zone}", called(f"last_day_over({zone!r}, {instant})"), answers(b"%d\n" % (day - 1))
            )

        def over():
            return (int(time.time()) - 16_200) // 86_400 - 1

        before = over()
        came, heard = self.close([whole([])], ZONE="UTC0")
        self.check("by the clock", heard, answers(b"CLOSE %d\nQUIT\n" % (before if before in (over(),) else over())))

    def test_words(self):
        """Words that are none."""
        for words in (
            ["3"], ["50001"], ["x"], ["19730", "19731"], ["--control", "0"], ["--timeout", "0"], ["--fly"], [],
        ):
            came = ran([NIGHTLY, *words])
            self.check(f"the words {words}", End(came.status, came.output), End(2))
        came = ran([NIGHTLY, "19730"], CONTROL="x")
        self.check("no port", came._replace(errors=came.errors.splitlines()[-1]),
                   End(2, b"", b"nightly: error: no port for staff: give --control, or set CONTROL"))

    def test_settings(self):
        """A file of settings is read as systemd reads it: values may stand in quotes."""
        lines = ["# CONTROL=1", "CONTROL=9001", "", 'ZONE="<+03>-3"', "PORT = '9000'", "FARES=/a b", "no value"]
        path = written(self.folder, "farebox.conf", in_lines(lines))
        wanted = {"CONTROL": "9001", "ZONE": "<+03>-3", "PORT": "9000", "FARES": "/a b"}
        self.check("the settings", called(f"settings({path!r})"), answers(f"{wanted}\n".encode()))
        with Staff([whole(PAID)]) as staff:
            path = written(self.folder, "farebox.conf", in_lines(["PORT=1", f'CONTROL="{staff.port}"', "LANES=2"]))
            came = ran([NIGHTLY, "19730", "--into", self.into], FAREBOX_CONF=path)
        self.check("a close by them", came, answers(self.closed(19730, MONDAY, 1, 610).encode()))
        with Staff([whole(PAID)]) as staff:
            came = ran([NIGHTLY, "19730", "--into", self.into], CONTROL=str(staff.port), GREETING="open sesame")
        self.check("a close behind a greeting", came, answers(self.closed(19730, MONDAY, 1, 610).encode()))
        self.check("what is sent", answers(b"".join(staff.heard)), answers(b"open sesame\nCLOSE 19730\nQUIT\n"))


class Service(Theme):
    """The scripts at a service that stays."""

    def test_a_service(self):
        """A day is closed, what is counted is told, and the service is stopped."""
        journals, ledger = new_folder(self.folder), os.path.join(self.folder, "ledger")
        into = os.path.join(self.folder, "postings")
        with staying(journals, ledger) as service:
            talk(service.port, (boarding(7) + boarding(8) + "QUIT\n").encode())
            control = {"CONTROL": str(service.control)}
            came = ran([NIGHTLY, "19730", "--into", into], **control)
            told = f"nightly: day 19730 ({MONDAY}) closed: 2 postings of 350 pence in {into}/{MONDAY}.txt\n"
            self.check("a close", came, answers(told.encode()))
            postings = answers((paid(7) + paid(8) + "DONE 19730 2\n").encode())
            self.check("its file", answers(bytes_of(f"{into}/{MONDAY}.txt")), postings)
            saved = new_folder(self.folder, "saved")
            for number in "", "-2":
                path = f"{saved}/{MONDAY}{number}"
                came = ran([NIGHTLY, "19730", "--into", into, "--backup", saved, "--journals", journals], **control)
                self.check("a backup", came, answers(f"{told}nightly: backup in {path}\n".encode()))
                self.check("its modes", {
                    os.stat(os.path.join(found, name)).st_mode & 0o777 for found, _, names in os.walk(path)
                    for name in names
                }, {0o600})
                came = run(["audit", *RUN[1:], *with_both(f"{path}/taps", f"{path}/ledger.db")])
                self.check("its audit", came, answers(b""))
            came = ran([STAFF, "STATS"], **control)
            counts, _, files = came.output.decode().partition(" connections=")[2].partition(" journal_bytes=")
            # The three lines of the reader, the CLOSE and the QUIT of each close, and the QUIT of each backup; the
            # connection of STATS is open.
            wanted = "1 connections_in_all=7 dropped=0 lines=11 accepted=2 again=0 taps=2 corrections=0"
            self.check("what is counted", answers(counts.encode()), answers(wanted.encode()))
            self.check("the last close", " close_day=19730 close_postings=0 close_seconds=" in files, True)
            self.check("a stop", ran([STAFF, "STOP"], **control), answers(b"BYE\n"))
            wanted = End(0, b"", both_listening(service.port, service.control))
            self.check("how it ends", service.ended(), wanted)


    def test_open_weeks(self):
        """A week is open until its Sunday is closed, and again once a late tap came."""
        journals, ledger = new_folder(self.folder), os.path.join(self.folder, "ledger")
        into = os.path.join(self.folder, "postings")
        sunday, next_day, none = "2024-01-14", "2024-01-15", "nightly: no open accounts in the weeks before\n"
        late = boarding(7, 2).replace("1704697200", "1704706200")

        def closed(day, date, postings, pence):
            return f"nightly: day {day} ({date}) closed: {postings} postings of {pence} pence in {into}/{date}.txt\n"

        with staying(journals, ledger) as service:
            talk(service.port, (boarding(7) + boarding(8) + "QUIT\n").encode())
            nothing, two = closed(19737, next_day, 0, 0), closed(19736, sunday, 2, 350)
            week = f"nightly: week through day 19736 ({sunday}): "
            for more, wanted in (
                (["--open=2"], f"{nothing}{week}2 open accounts\n"),
                (["--open=2", "--week-before"], f"{two}{nothing}{none}"),
            ):
                came = ran([NIGHTLY, "19737", "--into", into, *more], CONTROL=str(service.control))
                self.check(" ".join(more), came, answers(wanted.encode()))
            talk(service.port, f"{late}QUIT\n".encode())
            came = ran([NIGHTLY, "19737", "--into", into, "--open=2"], CONTROL=str(service.control))
            self.check("a late tap", came, answers(f"{nothing}{week}1 open account\n".encode()))
            self.check("how it ends", service.stopped(), service.wanted())


class Lines(Theme):
    """Lines of staff."""

    def test_lines(self):
        """The lines are sent, and then QUIT, or nothing after STOP; what is answered is printed."""
        for words, sent in (
            (["STATS"], b"STATS\nQUIT\n"), (["DUE 7 19730", "SHOW 7 19730"], b"DUE 7 19730\nSHOW 7 19730\nQUIT\n"),
            (["STOP"], b"STOP\n"), (["DUE 7 19730", "STOP"], b"DUE 7 19730\nSTOP\n"),
        ):
            with Staff([b"NO 50 BadLine\nBYE\n"]) as staff:
                came = ran([STAFF, *words], CONTROL=str(staff.port))
            self.check(f"{words}", came, answers(b"NO 50 BadLine\nBYE\n"))
            self.check(f"{words}: what is sent", answers(b"".join(staff.heard)), answers(sent))

    def test_stop(self):
        """Where the service manager stops the service, it waits until that has ended."""
        with subprocess.Popen(["sleep", "0.7"]) as service, Staff([b"BYE\n"]) as staff:
            threading.Thread(target=service.wait).start()
            came = ran([STAFF, "STOP"], CONTROL=str(staff.port), MAINPID=str(service.pid))
            self.check("it has ended", End(service.poll(), came.output), answers(b"BYE\n"))

    def test_no_service(self):
        """Nobody listens, or there are no words."""
        came = ran([STAFF, "STATS"], CONTROL=str(free_ports(1)))
        self.check("nobody listens", End(came.status, came.output), End(1))
        self.check("no words", ran([STAFF]), End(2, b"", b"usage: staff LINE..\n"))
        self.check("no port", ran([STAFF, "STATS"]), End(2, b"", b"staff: no port for staff: set CONTROL\n"))
        for given in ("CONTROL={}", 'CONTROL="{}"', " CONTROL = '{}' "):
            with Staff([b"BYE\n"]) as staff:
                lines = ["#CONTROL=1", "PORT=2", given.format(staff.port), "LANES=2"]
                came = ran([STAFF, "STATS"], FAREBOX_CONF=written(self.folder, "farebox.conf", in_lines(lines)))
            self.check(f"by the line {given}", came, answers(b"BYE\n"))

    def test_greeting(self):
        """A greeting of the settings or of the environment is sent first."""
        for given, told, sent in (
            ("#GREETING=a", {}, b""), ("GREETING=", {}, b""), ("GREETING=open sesame", {}, b"open sesame\n"),
            ('GREETING="open sesame"', {}, b"open sesame\n"), ("GREETING=a", {"GREETING": "b c"}, b"b c\n"),
        ):
            with Staff([b"BYE\n"]) as staff:
                path = written(self.folder, "farebox.conf", in_lines([f"CONTROL={staff.port}", given]))
                came = ran([STAFF, "STATS"], FAREBOX_CONF=path, **told)
            self.check(f"by the line {given}", came, answers(b"BYE\n"))
            self.check("what is sent by it", answers(b"".join(staff.heard)), answers(sent + b"STATS\nQUIT\n"))
