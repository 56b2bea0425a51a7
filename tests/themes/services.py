"""Services with journals in a folder, and with a ledger in a file: what they keep, how others go on with it, and what
is refused."""

import itertools
import os
import random
import stat
import subprocess
from typing import NamedTuple

from oracle import loads, rules
from support.journals import CANNOT_USE, bad_line, new_folder, replayed, text_beside, with_both, with_journal
from support.kept import Kept, rows_of_ledger
from support.killed_services import ServedStory
from support.ledgers import (
    ALONE, ROWS_AFTER_FIRST, ROWS_AFTER_SECOND, STORE, lacks, opened_ledger, refused_ledgers, rows, with_ledger,
)
from support.preloads import naming, preloaded
from support.repository import LONDON, RUN_SAMPLE, SAMPLE, STATE
from support.running import (
    FARES, MISSING, MONDAY, RUN, SEVEN, WEEK_DAYS, End, answers, bytes_of, end_of, fault, heard, in_lines, limited_to,
    run, session, started, written,
)
from support.serving import (
    boarding, closed, connected, ended, failed, free_ports, listening, paid, serving, side_by_side, talk, talk_ahead,
    words_of,
)
from support.statements import A_BOARDING, rows_of_statement
from support.theme import Theme

FROM_EACH = range(16)


def path_of(journals, number):
    return os.path.join(journals, f"{number}.lines")


def texts_of(journals):
    """What the journals of a folder have, each after its name."""
    names = sorted(
        (name for name in os.listdir(journals) if name.endswith(".lines")), key=lambda name: int(name.split(".")[0])
    )
    return b"".join(b"== %s\n%s" % (name.encode(), bytes_of(os.path.join(journals, name))) for name in names)


def texts(*those):
    """The same of these, from number 0 on, and of the others without a line."""
    return b"".join(b"== %d.lines\n%s" % (number, "".join(those[number:number + 1]).encode()) for number in FROM_EACH)


def with_journals(journals, *more):
    return ["--journal", journals, *more]


def with_new_ledger(journals):
    """With a ledger that is not there yet."""
    return with_both(journals, f"{journals}-ledger{len(os.listdir(os.path.dirname(journals)))}")


def not_closed(port, lanes):
    """What a service with journals and without a ledger comes to. It closes nothing, as what is posted would not be
    there for the next one."""
    return End(1, b"NO 34 NotHere\n", listening(port, lanes))


def leaving(journals, came):
    """What a service comes to, with what its journals have then."""
    return came._replace(left=texts_of(journals))


def done(count, day=MONDAY):
    return f"DONE {day} {count}\n"


class Served(NamedTuple):
    """A service: how many shards it has, what is said on its lanes line by line with the replies, what its journals
    have then, and the accounts but account 7 that its close charges for a boarding."""

    shards: int
    lanes: tuple
    left: bytes
    accounts: tuple


BOARDED, AGAIN = "OK 19730 175 175", "AGAIN 19730 175 175"
CREDIT, DUE = "FIX 3 1 7 CREDIT 19730 25\n", ("DUE 7 19730\n", "DUE 7 19730 19730 2 150 4=150")
# Of two shards the second has account 7 and 9, of three 7 and 10; account 31 is in the last of sixteen.
FIRST_TWO = boarding(8), boarding(7) + CREDIT + boarding(9)
THEN_TWO = FIRST_TWO[0] + boarding(12), FIRST_TWO[1] + boarding(10)
SERVICES = (
    Served(
        2,
        (
            (
                (boarding(7), BOARDED), (boarding(8), BOARDED), (boarding(7), AGAIN), (CREDIT, BOARDED), DUE,
                ("fly\n", "NO 50 BadLine"), ("CLOSE 19730\n", "NO 34 NotHere"),
            ),
            (
                (boarding(9), BOARDED),
                (f"TAP 1 1 9 {SEVEN + 1} 50 BUS\n", "NO 20 Conflict"),
                (f"TAP 1 2 9 {SEVEN} 51 BUS\n", "NO 15 UnknownPlace"),
            ),
        ),
        texts(*FIRST_TWO), (8, 9),
    ),
    Served(
        3,
        (
            (
                (boarding(7), AGAIN), (boarding(10), BOARDED), (CREDIT, AGAIN), (boarding(12), BOARDED),
                (f"TAP 1 1 8 {SEVEN + 1} 50 BUS\n", "NO 20 Conflict"), DUE,
            ),
        ),
        texts(*THEN_TWO), (8, 9, 10, 12),
    ),
    Served(
        16, (((boarding(31), BOARDED),), ((boarding(12), AGAIN),), ((boarding(29), BOARDED), (boarding(9), AGAIN))),
        texts(*THEN_TWO, *[""] * 11, boarding(29), "", boarding(31)), (8, 9, 10, 12, 29, 31),
    ),
    Served(
        1, (((boarding(29), AGAIN), (boarding(31), AGAIN), (boarding(1), BOARDED), (boarding(10), AGAIN), DUE),),
        texts(THEN_TWO[0] + boarding(1), THEN_TWO[1], *[""] * 11, boarding(29), "", boarding(31)),
        (1, 8, 9, 10, 12, 29, 31),
    ),
)


def written_of_close(accounts):
    """The lines of the close: account 7 owes 150, and each of these a boarding."""
    lines = [(7, f"PAY 7 {MONDAY} {MONDAY} 2 150 150 4=150\n"), *((account, paid(account)) for account in accounts)]
    return "".join(line for _, line in sorted(lines)) + done(len(lines))


class Services(Theme):
    """What services keep one after another."""

    def test_services_that_go_on(self):
        """Services one after another with one folder, each with other numbers of lanes and of shards."""
        journals = new_folder(self.folder)
        more = with_new_ledger(journals)
        for number, service in enumerate(SERVICES, 1):
            count = len(service.lanes)
            with serving(count, service.shards, 1, more=more) as (ran, port, said):
                for lane, pairs in enumerate(service.lanes):
                    replies = talk(port + lane, "".join(line for line, _ in pairs).encode() + b"QUIT\n")
                    self.check(
                        f"service {number}, lane {lane}",
                        answers(replies),
                        answers(in_lines(reply for _, reply in pairs) + b"BYE\n"),
                    )
                wanted = closed(port, count, written_of_close(service.accounts).encode())._replace(left=service.left)
                self.check(f"service {number}, its close and its journals", leaving(journals, ended(ran, said)), wanted)
        paths = [path_of(journals, number) for number in FROM_EACH]
        self.check(
            "a replay of all", replayed(*paths), answers(b"OK lines 9 accounts 8 from 1704697200 to 1704697200\n")
        )
        self.check(
            "a statement of the second",
            run(with_journal(paths[1], [*STATE[:3], "9", "19730"])),
            rows_of_statement(A_BOARDING),
        )
        both = written(self.folder, "both", b"".join(map(bytes_of, reversed(paths))))
        lines, replies = boarding(31) + "DUE 7 19730\nDUE 29 19730\n", (AGAIN, DUE[1], "DUE 29 19730 19730 1 175 4=175")
        self.check(
            "a session that has all of them", run(with_journal(both), lines.encode()), answers(in_lines(replies))
        )

    def test_two_clients(self):
        """What examples/README.md tells of two clients of a service that is then killed, and of the next one."""
        more = with_both(self.folder, os.path.join(self.folder, "ledger.db"))
        with serving(2, 2, 1, more=more) as (ran, port, said), connected(port) as first, connected(port + 1) as second:
            for peer, lines, replies in (
                (first, (boarding(7), "CLOSE 19730\n"), ("OK 19730 175 175\n", "NO 34 NotHere\n")),
                (second, (boarding(8), "DUE 7 19730\n"), ("OK 19730 175 175\n", "DUE 7 19730 19730 1 175 4=175\n")),
            ):
                for line, reply in zip(lines, replies):
                    peer.sendall(line.encode())
                    self.check(
                        f"{line.rstrip()} before the service is killed",
                        answers(heard(peer, len(reply))),
                        answers(reply.encode()),
                    )
            ran.kill()
        with serving(1, 3, 1, more=more) as (ran, port, said):
            self.check(
                "the next service",
                answers(talk(port, b"DUE 8 19730\nQUIT\n")),
                answers(b"DUE 8 19730 19730 1 175 4=175\nBYE\n"),
            )
            self.check("its close", ended(ran, said), closed(port, 1, (paid(7) + paid(8) + "DONE 19730 2\n").encode()))

    def test_nothing_is_closed(self):
        """With journals and without a ledger the day is not closed, however often the service is begun again."""
        journals = new_folder(self.folder)
        for number, reply in enumerate((BOARDED, AGAIN), 1):
            with serving(1, 2, 1, more=with_journals(journals)) as (ran, port, said):
                replies = talk(port, boarding(7).encode() + b"CLOSE 19730\nQUIT\n")
                self.check(f"service {number}", answers(replies), answers(in_lines((reply, "NO 34 NotHere", "BYE"))))
                self.check(
                    f"service {number}, its close",
                    leaving(journals, ended(ran, said)),
                    not_closed(port, 1)._replace(left=texts("", boarding(7))),
                )

    def test_kept_before_replied(self):
        """Once a reply has come, the line that it is to is in its journal."""
        journals = new_folder(self.folder)
        with serving(1, 2, 1, more=with_journals(journals)) as (ran, port, said), connected(port) as peer:
            has = ["", ""]
            for line, reply, is_kept in (
                (boarding(7), "OK 19730 175 175\n", True), (boarding(8), "OK 19730 175 175\n", True),
                (boarding(7), "AGAIN 19730 175 175\n", False),
                (CREDIT, "OK 19730 175 175\n", True), ("FIX 3 2 8 VOID 9 9\n", "OK 0 0 0\n", True),
                ("FIX 3 2 8 VOID 9 8\n", "NO 22 FixConflict\n", False),
            ):
                peer.sendall(line.encode())
                came = answers(heard(peer, len(reply)))
                has[int(line.split()[3]) % 2] += line if is_kept else ""
                self.check(
                    f"{line.rstrip()} answered",
                    leaving(journals, came),
                    answers(reply.encode())._replace(left=texts(*has)),
                )


MANY = 20_000

# The rests of journals, which are no lines.
RESTS = ("TAP 1 1 12 1704697200 50 BUS", "T", "fly\0", " " * 500)


class Clients(Theme):
    """Clients that wait, and lines that are cut."""

    def test_a_client_that_waits(self):
        """A client that connects while a service takes many lines of sixteen journals is answered once all of them are
        taken."""
        journals = new_folder(self.folder)
        for number in FROM_EACH:
            written(journals, f"{number}.lines", "".join(map(boarding, range(1 + number, MANY + 1, 16))).encode())
        with serving(2, 3, 1, more=with_journals(journals)) as (ran, port, said):
            for lane, account in enumerate((MANY, 1)):
                replies = talk(port + lane, f"DUE {account} {MONDAY}\n{boarding(account)}QUIT\n".encode())
                wanted = f"DUE {account} {MONDAY} {MONDAY} 1 175 4=175\n{AGAIN}\nBYE\n"
                self.check(f"what lane {lane} answers", answers(replies), answers(wanted.encode()))
            self.check("how it ends", ended(ran, said), not_closed(port, 2))

    def test_cut_lines(self):
        """What stands after a last newline is no line: it is cut off before the first line is kept there, and stays
        where none is."""
        for number, rest in enumerate(RESTS):
            journals = new_folder(self.folder, f"journals{number}")
            for at in range(3):
                written(journals, f"{at}.lines", (boarding(7 + at) + rest).encode())
            before = texts(boarding(7) + rest, boarding(8) + rest, boarding(9) + rest)
            more = with_new_ledger(journals)
            with serving(1, 2, 1, more=more) as (ran, port, said):
                replies = talk(port, (boarding(7) + boarding(8) + boarding(9) + "DUE 12 19730\nQUIT\n").encode())
                self.check(
                    f"{rest[:20]!r} after lines",
                    answers(replies),
                    answers(b"AGAIN 19730 175 175\n" * 3 + b"DUE 12 19730 19730 0 0\nBYE\n"),
                )
                wanted = closed(port, 1, (paid(7) + paid(8) + paid(9) + done(3)).encode())._replace(left=before)
                self.check(f"{rest[:20]!r}, and no new line", leaving(journals, ended(ran, said)), wanted)
            with serving(1, 2, 1, more=more) as (ran, port, said):
                replies = talk(port, (boarding(11) + boarding(9) + "QUIT\n").encode())
                self.check(
                    f"{rest[:20]!r}, a new line",
                    answers(replies),
                    answers(b"OK 19730 175 175\nAGAIN 19730 175 175\nBYE\n"),
                )
                # Account 11 is in shard 1, and the third journal is no shard's.
                left = texts(boarding(7) + rest, boarding(8) + boarding(11), boarding(9) + rest)
                wanted = closed(
                    port, 1, (paid(7) + paid(8) + paid(9) + paid(11) + done(4)).encode()
                )._replace(left=left)
                self.check(f"{rest[:20]!r}, a new line, and the journals", leaving(journals, ended(ran, said)), wanted)


def refused_start(journals, shards, wanted, *more):
    """What a service comes to that is refused once it listens, beside what it has to come to; a peer that waits hears
    nothing."""
    port = free_ports(1)
    came = run([*words_of(port, 1, shards), *with_journals(journals, *more)])
    return came, wanted._replace(errors=listening(port, 1) + wanted.errors)


# Lines that may not stand after a boarding and a Credit of account 7.
BAD_LINES = (
    ("fly", "50 BadLine"), ("DUE 7 19730", "50 BadLine"), ("CLOSE 19730", "50 BadLine"), ("QUIT", "50 BadLine"),
    ("", "50 BadLine"),
    ("A" * 129, "51 LongLine"), (f"TAP 1 1 7 {SEVEN + 1} 50 BUS", "20 Conflict"),
    (f"TAP 1 3 7 {SEVEN} 51 BUS", "15 UnknownPlace"),
    ("FIX 3 1 7 CREDIT 19730 26", "22 FixConflict"),
)


class Folders(Theme):
    """Which folders and journals a service may have, and what is beside them."""

    def test_bad_journals(self):
        """A line that is not accepted is told by the path of its journal and its number; no connection is served,
        nothing is written, all stays."""
        good = boarding(7) + CREDIT
        for number, (bad, why) in itertools.product((0, 1, 2, 9, 15), BAD_LINES):
            journals = new_folder(self.folder, f"journals{len(os.listdir(self.folder))}")
            for at in FROM_EACH:
                written(
                    journals,
                    f"{at}.lines",
                    (boarding(20 + at) if at != number else f"{good}{bad}\n{boarding(9)}fly\n").encode() + b"TAP 1",
                )
            # A later journal may have a bad line of its own.
            if number < 15:
                written(journals, "15.lines", b"fly\n")
            has = texts_of(journals)
            came, wanted = refused_start(journals, 2, bad_line(3, why, path_of(journals, number)))
            self.check(f"{bad[:30]!r} in journal {number}", leaving(journals, came), wanted._replace(left=has))
        # Two journals, each of which is good by itself.
        journals = new_folder(self.folder, "two")
        written(journals, "0.lines", boarding(7).encode())
        written(journals, "3.lines", f"{boarding(8)}TAP 1 1 7 {SEVEN + 1} 50 BUS\n".encode())
        has = texts(boarding(7), "", "", f"{boarding(8)}TAP 1 1 7 {SEVEN + 1} 50 BUS\n")
        for shards in (1, 4, 16):
            came, wanted = refused_start(journals, shards, bad_line(2, "20 Conflict", path_of(journals, 3)))
            self.check(
                f"two journals that contradict each other, {shards} shards",
                leaving(journals, came),
                wanted._replace(left=has),
            )
        with started([*words_of(free_ports(1)), "--journal", journals], stdin=subprocess.DEVNULL) as ran:
            self.check("what is written of it", answers(end_of(ran).output), answers(b""))

    def test_folders_that_cannot_be(self):
        """What is no folder of journals: no port is taken."""
        fifo = new_folder(self.folder, "fifo")
        os.mkfifo(path_of(fifo, 0))
        later_fifo = new_folder(self.folder, "later-fifo")
        os.mkfifo(path_of(later_fifo, 7))
        nested, later_nested = new_folder(self.folder, "nested"), new_folder(self.folder, "later-nested")
        os.mkdir(path_of(nested, 1))
        os.mkdir(path_of(later_nested, 15))
        device, later_device = new_folder(self.folder, "device"), new_folder(self.folder, "later-device")
        os.symlink("/dev/null", path_of(device, 0))
        os.symlink("/dev/null", path_of(later_device, 2))
        astray, later_astray = new_folder(self.folder, "astray"), new_folder(self.folder, "later-astray")
        os.symlink("no/file", path_of(astray, 1))
        os.symlink("no/file", path_of(later_astray, 9))
        twice = new_folder(self.folder, "twice")
        os.symlink("9.lines", path_of(twice, 3))
        given = [
            ("a missing folder", os.path.join(self.folder, "no")), ("a file", written(self.folder, "file", b"")),
            ("no name", ""), ("a device", "/dev/null"),
            ("a pipe with a name", path_of(fifo, 0)), ("a pipe in the place of a journal", fifo),
            ("a pipe in the place of a further journal", later_fifo),
            ("a folder in the place of a journal", nested),
            ("a folder in the place of a further journal", later_nested),
            ("a device in the place of a journal", device),
            ("a device in the place of a further journal", later_device),
            ("a link to a file in no folder in the place of a journal", astray),
            ("such a link in the place of a further journal", later_astray),
            ("a journal that is another one too", twice),
            ("a name that is too long", os.path.join(self.folder, "j" * 256)),
        ]
        # For who may do all no file is closed.
        if os.geteuid():
            for (name, mode), number in itertools.product((("unreadable", 0), ("for reading", stat.S_IRUSR)), (0, 9)):
                closed_one = new_folder(self.folder, f"{name.replace(' ', '-')}-{number}")
                os.chmod(written(closed_one, f"{number}.lines", b""), mode)
                given.append((f"journal {number} that is {name}", closed_one))
        with serving(1, 1, 1) as (ran, port, said):
            for name, path in given:
                # The port is another's, which would be told later.
                self.check(name, run([*words_of(port, 1, 2), *with_journals(path)]), CANNOT_USE)
            self.check("a session beside services that do not begin", answers(talk(port, b"QUIT\n")), answers(b"BYE\n"))

    def test_one_service_at_a_time(self):
        """While a service has a folder no other one begins over it, nor a session over one of its journals; they are
        read all the same."""
        journals = new_folder(self.folder)
        written(journals, "0.lines", boarding(8).encode())
        written(journals, "5.lines", boarding(9).encode())
        other = os.path.join(self.folder, "other")
        os.symlink("journals", other)
        with serving(2, 2, 1, more=with_new_ledger(journals)) as (ran, port, said):
            for name, path, shards in itertools.product(("its name", "another name"), (journals, other), (1, 2, 16)):
                self.check(
                    f"a second service by {name} with {shards} shards",
                    run([*words_of(free_ports(1), 1, shards), *with_journals(path)]),
                    CANNOT_USE,
                )
            for number in FROM_EACH:
                self.check(
                    f"a session over journal {number}",
                    run(with_journal(path_of(journals, number)), boarding(7).encode()),
                    CANNOT_USE,
                )
            both = replayed(path_of(journals, 0), path_of(journals, 5))
            self.check("a replay beside it", both, answers(b"OK lines 2 accounts 2 from 1704697200 to 1704697200\n"))
            self.check(
                "a statement beside it",
                run(with_journal(path_of(journals, 5), [*STATE[:3], "9", "19730"])),
                rows_of_statement(A_BOARDING),
            )
            for lane in range(2):
                self.check(f"lane {lane} beside them", answers(talk(port + lane, b"QUIT\n")), answers(b"BYE\n"))
            left = texts(boarding(8), *[""] * 4, boarding(9))
            wanted = closed(port, 2, (paid(8) + paid(9) + done(2)).encode())._replace(left=left)
            self.check("the service beside them", leaving(journals, ended(ran, said)), wanted)
        # While a session has one of them, no service begins.
        for number in (0, 1, 5, 9, 15):
            with started(with_journal(path_of(journals, number))) as ran:
                ran.stdin.write(boarding(8 if number == 0 else 9).encode())
                heard(ran.stdout, 5)
                came = run([*words_of(free_ports(1), 1, 2), *with_journals(journals)])
                self.check(f"a service beside a session over journal {number}", came, CANNOT_USE)
        with serving(1, 1, 1, more=with_journals(journals)) as (ran, port, said):
            ran.kill()
            ran.wait()
        with serving(1, 1, 1, more=with_journals(journals)) as (ran, port, said):
            self.check("after a service that is killed", answers(talk(port, b"QUIT\n")), answers(b"BYE\n"))

    def test_sixteen_journals(self):
        """A service makes all sixteen journals, whatever it has of shards, and so does one that is then refused."""
        for shards in (1, 2, 16):
            journals = new_folder(self.folder, f"journals{shards}")
            written(journals, "0.lines", boarding(8).encode())
            # A copy of one is no journal of a service.
            note = os.path.join(journals, "1.lines.old")
            with serving(1, shards, 1, more=with_new_ledger(journals)) as (ran, port, said):
                written(journals, "1.lines.old", b"fly\n")
                self.check(
                    f"a session over another file beside {shards} shards",
                    run(with_journal(os.path.join(journals, "16.lines"))),
                    answers(b""),
                )
                self.check(f"the lane of {shards} shards", answers(talk(port, b"QUIT\n")), answers(b"BYE\n"))
                self.check(
                    f"the close of {shards} shards", ended(ran, said), closed(port, 1, (paid(8) + done(1)).encode())
                )
            os.remove(note)
            os.remove(os.path.join(journals, "16.lines"))
            self.check(
                f"the journals of {shards} shards",
                leaving(journals, answers(b"")),
                answers(b"")._replace(left=texts(boarding(8))),
            )
        journals = new_folder(self.folder, "refused")
        with serving(1, 1, 1) as (ran, port, said):
            self.check(
                "a port that is taken", run([*words_of(port, 1, 2), *with_journals(journals)]), fault("cannot listen")
            )
            self.check("a session beside it", answers(talk(port, b"QUIT\n")), answers(b"BYE\n"))
        self.check(
            "the journals of a service that is refused",
            leaving(journals, answers(b"")),
            answers(b"")._replace(left=texts()),
        )

    def test_fares_beside_journals(self):
        """What is kept beside the journals of a service; with another zone or other fares no port is taken, no ledger
        made, and all stays."""
        journals = new_folder(self.folder)
        beside, ledger = os.path.join(journals, "all.fares"), os.path.join(self.folder, "ledger")
        dearer = written(self.folder, "dearer.toml", bytes_of(FARES).replace(b"bus = 175", b"bus = 176"))
        with serving(1, 2, 1, more=with_journals(journals)) as (ran, port, said):
            self.check("what is kept once it listens", answers(bytes_of(beside)), answers(text_beside(RUN)))
            self.check(
                "lines of both shards",
                answers(talk(port, f"{boarding(7)}{boarding(8)}QUIT\n".encode())),
                answers(in_lines((BOARDED, BOARDED, "BYE"))),
            )
            self.check(
                "the service",
                leaving(journals, ended(ran, said)),
                not_closed(port, 1)._replace(left=texts(boarding(8), boarding(7))),
            )
        self.check("what is kept", answers(bytes_of(beside)), answers(text_beside(RUN)))
        for name, fares, zone, wanted in (
            ("another zone", FARES, "UTC0", "another zone than the journal's"),
            (
                "other fares", dearer, LONDON,
                "other fares than the journal's on day 4, 1970-01-05: rules.bus; "
                "account 7 travelled on day 19730, 2024-01-08",
            ),
        ):
            for more in (with_journals(journals), with_both(journals, ledger)):
                for shards in (1, 2, 16):
                    came = run([*words_of(free_ports(1), 1, shards, fares=fares, zone=zone), *more])
                    self.check(
                        f"{name}, {shards} shards, {more[2:]}",
                        leaving(journals, came),
                        fault(wanted)._replace(left=texts(boarding(8), boarding(7))),
                    )
        self.check("no ledger is made", answers(bytes_of(ledger)), answers(None))
        self.check("what is kept then", answers(bytes_of(beside)), answers(text_beside(RUN)))
        written(journals, "3.lines", b"fly\n")
        came = run([*words_of(free_ports(1), 1, 2, fares=dearer), *with_journals(journals)])
        self.check("a bad line comes first", came, bad_line(1, "50 BadLine", path_of(journals, 3)))
        written(journals, "3.lines", b"")
        os.remove(beside)
        os.mkdir(f"{beside}.tmp")
        told = f"farebox: cannot keep fares in {beside}\nfarebox: journal fault\n".encode()
        for more in (with_journals(journals), with_both(journals, ledger)):
            came = leaving(journals, run([*words_of(free_ports(1), 1, 2, fares=dearer), *more]))
            self.check(f"what cannot be kept, {more[2:]}", came, End(1, b"", told, texts(boarding(8), boarding(7))))
        os.rmdir(f"{beside}.tmp")
        with serving(1, 2, 1, fares=dearer, more=with_journals(journals)) as (ran, port, said):
            self.check(
                "what is kept once it is removed",
                answers(bytes_of(beside)),
                answers(text_beside(["serve", dearer, LONDON])),
            )
            self.check(
                "a line by it",
                answers(talk(port, f"{boarding(10)}QUIT\n".encode())),
                answers(b"OK 19730 176 176\nBYE\n"),
            )

    def test_fares_once_compared(self):
        """What is kept stays where the ledger does not agree with the journals, or a port is another's; then it is
        another."""
        journals = new_folder(self.folder)
        beside, ledger = os.path.join(journals, "all.fares"), os.path.join(self.folder, "ledger")
        more = with_both(journals, ledger)
        with serving(1, 2, 1, more=more) as (ran, port, said):
            self.check(
                "lines", answers(talk(port, f"{boarding(7)}QUIT\n".encode())), answers(in_lines((BOARDED, "BYE")))
            )
            self.check("the close", ended(ran, said), closed(port, 1, (paid(7) + done(1)).encode()))
        os.remove(beside)
        dearer = written(self.folder, "dearer.toml", bytes_of(FARES).replace(b"bus = 175", b"bus = 176"))
        came = run([*words_of(free_ports(1), 1, 2, fares=dearer), *more])
        self.check(
            "fares that the ledger does not agree with",
            came,
            fault(
                "account 7 was posted otherwise for the week from day 19730, 2024-01-08, "
                "through day 19730, 2024-01-08"
            ),
        )
        self.check("nothing is kept of them", answers(bytes_of(beside)), answers(None))
        with serving(1, 2, 1, more=more) as (ran, port, said):
            self.check("what is kept of those that it does", answers(bytes_of(beside)), answers(text_beside(RUN, True)))

    def test_new_ledgers(self):
        """Once a service with a ledger has had the journals, one that is new is refused, and is not made."""
        journals = new_folder(self.folder)
        ledger, mistyped = os.path.join(self.folder, "ledger"), os.path.join(self.folder, "legder")
        with serving(1, 2, 1, more=with_both(journals, ledger)) as (ran, port, said):
            self.check(
                "lines", answers(talk(port, f"{boarding(7)}QUIT\n".encode())), answers(in_lines((BOARDED, "BYE")))
            )
            self.check("the close", ended(ran, said), closed(port, 1, (paid(7) + done(1)).encode()))
        self.check(
            "what is kept", answers(bytes_of(os.path.join(journals, "all.fares"))), answers(text_beside(RUN, True))
        )
        came = run([*words_of(free_ports(1), 1, 2), *with_both(journals, mistyped)])
        self.check("a mistyped one", came, fault("a new ledger beside a journal that had one"))
        self.check("it is not made", answers(bytes_of(mistyped)), answers(None))
        with serving(1, 1, 1, more=with_both(journals, ledger)) as (ran, port, said):
            talk(port, b"QUIT\n")
            self.check("its own", ended(ran, said), closed(port, 1, (paid(7) + done(1)).encode()))

    def test_links_to_journals(self):
        """Journals of a service that are links, to files and to none, which are made where the links lead."""
        journals, there = new_folder(self.folder), new_folder(self.folder, "there")
        for number in (0, 1, 9, 10):
            os.symlink(f"../there/{number}", path_of(journals, number))
        for number, account in ((0, 8), (9, 9)):
            written(there, f"{number}", boarding(account).encode())
        left = texts(boarding(8) + boarding(10), boarding(7), *[""] * 7, boarding(9))
        with serving(1, 2, 1, more=with_new_ledger(journals)) as (ran, port, said):
            for number in (0, 1, 9, 10):
                self.check(
                    f"a session over the file of journal {number}",
                    run(with_journal(os.path.join(there, f"{number}"))),
                    CANNOT_USE,
                )
            replies = talk(port, "".join(map(boarding, (7, 8, 9, 10))).encode() + b"QUIT\n")
            self.check("lines", answers(replies), answers(in_lines((BOARDED, AGAIN, AGAIN, BOARDED, "BYE"))))
            wanted = closed(port, 1, ("".join(map(paid, (7, 8, 9, 10))) + done(4)).encode())._replace(left=left)
            self.check("the service", leaving(journals, ended(ran, said)), wanted)
        self.check("the files", answers(b" ".join(sorted(os.listdir(there.encode())))), answers(b"0 1 10 9"))
        self.check(
            "a replay of all",
            replayed(*(path_of(journals, number) for number in FROM_EACH)),
            answers(b"OK lines 4 accounts 4 from 1704697200 to 1704697200\n"),
        )

    def test_names_on_the_disk(self):
        """Each start of a service has the names of its journals on the disk, by one call; and where one is a link, by
        one more."""
        library = preloaded(self.folder)
        with serving(1, 1, 1) as (ran, port, said):
            for name, count in (("files", 1), ("a link", 2)):
                journals = new_folder(self.folder, name.replace(" ", "-"))
                written(journals, "all.fares", text_beside(RUN))
                if count == 2:
                    os.symlink("../made", path_of(journals, 9))
                for named, at in itertools.product(range(count), range(2)):
                    came = run([*words_of(port, 1, 2), *with_journals(journals)], **naming(library, named))
                    self.check(f"{name}, {named} folders named, start {at}", came, CANNOT_USE)
                # What comes after the journals is that the port is another's.
                came = run([*words_of(port, 1, 2), *with_journals(journals)], **naming(library, count))
                self.check(f"{name}, {count} folders named", came, fault("cannot listen"))
            self.check("a session beside services that do not begin", answers(talk(port, b"QUIT\n")), answers(b"BYE\n"))


LATE = "NO 52 Late\n"


def made_ledger(folder):
    """A ledger that a service without taps has made: where files may not grow, one that is there can be opened."""
    ledger = os.path.join(folder, "made")
    with serving(1, 2, 1, more=with_both(new_folder(folder, "without"), ledger)) as (ran, port, said):
        talk(port, b"QUIT\n")
        ended(ran, said)
    return ledger


class FullJournals(Theme):
    """Journals without room."""

    def test_full_journals(self):
        """A journal that has no room for a line: its shard answers nothing any more, and the others go on; no day is
        closed, and all that was answered is there in the next service."""
        room = 2 * len(boarding(10)) + 4
        # Account 14 is in shard 0, whose journal is full. Its lane waits some ten seconds for the reply, and the close
        # of a ledger as long.
        before = boarding(10) + boarding(12) + boarding(11) + boarding(14)
        after = "DUE 11 19730\n" + boarding(13) + "QUIT\n"
        for name, has_ledger, refused in (
            ("", False, b"NO 34 NotHere\n"), (", over a ledger", True, b"NO 44 DeskFault\n")
        ):
            journals = new_folder(self.folder, "closed" if has_ledger else "journals")
            more = with_both(journals, made_ledger(self.folder)) if has_ledger else with_journals(journals)
            written(journals, "all.fares", text_beside(RUN, has_ledger))
            full = f"farebox: cannot keep lines in {path_of(journals, 0)}\n".encode()
            with serving(1, 2, 1, more=more, **limited_to(room)) as (ran, port, said), connected(port) as peer:
                peer.sendall(before.encode())
                wanted = 3 * "OK 19730 175 175\n" + LATE
                self.check(
                    f"lines of a full journal{name}", answers(heard(peer, len(wanted))), answers(wanted.encode())
                )
                said += heard(ran.stderr, len(full))
                self.check(
                    f"what is said while the service goes on{name}", answers(said), answers(listening(port, 1) + full)
                )
                peer.sendall(after.encode())
                wanted = "DUE 11 19730 19730 1 175 4=175\n" + "OK 19730 175 175\nBYE\n"
                self.check(
                    f"lines of the other journal{name}", answers(heard(peer, len(wanted))), answers(wanted.encode())
                )
                left = texts(boarding(10) + boarding(12) + boarding(14)[:4], boarding(11) + boarding(13))
                wanted = fault("journal fault", refused)
                not_posted = b"farebox: close of day 19730, 2024-01-08 refused: 44 DeskFault\n" if has_ledger else b""
                wanted = wanted._replace(errors=listening(port, 1) + full + not_posted + wanted.errors, left=left)
                self.check(f"how it ends{name}", leaving(journals, ended(ran, said)), wanted)
            with serving(1, 2, 1, more=more if has_ledger else with_new_ledger(journals)) as (ran, port, said):
                replies = talk(port, (before + after).encode())
                wanted = (
                    3 * "AGAIN 19730 175 175\n"
                    + "OK 19730 175 175\nDUE 11 19730 19730 1 175 4=175\nAGAIN 19730 175 175\nBYE\n"
                )
                self.check(f"the same lines in the next service{name}", answers(replies), answers(wanted.encode()))
                left = texts(boarding(10) + boarding(12) + boarding(14), boarding(11) + boarding(13))
                wanted = closed(port, 1, ("".join(map(paid, range(10, 15))) + done(5)).encode())._replace(left=left)
                self.check(f"how the next service ends{name}", leaving(journals, ended(ran, said)), wanted)


def served(journals, ledger, lines, close=MONDAY, shards=2):
    """A service of one lane over these files that is sent these lines: its port, what it replied, and what it came
    to."""
    with serving(1, shards, 1, SAMPLE, close, with_both(journals, ledger)) as (ran, port, said):
        return port, talk(port, lines.encode() + b"QUIT\n"), ended(ran, said)


TAP_IN, TAP_OUT = f"TAP 1 1 7 {SEVEN} 10 IN\n", f"TAP 1 2 7 {SEVEN + 1_800} 12 OUT\n"
CHARGED = "PAY 7 19730 19730 1 860 860 1=860\nDONE 19730 1\n"
REFUNDED = "PAY 7 19730 19730 2 340 -520 1=-520\nDONE 19730 1\n"


class Ledgers(Theme):
    """Services with a ledger in a file."""

    def test_ledgers_of_services(self):
        """What services close into one ledger in a file, one after another: what was posted is told again, and what
        came later given back."""
        journals, ledger = new_folder(self.folder), os.path.join(self.folder, "ledger")
        for number, (lines, replies, shards, output, left) in enumerate((
            (TAP_IN, "OK 19730 860 860\n", 2, CHARGED, ROWS_AFTER_FIRST), ("", "", 3, CHARGED, ROWS_AFTER_FIRST),
            (TAP_OUT, "OK 19730 340 340\n", 1, REFUNDED, ROWS_AFTER_SECOND),
            (TAP_IN, "AGAIN 19730 340 340\n", 16, REFUNDED, ROWS_AFTER_SECOND),
        ), 1):
            port, came, end = served(journals, ledger, lines, shards=shards)
            self.check(f"service {number}, its lane", answers(came), answers(replies.encode() + b"BYE\n"))
            self.check(f"service {number}, its close", end, closed(port, 1, output.encode()))
            self.check(f"service {number}, the rows", answers(rows_of_ledger(ledger)), answers(left))
        # A later day of the week, and then an earlier one, which is refused.
        port, _, end = served(journals, ledger, "", MONDAY + 1)
        self.check("a later day", end, closed(port, 1, b"PAY 7 19730 19731 2 340 0\nDONE 19731 1\n"))
        port, _, end = served(journals, ledger, "")
        self.check(
            "an earlier day",
            end,
            failed(
                port, 1,
                "close of day 19730, 2024-01-08 refused: 42 StaleQuote: account 7 was posted through day 19731, 2024-01-09",
                b"NO 42 StaleQuote\n",
            ),
        )
        # A session goes on with what the services have kept and posted.
        both = written(
            self.folder, "both", b"".join(bytes_of(path_of(journals, number)) or b"" for number in FROM_EACH)
        )
        lines, replies = session((
            ("CLOSE 19731", "PAY 7 19730 19731 2 340 0\nDONE 19731 1"), ("DUE 7 19731", "DUE 7 19730 19731 2 340 1=340")
        ))
        self.check("a session after them", run(with_ledger(ledger, both, RUN_SAMPLE), lines), answers(replies))
        # A journal that is lost: its line is named, no port is taken, and nothing is posted.
        posted = rows_of_ledger(ledger)
        os.remove(path_of(journals, 0))
        for shards in (1, 2, 16):
            came = run([*words_of(port, 1, shards, fares=SAMPLE), *with_both(journals, ledger)])
            self.check(
                f"a journal that is lost, {shards} shards",
                came,
                lacks(f"{TAP_OUT.strip()}, on day 19730, 2024-01-08, at second 27000"),
            )
        self.check("a journal that is lost, the rows", answers(rows_of_ledger(ledger)), answers(posted))

    def test_ledgers_that_are_refused(self):
        """A ledger that is none, in use, or without its journals: no port is taken, and the journals stay as they
        are."""
        journals, empty = new_folder(self.folder), new_folder(self.folder, "empty")
        written(journals, "0.lines", boarding(8).encode() + b"TAP 1")
        rests = new_folder(self.folder, "rests")
        written(rests, "3.lines", boarding(8).rstrip().encode())
        ledger, _ = opened_ledger(self.folder, "ledger")
        with serving(1, 1, 1) as (ran, port, said):
            for name, path, wanted in refused_ledgers(self.folder):
                self.check(name, run([*words_of(port, 1, 1), *with_both(journals, path)]), wanted)
                self.check(f"{name}, without journals", run([*words_of(port, 1, 1), "--ledger", path]), wanted)
            for name, path in (
                ("a folder", self.folder),
                ("a file in no folder", os.path.join(self.folder, "no", "ledger")),
                ("no name", ""),
            ):
                self.check(name, run([*words_of(port, 1, 1), *with_both(journals, path)]), STORE)
            self.check(
                "a journal of its own as its ledger",
                run([*words_of(port, 1, 1), *with_both(journals, path_of(journals, 0))]),
                STORE,
            )
            for name, more in (
                ("no journals", []),
                ("an empty folder", ["--journal", empty]),
                ("a folder of cut lines", ["--journal", rests]),
            ):
                self.check(
                    f"a ledger that archives something, and {name}",
                    run([*words_of(port, 1, 2), *more, "--ledger", ledger]),
                    ALONE,
                )
            with started(with_ledger(os.path.join(self.folder, "used"))) as other:
                other.stdin.write(boarding(7).encode())
                heard(other.stdout, 5)
                self.check(
                    "a ledger that a session has",
                    run([*words_of(port, 1, 1), "--ledger", os.path.join(self.folder, "used")]),
                    STORE,
                )
            for name, words, wanted in (
                ("no fare file", words_of(port, fares=MISSING, zone="no zone"), fault("cannot read fares")),
                ("a bad zone", words_of(port, zone="no zone"), fault("bad zone")),
            ):
                text = written(self.folder, "text", b"no ledger")
                self.check(f"{name}, and a ledger that is none", run([*words, *with_both(journals, text)]), wanted)
                missing = with_both(os.path.join(self.folder, "no"), text)
                self.check(
                    f"{name}, and no folder", run([*words, *missing]), wanted if name == "no fare file" else CANNOT_USE
                )
            made = os.path.join(self.folder, "made")
            self.check(
                "a port that is taken", run([*words_of(port), *with_both(journals, made)]), fault("cannot listen")
            )
            self.check("a session beside services that do not begin", answers(talk(port, b"QUIT\n")), answers(b"BYE\n"))
        self.check("the journals then", answers(texts_of(journals)), answers(texts(boarding(8) + "TAP 1")))
        # It is opened, and shut again, where the port is not to be had.
        self.check(
            "the ledger that was made beside a port that is taken", answers(rows_of_ledger(made)), answers(rows())
        )


def shuffled_parts(draw, items, count):
    """Items in so many parts, which have some items in common."""
    parts = [items[at::count] for at in range(count)]
    return [part + draw.sample(items, len(items) // 20) for part in parts]


# The lanes and shards of services one after another, and the day that each closes.
PLANS = ((4, 4, MONDAY + 2), (3, 16, MONDAY + 4), (1, 1, MONDAY + 4), (2, 7, MONDAY + 6))


class Crowds(Theme):
    """Many lines over several services, and services that are killed."""

    def test_crowd(self):
        """A week of 200 accounts over four services, dealt over their lanes in any order, with a ledger: what is due,
        shown and posted in the end."""
        draw, kept = random.Random(29), Kept()
        journals, ledger = new_folder(self.folder), os.path.join(self.folder, "ledger")
        accounts = range(1, 201)
        commands = loads.corrected_week(draw, len(accounts))
        for (lanes, shards, day), part in zip(PLANS, shuffled_parts(draw, commands, len(PLANS))):
            draw.shuffle(part)
            dealt = [[rules.line(it).encode() for it in part[lane::lanes]] for lane in range(lanes)]
            with serving(lanes, shards, 1, SAMPLE, day, with_both(journals, ledger)) as (ran, port, said):
                replies = side_by_side([
                    lambda lane=lane: talk_ahead(port + lane, dealt[lane]) for lane in range(lanes)
                ])
                came = ended(ran, said)
            verbs = b" ".join(sorted({it.split()[0] for text in replies for it in text.splitlines()}))
            self.check(f"{lanes} lanes and {shards} shards, how they answer", answers(verbs), answers(b"AGAIN BYE OK"))
            count = sum(text.count(b"OK ") for text in replies)
            before = kept.lines.count(b"\n")
            for it in part:
                kept.reply(it)
            self.check(
                f"{lanes} lanes and {shards} shards, what is new",
                answers(b"%d" % count),
                answers(b"%d" % (kept.lines.count(b"\n") - before)),
            )
            self.check(
                f"{lanes} lanes and {shards} shards, the close", came, closed(port, lanes, kept.reply(rules.Close(day)))
            )
        lines = b"".join(sorted(b"".join(bytes_of(path_of(journals, number)) for number in FROM_EACH).splitlines(True)))
        self.check("the journals' lines", answers(lines), answers(b"".join(sorted(kept.lines.splitlines(True)))))
        asked = [
            line
            for account in accounts
            for day in WEEK_DAYS
            for line in (f"SHOW {account} {day}\n", f"DUE {account} {day}\n")
        ]
        wanted = b"".join(
            kept.shown(account, day) + kept.reply(rules.Due(account, day)) for account in accounts for day in WEEK_DAYS
        )
        with serving(1, 5, 1, SAMPLE, MONDAY + 6, with_both(journals, ledger)) as (ran, port, said):
            told = talk_ahead(port, [it.encode() for it in asked])
            self.check("what is due and shown in the end", answers(told), answers(wanted + b"BYE\n"))
            self.check("the same close again", ended(ran, said), closed(port, 1, kept.reply(rules.Close(MONDAY + 6))))
        self.check("the rows in the end", answers(rows_of_ledger(ledger)), answers(kept.rows()))

    def test_killed_services(self):
        """Services that are killed at random moments and go on with other numbers of lanes and shards, by
        tests/oracle/rules.py."""
        for number in range(2):
            self.check_all(ServedStory(self.folder, random.Random(number), number == 1).told(15))
