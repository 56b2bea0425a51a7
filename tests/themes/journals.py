"""Journals: what a session keeps of its lines, and what the next one makes of it; journals that are cut, bad, full or
another's, and kills."""

import itertools
import os
import random
import socket
import stat

from oracle import loads, rules
from support.drawn import by_rules, drawn_dues, parts_of, with_closes
from support.journals import CANNOT_USE, JOURNAL_FAULT, bad_line, keep_beside, replayed, with_journal
from support.killed import SessionStory
from support.preloads import naming, preloaded
from support.repository import LONDON, RUN_SAMPLE, SAMPLE, STATE
from support.running import (
    FARES, MISSING, MONDAY, RUN, SEVEN, End, answers, boardings, bytes_of, edited, end_of, fault, heard, in_lines,
    limited_to, missing, run, run_file, session, started, written,
)
from support.statements import A_BOARDING, rows_of_statement
from support.theme import Theme


def counted(lines, accounts, first, last, rest=0):
    """What a replay comes to of so many lines and accounts, from an instant to another."""
    not_taken = f" rest {rest}" if rest else ""
    return answers(f"OK lines {lines} accounts {accounts} from {first} to {last}{not_taken}\n".encode())


def leaving(path, came):
    """What a run comes to, with the bytes of its journal then."""
    return came._replace(left=bytes_of(path))


def kept(path, lines, words=RUN, more=(), **how):
    """What a session with a journal comes to, and leaves of it."""
    return leaving(path, run(with_journal(path, words, *more), lines, **how))


def newly(pairs):
    """The lines that are newly accepted, by their replies."""
    return in_lines(line for line, reply in pairs if reply.startswith("OK "))


# What a close comes to with a journal and without a ledger: what is posted would not be there for the next session, so
# nothing is.
NOT_HERE = "NO 34 NotHere"

# Two sessions with examples/sample.toml, each line beside its reply, and whether the line is kept.
ONE_DAY = (
    ("TAP 1 1 7 1704697200 10 IN", "OK 19730 860 860", True),
    ("TAP 1 1 7 1704697200 10 IN", "AGAIN 19730 860 860", False),
    ("TAP 1 1 7 1704697201 10 IN", "NO 20 Conflict", False),
    ("TAP 1 2 7 1704699000 99 OUT", "NO 15 UnknownPlace", False),
    ("TAP 1 2 7 604799 12 OUT", "NO 1 OutOfTime", False),
    ("DUE 7 19730", "DUE 7 19730 19730 1 860 1=860", False),
    ("TAP 1 2 7 1704699000 12 OUT", "OK 19730 340 340", True),
    ("SHOW 7 19730", "SHOW 7 19730 1 340\nJNY RAIL 10 12 1704697200 340", False),
    ("CLOSE 19730", NOT_HERE, False),
    ("FIX 3 1 7 CREDIT 19730 100", "OK 19730 340 340", True),
    ("FIX 3 1 7 CREDIT 19730 100", "AGAIN 19730 340 340", False),
    ("FIX 3 1 7 CREDIT 19730 50", "NO 22 FixConflict", False),
    ("TAP 01 3 7 1704699000 12 OUT", "NO 50 BadLine", False),
    ("", "NO 50 BadLine", False),
    ("A" * 129, "NO 51 LongLine", False),
    ("FIX 3 2 7 VOID 9 9", "OK 0 0 0", True),
    ("QUIT", "BYE", False),
)
NEXT_DAY = (
    ("TAP 1 1 7 1704697200 10 IN", "AGAIN 19730 340 340", False),
    ("FIX 3 2 7 VOID 9 9", "AGAIN 0 0 0", False),
    ("TAP 1 2 7 1704699001 12 OUT", "NO 20 Conflict", False),
    ("DUE 7 19730", "DUE 7 19730 19730 4 240 1=240", False),
    ("TAP 1 1 8 1704783600 50 BUS", "OK 19731 175 175", True),
    ("TAP 1 3 7 1704718800 50 BUS", "OK 19730 515 515", True),
    ("CLOSE 19730", NOT_HERE, False),
    # Of 515 less 100: 415 * 340 / 515 is 273, and the rest is the bus operator's.
    ("DUE 7 19730", "DUE 7 19730 19730 5 415 1=273 4=142", False),
    ("FIX 3 3 7 DROP 3 1", "OK 19730 515 515", True),
    ("CLOSE 19730", NOT_HERE, False),
)
# What a third session is asked, of which nothing is kept.
ASKED_THEN = (
    ("DUE 7 19730", "DUE 7 19730 19730 6 515 1=340 4=175"),
    ("SHOW 7 19730", "SHOW 7 19730 2 515\nJNY RAIL 10 12 1704697200 340\nJNY BUS 50 0 1704718800 175"),
    ("SHOW 8 19731", "SHOW 8 19731 1 175\nJNY BUS 50 0 1704783600 175"),
    ("CLOSE 19731", NOT_HERE),
)
ROWS_THEN = ("19730,RAIL,10,12,07:00:00,340,-", "19730,BUS,50,0,13:00:00,175,-")


def lines_of(rows):
    """The lines of rows, their replies, and the lines that are kept."""
    lines, replies = session([row[:2] for row in rows])
    return lines, replies, in_lines(line for line, _, is_kept in rows if is_kept)


class Sessions(Theme):
    """What sessions keep one after another."""

    def test_sessions_that_go_on(self):
        """What three sessions keep one after another, line by line, and what the last one makes of it."""
        (first, told, one), (
            second, told_then, two
        ), (asked, known) = lines_of(ONE_DAY), lines_of(NEXT_DAY), session(ASKED_THEN)
        for more in ((), ("--sync",)):
            path = os.path.join(self.folder, f"journal{len(more)}")
            words = " ".join(("--journal", *more))
            self.check(f"{words}, no lines", kept(path, b"", RUN_SAMPLE, more), End(0, left=b""))
            self.check(
                f"{words}, the first session", kept(path, first + second, RUN_SAMPLE, more), End(0, told, left=one)
            )
            self.check(f"{words}, no lines after it", kept(path, b"", RUN_SAMPLE, more), End(0, left=one))
            self.check(
                f"{words}, a cut line",
                kept(path, b"TAP 1 9 9 1704697200 50 BUS", RUN_SAMPLE, more),
                End(0, b"NO 50 BadLine\n", left=one),
            )
            self.check(
                f"{words}, the second session", kept(path, second, RUN_SAMPLE, more), End(0, told_then, left=one + two)
            )
            self.check(
                f"{words}, what it is asked then", kept(path, asked, RUN_SAMPLE, more), End(0, known, left=one + two)
            )
            # The taps of the first session and of the second: at 07:00 on Monday, and on Tuesday.
            self.check(f"{words}, replayed", replayed(path, fares=SAMPLE), counted(7, 2, 1704697200, 1704783600))
            wanted = rows_of_statement(*ROWS_THEN)._replace(left=one + two)
            self.check(f"{words}, a statement of it", leaving(path, run(with_journal(path, STATE))), wanted)

    def test_lines_by_options(self):
        """Options in other places, and a journal by its name alone."""
        lines, replies = boardings(2)
        path = os.path.join(self.folder, "kept")
        for given in (
            ["run", "--journal", path, FARES, LONDON], ["run", FARES, f"--journal={path}", LONDON],
            ["run", "--sync", FARES, LONDON, f"--journal={path}"],
            ["run", FARES, LONDON, "--journal", "kept"],
        ):
            missing(self.folder, "kept")
            self.check(
                f"the words {given}", leaving(path, run(given, lines, cwd=self.folder)), End(0, replies, left=lines)
            )
        self.check(
            "the files there", answers(" ".join(sorted(os.listdir(self.folder))).encode()), answers(b"kept kept.fares")
        )

    def test_statements_with_more_lines(self):
        """A statement takes a journal's lines and then those of its input. It keeps none, and makes no file."""
        lines, _ = boardings(7)
        path = written(self.folder, "journal", lines + b"TAP 1 1 8")
        late = b"TAP 1 2 7 1704704400 50 BUS\n"
        row = "19730,BUS,50,0,09:00:00,175,-"
        for name, given, rows in (
            ("no lines", b"", [A_BOARDING]), ("a line", late, [A_BOARDING, row]),
            ("a repeat, a question and a close", lines + b"DUE 7 19730\nCLOSE 19730\n", [A_BOARDING]),
            ("QUIT and a line", b"QUIT\n" + late, [A_BOARDING]),
            ("a tap that the journal has otherwise", b"TAP 1 1 7 1704697201 50 BUS\n", [A_BOARDING]),
        ):
            came = leaving(path, run(with_journal(path, STATE), given))
            self.check(
                f"a statement of a journal and {name}",
                came,
                rows_of_statement(*rows)._replace(left=lines + b"TAP 1 1 8"),
            )
        none = os.path.join(self.folder, "none")
        self.check("a statement of no file", leaving(none, run(with_journal(none, STATE), late)), CANNOT_USE)
        self.check("a replay of no file", leaving(none, replayed(path, none)), CANNOT_USE)

    def test_drawn_sessions(self):
        """A week of taps, corrections, questions and closes in several sessions with one journal, each with lines of
        those before it, by tests/oracle/rules.py."""
        for seed, (words, fares) in enumerate(((RUN, rules.BUS), (RUN_SAMPLE, rules.SAMPLE))):
            draw, accounts, has = random.Random(seed), {}, b""
            path = os.path.join(self.folder, f"journal{seed}")
            commands = list(with_closes(draw, loads.corrected_week(draw, 30)))
            before = []
            for number, part in enumerate(parts_of(draw, commands, 5), 1):
                # What comes again is among the lines.
                part = draw.sample(before, len(before) // 10) + part + drawn_dues(
                    draw, 20, range(1, 31), range(MONDAY, MONDAY + 7)
                )
                before = part
                # Nothing is closed.
                pairs = [
                    (line, NOT_HERE if line.startswith("CLOSE ") else reply)
                    for line, reply in by_rules(fares, accounts, part)
                ]
                has += newly(pairs)
                lines, replies = session(pairs)
                self.check(
                    f"session {number} of draw {seed}",
                    kept(path, lines, words, draw.choice(((), ("--sync",)))),
                    End(0, replies, left=has),
                )
            instants = [tap.utc for it in accounts.values() for tap in it.taps.values()]
            instants += [fix.words[0] for it in accounts.values() for fix in it.fixes.values() if fix.form == "FILL"]
            wanted = counted(has.count(b"\n"), len(accounts), min(instants), max(instants))
            self.check(f"the journal of draw {seed}, replayed", replayed(path), wanted)
            # In whatever order, in two files, and some of the lines twice.
            mixed = draw.sample(has.splitlines(True), has.count(b"\n"))
            halves = [
                written(self.folder, f"half{at}", b"".join(it)) for at, it in enumerate((mixed[:400], mixed[300:]))
            ]
            wanted = counted(len(mixed) + 100, len(accounts), min(instants), max(instants))
            self.check(f"the journal of draw {seed} in two files in any order, replayed", replayed(*halves), wanted)
            asked = [rules.Due(account, day) for account in sorted(accounts) for day in range(MONDAY, MONDAY + 7)]
            lines, replies = session(list(by_rules(fares, accounts, asked)))
            both = written(self.folder, "both", b"".join(map(bytes_of, halves)))
            self.check(
                f"the journal of draw {seed} in any order, taken",
                kept(both, lines, words),
                End(0, replies, left=bytes_of(both)),
            )

    def test_kept_before_replied(self):
        """Once a reply has come, the line that it is to is in the file."""
        for more in ((), ("--sync",)):
            path, has = os.path.join(self.folder, f"journal{len(more)}"), b""
            with started(with_journal(path, RUN_SAMPLE, *more)) as ran:
                for line, reply, is_kept in ONE_DAY:
                    ran.stdin.write(in_lines([line]))
                    has += in_lines([line]) if is_kept else b""
                    wanted = in_lines([reply])
                    came = answers(heard(ran.stdout, len(wanted)))
                    self.check(f"{line} answered {more}", leaving(path, came), answers(wanted)._replace(left=has))


# Four boardings, each of an account of its own.
CUT_LINES, CUT_REPLIES = (text.splitlines(True) for text in boardings(4))


class CutJournals(Theme):
    """Journals whose last line is cut, and long ones."""

    def test_cut_journals(self):
        """A journal that is cut at each byte of its last two lines: what is whole is taken, and the rest is cut off
        before the first line that is kept."""
        whole = b"".join(CUT_LINES)
        for end in range(len(b"".join(CUT_LINES[:2])), len(whole) + 1):
            text = whole[:end]
            has = text[:text.rfind(b"\n") + 1]
            count, rest = has.count(b"\n"), len(text) - len(has)
            path = written(self.folder, "journal", text)
            name = f"a journal of {end} bytes"
            self.check(
                f"{name}, replayed",
                leaving(path, replayed(path)),
                counted(count, count, SEVEN, SEVEN, rest)._replace(left=text),
            )
            last = [*STATE[:3], "4", "19730"]
            self.check(
                f"{name}, a statement",
                leaving(path, run(with_journal(path, last))),
                rows_of_statement(*[A_BOARDING] * (count == 4))._replace(left=text),
            )
            self.check(
                f"{name}, a bad zone",
                leaving(path, run(with_journal(path, ["run", FARES, "no zone"]), whole)),
                fault("bad zone")._replace(left=text),
            )
            self.check(f"{name}, and no lines", kept(path, b""), End(0, left=text))
            again = b"".join(CUT_LINES[:count]) + b"DUE 9 19730\n"
            wanted = b"".join(b"AGAIN" + reply[2:] for reply in CUT_REPLIES[:count]) + b"DUE 9 19730 19730 0 0\n"
            self.check(f"{name}, and no new lines", kept(path, again), End(0, wanted, left=text))
            # Of lines in the other order, those that are new come first.
            replies = b"".join(
                b"AGAIN" + reply[2:] if at < count else reply for at, reply in reversed(list(enumerate(CUT_REPLIES)))
            )
            wanted = End(0, replies, left=has + b"".join(reversed(CUT_LINES[count:])))
            self.check(f"{name}, and all lines again", kept(path, b"".join(reversed(CUT_LINES))), wanted)

    def test_rests(self):
        """What stands after a last newline is no line, whatever it is; but what has no newline, and is no beginning of
        a line that is kept, is no journal."""
        lines, replies = boardings(2)
        again = replies.replace(b"OK", b"AGAIN")
        cut = (
            b"TAP 1 1 9 1704697200 50 BUS", b"TAP 1 1 1 1704697201 50 BUS", b"T", b"FIX", b"FIX 3 1 7 CRED",
            b"TAP " + b"9" * 124, b"\0", b"\0" * 128,
        )
        others = (
            b"QUIT", b"DUE 7 19730", b"\r", b"t", b"TAPE 7", b"hello", b"T\0", b"\0T", b"\xff" * 128,
            b"TAP " + b"9" * 125, b" " * 129, b"\0" * 129, b"\0" * 4_096,
        )
        for rest in (*cut, *others):
            for before, came in ((lines, again), (b"", replies)):
                path = written(self.folder, "journal", before + rest)
                wanted = counted(before.count(b"\n"), before.count(b"\n"), *[SEVEN if before else 0] * 2, len(rest))
                self.check(f"{rest[:30]!r} after {len(before)} bytes, replayed", replayed(path), wanted)
                # Where nothing is new, what stands after the last newline stays.
                wanted = End(
                    0, came, left=lines + (rest if before else b"")
                ) if before or rest in cut else CANNOT_USE._replace(left=rest)
                self.check(f"{len(rest)} bytes, {rest[:30]!r}, after {len(before)} bytes", kept(path, lines), wanted)
        # Of several files all rests count, and none is joined with the file after it.
        one, two = written(self.folder, "one", lines + b"TAP 1 1 3 17046"), written(self.folder, "two", b"97200 50 BUS")
        self.check("two files with rests", replayed(one, two), counted(2, 2, SEVEN, SEVEN, 15 + 12))
        self.check(
            "an empty file and a file",
            replayed(written(self.folder, "empty", b""), one),
            counted(2, 2, SEVEN, SEVEN, 15),
        )

    def test_a_large_journal(self):
        """200,000 lines that are kept in one session, replayed, and taken by the next one."""
        lines, replies = boardings(200_000)
        path = os.path.join(self.folder, "journal")
        self.check("a session of many lines", kept(path, lines), End(0, replies, left=lines))
        self.check("many lines, replayed", replayed(path), counted(200_000, 200_000, SEVEN, SEVEN))
        last, reply = lines.splitlines(True)[-1], replies.splitlines(True)[-1]
        self.check("many lines, and the last one again", kept(path, last), End(0, b"AGAIN" + reply[2:], left=lines))


# Lines that a journal may not have after its first four, with why; and after a correction.
BAD_LINES = (
    ("DUE 7 19730", "50 BadLine"), ("SHOW 7 19730", "50 BadLine"), ("CLOSE 19730", "50 BadLine"),
    ("QUIT", "50 BadLine"), ("", "50 BadLine"),
    ("fly", "50 BadLine"), ("OK 19730 175 175", "50 BadLine"), ("\0" * 20, "50 BadLine"),
    ("TAP 1 1 5 1704697200 50 BUS\r", "50 BadLine"),
    ("TAP 1 1 5 1704697200 50 BUS ", "50 BadLine"), ("tap 1 1 5 1704697200 50 BUS", "50 BadLine"),
    ("TAP 1 1 5 4294967296 50 BUS", "50 BadLine"),
    ("A" * 128, "50 BadLine"), ("A" * 129, "51 LongLine"), (" " * 70_000, "51 LongLine"),
    ("TAP 1 1 5 604799 50 BUS", "1 OutOfTime"),
    ("TAP 1 1 5 1704697200 51 BUS", "15 UnknownPlace"), ("TAP 1 1 5 1704697200 10 BUS", "15 UnknownPlace"),
    ("TAP 1 1 4 1704697201 50 BUS", "20 Conflict"),
    ("FIX 3 1 4 CREDIT 19730 11", "22 FixConflict"), ("FIX 3 2 4 FILL 1704697200 50 IN", "15 UnknownPlace"),
)


class BadJournals(Theme):
    """Journals with lines that are not accepted."""

    def check_bad_line(self, name, path, number, why, words=RUN, lines=b""):
        """Checks that this line of a journal is told by a session, by a statement and by a replay, that the journal
        stays as it is, and that the lines of the session stay where they are."""
        has = bytes_of(path)
        given = f"{path}-lines"
        with open(given, "wb") as it:
            it.write(lines)
        for each in (words, ["statement", *words[1:], "7", "19730"]):
            came = run_file(with_journal(path, each), given, leaves=True)
            self.check(f"{each[0]}, {name}", came, bad_line(number, why)._replace(left=lines))
        self.check(
            f"replay, {name}",
            leaving(path, run(["replay", *words[1:], path])),
            bad_line(number, why, path)._replace(left=has),
        )
        other = f"{path}-other"
        with open(other, "wb") as it:
            it.write(b"FIX 9 9 9 CREDIT 19730 1\n")
        came = leaving(path, run(["replay", *words[1:], other, other, path]))
        self.check(f"replay as the third file, {name}", came, bad_line(number, why, path)._replace(left=has))

    def test_bad_journals(self):
        """Lines that are no lines of a journal, or not of this one: the first is told by its number, and all stays as
        it is."""
        good = b"".join(CUT_LINES) + b"FIX 3 1 4 CREDIT 19730 10\n"
        more = b"TAP 1 2 1 1704697200 50 BUS\nQUIT\nTAP 1 3"
        for line, why in BAD_LINES:
            path = written(self.folder, "journal", good + in_lines([line]) + more)
            self.check_bad_line(f"{line[:40]!r} in the sixth line", path, 6, why, lines=more)
        path = written(self.folder, "journal", b"QUIT\n")
        self.check_bad_line("QUIT alone", path, 1, "50 BadLine")
        path = written(self.folder, "journal", good * 3 + b"fly\n")
        self.check_bad_line("a bad line after lines that come three times", path, 16, "50 BadLine")

    def test_journals_of_another(self):
        """A journal of another fare file; faults that come before a bad line; and accounts that are full."""
        bus, rail = "TAP 1 1 7 1704697200 50 BUS", "TAP 1 2 7 1704697200 12 IN"
        for name, old, new, number in (
            ("route", "place = 50", "place = 51", 1), ("station", "place = 12,", "place = 15,", 2)
        ):
            text = edited(old, new, "sample.toml")
            if name == "station":
                text = text.replace(b"b = 12", b"b = 15")
            other = written(self.folder, name, text)
            path = written(self.folder, "journal", in_lines([bus, rail]))
            self.check_bad_line(
                f"a fare file without the {name}", path, number, "15 UnknownPlace", ["run", other, LONDON],
                in_lines([bus]),
            )
        refused = written(self.folder, "refused", edited("hopper = 3600", "hopper = 0"))
        path, none = written(self.folder, "journal", b"fly\n"), os.path.join(self.folder, "no", "journal")
        for name, each, given, wanted in (
            ("no fare file and a bad line", path, ["run", MISSING, LONDON], fault("cannot read fares")),
            ("no fare file and no journal", none, ["run", MISSING, "no zone"], fault("cannot read fares")),
            ("a refused fare file and no journal", none, ["run", refused, "no zone"], CANNOT_USE),
            ("a bad zone and no journal", none, ["run", FARES, "no zone"], CANNOT_USE),
            ("a refused fare file and a bad line", path, ["run", refused, "no zone"], fault("13 OutOfRange")),
            ("a bad zone and a bad line", path, ["run", FARES, "no zone"], fault("bad zone")),
        ):
            self.check(f"{name}, a session", run(with_journal(each, given)), wanted)
            self.check(f"{name}, a statement", run(with_journal(each, ["statement", *given[1:], "7", "19730"])), wanted)
            self.check(f"{name}, a replay", run(["replay", *given[1:], each]), wanted)
        taps = in_lines(f"TAP 1 {seq} 7 {SEVEN + 4_000 * (seq % 100)} 50 BUS" for seq in range(rules.MOST_TAPS + 1))
        self.check_bad_line(
            "a full account", written(self.folder, "journal", taps + b"fly\n"), rules.MOST_TAPS + 1, "21 AccountFull"
        )
        fixes = in_lines(f"FIX 3 {seq} 7 CREDIT 19730 1" for seq in range(rules.MOST_FIXES + 1))
        self.check_bad_line(
            "a full account of corrections", written(self.folder, "journal", fixes + b"fly\n"), rules.MOST_FIXES + 1,
            "23 FixesFull",
        )


# A session each of whose commands asks its desk for something, beside what they are answered once a line could not be
# kept.
FULL = (
    ("TAP 1 1 7 1704697200 50 BUS", "OK 19730 175 175", "NO 48 NotKept"),
    ("TAP 1 1 7 1704697200 50 BUS", "AGAIN 19730 175 175", "NO 48 NotKept"),
    ("DUE 7 19730", "DUE 7 19730 19730 1 175 4=175", "NO 48 NotKept"),
    ("TAP 1 2 7 1704704400 50 BUS", "OK 19730 350 350", "NO 48 NotKept"),
    ("TAP 1 2 7 1704704401 50 BUS", "NO 20 Conflict", "NO 48 NotKept"),
    ("CLOSE 19730", NOT_HERE, NOT_HERE),
    ("fly", "NO 50 BadLine", "NO 50 BadLine"),
    ("FIX 3 1 7 CREDIT 19730 50", "OK 19730 350 350", "NO 48 NotKept"),
    ("SHOW 7 19730", "SHOW 7 19730 2 350\nJNY BUS 50 0 1704697200 175\nJNY BUS 50 0 1704704400 175", "NO 48 NotKept"),
    ("DUE 7 19730", "DUE 7 19730 19730 3 300 4=300", "NO 48 NotKept"),
    ("CLOSE 19730", NOT_HERE, NOT_HERE),
    ("QUIT", "BYE", "BYE"),
)
FULL_LINES, FULL_KEPT = in_lines(line for line, *_ in FULL), newly(row[:2] for row in FULL)


def replies_with(count):
    """The replies to that session where so many lines can be kept."""
    newly_accepted = itertools.accumulate(reply.startswith("OK ") for _, reply, _ in FULL)
    return in_lines(stuck if number > count else reply for (_, reply, stuck), number in zip(FULL, newly_accepted))


def again_after(count):
    """The pairs of that session's newly accepted lines, of which so many were kept."""
    accepted = [row[:2] for row in FULL if row[1].startswith("OK ")]
    # Those that were kept are answered as they are then.
    prices = {0: None, 1: "AGAIN 19730 175 175", 2: "AGAIN 19730 350 350", 3: "AGAIN 19730 350 350"}
    return [(line, prices[count] if at < count else reply) for at, (line, reply) in enumerate(accepted)]


class Disks(Theme):
    """Disks that are full or fail."""

    def test_full_files(self):
        """A journal that has room for so many bytes: from the first line on that it has no room for none is taken, and
        the next session takes them."""
        keep_beside(os.path.join(self.folder, "journal"), RUN)
        for room in range(len(FULL_KEPT) + 1):
            count = FULL_KEPT[:room].count(b"\n")
            status, errors = (0, b"") if room == len(FULL_KEPT) else (1, JOURNAL_FAULT.errors)
            for more in ((), ("--sync",)):
                path = missing(self.folder)
                came = kept(path, FULL_LINES, more=more, **limited_to(room))
                self.check(
                    f"room for {room} bytes {more}", came, End(status, replies_with(count), errors, FULL_KEPT[:room])
                )
            lines, replies = session(again_after(count))
            self.check(f"without a limit after {room} bytes", kept(path, lines), End(0, replies, left=FULL_KEPT))

    def test_journal_before_streams(self):
        """Where the journal and a stream fail, the journal is told."""
        keep_beside(os.path.join(self.folder, "journal"), RUN)
        for name, words in (
            ("a session", with_journal(missing(self.folder))),
            ("a session with --sync", with_journal(missing(self.folder), RUN, "--sync")),
        ):
            with open("/dev/full", "wb") as full:
                came = run(words, CUT_LINES[0], stdout=full, **limited_to(0))
            self.check(f"no room for the journal and for output, {name}", came, JOURNAL_FAULT._replace(output=None))

    def test_disks_that_fail(self):
        """A disk does not say that it has what it was given, from the first time on or the second: a line and the end
        fail by that."""
        library = preloaded(self.folder)
        keep_beside(os.path.join(self.folder, "journal"), RUN)

        def settling(count):
            return {"env": {"LD_PRELOAD": library, "SETTLED": str(count)}}

        for count in range(2):
            path = missing(self.folder)
            # The line that could not be settled is in the file, and is a repeat then.
            has = b"".join(FULL_KEPT.splitlines(True)[:count + 1])
            came = kept(path, FULL_LINES, more=("--sync",), **settling(count))
            self.check(f"{count} lines settled", came, End(1, replies_with(count), JOURNAL_FAULT.errors, has))
            lines, replies = session(again_after(count + 1))
            self.check(
                f"the next session after {count} lines settled", kept(path, lines), End(0, replies, left=FULL_KEPT)
            )
        # Without a ledger nothing is settled before a close.
        replies = in_lines(reply for _, reply, _ in FULL)
        self.check(
            "nothing settled, and closes",
            kept(missing(self.folder), FULL_LINES, **settling(0)),
            End(1, replies, JOURNAL_FAULT.errors, FULL_KEPT),
        )
        lines, replies = boardings(4)
        self.check(
            "nothing settled at the end",
            kept(missing(self.folder), lines, **settling(0)),
            End(1, replies, JOURNAL_FAULT.errors, lines),
        )


def no_files(folder):
    """Paths that are no file which a journal can be, by their names."""
    fifo, unix, closed = os.path.join(folder, "fifo"), os.path.join(folder, "socket"), written(folder, "closed", b"")
    os.mkfifo(fifo)
    with socket.socket(socket.AF_UNIX) as it:
        it.bind(unix)
    yield "a folder", folder
    yield "a folder with a slash", f"{folder}/"
    yield "a device that is full", "/dev/full"
    yield "a device that takes all", "/dev/null"
    yield "a pipe with a name", fifo
    yield "a socket", unix
    yield "no name", ""
    yield "a file in no folder", os.path.join(folder, "no", "journal")
    yield "a file below a file", os.path.join(closed, "journal")
    yield "a name that is too long", os.path.join(folder, "j" * 256)
    # For who may do all no file is closed.
    if os.geteuid():
        os.chmod(closed, stat.S_IRUSR)
        yield "a file that is for reading", closed
        written(folder, "unreadable", b"")
        os.chmod(os.path.join(folder, "unreadable"), stat.S_IWUSR)
        yield "a file that is for writing", os.path.join(folder, "unreadable")
        os.chmod(os.path.join(folder, "unreadable"), 0)
        yield "a file that is for nobody", os.path.join(folder, "unreadable")


class Files(Theme):
    """What may be a journal, and who may have it."""

    def test_journals_that_cannot_be(self):
        """What is no file, or no file of ours: nothing is read of the input."""
        lines, _ = boardings(2)
        given = written(self.folder, "lines", lines)
        for name, path in no_files(self.folder):
            self.check(name, run_file(with_journal(path), given, leaves=True), CANNOT_USE._replace(left=lines))
            self.check(f"{name}, and no input", run(with_journal(path, RUN, "--sync")), CANNOT_USE)
        fifo, no = os.path.join(self.folder, "fifo"), os.path.join(self.folder, "no", "journal")
        for name, path in (
            ("a folder", self.folder), ("a file in no folder", no), ("a pipe with a name", fifo),
            ("a device that takes all", "/dev/null"),
        ):
            self.check(
                f"a statement, {name}",
                run_file(with_journal(path, STATE), given, leaves=True),
                CANNOT_USE._replace(left=lines),
            )
            self.check(f"a replay, {name}", replayed(given, path), CANNOT_USE)

    def test_one_session_at_a_time(self):
        """While a session has a journal, a second one is refused and leaves its input; a statement and a replay read
        what is there."""
        lines, replies = boardings(3)
        first, *others = lines.splitlines(True)
        reply = CUT_REPLIES[0]
        path, given = os.path.join(self.folder, "journal"), written(self.folder, "lines", lines)
        link = os.path.join(self.folder, "link")
        with started(with_journal(path)) as ran:
            ran.stdin.write(first)
            output = heard(ran.stdout, len(reply))
            os.symlink("journal", link)
            for name, each in (("its name", path), ("another name", link)):
                for words in (with_journal(each), with_journal(each, RUN_SAMPLE, "--sync")):
                    self.check(
                        f"a second session by {name}",
                        run_file(words, given, leaves=True),
                        CANNOT_USE._replace(left=lines),
                    )
                self.check(
                    f"a statement beside a session by {name}",
                    run(with_journal(each, [*STATE[:3], "1", "19730"])),
                    rows_of_statement(A_BOARDING),
                )
                self.check(f"a replay beside a session by {name}", replayed(each), counted(1, 1, SEVEN, SEVEN))
            ran.stdin.write(b"".join(others))
            ran.stdin.close()
            self.check("the first session", leaving(path, end_of(ran, output)), End(0, replies, left=lines))
        self.check("a session after it", kept(path, lines), End(0, replies.replace(b"OK", b"AGAIN"), left=lines))
        for at in range(2):
            with started(with_journal(path)) as ran:
                ran.stdin.write(first)
                output = heard(ran.stdout, len(reply) + 3)
                ran.kill()
                ran.wait()
            self.check(f"a session that is killed, {at}", answers(output), answers(b"AGAIN" + reply[2:]))

    def test_links(self):
        """A journal by a link: to a file, and to none, which is made where the link leads."""
        (first, second), (reply, _) = (text.splitlines(True) for text in boardings(2))
        os.mkdir(os.path.join(self.folder, "there"))
        file, link = os.path.join(self.folder, "there", "file"), os.path.join(self.folder, "link")
        os.symlink("there/file", link)
        self.check("a replay of a link to no file", replayed(link), CANNOT_USE)
        self.check("a statement of it", run(with_journal(link, STATE)), CANNOT_USE)
        self.check("a session with it", kept(link, first), End(0, reply, left=first))
        self.check("the file that was made", answers(bytes_of(file)), answers(first))
        self.check("a replay of a link to a file", replayed(link), counted(1, 1, SEVEN, SEVEN))
        self.check(
            "a session with it then",
            kept(link, first + second),
            End(0, b"AGAIN" + reply[2:] + reply, left=first + second),
        )
        with started(with_journal(link)) as ran:
            ran.stdin.write(first)
            heard(ran.stdout, len(reply) + 3)
            self.check("a second session, with the file", run(with_journal(file)), CANNOT_USE)
        for name, to in (
            ("a link to a file in no folder", "no/file"),
            ("a link to itself", "astray"),
            ("a link to a folder", "there"),
        ):
            os.symlink(to, missing(self.folder, "astray"))
            self.check(name, run(with_journal(os.path.join(self.folder, "astray")), first), CANNOT_USE)

    def test_names_on_the_disk(self):
        """Each start has the name of its journal on the disk, also if the file is there, which a start may have made
        that was cut off after that."""
        library, (lines, replies) = preloaded(self.folder), boardings(1)
        given = written(self.folder, "given", lines)
        os.mkdir(os.path.join(self.folder, "there"))
        os.symlink("there/file", os.path.join(self.folder, "link"))
        for name, count in (("made", 1), ("link", 2)):
            path = os.path.join(self.folder, name)
            keep_beside(os.path.join(self.folder, "there", "file") if count == 2 else path, RUN)
            for named, at in itertools.product(range(count), range(2)):
                came = leaving(path, run_file(with_journal(path), given, **naming(library, named)))
                self.check(f"{name}, {named} folders named, start {at}", came, CANNOT_USE._replace(left=b""))
            self.check(
                f"{name}, {count} folders named",
                kept(path, lines, **naming(library, count)),
                End(0, replies, left=lines),
            )
            self.check(
                f"{name}, and no folder named", kept(path, b"", **naming(library, 0)), CANNOT_USE._replace(left=lines)
            )


class Kills(Theme):
    """Sessions that are killed."""

    def test_killed_sessions(self):
        """Sessions that are killed at random moments and go on, by tests/oracle/rules.py: every reply, what the files
        have, and what is due in the end."""
        for number, (has_ledger, more) in enumerate(itertools.product((False, True), ((), ("--sync",)))):
            self.check_all(SessionStory(self.folder, random.Random(number), has_ledger, more).told(15))
