"""Ledgers in files: what closes post there and the next session finds, files that are none, in use, without their
journal or full."""

import contextlib
import copy
import os
import random
import resource
import shutil
import sqlite3
import stat
import subprocess
import tempfile
import time

from oracle import loads, rules
from support.drawn import parts_of, with_closes
from support.journals import CANNOT_USE, JOURNAL_FAULT, bad_line, replayed
from support.kept import Kept, rows_of_ledger
from support.ledgers import (
    ALONE, FIRST_POSTING, FIRST_SESSION, FIRST_SHARE, FIRST_TAP, NO_LEDGER, ROWS_AFTER_FIRST, ROWS_AFTER_SECOND,
    SECOND_POSTING, SECOND_SHARE, SECOND_TAP, STORE, lacks, opened_ledger, others_database, refused_ledgers, rows,
    with_ledger,
)
from support.preloads import preloaded
from support.repository import LONDON, PROGRAM, RUN_SAMPLE, STATE
from support.running import (
    FARES, MISSING, RUN, End, answers, boardings, but_for_closes, bytes_of, edited, end_of, fault, heard, in_lines,
    limited_to, missing, run, run_file, session, started, written,
)
from support.sqlite import system_sqlite3
from support.statements import rows_of_statement
from support.theme import Theme


def copied_rows(path, folder):
    """The rows of a ledger by its file alone, without its log."""
    return rows_of_ledger(shutil.copyfile(path, os.path.join(folder, "copied")))


def closing(path, folder, came):
    """What a session comes to, with the rows that it leaves in the file of its ledger."""
    return came._replace(left=copied_rows(path, folder))


# The second and third session with the journal and ledger of FIRST_SESSION. In the third a boarding is filled in, and
# 40 pence are credited: of 475, which are due, 475 * 340 / 515 is 313, and the rest is the bus operator's.
SECOND_SESSION = (
    ("CLOSE 19730", "PAY 7 19730 19730 1 860 860 1=860\nDONE 19730 1"),
    ("TAP 1 1 7 1704697200 10 IN", "AGAIN 19730 860 860"),
    ("TAP 1 2 7 1704699000 12 OUT", "OK 19730 340 340"),
    ("CLOSE 19730", "PAY 7 19730 19730 2 340 -520 1=-520\nDONE 19730 1"),
    ("CLOSE 19730", "PAY 7 19730 19730 2 340 -520 1=-520\nDONE 19730 1"),
)

THIRD_SESSION = (
    ("CLOSE 19730", "PAY 7 19730 19730 2 340 -520 1=-520\nDONE 19730 1"),
    ("FIX 3 1 7 CREDIT 19730 40", "OK 19730 340 340"),
    ("FIX 3 2 7 VOID 9 9", "OK 0 0 0"),
    ("FIX 3 3 7 FILL 1704718800 50 BUS", "OK 19730 515 515"),
    ("FIX 3 4 7 DROP 3 2", "OK 0 0 0"),
    ("TAP 1 1 8 1704783600 50 BUS", "OK 19731 175 175"),
    ("CLOSE 19731", "PAY 7 19730 19731 6 475 135 1=-27 4=162\nPAY 8 19730 19731 1 175 175 4=175\nDONE 19731 2"),
    ("CLOSE 19730", "NO 42 StaleQuote"),
)
ROWS_AFTER_THIRD = rows(
    FIRST_POSTING, SECOND_POSTING, (7, 19730, 19731, 6, 475, 135, 4), (8, 19730, 19731, 1, 175, 175, 4),
    FIRST_SHARE, SECOND_SHARE, (7, 6, 19731, 1, -27), (7, 6, 19731, 4, 162), (8, 1, 19731, 4, 175),
    FIRST_TAP, SECOND_TAP, (8, 1, 1, 1704783600, 19731, 25200, 50, 2),
    (7, 3, 1, 2, 19730, 40, 0, 0, 0), (7, 3, 2, 0, 9, 9, 0, 0, 0), (7, 3, 3, 1, 1704718800, 19730, 46800, 50, 2),
    (7, 3, 4, 3, 3, 2, 0, 0, 0),
)
# The last session asks for what was posted, and posts nothing.
LAST_SESSION = (
    ("CLOSE 19731", "PAY 7 19730 19731 6 475 135 1=-27 4=162\nPAY 8 19730 19731 1 175 175 4=175\nDONE 19731 2"),
    ("DUE 7 19731", "DUE 7 19730 19731 6 475 1=313 4=162"),
)


class Sessions(Theme):
    """What sessions post one after another."""

    def test_sessions_that_go_on(self):
        """What closes of four sessions post one after another, and the rows after each."""
        for more in ((), ("--sync",)):
            path = os.path.join(self.folder, f"ledger{len(more)}")
            journal = os.path.join(self.folder, f"journal{len(more)}")
            words, name = with_ledger(path, journal, RUN_SAMPLE, *more), " ".join(("--ledger", *more))
            self.check(f"{name}, no lines", closing(path, self.folder, run(words)), End(0, left=rows()))
            for number, (pairs, left) in enumerate((
                (FIRST_SESSION, ROWS_AFTER_FIRST), (SECOND_SESSION, ROWS_AFTER_SECOND),
                (THIRD_SESSION, ROWS_AFTER_THIRD),
                (LAST_SESSION, ROWS_AFTER_THIRD),
            ), 1):
                lines, replies = session(pairs)
                came = but_for_closes(run(words, lines))
                self.check(f"{name}, session {number}", closing(path, self.folder, came), End(0, replies, left=left))
        there = " ".join(sorted(it for it in os.listdir(self.folder) if it != "copied"))
        self.check(
            "the files there",
            answers(there.encode()),
            answers(
                b"journal0 journal0.fares journal0.posted journal1 journal1.fares journal1.posted "
                b"ledger0 ledger0-wal ledger1 ledger1-wal"
            ),
        )

    def test_ledgers_without_a_journal(self):
        """A ledger and no journal: the session posts, and the next one is refused once something is archived. Nothing
        is read of its input then."""
        path = os.path.join(self.folder, "ledger")
        words = with_ledger(path)
        for name, lines, replies in (
            ("no close", b"TAP 1 1 7 1704697200 50 BUS\n", b"OK 19730 175 175\n"),
            ("a close of nothing", b"CLOSE 19730\n", b"DONE 19730 0\n"),
            (
                "a close of another week",
                b"TAP 1 1 7 1704697200 50 BUS\nCLOSE 19729\n",
                b"OK 19730 175 175\nDONE 19729 0\n",
            ),
        ):
            self.check(
                f"without a journal, {name}",
                closing(path, self.folder, run(words, lines)),
                End(0, replies, left=rows()),
            )
        lines, replies = session((
            ("TAP 1 1 7 1704697200 50 BUS", "OK 19730 175 175"),
            ("CLOSE 19730", "PAY 7 19730 19730 1 175 175 4=175\nDONE 19730 1"),
        ))
        left = rows(
            (7, 19730, 19730, 1, 175, 175, 4), (7, 1, 19730, 4, 175), (7, 1, 1, 1704697200, 19730, 25200, 50, 2)
        )
        self.check(
            "without a journal, a close", closing(path, self.folder, run(words, lines)), End(0, replies, left=left)
        )
        given = written(self.folder, "lines", lines)
        for name, journal, text in (
            ("no journal", None, None), ("a journal that is made", "journal", None),
            ("an empty journal", "journal", b""),
            ("a journal of a cut line", "journal", b"TAP 1 1 7 1704697200 50 BUS"),
        ):
            kept = missing(self.folder, journal) if journal else None
            if text is not None:
                written(self.folder, journal, text)
            came = run_file(with_ledger(path, kept), given, leaves=True)
            self.check(f"a ledger that archives something, and {name}", came, ALONE._replace(left=lines))
            self.check(f"the journal then, {name}", answers(kept and bytes_of(kept)), answers(kept and (text or b"")))
            self.check(f"the ledger then, {name}", answers(copied_rows(path, self.folder)), answers(left))
        # Its journal is the line of the tap; more lines may come with it.
        journal = written(self.folder, "journal", lines.splitlines(True)[0])
        lines, replies = session((
            ("CLOSE 19730", "PAY 7 19730 19730 1 175 175 4=175\nDONE 19730 1"),
            ("TAP 1 2 7 1704704400 50 BUS", "OK 19730 350 350"),
            ("CLOSE 19730", "PAY 7 19730 19730 2 350 175 4=175\nDONE 19730 1"),
        ))
        self.check("a ledger and its journal", run(with_ledger(path, journal), lines), answers(replies))


# Corrections of each form, of which the ledger archives each. The touch in is taken out in the end, and nothing is due.
EACH_FORM = (
    ("TAP 1 1 7 1704697200 10 IN", "OK 19730 860 860"), ("FIX 3 1 7 FILL 1704699000 12 OUT", "OK 19730 340 340"),
    ("FIX 3 2 7 CREDIT 19730 100", "OK 19730 340 340"), ("FIX 3 3 7 DROP 3 1", "OK 19730 860 860"),
    ("FIX 3 4 7 VOID 1 1", "OK 19730 0 0"),
    ("TAP 1 1 8 1704697200 50 BUS", "OK 19730 175 175"), ("TAP 1 1 9 1704697200 50 BUS", "OK 19730 175 175"),
    (
        "CLOSE 19730",
        "PAY 7 19730 19730 5 0 0\nPAY 8 19730 19730 1 175 175 4=175\nPAY 9 19730 19730 1 175 175 4=175\nDONE 19730 3",
    ),
)


class OtherJournals(Theme):
    """Ledgers beside journals that are not their own, or have lost lines; and drawn sessions."""

    def test_journals_of_another(self):
        """A ledger beside a journal that is not its own, has lost lines, or is read by another zone or fare file:
        nothing is read or written."""
        path = os.path.join(self.folder, "ledger")
        journal = os.path.join(self.folder, "journal")
        first, second = "TAP 1 1 7 1704697200 50 BUS", "TAP 1 2 7 1704704400 50 BUS"
        lines, replies = session((
            (first, "OK 19730 175 175"),
            (second, "OK 19730 350 350"),
            ("CLOSE 19730", "PAY 7 19730 19730 2 350 350 4=350\nDONE 19730 1"),
        ))
        self.check("the ledger's own", run(with_ledger(path, journal), lines), answers(replies))
        left = copied_rows(path, self.folder)
        lacks_first = lacks(f"{first}, on day 19730, 2024-01-08, at second 25200")
        lacks_second = lacks(f"{second}, on day 19730, 2024-01-08, at second 32400")
        dearer = written(self.folder, "dearer", bytes_of(FARES).replace(b"bus = 175", b"bus = 176"))
        otherwise = fault(
            "account 7 was posted otherwise for the week from day 19730, 2024-01-08, through day 19730, 2024-01-08"
        )
        for name, text, words, wanted in (
            ("another tap of that number", (first.replace("50 BUS", "10 IN"), second), RUN, lacks_first),
            ("the other line alone", (second,), RUN, lacks_first),
            ("a line less", (first,), RUN, lacks_second),
            ("another line in its place", (first, "TAP 1 3 7 1704697201 50 BUS"), RUN, lacks_second),
            ("lines of another account", ("TAP 1 1 8 1704697200 50 BUS",), RUN, lacks_first),
            ("another zone", (first, second), [*RUN[:2], "CET-1"], lacks_first),
            ("another fare file", (first, second), ["run", dearer, LONDON], otherwise),
        ):
            given = written(self.folder, "lines", b"TAP 1 9 7 1704697300 50 BUS\nCLOSE 19730\n")
            other = written(self.folder, "other", in_lines(text))
            self.check(
                name,
                run_file(with_ledger(path, other, words), given, leaves=True),
                wanted._replace(left=bytes_of(given)),
            )
            self.check(f"{name}, the journal then", answers(bytes_of(other)), answers(in_lines(text)))
            self.check(f"{name}, the ledger then", answers(copied_rows(path, self.folder)), answers(left))
        # A line that was lost is sent again to a session without the ledger.
        other = written(self.folder, "other", in_lines([second]))
        self.check(
            "a line that was lost", run([*RUN, "--journal", other], in_lines([first])), answers(b"OK 19730 350 350\n")
        )
        lines, replies = session((("CLOSE 19730", "PAY 7 19730 19730 2 350 350 4=350\nDONE 19730 1"),))
        self.check("a line that was lost and sent again", run(with_ledger(path, other), lines), answers(replies))
        self.check(
            "a line that was lost and sent again, the ledger then",
            answers(copied_rows(path, self.folder)),
            answers(left),
        )
        # What was posted for a version that the account has not, and what another sum was due for; beside a journal
        # where no posting is noted.
        os.remove(f"{other}.posted")
        for name, change in (("a later version", "version = 3"), ("another sum", "due = 351, amount = 351")):
            changed = others_database(
                shutil.copy(path, os.path.join(self.folder, "changed")),
                f"UPDATE postings2 SET {change}",
                "UPDATE shares2 SET amount = 351" if "351" in change else "SELECT 1",
            )
            self.check(f"a posting of {name}", run(with_ledger(changed, other), lines), otherwise)
        # Rows that are no postings: of an operator whom there is not, of too much, and of what is no number.
        for name, *changes in (
            ("operator 17", "UPDATE shares2 SET operator = 17"),
            ("too much", "UPDATE postings2 SET amount = 4000000001"),
            ("no number", *AMOUNT_AS_TEXT),
        ):
            changed = others_database(shutil.copy(path, os.path.join(self.folder, "changed")), *changes)
            self.check(f"a posting of {name}", run(with_ledger(changed, other), lines), fault("45 BadArchive"))

    def test_lost_lines(self):
        """A ledger beside a journal that has lost one line: the first account that differs is named by it."""
        path, journal = os.path.join(self.folder, "ledger"), os.path.join(self.folder, "journal")
        lines, replies = session(EACH_FORM)
        self.check("the ledger's own", run(with_ledger(path, journal, RUN_SAMPLE), lines), answers(replies))
        kept = [line for line, _ in EACH_FORM[:-1]]
        on_monday = ", on day 19730, 2024-01-08, at second"
        for number, line in enumerate(kept):
            at = {
                0: f"{on_monday} 25200", 1: f"{on_monday} 27000", 2: ", of day 19730, 2024-01-08",
                5: f"{on_monday} 25200", 6: f"{on_monday} 25200",
            }.get(number, "")
            other = written(self.folder, "other", in_lines(kept[:number] + kept[number + 1:]))
            self.check(f"without {line}", run(with_ledger(path, other, RUN_SAMPLE)), lacks(line + at))
        other = written(self.folder, "other", in_lines(kept[:5]))
        self.check(
            "without two accounts",
            run(with_ledger(path, other, RUN_SAMPLE)),
            lacks(f"{kept[5]}{on_monday} 25200"),
        )
        other = written(self.folder, "other", in_lines([kept[6], *kept[:6]]))
        self.check("all lines in another order", run(with_ledger(path, other, RUN_SAMPLE)), answers(b""))

    def test_drawn_sessions(self):
        """A week of taps, corrections and closes of 30 accounts in several sessions with one ledger, each with lines of
        those before it."""
        for seed in range(2):
            draw, kept, before = random.Random(seed), Kept(), []
            path, journal = os.path.join(self.folder, f"ledger{seed}"), os.path.join(self.folder, f"journal{seed}")
            for number, part in enumerate(
                parts_of(draw, list(with_closes(draw, loads.corrected_week(draw, 30))), 6), 1
            ):
                part = draw.sample(before, len(before) // 10) + part
                before = part
                lines = "".join(map(rules.line, part)).encode()
                came = run(with_ledger(path, journal, RUN_SAMPLE, *draw.choice(((), ("--sync",)))), lines)
                wanted = b"".join(map(kept.reply, part))
                came = but_for_closes(came)._replace(left=copied_rows(path, self.folder))
                self.check(f"session {number} of draw {seed}", came, End(0, wanted, left=kept.rows()))
            self.check(f"the journal of draw {seed}", answers(bytes_of(journal)), answers(kept.lines))


# A table of postings that takes any text as an amount, and has one.
AMOUNT_AS_TEXT = (
    "CREATE TABLE before AS SELECT * FROM postings2",
    "DROP TABLE postings2",
    "CREATE TABLE postings2 (id INTEGER PRIMARY KEY, account, week, through, version, due, amount, edition)",
    "INSERT INTO postings2 SELECT id, account, week, through, version, due, 'much', edition FROM before",
    "DROP TABLE before",
)

# The tables of version 1, and its rows after the first two sessions of above; their numbers are not the first ones.
VERSION_1 = (
    "CREATE TABLE meta (name TEXT NOT NULL PRIMARY KEY, version INTEGER NOT NULL) STRICT",
    "CREATE TABLE postings (id INTEGER PRIMARY KEY AUTOINCREMENT, account INTEGER NOT NULL, week INTEGER NOT NULL, "
    "through INTEGER NOT NULL, version INTEGER NOT NULL, due INTEGER NOT NULL, amount INTEGER NOT NULL, "
    "UNIQUE (account, week, through, version)) STRICT",
    "CREATE TABLE shares (posting INTEGER NOT NULL REFERENCES postings (id), operator INTEGER NOT NULL, "
    "amount INTEGER NOT NULL, PRIMARY KEY (posting, operator)) STRICT",
    "CREATE TABLE taps (account INTEGER NOT NULL, reader INTEGER NOT NULL, seq INTEGER NOT NULL, utc INTEGER NOT NULL, "
    "day INTEGER NOT NULL, second INTEGER NOT NULL, place INTEGER NOT NULL, kind INTEGER NOT NULL, "
    "PRIMARY KEY (account, reader, seq)) STRICT",
    "CREATE TABLE fixes (account INTEGER NOT NULL, staff INTEGER NOT NULL, seq INTEGER NOT NULL, "
    "what INTEGER NOT NULL, a INTEGER NOT NULL, b INTEGER NOT NULL, c INTEGER NOT NULL, d INTEGER NOT NULL, "
    "e INTEGER NOT NULL, PRIMARY KEY (account, staff, seq)) STRICT",
    "INSERT INTO meta VALUES ('farebox', 1)",
    "INSERT INTO postings VALUES (3, 7, 19730, 19730, 1, 860, 860), (5, 7, 19730, 19730, 2, 340, -520)",
    "INSERT INTO shares VALUES (3, 1, 860), (5, 1, -520)",
    "INSERT INTO taps VALUES (7, 1, 1, 1704697200, 19730, 25200, 10, 0), (7, 1, 2, 1704699000, 19730, 27000, 12, 1)",
)
JOURNAL_OF_VERSION_1 = b"TAP 1 1 7 1704697200 10 IN\nTAP 1 2 7 1704699000 12 OUT\n"
# What was posted by version 1 names no edition.
COPIED = ((7, 19730, 19730, 1, 860, 860, 0), (7, 19730, 19730, 2, 340, -520, 0))
ROWS_COPIED = rows(*COPIED, FIRST_SHARE, SECOND_SHARE, FIRST_TAP, SECOND_TAP)


def by_sqlite3(path, *statements):
    """Has the system's `sqlite3` write a database, or Python's own where there is none that can."""
    if not system_sqlite3():
        return others_database(path, *statements)
    subprocess.run([system_sqlite3(), "-batch", path], input=";\n".join(statements) + ";\n", text=True, check=True)
    return path


# How many accounts with a posting each a ledger of version 1 has whose copy is killed, and how often.
MANY, KILLS = 2_000, 12


def many_of_version_1(path):
    """A ledger of version 1 of many accounts with a boarding each, and its journal."""
    numbers = range(1, MANY + 1)
    with contextlib.closing(sqlite3.connect(path)) as it:
        it.executescript(";".join(VERSION_1[:6]))
        it.executemany(
            "INSERT INTO postings VALUES (?, ?, 19730, 19730, 1, 175, 175)", ((number, number) for number in numbers)
        )
        it.executemany("INSERT INTO shares VALUES (?, 4, 175)", ((number,) for number in numbers))
        it.executemany(
            "INSERT INTO taps VALUES (?, 1, 1, 1704697200, 19730, 25200, 50, 2)", ((number,) for number in numbers)
        )
        it.commit()
    return path, boardings(MANY)[0]


def copied_so_far(path):
    """The version of a ledger, and how many postings and shares version 2 has there, or none where it has no tables."""
    with contextlib.closing(sqlite3.connect(path)) as it:
        (version,), = it.execute("SELECT version FROM meta")
        (tables,), = it.execute("SELECT count(*) FROM sqlite_schema WHERE name IN ('postings2', 'shares2')")
        counted = [
            it.execute(f"SELECT count(*), sum(amount) FROM {name}").fetchone() for name in ("postings2", "shares2")
        ] if tables == 2 else tables
    return version, counted


class Version1(Theme):
    """Ledgers of version 1."""

    def test_version_1(self):
        """A ledger of version 1 is copied when it is opened: what was posted stands as it stood, and is gone on with.
        Its own tables stay."""
        for name, write in (("Python", others_database), ("sqlite3", by_sqlite3)):
            path = write(os.path.join(self.folder, name), *VERSION_1)
            journal = written(self.folder, f"{name}.lines", JOURNAL_OF_VERSION_1)
            words = with_ledger(path, journal, RUN_SAMPLE)
            self.check(
                f"a ledger by {name}, no lines", closing(path, self.folder, run(words)), End(0, left=ROWS_COPIED)
            )
            self.check(
                f"a ledger by {name}, what is noted",
                answers(bytes_of(f"{journal}.posted")),
                answers(b"7 19730 19730 2 5\n"),
            )
            lines, replies = session(THIRD_SESSION)
            left = ROWS_AFTER_THIRD.replace(
                in_lines(map(repr, (FIRST_POSTING, SECOND_POSTING))), in_lines(map(repr, COPIED))
            )
            self.check(
                f"a ledger by {name}, a session",
                closing(path, self.folder, but_for_closes(run(words, lines))),
                End(0, replies, left=left),
            )
            with contextlib.closing(sqlite3.connect(path)) as it:
                found = it.execute("SELECT max(id) FROM postings2").fetchall() + it.execute(
                    "SELECT * FROM postings ORDER BY id"
                ).fetchall()
            wanted = [(7,), (3, 7, 19730, 19730, 1, 860, 860), (5, 7, 19730, 19730, 2, 340, -520)]
            self.check(
                f"a ledger by {name}, its own tables then",
                answers(repr(found).encode()),
                answers(repr(wanted).encode()),
            )
        # A fault of the journal comes before the ledger is opened, and that of the ledger leaves it as it is.
        path = others_database(os.path.join(self.folder, "kept"), *VERSION_1)
        has = bytes_of(path)
        self.check(
            "a bad line of the journal",
            run(with_ledger(path, written(self.folder, "bad.lines", b"fly\n"), RUN_SAMPLE)),
            bad_line(1, "50 BadLine"),
        )
        self.check("a bad line of the journal, the ledger then", answers(bytes_of(path)), answers(has))
        for name, statement in (
            ("a table of version 2", "CREATE TABLE shares2 (x)"),
            ("a table less", "DROP TABLE shares"),
            ("a view in its place", "DROP TABLE fixes; CREATE VIEW fixes AS SELECT 1"),
        ):
            path = others_database(os.path.join(self.folder, name.replace(" ", "-")), *VERSION_1, statement)
            has = bytes_of(path)
            self.check(
                f"version 1 and {name}",
                run(with_ledger(path, written(self.folder, "own.lines", JOURNAL_OF_VERSION_1), RUN_SAMPLE)),
                NO_LEDGER,
            )
            self.check(f"version 1 and {name}, the ledger then", answers(bytes_of(path)), answers(has))

    def test_killed_copies(self):
        """A copy that is killed at a random moment leaves version 1 or all of version 2, and the next start has version
        2."""
        first, lines = many_of_version_1(os.path.join(self.folder, "first"))
        whole, draw = [(MANY, 175 * MANY)] * 2, random.Random(1)
        words = with_ledger(os.path.join(self.folder, "ledger"), written(self.folder, "lines", lines))
        for number in range(KILLS):
            path = shutil.copyfile(first, os.path.join(self.folder, "ledger"))
            missing(self.folder, "ledger-wal")
            with subprocess.Popen([PROGRAM, *words], stdin=subprocess.PIPE, stdout=subprocess.DEVNULL) as ran:
                time.sleep(draw.uniform(0, 0.4))
                ran.kill()
            found = copied_so_far(path)
            self.check(
                f"kill {number}",
                answers(repr(found).encode()),
                answers(repr((2, whole) if found[0] == 2 else (1, 0)).encode()),
            )
            self.check(f"kill {number}, the next start", run(words), answers(b""))
            self.check(
                f"kill {number}, all rows then",
                answers(repr(copied_so_far(path)).encode()),
                answers(repr((2, whole)).encode()),
            )


class Files(Theme):
    """What may be a ledger, and who may have it."""

    def test_files_that_are_no_ledger(self):
        """What is no ledger, or one of another version, stays as it is; a journal beside it too, and nothing is read of
        the input."""
        lines, _ = boardings(2)
        given = written(self.folder, "given", lines)
        for name, path, wanted in refused_ledgers(self.folder):
            has = bytes_of(path)
            journal = written(self.folder, "journal", lines + b"TAP 1 1 3 17046")
            for words in (with_ledger(path), with_ledger(path, journal)):
                self.check(name, run_file(words, given, leaves=True), wanted._replace(left=lines))
            self.check(f"{name}, the journal then", answers(bytes_of(journal)), answers(lines + b"TAP 1 1 3 17046"))
            self.check(f"{name}, the file then", answers(bytes_of(path)), answers(has))

    def test_databases_of_others(self):
        """A ledger is made in a database that has none of its tables, and in an empty file; what is there stays."""
        lines, replies = session(FIRST_SESSION)
        path = others_database(
            os.path.join(self.folder, "other"),
            "CREATE TABLE notes (text TEXT)",
            "INSERT INTO notes VALUES ('as it was')",
        )
        for name, it in (("a database of others", path), ("an empty file", written(self.folder, "empty", b""))):
            came = closing(
                it,
                self.folder,
                run(with_ledger(it, os.path.join(self.folder, f"{os.path.basename(it)}.lines"), RUN_SAMPLE), lines),
            )
            self.check(name, came, End(0, replies, left=ROWS_AFTER_FIRST))
        with contextlib.closing(sqlite3.connect(path)) as it:
            notes = it.execute("SELECT text FROM notes").fetchall()
        self.check("what others have in it", answers(repr(notes).encode()), answers(b"[('as it was',)]"))

    def test_owners(self):
        """What is made is its owner's alone, also where the mask lets everybody: journal, ledger and the log beside it.
        What is there keeps its mode."""
        lines, replies = session(FIRST_SESSION)
        for name, modes in (("made", b"600 600 600"), ("there", b"640 640 640")):
            ledger, journal = os.path.join(self.folder, f"ledger-{name}"), os.path.join(self.folder, f"journal-{name}")
            if name == "there":
                for path in (ledger, journal):
                    os.chmod(written(self.folder, os.path.basename(path), b""), 0o640)
            self.check(
                f"files that are {name}",
                run(with_ledger(ledger, journal, RUN_SAMPLE), lines, umask=0),
                answers(replies),
            )
            found = " ".join(f"{os.stat(path).st_mode & 0o777:o}" for path in (journal, ledger, f"{ledger}-wal"))
            self.check(f"the modes of files that are {name}", answers(found.encode()), answers(modes))

    def test_ledgers_that_cannot_be(self):
        """What cannot be made, opened or locked: nothing is read of the input."""
        lines, _ = boardings(2)
        given = written(self.folder, "given", lines)
        no_files = [
            ("a folder", self.folder),
            ("a file in no folder", os.path.join(self.folder, "no", "ledger")),
            ("no name", ""),
        ]
        no_files += [
            ("a file below a file", os.path.join(given, "ledger")),
            ("a name that is too long", os.path.join(self.folder, "l" * 256)),
        ]
        # For who may do all no file is closed.
        if os.geteuid():
            os.chmod(written(self.folder, "unreadable", b""), stat.S_IWUSR)
            no_files.append(("a file that is for writing", os.path.join(self.folder, "unreadable")))
        for name, path in no_files:
            self.check(name, run_file(with_ledger(path), given, leaves=True), STORE._replace(left=lines))

    def test_journals_as_ledgers(self):
        """No ledger is opened in the file of a journal, nor where that is its log, by whatever name it is called:
        nothing is read or written."""
        lines, _ = boardings(2)
        given, line = written(self.folder, "given", lines), lines[:lines.index(b"\n") + 1]
        os.symlink("linked", os.path.join(self.folder, "link"))
        for name, journal, ledger in (
            ("its file", "same", "same"), ("its log", "other-wal", "other"), ("a link", "linked", "link")
        ):
            journal, ledger = os.path.join(self.folder, journal), os.path.join(self.folder, ledger)
            self.check(
                f"{name}, which is made",
                run_file(with_ledger(ledger, journal), given, leaves=True),
                STORE._replace(left=lines),
            )
            self.check(f"{name}, as it is left", answers(bytes_of(journal)), answers(b""))
            written(self.folder, os.path.basename(journal), line)
            self.check(
                f"{name} with a line",
                run_file(with_ledger(ledger, journal), given, leaves=True),
                STORE._replace(left=lines),
            )
            self.check(f"{name} with a line, as it is left", answers(bytes_of(journal)), answers(line))
        # A ledger's log lies beside the file to which a link leads.
        alias, log = os.path.join(self.folder, "alias"), os.path.join(self.folder, "aliased-wal")
        os.symlink("aliased", alias)
        run(with_ledger(os.path.join(self.folder, "aliased")))
        written(self.folder, "aliased-wal", line)
        self.check(
            "its log by a link", run_file(with_ledger(alias, log), given, leaves=True), STORE._replace(left=lines)
        )
        with started([*RUN, "--journal", log]) as ran:
            ran.stdin.write(line)
            heard(ran.stdout, len(b"AGAIN 19730 175 175\n"))
            self.check(
                "its log by a link, of another session",
                run_file(with_ledger(alias), given, leaves=True),
                STORE._replace(left=lines),
            )
        self.check("its log by a link, as it is left", answers(bytes_of(log)), answers(line))
        beside = os.path.join(self.folder, "beside")
        with started([*RUN, "--journal", beside]) as ran:
            ran.stdin.write(line)
            output = heard(ran.stdout, len(b"OK 19730 175 175\n"))
            self.check(
                "that of another session", run_file(with_ledger(beside), given, leaves=True), STORE._replace(left=lines)
            )
            ran.stdin.close()
            self.check(
                "the other session",
                end_of(ran, output)._replace(left=bytes_of(beside)),
                End(0, b"OK 19730 175 175\n", left=line),
            )

    def test_one_session_at_a_time(self):
        """While a session has a ledger no other one opens it, nor while SQLite writes it; a statement of its journal is
        told all the same."""
        (lines, replies), (path, journal) = session(SECOND_SESSION), opened_ledger(self.folder, "ledger")
        given = written(self.folder, "given", lines)
        with started(with_ledger(path, journal, RUN_SAMPLE)) as ran:
            ran.stdin.write(lines)
            output = heard(ran.stdout, len(replies))
            for name, words in (
                ("no journal", with_ledger(path)),
                ("a journal of its own", with_ledger(path, os.path.join(self.folder, "other"))),
            ):
                self.check(
                    f"a second session with {name}", run_file(words, given, leaves=True), STORE._replace(left=lines)
                )
            self.check(
                "a second session with its journal",
                run_file(with_ledger(path, journal), given, leaves=True),
                CANNOT_USE._replace(left=lines),
            )
            # Both taps of the journal, at 07:00 and at 07:30.
            self.check(
                "a replay beside a session",
                replayed(journal),
                answers(b"OK lines 2 accounts 1 from 1704697200 to 1704699000\n"),
            )
            wanted = rows_of_statement("19730,RAIL,10,12,07:00:00,340,-")
            self.check("a statement beside a session", run([*STATE, "--journal", journal]), wanted)
            ran.stdin.close()
            self.check(
                "the first session",
                closing(path, self.folder, end_of(ran, output)),
                End(0, replies, left=ROWS_AFTER_SECOND),
            )
        with contextlib.closing(sqlite3.connect(path)) as writer:
            writer.execute("BEGIN EXCLUSIVE")
            self.check(
                "beside SQLite",
                run_file(with_ledger(path, journal, RUN_SAMPLE), given, leaves=True),
                STORE._replace(left=lines),
            )

    def test_killed_after_a_close(self):
        """What was posted by a session that is killed stands in the file and its log, which SQLite reads together and
        no one else opens meanwhile."""
        (path, journal), (lines, replies) = opened_ledger(self.folder, "ledger"), session(SECOND_SESSION)
        with started(with_ledger(path, journal, RUN_SAMPLE)) as ran:
            ran.stdin.write(lines)
            self.check("a session that is killed", answers(heard(ran.stdout, len(replies))), answers(replies))
            with contextlib.closing(
                sqlite3.connect(path, timeout=0)
            ) as other, contextlib.suppress(sqlite3.OperationalError):
                self.check(
                    "SQLite beside it",
                    answers(repr(other.execute("SELECT * FROM postings2").fetchall()).encode()),
                    answers(b"it is locked"),
                )
            ran.kill()
            ran.wait()
        self.check("the rows by SQLite", answers(rows_of_ledger(path)), answers(ROWS_AFTER_SECOND))
        lines, replies = session(THIRD_SESSION)
        came = but_for_closes(run(with_ledger(path, journal, RUN_SAMPLE), lines))
        self.check("the next session", closing(path, self.folder, came), End(0, replies, left=ROWS_AFTER_THIRD))

    def test_first_fault(self):
        """A ledger is opened after the fare file, the zone and the journal, of which a line that is not accepted is
        told first."""
        text, lines = written(self.folder, "text", b"no ledger"), boardings(2)[0]
        good = written(self.folder, "good", lines)
        bad = written(self.folder, "bad", lines + b"fly\n")
        none = os.path.join(self.folder, "no", "journal")
        path, _ = opened_ledger(self.folder, "ledger")
        for name, words, wanted in (
            ("no fare file", ["run", MISSING, LONDON, "--journal", bad, "--ledger", text], fault("cannot read fares")),
            ("no journal", ["run", FARES, "no zone", "--journal", none, "--ledger", text], CANNOT_USE),
            ("a bad zone", ["run", FARES, "no zone", "--journal", bad, "--ledger", text], fault("bad zone")),
            ("a bad line", with_ledger(text, bad), bad_line(3, "50 BadLine")),
            ("no ledger", with_ledger(text, good), NO_LEDGER),
            (
                "a bad line of an empty journal's ledger",
                with_ledger(path, written(self.folder, "first", b"fly\n")),
                bad_line(1, "50 BadLine"),
            ),
        ):
            self.check(f"{name}, and a file that is no ledger", run(words, lines), wanted)
        refused = written(self.folder, "refused", edited("hopper = 3600", "hopper = 0"))
        for name, words, wanted in (
            (
                "a refused fare file",
                ["run", refused, LONDON, "--journal", good, "--ledger", good],
                fault("13 OutOfRange"),
            ),
            ("a bad zone", ["run", FARES, "no zone", "--journal", good, "--ledger", good], fault("bad zone")),
            ("a bad line", with_ledger(bad, bad), bad_line(3, "50 BadLine")),
            ("no fault before it", with_ledger(good, good), STORE),
        ):
            self.check(f"{name}, and a ledger that is the journal", run(words, lines), wanted)
        made = missing(self.folder, "made")
        self.check("a bad line, and no ledger", run(with_ledger(made, bad)), bad_line(3, "50 BadLine"))
        self.check("a bad line, and no ledger: none is made", answers(bytes_of(made)), answers(None))


MANY = 1_000


class FullFiles(Theme):
    """Files without room."""

    def test_full_files(self):
        """A close for which its ledger has no room is refused by 43, and posts nothing; the session goes on, and posts
        it once there is room."""
        path, journal = opened_ledger(self.folder, "ledger")
        accounts = range(8, MANY + 8)
        lines = in_lines(f"TAP 2 1 {account} 1704697200 50 BUS" for account in accounts)
        replies = b"OK 19730 175 175\n" * MANY
        paid = b"".join(b"PAY %d 19730 19730 1 175 175 4=175\n" % account for account in accounts)
        paid = b"PAY 7 19730 19730 1 860 860 1=860\n" + paid + b"DONE 19730 %d\n" % (MANY + 1)
        # The journal has room for all lines, and the ledger not for what is posted: a row of each account in three
        # tables.
        room = max(2 * len(lines), os.path.getsize(path) + (32 << 10))
        asked = b"CLOSE 19730\nDUE 7 19730\nCLOSE 19730\n"
        told = b"NO 43 Store\nDUE 7 19730 19730 1 860 1=860\nNO 43 Store\n"
        came = run(with_ledger(path, journal, RUN_SAMPLE), lines + asked, **limited_to(room))
        self.check("a close without room", but_for_closes(came), answers(replies + told))
        self.check(
            "a close without room, the rows then", answers(copied_rows(path, self.folder)), answers(ROWS_AFTER_FIRST)
        )
        with started(with_ledger(path, journal, RUN_SAMPLE), **limited_to(room, resource.RLIM_INFINITY)) as ran:
            ran.stdin.write(b"CLOSE 19730\n")
            output = heard(ran.stdout, len(b"NO 43 Store\n"))
            resource.prlimit(ran.pid, resource.RLIMIT_FSIZE, (resource.RLIM_INFINITY, resource.RLIM_INFINITY))
            ran.stdin.write(b"CLOSE 19730\n")
            ran.stdin.close()
            self.check(
                "a close without room, and one with room",
                but_for_closes(end_of(ran, output)),
                answers(b"NO 43 Store\n" + paid),
            )
        left = rows(
            FIRST_POSTING, *((it, 19730, 19730, 1, 175, 175, 4) for it in accounts), FIRST_SHARE,
            *((it, 1, 19730, 4, 175) for it in accounts),
            FIRST_TAP, *((it, 2, 1, 1704697200, 19730, 25200, 50, 2) for it in accounts),
        )
        self.check("with room, the rows then", answers(copied_rows(path, self.folder)), answers(left))
        self.check("the next session", run(with_ledger(path, journal, RUN_SAMPLE), b"CLOSE 19730\n"), answers(paid))

    def test_no_room_for_a_ledger(self):
        """Where a ledger cannot be made for want of room, the session does not begin."""
        lines, _ = boardings(2)
        given = written(self.folder, "given", lines)
        for room in (0, 100, 5_000):
            path = missing(self.folder, "ledger")
            missing(self.folder, "ledger-wal")
            self.check(
                f"room for {room} bytes",
                run_file(with_ledger(path), given, leaves=True, **limited_to(room)),
                STORE._replace(left=lines),
            )
        self.check("and then room for all", run(with_ledger(path), lines), answers(boardings(2)[1]))


# Two closes with a tap before each; and the ways in which a session may end whose disk fails from some moment on, in
# the order of these moments, each with whether the first close may be posted: none begins; and then, by the replies,
# the journal is not settled before a close, or the ledger does not keep what is posted, which it may have all the same;
# at last the journal is not settled in the end, or only what the ledger's log has is not copied.
TWO_CLOSES = (
    ("TAP 1 1 7 1704697200 10 IN", "OK 19730 860 860"),
    ("CLOSE 19730", "PAY 7 19730 19730 1 860 860 1=860\nDONE 19730 1"),
    ("TAP 1 2 7 1704699000 12 OUT", "OK 19730 340 340"),
    ("CLOSE 19730", "PAY 7 19730 19730 2 340 -520 1=-520\nDONE 19730 1"),
)
CLOSE_LINES, (TAPPED, PAID, MORE, REFUNDED) = session(TWO_CLOSES)[0], (reply for _, reply in TWO_CLOSES)
CHARGED = "PAY 7 19730 19730 2 340 340 1=340\nDONE 19730 1"


def with_journal_fault(*replies):
    return End(1, in_lines(replies), JOURNAL_FAULT.errors)


ENDS_OF_DISKS = (
    (STORE, [REFUNDED]),
    (with_journal_fault(TAPPED, "NO 44 DeskFault", "NO 48 NotKept", "NO 44 DeskFault"), [REFUNDED]),
    (with_journal_fault(TAPPED, "NO 43 Store", MORE, "NO 44 DeskFault"), [REFUNDED, CHARGED]),
    (with_journal_fault(TAPPED, PAID, MORE, "NO 44 DeskFault"), [REFUNDED]),
    (with_journal_fault(TAPPED, PAID, MORE, "NO 43 Store"), [REFUNDED]),
    (with_journal_fault(TAPPED, PAID, MORE, REFUNDED), [REFUNDED]),
    (answers(in_lines((TAPPED, PAID, MORE, REFUNDED))), [REFUNDED]),
)


class FailingDisks(Theme):
    """Disks that fail."""

    def test_disks_that_fail(self):
        """A disk that fails from some moment on, the first, the second, ..: a close that is answered stays, and the
        next session goes on."""
        library, ends, count = preloaded(self.folder), [end for end, _ in ENDS_OF_DISKS], 0
        seen, is_copied = [], False
        while not is_copied:
            path, journal = (os.path.join(self.folder, f"{name}{count}") for name in ("ledger", "journal"))
            with_disk = {"env": {"LD_PRELOAD": library, "SETTLED": str(count)}}
            came = but_for_closes(run(with_ledger(path, journal, RUN_SAMPLE), CLOSE_LINES, **with_disk))
            # It comes to what it came to with a sync less, or to the next that it may come to.
            at = ends.index(came) if came in ends else len(ends)
            last = seen[-1] if seen else 0
            self.check(f"{count} syncs", came, came if at < len(ends) and at in (last, last + 1) else ends[last])
            if at == len(ends):
                return
            seen.append(at)
            is_copied = at == len(ends) - 1 and os.path.getsize(f"{path}-wal") < os.path.getsize(path)
            again = run(with_ledger(path, journal, RUN_SAMPLE), CLOSE_LINES)
            right = [answers(reply.encode()) for reply in ENDS_OF_DISKS[at][1]]
            told = again._replace(output=b"\n".join(again.output.splitlines()[-2:]))
            self.check(f"{count} syncs, and then the same lines once more", told, told if told in right else right[0])
            count += 1
        self.check(
            "each way to end was seen",
            answers(repr(sorted(set(seen))).encode()),
            answers(repr(list(range(len(ends)))).encode()),
        )


# By what a tap and a close for which memory is refused may be answered.
NO_MEMORY, NOT_CLOSED = b"NO 90 Memory\n", (b"NO 90 Memory\n", b"NO 43 Store\n", b"NO 44 DeskFault\n")
CLOSE_COMMANDS = (
    rules.Tap(1704697200, 1, 1, 7, 10, "IN"), rules.Close(19730), rules.Tap(1704699000, 1, 2, 7, 12, "OUT"),
    rules.Close(19730),
)


def ends_without_memory():
    """How a session of these lines may end, one of which is refused for memory, or none; beside what is then kept. A
    close that is refused for want of the store may be posted all the same."""
    for refused, answer in (
        (None, b""), *((at, answer) for at in range(4) for answer in (NOT_CLOSED if at % 2 else [NO_MEMORY]))
    ):
        for is_posted in (False, True)[:1 + answer.startswith(b"NO 43")]:
            kept, replies = Kept(), b""
            for at, command in enumerate(CLOSE_COMMANDS):
                reply = kept.reply(command) if at != refused or is_posted else b""
                replies += answer if at == refused else reply
            yield answers(replies), kept
    for start in (fault("90 Memory"), STORE):
        yield start, Kept()


# How many allocations are passed over after one that is refused, of some five thousand.
PASSED = 61


class Memory(Theme):
    """Want of memory."""

    def test_memory_that_is_refused(self):
        """Memory is refused once: a line is refused, or the session does not begin; and the next one is right."""
        library, number, was_refused, all_ends = preloaded(self.folder), 1, True, list(ends_without_memory())
        while was_refused:
            path, journal = os.path.join(self.folder, f"ledger{number}"), os.path.join(self.folder, f"journal{number}")
            with tempfile.TemporaryFile() as told:
                around = {"LD_PRELOAD": library, "FIRST": str(number), "LAST": str(number), "TELL": str(told.fileno())}
                came = but_for_closes(
                    run(with_ledger(path, journal, RUN_SAMPLE), CLOSE_LINES, env=around, pass_fds=[told.fileno()])
                )
                was_refused = os.fstat(told.fileno()).st_size > 0
            ends = [copy.deepcopy(kept) for end, kept in all_ends if end == came]
            right = answers(session(TWO_CLOSES)[1])
            self.check(f"allocation {number} is refused", came, came if ends and was_refused else right)
            again = run(with_ledger(path, journal, RUN_SAMPLE), CLOSE_LINES)
            rights = [answers(b"".join(map(kept.reply, CLOSE_COMMANDS))) for kept in ends]
            self.check(f"the next session, when allocation {number} was", again, again if again in rights else right)
            number += PASSED
