"""Ledgers in files: sessions over them, their rows, and files that are none."""

import contextlib
import os
import shutil
import sqlite3

from support.repository import RUN_SAMPLE
from support.running import RUN, fault, in_lines, run, session, written

ALONE = fault("ledger without its journal")
STORE = fault("43 Store")
NO_LEDGER = fault("40 NotALedger")
OTHER_VERSION = fault("41 Version")
# What each ledger begins with, as rows_of_ledger tells it.
WHOLE = (("ok",), ("farebox", 2))


def with_ledger(ledger, journal=None, words=RUN, *more):
    return [*words, *(["--journal", journal] if journal else []), *more, "--ledger", ledger]


def rows(*those):
    """A ledger's rows as they are told: those of meta, and these of the postings, the shares, the taps and the
    corrections."""
    return in_lines(map(repr, (*WHOLE, *those)))


# A session with examples/sample.toml, in which an In alone is charged, and the rows after it. In a second session with
# the same journal and ledger its Out comes, and the rest is given back.
FIRST_SESSION = (
    ("TAP 1 1 7 1704697200 10 IN", "OK 19730 860 860"),
    ("CLOSE 19730", "PAY 7 19730 19730 1 860 860 1=860\nDONE 19730 1"),
    ("QUIT", "BYE"),
)
FIRST_POSTING = (7, 19730, 19730, 1, 860, 860, 4)
FIRST_SHARE = (7, 1, 19730, 1, 860)
FIRST_TAP = (7, 1, 1, 1704697200, 19730, 25200, 10, 0)
ROWS_AFTER_FIRST = rows(FIRST_POSTING, FIRST_SHARE, FIRST_TAP)

SECOND_POSTING = (7, 19730, 19730, 2, 340, -520, 4)
SECOND_SHARE = (7, 2, 19730, 1, -520)
SECOND_TAP = (7, 1, 2, 1704699000, 19730, 27000, 12, 1)
ROWS_AFTER_SECOND = rows(FIRST_POSTING, SECOND_POSTING, FIRST_SHARE, SECOND_SHARE, FIRST_TAP, SECOND_TAP)


def lacks(line):
    """The fault of a ledger that archives this, and its journal does not give it back."""
    return fault(f"in the ledger and not in the journal: {line}")


def others_database(path, *statements):
    """Has Python's own `sqlite3` write a database."""
    with contextlib.closing(sqlite3.connect(path)) as it:
        it.executescript(";".join(statements))
    return path


def opened_ledger(folder, name):
    """The path of a ledger of one posting, and of its journal."""
    path, journal = os.path.join(folder, name), os.path.join(folder, f"{name}.lines")
    run(with_ledger(path, journal, RUN_SAMPLE), session(FIRST_SESSION)[0])
    return path, journal


def refused_ledgers(folder):
    """Files that are no ledger, by their names, and the fault that each of them is."""
    yield "a text", written(folder, "text", b"day,kind,from,to,start,fare,band\n"), NO_LEDGER
    yield "a journal", written(folder, "lines", b"TAP 1 1 7 1704697200 50 BUS\n" * 1_000), NO_LEDGER
    yield "the head of a database alone", written(folder, "head", b"SQLite format 3\0" + b"\0" * 4_080), NO_LEDGER
    postings = "CREATE TABLE postings (id INTEGER PRIMARY KEY, amount INTEGER)"
    yield "a database with one of the tables", others_database(os.path.join(folder, "one"), postings), NO_LEDGER
    meta = "CREATE VIEW meta AS SELECT 'farebox' AS name, 1 AS version"
    yield "a database with a view in the place of a table", others_database(
        os.path.join(folder, "view"), meta
    ), NO_LEDGER
    for name, statement, wanted in (
        ("another version", "UPDATE meta SET version = 3", OTHER_VERSION),
        ("a version before", "UPDATE meta SET version = 0", OTHER_VERSION),
        ("version 1 with the tables of version 2", "UPDATE meta SET version = 1", NO_LEDGER),
        ("another's name", "UPDATE meta SET name = 'fares'", NO_LEDGER), ("no name", "DELETE FROM meta", NO_LEDGER),
        ("a table less", "DROP TABLE fixes", NO_LEDGER),
        ("another column", "ALTER TABLE taps RENAME COLUMN place TO stop", NO_LEDGER),
    ):
        path, _ = opened_ledger(folder, name.replace(" ", "-").replace("'", ""))
        yield f"a ledger of {name}", others_database(path, statement), wanted


PAID, DONE = b"PAY 7 19730 19730 1 175 175 4=175\n", b"DONE 19730 1\n"


def session_over(folder, lines, *more, ledger="ledger", journal="journal"):
    """What a session over a journal and a ledger in files comes to."""
    return run(
        [*RUN, "--journal", os.path.join(folder, journal), "--ledger", os.path.join(folder, ledger), *more],
        in_lines(lines),
    )


def copied_ledger(folder, name):
    """The ledger as it stands, under another name."""
    shutil.copyfile(os.path.join(folder, "ledger"), os.path.join(folder, name))
    return name
