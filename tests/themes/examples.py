"""The sessions of examples/, which a newcomer finds, by what examples/README.md tells of them."""

import contextlib
import os
import sqlite3

from support.examples import told_in, told_replies
from support.repository import EXAMPLES, RUN_SAMPLE, RUN_TWO, STATE
from support.running import RUN, End, answers, heard, read, run, run_file, started
from support.theme import Theme

# The examples that are not run with examples/bus.toml.
GIVEN = dict.fromkeys(("capped-week.txt", "closes.txt", "corrections.txt", "statement.txt"), RUN_SAMPLE)
GIVEN["two-fares.txt"] = RUN_TWO
# Those of a session that is killed, and of the one that goes on from its journal.
KILLED, GOES_ON = "killed.txt", "goes-on.txt"


class Examples(Theme):
    def test_replies_that_are_told(self):
        """The replies to each session, through a pipe and from the file."""
        told = told_replies()
        for name in sorted(
            name for name in os.listdir(EXAMPLES) if name.endswith(".txt") and name not in (KILLED, GOES_ON)
        ):
            given = GIVEN.get(name, RUN)
            wanted = answers(told.get(name, b"nothing is told of it"))
            self.check(f"{name} through a pipe", run(given, read(name)), wanted)
            self.check(f"{name} as a file", run_file(given, f"{EXAMPLES}/{name}"), wanted)

    def test_rows_that_are_told(self):
        """The rows of each statement."""
        for name, rows in told_in("Row").items():
            self.check(f"the statement of {name}", run(STATE, read(name)), answers(rows))

    def test_sessions_that_go_on(self):
        """The replies to a session that is killed after the last of them, and to the next one with the same journal and
        ledger."""
        told = told_replies()
        journal = os.path.join(self.folder, "taps.txt")
        ledger = os.path.join(self.folder, "ledger.db")
        given = [*RUN_SAMPLE, "--journal", journal, "--ledger", ledger]
        with started(given) as ran:
            ran.stdin.write(read(KILLED))
            self.check(KILLED, End(0, heard(ran.stdout, len(told[KILLED]))), answers(told[KILLED]))
        self.check(GOES_ON, run_file(given, f"{EXAMPLES}/{GOES_ON}"), answers(told[GOES_ON]))
        self.check(
            "what they kept",
            run(["replay", *RUN_SAMPLE[1:], journal]),
            answers(b"OK lines 4 accounts 1 from 1704697200 to 1704702200\n"),
        )
        with contextlib.closing(sqlite3.connect(ledger)) as posted:
            rows = posted.execute("SELECT account, through, version, due, amount FROM postings2").fetchall()
        self.check(
            "what they posted",
            answers(repr(rows).encode()),
            answers(b"[(7, 19730, 2, 175, 175), (7, 19730, 4, 150, -25)]"),
        )
