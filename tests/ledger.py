#!/usr/bin/env python3
"""Reads a ledger in a file with an SQLite that has no part in what wrote it.

    tests/ledger.py               # some seconds, after rt ci or rt run, which build the program

A session of the program closes a day after each tap of a journey, over a ledger in a file. Here SQLite is asked whether
that file is whole, for all of its rows, and for all that docs/FILES.md says an accountant may ask. What it has to
answer was worked out by hand: an entry is charged the maximum, 860, with its exit the journey costs 340, so 520 are
given back, and all of it is operator 1's. Another answer is printed beside what was expected, and ends this script with
status 1. Two of the questions must have no answer: once an amount in the file is changed they have one. It is the
system's own `sqlite3` that answers; where there is none from 3.37 on, which reads STRICT tables, it is Python's. Where
that is older too, this script fails.
"""

import os
import re
import subprocess
import sys
import tempfile

# Nothing is kept beside the sources.
sys.dont_write_bytecode = True
from support.repository import PROGRAM, ROOT, RUN_SAMPLE
from support.sqlite import asker

# A journey that is closed after each of its taps.
LINES = "TAP 1 1 7 1704697200 10 IN\nCLOSE 19730\nTAP 1 2 7 1704699000 12 OUT\nCLOSE 19730\n"
REPLIES = (
    "OK 19730 860 860\nPAY 7 19730 19730 1 860 860 1=860\nDONE 19730 1\n"
    "OK 19730 340 340\nPAY 7 19730 19730 2 340 -520 1=-520\nDONE 19730 1\n"
)

WHOLE = [
    ("PRAGMA integrity_check", "ok"),
    ("PRAGMA foreign_key_check", ""),
]
ROWS = [
    ("SELECT * FROM meta", "farebox|2"),
    ("SELECT * FROM postings2 ORDER BY id", "1|7|19730|19730|1|860|860|4\n2|7|19730|19730|2|340|-520|4"),
    ("SELECT * FROM shares2 ORDER BY posting, operator", "1|1|860\n2|1|-520"),
    (
        "SELECT * FROM taps ORDER BY account, reader, seq",
        "7|1|1|1704697200|19730|25200|10|0\n7|1|2|1704699000|19730|27000|12|1",
    ),
    ("SELECT * FROM fixes", ""),
]
# What is answered to the questions of docs/FILES.md, in their order: the net of the week, that of each operator, the
# refunds, accounts whose postings do not come to what was due, and postings whose shares do not come to their amount.
ASKED = ["340", "1|340", "2|7|19730|19730|-520", "", ""]
# What the last two come to where the first posting's amount is a penny more.
CHANGED, ASKED_THEN = "UPDATE postings2 SET amount = 861 WHERE id = 1", ["7|19730|341|340", "1|861"]


def questions():
    with open(f"{ROOT}/docs/FILES.md", encoding="utf-8") as page:
        return re.findall(r"```sql\n(.*?)```", page.read(), re.S)


def write_ledger(folder):
    """The path of the file that a session leaves in this folder, or None where it does not reply as it should."""
    file = f"{folder}/ledger.db"
    ran = subprocess.run(
        [PROGRAM, *RUN_SAMPLE, "--ledger", file], input=LINES, stdout=subprocess.PIPE, stderr=subprocess.STDOUT,
        text=True,
    )
    if ran.returncode or ran.stdout != REPLIES:
        print(f"tests/ledger.py: the session replied\n{ran.stdout}\n  and not\n{REPLIES}")
        return None
    return file


def wrong(ask, file, asked):
    """How many of these pairs of a question and its answer are wrong, each of which is printed."""
    count = 0
    for sql, wanted in asked:
        found = ask(file, sql)
        if found != wanted:
            count += 1
            print(f"tests/ledger.py: {sql.strip()}\n  came to\n{found}\n  and not to\n{wanted}")
    return count


def main():
    here = asker()
    if not here:
        print("tests/ledger.py: neither the system nor Python has an sqlite3 from 3.37 on, so no ledger can be read")
        return 1
    if not os.path.isfile(PROGRAM):
        print("tests/ledger.py: crates/farebox has no built program: run rt ci, or rt run there")
        return 1
    asked = questions()
    if len(asked) != len(ASKED):
        print(f"tests/ledger.py: docs/FILES.md has {len(asked)} questions, and {len(ASKED)} have an answer here")
        return 1
    questions_of_whole = [*WHOLE, *ROWS, *zip(asked, ASKED)]
    questions_of_changed = [(CHANGED, ""), *zip(asked[-2:], ASKED_THEN)]
    with tempfile.TemporaryDirectory() as folder:
        file = write_ledger(folder)
        if not file:
            return 1
        name, ask = here
        failed = wrong(ask, file, questions_of_whole) + wrong(ask, file, questions_of_changed)
    count = len(questions_of_whole) + len(questions_of_changed)
    print(f"tests/ledger.py: {count} answers of {name}, {failed} of them wrong")
    return 1 if failed else 0


if __name__ == "__main__":
    sys.exit(main())
