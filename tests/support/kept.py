"""What was accepted and posted by tests/oracle/rules.py, and the rows of a ledger that has it."""

import contextlib
import sqlite3

from oracle import rules
from support.running import answers, in_lines

KINDS, FORMS = ("IN", "OUT", "BUS"), ("VOID", "FILL", "CREDIT", "DROP")


class Kept:
    """What was accepted and posted, by the rules of tests/oracle/rules.py."""

    def __init__(self, has_ledger=True):
        self.accounts, self.postings, self.archives = {}, {}, {}
        # Without a ledger nothing is closed.
        self.has_ledger = has_ledger
        # The lines that were newly accepted, in order.
        self.lines = b""

    def reply(self, command):
        """The reply to a command by the rules."""
        if isinstance(command, rules.Close) and not self.has_ledger:
            return b"NO 34 NotHere\n"
        reply = rules.reply(rules.SAMPLE, self.accounts, command, self.postings).encode()
        if isinstance(command, rules.Close) and not reply.startswith(b"NO "):
            for number, account in self.accounts.items():
                if rules.is_quoted(account, command.day):
                    self.archives[number] = rules.Account(dict(account.taps), dict(account.fixes))
        if reply.startswith(b"OK "):
            self.lines += rules.line(command).encode()
        return reply

    def shown(self, account, day):
        return "".join(rules.shown(rules.SAMPLE, self.accounts, account, day)).encode()

    def counted(self):
        """What a replay has to count."""
        instants = [tap.utc for it in self.accounts.values() for tap in it.taps.values()]
        instants += [fix.words[0] for it in self.accounts.values() for fix in it.fixes.values() if fix.form == "FILL"]
        counts = f"lines {self.lines.count(10)} accounts {len(self.accounts)}"
        return answers(f"OK {counts} from {min(instants)} to {max(instants)}\n".encode())

    def rows(self):
        """The rows that the ledger has to have, as `rows_of_ledger` reads them."""
        postings = [it for _, those in sorted(self.postings.items()) for it in those]
        rows = [("ok",), ("farebox", 2)]
        rows += [(it.account, it.week, it.through, it.version, it.due, it.amount, it.edition) for it in postings]
        rows += [
            (it.account, it.version, it.through, operator, pence)
            for it in postings
            for operator, pence in it.amounts.items()
            if pence
        ]
        for number, account in sorted(self.archives.items()):
            rows += [
                (
                    number, *it, tap.utc, rules.service_day(tap.utc), tap.utc % rules.A_DAY, tap.place,
                    KINDS.index(tap.kind),
                )
                for it, tap in sorted(account.taps.items())
            ]
        for number, account in sorted(self.archives.items()):
            rows += [
                (number, *it, FORMS.index(fix.form), *columns_of(fix)) for it, fix in sorted(account.fixes.items())
            ]
        return in_lines(map(repr, rows))


def columns_of(fix):
    """What of a correction stands in the last five columns of its row."""
    if fix.form == "FILL":
        utc, place, kind = fix.words
        return utc, rules.service_day(utc), utc % rules.A_DAY, place, KINDS.index(kind)
    return *fix.words, 0, 0, 0


ASKED = (
    "PRAGMA integrity_check",
    "SELECT name, version FROM meta",
    "SELECT account, week, through, version, due, amount, edition FROM postings2 ORDER BY account, week, id",
    "SELECT account, version, through, operator, shares2.amount FROM shares2, postings2 WHERE posting = id "
    "ORDER BY account, week, id, operator",
    "SELECT account, reader, seq, utc, day, second, place, kind FROM taps ORDER BY account, reader, seq",
    "SELECT account, staff, seq, what, a, b, c, d, e FROM fixes ORDER BY account, staff, seq",
)


def rows_of_ledger(path):
    """Whether a ledger is whole, and its rows, as Python's own `sqlite3` reads them."""
    with contextlib.closing(sqlite3.connect(path)) as ledger:
        return in_lines(repr(row) for asked in ASKED for row in ledger.execute(asked))
