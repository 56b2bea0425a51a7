"""Audits of journals, what is kept beside them and a ledger; and the lines that a ledger gives back."""

import os
import shutil

from support.fares import an_edition, quiet
from support.journals import new_folder, with_both
from support.ledgers import DONE, PAID, copied_ledger, others_database, session_over
from support.running import A_DAY, MISSING, RUN, SEVEN, End, answers, bytes_of, fault, in_lines, run, written
from support.serving import closed, ended, serving, talk
from support.theme import Theme

BUS = f"TAP 1 1 7 {SEVEN} 50 BUS"
OF_MONDAY = "the week from day 19730, 2024-01-08, through day 19730, 2024-01-08"
LOST = f"in the ledger and not in the journal: {BUS}, on day 19730, 2024-01-08, at second 25200"


def audit(folder, ledger="ledger", journal="journal", fares=RUN[1], more=()):
    given = ["--ledger", os.path.join(folder, ledger)] if ledger else []
    return run(["audit", fares, RUN[2], "--journal", os.path.join(folder, journal), *given, *more])


def differs(*lines, more=""):
    """What an audit comes to that finds these differences, with further lines after them."""
    return End(1, "".join(f"farebox: {line}\n" for line in lines).encode() + more.encode())


def all_files(folder):
    """What each file there has, but for the log of a ledger, which is copied into its file when it is opened."""
    return {
        name: bytes_of(os.path.join(folder, name))
        for name in sorted(os.listdir(folder))
        if not name.endswith(("-wal", "-shm"))
    }


class Audits(Theme):
    def test_what_is_not_settled(self):
        """A late tap, credit or account of a week that was closed is told, and the close that settles it, until that is
        done."""
        def later(*lines):
            """More lines of the journal, without a ledger."""
            return run([*RUN, "--journal", os.path.join(self.folder, "journal")], in_lines(lines))

        self.check(
            "a first close",
            session_over(self.folder, [BUS, "CLOSE 19730"]),
            answers(b"OK 19730 175 175\n" + PAID + DONE),
        )
        self.check("settled", audit(self.folder), answers(b""))
        self.check("a late tap", later(f"TAP 1 2 7 {SEVEN + 7200} 50 BUS"), answers(b"OK 19730 350 350\n"))
        self.check(
            "not settled",
            audit(self.folder),
            answers(b"UNSETTLED 7 19730 19730 350 175 2024-01-08 2024-01-08\nCLOSE 19730\n"),
        )
        self.check("an account that was not posted", later(f"TAP 1 1 8 {SEVEN} 50 BUS"), answers(b"OK 19730 175 175\n"))
        self.check(
            "a tap of a day that is not closed",
            later(f"TAP 1 3 7 {SEVEN + A_DAY} 50 BUS"),
            answers(b"OK 19731 175 525\n"),
        )
        self.check(
            "and of a week that is not closed",
            later(f"TAP 1 4 7 {SEVEN + 7 * A_DAY} 50 BUS"),
            answers(b"OK 19737 175 175\n"),
        )
        before = all_files(self.folder)
        told = audit(self.folder)
        self.check(
            "two are not settled",
            told,
            answers(
                b"UNSETTLED 7 19730 19730 350 175 2024-01-08 2024-01-08\n"
                b"UNSETTLED 8 19730 19730 175 0 2024-01-08 2024-01-08\nCLOSE 19730\n"
            ),
        )
        self.check("nothing is changed", answers(repr(all_files(self.folder)).encode()), answers(repr(before).encode()))
        closes = [line for line in told.output.decode().splitlines() if line.startswith("CLOSE")]
        self.check(
            "its closes",
            session_over(self.folder, closes),
            answers(b"PAY 7 19730 19730 4 350 175 4=175\nPAY 8 19730 19730 1 175 175 4=175\nDONE 19730 2\n"),
        )
        self.check("settled by them", audit(self.folder), answers(b""))
        # A credit of a week that is closed through Sunday, and one of the week after, which is closed through its
        # Tuesday.
        self.check(
            "two more closes",
            session_over(self.folder, ["CLOSE 19736", "CLOSE 19738"]),
            answers(
                b"PAY 7 19730 19736 4 525 175 4=175\nPAY 8 19730 19736 1 175 0\nDONE 19736 2\n"
                b"PAY 7 19737 19738 4 175 175 4=175\nDONE 19738 1\n"
            ),
        )
        self.check(
            "late credits",
            later("FIX 1 1 7 CREDIT 19730 100", "FIX 1 2 7 CREDIT 19738 200", "FIX 1 1 8 CREDIT 19737 1"),
            answers(b"OK 19730 350 525\nOK 19738 0 175\nOK 19737 0 0\n"),
        )
        self.check(
            "what they are",
            audit(self.folder),
            answers(
                b"UNSETTLED 7 19730 19736 425 525 2024-01-08 2024-01-14\n"
                b"UNSETTLED 7 19737 19738 0 175 2024-01-15 2024-01-16\nCLOSE 19736\nCLOSE 19738\n"
            ),
        )
        self.check("a voided tap", later("FIX 1 3 7 VOID 1 4"), answers(b"OK 19737 0 0\n"))
        self.check(
            "of the tap nothing is due",
            audit(self.folder),
            answers(
                b"UNSETTLED 7 19730 19736 425 525 2024-01-08 2024-01-14\n"
                b"UNSETTLED 7 19737 19738 0 175 2024-01-15 2024-01-16\nCLOSE 19736\nCLOSE 19738\n"
            ),
        )
        self.check("without the ledger", audit(self.folder, ledger=None), answers(b""))

    def test_shares_that_move(self):
        """An amount that falls to another operator alone is not settled until that is posted: what is due and what was
        posted are equal."""
        def later(*lines):
            return run([*RUN, "--journal", os.path.join(self.folder, "journal")], in_lines(lines))

        self.check(
            "an In alone",
            session_over(self.folder, [f"TAP 1 1 7 {SEVEN} 10 IN", "CLOSE 19730"]),
            answers(b"OK 19730 860 860\nPAY 7 19730 19730 1 860 860 1=860\nDONE 19730 1\n"),
        )
        self.check("settled", audit(self.folder), answers(b""))
        self.check("its Out", later(f"FIX 3 1 7 FILL {SEVEN + 1800} 12 OUT"), answers(b"OK 19730 340 340\n"))
        self.check(
            "less is due",
            audit(self.folder),
            answers(b"UNSETTLED 7 19730 19730 340 860 2024-01-08 2024-01-08\nCLOSE 19730\n"),
        )
        # The Out alone is 860 too, and falls to operator 2.
        self.check("no In", later("FIX 3 2 7 VOID 1 1"), answers(b"OK 19730 860 860\n"))
        told = audit(self.folder)
        self.check(
            "as much is due",
            told,
            answers(b"UNSETTLED 7 19730 19730 860 860 2024-01-08 2024-01-08\nCLOSE 19730\n"),
        )
        self.check(
            "its close",
            session_over(self.folder, ["CLOSE 19730"]),
            answers(b"PAY 7 19730 19730 3 860 0 1=-860 2=860\nDONE 19730 1\n"),
        )
        self.check("settled by it", audit(self.folder), answers(b""))

    def test_what_is_not_closed(self):
        """A week with days that no close has reached is told, and its Sunday, up to the last day that was closed of any
        week, until these are closed."""
        def later(*lines):
            return run([*RUN, "--journal", os.path.join(self.folder, "journal")], in_lines(lines))

        friday, tuesday = SEVEN + 4 * A_DAY, SEVEN + 8 * A_DAY
        self.check(
            "three days, of which none is closed",
            later(BUS, f"TAP 1 1 8 {friday} 50 BUS", f"TAP 1 2 7 {tuesday} 50 BUS"),
            answers(b"OK 19730 175 175\nOK 19734 175 175\nOK 19738 175 175\n"),
        )
        self.check(
            "a close of the second week",
            session_over(self.folder, ["CLOSE 19738"]),
            answers(b"PAY 7 19737 19738 2 175 175 4=175\nDONE 19738 1\n"),
        )
        self.check(
            "two accounts of the first", audit(self.folder), answers(b"UNCLOSED 19730 2 2024-01-08\nCLOSE 19736\n")
        )
        # Through Tuesday account 8 has nothing, and is not quoted.
        self.check(
            "a close of its Tuesday",
            session_over(self.folder, ["CLOSE 19731"]),
            answers(b"PAY 7 19730 19731 2 175 175 4=175\nDONE 19731 1\n"),
        )
        self.check("account 8 is left", audit(self.folder), answers(b"UNCLOSED 19730 1 2024-01-08\nCLOSE 19736\n"))
        # A late tap of account 7, two hours after its first; and in the week from 19716 on a Fill that was withdrawn,
        # and a Credit alone, which no close quotes. After Tuesday 19738 no day is known to be over.
        self.check(
            "more lines",
            later(
                f"TAP 1 3 7 {SEVEN + 7200} 50 BUS",
                f"FIX 3 1 9 FILL {SEVEN - 14 * A_DAY} 50 BUS",
                "FIX 3 2 9 DROP 3 1",
                "FIX 3 1 10 CREDIT 19717 100",
                f"TAP 1 1 10 {SEVEN + 9 * A_DAY} 50 BUS",
            ),
            answers(b"OK 19730 350 350\nOK 19716 175 175\nOK 19716 0 0\nOK 19717 0 0\nOK 19739 175 175\n"),
        )
        told = audit(self.folder)
        self.check(
            "all that is open",
            told,
            answers(
                b"UNSETTLED 7 19730 19731 350 175 2024-01-08 2024-01-09\n"
                b"UNCLOSED 19716 1 2023-12-25\nUNCLOSED 19730 1 2024-01-08\n"
                b"CLOSE 19722\nCLOSE 19731\nCLOSE 19736\n"
            ),
        )
        closes = [line for line in told.output.decode().splitlines() if line.startswith("CLOSE")]
        self.check(
            "its closes",
            session_over(self.folder, closes),
            answers(
                b"PAY 9 19716 19722 2 0 0\nDONE 19722 1\nPAY 7 19730 19731 3 350 175 4=175\nDONE 19731 1\n"
                b"PAY 7 19730 19736 3 350 0\nPAY 8 19730 19736 1 175 175 4=175\nDONE 19736 2\n"
            ),
        )
        self.check("closed by them", audit(self.folder), answers(b""))

    def test_what_differs(self):
        """Each account that differs is told, and what stands beside the journal; the status tells it."""
        journal = os.path.join(self.folder, "journal")
        lines = [BUS, f"TAP 1 1 8 {SEVEN} 50 BUS", f"TAP 1 2 8 {SEVEN + 7200} 50 BUS", "CLOSE 19730"]
        paid = PAID + b"PAY 8 19730 19730 2 350 350 4=350\nDONE 19730 2\n"
        self.check(
            "a first close",
            session_over(self.folder, lines),
            answers(b"OK 19730 175 175\nOK 19730 175 175\nOK 19730 350 350\n" + paid),
        )
        first = copied_ledger(self.folder, "first")
        self.check(
            "a late tap",
            session_over(self.folder, [f"TAP 1 2 7 {SEVEN + 7200} 50 BUS", "CLOSE 19730"]),
            answers(
                b"OK 19730 350 350\nPAY 7 19730 19730 2 350 175 4=175\n"
                b"PAY 8 19730 19730 2 350 350 4=350\nDONE 19730 2\n"
            ),
        )
        self.check(
            "an older ledger",
            audit(self.folder, ledger=first),
            differs(
                f"another or an older ledger than the journal's: no posting of account 7 for {OF_MONDAY}",
                more="UNSETTLED 7 19730 19730 350 175 2024-01-08 2024-01-08\nCLOSE 19730\n",
            ),
        )
        whole = bytes_of(journal)
        dearer = written(self.folder, "dearer.toml", quiet().replace(b"bus = 175", b"bus = 176"))
        self.check(
            "other fares",
            audit(self.folder, fares=dearer),
            differs(
                "other fares than the journal's on day 4, 1970-01-05: rules.bus; "
                "account 7 travelled on day 19730, 2024-01-08",
                f"account 7 was posted otherwise for {OF_MONDAY}",
                f"account 8 was posted otherwise for {OF_MONDAY}",
                more="UNSETTLED 7 19730 19730 352 350 2024-01-08 2024-01-08\n"
                "UNSETTLED 8 19730 19730 352 350 2024-01-08 2024-01-08\nCLOSE 19730\n",
            ),
        )
        edition = written(self.folder, "edition.toml", an_edition(19737, 180))
        self.check("an edition of next week", audit(self.folder, fares=edition), answers(b""))
        # Lines that are lost of both accounts; of account 8 all.
        written(
            self.folder,
            "journal",
            b"".join(line + b"\n" for line in whole.splitlines() if line.startswith(b"TAP 1 2 7")),
        )
        self.check(
            "lines that are lost",
            audit(self.folder),
            differs(
                LOST,
                f"in the ledger and not in the journal: TAP 1 1 8 {SEVEN} 50 BUS, "
                "on day 19730, 2024-01-08, at second 25200",
                more="UNSETTLED 7 19730 19730 175 350 2024-01-08 2024-01-08\nCLOSE 19730\n",
            ),
        )
        self.check("lines that are lost, without the ledger", audit(self.folder, ledger=None), answers(b""))
        written(self.folder, "journal", whole + f"TAP 1 1 7 {SEVEN + 1} 50 BUS\n".encode())
        self.check("a line that is not accepted", audit(self.folder), fault(f"{journal} line 5: 20 Conflict"))
        written(self.folder, "journal", whole)
        self.check("no such ledger", audit(self.folder, ledger="none"), fault("no such ledger"))
        self.check("it is not made", answers(bytes_of(os.path.join(self.folder, "none"))), answers(None))
        self.check("no such journal", audit(self.folder, journal="none"), fault("cannot use journal"))
        self.check("no such fare file", audit(self.folder, fares=MISSING), fault("cannot read fares"))
        written(self.folder, "journal.posted", b"7\n")
        self.check("what is no note", audit(self.folder), fault("cannot read the journal's last posting"))

    def test_of_services(self):
        """The journals of a service are those of its folder; one may be missing or empty, and a folder without any is
        none of a service."""
        journals, ledger = new_folder(self.folder), os.path.join(self.folder, "ledger")
        more = with_both(journals, ledger)
        with serving(1, 2, 1, more=more) as (ran, port, said):
            talk(port, in_lines([BUS, f"TAP 1 1 8 {SEVEN} 50 BUS", "QUIT"]))
            self.check(
                "its close",
                ended(ran, said),
                closed(port, 1, PAID + b"PAY 8 19730 19730 1 175 175 4=175\nDONE 19730 2\n"),
            )
        before = all_files(journals)
        self.check("settled", audit(self.folder, journal="journals"), answers(b""))
        of_seven = next(name for name, text in before.items() if text == f"{BUS}\n".encode())
        written(journals, of_seven, f"{BUS}\nTAP 1 2 7 {SEVEN + 7200} 50 BUS\n".encode())
        self.check(
            "a late tap",
            audit(self.folder, journal="journals"),
            answers(b"UNSETTLED 7 19730 19730 350 175 2024-01-08 2024-01-08\nCLOSE 19730\n"),
        )
        os.remove(os.path.join(journals, of_seven))
        self.check("a journal that is lost", audit(self.folder, journal="journals"), differs(LOST))
        self.check("it is not made", answers(bytes_of(os.path.join(journals, of_seven))), answers(None))
        written(journals, of_seven, f"{BUS}\nTAP 1 1 7 {SEVEN + 1} 50 BUS\n".encode())
        self.check(
            "a line that is not accepted",
            audit(self.folder, journal="journals"),
            fault(f"{journals}/{of_seven} line 2: 20 Conflict"),
        )
        new_folder(self.folder, "empty")
        for name, more in (("an empty folder", None), ("an empty folder and a ledger", "ledger")):
            self.check(name, audit(self.folder, ledger=more, journal="empty"), fault("cannot use journal"))
        written(self.folder, os.path.join("empty", "15.lines"), b"")
        self.check("a folder with one empty journal", audit(self.folder, ledger=None, journal="empty"), answers(b""))

    def test_a_lost_journal(self):
        """The lines of all that a ledger archives; as a journal they are taken with it, and the next close changes
        nothing."""
        lines = [
            f"TAP 2 1 8 {SEVEN} 50 BUS", BUS, f"TAP 1 2 7 {SEVEN + 7200} 50 BUS",
            f"FIX 3 1 7 FILL {SEVEN + 3600} 50 BUS", "FIX 3 2 7 VOID 1 2",
            "FIX 3 3 7 CREDIT 19730 10", "FIX 3 4 7 DROP 3 3", "FIX 3 1 9 VOID 1 1",
        ]
        came = session_over(self.folder, [*lines, "CLOSE 19730"])
        posted = came.output[came.output.index(b"PAY"):]
        self.check("the close", came._replace(output=posted.split(b" 19730 ")[0]), answers(b"PAY 7"))
        ledger = os.path.join(self.folder, "ledger")
        # By account, of each its taps and then its corrections, by their numbers. Account 9 travelled nowhere, so it
        # was not closed.
        wanted = in_lines([
            BUS, f"TAP 1 2 7 {SEVEN + 7200} 50 BUS", f"FIX 3 1 7 FILL {SEVEN + 3600} 50 BUS", "FIX 3 2 7 VOID 1 2",
            "FIX 3 3 7 CREDIT 19730 10", "FIX 3 4 7 DROP 3 3", f"TAP 2 1 8 {SEVEN} 50 BUS",
        ])
        given = run(["rebuild", RUN[1], ledger])
        self.check("its lines", given, answers(wanted))
        later = f"TAP 1 9 7 {SEVEN + 90_000} 50 BUS"
        self.check(
            "a tap that is not closed",
            run([*RUN, "--journal", os.path.join(self.folder, "journal")], in_lines([later]))._replace(output=b""),
            answers(b""),
        )
        self.check("is not there", run(["rebuild", RUN[1], ledger]), answers(wanted))
        for name in ("journal", "journal.fares", "journal.posted"):
            os.remove(os.path.join(self.folder, name))
        self.check(
            "as a journal it is taken",
            session_over(self.folder, [], journal="again"),
            fault("ledger without its journal"),
        )
        written(self.folder, "again", given.output)
        self.check("the close once more", session_over(self.folder, ["CLOSE 19730"], journal="again"), answers(posted))
        self.check("and belongs to the ledger", audit(self.folder, journal="again"), answers(b""))
        self.check(
            "no such ledger", run(["rebuild", RUN[1], os.path.join(self.folder, "none")]), fault("no such ledger")
        )
        self.check("it is not made", answers(bytes_of(os.path.join(self.folder, "none"))), answers(None))
        shutil.copyfile(os.path.join(self.folder, "again"), os.path.join(self.folder, "text"))
        self.check("no ledger", run(["rebuild", RUN[1], os.path.join(self.folder, "text")]), fault("40 NotALedger"))

    def test_nothing_is_made(self):
        """A database without a ledger, and a file of one byte, stay as they are, and so does a path without a file: no
        audit makes a ledger, and no rebuild."""
        written(self.folder, "journal", f"{BUS}\n".encode())
        written(self.folder, "byte", b"\0")
        others_database(
            os.path.join(self.folder, "notes"),
            "CREATE TABLE notes (text TEXT)",
            "INSERT INTO notes VALUES ('as it was')",
        )
        others_database(os.path.join(self.folder, "bare"), "CREATE TABLE notes (text TEXT)", "DROP TABLE notes")
        before, there = all_files(self.folder), sorted(os.listdir(self.folder))
        for name, ledger, wanted in (
            ("no file", "none", "no such ledger"), ("a byte", "byte", "no such ledger"),
            ("a database of others", "notes", "40 NotALedger"), ("one without tables", "bare", "40 NotALedger"),
        ):
            self.check(f"an audit of {name}", audit(self.folder, ledger=ledger), fault(wanted))
            self.check(
                f"a rebuild of {name}", run(["rebuild", RUN[1], os.path.join(self.folder, ledger)]), fault(wanted)
            )
            self.check(
                f"after {name} all is there",
                answers(repr(all_files(self.folder)).encode()),
                answers(repr(before).encode()),
            )
            self.check(
                f"and no more after {name} but logs",
                answers(repr(sorted(it for it in os.listdir(self.folder) if not it.endswith("-wal"))).encode()),
                answers(repr(there).encode()),
            )
        # A session may still make its ledger there.
        self.check(
            "a session over the database of others",
            session_over(self.folder, ["CLOSE 19730"], ledger="notes"),
            answers(PAID + DONE),
        )
        self.check("then it is audited", audit(self.folder, ledger="notes"), answers(b""))
        self.check(
            "and rebuilt",
            run(["rebuild", RUN[1], os.path.join(self.folder, "notes")]),
            answers(f"{BUS}\n".encode()),
        )
