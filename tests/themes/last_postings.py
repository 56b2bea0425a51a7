"""The last posting that is noted beside journals, ledgers that lack it, notes that lag, days that are not over, and
closes that are refused."""

import os
import stat
import time

from support.journals import new_folder, with_both
from support.ledgers import DONE, PAID, copied_ledger, session_over
from support.running import (
    A_DAY, MONDAY, RUN, SEVEN, End, answers, bytes_of, dated, fault, heard, in_lines, run, started, written
)
from support.serving import closed, ended, failed, free_ports, serving, talk, words_of
from support.theme import Theme

BUS = f"TAP 1 1 7 {SEVEN} 50 BUS"
# On Tuesday a boarding of 1.75 more, and the close: the second posting of a ledger that Monday was closed into.
TUESDAY = [f"TAP 1 2 7 {SEVEN + A_DAY} 50 BUS", "CLOSE 19731"]
AFTER_MONDAY = b"PAY 7 19730 19731 2 350 175 4=175\nDONE 19731 1\n"

CANNOT_READ = fault("cannot read the journal's last posting")


def lacks(account, week, through):
    posting = f"account {account} for the week from {dated(week)}, through {dated(through)}"
    return fault(f"another or an older ledger than the journal's: no posting of {posting}")


def refused(day, why, output):
    return fault(f"close of {dated(day)} refused: {why}", output)


NOT_OVER = "it is not over (see --early)"


class LastPostings(Theme):
    def first_close(self):
        """One boarding on Monday, and Monday's close: the ledger's first posting."""
        self.check(
            "a first close",
            session_over(self.folder, [BUS, "CLOSE 19730"]),
            answers(b"OK 19730 175 175\n" + PAID + DONE),
        )

    def test_what_is_noted(self):
        """The last posting that a close has made, as five numbers; an older ledger than it is refused, and nothing is
        changed."""
        noted = os.path.join(self.folder, "journal.posted")
        self.first_close()
        self.check("what is noted", answers(bytes_of(noted)), answers(b"7 19730 19730 1 1\n"))
        self.check("who may read it", answers(oct(stat.S_IMODE(os.stat(noted).st_mode)).encode()), answers(b"0o600"))
        monday = copied_ledger(self.folder, "monday")
        self.check("the close once more", session_over(self.folder, ["CLOSE 19730"]), answers(PAID + DONE))
        self.check("what is noted then", answers(bytes_of(noted)), answers(b"7 19730 19730 1 1\n"))
        # Another account on that day, and then a late tap of the first one: the last posting of the reply is not the
        # new one.
        lines, eight = [f"TAP 1 1 8 {SEVEN} 50 BUS", "CLOSE 19730"], b"PAY 8 19730 19730 1 175 175 4=175\n"
        self.check(
            "another account",
            session_over(self.folder, lines),
            answers(b"OK 19730 175 175\n" + PAID + eight + b"DONE 19730 2\n"),
        )
        self.check("what is noted of two", answers(bytes_of(noted)), answers(b"8 19730 19730 1 2\n"))
        both = copied_ledger(self.folder, "both")
        lines, later = [f"TAP 1 2 7 {SEVEN + 7200} 50 BUS", "CLOSE 19730"], b"PAY 7 19730 19730 2 350 175 4=175\n"
        self.check(
            "a late tap",
            session_over(self.folder, lines),
            answers(b"OK 19730 350 350\n" + later + eight + b"DONE 19730 2\n"),
        )
        self.check("what is noted of the late tap", answers(bytes_of(noted)), answers(b"7 19730 19730 2 3\n"))
        # Ledgers of before, by which the same taps would be posted again.
        kept = {
            name: bytes_of(os.path.join(self.folder, name))
            for name in ("journal", "journal.posted", "journal.fares", monday, both)
        }
        for name in (monday, both):
            self.check(
                f"an older ledger, {name}",
                session_over(self.folder, ["CLOSE 19730"], ledger=name),
                lacks(7, 19730, 19730),
            )
        self.check("another ledger", session_over(self.folder, [], ledger="elsewhere", journal="other"), answers(b""))
        kept["elsewhere"] = bytes_of(os.path.join(self.folder, "elsewhere"))
        self.check(
            "a ledger of another journal",
            session_over(self.folder, ["CLOSE 19730"], ledger="elsewhere"),
            lacks(7, 19730, 19730),
        )
        self.check(
            "a new ledger",
            session_over(self.folder, ["CLOSE 19730"], ledger="new"),
            fault("a new ledger beside a journal that had one"),
        )
        self.check("it is not made", answers(bytes_of(os.path.join(self.folder, "new"))), answers(None))
        for name, text in kept.items():
            self.check(f"then {name}", answers(bytes_of(os.path.join(self.folder, name))), answers(text))
        self.check(
            "without a ledger",
            run([*RUN, "--journal", os.path.join(self.folder, "journal")], b"DUE 7 19730\n"),
            answers(b"DUE 7 19730 19730 2 350 4=350\n"),
        )
        self.check(
            "the right one", session_over(self.folder, ["CLOSE 19730"]), answers(later + eight + b"DONE 19730 2\n")
        )
        # Where nothing is noted, as by an earlier version, the ledger is taken, and its newest posting is noted.
        os.remove(noted)
        self.check(
            "with nothing noted", session_over(self.folder, ["CLOSE 19730"]), answers(later + eight + b"DONE 19730 2\n")
        )
        self.check("what is noted anew", answers(bytes_of(noted)), answers(b"7 19730 19730 2 3\n"))
        self.check(
            "the next day",
            session_over(self.folder, ["CLOSE 19731"]),
            answers(b"PAY 7 19730 19731 2 350 0\nPAY 8 19730 19731 1 175 0\nDONE 19731 2\n"),
        )
        self.check("what is noted of it", answers(bytes_of(noted)), answers(b"8 19730 19731 1 5\n"))

    def test_other_ledgers(self):
        """A ledger that a drill closed through the same day, by a copy of the journal, is refused: it has the posting
        under another number."""
        noted, journal = os.path.join(self.folder, "journal.posted"), os.path.join(self.folder, "journal")
        self.check(
            "Monday", session_over(self.folder, [BUS, "CLOSE 19730"]), answers(b"OK 19730 175 175\n" + PAID + DONE)
        )
        self.check(
            "Tuesday", session_over(self.folder, TUESDAY), answers(b"OK 19731 175 350\n" + AFTER_MONDAY)
        )
        self.check("what is noted", answers(bytes_of(noted)), answers(b"7 19730 19731 2 2\n"))
        # The drill closes both days at once, and so its posting is the first one of its ledger.
        written(self.folder, "copy", bytes_of(journal))
        self.check(
            "the drill",
            session_over(self.folder, ["CLOSE 19731"], ledger="drill", journal="copy"),
            answers(b"PAY 7 19730 19731 2 350 350 4=350\nDONE 19731 1\n"),
        )
        self.check(
            "what is noted of it",
            answers(bytes_of(os.path.join(self.folder, "copy.posted"))),
            answers(b"7 19730 19731 2 1\n"),
        )
        kept = {name: bytes_of(os.path.join(self.folder, name)) for name in ("journal", "journal.posted", "drill")}
        self.check(
            "its ledger", session_over(self.folder, ["CLOSE 19731"], ledger="drill"), lacks(7, 19730, 19731)
        )
        self.check(
            "the ledger for its journal",
            session_over(self.folder, ["CLOSE 19731"], journal="copy"),
            lacks(7, 19730, 19731),
        )
        for name, text in kept.items():
            self.check(f"then {name}", answers(bytes_of(os.path.join(self.folder, name))), answers(text))
        self.check("the right one", session_over(self.folder, ["CLOSE 19731"]), answers(AFTER_MONDAY))

    def test_notes_that_lag(self):
        """A note that lacks the last close, as where the program was killed before it was written, is mended at the
        next start; from then on an older ledger is refused."""
        noted, journal = os.path.join(self.folder, "journal.posted"), os.path.join(self.folder, "journal")
        self.check("no posting", session_over(self.folder, [BUS]), answers(b"OK 19730 175 175\n"))
        self.check("nothing is noted", answers(bytes_of(noted)), answers(None))
        self.check("Monday", session_over(self.folder, ["CLOSE 19730"]), answers(PAID + DONE))
        monday, late = copied_ledger(self.folder, "monday"), bytes_of(noted)
        self.check(
            "Tuesday", session_over(self.folder, TUESDAY), answers(b"OK 19731 175 350\n" + AFTER_MONDAY)
        )
        due = b"DUE 7 19730 19731 2 350 4=350\n"
        for name, text in (("a close behind", late), ("of four numbers", b"7 19730 19730 1\n"), ("none", None)):
            if text is None:
                os.remove(noted)
            else:
                written(self.folder, "journal.posted", text)
            # Where the session does not begin, nothing is written.
            whole = bytes_of(journal)
            written(self.folder, "journal", f"{BUS}\n".encode())
            self.check(
                f"{name}, a journal that has lost a line",
                session_over(self.folder, ["CLOSE 19731"]),
                fault(f"in the ledger and not in the journal: {TUESDAY[0]}, on {dated(19731)}, at second 25200"),
            )
            self.check(f"{name}, what is noted then", answers(bytes_of(noted)), answers(text))
            written(self.folder, "journal", whole)
            with started([*RUN, "--journal", journal, "--ledger", os.path.join(self.folder, "ledger")]) as ran:
                ran.stdin.write(b"DUE 7 19731\n")
                self.check(f"{name}, the first line", answers(heard(ran.stdout, len(due))), answers(due))
                self.check(f"{name}, mended by then", answers(bytes_of(noted)), answers(b"7 19730 19731 2 2\n"))
                ran.stdin.close()
                ran.wait()
            self.check(
                f"{name}, Monday's ledger",
                session_over(self.folder, ["CLOSE 19731"], ledger=monday),
                lacks(7, 19730, 19731),
            )
            self.check(f"{name}, the right one", session_over(self.folder, ["CLOSE 19731"]), answers(AFTER_MONDAY))

    def test_old_notes(self):
        """A note of four numbers, as an earlier version wrote it, is taken, and is one of five after the start."""
        noted = os.path.join(self.folder, "journal.posted")
        self.first_close()
        written(self.folder, "journal.posted", b"7 19730 19730 1\n")
        self.check("a start", session_over(self.folder, []), answers(b""))
        self.check("what is noted", answers(bytes_of(noted)), answers(b"7 19730 19730 1 1\n"))

    def test_what_is_no_note(self):
        """A text that notes no posting bars a start with a ledger, and all stays as it is."""
        noted = os.path.join(self.folder, "journal.posted")
        self.first_close()
        for name, text in (
            ("nothing", b""), ("no newline", b"7 19730 19730 1"), ("two newlines", b"7 19730 19730 1\n\n"),
            ("a zero before", b"7 19730 19730 01\n"),
            ("a sign", b"+7 19730 19730 1\n"), ("three numbers", b"7 19730 19730\n"),
            ("six numbers", b"7 19730 19730 1 1 1\n"), ("two spaces", b"7  19730 19730 1\n"),
            ("a number that is too long", b"4294967296 19730 19730 1\n"), ("a word", b"seven 19730 19730 1\n"),
            ("a fifth number with a zero before", b"7 19730 19730 1 01\n"),
            ("one with a sign", b"7 19730 19730 1 +1\n"), ("no fifth number", b"7 19730 19730 1 \n"),
            ("one that is too long", b"7 19730 19730 1 9223372036854775808\n"),
            ("no UTF-8", b"7 19730 19730 1\xff\n"),
        ):
            written(self.folder, "journal.posted", text)
            self.check(name, session_over(self.folder, ["CLOSE 19730"]), CANNOT_READ)
            self.check(f"{name}, then", answers(bytes_of(noted)), answers(text))
        for name, text, wanted in (
            ("another account", b"8 19730 19730 1\n", lacks(8, 19730, 19730)),
            ("another week", b"7 19737 19730 1\n", lacks(7, 19737, 19730)),
            ("another day", b"7 19730 19731 1\n", lacks(7, 19730, 19731)),
            ("another version", b"7 19730 19730 2\n", lacks(7, 19730, 19730)),
            ("another number", b"7 19730 19730 1 2\n", lacks(7, 19730, 19730)),
            ("a number below 0", b"7 19730 19730 1 -1\n", lacks(7, 19730, 19730)),
        ):
            written(self.folder, "journal.posted", text)
            self.check(name, session_over(self.folder, ["CLOSE 19730"]), wanted)
        os.remove(noted)
        os.mkdir(noted)
        self.check("a folder", session_over(self.folder, ["CLOSE 19730"]), CANNOT_READ)
        os.rmdir(noted)
        os.mkfifo(noted)
        self.check("a pipe", session_over(self.folder, ["CLOSE 19730"]), CANNOT_READ)
        os.remove(noted)
        # Where it cannot be written the day is closed all the same; that is reported, and the status tells it. So it is
        # at a start.
        written(self.folder, "journal.posted", b"7 19730 19730 1 1\n")
        os.mkdir(f"{noted}.tmp")
        came = session_over(self.folder, [f"TAP 1 2 7 {SEVEN + 7200} 50 BUS", "CLOSE 19730", "DUE 7 19730"])
        self.check(
            "it cannot be written",
            came,
            fault(
                f"cannot note the last posting in {os.path.realpath(noted)}",
                b"OK 19730 350 350\nPAY 7 19730 19730 2 350 175 4=175\nDONE 19730 1\nDUE 7 19730 19730 2 350 4=350\n",
            ),
        )
        self.check("what is noted stays", answers(bytes_of(noted)), answers(b"7 19730 19730 1 1\n"))
        due = b"DUE 7 19730 19730 2 350 4=350\n"
        self.check(
            "it cannot be written at a start",
            session_over(self.folder, ["DUE 7 19730"]),
            fault(f"cannot note the last posting in {os.path.realpath(noted)}", due),
        )
        os.rmdir(f"{noted}.tmp")
        self.check("it can be written", session_over(self.folder, ["DUE 7 19730"]), answers(due))
        self.check("what is noted then", answers(bytes_of(noted)), answers(b"7 19730 19730 2 2\n"))

    def test_ledgers_in_their_place(self):
        """A ledger in the place of what is written beside a journal, or where that is written first, is refused, and
        none is made."""
        names = ("journal.posted", "journal.fares", "journal.posted.tmp", "journal.fares.tmp")
        for name in names:
            self.check(
                f"a first session with {name}",
                session_over(self.folder, [BUS, "CLOSE 19730"], ledger=name),
                fault("43 Store"),
            )
            self.check(f"{name} is not made", answers(bytes_of(os.path.join(self.folder, name))), answers(None))
        self.first_close()
        os.symlink(self.folder, os.path.join(self.folder, "again"))
        kept = {name: bytes_of(os.path.join(self.folder, name)) for name in ("journal", *names)}
        for name in names:
            # Of what is not there, that the journal had a ledger is said first.
            why = "a new ledger beside a journal that had one" if name == "journal.posted.tmp" else "43 Store"
            for way in (name, os.path.join("again", name), os.path.join(".", name)):
                self.check(
                    f"{way}",
                    session_over(self.folder, [f"TAP 1 2 7 {SEVEN + 7200} 50 BUS", "CLOSE 19730"], ledger=way),
                    fault(why),
                )
        for name, text in kept.items():
            self.check(f"then {name}", answers(bytes_of(os.path.join(self.folder, name))), answers(text))
        journals = new_folder(self.folder, "journals")
        for name in ("all.posted", "all.fares", "all.posted.tmp", "all.fares.tmp"):
            ledger = os.path.join(journals, name)
            self.check(
                f"a service with {name}",
                run([*words_of(free_ports(1), 1, 2), *with_both(journals, ledger)]),
                fault("43 Store"),
            )
            self.check(f"{name} is not made", answers(bytes_of(ledger)), answers(None))

    def test_links_in_the_way(self):
        """A link where a note is written first is not followed: what it leads to stays."""
        noted, other = os.path.join(self.folder, "journal.posted"), os.path.join(self.folder, "other")
        written(self.folder, "other", b"another's")
        os.symlink(other, f"{noted}.tmp")
        os.symlink(other, os.path.join(self.folder, "journal.fares.tmp"))
        self.check(
            "a close", session_over(self.folder, [BUS, "CLOSE 19730"]), answers(b"OK 19730 175 175\n" + PAID + DONE)
        )
        self.check("what is noted", answers(bytes_of(noted)), answers(b"7 19730 19730 1 1\n"))
        self.check("what the links lead to", answers(bytes_of(other)), answers(b"another's"))
        self.check(
            "they are gone",
            answers(repr(sorted(it for it in os.listdir(self.folder) if it.endswith(".tmp"))).encode()),
            answers(b"[]"),
        )

    def test_days_that_are_not_over(self):
        """A day that is not over by the clock is not closed into a ledger in a file, unless that is asked for."""
        utc = ["run", RUN[1], "UTC0"]
        words = [*utc, "--ledger", os.path.join(self.folder, "ledger")]
        # The service day now, which begins at 04:30; should it end while this runs, the checks are those of the one
        # after.
        today = int(time.time() + 60 - 16_200) // A_DAY
        later = [f"CLOSE {today + 1}", "CLOSE 50000"]
        lines = in_lines([f"CLOSE {today - 1}", *later, "DUE 7 19730"])
        done = f"DONE {today - 1} 0\n".encode()
        errors = "".join(f"farebox: close of {dated(day)} refused: {NOT_OVER}\n" for day in (today + 1, 50000)).encode()
        self.check(
            "days to come",
            run(words, lines),
            End(1, done + b"NO 49 NotOver\nNO 49 NotOver\nDUE 7 19730 19730 0 0\n", errors),
        )
        self.check("today", run(words, f"CLOSE {today}\n".encode()), refused(today, NOT_OVER, b"NO 49 NotOver\n"))
        self.check(
            "today, early", run([*words, "--early"], f"CLOSE {today}\n".encode()), answers(f"DONE {today} 0\n".encode())
        )
        self.check("in memory", run(utc, b"CLOSE 50000\n"), answers(b"DONE 50000 0\n"))
        self.check("in memory, early", run([*utc, "--early"], b"CLOSE 50000\n"), answers(b"DONE 50000 0\n"))
        # West of Greenwich a day ends later: at 04:30 of a clock that is 24 hours behind, as a zone may be.
        west = ["run", RUN[1], "WST24", "--ledger", os.path.join(self.folder, "western")]
        self.check(
            "yesterday in the west",
            run(west, f"CLOSE {today - 1}\n".encode()),
            refused(today - 1, NOT_OVER, b"NO 49 NotOver\n"),
        )
        self.check(
            "the day before in the west",
            run(west, f"CLOSE {today - 2}\n".encode()),
            answers(f"DONE {today - 2} 0\n".encode()),
        )

    def test_refused_closes(self):
        """A close into a ledger in a file that is refused is reported with an account, and the status tells it after
        the last line."""
        lines = [BUS, "CLOSE 19731", "CLOSE 19730", "DUE 7 19730"]
        output = b"OK 19730 175 175\nPAY 7 19730 19731 1 175 175 4=175\nDONE 19731 1\n"
        output += b"NO 42 StaleQuote\nDUE 7 19730 19730 1 175 4=175\n"
        why = "42 StaleQuote: account 7 was posted through day 19731, 2024-01-09"
        self.check("in memory", run(RUN, in_lines(lines)), answers(output))
        self.check(
            "in a file",
            run([*RUN, "--ledger", os.path.join(self.folder, "alone")], in_lines(lines)),
            refused(19730, why, output),
        )
        self.check("with a journal", session_over(self.folder, lines), refused(19730, why, output))
        self.check(
            "and QUIT",
            session_over(self.folder, ["CLOSE 19730", "QUIT"]),
            refused(19730, why, b"NO 42 StaleQuote\nBYE\n"),
        )

    def test_of_services(self):
        """The same of a service: its last posting is noted in the folder, an older ledger and that of a drill take no
        port, and a note that lags is mended."""
        journals = new_folder(self.folder, "journals")
        ledger, noted = os.path.join(self.folder, "ledger"), os.path.join(journals, "all.posted")
        more = with_both(journals, ledger)
        with serving(1, 2, 1, more=more) as (ran, port, said):
            talk(port, in_lines([BUS, "QUIT"]))
            self.check("Monday", ended(ran, said), closed(port, 1, PAID + DONE))
        self.check("what is noted", answers(bytes_of(noted)), answers(b"7 19730 19730 1 1\n"))
        monday = os.path.join(self.folder, copied_ledger(self.folder, "monday"))
        with serving(1, 2, 1, close=MONDAY + 1, more=more) as (ran, port, said):
            talk(port, in_lines([TUESDAY[0], "QUIT"]))
            self.check("Tuesday", ended(ran, said), closed(port, 1, AFTER_MONDAY))
        self.check("what is noted then", answers(bytes_of(noted)), answers(b"7 19730 19731 2 2\n"))
        written(self.folder, "copy", in_lines([BUS, TUESDAY[0]]))
        self.check(
            "a drill",
            session_over(self.folder, ["CLOSE 19731"], ledger="drill", journal="copy"),
            answers(b"PAY 7 19730 19731 2 350 350 4=350\nDONE 19731 1\n"),
        )
        older = (("Monday's ledger", monday), ("the drill's ledger", os.path.join(self.folder, "drill")))
        for name, path in older:
            self.check(
                name,
                run([*words_of(free_ports(1), 1, 2, close=MONDAY + 2), *with_both(journals, path)]),
                lacks(7, 19730, 19731),
            )
        self.check("what is noted still", answers(bytes_of(noted)), answers(b"7 19730 19731 2 2\n"))
        # Of an earlier version, and a close behind.
        written(journals, "all.posted", b"7 19730 19730 1\n")
        with serving(1, 2, 1, more=more) as (ran, port, said):
            talk(port, b"QUIT\n")
            why = "42 StaleQuote: account 7 was posted through day 19731, 2024-01-09"
            self.check(
                "Monday once more",
                ended(ran, said),
                failed(port, 1, f"close of day 19730, 2024-01-08 refused: {why}", b"NO 42 StaleQuote\n"),
            )
        self.check("what is noted of the next start", answers(bytes_of(noted)), answers(b"7 19730 19731 2 2\n"))
        self.check(
            "Monday's ledger then",
            run([*words_of(free_ports(1), 1, 2, close=MONDAY + 2), *with_both(journals, monday)]),
            lacks(7, 19730, 19731),
        )
        empty = with_both(new_folder(self.folder, "empty"), os.path.join(self.folder, "other"))
        with serving(1, 2, 1, close=50000, more=empty) as (ran, port, said):
            talk(port, b"QUIT\n")
            self.check(
                "a day to come",
                ended(ran, said),
                failed(port, 1, f"close of day 50000, 2106-11-24 refused: {NOT_OVER}", b"NO 49 NotOver\n"),
            )
        with serving(1, 2, 1, close=50000, more=[*empty, "--early"]) as (ran, port, said):
            talk(port, b"QUIT\n")
            self.check("early", ended(ran, said), closed(port, 1, b"DONE 50000 0\n"))
