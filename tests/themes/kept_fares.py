"""The fare file and the zone that are kept beside journals, and starts with others."""

import os
import stat

from support.fares import an_edition, quiet
from support.journals import keep_beside, text_beside
from support.repository import LONDON
from support.running import (
    A_DAY, FARES, RUN, SEVEN, End, answers, bytes_of, dated, fault, heard, in_lines, limited_to, run, started, written,
)
from support.theme import Theme

BUS = f"TAP 1 1 7 {SEVEN} 50 BUS"
BOARDED = answers(b"OK 19730 175 175\n")
CANNOT_READ, OTHER_ZONE = fault("cannot read the journal's fares"), fault("another zone than the journal's")
PARIS = "CET-1CEST,M3.5.0,M10.5.0/3"


def other(day, key, on, account=7):
    return fault(f"other fares than the journal's on {dated(day)}: {key}; account {account} travelled on {dated(on)}")


def begun(journal, lines, words=RUN, more=(), **how):
    return run([*words, "--journal", journal, *more], in_lines(lines), **how)


class KeptFares(Theme):
    def test_what_is_kept(self):
        """It is the two lines and the fare file, and there before the first line that is accepted is answered."""
        journal = os.path.join(self.folder, "journal")
        beside = f"{journal}.fares"
        with started([*RUN, "--journal", journal], umask=0) as ran:
            ran.stdin.write(in_lines(["DUE 7 19730"]))
            self.check("a question", answers(heard(ran.stdout, 22)), answers(b"DUE 7 19730 19730 0 0\n"))
            self.check("before the first line", answers(bytes_of(beside)), answers(None))
            ran.stdin.write(in_lines([BUS]))
            self.check("the first line", answers(heard(ran.stdout, 17)), BOARDED)
            self.check(
                "once it is answered",
                answers(bytes_of(beside)),
                answers(b"# zone " + LONDON.encode() + b"\n# without a ledger\n" + quiet()),
            )
            self.check(
                "who may read it", answers(oct(stat.S_IMODE(os.stat(beside).st_mode)).encode()), answers(b"0o600")
            )
        self.check("it is a fare file", run(["check", beside]), run(["check", FARES]))
        self.check("it is this one", run(["check", FARES, "--against", beside]), answers(b"OK\n"))
        self.check(
            "the files there",
            answers(" ".join(sorted(os.listdir(self.folder))).encode()),
            answers(b"journal journal.fares"),
        )
        self.check(
            "the next session",
            begun(journal, [BUS, f"TAP 1 2 7 {SEVEN + 3600} 50 BUS"]),
            answers(b"AGAIN 19730 175 175\nOK 19730 175 175\n"),
        )
        # A journal of an earlier version has nothing beside it, and is taken as it is.
        os.remove(beside)
        self.check(
            "with nothing beside it", begun(journal, [BUS], [*RUN[:2], LONDON]), answers(b"AGAIN 19730 175 175\n")
        )
        self.check("nothing is kept for a repeat", answers(bytes_of(beside)), answers(None))

    def test_other_zones_and_texts(self):
        """What is kept with another zone, or is no such text, bars a start, and all stays as it is."""
        journal = os.path.join(self.folder, "journal")
        beside = f"{journal}.fares"
        self.check("the first session", begun(journal, [BUS]), BOARDED)
        has = bytes_of(journal)
        for name, zone in (
            ("of another place", PARIS),
            ("of another name", LONDON.replace("GMT", "WET")),
            ("without summer time", "GMT0"),
        ):
            self.check(f"a zone {name}", begun(journal, ["QUIT"], [*RUN[:2], zone]), OTHER_ZONE)
        for name, text, wanted in (
            ("nothing", b"", OTHER_ZONE), ("a fare file alone", quiet(), OTHER_ZONE),
            ("a zone alone", b"# zone " + LONDON.encode(), OTHER_ZONE),
            ("no word of a ledger", b"# zone " + LONDON.encode() + b"\n" + quiet(), OTHER_ZONE),
            ("a space more", text_beside(RUN).replace(b"\n", b" \n", 1), OTHER_ZONE),
            ("no UTF-8", text_beside(RUN) + b"# \xff\n", CANNOT_READ),
            ("no fare file", text_beside(RUN) + b"=\n", fault("the journal's fares: 10 NotToml")),
            ("an empty fare file", text_beside(RUN)[:-len(quiet())], fault("the journal's fares: 11 MissingKey")),
        ):
            written(self.folder, "journal.fares", text)
            self.check(name, begun(journal, [BUS]), wanted)
            self.check(f"{name}, then", answers(bytes_of(beside)), answers(text))
            # With a ledger too, which is not made.
            ledger = os.path.join(self.folder, "ledger")
            self.check(f"{name}, with a ledger", begun(journal, [BUS], more=["--ledger", ledger]), wanted)
            self.check(f"{name}, the ledger", answers(bytes_of(ledger)), answers(None))
        os.remove(beside)
        os.mkdir(beside)
        self.check("a folder", begun(journal, [BUS]), CANNOT_READ)
        os.rmdir(beside)
        os.mkfifo(beside)
        self.check("a pipe", begun(journal, [BUS]), CANNOT_READ)
        self.check("the journal then", answers(bytes_of(journal)), answers(has))

    def test_other_fares(self):
        """Another fare file is taken where no effective tap shows that it is another, and is kept from the first line
        on."""
        journal = os.path.join(self.folder, "journal")
        beside = f"{journal}.fares"
        files = {name: ["run", written(self.folder, f"{name}.toml", text), LONDON] for name, text in (
            ("dearer", quiet().replace(b"bus = 175", b"bus = 176")), ("monday", an_edition(19730, 176)),
            ("tuesday", an_edition(19731, 176)),
            ("wednesday", an_edition(19732, 176)), ("comment", b"# no other\n" + quiet()),
            (
                "station",
                quiet().replace(b"station = [", b"station = [\n  { place = 15, low = 1, high = 1, operator = 1 },"),
            ),
            ("moved", quiet().replace(b"place = 12, low = 2, high = 2", b"place = 12, low = 1, high = 2")),
            ("holiday", quiet().replace(b"holidays = [19723]", b"holidays = [19723, 19735]")),
            ("hopper", quiet().replace(b"hopper = 3600", b"hopper = 3500")),
        )}
        self.check("the first session", begun(journal, [BUS]), BOARDED)
        first = bytes_of(beside)
        for name, wanted in (
            ("dearer", other(4, "rules.bus", 19730)), ("monday", other(19730, "rules.bus", 19730)),
            ("moved", other(4, "place 12", 19730)),
            ("hopper", other(4, "rules.hopper", 19730)),
            ("tuesday", answers(b"")), ("wednesday", answers(b"")), ("comment", answers(b"")),
            ("station", answers(b"")), ("holiday", answers(b"")),
        ):
            self.check(f"after a tap of Monday, {name}", begun(journal, [], files[name]), wanted)
            self.check(f"after a tap of Monday, {name}, what is kept", answers(bytes_of(beside)), answers(first))
        self.check(
            "a tap of Tuesday by an edition of that day",
            begun(journal, [f"TAP 1 2 7 {SEVEN + A_DAY} 50 BUS"], files["tuesday"]),
            answers(b"OK 19731 176 351\n"),
        )
        self.check("what is kept then", answers(bytes_of(beside)), answers(text_beside(files["tuesday"])))
        for name, wanted in (
            ("tuesday", answers(b"")), ("wednesday", other(19731, "rules.bus", 19731)),
            ("comment", other(19731, "rules.bus", 19731)),
            ("monday", other(19730, "rules.bus", 19730)),
        ):
            self.check(f"after a tap of Tuesday, {name}", begun(journal, [], files[name]), wanted)
        # A tap of Sunday, 2024-01-14, by a clock that is wrong; and that it is voided. Then a Fill of that day.
        late = f"TAP 1 3 7 {SEVEN + 6 * A_DAY} 50 BUS"
        sunday = [
            "run",
            written(
                self.folder,
                "sunday.toml",
                an_edition(19731, 176) + b"\n[[edition]]" + an_edition(19736, 177).split(b"[[edition]]")[1],
            ),
            LONDON,
        ]
        self.check("a tap of Sunday", begun(journal, [late], files["tuesday"]), answers(b"OK 19736 176 527\n"))
        self.check(
            "after a tap of Sunday, an edition of Sunday", begun(journal, [], sunday), other(19736, "rules.bus", 19736)
        )
        self.check(
            "it is voided", begun(journal, ["FIX 1 1 7 VOID 1 3"], files["tuesday"]), answers(b"OK 19736 0 351\n")
        )
        self.check("once it is voided", begun(journal, [], sunday), answers(b""))
        self.check(
            "a Fill of Sunday",
            begun(journal, [f"FIX 1 2 7 FILL {SEVEN + 6 * A_DAY} 50 BUS"], files["tuesday"]),
            answers(b"OK 19736 176 527\n"),
        )
        self.check("after a Fill of Sunday", begun(journal, [], sunday), other(19736, "rules.bus", 19736))
        self.check(
            "it is withdrawn", begun(journal, ["FIX 1 3 7 DROP 1 2"], files["tuesday"]), answers(b"OK 19736 0 351\n")
        )
        self.check(
            "a Credit of Sunday",
            begun(journal, ["FIX 1 4 7 CREDIT 19736 10"], files["tuesday"]),
            answers(b"OK 19736 0 351\n"),
        )
        self.check("after a Credit of Sunday", begun(journal, [], sunday), answers(b""))
        # The way past it.
        os.remove(beside)
        self.check(
            "once what was kept is removed",
            begun(journal, ["DUE 7 19731"], files["dearer"]),
            answers(b"DUE 7 19730 19731 7 352 4=352\n"),
        )

    def test_places(self):
        """A tap at a place that what is kept does not have."""
        journal = written(
            self.folder, "journal", in_lines([f"TAP 1 1 7 {SEVEN} 50 BUS", f"TAP 1 1 8 {SEVEN + A_DAY} 51 BUS"])
        )
        more = [
            "run",
            written(
                self.folder, "more.toml", quiet().replace(b"route = [", b"route = [\n  { place = 51, operator = 4 },")
            ),
            LONDON,
        ]
        keep_beside(journal, RUN)
        self.check("a tap at a new place", begun(journal, [], more), other(19731, "place 51", 19731, 8))
        self.check(
            "once it is voided",
            run([*more, "--journal", written(self.folder, "other", bytes_of(journal) + b"FIX 1 1 8 VOID 1 1\n")]),
            answers(b""),
        )
        keep_beside(os.path.join(self.folder, "other"), RUN)
        self.check(
            "once it is voided, beside the same", begun(os.path.join(self.folder, "other"), [], more), answers(b"")
        )
        self.check(
            "a line that is not accepted comes first", begun(journal, []), fault("journal line 2: 15 UnknownPlace")
        )

    def test_not_written(self):
        """Where it cannot be written no line is kept, and standard error says so at once."""
        journal = os.path.join(self.folder, "journal")
        aside = f"{journal}.fares.tmp"
        os.mkdir(aside)
        told = f"farebox: cannot keep fares in {journal}.fares\nfarebox: journal fault\n".encode()
        wanted = End(1, b"NO 48 NotKept\nNO 48 NotKept\nBYE\n", told)
        self.check("a folder in its place", begun(journal, [BUS, "DUE 7 19730", "QUIT"]), wanted)
        self.check("the journal then", answers(bytes_of(journal)), answers(b""))
        os.rmdir(aside)
        written(self.folder, "journal.fares.tmp", b"left by a crash")
        self.check("what a crash left is written over", begun(journal, [BUS]), BOARDED)
        self.check("what is kept then", answers(bytes_of(f"{journal}.fares")), answers(text_beside(RUN)))
        self.check(
            "the files then",
            answers(" ".join(sorted(os.listdir(self.folder))).encode()),
            answers(b"journal journal.fares"),
        )

    def test_new_ledgers(self):
        """Once a session with a ledger has had the journal, a ledger that is new is refused, and is not made."""
        journal, ledger = os.path.join(self.folder, "journal"), os.path.join(self.folder, "ledger")
        mistyped = os.path.join(self.folder, "legder")
        beside = f"{journal}.fares"
        self.check("without a ledger", begun(journal, [BUS]), BOARDED)
        self.check("what is kept then", answers(bytes_of(beside)), answers(text_beside(RUN)))
        paid = b"PAY 7 19730 19730 1 175 175 4=175\nDONE 19730 1\n"
        with started([*RUN, "--journal", journal, "--ledger", ledger]) as ran:
            self.check("before the close", answers(bytes_of(beside)), answers(text_beside(RUN)))
            ran.stdin.write(b"CLOSE 19730\n")
            self.check("the first close", answers(heard(ran.stdout, len(paid))), answers(paid))
            self.check("once it is answered", answers(bytes_of(beside)), answers(text_beside(RUN, True)))
            ran.stdin.close()
            ran.wait()
        refused = fault("a new ledger beside a journal that had one")
        empty = written(self.folder, "empty", b"")
        byte = written(self.folder, "byte", b"\0")
        moved = os.path.join(self.folder, "moved")
        # The log of a ledger that was moved away stays.
        written(self.folder, "moved-wal", bytes_of(f"{ledger}-wal") or b"\0" * 4_096)
        for name, path in (
            ("a mistyped one", mistyped), ("an empty file", empty), ("a byte", byte), ("a log alone", moved)
        ):
            self.check(name, begun(journal, ["CLOSE 19730"], more=["--ledger", path]), refused)
        self.check("it is not made", answers(bytes_of(mistyped)), answers(None))
        self.check(
            "the journal alone", begun(journal, [f"TAP 1 2 7 {SEVEN + 7200} 50 BUS"]), answers(b"OK 19730 350 350\n")
        )
        self.check("what is kept stays", answers(bytes_of(beside)), answers(text_beside(RUN, True)))
        self.check("a mistyped one after it", begun(journal, ["CLOSE 19730"], more=["--ledger", mistyped]), refused)
        again = b"PAY 7 19730 19730 2 350 175 4=175\nDONE 19730 1\n"
        self.check("its own", begun(journal, ["CLOSE 19730"], more=["--ledger", ledger]), answers(again))
        # A ledger that is meant to begin anew: what is kept of the old one goes, and the posting that is noted.
        os.remove(beside)
        anew = b"PAY 7 19730 19730 2 350 350 4=350\nDONE 19730 1\n"
        self.check("a posting is noted", begun(journal, ["CLOSE 19730"], more=["--ledger", mistyped]), refused)
        os.remove(f"{journal}.posted")
        self.check(
            "one that is meant to be new", begun(journal, ["CLOSE 19730"], more=["--ledger", mistyped]), answers(anew)
        )

    def test_links(self):
        """What is kept stands beside the file to which a link leads."""
        os.mkdir(os.path.join(self.folder, "there"))
        journal, link = os.path.join(self.folder, "there", "journal"), os.path.join(self.folder, "link")
        os.symlink("there/journal", link)
        self.check("by a link", begun(link, [BUS]), BOARDED)
        self.check("what is kept", answers(bytes_of(f"{journal}.fares")), answers(text_beside(RUN)))
        self.check(
            "nothing beside the link",
            answers(" ".join(sorted(os.listdir(self.folder))).encode()),
            answers(b"link there"),
        )
        dearer = ["run", written(self.folder, "dearer.toml", quiet().replace(b"bus = 175", b"bus = 176")), LONDON]
        for name, path in (("the link", link), ("the file", journal)):
            self.check(f"other fares by {name}", begun(path, [], dearer), other(4, "rules.bus", 19730))

    def test_full_disks(self):
        """A disk that has no room for what is to be kept: no line is kept, and what was kept stays."""
        journal = os.path.join(self.folder, "journal")
        dearer = ["run", written(self.folder, "dearer.toml", an_edition(19731, 176)), LONDON]
        self.check("the first session", begun(journal, [BUS]), BOARDED)
        told = f"farebox: cannot keep fares in {journal}.fares\nfarebox: journal fault\n".encode()
        came = begun(journal, [f"TAP 1 2 7 {SEVEN + A_DAY} 50 BUS"], dearer, **limited_to(1_000))
        self.check("without room", came, End(1, b"NO 48 NotKept\n", told))
        self.check("what is kept then", answers(bytes_of(f"{journal}.fares")), answers(text_beside(RUN)))
        self.check(
            "with room", begun(journal, [f"TAP 1 2 7 {SEVEN + A_DAY} 50 BUS"], dearer), answers(b"OK 19731 176 351\n")
        )
        self.check("what is kept in the end", answers(bytes_of(f"{journal}.fares")), answers(text_beside(dearer)))
