"""What `check --lint` says of a fare file and where its fault lies, and whether a file prices days as an old one
does."""

from support.repository import COUNTED, LONDON, SAMPLE, TWO
from support.running import FARES, MISSING, End, answers, dated, edited, fault, read, run, written
from support.theme import Theme

LAST_STATION = "{ place = 14, low = 3, high = 3, operator = 3 },"
LAST_BANDS = """\
  { from = 0, to = 0, day = 540, week = 2500 },
  { from = 1, to = 2, day = 900, week = 4500 },
  { from = 1, to = 3, day = 1060, week = 5300 },
"""
# What is put in the place of what in examples/sample.toml, and what is then warned of.
WARNINGS = (
    ("band = [", "bands = [", ("key bands is not read", "no bands")),
    ("day = 525, week = 2470 }", "day = 525, week = 2470, wek = 1 }", ("at band 1: key wek is not read",)),
    ("day = 525, week = 2470 }", "day = 525, week = 247 }", ("at band 1: week 247 is below day 525",)),
    ("day = 525, week = 2470 }", "day = 525, week = 525 }", ()),
    ("day = 890, week = 4470 }", "day = 0, week = 4470 }", ("at band 2: a cap of 0",)),
    (
        "day = 890, week = 4470 }",
        "day = 890, week = 0, x = 1 }",
        ("at band 2: key x is not read", "at band 2: week 0 is below day 890", "at band 2: a cap of 0"),
    ),
    ("[rules]", "[rules]\nmaxmum = 1", ("at key rules: key maxmum is not read",)),
    ("operator = 4 }", 'operator = 4, name = "50" }', ()),
    ("operator = 3 },", "operator = 3, name = 14, mane = 1 },", ("at station 5: key mane is not read",)),
    ("week = 2470 }", 'week = 2470, name = "buses" }', ("at band 1: key name is not read",)),
    ("zones = 3", 'zones = 3\nname = "sample"', ("key name is not read",)),
    ("zones = 3", 'zones = 3\ncurrency = 1\noperators = [{ operator = 1, name = "Metro" }]', ()),
    ("[rules]", '[rules]\ncurrency = "EUR"', ("at key rules: key currency is not read",)),
    ("peak = 280, off = 270", "peak = 270, off = 280", ("at single 1: peak 270 is below off 280",)),
    ("peak = 200, off = 180", "peak = 200, off = 0", ("at single 6: a fare of 0",)),
    ("bus = 175", "bus = 0", ("at key rules: a fare of 0",)),
    ("holidays = [19723]\n", "", ("no holidays",)),
    ("zones = 3", "zones = 3\nb = 1\na = 1", ("key a is not read", "key b is not read")),
)
# The same in examples/two.toml, which has no holiday after the day on which its edition begins.
NONE_AFTER = "no holiday after day 19731, 2024-01-09"
WARNINGS_OF_TWO = (
    ("zones = 3", "zones = 3", (NONE_AFTER,)),
    ("holidays = [19723]", "holidays = [19723, 19732]", ()),
    ("holidays = [19723]", "holidays = [19723, 19731]", (NONE_AFTER,)),
    (f"band = [\n{LAST_BANDS}]\n", "", ("at the edition of day 19731, 2024-01-09: no bands", NONE_AFTER)),
    (
        "day = 19731",
        "day = 19731\nrulez = 1",
        ("at the edition of day 19731, 2024-01-09: key rulez is not read", NONE_AFTER),
    ),
    (
        "week = 4500",
        "week = 450",
        ("at the edition of day 19731, 2024-01-09, band 2: week 450 is below day 900", NONE_AFTER),
    ),
    (
        "peak = 380, off = 310",
        "peak = 300, off = 310",
        ("at the edition of day 19731, 2024-01-09, single 3: peak 300 is below off 310", NONE_AFTER),
    ),
)
# What is put in the place of what in examples/two.toml, how the file is then refused, and where its fault lies.
EDITION_RULES = "rules = { bus = 180, maximum = 900, hopper = 3600, same_free = 120, same_limit = 1800 }"
FAULTS = (
    ("zones = 3", "zones = 10", "13 OutOfRange at key zones"),
    ("\nminutes = [90, 100, 110]\nsingle", "\nminutes = [90, 100]\nsingle", "13 OutOfRange at key minutes"),
    ("\nminutes = [90, 100, 110]\nsingle", "\nminutes = [90, 0, 110]\nsingle", "13 OutOfRange at minutes 2"),
    ("bus = 175\n", "", "11 MissingKey at key rules.bus"),
    ("week = 4470", "week = 100001", "13 OutOfRange at band 2, key week"),
    ("{ from = 1, to = 2, day = 890", "{ from = 0, to = 0, day = 890", "14 Duplicate at band 2"),
    ("  { from = 2, to = 3, peak = 210, off = 195 },\n", "", "11 MissingKey at key single"),
    ("holidays = [19723]", "holidays = [19723, 3]", "13 OutOfRange at holidays 2"),
    ("b = 12", "b = 99", "15 UnknownPlace at interchange 1"),
    ("place = 50", "place = 14", "14 Duplicate at route 1"),
    ("day = 19731", "day = 4", "13 OutOfRange at edition 1, key day"),
    (
        EDITION_RULES,
        EDITION_RULES.replace("3600", "3601"),
        "17 HopperDiffers at the edition of day 19731, 2024-01-09, key rules.hopper",
    ),
    ("week = 5300", "week = -1", "13 OutOfRange at the edition of day 19731, 2024-01-09, band 3, key week"),
    ("[[edition]]", "[[edition]", "10 NotToml at line 39"),
)
# What is put in the place of what in examples/sample.toml, and the first day that is then priced otherwise, with a key.
DIFFERENCES = (
    ("bus = 175", "bus = 176", 4, "rules.bus"),
    ("maximum = 860", "maximum = 861", 4, "rules.maximum"),
    ("hopper = 3600", "hopper = 3599", 4, "rules.hopper"),
    ("same_free = 120", "same_free = 121", 4, "rules.same_free"),
    ("same_limit = 1800", "same_limit = 1801", 4, "rules.same_limit"),
    ("[90, 100, 110]", "[90, 101, 110]", 4, "minutes for 2 zones"),
    ("from = 2, to = 3, peak = 210", "from = 2, to = 3, peak = 211", 4, "single from 2 to 3"),
    ("off = 180", "off = 181", 4, "single from 3 to 3"),
    ("week = 5250", "week = 5251", 4, "band"),
    ("place = 50, operator = 4", "place = 50, operator = 5", 4, "place 50"),
    ("low = 2, high = 3", "low = 3, high = 3", 4, "place 13"),
    (LAST_STATION, "", 4, "place 14"),
    ("seconds = 1200", "seconds = 1199", 4, "interchange 10 12"),
    ("  { a = 10, b = 12, seconds = 1200 },\n", "", 4, "interchange 10 12"),
    ("seconds = 1200 },", "seconds = 1200 },\n  { a = 13, b = 11, seconds = 1 },", 4, "interchange 13 11"),
    ("holidays = [19723]", "holidays = [19724]", 19723, "holidays"),
    ("holidays = [19723]", "holidays = [19723, 19737]", 19737, "holidays"),
    ("holidays = [19723]", "holidays = [19723, 50000]", 50000, "holidays"),
)
# What may change in it while all days are priced as before.
SAME = (
    ("zones = 3", "zones = 3"),
    ("holidays = [19723]", "bands = 1\nholidays = [19723]"),
    (LAST_STATION, f"{LAST_STATION} {{ place = 15, low = 1, high = 1, operator = 9 }},"),
    ("{ place = 50, operator = 4 },", "{ place = 51, operator = 4 }, { place = 50, operator = 4 },"),
    (
        "  { from = 1, to = 1, peak = 280, off = 270 },\n  { from = 1, to = 2, peak = 340, off = 280 },",
        "  { from = 1, to = 2, peak = 340, off = 280 },\n  { from = 1, to = 1, peak = 280, off = 270 },",
    ),
    ("a = 10, b = 12", "a = 12, b = 10"),
)
# A station is new, and so is a zone, with all that it needs.
FOURTH_ZONE = (
    ("zones = 3", "zones = 4"), ("[90, 100, 110]", "[90, 100, 110, 120]"),
    (
        "off = 180 },",
        "off = 180 },\n" + "".join(f"  {{ from = {zone}, to = 4, peak = 400, off = 400 }},\n" for zone in range(1, 5)),
    ),
    (LAST_STATION, f"{LAST_STATION} {{ place = 15, low = 4, high = 4, operator = 1 }},"),
    ("seconds = 1200 },", "seconds = 1200 }, { a = 15, b = 10, seconds = 60 },"),
)


def other(day, key):
    # Day 3 is no service day, and has no date.
    last = dated(day - 1) if day > 4 else "day 3"
    return fault(f"other fares on {dated(day)}: {key}; days agree through {last}")


def warned(output, warnings):
    """What a check with warnings comes to."""
    return End(1 if warnings else 0, output, "".join(f"farebox: warning: {warning}\n" for warning in warnings).encode())


def counted(path):
    """What a check without options writes."""
    return run(["check", path]).output


class Lints(Theme):
    def test_warnings(self):
        """What is warned of, by `check --lint` alone or beside an old file, and at the start of sessions with files."""
        for name, rows in (("sample.toml", WARNINGS), ("two.toml", WARNINGS_OF_TWO)):
            for number, (old, new, said) in enumerate(rows):
                path = written(self.folder, f"{number}-{name}", edited(old, new, name))
                self.check(f"{name} with {new!r}", run(["check", "--lint", path]), warned(counted(path), said))
                self.check(f"{name} with {new!r}, without --lint", run(["check", path]), answers(counted(path)))
        self.check("the sample", run(["check", SAMPLE, "--lint"]), answers(COUNTED))
        self.check(
            "beside an old file", run(["check", TWO, "--lint", "--against", TWO]), warned(b"OK\n", (NONE_AFTER,))
        )
        came = run(["check", TWO, "--against", SAMPLE, "--lint"])
        self.check(
            "beside an old file of other fares",
            came,
            other(19731, "rules.bus")._replace(
                errors=other(19731, "rules.bus").errors + warned(b"", (NONE_AFTER,)).errors
            ),
        )
        line, reply = b"TAP 1 1 7 1704697200 50 BUS\n", b"OK 19730 175 175\n"
        for given in (
            ["--journal", f"{self.folder}/journal"],
            ["--ledger", f"{self.folder}/ledger"],
            ["--journal", f"{self.folder}/kept", "--ledger", f"{self.folder}/posted"],
        ):
            self.check(
                f"a session with {' '.join(given)}",
                run(["run", TWO, LONDON, *given], line),
                warned(reply, (NONE_AFTER,))._replace(status=0),
            )
        self.check("a session without files", run(["run", TWO, LONDON], line), answers(reply))
        self.check(
            "a statement by a journal",
            run(["statement", TWO, LONDON, "8", "19730", "--journal", f"{self.folder}/journal"]),
            answers(b"day,kind,from,to,start,fare,band\n"),
        )

    def test_places_of_faults(self):
        """Where a refused file is at fault, by `check --lint` alone."""
        for number, (old, new, line) in enumerate(FAULTS):
            path = written(self.folder, f"{number}.toml", edited(old, new, "two.toml"))
            self.check(f"two.toml with {new!r}", run(["check", path, "--lint"]), fault(line))
            self.check(f"two.toml with {new!r}, without --lint", run(["check", path]), fault(line.split(" at ")[0]))
        text = read("two.toml").decode()
        twice = written(self.folder, "twice.toml", (text + text[text.index("[[edition]]"):]).encode())
        self.check(
            "a second edition of the day", run(["check", twice, "--lint"]), fault("14 Duplicate at edition 2, key day")
        )
        for name, text, line in (
            ("the first line", "zones\n", 1),
            ("the third line", "a = 1\nb = 2\nc\nd = 4\n", 3),
            ("the last line", "a = 1\nb", 2),
        ):
            path = written(self.folder, "none.toml", text.encode())
            self.check(f"no TOML at {name}", run(["check", path, "--lint"]), fault(f"10 NotToml at line {line}"))

    def test_against_an_old_file(self):
        """Files that price days as an old one does, and the first day and key of those that do not."""
        for number, (old, new, day, key) in enumerate(DIFFERENCES):
            path = written(self.folder, f"{number}.toml", edited(old, new, "sample.toml"))
            self.check(f"the sample with {new!r}", run(["check", path, "--against", SAMPLE]), other(day, key))
            self.check(
                f"the sample with {new!r}, after that day",
                run(["check", path, "--against", SAMPLE, "--after", f"{day}"]),
                other(day, key),
            )
            before = other(day, key) if day == 4 else answers(b"OK\n")
            self.check(
                f"the sample with {new!r}, after the day before",
                run(["check", path, "--against", SAMPLE, "--after", f"{max(day - 1, 4)}"]),
                before,
            )
        # Of several keys that differ, those that all editions share come first.
        text = read("sample.toml").decode()
        for name, keys, key in (
            ("the bus fare and the Hopper time", ("bus = 175", "hopper = 3600"), "rules.hopper"),
            ("the bus fare and an interchange", ("bus = 175", "seconds = 1200"), "interchange 10 12"),
        ):
            changed = text
            for it in keys:
                changed = changed.replace(it, f"{it[:-1]}{int(it[-1]) + 1}")
            self.check(
                name,
                run(["check", written(self.folder, "both.toml", changed.encode()), "--against", SAMPLE]),
                other(4, key),
            )
        for number, (old, new) in enumerate(SAME):
            path = written(self.folder, f"same-{number}.toml", edited(old, new, "sample.toml"))
            self.check(f"the sample with {new!r}", run(["check", path, "--against", SAMPLE]), answers(b"OK\n"))
        text = read("sample.toml").decode()
        for old, new in FOURTH_ZONE:
            text = text.replace(old, new)
        fourth = written(self.folder, "fourth.toml", text.encode())
        self.check("a new zone", run(["check", fourth, "--against", SAMPLE]), answers(b"OK\n"))
        self.check("a zone fewer", run(["check", SAMPLE, "--against", fourth]), other(4, "zones"))

    def test_new_fares(self):
        """A file with an edition beside one without, and editions that say nothing new."""
        self.check("new fares", run(["check", TWO, "--against", SAMPLE]), other(19731, "rules.bus"))
        self.check(
            "new fares, up to the day before",
            run(["check", TWO, "--against", SAMPLE, "--after", "19730"]),
            answers(b"OK\n"),
        )
        self.check(
            "new fares, up to their first day",
            run(["check", TWO, "--after=19731", "--against", SAMPLE]),
            other(19731, "rules.bus"),
        )
        self.check("the new fares are gone", run(["check", SAMPLE, "--against", TWO]), other(19731, "rules.bus"))
        self.check("the same file", run(["check", TWO, "--against", TWO]), answers(b"OK\n"))
        later = written(self.folder, "later.toml", edited("day = 19731", "day = 19732", "two.toml"))
        self.check("an edition a day later", run(["check", later, "--against", TWO]), other(19731, "rules.bus"))
        text = read("two.toml").decode()
        again = text + text[text.index("[[edition]]"):].replace("19731", "30000").replace("week = 2500", "week = 2501")
        third = written(self.folder, "third.toml", again.encode())
        self.check("a further edition", run(["check", third, "--against", TWO]), other(30000, "band"))
        same = written(self.folder, "same.toml", again.replace("week = 2501", "week = 2500").encode())
        self.check("a further edition that says the same", run(["check", same, "--against", TWO]), answers(b"OK\n"))

    def test_old_files(self):
        """An old file that cannot be read or is refused, after FARES."""
        refused = written(self.folder, "refused.toml", edited("bus = 175\n", "", "sample.toml"))
        self.check("it is missing", run(["check", SAMPLE, "--against", MISSING]), fault("cannot read old fares"))
        self.check("it is refused", run(["check", SAMPLE, "--against", refused]), fault("old fares: 11 MissingKey"))
        self.check("both are", run(["check", refused, "--against", refused]), fault("11 MissingKey"))
        self.check(
            "both are, with --lint",
            run(["check", refused, "--lint", "--against", refused]),
            fault("11 MissingKey at key rules.bus"),
        )
        self.check("FARES is missing", run(["check", MISSING, "--against", MISSING]), fault("cannot read fares"))
        self.check(
            "no bands are no difference to themselves", run(["check", FARES, "--against", FARES]), answers(b"OK\n")
        )
