"""Fare files that cannot be read, faults of the examples, and how many of each thing a file has."""

import os
import subprocess
import threading
import time

from support.fares import BUS_BAND, ZONES_1_TO_2, counted
from support.repository import BUS, CHECK, COUNTED, LONDON, ROOT
from support.running import (
    FARES, MISSING, SEVEN, answers, boardings, closing, edited, fault, play, read, run, run_file, written,
)
from support.theme import Theme

# What is put in the place of what in examples/bus.toml, and how the file is then refused.
HOLIDAYS = "holidays = [19723]"
REFUSED_FARES = (
    ("zones = 3", "zones = ", "10 NotToml"),
    ("zones = 3", "zones = 3\nzones = 3", "10 NotToml"),
    ("bus = 175\n", "", "11 MissingKey"),
    ("{ from = 2, to = 3, peak = 210, off = 195 },", "", "11 MissingKey"),
    ("hopper = 3600", "hopper = 3600.0", "12 WrongType"),
    ("hopper = 3600", 'hopper = "3600"', "12 WrongType"),
    ("hopper = 3600", "hopper = 0", "13 OutOfRange"),
    ("hopper = 3600", "hopper = 7201", "13 OutOfRange"),
    ("bus = 175", "bus = -1", "13 OutOfRange"),
    ("bus = 175", "bus = 100001", "13 OutOfRange"),
    ("same_free = 120", "same_free = 1801", "13 OutOfRange"),
    ("[90, 100, 110]", "[90, 100]", "13 OutOfRange"),
    ("low = 1, high = 2", "low = 1, high = 3", "13 OutOfRange"),
    ("{ from = 2, to = 2", "{ from = 1, to = 2", "14 Duplicate"),
    ("place = 50", "place = 10", "14 Duplicate"),
    ("b = 12", "b = 99", "15 UnknownPlace"),
    ("b = 12", "b = 50", "15 UnknownPlace"),
    (HOLIDAYS, f"holidays = {list(range(19723, 19788))}", "16 TooMany"),
    # An array is counted before its items are looked at.
    (HOLIDAYS, f"holidays = {65 * [0]}", "16 TooMany"),
    (HOLIDAYS, "band = 1", "12 WrongType"),
    # The first fault in the order of the keys is told.
    (HOLIDAYS, "holidays = [3]\nband = 1", "12 WrongType"),
    ("bus = 175\nmaximum = 860", "bus = true\nmaximum = -1", "12 WrongType"),
)

# The same for examples/sample.toml.
LAST_STATION = "{ place = 14, low = 3, high = 3, operator = 3 },"
REFUSED_SAMPLES = (
    ("bus = 175\n", "", "11 MissingKey"),
    (LAST_STATION, f"{LAST_STATION} {{ place = 50, low = 1, high = 1, operator = 1 }},", "14 Duplicate"),
    ("b = 12", "b = 99", "15 UnknownPlace"),
    (", week = 2470", "", "11 MissingKey"),
    ("week = 2470", "week = 2470.0", "12 WrongType"),
    (BUS_BAND, "1,", "12 WrongType"),
    ("day = 525", "day = -1", "13 OutOfRange"),
    ("week = 2470", "week = 100001", "13 OutOfRange"),
    ("from = 0, to = 0", "from = 0, to = 1", "13 OutOfRange"),
    ("from = 0, to = 0", "from = 1, to = 0", "13 OutOfRange"),
    ("from = 1, to = 2, day", "from = 2, to = 1, day", "13 OutOfRange"),
    ("from = 1, to = 2, day", "from = 1, to = 4, day", "13 OutOfRange"),
    ("from = 1, to = 2, day", "from = 4, to = 4, day", "13 OutOfRange"),
    (ZONES_1_TO_2, "{ from = 0, to = 0, day = 0, week = 0 },", "14 Duplicate"),
    (ZONES_1_TO_2, "{ from = 1, to = 3, day = 890, week = 4470 },", "14 Duplicate"),
    (ZONES_1_TO_2, f"{ZONES_1_TO_2} {{ from = 1, to = 2, day = 890 }},", "11 MissingKey"),
    # Thirteen bands are too many, before they are looked at; of twelve the first fault is told.
    (BUS_BAND, 11 * BUS_BAND, "16 TooMany"),
    (BUS_BAND, 10 * BUS_BAND, "14 Duplicate"),
    # Bands stand after the single fares, and before the holidays.
    ("{ from = 3, to = 3, peak = 200, off = 180 },\n]\nband = [", "]\nband = [1,", "11 MissingKey"),
    (
        f"{ZONES_1_TO_2}\n  {{ from = 1, to = 3, day = 1050, week = 5250 }},\n]\nholidays = [19723]",
        f"{BUS_BAND}\n]\nholidays = [3]",
        "14 Duplicate",
    ),
)

# Bytes that are no text. They stand in a comment, where no reader of TOML would look at them.
NO_TEXTS = (b"\xff", b"\xe2\x82", b"\xc0\x80", b"\xed\xa0\x80", b"\xf4\x90\x80\x80")
UNREAD_FARES = (MISSING, ROOT, "/", "", "-", f"{FARES}/", f"{FARES}/more", "/" + "a" * 300, "/a" * 5_000)

# What may be put there: keys that are not read, an array that may be missing, and the greatest numbers.
TAKEN_FARES = (
    ("zones = 3", "zones = 3\ncolour = 'red'\nmore = [{ zones = -1 }]"),
    (HOLIDAYS, ""),
    (HOLIDAYS, "band = []"),
    (HOLIDAYS, f"holidays = {list(range(19731, 19795))}"),
    ("same_limit = 1800", "same_limit = 7200"),
    ("\n", "\r\n"),
)


def through_a_pipe(folder, pieces):
    """The path of a named pipe, through which these pieces come one after another."""
    path = os.path.join(folder, "through")
    os.mkfifo(path)

    def write():
        with open(path, "wb", buffering=0) as it:
            for piece in pieces:
                it.write(piece)
                time.sleep(0.1)

    threading.Thread(target=write, daemon=True).start()
    return path


class FareFiles(Theme):
    def test_refused_fare_files(self):
        """Fare files that cannot be read or are refused. They are refused alike by each program."""
        lines, _ = boardings(2)

        def judged(name, path, line):
            for given in (["run", path, LONDON], ["check", path], ["statement", path, LONDON, "1", "19730"]):
                self.check(f"{name}, to {given[0]}", run(given, lines, cwd=self.folder), fault(line))

        def judged_text(name, content, line):
            judged(name, written(self.folder, "fares", content), line)

        for path in UNREAD_FARES:
            judged(f"the fare file {path[:60]!r}", path, "cannot read fares")
        for no_text in NO_TEXTS:
            judged_text(f"{no_text} in the fare file", b"# " + no_text + b"\n" + read("bus.toml"), "cannot read fares")
        judged_text("an empty fare file", b"", "11 MissingKey")
        judged_text("a fare file of a first key alone", b"zones = 0", "13 OutOfRange")
        for name, rows in (("bus.toml", REFUSED_FARES), ("sample.toml", REFUSED_SAMPLES)):
            for old, new, line in rows:
                judged_text(f"{new[:60]!r} in the place of {old!r} in {name}", edited(old, new, name), line)

    def test_taken_fare_files(self):
        """Fare files that are not refused."""
        lines, replies = boardings(2)
        for old, new in TAKEN_FARES:
            given = ["run", written(self.folder, "fares", edited(old, new)), LONDON]
            self.check(f"{new[:60]!r} in the place of {old!r}", run(given, lines), answers(replies))

    def test_long_fare_files(self):
        """A fare file whose rules stand after 3 MiB, which would be missed if it were read in part, and one in
        pieces."""
        text = read("bus.toml")
        front, rules_after = text.split(b"[rules]")
        long = front + (b"# " + b"-" * 1021 + b"\n") * 3072 + b"[rules]" + rules_after
        pairs = [(f"TAP 1 1 7 {SEVEN} 50 BUS", "OK 19730 175 175")]
        self.check("rules after 3 MiB", *play(["run", written(self.folder, "long", long), LONDON], pairs))
        half = len(text) // 2
        self.check(
            "a fare file in two pieces",
            *play(["run", through_a_pipe(self.folder, [text[:half], text[half:]]), LONDON], pairs),
        )
        sample = read("sample.toml")
        ahead, bands_after = sample.split(b"band = [")
        long = ahead + (b"# " + b"-" * 1021 + b"\n") * 3072 + b"band = [" + bands_after
        self.check("bands after 3 MiB, checked", run(["check", written(self.folder, "long", long)]), answers(COUNTED))

    def test_what_a_file_has(self):
        """How many of each thing a fare file has, whatever the input is."""
        lines, _ = boardings(2)
        path = written(self.folder, "lines", lines)
        self.check("the sample", run(CHECK), answers(COUNTED))
        self.check(
            "the sample by its path from here", run(["check", "examples/sample.toml"], cwd=ROOT), answers(COUNTED)
        )
        self.check("a fare file without caps", run(["check", BUS]), counted(6, 0, 1, 1))
        self.check("lines that are not read", run_file(CHECK, path, leaves=True), answers(COUNTED)._replace(left=lines))
        self.check("input closed", run(CHECK, stdin=subprocess.DEVNULL, **closing(0)), answers(COUNTED))
        for old, new, counts in (
            (LAST_STATION, "", (5, 3, 1, 1)),
            (
                "{ place = 50, operator = 4 },",
                "{ place = 50, operator = 4 }, { place = 51, operator = 4 },",
                (7, 3, 1, 1),
            ),
            (BUS_BAND, "", (6, 2, 1, 1)),
            ("{ a = 10, b = 12, seconds = 1200 },", "", (6, 3, 0, 1)),
            (HOLIDAYS, "holidays = [19723, 19724, 19725]", (6, 3, 1, 3)),
            (HOLIDAYS, "", (6, 3, 1, 0)),
        ):
            self.check(
                f"the sample with {new!r} for {old!r}",
                run(["check", written(self.folder, "fares", edited(old, new, "sample.toml"))]),
                counted(*counts),
            )
