"""The journeys of an account's week as rows, by hand, however the lines before them come; and the long statement, by hand
and of drawn weeks by the second reckoning of tests/oracle/rules.py."""

import csv
import io
import os
import random
import select
from concurrent.futures import ThreadPoolExecutor

from oracle import loads, rules
from support.clocks import BY_SECONDS, FAR_EAST, INDIA, MEASURED, SUMMER_DAY
from support.fares import BUS_BAND, MOST_TAPS, ZONES_1_TO_2
from support.journals import bad_line, new_folder
from support.repository import BUS, LONDON, SAMPLE, STATE
from support.running import (
    MISSING, MONDAY, SEVEN, WEEK_DAYS, End, bytes_of, cut, edited, end_of, fault, in_lines, run, run_file, started,
    taps_of, trickle, written,
)
from support.sessions import BUS_DAY, BUS_WEEK, CREDITS, FILLED, LEFT, ONE_SECOND, ZONE_DAY
from support.statements import (
    A_BOARDING, RAIL_AND_LONE, RAIL_AND_LONE_ROWS, long_rows, long_stated, rows_of_statement, stated,
)
from support.theme import Theme


def days_after(days, rows):
    """The same taps so many days later."""
    return [(utc + 86_400 * days, *others) for utc, *others in rows]


# Each day is priced by another band, and each row has that of its own day.
MIXED_WEEK = [
    (1704688199, 50, "BUS"),  # Monday 04:29:59, of the week before
    *BUS_DAY, (1704702600, 50, "BUS"),  # the last one at 08:30, free by the Hopper rule
    *days_after(1, RAIL_AND_LONE),  # Tuesday: 1020, capped by the band of zones 1 to 2
    *days_after(2, ZONE_DAY),  # Wednesday: 1200, capped by the band of zones 1 to 3
    # Thursday 08:00 and 12:00: 455, which no band gives
    (1704960000, 50, "BUS"), (1704974400, 10, "IN"), (1704975600, 12, "OUT"),
    *days_after(4, BUS_DAY), *days_after(4, ZONE_DAY[:2]),  # Friday: 1040, or 525 and 340
    (1705276799, 50, "BUS"), (1705292999, 12, "OUT"),  # Sunday 23:59:59, and 04:29:59 in its night
    (1705293000, 50, "BUS"),  # Monday 04:30:00, of the week after
]
MIXED_ROWS = [
    "19730,BUS,50,0,08:00:00,175,bus",
    "19730,BUS,50,0,08:30:00,0,bus",
    "19730,BUS,50,0,10:00:00,175,bus",
    "19730,BUS,50,0,12:00:00,175,bus",
    "19730,BUS,50,0,14:00:00,175,bus",
    "19731,RAIL,10,12,07:00:00,340,1-2",
    "19731,RAIL,12,10,07:30:00,340,1-2",
    "19731,RAIL,10,12,08:00:00,340,1-2",
    "19731,LONE,10,0,12:00:00,860,-",
    "19732,RAIL,10,12,07:00:00,340,1-3",
    "19732,RAIL,12,10,07:30:00,340,1-3",
    "19732,RAIL,10,12,08:00:00,340,1-3",
    "19732,RAIL,14,13,10:00:00,180,1-3",
    "19733,BUS,50,0,08:00:00,175,-",
    "19733,RAIL,10,12,12:00:00,280,-",
    "19734,RAIL,10,12,07:00:00,340,-",
    "19734,BUS,50,0,08:00:00,175,bus",
    "19734,BUS,50,0,10:00:00,175,bus",
    "19734,BUS,50,0,12:00:00,175,bus",
    "19734,BUS,50,0,14:00:00,175,bus",
    "19736,BUS,50,0,23:59:59,175,-",
    "19736,LONE,0,12,04:29:59,860,-",
]
# Journeys of each kind. The last taps to arrive are the first.
MIXED_DAY = [
    (1704718800, 10, "IN"), (1704718920, 10, "OUT"),  # 13:00 to 13:02, free
    (1704717000, 11, "IN"), (1704717121, 11, "OUT"),  # 12:30 to 12:32:01
    (1704717060, 50, "BUS"), (1704715200, 14, "OUT"),  # 12:31 and 12:00
    (1704720000, 50, "BUS"),  # 13:20, free
    (1704697200, 14, "IN"), (1704698400, 12, "OUT"), (1704699600, 10, "IN"), (1704700200, 11, "OUT"),  # 07:00 to 07:50
    (1704699000, 50, "BUS"),  # 07:30
]
MIXED_DAY_ROWS = [
    "19730,RAIL,14,11,07:00:00,370,-",
    "19730,BUS,50,0,07:30:00,175,-",
    "19730,LONE,0,14,12:00:00,860,-",
    "19730,SAME,11,11,12:30:00,190,-",
    "19730,BUS,50,0,12:31:00,175,-",
    "19730,SAME,10,10,13:00:00,0,-",
    "19730,BUS,50,0,13:20:00,0,-",
]
# Journeys of each kind on a day that the band of zones 1 to 3 caps: 1375, or 1050.
CAPPED_DAY = [
    *ZONE_DAY, (1704715200, 14, "IN"), (1704715320, 14, "OUT"),  # 12:00 to 12:02, free
    (1704719109, 50, "BUS"), (1704758399, 11, "OUT"),  # 13:05:09 and 23:59:59
]
CAPPED_DAY_ROWS = [
    "19730,RAIL,10,12,07:00:00,340,1-3",
    "19730,RAIL,12,10,07:30:00,340,1-3",
    "19730,RAIL,10,12,08:00:00,340,1-3",
    "19730,RAIL,14,13,10:00:00,180,1-3",
    "19730,SAME,14,14,12:00:00,0,1-3",
    "19730,BUS,50,0,13:05:09,175,1-3",
    "19730,LONE,0,11,23:59:59,860,-",
]
# The last one arrives late, and is the first of the day.
LATE_BOARDINGS = [(1704697200, 50, "BUS"), (1704700200, 50, "BUS"), (1704702200, 50, "BUS"), (1704696200, 50, "BUS")]
LATE_ROWS = [
    "19730,BUS,50,0,06:43:20,175,-", "19730,BUS,50,0,07:00:00,0,-", "19730,BUS,50,0,07:50:00,175,-",
    "19730,BUS,50,0,08:23:20,0,-",
]
# Among the lines that are taken are questions, lines of another account, and lines that are refused.
LINES_AMONG = (
    "DUE 7 19730", "TAP 1 1 7 1704697200 50 BUS", "TAP 1 1 7 1704697200 50 BUS", "SHOW 7 19730",
    "TAP 1 1 7 1704708000 50 BUS",
    "TAP 1 2 7 1704708000 51 BUS", "TAP 1 2 7 604799 50 BUS", "TAP 01 2 7 1704708000 50 BUS",
    "TAP 1 2 7 1704708000 50 BUS ", "", "A" * 129,
    "CLOSE 19730", "CLOSE 3", "FIX 3 1 7 VOID 1 9", "FIX 3 1 7 VOID 1 1", "FIX 3 2 7 FILL 1704708000 99 OUT",
    "FIX 3 2 7 FILL 604799 12 OUT",
    "FIX 3 3 7 CREDIT 19730 100000", "TAP 1 1 8 1704700800 50 BUS", "quit", "QUIT ", "TAP 1 2 7 1704704400 10 IN",
    "DUE 7 19730",
    "TAP 1 3 7 1704705600 12 OUT", "statement 7 19730",
)
ROWS_AMONG = [A_BOARDING, "19730,RAIL,10,12,09:00:00,340,-"]
FOUR_BUSES = [f"19730,BUS,50,0,{hour:02}:00:00,175,bus" for hour in (8, 10, 12, 14)]
SUMMER_ROWS = [
    "19912,BUS,50,0,04:30:00,0,-",
    "19912,RAIL,14,11,06:30:00,210,-",
    "19912,RAIL,10,14,18:59:59,370,-",
    "19912,BUS,50,0,04:29:59,175,-",
    "19913,BUS,50,0,05:29:59,0,-",
]
# Lines, many of them another theme's; the account, the day, and the rows.
STATED = {
    "rail and a lone tap": (taps_of(RAIL_AND_LONE), 7, 19730, RAIL_AND_LONE_ROWS),
    "three boardings": (taps_of(BUS_DAY[:3]), 7, 19730, [row.replace("bus", "-") for row in FOUR_BUSES[:3]]),
    "four boardings": (taps_of(BUS_DAY), 7, 19730, FOUR_BUSES),
    "a day of each kind": (taps_of(MIXED_DAY), 7, 19730, MIXED_DAY_ROWS),
    "a capped day of each kind": (taps_of(CAPPED_DAY), 7, 19730, CAPPED_DAY_ROWS),
    "a late boarding": (taps_of(LATE_BOARDINGS), 7, 19736, LATE_ROWS),
    "no lines": ([], 7, 19730, []),
    "no such account": (taps_of(BUS_DAY), 8, 19730, []),
    "no such account of the last number": (taps_of(BUS_DAY), 4_294_967_295, 19730, []),
    "the last account": (taps_of(BUS_DAY, 4_294_967_295), 4_294_967_295, 19730, FOUR_BUSES),
    "an account without journeys": (
        ["FIX 3 1 7 CREDIT 19730 100", "FIX 3 2 7 VOID 1 1", "TAP 1 1 7 1704697200 50 BUS"], 7, 19730, []
    ),
    "the week before": (taps_of(BUS_DAY), 7, 19729, []),
    "the week after": (taps_of(BUS_DAY), 7, 19737, []),
    "the first and the last day of time": (
        taps_of([(604800, 50, "BUS"), (4102444799, 12, "IN")]), 7, 4, ["6,BUS,50,0,00:00:00,175,-"]
    ),
    "the last day of time": (
        taps_of([(604800, 50, "BUS"), (4102444799, 12, "IN")]), 7, 47484, ["47481,LONE,12,0,23:59:59,860,-"]
    ),
    "lines that are refused": (LINES_AMONG, 7, 19730, ROWS_AMONG),
    "the account beside it": (LINES_AMONG, 8, 19730, ["19730,BUS,50,0,08:00:00,175,-"]),
    "a summer day": ([line for line, _ in SUMMER_DAY[:-1]], 7, 19912, SUMMER_ROWS),
    "the Sunday before it": ([line for line, _ in SUMMER_DAY], 7, 19911, ["19911,BUS,50,0,04:29:59,175,-"]),
    "the night in which the clocks go forward": (
        [line for line, _ in MEASURED], 12, 19812, ["19812,BUS,50,0,00:59:59,175,-", "19812,BUS,50,0,03:00:00,175,-"],
    ),
    "the night in which they go back": (
        [line for line, _ in MEASURED], 7, 20022, ["20022,BUS,50,0,01:30:00,175,-", "20022,BUS,50,0,01:30:00,0,-"],
    ),
    "a Fill": ([line for line, _ in FILLED], 8, 19730, ["19730,RAIL,14,11,07:00:00,370,-"]),
    "what was voided and withdrawn": ([line for line, _ in FILLED], 7, 19730, []),
    "a Void": (
        [line for line, _ in LEFT], 9, 19730, ["19730,BUS,50,0,08:00:00,175,-", "19730,BUS,50,0,14:00:00,175,-"]
    ),
    "a Void that was withdrawn": (
        [line for line, _ in LEFT], 7, 19730,
        ["19730,BUS,50,0,07:00:00,175,-", "19730,BUS,50,0,07:50:00,0,-", "19730,BUS,50,0,08:23:20,175,-"],
    ),
    "one second": (
        [line for line, _ in ONE_SECOND], 11, 19730, ["19730,BUS,50,0,07:00:00,175,-", "19730,LONE,10,0,07:00:00,860,-"]
    ),
    "Credits": ([line for line, _ in CREDITS], 7, 19730, [A_BOARDING]),
}


class Rows(Theme):
    """The rows of a week."""

    def test_rows_by_hand(self):
        """The rows of each of these sessions."""
        for name, (lines, account, day, rows) in STATED.items():
            self.check(f"a statement: {name}", stated(lines, account, day), rows_of_statement(*rows))

    def test_a_week_of_several_bands(self):
        """Whatever the order of the taps is, and by whichever of its days the week is asked for."""
        for name, lines in (("", taps_of(MIXED_WEEK)), (" sent backwards", taps_of(MIXED_WEEK)[::-1])):
            for day in range(MONDAY, MONDAY + 7):
                self.check(
                    f"a week of several bands{name}, asked for by day {day}",
                    stated(lines, 7, day),
                    rows_of_statement(*MIXED_ROWS),
                )
            self.check(
                f"the Sunday before it{name}",
                stated(lines, 7, MONDAY - 1),
                rows_of_statement("19729,BUS,50,0,04:29:59,175,-"),
            )
            self.check(
                f"the Monday after it{name}",
                stated(lines, 7, MONDAY + 7),
                rows_of_statement("19737,BUS,50,0,04:30:00,175,-"),
            )

    def test_a_statement_of_many_rows(self):
        """As many as an account may have taps."""
        # Of 16,384 boardings a second apart each 3,601st pays, and the bus band caps these five.
        lines = [f"TAP 1 {i} 7 {SEVEN + i} 50 BUS" for i in range(MOST_TAPS)]
        rows = [f"19730,BUS,50,0,{rules.clock(25_200 + i)},{0 if i % 3_601 else 175},bus" for i in range(MOST_TAPS)]
        self.check("a statement of 16,384 rows", stated(lines, 7, MONDAY), rows_of_statement(*rows))


# The clocks go back from 05:00 to 04:00 on Tuesday, and so from one service day to the one before it.
BACK_ON_TUESDAY = "AAA0BBB,J300,J9/5"
AROUND_TUESDAY = [(1704771000, 50, "BUS"), (1704772800, 50, "BUS"), (1704774600, 50, "BUS")]
AROUND_TUESDAY_ROWS = ["19731,BUS,50,0,04:30:00,175,-", "19730,BUS,50,0,04:00:00,0,-", "19731,BUS,50,0,04:30:00,0,-"]


class OtherWords(Theme):
    """Statements by other zones and fare files."""

    def test_statements_by_other_words(self):
        """The zone says what the clocks show, and the fare file what the bands are."""
        for zone, row in (
            ("EST5", "19729,BUS,50,0,02:00:00,175,-"), (INDIA, "19730,BUS,50,0,12:30:00,175,-"),
            (FAR_EAST, "19730,BUS,50,0,21:00:00,175,-"),
            (BY_SECONDS, "19730,BUS,50,0,08:02:03,175,-"),
        ):
            day = row.partition(",")[0]
            self.check(
                f"a statement in {zone}",
                stated(taps_of([(SEVEN, 50, "BUS")]), 7, day, zone=zone),
                rows_of_statement(row),
            )
        lines = taps_of(AROUND_TUESDAY)
        self.check(
            "clocks that go back within the week",
            stated(lines, 7, 19731, zone=BACK_ON_TUESDAY),
            rows_of_statement(*AROUND_TUESDAY_ROWS),
        )
        without = [row.rpartition(",")[0] + ",-" for row in MIXED_ROWS]
        self.check(
            "a week without bands", stated(taps_of(MIXED_WEEK), 7, MONDAY, fares=BUS), rows_of_statement(*without)
        )
        # Four boardings are 525 by either of two bands, of which the first wins.
        same_cap = ZONES_1_TO_2.replace("890", "525")
        for name, bands in (("bus", (BUS_BAND, same_cap)), ("1-2", (same_cap, BUS_BAND))):
            fares = written(
                self.folder, "fares", edited(f"{BUS_BAND}\n  {ZONES_1_TO_2}", "\n  ".join(bands), "sample.toml")
            )
            rows = [row.replace("bus", name) for row in FOUR_BUSES]
            self.check(
                f"two bands of one cap, {name} first",
                stated(taps_of(BUS_DAY), 7, MONDAY, fares=fares),
                rows_of_statement(*rows),
            )


def unended(lines):
    """What a statement comes to of which nothing may be written before QUIT, and whose input is then left open."""
    with started(STATE) as ran:
        ran.stdin.write(lines)
        if select.select([ran.stdout], [], [], 0.3)[0]:
            return End("too early")
        ran.stdin.write(b"QUIT\n")
        return end_of(ran)


class Streams(Theme):
    """Statements of lines however they come."""

    def test_statements_of_streams(self):
        """The lines are read to their end or to QUIT, however they come, and the statement is written then."""
        lines, wanted = in_lines(taps_of(RAIL_AND_LONE)), rows_of_statement(*RAIL_AND_LONE_ROWS)
        more = in_lines(taps_of(BUS_DAY))
        path = written(self.folder, "lines", lines + b"QUIT\n" + more)
        self.check("a statement, QUIT and more lines", run(STATE, lines + b"QUIT\n" + more), wanted)
        self.check(
            "a statement, QUIT and more lines in a file", run_file(STATE, path, leaves=True), wanted._replace(left=more)
        )
        self.check("a statement, lines in a file", run_file(STATE, written(self.folder, "lines", lines)), wanted)
        self.check("a statement, QUIT first", run(STATE, b"QUIT\n" + lines), rows_of_statement())
        for rest in (b"TAP 1 8 7 1704722400 50 BUS", b"QUIT", b"A" * 200):
            self.check(
                f"a statement, a last line of {len(rest)} bytes without its end", run(STATE, lines + rest), wanted
            )
        self.check("a statement, lines in pieces", trickle(cut(lines, 3), 0.0005, STATE), wanted)
        self.check("a statement, QUIT in two pieces", trickle([lines + b"QU", b"IT\n" + more], 0.05, STATE), wanted)
        self.check("a statement, and an input left open after QUIT", unended(lines), wanted)
        self.check("a statement, a line of 17,000,000 bytes", run(STATE, b"A" * 17_000_000 + b"\n" + lines), wanted)


# Stations whose names have a comma, and quotation marks, as TOML and as CSV.
NAMES = {10: '"Abbey, North"', 12: "'The \"Castle\"'", 50: '"Castle Road"'}
ABBEY, CASTLE = '10,"Abbey, North"', '12,"The ""Castle"""'
BOARDED_AT_SEVEN = "2024-01-08,BUS,50,,,,07:00:00,,1.75,"


def boarded(day, hour):
    """The row of a boarding on a day of January 2024 that pays."""
    return f"2024-01-{day:02},BUS,50,,,,{hour:02}:00:00,,1.75,"


# Lines of account 7; the day by which the week is asked for, and the rows of it.
LONG = {
    # 1200, or 1050 by the cap of zones 1 to 3; and the maximum fare on top.
    "a capped day, and a lone tap": (
        taps_of([*ZONE_DAY, (1704715200, 14, "IN")]), MONDAY,
        [
            "2024-01-08,RAIL,10,,12,,07:00:00,07:20:00,3.40,", "2024-01-08,RAIL,12,,10,,07:30:00,07:50:00,3.40,",
            "2024-01-08,RAIL,10,,12,,08:00:00,08:20:00,3.40,", "2024-01-08,RAIL,14,,13,,10:00:00,10:10:00,1.80,",
            "2024-01-08,LONE,14,,,,12:00:00,,8.60,", "2024-01-08,CAP,,,,,,,-1.50,",
        ],
    ),
    # Five days at 525 are 2625, or 2470 by the week's cap of buses.
    "a capped week": (
        taps_of(BUS_WEEK), 19734,
        [
            *(boarded(day, hour) for day in range(8, 13) for hour in (8, 10, 12)), "2024-01-14,WEEKCAP,,,,,,,-1.55,",
        ],
    ),
    # The fourth boarding of each day is at 14:00.
    "capped days of a capped week": (
        taps_of(sorted(BUS_WEEK + days_after(0, [(1704722400 + 86_400 * day, 50, "BUS") for day in range(5)]))), MONDAY,
        [
            *(
                row for day in range(8, 13)
                for row in (*(boarded(day, hour) for hour in (8, 10, 12, 14)), f"2024-01-{day:02},CAP,,,,,,,-1.75,")
            ),
            "2024-01-14,WEEKCAP,,,,,,,-1.55,",
        ],
    ),
    # Those of the days before and after the week do not count, nor does one that was withdrawn.
    "Credits": (
        [
            *taps_of([(SEVEN, 50, "BUS")]), "FIX 3 1 7 CREDIT 19736 50", "FIX 3 2 7 CREDIT 19737 300",
            "FIX 2 9 7 CREDIT 19730 100", "FIX 3 3 7 CREDIT 19731 25", "FIX 3 4 7 DROP 3 3",
            "FIX 3 5 7 CREDIT 19729 300", "FIX 3 6 8 CREDIT 19730 5",
        ],
        MONDAY, [BOARDED_AT_SEVEN, "2024-01-08,CREDIT,,,,,,,-1.00,", "2024-01-14,CREDIT,,,,,,,-0.50,"],
    ),
    "Credits that come to more than the price": (
        [*taps_of([(SEVEN, 50, "BUS")]), "FIX 3 1 7 CREDIT 19730 500", "FIX 3 2 7 CREDIT 19731 1"], MONDAY,
        [
            BOARDED_AT_SEVEN, "2024-01-08,CREDIT,,,,,,,-5.00,", "2024-01-09,CREDIT,,,,,,,-0.01,",
            "2024-01-14,UNUSED,,,,,,,3.26,",
        ],
    ),
    "Credits that come to just the price": (
        [*taps_of([(SEVEN, 50, "BUS")]), "FIX 3 1 7 CREDIT 19730 175"], MONDAY,
        [BOARDED_AT_SEVEN, "2024-01-08,CREDIT,,,,,,,-1.75,"],
    ),
    "a journey of each kind": (
        taps_of([
            (SEVEN, 10, "IN"), (SEVEN + 120, 10, "OUT"), (SEVEN + 3_600, 50, "BUS"), (SEVEN + 5_400, 50, "BUS"),
            (SEVEN + 7_200, 14, "IN"), (SEVEN + 8_400, 12, "OUT"), (SEVEN + 9_600, 10, "IN"), (SEVEN + 10_200, 11, "OUT"),
            (SEVEN + 18_000, 12, "OUT"),
        ]),
        19731,
        [
            "2024-01-08,SAME,10,,10,,07:00:00,07:02:00,0.00,", boarded(8, 8), "2024-01-08,BUS,50,,,,08:30:00,,0.00,",
            "2024-01-08,RAIL,14,,11,,09:00:00,09:50:00,3.70,", "2024-01-08,LONE,,,12,,12:00:00,,8.60,",
        ],
    ),
    "a night": (
        taps_of([(1705292999, 12, "OUT"), (1705293000, 50, "BUS")]), 19736,
        ["2024-01-14,LONE,,,12,,04:29:59,,8.60,"],
    ),
    # The Sunday of the last week is no service day, and the last one is a Wednesday.
    "the last week": (
        ["FIX 3 1 7 CREDIT 50000 100", "FIX 3 2 7 CREDIT 49997 100"], 49_998,
        ["2106-11-24,CREDIT,,,,,,,-1.00,", "2106-11-24,UNUSED,,,,,,,1.00,"],
    ),
    "the first week": (
        taps_of([(604800, 50, "BUS")]), 4, ["1970-01-07,BUS,50,,,,00:00:00,,1.75,"]
    ),
    "no such account": (["TAP 1 1 8 1704697200 50 BUS"], MONDAY, []),
}
# An In alone of account 7 is closed at the maximum fare, then with its Out, then with a boarding of the next day, and a
# Credit comes after all closes.
CLOSED = [
    "TAP 1 1 7 1704697200 10 IN", "TAP 2 1 8 1704697200 50 BUS", "CLOSE 19730", "TAP 1 2 7 1704699000 12 OUT",
    "CLOSE 19730", "TAP 1 3 7 1704783600 50 BUS", "CLOSE 19731", "FIX 3 1 7 CREDIT 19735 100",
]
WITH_POSTINGS = [
    "2024-01-08,RAIL,10,,12,,07:00:00,07:30:00,3.40,", "2024-01-09,BUS,50,,,,07:00:00,,1.75,",
    "2024-01-13,CREDIT,,,,,,,-1.00,", "2024-01-08,POSTED,,,,,,,,8.60", "2024-01-08,POSTED,,,,,,,,-5.20",
    "2024-01-09,POSTED,,,,,,,,1.75",
]
# How many weeks of an account are drawn, of how many accounts in a journal, and how many runs there are at once.
ACCOUNT_WEEKS, ACCOUNTS, AT_ONCE = 2_000, 40, 4


def pence(column):
    """The amounts of a column together."""
    return sum(int(text.replace(".", "")) for text in column if text)


class Long(Theme):
    """The long statement."""

    def journal(self, lines):
        return written(self.folder, "journal", in_lines(lines))

    def closed(self, commands):
        """The journal and the ledger that a session with these lines leaves."""
        journal, ledger = (os.path.join(self.folder, it) for it in ("journal", "ledger"))
        came = run(["run", SAMPLE, LONDON, "--journal", journal, "--ledger", ledger], in_lines(commands))
        self.check("the session", (came.status, came.errors), (0, b""))
        return journal, ledger

    def test_weeks_by_hand(self):
        """Each of these weeks, whatever the order of the lines is."""
        for name, (lines, day, rows) in LONG.items():
            for order, its in (("", lines), (", sent backwards", lines[::-1])):
                self.check(f"{name}{order}", long_stated(self.journal(its), 7, day), long_rows(*rows))

    def test_names(self):
        """Places have the names of the fare file; a name with a comma or a quotation mark stands in quotation marks."""
        text = bytes_of(SAMPLE).decode()
        for place, name in NAMES.items():
            text = text.replace(f"place = {place},", f"place = {place}, name = {name},")
        fares = written(self.folder, "named.toml", text.encode())
        journal = self.journal(taps_of([*ZONE_DAY[:2], (1704715200, 12, "OUT"), (1704718800, 14, "IN"), (1704722400, 50, "BUS")]))
        self.check(
            "names",
            long_stated(journal, 7, MONDAY, fares=fares),
            long_rows(
                f"2024-01-08,RAIL,{ABBEY},{CASTLE},07:00:00,07:20:00,3.40,", f"2024-01-08,LONE,,,{CASTLE},12:00:00,,8.60,",
                "2024-01-08,LONE,14,,,,13:00:00,,8.60,", "2024-01-08,BUS,50,Castle Road,,,14:00:00,,1.75,",
            ),
        )

    def test_days_and_folders(self):
        """By whichever of its days the week is asked for, and by a folder of journals."""
        lines, _, rows = LONG["a capped day, and a lone tap"]
        folder = new_folder(self.folder, "journals")
        for number in range(3):
            written(folder, f"{number}.lines", in_lines([*lines[number::3], f"TAP 9 {number} 8 1704697200 51 BUS"]))
        for journal in (self.journal(lines), folder):
            for day in (*WEEK_DAYS, "2024-01-10"):
                self.check(f"by day {day}", long_stated(journal, 7, day), long_rows(*rows))

    def test_postings(self):
        """What was posted for the week, below 0 what was given back; without a ledger, nothing."""
        journal, ledger = self.closed(CLOSED)
        for day in (19730, 19736):
            came = long_stated(journal, 7, day, "--ledger", ledger)
            self.check(f"postings, by day {day}", came, long_rows(*WITH_POSTINGS))
        self.check("without a ledger", long_stated(journal, 7, 19730), long_rows(*WITH_POSTINGS[:3]))
        self.check("the week after", long_stated(journal, 7, 19737, "--ledger", ledger), long_rows())
        self.check(
            "the account beside it",
            long_stated(journal, 8, 19730, "--ledger", ledger),
            long_rows(BOARDED_AT_SEVEN, "2024-01-08,POSTED,,,,,,,,1.75", "2024-01-09,POSTED,,,,,,,,0.00"),
        )
        first = long_stated(journal, 7, 19730, "--ledger", ledger)
        self.check("the same again", long_stated(journal, 7, 19730, "--ledger", ledger), first)

    def test_what_is_refused(self):
        """Files that are not there or are none, and a line that is not accepted."""
        journal, ledger = self.closed(CLOSED)
        none, empty = os.path.join(self.folder, "none"), new_folder(self.folder, "empty")
        text = written(self.folder, "text", b"no ledger at all, but some bytes of text\n")
        self.check("no journal", long_stated(MISSING, 7, MONDAY), fault("cannot use journal"))
        self.check("an empty folder", long_stated(empty, 7, MONDAY), fault("cannot use journal"))
        self.check("no fare file", long_stated(journal, 7, MONDAY, fares=MISSING), fault("cannot read fares"))
        self.check("no zone", long_stated(journal, 7, MONDAY, zone="London"), fault("bad zone"))
        self.check("no ledger", long_stated(journal, 7, MONDAY, "--ledger", none), fault("no such ledger"))
        self.check("a text as a ledger", long_stated(journal, 7, MONDAY, "--ledger", text), fault("40 NotALedger"))
        self.check("no file is made", os.path.exists(none), False)
        path = self.journal(["TAP 1 1 8 1704697200 51 BUS", "TAP 1 2 7 1704697200 51 BUS"])
        self.check("a bad line", long_stated(path, 7, MONDAY), bad_line(2, "15 UnknownPlace", path=path))

    @staticmethod
    def drawn(seed, fares):
        """The accounts of a drawn week, what is posted for them by closes among its lines, and all these lines."""
        draw, accounts, ledger, lines = random.Random(seed), {}, {}, []
        commands = [*loads.corrected_week(draw, ACCOUNTS)]
        for at in sorted(draw.sample(range(len(commands)), 3), reverse=True):
            commands.insert(at, rules.Close(MONDAY + 6))
        for command in commands:
            if not rules.reply(fares, accounts, command, ledger).startswith("NO"):
                lines.append(rules.line(command).rstrip("\n"))
        return accounts, ledger, lines

    def stated_week(self, seed):
        """The accounts of a drawn week, what is posted for them, what the session with its lines came to, and each one's
        long statement. One run at a time has a ledger."""
        accounts, ledger, lines = self.drawn(seed, rules.SAMPLE)
        journal, path = (os.path.join(self.folder, f"{seed}.{it}") for it in ("journal", "ledger"))
        came = run(["run", SAMPLE, LONDON, "--journal", journal, "--ledger", path], in_lines(lines))
        return accounts, ledger, came, [long_stated(journal, number, MONDAY, "--ledger", path) for number in accounts]

    def test_drawn_weeks(self):
        """2,000 weeks of an account: the rows by the second reckoning, whose amounts add up to what is due through Sunday,
        and whose postings to what the ledger has of the account and the week."""
        with ThreadPoolExecutor(AT_ONCE) as runs:
            weeks = list(runs.map(self.stated_week, range(ACCOUNT_WEEKS // ACCOUNTS)))
        for seed, (accounts, ledger, ran, came) in enumerate(weeks):
            self.check(f"the session of week {seed}", (ran.status, ran.errors), (0, b""))
            for (number, account), it in zip(accounts.items(), came):
                postings = ledger.get((number, MONDAY), [])
                rows = list(csv.reader(io.StringIO(it.output.decode(), newline="")))
                name = f"account {number} of week {seed}"
                self.check(name, rows, rules.long_statement(rules.SAMPLE, account, MONDAY, postings))
                columns = list(zip(*rows[1:])) or [()] * len(rules.LONG_COLUMNS)
                self.check(
                    f"{name}, its sums",
                    (pence(columns[-2]), pence(columns[-1])),
                    (rules.owed(rules.SAMPLE, account, MONDAY + 6)[0], sum(posting.amount for posting in postings)),
                )
