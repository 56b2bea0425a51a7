"""Why a day and a week were charged, by hand, and of drawn weeks by the second reckoning of tests/oracle/rules.py."""

import datetime
import itertools
import os
import random
import re

from oracle import loads, rules
from support.journals import bad_line, new_folder
from support.repository import BUS, COUNTED, LONDON, ROOT, SAMPLE, TWO
from support.running import MISSING, MONDAY, SEVEN, WEEK_DAYS, answers, bytes_of, fault, in_lines, run, taps_of, written
from support.sessions import BUS_DAY, BUS_WEEK, FILLED, TRAIN_AND_BUS_WEEK, ZONE_DAY
from support.theme import Theme


def explain(journal, account, day, *more, fares=SAMPLE, zone=LONDON):
    """What comes of the question why an account's day was charged, by a journal."""
    return run(["explain", fares, zone, str(account), str(day), "--journal", journal, *more])


# The first lines for account 7.
ON_MONDAY = "account 7, day 19730, 2024-01-08, in GBP"
THROUGH_MONDAY = "account 7, week from day 19730, 2024-01-08, through day 19730, 2024-01-08, in GBP"


def dated(day):
    """A service day with its date, by Python's calendar."""
    return f"day {day}, {datetime.date(1970, 1, 1) + datetime.timedelta(days=day)}"


def sums(amount, maximum, day):
    """The last lines of a day that no band caps."""
    return [
        f"{amount:>7}  all but maximum fares, without a cap", f"{maximum:>7}  maximum fares", f"{day:>7}  the day"
    ]


def correction(words):
    """The line of a correction."""
    return " " * 9 + words


def week_sums(days, maximum, week, *given, taken, due):
    """The last lines of a week that no band caps."""
    return [
        f"{days:>7}  these days, without a week cap", f"{maximum:>7}  maximum fares of these days",
        f"{week:>7}  the week", *given, f"{taken:>7}  Credits, taken off", f"{due:>7}  due",
    ]


def ride(*instants, places=(10, 12)):
    """An In and an Out."""
    return [(utc, place, kind) for utc, place, kind in zip(instants, places, ("IN", "OUT"))]


TEN_TO_TWELVE = "rail 10 to 12, zones 1 to 2"
# Taps of account 7, and the text of Monday, or of the day that stands before it.
DAYS = {
    "four journeys, capped by a band of zones": (
        ZONE_DAY, MONDAY,
        [
            ON_MONDAY,
            "   3.40  07:00:00 rail 10 to 12, zones 1 to 2, peak (morning)",
            "   3.40  07:30:00 rail 12 to 10, zones 1 to 2, peak (morning)",
            "   3.40  08:00:00 rail 10 to 12, zones 1 to 2, peak (morning)",
            "   1.80  10:00:00 rail 14 to 13, zone 3, off-peak",
            "  12.00  all but maximum fares, without a cap",
            "  10.50  by the cap of zones 1 to 3, in place of 12.00",
            "   0.00  outside of it",
            "   0.00  maximum fares",
            "  10.50  the day",
        ],
    ),
    # Of 340, 340, 340, 180 and a lone In: 890 for zones 1 to 2 and 180 are more than 1050.
    "the same up to 08:20, and a lone tap": (
        [*ZONE_DAY[:6], (1704708000, 14, "IN")], MONDAY,
        [
            ON_MONDAY,
            "   3.40  07:00:00 rail 10 to 12, zones 1 to 2, peak (morning)",
            "   3.40  07:30:00 rail 12 to 10, zones 1 to 2, peak (morning)",
            "   3.40  08:00:00 rail 10 to 12, zones 1 to 2, peak (morning)",
            "   8.60  10:00:00 rail in at 14, maximum fare: no tap out comes next",
            "  10.20  all but maximum fares, without a cap",
            "   8.90  by the cap of zones 1 to 2, in place of 10.20",
            "   0.00  outside of it",
            "   8.60  maximum fares",
            "  17.50  the day",
        ],
    ),
    "four boardings, capped by the bus band": (
        BUS_DAY, MONDAY,
        [
            ON_MONDAY,
            "   1.75  08:00:00 bus 50, paid: the first boarding",
            "   1.75  10:00:00 bus 50, paid: more than 3600 s after the boarding at 08:00:00",
            "   1.75  12:00:00 bus 50, paid: more than 3600 s after the boarding at 10:00:00",
            "   1.75  14:00:00 bus 50, paid: more than 3600 s after the boarding at 12:00:00",
            "   7.00  all but maximum fares, without a cap",
            "   5.25  by the cap of buses, in place of 7.00",
            "   0.00  outside of it",
            "   0.00  maximum fares",
            "   5.25  the day",
        ],
    ),
    # The three boardings again, and a ride in zone 3, which the bus band leaves outside: 525 and 180, or 880.
    "four boardings, and a ride that the bus band leaves outside": (
        [*BUS_DAY, *ride(1704729600, 1704730200, places=(14, 13))], MONDAY,
        [
            ON_MONDAY,
            "   1.75  08:00:00 bus 50, paid: the first boarding",
            "   1.75  10:00:00 bus 50, paid: more than 3600 s after the boarding at 08:00:00",
            "   1.75  12:00:00 bus 50, paid: more than 3600 s after the boarding at 10:00:00",
            "   1.75  14:00:00 bus 50, paid: more than 3600 s after the boarding at 12:00:00",
            "   2.00  16:00:00 rail 14 to 13, zone 3, peak (evening)",
            "   9.00  all but maximum fares, without a cap",
            "   5.25  by the cap of buses, in place of 7.00",
            "   2.00  outside of it",
            "   0.00  maximum fares",
            "   7.25  the day",
        ],
    ),
    "the Hopper rule": (
        [(1704697200, 50, "BUS"), (1704700200, 50, "BUS"), (1704702200, 50, "BUS")], MONDAY,
        [
            ON_MONDAY,
            "   1.75  07:00:00 bus 50, paid: the first boarding",
            "   0.00  07:50:00 bus 50, free: within 3600 s of the boarding at 07:00:00",
            "   1.75  08:23:20 bus 50, paid: more than 3600 s after the boarding at 07:00:00",
            *sums("3.50", "0.00", "3.50"),
        ],
    ),
    "a boarding that one of the day before makes free": (
        [(1704687600, 50, "BUS"), (1704688200, 50, "BUS")], MONDAY,
        [
            ON_MONDAY,
            "   0.00  04:30:00 bus 50, free: within 3600 s of the boarding on day 19729, 2024-01-07, at 04:20:00",
            *sums("0.00", "0.00", "0.00"),
        ],
    ),
    "two linked legs": (
        [*ride(SEVEN, SEVEN + 1_200, places=(14, 12)), *ride(SEVEN + 2_400, SEVEN + 3_000, places=(10, 11))], MONDAY,
        [
            ON_MONDAY, "   3.70  07:00:00 rail 14 to 11 by 2 legs, zones 1 to 3, peak (morning)",
            *sums("3.70", "0.00", "3.70"),
        ],
    ),
    "two legs that a second too much parts": (
        [*ride(SEVEN, SEVEN + 1_200, places=(14, 12)), *ride(SEVEN + 2_401, SEVEN + 3_000, places=(10, 11))], MONDAY,
        [
            ON_MONDAY,
            "   2.10  07:00:00 rail 14 to 12, zones 2 to 3, peak (morning)",
            "   2.80  07:40:01 rail 10 to 11, zone 1, peak (morning)",
            *sums("4.90", "0.00", "4.90"),
        ],
    ),
    "as long as a leg may last": (
        ride(SEVEN, SEVEN + 6_000), MONDAY,
        [ON_MONDAY, f"   3.40  07:00:00 {TEN_TO_TWELVE}, peak (morning)", *sums("3.40", "0.00", "3.40")],
    ),
    "a second longer than a leg may last": (
        ride(SEVEN, SEVEN + 6_001), MONDAY,
        [
            ON_MONDAY,
            "   8.60  07:00:00 rail in at 10, maximum fare: the tap out at 08:40:01 is more than 6000 s later",
            "   8.60  08:40:01 rail out at 12, maximum fare: the tap in at 07:00:00 is more than 6000 s earlier",
            *sums("0.00", "17.20", "17.20"),
        ],
    ),
    "out again at once": (
        ride(SEVEN, SEVEN + 120, places=(10, 10)), MONDAY,
        [ON_MONDAY, "   0.00  07:00:00 rail in and out at 10, free: out after 120 s", *sums("0.00", "0.00", "0.00")],
    ),
    "out again a second later": (
        ride(SEVEN, SEVEN + 121, places=(10, 10)), MONDAY,
        [
            ON_MONDAY, "   2.80  07:00:00 rail in and out at 10, out after 121 s, zone 1, peak (morning)",
            *sums("2.80", "0.00", "2.80"),
        ],
    ),
    "on a holiday": (
        ride(SEVEN - 7 * 86_400, SEVEN - 7 * 86_400 + 1_200), 19723,
        [
            "account 7, day 19723, 2024-01-01, in GBP", f"   2.80  07:00:00 {TEN_TO_TWELVE}, off-peak (public holiday)",
            *sums("2.80", "0.00", "2.80"),
        ],
    ),
    "on a Saturday": (
        ride(SEVEN + 5 * 86_400, SEVEN + 5 * 86_400 + 1_200), 19735,
        [
            "account 7, day 19735, 2024-01-13, in GBP", f"   2.80  07:00:00 {TEN_TO_TWELVE}, off-peak (weekend)",
            *sums("2.80", "0.00", "2.80"),
        ],
    ),
    "into zone 1 in the evening": (
        ride(1704733200, 1704734400, places=(12, 10)), MONDAY,
        [
            ON_MONDAY, "   2.80  17:00:00 rail 12 to 10, zones 1 to 2, off-peak (evening, into zone 1)",
            *sums("2.80", "0.00", "2.80"),
        ],
    ),
    "at noon": (
        ride(1704715200, 1704716400), MONDAY,
        [ON_MONDAY, f"   2.80  12:00:00 {TEN_TO_TWELVE}, off-peak", *sums("2.80", "0.00", "2.80")],
    ),
    # 2024-02-29 is day 19782, and 2024-03-01 the day after it.
    "on a leap day": (
        [(19782 * 86_400 + 25_200, 50, "BUS")], 19782,
        [
            "account 7, day 19782, 2024-02-29, in GBP", "   1.75  07:00:00 bus 50, paid: the first boarding",
            *sums("1.75", "0.00", "1.75"),
        ],
    ),
    "on the day after it": ([], 19783, ["account 7, day 19783, 2024-03-01, in GBP", *sums("0.00", "0.00", "0.00")]),
    "on the first day": ([], 4, ["account 7, day 4, 1970-01-05, in GBP", *sums("0.00", "0.00", "0.00")]),
    # 2099-12-31 is day 47,481. The six years after it have 2,191 days, since 2104 has 366, and 328 more are left: the
    # 328th day of 2106.
    "on the last day": ([], 50_000, ["account 7, day 50000, 2106-11-24, in GBP", *sums("0.00", "0.00", "0.00")]),
}

A_POUND = "   1.00  Credit 3 2 of day 19730, 2024-01-08"
# What customer service does about an In alone, by what a journal has then: the text of the day, and that of its week.
CORRECTED = {
    "an In alone": (
        1,
        [
            "   8.60  07:00:00 rail in at 10, maximum fare: no tap out comes next", *sums("0.00", "8.60", "8.60"),
        ],
        ["   0.00  day 19730, 2024-01-08", *week_sums("0.00", "8.60", "8.60", taken="0.00", due="8.60")],
    ),
    "the Out filled, and a Credit": (
        3,
        [
            f"   3.40  07:00:00 {TEN_TO_TWELVE}, peak (morning)", *sums("3.40", "0.00", "3.40"),
            correction("Fill 3 1 of rail out at 12 at 07:30:00: stands"), correction("Credit 3 2 of 1.00: stands"),
        ],
        [
            "   3.40  day 19730, 2024-01-08",
            *week_sums("3.40", "0.00", "3.40", A_POUND, taken="1.00", due="2.40"),
        ],
    ),
    "the In voided": (
        4,
        [
            "   8.60  07:30:00 rail out at 12, maximum fare: no tap in comes right before",
            *sums("0.00", "8.60", "8.60"),
            correction("Fill 3 1 of rail out at 12 at 07:30:00: stands"), correction("Credit 3 2 of 1.00: stands"),
            correction("Void 3 3 of tap 1 1, rail in at 10 at 07:00:00: stands"),
        ],
        [
            "   0.00  day 19730, 2024-01-08",
            *week_sums("0.00", "8.60", "8.60", A_POUND, taken="1.00", due="7.60"),
        ],
    ),
    "the Fill dropped": (
        5,
        [
            *sums("0.00", "0.00", "0.00"), correction("Fill 3 1 of rail out at 12 at 07:30:00: withdrawn by 3 4"),
            correction("Credit 3 2 of 1.00: stands"),
            correction("Void 3 3 of tap 1 1, rail in at 10 at 07:00:00: stands"),
            correction("Drop 3 4 of 3 1: stands"),
        ],
        [
            "   0.00  day 19730, 2024-01-08",
            *week_sums("0.00", "0.00", "0.00", A_POUND, taken="1.00", due="0.00"),
        ],
    ),
}
CORRECTIONS = [
    "TAP 1 1 7 1704697200 10 IN", "FIX 3 1 7 FILL 1704699000 12 OUT", "FIX 3 2 7 CREDIT 19730 100",
    "FIX 3 3 7 VOID 1 1", "FIX 3 4 7 DROP 3 1",
]

# Taps of account 7, through which day, and the text of that week.
WEEKS = {
    "a capped day": (
        ZONE_DAY, MONDAY,
        [
            THROUGH_MONDAY, "  10.50  day 19730, 2024-01-08",
            *week_sums("10.50", "0.00", "10.50", taken="0.00", due="10.50"),
        ],
    ),
    "buses, up to the week's cap": (
        BUS_WEEK, 19734,
        [
            "account 7, week from day 19730, 2024-01-08, through day 19734, 2024-01-12, in GBP",
            *(f"   5.25  {dated(day)}" for day in range(MONDAY, MONDAY + 5)),
            "  26.25  these days, without a week cap",
            "  24.70  by the cap of buses, in place of 26.25",
            "   0.00  outside of it",
            "   0.00  maximum fares of these days",
            "  24.70  the week",
            "   0.00  Credits, taken off",
            "  24.70  due",
        ],
    ),
    "the same through Thursday": (
        BUS_WEEK, 19733,
        [
            "account 7, week from day 19730, 2024-01-08, through day 19733, 2024-01-11, in GBP",
            *(f"   5.25  {dated(day)}" for day in range(MONDAY, MONDAY + 4)),
            *week_sums("21.00", "0.00", "21.00", taken="0.00", due="21.00"),
        ],
    ),
    # A lone tap of the Sunday comes on top of the cap.
    "trains and buses, and a lone tap": (
        [*TRAIN_AND_BUS_WEEK, (SEVEN + 6 * 86_400, 12, "OUT")], 19736,
        [
            "account 7, week from day 19730, 2024-01-08, through day 19736, 2024-01-14, in GBP",
            *(f"  10.50  {dated(day)}" for day in range(MONDAY, MONDAY + 6)),
            "   0.00  day 19736, 2024-01-14",
            "  63.00  these days, without a week cap",
            "  52.50  by the cap of zones 1 to 3, in place of 63.00",
            "   0.00  outside of it",
            "   8.60  maximum fares of these days",
            "  61.10  the week",
            "   0.00  Credits, taken off",
            "  61.10  due",
        ],
    ),
    "a week without taps": (
        [], 19731,
        [
            "account 7, week from day 19730, 2024-01-08, through day 19731, 2024-01-09, in GBP",
            "   0.00  day 19730, 2024-01-08",
            "   0.00  day 19731, 2024-01-09", *week_sums("0.00", "0.00", "0.00", taken="0.00", due="0.00"),
        ],
    ),
}


# Of places of examples/sample.toml, what stands at `name` in TOML.
NAMES = {10: '"Abbey"', 12: '"Castle"', 50: '"Castle Road"'}
NAMED_DAY = [
    *taps_of([
        *ride(SEVEN, SEVEN + 1_200), (SEVEN + 3_600, 50, "BUS"), (SEVEN + 5_400, 50, "BUS"),
        *ride(SEVEN + 10_800, SEVEN + 12_000, places=(14, 12)), (SEVEN + 14_400, 12, "OUT"),
    ]),
    "FIX 3 1 7 FILL 1704715200 10 IN", "FIX 3 2 7 VOID 1 4",
]
NAMED_TEXT = [
    ON_MONDAY,
    "   3.40  07:00:00 rail Abbey (10) to Castle (12), zones 1 to 2, peak (morning)",
    "   1.75  08:00:00 bus Castle Road (50), paid: the first boarding",
    "   1.95  10:00:00 rail 14 to Castle (12), zones 2 to 3, off-peak",
    "   8.60  11:00:00 rail out at Castle (12), maximum fare: no tap in comes right before",
    "   8.60  12:00:00 rail in at Abbey (10), maximum fare: no tap out comes next",
    *sums("7.10", "17.20", "24.30"),
    correction("Fill 3 1 of rail in at Abbey (10) at 12:00:00: stands"),
    correction("Void 3 2 of tap 1 4, bus Castle Road (50) at 08:30:00: stands"),
]
# What stands at `name` of station 10, and how it is then told.
NO_NAMES = {
    "65 characters": ('"' + "x" * 65 + '"', "10"), "a newline": ('"Ab\\nbey"', "10"), "an empty text": ('""', "10"),
    "a number": ("10", "10"), "a delete": ('"Ab\\u007fbey"', "10"), "U+0085": ('"Ab\\u0085bey"', "10"),
    "a table": ('{ en = "Abbey" }', "10"), "64 characters": ('"' + "\u00fc" * 64 + '"', "\u00fc" * 64 + " (10)"),
    "a space": ('" "', "  (10)"), "quotes": ("""'"10" (12)'""", '"10" (12) (10)'),
}


def named(names):
    """The text of examples/sample.toml with names of places."""
    text = bytes_of(SAMPLE).decode()
    for place, name in names.items():
        text = text.replace(f"place = {place},", f"place = {place}, name = {name},")
    return text.encode()


# What a fare file says of its currency, and the currency.
CURRENCIES = {
    '"EUR"': "EUR", '"GBP"': "GBP", '"eur"': "GBP", '"EURO"': "GBP", '"EU"': "GBP", '"E1R"': "GBP", "978": "GBP",
}


class ByHand(Theme):
    """Texts that were worked out from docs/RULES.md."""

    def journal(self, lines):
        return written(self.folder, "journal", in_lines(lines))

    def test_days(self):
        """Each of these days, whatever the order of the journal's lines is."""
        for name, (taps, day, text) in DAYS.items():
            lines = taps_of(taps)
            for order, its in (("", lines), (", sent backwards", lines[::-1])):
                self.check(f"a day: {name}{order}", explain(self.journal(its), 7, day), answers(in_lines(text)))

    def test_weeks(self):
        """Each of these weeks."""
        for name, (taps, day, text) in WEEKS.items():
            self.check(
                f"a week: {name}", explain(self.journal(taps_of(taps)), 7, day, "--week"), answers(in_lines(text))
            )

    def test_corrections(self):
        """An In alone, and what customer service does about it."""
        for name, (count, day, week) in CORRECTED.items():
            journal = self.journal(CORRECTIONS[:count])
            self.check(f"{name}, the day", explain(journal, 7, MONDAY), answers(in_lines([ON_MONDAY, *day])))
            self.check(
                f"{name}, the week", explain(journal, 7, MONDAY, "--week"), answers(in_lines([THROUGH_MONDAY, *week]))
            )

    def test_names(self):
        """Places by their names, and by their numbers alone where these are none. No file is refused for a name."""
        fares = written(self.folder, "named.toml", named(NAMES))
        self.check("names", explain(self.journal(NAMED_DAY), 7, MONDAY, fares=fares), answers(in_lines(NAMED_TEXT)))
        self.check("a check of a file with names", run(["check", fares]), answers(COUNTED))
        journal = self.journal(taps_of(ride(SEVEN, SEVEN + 1_200)))
        for name, (text, told) in NO_NAMES.items():
            fares = written(self.folder, "named.toml", named({10: text}))
            wanted = [
                ON_MONDAY, f"   3.40  07:00:00 rail {told} to 12, zones 1 to 2, peak (morning)",
                *sums("3.40", "0.00", "3.40"),
            ]
            self.check(f"named by {name}", explain(journal, 7, MONDAY, fares=fares), answers(in_lines(wanted)))
            self.check(f"named by {name}, a check", run(["check", fares]), answers(COUNTED))

    def test_currencies(self):
        """The currency of the fare file, and pounds where that is none. No file is refused for it."""
        journal = self.journal([])
        for said, currency in CURRENCIES.items():
            fares = written(self.folder, "fares.toml", f"currency = {said}\n".encode() + bytes_of(SAMPLE))
            for more, text in (((), "day 19730, 2024-01-08"), (("--week",), THROUGH_MONDAY[11:-8])):
                came = explain(journal, 7, MONDAY, *more, fares=fares)
                first = came.output.decode().splitlines()[0]
                self.check(f"currency {said}{more}", first, f"account 7, {text}, in {currency}")
            self.check(f"a check of a file with currency {said}", run(["check", fares]), answers(COUNTED))

    def test_readme(self):
        """The text in README.md, by the session above it, with the day by its date."""
        lines = bytes_of(f"{ROOT}/examples/late-tap.txt").decode().splitlines()
        text = re.search(r"```text\n(account 7, .*?)```\n", bytes_of(f"{ROOT}/README.md").decode(), re.S)[1]
        journal = self.journal([line for line in lines if line.startswith("TAP")])
        self.check("the text in README.md", explain(journal, 7, "2024-01-08", fares=BUS), answers(text.encode()))

    def test_other_accounts(self):
        """An account is told by what it has accepted alone. One that has accepted nothing, or is unknown, pays
        nothing."""
        lines = [line for line, reply in FILLED if not line.startswith("SHOW") and not reply.startswith("NO")]
        journal = self.journal(lines)
        for account, rides in (
            (7, [
                *sums("0.00", "0.00", "0.00"), correction("Fill 3 1 of rail out at 12 at 07:30:00: withdrawn by 3 3"),
                correction("Credit 3 2 of 1.00: stands"), correction("Drop 3 3 of 3 1: stands"),
                correction("Void 3 4 of tap 1 1, rail in at 10 at 07:00:00: stands"),
                correction("Void 3 5 of tap 9 9: names nothing"),
            ]),
            (8, [
                "   3.70  07:00:00 rail 14 to 11 by 2 legs, zones 1 to 3, peak (morning)",
                *sums("3.70", "0.00", "3.70"), correction("Fill 3 1 of rail out at 12 at 07:20:00: stands"),
                correction("Fill 3 2 of rail in at 10 at 07:40:00: stands"),
            ]),
            (9, sums("0.00", "0.00", "0.00")),
            (4_294_967_295, sums("0.00", "0.00", "0.00")),
        ):
            self.check(
                f"account {account}",
                explain(journal, account, MONDAY),
                answers(in_lines([f"account {account}, {dated(MONDAY)}, in GBP", *rides])),
            )


# A journal with a line that is not accepted, its number, and why.
BAD_JOURNALS = {
    "an unknown place": (["TAP 1 1 7 1704697200 50 BUS", "TAP 1 2 7 1704697200 51 BUS"], 2, "15 UnknownPlace"),
    "a conflict": (
        ["TAP 1 1 7 1704697200 50 BUS", "TAP 1 1 8 1704697200 50 BUS", "TAP 1 1 7 1704697201 50 BUS"], 3, "20 Conflict"
    ),
    "a question": (["DUE 7 19730"], 1, "50 BadLine"),
    "no line": (["TAP 1 1 7 1704697200 50 BUS", ""], 2, "50 BadLine"),
    "a line that is too long": (["TAP 1 1 7 1704697200 50 BUS", 129 * "7"], 2, "50 BadLine"),
    "a place after those of others": (
        ["TAP 1 1 8 1704697200 51 BUS", "TAP 1 2 7 1704697200 50 BUS", "TAP 1 3 9 1704697200 50 BUS",
         "FIX 1 1 7 FILL 1704697300 51 BUS", "TAP 1 4 7 1704697200 51 BUS"], 4, "15 UnknownPlace"
    ),
}
# Lines of which none but the second is accepted: an unknown place, a number that is there, and an instant that is too early.
REFUSED_OF_OTHERS = (
    "TAP 9 1 8 1704697200 51 BUS", "TAP 9 2 8 1704697200 50 BUS", "TAP 9 2 8 1704697201 50 BUS", "TAP 9 3 77 1 50 BUS"
)


class Journals(Theme):
    """Journals, folders of them, and what is no journal."""

    def folder_of(self, parts, name="journals"):
        """A folder with these lines in the journals of these numbers."""
        path = new_folder(self.folder, name)
        for number, lines in parts.items():
            written(path, f"{number}.lines", in_lines(lines))
        return path

    def test_folders(self):
        """A folder of journals, of which some may be missing, tells the same as one journal of its lines."""
        lines = taps_of(ZONE_DAY)
        _, day, text = DAYS["four journeys, capped by a band of zones"]
        wanted = answers(in_lines(text))
        for name, parts in (
            ("the first and the last journal", {0: lines[::2], 15: lines[1::2]}),
            ("the second half first", {3: lines[4:], 4: lines[:4]}),
            ("some of the lines twice", {1: lines[:6], 2: lines[3:]}),
            ("one journal, and an empty one", {7: lines, 8: []}),
        ):
            self.check(name, explain(self.folder_of(parts, name), 7, day), wanted)

    def test_lines_that_are_not_accepted(self):
        """They are told by the path of their journal."""
        for name, (lines, number, why) in BAD_JOURNALS.items():
            path = written(self.folder, "journal", in_lines(lines))
            for more in ((), ("--week",)):
                self.check(f"{name}{more}", explain(path, 7, MONDAY, *more), bad_line(number, why, path=path))
            folder = self.folder_of({2: ["TAP 9 9 7 1704697200 50 BUS"], 11: lines}, name)
            self.check(
                f"{name} in a folder", explain(folder, 7, MONDAY), bad_line(number, why, path=f"{folder}/11.lines")
            )

    def test_lines_of_others(self):
        """Those that are not accepted are passed over, as those that are, wherever they stand."""
        taps, day, text = DAYS["the Hopper rule"]
        lines = taps_of(taps)
        for name, others in (
            ("before", [*REFUSED_OF_OTHERS, *lines]), ("after", [*lines, *REFUSED_OF_OTHERS]),
            ("between", [line for pair in zip(REFUSED_OF_OTHERS, lines) for line in pair] + lines),
        ):
            path = written(self.folder, "journal", in_lines(others))
            self.check(f"others' lines {name}", explain(path, 7, day), answers(in_lines(text)))
            self.check(f"the same lines, replayed: {name}", run(["replay", SAMPLE, LONDON, path]).status, 1)

    def test_rests(self):
        """What stands after the last newline of a journal is no line."""
        _, day, text = DAYS["the Hopper rule"]
        lines = in_lines(taps_of(DAYS["the Hopper rule"][0]))
        path = written(self.folder, "journal", lines + b"TAP 1 9 7 17047")
        self.check("a line that is cut off", explain(path, 7, day), answers(in_lines(text)))

    def test_what_is_no_journal(self):
        """Journals and fare files that are not there, and a zone that is none."""
        empty = new_folder(self.folder, "empty")
        journal = written(self.folder, "journal", b"")
        self.check("no journal", explain(MISSING, 7, MONDAY), fault("cannot use journal"))
        self.check("an empty folder", explain(empty, 7, MONDAY), fault("cannot use journal"))
        self.check("no fare file", explain(journal, 7, MONDAY, fares=MISSING), fault("cannot read fares"))
        self.check("no zone", explain(journal, 7, MONDAY, zone="London"), fault("bad zone"))

    def test_nothing_is_changed(self):
        """The journal stays as it is, and nothing is put beside it."""
        lines = in_lines(taps_of(BUS_DAY)) + b"TAP 1"
        path = written(self.folder, "journal", lines)
        explain(path, 7, MONDAY)
        with open(path, "rb") as it:
            self.check("the bytes of the journal", it.read(), lines)
        self.check("the files of its folder", os.listdir(self.folder), ["journal"])


# A session over a ledger: an In alone of account 7 is closed at the maximum fare, then with its Out, then with a
# boarding of the next day, and a Credit comes after all closes. What is due is 860, 340 and 515, of which 175 fall to
# operator 4, whose route 50 is; account 8 has a boarding of Monday.
CLOSED = [
    "TAP 1 1 7 1704697200 10 IN", "TAP 2 1 8 1704697200 50 BUS", "CLOSE 19730", "TAP 1 2 7 1704699000 12 OUT",
    "CLOSE 19730", "TAP 1 3 7 1704783600 50 BUS", "CLOSE 19731", "FIX 3 1 7 CREDIT 19735 100",
]
OF_THE_WEEK = "the week from day 19730, 2024-01-08"


def posting(amount, through, due, then, now, *shares):
    """The lines of a posting, with the shares by operator."""
    ahead = "" if then <= now else "the ledger is ahead of the journal: "
    where = "now" if then <= now else "in the journal"
    return [
        f"{amount:>7}  through {dated(through)}: {due} due; {ahead}taps and corrections accepted: {then} then, "
        f"{now} {where}",
        *(f"{share:>13}  of it to operator {operator}" for operator, share in shares),
    ]


def posted_of_seven(now):
    """What was posted for account 7, which has so many taps and corrections by its journal."""
    return [
        correction(f"posted for {OF_THE_WEEK}:"),
        *posting("8.60", 19730, "8.60", 1, now, (1, "8.60")),
        *posting("-5.20", 19730, "3.40", 2, now, (1, "-5.20")),
        *posting("1.75", 19731, "5.15", 3, now, (4, "1.75")),
    ]


class Ledgers(Theme):
    """What was posted, below the text without a ledger."""

    def close(self):
        """The session that is closed: its journal and its ledger."""
        journal, ledger = (os.path.join(self.folder, name) for name in ("journal", "ledger"))
        came = run(["run", SAMPLE, LONDON, "--journal", journal, "--ledger", ledger], in_lines(CLOSED))
        self.check("the session", (came.status, came.errors), (0, b""))
        return journal, ledger

    def test_what_was_posted(self):
        """The postings of the account and the week of a day, whichever day of it is asked for."""
        journal, ledger = self.close()
        nothing = correction(f"nothing was posted for {OF_THE_WEEK}")
        of_eight = [
            correction(f"posted for {OF_THE_WEEK}:"), *posting("1.75", 19730, "1.75", 1, 1, (4, "1.75")),
            *posting("0.00", 19731, "1.75", 1, 1),
        ]
        for account, day, more, posted in (
            (7, MONDAY, [], posted_of_seven(4)), (7, MONDAY, ["--week"], posted_of_seven(4)),
            (7, 19731, [], posted_of_seven(4)), (7, 19736, ["--week"], posted_of_seven(4)), (8, MONDAY, [], of_eight),
            (9, MONDAY, [], [nothing]), (9, 19736, ["--week"], [nothing]),
            (7, 19737, [], [correction("nothing was posted for the week from day 19737, 2024-01-15")]),
            (7, 19729, [], [correction("nothing was posted for the week from day 19723, 2024-01-01")]),
        ):
            without = explain(journal, account, day, *more)
            self.check(
                f"account {account} on day {day} {more}",
                explain(journal, account, day, *more, "--ledger", ledger),
                answers(without.output + in_lines(posted)),
            )

    def test_operators(self):
        """Operators by the names that the fare file gives them, and by their numbers alone where it gives none."""
        journal, ledger = self.close()
        named = b'operators = [{ operator = 1, name = "Metro" }, { operator = 17, name = "None" }]\n' + bytes_of(SAMPLE)
        self.check(
            "operators by their names",
            explain(journal, 7, MONDAY, "--ledger", ledger, fares=written(self.folder, "named.toml", named)),
            answers(
                explain(journal, 7, MONDAY).output
                + in_lines(posted_of_seven(4)).replace(b"operator 1\n", b"operator Metro (1)\n")
            ),
        )

    def test_a_text(self):
        """The whole text of a day."""
        journal, ledger = self.close()
        self.check(
            "Tuesday",
            explain(journal, 7, 19731, "--ledger", ledger),
            answers(in_lines([
                "account 7, day 19731, 2024-01-09, in GBP", "   1.75  07:00:00 bus 50, paid: the first boarding",
                *sums("1.75", "0.00", "1.75"), *posted_of_seven(4),
            ])),
        )

    def test_a_ledger_that_is_ahead(self):
        """Where the journal lacks lines, each posting that had them says so."""
        _, ledger = self.close()
        journal = written(self.folder, "short", in_lines([CLOSED[0], CLOSED[3]]))
        text = explain(journal, 7, MONDAY, "--ledger", ledger)
        self.check("two taps", text, answers(explain(journal, 7, MONDAY).output + in_lines(posted_of_seven(2))))
        journal = written(self.folder, "none", b"")
        text = explain(journal, 7, MONDAY, "--ledger", ledger)
        self.check("none", text, answers(explain(journal, 7, MONDAY).output + in_lines(posted_of_seven(0))))

    def test_what_is_no_ledger(self):
        """A ledger that is not there is not made, and what is none is refused."""
        journal, _ = self.close()
        text = written(self.folder, "text", b"no ledger at all, but some bytes of text\n")
        byte = written(self.folder, "byte", b"\0")
        none = os.path.join(self.folder, "none")
        for name, path, wanted in (
            ("no file", none, "no such ledger"), ("a byte", byte, "no such ledger"),
            ("a text", text, "40 NotALedger"),
        ):
            self.check(name, explain(journal, 7, MONDAY, "--ledger", path), fault(wanted))
        self.check("no file is made", os.path.exists(none), False)
        self.check("the text stays", bytes_of(text), b"no ledger at all, but some bytes of text\n")

    def test_nothing_is_posted(self):
        """A ledger has after it what it had before."""
        journal, ledger = self.close()
        audit = ["audit", SAMPLE, LONDON, "--journal", journal, "--ledger", ledger]
        before, rebuilt = run(audit), run(["rebuild", SAMPLE, ledger])
        first = explain(journal, 7, MONDAY, "--week", "--ledger", ledger)
        self.check("the same again", explain(journal, 7, MONDAY, "--week", "--ledger", ledger), first)
        self.check("an audit", run(audit), before)
        self.check("a rebuild", run(["rebuild", SAMPLE, ledger]), rebuilt)


def pence(line):
    """The amount at the head of a line."""
    return int(line.split()[0].replace(".", ""))


def pounds(amount):
    return f"{amount // 100}.{amount % 100:02}".rjust(7)


def cover(band):
    """What a band covers, in words."""
    if not band.low:
        return "buses"
    return f"zone {band.low}" if band.low == band.high else f"zones {band.low} to {band.high}"


def sums_by_rules(first, last, bands, offers, outside, lone):
    """The lines of sums: `first` and `last` are the words of the first line and of the price's, `offers` what the
    price is without a band and by each, and `outside` what each leaves outside."""
    best = min(offers)
    lines = [f"{pounds(offers[0])}  {first}"]
    if best < offers[0]:
        at = offers[1:].index(best)
        left = outside[at]
        lines += [
            f"{pounds(best - left)}  by the cap of {cover(bands[at])}, in place of {pounds(offers[0] - left).strip()}",
            f"{pounds(left)}  outside of it",
        ]
    of_which = " of these days" if last == "the week" else ""
    return [*lines, f"{pounds(lone)}  maximum fares{of_which}", f"{pounds(best + lone)}  {last}"]


def day_by_rules(fares, day, made):
    """The sums of a day."""
    fares_of, lone = rules.sums(made)
    bands = rules.on(fares, day).bands
    outside = [sum(rules.outside(band, fares_of).values()) for band in bands]
    return sums_by_rules(
        "all but maximum fares, without a cap", "the day", bands, rules.offers(bands, fares_of), outside, lone
    )


def week_by_rules(fares, account, through):
    """The text of a week below its first line."""
    days = rules.by_days(fares, account, rules.monday(through), through)
    split = {day: rules.sums(made) for day, made in days.items()}
    prices = {day: rules.capped(rules.on(fares, day).bands, its) for day, (its, _) in split.items()}
    bands = rules.on(fares, rules.monday(through)).bands
    outside = [
        sum(rules.capped(rules.on(fares, day).bands, rules.outside(band, its)) for day, (its, _) in split.items()
            if rules.outside(band, its))
        for band in bands
    ]
    offers = [sum(prices.values()), *(band.week + left for band, left in zip(bands, outside))]
    credits = sorted(fix for fix in rules.standing(account) if fix.form == "CREDIT" and fix.words[0] in days)
    taken, lone = sum(fix.words[1] for fix in credits), sum(alone for _, alone in split.values())
    return [
        *(f"{pounds(price)}  {dated(day)}" for day, price in prices.items()),
        *sums_by_rules("these days, without a week cap", "the week", bands, offers, outside, lone),
        *(f"{pounds(fix.words[1])}  Credit {fix.staff} {fix.seq} of {dated(fix.words[0])}" for fix in credits),
        f"{pounds(taken)}  Credits, taken off",
        f"{pounds(rules.owed(fares, account, through)[0])}  due",
    ]


def tap_in_words(utc, place, kind):
    where = f"bus {place}" if kind == "BUS" else f"rail {kind.lower()} at {place}"
    return f"{where} at {rules.clock(utc)}"


def subject(account, fix):
    """What a correction is of."""
    if fix.form == "FILL":
        return tap_in_words(*fix.words)
    if fix.form == "CREDIT":
        return pounds(fix.words[1]).strip()
    number = f"{fix.words[0]} {fix.words[1]}"
    if fix.form == "DROP":
        return number
    tap = account.taps.get(fix.words)
    return f"tap {number}, {tap_in_words(tap.utc, tap.place, tap.kind)}" if tap else f"tap {number}"


def effect(account, fix):
    """What a correction does."""
    drops = sorted(it.number for it in account.fixes.values() if it.form == "DROP" and it.words == fix.number)
    if drops and fix.form != "DROP":
        return f"withdrawn by {drops[0][0]} {drops[0][1]}"
    return "names nothing" if rules.day_of_fix(account, fix) is None else "stands"


def corrections_by_rules(account, day):
    """The lines of the corrections about a day, and of those that name none."""
    return [
        correction(f"{fix.form.capitalize()} {fix.staff} {fix.seq} of {subject(account, fix)}: {effect(account, fix)}")
        for _, fix in sorted(account.fixes.items())
        if rules.day_of_fix(account, fix) in (None, day)
    ]


class Drawn(Theme):
    """Weeks that are drawn at random, with corrections among the taps, in folders of journals."""

    def drawn_week(self, draw, path, fares, count):
        """The accounts of a drawn week, a folder with the journals of its accepted lines, and these lines."""
        accounts, lines = {}, []
        for command in loads.corrected_week(draw, count):
            if not rules.reply(fares, accounts, command).startswith("NO"):
                lines.append(rules.line(command).rstrip("\n"))
        draw.shuffle(lines)
        folder = new_folder(self.folder, f"week by {os.path.basename(path)}")
        for number in range(4):
            written(folder, f"{number}.lines", in_lines(lines[number::4]))
        return accounts, folder, in_lines(lines)

    def test_drawn_weeks(self):
        """A line for each journey of a day with its fare and its time, and sums, as by tests/oracle/rules.py."""
        for path, fares in ((BUS, rules.BUS), (SAMPLE, rules.SAMPLE), (TWO, rules.TWO)):
            accounts, folder, _ = self.drawn_week(random.Random(5), path, fares, 8)
            for (number, account), day in itertools.product(accounts.items(), WEEK_DAYS):
                name, made = f"account {number} on day {day} with {path}", rules.by_days(fares, account, day, day)[day]
                came = explain(folder, number, day, fares=path)
                lines = came.output.decode().splitlines()
                self.check(
                    f"{name}, its journeys",
                    [line[:17] for line in lines[1:len(made) + 1]],
                    [f"{pounds(it.fare)}  {rules.clock(it.utc)}" for it in made],
                )
                self.check(
                    f"{name}, its sums, and its corrections",
                    lines[len(made) + 1:],
                    [*day_by_rules(fares, day, made), *corrections_by_rules(account, day)],
                )
                came = explain(folder, number, day, "--week", fares=path)
                self.check(
                    f"{name}, its week", came.output.decode().splitlines()[1:], week_by_rules(fares, account, day)
                )

    def test_what_is_due(self):
        """A text adds up to what a session says: the fares of a day to its sums, these to the price that SHOW gives,
        and a week to what is DUE."""
        accounts, folder, lines = self.drawn_week(random.Random(6), SAMPLE, rules.SAMPLE, 6)
        for number, day in itertools.product(accounts, WEEK_DAYS):
            asked = in_lines([f"SHOW {number} {day}", f"DUE {number} {day}"])
            came = run(["run", SAMPLE, LONDON], lines + asked).output.decode().splitlines()
            shown = next(line.split() for line in came if line.startswith("SHOW"))
            due = next(line.split() for line in came if line.startswith("DUE"))
            text = [
                line for line in explain(folder, number, day).output.decode().splitlines()[1:]
                if not line.startswith(correction(""))
            ]
            journeys, ends = text[:int(shown[3])], [pence(line) for line in text[int(shown[3]):]]
            of_a_band = ends[1:-2] or ends[:1]
            self.check(
                f"the day {day} of account {number}",
                (sum(map(pence, journeys)), sum(of_a_band) + ends[-2], ends[-1]),
                (ends[0] + ends[-2], int(shown[4]), int(shown[4])),
            )
            week = explain(folder, number, day, "--week").output.decode().splitlines()
            self.check(f"the week through day {day} of account {number}", pence(week[-1]), int(due[5]))
