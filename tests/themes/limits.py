"""Accounts, days and fare files as full as they may be, and one more of each."""

from oracle import rules
from support.fares import (
    MOST_BANDS, MOST_CHANGES, MOST_EDITIONS, MOST_FIXES, MOST_HOLIDAYS, MOST_PLACES, MOST_TAPS, SPANS, ZONES, counted,
    zone_of,
)
from support.repository import RUN_SAMPLE
from support.running import A_DAY, MONDAY, RUN, SEVEN, answers, fault, play, run, written
from support.theme import Theme


def full_of(prices, order):
    """As many boardings as an account may have, in this order, each with its price, and what comes before and then."""
    journeys = "".join(f"\nJNY BUS 50 0 {SEVEN + i} {0 if i % 3_601 else 175}" for i in range(MOST_TAPS))
    last = prices[-1]
    then = [
        (f"TAP 1 {MOST_TAPS} 7 {SEVEN + MOST_TAPS} 50 BUS", "NO 21 AccountFull"),
        (f"TAP 2 1 7 {SEVEN - A_DAY} 10 IN", "NO 21 AccountFull"),
        (f"TAP 1 0 7 {SEVEN} 50 BUS", f"AGAIN {MONDAY} {last} {last}"),
        (f"TAP 1 {MOST_TAPS - 1} 7 {SEVEN + MOST_TAPS - 1} 50 BUS", f"AGAIN {MONDAY} {last} {last}"),
        (f"TAP 1 0 7 {SEVEN + 1} 50 BUS", "NO 20 Conflict"),
        (f"TAP 1 {MOST_TAPS} 7 {SEVEN} 51 BUS", "NO 15 UnknownPlace"),
        (f"TAP 1 {MOST_TAPS} 7 604799 50 BUS", "NO 1 OutOfTime"),
        (f"SHOW 7 {MONDAY}", f"SHOW 7 {MONDAY} {MOST_TAPS} {last}{journeys}"),
        (f"DUE 7 {MONDAY}", f"DUE 7 {MONDAY} {MONDAY} {MOST_TAPS + 1} {last} 4={last}"),
        # Without the first boarding the second pays, and each 3,601st from there: as many. It makes no room for
        # another.
        ("FIX 3 2 7 VOID 1 0", f"OK {MONDAY} {last} {last}"),
        (f"TAP 1 {MOST_TAPS} 7 {SEVEN + MOST_TAPS} 50 BUS", "NO 21 AccountFull"),
        (f"FIX 3 3 7 FILL {SEVEN - A_DAY + 1_200} 12 OUT", f"OK {MONDAY - 1} 280 280"),
        (f"TAP 1 1 8 {SEVEN} 50 BUS", f"OK {MONDAY} 175 175"),
    ]
    # Corrections take no room. That of Sunday is of the week before.
    ahead = [(f"FIX 3 1 7 FILL {SEVEN - A_DAY} 10 IN", f"OK {MONDAY - 1} 860 860")]
    return ahead + [
        (f"TAP 1 {i} 7 {SEVEN + i} 50 BUS", f"OK {MONDAY} {price} {price}") for i, price in zip(order, prices)
    ] + then


# What the correction of each sequence number does, the day and the prices in its reply, and what is due with a boarding
# at 07:00.
FULL_OF = {
    "Credits": (lambda seq: f"CREDIT {MONDAY} 1", f"{MONDAY} 0 0", "0"),
    "Fills of boardings": (lambda seq: f"FILL {SEVEN + seq} 50 BUS", f"{MONDAY} 175 175", "175 4=175"),
    "Voids of no tap": (lambda seq: f"VOID 1 {seq}", "0 0 0", "175 4=175"),
    "Drops of themselves": (lambda seq: f"DROP 3 {seq}", "0 0 0", "175 4=175"),
}


class Accounts(Theme):
    """Accounts at their limits."""

    def test_full_account(self):
        """An account of as many taps as it may have, whichever comes first, and what it answers then."""
        # Of boardings a second apart each 3,601st pays.
        prices = [175 * (i // 3_601 + 1) for i in range(MOST_TAPS)]
        for name, given, each, order in (
            ("the first one first", RUN, prices, range(MOST_TAPS)),
            ("the last one first", RUN, prices, reversed(range(MOST_TAPS))),
            ("up to the day's cap", RUN_SAMPLE, [min(price, 525) for price in prices], range(MOST_TAPS)),
        ):
            self.check(f"16,384 taps of one account, {name}", *play(given, full_of(each, order)))

    def test_full_corrections(self):
        """An account of as many corrections as it may have, of each form, and what it answers then."""
        for name, (words, told, due) in FULL_OF.items():
            pairs = [(f"FIX 3 {seq} 7 {words(seq)}", f"OK {told}") for seq in range(MOST_FIXES)]
            for more in ("VOID 1 1", f"FILL {SEVEN} 12 OUT", f"CREDIT {MONDAY} 1", "DROP 3 0", f"DROP 3 {MOST_FIXES}"):
                pairs.append((f"FIX 3 {MOST_FIXES} 7 {more}", "NO 23 FixesFull"))
            for seq in (0, MOST_FIXES - 1):
                pairs.append((f"FIX 3 {seq} 7 {words(seq)}", f"AGAIN {told}"))
                pairs.append((f"FIX 3 {seq} 7 CREDIT {MONDAY} 2", "NO 22 FixConflict"))
            for seq in (0, MOST_FIXES):
                pairs.append((f"FIX 3 {seq} 7 FILL {SEVEN} 99 OUT", "NO 15 UnknownPlace"))
                pairs.append((f"FIX 3 {seq} 7 FILL 604799 99 OUT", "NO 1 OutOfTime"))
            # Taps are counted apart, and so is another account.
            pairs += [(f"TAP 2 1 7 {SEVEN} 50 BUS", f"OK {MONDAY} 175 175"), (f"FIX 3 0 8 {words(0)}", f"OK {told}")]
            pairs.append((f"DUE 7 {MONDAY}", f"DUE 7 {MONDAY} {MONDAY} {MOST_FIXES + 1} {due}"))
            self.check(f"1,024 {name}", *play(RUN_SAMPLE, pairs))


def is_peak(second):
    return 23_400 <= second < 34_200 or 57_600 <= second < 68_400


def busy_minutes(second, boarding):
    """Six taps of the Monday from this second on, each with what it adds to the price; and the four journeys that they
    make."""
    utc = A_DAY * MONDAY + second
    leg = 340 if is_peak(second + 30) else 280
    same = 200 if is_peak(second + 130) else 190
    taps = [
        (utc, 50, "BUS", boarding),
        (utc + 30, 10, "IN", 860),
        (utc + 90, 12, "OUT", leg - 860),
        (utc + 100, 14, "OUT", 860),
        (utc + 130, 11, "IN", 860),
        (utc + 251, 11, "OUT", same - 860),
    ]
    journeys = [
        f"BUS 50 0 {utc} {boarding}",
        f"RAIL 10 12 {utc + 30} {leg}",
        f"LONE 0 14 {utc + 100} 860",
        f"SAME 11 11 {utc + 130} {same}",
    ]
    return taps, journeys


class Days(Theme):
    """A day of every fare."""

    def test_busy_day(self):
        """A day of 1,000 journeys, shown."""
        pairs, journeys, price = [], [], 0
        for i in range(250):
            # Of boardings 345 seconds apart each eleventh pays. The day begins at 04:30.
            taps, made = busy_minutes(16_200 + 345 * i, 0 if i % 11 else 175)
            journeys += made
            for utc, place, kind, more in taps:
                price += more
                pairs.append((f"TAP 1 {len(pairs)} 7 {utc} {place} {kind}", f"OK {MONDAY} {price} {price}"))
        listed = "".join(f"\nJNY {journey}" for journey in journeys)
        pairs.append((f"SHOW 7 {MONDAY}", f"SHOW 7 {MONDAY} {len(journeys)} {price}{listed}"))
        self.check("1,000 journeys of one day", *play(RUN, pairs))


LAST_ROUTE, LONE = 65_535, 99_907


def single(low, high, peak):
    return 10_000 * low + 1_000 * high + (500 if peak else 0)


def change_time(change):
    """The seconds of the interchange of this number, from 1 on."""
    return 600 + change


def at_limits(stations, routes, changes, holidays, bands=0, editions=0):
    """The text of the fare file with so many of each, where each edition says the same again."""
    fares = rules.Fares(
        minutes=[10 * zones for zones in range(1, ZONES + 1)],
        single={span: (single(*span, True), single(*span, False)) for span in SPANS},
        bands=[rules.Band(*cover, 100_000, 100_000) for cover in [(0, 0), *SPANS][:bands]],
        holidays=[19723 + 7 * week for week in range(holidays)],
        stations={it: (zone_of(it), zone_of(it)) for it in range(1, stations + 1)},
        routes=[LAST_ROUTE - it for it in range(routes)],
        interchanges={frozenset((2 * it - 1, 2 * it)): change_time(it) for it in range(1, changes + 1)},
        operators={it: 16 for it in [*range(1, stations + 1), *range(LAST_ROUTE, LAST_ROUTE - routes, -1)]},
        bus=100_000,
        maximum=LONE,
        hopper=7_200,
        same_free=0,
        same_limit=7_200,
    )
    return rules.fare_file(fares._replace(editions={50_000 - it: fares for it in range(editions)})).encode()


NINE_IN_THE_MORNING, NOON, TUESDAY = 32_400, 43_200, 19_731


def travel(day, first, last, second, seconds, price):
    """A day, and a leg in it: each tap's second, place and kind, and the price after it."""
    return day, [(second, first, "IN", LONE), (second + seconds, last, "OUT", price)]


def each_span():
    """For each span a leg as long as it may be, in both directions, and one that is too long."""
    for low, high in SPANS:
        # One of the second nine stations, so that a leg within one zone is between two stations.
        there, most = high + ZONES, 600 * (high - low + 1)
        yield travel(TUESDAY, low, there, NINE_IN_THE_MORNING, most, single(low, high, True))
        yield travel(TUESDAY, there, low, NOON, most, single(low, high, False))
        yield travel(TUESDAY, low, there, NINE_IN_THE_MORNING, most + 1, 2 * LONE)


def first_and_last(last):
    """A leg between the first and the last station, boardings of the last route, legs on the first and the last
    holiday."""
    yield travel(TUESDAY, 1, last, NOON, 60, single(1, zone_of(last), False))
    paid = ((0, 100_000), (7_200, 100_000), (7_201, 200_000))
    yield TUESDAY, [(NOON + after, LAST_ROUTE, "BUS", price) for after, price in paid]
    for week, is_holiday in ((0, True), (MOST_HOLIDAYS - 1, True), (MOST_HOLIDAYS, False)):
        yield travel(19723 + 7 * week, 1, 9, NINE_IN_THE_MORNING, 60, single(1, 9, not is_holiday))


def each_change():
    """From 9 to an interchange and on to 18, in its time and a second later; and at two stations that are not
    listed."""
    for change, is_listed in ((1, True), (MOST_CHANGES, True), (MOST_CHANGES + 1, False)):
        out, entry = 2 * change - 1, 2 * change
        there, back = single(zone_of(out), 9, False), single(zone_of(entry), 9, False)
        together = single(min(zone_of(out), zone_of(entry)), 9, False)
        for late in (0, 1):
            at = NOON + 60 + change_time(change) + late
            whole = together if is_listed and not late else there + back
            leg = (NOON, 9, "IN", LONE), (NOON + 60, out, "OUT", there)
            yield TUESDAY, [*leg, (at, entry, "IN", there + LONE), (at + 60, 18, "OUT", whole)]


def by_accounts(travels):
    """The lines and replies of travels by an account each, in UTC0."""
    for account, (day, taps) in enumerate(travels, 1):
        for seq, (second, place, kind, price) in enumerate(taps, 1):
            yield f"TAP 1 {seq} {account} {A_DAY * day + second} {place} {kind}", f"OK {day} {price} {price}"


class FareFiles(Theme):
    """A fare file at its limits."""

    def test_fare_file_at_limits(self):
        """As many places, bands, interchanges, holidays and editions as a fare file may have, and one more."""
        last = MOST_PLACES - 1
        unknown = ((last + 1, "IN"), (LAST_ROUTE - 1, "BUS"), (last, "BUS"), (LAST_ROUTE, "OUT"))
        pairs = [(f"TAP 1 1 7 {SEVEN} {place} {kind}", "NO 15 UnknownPlace") for place, kind in unknown]
        pairs += by_accounts([*each_span(), *first_and_last(last), *each_change()])
        whole = written(self.folder, "whole", at_limits(last, 1, MOST_CHANGES, MOST_HOLIDAYS))
        self.check("the fare file at its limits", *play(["run", whole, "UTC0"], pairs))
        too_many = fault("16 TooMany")
        for name, counts, wanted in (
            (
                "all at its limits",
                (last, 1, MOST_CHANGES, MOST_HOLIDAYS, MOST_BANDS, MOST_EDITIONS),
                counted(MOST_PLACES, MOST_BANDS, MOST_CHANGES, MOST_HOLIDAYS, MOST_EDITIONS),
            ),
            ("nothing", (0, 0, 0, 0), counted(0, 0, 0, 0)),
            ("stations alone", (MOST_PLACES, 0, 0, 0), counted(MOST_PLACES, 0, 0, 0)),
            ("routes alone", (0, MOST_PLACES, 0, 0), counted(MOST_PLACES, 0, 0, 0)),
            ("bands alone", (0, 0, 0, 0, MOST_BANDS), counted(0, MOST_BANDS, 0, 0)),
            ("a station too many", (MOST_PLACES + 1, 0, 0, 0), too_many),
            ("a route too many", (0, MOST_PLACES + 1, 0, 0), too_many),
            ("a place too many", (last, 2, MOST_CHANGES, MOST_HOLIDAYS), too_many),
            ("an interchange too many", (last, 1, MOST_CHANGES + 1, MOST_HOLIDAYS), too_many),
            ("a holiday too many", (last, 1, MOST_CHANGES, MOST_HOLIDAYS + 1), too_many),
            ("a band too many", (last, 1, MOST_CHANGES, MOST_HOLIDAYS, MOST_BANDS + 1), too_many),
            ("an edition too many", (last, 1, MOST_CHANGES, MOST_HOLIDAYS, MOST_BANDS, MOST_EDITIONS + 1), too_many),
        ):
            path = written(self.folder, "counted", at_limits(*counts))
            self.check(f"{name}, checked", run(["check", path]), wanted)
            self.check(f"{name}, run", run(["run", path, "UTC0"]), answers(b"") if wanted.status == 0 else wanted)
