"""The taps, corrections and questions that are measured, in the order of their arrival. They are the same for the same
seed."""

import random
from typing import Callable, NamedTuple

from oracle.rules import A_DAY, BUS, ROUTE, SAMPLE, Band, Due, Fix, Tap, parts, service_day

# Service day 19730 begins on Monday 2024-01-08 at 04:30:00.
MONDAY, BEGINS, DAYS = 19730, 1704688200, 7
LAST = BEGINS + DAYS * A_DAY - 1
HOUR = 3_600

# The fare files by name. In the last one the stations are in three of nine zones, and bands that cover the same cap
# differently.
SPANS = [(low, high) for low in range(1, 10) for high in range(low, 10)]
NINE_BANDS = [
    Band(2, 2, 520, 2_300),
    Band(2, 3, 540, 2_350),
    Band(3, 3, 515, 2_450),
    Band(1, 1, 600, 2_600),
    Band(1, 4, 1_040, 5_000),
    Band(1, 5, 1_045, 4_000),
    Band(1, 6, 900, 3_000),
    Band(1, 9, 950, 1_600),
    Band(2, 9, 500, 1_500),
]
TWELVE_BANDS = SAMPLE._replace(
    minutes=list(range(90, 180, 10)),
    single={span: SAMPLE.single.get(span, (400, 350)) for span in SPANS},
    bands=SAMPLE.bands + NINE_BANDS,
)
FARES = {"bus.toml": BUS, "sample.toml": SAMPLE, "twelve-bands.toml": TWELVE_BANDS}

# The first and last seconds of days and of peak times, after 04:30; and the longest times that a rule allows, and one
# more.
EDGE_STARTS = (0, 7_199, 7_200, 17_999, 18_000, 41_399, 41_400, 52_199, 52_200, A_DAY - 1)
EDGE_TIMES = [most + more for most in (120, 1_800, 3_600, 5_400, 6_000, 6_600) for more in (0, 1)]
EDGE_CHANGES = (1_200, 1_201)


def numbers(draw, count):
    """Different tap numbers, in ascending order."""
    drawn = set()
    while len(drawn) < count:
        drawn.add((draw.randint(1, 8_000), draw.randint(0, 99_999_999)))
    return sorted(drawn)


def day_taps(draw, accounts):
    """Bus taps at random instants of the Monday, in shuffled order."""
    made = []
    for account in range(1, accounts + 1):
        made += [
            Tap(draw.randint(BEGINS, BEGINS + A_DAY - 1), *number, account, ROUTE, "BUS")
            for number in numbers(draw, DAY.taps_each)
        ]
    draw.shuffle(made)
    return made


def trip(draw):
    """The touches of a trip: seconds after its start, place and kind."""
    later = draw.choice(EDGE_TIMES) if draw.random() < 0.1 else draw.randint(60, 5_400)
    first, last = draw.sample(sorted(BUS.stations), 2)
    out, again = draw.sample((10, 12), 2)
    change = draw.choice(EDGE_CHANGES) if draw.random() < 0.1 else draw.randint(60, 1_500)
    there, on = ((0, first, "IN"), (later, out, "OUT")), later + change
    kinds = {
        ((0, first, "IN"), (later, last, "OUT")): 35,
        (*there, (on, again, "IN"), (on + later, last, "OUT")): 10,
        (
            *there, (on, again, "IN"), (on + 600, out, "OUT"), (on + 600 + change, again, "IN"),
            (on + 1_200 + change, last, "OUT"),
        ): 5,
        ((0, first, "IN"), (later, first, "OUT")): 5,
        ((0, first, "IN"),): 3,
        ((0, first, "OUT"),): 2,
        ((0, ROUTE, "BUS"),): 20,
        ((0, ROUTE, "BUS"), (later, ROUTE, "BUS")): 20,
    }
    return draw.choices(list(kinds), kinds.values())[0]


def trip_taps(draw, account, count):
    """That many taps of an account's trips in the week."""
    touches = []
    while len(touches) < count:
        start = draw.choice(EDGE_STARTS) if draw.random() < 0.1 else draw.randrange(A_DAY)
        start += BEGINS + A_DAY * draw.randrange(DAYS)
        touches += [(min(start + after, LAST), place, kind) for after, place, kind in trip(draw)]
    return [
        Tap(utc, *number, account, place, kind) for number, (utc, place, kind) in zip(numbers(draw, count), touches)
    ]


def arriving(draw, taps):
    """Taps in order of time, but a tenth of them arrive 1 to 12 hours late."""
    late = [draw.randint(HOUR, 12 * HOUR) if draw.random() < 0.1 else 0 for _ in taps]
    return [tap for _, tap in sorted((tap.utc + by, tap) for tap, by in zip(taps, late))]


def week_taps(draw, accounts):
    """Bus and rail taps of the week, as they arrive."""
    return arriving(
        draw, [tap for account in range(1, accounts + 1) for tap in trip_taps(draw, account, WEEK.taps_each)]
    )


def lone_taps(taps):
    """The rail taps that are in no leg."""
    rail = {}
    for tap in sorted(taps):
        if tap.kind != "BUS":
            rail.setdefault(tap.account, []).append(tap)
    return [part[0] for mine in rail.values() for part in parts(BUS, mine) if len(part) == 1]


def words_about(draw, form, tap):
    """What stands after the form in a correction about a tap. A Fill is the other end of a leg, at another station."""
    if form == "VOID":
        return tap.number
    if form == "CREDIT":
        return service_day(tap.utc), draw.randint(10, 500)
    place = draw.choice([it for it in sorted(BUS.stations) if it != tap.place])
    by = draw.randint(300, 3_000)
    return (min(tap.utc + by, LAST), place, "OUT") if tap.kind == "IN" else (max(tap.utc - by, BEGINS), place, "IN")


def drawn_arrival(draw, after, last, may_be_before):
    """Where a correction arrives: some time after what it is about, but of those that may be before it a fifth."""
    return draw.uniform(0, after) if may_be_before and draw.random() < 0.2 else draw.uniform(after, last)


def corrections(draw, taps, count):
    """That many corrections, each after how many taps arrive before it: Voids, Fills that complete lone taps, Credits,
    Drops of some of these, and repeats."""
    arrives = {tap: at for at, tap in enumerate(taps)}
    lone, drops, repeats = lone_taps(taps) or taps, count // 10, count // 20
    made = []
    for seq in range(count - drops - repeats):
        form = draw.choices(("VOID", "FILL", "CREDIT"), (6, 7, 4))[0]
        tap = draw.choice(lone if form == "FILL" else taps)
        fix = Fix(draw.randint(1, 40), seq, tap.account, form, words_about(draw, form, tap))
        made.append((drawn_arrival(draw, arrives[tap], len(taps), form == "VOID"), fix))
    for seq, (at, fix) in enumerate(draw.sample(made, drops), len(made)):
        drop = Fix(draw.randint(1, 40), seq, fix.account, "DROP", fix.number)
        made.append((drawn_arrival(draw, at, len(taps), True), drop))
    return made + [(drawn_arrival(draw, at, len(taps), False), fix) for at, fix in draw.sample(made, repeats)]


def corrected(draw, taps, count):
    """Taps, and among them that many corrections."""
    made = [*enumerate(taps), *corrections(draw, taps, count)]
    return [command for _, command in sorted(made, key=lambda it: it[0])]


def corrected_week(draw, accounts):
    """The taps of the week, and among them corrections, a twentieth of the lines."""
    taps = week_taps(draw, accounts)
    return corrected(draw, taps, len(taps) // 19)


def quoted_week(draw, accounts):
    """The taps of the week, and then two questions about each account, what it owes through a day."""
    taps = week_taps(draw, accounts)
    asked = [Due(account, MONDAY + draw.randrange(DAYS)) for account in range(1, accounts + 1) for _ in range(2)]
    draw.shuffle(asked)
    return taps + asked


class Load(NamedTuple):
    name: str
    title: str
    fares: str
    taps_each: int
    arrivals: Callable
    days_shown: range

    def commands(self, seed, taps):
        return self.arrivals(random.Random(seed), taps // self.taps_each)


DAY = Load("day", "a day of bus taps in shuffled order", "bus.toml", 4, day_taps, range(0))
WEEK = Load(
    "week", "a week of bus and rail taps, a tenth of them late by hours", "bus.toml", 20, week_taps,
    range(MONDAY, MONDAY + DAYS),
)
CAPPED_DAY = DAY._replace(name="capped-day", fares="sample.toml")
CAPPED_WEEK = WEEK._replace(name="capped-week", fares="sample.toml")
BANDED_WEEK = WEEK._replace(name="banded-week", fares="twelve-bands.toml")
CORRECTED_WEEK = CAPPED_WEEK._replace(
    name="corrected-week", title=f"{WEEK.title}, with corrections among them", arrivals=corrected_week
)
QUOTED_WEEK = CAPPED_WEEK._replace(
    name="quoted-week", title=f"{WEEK.title}, and then two quotes of each account", arrivals=quoted_week,
    days_shown=range(0),
)
LOADS = {load.name: load for load in (DAY, WEEK, CAPPED_DAY, CAPPED_WEEK, BANDED_WEEK, CORRECTED_WEEK, QUOTED_WEEK)}
