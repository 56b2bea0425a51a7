"""Sessions that are drawn at random, or come in every order, by the second reckoning of tests/oracle/rules.py."""

import csv
import io
import itertools
import random

from oracle import loads, rules
from support.drawn import by_rules, drawn_dues, with_closes
from support.fares import MOST_BANDS, SPANS, ZONES, counted, zone_of
from support.repository import BUS, LONDON, RUN_SAMPLE, SAMPLE
from support.running import A_DAY, MONDAY, RUN, SEVEN, WEEK_DAYS, answers, in_lines, play, run, written
from support.statements import stated
from support.theme import Theme


class Crowds(Theme):
    """A session of very many accounts."""

    def test_crowd(self):
        """200,000 taps of 34,000 accounts, corrections and quotes, in one session, in any order, in a week of summer
        time; and 20,000 with caps."""
        for given, fares, accounts in ((RUN, rules.BUS, 30_000), (RUN_SAMPLE, rules.SAMPLE, 3_000)):
            draw, more = random.Random(11), accounts * 2 // 15
            commands = loads.day_taps(draw, accounts)
            commands += [it._replace(account=it.account + accounts) for it in loads.corrected_week(draw, more)]
            commands += drawn_dues(draw, more, range(1, accounts + 1), WEEK_DAYS)
            commands += drawn_dues(draw, 2 * more, range(accounts + 1, accounts + more + 1), WEEK_DAYS)
            draw.shuffle(commands)
            self.check(
                f"{len(commands):,} lines with {given[1]}", *play(given, list(by_rules(fares, {}, commands, later=26)))
            )


def drawn_bands(draw):
    """Twelve bands whose caps are reached now and then."""
    bands = [rules.Band(0, 0, 350 + draw.randint(0, 50), 1_000 + draw.randint(0, 100))]
    for low, high in draw.sample(SPANS, MOST_BANDS - 1):
        # Wider bands are dearer, more or less.
        wide = high - low
        bands.append(
            rules.Band(low, high, 200 + 40 * wide + draw.randint(0, 200), 600 + 100 * wide + draw.randint(0, 600))
        )
    draw.shuffle(bands)
    return bands


def drawn_singles(draw):
    return {
        (low, high): (150 + 40 * (high - low) + draw.randint(0, 50), 120 + 30 * (high - low) + draw.randint(0, 20))
        for low, high in SPANS
    }


def drawn_edition(draw, fares):
    """Other fares and limits than these, and now and then no bands."""
    return fares._replace(
        minutes=[draw.randint(2, 40) + 5 * zones for zones in range(1, ZONES + 1)],
        single=drawn_singles(draw),
        bands=drawn_bands(draw) if draw.random() < 0.8 else [],
        bus=draw.randint(150, 200),
        maximum=draw.randint(500, 900),
        same_free=draw.randint(0, 900),
        same_limit=draw.randint(900, 1_800),
    )


def drawn_fares(draw, editions=0):
    """A fare file of nine zones and twelve bands whose caps are reached now and then, with so many editions in any
    order."""
    stations = {it: (zone_of(it), min(zone_of(it) + it // 10, ZONES)) for it in range(1, 2 * ZONES + 1)}
    fares = rules.BUS._replace(
        minutes=[20 + 5 * zones for zones in range(1, ZONES + 1)],
        single=drawn_singles(draw),
        bands=drawn_bands(draw),
        holidays=[MONDAY + 2],
        stations=stations,
        routes=[50, 51],
        interchanges={frozenset(draw.sample(sorted(stations), 2)): draw.randint(300, 900) for _ in range(30)},
        operators={it: draw.randint(1, 16) for it in [*stations, 50, 51]},
    )
    # From the last day but one before the week to the one after it.
    return fares._replace(
        editions={day: drawn_edition(draw, fares) for day in draw.sample(range(MONDAY - 2, MONDAY + 8), editions)}
    )


def drawn_taps(draw, fares, accounts):
    """A week's taps of accounts, twelve trips each by bus or train, in any order."""
    taps = []
    for account in range(1, accounts + 1):
        touches = []
        for start in draw.sample(range(loads.BEGINS, loads.BEGINS + loads.DAYS * A_DAY, 7_200), 12):
            first, out, entry, last = draw.sample(sorted(fares.stations), 4)
            on = start + draw.randint(60, 2_000)
            again = on + draw.randint(60, 900)
            touches += draw.choice((
                [(start, draw.choice(fares.routes), "BUS")],
                [(start, first, "IN"), (on, last, "OUT")],
                [
                    (start, first, "IN"), (on, out, "OUT"), (again, entry, "IN"),
                    (again + draw.randint(60, 2_000), last, "OUT"),
                ],
            ))
        taps += [rules.Tap(utc, 1, seq, account, place, kind) for seq, (utc, place, kind) in enumerate(touches)]
    draw.shuffle(taps)
    return taps


class DrawnFares(Theme):
    """Fare files that are drawn."""

    def test_drawn_caps(self):
        """Fare files of nine zones, twelve bands and up to 8 editions that are drawn at random, checked, and sessions
        by tests/oracle/rules.py."""
        for seed in range(12):
            draw = random.Random(seed)
            fares = drawn_fares(draw, editions=max(0, seed - 3))
            path = written(self.folder, "drawn", rules.fare_file(fares).encode())
            name = f"the fare file of draw {seed}"
            self.check(
                f"{name}, checked",
                run(["check", path]),
                counted(20, MOST_BANDS, len(fares.interchanges), 1, len(fares.editions)),
            )
            taps = drawn_taps(draw, fares, 60)
            asked = drawn_dues(draw, 100, range(1, 61), WEEK_DAYS)
            commands = draw.sample(taps + asked, len(taps) + len(asked))
            commands += [rules.Due(account, day) for account in range(1, 61) for day in WEEK_DAYS]
            self.check(f"{name}, a week", *play(["run", path, LONDON], list(by_rules(fares, {}, commands))))


# What a Drop names of five commands, and the SHOW and DUE that these end in, in whatever order they arrive.
ENDS = (
    # The Void is dropped: a leg, and the Out of the Fill alone.
    ((3, 1), f"2 1230\nJNY RAIL 10 14 {SEVEN} 370\nJNY LONE 0 12 {SEVEN + 1_800} 860", "1230 1=370 2=860"),
    # The Fill is dropped: the In alone.
    ((1, 2), f"1 860\nJNY LONE 10 0 {SEVEN} 860", "860 1=860"),
    # The Drop names itself: a leg from the In to the Out of the Fill.
    ((3, 3), f"1 340\nJNY RAIL 10 12 {SEVEN} 340", "340 1=340"),
)


def five_commands(account, dropped):
    """Two taps, a Void of the second, a Fill that has the number of that one, and a Drop."""
    return [
        rules.Tap(SEVEN, 1, 1, account, 10, "IN"),
        rules.Tap(SEVEN + 1_200, 1, 2, account, 14, "OUT"),
        rules.Fix(3, 1, account, "VOID", (1, 2)),
        rules.Fix(1, 2, account, "FILL", (SEVEN + 1_800, 12, "OUT")),
        rules.Fix(3, 3, account, "DROP", dropped),
    ]


# Six taps by their seconds after 07:00:00. The boardings at 06:43:20 and 07:50:00 pay, each more than an hour after the
# one that paid before, and the journey from 10 to 12 costs 340.
SIX = ((0, 50, "BUS"), (3_000, 50, "BUS"), (5_000, 50, "BUS"), (-1_000, 50, "BUS"), (0, 10, "IN"), (1_800, 12, "OUT"))
SIX_SHOWN = (
    f"5 690\nJNY BUS 50 0 {SEVEN - 1_000} 175\nJNY BUS 50 0 {SEVEN} 0\nJNY RAIL 10 12 {SEVEN} 340\n"
    f"JNY BUS 50 0 {SEVEN + 3_000} 175\nJNY BUS 50 0 {SEVEN + 5_000} 0"
)


class Orders(Theme):
    """The same lines in another order."""

    def test_every_order(self):
        """The 120 orders in which five commands can arrive, each in an account of its own."""
        for dropped, shown, due in ENDS:
            pairs = []
            for account, order in enumerate(itertools.permutations(range(5)), 1):
                five = five_commands(account, dropped)
                # What is due is asked for after each of them.
                five = [asked for at in order for asked in (five[at], rules.Due(account, MONDAY))]
                pairs += by_rules(rules.SAMPLE, {}, five)
                pairs.append((f"SHOW {account} {MONDAY}", f"SHOW {account} {MONDAY} {shown}"))
                pairs.append((f"DUE {account} {MONDAY}", f"DUE {account} {MONDAY} {MONDAY} 5 {due}"))
            self.check(f"five commands in every order, with a Drop of {dropped}", *play(RUN_SAMPLE, pairs))

    def test_every_order_of_six_taps(self):
        """The 720 orders in which six taps can arrive, each in an account of its own."""
        pairs = []
        for account, order in enumerate(itertools.permutations(enumerate(SIX, 1)), 1):
            taps = [rules.Tap(SEVEN + after, 1, seq, account, place, kind) for seq, (after, place, kind) in order]
            pairs += by_rules(rules.SAMPLE, {}, taps)
            pairs.append((f"SHOW {account} {MONDAY}", f"SHOW {account} {MONDAY} {SIX_SHOWN}"))
        self.check("six taps in every order", *play(RUN_SAMPLE, pairs))


# Where and how a tap is drawn; the last three are refused.
DRAWN_PLACES = 3 * [
    (place, kind) for place in rules.SAMPLE.stations for kind in ("IN", "OUT")
] + 10 * [(50, "BUS")] + [(99, "IN"), (50, "OUT"), (10, "BUS")]


def drawn_command(draw, account):
    """A tap or a correction of which there are so few that they meet, from 03:00 on Monday to 04:40 on Tuesday; or what
    is due then."""
    number, named = [(draw.randint(1, 2), draw.randint(0, 9)) for _ in range(2)]
    utc = draw.choice((604_799, 4_102_444_800)) if draw.random() < 0.02 else SEVEN + 1_200 * draw.randint(-12, 65)
    place, kind = draw.choice(DRAWN_PLACES)
    return draw.choices((
        rules.Tap(utc, *number, account, place, kind),
        rules.Fix(*number, account, "VOID", named),
        rules.Fix(*number, account, "FILL", (utc, place, kind)),
        rules.Fix(*number, account, "CREDIT", (draw.randint(MONDAY - 1, MONDAY + 1), draw.choice((50, 100)))),
        rules.Fix(*number, account, "DROP", named),
        rules.Due(account, draw.randint(MONDAY - 2, MONDAY + 2)),
    ), (10, 3, 4, 2, 3, 6))[0]


def drawn_sessions(folder):
    """Sessions of several accounts that are drawn at random: a name, the path of the fare file and what it says, the
    commands, how many weeks later they are, the accounts, and days of the weeks whose statements are asked for."""
    for seed in range(2):
        draw = random.Random(seed)
        commands = [drawn_command(draw, account) for account in range(1, 9) for _ in range(60)]
        draw.shuffle(commands)
        yield f"corrections of draw {seed}", SAMPLE, rules.SAMPLE, commands, 0, range(1, 10), (MONDAY - 3, MONDAY + 1)
        for editions in (0, 4):
            fares = drawn_fares(draw, editions)
            path = written(folder, f"drawn-{seed}-{editions}", rules.fare_file(fares).encode())
            yield f"the fare file of draw {seed} with {editions} editions", path, fares, drawn_taps(
                draw, fares, 10
            ), 0, range(1, 11), (MONDAY + 6,)
        for name, path, said in (("with caps", SAMPLE, rules.SAMPLE), ("without caps", BUS, rules.BUS)):
            yield f"a week {name} of draw {seed}", path, said, loads.corrected_week(
                draw, 10
            ), 26 * seed, range(1, 11), (
                MONDAY + 2,
            )


def read_back(came):
    """The rows that another reader of CSV finds in an output, one a line."""
    rows = csv.reader(io.StringIO(came.output.decode("utf-8", "replace"), newline=""), strict=True)
    return came._replace(output=in_lines(map(repr, rows)))


class DrawnSessions(Theme):
    """Sessions that are drawn."""

    def test_drawn_corrections(self):
        """Sessions by tests/oracle/rules.py in which what is named comes before, after and never, and numbers are
        taken; and the days that they end in."""
        for seed in range(2):
            draw, accounts, pairs = random.Random(seed), {}, []
            for account in range(1, 101):
                commands = [drawn_command(draw, account) for _ in range(80)]
                pairs += by_rules(rules.SAMPLE, accounts, commands + draw.sample(commands, 10))
                for day in (MONDAY - 1, MONDAY, MONDAY + 1):
                    pairs.append((
                        f"SHOW {account} {day}", "".join(rules.shown(rules.SAMPLE, accounts, account, day)).rstrip("\n")
                    ))
            self.check(f"drawn corrections, seed {seed}", *play(RUN_SAMPLE, pairs))

    def test_drawn_closes(self):
        """Sessions of several accounts with closes among their lines, by tests/oracle/rules.py."""
        for name, path, fares, commands, later, numbers, _ in drawn_sessions(self.folder):
            draw = random.Random(name)
            last = [rules.Close(MONDAY + 6), *drawn_dues(draw, 20, numbers, WEEK_DAYS)]
            self.check(
                f"{name}, with closes",
                *play(["run", path, LONDON], list(by_rules(fares, {}, [*with_closes(draw, commands), *last], later))),
            )

    def test_drawn_statements(self):
        """Statements by tests/oracle/rules.py, as text and as what another reader reads of it."""
        for name, path, fares, commands, later, numbers, days in drawn_sessions(self.folder):
            accounts = {}
            lines = [line for line, _ in by_rules(fares, accounts, commands, later)]
            for number, day in itertools.product(numbers, days):
                rows = [
                    [it if it == "day" else str(int(it) + 7 * later), *others]
                    for it, *others in rules.statement(fares, accounts, number, day)
                ]
                came = stated(lines, number, day + 7 * later, fares=path)
                asked = f"{name}, the statement of account {number} and day {day}"
                self.check(asked, came, answers(in_lines(map(",".join, rows))))
                self.check(f"{asked}, read back", read_back(came), answers(in_lines(map(repr, rows))))
