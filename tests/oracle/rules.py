"""The replies and statements that docs/RULES.md gives, priced from scratch by a table of fares. The clock is London's
in winter, which is UTC."""

import datetime
import itertools
from typing import NamedTuple


class Band(NamedTuple):
    """What its journeys cost at most, in a day and in a week: those by bus, and by rail within its zones. It has none
    if `low` is 0."""

    low: int
    high: int
    day: int
    week: int

    @property
    def name(self):
        return f"{self.low}-{self.high}" if self.low else "bus"


class Fares(NamedTuple):
    """What a fare file says. A span is a pair of zones."""

    # How many minutes a leg may last that spans 1, 2, .. zones.
    minutes: list
    # The peak and the off-peak fare of each span.
    single: dict
    bands: list
    holidays: list
    # The lower and the upper zone of each station.
    stations: dict
    routes: list
    # Between which stations a journey goes on, and for how many seconds.
    interchanges: dict
    # To whom the fares of each station and route fall, 1 to 16.
    operators: dict
    bus: int = 175
    maximum: int = 860
    hopper: int = 3_600
    same_free: int = 120
    same_limit: int = 1_800
    # The first day of each edition, and what holds from there on. Stations, routes, holidays and interchanges are the
    # file's own.
    editions: dict = {}


ROUTE = 50
# The numbers of examples/bus.toml, and of examples/sample.toml.
BUS = Fares(
    minutes=[90, 100, 110],
    single={
        (1, 1): (280, 270), (1, 2): (340, 280), (1, 3): (370, 300), (2, 2): (200, 190), (2, 3): (210, 195),
        (3, 3): (200, 180),
    },
    bands=[],
    holidays=[19723],
    stations={10: (1, 1), 11: (1, 2), 12: (2, 2), 13: (2, 3), 14: (3, 3)},
    routes=[ROUTE],
    interchanges={frozenset((10, 12)): 1_200},
    operators={10: 1, 11: 1, 12: 2, 13: 2, 14: 3, ROUTE: 4},
)
SAMPLE = BUS._replace(bands=[Band(0, 0, 525, 2_470), Band(1, 2, 890, 4_470), Band(1, 3, 1_050, 5_250)])

# The same with the edition of examples/two.toml.
TWO = SAMPLE._replace(editions={19731: SAMPLE._replace(
    single={zones: (peak + 10, off + 10) for zones, (peak, off) in SAMPLE.single.items()},
    bands=[Band(0, 0, 540, 2_500), Band(1, 2, 900, 4_500), Band(1, 3, 1_060, 5_300)],
    bus=180,
    maximum=900,
)})

A_DAY, A_WEEK, DAY_BEGINS = 86_400, 7, 16_200
OPERATORS = range(1, 17)
FIRST_INSTANT, LAST_INSTANT = 604_800, 4_102_444_799
MOST_TAPS, MOST_FIXES = 16_384, 1_024
MORNING, EVENING = (23_400, 34_200), (57_600, 68_400)


class Tap(NamedTuple):
    """A tap that is sent. An account's taps compare in the order of their instants and numbers."""

    utc: int
    reader: int
    seq: int
    account: int
    place: int
    kind: str

    @property
    def number(self):
        return self.reader, self.seq


class Fix(NamedTuple):
    """A correction. Its words are those after its form."""

    staff: int
    seq: int
    account: int
    form: str
    # Of a VOID a tap's number, of a FILL an instant, a place and a kind, of a CREDIT a day and pence, of a DROP a
    # correction's number.
    words: tuple

    @property
    def number(self):
        return self.staff, self.seq


class Due(NamedTuple):
    """A question: what an account owes of the week of a day through that day."""

    account: int
    day: int


class Close(NamedTuple):
    """The close of a day: what is due of its week through it is posted."""

    day: int


class Posting(NamedTuple):
    """What was due of an account's week when it was posted, and what was charged for it; both in all and of it to each
    operator."""

    account: int
    week: int
    through: int
    version: int
    due: int
    shares: dict
    amount: int
    amounts: dict
    # The first day of the edition of the week's Monday, and 0 where that is not known.
    edition: int


class Account(NamedTuple):
    """What is kept of an account: its accepted taps and corrections, by their numbers."""

    taps: dict
    fixes: dict


class Touch(NamedTuple):
    """An effective tap. An account's touches compare in their order."""

    utc: int
    is_filled: bool
    number: tuple
    place: int
    kind: str


# In the place of a span, since a boarding has none.
BY_BUS = ()


class Journey(NamedTuple):
    """A journey. A lone tap has no span either."""

    utc: int
    kind: str
    start: int
    end: int
    fare: int
    # Where each of its legs began; of a lone tap and of a boarding the one place.
    origins: tuple
    span: tuple = BY_BUS
    # The instant of its last tap, if it has a second.
    last: int = None


def service_day(utc):
    return (utc - DAY_BEGINS) // A_DAY


def monday(day):
    return day - (day + 3) % 7


def on(fares, day):
    """What holds on a day: the edition that began last by then, or the file's own keys."""
    begun = [first for first in fares.editions if first <= day]
    return fares.editions[max(begun)] if begun else fares


def first_day(fares, day):
    """The day on which that edition began: 4 where none has."""
    return max((first for first in fares.editions if first <= day), default=4)


def span(fares, places):
    lows, highs = zip(*(fares.stations[place] for place in places))
    return min(highs), max(min(highs), *lows)


def limit(fares, first, last):
    """The most seconds from In to Out that are one leg."""
    begins, ends = span(fares, (first, last))
    return fares.same_limit if first == last else 60 * fares.minutes[ends - begins]


def is_within(utc, window):
    begins, ends = window
    return begins <= utc % A_DAY < ends


def is_peak(fares, taps):
    """Whether a journey of these rail taps is peak: by its first tap, but for one that goes into zone 1 in the
    evening."""
    utc, day = taps[0].utc, service_day(taps[0].utc)
    if day - monday(day) >= 5 or day in fares.holidays:
        return False
    lows = [fares.stations[tap.place][0] for tap in taps]
    goes_in = span(fares, [tap.place for tap in taps])[0] == 1 and lows[0] > 1 and lows[-1] == 1
    return is_within(utc, MORNING) or is_within(utc, EVENING) and not goes_in


def parts(fares, taps):
    """Rail taps in their order: each In with the Out right after it, if they are a leg, and every other one alone."""
    made = []
    for tap in taps:
        before = made[-1][-1] if made else None
        if before and (before.kind, tap.kind) == ("IN", "OUT") and tap.utc - before.utc <= limit(
            on(fares, service_day(before.utc)), before.place, tap.place
        ):
            made[-1] = [before, tap]
        else:
            made.append([tap])
    return made


def is_linked(fares, part, after):
    if len(part) == 1 or len(after) == 1 or any(entry.place == out.place for entry, out in (part, after)):
        return False
    out, entry = part[1], after[0]
    return entry.utc - out.utc <= fares.interchanges.get(frozenset((out.place, entry.place)), -1)


def runs(fares, parts):
    """Legs and lone taps in their order, and together those legs of which each is linked with the next."""
    made = []
    for part in parts:
        if made and is_linked(fares, made[-1][-1], part):
            made[-1].append(part)
        else:
            made.append([part])
    return made


def rail_journey(fares, run):
    taps, origins = [tap for part in run for tap in part], tuple(part[0].place for part in run)
    first, last = taps[0], taps[-1]
    fares = on(fares, service_day(first.utc))
    if first is last:
        start, end = (0, first.place) if first.kind == "OUT" else (first.place, 0)
        return Journey(first.utc, "LONE", start, end, fares.maximum, origins)
    zones = span(fares, [tap.place for tap in taps])
    peak, off = fares.single[zones]
    fare = peak if is_peak(fares, taps) else off
    if len(taps) == 2 and first.place == last.place:
        return Journey(
            first.utc, "SAME", first.place, last.place, 0 if last.utc - first.utc <= fares.same_free else fare, origins,
            zones, last.utc,
        )
    return Journey(first.utc, "RAIL", first.place, last.place, fare, origins, zones, last.utc)


def boardings(fares, taps):
    """The journeys by bus, each beside its tap: one pays if none that pays is near before it."""
    paid = None
    for tap in taps:
        pays = paid is None or tap.utc - paid > fares.hopper
        paid = tap.utc if pays else paid
        yield tap, Journey(
            tap.utc, "BUS", tap.place, 0, on(fares, service_day(tap.utc)).bus if pays else 0, (tap.place,)
        )


def journeys(fares, taps):
    """The journeys of an account's taps, in the order of their first taps."""
    rail = [tap for tap in sorted(taps) if tap.kind != "BUS"]
    made = [(run[0][0], rail_journey(fares, run)) for run in runs(fares, parts(fares, rail))]
    made += boardings(fares, (tap for tap in sorted(taps) if tap.kind == "BUS"))
    return [journey for _, journey in sorted(made)]


def sums(journeys):
    """The fares of journeys by their spans, those by bus as one, lone taps left out; and those of lone taps."""
    fares, lone = {}, 0
    for journey in journeys:
        if journey.kind == "LONE":
            lone += journey.fare
        else:
            fares[journey.span] = fares.get(journey.span, 0) + journey.fare
    return fares, lone


def covers(band, span):
    """Whether a band covers the journeys of this span, or those by bus. Of lone taps, which none covers, it is not
    asked."""
    return span == BY_BUS or band.low <= span[0] and span[1] <= band.high


def outside(band, day):
    """Those of a day's fares that a band does not cover."""
    return {span: pence for span, pence in day.items() if not covers(band, span)}


def offers(bands, day):
    """What a day's fares come to without a band, and by each."""
    return [sum(day.values()), *(band.day + sum(outside(band, day).values()) for band in bands)]


def capped(bands, day):
    """The price of a day's fares."""
    return min(offers(bands, day))


def winner(bands, day):
    """The band that gives that price, the first of several. None where no band does, which comes before all of them."""
    each = offers(bands, day)
    return [None, *bands][each.index(min(each))]


def day_price(fares, day, journeys):
    pence, lone = sums(journeys)
    return capped(on(fares, day).bands, pence) + lone


def week_price(fares, days):
    """The price of a week, by the journeys of each day from its Monday on: its bands are those of the Monday."""
    bands = {day: on(fares, day).bands for day in days}
    pence, lone = {}, 0
    for day, journeys in days.items():
        pence[day], alone = sums(journeys)
        lone += alone
    prices = [sum(capped(bands[day], its) for day, its in pence.items())]
    for band in bands[min(days)]:
        prices.append(
            band.week + sum(capped(bands[day], outside(band, its)) for day, its in pence.items() if outside(band, its))
        )
    return min(prices) + lone


def standing(account):
    """The Voids, Fills and Credits that no Drop names. Every Drop counts, also one that another names."""
    dropped = {fix.words for fix in account.fixes.values() if fix.form == "DROP"}
    return [fix for fix in account.fixes.values() if fix.form != "DROP" and fix.number not in dropped]


def effective(account):
    """The taps that are priced: the accepted ones that no standing Void names, and those of standing Fills."""
    fixes = standing(account)
    voided = {fix.words for fix in fixes if fix.form == "VOID"}
    touches = [
        Touch(tap.utc, False, tap.number, tap.place, tap.kind)
        for tap in account.taps.values()
        if tap.number not in voided
    ]
    for fix in fixes:
        if fix.form == "FILL":
            utc, place, kind = fix.words
            touches.append(Touch(utc, True, fix.number, place, kind))
    return touches


def day_of_tap(tap):
    return service_day(tap.utc) if tap else None


def day_of_fix(account, fix):
    """The day of a correction's reply. None where it names nothing that is accepted, or a Drop names a Drop."""
    if fix.form == "VOID":
        return day_of_tap(account.taps.get(fix.words))
    if fix.form == "DROP":
        named = account.fixes.get(fix.words)
        return day_of_fix(account, named) if named and named.form != "DROP" else None
    return service_day(fix.words[0]) if fix.form == "FILL" else fix.words[0]


def refusal_of_place(fares, utc, place, kind):
    """Why a tap, or that of a Fill, is refused by its own words."""
    if not FIRST_INSTANT <= utc <= LAST_INSTANT:
        return "1 OutOfTime"
    if place not in (fares.routes if kind == "BUS" else fares.stations):
        return "15 UnknownPlace"
    return None


def refusal(fares, account, command):
    """Why a tap or a correction is refused, or None."""
    if isinstance(command, Tap):
        kept, most, conflict, full = account.taps, MOST_TAPS, "20 Conflict", "21 AccountFull"
        refused = refusal_of_place(fares, command.utc, command.place, command.kind)
    else:
        kept, most, conflict, full = account.fixes, MOST_FIXES, "22 FixConflict", "23 FixesFull"
        refused = refusal_of_place(fares, *command.words) if command.form == "FILL" else None
    if refused:
        return refused
    if command.number in kept:
        return None if kept[command.number] == command else conflict
    return full if len(kept) == most else None


def by_days(fares, account, first, last):
    """The journeys of each service day from the first through the last."""
    days = {day: [] for day in range(first, last + 1)}
    for journey in journeys(fares, effective(account)):
        if service_day(journey.utc) in days:
            days[service_day(journey.utc)].append(journey)
    return days


def of_week(fares, account, day):
    """The journeys of each of the seven days of a day's week."""
    return by_days(fares, account, monday(day), monday(day) + A_WEEK - 1)


def prices(fares, account, day):
    """The price of a day and that of its week."""
    week = of_week(fares, account, day)
    return day_price(fares, day, week[day]), week_price(fares, week)


def divided(total, weights):
    """A total in whole pence by weights: to all up to each falls their proportion, rounded down."""
    whole = sum(weights)
    ends = [total * upto // whole if whole else 0 for upto in itertools.accumulate(weights)]
    return [end - begin for begin, end in zip([0, *ends], ends)]


def carried(fares, journeys):
    """What of the fares of journeys falls to each operator."""
    pence = dict.fromkeys(OPERATORS, 0)
    for journey in journeys:
        for place, part in zip(journey.origins, divided(journey.fare, [1] * len(journey.origins))):
            pence[fares.operators[place]] += part
    return pence


def owed(fares, account, through):
    """What is due of a day's week through that day, and each operator's share of it."""
    days = by_days(fares, account, monday(through), through)
    credits = sum(fix.words[1] for fix in standing(account) if fix.form == "CREDIT" and fix.words[0] in days)
    due = max(0, week_price(fares, days) - credits)
    weights = carried(fares, itertools.chain(*days.values()))
    return due, dict(zip(OPERATORS, divided(due, weights.values())))


def quoted(fares, accounts, asked):
    """The reply to DUE."""
    account = accounts.get(asked.account, Account({}, {}))
    due, shares = owed(fares, account, asked.day)
    words = ["DUE", asked.account, monday(asked.day), asked.day, len(account.taps) + len(account.fixes), due]
    words += (f"{operator}={pence}" for operator, pence in shares.items() if pence)
    return " ".join(map(str, words)) + "\n"


def is_quoted(account, through):
    """Whether an account has an accepted tap or Fill on a day of the week of a day so far, voided or withdrawn or
    not."""
    instants = [tap.utc for tap in account.taps.values()] + [
        fix.words[0] for fix in account.fixes.values() if fix.form == "FILL"
    ]
    return any(monday(through) <= service_day(utc) <= through for utc in instants)


def posting(fares, number, account, through, before):
    """What is due of an account's week through a day as a posting after those of that account and week; or why it is
    refused."""
    week, version = monday(through), len(account.taps) + len(account.fixes)
    due, shares = owed(fares, account, through)
    edition = first_day(fares, week)
    if before:
        last = before[-1]
        if version < last.version or through < last.through:
            return "42 StaleQuote"
        if (version, through) == (last.version, last.through):
            is_same = (due, shares) == (last.due, last.shares) and last.edition in (0, edition)
            return last if is_same else "47 QuoteDiffers"
    amounts = {operator: pence - sum(it.amounts[operator] for it in before) for operator, pence in shares.items()}
    return Posting(number, week, through, version, due, shares, due - sum(it.amount for it in before), amounts, edition)


def closed(fares, accounts, ledger, day):
    """The reply to CLOSE. What is posted is kept in `ledger`, in lists by account and week, unless one of the accounts
    is refused."""
    given = []
    for number, account in sorted(accounts.items()):
        if is_quoted(account, day):
            given.append(posting(fares, number, account, day, ledger.get((number, monday(day)), [])))
            if isinstance(given[-1], str):
                return f"NO {given[-1]}\n"
    lines = []
    for it in given:
        before = ledger.setdefault((it.account, it.week), [])
        if it not in before[-1:]:
            before.append(it)
        words = ["PAY", it.account, it.week, it.through, it.version, it.due, it.amount]
        words += (f"{operator}={pence}" for operator, pence in it.amounts.items() if pence)
        lines.append(" ".join(map(str, words)) + "\n")
    return "".join(lines) + f"DONE {day} {len(given)}\n"


def reply(fares, accounts, command, ledger=None):
    """The reply to a tap or a correction, which is kept in `accounts` if it is accepted, or to DUE; or to CLOSE, which
    is posted in `ledger`."""
    if isinstance(command, Due):
        return quoted(fares, accounts, command)
    if isinstance(command, Close):
        return closed(fares, accounts, ledger, command.day)
    account = accounts.get(command.account, Account({}, {}))
    refused = refusal(fares, account, command)
    if refused:
        return f"NO {refused}\n"
    accounts[command.account] = account
    kept = account.taps if isinstance(command, Tap) else account.fixes
    verb = "AGAIN" if command.number in kept else "OK"
    kept[command.number] = command
    day = day_of_tap(command) if isinstance(command, Tap) else day_of_fix(account, command)
    told = (0, 0, 0) if day is None else (day, *prices(fares, account, day))
    return " ".join([verb, *map(str, told)]) + "\n"


def shown(fares, accounts, number, day):
    """The lines that answer SHOW of the account of this number."""
    taps = effective(accounts.get(number, Account({}, {})))
    listed = [journey for journey in journeys(fares, taps) if service_day(journey.utc) == day]
    head = f"SHOW {number} {day} {len(listed)} {day_price(fares, day, listed)}\n"
    return [head] + [f"JNY {it.kind} {it.start} {it.end} {it.utc} {it.fare}\n" for it in listed]


COLUMNS = ["day", "kind", "from", "to", "start", "fare", "band"]


def clock(utc):
    """The time of day, as `07:00:00`."""
    return f"{utc // 3_600 % 24:02}:{utc // 60 % 60:02}:{utc % 60:02}"


def statement(fares, accounts, number, day):
    """The rows of a statement: the journeys of the week of a day of the account of this number."""
    days = of_week(fares, accounts.get(number, Account({}, {})), day)
    winners = {day: winner(on(fares, day).bands, sums(made)[0]) for day, made in days.items()}
    # What an account's days have in turn are its journeys in the order of their first taps.
    rows = [COLUMNS]
    for its_day, made in days.items():
        for it in made:
            band = winners[its_day] if it.kind != "LONE" else None
            name = band.name if band and covers(band, it.span) else "-"
            rows.append([str(its_day), it.kind, str(it.start), str(it.end), clock(it.utc), str(it.fare), name])
    return rows


LONG_COLUMNS = ["date", "kind", "from", "from_name", "to", "to_name", "start", "end", "amount", "posted"]


def money(pence):
    """An amount in units, with a hyphen where it is below 0."""
    return f"{'-' if pence < 0 else ''}{abs(pence) // 100}.{abs(pence) % 100:02}"


def date(day):
    return str(datetime.date(1970, 1, 1) + datetime.timedelta(day))


def sum_row(day, kind, amount="", posted=""):
    """A row of a long statement that is of no journey."""
    return [date(day), kind, *[""] * 6, amount, posted]


def journey_row(names, day, it):
    """A journey's."""
    places = [text for place in (it.start, it.end) for text in (str(place or ""), names.get(place, ""))]
    times = ["" if utc is None else clock(utc) for utc in (it.utc, it.last)]
    return [date(day), it.kind, *places, *times, money(it.fare), ""]


def long_statement(fares, account, day, postings=(), names={}):
    """The rows of the long statement of the week of a day, with what was posted for it."""
    days = of_week(fares, account, day)
    rows, total = [LONG_COLUMNS], 0
    for its_day, made in days.items():
        rows += [journey_row(names, its_day, it) for it in made]
        price = day_price(fares, its_day, made)
        off = sum(it.fare for it in made) - price
        rows += [sum_row(its_day, "CAP", money(-off))] if off else []
        total += price
    price, sunday = week_price(fares, days), max(days)
    rows += [sum_row(sunday, "WEEKCAP", money(price - total))] if price < total else []
    credits = sorted(
        (fix.number, fix.words) for fix in standing(account) if fix.form == "CREDIT" and fix.words[0] in days
    )
    rows += [sum_row(its_day, "CREDIT", money(-pence)) for _, (its_day, pence) in credits]
    left = sum(pence for _, (_, pence) in credits) - price
    rows += [sum_row(sunday, "UNUSED", money(left))] if left > 0 else []
    return rows + [sum_row(it.through, "POSTED", posted=money(it.amount)) for it in postings]


def line(command):
    """The spelling of a tap, a correction, a question or a close."""
    if isinstance(command, Due):
        words = ("DUE", *command)
    elif isinstance(command, Close):
        words = ("CLOSE", command.day)
    elif isinstance(command, Tap):
        words = ("TAP", *command.number, command.account, command.utc, command.place, command.kind)
    else:
        words = ("FIX", *command.number, command.account, command.form, *command.words)
    return " ".join(map(str, words)) + "\n"


def array(items):
    return "[" + "".join(f"\n  {item}," for item in items) + "\n]"


def edition_keys(fares):
    """The keys that an edition says anew, but for its rules."""
    singles = (
        f"{{ from = {low}, to = {high}, peak = {peak}, off = {off} }}"
        for (low, high), (peak, off) in fares.single.items()
    )
    bands = (f"{{ from = {it.low}, to = {it.high}, day = {it.day}, week = {it.week} }}" for it in fares.bands)
    return f"""\
minutes = {fares.minutes}
single = {array(singles)}
band = {array(bands)}
"""


def rules_table(fares, name):
    return f"""\
[{name}]
bus = {fares.bus}
maximum = {fares.maximum}
hopper = {fares.hopper}
same_free = {fares.same_free}
same_limit = {fares.same_limit}
"""


def fare_file(fares):
    """The text of a fare file that says this."""
    stations = (
        f"{{ place = {place}, low = {low}, high = {high}, operator = {fares.operators[place]} }}"
        for place, (low, high) in fares.stations.items()
    )
    routes = (f"{{ place = {place}, operator = {fares.operators[place]} }}" for place in fares.routes)
    interchanges = (
        f"{{ a = {min(pair)}, b = {max(pair)}, seconds = {seconds} }}" for pair, seconds in fares.interchanges.items()
    )
    editions = "".join(
        f"\n[[edition]]\nday = {day}\n{edition_keys(it)}\n{rules_table(it, 'edition.rules')}"
        for day, it in fares.editions.items()
    )
    return f"""\
zones = {len(fares.minutes)}
{edition_keys(fares)}holidays = {fares.holidays}
station = {array(stations)}
route = {array(routes)}
interchange = {array(interchanges)}

{rules_table(fares, "rules")}{editions}"""
