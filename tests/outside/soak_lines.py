"""The lines that clients send: taps, corrections, questions, and lines that are refused; and how a reply to each may
begin."""

from typing import NamedTuple

from oracle import loads, rules

LANES = 4
WEEK_DAYS = range(loads.MONDAY, loads.MONDAY + loads.DAYS)


class Shape(NamedTuple):
    """What the accounts of a service are like."""

    name: str
    # How many accounts each lane has to itself, how many all lanes share, and how many taps each has.
    own: int
    shared: int
    taps: int
    # How many questions there are for a tap.
    asked: float
    # Whether accounts become full. Then it matters which of two lines comes first, so no reply is lost twice or late.
    fills: bool = False


SHAPES = (
    Shape("small accounts", 300, 300, 16, 0.3),
    Shape("accounts", 40, 40, 120, 0.2),
    Shape("large accounts", 3, 3, 1_500, 0.02),
    Shape("full accounts", 1, 0, 16_600, 0.002, fills=True),
)


class Line:
    """A line, and how a reply to it may begin."""

    __slots__ = ("text", "fits", "account", "number", "lane", "is_put")

    def __init__(self, text, fits, account=None, number=None, is_put=True):
        self.text, self.fits, self.account = text, fits, account
        # Of a tap or a correction what it is known by, but for one that is refused whatever was accepted.
        self.number = number
        # The lane that alone speaks of the account.
        self.lane = None
        # Whether it comes to a shard, and not to an end before.
        self.is_put = is_put


def encoded(command):
    return rules.line(command).encode()


def priced(verbs, day):
    return tuple(b"%s %d " % (verb, day) if day else verb + b" " for verb in verbs)


def kept_line(command):
    """A tap or a correction."""
    if isinstance(command, rules.Tap):
        day, form, refusals = rules.day_of_tap(command), "TAP", (b"NO 20 Conflict\n", b"NO 21 AccountFull\n")
    else:
        # The day of a Void or a Drop goes by what was accepted.
        day = rules.day_of_fix(None, command) if command.form in ("FILL", "CREDIT") else None
        form, refusals = "FIX", (b"NO 22 FixConflict\n", b"NO 23 FixesFull\n")
    fits = priced((b"OK", b"AGAIN"), day) + refusals
    return Line(encoded(command), fits, command.account, (command.account, form, command.number))


def question(account, day, is_due):
    if is_due:
        return Line(b"DUE %d %d\n" % (account, day), (b"DUE %d %d %d " % (account, rules.monday(day), day),), account)
    return Line(b"SHOW %d %d\n" % (account, day), (b"SHOW %d %d " % (account, day),), account)


def refused(text, reply, account=None, is_put=False):
    """A line that is refused whatever was accepted."""
    return Line(text, (b"NO " + reply + b"\n",), account, is_put=is_put)


def with_other_content(command):
    """Another tap or correction of the same number."""
    if isinstance(command, rules.Tap):
        return command._replace(utc=command.utc + 1)
    if command.form in ("VOID", "DROP"):
        return command._replace(form={"VOID": "DROP", "DROP": "VOID"}[command.form])
    first, *rest = command.words
    return command._replace(words=(first, rest[0] + 1) if command.form == "CREDIT" else (first + 1, *rest))


def misplaced(draw, tap):
    """The same tap where no such tap can be, or at an instant that is none."""
    if draw.random() < 0.3:
        return refused(encoded(tap._replace(utc=draw.choice((0, 604_799, 4_102_444_800)))), b"1 OutOfTime", tap.account)
    place = draw.choice((51, 65_535, 10 if tap.kind == "BUS" else rules.ROUTE))
    return refused(encoded(tap._replace(place=place)), b"15 UnknownPlace", tap.account, is_put=True)


def unread(draw):
    """A line that is no command, or that asks for what no lane has."""
    day = draw.choice(WEEK_DAYS)
    return draw.choice((
        refused(b"\n", b"50 BadLine"),
        refused(b"TAP 01 1 7 1704697200 50 BUS\n", b"50 BadLine"),
        refused(b"quit\n", b"50 BadLine"),
        refused(b"?" * 128 + b"\n", b"50 BadLine"),
        refused(b"?" * draw.randint(129, 3_000) + b"\n", b"51 LongLine"),
        refused(b"CLOSE %d\n" % day, b"34 NotHere"),
        refused(b"CLOSE %d\n" % day, b"34 NotHere"),
    ))


def arrivals(draw, shape, accounts):
    """The lines of these accounts, each after its place in the order in which they are sent."""
    taps = loads.arriving(draw, [tap for account in accounts for tap in loads.trip_taps(draw, account, shape.taps)])
    commands = loads.corrected(draw, taps, len(taps) // 12)
    last = len(commands)
    yield from enumerate(map(kept_line, commands))
    for at in draw.sample(range(last), last // 15):
        yield draw.uniform(at, last), kept_line(commands[at])
    for command in draw.sample(commands, last // 40):
        yield draw.uniform(0, last), kept_line(with_other_content(command))
    for tap in draw.sample(taps, last // 40):
        yield draw.uniform(0, last), misplaced(draw, tap)
    for _ in range(int(last * shape.asked)):
        yield draw.uniform(0, last), question(draw.choice(accounts), draw.choice(WEEK_DAYS), draw.random() < 0.5)
    for _ in range(last // 40):
        yield draw.uniform(0, last), unread(draw)


def dealt(draw, shape, accounts):
    """The lines of each lane. Those of an account that is shared, and of none, are dealt out."""
    lanes = [[] for _ in range(LANES)]
    owners = {account: at % LANES for at, account in enumerate(accounts[:shape.own * LANES])}
    for _, line in sorted(arrivals(draw, shape, accounts), key=lambda it: it[0]):
        line.lane = owners.get(line.account)
        lanes[draw.randrange(LANES) if line.lane is None else line.lane].append(line)
    return lanes


def asked_of(accounts):
    """What is asked of each account in the end."""
    return [question(account, day, is_due) for account in accounts for day in WEEK_DAYS for is_due in (False, True)]
