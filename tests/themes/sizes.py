"""As many accounts, taps, corrections and rows as there may be, closed, changed late and closed again, and stated; and
long inputs."""

import os
import random

from oracle import rules
from support.fares import MOST_FIXES, MOST_TAPS
from support.ledgers import with_ledger
from support.repository import RUN_SAMPLE
from support.running import A_DAY, MONDAY, RUN, SEVEN, answers, boardings, in_lines, play, run, run_file, written
from support.serving import closed, ended, serving, side_by_side, talk_ahead
from support.statements import rows_of_statement, stated
from support.theme import Theme

# When the Monday begins, at 04:30:00.
BEGINS = A_DAY * MONDAY + rules.DAY_BEGINS

ACCOUNTS = 20_000
BOARDED = f"OK {MONDAY} 175 175"
# What comes of the accounts in turn between two closes: nothing; a second boarding that pays; the first one is voided;
# a pound is given back. Of each the line and its reply, and the version, the due and the amount of what is posted then,
# all of it operator 4's.
BETWEEN = (
    (None, None, (1, 175, 175)),
    (f"TAP 1 2 {{}} {SEVEN + 7_200} 50 BUS", f"OK {MONDAY} 350 350", (2, 350, 175)),
    ("FIX 3 1 {} VOID 1 1", f"OK {MONDAY} 0 0", (2, 0, -175)),
    (f"FIX 3 1 {{}} CREDIT {MONDAY} 100", BOARDED, (2, 75, -100)),
)


def boarded(account):
    return f"TAP 1 1 {account} {SEVEN} 50 BUS"


def closed_with(posted):
    """The lines of a close of the Monday, by the version, the due and the amount of each account's posting."""
    paid = [
        f"PAY {account} {MONDAY} {MONDAY} {version} {due} {amount} 4={amount}"
        for account, (version, due, amount) in posted.items()
    ]
    return [*paid, f"DONE {MONDAY} {len(posted)}"]


def shuffled(accounts):
    return random.Random(3).sample(accounts, len(accounts))


class ManyAccounts(Theme):
    """As many accounts as there may be."""

    def test_many_accounts(self):
        """Each is charged for a boarding, and then some of them for another, or given back what they paid or a part of
        it."""
        accounts = range(1, ACCOUNTS + 1)
        pairs = [(boarded(account), BOARDED) for account in shuffled(accounts)]
        pairs.append((f"CLOSE {MONDAY}", "\n".join(closed_with(dict.fromkeys(accounts, (1, 175, 175))))))
        for account in shuffled(accounts):
            line, reply, _ = BETWEEN[account % len(BETWEEN)]
            if line:
                pairs.append((line.format(account), reply))
        posted = {account: BETWEEN[account % len(BETWEEN)][2] for account in accounts}
        pairs.append((f"CLOSE {MONDAY}", "\n".join(closed_with(posted))))
        self.check(f"{ACCOUNTS:,} accounts, closed twice", *play(RUN, pairs))

    def test_many_accounts_over_lanes(self):
        """The same accounts over four lanes and four shards, closed at the end."""
        lanes, accounts = 4, range(1, ACCOUNTS + 1)
        lines = [f"{boarded(account)}\n".encode() for account in shuffled(accounts)]
        path = os.path.join(self.folder, "replies")
        with open(path, "wb") as it, serving(lanes, lanes, 1, stdout=it) as (ran, port, said):
            replies = side_by_side([
                lambda lane=lane: talk_ahead(port + lane, lines[lane::lanes]) for lane in range(lanes)
            ])
            came = ended(ran, said)
        for lane, text in enumerate(replies):
            self.check(
                f"replies on lane {lane}", answers(text), answers(in_lines([BOARDED] * (ACCOUNTS // lanes) + ["BYE"]))
            )
        with open(path, "rb") as it:
            wanted = in_lines(closed_with(dict.fromkeys(accounts, (1, 175, 175))))
            self.check(
                f"{ACCOUNTS:,} accounts over lanes", came._replace(output=it.read()), closed(port, lanes, wanted)
            )


# A boarding pays so much, and falls to operator 4: there is no cap that it comes to.
FARE = 175
CLOSED_WEEKS = 29


def boarded_on(number, seq):
    """The line of account 7's boarding on the day of this number, counted from the Monday."""
    return f"TAP 1 {seq} 7 {SEVEN + A_DAY * number} 50 BUS"


def week_of(number):
    """The Monday of a day, and how many days of its week there are through it."""
    return MONDAY + number - number % 7, number % 7 + 1


class ManyCloses(Theme):
    """An account that is closed on each day of many weeks."""

    def test_many_closes(self):
        """It boards once a day, and each day is closed: the next fare of its week is posted. Then a boarding of the last
        week is voided, and given back; and a session that goes on with the same files posts nothing more."""
        pairs, last = [], 7 * CLOSED_WEEKS - 1
        for number in range(last + 1):
            monday, days = week_of(number)
            day, due, version = MONDAY + number, FARE * days, number + 1
            pairs += [
                (boarded_on(number, version), f"OK {day} {FARE} {due}"),
                (f"CLOSE {day}", f"PAY 7 {monday} {day} {version} {due} {FARE} 4={FARE}\nDONE {day} 1"),
            ]
        monday, day, due = MONDAY + last - 6, MONDAY + last, 6 * FARE
        given_back = f"PAY 7 {monday} {day} {last + 2} {due} -{FARE} 4=-{FARE}\nDONE {day} 1"
        pairs += [(f"FIX 3 1 7 VOID 1 {last - 5}", f"OK {monday} 0 {due}"), (f"CLOSE {day}", given_back)]
        words = with_ledger(*(os.path.join(self.folder, name) for name in ("ledger", "journal")))
        self.check(f"an account closed {last + 2} times", *play(words, pairs))
        asked = [(f"CLOSE {day}", given_back), (f"DUE 7 {day}", f"DUE 7 {monday} {day} {last + 2} {due} 4={due}")]
        self.check("the next session", *play(words, asked))


class ManyDays(Theme):
    """An account that is used on as many days as it may have taps."""

    def test_many_days(self):
        """It boards once on each of these days, which come in no order. Then what is due for some weeks is asked for."""
        pairs, paid = [], [0] * (MOST_TAPS // 7 + 1)
        for seq, number in enumerate(random.Random(5).sample(range(MOST_TAPS), MOST_TAPS), 1):
            paid[number // 7] += FARE
            pairs.append((boarded_on(number, seq), f"OK {MONDAY + number} {FARE} {paid[number // 7]}"))
        for number in (0, 6, 7, MOST_TAPS // 2, MOST_TAPS - 2, MOST_TAPS - 1):
            monday, days = week_of(number)
            asked = f"DUE 7 {MONDAY + number}"
            pairs.append((asked, f"DUE 7 {monday} {MONDAY + number} {MOST_TAPS} {FARE * days} 4={FARE * days}"))
        self.check(f"an account of {MOST_TAPS:,} days", *play(RUN, pairs))


class LongJournals(Theme):
    """A shard that is asked much."""

    def test_long_journal(self):
        """Four lanes ask one shard for 200,000 boardings, each for 250 accounts and for each of these 200 times."""
        lanes, of_each, times = 4, 250, 200
        path = os.path.join(self.folder, "replies")
        with open(path, "wb") as it, serving(lanes, 1, 1, stdout=it) as (ran, port, said):
            replies = side_by_side([
                lambda lines=[
                    f"{boarded(account)}\n".encode() for account in range(first + 1, first + of_each + 1)
                ] * times, lane=lane: talk_ahead(port + lane, lines)
                for lane, first in enumerate(range(0, lanes * of_each, of_each))
            ])
            came = ended(ran, said)
        wanted = in_lines([*[BOARDED] * of_each, *[f"AGAIN {MONDAY} {FARE} {FARE}"] * (of_each * (times - 1)), "BYE"])
        for lane, text in enumerate(replies):
            self.check(f"replies on lane {lane}", answers(text), answers(wanted))
        with open(path, "rb") as it:
            written_of_close = in_lines(closed_with(dict.fromkeys(range(1, lanes * of_each + 1), (1, FARE, FARE))))
            self.check(
                f"{lanes * of_each * times:,} commands to a shard", came._replace(output=it.read()),
                closed(port, lanes, written_of_close),
            )


STATIONS, OPERATORS, LONE = list(rules.SAMPLE.stations), rules.SAMPLE.operators, rules.SAMPLE.maximum
# How many seconds a touch is after the one before. A day has room for as many as an account may have.
APART = 4


def touched_out(number):
    """The instant, the place and the kind of a touch out of this number: none is after a touch in, and each is
    alone."""
    return BEGINS + APART * number, STATIONS[number % len(STATIONS)], "OUT"


def owed_alone(places, credits):
    """What is due of lone touches at these places less Credits, and what of it falls to each operator who has some."""
    weights = [LONE * sum(OPERATORS[place] == operator for place in places) for operator in rules.OPERATORS]
    due = sum(weights) - credits
    return due, {operator: pence for operator, pence in zip(rules.OPERATORS, rules.divided(due, weights)) if pence}


def posted(through, version, due, before=(0, {})):
    """The lines of a close of account 7, by what is due with its shares and what was posted before it."""
    amount = due[0] - before[0]
    amounts = {operator: pence - before[1].get(operator, 0) for operator, pence in due[1].items()}
    shares = "".join(f" {operator}={pence}" for operator, pence in amounts.items() if pence)
    return f"PAY 7 {MONDAY} {through} {version} {due[0]} {amount}{shares}\nDONE {through} 1"


def nearly_full():
    """All taps and corrections but one that an account may have, with their replies; the places that are priced; and
    what Credits come to."""
    pairs, places, credits = [], [], 0

    def add(line):
        pairs.append((line, f"OK {MONDAY} {LONE * len(places)} {LONE * len(places)}"))

    for seq in range(MOST_TAPS - 1):
        utc, place, kind = touched_out(seq)
        places.append(place)
        add(f"TAP 1 {seq} 7 {utc} {place} {kind}")
    # The last tap is voided, and let in again; and then Fills and Credits in turn.
    last = places.pop()
    add(f"FIX 3 0 7 VOID 1 {MOST_TAPS - 2}")
    places.append(last)
    add("FIX 3 1 7 DROP 3 0")
    for seq in range(2, MOST_FIXES - 1):
        if seq % 2:
            credits += 1
            add(f"FIX 3 {seq} 7 CREDIT {MONDAY} 1")
        else:
            utc, place, kind = touched_out(MOST_TAPS + seq // 2)
            places.append(place)
            add(f"FIX 3 {seq} 7 FILL {utc} {place} {kind}")
    return pairs, places, credits


class FullAccounts(Theme):
    """An account that is full."""

    def test_full_account(self):
        """An account that lacks one tap and one correction is closed, gets both late, and is closed again, and once
        more, and through Sunday."""
        pairs, places, credits = nearly_full()
        first = owed_alone(places, credits)
        pairs.append((f"CLOSE {MONDAY}", posted(MONDAY, MOST_TAPS + MOST_FIXES - 2, first)))
        places.append(12)
        price, credits = LONE * len(places), credits + 1_000
        priced = f"OK {MONDAY} {price} {price}"
        pairs += [
            (f"TAP 2 0 7 {touched_out(8_000)[0] + 1} 12 OUT", priced),
            (f"FIX 3 {MOST_FIXES} 7 CREDIT {MONDAY} 1000", priced),
            (f"TAP 2 1 7 {SEVEN} 50 BUS", "NO 21 AccountFull"),
            (f"FIX 4 1 7 CREDIT {MONDAY} 1", "NO 23 FixesFull"),
        ]
        due, version = owed_alone(places, credits), MOST_TAPS + MOST_FIXES
        pairs += 2 * [(f"CLOSE {MONDAY}", posted(MONDAY, version, due, first))]
        pairs.append((f"CLOSE {MONDAY + 6}", posted(MONDAY + 6, version, due, due)))
        self.check(
            f"an account of {MOST_TAPS:,} taps and {MOST_FIXES:,} corrections, closed four times",
            *play(RUN_SAMPLE, pairs),
        )


# As many touches as may be priced of an account: each 17th is filled in, and the others are its taps.
TOUCHES, FILLED_IN = MOST_TAPS + MOST_FIXES, (MOST_TAPS + MOST_FIXES) // MOST_FIXES


def lines_of(touches):
    """The lines of touches, each by its instant, its place and its kind."""
    for number, words in enumerate(touches):
        what = "TAP 1 {} 7 {} {} {}" if number % FILLED_IN else "FIX 3 {} 7 FILL {} {} {}"
        yield what.format(number, *words)


class LongRuns(Theme):
    """The longest statements and inputs."""

    def test_largest_statements(self):
        """As many journeys as an account can have in a week: lone touches of one day, which is shown too; and boardings
        with the longest rows."""
        touches = [touched_out(number) for number in range(TOUCHES)]
        lines = list(lines_of(touches))
        rows = [f"{MONDAY},LONE,0,{place},{rules.clock(utc)},{LONE},-" for utc, place, _ in touches]
        self.check(f"a statement of {TOUCHES:,} lone touches", stated(lines, 7, MONDAY), rows_of_statement(*rows))
        journeys = [f"JNY LONE 0 {place} {utc} {LONE}" for utc, place, _ in touches]
        shown = [f"SHOW 7 {MONDAY} {TOUCHES} {LONE * TOUCHES}", *journeys]
        came = run(RUN_SAMPLE, in_lines([*lines, f"SHOW 7 {MONDAY}"]))
        came = came._replace(output=b"".join(came.output.splitlines(keepends=True)[TOUCHES:]))
        self.check(f"a day of {TOUCHES:,} lone touches, shown", came, answers(in_lines(shown)))
        # The longest numbers, and a band of three letters. A boarding pays if it comes more than a second after one
        # that paid.
        fares = rules.SAMPLE._replace(
            routes=[65_535], operators={**OPERATORS, 65_535: 16}, bus=100_000, hopper=1,
            bands=[rules.Band(0, 0, 100_000, 100_000)],
        )
        path = written(self.folder, "longest", rules.fare_file(fares).encode())
        touches = [(BEGINS + 7 * A_DAY * number // TOUCHES, 65_535, "BUS") for number in range(TOUCHES)]
        rows = [f"{rules.service_day(utc)},BUS,65535,0,{rules.clock(utc)},100000,bus" for utc, *_ in touches]
        self.check(
            f"a statement of {TOUCHES:,} boardings",
            stated(list(lines_of(touches)), 7, MONDAY, fares=path),
            rows_of_statement(*rows),
        )

    def test_long_inputs(self):
        """More lines than a million, and a line of more bytes than a hundred million, each before a boarding."""
        first, reply = boardings(1)
        many = 1_200_000
        self.check(f"{many:,} empty lines", run(RUN, b"\n" * many + first), answers(b"NO 50 BadLine\n" * many + reply))
        path = written(self.folder, "long", b"")
        with open(path, "r+b") as it:
            # What lies before it takes no place, and is read as zeros.
            it.seek(1 << 28)
            it.write(b"\n" + first)
        self.check(
            "a line of 268,435,456 zero bytes in a file", run_file(RUN, path), answers(b"NO 51 LongLine\n" + reply)
        )
