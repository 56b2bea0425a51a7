"""Which taps make a journey, when it is peak, what it costs, and on which day it is shown. All of it is with
examples/bus.toml."""

import itertools

from support.running import A_DAY, RUN, answers, in_lines, play, rows_of, run
from support.theme import Theme

# Taps of an account on Monday, 2024-01-08, or on another day of that January, and the journeys that are shown of that
# day, each with the time of its first tap and its fare. Times go on to the end of the service day, at 28:30.
SHOWN_JOURNEYS = """
    // Peak by the first tap, at the ends of the morning's and of the evening's peak.
    IN 10 06:30, OUT 12 06:50 => RAIL 10 12 06:30 340
    IN 10 09:30, OUT 12 09:50 => RAIL 10 12 09:30 280
    IN 10 15:59:59, OUT 12 16:19:59 => RAIL 10 12 15:59:59 280
    IN 10 16:00, OUT 12 16:20 => RAIL 10 12 16:00 340
    IN 10 18:59:59, OUT 12 19:19:59 => RAIL 10 12 18:59:59 340
    IN 10 19:00, OUT 12 19:20 => RAIL 10 12 19:00 280
    // The day after the holiday, and from a Friday to a Monday.
    2024-01-02: IN 10 07:00, OUT 12 07:20 => RAIL 10 12 07:00 340
    2024-01-12: IN 10 07:00, OUT 12 07:20 => RAIL 10 12 07:00 340
    2024-01-13: IN 10 07:00, OUT 12 07:20 => RAIL 10 12 07:00 280
    2024-01-14: IN 10 07:00, OUT 12 07:20 => RAIL 10 12 07:00 280
    2024-01-15: IN 10 07:00, OUT 12 07:20 => RAIL 10 12 07:00 340
    // Off-peak in the evening into zone 1, and not out of it.
    IN 13 17:00, OUT 10 17:20 => RAIL 13 10 17:00 280
    IN 14 17:00, OUT 10 17:20 => RAIL 14 10 17:00 300
    IN 10 17:00, OUT 14 17:20 => RAIL 10 14 17:00 370
    // From a station that is in zone 1 too.
    IN 11 17:00, OUT 10 17:20 => RAIL 11 10 17:00 280
    // By a span that does not begin at zone 1.
    IN 13 17:00, OUT 11 17:20 => RAIL 13 11 17:00 200
    IN 14 17:00, OUT 11 17:20 => RAIL 14 11 17:00 210
    IN 14 17:00, OUT 12 17:20 => RAIL 14 12 17:00 210
    // In the morning, and at the ends of the evening's peak.
    IN 12 08:00, OUT 10 08:20 => RAIL 12 10 08:00 340
    IN 12 15:59:59, OUT 10 16:19:59 => RAIL 12 10 15:59:59 280
    IN 12 16:00, OUT 10 16:20 => RAIL 12 10 16:00 280
    IN 12 18:59:59, OUT 10 19:19:59 => RAIL 12 10 18:59:59 280
    IN 12 19:00, OUT 10 19:20 => RAIL 12 10 19:00 280
    // A Friday, a Saturday and the holiday.
    2024-01-12: IN 12 17:00, OUT 10 17:20 => RAIL 12 10 17:00 280
    2024-01-12: IN 10 17:00, OUT 12 17:20 => RAIL 10 12 17:00 340
    2024-01-13: IN 12 17:00, OUT 10 17:20 => RAIL 12 10 17:00 280
    2024-01-13: IN 10 17:00, OUT 12 17:20 => RAIL 10 12 17:00 280
    2024-01-01: IN 12 17:00, OUT 10 17:20 => RAIL 12 10 17:00 280
    2024-01-01: IN 10 17:00, OUT 12 17:20 => RAIL 10 12 17:00 280
    // Legs that go on into one another, in the evening and in the morning: the span begins at zone 1 by a station
    // between.
    IN 14 17:00, OUT 12 17:10, IN 10 17:30, OUT 11 17:40 => RAIL 14 11 17:00 300
    IN 14 07:00, OUT 12 07:10, IN 10 07:30, OUT 11 07:40 => RAIL 14 11 07:00 370
    IN 14 15:59:59, OUT 12 16:09:59, IN 10 16:29:59, OUT 11 16:39:59 => RAIL 14 11 15:59:59 300
    IN 14 16:00, OUT 12 16:10, IN 10 16:30, OUT 11 16:40 => RAIL 14 11 16:00 300
    IN 14 18:59:59, OUT 12 19:09:59, IN 10 19:29:59, OUT 11 19:39:59 => RAIL 14 11 18:59:59 300
    IN 14 19:00, OUT 12 19:10, IN 10 19:30, OUT 11 19:40 => RAIL 14 11 19:00 300
    // The last station is outside zone 1, wherever the legs before it end.
    IN 12 17:00, OUT 10 17:10, IN 12 17:30, OUT 14 17:40 => RAIL 12 14 17:00 370
    IN 14 17:00, OUT 12 17:10, IN 10 17:30, OUT 12 17:40 => RAIL 14 12 17:00 370
    IN 14 15:59:59, OUT 12 16:09:59, IN 10 16:29:59, OUT 12 16:39:59 => RAIL 14 12 15:59:59 300
    IN 14 16:00, OUT 12 16:10, IN 10 16:30, OUT 12 16:40 => RAIL 14 12 16:00 370
    IN 14 18:59:59, OUT 12 19:09:59, IN 10 19:29:59, OUT 12 19:39:59 => RAIL 14 12 18:59:59 370
    IN 14 19:00, OUT 12 19:10, IN 10 19:30, OUT 12 19:40 => RAIL 14 12 19:00 300
    // The first station is in zone 1, wherever the last leg begins.
    IN 11 17:00, OUT 10 17:10, IN 12 17:30, OUT 10 17:40 => RAIL 11 10 17:00 340
    IN 11 17:00, OUT 10 17:10, IN 12 17:30, OUT 11 17:40 => RAIL 11 11 17:00 340
    // Three legs, which end in zone 1 and outside.
    IN 14 17:00, OUT 12 17:10, IN 10 17:30, OUT 12 17:40, IN 10 18:00, OUT 11 18:10 => RAIL 14 11 17:00 300
    IN 14 17:00, OUT 12 17:10, IN 10 17:30, OUT 12 17:40, IN 10 18:00, OUT 13 18:10 => RAIL 14 13 17:00 370
    // No exception for a leg that ends where it began, nor for a lone tap.
    IN 12 17:00, OUT 12 17:02:01 => SAME 12 12 17:00 200
    IN 10 17:00, OUT 10 17:02:01 => SAME 10 10 17:00 280
    IN 10 17:00, OUT 10 17:02 => SAME 10 10 17:00 0
    IN 12 17:00 => LONE 12 0 17:00 860
    OUT 10 17:00 => LONE 0 10 17:00 860

    IN 11 07:00, OUT 11 07:02:01 => SAME 11 11 07:00 200
    // A station in two zones counts as the nearer.
    IN 11 07:00, OUT 13 07:20 => RAIL 11 13 07:00 200
    IN 14 07:00, OUT 13 07:20 => RAIL 14 13 07:00 200
    IN 14 07:00, OUT 10 07:20 => RAIL 14 10 07:00 370
    // 110 minutes in three zones, 90 in one.
    IN 14 07:00, OUT 10 08:50 => RAIL 14 10 07:00 370
    IN 14 07:00, OUT 10 08:50:01 => LONE 14 0 07:00 860, LONE 0 10 08:50:01 860
    IN 10 07:00, OUT 11 08:30 => RAIL 10 11 07:00 280
    IN 10 07:00, OUT 11 08:30:01 => LONE 10 0 07:00 860, LONE 0 11 08:30:01 860
    // 100 in two; and off-peak.
    IN 14 07:00, OUT 12 08:40 => RAIL 14 12 07:00 210
    IN 14 07:00, OUT 12 08:40:01 => LONE 14 0 07:00 860, LONE 0 12 08:40:01 860
    IN 14 12:00, OUT 12 12:20 => RAIL 14 12 12:00 195
    // The stations 11 and 13 touch one zone and are two.
    IN 11 07:00, OUT 13 08:30 => RAIL 11 13 07:00 200
    IN 11 07:00, OUT 13 08:30:01 => LONE 11 0 07:00 860, LONE 0 13 08:30:01 860
    // An Out is that of the In right before it.
    OUT 10 07:00, IN 10 07:00 => LONE 0 10 07:00 860, LONE 10 0 07:00 860
    IN 10 07:00, IN 10 07:01, OUT 12 07:21 => LONE 10 0 07:00 860, RAIL 10 12 07:01 340
    IN 10 07:00, IN 11 07:05, IN 14 07:10, OUT 13 07:20 => \
        LONE 10 0 07:00 860, LONE 11 0 07:05 860, RAIL 14 13 07:10 200
    IN 10 07:00, OUT 12 07:20, OUT 12 07:21 => RAIL 10 12 07:00 340, LONE 0 12 07:21 860
    IN 10 07:00, OUT 12 07:20, IN 12 07:21, OUT 10 09:01 => RAIL 10 12 07:00 340, RAIL 12 10 07:21 340
    // No leg across a tap that came too late.
    IN 10 07:00, OUT 12 08:40:01, OUT 10 08:40:02 => LONE 10 0 07:00 860, LONE 0 12 08:40:01 860, LONE 0 10 08:40:02 860

    // An interchange the other way round.
    IN 14 07:00, OUT 10 07:20, IN 12 07:40, OUT 13 07:50 => RAIL 14 13 07:00 370
    // None is listed from 12 to 11, nor from 10 to 13, nor from 12 to 12.
    IN 14 07:00, OUT 12 07:20, IN 11 07:21, OUT 10 07:50 => RAIL 14 12 07:00 210, RAIL 11 10 07:21 280
    IN 14 07:00, OUT 10 07:20, IN 13 07:21, OUT 11 07:50 => RAIL 14 10 07:00 370, RAIL 13 11 07:21 200
    IN 14 07:00, OUT 12 07:20, IN 12 07:21, OUT 11 07:50 => RAIL 14 12 07:00 210, RAIL 12 11 07:21 200
    // Three legs: all of them, the first two, and the last two.
    IN 14 07:00, OUT 12 07:20, IN 10 07:40, OUT 12 08:00, IN 10 08:20, OUT 11 08:30 => RAIL 14 11 07:00 370
    IN 14 07:00, OUT 12 07:20, IN 10 07:40, OUT 12 08:00, IN 10 08:20:01, OUT 11 08:30 => \
        RAIL 14 12 07:00 370, RAIL 10 11 08:20:01 280
    IN 14 07:00, OUT 12 07:20, IN 10 07:40:01, OUT 12 08:00, IN 10 08:20, OUT 11 08:30 => \
        RAIL 14 12 07:00 210, RAIL 10 11 07:40:01 340
    // A lone tap parts two legs, and so does a leg from a station back to it, though each pair is listed and its time
    // kept.
    IN 14 07:00, OUT 12 07:20, IN 13 07:21, IN 10 07:40, OUT 11 07:50 => \
        RAIL 14 12 07:00 210, LONE 13 0 07:21 860, RAIL 10 11 07:40 280
    IN 14 07:00, OUT 12 07:20, IN 10 07:21, OUT 10 07:22, IN 12 07:30, OUT 13 07:40 => \
        RAIL 14 12 07:00 210, SAME 10 10 07:21 0, RAIL 12 13 07:30 200
    IN 10 07:00, IN 10 07:01, OUT 12 07:20, IN 12 07:30, OUT 12 07:31, IN 11 07:40, IN 11 07:41, IN 13 07:50, \
        OUT 14 08:00 => \
        LONE 10 0 07:00 860, RAIL 10 12 07:01 340, SAME 12 12 07:30 0, LONE 11 0 07:40 860, LONE 11 0 07:41 860, \
        RAIL 13 14 07:50 200
    // A boarding does not.
    IN 14 07:00, OUT 12 07:20, BUS 50 07:30, IN 10 07:40, OUT 11 07:50 => RAIL 14 11 07:00 370, BUS 50 0 07:30 175

    // The last one to arrive is the first of the day.
    BUS 50 07:00, BUS 50 07:50, BUS 50 08:23:20, BUS 50 06:43:20 => \
        BUS 50 0 06:43:20 175, BUS 50 0 07:00 0, BUS 50 0 07:50 175, BUS 50 0 08:23:20 0
    // Just in the Hopper time and a second later.
    BUS 50 07:00, BUS 50 08:00, BUS 50 08:00:01 => BUS 50 0 07:00 175, BUS 50 0 08:00 0, BUS 50 0 08:00:01 175
    // A boarding and a lone tap at a station in two zones.
    BUS 50 12:00, IN 11 12:00 => BUS 50 0 12:00 175, LONE 11 0 12:00 860
    // Two boardings in one second.
    BUS 50 07:00, BUS 50 07:00 => BUS 50 0 07:00 175, BUS 50 0 07:00 0
    // Journeys of each kind, and at 17:00 two taps in one second.
    OUT 14 12:00, IN 11 12:30, OUT 11 12:35, BUS 50 12:32, IN 10 13:00, OUT 10 13:02, BUS 50 17:00, IN 12 17:00 => \
        LONE 0 14 12:00 860, SAME 11 11 12:30 190, BUS 50 0 12:32 175, SAME 10 10 13:00 0, BUS 50 0 17:00 175, \
        LONE 12 0 17:00 860
    // In the order of their first taps, whatever the order of the taps.
    IN 13 08:20, OUT 14 08:00, OUT 11 07:32:01, IN 11 07:30, BUS 50 07:10, OUT 12 07:20, IN 10 07:00, \
        BUS 50 06:43:20 => \
        BUS 50 0 06:43:20 175, RAIL 10 12 07:00 340, BUS 50 0 07:10 0, SAME 11 11 07:30 200, LONE 0 14 08:00 860, \
        LONE 13 0 08:20 860
    // From 04:20 to 05:50 on Tuesday: the journey belongs to Monday. A second longer, and no leg: each tap belongs to
    // its own day.
    IN 14 28:20, OUT 13 29:50 => RAIL 14 13 28:20 180
    IN 14 28:20, OUT 13 29:50:01 => LONE 14 0 28:20 860
"""


def second_of(clock):
    """The second of a time of day, as `07:00` or `07:00:01`."""
    hour, minute, second = [*map(int, clock.split(":")), 0][:3]
    return 3_600 * hour + 60 * minute + second


def journeys_shown(given, wanted, account):
    """The lines of the taps of a row and of its day, and the reply to the last one."""
    date, taps = given.split(": ") if ": " in given else ("2024-01-08", given)
    day = 19722 + int(date[-2:])
    lines = []
    for seq, tap in enumerate(taps.split(", ")):
        kind, place, clock = tap.split()
        lines.append(f"TAP 1 {seq} {account} {A_DAY * day + second_of(clock)} {place} {kind}")
    journeys = [it.split() for it in wanted.split(", ")]
    shown = [
        f"JNY {kind} {start} {end} {A_DAY * day + second_of(clock)} {fare}"
        for kind, start, end, clock, fare in journeys
    ]
    head = f"SHOW {account} {day} {len(journeys)} {sum(int(it[-1]) for it in journeys)}"
    return [*lines, f"SHOW {account} {day}"], "\n".join([head, *shown])


def only_shown(came):
    """What a session comes to, but for the replies to taps that are taken."""
    return came._replace(output=b"".join(line for line in came.output.splitlines(True) if not line.startswith(b"OK ")))


# Taps that come in each order: those of two journeys, and those of one of three legs.
IN_EACH_ORDER = (
    ("IN 14 07:00, OUT 12 07:20, IN 10 07:40:01, OUT 11 07:50", "RAIL 14 12 07:00 210, RAIL 10 11 07:40:01 280"),
    ("IN 14 07:00, OUT 12 07:20, IN 10 07:40, OUT 12 08:00, IN 10 08:20, OUT 11 08:30", "RAIL 14 11 07:00 370"),
)

# An account without taps beside one that has some; and at one instant the tap of the lesser reader comes first.
BESIDE = (
    ("TAP 2 1 7 1704697200 50 BUS", "OK 19730 175 175"),
    ("SHOW 8 19730", "SHOW 8 19730 0 0"),
    ("SHOW 7 19729", "SHOW 7 19729 0 0"),
    ("SHOW 7 19730", "SHOW 7 19730 1 175\nJNY BUS 50 0 1704697200 175"),
    ("TAP 1 9 7 1704697200 10 IN", "OK 19730 1035 1035"),
    ("SHOW 7 19730", "SHOW 7 19730 2 1035\nJNY LONE 10 0 1704697200 860\nJNY BUS 50 0 1704697200 175"),
)


class Journeys(Theme):
    def test_journeys_by_rows(self):
        """The journeys of the taps of each row, and their fares."""
        for account, (given, wanted) in enumerate(rows_of(SHOWN_JOURNEYS), 1):
            lines, reply = journeys_shown(given, wanted, account)
            self.check(given, only_shown(run(RUN, in_lines(lines))), answers(in_lines([reply])))

    def test_taps_in_each_order(self):
        """The same journeys, in whatever order their taps come."""
        for taps, wanted in IN_EACH_ORDER:
            # Each order is that of another account.
            lines, replies = [], []
            for account, order in enumerate(itertools.permutations(taps.split(", ")), 1):
                given, reply = journeys_shown(", ".join(order), wanted, account)
                lines += given
                replies.append(reply)
            self.check(f"each order of {taps}", only_shown(run(RUN, in_lines(lines))), answers(in_lines(replies)))

    def test_accounts_and_readers(self):
        """Whose journeys are shown, and in which order."""
        self.check("accounts and readers", *play(RUN, BESIDE))
