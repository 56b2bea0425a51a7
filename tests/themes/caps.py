"""Prices of days and weeks, up to their caps."""

from support.examples import told_replies
from support.repository import RUN_SAMPLE
from support.running import A_DAY, RUN, answers, play, read, run
from support.sessions import BUS_DAY, BUS_WEEK, TRAIN_AND_BUS_DAY, TRAIN_AND_BUS_WEEK, ZONE_DAY, capped
from support.theme import Theme

# Taps of account 7 with examples/sample.toml, each with the prices of its day and its week: a leg that the bus band
# leaves outside.
LEG_AND_BUS_DAY = (
    (1704697200, 10, "IN", 860, 860),  # 07:00
    (1704698400, 12, "OUT", 340, 340),
    (1704700800, 50, "BUS", 515, 515),  # 08:00
    (1704708000, 50, "BUS", 690, 690),  # 10:00, and every two hours
    (1704715200, 50, "BUS", 865, 865),
    (1704722400, 50, "BUS", 865, 865),  # 1040, or 525 and 340
)

# A maximum fare comes on top.
TRAIN_BUS_AND_LONE = (*TRAIN_AND_BUS_DAY, (1704729600, 10, "IN", 1910, 1910))  # 16:00

# The last four of these arrive late.
LATE = (
    (1704697200, 10, "IN", 860, 860),  # 07:00
    (1704708000, 50, "BUS", 1035, 1035),  # 10:00, and every two hours
    (1704715200, 50, "BUS", 1210, 1210),
    (1704722400, 50, "BUS", 1385, 1385),
    (1704729600, 50, "BUS", 1385, 1385),  # 700, capped by the bus band; the lone tap is on top
    (1704698400, 12, "OUT", 865, 865),  # 07:20: 340 are outside of the bus band
    (1704699000, 12, "IN", 1725, 1725),  # 07:30
    (1704700200, 10, "OUT", 890, 890),  # 07:50: 525 and 680 are more than the band of zones 1 to 2
    (1704702600, 50, "BUS", 890, 890),  # 08:30
)
# Five days of three legs within zones 1 to 2, each day capped at 890, with examples/sample.toml: the second of the day,
# the place, the kind and the day's price. Then a Saturday and a Sunday, with the week's price.
ZONE_WEEK_DAY = (
    (25_200, 10, "IN", 860), (26_400, 12, "OUT", 340),
    (27_000, 12, "IN", 1200), (28_200, 10, "OUT", 680),
    (28_800, 10, "IN", 1540), (30_000, 12, "OUT", 890),
)
ZONE_WEEK = [
    (A_DAY * (19730 + day) + second, place, kind, price, 890 * day + price)
    for day in range(5) for second, place, kind, price in ZONE_WEEK_DAY
] + [
    # With the leg of 280 it would be 4730: the week's cap of zones 1 to 2 is 4470.
    (1705140000, 10, "IN", 860, 5310),
    (1705141200, 12, "OUT", 280, 4470),
    # A leg outside of these zones comes on top, and so does a maximum fare.
    (1705143600, 14, "IN", 1140, 5330),
    (1705144200, 13, "OUT", 460, 4650),
    (1705233600, 10, "IN", 860, 5510),
]

# A Sunday, the Monday, the Sunday after it and the next Monday, by bus; and lone taps by train.
OVER_WEEKS = (
    ("TAP 1 1 7 1704610800 50 BUS", "OK 19729 175 175"),
    ("TAP 1 2 7 1704697200 50 BUS", "OK 19730 175 175"),
    ("TAP 1 3 7 1705215600 50 BUS", "OK 19736 175 350"),
    ("TAP 1 4 7 1705302000 50 BUS", "OK 19737 175 175"),
    ("TAP 1 1 8 1704697200 10 IN", "OK 19730 860 860"),
    ("TAP 1 2 8 1705215600 12 OUT", "OK 19736 860 1720"),
    ("TAP 1 3 8 1705302000 12 OUT", "OK 19737 860 860"),
)


class Caps(Theme):
    def test_capped_days_and_weeks(self):
        """Prices up to the caps, tap by tap."""
        for name, rows in (
            ("a day by bus", BUS_DAY),
            ("a day by train", ZONE_DAY),
            ("a leg and four boardings", LEG_AND_BUS_DAY),
            ("a day by train and bus, and a lone tap", TRAIN_BUS_AND_LONE),
            ("a week by bus", BUS_WEEK),
            ("a week of capped days by train", ZONE_WEEK),
            ("a week of capped days by train and bus", TRAIN_AND_BUS_WEEK),
            ("late taps", LATE),
        ):
            self.check(name, *play(RUN_SAMPLE, list(capped(rows))))

    def test_examples_with_caps(self):
        """The sessions of the examples, with a fare file that has caps."""
        # Where no cap is reached the prices are those without caps.
        told = told_replies()
        for name in ("hopper.txt", "interchanges.txt", "late-tap.txt", "rail-edges.txt", "refusals.txt"):
            self.check(f"{name} with caps", run(RUN_SAMPLE, read(name)), answers(told[name]))
        # The last leg brings this day to 1230, and the band of zones 1 to 3 caps it.
        self.check(
            "rail-day.txt with caps",
            run(RUN_SAMPLE, read("rail-day.txt")),
            answers(told["rail-day.txt"].replace(b"1230", b"1050")),
        )

    def test_weeks_without_caps(self):
        """A week's price is the sum of its own days."""
        self.check("over weeks", *play(RUN, OVER_WEEKS))
