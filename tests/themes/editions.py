"""Prices on the days around a change of fares, by examples/two.toml, whose edition begins on Tuesday 2024-01-09, day
19731."""

from support.repository import CHECK, COUNTED, LONDON, RUN_SAMPLE, RUN_TWO, TWO
from support.running import A_DAY, answers, edited, fault, play, run, written
from support.statements import rows_of_statement, stated
from support.theme import Theme

# Of account 7: the second, the place and the kind of each tap, the day of the reply, and the prices of that day and its
# week.
OVER_NIGHT = (
    (1704774599, 10, "IN", 19730, 860, 860),  # Tuesday 04:29:59, which is Monday's service day
    (1704775500, 12, "OUT", 19731, 0, 280),  # 04:45:00: a leg of Monday, off-peak, and none of Tuesday
    (1704783600, 50, "BUS", 19731, 180, 460),  # 07:00
)
ALONE = ((1704775500, 12, "OUT", 19731, 900, 900),)
# From the first second of the edition on.
FROM_ITS_FIRST_SECOND = (
    (1704774600, 10, "IN", 19731, 900, 900),  # 04:30:00
    (1704775500, 12, "OUT", 19731, 290, 290),
)
# Two legs that an interchange joins are one journey, of the day of the first tap: 300 from zone 3 to zone 1, off-peak,
# before the change.
JOINED = (
    (1704773400, 14, "IN", 19730, 860, 860),  # 04:10
    (1704774000, 10, "OUT", 19730, 300, 300),  # 04:20
    (1704774660, 12, "IN", 19731, 900, 1200),  # 04:31: so far a tap alone, of Tuesday
    (1704775260, 13, "OUT", 19731, 0, 300),  # 04:41: the second leg of Monday's journey
)
# The same without the interchange, from station 12 on: a leg of Monday and one of Tuesday.
APART = (
    (1704773400, 10, "IN", 19730, 860, 860),
    (1704774000, 12, "OUT", 19730, 280, 280),
    (1704774660, 12, "IN", 19731, 900, 1180),
    (1704775260, 10, "OUT", 19731, 290, 570),
)
# Three boardings on each day from Monday to Friday: the day caps are 525 and then 540, and the week's is that of its
# Monday.
BUS_WEEK = [
    (
        1704700800 + A_DAY * day + 7_200 * boarding, 50, "BUS", 19730 + day, fare * (boarding + 1),
        min((525 + 540 * (day - 1) if day else 0) + fare * (boarding + 1), 2470),
    )
    for day, fare in enumerate((175, 180, 180, 180, 180)) for boarding in range(3)
]
NEXT_WEEK = [
    (
        1704700800 + A_DAY * (7 + day) + 7_200 * boarding, 50, "BUS", 19737 + day, 180 * (boarding + 1),
        min(540 * day + 180 * (boarding + 1), 2500),
    )
    for day in range(5) for boarding in range(3)
]


def taps(rows):
    """The lines of taps, and their replies."""
    return [
        (
            f"TAP 1 {seq} 7 {utc} {place} {kind}", f"OK {day} {price} {week}"
        ) for seq, (utc, place, kind, day, price, week) in enumerate(rows, 1)
    ]


# What is put in the place of what in examples/two.toml.
NO_BANDS = """band = [
  { from = 0, to = 0, day = 540, week = 2500 },
  { from = 1, to = 2, day = 900, week = 4500 },
  { from = 1, to = 3, day = 1060, week = 5300 },
]
"""
# Four boardings on the Monday and four on the Tuesday.
UNCAPPED = [(1704700800 + A_DAY * (at // 4) + 7_200 * (at % 4), 50, "BUS") for at in range(8)]


def of_two(folder, old, new):
    """The path of examples/two.toml with this in the place of that."""
    return written(folder, "fares", edited(old, new, "two.toml"))


class Editions(Theme):
    def test_over_the_change(self):
        """Legs, boardings and weeks over the first second of an edition."""
        self.check("an In before it, and the Out after it", *play(RUN_TWO, taps(OVER_NIGHT)))
        self.check("the Out alone", *play(RUN_TWO, taps(ALONE)))
        self.check("an In at its first second", *play(RUN_TWO, taps(FROM_ITS_FIRST_SECOND)))
        self.check("a journey of two legs over it", *play(RUN_TWO, taps(JOINED)))
        self.check("a leg before it, and one after it", *play(RUN_TWO, taps(APART)))
        self.check("a week over it", *play(RUN_TWO, taps(BUS_WEEK)))
        self.check("the week after it", *play(RUN_TWO, taps(NEXT_WEEK)))

    def test_late_taps(self):
        """A late tap of a day before the change is priced by the fares of its day, and a Credit of that day changes no
        price."""
        bus, late = 1704787200, 1704700800
        self.check(
            "a Monday's boarding after a Tuesday's",
            *play(
                RUN_TWO,
                [
                    (f"TAP 1 1 7 {bus} 50 BUS", "OK 19731 180 180"), (f"TAP 1 2 7 {late} 50 BUS", "OK 19730 175 355"),
                    ("FIX 2 1 7 CREDIT 19730 100", "OK 19730 175 355"),
                    ("DUE 7 19731", "DUE 7 19730 19731 3 255 4=255"),
                ],
            ),
        )

    def test_other_editions(self):
        """Files whose edition begins later, has no bands, or is refused; and a file without any."""
        self.check(
            "before it begins",
            *play(
                ["run", of_two(self.folder, "day = 19731", "day = 19738"), LONDON],
                [
                    ("TAP 1 1 7 1704787200 50 BUS", "OK 19731 175 175"),
                    ("TAP 1 2 7 1705305600 50 BUS", "OK 19737 175 175"),
                    ("TAP 1 3 7 1705392000 50 BUS", "OK 19738 180 355"),
                ],
            ),
        )
        # Monday's four come to 525, its day cap, and Tuesday's, which has no band, to 720.
        prices = (175, 350, 525, 525, 180, 360, 540, 720)
        self.check(
            "without bands",
            *play(
                ["run", of_two(self.folder, NO_BANDS, ""), LONDON],
                taps([
                    (*tap, 19730 + at // 4, prices[at], prices[at] + (525 if at > 3 else 0))
                    for at, tap in enumerate(UNCAPPED)
                ]),
            ),
        )
        self.check(
            "another Hopper time",
            run(["check", of_two(self.folder, "maximum = 900, hopper = 3600", "maximum = 900, hopper = 3500")]),
            fault("17 HopperDiffers"),
        )
        self.check("checked", run(["check", TWO]), answers(COUNTED[:-1] + b" editions 1\n"))
        self.check("a file without any, checked", run(CHECK), answers(COUNTED))
        self.check("a file without any", *play(RUN_SAMPLE, taps([(1704787200, 50, "BUS", 19731, 175, 175)])))

    def test_statements(self):
        """Each line of a statement has the band of its own day, by the bands of that day."""
        lines = [line for line, _ in taps([(*tap, 0, 0, 0) for tap in UNCAPPED])]
        clocks = ("08:00:00", "10:00:00", "12:00:00", "14:00:00")
        rows = [f"{day},BUS,50,0,{clock},{fare},{{}}" for day, fare in ((19730, 175), (19731, 180)) for clock in clocks]
        self.check(
            "bus bands of two editions",
            stated(lines, 7, 19730, fares=TWO),
            rows_of_statement(*(row.format("bus") for row in rows)),
        )
        self.check(
            "an edition without bands",
            stated(lines, 7, 19730, fares=of_two(self.folder, NO_BANDS, "")),
            rows_of_statement(*(row.format("bus" if at < 4 else "-") for at, row in enumerate(rows))),
        )
