"""Taps and corrections beside their replies, by hand, on which several themes build."""

from oracle import rules
from support.running import A_DAY

# Taps of account 7 with examples/sample.toml: the second, the place and the kind of each, and the prices of its day and
# its week.
BUS_DAY = (
    (1704700800, 50, "BUS", 175, 175),  # Monday 2024-01-08, day 19730, 08:00, and every two hours
    (1704708000, 50, "BUS", 350, 350),
    (1704715200, 50, "BUS", 525, 525),
    (1704722400, 50, "BUS", 525, 525),  # 700, capped by the bus band
)
ZONE_DAY = (
    (1704697200, 10, "IN", 860, 860),  # 07:00
    (1704698400, 12, "OUT", 340, 340),
    (1704699000, 12, "IN", 1200, 1200),
    (1704700200, 10, "OUT", 680, 680),
    (1704700800, 10, "IN", 1540, 1540),
    (1704702000, 12, "OUT", 890, 890),  # 1020, capped by the band of zones 1 to 2
    (1704708000, 14, "IN", 1750, 1750),
    (1704708600, 13, "OUT", 1050, 1050),  # zone 3, off-peak: 1200, or 890 and 180, capped by the band of zones 1 to 3
)

# The day by train, and two boardings at 12:00 and 14:00: 1375 and 1550, of which the band of zones 1 to 3 covers all.
TRAIN_AND_BUS_DAY = (*ZONE_DAY, (1704715200, 50, "BUS", 1050, 1050), (1704722400, 50, "BUS", 1050, 1050))

# The same from Monday to Saturday, on which the legs of zones 1 to 2 are off-peak. Six days would be 6300, and the
# week's cap of zones 1 to 3 is 5250; by that of zones 1 to 2 it would be 4470 and 180 for each day.
TRAIN_AND_BUS_WEEK = [
    (utc + A_DAY * day, place, kind, price, 1050 * day + price)
    for day in range(5)
    for utc, place, kind, price, _ in TRAIN_AND_BUS_DAY
] + [
    (utc + A_DAY * 5, place, kind, price, 5250 + (860 if kind == "IN" else 0))
    for (utc, place, kind, *_), price in zip(
        TRAIN_AND_BUS_DAY, (860, 280, 1140, 560, 1420, 840, 1700, 1020, 1050, 1050)
    )
]
# Three boardings a day from Monday to Friday: each day is just its cap, and the week is 2625, capped by the bus band.
BUS_WEEK = [
    (
        1704700800 + 86_400 * day + 7_200 * boarding, 50, "BUS", 175 * (boarding + 1),
        min(525 * day + 175 * (boarding + 1), 2470),
    )
    for day in range(5)
    for boarding in range(3)
]


def capped(rows):
    """The lines of taps, and their replies."""
    for seq, (utc, place, kind, day_price, week_price) in enumerate(rows, 1):
        yield f"TAP 1 {seq} 7 {utc} {place} {kind}", f"OK {rules.service_day(utc)} {day_price} {week_price}"


# Corrections, with examples/sample.toml. A touch out that was forgotten is filled, and what was filled is withdrawn.
FILLED = (
    ("TAP 1 1 7 1704697200 10 IN", "OK 19730 860 860"),  # Monday 2024-01-08, day 19730, 07:00
    ("FIX 3 1 7 FILL 1704699000 12 OUT", "OK 19730 340 340"),  # 07:30
    ("SHOW 7 19730", "SHOW 7 19730 1 340\nJNY RAIL 10 12 1704697200 340"),
    ("FIX 3 2 7 CREDIT 19730 100", "OK 19730 340 340"),
    ("FIX 3 3 7 DROP 3 1", "OK 19730 860 860"),
    ("SHOW 7 19730", "SHOW 7 19730 1 860\nJNY LONE 10 0 1704697200 860"),
    ("FIX 3 4 7 VOID 1 1", "OK 19730 0 0"),
    ("FIX 3 5 7 VOID 9 9", "OK 0 0 0"),
    ("FIX 3 2 7 CREDIT 19730 200", "NO 22 FixConflict"),
    ("SHOW 7 19730", "SHOW 7 19730 0 0"),
    # Both ends of a change that were forgotten, between an In at 07:00 and an Out at 07:50.
    ("TAP 1 1 8 1704697200 14 IN", "OK 19730 860 860"),
    ("TAP 1 2 8 1704700200 11 OUT", "OK 19730 210 210"),
    ("FIX 3 1 8 FILL 1704698400 12 OUT", "OK 19730 1070 1070"),  # 07:20: 210, and the Out after it is alone
    ("FIX 3 2 8 FILL 1704699600 10 IN", "OK 19730 370 370"),  # 07:40: linked, zones 1 to 3
    ("SHOW 8 19730", "SHOW 8 19730 1 370\nJNY RAIL 14 11 1704697200 370"),
)

# What a Void leaves is priced as if the tap had never been.
LEFT = (
    # Boardings at 07:00, 07:50 and 08:23:20. Without the first the second pays, and the third is free, 2,000 s after
    # it.
    ("TAP 1 1 7 1704697200 50 BUS", "OK 19730 175 175"),
    ("TAP 1 2 7 1704700200 50 BUS", "OK 19730 175 175"),
    ("TAP 1 3 7 1704702200 50 BUS", "OK 19730 350 350"),
    ("FIX 3 1 7 VOID 1 1", "OK 19730 175 175"),
    ("SHOW 7 19730", "SHOW 7 19730 2 175\nJNY BUS 50 0 1704700200 175\nJNY BUS 50 0 1704702200 0"),
    ("FIX 3 2 7 DROP 3 1", "OK 19730 350 350"),
    # An Out at 13 that parts two legs.
    ("TAP 1 1 8 1704697200 14 IN", "OK 19730 860 860"),
    ("TAP 1 2 8 1704698400 12 OUT", "OK 19730 210 210"),
    ("TAP 1 3 8 1704699600 10 IN", "OK 19730 1070 1070"),
    ("TAP 1 4 8 1704700200 11 OUT", "OK 19730 370 370"),
    ("TAP 1 5 8 1704699000 13 OUT", "OK 19730 1350 1350"),
    ("FIX 3 1 8 VOID 1 5", "OK 19730 370 370"),
    ("SHOW 8 19730", "SHOW 8 19730 1 370\nJNY RAIL 14 11 1704697200 370"),
    # Four boardings, two hours apart, capped by the bus band.
    ("TAP 1 1 9 1704700800 50 BUS", "OK 19730 175 175"),
    ("TAP 1 2 9 1704708000 50 BUS", "OK 19730 350 350"),
    ("TAP 1 3 9 1704715200 50 BUS", "OK 19730 525 525"),
    ("TAP 1 4 9 1704722400 50 BUS", "OK 19730 525 525"),
    ("FIX 3 1 9 VOID 1 2", "OK 19730 525 525"),
    ("FIX 3 2 9 VOID 1 3", "OK 19730 350 350"),
)

# In one second accepted taps come before filled ones, and then the lower number comes first.
ONE_SECOND = (
    ("TAP 65535 9 7 1704697200 10 IN", "OK 19730 860 860"),
    ("FIX 1 1 7 FILL 1704697200 12 OUT", "OK 19730 340 340"),
    ("TAP 1 1 8 1704697200 12 OUT", "OK 19730 860 860"),
    ("FIX 2 1 8 FILL 1704697200 10 IN", "OK 19730 1720 1720"),
    ("FIX 2 1 9 FILL 1704697200 10 IN", "OK 19730 860 860"),
    ("FIX 1 9 9 FILL 1704697200 12 OUT", "OK 19730 1720 1720"),
    ("FIX 1 9 10 FILL 1704697200 10 IN", "OK 19730 860 860"),
    ("FIX 2 1 10 FILL 1704697200 12 OUT", "OK 19730 340 340"),
    ("FIX 1 1 11 FILL 1704697200 10 IN", "OK 19730 860 860"),
    ("TAP 9 9 11 1704697200 50 BUS", "OK 19730 1035 1035"),
    ("SHOW 11 19730", "SHOW 11 19730 2 1035\nJNY BUS 50 0 1704697200 175\nJNY LONE 10 0 1704697200 860"),
)

# Credits change no price, however great they are.
CREDITS = (
    ("TAP 1 1 7 1704697200 50 BUS", "OK 19730 175 175"),
    ("FIX 3 1 7 CREDIT 19730 100000", "OK 19730 175 175"),
    ("FIX 3 2 7 CREDIT 19730 100000", "OK 19730 175 175"),
    ("FIX 3 3 7 CREDIT 19736 1", "OK 19736 0 175"),
    ("FIX 3 4 7 CREDIT 19737 1", "OK 19737 0 0"),
    ("TAP 1 1 7 1704697200 50 BUS", "AGAIN 19730 175 175"),
    ("SHOW 7 19730", "SHOW 7 19730 1 175\nJNY BUS 50 0 1704697200 175"),
)

# Four boardings, the last one late, the day that they make, the last one again, what is due, and a close; and how they
# are answered.
LATE_LINES = [
    f"TAP 1 {seq} 7 {utc} 50 BUS" for seq, utc in enumerate((1704697200, 1704700200, 1704702200, 1704696200), 1)
]
LATE_LINES += ["SHOW 7 19730", LATE_LINES[-1], "DUE 7 19730", "CLOSE 19730"]
LATE_REPLIES = (
    "OK 19730 175 175", "OK 19730 175 175", "OK 19730 350 350", "OK 19730 350 350",
    "SHOW 7 19730 4 350\nJNY BUS 50 0 1704696200 175\nJNY BUS 50 0 1704697200 0\n"
    "JNY BUS 50 0 1704700200 175\nJNY BUS 50 0 1704702200 0",
    "AGAIN 19730 350 350",
    "DUE 7 19730 19730 4 350 4=350",
    "PAY 7 19730 19730 4 350 350 4=350\nDONE 19730 1",
)
