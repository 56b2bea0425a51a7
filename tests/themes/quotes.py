"""What an account owes of a week through a day, and each operator's share of it, by hand. All of it is with
examples/sample.toml."""

from support.repository import LONDON, RUN_SAMPLE
from support.running import answers, in_lines, play, read, run, written
from support.sessions import BUS_WEEK, TRAIN_AND_BUS_WEEK, ZONE_DAY, capped
from support.theme import Theme

# Quotes, with examples/sample.toml: stations 10 and 11 are operator 1's, 12 and 13 operator 2's, 14 operator 3's, and
# route 50 operator 4's. A journey of the Sunday that ends on Monday.
OVER_THE_EDGE = (
    ("TAP 1 1 7 1704688199 10 IN", "OK 19729 860 860"),  # Monday 04:29:59
    ("DUE 7 19730", "DUE 7 19730 19730 1 0"),
    ("TAP 1 2 7 1704689100 12 OUT", "OK 19730 0 0"),  # 04:45:00
    ("DUE 7 19729", "DUE 7 19723 19729 2 280 1=280"),
    ("DUE 7 19728", "DUE 7 19723 19728 2 0"),
    ("DUE 7 19730", "DUE 7 19730 19730 2 0"),
    ("DUE 7 19736", "DUE 7 19730 19736 2 0"),
)
# After three journeys at 340 the weights are 680 and 340, and after one more at 180 from station 14 they are 680, 340
# and 180.
THREE_RIDES = (
    ("DUE 7 19730", "DUE 7 19730 19730 6 890 1=593 2=297"),
    ("TAP 1 7 7 1704708000 14 IN", "OK 19730 1750 1750"),
    # 1750 · 680 / 1880 = 632.98, and 1750 · 1020 / 1880 = 949.47
    ("DUE 7 19730", "DUE 7 19730 19730 7 1750 1=632 2=317 3=801"),
    ("TAP 1 8 7 1704708600 13 OUT", "OK 19730 1050 1050"),
    ("DUE 7 19730", "DUE 7 19730 19730 8 1050 1=595 2=297 3=158"),
    # Credits are taken off what is due, and not off the weights.
    ("FIX 3 1 7 CREDIT 19730 1047", "OK 19730 1050 1050"),
    ("DUE 7 19730", "DUE 7 19730 19730 9 3 1=1 2=1 3=1"),  # 3 · 680 / 1200 = 1.7, and 3 · 1020 / 1200 = 2.55
    ("FIX 3 2 7 CREDIT 19730 1", "OK 19730 1050 1050"),
    ("DUE 7 19730", "DUE 7 19730 19730 10 2 1=1 3=1"),  # 1.13 and 1.7
    ("FIX 3 3 7 CREDIT 19730 1", "OK 19730 1050 1050"),
    ("DUE 7 19730", "DUE 7 19730 19730 11 1 3=1"),  # 0.57 and 0.85
    ("FIX 3 4 7 CREDIT 19730 1", "OK 19730 1050 1050"),
    ("DUE 7 19730", "DUE 7 19730 19730 12 0"),
    ("FIX 3 5 7 CREDIT 19730 100000", "OK 19730 1050 1050"),
    ("DUE 7 19730", "DUE 7 19730 19730 13 0"),
    ("FIX 3 6 7 DROP 3 5", "OK 19730 1050 1050"),
    ("FIX 3 7 7 DROP 3 1", "OK 19730 1050 1050"),
    ("DUE 7 19730", "DUE 7 19730 19730 15 1047 1=593 2=296 3=158"),  # 593.3 and 889.95
)
# A repeat and a refused tap count for nothing.
COUNTED_ONCE = (
    ("TAP 1 1 7 1704697200 50 BUS", "OK 19730 175 175"),
    ("TAP 1 1 7 1704697200 50 BUS", "AGAIN 19730 175 175"),
    ("TAP 1 1 7 1704697200 10 IN", "NO 20 Conflict"),
    ("DUE 7 19730", "DUE 7 19730 19730 1 175 4=175"),
    ("TAP 1 2 7 1704697200 51 BUS", "NO 15 UnknownPlace"),
    ("TAP 1 2 7 604799 50 BUS", "NO 1 OutOfTime"),
    ("TAP 1 2 7 1704697200 50 bus", "NO 50 BadLine"),
    ("DUE 7 19730", "DUE 7 19730 19730 1 175 4=175"),
    ("FIX 3 1 7 CREDIT 19731 5", "OK 19731 0 175"),
    ("FIX 3 1 7 CREDIT 19731 5", "AGAIN 19731 0 175"),
    ("FIX 3 1 7 CREDIT 19731 6", "NO 22 FixConflict"),
    ("FIX 3 2 7 FILL 1704697200 99 OUT", "NO 15 UnknownPlace"),
    ("DUE 7 19730", "DUE 7 19730 19730 2 175 4=175"),
    ("DUE 7 19731", "DUE 7 19730 19731 2 170 4=170"),
    # A tap of another week counts, and so does a Void of no tap.
    ("TAP 1 3 7 1705302000 50 BUS", "OK 19737 175 175"),
    ("FIX 3 3 7 VOID 9 9", "OK 0 0 0"),
    ("DUE 7 19731", "DUE 7 19730 19731 4 170 4=170"),
    ("DUE 7 19737", "DUE 7 19737 19737 4 175 4=175"),
    # All that this account was sent is refused.
    ("TAP 1 1 8 1704697200 51 BUS", "NO 15 UnknownPlace"),
    ("DUE 8 19730", "DUE 8 19730 19730 0 0"),
)
CORRECTED = (
    ("TAP 1 1 7 1704697200 10 IN", "OK 19730 860 860"),
    ("FIX 3 1 7 FILL 1704699000 12 OUT", "OK 19730 340 340"),
    ("FIX 3 2 7 CREDIT 19730 100", "OK 19730 340 340"),
    ("DUE 7 19730", "DUE 7 19730 19730 3 240 1=240"),
    ("FIX 3 3 7 DROP 3 1", "OK 19730 860 860"),
    ("DUE 7 19730", "DUE 7 19730 19730 4 760 1=760"),
    ("FIX 3 4 7 VOID 1 1", "OK 19730 0 0"),
    ("FIX 3 5 7 VOID 9 9", "OK 0 0 0"),
    ("FIX 3 2 7 CREDIT 19730 200", "NO 22 FixConflict"),
    ("DUE 7 19730", "DUE 7 19730 19730 6 0"),
    # An account that has voided taps alone, and one that has corrections alone.
    ("TAP 1 1 8 1704697200 50 BUS", "OK 19730 175 175"),
    ("TAP 1 2 8 1704783600 14 IN", "OK 19731 860 1035"),
    ("FIX 3 1 8 VOID 1 1", "OK 19730 0 860"),
    ("FIX 3 2 8 VOID 1 2", "OK 19731 0 0"),
    ("DUE 8 19731", "DUE 8 19730 19731 4 0"),
    ("FIX 3 3 8 DROP 3 2", "OK 19731 860 860"),
    ("DUE 8 19731", "DUE 8 19730 19731 5 860 3=860"),
    ("FIX 3 1 9 CREDIT 19730 100", "OK 19730 0 0"),
    ("FIX 3 2 9 DROP 3 9", "OK 0 0 0"),
    ("DUE 9 19730", "DUE 9 19730 19730 2 0"),
    ("FIX 3 9 9 FILL 1704697200 12 OUT", "OK 19730 0 0"),  # withdrawn already
    ("DUE 9 19730", "DUE 9 19730 19730 3 0"),
)
# Each quote is asked for twice, and what comes between and then is as if none had been.
CHANGING_NOTHING = (
    ("DUE 7 19730", "DUE 7 19730 19730 0 0"),
    ("SHOW 7 19730", "SHOW 7 19730 0 0"),
    ("TAP 1 1 7 1704697200 50 BUS", "OK 19730 175 175"),
    ("FIX 3 1 7 CREDIT 19730 75", "OK 19730 175 175"),
    ("DUE 7 19730", "DUE 7 19730 19730 2 100 4=100"),
    ("DUE 7 19730", "DUE 7 19730 19730 2 100 4=100"),
    ("DUE 8 19730", "DUE 8 19730 19730 0 0"),
    ("TAP 1 1 7 1704697200 50 BUS", "AGAIN 19730 175 175"),
    ("FIX 3 1 7 CREDIT 19730 75", "AGAIN 19730 175 175"),
    ("SHOW 7 19730", "SHOW 7 19730 1 175\nJNY BUS 50 0 1704697200 175"),
    ("DUE 7 19730", "DUE 7 19730 19730 2 100 4=100"),
    ("SHOW 8 19730", "SHOW 8 19730 0 0"),
    ("QUIT", "BYE"),
)
# Through each day: a boarding on Monday, a leg on Tuesday, a boarding on Wednesday, and Credits of Monday, Wednesday
# and Saturday.
THROUGH_DAYS = (
    ("FIX 3 3 7 CREDIT 19735 7", "OK 19735 0 0"),
    ("FIX 3 2 7 CREDIT 19732 100", "OK 19732 0 0"),
    ("TAP 1 4 7 1704870000 50 BUS", "OK 19732 175 175"),
    ("TAP 1 2 7 1704783600 10 IN", "OK 19731 860 1035"),
    ("TAP 1 3 7 1704784800 12 OUT", "OK 19731 340 515"),
    ("FIX 3 1 7 CREDIT 19730 50", "OK 19730 0 515"),
    ("DUE 7 19730", "DUE 7 19730 19730 6 0"),
    ("TAP 1 1 7 1704697200 50 BUS", "OK 19730 175 690"),
    ("DUE 7 19729", "DUE 7 19723 19729 7 0"),
    ("DUE 7 19730", "DUE 7 19730 19730 7 125 4=125"),
    ("DUE 7 19731", "DUE 7 19730 19731 7 465 1=306 4=159"),  # 465 · 340 / 515 = 306.99
    ("DUE 7 19732", "DUE 7 19730 19732 7 540 1=266 4=274"),  # 540 · 340 / 690 = 266.09
    ("DUE 7 19734", "DUE 7 19730 19734 7 540 1=266 4=274"),
    ("DUE 7 19735", "DUE 7 19730 19735 7 533 1=262 4=271"),  # 533 · 340 / 690 = 262.64
    ("DUE 7 19736", "DUE 7 19730 19736 7 533 1=262 4=271"),
    ("DUE 7 19737", "DUE 7 19737 19737 7 0"),
)
# A run's fare falls to those from whose stations its legs began, and every other fare to its own place.
PARTS_OF_FARES = (
    ("TAP 1 1 7 1704697200 14 IN", "OK 19730 860 860"),
    ("DUE 7 19730", "DUE 7 19730 19730 1 860 3=860"),
    ("TAP 1 2 7 1704698400 12 OUT", "OK 19730 210 210"),
    ("DUE 7 19730", "DUE 7 19730 19730 2 210 3=210"),
    ("TAP 1 3 7 1704699600 10 IN", "OK 19730 1070 1070"),
    ("DUE 7 19730", "DUE 7 19730 19730 3 1070 1=860 3=210"),
    ("TAP 1 4 7 1704700800 12 OUT", "OK 19730 370 370"),
    ("DUE 7 19730", "DUE 7 19730 19730 4 370 1=185 3=185"),
    ("TAP 1 5 7 1704702000 10 IN", "OK 19730 1230 1230"),
    ("TAP 1 6 7 1704702600 11 OUT", "OK 19730 370 370"),
    ("DUE 7 19730", "DUE 7 19730 19730 6 370 1=247 3=123"),  # three legs: 123, 123 and 124
    ("FIX 3 1 7 CREDIT 19730 1", "OK 19730 370 370"),
    ("DUE 7 19730", "DUE 7 19730 19730 7 369 1=246 3=123"),  # 369 · 247 / 370 = 246.33
    # A lone Out, and at 12:00 a leg from 12 to 12 of 60 s and at 13:00 one of 180 s.
    ("TAP 1 1 8 1704697200 12 OUT", "OK 19730 860 860"),
    ("DUE 8 19730", "DUE 8 19730 19730 1 860 2=860"),
    ("TAP 1 1 9 1704715200 12 IN", "OK 19730 860 860"),
    ("TAP 1 2 9 1704715260 12 OUT", "OK 19730 0 0"),
    ("DUE 9 19730", "DUE 9 19730 19730 2 0"),
    ("TAP 1 3 9 1704718800 12 IN", "OK 19730 860 860"),
    ("TAP 1 4 9 1704718980 12 OUT", "OK 19730 190 190"),
    ("DUE 9 19730", "DUE 9 19730 19730 4 190 2=190"),
    ("TAP 1 5 9 1704715200 50 BUS", "OK 19730 365 365"),
    ("TAP 1 6 9 1704715260 50 BUS", "OK 19730 365 365"),
    ("DUE 9 19730", "DUE 9 19730 19730 6 365 2=190 4=175"),
    # A lone In at 11, at 17:00 a leg from 12 to 12 of 200 s, and a boarding.
    ("TAP 1 1 10 1704715200 11 IN", "OK 19730 860 860"),
    ("DUE 10 19730", "DUE 10 19730 19730 1 860 1=860"),
    ("TAP 1 2 10 1704733200 12 IN", "OK 19730 1720 1720"),
    ("TAP 1 3 10 1704733400 12 OUT", "OK 19730 1060 1060"),
    ("TAP 1 4 10 1704715200 50 BUS", "OK 19730 1235 1235"),
    ("DUE 10 19730", "DUE 10 19730 19730 4 1235 1=860 2=200 4=175"),
)
# The ends of days and of time, in London.
QUOTED_ENDS = (
    ("TAP 1 1 7 1711855799 50 BUS", "OK 19812 175 175"),  # Sunday 04:29:59 in summer time
    ("TAP 1 2 7 1711855800 50 BUS", "OK 19813 0 175"),
    ("DUE 7 19811", "DUE 7 19807 19811 2 0"),
    ("DUE 7 19812", "DUE 7 19807 19812 2 175 4=175"),
    ("DUE 7 19813", "DUE 7 19807 19813 2 175 4=175"),
    ("TAP 1 3 7 604800 50 BUS", "OK 6 175 175"),
    ("TAP 1 4 7 4102444799 50 BUS", "OK 47481 175 175"),
    ("DUE 7 6", "DUE 7 4 6 4 175 4=175"),
    ("DUE 7 5", "DUE 7 4 5 4 0"),
    ("DUE 7 47481", "DUE 7 47478 47481 4 175 4=175"),
    ("DUE 7 47480", "DUE 7 47478 47480 4 0"),
)
# Three boardings a day from Monday to Friday, and what is due through each day.
QUOTED_WEEK = (
    ("DUE 7 19730", "DUE 7 19730 19730 15 525 4=525"),
    ("DUE 7 19731", "DUE 7 19730 19731 15 1050 4=1050"),
    ("DUE 7 19732", "DUE 7 19730 19732 15 1575 4=1575"),
    ("DUE 7 19733", "DUE 7 19730 19733 15 2100 4=2100"),
    ("DUE 7 19734", "DUE 7 19730 19734 15 2470 4=2470"),
    ("DUE 7 19736", "DUE 7 19730 19736 15 2470 4=2470"),
)
# Six days of which each is capped at 1050. The weights of the four operators are 680, 340, 180 and 350 for each day but
# the Saturday, for which they are 560, 280, 180 and 350: 2720, 1360, 720 and 1400 through Thursday, and 3960, 1980,
# 1080 and 2100 in all.
QUOTED_TRAIN_AND_BUS = (
    # 4200 · 2720 / 6200 = 1842.58, 2763.87, 3251.61
    ("DUE 7 19733", "DUE 7 19730 19733 60 4200 1=1842 2=921 3=488 4=949"),
    # 5250 · 3960 / 9120 = 2279.61, 3419.41, 4041.12
    ("DUE 7 19735", "DUE 7 19730 19735 60 5250 1=2279 2=1140 3=622 4=1209"),
    ("FIX 3 1 7 CREDIT 19730 250", "OK 19730 1050 5250"),
    # 5000 · 3960 / 9120 = 2171.05, 3256.58, 3848.68
    ("DUE 7 19735", "DUE 7 19730 19735 61 5000 1=2171 2=1085 3=592 4=1152"),
)
QUOTES = {
    "a journey over 04:30": OVER_THE_EDGE,
    "shares of caps and Credits": [*capped(ZONE_DAY[:6]), *THREE_RIDES],
    "versions": COUNTED_ONCE,
    "quotes and corrections": CORRECTED,
    "quotes that change nothing": CHANGING_NOTHING,
    "quotes through each day": THROUGH_DAYS,
    "parts of fares": PARTS_OF_FARES,
    "quotes at the ends of time": QUOTED_ENDS,
    "quotes of a capped week": [*capped(BUS_WEEK), *QUOTED_WEEK],
    "quotes of a capped week by train and bus": [*capped(TRAIN_AND_BUS_WEEK), *QUOTED_TRAIN_AND_BUS],
    "quotes of nothing": (
        ("DUE 7 19730", "DUE 7 19730 19730 0 0"), ("SHOW 7 19730", "SHOW 7 19730 0 0"), ("QUIT", "BYE")
    ),
}

# The operators of the stations 10 and 12 and of route 50, and the shares of three rides at 340 and a boarding, 890 in
# all: the weights of the three are 680, 340 and 175, and 890 · 680 / 1195 = 506.44, 890 · 340 / 1195 = 253.22 and 890 ·
# 175 / 1195 = 130.33.
OTHER_OPERATORS = (
    (1, 2, 4, "1=506 2=253 4=131"),
    (16, 9, 10, "9=253 10=130 16=507"),  # 253.22, 383.56
    (10, 9, 1, "1=130 9=253 10=507"),
    (2, 16, 11, "2=506 11=130 16=254"),  # 506.44, 636.78
    (16, 16, 16, "16=890"),
    (3, 16, 3, "3=636 16=254"),
)


class Quotes(Theme):
    def test_what_is_due(self):
        """What is due, and each operator's share."""
        for name, pairs in QUOTES.items():
            self.check(name, *play(RUN_SAMPLE, pairs))

    def test_shares_by_operators(self):
        """The same fares with other operators."""
        lines = [line for line, _ in capped(ZONE_DAY[:6])] + ["TAP 2 1 7 1704736800 50 BUS", "DUE 7 19730"]
        for first, second, third, shares in OTHER_OPERATORS:
            text = read("sample.toml").decode()
            for place, old, new in (
                ("place = 10, low = 1, high = 1", 1, first),
                ("place = 12, low = 2, high = 2", 2, second),
                ("place = 50", 4, third),
            ):
                text = text.replace(f"{place}, operator = {old}", f"{place}, operator = {new}")
            came = run(["run", written(self.folder, "fares", text.encode()), LONDON], in_lines(lines))
            came = came._replace(output=came.output.splitlines(True)[-1] if came.output else b"")
            self.check(
                f"the operators {first}, {second} and {third}",
                came,
                answers(in_lines([f"DUE 7 19730 19730 7 890 {shares}"])),
            )
