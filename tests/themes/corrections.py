"""What customer service does to an account's taps, by hand. All of it is with examples/sample.toml."""

from support.repository import RUN_SAMPLE
from support.running import play
from support.sessions import CREDITS, FILLED, LEFT, ONE_SECOND
from support.theme import Theme

# A boarding that never was is voided, brought back, and voided twice.
VOIDED = (
    ("TAP 1 1 7 1704697200 50 BUS", "OK 19730 175 175"),
    ("FIX 3 1 7 VOID 1 1", "OK 19730 0 0"),
    ("TAP 1 1 7 1704697200 50 BUS", "AGAIN 19730 0 0"),
    ("TAP 1 1 7 1704697201 50 BUS", "NO 20 Conflict"),
    ("FIX 3 2 7 DROP 3 1", "OK 19730 175 175"),
    ("FIX 3 1 7 VOID 1 1", "AGAIN 19730 175 175"),  # sent again it does not stand again
    ("FIX 3 3 7 VOID 1 1", "OK 19730 0 0"),
    ("FIX 3 4 7 VOID 1 1", "OK 19730 0 0"),
    ("FIX 3 5 7 DROP 3 3", "OK 19730 0 0"),  # the other one still stands
    ("FIX 3 6 7 DROP 3 4", "OK 19730 175 175"),
    ("FIX 3 7 7 DROP 3 6", "OK 0 0 0"),  # a Drop of a Drop has no effect
    ("FIX 3 8 7 DROP 3 8", "OK 0 0 0"),  # nor has one of itself
    ("FIX 3 8 7 DROP 3 8", "AGAIN 0 0 0"),
    ("SHOW 7 19730", "SHOW 7 19730 1 175\nJNY BUS 50 0 1704697200 175"),
)

# A Void or a Drop comes before what it names.
EARLY = (
    ("FIX 3 1 7 VOID 1 1", "OK 0 0 0"),
    ("FIX 3 1 7 VOID 1 1", "AGAIN 0 0 0"),
    ("SHOW 7 19730", "SHOW 7 19730 0 0"),
    ("TAP 1 1 7 1704697200 50 BUS", "OK 19730 0 0"),
    ("FIX 3 1 7 VOID 1 1", "AGAIN 19730 0 0"),
    ("FIX 3 9 7 DROP 3 8", "OK 0 0 0"),
    ("FIX 3 8 7 CREDIT 19731 100", "OK 19731 0 0"),
    ("FIX 3 9 7 DROP 3 8", "AGAIN 19731 0 0"),
    ("FIX 4 9 7 DROP 4 8", "OK 0 0 0"),
    ("FIX 4 8 7 FILL 1704697200 50 BUS", "OK 19730 0 0"),
    ("FIX 5 9 7 DROP 5 8", "OK 0 0 0"),
    ("FIX 5 8 7 VOID 1 1", "OK 19730 0 0"),  # withdrawn already, but the first Void stands
    ("FIX 6 9 7 DROP 3 1", "OK 19730 175 175"),
    ("TAP 1 1 8 1704697200 50 BUS", "OK 19730 175 175"),
    ("FIX 3 9 8 DROP 3 8", "OK 0 0 0"),
    ("FIX 3 8 8 CREDIT 19730 100", "OK 19730 175 175"),
)
# Taps and corrections are numbered apart, and so are those of other accounts.
APART = (
    ("TAP 3 1 7 1704697200 10 IN", "OK 19730 860 860"),
    ("FIX 3 1 7 FILL 1704699000 12 OUT", "OK 19730 340 340"),
    ("FIX 3 2 7 FILL 1704715200 50 BUS", "OK 19730 515 515"),  # 12:00
    ("FIX 3 3 7 VOID 3 2", "OK 0 0 0"),  # it takes out no Fill
    ("SHOW 7 19730", "SHOW 7 19730 2 515\nJNY RAIL 10 12 1704697200 340\nJNY BUS 50 0 1704715200 175"),
    ("FIX 3 4 7 VOID 3 1", "OK 19730 1035 1035"),  # the tap, and not the Fill
    ("SHOW 7 19730", "SHOW 7 19730 2 1035\nJNY LONE 0 12 1704699000 860\nJNY BUS 50 0 1704715200 175"),
    ("FIX 3 5 7 DROP 3 1", "OK 19730 175 175"),  # the Fill, and not the tap
    ("TAP 3 2 7 1704722400 50 BUS", "OK 19730 175 175"),  # 14:00: voided by (3, 3)
    ("FIX 3 3 7 VOID 3 2", "AGAIN 19730 175 175"),
    ("FIX 3 6 7 DROP 3 2", "OK 19730 0 0"),
    ("FIX 3 7 7 DROP 3 3", "OK 19730 175 175"),
    ("SHOW 7 19730", "SHOW 7 19730 1 175\nJNY BUS 50 0 1704722400 175"),
    ("FIX 3 1 8 VOID 3 2", "OK 0 0 0"),
    ("FIX 3 2 8 DROP 3 4", "OK 0 0 0"),
    ("SHOW 7 19730", "SHOW 7 19730 1 175\nJNY BUS 50 0 1704722400 175"),
)
# The same number with other content, of which the form is a part.
CONTENTS = (
    ("FIX 5 1 7 VOID 5 6", "OK 0 0 0"),
    ("FIX 5 1 7 DROP 5 6", "NO 22 FixConflict"),
    ("FIX 5 1 7 CREDIT 5 6", "NO 22 FixConflict"),
    ("FIX 5 1 7 FILL 1704697200 10 IN", "NO 22 FixConflict"),
    ("FIX 5 1 7 VOID 5 7", "NO 22 FixConflict"),
    ("FIX 5 1 7 VOID 6 6", "NO 22 FixConflict"),
    ("FIX 5 1 7 VOID 5 6", "AGAIN 0 0 0"),
    ("FIX 5 2 7 DROP 5 6", "OK 0 0 0"),
    ("FIX 5 2 7 VOID 5 6", "NO 22 FixConflict"),
    ("FIX 5 2 7 DROP 5 5", "NO 22 FixConflict"),
    ("FIX 5 2 7 DROP 6 6", "NO 22 FixConflict"),
    ("FIX 5 2 7 DROP 5 6", "AGAIN 0 0 0"),
    ("FIX 5 3 7 FILL 1704697200 10 IN", "OK 19730 860 860"),
    ("FIX 5 3 7 FILL 1704697201 10 IN", "NO 22 FixConflict"),
    ("FIX 5 3 7 FILL 1704697200 11 IN", "NO 22 FixConflict"),
    ("FIX 5 3 7 FILL 1704697200 10 OUT", "NO 22 FixConflict"),
    ("FIX 5 3 7 FILL 1704697200 10 IN", "AGAIN 19730 860 860"),
    ("FIX 5 4 7 CREDIT 19730 100", "OK 19730 860 860"),
    ("FIX 5 4 7 CREDIT 19731 100", "NO 22 FixConflict"),
    ("FIX 5 4 7 CREDIT 19730 101", "NO 22 FixConflict"),
    ("FIX 5 4 7 CREDIT 19730 100", "AGAIN 19730 860 860"),
    ("SHOW 7 19730", "SHOW 7 19730 1 860\nJNY LONE 10 0 1704697200 860"),
    ("FIX 5 4 8 CREDIT 19731 100", "OK 19731 0 0"),  # another account
)
# The first that is wrong is told, and what is refused leaves nothing behind.
REFUSED_FIXES = (
    ("FIX 3 1 7 FILL 604799 99 OUT", "NO 1 OutOfTime"),
    ("FIX 3 1 7 FILL 4102444800 12 OUT", "NO 1 OutOfTime"),
    ("FIX 3 1 7 FILL 1704699000 99 OUT", "NO 15 UnknownPlace"),
    ("FIX 3 1 7 FILL 1704699000 50 IN", "NO 15 UnknownPlace"),
    ("FIX 3 1 7 FILL 1704699000 50 OUT", "NO 15 UnknownPlace"),
    ("FIX 3 1 7 FILL 1704699000 12 BUS", "NO 15 UnknownPlace"),
    ("SHOW 7 19730", "SHOW 7 19730 0 0"),
    ("FIX 3 1 7 VOID 1 1", "OK 0 0 0"),
    ("FIX 3 1 7 FILL 604799 99 OUT", "NO 1 OutOfTime"),
    ("FIX 3 1 7 FILL 1704699000 99 OUT", "NO 15 UnknownPlace"),
    ("FIX 3 1 7 FILL 1704699000 12 OUT", "NO 22 FixConflict"),
    ("FIX 3 1 7 VOID 1 1", "AGAIN 0 0 0"),
    ("SHOW 7 19730", "SHOW 7 19730 0 0"),
)

# The day of each reply, in the night to Monday, over weeks, and in summer time.
DAYS_NAMED = (
    ("TAP 1 1 7 1704688199 10 IN", "OK 19729 860 860"),  # Monday 04:29:59
    ("TAP 1 2 7 1704689100 12 OUT", "OK 19730 0 0"),  # 04:45:00
    ("FIX 3 1 7 VOID 1 2", "OK 19730 0 0"),
    ("SHOW 7 19729", "SHOW 7 19729 1 860\nJNY LONE 10 0 1704688199 860"),
    ("FIX 3 2 7 VOID 1 1", "OK 19729 0 0"),
    ("FIX 3 3 7 DROP 3 1", "OK 19730 860 860"),  # the Out alone
    ("FIX 3 4 7 DROP 3 2", "OK 19729 280 280"),  # a leg again, the Sunday's
    ("FIX 3 5 7 DROP 3 2", "OK 19729 280 280"),
    ("FIX 3 6 7 CREDIT 19729 50", "OK 19729 280 280"),
    ("FIX 3 7 7 CREDIT 19728 50", "OK 19728 0 280"),
    ("FIX 3 8 7 CREDIT 19731 50", "OK 19731 0 0"),
    ("FIX 3 9 7 DROP 3 8", "OK 19731 0 0"),
    ("FIX 3 8 7 CREDIT 19731 50", "AGAIN 19731 0 0"),
    ("FIX 3 12 7 DROP 3 8", "OK 19731 0 0"),
    ("FIX 3 10 7 FILL 1704688199 50 BUS", "OK 19729 455 455"),
    ("FIX 3 11 7 DROP 3 10", "OK 19729 280 280"),
    ("FIX 3 10 7 FILL 1704688199 50 BUS", "AGAIN 19729 280 280"),
    # Sunday 2024-03-31, on which the clocks went forward: 04:29:59, and 04:30:00, free by the Hopper rule.
    ("FIX 3 1 8 FILL 1711855799 50 BUS", "OK 19812 175 175"),
    ("FIX 3 2 8 FILL 1711855800 50 BUS", "OK 19813 0 175"),
    ("FIX 3 3 8 DROP 3 1", "OK 19812 0 175"),
    ("SHOW 8 19813", "SHOW 8 19813 1 175\nJNY BUS 50 0 1711855800 175"),
)

# What stands in the end: a Fill between two boardings, of which the second is voided, and of two Credits the one that
# is not withdrawn.
STANDING = (
    ("TAP 1 1 7 1704697200 50 BUS", "OK 19730 175 175"),
    ("TAP 1 2 7 1704697260 50 BUS", "OK 19730 175 175"),
    ("FIX 3 4 7 FILL 1704697230 50 BUS", "OK 19730 175 175"),
    ("FIX 3 5 7 VOID 1 2", "OK 19730 175 175"),
    ("FIX 3 6 7 CREDIT 19730 100", "OK 19730 175 175"),
    ("FIX 3 7 7 CREDIT 19730 40", "OK 19730 175 175"),
    ("FIX 3 8 7 DROP 3 6", "OK 19730 175 175"),
    ("SHOW 7 19730", "SHOW 7 19730 2 175\nJNY BUS 50 0 1704697200 175\nJNY BUS 50 0 1704697230 0"),
    ("DUE 7 19730", "DUE 7 19730 19730 7 135 4=135"),
    ("DUE 7 19736", "DUE 7 19730 19736 7 135 4=135"),
)
CORRECTIONS = {
    "Fills": FILLED,
    "Voids": VOIDED,
    "what Voids leave": LEFT,
    "Voids and Drops that come early": EARLY,
    "numbers that are alike": APART,
    "contents of corrections": CONTENTS,
    "refused corrections": REFUSED_FIXES,
    "Fills in one second": ONE_SECOND,
    "days of corrections": DAYS_NAMED,
    "Credits": CREDITS,
    "what stands in the end": STANDING,
}


class Corrections(Theme):
    def test_replies_to_corrections(self):
        """Replies to taps and corrections, and the days that they make."""
        for name, pairs in CORRECTIONS.items():
            self.check(name, *play(RUN_SAMPLE, pairs))
