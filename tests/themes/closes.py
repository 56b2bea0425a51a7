"""What closes post and give back, and what they refuse, by hand."""

from support.repository import RUN_SAMPLE
from support.running import RUN, play
from support.sessions import BUS_WEEK, ZONE_DAY, capped
from support.theme import Theme

# Closes, with examples/sample.toml. An In alone is posted at the maximum fare; its Out comes late, and the rest is
# given back.
REFUNDED = (
    ("TAP 1 1 7 1704697200 10 IN", "OK 19730 860 860"),
    ("CLOSE 19730", "PAY 7 19730 19730 1 860 860 1=860\nDONE 19730 1"),
    ("TAP 1 2 7 1704699000 12 OUT", "OK 19730 340 340"),
    ("CLOSE 19730", "PAY 7 19730 19730 2 340 -520 1=-520\nDONE 19730 1"),
    ("CLOSE 19730", "PAY 7 19730 19730 2 340 -520 1=-520\nDONE 19730 1"),
)
# Nothing more is due through Tuesday, and Monday can't be closed after it.
STALE = (
    ("TAP 1 1 7 1704697200 50 BUS", "OK 19730 175 175"),
    ("CLOSE 19730", "PAY 7 19730 19730 1 175 175 4=175\nDONE 19730 1"),
    ("CLOSE 19731", "PAY 7 19730 19731 1 175 0\nDONE 19731 1"),
    ("CLOSE 19730", "NO 42 StaleQuote"),
    # Nor where there is more to post by then.
    ("TAP 1 2 7 1704704400 50 BUS", "OK 19730 350 350"),
    ("CLOSE 19730", "NO 42 StaleQuote"),
    ("CLOSE 19731", "PAY 7 19730 19731 2 350 175 4=175\nDONE 19731 1"),
    ("CLOSE 19736", "PAY 7 19730 19736 2 350 0\nDONE 19736 1"),
    ("CLOSE 19731", "NO 42 StaleQuote"),
    # Neither the week before nor the one after it has a tap.
    ("CLOSE 19729", "DONE 19729 0"),
    ("CLOSE 19737", "DONE 19737 0"),
)
# In ascending order of account; and of two that are quoted again, the one whose tap was voided.
TWO_ACCOUNTS = (
    ("TAP 1 1 8 1704697200 50 BUS", "OK 19730 175 175"),
    ("TAP 1 1 7 1704697200 50 BUS", "OK 19730 175 175"),
    ("CLOSE 19730", "PAY 7 19730 19730 1 175 175 4=175\nPAY 8 19730 19730 1 175 175 4=175\nDONE 19730 2"),
    ("FIX 3 1 8 VOID 1 1", "OK 19730 0 0"),
    ("CLOSE 19730", "PAY 7 19730 19730 1 175 175 4=175\nPAY 8 19730 19730 2 0 -175 4=-175\nDONE 19730 2"),
)
# All or nothing: account 9 is refused, and so account 7, which comes before it, is not posted either.
ALL_OR_NOTHING = (
    ("TAP 1 1 9 1704697200 50 BUS", "OK 19730 175 175"),
    ("CLOSE 19731", "PAY 9 19730 19731 1 175 175 4=175\nDONE 19731 1"),
    ("TAP 1 1 7 1704697200 50 BUS", "OK 19730 175 175"),
    ("CLOSE 19730", "NO 42 StaleQuote"),
    ("CLOSE 19731", "PAY 7 19730 19731 1 175 175 4=175\nPAY 9 19730 19731 1 175 175 4=175\nDONE 19731 2"),
)
# What fell to one operator is another's: nothing is charged, and the shares move.
MOVED_SHARES = (
    ("TAP 1 1 7 1704697200 10 IN", "OK 19730 860 860"),
    ("CLOSE 19730", "PAY 7 19730 19730 1 860 860 1=860\nDONE 19730 1"),
    ("FIX 3 1 7 FILL 1704699000 12 OUT", "OK 19730 340 340"),
    ("FIX 3 2 7 VOID 1 1", "OK 19730 860 860"),
    ("CLOSE 19730", "PAY 7 19730 19730 3 860 0 1=-860 2=860\nDONE 19730 1"),
    ("FIX 3 3 7 CREDIT 19730 100", "OK 19730 860 860"),
    ("CLOSE 19730", "PAY 7 19730 19730 4 760 -100 2=-100\nDONE 19730 1"),
    # A Void of no tap counts as a correction, and there is nothing to charge for it.
    ("FIX 3 4 7 VOID 9 9", "OK 0 0 0"),
    ("CLOSE 19730", "PAY 7 19730 19730 5 760 0\nDONE 19730 1"),
)
# A Credit alone is not quoted, and a Fill is, also when it is withdrawn.
FILLS_CLOSED = (
    ("FIX 3 1 7 CREDIT 19730 100", "OK 19730 0 0"),
    ("CLOSE 19730", "DONE 19730 0"),
    ("FIX 3 2 7 FILL 1704697200 50 BUS", "OK 19730 175 175"),
    ("CLOSE 19730", "PAY 7 19730 19730 2 75 75 4=75\nDONE 19730 1"),
    ("FIX 3 3 7 DROP 3 2", "OK 19730 0 0"),
    ("CLOSE 19730", "PAY 7 19730 19730 3 0 -75 4=-75\nDONE 19730 1"),
    # A tap that was voided before it came.
    ("FIX 3 1 8 VOID 1 1", "OK 0 0 0"),
    ("TAP 1 1 8 1704783600 14 IN", "OK 19731 0 0"),
    ("CLOSE 19731", "PAY 7 19730 19731 3 0 0\nPAY 8 19730 19731 2 0 0\nDONE 19731 2"),
)
# A Sunday and the Monday after it: two weeks, each with its own postings, at the same versions.
TWO_WEEKS = (
    ("TAP 1 1 7 1704610800 50 BUS", "OK 19729 175 175"),
    ("TAP 1 2 7 1704697200 14 IN", "OK 19730 860 860"),
    ("CLOSE 19730", "PAY 7 19730 19730 2 860 860 3=860\nDONE 19730 1"),
    ("CLOSE 19728", "DONE 19728 0"),
    ("CLOSE 19729", "PAY 7 19723 19729 2 175 175 4=175\nDONE 19729 1"),
    ("CLOSE 19730", "PAY 7 19730 19730 2 860 860 3=860\nDONE 19730 1"),
    # Late on Sunday: the boarding is that week's, and Monday's posting has but another version.
    ("TAP 1 3 7 1704621600 50 BUS", "OK 19729 350 350"),
    ("CLOSE 19730", "PAY 7 19730 19730 3 860 0\nDONE 19730 1"),
    ("CLOSE 19729", "PAY 7 19723 19729 3 350 175 4=175\nDONE 19729 1"),
)
# After three journeys at 340, with the shares of THREE_RIDES.
SHARES_CLOSED = (
    ("CLOSE 19730", "PAY 7 19730 19730 6 890 890 1=593 2=297\nDONE 19730 1"),
    ("TAP 1 7 7 1704708000 14 IN", "OK 19730 1750 1750"),
    ("CLOSE 19730", "PAY 7 19730 19730 7 1750 860 1=39 2=20 3=801\nDONE 19730 1"),  # 632 - 593, 317 - 297
    ("TAP 1 8 7 1704708600 13 OUT", "OK 19730 1050 1050"),
    # 595 - 632, 297 - 317, 158 - 801
    ("CLOSE 19730", "PAY 7 19730 19730 8 1050 -700 1=-37 2=-20 3=-643\nDONE 19730 1"),
    ("DUE 7 19730", "DUE 7 19730 19730 8 1050 1=595 2=297 3=158"),
)
# After three boardings a day from Monday to Friday: the days of QUOTED_WEEK, of which Friday is capped with the week.
WEEK_CLOSED = (
    *(
        (f"CLOSE {day}", f"PAY 7 19730 {day} 15 {525 * (day - 19729)} 525 4=525\nDONE {day} 1")
        for day in range(19730, 19734)
    ),
    ("CLOSE 19734", "PAY 7 19730 19734 15 2470 370 4=370\nDONE 19734 1"),
    ("CLOSE 19736", "PAY 7 19730 19736 15 2470 0\nDONE 19736 1"),
    ("CLOSE 19733", "NO 42 StaleQuote"),
)
# An account of which nothing stands: there is nothing to charge.
VOIDED_AND_CLOSED = (
    ("TAP 1 1 7 1704697200 10 IN", "OK 19730 860 860"),
    ("FIX 3 1 7 FILL 1704699000 12 OUT", "OK 19730 340 340"),
    ("FIX 3 2 7 CREDIT 19730 100", "OK 19730 340 340"),
    ("FIX 3 3 7 DROP 3 1", "OK 19730 860 860"),
    ("FIX 3 4 7 VOID 1 1", "OK 19730 0 0"),
    ("FIX 3 5 7 VOID 9 9", "OK 0 0 0"),
    ("CLOSE 19730", "PAY 7 19730 19730 6 0 0\nDONE 19730 1"),
)
CLOSES = {
    "a refund": REFUNDED,
    "a close of an earlier day": STALE,
    "two accounts": TWO_ACCOUNTS,
    "all or nothing": ALL_OR_NOTHING,
    "shares that move": MOVED_SHARES,
    "Fills and voided taps": FILLS_CLOSED,
    "an account of which nothing stands": VOIDED_AND_CLOSED,
    "two weeks": TWO_WEEKS,
    "shares of a capped day": [*capped(ZONE_DAY[:6]), *SHARES_CLOSED],
    "a capped week": [*capped(BUS_WEEK), *WEEK_CLOSED],
}

# On no accounts nothing is closed.
NOTHING_CLOSED = (
    ("DUE 7 19730", "DUE 7 19730 19730 0 0"),
    ("SHOW 7 19730", "SHOW 7 19730 0 0"),
    ("CLOSE 19730", "DONE 19730 0"),
    ("QUIT", "BYE"),
)
# A close changes nothing of what the accounts hold, nor of what is due.
CLOSED_BETWEEN = (
    ("DUE 7 19730", "DUE 7 19730 19730 0 0"),
    ("SHOW 7 19730", "SHOW 7 19730 0 0"),
    ("CLOSE 19730", "DONE 19730 0"),
    ("TAP 1 1 7 1704697200 50 BUS", "OK 19730 175 175"),
    ("CLOSE 19730", "PAY 7 19730 19730 1 175 175 4=175\nDONE 19730 1"),
    ("CLOSE 19730", "PAY 7 19730 19730 1 175 175 4=175\nDONE 19730 1"),
    ("DUE 7 19730", "DUE 7 19730 19730 1 175 4=175"),
    ("TAP 1 1 7 1704697200 50 BUS", "AGAIN 19730 175 175"),
    ("CLOSE 3", "NO 50 BadLine"),
    ("CLOSE 019730", "NO 50 BadLine"),
    ("SHOW 7 19730", "SHOW 7 19730 1 175\nJNY BUS 50 0 1704697200 175"),
    ("QUIT", "BYE"),
)


class Closes(Theme):
    def test_postings(self):
        """What is posted at each close, with caps."""
        for name, pairs in CLOSES.items():
            self.check(name, *play(RUN_SAMPLE, pairs))

    def test_closes_among_other_lines(self):
        """What other lines are answered before a close and after it."""
        self.check("an empty session that closes", *play(RUN, NOTHING_CLOSED))
        self.check("closes between other lines", *play(RUN, CLOSED_BETWEEN))

    def test_eight_accounts(self):
        """Each of them with three journeys at 340, whose taps come in turn."""
        accounts = range(1, 9)
        pairs = [
            (f"TAP 1 {seq} {account} {utc} {place} {kind}", f"OK 19730 {price} {price}")
            for seq, (utc, place, kind, price, _) in enumerate(ZONE_DAY[:6], 1) for account in accounts
        ]
        pairs += [(f"DUE {account} 19730", f"DUE {account} 19730 19730 6 890 1=593 2=297") for account in accounts]
        paid = "".join(f"PAY {account} 19730 19730 6 890 890 1=593 2=297\n" for account in accounts)
        pairs.append(("CLOSE 19730", f"{paid}DONE 19730 8"))
        self.check("eight accounts by train", *play(RUN_SAMPLE, pairs))

    def test_a_thousand_accounts(self):
        """The last one first."""
        accounts = range(1, 1_001)
        pairs = [(f"TAP 1 1 {account} 1704697200 50 BUS", "OK 19730 175 175") for account in reversed(accounts)]
        for through, amount in ((19730, "175 4=175"), (19730, "175 4=175"), (19731, "0")):
            paid = "".join(f"PAY {account} 19730 {through} 1 175 {amount}\n" for account in accounts)
            pairs.append((f"CLOSE {through}", f"{paid}DONE {through} 1000"))
        self.check("1,000 accounts", *play(RUN, pairs))
