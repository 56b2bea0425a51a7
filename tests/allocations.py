#!/usr/bin/env python3
"""Runs the built program, and tests of its crates, with each of their allocations failing in turn, and judges every
answer.

    tests/allocations.py    # a minute, after rt ci or rt test; minutes more if the program has to be built

One session is examples/late-tap.txt, and its four taps again; another is a journey by rail, the day of it shown and
what is due for it told, with caps; another has a correction of each form; one has an account of so many taps, late ones
and corrections that its lists grow; one has closes, with a refund between them; one has closes of two accounts, of
which one is voided; and one has lines that are refused. Each may end in three ways: with the right answers; with
`farebox: 90 Memory`, or for its ledger `farebox: 43 Store`, and status 1 before any reply; or with `NO 90 Memory` for
one line, for a close also `NO 43 Store` or `NO 44 DeskFault`, and the others answered as if that line had not been
sent. And a fare file with caps and one with an edition are checked, and the statement of the journey by rail written:
that ends with its line, or with the whole statement, or with `farebox: 90 Memory`. All else is a fault of the program,
and ends this script with status 1. No test in a crate can make an allocation fail. So some of them only mark where one
may, and where a call has said that one did: each of these has to pass whichever of these allocations fails, in some run
a call has to say so, and none may where none fails. They are of calls that no line of the program shows: that what they
are made on is as it was, that they succeed the second time, what is restored, what a ledger's tables then hold, and a
worker's turn. It wants Linux, Python 3.8 or later and the toolchain, whose compiler makes the failing allocator.
"""

import collections
import itertools
import os
import shutil
import subprocess
import sys
import tempfile

# Nothing is kept beside the sources.
sys.dont_write_bytecode = True
# The second reckoning of what the program replies, and its fare files.
from oracle import loads, rules
from support.preloads import preloaded
from support.repository import CHECK, COUNTED, EXAMPLES, LONDON, PROGRAM, ROOT, RUN_BUS, RUN_SAMPLE, SAMPLE, TWO, build

CHECK_TWO = ["check", TWO]
STATEMENT = ["statement", SAMPLE, LONDON, "7", "19736"]
# What both checks print: the second file has an edition from day 19731 on.
COUNTED_ONE = COUNTED.decode()
COUNTED_TWO = COUNTED_ONE.replace("\n", " editions 1\n")

# The prices after each of the four taps, by the one that is refused for memory (0: none is). By hand from
# docs/RULES.md: a boarding pays 175 pence, and is free up to 3,600 s after one that paid. The taps are of 07:00:00,
# 07:50:00, 08:23:20 and, late, 06:43:20.
REFUSED = None
PRICES = {
    # 07:50:00 is free and 08:23:20 pays; with 06:43:20, that and 07:50:00 pay.
    0: (175, 175, 350, 350),
    # 08:23:20 is free, being 2,000 s after 07:50:00; with 06:43:20, that and 07:50:00 pay.
    1: (REFUSED, 175, 175, 350),
    # 08:23:20 pays; with 06:43:20, that and 08:23:20 pay.
    2: (175, REFUSED, 350, 350),
    # 07:50:00 is free; with 06:43:20, that and 07:50:00 pay.
    3: (175, 175, REFUSED, 350),
    4: (175, 175, 350, REFUSED),
}
# When the taps are sent again, two boardings pay already, whichever tap was refused, and two pay in the end.
PRICE_AGAIN = 350

# In at station 10 at 07:00:00, out at station 12 at 07:20:00, the day shown, and what is due: a leg from zone 1 to 2,
# peak, 340 pence for operator 1, whose station 10 is. Where one of the taps is refused, the other is alone and costs
# the maximum fare.
RAIL = b"TAP 1 1 7 1704697200 10 IN\nTAP 1 2 7 1704698400 12 OUT\nSHOW 7 19730\nDUE 7 19730\n"
BOTH = "OK 19730 860 860\nOK 19730 340 340\n"
SHOWN, DUE = "SHOW 7 19730 1 340\nJNY RAIL 10 12 1704697200 340\n", "DUE 7 19730 19730 2 340 1=340\n"
RAIL_REPLIES = {
    0: BOTH + SHOWN + DUE,
    1: "NO 90 Memory\nOK 19730 860 860\n"
    "SHOW 7 19730 1 860\nJNY LONE 0 12 1704698400 860\nDUE 7 19730 19730 1 860 2=860\n",
    2: "OK 19730 860 860\nNO 90 Memory\n"
    "SHOW 7 19730 1 860\nJNY LONE 10 0 1704697200 860\nDUE 7 19730 19730 1 860 1=860\n",
    3: BOTH + "NO 90 Memory\n" + DUE,
    4: BOTH + SHOWN + "NO 90 Memory\n",
}
PAGE = "day,kind,from,to,start,fare,band\n19730,RAIL,10,12,07:00:00,340,-\n"

# In at station 10 at 07:00:00; the touch out at station 12 at 07:30:00 filled in, 340 pence; a credit; the Fill
# withdrawn; the tap taken out; and the day shown. A tap alone costs the maximum fare, and a correction that names
# nothing is answered 0 0 0.
FIXES = b"""TAP 1 1 7 1704697200 10 IN
FIX 3 1 7 FILL 1704699000 12 OUT
FIX 3 2 7 CREDIT 19730 100
FIX 3 3 7 DROP 3 1
FIX 3 4 7 VOID 1 1
SHOW 7 19730
"""
FILLED, LONE_IN, LONE_OUT, NOTHING = "OK 19730 340 340\n", "OK 19730 860 860\n", "OK 19730 860 860\n", "OK 19730 0 0\n"
EMPTY, NO_MEMORY = "SHOW 7 19730 0 0\n", "NO 90 Memory\n"
FIXES_REPLIES = {
    0: LONE_IN + FILLED + FILLED + LONE_IN + NOTHING + EMPTY,
    1: NO_MEMORY + LONE_OUT + LONE_OUT + NOTHING + "OK 0 0 0\n" + EMPTY,
    2: LONE_IN + NO_MEMORY + LONE_IN + "OK 0 0 0\n" + NOTHING + EMPTY,
    3: LONE_IN + FILLED + NO_MEMORY + LONE_IN + NOTHING + EMPTY,
    4: LONE_IN + FILLED + FILLED + NO_MEMORY + LONE_OUT + "SHOW 7 19730 1 860\nJNY LONE 0 12 1704699000 860\n",
    5: LONE_IN + FILLED + FILLED + LONE_IN + NO_MEMORY + "SHOW 7 19730 1 860\nJNY LONE 10 0 1704697200 860\n",
    6: LONE_IN + FILLED + FILLED + LONE_IN + NOTHING + NO_MEMORY,
}

# In at station 10 at 07:00:00, and the day closed; out at station 12 at 07:30:00, and closed again, and once more. What
# was posted for the In alone is given back but for 340 pence. Where a close is refused, the next one posts all of it;
# where the In is, the Out is alone, and operator 2's; and where the Out is, there is nothing to give back.
CLOSES = b"""TAP 1 1 7 1704697200 10 IN
CLOSE 19730
TAP 1 2 7 1704699000 12 OUT
CLOSE 19730
CLOSE 19730
"""
CHARGED = "PAY 7 19730 19730 1 860 860 1=860\nDONE 19730 1\n"
REFUNDED = "PAY 7 19730 19730 2 340 -520 1=-520\nDONE 19730 1\n"
CHARGED_LATE = "PAY 7 19730 19730 2 340 340 1=340\nDONE 19730 1\n"
CHARGED_OUT = "PAY 7 19730 19730 1 860 860 2=860\nDONE 19730 1\n"
CLOSES_REPLIES = {
    0: LONE_IN + CHARGED + FILLED + REFUNDED + REFUNDED,
    1: NO_MEMORY + "DONE 19730 0\n" + LONE_OUT + CHARGED_OUT + CHARGED_OUT,
    3: LONE_IN + CHARGED + NO_MEMORY + CHARGED + CHARGED,
}
# By what a close for which memory is refused may be answered.
NOT_CLOSED = (NO_MEMORY, "NO 43 Store\n", "NO 44 DeskFault\n")
for answer in NOT_CLOSED:
    by = answer.split()[1]
    CLOSES_REPLIES[f"2 by {by}"] = LONE_IN + answer + FILLED + CHARGED_LATE + CHARGED_LATE
    CLOSES_REPLIES[f"4 by {by}"] = LONE_IN + CHARGED + FILLED + answer + REFUNDED
    CLOSES_REPLIES[f"5 by {by}"] = LONE_IN + CHARGED + FILLED + REFUNDED + answer

# Two accounts board a bus at 07:00:00, and the day is closed; the boarding of account 8 is taken out, and the day
# closed again, and once more. What account 8 was charged is given back, all of it by operator 4, whose route 50 is, and
# account 7's posting stands. Where a boarding is refused, nobody is charged for it, and a Void of it names nothing;
# where the first close is, there is nothing to give back; and where the Void is, all stands as it was posted. Where the
# second close is refused, the next one finds all as before.
VOIDS = b"""TAP 1 1 8 1704697200 50 BUS
TAP 1 1 7 1704697200 50 BUS
CLOSE 19730
FIX 3 1 8 VOID 1 1
CLOSE 19730
CLOSE 19730
"""
BOARDED, DONE_ONE, DONE_BOTH = "OK 19730 175 175\n", "DONE 19730 1\n", "DONE 19730 2\n"
OF_SEVEN, OF_EIGHT = "PAY 7 19730 19730 1 175 175 4=175\n", "PAY 8 19730 19730 1 175 175 4=175\n"
GIVEN_BACK, NEVER_CHARGED = "PAY 8 19730 19730 2 0 -175 4=-175\n", "PAY 8 19730 19730 2 0 0\n"
BOTH_CHARGED, ONE_GIVEN_BACK = OF_SEVEN + OF_EIGHT + DONE_BOTH, OF_SEVEN + GIVEN_BACK + DONE_BOTH
VOIDS_REPLIES = {
    0: 2 * BOARDED + BOTH_CHARGED + NOTHING + 2 * ONE_GIVEN_BACK,
    1: NO_MEMORY + BOARDED + OF_SEVEN + DONE_ONE + "OK 0 0 0\n" + 2 * (OF_SEVEN + DONE_ONE),
    2: BOARDED + NO_MEMORY + OF_EIGHT + DONE_ONE + NOTHING + 2 * (GIVEN_BACK + DONE_ONE),
    4: 2 * BOARDED + BOTH_CHARGED + NO_MEMORY + 2 * BOTH_CHARGED,
}
for answer in NOT_CLOSED:
    by = answer.split()[1]
    VOIDS_REPLIES[f"3 by {by}"] = 2 * BOARDED + answer + NOTHING + 2 * (OF_SEVEN + NEVER_CHARGED + DONE_BOTH)
    VOIDS_REPLIES[f"5 by {by}"] = 2 * BOARDED + BOTH_CHARGED + NOTHING + answer + ONE_GIVEN_BACK
    VOIDS_REPLIES[f"6 by {by}"] = 2 * BOARDED + BOTH_CHARGED + NOTHING + ONE_GIVEN_BACK + answer

# A tap; its number with another instant; no such route; a correction; its number with other content; a close; the tap
# again; and the day shown. Where memory is wanting, a line that is refused otherwise is answered so too.
REFUSED_LINES = b"""TAP 1 1 7 1704697200 50 BUS
TAP 1 1 7 1704697201 50 BUS
TAP 1 2 7 1704697200 51 BUS
FIX 3 1 7 VOID 9 9
FIX 3 1 7 DROP 9 9
CLOSE 19730
TAP 1 1 7 1704697200 50 BUS
SHOW 7 19730
"""
TAKEN = (
    "OK 19730 175 175\n", "NO 20 Conflict\n", "NO 15 UnknownPlace\n", "OK 0 0 0\n", "NO 22 FixConflict\n",
    "PAY 7 19730 19730 2 175 175 4=175\nDONE 19730 1\n", "AGAIN 19730 175 175\n",
    "SHOW 7 19730 1 175\nJNY BUS 50 0 1704697200 175\n",
)
# A number whose first line was not taken goes to the next line that has it, and then the first one conflicts.
TAKEN_INSTEAD = {
    1: {2: "OK 19730 175 175\n", 7: "NO 20 Conflict\n", 8: "SHOW 7 19730 1 175\nJNY BUS 50 0 1704697201 175\n"},
    4: {5: "OK 0 0 0\n"},
}

# 18 boardings of the Monday, each 1,500 seconds after the one before, and 18 taps of the Tuesday, in at station 10 and
# out at 12 by turns; a boarding before all of these, and a touch out between an in and its out; a boarding taken out,
# and let in again; and a touch in filled in. So the lists of what is kept grow, and each kind of late change is made.
# Then both days are shown.
MORNING = 1_704_697_200
MANY_TAPS = [
    *(rules.Tap(MORNING + 1_500 * at, 1, at, 7, 50, "BUS") for at in range(18)),
    *(rules.Tap(MORNING + 86_400 + 1_000 * at, 2, at, 7, *((10, "IN"), (12, "OUT"))[at % 2]) for at in range(18)),
    rules.Tap(MORNING - 1_000, 3, 1, 7, 50, "BUS"),
    rules.Tap(MORNING + 86_400 + 4_500, 3, 2, 7, 11, "OUT"),
    rules.Fix(4, 1, 7, "VOID", (1, 3)),
    rules.Fix(4, 2, 7, "DROP", (4, 1)),
    rules.Fix(4, 3, 7, "FILL", (MORNING + 86_400 + 8_500, 10, "IN")),
]
SHOWN_DAYS = (19_730, 19_731)

# The tests of pay_tests that mark where memory may be refused.
MARKED = (
    "takes_more_taps_than_the_set_has_places", "keeps_corrections_by_number", "boardings_by_late_taps",
    "runs_by_late_taps", "a_desk_without_memory", "accounts_in_ascending_order", "a_turn_without_memory",
    "restores_corrections", "posts_all_or_nothing_without_memory", "makes_all_tables_or_none_without_memory",
    "restores_no_bad_correction", "restores_no_bad_tap", "copies_all_or_nothing_without_memory",
)


def bus_replies(refused):
    """The replies to the eight lines of bus taps, where this one is refused for memory (0: none is)."""
    lines = [f"OK 19730 {price} {price}\n" for price in PRICES.get(refused, PRICES[0])]
    # A tap that was refused is new when it is sent again.
    lines += [f"{'OK' if tap == refused else 'AGAIN'} 19730 {PRICE_AGAIN} {PRICE_AGAIN}\n" for tap in (1, 2, 3, 4)]
    if refused:
        lines[refused - 1] = "NO 90 Memory\n"
    return "".join(lines)


def refused_replies(refused, answer=NO_MEMORY):
    """The replies to the lines that are refused, where this one is refused for memory by this answer (0: none is)."""
    lines = {line: reply for line, reply in enumerate(TAKEN, 1)}
    lines.update(TAKEN_INSTEAD.get(refused, {}))
    if refused:
        lines[refused] = answer
    return "".join(lines.values())


def many_replies(refused):
    """The replies to the many taps and the two days, by the rules, where this line is refused for memory (0: none
    is)."""
    fares, accounts = loads.FARES["sample.toml"], {}
    lines = [lambda command=command: rules.reply(fares, accounts, command) for command in MANY_TAPS]
    lines += [lambda day=day: "".join(rules.shown(fares, accounts, 7, day)) for day in SHOWN_DAYS]
    return "".join(NO_MEMORY if number == refused else answer() for number, answer in enumerate(lines, 1))


# What a run may come to.
RIGHT, BEFORE = "gave all the right answers", "ended with `farebox: {}` before any reply"


def allowed(answers, faults=("90 Memory",)):
    """What a run may come to, by its status, its output and its errors, for the replies by the line that is refused."""
    ends = {(0, replies, ""): f"refused line {line} alone" for line, replies in answers.items()}
    ends[0, answers[0], ""] = RIGHT
    ends.update({(1, "", f"farebox: {fault}\n"): BEFORE.format(fault) for fault in faults})
    return ends


def allowed_of_fault(line, output, *others):
    """What a check may come to that ends with this line on standard error, or, if memory is refused, with one of
    others, each with its output."""
    ends = {(1, output, f"farebox: {line}\n"): RIGHT}
    ends.update({(1, told, f"farebox: {fault}\n"): f"ended with `farebox: {fault}`" for told, fault in others})
    return ends


def allowed_of_session(answers):
    """The same of a session, which makes its ledger before the first line."""
    return allowed(answers, ("90 Memory", "43 Store"))


def sessions():
    """The name of each session, its words and lines, and what it may come to."""
    with open(f"{EXAMPLES}/late-tap.txt", "rb") as taps:
        bus = 2 * taps.read()
    yield "bus taps, sent twice", RUN_BUS, bus, allowed_of_session({line: bus_replies(line) for line in range(9)})
    yield "a journey by rail, shown and due", RUN_SAMPLE, RAIL, allowed_of_session(RAIL_REPLIES)
    yield "a tap, and corrections of it", RUN_SAMPLE, FIXES, allowed_of_session(FIXES_REPLIES)
    many = [*map(rules.line, MANY_TAPS), *(f"SHOW 7 {day}\n" for day in SHOWN_DAYS)]
    many_ends = allowed_of_session({line: many_replies(line) for line in range(len(many) + 1)})
    yield "an account of many taps, late ones and corrections", RUN_SAMPLE, "".join(many).encode(), many_ends
    yield "closes, and a refund between them", RUN_SAMPLE, CLOSES, allowed_of_session(CLOSES_REPLIES)
    yield "closes, and a boarding that is voided", RUN_SAMPLE, VOIDS, allowed_of_session(VOIDS_REPLIES)
    refused = {line: refused_replies(line) for line in range(9) if line != 6}
    refused.update({f"6 by {answer.split()[1]}": refused_replies(6, answer) for answer in NOT_CLOSED})
    yield "lines that are refused", RUN_BUS, REFUSED_LINES, allowed_of_session(refused)
    yield "a fare file with caps, checked", CHECK, b"", allowed({0: COUNTED_ONE})
    yield "a fare file with an edition, checked", CHECK_TWO, b"", allowed({0: COUNTED_TWO})
    memory = "90 Memory"
    late = allowed_of_fault(
        "warning: no holiday after day 19731, 2024-01-09", COUNTED_TWO, ("", memory), (COUNTED_TWO, memory)
    )
    yield "a fare file with an edition, and its warning", [*CHECK_TWO, "--lint"], b"", late
    other = allowed_of_fault(
        "other fares on day 19731, 2024-01-09: rules.bus; days agree through day 19730, 2024-01-08",
        "",
        ("", memory),
        ("", f"old fares: {memory}"),
    )
    yield "a fare file beside an old one", [*CHECK_TWO, "--against", SAMPLE], b"", other
    yield "the statement of a journey", STATEMENT, RAIL, allowed({0: PAGE})


def run(allocator, words, number, lines=b"", **around):
    """What came of a run whose allocation of this number fails, and what it told meanwhile."""
    with tempfile.TemporaryFile() as told:
        around.update(LD_PRELOAD=allocator, FIRST=str(number), LAST=str(number), TELL=str(told.fileno()))
        how = {"env": around, "pass_fds": [told.fileno()], "timeout": 60}
        ran = subprocess.run(words, input=lines, capture_output=True, **how)
        told.seek(0)
        return (ran.returncode, ran.stdout.decode(), ran.stderr.decode()), told.read()


def try_each(allocator, name, words, lines, ends):
    """Fails each allocation of a session in turn, prints what came of it, and returns how many faults there were."""
    came_to, faults = collections.Counter(), 0
    for number in itertools.count(1):
        ended, told = run(allocator, [PROGRAM, *words], number, lines)
        what, has_failed = ends.get(ended), told != b""
        if what is None or not has_failed and what != RIGHT:
            faults += 1
            print(f"allocation {number}: status {ended[0]}, output {ended[1]!r}, errors {ended[2]!r}")
        if not has_failed:
            break
        came_to[what or "were wrong"] += 1
    if number == 1:
        sys.exit("allocations: the program made none that was seen")
    print(f"{name}: {number - 1} allocations failed, each in a run of its own")
    for what, runs in sorted(came_to.items()):
        print(f"{runs:>5}  {what}")
    return faults


def try_test(allocator, name):
    """Fails each allocation between the marks of a test in turn, prints what came of it, and returns how many faults
    there were."""
    runner = f"{os.path.dirname(os.path.realpath(shutil.which('rt')))}/rattle-test"
    tests = f"{ROOT}/crates/pay_tests/out/pay_tests_tests"
    faults = said = 0
    if not os.path.isfile(tests):
        sys.exit("allocations: crates/pay_tests has no built tests: run rt ci, or rt test there")
    for number in itertools.count(1):
        (status, output, errors), told = run(allocator, [runner, "--filter", name, tests], number, MARKED="1")
        has_failed = b"x" in told
        if status or b"1 passed" not in output.encode() or b"m" in told and not has_failed:
            faults += 1
            print(
                f"allocation {number} after a mark of {name}: status {status}, told "
                f"{told!r}, output {output!r}, errors {errors!r}"
            )
        if not has_failed:
            break
        said += b"m" in told
    if number == 1:
        sys.exit(f"allocations: the test {name} made none that was seen between its marks")
    print(f"{name}: {number - 1} allocations failed, each in a run of its own, and in {said} of them a call said so")
    if not said:
        print(f"{name}: want of memory of our own was not told in any of them")
    return faults + (not said)


def main():
    with tempfile.TemporaryDirectory() as folder:
        build()
        allocator = preloaded(folder)
        faults = sum(try_each(allocator, *session) for session in sessions())
        faults += sum(try_test(allocator, name) for name in MARKED)
    return 1 if faults else 0


if __name__ == "__main__":
    sys.exit(main())
