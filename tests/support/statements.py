"""How a statement is asked for, and what it has to be."""

from support.repository import LONDON, SAMPLE
from support.running import answers, in_lines, run
from support.sessions import ZONE_DAY

# Statements, of account 7 and the week of Monday, 2024-01-08, with examples/sample.toml where nothing else is said.
HEADER = "day,kind,from,to,start,fare,band"
# What a boarding at 07:00 gives.
A_BOARDING = "19730,BUS,50,0,07:00:00,175,-"


def rows_of_statement(*rows):
    """What a run comes to that writes a statement of these rows."""
    return answers(in_lines([HEADER, *rows]))


def stated(lines, account, day, fares=SAMPLE, zone=LONDON):
    """What the statement comes to after these lines."""
    return run(["statement", fares, zone, str(account), str(day)], in_lines(lines))


LONG_HEADER = "date,kind,from,from_name,to,to_name,start,end,amount,posted"


def long_rows(*rows):
    """What a run comes to that writes a long statement of these rows."""
    return answers(in_lines([LONG_HEADER, *rows]))


def long_stated(journal, account, day, *more, fares=SAMPLE, zone=LONDON):
    """What the long statement by a journal, or by a folder of them, comes to."""
    return run(["statement", fares, zone, str(account), str(day), "--long", "--journal", journal, *more])


RAIL_AND_LONE = [*ZONE_DAY[:6], (1704715200, 10, "IN")]
RAIL_AND_LONE_ROWS = [
    "19730,RAIL,10,12,07:00:00,340,1-2",
    "19730,RAIL,12,10,07:30:00,340,1-2",
    "19730,RAIL,10,12,08:00:00,340,1-2",
    "19730,LONE,10,0,12:00:00,860,-",
]
