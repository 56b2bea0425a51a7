"""Days and prices by the clock of a zone, over changes of the clocks too; and texts that are no rule for a zone."""

from support.clocks import BY_SECONDS, FAR_EAST, FAR_WEST, INDIA, MEASURED, PARIS, SUMMER_DAY, SYDNEY
from support.repository import LONDON
from support.running import FARES, RUN, boardings, fault, play, run
from support.theme import Theme

# A leg from 10 to 12 that ends in the second in which it begins, so that both of its taps are of one service day, costs
# 340 pence peak and 280 off-peak. Each row is the second, and the service day and the fare in three zones.
THREE_ZONES = (LONDON, "UTC0", "EST5")
PEAK, OFF = 340, 280
THREE_CLOCKS = (
    # Monday 2024-07-08 is day 19912. London has summer time: 03:30 by UTC is 04:30 there.
    (1720409399, (19911, OFF), (19911, OFF), (19911, OFF)),  # 03:29:59 by UTC, 22:29:59 in EST5
    (1720409400, (19912, OFF), (19911, OFF), (19911, OFF)),
    (1720412999, (19912, OFF), (19911, OFF), (19911, OFF)),  # 04:29:59 by UTC
    (1720413000, (19912, OFF), (19912, OFF), (19911, OFF)),
    (1720416599, (19912, OFF), (19912, OFF), (19911, OFF)),  # 06:29:59 in London
    (1720416600, (19912, PEAK), (19912, OFF), (19911, OFF)),
    (1720420199, (19912, PEAK), (19912, OFF), (19911, OFF)),  # 06:29:59 by UTC
    (1720420200, (19912, PEAK), (19912, PEAK), (19911, OFF)),
    (1720427399, (19912, PEAK), (19912, PEAK), (19911, OFF)),  # 09:29:59 in London
    (1720427400, (19912, OFF), (19912, PEAK), (19911, OFF)),
    (1720430999, (19912, OFF), (19912, PEAK), (19911, OFF)),  # 09:29:59 by UTC, 04:29:59 in EST5
    (1720431000, (19912, OFF), (19912, OFF), (19912, OFF)),
    (1720438199, (19912, OFF), (19912, OFF), (19912, OFF)),  # 06:29:59 in EST5
    (1720438200, (19912, OFF), (19912, OFF), (19912, PEAK)),
    (1720450799, (19912, OFF), (19912, OFF), (19912, OFF)),  # 15:59:59 in London
    (1720450800, (19912, PEAK), (19912, OFF), (19912, OFF)),
    (1720461599, (19912, PEAK), (19912, PEAK), (19912, OFF)),  # 18:59:59 in London
    (1720461600, (19912, OFF), (19912, PEAK), (19912, OFF)),
    (1720472399, (19912, OFF), (19912, OFF), (19912, OFF)),  # 15:59:59 in EST5
    (1720472400, (19912, OFF), (19912, OFF), (19912, PEAK)),
    # London's clocks go forward on Sunday 2024-03-31, day 19813, at 01:00 by UTC. So Saturday's service day has 23
    # hours.
    (1711772999, (19811, OFF), (19811, OFF), (19811, OFF)),  # Saturday 04:29:59 in London and by UTC
    (1711773000, (19812, OFF), (19812, OFF), (19811, OFF)),
    (1711855799, (19812, OFF), (19812, OFF), (19812, OFF)),  # Sunday 04:29:59 in London, 03:29:59 by UTC
    (1711855800, (19813, OFF), (19812, OFF), (19812, OFF)),
    (1711859399, (19813, OFF), (19812, OFF), (19812, OFF)),  # 04:29:59 by UTC
    (1711859400, (19813, OFF), (19813, OFF), (19812, OFF)),
    (1711949399, (19814, OFF), (19814, OFF), (19813, OFF)),  # Monday 06:29:59 in London
    (1711949400, (19814, PEAK), (19814, OFF), (19813, OFF)),
    # They go back on Sunday 2024-10-27, day 20023, at 01:00 by UTC. So Saturday's service day has 25 hours.
    (1729913399, (20021, OFF), (20021, OFF), (20021, OFF)),  # Saturday 04:29:59 in London, 03:29:59 by UTC
    (1729913400, (20022, OFF), (20021, OFF), (20021, OFF)),
    (1729999800, (20022, OFF), (20022, OFF), (20022, OFF)),  # Sunday 03:30:00 in London and by UTC
    (1730003399, (20022, OFF), (20022, OFF), (20022, OFF)),  # 04:29:59
    (1730003400, (20023, OFF), (20023, OFF), (20022, OFF)),
    (1730093400, (20024, OFF), (20024, OFF), (20023, OFF)),  # Monday 05:30:00 in London and by UTC
    (1730096999, (20024, OFF), (20024, OFF), (20023, OFF)),  # 06:29:59
    (1730097000, (20024, PEAK), (20024, PEAK), (20023, OFF)),
)

# The same in other zones. Monday 2024-01-08 is day 19730.
NEW_YORK, NEWFOUNDLAND = "EST5EDT,M3.2.0,M11.1.0", "NST3:30NDT,M3.2.0,M11.1.0"
# Clocks that change on that Monday: from 08:00 to 09:00, from 10:00 back to 09:00, and from 05:00 back to 04:00.
FORWARD, BACK, BACK_EARLY = "AAA0BBB,J8/8,J300", "AAA0BBB,J300,J8/10", "AAA0BBB,J300,J8/5"
OTHER_CLOCKS = (
    (PARIS, 1704691799, 19730, OFF),  # Monday 06:29:59, winter time
    (PARIS, 1704691800, 19730, PEAK),
    (PARIS, 1720412999, 19912, OFF),  # Monday 2024-07-08 06:29:59, summer time
    (PARIS, 1720413000, 19912, PEAK),
    (INDIA, 1704668399, 19729, OFF),  # Monday 04:29:59
    (INDIA, 1704668400, 19730, OFF),
    (INDIA, 1704675599, 19730, OFF),  # 06:29:59
    (INDIA, 1704675600, 19730, PEAK),
    (NEW_YORK, 1704713399, 19730, OFF),  # Monday 06:29:59, winter time
    (NEW_YORK, 1704713400, 19730, PEAK),
    (NEW_YORK, 1720434599, 19912, OFF),  # the Monday in July 06:29:59, summer time
    (NEW_YORK, 1720434600, 19912, PEAK),
    (NEWFOUNDLAND, 1720429199, 19912, OFF),  # the same day 06:29:59
    (NEWFOUNDLAND, 1720429200, 19912, PEAK),
    (SYDNEY, 1704648599, 19729, OFF),  # Monday 04:29:59, summer time
    (SYDNEY, 1704648600, 19730, OFF),
    (SYDNEY, 1704655799, 19730, OFF),  # 06:29:59, on Sunday by UTC
    (SYDNEY, 1704655800, 19730, PEAK),
    (SYDNEY, 1705089600, 19735, OFF),  # Saturday 07:00:00, on Friday by UTC
    (SYDNEY, 1712428199, 19819, OFF),  # Sunday 2024-04-07 04:29:59, after the clocks went back
    (SYDNEY, 1712428200, 19820, OFF),
    (SYDNEY, 1712521799, 19821, OFF),  # Monday 06:29:59
    (SYDNEY, 1712521800, 19821, PEAK),
    (SYDNEY, 1728242999, 20003, OFF),  # Monday 2024-10-07 06:29:59, after the clocks went forward
    (SYDNEY, 1728243000, 20003, PEAK),
    (FAR_EAST, 1704637799, 19729, OFF),  # Monday 04:29:59
    (FAR_EAST, 1704637800, 19730, OFF),
    (FAR_EAST, 1704645000, 19730, PEAK),  # 06:30:00
    (FAR_EAST, 604800, 7, OFF),  # the first instant, 14:00:00 here
    (FAR_EAST, 4102444799, 47482, OFF),  # the last instant, 13:59:59 of the day after
    (FAR_WEST, 1704731399, 19729, OFF),  # Monday 04:29:59
    (FAR_WEST, 1704731400, 19730, OFF),
    (FAR_WEST, 1705118400, 19734, PEAK),  # Friday 16:00:00, on Saturday by UTC
    (FAR_WEST, 604800, 6, OFF),  # 12:00:00 of the day before
    (FAR_WEST, 4102444799, 47481, OFF),
    (BY_SECONDS, 1704691676, 19730, OFF),  # Monday 06:29:59
    (BY_SECONDS, 1704691677, 19730, PEAK),
    (FORWARD, 1704700799, 19730, PEAK),  # 07:59:59
    (FORWARD, 1704702599, 19730, PEAK),  # 09:29:59, half an hour later
    (FORWARD, 1704702600, 19730, OFF),
    (BACK, 1704702599, 19730, PEAK),  # 09:29:59
    (BACK, 1704702600, 19730, OFF),
    (BACK, 1704704399, 19730, OFF),  # 09:59:59
    (BACK, 1704704400, 19730, PEAK),  # 09:00:00 again
    (BACK, 1704706199, 19730, PEAK),  # 09:29:59 again
    (BACK, 1704706200, 19730, OFF),
    (BACK_EARLY, 1704684599, 19729, OFF),  # 04:29:59
    (BACK_EARLY, 1704684600, 19730, OFF),
    (BACK_EARLY, 1704686399, 19730, OFF),  # 04:59:59
    (BACK_EARLY, 1704686400, 19729, OFF),  # 04:00:00 again
    (BACK_EARLY, 1704688199, 19729, OFF),  # 04:29:59 again
    (BACK_EARLY, 1704688200, 19730, OFF),
    (LONDON, 604800, 6, OFF),  # the first instant, 00:00:00
    (LONDON, 4102444799, 47481, OFF),  # the last instant, 23:59:59
)


def legs():
    """The zone, the second, the service day and the fare of each leg of the two tables."""
    for utc, *columns in THREE_CLOCKS:
        for zone, (day, fare) in zip(THREE_ZONES, columns):
            yield zone, utc, day, fare
    yield from OTHER_CLOCKS


# A day goes on by the rules where the clocks go back over 04:30 in it. Its journeys are shown in the order of their
# instants.
BACK_OVER_THE_EDGE = (
    ("TAP 1 1 7 1704684600 50 BUS", "OK 19730 175 175"),  # Monday 04:30:00
    ("TAP 1 2 7 1704688200 50 BUS", "OK 19730 175 175"),  # 04:30:00 an hour later
    ("TAP 1 3 7 1704686400 50 BUS", "OK 19729 0 0"),  # 04:00:00 between the two
    ("SHOW 7 19729", "SHOW 7 19729 1 0\nJNY BUS 50 0 1704686400 0"),
    ("SHOW 7 19730", "SHOW 7 19730 2 175\nJNY BUS 50 0 1704684600 175\nJNY BUS 50 0 1704688200 0"),
)

# The ends of time in the zones that are farthest from UTC.
FAR_ZONES = (
    ("XXX24:59:59", 604800, 5), ("XXX24:59:59", 4102444799, 47480), ("XXX-24:59:59", 604800, 7),
    ("XXX-24:59:59", 4102444799, 47482),
)

BAD_ZONES = (
    # No rules.
    "", " ", "-", "0", "UTC", "London", "Europe/London", "Europe/Z\u00fcrich", "no zone",
    # More than a rule, and names that are too short or do not end.
    "UTC0 ", " UTC0", "UTC0\n", "UTC0,", "UTC0x", f"{LONDON},", f"{LONDON} ", f"{LONDON},{LONDON}", "AB0", "<AB>0",
    "<UTC0",
    # Hours, minutes and seconds out of range.
    "GMT25", "GMT0:60", "GMT0:0:60",
    # Summer time without both of its dates.
    "GMT0BST", "GMT0BST,M3.5.0/1", "GMT0BST,M3.5.0/1,", "GMT0BST,M3.5.0/1,M10.5", "gmt0bst,m3.5.0,m10.5.0",
    # Months, weeks and days out of range.
    "GMT0BST,M0.5.0,M10.5.0", "GMT0BST,M13.5.0,M10.5.0", "GMT0BST,M3.0.0,M10.5.0", "GMT0BST,M3.6.0,M10.5.0",
    "GMT0BST,M3.5.7,M10.5.0", "GMT0BST,J0,J300", "GMT0BST,J8,J366",
)


class Clocks(Theme):
    def test_days_and_prices_by_the_clock(self):
        """A leg at each of these seconds, in the zone."""
        for zone, utc, day, fare in legs():
            taps = (f"TAP 1 1 7 {utc} 10 IN", f"OK {day} 860 860"), (
                f"TAP 1 2 7 {utc} 12 OUT", f"OK {day} {fare} {fare}"
            )
            self.check(f"a leg at {utc} in {zone}", *play(["run", FARES, zone], taps))

    def test_the_zone_is_the_word(self):
        """A day in summer time, whatever the system has for a zone."""
        self.check("a summer day", *play(RUN, SUMMER_DAY))
        for around in ({}, {"TZ": "EST5", "LC_ALL": "de_DE.UTF-8"}, {"TZ": "UTC0"}):
            self.check(f"a summer day with {around} around", *play(RUN, SUMMER_DAY, env=around))

    def test_changes_of_the_clocks(self):
        """What lasts over a change of the clocks."""
        self.check("times over changes of the clocks", *play(RUN, MEASURED))
        self.check("clocks that go back over 04:30", *play(["run", FARES, BACK_EARLY], BACK_OVER_THE_EDGE))

    def test_ends_of_time(self):
        """The first and the last instant, far from UTC."""
        for zone, utc, day in FAR_ZONES:
            self.check(
                f"{utc} in {zone}", *play(["run", FARES, zone], [(f"TAP 1 1 7 {utc} 50 BUS", f"OK {day} 175 175")])
            )

    def test_refused_zones(self):
        """Texts that are no rule for a zone."""
        lines, _ = boardings(2)
        for zone in BAD_ZONES:
            self.check(f"the zone {zone!r}", run(["run", FARES, zone], lines), fault("bad zone"))
            self.check(
                f"a statement in the zone {zone!r}",
                run(["statement", FARES, zone, "1", "19730"], lines),
                fault("bad zone"),
            )
