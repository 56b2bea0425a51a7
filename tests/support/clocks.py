"""Zones, and days on which their clocks change or are read."""

# Zones east and west of London, with summer time in the south, and without.
PARIS, INDIA, SYDNEY = "CET-1CEST,M3.5.0,M10.5.0/3", "IST-5:30", "AEST-10AEDT,M10.1.0,M4.1.0/3"
FAR_EAST, FAR_WEST, BY_SECONDS = "<+14>-14", "<-12>12", "<+01>-1:02:03"

# Monday 2024-07-08 of one account by train and bus in London.
SUMMER_DAY = (
    ("TAP 1 1 7 1720409399 50 BUS", "OK 19911 175 175"),  # 04:29:59, Sunday's service day and week
    ("TAP 1 2 7 1720409400 50 BUS", "OK 19912 0 0"),  # 04:30:00, free by the Hopper rule
    ("TAP 1 3 7 1720416600 14 IN", "OK 19912 860 860"),  # 06:30:00
    ("TAP 1 4 7 1720419600 11 OUT", "OK 19912 210 210"),  # zones 2 to 3, peak
    ("TAP 1 5 7 1720461599 10 IN", "OK 19912 1070 1070"),  # 18:59:59
    ("TAP 1 6 7 1720463400 14 OUT", "OK 19912 580 580"),  # zones 1 to 3, peak: 370
    ("TAP 1 7 7 1720495799 50 BUS", "OK 19912 755 755"),  # Tuesday 04:29:59
    ("TAP 1 8 7 1720499399 50 BUS", "OK 19913 0 755"),  # 05:29:59, 3,600 s later
    ("SHOW 7 19911", "SHOW 7 19911 1 175\nJNY BUS 50 0 1720409399 175"),
    (
        "SHOW 7 19912",
        "SHOW 7 19912 4 755\nJNY BUS 50 0 1720409400 0\nJNY RAIL 14 11 1720416600 210\n"
        "JNY RAIL 10 14 1720461599 370\nJNY BUS 50 0 1720495799 175",
    ),
    ("SHOW 7 19913", "SHOW 7 19913 1 0\nJNY BUS 50 0 1720499399 0"),
    ("DUE 7 19913", "DUE 7 19912 19913 8 755 1=370 3=210 4=175"),
    ("QUIT", "BYE"),
)

# A time is measured in seconds that pass, and not by the clock that is shown: in London over both changes.
MEASURED = (
    # The clocks go back from 02:00 to 01:00. 01:30:00, and 01:30:00 an hour later; and 01:30:01.
    ("TAP 1 1 7 1729989000 50 BUS", "OK 20022 175 175"),
    ("TAP 1 2 7 1729992600 50 BUS", "OK 20022 175 175"),
    ("TAP 1 1 8 1729989000 50 BUS", "OK 20022 175 175"),
    ("TAP 1 2 8 1729992601 50 BUS", "OK 20022 350 350"),
    # In at 01:00:00, out at 01:40:00 after 6,000 s; and at 01:40:01.
    ("TAP 1 1 9 1729987200 10 IN", "OK 20022 860 860"),
    ("TAP 1 2 9 1729993200 12 OUT", "OK 20022 280 280"),
    ("TAP 1 1 10 1729987200 10 IN", "OK 20022 860 860"),
    ("TAP 1 2 10 1729993201 12 OUT", "OK 20022 1720 1720"),
    # They go forward from 01:00 to 02:00. 00:59:59, and 02:59:59 an hour later; and 03:00:00.
    ("TAP 1 1 11 1711846799 50 BUS", "OK 19812 175 175"),
    ("TAP 1 2 11 1711850399 50 BUS", "OK 19812 175 175"),
    ("TAP 1 1 12 1711846799 50 BUS", "OK 19812 175 175"),
    ("TAP 1 2 12 1711850400 50 BUS", "OK 19812 350 350"),
)
