"""What a fare file may have at most, parts of the sample files, and files made of them."""

from support.running import FARES, answers, bytes_of

# Two bands of examples/sample.toml.
BUS_BAND = "{ from = 0, to = 0, day = 525, week = 2470 },"
ZONES_1_TO_2 = "{ from = 1, to = 2, day = 890, week = 4470 },"


def counted(places, bands, interchanges, holidays, editions=0):
    """What a check of a fare file comes to that has so many of each."""
    more = f" editions {editions}" if editions else ""
    return answers(f"OK places {places} bands {bands} interchanges {interchanges} holidays {holidays}{more}\n".encode())


# How many taps and how many corrections an account may have.
MOST_TAPS, MOST_FIXES = 16_384, 1_024

# A fare file at its limits: stations 1, 2, .. in the zones 1 to 9 in turn, routes 65535, 65534, .., interchanges
# between the stations 1 and 2, 3 and 4, .., and a holiday on each Monday from day 19723 on. Every fare is another one.
ZONES, MOST_PLACES, MOST_CHANGES, MOST_HOLIDAYS, MOST_BANDS, MOST_EDITIONS = 9, 1_024, 256, 64, 12, 8
SPANS = [(low, high) for low in range(1, ZONES + 1) for high in range(low, ZONES + 1)]


def zone_of(station):
    return (station - 1) % ZONES + 1


def quiet():
    """The fare file of RUN, of which no session warns."""
    return bytes_of(FARES)


def an_edition(day, bus):
    """That file with an edition from a day on, which differs in the bus fare alone."""
    text = quiet().decode().replace("holidays = [19723]", "holidays = [19723, 19740]")
    single = text[text.index("single = ["):].split("\n]")[0] + "\n]\n"
    band = text[text.index("band = ["):].split("\n")[0] + "\n"
    rules = f"rules = {{ bus = {bus}, maximum = 860, hopper = 3600, same_free = 120, same_limit = 1800 }}\n"
    return (text + f"\n[[edition]]\nday = {day}\nminutes = [90, 100, 110]\n{rules}{single}{band}").encode()
