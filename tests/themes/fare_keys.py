"""Each fault of each key of a fare file, and which one of several is told."""

import re

from support.running import answers, fault, rows_of, run, written
from support.theme import Theme

# A fare file in another order of its keys than that of the refusals.
GOOD_FILE = {
    "interchange": "[]",
    "route": "[{ place = 50, operator = 4 }]",
    "station": "[{ place = 10, low = 1, high = 1, operator = 1 }, { place = 12, low = 2, high = 2, operator = 2 }, "
    "{ place = 13, low = 2, high = 3, operator = 2 }]",
    "holidays": "[19723]",
    "band": "[]",
    "single": "[{ from = 1, to = 1, peak = 280, off = 270 }, { from = 1, to = 2, peak = 340, off = 280 }, "
    "{ from = 1, to = 3, peak = 370, off = 300 }, { from = 2, to = 2, peak = 200, off = 190 }, "
    "{ from = 2, to = 3, peak = 210, off = 195 }, { from = 3, to = 3, peak = 200, off = 180 }]",
    "rules": "{ bus = 175, maximum = 860, hopper = 3600, same_free = 120, same_limit = 1800 }",
    "minutes": "[90, 100, 110]",
    "zones": "3",
}
FAULT_NUMBERS = {
    "NotToml": 10, "MissingKey": 11, "WrongType": 12, "OutOfRange": 13, "Duplicate": 14, "UnknownPlace": 15,
    "TooMany": 16, "HopperDiffers": 17,
}

# Changes to it, `key = value`, with `-` for a key that is left out, and how the file is then refused.
REFUSED_KEYS = """
    zones = - => MissingKey
    minutes = - => MissingKey
    rules = - => MissingKey
    single = - => MissingKey
    band = - => taken
    holidays = - => taken
    station = - => taken
    route = - => taken
    interchange = - => taken
    // Of two faults the first key's.
    zones = 'x' & minutes = [0, 0, 0] => WrongType
    minutes = [0, 0, 0] & rules = 1 => OutOfRange
    rules = 1 & single = [] => WrongType
    single = [] & band = 1 => MissingKey
    single = [1] & band = [{}] => WrongType
    band = 1 & holidays = [4, 4] => WrongType
    band = [{ from = 4 }] & holidays = 1 => OutOfRange
    band = 1 & route = [{ place = 0 }] => WrongType
    holidays = [4, 4] & station = 1 => Duplicate
    station = [{ place = 0 }] & route = 1 => OutOfRange
    zones = - & route = 1 => MissingKey
    // Interchanges come last.
    route = [{ place = 0 }] & interchange = 1 => OutOfRange
    station = 1 & interchange = [{}] => WrongType
    holidays = [4, 4] & interchange = 1 => Duplicate

    zones = 3 => taken
    zones = '3' => WrongType
    zones = 3.0 => WrongType
    zones = [3] => WrongType
    zones = -1 => OutOfRange
    zones = 0 => OutOfRange
    zones = 10 => OutOfRange
    zones = 259 => OutOfRange

    minutes = [1, 1440, 90] => taken
    minutes = 90 => WrongType
    minutes = {} => WrongType
    // Another count comes before the items.
    minutes = [] => OutOfRange
    minutes = [90, 100] => OutOfRange
    minutes = [90, 100, 110, 120] => OutOfRange
    minutes = ['x', 'x'] => OutOfRange
    minutes = [90, 'x', 110] => WrongType
    minutes = [0, 100, 110] => OutOfRange
    minutes = [90, 100, 1441] => OutOfRange
    // Of two faults the first item's.
    minutes = [90, 'x', 0] => WrongType
    minutes = [90, 0, 'x'] => OutOfRange

    rules = 1 => WrongType
    rules = [1] => WrongType
    rules = {} => MissingKey
    rules = { bus = 175.0 } => WrongType
    rules = { bus = '175' } => WrongType
    rules = { bus = -1 } => OutOfRange
    rules = { bus = 100001 } => OutOfRange
    rules = { bus = 9223372036854775807 } => OutOfRange
    rules = { bus = 100000 } => MissingKey
    rules = { bus = 0, maximum = true } => WrongType
    rules = { bus = 0, maximum = 100001 } => OutOfRange
    rules = { bus = 0, maximum = 100000, hopper = 0 } => OutOfRange
    rules = { bus = 0, maximum = 0, hopper = 7201 } => OutOfRange
    rules = { bus = 0, maximum = 0, hopper = 1, same_free = 7201 } => OutOfRange
    rules = { bus = 0, maximum = 0, hopper = 1, same_free = 0 } => MissingKey
    rules = { bus = 0, maximum = 0, hopper = 1, same_free = 9, same_limit = 8 } => OutOfRange
    rules = { bus = 0, maximum = 0, hopper = 1, same_free = 9, same_limit = 7201 } => OutOfRange
    // Of two faults the one of the first key, whatever their order in the file.
    rules = { hopper = 0, bus = 'x', maximum = 1 } => WrongType
    rules = { maximum = 'x', bus = -1 } => OutOfRange
    rules = { maximum = 'x' } => MissingKey

    holidays = [] => taken
    holidays = [50000, 4] => taken
    holidays = 19723 => WrongType
    holidays = ['19723'] => WrongType
    holidays = [3] => OutOfRange
    holidays = [50001] => OutOfRange
    holidays = [4, 5, 4] => Duplicate
    // Of two faults the first item's.
    holidays = [4, 4, 'x'] => Duplicate
    holidays = [4, 'x', 4] => WrongType
    holidays = [3, 3] => OutOfRange
"""
REFUSED_SINGLES = """
    single = 1 => WrongType
    single = {} => WrongType
    single = [1] => WrongType
    single = [{}] => MissingKey
    single = [{ from = '1' }] => WrongType
    single = [{ from = 0 }] => OutOfRange
    single = [{ from = 4 }] => OutOfRange
    single = [{ from = 3 }] => MissingKey
    single = [{ from = 2, to = '2' }] => WrongType
    single = [{ from = 2, to = 1 }] => OutOfRange
    single = [{ from = 2, to = 4 }] => OutOfRange
    single = [{ from = 2, to = 2 }] => MissingKey
    single = [{ from = 2, to = 3, peak = [] }] => WrongType
    single = [{ from = 2, to = 3, peak = -1 }] => OutOfRange
    single = [{ from = 2, to = 3, peak = 100001 }] => OutOfRange
    single = [{ from = 2, to = 3, peak = 100000 }] => MissingKey
    single = [{ from = 2, to = 3, peak = 0, off = 1.5 }] => WrongType
    single = [{ from = 2, to = 3, peak = 0, off = 100001 }] => OutOfRange
    // Of two faults the first key's, whatever their order in the file.
    single = [{ to = 'x', from = 0 }] => OutOfRange
    single = [{ off = 'x', peak = 1, to = 1 }] => MissingKey
"""
# Of two zones: A, B and C are their three spans, and D is the first one without its last key.
TWO_ZONES = "zones = 2 & minutes = [90, 100] & station = - & "
TWO_ZONES_ITEMS = {
    "A": "{ from = 1, to = 1, peak = 0, off = 0 }",
    "B": "{ from = 1, to = 2, peak = 0, off = 0 }",
    "C": "{ to = 2, from = 2, off = 100000, peak = 100000 }",
    "D": "{ from = 1, to = 1, peak = 0 }",
}
REFUSED_TWO_ZONES = """
    single = [A, B, C] => taken
    single = [C, A, B] => taken
    single = [] => MissingKey
    single = [B, C] => MissingKey
    single = [A, C] => MissingKey
    single = [A, B] => MissingKey
    single = [A, B, C, A] => Duplicate
    single = [A, B, B, C] => Duplicate
    // An item's own keys before its span is looked for, an earlier item before a later one, and both before a span that
    // has none.
    single = [A, D] => MissingKey
    single = [C, C, 1] => Duplicate
    single = [C, 1, C] => WrongType
    single = [A, A] => Duplicate
    single = [A, 1] => WrongType
"""
# B covers the buses, the others zones; D and E lack something.
BAND_ITEMS = {
    "A": "{ from = 1, to = 2, day = 1, week = 1 }",
    "B": "{ from = 0, to = 0, day = 1, week = 1 }",
    "C": "{ from = 1, to = 3, day = 1, week = 1 }",
    "D": "{ from = 1, to = 2, day = 1 }",
    "E": "{ from = 1, to = 2, day = 1, week = 100001 }",
    "F": "{ from = 1, to = 2, day = 2, week = 2 }",
    "G": "{ from = 2, to = 2, day = 1, week = 1 }",
}
REFUSED_BANDS = """
    band = [] => taken
    band = [{ from = 0, to = 0, day = 0, week = 0 }] => taken
    band = [{ week = 100000, day = 100000, to = 3, from = 3 }] => taken
    // A week's cap below a day's, and bands within one another.
    band = [{ from = 1, to = 3, day = 9, week = 8 }, { from = 1, to = 2, day = 7, week = 7 }, \
        { from = 2, to = 2, day = 8, week = 9 }] => taken
    band = 1 => WrongType
    band = {} => WrongType
    band = [1] => WrongType
    band = [{}] => MissingKey
    band = [{ to = 2, day = 1, week = 1 }] => MissingKey
    band = [{ from = '1' }] => WrongType
    band = [{ from = 1.0 }] => WrongType
    band = [{ from = -1 }] => OutOfRange
    band = [{ from = 4 }] => OutOfRange
    band = [{ from = 256 }] => OutOfRange
    band = [{ from = 3 }] => MissingKey
    band = [{ from = 1, day = 1, week = 1 }] => MissingKey
    band = [{ from = 1, to = [2] }] => WrongType
    band = [{ from = 1, to = 0 }] => OutOfRange
    band = [{ from = 1, to = -1 }] => OutOfRange
    band = [{ from = 1, to = 4 }] => OutOfRange
    band = [{ from = 2, to = 1 }] => OutOfRange
    band = [{ from = 2, to = 257 }] => OutOfRange
    // Of the buses: from 0 to 0 alone.
    band = [{ from = 0 }] => MissingKey
    band = [{ from = 0, to = '0' }] => WrongType
    band = [{ from = 0, to = 1 }] => OutOfRange
    band = [{ from = 0, to = 3 }] => OutOfRange
    band = [{ from = 0, to = -1 }] => OutOfRange
    band = [{ from = 0, to = 0 }] => MissingKey
    band = [{ from = 1, to = 1, week = 1 }] => MissingKey
    band = [{ from = 1, to = 1, day = true }] => WrongType
    band = [{ from = 1, to = 1, day = -1 }] => OutOfRange
    band = [{ from = 1, to = 1, day = 100001 }] => OutOfRange
    band = [{ from = 1, to = 1, day = 100000 }] => MissingKey
    band = [{ from = 1, to = 1, day = 1, week = '1' }] => WrongType
    band = [{ from = 1, to = 1, day = 1, week = -1 }] => OutOfRange
    band = [{ from = 1, to = 1, day = 1, week = 100001 }] => OutOfRange
    // Of two faults the first key's, whatever their order in the file.
    band = [{ to = 'x', from = 4 }] => OutOfRange
    band = [{ to = 0 }] => MissingKey
    band = [{ day = 'x', to = 1, from = 2 }] => OutOfRange
    band = [{ day = 'x', to = 1, from = 0 }] => OutOfRange
    band = [{ from = 0, day = 'x' }] => MissingKey
    band = [{ week = 'x', day = -1, to = 1, from = 1 }] => OutOfRange
    band = [{ week = -1, to = 1, from = 1 }] => MissingKey
    band = [B, B] & holidays = [3] => Duplicate
    // One band of each cover.
    band = [A, C, G, B] => taken
    band = [A, F] => Duplicate
    band = [B, B] => Duplicate
    band = [C, A, B, F] => Duplicate
    // An item's own faults before an earlier one of its cover is looked for, and an earlier item before a later one.
    band = [A, D] => MissingKey
    band = [A, E] => OutOfRange
    band = [A, 1, A] => WrongType
    band = [A, A, 1] => Duplicate
"""
PLACE_ITEMS = {
    "A": "{ place = 1, low = 1, high = 2, operator = 16 }",
    "B": "{ place = 65535, low = 3, high = 3, operator = 1 }",
    "C": "{ place = 1, low = 3, high = 3, operator = 2 }",
    "D": "{ place = 1, low = 1, high = 1 }",
    "E": "{ place = 1, operator = 1 }",
    "F": "{ place = 1, operator = 2 }",
}
REFUSED_PLACES = """
    station = [] => taken
    station = 1 => WrongType
    station = { place = 10 } => WrongType
    station = [1] => WrongType
    station = [{}] => MissingKey
    station = [{ place = '1' }] => WrongType
    station = [{ place = 0 }] => OutOfRange
    station = [{ place = 65536 }] => OutOfRange
    station = [{ place = 65535 }] => MissingKey
    station = [{ place = 1, low = '1' }] => WrongType
    station = [{ place = 1, low = 0 }] => OutOfRange
    station = [{ place = 1, low = 4 }] => OutOfRange
    station = [{ place = 1, low = 3 }] => MissingKey
    station = [{ place = 1, low = 2, high = true }] => WrongType
    station = [{ place = 1, low = 2, high = 1 }] => OutOfRange
    station = [{ place = 1, low = 1, high = 3 }] => OutOfRange
    station = [{ place = 1, low = 3, high = 4 }] => OutOfRange
    station = [{ place = 1, low = 2, high = 3 }] => MissingKey
    station = [{ place = 1, low = 2, high = 2, operator = 1.0 }] => WrongType
    station = [{ place = 1, low = 2, high = 2, operator = 0 }] => OutOfRange
    station = [{ place = 1, low = 2, high = 2, operator = 17 }] => OutOfRange
    // Of two faults the first key's, whatever their order in the file.
    station = [{ operator = 'x', high = 0, low = 2, place = 1 }] => OutOfRange
    station = [{ high = 'x', low = 0, place = 1 }] => OutOfRange
    // The file's route has number 50.
    station = [{ place = 50, low = 1, high = 1, operator = 1 }] => Duplicate

    route = 1 => WrongType
    route = { place = 50, operator = 4 } => WrongType
    route = [] => taken
    route = [1] => WrongType
    route = [{}] => MissingKey
    route = [{ place = 0, operator = 1 }] => OutOfRange
    route = [{ place = 65536, operator = 1 }] => OutOfRange
    route = [{ place = 65535, operator = 16 }] => taken
    route = [{ place = 1 }] => MissingKey
    route = [{ place = 1, operator = 0 }] => OutOfRange
    route = [{ place = 1, operator = 17 }] => OutOfRange
    route = [{ place = 1, operator = 'x' }] => WrongType
    // Of two faults the first key's.
    route = [{ operator = 'x' }] => MissingKey
    // The file's station has number 10, which is looked for last.
    route = [{ place = 10, operator = 1 }] => Duplicate
    route = [{ place = 10, operator = 17 }] => OutOfRange

    // An item's own keys before its number is looked for, and an earlier item before a later one.
    station = [A, B] => taken
    station = [A, C] => Duplicate
    station = [A, D] => MissingKey
    station = [A, A, 1] => Duplicate
    station = [A, 1, A] => WrongType
    route = [E, { place = 2, operator = 1 }] => taken
    route = [E, F] => Duplicate
    route = [E, { place = 1, operator = 17 }] => OutOfRange
    route = [E, E, 1] => Duplicate
    route = [E, 1, E] => WrongType
"""
# C and D are the way back of A, and D lacks a key.
INTERCHANGE_ITEMS = {
    "A": "{ a = 10, b = 12, seconds = 1200 }",
    "B": "{ a = 12, b = 13, seconds = 1200 }",
    "C": "{ a = 12, b = 10, seconds = 60 }",
    "D": "{ a = 12, b = 10 }",
    "E": "{ a = 10, b = 99, seconds = 1200 }",
    "F": "{ a = 10, b = 13, seconds = 1200 }",
}
REFUSED_INTERCHANGES = """
    interchange = [] => taken
    interchange = [{ a = 10, b = 12, seconds = 1 }] => taken
    interchange = [{ seconds = 7200, b = 10, a = 12 }] => taken
    interchange = 1 => WrongType
    interchange = A => WrongType
    interchange = [1] => WrongType
    interchange = [{}] => MissingKey
    interchange = [{ b = 12, seconds = 1200 }] => MissingKey
    interchange = [{ a = '10' }] => WrongType
    interchange = [{ a = 0 }] => OutOfRange
    interchange = [{ a = 65536 }] => OutOfRange
    interchange = [{ a = 65535 }] => MissingKey
    interchange = [{ a = 10, seconds = 1200 }] => MissingKey
    interchange = [{ a = 10, b = '12' }] => WrongType
    interchange = [{ a = 10, b = 0 }] => OutOfRange
    interchange = [{ a = 10, b = 65536 }] => OutOfRange
    interchange = [{ a = 10, b = 65535 }] => MissingKey
    interchange = [{ a = 10, b = 12, seconds = 1200.0 }] => WrongType
    interchange = [{ a = 10, b = 12, seconds = 0 }] => OutOfRange
    interchange = [{ a = 10, b = 12, seconds = 7201 }] => OutOfRange
    interchange = [{ a = 10, b = 10, seconds = 1200 }] => OutOfRange
    // No place, and a route.
    interchange = [E] => UnknownPlace
    interchange = [{ a = 99, b = 10, seconds = 1200 }] => UnknownPlace
    interchange = [{ a = 50, b = 10, seconds = 1200 }] => UnknownPlace
    interchange = [{ a = 10, b = 50, seconds = 1200 }] => UnknownPlace
    // Of two faults the first one: in the order of the keys, and an item's own before its places are looked for.
    interchange = [{ seconds = 0, b = 12 }] => MissingKey
    interchange = [{ b = 'x', a = 0, seconds = 1 }] => OutOfRange
    interchange = [{ seconds = 'x', b = 0, a = 10 }] => OutOfRange
    // Both places the same is a fault of `b`.
    interchange = [{ a = 10, b = 10 }] => OutOfRange
    interchange = [{ a = 10, b = 10, seconds = 'x' }] => OutOfRange
    interchange = [{ a = 99, b = 99, seconds = 1200 }] => OutOfRange
    interchange = [{ a = 99, b = 10 }] => MissingKey
    interchange = [{ a = 10, b = 99, seconds = 7201 }] => OutOfRange

    interchange = [A, B, F] => taken
    interchange = [A, A] => Duplicate
    interchange = [A, C] => Duplicate
    interchange = [F, A, B, C] => Duplicate
    // An item's own faults before an earlier one between its stations is looked for, and an earlier item before a later
    // one.
    interchange = [A, D] => MissingKey
    interchange = [A, { a = 12, b = 10, seconds = 0 }] => OutOfRange
    interchange = [A, E, C] => UnknownPlace
    interchange = [A, C, E] => Duplicate
    interchange = [A, 1, C] => WrongType
    interchange = [A, C, 1] => Duplicate
    interchange = [E, 1] => UnknownPlace

    // They are between stations of the file.
    route = [] & interchange = [A] => taken
    station = [] & interchange = [A] => UnknownPlace
    station = [{ place = 10, low = 1, high = 1, operator = 1 }] & route = [{ place = 12, \
        operator = 4 }] & interchange = [A] => UnknownPlace
    station = [] & route = [{ place = 10, operator = 4 }, { place = 12, operator = 4 }] & interchange = [A] => \
        UnknownPlace
"""
# A and B are whole editions of two days, C one of the day of A without its last key; M, R and S are what an edition
# must have.
EDITION_ITEMS = {
    "A": "{ day = 19731, M, R, S }",
    "B": "{ day = 19738, M, R, S, band = [{ from = 0, to = 0, day = 1, week = 1 }] }",
    "C": "{ day = 19731, M, R }",
    "M": "minutes = [90, 100, 110]",
    "R": "rules = { bus = 180, maximum = 900, hopper = 3600, same_free = 120, same_limit = 1800 }",
    "S": "single = [{ from = 1, to = 1, peak = 290, off = 280 }, { from = 1, to = 2, peak = 350, off = 290 }, "
    "{ from = 1, to = 3, peak = 380, off = 310 }, { from = 2, to = 2, peak = 210, off = 200 }, "
    "{ from = 2, to = 3, peak = 220, off = 205 }, { from = 3, to = 3, peak = 210, off = 190 }]",
}
REFUSED_EDITIONS = """
    edition = - => taken
    edition = [] => taken
    edition = [A] => taken
    edition = [B, A] => taken
    edition = [{ S, R, M, day = 50000 }] => taken
    edition = [{ M, R, S, day = 5, band = [], zones = 9, colour = 'red' }] => taken
    edition = 1 => WrongType
    edition = A => WrongType
    edition = [1] => WrongType
    edition = [[]] => WrongType
    edition = [{}] => MissingKey
    edition = [{ M, R, S }] => MissingKey
    edition = [{ day = '19731' }] => WrongType
    edition = [{ day = 19731.0 }] => WrongType
    edition = [{ day = 4 }] => OutOfRange
    edition = [{ day = 50001 }] => OutOfRange
    edition = [{ day = -1 }] => OutOfRange
    edition = [{ day = 5 }] => MissingKey
    edition = [{ day = 50000 }] => MissingKey
    edition = [{ day = 5, minutes = 90 }] => WrongType
    edition = [{ day = 5, minutes = [90, 100] }] => OutOfRange
    edition = [{ day = 5, minutes = [90, 'x', 110] }] => WrongType
    edition = [{ day = 5, minutes = [90, 100, 1441] }] => OutOfRange
    edition = [{ day = 5, M }] => MissingKey
    edition = [{ day = 5, M, rules = 1 }] => WrongType
    edition = [{ day = 5, M, rules = {} }] => MissingKey
    edition = [{ day = 5, M, rules = { bus = '1' } }] => WrongType
    edition = [{ day = 5, M, rules = { bus = 100001 } }] => OutOfRange
    edition = [{ day = 5, M, rules = { bus = 1 } }] => MissingKey
    edition = [{ day = 5, M, rules = { bus = 1, maximum = '1' } }] => WrongType
    edition = [{ day = 5, M, rules = { bus = 1, maximum = 100001 } }] => OutOfRange
    edition = [{ day = 5, M, rules = { bus = 1, maximum = -1 } }] => OutOfRange
    edition = [{ day = 5, M, rules = { bus = 1, maximum = 1 } }] => MissingKey
    edition = [{ day = 5, M, rules = { bus = 1, maximum = 1, hopper = '3600' } }] => WrongType
    // Its range first, then whether it is the file's own, then the next key.
    edition = [{ day = 5, M, rules = { bus = 1, maximum = 1, hopper = 0 } }] => OutOfRange
    edition = [{ day = 5, M, rules = { bus = 1, maximum = 1, hopper = 7201 } }] => OutOfRange
    edition = [{ day = 5, M, rules = { bus = 1, maximum = 1, hopper = 3599 } }] => HopperDiffers
    edition = [{ day = 5, M, rules = { bus = 1, maximum = 1, hopper = 3601, same_free = 'x' } }] => HopperDiffers
    edition = [{ day = 5, M, rules = { bus = 1, maximum = 1, hopper = 3600, same_free = 'x' } }] => WrongType
    edition = [{ day = 5, M, rules = { bus = 1, maximum = 1, hopper = 3600 } }] => MissingKey
    edition = [{ day = 5, M, rules = { bus = 1, maximum = 1, hopper = 3600, same_free = 7201 } }] => OutOfRange
    edition = [{ day = 5, M, rules = { bus = 1, maximum = 1, hopper = 3600, same_free = 9 } }] => MissingKey
    edition = [{ day = 5, M, rules = { bus = 1, maximum = 1, hopper = 3600, same_free = 9, same_limit = '9' } }] => \
        WrongType
    edition = [{ day = 5, M, rules = { bus = 1, maximum = 1, hopper = 3600, same_free = 9, same_limit = 7201 } }] => \
        OutOfRange
    edition = [{ day = 5, M, rules = { bus = 1, maximum = 1, hopper = 3600, same_free = 9, same_limit = 8 } }] => \
        OutOfRange
    edition = [{ day = 5, M, R }] => MissingKey
    edition = [{ day = 5, M, R, single = 1 }] => WrongType
    edition = [{ day = 5, M, R, single = [] }] => MissingKey
    edition = [{ day = 5, M, R, single = [1] }] => WrongType
    edition = [{ day = 5, M, R, single = [{}] }] => MissingKey
    edition = [{ day = 5, M, R, single = [{ from = '1' }] }] => WrongType
    edition = [{ day = 5, M, R, single = [{ from = 4 }] }] => OutOfRange
    edition = [{ day = 5, M, R, single = [{ from = 1 }] }] => MissingKey
    edition = [{ day = 5, M, R, single = [{ from = 1, to = '1' }] }] => WrongType
    edition = [{ day = 5, M, R, single = [{ from = 2, to = 1 }] }] => OutOfRange
    edition = [{ day = 5, M, R, single = [{ from = 1, to = 4 }] }] => OutOfRange
    edition = [{ day = 5, M, R, single = [{ from = 1, to = 1 }] }] => MissingKey
    edition = [{ day = 5, M, R, single = [{ from = 1, to = 1, peak = '1' }] }] => WrongType
    edition = [{ day = 5, M, R, single = [{ from = 1, to = 1, peak = 100001 }] }] => OutOfRange
    edition = [{ day = 5, M, R, single = [{ from = 1, to = 1, peak = 1 }] }] => MissingKey
    edition = [{ day = 5, M, R, single = [{ from = 1, to = 1, peak = 1, off = '1' }] }] => WrongType
    edition = [{ day = 5, M, R, single = [{ from = 1, to = 1, peak = 1, off = -1 }] }] => OutOfRange
    edition = [{ day = 5, M, R, single = [{ from = 1, to = 1, peak = 1, off = 1 }, \
        { from = 1, to = 1, peak = 1, off = 1 }] }] => Duplicate
    edition = [{ day = 5, M, R, S, band = 1 }] => WrongType
    edition = [{ day = 5, M, R, S, band = [1] }] => WrongType
    edition = [{ day = 5, M, R, S, band = [{}] }] => MissingKey
    edition = [{ day = 5, M, R, S, band = [{ from = '1' }] }] => WrongType
    edition = [{ day = 5, M, R, S, band = [{ from = 4 }] }] => OutOfRange
    edition = [{ day = 5, M, R, S, band = [{ from = 1 }] }] => MissingKey
    edition = [{ day = 5, M, R, S, band = [{ from = 1, to = '1' }] }] => WrongType
    edition = [{ day = 5, M, R, S, band = [{ from = 0, to = 1 }] }] => OutOfRange
    edition = [{ day = 5, M, R, S, band = [{ from = 1, to = 1 }] }] => MissingKey
    edition = [{ day = 5, M, R, S, band = [{ from = 1, to = 1, day = '1' }] }] => WrongType
    edition = [{ day = 5, M, R, S, band = [{ from = 1, to = 1, day = 100001 }] }] => OutOfRange
    edition = [{ day = 5, M, R, S, band = [{ from = 1, to = 1, day = 1 }] }] => MissingKey
    edition = [{ day = 5, M, R, S, band = [{ from = 1, to = 1, day = 1, week = '1' }] }] => WrongType
    edition = [{ day = 5, M, R, S, band = [{ from = 1, to = 1, day = 1, week = -1 }] }] => OutOfRange
    edition = [{ day = 5, M, R, S, band = [{ from = 0, to = 0, day = 1, week = 1 }, \
        { from = 0, to = 0, day = 1, week = 1 }] }] => Duplicate
    // Of two faults the first key's, whatever their order in the file.
    edition = [{ M, rules = 1, day = 4 }] => OutOfRange
    edition = [{ day = 5, rules = 1, S, minutes = [0, 0, 0] }] => OutOfRange
    edition = [{ day = 5, M, single = 1, rules = {} }] => MissingKey
    edition = [{ day = 5, M, R, single = [], band = 1 }] => MissingKey
    // Its day is looked for after its own keys, and an earlier item comes before a later one.
    edition = [A, A] => Duplicate
    edition = [B, A, B] => Duplicate
    edition = [A, C] => MissingKey
    edition = [A, { day = 19731, M, rules = { bus = 1, maximum = 1, hopper = 1 } }] => HopperDiffers
    edition = [A, A, 1] => Duplicate
    edition = [A, 1, A] => WrongType
    // Editions come last.
    interchange = 1 & edition = [{ day = 4 }] => WrongType
    interchange = [{}] & edition = 1 => MissingKey
    station = [{ place = 0 }] & edition = [{}] => OutOfRange
    // The zones are the file's own.
    zones = 2 & minutes = [90, 100] & station = - & single = [{ from = 1, to = 1, peak = 0, off = 0 }, \
        { from = 1, to = 2, peak = 0, off = 0 }, { from = 2, to = 2, peak = 0, off = 0 }] & edition = [A] => OutOfRange
"""
# An array that is no longer than it may be has the fault of its first item; with one item more none is looked at.
LONGEST = {"band": 12, "holidays": 64, "station": 1_024, "route": 1_021, "interchange": 256, "edition": 8}


def refused_files():
    """The changes to the good fare file, and how it is then refused."""
    for ahead, items, text in (
        ("", {}, REFUSED_KEYS),
        ("", {}, REFUSED_SINGLES),
        (TWO_ZONES, TWO_ZONES_ITEMS, REFUSED_TWO_ZONES),
        ("", BAND_ITEMS, REFUSED_BANDS),
        ("", PLACE_ITEMS, REFUSED_PLACES),
        ("", INTERCHANGE_ITEMS, REFUSED_INTERCHANGES),
        ("", EDITION_ITEMS, REFUSED_EDITIONS),
    ):
        # A whole item first, and then what is named in it.
        names = rf"\b[{''.join(items)}]\b" if items else "(?!)"
        for changes, wanted in rows_of(text):
            for _ in range(2):
                changes = re.sub(names, lambda it: items[it.group()], changes)
            yield ahead + changes, wanted
    for key, most in LONGEST.items():
        yield f"{key} = {most * ['x']}", "WrongType"
        yield f"{key} = {(most + 1) * ['x']}", "TooMany"


class FareKeys(Theme):
    def test_faults_of_keys(self):
        """Each fault of each key of a fare file, and which one of several."""
        for changes, wanted in refused_files():
            changed = dict(change.split(" = ", 1) for change in changes.split(" & "))
            text = "".join(f"{key} = {value}\n" for key, value in {**GOOD_FILE, **changed}.items() if value != "-")
            came = run(["check", written(self.folder, "fares", text.encode())])
            if wanted == "taken":
                self.check(changes[:150], came._replace(output=came.output[:3]), answers(b"OK "))
            else:
                self.check(changes[:150], came, fault(f"{FAULT_NUMBERS[wanted]} {wanted}"))
