"""How commands are spelled, which numbers they may have, and taps that are refused."""

from support.repository import RUN_SAMPLE
from support.running import RUN, play
from support.theme import Theme

# Places and numbers that are refused, also where the number is taken.
UNKNOWN_PLACES = [
    (f"TAP 1 1 7 1704697200 {place} {kind}", "NO 15 UnknownPlace")
    for place, kind in ((51, "BUS"), (51, "IN"), (50, "IN"), (50, "OUT"), (10, "BUS"), (15, "IN"))
]
REFUSED_TAPS = (
    *UNKNOWN_PLACES,
    # A refused tap is no journey.
    ("SHOW 7 19730", "SHOW 7 19730 0 0"),
    ("TAP 1 1 7 1704697200 50 BUS", "OK 19730 175 175"),
    ("TAP 1 2 7 1704697200 10 IN", "OK 19730 1035 1035"),
    ("TAP 1 1 7 1704697200 50 BUS", "AGAIN 19730 1035 1035"),
    # Another place and kind, instant, kind, and place.
    ("TAP 1 1 7 1704697200 10 IN", "NO 20 Conflict"),
    ("TAP 1 1 7 1704697201 50 BUS", "NO 20 Conflict"),
    ("TAP 1 2 7 1704697200 10 OUT", "NO 20 Conflict"),
    ("TAP 1 2 7 1704697200 11 IN", "NO 20 Conflict"),
    *UNKNOWN_PLACES,
    ("SHOW 7 19730", "SHOW 7 19730 2 1035\nJNY BUS 50 0 1704697200 175\nJNY LONE 10 0 1704697200 860"),
    # Another account, reader and number.
    ("TAP 1 1 8 1704697200 50 BUS", "OK 19730 175 175"),
    ("TAP 2 1 7 1704697200 50 BUS", "OK 19730 1035 1035"),
    ("TAP 1 3 7 1704697200 50 BUS", "OK 19730 1035 1035"),
)


def misspelled_dues(line):
    """Lines that are not quite that of a question: another letter, a space or a word more or less, and other
    numbers."""
    verb, account, day = line.split()
    yield from (
        verb, f"{verb} {account}", f"{verb} {day}", f"{line} ", f" {line}", f"{line} 1", f"{line}\r", f"{line}\0",
        f"{line} {line}",
    )
    yield from (
        line.lower(), line.title(), line.replace(" ", "  ", 1), line.replace(" ", "\t", 1), f"{verb}S {account} {day}",
        f"{verb}{account} {day}",
    )
    for numbers in (
        f"0{account} {day}", f"+{account} {day}", f"-{account} {day}", f"{account}a {day}", f"{account}. {day}",
        f"{2**64 + 7} {day}",
    ):
        yield f"{verb} {numbers}"
    for numbers in (
        f"0{day}", f"+{day}", f"-{day}", f"{day}a", "0", "-1", 2**32 + int(day), 2**64 + int(day), "19730=1"
    ):
        yield f"{verb} {account} {numbers}"


def misspelled_closes(line):
    """The same of a close, which names a day alone."""
    verb, day = line.split()
    yield from (
        verb, f"{verb} ", f"{line} ", f" {line}", f"{line} 1", f"{line}\r", f"{line}\0", f"{line} {day}",
        f"{line} {line}",
    )
    yield from (
        line.lower(), line.title(), line.replace(" ", "  "), line.replace(" ", "\t"), f"{verb}S {day}",
        f"{verb}D {day}", f"{verb}{day}", f"CLOS {day}",
    )
    for number in (
        f"0{day}", f"+{day}", f"-{day}", f"{day}a", f"{day}.", f"a{day}", "0", "-1", 2**32 + int(day), 2**64 + int(day),
        "19730=1",
    ):
        yield f"{verb} {number}"


# Numbers at their limits, and lines that are no command.
SPELLED_LINES = (
    ("TAP 1 0 7 1704697200 50 BUS", "OK 19730 175 175"),
    ("TAP 65535 4294967295 4294967295 1704697200 50 BUS", "OK 19730 175 175"),
    ("TAP 1 1 7 1704697200 65535 BUS", "NO 15 UnknownPlace"),
    ("TAP 1 1 7 1704697200 65536 BUS", "NO 50 BadLine"),
    ("TAP 0 1 7 1704697200 50 BUS", "NO 50 BadLine"),
    ("TAP 65536 1 7 1704697200 50 BUS", "NO 50 BadLine"),
    ("TAP 1 4294967296 7 1704697200 50 BUS", "NO 50 BadLine"),
    ("TAP 1 07 7 1704697200 50 BUS", "NO 50 BadLine"),
    ("TAP 1 7a 7 1704697200 50 BUS", "NO 50 BadLine"),
    ("SHOW 7 3", "NO 50 BadLine"),
    ("SHOW 7 4", "SHOW 7 4 0 0"),
    ("SHOW 7 50000", "SHOW 7 50000 0 0"),
    ("SHOW 7 50001", "NO 50 BadLine"),
    ("SHOW 0 19730", "NO 50 BadLine"),
    ("SHOW 4294967295 19731", "SHOW 4294967295 19731 0 0"),
    ("SHOW 4294967296 19730", "NO 50 BadLine"),
    ("SHOW 07 19730", "NO 50 BadLine"),
    ("SHOW 7a 19730", "NO 50 BadLine"),
    *(
        (line, "NO 50 BadLine")
        for line in ("SHOW", "SHOW 7", "SHOW 7 19730 ", "SHOW 7 19730 1", "SHOW  7 19730", "show 7 19730")
    ),
    ("TAP 1 1 7 18446744073709551616 50 BUS", "NO 50 BadLine"),
    ("CLOSE 3", "NO 50 BadLine"),
    # Both taps are of day 19730, which is in neither week.
    ("CLOSE 4", "DONE 4 0"),
    ("CLOSE 50000", "DONE 50000 0"),
    ("CLOSE 50001", "NO 50 BadLine"),
    *((line, "NO 50 BadLine") for line in misspelled_closes("CLOSE 19730")),
    ("CLOSE " + "7" * 122, "NO 50 BadLine"),
    ("CLOSE " + "7" * 123, "NO 51 LongLine"),
    # The one tap of this account is of another week, and counts.
    ("DUE 7 3", "NO 50 BadLine"),
    ("DUE 7 4", "DUE 7 4 4 1 0"),
    ("DUE 7 10", "DUE 7 4 10 1 0"),
    ("DUE 7 11", "DUE 7 11 11 1 0"),
    ("DUE 7 49997", "DUE 7 49991 49997 1 0"),
    ("DUE 7 50000", "DUE 7 49998 50000 1 0"),
    ("DUE 7 50001", "NO 50 BadLine"),
    ("DUE 0 19730", "NO 50 BadLine"),
    ("DUE 1 19731", "DUE 1 19730 19731 0 0"),
    ("DUE 4294967295 19731", "DUE 4294967295 19730 19731 1 175 4=175"),
    ("DUE 4294967296 19730", "NO 50 BadLine"),
    *((line, "NO 50 BadLine") for line in misspelled_dues("DUE 7 19730")),
    ("DUE " + "7" * 124, "NO 50 BadLine"),
    ("DUE " + "7" * 125, "NO 51 LongLine"),
    ("DUE 7 19730", "DUE 7 19730 19730 1 175 4=175"),
    ("CLOSE 19730", "PAY 7 19730 19730 1 175 175 4=175\nPAY 4294967295 19730 19730 1 175 175 4=175\nDONE 19730 2"),
)

# Corrections with their words at the least and at the greatest, with examples/sample.toml.
GREATEST = 4_294_967_295
AT_LIMITS = (
    ("FIX 1 0 1 VOID 1 0", "OK 0 0 0"),
    (f"FIX 65535 {GREATEST} {GREATEST} VOID 65535 {GREATEST}", "OK 0 0 0"),
    ("FIX 1 1 1 DROP 1 0", "OK 0 0 0"),
    (f"FIX 65535 0 {GREATEST} DROP 65535 {GREATEST}", "OK 0 0 0"),
    ("FIX 1 2 1 CREDIT 4 1", "OK 4 0 0"),
    ("FIX 1 3 1 CREDIT 50000 100000", "OK 50000 0 0"),
    ("FIX 1 4 1 FILL 604800 10 IN", "OK 6 860 860"),
    (f"FIX 65535 1 {GREATEST} FILL 4102444799 50 BUS", "OK 47481 175 175"),
    ("FIX 1 5 1 FILL 0 10 IN", "NO 1 OutOfTime"),
    (f"FIX 1 5 1 FILL {GREATEST} 10 IN", "NO 1 OutOfTime"),
    ("FIX 1 5 1 FILL 604799 10 IN", "NO 1 OutOfTime"),
    ("FIX 1 5 1 FILL 4102444800 10 IN", "NO 1 OutOfTime"),
    ("FIX 1 5 1 FILL 604800 1 IN", "NO 15 UnknownPlace"),
    ("FIX 1 5 1 FILL 604800 65535 IN", "NO 15 UnknownPlace"),
)
# A correction of each form, the least and the greatest of the two numbers after its form, and its reply after those
# before it.
SMALL, ANY, NOT_ZERO = (1, 65_535), (0, GREATEST), (1, GREATEST)
SPELLED = (
    ("FIX 3 1 7 VOID 1 1", SMALL, ANY, "OK 0 0 0"),
    ("FIX 3 2 7 FILL 1704697200 10 IN", ANY, SMALL, "OK 19730 860 860"),
    ("FIX 3 3 7 CREDIT 19730 100", (4, 50_000), (1, 100_000), "OK 19730 860 860"),
    ("FIX 3 4 7 DROP 3 3", SMALL, ANY, "OK 19730 860 860"),
)
NO_FIXES = (
    "FIX", "FIX ", "FIX 3", "FIX 3 1 7", "FIX 3 1 7 ", "FIX 3 1 VOID 1 1", "FIX VOID 1 1", "FIXES 3 1 7 VOID 1 1",
    "FIX3 1 7 VOID 1 1",
    "FIX 3 1 7 1 1", "FIX 3 1 7 TAP 1 1", "FIX 3 1 7 VOI 1 1", "FIX 3 1 7 VOIDS 1 1", "FIX 3 1 7 VOID",
    "FIX 3 1 7 VOID 1 1 IN",
    "FIX 3 1 7 VOID 1 1 FIX 3 2 7 VOID 1 2", "FIX 3 1 7 FILL 1 1", "FIX 3 1 7 FILL 1704697200 10 TRAM",
    "FIX 3 1 7 FILL 1704697200 10 in",
    "FIX 3 1 7 FILL 1704697200 IN 10", "FIX 3 1 7 CREDIT 19730", "FIX 3 1 7 CREDIT 19730 1.5", "FIX 3 1 7 DROP 3",
    "FIX 3 1 7 DROP 3 3 3",
    "FIX " + "A" * 124,
)


def misspelled(line, *ranges):
    """Lines that are not quite that of a correction: another letter, a space or a word more or less, and other
    numbers."""
    words = line.split()
    yield from (
        line.lower(), line.replace(words[4], words[4].lower()), line.replace(" ", "  ", 1), line.replace(" ", "\t", 1)
    )
    yield from (f" {line}", f"{line} ", f"{line} 1", f"{line}\r", f"{line}\0", line.rpartition(" ")[0])
    for at, (least, most) in zip((1, 2, 3, 5, 6), (SMALL, ANY, NOT_ZERO, *ranges)):
        right = words[at]
        for word in (
            "", f"0{right}", f"+{right}", f"-{right}", f"{right}x", least - 1, most + 1, 2**32 + int(right),
            2**64 + int(right),
        ):
            yield " ".join([*words[:at], str(word), *words[at + 1:]])


class Lines(Theme):
    def test_refused_taps(self):
        """Places that there are not, and numbers that are taken."""
        self.check("refused taps", *play(RUN, REFUSED_TAPS))

    def test_spellings(self):
        """Each command has one spelling."""
        self.check("numbers at their limits", *play(RUN, SPELLED_LINES))

    def test_spellings_of_corrections(self):
        """Each form has one spelling: its words at their limits, and what is no correction."""
        self.check("corrections at their limits", *play(RUN_SAMPLE, AT_LIMITS))
        pairs = [(line, "NO 50 BadLine") for line in NO_FIXES] + [("FIX " + "A" * 125, "NO 51 LongLine")]
        for line, first, second, reply in SPELLED:
            pairs += [(it, "NO 50 BadLine") for it in misspelled(line, first, second)]
            # None of them has used up the number.
            pairs += [(line, reply), (line, f"AGAIN{reply[2:]}")]
        self.check("misspelled corrections", *play(RUN_SAMPLE, pairs))
