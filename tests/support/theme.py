"""What a theme's tests are: test cases of `unittest`, which compare what runs of the built program come to."""

import collections
import os
import sys
import tempfile
import unittest

from support.repository import ROOT, build

# So that a failure shows the line of the test, and none of this module.
__unittest = True

# How many comparisons each theme has made so far.
CHECKS = collections.Counter()


class Theme(unittest.TestCase):
    """Tests of the built program. Each has a folder of its own for its files, and goes on after a comparison that
    fails."""

    @classmethod
    def setUpClass(cls):
        build()

    def setUp(self):
        folder = tempfile.TemporaryDirectory()
        self.addCleanup(folder.cleanup)
        self.folder = folder.name

    def shortDescription(self):
        """All that the test says of itself, in one line."""
        return in_one_line(self._testMethodDoc)

    def check(self, name, came, wanted):
        """Compares what a run came to with what it has to come to."""
        CHECKS[type(self).__module__.rpartition(".")[2]] += 1
        with self.subTest(name):
            if came != wanted:
                expected = f"expected  {in_words(wanted, came)}\n    came      {in_words(came, wanted)}"
                self.fail(f"{line_of_test()}\n    {expected}")

    def check_all(self, checks):
        """The same of checks as they come: of each the name, what a run came to, and what it has to come to."""
        for name, came, wanted in checks:
            self.check(name, came, wanted)


def line_of_test():
    """The file and the line from which this module was called."""
    frame = sys._getframe()
    while frame.f_globals["__name__"] == __name__:
        frame = frame.f_back
    return f"{os.path.relpath(frame.f_code.co_filename, ROOT)}:{frame.f_lineno}"


def in_one_line(text):
    """The first paragraph of a docstring."""
    return " ".join(text.split("\n\n")[0].split())


def processor_seconds():
    """Of this script and the runs so far."""
    return sum(os.times()[:4])


def shortened(text, other):
    """A text, or where it is long its first line that differs from the other's."""
    if text is None or len(text) < 400:
        return repr(text)
    mine, others = text.split(b"\n"), (other or b"").split(b"\n")
    at = next((at for at, (a, b) in enumerate(zip(mine, others)) if a != b), min(len(mine), len(others)))
    return f"{len(text):,} bytes, line {at + 1}: {b''.join(mine[at:at + 1])[:200]!r}"


def in_words(end, other):
    """An end, beside another; or whatever else is compared."""
    if not (hasattr(end, "left") and hasattr(other, "left")):
        return repr(end)
    left = "" if end.left is None else f", left {shortened(end.left, other.left)}"
    output, errors = shortened(end.output, other.output), shortened(end.errors, other.errors)
    return f"status {end.status}, output {output}, errors {errors}{left}"
