#!/usr/bin/env python3
"""Runs the built program as its users do, and judges the bytes of its output and its errors, and its status.

    tests/program.py                    # every theme: a minute or two, and minutes more if the program has to be built
    tests/program.py quotes serve       # these themes alone
    tests/program.py -k late_taps       # the tests alone whose names have this in them
    tests/program.py -f -v              # ends at the first failure; prints the name of each test
    tests/program.py --list [THEME..]   # what the themes are, or the tests of these

A theme is a module of tests/themes with test cases of `unittest`, and tests/support has what they share. So one test
runs by `python3 -m unittest themes.editions.Editions.test_late_taps` too, in the folder tests. What a run has to come
to is never taken from the program: it was worked out by hand from docs/RULES.md, docs/LINES.md and docs/FILES.md, or
stands in examples/README.md, or, of many replies and statements, follows from a formula or from tests/oracle/rules.py.
A run that comes to anything else is printed beside what was expected, and ends this script with status 1. It wants
Linux, Python 3.8 or later and the toolchain. No test in a crate has the streams of the operating system, and none runs
the program as it was built.
"""

import argparse
import importlib
import os
import re
import sys
import unittest

# Nothing is kept beside the sources.
sys.dont_write_bytecode = True
from support.repository import ROOT
from support.theme import CHECKS, in_one_line, processor_seconds

THEMES = sorted(name[:-3] for name in os.listdir(f"{ROOT}/tests/themes") if re.match(r"[a-z]\w*\.py", name))


class TestsOfTheme(unittest.TestSuite):
    """The tests of a theme, after which a line says how many comparisons there were, and how many came out wrong."""

    def __init__(self, name, patterns=None):
        loader = unittest.TestLoader()
        loader.testNamePatterns = patterns
        super().__init__(loader.loadTestsFromModule(importlib.import_module(f"themes.{name}")))
        self.name = name

    def run(self, result, debug=False):
        if self.countTestCases() and not result.shouldStop:
            began, before = processor_seconds(), count_wrong(result)
            super().run(result, debug)
            print(
                summary(self.name, CHECKS[self.name], count_wrong(result) - before, processor_seconds() - began),
                flush=True,
            )
        return result

    def tests(self):
        """The tests, one by one."""
        return [test for each in self for test in each]


def count_wrong(result):
    return len(result.failures) + len(result.errors)


def summary(name, checks, wrong, seconds):
    came = f"{wrong} wrong" if wrong else "all right"
    return f"{name:<13} {checks:>6,} checks, {came}, {seconds:.1f} s of processor time"


def print_themes():
    for name in THEMES:
        print(f"{name:<13} {in_one_line(importlib.import_module(f'themes.{name}').__doc__)}")


def print_tests(themes):
    for name in themes:
        for test in TestsOfTheme(name).tests():
            print(f"{test.id()}\n    {test.shortDescription()}")


def arguments():
    words = argparse.ArgumentParser(description="runs the built program as its users do, and judges what it does")
    words.add_argument("themes", metavar="THEME", nargs="*", help="the themes that are run; none means all of them")
    words.add_argument(
        "--list", action="store_true", help="print what the themes are, or the tests of those named, and run none"
    )
    words.add_argument(
        "-k", metavar="NAME", action="append", help="run the tests alone whose names have this in them, or match it"
    )
    words.add_argument("-f", "--failfast", action="store_true", help="end at the first failure")
    words.add_argument("-v", "--verbose", action="store_true", help="print the name of each test")
    asked = words.parse_args()
    for name in asked.themes:
        if name not in THEMES:
            words.error(f"there is no theme {name}; the themes are {', '.join(THEMES)}")
    return words, asked


def main():
    words, asked = arguments()
    if asked.list:
        print_tests(asked.themes) if asked.themes else print_themes()
        return 0
    patterns = [name if "*" in name else f"*{name}*" for name in asked.k] if asked.k else None
    tests = unittest.TestSuite(TestsOfTheme(name, patterns) for name in asked.themes or THEMES)
    if not tests.countTestCases():
        words.error("no test has such a name")
    began = processor_seconds()
    runner = unittest.TextTestRunner(sys.stdout, verbosity=2 if asked.verbose else 0, failfast=asked.failfast)
    result = runner.run(tests)
    print(summary("together", sum(CHECKS.values()), count_wrong(result), processor_seconds() - began))
    return 0 if result.wasSuccessful() else 1


if __name__ == "__main__":
    sys.exit(main())
