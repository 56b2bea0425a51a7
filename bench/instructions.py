#!/usr/bin/env python3
"""instructions: how many instructions a line takes, by the crate that they are of. See README.md."""

import argparse
import collections
import os
import re
import shutil
import subprocess
import sys

sys.dont_write_bytecode = True
from programs import LONDON, OUT, asked
from run import fare_file, write_lines
from oracle import rules
from oracle.loads import DAY, LOADS, WEEK

COUNTS = f"{OUT}/callgrind"
# What functions of the C library do, by their names.
OF_LIBRARY = (("copies and fills", r"_*mem(cpy|move|set)"), ("allocator", r"_*(int_)?(malloc|free|calloc|realloc|unlink_chunk|tcache)"))


def part_of(function):
    """The crate of a function, or what it does if it is of the C library."""
    crate = re.match(r"<?&?(?:mut )?([a-z]\w*)(?:::|\+\+)", function)
    if crate:
        return crate[1]
    return next((part for part, names in OF_LIBRARY if re.match(names, function)), "system")


def counted(path):
    """The instructions of each part, by what callgrind has written, without those of what it calls."""
    names, parts, function, is_of_call, total = {}, collections.Counter(), None, False, None
    with open(path, encoding="utf-8", errors="replace") as lines:
        for line in lines:
            if line.startswith(("fn=", "cfn=")):
                # A name stands where its number comes first.
                key, number, name = re.match(r"(c?fn)=(\(\d+\)) ?(.*)", line).groups()
                name = names.setdefault(number, name)
                function = name if key == "fn" else function
            elif line.startswith("calls="):
                is_of_call = True
            elif line.startswith(("totals:", "summary:")):
                total = int(line.split()[1])
            elif re.match(r"[-+*\d]", line):
                if not is_of_call:
                    parts[part_of(function)] += int(line.split()[1])
                is_of_call = False
    if sum(parts.values()) != total:
        sys.exit(f"instructions: {sum(parts.values())} were counted of {total}")
    return parts


def run(program, fares, lines):
    """The instructions of a session of these lines, by part."""
    given = f"{OUT}/counted.txt"
    write_lines(given, lines)
    words = ["valgrind", "--tool=callgrind", f"--callgrind-out-file={COUNTS}", program, "run", fares, LONDON]
    with open(given, "rb") as it:
        ran = subprocess.run(words, stdin=it, stdout=subprocess.DEVNULL, stderr=subprocess.PIPE)
    if ran.returncode:
        sys.exit(f"instructions: {' '.join(words)} ended with status {ran.returncode}: {ran.stderr[-500:].decode()}")
    return counted(COUNTS)


def main():
    words = argparse.ArgumentParser(description=__doc__, formatter_class=argparse.RawDescriptionHelpFormatter)
    words.add_argument("--load", choices=LOADS, action="append", help=f"{DAY.name} and {WEEK.name} if none is given")
    words.add_argument("--lines", type=int, default=40_000, help="the first lines of a load")
    words.add_argument("--seed", type=int, default=1)
    words.add_argument("--least", type=int, default=20, help="parts of fewer instructions a line are added up")
    words = asked(words)
    if not shutil.which("valgrind"):
        sys.exit("instructions: valgrind is needed, and is not in PATH")
    for load in [LOADS[name] for name in words.load or (DAY.name, WEEK.name)]:
        fares = fare_file(load.fares)
        lines = [rules.line(command) for command in load.commands(words.seed, 200_000)[: words.lines]]
        parts = run(words.program, fares, lines)
        parts.subtract(run(words.program, fares, []))
        whole = sum(parts.values()) // len(lines)
        print(f"{load.name}: {whole:,} instructions a line, of the first {len(lines):,}, without the start")
        shown = [(name, count // len(lines)) for name, count in parts.most_common() if count >= words.least * len(lines)]
        for name, count in [*shown, ("all others", whole - sum(count for _, count in shown))]:
            print(f"  {name:<24} {count:7,}")


if __name__ == "__main__":
    main()
