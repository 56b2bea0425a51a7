"""Where things stand in the repository, by which words the program is run, and how it is brought up to date."""

import functools
import os
import subprocess
import sys

# Also where a service manager runs the tests, lines of the program's log begin with no level.
os.environ.pop("JOURNAL_STREAM", None)

# The root of the repository.
ROOT = os.path.dirname(os.path.dirname(os.path.dirname(os.path.realpath(__file__))))
PROGRAM = f"{ROOT}/crates/farebox/out/farebox"
EXAMPLES = f"{ROOT}/examples"
BUS = f"{EXAMPLES}/bus.toml"
SAMPLE = f"{EXAMPLES}/sample.toml"
TWO = f"{EXAMPLES}/two.toml"

LONDON = "GMT0BST,M3.5.0/1,M10.5.0"
RUN_BUS = ["run", BUS, LONDON]
RUN_SAMPLE = ["run", SAMPLE, LONDON]
RUN_TWO = ["run", TWO, LONDON]
CHECK = ["check", SAMPLE]
# The statement of account 7, and of the week of Monday, 2024-01-08.
STATE = ["statement", SAMPLE, LONDON, "7", "19730"]
# What `check` prints of examples/sample.toml.
COUNTED = b"OK places 6 bands 3 interchanges 1 holidays 1\n"


@functools.lru_cache(None)
def build():
    """Brings the program up to date, once in a run of a script."""
    if subprocess.run([f"{ROOT}/farebox", "--help"], stdin=subprocess.DEVNULL, stdout=subprocess.DEVNULL).returncode:
        sys.exit(f"{os.path.basename(sys.argv[0])}: farebox was not built")
