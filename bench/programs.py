"""The programs that are measured: where they stand, how they are brought up to date, and how one runs."""

import glob
import os
import shutil
import subprocess
import sys
import tempfile

HERE = os.path.dirname(os.path.realpath(__file__))
OUT = f"{HERE}/out"
# For `oracle`, the loads that are measured and what they have to be answered, and for `support`.
sys.path.append(f"{os.path.dirname(HERE)}/tests")
from support.repository import LONDON, PROGRAM, ROOT, build


def asked(words):
    """What a script is asked for by these words, and with `--program` the program that it measures: the built one, brought up
    to date, where no other is given."""
    words.add_argument("--program", help="a program to measure in the place of the built one")
    given = words.parse_args()
    os.makedirs(OUT, exist_ok=True)
    if not given.program:
        build()
        given.program = PROGRAM
    return given


def on_one_core():
    os.sched_setaffinity(0, {min(os.sched_getaffinity(0))})


def peak_bytes(process):
    """The most memory that a running process has held."""
    with open(f"/proc/{process.pid}/status", encoding="ascii", errors="replace") as status:
        return 1024 * next(int(it.split()[1]) for it in status if it.startswith("VmHWM:"))


def built(name, stands_on, words):
    """Proves and builds a program of bench/built in a copy of the tree, where that is missing or older than the sources,
    and gives its path. Where it is built it runs once with these words. In the repository it would be proved and
    built twice in each run of the checks, which takes minutes. So its files end in `.txt` here, and the copy stands
    outside, since the toolchain takes one list of crates alone."""
    print(f"{name}: bringing the program up to date, many minutes where it has to be proved", file=sys.stderr)
    copy = f"{tempfile.gettempdir()}/farebox-{name}"
    crate = f"{copy}/crates/{name}"
    git = ["git", "ls-files", "crates"]
    tracked = subprocess.run(git, cwd=ROOT, capture_output=True, text=True, check=True).stdout.split()
    files = {file: file for file in tracked}
    for path in glob.glob(f"{HERE}/built/{name}/**/*.txt", recursive=True):
        inside = os.path.relpath(path, f"{HERE}/built/{name}")
        files[os.path.relpath(path, ROOT)] = f"crates/{name}/{inside[:-len('.txt')]}"
    # What earlier runs proved is kept, and nothing else.
    for folder in glob.glob(f"{copy}/crates/*/*"):
        if os.path.basename(folder) != "out":
            shutil.rmtree(folder) if os.path.isdir(folder) else os.remove(folder)
    for source, to in files.items():
        os.makedirs(os.path.dirname(f"{copy}/{to}"), exist_ok=True)
        shutil.copyfile(f"{ROOT}/{source}", f"{copy}/{to}")
    with open(f"{ROOT}/crates.txt", encoding="utf-8") as listed, open(f"{copy}/crates.txt", "w", encoding="utf-8") as it:
        it.write(f"{listed.read()}{name}: {stands_on}\n")
    how = {"stdin": subprocess.DEVNULL, "stdout": subprocess.PIPE, "stderr": subprocess.STDOUT, "text": True}
    ran = subprocess.run(["rt", "run", "--", *words], cwd=crate, **how)
    if ran.returncode:
        sys.exit(f"{ran.stdout[-2_000:]}{name}: the program was not built")
    return f"{crate}/out/{name}"
