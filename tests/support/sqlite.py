"""The SQLite that is here, which has no part in what writes ledgers: the system's own program, or Python's module."""

import contextlib
import functools
import re
import shutil
import sqlite3
import subprocess

# The first version that reads STRICT tables, as those of a ledger are.
FIRST_VERSION = (3, 37)


@functools.lru_cache(None)
def system_sqlite3():
    """The path of the system's own program `sqlite3`. None where there is none that reads a ledger."""
    path = shutil.which("sqlite3")
    if not path:
        return None
    said = subprocess.run([path, "--version"], stdout=subprocess.PIPE, stderr=subprocess.STDOUT, text=True).stdout
    version = re.match(r"(\d+)\.(\d+)", said)
    return path if version and tuple(map(int, version.groups())) >= FIRST_VERSION else None


def answer_of_program(path, file, sql):
    """What this program prints of a statement on a database: a line for each row."""
    ran = subprocess.run([path, "-batch", file, sql], stdout=subprocess.PIPE, stderr=subprocess.STDOUT, text=True)
    return ran.stdout.rstrip("\n") if ran.returncode == 0 else f"status {ran.returncode}: {ran.stdout}"


def answer_of_module(file, sql):
    """The same by Python's own module, in the form that the program prints."""
    with contextlib.closing(sqlite3.connect(file)) as database:
        try:
            rows = database.execute(sql).fetchall()
            database.commit()
        except sqlite3.Error as fault:
            return f"{type(fault).__name__}: {fault}"
    return "\n".join("|".join("" if cell is None else str(cell) for cell in row) for row in rows)


def asker():
    """Who answers statements here, and the call that asks a file. None where no SQLite reads a ledger."""
    path = system_sqlite3()
    if path:
        return "the system's sqlite3", functools.partial(answer_of_program, path)
    if sqlite3.sqlite_version_info >= FIRST_VERSION:
        return "Python's own sqlite3", answer_of_module
    return None
