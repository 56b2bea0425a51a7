"""Journals in files, and how a run with one of them is refused."""

import os

from support.repository import LONDON
from support.running import FARES, RUN, fault, run


def text_beside(words, ledger=False):
    """What a session with these words keeps beside its journal, once one of them had a ledger, or without."""
    with open(words[1], "rb") as fares:
        return f"# zone {words[2]}\n# {'with' if ledger else 'without'} a ledger\n".encode() + fares.read()


def keep_beside(journal, words, ledger=False):
    """Puts that beside a journal."""
    with open(f"{journal}.fares", "wb") as it:
        it.write(text_beside(words, ledger))


CANNOT_USE, JOURNAL_FAULT = fault("cannot use journal"), fault("journal fault")


def with_journal(path, words=RUN, *more):
    return [*words, "--journal", path, *more]


def replayed(*paths, fares=FARES):
    """What comes of a replay."""
    return run(["replay", fares, LONDON, *paths])


def bad_line(number, why, path="journal"):
    """What a line comes to that is not accepted: of several journals it is told by the path of its own."""
    return fault(f"{path} line {number}: {why}")


def new_folder(folder, name="journals"):
    """An empty folder."""
    path = os.path.join(folder, name)
    os.mkdir(path)
    return path


def with_both(journals, ledger):
    return ["--journal", journals, "--ledger", ledger]
