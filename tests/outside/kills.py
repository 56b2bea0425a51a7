#!/usr/bin/env python3
"""Kills sessions and services over journals, and over ledgers in files, at random moments, and compares all that came
of them with one session.

    tests/outside/kills.py N SEED         # 1000 1 is a thousand kills, in a minute or two; outside the checks

Stories of taps, corrections, repeats, questions and closes of 40 accounts are told, by turns to `farebox run` with
`--journal`, in half of them with `--sync`, and to `farebox serve` with `--journal`; in half of either with `--ledger`.
A session is sent up to 60 lines and is killed by SIGKILL at a random moment: while it starts and takes what the journal
has, while it answers, or while it waits. The next one is sent again all that was not answered, in order, or in half of
the stories in another order, and so on until all lines are answered or N were killed. Each lane of a service is sent up
to 12 lines of its own accounts, and the service is killed likewise, also while it closes its day; the next one has
other numbers of lanes and shards. What has to be so, or this script ends with status 1:

- Each reply that was heard is the one that tests/oracle/rules.py gives, so that a line which was taken without its
  reply is answered AGAIN.
- The journal of a session has the lines that were newly accepted, in order, and after them no more than the first line
  that was not answered.
- Those of a service have the lines that were newly accepted, each once and in the journal of its shard, also of what
  was not answered.
- In the end what each account owes and shows is that of one session, and `replay` counts what was accepted.
- The ledger's rows are those of one session, and SQLite finds it whole; a close that was killed was posted whole or not
  at all.

What is drawn is drawn by SEED; at which line a session dies is the machine's matter.
"""

import argparse
import os
import random
import sys
import tempfile
import time

# Nothing is kept beside the sources.
sys.dont_write_bytecode = True
# For `support` and `oracle`.
sys.path.append(os.path.dirname(os.path.dirname(os.path.realpath(__file__))))
from support.killed import SessionStory
from support.killed_services import ServedStory
from support.repository import build
from support.theme import in_words

SYNC = ("--sync",)
# The stories by turns: those of sessions and of services, each with a ledger in a file or without.
KINDS = (
    lambda *drawn: SessionStory(*drawn, False), lambda *drawn: ServedStory(*drawn, True),
    lambda *drawn: SessionStory(*drawn, True, SYNC),
    lambda *drawn: ServedStory(*drawn, False), lambda *drawn: SessionStory(*drawn, True),
    lambda *drawn: ServedStory(*drawn, True),
    lambda *drawn: SessionStory(*drawn, False, SYNC), lambda *drawn: ServedStory(*drawn, False),
)


def main():
    words = argparse.ArgumentParser(
        description="kills sessions and services at random moments, and compares what came of them with one session"
    )
    words.add_argument("kills", metavar="N", type=int)
    words.add_argument("seed", metavar="SEED", type=int)
    asked = words.parse_args()
    build()
    began, kills, stories, sent, accepted = time.monotonic(), 0, 0, 0, 0
    with tempfile.TemporaryDirectory() as folder:
        while kills < asked.kills:
            story = KINDS[stories % len(KINDS)](folder, random.Random(f"{asked.seed} {stories}"))
            stories += 1
            for name, came, wanted in story.told(asked.kills - kills):
                if came != wanted:
                    print(f"seed {asked.seed}, story {stories}, {name}")
                    print(f"    expected  {in_words(wanted, came)}\n    came      {in_words(came, wanted)}")
                    return 1
            kills, sent, accepted = kills + story.kills, sent + story.sent, accepted + story.accepted
    print(
        f"{kills:,} kills in {stories:,} stories, by turns of a session and of a service: {sent:,} lines sent, "
        f"{accepted:,} newly accepted,"
        f" all right, {time.monotonic() - began:.0f} s"
    )
    return 0


if __name__ == "__main__":
    sys.exit(main())
