"""Sessions over a journal, and over a ledger in a file, that are killed at random moments and go on; and what has to
come of them."""

import contextlib
import itertools
import os
import select
import tempfile
import threading
import time

from oracle import loads, rules
from support.kept import Kept, rows_of_ledger
from support.repository import LONDON, RUN_SAMPLE, SAMPLE
from support.running import (
    MONDAY, TIME_TO_REPLY, WEEK_DAYS, End, answers, but_for_closes, bytes_of, in_lines, run, started,
)

ACCOUNTS = 40

# The most lines that a session is sent before it is killed, and the most seconds that pass once something is heard of
# it; and the most that pass where nothing is heard first, which is about as long as a start takes.
MOST_SENT, MOST_LATER, MOST_OF_A_START = 60, 0.001, 0.02


def commands_of(draw, closes):
    """Taps and corrections of a week as they arrive, some of them twice, and among them questions and so many closes of
    ascending days."""
    commands = loads.corrected_week(draw, ACCOUNTS)
    count = len(commands)
    more = [
        *draw.sample(commands, count // 12),
        *(rules.Due(draw.randint(1, ACCOUNTS), draw.choice(WEEK_DAYS)) for _ in range(count // 12)),
    ]
    placed = [*enumerate(commands), *((draw.uniform(0, count), it) for it in more)]
    for at in sorted(draw.uniform(0, count) for _ in range(closes)):
        placed.append((at, rules.Close(MONDAY + int(at * loads.DAYS / count))))
    return [it for _, it in sorted(placed, key=lambda it: it[0])]


def killed_session(words, lines, draw):
    """What a session comes to that is sent these lines, and is killed at a random moment."""
    with started(words) as ran:

        def give():
            with contextlib.suppress(BrokenPipeError):
                ran.stdin.write(lines)

        giving = threading.Thread(target=give)
        giving.start()
        output, status = b"", "killed"
        if draw.random() < 0.75:
            # A reply is a line at least.
            awaited = draw.randint(1, lines.count(b"\n"))
            while output.count(b"\n") < awaited:
                more = os.read(ran.stdout.fileno(), 1 << 16) if select.select(
                    [ran.stdout], [], [], TIME_TO_REPLY
                )[0] else b""
                if not more:
                    status = "silent"
                    break
                output += more
            time.sleep(draw.uniform(0, MOST_LATER))
        else:
            time.sleep(draw.uniform(0, MOST_OF_A_START))
        ran.kill()
        output += ran.stdout.read()
        giving.join()
        return but_for_closes(End(status, output, ran.stderr.read()))


EACH_DAY = list(itertools.product(range(1, ACCOUNTS + 1), WEEK_DAYS))
# Questions what each account owes and shows.
QUESTIONS = [line for account, day in EACH_DAY for line in (f"DUE {account} {day}", f"SHOW {account} {day}")]


def answered(kept):
    """The replies to these questions, by what is kept."""
    return b"".join(
        text for account, day in EACH_DAY for text in (kept.reply(rules.Due(account, day)), kept.shown(account, day))
    )


class Story:
    """What is told over the same files to programs that are killed one after another, and what they have accepted and
    posted."""

    def __init__(self, name, draw, closes, has_ledger):
        # What was not answered yet.
        self.name, self.draw, self.left = name, draw, commands_of(draw, closes)
        self.kept, self.kills, self.sent = Kept(has_ledger), 0, 0

    @property
    def accepted(self):
        return self.kept.lines.count(b"\n")

    def told(self, most):
        """Checks, by their names, of at most so many programs that are killed and of what is there in the end. The
        first that fails is the last."""
        for name, came, wanted in self.checks(most):
            yield f"{self.name}, {name}", came, wanted
            if came != wanted:
                return


class SessionStory(Story):
    """Sessions. Of what was not answered no more than the first line may have been taken."""

    def __init__(self, folder, draw, has_ledger, more=()):
        files = tempfile.mkdtemp(dir=folder)
        self.journal, self.database = os.path.join(
            files, "journal"
        ), os.path.join(files, "ledger") if has_ledger else None
        self.words = [
            *RUN_SAMPLE, "--journal", self.journal, *more, *(["--ledger", self.database] if has_ledger else [])
        ]
        self.is_shuffled = draw.random() < 0.5
        super().__init__(" ".join(["--journal", *more, *(["--ledger"] if has_ledger else [])]), draw, 10, has_ledger)

    def killed(self):
        """What a session came to that was killed, and what it had to come to."""
        if self.is_shuffled:
            first, *others = self.left
            self.draw.shuffle(others)
            self.left = [first, *others]
        given = self.left[:self.draw.randint(1, MOST_SENT)]
        came = killed_session(self.words, "".join(map(rules.line, given)).encode(), self.draw)
        output = came.output
        self.kills, self.sent = self.kills + 1, self.sent + len(given)
        wanted, answered = b"", 0
        while len(wanted) < len(output) and answered < len(given):
            wanted += self.kept.reply(given[answered])
            answered += 1
        # A reply that was cut is that of a line that was taken, and is sent again.
        answered -= len(wanted) > len(output)
        self.left = self.left[answered:]
        has = (bytes_of(self.journal) or b"")
        return came._replace(left=has), End("killed", wanted[:len(output)], left=self.taken(has, answered < len(given)))

    def taken(self, has, may_be_taken):
        """What the journal has to have: what was accepted, and of the first line that was not answered all, or a
        front."""
        before = self.kept.lines
        if has == before or not may_be_taken or isinstance(self.left[0], (rules.Due, rules.Close)):
            return before
        next_line = rules.line(self.left[0]).encode()
        if has == before + next_line:
            self.kept.reply(self.left[0])
            return self.kept.lines
        return has if has.startswith(before) and next_line.startswith(has[len(before):]) else before

    def ended(self, lines, replies):
        came = but_for_closes(run(self.words, lines))
        return came._replace(left=(bytes_of(self.journal) or b"")), End(0, replies, left=self.kept.lines)

    def checks(self, most):
        while self.kills < most and self.left:
            yield f"kill {self.kills + 1}", *self.killed()
        self.sent += len(self.left)
        lines, replies = "".join(map(rules.line, self.left)).encode(), b"".join(map(self.kept.reply, self.left))
        yield "the lines that were left", *self.ended(lines, replies)
        yield "what is due and shown in the end", *self.ended(in_lines(QUESTIONS), answered(self.kept))
        yield "a replay", run(["replay", SAMPLE, LONDON, self.journal]), self.kept.counted()
        if self.database:
            yield "the rows of the ledger", answers(rows_of_ledger(self.database)), answers(self.kept.rows())
