"""Services over a folder of journals, and over a ledger in a file, that are killed at random moments and go on with
other numbers of lanes and shards; and what has to come of them."""

import contextlib
import os
import select
import subprocess
import tempfile
import time

from oracle import rules
from support.kept import rows_of_ledger
from support.killed import MOST_LATER, QUESTIONS, Story, answered
from support.repository import LONDON, SAMPLE
from support.running import TIME_TO_REPLY, WEEK_DAYS, End, answers, bytes_of, heard, run, started
from support.serving import closed, connected, ended, free_ports, listening, side_by_side, talk_ahead, words_of

MOST_LANES, MOST_SHARDS = 5, 16
# The most lines that each lane is sent before a service is killed; and the most seconds that pass where nothing is
# heard first, and where all is heard, and a day is being closed.
MOST_SENT, MOST_OF_A_START, MOST_OF_A_CLOSE = 12, 0.03, 0.03


def whole(text):
    return text[:text.rfind(b"\n") + 1]


def hear(taken, awaited):
    """Hears peers until so many lines have come, or all of them have ended."""
    there = set(taken)
    while there and sum(text.count(b"\n") for text in taken.values()) < awaited:
        ready = select.select(there, [], [], TIME_TO_REPLY)[0]
        for peer in ready:
            more = b""
            # A service that is killed breaks its connections off.
            with contextlib.suppress(OSError):
                more = peer.recv(1 << 16)
            taken[peer] += more
            if not more:
                there.discard(peer)
        if not ready:
            return


def killed_service(words, port, texts, all_are_heard, draw):
    """What the lanes of a service reply that is sent these texts and is killed at a random moment; and what it wrote
    and said."""
    with started(words, stdin=subprocess.DEVNULL) as ran, contextlib.ExitStack() as opened:
        taken, errors = {}, b""
        if all_are_heard or draw.random() < 0.85:
            errors = heard(ran.stderr, len(listening(port, len(texts))))
            for lane, text in enumerate(texts):
                peer = opened.enter_context(connected(port + lane))
                peer.sendall(text)
                taken[peer] = b""
            count = sum(text.count(b"\n") for text in texts)
            hear(taken, count if all_are_heard else draw.randint(0, count))
            time.sleep(draw.uniform(0, MOST_OF_A_CLOSE if all_are_heard else MOST_LATER))
        else:
            time.sleep(draw.uniform(0, MOST_OF_A_START))
        ran.kill()
        hear(taken, 1 << 30)
        return list(taken.values()) or [b""] * len(texts), End("killed", ran.stdout.read(), errors + ran.stderr.read())


class ServedStory(Story):
    """Services. On each lane of one other accounts are spoken of; the day is closed after all of them."""

    def __init__(self, folder, draw, has_ledger):
        self.files = tempfile.mkdtemp(dir=folder)
        self.folder = os.path.join(self.files, "journals")
        os.mkdir(self.folder)
        self.database = os.path.join(self.files, "ledger") if has_ledger else None
        self.more = ["--journal", self.folder, *(["--ledger", self.database] if has_ledger else [])]
        super().__init__(" ".join(["serve --journal", *(["--ledger"] if has_ledger else [])]), draw, 0, has_ledger)
        self.count = len(self.left)

    def day(self):
        """The day that a service closes: the later, the fewer lines are left."""
        return WEEK_DAYS[min((self.count - len(self.left)) * len(WEEK_DAYS) // self.count, len(WEEK_DAYS) - 1)]

    def dealt(self, lanes, most):
        """The first lines that are left, dealt to lanes by their accounts, at most so many to each; and the others."""
        dealt, others = [[] for _ in range(lanes)], []
        for it in self.left:
            lane = dealt[it.account % lanes]
            (lane if len(lane) < most else others).append(it)
        return dealt, others

    def texts(self):
        """The bytes of the journals, by their names."""
        return {
            name: (bytes_of(os.path.join(self.folder, name)) or b"")
            for name in sorted(os.listdir(self.folder))
            if name.endswith(".lines")
        }

    def lines(self):
        """All whole lines of the journals, in one order."""
        return b"".join(sorted(b"".join(map(whole, self.texts().values())).splitlines(True)))

    def wanted_lines(self):
        return b"".join(sorted(self.kept.lines.splitlines(True)))

    def checks(self, most):
        while self.kills < most and self.left:
            for name, came, wanted in self.killed():
                yield f"kill {self.kills}, {name}", came, wanted
        yield from self.ended("the lines that were left", self.left)
        yield from self.asked()
        yield "a replay", run([
            "replay", SAMPLE, LONDON, *(os.path.join(self.folder, name) for name in self.texts())
        ]), self.kept.counted()
        if self.database:
            yield "the rows of the ledger", answers(rows_of_ledger(self.database)), answers(self.kept.rows())

    def words(self, port, lanes, shards):
        return [*words_of(port, lanes, shards, 1, self.day(), SAMPLE), *self.more]

    def killed(self):
        """Checks of a service that is killed."""
        lanes = self.draw.randint(1, MOST_LANES)
        shards = self.draw.randint(1, MOST_SHARDS)
        is_heard = self.draw.random() < 0.25
        day, before = self.day(), self.texts()
        dealt, others = self.dealt(lanes, self.draw.randint(1, MOST_SENT))
        texts = ["".join(map(rules.line, lane)).encode() + b"QUIT\n" * is_heard for lane in dealt]
        self.kills, self.sent, port = self.kills + 1, self.sent + sum(map(len, dealt)), free_ports(lanes)
        replies, came = killed_service(self.words(port, lanes, shards), port, texts, is_heard, self.draw)
        has, self.left = set(self.lines().splitlines(True)), []
        for number, (lane, output) in enumerate(zip(dealt, replies), 1):
            wanted, unanswered = self.replied(lane, output)
            yield f"lane {number} of {lanes}", answers(output), answers(wanted)
            # What was kept and not answered was accepted.
            for it in unanswered:
                if rules.line(it).encode() in has:
                    self.kept.reply(it)
            self.left += unanswered
        self.left += others
        if self.draw.random() < 0.5:
            self.draw.shuffle(self.left)
        yield "the lines of the journals", answers(self.lines()), answers(self.wanted_lines())
        yield "where they stand", answers(repr(misplaced(before, self.texts(), shards)).encode()), answers(b"[]")
        yield "what was said", came._replace(output=b""), End("killed", b"", listening(port, lanes)[:len(came.errors)])
        yield from self.closed(rules.Close(day) if is_heard else None, came.output)

    def replied(self, lane, output):
        """What a lane has to have replied, as much of it as was heard; and the lines of which not all was heard, which
        are sent again."""
        wanted, answered = b"", 0
        for it in lane:
            if len(wanted) < len(output):
                wanted += self.kept.reply(it)
                answered += len(wanted) <= len(output)
        return (wanted + b"BYE\n")[:len(output)], lane[answered:]

    def closed(self, close, output):
        """Checks of a close, which may have been posted, and was if anything is written of it."""
        before = self.kept.postings, self.kept.archives
        self.kept.postings = {week: list(those) for week, those in self.kept.postings.items()}
        self.kept.archives = dict(self.kept.archives)
        rows_before = self.kept.rows()
        reply = self.kept.reply(close) if close else b""
        yield "what was written of the close", answers(output), answers(reply[:len(output)])
        if self.database and close:
            rows = self.copied_rows()
            if not output and rows == rows_before:
                self.kept.postings, self.kept.archives = before
            yield "the rows of the ledger", answers(rows), answers(self.kept.rows())

    def copied_rows(self):
        """The rows of a copy of the ledger and of its log, which SQLite takes together."""
        copied = os.path.join(self.files, "copied")
        for end in ("", "-wal"):
            with open(copied + end, "wb") as it:
                it.write((bytes_of(self.database + end) or b""))
        return rows_of_ledger(copied)

    def ended(self, name, commands):
        """Checks of a service that answers all these lines, and ends."""
        self.left, lanes = commands, self.draw.randint(1, MOST_LANES)
        dealt, _ = self.dealt(lanes, len(commands))
        self.left, self.sent = [], self.sent + len(commands)
        port = free_ports(lanes)
        with started(self.words(port, lanes, self.draw.randint(1, MOST_SHARDS)), stdin=subprocess.DEVNULL) as ran:
            said = heard(ran.stderr, len(listening(port, lanes)))
            texts = [[rules.line(it).encode() for it in lane] for lane in dealt]
            replies = side_by_side([lambda it=it: talk_ahead(*it) for it in enumerate(texts, port)])
            came = ended(ran, said)
        for number, (lane, output) in enumerate(zip(dealt, replies), 1):
            yield f"{name}, lane {number} of {lanes}", answers(output), answers(
                b"".join(map(self.kept.reply, lane)) + b"BYE\n"
            )
        yield f"{name}, the close", came, self.closing(port, lanes)
        yield f"{name}, the lines of the journals", answers(self.lines()), answers(self.wanted_lines())

    def closing(self, port, lanes):
        """How a service ends that closes its day, or has no ledger to close it into."""
        return closed(port, lanes, self.kept.reply(rules.Close(self.day())))._replace(status=0 if self.database else 1)

    def asked(self):
        """Checks of a service that is asked what each account owes and shows."""
        port = free_ports(1)
        with started(self.words(port, 1, self.draw.randint(1, MOST_SHARDS)), stdin=subprocess.DEVNULL) as ran:
            said = heard(ran.stderr, len(listening(port, 1)))
            output = talk_ahead(port, [it.encode() + b"\n" for it in QUESTIONS])
            came = ended(ran, said)
        yield "what is due and shown in the end", answers(output), answers(answered(self.kept) + b"BYE\n")
        yield "the same close again", came, self.closing(port, 1)


def misplaced(before, texts, shards):
    """The names of journals that have lost lines, or have new ones of an account of another shard."""
    wrong = []
    for name, text in texts.items():
        has, number = whole(before.get(name, b"")), int(name.split(".")[0])
        new = whole(text)[len(has):].splitlines()
        if not text.startswith(has) or any(int(line.split()[3]) % shards != number for line in new):
            wrong.append(name)
    return wrong
