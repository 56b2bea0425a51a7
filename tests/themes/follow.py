"""Replicas of a partition of a replicated log, and the log's streams: at a server that can be made to fail, and at NATS
itself. Where there is no nats-server from 2.10 on, by NATS_SERVER or in PATH, a line says that it is not tried."""

import contextlib
import functools
import hashlib
import json
import os
import random
import re
import shutil
import subprocess
import time
import unittest

from oracle import loads, rules
from support.drawn import with_closes
from support.kept import Kept, rows_of_ledger
from support.ledgers import with_ledger
from support.nats_client import NatsClient
from support.nats_server import Message, NatsServer, breaks_off, closes, falls_silent
from support.repository import BUS, LONDON, RUN_SAMPLE, SAMPLE
from support.running import (
    MONDAY, TIME_TO_END, TIME_TO_REPLY, WEEK_DAYS, End, answers, but_for_closes, bytes_of, end_of, in_lines, run,
    started, written,
)
from support.serving import HOST, boarding, free_ports, listens, side_by_side
from support.theme import Theme

# The partition that is followed, of so many, and its stream.
PARTITION, OF, STREAM = 1, 3, "FARES_1"
DIGESTS = {
    "name": "FARES_DIGESTS", "subjects": ["digests.>"], "num_replicas": 1, "max_msgs_per_subject": 1,
    "discard_new_per_subject": True,
}
# The place at which replicas compare what they replied.
COMPARED = 10_000
# Lines that are no command, and one that is too long.
NO_COMMANDS = (b"\n", b"TAP 1 1 7 1704697200 50\n", b" DUE 7 19730\n", b"DUE 7 19730 \n", b"CLOSE 19730\r\n", b"\0\n")
BAD_LINES = [*((it, b"NO 50 BadLine\n") for it in NO_COMMANDS), (b"7" * 129 + b"\n", b"NO 51 LongLine\n")]


def digest(content):
    return hashlib.sha256(content).hexdigest()


def described(partition=PARTITION, of=OF, fares=SAMPLE, zone=LONDON):
    """What the stream of a partition says of itself."""
    return f"farebox partition {partition} of {of}, fares {digest(bytes_of(fares))}, zone {digest(zone.encode())}"


def words_of(what, port, *more, fares=SAMPLE):
    return [*what, fares, LONDON, "--log", f"nats://{HOST}:{port}", "--of", str(OF), *more]


def follow_words(port, ledger):
    return words_of(["follow"], port, "--partition", str(PARTITION), "--ledger", ledger)


def lines_of_all_kinds(kept):
    """Some 300 lines and their replies by the rules: taps and corrections of accounts of the partition, closes,
    questions, repeats, refusals, and lines that are no command."""
    draw, pairs = random.Random(5), []
    commands = [it._replace(account=OF * it.account + PARTITION) for it in loads.corrected_week(draw, 8)]
    accounts = sorted({it.account for it in commands})
    for seq in range(10):
        account, day = draw.choice(accounts), draw.choice(WEEK_DAYS)
        credit = rules.Fix(9, seq, account, "CREDIT", (day, 100 + seq))
        commands += [credit, rules.Fix(8, seq, account, "DROP", credit.number), rules.Due(account, day)]
    draw.shuffle(commands)
    for command in [*with_closes(draw, commands), rules.Close(MONDAY + 6)]:
        others = [command] * draw.choice((0, 0, 0, 1))
        if isinstance(command, rules.Tap) and draw.random() < 0.1:
            others.append(command._replace(utc=command.utc + 1))
        pairs += [(rules.line(it).encode(), kept.reply(it)) for it in (command, *others)]
        if draw.random() < 0.1:
            account, day = draw.choice(accounts), draw.choice(WEEK_DAYS)
            pairs.append((b"SHOW %d %d\n" % (account, day), kept.shown(account, day)))
        if draw.random() < 0.1:
            pairs.append(draw.choice(BAD_LINES))
    return pairs


def boardings(count):
    """That many boardings, each of an account of its own, and their replies."""
    accounts = range(1_000 + PARTITION, 1_000 + PARTITION + OF * count, OF)
    return [(boarding(account).encode(), b"OK 19730 175 175\n") for account in accounts]


def messages(lines):
    """Lines as they stand in the stream, one in three with headers."""
    headers = b"NATS/1.0\r\nNats-Msg-Id: %d\r\n\r\n"
    return [
        Message(f"fares.{PARTITION}", line[:-1], headers % place if place % 3 == 0 else b"")
        for place, line in enumerate(lines, 1)
    ]


@contextlib.contextmanager
def serving_lines(lines, description=described(), first=1, digests=(), **how):
    """A server that has these lines of the partition."""
    with NatsServer(**how) as server:
        config = {"subjects": [f"fares.{PARTITION}"], "description": description, "num_replicas": 1}
        server.add_stream({"name": STREAM, **config}, messages(lines), first)
        server.add_stream(DIGESTS, digests)
        yield server


def told(replies):
    """The replies under each place, each once, beside the place."""
    return b"".join(b"%d %s" % (place, reply) for place in sorted(replies) for reply in sorted(set(replies[place])))


def told_at_places(replies):
    """The same of one reply for each place from 1 on."""
    return told({place: [reply] for place, reply in enumerate(replies, 1)})


def digest_of(replies):
    """What replicas compare: the digest of the replies beside their places."""
    return digest(told_at_places(replies[:COMPARED])).encode()


def published(came):
    """What was published as replies, by its places."""
    front = f"answers.{PARTITION}."
    return {int(subject[len(front):]): replies for subject, replies in came.items() if subject.startswith(front)}


def has_replies(came, places, times=1):
    """Whether there are so many replies under each of these places."""
    return all(len(came.get(f"answers.{PARTITION}.{place}", ())) >= times for place in reversed(places))


def says(came, words):
    """What a run comes to, with these words in the place of its errors if those are a line that has them, after one for
    each connection that was lost."""
    told = re.fullmatch(b"(?:farebox: the log is not reached\n)*farebox: (.+)\n", came.errors or b"")
    return came._replace(errors=words) if told and words in told[1] else came


def skipped(place):
    """What a server gives that leaves a place out."""
    return lambda connection, at, line: [] if at == place else [(at, line)]


def repeated(place):
    return lambda connection, at, line: [(at, line)] * (2 if at == place else 1)


def changed_later(connection, at, line):
    """What a server gives that has other lines on each connection."""
    return [(at, b"%s %d" % (line, connection))]


class Replicas(Theme):
    """Replicas at a server that can be made to fail."""

    @classmethod
    def setUpClass(cls):
        super().setUpClass()
        kept = Kept()
        cls.lines, cls.replies = zip(*lines_of_all_kinds(kept))
        cls.wanted = End("runs on", told_at_places(cls.replies), left=kept.rows())

    def path(self, name):
        return os.path.join(self.folder, name)

    def followed(self, server, name, holds):
        """What a replica published until this held, and its ledger then; or what it came to before."""
        with started(follow_words(server.port, self.path(name)), stdin=subprocess.DEVNULL) as ran:
            server.wait_until(lambda: holds() or ran.poll() is not None, TIME_TO_END)
            if ran.poll() is not None:
                return end_of(ran)
        return End("runs on", told(published(server.published)), left=rows_of_ledger(self.path(name)))

    def followed_lines(self, name, **how):
        """The same of all the lines, at a server of its own; and how many connections there were."""
        with serving_lines(self.lines, **how) as server:
            came = self.followed(server, name, lambda: has_replies(server.published, range(1, len(self.lines) + 1)))
            return came, len(server.connections)

    def test_lines_of_all_kinds(self):
        """A replica publishes what a session answers, and its ledger has the same rows. The next one has to begin with
        another ledger."""
        came = run(with_ledger(self.path("session"), words=RUN_SAMPLE), b"".join(self.lines))
        self.check("a session", but_for_closes(came), answers(b"".join(self.replies)))
        self.check("its ledger", answers(rows_of_ledger(self.path("session"))), answers(self.wanted.left))
        self.check_all(zip(("a replica", "its connections"), self.followed_lines("replica"), (self.wanted, 1)))
        with serving_lines(self.lines) as server:
            came = run(follow_words(server.port, self.path("replica")))
            self.check("a ledger that is not new", says(came, b"ledger"), End(1, errors=b"ledger"))
            self.check("what was published then", published(server.published), {})

    def test_lost_connections(self):
        """The same where each byte comes by itself, where connections end after any number of bytes, and where they
        fall silent."""
        draw = random.Random(17)
        ends = [(draw.randint(1, 2_500), closes) for _ in range(24)]
        silent = [(4_000, falls_silent), (100, falls_silent)]
        servers = {"bytes": {"by_bytes": True}, "lost": {"ends": ends}, "silent": {"ends": silent}}
        ran = side_by_side([functools.partial(self.followed_lines, name, **how) for name, how in servers.items()])
        for name, (came, connections), wanted in zip(servers, ran, (1, 25, 3)):
            self.check(name, came, self.wanted)
            self.check(f"{name}, connections", connections, wanted)

    def test_connections_that_are_broken_off(self):
        """Where replies are lost with their connections, those that come are the same, and so is the ledger."""
        draw, last = random.Random(18), f"answers.{PARTITION}.{len(self.lines)}"
        with serving_lines(self.lines, ends=[(draw.randint(1, 2_500), breaks_off) for _ in range(8)]) as server:
            came = self.followed(server, "broken", lambda: last in server.published)
            places = published(server.published)
        replies = told({place: [self.replies[place - 1]] for place in places})
        self.check("broken off", came, self.wanted._replace(output=replies))
        self.check("connections", len(server.connections), 9)

    def test_unavailable_log(self):
        """The same where the log refuses lines for a while."""
        self.check("unavailable", self.followed_lines("ledger", unavailable=2)[0], self.wanted)

    def test_faults(self):
        """What stops a replica, and what it says then."""
        for name, words, how in (
            ("a place less", b"after place 7 the log gave place 9", {"gives": skipped(8)}),
            ("a place twice", b"after place 7 the log gave place 7", {"gives": repeated(7)}),
            ("other lines later", b"two lines for place", {"gives": changed_later, "ends": [(4_000, closes)]}),
            ("a log that was cut", b"the log was cut: it begins at place 5", {"first": 5}),
            ("an old server", b"older than 2.10", {"info": {"version": "2.9.10"}}),
            ("a server without headers", b"log", {"info": {"headers": False}}),
            ("a server without JetStream", b"log", {"info": {"jetstream": False}}),
            ("other fares", b"other fares", {"description": described(fares=BUS)}),
            ("another zone", b"other fares", {"description": described(zone="CET-1")}),
            ("another partition", b"other fares", {"description": described(partition=2)}),
            ("another number of partitions", b"other fares", {"description": described(of=4)}),
            ("no description", b"other fares", {"description": ""}),
        ):
            with serving_lines(self.lines, **how) as server:
                came = run(follow_words(server.port, self.path(name)))
            self.check(name, says(came, words), End(1, errors=words))

    def test_log_that_is_shorter_for_a_while(self):
        """A log that has, once a connection was lost, fewer lines than were read of it: the replica waits for them."""
        with serving_lines(self.lines, ends=[(4_000, closes)]) as server:
            config = server.streams[STREAM].config
            with started(follow_words(server.port, self.path("ledger")), stdin=subprocess.DEVNULL):
                server.wait_until(lambda: server.connections and server.connections[0].room == 0, TIME_TO_REPLY)
                server.add_stream(config, messages(self.lines[:3]))
                server.wait_until(lambda: len(server.connections) > 2, TIME_TO_REPLY)
                server.add_stream(config, messages(self.lines))
                server.wait_until(lambda: has_replies(server.published, range(1, len(self.lines) + 1)), TIME_TO_END)
            self.check("a shorter log", told(published(server.published)), self.wanted.output)

    def test_digests(self):
        """What replicas compare at place 10,000, at another connection, which may be lost: the first one publishes it,
        the next goes on if it has the same, and stops if not."""
        lines, replies = zip(*boardings(COMPARED + 1))
        own, most = Message(f"digests.{PARTITION}.{COMPARED}", digest_of(replies)), 1 << 30
        for name, digests, ends in (
            ("the first", (), ()), ("the same", (own,), ()),
            ("lost connections", (), [(most, closes), (10, closes), (most, closes), (200, closes)]),
        ):
            with serving_lines(lines, digests=digests, ends=ends) as server:
                came = self.followed(server, name, lambda: has_replies(server.published, range(1, COMPARED + 2)))
                self.check(name, came._replace(left=None), End("runs on", told_at_places(replies)))
                self.check(f"{name}, digests", server.streams["FARES_DIGESTS"].messages, [own])
        with serving_lines(lines, digests=[own._replace(payload=own.payload[::-1])]) as server:
            came = run(follow_words(server.port, self.path("another")))
            words = b"place 10000 are others than another replica's"
            self.check("another", says(came, words), End(1, errors=words))
            self.check("another, then", COMPARED + 1 in published(server.published), False)


def made_as(config):
    """What a stream was made with: its name, its subjects, how many replicas, and its description."""
    return config["name"], config["subjects"], config["num_replicas"], config.get("description")


# The streams of a log of three replicas.
MADE = [
    *((f"FARES_{it}", [f"fares.{it}"], 3, described(it)) for it in range(OF)), ("FARES_DIGESTS", ["digests.>"], 3, None)
]


class Logs(Theme):
    """The streams of a log."""

    def test_make(self):
        """Streams are made once, and refused where they were made otherwise."""
        with NatsServer() as server:
            for name in ("made", "made again"):
                came = run(words_of(["log", "make"], server.port, "--replicas", "3"))
                self.check(f"{name}, a line for each partition", came.output.count(b"\n") >= OF, True)
                self.check(f"{name}, how it ends", came._replace(output=b""), End(0))
                made = [made_as(it.config) for _, it in sorted(server.streams.items())]
                self.check(name, answers(in_lines(map(repr, made))), answers(in_lines(map(repr, MADE))))
            for name, fares, replicas in (("other fares", BUS, "3"), ("another number of replicas", SAMPLE, "1")):
                came = run(words_of(["log", "make"], server.port, "--replicas", replicas, fares=fares))
                self.check(name, says(came, b"")._replace(output=b""), End(1, errors=b""))

    def test_check(self):
        """Of each partition its last place, its replicas and the server that leads it are told."""
        with NatsServer() as server:
            run(words_of(["log", "make"], server.port, "--replicas", "3"))
            for it in range(OF):
                server.streams[f"FARES_{it}"].messages += [Message(f"fares.{it}", b"SHOW 7 19730")] * (20 + it)
            came = run(words_of(["log", "check"], server.port))
            others = run(words_of(["log", "check"], server.port, fares=BUS))
        lines = came.output.splitlines()
        self.check("how it ends", came._replace(output=len(lines)), End(0, OF))
        self.check("other fares", says(others, b"other fares")._replace(output=b""), End(1, errors=b"other fares"))
        for it, line in enumerate(lines):
            self.check(f"partition {it}", {b"%d" % (20 + it), b"3", b"n1"} - set(re.findall(rb"\w+", line)), set())


def nats_server():
    """The path of a nats-server from 2.10 on. None where there is none."""
    found = os.environ.get("NATS_SERVER") or shutil.which("nats-server", path=f"{os.environ.get('PATH', '')}:/usr/sbin")
    said = subprocess.run([found, "--version"], stdout=subprocess.PIPE, text=True).stdout if found else ""
    version = re.search(r"v(\d+)\.(\d+)\.", said)
    return found if version and tuple(map(int, version.groups())) >= (2, 10) else None


class AtNats(Theme):
    """Two replicas at once, at NATS itself."""

    def setUp(self):
        super().setUp()
        self.nats_server = nats_server()
        if not self.nats_server:
            print("follow: not tried at NATS, since there is no nats-server from 2.10 on here", flush=True)
            raise unittest.SkipTest("there is no nats-server from 2.10 on")

    @contextlib.contextmanager
    def nats(self, port):
        """A server that keeps its streams in the test's folder."""
        config = f'listen: "{HOST}:{port}"\njetstream {{ store_dir: "{self.folder}/nats" }}\n'
        path = written(self.folder, "nats.conf", config.encode())
        with subprocess.Popen([self.nats_server, "-c", path], stderr=subprocess.DEVNULL) as ran:
            try:
                until = time.monotonic() + TIME_TO_REPLY
                while not listens(port) and time.monotonic() < until:
                    time.sleep(0.05)
                yield
            finally:
                ran.kill()

    def test_two_replicas(self):
        """Two replicas publish the same replies, before and after the server is killed, and post the same rows."""
        kept, port, ledgers = Kept(), free_ports(1), [os.path.join(self.folder, it) for it in ("one", "other")]
        first = [*lines_of_all_kinds(kept), *boardings(COMPARED)]
        questions = [rules.Due(account, MONDAY) for account in sorted(kept.accounts)]
        later = [(rules.line(it).encode(), kept.reply(it)) for it in questions]
        replies = [reply for _, reply in (*first, *later)]
        with contextlib.ExitStack() as replicas:
            for lines, places in ((first, range(1, len(first) + 1)), (later, range(len(first) + 1, len(replies) + 1))):
                with self.nats(port), NatsClient(port) as client:
                    if lines is first:
                        self.check("make", run(words_of(["log", "make"], port, "--replicas", "1")).status, 0)
                        ran = [replicas.enter_context(started(follow_words(port, it))) for it in ledgers]
                    client.publish_all(f"fares.{PARTITION}", [line[:-1] for line, _ in lines])
                    while not has_replies(client.came, places, len(ledgers)):
                        client.take()
                    came = published(client.came)
                    wanted = {place: [replies[place - 1]] for place in (*places, *came)}
                    self.check(f"to place {places[-1]}", answers(told(came)), answers(told(wanted)))
                    asked = json.dumps({"last_by_subj": f"digests.{PARTITION}.{COMPARED}"}).encode()
                    self.check("the digest", client.ask("$JS.API.DIRECT.GET.FARES_DIGESTS", asked), digest_of(replies))
            self.check("whether they run on", [it.poll() for it in ran], [None, None])
        for it in ledgers:
            self.check(f"the rows of {it}", answers(rows_of_ledger(it)), answers(kept.rows()))
