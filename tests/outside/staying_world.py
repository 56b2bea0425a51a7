"""What services that stay are sent, one after another over the same files, what is known of it, and what has to have
come of it in the end."""

import collections
import contextlib
import os
import sqlite3

from oracle import loads, rules
from soak_clients import FORMS, Fault
from soak_lines import WEEK_DAYS, priced, question
from support import running
from support.journals import new_folder, replayed
from support.repository import LONDON, SAMPLE
from support.serving import side_by_side, talk, talk_ahead
from support.staying import staying

SUNDAY, FARES = WEEK_DAYS[-1], rules.SAMPLE


class Known:
    """A tap or a correction, and what is known of it."""

    __slots__ = ("command", "text", "day", "fits", "is_quoted", "sent", "was_ok", "is_taken")

    def __init__(self, command):
        self.command, self.text = command, rules.line(command).encode()
        is_tap = isinstance(command, rules.Tap)
        # The day of a Void or a Drop goes by what was accepted.
        self.day = rules.day_of_tap(command) if is_tap else (
            rules.day_of_fix(None, command) if command.form in ("FILL", "CREDIT") else None
        )
        self.fits = priced((b"OK", b"AGAIN"), self.day)
        # Whether its account is in a close of that day.
        self.is_quoted = is_tap or command.form == "FILL"
        # How often it was sent, whether it was answered OK, and whether a reply says that it is accepted.
        self.sent, self.was_ok, self.is_taken = 0, False, False


class World:
    """What is sent over all services, and what is known of it."""

    def __init__(self, draw, folder):
        self.draw, self.journals, self.ledger = draw, new_folder(folder), os.path.join(folder, "ledger.db")
        self.known, self.accounts = {}, 0
        # What is to be sent, and what was sent.
        self.taps, self.fixes, self.sent = collections.deque(), collections.deque(), []
        # Of each account the first day of a tap that is accepted, and how many lines are. A tuple for each.
        self.has = {}
        # The postings that were told, and the day that is closed.
        self.postings, self.day = {}, WEEK_DAYS[0]
        self.count = collections.Counter()

    def draw_more(self):
        """The lines of twenty more accounts."""
        taps = []
        for self.accounts in range(self.accounts + 1, self.accounts + 21):
            taps += loads.trip_taps(self.draw, self.accounts, self.draw.choice((10, 20, 20, 20, 20, 60)))
        for it in loads.corrected(self.draw, loads.arriving(self.draw, taps), len(taps) // 12):
            if it not in self.known:
                self.known[it] = Known(it)
            (self.taps if isinstance(it, rules.Tap) else self.fixes).append(self.known[it])

    def next_tap(self):
        if self.sent and self.draw.random() < 0.08:
            it = self.draw.choice(self.sent)
            if isinstance(it.command, rules.Tap):
                return it
        if not self.taps:
            self.draw_more()
        return self.taps.popleft()

    def lose(self, known):
        """Has a line sent again, first of all, unless it is known to be accepted."""
        if not known.is_taken:
            self.count["sent again"] += 1
            (self.taps if isinstance(known.command, rules.Tap) else self.fixes).appendleft(known)

    def take(self, known):
        if not known.is_taken:
            known.is_taken = True
            first, count = self.has.get(known.command.account, (1 << 30, 0))
            self.has[known.command.account] = min(first, known.day) if known.is_quoted else first, count + 1

    def judge(self, known, was_taken, reply):
        """Keeps the reply to a tap or a correction. Whether it is OK."""
        is_ok = reply.startswith(b"OK ")
        if not reply.startswith(known.fits) or not FORMS.fullmatch(reply):
            raise Fault(f"{known.text!r} was answered {reply[:200]!r}")
        if is_ok and (was_taken or known.was_ok):
            raise Fault(f"{known.text!r} was accepted, and then answered {reply!r}")
        if not is_ok and known.sent == 1:
            raise Fault(f"{known.text!r} was answered {reply!r}, and sent once")
        known.was_ok = known.was_ok or is_ok
        self.take(known)
        return is_ok

    def judge_close(self, day, had, reply):
        """Keeps the postings of a close, before which accounts had these lines."""
        *lines, last = reply.splitlines()
        if last != b"DONE %d %d" % (day, len(lines)):
            raise Fault(f"the close of {day} was answered by {len(lines):,} lines and {last!r}")
        versions = {}
        for line in lines:
            words = line.split()
            versions[int(words[1])] = int(words[4])
            if self.postings.setdefault(tuple(words[1:5]), words[5:]) != words[5:]:
                raise Fault(f"{line!r} was told before as {self.postings[tuple(words[1:5])]}")
        for account, (first, count) in had.items():
            if first <= day and versions.get(account, -1) < count:
                raise Fault(f"account {account} had {count} lines, and the close of {day} {versions.get(account)}")
        self.count["closes"] += 1


def by_the_rules(world):
    """What all accounts have that is accepted, by the rules."""
    accounts = {}
    for known in world.known.values():
        if known.is_taken:
            it = accounts.setdefault(known.command.account, rules.Account({}, {}))
            (it.taps if isinstance(known.command, rules.Tap) else it.fixes)[known.command.number] = known.command
    return accounts


def same(name, came, wanted):
    """That two texts are the same, or where they are not."""
    if came != wanted:
        ours, theirs = came.splitlines(), wanted.splitlines()
        at = next((at for at, both in enumerate(zip(ours, theirs)) if len(set(both)) > 1), min(len(ours), len(theirs)))
        raise Fault(f"{name}: line {at + 1} is {ours[at:at + 1]} of {len(ours):,}, and should be {theirs[at:at + 1]}")


def settle_all(world):
    """Has a last service take what has no reply, and close the last day. What it says of each account and day."""
    with staying(world.journals, world.ledger, 4, 7, fares=SAMPLE) as service:
        unknown = [it for it in world.known.values() if it.sent and not it.is_taken]
        replies = talk_ahead(service.control, [it.text for it in unknown]).splitlines(True)
        if len(replies) != len(unknown) + 1:
            raise Fault(f"the last {len(unknown):,} lines have {len(replies) - 1:,} replies")
        for it, reply in zip(unknown, replies):
            it.sent += 1
            world.judge(it, False, reply)
        had = dict(world.has)
        closed = talk(service.control, b"CLOSE %d\nQUIT\n" % SUNDAY)
        world.judge_close(SUNDAY, had, closed[:-len(b"BYE\n")])
        accounts = by_the_rules(world)
        asked = [(account, day, True) for account in sorted(accounts) for day in WEEK_DAYS]
        asked += [(account, WEEK_DAYS[account % 7], False) for account in sorted(accounts)]
        parts = [asked[at::4] for at in range(4)]
        came = side_by_side([
            lambda part=part: talk_ahead(service.port, [question(*it).text for it in part]) for part in parts
        ])
        if service.stopped() != service.wanted():
            raise Fault("the last service did not end as it has to")
    for part, text in zip(parts, came):
        wanted = "".join(
            rules.quoted(FARES, accounts, rules.Due(account, day)) if is_due
            else "".join(rules.shown(FARES, accounts, account, day)) for account, day, is_due in part
        )
        same("what is due and shown in the end", text, wanted.encode() + b"BYE\n")
    world.count["questions in the end"] = len(asked)
    return accounts


def check_ledger(world, accounts):
    """That each posting that was told is in the ledger, and that they add up to what is due."""
    with contextlib.closing(sqlite3.connect(world.ledger)) as it:
        whole = it.execute("PRAGMA integrity_check").fetchall()
        rows = it.execute("SELECT account, week, through, version, due, amount, id FROM postings2").fetchall()
        shares = it.execute("SELECT posting, operator, amount FROM shares2 ORDER BY posting, operator").fetchall()
    if whole != [("ok",)]:
        raise Fault(f"the ledger is not whole: {whole[:3]}")
    of_posting = collections.defaultdict(list)
    for posting, operator, pence in shares:
        of_posting[posting].append((operator, pence))
    posted, net = {}, collections.defaultdict(collections.Counter)
    for account, week, through, version, due, amount, posting in rows:
        words = [due, amount, *(f"{operator}={pence}" for operator, pence in of_posting[posting])]
        key = tuple(str(it).encode() for it in (account, week, through, version))
        if key in posted:
            raise Fault(f"the posting {key} stands twice in the ledger")
        posted[key] = [str(it).encode() for it in words]
        net[account].update({0: amount, **dict(of_posting[posting])})
    for key, words in world.postings.items():
        if posted.get(key) != words:
            raise Fault(f"the posting {key} was told as {words}, and is {posted.get(key)} in the ledger")
    for number, account in accounts.items():
        due, parts = rules.owed(FARES, account, SUNDAY) if rules.is_quoted(account, SUNDAY) else (0, {})
        wanted = {0: due, **parts}
        if any(net[number][it] != wanted.get(it, 0) for it in {*net[number], *wanted}):
            raise Fault(f"account {number} was charged {dict(net[number])}, and owes {wanted}")
    world.count["postings"] = len(rows)


def check_journals(world, accounts):
    """That the journals have what was accepted, each line once, and that `replay` and `audit` say so."""
    paths = [os.path.join(world.journals, it) for it in sorted(os.listdir(world.journals)) if it.endswith(".lines")]
    texts = [running.bytes_of(path) for path in paths]
    # What stands after a last newline is no line: what was left of one that had no room.
    has = collections.Counter(line for text in texts for line in text.splitlines(True) if line.endswith(b"\n"))
    rest = sum(len(text) - text.rfind(b"\n") - 1 for text in texts)
    wanted = collections.Counter(it.text for it in world.known.values() if it.is_taken)
    if has != wanted:
        more, fewer = list((has - wanted).elements()), list((wanted - has).elements())
        raise Fault(
            f"the journals have {len(more):,} lines more, {more[:3]}, and {len(fewer):,} lines fewer, {fewer[:3]}"
        )
    instants = [tap.utc for it in accounts.values() for tap in it.taps.values()]
    instants += [fix.words[0] for it in accounts.values() for fix in it.fixes.values() if fix.form == "FILL"]
    counts = f"OK lines {len(wanted)} accounts {len(accounts)} from {min(instants)} to {max(instants)}"
    counts += f" rest {rest}\n" if rest else "\n"
    files = ["--journal", world.journals, "--ledger", world.ledger]
    for name, came, wanted in (
        ("replay", replayed(*paths, fares=SAMPLE), counts.encode()),
        ("audit", running.run(["audit", SAMPLE, LONDON, *files]), b""),
    ):
        if came != running.answers(wanted):
            raise Fault(f"{name} is {came}, and should be {wanted!r}")


def compare(world):
    """Compares all that was answered with the rules, the ledger and the journals."""
    accounts = settle_all(world)
    check_ledger(world, accounts)
    check_journals(world, accounts)
    world.count["accepted at all"] = sum(it.is_taken for it in world.known.values())
    world.count["accounts"] = len(accounts)
