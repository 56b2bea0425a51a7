"""Sessions over lanes that break off or cannot be answered after each of their bytes, and full accounts: what is
answered, and what stands then."""

import socket

from oracle import rules
from support.fares import MOST_FIXES, MOST_TAPS
from support.preloads import preloaded
from support.running import A_DAY, MONDAY, RUN, SEVEN, answers, heard, in_lines, play, session
from support.serving import break_off, closed, come_and_go, connected, ended, rest_of, serving, talk_ahead
from support.theme import Theme

# Four boardings, of which the last comes late: of each its instant and the price then. Each line has 28 bytes, and each
# reply 17.
FOUR = ((SEVEN, 175), (SEVEN + 3_000, 175), (SEVEN + 5_000, 350), (SEVEN - 1_000, 350))
LINE, REPLY = 28, 17
ALL_LINES = LINE * len(FOUR)


def four_boardings(number):
    """The boardings of an account in a week that no other number has, and as lines and replies of just so many
    bytes."""
    week, account = divmod(number, 9)
    reader, first = week % 9 + 1, len(FOUR) * (week // 9)
    taps = [
        rules.Tap(utc + 7 * A_DAY * week, reader, first + seq, account + 1, rules.ROUTE, "BUS")
        for seq, (utc, _) in enumerate(FOUR)
    ]
    lines = "".join(map(rules.line, taps)).encode()
    replies = in_lines(f"OK {MONDAY + 7 * week} {price} {price}" for _, price in FOUR)
    return taps, lines, replies


def take(accounts, taps):
    for tap in taps:
        accounts.setdefault(tap.account, rules.Account({}, {})).taps[tap.number] = tap


def days_shown(port, lines_of):
    """What is told on a connection of its own of the days of all numbers."""
    asked = [f"SHOW {taps[0].account} {rules.service_day(taps[0].utc)}\n".encode() for taps in lines_of]
    return talk_ahead(port, asked)


def cut_off(port, lines, replies):
    """What is heard of a session whose input ends with these bytes."""
    with connected(port) as peer:
        peer.sendall(lines)
        peer.shutdown(socket.SHUT_WR)
        return rest_of(peer)


def broken_off(port, lines, replies):
    """What is heard of a session that is broken off after these bytes, once so many replies have come."""
    peer = connected(port)
    peer.sendall(lines)
    came = heard(peer, len(replies))
    break_off(peer)
    return came


def line_by_line(port, lines):
    """What is heard of a session whose lines are sent one by one, each once the reply to the one before is whole."""
    came = b""
    with connected(port) as peer:
        for at in range(0, len(lines), LINE):
            peer.sendall(lines[at:at + LINE])
            reply = heard(peer, REPLY)
            came += reply
            if len(reply) < REPLY:
                break
    return came


def full_account():
    """An account of as many boardings and corrections as it may have, asked what it is before and after it refuses more
    of both."""
    # Of boardings a second apart each 3,601st pays.
    prices = [175 * (i // 3_601 + 1) for i in range(MOST_TAPS)]
    taps = [(f"TAP 1 {i} 7 {SEVEN + i} 50 BUS", f"OK {MONDAY} {price} {price}") for i, price in enumerate(prices)]
    fixes = [(f"FIX 3 {seq} 7 DROP 3 {seq}", "OK 0 0 0") for seq in range(MOST_FIXES)]
    last = prices[-1]
    journeys = "".join(f"\nJNY BUS 50 0 {SEVEN + i} {0 if i % 3_601 else 175}" for i in range(MOST_TAPS))
    asked = [
        (f"SHOW 7 {MONDAY}", f"SHOW 7 {MONDAY} {MOST_TAPS} {last}{journeys}"),
        (f"DUE 7 {MONDAY}", f"DUE 7 {MONDAY} {MONDAY} {MOST_TAPS + MOST_FIXES} {last} 4={last}"),
    ]
    kinds = (("IN", 10), ("OUT", 12), ("BUS", 50))
    refused = [
        (f"TAP 2 {seq} 7 {SEVEN + seq} {place} {kind}", "NO 21 AccountFull") for seq, (kind, place) in enumerate(kinds)
    ]
    for words in ("VOID 1 1", f"FILL {SEVEN} 12 OUT", f"CREDIT {MONDAY} 1", "DROP 3 1"):
        refused.append((f"FIX 4 1 7 {words}", "NO 23 FixesFull"))
    return [*taps, *fixes, *asked, *refused, *asked]


class Refusals(Theme):
    def test_sessions_that_end_early(self):
        """A session over a lane that ends, or is broken off, after each of its bytes: the whole lines before are
        answered, and stand, and no more."""
        numbers = range(ALL_LINES + 1)
        for name, end, cut in (("ends", cut_off, b"NO 50 BadLine\n"), ("breaks", broken_off, b"")):
            accounts, all_taps = {}, []
            with serving(2, 2, len(numbers)) as (ran, port, said):
                for number in numbers:
                    whole, rest = divmod(number, LINE)
                    taps, lines, replies = four_boardings(number)
                    all_taps.append(taps)
                    take(accounts, taps[:whole])
                    wanted = replies[:REPLY * whole]
                    came = end(port + number % 2, lines[:number], wanted)
                    self.check(
                        f"a session that {name} after {number} bytes",
                        answers(came),
                        answers(wanted + (cut if rest else b"")),
                    )
                shown = "".join(
                    line
                    for taps in all_taps
                    for line in rules.shown(rules.BUS, accounts, taps[0].account, rules.service_day(taps[0].utc))
                )
                self.check(
                    f"what stands of sessions each of which {name}",
                    answers(days_shown(port, all_taps)),
                    answers(shown.encode() + b"BYE\n"),
                )
                for lane in range(2):
                    come_and_go(port + lane, len(numbers) - len(numbers[lane::2]) - (lane == 0))
                paid = rules.closed(rules.BUS, accounts, {}, MONDAY).encode()
                self.check(f"the close after sessions each of which {name}", ended(ran, said), closed(port, 2, paid))

    def test_replies_with_room(self):
        """A session over a lane whose connection takes so many bytes and no more: these are heard, and no line is taken
        after them."""
        library = preloaded(self.folder)
        taps, lines, replies = four_boardings(0)
        for room in range(len(replies) + 1):
            with serving(1, 2, 1, env={"LD_PRELOAD": library, "ROOM": str(room)}) as (ran, port, said):
                self.check(
                    f"a connection with room for {room} bytes",
                    answers(line_by_line(port, lines)),
                    answers(replies[:room]),
                )
                accounts = {}
                # The tap whose reply is the first that has no room is taken.
                take(accounts, taps[:room // REPLY + 1])
                self.check(
                    f"what stands after {room} bytes",
                    ended(ran, said),
                    closed(port, 1, rules.closed(rules.BUS, accounts, {}, MONDAY).encode()),
                )

    def test_full_accounts(self):
        """A full account refuses more of both, and is then what it was, over a lane too."""
        pairs = full_account()
        self.check("a full account", *play(RUN, pairs))
        lines, replies = session(pairs)
        with serving(1, 1, 1) as (ran, port, said):
            came = talk_ahead(port, lines.splitlines(keepends=True))
            self.check("a full account over a lane", answers(came), answers(replies + b"BYE\n"))
            paid = f"PAY 7 {MONDAY} {MONDAY} {MOST_TAPS + MOST_FIXES} 875 875 4=875\nDONE {MONDAY} 1\n"
            self.check("a full account over a lane, closed", ended(ran, said), closed(port, 1, paid.encode()))
