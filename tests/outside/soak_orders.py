"""What the lines of all lanes came to, in one order, and what one session says to it."""

import collections

from soak_clients import FOR_NOW, LATE, Fault, grouped
from support import running
from support.repository import LONDON, SAMPLE


class Told:
    """What a lane's lines came to one after another, of accounts that it alone speaks of: each line that was taken with
    its reply."""

    def __init__(self, client):
        self.client = client
        # Of each line its reply; b"" where any may be, None where it is accepted and nothing was heard of it.
        self.pairs = []
        # The lines that were accepted; and of those that were sent without a reply at which places of all, and of what
        # was said.
        self.taken, self.unheard = set(), {}
        # Of places of what was said, whether the line was taken there.
        self.fates = {}
        for at, (line, reply) in enumerate(client.said):
            if line.lane is not None and line.is_put:
                self.add(at, line, reply)
        self.pairs = [it for it in self.pairs if it]

    def add(self, at, line, reply):
        if reply is None or reply == LATE:
            if line.number and line.text not in self.taken:
                self.unheard.setdefault(line.text, []).append((len(self.pairs), at))
                self.pairs.append(None)
        elif reply not in FOR_NOW:
            if line.number:
                self.settle(line, reply)
            self.pairs.append((line, reply))

    def settle(self, line, reply):
        """Tells from a reply what became of the line where none was heard."""
        places = self.unheard.pop(line.text, [])
        is_again = reply.startswith(b"AGAIN ")
        if is_again and places and line.text not in self.taken:
            self.pairs[places[0][0]] = (line, None)
            self.blur(places[0][0], places[-1][0], line.account)
            if len(places) == 1:
                self.fates[places[0][1]] = True
        is_new = reply.startswith(b"OK ")
        if is_new:
            self.fates.update((at, False) for _, at in places)
        if is_again or is_new:
            self.taken.add(line.text)

    def blur(self, first, last, account):
        """Between two places at which a line may have been taken, the replies about its account may be either way."""
        for at in range(first + 1, last + 1):
            if self.pairs[at] and self.pairs[at][0].account == account:
                self.pairs[at] = (self.pairs[at][0], b"")

    def check_losses(self):
        """Of the lines of a lost connection the first ones were taken."""
        for first, last in self.client.losses:
            was_left = None
            for at in range(first, last):
                line = self.client.said[at][0]
                if self.fates.get(at) is False:
                    was_left = line
                elif self.fates.get(at) and was_left:
                    raise Fault(
                        f"lane {self.client.lane}: on a lost connection {line.text!r} was "
                        f"taken, and {was_left.text!r} before it was not"
                    )


def shared_lines(clients):
    """The lines that were accepted of accounts that all lanes speak of, each once."""
    heard, sent_unheard = {}, set()
    for client in clients:
        seen = set()
        for line, reply in client.said:
            if line.lane is not None or not line.number:
                continue
            if reply is None or reply == LATE:
                sent_unheard.add(line.text)
            elif reply not in FOR_NOW:
                verb = reply.split(b" ", 1)[0]
                if verb == b"OK" and line.text in seen:
                    raise Fault(f"lane {client.lane}: {line.text!r} was accepted before it was answered {reply!r}")
                if verb != b"NO":
                    seen.add(line.text)
                heard.setdefault(line.text, (line, collections.Counter()))[1][verb] += 1
    accepted = {text: line for text, (line, verbs) in heard.items() if verbs[b"OK"] or verbs[b"AGAIN"]}
    numbers = {line.number for line in accepted.values()}
    for text, (line, verbs) in heard.items():
        if verbs[b"OK"] > 1:
            raise Fault(f"{text!r} was accepted {verbs[b'OK']} times")
        if verbs[b"AGAIN"] and not verbs[b"OK"] and text not in sent_unheard:
            raise Fault(f"{text!r} was answered AGAIN, and never OK, though each of its replies was heard")
        if verbs[b"NO"] and (text in accepted or line.number not in numbers):
            raise Fault(
                f"{text!r} was refused, and "
                f"{'accepted' if text in accepted else 'nothing else of its number was accepted'}"
            )
    return list(accepted.values())


def one_order(draw, tolds, accepted):
    """All lines that were taken in one order, which keeps that of each lane, with their replies."""
    draw.shuffle(accepted)
    lists = [told.pairs for told in tolds] + [[(line, None) for line in accepted]]
    turns = [at for at, pairs in enumerate(lists) for _ in pairs]
    draw.shuffle(turns)
    lists = [iter(it) for it in lists]
    return [next(lists[at]) for at in turns]


def differs(wanted, reply):
    """Whether one session's reply is another than was heard."""
    return not reply.startswith(b"OK ") if wanted is None else bool(wanted) and reply != wanted


def compare(pairs, day, close):
    """Compares what was heard with the replies of one session. The last one is what was written of the close, or None
    where it was refused."""
    text = b"".join(line.text for line, _ in pairs) + b"CLOSE %d\n" % day
    came = running.run(["run", SAMPLE, LONDON], text)
    replies = list(grouped(came.output.splitlines()))
    if came.status or came.errors or len(replies) != len(pairs) + 1:
        raise Fault(
            f"one session ended with status {came.status}, {came.errors!r} and "
            f"{len(replies)} replies to {len(pairs) + 1} lines"
        )
    for at, ((line, wanted), reply) in enumerate(zip(pairs, replies)):
        if differs(wanted, reply):
            heard = "OK, where no reply was heard," if wanted is None else repr(wanted[:300])
            raise Fault(
                f"line {at + 1:,} of one session, {line.text!r}, is answered "
                f"{reply[:300]!r} there, and {heard} by the service"
            )
    if close is not None and close != replies[-1]:
        ours, theirs = close.splitlines(), replies[-1].splitlines()
        at = next((at for at, both in enumerate(zip(ours, theirs)) if len(set(both)) > 1), min(len(ours), len(theirs)))
        raise Fault(
            f"CLOSE {day}: line {at + 1} is {ours[at:at + 1]} by the service, and {theirs[at:at + 1]} in one session"
        )
