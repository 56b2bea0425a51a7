"""Commands that are drawn at random beside their replies by tests/oracle/rules.py."""

from oracle import rules
from support.running import A_DAY, MONDAY


def moved(command, weeks):
    """A command so many weeks later, in summer time."""
    # The rules know winter alone. In summer the same clock shows an hour earlier by UTC.
    after = weeks * 7 * A_DAY - (3_600 if weeks else 0)
    if isinstance(command, (rules.Due, rules.Close)):
        return command._replace(day=command.day + 7 * weeks)
    if isinstance(command, rules.Tap):
        return command._replace(utc=command.utc + after)
    first, *others = command.words
    by = {"FILL": after, "CREDIT": 7 * weeks}.get(command.form, 0)
    return command._replace(words=(first + by, *others))


# Where days stand in a reply.
DAYS_IN_REPLY = {"OK": (1,), "AGAIN": (1,), "DUE": (2, 3), "PAY": (2, 3), "DONE": (1,), "NO": ()}


def reply_moved(line, weeks):
    """A line of a reply so many weeks later."""
    words = line.split()
    for at in DAYS_IN_REPLY[words[0]]:
        if words[at] != "0":
            words[at] = str(int(words[at]) + 7 * weeks)
    return " ".join(words)


def by_rules(fares, accounts, commands, later=0):
    """The lines of commands, and their replies by the rules of tests/oracle/rules.py; and both so many weeks later, in
    summer time."""
    ledger = {}
    for it in commands:
        replied = rules.reply(fares, accounts, it, ledger).splitlines()
        yield rules.line(moved(it, later)).rstrip("\n"), "\n".join(reply_moved(line, later) for line in replied)


def drawn_dues(draw, count, accounts, days):
    """So many questions what an account owes, through one of the days."""
    return [rules.Due(draw.choice(accounts), draw.choice(days)) for _ in range(count)]


def with_closes(draw, commands):
    """Commands and closes among them: mostly of ascending days, now and then of one that is closed already or comes too
    early, and many twice."""
    for at, command in enumerate(commands):
        yield command
        if draw.random() < 0.04:
            close = rules.Close(MONDAY + 7 * at // len(commands) + draw.choice((-1, 0, 0, 0, 1)))
            yield from [close] * draw.randint(1, 2)


def parts_of(draw, items, count):
    """Items in so many parts, one after another."""
    ends = sorted(draw.sample(range(1, len(items)), count - 1))
    return [items[begin:end] for begin, end in zip([0, *ends], [*ends, len(items)])]
