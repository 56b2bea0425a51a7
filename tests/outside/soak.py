#!/usr/bin/env python3
"""Serves clients that lose their connections, under want of memory, and compares all that came of it with one
session.

    tests/outside/soak.py MINUTES SEED    # 10 1 is ten minutes; outside the checks

One service of `farebox serve` after another, each with 4 lanes and 4 shards, its own accounts and its own close, until
the time is over. Each lane has a client: taps of a week, a tenth of them hours late, corrections of each form, repeats,
numbers that come with two contents, questions, and lines that are refused. A client sends up to 256 lines ahead, and
most of its connections it loses: it closes or resets them with replies on their way, in the midst of a line too. Then
it connects again and sends again all that it has no reply to. In most services memory is wanting: allocations are
refused, one in so many, drawn by SEED; and for moments, some of them longer than a reply may take, the system gives no
more memory than there is (RLIMIT_DATA). Lines that are refused by 90 `Memory`, 30 `Busy`, 31 `Window` or 52 `Late` are
sent again; a connection for which there is no memory ends before anything is heard.

What has to be so, or this script ends with status 1 and a message that names the seed, the service, the lane and the
line:

- Each line has one reply of its own kind, in order: of its day, of its account, or its own refusal. Nothing else comes.
- A tap or a correction is accepted once: OK comes once, and then AGAIN. AGAIN comes first only where a reply was lost,
  or late.
- Of accounts that one lane alone speaks of, each reply that was heard is the one that `farebox run` gives to that
  lane's lines as they were taken, one after another. What is not known, whether a line without a reply was taken, is
  told by the reply to it when it is sent again.
- In the end all lines that were accepted go through `farebox run` in one order. SHOW of each account and day, DUE
  through each day, and what is written of the close, posting by posting, are the same there.
- Where no memory is wanting, no line and no close is refused for it, and of the lines of a lost connection the first
  ones were taken.
- Every other service keeps journals in a folder: they have the lines that were accepted, each once, and no others.
  Every other one of these has a ledger in a file; the others have none, and close nothing.
- The process ends by itself with the right status, holds no more memory than its lines take, and none more after a
  thousand connections that bring nothing; and no lane is silent for long.

All that is drawn is drawn by SEED; which line meets which refusal is the threads' matter. It wants Linux, Python 3.8 or
later and the toolchain.
"""

import argparse
import collections
import contextlib
import mmap
import os
import random
import subprocess
import sys
import tempfile
import time
from typing import NamedTuple

# Nothing is kept beside the sources.
sys.dont_write_bytecode = True
# For `support` and `oracle`.
sys.path.append(os.path.dirname(os.path.dirname(os.path.realpath(__file__))))
from soak_clients import NO_MEMORY, NOTHING, Client, Fault
from soak_lines import LANES, asked_of, dealt
from soak_orders import Told, compare, one_order, shared_lines
from soak_services import Service, plan_of, status_bytes
from support import running
from support.preloads import preloaded
from support.repository import SAMPLE, build
from support.serving import come_and_go, listening, serving

SHARDS = 4
# How many bytes a service may hold beside those that it begins with, for each line that is sent and in any case; and
# how many more after connections that bring nothing.
BYTES_A_LINE, BYTES, FLAT = 300, 1 << 20, 1 << 18
# What the system gives it, beside what it begins with, for each line that is planned and in any case.
ROOM_A_LINE, ROOM = 500, 2 << 20
NOT_HERE = b"NO 34 NotHere\n"
NOT_CLOSED = (NO_MEMORY, b"NO 43 Store\n", b"NO 44 DeskFault\n")


def begin(service, clients):
    """Has each lane say that it is there, and then begins to refuse memory. What the service holds then."""
    service.at_once(clients, [lambda client=client: client.connect(NOTHING) for client in clients])
    base = status_bytes(service.process, "VmHWM")
    service.room = status_bytes(service.process, "VmData") + ROOM + ROOM_A_LINE * service.planned
    service.limit(service.room)
    service.may_lack = service.plan.may_lack
    service.refuse(service.plan.odds)
    return base


def end_want(service):
    service.squeezes.clear()
    service.lift()
    service.refuse(0)
    service.may_lack, service.may_be_late = False, False


def come_and_go_at(service, clients, left):
    """Comes and goes on each lane until so many of its connections are left."""
    counts = [service.plan.sessions - client.connections - left for client in clients]
    service.at_once(
        clients,
        [lambda client=client, count=count: come_and_go(client.port, count) for client, count in zip(clients, counts)],
    )
    for client, count in zip(clients, counts):
        client.connections += count
    return sum(counts)


def check_memory(service, clients, base):
    """That what the service holds is what its lines take, and none of it what connections take that bring nothing."""
    lines, peak = sum(client.count["sent"] for client in clients), status_bytes(service.process, "VmHWM")
    if peak - base > BYTES + BYTES_A_LINE * lines:
        raise Fault(f"the service held {peak:,} bytes after {lines:,} lines, and {base:,} before them")
    before = status_bytes(service.process, "VmRSS")
    count = come_and_go_at(service, clients, 1)
    grown = status_bytes(service.process, "VmRSS") - before
    if grown > FLAT:
        raise Fault(f"the service holds {grown:,} bytes more after {count:,} connections that brought nothing")
    return (peak - base) / lines, peak


def close_of(service, clients, said, output):
    """What is written of the close, or None where it was refused for want of memory, or as there are journals and no
    ledger."""
    plan = service.plan
    if plan.closing_room is not None:
        service.limit_room(plan.closing_room)
    else:
        service.limit(service.most)
    service.refuse(plan.closing_odds)
    for client in clients:
        come_and_go(client.port, 1)
    try:
        status = service.process.wait(running.TIME_TO_END)
    except subprocess.TimeoutExpired:
        raise Fault("the service does not end") from None
    output.seek(0)
    came, errors = output.read(), service.process.stderr.read()
    if not service.closes:
        if errors or status != 1 or came != NOT_HERE:
            raise Fault(f"the service ended with status {status}, wrote {came[:200]!r}, and said {(said + errors)!r}")
        clients[0].count["close " + came.decode().strip()] += 1
        return None
    is_refused = plan.may_not_close and status == 1 and came in NOT_CLOSED
    if errors or not is_refused and (
        status or not came.splitlines()[-1:] or not came.splitlines()[-1].startswith(b"DONE ")
    ):
        raise Fault(f"the service ended with status {status}, wrote {came[:200]!r}, and said {(said + errors)!r}")
    clients[0].count["close " + ("closed" if not is_refused else came.decode().strip())] += 1
    return None if is_refused else came


class Came(NamedTuple):
    """What came of a service."""

    count: collections.Counter
    # What it held after each quarter of the lines, what of it each took, and the most that it held before its close.
    held: list
    bytes_a_line: float
    peak: int


def check_journals(folder, tolds, accepted):
    """That journals have the lines that were accepted, each once."""
    has = sorted(
        line for name in os.listdir(folder) if name.endswith(".lines") for line in lines_in(os.path.join(folder, name))
    )
    wanted = sorted({line.text for line in accepted}.union(*(told.taken for told in tolds)))
    if has != wanted:
        more = sorted((collections.Counter(has) - collections.Counter(wanted)).elements())
        fewer = sorted(set(wanted) - set(has))
        raise Fault(
            f"the journals have {len(has):,} lines and not {len(wanted):,}: {more[:3]} more, and {fewer[:3]} fewer"
        )


def lines_in(path):
    with open(path, "rb") as it:
        return it.read().splitlines(True)


def converse(service, clients, draw, accounts, said, output):
    """All that clients and a service say to each other, and what one session says to it."""
    base = begin(service, clients)
    service.at_once(clients, [client.say_all for client in clients])
    end_want(service)
    tolds = [Told(client) for client in clients]
    if not service.plan.may_lack:
        for told in tolds:
            told.check_losses()
    accepted = shared_lines(clients)
    asked = asked_of(accounts)
    dealt_out = [asked[client.lane::LANES] for client in clients]
    answers = service.at_once(clients, [lambda it=it: it[0].ask(it[1]) for it in zip(clients, dealt_out)])
    bytes_a_line, peak = check_memory(service, clients, base)
    close = close_of(service, clients, said, output)
    if service.journals:
        check_journals(service.journals, tolds, accepted)
    pairs = one_order(draw, tolds, accepted)
    questions = [pair for both in zip(dealt_out, answers) for pair in zip(*both)]
    compare(pairs + questions, service.plan.day, close)
    count = sum((client.count for client in clients), collections.Counter())
    count.update({
        "connections": sum(client.connections for client in clients) + LANES,
        "one by one": sum(1 for _, wanted in pairs if wanted),
        "accepted": len(accepted) + sum(len(told.taken) for told in tolds),
        "questions": len(questions),
        "postings": 0 if close is None else close.count(b"PAY "),
        "squeezes": service.squeezed,
        "seconds squeezed": round(service.seconds_squeezed, 1),
    })
    return Came(count, service.held, bytes_a_line, peak)


def serve(library, seed, number):
    """One service from its beginning to its end, and what came of it."""
    draw = random.Random(f"{seed} {number}")
    plan = plan_of(draw)
    accounts = draw.sample(range(1, 1 << 32), plan.shape.own * LANES + plan.shape.shared)
    lanes = dealt(draw, plan.shape, accounts)
    with contextlib.ExitStack() as files:
        told, odds, output = (files.enter_context(tempfile.TemporaryFile()) for _ in range(3))
        odds.truncate(mmap.PAGESIZE)
        mapped = files.enter_context(mmap.mmap(odds.fileno(), mmap.PAGESIZE))
        around = {
            "LD_PRELOAD": library, "SEED": str(1_000 * seed + number), "ODDS": str(odds.fileno()),
            "TELL": str(told.fileno()),
        }
        how = {"env": around, "pass_fds": [odds.fileno(), told.fileno()], "stdout": output}
        journals = files.enter_context(tempfile.TemporaryDirectory()) if number % 2 == 0 else None
        ledger = files.enter_context(tempfile.TemporaryDirectory()) if number % 4 == 0 else None
        more = ["--journal", journals] if journals else []
        more += ["--ledger", os.path.join(ledger, "ledger")] if ledger else []
        process, port, said = files.enter_context(serving(LANES, SHARDS, plan.sessions, SAMPLE, plan.day, more, **how))
        if said != listening(port, LANES):
            raise Fault(f"the service said {said!r}")
        service = Service(process, port, plan, sum(map(len, lanes)), mapped, journals, bool(ledger or not journals))
        clients = [
            Client(service, lane, lines, random.Random(f"{seed} {number} {lane}")) for lane, lines in enumerate(lanes)
        ]
        came = converse(service, clients, draw, accounts, said, output)
        came.count["allocations"] = told.seek(0, 2)
        if plan.odds and not came.count["allocations"]:
            raise Fault("no allocation was refused: the program has an allocator of its own")
        return plan, came


def one_line(number, plan, came):
    """What came of a service, in short."""
    count = came.count
    want = [f"1 in {plan.odds:,} allocations refused"] if plan.odds else []
    want += [f"no memory {count['squeezes']} times, for {count['seconds squeezed']:g} s"] if count["squeezes"] else []
    lost = count["lost by a close"] + count["lost by a reset"]
    closed = next(it[6:] for it in count if it.startswith("close "))
    under = [f"1 in {plan.closing_odds:,} refused"] if plan.closing_odds else []
    under += [f"{plan.closing_room:,} bytes to be had"] if plan.closing_room is not None else []
    return (
        f"service {number}: {plan.shape.name}, {count['sent']:,} lines, {count['again']:,} of them again, "
        f"{lost:,} connections lost, {', '.join(want) or 'no want'}; "
        f"{', '.join(f'{it / 2**20:.1f}' for it in came.held)} MiB by quarters of the lines, "
        f"{came.peak / 2**20:.1f} at most, {came.bytes_a_line:.0f} bytes a line; "
        f"{closed}{' with ' if under else ''}{' and '.join(under)}"
    )


def figures(total, services, most, seconds):
    """What came of all services."""
    ended = total["ended by QUIT"] + total["ended by the end of what is sent"]
    idle = total["connections"] - ended - sum(
        total[name] for name in ("lost by a close", "lost by a reset", "without memory")
    )
    closes = {name[6:]: number for name, number in sorted(total.items()) if name.startswith("close ")}
    refusals = sorted(
        (int(name.split()[1]), name[3:], number) for name, number in total.items() if name.startswith("NO ")
    )
    yield f"{services} services, {seconds:,.0f} seconds"
    sent, again, accepted = total["sent"], total["again"], total["accepted"]
    yield f"{sent:,} lines sent, {again:,} of them again; {accepted:,} taps and corrections accepted"
    yield "replies: " + ", ".join(f"{total[verb]:,} {verb}" for verb in ("OK", "AGAIN", "SHOW", "DUE"))
    yield "refused: " + ", ".join(f"{number:,} {name}" for _, name, number in refusals)
    yield (
        f"{total['connections']:,} connections: {total['lost by a close']:,} lost by a close and "
        f"{total['lost by a reset']:,} by a reset, {ended:,} heard to their end, "
        f"{total['without memory']:,} without memory, {idle:,} that brought nothing"
    )
    came = ", ".join(f"{number:,} {name}" for name, number in closes.items())
    yield f"closes: {came}; {total['NO 34 NotHere']:,} asked for on a lane"
    yield (
        f"memory: {total['allocations']:,} allocations refused, none given {total['squeezes']:,} times, for "
        f"{total['seconds squeezed']:,.0f} s; a service held "
        f"{most[0] / 2**20:.1f} MiB at most, and {most[1]:.0f} bytes a line"
    )
    yield (
        f"compared with one session: {total['one by one']:,} replies, "
        f"{total['questions']:,} questions in the end, {total['postings']:,} postings"
    )


def main():
    words = argparse.ArgumentParser(
        description="serves clients that lose their connections, and compares what came of it with one session"
    )
    words.add_argument("minutes", metavar="MINUTES", type=float, help="how long one service after another is begun")
    words.add_argument("seed", metavar="SEED", type=int, help="by what all is drawn")
    words.add_argument("--program", help="a program to run in the place of the built one")
    words.add_argument("--first", type=int, default=1, help="the number of the first service, to see one again")
    words = words.parse_args()
    if words.program:
        running.PROGRAM = words.program
    else:
        build()
    began, total, most, number = time.monotonic(), collections.Counter(), (0, 0.0), words.first
    with tempfile.TemporaryDirectory() as folder:
        library = preloaded(folder)
        while number == words.first or time.monotonic() - began < 60 * words.minutes:
            try:
                plan, came = serve(library, words.seed, number)
            except (Fault, OSError) as fault:
                print(f"soak: seed {words.seed}, service {number}: {fault}")
                return 1
            total += came.count
            most = max(most[0], came.peak), max(most[1], came.bytes_a_line)
            print(f"{time.monotonic() - began:6.0f} s  {one_line(number, plan, came)}", flush=True)
            number += 1
    print(f"soak: seed {words.seed}, all as it has to be")
    for line in figures(total, number - words.first, most, time.monotonic() - began):
        print(line)
    return 0


if __name__ == "__main__":
    sys.exit(main())
