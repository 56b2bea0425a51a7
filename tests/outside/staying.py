#!/usr/bin/env python3
"""Runs services that stay, one after another over the same files, among readers, staff and strangers, ends them in many
ways, and compares all that came of them with the rules.

    tests/outside/staying.py MINUTES SEED     # 10 1 is ten minutes; outside the checks
    tests/outside/staying.py --kills N SEED   # N short services, each killed at a random moment

A service has 200 to 2,000 readers with a connection each, over 1 to 8 lanes: they send taps of a week, a tenth of them
hours late, repeats and questions, and lose connections in mid-line, in half of the services with replies on their way.
Two of staff correct, close ascending days again and again while taps go on, and ask STATS. Strangers send byte by byte,
10,000 bytes without a newline, garbage, a web page's words or a TLS hello, come and go in thousands, or never read. A
service ends by STOP, by SIGKILL, or as its journals have no more room (RLIMIT_FSIZE). The next one is sent again all
that has no reply. What has to be so, or this script ends with status 1, tells the seed, the service and the step, and
leaves the files:

- Each line has one reply of its own kind, in order. OK comes once, and from then on AGAIN, whatever ended since. AGAIN
  comes first only where an earlier reply was lost. Nobody waits for long.
- A close has each account that had a tap by then, with all that was answered before it was asked; and a posting is told
  the same each time.
- STATS counts what was answered, exactly where no reply was lost. No connection is dropped.
- A service ends when it has to, with the right status; one without room within seconds.
- Its memory grows by 400 bytes for each accepted line and 60 for each other one at most, beside what its connections
  and a close take.
- In the end what each account owes, and shows on a day, is what tests/oracle/rules.py says of all that was accepted.
  Each posting that was told is in the ledger, and there the amounts of an account, and the shares of each operator, add
  up to what is due. The journals have the accepted lines, each once; `replay` counts them, and `audit` finds nothing.

All that is drawn is drawn by SEED; at which line a service ends is the machine's matter. It wants Linux and Python 3.8
or later.
"""

import argparse
import os
import random
import resource
import shutil
import subprocess
import sys
import tempfile
import time
from typing import NamedTuple

# Nothing is kept beside the sources.
sys.dont_write_bytecode = True
# For `support` and `oracle`.
sys.path.append(os.path.dirname(os.path.dirname(os.path.realpath(__file__))))
from soak_clients import Fault
from soak_lines import WEEK_DAYS
from staying_services import Serve
from staying_world import World, compare
from support import running
from support.repository import SAMPLE, build
from support.serving import free_ports
from support.staying import both_listening, but_for_log, staying, staying_words


class Plan(NamedTuple):
    """A service, as it is drawn."""

    readers: int
    lanes: int
    shards: int
    # How often a reader acts in a second, of all readers; for how many seconds; and how many pass between closes.
    rate: int
    seconds: float
    pause: float
    strangers: int
    # Whether connections are lost with replies on their way.
    is_lossy: bool
    # STOP, KILL, FULL, or START for one that is killed before it answers lines.
    end: str


def plan_of(draw, most):
    return Plan(
        draw.randint(min(200, most), most), draw.randint(1, 8), draw.randint(1, 16), draw.choice((100, 250, 500)),
        draw.uniform(4, 25), draw.uniform(0.7, 1.3), draw.randint(2, 8), draw.random() < 0.5,
        draw.choice(("STOP", "KILL", "KILL", "FULL")),
    )


def short_plan_of(draw):
    return Plan(
        draw.randint(1, 30), draw.randint(1, 8), draw.randint(1, 16), 500,
        draw.choice((0.02, 0.2, 0.5)) * draw.random(), draw.uniform(0, 0.1), draw.randint(0, 1), draw.random() < 0.5,
        "START" if draw.random() < 0.2 else "KILL",
    )


def killed_at_its_start(world, plan):
    """Kills a service that may not have begun to answer."""
    port = free_ports(2)
    words = staying_words(port, port + 1, world.journals, world.ledger, plan.lanes, plan.shards, SAMPLE)
    with running.started(words, stdin=subprocess.DEVNULL) as ran:
        time.sleep(world.draw.random() * (0.05 + len(world.sent) / 500_000))
        is_over = ran.poll() is not None
        ran.kill()
        said = ran.stderr.read()
        if is_over or not both_listening(port, port + 1).startswith(but_for_log(said)):
            raise Fault(f"a start ended by itself: {is_over}, and said {said!r}")
    world.count["ended by START"] += 1


def serve(world, plan):
    """What one service came to, in short."""
    if plan.end == "START":
        killed_at_its_start(world, plan)
        return "killed at its start"
    how = running.limited_to(resource.RLIM_INFINITY)
    began = time.monotonic()
    with staying(world.journals, world.ledger, plan.lanes, plan.shards, fares=SAMPLE, **how) as service:
        if but_for_log(service.said) != both_listening(service.port, service.control):
            raise Fault(f"the service said {service.said + service.ran.stderr.read()!r}")
        started_after = time.monotonic() - began
        it = Serve(world, plan, service)
        it.go()
    world.count["lines heard"] += it.heard
    world.count["accepted"] += it.verbs[0]
    return (
        f"{plan.readers:,} readers, {plan.lanes} lanes, {plan.shards} shards, began in {started_after:.1f} s; "
        f"{it.heard:,} replies, {it.verbs[0]:,} OK, {it.verbs[1]:,} AGAIN, {it.lost:,} lost; "
        f"{it.base / 2**20:.1f} MiB and {it.grown / 2**20:.1f} more, {it.most:.0%} of what it may; "
        f"{plan.end} in {it.seconds_to_end:.1f} s"
    )


def main():
    words = argparse.ArgumentParser(
        description="runs services that stay, ends them in many ways, and compares what came of them with the rules"
    )
    words.add_argument("minutes", metavar="MINUTES", type=float, nargs="?", help="how long services are begun")
    words.add_argument("seed", metavar="SEED", type=int, help="by what all is drawn")
    words.add_argument("--kills", metavar="N", type=int, help="how many short services are killed, and nothing else")
    words = words.parse_args()
    if (words.minutes is None) == (words.kills is None):
        sys.exit("staying: either MINUTES or --kills N")
    build()
    most = resource.getrlimit(resource.RLIMIT_NOFILE)[1]
    resource.setrlimit(resource.RLIMIT_NOFILE, (most, most))
    began, number = time.monotonic(), 0
    folder = tempfile.mkdtemp()
    world = World(random.Random(words.seed), folder)
    try:
        while True:
            seconds = time.monotonic() - began
            done = number / words.kills if words.kills else seconds / 60 / words.minutes
            if done >= 1:
                break
            number, world.day = number + 1, WEEK_DAYS[int(done * len(WEEK_DAYS))]
            draw = random.Random(f"{words.seed} {number}")
            plan = short_plan_of(draw) if words.kills else plan_of(draw, min(2_000, most - 500))
            told = serve(world, plan)
            if not words.kills or number % 50 == 0:
                print(f"{seconds:6.0f} s  service {number}: {told}", flush=True)
        compare(world)
    except (Fault, OSError) as fault:
        steps = world.count["steps"]
        print(f"staying: seed {words.seed}, service {number}, step {steps:,}, files in {folder}: {fault!r}")
        return 1
    shutil.rmtree(folder)
    print(f"staying: seed {words.seed}, all as it has to be; {number:,} services, {time.monotonic() - began:,.0f} s")
    print(", ".join(f"{count:,} {name}" for name, count in sorted(world.count.items())))
    return 0


if __name__ == "__main__":
    sys.exit(main())
