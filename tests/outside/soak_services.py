"""Services as they are drawn, and as they run: what keeps memory from them, and who looks after them."""

import collections
import contextlib
import resource
import struct
import subprocess
import threading
import time
from typing import NamedTuple, Optional

from soak_clients import Fault
from soak_lines import SHAPES, WEEK_DAYS, Shape

# A shard that gets no memory for less than so many seconds makes no reply late.
LATE_AFTER = 9


class Squeeze(NamedTuple):
    """For how many seconds the system gives no more than so many bytes, once the first lane has sent so many lines."""

    lines: int
    seconds: float
    spare: int


class Plan(NamedTuple):
    """A service, as it is drawn."""

    shape: Shape
    sessions: int
    day: int
    # One in how many allocations is refused, while lines are sent and in the close. 0: none.
    odds: int
    closing_odds: int
    # How many bytes the system gives for the close. None: enough.
    closing_room: Optional[int]
    squeezes: list

    @property
    def may_lack(self):
        return bool(self.odds or self.squeezes)

    @property
    def may_not_close(self):
        return bool(self.closing_odds or self.closing_room is not None)


def plan_of(draw):
    shape = draw.choices(SHAPES, (4, 4, 3, 1))[0]
    odds = draw.choice((0, 0, 3_000, 500, 100, 30))
    squeezes = []
    if odds or draw.random() < 0.5:
        longest = (0.1, 0.3, 1, 2) if shape.fills else (0.1, 0.3, 1, 2, 12)
        starts = sorted(draw.randrange(100, 6_000) for _ in range(draw.randrange(3)))
        squeezes = [Squeeze(lines, draw.choice(longest), draw.randrange(1 << 18)) for lines in starts]
    closing_odds = draw.choice((0, 0, 0, 300, 1_000_000))
    closing_room = draw.choice((None, None, None, None, draw.randrange(1 << 16), draw.randrange(1 << 23)))
    return Plan(shape, draw.randint(700, 1_000), draw.choice(WEEK_DAYS), odds, closing_odds, closing_room, squeezes)


def status_bytes(process, name):
    """What Linux tells of a process: VmRSS, what it holds, VmHWM, the most that it held, or VmData, what its limit
    counts. 0 of one that has ended."""
    with contextlib.suppress(OSError), open(
        f"/proc/{process.pid}/status", encoding="ascii", errors="replace"
    ) as status:
        return 1024 * next((int(it.split()[1]) for it in status if it.startswith(f"{name}:")), 0)
    return 0


class Service:
    """A service that runs, and what keeps memory from it."""

    def __init__(self, process, port, plan, planned, odds, journals, closes):
        # How many lines are planned, and the first bytes of a mapped file: one in how many allocations is refused.
        self.process, self.port, self.plan, self.planned, self.odds = process, port, plan, planned, odds
        # The folder of its journals, or None; and whether it has a ledger to close its day into.
        self.journals, self.closes = journals, closes
        # What was held after each quarter of the lines that are planned.
        self.held = []
        # Whether a line may be refused for memory now, and whether a reply may be late.
        self.may_lack, self.may_be_late = False, False
        self.lifted = threading.Event()
        self.lifted.set()
        # The squeezes that are to come; when the one that is on began, and for how long it is; and how many there were,
        # for how long.
        self.squeezes = collections.deque(plan.squeezes)
        self.began, self.seconds = 0.0, 0.0
        self.squeezed, self.seconds_squeezed = 0, 0.0
        # The most that the process may be given, and what it is given out of squeezes.
        self.most = resource.prlimit(process.pid, resource.RLIMIT_DATA)[1]
        self.room = self.most
        self.fault = None
        self.lock = threading.Lock()

    def refuse(self, odds):
        """Has one in so many allocations refused from now on, or none."""
        self.odds[:8] = struct.pack("@L", odds)

    def limit(self, most):
        """Sets how much the system gives the process."""
        with contextlib.suppress(ProcessLookupError):
            resource.prlimit(self.process.pid, resource.RLIMIT_DATA, (most, self.most))

    def limit_room(self, room):
        self.limit(status_bytes(self.process, "VmData") + room)

    def squeeze(self, squeeze):
        self.lifted.clear()
        self.limit_room(squeeze.spare)
        self.began, self.seconds = time.monotonic(), squeeze.seconds
        self.squeezed += 1
        self.may_be_late = self.may_be_late or squeeze.seconds > LATE_AFTER

    def lift(self):
        if not self.lifted.is_set():
            self.limit(self.room)
            self.seconds_squeezed += time.monotonic() - self.began
            self.lifted.set()

    def watch(self, clients):
        """Looks whether the process goes on, keeps what it holds, and begins and ends squeezes."""
        if self.process.poll() is not None:
            self.fail(Fault("the service ended before its clients"))
            return
        if len(self.held) < 4 and 4 * sum(
            len(client.said) for client in clients
        ) >= (len(self.held) + 1) * self.planned:
            self.held.append(status_bytes(self.process, "VmRSS"))
        if not self.lifted.is_set():
            if time.monotonic() >= self.began + self.seconds:
                self.lift()
        elif self.squeezes and len(clients[0].said) >= self.squeezes[0].lines:
            self.squeeze(self.squeezes.popleft())

    def fail(self, fault):
        """Keeps the first fault, and ends the process, so that nobody waits for it. Where that has ended by itself,
        this is the fault."""
        with self.lock:
            if self.fault:
                return
            with contextlib.suppress(subprocess.TimeoutExpired):
                self.process.wait(1)
            status = self.process.poll()
            died = (
                ""
                if status is None
                else f"the service ended with status {status}, and said {self.process.stderr.read()!r}; "
            )
            self.fault = Fault(f"{died}{fault}")
            self.process.kill()

    def at_once(self, clients, calls):
        """What comes of a call for each client, each in a thread of its own, while the service is watched."""
        came = [None] * len(calls)

        def into(at, client, call):
            try:
                came[at] = call()
            except Exception as fault:
                self.fail(Fault(f"lane {client.lane}: {fault if isinstance(fault, Fault) else repr(fault)}"))

        threads = [threading.Thread(target=into, args=(at, *it)) for at, it in enumerate(zip(clients, calls))]
        for it in threads:
            it.start()
        while any(it.is_alive() for it in threads):
            self.watch(clients)
            time.sleep(0.02)
        if self.fault:
            raise self.fault
        return came
