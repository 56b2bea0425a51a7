"""How the themes run the built program, and what comes of a run."""

import atexit
import contextlib
import datetime
import os
import re
import resource
import select
import signal
import subprocess
import sys
import tempfile
import time
from typing import NamedTuple, Optional

from support.repository import BUS, EXAMPLES, LONDON, PROGRAM


def written(folder, name, content):
    path = os.path.join(folder, name)
    with open(path, "wb") as it:
        it.write(content)
    return path


def without_warnings(folder):
    """The path of examples/bus.toml with a band that caps nothing: sessions with files warn of a file without bands."""
    with open(BUS, "rb") as it:
        text = it.read().replace(
            b"holidays =", b"band = [{ from = 0, to = 0, day = 100000, week = 100000 }]\nholidays ="
        )
    return written(folder, "bus.toml", text)


FOLDER = tempfile.TemporaryDirectory()
atexit.register(FOLDER.cleanup)
FARES = without_warnings(FOLDER.name)
RUN = ["run", FARES, LONDON]
MISSING = "/no/such/file"
# The day 2024-01-08, its second at 07:00:00 in London, and how many seconds a day has.
MONDAY, SEVEN, A_DAY = 19730, 1704697200, 86_400
WEEK_DAYS = range(MONDAY, MONDAY + 7)

# The seconds after which a run counts as one that does not end, and a reply as one that does not come.
TIME_TO_END, TIME_TO_REPLY = 120, 20


class End(NamedTuple):
    """What a run comes to: its status, its output and errors, and what it leaves of a file, as one that is its input,
    or its journal."""

    status: object
    output: Optional[bytes] = b""
    errors: Optional[bytes] = b""
    left: Optional[bytes] = None


def answers(output):
    return End(0, output)


def fault(line, output=b"", status=1):
    return End(status, output, f"farebox: {line}\n".encode())


USAGE = fault("usage", status=2)


def dated(day):
    """How the log calls a service day."""
    return f"day {day}, {datetime.date(1970, 1, 1) + datetime.timedelta(day)}"


# What standard error has of a close into a ledger in a file: that it was refused, or that its last posting could not be
# noted; and the refusals that only a close has.
REFUSED = (
    rb"farebox: close of day \d+, [-\d]{10} refused: "
    rb"(?:(42) StaleQuote: account \d+ was posted through day \d+, [-\d]{10}|(4[34567]|90) [A-Z]\w+)\n"
)
NOT_NOTED = rb"farebox: cannot note the last posting in \S+\n"
OF_A_CLOSE = rb"(?m)^NO (4[2-7]) "


def but_for_closes(came):
    """What a session over a ledger in a file came to but for its closes: if standard error reports each that was
    refused, in order, and the status tells it, as if it did neither. One that was killed may have reported another than
    it answered."""
    if not isinstance(came.errors, bytes):
        return came
    told = [first or second for first, second in re.findall(REFUSED, came.errors)]
    rest = re.sub(NOT_NOTED, b"", re.sub(REFUSED, b"", came.errors))
    if came.status == "killed":
        return came._replace(errors=rest)
    if rest == came.errors or came.status != 1 or [
        number for number in told if number != b"90"
    ] != re.findall(OF_A_CLOSE, came.output):
        return came
    return came._replace(status=1 if rest else 0, errors=rest)


def run(words, lines=b"", stdin=None, stdout=subprocess.PIPE, stderr=subprocess.PIPE, **how):
    """What a run with these words comes to, with these bytes through a pipe as its input, or with another input."""
    given = {"input": lines} if stdin is None else {"stdin": stdin}
    try:
        ran = subprocess.run([PROGRAM, *words], stdout=stdout, stderr=stderr, timeout=TIME_TO_END, **given, **how)
    except subprocess.TimeoutExpired as late:
        return End("no end", late.stdout, late.stderr)
    return End(ran.returncode, ran.stdout, ran.stderr)


def run_file(words, path, start=0, leaves=False, **how):
    """The same with a file as its input, from this byte on; and, if asked, what is left of it to whoever has it
    open."""
    with open(path, "rb", buffering=0) as given:
        given.seek(start)
        came = run(words, stdin=given, **how)
        return came._replace(left=given.read()) if leaves else came


@contextlib.contextmanager
def started(words=RUN, stdin=subprocess.PIPE, stdout=subprocess.PIPE, **how):
    """A run that is spoken to while it goes on."""
    with subprocess.Popen(
        [PROGRAM, *words], stdin=stdin, stdout=stdout, stderr=subprocess.PIPE, bufsize=0, **how
    ) as ran:
        try:
            yield ran
        finally:
            ran.kill()


def heard(stream, count):
    """That many bytes of a stream, or those that came in time and before its end."""
    taken = b""
    while len(taken) < count and select.select([stream], [], [], TIME_TO_REPLY)[0]:
        more = os.read(stream.fileno(), count - len(taken))
        if not more:
            break
        taken += more
    return taken


def end_of(ran, output=b""):
    """What a started session comes to after this output, its input left as it is."""
    try:
        status = ran.wait(TIME_TO_REPLY)
    except subprocess.TimeoutExpired:
        return End("no end", output)
    rest = ran.stdout.read() if ran.stdout and not ran.stdout.closed else b""
    return End(status, output + rest, ran.stderr.read())


def trickle(pieces, pause, words=RUN):
    """What a run comes to whose input comes in pieces, with a pause before each."""
    with started(words) as ran:
        with contextlib.suppress(BrokenPipeError):
            for piece in pieces:
                time.sleep(pause)
                ran.stdin.write(piece)
        ran.stdin.close()
        return end_of(ran)


def cut(text, size):
    return [text[at:at + size] for at in range(0, len(text), size)]


def closing(descriptor):
    """How a program is run with this stream closed."""
    return {"preexec_fn": lambda: os.close(descriptor)}


def read(name):
    with open(f"{EXAMPLES}/{name}", "rb") as it:
        return it.read()


def edited(old, new, name="bus.toml"):
    text = read(name).decode()
    if old not in text:
        sys.exit(f"program: {old!r} is not in examples/{name}")
    return text.replace(old, new).encode()


def in_lines(replies):
    return "".join(f"{reply}\n" for reply in replies).encode()


def session(pairs):
    """The input and the output of lines beside their replies."""
    lines, replies = zip(*pairs)
    return in_lines(lines), in_lines(replies)


def play(words, pairs, **how):
    """What a run comes to that is given these lines, and what it has to come to."""
    lines, replies = session(pairs)
    return run(words, lines, **how), answers(replies)


def boardings(count):
    """That many boardings at 07:00:00, each of an account of its own, and their replies, of 17 bytes each."""
    lines = "".join(f"TAP 1 1 {account} 1704697200 50 BUS\n" for account in range(1, count + 1)).encode()
    return lines, b"OK 19730 175 175\n" * count


def taps_of(rows, account=7):
    """The lines of taps."""
    return [f"TAP 1 {seq} {account} {utc} {place} {kind}" for seq, (utc, place, kind, *_) in enumerate(rows, 1)]


def rows_of(text):
    """The rows of a text, each in its two halves."""
    for line in text.splitlines():
        if line.strip() and not line.strip().startswith("//"):
            given, wanted = map(str.strip, line.split(" => "))
            yield given, wanted


@contextlib.contextmanager
def opened_pipe():
    """A pipe to write to, which nobody reads."""
    reading, writing = os.pipe()
    os.close(reading)
    with open(writing, "wb") as it:
        yield it


def bytes_of(path):
    """The bytes of a file. None where there is none."""
    with contextlib.suppress(FileNotFoundError), open(path, "rb") as it:
        return it.read()


def missing(folder, name="journal"):
    """The path of a file that is not there, or not any more."""
    path = os.path.join(folder, name)
    with contextlib.suppress(FileNotFoundError):
        os.remove(path)
    return path


def limited_to(room, most=None):
    """How a program is run whose files take so many bytes, or that may be given room for this many."""

    def limit():
        signal.signal(signal.SIGXFSZ, signal.SIG_IGN)
        resource.setrlimit(resource.RLIMIT_FSIZE, (room, room if most is None else most))

    return {"preexec_fn": limit}
