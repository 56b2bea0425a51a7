"""Output that cannot be written, input that cannot be read, errors that cannot be told, and which fault of several
comes first."""

import contextlib
import functools
import itertools
import os
import resource
import signal
import socket
import subprocess

from support.clocks import SUMMER_DAY
from support.journals import with_journal
from support.preloads import preloaded
from support.repository import CHECK, COUNTED, LONDON, STATE
from support.running import (
    FARES, MISSING, RUN, USAGE, End, answers, boardings, bytes_of, closing, edited, end_of, fault, heard, in_lines,
    missing, opened_pipe, run, run_file, session, started, taps_of, written,
)
from support.sessions import LATE_LINES, LATE_REPLIES
from support.statements import A_BOARDING, RAIL_AND_LONE, RAIL_AND_LONE_ROWS, rows_of_statement
from support.theme import Theme


@contextlib.contextmanager
def opened_folder():
    """The descriptor of a folder, from which no bytes can be read."""
    folder = os.open("/", os.O_RDONLY)
    try:
        yield folder
    finally:
        os.close(folder)


class FirstFaults(Theme):
    """Which of several faults is told."""

    def test_first_fault(self):
        """Of several faults the first is told, and the input is left as it was."""
        refused = written(self.folder, "refused", edited("hopper = 3600", "hopper = 0"))
        lines, _ = boardings(2)
        path = written(self.folder, "lines", lines)
        for name, given, wanted in (
            ("too many words, no fare file, bad zone", ["run", MISSING, "no zone", "more"], USAGE),
            ("too many words, refused fare file, bad zone", ["run", refused, "no zone", "more"], USAGE),
            ("no fare file, bad zone", ["run", MISSING, "no zone"], fault("cannot read fares")),
            ("refused fare file, bad zone", ["run", refused, "no zone"], fault("13 OutOfRange")),
            ("refused fare file", ["run", refused, LONDON], fault("13 OutOfRange")),
            ("bad zone", ["run", FARES, "no zone"], fault("bad zone")),
            ("too many words, no fare file to check", ["check", MISSING, "more"], USAGE),
            ("no fare file to check", ["check", MISSING], fault("cannot read fares")),
            ("refused fare file to check", ["check", refused], fault("13 OutOfRange")),
            ("no account, no fare file, bad zone", ["statement", MISSING, "no zone", "0", "19730"], USAGE),
            ("no day, refused fare file, bad zone", ["statement", refused, "no zone", "7", "3"], USAGE),
            (
                "no fare file for a statement, bad zone",
                ["statement", MISSING, "no zone", *STATE[3:]],
                fault("cannot read fares"),
            ),
            (
                "refused fare file for a statement, bad zone",
                ["statement", refused, "no zone", *STATE[3:]],
                fault("13 OutOfRange"),
            ),
            ("bad zone for a statement", ["statement", FARES, "no zone", *STATE[3:]], fault("bad zone")),
        ):
            with opened_folder() as bad_input, open("/dev/full", "wb") as full:
                came = run(given, stdin=bad_input, stdout=full)
            self.check(f"{name}, bad input and no room for output", came, wanted._replace(output=None))
            self.check(f"{name}, with lines in a file", run_file(given, path, leaves=True), wanted._replace(left=lines))
        with opened_folder() as bad_input, open("/dev/full", "wb") as full:
            for given in (RUN, STATE):
                self.check(
                    f"bad input and no room for output of {given[0]}",
                    run(given, stdin=bad_input, stdout=full),
                    fault("input fault", output=None),
                )


def to_full(given, lines):
    with open("/dev/full", "wb") as full:
        return run(given, lines, stdout=full)


def to_closed(given, lines):
    return run(given, lines, stdout=None, **closing(1))


def to_read_only(given, lines):
    with open("/dev/null", "rb") as read_only:
        return run(given, lines, stdout=read_only)


def to_nobody(given, lines, **how):
    with opened_pipe() as pipe:
        return run(given, lines, stdout=pipe, **how)


def to_nobody_unsignalled(given, lines):
    """The same where the parent ignores a broken pipe's signal, as Python does."""
    return to_nobody(given, lines, restore_signals=False)


UNWRITABLE = {
    "without room": to_full,
    "closed": to_closed,
    "for reading": to_read_only,
    "that nobody reads": to_nobody,
    "that nobody reads, without a signal": to_nobody_unsignalled,
}


def close_all(descriptors):
    for it in descriptors:
        os.close(it)


def to_one_who_goes():
    """What a session comes to whose reader goes after the first reply."""
    first, reply = boardings(1)
    with started() as ran:
        ran.stdin.write(first)
        output = heard(ran.stdout, len(reply))
        ran.stdout.close()
        ran.stdin.write(first)
        return end_of(ran, output)


def to_a_file_of(room, folder, given, lines):
    """What a run comes to whose output goes to a file that can take so many bytes."""

    def limit():
        signal.signal(signal.SIGXFSZ, signal.SIG_IGN)
        resource.setrlimit(resource.RLIMIT_FSIZE, (room, room))

    path = os.path.join(folder, "replies")
    with open(path, "wb") as it:
        came = run(given, lines, stdout=it, preexec_fn=limit)
    with open(path, "rb") as it:
        return came._replace(output=it.read())


def begun(came, text):
    """The same, but for an output that is the beginning of a text."""
    return came._replace(output=None) if text.startswith(came.output) else came


class Outputs(Theme):
    """Outputs that cannot be written."""

    def test_outputs_that_fail(self):
        """Output that cannot be written."""
        for name, put in UNWRITABLE.items():
            for what, given, lines in (
                ("a line", RUN, b"\n"),
                ("QUIT", RUN, b"QUIT\n"),
                ("help", ["--help"], b""),
                ("help for run", ["help", "run"], b""),
                ("help for statement", ["help", "statement"], b""),
                ("what a fare file has", CHECK, b""),
                ("a statement without rows", STATE, b""),
                ("a statement", STATE, boardings(7)[0]),
            ):
                self.check(f"{what}, and an output {name}", put(given, lines), fault("output fault", output=None))
            self.check(f"no lines, and an output {name}", put(RUN, b""), End(0, None))

    def test_streams_closed_beside_a_journal(self):
        """Where a standard stream is closed no file takes its place: the journal has its lines alone, and the next
        session takes it."""
        lines, replies = boardings(3)
        first = lines[:lines.index(b"\n") + 1]
        dues = b"".join(f"DUE {account} 19730\n".encode() for account in (1, 2, 3))
        due = b"".join(f"DUE {account} 19730 19730 1 175 4=175\n".encode() for account in (1, 2, 3))
        no_input, no_output, no_errors = {"stdin": subprocess.DEVNULL}, {"stdout": None}, {"stderr": None}
        for name, descriptors, how, wanted, kept in (
            ("input", (0,), no_input, fault("input fault"), b""),
            ("output", (1,), no_output, fault("output fault", output=None), first),
            ("errors", (2,), no_errors, End(0, replies, None), lines),
            ("output and errors", (1, 2), {**no_output, **no_errors}, End(1, None, None), first),
            ("all three", (0, 1, 2), {**no_input, **no_output, **no_errors}, End(1, None, None), b""),
        ):
            how["preexec_fn"] = functools.partial(close_all, descriptors)
            for more in ((), ("--ledger", os.path.join(self.folder, f"{name}.ledger"))):
                journal = os.path.join(self.folder, f"{name}{len(more)}.lines")
                words = [*RUN, "--journal", journal, *more]
                what = f"{name} closed{' with a ledger' if more else ''}"
                self.check(what, run(words, b"" if 0 in descriptors else lines, **how), wanted)
                self.check(f"{what}, the journal", answers(bytes_of(journal)), answers(kept))
                again = replies.replace(b"OK", b"AGAIN", kept.count(b"\n"))
                self.check(f"{what}, and a session after it", run(words, lines + dues), answers(again + due))

    def test_readers_that_go(self):
        """Output that can be written no more."""
        self.check(
            "a reader that goes after the first reply", to_one_who_goes(), fault("output fault", boardings(1)[1])
        )

    def test_outputs_with_room(self):
        """The replies that fit are there, and of the next one the bytes that fit."""
        for given, (lines, replies) in ((RUN, session(SUMMER_DAY)), (CHECK, (b"", COUNTED))):
            for room in range(len(replies)):
                self.check(
                    f"{given[0]}, an output with room for {room} bytes",
                    to_a_file_of(room, self.folder, given, lines),
                    fault("output fault", replies[:room]),
                )
            self.check(
                f"{given[0]}, an output with just the room",
                to_a_file_of(len(replies), self.folder, given, lines),
                answers(replies),
            )

    def test_statements_cut(self):
        """A statement, and an output with room for a part of it. How much of it is then written is open."""
        lines, text = in_lines(taps_of(RAIL_AND_LONE)), rows_of_statement(*RAIL_AND_LONE_ROWS).output
        for room in range(len(text)):
            came = to_a_file_of(room, self.folder, STATE, lines)
            self.check(
                f"a statement, an output with room for {room} bytes",
                begun(came, text),
                fault("output fault", output=None),
            )
        self.check(
            "a statement, an output with just the room",
            to_a_file_of(len(text), self.folder, STATE, lines),
            answers(text),
        )


def broken_off(given, words=RUN):
    """What a run comes to that is sent these bytes by a peer who then breaks the connection."""
    ours, theirs = socket.socketpair()
    with theirs:
        # Where a peer closes and has bytes unread, the next read fails.
        theirs.sendall(b"unread")
        ours.sendall(given)
        with started(words, stdin=theirs) as ran:
            ours.close()
            return end_of(ran)


class Inputs(Theme):
    """Inputs that cannot be read."""

    def test_input_faults(self):
        """Input that cannot be read."""
        lines, replies = boardings(4)
        bad = fault("input fault")
        with opened_folder() as it:
            self.check("a folder as input", run(RUN, stdin=it), bad)
        self.check("input closed", run(RUN, stdin=subprocess.DEVNULL, **closing(0)), bad)
        with open(os.path.join(self.folder, "written"), "wb") as it:
            self.check("an input that is for writing", run(RUN, stdin=it), bad)
        for name, rest in (("", b""), (" and a cut line", b"TAP 1 1 7"), (" and a cut long line", b"A" * 200)):
            self.check(
                f"four lines{name}, and a connection that breaks",
                broken_off(lines + rest),
                bad._replace(output=replies),
            )
        self.check(
            "four lines and QUIT, and a connection that breaks",
            broken_off(lines + b"QUIT\n"),
            answers(replies + b"BYE\n"),
        )

    def test_connections_that_break(self):
        """A session whose input breaks after each of its bytes: the lines before are answered, and no more is read."""
        lines = in_lines(LATE_LINES)
        for end in range(len(lines) + 1):
            whole = lines[:end].count(b"\n")
            self.check(
                f"{end} bytes, and a connection that breaks",
                broken_off(lines[:end]),
                fault("input fault", in_lines(LATE_REPLIES[:whole])),
            )

    def test_input_faults_of_statements(self):
        """The same of a statement, of which nothing is then written."""
        lines, _ = boardings(7)
        bad = fault("input fault")
        with opened_folder() as it:
            self.check("a statement, and a folder as input", run(STATE, stdin=it), bad)
        self.check("a statement, and input closed", run(STATE, stdin=subprocess.DEVNULL, **closing(0)), bad)
        with open(os.path.join(self.folder, "written"), "wb") as it:
            self.check("a statement, and an input that is for writing", run(STATE, stdin=it), bad)
        for name, rest in (("", b""), (" and a cut line", b"TAP 1 1 7"), (" and a cut long line", b"A" * 200)):
            self.check(
                f"a statement of seven lines{name}, and a connection that breaks", broken_off(lines + rest, STATE), bad
            )
        self.check(
            "a statement of seven lines and QUIT, and a connection that breaks",
            broken_off(lines + b"QUIT\n", STATE),
            rows_of_statement(A_BOARDING),
        )


# How often a session fills its buffer at the most.
MOST_FILLS = 16_777_216


class Pieces(Theme):
    """Streams that give and take few bytes of a call, are interrupted, or fail once."""

    def setUp(self):
        super().setUp()
        self.library = preloaded(self.folder)

    def broken_up(self, **how):
        """How a program is run whose standard streams are broken up so."""
        return {"env": {"LD_PRELOAD": self.library, **{name: str(it) for name, it in how.items()}}}

    def test_streams_in_pieces(self):
        """The same, however few bytes go at a time, and if each second call of a stream is interrupted."""
        statement = in_lines(taps_of(RAIL_AND_LONE))
        for name, words, lines, wanted in (
            ("a session with a close", RUN, in_lines(LATE_LINES), answers(in_lines(LATE_REPLIES))),
            ("what a fare file has", CHECK, b"", answers(COUNTED)),
            ("a statement", STATE, statement, rows_of_statement(*RAIL_AND_LONE_ROWS)),
        ):
            for piece in (1, 5, 1_000):
                self.check(f"{name}, {piece} bytes at a time", run(words, lines, **self.broken_up(PIECE=piece)), wanted)
                how = self.broken_up(PIECE=piece, INTERRUPTED=1)
                self.check(f"{name}, {piece} bytes at a time, interrupted", run(words, lines, **how), wanted)

    def test_outputs_that_fail_once(self):
        """Nothing is written after a write that failed or took nothing, and no line is taken but the next one."""
        late = in_lines(LATE_LINES), in_lines(LATE_REPLIES)
        ways = ({}, {"TAKES_NOTHING": 1}, {"PIECE": 5, "INTERRUPTED": 1})
        for written_bytes, how in zip(range(len(late[1])), itertools.cycle(ways)):
            came = run(RUN, late[0], **self.broken_up(WRITTEN=written_bytes, **how))
            wanted = fault("output fault", late[1][:written_bytes])
            self.check(f"a write that fails after {written_bytes} bytes {how}", came, wanted)
        lines, replies = boardings(4)
        for written_bytes in range(len(replies)):
            journal = missing(self.folder)
            came = run(with_journal(journal), lines, **self.broken_up(WRITTEN=written_bytes))
            # The line of the reply that failed was taken, and each is kept before its reply.
            taken = written_bytes // 17 + 1
            self.check(
                f"a journal, and a write that fails after {written_bytes} bytes",
                came._replace(left=bytes_of(journal)),
                fault("output fault", replies[:written_bytes])._replace(left=boardings(taken)[0]),
            )

    def test_fills_that_end(self):
        """A session gives up after its last fill, and not before."""
        one_at_a_time = self.broken_up(PIECE=1)
        # The end of the input takes one too.
        self.check(
            "an end at the last fill", run(RUN, b"A" * (MOST_FILLS - 1), **one_at_a_time), answers(b"NO 51 LongLine\n")
        )
        self.check("no end at the last fill", run(RUN, b"A" * MOST_FILLS, **one_at_a_time), fault("input fault"))


class Errors(Theme):
    """Errors that cannot be told."""

    def test_errors_untold(self):
        """A fault has its status where its line cannot be told."""
        for name, given, status in (
            ("refused words", ["fly"], 2),
            ("no fare file", ["run", MISSING, LONDON], 1),
            ("bad zone", ["run", FARES, ""], 1),
            ("no fare file to check", ["check", MISSING], 1),
            ("no fare file for a statement", ["statement", MISSING, *STATE[2:]], 1),
            ("no account for a statement", [*STATE[:3], "0", "19730"], 2),
        ):
            wanted = End(status, errors=None)
            with open("/dev/full", "wb") as full:
                self.check(f"{name}, and no room for errors", run(given, stderr=full), wanted)
            with opened_pipe() as pipe:
                self.check(f"{name}, and errors that nobody reads", run(given, stderr=pipe), wanted)
            self.check(f"{name}, and errors closed", run(given, stderr=None, **closing(2)), wanted)
