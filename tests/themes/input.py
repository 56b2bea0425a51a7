"""Lines that come in pieces, last lines without their end, and what stands after QUIT."""

import contextlib

from support.clocks import SUMMER_DAY
from support.examples import told_replies
from support.running import (
    RUN, End, answers, boardings, cut, end_of, heard, in_lines, read, run, run_file, session, started, trickle, written,
)
from support.sessions import LATE_LINES, LATE_REPLIES
from support.theme import Theme


def converse(pairs):
    """What a session comes to that is sent each line after the reply to the one before, and whose input is left
    open."""
    with started() as ran:
        output = b""
        for pair in pairs:
            line, reply = session([pair])
            with contextlib.suppress(BrokenPipeError):
                ran.stdin.write(line)
            came = heard(ran.stdout, len(reply))
            output += came
            if len(came) < len(reply):
                return End("no reply", output)
        return end_of(ran, output)


# A last line that no newline ends, and the reply to it.
CUT_LINES = (
    (b"", b""),
    (b"Q", b"NO 50 BadLine\n"),
    (b"QUIT", b"NO 50 BadLine\n"),
    (b"TAP 1 1 8 1704697200 50 BUS", b"NO 50 BadLine\n"),
    (b"A" * 128, b"NO 50 BadLine\n"),
    (b"A" * 129, b"NO 51 LongLine\n"),
    (b"A" * 60_000, b"NO 51 LongLine\n"),
)

AFTER_QUIT = {
    "nothing": b"",
    "3,000 lines": boardings(3_000)[0],
    "QUIT": b"QUIT\n",
    "a cut line": b"TAP 1 1 7",
    "a line of 100,000 bytes": b"A" * 100_000,
}
NOT_QUIT = (b"QUIT ", b" QUIT", b"quit", b"QUIT\r", b"QUIT\0", b"QUIT 1", b"QUITQUIT", b"QUI")


class Input(Theme):
    def test_input_in_pieces(self):
        """The same replies, however the input comes."""
        told = told_replies()
        for name in ("rail-day.txt", "refusals.txt"):
            for size, pause in ((1, 0.0005), (3, 0.0005), (100, 0.01)):
                self.check(
                    f"{name} in pieces of {size} bytes", trickle(cut(read(name), size), pause), answers(told[name])
                )
        replies = session(SUMMER_DAY)[1]
        self.check(
            "each line after a reply, and an end at QUIT with the input left open",
            converse(SUMMER_DAY),
            answers(replies),
        )
        each = (("", "NO 50 BadLine"), ("TAP", "NO 50 BadLine"), ("SHOW 7 19730", "SHOW 7 19730 0 0"), ("QUIT", "BYE"))
        self.check("short lines, each after a reply", converse(each), answers(session(each)[1]))
        # More bytes than the times that a session may fill its buffer.
        first, reply = boardings(1)
        endless = b"A" * 17_000_000 + b"\n" + first
        wanted = answers(b"NO 51 LongLine\n" + reply)
        self.check("a line of 17,000,000 bytes through a pipe", run(RUN, endless), wanted)
        self.check(
            "a line of 17,000,000 bytes in a file", run_file(RUN, written(self.folder, "endless", endless)), wanted
        )

    def test_ends_of_input(self):
        """A session is the input from where it stands to its end, whatever the last line is."""
        first, reply = boardings(1)
        path = written(self.folder, "two", b"QUIT\n" + first)
        self.check("no input", run(RUN), answers(b""))
        self.check("a file from its second line on", run_file(RUN, path, start=5), answers(reply))
        for rest, refusal in CUT_LINES:
            name, wanted = f"a last line of {len(rest):,} bytes without its end", answers(reply + refusal)
            self.check(name, run(RUN, first + rest), wanted)
            self.check(f"{name}, in a file", run_file(RUN, written(self.folder, "cut", first + rest)), wanted)
            self.check(f"{name}, after a pause", trickle([first, rest[:3], rest[3:]], 0.02), wanted)

    def test_cut_sessions(self):
        """A session that ends after each of its bytes."""
        lines = in_lines(LATE_LINES)
        for end in range(len(lines) + 1):
            whole = lines[:end].count(b"\n")
            rest = ["NO 50 BadLine"] if lines[:end].rpartition(b"\n")[2] else []
            self.check(
                f"a session of {end} bytes", run(RUN, lines[:end]), answers(in_lines([*LATE_REPLIES[:whole], *rest]))
            )

    def test_after_quit(self):
        """No line after QUIT is answered."""
        lines, replies = boardings(3_000)
        for name, rest in AFTER_QUIT.items():
            given, wanted = lines + b"QUIT\n" + rest, answers(replies + b"BYE\n")
            self.check(f"{name} after QUIT, through a pipe", run(RUN, given), wanted)
            self.check(f"{name} after QUIT, in a file", run_file(RUN, written(self.folder, "lines", given)), wanted)
        self.check("QUIT before all lines", run(RUN, b"QUIT\n" + lines), answers(b"BYE\n"))
        first, reply = boardings(1)
        for name, given in (
            ("QUIT in two pieces", [first + b"QU", b"IT\n" + first]),
            ("QUIT and then its end", [first + b"QUIT", b"\n" + first]),
            ("lines that come after QUIT", [first, b"QUIT\n", first, first]),
        ):
            self.check(name, trickle(given, 0.05), answers(reply + b"BYE\n"))
        for line in NOT_QUIT:
            self.check(
                f"{line}, which is not QUIT", run(RUN, line + b"\n" + first), answers(b"NO 50 BadLine\n" + reply)
            )

    def test_rest_of_a_file(self):
        """`(farebox run FARES ZONE; cat) < lines`: `cat` finds what stands after QUIT, and all of it."""
        for before in (0, 1, 145, 146, 147, 292, 293, 3_000):
            lines, replies = boardings(before)
            for rest in (b"", b"QUIT\n", b"cut", *(boardings(count)[0] for count in (1, 200, 40_000))):
                path = written(self.folder, "lines", lines + b"QUIT\n" + rest)
                name = f"{len(rest)} bytes after {before} lines and QUIT"
                self.check(name, run_file(RUN, path, leaves=True), answers(replies + b"BYE\n")._replace(left=rest))
