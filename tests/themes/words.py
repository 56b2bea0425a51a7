"""The words of the program: help, the version, words that are taken and words that are refused."""

import os

from support.repository import CHECK, LONDON, ROOT, STATE
from support.running import FARES, MISSING, RUN, USAGE, End, answers, boardings, fault, read, run, written
from support.statements import A_BOARDING, rows_of_statement
from support.theme import Theme

OPTIONS = ["--port", "9000", "--lanes", "2", "--shards", "4", "--sessions", "1", "--close", "19730"]
SERVE = ["serve", FARES, LONDON, *OPTIONS]

# The exact texts of help and of the version.
STATUSES = b"""
Statuses:
  0  all right
  1  a fault, which one line on standard error names
  2  the words were refused
"""
RUN_EXAMPLE = b"""
Example: account 7 boards a bus in London on Monday 8 January 2024 at 07:00. The reply names the
day, counted from 1970-01-01, its price and that of its week, in pence.
  $ farebox run examples/bus.toml GMT0BST,M3.5.0/1,M10.5.0
  TAP 1 1 7 1704697200 50 BUS
  OK 19730 175 175
"""
RUN_FORMATS = b"""
The lines and replies, the fare file and the faults are described in docs/FORMATS.md.
"""
PROGRAM_HELP = b"""\
The back office that prices contactless pay as you go travel from taps

Usage: farebox <COMMAND>

Commands:
  run        Read taps, corrections and closes from standard input, and reply to each
  check      Read a fare file, and print how many places, bands, interchanges, holidays and editions
             it has, or its first fault; or compare it with another
  statement  Read taps and corrections from standard input, and print the statement of an account's
             week as CSV; or a long one, from journals, with all that the week comes to
  explain    Read journals, and say why an account's day or week was charged, in plain words
  page       Show why accounts were charged, as web pages for customer service, and take corrections
  replay     Read journals, and print how many lines and accounts they have, with the first and last
             instant, or the first bad line
  serve      Read taps and corrections from the connections of several lanes. Close a day after so
             many connections, or stay, and close days when staff say so
  audit      Compare a journal with what is kept beside it and with a ledger, and print each thing
             that differs and each week that is not settled
  rebuild    Print the lines of the taps and corrections that a ledger archives, as a journal
             has them
  follow     Answer the lines of a partition of a replicated log, and publish each reply under its
             place
  log        Make the streams of a replicated log, or say how they are
  help       Print this message or the help of the given subcommand(s)

Options:
  -h, --help     Print help
  -V, --version  Print version

Words of run (FARES ZONE), of check (FARES), of statement (FARES ZONE ACCOUNT DAY), of explain
(FARES ZONE ACCOUNT DAY --journal PATH), of page (FARES ZONE --journal PATH --port P), of replay
(FARES ZONE FILE..), of serve (FARES ZONE --port P --lanes L --shards N --sessions K --close DAY, or
FARES ZONE --port P --lanes L --shards N --control C --journal FOLDER --ledger FILE), of audit
(FARES ZONE --journal PATH), of rebuild (FARES LEDGER), of follow (FARES ZONE --log URL
--partition P --of N --ledger FILE) and of log (make FARES ZONE --log URL --of N --replicas R, or
check FARES ZONE --log URL --of N), with options in any order:
  FARES    the fare file, a TOML document, which may hold editions, fares that hold from a day on
  ZONE     the time zone, a POSIX rule text (a name such as Europe/London is none)
  ACCOUNT  the account, a number from 1 to 4294967295
  DAY      a service day: its date, such as 2024-01-08, or its number, counted from 1970-01-01
  P        the port of the first lane, each further lane has the next port; with C, of all lanes;
           of page, the port that answers browsers; of follow, a partition, from 0 to N - 1
  L        how many lanes there are, from 1 to 15; with C, from 1 to 14
  N        how many shards the accounts are spread over, from 1 to 16; of follow and of log,
           how many partitions the log has, from 1 to 16
  K        how many connections each lane serves, from 1 to 1000; then the service ends
  C        the port for staff, who close days and end the service; of page, the one that is asked
  FILE     a journal, which run or serve wrote
  PATH     a journal, or a folder of journals, which is only read
  LEDGER   the SQLite file that days were closed into
  URL      a node of a replicated log, nats://127.0.0.1:PORT
  R        how many nodes have a copy of each stream of the log, from 1 to 5

Further options: --journal FILE and --ledger FILE of run, and --sync with --journal; --lint and
--against OLD of check, where OLD is another fare file, and --after DAY with --against; --journal
FILE of statement, where it is only read, --long with --journal PATH, for the long statement, and
--ledger FILE with --long; --ledger FILE of explain, where it is only read, and --week, for the week
through DAY; --control C of page, to ask a service, --greeting TEXT, which that service has, --staff
FILE, the clerks who may correct, and --ledger FILE, where it is only read; --journal FOLDER and
--ledger FILE of serve; --ahead S of serve with --control, to refuse taps more than S seconds ahead
of this machine's clock, --refused FILE, to which refused lines are added, and --greeting TEXT, with
which connections begin; --early of run and of serve, to close a day that is not over yet; --ledger
FILE of audit.
""" + RUN_EXAMPLE + STATUSES + RUN_FORMATS
RUN_HELP = b"""\
Read taps, corrections and closes from standard input, and reply to each

Usage: farebox run [OPTIONS] <FARES> <ZONE>

Arguments:
  <FARES>  The fare file, a TOML document
  <ZONE>   The time zone, a POSIX rule text such as GMT0BST,M3.5.0/1,M10.5.0
           (a name such as Europe/London is none)

Options:
      --journal <FILE>  A file of the lines that were accepted. They are taken first, and each line
                        that is accepted is added before its reply. It is made if it is missing
      --sync            Each line is on the disk before its reply. Without it, before a close is
                        posted, and at the end
      --ledger <FILE>   The SQLite file that days are closed into. It is made if it is missing
      --early           Close a day that is not over yet. Without it, a close into a ledger in a
                        file is refused before its day is over by this machine's clock
  -h, --help            Print help

With --journal FILE the lines that were accepted before are taken first, and with --ledger FILE days
are closed into a file: those that are over by this machine's clock, and with --early any. With
--journal and without --ledger nothing is closed, and a CLOSE is refused by 34: what is posted would
not be there for the next session. --sync is taken with --journal alone. Without --ledger, --early
does nothing.
""" + RUN_EXAMPLE + STATUSES + RUN_FORMATS
CHECK_HELP = b"""\
Read a fare file, and print how many places, bands, interchanges, holidays and editions
it has, or its first fault; or compare it with another

Usage: farebox check [OPTIONS] <FARES>

Arguments:
  <FARES>  The fare file, a TOML document

Options:
      --lint           Say where a fault lies, and warn of what may be a mistake: keys that nothing
                       reads, a peak fare below its off-peak fare, a week cap below its day cap,
                       fares and caps of 0, no bands, no holiday after the last edition begins. A
                       warning is status 1
      --against <OLD>  Compare with another fare file: OK if each day is priced as by it, else the
                       first day and key that are not
      --after <DAY>    With --against: OK if all days up to this one are priced alike. Take the
                       last day that has a tap: today, if a service runs. Its date, such as
                       2024-01-08, or its number from 4 to 50000, counted from 1970-01-01
  -h, --help           Print help

A fare file may hold editions, fares that hold from a day on. Where it has n of them the line ends
with ` editions n`. --after is taken with --against alone.

Example: a fare file of five stations and a bus route, with three bands that cap prices.
  $ farebox check examples/sample.toml
  OK places 6 bands 3 interchanges 1 holidays 1

Example: the same, and an edition with new fares from Tuesday 9 January 2024 on.
  $ farebox check examples/two.toml
  OK places 6 bands 3 interchanges 1 holidays 1 editions 1
""" + STATUSES + b"""
The fare file and the faults are described in docs/FORMATS.md.
"""
STATEMENT_HELP = b"""\
Read taps and corrections from standard input, and print the statement of an account's
week as CSV; or a long one, from journals, with all that the week comes to

Usage: farebox statement [OPTIONS] <FARES> <ZONE> <ACCOUNT> <DAY>

Arguments:
  <FARES>    The fare file, a TOML document
  <ZONE>     The time zone, a POSIX rule text such as GMT0BST,M3.5.0/1,M10.5.0
             (a name such as Europe/London is none)
  <ACCOUNT>  The account, a number from 1 to 4294967295
  <DAY>      A service day of the week: its date, such as 2024-01-08, or its number from 4
             to 50000, counted from 1970-01-01

Options:
      --journal <PATH>  A file of the lines that were accepted. They are taken first; it is only
                        read. With --long, a journal that has the account, or a folder of
                        journals
      --ledger <FILE>   With --long: the SQLite file that days were closed into, for what was
                        posted; it is only read
      --long            Print the long statement, which names places, and has rows for caps,
                        Credits and what was posted. It needs --journal, and standard input is
                        not read
  -h, --help            Print help

With --journal FILE the lines that were accepted before are taken first, and then those of standard
input. Nothing is added to the file.

Example: account 7 boards a bus in London on Monday 8 January 2024 at 07:00. No replies are
printed; at the end of input the journeys of its week are, a row for each.
  $ farebox statement examples/bus.toml GMT0BST,M3.5.0/1,M10.5.0 7 19730
  TAP 1 1 7 1704697200 50 BUS
  day,kind,from,to,start,fare,band
  19730,BUS,50,0,07:00:00,175,-

With --long too, PATH is also a FOLDER of `serve --journal FOLDER`, standard input is not read, and
the rows are those of the whole week: its journeys with the names of places, what caps take off, the
Credits, and with --ledger FILE what was posted. The column `amount` adds up to what is due, and the
column `posted` to what was charged.
""" + STATUSES + b"""
The lines, the fare file, the statement and the faults are described in docs/FORMATS.md.
"""
EXPLAIN_HELP = b"""\
Read journals, and say why an account's day or week was charged, in plain words

Usage: farebox explain [OPTIONS] --journal <PATH> <FARES> <ZONE> <ACCOUNT> <DAY>

Arguments:
  <FARES>    The fare file, a TOML document
  <ZONE>     The time zone, a POSIX rule text such as GMT0BST,M3.5.0/1,M10.5.0
             (a name such as Europe/London is none)
  <ACCOUNT>  The account, a number from 1 to 4294967295
  <DAY>      The service day: its date, such as 2024-01-08, or its number from 4 to 50000,
             counted from 1970-01-01

Options:
      --journal <PATH>  A journal that has the account, or a folder of journals; it is only read
      --ledger <FILE>   The SQLite file that days were closed into; it is only read
      --week            Explain its week through that day, in place of the day alone
  -h, --help            Print help

PATH is the FILE of `run --journal FILE`, or the FOLDER of `serve --journal FOLDER`. Standard input
is not read.
""" + STATUSES + b"""
The journal, the fare file and the faults are described in docs/FORMATS.md.
"""
PAGE_HELP = b"""\
Show why accounts were charged, as web pages for customer service, and take corrections

Usage: farebox page [OPTIONS] --journal <PATH> --port <P> <FARES> <ZONE>

Arguments:
  <FARES>  The fare file, a TOML document
  <ZONE>   The time zone, a POSIX rule text such as GMT0BST,M3.5.0/1,M10.5.0
           (a name such as Europe/London is none)

Options:
      --journal <PATH>   A journal that has the accounts, or a folder of journals; it is only read
      --port <P>         The port of 127.0.0.1 that answers browsers, from 1 to 65535
      --control <C>      Ask a service: its port for staff, from 1 to 65535, and not P. What it has
                         counted is shown at /metrics, and corrections are sent to it
      --greeting <TEXT>  The greeting of that service, if it has one. It needs --control
      --staff <FILE>     The file of the clerks who may correct. It needs --control
      --ledger <FILE>    The SQLite file that days were closed into, or a copy of it, for what was
                         posted; it is only read
  -h, --help             Print help

PATH is the FILE of `run --journal FILE`, or the FOLDER of `serve --journal FOLDER`. The ports are
of 127.0.0.1 alone. Standard input is not read. With --control C the pages show at /metrics what
`serve --control C` has counted. With --staff FILE too, the clerks in FILE may correct, and their
corrections are sent to that port. If the service has a --greeting, the pages need the same. With
--ledger FILE the page of a week shows what was posted. FILE may be a copy of the ledger.
""" + STATUSES + b"""
The journal, the fare file and the faults are described in docs/FORMATS.md.
"""
REPLAY_HELP = b"""\
Read journals, and print how many lines and accounts they have, with the first and last
instant, or the first bad line

Usage: farebox replay <FARES> <ZONE> <FILE>...

Arguments:
  <FARES>    The fare file, a TOML document
  <ZONE>     The time zone, a POSIX rule text such as GMT0BST,M3.5.0/1,M10.5.0
             (a name such as Europe/London is none)
  <FILE>...  The journals, files of lines that were accepted

Options:
  -h, --help  Print help

A journal is what `run --journal FILE` writes: the lines that were accepted, in their order. In the
folder of `serve --journal FOLDER` there is one for each shard.
""" + STATUSES + b"""
The lines, the journal and the faults are described in docs/FORMATS.md.
"""
SERVE_HELP = b"""\
Read taps and corrections from the connections of several lanes. Close a day after so
many connections, or stay, and close days when staff say so

Usage: farebox serve [OPTIONS] --port <P> --lanes <L> --shards <N> <FARES> <ZONE>

Arguments:
  <FARES>  The fare file, a TOML document
  <ZONE>   The time zone, a POSIX rule text such as GMT0BST,M3.5.0/1,M10.5.0
           (a name such as Europe/London is none)

Options:
      --port <P>          The port of the first lane, from 1 to 65535. Each further lane has the
                          next port, and none is above 65535. With --control, the port of all lanes
      --lanes <L>         How many lanes there are, from 1 to 15; with --control, from 1 to 14
      --shards <N>        How many shards the accounts are spread over, from 1 to 16
      --sessions <K>      For a service that ends: how many connections each lane serves, from 1 to
                          1000
      --close <DAY>       For a service that ends: the service day that is closed at its end. Its
                          date, such as 2024-01-08, or its number from 4 to 50000, counted from
                          1970-01-01
      --control <C>       For a service that stays: the port for its staff, from 1 to 65535, and not
                          P. It needs --journal and --ledger, and takes no --sessions and no --close
      --ahead <S>         For a service that stays: refuse taps that are more than S seconds ahead
                          of this machine's clock, by 1. From 0 to 86400
      --refused <FILE>    For a service that stays: a file to which lines that are refused by 1, 15,
                          20 to 23, 50 or 51 are added, so that they can be sent again
      --greeting <TEXT>   For a service that stays: the line with which each connection has to
                          begin. 1 to 128 printable ASCII characters, no space at either end; not
                          STOP, STATS, BACKUP PATH or OPEN DAY
      --journal <FOLDER>  A folder of the lines that were accepted, a file for each shard. They are
                          taken first, and each line that is accepted is added before its reply. The
                          files are made if they are missing, the folder is not
      --ledger <FILE>     The SQLite file that days are closed into. It is made if it is missing
      --early             Close a day that is not over yet. Without it, a close into a ledger in a
                          file is refused before its day is over by this machine's clock
  -h, --help              Print help

A service has one of two forms. With --sessions K and --close DAY it ends: each lane serves K
connections, and then DAY is closed. With --control C it stays until its staff stop it. All ports
are of 127.0.0.1 alone. On a connection lines come in, and the reply to each goes out. Each lane has
a thread of its own, and so has each of the N shards that the accounts are spread over. With
--journal FOLDER the lines that were accepted before are taken first.

A service that ends: lane l, from 0 to L - 1, listens on port P + l, and serves its connections one
after another. A CLOSE is refused by 34. When all connections of all lanes have ended, DAY is
closed, the lines of that close are printed, and the program ends. With --ledger FILE the day is
closed into a file, if it is over by this machine's clock or --early is given. With --journal and
without --ledger it is not closed: its refusal by 34 is printed, and the status is 1. Without
--ledger, --early does nothing.

Example: two lanes, on ports 9000 and 9001, serve a connection each, and day 19730 is closed.
  $ farebox serve examples/bus.toml GMT0BST,M3.5.0/1,M10.5.0 --port 9000 --lanes 2 --shards 4 \\
      --sessions 1 --close 19730

A service that stays: all lanes listen on port P, and hold as many connections as come. CLOSE and
FIX are refused by 34 there, and taken at port C, as are STATS, which is answered by what the
service has counted, and STOP, which ends it. --journal FOLDER and --ledger FILE have to be given:
days are closed into that file, if they are over by this machine's clock or --early is given.

Example: two lanes serve port 9000, and staff close days at port 9100.
  $ farebox serve FARES ZONE --port 9000 --lanes 2 --shards 4 --control 9100 \\
      --journal taps --ledger fares.db
""" + STATUSES + RUN_FORMATS
AUDIT_HELP = b"""\
Compare a journal with what is kept beside it and with a ledger, and print each thing
that differs and each week that is not settled

Usage: farebox audit [OPTIONS] --journal <PATH> <FARES> <ZONE>

Arguments:
  <FARES>  The fare file, a TOML document
  <ZONE>   The time zone, a POSIX rule text such as GMT0BST,M3.5.0/1,M10.5.0
           (a name such as Europe/London is none)

Options:
      --journal <PATH>  A journal, or a folder of journals; it is only read
      --ledger <FILE>   The SQLite file that days were closed into
  -h, --help            Print help

PATH is the FILE of `run --journal FILE`, or the FOLDER of `serve --journal FOLDER`. Without
--ledger FILE it is compared with what is kept beside it alone.

Statuses:
  0  the files belong together
  1  they do not, or a fault, which one line on standard error names
  2  the words were refused

The journal, the ledger and the faults are described in docs/FORMATS.md.
"""
REBUILD_HELP = b"""\
Print the lines of the taps and corrections that a ledger archives, as a journal
has them

Usage: farebox rebuild <FARES> <LEDGER>

Arguments:
  <FARES>   The fare file, a TOML document
  <LEDGER>  The SQLite file that days were closed into

Options:
  -h, --help  Print help

LEDGER is the FILE of `run --ledger FILE` or of `serve --ledger FILE`. It archives the taps and the
corrections of the days that were closed into it.
""" + STATUSES + b"""
The lines, the journal, the ledger and the faults are described in docs/FORMATS.md.
"""
FOLLOW_HELP = b"""\
Answer the lines of a partition of a replicated log, and publish each reply under its
place

Usage: farebox follow --log <URL> --partition <P> --of <N> --ledger <FILE> <FARES> <ZONE>

Arguments:
  <FARES>  The fare file, a TOML document
  <ZONE>   The time zone, a POSIX rule text such as GMT0BST,M3.5.0/1,M10.5.0
           (a name such as Europe/London is none)

Options:
      --log <URL>      A node of the log: nats://127.0.0.1:PORT, whose port is from 1 to 65535
      --partition <P>  The partition whose lines are answered, from 0 to N - 1
      --of <N>         How many partitions the log has, from 1 to 16
      --ledger <FILE>  The SQLite file that days are closed into. It is made if it is missing
  -h, --help           Print help

A replicated log has N partitions, from 0 to N - 1. A replica answers the lines of one of them: of
the partition P. URL is nats://127.0.0.1:PORT, the text of no other host. Standard input is not
read.
""" + STATUSES + RUN_FORMATS
LOG_HELP = b"""\
Make the streams of a replicated log, or say how they are

Usage: farebox log [OPTIONS] --log <URL> --of <N> <ACTION> <FARES> <ZONE>

Arguments:
  <ACTION>  What is done with the streams of the log: make, to make them, or check, to
            say how they are
  <FARES>   The fare file, a TOML document
  <ZONE>    The time zone, a POSIX rule text such as GMT0BST,M3.5.0/1,M10.5.0
            (a name such as Europe/London is none)

Options:
      --log <URL>     A node of the log: nats://127.0.0.1:PORT, whose port is from 1 to 65535
      --of <N>        How many partitions the log has, from 1 to 16
      --replicas <R>  With make: how many nodes have a copy of each stream, from 1 to 5. It is
                      not taken with check
  -h, --help          Print help

make makes the streams of a log of N partitions, with R copies of each, and check says how they are.
--replicas has to be given with make, and is not taken with check. URL is nats://127.0.0.1:PORT, the
text of no other host. Standard input is not read.
""" + STATUSES + b"""
The fare file and the faults are described in docs/FORMATS.md.
"""
VERSION = b"farebox 0.1.0\n"

# Words after options that ask for help or the version, and words that are refused.
MORE_WORDS = (
    (["-hV"], PROGRAM_HELP), (["--help", "--version"], PROGRAM_HELP), ([*RUN, "-h"], RUN_HELP),
    (["check", FARES, "-h"], CHECK_HELP),
    ([*STATE, "--help"], STATEMENT_HELP), ([*STATE[:4], "-h"], STATEMENT_HELP), (["-V", "statement"], VERSION),
    (["statement", "-V"], None),
    (["-Vh"], VERSION), (["-Vx"], VERSION), (["--version", "--help"], VERSION), (["-V", *RUN], VERSION),
    (["-V", "check"], VERSION),
    (["--version=1"], None), (["--", "--version"], None), (["version"], None), (["run", "--version"], None),
    (["run", "-V"], None),
    ([*RUN, "-Vh"], None), (["check", "--version"], None), (["check", FARES, "--", "more"], None),
    (["check", "-fares"], None),
)


class Help(Theme):
    """Help and the version."""

    def test_help_texts(self):
        """Help and the version, to standard output."""
        lines, _ = boardings(2)
        asked = (
            (PROGRAM_HELP, (["--help"], ["-h"], ["help"], ["--help", "run"], ["-h", "check"], ["-h", "statement"])),
            (RUN_HELP, (["run", "--help"], ["run", "-h"], ["help", "run"], ["run", MISSING, "no zone", "--help"])),
            (CHECK_HELP, (
                ["check", "--help"], ["check", "-h"], ["help", "check"], ["check", MISSING, "--help"],
                ["check", "--lint", "-h"], ["check", "--after", "3", "--help"],
                ["check", MISSING, "--after", "50000", "--help", "--after", "50001"],
            )),
            (STATEMENT_HELP, (
                ["statement", "--help"], ["statement", "-h"], ["help", "statement"],
                ["statement", MISSING, "no zone", "--help"],
                ["statement", "-h", "no", "words", "of", "it"], [*STATE, "-h"], [*STATE[:4], "no day", "-h"],
            )),
            (EXPLAIN_HELP, (
                ["explain", "--help"], ["help", "explain"], ["explain", MISSING, "no zone", "7", "-h"],
                ["explain", "--week", "--help", "--week"], ["explain", "--journal", MISSING, "-h"],
            )),
            (PAGE_HELP, (
                ["page", "--help"], ["help", "page"], ["page", MISSING, "no zone", "-h"],
                ["page", "--port=65535", "--help", "--port=65536"], ["page", "--journal", MISSING, "-h"],
            )),
            (REPLAY_HELP, (
                ["replay", "--help"], ["replay", "-h"], ["help", "replay"],
                ["replay", MISSING, "no zone", MISSING, "--help"],
            )),
            (SERVE_HELP, (
                ["serve", "--help"], ["serve", "-h"], ["help", "serve"], ["serve", MISSING, "--help"], [*SERVE, "-h"],
                ["serve", "--lanes", "15", "--help", "--lanes", "16"], ["serve", "--port=1", "-h"],
            )),
            (
                AUDIT_HELP,
                (
                    ["audit", "--help"], ["help", "audit"], ["audit", MISSING, "-h"],
                    ["audit", "--journal", MISSING, "--help"],
                ),
            ),
            (REBUILD_HELP, (["rebuild", "--help"], ["help", "rebuild"], ["rebuild", MISSING, "-h"])),
            (FOLLOW_HELP, (
                ["follow", "--help"], ["follow", "-h"], ["help", "follow"], ["follow", MISSING, "no zone", "--help"],
                ["follow", "--log=x", "-h"], ["follow", "--partition=4", "--of=4", "--help", "--of=17"],
            )),
            (LOG_HELP, (
                ["log", "--help"], ["log", "-h"], ["help", "log"], ["log", "move", MISSING, "no zone", "-h"],
                ["log", "make", "--log=x", "-h"], ["log", "check", "--replicas=5", "--help", "--replicas=6"],
            )),
        )
        for text, each in asked:
            for given in each:
                self.check(f"help by the words {given}", run(given, lines), answers(text))
        for given in (["--version"], ["-V"]):
            self.check(f"the version by the words {given}", run(given, lines), answers(VERSION))

    def test_words_around_options(self):
        """Words around the options that ask for help or the version."""
        for given, text in MORE_WORDS:
            self.check(f"the words {given}", run(given), USAGE if text is None else answers(text))


REFUSED_WORDS = (
    # No program of that name.
    [], [""], ["fly"], ["RUN", FARES, LONDON], ["run "], [FARES, LONDON], ["--", *RUN], ["help", "fly"],
    # Too few, and too many.
    ["run"], ["run", FARES], ["run", "--", FARES], [*RUN, "more"], [*RUN, ""], [*RUN, "--", "more"], ["run", *RUN],
    ["check"], ["check", "--"], [*CHECK, LONDON], [*CHECK, ""], [*CHECK, "--", "more"], ["check", *CHECK],
    ["--", *CHECK], ["CHECK", FARES],
    *(STATE[:count] for count in range(1, len(STATE))), [*STATE[:3], "--", "19730"], ["statement", *RUN],
    ["run", *STATE], ["STATEMENT", *STATE[1:]],
    [*STATE, "more"], [*STATE, ""], [*STATE, "--", "more"], ["statement", *STATE], ["--", *STATE],
    ["statements", *STATE[1:]], [*RUN, "7", "19730"],
    # Of pages: the journal and the port are needed, and given once, and the port is one.
    ["page"], ["page", FARES, LONDON], ["page", FARES, LONDON, "--journal", MISSING],
    ["page", FARES, LONDON, "--port=8080"], ["page", FARES, "--journal", MISSING, "--port=8080"],
    *(["page", FARES, LONDON, "--journal", MISSING, "--port", port] for port in ("", "0", "65536", "-1", "x")),
    *(["page", FARES, LONDON, "--journal", MISSING, "--port=8080", more] for more in (
        "more", "--port=8080", "--port=8081", "--journal=a", "--ledger", "--early", "--week", "--long", "--version",
    )),
    # A service that is asked: its port, which is another than that of the pages; and with it a greeting, and a file of clerks.
    *(["page", FARES, LONDON, "--journal", MISSING, "--port=8080", *more] for more in (
        ["--staff=a"], ["--greeting=a"], ["--greeting=a", "--staff=a"], ["--control=9100", "--staff"], ["--control", "--staff=a"],
        ["--control=9100", "--greeting"], ["--control=9100", "--greeting", "-a"], ["--control=9100", "--greeting=a", "--greeting=a"],
        ["--control=9100", "--staff", "-a"], ["--control=9100", "--staff=a", "--control=9101"],
        ["--control=9100", "--staff=a", "--staff=a"],
        *([f"--control={port}", "--staff=a"] for port in ("", "0", "8080", "08080", "65536", "-1", "x")),
    )),
    [*RUN, "--staff=a"], [*SERVE, "--staff=a"], [*RUN, "--long"], [*SERVE, "--long"],
    # Of an audit and of the lines of a ledger; and an option of others.
    ["audit"], ["audit", FARES, LONDON], ["audit", FARES, "--journal", MISSING], ["audit", FARES, LONDON, "--journal"],
    ["audit", FARES, LONDON, "--journal", MISSING, "--journal", MISSING],
    ["audit", FARES, LONDON, "--journal", MISSING, "more"],
    ["audit", FARES, LONDON, "--journal", MISSING, "--early"], ["rebuild"], ["rebuild", FARES],
    ["rebuild", FARES, MISSING, "more"],
    ["rebuild", FARES, "--ledger", MISSING], [*RUN, "--early", "--early"], [*RUN, "--early=1"],
    ["check", FARES, "--early"],
    [*STATE, "--early"], ["replay", FARES, LONDON, MISSING, "--early"],
    # Unknown options.
    ["--fly"], ["-f"], ["--fly", *RUN], ["run", "--fly", FARES, LONDON], [*RUN, "--fly"], ["run", FARES, "-UTC0"],
    ["check", "--fly", FARES], [*CHECK, "-f"], [*CHECK, "--version"],
    ["statement", "--fly", *STATE[1:]], [*STATE, "--fly"], [*STATE, "--version"], [*STATE[:3], "--", "-7", "19730"],
    [*STATE[:4], "--", "-1"],
    # No text.
    [b"\xff"], ["run", b"\xff", LONDON], ["run", FARES, b"UTC0\xff"], [*RUN, b"\xc3"], ["check", b"\xff"],
    [*STATE[:3], b"7\xff", "19730"], [*STATE[:4], b"\xff"], ["statement", b"\xff", *STATE[2:]],
)

# They are run in a folder that has these fare files.
OTHER_FARES = ("-", "-fares", "f\u00e4hrpreise")
TAKEN_WORDS = (
    ["run", "--", FARES, LONDON], ["run", FARES, "--", LONDON], [*RUN, "--"],
    ["run", "-", LONDON], ["run", "--", "-fares", LONDON], ["run", "./-fares", LONDON],
    ["run", "f\u00e4hrpreise", LONDON],
)
TAKEN_BY_CHECK = (
    ["check", "-"], ["check", "--", "-"], ["check", "-", "--"], ["check", "--", "-fares"], ["check", "f\u00e4hrpreise"]
)


def write_other_fares(folder):
    for name in OTHER_FARES:
        written(folder, name, read("bus.toml"))


class Runs(Theme):
    """Words of sessions."""

    def test_refused_words(self):
        """Words that are refused."""
        lines, _ = boardings(2)
        for given in REFUSED_WORDS:
            self.check(f"the words {given}", run(given, lines), USAGE)

    def test_taken_words(self):
        """Words that are not refused."""
        lines, replies = boardings(2)
        write_other_fares(self.folder)
        for given in TAKEN_WORDS:
            self.check(f"the words {given}", run(given, lines, cwd=self.folder), answers(replies))
        for given in TAKEN_BY_CHECK:
            self.check(
                f"the words {given}",
                run(given, lines, cwd=self.folder),
                answers(b"OK places 6 bands 0 interchanges 1 holidays 1\n"),
            )
        self.check(
            "a fare file by its path from here",
            run(["run", "examples/bus.toml", LONDON], lines, cwd=ROOT),
            answers(replies),
        )


# No account, and no day, of a statement or of what is explained.
NO_NUMBERS = (
    "", " ", "-", "+", "-0", "-1", "--7", "++7", "+-7", "x", "7x", "x7", "7.0", "7e0", "0x7", "7 ", " 7", "1 000",
    "1_000", "\u0667", "9" * 40,
)
NO_ACCOUNTS = ("0", "00", "+0", "4294967296", "4294967303", "18446744073709551615", "18446744073709551623")
# Dates that are none, that are out of the range of service days, or that are spelled otherwise.
NO_DATES = (
    "2023-02-29", "2024-02-30", "2024-13-08", "2024-00-08", "2024-01-00", "1970-01-04", "2106-11-25", "1969-12-31",
    "20240108", "2024-1-8", "24-01-08", "2024-01-8", "2024-01-08T00:00", "2024-01-08Z", "+2024-01-08", "+002024-01-08",
    "-002024-01-08", "02024-01-08", "2024/01/08", "2024-W02-1", "2024-008", "2024-01-08 ", " 2024-01-08", "08-01-2024",
    "2024\u201001\u201008",
)
NO_DAYS = ("0", "3", "03", "+3", "50001", "85266", "4294987026", "18446744073709571346", "Monday", *NO_DATES)
# The two as they may be spelled, with a row or without.
TAKEN_NUMBERS = (
    ("7", "19730", True), ("+7", "19730", True), ("7", "+19730", True), ("007", "019730", True),
    ("+0007", "+0000019730", True),
    ("0" * 30 + "7", "0" * 40 + "19736", True), ("7", "19729", False), ("7", "19737", False),
    ("1", "4", False), ("1", "50000", False), ("4294967295", "19730", False), ("4294967295", "50000", False),
    ("+1", "+4", False), ("7", "2024-01-08", True), ("007", "2024-01-14", True), ("7", "2024-01-07", False),
    ("7", "2024-01-15", False), ("7", "2024-02-29", False), ("1", "1970-01-05", False), ("1", "2106-11-24", False),
)


class Statements(Theme):
    """Words of statements."""

    def test_words_of_statements(self):
        """Accounts and days of a statement, in and out of their ranges."""
        lines, _ = boardings(7)
        for account in (*NO_NUMBERS, *NO_ACCOUNTS):
            self.check(f"a statement of the account {account!r}", run([*STATE[:3], account, "19730"], lines), USAGE)
        for day in (*NO_NUMBERS, *NO_DAYS):
            self.check(f"a statement of the day {day!r}", run([*STATE[:4], day], lines), USAGE)
        for account, day, has_row in TAKEN_NUMBERS:
            wanted = rows_of_statement(*[A_BOARDING] * has_row)
            self.check(
                f"a statement of the account {account} and the day {day}",
                run([*STATE[:3], account, day], lines),
                wanted,
            )
        write_other_fares(self.folder)
        for given in (
            ["statement", "--", *STATE[1:]], [*STATE[:2], "--", *STATE[2:]], [*STATE[:3], "--", *STATE[3:]],
            [*STATE[:4], "--", STATE[4]], [*STATE, "--"],
            ["statement", "-", *STATE[2:]], ["statement", "--", "-fares", *STATE[2:]],
        ):
            self.check(f"the words {given}", run(given, lines, cwd=self.folder), rows_of_statement(A_BOARDING))


# Options of `serve` that are none, lack their value or stand twice, and words that are too few or too many.
REFUSED_BY_SERVE = (
    ["serve"], SERVE[:2], SERVE[:3], ["serve", *OPTIONS], ["serve", FARES, *OPTIONS], [*SERVE, "more"],
    [*SERVE, "--", "more"], ["--", *SERVE],
    ["SERVE", *SERVE[1:]], ["run", FARES, LONDON, *OPTIONS], [*STATE, *OPTIONS], ["check", FARES, "--port", "9000"],
    *([*SERVE[:3], *OPTIONS[:at], *OPTIONS[at + 2:]] for at in range(0, len(OPTIONS), 2)),
    *([*SERVE[:3], *OPTIONS[:at], *OPTIONS[at + 1:]] for at in range(len(OPTIONS))),
    *([*SERVE, *OPTIONS[at:at + 2]] for at in range(0, len(OPTIONS), 2)), [*SERVE, "--port=9000"], [*SERVE, "--lanes"],
    [*SERVE[:3], "--", *OPTIONS], [*SERVE, "--fly"], [*SERVE, "--fly", "1"], [*SERVE, "-p", "9000"],
    [*SERVE, "--version"], [*SERVE, "-V"],
    ["serve", FARES, "-UTC0", *OPTIONS], [*SERVE[:3], "--Port", *OPTIONS[1:]], [*SERVE[:3], "-port", *OPTIONS[1:]],
    [*SERVE[:3], "--port:9000", *OPTIONS[2:]],
    [*SERVE, b"\xff"], [*SERVE[:3], "--port", b"9000\xff", *OPTIONS[2:]],
    # A number that is refused, and an option without one, come before a call for help after them.
    ["serve", "--port", "0", "--help"], ["serve", "--port", "--help"],
    ["serve", "--lanes", "1", "--lanes", "1", "--help"],
)
# Numbers of each option outside its range, and in it. Ports are given with one lane.
NUMBERS = (
    ("port", ("0", "65536", "74536", "4294967297"), ("1", "65535", "+9000", "009000")),
    ("lanes", ("0", "16", "257"), ("1", "15", "+01")),
    ("shards", ("0", "17", "257"), ("1", "16")), ("sessions", ("0", "1001", "4294967297"), ("1", "1000")),
    ("close", ("0", "3", "50001", "4294987026", *NO_DATES), ("4", "50000", "1970-01-05", "2024-02-29", "2106-11-24")),
)
# A port, a number of lanes, and whether each of these has a port.
PORTS = (
    ("65535", "1", True), ("65535", "2", False), ("65534", "2", True), ("65521", "15", True), ("65522", "15", False),
    ("65535", "15", False),
)
NO_FARES = fault("cannot read fares")


def with_numbers(between=" ", **numbers):
    """The words of `serve` without a fare file, and other numbers for some of its options."""
    given = {**{name[2:]: number for name, number in zip(OPTIONS[::2], OPTIONS[1::2])}, **numbers}
    options = ([f"--{name}", number] if between == " " else [f"--{name}={number}"] for name, number in given.items())
    return ["serve", MISSING, LONDON, *(word for option in options for word in option)]


class Services(Theme):
    """Words of services."""

    def test_words_of_serve(self):
        """Options of lanes: what is none, their ranges, and the ports of lanes."""
        for given in REFUSED_BY_SERVE:
            self.check(f"the words {given}", run(given), USAGE)
        for name, refused, taken in NUMBERS:
            for between in (" ", "="):
                for number in (*NO_NUMBERS, *refused):
                    self.check(
                        f"--{name}{between}{number!r}",
                        run(with_numbers(between, **{"lanes": "1", name: number})),
                        USAGE,
                    )
                for number in taken:
                    self.check(
                        f"--{name}{between}{number!r}",
                        run(with_numbers(between, **{"lanes": "1", name: number})),
                        NO_FARES,
                    )
        for port, lanes, is_taken in PORTS:
            self.check(
                f"{lanes} lanes from port {port} on",
                run(with_numbers(port=port, lanes=lanes)),
                NO_FARES if is_taken else USAGE,
            )

    def test_order_of_options(self):
        """Options of lanes before, between and after the words, each with its value after it or after an equals
        sign."""
        pairs = [OPTIONS[at:at + 2] for at in range(0, len(OPTIONS), 2)]
        joined = [f"{name}={number}" for name, number in pairs]
        backwards = [word for pair in reversed(pairs) for word in pair]
        for given in (
            ["serve", MISSING, LONDON, *OPTIONS], ["serve", *OPTIONS, MISSING, LONDON],
            ["serve", *OPTIONS[:4], MISSING, *OPTIONS[4:], LONDON],
            ["serve", MISSING, *OPTIONS, LONDON], ["serve", MISSING, LONDON, *backwards],
            ["serve", *joined, MISSING, LONDON],
            ["serve", MISSING, *joined[:3], LONDON, *joined[3:]], ["serve", *joined[:2], *OPTIONS[4:], MISSING, LONDON],
            ["serve", *OPTIONS, "--", MISSING, LONDON], ["serve", MISSING, *OPTIONS, "--", LONDON],
            ["serve", MISSING, LONDON, *OPTIONS, "--"],
            ["serve", *OPTIONS, "--", "--port", LONDON], ["serve", "-", LONDON, *OPTIONS],
        ):
            self.check(f"the words {given}", run(given), NO_FARES)


# The same of the options that name files, and of the words of `replay`. The fare file is missing.
TO_RUN = ["run", MISSING, LONDON]
TO_STATE = ["statement", MISSING, LONDON, "7", "19730"]
TO_REPLAY = ["replay", MISSING, LONDON]
TO_PAGE = ["page", MISSING, LONDON, "--journal", "a", "--port=8080"]
TO_SERVE = ["serve", MISSING, LONDON, *OPTIONS]
TO_STAY = [
    "serve", MISSING, LONDON, "--port", "9000", "--lanes", "2", "--shards", "4", "--control", "9100", "--journal", "a",
    "--ledger", "b",
]
FULL_STAY = ["--shards=16", "--lanes=14", "--port=65535"]
# Texts that are no greeting, and texts that are: 1 to 128 printable ASCII characters, with no space at either end, and
# no line that staff send.
NO_GREETINGS = (
    "", " ", " a", "a ", "a\tb", "a\n", "a\r", "\x1f", "\x7f", "\u00e9", "x" * 129, "STOP", "STATS", "BACKUP ",
    "BACKUP /a", "BACKUP a", "OPEN ", "OPEN 4",
)
GREETINGS = (
    "x", "x" * 128, "a  b", "!", "~", "=", "-", "-a", "--help", "stop", "STOP!", "STATS 1", "BACKUP", "backup /a",
    "OPEN", "open 4",
)
REFUSED_FILES = (
    [*TO_RUN, "--sync"], [*TO_RUN, "--journal"], [*TO_RUN, "--journal", "--sync"], [*TO_RUN, "--ledger"],
    [*TO_RUN, "--ledger", "a", "--sync"],
    [*TO_RUN, "--ledger", "a", "--ledger", "b"], [*TO_RUN, "--ledger", "-a"], [*TO_RUN, "--ledger", "--journal", "a"],
    [*TO_RUN, "--Ledger", "a"],
    [*TO_RUN, "--ledgers", "a"], [*TO_RUN, "-l", "a"], [*TO_RUN, "--ledger", b"\xff"],
    ["run", "--ledger", MISSING, LONDON],
    [*TO_STATE, "--ledger", "a"], ["check", MISSING, "--ledger", "a"],
    [*TO_RUN, "--journal", "a", "--journal", "b"], [*TO_RUN, "--journal", "a", "--journal=a"],
    [*TO_RUN, "--journal", "a", "--sync", "--sync"], [*TO_RUN, "--journal", "a", "--sync=true"],
    [*TO_RUN, "--journal", "a", "--sync", "true"],
    [*TO_RUN, "--journal", "-a"], [*TO_RUN, "--journal", "a", "b"], [*TO_RUN, "--Journal", "a"], [*TO_RUN, "-j", "a"],
    [*TO_RUN, "--journals", "a"],
    [*TO_RUN, "--", "--journal", "a"], ["run", "--journal", MISSING, LONDON], [*TO_RUN, "--port", "9000"],
    [*TO_RUN, "--journal", b"\xff"],
    [*TO_STATE, "--sync"], [*TO_STATE, "--journal", "a", "--sync"], [*TO_STATE, "--journal"],
    [*TO_STATE, "--journal", "a", "--journal", "a"], ["check", MISSING, "--journal", "a"],
    # A long statement has a journal, and a ledger is one's alone.
    [*TO_STATE, "--long"], [*TO_STATE, "--long", "--ledger", "b"], [*TO_STATE, "--journal", "a", "--ledger", "b"],
    *([*TO_STATE, "--journal", "a", "--long", *more] for more in (
        ["--long"], ["--ledger"], ["--ledger", "-b"], ["--ledger=b", "--ledger", "b"], ["true"], ["--week"], ["--early"],
    )),
    [*TO_STATE, "--journal", "a", "--long=true"], [*TO_STATE, "--journal", "a", "--long="],
    [*TO_PAGE, "--ledger=b", "--ledger=b"], [*TO_PAGE, "--ledger", "-b"], [*TO_PAGE, "--ledger=b", "--early"],
    ["replay"], TO_REPLAY[:2], TO_REPLAY, [*TO_REPLAY, "--journal", "a"], [*TO_REPLAY, "a", "--sync"],
    [*TO_REPLAY, "-a"], [*TO_REPLAY, "a", b"\xff"],
    ["--", *TO_REPLAY, "a"], ["REPLAY", *TO_REPLAY[1:], "a"], [*TO_REPLAY, "--"], [*TO_REPLAY, "a", "--ledger", "a"],
    # The form that stays, and what does not belong to it or is missing.
    *(
        [*TO_STAY[:at], *TO_STAY[at + 2:]] for at in range(3, len(TO_STAY), 2)
    ),
    *([*TO_STAY, *more] for more in (
        ["--sessions=1"], ["--close=19730"], ["--sessions=1", "--close=19730"], ["--control=9100"], ["--sync"],
    )),
    *([*TO_STAY[:10], control, *TO_STAY[11:]] for control in ("9000", "0", "65536")),
    [*TO_STAY[:6], "15", *TO_STAY[7:]], [*TO_SERVE, "--control", "9100"], [*RUN, "--control=9100"],
    *([*TO_STAY, *more] for more in (
        ["--ahead"], ["--ahead="], ["--ahead", "-1"], ["--ahead=86401"], ["--ahead=60", "--ahead", "60"],
        ["--ahead=60", "--sessions=1", "--close=19730"],
    )),
    *([*TO_STAY, *more] for more in (["--refused"], ["--refused", "-a"], ["--refused=a", "--refused", "a"])),
    *([*TO_STAY, f"--greeting={text}"] for text in NO_GREETINGS), [*TO_STAY, "--greeting", "STOP"],
    *([*TO_PAGE, "--control=9100", f"--greeting={text}"] for text in NO_GREETINGS),
    *([*TO_STAY, *more] for more in (["--greeting"], ["--greeting", "-a"], ["--greeting=a", "--greeting", "a"])),
    [*TO_STAY, "--greeting", "a", "b"], [*TO_STAY, "--greeting", b"\xff"], [*TO_STAY, "--greetings=a"],
    [*TO_SERVE, "--greeting=a"], [*TO_SERVE, "--journal", "a", "--ledger", "b", "--greeting", "c"],
    [*TO_RUN, "--greeting=a"], ["audit", MISSING, LONDON, "--journal", "a", "--greeting=a"],
    [*TO_SERVE, "--refused=a"], [*TO_SERVE, "--journal", "a", "--ledger", "b", "--refused", "c"],
    [*TO_RUN, "--refused=a"],
    [*TO_STAY[:9], *TO_STAY[11:], "--ahead=60"], [*TO_SERVE, "--ahead=60"],
    [*TO_SERVE, "--journal", "a", "--ledger", "b", "--ahead", "0"], [*TO_RUN, "--ahead=60"],
    [*TO_SERVE, "--sync"], [*TO_SERVE, "--journal", "a", "--sync"], [*TO_SERVE, "--journal"], [*TO_SERVE, "--ledger"],
    [*TO_SERVE, "--journal", "-a"],
    [*TO_SERVE, "--journal", "a", "--journal", "a"], [*TO_SERVE, "--ledger=a", "--ledger", "a"],
    [*TO_SERVE, "--journal", "--ledger", "a"],
    ["serve", MISSING, LONDON, *OPTIONS[2:], "--journal", "a"],
)
TAKEN_FILES = (
    [*TO_RUN, "--journal", "a"], [*TO_RUN, "--journal=a"], [*TO_RUN, "--journal", "a", "--sync"],
    [*TO_RUN, "--sync", "--journal", "a"],
    ["run", "--journal", "a", MISSING, "--sync", LONDON],
    ["run", "--sync", "--journal=-a", "--", MISSING, LONDON], [*TO_RUN, "--journal", "-"], [*TO_RUN, "--journal="],
    [*TO_RUN, "--journal", ""],
    [*TO_RUN, "--ledger", "a"], [*TO_RUN, "--ledger=-a"], [*TO_RUN, "--ledger="],
    [*TO_RUN, "--ledger", "a", "--journal", "b", "--sync"],
    ["run", "--sync", MISSING, "--ledger", "b", LONDON, "--journal=a"], [*TO_RUN, "--ledger", "a", "--journal", "a"],
    TO_PAGE, [*TO_PAGE, "--control", "9100", "--staff", "a"], [*TO_PAGE, "--staff=", "--control=65535"],
    ["page", "--staff=-a", "--control=+01", *TO_PAGE[1:]], [*TO_PAGE, "--control", "9100"],
    [*TO_PAGE, "--control=9100", "--greeting", "a b"], [*TO_PAGE, "--greeting=-a", "--staff=a", "--control=9100"],
    *([*TO_PAGE, "--control=9100", f"--greeting={text}"] for text in GREETINGS),
    [*TO_SERVE, "--journal", "a"], [*TO_SERVE, "--ledger", "a"], TO_STAY, [*TO_STAY, "--early"],
    *([*TO_STAY, *more] for more in (
        ["--ahead", "60"], ["--ahead=0"], ["--early", "--ahead", "86400"], ["--ahead=+086400"],
    )),
    *([*TO_STAY, *more] for more in (["--refused", "a"], ["--refused=-a"], ["--ahead=0", "--refused="])),
    *([*TO_STAY, f"--greeting={text}"] for text in GREETINGS), [*TO_STAY, "--greeting", "a b"],
    ["serve", "--greeting", "-", *TO_STAY[1:], "--refused=a"],
    ["serve", "--ahead", "60", *TO_STAY[1:]],
    ["serve", "--control=1", "--ledger=b", MISSING, "--journal=a", "--early", LONDON, *FULL_STAY],
    ["serve", "--ledger=b", *OPTIONS[:4], MISSING, "--journal", "a", *OPTIONS[4:], LONDON],
    ["serve", *OPTIONS, "--journal=-a", "--ledger=-b", "--", MISSING, LONDON],
    [*TO_SERVE, "--journal=", "--ledger", ""],
    [*TO_STATE, "--journal", "a"], ["statement", "--journal=a", *TO_STATE[1:]],
    [*TO_STATE, "--journal", "a", "--long"], ["statement", "--long", *TO_STATE[1:], "--journal=a", "--ledger", "b"],
    ["statement", "--ledger=-b", *TO_STATE[1:3], "--long", *TO_STATE[3:], "--journal="],
    [*TO_PAGE, "--ledger", "b"], ["page", "--ledger=-b", *TO_PAGE[1:], "--control=9100", "--staff=a"],
    [*TO_STATE[:3], "--journal", "a", *TO_STATE[3:]],
    [*TO_REPLAY, "a"], [*TO_REPLAY, "a", "b", "a"], [*TO_REPLAY, "--", "-a", "--sync"],
    ["replay", "--", *TO_REPLAY[1:], "a"], [*TO_REPLAY, "-"], [*TO_REPLAY, ""],
)


class Files(Theme):
    """Words of journals and ledgers."""

    def test_words_of_files(self):
        """Options that name files, and files of a replay: what is none, and in what order they may stand."""
        for given in REFUSED_FILES:
            self.check(f"the words {given}", run(given, cwd=self.folder), USAGE)
        for given in TAKEN_FILES:
            self.check(f"the words {given}", run(given, cwd=self.folder), NO_FARES)
        self.check(
            "no file was made", End(0, b" ".join(name.encode() for name in os.listdir(self.folder))), answers(b"")
        )


# The same of the options of `check`. The fare file is missing, and so is the other.
TO_CHECK = ["check", MISSING]
REFUSED_BY_CHECK = (
    ["check", "--lint"], [*TO_CHECK, "--lint", "--lint"], [*TO_CHECK, "--lint=true"], [*TO_CHECK, "--lint="],
    [*TO_CHECK, "--lint", "true"],
    [*TO_CHECK, "--Lint"], [*TO_CHECK, "--lints"], [*TO_CHECK, "-l"], [*TO_CHECK, "--", "--lint"],
    [*TO_CHECK, "--lint", "--version"],
    ["check", "--against", MISSING], [*TO_CHECK, "--against"], [*TO_CHECK, "--against", "--lint"],
    [*TO_CHECK, "--against", "-a"],
    [*TO_CHECK, "--against", "a", "b"], [*TO_CHECK, "--against", "a", "--against", "a"],
    [*TO_CHECK, "--against=a", "--against", "b"],
    [*TO_CHECK, "--Against", "a"], [*TO_CHECK, "-a", "a"], [*TO_CHECK, "--against", b"\xff"],
    [*TO_CHECK, "--", "--against", "a"],
    # A day with no other fare file, or without its number, or twice.
    [*TO_CHECK, "--after", "19731"], [*TO_CHECK, "--after=19731"], ["check", "--after", "19731", MISSING],
    [*TO_CHECK, "--lint", "--after", "19731"],
    [*TO_CHECK, "--against", "a", "--after"], [*TO_CHECK, "--after", "--against", "a"],
    [*TO_CHECK, "--against", "--after", "19731"],
    [*TO_CHECK, "--against", "a", "--after", "4", "--after", "4"],
    [*TO_CHECK, "--against", "a", "--after=4", "--after", "5"],
    # No option of `check`, and those of `check` for others.
    [*TO_CHECK, "--sync"], [*TO_CHECK, "--close", "19731"], [*TO_RUN, "--lint"], [*TO_RUN, "--against", "a"],
    [*TO_STATE, "--lint"],
    [*TO_STATE, "--after", "19731"], [*TO_REPLAY, "a", "--lint"], [*TO_SERVE, "--against", "a"],
    [*TO_SERVE, "--after", "19731"],
    # What is refused comes before a call for help after it.
    ["check", "--lint", "--lint", "--help"], ["check", "--after", "--help"], ["check", "--against", "-h"],
)
TAKEN_OPTIONS_OF_CHECK = (
    [*TO_CHECK, "--lint"], ["check", "--lint", MISSING], ["check", "--lint", "--", MISSING],
    [*TO_CHECK, "--lint", "--"],
    [*TO_CHECK, "--against", "a"], ["check", "--against", "a", MISSING], [*TO_CHECK, "--against=a"],
    [*TO_CHECK, "--against=-a"],
    [*TO_CHECK, "--against", "-"], [*TO_CHECK, "--against="], [*TO_CHECK, "--against", ""],
    [*TO_CHECK, "--against", MISSING],
    [*TO_CHECK, "--lint", "--against", "a"], [*TO_CHECK, "--against", "a", "--lint"],
    [*TO_CHECK, "--against", "a", "--after", "19731"], [*TO_CHECK, "--after", "19731", "--against", "a"],
    ["check", "--after=19731", MISSING, "--against=a"],
    ["check", "--after", "19731", "--lint", MISSING, "--against", "a"],
    ["check", "--against", "a", "--after=19731", "--lint", "--", MISSING],
)
# Days that are outside their range, and in it.
REFUSED_DAYS = ("0", "3", "03", "+3", "50001", "4294987026", *NO_DATES)
TAKEN_DAYS = ("4", "50000", "+4", "0050000", "1970-01-05", "2024-02-29", "2106-11-24")


class Checks(Theme):
    """Words of checks."""

    def test_words_of_check(self):
        """Options of a check: what is none, in what order they may stand, and the days of the one that has a day."""
        for given in REFUSED_BY_CHECK:
            self.check(f"the words {given}", run(given, cwd=self.folder), USAGE)
        for given in TAKEN_OPTIONS_OF_CHECK:
            self.check(f"the words {given}", run(given, cwd=self.folder), NO_FARES)
        for between in (["--after", "{}"], ["--after={}"]):
            for is_taken, days in ((False, (*NO_NUMBERS, *REFUSED_DAYS)), (True, TAKEN_DAYS)):
                for day in days:
                    given = [*TO_CHECK, "--against", "a", *(word.format(day) for word in between)]
                    self.check(f"the words {given}", run(given, cwd=self.folder), NO_FARES if is_taken else USAGE)


# Words of what is explained. The fare file is missing, and so is the journal.
TO_EXPLAIN = ["explain", MISSING, LONDON, "7", "19730", "--journal", "a"]
NOT_ASKED = TO_EXPLAIN[:5]
REFUSED_BY_EXPLAIN = (
    *(TO_EXPLAIN[:count] for count in range(1, len(TO_EXPLAIN))), [*TO_EXPLAIN, "more"], ["explain", *TO_EXPLAIN],
    ["--", *TO_EXPLAIN], ["EXPLAIN", *TO_EXPLAIN[1:]], [*NOT_ASKED, "--", "--journal", "a"],
    [*TO_EXPLAIN[:4], "--journal", "a", "--", "-1"], [b"explain\xff", *TO_EXPLAIN[1:]],
    [*NOT_ASKED[:4], b"19730\xff", "--journal", "a"],
    # The journal is needed, and given once.
    [*NOT_ASKED, "--week"], [*TO_EXPLAIN, "--journal", "a"], [*TO_EXPLAIN, "--journal=b"],
    [*NOT_ASKED, "--journal", "-a"], [*NOT_ASKED, "--journal", "--week"], [*NOT_ASKED, "--Journal", "a"],
    [*NOT_ASKED, "--journal", b"\xff"],
    # The flag has no value, and is given once.
    [*TO_EXPLAIN, "--week", "--week"], [*TO_EXPLAIN, "--week=true"], [*TO_EXPLAIN, "--week="],
    [*TO_EXPLAIN, "--week", "true"], [*TO_EXPLAIN, "--Week"], [*TO_EXPLAIN, "--weeks"], [*TO_EXPLAIN, "-w"],
    # A ledger is given once.
    *([*TO_EXPLAIN, *more] for more in (
        ["--ledger"], ["--ledger", "-b"], ["--ledger", "--week"], ["--ledger=b", "--ledger", "b"], ["--Ledger", "b"],
        ["--ledgers=b"], ["--ledger", b"\xff"], ["--ledger", "b", "--early"],
    )),
    [*NOT_ASKED, "--ledger", "b"],
    # No option of `explain`, and that of `explain` for others.
    *([*TO_EXPLAIN, more] for more in ("--sync", "--early", "--lint", "--version")),
    *([*words, "--week"] for words in (TO_RUN, TO_CHECK, TO_STATE, TO_SERVE, [*TO_REPLAY, "a"])),
    # What is refused comes before a call for help after it.
    ["explain", "--week", "--week", "--help"], ["explain", "--journal", "--help"], [*NOT_ASKED[:3], "0", "--help"],
)
TAKEN_BY_EXPLAIN = (
    TO_EXPLAIN, [*TO_EXPLAIN, "--week"], [*TO_EXPLAIN, "--"], ["explain", "--week", *TO_EXPLAIN[1:]],
    ["explain", "--journal=-a", *NOT_ASKED[1:3], "--week", *NOT_ASKED[3:]],
    ["explain", "--journal", "a", "--week", "--", *NOT_ASKED[1:]], [*NOT_ASKED, "--journal=a"],
    [*NOT_ASKED, "--journal", "-"], [*NOT_ASKED, "--journal="], [*TO_EXPLAIN, "--ledger", "b"],
    [*TO_EXPLAIN, "--week", "--ledger=-b"], ["explain", "--ledger", "b", *TO_EXPLAIN[1:], "--week"],
    [*TO_EXPLAIN, "--ledger="],
)


class Explained(Theme):
    """Words of what is explained."""

    def test_words_of_explain(self):
        """Options of what is explained, in whatever order, and accounts and days in and out of their ranges."""
        for given in REFUSED_BY_EXPLAIN:
            self.check(f"the words {given}", run(given, cwd=self.folder), USAGE)
        for given in TAKEN_BY_EXPLAIN:
            self.check(f"the words {given}", run(given, cwd=self.folder), NO_FARES)
        journal = TO_EXPLAIN[5:]
        for account in (*NO_NUMBERS, *NO_ACCOUNTS):
            self.check(f"the account {account!r}", run([*NOT_ASKED[:3], account, "19730", *journal]), USAGE)
        for day in (*NO_NUMBERS, *NO_DAYS):
            self.check(f"the day {day!r}", run([*NOT_ASKED[:4], day, *journal]), USAGE)
        for account, day, _ in TAKEN_NUMBERS:
            self.check(
                f"the account {account} and the day {day}", run([*NOT_ASKED[:3], account, day, *journal]), NO_FARES
            )


# Words of replicas and of the log that they follow. The fare file is missing: it is read before a node is asked.
NODE = "nats://127.0.0.1:4222"
TO_FOLLOW = ["follow", MISSING, LONDON, "--log", NODE, "--partition", "2", "--of", "4", "--ledger", "a"]
TO_MAKE = ["log", "make", MISSING, LONDON, "--log", NODE, "--of", "4", "--replicas", "3"]
TO_LOOK = ["log", "check", MISSING, LONDON, "--log", NODE, "--of", "4"]
REFUSED_BY_FOLLOW = (
    *(TO_FOLLOW[:count] for count in range(1, len(TO_FOLLOW))), [*TO_FOLLOW, "more"], [*TO_FOLLOW, ""],
    [*TO_FOLLOW, "--", "more"], ["follow", *TO_FOLLOW], ["--", *TO_FOLLOW], ["FOLLOW", *TO_FOLLOW[1:]],
    ["follows", *TO_FOLLOW[1:]], [b"follow\xff", *TO_FOLLOW[1:]], [*TO_FOLLOW[:3], "--", *TO_FOLLOW[3:]],
    ["follow", MISSING, "-UTC0", *TO_FOLLOW[3:]], ["follow", MISSING, b"UTC0\xff", *TO_FOLLOW[3:]],
    # Each word is needed, and each option with its value, and given once.
    *([*TO_FOLLOW[:at], *TO_FOLLOW[at + 1:]] for at in range(len(TO_FOLLOW))),
    *([*TO_FOLLOW[:at], *TO_FOLLOW[at + 2:]] for at in range(3, len(TO_FOLLOW), 2)),
    *([*TO_FOLLOW, *TO_FOLLOW[at:at + 2]] for at in range(3, len(TO_FOLLOW), 2)),
    [*TO_FOLLOW, f"--log={NODE}"], [*TO_FOLLOW, "--log=nats://127.0.0.1:4223"], [*TO_FOLLOW, "--ledger=b"],
    *([*TO_FOLLOW[:3], name, *TO_FOLLOW[4:]] for name in ("--Log", "--logs", "--lo", "-log", "-l", f"--log:{NODE}")),
    [*TO_FOLLOW[:4], b"nats://127.0.0.1:4222\xff", *TO_FOLLOW[5:]], [*TO_FOLLOW[:6], b"2\xff", *TO_FOLLOW[7:]],
    [*TO_FOLLOW[:-1], "-a"], [*TO_FOLLOW[:-1], b"\xff"],
    # No option of `follow`, and those of `follow` and `log` for others.
    *([*TO_FOLLOW, more] for more in (
        "--journal=a", "--sync", "--early", "--replicas=3", "--port=9000", "--shards=4", "--control=9100", "--fly",
        "--version", "-V",
    )),
    *([*words, more] for more in (f"--log={NODE}", "--partition=2", "--of=4", "--replicas=3") for words in (
        TO_RUN, TO_CHECK, TO_STATE, TO_EXPLAIN, TO_PAGE, [*TO_REPLAY, "a"], TO_SERVE, TO_STAY,
        ["audit", MISSING, LONDON, "--journal", "a"], ["rebuild", MISSING, "a"],
    )),
    # What is refused comes before a call for help after it.
    ["follow", "--of=0", "--help"], ["follow", "--partition", "16", "-h"], ["follow", "--log", "--help"],
    ["follow", "--ledger=a", "--ledger=a", "--help"], ["follow", MISSING, LONDON, "more", "-h"],
)
TAKEN_BY_FOLLOW = (
    TO_FOLLOW, [*TO_FOLLOW, "--"], ["follow", *TO_FOLLOW[3:], MISSING, LONDON],
    ["follow", MISSING, *TO_FOLLOW[3:], LONDON], ["follow", *TO_FOLLOW[3:7], MISSING, *TO_FOLLOW[7:], LONDON],
    ["follow", "--ledger=-a", "--of=+04", MISSING, "--partition=02", f"--log={NODE}", LONDON],
    ["follow", *TO_FOLLOW[3:], "--", "-fares", "-b"], ["follow", MISSING, *TO_FOLLOW[3:], "--", "-b"],
    ["follow", "-", "no zone", *TO_FOLLOW[3:]], [*TO_FOLLOW[:-1], "-"], [*TO_FOLLOW[:-1], ""],
    [*TO_FOLLOW[:-2], "--ledger="], [*TO_FOLLOW[:-1], MISSING],
)
REFUSED_BY_LOG = (
    *(words[:count] for words in (TO_MAKE, TO_LOOK) for count in range(1, len(words))), ["--", *TO_LOOK],
    *([*words, *more] for words in (TO_MAKE, TO_LOOK) for more in (["more"], [""], ["--", "more"])),
    ["log", *TO_LOOK], ["LOG", *TO_LOOK[1:]], ["logs", *TO_LOOK[1:]], [b"log\xff", *TO_LOOK[1:]],
    [*TO_LOOK[:4], "--", *TO_LOOK[4:]], [*TO_LOOK[:3], "-UTC0", *TO_LOOK[4:]],
    # Each word is needed, and each option with its value, and given once.
    *([*words[:at], *words[at + 1:]] for words in (TO_MAKE, TO_LOOK) for at in range(len(words))),
    *([*words[:at], *words[at + 2:]] for words in (TO_MAKE, TO_LOOK) for at in range(4, len(words), 2)),
    *([*words, *words[at:at + 2]] for words in (TO_MAKE, TO_LOOK) for at in range(4, len(words), 2)),
    [*TO_LOOK, f"--log={NODE}"], [*TO_LOOK[:4], "--Log", *TO_LOOK[5:]], [*TO_LOOK[:4], "-log", *TO_LOOK[5:]],
    [*TO_LOOK[:5], b"nats://127.0.0.1:4222\xff", *TO_LOOK[6:]],
    # A log is made with a number of replicas, and checked with none.
    ["log", "make", *TO_LOOK[2:]], ["log", "check", *TO_MAKE[2:]], [*TO_LOOK, "--replicas=1"],
    # There is no other action, and it comes first.
    *(["log", action, *words[2:]] for words in (TO_MAKE, TO_LOOK) for action in (
        "", " ", "-", "mak", "makes", "Make", "MAKE", "make ", " make", "chec", "checks", "Check", "check\n", "move",
        "help", "--make", "--check", b"make\xff",
    )),
    ["log", MISSING, "make", LONDON, *TO_MAKE[4:]], ["log", MISSING, LONDON, "check", *TO_LOOK[4:]],
    # No option of `log`.
    *([*words, more] for words in (TO_MAKE, TO_LOOK) for more in (
        "--ledger=a", "--partition=2", "--journal=a", "--early", "--port=9000", "--lint", "--fly", "--version", "-V",
    )),
    # What is refused comes before a call for help after it.
    ["log", "--of=0", "--help"], ["log", "make", "--replicas", "6", "-h"], ["log", "check", "--log", "--help"],
    ["log", "--of=4", "--of=4", "--help"], ["log", "check", MISSING, LONDON, "more", "-h"],
)
TAKEN_BY_LOG = (
    TO_MAKE, TO_LOOK, [*TO_MAKE, "--"], [*TO_LOOK, "--"], ["log", *TO_MAKE[4:], "make", MISSING, LONDON],
    ["log", "--of", "4", "check", f"--log={NODE}", MISSING, LONDON], ["log", "check", MISSING, *TO_LOOK[4:], LONDON],
    ["log", "--replicas=+03", "make", "--of=04", MISSING, f"--log={NODE}", "--", "-b"],
    ["log", *TO_LOOK[4:], "--", "check", MISSING, LONDON], ["log", "check", "make", "no zone", *TO_LOOK[4:]],
    ["log", "make", "check", LONDON, *TO_MAKE[4:]],
)
# URLs that name no port of 127.0.0.1, and URLs that do.
NO_NODES = (
    "", " ", "x", "4222", ":4222", "127.0.0.1:4222", "//127.0.0.1:4222", "nats:", "nats://", "nats://:4222",
    "nats://127.0.0.1", "nats:127.0.0.1:4222", "nats:/127.0.0.1:4222", "nats:///127.0.0.1:4222", "nats//127.0.0.1:4222",
    "tls://127.0.0.1:4222", "http://127.0.0.1:4222", "NATS://127.0.0.1:4222", "nats://localhost:4222",
    "nats://127.0.0.10:4222", "nats://127.0.0.2:4222", "nats://127.1:4222", "nats://127.0.0.01:4222",
    "nats://0.0.0.0:4222", "nats://[::1]:4222", "nats://me@127.0.0.1:4222", " nats://127.0.0.1:4222",
    "nats://127.0.0.1 :4222", "nats://127.0.0.1:4222/", "nats://127.0.0.1:4222?a", "nats://127.0.0.1:4222\n",
    "nats://127.0.0.1::4222", "nats://127.0.0.1:nats://127.0.0.1:4222", "nats://127.0.0.1:4222,nats://127.0.0.1:4223",
    *(f"nats://127.0.0.1:{port}" for port in (
        *NO_NUMBERS, "0", "00", "+0", "65536", "69758", "4294971518", "18446744073709555838",
    )),
)
NODES = tuple(f"nats://127.0.0.1:{port}" for port in ("1", "65535", "+4222", "04222", "+0004222", "0" * 40 + "4222"))
# Words that lack an option, and numbers of it outside its range, and in it.
NUMBERS_OF_LOGS = (
    ([*TO_FOLLOW[:5], "--of=16", "--ledger=a"], "partition", ("16", "256", "258", "4294967298"),
     ("0", "00", "+0", "15", "+015")),
    ([*TO_FOLLOW[:5], "--partition=0", "--ledger=a"], "of", ("0", "+0", "17", "257", "4294967297"),
     ("1", "16", "+01", "016")),
    (TO_LOOK[:6], "of", ("0", "+0", "17", "257", "4294967297"), ("1", "16", "+01", "016")),
    (TO_MAKE[:8], "replicas", ("0", "+0", "6", "257", "4294967297"), ("1", "5", "+01", "005")),
)
# A partition, how many there are, and whether it is one of them.
PARTITIONS = (
    ("0", "1", True), ("1", "1", False), ("1", "2", True), ("3", "4", True), ("4", "4", False), ("5", "4", False),
    ("9", "10", True), ("10", "9", False), ("14", "15", True), ("15", "15", False), ("15", "16", True),
    ("015", "+016", True),
)


class Replicas(Theme):
    """Words of replicas and of their log."""

    def test_words_of_follow(self):
        """Options of a replica, in whatever order, and partitions that there are and are not."""
        for given in REFUSED_BY_FOLLOW:
            self.check(f"the words {given}", run(given, cwd=self.folder), USAGE)
        for given in TAKEN_BY_FOLLOW:
            self.check(f"the words {given}", run(given, cwd=self.folder), NO_FARES)
        for partition, count, is_taken in PARTITIONS:
            self.check(
                f"the partition {partition} of {count}",
                run([*TO_FOLLOW[:5], f"--partition={partition}", "--of", count, "--ledger=a"], cwd=self.folder),
                NO_FARES if is_taken else USAGE,
            )
        self.check(
            "no file was made", End(0, b" ".join(name.encode() for name in os.listdir(self.folder))), answers(b"")
        )

    def test_words_of_log(self):
        """What is done with the streams of a log, with a number of replicas or without."""
        for given in REFUSED_BY_LOG:
            self.check(f"the words {given}", run(given, cwd=self.folder), USAGE)
        for given in TAKEN_BY_LOG:
            self.check(f"the words {given}", run(given, cwd=self.folder), NO_FARES)

    def test_nodes_and_numbers(self):
        """URLs of nodes, and numbers of partitions and replicas, in and out of their ranges."""
        for words, at in ((TO_FOLLOW, 3), (TO_MAKE, 4), (TO_LOOK, 4)):
            for wanted, nodes in ((USAGE, NO_NODES), (NO_FARES, NODES)):
                for node in nodes:
                    for option in (["--log", node], [f"--log={node}"]):
                        given = [*words[:at], *option, *words[at + 2:]]
                        self.check(f"the words {given}", run(given, cwd=self.folder), wanted)
        for words, name, refused, taken in NUMBERS_OF_LOGS:
            for wanted, numbers in ((USAGE, (*NO_NUMBERS, *refused)), (NO_FARES, taken)):
                for number in numbers:
                    for option in ([f"--{name}", number], [f"--{name}={number}"]):
                        given = [*words, *option]
                        self.check(f"the words {given}", run(given, cwd=self.folder), wanted)
