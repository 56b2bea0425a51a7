"""The Debian package, the manual page and the completions that contrib/ makes of the program: built, unpacked,
installed and purged."""

import functools
import gzip
import os
import platform
import re
import shutil
import stat
import subprocess
import sys
import tempfile
import time
import unittest

from support.examples import told_replies
from support.repository import LONDON, PROGRAM, ROOT
from support.running import End, answers, bytes_of, read, written
from support.theme import Theme

BUILD, DOCUMENTS = f"{ROOT}/contrib/deb/build", f"{ROOT}/contrib/documents"
# 2024-01-08 07:00:00 by UTC, as old as the files of a package are where no commit says it.
INSTANT = "1704697200"
# What the package has: the files with their modes. All are root's.
FILES = {
    "./etc/farebox/farebox.conf": "-rw-r--r--",
    "./usr/bin/farebox": "-rwxr-xr-x",
    "./usr/lib/systemd/system/farebox-nightly.service": "-rw-r--r--",
    "./usr/lib/systemd/system/farebox-nightly.timer": "-rw-r--r--",
    "./usr/lib/systemd/system/farebox-page.service": "-rw-r--r--",
    "./usr/lib/systemd/system/farebox.service": "-rw-r--r--",
    "./usr/sbin/farebox-nightly": "-rwxr-xr-x",
    "./usr/sbin/farebox-staff": "-rwxr-xr-x",
    "./usr/share/bash-completion/completions/farebox": "-rw-r--r--",
    "./usr/share/doc/farebox/CHANGELOG.md": "-rw-r--r--",
    "./usr/share/doc/farebox/SECURITY.md": "-rw-r--r--",
    "./usr/share/doc/farebox/docs/DISPUTES.md": "-rw-r--r--",
    "./usr/share/doc/farebox/docs/FILES.md": "-rw-r--r--",
    "./usr/share/doc/farebox/docs/FORMATS.md": "-rw-r--r--",
    "./usr/share/doc/farebox/docs/LINES.md": "-rw-r--r--",
    "./usr/share/doc/farebox/docs/OPERATIONS.md": "-rw-r--r--",
    "./usr/share/doc/farebox/docs/RULES.md": "-rw-r--r--",
    "./usr/share/doc/farebox/examples/bus.toml": "-rw-r--r--",
    "./usr/share/man/man1/farebox.1.gz": "-rw-r--r--",
}
UNITS = ("farebox.service", "farebox-page.service", "farebox-nightly.service", "farebox-nightly.timer")

MADE = "adduser --quiet --system --group --no-create-home --home /var/lib/farebox farebox"
RELOADED = "systemctl daemon-reload"
STOPPED = "systemctl --quiet disable --now farebox-nightly.timer farebox-page.service farebox.service"
TAKEN_OUT = "deluser --quiet --system farebox"
BEGIN = b"farebox: nothing is started yet. /usr/share/doc/farebox/docs/OPERATIONS.md says how to begin.\n"
ANEW = b"farebox: a service that runs is the earlier version until it is started anew: systemctl restart farebox\n"
LEFT = (
    b"farebox: /var/lib/farebox is left, since its journals and ledger say who owes what. Remove it yourself if nobody "
    b"needs it:\n  rm -r /var/lib/farebox\n"
)


def tool(name):
    """The path of a tool of the system, of those for its superuser too. None where there is none."""
    return shutil.which(name, path=f"{os.environ.get('PATH', '')}:/usr/sbin:/sbin")


@functools.lru_cache(None)
def say(line):
    """Prints a line, once."""
    print(f"packages: {line}", flush=True)


def not_tried(what, why):
    """Says that a test is not tried here, and ends it."""
    say(f"{what} not tried: {why}")
    raise unittest.SkipTest(why)


def needs(name, what):
    """The path of a tool without which something is not tried."""
    return tool(name) or not_tried(what, f"there is no {name} here")


def ran(words, **how):
    """What a tool comes to."""
    came = subprocess.run(words, stdin=subprocess.DEVNULL, stdout=subprocess.PIPE, stderr=subprocess.PIPE, **how)
    return End(came.returncode, came.stdout, came.stderr)


def lines_of(rows):
    return "".join(f"{row}\n" for row in rows).encode()


@functools.lru_cache(None)
def folder_of_package():
    return tempfile.TemporaryDirectory()


@functools.lru_cache(None)
def last_commit():
    """The instant of the last commit. None where git shows none, as to who does not own the repository."""
    came = ran(["git", "-C", ROOT, "log", "-1", "--format=%ct"]) if tool("git") else End(None)
    return came.output.decode().strip() if came.status == 0 else None


def built(path, instant, **how):
    """What comes of a package of the program, with files as old as that, or as the last commit."""
    known = {name: value for name, value in os.environ.items() if name != "SOURCE_DATE_EPOCH"}
    given = {"SOURCE_DATE_EPOCH": instant} if instant else {}
    return ran([BUILD, PROGRAM, path], env={**known, **given, **how.pop("env", {})}, **how)


@functools.lru_cache(None)
def package():
    """The path of a package of the program."""
    path = os.path.join(folder_of_package().name, "farebox.deb")
    if not last_commit():
        say("the age of files by the last commit is not tried: git shows none here")
    came = built(path, None if last_commit() else INSTANT)
    if came != answers(b""):
        sys.exit(f"packages: {BUILD} came to {came}")
    return path


@functools.lru_cache(None)
def told_options():
    """The long options of each command, as docs/LINES.md names them."""
    told = {}
    with open(f"{ROOT}/docs/LINES.md", encoding="utf-8") as document:
        for name, rest in re.findall(r"^    farebox (\w+) ([A-Z].*)$", document.read(), re.M):
            told.setdefault(name, set()).update(re.findall(r"--[a-z]+", rest))
    return told


class OfDebian(Theme):
    """The package."""

    def setUp(self):
        super().setUp()
        needs("dpkg-deb", "the package is")
        needs("gzip", "the package is")

    def test_same_bytes(self):
        """The same program gives the same bytes, whoever builds it where and when, by the last commit, or told how old
        its files are."""
        again = os.path.join(self.folder, "again.deb")
        other = {"env": {"TZ": "AEST-10", "LANG": "C.UTF-8", "HOME": self.folder}, "cwd": self.folder}
        came = built(again, last_commit() or INSTANT, **other, preexec_fn=lambda: os.umask(0o077))
        self.check("a package once more", came, answers(b""))
        self.check("its bytes", End(0, bytes_of(again)), answers(bytes_of(package())))

    def test_files(self):
        """Which files it has, with their modes, owners and age."""
        listed = ran(["dpkg-deb", "--contents", package()], env={**os.environ, "TZ": "UTC"})
        rows = [row.split(None, 5) for row in listed.output.decode().splitlines()]
        files = [f"{mode} {name}" for mode, _, _, _, _, name in rows if not name.endswith("/")]
        self.check("the files", End(0, lines_of(files)), answers(lines_of(f"{FILES[it]} {it}" for it in sorted(FILES))))
        folders = {mode for mode, _, _, _, _, name in rows if name.endswith("/")}
        self.check("the folders", End(0, lines_of(folders)), answers(b"drwxr-xr-x\n"))
        owners = {f"{owner} {day} {clock}" for _, owner, _, day, clock, _ in rows}
        shown = time.strftime("%Y-%m-%d %H:%M", time.gmtime(int(last_commit() or INSTANT)))
        self.check("owners and age", End(0, lines_of(owners)), answers(lines_of([f"root/root {shown}"])))

    def test_fields(self):
        """What it says of itself, and the packages that it needs: those of the libraries that the program is linked
        with among them."""
        for field, wanted in (("Package", "farebox"), ("Version", "0.1.0"), ("Architecture", "amd64")):
            came = ran(["dpkg-deb", "--field", package(), field])
            self.check(field, came, answers(f"{wanted}\n".encode()))
        needed = ran(["dpkg-deb", "--field", package(), "Depends"]).output.decode().strip().split(", ")
        named = sorted(it.split(" ")[0] for it in needed)
        owners = {"adduser", "python3"}
        for name in re.findall(r"=> /\S+/(\S+)", ran(["ldd", PROGRAM]).output.decode()):
            # A package may name its files in /lib, which leads to /usr/lib.
            paths = [f"{folder}/x86_64-linux-gnu/{name}" for folder in ("/lib", "/usr/lib")]
            found = ran(["dpkg", "--search", *paths]).output.decode()
            owners.update(row.split(":")[0] for row in found.splitlines())
        self.check("the packages that it needs", End(0, lines_of(named)), answers(lines_of(sorted(owners))))

    def test_unpacked_program(self):
        """The program that is unpacked is the one that was built, says its version, and answers a session with the
        fare file beside it."""
        self.check("unpacked", ran(["dpkg-deb", "--extract", package(), self.folder]), answers(b""))
        program = f"{self.folder}/usr/bin/farebox"
        self.check("the program", End(0, bytes_of(program)), answers(bytes_of(PROGRAM)))
        self.check("its version", ran([program, "--version"]), answers(b"farebox 0.1.0\n"))
        fares = f"{self.folder}/usr/share/doc/farebox/examples/bus.toml"
        came = subprocess.run([program, "run", fares, LONDON], input=read("late-tap.txt"), stdout=subprocess.PIPE)
        self.check("a session", End(came.returncode, came.stdout), answers(told_replies()["late-tap.txt"]))

    def test_what_is_no_program(self):
        """No package is made of what does not say that it is farebox."""
        path = os.path.join(self.folder, "farebox.deb")
        other, script = os.path.realpath(sys.executable), f"{ROOT}/farebox"
        for name, program, why in (
            ("another program", other, f"{other} is no farebox: Python {platform.python_version()}"),
            ("the script that builds it", script, f"{script} is no program for amd64"),
            ("no program", f"{self.folder}/none", f"{self.folder}/none is not there"),
        ):
            came = ran([BUILD, program, path], env={**os.environ, "SOURCE_DATE_EPOCH": INSTANT})
            self.check(name, came, End(1, b"", f"build: {why}\n".encode()))
        self.check("no words", ran([BUILD]), End(2, b"", b"usage: contrib/deb/build PROGRAM OUTPUT.deb\n"))
        self.check("what is made", End(0, bytes_of(path)), End(0, None))


class Installed(Theme):
    """The package installed below a folder, by dpkg, with stand-ins for what makes users and starts services."""

    def setUp(self):
        super().setUp()
        needs("dpkg-deb", "an installed package is")
        dpkg = needs("dpkg", "an installed package is")
        # Only the superuser may give files to root, or who seems to be.
        self.superuser = [] if os.geteuid() == 0 else [needs("fakeroot", "an installed package is")]
        self.root = os.path.join(self.folder, "root")
        self.calls = os.path.join(self.folder, "calls")
        stand_ins = os.path.join(self.folder, "stand-ins")
        for path in ("var/lib/dpkg/info", "var/lib/dpkg/updates", "run/systemd/system"):
            os.makedirs(f"{self.root}/{path}")
        os.mkdir(stand_ins)
        written(self.root, "var/lib/dpkg/status", b"")
        for name in ("adduser", "deluser", "systemctl"):
            path = written(stand_ins, name, f'#!/bin/sh\necho {name} "$@" >>{self.calls}\n'.encode())
            os.chmod(path, 0o755)
        self.how = {"env": {"PATH": f"{stand_ins}:/usr/sbin:/usr/bin:/sbin:/bin", "LC_ALL": "C", "HOME": self.folder}}
        self.dpkg = [
            *self.superuser, dpkg, f"--root={self.root}", f"--log={self.folder}/log", "--force-script-chrootless",
            "--force-depends", "--no-triggers",
        ]

    def did(self, *words):
        """What dpkg comes to, of its output what is farebox's; and what was called."""
        came = ran([*self.dpkg, *words], **self.how)
        told = b"".join(re.findall(rb"^farebox: .*\n(?:  rm .*\n)?", came.output, re.M))
        called = bytes_of(self.calls)
        if called is not None:
            os.remove(self.calls)
        return End(came.status, told, b"" if came.status == 0 else came.errors), End(0, called)

    def come(self, name, words, told, calls):
        came, called = self.did(*words)
        self.check(name, came, answers(told))
        self.check(f"{name}: what is called", called, answers(lines_of(calls)))

    def installed(self):
        self.come("installed", ["--install", package()], BEGIN, [MADE, RELOADED])

    def test_install(self):
        """An installation makes the user, and starts nothing."""
        self.installed()
        for name in ("usr/bin/farebox", "etc/farebox/farebox.conf"):
            self.check(name, End(0, b"" if os.path.isfile(f"{self.root}/{name}") else None), answers(b""))
        self.check("no folder of journals", End(0, bytes_of(f"{self.root}/var/lib/farebox/taps")), End(0, None))

    def test_upgrade(self):
        """An upgrade stops nothing and starts nothing, and leaves settings that were changed."""
        self.installed()
        settings = written(f"{self.root}/etc/farebox", "farebox.conf", b"PORT=9100\n")
        self.come("once more", ["--install", package()], ANEW, [MADE, RELOADED])
        self.check("the settings", End(0, bytes_of(settings)), answers(b"PORT=9100\n"))

    def test_removal(self):
        """What is removed is stopped, and its settings stay."""
        self.installed()
        self.come("removed", ["--remove", "farebox"], b"", [STOPPED, RELOADED])
        self.check("the program", End(0, bytes_of(f"{self.root}/usr/bin/farebox")), End(0, None))
        there = b"" if bytes_of(f"{self.root}/etc/farebox/farebox.conf") else None
        self.check("the settings", End(0, there), answers(b""))

    def test_purge(self):
        """A purge takes the user and the settings, and leaves journals and ledger, which the superuser alone may read
        from then on, and says where they are."""
        self.installed()
        written(f"{self.root}/etc/farebox", "fares.toml", read("bus.toml"))
        state = f"{self.root}/var/lib/farebox"
        os.makedirs(f"{state}/taps")
        os.chmod(state, 0o755)
        files = {f"{state}/taps/0.lines": b"TAP 1 1 7 1704697200 50 BUS\n", f"{state}/ledger.db": b"money"}
        for path, content in files.items():
            written(state, path, content)
        self.come("purged", ["--purge", "farebox"], LEFT, [STOPPED, RELOADED, TAKEN_OUT, RELOADED])
        for path, content in files.items():
            self.check(os.path.basename(path), End(0, bytes_of(path)), answers(content))
        there = os.stat(state)
        self.check("their folder", answers(oct(stat.S_IMODE(there.st_mode)).encode()), answers(b"0o700"))
        if os.geteuid() == 0:
            self.check("its owner", answers(b"%d" % there.st_uid), answers(b"0"))
        self.check("the settings", answers(b"%d" % os.path.exists(f"{self.root}/etc/farebox")), answers(b"0"))

    def test_purge_without_journals(self):
        """Where there is nothing to keep, nothing is left."""
        self.installed()
        os.makedirs(f"{self.root}/var/lib/farebox")
        self.come("purged", ["--purge", "farebox"], b"", [STOPPED, RELOADED, TAKEN_OUT, RELOADED])
        gone = ("etc/farebox", "usr/bin/farebox", "var/lib/farebox")
        left = [it for it in gone if os.path.exists(f"{self.root}/{it}")]
        self.check("what is left", answers(repr(left).encode()), answers(b"[]"))


class Documents(Theme):
    """The manual page and the completions."""

    def setUp(self):
        super().setUp()
        self.check("the documents", ran([sys.executable, DOCUMENTS, PROGRAM, self.folder]), answers(b""))
        self.page, self.completions = f"{self.folder}/farebox.1", f"{self.folder}/farebox.bash"

    def test_same_bytes(self):
        """They are the same each time, and those of the package."""
        again = os.path.join(self.folder, "again")
        os.mkdir(again)
        ran([sys.executable, DOCUMENTS, PROGRAM, again], env={**os.environ, "TZ": "AEST-10", "LC_ALL": "C"})
        for path in (self.page, self.completions):
            name = os.path.basename(path)
            self.check(name, End(0, bytes_of(path)), answers(bytes_of(f"{again}/{name}")))
        if not tool("dpkg-deb"):
            not_tried("what the package has of them is", "there is no dpkg-deb here")
        ran(["dpkg-deb", "--extract", package(), self.folder])
        packed = bytes_of(f"{self.folder}/usr/share/man/man1/farebox.1.gz")
        self.check("the page of the package", End(0, gzip.decompress(packed)), answers(bytes_of(self.page)))

    def test_page(self):
        """Each command is there with its options, and the formatter has no warnings."""
        source = bytes_of(self.page).decode().partition("\n.SH COMMANDS\n")[2].partition("\n.SH ")[0]
        sections = dict(zip(*[iter(re.split(r"^\.SS (\w+)$", source, flags=re.M)[1:])] * 2))
        self.check("the commands", End(0, lines_of(sections)), answers(lines_of(told_options())))
        for name, options in told_options().items():
            items = "".join(re.findall(r"^\.TP\n(.*\n)", sections.get(name, ""), re.M)).replace("\\-", "-")
            shown = sorted(set(re.findall(r"--[a-z]+", items)) - {"--help"})
            self.check(f"the options of {name}", End(0, lines_of(shown)), answers(lines_of(sorted(options))))
        formatter = needs("groff", "the manual page is")
        for width in ("60n", "78n", "120n"):
            came = ran([formatter, "-man", "-ww", "-Tutf8", "-P-cbou", f"-rLL={width}", self.page])
            head = b"NAME\n       farebox - the back office that prices"
            shown = came._replace(output=head if head in came.output else b"")
            self.check(f"the page in {width}", shown, answers(head))

    def offered(self, *words):
        """What is offered for the last of these words: the words, one a line."""
        script = (
            f'source {self.completions}; COMP_WORDS=("$@"); COMP_CWORD=$(($# - 1)); _farebox; '
            'printf "%s\\n" "${COMPREPLY[@]}"'
        )
        came = ran(["bash", "--norc", "-c", script, "bash", "farebox", *words], cwd=f"{ROOT}/examples")
        return came._replace(output=lines_of(sorted(filter(None, came.output.decode().split("\n")))))

    def offers(self, words, wanted):
        self.check(f"after {words}", self.offered(*words), answers(lines_of(sorted(wanted))))

    def test_completions(self):
        """They offer the commands, the options of each that were not given yet, and files where one stands."""
        commands = list(told_options())
        for words in ([""], ["help", ""]):
            self.offers(words, [*commands, "help"])
        self.offers(["re"], ["replay", "rebuild"])
        self.offers(["help", "run", ""], [])
        self.offers(["-"], ["-h", "--help", "-V", "--version"])
        for name, options in told_options().items():
            self.offers([name, "--"], [*options, "--help"])
        self.offers(["serve", "--port", "9000", "--lanes", "=", "2", "--l"], ["--ledger"])
        self.offers(["serve", "--port", ""], [])
        for words in (["run", "bu"], ["run", "--ledger", "bu"], ["run", "--ledger", "=", "bu"], ["check", "--", "bu"]):
            self.offers(words, ["bus.toml"])
        self.offers(["run", "bus.toml", ""], [])
        self.offers(["run", "bus.toml", LONDON, "--e"], ["--early"])
        self.offers(["run", "bus.toml", LONDON, "--early", "--e"], [])
        self.offers(["replay", "bus.toml", LONDON, "a", "two."], ["two.toml"])
        self.offers(["serve", "--journal", "bu"], [])
        self.offers(["serve", "--greeting", "bu"], [])
        self.offers(["explain", "--journal", "bu"], ["bus.toml"])
        self.offers(["fly", ""], [])
        self.offers(["fly", "--"], [])


class Units(Theme):
    """The units of systemd."""

    def test_verified(self):
        """systemd has nothing to say against them, beside the targets that it has."""
        analyze = needs("systemd-analyze", "units are")
        targets = "/usr/lib/systemd/system"
        if not os.path.exists(f"{targets}/sysinit.target"):
            not_tried("units are", f"there are no targets in {targets}")
        units = f"{self.folder}{targets}"
        os.makedirs(units)
        for name in os.listdir(targets):
            if name.endswith(".target"):
                shutil.copy(f"{targets}/{name}", units)
        for name in UNITS:
            shutil.copy(f"{ROOT}/contrib/{name}", units)
        for path in ("usr/bin/farebox", "usr/sbin/farebox-nightly", "usr/sbin/farebox-staff"):
            os.makedirs(f"{self.folder}/{os.path.dirname(path)}", exist_ok=True)
            os.chmod(written(self.folder, path, b"#!/bin/sh\n"), 0o755)
        for name in UNITS:
            came = ran([analyze, "verify", f"--root={self.folder}", "--man=no", name])
            self.check(name, came, answers(b""))
