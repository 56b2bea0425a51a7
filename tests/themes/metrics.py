"""What a service has counted, as Prometheus reads it from the pages. The counts are those of the lines that are sent here."""

import os
import re
import shutil
import socket
import subprocess
import threading

from support.journals import new_folder
from support.pages import asked, shown, text_answer
from support.repository import SAMPLE
from support.running import heard, written
from support.serving import HOST, boarding, talk
from support.staying import staying
from support.theme import Theme

KIND = "text/plain; version=0.0.4; charset=utf-8"
IS_UP = b"# HELP farebox_up Whether the service answers.\n# TYPE farebox_up gauge\nfarebox_up "
DOWN = text_answer(200, IS_UP + b"0\n", KIND)
UNKNOWN = text_answer(404, b"There is no such page.\n")
# These are what the clock and the system tell, and connections that may not have ended yet.
OTHERS = ("farebox_uptime_seconds", "farebox_open_connections", "farebox_journal_bytes", "farebox_memory_bytes")


def samples_of(text):
    """The numbers of a text of metrics, by their names and labels, where each metric stands below what it is."""
    found, name = {}, None
    for line in text.decode().splitlines():
        if line.startswith("# "):
            word, name, more = line[2:].split(" ", 2)
            if word == "TYPE" and more not in ("counter", "gauge"):
                raise AssertionError(line)
        else:
            series, number = re.fullmatch(r'([a-z_]+(?:\{[a-z]+="[0-9]+"\})?) ([0-9]+)', line).groups()
            if series.split("{")[0] != name or series in found:
                raise AssertionError(line)
            found[series] = int(number)
    return found


class Metrics(Theme):
    """The numbers of a service that runs, or of none."""

    def files(self):
        return new_folder(self.folder, "journals"), os.path.join(self.folder, "ledger.db")

    def metrics_at(self, port):
        page = asked(port, "/metrics")
        self.check("an answer", page, text_answer(200, page.body, KIND))
        return samples_of(page.body)

    def test_counts(self):
        """What lanes have counted, with each number once, and whether a close was made."""
        journals, ledger = self.files()
        with staying(journals, ledger, fares=SAMPLE) as service, shown(journals, SAMPLE, service.control) as (_, port):
            lines = boarding(7) + boarding(7) + boarding(8) + "TAP 1 1 7 1704697201 50 BUS\nfly\nfly high\nDUE 7 19730\nQUIT\n"
            talk(service.port, lines.encode())
            wanted = {
                "farebox_up": 1, "farebox_connections_total": 3,
                "farebox_dropped_connections_total": 0, "farebox_lines_total": 8, "farebox_accepted_total": 2,
                "farebox_again_total": 1, "farebox_taps_total": 2, "farebox_corrections_total": 0,
                'farebox_refused_total{refusal="20"}': 1, 'farebox_refused_total{refusal="50"}': 2, "farebox_accounts": 2,
                'farebox_waiting_commands{shard="0"}': 0, 'farebox_waiting_commands{shard="1"}': 0,
            }
            # Each question is a connection of staff.
            self.metrics_at(port)
            came = self.metrics_at(port)
            self.check("what else is told", sorted(set(came) - set(wanted)), sorted(OTHERS))
            self.check("the counts", {name: came.get(name) for name in wanted}, wanted)
            self.check("for HEAD", asked(port, "/metrics", "HEAD").body, b"")
            self.check("a close", talk(service.control, b"CLOSE 19730\nQUIT\n")[:4], b"PAY ")
            closed = self.metrics_at(port)
            names = ("farebox_last_close_day", "farebox_last_close_postings")
            self.check("of the close", [closed.get(name) for name in names], [19730, 2])
            self.check("its age", 0 <= closed.get("farebox_last_close_age_seconds", -1) < 60, True)
            if shutil.which("promtool"):
                text = asked(port, "/metrics").body
                came = subprocess.run(["promtool", "check", "metrics"], input=text, capture_output=True, check=False)
                self.check("promtool", (came.returncode, came.stdout, came.stderr), (0, b"", b""))
            else:
                print("metrics: promtool is not tried, since it is not here", flush=True)
            self.check("it ends", service.stopped().status, 0)
            self.check("no service", asked(port, "/metrics"), DOWN)

    def test_greeting(self):
        """A service that asks for a greeting is asked with it, and is down for whoever has another."""
        journals, ledger = self.files()
        with staying(journals, ledger, more=("--greeting", "let me in"), fares=SAMPLE) as service:
            with shown(journals, SAMPLE, service.control, greeting="let me in") as (_, port):
                self.check("with it", self.metrics_at(port).get("farebox_up"), 1)
            for greeting in (None, "let me"):
                with shown(journals, SAMPLE, service.control, greeting=greeting) as (ran, port):
                    self.check(f"with {greeting}", asked(port, "/metrics"), DOWN)
                    said = f"farebox: no counts from {HOST}:{service.control}: another greeting, or no service\n".encode()
                    self.check(f"with {greeting}, said", heard(ran.stderr, len(said)), said)

    def test_other_replies(self):
        """What is no line of counts is none, and what a later service tells more is left out."""
        replies = [
            b"STATS seconds=5 tides=7 taps=3\n", b"STATS\n", b"STATS seconds=5 taps\n", b"STATS seconds=-5\n", b"OK 1\n", b"\xff\n",
            b"", b"STATS seconds=5",
        ]
        with socket.create_server((HOST, 0)) as listener:
            def answer():
                for reply in replies:
                    with listener.accept()[0] as peer:
                        peer.recv(100)
                        peer.sendall(reply)
            threading.Thread(target=answer, daemon=True).start()
            with shown(written(self.folder, "journal", b""), SAMPLE, listener.getsockname()[1]) as (_, port):
                self.check("more", self.metrics_at(port), {"farebox_up": 1, "farebox_uptime_seconds": 5, "farebox_taps_total": 3})
                for reply in replies[1:]:
                    self.check(f"{reply}", asked(port, "/metrics"), DOWN)

    def test_without_service(self):
        """Where no service is asked, there is no such page."""
        with shown(written(self.folder, "journal", b"")) as (_, port):
            self.check("no service", asked(port, "/metrics"), UNKNOWN)
