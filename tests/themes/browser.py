"""The pages in a browser, Chromium: what they show by its keyboard, how their parts are named, that no script of a fare
file runs, and that a clerk's browser can correct. Where there is no Chromium, chromedriver or selenium of the system, a
line says that it is not tried."""

import hashlib
import json
import os
import subprocess
import unittest

from support.journals import new_folder
from support.pages import shown
from support.repository import ROOT, SAMPLE
from support.running import MONDAY, taps_of, written
from support.serving import HOST, boarding, talk
from support.staying import staying
from support.theme import Theme

PYTHON, NEEDED = "/usr/bin/python3", ("/usr/bin/chromium", "/usr/bin/chromedriver")
# Names that would run, if they were taken for markup.
SCRIPT, IMAGE = "<script> document.title = 1 </script>", "<img src=x onerror=alert(1)>"
TAPS = [(1704697200, 50, "BUS"), (1704704400, 10, "IN"), (1704705600, 12, "OUT"), (1704731400, 14, "IN")]


def missing():
    """What is missing for a browser, if anything is."""
    for path in NEEDED:
        if not os.path.exists(path):
            return os.path.basename(path)
    has = subprocess.run([PYTHON, "-c", "import selenium"], stderr=subprocess.DEVNULL) if os.path.exists(PYTHON) else None
    return None if has and has.returncode == 0 else "selenium"


class Browser(Theme):
    """A form, a week and a day; and a correction."""

    def setUp(self):
        super().setUp()
        lacks = missing()
        if lacks:
            print(f"browser: not tried, since there is no {lacks} here", flush=True)
            raise unittest.SkipTest(f"there is no {lacks}")

    def browsed(self, script, *words):
        """What a script saw in a browser."""
        ran = subprocess.run(
            [PYTHON, f"{ROOT}/tests/support/{script}", *words], stdout=subprocess.PIPE, stderr=subprocess.PIPE, timeout=120
        )
        self.check("the browser", (ran.returncode, ran.stderr[-2000:] if ran.returncode else b""), (0, b""))
        return json.loads(ran.stdout)

    def test_keyboard(self):
        """From the form to a day, by the keyboard alone."""
        with open(SAMPLE, encoding="utf-8") as it:
            fares = it.read()
        for number, name in ((10, SCRIPT), (12, IMAGE)):
            fares = fares.replace(f"{{ place = {number},", f'{{ place = {number}, name = "{name}",', 1)
        self.check("both names are there", fares.count(SCRIPT) + fares.count(IMAGE), 2)
        path = written(self.folder, "named.toml", fares.encode())
        journal = written(self.folder, "journal", "".join(f"{line}\n" for line in taps_of(TAPS)).encode())
        with shown(journal, path) as (_, port):
            came = self.browsed("browse.py", f"http://{HOST}:{port}", "7", "2024-01-08")
        form, week, day = came["form"], came["week"], came["day"]
        self.check("the form's fields", form["names"].get("spinbutton", [])[:1], ["Account"])
        self.check("the form's button", form["names"].get("button", [])[:1], ["Show its week through this day"])
        self.check("the week's address", week["address"], f"http://{HOST}:{port}/week?account=7&day=2024-01-08")
        self.check("the day's address", day["address"], f"http://{HOST}:{port}/day?account=7&day={MONDAY}")
        self.check("the day's title", day["title"], "Account 7, Monday, day 19730, 2024-01-08")
        pictures = day["names"].get("image", [])
        self.check("one picture", len(pictures), 1)
        self.check("its name", pictures[0].startswith(f"{day['title']} The day from 04:30 to 04:30. Squares are"), True)
        self.check("the tables", len(day["names"].get("table", [])), 2)
        for name in (SCRIPT, IMAGE):
            self.check(f"{name} is text", name in day["text"], True)
        for name, page in (("form", form), ("week", week), ("day", day)):
            self.check(f"{name}: no script", page["scripts"], 0)
            self.check(f"{name}: the style sheet", "sans-serif" in page["styled"], True)
            self.check(f"{name}: nothing in the browser's log", [it for it in page["log"] if "favicon" not in it], [])
        self.check("no sideways scroll at 400 pixels", came["narrow"][0] <= came["narrow"][1], True)

    def test_correcting(self):
        """A clerk takes a boarding out, by buttons and with a secret that the browser was asked for."""
        journals, ledger = new_folder(self.folder), os.path.join(self.folder, "ledger.db")
        clerk = f"17 5000 {hashlib.sha256(b'sesame').hexdigest()} {SCRIPT}\n"
        staff = written(self.folder, "staff", clerk.encode())
        with staying(journals, ledger, fares=SAMPLE) as service:
            talk(service.port, boarding(7).encode() + b"QUIT\n")
            with shown(journals, SAMPLE, service.control, staff) as (_, port):
                came = self.browsed("browse_fix.py", f"http://17:sesame@{HOST}:{port}", "7", "2024-01-08")
        buttons = {name: page["names"].get("button", []) for name, page in came.items()}
        self.check("the form's buttons", buttons["form"][:2], ["Show its week through this day", "Correct this day"])
        self.check("a button for the tap", "Take it out.." in buttons["choices"], True)
        self.check("the clerk is named as text", f"You are {SCRIPT}, staff number 17." in came["preview"]["text"], True)
        self.check("what it would change", "The price of this day 1.75 0.00 -1.75" in came["preview"]["text"], True)
        self.check("the reply", "Reply: OK 19730 0 0\nThe correction is kept." in came["done"]["text"], True)
        self.check("back again", "The price of this day 0.00 1.75 +1.75" in came["drop"]["text"], True)
        for name, page in came.items():
            self.check(f"{name}: no script", page["scripts"], 0)
            self.check(f"{name}: the style sheet", "sans-serif" in page["styled"], True)
            self.check(f"{name}: nothing in the browser's log", [it for it in page["log"] if "favicon" not in it], [])
