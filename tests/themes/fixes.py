"""Corrections from the pages: what clerks are shown and send, what a service keeps of it, and who is refused. The amounts
are those of the rows in docs/LINES.md, and of themes corrections and clocks, all by hand."""

import base64
import contextlib
import glob
import hashlib
import os
import re
import socket
import subprocess
import threading
import time
from typing import NamedTuple
from urllib.parse import urlencode

from support.journals import new_folder
from support.pages import (
    CSS, HTML, TEXT, asked, cells_of, codes_of, forms_of, page_words, shown, soon, text_answer,
)
from support.repository import SAMPLE
from support.running import MISSING, MONDAY, TIME_TO_REPLY, USAGE, bytes_of, fault, heard, run, started, written
from support.serving import HOST, free_ports, talk
from support.staying import said_at_start, staying, staying_words
from support.theme import Theme

FORM = "application/x-www-form-urlencoded"
UNKNOWN = text_answer(404, b"There is no such page.\n")
ELSEWHERE = text_answer(421, b"This page is for 127.0.0.1 and localhost.\n")
ONLY_READ = text_answer(405, b"Pages are only read here.\n", TEXT, ("allow", "GET, HEAD"))
FOREIGN = text_answer(403, b"This form does not come from this page.\n")
OTHER_TYPE = text_answer(415, b"Only a form is read here.\n")
NOBODY = text_answer(
    401, b"Corrections are for staff: a number and its secret are asked for.\n", TEXT,
    ("www-authenticate", 'Basic realm="farebox", charset="UTF-8"'),
)
ONLY_POSTED = text_answer(405, b"Forms are posted here.\n", TEXT, ("allow", "POST"))
STALE = text_answer(
    403,
    b"This form is from before the pages were started again, and was not sent now. If you have sent it before and got no "
    b"answer, look at the account first: the correction may be there. If it is not, begin again.\n",
)
OVER = text_answer(403, b"You may not give a Credit of so much.\n")
BAD_FORM = text_answer(400, b"This form names no correction.\n")
NO_SUCH_TIME = text_answer(400, b"No clock shows this time on that day, since the clocks go forward. Give another time.\n")
LOST = text_answer(
    503,
    b"The service did not answer. The correction may have been kept, or not. Reload this page to send the same form again: it "
    b"is kept once. If the form is refused then, since the pages were started again, look at the account first: the "
    b"correction may be there.\n",
    HTML,
)
KEPT, KEPT_BEFORE = b"The correction is kept.", b"It was kept before: nothing was done twice."
REFUSED = b"It was refused, and nothing has changed."
UNKNOWN_YET = b"It may have been kept, or not: look at the day before you correct it again."
# What else is said of a refusal.
ADVICE = {
    1: b"The time is too early, or too far ahead of the clock: give another time.",
    15: b"There is no such place, or its kind is another: give another place or kind.",
    22: b"Another correction of yours has this number, from the same second: go back and make a new preview.",
    23: b"The account has as many corrections as it can have: tell the operator.",
    30: b"The service has too much to do: wait, and reload this page to send the same form again.",
    34: b"No corrections are taken where the pages send them: tell the operator.",
    50: b"The service does not know these pages, or they have another greeting: tell the operator.",
    52: b"The service is late: reload this page to send the same form again, which is kept once.",
    90: b"The service had no memory: wait, and reload this page to send the same form again.",
}

# With examples/sample.toml: Monday 2024-01-08, day 19730, in at 07:00 in London; and Monday 2024-07-08, day 19912, in at
# 06:30 in summer time. Neither has an Out yet: each is a maximum fare.
WINTER_IN, SUMMER_IN = "TAP 1 1 7 1704697200 10 IN\n", "TAP 1 1 8 1720416600 14 IN\n"
SUMMER = 19912


class Clerk(NamedTuple):
    staff: int
    limit: int
    secret: str
    name: str

    def line(self):
        return f"{self.staff} {self.limit} {hashlib.sha256(self.secret.encode()).hexdigest()} {self.name}\n"

    def basic(self):
        return "Basic " + base64.b64encode(f"{self.staff}:{self.secret}".encode()).decode()


# One may give back 50 pounds at a time, the other nothing; a secret may have a colon in it, and a name what is markup.
ANN, BOB = Clerk(17, 5_000, "open sesame", "Ann Smith"), Clerk(9, 0, "a:b \u00e9", "Bob <i>")


class Office(NamedTuple):
    """A service, its journals, and the pages by which clerks correct."""

    control: int
    journals: str
    port: int
    ran: subprocess.Popen

    def fields(self, clerk=ANN, **other):
        """The fields of a form that a browser sends, but for those that are others, or None for none."""
        usual = {"Origin": f"http://{HOST}:{self.port}", "Content-Type": FORM, "Authorization": clerk.basic()}
        usual.update({name.replace("_", "-"): value for name, value in other.items()})
        return [(name, value) for name, value in usual.items() if value is not None]

    def post(self, path, body, clerk=ANN, host=None, method="POST", **other):
        """What a form is answered."""
        body = body if isinstance(body, bytes) else body.encode()
        return asked(self.port, path, method, host, body, self.fields(clerk, **other))

    def kept(self):
        """The bytes of all journals."""
        return {path: bytes_of(path) for path in sorted(glob.glob(f"{self.journals}/*.lines"))}

    def count(self, line):
        """How often a line stands in the journals."""
        return sum(it.split(b"\n").count(line.encode()) for it in self.kept().values())


def staff_file(folder, *clerks):
    text = "# staff, limit, SHA-256 of the secret, name\n\n" + "".join(map(Clerk.line, clerks))
    return written(folder, "staff", text.encode())


def of_day(account, day=MONDAY):
    return f"account={account}&day={day}"


def changes(day, week):
    """The rows of both prices: before, after, and the difference."""
    return [["Of", "Before", "After", "Difference"], ["The price of this day", *day], ["Due of its week through this day", *week]]


def next_second():
    """Waits for it: a clerk's next correction has another number then, and all that was kept is read."""
    time.sleep(1.1)


class Listener:
    """A port for staff that answers each connection's first line as it is told, and remembers all that came."""

    def __init__(self, *replies):
        self.heard, self.replies = [], list(replies)
        self.socket = socket.create_server((HOST, 0))
        self.port = self.socket.getsockname()[1]
        threading.Thread(target=self.answer, daemon=True).start()

    def answer(self):
        with contextlib.suppress(OSError):
            for reply in self.replies:
                peer, _ = self.socket.accept()
                with peer:
                    peer.settimeout(TIME_TO_REPLY)
                    self.heard.append(peer.recv(4096))
                    for piece in reply or []:
                        peer.sendall(piece)
                        time.sleep(0.05)
                    if reply is None:
                        # It says nothing, until the other side has had enough.
                        self.heard.append(peer.recv(4096))

    def close(self):
        self.socket.close()


class Fixes(Theme):
    """Clerks, and strangers."""

    @contextlib.contextmanager
    def office(self, *taps, clerks=(ANN, BOB), greeting=None):
        """A service that has these taps, with pages."""
        journals, ledger = new_folder(self.folder, "journals"), os.path.join(self.folder, "journals.db")
        more, begin = (("--greeting", greeting), f"{greeting}\n") if greeting else ((), "")
        with staying(journals, ledger, fares=SAMPLE, more=more) as service:
            if taps:
                talk(service.port, "".join([begin, *taps]).encode() + b"QUIT\n")
            with shown(journals, SAMPLE, service.control, staff_file(self.folder, *clerks), greeting) as (ran, port):
                self.check("all taps are read", soon(lambda: asked(port, "/healthz").status == 200), True)
                yield Office(service.control, journals, port, ran)

    def previewed(self, name, office, path, body, what, rows, clerk=ANN):
        """What a form shows and changes not, and the fields of the form that makes the correction."""
        before, since = office.kept(), int(time.time())
        page = office.post(path, body, clerk)
        until = int(time.time())
        self.check(f"{name}: an answer", page, text_answer(200, page.body, HTML))
        self.check(f"{name}: what would change", cells_of(page.body), rows)
        forms = forms_of(page.body, "/fix")
        self.check(f"{name}: one form", len(forms), 1)
        fields = dict(forms[0]) if forms else {}
        self.check(f"{name}: its fields", list(fields), ["account", "day", "seq", "token", "what"])
        self.check(f"{name}: what it does", fields.get("what"), what)
        seq, token = fields.get("seq", "0"), fields.get("token", "")
        self.check(f"{name}: its number is the second", since <= int(seq) <= until, True)
        self.check(f"{name}: its token", re.fullmatch(r"[0-9a-f]{32}", token) is not None, True)
        line = f"FIX {clerk.staff} {seq} {fields.get('account')} {what}"
        self.check(f"{name}: its line", codes_of(page.body), [line])
        self.check(f"{name}: nothing is kept", office.kept(), before)
        return fields, line

    def check_sent(self, name, office, fields, line, reply, sentence, clerk=ANN):
        """What the form that makes a correction comes to."""
        done = office.post("/fix", urlencode(fields), clerk)
        self.check(f"{name}: an answer", done, text_answer(200, done.body, HTML))
        self.check(f"{name}: the line and its reply", codes_of(done.body), [line, reply])
        self.check(f"{name}: in words", sentence in done.body, True)
        return done

    def corrected(self, name, office, path, body, what, rows, reply, clerk=ANN):
        """The whole way of a correction; the same form again is AGAIN, and nothing is kept twice."""
        next_second()
        fields, line = self.previewed(f"{name}, previewed", office, path, body, what, rows, clerk)
        done = self.check_sent(f"{name}, sent", office, fields, line, reply, KEPT, clerk)
        # None withdraws a Drop.
        back = [("account", fields["account"]), ("day", fields["day"]), ("what", f"DROP {clerk.staff} {fields['seq']}")]
        self.check(f"{name}: withdraws it", forms_of(done.body, "/preview"), [] if what.startswith("DROP ") else [back])
        kept = office.kept()
        self.check(f"{name}: kept once", office.count(line), 1)
        again = reply.replace("OK", "AGAIN", 1)
        self.check_sent(f"{name}, again", office, fields, line, again, KEPT_BEFORE, clerk)
        self.check(f"{name}: nothing more is kept", office.kept(), kept)
        return fields

    def check_amounts(self, name, office, account, day, amount):
        """That a day comes to so much before long."""
        self.check(
            name, soon(lambda: ["The day", amount] in cells_of(asked(office.port, f"/day?{of_day(account, day)}").body)), True
        )

    def choices(self, office, account, day=MONDAY):
        """What may be taken back on the page that asks what to correct."""
        page = asked(office.port, f"/correct?{of_day(account, day)}")
        return page, [dict(form).get("what") for form in forms_of(page.body, "/preview")]

    def test_corrections(self):
        """Each kind of correction from its form to the day of after it."""
        with self.office(WINTER_IN) as office:
            self.check("the second button", b'formaction="/correct"' in asked(office.port, "/").body, True)
            self.check_amounts("the day before all", office, 7, MONDAY, "8.60")
            page, whats = self.choices(office, 7)
            self.check("what can be corrected", page, text_answer(200, page.body, HTML))
            self.check("the tap", [(row[0], row[2], row[3]) for row in cells_of(page.body)[1:]], [
                ("07:00:00", "In at a station", "1 1")
            ])
            self.check("its button", whats, ["VOID 1 1"])
            self.check("by the date", asked(office.port, f"/correct?{of_day(7, '2024-01-08')}"), page)
            # The touch out that was forgotten, at 07:30: zones 1 to 2, peak.
            filled = self.corrected(
                "an Out", office, "/preview-tap", f"{of_day(7)}&time=07%3A30&place=12&kind=OUT", "FILL 1704699000 12 OUT",
                changes(["8.60", "3.40", "-5.20"], ["8.60", "3.40", "-5.20"]), "OK 19730 340 340",
            )
            self.check_amounts("the day with it", office, 7, MONDAY, "3.40")
            credit = self.corrected(
                "a Credit", office, "/preview-credit", f"{of_day(7)}&pence=100", "CREDIT 19730 100",
                changes(["3.40", "3.40", "0.00"], ["3.40", "2.40", "-1.00"]), "OK 19730 340 340",
            )
            drops = [f"DROP 17 {it['seq']}" for it in (filled, credit)]
            self.check("all can be taken back", soon(lambda: self.choices(office, 7)[1] == ["VOID 1 1", *drops]), True)
            self.corrected(
                "the Out withdrawn", office, "/preview", urlencode({"account": 7, "day": MONDAY, "what": drops[0]}), drops[0],
                changes(["3.40", "8.60", "+5.20"], ["2.40", "7.60", "+5.20"]), "OK 19730 860 860",
            )
            self.check_amounts("the day without it", office, 7, MONDAY, "8.60")
            # What is withdrawn has no button any more, and neither has the Drop. From another day's page the Credit is
            # withdrawn on its own.
            self.check("what was withdrawn", soon(lambda: self.choices(office, 7)[1] == ["VOID 1 1", drops[1]]), True)
            page, _ = self.choices(office, 7)
            self.check("in words", [row[-1].strip() for row in cells_of(page.body) if row[1:2] and row[1].startswith("day ")], [
                "no", "Withdraw..", "no"
            ])
            page, _ = self.choices(office, 7, MONDAY + 1)
            self.check("from the day after", [dict(it) for it in forms_of(page.body, "/preview")], [
                {"account": "7", "day": str(MONDAY), "what": drops[1]}
            ])
            # The other clerk may give nothing back, and take out a tap. What is due is not below 0.
            self.corrected(
                "the tap taken out", office, "/preview", f"{of_day(7)}&what=VOID+1+1", "VOID 1 1",
                changes(["8.60", "0.00", "-8.60"], ["7.60", "0.00", "-7.60"]), "OK 19730 0 0", BOB,
            )
            self.check(
                "the day without a tap",
                soon(lambda: b"No journey began" in asked(office.port, f"/day?{of_day(7)}").body), True,
            )
            self.check("in the journals", sum(it.count(b"FIX ") for it in office.kept().values()), 4)

    def test_times(self):
        """A tap is added at the local time of its service day, in summer time too, and none where no clock shows it."""
        with self.office(SUMMER_IN) as office:
            self.check_amounts("the day before", office, 8, SUMMER, "8.60")
            # 07:20 in summer time is 06:20 of UTC: zones 2 to 3, peak.
            self.corrected(
                "in summer", office, "/preview-tap", f"{of_day(8, '2024-07-08')}&time=07%3A20&place=11&kind=OUT",
                "FILL 1720419600 11 OUT", changes(["8.60", "2.10", "-6.50"], ["8.60", "2.10", "-6.50"]), "OK 19912 210 210",
            )
            self.check_amounts("the day after", office, 8, SUMMER, "2.10")
            boarding = changes(["0.00", "1.75", "+1.75"], ["0.00", "1.75", "+1.75"])
            for name, day, time_of, utc in (
                ("in winter", "2024-01-08", "08%3A10", 1704701400), ("to the second", MONDAY, "08%3A10%3A05", 1704701405),
                ("its first second", MONDAY, "04%3A30", 1704688200), ("its last minute", MONDAY, "04%3A29", 1704774540),
                ("after midnight", MONDAY, "01%3A10", 1704762600),
                # Sunday 2024-03-31 is the day after day 19812: the clock goes from 01:00 to 02:00.
                ("before the change", 19812, "00%3A59%3A59", 1711846799), ("after it", 19812, "02%3A59%3A59", 1711850399),
            ):
                body = f"{of_day(9, day)}&time={time_of}&place=50&kind=BUS"
                self.previewed(name, office, "/preview-tap", body, f"FILL {utc} 50 BUS", boarding)
            twice = office.post("/preview-tap", f"{of_day(9, 20022)}&time=01%3A30&place=50&kind=BUS")
            whats = [dict(it).get("what") for it in forms_of(twice.body, "/fix")]
            self.check("one of two", whats[0] in ("FILL 1729989000 50 BUS", "FILL 1729992600 50 BUS"), True)
            unseen = office.post("/preview-tap", f"{of_day(9, 19812)}&time=01%3A30&place=50&kind=BUS")
            self.check("a time that no clock shows", unseen, NO_SUCH_TIME)
            for name, day, time_of in (
                ("24 hours", MONDAY, "24%3A00"),
                ("60 minutes", MONDAY, "08%3A60"), ("60 seconds", MONDAY, "08%3A10%3A60"),
                ("no minutes", MONDAY, "08"), ("nothing", MONDAY, ""),
                ("a colon as it is", MONDAY, "08:10"), ("a date", MONDAY, "2024-01-08T08%3A10"),
            ):
                body = f"{of_day(9, day)}&time={time_of}&place=50&kind=BUS"
                self.check(name, office.post("/preview-tap", body), BAD_FORM)

    def test_refused_corrections(self):
        """What the service would refuse is shown as its refusal, and what it refuses too; neither changes anything."""
        with self.office(WINTER_IN) as office:
            before = office.kept()
            page = office.post("/preview-tap", f"{of_day(7)}&time=07%3A30&place=99&kind=OUT")
            self.check("no such place", page, text_answer(200, page.body, HTML))
            line, reply = codes_of(page.body)
            self.check("its line", re.fullmatch(r"FIX 17 [0-9]+ 7 FILL 1704699000 99 OUT", line) is not None, True)
            self.check("the reply that it would get", reply, "NO 15 UnknownPlace")
            self.check("what to do", b"<code>NO 15 UnknownPlace</code>. " + ADVICE[15] + b"</p>" in page.body, True)
            self.check("in words", [it in page.body for it in (b"<p>Not sent: ", b"<p>It would be refused: ", b"Sent:")], [True, True, False])
            self.check("no form sends it", forms_of(page.body, "/fix"), [])
            self.check("nothing is kept of it", office.kept(), before)
            fields, line = self.previewed(
                "a Void", office, "/preview", f"{of_day(7)}&what=VOID+1+1", "VOID 1 1",
                changes(["8.60", "0.00", "-8.60"], ["8.60", "0.00", "-8.60"]),
            )
            self.check_sent("a Void, sent", office, fields, line, "OK 19730 0 0", KEPT)
            kept, other = office.kept(), "CREDIT 19730 100"
            done = self.check_sent(
                "its number for a Credit", office, {**fields, "what": other}, line.replace("VOID 1 1", other),
                "NO 22 FixConflict", REFUSED + b" " + ADVICE[22] + b"</p>",
            )
            self.check("it is not offered back", forms_of(done.body, "/preview"), [])
            self.check("nothing more is kept", office.kept(), kept)

    def test_strangers(self):
        """Who may not correct is refused, by the first that is wrong, and nothing is kept of it."""
        with self.office(WINTER_IN) as office:
            fields, _ = self.previewed(
                "a Void", office, "/preview", f"{of_day(7)}&what=VOID+1+1", "VOID 1 1",
                changes(["8.60", "0.00", "-8.60"], ["8.60", "0.00", "-8.60"]),
            )
            before, port = office.kept(), office.port
            bodies = {
                "/preview": f"{of_day(7)}&what=VOID+1+1", "/preview-credit": f"{of_day(7)}&pence=100",
                "/preview-tap": f"{of_day(7)}&time=07%3A30&place=12&kind=OUT", "/fix": urlencode(fields),
            }
            of_bob = "Basic " + base64.b64encode(f"{BOB.staff}:{ANN.secret}".encode()).decode()
            basics = {
                "no secret": None, "a wrong one": ANN._replace(secret="open sesam").basic(),
                "none behind the number": ANN._replace(secret="").basic(), "another's number": of_bob,
                "nobody's number": ANN._replace(staff=18).basic(), "no number": "Basic Og==", "no base64": "Basic ***",
                "a number with a zero": "Basic " + base64.b64encode(f"017:{ANN.secret}".encode()).decode(),
                "another scheme": ANN.basic().replace("Basic", "Bearer"), "nothing": "", "two spaces": ANN.basic().replace(" ", "  "),
                "no padding": ANN.basic().rstrip("="), "a letter that is no symbol": ANN.basic()[:-2] + "*=",
                "a number alone": "Basic " + base64.b64encode(b"17").decode(),
            }
            origins = (
                None, "null", "", "http://example.com", f"https://{HOST}:{port}", f"http://{HOST}:{port + 1}", f"http://{HOST}",
                f"http://{HOST}:{port}/", f"http://{HOST}:{port}.example.com", f"{HOST}:{port}",
            )
            types = (
                None, "text/plain", f"{FORM}; charset=UTF-8", "multipart/form-data; boundary=x", "application/json", FORM.upper(),
            )
            for path, body in bodies.items():
                for name, basic in basics.items():
                    self.check(f"{path}, {name}", office.post(path, body, Authorization=basic), NOBODY)
                for origin in origins:
                    self.check(f"{path}, from {origin}", office.post(path, body, Origin=origin, Content_Type=None), FOREIGN)
                for kind in types:
                    answer = office.post(path, body, Content_Type=kind, Authorization=None)
                    self.check(f"{path}, {kind}", answer, OTHER_TYPE)
                for host in ("example.com", f"{HOST}:{port + 1}", f"localhost.example.com:{port}"):
                    self.check(f"{path} at {host}", office.post(path, body, host=host, Origin=None), ELSEWHERE)
                self.check(f"{path} of a target with a host", office.post(f"http://{HOST}:{port}{path}", body), ELSEWHERE)
                for method in ("GET", "HEAD"):
                    answer = asked(port, f"{path}?{body}", method, fields=office.fields())
                    wanted = UNKNOWN if method == "GET" else UNKNOWN._replace(body=b"")
                    self.check(f"{method} {path}", answer, wanted)
                for method in ("PUT", "PATCH", "DELETE"):
                    self.check(f"{method} {path}", office.post(path, body, method=method), ONLY_POSTED)
            for path in ("/", "/day", "/week", "/correct", "/fix/", "/Fix", "//fix", "/%66ix", "/healthz"):
                self.check(f"POST {path}", office.post(path, bodies["/fix"]), ONLY_READ)
            for name, token in (("no token", ""), ("another", "0" * 32), ("half of it", fields["token"][:16])):
                self.check(name, office.post("/fix", urlencode({**fields, "token": token})), STALE)
            self.check("nothing is kept of all that", office.kept(), before)
            self.check("it goes on", office.ran.poll(), None)
            # The other name of this machine is as good, and a query behind the path says nothing.
            other = office.post("/fix?x=y", bodies["/fix"], host=f"localhost:{port}", Origin=f"http://localhost:{port}")
            self.check("by the other name", (other.status, codes_of(other.body)[-1:]), (200, ["OK 19730 0 0"]))

    def test_forms(self):
        """A form that names no correction, or more than one, or more than its clerk may give, is refused."""
        with self.office(WINTER_IN, "TAP 1 1 8 1704697200 50 BUS\n") as office:
            fields, _ = self.previewed(
                "a Credit of all that is allowed", office, "/preview-credit", f"{of_day(7)}&pence=5000", "CREDIT 19730 5000",
                changes(["8.60", "8.60", "0.00"], ["8.60", "0.00", "-8.60"]),
            )
            before, whole = office.kept(), urlencode(fields)
            for clerk, pence in ((ANN, 5_001), (ANN, 100_000), (BOB, 1)):
                what = urlencode({"what": f"CREDIT {MONDAY} {pence}"})
                for path, body in (
                    ("/preview-credit", f"{of_day(7)}&pence={pence}"), ("/preview", f"{of_day(7)}&{what}"),
                    ("/fix", whole[:whole.index("what=")] + what),
                ):
                    self.check(f"{path}, {pence} pence for {clerk.limit}", office.post(path, body, clerk), OVER)
            front = whole[:whole.index("what=")]
            named = (
                "VOID+1+1%0AFIX+17+1+8+VOID+1+1", "VOID+1+1%0D%0A", "VOID+1+1\nFIX 17 1 8 VOID 1 1", "VOID+1+1\n", "8+VOID+1+1",
                "VOID+1+1&account=8", "VOID+1+1&what=VOID+1+1", "VOID%201%201", "VOID+1", "VOID+1+1+1", "VOID+01+1", "void+1+1",
                "", "+", "CLOSE+19730", "STOP", "CREDIT+19730+0", "CREDIT+19730+100001", "CREDIT+3+1", "DROP+17",
                "FILL+1704699000+12+UP", "VOID+65536+1", "VOID+1+4294967296", "VOID+1+1\0",
            )
            for what in named:
                for path, begin in (("/preview", f"{of_day(7)}&"), ("/fix", front)):
                    self.check(f"{path}, {what!r}", office.post(path, f"{begin}what={what}"), BAD_FORM)
            seq, token = f"seq={fields['seq']}", f"token={fields['token']}"
            for body in (
                "", "what=VOID+1+1", f"{of_day(7)}", f"{of_day(7)}&", f"day={MONDAY}&account=7&what=VOID+1+1",
                f"{of_day(0)}&what=VOID+1+1", f"{of_day(4294967296)}&what=VOID+1+1", f"{of_day(7, 3)}&what=VOID+1+1",
                f"{of_day(7, '2024-02-30')}&what=VOID+1+1", f"account=7&account=8&day={MONDAY}&what=VOID+1+1",
                f"{of_day(7)}&What=VOID+1+1", f" {of_day(7)}&what=VOID+1+1", f"{of_day('%37')}&what=VOID+1+1",
            ):
                self.check(f"/preview, {body!r}", office.post("/preview", body), BAD_FORM)
            for body in (
                f"{of_day(7)}&what=VOID+1+1", f"{of_day(7)}&{token}&{seq}&what=VOID+1+1", f"{of_day(7)}&{seq}&what=VOID+1+1",
                f"{of_day(7)}&seq=&{token}&what=VOID+1+1", f"{of_day(7)}&seq=4294967296&{token}&what=VOID+1+1",
                f"{of_day(7)}&{seq}&{token}", f"{of_day(7)}&{seq}&{token}&", f"{of_day(7)}&{seq}&{token}&WHAT=VOID+1+1",
            ):
                self.check(f"/fix, {body!r}", office.post("/fix", body), BAD_FORM)
            for path, rest in (
                ("/preview-credit", "pence="), ("/preview-credit", "pence=0"), ("/preview-credit", "pence=100001"),
                ("/preview-credit", "pence=-1"), ("/preview-credit", "pence=2.50"), ("/preview-credit", "pence=1&pence=2"),
                ("/preview-credit", "pence=1%0AFIX"), ("/preview-tap", "time=07%3A30&place=12"),
                ("/preview-tap", "time=07%3A30&place=12&kind=UP"), ("/preview-tap", "time=07%3A30&place=0&kind=OUT"),
                ("/preview-tap", "time=07%3A30&place=12+OUT&kind=IN"), ("/preview-tap", "place=12&time=07%3A30&kind=OUT"),
            ):
                self.check(f"{path}, {rest}", office.post(path, f"{of_day(7)}&{rest}"), BAD_FORM)
            self.check("no text", office.post("/preview", of_day(7).encode() + b"&what=VOID+1+1\xff"), BAD_FORM)
            self.check("nothing is kept of all that", office.kept(), before)
            self.check_amounts("another account is as it was", office, 8, MONDAY, "1.75")

    def test_no_service(self):
        """Where no service answers, that is said, and the same form sent later is kept once."""
        with contextlib.ExitStack() as stack:
            journals, ledger = new_folder(self.folder), os.path.join(self.folder, "ledger.db")
            service = stack.enter_context(staying(journals, ledger, fares=SAMPLE))
            talk(service.port, WINTER_IN.encode() + b"QUIT\n")
            staff = staff_file(self.folder, ANN)
            ran, port = stack.enter_context(shown(journals, SAMPLE, service.control, staff))
            office = Office(service.control, journals, port, ran)
            self.check_amounts("the day before", office, 7, MONDAY, "8.60")
            fields, line = self.previewed(
                "a Void", office, "/preview", f"{of_day(7)}&what=VOID+1+1", "VOID 1 1",
                changes(["8.60", "0.00", "-8.60"], ["8.60", "0.00", "-8.60"]),
            )
            self.check("the service ends", service.stopped().status, 0)
            before = office.kept()
            self.check("no service", office.post("/fix", urlencode(fields)), LOST)
            said = f"farebox: no reply from the service at {HOST}:{service.control}: ".encode()
            self.check("it is said", heard(ran.stderr, len(said)), said)
            self.check("nothing is kept", office.kept(), before)
            self.check("the pages are there", asked(port, f"/day?{of_day(7)}").status, 200)
            words = staying_words(service.port, service.control, journals, ledger, fares=SAMPLE)
            again = stack.enter_context(started(words, stdin=subprocess.DEVNULL))
            said_at_start(again.stderr, service.port, service.control)
            self.check_sent("once it is back", office, fields, line, "OK 19730 0 0", KEPT)
            self.check_sent("and again", office, fields, line, "AGAIN 19730 0 0", KEPT_BEFORE)
            self.check("kept once", office.count(line), 1)

    @contextlib.contextmanager
    def void_before(self, listener):
        """Pages whose service is a listener: its office, what the form of a Void's preview sends, its line, and the journal."""
        self.addCleanup(listener.close)
        journal = written(self.folder, "journal", WINTER_IN.encode())
        with shown(journal, SAMPLE, listener.port, staff_file(self.folder, ANN)) as (ran, port):
            office = Office(listener.port, self.folder, port, ran)
            fields, line = self.previewed(
                "a Void", office, "/preview", f"{of_day(7)}&what=VOID+1+1", "VOID 1 1",
                changes(["8.60", "0.00", "-8.60"], ["8.60", "0.00", "-8.60"]),
            )
            yield office, fields, line, journal

    def test_what_is_sent(self):
        """A correction is sent once, as its line alone, and the first line that comes back is shown as text."""
        listener = Listener(
            [b"OK 1973", b"0 0 0\nNO 50 BadLine\n"], [b"NO 52 <b>late</b>\n"], [b"BYE\n"], [b"OK 19730"], [], [b"\xff\n"], None,
        )
        with self.void_before(listener) as (office, fields, line, journal):
            self.check("a preview sends nothing", listener.heard, [])
            self.check_sent("in pieces", office, fields, line, "OK 19730 0 0", KEPT)
            markup = self.check_sent(
                "a reply that is markup", office, fields, line, "NO 52 <b>late</b>", UNKNOWN_YET + b" " + ADVICE[52] + b"</p>",
            )
            self.check("it is text", b"<b>late" in markup.body, False)
            self.check_sent("a reply that says nothing of it", office, fields, line, "BYE", UNKNOWN_YET + b"</p>")
            for name in ("half a reply", "no reply", "no text"):
                self.check(name, office.post("/fix", urlencode(fields)), LOST)
            began = time.monotonic()
            self.check("silence", office.post("/fix", urlencode(fields)), LOST)
            self.check("after some seconds", 11 < time.monotonic() - began < 20, True)
            self.check("what came", soon(lambda: listener.heard == [f"{line}\n".encode()] * 7 + [b""]), True)
            self.check("its journal is as it was", bytes_of(journal), WINTER_IN.encode())

    def test_refusals_in_words(self):
        """Each refusal that a clerk can meet has its sentence, and no other reply has one."""
        told = [*ADVICE, 2, 225, 150]
        listener = Listener(*([f"NO {number} Name\n".encode()] for number in told))
        with self.void_before(listener) as (office, fields, line, _):
            for number in told:
                begin = UNKNOWN_YET if number == 52 else REFUSED
                wanted = b"<p>" + begin + (b" " + ADVICE[number] if number in ADVICE else b"") + b"</p>"
                self.check_sent(f"{number}", office, fields, line, f"NO {number} Name", wanted)

    def test_wrong_secrets(self):
        """A wrong secret is logged by its clerk's number, at most once a second, and nothing else of what was typed."""
        journal = written(self.folder, "journal", WINTER_IN.encode())
        with shown(journal, SAMPLE, 9, staff_file(self.folder, ANN)) as (ran, port):
            office = Office(9, self.folder, port, ran)

            def tries(clerk, secret):
                basic = clerk._replace(secret=secret).basic() if secret is not None else None
                answer = office.post("/preview", f"{of_day(7)}&what=VOID+1+1", Authorization=basic)
                self.check(f"{clerk.staff}, {secret}", answer, NOBODY)

            def said(line):
                line = line.encode() + b"\n"
                self.check(line, heard(ran.stderr, len(line)), line)

            tries(ANN, None)
            tries(ANN, "sesame")
            said("farebox: a wrong secret of staff 17")
            tries(ANN, "sesame open")
            next_second()
            tries(ANN, "")
            said("farebox: a wrong secret of staff 17 (1 more in between)")
            next_second()
            tries(ANN._replace(staff=18), "open sesame")
            said("farebox: a secret with the number of no clerk")
            self.check("the right one", office.post("/preview", f"{of_day(7)}&what=VOID+1+1").status, 200)

    def test_secrets(self):
        """A thousand clerks, among them one with no secret and one with the longest; one that is longer is not read."""
        longest, longer = Clerk(17, 0, "x" * 765, "Carl"), Clerk(18, 0, "x" * 768, "Dora")
        self.check("symbols", [len(it.basic()) - len("Basic ") for it in (longest, longer)], [1_024, 1_028])
        none = Clerk(19, 0, "", "Eve")
        others = [Clerk(number, 0, "another", "Frank") for number in range(20, 1_017)]
        journal = written(self.folder, "journal", WINTER_IN.encode())
        with shown(journal, SAMPLE, 9, staff_file(self.folder, longest, longer, none, *others)) as (ran, port):
            office = Office(9, self.folder, port, ran)
            for name, clerk, wanted in (("longest", longest, 200), ("none", none, 200), ("the last", others[-1], 200), ("longer", longer, 401)):
                self.check(name, office.post("/preview", f"{of_day(7)}&what=VOID+1+1", clerk).status, wanted)

    def test_restarts(self):
        """A form from before the pages were started again is not sent, and says what to do."""
        listener = Listener([b"OK 19730 0 0\n"])
        self.addCleanup(listener.close)
        journal, staff = written(self.folder, "journal", WINTER_IN.encode()), staff_file(self.folder, ANN)
        fields = None
        for _ in range(2):
            with shown(journal, SAMPLE, listener.port, staff) as (ran, port):
                office = Office(listener.port, self.folder, port, ran)
                if fields:
                    self.check("of the start before", office.post("/fix", urlencode(fields)), STALE)
                fields, _ = self.previewed(
                    "a Void", office, "/preview", f"{of_day(7)}&what=VOID+1+1", "VOID 1 1",
                    changes(["8.60", "0.00", "-8.60"], ["8.60", "0.00", "-8.60"]),
                )
        self.check("nothing was sent", listener.heard, [])

    def test_silent_service(self):
        """A service that says nothing keeps eight connections waiting at most, and no page."""
        listener = Listener(None)
        self.addCleanup(listener.close)
        journal = written(self.folder, "journal", WINTER_IN.encode())
        with shown(journal, SAMPLE, listener.port, staff_file(self.folder, ANN)) as (ran, port):
            office = Office(listener.port, self.folder, port, ran)
            fields, _ = self.previewed(
                "a Void", office, "/preview", f"{of_day(7)}&what=VOID+1+1", "VOID 1 1",
                changes(["8.60", "0.00", "-8.60"], ["8.60", "0.00", "-8.60"]),
            )
            came = []
            waiting = [threading.Thread(target=lambda: came.append(office.post("/fix", urlencode(fields)))) for _ in range(12)]
            began = time.monotonic()
            for it in waiting:
                it.start()
            self.check("four are not kept waiting", soon(lambda: came == [LOST] * 4), True)
            said = f"farebox: too many wait for the service at {HOST}:{listener.port}"
            self.check("it is said", heard(ran.stderr, len(said)), said.encode())
            self.check("a page", asked(port, f"/day?{of_day(7)}").status, 200)
            self.check("before the others", (len(came), time.monotonic() - began < 8), (4, True))
            for it in waiting:
                it.join(TIME_TO_REPLY)
            self.check("and they", came, [LOST] * 12)
            self.check("in their time", 11 < time.monotonic() - began < 20, True)

    def test_greeting(self):
        """A service that asks for a greeting is corrected with it, and refuses another."""
        with self.office(WINTER_IN, greeting="let me in") as office:
            self.check_amounts("the day before", office, 7, MONDAY, "8.60")
            self.corrected(
                "a Void", office, "/preview", f"{of_day(7)}&what=VOID+1+1", "VOID 1 1",
                changes(["8.60", "0.00", "-8.60"], ["8.60", "0.00", "-8.60"]), "OK 19730 0 0",
            )
            before = office.kept()
            for greeting in (None, "let me"):
                next_second()
                with shown(office.journals, SAMPLE, office.control, staff_file(self.folder, ANN), greeting) as (ran, port):
                    other = office._replace(port=port, ran=ran)
                    fields, line = self.previewed(
                        f"by {greeting}", other, "/preview-credit", f"{of_day(7)}&pence=100", "CREDIT 19730 100",
                        changes(["0.00", "0.00", "0.00"], ["0.00", "0.00", "0.00"]),
                    )
                    said = REFUSED + b" " + ADVICE[50] + b"</p>"
                    self.check_sent(f"by {greeting}, sent", other, fields, line, "NO 50 BadLine", said)
                    logged = f"farebox: no correction is taken at {HOST}:{office.control}: another greeting, or no service\n"
                    self.check(f"by {greeting}, logged", heard(ran.stderr, len(logged)), logged.encode())
            self.check("nothing is kept", office.kept(), before)

    def test_without_staff(self):
        """Where no clerks are named, the pages are as they were."""
        journal = written(self.folder, "journal", WINTER_IN.encode())
        with shown(journal) as (ran, port):
            office = Office(0, self.folder, port, ran)
            self.check("no second button", b"/correct" in asked(port, "/").body, False)
            self.check("nothing to correct", asked(port, f"/correct?{of_day(7)}"), UNKNOWN)
            self.check("no query", asked(port, "/correct").status, 400)
            for path in ("/preview", "/preview-credit", "/preview-tap", "/fix"):
                self.check(f"POST {path}", office.post(path, f"{of_day(7)}&what=VOID+1+1"), ONLY_READ)
                self.check(f"GET {path}", asked(port, path), UNKNOWN)

    def test_queries(self):
        """What can be corrected is asked for as a day is, and shown to HEAD without its body."""
        journal = written(self.folder, "journal", WINTER_IN.encode())
        with shown(journal, SAMPLE, 9, staff_file(self.folder)) as (ran, port):
            office, form = Office(0, self.folder, port, ran), asked(port, "/")
            for query in ("", "?", "?account=7", f"?day={MONDAY}&account=7", "?account=0&day=19730", "?account=7&day=3"):
                self.check(f"the form again for /correct{query}", asked(port, f"/correct{query}"), form._replace(status=400))
            page = asked(port, f"/correct?{of_day(7)}")
            self.check("for HEAD", asked(port, f"/correct?{of_day(7)}", "HEAD"), page._replace(body=b""))
            counts = [page.body.count(it) for it in (b'"/preview"', b'"/preview-credit"', b'"/preview-tap"')]
            self.check("three kinds of forms", counts, [1, 1, 1])
            nobody, whats = self.choices(office, 8)
            self.check("an account without taps", (nobody.status, whats), (200, []))
            self.check("no clerk in the file", office.post("/preview", f"{of_day(7)}&what=VOID+1+1"), NOBODY)
            style = asked(port, "/style.css")
            self.check("the style sheet", style, text_answer(200, style.body, CSS))

    def test_staff_files(self):
        """Staff files that are refused, and words that do not go together."""
        journal, (port, control) = written(self.folder, "journal", b""), (free_ports(1), 9)
        digest = hashlib.sha256(b"open sesame").hexdigest()
        bad = "staff file: line {}: no clerk"

        def came(staff, fares=SAMPLE):
            return run(page_words(journal, port, fares, control, staff))

        self.check("no file", came(MISSING), fault("cannot read staff"))
        self.check("a folder", came(self.folder), fault("cannot read staff"))
        self.check("the fare file comes first", came(MISSING, MISSING), fault("cannot read fares"))
        for number, (text, wanted) in enumerate((
            (b"\xff\n", "cannot read staff"),
            (f"# one\n\n17 5000 {digest[1:]} Ann\n".encode(), bad.format(3)),
            (f"17 5000 {digest.upper()} Ann\n".encode(), bad.format(1)),
            (f"17 5000 {digest}\n".encode(), bad.format(1)), (f"17 5000 {digest} \n".encode(), bad.format(1)),
            (f"17 5000 {digest} Ann \n".encode(), bad.format(1)), (f"17 5000 {digest} Ann\r\n".encode(), bad.format(1)),
            (f"17 5000 {digest} {'a' * 65}\n".encode(), bad.format(1)), (f"17  5000 {digest} Ann\n".encode(), bad.format(1)),
            (f"17 5000 Ann {digest}\n".encode(), bad.format(1)), (f"0 5000 {digest} Ann\n".encode(), bad.format(1)),
            (f"017 5000 {digest} Ann\n".encode(), bad.format(1)), (f"65536 5000 {digest} Ann\n".encode(), bad.format(1)),
            (f"17 100001 {digest} Ann\n".encode(), bad.format(1)), (f" \n17 5000 {digest} Ann\n".encode(), bad.format(1)),
            (f"17 5000 {digest} Ann\n#\n17 0 {digest} Bob\n".encode(), "staff file: line 3: the staff number of an earlier line"),
            (f"17 5000 {digest} Ann\n17 0 {digest} Ann\n18\n".encode(), "staff file: line 2: the staff number of an earlier line"),
            ("".join(f"{it} 0 {digest} Ann\n" for it in range(1, 1_002)).encode(), "staff file: more than 1000 clerks"),
        )):
            self.check(f"file {number}", came(written(self.folder, f"staff{number}", text)), fault(wanted))
        words = page_words(journal, port)
        good = written(self.folder, "good", f"1 0 {digest} A\n65535 100000 {digest} {'a' * 64}".encode())
        for more in (
            ["--staff", good], ["--control", str(port), "--staff", good], ["--control", "0", "--staff", good],
            ["--control", "65536", "--staff", good],
        ):
            self.check(" ".join(more[:2]), run([*words, *more]), USAGE)
        with shown(journal, SAMPLE, control, good) as (_, at):
            self.check("one that is taken", asked(at, "/healthz").status, 200)
