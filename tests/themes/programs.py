"""The pages for programs: the JSON of a day and of a week, beside what the pages themselves say, and the schema that describes it. The
amounts are those of the pages, by hand."""

import json

from support.pages import TEXT, asked, cells_of, shown, text_answer
from support.repository import SAMPLE
from support.running import MONDAY, taps_of, written
from support.schemas import lacks, referred
from support.sessions import BUS_DAY, ZONE_DAY
from support.theme import Theme

KIND = "application/json"
BAD = text_answer(400, b"Ask with account=A&day=D, where D is a number or a date.\n")
# Three boardings of Monday, 2024-01-08: the second within the hour of the first, and the third not.
HOPPER_DAY = [(1704697200, 50, "BUS"), (1704700200, 50, "BUS"), (1704702200, 50, "BUS")]
DATES = ["2024-01-08", "2024-01-09", "2024-01-10", "2024-01-11", "2024-01-12", "2024-01-13", "2024-01-14"]


def boarded(number, fare, time, utc, reason, why):
    return {
        "number": number, "fare_pence": fare, "time": time, "utc": utc, "went": {"kind": "Bus", "route": {"number": 50}}, "reason": reason,
        "sentence": f"bus 50, {why}",
    }


HOPPER_SUMS = {"uncapped_pence": 350, "band": None, "maximum_fares_pence": 0, "price_pence": 350}
HOPPER_DOCUMENT = {
    "account": 7, "currency": "GBP", "day": MONDAY, "date": DATES[0],
    "journeys": [
        boarded(1, 175, "07:00:00", 1704697200, "PaysFirst", "paid: the first boarding"),
        boarded(2, 0, "07:50:00", 1704700200, "FreeAfter", "free: within 3600 s of the boarding at 07:00:00"),
        boarded(3, 175, "08:23:20", 1704702200, "PaysAfter", "paid: more than 3600 s after the boarding at 07:00:00"),
    ],
    "sums": HOPPER_SUMS, "corrections": [],
}
HOPPER_WEEK = {
    "account": 7, "currency": "GBP", "from": {"day": MONDAY, "date": DATES[0]}, "through": {"day": MONDAY + 6, "date": DATES[6]},
    "days": [{"day": MONDAY + at, "date": date, "price_pence": 0 if at else 350} for at, date in enumerate(DATES)],
    "sums": HOPPER_SUMS, "credits": [], "credits_pence": 0, "due_pence": 350,
}


def text_of(value):
    """The shortest text of a value."""
    return json.dumps(value, ensure_ascii=False, separators=(",", ":")).encode()


def pounds(pence):
    return f"{pence // 100}.{pence % 100:02}"


class Programs(Theme):
    """What programs are answered."""

    def journal(self, lines, name="journal"):
        return written(self.folder, name, "".join(f"{line}\n" for line in lines).encode())

    def document_of(self, port, target):
        answer = asked(port, target)
        self.check(target, answer, text_answer(200, answer.body, KIND))
        return json.loads(answer.body)

    def test_documents(self):
        """A day and a week, byte by byte, and who asks otherwise."""
        with shown(self.journal(taps_of(HOPPER_DAY))) as (_, port):
            day = text_answer(200, text_of(HOPPER_DOCUMENT), KIND)
            self.check("a day", asked(port, f"/day.json?account=7&day={MONDAY}"), day)
            self.check("by its date", asked(port, "/day.json?account=7&day=2024-01-08"), day)
            self.check("for HEAD", asked(port, f"/day.json?account=7&day={MONDAY}", "HEAD"), day._replace(body=b""))
            week = text_answer(200, text_of(HOPPER_WEEK), KIND)
            self.check("a week", asked(port, f"/week.json?account=7&day={MONDAY + 6}"), week)
            nobody = self.document_of(port, f"/day.json?account=8&day={MONDAY}")
            self.check("another account", (nobody["account"], nobody["journeys"], nobody["sums"]["price_pence"]), (8, [], 0))
            for path in ("/day.json", "/week.json"):
                for query in ("", "?", "?account=7", f"?day={MONDAY}&account=7", "?account=0&day=19730", "?account=7&day=3"):
                    self.check(f"{path}{query}", asked(port, f"{path}{query}"), BAD)
                only = text_answer(405, b"Pages are only read here.\n", TEXT, ("allow", "GET, HEAD"))
                self.check(f"POST {path}", asked(port, path, "POST", body=b""), only)
                self.check(f"{path} elsewhere", asked(port, f"{path}?account=7&day={MONDAY}", host="example.com").status, 421)

    def test_schema(self):
        """Each document is what the schema says, and says what its page says."""
        with open(SAMPLE, encoding="utf-8") as it:
            fares = it.read().replace("{ place = 10,", '{ place = 10, name = "A \\"b\\" \\u00e9<",', 1)
        named = written(self.folder, "named.toml", fares.encode())
        lone = [*ZONE_DAY[:6], (1704708000, 14, "IN")]
        corrected = [
            *taps_of(ZONE_DAY), "FIX 3 1 7 VOID 1 1", "FIX 3 2 7 CREDIT 19730 100", "FIX 3 3 7 DROP 3 1", "FIX 3 4 7 VOID 9 9",
            "FIX 4 1 7 FILL 1704699000 12 OUT",
        ]
        seen = set()
        for name, lines in (
            ("buses", taps_of(BUS_DAY)), ("trains", taps_of(ZONE_DAY)), ("alone", taps_of(lone)), ("corrected", corrected), ("nothing", []),
        ):
            with shown(self.journal(lines, name), named) as (_, port):
                described = self.document_of(port, "/openapi.json")
                self.check("OpenAPI", described["openapi"], "3.1.0")
                for path, wanted in (("/day", "Day"), ("/week", "Week")):
                    target = f"account=7&day={MONDAY}"
                    document = self.document_of(port, f"{path}.json?{target}")
                    schema = referred(f"#/components/schemas/{wanted}", described)
                    self.check(f"{name}{path}: its schema", lacks(schema, document, described), None)
                    page = cells_of(asked(port, f"{path}?{target}").body)
                    if path == "/day":
                        rows = [[str(it["number"]), pounds(it["fare_pence"]), it["time"], it["sentence"]] for it in document["journeys"]]
                        self.check(f"{name}: its journeys", [row for row in page if len(row) == 4 and row[0].isdigit()], rows)
                        self.check(f"{name}: the day", ["The day", pounds(document["sums"]["price_pence"])] in page, True)
                        seen |= {it["reason"] for it in document["journeys"]}
                    else:
                        self.check(f"{name}: due", ["Due", pounds(document["due_pence"])] in page, True)
                        self.check(f"{name}: Credits", document["credits_pence"], sum(it["amount_pence"] for it in document["credits"]))
        words = set(referred("#/components/schemas/Journey/properties/reason/enum", described))
        self.check("words that are no reasons", seen - words, set())
        self.check("boardings and trains", {"PaysFirst", "SingleFare", "NoExit"} <= seen, True)
        self.check("a path that the schema has not", sorted(described["paths"]), ["/day.json", "/week.json"])
