"""The answers of docs/DISPUTES.md, by the lines that stand above each."""

import os
import re
import shlex

from support.repository import LONDON, ROOT, SAMPLE
from support.running import answers, run, written
from support.theme import Theme

# A question, and the blocks below it: the lines of the journal, and commands with what they print.
QUESTION = re.compile(r"(?m)^## (.+)\n\n```text\n((?:.+\n)+)```\n\n```text\n((?:.+\n)+)```$")
QUESTIONS = 13


class Disputes(Theme):
    def files(self, number, lines):
        """The journal of these lines, and the ledger of a session that closes days, if they do."""
        journal, ledger = (os.path.join(self.folder, f"{name} {number}") for name in ("taps.txt", "ledger.db"))
        if "CLOSE" not in lines:
            return {"taps.txt": written(self.folder, f"taps.txt {number}", lines.encode())}
        came = run(["run", SAMPLE, LONDON, "--journal", journal, "--ledger", ledger], lines.encode())
        self.check(f"the session of question {number}", (came.status, came.errors), (0, b""))
        return {"taps.txt": journal, "ledger.db": ledger}

    def test_answers(self):
        """Each command prints what the page says."""
        with open(f"{ROOT}/docs/DISPUTES.md", encoding="utf-8") as page:
            questions = QUESTION.findall(page.read())
        self.check("questions", len(questions), QUESTIONS)
        for number, (question, lines, told) in enumerate(questions, 1):
            given = {"fares.toml": SAMPLE, "ZONE": LONDON, **self.files(number, lines)}
            for command in told.split("$ farebox ")[1:]:
                words, output = command.split("\n", 1)
                asked = [given.get(word, word) for word in shlex.split(words)]
                self.check(f"{question} ({words})", run(asked), answers(output.encode()))
