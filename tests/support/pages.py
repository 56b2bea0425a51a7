"""The program that shows pages: how it is started, what it is asked, and what it answers."""

import contextlib
import html
import http.client
import re
import subprocess
import time
from typing import NamedTuple

from support.repository import LONDON, SAMPLE
from support.running import TIME_TO_REPLY, heard, started
from support.serving import HOST, free_ports

POLICY = "default-src 'none'; style-src 'self'; form-action 'self'; frame-ancestors 'none'; base-uri 'none'"
HTML, TEXT, CSS = (f"text/{kind}; charset=utf-8" for kind in ("html", "plain", "css"))


class Answer(NamedTuple):
    status: int
    fields: list
    body: bytes


def fields_of(kind, length, *more):
    """The fields of an answer of this content type, by their names."""
    return sorted([
        ("content-security-policy", POLICY),
        ("x-content-type-options", "nosniff"),
        ("cross-origin-resource-policy", "same-origin"),
        ("cross-origin-opener-policy", "same-origin"),
        ("cache-control", "no-store"),
        ("referrer-policy", "same-origin"),
        ("connection", "close"),
        ("content-type", kind),
        ("content-length", str(length)),
        *more,
    ])


def text_answer(status, body, kind=TEXT, *more):
    return Answer(status, fields_of(kind, len(body), *more), body)


def listening(port):
    """What is said once browsers are answered."""
    return f"farebox: pages at http://{HOST}:{port}/\n".encode()


def page_words(journal, port, fares=SAMPLE, control=None, staff=None, greeting=None, ledger=None):
    """The words of such a program, where a service is asked or not, with a greeting or none, clerks correct or do not, and
    a ledger says what was posted or none does."""
    options = [("--control", control), ("--staff", staff), ("--greeting", greeting), ("--ledger", ledger)]
    given = [word for name, value in options if value is not None for word in (name, str(value))]
    return ["page", fares, LONDON, "--journal", journal, "--port", str(port), *given]


@contextlib.contextmanager
def shown(journal, fares=SAMPLE, control=None, staff=None, greeting=None, ledger=None):
    """A program that shows pages, once it answers, and its port."""
    port = free_ports(1)
    with started(page_words(journal, port, fares, control, staff, greeting, ledger), stdin=subprocess.DEVNULL) as ran:
        said = heard(ran.stderr, len(listening(port)))
        if said != listening(port):
            raise AssertionError(f"{said} in place of {listening(port)}")
        yield ran, port


def asked(port, target, method="GET", host=None, body=None, fields=()):
    """What a request is answered."""
    peer = http.client.HTTPConnection(HOST, port, timeout=TIME_TO_REPLY)
    with contextlib.closing(peer):
        peer.putrequest(method, target, skip_host=True, skip_accept_encoding=True)
        if host != "":
            peer.putheader("Host", host or f"{HOST}:{port}")
        for name, value in fields:
            peer.putheader(name, value)
        if body is not None:
            peer.putheader("Content-Length", str(len(body)))
        peer.endheaders(body)
        it = peer.getresponse()
        return Answer(it.status, sorted((name.lower(), value) for name, value in it.getheaders()), it.read())


def soon(is_so):
    """Whether something is so before long: the journals are read again and again."""
    end = time.monotonic() + TIME_TO_REPLY
    while time.monotonic() < end:
        if is_so():
            return True
        time.sleep(0.05)
    return False


def cells_of(page):
    """The texts of the cells of a page's tables, row by row."""
    rows = re.findall(r"<tr[^>]*>(.*?)</tr>", page.decode(), re.S)
    return [[html.unescape(re.sub(r"<[^>]*>", "", it)) for it in re.findall(r"<t[hd][^>]*>(.*?)</t[hd]>", row, re.S)] for row in rows]


def forms_of(page, action):
    """The fields of each form of a page that goes to this path and has no other fields than hidden ones, in order."""
    forms = re.findall(rf'<form action="{re.escape(action)}" method="post">(.*?)</form>', page.decode(), re.S)
    hidden = r'<input type="hidden" name="([^"]*)" value="([^"]*)">'
    return [[(name, html.unescape(value)) for name, value in re.findall(hidden, form)] for form in forms]


def codes_of(page):
    """The lines that a page shows as such."""
    return [html.unescape(it) for it in re.findall(r"<code>(.*?)</code>", page.decode())]
