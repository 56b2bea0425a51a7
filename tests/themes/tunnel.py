"""A tunnel of TLS in front of a service that stays, by the lines of docs/OPERATIONS.md: whom certificates let to which
port. Where there is no stunnel or no openssl, a line says that it is not tried."""

import contextlib
import os
import re
import shutil
import signal
import socket
import ssl
import subprocess
import time
import unittest

from support.journals import new_folder
from support.repository import ROOT
from support.running import TIME_TO_END, TIME_TO_REPLY, written
from support.serving import HOST, boarding, free_ports, listens
from support.staying import staying
from support.theme import Theme

BOARDED, CREDIT = "OK 19730 175 175\n", "FIX 3 1 7 CREDIT 19730 25\n"


def tool(*names):
    """The path of the first of these tools that the system has, those for its superuser too."""
    path = f"{os.environ.get('PATH', '')}:/usr/sbin:/sbin"
    return next(filter(None, (shutil.which(name, path=path) for name in names)), None)


def told_lines():
    """The lines for stunnel that docs/OPERATIONS.md tells."""
    with open(f"{ROOT}/docs/OPERATIONS.md", encoding="utf-8") as document:
        block = re.search(r"^    \[readers\]\n(?:    .*\n|\n)*", document.read(), re.M)
    return re.sub("^    ", "", block.group(), flags=re.M)


class Tunnel(Theme):
    """Readers and staff, each with a certificate of an authority of their own."""

    def setUp(self):
        super().setUp()
        self.stunnel, self.openssl = tool("stunnel4", "stunnel"), tool("openssl")
        if not (self.stunnel and self.openssl):
            missing = "stunnel" if self.openssl else "openssl"
            print(f"tunnel: not tried, since there is no {missing} here", flush=True)
            raise unittest.SkipTest(f"there is no {missing}")
        for name in ("readers", "staff", "others"):
            self.make_authority(name)
        self.make_certificate("server", "readers", HOST)
        self.make_certificate("gate", "readers")
        self.make_certificate("clerk", "staff")
        self.make_certificate("stranger", "others")

    def path(self, name):
        return os.path.join(self.folder, name)

    def run_openssl(self, *words):
        subprocess.run([self.openssl, *words], check=True, stdout=subprocess.DEVNULL, stderr=subprocess.DEVNULL)

    def new_key(self, name):
        """The words for a new key in NAME.key, and a request of that name."""
        curve = ("-newkey", "ec", "-pkeyopt", "ec_paramgen_curve:prime256v1", "-nodes")
        return "req", *curve, "-keyout", self.path(f"{name}.key"), "-subj", f"/CN={name}"

    def make_authority(self, name):
        self.run_openssl(*self.new_key(name), "-x509", "-days", "2", "-out", self.path(f"{name}-ca.pem"))

    def make_certificate(self, name, authority, host=None):
        """NAME.pem, with its key and its certificate."""
        request, signed = self.path(f"{name}.csr"), self.path(f"{name}.crt")
        self.run_openssl(*self.new_key(name), "-out", request)
        extension = []
        if host:
            extension = ["-extfile", written(self.folder, "host", f"subjectAltName=IP:{host}\n".encode())]
        self.run_openssl(
            "x509", "-req", "-in", request, "-CA", self.path(f"{authority}-ca.pem"),
            "-CAkey", self.path(f"{authority}.key"), "-CAcreateserial", "-days", "2", "-out", signed, *extension,
        )
        with open(self.path(f"{name}.pem"), "wb") as both:
            for part in (self.path(f"{name}.key"), signed):
                with open(part, "rb") as it:
                    both.write(it.read())
        os.chmod(self.path(f"{name}.pem"), 0o600)

    @contextlib.contextmanager
    def tunnel(self, service):
        """The tunnel before a service, and its ports for readers and for staff."""
        port = free_ports(2)
        lines = told_lines().replace("/etc/stunnel/", f"{self.folder}/")
        for told, here in (("9443", port), ("9444", port + 1), ("9000", service.port), ("9001", service.control)):
            lines = lines.replace(told, str(here))
        lines = lines.replace("accept = ", f"accept = {HOST}:")
        own = f"foreground = yes\npid =\noutput = {self.path('log')}\n"
        path = written(self.folder, "stunnel.conf", f"{own}{lines}".encode())
        with subprocess.Popen([self.stunnel, path], stdout=subprocess.DEVNULL, stderr=subprocess.DEVNULL) as ran:
            try:
                until = time.monotonic() + TIME_TO_REPLY
                while not (listens(port) and listens(port + 1)) and time.monotonic() < until:
                    time.sleep(0.05)
                yield port, port + 1
            finally:
                ran.send_signal(signal.SIGTERM)
                ran.wait(TIME_TO_END)

    def said(self, port, certificate, line):
        """The reply to a line by a certificate, or by none; nothing where the tunnel lets nobody in."""
        context = ssl.create_default_context(cafile=self.path("readers-ca.pem"))
        if certificate:
            context.load_cert_chain(self.path(f"{certificate}.pem"))
        came = b""
        with contextlib.suppress(ssl.SSLError, OSError), socket.create_connection((HOST, port), TIME_TO_REPLY) as plain:
            with context.wrap_socket(plain, server_hostname=HOST) as peer:
                peer.sendall(line.encode())
                while not came.endswith(b"\n"):
                    more = peer.recv(4096)
                    if not more:
                        break
                    came += more
        return came

    def test_who_is_let_in(self):
        """Readers reach their port, staff theirs, and nobody else either."""
        with staying(new_folder(self.folder), self.path("ledger.db")) as service:
            with self.tunnel(service) as (readers, staff):
                self.check("a reader", self.said(readers, "gate", boarding(7)), BOARDED.encode())
                self.check("a correction of a reader", self.said(readers, "gate", CREDIT), b"NO 34 NotHere\n")
                self.check("a clerk", self.said(staff, "clerk", CREDIT), b"OK 19730 175 175\n")
                self.check("what is due by both", self.said(staff, "clerk", "DUE 7 19730\n"), b"DUE 7 19730 19730 2 150 4=150\n")
                for port, certificate in (
                    (staff, "gate"), (readers, "clerk"), (readers, "stranger"), (staff, "stranger"), (readers, None), (staff, None),
                ):
                    self.check(f"{certificate} at {port}", self.said(port, certificate, boarding(8)), b"")
                for port in (readers, staff):
                    with socket.create_connection((HOST, port), TIME_TO_REPLY) as plain:
                        plain.sendall(boarding(8).encode())
                        with contextlib.suppress(OSError):
                            plain.shutdown(socket.SHUT_WR)
                        came = b""
                        with contextlib.suppress(OSError):
                            came = plain.recv(4096)
                        self.check(f"without TLS at {port}", BOARDED.encode() in came, False)
                self.check("nothing of the others", self.said(staff, "clerk", "DUE 8 19730\n"), b"DUE 8 19730 19730 0 0\n")
            self.check("how the service ends", service.stopped(), service.wanted())
