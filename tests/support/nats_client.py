"""A client of NATS, which remembers what is published under answers."""

from support.serving import connected


class NatsClient:
    """A client at a connection of its own."""

    def __init__(self, port):
        self.peer = connected(port)
        self.lines = self.peer.makefile("rb")
        # The payloads that came, by their subjects.
        self.came = {}
        self.lines.readline()
        self.peer.sendall(b'CONNECT {"verbose":false,"headers":true,"no_responders":true}\r\n')
        self.peer.sendall(b"SUB answers.> 1\r\nSUB _INBOX.asked 2\r\nPING\r\n")
        while self.lines.readline() != b"PONG\r\n":
            pass

    def __enter__(self):
        return self

    def __exit__(self, *_):
        self.lines.close()
        self.peer.close()

    def publish(self, subject, payload, reply=""):
        self.peer.sendall(f"PUB {subject} {reply} {len(payload)}\r\n".encode() + payload + b"\r\n")

    def take(self):
        """Takes the next message, and remembers it by its subject."""
        verb, *words = self.lines.readline().decode().split() or ["END"]
        if verb == "PING":
            self.peer.sendall(b"PONG\r\n")
        elif verb in ("MSG", "HMSG"):
            head = int(words[-2]) if verb == "HMSG" else 0
            payload = self.lines.read(int(words[-1]) + 2)[head:-2]
            self.came.setdefault(words[0], []).append(payload)
        elif verb != "PONG":
            raise ConnectionError(verb)

    def ask(self, subject, payload=b""):
        """What is answered."""
        self.publish(subject, payload, "_INBOX.asked")
        while "_INBOX.asked" not in self.came:
            self.take()
        return self.came.pop("_INBOX.asked")[0]

    def publish_all(self, subject, lines):
        """Publishes lines into a stream, and waits for it now and then, and at the end."""
        for left, line in zip(range(len(lines) - 1, -1, -1), lines):
            if left % 500 == 0:
                self.ask(subject, line)
            else:
                self.publish(subject, line)
