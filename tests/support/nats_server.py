"""A server of NATS with JetStream, as far as replicas need one, and what makes the streams of a log. Its streams are in
memory, and it can be made to fail."""

import contextlib
import itertools
import json
import socket
import struct
import threading
import time
from typing import NamedTuple

from support.running import cut
from support.serving import HOST

# The seconds after which a consumer is told that nothing is there, and the lines after which it has to say that it may
# go on.
HEARTBEAT, LINES_AHEAD = 1, 50
# The seconds after a byte that is sent by itself, so that it is read by itself.
AFTER_A_BYTE = 0.000_03
INFO = {
    "server_id": "N1", "server_name": "n1", "version": "2.10.27", "proto": 1, "headers": True, "max_payload": 1 << 20,
    "jetstream": True,
}
API = "$JS.API."
NO_STREAM = (404, 10059, "stream not found")
OTHER_STREAM = (400, 10058, "stream name already in use with a different configuration")
UNAVAILABLE = (503, 10008, "JetStream system temporarily unavailable")
SECOND_OF_SUBJECT = (503, 10077, "maximum messages per subject exceeded")


def closes(peer):
    """Ends a connection, and takes what comes still."""
    peer.shutdown(socket.SHUT_WR)


def breaks_off(peer):
    """Ends a connection, so that what is on its way is lost."""
    peer.setsockopt(socket.SOL_SOCKET, socket.SO_LINGER, struct.pack("ii", 1, 0))
    peer.shutdown(socket.SHUT_RD)


def falls_silent(_):
    """Leaves a connection open."""


def refused(code, number, description):
    return {"error": {"code": code, "err_code": number, "description": description}}


def in_background(call, *given):
    threading.Thread(target=call, args=given, daemon=True).start()


def status(text):
    """Headers that are a status."""
    return f"NATS/1.0 {text}\r\n\r\n".encode()


# The payload and the headers of the answer to what nobody takes.
NOBODY = b"", status("503")


class Message(NamedTuple):
    """What was published under a subject."""

    subject: str
    payload: bytes
    headers: bytes = b""


class Stream:
    """Messages one after another, from a place on."""

    def __init__(self, config, first=1):
        self.config, self.first, self.messages = config, first, []

    def last(self):
        return self.first + len(self.messages) - 1

    def at(self, place):
        return self.messages[place - self.first]

    def takes(self, subject):
        return any(it == subject or it[-1] == ">" and subject.startswith(it[:-1]) for it in self.config["subjects"])

    def newest(self, subject):
        return next((it for it in reversed(self.messages) if it.subject == subject), None)

    def add(self, message):
        """Takes a message, and acknowledges it."""
        if self.config.get("discard_new_per_subject") and self.newest(message.subject):
            return {**refused(*SECOND_OF_SUBJECT), "stream": self.config["name"], "seq": 0}
        self.messages.append(message)
        return {"stream": self.config["name"], "seq": self.last()}

    def told(self):
        """What is said of it."""
        first = self.first if self.last() else 0
        state = {"messages": len(self.messages), "first_seq": first, "last_seq": self.last(), "consumer_count": 0}
        return {"config": self.config, "state": state}


class Connection:
    """A connection of a client."""

    def __init__(self, server, peer, number, room, ends):
        self.server, self.peer, self.number = server, peer, number
        # How many bytes may be sent yet, and what happens then.
        self.room, self.ends = room, ends
        self.sending, self.subscriptions = threading.Lock(), {}

    def serve(self):
        with contextlib.suppress(OSError), self.peer, self.peer.makefile("rb") as lines:
            self.send(f"INFO {json.dumps(self.server.info)} \r\n".encode())
            while self.heed(lines.readline().decode().split(), lines):
                pass
        with self.server.changed:
            self.subscriptions.clear()
            self.server.changed.notify_all()

    def send(self, frame):
        with self.sending:
            if self.room is not None:
                frame = frame[:self.room]
                self.room -= len(frame)
            for piece in cut(frame, 1) if self.server.by_bytes else [frame]:
                self.peer.sendall(piece)
                if self.server.by_bytes:
                    time.sleep(AFTER_A_BYTE)
            if frame and self.room == 0:
                self.ends(self.peer)

    def send_message(self, subject, number, reply, payload, headers=b""):
        verb, sizes = ("HMSG", [len(headers), len(headers + payload)]) if headers else ("MSG", [len(payload)])
        words = " ".join(map(str, [verb, subject, number, *filter(None, [reply]), *sizes]))
        self.send(words.encode() + b"\r\n" + headers + payload + b"\r\n")

    def heed(self, words, lines):
        """Does what a line of the client asks for, and says whether another one may come."""
        verb, *words = words or [""]
        if verb == "PING":
            self.send(b"PONG\r\n")
        elif verb == "SUB":
            self.subscribe(words[0], words[-1])
        elif verb == "UNSUB":
            self.subscriptions.pop(words[0], None)
        elif verb in ("PUB", "HPUB"):
            size = int(words.pop())
            head = int(words.pop()) if verb == "HPUB" else 0
            taken = lines.read(size + 2)
            if taken[size:] != b"\r\n":
                return self.fail()
            self.publish(Message(words[0], taken[head:size], taken[:head]), *words[1:])
        elif verb not in ("CONNECT", "PONG"):
            return self.fail()
        return True

    def fail(self):
        self.send(b"-ERR 'Unknown Protocol Operation'\r\n")
        return False

    def subscribe(self, subject, number):
        self.subscriptions[number] = subject
        if subject in self.server.consumers:
            in_background(self.push, subject, number, *self.server.consumers[subject])

    def publish(self, message, reply=None):
        payload, headers = self.server.take(message)
        for number, subject in self.subscriptions.items():
            if subject == reply:
                self.send_message(subject, number, None, payload, headers)

    def push(self, subject, number, name, consumer, place):
        """Sends the lines of a stream from a place on, while there is this subscription."""
        changed, stream, count = self.server.changed, self.server.streams[name], 0

        def is_over():
            return number not in self.subscriptions

        with contextlib.suppress(OSError):
            while not is_over():
                with changed:
                    is_heard = changed.wait_for(lambda: place <= stream.last() or is_over(), HEARTBEAT)
                if not is_heard:
                    told = f"100 Idle Heartbeat\r\nNats-Last-Consumer: {count}\r\nNats-Last-Stream: {place - 1}"
                    self.send_message(subject, number, None, b"", status(told))
                elif not is_over():
                    count += 1
                    line = stream.at(place)
                    for gave, payload in self.server.gives(self.number, place, line.payload):
                        ack = f"$JS.ACK.{name}.{consumer}.1.{gave}.{count}.{time.time_ns()}.{stream.last() - place}"
                        self.send_message(line.subject, number, ack, payload, line.headers)
                    place += 1
                    if count % LINES_AHEAD == 0:
                        waits = f"$JS.FC.{name}.{consumer}.{count}"
                        self.send_message(subject, number, waits, b"", status("100 FlowControl Request"))
                        with changed:
                            changed.wait_for(lambda: waits in self.server.published or is_over())


def in_json(answer):
    return json.dumps(answer, separators=(",", ":")).encode(), b""


def newest_of(stream, subject):
    """The newest message of a subject."""
    message = stream.newest(subject)
    if not message:
        return b"", status("404 Message Not Found")
    name = stream.config["name"]
    return message.payload, f"NATS/1.0\r\nNats-Stream: {name}\r\nNats-Subject: {subject}\r\n\r\n".encode()


def gives_each(connection, place, line):
    """What a connection gives in the place of a line: pairs of a place and a line."""
    return [(place, line)]


class NatsServer:
    """The server. It says of itself what is in `info` too, sends each byte by itself if asked, and gives what `gives`
    says in the place of a line. `ends` has for each connection in turn after how many bytes it ends, and how; the ones
    after those do not. So many consumers are refused at first, as where the server that leads a stream was lost."""

    def __init__(self, info=(), by_bytes=False, ends=(), gives=gives_each, unavailable=0):
        self.info, self.by_bytes, self.ends, self.gives = {**INFO, **dict(info)}, by_bytes, iter(ends), gives
        self.unavailable = unavailable
        # The streams by their names; by the subjects of consumers their streams, names and first places; and the
        # payloads that no stream took, by their subjects. Who changes them tells it.
        self.streams, self.consumers, self.published, self.connections = {}, {}, {}, []
        self.changed = threading.Condition()
        self.listener = socket.create_server((HOST, 0))
        self.port = self.listener.getsockname()[1]

    def __enter__(self):
        in_background(self.accept)
        return self

    def __exit__(self, *_):
        self.listener.shutdown(socket.SHUT_RDWR)
        self.listener.close()
        for it in self.connections:
            with contextlib.suppress(OSError):
                it.peer.shutdown(socket.SHUT_RDWR)

    def accept(self):
        with contextlib.suppress(OSError):
            for number in itertools.count(1):
                peer, _ = self.listener.accept()
                peer.setsockopt(socket.IPPROTO_TCP, socket.TCP_NODELAY, 1)
                self.connections.append(Connection(self, peer, number, *next(self.ends, (None, None))))
                in_background(self.connections[-1].serve)

    def add_stream(self, config, messages=(), first=1):
        stream = self.streams[config["name"]] = Stream(config, first)
        stream.messages += messages
        return stream

    def wait_until(self, holds, seconds):
        """Waits until something holds of what was published, or so long."""
        until = time.monotonic() + seconds
        with self.changed:
            while not holds() and time.monotonic() < until:
                self.changed.wait(0.1)

    def take(self, message):
        """Takes what is published, and gives the payload and the headers of the answer."""
        with self.changed:
            answer = self.answer(message)
            self.changed.notify_all()
        return answer

    def answer(self, message):
        if message.subject.startswith(API):
            asked, name = message.subject[len(API):].rsplit(".", 1)
            return self.answer_of_api(asked, name, json.loads(message.payload or b"{}"))
        for stream in self.streams.values():
            if stream.takes(message.subject):
                return in_json(stream.add(message))
        self.published.setdefault(message.subject, []).append(message.payload)
        return NOBODY

    def answer_of_api(self, asked, name, request):
        stream = self.streams.get(name)
        if asked == "DIRECT.GET":
            return newest_of(stream, request["last_by_subj"]) if stream else NOBODY
        if asked == "STREAM.CREATE":
            answer = self.create(stream, request)
        elif not stream:
            answer = refused(*NO_STREAM)
        elif asked == "STREAM.INFO":
            answer = {**stream.told(), "cluster": {"leader": self.info["server_name"]}}
        elif self.unavailable:
            self.unavailable -= 1
            answer = refused(*UNAVAILABLE)
        else:
            answer = self.consume(name, request["config"])
        return in_json({"type": f"io.nats.jetstream.api.v1.{asked.lower().replace('.', '_')}_response", **answer})

    def create(self, stream, config):
        if stream and stream.config != config:
            return refused(*OTHER_STREAM)
        return (stream or self.add_stream(config)).told()

    def consume(self, name, config):
        consumer = f"C{len(self.consumers)}"
        self.consumers[config["deliver_subject"]] = name, consumer, config["opt_start_seq"]
        return {"stream_name": name, "name": consumer, "config": config}
