"""Ends of greetings that tell digests, written from docs/FORMATS.md alone: what visits a server, and a peer that lies."""
import contextlib
import hashlib
import socket
import threading

import frames
from greeting import NO_PROOF, NONCE, VERSION, reply
from living import SECONDS
from meeting import HELLO, KNOWN, PROOF, WELCOME, struct_of

DIGESTS, DIFFERS, DIGESTED = 0x24, 0x32, 0x34


def digests_at_each(writes):
    """The digest of an origin's Writes at each count, from these bytes of theirs, as docs/FORMATS.md has it."""
    told, digest = [bytes(8)], bytes(32)
    for write in writes:
        digest = hashlib.sha256(digest + write).digest()
        told.append(digest[:8])
    return told


class Held:
    """Of each origin the digests of what is held, from a dump."""

    def __init__(self, dump):
        self.each = []
        for origin in range(frames.SERVERS):
            self.each.append(digests_at_each([write for write in dump if struct_of(write)[0] == origin]))
        self.vector = tuple(len(told) - 1 for told in self.each)

    def held(self):
        return frames.vector_bytes(self.vector) + b"".join(told[-1] for told in self.each)

    def digested(self, payload):
        """The reply to Digests."""
        counts = [int.from_bytes(payload[at:at + 4], "big") for at in range(2, len(payload), 4)]
        told = self.each[payload[0]]
        return frames.frame(DIGESTED, bytes([len(counts)]) + b"".join(told[count] for count in counts if count < len(told)))


class Visitor:
    """One that visits a server as the server of this number, of so many, that holds this."""

    def __init__(self, port, own, count, holding):
        self.connection = socket.create_connection(("127.0.0.1", port), timeout=SECONDS)
        self.send(HELLO, bytes([VERSION, 255, own, count]) + NONCE)
        self.welcome = reply(self.connection)
        self.send(PROOF, NO_PROOF + b"\1" + holding.held())
        self.told = reply(self.connection)

    def send(self, kind, payload):
        self.connection.sendall(frames.frame(kind, payload))

    def ask(self, kind, payload):
        self.send(kind, payload)
        return reply(self.connection)

    def __enter__(self):
        return self

    def __exit__(self, *fault):
        self.connection.close()


class Liar:
    """A peer that says to be the server of this number and to hold this, and never compares. It keeps what it is sent."""

    def __init__(self, port, own, count, holding):
        self.own, self.count, self.holding, self.came = own, count, holding, []
        self.listener = socket.create_server(("127.0.0.1", port))
        threading.Thread(target=self.serve, daemon=True).start()

    def serve(self):
        while True:
            try:
                connection, _ = self.listener.accept()
            except OSError:
                return
            with connection, contextlib.suppress(OSError):
                connection.settimeout(SECONDS)
                while self.answer(connection):
                    pass

    def answer(self, connection):
        came = reply(connection)
        if came is None:
            return False
        kind, payload = came
        self.came.append(came)
        if kind == HELLO:
            connection.sendall(frames.frame(WELCOME, bytes([VERSION, self.own, self.count, 0]) + bytes(16) + NO_PROOF))
        elif kind == PROOF:
            held = self.holding.held()
            connection.sendall(frames.frame(KNOWN, held[:64] + frames.MAX_COUNT.to_bytes(4, "big") + b"\1" + held[64:] + b"\xff"))
        elif kind == DIGESTS:
            connection.sendall(self.holding.digested(payload))
        else:
            return False
        return True

    def kinds(self):
        return [kind for kind, _ in self.came]

    def close(self):
        self.listener.close()
