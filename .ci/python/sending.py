"""A server that holds what it says, and sends Writes in whatever order: written from docs/FORMATS.md alone."""
import contextlib
import socket
import threading

import frames
from greeting import NO_PROOF, VERSION, reply
from living import SECONDS
from meeting import HELLO, KNOWN, PROOF, WELCOME, ended


class Sender:
    """The server of this number, of so many, that tells to hold what this vector counts, and answers each Offer with these Writes, in this order."""

    def __init__(self, own, count, vector, writes):
        self.own, self.count, self.vector, self.writes, self.offers = own, count, vector, writes, 0
        self.listener = socket.create_server(("127.0.0.1", 0))
        self.address = "127.0.0.1:%d" % self.listener.getsockname()[1]
        threading.Thread(target=self.serve, daemon=True).start()

    def serve(self):
        while True:
            try:
                connection, _ = self.listener.accept()
            except OSError:
                return
            threading.Thread(target=self.attend, args=(connection,), daemon=True).start()

    def attend(self, connection):
        with connection, contextlib.suppress(OSError):
            connection.settimeout(SECONDS)
            while self.answer(connection):
                pass

    def answer(self, connection):
        came = reply(connection)
        told = came and self.reply_to(came[0])
        if told:
            connection.sendall(told)
        return bool(told)

    def reply_to(self, kind):
        held = frames.vector_bytes(self.vector)
        if kind == HELLO:
            return frames.frame(WELCOME, bytes([VERSION, self.own, self.count, 0]) + bytes(16) + NO_PROOF)
        if kind == PROOF:
            return frames.frame(KNOWN, held + frames.MAX_COUNT.to_bytes(4, "big") + b"\0\xff")
        if kind == frames.READ:
            return frames.frame(frames.SEEN, b"\0" + held)
        if kind == frames.OFFER:
            self.offers += 1
            return b"".join(frames.frame(frames.ITEM, frames.write_bytes(write)) for write in self.writes) + ended(len(self.writes))
        return None

    def close(self):
        self.listener.close()
