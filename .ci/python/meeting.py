"""What meets a server that lives: peers that aren't servers, and what is seen of a server by one request."""
import contextlib
import os
import socket
import sys
import threading
import time

import frames
from living import SECONDS

sys.path.insert(0, os.path.join("..", "clients", "python"))
import bayou  # noqa: E402


def free_port():
    with socket.socket() as found:
        found.bind(("127.0.0.1", 0))
        return found.getsockname()[1]


def items(writes):
    return b"".join(frames.frame(frames.ITEM, frames.write_bytes(write)) for write in writes)


def ended(number):
    return frames.frame(frames.END, number.to_bytes(4, "big"))


HELLO, PROOF, WELCOME, KNOWN = 0x20, 0x21, 0x30, 0x31


def is_greeting(text):
    """Whether what somebody sent begins with a greeting."""
    return text[2:3] in (bytes([HELLO]), bytes([PROOF]))


def reply_to_greeting(text, limit=frames.MAX_COUNT):
    """What a server of an open store that holds nothing replies to this, be it whichever is asked for, of as many as are counted."""
    if text[2] == HELLO:
        asked, count = text[4], text[6]
        welcome = bytes([2, asked if asked < frames.SERVERS else 0, count or 1, 0]) + bytes(16) + bytes(32)
        return frames.frame(WELCOME, welcome)
    # (a peer that tells digests gets those of no Writes)
    digests = b"\1" + bytes(8 * frames.SERVERS) if text[35:36] == b"\1" else b"\0"
    return frames.frame(KNOWN, frames.vector_bytes(frames.ZERO) + limit.to_bytes(4, "big") + digests + b"\xff")


class Fake:
    """A peer that answers the first of what it is asked so, and closes each later connection at once. It is whichever server is greeted."""

    def __init__(self, answer, asks=1):
        self.answer, self.asks = answer, asks
        self.listener = socket.create_server(("127.0.0.1", 0))
        self.port = self.listener.getsockname()[1]
        threading.Thread(target=self.serve, daemon=True).start()

    def serve(self):
        while True:
            try:
                stream, _ = self.listener.accept()
            except OSError:
                return
            if self.asks > 0:
                stream.settimeout(SECONDS)
                self.answer_one(stream)
            stream.close()

    def answer_one(self, stream):
        """Answers the first request, after greetings."""
        with contextlib.suppress(OSError):
            text = stream.recv(4096)
            while is_greeting(text):
                stream.sendall(reply_to_greeting(text))
                text = stream.recv(4096)
            if text:
                self.asks -= 1
                stream.sendall(self.answer)

    def __enter__(self):
        return self

    def __exit__(self, *fault):
        self.listener.close()


def soon(ask, seconds=SECONDS):
    """What is asked, once it is there and isn't nothing."""
    end = time.monotonic() + seconds
    while True:
        try:
            found = ask()
            if found is not None and found is not False:
                return found
        except bayou.BayouError:
            pass
        if time.monotonic() > end:
            return None
        time.sleep(0.1)


def struct_of(write):
    return bayou.struct.unpack_from(">BI", write)


def dump_of(server):
    link = bayou.Link(server.address())
    try:
        return link.dump()
    finally:
        link.close()


def count_of(server, origin):
    return sum(struct_of(write)[0] == origin for write in dump_of(server))
