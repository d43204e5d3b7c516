"""What `bayou connect` prints of rows and of outcomes, and servers that tell rows as no server does."""
import re
import socket
import threading

import frames
from meeting import is_greeting, reply_to_greeting

LIST, LISTED = 0x22, 0x35
ROWS_AT_ONCE = 121


def with_outcomes(lines, printed):
    """What is printed, with what became of each Write of a short line after it: its update, where nothing else is said."""
    if any(line.startswith('["write",0,') or line.startswith('["again",0') for line in lines):
        return list(printed)
    told = []
    for at, line in enumerate(printed):
        told.append(line)
        wrote = re.match("0 wrote ([0-9]+:[0-9]+) ", line)
        if wrote and not (at + 1 < len(printed) and printed[at + 1].startswith("0 became ")):
            told.append("0 became %s update" % wrote.group(1))
    return told


def page(rows, more=0, vector=frames.ZERO, count=None):
    """The bytes of a page of rows, which are keys with numbers."""
    text = frames.vector_bytes(vector) + bytes([more]) + (len(rows) if count is None else count).to_bytes(2, "big")
    for key, number in rows:
        text += bytes([len(key)]) + key.encode() + b"\1" + number.to_bytes(8, "big")
    return frames.frame(LISTED, text)


def full(number):
    """The rows of a full page, which is the one of this number."""
    return [("k%09d" % (number * ROWS_AT_ONCE + row), row) for row in range(ROWS_AT_ONCE)]


class Paging:
    """A server of an open store that answers the n-th time that it is asked for rows by these bytes, and nothing else that is asked."""

    def __init__(self, answer):
        self.answer, self.asked = answer, 0
        self.listener = socket.create_server(("127.0.0.1", 0))
        self.address = "127.0.0.1:%d" % self.listener.getsockname()[1]
        threading.Thread(target=self.listen, daemon=True).start()

    def listen(self):
        while True:
            try:
                near, _ = self.listener.accept()
            except OSError:
                return
            threading.Thread(target=self.serve, args=(near,), daemon=True).start()

    def serve(self, near):
        with near:
            near.setsockopt(socket.IPPROTO_TCP, socket.TCP_NODELAY, 1)
            try:
                text = near.recv(4096)
                while is_greeting(text):
                    near.sendall(reply_to_greeting(text))
                    text = near.recv(4096)
                while text[2:3] == bytes([LIST]):
                    self.asked += 1
                    near.sendall(self.answer(self.asked))
                    text = near.recv(4096)
            except OSError:
                pass
