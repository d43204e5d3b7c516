"""A Redis server that syncs each put, and a client of it: its protocol, as far as it is needed here."""
import socket
import subprocess
import time

import tools
from meeting import free_port

PATIENCE = 10  # seconds in which a server is to answer first


class Link:
    """A connection to a Redis server."""

    def __init__(self, port):
        self.socket = socket.create_connection(("127.0.0.1", port), timeout=PATIENCE)
        self.socket.setsockopt(socket.IPPROTO_TCP, socket.TCP_NODELAY, 1)
        self.replies = self.socket.makefile("rb")

    def ask(self, *words):
        """What the server replies to a command: a line, the bytes that it announces, or the replies that it does."""
        self.socket.sendall(b"*%d\r\n" % len(words) + b"".join(b"$%d\r\n%s\r\n" % (len(word), word.encode()) for word in words))
        return self.reply()

    def reply(self):
        line = self.replies.readline().rstrip()
        if line.startswith(b"$") and line != b"$-1":
            return self.replies.read(int(line[1:]) + 2)[:-2]
        if line.startswith(b"*"):
            return [self.reply() for _ in range(int(line[1:]))]
        return line

    def close(self):
        self.replies.close()
        self.socket.close()


class Running:
    """A Redis server over this folder, as long as the block lasts; its port is what it is known by."""

    def __init__(self, name, folder):
        self.port = free_port()
        words = [name, "--port", str(self.port), "--bind", "127.0.0.1", "--dir", str(folder), "--save", "", "--appendonly", "yes", "--appendfsync", "always"]
        self.process = subprocess.Popen(words, stdin=subprocess.DEVNULL, stdout=subprocess.DEVNULL, stderr=subprocess.DEVNULL)

    def __enter__(self):
        end = time.monotonic() + PATIENCE
        while time.monotonic() < end and self.process.poll() is None:
            try:
                link = Link(self.port)
                if link.ask("CONFIG", "GET", "appendfsync") == [b"appendfsync", b"always"]:
                    link.close()
                    return self.port
            except OSError:
                pass
            time.sleep(0.05)
        return tools.stop("the Redis server doesn't answer, or doesn't sync each put", 1)

    def __exit__(self, *fault):
        self.process.terminate()
        self.process.wait()
