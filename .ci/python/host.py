"""The program that serves at a socket, and connections to it."""
import os
import queue
import re
import signal
import socket
import struct
import subprocess
import threading

import frames

# How long anything may take before it counts as hanging.
SECONDS = 30


class Host:
    """The program over the journal, which serves so many connections."""

    def __init__(self, program, journal, connections, may_fail=False):
        # A write beyond a limit on the size of files is then a failure, and no signal.
        before = (lambda: signal.signal(signal.SIGXFSZ, signal.SIG_IGN)) if may_fail else None
        self.left = connections
        self.process = subprocess.Popen([program, journal, str(connections)], stdin=subprocess.DEVNULL, stdout=subprocess.PIPE,
                                        stderr=subprocess.PIPE, preexec_fn=before)
        self.lines = queue.Queue()
        threading.Thread(target=self.read_lines, daemon=True).start()
        line = self.line()
        if not re.fullmatch(r"port [0-9]+", line):
            raise AssertionError("the host wrote %r, %r" % (line, self.ended()))
        self.port = int(line[5:])

    def read_lines(self):
        for line in self.process.stdout:
            self.lines.put(line.decode("ascii", "replace").rstrip("\n"))
        self.lines.put("")

    def line(self):
        try:
            return self.lines.get(timeout=SECONDS)
        except queue.Empty:
            return "(nothing)"

    def ended(self):
        """The status with which the program ends, and what it told of a fault."""
        try:
            status = self.process.wait(SECONDS)
        except subprocess.TimeoutExpired:
            self.process.kill()
            return "hangs", ""
        return status, self.process.stderr.read().decode("utf-8", "replace")

    def connect(self):
        self.left -= 1
        return Connection(self.port)

    def settle(self):
        """Uses up the connections that are left: what the books come to, the counts held, and the status."""
        while self.left > 0:
            self.connect().close()
        books, held = self.line(), self.line()
        status, told = self.ended()
        self.process.stdout.close()
        self.process.stderr.close()
        return books, held, status, told

    def kill(self):
        """For a host that is given up."""
        self.process.kill()
        self.process.wait()

    def __enter__(self):
        return self

    def __exit__(self, *_):
        if self.process.poll() is None:
            self.kill()


class Connection:
    def __init__(self, port):
        self.socket = socket.create_connection(("127.0.0.1", port), SECONDS)
        self.socket.setsockopt(socket.IPPROTO_TCP, socket.TCP_NODELAY, 1)
        self.came = b""

    def send(self, data):
        self.socket.sendall(data)

    def end(self):
        """Nothing more is sent."""
        self.socket.shutdown(socket.SHUT_WR)

    def close(self):
        self.socket.close()

    def reset(self):
        """Ends both directions at once, and drops what comes."""
        self.socket.setsockopt(socket.SOL_SOCKET, socket.SO_LINGER, struct.pack("ii", 1, 0))
        self.socket.close()

    def take(self, number):
        while len(self.came) < number:
            piece = self.socket.recv(65536)
            if not piece:
                raise frames.BadBytes("the server ended the connection")
            self.came += piece
        taken, self.came = self.came[:number], self.came[number:]
        return taken

    def frame(self):
        """The bytes of the next frame."""
        length = self.take(2)
        return length + self.take(struct.unpack(">H", length)[0])

    def reply(self):
        """The bytes of the next reply: Items and what ends them, or one frame."""
        reply = self.frame()
        last = reply
        while last[2] == frames.ITEM:
            last = self.frame()
            reply += last
        return reply

    def ask(self, request):
        self.send(request)
        return self.reply()

    def rest(self):
        """All that comes until the server ends the connection."""
        parts = [self.came]
        self.came = b""
        while True:
            try:
                piece = self.socket.recv(65536)
            except ConnectionResetError:
                break
            if not piece:
                break
            parts.append(piece)
        return b"".join(parts)

    def __enter__(self):
        return self

    def __exit__(self, *_):
        self.close()


def begin(program, journal, connections):
    """How a program that doesn't serve ends: its status, what it printed, and what it told."""
    words = [program, journal, connections]
    ended = subprocess.run([word for word in words if word is not None], stdin=subprocess.DEVNULL, stdout=subprocess.PIPE, stderr=subprocess.PIPE,
                           timeout=SECONDS)
    return ended.returncode, ended.stdout.decode("utf-8", "replace"), ended.stderr.decode("utf-8", "replace")


def has(path):
    """What the file has."""
    with open(path, "rb") as file:
        return file.read()


def put(path, content):
    """Makes the file have this, in place."""
    with open(path, "r+b" if os.path.exists(path) else "wb") as file:
        file.truncate(0)
        file.write(content)
