"""A store, a page at it, and requests to that, byte by byte."""
import json
import os
import socket
import subprocess
import time

from living import SECONDS, Lines, Server
from meeting import free_port
from ways import AtRandom


class Store:
    """Servers that live, and the ways between them, which are open or closed."""

    def __init__(self, program, folder, count=3, chance=0):
        self.program, self.folder, self.count = program, folder, count
        self.ports = [free_port() for _ in range(count)]
        self.ways = {(puller, other): AtRandom(self.ports[other], 7, chance) for puller in range(count) for other in range(count) if other != puller}
        self.servers = [self.start(index, True) for index in range(count)]

    def start(self, index, new=False):
        peers = [(other, self.ways[index, other].port) for other in range(self.count) if other != index]
        server = Server(self.program, self.folder, index, self.count, self.ports[index], peers, new=new, words=["--every", "1"])
        assert server.serving() is not None, "server %d doesn't serve: %r" % (index, server.told.all())
        return server

    def address(self, index):
        return "127.0.0.1:%d" % self.ports[index]

    def words(self, order=None):
        return [word for index in (range(self.count) if order is None else order) for word in ("--server", "%d=%s" % (index, self.address(index)))]

    def stop(self, index):
        self.servers[index].kill()

    def go_on(self, index):
        self.servers[index] = self.start(index)

    def part(self, chance):
        """The ways are closed, at 1, or open, at 0; what is open is cut."""
        for way in self.ways.values():
            way.chance = chance
            way.cut()

    def end(self):
        for server in self.servers:
            if server.process.poll() is None:
                server.kill()
        for way in self.ways.values():
            way.end()

    def __enter__(self):
        return self

    def __exit__(self, *_):
        self.end()


class Web:
    """`bayou web`, at a port that the system picks."""

    def __init__(self, program, store, state, name="kim", order=None, words=("--session", "all")):
        call = [program, "web", *store.words(order), "--state", state, "--listen", "127.0.0.1:0", *words]
        if name is not None:
            call += ["--name", name]
        self.process = subprocess.Popen(call, stdin=subprocess.DEVNULL, stdout=subprocess.PIPE, stderr=subprocess.PIPE)
        self.printed, self.told = Lines(self.process.stdout), Lines(self.process.stderr)
        line = self.printed.find(r"web at http://127\.0\.0\.1:[0-9]+/#[0-9a-f]{32}")
        assert line is not None, "no page is served: %r, %r" % (self.printed.all(), self.told.all())
        self.link = line[len("web at "):]
        place, self.token = self.link[len("http://"):].split("/#")
        self.host, self.port = place, int(place.rsplit(":", 1)[1])

    def send(self, *pieces, rest=0.0, shut=False):
        """What is answered to these bytes, until the other end ends it; and how long that took."""
        begun = time.monotonic()
        with socket.create_connection(("127.0.0.1", self.port), SECONDS) as stream:
            answer = b""
            try:
                for piece in pieces:
                    stream.sendall(piece)
                    time.sleep(rest)
                if shut:
                    stream.shutdown(socket.SHUT_WR)
                while True:
                    piece = stream.recv(1 << 20)
                    if not piece:
                        break
                    answer += piece
            except (ConnectionResetError, BrokenPipeError):
                pass
        return answer, time.monotonic() - begun

    def head(self, method, path, host=None, bearer=True, origin=True, more=()):
        """A head: each field as it has to be, another text in its place, or none where that is False."""
        fields = {"Host": self.host if host is None else host, "Authorization": "Bearer " + self.token if bearer is True else bearer,
                  "Origin": "http://" + self.host if origin is True else origin}
        lines = ["%s: %s" % (name, text) for name, text in fields.items() if text is not False]
        return ("\r\n".join(["%s %s HTTP/1.1" % (method, path), *lines, *more]) + "\r\n").encode()

    def ask(self, method, path, body=None, **fields):
        """The status of an answer, its fields, and its body."""
        more = tuple(fields.pop("more", ())) + (() if body is None else ("Content-Length: %d" % len(body),))
        answer, _ = self.send(self.head(method, path, more=more, **fields) + b"\r\n" + (body or b""))
        if not answer:
            return 0, {}, b""
        head, _, rest = answer.partition(b"\r\n\r\n")
        first, *lines = head.decode("latin1").split("\r\n")
        return int(first.split()[1]), {name.lower(): text for name, text in (line.split(": ", 1) for line in lines)}, rest

    def state(self, query=""):
        status, _, body = self.ask("GET", "/state" + query, origin=False)
        return json.loads(body) if status == 200 else status

    def do(self, line):
        """What became of the line."""
        status, _, body = self.ask("POST", "/do", json.dumps({"line": line}).encode())
        return json.loads(body) if status == 200 else status

    def looks(self, wanted, seconds=SECONDS):
        """What is seen once it is wanted; what was seen last where it isn't in time."""
        over = time.monotonic() + seconds
        while True:
            state = self.state()
            if wanted(state) or time.monotonic() > over:
                return state
            time.sleep(0.1)

    def end(self):
        """Is killed, as a person does it."""
        if self.process.poll() is None:
            self.process.kill()
        self.process.wait(SECONDS)

    def __enter__(self):
        return self

    def __exit__(self, *_):
        self.end()


def connect(program, store, state, lines, order=None, words=("--session", "all")):
    """The status of a call of `bayou connect`, and the lines that it prints."""
    done = subprocess.run([program, "connect", *store.words(order), "--state", state, *words], input="".join(line + "\n" for line in lines).encode(),
                          stdout=subprocess.PIPE, stderr=subprocess.PIPE, timeout=SECONDS)
    return done.returncode, done.stdout.decode().splitlines()


def values(state):
    """What each key has, and how that stands."""
    return {row["key"]: (row["value"], row["standing"]) for row in state["rows"]}


def path(folder, name):
    return os.path.join(folder, name)
