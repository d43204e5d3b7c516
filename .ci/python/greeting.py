"""Greetings, tried from outside: who answers is the one that was asked, or that is reported, and nothing is sent to another."""
import contextlib
import os
import random
import socket
import sys
import threading
import time

import frames
import older
from living import SECONDS, Server
from meeting import HELLO, KNOWN, PROOF, WELCOME, free_port, soon

sys.path.insert(0, os.path.join("..", "clients", "python"))
import bayou  # noqa: E402

VERSION = 2
NONCE = bytes(range(16))
NO_PROOF = bytes(32)
ANYBODY = 255
# How many greetings with wrong bytes a server is sent, and how many in the group that is only tried where it is named.
HOSTILE, ALL_HOSTILE = 400, 100_000


def hello(asked=ANYBODY, own=ANYBODY, count=0, version=VERSION):
    return frames.frame(HELLO, bytes([version, asked, own, count]) + NONCE)


def proof(given=NO_PROOF):
    return frames.frame(PROOF, given + b"\0")


def received(connection, size):
    """The next so many bytes, or less where it ends or is ended."""
    data = b""
    while len(data) < size:
        try:
            more = connection.recv(size - len(data))
        except ConnectionResetError:
            more = b""
        if not more:
            break
        data += more
    return data


def reply(connection):
    """The next frame: its kind and its payload, or nothing where the connection ends."""
    length = received(connection, 2)
    if len(length) < 2:
        return None
    body = received(connection, int.from_bytes(length, "big"))
    return body[0], body[1:]


def send_last(connection, text):
    """Sends this, and that no more comes, as far as the other end takes it."""
    with contextlib.suppress(OSError):
        connection.sendall(text)
        connection.shutdown(socket.SHUT_WR)


def greeted(port, *sent):
    """What a server answers to each of these, one after the other."""
    with socket.create_connection(("127.0.0.1", port), timeout=SECONDS) as connection:
        told = []
        for text in sent:
            connection.sendall(text)
            told.append(reply(connection))
        return told


class Answering:
    """What takes connections, reads a Hello from each, answers with these bytes, and closes it."""

    def __init__(self, answer):
        self.answer, self.came = answer, []
        self.socket = socket.create_server(("127.0.0.1", 0))
        self.port = self.socket.getsockname()[1]
        self.thread = threading.Thread(target=self.go_on, daemon=True)
        self.thread.start()

    def go_on(self):
        while True:
            try:
                connection, _ = self.socket.accept()
            except OSError:
                return
            with connection:
                connection.settimeout(SECONDS)
                try:
                    self.came.append(reply(connection))
                    connection.sendall(self.answer)
                except OSError:
                    pass

    def end(self):
        self.socket.close()


def spoken_again(port):
    """Sends what `bayou connect` sent to a new server before there were greetings, of which a record was kept: a person's nine lines. It gives how
    many requests were sent, what each was answered now, and what it was answered then. After an answer that is too short nothing more is sent."""
    asked, told, answered = 0, [], []
    with open(os.path.join(os.path.dirname(os.path.abspath(__file__)), "older_connect.txt")) as file:
        turns = [line.split()[1:] for line in file]
    with socket.create_connection(("127.0.0.1", port), SECONDS) as link:
        for kind, text in turns:
            if kind == "asked":
                link.sendall(bytes.fromhex(text))
                asked += 1
                continue
            answered.append(bytes.fromhex(text))
            told.append(received(link, len(answered[-1])))
            if len(told[-1]) < len(answered[-1]):
                break
    return asked, told, answered


def received(link, size):
    """So many bytes that come over the connection, or those that come before its end."""
    text = b""
    with contextlib.suppress(OSError):
        while len(text) < size:
            more = link.recv(size - len(text))
            if not more:
                break
            text += more
    return text


class LosesReply:
    """A way to a server on which the reply to the first greeting is lost, and the connection with it."""

    def __init__(self, port):
        self.to, self.lost = port, False
        self.socket = socket.create_server(("127.0.0.1", 0))
        self.port = self.socket.getsockname()[1]
        threading.Thread(target=self.go_on, daemon=True).start()

    def go_on(self):
        while True:
            try:
                near, _ = self.socket.accept()
            except OSError:
                return
            threading.Thread(target=self.relay, args=(near,), daemon=True).start()

    def relay(self, near):
        with contextlib.suppress(OSError), near, socket.create_connection(("127.0.0.1", self.to), SECONDS) as far:
            near.settimeout(SECONDS)
            while True:
                request = near.recv(65536)
                if not request:
                    return
                far.sendall(request)
                answer = far.recv(65536)
                if not answer or not self.lost:
                    self.lost = True
                    return
                near.sendall(answer)

    def end(self):
        self.socket.close()


class Greeting:
    """Groups of tries of greetings, of a class that has `program`, `folder` and `that`."""

    def greetings(self):
        server = Server(self.program, self.folder(), 0, servers=3, new=True)
        server.serving()
        with bayou.Session([server.address()]) as session:
            session.write({"update": [["put", "a", 1]]})
        self.welcomes(server)
        self.cuts(server)
        self.hostile(server, HOSTILE)
        with bayou.Session([server.address()]) as session:
            self.that("who greets nobody is served still", session.read("a"), 1)
        self.that("a told end behind greetings", server.end()[0], 0)

    def welcomes(self, server):
        welcome, known = greeted(server.port, hello(0, count=3), proof())
        self.that("a Welcome", (welcome[0], welcome[1][:4], len(welcome[1]), welcome[1][-32:]), (WELCOME, bytes([VERSION, 0, 3, 0]), 4 + 16 + 32, NO_PROOF))
        self.that("and what is held", known, (KNOWN, frames.vector_bytes(frames.counts(1)) + (65536).to_bytes(4, "big") + b"\0\xff"))
        other, _ = greeted(server.port, hello(1, count=4), proof())
        self.that("a Welcome to who asked for another", other[1][:4], bytes([VERSION, 0, 3, 0]))
        self.that("each Welcome has a number of its own", welcome[1][4:20] != other[1][4:20])
        served = greeted(server.port, hello(0), proof(), frames.read_request(frames.counts(1), "a"))
        self.that("a request behind a greeting", served[2][0], 0x11)
        self.that("no request before its end", greeted(server.port, hello(0), frames.read_request(frames.counts(), "a"))[1], None)
        self.that("no second greeting", greeted(server.port, hello(0), proof(), hello(0))[2], None)
        self.that("no reply for a greeting", greeted(server.port, frames.frame(WELCOME, welcome[1]))[0], None)

    def cuts(self, server):
        whole = hello(0) + proof()
        for count in range(1, len(whole)):
            with socket.create_connection(("127.0.0.1", server.port), timeout=SECONDS) as connection:
                send_last(connection, whole[:count])
                told = reply(connection)
                self.that("a greeting of %d bytes" % count, told is None if count < len(hello(0)) else told[0] == WELCOME and reply(connection) is None)

    def hostile(self, server, count):
        drawn = random.Random(7)
        answered = 0
        for _ in range(count):
            text = bytearray(hello(0) + proof())
            for _ in range(drawn.randrange(1, 4)):
                text[drawn.randrange(2, len(text))] = drawn.randrange(256)
            with socket.create_connection(("127.0.0.1", server.port), timeout=SECONDS) as connection:
                send_last(connection, bytes(text))
                told = reply(connection)
                answered += told is not None
        self.that("some of %d greetings with wrong bytes are answered" % count, 0 < answered < count)

    def all_hostile(self):
        """So many hostile greetings at an open store and at one with a key: both serve as before, and hold what they held."""
        path = self.key()
        for name, key in (("an open store", None), ("a store with a key", path)):
            server = Server(self.program, self.folder(), 0, servers=1, new=True, words=["--key", key] * (key is not None))
            server.serving()
            with bayou.Session([server.address()], key=key) as session:
                session.write({"update": [["put", "a", 1]]})
                self.hostile(server, ALL_HOSTILE)
                self.that(name + " serves still", (session.read("a"), session.seen[0]), (1, 1))
            self.that(name + " told nothing", server.told.all(), [])
            self.that("a told end of " + name, server.end()[0], 0)

    def mistaken_peers(self):
        """A typo in --peer, and unequal numbers of servers: told at both ends, and nothing is pulled."""
        ports = [free_port() for _ in range(3)]
        first = Server(self.program, self.folder(), 0, servers=2, port=ports[0], new=True)
        first.serving()
        with bayou.Session([first.address()]) as session:
            session.write({"update": [["put", "a", 1]]})
        typo = Server(self.program, self.folder(), 2, servers=3, port=ports[1], peers=[(1, ports[0])], new=True)
        typo.serving()
        self.that("a typo in --peer is told", typo.told.find(r"bayou: peer 1 at 127\.0\.0\.1:%d is server 0" % ports[0], SECONDS) is not None)
        unequal = Server(self.program, self.folder(), 1, servers=3, port=ports[2], peers=[(0, ports[0])], new=True)
        unequal.serving()
        line = r"bayou: peer 0 at 127\.0\.0\.1:%d counts 2 servers, this one 3: stop all, and start all with one --servers" % ports[0]
        self.that("unequal numbers of servers are told", unequal.told.find(line, SECONDS) is not None)
        for server, name in ((typo, "a typo"), (unequal, "unequal numbers")):
            told = server.told.all()
            self.that("once behind " + name, len([line for line in told if "peer" in line]), 1)
            with bayou.Session([server.address()]) as session:
                self.that("nothing is pulled behind " + name, (session.read("a"), session.seen[0]), (None, 0))
        for server in (typo, unequal, first):
            self.that("a told end of mistaken peers", server.end()[0], 0)

    def one_more_server(self):
        """A store of two servers becomes one of three. While that is half done, nothing is pulled between the two numbers, which both ends tell."""
        ports, folders = [free_port() for _ in range(3)], [self.folder() for _ in range(3)]

        def start(index, count, new=False):
            peers = [(peer, ports[peer]) for peer in range(count) if peer != index]
            server = Server(self.program, folders[index], index, servers=count, port=ports[index], peers=peers, new=new)
            self.that("server %d of %d" % (index, count), server.serving() is not None or server.told.all())
            return server

        def write(index, number):
            with bayou.Session(addresses) as session:
                session.write({"update": [["put", "k%d" % number, number]]}, index)

        def held(count):
            with bayou.Session(addresses) as session:
                return [[session.read("k%d" % number, index) for number in range(count)] for index in range(len(servers))]

        addresses = ["127.0.0.1:%d" % port for port in ports]
        servers = [start(0, 2, True), start(1, 2, True)]
        write(0, 0)
        write(1, 1)
        self.that("two servers agree", soon(lambda: held(2) == [[0, 1]] * 2), True)
        self.that("a told end of the first of two", servers[0].end()[0], 0)
        servers[0] = start(0, 3)
        line = r"bayou: peer %d at 127\.0\.0\.1:%d counts %d servers, this one %d: stop all, and start all with one --servers"
        self.that("half done, told by the one", servers[0].told.find(line % (1, ports[1], 2, 3), SECONDS) is not None)
        self.that("and by the other", servers[1].told.find(line % (0, ports[0], 3, 2), SECONDS) is not None)
        write(0, 2)
        write(1, 3)
        time.sleep(2.5)
        self.that("nothing is pulled", held(4), [[0, 1, 2, None], [0, 1, None, 3]])
        self.that("told ends of both", [server.end()[0] for server in servers], [0, 0])
        servers = [start(0, 3), start(1, 3), start(2, 3, True)]
        write(2, 4)
        self.that("three servers agree", soon(lambda: held(5) == [[0, 1, 2, 3, 4]] * 3), True)
        self.that("told ends of three", [server.end()[0] for server in servers], [0, 0, 0])

    def older_clients(self):
        """A client that knows no greetings: at an open store it goes on as ever, and at one with a key nothing of what it asks is done."""
        opened = Server(self.program, self.folder(), 0, servers=1, new=True)
        opened.serving()
        with older.Session([opened.address()], asks=["ryw", "mr", "wfr", "mw"]) as session:
            for number in (2, 3):
                session.write({"update": [["put", "n", number]]})
            self.that("an older client reads what it wrote", (session.read("n"), session.seen[0]), (3, 2))
        self.that("a told end behind an older client", opened.end()[0], 0)
        opened = Server(self.program, self.folder(), 0, servers=1, new=True)
        opened.serving()
        asked, told, answered = spoken_again(opened.port)
        self.that("an older `connect` is answered as it was then", told, answered)
        self.that("it asks for something", asked > 10)
        self.that("a told end behind an older `connect`", opened.end()[0], 0)
        path = self.key()
        keyed = Server(self.program, self.folder(), 0, servers=1, new=True, words=["--key", path])
        keyed.serving()
        for name, ask in (("writes", lambda session: session.write({"update": [["put", "a", 1]]})), ("reads", lambda session: session.read("a"))):
            with older.Session([keyed.address()]) as session:
                try:
                    told = ask(session)
                except older.BayouError as error:
                    told = type(error)
                self.that("an older client that %s at a store with a key" % name, told, older.Lost)
        asked, told, _ = spoken_again(keyed.port)
        self.that("an older `connect` at a store with a key is told nothing", (asked, told), (1, [b""]))
        with bayou.Session([keyed.address()], key=path) as session:
            self.that("nothing was done of that", (session.read("a"), session.seen[0]), (None, 0))
        self.that("a told end of a store with a key", keyed.end()[0], 0)

    def lost_reply(self):
        """A peer whose reply to a greeting was lost is no older one: it is greeted again."""
        folder = self.folder()
        peer = Server(self.program, folder, 1, servers=2, new=True)
        peer.serving()
        way = LosesReply(peer.port)
        server = Server(self.program, folder, 0, servers=2, peers=[(1, way.port)], new=True)
        self.that("a server whose greeting's reply is lost", server.serving() is not None)
        self.that("has lost one", way.lost)
        with bayou.Session([server.address(), peer.address()]) as session:
            accepted = session.write({"update": [["put", "a", 1]]}, 1)
            self.that("pulls from that peer", soon(lambda: session.read("a", 0)), 1)
        self.that("which isn't told as older", [line for line in server.told.all() if "older" in line or "away" in line], [])
        self.that("the peer's Write", accepted.seq, 1)
        self.that("a told end of both", (server.end()[0], peer.end()[0]), (0, 0))
        way.end()

    def older_peers(self):
        """A peer that knows no greetings is pulled from all the same, and that is reported once; one that answers otherwise is away."""
        fake = Answering(b"")
        server = Server(self.program, self.folder(), 0, servers=2, peers=[(1, fake.port)], new=True)
        server.serving()
        self.that("an older peer is told", server.told.find(r"bayou: peer 1 at 127\.0\.0\.1:%d is older: no greeting" % fake.port, SECONDS) is not None)
        self.that("and asked as ever", soon(lambda: any(came is not None and came[0] == 0x05 for came in fake.came)), True)
        told = [line for line in server.told.all() if "older" in line]
        self.that("once", len(told), 1)
        self.that("a told end of one with an older peer", server.end()[0], 0)
        fake.end()
        self.lost_reply()
        hostile = Answering(frames.frame(WELCOME, b"\xff" * 70))
        server = Server(self.program, self.folder(), 0, servers=2, peers=[(1, hostile.port)], new=True)
        self.that("a server beside one that answers wrongly", server.serving() is not None)
        self.that("which is away", server.told.find(r"bayou: peer 1 at 127\.0\.0\.1:%d away" % hostile.port, SECONDS) is not None)
        self.that("a told end beside it", server.end()[0], 0)
        hostile.end()
