"""Who holds nobody up at a server that lives, tried from outside: readers that are slow, peers that are silent, servers that start together."""
import itertools
import os
import resource
import shutil
import socket
import sys
import tempfile
import threading
import time

import frames
import late
from living import SECONDS, Server, slowness
from meeting import dump_of, ended, free_port, is_greeting, items, reply_to_greeting, soon

sys.path.insert(0, os.path.join("..", "clients", "python"))
import bayou  # noqa: E402

# How many bytes more a server may have for connections that ask for much and read little.
MOST_FOR_READERS = 100 * 2**20
# How many connections read little at once.
READERS = 64


def longest(seq):
    """A Write of server 0 that has as many bytes as any."""
    key = lambda number: "%03d%029d" % (seq % 1000, number)  # noqa: E731
    conditions = [("equals", key(number), "x" * 32) for number in range(8)]
    ops = [("put", key(number), ("plus", key(number), seq)) for number in range(8)]
    return frames.write_bytes((0, seq, seq, frames.counts(seq - 1), (conditions, ops, [(conditions, ops)] * 4)))


def most_resident(server, seconds):
    """How many bytes of memory the server has at the most within this time."""
    end, most = time.monotonic() + seconds, 0
    while time.monotonic() < end:
        most = max(most, server.resident()[0])
        time.sleep(0.05)
    return most


class Bad:
    """A peer that answers each connection in its own bad way, until it is closed: once it was greeted, or to the greeting."""

    def __init__(self, way, greets=True):
        self.way, self.greets = way, greets
        self.listener = socket.create_server(("127.0.0.1", 0))
        self.port = self.listener.getsockname()[1]
        threading.Thread(target=self.serve, daemon=True).start()

    def serve(self):
        while True:
            try:
                stream, _ = self.listener.accept()
            except OSError:
                return
            threading.Thread(target=self.answer, args=(stream,), daemon=True).start()

    def answer(self, stream):
        with stream:
            try:
                stream.settimeout(SECONDS)
                text = stream.recv(4096)
                while self.greets and is_greeting(text):
                    stream.sendall(reply_to_greeting(text))
                    text = stream.recv(4096)
                self.way(stream)
            except OSError:
                pass

    def close(self):
        self.listener.close()


def silent(stream):
    stream.settimeout(120)
    stream.recv(1)


def dripping(stream):
    for byte in items([ITEM] * 1000):
        stream.sendall(bytes([byte]))
        time.sleep(0.2)


def endless(stream):
    stream.settimeout(120)
    while True:
        stream.sendall(items([ITEM] * 100))


def lying(stream):
    stream.sendall(items([ITEM]) + ended(7))


# A Write of a server that none of these is.
ITEM = (2, 1, 1, frames.ZERO, ([], [("put", "a", ("lit", 1))], []))


class Holding:
    """The groups of checks. Whoever has them has `program`, `folder` and `that`."""

    def dumps(self):
        """A dump, and an answer to an Offer, is copied a part at a time, however slowly it is read."""
        folder, writes = self.folder(), [longest(seq) for seq in range(1, 2001)]
        with open(os.path.join(folder, "server-0.journal"), "wb") as journal:
            journal.write(frames.journal_of(0, writes))
        server = Server(self.program, folder, 0, servers=1)
        self.that("a server of long Writes", server.serving() is not None)
        self.that("its dump, in order", dump_of(server) == writes)
        for name, request in [("dumps", frames.frame(frames.DUMP)), ("answers to Offers", frames.offer_request(frames.ZERO))]:
            before = server.resident()[0]
            readers = [socket.create_connection(("127.0.0.1", server.port), SECONDS) for _ in range(READERS)]
            for reader in readers:
                reader.sendall(request)
            more = most_resident(server, 4) - before
            self.that("memory for %s that nobody reads: %d bytes" % (name, more), more <= MOST_FOR_READERS)
            for reader in readers:
                reader.close()
            self.that("memory is given back behind " + name, soon(lambda: server.resident()[0] - before <= MOST_FOR_READERS // 2, 10), True)
        self.that("its dump behind them", soon(lambda: dump_of(server) == writes), True)
        self.that("a told end behind them", server.end()[0], 0)

    def together(self):
        """Servers that start at the same moment don't wait for one another."""
        for count in (3, 16):
            folder, ports = self.folder(), [free_port() for _ in range(count)]
            begun = time.monotonic()
            servers = [Server(self.program, folder, index, count, ports[index], [(other, ports[other]) for other in range(count) if other != index], True) for index in range(count)]
            serving = [server.serving() is not None for server in servers]
            took = time.monotonic() - begun
            slow = slowness()
            self.that("%d servers that start at once serve" % count, serving, [True] * count)
            most = (max(1, count / (4 * os.cpu_count())) + 0.5) * slow
            self.that("%d serve within a second, at a processor or more for each four: %.2f s, %.1f times slower" % (count, took, slow), took <= most)
            with bayou.Session([server.address() for server in servers]) as session:
                session.write({"update": [["put", "a", 1]]}, server=0)
                self.that("a Write reaches the last of %d" % count, soon(lambda: session.read("a", count - 1)), 1)
            self.that("told ends of %d" % count, [server.end()[0] for server in servers], [0] * count)

    def late(self):
        """Servers that were apart meet in linear time: late Writes cost not much more than fresh ones, far from what they would if those that stand
        after them were applied again for each few; and reads are served meanwhile. In memory, where it can be: there no sync takes the time."""
        with tempfile.TemporaryDirectory(dir=next(filter(os.path.isdir, ["/dev/shm", self.folder()]))) as folder:
            folders = [os.path.join(folder, name) for name in ("fresh", "late", "read")]
            for made in folders:
                os.mkdir(made)
            fresh = late.meet(self.program, folders[0], 16000, free_port(), own=0)
            many = late.meet(self.program, folders[1], 16000, free_port())
            self.that("16,000 late Writes beside as many fresh: %.2f s of a processor, and %.2f" % (many.user, fresh.user), many.user <= 8 * max(fresh.user, 0.1))
            met = late.meet(self.program, folders[2], 4000, free_port(), readers=4)
            self.that("reads while 4,000 late Writes come: %d, the longest %.0f ms" % (met.reads, met.longest * 1000),
                      met.reads > 4 and met.longest <= max(1.0, met.clock / 2))

    def bad_peers_at_start(self):
        """Peers that are silent, drip, never end or lie hold a start up for five seconds at the most, all together; what they don't say is reported."""
        ways = [silent, silent, dripping, dripping, endless, endless, lying]
        bad = [Bad(way, greets) for way, greets in zip(ways, itertools.cycle([True, False]))]
        begun = time.monotonic()
        server = Server(self.program, self.folder(), 0, 8, peers=[(index + 1, one.port) for index, one in enumerate(bad)], new=True)
        self.that("served beside seven bad peers", server.serving() is not None)
        took = time.monotonic() - begun
        self.that("within 5 seconds: %.2f s" % took, took <= 8 * slowness())
        away = [server.told.find(r"bayou: peer %d at 127\.0\.0\.1:[0-9]+ away" % (index + 1), 2) is not None for index in range(7)]
        self.that("who didn't answer is told as away", away, [True] * 7)
        with bayou.Session([server.address()]) as session:
            self.that("a Write beside them", session.write({"update": [["put", "a", 1]]}).seq, 1)
        self.that("one that drips ends a pull", server.told.find("bayou: peer 3 pull fault read", 60) is not None)
        self.that("a told end beside them", server.end()[0], 0)
        for one in bad:
            one.close()

    def offers_while_starting(self):
        """A server that starts answers Offers and reads, and takes no Write, until it has asked its peers."""
        bad = Bad(silent)
        port = free_port()
        server = Server(self.program, self.folder(), 0, 2, port, [(1, bad.port)], True)
        link = None
        end = time.monotonic() + 3
        while link is None and time.monotonic() < end:
            try:
                link = socket.create_connection(("127.0.0.1", port), SECONDS)
            except OSError:
                time.sleep(0.02)
        link.settimeout(SECONDS)
        link.sendall(frames.offer_request(frames.ZERO))
        self.that("an Offer while it starts", link.recv(100), ended(0))
        link.sendall(frames.write_request((0, 1, 1), frames.ZERO, ([], [("put", "a", ("lit", 1))], [])))
        self.that("a Write while it starts", link.recv(100), frames.refused(frames.DOWN))
        self.that("nothing is printed until then", server.printed.all(), [])
        self.that("it serves then", server.serving() is not None)
        link.sendall(frames.write_request((0, 1, 2), frames.ZERO, ([], [("put", "a", ("lit", 1))], [])))
        self.that("a Write then", frames.frames_of(link.recv(200))[0][0][0][0], frames.ACCEPTED)
        link.close()
        self.that("a told end behind it", server.end()[0], 0)
        bad.close()

    def descriptors(self):
        """Where no more files may be open that is reported once, and a start that can take no connection ends."""
        # (three of its own twice, the journal, its mark, the socket and a copy of it are ten)
        for files in (6, 8, 10):
            limit = lambda: resource.setrlimit(resource.RLIMIT_NOFILE, (files, files))  # noqa: E731, B023
            server = Server(self.program, self.folder(), 0, servers=1, new=True, before=limit)
            status, printed = server.ended()
            told = server.told.all()
            self.that("a start with %d files" % files, (status, printed, told), (3, [], ["bayou: no more files may be open, so no connection can be taken: raise that limit (ulimit -n)"]))
        limit = lambda: resource.setrlimit(resource.RLIMIT_NOFILE, (14, 14))  # noqa: E731
        server = Server(self.program, self.folder(), 0, servers=1, new=True, before=limit)
        self.that("a start with 14 files", server.serving() is not None)
        crowd = [socket.create_connection(("127.0.0.1", server.port), SECONDS) for _ in range(20)]
        time.sleep(5)
        self.that("want of files is told once in five seconds", server.told.all().count("bayou: a connection can't be taken"), 1)
        for one in crowd:
            one.close()
        with bayou.Session([server.address()], timeout=SECONDS) as session:
            self.that("a Write behind them", session.write({"update": [["put", "a", 1]]}).seq, 1)
        self.that("a told end behind them", server.end()[0], 0)

    def strays(self):
        """A server whose journal's file is removed, replaced or changed by somebody else takes no Write any more, and says so."""
        def removed(path):
            os.remove(path)

        def replaced(path):
            shutil.copyfile(path, path + ".copy")
            os.rename(path + ".copy", path)

        def cut(path):
            os.truncate(path, os.path.getsize(path) - 1)

        def grown(path):
            with open(path, "ab") as journal:
                journal.write(b"more")

        for name, change, line in [
            ("removed", removed, "it was removed"),
            ("replaced", replaced, "another file was put in its place"),
            ("cut", cut, "somebody else changed it"),
            ("written to", grown, "somebody else changed it"),
        ]:
            folder = self.folder()
            path = os.path.join(folder, "server-0.journal")
            server = Server(self.program, folder, 0, servers=1, new=True)
            server.serving()
            with bayou.Session([server.address()], timeout=SECONDS) as session:
                for number in range(50):
                    session.write({"update": [["put", "a", number]]})
                time.sleep(1.5)
                self.that("a Write before it is " + name, session.write({"update": [["put", "a", 50]]}).seq, 51)
                change(path)
                self.that("told as " + name, server.told.find("bayou: %s: %s while it is served; no Write is taken any more" % (path, line), 10) is not None)
                self.that("no Write is taken of one that was " + name, self.refusal(session), bayou.Down)
                self.that("nor does it come up by itself", (time.sleep(3), self.refusal(session))[1], bayou.Down)
                self.that("reads go on at one that was " + name, session.read("a"), 50)
            self.that("a told end of one that was " + name, server.end()[0], 0)

    def refusal(self, session):
        """How a Write is refused."""
        try:
            session.write({"update": [["put", "a", 0]]})
        except bayou.Refused as refused:
            return type(refused)
        return None

    def written_to_steadily(self):
        """A server that writes all the time isn't taken for one whose journal was changed."""
        folder = self.folder()
        server = Server(self.program, folder, 0, servers=1, new=True)
        server.serving()
        with bayou.Session([server.address()], timeout=SECONDS) as session:
            end, number = time.monotonic() + 6, 0
            # (before it tells how full it is)
            while time.monotonic() < end and number < 50000:
                number += 1
                session.write({"update": [["put", "a", number]]})
            self.that("all Writes were taken", session.read("a"), number)
        self.that("nothing is told", server.told.all(), [])
        self.that("a told end behind many Writes", server.end()[0], 0)

    def fair(self):
        """Whoever holds a desk and asks seldom, or reads slowly, holds up neither clients nor peers."""
        folder = self.folder()
        writes = [longest(seq) for seq in range(1, 1501)]
        with open(os.path.join(folder, "server-0.journal"), "wb") as journal:
            journal.write(frames.journal_of(0, writes))
        ports = [free_port(), free_port()]
        server = Server(self.program, folder, 0, 2, ports[0], [(1, ports[1])])
        self.that("a server with one peer", server.serving() is not None)
        for name, crowd in [("read once a second", self.readers), ("read a dump slowly", self.dumpers)]:
            stop = threading.Event()
            members = crowd(server, stop)
            time.sleep(2)
            done, longest_wait = operate(server, 10)
            self.that("operations beside %d that %s: %d, the longest %.2f s" % (READERS, name, done, longest_wait), done > 200 / slowness() and longest_wait < 4 * slowness())
            begun = time.monotonic()
            with socket.create_connection(("127.0.0.1", server.port), SECONDS) as peer:
                peer.settimeout(SECONDS)
                peer.sendall(frames.offer_request(frames.counts(1500)))
                self.that("a peer is answered beside %d that %s" % (READERS, name), peer.recv(100), ended(0))
            took = time.monotonic() - begun
            self.that("before long: %.2f s" % took, took <= 2 * slowness())
            stop.set()
            for member in members:
                member.join(SECONDS)
            self.that("nobody of those that %s was lost" % name, [member.fault for member in members if member.fault is not None and crowd == self.readers], [])
        self.that("a full house is told once", server.told.all().count("bayou: each desk is taken, and others wait for one"), 1)
        self.that("a told end behind a full house", server.end()[0], 0)

    def readers(self, server, stop):
        return [Member(server, stop, read_each_second) for _ in range(READERS)]

    def dumpers(self, server, stop):
        return [Member(server, stop, dump_slowly) for _ in range(READERS)]


class Member(threading.Thread):
    """One of a crowd, which does the same until it is asked to stop, and keeps what went wrong."""

    def __init__(self, server, stop, part):
        super().__init__(daemon=True)
        self.server, self.stop, self.part, self.fault = server, stop, part, None
        self.start()

    def run(self):
        try:
            self.part(self.server, self.stop)
        except Exception as fault:
            self.fault = repr(fault)


def read_each_second(server, stop):
    with bayou.Session([server.address()], timeout=SECONDS) as session:
        while not stop.is_set():
            session.read("a")
            stop.wait(1)


def dump_slowly(server, stop):
    while not stop.is_set():
        with socket.create_connection(("127.0.0.1", server.port), SECONDS) as stream:
            stream.setsockopt(socket.SOL_SOCKET, socket.SO_RCVBUF, 4096)
            stream.sendall(frames.frame(frames.DUMP))
            while not stop.wait(4):
                if not stream.recv(6000):
                    break


def operate(server, seconds):
    """How many reads are served within this time, one after another, and how long the longest took."""
    end, done, longest_wait = time.monotonic() + seconds, 0, 0.0
    with bayou.Session([server.address()], timeout=SECONDS) as session:
        while time.monotonic() < end:
            begun = time.monotonic()
            session.read("a")
            done, longest_wait = done + 1, max(longest_wait, time.monotonic() - begun)
    return done, longest_wait
