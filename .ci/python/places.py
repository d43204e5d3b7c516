"""Who is sent away from a full house, and who isn't: groups of tries, of a class that has `program`, `folder` and `that`."""
import contextlib
import os
import socket
import time

import frames
from holding import longest
from living import SECONDS, Server, slowness
from meeting import free_port
from sending import Sender

READ = frames.read_request(frames.ZERO, "a")
SEEN = frames.frame(frames.SEEN, b"\0" + frames.vector_bytes(frames.ZERO))
# How many connections have a place, how many may wait for one, and for how long whoever asks nothing is left in peace.
PLACES, WAITING, PEACE = 3, 64, 1.0


def received(connection, count):
    """So many bytes, or what came before the end."""
    came = b""
    while len(came) < count:
        with contextlib.suppress(ConnectionError):
            piece = connection.recv(count - len(came))
            if piece:
                came += piece
                continue
        return came
    return came


class Places:
    def house(self, **more):
        server = Server(self.program, self.folder(), 0, servers=1, new=True, words=["--connections", str(PLACES)], **more)
        self.that("a house with %d places" % PLACES, server.serving() is not None)
        return server

    def enter(self, server):
        """A connection that has asked once, and was answered."""
        connection = socket.create_connection(("127.0.0.1", server.port), SECONDS)
        connection.settimeout(SECONDS)
        connection.sendall(READ)
        return connection, received(connection, len(SEEN))

    def asks(self, connection):
        with contextlib.suppress(ConnectionError):
            connection.sendall(READ)
            return received(connection, len(SEEN))
        return b""

    def the_longest_silent_goes(self):
        """Who asked just now stays, though it was there first; who has asked nothing the longest goes."""
        server = self.house()
        first, silent, later = [self.enter(server)[0] for _ in range(PLACES)]
        for _ in range(6):
            time.sleep(PEACE / 4)
            self.that("the first one asks", self.asks(first), SEEN)
            self.that("and the last", self.asks(later), SEEN)
        begun = time.monotonic()
        newcomer, told = self.enter(server)
        took = time.monotonic() - begun
        self.that("one more is served", told, SEEN)
        self.that("before long: %.2f s" % took, took < PEACE * slowness())
        self.that("who asked nothing is gone", received(silent, 1), b"")
        self.that("the first one stays", self.asks(first), SEEN)
        self.that("and the last", self.asks(later), SEEN)
        self.that("and the newcomer", self.asks(newcomer), SEEN)
        for connection in (first, silent, later, newcomer):
            connection.close()
        self.that("a told end", server.end()[0], 0)

    def half_a_request_is_awaited(self):
        """Who has sent a part of a request when another waits for its place may send the rest, and is answered; then it goes."""
        server = self.house()
        slow, *others = [self.enter(server)[0] for _ in range(PLACES)]
        for turn in range(5):
            time.sleep(PEACE / 4)
            for other in others:
                self.that("others ask", self.asks(other), SEEN)
        slow.sendall(READ[:4])
        time.sleep(PEACE / 10)
        newcomer = socket.create_connection(("127.0.0.1", server.port), SECONDS)
        newcomer.settimeout(SECONDS)
        newcomer.sendall(READ)
        time.sleep(PEACE / 4)
        slow.sendall(READ[4:])
        self.that("half a request is awaited", received(slow, len(SEEN)), SEEN)
        self.that("and then it goes", received(slow, 1), b"")
        self.that("for another", received(newcomer, len(SEEN)), SEEN)
        stuck, *rest = [newcomer, *others]
        time.sleep(PEACE * 1.25)
        for other in rest:
            self.asks(other)
        stuck.sendall(READ[:4])
        begun = time.monotonic()
        self.that("half a request without its rest", self.enter(server)[1], SEEN)
        took = time.monotonic() - begun
        self.that("is awaited for a second: %.2f s" % took, PEACE / 2 < took < 3 * PEACE * slowness())
        self.that("and no longer", received(stuck, 1), b"")
        for connection in (slow, newcomer, *others):
            connection.close()
        self.that("a told end", server.end()[0], 0)

    def who_reads_stays(self):
        """Who reads a long reply stays as long as it reads, and goes where it reads nothing any more."""
        folder = self.folder()
        writes = [longest(seq) for seq in range(1, 701)]
        with open(os.path.join(folder, "server-0.journal"), "wb") as journal:
            journal.write(frames.journal_of(0, writes))
        server = Server(self.program, folder, 0, servers=1, words=["--connections", str(PLACES)])
        self.that("a house with a long dump", server.serving() is not None)
        reader = socket.socket()
        reader.setsockopt(socket.SOL_SOCKET, socket.SO_RCVBUF, 4096)
        reader.settimeout(SECONDS)
        reader.connect(("127.0.0.1", server.port))
        reader.sendall(frames.frame(frames.DUMP))
        silent, other = [self.enter(server)[0] for _ in range(PLACES - 1)]
        came = self.read_on(reader, [other], 1.5 * PEACE)
        newcomer = self.enter(server)[0]
        self.that("who asked nothing is gone", received(silent, 1), b"")
        more = self.read_on(reader, [other, newcomer], 1.5 * PEACE)
        self.that("who reads stays: %d bytes, and %d" % (came, more), came > 0 and more > 0)
        self.read_on(None, [other, newcomer], 2 * PEACE)
        later, told = self.enter(server)
        self.that("another is served", len(told), len(SEEN))
        self.that("the others stay", [len(self.asks(one)) for one in (other, newcomer)], [len(SEEN)] * 2)
        whole = sum(len(write) + 3 for write in writes)
        rest = received(reader, whole)
        self.that("who reads nothing goes", came + more + len(rest) < whole)
        for connection in (reader, other, newcomer, later):
            connection.close()
        self.that("a told end", server.end()[0], 0)

    def read_on(self, reader, others, seconds):
        """Reads slowly for so long, while the others ask: how many bytes came."""
        end, came = time.monotonic() + seconds, 0
        while time.monotonic() < end:
            came += len(reader.recv(4_000)) if reader else 0
            for other in others:
                self.asks(other)
            time.sleep(0.02)
        return came

    def all_who_say_nothing_go(self):
        """Connections that never say anything hold a thread each: where they hold all of them they go before long, and else they may be silent."""
        server = self.house()
        silent = [socket.create_connection(("127.0.0.1", server.port), SECONDS) for _ in range(PLACES)]
        time.sleep(2 * PEACE)
        self.that("a few silent ones stay", [is_open(one) for one in silent], [True] * PLACES)
        silent += [socket.create_connection(("127.0.0.1", server.port), SECONDS) for _ in range(2 * (PLACES + WAITING))]
        begun = time.monotonic()
        self.that("behind many one is served", self.enter(server)[1], SEEN)
        took = time.monotonic() - begun
        self.that("before long: %.2f s" % took, took < 4 * PEACE * slowness())
        for one in silent:
            one.close()
        self.that("a told end", server.end()[0], 0)

    def the_rest_is_dropped(self):
        """What comes after a bad frame is dropped, and ends no connection with an error, which could cost the replies on their way."""
        server = self.house()
        connection = socket.create_connection(("127.0.0.1", server.port), SECONDS)
        connection.settimeout(SECONDS)
        sent = []
        for piece in (READ, b"\x00\x01\x7f", *[bytes(1000)] * 5):
            with contextlib.suppress(ConnectionError):
                connection.sendall(piece)
                sent.append(len(piece))
            time.sleep(0.01)
        self.that("all is sent", sent, [len(READ), 3] + [1000] * 5)
        with contextlib.suppress(ConnectionError):
            connection.shutdown(socket.SHUT_WR)
        try:
            came = received_whole(connection)
        except ConnectionError as fault:
            came = repr(fault)
        self.that("and the reply comes, and an end", came, SEEN)
        connection.close()
        self.that("a told end", server.end()[0], 0)

    def untold_once(self):
        """That a peer tells no digests is reported, and once."""
        peer = Sender(1, 2, frames.ZERO, [])
        server = Server(self.program, self.folder(), 0, servers=2, port=free_port(), peers=[(1, int(peer.address.rsplit(":", 1)[1]))], new=True, words=["--every", "1"])
        self.that("a server with such a peer", server.serving() is not None)
        end = time.monotonic() + SECONDS
        while peer.offers < 3 and time.monotonic() < end:
            time.sleep(0.1)
        told = [line for line in server.told.all() if "tells no digests" in line]
        self.that("it is told once", told, ["bayou: peer 1 at %s tells no digests: what it holds isn't compared" % peer.address])
        self.that("and pulled from: %d times" % peer.offers, peer.offers >= 3)
        self.that("a told end", server.end()[0], 0)
        peer.close()


def is_open(connection):
    """Whether nothing came, and no end."""
    connection.setblocking(False)
    try:
        connection.recv(1)
    except BlockingIOError:
        return True
    except ConnectionError:
        pass
    return False


def received_whole(connection):
    """All that comes up to the end."""
    came = b""
    while True:
        piece = connection.recv(65536)
        if not piece:
            return came
        came += piece
