"""Rows, and what became of a Write, asked of a server that lives as any client in another language asks."""
import os
import random
import socket
import sys

import frames
from greeting import hello, proof, reply
from listing import LIST, LISTED, ROWS_AT_ONCE
from living import SECONDS, Server

sys.path.insert(0, os.path.join("..", "clients", "python"))
import bayou  # noqa: E402

BECAME, OUTCOME = 0x23, 0x33
ALL = 0xFFFF


def short(text):
    return bytes([len(text)]) + text.encode()


def rows_request(prefix="", after="", most=ALL, need=frames.ZERO):
    return frames.frame(LIST, frames.vector_bytes(need) + short(prefix) + short(after) + most.to_bytes(2, "big"))


def fate_request(origin, seq, need=frames.ZERO):
    return frames.frame(BECAME, frames.vector_bytes(need) + bytes([origin]) + seq.to_bytes(4, "big"))


def page_of(database, vector, prefix="", after="", most=ALL):
    """What a page of these rows is to say."""
    rows = sorted((key, value) for key, value in database.items() if key.startswith(prefix) and key > after)
    told = rows[:min(most, ROWS_AT_ONCE)]
    text = frames.vector_bytes(vector) + bytes([len(told) < len(rows)]) + len(told).to_bytes(2, "big")
    for key, value in told:
        text += short(key) + (b"\1" + value.to_bytes(8, "big", signed=True) if isinstance(value, int) else b"\2" + short(value))
    return LISTED, text


class Greeted:
    """A connection over which a server was greeted."""

    def __init__(self, port, greets=True):
        self.stream = socket.create_connection(("127.0.0.1", port), timeout=SECONDS)
        self.stream.setsockopt(socket.IPPROTO_TCP, socket.TCP_NODELAY, 1)
        if greets:
            for text in (hello(), proof()):
                self.ask(text)

    def ask(self, text):
        """What is answered, or nothing where the connection ends."""
        try:
            self.stream.sendall(text)
            return reply(self.stream)
        except OSError:
            return None

    def __enter__(self):
        return self

    def __exit__(self, *fault):
        self.stream.close()


class Lookups:
    def filled(self):
        """A server with Writes, its database, and what became of each of them, with its clock."""
        server = Server(self.program, self.folder(), 0, servers=2, new=True)
        server.serving()
        database, became = {}, []
        with bayou.Session([server.address()]) as session:
            for number in range(400):
                key, value = "%s/%03d" % ("abc"[number % 3], number), number - 200 if number % 2 else "x%d" % number
                clock = session.write({"update": [["put", key, value]]}).clock
                database[key] = value
                became.append((b"\1", clock))
            for check, rooms in (("a/000", ["d"]), ("a/000", ["a/003", "e"]), ("a/000", ["b/001"])):
                alternatives = [{"when": [["absent", room]], "ops": [["put", room, "kim"]]} for room in rooms]
                clock = session.write({"check": [["absent", check]], "update": [["put", check, "kim"]], "merge": alternatives}).clock
                free = [room for room in rooms if room not in database]
                became.append((b"\2" + bytes([rooms.index(free[0]) + 1]) if free else b"\3", clock))
                for room in free[:1]:
                    database[room] = "kim"
            for key in ("b/200", "c/002"):
                if key in database:
                    became.append((b"\1", session.write({"update": [["del", key]]}).clock))
                    del database[key]
        return server, database, became

    def lookups(self):
        """Rows and outcomes are those of the Writes held; each is asked first over a connection that was greeted."""
        server, database, became = self.filled()
        vector = frames.counts(len(became))
        with Greeted(server.port) as link:
            self.that("all rows that fit", link.ask(rows_request()), page_of(database, vector))
            self.that("none", link.ask(rows_request(most=0)), page_of(database, vector, most=0))
            keys, draw = sorted(database) + ["", "a", "b/", "zz", "a/", "c/3", "a/000x"], random.Random(83)
            for _ in range(500):
                asked = (draw.choice(["", "a", "b/", "c/1", "d", "nothing", "a/399"]), draw.choice(keys), draw.choice([0, 1, 2, 7, 120, 121, 122, ALL]))
                self.that("rows %s %s %d" % asked, link.ask(rows_request(*asked)), page_of(database, vector, *asked))
            for seq, (what, clock) in enumerate(became, 1):
                self.that("what became of 0:%d" % seq, link.ask(fate_request(0, seq)), (OUTCOME, frames.vector_bytes(vector) + what + clock.to_bytes(4, "big")))
            for origin, seq in ((0, len(became) + 1), (1, 1), (0, 65536), (15, 1)):
                self.that("%d:%d isn't held" % (origin, seq), link.ask(fate_request(origin, seq)), (OUTCOME, frames.vector_bytes(vector) + b"\0"))
            for need in (frames.counts(len(became) + 1), frames.counts(0, 1)):
                behind = (frames.REFUSED, bytes([frames.BEHIND]) + frames.vector_bytes(vector))
                self.that("rows of more than is held", link.ask(rows_request(need=need)), behind)
                self.that("an outcome of more than is held", link.ask(fate_request(0, 1, need)), behind)
            self.that("rows of what is held", link.ask(rows_request(need=vector)), page_of(database, vector))
            many = b"".join(rows_request("a/", after) for after in sorted(database))
            link.stream.sendall(many)
            self.that("many at once", [reply(link.stream) for _ in database], [page_of(database, vector, "a/", after) for after in sorted(database)])
            self.that("other requests after them", link.ask(frames.read_request(frames.ZERO, "d"))[0], frames.SEEN)
            self.that("and none of them after those", link.ask(rows_request()), None)
        for name, text in (("rows", rows_request()), ("an outcome", fate_request(0, 1))):
            with Greeted(server.port, greets=False) as link:
                self.that("%s without a greeting" % name, link.ask(text), None)
        bad = [frames.frame(LIST), frames.frame(BECAME, b"\0"), frames.frame(LIST, frames.vector_bytes(frames.ZERO) + b"\1A\0\0\1"),
               frames.frame(LIST, frames.vector_bytes(frames.ZERO) + b"\0\1A\0\1"), frames.frame(LIST, frames.vector_bytes(frames.ZERO) + b"\41" + b"a" * 33 + b"\0\0\1"),
               fate_request(16, 1), fate_request(0, 0), fate_request(0, 65537), frames.frame(LISTED, frames.vector_bytes(frames.ZERO) + b"\0\0\0")]
        for text in bad:
            with Greeted(server.port) as link:
                self.that("no lookup: %s" % text.hex()[:12], link.ask(text), None)
        with bayou.Session([server.address()]) as session:
            self.that("it serves as before", (session.read("d"), session.seen[0]), ("kim", len(became)))
        self.that("a told end", server.end()[0], 0)

    def lookups_with_a_key(self):
        """At a store that has a key only who proved to have it gets rows."""
        path = self.key()
        server = Server(self.program, self.folder(), 0, servers=1, new=True, words=["--key", path])
        server.serving()
        for name, texts in (("nobody who greeted", [rows_request()]), ("who only said who it is", [hello(), rows_request()]), ("who proved nothing", [hello(), proof() + rows_request()])):
            with Greeted(server.port, greets=False) as link:
                told = [link.ask(text) for text in texts][-1]
                self.that("rows are told to " + name, told, None)
        self.that("a told end of a store with a key", server.end()[0], 0)
