"""Servers that live, tried from outside. Call: serve.py PROGRAM [KILLS [GROUP..]]."""
import json
import os
import random
import re
import resource
import shutil
import signal
import socket
import subprocess
import sys
import tempfile
import threading
import time

import frames
from checks import Checks
from differing import Differing
from greeting import Greeting
from holding import Holding
from keys import Keys
from living import SECONDS, Server, slowness
from lookups import Lookups
from meeting import Fake, count_of, dump_of, ended, free_port, items, soon, struct_of
from places import Places

sys.path.insert(0, os.path.join("..", "clients", "python"))
import bayou  # noqa: E402

PUT = {"update": [["put", "a", 1]]}
# What is reported of a log that fills up.
HOW_ON = "; then raise --limit, or make a new store with bayou renew"


def numbered(number):
    return {"update": [["put", "k%03d" % (number % 500), number]]}


class Tries(Holding, Greeting, Keys, Differing, Lookups, Places):
    def __init__(self, program, kills, room):
        self.program, self.kills, self.room, self.checks = program, kills, room, Checks()

    def folder(self):
        return tempfile.mkdtemp(dir=self.room)

    def that(self, name, told, expected=True):
        self.checks.that(name, told, expected)

    def refused(self, name, folder, status, line, index=0, **more):
        """A server that ends at once so, and tells this in one line, and serves nobody."""
        server = Server(self.program, folder, index, **more)
        ended, printed = server.ended()
        self.that(name, (ended, printed, server.told.all()), (status, [], [line]))

    # Groups.

    def words(self):
        folder = self.folder()
        self.refused("an id that is none of the servers", folder, 2, "bayou: --id is below --servers", index=3, new=True)
        for name, words, line in [
            ("a peer that is the server itself", ["--peer", "0=127.0.0.1:1"], "bayou: --peer takes I=ADDRESS:PORT, I being another server's number"),
            ("a peer beyond the servers", ["--peer", "3=127.0.0.1:1"], "bayou: --peer takes I=ADDRESS:PORT, I being another server's number"),
            ("a peer with no number", ["--peer", "127.0.0.1:1"], "bayou: --peer takes I=ADDRESS:PORT, I being another server's number"),
            ("a peer with a name for an address", ["--peer", "1=localhost:1"], "bayou: --peer takes I=ADDRESS:PORT, I being another server's number"),
            ("a peer twice", ["--peer", "1=127.0.0.1:1", "--peer", "1=127.0.0.1:2"], "bayou: --peer names a server twice"),
        ]:
            self.refused(name, folder, 2, line, new=True, words=words)
        self.that("nothing is made of refused words", os.listdir(folder), [])
        for name, words in [
            ("an open address", ["--listen", "0.0.0.0:0"]),
            ("an address by a name", ["--listen", "localhost:0"]),
            ("a number beyond its range", ["--idle", "0"]),
            ("too many servers", ["--servers", "17"]),
            ("a word more", ["more"]),
        ]:
            call = [self.program, "serve", "--id", "0", "--servers", "2", "--dir", folder] + words
            if "--listen" not in words:
                call += ["--listen", "127.0.0.1:0"]
            done = subprocess.run(call, stdin=subprocess.DEVNULL, capture_output=True, timeout=SECONDS)
            self.that(name, (done.returncode, done.stdout, bool(done.stderr)), (2, b"", True))

    def guards(self):
        folder = self.folder()
        path = os.path.join(folder, "server-0.journal")
        self.refused("no journal", folder, 3, "bayou: %s: there is no journal; --new makes one, and --restore makes a lost one again" % path)
        self.that("no journal is made without --new", os.listdir(folder), [])
        server = Server(self.program, folder, 0, new=True)
        self.that("a new server", server.serving(), "serving 0 at 127.0.0.1:%s holds 0,0,0" % server.port)
        self.refused("a journal in use", folder, 3, "bayou: %s: it can't be opened, or another process has it" % path)
        with bayou.Session([server.address()]) as session:
            for number in range(200):
                session.write(numbered(number))
        self.that("a told end", server.end(), (0, ["serving 0 at 127.0.0.1:%d holds 0,0,0" % server.port, "settled 0 accepted 200 adopted 0", "log 0 at 200,0,0"]))
        self.refused("a journal that is there already", folder, 3, "bayou: %s: there is a journal; without --new and --restore it is gone on from" % path, new=True)
        whole = open(path, "rb").read()
        self.damage(folder, path, whole)
        self.others(folder, path)

    def damage(self, folder, path, whole):
        entry = (len(whole) - frames.HEADER) // 200
        for name, at in [("in the first entry", 20), ("in the digest of the tenth", frames.HEADER + 10 * entry - 1)]:
            broken = bytearray(whole)
            broken[at] ^= 1
            open(path, "wb").write(broken)
            before = frames.HEADER + (at - frames.HEADER) // entry * entry
            line = "bayou: %s: it is whole up to byte %d, and the %d bytes behind it are damaged; nothing was changed" % (path, before, len(whole) - before)
            self.refused("a byte changed " + name, folder, 3, line.replace("behind it", "behind that"))
            self.that("nothing was changed where a byte was changed " + name, open(path, "rb").read() == bytes(broken))
        for cut in (1, 50, entry - 1):
            open(path, "wb").write(whole[:-cut])
            server = Server(self.program, folder, 0)
            self.that("torn by %d bytes" % cut, server.serving() is not None)
            self.that("told as torn by %d bytes" % cut, server.told.find("bayou: dropped %d bytes of .*" % (entry - cut)) is not None)
            self.that("without the torn entry of %d bytes less" % cut, server.end()[1][-1:], ["log 0 at 199,0,0"])

    def others(self, folder, path):
        for name, content, line in [
            ("no journal at all", b"something else", "it is no journal"),
            ("the journal of another server", frames.journal(1, []), "it is another server's journal"),
            ("an entry that is no Write", frames.journal(0, [b"nothing"]), "its entry 0 is no Write that may stand there"),
        ]:
            open(path, "wb").write(content)
            self.refused(name, folder, 3, "bayou: %s: %s" % (path, line))
            self.that("nothing was changed of " + name, open(path, "rb").read()[:len(content)] == content)
        os.remove(path)
        self.refused("a folder that isn't there", os.path.join(folder, "none"), 3,
                     "bayou: %s: it can't be opened, or another process has it" % os.path.join(folder, "none", "server-0.journal"), new=True)
        with socket.socket() as taken:
            taken.bind(("127.0.0.1", 0))
            taken.listen()
            self.refused("a port that is taken", folder, 3, "bayou: no socket can be listened at there", new=True, port=taken.getsockname()[1])

    def clients(self):
        server = Server(self.program, self.folder(), 0, servers=1, new=True, words=["--limit", "20"])
        server.serving()
        session = bayou.Session([server.address()], asks=["ryw", "mr", "wfr", "mw"])
        self.that("an absent key", session.read("a"), None)
        accepted = session.write(PUT)
        self.that("a Write's name", (accepted.origin, accepted.seq, accepted.clock, accepted.deps[0]), (0, 1, 1, 0))
        self.that("its own Write", session.read("a"), 1)
        session.write({"update": [["put", "t", "h\u00e9"]]})
        self.that("a text", session.read("t"), "h\u00e9")
        self.programs(session)
        try:
            session.read("A")
            self.that("a key that is none", "was read")
        except bayou.BadRequest:
            self.that("a key that is none is refused here", session.place, 10)
        self.fill(server, session)
        self.that("a told end behind a full log", server.end()[0], 0)

    def programs(self, session):
        session.write({"check": [["absent", "a"]], "update": [["put", "b", 1]], "merge": [{"when": [["atleast", "a", 1]], "ops": [["put", "b", ["plus", "a", 4]]]}]})
        self.that("a merge procedure", session.read("b"), 5)
        session.write({"check": [["atmost", "", 3]], "update": [["put", "c", ["copy", "b"]]]})
        self.that("a condition that counts", session.read("c"), 5)
        session.write({"check": [["atmost", "", 3]], "update": [["del", "c"]]})

    def fill(self, server, session):
        full = None
        for number in range(30):
            try:
                session.write(numbered(number))
            except bayou.Full as refused:
                full = (number, type(refused))
                break
        self.that("a full log", full, (15, bayou.Full))
        try:
            session.again()
            self.that("asked again of a full log", "accepted")
        except bayou.Full:
            self.that("a full log stays full", True)
        self.that("told as it fills up", server.told.find("bayou: holds (18|19|20) of 20 writes%s" % HOW_ON, 8) is not None)
        self.that("told as it is full", server.told.find("bayou: holds 20 of 20 writes%s" % HOW_ON, 8) is not None)

    def repeats(self):
        """A Write whose reply was lost acts once."""
        server = Server(self.program, self.folder(), 0, servers=1, new=True)
        server.serving()
        session = bayou.Session([server.address()])
        for _ in range(20):
            session.write({"update": [["put", "n", 0]]} if session.place == 0 else {"check": [["absent", "n"]], "merge": [{"ops": [["put", "n", ["plus", "n", 1]]]}]})
            session.pending = (0, (session.number, session.run, session.place), last_program(session))
            session.links[0].close()
            session.again()
        self.that("each is held once", server.end()[1][-1:], ["log 0 at 20"])

    def patience(self):
        server = Server(self.program, self.folder(), 0, servers=1, new=True, words=["--idle", "1", "--connections", "2"])
        server.serving()
        silent = socket.create_connection(("127.0.0.1", server.port), SECONDS)
        begun = time.monotonic()
        self.that("a silent connection is ended", silent.recv(1), b"")
        self.that("in its time", 0.9 <= time.monotonic() - begun <= 8)
        drips = socket.create_connection(("127.0.0.1", server.port), SECONDS)
        begun = time.monotonic()
        self.that("one that drips is ended", drip(drips, 8), True)
        crowd = [socket.create_connection(("127.0.0.1", server.port), SECONDS) for _ in range(6)]
        with bayou.Session([server.address()], timeout=SECONDS) as session:
            begun = time.monotonic()
            self.that("served behind a silent crowd", session.write(PUT).seq, 1)
            self.that("before long", time.monotonic() - begun <= 15)
            time.sleep(2.5)
            self.that("a link that was closed meanwhile is made anew", session.read("a"), 1)
        for one in crowd:
            one.close()
        begun = time.monotonic()
        self.that("a told end beside connections", server.end()[0], 0)
        self.that("within two seconds", time.monotonic() - begun <= 2 * slowness())

    def strangers(self):
        """Bytes that are no requests end their connection alone."""
        server = Server(self.program, self.folder(), 0, servers=1, new=True)
        server.serving()
        seed = random.Random(7)
        for _ in range(100):
            with socket.create_connection(("127.0.0.1", server.port), SECONDS) as stranger:
                try:
                    stranger.sendall(bytes(seed.randrange(256) for _ in range(seed.randrange(200))))
                    stranger.shutdown(socket.SHUT_WR)
                    while stranger.recv(4096):
                        pass
                except OSError:
                    pass
        with bayou.Session([server.address()]) as session:
            self.that("served behind strangers", session.write(PUT).seq, 1)
        self.that("nothing of theirs is held", server.end()[1][-1:], ["log 0 at 1"])

    def short_connections(self):
        server = Server(self.program, self.folder(), 0, servers=1, new=True, words=["--connections", "16"])
        server.serving()
        sizes = []
        for _ in range(3):
            for _ in range(1000):
                with bayou.Session([server.address()]) as session:
                    session.read("a")
            sizes.append(server.resident())
        self.that("as many threads behind 3,000 connections as behind 1,000", sizes[2][1], sizes[0][1])
        self.that("no more memory behind 3,000 connections than behind 1,000", sizes[2][0] <= sizes[0][0] + 2**20)
        self.that("a told end behind 3,000 connections", server.end()[0], 0)

    def crowds(self):
        server = Server(self.program, self.folder(), 0, servers=1, new=True, words=["--connections", "1024"])
        server.serving()
        sessions = [bayou.Session([server.address()], number=0) for _ in range(1000)]
        self.that("1,000 connections at once", [session.read("a") for session in sessions].count(None), 1000)
        self.that("and again", [session.read("a") for session in sessions].count(None), 1000)
        for session in sessions:
            session.close()
        self.that("a told end behind 1,000 connections", server.end()[0], 0)

    def fleet(self, folder, count=3, new=True, **more):
        ports = [free_port() for _ in range(count)]
        peers = lambda index: [(other, ports[other]) for other in range(count) if other != index]  # noqa: E731
        start = lambda index, new, words=(): Server(self.program, folder, index, count, ports[index], peers(index), new, words=words, **more)  # noqa: E731
        return [start(index, new) for index in range(count)], start

    def peers(self):
        folder = self.folder()
        servers, start = self.fleet(folder)
        self.that("three servers", all([server.serving() is not None for server in servers]))
        addresses = [server.address() for server in servers]
        with bayou.Session(addresses, asks=["ryw", "mr"]) as session:
            for index in range(3):
                session.write({"update": [["put", "from/%d" % index, index]]}, server=index)
            for index in range(3):
                self.that("all Writes reach server %d" % index, [soon(lambda: session.read("from/%d" % other, index)) for other in range(3)], [0, 1, 2])
        self.that("a peer is told as reached", servers[0].told.find("bayou: peer 1 reached pulled [0-9]+ had [0-9]+") is not None)
        servers[1].kill()
        self.that("a peer is told as away", servers[0].told.find(r"bayou: peer 1 at 127\.0\.0\.1:[0-9]+ away", count=1) is not None)
        with bayou.Session(addresses[:1]) as session:
            session.write({"update": [["put", "later", 1]]})
        servers[1] = start(1, False)
        self.that("back again", servers[1].serving() is not None)
        with bayou.Session([None, addresses[1]]) as session:
            self.that("what it missed reaches it", soon(lambda: session.read("later", 1)), 1)
        self.own_lost(folder, servers, start)
        for server in servers:
            self.that("a told end of a peer", server.end()[0], 0)

    def hanging(self):
        """A peer that takes connections and says nothing holds nobody up, and is pulled from again once it goes on."""
        servers, _ = self.fleet(self.folder())
        self.that("three servers for one that hangs", all([server.serving() is not None for server in servers]))
        addresses = [server.address() for server in servers]
        self.that("it is reached before", servers[0].told.find("bayou: peer 1 reached pulled 0 had 0") is not None)
        away = "bayou: peer 1 at %s away" % addresses[1]
        before = servers[0].told.all().count(away)
        os.kill(servers[1].process.pid, signal.SIGSTOP)
        try:
            with bayou.Session([addresses[0], None, addresses[2]]) as session:
                begun = time.monotonic()
                session.write({"update": [["put", "passed", 1]]}, server=0)
                self.that("a Write passes a peer that hangs", soon(lambda: session.read("passed", 2)), 1)
                self.that("and waits for none", time.monotonic() - begun <= 6)
            self.that("a peer that hangs is told", servers[0].told.find(re.escape(away), count=before + 1) is not None)
        finally:
            os.kill(servers[1].process.pid, signal.SIGCONT)
        with bayou.Session([None, addresses[1]]) as session:
            self.that("a Write reaches a peer that goes on", soon(lambda: session.read("passed", 1)), 1)
        self.that("a peer that goes on is told", servers[0].told.find("bayou: peer 1 reached pulled 0 had 0", count=2) is not None)
        for server in servers:
            self.that("a told end of a peer that hung, or beside one", server.end()[0], 0)

    def own_lost(self, folder, servers, start):
        path = os.path.join(folder, "server-2.journal")
        servers[2].end()
        old = open(path, "rb").read()
        servers[2] = start(2, False)
        servers[2].serving()
        with bayou.Session([None, None, servers[2].address()]) as session:
            session.write(PUT, server=2)
        self.that("the others have it", soon(lambda: count_of(servers[0], 2) == 2 and count_of(servers[1], 2) == 2), True)
        servers[2].end()
        open(path, "wb").write(old)
        server = start(2, False)
        ended, printed = server.ended()
        self.that("an old copy of a journal is refused", (ended, printed), (3, []))
        self.that("and told so", server.told.find("bayou: .*server-2.journal: it lacks Writes of its own server that server [01] has") is not None)
        os.remove(path)
        server = start(2, True)
        self.that("a new journal in the place of a lost one is refused", server.ended()[0], 3)
        self.that("it isn't made", os.path.exists(path), False)
        open(path, "wb").write(old)

    def restores(self):
        """A journal that is lost is made again of what the peers have, under the same names."""
        folder = self.folder()
        path = os.path.join(folder, "server-0.journal")
        servers, start = self.fleet(folder)
        for server in servers:
            server.serving()
        addresses = [server.address() for server in servers]
        session = bayou.Session(addresses, asks=["ryw", "mr", "wfr", "mw"])
        for number in range(8):
            for index in (0, 1, 2, 0):
                written = {"update": [["put", "k%d/%d" % (number, index), number]]}
                self.that("a Write behind what was seen", soon(lambda: session.write(written, index)) is not None)
                if number % 2:
                    soon(lambda: session.read("k%d/%d" % (number, index), (index + 1) % 3))
        before = soon_alike(servers)
        own = sorted(write for write in before or [] if struct_of(write)[0] == 0)
        self.that("own Writes are there", len(own), 16)
        servers[0].kill()
        os.remove(path)
        self.unrestored(folder, path, start)
        servers[0] = start(0, False, ["--restore"])
        self.that("restored", servers[0].serving() is not None)
        self.that("told as restored", servers[0].told.find("bayou: restored 16 own writes") is not None)
        self.that("its journal alone is there", written_in(folder), ["server-%d.journal" % index for index in range(3)])
        self.that("its own Writes are the same", sorted(write for write in dump_of(servers[0]) if struct_of(write)[0] == 0) == own)
        self.that("all hold the same again", soon_alike(servers) == before)
        self.that("what a session saw it sees there", soon(lambda: session.read("k7/0", 0)), 7)
        accepted = session.write(PUT, 0)
        self.that("the next name is the next one", (accepted.origin, accepted.seq), (0, 17))
        self.refused("a restoring of a journal in use", folder, 3, "bayou: %s: there is a journal; without --new and --restore it is gone on from" % path, words=["--restore", "--without", "1", "--without", "2"])
        self.that("it goes on as ever", soon_alike(servers) is not None)
        servers[0].end()
        servers[0] = start(0, False)
        self.that("its journal is gone on from", servers[0].serving() is not None)
        session.close()
        for server in servers:
            self.that("a told end behind a restoring", server.end()[0], 0)
        self.bad_peers()
        self.fewer_own()
        self.killed_restoring()

    def unrestored(self, folder, path, start):
        """What begins no server in the place of one whose journal is lost."""
        self.refused("no journal to go on from", folder, 3, "bayou: %s: there is no journal; --new makes one, and --restore makes a lost one again" % path)
        server = start(0, True)
        self.that("a new one in its place", (server.ended(), server.told.find("bayou: .*server-0.journal: it lacks Writes of its own server that server [12] has") is not None), ((3, []), True))
        self.that("nothing is left of a new one", os.path.exists(path), False)
        self.refused("new and restored at once", folder, 2, "bayou: --new and --restore are two ways to begin: give one of them", new=True, words=["--restore"])
        server = start(0, False, ["--restore", "--limit", "20"])
        ended, _ = server.ended()
        self.that("more Writes than it may hold", (ended, server.told.all()[-1:]), (3, ["bayou: %s: not restored: it would have more Writes than --limit" % path]))
        self.that("nothing is left of what wasn't restored", written_in(folder), ["server-0.journal.mark", "server-1.journal", "server-2.journal"])

    def bad_peers(self):
        """Peers that don't answer as a server does."""
        folder = self.folder()
        path = os.path.join(folder, "server-0.journal")
        alone = ["--restore", "--without", "2"]
        program = ([], [("put", "a", ("lit", 1))], [])
        first, other = (0, 1, 1, frames.ZERO, program), (1, 1, 1, frames.ZERO, program)
        whole = [first, other, (0, 2, 2, frames.counts(1, 1), program)]
        no_items = "server 1 didn't answer whole: mend it, or put --without 1 in the place of its --peer"
        for name, answer, line in [
            ("says nothing", b"", no_items),
            ("stops within", items(whole), no_items),
            ("tells another number", items(whole) + ended(2), no_items),
            ("leaves a Write out", items(whole[1:]) + ended(2), no_items),
            ("has a Write of a server that there isn't", items([(3, 1, 1, frames.ZERO, program)]) + ended(1), no_items),
            ("has an own Write that forgets", items(whole + [(0, 3, 3, frames.counts(2), program)]) + ended(4), "the peers' Write 3 of this server can't be its own"),
        ]:
            with Fake(answer) as fake:
                server = Server(self.program, folder, 0, peers=[(1, fake.port)], words=alone)
                self.that("a peer that " + name, (server.ended()[0], server.told.all()[-1:]), (3, ["bayou: %s: not restored: %s" % (path, line)]))
        self.that("nothing is left of any of them", os.listdir(folder), [])
        with Fake(items(whole) + ended(3), asks=2) as fake:
            server = Server(self.program, folder, 0, peers=[(1, fake.port)], words=alone)
            self.that("a peer that answers well", (server.serving(), server.told.find("bayou: restored 2 own writes") is not None),
                      ("serving 0 at 127.0.0.1:%s holds 2,1,0" % server.port, True))
            server.end()

    def fewer_own(self):
        """The peer with most own Writes is the one; what no peer has is lost, and its name is given anew."""
        folder = self.folder()
        path = os.path.join(folder, "server-0.journal")
        servers, start = self.fleet(folder)
        for server in servers:
            server.serving()
        with bayou.Session([servers[0].address()]) as session:
            for count, killed in ((3, 1), (6, 2), (8, 0)):
                while session.write(PUT).seq < count:
                    pass
                for server in servers[1:] if killed == 1 else servers[2:] if killed == 2 else []:
                    self.that("it has what was written", soon(lambda: count_of(server, 0) == count), True)
                servers[killed].kill()
        os.remove(path)
        ports = [server.port for server in servers]
        alone = [Server(self.program, folder, index, port=ports[index]) for index in (1, 2)]
        for server in alone:
            server.serving()
        server = start(0, False, ["--restore"])
        self.that("of two the peer with more is taken", server.serving() is not None and server.told.find("bayou: restored 6 own writes") is not None)
        with bayou.Session([server.address()], number=1) as session:
            self.that("a name that no peer knows is given anew", session.write(PUT).seq, 7)
        for server in alone + [server]:
            server.end()

    def killed_restoring(self):
        """A restoring that is killed leaves no journal, and the next one makes it."""
        folder = self.folder()
        path, part = (os.path.join(folder, "server-0.journal" + more) for more in ("", ".part"))
        servers, start = self.fleet(folder, 2)
        for server in servers:
            server.serving()
        with bayou.Session([servers[0].address()]) as session:
            for number in range(3000):
                session.write(numbered(number))
        self.that("the peer has all", soon(lambda: count_of(servers[1], 0) == 3000), True)
        servers[0].kill()
        cut = 0
        for _ in range(10):
            if os.path.exists(path):
                os.remove(path)
            server = start(0, False, ["--restore"])
            while not os.path.exists(path) and not (os.path.exists(part) and os.path.getsize(part) > 20000):
                time.sleep(0.001)
            server.kill()
            cut += not os.path.exists(path)
            if cut == 3:
                break
        self.that("killed within a restoring", cut, 3)
        self.that("what was begun is no journal", os.path.exists(path), False)
        server = start(0, False, ["--restore"])
        self.that("restored behind kills", (server.serving() is not None, server.told.find("bayou: restored 3000 own writes") is not None), (True, True))
        self.that("nothing else is left", written_in(folder), ["server-0.journal", "server-1.journal"])
        self.that("with the same Writes", sorted(dump_of(server)) == sorted(dump_of(servers[1])))
        for one in (server, servers[1]):
            one.end()

    def full_disk(self):
        limit = lambda: (signal.signal(signal.SIGXFSZ, signal.SIG_IGN), resource.setrlimit(resource.RLIMIT_FSIZE, (4000, 4000)))  # noqa: E731
        server = Server(self.program, self.folder(), 0, servers=1, new=True, before=limit)
        server.serving()
        with bayou.Session([server.address()]) as session:
            refused = None
            for number in range(100):
                try:
                    session.write(numbered(number))
                except bayou.JournalFailed as fault:
                    refused = fault
                    break
            self.that("a disk that is full", type(refused), bayou.JournalFailed)
            self.that("reads go on", session.read("k000"), 0)
            self.that("the server comes up by itself", server.told.find("bayou: reopened adopted none", 10) is not None)
            self.that("and goes down again", wants(session, bayou.JournalFailed), True)
        self.that("a told end behind a full disk", server.end()[0], 0)

    def killed(self):
        """Servers are killed in turn under writers: what was reported as accepted stays, and what was lost and asked again acts once."""
        folder = self.folder()
        servers, start = self.fleet(folder, until=False)
        for server in servers:
            server.serving()
        addresses = [server.address() for server in servers]
        stop, told, entries = threading.Event(), [[] for _ in range(8)], [[] for _ in range(8)]
        # (so that the store isn't full before the last kill: it holds 65,536 Writes)
        pause = self.kills * 2.6e-4
        writers = [threading.Thread(target=write_on, args=(addresses, number, stop, told[number], entries[number], pause)) for number in range(8)]
        for writer in writers:
            writer.start()
        for kill in range(self.kills):
            time.sleep(0.3)
            servers[kill % 3].kill()
            servers[kill % 3] = start(kill % 3, False)
            self.that("up again behind kill %d" % kill, servers[kill % 3].serving() is not None)
        stop.set()
        for writer in writers:
            writer.join(SECONDS)
        accepted = [wid for each in told for wid in each]
        self.that("Writes were told as accepted", len(accepted) > 8 * self.kills)
        self.that("no name was told twice", len(set(accepted)), len(accepted))
        lists = soon_alike(servers)
        self.that("all servers hold the same", lists is not None)
        held = {struct_of(write) for write in lists or []}
        self.that("no Write that was told is lost", sorted(set(accepted) - held), [])
        self.audited(entries, [dump_of(server) for server in servers])
        for server in servers:
            server.kill()

    def audited(self, entries, dumps):
        """What the sessions were served, and what the servers hold, is clean by the auditor."""
        path = os.path.join(self.folder(), "audit.jsonl")
        with open(path, "w") as file:
            lines = [["servers", 3]] + [entry for each in entries for entry in each]
            lines += [["held", server, held_of(write)] for server, dump in enumerate(dumps) for write in dump]
            file.writelines(json.dumps(line, separators=(",", ":")) + "\n" for line in lines)
        done = subprocess.run([self.program, "audit", path], stdin=subprocess.DEVNULL, capture_output=True, timeout=120)
        self.that("each session had what it asked for", (done.returncode, done.stdout.split(b"\n")[0], done.stderr), (0, b"clean", b""))
        self.that("reads and Writes were served", {entry[5] for each in entries for entry in each}, {"read", "write"})


def written_in(folder):
    """The names of the files in which something is: a server that runs has an empty mark."""
    return sorted(name for name in os.listdir(folder) if os.path.getsize(os.path.join(folder, name)) > 0)


def last_program(session):
    """The program of the session's last Write, which was reported as accepted: one that only adds one."""
    program = {"update": [["put", "n", 0]]} if session.place == 1 else {"check": [["absent", "n"]], "merge": [{"ops": [["put", "n", ["plus", "n", 1]]]}]}
    return bayou.program_bytes(program)


def drip(stream, seconds):
    """Whether the other end ends a connection of which a byte of a request comes now and then."""
    end = time.monotonic() + seconds
    stream.settimeout(0.2)
    for byte in frames.frame(frames.DUMP)[:2] + bytes(1000):
        try:
            stream.sendall(bytes([byte]) if byte == 0 else b"\x20")
            if stream.recv(1) == b"":
                return True
        except socket.timeout:
            pass
        except OSError:
            return True
        if time.monotonic() > end:
            return False
    return False


def soon_alike(servers):
    """What all servers hold, sorted, once that is the same."""
    def alike():
        lists = [sorted(dump_of(server)) for server in servers]
        return lists[0] if lists[0] == lists[1] == lists[2] else None
    return soon(alike, 60)


def wants(session, fault):
    """Whether a Write meets this fault before long."""
    end = time.monotonic() + 10
    while time.monotonic() < end:
        try:
            session.write(PUT)
        except fault:
            return True
        except bayou.Refused:
            time.sleep(0.2)
    return False


def held_of(write):
    """What a `held` line says of a Write; its program is an update of puts."""
    origin, seq, clock, deps, (_, update, _) = frames.Bytes(write).write()
    return [origin, seq, clock, list(deps[:3]), {"update": [["put", key, term[1]] for _, key, term in update]}]


def write_on(addresses, number, stop, told, entries, pause):
    """Writes at one server after another, and asks again what was lost, until it is asked to stop, and reads now and then; keeps each name that
    was reported, and the entries of an audit, and rests after each."""
    session = bayou.Session(addresses, asks=bayou.ASKS, number=number, timeout=5)
    asks = list(bayou.ASKS)
    seed = random.Random(number)
    while not stop.is_set():
        server = seed.randrange(3)
        if seed.randrange(4) == 0:
            read_on(session, "w%d" % seed.randrange(8), server, entries)
        try:
            accepted = session.write({"update": [["put", "w%d" % number, session.place + 1]]}, server)
        except (bayou.Away, bayou.Refused):
            time.sleep(0.02)
            continue
        except bayou.Lost:
            accepted = asked_again(session, stop)
        if accepted is not None:
            told.append((accepted.origin, accepted.seq))
            entries.append(["entry", number, session.place, asks, accepted.origin, "write", accepted.seq, accepted.clock, list(accepted.deps[:3])])
        time.sleep(pause)
    session.close()


def read_on(session, key, server, entries):
    """Reads the key, and enters it, where it was served."""
    try:
        session.read(key, server)
    except bayou.BayouError:
        return
    entries.append(["entry", session.number, session.place, list(bayou.ASKS), server, "read", key, list(session.seen[:3])])


def asked_again(session, stop):
    """What became of a Write whose reply was lost, once its server is up again."""
    for _ in range(400):
        try:
            return session.again()
        except (bayou.Away, bayou.Lost, bayou.Refused):
            time.sleep(0.05)
    return None


GROUPS = ["words", "guards", "clients", "repeats", "patience", "strangers", "short_connections", "crowds", "the_longest_silent_goes", "half_a_request_is_awaited", "who_reads_stays", "all_who_say_nothing_go", "the_rest_is_dropped", "untold_once", "peers", "hanging", "restores", "full_disk", "dumps", "together", "bad_peers_at_start", "offers_while_starting", "descriptors", "strays", "greetings", "mistaken_peers", "one_more_server", "older_peers", "older_clients", "lookups", "lookups_with_a_key", "old_copies", "one_number", "liars", "alike", "keys", "let_in", "labels", "keyed_peers", "late", "written_to_steadily", "fair", "killed"]


def main():
    program = sys.argv[1]
    kills = int(sys.argv[2]) if len(sys.argv) > 2 else 9
    groups = sys.argv[3:] or GROUPS
    resource.setrlimit(resource.RLIMIT_NOFILE, (4096, max(4096, resource.getrlimit(resource.RLIMIT_NOFILE)[1])))
    room = tempfile.mkdtemp()
    tries = Tries(program, kills, room)
    try:
        for group in groups:
            begun = time.monotonic()
            try:
                getattr(tries, group)()
            except Exception as fault:  # a check that can't go on has failed
                tries.that("%s goes on" % group, repr(fault), "")
            print("%s: %.1f s" % (group, time.monotonic() - begun))
    finally:
        shutil.rmtree(room, ignore_errors=True)
    print("%d passed, %d failed" % (tries.checks.passed, tries.checks.failed))
    return 1 if tries.checks.failed else 0


if __name__ == "__main__":
    sys.exit(main())
