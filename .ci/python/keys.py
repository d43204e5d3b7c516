"""Keys of stores, tried from outside: how they are made, who is let in with them, which peers are pulled from, and of which store a journal is."""
import hashlib
import hmac
import os
import re
import shutil
import socket
import stat
import subprocess
import sys
import time

import frames
from greeting import NO_PROOF, NONCE, Answering, hello, proof, received, reply, send_last
from living import SECONDS, Server
from meeting import KNOWN, WELCOME, free_port, soon

sys.path.insert(0, os.path.join("..", "clients", "python"))
import bayou  # noqa: E402

PUT = {"update": [["put", "a", 1]]}
WANTED = "bayou: %s: it is of the store room; give its key by --key"


def proved(secret, role, *parts):
    """A proof, as docs/FORMATS.md has it."""
    return hmac.new(secret, role + b"".join(parts), hashlib.sha256).digest()


class Keys:
    """Groups of tries of keys, of a class that has `program`, `folder` and `that`."""

    def make(self, *words):
        done = subprocess.run([self.program, "key"] + list(words), stdin=subprocess.DEVNULL, capture_output=True, timeout=SECONDS)
        return done.returncode, done.stdout.decode(), done.stderr.decode()

    def key(self, name="room"):
        """The file of a new key."""
        path = os.path.join(self.folder(), "store.key")
        self.that("a key is made", self.make(path, "--name", name), (0, "key %s in %s\n" % (name, path), ""))
        return path

    def keyed(self, folder, path, index=0, servers=1, new=True, words=(), **more):
        """A server of the store of this key."""
        return Server(self.program, folder, index, servers=servers, new=new, words=["--key", path] * bool(path) + list(words), **more)

    def keys(self):
        folder = self.folder()
        path = os.path.join(folder, "store.key")
        self.that("a key is made", self.make("--name", "room", path), (0, "key room in %s\n" % path, ""))
        with open(path) as file:
            line = file.read()
        self.that("it has its line", re.fullmatch(r"bayou-key-1 room [0-9a-f]{64}\n", line) is not None)
        self.that("it is its owner's alone", stat.S_IMODE(os.stat(path).st_mode), 0o600)
        self.that("nothing else is made", os.listdir(folder), ["store.key"])
        self.that("a key is never written over", self.make(path, "--name", "other"), (3, "", "bayou: %s: it is there already; nothing was changed\n" % path))
        with open(path) as file:
            self.that("and stays as it is", file.read(), line)
        nowhere = os.path.join(folder, "nowhere", "store.key")
        self.that("a key in no folder", self.make(nowhere, "--name", "room"), (3, "", "bayou: %s: it can't be made\n" % nowhere))
        self.that("no secret is drawn twice", len({open(self.key()).read() for _ in range(8)}), 8)
        for name in ("", "Room", "a b", "x" * 33, "\u00e9"):
            told = self.make(os.path.join(folder, "none.key"), "--name", name)
            self.that("the name %r" % name, told, (2, "", "bayou: --name takes 1 to 32 bytes of a-z 0-9 . _ - /\n"))
        for words in ([path], ["--name", "room"], ["", "--name", "room"], [path, path, "--name", "room"], [path, "--name", "room", "--name", "room"]):
            status, printed, told = self.make(*words)
            self.that("the words %r" % words, (status, printed, bool(told)), (2, "", True))
        self.that("refused words make nothing", os.listdir(folder), ["store.key"])
        for size in (1, 32):
            self.key("x" * size)
        self.no_keys(line)

    def no_keys(self, line):
        """Files that are no key, to a server and to a person."""
        folder = self.folder()
        path = os.path.join(folder, "other.key")
        secret = line.split()[2]
        texts = ["", "\n", "room", line[:-2] + "\n", line + "\n", line + line, line.upper(), line.replace("room", "Room"), line.replace("room", ""),
                 line.replace("-1", "-2"), line.replace(" ", "  "), " " + line, line.replace("\n", "\r\n"), line.replace(secret, secret[:-2]),
                 line.replace(secret, secret + "00"), line.replace(secret, "g" + secret[1:]), "\0" * 4096]
        for text in texts:
            with open(path, "w") as file:
                file.write(text)
            self.unkeyed("a key of %r" % text[:20], path, "it is no key of a store")
        os.remove(path)
        self.unkeyed("a key that isn't there", path, "it can't be opened and read")
        self.unkeyed("a key that is a folder", folder, "it can't be opened and read")
        with open(path, "w") as file:
            file.write(line[:-1])
        server = self.keyed(folder, path)
        self.that("a key without its line feed", server.serving() is not None)
        self.that("a told end with it", server.end()[0], 0)

    def unkeyed(self, name, path, why):
        """Neither a server nor a person begins with this key."""
        folder = self.folder()
        line = "bayou: %s: %s" % (path, why)
        server = self.keyed(folder, path)
        ended, printed = server.ended()
        self.that(name, (ended, printed, server.told.all(), os.listdir(folder)), (3, [], [line], []))
        done = subprocess.run([self.program, "connect", "--server", "0=127.0.0.1:1", "--key", path], input=b"get a\n", capture_output=True, timeout=SECONDS)
        self.that(name + ", to a person", (done.returncode, done.stdout, done.stderr.decode()), (3, b"", line + "\n"))

    def let_in(self):
        """Who is let in at a store that has a key, and who isn't: nothing of the requests of one who isn't is done."""
        path = self.key()
        server = self.keyed(self.folder(), path)
        server.serving()
        key = bayou.Key(path)
        with bayou.Session([server.address()], key=path) as session:
            session.write(PUT)
            self.that("who has the key reads", session.read("a"), 1)
            session.links[0].close()
            self.that("over each connection", session.read("a"), 1)
        self.welcomed(server, key)
        self.turned_away(server, key)
        others = [("no key", None), ("the key of another store", self.key("other")), ("another key of the same name", self.key())]
        for name, other in others:
            with bayou.Session([server.address()], key=other) as session:
                try:
                    session.write(PUT)
                    told = None
                except bayou.BayouError as error:
                    told = type(error)
                self.that("who asks with " + name, told, bayou.Lost if other is None else bayou.Stranger)
        with bayou.Session([server.address()], key=path) as session:
            self.that("nothing was done of all that", (session.read("a"), session.seen[0]), (1, 1))
        self.that("a told end of a server with a key", server.end()[0], 0)
        opened = Server(self.program, self.folder(), 0, servers=1, new=True)
        opened.serving()
        with bayou.Session([opened.address()], key=path) as session:
            try:
                session.write(PUT)
                told = None
            except bayou.BayouError as error:
                told = type(error)
            self.that("a key at an open store", told, bayou.Stranger)
        with bayou.Session([opened.address()]) as session:
            self.that("is sent nothing", (session.read("a"), session.seen[0]), (None, 0))
        self.that("a told end of an open one", opened.end()[0], 0)

    def welcomed(self, server, key):
        """What a server that has a key answers, by the bytes."""
        with socket.create_connection(("127.0.0.1", server.port), timeout=SECONDS) as connection:
            connection.sendall(hello(0))
            kind, welcome = reply(connection)
            theirs = welcome[8:24]
            self.that("a Welcome with a name", (kind, welcome[:8], len(welcome)), (WELCOME, bytes([2, 0, 1, 4]) + b"room", 4 + 4 + 16 + 32))
            self.that("proves the key", welcome[24:], proved(key.secret, b"server", NONCE, theirs, bytes([0, 1])))
            connection.sendall(proof(proved(key.secret, b"client", theirs, NONCE)) + frames.read_request(frames.counts(1), "a"))
            self.that("who proves it is told what is held", reply(connection), (KNOWN, frames.vector_bytes(frames.counts(1)) + (65536).to_bytes(4, "big") + b"\0\xff"))
            self.that("and is served", reply(connection)[0], 0x11)

    def turned_away(self, server, key):
        """Proofs that are none, and requests where a greeting is due: the connection ends, and nothing is done."""
        tag = bytes([1, 0, 0, 0, 1, 0, 0, 0, 1])
        program = frames.program_bytes(([], [("put", "a", ("lit", 2))], []))
        write = frames.frame(frames.WRITE, tag + frames.vector_bytes(frames.ZERO) + program)
        offer = frames.frame(frames.OFFER, frames.vector_bytes(frames.ZERO))
        for name, request in (("a read", frames.read_request(frames.ZERO, "a")), ("a Write", write), ("a dump", frames.frame(frames.DUMP)), ("an offer", offer),
                              ("a reopening", frames.frame(frames.REOPEN)), ("a proof", proof())):
            with socket.create_connection(("127.0.0.1", server.port), timeout=SECONDS) as connection:
                send_last(connection, request)
                self.that(name + " first", received(connection, 1), b"")
            with socket.create_connection(("127.0.0.1", server.port), timeout=SECONDS) as connection:
                send_last(connection, hello(0) + request)
                self.that(name + " behind a Hello", (reply(connection)[0], received(connection, 1)), (WELCOME, b""))
        earlier = []
        for name, made in [
            ("no proof", lambda theirs, welcome: NO_PROOF),
            ("the server's own proof", lambda theirs, welcome: welcome[24:]),
            ("the proof of a server", lambda theirs, welcome: proved(key.secret, b"server", NONCE, theirs, bytes([0, 1]))),
            ("nonces changed round", lambda theirs, welcome: proved(key.secret, b"client", NONCE, theirs)),
            ("another secret", lambda theirs, welcome: proved(bytes(32), b"client", theirs, NONCE)),
            ("another nonce", lambda theirs, welcome: proved(key.secret, b"client", bytes(16), NONCE)),
            ("its last bit", lambda theirs, welcome: (lambda text: text[:-1] + bytes([text[-1] ^ 1]))(proved(key.secret, b"client", theirs, NONCE))),
            ("its first bit", lambda theirs, welcome: (lambda text: bytes([text[0] ^ 128]) + text[1:])(proved(key.secret, b"client", theirs, NONCE))),
            ("a proof, kept for later", lambda theirs, welcome: earlier.append(proved(key.secret, b"client", theirs, NONCE)) or NO_PROOF),
            ("that proof, later", lambda theirs, welcome: earlier[0]),
        ]:
            with socket.create_connection(("127.0.0.1", server.port), timeout=SECONDS) as connection:
                connection.sendall(hello(0))
                welcome = reply(connection)[1]
                send_last(connection, proof(made(welcome[8:24], welcome)) + write)
                self.that(name + " is no proof", received(connection, 1), b"")
        whole = hello(0) + proof() + write
        for count in range(1, len(whole), 7):
            with socket.create_connection(("127.0.0.1", server.port), timeout=SECONDS) as connection:
                send_last(connection, whole[:count])
                received(connection, 4096)

    def labels(self):
        """Of which store a journal is: its label is made at the first start with a key, and other starts are refused by name."""
        folder, path = self.folder(), self.key()
        journal, label = os.path.join(folder, "server-0.journal"), os.path.join(folder, "server-0.store")
        server = self.keyed(folder, path)
        server.serving()
        with bayou.Session([server.address()], key=path) as session:
            session.write(PUT)
        with open(path) as file:
            wanted = "bayou-store-1 room %s\n" % hashlib.sha256(file.read().rstrip("\n").encode()).hexdigest()
        with open(label) as file:
            self.that("a label", file.read(), wanted)
        self.that("a told end", server.end()[0], 0)
        self.that("nothing else is left", sorted(os.listdir(folder)), ["server-0.journal", "server-0.store"])
        with open(journal, "rb") as file:
            before = file.read()
        for name, other in (("no key", None), ("another store's key", self.key("other")), ("another key of the same name", self.key())):
            self.unserved("a start with " + name, folder, other, WANTED % journal)
        with open(journal, "rb") as file:
            self.that("changes nothing", file.read(), before)
        server = self.keyed(folder, path, new=False)
        self.that("a start with the key", server.serving(), "serving 0 at 127.0.0.1:%d holds 1" % server.port)
        server.end()
        os.remove(journal)
        self.unserved("a new journal beside that label, without its key", folder, None, WANTED % journal, new=True)
        for text in ("", "room\n", wanted[:9], "bayou-store-1 Room 00\n"):
            with open(label, "w") as file:
                file.write(text)
            self.unserved("a label of %r" % text, folder, path, "bayou: %s: its .store can't be read or written, or says no store" % journal, new=True)
        os.remove(label)
        os.mkdir(label)
        self.unserved("a label that is a folder", folder, path, "bayou: %s: its .store can't be read or written, or says no store" % journal, new=True)
        self.raised()

    def unserved(self, name, folder, path, line, new=False):
        server = self.keyed(folder, path, new=new)
        ended, printed = server.ended()
        self.that(name, (ended, printed, server.told.all()), (3, [], [line]))

    def raised(self):
        """A store that was open gets a key, and its journal goes on; --anyone without a key is reported."""
        folder, path = self.folder(), self.key()
        server = Server(self.program, folder, 0, servers=1, new=True)
        server.serving()
        with bayou.Session([server.address()]) as session:
            session.write(PUT)
        server.end()
        self.that("an open store has no label", os.listdir(folder), ["server-0.journal"])
        server = self.keyed(folder, path, new=False)
        server.serving()
        with bayou.Session([server.address()], key=path) as session:
            self.that("its Writes are there with a key", session.read("a"), 1)
        server.end()
        self.unserved("and never without again", folder, None, WANTED % os.path.join(folder, "server-0.journal"))
        line = "bayou: --anyone without --key: WHOEVER REACHES THIS PORT CAN READ, WRITE AND FILL THE STORE"
        for key, told in ((None, [line]), (path, [])):
            server = self.keyed(self.folder(), key, words=["--anyone"])
            server.serving()
            server.end()
            self.that("--anyone %s a key" % ("with" if key else "without"), server.told.all(), told)

    def keyed_peers(self):
        """Peers that have the key are pulled from, and no others: one of an open store, one of another, an older one, a silent one, a liar."""
        path, other = self.key(), self.key("other")
        ports = [free_port() for _ in range(3)]
        first = self.keyed(self.folder(), path, 0, 3, port=ports[0], peers=[(1, ports[1]), (2, ports[2])])
        second = self.keyed(self.folder(), path, 1, 3, port=ports[1], peers=[(0, ports[0])])
        self.that("servers of one store serve", [first.serving() is not None, second.serving() is not None], [True, True])
        with bayou.Session([first.address(), second.address()], key=path) as session:
            session.write(PUT, server=0)
            session.write({"update": [["put", "b", 2]]}, server=1)
            self.that("and pull from each other", [soon(lambda: session.read("a", server=1)), soon(lambda: session.read("b", server=0))], [1, 2])
        for name, key, here, there in (("an open store", None, "is of another store, an open one", "wants a key"),
                                       ("another store", other, r"is of another store \(other\)", r"is of another store \(room\)")):
            third = self.keyed(self.folder(), key, 2, 3, port=ports[2], peers=[(0, ports[0])])
            third.serving()
            self.that("a peer of " + name, first.told.find(r"bayou: peer 2 at 127\.0\.0\.1:%d %s" % (ports[2], here)) is not None)
            self.that("tells so, too: " + name, third.told.find(r"bayou: peer 0 at 127\.0\.0\.1:%d %s" % (ports[0], there)) is not None)
            with bayou.Session([None, None, third.address()], key=key) as session:
                session.write({"update": [["put", "c", 3]]}, server=2)
                time.sleep(2.5)
                self.that("nothing is pulled from one by " + name, (session.read("c", server=2), session.seen[:3]), (3, (0, 0, 1)))
            self.that("a told end of " + name, third.end()[0], 0)
        with bayou.Session([first.address()], key=path) as session:
            self.that("nor from it", (session.read("c"), session.seen[:3]), (None, (1, 1, 0)))
        for server in (first, second):
            self.that("a told end of peers", server.end()[0], 0)
        self.no_peers(path)
        self.restored(path, other)

    def no_peers(self, path):
        """What answers as a peer and isn't one of the store."""
        key = bayou.Key(path)
        theirs = bytes(16)
        named = bytes([2, 1, 2, 4]) + b"room" + theirs
        for name, answer, told in (
            ("an older peer", b"", "is older: no greeting"),
            ("a peer of an open store", frames.frame(WELCOME, bytes([2, 1, 2, 0]) + theirs + NO_PROOF), "is of another store, an open one"),
            ("a peer that proves nothing", frames.frame(WELCOME, named + NO_PROOF), r"is of another store \(room\)"),
            ("a peer that proves another greeting", frames.frame(WELCOME, named + proved(key.secret, b"server", NONCE, theirs, bytes([1, 2]))), r"is of another store \(room\)"),
            ("a peer that answers wrongly", frames.frame(KNOWN, frames.vector_bytes(frames.ZERO) + bytes(4) + b"\0\xff"), "away"),
        ):
            fake = Answering(answer)
            server = self.keyed(self.folder(), path, 0, 2, peers=[(1, fake.port)])
            server.serving()
            self.that(name + " is told", server.told.find(r"bayou: peer 1 at 127\.0\.0\.1:%d %s" % (fake.port, told)) is not None)
            soon(lambda: len(fake.came) > 2)
            self.that(name + " is greeted and asked nothing", {came[0] for came in fake.came if came is not None}, {0x20})
            self.that(name + " is told once", len([line for line in server.told.all() if "peer 1" in line]), 1)
            self.that("a told end beside " + name, server.end()[0], 0)
            fake.end()

        with socket.create_server(("127.0.0.1", 0)) as silent:
            port = silent.getsockname()[1]
            server = self.keyed(self.folder(), path, 0, 2, peers=[(1, port)])
            server.serving()
            with silent.accept()[0] as connection:
                connection.settimeout(SECONDS)
                self.that("a silent peer is told", server.told.find(r"bayou: peer 1 at 127\.0\.0\.1:%d away" % port) is not None)
                self.that("and was greeted, and asked nothing", (reply(connection)[0], received(connection, 1)), (0x20, b""))
            self.that("a told end beside a silent peer", server.end()[0], 0)

    def restored(self, path, other):
        """A lost journal is made again from peers of its store alone, with its label."""
        ports, folders = [free_port(), free_port()], [self.folder(), self.folder()]
        servers = [self.keyed(folders[i], path, i, 2, port=ports[i], peers=[(1 - i, ports[1 - i])]) for i in (0, 1)]
        for server in servers:
            server.serving()
        with bayou.Session([server.address() for server in servers], key=path) as session:
            session.write(PUT, server=0)
            self.that("what is to be restored is pulled", soon(lambda: session.read("a", server=1)), 1)
        servers[0].end()
        shutil.rmtree(folders[0])
        os.mkdir(folders[0])
        for name, key in (("another key", other), ("no key", None)):
            server = self.keyed(folders[0], key, 0, 2, new=False, port=ports[0], peers=[(1, ports[1])], words=["--restore"])
            self.that("a restoring with " + name, (server.ended()[0], os.listdir(folders[0])), (3, []))
        server = self.keyed(folders[0], path, 0, 2, new=False, port=ports[0], peers=[(1, ports[1])], words=["--restore"])
        self.that("a restoring with the key", server.serving() is not None)
        self.that("has a label", os.path.exists(os.path.join(folders[0], "server-0.store")))
        with bayou.Session([server.address()], key=path) as session:
            self.that("and the Writes", session.read("a"), 1)
        for one in (server, servers[1]):
            self.that("a told end behind a restoring", one.end()[0], 0)
