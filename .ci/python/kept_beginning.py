"""How a server begins: what it makes, what it leaves as it is, and what it takes away again."""
import concurrent.futures
import os
import resource
import signal
import socket
import subprocess
import sys
import tempfile

import frames
from checks import Checks
from living import SECONDS, Server
from meeting import Fake, ended, free_port, items, soon

sys.path.insert(0, os.path.join("..", "clients", "python"))
import bayou  # noqa: E402

PUT = {"update": [["put", "a", 1]]}
MISSING = "bayou: %s: there is no journal; --new makes one, and --restore makes a lost one again"
PRESENT = "bayou: %s: there is a journal; without --new and --restore it is gone on from"
IN_USE = "bayou: %s: it can't be opened, or another process has it"
NO_SOCKET = "bayou: no socket can be listened at there"


# All of them, each a method.
GROUPS = ["empty", "failed", "twice", "over_sockets"]


class Tries:
    def __init__(self, program, room):
        self.program, self.room, self.checks = program, room, Checks()

    def folder(self):
        folder = tempfile.mkdtemp(dir=self.room)
        return folder, os.path.join(folder, "server-0.journal")

    def that(self, name, told, expected=True):
        self.checks.that(name, told, expected)

    def refused(self, name, folder, line, **more):
        """A server that ends at once so, and tells this in one line, and serves nobody."""
        server = Server(self.program, folder, 0, servers=1, **more)
        ended, printed = server.ended()
        self.that(name, (ended, printed, server.told.all()), (3, [], [line]))

    def serves(self, name, folder, holds, **more):
        """A server that serves, holding so many Writes."""
        server = Server(self.program, folder, 0, servers=1, **more)
        self.that(name, server.serving(), "serving 0 at 127.0.0.1:%s holds %d" % (server.port, holds))
        return server

    def writes(self, server):
        with bayou.Session([server.address()]) as session:
            return session.write(PUT).seq

    # An empty file is no journal.

    def empty(self):
        folder, path = self.folder()
        open(path, "wb").close()
        self.refused("an empty file without --new", folder, MISSING % path)
        self.that("it stays as it is", (os.listdir(folder), os.path.getsize(path)), (["server-0.journal"], 0))
        server = self.serves("--new over an empty file", folder, 0, new=True)
        self.that("it takes Writes", self.writes(server), 1)
        self.that("a told end", server.end()[0], 0)
        self.refused("--new over that", folder, PRESENT % path, new=True)
        server = self.serves("it is gone on from", folder, 1)
        server.end()
        self.one_byte()
        self.restored_over_empty()

    def one_byte(self):
        """A file with a byte is there: it may be a part of a journal."""
        folder, path = self.folder()
        with open(path, "wb") as file:
            file.write(b"B")
        self.refused("--new over a byte", folder, PRESENT % path, new=True)
        self.that("the byte stays", open(path, "rb").read(), b"B")

    def restored_over_empty(self):
        folder, path = self.folder()
        open(path, "wb").close()
        program = ([], [("put", "a", ("lit", 1))], [])
        writes = [(0, 1, 1, frames.ZERO, program)]
        with Fake(items(writes) + ended(1), asks=2) as fake:
            server = Server(self.program, folder, 0, servers=2, peers=[(1, fake.port)], words=["--restore"])
            self.that("--restore over an empty file", server.serving(), "serving 0 at 127.0.0.1:%s holds 1,0" % server.port)
            server.end()
        self.that("its journal alone is there", os.listdir(folder), ["server-0.journal"])

    # A start that fails leaves no new journal.

    def failed(self):
        self.busy_port()
        self.restored()
        self.lost_own()
        self.no_memory()
        self.full_disk()
        self.no_output()

    def busy_port(self):
        with socket.socket() as taken:
            taken.bind(("127.0.0.1", 0))
            taken.listen()
            port = taken.getsockname()[1]
            folder, path = self.folder()
            self.refused("--new at a busy port", folder, NO_SOCKET, new=True, port=port)
            self.that("it leaves no journal", os.listdir(folder), [])
            open(path, "wb").close()
            self.refused("--new at a busy port over an empty file", folder, NO_SOCKET, new=True, port=port)
            self.that("it leaves no journal there", os.path.exists(path) and os.path.getsize(path) > 0, False)
            server = self.serves("--new behind that", folder, 0, new=True)
            self.writes(server)
            server.end()
            whole = open(path, "rb").read()
            self.refused("a journal that is gone on from at a busy port", folder, NO_SOCKET, port=port)
            self.that("that stays as it is", open(path, "rb").read() == whole)
            self.refused("--new in its place at a busy port", folder, PRESENT % path, new=True, port=port)
            self.that("it stays as it is behind that too", open(path, "rb").read() == whole)
            empty, path = self.folder()
            self.serves("a journal without a Write", empty, 0, new=True).end()
            self.refused("one without a Write that is gone on from at a busy port", empty, NO_SOCKET, port=port)
            self.that("a journal without a Write stays", os.path.getsize(path), frames.HEADER)

    def restored(self):
        """A journal that was made again stays where its server finds no socket: it is whole, and is gone on from."""
        folder, path = self.folder()
        program = ([], [("put", "a", ("lit", 1))], [])
        with socket.socket() as taken, Fake(items([(0, 1, 1, frames.ZERO, program)]) + ended(1), asks=2) as fake:
            taken.bind(("127.0.0.1", 0))
            taken.listen()
            server = Server(self.program, folder, 0, servers=2, port=taken.getsockname()[1], peers=[(1, fake.port)], words=["--restore"])
            self.that("--restore at a busy port", (server.ended(), server.told.all()), ((3, []), ["bayou: restored 1 own writes", NO_SOCKET]))
        server = Server(self.program, folder, 0, servers=2)
        self.that("what was restored is gone on from", server.serving(), "serving 0 at 127.0.0.1:%s holds 1,0" % server.port)
        server.end()

    def lost_own(self):
        """A peer has Writes of the server: a new journal in the place of the one that is lost is taken away again, and what is known stays."""
        folder, path = self.folder()
        program = ([], [("put", "a", ("lit", 1))], [])
        with Fake(items([(0, 1, 1, frames.ZERO, program)]) + ended(1)) as fake:
            server = Server(self.program, folder, 0, servers=2, peers=[(1, fake.port)], new=True)
            told = "bayou: %s: it lacks Writes of its own server that server 1 has" % path
            self.that("--new in the place of a lost one", (server.ended(), server.told.all()[-1:]), ((3, []), [told]))
        self.that("its mark alone is left", os.listdir(folder), ["server-0.journal.mark"])

    def no_memory(self):
        """Each allocation of the first thread is refused in turn: a start serves and has its journal, or it leaves none."""
        refuse = os.path.join(self.room, "refuse.so")
        made = subprocess.run(["cc", "-O1", "-shared", "-fPIC", "-o", refuse, "refuse.c", "-ldl"])
        self.that("what refuses memory is made", made.returncode, 0)
        asked = self.start_without(refuse, 0)[2]
        self.that("memory is asked for", asked > 50)
        with concurrent.futures.ThreadPoolExecutor(8) as pool:
            ends = list(pool.map(lambda number: self.start_without(refuse, number), range(1, asked + 1)))
        for number, (printed, told, _, left) in enumerate(ends, 1):
            serves = printed.startswith(b"serving 0 at ")
            self.that("a start without its allocation %d" % number, (left, serves or told == b"bayou: memory\n"), (["server-0.journal"] if serves else [], True))
        self.that("some starts failed", any(told == b"bayou: memory\n" and not printed for printed, told, _, _ in ends))

    def start_without(self, refuse, number):
        """What a start prints and tells whose allocation of this number is refused, how many it asked for, and what is left in its folder."""
        folder, _ = self.folder()
        asked = os.path.join(self.room, "asked-%d" % number)
        words = [self.program, "serve", "--id", "0", "--servers", "1", "--dir", folder, "--listen", "127.0.0.1:0", "--new", "--until-input-ends"]
        env = {"LD_PRELOAD": refuse, "ASKED": asked, "THREADS": "first", "REFUSED": str(number)}
        done = subprocess.run(words, stdin=subprocess.DEVNULL, capture_output=True, env=env, timeout=SECONDS)
        with open(asked) as file:
            return done.stdout, done.stderr, int(file.read() or 0), os.listdir(folder)

    def full_disk(self):
        """No byte can be written: the header isn't there."""
        for size in (0, 1, 9):
            folder, _ = self.folder()
            limit = lambda: (signal.signal(signal.SIGXFSZ, signal.SIG_IGN), resource.setrlimit(resource.RLIMIT_FSIZE, (size, size)))  # noqa: E731
            server = Server(self.program, folder, 0, servers=1, new=True, before=limit)
            self.that("a disk that is full behind %d bytes" % size, server.ended()[0], 3)
            self.that("nothing is left there behind %d bytes" % size, os.listdir(folder), [])

    def no_output(self):
        """Its line can't be printed."""
        folder, _ = self.folder()
        full = lambda: os.dup2(os.open("/dev/full", os.O_WRONLY), 1)  # noqa: E731
        server = Server(self.program, folder, 0, servers=1, new=True, before=full)
        self.that("an output that is full", server.ended()[0], 3)
        self.that("nothing is left there", os.listdir(folder), [])

    # Two at once.

    def twice(self):
        folder, path = self.folder()
        first = self.serves("a new server", folder, 0, new=True)
        self.refused("a second --new while it runs", folder, PRESENT % path, new=True)
        self.refused("a second one without", folder, IN_USE % path)
        self.that("its journal is there", os.path.getsize(path), frames.HEADER)
        self.that("it takes Writes", self.writes(first), 1)
        self.that("a told end", first.end()[0], 0)
        self.serves("it is gone on from", folder, 1).end()
        self.at_once()

    def at_once(self):
        """Of many that begin at once at one journal and one port one serves, and its Writes are kept."""
        for number in range(10):
            folder, path = self.folder()
            port = free_port()
            servers = [Server(self.program, folder, 0, servers=1, new=True, port=port) for _ in range(6)]
            served = soon(lambda: self.write_at(port))
            self.that("a Write at one of six", served, 1)
            for server in servers:
                server.process.stdin.close()
            statuses = sorted(server.ended()[0] for server in servers)
            self.that("one of six serves", statuses, [0, 3, 3, 3, 3, 3])
            self.that("the journal of six is there", os.path.exists(path) and os.path.getsize(path) > frames.HEADER)
            self.serves("it is gone on from behind six", folder, 1).end()

    def over_sockets(self):
        """A script over sockets whose second server doesn't start leaves no journal of the first that wasn't there, and each that was as it was."""
        script = os.path.join(self.room, "two.script")
        with open(script, "w", encoding="ascii") as file:
            file.write('["servers",2]\n["session",0,["ryw"]]\n["write",0,0,{"update":[["put","a",1]]}]\n')
        for name, first in (("no journal", None), ("an empty file", b""), ("a journal", frames.journal_of(0, [frames.write_bytes((0, 1, 1, frames.ZERO, ([], [("put", "a", ("lit", 1))], [])))]))):
            folder, path = self.folder()
            other = os.path.join(folder, "server-1.journal")
            for at, content in ((path, first), (other, b"none of it")):
                if content is not None:
                    with open(at, "wb") as file:
                        file.write(content)
            done = subprocess.run([self.program, "net", "--dir", folder, script], stdout=subprocess.PIPE, stderr=subprocess.PIPE, timeout=SECONDS)
            self.that("a second server that doesn't start beside %s" % name, (done.returncode, done.stdout, done.stderr),
                      (3, b"", b"bayou: device\n  %s: it is no journal\n" % other.encode()))
            left = None
            if os.path.exists(path):
                with open(path, "rb") as file:
                    left = file.read()
            if name == "an empty file":
                # It was begun, and holds no Write.
                left = left[:0]
            self.that("what is left of the first then, where there was %s" % name, left, first)

    def write_at(self, port):
        with bayou.Session(["127.0.0.1:%d" % port]) as session:
            return session.write(PUT).seq
