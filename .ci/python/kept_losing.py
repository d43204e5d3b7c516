"""A server that lost Writes of its own takes no more, tried from outside."""
import os
import resource
import signal
import subprocess
import sys
import tempfile

import frames
from checks import Checks
from living import SECONDS, Server
from meeting import Fake, count_of, ended, free_port, items, soon

sys.path.insert(0, os.path.join("..", "clients", "python"))
import bayou  # noqa: E402

LOST = r"bayou: lost Writes of its own; no Write is taken until --restore"
UNMARKED = r"bayou: the \.mark of that can't be written: a restart may not know it"
REFUSED = "bayou: %s: it lost Writes of its own; move it away and start it with --restore"
OWN_LOST = r"bayou: .*: it lacks Writes of its own server that server [12] has"


def put(number):
    return {"update": [["put", "k%03d" % number, number]]}


def write_at(address, number):
    with bayou.Session([address]) as session:
        return session.write(put(number))


def read_at(address, number):
    with bayou.Session([address]) as session:
        return session.read("k%03d" % number)


def refusal_at(address, number):
    """What a Write is refused as there; None where it is accepted."""
    try:
        write_at(address, number)
    except bayou.Refused as refused:
        return type(refused)
    return None


def size(path):
    return os.path.getsize(path) if os.path.exists(path) else None


# All of them, each a method.
GROUPS = ["started", "unmarked", "full", "conflicts", "lost"]


class Tries:
    def __init__(self, program, room):
        self.program, self.room, self.checks = program, room, Checks()

    def that(self, name, told, expected=True):
        self.checks.that(name, told, expected)

    def beginning(self, count=3):
        """A folder, its servers' starts, and the paths of the journal and of the mark of server 0."""
        folder = tempfile.mkdtemp(dir=self.room)
        ports = [free_port() for _ in range(count)]

        def start(index, words=(), until=True, **more):
            peers = [(other, ports[other]) for other in range(count) if other != index]
            return Server(self.program, folder, index, count, ports[index], peers, words=words, until=until, **more)
        path = os.path.join(folder, "server-0.journal")
        return folder, start, path, path + ".mark"

    def put_back(self, start, path, count=3):
        """Server 0 writes 5, its journal is copied, it writes 3 more, which the others take, and gets the old copy back. All are ended."""
        servers = [start(index, new=True) for index in range(count)]
        self.that("servers begin", [server.told.all() for server in servers if server.serving() is None], [])
        for number in range(5):
            write_at(servers[0].address(), number)
        servers[0].end()
        with open(path, "rb") as file:
            old = file.read()
        servers[0] = start(0)
        servers[0].serving()
        for number in range(5, 8):
            write_at(servers[0].address(), number)
        self.that("the others have all", soon(lambda: all(count_of(server, 0) == 8 for server in servers[1:])), True)
        for server in servers:
            server.end()
        with open(path, "wb") as file:
            file.write(old)

    def refused(self, name, server, line):
        ended = server.ended()
        self.that(name, (ended, server.told.all()[-1:]), ((3, []), [line]))

    # An old copy of a journal is put back, and the peers come later.

    def lost(self):
        folder, start, path, mark = self.beginning()
        self.put_back(start, path)
        self.that("a told end leaves no mark", [name for name in os.listdir(folder) if "mark" in name], [])
        server = start(0, until=False)
        self.that("it starts where no peer answers", server.serving() is not None)
        at = server.address()
        self.that("a name that is taken is given anew", write_at(at, 100).seq, 6)
        self.that("there is no mark yet", size(mark), 0)
        peers = [start(1), start(2)]
        self.that("peers begin", all([peer.serving() is not None for peer in peers]))
        self.that("it is told", server.told.find(LOST) is not None)
        self.that("a Write is refused as down", refusal_at(at, 101), bayou.Down)
        self.that("and the next one", refusal_at(at, 102), bayou.Down)
        self.that("it is marked", (size(mark) or 0) > 0)
        self.connected(server)
        self.that("reads go on", [read_at(at, number) for number in (4, 100)], [4, 100])
        self.that("a dump too", len(bayou.Link(at).dump()), 6)
        self.that("nobody reopens it", self.reopened(at), bayou.JournalLost)
        with bayou.Session([None, peers[0].address()]) as session:
            self.that("the others take Writes", session.write(put(200), server=1).seq, 1)
        self.that("it is told each minute", server.told.find(LOST, 2 * SECONDS + 20, 2) is not None)
        self.that("and not more often", sum(line == LOST for line in server.told.all()), 2)
        self.that("the mark is made once", size(mark), 5)
        server.kill()
        for peer in peers:
            peer.end()
        self.stays(folder, start, path, mark)

    def connected(self, server):
        words = [self.program, "connect", "--server", "0=" + server.address()]
        done = subprocess.run(words, input=b"put k 1\nget k004\n", stdout=subprocess.PIPE, stderr=subprocess.PIPE, timeout=SECONDS)
        lines = done.stdout.decode().split("\n")
        self.that("connect tells the refusal, and reads", ("down" in lines[0], "4" in lines[1]), (True, True))

    def reopened(self, at):
        try:
            bayou.Link(at).reopen()
        except bayou.Refused as refused:
            return type(refused)
        return None

    def stays(self, folder, start, path, mark):
        """A restart knows it where no peer answers, until the journal was made again."""
        self.refused("a restart without peers is refused", start(0), REFUSED % path)
        self.refused("a new one in its place too", start(0, new=True), REFUSED % path)
        self.that("its mark stays", size(mark), 5)
        self.refused("a restoring in its place", start(0, ["--restore"]), "bayou: %s: there is a journal; without --new and --restore it is gone on from" % path)
        os.rename(path, path + ".away")
        self.refused("a new one behind it", start(0, new=True), REFUSED % path)
        self.that("of which no journal is made", os.path.exists(path), False)
        self.refused("a restoring without peers", start(0, ["--restore"]), "bayou: %s: not restored: server 1 is away: bring it up, or put --without 1 in the place of its --peer" % path)
        self.that("its mark stays over that", size(mark), 5)
        peers = [start(1), start(2)]
        self.that("peers begin", all([peer.serving() is not None for peer in peers]))
        server = start(0, ["--restore"])
        self.that("it is restored", (server.serving() is not None, server.told.find("bayou: restored 8 own writes") is not None), (True, True))
        self.that("the mark is away", size(mark), 0)
        self.that("its Writes are back", [read_at(server.address(), number) for number in range(8)], list(range(8)))
        self.that("what was written in between isn't", read_at(server.address(), 100), None)
        self.that("it takes Writes", write_at(server.address(), 9).seq, 9)
        self.that("nothing is told of a loss", server.told.find(LOST, 0), None)
        for one in peers + [server]:
            self.that("a told end", one.end()[0], 0)
        self.that("nothing but journals is left", sorted(name for name in os.listdir(folder) if not name.endswith(".away")), ["server-%d.journal" % index for index in range(3)])
        server = start(0)
        self.that("it goes on without peers", server.serving() is not None)
        server.end()

    # The start finds it.

    def started(self):
        folder, start, path, mark = self.beginning()
        self.put_back(start, path)
        peers = [start(1), start(2)]
        self.that("peers begin", all([peer.serving() is not None for peer in peers]))
        server = start(0)
        self.that("the start finds it", (server.ended(), server.told.find(OWN_LOST) is not None), ((3, []), True))
        self.that("and marks it", size(mark), 5)
        for peer in peers:
            peer.end()
        self.refused("so it isn't started without peers", start(0), REFUSED % path)
        os.remove(mark)
        server = start(0)
        self.that("who takes the mark away answers for it", server.serving() is not None)
        server.end()

    # What leaves no mark.

    def unmarked(self):
        folder, start, path, mark = self.beginning()
        server = start(0, new=True)
        self.that("a server begins", server.serving() is not None)
        self.refused("another one beside it", start(0), "bayou: %s: it can't be opened, or another process has it" % path)
        self.that("leaves its mark alone", size(mark), 0)
        server.kill()
        server = start(0)
        self.that("what a killed one left is none", server.serving() is not None)
        busy = Server(self.program, tempfile.mkdtemp(dir=self.room), 0, port=server.port, new=True)
        self.that("one without a port", busy.ended()[0], 3)
        server.end()
        self.that("a told end leaves a journal alone", os.listdir(folder), ["server-0.journal"])
        empty = tempfile.mkdtemp(dir=self.room)
        none = Server(self.program, empty, 0)
        self.that("a start that is refused", none.ended()[0], 3)
        self.that("leaves nothing", os.listdir(empty), [])
        os.mkdir(os.path.join(empty, "server-0.journal.mark"))
        self.refused("a mark that is no file", Server(self.program, empty, 0, new=True), REFUSED % os.path.join(empty, "server-0.journal"))

    # A mark that can't be written.

    def full(self):
        _, start, path, mark = self.beginning(2)
        self.put_back(start, path, 2)
        limit = lambda: (signal.signal(signal.SIGXFSZ, signal.SIG_IGN), resource.setrlimit(resource.RLIMIT_FSIZE, (0, resource.RLIM_INFINITY)))  # noqa: E731
        server = start(0, before=limit)
        self.that("it starts with no room left", server.serving() is not None)
        peer = start(1)
        self.that("a loss is told", server.told.find(LOST) is not None)
        self.that("and that it can't be marked", server.told.find(UNMARKED) is not None)
        self.that("no Write is taken all the same", refusal_at(server.address(), 101), bayou.Down)
        self.that("there is no mark", size(mark), 0)
        resource.prlimit(server.process.pid, resource.RLIMIT_FSIZE, (resource.RLIM_INFINITY, resource.RLIM_INFINITY))
        self.that("it is tried again", soon(lambda: size(mark) == 5), True)
        self.that("a told end", server.end()[0], 0)
        self.that("leaves the mark", size(mark), 5)
        peer.end()

    # Another Write under a name of its own, and under another's.

    def conflicts(self):
        program = ([], [("put", "a", ("lit", 1))], [])
        for name, origin, is_lost in (("its own", 0, True), ("another's", 1, False)):
            folder = tempfile.mkdtemp(dir=self.room)
            with Fake(ended(0), asks=1000000) as fake:
                server = Server(self.program, folder, 0, 2, peers=[(1, fake.port)], new=True)
                self.that("a server begins beside a peer with no Write", server.serving() is not None)
                at = server.address()
                first, other = ((origin, 1, 1, frames.ZERO, ([], [("put", "a", ("lit", number))], [])) for number in (1, 2))
                if origin == 0:
                    write_at(at, 0)
                else:
                    fake.answer = items([first]) + ended(1)
                    self.that("it takes another's Write", soon(lambda: count_of(server, 1) == 1), True)
                fake.answer = items([other]) + ended(1)
                self.that("a conflict at %s name is told" % name, server.told.find("bayou: peer 1 pull fault conflict") is not None)
                self.that("as a loss: " + name, server.told.find(LOST, SECONDS if is_lost else 3) is not None, is_lost)
                self.that("a Write then: " + name, refusal_at(at, 1), bayou.Down if is_lost else None)
                server.end()
                self.that("the mark then: " + name, size(os.path.join(folder, "server-0.journal.mark")), 5 if is_lost else None)
