"""Other Writes under the same names, tried from outside: an old copy, two servers of one number, a liar; and no false alarm at usual work."""
import os
import random
import shutil
import sys
import time

import frames
from living import SECONDS, Server
from lying import DIFFERS, DIGESTED, DIGESTS, Held, Liar, Visitor
from meeting import HELLO, KNOWN, PROOF, count_of, dump_of, free_port, soon

sys.path.insert(0, os.path.join("..", "clients", "python"))
import bayou  # noqa: E402

OWN = r"bayou: server %s has other Writes of this server%s: this journal is an old copy, or there were two of it; docs/TROUBLE\.md"
OTHERS = r"bayou: server %d has other Writes of server %d%s"
LOST = "bayou: lost Writes of its own; no Write is taken until --restore"
# What tells that something differs, or isn't compared.
ALARMS = ("other Writes", "lost Writes", "lacks Writes", "digests", "conflict")
# How many seconds two visits take at the most, a second apart.
TWO_VISITS = 6


def put(number):
    return {"update": [["put", "k%03d" % number, number]]}


def at(server):
    """A session at this server alone, and the number of the server."""
    number = int(server.printed.all()[0].split()[1])
    return bayou.Session([None] * number + [server.address()]), number


def write_at(server, number):
    """What becomes of a Write there: its number, or how it is refused."""
    session, index = at(server)
    with session:
        try:
            return session.write(put(number), server=index).seq
        except bayou.Refused as refused:
            return type(refused)


def read_at(server, number):
    session, index = at(server)
    with session:
        return session.read("k%03d" % number, server=index)


class Differing:
    """Groups of tries, of a class that has `program`, `folder`, `that` and `fleet`."""

    def ends(self, name, *servers):
        self.that("a told end " + name, [server.end()[0] for server in servers], [0] * len(servers))

    def old_copies(self):
        """An old copy of a journal is put back while its peers are away, the counts are made equal, and the peers come later."""
        folder = self.folder()
        path = os.path.join(folder, "server-0.journal")
        servers, start = self.fleet(folder)
        self.that("three servers", all([server.serving() is not None for server in servers]))
        for number in range(5):
            write_at(servers[0], number)
        servers[0].end()
        shutil.copy(path, path + ".old")
        servers[0] = start(0, False)
        servers[0].serving()
        for number in range(5, 8):
            write_at(servers[0], number)
        self.that("the others have all", soon(lambda: all(count_of(server, 0) == 8 for server in servers[1:])), True)
        self.ends("before an old copy", *servers)
        os.replace(path + ".old", path)
        servers[0] = start(0, False)
        self.that("an old copy starts where no peer answers", servers[0].serving() is not None)
        self.that("and makes the counts equal", [write_at(servers[0], number) for number in (105, 106, 107)], [6, 7, 8])
        servers[1:] = [start(1, False), start(2, False)]
        self.that("the peers come", all([server.serving() is not None for server in servers[1:]]))
        self.old_copy_is_told(servers, path)
        self.restored_behind(servers, start, path)

    def old_copy_is_told(self, servers, path):
        for index in (1, 2):
            self.that("server %d is told" % index, servers[index].told.find(OTHERS % (0, 0, " from 0:6 on"), TWO_VISITS) is not None)
            self.that("the old copy is told of %d" % index, servers[0].told.find(OWN % (index, " from 0:6 on"), TWO_VISITS) is not None)
        self.that("what to do is told", servers[0].told.find(LOST, TWO_VISITS) is not None)
        self.that("no Write is taken any more", write_at(servers[0], 200), bayou.Down)
        self.that("it is marked", soon(lambda: os.path.getsize(path + ".mark") == 5), True)
        self.that("its Writes are there", [read_at(servers[0], number) for number in (0, 4, 105, 106, 107)], [0, 4, 105, 106, 107])
        self.that("and those of the others", [[read_at(server, number) for number in range(8)] for server in servers[1:]], [list(range(8))] * 2)
        self.that("the others take Writes", write_at(servers[1], 201), 1)
        self.that("and pull from each other", soon(lambda: read_at(servers[2], 201)), 201)
        self.that("nothing is pulled from the old copy, or by it", [(count_of(server, 0), count_of(server, 1)) for server in servers], [(8, 0), (8, 1), (8, 1)])
        self.that("the old copy is told again each minute", servers[0].told.find(OWN % (1, " from 0:6 on"), 2 * SECONDS + 15, 2) is not None)
        self.that("and the others", servers[1].told.find(OTHERS % (0, 0, " from 0:6 on"), 2 * SECONDS + 15, 2) is not None)
        self.that("and not more often", all(sum("other Writes" in line for line in server.told.all()) <= 8 for server in servers))

    def restored_behind(self, servers, start, path):
        """The old copy is made again from the others, and nothing is reported any more."""
        self.ends("of an old copy", servers[0])
        server = start(0, False)
        self.that("it isn't started again", (server.ended()[0], server.told.all()[-1:]),
                  (3, ["bayou: %s: it lost Writes of its own; move it away and start it with --restore" % path]))
        os.rename(path, path + ".away")
        server = start(0, False, ["--restore"])
        self.that("it is restored", (server.serving() is not None, server.told.find("bayou: restored 8 own writes") is not None), (True, True))
        self.that("and takes Writes", write_at(server, 300), 9)
        self.that("which the others pull", [soon(lambda: read_at(other, 300)) for other in servers[1:]], [300, 300])
        self.that("nothing more is told of it", [line for line in server.told.all() if "other Writes" in line], [])
        self.ends("behind a restoring", server, *servers[1:])

    def one_number(self):
        """Two servers run under one number, each with other Writes."""
        ports = [free_port() for _ in range(3)]
        folders = [self.folder() for _ in range(3)]
        first = Server(self.program, folders[0], 0, 2, ports[0], [(1, ports[1])], new=True)
        other = Server(self.program, folders[1], 1, 2, ports[1], [(0, ports[0])], new=True)
        self.that("two servers", [first.serving() is not None, other.serving() is not None], [True, True])
        self.that("the first writes", [write_at(first, number) for number in range(3)], [1, 2, 3])
        self.that("which the other pulls", soon(lambda: count_of(other, 0) == 3), True)
        self.ends("before a twin", other)
        twin = Server(self.program, folders[2], 0, 2, ports[2], [(1, ports[1])], new=True)
        self.that("a twin where no peer answers", twin.serving() is not None)
        self.that("a twin writes", [write_at(twin, number) for number in range(10, 13)], [1, 2, 3])
        other = Server(self.program, folders[1], 1, 2, ports[1], [(0, ports[0])])
        self.that("the other comes", other.serving() is not None)
        self.that("a twin is told", twin.told.find(OWN % (1, " from 0:1 on"), TWO_VISITS) is not None)
        self.that("and the other", other.told.find(OTHERS % (0, 0, ""), TWO_VISITS) is not None)
        self.that("a twin takes no Write any more", soon(lambda: write_at(twin, 200) == bayou.Down), True)
        self.that("its Writes are there", [read_at(twin, number) for number in range(10, 13)], [10, 11, 12])
        self.that("the first goes on", write_at(first, 3), 4)
        self.that("and is pulled from", soon(lambda: read_at(other, 3)), 3)
        self.that("the first is told nothing", [line for line in first.told.all() if "other Writes" in line], [])
        self.ends("of two of one number", twin, other, first)

    def liars(self):
        """A peer has another Write of a third server: told at both ends, whoever visits, and nothing is pulled from it; the others go on."""
        ports = [free_port() for _ in range(3)]
        server = Server(self.program, self.folder(), 0, 3, ports[0], [(1, ports[1]), (2, ports[2])], new=True)
        third = Server(self.program, self.folder(), 2, 3, ports[2], [(0, ports[0])], new=True)
        self.that("a server and a third one", [server.serving() is not None, third.serving() is not None], [True, True])
        for number in range(100):
            write_at(third, number)
        self.that("Writes of a third one are pulled", soon(lambda: count_of(server, 2) == 100), True)
        dump = dump_of(third)
        changed = dump[36].replace(b"k036", b"k999")
        lies = Held(dump[:36] + [changed] + dump[37:90])
        liar = Liar(ports[1], 1, 3, lies)
        self.that("a liar is told", server.told.find(OTHERS % (1, 2, " from 2:37 on"), SECONDS) is not None)
        self.that("also the liar", soon(lambda: (DIFFERS, b"\2") in liar.came), True)
        self.that("within two visits", liar.kinds()[:liar.kinds().index(DIFFERS)].count(HELLO) <= 2)
        self.that("it is asked of digests, by sixteen counts at once", [len(payload) <= 66 for kind, payload in liar.came if kind == DIGESTS][:2], [True] * 2)
        self.liar_visits(server, lies, Held(dump))
        time.sleep(1.5)
        self.that("nothing is pulled from a liar", set(liar.kinds()), {HELLO, PROOF, DIGESTS, DIFFERS})
        self.that("it is told once", len([line for line in server.told.all() if "other Writes" in line]), 1)
        self.that("both go on", [write_at(server, 200), write_at(third, 201)], [1, 101])
        self.that("and pull from each other", [soon(lambda: read_at(third, 200)), soon(lambda: read_at(server, 201))], [200, 201])
        liar.close()
        self.ends("beside a liar", server, third)

    def liar_visits(self, server, lies, truth):
        """The liar visits the server itself, which compares what it says."""
        with Visitor(server.port, 1, 3, lies) as visitor:
            self.that("a liar that visits is told", visitor.told, (DIFFERS, b"\2"))
            asked = b"".join(count.to_bytes(4, "big") for count in (0, 1, 36, 37, 100, 101))
            told = b"".join(truth.each[2][count] for count in (0, 1, 36, 37, 100))
            self.that("and learns digests", visitor.ask(DIGESTS, b"\2\6" + asked), (DIGESTED, b"\5" + told))
            self.that("but nothing else", visitor.ask(frames.OFFER, frames.vector_bytes(frames.ZERO)), None)
        with Visitor(server.port, 1, 3, truth) as visitor:
            kind, known = visitor.told
            self.that("who tells the truth is known", (kind, known[68:69], known[69 + 16:69 + 24]), (KNOWN, b"\1", truth.each[2][-1]))
            self.that("and may ask", visitor.ask(frames.OFFER, frames.vector_bytes(truth.vector))[0], frames.END)

    def alike(self):
        """Usual work: three servers write and pull, and are ended and killed now and then. No server reports that anything differs."""
        folder = self.folder()
        servers, start = self.fleet(folder)
        self.that("three servers at work", all([server.serving() is not None for server in servers]))
        drawn, told, visits = random.Random(5), [], 0
        end = time.monotonic() + 12
        while time.monotonic() < end:
            for _ in range(drawn.randrange(1, 30)):
                write_at(servers[drawn.randrange(3)], drawn.randrange(1000))
            visits += self.compared(servers, drawn)
            if drawn.randrange(8) == 0:
                index = drawn.randrange(3)
                servers[index].end() if drawn.randrange(2) else servers[index].kill()
                told += servers[index].told.all()
                servers[index] = start(index, False)
                self.that("up again", servers[index].serving() is not None)
        self.that("servers were compared", visits > 10)
        self.that("all servers come to hold the same", soon(lambda: len({tuple(sorted(dump_of(server))) for server in servers}) == 1), True)
        self.ends("of servers at work", *servers)
        for server in servers:
            told += server.told.all()
        self.that("nothing differs", [line for line in told if any(word in line for word in ALARMS)], [])

    def compared(self, servers, drawn):
        """One server's Writes and another's, by digests made here: whether that was seen to be the same."""
        one, other = drawn.sample(range(3), 2)
        holding = Held(dump_of(servers[one]))
        with Visitor(servers[other].port, one, 3, holding) as visitor:
            kind, known = visitor.told
        vector = [int.from_bytes(known[at:at + 4], "big") for at in range(0, 64, 4)]
        digests = [known[at:at + 8] for at in range(69, 69 + 8 * 16, 8)]
        same = [holding.each[origin][vector[origin]] == digests[origin] for origin in range(16) if vector[origin] <= holding.vector[origin]]
        self.that("servers hold the same", (kind, all(same)), (KNOWN, True))
        return kind == KNOWN and len(same) > 0
