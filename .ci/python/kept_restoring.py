"""From whom a server is restored, where its peers don't have the same of it, and that it takes all that each of them has before it serves."""
import contextlib
import os
import random
import shutil
import socket
import subprocess
import sys
import tempfile
import time

import frames
from checks import Checks
from living import Server
from meeting import Fake, count_of, ended, free_port, items, soon

sys.path.insert(0, os.path.join("..", "clients", "python"))
import bayou  # noqa: E402

NOT_RESTORED = "bayou: %s: not restored: %s"
NOT_WHOLE = "server %d didn't answer whole: mend it, or put --without %d in the place of its --peer"
AWAY = "server %d is away: bring it up, or put --without %d in the place of its --peer"
MAY_CHANGE = "bayou: restored without server %d: what was told as final may change"
LEFT_OUT = ", restored without server %d: what was final may have changed"
NO_SOCKET = "bayou: no socket can be listened at there"
DIFFER = "servers %d and %d have different Writes %d of this server"


def puts(number):
    return ([], [("put", "a", ("lit", number))], [])


def own(*numbers):
    """Writes of server 0, one after another, which put these numbers."""
    return [(0, place, place, frames.counts(place - 1), puts(number)) for place, number in enumerate(numbers, 1)]


def of_two(number):
    """A Write of server 2."""
    return [(2, 1, 1, frames.ZERO, puts(number))]


def of(origin, count):
    """So many Writes of this server, one after another."""
    return [(origin, place, place, tuple((place - 1) * (index == origin) for index in range(frames.SERVERS)), puts(place)) for place in range(1, count + 1)]


class Turns(Fake):
    """A peer that answers each of what it is asked by another one of these lists of Writes, and is away then."""

    def __init__(self, answers):
        self.answers = answers
        super().__init__(b"", len(answers))

    def answer_one(self, stream):
        writes = self.answers[-self.asks]
        self.answer = items(writes) + ended(len(writes))
        super().answer_one(stream)
        if self.asks == 0:
            self.listener.close()


# What peers have, in their order, and which two of them differ, and where; or how many own Writes are restored.
SAME = [
    ("the same", [own(1, 2), own(1, 2)], 2),
    ("nothing of it", [of_two(1), of_two(1)], 0),
    ("less, the second", [own(1, 2, 3), own(1)], 3),
    ("less, the first", [own(1), own(1, 2, 3)], 3),
    ("nothing of it, the first", [of_two(1), own(1, 2)], 2),
    ("more, the third", [own(1), own(1, 2), own(1, 2, 3)], 3),
]
OTHERS = [
    ("another first Write", [own(1, 2), own(9, 2)], (1, 2, 1)),
    ("another last Write", [own(1, 2), own(1, 9)], (1, 2, 2)),
    ("another last Write and more", [own(1, 2), own(1, 9, 3)], (1, 2, 2)),
    ("less, and its last one is another", [own(1, 2, 3, 4), own(1, 2, 9)], (1, 2, 3)),
    ("two other Writes", [own(1, 2, 3, 4), own(1, 8, 9, 4)], (1, 2, 2)),
    ("another Write than one that isn't the best", [own(1, 2), own(1, 2, 3), own(1, 9)], (2, 3, 2)),
    ("another Write beside one with nothing", [own(1, 2), of_two(1), own(9)], (1, 3, 1)),
]


# What two peers have, the first and the second time, and why nothing is restored.
TWO = [
    ("other Writes of another server", [[own(1, 2) + of_two(5)] * 2, [own(1, 2) + of_two(6)] * 2], "server 2 has another Write under a name that one before it has"),
    ("more own Writes than before", [[own(1), own(1, 2)], [own(1)] * 2], "server 1 has Writes of this server that weren't there before"),
    ("no second answer", [[own(1)] * 2, [own(1)]], AWAY % (2, 2)),
]


# All of them, each a method.
GROUPS = ["differing", "twice", "words", "others", "away", "without", "told", "killed"]


class Tries:
    def __init__(self, program, room):
        self.program, self.room, self.checks = program, room, Checks()

    def folder(self):
        folder = tempfile.mkdtemp(dir=self.room)
        return folder, os.path.join(folder, "server-0.journal")

    def that(self, name, told, expected=True):
        self.checks.that(name, told, expected)

    def restored_of(self, folder, answers, must_serve=True, is_turned=False):
        """What comes of a server that is to be restored of peers that answer so each time, the first of them server 1: as `restored_in_turn`."""
        return self.restored_in_turn(folder, [[answer, answer] for answer in answers], must_serve, is_turned)

    def restored_in_turn(self, folder, turns, must_serve=True, is_turned=False, port=0):
        """What comes of a server that is to be restored of peers that answer so in turn, the first of them server 1: what it prints, its status, what it
        tells."""
        with contextlib.ExitStack() as stack:
            fakes = [stack.enter_context(Turns(answers)) for answers in turns]
            peers = [(index, fake.port) for index, fake in enumerate(fakes, 1)]
            server = Server(self.program, folder, 0, servers=len(turns) + 1, port=port, peers=peers[::-1] if is_turned else peers, words=["--restore"])
            if must_serve:
                server.serving()
                server.process.stdin.close()
            status, printed = server.ended()
            return printed, status, server.told.all()

    # Groups.

    def differing(self):
        """Peers that are made for it."""
        for name, answers, count in SAME:
            folder, _ = self.folder()
            printed, status, told = self.restored_of(folder, answers)
            self.that("peers of which one has " + name, (len(printed), status), (3, 0))
            self.that("it is restored where one has " + name, "bayou: restored %d own writes" % count in told)
            self.that("its journal alone is there where one has " + name, os.listdir(folder), ["server-0.journal"])
        for name, answers, where in OTHERS:
            self.differ(name, answers, where)
        self.turned()

    def differ(self, name, answers, where, **more):
        folder, path = self.folder()
        came = self.restored_of(folder, answers, False, **more)
        self.that("peers of which one has " + name, came, ([], 3, [NOT_RESTORED % (path, DIFFER % where)]))
        self.that("nothing is left where one has " + name, os.listdir(folder), [])

    def turned(self):
        """They are named in the order in which they are asked."""
        self.differ("another Write, asked first", [own(1, 2), own(1, 9)], (2, 1, 2), is_turned=True)

    def twice(self):
        """Servers that live: server 0 gives a name twice, after an old copy of its journal, and two peers have either Write of it."""
        folder, path = self.folder()
        ports = [free_port() for _ in range(3)]
        peers = lambda index: [(other, ports[other]) for other in range(3) if other != index]  # noqa: E731
        start = lambda index, new=False, words=(): Server(self.program, folder, index, 3, ports[index], peers(index), new, words=words)  # noqa: E731
        for index in range(3):
            start(index, True).end()
        self.goes_on(start, 1, 0)
        self.goes_on(start, 2, 0)
        shutil.copy(path, path + ".old")
        self.goes_on(start, 1, 1)
        os.replace(path + ".old", path)
        self.goes_on(start, 2, 2)
        os.remove(path)
        both = [start(index) for index in (1, 2)]
        for server in both:
            server.serving()
        server = start(0, False, ["--restore"])
        told = NOT_RESTORED % (path, DIFFER % (1, 2, 3))
        self.that("a name that was given twice", (server.ended(), server.told.all()), ((3, []), [told]))
        # Each of the two that run has an empty mark beside its journal.
        others = ["server-%d.journal%s" % (index, end) for index in (1, 2) for end in ("", ".mark")]
        self.that("nothing is left of what wasn't restored", sorted(os.listdir(folder)), others)
        self.that("the others go on", [count_of(one, 0) for one in both], [3, 3])
        server = Server(self.program, folder, 0, 3, peers=[(2, ports[2])], words=["--restore", "--without", "1"])
        self.that("restored of one of them alone", (server.serving() is not None, server.told.find("bayou: restored 3 own writes") is not None), (True, True))
        for one in both + [server]:
            self.that("a told end", one.end()[0], 0)

    def goes_on(self, start, peer, number):
        """Server 0 makes one Write more, which this peer alone pulls."""
        server, other = start(0), start(peer)
        self.that("it goes on beside server %d alone" % peer, server.serving() is not None and other.serving() is not None)
        with bayou.Session([server.address()], number=number) as session:
            place = session.write({"update": [["put", "a", number]]}).seq
        self.that("server %d has its Write" % peer, soon(lambda: count_of(other, 0) == place), True)
        for one in (server, other):
            one.end()

    # All that each of them has.

    def words(self):
        folder, _ = self.folder()
        restored, peer = ["--restore"], "127.0.0.1:9"
        for name, peers, words, line in [
            ("a peer that isn't named", [(1, 9)], restored, "bayou: --restore takes from each server: give --peer or --without for server 2"),
            ("no peer", [], restored, "bayou: --restore takes from each server: give --peer or --without for server 1"),
            ("without one, and another that isn't named", [], restored + ["--without", "1"],
             "bayou: --restore takes from each server: give --peer or --without for server 2"),
            ("without itself", [(1, 9), (2, 9)], restored + ["--without", "0"], "bayou: --without takes I, another server's number that no --peer has"),
            ("without one beyond the servers", [(1, 9), (2, 9)], restored + ["--without", "3"], "bayou: --without takes I, another server's number that no --peer has"),
            ("without a peer", [(1, 9), (2, 9)], restored + ["--without", "2"], "bayou: --without takes I, another server's number that no --peer has"),
            ("without no number", [(1, 9)], restored + ["--without", "x"], "bayou: --without takes I, another server's number that no --peer has"),
            ("without an address", [(1, 9)], restored + ["--without", "2=" + peer], "bayou: --without takes I, another server's number that no --peer has"),
            ("without one, with a new journal", [(1, 9)], ["--new", "--without", "2"], "bayou: --without goes with --restore alone"),
            ("without one, with its journal", [(1, 9)], ["--without", "2"], "bayou: --without goes with --restore alone"),
        ]:
            server = Server(self.program, folder, 0, peers=peers, words=words)
            self.that("words: " + name, (server.ended(), server.told.all()), ((2, []), [line]))
        self.that("nothing is left of wrong words", os.listdir(folder), [])

    def held_by_file(self, folder, servers):
        """What a server holds by its journal alone, as it tells."""
        server = Server(self.program, folder, 0, servers=servers)
        line = server.serving()
        server.end()
        return line and line.split(" holds ")[1]

    def others(self):
        """The journal has all that each peer has once it is there, before anybody can be served."""
        for name, answers, held in [
            ("each has Writes of its own", [own(1, 2) + of(1, 3), own(1, 2) + of(2, 4)], "2,3,4"),
            ("none has Writes of the server", [of(1, 3), of(1, 1) + of(2, 2)], "0,3,2"),
            ("one has all and more", [of(1, 2), own(1, 2) + of(1, 5) + of(2, 1)], "2,5,1"),
            ("nobody has anything", [[], []], "0,0,0"),
        ]:
            folder, path = self.folder()
            with socket.socket() as taken:
                taken.bind(("127.0.0.1", 0))
                taken.listen()
                came = self.restored_in_turn(folder, [[answer] * 2 for answer in answers], False, port=taken.getsockname()[1])
            self.that("it is restored, and has no socket, where " + name, came, ([], 3, ["bayou: restored %s own writes" % held[0], NO_SOCKET]))
            self.that("its journal has all where " + name, (os.listdir(folder), self.held_by_file(folder, 3)), (["server-0.journal"], held))

    def away(self):
        """Where one is away nothing is restored, and nothing is left."""
        for missing in (1, 2, 3):
            folder, path = self.folder()
            with contextlib.ExitStack() as stack:
                ports = {index: stack.enter_context(Turns([own(1)] * 2)).port if index != missing else free_port() for index in (1, 2, 3)}
                server = Server(self.program, folder, 0, 4, peers=list(ports.items()), words=["--restore"])
                told = ["bayou: peer %d at 127.0.0.1:%d away" % (missing, ports[missing]), NOT_RESTORED % (path, AWAY % (missing, missing))]
                self.that("server %d is away" % missing, (server.ended(), server.told.all()), ((3, []), told))
            self.that("nothing is left where server %d is away" % missing, os.listdir(folder), [])
        for name, turns, why in TWO:
            folder, path = self.folder()
            printed, status, told = self.restored_in_turn(folder, turns, False)
            self.that("two peers with " + name, (printed, status, told[-1:]), ([], 3, [NOT_RESTORED % (path, why)]))
            self.that("nothing is left where two have " + name, os.listdir(folder), [])

    def without(self):
        """It goes on without a server that is left out, and tells so loudly."""
        for left_out, held in (((2,), "2,3,0,0"), ((2, 3), "2,3,0,0"), ((1, 2), "1,0,0,1")):
            folder, _ = self.folder()
            answers = {1: own(1, 2) + of(1, 3), 2: of(2, 4), 3: own(1) + (of(3, 1) if 1 in left_out else [])}
            words = ["--restore"] + [word for index in left_out for word in ("--without", str(index))]
            with contextlib.ExitStack() as stack:
                peers = [(index, stack.enter_context(Turns([answers[index]] * 2)).port) for index in (1, 2, 3) if index not in left_out]
                server = Server(self.program, folder, 0, 4, peers=peers, words=words)
                line = server.serving()
                self.that("restored without %s" % (left_out,), line and line.split(" holds ")[1], held)
                server.process.stdin.close()
                status, _ = server.ended()
            loud = [line for line in server.told.all() if "without" in line]
            self.that("and told so once, without %s" % (left_out,), (status, loud), (0, [MAY_CHANGE % index for index in left_out]))
        self.marked()
        folder, path = self.folder()
        server = Server(self.program, folder, 0, 3, words=["--restore", "--without", "1", "--without", "2"])
        self.that("without all others", (server.ended(), server.told.all()), ((3, []), [NOT_RESTORED % (path, "no peer was reached")]))

    def marked(self):
        """Who asks servers what they hold learns of the one that was restored without another, over restarts, until its journal is another one."""
        folder, path = self.folder()
        mark = path + ".without"

        def told(words, peers=()):
            server = Server(self.program, folder, 0, 3, peers=list(peers), words=words)
            if server.serving() is None:
                return server.ended()[0], server.told.all()
            call = [self.program, "connect", "--servers", "3", "--server", "0=" + server.address()]
            printed = subprocess.run(call, input="servers\n", capture_output=True, text=True, timeout=30).stdout
            server.end()
            return printed

        held = "server 0 at %s holds %d of 65536%s\n"
        with Turns([own(1, 2)] * 2) as fake:
            self.that("as it is restored", told(["--restore", "--without", "2"], [(1, fake.port)]), held % ("2,0,0", 2, LEFT_OUT % 2))
        self.that("after a restart", told([]), held % ("2,0,0", 2, LEFT_OUT % 2))
        for name, bytes_there in (("empty", b""), ("of no server", b"\x10"), ("longer", b"\2\2")):
            with open(mark, "wb") as file:
                file.write(bytes_there)
            fault = "bayou: %s: its .without can't be read, or names no server" % path
            self.that("a start with a mark that is " + name, told([]), (3, [fault]))
        os.remove(path)
        with Turns([own(1)] * 2) as one, Turns([[]] * 2) as other:
            self.that("restored with all others", told(["--restore"], [(1, one.port), (2, other.port)]), held % ("1,0,0", 1, ""))
        self.that("its mark is gone", os.path.exists(mark), False)
        os.remove(path)
        with open(mark, "wb") as file:
            file.write(b"\1")
        self.that("a new journal has no mark", told(["--new"]), held % ("0,0,0", 0, ""))
        os.remove(path)
        os.mkdir(mark)
        with Turns([own(1)] * 2) as fake:
            why = NOT_RESTORED % (path, "its .without can't be written, or another process has it")
            status, lines = told(["--restore", "--without", "2"], [(1, fake.port)])
            self.that("where it can't be kept nothing is restored", (status, lines[-1:]), (3, [why]))
        self.that("and nothing is left", os.listdir(folder), [os.path.basename(mark)])

    def told(self):
        """A server has told what it pulled, and none of its own Writes counts that: once it is restored it holds no less than it told, so that nothing comes
        before what was final."""
        folder, path = self.folder()
        ports = [free_port() for _ in range(3)]
        start = lambda index, new=False, words=(): Server(  # noqa: E731
            self.program, folder, index, 3, ports[index], [(other, ports[other]) for other in range(3) if other != index], new, words=words)
        servers = [start(index, True) for index in range(3)]
        addresses = [server.serving() and server.address() for server in servers]
        with bayou.Session(addresses) as session:
            first = session.write({"update": [["put", "a", 1]]}, server=1)
            seen = [soon(lambda: session.read("a", server=index) == 1 and session.seen) for index in range(3)]
            self.that("each server tells that it has the Write", [view[:3] for view in seen if view], [(0, 1, 0)] * 3)
        servers[0].kill()
        os.remove(path)
        server = start(0, words=["--restore"])
        line = server.serving()
        self.that("it holds what it told once it serves", line and line.split(" holds ")[1], "0,1,0")
        with bayou.Session([server.address()], number=1) as session:
            later = session.write({"update": [["put", "a", 2]]})
        self.that("its next Write comes behind what was final", (first.clock, later.clock), (1, 2))
        for one in [server] + servers[1:]:
            self.that("a told end", one.end()[0], 0)

    def killed(self):
        """A restoring that is killed at any moment leaves no journal, or one that has all."""
        folder, path = self.folder()
        writes = own(*range(1, 301)) + of(1, 500)
        took, whole, none = None, 0, 0
        for trial in range(30):
            for name in os.listdir(folder):
                os.remove(os.path.join(folder, name))
            with Turns([writes] * 2) as fake:
                begun = time.monotonic()
                server = Server(self.program, folder, 0, 2, peers=[(1, fake.port)], words=["--restore"])
                if took is None:
                    server.serving()
                    took = time.monotonic() - begun
                else:
                    time.sleep(random.uniform(0, took))
                server.kill()
            if os.path.exists(path):
                whole += 1
                self.that("a restoring that was killed left all, %d" % trial, self.held_by_file(folder, 2), "300,500")
            else:
                none += 1
        self.that("killed before and behind", whole > 0 and none > 0)
