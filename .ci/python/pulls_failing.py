"""Calls of the disk that fail within a pull: a front of the piece that was being stored is adopted, and the pull goes on."""
import os
import resource
import signal
import tempfile

from meeting import dump_of, soon
from pulls_made import Calls, content, entries, in_memory, name_of, path_in, puller, source, writes_of

WRITES = 600
# How long a sync takes in microseconds: so long that what is sent meanwhile waits to be read at once.
SLOW = 3000
APPENDS = ["append 3 fail", "append 5 fail"]
SYNCS = ["sync 5 fail", "sync 6 fail"]
# How many bytes the disk has room for at first.
ROOMS = [20000, 30001]


def limit(size):
    """What lets no file grow beyond this size, and has that be a failed call."""
    def set_limit():
        signal.signal(signal.SIGXFSZ, signal.SIG_IGN)
        resource.setrlimit(resource.RLIMIT_FSIZE, (size, resource.RLIM_INFINITY))
    return set_limit


class Failing:
    """The group of checks. Whoever has it has `program`, `meddle` and `that`."""

    def failing(self):
        writes = list(writes_of(WRITES))
        with in_memory() as folder:
            os.mkdir(os.path.join(folder, "source"))
            server = source(self.program, os.path.join(folder, "source"), writes)
            # (side by side, since each waits for some pulls)
            begun = [(meddle, *self.begun(folder, server.port, meddle)) for meddle in APPENDS + SYNCS]
            full = [(size, *self.begun(folder, server.port, "", before=limit(size))) for size in ROOMS]
            for meddle, one, own in begun:
                told = self.adopted(meddle, one)
                self.comes_to_all(meddle, one, own, writes)
                self.that("what is adopted behind '%s'" % meddle, told in self.adoptable(meddle, own))
            for size, one, own in full:
                self.fills(size, one, own, writes)
            server.end()

    def begun(self, folder, port, meddle, **more):
        """A server that pulls, a call of which fails, and its folder."""
        own = tempfile.mkdtemp(dir=folder)
        variables = {"LD_PRELOAD": self.meddle(), "CALLS": os.path.join(own, "calls"), "MEDDLE": meddle + " ", "SLOW": str(SLOW)}
        one = puller(self.program, own, port, variables=variables, **more)
        self.that("a server serves with '%s'" % meddle, one.serving() is not None)
        return one, own

    def adopted(self, name, one):
        """What the server adopts first."""
        line = one.told.find("bayou: reopened adopted .*")
        self.that("a pull is refused for the journal with '%s'" % name, line is not None)
        return (line or "").split(" ")[-1]

    def adoptable(self, meddle, own):
        """What may be adopted then: nothing, or the last Write of a piece of several."""
        if meddle in APPENDS:
            return ["none"]
        ends, calls = entries(content(path_in(own)))[1], Calls(os.path.join(own, "calls"), path_in(own), 0)
        return [name_of(ends.index(end)) for start, end in calls.pieces if start in ends and ends.index(end) > ends.index(start) + 1]

    def fills(self, size, one, own, writes):
        """The piece that found too little room is adopted as far as it stands there, and what is left is pulled once there is room."""
        told, name = self.adopted("%d bytes" % size, one), "a disk with room for %d bytes" % size
        bodies, ends = entries(content(path_in(own))[:size])
        self.that("%s is full but for less than an entry" % name, 0 <= size - ends[-1] < 200)
        self.that("what is adopted of %s" % name, told, name_of(len(bodies)))
        resource.prlimit(one.process.pid, resource.RLIMIT_FSIZE, (resource.RLIM_INFINITY, resource.RLIM_INFINITY))
        self.comes_to_all(name, one, own, writes)

    def comes_to_all(self, name, one, own, writes):
        self.that("all is pulled behind %s" % name, soon(lambda: len(dump_of(one)) == WRITES), True)
        self.that("as it is behind %s" % name, dump_of(one) == writes)
        self.that("a told end behind %s" % name, one.end()[0], 0)
        self.that("its journal behind %s has all" % name, entries(content(path_in(own)))[0] == [b"\0" + write for write in writes])
