"""Two servers that wrote many Writes each while they were apart, and meet: what that takes of the one that pulls, and how long reads wait meanwhile.
Call: late.py PROGRAM WRITES [READERS]. Its line tells the figures."""
import collections
import multiprocessing
import os
import shutil
import sys
import tempfile
import time

import frames
from living import SECONDS, Server

sys.path.insert(0, os.path.join(os.path.dirname(os.path.abspath(__file__)), "..", "..", "clients", "python"))
import bayou  # noqa: E402

TICKS = os.sysconf("SC_CLK_TCK")
# How long they may take to meet.
MEETING_SECONDS = 300
# What a server took to meet another: seconds of a processor for itself and in the system, of the clock, the longest wait of a read there, and the reads.
Met = collections.namedtuple("Met", "user system clock longest reads")


def writes_of(index, number):
    """So many Writes of server 0 or 1, which holds none of the other's: each puts a key of its own."""
    for seq in range(1, number + 1):
        deps = frames.counts(seq - 1) if index == 0 else frames.counts(0, seq - 1)
        yield frames.write_bytes((index, seq, seq, deps, ([], [("put", "%d-%d" % (index, seq), ("lit", seq))], [])))


def folder_with(folder, index, number):
    """A new folder below this one, with the journal of so many Writes of this server."""
    made = os.path.join(str(folder), "%d-%d" % (index, number))
    os.mkdir(made)
    with open(os.path.join(made, "server-%d.journal" % index), "wb") as journal:
        journal.write(frames.journal_of(index, list(writes_of(index, number))))
    return made


def spent(process):
    """How many seconds of processors the process has had, for itself and in the system."""
    with open("/proc/%d/stat" % process.pid) as told:
        user, system = told.read().rsplit(")", 1)[1].split()[11:13]
    return int(user) / TICKS, int(system) / TICKS


def read_on(address, begun, stop, waits):
    """Reads one key again and again, and puts the longest that a read took, and how many there were."""
    longest, reads = 0.0, 0
    with bayou.Session([address], timeout=SECONDS) as session:
        session.read("1-1")
        begun.wait()
        while not stop.is_set():
            before = time.monotonic()
            session.read("1-1")
            longest, reads = max(longest, time.monotonic() - before), reads + 1
    waits.put((longest, reads))


class Readers:
    """So many clients that read at the server, each a process, so that none waits for another here."""

    def __init__(self, address, number):
        self.begun, self.stop, self.waits = multiprocessing.Event(), multiprocessing.Event(), multiprocessing.Queue()
        arguments = (address, self.begun, self.stop, self.waits)
        self.all = [multiprocessing.Process(target=read_on, args=arguments, daemon=True) for _ in range(number)]
        for one in self.all:
            one.start()

    def end(self):
        """The longest wait of all, and how many reads there were."""
        self.stop.set()
        told = [self.waits.get(timeout=SECONDS) for _ in self.all]
        for one in self.all:
            one.join(SECONDS)
        return max([longest for longest, _ in told], default=0.0), sum(reads for _, reads in told)


def held_of_first(session):
    session.read("1-1")
    return session.seen[0]


def meet(program, folder, number, port, own=None, readers=0):
    """What server 1, which has so many Writes of its own, takes to hold so many of server 0, which are late if it has any: as many as those, where it
    isn't said."""
    folders = [folder_with(folder, index, count) for index, count in enumerate((number, number if own is None else own))]
    words = ["--limit", "65536"]
    later = Server(program, folders[1], 1, servers=2, words=words, peers=[(0, port)])
    assert later.serving() is not None, "the server that pulls doesn't serve"
    reading = Readers(later.address(), readers)
    reading.begun.set()
    start, begun = spent(later.process), time.monotonic()
    first = Server(program, folders[0], 0, servers=2, port=port, words=words)
    with bayou.Session([later.address()], timeout=SECONDS) as session:
        while held_of_first(session) < number:
            assert time.monotonic() < begun + MEETING_SECONDS, "they don't meet"
            time.sleep(0.25)
    clock, used = time.monotonic() - begun, [after - before for before, after in zip(start, spent(later.process))]
    met = Met(*used, clock, *reading.end())
    for server in (later, first):
        server.end()
    return met


def main():
    from meeting import free_port
    program, number, readers = sys.argv[1], int(sys.argv[2]), int(sys.argv[3]) if len(sys.argv) > 3 else 0
    room = tempfile.mkdtemp()
    try:
        met = meet(program, room, number, free_port(), readers=readers)
        print("%d Writes apart: %.2f s of a processor and %.2f in the system, %.2f s by the clock; %d clients read %d times, at the longest %.1f ms"
              % (number, met.user, met.system, met.clock, readers, met.reads, met.longest * 1000))
    finally:
        shutil.rmtree(room, ignore_errors=True)


if __name__ == "__main__":
    main()
