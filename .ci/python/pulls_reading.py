"""Clients that read while a server pulls: what they hear, and for how many syncs they wait."""
import os
import socket
import struct
import threading

import frames
from living import SECONDS
from pulls_made import Calls, in_memory, path_in, puller, source, writes_of

# How many Writes are pulled while so many clients read, and how long a sync takes in microseconds.
WRITES = 4096
READERS = 8
SLOW = 10000
# For how many syncs a read may wait. One of a hundred may be longer on its way, where the machine is busy.
MOST_SYNCS, FEW = 1, 100


class Reader(threading.Thread):
    """A client that reads again and again, and keeps how many Writes it heard of, and how long the file of the calls was just after that."""

    def __init__(self, port, calls):
        super().__init__(daemon=True)
        self.port, self.calls, self.told = port, calls, []
        self.start()

    def run(self):
        request = frames.read_request(frames.ZERO, "k000")
        try:
            with socket.create_connection(("127.0.0.1", self.port), SECONDS) as link:
                while True:
                    link.sendall(request)
                    self.note(link.recv(4096))
        except OSError:
            pass

    def note(self, reply):
        if not reply:
            raise ConnectionResetError
        size = os.path.getsize(self.calls)
        # (a Seen ends with the vector of what is held)
        self.told.append((sum(struct.unpack(">%dI" % frames.SERVERS, reply[-4 * frames.SERVERS:])), size))

    def syncs(self, calls):
        """How many syncs of the journal ended within each read but the first."""
        ends = [size for _, size in self.told]
        return [calls.syncs_within(before, behind) for before, behind in zip(ends, ends[1:])]


class Reading:
    """The group of checks. Whoever has it has `program`, `meddle` and `that`."""

    def readers(self):
        """No read waits for more than a sync, however many read (but one of a hundred, where the machine is busy)."""
        with in_memory() as folder:
            os.mkdir(os.path.join(folder, "source"))
            server = source(self.program, os.path.join(folder, "source"), list(writes_of(WRITES)))
            calls = os.path.join(folder, "calls")
            one = puller(self.program, folder, server.port, variables={"LD_PRELOAD": self.meddle(), "CALLS": calls, "SLOW": str(SLOW)})
            self.that("a server that pulls serves", one.serving() is not None)
            readers = [Reader(one.port, calls) for _ in range(READERS)]
            self.that("it pulls all", one.told.find("bayou: peer 0 reached pulled %d had 0" % WRITES) is not None)
            one.kill()
            for reader in readers:
                reader.join(SECONDS)
            server.end()
            waits = sorted(wait for reader in readers for wait in reader.syncs(Calls(calls, path_in(folder), 0)))
        most = waits[len(waits) - 1 - len(waits) // FEW]
        print("pulls: %d reads beside a pull; the longest waited for %d syncs, each but one of a hundred for at most %d" % (len(waits), waits[-1], most))
        self.that("reads were served beside the pull: %d" % len(waits), len(waits) > FEW)
        self.that("no read waits for more than %d syncs, but one of a hundred: %d" % (MOST_SYNCS, most), most <= MOST_SYNCS)
