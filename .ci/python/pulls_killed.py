"""Servers that are killed within pulls, some of them with a cut of power: what was reported is there, and a front of what was being pulled."""
import os
import random
import time

import frames
from living import SECONDS
from meeting import dump_of
from pulls_made import Calls, content, entries, in_memory, path_in, puller, source, vector_of, writes_of
from pulls_reading import Reader

# How many Writes are pulled, how long a sync takes in microseconds, and how many pieces are taken at the most between two kills.
WRITES = 6000
SLOW = 1000
PIECES = 12
PIECE_BYTES = 8200


class Kill:
    """One start of the server that pulls, which is killed."""

    def __init__(self, tries, folder, port, order):
        self.path, self.calls = path_in(folder), os.path.join(folder, "calls")
        self.before = content(self.path) if os.path.exists(self.path) else b""
        if os.path.exists(self.calls):
            os.remove(self.calls)
        self.server = puller(tries.program, folder, port, variables={"LD_PRELOAD": tries.meddle(), "CALLS": self.calls, "SLOW": str(SLOW)})
        self.serving = self.server.serving()
        self.reader = Reader(self.server.port, self.calls)
        self.wait(order)
        self.server.kill()
        self.reader.join(SECONDS)
        self.whole = content(self.path)

    def wait(self, order):
        """Until the journal has grown by some pieces, and somewhat longer."""
        size, end = len(self.before) + order.randint(1, PIECES) * PIECE_BYTES, time.monotonic() + 1
        while os.path.getsize(self.path) < size and time.monotonic() < end:
            time.sleep(0.0002)
        time.sleep(order.uniform(0, 1.5) * SLOW / 1e6)

    def holds(self):
        """What the server said that it holds as it started."""
        return None if self.serving is None else self.serving.split(" holds ")[1]

    def told_too_early(self):
        """What a reader heard of before its entries were synced: how many Writes, and how many were synced."""
        calls, (_, ends) = Calls(self.calls, self.path, len(self.before)), entries(self.whole)
        ends = [end - 1 for end in ends[1:]]
        wrong = []
        for count, at in self.reader.told:
            if count > 0 and (count > len(ends) or ends[count - 1] >= calls.synced(at)):
                wrong.append((count, at, calls.synced(at)))
        return wrong[:3]

    def cut_power(self, order):
        """Leaves of the journal what was synced, and of the rest a part, or zeros."""
        synced = max(Calls(self.calls, self.path, len(self.before)).synced(), frames.HEADER)
        left = self.whole[:order.randint(synced, len(self.whole))] if order.random() < 0.7 else self.whole[:synced] + bytes(len(self.whole) - synced)
        with open(self.path, "wb") as journal:
            journal.write(left)
        return len(self.whole) - synced


class Killed:
    """The group of checks. Whoever has it has `program`, `kills`, `meddle` and `that`."""

    def killed(self):
        """As often as is asked, within a pull; after a pull that is whole the next one begins anew."""
        writes, order = list(writes_of(WRITES)), random.Random("killed")
        expected = [b"\0" + write for write in writes]
        with in_memory() as folder:
            os.mkdir(os.path.join(folder, "source"))
            server = source(self.program, os.path.join(folder, "source"), writes)
            held, within, unsynced, told = 0, 0, 0, 0
            for number in range(3 * self.kills):
                kill = Kill(self, folder, server.port, order)
                self.killed_once("kill %d" % number, kill, held, expected)
                held, told = len(entries(kill.whole)[0]), told + len(kill.reader.told)
                if held == WRITES:
                    os.remove(kill.path)
                    held = 0
                    continue
                within += 1
                if order.random() < 0.6:
                    unsynced += kill.cut_power(order) > 0
                    held = self.left("what a cut of power left behind kill %d" % number, kill, held)
                if within == self.kills:
                    break
            self.that("so many kills within pulls", within, self.kills)
            self.that("some of them amid a sync that power was cut of: %d" % unsynced, unsynced >= self.kills // 8)
            self.that("reads were served in pulls: %d" % told, told > 3 * self.kills)
            self.goes_on_to_all(folder, server, held, writes, expected)

    def killed_once(self, name, kill, held, expected):
        """What was there as it began is there, and it held a front of what it pulled; nobody heard of what wasn't synced."""
        bodies, _ = entries(kill.whole)
        self.that("the server starts before %s with what was left" % name, kill.holds(), vector_of(held))
        self.that("the journal behind %s is a front of what was pulled" % name, (bodies == expected[:len(bodies)], len(bodies) >= held), (True, True))
        self.that("what was told before %s was synced" % name, kill.told_too_early(), [])

    def left(self, name, kill, held):
        """How many Writes are left after the cut: no fewer than any reader heard of."""
        left = len(entries(content(kill.path))[0])
        told = max([count for count, _ in kill.reader.told], default=0)
        self.that(name, left >= told and left <= held)
        return left

    def goes_on_to_all(self, folder, server, held, writes, expected):
        """A server that isn't killed goes on where the last one was, and comes to all."""
        one = puller(self.program, folder, server.port)
        self.that("a server behind all kills", (one.serving() or "").split(" holds ")[-1], vector_of(held))
        self.that("pulls what is left", one.told.find("bayou: peer 0 reached pulled %d had 0" % (WRITES - held)) is not None)
        self.that("and dumps all", dump_of(one) == writes)
        self.that("a told end behind kills", one.end()[0], 0)
        self.that("its journal has all", entries(content(path_in(folder)))[0] == expected)
        server.end()
