"""Pulls of many Writes, tried from outside. Call: pulls.py PROGRAM [KILLS [GROUP..]]."""
import signal
import sys
import tempfile
import time

from checks import Checks
from net_meddled import library
from pulls_failing import Failing
from pulls_killed import Killed
from pulls_made import in_memory, puller, source, vector_of, writes_of
from pulls_reading import Reading
from pulls_torn import Torn

# The groups that are tried where none is named.
GROUPS = ["pace", "killed", "torn", "failing"]
# How many Writes a server pulls whose pace is measured, a part of a store or a whole one, and how often.
PART, STORE = 16384, 65536
ROUNDS = 3
# How many entries of such Writes one piece has room for, and how many syncs there may be for each that they need: a read may bring fewer.
PIECE, SYNCS = 8226 // 127, 1.5
# In how many seconds a store is pulled with syncs of 10 ms.
STORE_SECONDS = 14


class Tries(Killed, Torn, Failing, Reading):
    def __init__(self, program, kills, room):
        self.program, self.kills, self.room, self.checks = program, kills, room, Checks()
        self.library = None

    def that(self, name, told, expected=True):
        self.checks.that(name, told, expected)

    def meddle(self):
        """What is preloaded so that calls are written down, and syncs take their time."""
        if self.library is None:
            self.library = library(self.room, "meddle")
        return self.library

    def pace(self, number=PART):
        """Slow syncs cost a pull little, since one is for many Writes."""
        writes, best = list(writes_of(number)), {0: [], 1: [], 10: []}
        with in_memory() as folder:
            server = source(self.program, folder, writes)
            for _ in range(ROUNDS):
                for milliseconds, times in best.items():
                    times.append(self.pulled_in(folder, server.port, number, milliseconds))
            server.end()
        none, one, ten = (min(times) for times in best.values())
        print("pulls: %d Writes in %.2f s, with syncs of 1 ms in %.2f s, of 10 ms in %.2f s" % (number, none, one, ten))
        most = none + SYNCS * number / PIECE / 1000
        self.that("%d Writes with syncs of 1 ms in %.2f s, at the most %.2f" % (number, one, most), one <= most)
        most = STORE_SECONDS * number / STORE
        self.that("in %.2f s with syncs of 10 ms, at the most %.2f" % (ten, most), ten <= most)

    def store(self):
        """The same of a whole store."""
        self.pace(STORE)

    def pulled_in(self, folder, port, number, milliseconds):
        """How long a new server takes to pull all, each of its syncs taking so long."""
        with tempfile.TemporaryDirectory(dir=folder) as own:
            begun = time.monotonic()
            one = puller(self.program, own, port, variables={"LD_PRELOAD": self.meddle(), "SLOW": str(1000 * milliseconds)})
            is_pulled = one.told.find("bayou: peer 0 reached pulled %d had 0" % number, 240) is not None
            took = time.monotonic() - begun
            status, printed = one.end()
        self.that("a pull with syncs of %d ms" % milliseconds, (is_pulled, status, printed[-1:]), (True, 0, ["log 1 at " + vector_of(number)]))
        return took


def main():
    program = sys.argv[1]
    kills = int(sys.argv[2]) if len(sys.argv) > 2 else 120
    signal.signal(signal.SIGPIPE, signal.SIG_IGN)
    with tempfile.TemporaryDirectory() as room:
        tries = Tries(program, kills, room)
        for group in sys.argv[3:] or GROUPS:
            begun = time.monotonic()
            try:
                getattr(tries, group)()
            except Exception as fault:  # a check that can't go on has failed
                tries.that("%s goes on" % group, repr(fault), "")
            print("%s: %.1f s" % (group, time.monotonic() - begun))
    print("%d passed, %d failed" % (tries.checks.passed, tries.checks.failed))
    return 1 if tries.checks.failed else 0


if __name__ == "__main__":
    sys.exit(main())
