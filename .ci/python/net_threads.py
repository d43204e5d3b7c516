"""Runs of which a thread can't be started, as .ci/meddle.c does."""
import net_runs
from net_meddled import Meddled
from net_runs import fresh, put, script

SERVERS = 3
SCRIPT = script(["servers", SERVERS, 100], ["session", 0, []], ["write", 0, 0, put("a", 1)], ["phase"], ["pull", 1, 0])
# Such a run counts as hanging after so many seconds.
SECONDS = 5


def threads(checks, program, room):
    """Each server has two threads, which start before anything else does: where one doesn't, the run ends, and so does each other thread."""
    meddled, told = Meddled(program, room), []
    checks.that("a run whose threads start", meddled.run(fresh(room, "whole"), SCRIPT)[0], 0)
    for number in range(1, 2 * SERVERS + 1):
        words = ["net", "--dir", fresh(room, "%d" % number)]
        told.append(net_runs.call(program, words, SCRIPT, variables=meddled.variables("start %d fail" % number), seconds=SECONDS))
    checks.that("runs of which a server's thread doesn't start", told, [(3, "", "bayou: memory\n")] * (2 * SERVERS))
