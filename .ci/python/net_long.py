"""One long phase, and what it takes."""
import os
import time

from net_runs import Running, fresh, put, script

WRITES = 20000
# How long the run may take before it counts as hanging: a disk may need some milliseconds for each Write.
SECONDS = 300


def long_phase(checks, program, room):
    path = os.path.join(room, "long.jsonl")
    with open(path, "w", encoding="ascii") as it:
        it.write(script(["servers", 1, 65536], ["session", 0, ["ryw", "mr", "wfr", "mw"]]))
        it.write(script(["write", 0, 0, put("a", 1)]) * WRITES)
    begin = time.monotonic()
    status, output = Running(program, fresh(room, "long"), path).rest(SECONDS)
    seconds = time.monotonic() - begin
    print("net: %d Writes by one session: %.2f s, %d a second" % (WRITES, seconds, WRITES / seconds))
    checks.that("a long phase", (status, output.split("\n")[WRITES - 1:]),
                (0, ["0 wrote 0:%d clock %d deps %d" % (WRITES, WRITES, WRITES - 1), "totals reads 0 writes %d refusals 0 slips 0" % WRITES,
                     "settled 0 accepted %d adopted 0" % WRITES, "clean", ""]))
