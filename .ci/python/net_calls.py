"""Which calls a run makes of its sockets, and all sessions at once."""
import random

import net_script
import net_told
from net_meddled import Meddled
from net_runs import fresh, put, run, script

# An Item of the Writes here has so many bytes, an Offer and an End so many, and so many Items are sent at once.
ITEM, OFFER, END, AT_ONCE = 92, 67, 7, 16


def connections(checks, program, room):
    """A session connects to each server, and so does who asks at a phase's end; each pull connects once."""
    meddled = Meddled(program, room)
    pulls = [["pull", 1, 0], ["pull", 0, 1]] * 2
    text = script(["servers", 2], ["session", 0, []], ["session", 1, []], ["write", 0, 0, put("a", 1)], ["phase"], *pulls)
    told = "0 wrote 0:1 clock 1 deps 0,0\npulled 1 had 0\n" + "pulled 0 had 0\n" * 3
    told += "totals reads 0 writes 1 refusals 0 slips 0\nsettled 0 accepted 1 adopted 0\nsettled 1 accepted 0 adopted 0\nclean\n"
    checks.that("pulls of a script", meddled.run(fresh(room, "pulls"), text), (0, told, ""))
    # (and a connection tells each listener to stop)
    checks.that("how often a run of them connects", meddled.number("connect"), 2 * 2 + 2 + len(pulls) + 2)


def batches(checks, program, room):
    """What is sent of thirty-three Writes, and that a second pull brings nothing."""
    meddled, number = Meddled(program, room), 2 * AT_ONCE + 1
    writes = [["write", 0, 0, put("a", 1)] for _ in range(number)]
    text = script(["servers", 2], ["session", 0, []], *writes, ["phase"], ["pull", 1, 0], ["phase"], ["pull", 1, 0])
    status, output, _ = meddled.run(fresh(room, "batches"), text)
    checks.that("a second pull brings nothing", (status, output.split("\n")[number:number + 2]), (0, ["pulled %d had 0" % number, "pulled 0 had 0"]))
    first = next(at for at, call in enumerate(meddled.calls) if call[0] == "tell")
    sent = [int(call[1]) for call in meddled.calls[first:] if call[0] == "send"]
    checks.that("what two pulls send", sent, [OFFER, AT_ONCE * ITEM, AT_ONCE * ITEM, ITEM, END, OFFER, END])


def all_sessions(checks, program, room):
    """As many sessions as there may be, at once; each operation of each has its line."""
    order = random.Random(32)
    made = net_script.Script([net_script.GUARANTEES[:i % 5] for i in range(net_script.MOST_SESSIONS)])
    for rest in ([], [], [("log", s) for s in range(net_script.SERVERS)] + [("judge",)]):
        operations = [[net_script.operation(order, i) for _ in range(4)] for i in range(net_script.MOST_SESSIONS)]
        made.phases.append((operations, [order.sample(range(net_script.SERVERS), 2) for _ in range(12)], rest))
    status, output, errors = run(program, fresh(room, "all"), made.text(order))
    checks.that("thirty-two sessions at once", (status, errors, net_told.wrong_in(made, output)), (0, "", None))
