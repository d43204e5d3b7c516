"""Persons at pages whose servers are apart, or away."""
import threading
import time

from living import slowness
from web_store import Store, Web, path, values

ROOM = "mon/9/blue"


def away(checks, program, folder):
    with Store(program, folder) as store, Web(program, store, path(folder, "kim.state")) as web:
        web.do("claim %s kim" % ROOM)
        web.looks(lambda state: values(state).get(ROOM) == ("kim", "final"))
        for index in range(3):
            store.stop(index)
        state = web.looks(lambda state: not state["current"])
        checks.that("away: what was seen is shown, as of before", (values(state), state["current"], [one["up"] for one in state["servers"]]),
                    ({ROOM: ("kim", "final")}, False, [False] * 3))
        checks.that("away: what each held is told", [sum(one["at"]) for one in state["servers"]], [1, 1, 1])
        begun = time.monotonic()
        told = web.do("claim mon/9/red kim")
        checks.that("away: a line says so", (told["status"], told["lines"]), (1, ["0 refused away"]))
        waits = []
        for _ in range(20):
            begun = time.monotonic()
            web.state()
            waits.append(time.monotonic() - begun)
            time.sleep(0.05)
        checks.that("away: what is seen is told at once, but took %.3f s" % max(waits), max(waits) < 0.25 * slowness(), True)
        slow = threading.Thread(target=web.do, args=("wait 3",))
        slow.start()
        time.sleep(0.3)
        begun = time.monotonic()
        web.state()
        checks.that("away: also while a line waits", time.monotonic() - begun < 0.5 * slowness(), True)
        slow.join()
        for index in range(3):
            store.go_on(index)
        state = web.looks(lambda state: state["current"] and all(one["up"] for one in state["servers"]))
        checks.that("away: they are up again", (state["current"], [one["up"] for one in state["servers"]]), (True, [True] * 3))
        checks.that("away: and do lines", web.do("claim mon/9/red kim")["status"], 0)


def two(checks, program, folder):
    with Store(program, folder) as store, Web(program, store, path(folder, "kim.state"), "kim", (0, 1, 2)) as kim, \
            Web(program, store, path(folder, "lee.state"), "lee", (1, 0, 2)) as lee:
        checks.that("two: they begin together", kim.do("put begun 1")["status"], 0)
        for one in (kim, lee):
            one.looks(lambda state: values(state).get("begun") == ("1", "final"))
        store.part(1)
        time.sleep(1.5)
        told = [one.do("claim %s mon/10/blue %s" % (ROOM, name)) for one, name in ((kim, "kim"), (lee, "lee"))]
        checks.that("two: both have the room", [one["lines"][1].split()[-1] for one in told], ["update", "update"])
        states = [one.looks(lambda state: ROOM in values(state)) for one in (kim, lee)]
        checks.that("two: each sees an own claim, tentative", [values(state).get(ROOM) for state in states], [("kim", "tentative"), ("lee", "tentative")])
        checks.that("two: each has a Write that isn't final", [[own["line"].split()[-1] for own in state["own"]] for state in states], [["kim"], ["lee"]])
        for line, wanted in (("put max 1", ["put max 1"]), ("put max 2", [None, "put max 2"])):
            with Web(program, store, path(folder, "max.state"), "max") as web:
                web.do(line)
                state = web.looks(lambda state: len(state["own"]) == len(wanted))
                checks.that("two: a line is of the Write that it made", [own["line"] for own in state["own"]], wanted)
        store.part(0)
        states = [one.looks(lambda state: not state["own"] and all(row["standing"] == "final" for row in state["rows"])) for one in (kim, lee)]
        checks.that("two: once they met all is final, and both see the same", (values(states[0]), [state["own"] for state in states]),
                    (values(states[1]), [[], []]))
        found = values(states[0])
        checks.that("two: each has a room", sorted(found[key][0] for key in (ROOM, "mon/10/blue")), ["kim", "lee"])
        winner = found[ROOM][0]
        news = [[notice["text"].split()[1] for notice in state["notices"] if "claim" in (notice["line"] or "")] for state in states]
        checks.that("two: each is told that it is final", [one[-1:] for one in news], [["final"], ["final"]])
        loser = states[1 if winner == "kim" else 0]
        checks.that("two: who fell back is told by which choice", loser["notices"][-1]["text"].split()[3:], ["merge", "1"])
        both = Web(program, store, path(folder, "max.state"), "max")
        tabs = [threading.Thread(target=both.do, args=("add tally 1",)) for _ in range(3)]
        for tab in tabs:
            tab.start()
        for tab in tabs:
            tab.join()
        state = both.looks(lambda state: values(state).get("tally", ("",))[0] == "3")
        checks.that("two: lines of several tabs are done one by one, each once", values(state).get("tally", ("",))[0], "3")
        both.end()


GROUPS = {"away": away, "two": two}
