"""Runs of which one allocation is refused, another one in each, as .ci/refuse.c does."""
import os
import re

import net_runs
from net_meddled import library
from net_runs import fresh, put, script

SCRIPT = script(["servers", 2, 100], ["session", 0, ["ryw"]], ["write", 0, 0, put("a", 1)], ["phase"], ["read", 0, 0, "a"],
                ["write", 0, 0, put("a", 2)], ["again", 0], ["totals"], ["judge"], ["totals"], ["survey"], ["reopen", 0], ["totals"], ["reopen", 1])
TOTALS = r"totals reads \d writes \d refusals \d slips 0"
# What stands in each line of a run, where the server, or the session itself, may lack memory after the first.
LINES = [r"0 wrote 0:1 clock 1 deps 0,0", r"0 (read a num 1 at 1,0|refused memory|lost)", r"0 (wrote 0:2 clock 2 deps 1,0|refused memory|lost)",
         r"0 (again none|wrote 0:2 clock 2 deps 1,0)", TOTALS, "clean", TOTALS, "survey 0 ryw ok mr ok wfr ok mw ok",
         "reopen refused (notdown|memory)", TOTALS, "reopen refused (notdown|memory)", TOTALS, "settled 0 accepted 2 adopted 0",
         "settled 1 accepted 0 adopted 0", "clean"]
# Pulls, of which the second takes what the first one lacked memory for, and a read of what came.
PULLS = script(["servers", 2, 100], ["session", 0, []], ["write", 0, 0, put("a", 1)], ["phase"], ["write", 0, 0, put("b", 2)], ["phase"],
               ["pull", 1, 0], ["phase"], ["pull", 1, 0], ["phase"], ["read", 0, 1, "b"])
PULLED = r"(pulled [012] had [012]|pull (fault|refused) (memory|cut|lost))"
PULL_LINES = [LINES[0], r"0 (wrote 0:2 clock 2 deps 1,0|refused memory|lost)", PULLED, PULLED, r"0 (read b num 2 at 2,0|read b none at [12],0|refused memory|lost)",
              r"totals reads [01] writes [12] refusals [01] slips 0", r"settled 0 accepted [12] adopted 0", "settled 1 accepted 0 adopted 0", "clean"]
# Three servers that only start.
STARTS = script(["servers", 3, 100], ["phase"])
START_LINES = [r"totals reads 0 writes 0 refusals 0 slips 0", *["settled %d accepted 0 adopted 0" % server for server in range(3)], "clean"]
# Such a run counts as hanging after so many seconds. A session's connections must be closed, and those to a server that can't listen, whatever
# lacks memory: else a server, or the session, waits for ever.
SECONDS = 5
REOPENS = [at for at, line in enumerate(LINES) if line.startswith("reopen")]
# Before which lines the servers copy what they hold: a verdict's, a survey's, and, for the last verdict, those of the end.
COPIES = [LINES.index("clean"), next(at for at, line in enumerate(LINES) if line.startswith("survey")), REOPENS[-1] + 1]


class Wanting:
    """Runs whose threads of this kind are refused an allocation."""

    def __init__(self, program, room, threads, text=SCRIPT):
        self.program, self.room, self.threads, self.text = program, fresh(room, threads), threads, text
        self.library, self.asked = library(room, "refuse"), os.path.join(room, "asked")

    def run(self, number):
        """What becomes of the run with this one refused: its status, lines and errors. With 0 none is."""
        variables = {"LD_PRELOAD": self.library, "ASKED": self.asked, "THREADS": self.threads, "REFUSED": str(number)}
        words = ["net", "--dir", fresh(self.room, "%05d" % number)]
        status, output, errors = net_runs.call(self.program, words, self.text, variables=variables, seconds=SECONDS)
        return status, output.split("\n")[:-1], errors

    def all(self):
        """The whole run, and what becomes of each that is refused one."""
        whole = self.run(0)
        with open(self.asked, encoding="ascii") as it:
            number = int(it.read())
        return whole, [self.run(one) for one in range(1, number + 1)]


def is_front(lines, all_wanted=LINES):
    return len(lines) <= len(all_wanted) and all(re.fullmatch(wanted, line) for wanted, line in zip(all_wanted, lines))


def wrong_in(told, faults, all_wanted=LINES):
    """The first of these runs that ends otherwise than it must; none where each does. It ends whole, or by one of these faults after a front."""
    for number, (status, lines, errors) in enumerate(told, 1):
        is_whole = (status, len(lines), errors) == (0, len(all_wanted), "")
        if status == "hangs":
            continue
        if not is_front(lines, all_wanted) or not (is_whole or status == 3 and errors in faults):
            return number, status, lines, errors
    return None


def lengths(told, fault):
    """How many lines stand before this fault, in each run that it ends."""
    return sorted({len(lines) for _, lines, errors in told if errors == fault})


MEMORY, NETWORK = "bayou: memory\n", "bayou: network\n"


def memory(checks, program, room):
    """Want of memory ends a run as such, after all that was printed before; or a line reports it."""
    whole, told = Wanting(program, room, "first").all()
    checks.that("a run with memory enough", (whole[0], is_front(whole[1]), len(whole[1]), whole[2]), (0, True, len(LINES), ""))
    checks.that("a run whose first thread lacks memory, at its start too", wrong_in(told, [MEMORY]), None)
    checks.that("the lines before want of memory", lengths(told, MEMORY), list(range(len(LINES))))
    hanging = [number for number, run in enumerate(told, 1) if run[0] == "hangs"]
    print("net: %d allocations of a run's first thread, each refused in turn" % len(told))
    checks.that("that none of these runs hangs", hanging, [])
    _, told = Wanting(program, room, "others").all()
    checks.that("that none hangs whose other threads lack memory", [number for number, run in enumerate(told, 1) if run[0] == "hangs"], [])
    checks.that("a run whose other threads lack memory: each line, or a fault", wrong_in(told, [MEMORY, NETWORK]), None)
    once = [number for number, run in enumerate(told, 1) if run[0] != 0 or sum(line.startswith("0 wrote 0:2 ") for line in run[1]) == 1]
    checks.that("that the Write which is asked again is told once", once, list(range(1, len(told) + 1)))
    # (before the second phase's lines, or those of what the servers' threads copy their Writes for: two verdicts and a survey)
    checks.that("a session or a server that lacks memory ends the run", lengths(told, MEMORY), [1] + COPIES)
    checks.that("the lines before a fault of the network", lengths(told, NETWORK), REOPENS)
    print("net: %d allocations of its other threads, each refused in turn" % len(told))
    starts(checks, program, fresh(room, "starts"))
    pulls(checks, program, fresh(room, "pulls"))


def starts(checks, program, room):
    """The same of whichever thread asks, so of those of the servers too as they start."""
    _, told = Wanting(program, room, "any", STARTS).all()
    checks.that("that no run hangs of which a thread lacks memory", [number for number, run in enumerate(told, 1) if run[0] == "hangs"], [])
    checks.that("a run of which a thread lacks memory: each line, or a fault", wrong_in(told, [MEMORY], START_LINES), None)
    checks.that("that servers which lack memory as they start end the run", 0 in lengths(told, MEMORY), True)
    print("net: %d allocations of all threads of a short run, each refused in turn" % len(told))


def is_read(lines):
    """Whether what was acknowledged, and then pulled by one pull at least, is what is read, where a read is printed."""
    if len(lines) < 5 or not lines[1].startswith("0 wrote") or not lines[4].startswith("0 read"):
        return True
    return lines[4] == "0 read b num 2 at 2,0" or not any(line.startswith("pulled") for line in lines[2:4])


def pulls(checks, program, room):
    """The same of pulls at two nodes: of one of them no more is lost than what it tells, and the next one takes it."""
    whole, told = Wanting(program, room, "first", PULLS).all()
    checks.that("pulls with memory enough", (whole[0], whole[1][2:5]), (0, ["pulled 2 had 0", "pulled 0 had 0", "0 read b num 2 at 2,0"]))
    _, others = Wanting(program, room, "others", PULLS).all()
    print("net: %d allocations of the other threads of pulls, each refused in turn" % len(others))
    checks.that("that no pull hangs for want of memory", [number for number, run in enumerate(told + others, 1) if run[0] == "hangs"], [])
    checks.that("pulls that lack memory: each line, or a fault", wrong_in(told + others, [MEMORY, NETWORK], PULL_LINES), None)
    checks.that("what was pulled is read", [number for number, run in enumerate(told + others, 1) if not is_read(run[1])], [])
    checks.that("that pulls were told as lacking memory", any("pull fault memory" in run[1] for run in others), True)
