"""Verdicts that aren't clean: of journals that no servers can have left, and of a reply that tells of another Write than the server has."""
import os

import frames
import net_runs
from net_meddled import Meddled
from net_runs import fresh, journal, put, run, script

NOTHING = "totals reads 0 writes 0 refusals 0 slips 0\n"
CLEAN = "clean\n"


def own(origin, seq, clock, deps, number):
    """A Write that puts the number, as bytes."""
    return frames.write_bytes((origin, seq, clock, frames.counts(*deps), ([], [("put", "a", ("lit", number))], [])))


def left(room, name, *dumps):
    """A folder with such journals of servers from 0 on."""
    folder = fresh(room, name)
    for server, bodies in enumerate(dumps):
        with open(journal(folder, server), "wb") as it:
            it.write(frames.journal_of(server, bodies))
    return folder


def settled(*accepted):
    return "".join("settled %d accepted %d adopted 0\n" % pair for pair in enumerate(accepted))


# Journals, and what is said of them.
LEFT = [("two Writes of one name", [[own(0, 1, 1, [], 1)], [own(1, 1, 1, [], 2), own(0, 1, 1, [], 3)]], "judge refused dump 1 1\n"),
        ("two of a name that its own server lost", [[], [own(0, 1, 1, [], 1)], [own(0, 1, 1, [], 2)]], "judge refused dump 2 0\n")]


def of_journals(checks, program, room):
    """Each verdict and each survey is that of what the servers hold, each by its own number."""
    for number, (name, dumps, said) in enumerate(LEFT):
        folder, servers = left(room, "left-%d" % number, *dumps), ["servers", len(dumps)]
        end = NOTHING + settled(*[0] * len(dumps)) + said
        checks.that("the verdict at the end: " + name, run(program, folder, script(servers)), (2, end, ""))
        asked = script(servers, ["totals"], ["judge"], ["totals"], ["phase"], ["survey"], ["phase"], ["totals"])
        checks.that("a verdict and a survey in a phase: " + name, run(program, folder, asked),
                    (2, NOTHING + said + NOTHING + said + NOTHING + end, ""))
        status, output, errors = run(program, folder, script(servers, ["book"]))
        checks.that("the book's end: " + name, (status, output[-len(end):], errors), (2, end, ""))
        path = os.path.join(room, "book-%d.jsonl" % number)
        with open(path, "w", encoding="ascii") as it:
            it.write(output[:-len(end)])
        checks.that("the audit of the book: " + name, net_runs.call(program, ["audit", path]), (2, said, ""))


# Session 0 hears of a Write of the server's that isn't there yet: the next one.
AHEAD = [["servers", 1], ["session", 0, ["ryw"]], ["session", 1, []], ["write", 0, 0, put("a", 1)]]
TOLD = "0 wrote 0:2 clock 2 deps 1\n"
FORGED = "judge refused forged 0\n"
ONE = "totals reads 0 writes 1 refusals 0 slips 0\n"


def of_replies(checks, program, room):
    """What was filed counts in each verdict, and each verdict in the status."""
    meddled = Meddled(program, room)

    def that(name, more, meddle, wanted):
        folder = fresh(room, name.replace(" ", "-"))
        checks.that(name, meddled.run(folder, script(*AHEAD, *more), meddle), (2, TOLD + wanted, ""))
    that("the verdict at the end on a Write that isn't held", [], "reply 1 ahead", ONE + settled(1) + FORGED)
    that("a verdict in a phase on it", [["judge"], ["totals"]], "reply 1 ahead", FORGED + ONE + ONE + settled(1) + FORGED)
    that("a survey in a phase on it", [["survey"]], "reply 1 ahead", FORGED + ONE + settled(1) + FORGED)
    # Then that Write is made, and its session doesn't learn it: all is clean in the end.
    made = [["phase"], ["write", 1, 0, put("a", 2)]]
    end = "1 lost\n" + ONE + settled(2) + CLEAN
    for word in ("judge", "survey"):
        that("the status of a %s that was refused in an earlier phase" % word, [[word], *made], "reply 1 ahead reply 2 bad", FORGED + end)
        that("the status of a %s that was refused before another line" % word, [[word], ["totals"], *made], "reply 1 ahead reply 2 bad",
             FORGED + ONE + end)


def surveys(checks, program, room):
    """A guarantee that isn't asked for may be broken, which the verdict doesn't tell, and the status neither."""
    text = script(["servers", 2], ["session", 3, []], ["write", 3, 0, put("a", 1)], ["read", 3, 1, "a"], ["survey"], ["judge"])
    told = "3 wrote 0:1 clock 1 deps 0,0\n3 read a none at 0,0\nsurvey 3 ryw broken 1 2 1 0:1 mr ok wfr ok mw ok\nclean\n"
    told += "totals reads 1 writes 1 refusals 0 slips 0\n" + settled(1, 0) + CLEAN
    checks.that("a survey of what wasn't asked for", run(program, fresh(room, "survey"), text), (0, told, ""))
