"""Runs whose sessions ask their last Writes again: after replies that are lost, journals that fail, and kills."""
import json
import os
import random
import re
import time

import net_kill
import net_runs
from net_meddled import Meddled
from net_runs import fresh, put, script

# A run that isn't killed has so many rounds, each with a Write at each of two servers.
ROUNDS = 80
# So many kills leave their Writes in one folder.
KILLS_A_FOLDER = 5

BEGIN = [["servers", 1], ["session", 0, []]]
WROTE = re.compile(r"0 wrote ([01]:\d+) clock \d+ deps \d+,\d+")


def ended(writes, refusals, accepted, adopted=0):
    """The last lines of a run of one server without reads."""
    return "totals reads 0 writes %d refusals %d slips 0\nsettled 0 accepted %d adopted %d\nclean\n" % (writes, refusals, accepted, adopted)


def lost_replies(checks, program, room):
    """A Write whose reply is lost is asked again over a new connection, and acts once; so does one whose second reply is lost too."""
    meddled = Meddled(program, room)
    told = "0 wrote 0:1 clock 1 deps 0\n0 again none\n0 wrote 0:2 clock 2 deps 1\n" + ended(2, 0, 2)
    for lost in (1, 2):
        # (an asking more finds nothing to ask, and opens no connection)
        agains = [["again", 0] for _ in range(lost + 1)]
        text = script(*BEGIN, ["write", 0, 0, put("a", 1)], *agains, ["write", 0, 0, put("a", 2)])
        meddle = " ".join("reply %d bad" % reply for reply in range(1, lost + 1))
        checks.that("a Write of which %d replies are lost" % lost, meddled.run(fresh(room, "lost-%d" % lost), text, meddle), (0, "0 lost\n" * lost + told, ""))
        # (beside the session's own, that of who asks at a phase's end, and that which ends the listener)
        checks.that("the connections of %d askings again" % lost, meddled.number("connect"), 3 + lost)
    # In the next phase the reply is lost to a Write that another one follows: that one may be asked again, and the first no more.
    text = script(*BEGIN, ["write", 0, 0, put("a", 1)], ["write", 0, 0, put("a", 2)], ["phase"], ["again", 0], ["again", 0], ["log", 0])
    told = "0 lost\n0 lost\n0 wrote 0:2 clock 2 deps 1\n0 again none\nlog 0 0:1 clock 1 updated\nlog 0 0:2 clock 2 updated\nlog 0 at 2\n"
    status, output, errors = meddled.run(fresh(room, "another"), text, "reply 1 bad")
    # (the second Write goes over a link that is closed, so that it is first asked by the asking again)
    checks.that("another Write behind a lost reply", (status, output, errors), (0, told + ended(1, 0, 2), ""))


def failed_journals(checks, program, room):
    """A Write whose journal fails is refused as long as its server is down. After the reopening it is known, or made now, and held once."""
    meddled = Meddled(program, room)
    text = script(*BEGIN, ["write", 0, 0, put("a", 1)], ["write", 0, 0, put("a", 2)], ["again", 0], ["reopen", 0], ["phase"], ["again", 0],
                  ["again", 0], ["log", 0])
    for meddle, adopted, accepted in (("append 3 fail", "none", 2), ("sync 4 fail", "0:2", 1)):
        told = "0 wrote 0:1 clock 1 deps 0\n0 refused journal\n0 refused down\nreopened 0 adopted %s\n" % adopted
        told += "0 wrote 0:2 clock 2 deps 1\n0 again none\nlog 0 0:1 clock 1 updated\nlog 0 0:2 clock 2 updated\nlog 0 at 2\n"
        told += ended(2, 2, accepted, 2 - accepted)
        checks.that("a Write asked again behind '%s'" % meddle, meddled.run(fresh(room, meddle), text, meddle), (0, told, ""))


def many_agains(checks, program, room):
    """Each asking again has a desk at the server and opens one connection; all are refused while the server is behind, and one is accepted then."""
    meddled, number = Meddled(program, room), 100
    agains = [["again", 0] for _ in range(number)]
    text = script(["servers", 2], ["session", 0, ["mw"]], ["write", 0, 0, put("a", 1)], ["write", 0, 1, put("a", 2)], *agains, ["phase"],
                  ["pull", 1, 0], ["phase"], *agains)
    told = "0 wrote 0:1 clock 1 deps 0,0\n" + "0 refused behind at 0,0\n" * (number + 1) + "pulled 1 had 0\n0 wrote 1:1 clock 2 deps 1,0\n"
    told += "0 again none\n" * (number - 1) + "totals reads 0 writes 2 refusals %d slips 0\n" % (number + 1)
    told += "settled 0 accepted 1 adopted 0\nsettled 1 accepted 1 adopted 0\nclean\n"
    checks.that("a Write that is asked again so often", meddled.run(fresh(room, "many"), text), (0, told, ""))
    checks.that("the connections of all askings", meddled.number("connect"), 2 + (number + 1) + 1 + 2 + 2)


def no_connection(checks, program, room):
    """Where no new connection comes about, the old one is asked: it serves where it is open, and is lost where it was closed."""
    meddled = Meddled(program, room)
    text = script(["servers", 2], ["session", 0, ["mw"]], ["write", 0, 0, put("a", 1)], ["write", 0, 1, put("a", 2)], ["again", 0])
    told = "0 wrote 0:1 clock 1 deps 0,0\n" + "0 refused behind at 0,0\n" * 2 + "totals reads 0 writes 1 refusals 2 slips 0\n"
    told += "settled 0 accepted 1 adopted 0\nsettled 1 accepted 0 adopted 0\nclean\n"
    # (the session has a connection to each server, and so has who asks at a phase's end)
    checks.that("an asking again over a link that is open", meddled.run(fresh(room, "open"), text, "connect 5 fail"), (0, told, ""))
    text = script(*BEGIN, ["write", 0, 0, put("a", 1)], *[["again", 0]] * 3)
    told = "0 lost\n0 lost\n0 wrote 0:1 clock 1 deps 0\n0 again none\n" + ended(1, 0, 1)
    checks.that("an asking again over a link that is closed", meddled.run(fresh(room, "closed"), text, "reply 1 bad connect 3 fail"), (0, told, ""))


def text(rounds, first):
    """Rounds in which a Write is refused, asked again, and made as it is asked again once its server has what it is to follow."""
    lines = [["servers", 2, 65536], ["session", 0, ["mw"]]]
    for value in range(first, first + 2 * rounds, 2):
        lines += [["write", 0, 0, put("a", value)], ["write", 0, 1, put("a", value + 1)], ["again", 0], ["phase"], ["pull", 1, 0], ["phase"]]
        lines += [["again", 0], ["again", 0], ["phase"], ["pull", 0, 1], ["phase"]]
    return script(*lines)


def whole_run(program, folder, path):
    """The output of a run that isn't killed, and how long it took after its first line."""
    with net_runs.Running(program, folder, path) as running:
        output = running.line()
        begin = time.monotonic()
        output += running.rest()[1]
    return output, time.monotonic() - begin


def held_by(output):
    """What each server holds by the lines of a book: the name of each Write, by the value that it puts."""
    held = ({}, {})
    for members in (json.loads(line) for line in output.split("\n") if line.startswith('["held"')):
        origin, seq, _, _, made = members[2]
        value = made["update"][0][2]
        if value in held[members[1]]:
            return None
        held[members[1]][value] = "%d:%d" % (origin, seq)
    return held


def wrong_behind(program, folder, output, first):
    """What is wrong with the folder after a killed run that wrote this much, and whose values begin with this one."""
    status, listed, errors = net_runs.run(program, folder, script(["servers", 2, 65536], ["book"]))
    held = held_by(listed)
    if (status, errors) != (0, "") or not listed.endswith("clean\n") or held is None:
        return "the next run: %r" % ((status, listed[-200:], errors, held),)
    # (the last line may have been cut)
    told = [match.group(1) for match in map(WROTE.fullmatch, output.split("\n")[:-1]) if match]
    for value, name in enumerate(told, first):
        if held[int(name[0])].get(value) != name:
            return "the Write %s, which puts %d, isn't there once" % (name, value)
    return None


def kills_of_agains(checks, program, room, number):
    """Runs that are killed while sessions ask again: what was reported as accepted is held, and no Write of theirs is held twice."""
    path, order, told, first, number = os.path.join(room, "agains.jsonl"), random.Random(number), 0, 1, max(number // 4, 1)

    def begin():
        """A script whose values no run before had."""
        nonlocal first
        first += 2 * ROUNDS
        with open(path, "w", encoding="ascii") as it:
            it.write(text(ROUNDS, first))
    begin()
    output, behind = whole_run(program, fresh(room, "whole"), path)
    checks.that("a run that asks again and isn't killed", (output.count("0 wrote "), output.count("0 again none")), (2 * ROUNDS, ROUNDS))
    for kill in range(number):
        folder = fresh(room, "killed-%d" % kill) if kill % KILLS_A_FOLDER == 0 else folder
        # (the run that was measured may have been a slow one)
        for part in (1, 1 / 4, 1 / 16):
            begin()
            output, was_running = net_kill.killed(program, folder, path, order.uniform(0, behind * part), True)
            wrong = wrong_behind(program, folder, output, first)
            if wrong or was_running:
                break
        told += output.count(" wrote ")
        checks.that("kill %d of a run that asks again" % kill, (wrong, was_running), (None, True))
    print("net: %d runs that ask again were killed; %d Writes that they told of are held once" % (number, told))
