"""Runs that are killed at random moments: the next run in the folder has each Write that was reported as accepted, and those of the journals with
which the folder began."""
import os
import random
import re
import time

import net_runs
import old_journals
from net_runs import fresh, put, script

# A run that isn't killed has so many phases, each with a Write at each of two servers.
PHASES = 400
# So many kills leave their Writes in one folder.
KILLS_A_FOLDER = 7

WROTE = re.compile(r"[01] wrote (\d+:\d+) clock (\d+) deps (\d+),(\d+)")
LISTED = re.compile(r"log ([01]) (\d+:\d+) clock (\d+) updated")


def text(phases):
    """Many short phases: what a phase does is printed at its end."""
    lines = [["servers", 2, 65536], ["session", 0, ["ryw", "mw"]], ["session", 1, []]]
    for phase in range(phases):
        lines += [["write", 0, 0, put("a", phase)], ["write", 1, 1, put("b", phase)]]
        lines += [["pull", phase % 2, 1 - phase % 2]] if phase % 5 == 4 else []
        lines += [["phase"]]
    return script(*lines)


def wrong_behind(program, folder, output, before):
    """What is wrong with the folder after a run that wrote this much. `before` is what each server held as the run began, and becomes what
    it holds now."""
    # (the last line may have been cut)
    told = [WROTE.fullmatch(line) for line in output.split("\n")[:-1]]
    accepted = {match.group(1): match.group(2) for match in told if match}
    status, listed, errors = net_runs.run(program, folder, script(["servers", 2, 65536], ["log", 0], ["log", 1]))
    if (status, errors) != (0, "") or not listed.endswith("clean\n"):
        return "the next run: %r" % ((status, listed[-200:], errors),)
    held = ({}, {})
    for match in map(LISTED.fullmatch, listed.split("\n")):
        if match:
            held[int(match.group(1))][match.group(2)] = match.group(3)
    for server in (0, 1):
        own = {name: clock for name, clock in accepted.items() if name.startswith("%d:" % server)}
        for name, clock in {**before[server], **own}.items():
            if held[server].get(name) != clock:
                return "the Write %s, of clock %s, is missing at server %d" % (name, clock, server)
        # What came since is the run's own: each Write of the script once, at the most.
        mine = sum(name.startswith("%d:" % server) for name in held[server]) - sum(name.startswith("%d:" % server) for name in before[server])
        if not len(own) <= mine <= PHASES:
            return "server %d accepted %d Writes, and told of %d" % (server, mine, len(own))
        before[server].clear()
        before[server].update(held[server])
    return None


def killed(program, folder, path, moment, is_told):
    """What a run wrote until this moment, in seconds from its begin, or from its first line where a Write is to be reported; and whether it still
    ran then."""
    with net_runs.Running(program, folder, path) as running:
        output = running.line() if is_told else ""
        time.sleep(moment)
        was_running = running.kill()
        # (a pipe holds all that a whole run writes)
        output += running.process.stdout.read().decode("utf-8", "replace")
    return output, was_running


def whole_run(checks, program, room, path):
    """How long a run takes that isn't killed: to its first line, and after that."""
    begin = time.monotonic()
    running = net_runs.Running(program, fresh(room, "whole"), path)
    output = running.line()
    first = time.monotonic() - begin
    status, rest = running.rest()
    output += rest
    checks.that("a run of Writes that isn't killed", (status, sum(bool(WROTE.fullmatch(told)) for told in output.split("\n"))), (0, 2 * PHASES))
    return first, time.monotonic() - begin - first


# What a folder begins with: journals of the first version, of the second, or none.
BEGINNINGS = [old_journals.BOTH, old_journals.TAGGED, None]


def begun(room, name, source):
    """A new folder with these journals, if any; and what each server holds by them."""
    if source is None:
        return fresh(room, name), ({}, {})
    return old_journals.copied(room, name, 0, source), tuple(dict(held) for held in old_journals.HELD)


def kills(checks, program, room, number):
    """Most runs are killed after a Write that they told of, and before their end; each fourth at any moment of its begin."""
    path = os.path.join(room, "killed.jsonl")
    with open(path, "w", encoding="ascii") as it:
        it.write(text(PHASES))
    first, behind = whole_run(checks, program, room, path)
    order = random.Random(number)
    folder, before, told = None, None, 0
    for kill in range(number):
        if kill % KILLS_A_FOLDER == 0:
            source = BEGINNINGS[kill // KILLS_A_FOLDER % len(BEGINNINGS)]
            folder, before = begun(room, "killed-%d" % kill, source)
        is_told = kill % 4 != 3
        # (the run that was measured may have been a slow one)
        for part in (1, 1 / 4, 1 / 16):
            output, was_running = killed(program, folder, path, order.uniform(0, (behind if is_told else first) * part), is_told)
            wrong = wrong_behind(program, folder, output, before)
            if wrong or was_running:
                break
        number_told = output.count(" wrote ")
        told += number_told
        checks.that("kill %d" % kill, (wrong, was_running, number_told > 0 or not is_told), (None, True, True))
        checks.that("the journals behind it begin as they did", source is None or old_journals.are_kept(folder, source), True)
        if wrong:
            folder, before = begun(room, "killed-behind-%d" % kill, source)
    print("net: %d runs were killed before their end; %d Writes that they told of are held" % (number, told))
