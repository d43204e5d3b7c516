"""Tries `bayou net` as a person calls it. Call: python3 net.py PROGRAM EXAMPLES KILLS [GROUP..], with the groups of checks that are tried, all
where there is none. Its last line is 'N passed, M failed'."""
import os
import statistics
import sys
import tempfile
import time
import traceback

import frames
import net_again
import net_alone
import net_calls
import net_device
import net_faults
import net_kill
import net_long
import net_memory
import net_output
import net_runs
import net_script
import net_threads
import net_told
import net_verdicts
import net_waits
from checks import Checks
from net_runs import contents, fresh, put, run, script

RUNS = 20
# Each script at random is run so often, since threads meet in another order each time.
RUNS_A_SCRIPT = 5

TOTALS = ["totals reads 2 writes 2 refusals 0 slips 0", "settled 0 accepted 1 adopted 0", "settled 1 accepted 1 adopted 0", "clean"]
MET = [["servers", 2, 100], ["session", 0, ["ryw"]], ["session", 1, []], ["write", 0, 0, put("a", 1)], ["write", 1, 1, put("b", 2)],
       ["phase"], ["pull", 1, 0], ["pull", 0, 1], ["phase"], ["read", 0, 1, "a"], ["read", 1, 0, "b"]]
MET_TOLD = ["0 wrote 0:1 clock 1 deps 0,0", "1 wrote 1:1 clock 1 deps 0,0", "pulled 1 had 0", "pulled 1 had 0",
            "0 read a num 1 at 1,1", "1 read b num 2 at 1,1"]
LOG_TOLD = ["log 0 0:1 clock 1 updated", "log 0 1:1 clock 1 updated", "log 0 at 1,1", "reopen refused notdown"]
ENTRIES = ['["entry",0,1,["ryw"],0,"write",1,1,[0,0]]', '["entry",0,2,["ryw"],1,"read","a",[1,1]]', '["entry",1,1,[],1,"write",1,1,[0,0]]',
           '["entry",1,2,[],0,"read","b",[1,1]]']


def held(server, origin, key, value):
    return '["held",%d,[%d,1,1,[0,0],{"check":[],"merge":[],"update":[["put","%s",%d]]}]]' % (server, origin, key, value)


HELD = [held(0, 0, "a", 1), held(0, 1, "b", 2), held(1, 1, "b", 2), held(1, 0, "a", 1)]


def lines(told):
    return "".join(line + "\n" for line in told)


def meets(checks, program, room):
    """Two servers that write apart, pull from each other, and are read; then with a log, a reopening and a book."""
    checks.that("two servers that meet", run(program, fresh(room, "met"), script(*MET)), (0, lines(MET_TOLD + TOTALS), ""))
    more = script(*MET, ["phase"], ["log", 0], ["reopen", 0], ["book"])
    status, output, errors = run(program, fresh(room, "book"), more)
    told = output.split("\n")
    front, back = len(MET_TOLD + LOG_TOLD) + 1, len(MET_TOLD + LOG_TOLD) + 1 + len(ENTRIES)
    booked = told[front:back]
    checks.that("a book", (status, errors, told[:front] + told[back:]), (0, "", MET_TOLD + LOG_TOLD + ['["servers",2]'] + HELD + TOTALS + [""]))
    # Sessions are served at once, so that the entries of two sessions may stand in any order.
    kept = all(booked.index(a) < booked.index(b) for a, b in (ENTRIES[:2], ENTRIES[2:])) if sorted(booked) == sorted(ENTRIES) else booked
    checks.that("its entries", kept, True)
    path = os.path.join(room, "book.jsonl")
    with open(path, "w", encoding="ascii") as it:
        it.write(lines(told[front - 1:back + len(HELD)]))
    surveyed = ["clean"] + ["survey %d ryw ok mr ok wfr ok mw ok" % i for i in (0, 1)]
    checks.that("the audit of the book", net_runs.call(program, ["audit", path]), (0, lines(surveyed), ""))


def text_of(path):
    with open(path, encoding="utf-8") as it:
        return it.read()


def examples(checks, program, room, folder):
    """Each script of the examples, over its own new folder, as the file and as the standard input; one goes on where another ended."""
    names = sorted(name[:-len(".jsonl")] for name in os.listdir(folder) if name.endswith(".jsonl"))
    checks.that("there are examples", len(names) > 0, True)
    for name in names:
        path = os.path.join(folder, name)
        expected = (0, text_of(path + ".expected"), "")
        if os.path.exists(path + ".errors"):
            expected = (2, "", text_of(path + ".errors"))
        for way in ("file", "input"):
            own = fresh(room, "%s-%s" % (name, way))
            if name == "second_run":
                run(program, own, text_of(os.path.join(folder, "two_servers.jsonl")))
            told = run(program, own, "", path + ".jsonl") if way == "file" else run(program, own, text_of(path + ".jsonl"))
            checks.that("the script %s, as %s" % (name, way), told, expected)
            checks.that("the journals of " + name, bool(os.listdir(own)), expected[0] == 0)


def helps(checks, program, room):
    """The script in the help prints what stands below it."""
    status, shown, errors = net_runs.call(program, ["net", "--help"])
    checks.that("the help", (status, errors), (0, ""))
    given = [line[6:] + "\n" for line in shown.split("\n") if line.startswith('      ["')]
    told = shown.partition("It prints, where that folder is new:\n\n")[2].partition("\n\n")[0]
    printed = "".join(line[2:] + "\n" for line in told.split("\n"))
    checks.that("the script of the help", run(program, fresh(room, "help"), "".join(given)), (0, printed, ""))


def at_random(checks, program, room, reopens):
    """2,000 operations of 8 sessions at 4 servers in 5 phases, with pulls beside them."""
    times, refused, agains = [], 0, 0
    for number in range(RUNS):
        seed = number // RUNS_A_SCRIPT + (100 if reopens else 0)
        made, text = net_script.at_random(seed, reopens)
        folder = fresh(room, "random-%d-%d" % (reopens, number))
        begin = time.monotonic()
        status, output, errors = run(program, folder, text)
        times.append(time.monotonic() - begin)
        name = "run %d of 2,000 operations%s" % (number, ", with reopenings" if reopens else "")
        wrong, made_again = net_told.look(made, output)
        checks.that(name, (status, errors, wrong), (0, "", None))
        refused, agains = refused + output.count(" refused behind "), agains + made_again
    middle = statistics.median(times)
    print("net: %d operations%s: %.2f s in the middle of %d runs, %d a second; %d refused in all" %
          (net_script.OPERATIONS, " with reopenings" if reopens else "", middle, RUNS, net_script.OPERATIONS / middle, refused))
    checks.that("some operations are refused, and most are not", 0 < refused < RUNS * net_script.OPERATIONS // 2, True)
    checks.that("some Writes are made as they are asked again", agains > 0, True)


def goes_on(checks, program, room):
    """A second and a third run in the same folder have what the first wrote."""
    folder = fresh(room, "on")
    checks.that("a first run", run(program, folder, script(*MET))[0], 0)
    kept = contents(folder)
    look = script(["servers", 2, 100], ["session", 0, ["ryw"]], ["read", 0, 0, "b"], ["log", 0], ["log", 1])
    told = ["0 read b num 2 at 1,1"]
    told += ["log %d %s" % (s, rest) for s in (0, 1) for rest in ("0:1 clock 1 updated", "1:1 clock 1 updated", "at 1,1")]
    told += ["totals reads 1 writes 0 refusals 0 slips 0", "settled 0 accepted 0 adopted 0", "settled 1 accepted 0 adopted 0", "clean"]
    for _ in range(2):
        checks.that("a run behind it", run(program, folder, look), (0, lines(told), ""))
        checks.that("what a run that writes nothing leaves", contents(folder), kept)
    checks.that("a run with fewer servers than Writes are of", run(program, folder, script(["servers", 1], ["log", 0])), net_faults.DEVICE)
    checks.that("what it leaves", contents(folder), kept)
    # A server more has its own journal, which begins empty.
    more = script(["servers", 3, 100], ["pull", 2, 0], ["log", 2])
    told = ["pulled 2 had 0", "log 2 0:1 clock 1 updated", "log 2 1:1 clock 1 updated", "log 2 at 1,1,0"]
    told += ["totals reads 0 writes 0 refusals 0 slips 0"]
    told += ["settled %d accepted 0 adopted 0" % s for s in range(3)] + ["clean"]
    checks.that("a run with one server more", run(program, folder, more), (0, lines(told), ""))
    checks.that("its journals", sorted(contents(folder)), ["server-%d.journal" % s for s in range(3)])


def counts_runs(checks, program, room):
    """Each run has tags of its own, one more than the greatest run that the journals have; after the last run there is none."""
    folder = fresh(room, "runs")
    path = net_runs.journal(folder, 0)
    writes = script(["servers", 1, 100], ["session", 5, []], ["write", 5, 0, put("a", 1)])
    program_put = ([], [("put", "a", ("lit", 1))], [])
    bodies = []
    for number in (1, 2, 3):
        told = "5 wrote 0:%d clock %d deps %d" % (number, number, number - 1)
        status, output, errors = run(program, folder, writes)
        checks.that("run %d writes anew" % number, (status, output.split("\n")[0], errors), (0, told, ""))
        write = frames.write_bytes((0, number, number, frames.counts(number - 1), program_put))
        bodies.append(frames.own_record((5, number, 1), write))
        checks.that("the tags of run %d" % number, net_runs.content(path), frames.journal(0, bodies))
    last = frames.own_record((5, frames.MAX_NUMBER, 1), frames.write_bytes((0, 1, 1, frames.ZERO, program_put)))
    with open(path, "wb") as it:
        it.write(frames.journal(0, [last]))
    kept = contents(folder)
    checks.that("behind the last run", run(program, folder, writes), net_faults.DEVICE)
    checks.that("what it leaves", contents(folder), kept)


def groups_of(folder, number):
    """Each group of checks by its name."""
    groups = [meets, helps, goes_on, counts_runs, net_alone.guarantees_alone]
    groups += [net_faults.folders, net_faults.journals, net_faults.torn, net_faults.old, net_faults.held, net_faults.at_once, net_faults.places, net_faults.files]
    groups += [net_verdicts.of_journals, net_verdicts.of_replies, net_verdicts.surveys, net_waits.phases, net_waits.short, net_waits.down]
    groups += [net_again.lost_replies, net_again.failed_journals, net_again.many_agains, net_again.no_connection]
    groups += [net_output.bytes_told, net_calls.connections, net_calls.batches, net_calls.all_sessions]
    groups += [net_threads.threads, net_device.reads, net_device.starts, net_device.writes, net_device.power, net_memory.memory, net_long.long_phase]
    by_name = {group.__name__: group for group in groups}
    by_name["examples"] = lambda *given: examples(*given, folder)
    by_name["random"] = lambda *given: at_random(*given, False)
    by_name["random_reopened"] = lambda *given: at_random(*given, True)
    by_name["kills"] = lambda *given: net_kill.kills(*given, number)
    by_name["kills_of_agains"] = lambda *given: net_again.kills_of_agains(*given, number)
    return by_name


def main():
    program, folder, number, names = os.path.abspath(sys.argv[1]), sys.argv[2], int(sys.argv[3]), sys.argv[4:]
    checks, groups = Checks(), groups_of(folder, number)
    for name in names or groups:
        with tempfile.TemporaryDirectory() as room:
            try:
                groups[name](checks, program, room)
            except Exception:
                checks.failed += 1
                traceback.print_exc(file=sys.stdout)
    print("%d passed, %d failed" % (checks.passed, checks.failed))
    return 1 if checks.failed else 0


if __name__ == "__main__":
    sys.exit(main())
