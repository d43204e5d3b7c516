"""Folders, journals, scripts and streams with which `bayou net` runs nothing, or drops what was torn."""
import os
import shutil
import stat
import threading

import frames
import net_runs
import old_journals
from net_runs import content, contents, fresh, journal, put, run, script

DEVICE = (3, "", "bayou: device\n")
# How many bytes a journal's header has.
HEADER = 10
# An entry has so many at the most: its length, its body and its digest.
LONGEST_ENTRY = 2 + 8192 + 32

ONE = script(["servers", 1], ["session", 0, []], ["write", 0, 0, put("a", 1)])
TWO = script(["servers", 2], ["session", 0, []], ["write", 0, 0, put("a", 1)], ["write", 0, 1, put("a", 2)])
LOG = script(["servers", 1], ["log", 0])
LOGS = script(["servers", 2], ["log", 0], ["log", 1])
NOTHING = "totals reads 0 writes 0 refusals 0 slips 0\n"


def settled(count):
    return "".join("settled %d accepted 0 adopted 0\n" % server for server in range(count))


def logs(count, held):
    """What a run of a log of each server prints, of servers that each hold so many of their own Writes, and nobody else's."""
    told = ""
    for server in range(count):
        told += "".join("log %d %d:%d clock %d updated\n" % (server, server, seq, seq) for seq in range(1, held[server] + 1))
        told += "log %d at %s\n" % (server, ",".join(str(held[server] if s == server else 0) for s in range(count)))
    return told + NOTHING + settled(count) + "clean\n"


def as_nobody():
    os.setgroups([])
    os.setgid(65534)
    os.setuid(65534)


def folders(checks, program, room):
    """Folders that aren't there, are none, or can't be written."""
    file = os.path.join(room, "file")
    with open(file, "w", encoding="ascii") as it:
        it.write("nothing\n")
    for name in (os.path.join(room, "absent"), os.path.join(room, "absent", "below"), file, "/proc"):
        checks.that("the folder " + name, run(program, name, ONE), DEVICE)
    checks.that("a folder that isn't there", os.path.exists(os.path.join(room, "absent")), False)
    taken = fresh(room, "taken")
    os.mkdir(journal(taken, 0))
    checks.that("a folder in place of a journal", run(program, taken, ONE), DEVICE)
    # Nothing is refused to who may do all, so another does it there.
    closed, own = fresh(room, "closed"), os.path.join(room, "program")
    os.chmod(closed, stat.S_IRUSR | stat.S_IXUSR | stat.S_IROTH | stat.S_IXOTH)
    is_root = os.geteuid() == 0
    if is_root:
        shutil.copy(program, own)
        os.chmod(own, 0o755)
        os.chmod(room, 0o755)
    told = net_runs.call(own if is_root else program, ["net", "--dir", closed], ONE, before=as_nobody if is_root else None)
    checks.that("a folder that can't be written", told, DEVICE)
    checks.that("what is in it", os.listdir(closed), [])


def journals(checks, program, room):
    """Journals of another server, files that are none, and journals that were changed."""
    folder = fresh(room, "journals")
    checks.that("a Write at each of two servers", run(program, folder, TWO)[0], 0)
    good = [content(journal(folder, server)) for server in (0, 1)]
    files = [("the journal of another server", good[0]), ("a file that is no journal", b"This is no journal.\n"), ("a short file", b"BAYOUS"),
             ("a journal of another version", b"BAYOUJNL\x04\x01"), ("an older journal of a server that there wasn't then", b"BAYOUJNL\x02\x09"), ("a header of another server", good[0][:HEADER])]
    for name, bad in files:
        with open(journal(folder, 1), "wb") as it:
            it.write(bad)
        checks.that(name, run(program, folder, LOGS), DEVICE)
        checks.that(name + ": the journals", contents(folder), {"server-0.journal": good[0], "server-1.journal": bad})
    with open(journal(folder, 1), "wb") as it:
        it.write(good[1])
    checks.that("both journals again", run(program, folder, LOGS), (0, logs(2, [1, 1]), ""))


def torn(checks, program, room):
    """A journal that ends within an entry: the entry is dropped, and what goes before it is there."""
    writes = [["write", 0, 0, put("a", seq)] for seq in (1, 2, 3)]
    folder = fresh(room, "torn")
    text = script(["servers", 1], ["session", 0, []], *writes)
    checks.that("three Writes", run(program, folder, text)[0], 0)
    good = content(journal(folder, 0))
    size = (len(good) - HEADER) // 3
    for left in [0, 1, HEADER - 1, HEADER, HEADER + 1, HEADER + size - 1, HEADER + size, HEADER + 2 * size - 32, len(good) - 1, len(good)]:
        with open(journal(folder, 0), "wb") as it:
            it.write(good[:left])
        held = max(left - HEADER, 0) // size
        checks.that("a journal cut to %d bytes" % left, run(program, folder, LOG), (0, logs(1, [held]), ""))
        checks.that("what it is then", content(journal(folder, 0)), good[:HEADER + held * size])
    changed = bytearray(good)
    changed[HEADER + size + 5] ^= 1
    with open(journal(folder, 0), "wb") as it:
        it.write(changed)
    checks.that("a byte that was changed", run(program, folder, LOG), told_damaged(folder, 0, HEADER + size, 2 * size))
    checks.that("nothing is cut behind it", content(journal(folder, 0)), bytes(changed))
    with open(journal(folder, 0), "wb") as it:
        it.write(good[:-1] + bytes([good[-1] ^ 1]))
    told = "bayou: %s: the last entry is damaged: its %d bytes from byte %d on were dropped\n" % (journal(folder, 0), size, HEADER + 2 * size)
    checks.that("a byte of the last entry that was changed", run(program, folder, LOG), (0, logs(1, [2]), told))
    checks.that("it is dropped, and no more", content(journal(folder, 0)), good[:HEADER + 2 * size])
    again = script(["servers", 1], ["session", 0, []], ["write", 0, 0, put("b", 7)], ["phase"], ["log", 0])
    told = "0 wrote 0:3 clock 3 deps 2\n" + "".join("log 0 0:%d clock %d updated\n" % (seq, seq) for seq in (1, 2, 3)) + "log 0 at 3\n"
    told += "totals reads 0 writes 1 refusals 0 slips 0\nsettled 0 accepted 1 adopted 0\nclean\n"
    checks.that("a Write behind it", run(program, folder, again), (0, told, ""))
    small = script(["servers", 1, 1], ["log", 0])
    checks.that("a journal of more Writes than a server may hold", run(program, folder, small), DEVICE)
    damaged(checks, program, room)


def damaged(checks, program, room):
    """A journal in which more is broken than one entry that is torn: nothing of it is cut."""
    folder = fresh(room, "damaged")
    text = script(["servers", 1], ["session", 0, []], *[["write", 0, 0, put("a", seq)] for seq in range(100)])
    checks.that("a hundred Writes", run(program, folder, text)[0], 0)
    good = content(journal(folder, 0))
    entry = (len(good) - HEADER) // 100
    for at in (HEADER + 5, len(good) - LONGEST_ENTRY - 200):
        changed = bytearray(good)
        changed[at] ^= 0x80
        with open(journal(folder, 0), "wb") as it:
            it.write(changed)
        whole = HEADER + (at - HEADER) // entry * entry
        checks.that("a byte that was changed long before the end", run(program, folder, LOG), told_damaged(folder, 0, whole, len(good) - whole))
        checks.that("nothing of it is cut", content(journal(folder, 0)), bytes(changed))
    # Its own journal is reported as damaged, after another that is whole.
    second = fresh(room, "damaged-second")
    with open(journal(second, 0), "wb") as it:
        it.write(good)
    own = frames.journal_of(1, [frames.write_bytes((1, seq, seq, frames.counts(0, seq - 1), ([], [("put", "a", ("lit", seq))], []))) for seq in range(1, 101)])
    size = (len(own) - HEADER) // 100
    broken = bytearray(own)
    broken[HEADER + 2 * size] ^= 1
    with open(journal(second, 1), "wb") as it:
        it.write(broken)
    whole = HEADER + 2 * size
    checks.that("the second journal is damaged", run(program, second, LOGS), told_damaged(second, 1, whole, len(own) - whole))
    checks.that("nothing of both is cut", contents(second), {"server-0.journal": good, "server-1.journal": bytes(broken)})


def told_damaged(folder, server, whole, behind):
    """How a run ends that finds this journal damaged: its path, how many bytes of it are whole, and how many come after them."""
    line = "bayou: %s: it is whole up to byte %d, and the %d bytes behind that are damaged; nothing was changed\n" % (journal(folder, server), whole, behind)
    return 3, "", line + "bayou: device\n"


def old(checks, program, room):
    """Journals of the first two versions: what is held, their raising, after each front of its mark, and a Write after it."""
    for name, source, look, held_then in (("three", old_journals.THREE, LOG, [3]), ("empty", old_journals.EMPTY, LOGS, [0, 0])):
        folder, then = old_journals.copied(room, name, 0, source), old_journals.copied(room, name + "-raised", old_journals.MARK_BYTES, source)
        checks.that("old journals: " + name, run(program, folder, look), (0, logs(len(held_then), held_then), ""))
        checks.that("what they are then: " + name, contents(folder), contents(then))
    # (of the first version, raised to the second before, and of the second; and in which run the next Write is asked)
    for name, source, versions, next_run in (("first", old_journals.BOTH, (), 1), ("between", old_journals.BOTH, (2,), 1), ("second", old_journals.TAGGED, (), 2)):
        old_pair(checks, program, room, "old-" + name, source, versions, next_run)


def old_pair(checks, program, room, name, source, versions, next_run):
    """The same of two that pulled from each other, whose journals were raised to these versions."""
    told, wrote = old_logs([]), "0 wrote 0:3 clock 3 deps 2,1\n"
    raised = contents(old_journals.copied(room, name, old_journals.MARK_BYTES, source, versions))
    for kept in range(old_journals.MARK_BYTES + 1):
        folder = old_journals.copied(room, "%s-%d" % (name, kept), kept, source, versions)
        checks.that("%s: journals with %d bytes of a mark" % (name, kept), run(program, folder, LOGS), (0, told, ""))
        checks.that("what they are then", contents(folder), raised)
    text = script(["servers", 2], ["session", 0, []], ["write", 0, 0, put("a", 7)], ["phase"], ["log", 0], ["log", 1])
    checks.that(name + ": a Write behind them", run(program, folder, text), (0, wrote + old_logs(["log 0 0:3 clock 3 updated\n"]), ""))
    body = frames.write_bytes((0, 3, 3, frames.counts(2, 1), ([], [("put", "a", ("lit", 7))], [])))
    added = dict(raised)
    added["server-0.journal"] += frames.entry(added["server-0.journal"][-32:], frames.own_record((0, next_run, 1), body))
    checks.that(name + ": what it adds", contents(folder), added)


def old_logs(more):
    """What a run of a log of each server prints after its Writes, of the old journals, with so much more at the first one."""
    told = "log 0 0:1 clock 1 updated\nlog 0 1:1 clock 1 updated\nlog 0 0:2 clock 2 updated\n" + "".join(more)
    told += "log 0 at %d,1\nlog 1 0:1 clock 1 updated\nlog 1 1:1 clock 1 updated\nlog 1 at 1,1\n" % (2 + len(more))
    told += "totals reads 0 writes %d refusals 0 slips 0\n" % len(more)
    return told + "settled 0 accepted %d adopted 0\nsettled 1 accepted 0 adopted 0\nclean\n" % len(more)


def held(checks, program, room):
    """A folder that another run uses, which waits since nobody reads what it prints."""
    folder = fresh(room, "held")
    path = os.path.join(room, "long.jsonl")
    writes, listings = 100, 100
    with open(path, "w", encoding="ascii") as it:
        it.write(script(["servers", 1], ["session", 0, []], ["write", 0, 0, put("a", 1)], ["phase"]))
        it.write("".join(script(["write", 0, 0, put("a", 1)]) for _ in range(writes - 1)))
        it.write("".join(script(["phase"], ["log", 0]) for _ in range(listings)))
    running = net_runs.Running(program, folder, path)
    checks.that("the first line of a run that waits", running.line(), "0 wrote 0:1 clock 1 deps 0\n")
    for _ in range(3):
        checks.that("a folder that another run uses", run(program, folder, ONE), DEVICE)
    status, output = running.rest()
    checks.that("the run that waited", (status, output.count("\n")), (0, writes - 1 + listings * (writes + 1) + 3))
    checks.that("the folder behind it", run(program, folder, script(["servers", 1], ["log", 0])), (0, logs(1, [writes]), ""))


def at_once(checks, program, room):
    """Many runs in one folder at once: each is served whole, or refused whole."""
    folder = fresh(room, "at-once")
    ended = []

    def one():
        ended.append(run(program, folder, ONE))
    threads = [threading.Thread(target=one) for _ in range(8)]
    for thread in threads:
        thread.start()
    for thread in threads:
        thread.join()
    served = [told for told in ended if told != DEVICE]
    firsts = ["0 wrote 0:%d clock %d deps %d\n" % (seq, seq, seq - 1) for seq in range(1, len(served) + 1)]
    rest = "totals reads 0 writes 1 refusals 0 slips 0\nsettled 0 accepted 1 adopted 0\nclean\n"
    checks.that("runs in one folder at once", (bool(served), sorted(served)), (True, sorted((0, first + rest, "") for first in firsts)))


def places(checks, program, room):
    """Lines that have no place in a run over sockets, and other faults of a script: nothing is run, and no journal is made."""
    folder = fresh(room, "places")
    start = [["servers", 2], ["session", 0, []], ["write", 0, 0, put("a", 1)]]
    for bad in (["fuse", 0, 1, 0], ["lose", 0, 1], ["restart", 0], ["resend", 1, 0], ["pull", 1, 0, 3], ["pull", 1, 1], ["servers", 2],
                ["session", 0, []], ["read", 1, 0, "a"], ["log", 2], ["entry", 0, 1, [], 0, "refused"]):
        checks.that("the line %r" % bad, run(program, folder, script(*start, bad)), (2, "", "bayou: line 4: out of place\n"))
    for count in range(5, frames.SERVERS + 1):
        checks.that("%d servers" % count, run(program, folder, script(["servers", count])), (2, "", "bayou: line 1: out of place\n"))
    for text, fault in (("", "line 1: out of place"), ("{\n", "line 1: not JSON"), ('["servers",2]\n["walk"]\n', "line 2: bad shape"),
                        ('["servers",2]\n["session",0,[]]\n["read",0,0,"A"]\n', "line 3: bad key")):
        checks.that("the script %r" % text, run(program, folder, text), (2, "", "bayou: %s\n" % fault))
    for words in (["net"], ["net", "--dir"], ["net", "--dir", ""], ["net", "--dir", folder, "one", "two"], ["net", folder]):
        status, output, errors = net_runs.call(program, words, ONE)
        checks.that("the words %r" % words, (status, output, errors[:6]), (2, "", "error:"))
    for name in (os.path.join(room, "absent.jsonl"), room):
        checks.that("the script " + name, run(program, folder, ONE, name), (3, "", "bayou: input\n"))
    checks.that("a folder in which nothing was run", os.listdir(folder), [])


def files(checks, program, room):
    """The same script by its name, and as the standard input."""
    path = os.path.join(room, "one.jsonl")
    with open(path, "w", encoding="ascii") as it:
        it.write(ONE)
    told = (0, "0 wrote 0:1 clock 1 deps 0\ntotals reads 0 writes 1 refusals 0 slips 0\nsettled 0 accepted 1 adopted 0\nclean\n", "")
    ways = [("", [path]), (ONE, []), (ONE, ["-"])]
    kept = []
    for number, (text, words) in enumerate(ways):
        folder = fresh(room, "file-%d" % number)
        checks.that("a script by the words %r" % words, run(program, folder, text, *words), told)
        kept.append(contents(folder))
    checks.that("what they leave", kept, [kept[0]] * len(ways))
    with open("/dev/full", "wb") as full:
        status, _, errors = net_runs.call(program, ["net", "--dir", fresh(room, "full")], ONE, to=full)
    checks.that("an output that can't be written", (status, errors), (3, "bayou: output\n"))
