"""Runs whose output takes one byte at a call, and of which each of those calls fails in turn."""
import frames
from net_meddled import Meddled
from net_runs import content, fresh, journal, put, script
from net_verdicts import own

SCRIPT = script(["servers", 1], ["session", 0, []], ["write", 0, 0, put("a", 1)], ["phase"], ["write", 0, 0, put("a", 2)], ["log", 0], ["judge"])
# What each phase prints, and what the end does; and how many Writes are there then.
PRINTED = [("0 wrote 0:1 clock 1 deps 0\n", 1),
           ("0 wrote 0:2 clock 2 deps 1\nlog 0 0:1 clock 1 updated\nlog 0 0:2 clock 2 updated\nlog 0 at 2\nclean\n", 2),
           ("totals reads 0 writes 2 refusals 0 slips 0\nsettled 0 accepted 2 adopted 0\nclean\n", 2)]
WHOLE = "".join(text for text, _ in PRINTED)


def writes_by(end):
    """How many Writes are there once a call failed after so many bytes: what is printed of a phase comes after all that it does."""
    for text, number in PRINTED:
        if end < len(text):
            return number
        end -= len(text)
    raise ValueError("nothing is printed there")


def left(number):
    """A journal with the first so many Writes."""
    return frames.journal_of(0, [own(0, seq, seq, [seq - 1], seq) for seq in range(1, number + 1)])


def bytes_told(checks, program, room):
    """Each byte of the output: what was printed before it is a front, its fault is reported, nothing is printed after it, and what was done is there."""
    meddled, folder = Meddled(program, room), fresh(room, "short")
    checks.that("an output that takes a byte at a call", meddled.run(folder, SCRIPT, "tell 0 short"), (0, WHOLE, ""))
    checks.that("its calls", meddled.number("tell"), len(WHOLE))
    wrong = []
    for end in range(len(WHOLE)):
        folder = fresh(room, "told-%d" % end)
        told = meddled.run(folder, SCRIPT, "tell 0 short tell %d fail" % (end + 1))
        found = (told, meddled.number("tell"), content(journal(folder, 0)))
        if found != ((3, WHOLE[:end], "bayou: output\n"), end + 1, left(writes_by(end))):
            wrong.append((end, found))
    checks.that("each byte of an output that fails", wrong[:1], [])
