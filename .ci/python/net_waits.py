"""Runs that wait in a call: the lines of the phases before have come, a terminal shows it, and journals may change meanwhile."""
import os
import pty
import re
import threading
import time

import frames
from net_meddled import Meddled
from net_runs import Running, content, fresh, journal, put, script
from net_verdicts import own

# A terminal shows two seconds in so many.
WAITS = 2.6


class Terminal:
    """A terminal, and what it shows."""

    def __init__(self):
        self.own, self.other = pty.openpty()
        self.shown = b""
        self.reader = threading.Thread(target=self.read)

    def read(self):
        try:
            while True:
                piece = os.read(self.own, 4096)
                if not piece:
                    return
                self.shown += piece
        except OSError:
            # (so a terminal tells that nobody writes to it any more)
            return

    def running(self, program, folder, path, variables):
        """A run whose errors it shows."""
        running = Running(program, folder, path, variables, self.other)
        os.close(self.other)
        self.reader.start()
        return running

    def all(self):
        """What it shows to the end of the run."""
        self.reader.join()
        os.close(self.own)
        return self.shown.decode("ascii", "replace")


def written(room, *lines):
    """A file that has the script."""
    path = os.path.join(room, "script.jsonl")
    with open(path, "w", encoding="ascii") as it:
        it.write(script(*lines))
    return path


def phases(checks, program, room):
    """The lines of a phase have come, and are counted at a terminal, while the Write of the next one isn't synced."""
    path = written(room, ["servers", 1], ["session", 0, []], ["write", 0, 0, put("a", 1)], ["read", 0, 0, "a"], ["phase"],
                   ["write", 0, 0, put("a", 2)])
    meddled, terminal = Meddled(program, room), Terminal()
    running = terminal.running(program, fresh(room, "phases"), path, meddled.variables("sync 4 wait"))
    with meddled.held(running):
        time.sleep(WAITS)
        came = running.so_far()
    checks.that("the lines of a phase while the next one goes on", came, "0 wrote 0:1 clock 1 deps 0\n0 read a num 1 at 1\n")
    told = "0 wrote 0:2 clock 2 deps 1\ntotals reads 1 writes 2 refusals 0 slips 0\nsettled 0 accepted 2 adopted 0\nclean\n"
    checks.that("the lines behind them", running.rest(), (0, told))
    shown = terminal.all()
    seconds = [int(second) for second in re.findall(r"\rbayou: at work for (\d+) s, 2 lines printed", shown)]
    wanted = "".join("\rbayou: at work for %d s, 2 lines printed" % second for second in seconds) + "\r\x1b[K"
    checks.that("what a terminal shows of a long phase", shown, wanted)
    checks.that("that it shows each second", len(seconds) >= 2 and seconds == sorted(set(seconds)), True)


def short(checks, program, room):
    """Of a run of less than a second nothing is shown."""
    terminal = Terminal()
    running = terminal.running(program, fresh(room, "short"), written(room, ["servers", 1]), None)
    told = "totals reads 0 writes 0 refusals 0 slips 0\nsettled 0 accepted 0 adopted 0\nclean\n"
    checks.that("a short run at a terminal", running.rest(), (0, told))
    checks.that("what the terminal shows of it", terminal.all(), "")


def down(checks, program, room):
    """A server whose journal failed is down until it is opened again; what its file has then, another put there meanwhile."""
    path = written(room, ["servers", 1], ["session", 0, []], ["write", 0, 0, put("a", 1)], ["write", 0, 0, put("a", 2)],
                   ["write", 0, 0, put("a", 3)], ["read", 0, 0, "a"], *[["phase"], ["reopen", 0]] * 4, ["phase"], ["write", 0, 0, put("a", 4)])
    one, two, other = [own(0, seq, seq, [seq - 1], number) for seq, number in ((1, 1), (2, 2), (2, 9))]
    meddled, folder = Meddled(program, room), fresh(room, "down")
    # Each reading of the journal is two calls of its file, but that of the start is one.
    with Running(program, folder, path, meddled.variables("append 3 fail read 2 wait read 4 wait read 6 wait read 8 wait")) as running:
        finds(checks, meddled, running, folder, one, two, other)
    # (the last Write is asked for at the fifth place)
    bodies = [frames.record(0, one), frames.record(0, two), frames.own_record((0, 1, 5), own(0, 3, 3, [2], 4))]
    checks.that("the journal then", content(journal(folder, 0)), frames.journal(0, bodies))


def finds(checks, meddled, running, folder, one, two, other):
    """What the run of `down` prints, whose server holds one Write and has the second in doubt."""
    came = [running.line() for _ in range(4)]
    checks.that("a server that is down", came, ["0 wrote 0:1 clock 1 deps 0\n", "0 refused journal\n", "0 refused down\n", "0 read a num 1 at 1\n"])
    for name, bodies, told in (("less than was there", [], "lost"), ("another Write", [one, other], "record"), ("no journal", None, "journal")):
        with meddled.held(running), open(journal(folder, 0), "wb") as it:
            it.write(b"none" if bodies is None else frames.journal_of(0, bodies))
        checks.that("a reopening that finds " + name, running.line(), "reopen refused %s\n" % told)
    with meddled.held(running), open(journal(folder, 0), "wb") as it:
        it.write(frames.journal_of(0, [one, two]))
    told = "reopened 0 adopted 0:2\n0 wrote 0:3 clock 3 deps 2\n"
    told += "totals reads 1 writes 2 refusals 2 slips 0\nsettled 0 accepted 2 adopted 1\nclean\n"
    checks.that("one that finds the Write in doubt", running.rest(), (0, told))
