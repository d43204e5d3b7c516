"""Journals whose calls fail, and what a cut of power leaves of them."""
import os
import random
import tempfile

import frames
import net_kill
from net_faults import DEVICE, HEADER
from net_meddled import Meddled
from net_runs import content, fresh, journal, put, script
from net_verdicts import own

# A run that power is cut of has so many phases, and is cut at so many of its calls beside those that print.
PHASES = 8
CUTS = 8
# What is lost then of what wasn't synced.
WAYS = ["bytes", "zeros", "part", "names"]


def reads(checks, program, room):
    """A journal of which a part can't be read: nothing is run, and it stays as it is."""
    meddled, look = Meddled(program, room), script(["servers", 1], ["log", 0])
    folder = fresh(room, "reads")
    good = frames.journal_of(0, [own(0, seq, seq, [seq - 1], 1) for seq in range(1, 201)])
    with open(journal(folder, 0), "wb") as it:
        it.write(good)
    checks.that("a journal that is read", meddled.run(folder, look)[0], 0)
    # (a piece is 8,192 bytes, and the last reading finds the end)
    for number in range(1, len(good) // 8192 + 3):
        told = meddled.run(folder, look, "read %d fail" % number)
        checks.that("a journal whose reading fails at call %d" % number, (told, content(journal(folder, 0)) == good), (DEVICE, True))


def starts(checks, program, room):
    """Each other call of a start failing: of an empty file, and of one that is torn."""
    meddled, look = Meddled(program, room), script(["servers", 1], ["log", 0])
    for call in ("sync 1", "folder 1", "read 1", "append 1", "sync 2"):
        checks.that("a start whose call '%s' fails" % call, meddled.run(fresh(room, call), look, call + " fail"), DEVICE)
    for call in ("cut 1", "sync 2"):
        folder = fresh(room, "torn " + call)
        with open(journal(folder, 0), "wb") as it:
            it.write(frames.journal_of(0, [own(0, 1, 1, [], 1)])[:-1])
        checks.that("a torn journal whose call '%s' fails" % call, meddled.run(folder, look, call + " fail"), DEVICE)


def writes(checks, program, room):
    """Each call of a Write failing, and of the reopening after it."""
    meddled = Meddled(program, room)
    text = script(["servers", 1], ["session", 0, []], ["write", 0, 0, put("a", 1)], ["write", 0, 0, put("a", 2)], ["reopen", 0], ["phase"],
                  ["reopen", 0], ["phase"], ["write", 0, 0, put("a", 3)])
    last = "totals reads 0 writes 2 refusals 1 slips 0\nsettled 0 accepted 2 adopted %d\nclean\n"
    lost = "0 wrote 0:2 clock 2 deps 1\n" + last % 0
    kept = "0 wrote 0:3 clock 3 deps 2\n" + last % 1
    for meddle, told in [("append 3 fail", "reopened 0 adopted none\nreopen refused notdown\n" + lost),
                         ("sync 4 fail", "reopened 0 adopted 0:2\nreopen refused notdown\n" + kept),
                         ("sync 4 fail read 2 fail", "reopen refused journal\nreopened 0 adopted 0:2\n" + kept),
                         ("sync 4 fail sync 5 fail", "reopen refused journal\nreopened 0 adopted 0:2\n" + kept)]:
        told = "0 wrote 0:1 clock 1 deps 0\n0 refused journal\n" + told
        checks.that("a run with '%s'" % meddle, meddled.run(fresh(room, meddle), text, meddle), (0, told, ""))


class Disk:
    """What is written of the files of a folder, and what of that is sure to be there after a cut of power."""

    def __init__(self, folder):
        self.files, self.told = {}, 0
        self.synced = {path: os.path.getsize(path) for path in (os.path.join(folder, name) for name in os.listdir(folder))}
        self.written, self.named = dict(self.synced), set(self.synced)

    def call(self, words):
        """Takes the next call of the program."""
        word = words[0]
        if word == "open":
            self.files[words[1]] = words[2]
            self.synced.setdefault(words[2], 0)
            self.written.setdefault(words[2], 0)
        elif word == "append":
            self.written[self.files[words[1]]] += int(words[2])
        elif word == "sync":
            path = self.files[words[1]]
            self.synced[path] = self.written[path]
            self.named |= {other for other in self.synced if os.path.dirname(other) == path}
        elif word == "tell":
            self.told += int(words[1])

    def journals(self):
        return [path for path in self.synced if path.endswith(".journal")]

    def left(self, way, path, whole):
        """What a file that has this in the end may have after a cut now."""
        synced, written = self.synced[path], self.written[path]
        if way == "names":
            return whole[:written]
        if way == "bytes":
            return whole[:synced]
        # (before its header is synced nothing was reported, and zeros are no journal)
        if way == "zeros" and synced >= HEADER:
            return whole[:synced] + bytes(written - synced)
        return whole[:random.Random(written).randint(synced, written)]


def cut(disk, way, folder):
    """A folder with what a cut of power leaves; what has no name for sure is lost where names are."""
    to = tempfile.mkdtemp(dir=os.path.dirname(folder))
    for path in disk.journals():
        if way != "names" or path in disk.named:
            with open(os.path.join(to, os.path.basename(path)), "wb") as it:
                it.write(disk.left(way, path, content(path)))
    return to


def chosen(calls, order):
    """The calls after which power is cut: each that prints, and some others."""
    others = [at for at, call in enumerate(calls) if call[0] in ("open", "append", "sync")]
    return {at for at, call in enumerate(calls) if call[0] == "tell"} | set(order.sample(others, CUTS))


def power(checks, program, room):
    """Whenever power is cut, and whatever wasn't synced is lost then, each Write that was reported is there."""
    meddled, before, folder = Meddled(program, room), ({}, {}), fresh(room, "whole")
    for name in ("a new folder", "a folder with journals"):
        disk = Disk(folder)
        status, output, _ = meddled.run(folder, net_kill.text(PHASES))
        checks.that("a run in " + name, (status, output.count(" wrote ")), (0, 2 * PHASES))
        cuts = chosen(meddled.calls, random.Random(name))
        for at, call in enumerate(meddled.calls):
            disk.call(call)
            for way in WAYS if at in cuts else ():
                wrong = net_kill.wrong_behind(program, cut(disk, way, folder), output[:disk.told], tuple(dict(held) for held in before))
                checks.that("%s, power cut behind call %d, which loses %s" % (name, at, way), wrong, None)
        checks.that("all that is told in " + name, (disk.told, net_kill.wrong_behind(program, folder, output, before)), (len(output), None))
