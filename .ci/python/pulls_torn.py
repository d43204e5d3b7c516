"""A journal of a server that pulled several Writes at once, and of whose last piece not all was written as power was cut."""
import multiprocessing
import os
import random
import re
import subprocess
import tempfile

from living import SECONDS
from pulls_made import COUNT, PULLER, Calls, content, entries, in_memory, path_in, puller, source, vector_of, writes_of

# How many Writes are pulled, so that a piece has some entries or as many as any, and how long a sync takes in microseconds: so long that what is sent
# meanwhile waits to be read at once.
SOME, MANY = 32, 300
SLOW = 20000
# How many processes start servers, and how many starts each takes at once.
AT_ONCE = 16
STARTS_AT_ONCE = 64
# A disk writes so many bytes at once, and tries so many mixtures of blocks that were written and of others that weren't.
BLOCK = 512
MIXED = 100
DROPPED = r"bayou: dropped %d bytes of .*\n"
LAST = r"bayou: .*: the last entry is damaged: its %d bytes from byte %d on were dropped\n"
DAMAGED = r"bayou: .*: it is whole up to byte %d, and the %d bytes behind that are damaged; nothing was changed\n"
SERVE = ["serve", "--id", str(PULLER), "--servers", str(COUNT), "--dir", ".", "--listen", "127.0.0.1:0", "--until-input-ends", "--connections", "1"]


class Left:
    """What a cut of power left of a journal, and what docs/TROUBLE.md says of it."""

    def __init__(self, bytes_left):
        self.bytes = bytes_left
        bodies, ends = entries(bytes_left)
        self.held, self.end, self.behind = len(bodies), ends[-1], bytes_left[ends[-1]:]

    def wants(self):
        """How many bytes the entry has whose length stands after the whole ones."""
        return 2 + int.from_bytes(self.behind[:2], "big") + 32

    def told(self):
        """What a start on it tells, as a pattern; and whether it starts."""
        if not self.behind:
            return "", True
        if not any(self.behind) or len(self.behind) < max(2, self.wants()):
            return DROPPED % len(self.behind), True
        if len(self.behind) == self.wants():
            return LAST % (len(self.behind), self.end), True
        return DAMAGED % (self.end, len(self.behind)), False

    def is_well(self, program):
        """Whether a start on it ends so: it holds what is whole, or changes nothing."""
        pattern, starts = self.told()
        with tempfile.TemporaryDirectory(dir=taken[1]) as folder:
            path = path_in(folder)
            with open(path, "wb") as journal:
                journal.write(self.bytes)
            done = subprocess.run([program] + SERVE, input=b"", stdout=subprocess.PIPE, stderr=subprocess.PIPE, timeout=SECONDS, cwd=folder)
            left = content(path)
        if re.fullmatch(pattern, done.stderr.decode()) is None:
            return False
        if not starts:
            return (done.returncode, done.stdout, left == self.bytes) == (3, b"", True)
        is_held = re.match(rb"serving %d at [0-9.:]+ holds %s\n" % (PULLER, vector_of(self.held).encode()), done.stdout) is not None
        return (done.returncode, is_held, left == self.bytes[:self.end]) == (0, True, True)


def take(program, room):
    """What the processes that start servers have."""
    global taken
    taken = (program, room)


def starts_well(bytes_left):
    return Left(bytes_left).is_well(taken[0])


class Torn:
    """The group of checks. Whoever has it has `program`, `meddle` and `that`."""

    def torn(self):
        """Each byte of a piece of some entries, and some of the bytes of a longest one."""
        self.torn_piece(SOME, 1)
        self.torn_piece(MANY, 16)

    def all_torn(self):
        """Each byte of a longest piece."""
        self.torn_piece(MANY, 1)

    def torn_piece(self, number, step):
        with in_memory() as folder:
            whole, start = self.pulled(folder, number)
            piece = len(entries(whole)[0]) - len(entries(whole[:start])[0])
            self.that("a piece has many entries: %d" % piece, piece >= 16 and len(whole) - start > 3 * BLOCK)
            self.each("a piece of %d entries, cut off" % piece, folder, [whole[:at] for at in places(whole, start, step)])
            self.each("with zeros at its end", folder, [whole[:at] + bytes(len(whole) - at) for at in places(whole, start, 8 * step)])
            self.blocks(folder, whole, start)

    def pulled(self, folder, number):
        """The journal of a server that pulled, up to the end of its longest piece, and where that begins."""
        os.mkdir(os.path.join(folder, "source"))
        server = source(self.program, os.path.join(folder, "source"), list(writes_of(number)))
        calls, path = os.path.join(folder, "calls"), path_in(folder)
        one = puller(self.program, folder, server.port, variables={"LD_PRELOAD": self.meddle(), "CALLS": calls, "SLOW": str(SLOW)})
        self.that("a server that pulls", one.told.find("bayou: peer 0 reached pulled %d had 0" % number) is not None)
        for each in (one, server):
            each.end()
        start, end = max(Calls(calls, path, 0).pieces, key=lambda piece: piece[1] - piece[0])
        return content(path)[:end], start

    def each(self, name, folder, lefts):
        """Each start on what was left so."""
        with multiprocessing.get_context("fork").Pool(AT_ONCE, take, (self.program, folder)) as pool:
            are_well = pool.map(starts_well, lefts, STARTS_AT_ONCE)
        wrong = [at for at, is_well in enumerate(are_well) if not is_well]
        self.that("%s: %d starts (wrong ones: %s)" % (name, len(lefts), wrong[:8]), (len(lefts) > 0, len(wrong)), (True, 0))

    def blocks(self, folder, whole, start):
        """Blocks that weren't written though later ones were: that is damage, but in the last entry alone."""
        last = entries(whole)[1][-2]
        numbers = range(start // BLOCK, (len(whole) - 1) // BLOCK + 1)
        lefts = [without(whole, start, {number}) for number in numbers if (number + 1) * BLOCK <= last]
        self.that("each is damage of which the block isn't its last", [Left(left).told()[1] for left in lefts].count(True), 0)
        self.each("without one of its blocks", folder, lefts)
        order = random.Random("blocks")
        mixed = [without(whole, start, {number for number in numbers if order.random() < 0.5}) for _ in range(MIXED)]
        self.each("without some of its blocks", folder, mixed)


def places(whole, start, step):
    """Where the piece is changed: each so many bytes, and beside the ends of its entries."""
    beside = {end + more for end in entries(whole)[1] for more in (-1, 0, 1, 2)}
    return [at for at in range(start, len(whole) + 1) if at % step == 0 or at in beside]


def without(whole, start, numbers):
    """The journal with zeros in the place of those blocks, but for what stands before the piece."""
    left = bytearray(whole)
    for number in numbers:
        begin, end = max(start, number * BLOCK), min(len(whole), (number + 1) * BLOCK)
        left[begin:end] = bytes(end - begin)
    return bytes(left)
