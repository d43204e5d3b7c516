"""Each bit of what is kept turned, tried from outside: what was reported stays, but for the very last, or the fault is named and nothing changes."""
import os
import re
import shutil
import struct
import subprocess

import frames
from living import SECONDS, Server
from meeting import free_port

# Where not each bit is tried, every so many are, and each of these first bytes of the first and the last entries.
STEP = 997
EDGE_BYTES = 3
# How many processes try them at once, some bits and each one: a call mostly waits for the disk and for its threads.
AT_ONCE = 4
ALL_AT_ONCE = 64
DROPPED = r"bayou: .*: the last entry is damaged: its [0-9]+ bytes from byte [0-9]+ on were dropped\n"
TORN = r"bayou: dropped [0-9]+ bytes of .*\n"
DAMAGED = r"bayou: .*: it is whole up to byte [0-9]+, and the [0-9]+ bytes behind that are damaged; nothing was changed\n"
OTHERS = r"bayou: .*: it is (no journal|another server's journal|no state of sessions; nothing was changed)\n"


def entries_of(whole):
    """Where each entry of a journal begins, and where the last one ends."""
    at, starts = frames.HEADER, []
    while at < len(whole):
        starts.append(at)
        at += 2 + int.from_bytes(whole[at:at + 2], "big") + 32
    return starts + [at]


def places(whole, starts, each):
    """The bits that are tried, by their numbers."""
    if each:
        return range(8 * len(whole))
    bits = set(range(0, 8 * len(whole), STEP))
    for at in [0, frames.HEADER - EDGE_BYTES, *starts[:2], *starts[-4:], len(whole) - EDGE_BYTES]:
        bits.update(range(8 * at, 8 * min(at + EDGE_BYTES, len(whole))))
    return sorted(bits)


def flip(tries):
    """What .ci/flip.c is for LD_PRELOAD."""
    if getattr(tries, "flip", None) is None:
        tries.flip = os.path.join(tries.room, "flip.so")
        subprocess.run(["cc", "-O1", "-Wall", "-shared", "-fPIC", "-o", tries.flip, "flip.c"], check=True)
    return tries.flip


class Bits:
    """Tries over one kept file: a call over it, the number that it prints of what is kept, and what it may tell of what it dropped and of damage."""

    def __init__(self, tries, path, words, given, number, dropped, named):
        self.tries, self.path, self.words, self.given, self.number, self.dropped, self.named = tries, path, words, given, number, dropped, named
        with open(path, "rb") as file:
            self.whole = file.read()
        self.starts = entries_of(self.whole)
        done = subprocess.run([tries.program] + words, input=given, stdout=subprocess.PIPE, stderr=subprocess.PIPE, timeout=SECONDS, cwd=self.copy())
        self.most = self.count(done.stdout.decode())

    def copy(self):
        """A copy of the folder."""
        made = os.path.join(self.tries.folder(), "copy")
        shutil.copytree(os.path.dirname(self.path), made)
        return made

    def count(self, printed):
        found = re.search(self.number, printed)
        return None if found is None else int(found.group(1))

    def calls(self, bits):
        """Calls of the program, each with one of these bits turned."""
        folder, listed = self.copy(), os.path.join(self.tries.folder(), "bits")
        with open(listed, "wb") as file:
            file.write(b"".join(bit.to_bytes(4, "little") for bit in bits))
        variables = {"LD_PRELOAD": flip(self.tries), "FLIPPED": os.path.basename(self.path), "BITS": listed, "TOLD": listed + ".told", "GIVEN": self.given.decode()}
        return subprocess.Popen([self.tries.program] + self.words, cwd=folder, env={**os.environ, **variables}), listed + ".told"

    def is_well(self, bit, status, same, left, printed, told):
        count = self.count(printed)
        if count is None:
            return status != 0 and same == left == len(self.whole) and re.fullmatch(self.named, told) is not None
        # What goes is the last entry, and that is reported.
        return same >= self.starts[-2] and count >= self.most - 1 and re.match(self.dropped, told) is not None

    def wrong(self, told, bits):
        """Those of the bits that took what they may not, or of which nothing came."""
        with open(told, "rb") as file:
            text = file.read()
        at, wrong = 0, []
        for bit in bits:
            found, status, same, left, printed, more = struct.unpack_from("<6I", text, at) if at < len(text) else (None,) * 6
            if found != bit:
                return wrong + [bit]
            at += 24 + printed + more
            if not self.is_well(bit, status, same, left, text[at - printed - more:at - more].decode(), text[at - more:at].decode()):
                wrong.append(bit)
        return wrong

    def go(self, each, name):
        bits = list(places(self.whole, self.starts, each))
        at_once = ALL_AT_ONCE if each else AT_ONCE
        parts = [bits[at::at_once] for at in range(at_once)]
        begun = [(self.calls(part), part) for part in parts if part]
        wrong = []
        for (call, told), part in begun:
            call.wait()
            wrong += self.wrong(told, part)
        self.tries.that("no bit of %d %s takes a told Write but the last (those that do: %s)" % (len(bits), name, wrong[:8]), (self.most is None, len(wrong)), (False, 0))


def write(tries, folder, count):
    """A journal of so many Writes."""
    server = Server(tries.program, folder, 0, servers=1, new=True)
    server.serving()
    words = ["connect", "--server", "0=" + server.address(), "--state", os.path.join(folder, "st"), "--session", "all"]
    done = tries.call(words, b"".join(b"put k%d %d\n" % (number % 50, number) for number in range(count)))
    tries.that("%d Writes are told" % count, (done[0], done[1].count("wrote ")), (0, count))
    server.end()
    return os.path.join(folder, "server-0.journal")


def flipped(tries, each, counts=(1, 60, 200)):
    for count in counts:
        folder = tries.folder()
        path = write(tries, folder, count)
        serve = ["serve", "--id", "0", "--servers", "1", "--dir", ".", "--listen", "127.0.0.1:0", "--until-input-ends"]
        Bits(tries, path, serve, b"", r"serving .* holds ([0-9]+)\n", DROPPED + "|" + TORN, DAMAGED + "|" + OTHERS).go(each, "of a journal of %d Writes, served," % count)
        with open(os.path.join(folder, "script"), "w") as file:
            file.write('["servers",1]\n["session",0,["ryw"]]\n["read",0,0,"k0"]\n')
        # What a script over sockets ends with is one word; what it dropped of an entry that was cut off it doesn't tell.
        net = ["net", "--dir", ".", "script"]
        Bits(tries, path, net, b"", r"read k0 .* at ([0-9]+)", DROPPED + "|", "(%s)?bayou: device\n(  [^\n]+\n)?" % DAMAGED).go(each, "of a journal of %d Writes, in a script over sockets," % count)
        connect = ["connect", "--server", "0=127.0.0.1:%d" % free_port(), "--state", "st"]
        Bits(tries, os.path.join(folder, "st"), connect, b"session\n", r"wrote ([0-9]+)", DROPPED + "|", DAMAGED + "|" + OTHERS).go(each, "of a state of %d Writes" % count)
