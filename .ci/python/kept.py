"""What was reported is kept, tried from outside. Call: kept.py PROGRAM [GROUP..]."""
import itertools
import os
import re
import signal
import subprocess
import sys
import tempfile

import frames
import kept_beginning
import kept_bits
import kept_losing
import kept_restoring
from checks import Checks
from living import SECONDS, Server
from meeting import free_port, soon

sys.path.insert(0, os.path.join("..", "clients", "python"))
import bayou  # noqa: E402


# The groups that are tried where none is named.
GROUPS = ["closed", "flipped", "beginnings", "differing", "losses"]


def closing(subset):
    def close():
        for descriptor in subset:
            os.close(descriptor)
    return close


def left_behind(path):
    """How many entries a journal has, and how many bytes stand after the last whole one."""
    with open(path, "rb") as file:
        whole = file.read()
    digest, at, count = frames.hashlib.sha256(whole[:frames.HEADER]).digest(), frames.HEADER, 0
    while True:
        size = int.from_bytes(whole[at:at + 2], "big")
        end = at + 2 + size + 32
        if size == 0 or end > len(whole) or frames.hashlib.sha256(digest + whole[at:end - 32]).digest() != whole[end - 32:end]:
            return count, len(whole) - at
        digest, at, count = whole[end - 32:end], end, count + 1


class Tries:
    def __init__(self, program, room):
        self.program, self.room, self.checks = program, room, Checks()

    def folder(self):
        return tempfile.mkdtemp(dir=self.room)

    def that(self, name, told, expected=True):
        self.checks.that(name, told, expected)

    def call(self, words, given=b"", subset=()):
        """A call of the program with a subset of its standard streams closed: its status, and what it printed and told where it could."""
        done = subprocess.run([self.program] + words, input=given, stdout=subprocess.PIPE, stderr=subprocess.PIPE, timeout=SECONDS, preexec_fn=closing(subset))
        return done.returncode, done.stdout.decode(), done.stderr.decode()

    def of(self, module):
        tries = module.Tries(self.program, self.room)
        tries.checks = self.checks
        for group in module.GROUPS:
            getattr(tries, group)()

    def beginnings(self):
        self.of(kept_beginning)

    def differing(self):
        self.of(kept_restoring)

    def losses(self):
        self.of(kept_losing)

    # Turned bits.

    def flipped(self):
        kept_bits.flipped(self, False)

    def all_flipped(self):
        kept_bits.flipped(self, True)

    # Closed streams.

    def closed(self):
        for subset in itertools.chain.from_iterable(itertools.combinations(range(3), count) for count in range(4)):
            name = "with %s closed" % (", ".join(map(str, subset)) or "nothing")
            self.closed_serve(subset, name)
            self.closed_connect(subset, name)
            self.closed_net(subset, name)
            self.closed_key(subset, name)
            self.closed_renew(subset, name)
            self.closed_others(subset, name)

    def closed_serve(self, subset, name):
        folder, port = self.folder(), free_port()
        path = os.path.join(folder, "server-0.journal")
        server = Server(self.program, folder, 0, servers=1, port=port, new=True, until=False, before=closing(subset))
        at = "127.0.0.1:%d" % port
        count = 0
        for number in range(100):
            accepted = soon(lambda: write_at(at, number))
            count += accepted is not None and accepted.seq == number + 1
        self.that("serve takes each Write " + name, count, 100)
        server.kill()
        self.that("the journal of serve has them and nothing else " + name, left_behind(path), (100, 0))
        server = Server(self.program, folder, 0, servers=1)
        self.that("serve starts with all of them behind that " + name, server.serving(), "serving 0 at 127.0.0.1:%s holds 100" % server.port)
        server.end()

    def closed_connect(self, subset, name):
        folder = self.folder()
        state, book = os.path.join(folder, "st"), os.path.join(folder, "book")
        server = Server(self.program, folder, 0, servers=1, new=True)
        server.serving()
        words = ["connect", "--server", "0=" + server.address(), "--state", state, "--book", book, "--session", "all"]
        lines = b"".join(b"put k%d %d\n" % (number, number) for number in range(3))
        status = self.call(words, lines, subset)[0]
        self.that("connect ends well " + name, status, 0)
        status = self.call(words, lines + b"dump\n")
        self.that("connect goes on from its state behind that " + name, status[0], 0)
        self.that("its state has entries and nothing else " + name, (left_behind(state)[1], left_behind(state)[0] > 0), (0, True))
        server.end()
        audited = self.call(["audit", book])
        self.that("its book is an audit file " + name, (audited[0], audited[1].split("\n")[0]), (0, "clean"))

    def closed_net(self, subset, name):
        folder = self.folder()
        script = os.path.join(self.room, "closed.script")
        with open(script, "w") as file:
            file.write('["servers",2]\n["session",0,["ryw"]]\n' + "".join('["write",0,0,{"update":[["put","a",%d]]}]\n' % number for number in range(5)) + '["log",0]\n')
        status = self.call(["net", "--dir", folder, script], b"", subset)[0]
        self.that("net ends well " + name, status, 0)
        self.that("the journals of net have their Writes and nothing else " + name, [left_behind(os.path.join(folder, "server-%d.journal" % index)) for index in range(2)], [(5, 0), (0, 0)])

    def closed_key(self, subset, name):
        path = os.path.join(self.folder(), "store.key")
        self.that("key ends well " + name, self.call(["key", path, "--name", "room"], b"", subset)[0], 0)
        with open(path) as file:
            self.that("its file has the key and nothing else " + name, re.fullmatch(r"bayou-key-1 room [0-9a-f]{64}\n", file.read()) is not None)

    def closed_renew(self, subset, name):
        """What is made with the streams closed has the entries of what is made with them open, and nothing after them."""
        old, path = self.folder(), "server-0.journal"
        server = Server(self.program, old, 0, servers=1, new=True)
        server.serving()
        for number in range(5):
            write_at(server.address(), number)
        server.end()
        before = left_behind(os.path.join(old, path))
        made = []
        for closed in ((), subset):
            new = self.folder()
            status = self.call(["renew", "--id", "0", "--servers", "1", "--dir", old, "--to", new, "--at", "5"], b"", closed)[0]
            made.append((status, os.listdir(new), left_behind(os.path.join(new, path))))
        self.that("renew ends well %s" % name, made[0][:2], (0, [path]))
        self.that("what renew made has its Writes and nothing else %s" % name, made[1], made[0])
        self.that("the old journal stays as it was %s" % name, left_behind(os.path.join(old, path)), before)

    def closed_others(self, subset, name):
        script = os.path.join(self.room, "closed.script")
        for words in (["run", script], ["--help"], ["audit", script]):
            expected, printed, told = self.call(words)
            status, some_printed, some_told = self.call(words, b"", subset)
            self.that("%s %s" % (words[0], name), (status, some_printed, some_told), (expected, "" if 1 in subset else printed, "" if 2 in subset else told))


def write_at(address, number):
    with bayou.Session([address], number=1) as session:
        return session.write({"update": [["put", "k%03d" % number, number]]})


def main():
    program, groups = sys.argv[1], sys.argv[2:]
    signal.signal(signal.SIGPIPE, signal.SIG_IGN)
    with tempfile.TemporaryDirectory() as room:
        tries = Tries(program, room)
        for group in groups or GROUPS:
            getattr(tries, group)()
    print("%d passed, %d failed" % (tries.checks.passed, tries.checks.failed))
    return 1 if tries.checks.failed else 0


if __name__ == "__main__":
    sys.exit(main())
