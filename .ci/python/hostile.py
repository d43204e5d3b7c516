"""The client in python believes nothing that no server says. Call: hostile.py PROGRAM [ROUNDS [SEED]]; the program isn't called.

Servers answer reads, Writes, reopenings and dumps with replies at random: right ones, changed, cut, longer and empty ones, and any bytes. What the
client tells of each is what docs/FORMATS.md says, read by frames.py, which shares nothing with it.
"""
import importlib.util
import io
import os
import random
import re
import shutil
import socket
import struct
import subprocess
import sys
import tempfile
import threading
import time
import unittest

import frames
from checks import Checks

sys.path.insert(0, os.path.join("..", "clients", "python"))
import bayou  # noqa: E402

TIMEOUT = 0.3
PUT = {"update": [["put", "a", 1]]}
HELD = frames.counts(3, 5)


class Answers:
    """A server that answers each request with the bytes that are given to it, and then ends the connection, or is silent."""

    def __init__(self):
        self.listener = socket.create_server(("127.0.0.1", 0))
        self.address = "127.0.0.1:%d" % self.listener.getsockname()[1]
        self.answer, self.is_silent = b"", False
        threading.Thread(target=self.serve, daemon=True).start()

    def serve(self):
        while True:
            stream, _ = self.listener.accept()
            threading.Thread(target=self.answers, args=(stream,), daemon=True).start()

    def answers(self, stream):
        with stream:
            try:
                while stream.recv(65_536):
                    stream.sendall(self.answer)
                    if not self.is_silent:
                        return
            except OSError:
                pass


def right_reply(rng, kind, seq):
    if kind == "read":
        value = rng.choice([b"\0", frames.value_bytes(rng.randrange(-9, 9)), frames.value_bytes("x" * rng.randrange(33))])
        return frames.frame(frames.SEEN, value + frames.vector_bytes(HELD))
    if kind == "write":
        return frames.frame(frames.ACCEPTED, struct.pack(">BII", 0, seq, seq + rng.randrange(3)) + frames.vector_bytes(frames.counts(seq - 1, 5)))
    if kind == "reopen":
        return frames.frame(frames.REOPENED, rng.choice([b"\0", b"\1" + struct.pack(">BI", 0, 4)]))
    writes = [(0, number + 1, number + 1, frames.counts(number), ([], [("put", "a", ("lit", number))], [])) for number in range(rng.randrange(3))]
    return b"".join(frames.frame(frames.ITEM, frames.write_bytes(write)) for write in writes) + frames.frame(frames.END, struct.pack(">I", len(writes)))


def changed(rng, reply):
    """The reply, or something in its place."""
    way = rng.randrange(9)
    if way == 0:
        return reply
    if way == 1:
        return reply[:rng.randrange(len(reply))]
    if way == 2:
        return reply + bytes(rng.randrange(1, 4))
    if way == 3:
        return struct.pack(">H", rng.choice([0, 0, 8_193, 65_535])) + reply[2:]
    if way == 4:
        return rng.randbytes(rng.randrange(200))
    if way == 5:
        return frames.frame(reply[2], reply[3:] + b"\0")
    if way == 6:
        return frames.refused(rng.randrange(12), rng.choice([b"", b"\0\0\0\7", frames.vector_bytes(HELD)]))
    if way == 7:
        return frames.frame(rng.choice([frames.SEEN, frames.ACCEPTED, frames.REOPENED, frames.END, 0, 0x17]), reply[3:])
    at = rng.randrange(len(reply))
    return reply[:at] + bytes([reply[at] ^ 1 << rng.randrange(8)]) + reply[at + 1:]


def expected(kind, data):
    """What the client is to tell of these bytes: the name of a fault, or what it heard."""
    read, ended = frames.frames_of(data)
    if not read:
        return "Lost"
    first = read[0][0]
    if first[0] == frames.REFUSED:
        return "Behind" if first[1][0] == frames.BEHIND else bayou._REFUSALS[first[1][0]].__name__
    if kind == "read" and first[0] == frames.SEEN:
        return first[1]
    if kind == "write" and first[0] == frames.ACCEPTED:
        (origin, seq), clock, deps = first[1:]
        return (origin, seq, clock) if origin == 0 and clock >= seq and deps[0] == seq - 1 else "Lost"
    if kind == "reopen" and first[0] == frames.REOPENED:
        return first[1]
    return "Lost"


def dumped(data):
    """What it is to tell of these bytes where it asked for a dump: Items are Writes' bytes of any kind, up to a size."""
    count, at = 0, 0
    while len(data) - at >= 3:
        length, kind = struct.unpack_from(">HB", data, at)
        payload = data[at + 3:at + 2 + length]
        if not 1 <= length <= frames.MAX_FRAME or len(payload) != length - 1:
            break
        if kind == frames.END:
            return count if len(payload) == 4 and struct.unpack(">I", payload) == (count,) else "Lost"
        if kind == frames.REFUSED:
            return expected("dump", data[at:]) if count == 0 else "Lost"
        if kind != frames.ITEM or len(payload) > 5_844:
            break
        count, at = count + 1, at + 2 + length
    return "Lost"


def told(kind, session):
    link = session.links[0]
    try:
        if kind == "read":
            return session.read("a")
        if kind == "write":
            accepted = session.write(PUT)
            return (accepted.origin, accepted.seq, accepted.clock)
        return link.reopen() if kind == "reopen" else len(link.dump())
    except bayou.BayouError as fault:
        return type(fault).__name__


def rounds(checks, count, seed):
    rng, server = random.Random(seed), Answers()
    for number in range(count):
        kind = rng.choice(["read", "write", "reopen", "dump"])
        data = changed(rng, right_reply(rng, kind, rng.randrange(1, 9)))
        server.answer, server.is_silent = data, False
        with bayou.Session([server.address], number=0, run=1, timeout=TIMEOUT) as session:
            checks.that("a %s that is answered %s" % (kind, data.hex()), told(kind, session), dumped(data) if kind == "dump" else expected(kind, data))


def leftovers(checks):
    """Bytes after a reply are none of the next one's."""
    server = Answers()
    server.is_silent = True
    first = frames.frame(frames.SEEN, frames.value_bytes(1) + frames.vector_bytes(HELD))
    other = frames.frame(frames.SEEN, frames.value_bytes(2) + frames.vector_bytes(HELD))
    with bayou.Session([server.address], timeout=TIMEOUT) as session:
        server.answer = first + other
        checks.that("the first of two replies", session.read("a"), 1)
        server.answer = first
        checks.that("the other isn't the next one's", session.read("a"), 1)


def drips(checks):
    """A reply that drips ends in time."""
    listener = socket.create_server(("127.0.0.1", 0))

    def drip():
        stream, _ = listener.accept()
        with stream:
            for byte in frames.frame(frames.SEEN, b"\0" + frames.vector_bytes(HELD)):
                try:
                    stream.sendall(bytes([byte]))
                except OSError:
                    return
                time.sleep(TIMEOUT / 3)
    threading.Thread(target=drip, daemon=True).start()
    with bayou.Session(["127.0.0.1:%d" % listener.getsockname()[1]], timeout=TIMEOUT) as session:
        begun = time.monotonic()
        checks.that("a reply that drips", told("read", session), "Lost")
        checks.that("it ends in time", time.monotonic() - begun < 3 * TIMEOUT, True)


def words(checks):
    for name, call in (("a text for a list", lambda: bayou.Session(["127.0.0.1:7"], asks="ryw")), ("a text for addresses", lambda: bayou.Session("127.0.0.1:7")),
                       ("no port", lambda: bayou.Session(["127.0.0.1"])), ("no number", lambda: bayou.Session(["127.0.0.1:x"])), ("no host", lambda: bayou.Session([":7"])),
                       ("a port above all", lambda: bayou.Session(["127.0.0.1:65536"])), ("no text", lambda: bayou.Session([7]))):
        try:
            call()
            checks.that(name, "taken", "BadRequest")
        except bayou.BayouError as fault:
            checks.that(name, type(fault).__name__, "BadRequest")


def own_tests(checks):
    """The tests beside the client."""
    folder = os.path.join("..", "clients", "python")
    tests = unittest.defaultTestLoader.discover(folder)
    ended = unittest.TextTestRunner(stream=io.StringIO()).run(tests)
    checks.that("the tests beside the client", [str(one) for one, _ in ended.failures + ended.errors], [])
    checks.that("there are tests beside the client", ended.testsRun >= 9, True)


def installed(checks):
    """The client, installed into a folder as its page says, where there is what that takes."""
    if None in [importlib.util.find_spec(name) for name in ("pip", "setuptools", "wheel")]:
        print("hostile: there is no pip with setuptools and wheel, so the client wasn't installed")
        return
    with tempfile.TemporaryDirectory() as folder:
        source = os.path.join(folder, "source")
        shutil.copytree(os.path.join("..", "clients", "python"), source, ignore=shutil.ignore_patterns("__pycache__"))
        words = [sys.executable, "-m", "pip", "install", "--quiet", "--no-index", "--no-build-isolation", "--no-deps", "--target", os.path.join(folder, "at"), source]
        done = subprocess.run(words, stdin=subprocess.DEVNULL, capture_output=True, text=True)
        checks.that("an installation", (done.returncode, done.stderr if done.returncode else ""), (0, ""))
        with open(os.path.join("..", "man", "bayou.1")) as page:
            version = re.search(r"bayou ([0-9.]+)", page.readline()).group(1)
        checks.that("its version is the program's", os.path.isdir(os.path.join(folder, "at", "bayou-%s.dist-info" % version)), True)
        told = subprocess.run([sys.executable, "-c", "import bayou; print(bayou.Session([]).final()[0])"], cwd=os.path.join(folder, "at"), capture_output=True, text=True)
        checks.that("what was installed", told.stdout, "0\n")


def main():
    checks = Checks()
    own_tests(checks)
    installed(checks)
    rounds(checks, int(sys.argv[2]) if len(sys.argv) > 2 else 4_000, int(sys.argv[3]) if len(sys.argv) > 3 else 1)
    leftovers(checks)
    drips(checks)
    words(checks)
    print("%d passed, %d failed" % (checks.passed, checks.failed))
    return 1 if checks.failed else 0


if __name__ == "__main__":
    sys.exit(main())
