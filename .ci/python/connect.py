"""A person at a store, tried from outside. Call: connect.py PROGRAM [GROUP..]."""
import hashlib
import itertools
import json
import os
import pty
import random
import re
import shutil
import signal
import socket
import struct
import subprocess
import sys
import tempfile
import threading
import time

import alone
import frames
import kept_bits
from checks import Checks
from greeting import Answering, LosesReply
from listing import Paging, full, page, with_outcomes
from living import SECONDS, Server, slowness
from meeting import HELLO, free_port, is_greeting, reply_to_greeting
from objects import Objects
from standings import Standings
from ways import AtRandom

sys.path.insert(0, os.path.join("..", "clients", "python"))
import bayou  # noqa: E402

CALENDAR = os.path.join("..", "examples", "calendar")
HEADER_BYTES = 10
UNKNOWN = "unknown word; `help` tells the lines that there are"
COUNT = "wrong number of words; a text with spaces stands in double quotes"
KEY = "bad key; a key has 1 to 32 bytes of a-z 0-9 . _ - /"
NUMBER = "bad number; it is an integer of 64 bits, with no zeros in front, plus sign or point"
LIKE_NUMBER = "bad value; a number is an integer of 64 bits, with no zeros in front, plus sign or point; as a text it stands in double quotes"
NAME = "bad name; a Write's name is the number of its server, a colon and its own number, as 0:12"
QUOTED = "bad value; from a double quote on the line is one text, as JSON spells it"
LONG = "bad value; a text has at most 32 bytes"
# What a server has for its connection and its whole reply where nothing is said, and what a busy machine may add.
TIMEOUT, BUSY = 3, 4
ENTRY_BYTES = 179
# What is reported of a value, of an own Write, and of one that isn't kept any longer.
STANDING = r"[0-9]+ (?:(?:tentative|final|changed) (?:[0-9]+:[0-9]+ (?:update|merge [0-9]+|none)|[a-z0-9._/-]+)|forgot [0-9]+:[0-9]+)"
# How often a session lists while servers pull.
LISTS = 10_000
MOST_ENTRIES = 65536


def chained(header, bodies):
    """A journal with entries of these bodies."""
    entries, digest = [header], hashlib.sha256(header).digest()
    for body in bodies:
        sized = len(body).to_bytes(2, "big") + body
        digest = hashlib.sha256(digest + sized).digest()
        entries += [sized, digest]
    return b"".join(entries)


# What is reported where a log is full.
FULL = "bayou: the log is full: start its server with a greater --limit, or go on at a new store, which `bayou renew` makes (docs/SERVE.md)"


class Listening:
    """Serves at a port of its own, in a thread of its own."""

    def listen(self):
        self.listener = socket.create_server(("127.0.0.1", 0))
        self.address = "127.0.0.1:%d" % self.listener.getsockname()[1]
        threading.Thread(target=self.serve, daemon=True).start()


class DropReply(Listening):
    """A way to a server on which the reply to the n-th request, greetings not counted, is dropped, and the connection with it."""

    def __init__(self, port, dropped):
        self.port, self.dropped = port, dropped
        self.listen()

    def serve(self):
        while True:
            try:
                near, _ = self.listener.accept()
            except OSError:
                return
            threading.Thread(target=self.relay, args=(near,), daemon=True).start()

    def relay(self, near):
        with near, socket.create_connection(("127.0.0.1", self.port)) as far:
            while True:
                request = near.recv(65536)
                if not request:
                    break
                far.sendall(request)
                reply = far.recv(65536)
                is_counted = not is_greeting(request)
                self.dropped -= is_counted
                if is_counted and self.dropped == 0 or not reply:
                    break
                near.sendall(reply)


class Dripping(Listening):
    """Answers each request with a read of nothing, byte by byte."""

    def __init__(self, rest):
        self.rest = rest
        self.listen()

    def serve(self):
        near, _ = self.listener.accept()
        with near:
            try:
                request = near.recv(65536)
                while is_greeting(request):
                    near.sendall(reply_to_greeting(request))
                    request = near.recv(65536)
                for byte in b"\x00\x42\x11\x00" + 64 * b"\x00":
                    near.sendall(bytes([byte]))
                    time.sleep(self.rest)
                near.recv(1)
            except OSError:
                pass


class Holding(Listening):
    """Tells a read that it holds nothing, and sends these Items to whoever asks what it holds, and an end after the last, if one is the last."""

    def __init__(self, items):
        self.items, self.sent = items, 0
        self.listen()

    def serve(self):
        while True:
            try:
                near, _ = self.listener.accept()
            except OSError:
                return
            with near:
                try:
                    while self.answer(near, near.recv(65536)):
                        pass
                except OSError:
                    pass

    def answer(self, near, request):
        if request[2:3] == b"\x04":
            self.sent = 0
            for item in self.items():
                near.sendall(item)
                self.sent += 1
            near.sendall(b"\x00\x05\x16" + self.sent.to_bytes(4, "big"))
        elif is_greeting(request):
            near.sendall(reply_to_greeting(request))
        elif request:
            near.sendall(b"\x00\x42\x11\x00" + 64 * b"\x00")
        return request


def item_of(write):
    """The Item of a Write, which is its bytes."""
    return (len(write) + 1).to_bytes(2, "big") + b"\x15" + write


def kinds_of(printed):
    """What kinds of lines these are, but for those of what became of Writes."""
    return [alone.kind(line) for line in printed if " became " not in line]


def without_standings(lines):
    """The lines without what they say of what is final, where a state is kept: the group `finals` tries that."""
    return [re.sub(r"^([a-z0-9._/-]+ (?:num|text) .*) (?:tentative|final)$", r"\1", line) for line in lines if not re.fullmatch(STANDING, line)]


class Tries(Standings, Objects):
    def __init__(self, program, room):
        self.program, self.room, self.checks = program, room, Checks()
        self.servers = []

    def folder(self):
        return tempfile.mkdtemp(dir=self.room)

    def that(self, name, told, expected=True):
        self.checks.that(name, told, expected)

    def start(self, folder, index=0, servers=1, new=True, **more):
        """A server that serves."""
        server = Server(self.program, folder, index, servers=servers, new=new, **more)
        self.that("server %d serves" % index, server.serving() is not None)
        self.servers.append(server)
        return server

    def stop_all(self):
        for server in self.servers:
            if server.process.poll() is None:
                server.kill()
        self.servers = []

    def call(self, servers, lines, words=(), seconds=SECONDS, standings=False):
        """What `bayou connect` prints for these lines at these servers, what it tells, and its status; what is final alone where it is asked for."""
        call = [self.program, "connect"]
        for index, address in servers:
            call += ["--server", "%d=%s" % (index, address)]
        text = "".join(line + "\n" for line in lines).encode()
        done = subprocess.run(call + list(words), input=text, stdout=subprocess.PIPE, stderr=subprocess.PIPE, timeout=seconds)
        printed = done.stdout.decode().splitlines()
        return done.returncode, printed if standings else without_standings(printed), done.stderr.decode().splitlines()

    def row(self, name, servers, lines, printed, status=0, told=(), words=()):
        self.that(name, self.call(servers, lines, words), (status, with_outcomes(lines, printed), list(told)))

    # Groups.

    def words(self):
        usage = "bayou: --server takes I=ADDRESS:PORT, with an address of numbers, I being a server's number"
        for name, words, line in [
            ("a server with no number", ["--server", "127.0.0.1:1"], usage),
            ("a server beyond all", ["--server", "16=127.0.0.1:1"], usage),
            ("a server by name", ["--server", "0=localhost:1"], usage),
            ("a server twice", ["--server", "0=127.0.0.1:1", "--server", "0=127.0.0.1:2"], "bayou: --server names a server twice"),
            ("too few servers", ["--server", "2=127.0.0.1:1", "--servers", "2"], "bayou: --servers is above each server's number"),
            ("no such guarantee", ["--server", "0=127.0.0.1:1", "--session", "ryw,all"],
             "bayou: --session takes any of ryw, mr, wfr and mw, with commas between them, or all, or none"),
        ]:
            self.row(name, [], ["session"], [], 2, [line], words)
        status, printed, told = self.call([], ["session"])
        self.that("no server", (status, printed, bool(told)), (2, [], True))
        for name in [os.path.join(self.room, "none"), "get a"]:
            self.row("a file that isn't there: " + name, [(0, "127.0.0.1:1")], [], [], 3,
                     ["bayou: %s: it can't be opened; the word is taken as the name of a file of lines, and a line itself comes by the standard input" % name],
                     [name])
        for seconds in ["0", "86401", "x"]:
            status, printed, told = self.call([(0, "127.0.0.1:1")], ["session"], ["--timeout", seconds])
            self.that("no such timeout: " + seconds, (status, printed, bool(told)), (2, [], True))
        self.row("a state in a folder that isn't there", [(0, "127.0.0.1:1")], [], [], 3,
                 ["bayou: %s/none/state: it can't be opened, or another process has it" % self.room], ["--state", self.room + "/none/state"])
        self.row("a book in a folder that isn't there", [(0, "127.0.0.1:1")], [], [], 3,
                 ["bayou: %s/none/book: it can't be opened, another process has it, or it is of other servers" % self.room],
                 ["--book", self.room + "/none/book"])
        self.row("a log in a folder that isn't there", [(0, "127.0.0.1:1")], ["get a"], [], 3, ["bayou: %s/none/log: it can't be opened" % self.room],
                 ["--log", self.room + "/none/log"])

    def logged(self):
        """Each line that is printed is added to the log, after its time; what can't be added is reported once, and keeps nothing from being printed."""
        server = self.start(self.folder())
        at, log, begun = [(0, server.address())], os.path.join(self.room, "a.log"), time.time() * 1000
        calls = [(["put a 1", "get a"], 0, ['0 wrote 0:1 clock 1 deps 0', '0 read a num 1 at 1']), (["get b", "foo"], 2, ['0 read b none at 1']), ([], 0, [])]
        told = []
        for lines, status, printed in calls:
            self.row("a call with a log", at, lines, printed, status, ["bayou: line 2: " + UNKNOWN] if status else [], ["--log", log])
            told += with_outcomes(lines, printed)
        with open(log) as file:
            logged = [line.split(" ", 1) for line in file.read().splitlines()]
        self.that("the log has each line", [line for _, line in logged], told)
        times = [int(moment) for moment, _ in logged]
        self.that("behind its time", times == sorted(times) and begun - 1 <= times[0] and times[-1] <= time.time() * 1000 + 1)
        self.that("it is its owner's", os.stat(log).st_mode & 0o777, 0o600)
        why = "bayou: /dev/full: a call of it failed: lines that were printed may be missing there"
        self.row("a log that is full", at, ["get a", "get b"], ['0 read a num 1 at 1', '0 read b none at 1'], 3, [why], ["--log", "/dev/full"])
        self.row("and a line that is refused", at, ["get a", "foo"], ['0 read a num 1 at 1'], 3, ["bayou: line 2: " + UNKNOWN, why], ["--log", "/dev/full"])

    def lines(self):
        server = self.start(self.folder())
        at = [(0, server.address())]
        self.row("a put is read", at, ["put room kim", "get room", "get none"],
                 ["0 wrote 0:1 clock 1 deps 0", '0 read room text "kim" at 1', "0 read none none at 1"])
        self.row("a number", at, ["put n 7", "add n -9", "get n", "add m 5", "get m", "add room 1", "get room"],
                 ["0 wrote 0:2 clock 2 deps 1", "0 wrote 0:3 clock 3 deps 2", "0 became 0:3 merge 1", "0 read n num -2 at 3", "0 wrote 0:4 clock 4 deps 3",
                  "0 read m num 5 at 4", "0 wrote 0:5 clock 5 deps 4", "0 became 0:5 none", '0 read room text "kim" at 5'], 1)
        self.row("a key is removed", at, ["del n", "get n", "", "   "], ["0 wrote 0:6 clock 6 deps 5", "0 read n none at 6"])
        self.row("a claim that is had", at, ["claim a b lee"], ["0 wrote 0:7 clock 7 deps 6", '0 read a text "lee" at 7'])
        self.row("a claim that falls back", at, ["claim a b kim"],
                 ["0 wrote 0:8 clock 8 deps 7", "0 became 0:8 merge 1", '0 read a text "lee" at 8', '0 read b text "kim" at 8'])
        self.row("a claim of what is taken", at, ["claim a b jo"],
                 ["0 wrote 0:9 clock 9 deps 8", "0 became 0:9 none", '0 read a text "lee" at 9', '0 read b text "kim" at 9'], 1)
        self.row("a list", at, ["list", "servers", "session", "at 0"],
                 ['a text "lee"', 'b text "kim"', "m num 5", 'room text "kim"', "list keys 4 at 9", "server 0 at 9 holds 9 of 65536",
                  "session 0 asks none", "session 0 read 9 wrote 0"])
        self.row("a script's lines", at, ['["session",3,["ryw"]]', '["write",3,0,{"update":[["put","x","a b"]]}]', '["read",3,0,"x"]', '["reopen",0]',
                                          '["again",3]', "again"],
                 ["3 wrote 0:10 clock 10 deps 9", '3 read x text "a b" at 10', "reopen refused notdown", "3 again none", "0 again none"], 1)
        for name, line, fault in [
            ("an unknown word", "put1 a b", UNKNOWN), ("too few words", "put a", COUNT), ("no key", "get A", KEY),
            ("no number", "add a b", NUMBER), ("no server", "at 16", "bad server; servers have the numbers 0 to 15"),
            ("a server that isn't named", "at 1", "out of place"), ("a long text", "put a " + 33 * "x", LONG), ("no JSON", "[1,", "not JSON"), ("no command", '["none",1]', "bad shape"),
            ("a capital in a script's line", '["read",0,0,"A"]', "bad key"), ("a line for scripts alone", '["log",0]', "out of place"),
            ("a session that isn't open", '["read",1,0,"a"]', "out of place"), ("a server of a script that isn't named", '["read",0,1,"a"]', "out of place"),
            ("a dump without a book", "dump", "out of place"), ("a line that is too long", "put a " + 65531 * "x", "bad shape"),
        ]:
            self.row(name, at, ["get x", line, "get x"], ['0 read x text "a b" at 10'], 2, ["bayou: line 2: " + fault])
        self.row("a session opened twice", at, ['["session",0,[]]', '["session",0,[]]'], [], 2, ["bayou: line 2: out of place"])
        path = os.path.join(self.room, "lines")
        with open(path, "w") as file:
            file.write("get x")
        self.row("lines of a file", at, [], ['0 read x text "a b" at 10'], words=[path])
        session = bayou.Session([server.address()], asks=["ryw"])
        session.write({"update": [["put", "shared", "python"]]})
        self.row("a Write of the client in python", at, ["get shared"], ['0 read shared text "python" at 11'])
        self.stop_all()

    def values(self):
        """Values as a person spells them: numbers in one way, and texts, in double quotes where they could be something else."""
        server = self.start(self.folder())
        at = [(0, server.address())]
        count = 0
        for spelled, shown in [
            ("7", "num 7"), ("-7", "num -7"), ("0", "num 0"), ("9223372036854775807", "num 9223372036854775807"),
            ("-9223372036854775808", "num -9223372036854775808"), ('"red room"', 'text "red room"'), ('"007"', 'text "007"'), ('""', 'text ""'),
            ('"a \\"b\\" \\u00e9\\n"', 'text "a \\"b\\" \u00e9\\n"'), ('"  two  "', 'text "  two  "'), ("10.0.0.1", 'text "10.0.0.1"'), ("7kim", 'text "7kim"'),
            ("2026-11-28", 'text "2026-11-28"'), ("-", 'text "-"'), ("'x'", """text "'x'\""""), ('"' + 32 * "x" + '"', 'text "%s"' % (32 * "x")),
        ]:
            count += 1
            self.row("a value that is spelled " + spelled, at, ["put k " + spelled, "get k"],
                     ["0 wrote 0:%d clock %d deps %d" % (count, count, count - 1), "0 read k %s at %d" % (shown, count)])
        for spelled, fault in [
            ("1.5", LIKE_NUMBER), ("007", LIKE_NUMBER), ("9223372036854775808", LIKE_NUMBER), ("-9223372036854775809", LIKE_NUMBER), ("+5", LIKE_NUMBER),
            ("-0", LIKE_NUMBER), (".5", LIKE_NUMBER), ("5.", LIKE_NUMBER), ('"red room', QUOTED), ('"red" room', QUOTED), ('"red\\x"', QUOTED), ('"', QUOTED),
            ('"' + 33 * "x" + '"', LONG), ("red room", COUNT), ('red" room', COUNT),
        ]:
            for line in ["put k " + spelled, "claim k l " + spelled]:
                expected = KEY if line.startswith("claim") and spelled == "red room" else fault
                if line.startswith("claim") and fault == COUNT:
                    continue
                self.row("no value: " + line, at, [line], [], 2, ["bayou: line 1: " + expected])
        for spelled in ["1.5", "007", "+5", "-0", "9223372036854775808", '"5"']:
            self.row("no number: " + spelled, at, ["add n " + spelled], [], 2, ["bayou: line 1: " + NUMBER])
        self.row("nothing of that was done", at, ["servers"], ["server 0 at %d holds %d of 65536" % (count, count)])
        self.stop_all()

    def claims(self):
        """A claim that is made twice has one key, and one that has got nothing says so."""
        folder = self.folder()
        first, second = self.start(folder, 0, 2), self.start(folder, 1, 2)
        at = [(0, first.address())]
        self.row("a claim", at, ["claim a b kim"], ["0 wrote 0:1 clock 1 deps 0", '0 read a text "kim" at 1'])
        self.row("the same once more", at, ["claim a b kim", "get b"], ['0 read a text "kim" at 1', "0 read b none at 1"])
        self.row("of the second key too", at, ["claim b c lee", "claim c b a lee", "claim c b a kim", "get c"],
                 ["0 wrote 0:2 clock 2 deps 1", '0 read b text "lee" at 2', '0 read b text "lee" at 2', '0 read a text "kim" at 2', "0 read c none at 2"])
        self.row("one that gets nothing", at, ["claim a b jo"],
                 ["0 wrote 0:3 clock 3 deps 2", "0 became 0:3 none", '0 read a text "kim" at 3', '0 read b text "lee" at 3'], 1)
        self.row("a single key, twice", at, ["claim d 5", "claim d 5"], ["0 wrote 0:4 clock 4 deps 3", "0 read d num 5 at 4", "0 read d num 5 at 4"])
        both = at + [(1, second.address())]
        state = os.path.join(self.room, "claims")
        self.row("with a session", both, ["claim x y kim"], ["0 wrote 0:5 clock 5 deps 4,0", '0 read x text "kim" at 5,0'],
                 words=["--state", state, "--session", "all"])
        self.row("at a server that is behind nothing is claimed", both, ["at 1", "claim x y kim"], ['0 read x text "kim" at 5,0'], words=["--state", state])
        self.row("alone there it is refused", both[1:], ["claim x y kim", "servers"], ["0 refused behind at 0,0", "server 1 at 0,0 holds 0 of 65536"], 1, words=["--state", state])
        first.kill()
        self.row("no server", at, ["claim a b kim"], ["0 refused away"], 1)
        self.stop_all()

    def additions(self):
        """An addition to a text is reported to have done nothing, and the session has read nothing by that."""
        server = self.start(self.folder())
        at = [(0, server.address())]
        self.row("to nothing, to a number, to a text", at, ["add n 5", "add n 2", "put t kim", "session", "add t 1", "session", "get n"],
                 ["0 wrote 0:1 clock 1 deps 0", "0 wrote 0:2 clock 2 deps 1", "0 became 0:2 merge 1", "0 wrote 0:3 clock 3 deps 2", "session 0 asks all",
                  "session 0 read 0 wrote 3", "0 wrote 0:4 clock 4 deps 3", "0 became 0:4 none", "session 0 asks all", "session 0 read 0 wrote 4",
                  "0 read n num 7 at 4"], 1, words=["--session", "all"])
        self.stop_all()

    def talk(self, call, lines):
        """What is printed and told at a terminal where these lines are typed, and the status."""
        near, far = pty.openpty()
        process = subprocess.Popen(call, stdin=far, stdout=subprocess.PIPE, stderr=subprocess.PIPE)
        os.close(far)
        try:
            os.write(near, "".join(line + "\n" for line in lines).encode())
            printed, told = process.communicate(timeout=SECONDS)
        finally:
            process.kill()
            os.close(near)
        return process.returncode, printed.decode().splitlines(), told.decode()

    def words_of_lines(self):
        """`help`, `quit`, and the prompt at a terminal."""
        folder = self.folder()
        first, second = self.start(folder, 0, 2), self.start(folder, 1, 2)
        at = [(0, first.address())]
        both = at + [(1, second.address())]
        status, printed, told = self.call(at, ["help", "get a"])
        words = [line.split()[0] for line in printed[:-1]]
        self.that("help", (status, set("put add del claim get became again at list servers session dump help quit".split()) - set(words), printed[-1:], told),
                  (0, set(), ["0 read a none at 0"], []))
        self.row("quit", at, ["get a", "  quit ", "get a", "nothing"], ["0 read a none at 0"])
        self.row("help and quit take no words", at, ["help me"], [], 2, ["bayou: line 1: " + UNKNOWN])
        self.row("nor does quit", at, ["quit now"], [], 2, ["bayou: line 1: " + UNKNOWN])
        call = [self.program, "connect"] + [word for index, address in both for word in ("--server", "%d=%s" % (index, address))]
        self.that("a prompt that names the server", self.talk(call, ["get a", "at 1", "put a 007", "get a", "quit"]),
                  (2, ["0 read a none at 0,0", "0 read a none at 0,0"],
                   "server 0> server 0> server 1> bayou: line 3: %s\nserver 1> server 1> " % LIKE_NUMBER))
        self.that("the end at a terminal", self.talk(call, ["get a", "\x04"]), (0, ["0 read a none at 0,0"], "server 0> server 0> \n"))
        self.stop_all()

    def silent(self):
        """A server that is stopped has so long and no longer, and then the next one serves; for a minute it is asked last."""
        folder = self.folder()
        first, second = self.start(folder, 0, 2), self.start(folder, 1, 2)
        both = [(0, first.address()), (1, second.address())]
        call = [self.program, "connect"] + [word for index, address in both for word in ("--server", "%d=%s" % (index, address))]
        os.kill(first.process.pid, signal.SIGSTOP)
        try:
            for words, most in [([], TIMEOUT), (["--timeout", "1"], 1)]:
                process = subprocess.Popen(call + words, stdin=subprocess.PIPE, stdout=subprocess.PIPE)
                for name, line, expected, least, seconds in [
                    ("a read", b"get none\n", "0 read none none at 0,0", most, most + BUSY), ("a second read", b"get none\n", "0 read none none at 0,0", 0, 1),
                    ("a list", b"list\n", "list keys 0 at 0,0", 0, 1), ("a Write", b"del none\n", "0 wrote 1:1 clock 1 deps 0,0", 0, 1),
                ]:
                    process.stdin.write(line)
                    process.stdin.flush()
                    begun = time.monotonic()
                    printed = process.stdout.readline().decode().strip()
                    took = time.monotonic() - begun
                    if "wrote" in expected:
                        process.stdout.readline()
                    if words:
                        expected = expected.replace("1:1 clock 1 deps 0,0", "1:2 clock 2 deps 0,1").replace("at 0,0", "at 0,1")
                    self.that("%s with %s" % (name, words), printed, expected)
                    self.that("%s with %s takes %.1f s" % (name, words, took), least - 0.1 <= took <= seconds * slowness(), True)
                process.stdin.close()
                process.stdout.read()
                process.wait(SECONDS)
            begun = time.monotonic()
            self.row("a Write isn't sent to one that doesn't greet", both, ["put a 1"], ["0 wrote 1:3 clock 3 deps 0,2"], words=["--timeout", "1"])
            self.that("so long", 1 <= time.monotonic() - begun <= 1 + BUSY)
            with bayou.Session([address for _, address in both], timeout=1.0) as session:
                begun = time.monotonic()
                told, seen = session.read_anywhere("none"), session.seen
                took = time.monotonic() - begun
                self.that("in python: %.1f s" % took, (told, 0.9 <= took <= 1 + BUSY), (None, True))
                begun = time.monotonic()
                session.read_anywhere("none")
                self.that("in python, once more", time.monotonic() - begun < 1 * slowness())
        finally:
            os.kill(first.process.pid, signal.SIGCONT)
        self.stop_all()

    def dripped(self):
        """A reply that drips has the same time in all, and a whole one of any pieces that comes in it is taken."""
        dripping = Dripping(1.0)
        begun = time.monotonic()
        self.row("a reply that drips", [(0, dripping.address)], ["get a"], ["0 lost"], 1, words=["--timeout", "2"])
        self.that("it has its time", 2 <= time.monotonic() - begun <= 2 + BUSY)
        self.row("one that is there in time", [(0, Dripping(0.01).address)], ["get a"], ["0 read a none at 0"], words=["--timeout", "20"])

    def unbelievable(self):
        """What a server sends of what it holds has an end, and is the Writes of a server."""
        server = self.start(self.folder())
        link = bayou.Link(server.address())
        session = bayou.Session([server.address()])
        ops = [["put", "a" * 30 + str(number), "x" * 32] for number in range(8)]
        session.write({"update": ops})
        (write,) = link.dump()
        item = item_of(write)
        # What stands in the buffers of sockets.
        slack = 16 * 2**20 // len(item)
        endless = Holding(lambda: itertools.repeat(item))
        begun = time.monotonic()
        book = os.path.join(self.room, "endless.book")
        self.row("what it holds isn't in the book", [(0, endless.address)], ["dump"], ["dump 0 away"], 1, words=["--book", book])
        self.that("it is left behind as many Writes as a server holds: %d Items" % endless.sent, 65536 <= endless.sent <= 65537 + slack)
        self.that("and that takes some seconds", time.monotonic() - begun < 20)
        with open(book) as file:
            self.that("the book is as it was", [json.loads(line)[0] for line in file.read().splitlines()], ["servers"])
        try:
            told = bayou.Link(endless.address).dump()
        except bayou.Lost:
            told = "lost"
        self.that("in python too", told, "lost")
        self.stop_all()

    def pages(self):
        """A list of many rows comes page after page, of one database; pages that no server tells are none."""
        folder = self.folder()
        server = self.start(folder)
        at = [(0, server.address())]
        keys = ["mon/%04d" % number for number in range(700)]
        with bayou.Session([server.address()]) as session:
            for at_key in range(0, len(keys), 8):
                session.write({"update": [["put", key, keys.index(key)] for key in keys[at_key:at_key + 8]]})
            session.write({"update": [["put", key, 1] for key in ["mo", "mon", "tue/1", "a"]]})
            session.write({"update": [["del", "mon/0300"]]})
        rows = ["%s num %d" % (key, number) for number, key in enumerate(keys) if key != "mon/0300"]
        count = 90
        self.row("all that begin so", at, ["list mon/"], rows + ["list mon/ keys 699 at %d" % count])
        self.row("and so", at, ["list mon"], ["mon num 1"] + rows + ["list mon keys 700 at %d" % count])
        self.row("all", at, ["list"], ["a num 1", "mo num 1", "mon num 1"] + rows + ["tue/1 num 1", "list keys 703 at %d" % count])
        self.row("a single one", at, ["list mon/0299"], [rows[299], "list mon/0299 keys 1 at %d" % count])
        self.row("none", at, ["list sun/", "list mon/0300"], ["list sun/ keys 0 at %d" % count, "list mon/0300 keys 0 at %d" % count])
        self.row("two are too many", at, ["list a b"], [], 2, ["bayou: line 1: " + COUNT])
        self.row("what is no key", at, ["list A"], [], 2, ["bayou: line 1: " + KEY])
        self.row("what a list showed was read", at, ["list sun/", "session"], ["list sun/ keys 0 at %d" % count, "session 0 asks all", "session 0 read %d wrote 0" % count],
                 words=["--session", "all"])
        for name, answer in [
            ("rows that never end", lambda n: page(full(n), 1)), ("none, and more", lambda n: page([], 1)), ("room for more", lambda n: page(full(n)[1:], 1)),
            ("rows out of order", lambda n: page([("b", 1), ("a", 1)])), ("a row twice", lambda n: page([("a", 1), ("a", 1)])),
            ("the same page again", lambda n: page([("a", 1)], 1)), ("more rows than a page has", lambda n: page([("k%03d" % row, 1) for row in range(122)])),
            ("fewer rows than are counted", lambda n: page([("a", 1)], count=2)), ("a row more than is counted", lambda n: page([("a", 1), ("b", 1)], count=1)),
            ("no word of whether there are more", lambda n: page([("a", 1)], 2)), ("another frame", lambda n: b"\0\1\x16"), ("nothing", lambda n: b""),
        ]:
            self.row("no page: " + name, [(0, Paging(answer).address)], ["list"], ["list lost"], 1)
        self.row("rows that begin otherwise", [(0, Paging(lambda n: page([("a", 1)])).address)], ["list b"], ["list lost"], 1)
        changing = Paging(lambda n: page(full(n) if n % 2 else full(n)[:1], n % 2, frames.counts(n)))
        shown = lambda rows: ["%s num %d" % row for row in rows]  # noqa: E731
        self.row("pages of several databases", [(0, changing.address)], ["list"], shown(full(5) + full(6)[:1]) + ["list keys 122 mixed at 6"])
        self.that("it was begun anew twice", changing.asked, 6)
        once = Paging(lambda n: page(full(n) if n % 2 else full(n)[:1], n % 2, frames.counts(2 if n > 1 else 1)))
        self.row("of another one once", [(0, once.address)], ["list"], shown(full(3) + full(4)[:1]) + ["list keys 122 at 2"])
        self.stop_all()

    def never_back(self):
        """Ten thousand lists of a session that asks for Monotonic Reads, at three servers that pull from one another while Writes are made, at random,
        since each way between two of them is: none goes back, and the audit of it is clean."""
        folder, ports = self.folder(), [free_port() for _ in range(3)]
        ways = {(puller, other): AtRandom(ports[other], puller * 3 + other) for puller in range(3) for other in range(3) if other != puller}
        peers = [[(other, ways[index, other].port) for other in range(3) if other != index] for index in range(3)]
        servers = [self.start(folder, index, 3, port=ports[index], peers=peers[index], words=["--every", "1"]) for index in range(3)]
        at = [(index, server.address()) for index, server in enumerate(servers)]
        over, draw = threading.Event(), random.Random(83)

        def write():
            with bayou.Session([server.address() for server in servers], number=31) as session:
                while not over.wait(0.002):
                    session.write({"update": [["put", "k%02d" % draw.randrange(30), draw.randrange(1000)]]}, draw.randrange(3))

        writer = threading.Thread(target=write, daemon=True)
        writer.start()
        book = os.path.join(self.room, "never_back.book")
        turns = random.Random(8383)
        try:
            lines = [line for _ in range(LISTS) for line in ("at %d" % turns.randrange(3), "list k")]
            status, printed, told = self.call(at, lines, ["--book", book, "--session", "mr"], seconds=10 * SECONDS)
        finally:
            over.set()
        writer.join()
        seen = [tuple(map(int, line.split()[-1].split(","))) for line in printed if line.startswith("list k keys ")]
        self.that("each list is served", (status, len(seen), told), (0, LISTS, []))
        back = [turn for turn, (before, after) in enumerate(zip(seen, seen[1:])) if any(now < then for then, now in zip(before, after))]
        self.that("none goes back", back, [])
        self.that("they are of several databases: %d" % len(set(seen)), len(set(seen)) > 10)
        for index, server in enumerate(servers):
            self.that("server %d ends" % index, server.end()[0], 0)
        self.servers = []
        # Each server pulls what the others have before it is dumped: evidence is of all that was held.
        servers = [self.start(folder, index, 3, new=False, port=ports[index], peers=peers[index], words=["--every", "1"]) for index in range(3)]
        self.that("all meet", self.met([server.address() for server in servers]))
        self.row("all that they hold", at, ["dump"], ["dump %d writes %d" % (index, self.held) for index in range(3)], words=["--book", book])
        audit = subprocess.run([self.program, "audit", book], stdout=subprocess.PIPE, timeout=SECONDS)
        self.that("the audit is clean", (audit.returncode, audit.stdout.decode().splitlines()[:1]), (0, ["clean"]))
        self.that("each way was open, and closed", all(way.passed and way.closed for way in ways.values()))
        for way in ways.values():
            way.end()
        self.stop_all()

    def met(self, addresses):
        """Whether the servers hold the same before long; how many Writes that is, is noted."""
        end = time.monotonic() + SECONDS
        while time.monotonic() < end:
            held = []
            for address in addresses:
                with bayou.Session([address]) as session:
                    session.read("a")
                    held.append(session.seen)
            if len(set(held)) == 1:
                self.held = sum(held[0])
                return True
            time.sleep(0.2)
        return False

    def in_python(self):
        """Rows, outcomes, claims and changes by the client in python, in a session that `bayou connect` goes on with."""
        folder, state = self.folder(), os.path.join(self.room, "in_python")
        at = [(index, self.start(folder, index, 2).address()) for index in range(2)]
        addresses, zero = [address for _, address in at], frames.ZERO
        with bayou.Session(addresses, asks=["ryw", "mr", "wfr", "mw"], state=state) as session:
            accepted = session.write({"update": [["put", "mon/09", "kim"]]})
            listing, whole = session.list("mon/"), session.list()
            self.that("rows", (dict(listing), listing.vector, listing.is_mixed), ({"mon/09": "kim"}, frames.counts(1), False))
            self.that("all rows", dict(whole), {"mon/09": "kim"})
            outcome = session.outcome(accepted)
            self.that("an outcome", (outcome.became, outcome.clock), ("update", 1))
            self.that("of a Write that isn't held", session.outcome((0, 7)), None)
            claims = [session.claim(["mon/09", "mon/10"], name) for name in ("lee", "lee", "jo")]
            self.that("claims", claims, ["mon/10", "mon/10", None])
            changed = session.changes()
            self.that("all that there is has changed", (changed.rows, changed.vector), ({"mon/09": "kim", "mon/10": "lee"}, frames.counts(3)))
            session.write({"update": [["del", "mon/10"]]})
            self.that("what changed since", session.changes().rows, {"mon/10": None})
            self.that("nothing", session.changes().rows, {})
            for name, ask in (("rows", lambda: session.list("", 1)), ("an outcome", lambda: session.outcome(accepted, 1))):
                try:
                    told = ask()
                except bayou.Behind as behind:
                    told = behind.vector
                self.that("a server that is behind tells no %s" % name, told, zero)
            self.that("the next one does", dict(session.list_anywhere("mon")), {"mon/09": "kim"})
            session.write({"update": [["put", "m/%04d" % number, number] for number in range(8)]})
            for start in range(8, 400, 8):
                session.write({"update": [["put", "m/%04d" % number, number] for number in range(start, start + 8)]})
            self.that("many rows", dict(session.list("m/")), {"m/%04d" % number: number for number in range(400)})
            held = sum(session.seen)
        self.row("`connect` goes on with that session", at, ["session", "list mon"],
                 ["session 0 asks all", "session 0 read %d,0 wrote %d,0" % (held, held), 'mon/09 text "kim"', "list mon keys 1 at %d,0" % held], words=["--state", state])
        self.row("at a server that is behind it is refused", at[1:], ["list"], ["0 refused behind at 0,0"], 1, words=["--state", state])
        self.row("it writes", at, ["put a 1"], ["0 wrote 0:%d clock %d deps %d,0" % (held + 1, held + 1, held)], words=["--state", state])
        with bayou.Session(addresses, state=state) as session:
            self.that("and python goes on with it", (session.list_anywhere("a")["a"], session.outcome((0, held + 1)).became), (1, "update"))
        session = bayou.Session(addresses, state=state)
        self.row("a file in use is refused", at, ["session"], [], 3, ["bayou: %s: it can't be opened, or another process has it" % state], words=["--state", state])
        session.close()
        self.stop_all()

    def outcomes(self):
        """What became of a Write is answered by its name, as the server has it by then, and counts as read."""
        folder = self.folder()
        first, second = self.start(folder, 0, 2), self.start(folder, 1, 2)
        both = [(0, first.address()), (1, second.address())]
        self.row("by name", both, ["put a 1", "claim a b c kim", "claim a b c lee", "claim a b c jo", "became 0:1", "became 0:2", "became 0:3", "became 0:4", "became 0:5"],
                 ["0 wrote 0:1 clock 1 deps 0,0", "0 wrote 0:2 clock 2 deps 1,0", "0 became 0:2 merge 1", "0 read a num 1 at 2,0", '0 read b text "kim" at 2,0',
                  "0 wrote 0:3 clock 3 deps 2,0", "0 became 0:3 merge 2", "0 read a num 1 at 3,0", '0 read b text "kim" at 3,0', '0 read c text "lee" at 3,0',
                  "0 wrote 0:4 clock 4 deps 3,0", "0 became 0:4 none", "0 read a num 1 at 4,0", '0 read b text "kim" at 4,0', '0 read c text "lee" at 4,0',
                  "0 became 0:1 update", "0 became 0:2 merge 1", "0 became 0:3 merge 2", "0 became 0:4 none", "0 became 0:5 unknown"], 1)
        self.row("the server that accepted it is asked first", both, ["at 1", "became 0:3", "became 1:1"], ["0 became 0:3 merge 2", "0 became 1:1 unknown"])
        state = os.path.join(self.room, "outcomes")
        self.row("it counts as read", both, ["became 0:1", "session"], ["0 became 0:1 update", "session 0 asks all", "session 0 read 4,0 wrote 0,0"],
                 words=["--state", state, "--session", "all"])
        self.row("a server that is behind doesn't tell", both[1:], ["became 0:1", "became 1:1"], ["0 refused behind at 0,0", "0 refused behind at 0,0"], 1, words=["--state", state])
        self.row("a Write of one's own isn't read by that", both[:1], ["put d 1", "session"],
                 ["0 wrote 0:5 clock 5 deps 4", "session 0 asks none", "session 0 read 0 wrote 5"])
        self.row("several keys", both[:1], ["get a b none"], ["0 read a num 1 at 5", '0 read b text "kim" at 5', "0 read none none at 5"])
        for line, fault in [("became", COUNT), ("became 0:1 0:2", COUNT), ("became 0", NAME), ("became 0:0", NAME), ("became 16:1", NAME), ("became +0:1", NAME),
                            ("became 0:01", NAME), ("became 0:1x", NAME), ("get", COUNT), ("get a b c d e f", COUNT), ("get a B", KEY)]:
            self.row("no such line: " + line, both[:1], [line], [], 2, ["bayou: line 1: " + fault])
        first.kill()
        self.row("nobody is reached", both[:1], ["became 0:1", "list"], ["0 refused away", "list lost"], 1)
        self.stop_all()

    def turns(self):
        folder = self.folder()
        first, second = self.start(folder, 0, 2), self.start(folder, 1, 2)
        both = [(0, first.address()), (1, second.address())]
        self.row("the server at hand is asked first", both, ["put a 1", "at 1", "put b 2", "servers"],
                 ["0 wrote 0:1 clock 1 deps 0,0", "0 wrote 1:1 clock 1 deps 0,0", "server 0 at 1,0 holds 1 of 65536", "server 1 at 0,1 holds 1 of 65536"])
        self.row("one that is behind is passed by", both, ["put c 3", "at 1", "get c"],
                 ["0 wrote 0:2 clock 2 deps 1,0", "0 read c num 3 at 2,0"], words=["--session", "ryw"])
        self.row("a script's line goes nowhere else", both, ["put c 3", '["read",0,1,"c"]'],
                 ["0 wrote 0:3 clock 3 deps 2,0", "0 refused behind at 0,1"], 1, words=["--session", "ryw"])
        first.kill()
        self.row("one that is away is passed by", both, ["get b", "servers", "list"],
                 ["0 read b num 2 at 0,1", "server 0 away", "server 1 at 0,1 holds 1 of 65536", "b num 2", "list keys 1 at 0,1"], 1)
        second.kill()
        self.row("all away", both, ["get b", "put b 1", "servers", '["read",0,0,"b"]', '["reopen",1]', "list"],
                 ["0 refused away", "0 refused away", "server 0 away", "server 1 away", "0 refused away", "reopen refused away", "list lost"], 1)
        begun = time.monotonic()
        self.row("a wait that is over", both, ["get b"], ["0 refused away"], 1, words=["--wait", "1"])
        self.that("it waited", time.monotonic() - begun >= 1)
        threading.Timer(1, lambda: self.start(folder, 1, 2, new=False, port=second.port)).start()
        self.row("a wait for a server that comes", both, ["get b"], ["0 read b num 2 at 0,1"], words=["--wait", "20"])
        self.stop_all()

    def lost(self):
        folder, state = self.folder(), os.path.join(self.room, "lost")
        server = self.start(folder)
        other = self.start(folder, 1, 2)
        way = DropReply(server.port, 2)
        self.row("a Write whose reply is lost goes nowhere else", [(0, way.address), (1, other.address())], ["get a", "put a 1"],
                 ["0 read a none at 0,0", "0 lost"], 1, words=["--state", state])
        at = [(0, server.address())]
        self.row("it is asked again by the next call", at, ["again", "again", "get a"],
                 ["0 wrote 0:1 clock 1 deps 0", "0 again none", "0 read a num 1 at 1"], words=["--state", state])
        second, words = self.start(self.folder(), 0, 2), ["--servers", "2", "--state", state + ".own"]
        self.row("of a store with several servers, too", [(0, DropReply(second.port, 1).address)], ["put a 1"], ["0 lost"], 1, words=words)
        came = self.call([(0, second.address())], ["again", "mine"], words, standings=True)
        self.that("and is an own Write then", came, (0, ["0 wrote 0:1 clock 1 deps 0,0", "0 became 0:1 update", "0 tentative 0:1 update"], []))
        way = DropReply(server.port, 1)
        self.row("a Write that is lost", [(0, way.address)], ["add a 1"], ["0 lost"], 1, words=["--state", state])
        self.row("it may be asked again no more behind a read", at, ["get a", "again"],
                 ["0 read a num 2 at 2", "0 again none"], words=["--state", state])
        way = DropReply(server.port, 1)
        self.row("a read whose reply is lost goes to the next server", [(0, way.address), (1, other.address())], ["get a"], ["0 read a none at 0,0"])
        way, last = DropReply(server.port, 1), DropReply(other.port, 1)
        self.row("a read whose replies are all lost", [(0, way.address), (1, last.address)], ["get a"], ["0 lost"], 1)
        way, last = DropReply(server.port, 1), DropReply(other.port, 1)
        self.row("a read whose replies are lost once", [(0, way.address), (1, last.address)], ["get a"], ["0 read a num 2 at 2,0"], words=["--wait", "5"])
        with bayou.Session([DropReply(server.port, 1).address, other.address()]) as session:
            self.that("in python too", session.read_anywhere("a"), None)
        with bayou.Session([DropReply(server.port, 1).address, other.address()]) as session:
            try:
                told = session.write_anywhere({"update": [["put", "lost", 1]]})
            except bayou.Lost:
                told = "lost"
            self.that("and a Write goes nowhere else", told, "lost")
        # The server tells what it holds as it is greeted; the first reply is what it sends of that.
        way = DropReply(server.port, 1)
        self.row("a list whose reply is lost goes to the next server", [(0, way.address), (1, other.address())], ["list"], ["list keys 0 at 0,0"])
        self.stop_all()

    def kept(self):
        folder, state = self.folder(), os.path.join(self.room, "kept")
        server = self.start(folder)
        at = [(0, server.address())]
        self.row("what is kept", at, ["put a 1", "get a", "session"],
                 ["0 wrote 0:1 clock 1 deps 0", "0 read a num 1 at 1", "session 0 asks all", "session 0 read 1 wrote 1"], words=["--state", state, "--session", "all"])
        self.row("it goes on", at, ["session", "put a 2", "session"],
                 ["session 0 asks all", "session 0 read 1 wrote 1", "0 wrote 0:2 clock 2 deps 1", "session 0 asks all", "session 0 read 1 wrote 2"],
                 words=["--state", state])
        with open(state, "rb") as file:
            whole = file.read()
        # Two entries for each Write, of which the first has its program too, and one for the read.
        ends, at_byte = [], HEADER_BYTES
        while at_byte < len(whole):
            at_byte += 34 + int.from_bytes(whole[at_byte:at_byte + 2], "big")
            ends.append(at_byte)
        self.that("so many entries", (len(ends), ends[1] - ends[0], at_byte), (5, ENTRY_BYTES, len(whole)))
        seen = ["0 wrote 0", "0 wrote 1", "1 wrote 1", "1 wrote 1", "1 wrote 2"]
        for length in range(len(whole)):
            with open(state, "wb") as file:
                file.write(whole[:length])
            count = sum(end <= length for end in ends)
            expected = ["session 0 asks none", "session 0 read 0 wrote 0"] if count == 0 else ["session 0 asks all", "session 0 read " + seen[count - 1]]
            self.that("torn at byte %d" % length, self.call([(0, "127.0.0.1:1")], ["session"], ["--state", state]), (0, expected, []))
        for name, content, fault in [
            ("something else", b"hello, hello", "it is no state of sessions; nothing was changed"),
            ("a server's journal", open(os.path.join(folder, "server-0.journal"), "rb").read(), "it is no state of sessions; nothing was changed"),
        ]:
            with open(state, "wb") as file:
                file.write(content)
            self.row(name, at, ["session"], [], 3, ["bayou: %s: %s" % (state, fault)], ["--state", state])
            with open(state, "rb") as file:
                self.that(name + " stays", file.read(), content)
        self.damaged(state)
        with open(state, "wb") as file:
            file.write(whole)
        holder = subprocess.Popen([self.program, "connect", "--server", "0=" + server.address(), "--state", state], stdin=subprocess.PIPE,
                                  stdout=subprocess.PIPE)
        holder.stdin.write(b"session\n")
        holder.stdin.flush()
        self.that("one holds it", [holder.stdout.readline(), holder.stdout.readline()], [b"session 0 asks all\n", b"session 0 read 1 wrote 2\n"])
        self.row("a state in use", at, ["session"], [], 3, ["bayou: %s: it can't be opened, or another process has it" % state], ["--state", state])
        holder.stdin.close()
        self.that("the holder ends", holder.wait(SECONDS), 0)
        self.stop_all()

    def grown(self):
        """A state that has grown long: it is written anew as it is opened, and while it is used, with the last of each session."""
        state = os.path.join(self.room, "grown")
        server = self.start(self.folder())
        at, words = [(0, server.address())], ["--state", state, "--session", "all"]
        self.row("a Write and two reads", at, ["put a 1", '["session",1,["mr"]]', '["read",1,0,"a"]', "get a"],
                 ["0 wrote 0:1 clock 1 deps 0", "1 read a num 1 at 1", "0 read a num 1 at 1"], words=words)
        with open(state, "rb") as file:
            whole = file.read()
        first, last = [whole[end - ENTRY_BYTES + 2:end - 32] for end in (len(whole) - ENTRY_BYTES, len(whole))]
        for name, count, lines, left in [("is opened", MOST_ENTRIES + 1, 0, 2), ("is used", MOST_ENTRIES - 2, 10, 9)]:
            with open(state, "wb") as file:
                file.write(chained(whole[:HEADER_BYTES], [first] + [last] * (count - 1)))
            told = self.call(at, ["get a"] * lines + ["session"], words, 4 * SECONDS)
            self.that("a state that %s" % name, told, (0, ["0 read a num 1 at 1"] * lines + ["session 0 asks all", "session 0 read 1 wrote 1"], []))
            self.that("entries of a state that %s" % name, (os.path.getsize(state) - HEADER_BYTES) / ENTRY_BYTES, left)
            self.that("nothing is left of it", os.path.exists(state + ".part"), False)
            with open(state, "rb") as file:
                kept = file.read()
            self.that("the other session of a state that %s" % name, first in kept, True)
        self.stop_all()

    def damaged(self, state):
        """A state of which more than a torn entry is broken: it is reported, and stays."""
        server = self.start(self.folder())
        at = [(0, server.address())]
        os.remove(state)
        self.call(at, ["get a"] * 60, ["--state", state])
        with open(state, "rb") as file:
            content = bytearray(file.read())
        content[HEADER_BYTES + ENTRY_BYTES + 40] ^= 1
        with open(state, "wb") as file:
            file.write(content)
        whole = HEADER_BYTES + ENTRY_BYTES
        self.row("a damaged state", at, ["session"], [], 3,
                 ["bayou: %s: it is whole up to byte %d, and the %d bytes behind that are damaged; nothing was changed" % (state, whole, len(content) - whole)],
                 ["--state", state])
        with open(state, "rb") as file:
            self.that("it stays", file.read(), bytes(content))
        os.remove(state)

    def killed(self):
        folder, state = self.folder(), os.path.join(self.room, "killed")
        server = self.start(folder)
        seed = random.randrange(2**32)
        chance = random.Random(seed)
        wrote = 0
        for turn in range(12):
            process = subprocess.Popen([self.program, "connect", "--server", "0=" + server.address(), "--state", state, "--session", "all"],
                                       stdin=subprocess.PIPE, stdout=subprocess.PIPE)
            threading.Timer(chance.uniform(0.02, 0.3), lambda p=process: p.send_signal(signal.SIGKILL)).start()
            try:
                process.stdin.write(b"again\n" + b"add n 1\n" * 4000)
                process.stdin.close()
            except BrokenPipeError:
                pass
            for line in process.stdout.read().decode().splitlines():
                if " wrote 0:" in line:
                    wrote = max(wrote, int(line.split(" wrote 0:")[1].split()[0]))
            process.wait(SECONDS)
            status, printed, told = self.call([(0, server.address())], ["session"], ["--state", state])
            kept = int(printed[-1].rsplit(" ", 1)[1]) if printed else -1
            self.that("turn %d of seed %d: what was printed is remembered" % (turn, seed), (status, kept >= wrote), (0, True))
        status, printed, told = self.call([(0, server.address())], ["again", "get n"], ["--state", state])
        self.that("what became of it is told", [line[:8] for line in printed if " became " in line], ["0 became"] * (" wrote " in printed[0]))
        held = bayou.Link(server.address()).dump()
        self.that("each Write acts once", printed[-1].startswith("0 read n num %d at %d" % (len(held), len(held))))
        self.stop_all()

    def apart(self):
        """Two servers that never meet, of which the first holds a Write of somebody else."""
        first, second = [self.start(self.folder(), index, 2) for index in range(2)]
        self.row("the first has a Write", [(0, first.address())], ["put a 1"], ["0 wrote 0:1 clock 1 deps 0"])
        return [(0, first.address()), (1, second.address())]

    def asks(self):
        """What a session asks for: as it is opened, as it was kept, and as the words say."""
        at, state = self.apart()[:1], os.path.join(self.room, "asks")
        for asks in alone.SETS:
            text = "all" if len(asks) == 4 else alone.said(asks)
            self.row("a session that asks for " + text, at, ["session"], ["session 0 asks " + text, "session 0 read 0 wrote 0"], words=["--session", alone.said(asks)])
            self.row("a word twice, in another order, of " + text, at, ["session"], ["session 0 asks " + text, "session 0 read 0 wrote 0"],
                     words=["--session", ",".join(reversed(asks + asks)) or "none"])
        for words in ["all,none", "ryw,", ",mr", "", "RYW", "ryw mr", "nothing"]:
            self.row("no guarantees: " + words, at, ["session"], [], 2,
                     ["bayou: --session takes any of ryw, mr, wfr and mw, with commas between them, or all, or none"], ["--session", words])
        for kept in alone.SETS:
            if os.path.exists(state):
                os.remove(state)
            text = "all" if len(kept) == 4 else alone.said(kept)
            self.row("it is kept with " + text, at, ["get a"], ["0 read a num 1 at 1"], words=["--state", state, "--session", alone.said(kept)])
            with open(state, "rb") as file:
                content = file.read()
            self.row("it is said by nobody", at, ["session"], ["session 0 asks " + text, "session 0 read 1 wrote 0"], words=["--state", state])
            for asks in alone.SETS:
                words, book = ["--state", state, "--session", alone.said(asks)], state + ".book"
                if asks == kept:
                    self.row("it is said again: " + text, at, ["session"], ["session 0 asks " + text, "session 0 read 1 wrote 0"], words=words)
                    continue
                other = "all" if len(asks) == 4 else alone.said(asks)
                self.row("%s is said where %s is kept" % (other, text), at, ["put a 2"], [], 2,
                         ["bayou: %s: the session there asks for %s, and --session for %s; nothing was asked" % (state, text, other)], words + ["--book", book])
                self.that("no book is made", os.path.exists(book), False)
            with open(state, "rb") as file:
                self.that("nothing is changed of what asks for " + text, file.read(), content)
        self.row("and nothing was asked", at, ["get a"], ["0 read a num 1 at 1"])
        self.stop_all()

    def lists(self):
        """A list shows nothing older than what the session needs: a server that is behind says so, or the next one is listed."""
        both = self.apart()
        for turn, (asks, lines) in enumerate([("mr", ["get a"]), ("mr", ["list"]), ("mr", ["became 0:1"]), ("ryw", ["put b 2"]), ("all", ["put b 2", "get a"])]):
            state = os.path.join(self.room, "lists-%d" % turn)
            told = self.call(both[:1], lines, ["--servers", "2", "--state", state, "--session", asks])
            self.that("at the first, asking for " + asks, told[0], 0)
            held = bayou.Link(both[0][1]).dump()
            rows = ["a num 1"] + ["b num 2"] * (len(held) > 1)
            self.row("a list at one that is behind, asking for " + asks, both[1:], ["list"], ["0 refused behind at 0,0"], 1, words=["--state", state])
            self.row("as a read is told, asking for " + asks, both[1:], ["get a"], ["0 refused behind at 0,0"], 1, words=["--state", state])
            self.row("the next one is listed, asking for " + asks, [both[1], both[0]], ["list", "at 1", "list"],
                     2 * (rows + ["list keys %d at %d,0" % (len(rows), len(held))]), words=["--state", state])
        self.row("a session that needs nothing is shown what is there", both[1:], ["list"], ["list keys 0 at 0,0"])
        for asks in ["wfr", "mw", "none"]:
            status, printed, told = self.call(both, ["get a", "put c 3", "at 1", "list"], ["--session", asks])
            self.that("a session that asks for %s is shown what is there" % asks, (status, printed[-1:], told), (0, ["list keys 0 at 0,0"], []))
        self.stop_all()

    def guarantees_alone(self):
        """Each set of guarantees at two servers that never meet: by a line for one server, by short lines over two calls, and by the client in python."""
        both = self.apart()
        put = '{"update":[["put","k",1]]}'
        for asks in alone.SETS:
            name, words = alone.said(asks), ["--session", alone.said(asks)]
            for opening, who in [([], 0), (['["session",1,%s]' % json.dumps(asks)], 1)]:
                reads = ['["read",%d,0,"a"]' % who, '["read",%d,1,"a"]' % who, '["write",%d,1,%s]' % (who, put)]
                writes = ['["write",%d,0,%s]' % (who, put), '["read",%d,1,"a"]' % who, '["write",%d,1,%s]' % (who, put)]
                for first, lines, expected in [("read", reads, alone.after_read(asks)), ("wrote", writes, alone.after_write(asks))]:
                    _, printed, told = self.call(both, opening + lines, words if who == 0 else [])
                    self.that("session %d, %s, having %s" % (who, name, first), ([alone.kind(line) for line in printed], told), ([first] + expected, []))
            for first, line, expected in [("read", "get a", alone.after_read(asks)), ("wrote", "put k 2", alone.after_write(asks))]:
                state = os.path.join(self.room, "alone-%s-%s" % (name, first))
                told = self.call(both[:1], [line], words + ["--servers", "2", "--state", state])
                self.that("%s, having %s, is kept" % (name, first), (kinds_of(told[1]), told[2]), ([first], []))
                told = self.call(both[1:], ["get a", "put k 3"], ["--state", state])
                self.that("%s, having %s, over two calls" % (name, first), (kinds_of(told[1]), told[2]), (expected, []))
            self.alone_in_python([address for _, address in both], asks)
        self.stop_all()

    def alone_in_python(self, addresses, asks):
        """The same by the client in python."""
        program = {"update": [["put", "k", 4]]}

        def told(ask, served):
            try:
                ask()
            except bayou.Behind:
                return "refused"
            return served

        for first, expected in [("read", alone.after_read(asks)), ("wrote", alone.after_write(asks))]:
            with bayou.Session(addresses, asks=asks) as session:
                session.read("a", 0) if first == "read" else session.write(program, 0)
                kinds = [told(lambda: session.read("a", 1), "read"), told(lambda: session.write(program, 1), "wrote")]
            self.that("in python, %s, having %s" % (alone.said(asks), first), kinds, expected)

    def moves(self, asks, breaks):
        """A session that moves between two servers over ten calls, and what its book says."""
        folder, name = self.folder(), "moves-" + asks
        state, book = os.path.join(self.room, name), os.path.join(self.room, name + ".book")
        servers = [self.start(folder, index, 2) for index in range(2)]
        places = [(index, server.address()) for index, server in enumerate(servers)]
        words = ["--servers", "2", "--state", state, "--book", book]
        for turn in range(10):
            here = places[turn % 2]
            self.call([here], ["add n 1", "get n"], words + (["--session", asks] if turn == 0 else []))
        status, printed, told = self.call(places, ["dump"], ["--book", book])
        self.that("%s: the dumps are in the book" % asks, (status, [line.rsplit(" ", 1)[0] for line in printed]), (0, ["dump 0 writes", "dump 1 writes"]))
        audit = subprocess.run([self.program, "audit", book], stdout=subprocess.PIPE, timeout=SECONDS)
        lines = audit.stdout.decode().splitlines()
        self.that("%s: the book is clean" % asks, (audit.returncode, lines[:1]), (0, ["clean"]))
        self.that("%s: a breach is surveyed" % asks, "broken" in lines[-1], breaks)
        self.stop_all()

    def guarantees(self):
        self.moves("all", False)
        self.moves("none", True)
        server = self.start(self.folder())
        book = os.path.join(self.room, "torn.book")
        self.call([(0, server.address())], ["put a 1"], ["--book", book])
        with open(book) as file:
            text = file.read()
        with open(book, "w") as file:
            file.write(text[:-5])
        self.call([(0, server.address())], ["dump"], ["--book", book])
        with open(book) as file:
            self.that("a torn line of a book is cut", [json.loads(line)[0] for line in file.read().splitlines()], ["servers", "held"])
        self.row("a book of other servers", [(0, server.address())], ["dump"], [], 3,
                 ["bayou: %s: it can't be opened, another process has it, or it is of other servers" % book], ["--book", book, "--servers", "3"])
        self.stop_all()

    def drawn(self):
        """Each call that keeps nothing draws its sessions' numbers in tags and in its book; what it prints stays, and so does what is kept."""
        folder = self.folder()
        at = [(0, self.start(folder).address())]
        numbers = []
        for turn in range(12):
            book = os.path.join(self.room, "drawn.%d" % turn)
            self.row("a call that keeps nothing", at, ["put a %d" % turn, '["session",1,[]]', '["read",1,0,"a"]'],
                     ["0 wrote 0:%d clock %d deps %d" % (turn + 1, turn + 1, turn), "1 read a num %d at %d" % (turn, turn + 1)], words=["--book", book])
            with open(book) as file:
                entries = [entry[1] for entry in map(json.loads, file) if entry[0] == "entry"]
            self.that("its second session has the next number", entries[1:], [(entries[0] + 1) % bayou.SESSIONS])
            numbers.append(entries[0])
        self.that("its number is drawn", len(set(numbers)) > 1, True)
        self.row("a call that keeps its session", at, ["put a 12"], ["0 wrote 0:13 clock 13 deps 12"], words=["--state", os.path.join(self.room, "drawn")])
        self.stop_all()
        with open(os.path.join(folder, "server-0.journal"), "rb") as file:
            whole = file.read()
        # A record of an own Write: its length, a byte, and its tag, which begins with the session's number.
        tags = [whole[start + 3] for start in kept_bits.entries_of(whole)[:-1]]
        self.that("the tags have these numbers", tags, numbers + [0])

    def strangers(self):
        """Another server answers than the one that is asked: that is reported once, nothing is sent to it, and the next one is asked."""
        folder = self.folder()
        server = Server(self.program, folder, 1, servers=2, new=True)
        server.serving()
        line = "bayou: server 0 at %s is server 1" % server.address()
        wrong, both = [(0, server.address())], [(0, server.address()), (1, server.address())]
        self.row("a wrong port", wrong, ["put a 1", "put a 2", "get a"], ["0 refused away", "0 refused away", "0 refused away"], 1, [line])
        self.row("nothing was sent there", both[1:], ["servers"], ["server 1 at 0,0 holds 0 of 65536"])
        self.row("the next one is asked", both, ["put a 1", "get a"], ["0 wrote 1:1 clock 1 deps 0,0", "0 read a num 1 at 0,1"], 0, [line])
        self.row("what it holds then", both, ["servers"], ["server 0 away", "server 1 at 0,1 holds 1 of 65536"], 1, [line])
        server.end()
        older = Answering(b"")
        status, printed, told = self.call([(0, "127.0.0.1:%d" % older.port)], ["get a"])
        self.that("one that knows no greetings", (status, printed, told), (1, ["0 lost"], ["bayou: server 0 at 127.0.0.1:%d is older: no greeting" % older.port]))
        self.that("is greeted twice, and then asked", [came[0] for came in older.came if came is not None], [HELLO, HELLO, 0x01])
        older.end()
        way = LosesReply(self.start(self.folder()).port)
        self.row("a greeting whose reply is lost is sent again", [(0, "127.0.0.1:%d" % way.port)], ["put a 1", "get a"], ["0 wrote 0:1 clock 1 deps 0", "0 read a num 1 at 1"])
        self.that("one reply was lost", way.lost)
        way.end()
        self.stop_all()

    def keyed(self):
        """A store that has a key: who has it is served, a server that hasn't got it is reported and sent nothing, and a state is of one store."""
        folder = self.folder()
        paths = {}
        for name in ("room", "other"):
            paths[name] = os.path.join(folder, name + ".key")
            subprocess.run([self.program, "key", paths[name], "--name", name], stdout=subprocess.DEVNULL, check=True, timeout=SECONDS)
        keyed, opened = self.start(folder, words=["--key", paths["room"]]), self.start(self.folder())
        at, at_open = [(0, keyed.address())], [(0, opened.address())]
        state = os.path.join(folder, "kim.state")
        own, other = ["--key", paths["room"]], ["--key", paths["other"]]
        self.row("who has the key", at, ["put a 1", "get a", "servers"], ["0 wrote 0:1 clock 1 deps 0", "0 read a num 1 at 1", "server 0 at 1 holds 1 of 65536"], words=own + ["--state", state])
        line = "bayou: server 0 at %s %%s" % keyed.address()
        self.row("who has none", at, ["put a 2", "get a"], ["0 refused away"] * 2, 1, [line % "wants a key"])
        self.row("who has another", at, ["put a 2"], ["0 refused away"], 1, [line % "is of another store (room)"], other)
        self.row("a key at an open store", at_open, ["put a 2"], ["0 refused away"], 1, ["bayou: server 0 at %s is of another store, an open one" % opened.address()], own)
        for where, words in ((at, own), (at_open, [])):
            self.row("nothing was sent", where, ["get a"], ["0 read a %s" % ("num 1 at 1" if where is at else "none at 0")], words=words)
        older = Answering(b"")
        self.row("an older server", [(0, "127.0.0.1:%d" % older.port)], ["get a"], ["0 refused away"], 1, ["bayou: server 0 at 127.0.0.1:%d is older: no greeting" % older.port], own)
        self.that("is greeted twice, and sent nothing", [came[0] for came in older.came if came is not None], [HELLO, HELLO])
        older.end()
        for name, where, words in (("no key", at, []), ("no key, at an open store", at_open, []), ("another key", at, other)):
            with open(state, "rb") as file:
                before = file.read()
            self.row("that state with " + name, where, ["get a"], [], 3, ["bayou: %s: it is of the store room; give its key by --key" % state], words + ["--state", state])
            with open(state, "rb") as file:
                self.that("it isn't changed", file.read(), before)
        self.row("that state with its key", at, ["session"], ["session 0 asks none", "session 0 read 1 wrote 1"], words=own + ["--state", state])
        open_state = os.path.join(folder, "lee.state")
        self.row("a state of an open store", at_open, ["put b 1"], ["0 wrote 0:1 clock 1 deps 0"], words=["--state", open_state])
        self.that("has no label", os.path.exists(open_state + ".store"), False)
        self.stop_all()

    def full(self):
        """A Write that a full log refuses is reported with what to do then; reads are served, and nothing is reported of them."""
        server = self.start(self.folder(), words=["--limit", "2"])
        at = [(0, server.address())]
        self.row("a log gets full", at, ["put a 1", "put b 2", "put c 3", "get a"],
                 ["0 wrote 0:1 clock 1 deps 0", "0 wrote 0:2 clock 2 deps 1", "0 refused full", "0 read a num 1 at 2"], 1, [FULL])
        self.row("each Write is refused", at, ["del a", "put d 4"], ["0 refused full", "0 refused full"], 1, [FULL, FULL])
        self.row("a read is served", at, ["get b", "list"], ["0 read b num 2 at 2", "a num 1", "b num 2", "list keys 2 at 2"])
        self.stop_all()

    def calendar(self):
        """The day of examples/calendar: three servers, each apart in turn, and what a person prints at each."""
        folder = self.folder()
        book = os.path.join(self.room, "day.book")
        ports = {}
        states = {}
        with open(os.path.join(CALENDAR, "day.json")) as file:
            day = json.load(file)
        for index in range(3):
            ports[index] = self.start(folder, index, 3).port
        for number, step in enumerate(day):
            if "meet" in step:
                self.meet(folder, ports, *step["meet"])
                continue
            who = step["who"]
            words = ["--servers", "3", "--state", states.setdefault(who, os.path.join(self.room, "day-" + who)), "--book", book + "." + who]
            with open(os.path.join(CALENDAR, step["lines"] + ".txt")) as file:
                lines = file.read().splitlines()
            with open(os.path.join(CALENDAR, step["lines"] + ".expected")) as file:
                printed = file.read().splitlines()
            at = [(index, "127.0.0.1:%d" % ports[index]) for index in step["at"]]
            self.that("%s, step %d" % (who, number), self.call(at, lines, words + step.get("words", []), standings=True), (step.get("status", 0), printed, []))
        places = [(index, "127.0.0.1:%d" % port) for index, port in ports.items()]
        for who in states:
            self.that("%s: dumps" % who, self.call(places, ["dump"], ["--book", book + "." + who])[0], 0)
            audit = subprocess.run([self.program, "audit", book + "." + who], stdout=subprocess.PIPE, timeout=SECONDS)
            self.that("%s: the day is clean" % who, (audit.returncode, audit.stdout.decode().splitlines()[:1]), (0, ["clean"]))
        self.stop_all()

    def meet(self, folder, ports, to, of):
        """Server `to` takes what server `of` has: it is started again for so long with that one as its peer."""
        by_port = {server.port: server for server in self.servers}
        server = by_port[ports[to]]
        self.that("server %d ends" % to, server.end()[0], 0)
        self.servers.remove(server)
        met = Server(self.program, folder, to, servers=3, port=ports[to], peers=[(of, ports[of])])
        self.servers.append(met)
        self.that("server %d serves again" % to, met.serving() is not None)
        self.that("server %d met %d" % (to, of), met.told.find(r"bayou: peer %d reached pulled [0-9]+ had [0-9]+" % of) is not None)
        self.that("server %d ends again" % to, met.end()[0], 0)
        self.servers.remove(met)
        again = Server(self.program, folder, to, servers=3, port=ports[to])
        self.servers.append(again)
        self.that("server %d is apart again" % to, again.serving() is not None)


GROUPS = ["words", "logged", "lines", "values", "claims", "additions", "words_of_lines", "silent", "dripped", "unbelievable", "pages", "never_back", "in_python", "outcomes", "turns", "lost", "asks", "lists", "guarantees_alone", "kept", "grown", "killed", "finals", "objects", "out_of_order", "one_room", "one_room_killed", "killed_waiting", "forgotten", "guarantees", "drawn", "strangers", "keyed", "full", "calendar"]


def main():
    program = sys.argv[1]
    groups = sys.argv[2:] or GROUPS
    room = tempfile.mkdtemp()
    tries = Tries(program, room)
    try:
        for group in groups:
            begun = time.monotonic()
            try:
                getattr(tries, group)()
            except Exception as fault:  # a check that can't go on has failed
                tries.that("%s goes on" % group, repr(fault), "")
                tries.stop_all()
            print("%s: %.1f s" % (group, time.monotonic() - begun))
    finally:
        tries.stop_all()
        shutil.rmtree(room, ignore_errors=True)
    print("%d passed, %d failed" % (tries.checks.passed, tries.checks.failed))
    return 1 if tries.checks.failed else 0


if __name__ == "__main__":
    sys.exit(main())
