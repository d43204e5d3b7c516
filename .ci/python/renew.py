"""A store that goes on as a new one, tried from outside. Call: renew.py PROGRAM [KILLS [GROUP..]]."""
import fcntl
import hashlib
import os
import random
import re
import signal
import subprocess
import sys
import tempfile
import time

import frames
from checks import Checks
from living import SECONDS, Server
from meeting import free_port, soon
from net_meddled import library

sys.path.insert(0, os.path.join("..", "clients", "python"))
import bayou  # noqa: E402

# How long one call may take at the most.
CALL_SECONDS = 120
# How many puts a Write has at the most, and how many Writes a store.
MOST_OPS, MOST_WRITES = 8, 65536
# How many calls of files one call makes at the most.
MOST_CALLS = 1000
# How many Writes each of three servers makes in a year, apart from the others.
YEAR = 20000
LINE = re.compile(r"renewed ([0-9]+) at ([0-9,]+) keys ([0-9]+) writes ([0-9]+) digest ([0-9a-f]{16})\n")


def tree(folder):
    """All that is in the folder: each name, with its bytes, its mode and when it was changed last."""
    found = {}
    for name in sorted(os.listdir(folder)):
        path = os.path.join(folder, name)
        seen = os.stat(path)
        with open(path, "rb") as file:
            found[name] = (hashlib.sha256(file.read()).hexdigest(), seen.st_mode, seen.st_size, seen.st_mtime_ns, seen.st_ino)
    return found


def puts(rows):
    """The program that puts these rows, as frames has programs."""
    return ((), [("put", key, ("lit", value)) for key, value in rows], [])


def written(groups, origin=0):
    """The bytes of Writes of one server, each of which puts one of these groups of rows."""
    writes = []
    for number, rows in enumerate(groups):
        deps = list(frames.ZERO)
        deps[origin] = number
        writes.append(frames.write_bytes((origin, number + 1, number + 1, tuple(deps), puts(rows))))
    return writes


def grouped(rows):
    return [rows[at:at + MOST_OPS] for at in range(0, len(rows), MOST_OPS)]


def digest_of(writes):
    """The digest of Writes of one server, as docs/FORMATS.md has it."""
    digest = bytes(32)
    for write in writes:
        digest = hashlib.sha256(digest + write).digest()
    return digest[:8].hex() if writes else "0" * 16


def numbered(number):
    return [("k%06d" % (MOST_OPS * number + place), number) for place in range(MOST_OPS)]


def of_year(origin, number):
    """The program of a Write of a year: a claim of a room, or of the next one; a cancellation; or a setting."""
    room = "room/%05d" % (7 * number % 12000)
    other = "room/%05d" % (7 * number % 12000 + 1)
    if number % 4 == 3:
        counted = ("plus", "sum", 1) if number > 3 else ("lit", 0)
        return ((), [("put", "set/%d/%03d" % (origin, number % 500), ("lit", number)), ("put", "sum", counted)], [])
    if number % 4 == 2:
        return ((), [("del", "room/%05d" % (7 * (number - 2) % 12000))], [])
    name = ("lit", "person %d" % (number % 97))
    return ([("absent", room)], [("put", room, name)], [([("absent", other)], [("put", other, name)])])


def year_of(origin):
    """The bytes of a year's Writes of a server."""
    writes = []
    for number in range(YEAR):
        deps = list(frames.ZERO)
        deps[origin] = number
        writes.append(frames.write_bytes((origin, number + 1, number + 1, tuple(deps), of_year(origin, number))))
    return writes


class Tries:
    def __init__(self, program, kills, room):
        self.program, self.kills, self.room, self.checks = program, kills, room, Checks()

    def folder(self):
        return tempfile.mkdtemp(dir=self.room)

    def that(self, name, told, expected=True):
        self.checks.that(name, told, expected)

    # Calls.

    def call(self, old, new, at, index=0, servers=3, more=()):
        call = [self.program, "renew", "--id", str(index), "--servers", str(servers), "--dir", old, "--to", new, "--at", at]
        return call + list(more)

    def renew(self, *words, **more):
        """What a call answers: its status, and what it printed and told."""
        done = subprocess.run(self.call(*words, **more), stdin=subprocess.DEVNULL, capture_output=True, timeout=CALL_SECONDS)
        return done.returncode, done.stdout.decode(), done.stderr.decode()

    def renewed(self, name, old, new, at, **more):
        """A call that must end well, and leave the old folder as it was: the number of keys and of Writes, and the digest."""
        before = tree(old)
        status, printed, told = self.renew(old, new, at, **more)
        line = LINE.fullmatch(printed)
        self.that(name, (status, told, line is not None and line.group(1, 2)), (0, "", (str(more.get("index", 0)), at)))
        self.that("%s: the old folder stays as it was" % name, tree(old), before)
        return None if line is None else (int(line.group(3)), int(line.group(4)), line.group(5))

    def refuses(self, name, old, new, at, told, status=3, **more):
        """A call that must be refused so, and make and change nothing."""
        before = tree(old), tree(new)
        self.that(name, self.renew(old, new, at, **more), (status, "", told))
        self.that("%s: nothing is made or changed" % name, (tree(old), tree(new)), before)

    def exported(self, folder, index, servers=3):
        """The lines of the rows that an export of a journal prints."""
        call = [self.program, "export", "--dir", folder, "--id", str(index), "--servers", str(servers)]
        done = subprocess.run(call, stdin=subprocess.DEVNULL, capture_output=True, timeout=CALL_SECONDS)
        self.that("an export of a journal", (done.returncode, done.stderr), (0, b""))
        return done.stdout.decode().splitlines()[1:]

    # What servers tell.

    def key(self, name):
        path = os.path.join(self.folder(), "store.key")
        done = subprocess.run([self.program, "key", path, "--name", name], stdin=subprocess.DEVNULL, capture_output=True, timeout=SECONDS)
        self.that("a key is made", done.returncode, 0)
        return path

    def store(self, folder, count, key=None, new=(), ports=None):
        """The servers of a store in this folder, which pull from one another; those that are new begin with nothing."""
        ports = ports or [free_port() for _ in range(count)]
        servers = []
        for index in range(count):
            peers = [(peer, ports[peer]) for peer in range(count) if peer != index]
            words = ["--key", key] if key else []
            servers.append(Server(self.program, folder, index, servers=count, port=ports[index], peers=peers, new=index in new, words=words))
        for index, server in enumerate(servers):
            self.that("server %d serves" % index, server.serving() is not None)
        return servers

    def ended(self, servers):
        """Has servers end once all hold the same, and tells what that is."""
        texts = []
        for server in servers:
            status, printed = server.end()
            self.that("a server ends well", status, 0)
            texts.append(re.sub("log [0-9]+ at ", "", printed[-1]))
        self.that("all ended with the same", len(set(texts)), 1)
        return texts[0]

    def connect(self, servers, lines, words=()):
        """What a person is answered who says these lines at the servers."""
        call = [self.program, "connect"]
        for index, server in enumerate(servers):
            call += ["--server", "%d=%s" % (index, server.address())] if server else []
        done = subprocess.run(call + list(words), input=lines.encode(), capture_output=True, timeout=CALL_SECONDS)
        return done.returncode, done.stdout.decode(), done.stderr.decode()

    def rows(self, server, index, count, key=None):
        """The rows that one of so many servers lists."""
        call = [self.program, "connect", "--server", "%d=%s" % (index, server.address()), "--servers", str(count)]
        done = subprocess.run(call + (["--key", key] if key else []), input=b"list\n", capture_output=True, timeout=CALL_SECONDS)
        lines = done.stdout.decode().splitlines()
        self.that("a list is told", (done.returncode, lines[-1:] != [] and lines[-1].startswith("list")), (0, True))
        return lines[:-1]

    def same_counts(self, servers, key=None, seconds=SECONDS):
        """Waits until all servers hold the same."""
        found = None if key is None else bayou.Key(key)

        def looked():
            vectors = set()
            for index, server in enumerate(servers):
                link = bayou.Link(server.address(), 3.0, found, index)
                try:
                    vectors.add(tuple(link.vector()))
                finally:
                    link.close()
            return len(vectors) == 1 and vectors.pop()

        return soon(looked, seconds)

    # Groups.

    def live(self, servers, key):
        """Sessions write at each server: rows, changes of them, claims that meet, and removals."""
        for index, server in enumerate(servers):
            addresses = [server.address() if at == index else None for at in range(len(servers))]
            with bayou.Session(addresses, key=key) as session:
                for number in range(40):
                    session.write({"update": [["put", "s%d/%03d" % (index, number), number], ["put", "all/%03d" % number, index]]}, index)
                for number in range(0, 40, 3):
                    session.write({"update": [["del", "s%d/%03d" % (index, number)], ["put", "sum", ["plus", "sum", number]]]}, index)
                for number in range(5):
                    session.claim(["room/%d" % number, "room/%d" % (number + 1)], "person %d" % index, index)

    def stores(self):
        old, new = self.folder(), self.folder()
        first, second = self.key("first"), self.key("second")
        state = os.path.join(self.folder(), "old.state")
        servers = self.store(old, 3, first, new=(0, 1, 2))
        self.live(servers, first)
        with bayou.Session([server.address() for server in servers], key=first, state=state) as session:
            session.write({"update": [["put", "kept", 1]]})
        self.that("all hold the same", self.same_counts(servers, first) is not None)
        rows = self.rows(servers[0], 0, 3, first)
        self.that("there are rows", len(rows) > 100)
        self.in_use(old, new)
        at = self.ended(servers)
        told = [self.renewed("server %d is renewed" % index, old, new, at, index=index) for index in range(3)]
        self.that("the keys, the Writes and the digest are the same at all", told[1:], [told[0]] * 2)
        self.that("as many keys, and as few Writes as can put them", told[0] and told[0][:2], (len(rows), -(-len(rows) // MOST_OPS)))
        self.that("nothing else is made", sorted(os.listdir(new)), ["server-%d.journal" % index for index in range(3)])
        if told[0]:
            self.go_on(old, new, at, first, second, state, rows, told[0])

    def in_use(self, old, new):
        """A server has the journal open."""
        path = os.path.join(old, "server-1.journal")
        self.that("a journal in use", self.renew(old, new, "0,0,0", index=1), (3, "", "bayou: %s: it can't be opened, or another process has it\n" % path))
        self.that("nothing is made of a journal in use", os.listdir(new), [])

    def go_on(self, old, new, at, first, second, state, rows, told):
        """The new store is served, under a key of its own, and the old one meets it nowhere."""
        servers = self.store(new, 3, second)
        for index, server in enumerate(servers):
            line = "serving %d at %s holds %d,0,0" % (index, server.address(), told[1])
            self.that("server %d holds the Writes" % index, server.printed.all(), [line])
            self.that("server %d has the rows" % index, self.rows(server, index, 3, second), rows)
        dumps = [bayou.Link(server.address(), 3.0, bayou.Key(second), index).dump() for index, server in enumerate(servers)]
        self.that("all hold the same Writes", [dump == dumps[0] for dump in dumps], [True] * 3)
        self.that("the digest is that of these Writes", digest_of(dumps[0]), told[2])
        with bayou.Session([server.address() for server in servers], asks=bayou.ASKS, key=second, state=os.path.join(self.folder(), "new.state")) as session:
            self.that("a new session reads what was written", session.read("kept"), 1)
            session.write({"update": [["put", "kept", 2]]}, 1)
            self.that("and what it writes, at another server, once that has it", soon(lambda: session.read("kept", 2)), 2)
        self.strangers(old, servers, first, state)
        self.that("the new servers go on alike", self.same_counts(servers, second) is not None)
        counts = self.ended(servers)
        self.that("a Write more is held", counts, "%d,1,0" % told[1])

    def strangers(self, old, servers, first, state):
        """Who comes with the old store's key, with its state, or as one of its servers, learns that this is another store."""
        status, printed, told = self.connect(servers, "get kept\n", ["--key", first, "--state", state])
        self.that("an old session isn't served", (status, "another store" in told), (1, True))
        peers = [(0, servers[0].port), (1, servers[1].port)]
        stranger = Server(self.program, old, 2, servers=3, peers=peers, words=["--key", first])
        self.that("an old server serves on", stranger.serving() is not None)
        self.that("and is told that its peers are of another store", stranger.told.find("bayou: .*another store.*") is not None)
        before = stranger.printed.all()[0].rsplit(" ", 1)[1]
        self.that("it pulls nothing", stranger.end()[1][-1:], ["log 2 at " + before])

    def made(self, groups, servers=3, folder=None):
        """A folder with journals of so many servers, which hold Writes of server 0 that put these groups of rows."""
        folder = folder or self.folder()
        writes = written(groups)
        for index in range(servers):
            with open(os.path.join(folder, "server-%d.journal" % index), "wb") as file:
                file.write(frames.journal_of(index, writes))
        return folder

    def held(self, folder, index, count, new=False, peers=()):
        """The rows that the server of this folder has, and what it holds."""
        server = Server(self.program, folder, index, servers=count, new=new, peers=peers)
        line = server.serving()
        rows = self.rows(server, index, count)
        self.that("it ends well", server.end()[0], 0)
        return rows, line and line.rsplit(" ", 1)[1]

    def without(self):
        rows = [("a/%02d" % number, number) for number in range(20)] + [("b/%02d" % number, number) for number in range(20)] + [("ab", 1), ("b", 2)]
        old = self.made(grouped(rows))
        at = "%d,0,0" % len(grouped(rows))
        for name, prefixes in [("none", []), ("a part", ["a/"]), ("two parts", ["a/0", "b/1"]), ("one in the other", ["a", "a/"]), ("none that is there", ["c"]),
                               ("all", ["a", "b"])]:
            new = self.folder()
            left = sorted((key, value) for key, value in rows if not any(key.startswith(prefix) for prefix in prefixes))
            words = [word for prefix in prefixes for word in ("--without", prefix)]
            for index in range(3):
                told = self.renewed("without %s, at %d" % (name, index), old, new, at, index=index, more=words)
                made = written(grouped(left))
                self.that("what is made without %s" % name, told, (len(left), len(made), digest_of(made)))
                found = self.held(new, index, 3)
                self.that("what is held without %s" % name, found, (["%s num %d" % row for row in left], "%d,0,0" % len(made)))

    def numbers(self):
        rows = [("k/%02d" % number, number) for number in range(30)]
        old = self.made(grouped(rows))
        lines = ["%s num %d" % row for row in rows]
        new = self.folder()
        told = {self.renewed("server %d, of four then" % index, old, new, "4,0,0", index=index, more=["--servers-then", "4"]) for index in range(3)}
        self.that("all are told the same", len(told), 1)
        servers = self.store(new, 4, new=(3,))
        self.that("the one that is added gets all", self.same_counts(servers), frames.counts(4))
        self.that("and lists the rows", self.rows(servers[3], 3, 4), lines)
        with bayou.Session([server.address() for server in servers]) as session:
            session.write({"update": [["put", "more", 1]]}, 3)
        self.that("it makes Writes of its own", soon(lambda: self.same_counts(servers) == frames.counts(4, 0, 0, 1)))
        self.that("four servers hold them", self.ended(servers), "4,0,0,1")
        new = self.folder()
        for index in range(2):
            self.renewed("server %d, of two then" % index, old, new, "4,0,0", index=index, more=["--servers-then", "2"])
        self.refuses("a server that is left out", old, new, "4,0,0", "bayou: --id is below --servers-then: a server that is left out isn't renewed\n", 2, index=2,
                     more=["--servers-then", "2"])
        servers = self.store(new, 2)
        self.that("two servers have the rows", [self.rows(server, index, 2) for index, server in enumerate(servers)], [lines] * 2)
        self.that("and hold the Writes", self.ended(servers), "4,0")

    def words(self):
        old, new = self.made(grouped([("a", 1)])), self.folder()
        counts = "bayou: --at takes a count of Writes for each server, as 12,7,30\n"
        for at in ("", "1", "1,0", "1,0,0,0", "1,0,", ",1,0,0", "1,0,x", "1,0,-1", "1, 0,0", "1,0,65537", "1;0;0"):
            self.refuses("--at %r" % at, old, new, at, counts, 2)
        for prefix in ("", "A", "a b", "x" * 33):
            self.refuses("--without %r" % prefix, old, new, "1,0,0", "bayou: --without takes 1 to 32 bytes of a-z 0-9 . _ - /\n", 2, more=["--without", prefix])
        self.refuses("an id that is none of the servers", old, new, "1,0,0", "bayou: --id is below --servers\n", 2, index=3)
        self.refuses("the same folder", old, old, "1,0,0", "bayou: --to is another folder than --dir\n", 2)
        for name, words in [("no --at", ["--id", "0", "--servers", "3", "--dir", old, "--to", new]),
                            ("no --to", ["--id", "0", "--servers", "3", "--dir", old, "--at", "1,0,0"]),
                            ("no new servers", self.call(old, new, "1,0,0", more=["--servers-then", "0"])[2:]),
                            ("too many new servers", self.call(old, new, "1,0,0", more=["--servers-then", "17"])[2:]),
                            ("a word more", self.call(old, new, "1,0,0", more=["more"])[2:])]:
            done = subprocess.run([self.program, "renew"] + words, stdin=subprocess.DEVNULL, capture_output=True, timeout=SECONDS)
            self.that(name, (done.returncode, done.stdout, bool(done.stderr)), (2, b"", True))
        self.that("nothing is made of refused words", os.listdir(new), [])

    def refused(self):
        rows = grouped([("k/%02d" % number, number) for number in range(20)])
        old, new = self.made(rows), self.folder()
        path, target = os.path.join(old, "server-0.journal"), os.path.join(new, "server-0.journal")
        for at in ("2,0,0", "4,0,0", "3,1,0", "0,0,0", "0,3,0"):
            self.refuses("it holds other than %s" % at, old, new, at, "bayou: %s: it holds 3,0,0, and not %s as --at says\n" % (path, at))
        nowhere = os.path.join(new, "nowhere")
        missing = "bayou: %s/server-0.journal: there is no journal\n"
        empty = self.folder()
        self.refuses("no journal there", empty, new, "3,0,0", missing % empty)
        self.that("no old folder", self.renew(nowhere, new, "3,0,0"), (3, "", missing % nowhere))
        open(os.path.join(empty, "server-0.journal"), "wb").close()
        self.refuses("an empty file", empty, new, "3,0,0", missing % empty)
        told = self.renew(old, nowhere, "3,0,0")
        self.that("no new folder", told, (3, "", "bayou: %s/server-0.journal: its .part can't be opened, or another process has it\n" % nowhere))
        self.that("no folder is made", os.listdir(new), [])
        for name, content in [("a journal", frames.journal_of(0, [])), ("an empty file", b""), ("another file", b"x")]:
            with open(target, "wb") as file:
                file.write(content)
            self.refuses("%s there already" % name, old, new, "3,0,0", "bayou: %s: there is one already\n" % target)
            os.remove(target)
        self.refuses("the same folder by another name", old, os.path.join(old, "."), "3,0,0", "bayou: %s: there is one already\n" % os.path.join(old, ".", "server-0.journal"))
        with open(path, "rb") as held:
            fcntl.flock(held, fcntl.LOCK_EX)
            self.refuses("a journal in use", old, new, "3,0,0", "bayou: %s: it can't be opened, or another process has it\n" % path)
        with open(target + ".part", "wb") as held:
            fcntl.flock(held, fcntl.LOCK_EX)
            self.refuses("a .part in use", old, new, "3,0,0", "bayou: %s: its .part can't be opened, or another process has it\n" % target)
        self.renewed("it is renewed after all that", old, new, "3,0,0")
        self.that("and the .part is taken over", os.listdir(new), ["server-0.journal"])
        self.unwritten(old)

    def unwritten(self, old):
        """What is printed can't be written."""
        new = self.folder()
        with open("/dev/full", "wb") as full:
            done = subprocess.run(self.call(old, new, "3,0,0"), stdin=subprocess.DEVNULL, stdout=full, stderr=subprocess.PIPE, timeout=SECONDS)
        self.that("the line can't be printed", (done.returncode, done.stderr), (3, b"bayou: output\n"))

    def damaged(self):
        rows = grouped([("k/%02d" % number, number) for number in range(40)])
        old, new = self.made(rows), self.folder()
        path = os.path.join(old, "server-0.journal")
        with open(path, "rb") as file:
            whole = file.read()
        entry = (len(whole) - frames.HEADER) // len(rows)
        for name, at in [("in the first entry", 20), ("in the digest of the third", frames.HEADER + 3 * entry - 1), ("in the last but one", len(whole) - entry - 5)]:
            broken = bytearray(whole)
            broken[at] ^= 1
            self.put(path, broken)
            before = frames.HEADER + (at - frames.HEADER) // entry * entry
            told = "bayou: %s: it is whole up to byte %d, and the %d bytes behind that are damaged; nothing was changed\n" % (path, before, len(whole) - before)
            self.refuses("a byte changed %s" % name, old, new, "5,0,0", told)
        for name, content, told in [
            ("no journal at all", b"something else", "it is no journal"),
            ("another server's", frames.journal(1, []), "it is another server's journal"),
            ("an entry that is no Write", frames.journal(0, [b"nothing"]), "its entry 0 is no Write that may stand there"),
            ("a gap", frames.journal(0, [frames.record(0, write) for write in written(rows)[1:]]), "its entry 0 may not follow those before it"),
        ]:
            self.put(path, content)
            self.refuses(name, old, new, "5,0,0", "bayou: %s: %s\n" % (path, told))
        for cut in (1, 50, entry - 1):
            self.put(path, whole[:-cut])
            self.refuses("torn by %d bytes" % cut, old, new, "5,0,0", "bayou: %s: it holds 4,0,0, and not 5,0,0 as --at says\n" % path)
        told = self.renewed("a torn entry isn't of what is held", old, new, "4,0,0")
        self.that("what is made of the rest", told and told[:2], (32, 4))

    def put(self, path, content):
        with open(path, "wb") as file:
            file.write(content)

    def killed(self, old, new, at, seconds, is_late):
        """A call that is killed after so long at the most, or once it writes: whether that was before it ended, and how long it took."""
        begun = time.monotonic()
        process = subprocess.Popen(self.call(old, new, at), stdin=subprocess.DEVNULL, stdout=subprocess.DEVNULL, stderr=subprocess.DEVNULL)
        while process.poll() is None and (os.listdir(new) == [] if is_late else time.monotonic() < begun + seconds):
            time.sleep(0.0005)
        process.send_signal(signal.SIGKILL)
        return process.wait(SECONDS) == -signal.SIGKILL, time.monotonic() - begun

    def kill(self):
        rows = [row for number in range(3000) for row in numbered(number)]
        old, at = self.made(grouped(rows), servers=2), "3000,0,0"
        before, told = tree(old), self.renewed("it is renewed", old, self.folder(), at)
        killed, parts, span = 0, 0, 1.0
        while killed < self.kills:
            new, is_late = self.folder(), killed % 2 == 1
            was_killed, took = self.killed(old, new, at, random.uniform(0, span), is_late)
            if not was_killed:
                # (it was faster, and isn't counted)
                span = min(span, took)
                continue
            killed += 1
            names = os.listdir(new)
            parts += "server-0.journal.part" in names
            self.that("a killed call leaves no more than one file", names in ([], ["server-0.journal.part"], ["server-0.journal"]))
            self.that("a killed call changes nothing of the old folder", tree(old), before)
            if names != ["server-0.journal"]:
                self.that("a second call makes the same", self.renewed("a second call works", old, new, at), told)
                self.that("and leaves nothing else", os.listdir(new), ["server-0.journal"])
        print("renew: %d killed, %d of them with a .part" % (killed, parts))

    def kill_at_calls(self):
        """A call is killed at each of its calls of files, one after another, until it makes fewer."""
        old, at = self.made(grouped([("k/%02d" % number, number) for number in range(40)])), "5,0,0"
        before, told, stopped = tree(old), self.renewed("it is renewed", old, self.folder(), at), library(self.room, "kill")
        left = set()
        for number in range(1, MOST_CALLS):
            new = self.folder()
            done = subprocess.run(self.call(old, new, at), stdin=subprocess.DEVNULL, capture_output=True, timeout=CALL_SECONDS,
                                  env=dict(os.environ, LD_PRELOAD=stopped, KILL=str(number)))
            if done.returncode != -signal.SIGKILL:
                break
            names = os.listdir(new)
            left.update(names or ["nothing"])
            self.that("killed at call %d it leaves no more than one file" % number, names in ([], ["server-0.journal.part"], ["server-0.journal"]))
            self.that("killed at call %d it changes nothing of the old folder" % number, tree(old), before)
            if names != ["server-0.journal"]:
                self.that("after call %d a second one makes the same" % number, self.renewed("a second call works", old, new, at), told)
            self.that("after call %d nothing else is left" % number, os.listdir(new), ["server-0.journal"])
        self.that("it ended well once it wasn't killed", (done.returncode, done.stderr), (0, b""))
        self.that("it was killed before, amid and after", left, {"nothing", "server-0.journal.part", "server-0.journal"})
        print("renew: killed at %d calls" % (number - 1))

    def parts(self):
        """What a call that was cut off may have left in the .part: nothing, a part, more, or something else."""
        rows = grouped([("k/%02d" % number, number) for number in range(40)])
        old, first = self.made(rows), self.folder()
        told = self.renewed("it is renewed", old, first, "5,0,0")
        with open(os.path.join(first, "server-0.journal"), "rb") as file:
            whole = file.read()
        for name, content in [("nothing", b""), ("a part", whole[:len(whole) // 2]), ("all", whole), ("more", whole + b"x" * 5000), ("something else", b"y" * 100)]:
            new = self.folder()
            self.put(os.path.join(new, "server-0.journal.part"), content)
            self.that("a .part that has %s" % name, self.renewed("a call over a .part that has %s" % name, old, new, "5,0,0"), told)
            with open(os.path.join(new, "server-0.journal"), "rb") as file:
                self.that("is made anew that had %s" % name, len(file.read()), len(whole))

    def half(self):
        """A database that takes half of the room, and one that takes a Write more."""
        half = MOST_WRITES // 2
        groups = [numbered(number) for number in range(half)] + [[("z", 1)]]
        old = self.made(groups, servers=2)
        path, new = os.path.join(old, "server-0.journal"), self.folder()
        told = "bayou: %s: its database takes %d Writes, more than %d: leave keys out by --without, or call it with --full\n" % (path, half + 1, half)
        at = "%d,0,0" % (half + 1)
        self.refuses("more than half of the room", old, new, at, told)
        self.that("half of it", self.renewed("half of it", old, new, at, more=["--without", "z"])[:2], (MOST_OPS * half, half))
        new = self.folder()
        made = [self.renewed("with --full, at %d" % index, old, new, at, index=index, more=["--full"]) for index in range(2)]
        writes = written(groups)
        self.that("with --full all is taken along", made, [(MOST_OPS * half + 1, half + 1, digest_of(writes))] * 2)
        for index in range(2):
            server = Server(self.program, new, index)
            self.that("it is served then", server.printed.find("serving .* holds %s" % at, CALL_SECONDS) is not None)
            self.that("and ends well", server.end()[0], 0)

    def year(self):
        """Claims, cancellations and settings of three servers that were apart for a year, and nearly fill a store: they meet, and go on at a new one."""
        old, new = self.folder(), self.folder()
        for index in range(3):
            with open(os.path.join(old, "server-%d.journal" % index), "wb") as file:
                file.write(frames.journal_of(index, year_of(index)))
        servers = self.store(old, 3)
        at = ",".join([str(YEAR)] * 3)
        self.that("they meet", self.same_counts(servers, seconds=CALL_SECONDS) is not None)
        rows = [self.rows(server, index, 3) for index, server in enumerate(servers)]
        self.that("their databases are one", rows[1:], [rows[0]] * 2)
        self.that("rooms were claimed, and settings made", (len(rows[0]) > 6000, sum(row.startswith("set/") for row in rows[0])), (True, 3 * 125))
        self.that("all hold all of it", self.ended(servers), at)
        before = [self.exported(old, index) for index in range(3)]
        self.that("each export has them", (len(before[0]), before[1:]), (len(rows[0]), [before[0]] * 2))
        told = [self.renewed("server %d is renewed" % index, old, new, at, index=index) for index in range(3)]
        self.that("the same at all", told[1:], [told[0]] * 2)
        self.that("each new journal exports the same", [self.exported(new, index) for index in range(3)], before)
        self.that("as few Writes as can put the rows", told[0] and told[0][:2], (len(rows[0]), -(-len(rows[0]) // MOST_OPS)))
        servers = self.store(new, 3)
        for index, server in enumerate(servers):
            self.that("server %d has the rows" % index, self.rows(server, index, 3), rows[0])
            status, printed, _ = self.connect([None] * index + [server], "put %d/next 1\n" % index, ["--servers", "3"])
            self.that("server %d takes Writes" % index, (status, printed.startswith("0 wrote %d:" % index)), (0, True))
        self.that("they go on alike", self.same_counts(servers) is not None)
        self.that("with a Write more of each", self.ended(servers), "%d,1,1" % (told[0][1] + 1))

    def run(self, groups):
        every = {"words": self.words, "refused": self.refused, "damaged": self.damaged, "without": self.without, "numbers": self.numbers, "parts": self.parts,
                 "stores": self.stores, "year": self.year, "kills": self.kill, "calls": self.kill_at_calls, "room": self.half}
        for name in groups or every:
            begun = time.monotonic()
            every[name]()
            print("renew: %s took %.1f seconds" % (name, time.monotonic() - begun))


def main():
    program, kills, groups = sys.argv[1], int((sys.argv[2:] or ["12"])[0]), sys.argv[3:]
    with tempfile.TemporaryDirectory() as room:
        tries = Tries(program, kills, room)
        tries.run(groups)
    print("%d passed, %d failed" % (tries.checks.passed, tries.checks.failed))
    return 1 if tries.checks.failed else 0


if __name__ == "__main__":
    sys.exit(main())
