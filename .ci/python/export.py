"""What a store has, taken out of it and put into one, tried from outside. Call: export.py PROGRAM [KILLS [GROUP..]]."""
import contextlib
import fcntl
import hashlib
import json
import os
import pty
import random
import re
import signal
import socket
import subprocess
import sys
import tempfile
import threading
import time

import frames
from checks import Checks
from living import SECONDS, Server
from meeting import free_port, soon

sys.path.insert(0, os.path.join("..", "clients", "python"))
import bayou  # noqa: E402

# How long one call may take at the most.
CALL_SECONDS = 120
# How many puts a Write has at the most, how many Writes a store, and how many rows a page.
MOST_OPS, MOST_WRITES, ROWS_AT_ONCE = 8, 65536, 121
CHANGED = "bayou: the server's rows changed while they were told, three times; call it again, or read a journal\n"


def tree(folder):
    """All that is in the folder: each name, with its bytes, its mode and when it was changed last."""
    found = {}
    for name in sorted(os.listdir(folder)):
        path = os.path.join(folder, name)
        seen = os.stat(path)
        with open(path, "rb") as file:
            found[name] = (hashlib.sha256(file.read()).hexdigest(), seen.st_mode, seen.st_size, seen.st_mtime_ns, seen.st_ino)
    return found


def line(data):
    """The line of this, spelled as compact JSON."""
    return json.dumps(data, separators=(",", ":"), ensure_ascii=False) + "\n"


def lines_of(server, counts, rows):
    """All lines of these rows of a server that holds so much."""
    return line(["exported", "server-%d" % server, counts, len(rows)]) + "".join(line(["put", key, value]) for key, value in sorted(rows))


def written(groups, origin=0):
    """The bytes of Writes of one server, each of which puts one of these groups of rows."""
    writes = []
    for number, rows in enumerate(groups):
        deps = list(frames.ZERO)
        deps[origin] = number
        program = ((), [("put", key, ("lit", value)) for key, value in rows], [])
        writes.append(frames.write_bytes((origin, number + 1, number + 1, tuple(deps), program)))
    return writes


class Cutting:
    """A way to a server that is cut at random: some connections end before a reply, or within it, and what was asked was done or wasn't."""

    def __init__(self, port):
        self.to, self.cuts, self.listener = port, 0, socket.create_server(("127.0.0.1", 0))
        self.port = self.listener.getsockname()[1]
        threading.Thread(target=self.run, daemon=True).start()

    def run(self):
        with contextlib.suppress(OSError):
            while True:
                near = self.listener.accept()[0]
                threading.Thread(target=self.meet, args=(near,), daemon=True).start()

    def meet(self, near):
        with contextlib.suppress(OSError), near, socket.create_connection(("127.0.0.1", self.to)) as far:
            threading.Thread(target=self.pass_on, args=(near, far, None), daemon=True).start()
            self.pass_on(far, near, random.randrange(0, 3000))

    def pass_on(self, source, sink, left):
        """Passes on what comes, up to so many bytes, if that is said; then both ends are closed."""
        with contextlib.suppress(OSError):
            while True:
                piece = source.recv(4096)
                if not piece:
                    break
                if left is not None and len(piece) > left:
                    self.cuts += 1
                    sink.sendall(piece[:left])
                    break
                left = None if left is None else left - len(piece)
                sink.sendall(piece)
        for end in (source, sink):
            with contextlib.suppress(OSError):
                end.shutdown(socket.SHUT_RDWR)

    def end(self):
        self.listener.close()


def grouped(rows):
    return [rows[at:at + MOST_OPS] for at in range(0, len(rows), MOST_OPS)]


def line_of_none():
    return line(["exported", "x", [], 0])


VALUES = [0, 1, -1, 2 ** 63 - 1, -2 ** 63, "", "kim", "Kim and Lee", "\"quoted\"", "back\\slash", "a/b", "tab\tand\nfeed\r", "\b\f", "\x00\x1f\x7f",
          "\u00fc", "\u4f1a\u8b70\u5ba4", "\U0001f600", "007", "1.5", "null", "x" * 32]


class Tries:
    def __init__(self, program, kills, room):
        self.program, self.kills, self.room, self.checks = program, kills, room, Checks()

    def folder(self):
        return tempfile.mkdtemp(dir=self.room)

    def that(self, name, told, expected=True):
        self.checks.that(name, told, expected)

    # Calls.

    def export(self, *words):
        """What a call answers: its status, and what it printed and told."""
        done = subprocess.run([self.program, "export"] + list(words), stdin=subprocess.DEVNULL, capture_output=True, timeout=CALL_SECONDS)
        return done.returncode, done.stdout.decode(), done.stderr.decode()

    def of_journal(self, name, folder, expected, *words, index=0):
        """A call of a journal that must print this, and leave the folder as it was."""
        before = tree(folder)
        self.that(name, self.export("--dir", folder, "--id", str(index), *words), (0, expected, ""))
        self.that("%s: the folder stays as it was" % name, tree(folder), before)

    def refuses(self, name, folder, told, *words, index=0, status=3):
        """A call of a journal that must be refused so, print nothing and change nothing."""
        before = tree(folder)
        self.that(name, self.export("--dir", folder, "--id", str(index), *words), (status, "", told))
        self.that("%s: nothing is changed" % name, tree(folder), before)

    def at(self, servers):
        return [word for index, server in servers for word in ("--server", "%d=%s" % (index, server.address()))]

    # What there is.

    def made(self, groups, servers=2):
        """A folder with journals of so many servers, which hold Writes of server 0 that put these groups of rows."""
        folder = self.folder()
        writes = written(groups)
        for index in range(servers):
            self.put(os.path.join(folder, "server-%d.journal" % index), frames.journal_of(index, writes))
        return folder

    def put(self, path, content):
        with open(path, "wb") as file:
            file.write(content)

    def key(self, name):
        path = os.path.join(self.folder(), "store.key")
        done = subprocess.run([self.program, "key", path, "--name", name], stdin=subprocess.DEVNULL, capture_output=True, timeout=SECONDS)
        self.that("a key is made", done.returncode, 0)
        return path

    def served(self, folder, index=0, servers=2, **more):
        server = Server(self.program, folder, index, servers=servers, **more)
        self.that("a server serves", server.serving() is not None)
        return server

    # Groups.

    def words(self):
        folder = self.made([[("a", 1)]])
        one = "bayou: export takes either --server, or --dir and --id\n"
        for name, words, told in [
            ("neither", [], one),
            ("both", ["--dir", folder, "--id", "0", "--server", "0=127.0.0.1:1"], one),
            ("no id", ["--dir", folder], "bayou: --dir and --id go together\n"),
            ("no folder", ["--id", "0"], "bayou: --dir and --id go together\n"),
            ("an id of a server", ["--id", "0", "--server", "0=127.0.0.1:1"], "bayou: --dir and --id go together\n"),
            ("a key for a journal", ["--dir", folder, "--id", "0", "--key", "nowhere"], "bayou: --key goes with --server: a journal is read without it\n"),
            ("an id that is none of the servers", ["--dir", folder, "--id", "2", "--servers", "2"], "bayou: --id is below --servers\n"),
            ("no server", ["--server", "nowhere"],
             "bayou: --server takes I=ADDRESS:PORT, with an address of numbers, I being a server's number\n"),
            ("a server twice", ["--server", "0=127.0.0.1:1", "--server", "0=127.0.0.1:2"], "bayou: --server names a server twice\n"),
            ("too few servers", ["--server", "1=127.0.0.1:1", "--servers", "1"], "bayou: --servers is above each server's number\n"),
        ]:
            self.that(name, self.export(*words), (2, "", told))
        for prefix in ("A", "a b", "x" * 33, "\u00fc"):
            told = "bayou: PREFIX takes up to 32 bytes of a-z 0-9 . _ - /\n"
            self.that("the prefix %r" % prefix, self.export("--dir", folder, "--id", "0", prefix), (2, "", told))
        for name, words in [("an id above", ["--dir", folder, "--id", "16"]), ("no servers", ["--servers", "0"]), ("two prefixes", ["--dir", folder, "--id", "0", "a", "b"]),
                            ("no such option", ["--state", "x"]), ("an empty folder", ["--dir", "", "--id", "0"]), ("an empty key", ["--key", ""])]:
            status, printed, told = self.export(*words)
            self.that(name, (status, printed, told != ""), (2, "", True))

    def spelled(self):
        """Each value as JSON has it, and as it is read again."""
        rows = [("v/%02d" % number, value) for number, value in enumerate(VALUES)] + [("k" * 32, 1), (".", 2), ("_-/", 3)]
        folder = self.made(grouped(rows))
        writes = len(grouped(rows))
        self.of_journal("each value", folder, lines_of(0, [writes], rows))
        printed = self.export("--dir", folder, "--id", "0")[1]
        found = [json.loads(one) for one in printed.split("\n")[1:-1]]
        self.that("they are read again as they were", [(key, value) for _, key, value in found], sorted(rows))
        self.of_journal("another server's journal of the same", folder, lines_of(1, [writes, 0], rows), index=1)
        for count, counts in [("1", [writes]), ("3", [writes, 0, 0]), ("16", [writes] + [0] * 15)]:
            self.of_journal("as many counts as servers are said", folder, lines_of(0, counts, rows), "--servers", count)
        third = self.folder()
        self.put(os.path.join(third, "server-0.journal"), frames.journal_of(0, written([[("a", 1)]], origin=2)))
        self.of_journal("as many counts as are needed", third, lines_of(0, [0, 0, 1], [("a", 1)]))
        self.of_journal("a journal of no Write", self.made([]), lines_of(0, [0], []))
        self.again(rows, printed)

    def again(self, rows, printed):
        """The lines are ops: they make the same rows in another store."""
        server = self.served(self.folder(), servers=1, new=True)
        puts = printed.splitlines()[1:]
        asked = "".join('["write",0,0,{"update":[%s]}]\n' % ",".join(puts[at:at + MOST_OPS]) for at in range(0, len(puts), MOST_OPS))
        call = [self.program, "connect", "--server", "0=" + server.address()]
        done = subprocess.run(call, input=asked.encode(), capture_output=True, timeout=CALL_SECONDS)
        self.that("the lines are put into another store", done.returncode, 0)
        self.that("which has the same then", self.export("--server", "0=" + server.address())[1], lines_of(0, [len(grouped(rows))], rows))
        self.that("it ends well", server.end()[0], 0)

    def prefixes(self):
        rows = [("a/%02d" % number, number) for number in range(20)] + [("b/%02d" % number, number) for number in range(20)] + [("ab", 1), ("b", 2)]
        folder = self.made(grouped(rows))
        writes = len(grouped(rows))
        server = self.served(folder, index=1)
        for prefix in ("", "a", "a/", "a/1", "ab", "b", "c", "a/00", "a/000"):
            expected = [(key, value) for key, value in rows if key.startswith(prefix)]
            self.of_journal("the prefix %r" % prefix, folder, lines_of(0, [writes], expected), prefix)
            told = self.export(*self.at([(1, server)]), "--servers", "2", prefix)
            self.that("the prefix %r at a server" % prefix, told, (0, lines_of(1, [writes, 0], expected), ""))
        self.that("it ends well", server.end()[0], 0)

    def refused(self):
        folder, empty = self.made([[("a", 1)]]), self.folder()
        path = os.path.join(folder, "server-0.journal")
        missing = "bayou: %s/server-0.journal: there is no journal\n"
        self.refuses("no journal there", empty, missing % empty)
        nowhere = os.path.join(empty, "nowhere")
        self.that("no folder there", self.export("--dir", nowhere, "--id", "0"), (3, "", missing % nowhere))
        open(os.path.join(empty, "server-0.journal"), "wb").close()
        self.refuses("an empty file", empty, missing % empty)
        in_use = "bayou: %s: it can't be opened, or another process has it\n" % path
        with open(path, "rb") as held:
            fcntl.flock(held, fcntl.LOCK_EX)
            self.refuses("a journal in use", folder, in_use)
        server = self.served(folder)
        self.that("a server that lives has it", self.export("--dir", folder, "--id", "0"), (3, "", in_use))
        self.that("it ends well", server.end()[0], 0)
        self.of_journal("it is read after all that", folder, lines_of(0, [1], [("a", 1)]))
        with open("/dev/full", "wb") as full:
            call = [self.program, "export", "--dir", folder, "--id", "0"]
            done = subprocess.run(call, stdin=subprocess.DEVNULL, stdout=full, stderr=subprocess.PIPE, timeout=SECONDS)
        self.that("the lines can't be printed", (done.returncode, done.stderr), (3, b"bayou: output\n"))

    def damaged(self):
        rows = [("k/%02d" % number, number) for number in range(40)]
        folder = self.made(grouped(rows))
        path = os.path.join(folder, "server-0.journal")
        with open(path, "rb") as file:
            whole = file.read()
        entry = (len(whole) - frames.HEADER) // 5
        for name, at in [("in the first entry", 20), ("in the last but one", len(whole) - entry - 5)]:
            broken = bytearray(whole)
            broken[at] ^= 1
            self.put(path, broken)
            before = frames.HEADER + (at - frames.HEADER) // entry * entry
            told = "bayou: %s: it is whole up to byte %d, and the %d bytes behind that are damaged; nothing was changed\n" % (path, before, len(whole) - before)
            self.refuses("a byte changed %s" % name, folder, told)
        for name, content, told in [
            ("no journal at all", b"something else", "it is no journal"),
            ("another server's", frames.journal(1, []), "it is another server's journal"),
            ("an entry that is no Write", frames.journal(0, [b"nothing"]), "its entry 0 is no Write that may stand there"),
        ]:
            self.put(path, content)
            self.refuses(name, folder, "bayou: %s: %s\n" % (path, told))
        self.put(path, whole[:-3])
        self.of_journal("a torn entry isn't of what is held", folder, lines_of(0, [4], rows[:32]))

    def live(self):
        """Servers that live and meet: each is asked, and its journal tells the same once it is stopped."""
        folder, ports = self.folder(), [free_port(), free_port()]
        servers = [self.served(folder, index=index, port=ports[index], peers=[(1 - index, ports[1 - index])], new=True) for index in range(2)]
        with bayou.Session([server.address() for server in servers]) as session:
            for number in range(30):
                session.write({"update": [["put", "s/%03d" % number, number], ["put", "all", number]]}, number % 2)
            session.write({"update": [["del", "s/007"], ["put", "s/008", "eight"]]}, 0)
        expected = {"s/%03d" % number: number for number in range(30)}
        expected.pop("s/007")
        expected.update({"s/008": "eight", "all": 29})
        rows = list(expected.items())
        told = lines_of(0, [16, 15], rows)
        self.that("a server tells all", soon(lambda: self.export(*self.at([(0, servers[0])])) == (0, told, "")))
        self.that("so does the other", soon(lambda: self.export(*self.at([(1, servers[1])])) == (0, lines_of(1, [16, 15], rows), "")))
        self.that("the first that is named tells", self.export(*self.at([(1, servers[1]), (0, servers[0])]))[1], lines_of(1, [16, 15], rows))
        swapped = ["--server", "0=" + servers[1].address()]
        status, printed, errors = self.export(*swapped)
        self.that("another server answers there", (status, printed, errors),
                  (1, "", "bayou: server 0 at %s is server 1\nbayou: no server was reached\n" % servers[1].address()))
        self.that("a server ends well", servers[0].end()[0], 0)
        away = ["--server", "0=" + servers[0].address()]
        self.that("one that is away", self.export(*away), (1, "", "bayou: no server was reached\n"))
        self.that("the next one is asked", self.export(*away, *self.at([(1, servers[1])])), (0, lines_of(1, [16, 15], rows), ""))
        self.that("a server ends well", servers[1].end()[0], 0)
        for index in range(2):
            self.of_journal("its journal tells the same", folder, lines_of(index, [16, 15], rows), "--servers", "2", index=index)

    def keyed(self):
        folder, key, other = self.folder(), self.key("room"), self.key("other")
        server = self.served(folder, servers=1, new=True, words=["--key", key])
        with bayou.Session([server.address()], key=key) as session:
            session.write({"update": [["put", "a", 1]]})
        words = self.at([(0, server)])
        self.that("with the key", self.export(*words, "--key", key), (0, lines_of(0, [1], [("a", 1)]), ""))
        status, printed, told = self.export(*words)
        self.that("without it", (status, printed, "wants a key" in told and told.endswith("bayou: no server was reached\n")), (1, "", True))
        status, printed, told = self.export(*words, "--key", other)
        self.that("with another", (status, printed, "another store" in told and told.endswith("bayou: no server was reached\n")), (1, "", True))
        nowhere = os.path.join(folder, "nowhere")
        self.that("a key that isn't there", self.export(*words, "--key", nowhere), (3, "", "bayou: %s: it can't be opened and read\n" % nowhere))
        self.that("it ends well", server.end()[0], 0)
        self.of_journal("its journal is read without", folder, lines_of(0, [1], [("a", 1)]))

    def write_on(self, address, stop, every):
        """Writes on and on: each Write changes one key of each page to the same number."""
        keys = ["k%04d" % (number * ROWS_AT_ONCE) for number in range(5)]
        number = 0
        with bayou.Session([address]) as session:
            while not stop.is_set():
                number += 1
                session.write({"update": [["put", key, number] for key in keys]})
                time.sleep(every)

    def changing(self):
        """A server that is written to meanwhile: all rows are of one time, or none are printed."""
        rows = [("k%04d" % number, 0) for number in range(5 * ROWS_AT_ONCE)]
        folder = self.made(grouped(rows), servers=1)
        server = self.served(folder, servers=1)
        whole = changed = 0
        for every in (0.0, 0.001, 0.01, 0.1):
            stop = threading.Event()
            writer = threading.Thread(target=self.write_on, args=(server.address(), stop, every))
            writer.start()
            for _ in range(25):
                status, printed, told = self.export(*self.at([(0, server)]))
                if status == 0:
                    whole += 1
                    lines = [json.loads(one) for one in printed.splitlines()]
                    self.that("all keys are told", (lines[0][3], len(lines)), (len(rows), len(rows) + 1))
                    self.that("all are of one time", len({value for _, key, value in lines[1:] if int(key[1:]) % ROWS_AT_ONCE == 0}), 1)
                else:
                    changed += 1
                    self.that("else none is printed", (status, printed, told), (1, "", CHANGED))
            stop.set()
            writer.join()
        self.that("it ends well", server.end()[0], 0)
        self.that("some exports came, and some didn't", (whole > 0, changed > 0), (True, True))
        print("export: %d whole, %d changed meanwhile" % (whole, changed))

    def long(self):
        """As many keys as half of a store has room for."""
        rows = [("k%06d" % number, number) for number in range(MOST_WRITES // 2 * MOST_OPS)]
        folder = self.made(grouped(rows), servers=1)
        expected = lines_of(0, [MOST_WRITES // 2], rows)
        begun = time.monotonic()
        self.that("many keys of a journal", self.export("--dir", folder, "--id", "0") == (0, expected, ""))
        print("export: %d keys of a journal in %.1f seconds" % (len(rows), time.monotonic() - begun))
        server = self.served(folder, servers=1)
        begun = time.monotonic()
        self.that("many keys of a server", self.export(*self.at([(0, server)])) == (0, expected, ""))
        print("export: %d keys of a server in %.1f seconds" % (len(rows), time.monotonic() - begun))
        self.that("it ends well", server.end()[0], 0)

    # Imports.

    def importing(self, *words):
        """What a call of an import answers: its status, and what it printed and told."""
        done = subprocess.run([self.program, "import"] + list(words), stdin=subprocess.DEVNULL, capture_output=True, timeout=CALL_SECONDS)
        return done.returncode, done.stdout.decode(), done.stderr.decode()

    def file(self, text, name="day.jsonl"):
        """A file of its own folder that has this text."""
        path = os.path.join(self.folder(), name)
        self.put(path, text.encode() if isinstance(text, str) else text)
        return path

    def fresh(self, **more):
        """A server that holds nothing, and the words that name it."""
        folder = self.folder()
        server = self.served(folder, servers=1, new=True, **more)
        return folder, server, ["--server", "0=" + server.address()]

    def told_by(self, server, key=None):
        """The rows that a server tells, and how many Writes it holds."""
        lines = self.export("--server", "0=" + server.address(), *(["--key", key] if key else []))[1].splitlines()
        return [json.loads(one)[1:] for one in lines[1:]], sum(json.loads(lines[0])[2]) if lines else None

    def trips(self):
        rows = [("v/%02d" % number, value) for number, value in enumerate(VALUES)] + [("k%03d" % number, number) for number in range(300)]
        writes = len(grouped(rows))
        exported = self.export("--dir", self.made(grouped(rows)), "--id", "0")[1]
        path, key = self.file(exported), self.key("room")
        _, server, words = self.fresh(words=["--key", key])
        words += ["--key", key]
        line = "imported %d keys in %d writes\n" % (len(rows), writes)
        self.that("an export is put into another store", self.importing(path, *words), (0, line, ""))
        again = self.export(*words)[1]
        self.that("which has the same then", again.split("\n", 1)[1], exported.split("\n", 1)[1])
        self.that("as few Writes as can put them", json.loads(again.split("\n", 1)[0]), ["exported", "server-0", [writes], len(rows)])
        mode = os.stat(path + ".state").st_mode & 0o777
        self.that("its state is its owner's alone", mode, 0o600)
        before = tree(os.path.dirname(path))
        self.that("the same call again says the same", self.importing(path, *words), (0, line, ""))
        self.that("and changes nothing", (self.export(*words)[1], tree(os.path.dirname(path))), (again, before))
        other = self.file("".join(json.dumps(json.loads(one), ensure_ascii=True, indent=None) + " \r\n" for one in exported.splitlines())[:-2])
        _, fresh, free = self.fresh()
        self.that("another spelling of the same", self.importing(other, *free, "--state", other + ".kept"), (0, line, ""))
        self.that("is put alike", self.export(*free)[1], again)
        self.that("the state has the name that is said", sorted(os.listdir(os.path.dirname(other))), ["day.jsonl", "day.jsonl.kept"])
        with bayou.Session([fresh.address()]) as session:
            session.write({"update": [["put", "k000", "changed"], ["put", "more", 1]]})
        self.that("a finished import that is called again", self.importing(other, *free, "--state", other + ".kept"), (0, line, ""))
        found = dict(self.told_by(fresh)[0])
        self.that("changes nothing of what was written since", (found["k000"], found["more"]), ("changed", 1))
        os.remove(other + ".kept")
        self.that("one that is begun anew", self.importing(other, *free, "--state", other + ".kept"), (0, line, ""))
        found = dict(self.told_by(fresh)[0])
        self.that("puts all once more, and leaves other keys", (found["k000"], found["more"]), (0, 1))
        empty = self.file(line_of_none())
        self.that("an export of no key", self.importing(empty, *free), (0, "imported 0 keys in 0 writes\n", ""))
        for one in (server, fresh):
            self.that("it ends well", one.end()[0], 0)

    def files(self):
        _, server, words = self.fresh()
        head, rows = line(["exported", "x", [], 2]), line(["put", "a", 1]) + line(["put", "b", 2])
        number = "line 1: it doesn't say how many keys follow, as [\"exported\",NAME,[V0,V1,..],KEYS]"
        row = "line %d: it is no [\"put\",KEY,VALUE]"
        for name, text, told in [
            ("nothing", "", number), ("no first line", rows, number), ("another word", line(["put", "x", [], 2]) + rows, number),
            ("no number", line(["exported", "x", [], "2"]) + rows, number), ("below 0", line(["exported", "x", [], -2]) + rows, number),
            ("a member more", line(["exported", "x", [], 2, 3]) + rows, number), ("a key fewer", head + line(["put", "a", 1]), "line 1 says 2 keys, and 1 follow"),
            ("a key more", head + rows + line(["put", "c", 3]), "line 1 says 2 keys, and 3 follow"), ("an empty line", head + "\n" + rows, row % 2),
            ("an empty line at the end", head + rows + "\n", row % 4), ("another op", head + line(["del", "a"]) + rows, row % 2),
            ("no value", head + line(["put", "a"]), row % 2), ("a member more of a row", head + line(["put", "a", 1, 2]), row % 2),
            ("a term", head + line(["put", "a", 1]) + line(["put", "b", ["copy", "a"]]), row % 3),
            ("a fraction", head + '["put","a",1.5]\n', row % 2), ("a number too great", head + '["put","a",9223372036854775808]\n', row % 2),
            ("a text too long", head + line(["put", "a", "x" * 33]), row % 2), ("a key too long", head + line(["put", "a" * 33, 1]), row % 2),
            ("no key", head + line(["put", "", 1]), row % 2), ("capitals", head + line(["put", "A", 1]), row % 2), ("no JSON", head + '["put","a",1\n', row % 2),
            ("cut off", (head + rows)[:-4], row % 3), ("an object", head + "{}\n", row % 2), ("null", head + "null\n", row % 2),
        ]:
            path = self.file(text)
            self.that(name, self.importing(path, *words), (2, "", "bayou: %s: %s; nothing was sent\n" % (path, told)))
            self.that("%s: no state is made" % name, os.listdir(os.path.dirname(path)), ["day.jsonl"])
        path = self.file(head.encode() + b'["put","a","\xff"]\n')
        self.that("no UTF-8", self.importing(path, *words), (2, "", "bayou: %s: it is no text\n" % path))
        for name in (os.path.join(self.folder(), "nowhere"), self.folder()):
            self.that("no file", self.importing(name, *words), (3, "", "bayou: %s: it can't be opened and read\n" % name))
        path = self.file(head + rows[:-1])
        self.that("the last line feed may be missing", self.importing(path, *words), (0, "imported 2 keys in 1 writes\n", ""))
        self.that("nothing else was put", self.told_by(server), ([["a", 1], ["b", 2]], 1))
        self.that("it ends well", server.end()[0], 0)

    def states(self):
        _, server, words = self.fresh()
        _, second, others = self.fresh()
        text = line(["exported", "x", [], 1]) + line(["put", "a", 1])
        path = self.file(text)
        state = path + ".state"
        done = (0, "imported 1 keys in 1 writes\n", "")
        self.that("an import", self.importing(path, *words), done)
        with open(state, "rb") as file:
            mark = file.read()
        digest = hashlib.sha256(text.encode()).hexdigest().encode()
        self.that("what its state has", mark.rsplit(b" ", 1)[0], b"bayou-import-1 " + digest + b" server 0 run")
        other = "bayou: %s: it is of another file, of one that was changed, or at another server; nothing was sent\n"
        self.put(path, text.replace('"a",1', '"a",2').encode())
        self.that("a file that was changed", self.importing(path, *words), (3, "", other % state))
        self.put(path, text.encode())
        elsewhere = ["--server", "1=" + server.address()]
        self.that("another server", self.importing(path, *elsewhere), (3, "", other % state))
        self.that("another file", self.importing(self.file(text + " "), *words, "--state", state)[0], 2)
        self.that("another file that is read", self.importing(self.file(text.replace('"x"', '"y"')), *words, "--state", state), (3, "", other % state))
        for content in (b"kept by somebody else", b"\n", mark[:-1] + b"x\n", mark + b"more", mark + mark, mark.replace(b"run ", b"run 0"), b"x" + mark):
            self.put(state, content)
            self.that("something else in its place", self.importing(path, *words), (3, "", other % state))
            with open(state, "rb") as file:
                self.that("stays as it is", file.read(), content)
        self.put(state, mark)
        with open(state, "rb") as held:
            fcntl.flock(held, fcntl.LOCK_EX)
            self.that("one in use", self.importing(path, *words), (3, "", "bayou: %s: it can't be opened, or another process has it\n" % state))
        nowhere = os.path.join(os.path.dirname(path), "nowhere", "state")
        self.that("none that can be made", self.importing(path, *words, "--state", nowhere)[0], 3)
        self.that("all that put nothing more", self.told_by(server), ([["a", 1]], 1))
        for length in (0, 5, 14, 15, 40, len(mark) - 3, len(mark) - 1):
            self.put(state, mark[:length])
            self.that("a mark of which %d bytes were kept" % length, self.importing(path, *others), done)
            with open(state, "rb") as file:
                self.that("is made anew", (file.read() != mark, os.path.getsize(state) > len(mark) - 10), (True, True))
        self.that("each of them was an import of its own", self.told_by(second), ([["a", 1]], 7))
        for one in (server, second):
            self.that("it ends well", one.end()[0], 0)

    def many(self, number):
        rows = [("k%06d" % at, at) for at in range(number * MOST_OPS)]
        return rows, self.file(lines_of(0, [number], rows))

    def kill(self):
        """Calls that are killed at any moment: the next goes on, and each Write is done once."""
        rows, path = self.many(800)
        _, server, words = self.fresh()
        line, killed, span = "imported %d keys in 800 writes\n" % len(rows), 0, 2.0
        while killed < self.kills:
            process = subprocess.Popen([self.program, "import", path] + words, stdin=subprocess.DEVNULL, stdout=subprocess.DEVNULL, stderr=subprocess.DEVNULL)
            begun = time.monotonic()
            with contextlib.suppress(subprocess.TimeoutExpired):
                process.wait(random.uniform(0, span))
            process.send_signal(signal.SIGKILL)
            if process.wait(SECONDS) != -signal.SIGKILL:
                # (it was faster, and isn't counted: there is nothing left to do)
                span = min(span, time.monotonic() - begun) / 2
            killed += 1
        self.that("the call after all that", self.importing(path, *words), (0, line, ""))
        self.that("each Write is done once", self.told_by(server), ([[key, value] for key, value in rows], 800))
        self.that("it ends well", server.end()[0], 0)

    def shown(self):
        """At a terminal an import says how far it is, and its line is gone at the end; elsewhere it says nothing."""
        _, path = self.many(800)
        _, server, words = self.fresh()
        near, far = pty.openpty()
        process = subprocess.Popen([self.program, "import", path] + words, stdin=subprocess.DEVNULL, stdout=subprocess.PIPE, stderr=far)
        os.close(far)
        told, way = b"", server.process
        with contextlib.suppress(OSError):
            for stopped in (signal.SIGSTOP, signal.SIGCONT):
                way.send_signal(stopped)
                time.sleep(1.2)
            while True:
                piece = os.read(near, 4096)
                if not piece:
                    break
                told += piece
        printed = process.communicate(timeout=CALL_SECONDS)[0]
        self.that("it ends well", (process.returncode, printed), (0, b"imported 6400 keys in 800 writes\n"))
        self.that("it says how far it is", re.fullmatch(rb"(\rbayou: [0-9]+ of 6400 keys)+\r\x1b\[K", told) is not None)
        self.that("the server ends well", server.end()[0], 0)

    def lost(self):
        """Replies that are lost, and a server that is killed and starts again: with --wait the call goes on, and each Write is done once."""
        rows, path = self.many(600)
        folder, server, _ = self.fresh()
        way = Cutting(server.port)
        words = ["--server", "0=127.0.0.1:%d" % way.port, "--wait", "60"]
        self.that("through a way that is cut", self.importing(path, *words), (0, "imported %d keys in 600 writes\n" % len(rows), ""))
        self.that("it was cut", way.cuts > 0)
        self.that("each Write is done once", self.told_by(server), ([[key, value] for key, value in rows], 600))
        way.end()
        _, other = self.many(1000)
        call = [self.program, "import", other, "--server", "0=" + server.address(), "--wait", "60"]
        process = subprocess.Popen(call, stdin=subprocess.DEVNULL, stdout=subprocess.PIPE, stderr=subprocess.PIPE)
        time.sleep(0.3)
        server.process.kill()
        server.process.wait(SECONDS)
        port = server.port
        server = self.served(folder, servers=1, port=port)
        printed, told = process.communicate(timeout=CALL_SECONDS)
        self.that("a server that was killed meanwhile", (process.returncode, printed, told), (0, b"imported 8000 keys in 1000 writes\n", b""))
        self.that("each Write is done once, too", self.told_by(server)[1], 1600)
        self.that("it ends well", server.end()[0], 0)
        away = ["--server", "0=127.0.0.1:%d" % port]
        self.that("a server that is away", self.importing(other, *away), (1, "", "bayou: the server wasn't reached; call it again\n"))
        self.full()

    def full(self):
        """A server that has no more room: with more of it the next call goes on."""
        rows, path = self.many(10)
        folder, server, words = self.fresh(words=["--limit", "4"])
        self.that("a server that is full", self.importing(path, *words), (1, "", "bayou: the server refused: full; call it again\n"))
        self.that("it has what there was room for", self.told_by(server)[1], 4)
        self.that("it ends well", server.end()[0], 0)
        server = self.served(folder, servers=1)
        words = ["--server", "0=" + server.address()]
        self.that("with more room it goes on", self.importing(path, *words), (0, "imported 80 keys in 10 writes\n", ""))
        self.that("each Write is done once", self.told_by(server), ([[key, value] for key, value in rows], 10))
        self.that("it ends well", server.end()[0], 0)

    def run(self, groups):
        every = {"words": self.words, "spelled": self.spelled, "prefixes": self.prefixes, "refused": self.refused, "damaged": self.damaged, "live": self.live,
                 "keyed": self.keyed, "changing": self.changing, "long": self.long, "trips": self.trips, "files": self.files, "states": self.states,
                 "kills": self.kill, "lost": self.lost, "shown": self.shown}
        for name in groups or every:
            begun = time.monotonic()
            every[name]()
            print("export: %s took %.1f seconds" % (name, time.monotonic() - begun))


def main():
    program, kills, groups = sys.argv[1], int((sys.argv[2:] or ["12"])[0]), sys.argv[3:]
    with tempfile.TemporaryDirectory() as room:
        tries = Tries(program, kills, room)
        tries.run(groups)
    print("%d passed, %d failed" % (tries.checks.passed, tries.checks.failed))
    return 1 if tries.checks.failed else 0


if __name__ == "__main__":
    sys.exit(main())
