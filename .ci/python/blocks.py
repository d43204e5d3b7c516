"""Runs the commands that stand in blocks of README.md and docs/, and compares what they print with what stands there. A block that no check here takes has
failed, unless it is named in FORMS. Call: python3 blocks.py PROGRAM. Its last line is 'N passed, M failed'."""
import glob
import hashlib
import json
import os
import re
import shutil
import subprocess
import sys
import tempfile

import frames
from checks import Checks
from living import SECONDS, Lines, Server
from meeting import free_port, soon
from web_store import Store, Web

TOP = os.path.abspath("..")
sys.path.insert(0, os.path.join(TOP, "clients", "python"))
import bayou  # noqa: E402

# Blocks that aren't run, by their pages and the beginnings of their first lines: forms of lines, trees, and what wants another machine.
FORMS = {
    "docs/ARCHITECTURE.md": ["bayou  "],
    "docs/AUDIT.md": ["survey I ryw X"],
    "docs/CONNECT.md": ["room/blue/2026-12-07/09", "rlwrap bayou connect"],
    "docs/FORMATS.md": ["bayou-store-1 room"],
    "docs/LANGUAGE.md": ['{"check": [condition, ..]'],
    "docs/SERVE.md": ["ssh -N", "mkdir new", 'WORDS="', "apt install"],
}


class Page:
    """A page, and its blocks in their order: lines that are fenced, or that stand four blanks or more to the right between empty lines."""

    def __init__(self, name):
        self.name, self.blocks = name, []
        with open(os.path.join(TOP, name), encoding="utf-8") as file:
            text = file.read()
        for fenced in re.findall(r"^```\w*\n(.*?)^```", text, re.M | re.S):
            self.blocks.append(fenced)
        text = re.sub(r"^```\w*\n.*?^```", "", text, flags=re.M | re.S)
        for block in re.findall(r"(?<=\n\n)((?: {4,}\S.*\n)+)(?=\n|$)", text):
            self.blocks.append("".join(re.sub("^ {4}", "", line) + "\n" for line in block.splitlines()))

    def take(self, beginning):
        """The first block that is left and begins so."""
        for block in self.blocks:
            if block.lstrip().startswith(beginning):
                self.blocks.remove(block)
                return block
        raise KeyError("%s: there is no block %r" % (self.name, beginning))


class Person:
    """A call of `bayou connect` that goes on: what is typed, and what is printed since."""

    def __init__(self, program, words, room):
        self.process = subprocess.Popen([program, "connect", *words], stdin=subprocess.PIPE, stdout=subprocess.PIPE, stderr=subprocess.PIPE, cwd=room)
        self.printed, self.told, self.seen = Lines(self.process.stdout), Lines(self.process.stderr), 0

    def types(self, line, count):
        """What is printed after the line, as many lines as this."""
        self.process.stdin.write(line.encode() + b"\n")
        self.process.stdin.flush()
        soon(lambda: len(self.printed.all()) >= self.seen + count or None)
        lines = self.printed.all()[self.seen:self.seen + count]
        self.seen += count
        return lines

    def end(self):
        """What is printed at last, beyond what was seen, and the status."""
        self.process.stdin.close()
        status = self.process.wait(SECONDS)
        self.printed.thread.join(SECONDS)
        return self.printed.all()[self.seen:], status


class Tries:
    def __init__(self, program, room):
        self.program, self.room, self.checks = program, room, Checks()
        self.pages = {name: Page(name) for name in ["README.md"] + sorted(os.path.relpath(path, TOP) for path in glob.glob(os.path.join(TOP, "docs", "*.md")))}
        self.ports = {port: free_port() for port in (7000, 7001, 7002, 7010)}
        for name in ("bayou", "examples", "clients"):
            os.symlink(program if name == "bayou" else os.path.join(TOP, name), os.path.join(room, name))

    def that(self, name, told, expected=True):
        self.checks.that(name, told, expected)

    def placed(self, text):
        """The text with ports that are free here."""
        return re.sub(r"127\.0\.0\.1:(70\d\d)", lambda found: "127.0.0.1:%d" % self.ports[int(found[1])], text)

    def shell(self, text, folder=None):
        """What lines print that are pasted so."""
        ways = {**os.environ, "PATH": self.room + ":" + os.environ["PATH"]}
        ran = subprocess.run(["bash"], input=self.placed(text), capture_output=True, text=True, cwd=folder or self.room, env=ways, timeout=120)
        return ran.stdout.splitlines()

    def folder(self):
        return tempfile.mkdtemp(dir=self.room)

    def words(self, command):
        """The words of a `bayou connect` that stands in a block."""
        return self.placed(command).split()[2:]

    def readme(self):
        page = self.pages["README.md"]
        printed = self.shell(page.take("./bayou run examples/first.jsonl") + "kill %1 %2\nwait\n")
        self.that("README: the first script", printed[:2], ["0 wrote 0:1 clock 1 deps 0", "0 read room num 1 at 1"])
        self.that("README: both servers serve", len([line for line in printed if line.startswith("serving ")]), 2)
        self.that("README: Kim was told a room", "0 became 0:1 update" in printed)
        self.that("README: Lee has the other one, for good", printed[-1:], ["0 final 1:1 merge 1"])

    def audits(self):
        page = self.pages["docs/AUDIT.md"]
        for name in ("ryw", "mr", "wfr", "mw"):
            file, expected = page.take('["servers",2]'), page.take("broken " + name)
            ran = subprocess.run([self.program, "audit", "-"], input=file, capture_output=True, text=True, timeout=SECONDS)
            self.that("AUDIT: %s is broken" % name, (ran.stdout, ran.returncode), (expected, 1))
        ran = subprocess.run([self.program, "audit", "-"], input=self.pages["docs/FORMATS.md"].take('["servers",2]'), capture_output=True, text=True, timeout=SECONDS)
        self.that("FORMATS: an audit file", (ran.stdout.splitlines()[:1], ran.returncode), (["clean"], 0))

    def language(self):
        page = self.pages["docs/LANGUAGE.md"]
        for program in [block for block in page.blocks if block.startswith('{"check":[')]:
            lines = ['["servers",1]', '["session",0,[]]', '["write",0,0,%s]' % json.dumps(json.loads(page.take(program)))]
            ran = subprocess.run([self.program, "run", "-"], input="\n".join(lines) + "\n", capture_output=True, text=True, timeout=SECONDS)
            self.that("LANGUAGE: %.60s" % program, (ran.stdout, ran.returncode), ("0 wrote 0:1 clock 1 deps 0\n", 0))

    def formats(self):
        page = self.pages["docs/FORMATS.md"]
        write = "".join(re.findall(r"^((?:[0-9a-f]+ ? ?)+?)(?: {3,}.*)?$", page.take("00 00000001 "), re.M)).replace(" ", "")
        self.that("FORMATS: a Write", write, frames.write_bytes((0, 1, 1, frames.ZERO, ([], [("put", "room", ("lit", 1))], []))).hex())
        header, *entries = page.take("4241594f554a4e4c 03 02").split("\n")[:3]
        last = hashlib.sha256(bytes.fromhex(header)).digest()
        for entry in entries:
            length, body, digest = entry.split()
            last = hashlib.sha256(last + bytes.fromhex(length + body)).digest()
            self.that("FORMATS: the digest of an entry", last.hex(), digest)
        lines = page.take("bayou-views-1 3").splitlines(keepends=True)
        self.that("FORMATS: the sum of views", "sum " + hashlib.sha256("".join(lines[:-1]).encode()).hexdigest() + "\n", lines[-1])

    def net(self):
        page, folder = self.pages["docs/NET.md"], self.folder()
        for name in ("bayou", "examples"):
            os.symlink(os.path.join(self.room, name), os.path.join(folder, name))
        first = self.shell(page.take("mkdir journals"), folder)
        self.that("NET: the first run ends well", first[-1:], ["clean"])
        left = page.take("$ ls -l journals").splitlines()
        for size, name in (line.split() for line in left[1:3]):
            self.that("NET: the bytes of " + name, os.path.getsize(os.path.join(folder, "journals", name)), int(size))
        self.that("NET: the first bytes", self.shell(left[3][2:] + "\n", folder), left[4:])
        second = self.shell(page.take("./bayou net --dir journals examples/net/second_run.jsonl"), folder)
        self.that("NET: the second run", second, page.take("0 read b num 2").splitlines())

    def started(self, commands, folder):
        """The servers of these lines, started in the folder one by one."""
        servers = []
        for command in self.placed(commands).splitlines():
            if command.startswith("mkdir "):
                os.mkdir(os.path.join(folder, command.split()[1]))
                continue
            server = Server.__new__(Server)
            server.process = subprocess.Popen([self.program, *command.rstrip(" &").split()[1:], "--until-input-ends", "--every", "1"], stdin=subprocess.PIPE,
                                              stdout=subprocess.PIPE, stderr=subprocess.PIPE, cwd=folder)
            server.printed, server.told, server.port = Lines(server.process.stdout), Lines(server.process.stderr), None
            servers.append(server)
        return servers

    def serve(self):
        page, trouble, folder = self.pages["docs/SERVE.md"], self.pages["docs/TROUBLE.md"], self.folder()
        servers = self.started(page.take("mkdir store"), folder)
        expected = self.placed(page.take("serving 0 at")).strip()
        self.that("SERVE: what a server prints", servers[0].serving(), expected)
        self.that("SERVE: all three serve", [server.serving() is not None for server in servers], [True] * 3)
        client = subprocess.run([sys.executable, "-"], input=self.placed(page.take("import bayou")), capture_output=True, text=True, timeout=SECONDS,
                                env={**os.environ, "PYTHONPATH": os.path.join(TOP, "clients", "python")})
        self.that("SERVE: the client", (client.stdout, client.returncode), ("kim\n", 0))
        with bayou.Session([server.address() for server in servers]) as session:
            self.that("SERVE: each has the Write", [soon(lambda: session.read("room/9", at)) for at in range(3)], ["kim"] * 3)
        self.that("SERVE: a key, and a server with it", self.key(page.take("bayou key room.key"), folder))
        self.that("TROUBLE: a list and a dump", self.shell(trouble.take("echo list"), folder), ["dump %d writes 1" % at for at in range(3)])
        with open(os.path.join(folder, "day.list")) as told, open(os.path.join(folder, "day.book")) as book:
            self.that("TROUBLE: what they say", (told.readline(), len(book.readlines())), ('room/9 text "kim"\n', 4))
        servers[0].end()
        os.rename(os.path.join(folder, "store", "server-0.journal"), os.path.join(folder, "lost"))
        servers[0] = self.started(trouble.take("bayou serve --id 0"), folder)[0]
        self.that("TROUBLE: the lost server is back", servers[0].serving(), self.placed("serving 0 at 127.0.0.1:7000 holds 1,0,0"))
        self.that("SERVE: told ends", [server.end()[0] for server in servers], [0] * 3)

    def key(self, commands, folder):
        """Whether the first line makes a key that a server takes."""
        self.shell(commands.splitlines()[0] + "\n", folder)
        with open(os.path.join(folder, "room.key")) as file:
            made = file.read()
        server = Server(self.program, self.folder(), 0, 1, new=True, words=["--key", os.path.join(folder, "room.key")])
        is_serving = server.serving() is not None
        return re.fullmatch(r"bayou-key-1 room [0-9a-f]{64}\n", made) is not None and is_serving and server.end()[0] == 0

    def typed(self, person, block, name):
        """Types what stands after each '>', and compares what stands below it."""
        for typed in re.findall(r"^> (.*\n(?:[^>].*\n)*)", block, re.M):
            line, *expected = typed.splitlines()
            self.that("CONNECT: " + name + ": " + line, person.types(line, len(expected)), expected)

    def connect(self):
        """Kim's day: the two servers are apart until Lee has claimed the same room, at the other one."""
        page, folder = self.pages["docs/CONNECT.md"], self.folder()
        apart = [Server(self.program, folder, index, 2, self.ports[7000 + index], new=True) for index in (0, 1)]
        self.that("CONNECT: both serve", [server.serving() is not None for server in apart], [True] * 2)
        kim = Person(self.program, self.words(page.take("bayou connect")), folder)
        self.typed(kim, page.take("> claim"), "Kim")
        lee = Person(self.program, ["--server", "0=127.0.0.1:%d" % self.ports[7000]], folder)
        lee.types("claim mon/9/blue mon/9/red lee", 3)
        lee.end()
        self.that("CONNECT: told ends", [server.end()[0] for server in apart], [0] * 2)
        peers = lambda index: [(1 - index, self.ports[7001 - index])]  # noqa: E731
        servers = [Server(self.program, folder, index, 2, self.ports[7000 + index], peers(index), words=["--every", "1"]) for index in (0, 1)]
        self.that("CONNECT: both serve again", [server.serving() is not None for server in servers], [True] * 2)
        with bayou.Session([server.address() for server in servers]) as session:
            self.that("CONNECT: they meet", [soon(lambda: session.read("mon/9/red", at)) for at in (0, 1)], ["kim"] * 2)
        self.typed(kim, page.take("> became"), "once they met")
        self.typed(kim, page.take("> wait"), "at last")
        self.that("CONNECT: Kim ends", kim.end(), ([], 0))
        tomorrow = page.take("bayou connect").splitlines()
        kim = Person(self.program, self.words(tomorrow[0]), folder)
        self.that("CONNECT: tomorrow", kim.types(tomorrow[1][2:], 2), ['0 read mon/9/blue text "lee" at 1,1', '0 final mon/9/blue'])
        texts = page.take("> put mon/9/blue").splitlines()
        self.that("CONNECT: texts in quotes", [kim.types(line[2:], 2)[0].split()[1] for line in texts], ["wrote"] * 2)
        kim.end()
        self.lines_of(page, folder, servers)
        book = page.take("bayou connect").splitlines()
        kim = Person(self.program, self.words(book[0]), folder)
        self.typed(kim, "\n".join(book[1:]) + "\n", "a book and its dump")
        self.that("CONNECT: the book is whole", kim.end()[1], 0)
        self.that("CONNECT: it is audited", self.shell("bayou audit day.book\n", folder)[:1], ["clean"])
        self.that("CONNECT: told ends at last", [server.end()[0] for server in servers], [0] * 2)

    def lines_of(self, page, folder, servers):
        """An export of another day, and its import into an empty store."""
        exported, imported = page.take("$ bayou export").splitlines(), page.take("$ bayou import").splitlines()
        store = self.folder()
        made = [Server(self.program, store, index, 2, peers=[], new=True) for index in (0, 1)]
        ways = [server.serving() and server.address() for server in made]
        with bayou.Session(ways) as session:
            session.write({"update": [["put", "door", 7]]}, server=0)
            session.write({"update": [["put", "mon/09/blue", "kim"]]}, server=0)
            session.write({"update": [["put", "mon/09/red", "lee"]]}, server=1)
        self.that("CONNECT: an export prints", [json.loads(line) for line in exported[2:]][1:], [["put", "door", 7], ["put", "mon/09/blue", "kim"], ["put", "mon/09/red", "lee"]])
        for server in made:
            server.end()
        meeting = [Server(self.program, store, index, 2, made[index].port, [(1 - index, made[1 - index].port)], words=["--every", "1"]) for index in (0, 1)]
        self.that("CONNECT: the other day's servers serve", [server.serving() is not None for server in meeting], [True] * 2)
        with bayou.Session([server.address() for server in meeting]) as session:
            soon(lambda: session.read("mon/09/red", 0))
        told = self.shell(exported[0][2:].replace("127.0.0.1:7000", meeting[0].address()) + "\ncat day.jsonl\n", folder)
        self.that("CONNECT: the export", told, exported[2:])
        self.that("CONNECT: told ends of the other day", [server.end()[0] for server in meeting], [0] * 2)
        empty = Server(self.program, self.folder(), 0, 1, new=True)
        self.that("CONNECT: an empty store serves", empty.serving() is not None)
        told = self.shell(imported[0][2:].replace("127.0.0.1:7010", empty.address()) + "\n", folder)
        self.that("CONNECT: the import", told, imported[1:])
        self.that("CONNECT: a told end of the import's", empty.end()[0], 0)

    def web(self):
        page = self.pages["docs/WEB.md"]
        call, link = page.take("$ bayou web").splitlines()
        seen, done = page.take('{"name"'), page.take('{"lines"')

        def form(text):
            return re.sub("[0-9a-f]{32}", "TOKEN", re.sub(r"127\.0\.0\.1:[0-9]+", "PLACE", text))

        def names(text):
            return sorted(set(re.findall(r'"(\w+)":', text)))
        folder = self.folder()
        words = call.split()[3:]
        with Store(self.program, folder, 2) as store, Web(self.program, store, os.path.join(folder, "kim.state")) as web:
            self.that("WEB: the words", form(" ".join(words)), form(" ".join([*store.words(), "--session", "all", "--state", "kim.state", "--name", "kim"])))
            self.that("WEB: the line", form("web at " + web.link), form(link))
            self.that("WEB: what became of a line", web.do("claim mon/9/blue kim"), json.loads(done))
            self.that("WEB: what is seen", names(json.dumps(web.looks(lambda state: state["rows"] and state["own"] == [] and state["notices"])) + '"write": "told":'),
                      names(seen))

    def book(self):
        line = self.pages["docs/AUDIT.md"].take("totals reads")
        printed = [open(path).read() for path in glob.glob(os.path.join(TOP, "examples", "*.expected"))]
        self.that("AUDIT: totals as an example has them", any(line in text for text in printed))

    def rest(self):
        """Nothing is left but forms."""
        for name, page in self.pages.items():
            left = [block.lstrip().splitlines()[0] for block in page.blocks]
            forms = FORMS.get(name, [])
            self.that(name + ": each block is run, or a form", [line for line in left if not any(line.startswith(form) for form in forms)], [])
            self.that(name + ": each form is there", [form for form in forms if not any(line.startswith(form) for line in left)], [])


GROUPS = ["readme", "audits", "language", "formats", "net", "serve", "connect", "web", "book", "rest"]


def main():
    room = tempfile.mkdtemp()
    tries = Tries(os.path.abspath(sys.argv[1]), room)
    try:
        for group in GROUPS:
            try:
                getattr(tries, group)()
            except Exception as fault:  # a check that can't go on has failed
                tries.that("%s goes on" % group, repr(fault), "")
    finally:
        shutil.rmtree(room, ignore_errors=True)
    print("%d passed, %d failed" % (tries.checks.passed, tries.checks.failed))
    return 1 if tries.checks.failed else 0


if __name__ == "__main__":
    sys.exit(main())
