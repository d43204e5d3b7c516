"""Runs the tables of tests/: whole scripts and files, and rows of lines and of bytes (tests/README.md says what a case is made of).

    tables.py PROGRAM [--probe PROBE] [--accept] [FOLDER..]

Of each case that isn't as it must be the file is named, and the line. With --accept what came is written there, for a look at the difference.
"""
import concurrent.futures
import json
import os
import re
import shutil
import subprocess
import sys
import tempfile

TOP = os.path.normpath(os.path.join(os.path.dirname(os.path.abspath(__file__)), "../../tests"))
PROBE = os.path.join(TOP, "../crates/bayou_probe/out/bayou_probe")
# What the program is called with in each folder, where a case says no words of its own; {} is a copy of the case, and {dir} a new folder.
CALLS = {"run": ["run"], "audit": ["audit", "{}"], "net": ["net", "--dir", "{dir}", "{}"],
         "check": ["check", "-"]}
CASES = (".jsonl", ".pieces", ".stdin", ".txt")
# The most that one call may take, in seconds.
PATIENCE = 120


def read(path, otherwise=b""):
    if not os.path.exists(path):
        return otherwise
    with open(path, "rb") as file:
        return file.read()


def write(path, text):
    if text:
        with open(path, "wb") as file:
            file.write(text)
    elif os.path.exists(path):
        os.remove(path)


def shown(text):
    return repr(text[:200].decode(errors="replace"))


class Called:
    """What a call came to: what was printed and told, its status, and the folder that was new."""

    def __init__(self, done, folder):
        self.out, self.err, self.status, self.folder = done.stdout, done.stderr, done.returncode, folder


class Program:
    """Calls a program, each time in a folder of its own below `room`."""

    def __init__(self, path, room):
        self.path, self.room = os.path.abspath(path), room

    def call(self, words, text, stdin=b"", base=None):
        """Calls it with a copy of the text, and with the files that stand beside the case."""
        here = tempfile.mkdtemp(dir=self.room)
        name, folder = os.path.join(here, "case"), os.path.join(here, "dir")
        with open(name, "wb") as file:
            file.write(text)
        os.mkdir(folder)
        if base and os.path.isdir(base + ".before"):
            self.place(base + ".before", folder)
        if base and os.path.isdir(base + ".data"):
            shutil.copytree(base + ".data", here, dirs_exist_ok=True)
        words = [word.replace("{dir}", folder).replace("{}", name) for word in words]
        done = subprocess.run([self.path] + words, input=stdin, capture_output=True, cwd=here, timeout=PATIENCE)
        return Called(done, folder)

    def place(self, source, folder):
        """Copies the files of a folder, those that are said in hexadecimal as what they say."""
        for file in os.listdir(source):
            text = read(os.path.join(source, file))
            is_hex = file.endswith(".hex")
            write(os.path.join(folder, file[:-4] if is_hex else file), bytes.fromhex(text.decode()) if is_hex else text)

    def serving(self):
        """Starts a server, the only one of its store, that lives until its input ends."""
        folder = tempfile.mkdtemp(dir=self.room)
        words = ["serve", "--new", "--id", "0", "--servers", "1", "--dir", folder, "--listen", "127.0.0.1:0", "--until-input-ends"]
        return subprocess.Popen([self.path] + words, stdin=subprocess.PIPE, stdout=subprocess.PIPE)


class Case:
    """A script, an audit file, words or a person's lines, beside what the program prints of it."""

    def __init__(self, program, base, kind, accept):
        self.program, self.base, self.kind, self.accept = program, base, kind, accept

    def differs(self, path, found, wanted):
        """What to report where that isn't what is wanted: the file, the line, and both."""
        if found == wanted:
            return []
        if self.accept:
            write(path, found)
            return []
        lines = zip(found.split(b"\n") + [b""], wanted.split(b"\n") + [b""])
        number, (came, must) = next((at, pair) for at, pair in enumerate(lines, 1) if pair[0] != pair[1])
        return ["%s:%d: %s came, not %s" % (os.path.relpath(path, TOP), number, shown(came), shown(must))]

    def words(self):
        args = read(self.base + ".args", None)
        if args is not None:
            return args.decode().split("\n")[:-1]
        return CALLS[os.path.relpath(self.base, TOP).split(os.sep)[0]]

    def called(self):
        text = read(self.base + self.kind)
        if self.kind == ".pieces":
            text = "".join(piece * times for piece, times in json.loads(text)).encode()
        if self.kind == ".txt":
            return self.asked(text)
        words = self.words()
        return self.program.call(words, text, b"" if "{}" in words else text, self.base)

    def asked(self, text):
        """A person's lines, at a server that is new."""
        lives = self.program.serving()
        try:
            place = lives.stdout.readline().split()[3].decode()
            return self.program.call(["connect", "--server", "0=" + place, "{}"], text)
        finally:
            lives.stdin.close()
            lives.wait(timeout=PATIENCE)
            lives.stdout.close()

    def texts(self, came):
        told = []
        for kind, found in ((".out", came.out), (".err", came.err.replace(came.folder.encode(), b"{dir}"))):
            part = read(self.base + kind + ".has", None)
            if part is None:
                told += self.differs(self.base + kind, found, read(self.base + kind))
            elif part[:-1] not in found:
                told += ["%s: it isn't in %s" % (os.path.relpath(self.base + kind + ".has", TOP), shown(found))]
        status = b"%d\n" % came.status
        return told + self.differs(self.base + ".status", status if came.status or self.base + ".status" else b"", read(self.base + ".status", b"0\n"))

    def left(self, came):
        """What is wrong with the folder that is left, and with the audit of the last book that was printed."""
        told, after = [], self.base + ".after"
        for file in sorted(os.listdir(after)) if os.path.isdir(after) else []:
            found = read(os.path.join(came.folder, file[:-4])).hex().encode() + b"\n"
            told += self.differs(os.path.join(after, file), found, read(os.path.join(after, file)))
        audit = read(self.base + ".audit", None)
        if audit is not None:
            book = came.out[came.out.rindex(b'["servers",'):]
            told += self.differs(self.base + ".audit", self.program.call(["audit", "{}"], book).out, audit)
        return told

    def tried(self):
        came = self.called()
        return [self.texts(came) + self.left(came)]


class Rows:
    """A table of lines. Its head says, in lines that begin with `# `, how the rows are asked; other such lines are for its reader."""

    WORDS = ("call", "before", "newline", "bytes", "probe", "front", "back", "same", "shown", "check")

    def __init__(self, path):
        self.path, self.head, self.rows = path, {}, []
        for number, line in enumerate(read(path).decode().split("\n")[:-1], 1):
            word, _, rest = line[2:].partition(" ")
            if not line.startswith("# "):
                self.rows.append((number, line))
            elif word in self.WORDS:
                self.head.setdefault(word, []).append(rest)

    def one(self, word, otherwise=None):
        return self.head.get(word, [otherwise])[0]

    def told(self, number, row, came, must):
        where = "%s:%d" % (os.path.relpath(self.path, TOP), number)
        return ["%s: %.200r: %.400r came, not %.400r" % (where, row, came, must)]

    def judged(self, answers, is_so, accept):
        """What is wrong with each row; or, where what came is accepted, the rows that differ are written anew."""
        lines, told = read(self.path).decode().split("\n"), []
        for (number, row), came in zip(self.rows, answers):
            differs = not is_so(row, came)
            if differs and accept:
                text = row.partition(" => ")[0]
                lines[number - 1] = text if came is None else "%s => %s" % (text, came)
            told.append(self.told(number, row, came, self.must(row)) if differs and not accept else [])
        if accept:
            write(self.path, "\n".join(lines).encode())
        return told


class Lines(Rows):
    """Rows of lines, each in its place of a script: what the program tells of it, or that it is taken."""

    def __init__(self, program, path, accept):
        super().__init__(path)
        self.program, self.accept = program, accept
        self.words = self.one("call").split()
        self.before = "".join(line + "\n" for line in self.head.get("before", []))

    def bytes_of(self, text):
        if "newline" in self.head:
            text = text.replace(self.one("newline"), "\n")
        said = text.encode()
        if "bytes" in self.head:
            said = re.sub(rb"\\x([0-9a-f]{2})", lambda mark: bytes([int(mark.group(1), 16)]), said)
        return self.before.encode() + said

    def answer(self, row):
        """What is reported of the row after `bayou: `; None where it is taken, and else all that came."""
        said = self.bytes_of(row.partition(" => ")[0])
        came = self.program.call(self.words, said, b"" if any("{}" in word for word in self.words) else said)
        err = came.err.decode(errors="replace")
        if (err, came.status) == ("", 0):
            return None
        if came.out or came.status != 2 or not err.startswith("bayou: ") or err.count("\n") != 1:
            return "status %d, printed %r, told %r" % (came.status, came.out, err)
        return err[len("bayou: "):-1]

    def must(self, row):
        """What is to be reported: of the row's own line, where it names no other."""
        told = row.partition(" => ")[2]
        return told if not told or told.startswith("line ") else "line %d: %s" % (self.before.count("\n") + 1, told)

    def tried(self):
        answers = [self.answer(row) for _, row in self.rows]
        return self.judged(answers, lambda row, came: came == (self.must(row) or None), self.accept)


class Checked(Rows):
    """Rows of lines, each in its place of a script or of an audit file: what `bayou check` tells of it."""

    def __init__(self, program, path, accept):
        super().__init__(path)
        self.program, self.accept = program, accept
        self.before = "".join(line + "\n" for line in self.head.get("before", []))

    def line_of(self, row):
        text = row.partition(" => ")[0].replace("\\r", "\r").encode()
        return re.sub(rb"\\x([0-9a-f]{2})", lambda mark: bytes([int(mark.group(1), 16)]), text)

    def answer(self, row):
        """What is reported of the row's line; None where nothing is."""
        number = self.before.count("\n") + 1
        came = self.program.call(["check", "--json", "-"], b"", self.before.encode() + self.line_of(row) + b"\n")
        told = [json.loads(line) for line in came.out.decode().split("\n")[:-1]]
        own = [one for one in told[:-1] if one["line"] == number]
        if not own:
            return None if (came.status, told[-1]["faults"]) == (0, 0) else "status %d" % came.status
        parts = [own[0]["fault"], "at " + ".".join(str(step) for step in own[0]["path"]) if own[0]["path"] else "at the line"]
        parts += ["found " + own[0]["found"], "expected " + own[0]["expected"]]
        return "; ".join(parts + (["fix " + own[0]["fix"]] if own[0]["fix"] else []))

    def tried(self):
        answers = [self.answer(row) for _, row in self.rows]
        return self.judged(answers, lambda row, came: came == self.must(row), self.accept)

    def must(self, row):
        return row.partition(" => ")[2] or None


class Marks:
    """What stands for bytes: marks by name, and `HH*N` for a byte that comes N times."""

    def __init__(self, lines):
        self.table = [line.partition(" ")[::2] for line in lines if line.startswith("<")]

    def said(self, text):
        while any(mark in text for mark, _ in self.table):
            for mark, meaning in self.table:
                text = text.replace(mark, meaning)
        return re.sub(r"\b([0-9a-f]{2})\*(\d+)", lambda many: many.group(1) * int(many.group(2)), text)


class Probed(Rows):
    """Rows for the probe, which is handed them all in one call."""

    def __init__(self, probe, path, accept):
        super().__init__(path)
        self.probe, self.accept = probe, accept
        marks = read(os.path.join(os.path.dirname(path), "MARKS")).decode().split("\n")
        self.marks, self.shows = Marks(marks), Marks(self.head.get("shown", []))
        self.front, self.back = self.one("front", ""), self.one("back", "")
        self.is_text = self.one("probe").split()[0] in ("line", "person")

    def asked(self, row):
        text = row.partition(" => ")[0]
        return "%s %s" % (self.one("probe"), self.front + (text if self.is_text else self.marks.said(text)) + self.back)

    def must(self, row):
        text, arrow, told = row.partition(" => ")
        told = text if not arrow and "same" in self.head else told
        if not told.startswith("!"):
            told = self.front + told + self.back
        return told if self.is_text else self.marks.said(self.shows.said(told)).replace(" ", "")

    def tried(self):
        asked = "".join(self.asked(row) + "\n" for _, row in self.rows)
        done = subprocess.run([self.probe], input=asked.encode(), capture_output=True, timeout=PATIENCE)
        came = done.stdout.decode().split("\n")[:-1]
        if len(came) != len(self.rows):
            return [["%s: %d answers to %d rows" % (os.path.relpath(self.path, TOP), len(came), len(self.rows))]]
        return self.judged(came, self.is_so, self.accept)

    def is_so(self, row, came):
        return (came if self.is_text else came.replace(" ", "")) == self.must(row)


def tables_below(folder, program, probe, accept):
    """Each table below the folder, in the order of their names."""
    for at, folders, files in os.walk(folder):
        folders[:] = sorted(name for name in folders if not name.endswith((".before", ".after", ".data")))
        for file in sorted(files):
            base, kind = os.path.splitext(os.path.join(at, file))
            if kind in CASES:
                yield Case(program, base, kind, accept)
            elif kind == ".rows" and b"\n# probe " in b"\n" + read(base + kind):
                yield Probed(probe, base + kind, accept)
            elif kind == ".rows" and b"\n# check" in b"\n" + read(base + kind):
                yield Checked(program, base + kind, accept)
            elif kind == ".rows":
                yield Lines(program, base + kind, accept)


def main(program, *words):
    words = list(words)
    accept = "--accept" in words
    if accept:
        words.remove("--accept")
    probe = PROBE
    if "--probe" in words:
        at = words.index("--probe")
        probe = words[at + 1]
        del words[at:at + 2]
    if not os.access(probe, os.X_OK):
        print("tables: there is no probe %s\n0 passed, 1 failed" % probe)
        return 1
    passed = failed = 0
    with tempfile.TemporaryDirectory() as room:
        folders = [os.path.join(TOP, word) for word in words] or [TOP]
        tables = [table for folder in folders for table in tables_below(folder, Program(program, room), os.path.abspath(probe), accept)]
        with concurrent.futures.ThreadPoolExecutor(os.cpu_count()) as lanes:
            for table in lanes.map(lambda table: table.tried(), tables):
                for told in table:
                    passed, failed = passed + (not told), failed + bool(told)
                    for line in told:
                        print("tests/" + line)
    print("%d passed, %d failed" % (passed, failed))
    # (a run in which there was nothing to try shows nothing)
    return 0 if passed and not failed else 1


if __name__ == "__main__":
    sys.exit(main(*sys.argv[1:]))
