"""Tries `bayou check` against `bayou run` and `bayou audit`, its two forms against each other, and what is reported after a fault.

    check.py PROGRAM [GROUP..]
"""
import json
import os
import pty
import re
import subprocess
import sys
import tempfile

import tables
from answers import answers
from every import every
from explained import explained, objects
from pictures import pictures

TOP = tables.TOP
FAULT = re.compile(rb"bayou: line (\d+): ([a-zA-Z ]+)\n")
BAD = '["servers",1]\n["read",0,0,"a"]\n'


class Tries:
    """What was tried, and what of it isn't so."""

    def __init__(self, program):
        self.program, self.passed, self.failed = program, 0, 0

    def that(self, what, found, wanted):
        if found == wanted:
            self.passed += 1
            return
        self.failed += 1
        print("check: %s: %.300r came, not %.300r" % (what, found, wanted))

    def call(self, *words, text=b"", cwd=None):
        return subprocess.run([self.program, *words], input=text, capture_output=True, timeout=tables.PATIENCE, cwd=cwd)

    def objects(self, text):
        """The objects of the lines with a fault, the one after them, and the status."""
        done = self.call("check", "--json", "-", text=text)
        lines = [json.loads(line) for line in done.stdout.decode().split("\n")[:-1]]
        return lines[:-1], lines[-1], done


def texts():
    """Each text of tests/ that a call reads as a script or an audit file, by name."""
    for folder in ("run", "net", "audit"):
        for at, folders, files in os.walk(os.path.join(TOP, folder)):
            folders.sort()
            for file in sorted(files):
                base, kind = os.path.splitext(os.path.join(at, file))
                text = tables.read(base + kind)
                if kind == ".pieces":
                    text = "".join(piece * times for piece, times in json.loads(text)).encode()
                if kind in (".jsonl", ".pieces"):
                    yield os.path.relpath(base, TOP), text
    for file in sorted(os.listdir(os.path.join(TOP, "lines"))):
        path = os.path.join(TOP, "lines", file)
        if b"\n# call " in tables.read(path):
            rows = tables.Lines(None, path, False)
            for number, row in rows.rows:
                yield "lines/%s:%d" % (file, number), rows.bytes_of(row.partition(" => ")[0])


def least(tries):
    """The least line with a fault, and its kind, are those for which the text is refused; and what is given as meant is taken."""
    for name, text in texts():
        told, last, done = tries.objects(text)
        command = {"script": "run", "audit file": "audit"}[last["kind"]]
        ran = tries.call(command, "-", text=text)
        refused = FAULT.fullmatch(ran.stderr)
        wanted = (int(refused.group(1)), refused.group(2).decode()) if refused else None
        found = (told[0]["line"], told[0]["fault"]) if told else None
        tries.that(name, (found, last["refused"], done.returncode, done.stderr),
                   (wanted, wanted and wanted[0], 2 if wanted else 0, b""))
        lines = [one["line"] for one in told]
        tries.that(name + ": lines", (lines, last["faults"] >= len(lines)), (sorted(set(lines)), True))
        for one in told:
            if one["fix"] is not None:
                fixed = tries.call("run", "-", text=(one["fix"] + "\n").encode()).stderr
                own = FAULT.fullmatch(fixed)
                tries.that(name + ": " + one["fix"], own is None or own.group(2) == b"out of place", True)


def forms(tries):
    """What people read is what programs read."""
    rows = tables.Checked(None, os.path.join(TOP, "check", "script-mistakes.rows"), False)
    text = b"".join(rows.line_of(row) + b"\n" for _, row in rows.rows)
    text = rows.before.encode() + text
    told, last, _ = tries.objects(text)
    shown = tries.call("check", "-", text=text).stdout.decode()
    parts = shown.split("bayou: line ")[1:]
    tries.that("as many", len(parts), len(told))
    for part, one in zip(parts, told):
        head = "%d: %s\n  -:%d:%d" % (one["line"], one["fault"], one["line"], one["column"])
        tries.that("line %d" % one["line"], part.startswith(head), True)
        marked = part.split("\n")[3]
        tries.that("line %d: its mark" % one["line"], marked.count("^") <= one["length"] and "^" in marked, True)
        for word, key in (("found", "found"), ("expected", "expected"), ("fix", "fix"), ("see", "page")):
            line = "\n  %-9s %s\n" % (word, one[key])
            # (the end of the text stands after the last one)
            tries.that("line %d: %s" % (one["line"], word), line in part, one[key] is not None)
    tries.that("the last line", shown.split("\n")[-2 if last["faults"] <= 1001 else -3].startswith("-: script with %d faults in %d lines" % (last["faults"], last["lines"])), True)


def streams(tries):
    """Long texts, odd bytes, and outputs that end."""
    many = b'["servers",1]\n' + b'["red",0]\n' * 5000
    told, last, _ = tries.objects(many)
    tries.that("many faults", (len(told), last["faults"]), (1001, 5000))
    told, last, done = tries.objects(b"")
    tries.that("no line", (told[0]["line"], told[0]["fault"], done.returncode), (1, "out of place", 2))
    escape = tries.call("check", "-", text=b'["servers",1]\n["r\\u001bd",0]\n["\x1b[31m",0]\n\xff\x1b\n').stdout
    tries.that("nothing that a terminal obeys", re.findall(rb"[^\n\x20-\x7e]", escape), [])
    full = subprocess.run([tries.program, "check", "-"], input=BAD.encode(), stdout=open("/dev/full", "wb"), stderr=subprocess.PIPE)
    tries.that("a full disk", (full.returncode, full.stderr), (3, b"bayou: output\n"))
    script = '["servers",1]\n["session",0,[]]\n' + '["read",0,0,"a"]\n' * 60000
    for words in (["run"], ["check", "-"]):
        call = subprocess.Popen([tries.program, *words], stdin=subprocess.PIPE, stdout=subprocess.PIPE, stderr=subprocess.PIPE)
        call.stdout.close()
        call.stdin.write(script.encode())
        call.stdin.close()
        tries.that("a reader that has gone: " + words[0], (call.stderr.read(), call.wait()), (b"", 3))
        call.stderr.close()


def at_terminal(program, *words):
    """What is shown at a terminal."""
    ours, theirs = pty.openpty()
    done = subprocess.Popen([program, *words], stdin=subprocess.DEVNULL, stdout=subprocess.PIPE, stderr=theirs)
    os.close(theirs)
    told = b""
    while True:
        try:
            piece = os.read(ours, 4096)
        except OSError:
            break
        if not piece:
            break
        told += piece
    done.stdout.read()
    done.stdout.close()
    os.close(ours)
    return done.wait(), told.decode().replace("\r\n", "\n")


def told(tries):
    """What stands after the one line of a fault."""
    with tempfile.TemporaryDirectory() as room:
        def path(name, text=None):
            at = os.path.join(room, name)
            if text is not None:
                with open(at, "w") as file:
                    file.write(text)
            return at

        bad, refused = path("bad.jsonl", BAD), os.path.join(TOP, "../examples/audit/forged.jsonl")
        more = "  bayou check %s says where, and what was expected\n" % bad
        for words in (["run"], ["audit"], ["net", "--dir", room]):
            tries.that("at a terminal: " + words[0], at_terminal(tries.program, *words, bad), (2, "bayou: line 2: out of place\n" + more))
            done = tries.call(*words, bad)
            tries.that("elsewhere: " + words[0], (done.returncode, done.stderr), (2, b"bayou: line 2: out of place\n"))
        tries.that("a verdict that is refused", at_terminal(tries.program, "audit", refused), (2, ""))
        tries.that("a script that runs", at_terminal(tries.program, "run", path("good.jsonl", '["servers",1]\n')), (0, ""))
        none = path("none.jsonl")
        for words in (["run"], ["audit"], ["check"], ["net", "--dir", room]):
            done = tries.call(*words, none)
            tries.that("no file: " + words[0], (done.returncode, done.stderr.decode()), (3, "bayou: input\n  %s: No such file or directory (os error 2)\n" % none))
        done = tries.call("run", room)
        tries.that("a folder", (done.returncode, done.stderr.decode()), (3, "bayou: input\n  %s: it is a folder\n" % room))
        done = tries.call("a.jsonl")
        tries.that("a file as a command", (done.returncode, b"call: bayou run a.jsonl\n" in done.stderr), (2, True))
        device(tries, path)


def device(tries, path):
    """What is reported of a folder or a journal that servers can't begin with."""
    def net(folder, script):
        done = tries.call("net", "--dir", folder, path("net.jsonl", script))
        return done.returncode, done.stderr.decode()

    one, writes = '["servers",1]\n', '["servers",1]\n["session",0,[]]\n' + '["write",0,0,{}]\n' * 3
    gone, file, here, other = path("gone"), path("file", ""), path("here"), path("other")
    os.mkdir(here)
    os.mkdir(other)
    tries.that("no folder", net(gone, one), (3, "bayou: device\n  %s: No such file or directory (os error 2)\n" % gone))
    tries.that("a file for a folder", net(file, one), (3, "bayou: device\n  %s: it is no folder\n" % file))
    tries.that("three Writes", net(here, writes), (0, ""))
    journal = os.path.join(here, "server-0.journal")
    limited = '["servers",1,2]\n'
    tries.that("more Writes than the limit", net(here, limited),
               (3, "bayou: device\n  %s: it has 3 Writes, more than the 2 that `servers` lets a server hold\n" % journal))
    theirs = os.path.join(other, "server-0.journal")
    with open(theirs, "w") as file:
        file.write("what is no journal at all, and longer than a header is, by far and far and far\n")
    tries.that("no journal", net(other, one), (3, "bayou: device\n  %s: it is no journal\n" % theirs))
    os.remove(theirs)
    two = path("two")
    os.mkdir(two)
    tries.that("two servers", net(two, '["servers",2]\n'), (0, ""))
    os.rename(os.path.join(two, "server-1.journal"), theirs)
    tries.that("another server's", net(other, one), (3, "bayou: device\n  %s: it is another server's journal\n" % theirs))
    import fcntl
    with open(journal, "rb") as held:
        fcntl.flock(held, fcntl.LOCK_EX)
        tries.that("in use", net(here, one), (3, "bayou: device\n  %s: another run, or a server that lives, has it\n" % journal))


GROUPS = {"least": least, "forms": forms, "streams": streams, "told": told, "explained": explained,
          "objects": objects, "every": every, "pictures": pictures, "answers": answers}


def main(program, *words):
    tries = Tries(program)
    for word in words or GROUPS:
        GROUPS[word](tries)
    print("%d passed, %d failed" % (tries.passed, tries.failed))
    return 0 if tries.passed and not tries.failed else 1


if __name__ == "__main__":
    sys.exit(main(*sys.argv[1:]))
