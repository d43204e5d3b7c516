"""Refuses each allocation of the scripts and lines of tests/ in turn, and each read and write, and holds what came against what may come.

    refused.py PROGRAM REFUSE.SO [FOLDER..]

With one allocation refused a run ends as ever; or as one of NAME.or1.. says; or with `bayou: memory`, after a front of its lines; or one of its lines
lacked memory, and all else is as in a twin, a script in which something else stands in that line's place that leaves the same (Twin). With one read
or write that fails it ends as ever, or with `bayou: input` or `bayou: output` after a front of its lines. Where each moves one byte it ends as ever.
"""
import concurrent.futures
import os
import subprocess
import sys
import tempfile

from net_runs import CAUSE
from tables import CALLS, PATIENCE, TOP, Lines, Program, read

# Where each allocation is refused; files of rows have each of their lines tried.
MEMORY = ("run/again-short", "run/each-command", "run/totals", "run/scripts", "run/pulls", "run/faults", "run/prefixes", "audit/files", "check/texts", "lines/run.rows", "person/refused.rows")
# Where each read and write fails.
CALLED = ("run", "audit", "net", "check/texts")
# The most Items that a pull of these scripts has, the most device calls of an opening, and a server of theirs that is down.
ITEMS, OPENING_CALLS, SPARE = 3, 4, "2"


def without_cause(told):
    """What is reported, but for the line that names the cause of a fault, which `.ci/check` looks at."""
    return CAUSE.sub(r"\1", told.decode())


class Refusing:
    """Calls a program with one of its calls refused."""

    def __init__(self, program, refuse, room):
        self.program, self.refuse, self.room = program, os.path.abspath(refuse), room
        self.runs = {}

    def call(self, words, text, stdin, before="", **meddled):
        """What is printed and told, the status, and how many calls were counted. The files of `before` lie in the new folder."""
        with tempfile.NamedTemporaryFile(dir=self.room) as asked, tempfile.NamedTemporaryFile(dir=self.room) as case, tempfile.TemporaryDirectory(dir=self.room) as folder:
            case.write(text)
            case.flush()
            if os.path.isdir(before):
                self.program.place(before, folder)
            env = {"LD_PRELOAD": self.refuse, "ASKED": asked.name, **{name: str(value) for name, value in meddled.items()}} if meddled else {}
            words = [word.replace("{dir}", folder).replace("{}", case.name) for word in words]
            done = subprocess.run([self.program.path] + words, input=stdin, capture_output=True, env=env, timeout=PATIENCE)
            return (done.stdout.decode(), without_cause(done.stderr), done.returncode), int(asked.read() or 0)

    def run(self, lines):
        """What a script comes to with memory enough."""
        text = "".join(line + "\n" for line in lines)
        if text not in self.runs:
            self.runs[text] = self.call(["run"], text.encode(), text.encode())[0]
        return self.runs[text]


class Twin:
    """A script, which of its lines lacked memory, and what the run came to; held against scripts with something else in that line's place."""

    def __init__(self, refusing, lines, at, came):
        self.refusing, self.lines, self.at, self.came = refusing, lines, at, came

    def goes_as(self, instead, told, must, is_same=str.__eq__):
        """Whether it goes as with these lines instead, where the first line that they print begins so, and `told` is printed in its place."""
        out, err, status = self.came
        number = len(self.refusing.run(self.lines[:self.at])[0].splitlines())
        twin = self.refusing.run(self.lines[:self.at] + instead + self.lines[self.at + 1:])
        found, others = out.splitlines(), twin[0].splitlines()
        if (err, status) != twin[1:] or len(found) != len(others) or number >= len(found):
            return False
        return found[:number] == others[:number] and found[number] == told and others[number].startswith(must) and all(map(is_same, found[number + 1:], others[number + 1:]))

    def fails(self, server, call, must, told):
        """Whether it goes as where a device call of the server fails; the line before may have set a fuse of its own, which then waits on."""
        fuse, line = '["fuse",%s,%d,0]' % (server, call), self.lines[self.at]
        before = self.lines[self.at - 1] if self.at else ""
        return self.goes_as([fuse, line], told, must) or before.startswith('["fuse",') and self.goes_as([fuse, line, before], told, must)

    def asked_first(self, session, line):
        """The same where what asks again for this Write makes it first, since no server has it."""
        lines, is_asked = [], False
        for number, one in enumerate(self.lines):
            is_after = number > self.at and not is_asked
            asks = is_after and one == '["again",%s]' % session
            is_asked |= asks or is_after and one.startswith(('["write",%s,' % session, '["read",%s,' % session))
            lines.append(line if asks else one)
        return Twin(self.refusing, lines, self.at, self.came)

    def is_write(self):
        line = self.lines[self.at]
        if not line.startswith('["write",'):
            return False
        session, server, rest = line[len('["write",'):].split(",", 2)
        failed, told = session + " refused journal", session + " refused memory"
        if self.fails(server, 1, failed, failed):
            return True
        later = self.asked_first(session, line)
        down = "%s refused %s" % (session, "journal" if server == SPARE else "down")
        spare = '["write",%s,%s,%s' % (session, SPARE, rest)
        return later.goes_as(['["totals"]'], told, "totals ", is_one_refusal_more) or later.goes_as([spare], told, down, lambda one, other: is_refused_elsewhere(one, other, server))

    def is_pull(self):
        line = self.lines[self.at]
        if not line.startswith(('["pull",', '["resend",')):
            return False
        to, source = line[line.index(",") + 1:-1].split(",")[:2]
        return any(self.goes_as(['["pull",%s,%s,%d]' % (to, source, items)], "pull fault memory", "pull fault cut")
                   or self.fails(to, 2 * items + 1, "pull fault journal", "pull fault journal") for items in range(ITEMS + 1))

    def is_recovery(self):
        word, _, server = self.lines[self.at][2:-1].partition('",')
        if word not in ("restart", "reopen"):
            return False
        told, failed = word + " refused memory", word + " refused journal"
        if word == "reopen" and self.goes_as(['["totals"]'], told, "totals "):
            return True
        return any(self.fails(server, call, failed, one) for call in range(1, OPENING_CALLS + 1) for one in (told, failed))


def is_one_refusal_more(line, other):
    """Whether that is the other line; or, of totals, one that counts a refusal more."""
    if line == other or not (line.startswith("totals ") and other.startswith("totals ")):
        return line == other
    found, must = line.split(), other.split()
    return found[:6] + found[7:] == must[:6] + must[7:] and int(found[6]) == int(must[6]) + 1


def is_refused_elsewhere(line, other, server):
    """Whether that is the other line; or, of entries of refusals, the one at the server in place of the one that is down."""
    at, spare = (',%s,"refused"]' % one for one in (server, SPARE))
    return line == other or line.endswith(at) and other.endswith(spare) and line[:-len(at)] == other[:-len(spare)]


def has_lacked(refusing, lines, came):
    twins = (Twin(refusing, lines, at, came) for at in range(len(lines)))
    return any(twin.is_write() or twin.is_pull() or twin.is_recovery() for twin in twins)


class Script:
    """A case of tests/, and what comes of it with each of its calls refused."""

    def __init__(self, refusing, path):
        self.refusing, self.base = refusing, path[:-len(".jsonl")]
        self.text = read(path)
        args = read(self.base + ".args", None)
        self.words = args.decode().split("\n")[:-1] if args is not None else CALLS[os.path.relpath(path, TOP).split(os.sep)[0]]
        self.whole = read(self.base + ".out").decode(), without_cause(read(self.base + ".err")), int(read(self.base + ".status", b"0"))
        self.others = [read(self.base + ".or%d" % at).decode() for at in range(1, 10) if os.path.exists(self.base + ".or%d" % at)]

    def call(self, **meddled):
        return self.refusing.call(self.words, self.text, b"" if "{}" in self.words else self.text, self.base + ".before", **meddled)

    def ended(self, came, *faults):
        """Whether it ended with one of the faults, after a front of its lines."""
        out, err, status = came
        return status == 3 and self.whole[0].startswith(out) and err in ["bayou: %s\n" % fault for fault in faults]

    def may_lack(self, came):
        out, err, status = came
        is_start = self.ended(came, "device") and not out
        is_end = self.ended(came, "memory") and (not out or out.endswith("\n"))
        if came == self.whole or is_end or is_start or (out in self.others and (err, status) == ("", 0)):
            return True
        return self.words == ["run"] and has_lacked(self.refusing, [line for line in self.text.decode().split("\n") if line], came)

    def may_fail(self, came, calls):
        faults = {"read": ["input", "device"] if self.words[0] == "net" else ["input"], "write": ["output"]}[calls]
        return came == self.whole and calls == "read" or self.ended(came, *faults) and (calls == "write" or not came[0])

    def each(self, may, calls):
        """What is wrong with one of the calls refused; and how many there are."""
        came, number = self.call(CALLS=calls, REFUSED=0)
        if came != self.whole or not number and calls == "memory":
            return "none refused of %d: %.300r" % (number, came), number
        seen = {}
        for at in range(1, number + 1):
            came = self.call(CALLS=calls, REFUSED=at)[0]
            if came not in seen:
                seen[came] = may(came)
            if not seen[came]:
                return "%s %d refused: %.500r" % (calls, at, came), number
        return None, number

    def lacking(self):
        return self.each(self.may_lack, "memory")

    def failing(self):
        """As `each`, of reads and of writes; and where each moves one byte."""
        came = self.call(SHORT="yes")[0]
        if came != self.whole:
            return "a byte at a time: %.500r" % (came,), 0
        reads = self.each(lambda came: self.may_fail(came, "read"), "read")
        writes = self.each(lambda came: self.may_fail(came, "write"), "write")
        return reads[0] or writes[0], reads[1] + writes[1]


class Row:
    """A line of a file of rows, in its place of a script."""

    # What may come of one that lacks memory: nothing was run, no server was started, or the line's own answer says so.
    LACKS = [("", "bayou: memory\n", 3), ("", "bayou: device\n", 3), ("0 refused memory\n", "", 0), ("0 refused journal\n", "", 0)]

    def __init__(self, refusing, lines, number, row):
        self.refusing, self.lines, self.base, self.row = refusing, lines, "%s:%d" % (lines.path, number), row

    def lacking(self):
        said = self.lines.bytes_of(self.row.partition(" => ")[0])
        stdin = b"" if any("{}" in word for word in self.lines.words) else said
        whole, number = self.refusing.call(self.lines.words, said, stdin, CALLS="memory", REFUSED=0)
        for at in range(1, number + 1):
            came = self.refusing.call(self.lines.words, said, stdin, CALLS="memory", REFUSED=at)[0]
            if came != whole and came not in self.LACKS:
                return "memory %d refused: %.500r" % (at, came), number
        return None, number


def cases_of(refusing, folder):
    path = os.path.join(TOP, folder)
    if path.endswith(".rows"):
        lines = Lines(refusing.program, path, False)
        return [Row(refusing, lines, number, row) for number, row in lines.rows]
    found = (os.path.join(at, file) for at, _, files in os.walk(path) for file in files if file.endswith(".jsonl"))
    return [Script(refusing, one) for one in sorted(found)]


def main(program, refuse, *folders):
    passed = failed = 0
    with tempfile.TemporaryDirectory() as room, concurrent.futures.ThreadPoolExecutor(os.cpu_count()) as lanes:
        refusing = Refusing(Program(program, room), refuse, room)
        for kinds, tries, what in ((MEMORY, "lacking", "allocations"), (CALLED, "failing", "reads and writes")):
            for folder in [one for one in kinds if not folders or one in folders]:
                cases, counted = cases_of(refusing, folder), 0
                for case, (wrong, number) in zip(cases, lanes.map(lambda case: getattr(case, tries)(), cases)):
                    counted += number
                    passed, failed = passed + (not wrong), failed + bool(wrong)
                    if wrong:
                        print("tests/%s: NOT as it must be: %s" % (os.path.relpath(case.base, TOP), wrong))
                print("tests/%s: %d %s, each refused in turn" % (folder, counted, what))
    print("%d passed, %d failed" % (passed, failed))
    return 0 if passed and not failed else 1


if __name__ == "__main__":
    sys.exit(main(*sys.argv[1:]))
