"""What `bayou connect --json` prints: a group of tries, of a class that has `program`, `room`, `folder`, `that`, `call` and `start`."""
import json
import os
import subprocess
import time

import frames
from listing import Paging, full, page
from living import SECONDS
from standings import SOON, Apart

# The members of each kind of object, in their order.
MEMBERS = {
    "row": ["kind", "key", "value", "standing"],
    "rows": ["kind", "prefix", "keys", "mixed", "at"],
    "lost": ["kind", "line"],
    "refused": ["kind", "line", "session", "why", "at"],
    "server": ["kind", "server", "away", "at", "holds", "limit", "without"],
    "own": ["kind", "session", "wid", "standing", "became", "alternative"],
    "forgot": ["kind", "session", "wid"],
}


def counts(at):
    """A vector, as a line has it."""
    return ",".join("%d" % count for count in at)


def row(told):
    value = "text " + json.dumps(told["value"], ensure_ascii=False) if isinstance(told["value"], str) else "num %d" % told["value"]
    return " ".join([told["key"], value] + [told["standing"]] * (told["standing"] is not None))


def rows(told):
    prefix, mixed = [told["prefix"]] * (told["prefix"] is not None), ["mixed"] * told["mixed"]
    return " ".join(["list"] + prefix + ["keys %d" % told["keys"]] + mixed + ["at " + counts(told["at"])])


def refused(told):
    return "%d refused %s" % (told["session"], told["why"]) + ("" if told["at"] is None else " at " + counts(told["at"]))


def server(told):
    if told["away"]:
        return "server %d away" % told["server"]
    share = "" if told["limit"] is None else " holds %d of %d" % (told["holds"], told["limit"])
    left_out = "" if told["without"] is None else ", restored without server %d: what was final may have changed" % told["without"]
    return "server %d at %s" % (told["server"], counts(told["at"])) + share + left_out


def own(told):
    became = told["became"] + ("" if told["alternative"] is None else " %d" % told["alternative"])
    return "%d %s %d:%d %s" % (told["session"], told["standing"], *told["wid"], became)


LINES = {"row": row, "rows": rows, "refused": refused, "server": server, "own": own, "lost": lambda told: told["line"] + " lost",
         "forgot": lambda told: "%d forgot %d:%d" % (told["session"], *told["wid"])}


def line_of(text):
    """The line that says what this object does, if it is one, in compact form, with its members in their order."""
    told = json.loads(text)
    members = MEMBERS[told["kind"]]
    if told.get("away"):
        members = members[:3]
    if list(told) != members or json.dumps(told, ensure_ascii=False, separators=(",", ":")) != text:
        return "members or form: " + text
    return LINES[told["kind"]](told)


def lines_of(printed):
    """The same of each line that is one object; the others as they are."""
    return [line_of(text) if text.startswith("{") else text for text in printed]


class Person:
    """Who is at these servers with --json, and says lines one by one."""

    def __init__(self, program, at, words):
        servers = [word for index, address in at for word in ("--server", "%d=%s" % (index, address))]
        self.process = subprocess.Popen([program, "connect"] + servers + list(words) + ["--json"], stdin=subprocess.PIPE, stdout=subprocess.PIPE)
        self.status = None

    def say(self, line, count=1):
        """So many of the lines that are printed then."""
        self.process.stdin.write(line.encode() + b"\n")
        self.process.stdin.flush()
        return [self.process.stdout.readline().decode().rstrip("\n") for _ in range(count)]

    def __enter__(self):
        return self

    def __exit__(self, *fault):
        self.process.stdin.close()
        self.status = self.process.wait(SECONDS)
        self.process.stdout.close()


class Objects:
    def same(self, name, at, lines, words=(), kinds=()):
        """Each line is an object, of just these kinds, and they say what is printed without --json."""
        status, plain, wrong = self.call(at, lines, words, standings=True)
        ended, printed, told = self.call(at, lines, list(words) + ["--json"], standings=True)
        self.that(name + ": kinds", {json.loads(text)["kind"] for text in printed}, set(kinds))
        self.that(name, (ended, lines_of(printed), told), (status, plain, wrong))

    def objects(self):
        """With --json `list`, `servers` and `mine` print an object a line, which says what the line of the same store does; other lines stay as they are."""
        folder, state = self.folder(), os.path.join(self.room, "objects")
        servers = [self.start(folder, index, 2) for index in range(2)]
        at, words = [(index, one.address()) for index, one in enumerate(servers)], ["--session", "all", "--state", state]
        self.same("a list of no row", at, ["list", "list a"], kinds=["rows"])
        self.same("no own Write", at, ["mine"], words)
        puts = ["put a 1", "put b -9223372036854775808", 'put c "two \\"words\\" \\\\ \\n\\u0001/\\u00e4"', "put d 007x", "claim d e lee", "claim d e jo",
                'put c/1 "1"']
        status, printed, told = self.call(at, puts, words + ["--json"], standings=True)
        self.that("what is told of Writes stays as it is", (status, [line for line in printed if line.startswith("{")], told), (1, [], []))
        self.that("each was accepted", [line.split()[2] for line in printed if " wrote " in line], ["0:%d" % number for number in range(1, 8)])
        self.same("rows, and how they stand", at, ["list", "list c", "list none"], words, ["row", "rows"])
        self.same("rows without a state", at, ["list", "list c/"], kinds=["row", "rows"])
        self.same("own Writes", at, ["mine"], words, ["own"])
        self.same("servers", at, ["servers"], kinds=["server"])
        lines = ["get a b none", "session", "became 0:5", "became 0:9", "wait 0", '["read",0,0,"a"]', "help"]
        plain = self.call(at, lines, words, standings=True)
        self.that("other lines stay as they are", self.call(at, lines, words + ["--json"], standings=True), plain)
        self.same("a list that is refused", at[1:], ["list", "list a"], words + ["--servers", "2"], ["refused"])
        self.that("a server ends", servers[0].end()[0], 0)
        with open(os.path.join(folder, "server-0.journal.without"), "wb") as file:
            file.write(b"\1")
        servers[0] = self.start(folder, 0, 2, new=False, port=servers[0].port)
        self.same("a server that was restored without another", at, ["servers"], kinds=["server"])
        servers[1].kill()
        self.same("a server that is away", at, ["servers"], kinds=["server"])
        servers[0].kill()
        self.same("nothing is reached", at, ["list", "servers", "list a"], kinds=["lost", "server"])
        told = [self.call([(0, self.changing())], ["list"], more) for more in ([], ["--json"])]
        self.that("rows of several databases", (told[1][0], lines_of(told[1][1]), told[1][2]), told[0])
        self.that("are mixed", json.loads(told[1][1][-1])["mixed"])
        self.stop_all()
        self.final_objects()
        self.forgotten_objects()

    def changing(self):
        """A server whose pages are of several databases."""
        return Paging(lambda n: page(full(n) if n % 2 else full(n)[:1], n % 2, frames.counts(n))).address

    def final_objects(self):
        """An own Write is told as final, once, and so are rows."""
        store, state = Apart(self), os.path.join(self.room, "final_objects")
        with Person(self.program, store.at, ["--state", state]) as person:
            self.that("a Write", person.say("put a 1", 2), ["0 wrote 0:1 clock 1 deps 0,0,0", "0 became 0:1 update"])
            end, told = time.monotonic() + 2 * SOON, {}
            while told.get("standing") != "final" and time.monotonic() < end:
                told = json.loads(person.say("mine")[0])
                time.sleep(0.1)
            self.that("it is final", told, {"kind": "own", "session": 0, "wid": [0, 1], "standing": "final", "became": "update", "alternative": None})
            shown = [json.loads(line) for line in person.say("mine\nlist", 2)]
            self.that("it is told once, and its row is final", [(one["kind"], one.get("standing")) for one in shown], [("row", "final"), ("rows", None)])
        self.that("a person ends", person.status, 0)
        store.end()

    def forgotten_objects(self):
        """An own Write whose server lost it, and gave its name to another, is told as forgotten."""
        folder, state, words = self.folder(), os.path.join(self.room, "forgotten_objects"), ["--servers", "2"]
        first, second = [self.start(folder, index, 2) for index in range(2)]
        at = [(0, first.address()), (1, second.address())]
        with Person(self.program, at[:1], words + ["--state", state]) as person:
            self.that("a Write", person.say("put a 1", 2), ["0 wrote 0:1 clock 1 deps 0,0", "0 became 0:1 update"])
            self.that("Writes elsewhere", self.call(at[1:], ["put b 1", "put b 2"], words)[0], 0)
            first.kill()
            again = self.start(self.folder(), 0, 2, port=first.port, peers=[(1, second.port)], words=["--every", "1"])
            end, held = time.monotonic() + 2 * SOON, []
            while held != [0, 2] and time.monotonic() < end:
                held = json.loads(self.call([(0, again.address())], ["servers"], words + ["--json"])[1][0])["at"]
                time.sleep(0.2)
            another = self.call(at[:1], ["put c 1"], words)
            self.that("another Write of that name", another, (0, ["0 wrote 0:1 clock 3 deps 0,2", "0 became 0:1 update"], []))
            self.that("it is forgotten", person.say("mine"), ['{"kind":"forgot","session":0,"wid":[0,1]}'])
        self.that("a person ends", person.status, 0)
        self.stop_all()
