"""What a run of `bayou net` printed, read against its script: each line where it must stand, each guarantee, each value."""
import json
import re

import meaning
from net_script import SERVERS

WROTE = re.compile(r"(\d+) wrote (\d+):(\d+) clock (\d+) deps ([\d,]+)")
READ = re.compile(r"(\d+) read (\S+) (none|num -?\d+|text \".*\") at ([\d,]+)")
BEHIND = re.compile(r"(\d+) refused behind at ([\d,]+)")
PULLED = re.compile(r"pulled (\d+) had (\d+)")
LISTED = re.compile(r"log (\d+) (\d+):(\d+) clock (\d+) (updated|nothing|merged \d+)")


class Wrong(Exception):
    """A line that isn't as it must be."""


def need(holds, told, why):
    if not holds:
        raise Wrong("%s: %r" % (why, told))


def vector(text):
    counts = tuple(int(count) for count in text.split(","))
    need(len(counts) == SERVERS, text, "a vector of another length")
    return counts


def dominates(one, other):
    return all(a >= b for a, b in zip(one, other))


def join(one, other):
    return tuple(max(a, b) for a, b in zip(one, other))


def own_term(term):
    return ("lit", term) if not isinstance(term, list) else tuple(term)


def own_ops(ops):
    return [("del", op[1]) if op[0] == "del" else ("put", op[1], own_term(op[2])) for op in ops]


def own_program(program):
    """The program in the form that `meaning` takes."""
    merge = [(part["when"], own_ops(part["ops"])) for part in program["merge"]]
    return program["check"], own_ops(program["update"]), merge


class Seen:
    """What a session has read and written so far, as vectors; and the server and the program of the Write that it may ask again."""

    def __init__(self, asks):
        zero = (0,) * SERVERS
        self.asks, self.reads, self.writes, self.asked = asks, zero, zero, None

    def need(self, reading):
        """What its guarantees want of a server."""
        zero = (0,) * SERVERS
        of_reads, of_writes = ("mr", "ryw") if reading else ("wfr", "mw")
        return join(self.reads if of_reads in self.asks else zero, self.writes if of_writes in self.asks else zero)


class Told:
    """The lines of a run, and what they come to."""

    def __init__(self, script, output):
        need(output.endswith("\n"), output[-80:], "the last line has no end")
        self.script, self.lines, self.at = script, output.split("\n")[:-1], 0
        self.writes, self.sessions = {}, [Seen(asks) for asks in script.asks]
        self.reads, self.counts = [], {"reads": 0, "writes": 0, "refusals": 0}
        self.accepted, self.agains = [0] * SERVERS, 0

    def next(self):
        need(self.at < len(self.lines), self.lines[-1:], "lines are missing")
        self.at += 1
        return self.lines[self.at - 1]

    def operation(self, operation):
        """The line of an operation: its guarantees are kept, and it is refused only for them."""
        told, (word, session, *rest) = self.next(), operation
        seen = self.sessions[session]
        if word == "again" and seen.asked is None:
            need(told == "%d again none" % session, told, "there was nothing to ask again")
            return
        server, what = seen.asked if word == "again" else rest
        seen.asked = None if word == "read" else (server, what)
        wanted = seen.need(word == "read")
        refused = BEHIND.fullmatch(told)
        if refused:
            need(int(refused.group(1)) == session, told, "another session")
            need(not dominates(vector(refused.group(2)), wanted), told, "a refusal without a cause")
            self.counts["refusals"] += 1
            return
        match = (READ if word == "read" else WROTE).fullmatch(told)
        need(match and int(match.group(1)) == session, told, "no line of %r" % (operation,))
        held = vector(match.groups()[-1])
        need(dominates(held, wanted), told, "less than was asked for")
        if word == "read":
            need(match.group(2) == what, told, "another key")
            self.reads.append((what, match.group(3), held, told))
            seen.reads = join(seen.reads, held)
            self.counts["reads"] += 1
            return
        origin, seq, clock = (int(match.group(i)) for i in (2, 3, 4))
        need(origin == server and held[origin] == seq - 1 and (origin, seq) not in self.writes, told, "no such Write")
        self.writes[origin, seq] = (clock, origin, held, what)
        seen.writes, seen.asked = join(seen.writes, tuple(seq if s == origin else 0 for s in range(SERVERS))), None
        self.agains += word == "again"
        self.counts["writes"] += 1
        self.accepted[origin] += 1

    def pull(self):
        told = self.next()
        match = PULLED.fullmatch(told)
        # (no other pull goes on beside it, so nothing comes that was there)
        need(match and match.group(2) == "0", told, "no pull of what was lacking")

    def listing(self, server):
        """The log of a server: the Writes that its vector counts, in stamp order, and what became of each."""
        end = next((at for at in range(self.at, len(self.lines)) if self.lines[at].startswith("log %d at " % server)), None)
        need(end is not None, self.lines[self.at:self.at + 1], "a log without an end")
        held = vector(self.lines[end].split(" at ")[1])
        database, listed = {}, self.lines[self.at:end]
        writes = self.replayed(held)
        need(len(listed) == len(writes), self.lines[end], "a log of another length")
        for told, (name, (clock, origin, _, program)) in zip(listed, writes):
            match = LISTED.fullmatch(told)
            need(match and [int(match.group(i)) for i in (1, 2, 3, 4)] == [server, origin, name[1], clock], told, "no line of a log")
            before, database = database, meaning.behind(own_program(program), database)
            need(match.group(5) != "nothing" or before == database, told, "a Write that changed something")
        self.at = end + 1

    def replayed(self, held):
        """The Writes that the vector counts, in stamp order."""
        writes = [(name, write) for name, write in self.writes.items() if name[1] <= held[name[0]]]
        need(len(writes) == sum(held), held, "a vector that counts a Write that nobody was told of")
        return sorted(writes, key=lambda write: write[1][:2])

    def values(self):
        """Each read found what the replay of the Writes that its vector counts has."""
        known = {}
        for key, value, held, told in self.reads:
            if held not in known:
                known[held] = {}
                for _, write in self.replayed(held):
                    known[held] = meaning.behind(own_program(write[3]), known[held])
            has = known[held].get(key)
            shown = "none" if has is None else "num %d" % has if isinstance(has, int) else "text " + json.dumps(has)
            need(value == shown, told, "another value than %r" % shown)

    def rest(self, members):
        if members[0] == "log":
            self.listing(members[1])
            return
        wanted = {"judge": "clean", "reopen": "reopen refused notdown"}[members[0]]
        told = self.next()
        need(told == wanted, told, "not %r" % wanted)

    def ends(self):
        """The books agree with the lines."""
        wanted = ["totals reads %(reads)d writes %(writes)d refusals %(refusals)d slips 0" % self.counts]
        wanted += ["settled %d accepted %d adopted 0" % pair for pair in enumerate(self.accepted)]
        wanted += ["clean"]
        need(self.lines[self.at:] == wanted, self.lines[self.at:], "not %r" % wanted)
        for name, (clock, _, held, _) in self.writes.items():
            past = [self.writes[server, seq] for server, seq in enumerate(held) if seq]
            need(all(dominates(held, write[2]) for write in past), name, "its past lacks the past of a Write in it")
            need(clock == 1 + max((write[0] for write in past), default=0), name, "its clock isn't one above its past")


def look(script, output):
    """What is wrong with the output of a run of the script in a new folder, None where nothing is; and how many Writes were made as they were
    asked again."""
    try:
        told = Told(script, output)
        for sessions, pulls, rest in script.phases:
            for operation in (operation for operations in sessions for operation in operations):
                told.operation(operation)
            for _ in pulls:
                told.pull()
            for members in rest:
                told.rest(members)
        told.ends()
        told.values()
    except Wrong as why:
        return str(why), 0
    return None, told.agains


def wrong_in(script, output):
    """What is wrong with the output alone."""
    return look(script, output)[0]
