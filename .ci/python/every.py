"""What `bayou audit --all` shows, beside every breach as the definitions of the four guarantees have it (Terry et al. 1994), found here by looking at each pair of
operations of a session, each server and each Write."""
import json

from explained import audit_files, breach_object, paragraphs, tell_of

ORDER = ("ryw", "mr", "wfr", "mw")


class History:
    """The operations of each session, and what each server holds, in order of receipt."""

    def __init__(self, text):
        said = [json.loads(line) for line in text.decode().split("\n") if line.strip()]
        self.dumps = [[tuple(line[2][:3]) for line in said if line[0] == "held" and line[1] == server] for server in range(said[0][1])]
        self.sessions = {}
        for line in said:
            if line[0] == "entry" and line[5] != "refused":
                self.sessions.setdefault(line[1], []).append((line[2], line[4], line[5], line[7] if line[5] == "read" else (line[4], line[6], line[7])))

    def front(self, server, vector):
        """The first Writes of the server's dump that the vector counts."""
        return self.dumps[server][:sum(vector)]

    def told(self, operation):
        """The Writes that an operation told its session of."""
        _, server, kind, what = operation
        return self.front(server, what) if kind == "read" else [what]

    def lacks(self, write, operation):
        """The servers at which the later operation lacks the Write."""
        _, home, kind, what = operation
        if kind == "read":
            return [] if write in self.front(home, what) else [home]
        return [server for server, dump in enumerate(self.dumps) if what in dump and not (write in dump[:dump.index(what)] and (write[2], write[0]) < (what[2], what[0]))]

    def breaches(self):
        """Of each session and guarantee, each later operation that breaks it with the least pair of place, server and Write."""
        kinds = {"ryw": ("write", "read"), "mr": ("read", "read"), "wfr": ("read", "write"), "mw": ("write", "write")}
        for session in sorted(self.sessions):
            for guarantee in ORDER:
                first_kind, second_kind = kinds[guarantee]
                tried = self.sessions[session]
                for at, second in enumerate(tried):
                    found = [(first[0], server, write[0], write[1]) for first in tried[:at] if second[2] == second_kind and first[2] == first_kind
                             for write in self.told(first) for server in self.lacks(write, second)]
                    if found:
                        first, server, origin, seq = min(found)
                        yield session, guarantee, first, second[0], server, origin, seq


def many(stale):
    """A session that wrote at server 0 and then read so often at server 1, which has nothing."""
    lines = [["servers", 2], ["entry", 0, 1, ["ryw"], 0, "write", 1, 1, [0, 0]], ["held", 0, [0, 1, 1, [0, 0], {}]]]
    return "".join(json.dumps(line) + "\n" for line in lines + [["entry", 0, 2 + at, ["ryw"], 1, "read", "a", [0, 0]] for at in range(stale)]).encode()


def every(tries):
    found = 0
    for name, text in [*audit_files(), ("stale reads", many(7))]:
        plain = tries.call("audit", "-", text=text)
        done, least = tries.call("audit", "--all", "-", text=text), tries.call("audit", "--explain", "-", text=text)
        tries.that("%s: --all explains, with the audit's status" % name, (done.returncode, done.stderr, done.stdout[:len(plain.stdout)]), (plain.returncode, plain.stderr, plain.stdout))
        both = tries.call("audit", "--explain", "--all", "-", text=text)
        tries.that("%s: --explain --all says the same" % name, both.stdout, done.stdout)
        if plain.stderr or plain.stdout.startswith(b"judge refused"):
            tries.that("%s: as without --all" % name, done.stdout, least.stdout)
            continue
        lines, rest = text.decode().split("\n"), done.stdout[len(plain.stdout):].decode().split("\n")
        breaches = list(History(text).breaches())
        found += len(breaches)
        tries.that("%s: they are counted" % name, rest[-4], "breaches in all: %d" % len(breaches))
        parts = paragraphs(rest[:-4])
        tries.that("%s: as many are shown" % name, len(parts), len(breaches))
        for breach, told in zip(breaches, parts):
            tell_of(tries, name, lines, breach, told)
        said = [(at + 1, json.loads(line)) for at, line in enumerate(lines) if line.strip()]
        more = [json.loads(line) for line in tries.call("audit", "--all", "--json", "-", text=text).stdout.decode().split("\n")[:-1]]
        told = [one for one in more if one["kind"] in ("breach", "breaches")]
        tries.that("%s: the same as JSON" % name, told, [breach_object(said, breach) for breach in breaches] + [{"kind": "breaches", "count": len(breaches)}])
    tries.that("there is more than the least to show", found > 40, True)
