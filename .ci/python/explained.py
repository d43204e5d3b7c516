"""What `bayou audit --explain` shows of a file, read again from the file alone: what an audit prints comes first, and each breach of the survey comes with
lines that explain it."""
import json
import os
import re

import tables

NAMES = {"ryw": "Read Your Writes", "mr": "Monotonic Reads", "wfr": "Writes Follow Reads", "mw": "Monotonic Writes"}
BROKEN = re.compile(r"(ryw|mr|wfr|mw) broken (\d+) (\d+) (\d+) (\d+):(\d+)")
SHOWN = re.compile(r"  (place (\d+)|(\d+):(\d+) at server (\d+)|the entry|against|the Write): (?:line (\d+)  (.*)|no line)")
# How many characters of a line are shown.
SHOWN_CHARACTERS = 200


def audit_files():
    """Each audit file of examples/ and tests/, by name."""
    for top in ("examples/audit", "tests/audit"):
        for at, folders, files in os.walk(os.path.join(tables.TOP, "..", top)):
            folders.sort()
            for file in sorted(files):
                if file.endswith(".jsonl"):
                    yield os.path.relpath(os.path.join(at, file), os.path.join(tables.TOP, "..")), tables.read(os.path.join(at, file))


def breaches(survey):
    """What the lines of a survey say: the session, the guarantee, both places, the server, the Write."""
    for line in survey:
        session = int(line.split()[1])
        for found in BROKEN.finditer(line):
            yield (session, found[1], *map(int, found.groups()[1:]))


def is_operation(line, session, place):
    return line[0] == "entry" and line[1:3] == [session, place]


def is_held(line, server, origin, seq):
    return line[0] == "held" and line[1] == server and line[2][:2] == [origin, seq]


class Shown:
    """The lines below a heading: what each is said to be, and the line of the file, or None."""

    def __init__(self, tries, name, lines, told):
        self.lines, self.all = lines, []
        for line in told:
            found = SHOWN.fullmatch(line)
            number = found and found[6] and int(found[6])
            if number:
                tries.that("%s: line %d is shown as it is" % (name, number), found[7], cut(lines[number - 1]))
            self.all.append((found and found[1], number))

    def of(self, what):
        return [number for said, number in self.all if said == what]


def cut(line):
    shown = "".join("?" if not character.isprintable() and ord(character) < 160 else character for character in line[:SHOWN_CHARACTERS])
    return shown + (".." if len(line) > SHOWN_CHARACTERS else "")


def tell_of(tries, name, lines, breach, told):
    """Whether the lines that explain the breach show it."""
    session, guarantee, first, second, server, origin, seq = breach
    tries.that("%s: a breach is named" % name, told[0], "session %d, places %d and %d: %s" % (session, first, second, NAMES[guarantee]))
    shown = Shown(tries, name, lines, told[1:-1])
    said = [json.loads(line) if line else [""] for line in lines]
    for what, test in (("place %d" % first, lambda line: is_operation(line, session, first)), ("place %d" % second, lambda line: is_operation(line, session, second)),
                       ("%d:%d at server %d" % (origin, seq, origin), lambda line: is_held(line, origin, origin, seq)),
                       ("%d:%d at server %d" % (origin, seq, server), lambda line: is_held(line, server, origin, seq))):
        places = [at + 1 for at, line in enumerate(said) if test(line)]
        tries.that("%s: %s is the first such line" % (name, what), shown.of(what)[:1], places[:1] or [None])
    tries.that("%s: a sentence ends it" % name, "%d:%d" % (origin, seq) in told[-1] and "server %d " % server in told[-1], True)


def paragraphs(rest):
    """What is explained, each part with its heading."""
    parts = []
    for line in rest:
        if not line.startswith("  ") or not parts:
            parts.append([])
        parts[-1].append(line)
    return parts


def standing(said):
    """How many Writes of each server each server holds."""
    names = [(line[1], line[2][0]) for line in said if line[0] == "held"]
    servers = range(said[0][1])
    return "held:" + "".join(" server %d %s" % (server, ",".join(str(names.count((server, origin))) for origin in servers)) for server in servers)


def explained(tries):
    for name, text in audit_files():
        plain = tries.call("audit", "-", text=text)
        done = tries.call("audit", "--explain", "-", text=text)
        tries.that("%s: the status is the audit's" % name, (done.returncode, done.stderr), (plain.returncode, plain.stderr))
        tries.that("%s: what an audit prints comes first" % name, done.stdout[:len(plain.stdout)], plain.stdout)
        if plain.stderr:
            tries.that("%s: nothing else is told" % name, done.stdout, plain.stdout)
            continue
        lines, rest = text.decode().split("\n"), done.stdout[len(plain.stdout):].decode().split("\n")
        said = [json.loads(line) for line in lines if line.strip()]
        counts = [sum(line[0] == word for line in said) for word in ("entry", "held")]
        tries.that("%s: what was audited" % name, rest[-2:], ["audited: servers %d entries %d held %d" % (said[0][1], *counts), ""])
        tries.that("%s: where each server stands" % name, rest[-3], standing(said))
        verdict, *survey = plain.stdout.decode().split("\n")[:-1]
        parts = paragraphs(rest[:-3])
        if verdict.startswith("judge refused"):
            refused(tries, name, lines, verdict, parts)
            continue
        found = list(breaches(survey))
        tries.that("%s: as many breaches as the survey has" % name, len(parts), len(found))
        for breach, told in zip(found, parts):
            tell_of(tries, name, lines, breach, told)


def misfit(said, server, place):
    """The first condition that the Write at this place of the server's dump fails (docs/AUDIT.md, "Refusals")."""
    servers = said[0][1]
    dumps = [[line[2] for line in said if line[0] == "held" and line[1] == holder] for holder in range(servers)]
    before, (origin, seq, clock, deps, program) = dumps[server][:place], dumps[server][place]
    held = [sum(write[0] == other for write in before) for other in range(servers)]
    if seq != held[origin] + 1:
        return "  its number: found %d, expected one more than the %d of server %d's before it" % (seq, held[origin], origin)
    for other in range(servers):
        if deps[other] > held[other]:
            return "  its past: found %d Writes of server %d, expected %d at most, those before it" % (deps[other], other, held[other])
    if deps[origin] != seq - 1:
        return "  its past: found %d Writes of its own server, expected one less than its number %d" % (deps[origin], seq)
    greatest = max([write[2] for write in before if write[1] <= deps[write[0]]], default=0)
    if clock != greatest + 1:
        return "  its clock: found %d, expected %d, one more than the greatest of its past" % (clock, greatest + 1)
    for other in range(servers):
        if origin == server and deps[other] != held[other]:
            return "  its past: found %d Writes of server %d, expected %d, all those before it" % (deps[other], other, held[other])
    for other in range(server):
        for write in dumps[other]:
            if write[:2] == [origin, seq] and (write[2:4] != [clock, deps] or plain(write[4]) != plain(program)):
                return "  its content: found another Write of its name at server %d" % other
    return None


def plain(program):
    """A program with each of its lists."""
    return {part: program.get(part, []) for part in ("check", "update", "merge")}


def refused(tries, name, lines, verdict, parts):
    """Whether the explanation of a refused verdict shows the entry or the Write that it names."""
    kind, *numbers = verdict.split()[2:]
    said = [(at + 1, json.loads(line)) for at, line in enumerate(lines) if line.strip()]
    if kind == "forged":
        what, places = "the entry", [at for at, line in said if line[0] == "entry"][int(numbers[0])]
    else:
        what, places = "the Write", [at for at, line in said if line[0] == "held" and line[1] == int(numbers[0])][int(numbers[1])]
    tries.that("%s: one refusal is told" % name, len(parts), 1)
    tries.that("%s: of that line" % name, Shown(tries, name, lines, parts[0][1:-1]).of(what), [places])
    if kind == "dump":
        tries.that("%s: the condition that it fails" % name, parts[0][-1], misfit([line for _, line in said], *map(int, numbers)))
    tries.that("%s: a condition ends it" % name, len(parts[0][-1]) > 10 and parts[0][-1].startswith("  ") and "no line shows" not in parts[0][-1], True)


def numbers_of(line, kinds):
    """What a line of a verdict or a survey says of a breach, as its object does."""
    first, second, server, origin, seq = map(int, kinds)
    return {"first": first, "second": second, "server": server, "wid": [origin, seq]}


def verdict_object(line):
    """The object of a verdict's line."""
    words = re.split(r"[ :]", line)
    if words[0] == "clean":
        return {"kind": "verdict", "verdict": "clean"}
    if words[0] == "broken":
        said = {"kind": "verdict", "verdict": "broken", "guarantee": words[1], "session": int(words[3])}
        return {**said, **numbers_of(line, (words[5], words[6], words[8], words[10], words[11]))}
    where = {"entry": int(words[3])} if words[2] == "forged" else {"dump": int(words[3]), "place": int(words[4])}
    return {"kind": "verdict", "verdict": "refused", **where}


def survey_object(line):
    """The object of a survey's line."""
    said = {"kind": "survey", "session": int(line.split()[1]), "ryw": None, "mr": None, "wfr": None, "mw": None}
    for found in BROKEN.finditer(line):
        said[found[1]] = numbers_of(line, found.groups()[1:])
    return said


def first_line(said, test):
    return next((number for number, line in said if test(line)), None)


def breach_object(said, breach):
    """The object of a breach, with the first lines of the file that show it."""
    session, guarantee, first, second, server, origin, seq = breach
    lines = {"first": first_line(said, lambda line: is_operation(line, session, first)), "second": first_line(said, lambda line: is_operation(line, session, second)),
             "write": first_line(said, lambda line: is_held(line, origin, origin, seq)), "there": first_line(said, lambda line: is_held(line, server, origin, seq))}
    return {"kind": "breach", "guarantee": guarantee, "session": session, "first": first, "second": second, "server": server, "wid": [origin, seq], "lines": lines}


def objects(tries):
    """The objects of an audit say what its lines say."""
    for name, text in audit_files():
        plain = tries.call("audit", "-", text=text)
        done = tries.call("audit", "--json", "-", text=text)
        tries.that("%s: the status is the audit's" % name, (done.returncode, done.stderr), (plain.returncode, plain.stderr))
        verdict, *survey = plain.stdout.decode().split("\n")[:-1] or [""]
        if plain.stderr:
            tries.that("%s: nothing is told" % name, done.stdout, plain.stdout)
            continue
        told = [json.loads(line) for line in done.stdout.decode().split("\n")[:-1]]
        tries.that("%s: an object for each line" % name, told, [verdict_object(verdict), *map(survey_object, survey)])
        more = [json.loads(line) for line in tries.call("audit", "--explain", "--json", "-", text=text).stdout.decode().split("\n")[:-1]]
        tries.that("%s: the same first" % name, more[:len(told)], told)
        said = [(at + 1, json.loads(line)) for at, line in enumerate(text.decode().split("\n")) if line.strip()]
        bare = [line for _, line in said]
        names, servers = [(line[1], line[2][0]) for line in bare if line[0] == "held"], range(bare[0][1])
        audited = {"kind": "audited", "servers": bare[0][1], "entries": sum(line[0] == "entry" for line in bare),
                   "held": [[names.count((server, origin)) for origin in servers] for server in servers]}
        tries.that("%s: what was audited" % name, more[-1], audited)
        rest = more[len(told):-1]
        if not verdict.startswith("judge refused"):
            tries.that("%s: each breach" % name, rest, [breach_object(said, breach) for breach in breaches(survey)])
            continue
        explained = paragraphs(tries.call("audit", "--explain", "-", text=text).stdout[len(plain.stdout):].decode().split("\n")[:-3])
        shown = Shown(tries, name, text.decode().split("\n"), explained[0][1:-1])
        lines = [(shown.of("the entry") + shown.of("the Write"))[0], (shown.of("against") or [None])[0]]
        tries.that("%s: one refusal, of those lines" % name, [(one["kind"], one["line"], one["against"]) for one in rest], [("refusal", *lines)])
        tries.that("%s: its condition" % name, condition_of(explained[0][-1]), rest[0]["condition"])


CONDITIONS = {"place isn't above": "place", "asked for something else": "asks", "another server accepted": "origin", "names the same Write": "again", "it was lost": "lost",
              "another clock or another past": "differs", "never had the database": "database", "its number:": "number", "at most": "counts",
              "of its own server": "own", "its clock:": "clock", "all those before it": "past", "another Write of its name": "other"}


def condition_of(line):
    """The word of the condition that a last line says isn't met."""
    return next((word for said, word in CONDITIONS.items() if said in line), None)
