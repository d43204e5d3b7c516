"""What `bayou audit --picture` draws of a file, read again from the file alone: a picture is XML that fetches nothing, each breach of the survey is drawn once and
no other, each mark is a line of the file, and a picture is there whole or not at all."""
import json
import os
import random
import re
import tempfile
import xml.etree.ElementTree as xml

from explained import audit_files, breaches, cut

SVG = "{http://www.w3.org/2000/svg}"
# Of more operations, or Writes of a server, only what a breach touches is drawn.
MOST_WHOLE = 60
TAGS = {SVG + tag for tag in ("svg", "style", "rect", "line", "circle", "path", "text", "title", "g")}
HOSTILE = ["<script>alert(1)</script>", "a\"b'c&d]]>", "<!--", "&lt;&#60;", "\u0001\u007f\u2028\ufffe\uffff", "]]><svg onload=x>", "%s{}$(x)`"]


def history(seed, servers, sessions, operations, pulls):
    """A history at random, of servers that keep to the rules, and sessions that go anywhere; values are hostile."""
    chance, writes, dumps, place, entries = random.Random(seed), {}, [[] for _ in range(servers)], [0] * sessions, []

    def counts(dump):
        return [sum(origin == server for origin, _ in dump) for server in range(servers)]

    while len(entries) < operations:
        server = chance.randrange(servers)
        if chance.random() < pulls:
            lacked = [wid for wid in dumps[chance.randrange(servers)] if wid not in dumps[server]]
            dumps[server] += lacked[:chance.randrange(1, 4)]
            continue
        session, kind, held = chance.randrange(sessions), chance.random(), counts(dumps[server])
        place[session] += 1
        head = ["entry", session, place[session], ["ryw", "mr", "wfr", "mw"][:session % 5], server]
        if kind < .45:
            wid = (server, held[server] + 1)
            clock = max([writes[other][0] for other in dumps[server]], default=0) + 1
            writes[wid] = (clock, held, {"update": [["put", "room%d" % chance.randrange(9), chance.choice(HOSTILE)]]})
            dumps[server].append(wid)
            entries.append(head + ["write", wid[1], clock, held])
        else:
            entries.append(head + (["read", "room%d" % chance.randrange(9), held] if kind < .95 else ["refused"]))
    lines = [["servers", servers], *entries]
    lines += [["held", server, [*wid, *writes[wid]]] for server in range(servers) for wid in dumps[server]]
    return "".join(json.dumps(line, separators=(",", ":"), ensure_ascii=False) + "\n" for line in lines).encode()


def texts():
    """Each audit file of examples/ and tests/, and histories at random, by name."""
    yield from audit_files()
    for seed in range(12):
        yield "history %d" % seed, history(seed, 2 + seed % 4, 1 + seed % 6, 10 + 9 * seed, .25)
    yield "a large history", history(77, 4, 6, 400, .3)


def line_hint(number, line):
    return "line %d  %s" % (number, "".join("?" if character in "\ufffe\uffff" else character for character in cut(line)))


def is_touched(said, breach, later):
    """Whether the breach touches what a line says: one of its operations, its Write where its own server and the one where it is missing hold it, or the later
    Write there."""
    session, _, first, second, server, origin, seq = breach
    if said[0] == "entry":
        return said[1] == session and said[2] in (first, second)
    return said[0] == "held" and ((said[1] in (origin, server) and said[2][:2] == [origin, seq]) or (said[1] == server and said[2][:2] == later))


def later_of(lines, breach):
    """The name of the Write that the later operation is, or None."""
    for said in lines:
        if said[0] == "entry" and said[1] == breach[0] and said[2] == breach[3]:
            return [said[4], said[6]] if said[5] == "write" else None
    return None


def bad_line(said, verdict):
    """The number of the line that a refused verdict names."""
    kind, *numbers = verdict.split()[2:]
    if kind == "forged":
        return [number for number, line in said if line[0] == "entry"][int(numbers[0])]
    return [number for number, line in said if line[0] == "held" and line[1] == int(numbers[0])][int(numbers[1])]


def drawn_lines(text, found, verdict):
    """The hints of the operations and of the Writes that must be drawn, in their order."""
    lines = text.decode().split("\n")
    said = [(at + 1, json.loads(line)) for at, line in enumerate(lines) if line.strip()]
    entries = [number for number, line in said if line[0] == "entry"]
    held = [[number for number, line in said if line[0] == "held" and line[1] == server] for server in range(16)]
    whole = len(entries) <= MOST_WHOLE and max(map(len, held)) <= MOST_WHOLE
    bad = bad_line(said, verdict) if verdict.startswith("judge refused") else None
    laters = [(breach, later_of([line for _, line in said], breach)) for breach in found]

    def is_drawn(number, line):
        return whole or number == bad or any(is_touched(line, breach, later) for breach, later in laters)

    shown = [(line[0], line_hint(number, lines[number - 1])) for number, line in said if line[0] != "servers" and is_drawn(number, line)]
    return [hint for kind, hint in shown if kind == "entry"], [hint for kind, hint in shown if kind == "held"]


def breach_of(group):
    """The breach that a group says it is."""
    said = {name: group.get("data-" + name) for name in ("session", "guarantee", "first", "second", "server", "wid")}
    return (int(said["session"]), said["guarantee"], int(said["first"]), int(said["second"]), int(said["server"]), *map(int, said["wid"].split(":")))


def tell_of(tries, name, picture, text, plain):
    """Whether the picture is of the file."""
    root = xml.fromstring(picture)
    verdict, *survey = plain.decode().split("\n")[:-1]
    found = [] if verdict.startswith("judge refused") else list(breaches(survey))
    tries.that("%s: nothing but shapes" % name, {element.tag for element in root.iter()} - TAGS, set())
    style = root.find(SVG + "style").text
    tries.that("%s: nothing is fetched" % name, re.findall(r"url\(|@import|href|javascript", style + " ".join(
        key + value for element in root.iter() for key, value in element.attrib.items()), re.I), [])
    groups = [element for element in root if element.get("class") == "breach"]
    tries.that("%s: each breach once, and no other" % name, [breach_of(group) for group in groups], found)
    tries.that("%s: an arc, a ring and a bar of each" % name,
               [sum((shape.get("class") or "").split(" ")[0] == kind for shape in group) for group in groups for kind in ("arc", "ring", "gap")], [1] * 3 * len(groups))
    boxes = [shape for shape in root if shape.tag == SVG + "rect" and shape.find(SVG + "title") is not None]
    entries, held = drawn_lines(text, found, verdict)
    tries.that("%s: each mark is a line" % name, [box.find(SVG + "title").text for box in boxes], entries + held)
    tries.that("%s: what can't be true" % name, sum(shape.get("class") == "wrong" for shape in root), int(verdict.startswith("judge refused")))
    width, height = int(root.get("width")), int(root.get("height"))
    tries.that("%s: nothing is outside" % name, [shape.attrib for shape in root.iter(SVG + "rect") if int(shape.get("x")) + int(shape.get("width")) > width
                                                or int(shape.get("y")) + int(shape.get("height")) > height], [])


def pictures(tries):
    with tempfile.TemporaryDirectory() as room:
        for at, (name, text) in enumerate(texts()):
            file, out = os.path.join(room, "%d <&\"'>.jsonl" % at), os.path.join(room, "%d <&\"'>.svg" % at)
            with open(file, "wb") as it:
                it.write(text)
            plain = tries.call("audit", file)
            done = tries.call("audit", "--picture", out, file)
            tries.that("%s: what an audit prints, and nothing else" % name, (done.stdout, done.stderr, done.returncode), (plain.stdout, plain.stderr, plain.returncode))
            there = sorted(it for it in os.listdir(room) if it.startswith("%d " % at))
            tries.that("%s: a picture, where there is something to draw" % name, there, sorted([os.path.basename(file)] + [os.path.basename(out)] * (not plain.stderr)))
            if plain.stderr:
                continue
            with open(out, "rb") as it:
                picture = it.read()
            tell_of(tries, name, picture, text, plain.stdout)
            heading = [element.text for element in xml.fromstring(picture) if element.get("class") == "heading"]
            tries.that("%s: its name" % name, heading, [cut(file)])
        whole(tries, room)


def whole(tries, room):
    """A picture is there whole or not at all, and never over its own file."""
    file, out = os.path.join(room, "one.jsonl"), os.path.join(room, "one.svg")
    text = history(3, 3, 3, 30, .2)
    with open(file, "wb") as it:
        it.write(text)
    plain = tries.call("audit", file)
    both = tries.call("audit", "--explain", "--picture", out, file)
    tries.that("explained and drawn", (both.stdout, both.stderr), (tries.call("audit", "--explain", file).stdout, b""))
    with open(out, "rb") as it:
        first = it.read()
    with open(out, "wb") as it:
        it.write(b"what was there before " * 10000)
    tries.call("audit", "--picture", out, file)
    with open(out, "rb") as it:
        tries.that("over what was there", it.read(), first)
    standard = tries.call("audit", "--picture", out, "-", text=text)
    with open(out, "rb") as it:
        tries.that("of the standard input", (it.read(), standard.stdout), (first.replace(cut(file).encode(), b"-"), plain.stdout))
    nowhere = os.path.join(room, "nowhere", "one.svg")
    done = tries.call("audit", "--picture", nowhere, file)
    tries.that("no such folder", (done.returncode, done.stdout, done.stderr.decode()),
               (3, plain.stdout, "bayou: picture\n  %s: No such file or directory (os error 2)\n" % nowhere))
    folder = os.path.join(room, "folder")
    os.mkdir(folder)
    done = tries.call("audit", "--picture", folder, file)
    tries.that("a folder", (done.returncode, done.stdout, done.stderr.startswith(b"bayou: picture\n  ")), (3, plain.stdout, True))
    tries.that("no part of it is left", [it for it in os.listdir(room) if it.endswith(".part")], [])
    done = tries.call("audit", "--picture", file, file)
    with open(file, "rb") as it:
        tries.that("over itself", (done.returncode, done.stdout, done.stderr, it.read()), (2, b"", b"bayou: --picture names the file that is audited\n", text))
