"""The scripts that are measured, made anew with a fixed seed: lines of JSON, and the command that runs them.

- writes: 65,000 Writes at one server, to 10 keys or to 65,000
- bookings with a fallback: 30,000 Writes with a check and three alternatives
- courses with places: 65,000 Writes that each take a place of a hundred, if one is left: each check counts the keys of one course
- places given back: 30,000 Writes that take a place and give one back
- full programs: 10,000 of the longest Writes that there may be
- many conditions: 15,000 Writes with forty conditions, of which each list fails at its last
- reads, a log of all: 65,000 of each
- restarts: twelve, of up to 60,000 Writes; after late Writes: eight, on journals in which 2,000 Writes stand late
- reopenings: 200 Writes that fail, and are adopted
- a bad last line: 65,000 lines are read, and nothing is run
- servers apart, servers that meet: sixteen servers with a session each; and sixteen that 200 times write, pull around twice, and read
- a pull of 60,000, all sent again: another server takes 60,000 Writes, none of them late; 30,000, and a resend of them
- judged, surveyed, booked: 30,000 operations, and what closes a run
- an audit of 65,536 entries: a file of sixteen servers, all clean
- late Writes, one key or own keys, N: two servers write N times each while they are apart, pull both ways, and one lists all
"""
import json
import random

from limits import CONDITIONS, GUARANTEES, MAX_ALTERNATIVES, MAX_CONDITIONS, MAX_ENTRIES, MAX_OPS, MAX_TEXT_BYTES, MAX_WRITES, SERVERS

ROOMS = 400
PEOPLE = 50
PULLED = 60_000
LATE = [4_000, 8_000, 16_000, 30_000, 32_000]
TWICE = [(4_000, 8_000), (16_000, 32_000)]
LATE_KEYS = ["one key", "own keys"]


def line(*members):
    return json.dumps(members, separators=(",", ":"))


def begin(servers=1, sessions=1):
    yield line("servers", servers, MAX_WRITES)
    for session in range(sessions):
        yield line("session", session, GUARANTEES)


def write(server, program):
    """The session of this number writes at the server of this number."""
    return line("write", server, server, program)


def put(key, value, server=0):
    return write(server, {"update": [["put", key, value]]})


def writes(count, keys):
    yield from begin()
    for at in range(count):
        yield put(f"key{at % keys}", at)


def bookings(count=30_000):
    """Each books a room, or another one, or goes to the waiting list."""
    chance = random.Random(7)
    yield from begin(sessions=SERVERS)
    for at in range(count):
        room, who = chance.randrange(ROOMS), f"p{chance.randrange(PEOPLE)}"
        first, second = f"room/{room}", f"room/{room + ROOMS}"
        wait = [["put", "waiting", ["plus", "waiting", 1]], ["del", first]]
        merge = [
            {"when": [["absent", second]], "ops": [["put", second, who]]},
            {"when": [["atleast", "waiting", 1]], "ops": wait},
            {"ops": [["put", "waiting", 1]]},
        ]
        yield line("write", at % SERVERS, 0, {"check": [["absent", first]], "update": [["put", first, who]], "merge": merge})


def courses(count=65_000, places=100):
    """Each takes a place of a course that has so many, where one is left; of a new course once that is full."""
    yield from begin()
    for at in range(count):
        course = f"course/{at // (places + 10)}/"
        yield write(0, {"check": [["atmost", course, places - 1]], "update": [["put", f"{course}{at}", "taken"]]})


def courses_given_back(count=30_000, places=20):
    """The same of one course, whose places are given back in turn: so most of its keys have no value."""
    yield from begin()
    for at in range(count):
        update = [["put", f"course/{at % 1_000}", at], ["del", f"course/{(at - places) % 1_000}"]]
        yield write(0, {"check": [["atmost", "course/", places]], "update": update})


def roomy(count=40_000):
    """Each puts a key of its own where at most so many are present as there can never be."""
    yield from begin()
    for at in range(count):
        yield write(0, {"check": [["atmost", "", 4_294_967_295]], "update": [["put", f"k{at}", at]]})


def full_programs(count=10_000):
    """The longest Writes that may be, with keys and texts of 32 bytes."""
    keys = [f"k{at:031}" for at in range(MAX_OPS)]
    ops = [["put", key, "v" * MAX_TEXT_BYTES] for key in keys]
    alternative = {"when": [["equals", key, "w" * MAX_TEXT_BYTES] for key in keys], "ops": ops}
    program = {"check": [["absent", key] for key in keys], "update": ops, "merge": [alternative] * MAX_ALTERNATIVES}
    yield from begin()
    for _ in range(count):
        yield write(0, program)


def failing(kind, last):
    """Conditions of these kinds in turn, all of which hold but the last."""
    holding = {"absent": ["absent", "free"], "equals": ["equals", "name", "ann"], "atleast": ["atleast", "seats", 1], "atmost": ["atmost", "free", 0]}
    kinds = [CONDITIONS[(kind + at) % len(CONDITIONS)] for at in range(MAX_CONDITIONS - 1)]
    return [holding[word] for word in kinds] + [last]


def conditions(count=15_000):
    """Programs of many conditions, of which each list fails at its last."""
    yield from begin()
    yield put("name", "ann")
    yield put("seats", 5)
    check = failing(0, ["atleast", "seats", 2**40])
    lasts = [["equals", "name", "ben"], ["absent", "seats"], ["atleast", "name", 0], ["equals", "free", 1]]
    merge = [{"when": failing(at, last), "ops": [["del", "name"]]} for at, last in enumerate(lasts)]
    for _ in range(count):
        yield write(0, {"check": check, "update": [["del", "seats"]], "merge": merge})


def reads(count=65_000, keys=100, asked=120):
    yield from begin()
    for at in range(keys):
        yield put(f"key{at}", f"value {at}")
    for at in range(count):
        yield line("read", 0, 0, f"key{at % asked}")


def log(count=65_000):
    yield from writes(count, 1_000)
    yield line("log", 0)


def restarts(count=60_000, each=5_000):
    yield from begin()
    for at in range(count):
        yield line("restart", 0) if at % each == each - 1 else put(f"key{at % 100}", at)


def reopenings(count=200, between=100):
    yield from begin()
    for _ in range(count):
        for at in range(between):
            yield put(f"key{at}", at)
        yield line("fuse", 0, 2, 0)
        yield put("last", 1)
        yield line("reopen", 0)


def bad_last_line(count=65_000):
    yield from writes(count, 10)
    yield line("read", 0, 0, "A")


def apart(count, keys):
    """Two servers write so often each, without a pull; to the same key, or each to keys of its own."""
    yield from begin(2, 2)
    for at in range(count):
        for server in range(2):
            yield put("key" if keys == "one key" else f"key{server}-{at}", at, server)


def late(count, keys):
    """Then they pull both ways: each takes Writes whose places are among its own."""
    yield from apart(count, keys)
    yield line("pull", 1, 0)
    yield line("pull", 0, 1)
    yield line("log", 1)


def late_restarts(count=2_000, restarted=4):
    """The servers are restarted on journals in which Writes stand late."""
    yield from late(count, "own keys")
    for _ in range(restarted):
        for server in range(2):
            yield line("restart", server)


def unpulled(count=PULLED):
    """One server's Writes, which the next script has another server take."""
    yield from begin(2)
    for at in range(count):
        yield put(f"key{at % 1_000}", at)


def pulled(count=PULLED):
    yield from unpulled(count)
    yield line("pull", 1, 0)


def resent(count=30_000):
    yield from pulled(count)
    yield line("resend", 1, 0)


def many_servers(count=65_000 - SERVERS):
    """Servers that are apart, with a session each, which reads and writes there in turn."""
    yield from begin(SERVERS, SERVERS)
    for at in range(count):
        server, key = at % SERVERS, f"key{at % 100}"
        yield put(key, at, server) if at // SERVERS % 2 else line("read", server, server, key)


def meetings(rounds=200, each=8):
    """All servers write, pull around twice, so that all have all, and read."""
    yield from begin(SERVERS, SERVERS)
    for turn in range(rounds):
        for at in range(each * SERVERS):
            yield put(f"key{at}", turn, at % SERVERS)
        for server in list(range(SERVERS)) * 2:
            yield line("pull", (server + 1) % SERVERS, server)
        for server in range(SERVERS):
            yield line("read", server, server, f"key{turn % SERVERS}")
    yield line("log", 0)


def judged(count=30_000):
    """A run that is judged, surveyed and printed as a book."""
    yield from begin(2, 2)
    for at in range(count):
        yield put(f"key{at % 100}", at) if at % 2 else line("read", 0, 0, f"key{at % 100}")
    yield line("pull", 1, 0)
    for word in ["judge", "survey", "book"]:
        yield line(word)


def audit_file(entries=MAX_ENTRIES, reads_each=15):
    """Servers that meet after each round: in each a session of each writes, and then reads so often. Each dump has all Writes."""
    rounds = entries // (SERVERS * (1 + reads_each))
    yield line("servers", SERVERS)
    for turn in range(1, rounds + 1):
        for server in range(SERVERS):
            place = (turn - 1) * (1 + reads_each) + 1
            yield line("entry", server, place, GUARANTEES, server, "write", turn, turn, [turn - 1] * SERVERS)
            for read in range(1, reads_each + 1):
                yield line("entry", server, place + read, GUARANTEES, server, "read", "room", [turn] * SERVERS)
    for holder in range(SERVERS):
        for turn in range(1, rounds + 1):
            for other in range(SERVERS):
                origin, program = (holder + other) % SERVERS, {"update": [["put", "room", turn]]}
                yield line("held", holder, [origin, turn, turn, [turn - 1] * SERVERS, program])


def late_name(count, keys):
    return f"late Writes, {keys}, {count:,}"


SCRIPTS = {
    "writes to 10 keys": ("run", lambda: writes(65_000, 10)),
    "writes to 65,000 keys": ("run", lambda: writes(65_000, 65_000)),
    "bookings with a fallback": ("run", bookings),
    "courses with places": ("run", courses),
    "places given back": ("run", courses_given_back),
    "room for all": ("run", roomy),
    "full programs": ("run", full_programs),
    "many conditions": ("run", conditions),
    "reads": ("run", reads),
    "a log of all": ("run", log),
    "restarts": ("run", restarts),
    "restarts behind late Writes": ("run", late_restarts),
    "reopenings": ("run", reopenings),
    "a bad last line": ("run", bad_last_line),
    "servers apart": ("run", many_servers),
    "servers that meet": ("run", meetings),
    "no pull of 60,000": ("run", unpulled),
    "a pull of 60,000": ("run", pulled),
    "all sent again": ("run", resent),
    "judged, surveyed, booked": ("run", judged),
    "an audit of 65,536 entries": ("audit", audit_file),
    **{late_name(count, keys): ("run", lambda count=count, keys=keys: late(count, keys)) for count in LATE for keys in LATE_KEYS},
}
