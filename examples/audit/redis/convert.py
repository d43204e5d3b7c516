"""Makes an audit file of what record.py recorded. Call: convert.py <FILE.raw >FILE.jsonl"""
import json
import sys


def counts(told, servers):
    """What HGETALL told, as a vector: of each server, how many of its Writes the database had."""
    of = dict(zip(told[::2], told[1::2]))
    return [int(of.get(str(server), 0)) for server in range(servers)]


def clock(deps):
    """The clock of a Write that counts these: one more than the greatest of theirs. All Writes of a database stand in one line here, and each counts
    all before it. So the greatest clock is how many they are."""
    return sum(deps) + 1


def entry(line, place, servers):
    """The entry of an answer, at this place of its session."""
    server, (word, key), got = line["server"], line["sent"][:2], line["got"]
    begin = ["entry", line["session"], place, line["asks"], server]
    if "error" in got:
        return begin + ["refused"]
    if word == "GET":
        return begin + ["read", key, counts(got[1], servers)]
    deps = counts(got[0], servers)
    assert got[1] == deps[server] + 1, "the server counts its Write"
    return begin + ["write", got[1], clock(deps), deps]


def dump(server, writes, servers):
    """What a server holds, from its list of Writes: a Write counts those that stand before it."""
    vector = [0] * servers
    for write in writes:
        origin, key, value = write.split(" ", 2)
        origin, deps = int(origin), list(vector)
        vector[origin] += 1
        yield ["held", server, [origin, vector[origin], clock(deps), deps, {"update": [["put", key, value]]}]]


def convert(lines):
    servers = sum("dump" in line for line in lines)
    yield ["servers", servers]
    places = {}
    for line in lines:
        if "session" in line:
            place = places[line["session"]] = places.get(line["session"], 0) + 1
            if "got" in line:  # else no answer came: the place is used up, and there is no entry
                yield entry(line, place, servers)
        elif "dump" in line:
            yield from dump(line["dump"], line["got"], servers)


for made in convert([json.loads(line) for line in sys.stdin]):
    print(json.dumps(made, separators=(",", ":")))
