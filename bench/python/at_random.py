"""Small scripts and audit files at random, each made anew from its number: the same number gives the same lines."""
import json
import random

from limits import CONDITIONS, GUARANTEES, MAX_ALTERNATIVES, MAX_CONDITIONS, MAX_KEYS_COUNTED, MAX_OPS, MAX_TEXT_BYTES, MAX_WRITES, SERVERS, SESSIONS

KEYS = ["a", "b", "seats-left", "room/9", "room/90"]
PREFIXES = ["", "a", "s", "room/", "room/9", "room/9/", "z"]
NUMBERS = [-1, 0, 1, 2, 3, 2**63 - 1, -(2**63)]
TEXTS = ["", "ann", "ben", "\"\\/\b\f\n\r\t\u0001", "\u00e9\u4e16\U0001f600", "v" * MAX_TEXT_BYTES]

# How often each line comes, by what the script is about.
ABOUT = {
    "meetings": {"write": 12, "read": 3, "pull": 6, "cut": 1, "resend": 1, "log": 1},
    "faults": {"write": 10, "read": 2, "pull": 4, "cut": 1, "resend": 1, "fuse": 4, "reopen": 4, "restart": 2, "log": 1},
    "losses": {"write": 8, "pull": 5, "resend": 2, "lose": 2, "restart": 3, "fuse": 1, "reopen": 2, "judge": 1, "log": 1},
    "sessions": {"write": 6, "read": 10, "pull": 3, "session": 2, "judge": 1, "survey": 1, "totals": 1, "phase": 1},
    "retries": {"write": 8, "again": 8, "drop": 4, "read": 1, "pull": 4, "fuse": 2, "reopen": 2, "restart": 2, "lose": 1, "log": 1, "totals": 1},
}

# Lines that are no line of a script, or have no place in one, and some that look so.
WRONG = [
    '["log",0', "[0]", "{}", '["walk",0]', '["log"]', '["log",16]', '["log",0,0]', '["read",0,0,"A"]', '["read",0,0,""]',
    '["read",0,0,1]', '["read",32,0,"a"]', '["session",31,["all"]]', '["session",31,"mr"]', '["servers",1]', '["pull",0,0]',
    f'["pull",0,1,{MAX_WRITES + 1}]', '["fuse",0,0,0]', '["lose",0,1e3]', '["write",0,0,{"updates":[]}]', '["write",0,0,[]]',
    '["write",0,0,{"check":[["absent","a",1]]}]', '["write",0,0,{"update":[["put","a",1.0]]}]',
    '["write",0,0,{"update":[["put","a",9223372036854775808]]}]', '["write",0,0,{"merge":[{},{},{},{},{}]}]',
    '["write",0,0,{"update":[["put","a",1e999]]}]', '["write",0,0,{"merge":[{"when":1,"ops":[["del","A"]]}]}]',
    '["write",0,0,{"update":[["put","B",["plus","a","1"]]],"check":0}]', '["write",0,0,{"update":["a","a","a","a","a","a","a","a","a"]}]',
    '["write",0,0,{"update":[["put","a","' + "v" * (MAX_TEXT_BYTES + 1) + '"]]}]', '["entry",0,1,[],0,"refused"]', '["entry",0,0,[],0,"refused"]',
    '["held",0,[0,1,1,[0],{}]]', '["held",0,0]', "\t", "\r", "[" * 128 + "]" * 128, '["log",01]', '["log",-0]', '"\\ud800"', "\u00e9",
    '["entry",0,1,["mr"],0,"read","A",[0]]', '["entry",0,1,[],0,"read","a",[0,0]]', '["entry",0,1,[],0,"write",1,1,[0,0],0]', '["entry",0,1,[],0,"walk"]',
    '["held",0,[0,1,1,[0,0],{"update":[["del","A"]]}]]', '["held",0,[0,65537,1,[0,0],{}]]', '["held",0,[3,1,1,[0,0],{}]]', '["held",7,[0,1,1,[0,0],{}]]',
    '["write",0,0,{"update":[["put","a",["copy","A"]]]}]', '["write",0,0,{"check":[["atleast","a","1"]]}]', '["servers",0]', '["servers",1,65537]',
    '["again",0]', '["again",1]', '["again",32]', '["again"]', '["again",0,0]', '["drop",0]', '["drop",1]', '["drop","0"]', '["drop",0,0]',
    '["write",0,0,{"check":[["atmost","",0]]}]', '["write",0,0,{"check":[["atmost","A",-1]]}]', '["write",0,0,{"check":[["atmost",0,-1]]}]',
    '["write",0,0,{"check":[["atmost","a",-1]]}]', '["write",0,0,{"check":[["atmost","a",4294967296]]}]', '["write",0,0,{"check":[["atmost","a",1.0]]}]',
    '["write",0,0,{"check":[["atmost","a"]]}]', '["write",0,0,{"check":[["atmost","' + "a" * 33 + '",1]]}]', '["write",0,0,{"check":[["atmost","' + "a" * 32 + '",1]]}]',
    '["phase",0]', '["resend",0]', '["read",0,0,"\\u0061"]', ' [ "log" , 0 ] \r', '["write",0,0,{"check":0,"check":[]}]',
]


# The bytes that spoil a line.
SPOILING = b"""[]{},:"\\'/+-.019eEnu aA\t\r\n\0\x1f\x7f\xc3\xa9\xff"""


def line(*members):
    """A line, in which letters that aren't ASCII stand as they are, or escaped where its members are an odd number."""
    return json.dumps(members, separators=(",", ":"), ensure_ascii=bool(len(members) % 2))


class Maker:
    """Makes the lines of one script."""

    def __init__(self, number):
        self.chance = random.Random(f"script {number}")
        self.about = self.chance.choice(list(ABOUT))
        self.servers = self.chance.choice([1, 2, 2, 2, 3, 3, 4, 8, SERVERS])
        self.sessions = []

    def some(self, make, most):
        return [make() for _ in range(self.chance.choice([0, 1, 1, 2, most]))]

    def key(self):
        return self.chance.choice(KEYS)

    def value(self):
        return self.chance.choice(NUMBERS + TEXTS)

    def condition(self):
        word = self.chance.choice(CONDITIONS)
        if word == "absent":
            return [word, self.key()]
        if word == "atmost":
            return [word, self.chance.choice(PREFIXES), self.chance.choice([0, 1, 2, 3, 4, MAX_KEYS_COUNTED])]
        return [word, self.key(), self.value() if word == "equals" else self.chance.choice(NUMBERS)]

    def term(self):
        kind = self.chance.randrange(4)
        if kind == 0:
            return ["copy", self.key()]
        if kind == 1:
            return ["plus", self.key(), self.chance.choice(NUMBERS)]
        return self.value()

    def op(self):
        return ["del", self.key()] if self.chance.randrange(5) == 0 else ["put", self.key(), self.term()]

    def alternative(self):
        return {"when": self.some(self.condition, 3), "ops": self.some(self.op, 3)}

    def program(self):
        program = {
            "check": self.some(self.condition, MAX_CONDITIONS),
            "update": self.some(self.op, MAX_OPS),
            "merge": self.some(self.alternative, MAX_ALTERNATIVES),
        }
        return {name: members for name, members in program.items() if members or self.chance.randrange(2)}

    def server(self):
        return self.chance.randrange(self.servers)

    def pair(self):
        return self.chance.sample(range(self.servers), 2)

    def open(self):
        name = len(self.sessions)
        self.sessions.append(name)
        asks = [guarantee for guarantee in GUARANTEES if self.chance.randrange(3) == 0]
        return line("session", name, asks)

    def made(self, word):
        """A line of this kind."""
        chance = self.chance
        if word in ("pull", "cut", "resend"):
            if self.servers == 1:
                word = "log"
            else:
                cut = [chance.randrange(6)] if word == "cut" else []
                return line("resend" if word == "resend" else "pull", *self.pair(), *cut)
        if word == "session":
            return self.open() if len(self.sessions) < SESSIONS else line("phase")
        if word == "write":
            return line(word, chance.choice(self.sessions), self.server(), self.program())
        if word == "read":
            return line(word, chance.choice(self.sessions), self.server(), self.key())
        if word == "fuse":
            return line(word, self.server(), chance.choice([1, 1, 2, 2, 3, 4]), chance.choice([0, 1, 40, 8192]))
        if word == "lose":
            return line(word, self.server(), chance.choice([0, 1, 33, 90, 200, 10**9]))
        if word in ("log", "reopen", "restart"):
            return line(word, self.server())
        if word in ("again", "drop"):
            return line(word, chance.choice(self.sessions))
        return line(word)

    def script(self):
        limit = [self.chance.randrange(1, 12)] if self.chance.randrange(6) == 0 else []
        lines = [line("servers", self.servers, *limit)] + [self.open() for _ in range(self.chance.randrange(1, 4))]
        words = ABOUT[self.about]
        count = self.chance.randrange(10, 100)
        lines += [self.made(word) for word in self.chance.choices(list(words), list(words.values()), k=count)]
        lines += [line("log", server) for server in range(self.servers)]
        lines += [line("totals"), line("judge"), line("survey"), line("book")]
        if self.chance.randrange(5) == 0:
            lines.insert(self.chance.randrange(len(lines) + 1), self.chance.choice(WRONG + [""]))
        return lines


def script(number):
    """The lines of the script of this number."""
    return Maker(number).script()


def spoiled(content, number):
    """The bytes of a script, of which one is left out, changed, or has one more before it."""
    chance = random.Random(f"spoiled script {number}")
    at = chance.randrange(len(content))
    more = bytes([chance.choice(SPOILING)]) if chance.randrange(4) else b""
    return content[:at] + more + content[at + chance.randrange(2) :]


def turned(lines, number):
    """The lines of an audit file, in a way in which no system need have written them."""
    chance = random.Random(f"audit file {number}")
    lines = [json.loads(text) for text in lines]
    for _ in range(chance.choice([0, 0, 1, 2])):
        turn_line(chance, lines)
    if chance.randrange(2):
        for members in lines:
            if members[0] == "entry":
                members[3] = GUARANTEES
    return [line(*members) for members in lines]


def turn_line(chance, lines):
    """Leaves a line out, exchanges two, or changes a number."""
    if len(lines) < 3:
        return
    at, other = chance.sample(range(1, len(lines)), 2)
    kind = chance.randrange(4)
    if kind == 0:
        lines.pop(at)
    elif kind == 1:
        exchange(lines, at, other)
    else:
        members = lines[at][2] if lines[at][0] == "held" else lines[at]
        change_number(chance, members)


def exchange(lines, at, other):
    """Two operations of one session are so done in the other order: each has the place of the other."""
    one, two = lines[at], lines[other]
    lines[at], lines[other] = two, one
    if one[0] == two[0] == "entry" and one[1] == two[1]:
        one[2], two[2] = two[2], one[2]


def change_number(chance, members):
    """Makes one number among the members, or in the vector that is one, greater or less by one."""
    vectors = [member for member in members if isinstance(member, list) and member and isinstance(member[0], int)]
    if vectors and chance.randrange(2):
        members = vectors[0]
    places = [place for place, member in enumerate(members) if isinstance(member, int)]
    members[chance.choice(places)] += chance.choice([-1, 1])
