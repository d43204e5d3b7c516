"""Requests, replies and journals as bytes, written from docs/FORMATS.md and docs/PROTOCOL.md alone.

A value is an int or a str. A program is (check, update, merge), merge a list of (when, ops). A vector is a tuple of sixteen counts, a tag (session,
run, number), and a Write (origin, seq, clock, deps, program). What is read is refused with BadBytes where the pages call it a fault.
"""
import hashlib
import struct

SERVERS = 16
SESSIONS = 32
MAX_COUNT = 65536
MAX_FRAME = 8192
MAX_NUMBER = 2**32 - 1
# The version of new journals, and how many bytes a header has.
NEWEST_VERSION = 3
HEADER = 10
ZERO = (0,) * SERVERS
READ, REOPEN, DUMP, OFFER, WRITE = 0x01, 0x03, 0x04, 0x05, 0x06
SEEN, ACCEPTED, REFUSED, REOPENED, ITEM, END = 0x11, 0x12, 0x13, 0x14, 0x15, 0x16
DOWN, BEHIND, LOG_FULL, JOURNAL, NOT_DOWN, BAD_RECORD, LOST, OUT_OF_MEMORY, TAG_USED = range(1, 10)
KEY_BYTES = frozenset(b"abcdefghijklmnopqrstuvwxyz0123456789._-/")


class BadBytes(Exception):
    """The bytes are no frame, or none that may stand here."""


def counts(*first):
    """The vector of these first counts."""
    return tuple(first) + ZERO[len(first):]


def dominates(vector, need):
    return all(has >= wants for has, wants in zip(vector, need))


# What is written.

def vector_bytes(vector):
    return struct.pack(">%dI" % SERVERS, *vector)


def key_bytes(key):
    return bytes([len(key)]) + key.encode("ascii")


def value_bytes(value):
    if isinstance(value, int):
        return b"\x01" + struct.pack(">q", value)
    text = value.encode("utf-8")
    return b"\x02" + bytes([len(text)]) + text


def term_bytes(term):
    word = term[0]
    if word == "lit":
        return b"\x01" + value_bytes(term[1])
    if word == "copy":
        return b"\x02" + key_bytes(term[1])
    return b"\x03" + key_bytes(term[1]) + struct.pack(">q", term[2])


def op_bytes(op):
    if op[0] == "put":
        return b"\x01" + key_bytes(op[1]) + term_bytes(op[2])
    return b"\x02" + key_bytes(op[1])


def condition_bytes(condition):
    word, key = condition[0], key_bytes(condition[1])
    if word == "equals":
        return b"\x01" + key + value_bytes(condition[2])
    if word == "absent":
        return b"\x02" + key
    if word == "atleast":
        return b"\x03" + key + struct.pack(">q", condition[2])
    # (a prefix is spelled as a key is, and may be empty)
    return b"\x04" + key + struct.pack(">I", condition[2])


def list_bytes(one, members):
    return bytes([len(members)]) + b"".join(one(member) for member in members)


def alternative_bytes(alternative):
    when, ops = alternative
    return list_bytes(condition_bytes, when) + list_bytes(op_bytes, ops)


def program_bytes(program):
    check, update, merge = program
    return list_bytes(condition_bytes, check) + list_bytes(op_bytes, update) + list_bytes(alternative_bytes, merge)


def write_bytes(write):
    origin, seq, clock, deps, program = write
    return struct.pack(">BII", origin, seq, clock) + vector_bytes(deps) + program_bytes(program)


def frame(kind, payload=b""):
    return struct.pack(">HB", len(payload) + 1, kind) + payload


def read_request(need, key):
    return frame(READ, vector_bytes(need) + key_bytes(key))


def tag_bytes(tag):
    return struct.pack(">BII", *tag)


def write_request(tag, need, program):
    return frame(WRITE, tag_bytes(tag) + vector_bytes(need) + program_bytes(program))


def offer_request(vector):
    return frame(OFFER, vector_bytes(vector))


def refused(code, more=b""):
    return frame(REFUSED, bytes([code]) + more)


# What is read.

class Bytes:
    """What is left of a payload."""

    def __init__(self, data):
        self.data = data
        self.at = 0

    def take(self, number):
        piece = self.data[self.at:self.at + number]
        if len(piece) < number:
            raise BadBytes("cut")
        self.at += number
        return piece

    def number(self, form):
        return struct.unpack(form, self.take(struct.calcsize(form)))[0]

    def byte(self):
        return self.number(">B")

    def within(self, form, least, most):
        number = self.number(form)
        if not least <= number <= most:
            raise BadBytes("number")
        return number

    def key(self, least=1):
        key = self.take(self.within(">B", least, 32))
        if not KEY_BYTES.issuperset(key):
            raise BadBytes("key")
        return key.decode("ascii")

    def value(self):
        word = self.byte()
        if word == 1:
            return self.number(">q")
        if word != 2:
            raise BadBytes("value")
        try:
            return self.take(self.within(">B", 0, 32)).decode("utf-8")
        except UnicodeDecodeError:
            raise BadBytes("text") from None

    def term(self):
        word = self.byte()
        if word == 1:
            return ("lit", self.value())
        if word == 2:
            return ("copy", self.key())
        if word == 3:
            return ("plus", self.key(), self.number(">q"))
        raise BadBytes("term")

    def op(self):
        word = self.byte()
        if word == 1:
            return ("put", self.key(), self.term())
        if word == 2:
            return ("del", self.key())
        raise BadBytes("op")

    def condition(self):
        word = self.byte()
        if word == 1:
            return ("equals", self.key(), self.value())
        if word == 2:
            return ("absent", self.key())
        if word == 3:
            return ("atleast", self.key(), self.number(">q"))
        if word == 4:
            return ("atmost", self.key(0), self.number(">I"))
        raise BadBytes("condition")

    def list(self, one, most):
        return [one() for _ in range(self.within(">B", 0, most))]

    def alternative(self):
        return (self.list(self.condition, 8), self.list(self.op, 8))

    def program(self):
        return (self.list(self.condition, 8), self.list(self.op, 8), self.list(self.alternative, 4))

    def vector(self):
        return tuple(self.within(">I", 0, MAX_COUNT) for _ in range(SERVERS))

    def wid(self):
        return (self.within(">B", 0, SERVERS - 1), self.within(">I", 1, MAX_COUNT))

    def tag(self):
        return (self.within(">B", 0, SESSIONS - 1), self.within(">I", 1, MAX_NUMBER), self.within(">I", 1, MAX_NUMBER))

    def write(self):
        origin, seq = self.wid()
        return (origin, seq, self.within(">I", 1, MAX_COUNT), self.vector(), self.program())

    def refusal(self):
        code = self.within(">B", DOWN, TAG_USED)
        if code == BEHIND:
            return (code, self.vector())
        if code == BAD_RECORD:
            return (code, self.number(">I"))
        return (code,)

    def optional(self, one, first):
        """Nothing, which is a byte 0; or one of these, which stands after the byte `first` where that is given."""
        if self.data[self.at:self.at + 1] == b"\x00":
            self.at += 1
            return None
        if first is not None and self.byte() != first:
            raise BadBytes("optional")
        return one()


PAYLOADS = {
    READ: lambda left: (left.vector(), left.key()),
    REOPEN: lambda left: (),
    DUMP: lambda left: (),
    OFFER: lambda left: (left.vector(),),
    WRITE: lambda left: (left.tag(), left.vector(), left.program()),
    SEEN: lambda left: (left.optional(left.value, None), left.vector()),
    ACCEPTED: lambda left: (left.wid(), left.within(">I", 1, MAX_COUNT), left.vector()),
    REFUSED: lambda left: (left.refusal(),),
    REOPENED: lambda left: (left.optional(left.wid, 1),),
    ITEM: lambda left: (left.write(),),
    END: lambda left: (left.number(">I"),),
}


def frame_of(kind, payload):
    """What a frame says: its kind, and what it carries."""
    if kind not in PAYLOADS:
        raise BadBytes("kind")
    left = Bytes(payload)
    said = PAYLOADS[kind](left)
    if left.at != len(payload):
        raise BadBytes("trailing")
    return (kind,) + said


def frames_of(data):
    """The frames with which the bytes begin, each with its own bytes, and how they end: 'whole', 'cut' or 'bad'."""
    frames, at = [], 0
    while at < len(data):
        if len(data) - at < 2:
            return frames, "cut"
        length = struct.unpack_from(">H", data, at)[0]
        if not 1 <= length <= MAX_FRAME:
            return frames, "bad"
        behind = at + 2 + length
        if behind > len(data):
            return frames, "cut"
        try:
            frames.append((frame_of(data[at + 2], data[at + 3:behind]), data[at:behind]))
        except BadBytes:
            return frames, "bad"
        at = behind
    return frames, "whole"


# Journals.

def own_record(tag, body):
    """What a journal keeps of a Write of its own server, which was asked for under this tag."""
    return b"\x01" + tag_bytes(tag) + body


def record(server, body):
    """What the server's journal keeps of the Write; of its own, each was asked for by session 0 in run 1, at the place of its number."""
    origin, seq = struct.unpack_from(">BI", body)
    return own_record((0, 1, seq), body) if origin == server else b"\x00" + body


def journal_of(server, writes):
    """The bytes of a journal of these Writes, as bytes, asked for so."""
    return journal(server, [record(server, body) for body in writes])


def journal(server, bodies, version=NEWEST_VERSION):
    """The bytes of a journal of these bodies."""
    header = b"BAYOUJNL" + bytes([version, server])
    parts = [header]
    for body in bodies:
        parts.append(entry(last_digest(parts[-1]), body))
    return b"".join(parts)


def last_digest(whole):
    """The digest that a whole journal's next entry stands after."""
    return hashlib.sha256(whole).digest() if len(whole) == HEADER else whole[-32:]


def entry(digest, body):
    """The entry of this body after that digest."""
    length = struct.pack(">H", len(body))
    return length + body + hashlib.sha256(digest + length + body).digest()
