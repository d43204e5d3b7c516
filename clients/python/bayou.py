"""A client of Bayou servers, with the standard library alone. Copy it into your program, and bayou_views.py with it.

    import bayou

    session = bayou.Session(["127.0.0.1:7000", "127.0.0.1:7001"], asks=["ryw", "mr"])
    session.write({"update": [["put", "room/9", "kim"]]})
    print(session.read("room/9"))
    print(session.list("room/"))

A session keeps what it wrote and read as two vectors, and so is never served an older state than it asked for (docs/GUARANTEES.md). It isn't for
several threads at once. Servers are those of `bayou serve` (docs/SERVE.md); the bytes are those of docs/PROTOCOL.md and docs/FORMATS.md.
"""
import contextlib
import functools
import hashlib
import hmac
import os
import random
import re
import socket
import struct
import time
import warnings
from typing import Any, Callable, Dict, Iterable, List, Optional, Sequence, Tuple, Union

import bayou_views
from bayou_views import Change, join as _join  # noqa: F401

# What a key has, what is reported of a Write, and what a program is written as.
Value = Union[int, str]
Vector = Tuple[int, ...]
Program = Dict[str, list]
Path = Union[str, "os.PathLike[str]"]

SERVERS = 16
SESSIONS = 32
MAX_NUMBER = 2**32 - 1
ASKS = ("ryw", "mr", "wfr", "mw")

_READ, _REOPEN, _DUMP, _OFFER, _WRITE = 0x01, 0x03, 0x04, 0x05, 0x06
_SEEN, _ACCEPTED, _REFUSED, _REOPENED, _ITEM, _END = 0x11, 0x12, 0x13, 0x14, 0x15, 0x16
_HELLO, _PROOF, _WELCOME, _KNOWN = 0x20, 0x21, 0x30, 0x31
_LIST, _BECAME, _OUTCOME, _LISTED = 0x22, 0x23, 0x33, 0x35
# The version of greetings that is spoken; what a Hello says where any server is asked, or a client asks; how many bytes a nonce and a proof have.
_VERSION, _ANY, _NONCE, _PROVED = 2, 255, 16, 32
_KEY_BYTES = frozenset(b"abcdefghijklmnopqrstuvwxyz0123456789._-/")
_ZERO = (0,) * SERVERS
_MAX_COUNT = 65_536
_MAX_FRAME = 8_192
_MAX_WRITE = 5_844
_MAX_TEXT = 32
# How many rows a page has at the most, and all pages of a listing: a server holds so many Writes, of which each changes eight keys at the most.
_PAGE_ROWS, _MAX_ROWS = 121, 8 * _MAX_COUNT
# What a file begins with in which sessions are kept, how many bytes its entries have at the most, and after how many of them it is written anew.
_HEADER, _DIGEST, _MAX_BODY, _MAX_KEPT = b"BAYOUJNL\x03\x00", 32, 8_192, 65_536
# More bytes than a file of views has.
_MAX_VIEWS = 65_536
# How many keys a claim has at the most: one, and an alternative for each other.
_CLAIMED = 5
# For so long a server that was silent is asked after all others.
_SILENT_SECONDS = 60
# A reply is to come whole within the timeout, the connection too, and within a second more for each so many bytes of it that came.
_SLOWEST_BYTES = 4_096


class BayouError(Exception):
    """Whatever goes wrong between a session and a server."""


class BadRequest(BayouError, ValueError):
    """What is asked for has no bytes: a key, a value or a program is none. Nothing was sent."""


class BadState(BayouError):
    """The file in which sessions are kept is none, is damaged, in use, or of another store, or a call of it failed. A Write that wasn't sent yet isn't sent;
    one that was sent may have been accepted, and `again` of the next session with this file asks it once more."""


class Away(BayouError):
    """No connection to the server came about. Nothing was sent."""


class Stranger(Away):
    """Who answers isn't the server that was asked for, or doesn't prove that it has the key. No request was sent."""


class Older(BayouError):
    """The server is older: it knows no listings."""


class Lost(BayouError):
    """No whole reply came in time, or what came is none: a Write may have been accepted. `again` asks it once more."""


class Refused(BayouError):
    """The server refused; nothing was done, but for `Down` and `JournalFailed`, after which a Write may be in doubt."""


class Down(Refused):
    """A fault of its device took the server down: a Write is in doubt there."""


class Behind(Refused):
    """The server doesn't hold all that the session needs. `vector` is what it holds."""

    def __init__(self, vector: Vector):
        super().__init__("behind at %s" % ",".join(map(str, vector)))
        self.vector = vector


class Full(Refused):
    """The server holds as many Writes as it may."""


class JournalFailed(Refused):
    """The server's device failed. A Write that was asked for is in doubt."""


class NotDown(Refused):
    """The server is up, and has no journal to open again."""


class BadRecord(Refused):
    """The journal has something else behind the Writes that the server holds."""


class JournalLost(Refused):
    """The journal hasn't got all Writes that the server holds."""


class OutOfMemory(Refused):
    """The server had no memory for it."""


class TagUsed(Refused):
    """The server holds another Write under the tag of this one."""


_REFUSALS = {1: Down, 3: Full, 4: JournalFailed, 5: NotDown, 6: BadRecord, 7: JournalLost, 8: OutOfMemory, 9: TagUsed}


class Accepted:
    """A Write that was accepted: its name (`origin`, `seq`), its clock, and what its server held before it."""

    def __init__(self, origin: int, seq: int, clock: int, deps: Vector):
        self.origin, self.seq, self.clock, self.deps = origin, seq, clock, deps

    def __repr__(self) -> str:
        return "Accepted(%d:%d clock %d)" % (self.origin, self.seq, self.clock)


class Outcome:
    """What became of a Write at a server. `became` is "update", "merge" or "none"; of a merge `alternative` says which it was, from 1 on, where 255
    stands for 255 or more. `clock` is the Write's clock."""

    def __init__(self, became: str, alternative: Optional[int], clock: int):
        self.became, self.alternative, self.clock = became, alternative, clock

    def __repr__(self) -> str:
        return "Outcome(%s clock %d)" % (self.became if self.alternative is None else "%s %d" % (self.became, self.alternative), self.clock)


class Listing(Dict[str, Value]):
    """What keys have at a server, in the order of keys. `vector` is what the server held. Where `is_mixed` says so, its database changed while it told
    them: each row was so at some time meanwhile, but not all at one, and the vector is that of the end."""

    vector: Vector = _ZERO
    is_mixed: bool = False


class Changes:
    """What changed since it was asked for last: `rows` has what each such key has now, or None where it is gone. `vector` and `is_mixed` are those of the
    listing that it was seen by."""

    def __init__(self, rows: Dict[str, Optional[Value]], vector: Vector, is_mixed: bool):
        self.rows, self.vector, self.is_mixed = rows, vector, is_mixed

    def __repr__(self) -> str:
        return "Changes(%r)" % (self.rows,)


# Bytes that are sent.

def _key(key, least=1):
    if not isinstance(key, str) or not least <= len(key) <= 32 or not _KEY_BYTES.issuperset(key.encode("utf-8")):
        raise BadRequest("%r is no key" % (key,))
    return bytes([len(key)]) + key.encode("ascii")


def _integer(number, least=-(2**63), most=2**63 - 1):
    if isinstance(number, bool) or not isinstance(number, int) or not least <= number <= most:
        raise BadRequest("%r is no such number" % (number,))
    return number


def _value(value):
    if isinstance(value, str):
        text = value.encode("utf-8")
        if len(text) > 32:
            raise BadRequest("%r has more than 32 bytes" % (value,))
        return b"\x02" + bytes([len(text)]) + text
    return b"\x01" + struct.pack(">q", _integer(value))


def _parts(part, words):
    if not isinstance(part, (list, tuple)) or not part or words.get(part[0]) != len(part):
        raise BadRequest("%r is none of %s" % (part, ", ".join(words)))
    return part


def _term(term):
    if not isinstance(term, (list, tuple)):
        return b"\x01" + _value(term)
    word, key, *more = _parts(term, {"copy": 2, "plus": 3})
    if word == "copy":
        return b"\x02" + _key(key)
    return b"\x03" + _key(key) + struct.pack(">q", _integer(more[0]))


def _op(op):
    word, key, *more = _parts(op, {"put": 3, "del": 2})
    if word == "put":
        return b"\x01" + _key(key) + _term(more[0])
    return b"\x02" + _key(key)


def _condition(condition):
    word, key, *more = _parts(condition, {"equals": 3, "absent": 2, "atleast": 3, "atmost": 3})
    if word == "equals":
        return b"\x01" + _key(key) + _value(more[0])
    if word == "absent":
        return b"\x02" + _key(key)
    if word == "atleast":
        return b"\x03" + _key(key) + struct.pack(">q", _integer(more[0]))
    return b"\x04" + _key(key, 0) + struct.pack(">I", _integer(more[0], 0, MAX_NUMBER))


def _list(one, members, most):
    if not isinstance(members, (list, tuple)) or len(members) > most:
        raise BadRequest("%r is no list of at most %d" % (members, most))
    return bytes([len(members)]) + b"".join(one(member) for member in members)


def _members(value, names):
    if not isinstance(value, dict) or not names.issuperset(value):
        raise BadRequest("%r has other members than %s" % (value, ", ".join(sorted(names))))
    return value


def _alternative(value):
    members = _members(value, {"when", "ops"})
    return _list(_condition, members.get("when", []), 8) + _list(_op, members.get("ops", []), 8)


def program_bytes(program: Program) -> bytes:
    """The bytes of a program, which is as in a line of a script: {"check": [..], "update": [..], "merge": [..]} (docs/LANGUAGE.md)."""
    members = _members(program, {"check", "update", "merge"})
    return (_list(_condition, members.get("check", []), 8) + _list(_op, members.get("update", []), 8)
            + _list(_alternative, members.get("merge", []), 4))


def _claiming(keys, value):
    """The program that sets the first of the keys that is absent to the value."""
    if not isinstance(keys, (list, tuple)) or not 1 <= len(keys) <= _CLAIMED:
        raise BadRequest("%r is no list of 1 to %d keys" % (keys, _CLAIMED))
    _value(value)
    checks, puts = [["absent", key] for key in keys], [["put", key, value] for key in keys]
    others = [{"when": [check], "ops": [put]} for check, put in zip(checks[1:], puts[1:])]
    return {"check": checks[:1], "update": puts[:1], "merge": others}


def _name(accepted):
    """The name of a Write, which may have been accepted just now."""
    if isinstance(accepted, Accepted):
        return accepted.origin, accepted.seq
    if not isinstance(accepted, (list, tuple)) or len(accepted) != 2:
        raise BadRequest("%r is no name of a Write" % (accepted,))
    return _integer(accepted[0], 0, SERVERS - 1), _integer(accepted[1], 1, _MAX_COUNT)


def _vector(vector):
    return struct.pack(">%dI" % SERVERS, *vector)


def _frame(kind, payload=b""):
    return struct.pack(">HB", len(payload) + 1, kind) + payload


class Key:
    """The key of a store, in the file of this name, as `bayou key` makes it: the store's name and its secret."""

    stranger = "it is of another store (%s)"

    def __init__(self, path: Path):
        with open(path, "rb") as file:
            text = file.read(256)
        found = re.fullmatch(rb"bayou-key-1 ([a-z0-9._/-]{1,32}) ([0-9a-f]{64})\n?", text)
        if found is None:
            raise BadRequest("%s is no key of a store" % (path,))
        self.name, self.secret = found.group(1), bytes.fromhex(found.group(2).decode("ascii"))

    def proof(self, role: bytes, *parts: bytes) -> bytes:
        """What proves to have the key, of a server or of a client (docs/FORMATS.md)."""
        return hmac.new(self.secret, role + b"".join(parts), "sha256").digest()

    def label(self) -> bytes:
        """What says beside a file that it is of this store."""
        line = b"bayou-key-1 %s %s" % (self.name, self.secret.hex().encode("ascii"))
        return b"bayou-store-1 %s %s\n" % (self.name, hashlib.sha256(line).hexdigest().encode("ascii"))


class _NoKey:
    """What an open store has in place of a key."""

    name = b""
    stranger = "it wants the key of its store (%s)"

    def proof(self, role, *parts):
        return bytes(_PROVED)


# Bytes that come.

def _none_unless(is_one):
    if not is_one:
        raise Lost("a reply that is none")


class _Payload:
    """What a reply carries. Nothing of it is believed that no server says (docs/FORMATS.md)."""

    def __init__(self, data):
        self.data, self.at = data, 0

    def take(self, form):
        size = struct.calcsize(form)
        _none_unless(len(self.data) - self.at >= size)
        found = struct.unpack_from(form, self.data, self.at)
        self.at += size
        return found

    def end(self):
        _none_unless(self.at == len(self.data))

    def vector(self):
        counts = self.take(">%dI" % SERVERS)
        _none_unless(max(counts) <= _MAX_COUNT)
        return counts

    def name(self):
        origin, seq = self.take(">BI")
        _none_unless(origin < SERVERS and 1 <= seq <= _MAX_COUNT)
        return origin, seq

    def value(self):
        (word,) = self.take(">B")
        if word == 0:
            return None
        if word == 1:
            return self.take(">q")[0]
        _none_unless(word == 2)
        (length,) = self.take(">B")
        _none_unless(length <= _MAX_TEXT)
        try:
            return self.take(">%ds" % length)[0].decode("utf-8")
        except UnicodeDecodeError:
            raise Lost("a reply that is none") from None

    def seen(self):
        return self.value(), self.vector()

    def key(self):
        (length,) = self.take(">B")
        _none_unless(1 <= length <= _MAX_TEXT)
        (key,) = self.take(">%ds" % length)
        _none_unless(_KEY_BYTES.issuperset(key))
        return key.decode("ascii")

    def row(self):
        key, value = self.key(), self.value()
        _none_unless(value is not None)
        return key, value

    def listed(self):
        vector, (more, count) = self.vector(), self.take(">BH")
        _none_unless(more <= 1 and count <= _PAGE_ROWS)
        return vector, more == 1, [self.row() for _ in range(count)]

    def offer(self):
        _none_unless(self.take(">HB") == (1 + 4 * SERVERS, _OFFER))
        return self.vector()

    def request(self):
        """The tag of a request for a Write, and its program as it stands there."""
        length, kind = self.take(">HB")
        size = length - 1 - struct.calcsize(">BII") - 4 * SERVERS
        _none_unless(kind == _WRITE and 0 < size and length <= _MAX_FRAME)
        tag, _ = self.take(">BII"), self.vector()
        return tag, self.take(">%ds" % size)[0]

    def kept(self):
        """What is kept of a session: its number, what it asks for, its place, what it read and wrote, and the Write that it may ask again."""
        version, number, *flags, place, is_asking = self.take(">BBBBBBIB")
        _none_unless(version == 1 and number < SESSIONS and max(flags) <= 1 and is_asking <= 1)
        (server,) = self.take(">B") if is_asking else (0,)
        reads, writes, pending = self.offer(), self.offer(), None
        if is_asking:
            tag, program = self.request()
            _none_unless(server < SERVERS and tag[0] == number and 1 <= tag[1] and 1 <= tag[2] <= place)
            pending = (server, tag, program)
        self.end()
        return number, frozenset(name for name, flag in zip(ASKS, flags) if flag), place, reads, writes, pending

    def outcome(self):
        vector, (word,) = self.vector(), self.take(">B")
        if word == 0:
            return vector, None
        _none_unless(word <= 3)
        alternative = self.take(">B")[0] if word == 2 else None
        (clock,) = self.take(">I")
        _none_unless(alternative != 0 and 1 <= clock <= _MAX_COUNT)
        return vector, Outcome(("update", "merge", "none")[word - 1], alternative, clock)

    def accepted(self):
        origin, seq = self.name()
        (clock,), deps = self.take(">I"), self.vector()
        _none_unless(seq <= clock <= _MAX_COUNT and deps[origin] == seq - 1)
        return Accepted(origin, seq, clock, deps)

    def reopened(self):
        (word,) = self.take(">B")
        _none_unless(word <= 1)
        return self.name() if word else None

    def welcome(self):
        version, server, count, length = self.take(">BBBB")
        name, nonce, proof = self.take(">%ds%ds%ds" % (length, _NONCE, _PROVED))
        return version, server, count, name, nonce, proof

    def known(self):
        vector, limit, (more, without) = self.vector(), self.count(), self.take(">BB")
        _none_unless(more == 0 and (without == _ANY or without < SERVERS))
        return vector, limit, None if without == _ANY else without

    def item(self):
        self.at = len(self.data)
        _none_unless(self.at <= _MAX_WRITE)
        return self.data

    def count(self):
        return self.take(">I")[0]

    def refusal(self):
        (code,) = self.take(">B")
        if code == 2:
            return Behind(self.vector())
        if code == 6:
            return BadRecord("at %d" % self.take(">I"))
        _none_unless(code in _REFUSALS)
        return _REFUSALS[code](_REFUSALS[code].__doc__)


# Which part of what a reply carries is what its server holds.
_VIEWS = {_SEEN: 1, _OUTCOME: 0, _LISTED: 0}
_REPLIES = {_SEEN: _Payload.seen, _ACCEPTED: _Payload.accepted, _REFUSED: _Payload.refusal, _REOPENED: _Payload.reopened, _ITEM: _Payload.item, _END: _Payload.count,
            _WELCOME: _Payload.welcome, _KNOWN: _Payload.known, _OUTCOME: _Payload.outcome, _LISTED: _Payload.listed}


def _place(address):
    host, _, port = address.rpartition(":") if isinstance(address, str) else ("", "", "")
    if not host or not port.isascii() or not port.isdigit() or not 0 < int(port) < 65_536:
        raise BadRequest("%r is no HOST:PORT" % (address,))
    return host.strip("[]"), int(port)


class _Connection:
    """A connection to the server of a place, which is made when it is needed, and anew where the server closed it. With the key of a store, or for want of
    one, the server is greeted over each of them: one that isn't of that store, or isn't of this number, is sent no request."""

    def __init__(self, place, timeout, key, server):
        self.place, self.timeout = place, timeout
        self.key, self.server = key, server
        self.socket = None
        # How many servers the store has, as the server said that was greeted last.
        self.count: Optional[int] = None
        # What came of replies and wasn't read yet, and when the reply is to be there.
        self.came, self.latest = bytearray(), 0.0

    def close(self):
        if self.socket is not None:
            self.socket.close()
        self.socket = None
        self.came.clear()

    def is_open(self):
        """Whether the server hasn't ended the connection: nothing stands there to be read, not even its end. What stands there would be read as the
        next reply."""
        if self.socket is None or self.came:
            return False
        try:
            self.socket.setblocking(False)
            try:
                self.socket.recv(1, socket.MSG_PEEK)
            except BlockingIOError:
                return True
            finally:
                self.socket.settimeout(self.timeout)
        except OSError:
            pass
        return False

    def _connect(self):
        if self.is_open():
            return
        self.close()
        try:
            self.socket = socket.create_connection(self.place, self.timeout)
            self.socket.setsockopt(socket.IPPROTO_TCP, socket.TCP_NODELAY, 1)
        except OSError as error:
            self.close()
            raise Away(str(error)) from None
        if self.key is not None:
            self._greet()

    def _greet(self):
        """Has the server prove that it has the key, and proves the same."""
        nonce = os.urandom(_NONCE)
        asked = _ANY if self.server is None else self.server
        try:
            self.socket.sendall(_frame(_HELLO, bytes([_VERSION, asked, _ANY, 0]) + nonce))
            self._prove(self._welcomed(nonce), nonce)
        except Stranger:
            self.close()
            raise
        except (OSError, Lost) as error:
            self.close()
            raise Stranger("no greeting: %s" % error) from error

    def _prove(self, theirs, nonce):
        """Proves to have the key to a server that knows greetings, whatever it does then."""
        try:
            self.socket.sendall(_frame(_PROOF, self.key.proof(b"client", theirs, nonce) + b"\0"))
            self._greeting(_KNOWN)
        except OSError as error:
            raise Lost(str(error)) from None

    def _greeting(self, kind):
        """What the next frame carries, which is a greeting of this kind."""
        found, carried = self.reply((kind,))
        _none_unless(found == kind)
        return carried

    def _welcomed(self, nonce):
        """What the server drew for this greeting, if it is the one that was asked for, and proves that it has the key."""
        version, server, count, name, theirs, proof = self._greeting(_WELCOME)
        if version != _VERSION:
            raise Stranger("it speaks version %d of the greeting" % version)
        if self.server not in (None, server):
            raise Stranger("it is server %d" % server)
        wanted = self.key.proof(b"server", nonce, theirs, bytes([server, count]))
        if name != self.key.name or not hmac.compare_digest(proof, wanted):
            raise Stranger(self.key.stranger % name.decode("ascii", "replace"))
        self.count = count if server < count <= SERVERS else None
        return theirs

    def reply(self, kinds):
        """The next reply, which is of one of these kinds or a refusal, and what it carries."""
        (length,) = struct.unpack(">H", self._front(2))
        _none_unless(1 <= length <= _MAX_FRAME)
        frame = self._front(2 + length)
        del self.came[:2 + length]
        kind, payload = frame[2], _Payload(frame[3:])
        if kind != _REFUSED and kind not in kinds:
            raise Lost("a reply to something else")
        carried = _REPLIES[kind](payload)
        payload.end()
        return kind, carried

    def _front(self, count):
        """The first so many bytes of what came, or comes in time."""
        while len(self.came) < count:
            left = self.latest - time.monotonic()
            if left <= 0:
                raise Lost("no whole reply in time")
            self.socket.settimeout(left)
            piece = self._piece()
            self.came += piece
            self.latest += len(piece) / _SLOWEST_BYTES
        return bytes(self.came[:count])

    def _piece(self):
        """What comes next. An end in place of a reply is a fault of its own kind: older servers end a connection so."""
        try:
            piece = self.socket.recv(65_536)
        except ConnectionError:
            piece = b""
        if not piece and self.came:
            raise Lost("the connection ended within a reply")
        if not piece:
            raise ConnectionResetError("the connection ended")
        return piece

    def greet(self):
        """Greets the server, unless it was greeted over the connection that there is."""
        self.latest = time.monotonic() + self.timeout
        self._connect()

    @contextlib.contextmanager
    def closed_where_lost(self):
        """Closes the connection where a reply doesn't come whole: what came after it would answer the next request."""
        try:
            yield
        except OSError as error:
            self.close()
            raise Lost(str(error)) from error
        except Lost:
            self.close()
            raise

    def ask(self, request, kinds):
        """The first reply to the request, of which the kind is one of these, and what it carries."""
        self.latest = time.monotonic() + self.timeout
        self._connect()
        with self.closed_where_lost():
            self.socket.sendall(request)
            kind, carried = self.reply(kinds)
        if kind == _REFUSED:
            raise carried
        return kind, carried


class Link:
    """A server, with a connection for requests and one for lookups: it answers no lookup over one over which something else was asked. It is always
    greeted over the second one, and over the first where its store has a key."""

    def __init__(self, address: str, timeout: float = 3.0, key: Optional[Key] = None, server: Optional[int] = None):
        self.address, self.timeout = _place(address), timeout
        self.requests = _Connection(self.address, timeout, key, server)
        self.lookups = _Connection(self.address, timeout, key or _NoKey(), server)
        # Until when it is asked after all others: it was silent.
        self.silent_until = 0.0
        # What hears each vector that the server tells of itself.
        self.hears: Callable[[Vector], None] = lambda vector: None

    def close(self) -> None:
        self.requests.close()
        self.lookups.close()

    def count(self) -> Optional[int]:
        """How many servers the store has, as this one said when it was greeted; None where it wasn't."""
        return self.lookups.count or self.requests.count

    def greet(self) -> None:
        """Has the server say who it is, and how many servers the store has."""
        with self._silent_where_late():
            self.lookups.greet()

    def is_silent(self) -> bool:
        """Whether it was silent for its whole time, less than a minute ago."""
        return time.monotonic() < self.silent_until

    @contextlib.contextmanager
    def _silent_where_late(self):
        """Notes a server that had its whole time and gave no reply."""
        over = time.monotonic() + self.timeout
        try:
            yield
        except (Away, Lost):
            now = time.monotonic()
            if now >= over:
                self.silent_until = now + _SILENT_SECONDS
            raise
        self.silent_until = 0.0

    def _ask(self, connection, request, kinds):
        """The first reply to the request; what it says that the server holds is heard, if it is the server that was asked for: it was greeted over this
        connection, or over another one that is open."""
        vector = None
        try:
            kind, carried = connection.ask(request, kinds)
            vector = carried[_VIEWS[kind]] if kind in _VIEWS else None
        except Behind as behind:
            vector = behind.vector
            raise
        finally:
            if vector is not None and (connection.key is not None or self.lookups.is_open()):
                self.hears(vector)
        return kind, carried

    def ask(self, request: bytes, *kinds: int) -> Tuple[int, Any]:
        """The first reply to the request, of which the kind is one of these, and what it carries."""
        with self._silent_where_late():
            return self._ask(self.requests, request, kinds)

    def look(self, request: bytes, kind: int) -> Any:
        """What the reply to a lookup carries. A server that ends the connection in its place, or in that of a greeting, is asked once more over another,
        which does no harm; if that ends so too, it is an older one."""
        with self._silent_where_late():
            for _ in range(2):
                try:
                    return self._ask(self.lookups, request, (kind,))[1]
                except (Lost, Stranger) as fault:
                    if not isinstance(fault.__cause__, ConnectionError):
                        raise
            raise Older(Older.__doc__)

    def reopen(self) -> Optional[Tuple[int, int]]:
        """Has the server open its journal again, and tells the name of the Write that was adopted, if one was."""
        return self.ask(_frame(_REOPEN), _REOPENED)[1]

    def vector(self) -> Vector:
        """What the server holds."""
        return self.look(_frame(_LIST, _vector(_ZERO) + _key("", 0) + _key("", 0) + struct.pack(">H", 0)), _LISTED)[0]

    def became(self, need: Vector, origin: int, seq: int, clock: Optional[int] = None) -> Tuple[Vector, Optional[Outcome]]:
        """What a server holds that has all of `need`, and what became there of the Write of this name; None where it isn't held. A Write of another
        clock than that is another one, and is `Lost`."""
        vector, outcome = self.look(_frame(_BECAME, _vector(need) + struct.pack(">BI", origin, seq)), _OUTCOME)
        _none_unless((outcome is None) == (vector[origin] < seq))
        _none_unless(outcome is None or seq <= outcome.clock)
        if outcome is not None and clock not in (None, outcome.clock):
            raise Lost("what became of another Write of this name")
        if not bayou_views.covers(vector, need):
            raise Lost("a read of less than was needed")
        return vector, outcome

    def offered(self, vector: Vector) -> List[Accepted]:
        """The Writes that the server holds and the vector doesn't count, in stamp order, each as it was accepted."""
        writes = [_Payload(item).accepted() for item in self._items(_frame(_OFFER, _vector(vector)))]
        stamps = [(write.clock, write.origin) for write in writes]
        _none_unless(all(before < stamp for before, stamp in zip(stamps, stamps[1:])))
        _none_unless(all(write.seq > vector[write.origin] for write in writes))
        return writes

    def dump(self) -> List[bytes]:
        """All Writes that the server holds, in order of receipt, each as its bytes."""
        return self._items(_frame(_DUMP))

    def _items(self, request):
        writes = []
        kind, carried = self.ask(request, _ITEM, _END)
        with self.requests.closed_where_lost():
            while kind == _ITEM and len(writes) < _MAX_COUNT:
                writes.append(carried)
                kind, carried = self.requests.reply((_ITEM, _END))
            if kind != _END or carried != len(writes):
                raise Lost("a dump that isn't whole")
        return writes


# The file in which sessions are kept: a journal, of which the last entry of each session counts (docs/FORMATS.md).

def _link_of(before, body):
    return hashlib.sha256(before + struct.pack(">H", len(body)) + body).digest()


def _entry(before, body):
    return struct.pack(">H", len(body)) + body + _link_of(before, body)


def _body_at(before, data, at):
    """The body of the entry that stands there after that digest, if one does."""
    length = int.from_bytes(data[at:at + 2], "big")
    end = at + 2 + length
    if not 1 <= length <= _MAX_BODY or len(data) < end + _DIGEST:
        return None
    body = data[at + 2:end]
    return body if data[end:end + _DIGEST] == _link_of(before, body) else None


def _chain(data):
    """The bodies of the entries, one after another, the digest of the last, and where they end."""
    bodies, last, at = [], hashlib.sha256(_HEADER).digest(), len(_HEADER)
    body = _body_at(last, data, at)
    while body is not None:
        bodies.append(body)
        last, at = _link_of(last, body), at + 2 + len(body) + _DIGEST
        body = _body_at(last, data, at)
    return bodies, last, at


def _left_of(rest):
    """How many bytes the entry has of which a call that was cut off may have left these: None where they are damage, and 0 where that isn't known."""
    length = int.from_bytes(rest[:2], "big")
    size = 2 + length + _DIGEST
    if len(rest) < 2 or (not any(rest) and len(rest) <= 2 + _MAX_BODY + _DIGEST):
        return 0
    if not 1 <= length <= _MAX_BODY or len(rest) > size:
        return None
    if any(_body_at(rest[at:at + _DIGEST], rest, at + _DIGEST) is not None for at in range(len(rest) - _DIGEST)):
        return None
    return size


def _sync_folder(path):
    folder = os.open(os.path.dirname(path) or ".", os.O_RDONLY)
    try:
        os.fsync(folder)
    finally:
        os.close(folder)


def _locked(path):
    """The file of this name, which is made where it is missing, for its owner alone, and is locked as long as it is open."""
    try:
        import fcntl
    except ImportError:
        raise BadState("%s: no file can be locked here" % path) from None
    file = open(path, "a+b", buffering=0, opener=lambda name, flags: os.open(name, flags, 0o600))
    try:
        fcntl.flock(file, fcntl.LOCK_EX | fcntl.LOCK_NB)
        if not os.path.samestat(os.fstat(file.fileno()), os.stat(path)):
            raise BlockingIOError("another one has its name by now")
        os.fsync(file.fileno())
        _sync_folder(path)
        return file
    except BaseException:
        file.close()
        raise


def _put(file, piece):
    """Adds the piece, if it has any byte, and makes all last."""
    while piece:
        piece = piece[file.write(piece):]
    os.fsync(file.fileno())


def _removed(path):
    with contextlib.suppress(FileNotFoundError):
        os.remove(path)


def _put_whole(path, text):
    """Puts a file in the place of the one of this name that has this text, and makes that last. There is no time when the file isn't whole."""
    part = path + ".part"
    _removed(part)
    with open(part, "xb", buffering=0, opener=lambda name, flags: os.open(name, flags, 0o600)) as file:
        _put(file, text)
    os.rename(part, path)
    _sync_folder(path)


class _State:
    """A file in which sessions are kept, at a store of this key or at an open one: the same as of `bayou connect --state`."""

    def __init__(self, path, key):
        self.path, self.key = os.fsdecode(path), key
        self.file, self.is_down = None, True
        try:
            with self._bad_where_failed():
                self._is_labelled()
                self.file = _locked(self.path)
                self.views = self._views()
                self._open()
                self._label()
        except BaseException:
            self.close()
            raise
        self.is_down = False

    def close(self):
        self.is_down = True
        if self.file is not None:
            self.file.close()

    def _bad(self, why):
        return BadState("%s: %s" % (self.path, why))

    @contextlib.contextmanager
    def _bad_where_failed(self):
        try:
            yield
        except BlockingIOError:
            raise self._bad("it is in use") from None
        except OSError as error:
            raise self._bad(error) from None

    def _is_labelled(self):
        """Whether something beside the file says of which store it is, which must be this one."""
        try:
            with open(self.path + ".store", "rb") as file:
                text = file.read(256)
        except FileNotFoundError:
            return False
        if self.key is not None and text == self.key.label():
            return True
        found = re.fullmatch(rb"bayou-store-1 ([a-z0-9._/-]{1,32}) [0-9a-f]{64}\n", text)
        raise self._bad("it is of the store %s; give its key" % found.group(1).decode("ascii") if found else "its .store says no store")

    def _label(self):
        """Has it say beside the file of which store that is, where that has a key."""
        if self.key is None or self._is_labelled():
            return
        _put_whole(self.path + ".store", self.key.label())

    def _views(self):
        """What is kept beside the file of what servers hold and of what is final."""
        self.kept_views = None
        try:
            with open(self.path + ".views", "rb") as file:
                self.kept_views = file.read(_MAX_VIEWS)
            return bayou_views.Views.of(self.kept_views)
        except FileNotFoundError:
            return bayou_views.Views()
        except bayou_views.NoViews as fault:
            raise self.bad_views("it keeps no views: %s; nothing was changed" % fault) from None

    def bad_views(self, why):
        return BadState("%s.views: %s. Without it only what was known as final is lost" % (self.path, why))

    def keep_views(self, text):
        """Keeps that in its place, and makes it last."""
        self.check()
        if text == self.kept_views:
            return
        self.is_down = True
        with self._bad_where_failed():
            _put_whole(self.path + ".views", text)
        self.kept_views, self.is_down = text, False

    def _open(self):
        """Reads what is kept. What a call left that was cut off is cut, and anything else that isn't as it must be is left as it is."""
        self.file.seek(0)
        data = self.file.readall()
        is_new = len(data) < len(_HEADER) and _HEADER.startswith(data)
        if not is_new and not data.startswith(_HEADER):
            raise self._bad("it keeps no sessions")
        bodies, self.last, end = _chain(_HEADER if is_new else data)
        self._keeps(bodies)
        if is_new:
            self.file.truncate(0)
        elif end < len(data):
            self._cut(data[end:], end)
        _put(self.file, _HEADER if is_new else b"")

    def _keeps(self, bodies):
        try:
            self.sessions = {kept[0]: (kept, body) for kept, body in ((_Payload(body).kept(), body) for body in bodies)}
        except Lost:
            raise self._bad("it keeps no sessions") from None
        self.entries = len(bodies)

    def _cut(self, rest, end):
        size = _left_of(rest)
        if size is None:
            raise self._bad("it is whole up to byte %d, and the %d bytes behind that are damaged; nothing was changed" % (end, len(rest)))
        self.file.truncate(end)
        if len(rest) == size:
            warnings.warn("%s: the last entry is damaged: its %d bytes from byte %d on were dropped" % (self.path, size, end), stacklevel=5)

    def kept(self, number):
        """What is kept of the session of this number, if it was kept."""
        return self.sessions[number][0] if number in self.sessions else None

    def check(self):
        """That something can be kept: after a call that failed nothing is kept any more."""
        if self.is_down:
            raise self._bad("it is closed, or a call of it failed")

    def keep(self, body):
        """Keeps a session after all else, and makes that last."""
        self.check()
        self.is_down = True
        with self._bad_where_failed():
            if self.entries > _MAX_KEPT:
                self._write_anew()
            _put(self.file, _entry(self.last, body))
        kept = _Payload(body).kept()
        self.sessions[kept[0]] = (kept, body)
        self.last, self.entries = _link_of(self.last, body), self.entries + 1
        self.is_down = False

    def _write_anew(self):
        """Puts a file in its place that has the last of each session alone."""
        text, last, part = _HEADER, hashlib.sha256(_HEADER).digest(), self.path + ".part"
        for _, body in self.sessions.values():
            text, last = text + _entry(last, body), _link_of(last, body)
        _removed(part)
        file = _locked(part)
        try:
            _put(file, text)
            os.rename(part, self.path)
        except BaseException:
            file.close()
            raise
        self.file.close()
        self.file, self.last, self.entries = file, last, len(self.sessions)
        _sync_folder(self.path)


class Session(bayou_views.Finality):
    """A session at the servers of these addresses, server 0 first: `None` stands for one that can't be reached from here.

    `asks` says what it asks for, any of "ryw" (Read Your Writes), "mr" (Monotonic Reads), "wfr" (Writes Follow Reads) and "mw" (Monotonic
    Writes). `number` and `run` name its Writes, so that one that is asked again acts once: no two sessions of a store may have the same pair,
    in this program or another. Each is drawn at random where it isn't given. `key` is the file of the store's key, where the store has one: a server that
    doesn't prove that it has it is a `Stranger`. A server that is silent, or drips, is `Lost` after `timeout` seconds, and a
    second more for each 4,096 bytes that came; for a minute it is asked after all others then, where any server may be asked.

    `state` is a file in which the session is kept from one run of a program to the next, the same as of `bayou connect --state`: what the session heard
    is kept before it is returned here, and a Write before it is sent. Its number is 0 there, if none is given, and it asks for what it asked for first. What is
    known as final is kept beside it, in a file of its name and `.views`.
    """

    _name_of, _unanswered = staticmethod(_name), (Away, Lost, Older, Refused)

    def __init__(self, addresses: Sequence[Optional[str]], asks: Optional[Iterable[str]] = None, number: Optional[int] = None, run: Optional[int] = None,
                 timeout: float = 3.0, key: Optional[Path] = None, state: Optional[Path] = None):
        if isinstance(addresses, str):
            raise BadRequest("%r is no list of addresses" % (addresses,))
        if isinstance(asks, str):
            raise BadRequest("what a session asks for is a list of names, as ['ryw', 'mr'], and not %r" % (asks,))
        said = None if asks is None else frozenset(asks)
        if said is not None and not said <= set(ASKS):
            raise BadRequest("%r isn't of %s" % (asks, ", ".join(ASKS)))
        found = None if key is None else Key(key)
        self.links = [None if address is None else Link(address, timeout, found, server) for server, address in enumerate(addresses)]
        self.asks = said or frozenset()
        if number is None:
            number = random.SystemRandom().randint(0, SESSIONS - 1) if state is None else 0
        self.number = _integer(number, 0, SESSIONS - 1)
        self.run = _integer(run, 1, MAX_NUMBER) if run is not None else random.SystemRandom().randint(1, MAX_NUMBER)
        self.place = 0
        self.has_read, self.has_written = _ZERO, _ZERO
        # What the server of the last read held.
        self.seen = None
        # The last Write, where it may still be asked again: its server, its tag and its program's bytes.
        self.pending = None
        # What was listed last of each prefix of which changes were asked for.
        self.listed = {}
        self.state = None if state is None else _State(state, found)
        # What servers told that they hold, and what is final by that.
        self.views = bayou_views.Views() if self.state is None else self.state.views
        for server, link in enumerate(self.links):
            if link is not None:
                link.hears = functools.partial(self._heard, server)
        kept = None if self.state is None else self.state.kept(self.number)
        if kept is not None:
            self._go_on(kept, said)

    def _go_on(self, kept, said):
        """Goes on from where the session was kept. What is said that it asks for is to be what it asked for then."""
        _, self.asks, self.place, self.has_read, self.has_written, self.pending = kept
        if said not in (None, self.asks):
            self.state.close()
            raise BadRequest("the session there asks for %s, and not for %s" % tuple(",".join(sorted(asks)) or "none" for asks in (self.asks, said)))
        if self.pending is not None:
            self.run = self.pending[1][1]

    def _keep(self):
        """Keeps the session as it is, where a file keeps it."""
        if self.state is None:
            return
        flags = bytes(name in self.asks for name in ASKS)
        server, request = b"\0", b""
        if self.pending is not None:
            at, tag, body = self.pending
            server, request = bytes([1, at]), _frame(_WRITE, struct.pack(">BII", *tag) + _vector(_ZERO) + body)
        vectors = _frame(_OFFER, _vector(self.has_read)) + _frame(_OFFER, _vector(self.has_written))
        self.state.keep(bytes([1, self.number]) + flags + struct.pack(">I", self.place) + server + vectors + request)

    @contextlib.contextmanager
    def _kept(self):
        """Keeps what the session heard before anybody else does, also where it heard nothing."""
        try:
            yield
        finally:
            self._keep()

    def _of_another_store(self, why):
        return BayouError("what is known as final: " + why) if self.state is None else self.state.bad_views(why)

    def close(self) -> None:
        for link in self.links:
            if link is not None:
                link.close()
        if self.state is not None:
            with contextlib.suppress(BadState):
                self._keep_views()
            self.state.close()

    def __enter__(self) -> "Session":
        return self

    def __exit__(self, *_: Any) -> None:
        self.close()

    def need(self, of_reads: str, of_writes: str) -> Vector:
        """What a server has to hold, for these guarantees of what was read and of what was written."""
        read = self.has_read if of_reads in self.asks else _ZERO
        written = self.has_written if of_writes in self.asks else _ZERO
        return _join(read, written)

    def _link(self, server):
        if not 0 <= server < len(self.links) or self.links[server] is None:
            raise Away("no address of server %d" % server)
        return self.links[server]

    def _begin(self):
        if self.state is not None:
            self.state.check()
        if self.place == MAX_NUMBER:
            raise BayouError("the session has no place left")
        self.place += 1
        self.pending = None

    def read(self, key: str, server: int = 0) -> Optional[Value]:
        """What the key has at that server: an int, a str, or None."""
        need = self.need("mr", "ryw")
        request = _frame(_READ, _vector(need) + _key(key))
        link = self._link(server)
        self._begin()
        with self._kept():
            _, (value, vector) = link.ask(request, _SEEN)
            self._saw(vector, need)
        return value

    def _saw(self, vector, need):
        """A read was served by a server that held this, and had to hold that."""
        if not all(has >= wants for has, wants in zip(vector, need)):
            raise Lost("a read of less than was needed")
        self.has_read, self.seen = _join(self.has_read, vector), vector

    def write(self, program: Program, server: int = 0) -> Accepted:
        """Has the program accepted as a Write at that server. After `Lost`, and after a refusal, `again` asks for the same Write."""
        body = program_bytes(program)
        self._link(server)
        self._begin()
        self.pending = (server, (self.number, self.run, self.place), body)
        return self.again()

    def again(self) -> Accepted:
        """Asks the last Write again, at its server and under its tag: however often it is asked, it is one Write. There must be one that
        wasn't reported as accepted, and nothing else asked since."""
        if self.pending is None:
            raise BayouError("there is no Write to ask again")
        server, tag, body = self.pending
        # Nothing was read or written since, so that it needs what it needed.
        need = self.need("wfr", "mw")
        request = _frame(_WRITE, struct.pack(">BII", *tag) + _vector(need) + body)
        link = self._link(server)
        self._keep()
        with self._kept():
            _, accepted = link.ask(request, _ACCEPTED)
            self._wrote(accepted, server, need)
        return accepted

    def _wrote(self, accepted, server, need):
        """A Write was accepted, by what was to be this server, which had to hold that."""
        if accepted.origin != server or not all(has >= wants for has, wants in zip(accepted.deps, need)):
            raise Lost("a Write of another server, or before less than was needed")
        self._follow(accepted)
        self.has_written = bayou_views.raised(self.has_written, server, accepted.seq)
        self.pending = None

    def list(self, prefix: str = "", server: int = 0) -> Listing:
        """What the keys have at that server that begin so, as the session's reads have it. It comes in pages, each of which is a read of the session. Where
        the database changes meanwhile it is begun anew, twice at the most."""
        return self._list(prefix, server, None)

    def _list(self, prefix, server, known):
        """A listing; the one that is known, where the server holds what that is of, since what it holds says what keys have."""
        need = self.need("mr", "ryw")
        _key(prefix, 0)
        with self._kept():
            for is_last in (False, False, True):
                listing = self._listed(prefix, server, need, is_last, known)
                if not listing.is_mixed:
                    break
                need = _join(need, listing.vector)
        return listing

    def _listed(self, prefix, server, need, is_last, known):
        """A listing. Where it is mixed it ends there, unless it is the last one."""
        listing = Listing()
        for vector, rows in self._pages(prefix, server, need):
            if not listing and known is not None and not known.is_mixed and known.vector == vector:
                return known
            listing.is_mixed = listing.is_mixed or (bool(listing) and listing.vector != vector)
            listing.vector = vector
            if listing.is_mixed and not is_last:
                break
            listing.update(rows)
            _none_unless(len(listing) <= _MAX_ROWS)
        return listing

    def _pages(self, prefix, server, need):
        """The vector and the rows of each page, of a server that holds what it held at the page before."""
        after, more = "", True
        while more:
            vector, more, rows = self._page(prefix, after, server, need)
            yield vector, rows
            need, after = _join(need, vector), rows[-1][0] if more else ""

    def _page(self, prefix, after, server, need):
        request = _frame(_LIST, _vector(need) + _key(prefix, 0) + _key(after, 0) + struct.pack(">H", _PAGE_ROWS))
        link = self._link(server)
        self._begin()
        vector, more, rows = link.look(request, _LISTED)
        keys = [key for key, _ in rows]
        _none_unless(all(before < key for before, key in zip([after] + keys, keys)))
        _none_unless(all(key.startswith(prefix) for key in keys))
        _none_unless(len(keys) == _PAGE_ROWS or not more)
        self._saw(vector, need)
        return vector, more, rows

    def changes(self, prefix: str = "", server: int = 0) -> Changes:
        """What changed since the last call for that prefix of what the keys have that begin so, by a listing of that server; all at the first call."""
        return self._changed(prefix, self._list(prefix, server, self.listed.get(prefix)))

    def _changed(self, prefix, listing):
        before = self.listed.get(prefix, {})
        rows = {key: listing.get(key) for key in sorted({*before, *listing}) if before.get(key) != listing.get(key)}
        self.listed[prefix] = listing
        return Changes(rows, listing.vector, listing.is_mixed)

    def outcome(self, accepted: Union[Accepted, Tuple[int, int]], server: Optional[int] = None) -> Optional[Outcome]:
        """What became of a Write, which was accepted or has this name, at that server, or else at the one that accepted it: None where it isn't held. It is
        a read of the session. Another server may tell something else, and so may the same one later: the order of Writes is tentative."""
        origin, seq = _name(accepted)
        need, clock = self.need("mr", "ryw"), accepted.clock if isinstance(accepted, Accepted) else None
        link = self._link(origin if server is None else server)
        self._begin()
        with self._kept():
            vector, outcome = link.became(need, origin, seq, clock)
            self._saw(vector, need)
        return outcome

    def claim(self, keys: Sequence[str], value: Value, server: int = 0) -> Optional[str]:
        """Has the first of up to five keys that is absent get the value, by a Write at that server, and tells which one got it there; None where each has
        something else. Where one has the value already, that one is returned, and nothing is written. The answer is tentative, as each outcome is. Where it
        fails, and there is a Write to ask again, ask `again`; then the same claim tells what it got."""
        return self._claim(keys, value, lambda key: self.read(key, server), lambda program: self.write(program, server))

    def _claim(self, keys, value, read, write):
        program = _claiming(keys, value)
        program_bytes(program)
        for key in keys:
            if read(key) == value:
                return key
        return self._claimed(keys, value, write(program))

    def _claimed(self, keys, value, accepted):
        """Which of the keys the claim got that was accepted. At an older server it is the first that has the value."""
        try:
            outcome = self.outcome(accepted)
        except Older:
            return next((key for key in keys if self.read(key, accepted.origin) == value), None)
        if outcome is None:
            raise Lost("a Write isn't held where it was accepted")
        if outcome.became == "none":
            return None
        at = outcome.alternative or 0
        _none_unless(at < len(keys))
        return keys[at]

    def read_anywhere(self, key: str) -> Optional[Value]:
        """What the key has at the first server that is reached and holds what the session needs. A read changes nothing, so that it goes on to the
        next one also where no reply came."""
        return self._anywhere(lambda server: self.read(key, server), is_read=True)

    def write_anywhere(self, program: Program) -> Accepted:
        """Has the program accepted at the first server that takes it. It goes on to the next one only where nothing can have been done."""
        return self._anywhere(lambda server: self.write(program, server), is_read=False)

    def list_anywhere(self, prefix: str = "") -> Listing:
        """What the keys have that begin so, at the first server that is reached, holds what the session needs, and knows listings."""
        return self._anywhere(lambda server: self.list(prefix, server), is_read=True)

    def changes_anywhere(self, prefix: str = "") -> Changes:
        """What changed of them since the last call for that prefix, by a listing of such a server."""
        known = self.listed.get(prefix)
        return self._changed(prefix, self._anywhere(lambda server: self._list(prefix, server, known), is_read=True))

    def claim_anywhere(self, keys: Sequence[str], value: Value) -> Optional[str]:
        """A claim of which each read, and then the Write, is made at the first server that serves it. The server that accepted it says which key got the
        value."""
        return self._claim(keys, value, self.read_anywhere, self.write_anywhere)

    def _anywhere(self, ask, is_read):
        fault = Away("no server has an address")
        servers = [server for server, link in enumerate(self.links) if link is not None]
        for server in sorted(servers, key=lambda server: self.links[server].is_silent()):
            try:
                return ask(server)
            except (JournalFailed, Lost) as doubt:
                if not is_read:
                    raise
                fault = doubt
            except (Away, Older, Refused) as refused:
                fault = refused
        raise fault
