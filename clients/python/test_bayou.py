"""The client at a server that answers as each test says. Call: python3 -m unittest discover clients/python"""
import contextlib
import hashlib
import hmac
import os
import socket
import struct
import tempfile
import threading
import unittest
import unittest.mock
import warnings

import bayou

ZERO = (0,) * bayou.SERVERS


def frame(kind, payload=b""):
    return struct.pack(">HB", len(payload) + 1, kind) + payload


def vector(*first):
    return struct.pack(">%dI" % bayou.SERVERS, *(first + ZERO[len(first):]))


def seen(value, *counts):
    return frame(0x11, value + vector(*counts))


def accepted(origin, seq, clock, *deps):
    return frame(0x12, struct.pack(">BII", origin, seq, clock) + vector(*deps))


NUMBER = b"\x01" + struct.pack(">q", 7)
TEXT = b"\x02\x03kim"
PUT = {"update": [["put", "room", 7]]}


@contextlib.contextmanager
def serving(*replies):
    """The address of a server that gives each request the next of these replies, and the requests that came."""
    requests = []
    with socket.create_server(("127.0.0.1", 0)) as listener:
        def answer():
            with contextlib.suppress(OSError):
                stream, _ = listener.accept()
                with stream:
                    for reply in replies:
                        requests.append(stream.recv(65_536))
                        stream.sendall(reply)
                    stream.recv(1)
        thread = threading.Thread(target=answer, daemon=True)
        thread.start()
        yield "127.0.0.1:%d" % listener.getsockname()[1], requests


class Reads(unittest.TestCase):
    def test_a_read_gives_what_the_key_has(self):
        with serving(seen(NUMBER, 1), seen(TEXT, 1), seen(b"\0", 1)) as (address, _), bayou.Session([address]) as session:
            self.assertEqual([session.read("room") for _ in range(3)], [7, "kim", None])
            self.assertEqual(session.seen[:2], (1, 0))

    def test_a_read_of_less_than_was_seen_is_not_believed(self):
        with serving(seen(NUMBER, 2), seen(NUMBER, 1)) as (address, _), bayou.Session([address], asks=["mr"]) as session:
            session.read("room")
            self.assertRaises(bayou.Lost, session.read, "room")

    def test_the_need_of_a_read_is_what_was_written(self):
        with serving(accepted(0, 1, 1), seen(NUMBER, 1)) as (address, requests), bayou.Session([address], asks=["ryw"]) as session:
            session.write(PUT)
            session.read("room")
            self.assertEqual(requests[1], frame(0x01, vector(1) + b"\x04room"))


class Writes(unittest.TestCase):
    def test_a_write_is_told_with_its_name_and_its_past(self):
        with serving(accepted(0, 3, 9, 2, 4)) as (address, _), bayou.Session([address]) as session:
            told = session.write(PUT)
            self.assertEqual((told.origin, told.seq, told.clock, told.deps[:2]), (0, 3, 9, (2, 4)))

    def test_a_lost_write_is_asked_again_under_its_tag(self):
        with serving(b"") as (address, first), bayou.Session([address], timeout=0.2) as session:
            self.assertRaises(bayou.Lost, session.write, PUT)
            with serving(accepted(0, 1, 1)) as (other, second):
                session.links[0] = bayou.Link(other)
                session.again()
            self.assertEqual(first[0], second[0])
            self.assertRaises(bayou.BayouError, session.again)

    def test_a_write_of_another_server_is_not_believed(self):
        with serving(accepted(1, 1, 1)) as (address, _), bayou.Session([address]) as session:
            self.assertRaises(bayou.Lost, session.write, PUT)

    def test_a_program_that_has_no_bytes_is_not_sent(self):
        with serving() as (address, requests), bayou.Session([address]) as session:
            for program in ({"update": [["put", "Room", 1]]}, {"update": [["put", "room", 2**63]]}, {"update": "put"}, {"merge": [{}] * 5}, {"more": []}):
                self.assertRaises(bayou.BadRequest, session.write, program)
            self.assertEqual(requests, [])


class Refusals(unittest.TestCase):
    def test_each_refusal_has_a_class_of_its_own(self):
        for code, more, kind in ((1, b"", bayou.Down), (2, vector(5), bayou.Behind), (3, b"", bayou.Full), (4, b"", bayou.JournalFailed), (8, b"", bayou.OutOfMemory), (9, b"", bayou.TagUsed)):
            with serving(frame(0x13, bytes([code]) + more)) as (address, _), bayou.Session([address]) as session:
                self.assertRaises(kind, session.write, PUT)

    def test_another_server_is_asked_where_one_is_away_or_behind(self):
        with socket.socket() as closed:
            closed.bind(("127.0.0.1", 0))
            away = "127.0.0.1:%d" % closed.getsockname()[1]
            with serving(frame(0x13, b"\x02" + vector(1))) as (behind, _), serving(seen(TEXT, 2)) as (well, _), bayou.Session([None, away, behind, well]) as session:
                self.assertEqual(session.read_anywhere("room"), "kim")


SECRET = bytes(range(32))
KEY = "bayou-key-1 room " + SECRET.hex()
KNOWN = frame(0x31, vector(1) + struct.pack(">I", 100) + b"\0\xff")


def proof(role, *parts, secret=SECRET):
    return hmac.new(secret, role + b"".join(parts), hashlib.sha256).digest()


@contextlib.contextmanager
def greeting(welcome, *replies):
    """The address of a server that answers a Hello by what `welcome` makes of its nonce, and what comes then by these; and what came."""
    came = []
    with socket.create_server(("127.0.0.1", 0)) as listener:
        def answer():
            with contextlib.suppress(OSError):
                stream, _ = listener.accept()
                with stream:
                    came.append(stream.recv(65_536))
                    stream.sendall(welcome(came[0][7:23]))
                    for reply in replies:
                        came.append(stream.recv(65_536))
                        stream.sendall(reply)
                    came.append(stream.recv(65_536))
        threading.Thread(target=answer, daemon=True).start()
        yield "127.0.0.1:%d" % listener.getsockname()[1], came


def welcome_of(server=0, count=1, name=b"room", nonce=bytes(16), **more):
    def made(theirs):
        proved = proof(b"server", theirs, nonce, bytes([server, count]), **more)
        return frame(0x30, bytes([2, server, count, len(name)]) + name + nonce + proved)
    return made


class Greetings(unittest.TestCase):
    def setUp(self):
        folder = tempfile.TemporaryDirectory()
        self.addCleanup(folder.cleanup)
        self.key = os.path.join(folder.name, "room.key")
        with open(self.key, "w") as file:
            file.write(KEY + "\n")

    def test_a_server_that_has_the_key_is_asked(self):
        with greeting(welcome_of(), KNOWN, seen(NUMBER, 1)) as (address, came), bayou.Session([address], key=self.key) as session:
            self.assertEqual(session.read("room"), 7)
            nonce = came[0][7:23]
            self.assertEqual(came[0], frame(0x20, bytes([2, 0, 255, 0]) + nonce))
            self.assertEqual(came[1], frame(0x21, proof(b"client", bytes(16), nonce) + b"\0"))

    def test_a_server_that_has_it_not_is_sent_no_proof_and_no_request(self):
        wrong = [welcome_of(secret=bytes(32)), welcome_of(name=b"other"), welcome_of(server=1), lambda nonce: frame(0x30, bytes([2, 0, 1, 0]) + bytes(48)),
                 lambda nonce: frame(0x30, bytes([1, 0, 1, 4]) + b"room" + bytes(16) + proof(b"server", nonce, bytes(16), bytes([0, 1]))),
                 lambda nonce: frame(0x13, b"\1"), lambda nonce: KNOWN, lambda nonce: b"", lambda nonce: welcome_of()(nonce)[:-1]]
        for welcome in wrong:
            with greeting(welcome) as (address, came), bayou.Session([address], key=self.key, timeout=0.2) as session:
                self.assertRaises(bayou.Stranger, session.write, PUT)
                self.assertEqual([text[2:3] for text in came if text], [b"\x20"])

    def test_a_server_that_does_not_let_it_in_is_sent_no_request(self):
        with greeting(welcome_of(), b"") as (address, _), bayou.Session([address], key=self.key, timeout=0.2) as session:
            self.assertRaises(bayou.Stranger, session.write, PUT)

    def test_a_file_that_is_no_key_is_refused(self):
        for text in ("", "room", KEY[:-1], KEY + "\n\n", KEY.upper(), KEY.replace("room", "Room"), KEY.replace("-1", "-2")):
            with open(self.key, "w") as file:
                file.write(text)
            self.assertRaises(bayou.BadRequest, bayou.Session, ["127.0.0.1:1"], key=self.key)


def listed(rows, *counts, more=0, number=None):
    """A page of these rows, of which the values are bytes or numbers."""
    told = b"".join(bytes([len(key)]) + key.encode() + (value if isinstance(value, bytes) else b"\x01" + struct.pack(">q", value)) for key, value in rows)
    return frame(0x35, vector(*counts) + struct.pack(">BH", more, len(rows) if number is None else number) + told)


def became(what, *counts):
    return frame(0x33, vector(*counts) + what)


def clock(number):
    return struct.pack(">I", number)


BEHIND = frame(0x13, b"\x02" + vector(1))


def open_welcome(nonce, server=0):
    return frame(0x30, bytes([2, server, 1, 0]) + bytes(16) + bytes(32))


class Fake:
    """A server that answers requests by the next of these replies, and lookups, over a connection over which it was greeted, by the next of those. Where
    a reply is None, or there is none left, it ends the connection in its place, and after one that stands in a list. A reply may be a function without
    arguments."""

    def __init__(self, requests=(), lookups=(), welcome=open_welcome, known=KNOWN):
        self.replies = {"requests": iter(requests), "lookups": iter(lookups)}
        self.came = {"requests": [], "lookups": []}
        self.welcome, self.known, self.connections = welcome, known, 0

    def __enter__(self):
        self.listener = socket.create_server(("127.0.0.1", 0))
        self.address = "127.0.0.1:%d" % self.listener.getsockname()[1]
        threading.Thread(target=self.serve, daemon=True).start()
        return self

    def __exit__(self, *_):
        # To close it alone doesn't end an accept.
        with contextlib.suppress(OSError):
            self.listener.shutdown(socket.SHUT_RDWR)
        self.listener.close()

    def serve(self):
        with contextlib.suppress(OSError):
            while True:
                stream, _ = self.listener.accept()
                self.connections += 1
                threading.Thread(target=self.answer, args=(stream,), daemon=True).start()

    def answer(self, stream):
        with contextlib.suppress(OSError), stream:
            kind, text = "requests", stream.recv(65_536)
            if text[2:3] == b"\x20":
                kind = "lookups"
                for reply in (self.welcome and self.welcome(text[7:23]), self.known):
                    if reply is None:
                        return
                    stream.sendall(reply)
                    text = stream.recv(65_536)
            while text:
                self.came[kind].append(text)
                reply = next(self.replies[kind], None)
                if callable(reply):
                    reply = reply()
                if reply is None:
                    return
                if isinstance(reply, list):
                    stream.sendall(reply[0])
                    return
                stream.sendall(reply)
                text = stream.recv(65_536)


FIRST = [("k%03d" % number, number) for number in range(121)]
REST = [("l", TEXT), ("m", 2)]


def asked(prefix, after, *need):
    return frame(0x22, vector(*need) + bytes([len(prefix)]) + prefix.encode() + bytes([len(after)]) + after.encode() + struct.pack(">H", 121))


class Listings(unittest.TestCase):
    def test_a_listing_has_what_each_key_has(self):
        with Fake(lookups=[listed([("a", 7), ("b/1", TEXT)], 2, 1), listed([])]) as server, bayou.Session([server.address]) as session:
            listing = session.list()
            self.assertEqual(list(listing.items()), [("a", 7), ("b/1", "kim")])
            self.assertEqual((listing.vector[:3], listing.is_mixed), ((2, 1, 0), False))
            self.assertEqual((session.has_read[:2], session.seen[:2], session.place), ((2, 1), (2, 1), 1))
            self.assertEqual(session.list("b/"), {})
            self.assertEqual(server.came["lookups"], [asked("", ""), asked("b/", "")])

    def test_a_listing_needs_what_a_read_of_the_session_needs(self):
        with Fake([accepted(0, 1, 1)], [listed([("room", 7)], 1), BEHIND, listed([], 1)]) as server, bayou.Session([server.address], asks=["ryw"]) as session:
            session.write(PUT)
            self.assertEqual(session.list("room"), {"room": 7})
            with self.assertRaises(bayou.Behind) as raised:
                session.list()
            self.assertEqual(raised.exception.vector[:2], (1, 0))
            self.assertEqual(session.list(), {})
            self.assertEqual(server.came["lookups"][0], asked("room", "", 1))
            self.assertEqual(server.connections, 2)

    def test_a_listing_of_less_than_is_needed_is_not_believed(self):
        with Fake([accepted(0, 2, 2, 1)], [listed([("room", 7)], 1)]) as server, bayou.Session([server.address], asks=["ryw"]) as session:
            session.write(PUT)
            self.assertRaises(bayou.Lost, session.list)
            self.assertEqual(session.has_read, ZERO)

    def test_pages_go_on_behind_the_last_key_and_never_back(self):
        with Fake(lookups=[listed(FIRST, 1, more=1), listed(REST, 1)]) as server, bayou.Session([server.address]) as session:
            listing = session.list()
            self.assertEqual(list(listing), [key for key, _ in FIRST + REST])
            self.assertEqual((listing["l"], listing.is_mixed, session.place), ("kim", False, 2))
            self.assertEqual(server.came["lookups"], [asked("", ""), asked("", "k120", 1)])

    def test_a_listing_is_begun_anew_where_the_database_changes(self):
        pages = [listed(FIRST, 1, more=1), listed(REST, 2), listed(FIRST, 2, more=1), listed(REST[:1], 2)]
        with Fake(lookups=pages) as server, bayou.Session([server.address]) as session:
            listing = session.list()
            self.assertEqual((len(listing), listing.vector[0], listing.is_mixed), (122, 2, False))
            self.assertEqual(server.came["lookups"][2:], [asked("", "", 2), asked("", "k120", 2)])

    def test_a_listing_is_mixed_where_the_database_changes_each_time(self):
        pages = [page for count in (1, 3, 5) for page in (listed(FIRST, count, more=1), listed(REST, count + 1))]
        with Fake(lookups=pages) as server, bayou.Session([server.address]) as session:
            listing = session.list()
            self.assertEqual((len(listing), listing.vector[0], listing.is_mixed), (123, 6, True))
            self.assertEqual(len(server.came["lookups"]), 6)

    def test_a_page_that_no_server_tells_is_lost(self):
        pages = {
            "out of order": listed([("b/2", 1), ("b/1", 1)]), "twice the same": listed([("b/1", 1), ("b/1", 1)]), "another prefix": listed([("c", 1)]),
            "more than there is room for": listed([("b/%03d" % number, 1) for number in range(122)]), "a greater number": listed([("b/1", 1)], number=2),
            "a smaller number": listed([("b/1", 1), ("b/2", 1)], number=1), "neither more nor none": listed([], more=2), "more behind nothing": listed([], more=1),
            "more behind few": listed([("b/1", 1)], more=1), "no key": listed([("", 1)]), "a key of other bytes": listed([("b/A", 1)]),
            "a long key": listed([("b/" + "x" * 31, 1)]), "no value": listed([("b/1", b"\0")]), "an unknown value": listed([("b/1", b"\3")]),
            "no text": listed([("b/1", b"\2\1\xff")]), "a long text": listed([("b/1", b"\2\x21" + b"x" * 33)]), "a great count": listed([], 65_537),
            "bytes behind it": frame(0x35, vector() + b"\0\0\0\0"), "a cut one": listed([("b/1", 1)])[:-1], "a cut vector": frame(0x35, bytes(63)),
            "nothing": frame(0x35), "something else": seen(NUMBER, 1), "an outcome": became(b"\0"), "an unknown kind": frame(0x7f), "an unknown refusal": frame(0x13, b"\x0a"),
            "a length of nothing": b"\0\0"}
        for name, page in pages.items():
            with self.subTest(name), Fake(lookups=[page]) as server, bayou.Session([server.address], timeout=1.0) as session:
                self.assertRaises(bayou.Lost, session.list, "b/")
                self.assertEqual((session.has_read, server.connections), (ZERO, 1))

    def test_a_page_that_goes_back_is_lost(self):
        for page in (listed([("k120", 1)], 1), listed([("k", 1)], 1), listed(REST)):
            with Fake(lookups=[listed(FIRST, 1, more=1), page]) as server, bayou.Session([server.address]) as session:
                self.assertRaises(bayou.Lost, session.list)

    def test_a_reply_that_is_cut_off_is_lost_and_of_no_older_server(self):
        page = listed([("a", 1)])
        for reply in [[page[:front]] for front in (1, 2, 3, 50)] + [page[:2]]:
            with Fake(lookups=[reply]) as server, bayou.Session([server.address], timeout=1.0) as session:
                self.assertRaises(bayou.Lost, session.list)
                self.assertEqual(server.connections, 1)

    def test_bad_words_are_not_sent(self):
        with Fake() as server, bayou.Session([server.address]) as session:
            for prefix in ("A", "x" * 33, 7, None):
                self.assertRaises(bayou.BadRequest, session.list, prefix)
            for name in ((16, 1), (0, 0), (0, 65_537), (0,), "ab", None):
                self.assertRaises(bayou.BadRequest, session.outcome, name)
            self.assertRaises(bayou.Away, session.list, "", 1)
            self.assertEqual(server.connections, 0)


class Lookups(unittest.TestCase):
    def test_a_server_that_ends_a_connection_once_is_asked_again(self):
        with Fake(lookups=[None, listed([("a", 1)])]) as server, bayou.Session([server.address]) as session:
            self.assertEqual((session.list(), server.connections), ({"a": 1}, 2))

    def test_a_server_that_ends_it_twice_is_older(self):
        for words in ({"lookups": [None, None]}, {"welcome": None}):
            with Fake(**words) as server, bayou.Session([server.address]) as session:
                self.assertRaises(bayou.Older, session.list)
                self.assertEqual(server.connections, 2)
                self.assertNotIsInstance(bayou.Older(), (bayou.Away, bayou.Lost, bayou.Refused))

    def test_another_server_is_a_stranger(self):
        wrong = [{"welcome": welcome_of()}, {"welcome": lambda nonce: open_welcome(nonce, 1)}, {"known": None}, {"known": b""}, {"welcome": lambda nonce: b""},
                 {"welcome": lambda nonce: open_welcome(nonce)[:-1] + b"\1"}]
        for words in wrong:
            with Fake(lookups=[listed([("a", 1)])], **words) as server, bayou.Session([server.address], timeout=0.1) as session:
                self.assertRaises(bayou.Stranger, session.list)
                self.assertEqual(server.came["lookups"], [])

    def test_requests_are_asked_over_another_connection(self):
        with Fake([seen(NUMBER, 1)] * 2, [listed([("room", 7)], 1)] * 2) as server, bayou.Session([server.address]) as session:
            for _ in range(2):
                self.assertEqual((session.read("room"), session.list()), (7, {"room": 7}))
            self.assertEqual(([len(came) for came in server.came.values()], server.connections), ([2, 2], 2))

    def test_another_server_lists_where_one_is_away_older_or_behind(self):
        with socket.socket() as closed, Fake(welcome=None) as older, Fake(lookups=[BEHIND]) as behind, Fake(lookups=[listed([("a", 1)])], welcome=lambda nonce: open_welcome(nonce, 4)) as well:
            closed.bind(("127.0.0.1", 0))
            away = "127.0.0.1:%d" % closed.getsockname()[1]
            with bayou.Session([None, away, older.address, behind.address, well.address]) as session:
                self.assertEqual(session.list_anywhere(), {"a": 1})
            with bayou.Session([older.address]) as session:
                self.assertRaises(bayou.Older, session.list_anywhere)


class Outcomes(unittest.TestCase):
    def test_what_became_of_a_write_is_told(self):
        rows = [(b"\1" + clock(3), ("update", None, 3)), (b"\2\2" + clock(65_536), ("merge", 2, 65_536)), (b"\2\xff" + clock(2), ("merge", 255, 2)), (b"\3" + clock(2), ("none", None, 2))]
        for what, told in rows:
            with Fake(lookups=[became(what, 2)]) as server, bayou.Session([server.address], asks=["ryw", "mr"]) as session:
                outcome = session.outcome((0, 2))
                self.assertEqual((outcome.became, outcome.alternative, outcome.clock), told)
                self.assertEqual((session.has_read[0], session.place), (2, 1))
                self.assertEqual(server.came["lookups"], [frame(0x23, vector() + struct.pack(">BI", 0, 2))])

    def test_a_write_that_is_not_held_has_none(self):
        with Fake(lookups=[became(b"\0", 1)]) as server, bayou.Session([server.address]) as session:
            self.assertIsNone(session.outcome((0, 2)))
            self.assertEqual(session.has_read[0], 1)

    def test_the_server_that_accepted_it_is_asked_unless_another_is_named(self):
        with Fake([accepted(0, 1, 4)], [became(b"\1" + clock(4), 1)]) as origin, Fake(lookups=[became(b"\0")], welcome=lambda nonce: open_welcome(nonce, 1)) as other:
            with bayou.Session([origin.address, other.address]) as session:
                told = session.write(PUT)
                self.assertEqual(session.outcome(told).became, "update")
                self.assertIsNone(session.outcome(told, server=1))

    def test_an_outcome_that_no_server_tells_is_lost(self):
        rows = [became(b"\2\0" + clock(2), 2), became(b"\4" + clock(2), 2), became(b"\1" + clock(0), 2), became(b"\1" + clock(65_537), 2), became(b"\1" + clock(1), 2),
                became(b"\1" + clock(2)[1:], 2), became(b"\1" + clock(2) + b"\0", 2), became(b"\2" + clock(2), 2), became(b"\0\0", 1), became(b"", 2), became(b"\1" + clock(2), 1),
                became(b"\0", 2), listed([])]
        for reply in rows:
            with self.subTest(reply), Fake(lookups=[reply]) as server, bayou.Session([server.address]) as session:
                self.assertRaises(bayou.Lost, session.outcome, (0, 2))
                self.assertEqual(session.has_read, ZERO)

    def test_what_became_of_another_write_of_the_name_is_not_believed(self):
        with Fake([accepted(0, 1, 4)], [became(b"\1" + clock(5), 1)]) as server, bayou.Session([server.address]) as session:
            self.assertRaises(bayou.Lost, session.outcome, session.write(PUT))

    def test_one_of_less_than_is_needed_is_not_believed(self):
        with Fake([accepted(0, 1, 1)], [became(b"\0")]) as server, bayou.Session([server.address], asks=["ryw"]) as session:
            session.write(PUT)
            self.assertRaises(bayou.Lost, session.outcome, (1, 1), 0)


NONE = seen(b"\0")
CLAIM = {"check": [["absent", "a"]], "update": [["put", "a", "kim"]],
         "merge": [{"when": [["absent", "b"]], "ops": [["put", "b", "kim"]]}, {"when": [["absent", "c"]], "ops": [["put", "c", "kim"]]}]}


class Claims(unittest.TestCase):
    def test_a_claim_tells_which_key_it_got(self):
        for what, key in ((b"\1" + clock(1), "a"), (b"\2\1" + clock(1), "b"), (b"\2\2" + clock(1), "c"), (b"\3" + clock(1), None)):
            with Fake([NONE, seen(NUMBER), NONE, accepted(0, 1, 1)], [became(what, 1)]) as server, bayou.Session([server.address], number=0, run=1) as session:
                self.assertEqual(session.claim(["a", "b", "c"], "kim"), key)
                self.assertEqual(server.came["requests"][3], frame(0x06, struct.pack(">BII", 0, 1, 4) + vector() + bayou.program_bytes(CLAIM)))

    def test_a_claim_of_what_one_has_writes_nothing(self):
        with Fake([NONE, seen(TEXT, 1)]) as server, bayou.Session([server.address]) as session:
            self.assertEqual(session.claim(["a", "b", "c"], "kim"), "b")
            self.assertEqual([text[2] for text in server.came["requests"]], [1, 1])

    def test_a_claim_of_which_a_key_cannot_be_read_writes_nothing(self):
        with Fake([NONE, BEHIND]) as server, bayou.Session([server.address]) as session:
            self.assertRaises(bayou.Behind, session.claim, ["a", "b"], "kim")
            self.assertEqual(len(server.came["requests"]), 2)

    def test_a_claim_at_an_older_server_looks_what_the_keys_have(self):
        for reads, key in (([seen(NUMBER, 1), seen(TEXT, 1)], "b"), ([seen(NUMBER, 1), seen(NUMBER, 1)], None)):
            with Fake([NONE, NONE, accepted(0, 1, 1)] + reads, welcome=None) as server, bayou.Session([server.address]) as session:
                self.assertEqual(session.claim(["a", "b"], "kim"), key)

    def test_a_claim_that_no_server_tells_is_lost(self):
        for what in (b"\2\2" + clock(1), b"\2\xff" + clock(1)):
            with Fake([NONE, NONE, accepted(0, 1, 1)], [became(what, 1)]) as server, bayou.Session([server.address]) as session:
                self.assertRaises(bayou.Lost, session.claim, ["a", "b"], "kim")
        with Fake([NONE, accepted(0, 1, 1)], [became(b"\0")]) as server, bayou.Session([server.address]) as session:
            self.assertRaises(bayou.Lost, session.claim, ["a"], "kim")

    def test_a_claim_is_made_at_the_first_server_that_serves_it(self):
        with Fake([BEHIND, BEHIND]) as behind, Fake([NONE, accepted(1, 1, 1)], [became(b"\1" + clock(1), 0, 1)], welcome=lambda nonce: open_welcome(nonce, 1)) as well:
            with bayou.Session([behind.address, well.address]) as session:
                self.assertEqual(session.claim_anywhere(["a"], 7), "a")

    def test_what_is_no_claim_is_not_sent(self):
        with Fake() as server, bayou.Session([server.address]) as session:
            for keys, value in (([], 1), (["a"] * 6, 1), ("ab", 1), (["A"], 1), (["a"], None), (["a"], ["copy", "b"]), (["a"], True), (["a"], "x" * 33)):
                self.assertRaises(bayou.BadRequest, session.claim, keys, value)
            self.assertEqual(server.connections, 0)


class Changed(unittest.TestCase):
    def test_changes_are_those_since_the_last_call_for_the_prefix(self):
        pages = [listed([("a", 1), ("b", 2), ("c", 3)], 1), listed([("b", 2), ("c", TEXT), ("d", 0)], 2), listed([("d", 0)], 2)]
        with Fake(lookups=pages) as server, bayou.Session([server.address]) as session:
            first = session.changes()
            self.assertEqual((first.rows, first.vector[0], first.is_mixed), ({"a": 1, "b": 2, "c": 3}, 1, False))
            then = session.changes()
            self.assertEqual((list(then.rows.items()), then.vector[0]), ([("a", None), ("c", "kim"), ("d", 0)], 2))
            self.assertEqual(session.changes("d").rows, {"d": 0})

    def test_nothing_changed_where_the_server_holds_what_it_held(self):
        with Fake(lookups=[listed(FIRST, 1, more=1), listed(REST, 1), listed(FIRST, 1, more=1)]) as server, bayou.Session([server.address]) as session:
            self.assertEqual(len(session.changes_anywhere().rows), 123)
            self.assertEqual((session.changes_anywhere().rows, len(server.came["lookups"])), ({}, 3))

    def test_what_was_not_told_is_told_the_next_time(self):
        with Fake(lookups=[listed([("a", 1)], 1), BEHIND, listed([], 2)]) as server, bayou.Session([server.address]) as session:
            session.changes()
            self.assertRaises(bayou.Behind, session.changes)
            self.assertEqual(session.changes().rows, {"a": None})


HEADER = b"BAYOUJNL\x03\x00"
ALL, OWN = b"\1\1\1\1", b"\1\1\0\0"
PUT_BYTES = b"\0\1\1\4room\1\1" + struct.pack(">q", 7) + b"\0"


def kept(place, read, written, session=0, asks=b"\0\0\0\0", asking=None):
    """What is kept of a session: what it read and wrote are counts of server 0, and what may be asked again are a server, a run and a number."""
    server, request = b"\0", b""
    if asking is not None:
        at, run, number = asking
        server, request = bytes([1, at]), frame(0x06, struct.pack(">BII", session, run, number) + vector() + PUT_BYTES)
    return bytes([1, session]) + asks + struct.pack(">I", place) + server + frame(0x05, vector(read)) + frame(0x05, vector(written)) + request


def journal(*bodies, last=None):
    """A file that keeps these, or what stands after one, by its last digest."""
    text, last = (HEADER, hashlib.sha256(HEADER).digest()) if last is None else (b"", last)
    for body in bodies:
        body = struct.pack(">H", len(body)) + body
        last = hashlib.sha256(last + body).digest()
        text += body + last
    return text


class States(unittest.TestCase):
    def setUp(self):
        folder = tempfile.TemporaryDirectory()
        self.addCleanup(folder.cleanup)
        self.folder, self.path = folder.name, os.path.join(folder.name, "kim.state")

    def has(self, *bodies):
        with open(self.path, "rb") as file:
            self.assertEqual(file.read(), journal(*bodies))

    def put(self, text):
        with open(self.path, "wb") as file:
            file.write(text)

    def session(self, *addresses, **words):
        return bayou.Session(addresses, state=self.path, **words)

    def refused(self, fault=bayou.BadState, **words):
        """What the file has, with which no session begins, and which stays as it is."""
        with open(self.path, "rb") as file:
            text = file.read()
        with self.assertRaises(fault) as raised:
            self.session(**words)
        with open(self.path, "rb") as file:
            self.assertEqual(file.read(), text)
        return str(raised.exception)

    def test_each_operation_is_kept_and_a_write_before_it_is_sent_too(self):
        first, then = kept(1, 0, 0, asks=OWN, asking=(0, 9, 1)), [kept(1, 0, 1, asks=OWN), kept(2, 3, 1, asks=OWN), kept(3, 4, 1, asks=OWN), kept(4, 5, 1, asks=OWN)]

        def answer():
            self.has(first)
            return accepted(0, 1, 1)
        with Fake([answer, seen(NUMBER, 3)], [listed([("room", 7)], 4), became(b"\1" + clock(1), 5)]) as server, self.session(server.address, asks=["ryw", "mr"], run=9) as session:
            self.has()
            told = session.write(PUT)
            self.has(first, then[0])
            for count, ask in enumerate((lambda: session.read("room"), session.list, lambda: session.outcome(told)), 2):
                ask()
                self.has(first, *then[:count])
        self.assertEqual(os.stat(self.path).st_mode & 0o777, 0o600)

    def test_what_was_not_served_is_kept_too(self):
        with Fake([BEHIND, None]) as server, self.session(server.address, run=9) as session:
            self.assertRaises(bayou.Behind, session.read, "room")
            self.assertRaises(bayou.Lost, session.write, PUT)
        asking = kept(2, 0, 0, asking=(0, 9, 2))
        self.has(kept(1, 0, 0), asking, asking)

    def test_pages_are_kept_together(self):
        with Fake(lookups=[listed(FIRST, 1, more=1), listed(REST, 1)]) as server, self.session(server.address) as session:
            session.list()
        self.has(kept(2, 1, 0))

    def test_a_session_goes_on_from_where_it_was_kept(self):
        self.put(journal(kept(9, 1, 1), kept(4, 3, 2, asks=ALL), kept(7, 5, 5, session=3)))
        with Fake([seen(NUMBER, 4)]) as server, self.session(server.address) as session:
            self.assertEqual((session.number, session.place, session.asks), (0, 4, frozenset(bayou.ASKS)))
            session.read("room")
            self.assertEqual(server.came["requests"], [frame(0x01, vector(3) + b"\4room")])
        with self.session(number=0) as session:
            self.assertEqual((session.place, session.has_read[0], session.has_written[0]), (5, 4, 2))
        with self.session(number=3) as session:
            self.assertEqual((session.place, session.has_read[0], session.has_written[0], session.asks), (7, 5, 5, frozenset()))
        with self.session(number=1) as session:
            self.assertEqual((session.place, session.asks), (0, frozenset()))

    def test_it_asks_for_what_it_asked_for(self):
        self.put(journal(kept(1, 0, 0, asks=OWN)))
        self.session(asks=["mr", "ryw"]).close()
        for asks in ([], ["ryw"], bayou.ASKS):
            self.refused(bayou.BadRequest, asks=asks)
        self.session().close()

    def test_a_lost_write_is_asked_again_by_the_next_session(self):
        with Fake([None]) as server, self.session(server.address, run=9) as session:
            self.assertRaises(bayou.Lost, session.write, PUT)
        with Fake([accepted(0, 1, 1)]) as other, self.session(other.address, run=5) as session:
            self.assertEqual((session.again().seq, session.run, session.pending), (1, 9, None))
            self.assertEqual(other.came, server.came)
        with self.session() as session:
            self.assertEqual((session.place, session.has_written[0], session.pending), (1, 1, None))
            self.assertNotEqual(session.run, 9)

    def test_one_is_asked_again_with_what_the_session_needs(self):
        self.put(journal(kept(4, 3, 2, session=5, asks=ALL, asking=(1, 9, 2))))
        with Fake([accepted(1, 1, 4, 3)]) as server, self.session(None, server.address, number=5) as session:
            session.again()
            self.assertEqual(server.came["requests"], [frame(0x06, struct.pack(">BII", 5, 9, 2) + vector(3) + PUT_BYTES)])

    def test_one_session_at_a_time_has_the_file(self):
        with self.session():
            self.assertIn("in use", self.refused())
        session = self.session()
        session.close()
        self.session().close()
        self.assertRaises(bayou.BadState, session._keep)

    def test_what_was_cut_off_is_cut(self):
        whole, last = journal(kept(1, 2, 3)), journal(kept(1, 2, 3), kept(2, 3, 3))
        for count in range(len(HEADER)):
            self.put(HEADER[:count])
            self.session().close()
            self.has()
        for end in [last[len(whole):count] for count in range(len(whole), len(last))] + [bytes(count) for count in (1, 2, 3, 179, 8_226)]:
            self.put(whole + end)
            with warnings.catch_warnings():
                warnings.simplefilter("error")
                with self.session() as session:
                    self.assertEqual((session.place, session.has_read[0], session.has_written[0]), (1, 2, 3))
            self.has(kept(1, 2, 3))

    def test_a_damaged_last_entry_is_cut_and_told(self):
        whole, last = journal(kept(1, 2, 3)), journal(kept(1, 2, 3), kept(2, 3, 3))
        for at in (len(whole) + 2, len(last) - 1):
            self.put(last[:at] + bytes([last[at] ^ 1]) + last[at + 1:])
            with self.assertWarnsRegex(UserWarning, "the last entry is damaged: its 179 bytes from byte %d on were dropped" % len(whole)):
                self.session().close()
            self.has(kept(1, 2, 3))

    def test_other_damage_changes_nothing(self):
        whole, last = journal(kept(1, 2, 3)), journal(kept(1, 2, 3), kept(2, 3, 3))
        entry = last[len(whole):]
        behind = journal(kept(3, 3, 3), last=entry[-32:])
        damaged = [last[:12] + b"\7" + last[13:], whole + entry + b"\0\1\7" + bytes(33), whole + b"\0\0" + entry[2:], whole + b"\x20\1" + bytes(99), whole + bytes(8_227),
                   whole + b"\x10\0" + entry[2:] + behind]
        for text in damaged:
            self.put(text)
            self.assertRegex(self.refused(), "whole up to byte [0-9]+, and the [0-9]+ bytes behind that are damaged")

    def test_what_keeps_no_session_changes_nothing(self):
        asking = kept(2, 0, 0, asking=(0, 9, 2))
        bodies = [b"\0", kept(1, 0, 0)[:-1], kept(1, 0, 0) + b"\0", kept(1, 0, 0, session=32), kept(1, 0, 0, asks=b"\0\0\2\0"), b"\2" + kept(1, 0, 0)[1:], kept(1, 65_537, 0),
                  kept(1, 0, 65_537), kept(1, 0, 0, asking=(0, 9, 2)), kept(1, 0, 0, asking=(16, 9, 1)), kept(1, 0, 0, asking=(0, 0, 1)), kept(1, 0, 0, asking=(0, 9, 0)),
                  kept(1, 0, 0)[:10] + b"\2" + kept(1, 0, 0)[11:], asking[:-1], asking + b"\0", asking[:10] + b"\2" + asking[11:], asking[:10] + b"\0" + asking[12:], kept(1, 0, 0)[:13] + b"\4" + kept(1, 0, 0)[14:],
                  asking.replace(b"\6\0\0\0\0\x09", b"\6\1\0\0\0\x09"), kept(1, 0, 0)[:10] + b"\1" + kept(1, 0, 0)[10:]]
        for body in bodies:
            for text in (journal(body), journal(kept(1, 0, 0), body, kept(2, 0, 0))):
                self.put(text + b"\0")
                self.assertIn("it keeps no sessions", self.refused())
        for text in (b"BAYOUJNL\2\0", b"BAYOUJNL\3\1", b"bayou-key-1", b"x"):
            self.put(text)
            self.assertIn("it keeps no sessions", self.refused())

    def test_a_file_that_fails_is_not_used_any_more(self):
        for ask, sent in ((lambda session: session.write(PUT), []), (lambda session: session.read("room"), [1])):
            with Fake([seen(NUMBER, 1)] * 2) as server, self.session(server.address) as session:
                with unittest.mock.patch("bayou.os.fsync", side_effect=OSError("no room")):
                    self.assertRaisesRegex(bayou.BadState, "no room", ask, session)
                for again in (ask, lambda session: session.read("room"), lambda session: session.list(), lambda session: session.again()):
                    self.assertRaises(bayou.BayouError, again, session)
                self.assertEqual(([text[2] for text in server.came["requests"]], server.came["lookups"]), (sent, []))
        for path in (self.folder, os.path.join(self.folder, "none", "kim.state")):
            self.assertRaises(bayou.BadState, bayou.Session, [], state=path)

    def test_a_long_file_is_written_anew(self):
        self.put(journal(kept(1, 0, 0), kept(2, 1, 1, session=4, asking=(0, 9, 2)), kept(2, 0, 0)))
        with open(self.path + ".part", "wb") as file:
            file.write(b"left by another")
        with unittest.mock.patch("bayou._MAX_KEPT", 2), Fake([seen(NUMBER, count) for count in (1, 2)]) as server, self.session(server.address) as session:
            session.read("room")
            self.has(kept(2, 0, 0), kept(2, 1, 1, session=4, asking=(0, 9, 2)), kept(3, 1, 0))
            self.assertIn("in use", self.refused())
            session.read("room")
            self.has(kept(3, 1, 0), kept(2, 1, 1, session=4, asking=(0, 9, 2)), kept(4, 2, 0))
        self.assertEqual(os.listdir(self.folder), ["kim.state"])
        with self.session() as session:
            self.assertEqual((session.place, session.has_read[0]), (4, 2))

    def test_a_file_is_of_one_store(self):
        def key(name, line):
            path = os.path.join(self.folder, name)
            with open(path, "w") as file:
                file.write(line + "\n")
            return path
        room, other = key("room", KEY), key("other", KEY.replace("room", "other"))
        self.session(key=room).close()
        with open(self.path + ".store", "rb") as file:
            self.assertEqual(file.read(), b"bayou-store-1 room " + hashlib.sha256(KEY.encode()).hexdigest().encode() + b"\n")
        self.session(key=room).close()
        for one in (None, other):
            self.assertIn("it is of the store room", self.refused(key=one))
        for text in ("", "room", "bayou-store-1 room\n"):
            with open(self.path + ".store", "w") as file:
                file.write(text)
            self.assertIn("says no store", self.refused(key=room))
        self.assertEqual(sorted(os.listdir(self.folder)), ["kim.state", "kim.state.store", "other", "room"])

    def test_a_label_is_as_the_pages_say(self):
        path = os.path.join(self.folder, "key")
        with open(path, "w") as file:
            file.write("bayou-key-1 room " + "00112233445566778899aabbccddeeff" * 2)
        self.assertEqual(bayou.Key(path).label(), b"bayou-store-1 room be3132a982ccd1976e4ec2353cbe4d565d08ae6f3fc372185a5d1b439148d58f\n")


if __name__ == "__main__":
    unittest.main()
