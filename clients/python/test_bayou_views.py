"""What the client knows as final: by views that are made up, beside a plain model, and at servers that answer as each test says. Call:
python3 -m unittest discover clients/python"""
import contextlib
import hashlib
import os
import random
import struct
import tempfile
import time
import unittest
import unittest.mock

import bayou
import bayou_views
import test_bayou as fakes
from bayou_views import Views

ZERO = (0,) * 16


def vector(*first):
    return first + ZERO[len(first):]


def summed(body):
    return body + b"sum " + hashlib.sha256(body).hexdigest().encode() + b"\n"


LINES = [b"bayou-views-1 3\n", b"final 1,0,2\n", b"view 0 4,1,2\n", b"view 2 1,65536,3\n", b"own 0:12 40 update\n", b"own 2:1 1 merge 255\n", b"own 1:3 3 none\n",
         b"own 1:4 65536 untold\n"]


class Texts(unittest.TestCase):
    def refused(self, text):
        with self.assertRaises(bayou_views.NoViews, msg=text):
            Views.of(text)

    def test_a_text_says_what_is_kept(self):
        views = Views.of(summed(b"".join(LINES)))
        self.assertEqual((views.count, views.final), (3, vector(1, 0, 2)))
        self.assertEqual(views.views, {0: vector(4, 1, 2), 2: vector(1, 65536, 3)})
        self.assertEqual([(own.origin, own.seq, own.clock, own.told) for own in views.own], [(0, 12, 40, "update"), (2, 1, 1, "merge 255"), (1, 3, 3, "none"), (1, 4, 65536, "untold")])

    def test_what_is_kept_is_said_so(self):
        self.assertEqual(Views.of(summed(b"".join(LINES))).text(), summed(b"".join(LINES)))
        views = Views()
        views.is_of(1)
        self.assertEqual(views.text(), summed(b"bayou-views-1 1\nfinal 0\n"))

    def test_the_example_of_the_page_is_one(self):
        text = b"""bayou-views-1 3
final 11,4,9
view 0 12,4,9
view 1 11,5,9
view 2 11,4,9
own 0:12 18 merge 2
own 1:5 19 untold
sum 13e985b246ee817229acf82c44a7751793d0b571c633ba14f4ae04be3d5b412f
"""
        self.assertEqual(Views.of(text).text(), text)

    def test_of_one_name_the_last_counts(self):
        views = bayou_views.Views.of(summed(b"".join(LINES[:-1]) + b"own 0:12 41 untold\n"))
        self.assertEqual([(own.origin, own.seq, own.clock) for own in views.own], [(2, 1, 1), (1, 3, 3), (0, 12, 41)])

    def test_one_of_which_a_line_is_wrong_is_none(self):
        wrong = [
            [b"", b"bayou-views-2 3\n", b"bayou-views-1 0\n", b"bayou-views-1 17\n", b"bayou-views-1 03\n", b"bayou-views-1\n", b"bayou-views-1 3 \n", b"bayou-views-1 2\n", b"bayou-views-1 4\n",
             b"\nbayou-views-1 3\n", b"bayou-views-1 3\r\n"],
            [b"", b"final 1,0\n", b"final 1,0,2,0\n", b"final 1,0,65537\n", b"final 1,00,2\n", b"final 1,0,-2\n", b"final 1,0,+2\n", b"final 1,,2\n", b"final 1,0,2,\n", b"final  1,0,2\n",
             b"final\n", b"Final 1,0,2\n", b"final 1,0,2\nfinal 1,0,2\n", b"final 1,0,100000\n"],
            [b"view 3 4,1,2\n", b"view 2 4,1,2\n", b"view 00 4,1,2\n", b"view 0 4,1\n", b"view 0 4,1,2,0\n", b"view 0 4,1,65537\n", b"view 4,1,2\n", b"view 0 4,1,2\n\n", b"views 0 4,1,2\n",
             b"view 0 4,1,2\nview 0 4,1,2\n", b"view 0 4,1,2 \n", b"view 0 4,1,a\n", b"\xe9\n"],
            [b"view 0 1,2,3\n", b"view 3 1,2,3\n", b"view 2 1,2,3\nview 1 1,2,3\n", b"view 2 1,2,3", b"own 0:1 1 none\nview 2 1,2,3\n"],
            [b"own 3:12 40 update\n", b"own 0:0 40 update\n", b"own 0:41 40 update\n", b"own 0:12 65537 update\n", b"own 0:12 040 update\n", b"own 0:12 40\n", b"own 0:12 40 Update\n",
             b"own 0:12 40 update 1\n", b"own 0-12 40 update\n", b"own 12 40 update\n", b"own 0:12 40 final\n"],
            [b"own 2:1 1 merge 0\n", b"own 2:1 1 merge 256\n", b"own 2:1 1 merge\n", b"own 2:1 1 merge 01\n", b"own 2:1 1 merge -1\n", b"own 2:1 0 merge 1\n"],
            [b"own 1:3 3 none 1\n", b"own 1:3 3 \n", b"own 1:3 2 none\n", b"own 1:4 3 none\n"],
            [b"own 1:4 65536 untold\nx\n", b"own 1:4 65536 untold\n\n", b"own 1:4 65536 untold\nfinal 1,0,2\n", b"own 1:4 65536 untold\nsum 1\n", b"own 1:4 65536 told\n"]]
        for at, lines in enumerate(wrong):
            for line in lines:
                self.refused(summed(b"".join(LINES[:at] + [line] + LINES[at + 1:])))

    def test_one_of_another_sum_is_none(self):
        text = summed(b"".join(LINES))
        for at in range(len(text)):
            self.refused(text[:at])
            self.refused(text[:at] + bytes([text[at] ^ 1]) + text[at + 1:])
        for other in (text + b"\n", text + b"x", text.replace(b"sum ", b"sum  "), text[:-65] + text[-65:].upper(), b"".join(LINES), text + text, text.replace(b"\n", b"\r\n")):
            self.refused(other)

    def test_sixty_four_own_writes_are_kept_and_no_more(self):
        front = b"bayou-views-1 1\nfinal 0\n"
        own = [b"own 0:%d %d untold\n" % (seq, seq) for seq in range(1, 66)]
        self.assertEqual(len(Views.of(summed(front + b"".join(own[:64]))).own), 64)
        self.refused(summed(front + b"".join(own)))


def write(origin, seq, clock, *deps):
    return bayou.Accepted(origin, seq, clock, vector(*deps))


class World:
    """A plain model: servers are lists of Writes, in order of receipt. What is known, made and final is said by sets of their names."""

    def __init__(self, draw, count):
        self.draw, self.count, self.held = draw, count, [[] for _ in range(count)]

    def vector(self, server):
        return tuple(sum(one.origin == origin for one in self.held[server]) for origin in range(16))

    def names(self, server):
        return {(one.origin, one.seq) for one in self.held[server]}

    def in_order(self, server):
        return sorted(self.held[server], key=lambda one: (one.clock, one.origin))

    def step(self):
        """A server makes a Write, or pulls from another one what it lacks, or the front of that."""
        server, other = self.draw.randrange(self.count), self.draw.randrange(self.count)
        if self.draw.random() < 0.4:
            before = self.vector(server)
            self.held[server].append(bayou.Accepted(server, before[server] + 1, max([one.clock for one in self.held[server]], default=0) + 1, before))
            return
        lacks = [one for one in self.in_order(other) if (one.origin, one.seq) not in self.names(server)]
        self.held[server] += lacks[:self.draw.randrange(len(lacks) + 1)] if self.draw.random() < 0.3 else lacks

    def offered(self, server, final):
        return [one for one in self.in_order(server) if one.seq > final[one.origin]]

    def told_as(self, names):
        """What a set of names is as a vector: as many of each server."""
        return tuple(sum(origin == server for origin, _ in names) for server in range(16))

    def final(self, views, told):
        """What is final by views, which are sets, at the first of the servers that holds all that was made by them: by the definition."""
        for server in told:
            if all({name for name in views[origin] if name[0] == origin} <= self.names(server) for origin in range(self.count)):
                first = set()
                for one in self.in_order(server):
                    # (what a Write tells of its server: what that held before it, and the Write)
                    views[one.origin] |= {(origin, seq) for origin in range(16) for seq in range(1, one.deps[origin] + 1)} | {(one.origin, one.seq)}
                for one in self.in_order(server):
                    if not all((one.origin, one.seq) in view for view in views.values()):
                        break
                    first.add((one.origin, one.seq))
                return self.told_as(first)
        return ZERO


class Models(unittest.TestCase):
    def test_what_is_final_is_the_longest_known_beginning(self):
        some, nothing = 0, 0
        for seed in range(1_000):
            draw = random.Random(seed)
            world = World(draw, draw.randrange(1, 5))
            views, plain = Views(), {}
            views.is_of(world.count)
            for server in draw.sample(range(world.count), world.count):
                for _ in range(draw.randrange(12)):
                    world.step()
                views.heard(server, world.vector(server))
                plain[server] = world.names(server)
            for _ in range(draw.choice([0, 0, 3])):
                world.step()
            told = [server for server in range(world.count) if draw.random() < 0.8]
            # (the views are those from before: what servers tell now is only who holds what was made)
            views.looks({server: world.vector(server) for server in told}, world.offered)
            expected = world.final(plain, told)
            self.assertEqual(views.final, expected, seed)
            some, nothing = some + any(expected), nothing + (not any(expected))
        self.assertGreater(min(some, nothing), 150)

    def test_what_is_final_stays_so(self):
        rose = 0
        for seed in range(150):
            draw = random.Random(seed)
            world = World(draw, draw.randrange(2, 5))
            views, finals = Views(), set()
            views.is_of(world.count)
            for _ in range(60):
                world.step()
                if draw.random() < 0.4:
                    told = {server: world.vector(server) for server in range(world.count) if draw.random() < 0.7}
                    for server, held in told.items():
                        views.heard(server, held)
                    before = views.final
                    views.looks(told, world.offered)
                    self.assertTrue(bayou_views.covers(views.final, before))
                    finals.add(views.final)
                    if draw.random() < 0.1:
                        views = Views.of(views.text())
                for server in range(world.count):
                    for final in finals:
                        if bayou_views.covers(world.vector(server), final):
                            first = world.in_order(server)[:sum(final)]
                            self.assertEqual(world.told_as({(one.origin, one.seq) for one in first}), final, seed)
            rose += len(finals) > 2
        self.assertGreater(rose, 75)

    def test_all_is_final_once_all_have_met_and_told_so(self):
        for seed in range(50):
            draw = random.Random(seed)
            world, views = World(draw, 3), Views()
            views.is_of(3)
            for _ in range(30):
                world.step()
            for server in (0, 1, 2, 0, 1):
                for other in range(3):
                    world.held[server] += [one for one in world.in_order(other) if (one.origin, one.seq) not in world.names(server)]
            told = {server: world.vector(server) for server in range(3)}
            for server, held in told.items():
                views.heard(server, held)
            views.looks(told, lambda server, final: self.fail("all is known"))
            self.assertEqual(views.final, world.vector(0))

    def test_what_was_made_by_an_earlier_look_is_enough(self):
        """Server 0 writes before each look, so that server 1 never holds what it has made by then, but what it had made at the look before, or at the one
        before that."""
        for lag, expected in ((1, [0, 2, 3, 4, 5, 6, 7]), (2, [0, 0, 3, 3, 5, 5, 7])):
            views, finals = Views(), []
            views.is_of(2)
            for seq in range(lag + 1, lag + 8):
                told = {0: vector(seq), 1: vector(seq - lag)}
                for server, held in told.items():
                    views.heard(server, held)
                views.looks({1: told[1]}, lambda server, final: [write(0, one, one, one - 1) for one in range(final[0] + 1, told[server][0] + 1)])
                finals.append(views.final[0])
            self.assertEqual(finals, expected)

    def test_writes_tell_views_to_an_earlier_look_too(self):
        views = Views.of(summed(b"bayou-views-1 2\nfinal 3,0\nview 0 5,0\nview 1 3,0\n"))
        views.heard(0, vector(7))
        views.looks({1: vector(5, 1)}, lambda server, final: [write(0, 4, 4, 3), write(0, 5, 5, 4), write(1, 1, 5, 4)])
        self.assertEqual((views.final, views.views), (vector(4), {0: vector(7), 1: vector(4, 1)}))

    def test_a_server_that_lacks_what_is_final_is_not_asked(self):
        views = Views.of(summed(b"bayou-views-1 2\nfinal 2,1\nview 0 2,0\nview 1 2,0\n"))
        views.looks({0: vector(2), 1: vector(2, 0)}, lambda server, final: self.fail("it isn't to be asked"))
        asked = []
        views.looks({0: vector(2), 1: vector(3, 1)}, lambda server, final: asked.append((server, final)))
        self.assertEqual((asked, views.final), ([(1, vector(2, 1))], vector(2, 1)))

    def test_nothing_is_final_before_each_server_was_heard(self):
        views = Views()
        views.is_of(3)
        views.heard(0, vector(1))
        views.heard(1, vector(1))
        views.looks({0: vector(1), 1: vector(1)}, lambda server, final: self.fail("nothing is to be asked"))
        self.assertEqual(views.final, ZERO)

    def test_views_of_one_server_join(self):
        views = Views()
        views.is_of(3)
        for held in (vector(1, 0, 2), vector(0, 3), vector(0, 0, 0, 1)):
            views.heard(1, held)
        views.heard(3, vector(9))
        self.assertEqual(views.views, {1: vector(1, 3, 2)})

    def test_what_was_heard_before_the_count_of_servers_is_of_these_alone(self):
        views = Views()
        views.heard(0, vector(1, 1))
        views.heard(1, vector(1, 1))
        views.heard(2, vector(1, 1))
        self.assertEqual((views.is_of(2), views.is_of(3), views.views), (True, False, {0: vector(1, 1), 1: vector(1, 1)}))

    def test_too_many_writes_are_not_asked_for(self):
        for count, asked in ((4_096, [0]), (4_097, [])):
            views, came = Views(), []
            views.is_of(2)
            views.heard(0, vector(count))
            views.heard(1, vector(1))
            views.looks({0: vector(count)}, lambda server, final: came.append(server))
            self.assertEqual((came, views.final), (asked, ZERO))
            # (none is asked for where all are known)
            views.heard(1, vector(count))
            views.looks({0: vector(count)}, lambda server, final: self.fail("all is known"))
            self.assertEqual(views.final, vector(count))


UPDATE, MERGE, NONE = bayou.Outcome("update", None, 1), bayou.Outcome("merge", 2, 1), bayou.Outcome("none", None, 1)


class Owns(unittest.TestCase):
    def test_each_change_is_told_once(self):
        views = Views()
        views.is_of(1)
        views.wrote(write(0, 1, 1))
        own = views.own[0]
        told = [views.tells(own, outcome) for outcome in (UPDATE, UPDATE, MERGE, MERGE, bayou.Outcome("merge", 1, 1), UPDATE)]
        self.assertEqual([change and (change.accepted, change.outcome.became, change.is_final) for change in told],
                         [((0, 1), "update", False), None, ((0, 1), "merge", False), None, ((0, 1), "merge", False), ((0, 1), "update", False)])
        views.final = vector(1)
        self.assertTrue(views.tells(own, UPDATE).is_final)
        self.assertEqual(views.own, [])

    def test_the_last_sixty_four_are_followed_each_once(self):
        views = Views()
        for seq in range(1, 70):
            for _ in range(2):
                views.wrote(write(0, seq, seq, seq - 1))
        self.assertEqual([own.seq for own in views.own], list(range(6, 70)))
        self.assertEqual(views.views, {0: vector(69)})


def welcome(server, count=2):
    return lambda nonce: fakes.frame(0x30, bytes([2, server, count, 0]) + bytes(48))


def holds(*counts):
    return fakes.listed([], *counts)


def item(origin, seq, clock, *deps):
    return fakes.frame(0x15, struct.pack(">BII", origin, seq, clock) + fakes.vector(*deps) + fakes.PUT_BYTES)


def offered(*items):
    return b"".join(items) + fakes.frame(0x16, struct.pack(">I", len(items)))


def update(clock, *counts):
    return fakes.became(b"\1" + fakes.clock(clock), *counts)


def merged(number, clock, *counts):
    return fakes.became(bytes([2, number]) + fakes.clock(clock), *counts)


ASK = fakes.frame(0x22, fakes.vector() + b"\0\0\0\0")


def fate(origin, seq, *need):
    return fakes.frame(0x23, fakes.vector(*need) + struct.pack(">BI", origin, seq))


@contextlib.contextmanager
def store(*servers, **words):
    """A session at fakes, each of which has requests and lookups; and the fakes."""
    with contextlib.ExitStack() as stack:
        all_of = [stack.enter_context(fakes.Fake(requests, lookups, welcome(server, len(servers)))) for server, (requests, lookups) in enumerate(servers)]
        yield stack.enter_context(bayou.Session([fake.address for fake in all_of], **words)), all_of


class Looks(unittest.TestCase):
    def test_what_both_hold_is_final(self):
        items = offered(item(0, 1, 1), item(1, 1, 2, 1), item(0, 2, 3, 1, 1))
        with store(([items], [holds(2, 1)]), ([], [holds(1, 1)])) as (session, servers):
            self.assertEqual(session.final(), vector(1, 1))
            self.assertEqual([server.came["lookups"] for server in servers], [[ASK], [ASK]])
            self.assertEqual([server.came["requests"] for server in servers], [[fakes.frame(0x05, fakes.vector())], []])

    def test_nothing_is_where_no_server_has_all_that_was_made(self):
        with store(([], [holds(2, 1)]), ([], [holds(1, 2)])) as (session, servers):
            self.assertEqual(session.final(), ZERO)
            self.assertEqual([server.came["requests"] for server in servers], [[], []])

    def test_a_look_is_nothing_of_the_session(self):
        with store(([fakes.accepted(0, 1, 1), None, offered(item(0, 1, 1), item(1, 1, 2)), fakes.accepted(0, 2, 2, 1)], [holds(1, 1), update(1, 1, 1)]), ([], [holds(0, 1)]),
                   asks=bayou.ASKS, number=3, run=4) as (session, servers):
            session.write(fakes.PUT)
            self.assertRaises(bayou.Lost, session.write, fakes.PUT)
            was = session.place, session.has_read, session.has_written, session.seen, session.pending
            self.assertEqual(len(session.changed()), 1)
            self.assertEqual((session.place, session.has_read, session.has_written, session.seen, session.pending), was)
            self.assertEqual(session.again().seq, 2)
            self.assertEqual(servers[0].came["requests"][1], servers[0].came["requests"][3])

    def test_a_server_that_is_away_is_left_out_and_its_view_counts(self):
        with store(([], [holds(1, 1), holds(2, 1)]), ([], [holds(1, 1)])) as (session, servers):
            self.assertEqual(session.final(), vector(1, 1))
            servers[1].__exit__()
            session.links[1].close()
            servers[0].replies["requests"] = iter([offered(item(0, 2, 2, 1, 1))])
            self.assertEqual(session.final(), vector(1, 1))
            self.assertEqual(servers[0].came["requests"], [fakes.frame(0x05, fakes.vector(1, 1))])

    def test_a_server_that_is_silent_has_its_time_and_is_left_out_then(self):
        over = []

        def silent():
            over.append(time.monotonic())
            time.sleep(3)
        with store(([], [holds(1)] * 2), ([], [silent] * 2), timeout=0.3) as (session, _):
            begun = time.monotonic()
            self.assertEqual(session.final(), ZERO)
            first = time.monotonic()
            self.assertEqual(session.final(), ZERO)
            self.assertLess(max(first - begun - 0.3, time.monotonic() - first), 0.25)
            self.assertEqual(len(over), 1)

    def test_none_is_final_at_an_older_server(self):
        with fakes.Fake([fakes.accepted(0, 1, 1), fakes.seen(fakes.NUMBER, 1)], welcome=None) as older, bayou.Session([older.address]) as session:
            told = session.write(fakes.PUT)
            session.read("room")
            self.assertEqual((session.final(), session.is_final(told), session.changed()), (ZERO, False, []))
        with fakes.Fake(lookups=[holds(1)], welcome=welcome(0, 17)) as wrong, bayou.Session([wrong.address]) as session:
            self.assertEqual(session.final(), ZERO)

    def test_one_server_alone_knows_all_as_final(self):
        with store(([], [holds(3)])) as (session, _):
            self.assertEqual(session.final(), vector(3))

    def test_what_no_server_offers_is_not_believed(self):
        whole = [item(0, 1, 1), item(1, 1, 2, 1)]
        for items in (whole[::-1], whole[:1] * 2, [item(0, 1, 0)], [item(0, 2, 1, 1)], [item(0, 1, 1, 1)], [item(0, 1, 1), item(0, 2, 2)]):
            with self.subTest(items), store(([offered(*items)], [holds(2, 1)]), ([], [holds(1, 1)])) as (session, _):
                self.assertEqual(session.final(), ZERO)
        for reply in (offered(*whole)[:-1] + b"\3", offered(*whole)[:-8], fakes.seen(fakes.NUMBER), fakes.BEHIND, None):
            with self.subTest(reply), store(([reply], [holds(2, 1)]), ([], [holds(1, 1)]), timeout=0.2) as (session, _):
                self.assertEqual(session.final(), ZERO)
        counted = [offered(item(0, 1, 1), item(0, 2, 3, 1, 1), item(0, 3, 4, 2, 1))]
        with store((counted, [holds(1, 1), holds(3, 1)]), ([], [holds(1, 1), holds(2, 1)])) as (session, _):
            self.assertEqual([session.final(), session.final()], [vector(1, 1)] * 2)

    def test_whether_a_write_is_final_is_looked_up_where_it_is_not_known(self):
        with store(([], [holds(1), holds(1, 1)]), ([], [holds(1), holds(1, 1)])) as (session, servers):
            self.assertEqual([session.is_final((1, 1)), session.is_final((0, 1)), session.is_final((1, 1)), session.is_final((1, 1))], [False, True, True, True])
            self.assertEqual(len(servers[0].came["lookups"]), 2)
            self.assertRaises(bayou.BadRequest, session.is_final, (0, 0))

    def test_a_server_of_another_number_of_servers_is_told(self):
        with fakes.Fake(lookups=[holds(1)], welcome=welcome(0, 2)) as one, fakes.Fake(lookups=[holds(1)], welcome=welcome(1, 3)) as other:
            with bayou.Session([one.address, other.address]) as session:
                self.assertRaisesRegex(bayou.BayouError, "a store of 2 servers, and server 1 is of one of 3", session.final)

    def test_each_view_that_passes_is_joined(self):
        behind = fakes.frame(0x13, b"\x02" + fakes.vector(2, 0, 7))
        requests = [fakes.seen(fakes.NUMBER, 9), fakes.seen(fakes.NUMBER, 2, 1), behind, fakes.accepted(0, 5, 9, 4, 3)]
        asks = ((lambda session: session.read("room"), None), (lambda session: session.list(), vector(1, 5)), (lambda session: session.read("room"), vector(2, 5)),
                (lambda session: session.read("room"), vector(2, 5, 7)), (lambda session: session.outcome((0, 3)), vector(3, 5, 7, 1)),
                (lambda session: session.write(fakes.PUT), vector(5, 5, 7, 1)))
        with store((requests, [fakes.listed([], 1, 5), update(4, 3, 0, 0, 1)]), ([], []), ([], []), ([], [])) as (session, _):
            for ask, view in asks:
                with contextlib.suppress(bayou.Behind):
                    ask(session)
                # (a server that wasn't greeted yet may be another one)
                self.assertEqual(session.views.views, {} if view is None else {0: view})

    def test_a_view_of_a_server_that_may_be_another_by_now_is_not(self):
        with store(([fakes.seen(fakes.NUMBER, 2), fakes.seen(fakes.NUMBER, 3)], [holds(1)]), ([], [])) as (session, _):
            session.final()
            session.read("room")
            session.links[0].lookups.close()
            session.read("room")
            self.assertEqual((session.views.views, session.has_read), ({0: vector(2)}, vector(3)))


class Changes(unittest.TestCase):
    def told(self, session):
        return [(change.accepted, change.outcome.became, change.outcome.alternative, change.is_final) for change in session.changed()]

    def test_a_write_is_told_as_tentative_then_changed_then_final(self):
        mine = [item(0, 1, 1), item(1, 1, 1), item(0, 2, 2, 1, 1)]
        first = ([fakes.accepted(0, 1, 1), offered(*mine[:2]), offered(*mine[:2])], [holds(1), update(1, 1), holds(1), update(1, 1), holds(1, 1), update(1, 1, 1), holds(1, 1), merged(3, 1, 1, 1),
                 holds(1, 1), merged(3, 1, 1, 1), holds(1, 1)])
        other = ([], [holds(0, 1), holds(0, 1), holds(0, 1), holds(0, 1), holds(1, 1), holds(1, 1)])
        with store(first, other) as (session, servers):
            session.write(fakes.PUT)
            self.assertEqual(self.told(session), [((0, 1), "update", None, False)])
            self.assertEqual(self.told(session), [])
            self.assertEqual(self.told(session), [])
            self.assertEqual(self.told(session), [((0, 1), "merge", 3, False)])
            self.assertEqual(self.told(session), [((0, 1), "merge", 3, True)])
            self.assertEqual(self.told(session), [])
            fates = [text for text in servers[0].came["lookups"] if text[2] == 0x23]
            self.assertEqual(fates, [fate(0, 1, 1)] * 4 + [fate(0, 1, 1, 1)])

    def test_it_is_asked_where_all_that_is_final_is_held(self):
        behind = fakes.frame(0x13, b"\x02" + fakes.vector(1))
        with store(([fakes.accepted(0, 1, 1)], [holds(1, 0, 9), behind, fakes.BEHIND]), ([], [holds(1, 5, 3), update(2, 1, 5, 3), merged(1, 1, 1, 5, 3)]), ([], [None, None])) as (session, servers):
            session.write(fakes.PUT)
            session.views.final = vector(1, 4, 3)
            # Server 0 holds less than is final, and server 1 tells the outcome of another Write of the name.
            self.assertEqual(self.told(session), [])
            self.assertEqual([server.came["lookups"][1:] for server in servers[:2]], [[fate(0, 1, 1, 4, 3)]] * 2)
            self.assertEqual(len(session.views.own), 1)

    def test_what_was_not_told_is_told_later(self):
        with store(([fakes.accepted(0, 1, 1)], [holds(1), None, None, holds(1), update(1, 1)])) as (session, _):
            session.write(fakes.PUT)
            self.assertEqual(self.told(session), [])
            self.assertEqual(self.told(session), [((0, 1), "update", None, True)])


class Files(unittest.TestCase):
    def setUp(self):
        folder = tempfile.TemporaryDirectory()
        self.addCleanup(folder.cleanup)
        self.folder, self.path = folder.name, os.path.join(folder.name, "kim.state")

    def has(self):
        with open(self.path + ".views", "rb") as file:
            return file.read()

    def put(self, text):
        with open(self.path + ".views", "wb") as file:
            file.write(text)

    def test_a_write_is_kept_as_own_before_its_request_is_forgotten(self):
        with store(([fakes.accepted(0, 1, 4)], []), ([], []), state=self.path) as (session, servers):
            with unittest.mock.patch("bayou._State.keep", side_effect=[None, bayou.BadState("cut off")]):
                self.assertRaisesRegex(bayou.BadState, "cut off", session.write, fakes.PUT)
            self.assertEqual(self.has(), summed(b"bayou-views-1 2\nfinal 0,0\nview 0 1,0\nown 0:1 4 untold\n"))
            self.assertEqual(servers[0].came["lookups"], [])
        self.assertEqual(os.stat(self.path + ".views").st_mode & 0o777, 0o600)
        self.assertEqual(sorted(os.listdir(self.folder)), ["kim.state", "kim.state.views"])

    def test_one_that_is_asked_again_is_followed_once(self):
        self.put(summed(b"bayou-views-1 2\nfinal 0,0\nown 0:1 1 none\n"))
        with store(([None, fakes.accepted(0, 1, 1)], []), ([], []), state=self.path) as (session, _):
            self.assertRaises(bayou.Lost, session.write, fakes.PUT)
            session.again()
        self.assertEqual(self.has(), summed(b"bayou-views-1 2\nfinal 0,0\nview 0 1,0\nown 0:1 1 none\n"))

    def test_another_session_goes_on(self):
        with store(([fakes.accepted(0, 1, 4, 0, 3)], [holds(1, 3), update(4, 1, 3)]), ([], [holds(0, 3)]), state=self.path) as (session, _):
            session.write(fakes.PUT)
            servers = [offered(item(1, 1, 1), item(1, 2, 2, 0, 1), item(1, 3, 3, 0, 2), item(0, 1, 4, 0, 3))]
            session.links[0].requests.close()
            _[0].replies["requests"] = iter(servers)
            self.assertEqual([change.is_final for change in session.changed()], [False])
            self.assertEqual(self.has(), summed(b"bayou-views-1 2\nfinal 0,3\nview 0 1,3\nview 1 0,3\nown 0:1 4 update\n"))
        with store(([], [holds(1, 3), update(4, 1, 3)]), ([], [holds(1, 3)]), state=self.path, number=7) as (session, _):
            self.assertTrue(session.is_final((1, 3)))
            self.assertEqual([(change.outcome.became, change.is_final) for change in session.changed()], [("update", True)])
        self.assertEqual(self.has(), summed(b"bayou-views-1 2\nfinal 1,3\nview 0 1,3\nview 1 1,3\n"))
        with bayou.Session([], state=self.path) as session:
            self.assertEqual((session.final(), session.changed()), (vector(1, 3), []))

    def test_it_is_kept_before_it_is_told(self):
        with store(([fakes.accepted(0, 1, 1)], [holds(1), update(1, 1)]), state=self.path) as (session, _):
            session.write(fakes.PUT)
            with unittest.mock.patch("bayou._put_whole", side_effect=OSError("no room")):
                self.assertRaisesRegex(bayou.BadState, "no room", session.changed)
            self.assertRaises(bayou.BadState, session.final)
        self.assertEqual(self.has(), summed(b"bayou-views-1 1\nfinal 0\nview 0 1\nown 0:1 1 untold\n"))

    def test_a_call_that_ends_at_any_moment_leaves_a_file_that_is_whole(self):
        new = summed(b"bayou-views-1 1\nfinal 2\nview 0 2\n")
        for before in (None, summed(b"bayou-views-1 1\nfinal 1\n")):
            left = []
            for name, at in (("open", 0), ("fsync", 0), ("rename", 0), ("fsync", 1)):
                self.put(before or b"")
                if before is None:
                    os.remove(self.path + ".views")
                with open(self.path + ".views.part", "wb") as file:
                    file.write(b"left by another")
                with store(([], [holds(2)]), state=self.path) as (session, _):
                    calls, real = [], getattr(os, name)

                    def call(*words, name=name, at=at, calls=calls, real=real):
                        calls.append(words)
                        if len(calls) == at + 1:
                            raise OSError("cut off")
                        return real(*words)
                    with unittest.mock.patch("bayou.os." + name, call):
                        self.assertRaisesRegex(bayou.BadState, "cut off", session.final)
                left.append(self.has() if os.path.exists(self.path + ".views") else None)
            self.assertEqual(left, [before, before, before, new])

    def test_a_file_that_keeps_none_is_refused_and_stays(self):
        for text in (b"", b"x", summed(b"bayou-views-1 1\nfinal 0\n")[:-1], summed(b"bayou-views-1 1\nfinal 0,0\n"), summed(b"bayou-views-2 1\nfinal 0\n")):
            self.put(text)
            with open(self.path, "wb") as file:
                file.write(fakes.journal(fakes.kept(1, 2, 3)) + b"\0")
            with self.assertRaisesRegex(bayou.BadState, "kim.state.views: it keeps no views: "):
                bayou.Session([], state=self.path)
            self.assertEqual(self.has(), text)
            with open(self.path, "rb") as file:
                self.assertEqual(file.read(), fakes.journal(fakes.kept(1, 2, 3)) + b"\0")
        os.remove(self.path + ".views")
        bayou.Session([], state=self.path).close()

    def test_one_of_another_number_of_servers_is_refused_and_stays(self):
        text = summed(b"bayou-views-1 3\nfinal 1,0,0\nview 0 1,0,0\nown 0:1 1 none\n")
        self.put(text)
        with store(([fakes.accepted(0, 2, 2, 1), fakes.seen(fakes.NUMBER, 2)], [holds(1)] * 3), ([], [holds(0)] * 3), state=self.path) as (session, _):
            for ask in (session.final, session.changed, lambda: session.is_final((0, 2))):
                self.assertRaisesRegex(bayou.BadState, "kim.state.views: it is of a store of 3 servers, and server 0 is of one of 2", ask)
            self.assertEqual(self.has(), text)
            self.assertEqual((session.is_final((0, 1)), session.read), (True, session.read))

    def test_an_older_server_tells_no_count_and_nothing_is_kept(self):
        with fakes.Fake([fakes.accepted(0, 1, 1)], welcome=None) as older, bayou.Session([older.address], state=self.path) as session:
            self.assertEqual(session.write(fakes.PUT).seq, 1)
        self.assertEqual(os.listdir(self.folder), ["kim.state"])

    def test_a_view_that_passed_is_kept_at_the_end(self):
        with store(([], [fakes.listed([("a", 1)], 1, 5)]), ([], []), state=self.path) as (session, _):
            session.list()
        self.assertEqual(self.has(), summed(b"bayou-views-1 2\nfinal 0,0\nview 0 1,5\n"))


if __name__ == "__main__":
    unittest.main()
