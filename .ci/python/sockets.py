"""Tries the server at a socket from another language. Call: python3 sockets.py PROGRAM. Its last line is 'N passed, M failed'."""
import itertools
import os
import resource
import sys
import tempfile
import traceback

import crowd
import frames
import rows
import streams
from checks import Checks
from host import Host, begin, has, put

sys.path.insert(0, os.path.join("..", "clients", "python"))
import bayou  # noqa: E402

P = frames.frames_of(rows.ROWS[5][0])[0][0][0][3]
NUMBERS = itertools.count(1)
READ_ROOM = frames.read_request(frames.ZERO, "room")


def write_p(number=None):
    """A request to accept P: the first session's at that place in the first run, or at one that nobody used."""
    return frames.write_request((0, 1, next(NUMBERS) if number is None else number), frames.ZERO, P)


def bodies_of(writes):
    return [frames.write_bytes(write) for write in writes]


def own_writes(number, program=P):
    """The Writes of a first server that has accepted so many, and nobody else's."""
    return [(0, seq, seq, frames.counts(seq - 1), program) for seq in range(1, number + 1)]


def accepted(seq):
    """The reply to a Write of the first server's that it is given this number, where nobody else's are held."""
    return frames.frame(frames.ACCEPTED, frames.write_bytes(own_writes(seq)[-1])[:9 + len(frames.vector_bytes(frames.ZERO))])


def seen(number, vector):
    return frames.frame(frames.SEEN, frames.value_bytes(number) + frames.vector_bytes(vector))


def settles(checks, name, host, accepted, adopted, held):
    books = "settled 0 accepted %d adopted %d" % (accepted, adopted)
    checks.that(name + ": the books", host.settle(), (books, "log 0 at %d,0" % held, 0, ""))


def spelled(checks):
    """The client's own spellings are those of the rows."""
    for request, reply in rows.ROWS:
        for data in (request, reply):
            for said, own in frames.frames_of(data)[0]:
                checks.that("the spelling of " + own.hex(), frames.frames_of(own), ([(said, own)], "whole"))
    checks.that("a Write request", write_p(1), rows.said("005d 06 00 00000001 00000001 0*64 P"))
    checks.that("a read request", READ_ROOM, rows.said("0046 01 0*64 04 726f6f6d"))
    checks.that("an Offer", frames.offer_request(frames.counts(1)), rows.said("0041 05 V"))
    checks.that("a Write", frames.write_bytes(own_writes(1)[0]), rows.BODIES[0])
    page = bytes.fromhex("4241594f554a4e4c 03 02 0001 00 43d1161222cb85efaba938d2c9ba3de88aad750dea03dfebad484f0b210d3116"
                         "0002 0102 36b1d7eb34fb45a24f051e2a92e56870598393ea5f27e961b1d3725ed3c2cb93")
    checks.that("a journal", frames.journal(2, [b"\x00", b"\x01\x02"]), page)


def one_by_one(connection, requests):
    return [connection.ask(request) for request in requests]


def at_once(connection, requests):
    connection.send(b"".join(requests))
    return [connection.reply() for _ in requests]


def byte_by_byte(connection, requests):
    replies = []
    for request in requests:
        for at in range(len(request)):
            connection.send(request[at:at + 1])
        replies.append(connection.reply())
    return replies


def answered(checks, program, folder):
    """Rows of requests, over one connection and over one for each, with the journal that they leave."""
    requests = [request for request, _ in rows.ROWS]
    expected = [reply for _, reply in rows.ROWS]
    for sending in (one_by_one, at_once, byte_by_byte):
        path = os.path.join(folder, sending.__name__)
        with Host(program, path, 1) as host:
            with host.connect() as connection:
                replies = sending(connection, requests)
                connection.end()
                behind = connection.rest()
            for request, told, reply in zip(requests, replies, expected):
                checks.that("%s: %s" % (sending.__name__, request.hex()), told.hex(), reply.hex())
            checks.that(sending.__name__ + ": the end", behind, b"")
            settles(checks, sending.__name__, host, len(rows.BODIES), 0, len(rows.BODIES))
        checks.that(sending.__name__ + ": the journal", has(path), frames.journal(0, rows.RECORDS))
    path = os.path.join(folder, "anew")
    with Host(program, path, len(rows.ROWS)) as host:
        for request, reply in rows.ROWS:
            with host.connect() as connection:
                checks.that("a connection for " + request.hex(), connection.ask(request).hex(), reply.hex())
        settles(checks, "a connection each", host, len(rows.BODIES), 0, len(rows.BODIES))


def refuses_streams(checks, program, folder):
    """What is no request has no reply, and ends the connection; what was asked before it was done."""
    path = os.path.join(folder, "no-requests")
    with Host(program, path, 2 * len(rows.NO_REQUESTS) + 1) as host:
        for number, bad in enumerate(rows.NO_REQUESTS):
            with host.connect() as connection:
                connection.send(bad)
                checks.that("no request: " + bad.hex(), connection.rest(), b"")
            with host.connect() as connection:
                connection.send(write_p() + bad + READ_ROOM)
                checks.that("a Write, and then no request: " + bad.hex(), connection.rest().hex(), accepted(number + 1).hex())
        settles(checks, "no requests", host, len(rows.NO_REQUESTS), 0, len(rows.NO_REQUESTS))


def starts(checks, program, folder):
    """Words and files with which nothing is served, and journals that are cut."""
    writes = own_writes(3)
    good = frames.journal_of(0, bodies_of(writes))
    gap = frames.journal_of(0, bodies_of(writes[:1] + writes[2:]))
    usage = "bayou_socket_host: the words are a journal's file and how many connections are served, 1 to 65536\n"
    path = os.path.join(folder, "starts")
    for words in [(None, None), (path, None), (path, "0"), (path, "65537"), (path, "-1"), (path, "many")]:
        checks.that("the words %s, %s" % words, begin(program, *words), (2, "", usage))
    files = [(b"BAYOUJNM\x01\x00", "not a journal"), (b"BAYOUJNL\x04\x00", "not a journal"), (b"BAYOUJNL\x04", "not a journal"), (b"BAYOUJNL\x02\x08", "the journal of another server"), (b"B\x00", "not a journal"),
             (frames.journal(1, []), "the journal of another server"), (gap, "a bad entry in the journal"),
             (frames.journal(0, [b"\x00"]), "a bad entry in the journal")]
    for content, word in files:
        put(path, content)
        checks.that("a file that has %s" % content[:12], begin(program, path, "1"), (3, "", "bayou_socket_host: %s\n" % word))
        checks.that("the file", has(path), content)
    for place in (os.path.join(folder, "absent", "a"), folder):
        checks.that(place, begin(program, place, "1"), (3, "", "bayou_socket_host: device\n"))
    for cut, held in [(0, 0), (3, 0), (10, 0), (len(good) - 1, 2), (len(good) - 33, 2), (len(good), 3)]:
        put(path, good[:cut])
        with Host(program, path, 1) as host:
            checks.that("a file that another process holds", begin(program, path, "1"), (3, "", "bayou_socket_host: device\n"))
            with host.connect() as connection:
                dump = b"".join(frames.frame(frames.ITEM, body) for body in bodies_of(writes[:held]))
                dump += frames.frame(frames.END, held.to_bytes(4, "big"))
                checks.that("what a cut journal has", connection.ask(frames.frame(frames.DUMP)), dump)
            settles(checks, "a cut journal", host, 0, 0, held)
        checks.that("a cut journal", has(path), frames.journal_of(0, bodies_of(writes[:held])))


def limit(host, size):
    """No file of the host's grows beyond this from now on."""
    resource.prlimit(host.process.pid, resource.RLIMIT_FSIZE, (size, resource.RLIM_INFINITY))


def fails(checks, program, folder):
    """A file that takes no more: a Write is in doubt, until the journal is opened again, whatever it has then."""
    path = os.path.join(folder, "fails")
    writes = bodies_of(own_writes(3))
    with Host(program, path, 1, may_fail=True) as host:
        connection = host.connect()

        def asks(name, request, reply):
            checks.that("a journal that fails: " + name, connection.ask(request).hex(), reply.hex())

        none_adopted = frames.frame(frames.REOPENED, b"\x00")
        reopen = frames.frame(frames.REOPEN)
        one = frames.journal_of(0, writes[:1])
        asks("a Write", write_p(1), accepted(1))
        limit(host, len(one) + 20)
        asks("a Write that fails", write_p(2), frames.refused(frames.JOURNAL))
        checks.that("what it leaves", has(path), frames.journal_of(0, writes[:2])[:len(one) + 20])
        asks("a Write behind it", write_p(3), frames.refused(frames.DOWN))
        asks("a read", READ_ROOM, seen(1, frames.counts(1)))
        asks("a dump", frames.frame(frames.DUMP), frames.frame(frames.ITEM, writes[0]) + frames.frame(frames.END, b"\x00\x00\x00\x01"))
        asks("a reopening", reopen, none_adopted)
        checks.that("what a reopening leaves", has(path), one)
        asks("a second one", reopen, frames.refused(frames.NOT_DOWN))
        asks("another Write that fails", write_p(2), frames.refused(frames.JOURNAL))
        put(path, frames.journal_of(0, writes[:1] + [writes[2]]))
        asks("a reopening with another entry", reopen, frames.refused(frames.BAD_RECORD, (1).to_bytes(4, "big")))
        put(path, frames.journal(0, []))
        asks("a reopening with less", reopen, frames.refused(frames.LOST))
        put(path, b"BAYOUJNM")
        asks("a reopening with no journal", reopen, frames.refused(frames.JOURNAL))
        asks("a Write, once more", write_p(3), frames.refused(frames.DOWN))
        put(path, frames.journal_of(0, writes[:2]))
        asks("a reopening with the Write in doubt", reopen, frames.frame(frames.REOPENED, b"\x01" + writes[1][:5]))
        limit(host, resource.RLIM_INFINITY)
        asks("a Write, at last", write_p(3), accepted(3))
        connection.close()
        settles(checks, "a journal that fails", host, 2, 1, 3)
    checks.that("a journal that failed", has(path), frames.journal_of(0, writes))


def fills(checks, program, folder):
    """A log that holds as many Writes as it may, but for one."""
    path = os.path.join(folder, "fills")
    writes = own_writes(frames.MAX_COUNT)
    put(path, frames.journal_of(0, bodies_of(writes[:-1])))
    with Host(program, path, 1) as host:
        with host.connect() as connection:
            checks.that("the last Write", connection.ask(write_p(frames.MAX_COUNT)), accepted(frames.MAX_COUNT))
            checks.that("one more", connection.ask(write_p(frames.MAX_COUNT + 1)), frames.refused(frames.LOG_FULL))
            full = frames.counts(frames.MAX_COUNT)
            checks.that("a read", connection.ask(READ_ROOM), seen(1, full))
        settles(checks, "a full log", host, 1, 0, frames.MAX_COUNT)


def asks_again(checks, program, folder):
    """A Write that is asked again acts once, also after a connection that is lost and a server that is killed, and its tag is used up."""
    path = os.path.join(folder, "again")
    tag, other, third = (3, 1, 7), (4, 1, 7), (3, 2, 1)
    used = frames.refused(frames.TAG_USED)

    def asks(name, connection, tag, reply, need=frames.ZERO, program=P):
        checks.that("asked again: " + name, connection.ask(frames.write_request(tag, need, program)).hex(), reply.hex())

    with Host(program, path, 1) as host:
        with host.connect() as connection:
            asks("the first time", connection, tag, accepted(1))
            asks("once more", connection, tag, accepted(1))
            asks("another program", connection, tag, used, program=([], [("put", "room", ("lit", 2))], []))
            asks("a need that it hasn't", connection, tag, used, need=frames.counts(1))
            asks("another session", connection, other, accepted(2))
            asks("the first one, behind another", connection, tag, accepted(1))
        settles(checks, "asked again", host, 2, 0, 2)
    with Host(program, path, 2) as host:
        lost = host.connect()
        lost.send(frames.write_request(third, frames.ZERO, P))
        lost.reset()
        with host.connect() as connection:
            asks("behind a connection that was lost", connection, third, accepted(3))
        host.kill()
    with Host(program, path, 1) as host:
        with host.connect() as connection:
            asks("behind a kill", connection, third, accepted(3))
            asks("the first one, behind a kill", connection, tag, accepted(1))
            asks("another program, behind a kill", connection, other, used, program=([], [], []))
        settles(checks, "asked again behind a kill", host, 0, 0, 3)
    bodies = [frames.own_record(tag, body) for tag, body in zip((tag, other, third), bodies_of(own_writes(3)))]
    checks.that("asked again: the journal", has(path), frames.journal(0, bodies))


def as_in_a_line(program):
    """A program of frames.py as the client's users write it."""
    def condition(it):
        return list(it)

    def op(it):
        if it[0] == "del":
            return list(it)
        word, term = it[2][0], list(it[2])
        return [it[0], it[1], term[1] if word == "lit" else term]
    check, update, merge = program
    return {"check": [condition(it) for it in check], "update": [op(it) for it in update],
            "merge": [{"when": [condition(it) for it in when], "ops": [op(it) for it in ops]} for when, ops in merge]}


def by_the_client(checks, program, folder):
    """The client that users copy: the Writes of the rows by its sessions, each reply as it tells it, and just their entries in the journal."""
    path = os.path.join(folder, "client")
    writes = [frames.frames_of(frames.frame(frames.ITEM, body))[0][0][0][1] for body in rows.BODIES]
    with Host(program, path, 4) as host:
        address = "127.0.0.1:%d" % host.port
        with bayou.Session([address], ["ryw", "mr", "wfr", "mw"], number=2, run=9) as session:
            host.left -= 1
            for write in writes:
                told = session.write(as_in_a_line(write[4]))
                checks.that("the client's Write %d" % write[1], (told.origin, told.seq, told.clock), write[:3])
            checks.that("what its session wrote", session.has_written, frames.counts(len(writes)))
            for key, value in (("room", 5), ("hall", None), ("sum", 5)):
                checks.that("the client reads " + key, session.read(key), value)
            checks.that("what its session read", session.has_read, frames.counts(len(writes)))
            checks.that("the client's dump", session.links[0].dump(), [frames.write_bytes(write[:3] + (frames.counts(write[1] - 1),) + write[4:]) for write in writes])
            told = "was reopened"
            try:
                session.links[0].reopen()
            except bayou.NotDown:
                told = "is up"
            checks.that("the client asks for a reopening", told, "is up")
        again_at(checks, host, address, len(writes))
        settles(checks, "the client", host, len(writes) + 1, 0, len(writes) + 1)
    bodies = [frames.own_record((2, 9, place), frames.write_bytes(write[:3] + (frames.counts(write[1] - 1),) + write[4:])) for place, write in enumerate(writes, 1)]
    bodies.append(frames.own_record((3, 9, 1), frames.write_bytes(own_writes(len(writes) + 1)[-1])))
    checks.that("the client's journal", has(path), frames.journal(0, bodies))


def again_at(checks, host, address, held):
    """A Write that the client loses the reply to, and asks again: it is one Write."""
    with bayou.Session([address], ["wfr"], number=3, run=9) as session:
        host.left -= 2
        link, send = session.links[0], bayou._Connection.reply

        def lose(_, kinds):
            raise bayou.Lost("tried")
        bayou._Connection.reply = lose
        try:
            session.write(as_in_a_line(P))
        except bayou.Lost:
            checks.that("a lost reply closes the client's connection", link.requests.socket, None)
        finally:
            bayou._Connection.reply = send
        checks.that("the client's Write, asked again", session.again().seq, held + 1)


def main():
    program = os.path.abspath(sys.argv[1])
    checks = Checks()
    spelled(checks)
    with tempfile.TemporaryDirectory() as folder:
        for group in (answered, refuses_streams, starts, fails, fills, asks_again, by_the_client, crowd.together, streams.at_random):
            try:
                group(checks, program, folder)
            except Exception:
                checks.failed += 1
                print("%s ended early:" % group.__name__)
                traceback.print_exc(file=sys.stdout)
    print("%d passed, %d failed" % (checks.passed, checks.failed))
    return 1 if checks.failed else 0


if __name__ == "__main__":
    sys.exit(main())
