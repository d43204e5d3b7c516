"""Clients that ask side by side, each a process with one socket, whose requests are made beforehand: so they take little of the processors themselves."""
import itertools
import multiprocessing
import socket
import time

import apart  # noqa: F401 (where frames are found)
import frames

PATIENCE = 30  # seconds within which each reply comes
ROOM = 4096  # bytes, more than any reply here has


def link_to(port):
    link = socket.create_connection(("127.0.0.1", port), timeout=PATIENCE)
    link.setsockopt(socket.IPPROTO_TCP, socket.TCP_NODELAY, 1)
    return link


def ask(link, request, is_whole):
    """The reply to a request."""
    link.sendall(request)
    reply = link.recv(ROOM)
    while not is_whole(reply):
        more = link.recv(ROOM)
        if not more:
            raise ConnectionError("a server ended a connection")
        reply += more
    return reply


# What clients ask. Each gives so many requests at the most of the client of this number, and what tells whether a reply is whole, and the right one.

def is_frame(kind):
    return lambda reply: len(reply) > 2 and reply[2] == kind and len(reply) == 2 + (reply[0] << 8 | reply[1])


def writes(which, most):
    """Puts at a key of the client's own."""
    program = ([], [("put", f"c{which}", ("lit", which))], [])
    tags = ((which % frames.SESSIONS, which + 1, number) for number in range(1, most + 1))
    return [frames.write_request(tag, frames.ZERO, program) for tag in tags], is_frame(frames.ACCEPTED)


def reads(which, most):
    return itertools.repeat(frames.read_request(frames.ZERO, f"c{which}"), most), is_frame(frames.SEEN)


def command(*words):
    return b"*%d\r\n" % len(words) + b"".join(b"$%d\r\n%s\r\n" % (len(word), word.encode()) for word in words)


def sets(which, most):
    """The same at a Redis server."""
    return [command("SET", f"c{which}", str(number)) for number in range(most)], lambda reply: reply == b"+OK\r\n"


def gets(which, most):
    return itertools.repeat(command("GET", f"c{which}"), most), lambda reply: reply[:1] == b"$" and reply.count(b"\r\n") == 2


# How they ask.

def go_on(asked, port, which, most, begin, seconds, told):
    """Asks one after another, and tells how long each took."""
    requests, is_whole = asked(which, most)
    waits = []
    with link_to(port) as link:
        told.put(None)
        begin.wait()
        before = time.perf_counter()
        end = before + seconds
        for request in requests:
            ask(link, request, is_whole)
            after = time.perf_counter()
            waits.append(after - before)
            before = after
            if after >= end:
                break
    told.put(waits)


def together(asked, port, number, most, seconds):
    """What so many clients are served within this time, each asking as soon as it was answered, `most` times in all at the most."""
    begin, told = multiprocessing.Event(), multiprocessing.Queue()
    members = [multiprocessing.Process(target=go_on, args=(asked, port, which, most // number, begin, seconds, told), daemon=True) for which in range(number)]
    for member in members:
        member.start()
    for _ in members:
        told.get(timeout=PATIENCE)
    begin.set()
    waits = [told.get(timeout=seconds + PATIENCE) for _ in members]
    for member in members:
        member.join()
    return Figures(waits)


class Figures:
    """Of operations by several clients: how many there were a second, and how many milliseconds half of them and 99 of 100 took at the most."""

    def __init__(self, waits):
        self.rate = sum(len(own) / sum(own) for own in waits)
        self.all = sorted(itertools.chain.from_iterable(waits))
        self.half, self.most = self.within(0.5), self.within(0.99)

    def within(self, share):
        return self.all[min(len(self.all) - 1, int(len(self.all) * share))] * 1000
