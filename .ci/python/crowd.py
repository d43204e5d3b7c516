"""Many connections at once, each of which writes and reads."""
import os
import threading

import frames
from host import SECONDS, Host

CONNECTIONS = 200


def visit(connection, number, all_there, told):
    """One connection's part: once all are there, it reads, writes and reads its own Write, and waits for the others before each."""
    key = "guest/%d" % number
    program = ([], [("put", key, ("lit", number))], [])
    try:
        all_there.wait(SECONDS)
        first = frames.frames_of(connection.ask(frames.read_request(frames.ZERO, key)))[0][0][0]
        all_there.wait(SECONDS)
        wrote = frames.frames_of(connection.ask(frames.write_request((number % frames.SESSIONS, 1, number + 1), frames.ZERO, program)))[0][0][0]
        need = list(wrote[3])
        need[wrote[1][0]] = wrote[1][1]
        all_there.wait(SECONDS)
        seen = frames.frames_of(connection.ask(frames.read_request(tuple(need), key)))[0][0][0]
        told[number] = (first, wrote, seen)
    except Exception as fault:
        told[number] = fault


def together(checks, program, folder):
    told = [None] * CONNECTIONS
    with Host(program, os.path.join(folder, "crowd"), CONNECTIONS) as host:
        connections = [host.connect() for _ in range(CONNECTIONS)]
        all_there = threading.Barrier(CONNECTIONS)
        threads = [threading.Thread(target=visit, args=(connection, number, all_there, told)) for number, connection in enumerate(connections)]
        for thread in threads:
            thread.start()
        for thread in threads:
            thread.join()
        for connection in connections:
            connection.close()
        names = set()
        for number, answers in enumerate(told):
            if not isinstance(answers, tuple):
                checks.that("connection %d of many" % number, answers, "replies")
                continue
            first, wrote, seen = answers
            names.add(wrote[1])
            seq = wrote[1][1]
            checks.that("connection %d reads nothing first" % number, first, (frames.SEEN, None, frames.ZERO))
            checks.that("connection %d writes" % number, wrote, (frames.ACCEPTED, (0, seq), seq, frames.counts(seq - 1)))
            checks.that("connection %d reads its Write" % number, seen, (frames.SEEN, number, frames.counts(CONNECTIONS)))
        checks.that("the names of many", names, {(0, seq) for seq in range(1, CONNECTIONS + 1)})
        books = "settled 0 accepted %d adopted 0" % CONNECTIONS
        checks.that("the books of many", host.settle(), (books, "log 0 at %d,0" % CONNECTIONS, 0, ""))
