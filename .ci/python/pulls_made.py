"""What pulls are tried with: Writes of several servers, the server that holds them, the one that pulls, and what the calls of that say."""
import hashlib
import os
import tempfile

import frames
from living import Server

# Server 1 of four is the one that pulls, and server 0 has Writes of all the others.
COUNT, PULLER = 4, 1
ORIGINS = (0, 2, 3)
LIMIT = ["--limit", "65536"]


def in_memory():
    """A folder in memory, where it can be: there no sync takes time but what it is given."""
    return tempfile.TemporaryDirectory(dir=next(filter(os.path.isdir, ["/dev/shm", tempfile.gettempdir()])))


def writes_of(number):
    """So many Writes, each made by a server that held all before it: a pull brings them in this order."""
    held = [0] * COUNT
    for at in range(number):
        origin, deps = ORIGINS[at % len(ORIGINS)], frames.counts(*held)
        held[origin] += 1
        yield frames.write_bytes((origin, held[origin], at + 1, deps, ([], [("put", "k%03d" % (at % 500), ("lit", at))], [])))


def vector_of(number):
    """The counts of the first so many of them, as a server prints them."""
    return ",".join(str(sum(ORIGINS[at % len(ORIGINS)] == origin for at in range(number))) for origin in range(COUNT))


def name_of(number):
    """The name of the Write of this number, from 1 on, as it is printed."""
    return "%d:%d" % (ORIGINS[(number - 1) % len(ORIGINS)], (number - 1) // len(ORIGINS) + 1)


def path_in(folder, index=PULLER):
    return os.path.join(folder, "server-%d.journal" % index)


def source(program, folder, writes):
    """A server that holds these Writes."""
    with open(path_in(folder, 0), "wb") as journal:
        journal.write(frames.journal_of(0, writes))
    server = Server(program, folder, 0, COUNT, words=LIMIT)
    assert server.serving() is not None, "the server that has the Writes doesn't serve"
    return server


def puller(program, folder, port, **more):
    """A server that pulls from the one at this port, over the journal in the folder, or over a new one."""
    return Server(program, folder, PULLER, COUNT, peers=[(0, port)], new=not os.path.exists(path_in(folder)), words=LIMIT, **more)


def content(path):
    with open(path, "rb") as file:
        return file.read()


def entries(whole):
    """The bodies of the whole entries with which a journal begins, and where each of them ends; the header's end stands first."""
    bodies, ends, digest = [], [frames.HEADER], hashlib.sha256(whole[:frames.HEADER]).digest()
    while True:
        at = ends[-1]
        end = at + 2 + int.from_bytes(whole[at:at + 2], "big") + 32
        if end == at + 34 or end > len(whole) or hashlib.sha256(digest + whole[at:end - 32]).digest() != whole[end - 32:end]:
            return bodies, ends
        digest = whole[end - 32:end]
        bodies.append(whole[at + 2:end - 32])
        ends.append(end)


class Calls:
    """What the calls that were written down in a file say of a journal that had so many bytes as they began."""

    def __init__(self, path, journal, size):
        self.pieces, self.sizes = [], [(0, size)]
        files, written, at = set(), size, 0
        for line in content(path).split(b"\n")[:-1]:
            at += len(line) + 1
            words = line.decode().split(" ", 2)
            if words[0] == "open" and words[2] == journal:
                files.add(words[1])
            elif words[0] == "append" and int(words[2]) > 0:
                self.pieces.append((written, written + int(words[2])))
                written = self.pieces[-1][1]
            elif words[0] == "cut":
                written = int(words[2])
            elif words[0] == "sync" and words[1] in files:
                self.sizes.append((at, written))

    def synced(self, at=None):
        """How many bytes of the journal were synced as the file had so many bytes, or by its end."""
        return [size for before, size in self.sizes if at is None or before <= at][-1]

    def syncs_within(self, before, behind):
        """How many syncs of the journal were written down as the file grew so."""
        return sum(before < at <= behind for at, _ in self.sizes[1:])
