"""Streams of bytes at random, several at a time, and what the server made of each: every reply is compared with what the pages say."""
import os
import random
import threading

import frames
import meaning
from host import Host, has

STREAMS = 10000
AT_ONCE = 32
SEED = "muldrekk 1"
KEYS = ["a", "b", "room", "room/9", "x-y_z.0"]


def some_value(dice):
    if dice.random() < 0.5:
        return dice.choice([0, 1, -1, 7, 2**63 - 1, -2**63])
    return dice.choice(["", "ann", "\u00e9\u20ac", "x" * 32])


def some_op(dice):
    key = dice.choice(KEYS)
    if dice.random() < 0.2:
        return ("del", key)
    term = dice.choice([("lit", some_value(dice)), ("copy", dice.choice(KEYS)), ("plus", dice.choice(KEYS), dice.choice([1, -1, 2**62]))])
    return ("put", key, term)


def some_condition(dice):
    key = dice.choice(KEYS)
    return dice.choice([("equals", key, some_value(dice)), ("absent", key), ("atleast", key, dice.choice([-3, 0, 5])),
                        ("atmost", dice.choice(["", "room", "room/", "b", "z"]), dice.choice([0, 1, 2, 4, frames.MAX_NUMBER]))])


def some_program(dice):
    def some(one, most):
        return [one(dice) for _ in range(dice.randint(0, most))]

    return (some(some_condition, 2), some(some_op, 3), [(some(some_condition, 2), some(some_op, 3)) for _ in range(dice.randint(0, 2))])


def some_need(dice):
    if dice.random() < 0.7:
        return frames.ZERO
    return frames.counts(dice.choice([1, 2, 50, 500, 65536]), dice.choice([0, 0, 0, 1]))


def some_tag(dice):
    return (dice.randrange(frames.SESSIONS), dice.choice([1, 2, frames.MAX_NUMBER]), dice.randint(1, frames.MAX_NUMBER))


def some_request(dice, may_write):
    kind = dice.random()
    if kind < 0.35 and may_write:
        return frames.write_request(some_tag(dice), some_need(dice), some_program(dice))
    if kind < 0.9:
        return frames.read_request(some_need(dice), dice.choice(KEYS))
    if kind < 0.95:
        return frames.frame(frames.REOPEN)
    if kind < 0.96:
        return frames.frame(frames.DUMP)
    return frames.offer_request(frames.counts(dice.choice([0, 1, 1000, 65536]), dice.choice([0, 3])))


def requests(dice, may_write=True):
    return b"".join(some_request(dice, may_write) for _ in range(dice.randint(1, 4)))


def noise(dice):
    """Bytes at random."""
    number = dice.choice([0, 1, 2, 3, 40, 300, 9000])
    return dice.getrandbits(8 * number + 1).to_bytes(number + 1, "big")[1:]


def shaped(dice):
    """A frame of a kind that there is, with a payload at random."""
    payload = noise(dice)[:frames.MAX_FRAME - 1]
    return frames.frame(dice.choice(list(frames.PAYLOADS)), payload) + noise(dice)


def fronted(dice):
    """Requests, and bytes at random after them."""
    return requests(dice) + noise(dice)


def flipped(dice):
    """Requests of which one byte is changed."""
    data = bytearray(requests(dice))
    data[dice.randrange(len(data))] ^= 1 << dice.randrange(8)
    return bytes(data)


def cut(dice):
    """Requests of which the end is missing."""
    data = requests(dice)
    return data[:dice.randrange(len(data))]


def whole(dice):
    """Requests."""
    return requests(dice)


KINDS = [noise, shaped, fronted, flipped, cut, whole, flipped]


class Stream:
    """One stream: what is sent, what comes, and how it ended."""

    def __init__(self, number):
        self.dice = random.Random("%s %d" % (SEED, number))
        # One in eight goes away as soon as it has sent, and reads nothing: it has no Write, since nobody would hear of it.
        self.is_gone = number % 8 == 7
        self.sent = requests(self.dice, False) if self.is_gone else KINDS[number % 8](self.dice)
        self.came, self.fault = b"", None

    def send(self, connection):
        at = 0
        while at < len(self.sent):
            most = self.dice.choice([1, 7, 100, 100000])
            connection.send(self.sent[at:at + most])
            at += most

    def run(self, host):
        with host.connect() as connection:
            asked, how = frames.frames_of(self.sent)
            is_bad = how == "bad" or any(said[0] >= frames.SEEN for said, _ in asked)
            try:
                self.send(connection)
                if self.is_gone:
                    return connection.reset()
                # What is no request is to end the connection by itself.
                if not is_bad:
                    connection.end()
            except (BrokenPipeError, ConnectionResetError):
                pass
            self.came = connection.rest()


def work(host, streams, lock):
    while True:
        with lock:
            if not streams:
                return
            stream = streams.pop()
        try:
            stream.run(host)
        except Exception as fault:
            stream.fault = fault


def run_all(host, streams):
    left, lock = list(reversed(streams)), threading.Lock()
    threads = [threading.Thread(target=work, args=(host, left, lock)) for _ in range(AT_ONCE)]
    for thread in threads:
        thread.start()
    for thread in threads:
        thread.join()


def asked_of(data):
    """The requests with which the bytes begin, up to the first that is none."""
    asked = []
    for said, _ in frames.frames_of(data)[0]:
        if said[0] >= frames.SEEN:
            break
        asked.append(said)
    return asked


def replies_of(data):
    """The replies, each a list of what its frames say; None where the bytes are none."""
    replies, items = [], []
    told, how = frames.frames_of(data)
    for said, _ in told:
        items.append(said)
        if said[0] != frames.ITEM:
            replies.append(items)
            items = []
    return replies if how == "whole" and not items else None


class Books:
    """What was replied, and the Writes that it tells of."""

    def __init__(self, dumped):
        self.dumped = dumped
        self.accepted, self.tags = {}, {}
        self.databases = [{}]
        for write in dumped:
            self.databases.append(meaning.behind(write[4], self.databases[-1]))

    def is_read(self, need, key, reply):
        if reply[0] == frames.REFUSED:
            return reply[1][0] == frames.BEHIND and self.is_held(reply[1][1]) and not frames.dominates(reply[1][1], need)
        if reply[0] != frames.SEEN or not self.is_held(reply[2]) or not frames.dominates(reply[2], need):
            return False
        value = self.databases[reply[2][0]].get(key)
        return type(reply[1]) is type(value) and reply[1] == value

    def is_held(self, vector):
        return vector == frames.counts(vector[0]) and vector[0] <= len(self.dumped)

    def is_write(self, tag, need, program, reply):
        if reply[0] == frames.REFUSED:
            return reply[1][0] == frames.BEHIND and self.is_held(reply[1][1]) and not frames.dominates(reply[1][1], need)
        if reply[0] != frames.ACCEPTED or not frames.dominates(reply[3], need):
            return False
        seq = reply[1][1]
        is_new = seq not in self.accepted
        self.accepted[seq], self.tags[seq] = program, tag
        return is_new and reply == (frames.ACCEPTED, (0, seq), seq, frames.counts(seq - 1))

    def is_sent(self, first, reply):
        """Whether these are the Writes from there on, as many as were held then."""
        writes = [item[1] for item in reply[:-1]]
        return writes == self.dumped[first:first + len(writes)] and reply[-1] == (frames.END, len(writes))

    def is_told(self, asked, reply):
        kind = asked[0]
        if kind == frames.DUMP:
            return self.is_sent(0, reply)
        if kind == frames.OFFER:
            return self.is_sent(asked[1][0], reply)
        if len(reply) != 1:
            return False
        if kind == frames.READ:
            return self.is_read(asked[1], asked[2], reply[0])
        if kind == frames.WRITE:
            return self.is_write(asked[1], asked[2], asked[3], reply[0])
        return reply[0] == (frames.REFUSED, (frames.NOT_DOWN,))

    def is_answered(self, stream):
        """Whether each request has its reply, in order, and nothing else came."""
        if stream.fault is not None:
            return False
        if stream.is_gone:
            return True
        asked, replies = asked_of(stream.sent), replies_of(stream.came)
        return replies is not None and len(replies) == len(asked) and all(self.is_told(*pair) for pair in zip(asked, replies))


def dump(host):
    with host.connect() as connection:
        reply = connection.ask(frames.frame(frames.DUMP))
    return [said[1] for said, _ in frames.frames_of(reply)[0][:-1]]


def at_random(checks, program, folder):
    path = os.path.join(folder, "streams")
    streams = [Stream(number) for number in range(STREAMS)]
    with Host(program, path, STREAMS + 1) as host:
        run_all(host, streams)
        # (the threads count down one number, and may miss some)
        host.left = 1
        books = Books(dump(host))
        for number, stream in enumerate(streams):
            checks.that("stream %d, %s => %s, %s" % (number, stream.sent.hex()[:400], stream.came.hex()[:400], stream.fault), books.is_answered(stream), True)
        held = len(books.dumped)
        checks.that("the Writes are those accepted", books.accepted, {write[1]: write[4] for write in books.dumped})
        settled = ("settled 0 accepted %d adopted 0" % len(books.accepted), "log 0 at %d,0" % held, 0, "")
        checks.that("the books of all streams", host.settle(), settled)
    bodies = [frames.own_record(books.tags.get(write[1], (0, 0, 0)), frames.write_bytes(write)) for write in books.dumped]
    checks.that("the journal of all streams", has(path), frames.journal(0, bodies))
    with Host(program, path, 1) as host:
        checks.that("what a second start holds", dump(host), books.dumped)
        checks.that("the books of a second start", host.settle(), ("settled 0 accepted 0 adopted 0", "log 0 at %d,0" % held, 0, ""))
