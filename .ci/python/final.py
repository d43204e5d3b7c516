"""What the client in python tells as final stays so, and is reported once. Call: final.py PROGRAM [SECONDS [SEED]]."""
import json
import os
import random
import subprocess
import sys
import tempfile
import threading
import time

import frames
import meaning
from checks import Checks
from living import SECONDS, Server
from meeting import free_port, soon
from ways import AtRandom

sys.path.insert(0, os.path.join("..", "clients", "python"))
import bayou  # noqa: E402

SERVERS = 3
KEYS = ["a", "b", "c", "d", "e"]
# How many Writes are to become final while servers are under load, a second, and for how many seconds one of the watcher's own is to be reported as final then.
LEAST_FINAL, LEAST_TOLD = 5, 4
# How long a pause between two Writes of a writer, and between two of the watcher, is: no more than 64 of the watcher's are to wait until they are final.
WRITER_REST, WATCHER_REST = 0.03, 0.4
# A server that is killed ends its connections. One that is slow isn't silent before so many seconds.
TIMEOUT = 10.0


def text_of(outcome):
    return outcome.became if outcome.alternative is None else "%s %d" % (outcome.became, outcome.alternative)


def any_program(draw):
    """A program on few keys, whose outcome depends on what stands before it."""
    def condition():
        key = draw.choice(KEYS)
        return draw.choice([["absent", key], ["equals", key, draw.randrange(3)], ["atleast", key, draw.randrange(4)]])

    def ops():
        key = draw.choice(KEYS)
        return [draw.choice([["put", key, draw.randrange(3)], ["put", key, ["plus", draw.choice(KEYS), 1]], ["del", key]])]
    return {"check": [condition()], "update": ops(), "merge": [{"when": [condition()], "ops": ops()} for _ in range(draw.randrange(4))]}


class Held:
    """What a server held at some time, by a dump: the Writes in stamp order, the vector of each beginning of them, and what became of each."""

    def __init__(self, name, dump):
        writes = sorted((self.write_of(body) for body in dump), key=lambda write: (write[2], write[0]))
        self.name, self.beginnings, self.became, self.databases = name, [frames.ZERO], {}, [{}]
        self.clocks = {(origin, seq): clock for origin, seq, clock, _, _ in writes}
        database = {}
        for origin, seq, _, _, program in writes:
            vector = list(self.beginnings[-1])
            vector[origin] += 1
            self.beginnings.append(tuple(vector))
            self.became[origin, seq], database = meaning.became(program, database)
            self.databases.append(database)

    @staticmethod
    def write_of(body):
        return frames.Bytes(body).write()

    def vector(self):
        return self.beginnings[-1]

    def has_lost(self, last):
        """Whether it has a Write that the servers have lost by the time of the last dump: its name is another's by then, or nobody's."""
        return any(last.clocks.get(name) != clock for name, clock in self.clocks.items())

    def begins_with(self, final):
        """Whether its first Writes are just those that the vector covers, where it holds all of them."""
        return not frames.dominates(self.vector(), final) or self.beginnings[sum(final)] == final


class Store:
    """Three servers that live, and the ways between them."""

    def __init__(self, program, folder, count, seed, chance):
        self.program, self.folder, self.count = program, folder, count
        self.ports = [free_port() for _ in range(count)]
        pairs = [(puller, other) for puller in range(count) for other in range(count) if other != puller]
        self.ways = {pair: AtRandom(self.ports[pair[1]], seed + at, chance) for at, pair in enumerate(pairs)}
        self.addresses = ["127.0.0.1:%d" % port for port in self.ports]
        self.servers = [self.start(index, True) for index in range(count)]

    def start(self, index, new=False):
        peers = [(other, self.ways[index, other].port) for other in range(self.count) if other != index]
        server = Server(self.program, self.folder, index, self.count, self.ports[index], peers, new=new, words=["--every", "1"])
        assert server.serving() is not None, "server %d doesn't serve: %r" % (index, server.told.all())
        return server

    def restart(self, index):
        self.servers[index] = self.start(index)

    def restore(self, index):
        """The server, which has lost its journal, is made again of what all others hold, whom it reaches."""
        os.remove(os.path.join(self.folder, "server-%d.journal" % index))
        peers = [(other, self.ports[other]) for other in range(self.count) if other != index]
        server = Server(self.program, self.folder, index, self.count, self.ports[index], peers, words=["--every", "1", "--restore"])
        assert server.serving() is not None, "server %d isn't restored: %r" % (index, server.told.all())
        self.servers[index] = server

    def turn(self, chance, pairs=None):
        """Closes the ways so often from now on."""
        for pair in pairs or self.ways:
            self.ways[pair].chance = chance

    def dump(self, index):
        """What the server holds, or None where it can't be asked."""
        link = bayou.Link(self.addresses[index])
        try:
            return link.dump()
        except bayou.BayouError:
            return None
        finally:
            link.close()

    def vectors(self):
        found = []
        for index, address in enumerate(self.addresses):
            link = bayou.Link(address, server=index)
            try:
                found.append(link.vector())
            finally:
                link.close()
        return found

    def have_met(self):
        vectors = self.vectors()
        return all(vector == vectors[0] for vector in vectors)

    def end(self):
        for server in self.servers:
            server.kill()
        for way in self.ways.values():
            way.end()


class Watcher:
    """A session that writes, looks, and notes what it heard."""

    def __init__(self, addresses, seed):
        self.session = bayou.Session(addresses, number=31, timeout=TIMEOUT)
        self.draw, self.servers = random.Random(seed), len(addresses)
        # What it heard as final, each once; of each own Write what was reported of it, in turn; and what was wrong with it.
        self.finals, self.told, self.wrong, self.wrote, self.tentative = [frames.ZERO], {}, [], 0, 0
        self.clocks = {}

    def write(self):
        try:
            accepted = self.session.write(any_program(self.draw), self.draw.randrange(self.servers))
        except bayou.BayouError:
            return
        self.told[accepted.origin, accepted.seq] = []
        self.clocks[accepted.origin, accepted.seq] = accepted.clock
        self.wrote += 1

    def look(self):
        final = self.session.final()
        if not frames.dominates(final, self.finals[-1]):
            self.wrong.append("%r behind %r" % (final, self.finals[-1]))
        self.note(final)
        for change in self.session.changed():
            self.hear(change, self.session.views.final)
        self.note(self.session.views.final)

    def note(self, final):
        if final != self.finals[-1]:
            self.finals.append(final)

    def hear(self, change, final):
        told, now = self.told.setdefault(change.accepted, []), (text_of(change.outcome), change.is_final)
        origin, seq = change.accepted
        if (told and (told[-1] == now or told[-1][1])) or change.is_final != (seq <= final[origin]):
            self.wrong.append("%r behind %r of %r" % (now, told, change.accepted))
        told.append(now)
        self.tentative += not change.is_final

    def final_told(self):
        """What was reported as final of each Write, where something was."""
        return {name: told[-1][0] for name, told in self.told.items() if told and told[-1][1]}

    def go_on(self, over):
        latest = 0.0
        while not over.is_set():
            if time.monotonic() - latest > WATCHER_REST:
                self.write()
                latest = time.monotonic()
            self.look()


class Person:
    """Calls of `bayou connect`, one after another, with a state and a log: what the log says that they told as final, and of which beginning."""

    def __init__(self, program, folder, addresses, seed):
        self.program, self.state, self.addresses, self.draw = program, os.path.join(folder, "person.state"), addresses, random.Random(seed)
        self.log, self.read = os.path.join(folder, "person.log"), 0
        # The beginnings; the values that were reported as final, and the outcomes of own Writes, each with the beginning after it; what was wrong; the calls.
        self.finals, self.values, self.own, self.wrong, self.calls, self.tentative = [], [], {}, [], 0, 0

    def call(self, line):
        first = self.draw.randrange(len(self.addresses))
        words = [self.program, "connect", "--state", self.state, "--log", self.log]
        for index in range(len(self.addresses)):
            server = (first + index) % len(self.addresses)
            words += ["--server", "%d=%s" % (server, self.addresses[server])]
        done = subprocess.run(words, input=(line + "\n").encode(), stdout=subprocess.PIPE, stderr=subprocess.PIPE, timeout=SECONDS)
        self.calls += 1
        logged = self.logged()
        if logged != done.stdout.decode().splitlines():
            self.wrong.append("the log has %r of %r" % (logged, done.stdout))
        return logged

    def logged(self):
        """What the log has more than before, each line without its time; the times are in order."""
        with open(self.log) as file:
            file.seek(self.read)
            lines = [line.split(" ", 1) for line in file.read().splitlines()]
            self.read = file.tell()
        times = [int(time) for time, _ in lines]
        if times != sorted(times) or any(abs(time.time() * 1000 - told) > 1000 * SECONDS for told in times):
            self.wrong.append("the log has the times %r" % times)
        return [line for _, line in lines]

    def final(self):
        """What is final by the file that is kept."""
        with open(self.state + ".views") as file:
            line = next((line for line in file if line.startswith("final ")), "final 0")
        counts = tuple(map(int, line.split()[1].split(",")))
        return counts + frames.ZERO[len(counts):]

    def hear(self, line, printed):
        final = self.final()
        self.finals.append(final)
        for told in printed:
            words = told.split(" ", 3)
            if words[1] == "final" and ":" in words[2]:
                name = tuple(map(int, words[2].split(":")))
                if name in self.own:
                    self.wrong.append("%r is told again" % told)
                self.own[name] = (words[3], final)
            self.tentative += " tentative" in told
        if line == "list":
            self.values += [(final, told.split()[0], told.split(" ", 1)[1][:-len(" final")]) for told in printed if told.endswith(" final")]
        elif line.startswith("get ") and printed[-1:] == ["0 final " + line[4:]]:
            self.values.append((final, line[4:], printed[-2].split(" ", 3)[3].rsplit(" at ", 1)[0]))

    def go_on(self, over):
        while not over.is_set():
            # The writers leave these keys alone, so that what they have becomes final while others' Writes go on.
            quiet = "quiet-%d" % self.draw.randrange(4)
            line = self.draw.choice(["get " + self.draw.choice(KEYS), "get " + quiet, "get " + quiet, "list", "mine", "claim %s %s" % (" ".join(self.draw.sample(KEYS, 2)), self.draw.randrange(4)),
                                     "add %s 1" % (quiet if self.draw.random() < 0.2 else self.draw.choice(KEYS))])
            self.hear(line, self.call(line))


def found(value):
    """A value as a read prints it."""
    return "none" if value is None else "num %d" % value if isinstance(value, int) else 'text "%s"' % value


class Load:
    """Writers, cuts, kills, and dumps beside them, each in a thread, until it is stopped."""

    def __init__(self, store, seed):
        self.store, self.over, self.lock = store, threading.Event(), threading.Lock()
        self.draw, self.wrote, self.kills, self.restored, self.cuts, self.dumps = random.Random(seed), 0, 0, 0, 0, []
        self.faults = []
        works = [self.kill, self.cut, self.dump] + [lambda number=number: self.write(number) for number in range(SERVERS)]
        self.threads = [threading.Thread(target=self.work, args=(work,), daemon=True) for work in works]
        for thread in self.threads:
            thread.start()

    def work(self, work):
        try:
            work()
        except Exception as fault:
            self.faults.append(repr(fault))

    def write(self, number):
        draw = random.Random(self.draw.random())
        with bayou.Session(self.store.addresses, number=number, timeout=TIMEOUT) as session:
            while not self.over.wait(WRITER_REST):
                try:
                    session.write(any_program(draw), draw.randrange(SERVERS))
                    self.wrote += 1
                except bayou.BayouError:
                    pass

    def kill(self):
        while not self.over.wait(self.draw.uniform(1.0, 3.0)):
            victim = self.draw.randrange(SERVERS)
            self.store.servers[victim].kill()
            self.kills += 1
            time.sleep(self.draw.uniform(0.1, 1.0))
            if self.kills % 3 == 0:
                self.store.restore(victim)
                self.restored += 1
            else:
                self.store.restart(victim)

    def cut(self):
        draw = random.Random(self.draw.random())
        while not self.over.wait(draw.uniform(1.0, 3.0)):
            pairs = [pair for pair in self.store.ways if draw.random() < 0.5]
            self.store.turn(1.0, pairs)
            for pair in pairs:
                self.store.ways[pair].cut()
            time.sleep(draw.uniform(0.2, 1.5))
            self.store.turn(0.5)
            self.cuts += 1

    def dump(self):
        while not self.over.wait(0.5):
            for index in range(SERVERS):
                self.take(index)

    def take(self, index):
        dump = self.store.dump(index)
        if dump is not None:
            self.dumps.append(("server %d at %.2f" % (index, time.monotonic()), dump))

    def kept(self):
        """What the dumps show, but for those with Writes that were lost with a journal; and the last of them."""
        held = [Held(name, dump) for name, dump in self.dumps]
        return [one for one in held if not one.has_lost(held[-1])], held[-1]

    def end(self):
        self.over.set()
        for thread in self.threads:
            thread.join(SECONDS)
        self.store.turn(0.0)


class Tries:
    def __init__(self, program, room, seconds, seed):
        self.program, self.room, self.seconds, self.seed, self.checks = program, room, seconds, seed, Checks()

    def that(self, name, told, expected=True):
        self.checks.that(name, told, expected)

    def store(self, count, chance):
        return Store(self.program, tempfile.mkdtemp(dir=self.room), count, self.seed, chance)

    # Nothing that was reported as final is contradicted.

    def told(self):
        store = self.store(SERVERS, 0.5)
        watcher = Watcher(store.addresses, self.seed)
        person = Person(self.program, store.folder, store.addresses, self.seed)
        load = Load(store, self.seed)
        try:
            over = threading.Event()
            threading.Timer(self.seconds, over.set).start()
            calls = threading.Thread(target=load.work, args=(lambda: person.go_on(over),), daemon=True)
            calls.start()
            watcher.go_on(over)
            calls.join(SECONDS)
            # (servers start again more slowly at a busy machine)
            soon(lambda: load.kills >= self.seconds // 5 and load.restored > 0)
            final, told = sum(watcher.finals[-1]), len(watcher.final_told())
            load.end()
            print("final: %d Writes of writers, %d of the watcher's, %d kills, %d cuts, %d dumps; under load %d Writes became final in %d looks that told so, and %d of the "
                  "watcher's were told so; %d times an outcome was told as tentative" % (load.wrote, watcher.wrote, load.kills, load.cuts, len(load.dumps), final,
                                                                                        len(watcher.finals) - 1, told, watcher.tentative))
            self.that("Writes became final under load: %d" % final, final >= LEAST_FINAL * self.seconds)
            self.that("the watcher was told so of own ones: %d" % told, told >= self.seconds // LEAST_TOLD)
            self.that("servers were killed: %d, and restored: %d" % (load.kills, load.restored), load.kills >= self.seconds // 5 and load.restored > 0)
            self.that("each way was open, and closed", all(way.passed and way.closed for way in store.ways.values()))
            self.that("nothing failed beside", load.faults, [])
            self.stopped(store, watcher, load)
            self.not_contradicted(watcher, load)
            self.person_is_right(person, load)
        finally:
            load.end()
            store.end()

    def stopped(self, store, watcher, load):
        """With a server stopped nothing new becomes final; once it is there again, all does."""
        self.settle(store, watcher, load, "in the end")
        store.servers[2].kill()
        before = watcher.session.final()
        new = []
        for number in range(10):
            accepted = watcher.session.write(any_program(watcher.draw), number % 2)
            new.append((accepted.origin, accepted.seq))
            watcher.told[new[-1]] = []
            watcher.clocks[new[-1]] = accepted.clock
        end = time.monotonic() + 4
        while time.monotonic() < end:
            watcher.look()
            time.sleep(0.05)
        self.that("nothing new becomes final with a server stopped", watcher.session.final(), before)
        self.that("what became of it is told as tentative", [bool(watcher.told[name]) and not any(is_final for _, is_final in watcher.told[name]) for name in new], [True] * 10)
        self.that("no new Write is final", [watcher.session.is_final(name) for name in new], [False] * 10)
        store.restart(2)
        # It was left out as it was away, and isn't silent: each look asks it.
        self.settle(store, watcher, load, "once it is there again")
        self.that("a new Write is final", [watcher.session.is_final(name) for name in new], [True] * 10)

    def make_up(self, store, watcher):
        """Who heard of Writes that a server has lost waits until that one has made as many again."""
        for index in range(store.count):
            for _ in range(1000):
                heard = watcher.session.views.views.get(index, frames.ZERO)
                if store.vectors()[index][index] >= heard[index]:
                    break
                accepted = watcher.session.write(any_program(watcher.draw), index)
                watcher.told[accepted.origin, accepted.seq] = []
                watcher.clocks[accepted.origin, accepted.seq] = accepted.clock
                watcher.look()

    def settle(self, store, watcher, load, name):
        """All that is held becomes final, and is reported so of each own Write."""
        self.make_up(store, watcher)
        self.that("all meet " + name, soon(store.have_met) is not None)
        all_held = store.vectors()[0]
        end = time.monotonic() + SECONDS
        while time.monotonic() < end and watcher.session.final() != all_held:
            watcher.look()
        watcher.look()
        self.that("all is final " + name, watcher.session.final(), all_held)
        for index in range(SERVERS):
            load.take(index)

    def not_contradicted(self, watcher, load):
        """No dump, of a server that held all that was reported as final, begins with other Writes in stamp order, or has other outcomes."""
        dumps, last = load.kept()
        self.that("there are dumps: %d" % len(dumps), len(dumps) >= 3 * SERVERS)
        self.that("what was told was told in order, and once", watcher.wrong, [])
        wrong = [(held.name, final) for held in dumps for final in watcher.finals if not held.begins_with(final)]
        self.that("no dump begins otherwise: %d of them with %d beginnings" % (len(dumps), len(watcher.finals)), wrong[:3], [])
        told = watcher.final_told()
        # (the least that was final when the Write was reported so covers it: a dump that holds more has its outcome)
        least = {name: next(final for final in watcher.finals if name[1] <= final[name[0]]) for name in told}
        wrong = [(held.name, name, held.became.get(name), told[name]) for held in dumps for name in told
                 if frames.dominates(held.vector(), least[name]) and held.became.get(name) != told[name]]
        self.that("no dump has another outcome of %d Writes" % len(told), wrong[:3], [])
        changed = [told for told in watcher.told.values() if len({outcome for outcome, _ in told}) > 1]
        self.that("outcomes changed before they were final: %d" % len(changed), len(changed) > 0)
        lost = {name for name, clock in watcher.clocks.items() if last.clocks.get(name) != clock}
        self.that("each own Write was told as final that wasn't lost", sorted(set(watcher.told) - set(told) - lost)[:3], [])

    def person_is_right(self, person, load):
        """No dump contradicts what `connect` told as final: values, outcomes, and beginnings."""
        dumps, _ = load.kept()
        finals = sorted(set(person.finals))
        self.that("calls of connect: %d" % person.calls, person.calls >= self.seconds)
        self.that("what it told as final went on: %d times" % len(finals), len(finals) >= self.seconds // 5)
        self.that("it never went back", [one for one, other in zip(person.finals, person.finals[1:]) if not frames.dominates(other, one)][:3], [])
        self.that("values were told as final: %d" % len(person.values), len(person.values) >= self.seconds // 5)
        self.that("own Writes were told as final, once: %d" % len(person.own), (len(person.own) >= self.seconds // 5, person.wrong), (True, []))
        self.that("something was told as tentative: %d times" % person.tentative, person.tentative > 0)
        wrong = [(held.name, final) for held in dumps for final in finals if not held.begins_with(final)]
        self.that("no dump begins otherwise than connect told", wrong[:3], [])
        wrong = [(held.name, final, key, value) for held in dumps for final, key, value in person.values
                 if frames.dominates(held.vector(), final) and found(held.databases[sum(final)].get(key)) != value]
        self.that("no dump has another value behind a beginning", wrong[:3], [])
        wrong = [(held.name, name, outcome) for held in dumps for name, (outcome, final) in person.own.items()
                 if frames.dominates(held.vector(), final) and held.became.get(name) != outcome]
        self.that("no dump has another outcome than connect told", wrong[:3], [])

    # Two persons, one room.

    def person(self, store, number, *words):
        """What a call of this person prints, which is killed after that."""
        call = [sys.executable, "-B", "python/final_person.py", os.path.join(store.folder, "person-%d.state" % number), str(number), ",".join(store.addresses)]
        done = subprocess.run(call + list(words), stdout=subprocess.PIPE, stderr=subprocess.PIPE, timeout=SECONDS)
        return done.returncode, done.stdout.decode().splitlines(), done.stderr.decode()[-300:]

    def tells(self, store, name, *expected):
        """Each person learns what changed, and then nothing."""
        for number, lines in enumerate(expected):
            self.that("%s, person %d" % (name, number), self.person(store, number), (-9, lines, ""))
            self.that("%s, person %d once more" % (name, number), self.person(store, number), (-9, [], ""))

    def room_of(self, fallbacks, became):
        """Person 0 takes room 9 and then 10; person 1 writes something, and claims room 9 at a server that is apart, or else these rooms."""
        def claim(rooms, who):
            checks, puts = [["absent", room] for room in rooms], [["put", room, who] for room in rooms]
            return json.dumps({"check": checks[:1], "update": puts[:1], "merge": [{"when": [check], "ops": [put]} for check, put in zip(checks[1:], puts[1:])]})
        store = self.store(2, 1.0)
        try:
            self.that("person 0 writes", self.person(store, 0, "0", claim(["room/9"], "ann"), claim(["room/10"], "ann")), (-9, ["wrote 0:1", "wrote 0:2"], ""))
            self.that("person 1 writes", self.person(store, 1, "1", claim(["bob"], "here"), claim(["room/9"] + fallbacks, "bob")), (-9, ["wrote 1:1", "wrote 1:2"], ""))
            self.tells(store, "apart", ["0:1 update tentative", "0:2 update tentative"], ["1:1 update tentative", "1:2 update tentative"])
            # Server 1 pulls from server 0, and not the other way round: what is first is final, the rest isn't.
            store.turn(0.0, [(1, 0)])
            self.that("server 1 has all", soon(lambda: store.vectors()[1][:2] == (2, 2)) is not None)
            self.tells(store, "met one way", ["0:1 update final"], ["1:2 %s tentative" % became])
            store.turn(0.0)
            self.that("both have all", soon(store.have_met) is not None)
            self.tells(store, "met", ["0:2 update final"], ["1:1 update final", "1:2 %s final" % became])
        finally:
            store.end()

    def room_for_two(self):
        self.room_of(["room/10", "room/11"], "merge 2")
        self.room_of([], "none")


def main():
    program, seconds, seed = sys.argv[1], int(sys.argv[2]) if len(sys.argv) > 2 else 20, int(sys.argv[3]) if len(sys.argv) > 3 else 1
    with tempfile.TemporaryDirectory() as room:
        tries = Tries(program, room, seconds, seed)
        tries.told()
        tries.room_for_two()
    print("%d passed, %d failed" % (tries.checks.passed, tries.checks.failed))
    return 1 if tries.checks.failed else 0


if __name__ == "__main__":
    sys.exit(main())
