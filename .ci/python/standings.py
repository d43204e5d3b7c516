"""What `bayou connect` tells a person of what is final: groups of tries, of a class that has `program`, `room`, `that`, `call` and `start`."""
import os
import random
import re
import signal
import subprocess
import threading
import time

import frames
from living import SECONDS
from meeting import free_port
from sending import Sender
from ways import AtRandom

import bayou

# How long the servers of a store may take to pull and tell what they hold, and how often a call is killed.
SOON, KILLS = 20, 12


class Apart:
    """Three servers that live, with ways between them that can be closed."""

    def __init__(self, tries, count=3):
        self.tries, self.folder = tries, tries.folder()
        self.ports = [free_port() for _ in range(count)]
        self.ways = {(puller, other): AtRandom(self.ports[other], puller * count + other, 0) for puller in range(count) for other in range(count) if other != puller}
        self.servers = [self.start(index, True) for index in range(count)]
        self.at = [(index, "127.0.0.1:%d" % port) for index, port in enumerate(self.ports)]

    def start(self, index, new=False):
        peers = [(other, way.port) for (puller, other), way in self.ways.items() if puller == index]
        return self.tries.start(self.folder, index, len(self.ports), new=new, port=self.ports[index], peers=peers, words=["--every", "1"])

    def turn(self, chance):
        """Closes the ways so often from now on."""
        for way in self.ways.values():
            way.chance = chance
        if chance == 1:
            # Until a pull that goes on is over, and no connection is left that was open.
            time.sleep(2.5)

    def end(self):
        for way in self.ways.values():
            way.end()
        self.tries.stop_all()


class Standings:
    def finals(self):
        """Values and own Writes: tentative at first, final once all servers told that they hold them, and no more than that."""
        store, state = Apart(self), os.path.join(self.room, "finals")
        words = ["--state", state]
        self.told("nothing is kept yet", store.at, ["mine", "wait 0"], [], words=words)
        self.told("a Write", store.at, ["put a 1", "mine", "get a"],
                  ["0 wrote 0:1 clock 1 deps 0,0,0", "0 became 0:1 update", "0 tentative 0:1 update", "0 read a num 1 at 1,0,0", "0 tentative a"], words=words)
        self.told("it is waited for, and told once", store.at, ["wait 20", "mine", "get a", "list"],
                  ["0 final 0:1 update", "0 read a num 1 at 1,0,0", "0 final a", "a num 1 final", "list keys 1 at 1,0,0"], words=words)
        store.servers[2].end()
        self.told("with one server stopped", store.at[:2], ["put b 2", "get a", "get b", "list", "wait 2", "mine"],
                  ["0 wrote 0:2 clock 2 deps 1,0", "0 became 0:2 update", "0 read a num 1 at 2,0", "0 final a", "0 read b num 2 at 2,0", "0 tentative b",
                   "a num 1 final", "b num 2 tentative", "list keys 2 at 2,0", "0 tentative 0:2 update", "0 tentative 0:2 update"], 1, words=words)
        store.servers[2] = store.start(2)
        self.told("once it is back", store.at, ["get a", "wait 20", "get b"],
                  ["0 read a num 1 at 2,0,0", "0 final a", "0 final 0:2 update", "0 read b num 2 at 2,0,0", "0 final b"], words=words, may_begin=["0 final 0:2 update"])
        self.told("a Write that comes to nothing for good", store.at, ["claim a lee", "wait 20"],
                  ["0 wrote 0:3 clock 3 deps 2,0,0", "0 became 0:3 none", "0 read a num 1 at 3,0,0", "0 final 0:3 none"], 1, words=words)
        self.told("no word", store.at, ["wait x"], [], 2, ["bayou: line 1: unknown word; `help` tells the lines that there are"], words=words)
        self.told("without a state nothing is told", store.at, ["put c 1", "get c", "list", "mine", "wait 1"],
                  ["0 wrote 0:4 clock 4 deps 3,0,0", "0 became 0:4 update", "0 read c num 1 at 4,0,0", "a num 1", "b num 2", "c num 1", "list keys 3 at 4,0,0"])
        self.files(store, state)
        store.end()
        alone, state = self.start(self.folder()), os.path.join(self.room, "alone")
        self.told("at a store with one server nothing is tentative", [(0, alone.address())], ["put a 1", "get a", "list", "mine", "wait"],
                  ["0 wrote 0:1 clock 1 deps 0", "0 became 0:1 update", "0 read a num 1 at 1", "a num 1", "list keys 1 at 1"], words=["--state", state])
        self.stop_all()

    def told(self, name, at, lines, printed, status=0, errors=(), words=(), may_begin=()):
        """What is printed, with all that is said of what is final; these lines may stand before it."""
        ended, told, wrong = self.call(at, lines, words, standings=True)
        if may_begin and told[:len(may_begin)] == list(may_begin):
            rest = [line for line in printed if line not in may_begin]
            return self.that(name, (ended, told[len(may_begin):], wrong), (status, rest, list(errors)))
        return self.that(name, (ended, told, wrong), (status, list(printed), list(errors)))

    def files(self, store, state):
        """The file beside the state: one that is none is refused and stays, without it nothing is lost, and python goes on with it."""
        path, words = state + ".views", ["--state", state]
        with open(path, "rb") as file:
            whole = file.read()
        for name, content in [("cut", whole[:-1]), ("with another sum", whole.replace(b"final ", b"final 1", 1)), ("no text", b"\xff" + whole)]:
            with open(path, "wb") as file:
                file.write(content)
            self.told("a file %s" % name, store.at, ["get a"], [], 3,
                      ["bayou: %s: its .views can't be read or written, or keeps nothing of a store; without that file what is final is learned anew" % state], words=words)
            with open(path, "rb") as file:
                self.that("stays", file.read(), content)
        os.remove(path)
        self.told("without it", store.at, ["mine", "put d 1", "wait 20", "get d"],
                  ["0 wrote 0:5 clock 5 deps 4,0,0", "0 became 0:5 update", "0 final 0:5 update", "0 read d num 1 at 5,0,0", "0 final d"], words=words)
        with bayou.Session([address for _, address in store.at], state=state) as session:
            self.that("python goes on with it", sum(session.final()), 5)
            accepted = session.write({"update": [["put", "e", 1]]})
            self.that("and writes", [(change.is_final, change.outcome.became) for change in session.changed()][:1], [(False, "update")])
        self.told("`connect` goes on with python's", store.at, ["wait 20"], ["0 final %d:%d update" % (accepted.origin, accepted.seq)], words=words)

    def out_of_order(self):
        """A server that takes Writes while it sends others sends those last, though they belong before: what it sends then makes nothing final."""
        def write(origin, seq, clock, deps):
            return origin, seq, clock, frames.counts(*deps), ([], [("put", "k", ("lit", seq))], [])
        first, other, second = write(0, 1, 1, ()), write(1, 1, 1, ()), write(0, 2, 2, (1,))
        for name, writes, final in [("in order", [first, other, second], "final 1,0,0\n"), ("out of order", [first, second, other], "final 0,0,0\n")]:
            both = [Sender(own, 3, frames.counts(2, 1), writes) for own in range(2)]
            senders = both + [Sender(2, 3, frames.counts(2), [first, second])]
            state = os.path.join(self.room, "sent " + name)
            self.told(name, [(sender.own, sender.address) for sender in senders], ["mine"], [], words=["--state", state])
            with open(state + ".views") as file:
                self.that("what is final of Writes sent " + name, file.readlines()[1], final)
            self.that("they were sent " + name, any(sender.offers for sender in both))
            for sender in senders:
                sender.close()

    def one_room(self):
        """Two persons, one room, at servers that are apart: both have it at first, and once the servers have met each learns once that it is final, one of them
        as something else than at first."""
        store, states = Apart(self), {who: os.path.join(self.room, "one_room." + who) for who in ("ann", "ben")}
        store.turn(1)
        told = {"ann": [], "ben": []}

        def person(who, lines):
            at = store.at if who == "ann" else store.at[1:] + store.at[:1]
            status, printed, wrong = self.call(at, lines, ["--state", states[who]], standings=True)
            self.that("%s is served" % who, wrong, [])
            told[who] += [line for line in printed if re.match(r"0 (tentative|changed|final) [0-9]", line)]
            return printed
        for who in told:
            self.that("%s has the room" % who, person(who, ["claim red blue " + who])[1], "0 became %d:1 update" % (who == "ben"))
            self.that("as far as is known", person(who, ["mine"])[-1:], ["0 tentative %d:1 update" % (who == "ben")])
        store.turn(0)
        end = time.monotonic() + SOON
        while time.monotonic() < end and not all(any(" final " in line for line in lines) for lines in told.values()):
            for who in told:
                person(who, [])
            time.sleep(0.2)
        for who in told:
            for _ in range(2):
                person(who, ["mine"])
        self.that("ann", told["ann"][1:], ["0 final 0:1 update"])
        self.that("ben", [line for line in told["ben"][1:] if "changed" not in line], ["0 final 1:1 merge 1"])
        self.that("a change is told once at the most", told["ben"].count("0 changed 1:1 merge 1") <= 1)
        store.end()

    def one_room_killed(self):
        """The same over calls that are killed at any moment: each is reported, and once more only after a call that was killed as it told it."""
        store = Apart(self)
        store.turn(1)
        chance, told, kills = random.Random(8585), {"ann": [], "ben": []}, 0

        def person(who, line, seconds):
            """What a call tells of what is final, and whether it was killed."""
            at = store.at if who == "ann" else store.at[1:] + store.at[:1]
            call = [self.program, "connect"] + [word for index, address in at for word in ("--server", "%d=%s" % (index, address))]
            process = subprocess.Popen(call + ["--state", os.path.join(self.room, "one_room_killed." + who)], stdin=subprocess.PIPE, stdout=subprocess.PIPE)
            killer = threading.Timer(seconds, lambda: process.send_signal(signal.SIGKILL))
            killer.start()
            printed = process.communicate(line.encode())[0].decode().splitlines()
            killer.cancel()
            is_killed = process.returncode < 0
            told[who] += [(line, is_killed) for line in printed if re.match(r"0 (tentative|changed|final) [0-9]", line)]
            return printed, is_killed
        for who in told:
            self.that("%s has the room" % who, person(who, "claim red blue %s\n" % who, SECONDS)[0][1], "0 became %d:1 update" % (who == "ben"))
        begun = time.monotonic()
        for who in told:
            person(who, "mine\nmine\nmine\n", SECONDS)
        whole, end = (time.monotonic() - begun) / len(told), begun + 3 * SOON
        store.turn(0)
        while kills <= 3 * KILLS and time.monotonic() < end:
            for who in told:
                kills += person(who, "mine\nmine\nmine\n", chance.uniform(0, 2 * whole))[1]
            time.sleep(0.05)
        for who, line in (("ann", "0 final 0:1 update"), ("ben", "0 final 1:1 merge 1")):
            end = time.monotonic() + SOON
            while line not in [one for one, _ in told[who]] and time.monotonic() < end:
                person(who, "mine\n", SECONDS)
            person(who, "mine\n", SECONDS)
            for word in (" final ", " changed "):
                tellings = [(one, is_killed) for one, is_killed in told[who] if word in one]
                self.that("%s is told%swhat is so" % (who, word), {one for one, _ in tellings} <= {line, line.replace("final", "changed")})
                self.that("%s is told%sagain only behind a kill" % (who, word), [is_killed for _, is_killed in tellings[:-1]], [True] * (len(tellings) - 1))
            self.that("%s is told what is final" % who, line in [one for one, _ in told[who]])
        self.that("calls were killed: %d" % kills, kills > KILLS)
        store.end()

    def killed_waiting(self):
        """Calls that are killed at any moment: each own Write is reported as final once, or once more for each call that was killed."""
        store, state = Apart(self), os.path.join(self.room, "killed_waiting")
        words = ["--state", state, "--session", "all"]
        call = [self.program, "connect"] + [word for index, address in store.at for word in ("--server", "%d=%s" % (index, address))] + words
        chance, printed = random.Random(85), []
        for turn in range(KILLS):
            process = subprocess.Popen(call, stdin=subprocess.PIPE, stdout=subprocess.PIPE)
            killer = threading.Timer(chance.uniform(0.05, 1.5), lambda p=process: p.send_signal(signal.SIGKILL))
            killer.start()
            try:
                process.stdin.write(b"add n 1\nwait 20\nadd n 1\nwait 20\n")
                process.stdin.close()
            except BrokenPipeError:
                pass
            printed.append(process.stdout.read().decode().splitlines())
            process.wait(SECONDS)
            killer.cancel()
        printed.append(self.call(store.at, ["wait 20", "mine"], words, standings=True)[1])
        finals = [(turn, line.split()[2]) for turn, lines in enumerate(printed) for line in lines if re.match(r"0 final [0-9]", line)]
        became = {line.split()[2] for lines in printed for line in lines if line.startswith("0 became ")}
        self.that("each that was told is told as final", became - {name for _, name in finals}, set())
        again = [name for name in became if len([one for _, one in finals if one == name]) > 1]
        self.that("seldom twice: %d of %d" % (len(again), len(became)), len(again) <= KILLS)
        store.end()

    def forgotten(self):
        """No more than 64 own Writes are kept: the oldest goes, which is reported."""
        store, state = Apart(self), os.path.join(self.room, "forgotten")
        store.servers[2].end()
        status, printed, wrong = self.call(store.at[:2], ["put k %d" % number for number in range(66)] + ["mine"], ["--state", state], standings=True)
        self.that("the oldest go", (status, [line for line in printed if " forgot " in line], wrong), (0, ["0 forgot 0:1", "0 forgot 0:2"], []))
        self.that("the others are kept", [line for line in printed if line.startswith("0 tentative ")], ["0 tentative 0:%d update" % number for number in range(3, 67)])
        store.end()
