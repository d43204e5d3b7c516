"""Records what sessions are answered by a Redis (server 0) and its replica (server 1). Call: record.py lag|failover >FILE.raw; it wants redis-server.

No answer of Redis tells which Writes it comes from. So the sessions keep that in the database. Each Write also raises its server's count in the hash
`counts`, and adds itself to the list `writes`. Each read reads `counts` too. All of it is one transaction, which a replica takes whole or not at all.
"""
import json
import socket
import subprocess
import sys
import tempfile
import threading
import time

HERE, SECONDS = "127.0.0.1", 20


class Connection:
    """A connection to a Redis."""

    def __init__(self, port):
        self.stream = socket.create_connection((HERE, port), SECONDS).makefile("rwb")

    def ask(self, *words):
        words = [str(word).encode() for word in words]
        self.stream.write(b"*%d\r\n" % len(words) + b"".join(b"$%d\r\n%s\r\n" % (len(word), word) for word in words))
        self.stream.flush()
        return self.reply()

    def reply(self):
        line = self.stream.readline().decode()
        if not line.endswith("\r\n"):
            raise ConnectionError("it ended")
        kind, rest = line[0], line[1:-2]
        if kind == "$":
            return None if rest == "-1" else self.stream.read(int(rest) + 2)[:-2].decode()
        if kind == "*":
            return [self.reply() for _ in range(int(rest))]
        return int(rest) if kind == ":" else {"error": rest} if kind == "-" else rest


class Way:
    """The network between the replica and the primary at this port. While it isn't free, nothing that the primary sends arrives."""

    def __init__(self, port):
        self.is_free, self.listener = threading.Event(), socket.create_server((HERE, 0))
        self.is_free.set()
        threading.Thread(target=self.carry, args=(port,), daemon=True).start()

    def carry(self, port):
        replica, primary = self.listener.accept()[0], socket.create_connection((HERE, port))
        threading.Thread(target=self.copy, args=(replica, primary), daemon=True).start()
        self.copy(primary, replica, self.is_free)

    def copy(self, source, to, gate=None):
        try:
            piece = source.recv(65536)
            while piece:
                if gate:
                    gate.wait()
                to.sendall(piece)
                piece = source.recv(65536)
        except OSError:
            pass


class Store:
    """The two servers, and the log of what they answer."""

    def __init__(self, room):
        self.room, self.started, self.processes, self.ports = room, time.monotonic(), [None, None], []
        for _ in range(2):
            with socket.create_server((HERE, 0)) as free:
                self.ports.append(free.getsockname()[1])

    def begin(self):
        self.start(0)
        self.way = Way(self.ports[0])
        self.start(1, self.way.listener.getsockname()[1])
        self.log(note="server 0 is the primary, server 1 its replica; Redis %s" % self.ask(0, "INFO").split("redis_version:")[1].split()[0])

    def start(self, server, primary=None):
        """Starts this server with an empty database, and as the replica of that port, if one is given."""
        words = ["--port", self.ports[server], "--bind", HERE, "--dir", self.room, "--save", "", "--repl-diskless-sync-delay", 0]
        words += ["--replicaof", HERE, primary] if primary else []
        self.processes[server] = subprocess.Popen(["redis-server"] + [str(word) for word in words], stdout=subprocess.DEVNULL)
        self.until(lambda: ("master_link_status:up" if primary else "role:master") in self.ask(server, "INFO"))

    def ask(self, server, *words):
        return Connection(self.ports[server]).ask(*words)

    def until(self, is_so):
        for _ in range(SECONDS * 50):
            try:
                if is_so():
                    return
            except OSError:
                pass
            time.sleep(0.02)
        sys.exit("it took too long")

    def writes(self, server):
        return self.ask(server, "LRANGE", "writes", 0, -1)

    def log(self, **what):
        print(json.dumps({"at": round(time.monotonic() - self.started, 3), **what}, separators=(",", ":")))

    def hold(self):
        self.way.is_free.clear()
        self.log(note="the way between them is held up")

    def free(self):
        self.way.is_free.set()
        self.log(note="the way between them is free")
        self.same()

    def same(self):
        self.until(lambda: self.writes(0) == self.writes(1))
        self.log(note="both have the same Writes")

    def kill(self, server):
        self.processes[server].kill()
        self.processes[server].wait()


class Session:
    def __init__(self, store, number, *asks):
        self.store, self.what = store, {"session": number, "asks": asks}

    def get(self, server, key):
        self.tried(server, ["GET", key], [["GET", key], ["HGETALL", "counts"]])

    def set(self, server, key, value, wait=None):
        """Writes; with `wait` it has Redis wait so many milliseconds until the replica has it, and gives how many replicas have."""
        return self.tried(server, ["SET", key, value], [
            ["HGETALL", "counts"], ["HINCRBY", "counts", server, 1], ["SET", key, value], ["RPUSH", "writes", "%d %s %s" % (server, key, value)]], wait)

    def tried(self, server, sent, commands, wait=None):
        """Sends these as one transaction, and logs what EXEC answers, or the first error."""
        try:
            connection = Connection(self.store.ports[server])
            replies = [connection.ask(*words) for words in [["MULTI"]] + commands + [["EXEC"]]]
            errors = [reply for reply in replies if isinstance(reply, dict)]
            self.store.log(**self.what, server=server, sent=sent, got=(errors or replies[-1:])[0])
            if wait is not None:
                said = connection.ask("WAIT", 1, wait)
                self.store.log(note="session %d: WAIT 1 %d says %d" % (self.what["session"], wait, said))
                return said
        except OSError as fault:
            self.store.log(**self.what, server=server, sent=sent, lost=type(fault).__name__)


def lag(store):
    kim, lee, mia = Session(store, 0, "ryw", "mr"), Session(store, 1, "mr"), Session(store, 2, "ryw")
    ana = Session(store, 3, "ryw", "mr", "wfr", "mw")
    kim.set(0, "room/9", "kim")
    store.same()
    kim.get(1, "room/9")
    store.hold()
    kim.set(0, "room/10", "kim")
    kim.get(1, "room/10")
    lee.get(0, "room/10")
    lee.get(1, "room/10")
    lee.set(1, "room/11", "lee")
    ana.get(0, "room/10")
    ana.set(0, "room/11", "ana")
    mia.get(1 if mia.set(0, "room/12", "mia", wait=200) else 0, "room/12")
    store.free()
    kim.get(1, "room/10")
    mia.get(1 if mia.set(0, "room/13", "mia", wait=2000) else 0, "room/13")
    store.hold()
    lee.set(0, "room/14", "lee")
    mia.get(0, "room/14")
    mia.get(1, "room/14")
    ana.get(0, "room/14")
    store.free()
    lee.get(1, "room/14")


def failover(store):
    kim, lee = Session(store, 0, "ryw", "mr"), Session(store, 1, "mr")
    kim.set(0, "room/9", "kim")
    lee.set(0, "room/10", "lee")
    store.same()
    lee.get(1, "room/9")
    store.hold()
    kim.set(0, "room/11", "kim")
    lee.get(0, "room/11")
    store.kill(0)
    store.log(note="server 0 is killed")
    lee.get(0, "room/11")
    store.ask(1, "REPLICAOF", "NO", "ONE")
    store.log(note="server 1 is the primary")
    kim.get(1, "room/11")
    lee.set(1, "room/11", "lee")
    store.start(0, store.ports[1])
    store.log(note="server 0 is started again, as the replica of server 1")
    store.same()
    kim.get(0, "room/11")


with tempfile.TemporaryDirectory() as folder:
    run = Store(folder)
    try:
        run.begin()
        {"lag": lag, "failover": failover}[sys.argv[1]](run)
        for number in range(2):
            run.log(dump=number, got=run.writes(number))
    finally:
        for process in filter(None, run.processes):
            process.kill()
            process.wait()
