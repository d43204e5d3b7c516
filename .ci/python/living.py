"""A server that lives, as a process: what it prints, what it tells, and how it ends."""
import os
import re
import signal
import subprocess
import threading
import time

# How long anything may take before it counts as hanging.
SECONDS = 30


def slowness():
    """How many times longer than its own processor time the machine takes now: 1 where it does nothing else. What is to end in time gets so much more."""
    begun, used = time.monotonic(), time.process_time()
    while time.process_time() - used < 0.1:
        pass
    return max(1.0, (time.monotonic() - begun) / 0.1)


class Lines:
    """The lines that a stream has given so far."""

    def __init__(self, stream):
        self.lines, self.news = [], threading.Condition()
        self.thread = threading.Thread(target=self.read, args=(stream,), daemon=True)
        self.thread.start()

    def read(self, stream):
        for line in stream:
            with self.news:
                self.lines.append(line.decode("utf-8", "replace").rstrip("\n"))
                self.news.notify_all()

    def find(self, pattern, seconds=SECONDS, count=1):
        """The line that the pattern is, or the `count`-th such line; None where none comes in time."""
        end = time.monotonic() + seconds
        with self.news:
            while True:
                found = [line for line in self.lines if re.fullmatch(pattern, line)]
                if len(found) >= count:
                    return found[count - 1]
                left = end - time.monotonic()
                if left <= 0:
                    return None
                self.news.wait(left)

    def all(self):
        with self.news:
            return list(self.lines)


class Server:
    """A server that lives, over the journal in the folder. Port 0 is one that the system picks."""

    def __init__(self, program, folder, index, servers=3, port=0, peers=(), new=False, until=True, words=(), before=None, variables=None):
        call = [program, "serve", "--id", str(index), "--servers", str(servers), "--dir", folder, "--listen", "127.0.0.1:%d" % port]
        for peer, at in peers:
            call += ["--peer", "%d=127.0.0.1:%d" % (peer, at)]
        call += ["--new"] * new + ["--until-input-ends"] * until + list(words)
        self.process = subprocess.Popen(call, stdin=subprocess.PIPE, stdout=subprocess.PIPE, stderr=subprocess.PIPE, preexec_fn=before,
                                        env={**os.environ, **(variables or {})})
        self.printed, self.told = Lines(self.process.stdout), Lines(self.process.stderr)
        self.port = None

    def serving(self):
        """The line that it takes connections, whose port is this server's from then on; None where it ends before."""
        line = self.printed.find(r"serving [0-9]+ at 127\.0\.0\.1:[0-9]+ holds [0-9,]+", SECONDS)
        if line is not None:
            self.port = int(re.search(r":([0-9]+) holds", line).group(1))
        return line

    def address(self):
        return "127.0.0.1:%d" % self.port

    def end(self):
        """Ends its input, and gives its status and all that it printed."""
        self.process.stdin.close()
        return self.ended()

    def ended(self):
        try:
            status = self.process.wait(SECONDS)
        except subprocess.TimeoutExpired:
            self.process.kill()
            return "hangs", []
        self.printed.thread.join(SECONDS)
        self.told.thread.join(SECONDS)
        return status, self.printed.all()

    def kill(self):
        os.kill(self.process.pid, signal.SIGKILL)
        self.process.wait(SECONDS)

    def resident(self):
        """How many bytes of memory it has, and how many threads."""
        with open("/proc/%d/status" % self.process.pid) as status:
            found = dict(line.split(":", 1) for line in status if ":" in line)
        return int(found["VmRSS"].split()[0]) * 1024, int(found["Threads"])
