"""Runs of `bayou net`, each a process over a folder."""
import json
import os
import re
import select
import signal
import subprocess

# How long a run may take before it counts as hanging, and how long one that waits for a test may take to print a line.
SECONDS = 120
LINE_SECONDS = 30

# The line that names the cause of such a fault, which `.ci/check` looks at.
CAUSE = re.compile(r"^(bayou: (?:device|input)\n)  [^\n]+\n\Z", re.M)


def line(*members):
    """A line of a script."""
    return json.dumps(members, separators=(",", ":")) + "\n"


def put(key, value):
    """A program that puts the value."""
    return {"update": [["put", key, value]]}


def script(*lines):
    return "".join(line(*members) for members in lines)


def call(program, words, text="", to=subprocess.PIPE, before=None, variables=None, seconds=SECONDS):
    """The status, the output and the errors, but for the line of a cause, of the program with these words, over this text as its input."""
    try:
        ended = subprocess.run([program, *words], input=text.encode(), stdout=to, stderr=subprocess.PIPE, timeout=seconds, preexec_fn=before,
                               env=dict(os.environ, **(variables or {})))
    except subprocess.TimeoutExpired:
        return "hangs", "", ""
    output = "" if ended.stdout is None else ended.stdout.decode("utf-8", "replace")
    return ended.returncode, output, CAUSE.sub(r"\1", ended.stderr.decode("utf-8", "replace"))


def run(program, folder, text, *words):
    """The same of `bayou net` in this folder."""
    return call(program, ["net", "--dir", folder, *words], text)


def fresh(room, name):
    """A new folder."""
    path = os.path.join(room, name)
    os.mkdir(path)
    return path


def journal(folder, server):
    return os.path.join(folder, "server-%d.journal" % server)


def content(path):
    with open(path, "rb") as it:
        return it.read()


def contents(folder):
    """What is in the folder, by name."""
    return {name: content(os.path.join(folder, name)) for name in sorted(os.listdir(folder))}


class Running:
    """A run whose output is read as it comes, or not at all."""

    def __init__(self, program, folder, path, variables=None, errors=subprocess.DEVNULL):
        self.process = subprocess.Popen([program, "net", "--dir", folder, path], stdin=subprocess.DEVNULL, stdout=subprocess.PIPE, stderr=errors,
                                        env=dict(os.environ, **(variables or {})))

    def line(self):
        """The next line, read byte by byte, so that no more is taken than it has."""
        pipe, taken = self.process.stdout.fileno(), b""
        while not taken.endswith(b"\n"):
            if not select.select([pipe], [], [], LINE_SECONDS)[0]:
                raise AssertionError("no line came")
            byte = os.read(pipe, 1)
            if not byte:
                break
            taken += byte
        return taken.decode("utf-8", "replace")

    def so_far(self):
        """What has come by now."""
        pipe, taken = self.process.stdout.fileno(), b""
        os.set_blocking(pipe, False)
        try:
            taken = os.read(pipe, 65536)
        except BlockingIOError:
            pass
        os.set_blocking(pipe, True)
        return taken.decode("utf-8", "replace")

    def rest(self, seconds=SECONDS):
        """The status, and what is left of the output. A run that takes longer is killed."""
        try:
            output = self.process.communicate(timeout=seconds)[0]
        except subprocess.TimeoutExpired:
            self.process.kill()
            self.process.communicate()
            return "hangs", ""
        return self.process.returncode, output.decode("utf-8", "replace")

    def kill(self):
        """Kills it, and tells whether it still ran."""
        self.process.send_signal(signal.SIGKILL)
        return self.process.wait() == -signal.SIGKILL

    def __enter__(self):
        return self

    def __exit__(self, *_):
        if self.process.poll() is None:
            self.kill()
        self.process.stdout.close()
