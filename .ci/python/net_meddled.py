"""Runs of `bayou net` whose calls of files and sockets are written down and meddled with, as .ci/meddle.c does."""
import errno
import os
import subprocess
import time

import net_runs

HERE = os.path.dirname(os.path.abspath(__file__))


def library(room, name):
    """What .ci/NAME.c is for LD_PRELOAD."""
    path = os.path.join(room, name + ".so")
    subprocess.run(["cc", "-O1", "-Wall", "-Wextra", "-shared", "-fPIC", "-o", path, os.path.join(HERE, "..", name + ".c"), "-ldl"], check=True)
    return path


class Meddled:
    """Runs, and in `calls` those of the last one."""

    def __init__(self, program, room):
        self.program, self.library, self.calls = program, library(room, "meddle"), []
        self.path, self.gate = os.path.join(room, "calls"), os.path.join(room, "gate")
        os.mkfifo(self.gate)

    def variables(self, meddle):
        """What a run is to be called with, whose calls are then written down anew."""
        if os.path.exists(self.path):
            os.remove(self.path)
        return {"LD_PRELOAD": self.library, "CALLS": self.path, "GATE": self.gate, "MEDDLE": meddle + " "}

    def run(self, folder, text, meddle=""):
        """As `net_runs.run`, with what becomes of some calls."""
        told = net_runs.call(self.program, ["net", "--dir", folder], text, variables=self.variables(meddle))
        self.look()
        return told

    def look(self):
        """Reads what was called so far."""
        with open(self.path, encoding="utf-8") as it:
            self.calls = [line.rstrip("\n").split(" ", 2) for line in it]

    def number(self, name):
        """How many calls of this name there were."""
        return sum(call[0] == name for call in self.calls)

    def held(self, running):
        """Waits until the run waits in a call. It goes on when what this gives is closed."""
        for _ in range(100 * net_runs.LINE_SECONDS):
            if running.process.poll() is not None:
                break
            try:
                return os.fdopen(os.open(self.gate, os.O_WRONLY | os.O_NONBLOCK), "wb")
            except OSError as why:
                if why.errno != errno.ENXIO:
                    raise
            time.sleep(0.01)
        raise AssertionError("no call waits")
