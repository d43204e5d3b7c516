"""Ways to a server that aren't always open."""
import contextlib
import random
import socket
import threading


class AtRandom:
    """A way to a server, at a port of its own, that is closed to about every second connection, as a draw has it, or as often as the chance says: at 1 to
    each, at 0 to none. What is open stays so until it is cut."""

    def __init__(self, port, seed, chance=0.5):
        self.to, self.draw, self.chance, self.open = port, random.Random(seed), chance, set()
        self.passed, self.closed = 0, 0
        self.socket = socket.create_server(("127.0.0.1", 0))
        self.port = self.socket.getsockname()[1]
        threading.Thread(target=self.go_on, daemon=True).start()

    def go_on(self):
        while True:
            try:
                near, _ = self.socket.accept()
            except OSError:
                return
            if self.draw.random() < self.chance:
                self.closed += 1
                near.close()
                continue
            self.passed += 1
            threading.Thread(target=self.join, args=(near,), daemon=True).start()

    def join(self, near):
        with contextlib.suppress(OSError), near, socket.create_connection(("127.0.0.1", self.to)) as far:
            self.open |= {near}
            back = threading.Thread(target=carry, args=(far, near), daemon=True)
            back.start()
            carry(near, far)
            back.join()
        self.open -= {near}

    def cut(self):
        """Ends what is open."""
        for near in list(self.open):
            with contextlib.suppress(OSError):
                near.shutdown(socket.SHUT_RDWR)

    def end(self):
        self.socket.close()


def carry(source, sink):
    """Hands on what comes, until nothing more does."""
    with contextlib.suppress(OSError):
        while True:
            piece = source.recv(65536)
            if not piece:
                break
            sink.sendall(piece)
    with contextlib.suppress(OSError):
        sink.shutdown(socket.SHUT_WR)
