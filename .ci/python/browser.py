"""Chromium without a window, driven over its DevTools protocol."""
import base64
import json
import os
import shutil
import socket
import struct
import subprocess
import tempfile
import time
import urllib.error
import urllib.request

from meeting import free_port

# How long anything may take before it counts as hanging.
SECONDS = 30

# The names by which it may be called.
NAMES = ["chromium", "chromium-browser", "google-chrome"]


def installed():
    """The path of the browser, or None."""
    return next((path for path in map(shutil.which, NAMES) if path), None)


class Page:
    """A page of the browser, over a WebSocket of its own (RFC 6455)."""

    def __init__(self, address):
        host, path = address.split("//", 1)[1].split("/", 1)
        name, port = host.rsplit(":", 1)
        self.socket = socket.create_connection((name, int(port)), SECONDS)
        key = base64.b64encode(os.urandom(16)).decode()
        self.socket.sendall(("GET /%s HTTP/1.1\r\nHost: %s\r\nUpgrade: websocket\r\nConnection: Upgrade\r\nSec-WebSocket-Key: %s\r\n"
                             "Sec-WebSocket-Version: 13\r\n\r\n" % (path, host, key)).encode())
        self.reader, self.number, self.events = self.socket.makefile("rb"), 0, []
        while self.reader.readline() != b"\r\n":
            pass
        for domain in ("Page", "Runtime", "Log", "Network"):
            self.call(domain + ".enable")

    def frame(self):
        whole = b""
        while True:
            first, second = self.reader.read(2)
            length = second & 127
            if length > 125:
                size, form = (2, ">H") if length == 126 else (8, ">Q")
                length = struct.unpack(form, self.reader.read(size))[0]
            whole += self.reader.read(length)
            if first & 128:
                return json.loads(whole)

    def call(self, method, **words):
        self.number += 1
        text = json.dumps({"id": self.number, "method": method, "params": words}).encode()
        mask = os.urandom(4)
        head = bytes([128 | len(text)]) if len(text) < 126 else bytes([128 | 126]) + struct.pack(">H", len(text))
        self.socket.sendall(b"\x81" + head + mask + bytes(byte ^ mask[at % 4] for at, byte in enumerate(text)))
        while True:
            told = self.frame()
            if told.get("id") == self.number:
                return told.get("result", told)
            self.events.append(told)

    def front(self):
        """Has it shown: what isn't hears that, and looks less often."""
        self.call("Page.bringToFront")

    def js(self, text):
        """What the script gives, once it is there."""
        told = self.call("Runtime.evaluate", expression=text, awaitPromise=True, returnByValue=True)
        return told["result"].get("value") if "exceptionDetails" not in told else "threw " + json.dumps(told["exceptionDetails"])[:300]

    def go(self, address):
        self.call("Page.navigate", url=address)

    def soon(self, text, seconds=SECONDS):
        """Whether the script gives something true in time."""
        over = time.monotonic() + seconds
        self.front()
        while time.monotonic() < over:
            if self.js(text) is True:
                return True
            time.sleep(0.1)
        return False

    def size(self, width, height):
        self.call("Emulation.setDeviceMetricsOverride", width=width, height=height, deviceScaleFactor=1, mobile=width < 600)

    def scheme(self, name):
        self.call("Emulation.setEmulatedMedia", features=[{"name": "prefers-color-scheme", "value": name}])

    def press(self, key, code):
        text = {"text": "\r"} if key == "Enter" else {}
        self.call("Input.dispatchKeyEvent", type="keyDown", key=key, code=key, windowsVirtualKeyCode=code, **text)
        self.call("Input.dispatchKeyEvent", type="keyUp", key=key, code=key, windowsVirtualKeyCode=code)

    def shot(self, path, whole=True):
        """A picture of the page, in a file."""
        self.front()
        if whole:
            height = self.js("document.documentElement.scrollHeight")
            width = self.js("innerWidth")
            self.size(width, min(height, 3000))
        told = self.call("Page.captureScreenshot", format="png")
        with open(path, "wb") as file:
            file.write(base64.b64decode(told["data"]))

    def complaints(self):
        """What the console says that is wrong."""
        self.js("1")
        found = []
        for event in self.events:
            if event.get("method") == "Log.entryAdded" and event["params"]["entry"]["level"] in ("error", "warning"):
                found.append(event["params"]["entry"]["text"])
            if event.get("method") == "Runtime.exceptionThrown":
                found.append(event["params"]["exceptionDetails"].get("text", "?"))
        return found

    def close(self):
        self.socket.close()


class Browser:
    """Chromium, with a profile of its own that goes when it ends."""

    def __init__(self):
        self.profile, self.port = tempfile.mkdtemp(), free_port()
        self.process = subprocess.Popen([installed(), "--headless", "--no-sandbox", "--disable-gpu", "--hide-scrollbars", "--disable-background-timer-throttling",
                                         "--disable-renderer-backgrounding", "--disable-backgrounding-occluded-windows", "--user-data-dir=" + self.profile,
                                         "--remote-debugging-port=%d" % self.port, "about:blank"],
                                        stdin=subprocess.DEVNULL, stdout=subprocess.DEVNULL, stderr=subprocess.DEVNULL)

    def ask(self, path, method="GET"):
        request = urllib.request.Request("http://127.0.0.1:%d%s" % (self.port, path), method=method)
        return json.load(urllib.request.urlopen(request, timeout=SECONDS))

    def is_ready(self):
        over = time.monotonic() + SECONDS
        while time.monotonic() < over:
            try:
                self.ask("/json/version")
                return True
            except (OSError, urllib.error.URLError):
                time.sleep(0.1)
        return False

    def page(self):
        return Page(self.ask("/json/new?about:blank", "PUT")["webSocketDebuggerUrl"])

    def end(self):
        self.process.terminate()
        try:
            self.process.wait(SECONDS)
        except subprocess.TimeoutExpired:
            self.process.kill()
            self.process.wait()
        shutil.rmtree(self.profile, ignore_errors=True)
