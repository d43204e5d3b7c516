"""Who may ask what of a page, and what is answered."""
import base64
import hashlib
import json
import os
import re
import subprocess
import threading
import time

from living import SECONDS, slowness
from web_store import Store, Web, connect, path, values

LINE = json.dumps({"line": "claim mon/9/blue kim"}).encode()

# Each is JSON with no line, or none.
BAD_BODIES = [b"", b"claim a kim", b"{}", b'{"line":7}', b'{"line":null}', b'["claim a kim"]', b'{"Line":"claim a kim"}', b'{"line":"\xff\xfe"}',
              b'{"line":"a"', b'{"line":"claim a kim"} x', b"[" * 3000, b'{"line":["claim a kim"]}']

# Values that a page might take for something else.
VALUES = ["<img src=x onerror=hit=1>", "</script><b>x", "a & b < c", "it's \"quoted\"", "back\\slash", "\u202ertl", "tab\there", "\u0000nul", "\u2028line",
          "007", "\U0001f680" * 8, "{{x}}", "'", "true", "-0"]


def is_refused(checks, web, name, status, answer):
    """A refusal has its status, and a text that tells nothing of the store."""
    told, fields, body = answer
    checks.that("who: " + name, (told, b"mon/9" in body or web.token.encode() in body), (status, False))
    checks.that("who: %s, one request a connection" % name, fields.get("connection") if told else "close", "close")


def who(checks, program, folder):
    with Store(program, folder) as store, Web(program, store, path(folder, "kim.state")) as web:
        checks.that("who: a line", web.do("claim mon/10/red kim")["status"], 0)
        before = web.looks(lambda state: values(state).get("mon/10/red", ("", ""))[1] == "final")
        stolen = Web(program, store, path(folder, "lee.state"), "lee")
        tries = [
            ("a state with no token", 401, web.ask("GET", "/state", bearer=False)),
            ("a state with another token", 401, web.ask("GET", "/state", bearer="Bearer " + "0" * 32)),
            ("a state with the token of another page", 401, web.ask("GET", "/state", bearer="Bearer " + stolen.token)),
            ("a token that is cut", 401, web.ask("GET", "/state", bearer="Bearer " + web.token[:-1])),
            ("a token that is longer", 401, web.ask("GET", "/state", bearer="Bearer " + web.token + "0")),
            ("a token with no word before it", 401, web.ask("GET", "/state", bearer=web.token)),
            ("a token in the target", 401, web.ask("GET", "/state?token=" + web.token, bearer=False)),
            ("a token in a cookie", 401, web.ask("GET", "/state", bearer=False, more=["Cookie: token=" + web.token])),
            ("a line with no token", 401, web.ask("POST", "/do", LINE, bearer=False)),
            ("a line with another token", 401, web.ask("POST", "/do", LINE, bearer="Bearer x")),
            ("a line with no origin", 403, web.ask("POST", "/do", LINE, origin=False)),
            ("a line from another page", 403, web.ask("POST", "/do", LINE, origin="http://evil.example")),
            ("a line from a page of no origin", 403, web.ask("POST", "/do", LINE, origin="null")),
            ("a line from another port", 403, web.ask("POST", "/do", LINE, origin="http://127.0.0.1:%d" % stolen.port)),
            ("a line from a page over TLS", 403, web.ask("POST", "/do", LINE, origin="https://" + web.host)),
            ("a page at another name", 421, web.ask("GET", "/", host="evil.example:%d" % web.port)),
            ("a page at a name of this machine", 421, web.ask("GET", "/", host="localhost:%d" % web.port)),
            ("a page at no port", 421, web.ask("GET", "/", host="127.0.0.1")),
            ("a state at another name", 421, web.ask("GET", "/state", host="evil.example")),
            ("a line at another name", 421, web.ask("POST", "/do", LINE, host="evil.example")),
            ("a target with another name", 421, web.ask("GET", "http://evil.example/state")),
            ("a target with this name", 421, web.ask("GET", "http://%s/state" % web.host)),
            ("a line by GET", 405, web.ask("GET", "/do")),
            ("a line by PUT", 405, web.ask("PUT", "/do", LINE)),
            ("a state by POST", 405, web.ask("POST", "/state", LINE)),
            ("a page by POST", 405, web.ask("POST", "/", LINE)),
            ("a head alone", 405, web.ask("HEAD", "/state")),
            ("what may be asked", 405, web.ask("OPTIONS", "/do", origin="http://evil.example", more=["Access-Control-Request-Method: POST"])),
            ("nothing", 404, web.ask("GET", "/nothing")), ("two slashes", 404, web.ask("POST", "//do", LINE)),
            ("a slash behind", 404, web.ask("POST", "/do/", LINE)), ("a path that goes up", 404, web.ask("POST", "/x/../do", LINE)),
            ("a path with an escape", 404, web.ask("POST", "/%64o", LINE)), ("a path in capitals", 404, web.ask("POST", "/DO", LINE)),
            ("a state of something else", 400, web.ask("GET", "/state?key=mon")),
            ("two hosts", 400, web.ask("GET", "/", more=["Host: evil.example"])), ("no host", 400, web.ask("GET", "/", host=False)),
        ]
        tries += [("the body %.20r" % body, 400, web.ask("POST", "/do", body)) for body in BAD_BODIES]
        for name, status, answer in tries:
            is_refused(checks, web, name, status, answer)
        again = web.looks(lambda state: state["current"])
        checks.that("who: who may not ask changes nothing", [again[name] for name in ("rows", "own", "session", "at")],
                    [before[name] for name in ("rows", "own", "session", "at")])
        checks.that("who: of two tokens the first counts", web.ask("GET", "/state", bearer="Bearer no", more=["Authorization: Bearer " + web.token])[0], 401)
        other = Web(program, store, path(folder, "max.state"), None)
        checks.that("who: each page has a token of its own", len({web.token, stolen.token, other.token}), 3)
        checks.that("who: nobody claims without a name", other.state()["name"], None)
        stolen.end(), other.end()
        checks.that("who: a page tells nothing", (web.told.all(), len(web.printed.all())), ([], 1))


def page(checks, program, folder):
    with open(os.path.join("..", "..", "crates", "bayou_web_page", "data", "page.html"), "rb") as file:
        html = file.read()
    with Store(program, folder, 1) as store, Web(program, store, path(folder, "kim.state")) as web:
        status, fields, body = web.ask("GET", "/", bearer=False, origin=False)
        checks.that("page: it is the one of the repository", (status, body == html), (200, True))
        wanted = {"content-type": "text/html; charset=utf-8", "cache-control": "no-store", "x-content-type-options": "nosniff",
                  "referrer-policy": "no-referrer", "connection": "close"}
        checks.that("page: its fields", {name: fields.get(name) for name in wanted}, wanted)
        policy = dict(part.split(" ", 1) for part in fields["content-security-policy"].split("; "))
        for kind in ("script", "style"):
            texts = re.findall(b"<%s>(.*?)</%s>" % (kind.encode(), kind.encode()), html, re.S)
            hashes = " ".join("'sha256-%s'" % base64.b64encode(hashlib.sha256(text).digest()).decode() for text in texts)
            checks.that("page: its own %s alone may run" % kind, policy[kind + "-src"], hashes)
        checks.that("page: nothing else may", {name: text for name, text in policy.items() if name not in ("script-src", "style-src")},
                    {"default-src": "'none'", "connect-src": "'self'", "base-uri": "'none'", "form-action": "'none'", "frame-ancestors": "'none'"})
        checks.that("page: nothing is from elsewhere", re.findall(rb"(?:src|href|url|import)\s*[=(]|https?://", html), [])
        checks.that("page: its text is put as text", re.findall(rb"innerHTML|outerHTML|insertAdjacent|document\.write|eval\(", html), [])


# What a person says, one after another: each has the same answer at a store that is asked by `bayou connect`.
SAID = ["get mon/9/blue", "claim mon/9/blue kim", "claim mon/9/blue mon/9/red lee", "get mon/9/blue mon/9/red", "put visits 7", "add visits 2",
        "add mon/9/blue 1", "del mon/9/red", "del mon/9/green", "list", "list mon/", "became 0:1", "mine", "session", "servers", "at 0", "at 3", "help", "walk",
        "claim mon/9/blue",
        "put Mon 1", "put x \"two words\"", "get x", "  ", "[\"session\",1,[]]", "[\"read\",1,0,\"x\"]", "[\"read\",2,0,\"x\"]", "[\"servers\",2]", "[",
        "[\"write\",0,0,{\"check\":[[\"equals\",\"x\",\"two words\"]],\"update\":[[\"del\",\"x\"]]}]", "dump", "again", "quit", "get x", "wait 1"]


def lines(checks, program, folder):
    one, other = path(folder, "one"), path(folder, "other")
    os.mkdir(one), os.mkdir(other)
    with Store(program, one, 1) as store, Store(program, other, 1) as twin, Web(program, store, path(one, "kim.state")) as web:
        for at, line in enumerate(SAID):
            told = web.do(line)
            # A call of `bayou connect` says one line, and a session that it opens isn't open in the next.
            if line.startswith(('["session"', '["read",1')):
                continue
            status, printed = connect(program, twin, path(other, "kim.state"), [line])
            checks.that("lines: %d, %s" % (at, line), (told["status"], told["lines"]), (status, printed))
            if status == 2:
                checks.that("lines: what is wrong with %r is told" % line, bool(re.fullmatch("bayou: line %d: .*" % (at + 1), "".join(told["told"]))), True)
        script = ['["read",1,0,"visits"]', '["read",2,0,"visits"]', '["servers",2]']
        checks.that("lines: a script's line", [web.do(line)["status"] for line in script], [0, 2, 2])
        checks.that("lines: two lines aren't one", [web.do(line)["status"] for line in ("put a 1\nput b 2", "put a 1\n")], [2, 2])
        checks.that("lines: one that is too long", web.do("put a " + "1" * 70000)["status"], 2)
        checks.that("lines: a body that is too long", web.ask("POST", "/do", b" " * 200000)[0], 413)
        checks.that("lines: none of these was done", [key for key in values(web.looks(lambda state: state["current"])) if key in ("a", "b")], [])
        status, printed = connect(program, twin, path(other, "kim.state"), ["list"])
        checks.that("lines: both stores have the same", (web.do("list")["lines"][:-1], status), (printed[:-1], 0))


def seen(checks, program, folder):
    with Store(program, folder) as store, Web(program, store, path(folder, "kim.state")) as web:
        for at, value in enumerate(VALUES):
            told = web.do("put odd/%d %s" % (at, json.dumps(value)))
            checks.that("seen: the value %r" % value, told["status"], 0)
        checks.that("seen: numbers", [web.do(line)["status"] for line in ("put least -9223372036854775808", "put most 9223372036854775807")], [0, 0])
        state = web.looks(lambda state: all(row["standing"] == "final" for row in state["rows"]) and len(state["rows"]) == len(VALUES) + 2)
        found = {row["key"]: (row["type"], row["value"]) for row in state["rows"]}
        checks.that("seen: each value as it is", found, {**{"odd/%d" % at: ("text", value) for at, value in enumerate(VALUES)},
                                                         "least": ("num", "-9223372036854775808"), "most": ("num", "9223372036854775807")})
        checks.that("seen: in the order of keys", [row["key"] for row in state["rows"]], sorted(found))
        checks.that("seen: all is final once all have met", (state["own"], state["current"]), ([], True))
        some = [key for key in sorted(found) if key.startswith("odd/1")]
        for query, wanted in (("?prefix=odd%2F1", some), ("?prefix=odd/1", some), ("?prefix=most", ["most"]), ("?prefix=zzz", []),
                              ("?prefix=", sorted(found)), ("", sorted(found))):
            checks.that("seen: keys of %r" % query, [row["key"] for row in web.state(query)["rows"]], wanted)
        total = len(VALUES) + 2
        checks.that("seen: servers", [(one["id"], one["up"], sum(one["at"]), one["limit"]) for one in state["servers"]],
                    [(index, True, total, 65536) for index in range(3)])
        session = state["session"]
        checks.that("seen: the session", (session["asks"], session["writes"], state["name"]), (["ryw", "mr", "wfr", "mw"], [total, 0, 0], "kim"))
        web.end()
        with Web(program, store, path(folder, "kim.state"), words=()) as again:
            state = again.looks(lambda state: state["current"])
            checks.that("seen: the session is kept", (state["session"]["asks"], state["session"]["writes"]), (["ryw", "mr", "wfr", "mw"], [total, 0, 0]))


def streams(checks, program, folder):
    with Store(program, folder, 1) as store, Web(program, store, path(folder, "kim.state")) as web:
        checks.that("streams: a line", web.do("put a 1")["status"], 0)
        get = web.head("GET", "/state", origin=False) + b"\r\n"
        post = web.head("POST", "/do", more=["Content-Length: %d" % len(LINE)]) + b"\r\n" + LINE
        most = 4 * slowness()
        for name, pieces, rest, shut, begins in (
                ("silent", [], 0, False, b""), ("half a head", [get[:20]], 0, False, b""),
                ("a byte now and then", [bytes([byte]) for byte in b"GET /" + b"a" * 60], 0.1, False, b""),
                ("a head in two pieces", [get[:30], get[30:]], 0.15, False, b"HTTP/1.1 200"), ("a body that stops", [post[:-10]], 0, False, b""),
                ("a body that ends", [post[:-10]], 0, True, b"HTTP/1.1 400"),
                ("a head of 20 kB", [web.head("GET", "/", more=["x: " + "y" * 20000]) + b"\r\n"], 0, False, b"HTTP/1.1 4"),
                ("65 fields", [web.head("GET", "/", more=["x%d: y" % at for at in range(64)]) + b"\r\n"], 0, False, b"HTTP/1.1 431"),
                ("a byte that is none", [web.head("GET", "/", more=["x: a\0b"]) + b"\r\n"], 0, False, b"HTTP/1.1 400"),
                ("TLS", [b"\x16\x03\x01\x02\x00\x01" + bytes(200)], 0, False, b"HTTP/1.1 400"),
                ("HTTP/2", [b"PRI * HTTP/2.0\r\n\r\nSM\r\n\r\n"], 0, False, b"HTTP/1.1 4"),
                ("a length and pieces", [web.head("POST", "/do", more=["Content-Length: 5", "Transfer-Encoding: chunked"]) + b"\r\n0\r\n\r\n"],
                 0, False, b"HTTP/1.1 400"),
                ("three requests at once", [get * 3], 0, False, b"HTTP/1.1 200")):
            answer, took = web.send(*pieces, rest=rest, shut=shut)
            checks.that("streams: " + name, (answer.startswith(begins), answer.count(b"HTTP/1.1 ") <= 1, took < most), (True, True, True))
        silent = [threading.Thread(target=web.send) for _ in range(11)]
        for one in silent:
            one.start()
        _, took = web.send(get)
        checks.that("streams: a good one beside eleven that are silent waits for none, but took %.2f s" % took, took < 1.0 * slowness(), True)
        for one in silent:
            one.join()
        checks.that("streams: nothing was done by these", values(web.looks(lambda state: state["current"])), {"a": ("1", None)})
        checks.that("streams: it serves on", web.do("get a")["lines"], ['0 read a num 1 at 1'])


def ended(words):
    """How a call ends that serves no page: its status, and the line that it tells."""
    done = subprocess.run(words, stdin=subprocess.DEVNULL, stdout=subprocess.PIPE, stderr=subprocess.PIPE, timeout=SECONDS)
    return done.returncode, done.stdout.decode(), done.stderr.decode()


def words(checks, program, folder):
    with Store(program, folder, 1) as store:
        state = path(folder, "kim.state")
        call = [program, "web", *store.words(), "--state", state]
        with Web(program, store, state) as web:
            for name, more, status, told in (
                    ("an address of another machine", ["--listen", "192.0.2.1:0"], 2, "bayou: --listen takes"),
                    ("all addresses", ["--listen", "0.0.0.0:0"], 2, "bayou: --listen takes"),
                    ("a name in place of an address", ["--listen", "localhost:0"], 2, "bayou: --listen takes"),
                    ("a name with a space", ["--name", "kim lee"], 2, "bayou: --name takes"),
                    ("a name that is too long", ["--name", "k" * 33], 2, "bayou: --name takes"), ("an empty name", ["--name", ""], 2, "bayou: --name takes"),
                    ("a session that asks for nothing known", ["--session", "walk"], 2, "bayou: --session takes"),
                    ("an address that is in use", ["--listen", web.host], 3, "bayou: it can't be listened at"),
                    ("a state that is in use", ["--listen", "127.0.0.1:0"], 3, "bayou: %s: it can't be opened, or another process has it" % state),
                    ("a key that isn't there", ["--listen", "127.0.0.1:0", "--key", path(folder, "no.key")], 3, "bayou: " + path(folder, "no.key"))):
                came, printed, line = ended(call + more)
                checks.that("words: " + name, (came, printed, line.startswith(told), line.count("\n")), (status, "", True, 1))
            checks.that("words: a state that a person uses", connect(program, store, state, ["get a"])[0], 3)
        came, printed, line = ended(call + ["--listen", "127.0.0.1:0", "--session", "ryw"])
        checks.that("words: a session that asked for something else", (came, printed, "the session there asks for" in line), (2, "", True))
        checks.that("words: no state", ended([program, "web", *store.words()])[:2], (2, ""))
        with open(path(folder, "bad.state"), "wb") as file:
            file.write(b"no state")
        came, printed, line = ended([program, "web", *store.words(), "--state", path(folder, "bad.state"), "--listen", "127.0.0.1:0"])
        checks.that("words: a state that is none", (came, printed, "bad.state" in line), (3, "", True))


def many(checks, program, folder):
    number = 10000
    with open(path(folder, "rows"), "w") as file:
        file.write(json.dumps(["exported", "server-0", [0], number]) + "\n")
        for at in range(number):
            file.write(json.dumps(["put", "day/%05d/room-%d" % (at // 4, at % 4), "a person %d" % at]) + "\n")
    with Store(program, folder, 1) as store:
        done = subprocess.run([program, "import", path(folder, "rows"), *store.words()], stdout=subprocess.PIPE, timeout=120)
        checks.that("many: they are put", done.returncode, 0)
        with Web(program, store, path(folder, "kim.state")) as web:
            state = web.looks(lambda state: state["current"] and len(state["rows"]) == number, 120)
            checks.that("many: all are seen", len(state["rows"]), number)
            get, least = web.head("GET", "/state", origin=False) + b"\r\n", 1e9
            for _ in range(20):
                begun = time.monotonic()
                answer, _ = web.send(get)
                least = min(least, time.monotonic() - begun)
            print("web: a state of %d keys, %d bytes, takes %.1f ms at the least" % (number, len(answer), least * 1000))
            checks.that("many: in under 50 ms, but took %.1f" % (least * 1000), least < 0.05 * slowness(), True)


GROUPS = {"who": who, "page": page, "lines": lines, "seen": seen, "streams": streams, "words": words, "many": many}
