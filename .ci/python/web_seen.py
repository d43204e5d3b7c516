"""The page in Chromium: what a person sees and does there."""
import http.server
import os
import threading
import time

from browser import Browser
from picture import smaller
from web_store import Store, Web, path

TOP = os.path.join("..", "..")
SHOTS = os.path.join(TOP, "crates", "bayou", "out", "web")
ROOM = "mon/9/blue"
ODD = "<img src=x onerror=hit=1>\u202e"


def cell(key):
    """A script that gives what stands in the cell of the key, and its kind."""
    day, hour, room = key.split("/")
    return ("(()=>{const t=document.querySelector('#grid table');if(!t||!t.tHead)return null;"
            "const c=[...t.tHead.rows[0].cells].findIndex(x=>x.textContent==='%s'),r=[...t.tBodies[0].rows].find(x=>x.cells[0].textContent==='%s');"
            "return r&&c>0?[r.cells[c].firstChild.textContent,r.cells[c].className].join():null})()" % (room, hour))


class Framing(http.server.HTTPServer):
    """A page of somebody else on this machine, which frames the one that is meant."""

    def __init__(self, link):
        class Answer(http.server.BaseHTTPRequestHandler):
            def do_GET(self):
                text = b"<iframe src='%s'></iframe>" % link.encode()
                self.send_response(200)
                self.send_header("Content-Type", "text/html")
                self.send_header("Content-Length", str(len(text)))
                self.end_headers()
                self.wfile.write(text)

            def log_message(self, *_):
                pass
        super().__init__(("127.0.0.1", 0), Answer)
        threading.Thread(target=self.serve_forever, daemon=True).start()


def button(key):
    return "document.querySelector('[data-key=\"%s\"]')" % key


def told(part, text):
    """A script: whether this part of the page says that."""
    return "document.getElementById('%s').textContent.includes('%s')" % (part, text)


def opened(browser, web, rows=True):
    page = browser.page()
    page.size(1240, 800)
    page.go(web.link)
    page.soon("typeof state!=='undefined'&&!!state" + ("&&state.rows.length>0" if rows else ""))
    return page


def pictures(checks, page, name):
    os.makedirs(SHOTS, exist_ok=True)
    for scheme in ("light", "dark"):
        for width in (1240, 400):
            page.scheme(scheme)
            page.size(width, 800)
            time.sleep(0.3)
            checks.that("browser: %s fits %d pixels" % (name, width), page.js("document.documentElement.scrollWidth<=innerWidth"), True)
            page.shot(os.path.join(SHOTS, "%s-%s-%d.png" % (name, scheme, width)))
    page.scheme("light")
    page.size(1240, 800)


def met(checks, browser, program, store, folder):
    """Two persons claim one room while the servers are apart, see both as tentative, and meet."""
    with Web(program, store, path(folder, "kim.state"), "kim", (0, 1, 2)) as kim, Web(program, store, path(folder, "lee.state"), "lee", (1, 0, 2)) as lee:
        kim.do("put begun 1"), kim.do("claim mon/9/red kim"), kim.do("claim mon/10/blue kim"), lee.do("claim mon/10/red lee"), lee.do("claim tue/9/blue lee")
        kim.looks(lambda state: len(state["rows"]) == 5 and all(row["standing"] == "final" for row in state["rows"]))
        pages = [opened(browser, web) for web in (kim, lee)]
        checks.that("browser: what is final is solid", pages[0].soon(cell("mon/9/red") + "==='kim,final'"), True)
        store.part(1)
        time.sleep(1.5)
        # The one by the keyboard, the other by a click.
        checks.that("browser: a free place is a button with a name", pages[0].js(button(ROOM) + ".getAttribute('aria-label')"), "claim mon 9 blue")
        pages[0].js(button("mon/9/red") + ".focus()")
        pages[0].press("ArrowLeft", 37)
        checks.that("browser: an arrow goes to the next place", pages[0].js("document.activeElement.dataset.key"), ROOM)
        pages[0].press("Enter", 13)
        pages[1].js(button(ROOM) + ".click()")
        for page, name in zip(pages, ("kim", "lee")):
            checks.that("browser: %s sees an own claim, hatched" % name, page.soon(cell(ROOM) + "==='%s,tentative'" % name), True)
            checks.that("browser: and among own Writes", page.soon(told("own", "claim %s %s" % (ROOM, name))), True)
        pictures(checks, pages[0], "apart")
        store.part(0)
        for page in pages:
            checks.that("browser: once they met it is final", page.soon("(%s||'').endsWith(',final')" % cell(ROOM)), True)
        winners = [page.js(cell(ROOM)) for page in pages]
        checks.that("browser: both see the same", winners[0], winners[1])
        loser = pages[1 if (winners[0] or "").startswith("kim") else 0]
        winner = winners[0].split(",")[0]
        checks.that("browser: who fell back is told", loser.soon(told("news", "it came to nothing")), True)
        checks.that("browser: and who has the room", loser.soon(told("news", "%s is %s’s" % (ROOM, winner))), True)
        pictures(checks, loser, "met")
        mine = "mon/10/red" if winner == "kim" else "mon/10/blue"
        checks.that("browser: an own place is given back", loser.js(button(mine) + ".textContent"), "give back")
        loser.js(button(mine) + ".click()")
        checks.that("browser: then it is free", loser.soon("(%s||'').startsWith('free')" % cell(mine)), True)
        second = opened(browser, kim)
        second.js("act('add tally 1')"), pages[0].js("act('add tally 1')")
        checks.that("browser: a second tab sees and does the same", second.soon("state.rows.some(r=>r.key==='tally'&&r.value==='2')"), True)
        for page in (*pages, second):
            checks.that("browser: nothing complains", [text for text in page.complaints() if "favicon" not in text and "404" not in text], [])
            page.close()


def odd(checks, browser, program, store, folder):
    """Values that a page might take for something else, an address without its token, and servers that are away."""
    with Web(program, store, path(folder, "max.state"), "max") as web:
        page = opened(browser, web)
        page.js("window.hit=0;act('put odd/9/x '+%r)" % ('"%s"' % ODD))
        page.soon("state.rows.some(r=>r.key==='odd/9/x')")
        page.js("tab='odd';draw_rows()")
        checks.that("browser: a value is shown as text", page.js("document.querySelector('#grid td.tentative,#grid td.final').firstChild.textContent"), ODD)
        checks.that("browser: and runs nothing", (page.js("hit"), page.js("document.images.length")), (0, 0))
        page.js("document.body.insertAdjacentHTML('beforeend','<img src=x onerror=hit=1><a id=z onclick=hit=1>z</a><style>body{color:red}</style>');"
                "document.getElementById('z').click()")
        time.sleep(0.3)
        is_red = page.js("getComputedStyle(document.body).color==='rgb(255, 0, 0)'")
        checks.that("browser: the policy refuses what comes in", (page.js("hit"), is_red), (0, False))
        checks.that("browser: and asks nothing elsewhere", page.js("fetch('http://127.0.0.1:%d/').then(()=>1,e=>'refused')" % store.ports[0]), "refused")
        stolen = browser.page()
        stolen.go(web.link.split("#")[0])
        checks.that("browser: an address without its token shows nothing", stolen.soon(told("bar", "token")), True)
        checks.that("browser: no rows", stolen.js("document.querySelectorAll('#grid td').length"), 0)
        named = browser.page()
        named.go(web.link.replace("127.0.0.1", "localhost"))
        checks.that("browser: another name shows no page", named.soon("document.body.textContent.includes('Open the address')"), True)
        other, frame = browser.page(), Framing(web.link)
        other.go("http://127.0.0.1:%d/" % frame.server_port)
        checks.that("browser: it is framed by nobody", other.soon("document.querySelector('iframe').contentDocument===null"), True)
        checks.that("browser: by its policy", [text for text in other.complaints() if "frame-ancestors 'none'" in text] != [], True)
        frame.shutdown()
        page.js("location.reload()")
        page.soon("typeof state!=='undefined'&&!!state&&state.rows.length>0")
        for index in range(3):
            store.stop(index)
        checks.that("browser: servers that are away are told", page.soon(told("bar", "No server answers")), True)
        checks.that("browser: what was seen is shown, and nothing is claimed", (page.js("state.rows.length>0"),
                    page.js("[...document.querySelectorAll('#grid button')].every(b=>b.disabled)")), (True, True))
        pictures(checks, page, "away")
        web.end()
        checks.that("browser: a program that ended is told", page.soon(told("bar", "reached")), True)
        for one in (page, stolen, named, other):
            one.close()


def browser(checks, program, folder):
    seen = Browser()
    try:
        checks.that("browser: it runs", seen.is_ready(), True)
        with Store(program, folder) as store:
            met(checks, seen, program, store, folder)
            odd(checks, seen, program, store, folder)
    finally:
        seen.end()


def picture(checks, program, folder):
    """The picture of docs/WEB.md: some is final, and some is tentative, since a server is away."""
    seen = Browser()
    try:
        seen.is_ready()
        with Store(program, folder) as store, Web(program, store, path(folder, "kim.state")) as kim, \
                Web(program, store, path(folder, "lee.state"), "lee") as lee:
            for line in ("claim mon/9/blue kim", "claim mon/11/blue kim", "claim tue/9/blue kim"):
                kim.do(line)
            for line in ("claim mon/10/red lee", "claim mon/14/green lee", "claim wed/9/red lee"):
                lee.do(line)
            kim.looks(lambda state: len(state["rows"]) == 6 and all(row["standing"] == "final" for row in state["rows"]))
            store.stop(2)
            lee.do("claim mon/9/red lee")
            kim.do("claim mon/10/blue mon/10/green kim")
            page = opened(seen, kim)
            page.size(1080, 640)
            page.js("act('claim mon/14/blue kim')")
            page.soon(cell("mon/14/blue") + "==='kim,tentative'")
            page.soon("!state.servers[2].up")
            time.sleep(1)
            whole = path(folder, "whole.png")
            page.shot(whole, whole=False)
            made = os.path.join(TOP, "docs", "web.png")
            smaller(whole, made)
            checks.that("picture: it has under 100 kB", os.path.getsize(made) < 100_000, True)
            page.close()
    finally:
        seen.end()


GROUPS = {"browser": browser, "picture": picture}
