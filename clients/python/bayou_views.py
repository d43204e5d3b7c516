"""What a client of Bayou servers knows as final. bayou.py needs this file beside itself; a program imports bayou alone.

A view of a server is a vector that the server told of itself at some time. Views of one server join; views of two servers never do. A Write is known
where a view of each server covers it. It is final where nothing can come before it any more: then it stands at the same place, and comes to the same,
at every server, for good. docs/FORMATS.md, "Kept views", has the text in which all this is kept.
"""
import hashlib
import re
from typing import TYPE_CHECKING, Any, Callable, Dict, Iterable, List, Optional, Sequence, Tuple, Union

if TYPE_CHECKING:
    from bayou import Accepted, Outcome

Vector = Tuple[int, ...]
Name = Tuple[int, int]

SERVERS, MAX_COUNT = 16, 65_536
# How many own Writes are followed, and how many Writes a server is asked for at once.
MAX_OWN, MAX_ITEMS = 64, 4_096
_ZERO = (0,) * SERVERS
_NUMBER = r"(?:0|[1-9][0-9]{0,4})"
_VECTOR = r"%s(?:,%s){0,15}" % (_NUMBER, _NUMBER)
_TOLD = r"update|merge [1-9][0-9]{0,2}|none|untold"
_TEXT = re.compile(r"bayou-views-1 ([1-9]|1[0-6])\nfinal (%s)\n((?:view %s %s\n)*)((?:own %s:%s %s (?:%s)\n)*)"
                   % (_VECTOR, _NUMBER, _VECTOR, _NUMBER, _NUMBER, _NUMBER, _TOLD))


class NoViews(ValueError):
    """A text keeps no views."""


class Own:
    """A Write of one's own that wasn't reported as final yet. `told` is what was reported of it last: "update", "merge M", "none", or "untold"."""

    def __init__(self, origin: int, seq: int, clock: int, told: str = "untold"):
        self.origin, self.seq, self.clock, self.told = origin, seq, clock, told


class Change:
    """What changed of a Write of one's own: `accepted` is its name, as (origin, seq). `outcome` is what became of it. `is_final` says that this stays so,
    at every server; otherwise it is tentative."""

    def __init__(self, accepted: Name, outcome: "Outcome", is_final: bool):
        self.accepted, self.outcome, self.is_final = accepted, outcome, is_final

    def __repr__(self) -> str:
        return "Change(%d:%d %r %s)" % (self.accepted + (self.outcome, "final" if self.is_final else "tentative"))


def join(one: Sequence[int], other: Sequence[int]) -> Vector:
    return tuple(map(max, one, other))


def covers(vector: Sequence[int], other: Sequence[int]) -> bool:
    return all(has >= wants for has, wants in zip(vector, other))


def raised(vector: Sequence[int], origin: int, seq: int) -> Vector:
    """The vector, with at least so many Writes of that server."""
    return tuple(max(count, seq) if place == origin else count for place, count in enumerate(vector))


def known(views: Dict[int, Vector], count: int) -> Vector:
    """Of each server, how many of its Writes every server is known to hold. There must be a view of each of the `count` servers."""
    return tuple(map(min, *(views[server] for server in range(count)), (MAX_COUNT,) * SERVERS))


def _told(outcome: "Outcome") -> str:
    return outcome.became if outcome.alternative is None else "%s %d" % (outcome.became, outcome.alternative)


class Views:
    """The views of all servers, what is known as final by them, and the own Writes that weren't reported as final yet.

    `count` is how many servers the store has, or None as long as no server said so. `final` says of each server how many of its Writes are final."""

    def __init__(self) -> None:
        self.count: Optional[int] = None
        self.views: Dict[int, Vector] = {}
        self.final: Vector = _ZERO
        self.own: List[Own] = []
        # The views of an earlier look, until a server holds all that was made by then. Where Writes are made all the time no server ever holds what all
        # have made by now; and what is final by views of any time is final.
        self.earlier: Dict[int, Vector] = {}

    def is_of(self, count: int) -> bool:
        """Whether the store has so many servers, as far as it is known. The first count that comes is the store's."""
        if self.count is None:
            self.count = count
            self.views = {server: view for server, view in self.views.items() if self._is_view(server, view)}
            self.own = [own for own in self.own if own.origin < count]
        return self.count == count

    def _is_view(self, server, vector):
        return self.count is None or (server < self.count and not any(vector[self.count:]))

    def heard(self, server: int, vector: Vector) -> None:
        """Joins a view of that server."""
        if self._is_view(server, vector):
            self.views[server] = join(self.views.get(server, _ZERO), vector)

    def is_final(self, origin: int, seq: int) -> bool:
        return seq <= self.final[origin]

    def wrote(self, write: "Accepted") -> None:
        """Follows a Write of one's own from now on, which was accepted. Where there are too many the oldest isn't followed any more."""
        self.heard(write.origin, raised(write.deps, write.origin, write.seq))
        is_there = any((own.origin, own.seq, own.clock) == (write.origin, write.seq, write.clock) for own in self.own)
        if not is_there and (self.count is None or write.origin < self.count):
            self._follow(Own(write.origin, write.seq, write.clock))
            self.own = self.own[-MAX_OWN:]

    def _follow(self, own):
        """Follows this Write. An earlier one of its name was lost by its server, which gave the name to this one."""
        self.own = [one for one in self.own if (one.origin, one.seq) != (own.origin, own.seq)] + [own]

    def tells(self, own: Own, outcome: "Outcome") -> Optional[Change]:
        """The change where this is to be reported of the Write, by a server that holds all that is final. It counts as reported then; one reported as
        final isn't followed any more."""
        is_final = self.is_final(own.origin, own.seq)
        if not is_final and own.told == _told(outcome):
            return None
        own.told = _told(outcome)
        if is_final:
            self.own.remove(own)
        return Change((own.origin, own.seq), outcome, is_final)

    # A look.

    def looks(self, told: Dict[int, Vector], ask: Callable[[int, Vector], Optional[Iterable["Accepted"]]]) -> None:
        """Looks what is final by what servers told just now, of which each was heard. `ask` gives the Writes, in stamp order, that a server holds and a
        vector doesn't count, or None where it can't be asked."""
        found = [(views, server) for views, server in ((self._views_by(told[server]), server) for server in sorted(told)) if views is not None]
        if found:
            views, server = max(found, key=lambda one: sum(known(one[0], self.count)))
            self._raise(views, server, told[server], ask)
        self.earlier = dict(self.views) if found else {**self.views, **self.earlier}

    def _views_by(self, held):
        """Of each server the last view by which it had made no more than is held; None where there is none, or not all is held that is final."""
        views = {}
        for server in range(self.count or 0):
            both = [views[server] for views in (self.views, self.earlier) if server in views]
            views[server] = next((view for view in both if view[server] <= held[server]), None)
        is_one = self.count is not None and None not in views.values() and covers(held, self.final)
        return views if is_one else None

    def _raise(self, views, server, held, ask):
        """Raises what is final by the Writes of that server that aren't known as final. Nothing is asked where they are known all, or too many."""
        if covers(known(views, self.count), held):
            self.final = join(self.final, held)
        if covers(self.final, held) or sum(map(lambda has, final: max(has - final, 0), held, self.final)) > MAX_ITEMS:
            return
        items = ask(server, self.final)
        if items is not None:
            self._passed(views, list(items))

    def _passed(self, views, items):
        """Raises what is final by these views, and by all Writes, in stamp order, that aren't known as final of a server that holds what was made by the
        views. Each tells a view of its own server. Those before the first one that isn't known are final."""
        for item in items:
            view = raised(item.deps, item.origin, item.seq)
            self.heard(item.origin, view)
            views[item.origin] = join(views.get(item.origin, _ZERO), view)
        least = known(views, self.count)
        for item in items:
            if item.seq > least[item.origin]:
                break
            self.final = raised(self.final, item.origin, item.seq)

    # The text in which it is kept.

    def text(self) -> bytes:
        """What is kept of it. The count of servers must be known."""
        def said(vector):
            return ",".join(map(str, vector[:self.count]))
        lines = ["bayou-views-1 %d" % self.count, "final " + said(self.final)]
        lines += ["view %d %s" % (server, said(self.views[server])) for server in sorted(self.views)]
        lines += ["own %d:%d %d %s" % (own.origin, own.seq, own.clock, own.told) for own in self.own]
        body = "".join(line + "\n" for line in lines).encode("ascii")
        return body + b"sum %s\n" % hashlib.sha256(body).hexdigest().encode("ascii")

    @classmethod
    def of(cls, text: bytes) -> "Views":
        """What is kept in the text. A `NoViews` says what is wrong with one that keeps none."""
        body, _, end = text.rpartition(b"sum ")
        if end != hashlib.sha256(body).hexdigest().encode("ascii") + b"\n":
            raise NoViews("its sum is another")
        try:
            found = _TEXT.fullmatch(body.decode("ascii"))
        except UnicodeDecodeError:
            found = None
        if found is None:
            raise NoViews("a line is none")
        views = cls()
        views.count = int(found.group(1))
        views.final = views._vector_of(found.group(2))
        views._views_of(found.group(3).splitlines())
        views._own_of(found.group(4).splitlines())
        views.earlier = dict(views.views)
        return views

    def _vector_of(self, text):
        counts = [int(count) for count in text.split(",")]
        if len(counts) != self.count or max(counts) > MAX_COUNT:
            raise NoViews("%s is no vector of %d servers" % (text, self.count))
        return tuple(counts) + _ZERO[self.count:]

    def _views_of(self, lines):
        last = -1
        for line in lines:
            _, server, vector = line.split(" ")
            if not last < int(server) < self.count:
                raise NoViews("a view of server %s isn't the next one" % server)
            last = int(server)
            self.views[last] = self._vector_of(vector)

    def _own_of(self, lines):
        for line in lines:
            _, name, clock, told = line.split(" ", 3)
            origin, seq = map(int, name.split(":"))
            own = Own(origin, seq, int(clock), told)
            if origin >= self.count or not 1 <= seq <= own.clock <= MAX_COUNT or int(told.partition(" ")[2] or 1) > 255:
                raise NoViews("%s is no own Write" % line)
            self._follow(own)
        if len(self.own) > MAX_OWN:
            raise NoViews("it has more than %d own Writes" % MAX_OWN)


class Finality:
    """What a session can say of what is final. None of it is a read of the session: its guarantees stay as they are, and so does a Write that it may
    ask again. A server that is away, silent, or was silent less than a minute ago is left out: what it told before still counts. An older server, which
    knows no greetings, tells nothing here.

    Each raises `BadState` or `BayouError` where a server is of a store of another number of servers than what is known: begin another session then,
    without the file of views."""

    links: List[Any]
    views: Views
    state: Any
    # What bayou.Session has for it: the name of a Write, the faults of a server that doesn't answer, and that of one of another store.
    _name_of: Callable[[Any], Name]
    _unanswered: Tuple[type, ...]
    _of_another_store: Callable[[str], Exception]

    def final(self) -> Vector:
        """Looks, and says of each server how many of its Writes are final. What was reported as final stays so."""
        self._look()
        return self.views.final

    def is_final(self, accepted: Union["Accepted", Name]) -> bool:
        """Whether the Write, which was accepted or has this name, is final. It looks, once, where that isn't known yet."""
        origin, seq = self._name_of(accepted)
        if not self.views.is_final(origin, seq):
            self._look()
        return self.views.is_final(origin, seq)

    def changed(self) -> List[Change]:
        """Looks, and tells what changed of the session's own Writes since they were reported last, each once: of each what became of it first, then where that
        is another, and at last where it is final. It counts as told before it is returned. The last 64 Writes are followed, up to where they are
        final; with a file of a state those of all its sessions. What no server can say now that holds the Write and all that is final is reported later."""
        servers = self._look()
        changes = []
        for own in list(self.views.own):
            outcome = self._outcome_of(own, servers)
            change = None if outcome is None else self.views.tells(own, outcome)
            changes += [] if change is None else [change]
        self._keep_views()
        return changes

    def _look(self):
        """Looks what is final by now. The servers that told what they hold, the one that holds most first."""
        if self.state is not None:
            self.state.check()
        told = {}
        for server in range(len(self.links)):
            vector = self._told_by(server)
            if vector is not None:
                told[server] = vector
        self.views.looks(told, lambda server, vector: self._asked(server, lambda link: link.offered(vector)))
        self._keep_views()
        return sorted(told, key=lambda server: -sum(told[server]))

    def _outcome_of(self, own, servers):
        """What became of the Write at the first of the servers that holds it and all that is final."""
        need = raised(self.views.final, own.origin, own.seq)
        for server in servers:
            outcome = self._asked(server, lambda link: link.became(need, own.origin, own.seq, own.clock))
            if outcome is not None:
                return outcome[1]
        return None

    def _follow(self, accepted):
        """Follows a Write that was accepted, up to where it is reported as final. It is kept as such before it is no longer kept as one to ask again."""
        if self.state is not None and self.views.count is None:
            self._asked(accepted.origin, lambda link: link.greet())
            self._count_of(accepted.origin)
        self.views.wrote(accepted)
        self._keep_views()

    def _keep_views(self):
        if self.state is not None and self.views.count is not None:
            self.state.keep_views(self.views.text())

    def _heard(self, server, vector):
        """Joins what a server told, if the store is of as many servers as others say."""
        if self._count_of(server) == self.views.count is not None:
            self.views.heard(server, vector)

    def _count_of(self, server):
        """How many servers the store has by that server, if it was greeted; the first that is heard of is the store's."""
        link = self.links[server] if server < len(self.links) else None
        count = None if link is None else link.count()
        if count is not None:
            self.views.is_of(count)
        return count

    def _asked(self, server, ask):
        """What that server answers, asked as no read of the session; None where it is away, silent, older, or refuses."""
        link = self.links[server] if server < len(self.links) else None
        if link is None or link.is_silent():
            return None
        try:
            return ask(link)
        except self._unanswered:
            return None

    def _told_by(self, server):
        """What that server holds, if it can be asked and says how many servers there are, which are as many as others say."""
        vector = self._asked(server, lambda link: link.vector())
        count = self._count_of(server)
        if vector is None or count is None:
            return None
        if count != self.views.count:
            raise self._of_another_store("it is of a store of %d servers, and server %d is of one of %d" % (self.views.count, server, count))
        return vector
