"""Scripts at random for `bayou net`, and what a script asks of its run."""
import random

import net_runs

SERVERS = 4
SESSIONS = 8
# A run may have so many.
MOST_SESSIONS = 32
PHASES = 5
OPERATIONS = 2000
PULLS = 12
GUARANTEES = ["ryw", "mr", "wfr", "mw"]
KEYS = ["a", "b", "c", "room/1", "room/2", "total"]


class Script:
    """A script in phases: of each the operations of each session, the pulls, and the lines that come last."""

    def __init__(self, asks):
        self.asks = asks
        self.phases = []

    def text(self, order):
        lines = [net_runs.line("servers", SERVERS)]
        lines += [net_runs.line("session", i, asks) for i, asks in enumerate(self.asks)]
        for at, (sessions, pulls, rest) in enumerate(self.phases):
            lines += [net_runs.line("phase")] if at else []
            # The lines of different sessions may stand in any order among each other.
            queues = [list(operations) for operations in sessions] + [[("pull", *pair) for pair in pulls]]
            turns = [i for i, queue in enumerate(queues) for _ in queue]
            order.shuffle(turns)
            lines += [net_runs.line(*queues[i].pop(0)) for i in turns]
            lines += [net_runs.line(*members) for members in rest]
        return "".join(lines)


def term(order):
    kind = order.randrange(6)
    if kind == 0:
        return ["plus", "total", order.randint(-9, 9)]
    if kind == 1:
        return ["copy", order.choice(KEYS)]
    return order.choice(["Ann", "Bob", ""]) if kind == 2 else order.randint(0, 10**6)


def op(order):
    return ["del", order.choice(KEYS)] if order.randrange(5) == 0 else ["put", order.choice(KEYS), term(order)]


def condition(order):
    kind, key = order.randrange(4), order.choice(KEYS)
    counting = ["atmost", order.choice(["", "room/", "to", key]), order.randrange(6)]
    return [["absent", key], ["equals", key, "Ann"], ["atleast", key, 3], counting][kind]


def program(order):
    """A program: a put for the most part, now and then one with a check and a merge."""
    if order.randrange(3):
        return {"check": [], "merge": [], "update": [op(order)]}
    merge = [{"ops": [op(order)], "when": [condition(order)]} for _ in range(order.randrange(3))]
    return {"check": [condition(order)], "merge": merge, "update": [op(order) for _ in range(order.randint(1, 3))]}


def operation(order, session):
    """An operation of the session, for the most part at its own server; now and then its last Write again."""
    if order.randrange(8) == 0:
        return ("again", session)
    server = session % SERVERS if order.randrange(4) else order.randrange(SERVERS)
    if order.randrange(2):
        return ("write", session, server, program(order))
    return ("read", session, server, order.choice(KEYS))


def at_random(seed, reopens):
    """A script of 2,000 operations in 5 phases; with `reopens` each phase reopens servers, none of which is down."""
    order = random.Random(seed)
    # Half of the sessions ask for all, the others for each guarantee alone.
    asks = [GUARANTEES] * (SESSIONS // 2) + [[GUARANTEES[i % 4]] for i in range(SESSIONS - SESSIONS // 2)]
    made = Script(asks)
    each = OPERATIONS // PHASES // SESSIONS
    for phase in range(PHASES):
        sessions = [[operation(order, i) for _ in range(each)] for i in range(SESSIONS)]
        pulls = [order.sample(range(SERVERS), 2) for _ in range(PULLS)]
        rest = [("reopen", order.randrange(SERVERS)) for _ in range(6)] if reopens else []
        if phase == PHASES - 1:
            rest += [("log", s) for s in range(SERVERS)] + [("judge",)]
        made.phases.append((sessions, pulls, rest))
    return made, made.text(order)
