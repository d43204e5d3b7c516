"""Each guarantee alone, and each set of them, over `bayou net`."""
import alone
from net_runs import fresh, put, run, script


def guarantees_alone(checks, program, room):
    """Two servers that never meet: session 1 reads at the first and then goes to the second, session 2 writes at the first and goes there."""
    for number, asks in enumerate(alone.SETS):
        text = script(["servers", 2, 100], ["session", 0, []], ["session", 1, asks], ["session", 2, asks], ["write", 0, 0, put("a", 1)], ["phase"],
                      ["read", 1, 0, "a"], ["read", 1, 1, "a"], ["write", 1, 1, put("b", 1)],
                      ["write", 2, 0, put("c", 1)], ["read", 2, 1, "a"], ["write", 2, 1, put("d", 1)])
        status, output, errors = run(program, fresh(room, "alone-%d" % number), text)
        told = output.split("\n")
        expected = ["wrote", "read"] + alone.after_read(asks) + ["wrote"] + alone.after_write(asks)
        checks.that("a run that asks for %s" % alone.said(asks), (status, errors, [alone.kind(line) for line in told[:7]]), (0, "", expected))
        checks.that("its verdict", told[-2:], ["clean", ""])
