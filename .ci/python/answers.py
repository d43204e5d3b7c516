"""Tries `bayou run --json` against `bayou run`: each script of tests/ and examples/ that is taken. Each line is one object, in compact form, with the members of
its kind in their order; put into words it is the line that `run` prints; and status and errors are the same.
"""
import glob
import json
import os

import tables

MEMBERS = {
    "wrote": ["session", "wid", "clock", "deps"],
    "read": ["session", "key", "value", "at"],
    "lost": ["session"],
    "not_again": ["session"],
    "listed": ["server", "wid", "clock", "outcome", "alternative"],
    "log": ["server", "at"],
    "stopped": ["server"],
    "reopened": ["server", "adopted"],
    "not_reopened": ["why"],
    "restarted": ["server", "holds", "dropped"],
    "not_restarted": ["why"],
    "pulled": ["taken", "had"],
    "not_pulled": ["why"],
    "totals": ["reads", "writes", "refusals", "slips"],
    "survey": ["session", "ryw", "mr", "wfr", "mw"],
    "book": ["line"],
}


def counts(each):
    return ",".join(str(count) for count in each)


def name(wid):
    return "none" if wid is None else "%d:%d" % tuple(wid)


def value(found):
    if found is None:
        return "none"
    return ("num %d" if isinstance(found, int) else "text %s") % (found if isinstance(found, int) else json.dumps(found, ensure_ascii=False))


def breach(found):
    return "broken %d %d %d %s" % (found["first"], found["second"], found["server"], name(found["wid"])) if found else "ok"


def verdict(one):
    if one["verdict"] == "clean":
        return "clean"
    if one["verdict"] == "broken":
        return "broken %(guarantee)s session %(session)d places %(first)d %(second)d server %(server)d wid " % one + name(one["wid"])
    return "judge refused " + ("forged %(entry)d" if "entry" in one else "dump %(dump)d %(place)d") % one


def outcome(one):
    return one["outcome"] if one["alternative"] is None else "%(outcome)s %(alternative)d" % one


WORDS = {
    "wrote": lambda one: "%d wrote %s clock %d deps %s" % (one["session"], name(one["wid"]), one["clock"], counts(one["deps"])),
    "read": lambda one: "%d read %s %s at %s" % (one["session"], one["key"], value(one["value"]), counts(one["at"])),
    "refused": lambda one: "%(session)d refused %(why)s" % one + (" at " + counts(one["at"]) if "at" in one else ""),
    "lost": lambda one: "%(session)d lost" % one,
    "not_again": lambda one: "%(session)d again none" % one,
    "listed": lambda one: "log %d %s clock %d %s" % (one["server"], name(one["wid"]), one["clock"], outcome(one)),
    "log": lambda one: "log %d at %s" % (one["server"], counts(one["at"])),
    "stopped": lambda one: "stopped %(server)d" % one,
    "reopened": lambda one: "reopened %d adopted %s" % (one["server"], name(one["adopted"])),
    "not_reopened": lambda one: "reopen refused %(why)s" % one,
    "restarted": lambda one: "restarted %(server)d holds %(holds)d dropped %(dropped)d" % one,
    "not_restarted": lambda one: "restart refused %(why)s" % one,
    "pulled": lambda one: "pulled %(taken)d had %(had)d" % one,
    "not_pulled": lambda one: "pull fault %(why)s" % one,
    "totals": lambda one: "totals reads %(reads)d writes %(writes)d refusals %(refusals)d slips %(slips)d" % one,
    "verdict": verdict,
    "survey": lambda one: "survey %d " % one["session"] + " ".join("%s %s" % (word, breach(one[word])) for word in ("ryw", "mr", "wfr", "mw")),
    "book": lambda one: json.dumps(one["line"], ensure_ascii=False, separators=(",", ":")),
}


def members(one):
    """The members that an object of this kind has, in their order."""
    kind = one["kind"]
    if kind == "refused":
        return ["session", "why"] + (["at"] if one["why"] == "behind" else [])
    if kind == "verdict":
        more = {"clean": [], "broken": ["guarantee", "session", "first", "second", "server", "wid"],
                "refused": ["entry"] if "entry" in one else ["dump", "place"]}
        return ["verdict"] + more[one["verdict"]]
    return MEMBERS[kind]


def compact(line):
    return json.dumps(json.loads(line), ensure_ascii=False, separators=(",", ":")) == line


def as_words(tries, text):
    """What `run --json` prints of a script, put into words, and how it ended."""
    done = tries.call("run", "--json", "-", text=text)
    lines = done.stdout.decode().split("\n")
    objects = [json.loads(line) for line in lines[:-1]]
    well = all(compact(line) for line in lines[:-1]) and lines[-1] == "" \
        and all(list(one) == ["kind"] + members(one) for one in objects)
    words = "".join(WORDS[one["kind"]](one) + "\n" for one in objects)
    return well, words, done.returncode, done.stderr, {one["kind"] for one in objects}


def scripts():
    """Each script of tests/ and examples/, by name."""
    for folder in ("tests/run", "examples"):
        for path in sorted(glob.glob(os.path.join(os.path.dirname(tables.TOP), folder, "**", "*.jsonl"), recursive=True)):
            yield os.path.relpath(path, tables.TOP), tables.read(path)


def answers(tries):
    """Each script's answers as objects say what its lines say."""
    kinds = set()
    for name_of, text in scripts():
        ran = tries.call("run", "-", text=text)
        well, words, status, errors, met = as_words(tries, text)
        kinds |= met
        tries.that(name_of + ": objects", well, True)
        tries.that(name_of + ": words", (words, status, errors), (ran.stdout.decode(), ran.returncode, ran.stderr))
    tries.that("each kind of answer came", sorted(kinds), sorted(WORDS))
