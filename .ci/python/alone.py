"""Sessions at two servers that never meet, for each of the sixteen sets of guarantees: what is refused at the second server, and what is served."""
import itertools

GUARANTEES = ("ryw", "mr", "wfr", "mw")
SETS = [asks for count in range(5) for asks in itertools.combinations(GUARANTEES, count)]


def said(asks):
    """The set as `--session` has it."""
    return ",".join(asks) if asks else "none"


def after_read(asks):
    """Of a session that read at the first server: what a read at the second hears, and what a Write."""
    return ["refused" if "mr" in asks else "read", "refused" if "wfr" in asks else "wrote"]


def after_write(asks):
    """Of a session that wrote at the first server: the same."""
    return ["refused" if "ryw" in asks else "read", "refused" if "mw" in asks else "wrote"]


def kind(line):
    """What a printed line tells of an operation."""
    words = line.split()
    if words[1:3] == ["refused", "behind"]:
        return "refused"
    return words[1] if len(words) > 1 else line
