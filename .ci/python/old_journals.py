"""Journals of the first two versions, which `bayou net` wrote before there was a later one (`.ci/old-journals`)."""
import os

import frames
from net_runs import content, contents, fresh, journal

# Folders of them: of the first version one server with three Writes, two with none, and two that pulled from each other; of the second two that
# did so.
THREE, EMPTY, BOTH, TAGGED = (os.path.join(os.path.dirname(os.path.abspath(__file__)), "..", "old-journals", name) for name in ("three", "empty", "both", "tagged"))
# What two that pulled from each other hold: the first has a Write of its own, one that it took, and its second; the other one has both first
# Writes. Each Write has its clock.
HELD = ({"0:1": "1", "1:1": "1", "0:2": "2"}, {"1:1": "1", "0:1": "1"})

# What raises a journal to a version: an entry of that number alone.
MARK_BYTES = 35


def raised(before, version=frames.NEWEST_VERSION):
    """An old journal with the mark of this version."""
    return before + frames.entry(frames.last_digest(before), bytes([version]))


def copied(room, name, kept=0, source=BOTH, versions=()):
    """A new folder with the journals of this one, raised to each of these versions, and with so many bytes of the newest mark after each."""
    folder = fresh(room, name)
    for file, before in contents(source).items():
        for version in versions:
            before = raised(before, version)
        with open(os.path.join(folder, file), "wb") as it:
            it.write(raised(before)[:len(before) + kept])
    return folder


def are_kept(folder, source):
    """Whether the journals of the folder still begin with the old ones of this one, and have their marks."""
    return all(content(journal(folder, server)).startswith(raised(content(journal(source, server)))) for server in range(len(HELD)))
