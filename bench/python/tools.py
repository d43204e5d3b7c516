"""What the programs of this folder share: the twin, and how a program is called."""
import os
import subprocess
import sys
import tempfile
from collections import namedtuple
from pathlib import Path

BENCH = Path(__file__).resolve().parent.parent
TWIN = BENCH / "out" / "twin"
PIECE = 1 << 16

Ended = namedtuple("Ended", "status output errors")
Measured = namedtuple("Measured", "seconds megabytes status errors")


def stop(words, status=2):
    """Ends, and says why."""
    print(f"{Path(sys.argv[0]).name}: {words}", file=sys.stderr)
    sys.exit(status)


def program_of(name):
    """The program of this name, which is to be tried."""
    path = os.path.realpath(name)
    if not os.access(path, os.X_OK) or os.path.isdir(path):
        stop(f"there is no program {name}")
    return path


def built_twin():
    """The twin, built of its sources where they are newer."""
    sources = sorted((BENCH / "twin").glob("*.rs"))
    newest = max(source.stat().st_mtime for source in sources)
    if not TWIN.exists() or TWIN.stat().st_mtime < newest:
        TWIN.parent.mkdir(exist_ok=True)
        built = TWIN.with_name("twin.new")
        words = ["rustc", "--edition", "2021", "-O", "-o", str(built), str(BENCH / "twin" / "main.rs")]
        try:
            subprocess.run(words, check=True)
        except (OSError, subprocess.CalledProcessError) as fault:
            stop(f"the twin can't be built: {fault}")
        built.replace(TWIN)
    return str(TWIN)


def call(words, seconds=60):
    """What a call of a program ended with."""
    try:
        ended = subprocess.run(words, stdin=subprocess.DEVNULL, capture_output=True, timeout=seconds, check=False)
    except subprocess.TimeoutExpired:
        return Ended("late", b"", b"")
    return Ended(ended.returncode, ended.stdout, ended.stderr)


def measure(words, output):
    """Processor time and peak memory of a call whose output goes to this file."""
    with tempfile.TemporaryFile() as errors:
        child = subprocess.Popen(words, stdin=subprocess.DEVNULL, stdout=output, stderr=errors)
        _, status, used = os.wait4(child.pid, 0)
        child.returncode = status
        errors.seek(0)
        said = errors.read(PIECE)
    return Measured(used.ru_utime + used.ru_stime, used.ru_maxrss / 1024, status, said)


def are_same(one, other):
    """Whether two files have the same bytes."""
    one.seek(0)
    other.seek(0)
    while True:
        piece, beside = one.read(PIECE), other.read(PIECE)
        if piece != beside:
            return False
        if not piece:
            return True


def first_line(words):
    """What a command tells first, or nothing."""
    try:
        ended = subprocess.run(words, capture_output=True, text=True, cwd=BENCH, check=False)
    except OSError:
        return ""
    return ended.stdout.split("\n")[0]


def where():
    """The machine, and the commit."""
    try:
        with open("/proc/cpuinfo", encoding="utf-8") as file:
            models = [text.split(":", 1)[1].strip() for text in file if text.startswith("model name")]
    except OSError:
        models = []
    model = models[0] if models else "a processor without a name"
    commit = first_line(["git", "rev-parse", "--short=10", "HEAD"]) or "no commit"
    return f"{model}, {os.cpu_count()} processors; {commit}"
