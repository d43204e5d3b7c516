"""A call of a person who has a state, which prints what it told and is then killed. Call: final_person.py STATE NUMBER ADDRESS,ADDRESS.. SERVER
PROGRAM.., which writes each of these programs at that server; or final_person.py STATE NUMBER ADDRESS,ADDRESS.., which tells what changed."""
import json
import os
import signal
import sys

sys.path.insert(0, os.path.join(os.path.dirname(os.path.abspath(__file__)), "..", "..", "clients", "python"))
import bayou  # noqa: E402


def main():
    state, number, addresses, *more = sys.argv[1:]
    session = bayou.Session(addresses.split(","), number=int(number), state=state, timeout=10.0)
    for program in more[1:]:
        accepted = session.write(json.loads(program), int(more[0]))
        print("wrote %d:%d" % (accepted.origin, accepted.seq))
    for change in [] if more else session.changed():
        alternative = change.outcome.alternative
        became = change.outcome.became if alternative is None else "%s %d" % (change.outcome.became, alternative)
        print("%d:%d %s %s" % (change.accepted + (became, "final" if change.is_final else "tentative")))
    sys.stdout.flush()
    os.kill(os.getpid(), signal.SIGKILL)


if __name__ == "__main__":
    main()
