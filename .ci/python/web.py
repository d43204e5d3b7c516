"""The page of a store, as a browser asks for it. Call: web.py PROGRAM [GROUP..]."""
import os
import sys
import tempfile

import browser
import web_asked
import web_met
import web_seen
from checks import Checks

GROUPS = {**web_asked.GROUPS, **web_met.GROUPS}


def main():
    program, wanted = sys.argv[1], sys.argv[2:]
    checks = Checks()
    for name, group in GROUPS.items():
        if not wanted or name in wanted:
            with tempfile.TemporaryDirectory() as folder:
                group(checks, program, folder)
    for name, group in web_seen.GROUPS.items():
        if name not in (wanted or ["browser"]):
            continue
        if browser.installed() is None:
            print("web: there is no Chromium here, so %s was skipped: the page was tried by requests alone" % name)
            continue
        with tempfile.TemporaryDirectory() as folder:
            group(checks, program, folder)
    print("%d passed, %d failed" % (checks.passed, checks.failed))
    return 1 if checks.failed or not checks.passed else 0


if __name__ == "__main__":
    os.chdir(os.path.dirname(os.path.abspath(__file__)))
    sys.exit(main())
