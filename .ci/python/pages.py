"""Compares the commands and options of the page of the manual and of the completions with those of the program's own helps.
Call: python3 pages.py PROGRAM. Its last line is 'N passed, M failed'.

What each of them tells is read as one table: of the program itself, under the name '', and of each command, which options it takes."""
import re
import shutil
import subprocess
import sys

from checks import Checks

TOP = ".."
OPTION = re.compile(r"(?<![\w-])--?[A-Za-z][a-z-]*")
HELP = {"-h", "--help"}


def told(words):
    """What a program prints, which must end well."""
    ran = subprocess.run(words, capture_output=True, text=True, check=True)
    return ran.stdout


def section(text, name):
    """The lines below this heading of a help, up to the next empty line."""
    found = re.search(rf"^{name}:\n((?:.+\n)*)", text, re.M)
    return found[1] if found else ""


def options_of(help_text):
    """The options of a help: the words before what a line says of them."""
    return {it for line in section(help_text, "Options").split("\n") for it in OPTION.findall(re.split(r"\s{2,}", line.strip())[0])}


def of_helps(program):
    """What the program's helps tell, and which words stand for the folders and files of each command."""
    first = told([program, "--help"])
    commands = re.findall(r"^  (\w+) ", section(first, "Commands"), re.M)
    return {"": options_of(first), **{it: options_of(told([program, it, "--help"])) if it != "help" else set() for it in commands}}


def of_manual():
    """What the page of the manual tells. The help that each command has stands once, in the options of the program."""
    with open(f"{TOP}/man/bayou.1", encoding="ascii") as it:
        page = it.read().replace("\\-", "-")
    parts = dict(re.findall(r"^\.SH (.+)\n((?:(?!\.SH ).*\n)*)", page, re.M))
    commands = dict(re.findall(r"^\.SS (\w+)\n((?:(?!\.SS ).*\n)*)", parts["COMMANDS"], re.M))
    heads = lambda text: {it for line in re.findall(r"^\.TP\n(.*)", text, re.M) for it in OPTION.findall(line)}
    return {"": heads(parts["OPTIONS"]), **{name: heads(text) | (HELP if name != "help" else set()) for name, text in commands.items()}}


def synopsis():
    """The commands of which the page of the manual has a line in its synopsis."""
    with open(f"{TOP}/man/bayou.1", encoding="ascii") as it:
        return set(re.findall(r"^\.B bayou (\w+)", it.read().split(".SH DESCRIPTION")[0], re.M))


def completed(*words):
    """What bash offers for the last of these words."""
    script = 'source "$1"; COMP_WORDS=("${@:2}"); COMP_CWORD=$(($# - 2)); _bayou; printf "%s\\n" "${COMPREPLY[@]}"'
    return set(told(["bash", "-c", script, "bash", f"{TOP}/completions/bayou.bash", *words]).split())


def of_bash():
    """What the completions for bash offer."""
    commands = {it for it in completed("bayou", "") if not it.startswith("-")}
    return {"": {it for it in completed("bayou", "-")}, **{it: completed("bayou", it, "-") for it in commands}}


def of_zsh():
    """What the completions for zsh tell."""
    with open(f"{TOP}/completions/_bayou", encoding="ascii") as it:
        page = it.read()
    commands = re.findall(r"^        '([a-z]+):", page, re.M)
    arms = {name: arm for names, arm in re.findall(r"^ {16}([\w |]+)\)((?:(?!;;)[\s\S])*);;", page, re.M) for name in names.split(" | ")}
    options = lambda text: {it for line in text.split("\n") for it in OPTION.findall(re.sub(r"\[.*?\]", "", line.replace(",", " ").replace("{", " ")))}
    first = page[page.index("_arguments -C"):page.index("case $state")]
    return {"": options(first.replace("-C", "", 1)), **{it: options(arms.get(it, "none")) for it in commands}}


def main():
    checks = Checks()
    helps = of_helps(sys.argv[1])
    checks.that("the helps have commands and options", (len(helps) > 1, bool(helps[""]), any("--dir" in it for it in helps.values())), (True, True, True))
    checks.that("the manual", of_manual(), helps)
    checks.that("the synopsis of the manual", synopsis(), set(helps) - {""})
    checks.that("the completions for bash", of_bash(), helps)
    checks.that("the completions for zsh", of_zsh(), helps)
    # (what is left open is a name: of a folder after --dir, else of a file)
    checks.that("what bash offers behind --dir", "python" in completed("bayou", "net", "--dir", "py"), True)
    checks.that("what bash offers for a file", "pages.py" in {it.rpartition("/")[2] for it in completed("bayou", "run", "python/pages")}, True)
    checks.that("what bash offers behind help", completed("bayou", "help", ""), set(helps) - {""})
    version = told([sys.argv[1], "--version"])
    if shutil.which("rt"):
        checks.that("the version names the logic of this kit", re.findall(r"\(logic ([0-9a-f]+)\)$", version.strip()), re.findall(r"logic ([0-9a-f]+)", told(["rt", "version"])))
    else:
        checks.that("the version names a logic", re.fullmatch(r"bayou [0-9.]+ \(logic [0-9a-f]{16}\)\n", version) is not None, True)
    print("%d passed, %d failed" % (checks.passed, checks.failed))
    return 1 if checks.failed else 0


if __name__ == "__main__":
    sys.exit(main())
