"""Which functions have no clause, and whether each crate's UNPROVED.md names just these. Call: unproved.py [CRATE..], at the root: a line for each that is
wrong, and last how many were looked at. A function of a trait that is written for a type has the trait's clauses, and isn't looked at; nor is a test."""
import os
import re
import sys

FUNCTION = re.compile(r"^(\s*)(?:pub(?:\([a-z]+\))? )?(?:const )?fn (\w+)")
BLOCK = re.compile(r"^impl\b.*\bfor\b|^(?:pub(?:\([a-z]+\))? )?trait\b|^#\[cfg\(test\)\]")
ROW = re.compile(r"^\| `([a-z_/]+\.rt)`: ([^|]*)\|")


def signature(lines, at, indent):
    """The lines of a function before its body."""
    for end in range(at, len(lines)):
        line = lines[end].rstrip()
        if line.startswith(indent + "{") or (end == at or line.startswith(indent + ")")) and line.endswith(("{", "}", ";")):
            return lines[at:end + 1]
    return lines[at:]


def without_clause(path):
    """The names of a file's functions that have no clause."""
    with open(path) as file:
        lines = file.read().split("\n")
    found, is_passed = set(), False
    for at, line in enumerate(lines):
        if BLOCK.match(line):
            is_passed = not line.rstrip().endswith(("}", ";"))
        elif line.startswith("}"):
            is_passed = False
        function = FUNCTION.match(line)
        if function and not is_passed and not any(re.match(r"\s*ensures\b", one) for one in signature(lines, at, function.group(1))):
            found.add(function.group(2))
    return found


def named_on(page):
    """The file and the name of each function that the page has a row of."""
    with open(page) as file:
        rows = [row for row in map(ROW.match, file) if row]
    return {(row.group(1), name) for row in rows for name in re.findall(r"`(\w+)`", row.group(2))}


def main():
    looked = 0
    for crate in sys.argv[1:] or sorted(os.listdir("crates")):
        page, source = os.path.join("crates", crate, "UNPROVED.md"), os.path.join("crates", crate, "src")
        if not os.path.exists(page):
            continue
        found = set()
        for folder, _, names in os.walk(source):
            for name in names:
                if name.endswith(".rt") and name != "tests.rt":
                    path = os.path.join(folder, name)
                    found |= {(os.path.relpath(path, source), function) for function in without_clause(path)}
        named = named_on(page)
        looked += len(found | named)
        for file, name in sorted(found - named):
            print("%s: %s: %s has no clause, and no row" % (crate, file, name))
        for file, name in sorted(named - found):
            print("%s: %s: %s has a clause, or isn't there" % (crate, file, name))
    print(looked)


if __name__ == "__main__":
    main()
