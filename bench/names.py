#!/usr/bin/env python3
"""Checks that what the documents name stands in the repository: each name in README.md and docs/ (a word between backquotes, also a path
as `crate::call`) is a word of a source, of a definition, of a contract's labels, or the name of a crate, a file or a must-fail edit;
that each label in the table of clauses of docs/PROMISES.md is one of that call; and that each edit in its table of wrong bodies is one
of that crate. It prints each that is none, and ends with status 1 where there are any."""

import glob
import os
import re
import sys

TOP = os.path.dirname(os.path.dirname(os.path.abspath(__file__)))

# words of the toolchain and of examples that no file of ours has; words in capitals stand for others
FOREIGN = set("rattle kit logic help your_kind".split())


def words_of(paths):
    found = set()
    for path in paths:
        with open(path, errors="replace") as file:
            found.update(re.findall(r"[A-Za-z0-9_©@]+", file.read()))
    return found


def heads():
    """The labels of the clauses of each public call, by `crate::call`, also `crate::Type::call`."""
    found = {}
    for path in glob.glob("crates/*/src/**/*.rt", recursive=True):
        with open(path) as file:
            text = file.read()
        calls = list(re.finditer(r"\bfn ([a-z_0-9]+)", text))
        for call, after in zip(calls, [*calls[1:], None]):
            head = text[call.end():after.start() if after else len(text)]
            labels = re.findall(r"\bensures ([a-z_0-9]+) \{", head)
            if labels:
                found.setdefault((path.split("/")[1], call[1]), set()).update(labels)
    return found


def rows(title):
    """The cells of the rows of the table in docs/PROMISES.md that stands below a title."""
    with open("docs/PROMISES.md") as file:
        below = file.read().split("## " + title, 1)[1].split("\n## ")[0]
    return [[cell.strip() for cell in line.strip("|").split("|")] for line in below.split("\n") if line.startswith("| ")][1:]


def clauses():
    """Prints the labels in the table of clauses that no such call has, and gives their number."""
    known, call, faults = heads(), "", 0
    for cells in rows("Clauses, call by call"):
        call = cells[0].strip("`") or call
        path = call.split("::")
        for label in re.findall(r"`([a-z_0-9]+)`", cells[1]):
            if label not in known.get((path[0], path[-1]), ()):
                print("docs/PROMISES.md: %s has no clause %s" % (call, label))
                faults += 1
    return faults


def edits():
    """Prints the edits in the table of wrong bodies that no such crate has, and gives their number."""
    faults = 0
    for cells in rows("Wrong bodies, each refused"):
        for part in cells[1].split(";"):
            crate, *names = re.findall(r"`([a-z_0-9]+)`", part)
            for name in names:
                if not os.path.exists("crates/%s/must-fail/%s.edit" % (crate, name)):
                    print("docs/PROMISES.md: %s has no edit %s" % (crate, name))
                    faults += 1
    return faults


def main():
    os.chdir(TOP)
    sources = [it for kind in ("rt", "antt") for it in glob.glob("crates/*/s*/**/*." + kind, recursive=True)]
    known = words_of([*sources, "crates.txt", *glob.glob("bench/*"), *glob.glob("completions/*"), "doc/metaedit.1", "metaedit", "install.sh"])
    for path in [*glob.glob("crates/**", recursive=True), *glob.glob("*"), *glob.glob("*/*")]:
        known.update(re.findall(r"[A-Za-z0-9_]+", os.path.basename(path)))
    faults = 0
    for page in ["README.md", *sorted(glob.glob("docs/*.md"))]:
        with open(page) as file:
            text = re.sub(r"^ {4}.*$|^```.*?^```", "", file.read(), flags=re.M | re.S if "```" in page else re.M)
        for span in re.findall(r"`([^`\n]+)`", text):
            for name in re.findall(r"[A-Za-z_][A-Za-z0-9_]{2,}", span):
                if name not in known and name not in FOREIGN and not re.fullmatch(r"[0-9A-Fa-f]+|[A-Z]+", name):
                    print("%s: `%s`: no %s" % (page, span, name))
                    faults += 1
    faults += clauses() + edits()
    print("%d names that nothing has" % faults)
    return 1 if faults else 0


if __name__ == "__main__":
    sys.exit(main())
