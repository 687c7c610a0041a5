#!/usr/bin/env python3
"""Runs the tour of README.md, line by line in a shell, and compares what is printed. The tour's files stand in /tmp. It ends with
status 1 where a line prints something else.

  bench/tour.py
METAEDIT names a built program; else the script `metaedit` builds it.
"""

import os
import subprocess
import sys

from crash import TOP, built


def steps(text):
    """Each command of the tour, with the lines that it prints."""
    command, printed = None, []
    for line in text.split("\n"):
        if line.startswith("    $ "):
            if command:
                yield command, printed
            command, printed = line[6:], []
        elif command and line.startswith("    "):
            printed.append(line[4:].rstrip())
        elif command:
            yield command, printed
            command, printed = None, []


def main():
    program = built()
    with open(os.path.join(TOP, "README.md"), encoding="utf-8") as file:
        text = file.read()
    count = wrong = 0
    for command, wanted in steps(text):
        count += 1
        run = subprocess.run(
            ["bash", "-c", command.replace("./metaedit", program)], cwd=TOP, stdin=subprocess.DEVNULL, stdout=subprocess.PIPE,
            stderr=subprocess.STDOUT)
        printed = [it.rstrip() for it in run.stdout.decode().rstrip("\n").split("\n")] if run.stdout else []
        if printed != wanted:
            wrong += 1
            print(f"WRONG {command}\n  prints {printed}\n  where README.md has {wanted}")
    print(f"{count} lines, {wrong} wrong")
    return 1 if wrong else 0


if __name__ == "__main__":
    sys.exit(main())
