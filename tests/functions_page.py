#!/usr/bin/env python3
"""Runs the commands of docs/FUNCTIONS.md that show what they print, and compares it with what stands there.

    functions_page.py

A command is an indented line that begins with `$ ./sledge` or `$ tools/explain`; what it prints, on both outputs, stands in the indented
lines behind it, and `..` stands for the rest. No compiler is needed: commands that compile show nothing.
"""

import os
import re
import subprocess
import sys

from lib import usage
from lib.running import TOP, build, differs

PAGE = os.path.join(TOP, "docs", "FUNCTIONS.md")
LIMIT = 600  # seconds
LEAST = 8  # commands that the page has at least


def block(lines):
    """The indented lines at the front, up to the next command; an empty line is one of them where an indented line follows."""
    found = []
    for line, following in zip(lines, lines[1:] + [""]):
        if line.startswith("    $ ") or not line.startswith("    ") and (line or not following.startswith("    ") or following.startswith("    $ ")):
            break
        found.append(line[4:])
    return found


def commands():
    """Each command, and the lines behind it."""
    with open(PAGE, encoding="utf-8") as file:
        lines = file.read().splitlines()
    for place, line in enumerate(lines):
        if re.match(r"    \$ (\./sledge|tools/explain) ", line):
            yield line[6:], block(lines[place + 1 :])


def printed(command):
    done = subprocess.run(["bash", "-c", command], cwd=TOP, stdin=subprocess.DEVNULL, stdout=subprocess.PIPE, stderr=subprocess.STDOUT, timeout=LIMIT)
    return done.stdout.decode(errors="replace").replace("\r\n", "\n").splitlines()


def agrees(command, wanted):
    got = printed(command)
    if wanted[-1:] == [".."]:
        wanted, got = wanted[:-1], got[: len(wanted) - 1]
    return not differs(command, wanted, got)


def main(words):
    usage.none(words, __doc__)
    build()
    results = [agrees(*command) for command in commands()]
    print("%d passed, %d failed" % (sum(results), len(results) - sum(results)))
    return not all(results) or len(results) < LEAST


if __name__ == "__main__":
    sys.exit(main(sys.argv[1:]))
