#!/usr/bin/env python3
"""Runs the script `sledge` in a folder of its own, with a small command in the place of `rt`, and counts when it builds.

    sledge_script.py

It has to build on first use, and after a change of what a source holds; and not where times alone have changed, as in a copy.
"""

import os
import shutil
import subprocess
import sys
import tempfile

from lib import usage
from lib.running import SCRIPT, differs

LIMIT = 60  # seconds
SOURCES = {"crates.txt": "a:\nsledge: a\n", "crates/a/src/lib.rt": "one", "crates/a/specs/Lib.antt": "two", "crates/sledge/src/main.rt": "three"}
# It builds a program that says how often one was built, fails where there is a file `fails`, and runs `meanwhile` where there is one.
RT = """#!/bin/bash
set -e
[ "$*" = "run -- --version" ] && [ "$(basename "$PWD")" = sledge ]
cd ../..
echo "built" >>builds
[ ! -e meanwhile ] || . ./meanwhile
[ ! -e fails ] || exit 1
printf '#!/bin/bash\\necho "program %d: $*"; exit 3\\n' "$(wc -l <builds)" >crates/sledge/out/sledge
chmod +x crates/sledge/out/sledge
"""


class Checkout:
    """A folder with the script and a few sources, and the folder of the command in the place of `rt`."""

    def __init__(self, top, tools):
        self.top, self.tools = top, tools

    def write(self, files):
        """Writes files with these texts."""
        for name, text in files.items():
            path = os.path.join(self.top, name)
            os.makedirs(os.path.dirname(path), exist_ok=True)
            with open(path, "w", encoding="utf-8") as file:
                file.write(text)

    def run(self, script=None, with_rt=True, **said):
        """Exit status, standard output, how many lines of standard error there are, and how many builds there were so far."""
        env = {"PATH": (self.tools + ":" if with_rt else "") + "/usr/bin:/bin", **said}
        done = subprocess.run([script or os.path.join(self.top, "sledge"), "a", "b"], capture_output=True, timeout=LIMIT, env=env)
        builds = os.path.join(self.top, "builds")
        count = open(builds, encoding="utf-8").read().count("\n") if os.path.exists(builds) else 0
        return done.returncode, done.stdout.decode(), done.stderr.count(b"\n"), count


def ran(program, lines, builds):
    return 3, "program %d: a b\n" % program, lines, builds


def first_uses(checkout):
    yield "no rt, not built", (70, "", 1, 0), checkout.run(with_rt=False)
    yield "first use", ran(1, 1, 1), checkout.run()
    yield "again", ran(1, 0, 1), checkout.run()
    yield "no rt, built", ran(1, 0, 1), checkout.run(with_rt=False)
    link = os.path.join(checkout.tools, "link")
    os.symlink(os.path.join(checkout.top, "sledge"), link)
    yield "through a link", ran(1, 0, 1), checkout.run(link)


def times(checkout):
    for name in SOURCES:
        os.utime(os.path.join(checkout.top, name), (4 * 10**9, 4 * 10**9))
    yield "times alone", ran(1, 0, 1), checkout.run()
    copy = Checkout(checkout.top + ".copy", checkout.tools)
    shutil.copytree(checkout.top, copy.top, copy_function=shutil.copyfile)
    for name in ("sledge", "crates/sledge/out/sledge"):
        os.chmod(os.path.join(copy.top, name), 0o755)
    yield "a copy", ran(1, 0, 1), copy.run()


def edits(checkout):
    checkout.write({"README.md": "text", "crates/a/must-fail/x.edit": "edit", "crates/a/out/kept.rt": "kept"})
    yield "what is no source", ran(1, 0, 1), checkout.run()
    for place, (name, text) in enumerate([*SOURCES.items(), ("crates/a/src/new.rt", "")]):
        checkout.write({name: text + "\nmore"})
        yield "an edit of " + name, ran(2 + place, 1, 2 + place), checkout.run()
        yield "behind it", ran(2 + place, 0, 2 + place), checkout.run()
    os.rename(os.path.join(checkout.top, "crates/a/src/new.rt"), os.path.join(checkout.top, "crates/a/src/other.rt"))
    yield "another name", ran(7, 1, 7), checkout.run()
    checkout.write({"crates/sledge/out/sledge": "#!/bin/bash\necho other\n"})
    yield "another program in its place", ran(8, 1, 8), checkout.run()


def builds(checkout):
    checkout.write({"crates/a/src/lib.rt": "next", "meanwhile": "echo changed >>crates/a/src/lib.rt; rm meanwhile"})
    yield "an edit during the build", ran(9, 1, 9), checkout.run()
    yield "is built then", ran(10, 1, 10), checkout.run()
    yield "and once", ran(10, 0, 10), checkout.run()
    checkout.write({"crates/a/src/lib.rt": "wrong", "fails": ""})
    yield "a build that fails", (70, "", 2, 11), checkout.run()
    yield "fails again", (70, "", 2, 12), checkout.run()
    os.remove(os.path.join(checkout.top, "fails"))
    yield "mended", ran(13, 1, 13), checkout.run()
    checkout.write({"crates/a/src/lib.rt": "cut", "meanwhile": "rm meanwhile; kill -9 $PPID $$"})
    status, _, _, count = checkout.run()
    yield "a build that is broken off", (True, 14), (status != 3, count)
    yield "is made again", ran(15, 1, 15), checkout.run()
    checkout.write({"crates/a/src/lib.rt": "of the gate"})
    yield "what the gate says is built", ran(15, 0, 15), checkout.run(SLEDGE_IS_BUILT="1")
    yield "is built then", ran(15, 0, 15), checkout.run()


def main(words):
    usage.none(words, __doc__)
    with tempfile.TemporaryDirectory() as folder:
        checkout = Checkout(os.path.join(folder, "checkout"), os.path.join(folder, "bin"))
        checkout.write({**SOURCES, "../bin/rt": RT})
        os.chmod(os.path.join(checkout.tools, "rt"), 0o755)
        shutil.copy(SCRIPT, os.path.join(checkout.top, "sledge"))
        results = [differs(*result) for part in (first_uses, times, edits, builds) for result in part(checkout)]
    print("%d passed, %d failed" % (len(results) - sum(results), sum(results)))
    return any(results)


if __name__ == "__main__":
    sys.exit(main(sys.argv[1:]))
