#!/usr/bin/env python3
"""Times requests from their start to their answer: `start`, `run_turn` and `settle` of a function that does nothing, on one vessel.

    starts.py [COUNT]      the program `wasm_tables` has to be built (`rt run` in crates/wasm_tables does it)

For a module without a memory, and for such of 1, 16 and 256 pages, it prints how many requests are begun and answered in a second, and how
much longer each takes than without a memory: this is what the rinse of the memory costs, which is all that its pages add. A request is
made anew each time, with the room of its reply. Times are processor times, each the least of several runs, of twice as many requests less
those of so many.
"""

import os
import subprocess
import resource
import sys
import tempfile

TOP = os.path.join(os.path.dirname(os.path.abspath(__file__)), "..")
sys.path.insert(0, os.path.join(TOP, "tests"))

from lib.module_writer import module, number  # noqa: E402

PROGRAM = os.path.join(TOP, "crates", "wasm_tables", "out", "wasm_tables")
START = ["06 5F 73 74 61 72 74 00 00"]
RUNS = 5
PAGES = [0, 1, 16, 256]


def used():
    """The processor time of all programs that were run so far."""
    spent = resource.getrusage(resource.RUSAGE_CHILDREN)
    return spent.ru_utime + spent.ru_stime


def seconds(folder, data, pages, count):
    with open(os.path.join(folder, "cases"), "w", encoding="ascii") as file:
        file.write("repeat %s %d %d\n" % (data.hex(), max(pages, 1), count))
    least = float("inf")
    for _ in range(RUNS):
        begun = used()
        done = subprocess.run([PROGRAM, "turns", "cases"], cwd=folder, capture_output=True, check=True, timeout=600)
        least = min(least, used() - begun)
        assert done.stdout == b"answered %d\n" % count, done.stdout[:100]
    return least


def main(words):
    whole = int(words[0]) if words else 400_000
    without = None
    with tempfile.TemporaryDirectory() as folder:
        for pages in PAGES:
            data = module(bodies=[""], exports=START, memories=[b"\x00" + number(pages)] if pages else [])
            count = max(whole // max(pages, 1), 100)
            one = (seconds(folder, data, pages, 2 * count) - seconds(folder, data, pages, count)) / count
            without = one if without is None else without
            name = "%d pages" % pages if pages else "no memory"
            print("%-10s %9.0f a second, %8.2f us each, %8.2f us of them for the memory" % (name, 1 / one, one * 1e6, (one - without) * 1e6))
    return 0


if __name__ == "__main__":
    sys.exit(main(sys.argv[1:]))
