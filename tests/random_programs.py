#!/usr/bin/env python3
"""Runs modules that are grown at random through the built program, and compares reply and units with the interpreter in Python.

    random_programs.py [COUNT [SEED]]
"""

import random
import sys

from lib import usage
from lib.random_modules import grown_program
from lib.running import Case, compare


def main(words):
    usage.counts(words, __doc__)
    count, seed = [int(word) for word in words + ["400", "5"][len(words) :]]
    rng = random.Random(seed)
    cases = [Case("module %d of seed %d" % (place, seed), grown_program(rng), budget=rng.choice((5, 20, 100, 1000, 5000))) for place in range(count)]
    return compare(cases) != 0


if __name__ == "__main__":
    sys.exit(main(sys.argv[1:]))
