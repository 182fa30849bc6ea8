#!/usr/bin/env python3
"""Times loops of arithmetic, memory, calls and branches through the built program against wabt's `wasm-interp`.

    machine.py [ROUNDS [TURNS]]      builds the program where it is not built, by the script `sledge` at the top

Each loop goes round so many times (2,000,000), and runs in both programs alternately. The least processor time of the rounds
(5) counts, without that of a run of almost nothing. It prints nanoseconds a unit and the ratios; where `wasm-interp` (package
`wabt`) is missing, the times alone.
"""

import math
import os
import shutil
import sys
import tempfile

TOP = os.path.join(os.path.dirname(os.path.abspath(__file__)), "..")
sys.path.insert(0, os.path.join(TOP, "tests"))

from lib.module_writer import body, module, signed, text  # noqa: E402
from lib.running import PROGRAM, build, measured  # noqa: E402

INTERP = shutil.which("wasm-interp")
START = ["06 5F 73 74 61 72 74 00 00"]
BUDGET = 2**40


def counted(turns, inner, local_types="02 02 7F 01 7E"):
    """The operators so many times, with the counter in local 0."""
    return body(b"\x41" + signed(turns) + text("21 00 03 40") + text(inner) + text("20 00 41 01 6B 22 00 0D 00 0B"), local_types)


# a name, and the module that goes round so many times
LOOPS = [
    # x = (x * 31 + i) ^ (x >> 3), y = rotl(y, 5) + x
    ("arithmetic", lambda turns: module(exports=START, bodies=[counted(turns, "20 01 41 1F 6C 20 00 6A 20 01 41 03 76 73 21 01 20 02 42 05 89 20 01 AD 7C 21 02")])),
    # a word is loaded, changed and stored, and a byte beside it
    (
        "memory",
        lambda turns: module(exports=START, memories=["00 01"], bodies=[counted(turns, "20 00 41 FC FF 03 71 22 01 20 01 28 02 00 20 00 6A 36 02 00 20 01 2D 00 01 20 00 6A 21 01 41 07 20 01 3A 00 00")]),
    ),
    # a function of two parameters is called
    ("calls", lambda turns: module(exports=START, types=["60 00 00", "60 02 7F 7F 01 7F"], functions=["00", "01"], bodies=[counted(turns, "20 00 20 01 10 01 21 01"), body("20 00 20 01 6A")])),
    # a table of three labels, a branch, and an if with else
    ("branches", lambda turns: module(exports=START, bodies=[counted(turns, "02 40 02 40 02 40 20 00 41 03 71 0E 02 00 01 02 0B 20 01 41 01 6A 21 01 0C 01 0B 20 01 04 40 20 01 41 02 6A 21 01 05 41 01 21 01 0B 0B")])),
]  # fmt: skip


def seconds(words, folder):
    used, status, _, said = measured(words, folder)
    if status != 0:
        sys.exit("%s: %r" % (" ".join(words), said[:300]))
    return used.ru_utime + used.ru_stime, said.decode()


def least(programs, folder, rounds):
    """The least time of each, run alternately, and what the first one said."""
    times, note = [math.inf] * len(programs), ""
    for _ in range(rounds):
        for place, words in enumerate(programs):
            taken, said = seconds(words, folder)
            times[place] = min(times[place], taken)
            note = note or said
    return times, note


def programs_of(name):
    ours = [PROGRAM, "invoke", name, "empty", str(BUDGET)]
    return [ours] + ([[INTERP, name, "--run-all-exports"]] if INTERP else [])


def main(words):
    rounds, turns = [int(word) for word in words + ["5", "2000000"][len(words) :]]
    build()
    ratios = []
    with tempfile.TemporaryDirectory() as folder:
        for name, data in [("empty", b"")] + [("least", module(exports=START, bodies=[""]))]:
            with open(os.path.join(folder, name), "wb") as file:
                file.write(data)
        base, _ = least(programs_of("least"), folder, rounds)
        for name, made in LOOPS:
            with open(os.path.join(folder, name), "wb") as file:
                file.write(made(turns))
            times, note = least(programs_of(name), folder, rounds)
            units = int(note.split()[1])
            a_unit = [(taken - start) / units * 1e9 for taken, start in zip(times, base)]
            line = "%-12s %11d units, %.2f ns a unit" % (name, units, a_unit[0])
            if INTERP:
                ratios.append(a_unit[0] / a_unit[1])
                line += ", wasm-interp %.2f ns, ratio %.3f" % (a_unit[1], ratios[-1])
            print(line)
    if ratios:
        print("geometric mean of the ratios: %.3f" % math.exp(sum(map(math.log, ratios)) / len(ratios)))
    else:
        print("wasm-interp is not installed (package wabt): no ratios")


if __name__ == "__main__":
    main(sys.argv[1:])
