#!/usr/bin/env python3
"""Times the built program on valid modules of nearly 4 MiB and of half that size.

    validate_module.py                     builds the program where it is not built, by the script `sledge` at the top
    validate_module.py --instructions      counts instructions by valgrind instead, which scatter no more than the program does

For each kind of module it prints both times in milliseconds and their ratio. Where reading and checking are linear, the
ratio is 2; the names of exports are sorted, in steps that grow a little faster than their number, so that theirs is somewhat
more. Where they are quadratic it is 4, and one above 2.3 is told as a failure. A time is the least processor time of several
runs, without that of a file which is the header alone. The modules are valid and export no `_start`, so they are not run: each
run has to end with `module 53 0 0` and exit status 5. Where other machines share the processors, times scatter, and a ratio
of one series may be off by a tenth and more.
"""

import os
import re
import subprocess
import sys
import tempfile

import read_module
from read_module import CONST_AND_DROP, END, HEADER, MOST_BYTES, PROGRAM, ROOM, build, functions, number, section, sized

GREATEST_RATIO = 2.3
NO_LOCALS = b"\0"


def one_body(content, local_types=NO_LOCALS):
    return functions([local_types + content + END])


def repeated(piece, size):
    """The piece as often as it fits."""
    return piece * ((size - ROOM) // len(piece))


def many_functions(size):
    """Bodies of 419 bytes, so that 4 MiB has nearly as many functions as a module may have, which is 10,000."""
    body = NO_LOCALS + CONST_AND_DROP * 139 + END
    return functions([body] * ((size - ROOM) // (len(sized(body)) + 1)))


def long_body(size):
    return one_body(repeated(CONST_AND_DROP, size))


def high_stack(size):
    """As many constants as drops, so that the operand list grows over half of the body."""
    count = (size - ROOM) // len(CONST_AND_DROP)
    return one_body(CONST_AND_DROP[:2] * count + CONST_AND_DROP[2:] * count)


def exports(size, prefix=b"", more=()):
    """Exports of one global, by names of their own: the prefix and four letters, and then these."""
    letters = b"abcdefghijklmnopqrstuvwxyz012345"
    count = (size - ROOM - sum(len(name) + 3 for name in more)) // (len(prefix) + 7)
    names = [prefix + bytes(letters[place >> shift & 31] for shift in (0, 5, 10, 15)) for place in range(count)] + list(more)
    items = b"".join(sized(name) + b"\x03\x00" for name in names)
    return HEADER + section(6, bytes.fromhex("01 7F 00 41 00 0B")) + section(7, number(len(names)) + items)


def long_names(size):
    """Names that begin alike, so that the first bytes tell none from another."""
    return exports(size, b"function_of_the_module_")


def names_of_one_hash(size):
    """Two names among the others that have one hash (FNV-1a of 64 bits), by which the validator tells names apart."""
    return exports(size, more=[b"8yn0iYCKYHlIj4-BwPqk", b"GReLUrM4wMqfg9yzV3KQ"])


def branch_tables(size):
    """One `br_table` behind the other, each with 4,096 labels."""
    return one_body(repeated(b"\x41\x00\x0e" + number(4096) + bytes(4096) + b"\x00", size))


def deep_blocks(size):
    """999 blocks in one another, again and again."""
    return one_body(repeated(b"\x02\x40" * 999 + END * 999, size))


def far_labels(size):
    """Branches out of 999 blocks."""
    branch = b"\x41\x00\x0d" + number(999)
    return one_body(b"\x02\x40" * 999 + repeated(branch, size - 3_000) + END * 999)


def far_locals(size):
    """The last one of 1,024 locals."""
    local_types = number(1) + number(1024) + b"\x7e"
    return one_body(repeated(b"\x20" + number(1023) + b"\x1a", size), local_types)


KINDS = [
    ("many functions", many_functions),
    ("one long body", long_body),
    ("a high operand list", high_stack),
    ("many exports", exports),
    ("exports of long names", long_names),
    ("exports, two of one hash", names_of_one_hash),
    ("tables of 4,096 labels", branch_tables),
    ("deep blocks", deep_blocks),
    ("branches out of 999 blocks", far_labels),
    ("the last of 1,024 locals", far_locals),
]


def instructions(folder, content):
    """How many instructions a run on a module with these bytes takes."""
    with open(os.path.join(folder, "module"), "wb") as file:
        file.write(content)
    words = ["valgrind", "--tool=callgrind", "--callgrind-out-file=/dev/null", PROGRAM, "invoke", "module", "body", "10"]
    run = subprocess.run(words, cwd=folder, stdout=subprocess.DEVNULL, stderr=subprocess.PIPE, text=True, timeout=1800)
    assert run.returncode == 5 and "module 53 0 0" in run.stderr, (run.returncode, run.stderr)
    return int(re.search(r"Collected : (\d+)", run.stderr).group(1))


def counted(folder, half, whole):
    """The millions of instructions on two modules, each without those of a file which is the header alone."""
    start, one, two = (instructions(folder, content) / 1e6 for content in (HEADER, half, whole))
    return one - start, two - start


def main(words):
    measured, unit = (counted, "million instructions") if words == ["--instructions"] else (read_module.compared, "ms")
    build()
    failed = 0
    with tempfile.TemporaryDirectory() as folder:
        with open(f"{folder}/body", "wb"):
            pass
        for name, module in KINDS:
            half, whole = module(MOST_BYTES // 2), module(MOST_BYTES)
            assert len(whole) <= MOST_BYTES, len(whole)
            one, two = measured(folder, half, whole)
            failed += two / one > GREATEST_RATIO
            print(f"{name}: {one:.1f} {unit} for {len(half)} bytes, {two:.1f} {unit} for {len(whole)}, ratio {two / one:.2f}")
    return failed != 0


if __name__ == "__main__":
    sys.exit(main(sys.argv[1:]))
