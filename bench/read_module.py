#!/usr/bin/env python3
"""Times the built program on modules of nearly 4 MiB and of half that size.

    read_module.py       builds the program where it is not built, by the script `sledge` at the top

For each kind of module it prints both times in milliseconds and their ratio: where reading is linear, the
ratio is 2. A time is the least processor time of several runs, without that of a file which is the header alone.
Then it prints the most memory that was resident while a module of nearly 4 MiB was read whose one body is all `nop`:
there each byte is an operator. The modules are valid and export no `_start`, so each is read, validated and not
run: each run has to end with `module 53 0 0` and exit status 5.
"""

import os
import sys
import tempfile

sys.path.insert(0, os.path.join(os.path.dirname(os.path.abspath(__file__)), "..", "tests"))

from lib.running import PROGRAM, build, measured  # noqa: E402

# The least of few runs scatters: the longer a run is, the more seldom nothing else on the machine disturbs it.
RUNS = 60
MOST_BYTES = 4 << 20
# Room for the header, the other sections, and the ids and sizes of the long ones.
ROOM = 128

HEADER = b"\0asm\x01\0\0\0"
TYPES = bytes.fromhex("01 04 01 60 00 00")
CONST_AND_DROP = bytes.fromhex("41 07 1A")
NOP = b"\x01"
END = b"\x0b"


def number(value):
    """An unsigned LEB128 number, in as few bytes as may be."""
    spelt = bytearray()
    while value > 127:
        spelt.append(value & 127 | 128)
        value >>= 7
    spelt.append(value)
    return bytes(spelt)


def sized(content):
    return number(len(content)) + content


def section(number_of_it, content):
    return bytes([number_of_it]) + sized(content)


def functions(bodies):
    """A module with these bodies, which exports nothing."""
    count = number(len(bodies))
    indices = section(3, count + bytes(len(bodies)))
    return HEADER + TYPES + indices + section(10, count + b"".join(sized(body) for body in bodies))


def many_functions(size):
    """Bodies of 419 bytes, so that 4 MiB has nearly as many functions as a module may have, which is 10,000."""
    body = b"\0" + CONST_AND_DROP * 139 + END
    return functions([body] * ((size - ROOM) // (len(sized(body)) + 1)))


def one_body(size):
    return functions([b"\0" + CONST_AND_DROP * ((size - ROOM) // len(CONST_AND_DROP)) + END])


def all_nop(size):
    return functions([b"\0" + NOP * (size - ROOM) + END])


def one_custom_section(size):
    return HEADER + section(0, sized(b"long") + bytes(size - ROOM))


KINDS = [
    ("many functions", many_functions),
    ("one long body", one_body),
    ("one long custom section", one_custom_section),
]


def used(folder, content):
    """What a run on a module with these bytes used: processor time in milliseconds, and resident memory in MiB."""
    with open(os.path.join(folder, "module"), "wb") as file:
        file.write(content)
    words = [PROGRAM, "invoke", "module", "body", "10"]
    usage, status, _, notes = measured(words, folder)
    assert (status, notes) == (5, b"module 53 0 0\n"), (status, notes)
    return (usage.ru_utime + usage.ru_stime) * 1000, usage.ru_maxrss / 1024


def least_times(folder, contents):
    """The least time of several runs on each of these modules, in milliseconds. The modules take turns, so that what
    else the machine does falls on all of them alike."""
    rounds = [[used(folder, content)[0] for content in contents] for _ in range(RUNS)]
    return [min(times) for times in zip(*rounds)]


def compared(folder, half, whole):
    """The least times on two modules, each without that of a file which is the header alone, in milliseconds."""
    start, one, two = least_times(folder, [HEADER, half, whole])
    return max(one - start, 0.001), max(two - start, 0.001)


def resident_memory(folder, content):
    """The most memory that was resident in a run on a module with these bytes, in MiB."""
    return used(folder, content)[1]


def main():
    build()
    with tempfile.TemporaryDirectory() as folder:
        with open(os.path.join(folder, "body"), "wb"):
            pass
        for name, module in KINDS:
            half, whole = module(MOST_BYTES // 2), module(MOST_BYTES)
            assert MOST_BYTES - 1024 < len(whole) <= MOST_BYTES, len(whole)
            one, two = compared(folder, half, whole)
            print(f"{name}: {len(half)} bytes {one:.1f} ms, {len(whole)} bytes {two:.1f} ms, ratio {two / one:.2f}")
        content = all_nop(MOST_BYTES)
        print(f"one body of nop: {len(content)} bytes, {resident_memory(folder, content):.0f} MiB resident")


if __name__ == "__main__":
    sys.exit(main())
