#!/usr/bin/env python3
"""Runs the built program on modules at their limits, on each cut of two modules, and on thousands of changed modules.

    changed_modules.py [COUNT [SEED]]       builds the program where it is not built, by the script `sledge` at the top

What is wanted of the first two stands in the tables here, after docs/FORMATS.md. What the program says of a changed module
is compared with a reader that is written from the format alone.

Each changed file is one of a few modules with up to three changes: a byte set, put in or taken out, a number made longer, a piece
doubled, the file cut. A refused file has to be refused with the same number at the same place; any other one has to be
read, and is refused with the first rule that it breaks after `module_validator.py` and `interpreter.py`, or is run. The changes are the same in each run (SEED), and the summary says how
often each number came.
"""

import collections
import random
import sys
import tempfile

from lib import interpreter, module_reader, module_validator, usage
from lib.running import build, lay, run
from lib.whole_modules import ECHO, NOTHING


def module(*sections):
    """A module with these sections, each an id and what it holds, which are fewer than 128 bytes in hexadecimal."""
    contents = [(section_id, bytes.fromhex(content)) for section_id, content in sections]
    return module_reader.HEADER + b"".join(bytes([section_id, len(content)]) + content for section_id, content in contents)


def bodies(*texts):
    """What the section of these bodies holds."""
    return f"{len(texts):02x}" + "".join(f"{len(bytes.fromhex(text)):02x}{text}" for text in texts)


# One function that does nothing; blocks, branches and a table of labels; and one with all sections.
MODULES = [
    module(
        (1, "01 60 00 00"),
        (3, "01 00"),
        (7, "01 06 5F 73 74 61 72 74 00 00"),
        (10, bodies("00 0B")),
    ),
    module(
        (1, "02 60 00 00 60 01 7F 00"),
        (3, "02 00 01"),
        (
            10,
            bodies(
                "00 41 FE 1F 10 01 0B",
                "02 02 7F 01 7E 20 00 04 40 02 7F 41 01 0B 1A 05 03 40 0E 02 00 01 00 0B 0B 42 80 80 7F 1A 3F 00 40 00 1A 0B",
            ),
        ),
    ),
    module(
        (0, "01 61 01 02"),
        (1, "03 60 02 7F 7E 01 7F 60 00 00 60 00 01 7E"),
        (
            2,
            "05 01 61 01 62 00 00 01 61 02 C3 A9 01 70 01 01 02 01 61 00 02 00 01 00 01 63 03 7E 00 01 64 01 65 03 7F 01",
        ),
        (3, "02 00 01"),
        (4, "01 70 00 05"),
        (5, "01 01 01 02"),
        (6, "02 7F 01 41 7F 0B 7E 00 42 7F 0B"),
        (7, "04 01 66 00 01 01 74 01 00 01 6D 02 00 01 67 03 02"),
        (8, "02"),
        (9, "01 00 41 01 0B 02 00 01"),
        (12, "01"),
        (10, bodies("00 20 00 28 02 04 11 01 80 00 0B", "00 0B")),
        (11, "01 00 41 08 0B 03 61 62 63"),
        (0, "01 62 FF"),
    ),
]

# Files at a limit and just above it: what stands before an item, in hexadecimal behind the header; the item; how often it
# stands there; what is behind, and how often; the refusal, if there is one. A place is counted from the file's first byte.
LIMITS = [
    # 1,000 types, parameters of one, imported globals, globals, and these with an imported one; 10,000 imported functions.
    ("01 BA 17 E8 07", "60 00 00", 1000, "", 0, None),
    ("01 ED 07 01 60 E8 07", "7E", 1000, "00", 1, None),
    ("02 8A 27 E8 07", "00 00 03 7F 00", 1000, "", 0, None),
    ("06 8A 27 E8 07", "7F 00 41 00 0B", 1000, "", 0, None),
    ("02 06 01 00 00 03 7F 00 06 85 27 E7 07", "7F 00 41 00 0B", 999, "", 0, None),
    ("02 C2 B8 02 90 4E", "00 00 00 00", 10_000, "", 0, None),
    # One more: refused at the count, and for an import at the kind of the one too many.
    ("01 BD 17 E9 07", "60 00 00", 1001, "", 0, (21, 11)),
    ("01 EE 07 01 60 E9 07", "7E", 1001, "00", 1, (21, 13)),
    ("02 8F 27 E9 07", "00 00 03 7F 00", 1001, "", 0, (21, 5015)),
    ("06 8F 27 E9 07", "7F 00 41 00 0B", 1001, "", 0, (21, 11)),
    ("02 06 01 00 00 03 7F 00 06 8A 27 E8 07", "7F 00 41 00 0B", 1000, "", 0, (21, 19)),
    ("02 C6 B8 02 91 4E", "00 00 00 00", 10_001, "", 0, (21, 40_016)),
    # 10,000 functions with a body each, and 9,999 with an imported one.
    ("03 92 4E 90 4E" + "00" * 10_000 + "0A B2 EA 01 90 4E", "02 00 0B", 10_000, "", 0, None),
    ("02 05 01 00 00 00 00 03 91 4E 8F 4E" + "00" * 9_999 + "0A AF EA 01 8F 4E", "02 00 0B", 9_999, "", 0, None),
    # One function, whose body opens 1,000 blocks, and one whose body opens another one.
    ("03 02 01 00 0A BD 17 01 BA 17 00", "02 40", 1000, "0B", 1001, None),
    ("03 02 01 00 0A BD 17 01 BA 17 00", "03 7E", 1000, "0B", 1001, None),
    ("03 02 01 00 0A C0 17 01 BD 17 00", "02 40", 1001, "0B", 1002, (10, 2019)),
    ("03 02 01 00 0A C0 17 01 BD 17 00", "03 7E", 1001, "0B", 1002, (10, 2019)),
    # A custom section that fills 4 MiB, and the same file with one byte more.
    ("00 F3 FF FF 01", "00", 4_194_291, "", 0, None),
    ("00 F3 FF FF 01", "00", 4_194_292, "", 0, (21, 0)),
]


def limit_files():
    for front, item, count, back, times, refusal in LIMITS:
        sections = bytes.fromhex(front) + bytes.fromhex(item) * count + bytes.fromhex(back) * times
        yield f"{front[:40]} with {count} times {item}", module_reader.HEADER + sections, refusal


# Modules, and where their sections end: there a cut module is read, or as many bodies as functions are missing.
CUTS = [
    (NOTHING, (8, 14), (18, 30)),
    (ECHO, (8, 22, 92, 253), (96, 101, 111, 132)),
]


def cut_files():
    for whole, read, without_bodies in CUTS:
        for length in range(len(whole)):
            refusal = None if length in read else (20 if length in without_bodies else 1, length)
            yield f"the first {length} of {len(whole)} bytes", whole[:length], refusal


# Bytes on which something turns.
TELLING = [0x00, 0x01, 0x02, 0x04, 0x05, 0x08, 0x0A, 0x0B, 0x0C, 0x0E, 0x10, 0x11, 0x40, 0x41, 0x43, 0x60, 0x70, 0x7C, 0x7D, 0x7E, 0x7F, 0x80, 0xC3, 0xFC, 0xFF]


def set_byte(rng, data):
    data[rng.randrange(len(data))] = rng.choice(TELLING)


def put_in(rng, data):
    data.insert(rng.randrange(len(data) + 1), rng.choice(TELLING))


def take_out(rng, data):
    del data[rng.randrange(len(data))]


def add_one(rng, data):
    place = rng.randrange(len(data))
    data[place] = (data[place] + rng.choice([-1, 1])) % 256


def longer_number(rng, data):
    """A byte gets its continuation bit, and others behind it, up to one more than a number may have."""
    place = rng.randrange(len(data))
    data[place] |= 0x80
    data[place + 1 : place + 1] = bytes([0x80] * rng.randrange(5)) + bytes([rng.choice([0x00, 0x10, 0x7F])])


def double(rng, data):
    begin = rng.randrange(len(data))
    piece = data[begin : begin + rng.randrange(1, 12)]
    data[begin:begin] = piece


def cut(rng, data):
    del data[rng.randrange(len(data)) :]


CHANGES = [set_byte, set_byte, put_in, take_out, add_one, add_one, longer_number, double, cut]


def changed_module(rng):
    data = bytearray(rng.choice(MODULES))
    for _ in range(rng.randrange(4)):
        if data:
            rng.choice(CHANGES)(rng, data)
    return bytes(data)


def note_of(folder, data):
    """What the program says of a file: its exit status and its note."""
    lay(folder, {"module": data})
    status, _, notes = run(["invoke", "module", "body", "10"], folder)
    return status, notes.decode()


def first_broken(data):
    """The number and the item of the first rule that a module breaks, if it breaks one."""
    broken = module_validator.violation(module_validator.decode(data))
    return broken and (broken[0], broken[2])


def agrees(status, note, data, refusal):
    refusal = refusal or first_broken(data) or interpreter.link_refusal(module_validator.decode(data), 256)
    if refusal is None:
        return status == 0
    return (status, note) == (5, f"module {refusal[0]} 0 {refusal[1]}\n")


def main(words):
    usage.counts(words, __doc__)
    count, seed = [int(word) for word in words + ["3000", "1"][len(words) :]]
    rng = random.Random(seed)
    build()
    seen = collections.Counter()
    failed = 0
    tables = [*limit_files(), *cut_files()]
    with tempfile.TemporaryDirectory() as folder:
        lay(folder, {"body": b""})
        for title, data, refusal in tables:
            status, note = note_of(folder, data)
            if not agrees(status, note, data, refusal) or module_reader.refusal(data) != refusal:
                failed += 1
                print(f"{title}: wanted {refusal}, got status {status} and {note!r}")
        for _ in range(count):
            data = changed_module(rng)
            refusal = module_reader.refusal(data)
            seen[refusal[0] if refusal else 0] += 1
            status, note = note_of(folder, data)
            if not agrees(status, note, data, refusal):
                failed += 1
                print(f"{data.hex(' ')}: wanted {refusal}, got status {status} and {note!r}")
    print("read: %d; refused: %s" % (seen.pop(0, 0), ", ".join(f"{number} {times} times" for number, times in sorted(seen.items()))))
    print(f"{len(tables) + count - failed} passed, {failed} failed")
    return failed != 0


if __name__ == "__main__":
    sys.exit(main(sys.argv[1:]))
