#!/usr/bin/env python3
"""Runs the built program on modules that are linked to the host or refused, and compares the refusal.

    linking.py            builds the program where it is not built, by the script `sledge` at the top

Each expected refusal is written out here, after docs/FORMATS.md, and compared with `interpreter.link_refusal` too. A module that
is linked is run.
"""

import sys
import tempfile

from lib import interpreter, module_reader, module_validator, usage
from lib.module_writer import module, number, text
from lib.running import Case, build, ran

UNKNOWN, TYPE, KIND, NO_START, SHAPE, RANGE, PAGES = 50, 51, 52, 53, 54, 55, 56

# Types: 0 takes and gives nothing, 1 is that of fd_read and fd_write, 2 that of proc_exit; others are none of the host's functions'.
TYPES = ["60 00 00", "60 04 7F 7F 7F 7F 01 7F", "60 01 7F 00", "60 00 01 7F", "60 04 7F 7F 7E 7F 01 7F", "60 03 7F 7F 7F 01 7F", "60 01 7E 00", "60 04 7F 7F 7F 7F 00", "60 01 7F 01 7F"]

FUNCTION, TABLE, MEMORY, GLOBAL = "00 %02X", "01 70 00 01", "02 00 01", "03 7F 00"


def imported(name, item, source="wasi_snapshot_preview1"):
    names = [number(len(part.encode())) + part.encode() for part in (source, name)]
    return b"".join(names) + text(item)


def exported(kind, index, name="_start"):
    return number(len(name)) + name.encode() + bytes([kind]) + number(index)


READ, WRITE, EXIT = imported("fd_read", FUNCTION % 1), imported("fd_write", FUNCTION % 1), imported("proc_exit", FUNCTION % 2)
WRONG_TYPE, UNKNOWN_NAME, WRONG_KIND = imported("fd_read", FUNCTION % 2), imported("fd_seek", FUNCTION % 1), imported("fd_read", MEMORY)


def is_function(item):
    """Whether an import is a function; its names are shorter than 128 bytes."""
    behind = item[1 + item[0] :]
    return behind[1 + behind[0]] == 0


def program(imports=(), exports=None, functions=("00",), bodies=None, **parts):
    """A module whose first own function is `_start`, where nothing else is said."""
    exports = [exported(0, sum(map(is_function, imports)))] if exports is None else exports
    bodies = [""] * len(functions) if bodies is None else bodies
    return module(types=TYPES, imports=imports, exports=exports, functions=list(functions), bodies=bodies, **parts)


def pages(least, most=None):
    return bytes([most is not None]) + number(least) + (b"" if most is None else number(most))


def table(least):
    return b"\x70" + pages(least)


def at(offset, content, count):
    """A segment in the first table or memory, whose offset is a constant in its spelling."""
    return b"\x00\x41" + text(offset) + b"\x0b" + number(count) + content


def elements(offset, count):
    return at(offset, bytes(count), count)


def data(offset, count):
    return at(offset, bytes(count), count)


# i32 constants in their spelling
ZERO, ONE, FIVE, PAGE, PAST_PAGE, LAST_BYTE = "00", "01", "05", "80 80 04", "81 80 04", "FF FF 03"
GREATEST, HALF, TEN_THOUSAND = "7F", "80 80 80 80 78", "90 CE 00"

# a module, and the rule and item that refuse it, or None where it is linked
ROWS = [
    ("nothing but _start", program(), None),
    ("no section at all", module(types=()), (NO_START, 0)),
    # Imports.
    ("all three functions", program([READ, WRITE, EXIT]), None),
    ("one function twice", program([EXIT, EXIT]), None),
    ("an imported function that is not known", program([UNKNOWN_NAME]), (UNKNOWN, 0)),
    ("the second is not known", program([READ, UNKNOWN_NAME]), (UNKNOWN, 1)),
    ("a name in other letters", program([imported("fd_reaD", FUNCTION % 1)]), (UNKNOWN, 0)),
    ("the beginning of a name", program([imported("fd_rea", FUNCTION % 1)]), (UNKNOWN, 0)),
    ("a name with more behind it", program([EXIT, imported("proc_exit_", FUNCTION % 2)]), (UNKNOWN, 1)),
    ("no name", program([imported("", FUNCTION % 1)]), (UNKNOWN, 0)),
    ("another module's function of a known name", program([READ, EXIT, imported("fd_write", FUNCTION % 1, "env")]), (UNKNOWN, 2)),
    ("an older version of the host", program([imported("fd_write", FUNCTION % 1, "wasi_unstable")]), (UNKNOWN, 0)),
    ("a module of no name", program([imported("proc_exit", FUNCTION % 2, "")]), (UNKNOWN, 0)),
    ("fd_read of the type of proc_exit", program([WRONG_TYPE]), (TYPE, 0)),
    ("the third has another type", program([READ, WRITE, imported("proc_exit", FUNCTION % 1)]), (TYPE, 2)),
    ("another parameter", program([imported("fd_write", FUNCTION % 4)]), (TYPE, 0)),
    ("a parameter too few", program([imported("fd_write", FUNCTION % 5)]), (TYPE, 0)),
    ("no result", program([imported("fd_read", FUNCTION % 7)]), (TYPE, 0)),
    ("proc_exit of i64", program([imported("proc_exit", FUNCTION % 6)]), (TYPE, 0)),
    ("proc_exit of nothing", program([READ, imported("proc_exit", FUNCTION % 0)], exports=[exported(0, 2)]), (TYPE, 1)),
    ("proc_exit with a result", program([imported("proc_exit", FUNCTION % 8)], exports=[exported(0, 1)]), (TYPE, 0)),
    ("an imported table", program([imported("fd_read", TABLE)]), (KIND, 0)),
    ("an imported memory", program([READ, imported("fd_read", MEMORY)]), (KIND, 1)),
    ("an imported global", program([READ, WRITE, imported("proc_exit", GLOBAL)]), (KIND, 2)),
    # The order within an import, and between imports.
    ("a table of an unknown name", program([imported("fd_seek", TABLE, "env")]), (KIND, 0)),
    ("an unknown name with another type", program([imported("fd_seek", FUNCTION % 3)], exports=[exported(0, 1)]), (UNKNOWN, 0)),
    ("no name, and then no function", program([UNKNOWN_NAME, WRONG_KIND]), (UNKNOWN, 0)),
    ("no function, and then no name", program([WRONG_KIND, UNKNOWN_NAME]), (KIND, 0)),
    ("another type, and then no name", program([WRONG_TYPE, UNKNOWN_NAME]), (TYPE, 0)),
    ("no name, and then another type", program([READ, UNKNOWN_NAME, WRONG_TYPE]), (UNKNOWN, 1)),
    # The entry.
    ("another export", program(exports=[exported(0, 0, "start")]), (NO_START, 0)),
    ("no export", program(exports=[]), (NO_START, 0)),
    ("_start in other letters", program(exports=[exported(0, 0, "_Start"), exported(0, 0, "_start ")]), (NO_START, 0)),
    ("_start is the second export", program(exports=[exported(0, 0, "main"), exported(0, 0)]), None),
    ("_start is a memory", program(exports=[exported(2, 0)], memories=[pages(1)]), (SHAPE, 0)),
    ("_start is a table", program(exports=[exported(1, 0)], tables=[table(1)]), (SHAPE, 0)),
    ("_start is a global", program(exports=[exported(3, 0)], global_items=["7F 00 41 00 0B"]), (SHAPE, 0)),
    ("_start has a parameter", program(functions=["02"]), (SHAPE, 0)),
    ("_start has a result", program(functions=["03"], bodies=["41 00"]), (SHAPE, 0)),
    ("_start is proc_exit", program([EXIT], exports=[exported(0, 0)]), (SHAPE, 0)),
    ("_start is the second function", program(functions=["02", "00"], exports=[exported(0, 1)]), None),
    ("_start behind an imported function", program([EXIT], functions=["02", "00"], exports=[exported(0, 2)]), None),
    # Pages.
    ("256 pages", program(memories=[pages(256)]), None),
    ("256 pages of 65536", program(memories=[pages(256, 65536)]), None),
    ("257 pages", program(memories=[pages(257)]), (PAGES, 0)),
    ("65536 pages", program(memories=[pages(65536, 65536)]), (PAGES, 0)),
    ("257 pages, all of them", program(memories=[pages(257, 257)]), (PAGES, 0)),
    # Element segments.
    ("elements that end at the table's size", program(tables=[table(3)], elements=[elements(ONE, 2)]), None),
    ("one past it", program(tables=[table(3)], elements=[elements(ONE, 3)]), (RANGE, 0)),
    ("no elements at the end", program(tables=[table(5)], elements=[elements(FIVE, 0)]), None),
    ("no elements past the end", program(tables=[table(4)], elements=[elements(ZERO, 4), elements(FIVE, 0)]), (RANGE, 1)),
    ("elements in a table of none", program(tables=[table(0)], elements=[elements(ZERO, 0), elements(ZERO, 1)]), (RANGE, 1)),
    ("10,000 elements at the end", program(tables=[table(10000)], elements=[elements(TEN_THOUSAND, 0), elements(ZERO, 10000)]), None),
    ("elements at the greatest offset", program(tables=[table(1)], elements=[elements(GREATEST, 1)]), (RANGE, 0)),
    ("none at the greatest offset", program(tables=[table(1)], elements=[elements(GREATEST, 0)]), (RANGE, 0)),
    ("a table's greatest size does not count", program(tables=[b"\x70" + pages(1, 9)], elements=[elements(ONE, 1)]), (RANGE, 0)),
    # Data segments.
    ("bytes that end at the memory's size", program(memories=[pages(1)], segments=[data(LAST_BYTE, 1)]), None),
    ("one past it", program(memories=[pages(1)], segments=[data(LAST_BYTE, 2)]), (RANGE, 0)),
    ("no bytes at the end", program(memories=[pages(1)], segments=[data(PAGE, 0)]), None),
    ("no bytes past the end", program(memories=[pages(1)], segments=[data(ZERO, 1), data(ONE, 1), data(PAST_PAGE, 0)]), (RANGE, 2)),
    ("a whole page", program(memories=[pages(1)], segments=[data(ZERO, 65536)]), None),
    ("a page and a byte", program(memories=[pages(1)], segments=[data(ZERO, 65537)]), (RANGE, 0)),
    ("no bytes in a memory of none", program(memories=[pages(0)], segments=[data(ZERO, 0)]), None),
    ("a byte in a memory of none", program(memories=[pages(0, 1)], segments=[data(ZERO, 0), data(ZERO, 1)]), (RANGE, 1)),
    ("a byte at the greatest offset", program(memories=[pages(256)], segments=[data(GREATEST, 1)]), (RANGE, 0)),
    ("no byte at the greatest offset", program(memories=[pages(256)], segments=[data(GREATEST, 0)]), (RANGE, 0)),
    ("bytes whose end would be 0 again", program(memories=[pages(1)], segments=[data(ZERO, 1), data(HALF, 8)]), (RANGE, 1)),
    # Neighbours in the order: the earlier one is told.
    ("an import and no _start", program([UNKNOWN_NAME], exports=[]), (UNKNOWN, 0)),
    ("an import and _start of another shape", program([WRONG_TYPE], exports=[exported(0, 0)]), (TYPE, 0)),
    ("no function and _start of another shape", program([READ, WRONG_KIND], exports=[exported(0, 0)]), (KIND, 1)),
    ("no _start and 257 pages", program(exports=[], memories=[pages(257)]), (NO_START, 0)),
    ("_start of another shape and 257 pages", program(exports=[exported(2, 0)], memories=[pages(257)]), (SHAPE, 0)),
    ("257 pages and elements past the table", program(memories=[pages(257)], tables=[table(1)], elements=[elements(ONE, 1)]), (PAGES, 0)),
    ("257 pages and bytes past the memory", program(memories=[pages(257)], segments=[data(ZERO, 0), data(GREATEST, 1)]), (PAGES, 0)),
    (
        "elements past the table and bytes past the memory",
        program(memories=[pages(1)], tables=[table(1)], elements=[elements(ZERO, 1), elements(ONE, 1)], segments=[data(PAGE, 1)]),
        (RANGE, 1),
    ),
    (
        "bytes past the memory, and all elements within the table",
        program(memories=[pages(1)], tables=[table(1)], elements=[elements(ZERO, 1), elements(ONE, 0)], segments=[data(PAGE, 1)]),
        (RANGE, 0),
    ),
    # Validity comes first.
    ("an import that is not known and a body that is not typed", program([UNKNOWN_NAME], bodies=["1A"]), "invalid"),
    ("two exports named _start", program(exports=[exported(0, 0), exported(0, 0)]), "invalid"),
]


def refusal_of(data):
    """The refusal of a module after the reader, the validator and the linker in Python, as the program tells it, or None."""
    refusal = module_reader.refusal(data)
    if refusal:
        return refusal
    decoded = module_validator.decode(data)
    broken = module_validator.violation(decoded)
    return (broken[0], broken[2]) if broken else interpreter.link_refusal(decoded, 256)


def agrees(got, refusal):
    status, shown, note = got
    if refusal is None:
        return status == 0
    return (status, shown, note) == (5, b"", "module %d 0 %d\n" % refusal)


def main(words):
    usage.none(words, __doc__)
    build()
    failed = 0
    with tempfile.TemporaryDirectory() as folder:
        for place, (title, data, wanted) in enumerate(ROWS):
            refusal = refusal_of(data)
            fine = refusal is not None and refusal[0] < 50 if wanted == "invalid" else refusal == wanted
            got = ran(folder, place, Case(title, data, budget=10))
            if not fine or not agrees(got, refusal):
                failed += 1
                print("%s: wanted %r, in Python %r, got %r" % (title, wanted, refusal, got))
    print("%d passed, %d failed" % (len(ROWS) - failed, failed))
    return failed != 0


if __name__ == "__main__":
    sys.exit(main(sys.argv[1:]))
