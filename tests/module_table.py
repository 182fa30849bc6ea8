#!/usr/bin/env python3
"""Modules by tables: each part, each refusal at its place, and modules that a compiler made.

The bytes are spelt by hand after WebAssembly Core 1.0, section 5.5, and of Core 2.0, the same section, for the count of data segments; so is what they mean; the numbers of
refusals and the limits are those of docs/FORMATS.md. Nothing here is taken from what the program prints. In the
rows of refusals a place is counted from the file's first byte, so the first section stands at 8.

    module_table.py [check|make]      compares crates/wasm_tables/data/module and what stdout there has of it with the tables, or writes them (tests/lib/tables.py)
"""

import sys

from lib import tables
from lib.whole_modules import ECHO, ENDLESS, MOST_FRAMES, NOTHING, PAGE_FILLER, UNREACHABLE, ZERO_READER

HEADER = "00 61 73 6D 01 00 00 00"

TEXTS = {
    1: "the bytes end within an item",
    2: "a LEB128 number is too long",
    3: "a LEB128 number sets bits that it does not have",
    4: "a name is not UTF-8",
    5: "a float operator",
    6: "an unknown operator",
    7: "a float type",
    8: "an unknown type",
    9: "an else without an if",
    11: "too many locals",
    12: "too many targets of a br_table",
    13: "a reserved byte is not zero",
    14: "bytes behind the end of a body",
    15: "the file is no WebAssembly module",
    16: "the module's version is not 1",
    17: "a section is repeated or out of order",
    18: "a section's size is wrong",
    19: "an unknown section",
    20: "the counts of functions and bodies differ",
    21: "a count, a size or the file is too large",
    22: "an unknown kind or mutability",
    23: "an unknown flag of limits",
    24: "a constant expression is not one constant",
}

# Refusals: a whole file, or the sections behind the header; the number; the place.

HEADERS = [
    # Cut short.
    ("", 1, 0),
    ("00 61 73", 1, 3),
    ("00 61 73 6D", 1, 4),
    ("00 61 73 6D 01 00 00", 1, 7),
    # Another magic, at whichever byte, also where the file ends there.
    ("01", 15, 0),
    ("00 62", 15, 0),
    ("00 61 73 6E 01 00 00 00", 15, 0),
    ("00 41 73 6D 02 00 00 00", 15, 0),
    # Another version.
    ("00 61 73 6D 00", 16, 4),
    ("00 61 73 6D 02 00 00 00", 16, 4),
    ("00 61 73 6D 01 00 01", 16, 4),
    ("00 61 73 6D 01 00 00 80", 16, 4),
]

IDS_AND_THEIR_ORDER = [
    # Unknown ones.
    ("0D 00", 19, 8),
    ("0D", 19, 8),
    ("80 00", 19, 8),
    ("00 01 00 FF", 19, 11),
    ("0B 01 00 0D", 19, 11),
    # One that comes twice.
    ("01 01 00 01 01 00", 17, 11),
    ("0A 01 00 0A 01 00", 17, 11),
    ("0B 01 00 00 01 00 0B", 17, 14),
    # One behind a later one, with a custom one between, and at the file's end.
    ("03 01 00 01 01 00", 17, 11),
    ("05 01 00 00 01 00 04 01 00", 17, 14),
    ("0B 01 00 0A", 17, 11),
    # The count of data segments stands behind element segments and before bodies, and once.
    ("0C 01 00 09 01 00", 17, 11),
    ("0C 01 00 00 01 00 08 01 00", 17, 14),
    ("0C 01 00 0C 01 00", 17, 11),
    ("0A 01 00 0C 01 00", 17, 11),
    ("0B 01 00 0C", 17, 11),
    ("03 01 00 0A 01 00 00 01 00 0C 01 00", 17, 17),
    # What comes first is refused first.
    ("01 01 00 01 81 80 80 80 10", 17, 11),
    ("02 01 00 01 01 00 0C", 17, 11),
]

SIZES = [
    # No size, one that is cut, and one that passes the file's end.
    ("01", 1, 9),
    ("00 80", 1, 10),
    ("01 05 01 60", 1, 12),
    ("01 05 01 60 00 00", 1, 14),
    ("00 FF FF FF FF 0F", 1, 14),
    # Too long, and with spare bits.
    ("01 81 80 80 80 80 00", 2, 9),
    ("0B FF FF FF FF FF", 2, 9),
    ("01 81 80 80 80 10 00", 3, 9),
    ("00 01 00 00 FF FF FF FF 1F", 3, 12),
    # A byte fewer than the section's contents: at the section's end, whatever stands behind it.
    ("01 03 01 60 00 00", 18, 13),
    ("08 00", 18, 10),
    ("01 00 01 00", 18, 10),
    ("08 01 80 00", 18, 11),
    ("00 00 00", 18, 10),
    ("00 02 02 61 61", 18, 12),
    # A byte more: at the first that is left over.
    ("01 05 01 60 00 00 00", 18, 14),
    ("08 02 00 00", 18, 11),
    ("04 03 00 70 00", 18, 11),
    ("0B 02 00 FF", 18, 11),
    # The same of a count of data segments.
    ("0C 00", 18, 10),
    ("0C 01 80", 18, 11),
    ("0C 02 00 00", 18, 11),
    ("0C 02 01 00 0B 01 00", 18, 11),
    ("0C 06 80 80 80 80 80 00", 2, 10),
    ("0C 05 80 80 80 80 10", 3, 10),
    ("0C 02 00", 1, 11),
    # The name of a custom section is no UTF-8.
    ("00 02 01 FF", 4, 11),
    ("00 01 00 00 05 82 00 C3 28 00", 4, 15),
]

TYPES = [
    # Another tag than `60`: a float type too is no tag.
    ("01 04 01 61 00 00", 8, 11),
    ("01 04 01 7D 00 00", 8, 11),
    ("01 04 01 7C 00 00", 8, 11),
    ("01 05 01 E0 00 00 00", 8, 11),
    ("01 07 02 60 00 00 40 00 00", 8, 14),
    # Value types.
    ("01 05 01 60 01 7D 00", 7, 13),
    ("01 06 01 60 02 7F 7C 00", 7, 14),
    ("01 05 01 60 00 01 7C", 7, 14),
    ("01 05 01 60 01 40 00", 8, 13),
    ("01 05 01 60 00 01 40", 8, 14),
    ("01 05 01 60 00 01 70", 8, 14),
    # Two results.
    ("01 06 01 60 00 02 7F 7F", 21, 13),
    ("01 05 01 60 00 82 00", 21, 13),
    # The count.
    ("01 05 80 80 80 80 10", 3, 10),
    ("01 06 81 80 80 80 80 00", 2, 10),
    ("01 01 80 00", 18, 11),
    ("01 04 02 60 00 00", 18, 14),
]

# The names are `a` and `b`, so that the kind stands at 15 and what is imported from 16 on.
IMPORTS = [
    # Names that are no UTF-8.
    ("02 07 01 01 FF 01 62 00 00", 4, 12),
    ("02 07 01 01 61 01 80 00 00", 4, 14),
    ("02 08 01 01 61 02 C0 80 00 00", 4, 14),
    # Another kind.
    ("02 06 01 01 61 01 62 04", 22, 15),
    ("02 07 01 01 61 01 62 80 00", 22, 15),
    # A function's type.
    ("02 06 01 01 61 01 62 00", 18, 16),
    ("02 07 01 01 61 01 62 00 80 00", 18, 17),
    # A table of another tag, with unknown limits, and one that is too large.
    ("02 08 01 01 61 01 62 01 6F 00", 8, 16),
    ("02 09 01 01 61 01 62 01 7D 00 00", 8, 16),
    ("02 09 01 01 61 01 62 01 70 02 00", 23, 17),
    ("02 0A 01 01 61 01 62 01 70 00 91 4E", 21, 18),
    # A memory with unknown limits, and without the greatest size that it says it has.
    ("02 08 01 01 61 01 62 02 02 00", 23, 16),
    ("02 08 01 01 61 01 62 02 01 00", 18, 18),
    # A global of another type, and of another mutability.
    ("02 08 01 01 61 01 62 03 7C 00", 7, 16),
    ("02 08 01 01 61 01 62 03 40 00", 8, 16),
    ("02 08 01 01 61 01 62 03 7F 02", 22, 17),
    ("02 08 01 01 61 01 62 03 7E FF", 22, 17),
]

TABLES_AND_MEMORIES = [
    ("04 04 01 6F 00 00", 8, 11),
    ("04 04 01 7D 00 00", 8, 11),
    ("04 04 01 60 00 00", 8, 11),
    ("04 04 01 70 02 00", 23, 12),
    ("04 05 01 70 81 00 00", 23, 12),
    ("04 05 01 70 00 91 4E", 21, 13),
    ("04 06 01 70 01 91 4E 00", 21, 13),
    ("04 04 01 70 01 00", 18, 14),
    ("05 03 01 02 00", 23, 11),
    ("05 05 02 00 00 80 00", 23, 13),
    ("05 03 01 01 00", 18, 13),
    ("05 07 01 00 FF FF FF FF 1F", 3, 12),
]

GLOBALS = [
    ("06 06 01 7D 00 41 00 0B", 7, 11),
    ("06 06 01 40 00 41 00 0B", 8, 11),
    ("06 06 01 7F 02 41 00 0B", 22, 12),
    ("06 06 01 7E 41 41 00 0B", 22, 12),
    # A constant that is a float, of another operator, and of none.
    ("06 06 01 7F 00 43 00 0B", 5, 13),
    ("06 06 01 7F 00 44 00 0B", 5, 13),
    ("06 06 01 7F 00 23 00 0B", 24, 13),
    ("06 04 01 7F 01 0B", 24, 13),
    ("06 06 01 7F 00 6A 00 0B", 24, 13),
    # One that does not end behind its number.
    ("06 06 01 7F 00 41 00 0C", 24, 15),
    ("06 08 01 7F 00 41 00 41 00 0B", 24, 15),
    ("06 05 01 7E 00 42 80", 18, 15),
    ("06 05 01 7E 00 42 00 0B", 18, 15),
    # Its number.
    ("06 0A 01 7F 00 41 80 80 80 80 08 0B", 3, 14),
    ("06 0B 01 7F 00 41 FF FF FF FF FF 7F 0B", 2, 14),
    ("06 02 E9 07", 21, 10),
]

EXPORTS_AND_SEGMENTS = [
    # Exports.
    ("07 05 01 01 61 04 00", 22, 13),
    ("07 08 02 00 00 00 01 61 FF 00", 22, 16),
    ("07 05 01 01 FF 00 00", 4, 12),
    ("07 06 01 02 61 E2 00 00", 4, 12),
    ("07 04 01 01 61 00", 18, 14),
    # The start function.
    ("08 05 80 80 80 80 20", 3, 10),
    ("08 06 80 80 80 80 80 00", 2, 10),
    # Element segments.
    ("09 06 01 00 23 00 0B 00", 24, 12),
    ("09 06 01 00 43 00 0B 00", 5, 12),
    ("09 06 01 00 41 00 0A 00", 24, 14),
    ("09 06 01 00 41 00 0B 01", 18, 16),
    ("09 08 01 00 41 00 0B 01 80 80", 18, 18),
    # Data segments.
    ("0B 06 01 00 00 00 0B 00", 24, 12),
    ("0B 06 01 00 44 00 0B 00", 5, 12),
    ("0B 06 01 00 42 00 00 00", 24, 14),
    ("0B 07 01 00 41 00 0B 02 61", 18, 17),
    ("0B 0A 01 00 41 00 0B FF FF FF FF 0F", 18, 20),
    ("0B 08 01 00 41 00 0B 01 61 62", 18, 17),
    ("0B 07 02 00 41 00 0B 00 01", 18, 17),
]

COUNTS = [
    # No section of bodies: at the file's end.
    ("03 02 01 00", 20, 12),
    ("03 02 01 00 00 01 00", 20, 15),
    ("03 02 01 00 0B 01 00", 20, 15),
    # Fewer bodies than functions, and more: at the count of bodies, and before any of them is read.
    ("03 02 01 00 0A 01 00", 20, 14),
    ("03 03 02 00 00 0A 04 01 02 00 0B", 20, 15),
    ("0A 04 01 02 00 0B", 20, 10),
    ("03 02 01 00 0A 04 02 02 00 92", 20, 14),
    ("03 02 01 00 0A 05 81 80 80 80 10", 3, 14),
    # No data section, and a count of data segments: at the file's end.
    ("0C 01 01", 20, 11),
    ("0C 01 01 00 01 00", 20, 14),
    ("0C 05 FF FF FF FF 0F", 20, 15),
    ("03 01 00 0C 01 01 0A 01 00", 20, 17),
    # Fewer data segments than were counted, and more: at their count, and before any of them is read.
    ("0C 01 01 0B 01 00", 20, 13),
    ("0C 01 01 0B 02 80 00", 20, 13),
    ("0C 01 00 0B 06 01 00 41 00 0B 00", 20, 13),
    ("0C 01 02 0B 06 01 00 41 00 0B 00", 20, 13),
    ("0C 01 01 0B 0B 02 00 41 00 0B 00 00 41 00 0B 00", 20, 13),
    ("0C 01 02 0B 06 01 00 00 00 0B 00", 20, 13),
    ("0C 02 81 01 0B 01 01", 20, 14),
    # As many, and another fault.
    ("0C 01 01 0B 06 01 00 00 00 0B 00", 24, 15),
    ("0C 01 01 0B 01 01", 18, 14),
    ("0C 01 00 0B 05 80 80 80 80 10", 3, 13),
    # Both counts differ: the earlier place of two, of which one may be the file's end.
    ("03 02 01 00 0C 01 01", 20, 15),
    ("03 02 01 00 0C 01 01 0A 01 00", 20, 17),
    ("03 02 01 00 0C 01 01 0B 01 00", 20, 17),
    ("03 02 01 00 0C 01 01 0A 01 00 0B 01 00", 20, 17),
    # One of them alone.
    ("03 02 01 00 0C 01 01 0A 04 01 02 00 0B", 20, 21),
    ("03 02 01 00 0C 01 01 0A 04 01 02 00 0B 0B 01 00", 20, 23),
    ("03 02 01 00 0C 01 00 0B 01 00", 20, 18),
    # Too many functions, imported ones counted; as many as may be, of which the first is missing.
    ("03 02 91 4E", 21, 10),
    ("03 02 90 4E", 18, 12),
    ("03 05 FF FF FF FF 0F", 21, 10),
    ("02 05 01 00 00 00 00 03 02 90 4E", 21, 17),
    ("02 05 01 00 00 00 00 03 02 8F 4E", 18, 19),
]

WINDOWS = [
    # The body's window ends before the body does: at the window's end, whatever stands behind it.
    ("03 02 01 00 0A 02 01 00", 1, 16),
    ("03 02 01 00 0A 03 01 01 00", 1, 17),
    ("03 02 01 00 0A 04 01 01 00 0B", 1, 17),
    ("03 03 02 00 00 0A 07 02 02 00 01 02 00 0B", 1, 19),
    # The body does not fill its window.
    ("03 02 01 00 0A 05 01 03 00 0B 0B", 14, 18),
    ("03 02 01 00 0A 06 01 04 00 01 0B 92", 14, 19),
    # The window passes the section's end.
    ("03 02 01 00 0A 04 01 03 00 0B", 18, 18),
    ("03 02 01 00 0A 04 01 03 92 0B 0B 01 00", 18, 18),
    ("03 02 01 00 0A 06 01 FF FF FF FF 0F", 18, 20),
    # A size that is cut, and one that is missing.
    ("03 02 01 00 0A 02 01 82 00", 18, 16),
    ("03 02 01 00 0A 01 01", 18, 15),
    # The bodies do not fill the section.
    ("03 02 01 00 0A 05 01 02 00 0B 00", 18, 18),
]

# One function, whose body has its first byte at 16; in the last rows two, of which the second begins at 20.
CONTENTS = [
    ("03 02 01 00 0A 05 01 03 00 92 0B", 5, 17),
    ("03 02 01 00 0A 05 01 03 00 06 0B", 6, 17),
    ("03 02 01 00 0A 06 01 04 01 01 7C 0B", 7, 18),
    ("03 02 01 00 0A 06 01 04 01 01 40 0B", 8, 18),
    ("03 02 01 00 0A 05 01 03 00 05 0B", 9, 17),
    ("03 02 01 00 0A 07 01 05 01 81 08 7F 0B", 11, 17),
    ("03 02 01 00 0A 09 01 07 02 80 08 7F 01 7E 0B", 11, 20),
    ("03 02 01 00 0A 07 01 05 00 0E 81 20 0B", 12, 18),
    ("03 02 01 00 0A 09 01 07 00 01 0E 81 A0 00 0B", 12, 19),
    ("03 02 01 00 0A 06 01 04 00 3F 01 0B", 13, 18),
    ("03 02 01 00 0A 07 01 05 00 11 00 01 0B", 13, 19),
    ("03 02 01 00 0A 07 01 05 00 FC 07 00 0B", 5, 17),
    ("03 02 01 00 0A 08 01 06 00 FC 0A 00 00 0B", 6, 17),
    ("03 02 01 00 0A 04 01 02 00 FC", 1, 18),
    ("03 02 01 00 0A 0A 01 08 00 41 80 80 80 80 08 0B", 3, 18),
    ("03 02 01 00 0A 0A 01 08 00 41 80 80 80 80 80 0B", 2, 18),
    ("03 03 02 00 00 0A 08 02 02 00 0B 03 00 FE 0B", 6, 21),
    ("03 03 02 00 00 0A 08 02 02 00 0B 03 00 0B 0B", 14, 22),
    ("03 03 02 00 00 0A 08 02 02 00 0B 03 00 05 0B", 9, 21),
    ("03 03 02 00 00 0A 09 02 02 00 0B 04 00 40 10 0B", 13, 22),
]

REFUSED = [
    *IDS_AND_THEIR_ORDER,
    *SIZES,
    *TYPES,
    *IMPORTS,
    *TABLES_AND_MEMORIES,
    *GLOBALS,
    *EXPORTS_AND_SEGMENTS,
    *COUNTS,
    *WINDOWS,
    *CONTENTS,
]


# What the program prints of the parts.


def some(value):
    return "None" if value is None else f"Some({value})"


def items(*those):
    return "Items { items: [%s] }" % ", ".join(map(str, those))


def name(text):
    return 'Name { text: "%s" }' % text


def function_type(params, result):
    return f"FuncType {{ params: {items(*params)}, result: {some(result)} }}"


def limits(least, most):
    return f"Limits {{ least: {least}, most: {some(most)} }}"


def constant(value, bits):
    return f"Constant {{ value: {value}, bits: {bits} }}"


def imported(origin, own, item):
    return f"Import {{ module: {name(origin)}, name: {name(own)}, item: {item} }}"


def global_item(value, mutable):
    return f"Global {{ value: {value}, mutable: {mutable} }}"


def global_of(value, mutable, first):
    return f"GlobalDef {{ value: {value}, mutable: {mutable}, first: {first} }}"


def export(own, kind, index):
    return f"Export {{ name: {name(own)}, kind: {kind}, index: {index} }}"


def element(table, offset, *functions):
    return f"ElementSegment {{ table: {table}, offset: {offset}, functions: {items(*functions)} }}"


def segment(memory, offset, *held):
    return f"ByteSegment {{ memory: {memory}, offset: {offset}, bytes: {items(*held)} }}"


def part(title, *those):
    return f"{title}: [{', '.join(map(str, those))}]; "


def body(locals_, ops, targets):
    return f"body: [{locals_}] [{ops}] [{targets}]; "


def long_body(count):
    return f"body: {count} operators; "


# Every part once, with custom sections between and behind them.
EACH_PART = (
    "01 05 01 60 01 7F 00"
    "02 07 01 01 6D 01 66 00 00"
    "03 02 01 00"
    "04 04 01 70 00 02"
    "05 04 01 01 01 03"
    "06 06 01 7E 01 42 7F 0B"
    "07 0A 01 06 5F 73 74 61 72 74 00 01"
    "08 01 01"
    "09 07 01 00 41 00 0B 01 01"
    "00 03 01 6E FF"
    "0A 06 01 04 00 20 00 0B"
    "0B 08 01 00 41 08 0B 02 68 69"
    "00 04 03 C3 A9 61"
    "00 06 01 7A 00 0B 0C 0D"
)

# Sections, and the parts that they make.
PARTS = [
    ("", ""),
    (
        EACH_PART,
        part("types", function_type(["I32"], None))
        + part("imports", imported("m", "f", "Function(0)"))
        + part("functions", 0)
        + part("tables", limits(2, None))
        + part("memories", limits(1, 3))
        + part("globals", global_of("I64", "true", constant("I64", 2**64 - 1)))
        + part("exports", export("_start", 0, 1))
        + "start: 1; "
        + part("elements", element(0, constant("I32", 0), 1))
        + body("", "LocalGet(0), End", "")
        + part("segments", segment(0, constant("I32", 8), 104, 105)),
    ),
    (
        "01 12 04 60 00 00 60 03 7F 7E 7F 01 7E 60 00 01 7F 60 00 00",
        part(
            "types",
            function_type([], None),
            function_type(["I32", "I64", "I32"], "I64"),
            function_type([], "I32"),
            function_type([], None),
        ),
    ),
    (
        "02 2C 06 01 6D 01 66 00 80 01 01 6D 00 01 70 00 90 4E 00 01 74 01 70 01 02 07 02 C3 A9 01 6E 02 00 01 "
        "01 6D 01 67 03 7E 01 00 00 03 7F 00",
        part(
            "imports",
            imported("m", "f", "Function(128)"),
            imported("m", "", f"Table({limits(10_000, None)})"),
            imported("", "t", f"Table({limits(2, 7)})"),
            imported("\u00e9", "n", f"Memory({limits(1, None)})"),
            imported("m", "g", global_item("I64", "true")),
            imported("", "", global_item("I32", "false")),
        ),
    ),
    (
        "04 0A 02 70 00 90 4E 70 01 01 91 4E 05 0C 02 00 02 01 80 80 04 FF FF FF FF 0F",
        part("tables", limits(10_000, None), limits(1, 10_001))
        + part("memories", limits(2, None), limits(65_536, 4_294_967_295)),
    ),
    (
        # That a constant has its global's type is not looked at yet.
        "06 20 04 7F 00 41 7F 0B 7F 01 41 80 88 04 0B 7E 01 42 80 80 80 80 80 80 80 80 80 7F 0B 7E 00 41 00 0B",
        part(
            "globals",
            global_of("I32", "false", constant("I32", 2**32 - 1)),
            global_of("I32", "true", constant("I32", 66_560)),
            global_of("I64", "true", constant("I64", 2**63)),
            global_of("I64", "false", constant("I32", 0)),
        ),
    ),
    (
        "07 1A 05 01 66 00 00 01 74 01 80 01 01 66 02 00 06 5F 73 74 61 72 74 03 02 00 00 07 08 02 85 00",
        part(
            "exports",
            export("f", 0, 0),
            export("t", 1, 128),
            export("f", 2, 0),
            export("_start", 3, 2),
            export("", 0, 7),
        )
        + "start: 5; ",
    ),
    (
        "09 11 02 00 41 01 0B 03 00 80 01 00 80 00 42 7E 0B 80 00 "
        "0B 12 02 00 41 80 08 0B 05 00 FF 61 0B 80 01 41 7F 0B 80 00",
        part("elements", element(0, constant("I32", 1), 0, 128, 0), element(0, constant("I64", 2**64 - 2)))
        + part(
            "segments",
            segment(0, constant("I32", 1024), 0x00, 0xFF, 0x61, 0x0B, 0x80),
            segment(1, constant("I32", 2**32 - 1)),
        ),
    ),
    (
        "03 04 02 05 80 01 0A 14 02 0B 02 02 7E 01 7F 0E 01 00 80 00 0B 85 00 00 41 07 1A 0B",
        part("functions", 5, 128)
        + body("I64, I64, I32", "BrTable { from: 0, count: 1 }, End", "0, 0")
        + body("", "ConstI32(7), Drop, End", ""),
    ),
    (
        # All sections in their order, most of them empty; before, between and behind them custom ones, of which
        # two have one name.
        "00 01 00 00 03 01 61 FF 01 01 00 02 01 00 03 01 00 00 82 80 80 80 00 01 61 04 01 00 05 81 00 00 06 01 00 "
        "07 01 00 08 01 09 09 01 00 00 06 02 C3 A9 00 0C 0B 0A 01 00 0B 02 80 00 00 03 02 C3 A9 00 01 00",
        "start: 9; ",
    ),
    # The count of data segments: as many as there are, none without a data section or with an empty one, in one byte or in several.
    (
        "08 01 09 09 01 00 0C 01 01 0A 01 00 0B 08 01 00 41 08 0B 02 68 69",
        "start: 9; " + part("segments", segment(0, constant("I32", 8), 104, 105)),
    ),
    (
        "00 01 00 0C 05 82 80 80 80 00 00 01 00 0B 0D 82 00 00 41 00 0B 00 01 42 01 0B 01 FF",
        part("segments", segment(0, constant("I32", 0)), segment(1, constant("I64", 1), 255)),
    ),
    ("0C 01 00", ""),
    ("09 01 00 0C 02 80 00 0A 01 00 00 01 00", ""),
    ("03 02 01 00 0C 01 00 0A 04 01 02 00 0B 0B 01 00", part("functions", 0) + body("", "End", "")),
    # A table index in two bytes.
    (
        "03 02 01 00 0A 08 01 06 00 11 05 80 00 0B",
        part("functions", 0) + body("", "CallIndirect(5), End", ""),
    ),
]

# Modules that a user would write first, or that a compiler made (tests/lib/whole_modules.py).
NO_TYPE = part("types", function_type([], None))
START = part("exports", export("_start", 0, 0))
CALL_TYPES = part("types", function_type(["I32"] * 4, "I32"), function_type([], None))
HOST = "wasi_snapshot_preview1"

MODULES = [
    (NOTHING.hex(), NO_TYPE + part("functions", 0) + START + body("", "End", "")),
    (UNREACHABLE.hex(), NO_TYPE + part("functions", 0) + START + body("", "Unreachable, End", "")),
    (ENDLESS.hex(), NO_TYPE + part("functions", 0) + START + long_body(4)),
    (
        MOST_FRAMES.hex(),
        part("types", function_type([], None), function_type(["I32"], None))
        + part("functions", 0, 1)
        + START
        + body("", "ConstI32(4094), Call(1), End", "")
        + long_body(8),
    ),
    (PAGE_FILLER.hex(), NO_TYPE + part("functions", 0) + part("memories", limits(1, None)) + START + long_body(13)),
    (
        ECHO.hex(),
        CALL_TYPES
        + part("imports", imported(HOST, "fd_read", "Function(0)"), imported(HOST, "fd_write", "Function(0)"))
        + part("functions", 1)
        + part("memories", limits(2, None))
        + part("globals", global_of("I32", "true", constant("I32", 66_560)))
        + part("exports", export("memory", 2, 0), export("_start", 0, 2))
        + long_body(49),
    ),
    (
        ZERO_READER.hex(),
        CALL_TYPES
        + part("imports", imported(HOST, "fd_write", "Function(0)"))
        + part("functions", 1)
        + part("memories", limits(1, None))
        + part("exports", export("_start", 0, 1))
        + long_body(13),
    ),
]


def refused(number, place):
    return "refusal %d at byte %d: %s" % (number, place, TEXTS[number])


def rows():
    for sections, made in PARTS:
        yield HEADER + sections, made + "end"
    for spelling, made in MODULES:
        yield spelling, made + "end"
    for spelling, number, place in HEADERS:
        yield spelling, refused(number, place)
    for sections, number, place in REFUSED:
        yield HEADER + sections, refused(number, place)


def files():
    spelt, printed = zip(*rows())
    return tables.text(line.replace(" ", "").lower() for line in spelt), tables.text(printed)


if __name__ == "__main__":
    sys.exit(tables.main("module", files, sys.argv[1:]))
