"""Fresh states: modules, and the state in which each begins, computed from the standard alone (WebAssembly Core 1.0, section 4.5.4).

Nothing here is taken from the repository's code. A case is a line `fresh MODULE PAGES`, which asks for the state in which the module
begins that is given so many pages, on a vessel of as many. It is told part by part: the pages of the strip and of the memory; the
body and the place at which the code rests, which are the last operator of `_start`; the sizes of the stacks, which are empty; the
globals as unsigned numbers; the table, with `-` for an element that is not set; each byte of the strip that is not zero, with its
address; and the bodies that are to be entered, which are those of the start function and of `_start`. Bodies count from 0, without the
imported functions.
"""

from lib import interpreter, module_validator
from lib.interpreter import PAGE
from lib.module_writer import body, module, number, signed, text

WASI = text("16") + b"wasi_snapshot_preview1"
TYPES = ["60 00 00", "60 01 7F 00", "60 01 7F 01 7F"]
EXIT = WASI + b"\x09proc_exit\x00\x01"


def exported(index):
    return [b"\x06_start\x00" + number(index)]


def data(at, content):
    return b"\x00\x41" + signed(at) + b"\x0b" + number(len(content)) + content


def elements(at, *functions):
    return b"\x00\x41" + signed(at) + b"\x0b" + number(len(functions)) + b"".join(map(number, functions))


def constant(kind, mutable, value):
    return bytes([kind, mutable, 0x41 if kind == 0x7F else 0x42]) + signed(value) + b"\x0b"


def program(bodies=("",), entry=0, **parts):
    return module(types=TYPES, bodies=list(bodies), exports=exported(entry), **parts)


GLOBALS = [constant(0x7F, 0, 5), constant(0x7F, 1, -1), constant(0x7E, 1, -1), constant(0x7E, 0, 2**40 + 3), constant(0x7F, 1, -(2**31))]
ALL = {
    "imports": [EXIT, EXIT],
    "functions": ["00", "02", "00"],
    "bodies": ["01 01", "20 00", body("02 40 01 0B 41 01 1A", "02 01 7F 01 7E")],
    "entry": 4,
    "tables": ["70 01 06 08"],
    "memories": ["01 02 03"],
    "global_items": GLOBALS,
    "start": "02",
    "elements": [elements(1, 0, 1, 2), elements(3, 3, 4)],
    "segments": [data(10, bytes(range(1, 9))), data(12, b"\xff\x00\xfe"), data(PAGE - 2, b"\x11\x22\x33"), data(2 * PAGE - 1, b"\x77")],
}

# a module, and the pages that it is given
ROWS = [
    (program(), 1),
    (program(), 5),
    (program(["01 02 40 03 40 0C 01 0B 0B 02 40 41 00 0E 02 00 00 00 0B"]), 2),
    (program(["", "01", "01 01"], 1), 3),
    (program(["", "01", "01 01"], 1, start="02"), 1),
    (program(["01"], start="00"), 1),
    (program(["", "01"], 2, imports=[EXIT]), 1),
    (program(["", "01"], 1, imports=[EXIT], start="02"), 1),
    (program(memories=["00 00"]), 1),
    (program(memories=["00 01"]), 1),
    (program(memories=["00 01"]), 4),
    (program(memories=["01 02 02"]), 2),
    (program(memories=["00 01"], segments=[data(0, b"\x01"), data(PAGE - 1, b"\x02"), data(PAGE, b""), data(7, bytes(9))]), 1),
    (program(memories=["00 01"], segments=[data(100, b"abcdef"), data(102, b"XY"), data(98, b"zzz")]), 3),
    (program(memories=["00 01"], segments=[data(102, b"XY"), data(98, b"zzz"), data(100, b"abcdef")]), 3),
    (program(tables=["70 00 00"]), 1),
    (program(tables=["70 00 05"]), 1),
    (program(tables=["70 00 05"], elements=[elements(0, 0), elements(4, 0), elements(5)]), 1),
    (program(["", "", ""], tables=["70 01 05 09"], elements=[elements(0, 0, 1, 2), elements(1, 2, 0), elements(2, 1)]), 1),
    (program(["", "", ""], tables=["70 01 05 09"], elements=[elements(2, 1), elements(1, 2, 0), elements(0, 0, 1, 2)]), 1),
    (program(global_items=GLOBALS), 1),
    (program(global_items=[constant(0x7E, 1, number) for number in range(-20, 20)]), 1),
    (program(**ALL), 2),
    (program(**ALL), 3),
    (program(**ALL), 7),
    # The same parts in another order of the segments, and one of them left out.
    (program(**{**ALL, "segments": ALL["segments"][::-1], "elements": ALL["elements"][::-1]}), 3),
    (program(**{**ALL, "segments": ALL["segments"][1:], "elements": ALL["elements"][:1], "start": None}), 3),
]


def body_number(decoded, index):
    return index - len(decoded.imported(0))


def entries(decoded):
    return [body_number(decoded, index) for index in (decoded.start, interpreter.entry_of(decoded)[1]) if index is not None]


def memory(decoded):
    held = bytearray(interpreter.first_size(decoded.memories) * PAGE)
    for _, (_, at), content in decoded.segments:
        held[at % 2**32 : at % 2**32 + len(content)] = content
    return held


def table(decoded):
    held = ["-"] * interpreter.first_size(decoded.tables)
    for _, (_, at), functions in decoded.elements:
        held[at % 2**32 : at % 2**32 + len(functions)] = map(str, functions)
    return held


def global_values(decoded):
    return [str(constant[1] % 2 ** interpreter.BITS[kind]) for kind, _, constant in decoded.own_globals]


def state(decoded, pages):
    """The state in which a module begins, as the table tells it."""
    held, entered = memory(decoded), entries(decoded)
    rests = entered[-1]
    words = ["pages %d size %d" % (pages, len(held) // PAGE)]
    words += ["body %d place %d" % (rests, len(decoded.bodies[rests][1]) - 1), "cells 0 labels 0 frames 0 used 0"]
    words += ["globals", *global_values(decoded), "table", *table(decoded)]
    words += ["bytes", *("%d=%d" % (at, byte) for at, byte in enumerate(held) if byte), "entries", *map(str, entered)]
    return " ".join(words)


def cases():
    """The lines of the cases, each with what must be printed of it."""
    for content, pages in ROWS:
        decoded = module_validator.decode(content)
        assert module_validator.violation(decoded) is None and interpreter.link_refusal(decoded, pages) is None, (content.hex(" "), pages)
        yield "fresh %s %d" % (content.hex(), pages), state(decoded, pages)
    yield "fresh %s 1" % program(memories=["00 02"]).hex(), "no program"
    yield "fresh %s 0" % program().hex(), "no program"
