"""Writes modules from their items (WebAssembly Core 1.0, chapter 5). Nothing is checked, so that a module that must be refused
can be written too.
"""

HEADER = bytes.fromhex("00 61 73 6D 01 00 00 00")


def number(value):
    """An unsigned number in its shortest spelling."""
    spelt = b""
    while value >= 0x80:
        spelt += bytes([value & 0x7F | 0x80])
        value >>= 7
    return spelt + bytes([value])


def vector(items):
    return number(len(items)) + b"".join(items)


def section(section_id, content):
    return bytes([section_id]) + number(len(content)) + content


def signed(value):
    """A signed number in its shortest spelling."""
    spelt = b""
    while not -0x40 <= value < 0x40:
        spelt += bytes([value & 0x7F | 0x80])
        value >>= 7
    return spelt + bytes([value & 0x7F])


def text(hexadecimal):
    return hexadecimal if isinstance(hexadecimal, bytes) else bytes.fromhex(hexadecimal)


def body(operators, local_types=""):
    """A body with these operators, whose last `end` is put behind them, and with groups of locals."""
    groups = local_types or "00"
    content = text(groups) + text(operators) + b"\x0b"
    return number(len(content)) + content


def module(
    types=("60 00 00",), imports=(), functions=None, tables=(), memories=(), global_items=(), exports=(), start=None, elements=(),
    bodies=(), segments=(),
):  # fmt: skip
    """A module of these items, each in bytes or in hexadecimal (a body: its bytes, or its operators in hexadecimal); each body is of type 0 where nothing else is said."""
    made = [item if isinstance(item, bytes) else body(item) for item in bodies]
    functions = ["00"] * len(made) if functions is None else functions
    lists = [(1, types), (2, imports), (3, functions), (4, tables), (5, memories), (6, global_items), (7, exports)]
    sections = [section(at, vector([text(item) for item in items])) for at, items in lists if items]
    if start is not None:
        sections.append(section(8, text(start)))
    if elements:
        sections.append(section(9, vector([text(item) for item in elements])))
    if made:
        sections.append(section(10, vector(made)))
    if segments:
        sections.append(section(11, vector([text(item) for item in segments])))
    return HEADER + b"".join(sections)


FUNCTION_IMPORT, TABLE_IMPORT, MEMORY_IMPORT = "01 61 01 66 00 00", "01 61 01 74 01 70 00 01", "01 61 01 6D 02 00 01"
FIXED_IMPORT, MUTABLE_IMPORT = "01 61 01 67 03 7E 00", "01 61 01 68 03 7F 01"
TABLE, MEMORY, FIXED, MUTABLE = "70 00 01", "00 01", "7F 00 41 00 0B", "7F 01 41 00 0B"
