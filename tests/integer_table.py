#!/usr/bin/env python3
"""The integer operators of WebAssembly Core 1.0, section 4.3.2, and the sign extensions of Core 2.0, at boundary operands.

    integer_table.py [check|make]      compares what crates/wasm_tables/stdout has of it with the table, or writes it (tests/lib/tables.py)

What the table has, `tests/lib/integers.py` computes from the standard.
"""

import sys

from lib import tables
from lib.integers import operands, operators, single_operands

# Single rows which a reader can check by hand: the operator's byte, its operands, and what it gives. The computation above is held to them.
BY_HAND = [
    (0x45, (0,), 1),
    (0x50, (1 << 63,), 0),
    (0x67, (0,), 32),
    (0x68, (1 << 31,), 31),
    (0x79, (1,), 63),
    (0x7A, (0,), 64),
    (0x7B, ((1 << 64) - 1,), 64),
    (0xA7, (0x123456789,), 0x23456789),
    (0xAC, (1 << 31,), 0xFFFFFFFF80000000),
    (0xAD, (1 << 31,), 1 << 31),
    # the sign of the low 8, 16 and 32 bits, and no bit above them
    (0xC0, (0x7F,), 0x7F),
    (0xC0, (0x80,), 0xFFFFFF80),
    (0xC0, (0x17F,), 0x7F),
    (0xC1, (0x7FFF,), 0x7FFF),
    (0xC1, (0x8000,), 0xFFFF8000),
    (0xC2, (0xFF,), (1 << 64) - 1),
    (0xC3, (0x8000,), 0xFFFFFFFFFFFF8000),
    (0xC4, (0x80000000,), 0xFFFFFFFF80000000),
    (0xC4, (0x17FFFFFFF,), 0x7FFFFFFF),
    # lt_s and lt_u of -1 and 1, ge_s and ge_u of the least number and 0
    (0x48, (0xFFFFFFFF, 1), 1),
    (0x49, (0xFFFFFFFF, 1), 0),
    (0x59, (1 << 63, 0), 0),
    (0x5A, (1 << 63, 0), 1),
    (0x6A, (0xFFFFFFFF, 1), 0),
    (0x6B, (0, 1), 0xFFFFFFFF),
    (0x7E, (1 << 63, 2), 0),
    (0x71, (6, 3), 2),
    (0x72, (6, 3), 7),
    (0x73, (6, 3), 5),
    (0x74, (1, 33), 2),
    (0x87, (1 << 63, 63), (1 << 64) - 1),
    (0x88, (1 << 63, 63), 1),
    (0x77, ((1 << 31) + 1, 1), 3),
    (0x78, (3, 1), (1 << 31) + 1),
    # -7 by 2 is -3, and -1 remains
    (0x6D, (0xFFFFFFF9, 2), 0xFFFFFFFD),
    (0x6F, (0xFFFFFFF9, 2), 0xFFFFFFFF),
    (0x6E, (0xFFFFFFFF, 2), 0x7FFFFFFF),
    (0x70, (5, 0), "by-zero"),
    (0x80, (5, 0), "by-zero"),
    (0x6D, (1 << 31, 0xFFFFFFFF), "overflow"),
    (0x6F, (1 << 31, 0xFFFFFFFF), 0),
    (0x7F, (1 << 63, (1 << 64) - 1), "overflow"),
    (0x81, (1 << 63, (1 << 64) - 1), 0),
]


def wrong_row():
    """The first row by hand that the computation does not give."""
    known = {byte: (function, bits) for byte, function, bits, one in operators()}
    for byte, operands_by_hand, result in BY_HAND:
        function, bits = known[byte]
        if function(*operands_by_hand, bits) != result:
            return byte
    return None


def shown(result):
    return result if isinstance(result, str) else format(int(result), "x")


def table():
    for byte, function, bits, one in sorted(operators(), key=lambda operator: operator[0]):
        for a in single_operands(bits) if one else operands(bits):
            if one:
                results = [function(a, bits)]
            else:
                results = [function(a, b, bits) for b in operands(bits)]
            yield "%x %x: %s" % (byte, a, " ".join(shown(result) for result in results))


def files():
    wrong = wrong_row()
    assert wrong is None, "the operator %x does not give what was computed by hand" % wrong
    return None, tables.text(table())


if __name__ == "__main__":
    sys.exit(tables.main("integer", files, sys.argv[1:]))
