#!/usr/bin/env python3
"""Calls of the host through the built program: rows by hand, and calls at random with iovecs, bodies and replies.

Each call's result, the memory behind it and the reply are told by the module itself: it writes them into its reply or traps.
What must come of it is computed by the interpreter in Python.

    host_calls.py [COUNT [SEED]]
"""

import random
import sys

from lib import usage
from lib.host_programs import EXIT, READ, WRITE, call, const, expects, filled, laid, program, shown, through, told
from lib.interpreter import PAGE
from lib.module_writer import body, number, signed, text
from lib.running import Case, compare

# a name, the code, and the error number that the call gives; the place of the count is 2,048 where nothing else is said
def rows():
    yield "an array past the end", call(WRITE, 1, 65529, 1, 0), 21
    yield "an array at the end", call(WRITE, 1, 65528, 1, 0), 0
    yield "a bad descriptor before all else", call(WRITE, 7, 0, 1, 8), 8
    yield "too many buffers before the descriptor", call(WRITE, 7, 0, 1025, 8), 28
    yield "the most buffers", call(WRITE, 1, 0, 1024, 16384), 0
    yield "more than the most buffers", call(READ, 0, 0, 1025, 16384), 28
    yield "no buffers", call(WRITE, 1, 0, 0, 8), 0
    yield "no buffers at the end", call(WRITE, 1, PAGE, 0, 8), 0
    yield "no buffers past the end", call(WRITE, 1, PAGE + 1, 0, 8), 21
    yield "no buffers at the greatest place", call(READ, 0, 2**32 - 1, 0, 8), 21
    yield "the count's place at the end", call(WRITE, 1, 0, 0, PAGE - 4), 0
    yield "the count's place past the end", call(WRITE, 1, 0, 0, PAGE - 3), 21
    yield "the count's place at the greatest", call(READ, 0, 0, 0, 2**32 - 1), 21
    yield "an empty buffer at the end", laid(0, [(PAGE, 0)]) + call(WRITE, 1, 0, 1, 2048), 0
    yield "an empty buffer past the end", laid(0, [(PAGE + 1, 0)]) + call(WRITE, 1, 0, 1, 2048), 21
    yield "a buffer's last byte at the end", laid(0, [(PAGE - 1, 1)]) + call(WRITE, 1, 0, 1, 2048), 0
    yield "a buffer's last byte past the end", laid(0, [(PAGE - 1, 2)]) + call(READ, 0, 0, 1, 2048), 21
    yield "a buffer that wraps", laid(0, [(2**32 - 1, 2)]) + call(WRITE, 2, 0, 1, 2048), 21
    yield "a bad buffer behind a good one", laid(0, [(0, 4), (PAGE, 1)]) + call(READ, 0, 0, 2, 2048), 21
    yield "reading from 1", call(READ, 1, 0, 1, 8), 8
    yield "writing to 0", call(WRITE, 0, 0, 1, 8), 8
    yield "writing to 3", call(WRITE, 3, 0, 0, 8), 8
    yield "writing to 2", laid(0, [(0, 64)]) + call(WRITE, 2, 0, 1, 2048), 0
    yield "a whole reply", filled(65530) + laid(0, [(8, 6)]) + call(WRITE, 1, 0, 1, 2048), 0
    yield "more than a whole reply", filled(65530) + laid(0, [(8, 7)]) + call(WRITE, 1, 0, 1, 2048), 22
    yield "a whole reply and nothing", filled(65536) + laid(0, [(8, 0)]) + call(WRITE, 1, 0, 1, 2048), 0
    yield "a whole reply and writing to 2", filled(65536) + laid(0, [(8, 9)]) + call(WRITE, 2, 0, 1, 2048), 0


def by_hand():
    for name, code, errno in rows():
        yield Case(name, program(expects(code, errno)), b"some bytes")
        yield Case(name + ", told", program(told(code) + shown(2048, 4)), b"some bytes")
    # 65,537 lengths of a page make 2^32 at 2 only with 1,024 buffers of 64 pages: 64 MiB each sum to 2^32
    huge = laid(0, [(0, 2**22)] * 1024)
    yield Case("lengths that sum to 2^32", program(expects(huge + call(WRITE, 2, 0, 1024, 8192), 22), memories=["00 80 01"]))
    yield Case("lengths that sum to 2^32 in memory too small for them", program(expects(laid(0, [(0, 2**31), (0, 2**31)]) + call(WRITE, 2, 0, 2, 2048), 21)))
    bodies = [b"", b"a", bytes(range(64)), bytes(range(63)) * 4]
    for data in bodies:
        code = laid(0, [(4096, 10), (4106, 0), (4200, 200)]) + told(call(READ, 0, 0, 3, 2048)) + told(call(READ, 0, 0, 3, 2048)) + shown(2048, 4) + shown(4096, 400)
        yield Case("read twice", program(code), data)
    over = laid(0, [(0, 16), (8, 8)]) + told(call(READ, 0, 0, 2, 4)) + shown(0, 32)
    yield Case("read over the iovecs and the count", program(over), bytes(range(1, 30)))
    yield Case("write of what overlaps", program(laid(0, [(0, 16), (4, 8), (0, 16)]) + told(call(WRITE, 1, 0, 3, 0)) + shown(0, 32)))
    yield Case("a zero read", program(laid(0, [(8, 0)]) + told(call(READ, 0, 0, 1, 2048)) + shown(2048, 4)), b"abc")
    yield Case("a start function that is _start itself writes twice", program(filled(3), start=b"\x03"))
    for memories in ([], ["00 00"]):
        for function, descriptor in ((READ, 0), (WRITE, 1)):
            yield Case("no memory", program(expects(call(function, descriptor, 0, 0, 0), 21), memories=memories))
    for code in (0, 1, 2**31, 2**32 - 1):
        written = laid(0, [(1024, 3)]) + call(WRITE, 1, 0, 1, 8) + b"\x1a" + const(code) + text("10 02 00")
        yield Case("exit with %d" % code, program(written))
        yield Case("exit with %d in a callee" % code, program(text("10 04 00"), functions=("02", "02"), more=[body(written)]))
        table = {"tables": ["70 00 01"], "elements": ["00 41 00 0B 01 02"]}
        yield Case("exit with %d through the table" % code, program(const(code) + const(0) + text("11 01 00 00"), **table))
    table = {"tables": ["70 00 01"], "elements": ["00 41 00 0B 01 01"]}
    yield Case("write through the table", program(laid(0, [(1024, 70)]) + told(through(0, 0, 1, 0, 1, 8)), **table))
    yield Case("a call of another type through the table", program(const(0) + const(0) + text("11 01 00"), **table))


def budgets():
    """Calls that cost more than 1, with budgets about their price."""
    read = laid(0, [(4096, 128)]) + call(READ, 0, 0, 1, 2048) + b"\x1a" + shown(4096, 128)
    for budget in range(0, 40):
        yield Case("a read of 128 bytes", program(read), bytes(128), budget)
    for errno in (expects(call(WRITE, 7, 0, 1, 8), 8), call(EXIT, 3)):
        for budget in range(0, 12):
            yield Case("a call that costs 1", program(errno), b"", budget)
    # The same calls through the table, which has the three functions: the price is the function's alone.
    table = {"tables": ["70 00 03"], "elements": ["00 41 00 0B 03 00 01 02"]}
    for function, data, parts in ((READ, bytes(128), (0, 0, 1, 2048)), (WRITE, b"", (1, 0, 1, 2048)), (WRITE, b"", (7, 0, 1, 2048))):
        code = laid(0, [(4096, 128)]) + through(function, 0, *parts) + b"\x1a"
        for budget in range(4, 20):
            yield Case("call_indirect of function %d of the host" % function, program(code, **table), data, budget)
    for budget in range(0, 6):
        yield Case("call_indirect of proc_exit", program(through(EXIT, 1, 3), **table), b"", budget)


def at_random(rng):
    """A few calls with iovecs at random, mostly within the memory; then results and parts of the memory in the reply."""
    edge = (0, 1, 4, 60, 1000, PAGE - 20, PAGE - 8, PAGE - 1, PAGE, PAGE + 1, 2**32 - 1)
    code, data = b"", bytes(rng.randrange(256) for _ in range(rng.choice((0, 1, 63, 64, 65, 300, 5000))))
    for _ in range(rng.randrange(1, 5)):
        array, count = rng.choice((0, 8, 512, 4096, PAGE - 8, rng.randrange(PAGE))), rng.choice((0, 1, 1, 2, 3, 5))
        buffers = [
            (rng.choice(edge), rng.choice((0, 1, 8))) if rng.random() < 0.1 else (rng.randrange(0, 60000), rng.choice((0, 1, 5, 64, 200, 2000)))
            for _ in range(count)
        ]
        if array + 8 * count <= PAGE:
            code += laid(array, buffers)
        place = rng.choice((0, 4, 512, 700, 30000, PAGE - 4, PAGE - 3)) if rng.random() < 0.5 else rng.randrange(PAGE - 4)
        function = rng.choice((READ, WRITE))
        descriptor = rng.choice((0, 1, 2, 3)) if rng.random() < 0.15 else (0 if function == READ else rng.choice((1, 1, 2)))
        code += told(call(function, descriptor, array, count, place))
    for _ in range(3):
        code += shown(rng.randrange(60000), 200)
    filling = bytes(rng.randrange(256) for _ in range(500))
    segments = [b"\x00\x41" + signed(at) + b"\x0b" + number(len(filling)) + filling for at in (0, 30000, 59000)]
    return program(code, segments=segments), data


def main(words):
    usage.counts(words, __doc__)
    count, seed = [int(word) for word in words + ["300", "3"][len(words) :]]
    rng = random.Random(seed)
    cases = list(by_hand()) + list(budgets())
    for place in range(count):
        data, stdin = at_random(rng)
        cases.append(Case("calls %d of seed %d" % (place, seed), data, stdin, rng.choice((10**6, 10**6, 300))))
    return compare(cases) != 0


if __name__ == "__main__":
    sys.exit(main(sys.argv[1:]))
