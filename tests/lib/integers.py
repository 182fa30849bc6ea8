"""The integer operators of WebAssembly Core 1.0, section 4.3.2, and the sign extensions of Core 2.0, the same section. Nothing here
is taken from the repository's code: each operator is computed from its definition in the standard, on Python's unbounded integers.
"""


def signed(n, bits):
    return n - (1 << bits) if n >> (bits - 1) else n


def truncated_quotient(a, b):
    quotient = abs(a) // abs(b)
    return quotient if (a < 0) == (b < 0) else -quotient


def div_s(a, b, bits):
    if b == 0:
        return "by-zero"
    quotient = truncated_quotient(signed(a, bits), signed(b, bits))
    return "overflow" if quotient == 1 << (bits - 1) else quotient % (1 << bits)


def rem_s(a, b, bits):
    if b == 0:
        return "by-zero"
    x, y = signed(a, bits), signed(b, bits)
    return (x - y * truncated_quotient(x, y)) % (1 << bits)


def binary_digits(n, bits):
    return format(n, "0%db" % bits)


def rotated(a, count, bits):
    digits = binary_digits(a, bits)
    count %= bits
    return int(digits[count:] + digits[:count], 2)


RELATIONS = [
    lambda a, b, n: a == b,
    lambda a, b, n: a != b,
    lambda a, b, n: signed(a, n) < signed(b, n),
    lambda a, b, n: a < b,
    lambda a, b, n: signed(a, n) > signed(b, n),
    lambda a, b, n: a > b,
    lambda a, b, n: signed(a, n) <= signed(b, n),
    lambda a, b, n: a <= b,
    lambda a, b, n: signed(a, n) >= signed(b, n),
    lambda a, b, n: a >= b,
]

COUNTS = [
    lambda a, n: n - len(binary_digits(a, n).lstrip("0")),
    lambda a, n: n - len(binary_digits(a, n).rstrip("0")),
    lambda a, n: binary_digits(a, n).count("1"),
]

ARITHMETIC = [
    lambda a, b, n: (a + b) % (1 << n),
    lambda a, b, n: (a - b) % (1 << n),
    lambda a, b, n: (a * b) % (1 << n),
    div_s,
    lambda a, b, n: "by-zero" if b == 0 else a // b,
    rem_s,
    lambda a, b, n: "by-zero" if b == 0 else a % b,
    lambda a, b, n: a & b,
    lambda a, b, n: a | b,
    lambda a, b, n: a ^ b,
    lambda a, b, n: (a << b % n) % (1 << n),
    lambda a, b, n: (signed(a, n) >> b % n) % (1 << n),
    lambda a, b, n: a >> b % n,
    lambda a, b, n: rotated(a, b, n),
    lambda a, b, n: rotated(a, n - b % n, n),
]


def operators():
    """Each operator's byte, its function, how many bits its operands have, and whether it takes one."""
    for bits, test, count in ((32, 0x45, 0x67), (64, 0x50, 0x79)):
        yield test, lambda a, n: a == 0, bits, True
        for place, relation in enumerate(RELATIONS):
            yield test + 1 + place, relation, bits, False
        for place, counted in enumerate(COUNTS):
            yield count + place, counted, bits, True
        for place, computed in enumerate(ARITHMETIC):
            yield count + 3 + place, computed, bits, False
    yield 0xA7, lambda a, n: a % (1 << 32), 64, True
    yield 0xAC, lambda a, n: signed(a, 32) % (1 << 64), 32, True
    yield 0xAD, lambda a, n: a, 32, True
    for byte, bits, low in ((0xC0, 32, 8), (0xC1, 32, 16), (0xC2, 64, 8), (0xC3, 64, 16), (0xC4, 64, 32)):
        yield byte, lambda a, n, low=low: signed(a % (1 << low), low) % (1 << n), bits, True


def operands(bits):
    """0, 1, -1, the least, the greatest, the least's neighbours, and counts about both widths."""
    least = 1 << (bits - 1)
    return [0, 1, 2, 31, 32, 33, 63, 64, 65, least - 2, least - 1, least, least + 1, 2 * least - 2, 2 * least - 1]


# About the signs of the low 8, 16 and 32 bits, with and without a bit above them.
ABOUT_LOW_BITS = {
    32: [0x7F, 0x80, 0xFF, 0x17F, 0x7FFF, 0x8000, 0xFFFF, 0x17FFF],
    64: [0x7F, 0x80, 0xFF, 0x7FFF, 0x8000, 0x7FFFFFFF, 0x80000000, 0x17FFFFFFF],
}


def single_operands(bits):
    """The same, and those about low bits: for operators of one operand."""
    return operands(bits) + ABOUT_LOW_BITS[bits]
