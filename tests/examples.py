#!/usr/bin/env python3
"""Runs the examples of functions through the built program, and compares reply, units and exit status.

    examples.py            runs each example as docs/FUNCTIONS.md shows it, and then on further bodies
    examples.py write      writes the files `reply`, `units` and `status` of each example, without running the program

What a function must answer to a body is computed here from what it is for, apart from its source; the units are
counted by the interpreter in Python, which was written apart from the program. The files beside an example have to agree
with both. Neither a compiler nor a tool for WebAssembly is needed.
"""

import hashlib
import json
import os
import random
import subprocess
import sys

from lib import interpreter, module_validator, usage
from lib.running import SCRIPT, TOP, Case, compare

# ---- what the functions are for


def echoed(body):
    return "reply", body


def numbered(body):
    lines = body.split(b"\n")
    if not lines[-1]:
        lines.pop()
    return "reply", b"".join(b"%6d  %s\n" % (at, line.rstrip(b" \t\r")) for at, line in enumerate(lines, 1))


def hashed(body):
    return "reply", hashlib.sha256(body).hexdigest().encode() + b"\n"


def fits(number):
    return -(2**63) <= number < 2**63


def summed(body):
    names, *lines = [line.split(b",") for line in body.removesuffix(b"\n").split(b"\n")]
    sums = [0] * len(names)
    if not body.endswith(b"\n") or len(names) > 64:
        return "exit", 2
    for line in lines:
        if len(line) != len(names) or not all(field.removeprefix(b"-").isdigit() for field in line):
            return "exit", 2
        sums = [total + int(field) for total, field in zip(sums, line)]
        if not all(fits(int(field)) for field in line) or not all(map(fits, sums)):
            return "exit", 3
    return "reply", b"".join(b"%s,%d\n" % pair for pair in zip(names, sums))


def past_blanks(text, at):
    return at + len(text[at:]) - len(text[at:].lstrip())


def picked(body):
    """The value of the first member of the name; where a name and a value end, the JSON reader of Python says."""
    name, _, text = body.decode().partition("\n")
    read = json.JSONDecoder().raw_decode
    at = past_blanks(text, text.index("{") + 1)
    while text[at] != "}":
        key, end = read(text, at)
        at = past_blanks(text, text.index(":", end) + 1)
        _, end = read(text, at)
        if key == name:
            return "reply", text[at:end].encode() + b"\n"
        at = past_blanks(text, end)
        at = past_blanks(text, at + (text[at] == ","))
    return "exit", 4


def lives(rows, y, x):
    around = sum(rows[(y + dy) % len(rows)][(x + dx) % len(rows[0])] == "#" for dy in (-1, 0, 1) for dx in (-1, 0, 1) if dy or dx)
    return around == 3 or around == 2 and rows[y][x] == "#"


def lived(body):
    generations, *rows = body.decode().split()
    rows = ["".join(".#"[cell == "#"] for cell in row) for row in rows]
    for _ in range(int(generations)):
        rows = ["".join(".#"[lives(rows, y, x)] for x in range(len(rows[0]))) for y in range(len(rows))]
    return "reply", "".join(row + "\n" for row in rows).encode()


def multiplied(left, right):
    return [[sum(x * y for x, y in zip(row, column)) % 1_000_000_007 for column in zip(*right)] for row in left]


def raised(body):
    size, exponent, *numbers = map(int, body.split())
    if not 1 <= size <= 64 or len(numbers) < size * size:
        return "exit", 2
    base = [numbers[at * size : (at + 1) * size] for at in range(size)]
    power = [[int(x == y) for x in range(size)] for y in range(size)]
    for bit in bin(exponent)[2:]:
        power = multiplied(power, power)
        if bit == "1":
            power = multiplied(power, base)
    return "reply", "".join(" ".join(map(str, row)) + "\n" for row in power).encode()


def mean(body):
    return ("reply", bytes([sum(body) // len(body)])) if body else ("trap", "unreachable")


def counted(body):
    return "reply", b"%d lines, %d words, %d bytes\n" % (body.count(b"\n"), len(body.split()), len(body))


def mean_to_two_places(body):
    if not body:
        return "exit", 2
    hundredths = (200 * sum(body) + len(body)) // (2 * len(body))
    return "reply", b"%d.%02d\n" % divmod(hundredths, 100)


def raised_letters(body):
    return "reply", body.upper()


# The characters of Unicode that have the property White_Space.
BLANKS = {*range(9, 14), 0x20, 0x85, 0xA0, 0x1680, *range(0x2000, 0x200B), 0x2028, 0x2029, 0x202F, 0x205F, 0x3000}


def tallied(body):
    try:
        text = body.decode("utf-8")
    except UnicodeDecodeError:
        return "exit", 2
    letters = [letter for letter in text if ord(letter) not in BLANKS]
    return "reply", "".join("%s %d\n" % (letter, letters.count(letter)) for letter in sorted(set(letters))).encode()


def never(_):
    return ("spent",)


PURPOSES = {
    "echo": echoed, "lines": numbered, "sha256": hashed, "csv": summed, "json": picked, "life": lived, "matrix": raised, "words": counted,
    "mean": mean_to_two_places, "upper": raised_letters, "letters": tallied, "trap": mean, "endless": never,
}  # fmt: skip

# ---- further bodies


def words(rng, letters, count):
    return bytes(rng.choice(letters) for _ in range(count))


def tables(rng):
    for columns, rows, most in ((1, 1, 9), (3, 12, 10**4), (64, 2, 10**16), (2, 5, 2**62)):
        lines = [[str(rng.randrange(-most, most)) for _ in range(columns)] for _ in range(rows)]
        yield "\n".join(",".join(line) for line in [["c%d" % at for at in range(columns)]] + lines).encode() + b"\n"
    yield from (b"a,b\n", b"\n", b"a\n-9223372036854775808\n", b"a\n9223372036854775807\n")
    yield from (b"", b"a", b"a,b\n1\n", b"a\n1,2\n", b"a\n\n", b"a\n-\n", b"a\n1.5\n", b"a\n1\n2", b",".join([b"a"] * 65) + b"\n")
    yield from (b"a\n9223372036854775808\n", b"a\n-9223372036854775809\n", b"a\n9223372036854775807\n1\n")


def documents(rng):
    values = ["0", "-1.5e3", "true", "null", '""', '"\\""', '"a\\\\"', '"}],{"', "[]", "{}", '[{"a":[1,"]"]},2]', '{"b": {"a": 1}}']
    for blank in ("", " ", " \t\r\n"):
        rng.shuffle(values)
        members = ('%s"%s"%s:%s%s%s' % (blank, name, blank, blank, value, blank) for name, value in zip("abcdefghijkl", values))
        text = "%s{%s}%s" % (blank, ",".join(members), blank)
        yield from (("%s\n%s" % (name, text)).encode() for name in ("a", "f", "l", "m"))
    yield from (b"a\n{}", b'a\n{"a":1,"a":2}', b'aa\n{"a":1, "aaa":2}', '\u00e9\n{"\u00e9":"\u00e9"}'.encode())


def boards(rng):
    for width, height, generations in ((1, 1, 1), (2, 3, 5), (9, 7, 0), (17, 5, 6), (24, 20, 3)):
        yield b"%d\n" % generations + b"".join(words(rng, b"#.", width) + b"\n" for _ in range(height))


def matrices(rng):
    for size, exponent in ((1, 0), (1, 2**32 - 1), (3, 10), (8, 3), (12, 2)):
        numbers = [[str(rng.randrange(2**32)) for _ in range(size)] for _ in range(size)]
        yield ("%d %d\n" % (size, exponent) + "\n".join(map(" ".join, numbers))).encode()
    yield from (b"0 1\n", b"65 1\n", b"2 1 1 2 3")


def further(rng):
    """Names of examples with a body each."""
    for length in (0, 1, 4095, 4096, 4097, 65536):
        yield "echo", words(rng, range(256), length)
    for count in (0, 1, 40, 500):
        yield "lines", words(rng, b"ab \t\r\n", count)
    for length in (0, 55, 56, 63, 64, 65, 119, 120, 500):
        yield "sha256", words(rng, range(256), length)
    for length in (0, 1, 1023, 1024, 1025, 5000):
        yield "upper", words(rng, range(256), length)
        yield "words", words(rng, b"ab \t\n\v\f\r\0\xff", length)
    for length in (0, 1, 2, 3, 7, 200, 5000):
        yield "mean", words(rng, range(256), length)
    yield from (("mean", body) for body in (b"\0", b"\xff" * 300, b"\0\0\1", b"\0" * 199 + b"\1"))
    for text in ("", "\u00df\u1e9e \u00df", "\u3000\u200b\u2003\x1c\x85", "\U0001f600" * 3, "".join(chr(rng.randrange(32, 0x3000)) for _ in range(300))):
        yield "letters", text.encode()
    yield from (("letters", body) for body in (b"\xff", b"a\xc3", b"\xed\xa0\x80"))
    made = {"csv": tables(rng), "json": documents(rng), "life": boards(rng), "matrix": matrices(rng)}
    yield from ((name, body) for name, bodies in made.items() for body in bodies)
    yield from (("trap", body) for body in (b"", b"\0", b"\xff\xff\0"))


# ---- the runs


def content(name, file):
    with open(os.path.join(TOP, "examples", name, file), "rb") as opened:
        return opened.read()


class Asked(Case):
    """An example with a body: the verdict is that of its purpose, and the units are those of the interpreter."""

    def __init__(self, name, body, budget=10**7):
        super().__init__(name, content(name, name + ".wasm"), body, budget)

    def wanted(self):
        verdict = PURPOSES[self.name](self.body)
        _, prices = interpreter.run(module_validator.decode(self.data), self.body, self.budget)
        return 0, interpreter.reply_text(verdict), "units %d\n" % sum(prices)


def shown(name):
    return Asked(name, content(name, "body"), int(content(name, "budget")))


def write():
    for name in PURPOSES:
        status, reply, note = shown(name).wanted()
        for file, data in (("reply", reply), ("units", note.split()[1].encode() + b"\n"), ("status", b"%d\n" % status)):
            with open(os.path.join(TOP, "examples", name, file), "wb") as opened:
                opened.write(data)


def ran_as_shown(name):
    """Whether the command of docs/FUNCTIONS.md leaves what stands beside the example, and that is what it should be."""
    folder = os.path.join("examples", name)
    line = [SCRIPT, "invoke", os.path.join(folder, name + ".wasm"), os.path.join(folder, "body"), content(name, "budget").decode().strip()]
    done = subprocess.run(line, cwd=TOP, capture_output=True, timeout=1200)
    got = done.returncode, done.stdout, done.stderr.decode()
    beside = int(content(name, "status")), content(name, "reply"), "units %d\n" % int(content(name, "units"))
    wanted = shown(name).wanted()
    if got == beside == wanted:
        return True
    print("examples/%s:\n  wanted %r\n  beside %r\n  got    %r" % (name, wanted, beside, got))
    return False


def main(arguments):
    usage.only([[], [lambda word: word == "write"]], arguments, __doc__)
    if arguments == ["write"]:
        write()
        return False
    folders = sorted(name for name in os.listdir(os.path.join(TOP, "examples")) if os.path.exists(os.path.join(TOP, "examples", name, name + ".wasm")))
    assert folders == sorted(PURPOSES), folders
    agree = [ran_as_shown(name) for name in PURPOSES]
    failed = compare([Asked(*item) for item in further(random.Random(25))])
    return not all(agree) or failed != 0


if __name__ == "__main__":
    sys.exit(main(sys.argv[1:]))
