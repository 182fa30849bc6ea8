#!/usr/bin/env python3
"""Times the examples that compute (examples/) through the built program against wabt's `wasm-interp`.

    functions.py [ROUNDS]      builds the program where it is not built, by the script `sledge` at the top

Both run the same module: that of the example, in which functions of its own stand in for the calls of the host, since
`wasm-interp` has none. They read the body from a data segment, and hash the reply. The programs run by turns, and the least
processor time of the rounds counts, without that of loading the module. It prints nanoseconds a unit and the ratios; where
`wasm-interp` (package `wabt`) is missing, the times alone.

The examples are tried before they are timed: the reply to the same body, and the hash that `wasm-interp` tells, have to be
those of what the function is for (`tests/examples.py`).
"""

import math
import os
import random
import shutil
import sys
import tempfile

TOP = os.path.join(os.path.dirname(os.path.abspath(__file__)), "..")
sys.path.insert(0, os.path.join(TOP, "tests"))

import examples  # noqa: E402
from lib import interpreter, running  # noqa: E402
from lib.module_reader import HEADER  # noqa: E402
from lib.module_validator import I32, Bytes, decode  # noqa: E402
from lib.module_writer import body, number, section, signed, text, vector  # noqa: E402

PROGRAM = running.PROGRAM
INTERP = shutil.which("wasm-interp")
PAGE = 65_536
BUDGET = str(2**40)
GOAL_OF_MEAN, GOAL_OF_EACH = 0.20, 0.25

# ---- bodies that give each function some ten million operators to run


def hashed(rng):
    return rng.randbytes(1 << 16)


def table(rng):
    lines = [b",".join(b"column%d" % at for at in range(8))]
    lines += [b",".join(b"%d" % rng.randrange(-(10**12), 10**12) for _ in range(8)) for _ in range(800)]
    return b"\n".join(lines) + b"\n"


def value(rng, depth):
    if depth == 0 or rng.random() < 0.4:
        return rng.choice(['"some \\"text\\""', "-12.5e3", "true", "null", '"%d"' % rng.randrange(10**9)])
    if rng.random() < 0.5:
        return "[%s]" % ", ".join(value(rng, depth - 1) for _ in range(4))
    return "{%s}" % ", ".join('"k%d": %s' % (at, value(rng, depth - 1)) for at in range(4))


def document(rng):
    members = ['"member%d": %s' % (at, value(rng, 4)) for at in range(1_000)]
    return ("wanted\n{%s}" % ", ".join(members + ['"wanted": [1, 2]'])).encode()


def board(rng):
    return b"25\n" + b"".join(bytes(rng.choice(b"#..") for _ in range(64)) + b"\n" for _ in range(64))


def matrix(rng):
    return b"24 100000\n" + b"\n".join(b" ".join(b"%d" % rng.randrange(10**9) for _ in range(24)) for _ in range(24))


BODIES = {"sha256": hashed, "csv": table, "json": document, "life": board, "matrix": matrix}

# ---- functions of the module in place of the calls of the host

FNV_START, FNV_PRIME = 0xCBF29CE484222325, 0x100000001B3


def fnv(data):
    value = FNV_START
    for byte in data:
        value = (value ^ byte) * FNV_PRIME % 2**64
    return value


def signed64(value):
    return signed(value - (1 << 64) if value >> 63 else value)


def reading(position, end):
    """fd_read of one buffer: copies eight bytes at a time, and then one. Locals 4 to 7: to, count, copied, from."""
    state = number(position)
    return body(
        text("20 01 28 02 00 21 04 20 01 28 02 04 22 05") + b"\x41" + signed(end) + b"\x23" + state
        + text("22 07 6B 22 06 20 05 20 06 49 1B 22 05 21 06")  # count = the lesser of the room and what is left
        + text("20 03 20 05 36 02 00") + text("20 07 20 05 6A 24") + state + text("41 00 21 06")
        + text("02 40 03 40 20 05 20 06 6B 41 08 49 0D 01 20 04 20 06 6A 20 07 20 06 6A 29 00 00 37 00 00 20 06 41 08 6A 21 06 0C 00 0B 0B")
        + text("02 40 03 40 20 05 20 06 46 0D 01 20 04 20 06 6A 20 07 20 06 6A 2D 00 00 3A 00 00 20 06 41 01 6A 21 06 0C 00 0B 0B 41 00"),
        "01 04 7F",
    )  # fmt: skip


def writing(hashing):
    """fd_write of one buffer: hashes its bytes. Locals 4 and 5: where the next byte is, and the end."""
    state = number(hashing)
    return body(
        text("20 01 28 02 00 22 04 20 01 28 02 04 6A 21 05 20 03 20 01 28 02 04 36 02 00")
        + text("02 40 03 40 20 04 20 05 46 0D 01 23") + state + text("20 04 31 00 00 85 42") + signed64(FNV_PRIME) + text("7E 24") + state
        + text("20 04 41 01 6A 21 04 0C 00 0B 0B 41 00"),
        "01 02 7F",
    )  # fmt: skip


def sections(data):
    """The contents of a module's sections by their ids, without custom ones."""
    reader, found = Bytes(data, len(HEADER)), {}
    while reader.at < len(data):
        section_id, size = reader.byte(), reader.number()
        content = reader.take(size)
        if section_id:
            found[section_id] = content
    return found


def joined(before, content, after):
    """A vector with items before and after."""
    reader = Bytes(content or b"\0")
    count = reader.number()
    return number(len(before) + count + len(after)) + b"".join(before) + (content or b"\0")[reader.at :] + b"".join(after)


def alone(data, request):
    """The module with the body in it and without imports: the places of its functions stay. It exports the hash of its reply."""
    module, parts = decode(data), sections(data)
    hosts = [(names[1], index) for _, index, names in module.imports]
    least = module.memories[0][0]
    pages = least + len(request) // PAGE + 1
    position, hashing = len(module.own_globals), len(module.own_globals) + 1
    bodies = {b"fd_read": reading(position, least * PAGE + len(request)), b"fd_write": writing(hashing), b"proc_exit": body("00")}
    edited = {
        1: joined([], parts[1], [text("60 00 01 7E")]),
        3: joined([number(index) for _, index in hosts], parts[3], [number(len(module.types))]),
        5: vector([b"\0" + number(pages)]),
        6: joined([], parts.get(6), [bytes([I32, 1, 0x41]) + signed(least * PAGE) + b"\x0b", text("7E 01 42") + signed64(FNV_START) + b"\x0b"]),
        7: joined([], parts[7], [b"\x04hash\x00" + number(len(hosts) + len(module.bodies))]),
        10: joined([bodies[name] for name, _ in hosts], parts[10], [body(b"\x23" + number(hashing))]),
        11: joined([], parts.get(11), [b"\0\x41" + signed(least * PAGE) + b"\x0b" + number(len(request)) + request]),
    }
    kept = {**parts, **edited}
    return HEADER + b"".join(section(at, kept[at]) for at in sorted(kept) if at != 2)


# ---- the runs


def seconds(words, folder):
    """The processor time that a command takes, and what it wrote."""
    usage, status, said, noted = running.measured(words, folder)
    if status != 0:
        sys.exit("%s: %r" % (" ".join(words), noted[:300]))
    return usage.ru_utime + usage.ru_stime, said, noted.decode()


def commands(name):
    """Of each program the words that load the module alone, and the words that run it."""
    ours = [PROGRAM, "invoke", name, "empty"]
    theirs = [INTERP, name]
    return [(ours + ["0"], ours + [BUDGET])] + ([(theirs, theirs + ["--run-all-exports"])] if INTERP else [])


def least(name, folder, rounds):
    """The least time of each program without that of loading the module."""
    programs = commands(name)
    times = [[math.inf, math.inf] for _ in programs]
    for _ in range(rounds):
        for place, pair in enumerate(programs):
            for part, words in enumerate(pair):
                times[place][part] = min(times[place][part], seconds(words, folder)[0])
    return [run - load for load, run in times]


def put(folder, name, data):
    with open(os.path.join(folder, name), "wb") as file:
        file.write(data)


def tried(name, folder, request):
    """Whether the example answers what it is for, and how many units its module alone takes."""
    verdict = examples.PURPOSES[name](request)
    _, reply, _ = seconds([PROGRAM, "invoke", "original", "body", BUDGET], folder)
    if reply != interpreter.reply_text(verdict):
        sys.exit("%s: the reply is not that of its purpose" % name)
    if INTERP:
        told = seconds([INTERP, name, "--run-all-exports"], folder)[1].decode().split("i64:")[1].strip()
        if int(told) % 2**64 != fnv(verdict[1]):
            sys.exit("%s: wasm-interp tells another hash of the reply" % name)
    return int(seconds([PROGRAM, "invoke", name, "empty", BUDGET], folder)[2].split()[1])


def measured(name, folder, rounds):
    """Prints the times of an example, and answers the ratio, if there is one."""
    request = BODIES[name](random.Random(name))
    original = examples.content(name, name + ".wasm")
    for file, data in (("original", original), ("body", request), (name, alone(original, request))):
        put(folder, file, data)
    units = tried(name, folder, request)
    a_unit = [taken / units * 1e9 for taken in least(name, folder, rounds)]
    line = "%-8s %11d units, %.2f ns a unit" % (name, units, a_unit[0])
    if INTERP:
        line += ", wasm-interp %.2f ns, ratio %.3f" % (a_unit[1], a_unit[0] / a_unit[1])
    print(line, flush=True)
    return a_unit[0] / a_unit[1] if INTERP else None


def main(words):
    rounds = int(words[0]) if words else 15
    running.build()
    with tempfile.TemporaryDirectory() as folder:
        put(folder, "empty", b"")
        ratios = [measured(name, folder, rounds) for name in BODIES]
    if not INTERP:
        print("wasm-interp is not installed (package wabt): no ratios")
        return
    mean = math.exp(sum(map(math.log, ratios)) / len(ratios))
    print("geometric mean of the ratios: %.3f (goal %.2f), greatest: %.3f (goal %.2f)" % (mean, GOAL_OF_MEAN, max(ratios), GOAL_OF_EACH))


if __name__ == "__main__":
    main(sys.argv[1:])
