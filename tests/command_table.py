#!/usr/bin/env python3
"""Commands over files and outputs in memory, and what each must leave: where each call of a command fails in turn, where names are not
held, in which pieces long texts are written, and what a gate sees of the turns of a replay.

    command_table.py [check|make]      compares crates/command_table/stdin and stdout with them, or writes them (tests/lib/tables.py)

What is due is written out here from docs/FORMATS.md, or reckoned by the interpreter in Python.
"""

import json
import sys

from lib import interpreter, module_validator, tables
from lib.replays import MODULES, Connection, Route, Tenant, configuration, due, request, spelt
from lib.whole_modules import ECHO, ENDLESS, NOTHING

PIECE, MOST_SHOWN, PERIOD = 65536, 400, 251
# Four routes with a deadline each, and a request for each at once.
ALONE, AT_ONCE = (9, 5, 5, 1), [(0, number) for number in range(4)]
TAKEN_OVER = "worker 1 took over what worker 0 began, while worker 0 was held"


CYCLE = bytes(range(PERIOD))
BIG = (CYCLE * (PIECE // PERIOD + 1))[:PIECE]


def hexadecimal(data):
    """Bytes as the program reads them, where the cycle stands once for all of its repetitions in a row."""
    parts, plain = [], b""
    while data:
        times = 0
        while data.startswith(CYCLE, times * PERIOD):
            times += 1
        if times:
            parts += [plain.hex()] * bool(plain) + ["%d*%s" % (times, CYCLE.hex())]
            plain, data = b"", data[times * PERIOD :]
        else:
            at = data.find(CYCLE)
            plain, data = (data, b"") if at < 0 else (data[:at], data[at:])
    return "+".join(parts + [plain.hex()] * bool(plain)) or "-"


def shown(data):
    return data.hex() if 0 < len(data) <= MOST_SHOWN else "-"


def mark(data):
    """The number by which the program tells bytes apart."""
    number = 0
    for byte in data:
        number = (number * 31 + byte) % 2**32
    return number


def left(status, faults, out, notes):
    return "exit %d, faults %d %d %d, out %d %d %s, notes %s" % (status, *faults, len(out), mark(out), shown(out), shown(notes))


class Block:
    """Files, and lines about them with what is printed of each."""

    def __init__(self, files):
        self.lines = ["file %s %s" % (name, hexadecimal(data)) for name, data in files.items()]
        self.printed = []

    def add(self, line, *printed):
        self.lines.append(line)
        self.printed += printed

    def run(self, words, status, out=b"", notes=b"", faults=(0, 0, 0), read="-", cut="-", noted="-"):
        self.add("run open %s %s %s %s" % (read, cut, noted, words), left(status, faults, out, notes))

    def done(self, words, reads, text, note):
        """A command that ends with status 0: each of its calls fails in turn, and none is made behind them."""
        calls = -(-len(text) // PIECE)
        for call, name in enumerate(reads):
            self.run(words, 3, b"", b"read %s\n" % name.encode(), (1, 0, 0), read=call)
        self.run(words, 0, text, note, read=len(reads), cut="%d:0" % calls, noted="%d:0" % bool(note))
        for call in range(calls):
            piece = text[call * PIECE : (call + 1) * PIECE]
            for passes in sorted({0, len(piece) - 1}):
                self.run(words, 7, text[: call * PIECE + passes], b"", (0, 1, 0), cut="%d:%d" % (call, passes))
        for passes in sorted({0, len(note) - 1} if note else ()):
            self.run(words, 7, text, note[:passes], (0, 0, 1), noted="0:%d" % passes)

    def refused(self, words, status, note, reads=0):
        """A command that is refused behind so many reads: no other is made, nor any call of the output, and a note that fails is a write fault."""
        self.run(words, status, b"", note, read=reads, cut="0:0", noted="1:0")
        for passes in (0, len(note) - 1):
            self.run(words, 7, b"", note[:passes], (0, 0, 1), noted="0:%d" % passes)

    def text(self):
        return self.lines + [""]


def single(path):
    """One connection of tenant 0 with a request for this path, and its records."""
    connection = Connection(0, [request(b"GET", path)])
    return [connection], [(0, 0, 0), (0, 0, connection.data), (0, 0, None)]


def invoked(module, body, budget):
    verdict, prices = interpreter.run(module_validator.decode(module), body, budget)
    return interpreter.reply_text(verdict), b"units %d\n" % sum(prices)


def spelling(config):
    return json.dumps(config).encode()


def small():
    """Commands whose texts take one call."""
    tenants = [Tenant(0, 0, [Route("/e", "nil", 0, 1, 0), Route("/m", "nil", 0, 1, 0)])]
    config = configuration(tenants, 1, workers=1, berths=1)
    for route, name in zip(config["tenants"][0]["routes"], ("e", "m")):
        route["module"] = name
    gone = json.loads(json.dumps(config))
    gone["tenants"][0]["routes"][1]["module"] = "gone"
    connections, records = single(b"/m")
    block = Block({"c": spelling(config), "g": spelling(gone), "e": NOTHING, "m": NOTHING, "r": spelt(records), "s": b"SLR1", "b": b""})
    status, text, note = due(tenants, 1, connections, records)
    assert status == 0
    block.done("invoke m b 10", ["m", "b"], *invoked(NOTHING, b"", 10))
    block.done("check c", ["c", "e", "m"], b"tenants 1 routes 2\n", b"")
    block.done("replay c r", ["c", "e", "m", "r"], text, note)
    block.done("soak 0 1", [], b"requests 1 admitted 1 started 1 turns 2 units 168\n", b"")
    block.done("--version", [], b"Cavundel 0.1.0\n", b"")
    block.refused("invoke m b -1", 2, b"usage\n")
    block.refused("invoke b b 10", 5, b"module 1 0 0\n", 1)
    block.refused("check b", 4, b"config 60\n", 1)
    block.refused("replay c s", 6, b"recording 71\n", 4)
    # A name that is not held, whatever was read before: no call failed, so no fault is counted.
    block.refused("invoke nofile b 10", 3, b"read nofile\n", 1)
    block.refused("invoke m nofile 10", 3, b"read nofile\n", 2)
    block.refused("check nofile", 3, b"read nofile\n", 1)
    block.refused("check g", 3, b"read gone\n", 3)
    block.refused("replay nofile r", 3, b"read nofile\n", 1)
    block.refused("replay g r", 3, b"read gone\n", 3)
    block.refused("replay c nofile", 3, b"read nofile\n", 4)
    block.add("memory 0:0 1:0", left(8, (0, 0, 0), b"", b"memory\n"))
    block.add("memory - 0:3", left(7, (0, 0, 1), b"", b"mem"))
    return block


def long_texts():
    """Commands whose texts take several calls, or just one."""
    head = len(interpreter.reply_text(("reply", BIG))) - len(BIG)
    tenants = [Tenant(10**6, 0, [Route("/echo", "echo", 10**6, 2, 1)])]
    connection = Connection(0, [request(b"POST", b"/echo", BIG)] * 3)
    records = [(0, 0, 0), *((0, 0, item.data) for _, item in connection.items), (0, 0, None)]
    files = {"echo": ECHO, "big": BIG, "fit": BIG[: PIECE - head], "over": BIG[: PIECE - head + 1]}
    block = Block({**files, "c": spelling(configuration(tenants, 10**6, workers=1, berths=1)), "r": spelt(records)})
    for name in ("big", "fit", "over"):
        block.done("invoke echo %s 100000" % name, ["echo", name], *invoked(ECHO, files[name], 10**5))
    status, text, note = due(tenants, 10**6, [connection], records)
    assert status == 0 and len(text) > 3 * PIECE
    block.done("replay c r", ["c", "echo", "r"], text, note)
    return block


def held():
    """Two workers: one goes on with what the other began."""
    tenants = [Tenant(10**6, 1000, [Route("/nil", "loop", 1000, 1, 10)])]
    connection = Connection(0, [request(b"GET", b"/nil")] * 4)
    records = [(0, 0, 0), (0, 0, connection.data), (0, 0, None)]
    status, text, note = due(tenants, 100, [connection], records)
    assert (status, note) == (0, b"requests 4 admitted 4 started 4 turns 44 units 4000\n")
    block = Block({"c": spelling(configuration(tenants, 100, workers=2, berths=4)), "loop": ENDLESS, "r": spelt(records)})
    block.add("run held - - - replay c r", left(0, (0, 0, 0), text, note), "passes 44, " + TAKEN_OVER)
    return block


def noted(policy, deadlines, asked, places):
    """One worker: the places of requests in the order of their turns. Each is asked for at a moment, and due so long behind it as its route says."""
    tenants = [Tenant(10**6, 1000, [Route("/%d" % number, "loop", 300, 1, 0) for number in range(len(deadlines))])]
    items = [(moment, request(b"GET", b"/%d" % route)) for moment, route in asked]
    connection = Connection(0, [item for _, item in items])
    records = [(0, 0, 0), *((moment, 0, item.data) for moment, item in items), (items[-1][0], 0, None)]
    status, text, note = due(tenants, 100, [connection], records)
    config = configuration(tenants, 100, workers=1, policy=policy, berths=3)
    for route, deadline in zip(config["tenants"][0]["routes"], deadlines):
        route["deadline"] = deadline
    block = Block({"c": spelling(config), "loop": ENDLESS, "r": spelt(records)})
    block.add("run noted - - - replay c r", left(status, (0, 0, 0), text, note), "places " + places)
    return block


def made():
    assert MODULES["loop"] == ENDLESS and MODULES["echo"] == ECHO
    blocks = [
        small(),
        long_texts(),
        held(),
        noted("rr", ALONE, AT_ONCE, "0 1 2 0 1 2 0 1 2 0 3 1 2 3 3 3"),
        noted("edf", ALONE, AT_ONCE, "0 1 2 1 1 1 3 3 3 3 2 2 2 0 0 0"),
        # Due at 10, 10, 6 and 13.
        noted("edf", (10, 1), [(0, 0), (0, 0), (5, 1), (12, 1)], "0 1 2 2 2 2 3 0 0 0 1 1 1 3 3 3"),
    ]
    asked = [line for block in blocks for line in block.text()]
    return tables.text(asked), tables.text(line for block in blocks for line in block.printed)


if __name__ == "__main__":
    sys.exit(tables.main("command", made, sys.argv[1:]))
