#!/usr/bin/env python3
"""Runs `soak` of the built program, and compares what it says with a generator that is written from docs/FORMATS.md alone.

    soak_command.py                          builds the program where it is not built, by the script `sledge` at the top
    soak_command.py write FOLDER START COUNT writes the configuration, its modules and the recording into the folder, for `replay`

The generator makes the recording, asks the meter, and has each admitted request run by the interpreter in Python. `replay` of the
same recording, with the configuration and the modules as files, must say the same, and write the replies that the interpreter gives.
"""

import functools
import os
import struct
import sys
import tempfile

from lib import interpreter, module_validator, recordings, usage
from lib.running import build, differs, lay, run
from lib.whole_modules import ECHO, ENDLESS, NOTHING, UNREACHABLE

MULTIPLIER, INCREMENT = 6364136223846793005, 1442695040888963407
MOST_LINKS = 16
QUANTUM, BUDGET = 100, 1000
CAPACITY, RATE = 20000, 500

CONFIGURATION = b"""\
{"workers":4,"quantum":100,"policy":"rr","berths":8,"tenants":[{"name":"soak","port":8080,"capacity":20000,"rate":500,"routes":[\
{"path":"/nil","module":"m0","budget":1000,"pages":1,"estimate":10,"deadline":10},\
{"path":"/trap","module":"m1","budget":1000,"pages":1,"estimate":10,"deadline":10},\
{"path":"/loop","module":"m2","budget":1000,"pages":1,"estimate":1000,"deadline":20},\
{"path":"/echo","module":"e","budget":1000,"pages":2,"estimate":200,"deadline":20}]}]}"""

# path, file, module, pages, estimate
ROUTES = [
    ("/nil", "m0", NOTHING, 1, 10),
    ("/trap", "m1", UNREACHABLE, 1, 10),
    ("/loop", "m2", ENDLESS, 1, 1000),
    ("/echo", "e", ECHO, 2, 200),
]

REFUSED = b"HTTP/1.1 503 Service Unavailable\r\nContent-Type: text/plain\r\nContent-Length: 15\r\n\r\nadmission spent"

# words, and the line that `out` has
ROWS = [
    ("soak 0 1", "requests 1 admitted 1 started 1 turns 2 units 168"),
    ("soak 7 2000", "requests 2000 admitted 1435 started 1435 turns 2136 units 100706"),
]

USAGE = ["soak 1 0", "soak 1 4097", "soak 18446744073709551616 1", "soak x 1", "soak 1 x", "soak -1 1", "soak 1", "soak", "soak 1 1 1"]
USAGE += ["soak 1 000000000000000000001", "soak 000000000000000000001 1", "soak 1 +1", "soak 1 18446744073709551617"]

# whole runs against the generator: START and COUNT as they are written
RUNS = ["0 1", "7 2000", "007 2000", "0 16", "1 17", "2 4096", "18446744073709551615 100", "18446744073709551615 0004096"]
RUNS += ["%d %d" % (start, 1 + start * 7919 % 300) for start in range(3, 63, 3)]

# the same by `replay`
REPLAYS = [(0, 1), (7, 2000), (1, 17), (18446744073709551615, 4096)]


class Request:
    """The request of a place: its route, its body, its link and its moment."""

    def __init__(self, place, drawn, links):
        self.route = drawn % 4
        self.body = bytes((drawn + at) % 256 for at in range(drawn // 4 % 2000))
        self.link, self.moment = place % links, place // 8

    def text(self):
        head = "POST %s HTTP/1.1\r\nHost: soak\r\nContent-Length: %d\r\n\r\n" % (ROUTES[self.route][0], len(self.body))
        return head.encode() + self.body


def requests(start, count):
    state, found = start, []
    for place in range(count):
        state = (state * MULTIPLIER + INCREMENT) % 2**64
        found.append(Request(place, state // 2**33, min(count, MOST_LINKS)))
    return found


def recording(start, count):
    begun = [recordings.begin(0, link, 0) for link in range(min(count, MOST_LINKS))]
    arrived = [recordings.piece(request.moment, request.link, request.text()) for request in requests(start, count)]
    return recordings.recording(begun + arrived)


# ---- what must come of it


def admitted(asked):
    """Of each request, whether it is let in."""
    level = last = 0
    for request in asked:
        level, last = max(0, level - RATE * (request.moment - last)), request.moment
        enters = level + ROUTES[request.route][4] <= CAPACITY
        if enters:
            level += ROUTES[request.route][4]
        yield enters


@functools.lru_cache(None)
def answer(route, body):
    """The reply, the turns and the units of a request."""
    _, _, code, pages, _ = ROUTES[route]
    verdict, prices = interpreter.run(module_validator.decode(code), body, BUDGET, pages)
    return interpreter.reply_text(verdict), interpreter.turns(prices, QUANTUM), sum(prices)


def answer_to(request):
    # Only the last module reads its body.
    return answer(request.route, request.body if request.route == 3 else b"")


def summary(start, count):
    asked = requests(start, count)
    answers = [answer_to(request) for request, enters in zip(asked, admitted(asked)) if enters]
    turns, units = sum(each[1] for each in answers), sum(each[2] for each in answers)
    return "requests %d admitted %d started %d turns %d units %d" % (count, len(answers), len(answers), turns, units)


def replies(start, count):
    """The replies of all connections, as `replay` writes them."""
    asked, joined = requests(start, count), [b""] * min(count, MOST_LINKS)
    for request, enters in zip(asked, admitted(asked)):
        joined[request.link] += answer_to(request)[0] if enters else REFUSED
    return b"SLA1" + b"".join(struct.pack("<II", link, len(text)) + text for link, text in enumerate(joined))


# ---- the built program


def write(folder, start, count):
    modules = {name: code for _, name, code, _, _ in ROUTES}
    lay(folder, {"config": CONFIGURATION, "recording": recording(start, count), **modules})


def cases():
    for words, line in ROWS:
        yield words.split(), (0, line.encode() + b"\n", b"")
    for words in USAGE:
        yield words.split(), (2, b"", b"usage\n")
    for words in RUNS:
        yield ["soak"] + words.split(), (0, summary(*map(int, words.split())).encode() + b"\n", b"")


def compare():
    build()
    results = [differs(" ".join(words), wanted, run(words, ".")) for words, wanted in cases()]
    for start, count in REPLAYS:
        with tempfile.TemporaryDirectory() as folder:
            write(folder, start, count)
            wanted = (0, replies(start, count), summary(start, count).encode() + b"\n")
            results.append(differs("replay of soak %d %d" % (start, count), wanted, run(["replay", "config", "recording"], folder)))
    print("%d passed, %d failed" % (len(results) - sum(results), sum(results)))
    return any(results)


def main(words):
    usage.only([[], [lambda word: word == "write", os.path.isdir, usage.is_number, usage.is_number]], words, __doc__)
    if words:
        write(words[1], int(words[2]), int(words[3]))
        return 0
    return compare()


if __name__ == "__main__":
    sys.exit(main(sys.argv[1:]))
