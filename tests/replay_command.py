#!/usr/bin/env python3
"""Replays recordings by the built program, and compares exit status, standard output and standard error.

    replay_command.py    builds the program where it is not built, by the script `sledge` at the top

Each expected text is written out here from the formats of docs/FORMATS.md.
"""

import copy
import json
import os
import sys
import tempfile

from lib import recordings, usage
from lib.replays import MODULES, Connection, Item, Route, Tenant, due, request
from lib.running import TOP, build, differs, lay, run

CONFIG = {
    "workers": 2, "quantum": 1000, "policy": "rr", "berths": 2,
    "tenants": [{"name": "a", "port": 8080, "capacity": 1000000, "rate": 1000, "routes": [
        {"path": "/echo", "module": "echo", "budget": 100000, "pages": 2, "estimate": 500, "deadline": 50, "content_type": "text/plain"},
        {"path": "/nil", "module": "nil", "budget": 10, "pages": 1, "estimate": 10, "deadline": 50},
    ]}],
}  # fmt: skip
FILLING = {
    "workers": 1, "quantum": 1000000, "policy": "rr", "berths": 1,
    "tenants": [{"name": "a", "port": 8080, "capacity": 1000000, "rate": 1000, "routes": [
        {"path": "/fill", "module": "fill", "budget": 200000, "pages": 1, "estimate": 1, "deadline": 50},
        {"path": "/zero", "module": "zero", "budget": 100, "pages": 1, "estimate": 1, "deadline": 50},
    ]}],
}  # fmt: skip
METERED = {
    "workers": 1, "quantum": 100, "policy": "rr", "berths": 1,
    "tenants": [{"name": "a", "port": 8080, "capacity": 100, "rate": 1, "routes": [
        {"path": "/nil", "module": "nil", "budget": 10, "pages": 1, "estimate": 60, "deadline": 50},
    ]}],
}  # fmt: skip

# Beside the one tenant another, whose meter lets nothing in.
TWO_TENANTS = copy.deepcopy(CONFIG)
TWO_TENANTS["tenants"].append({**CONFIG["tenants"][0], "name": "b", "port": 8081, "capacity": 0, "rate": 0})


def changed(config, **values):
    made = copy.deepcopy(config)
    made.update(values)
    return made


def reply(status, kind, body, *lines):
    text = f"HTTP/1.1 {status}\r\nContent-Type: {kind}\r\nContent-Length: {len(body)}\r\n".encode()
    return text + b"".join(line + b"\r\n" for line in lines) + b"\r\n" + body


CLOSE = b"Connection: close"
NIL = reply("200 OK", "application/octet-stream", b"")
SPENT = reply("503 Service Unavailable", "text/plain", b"admission spent")
assert len(SPENT) == 97


def answers(*connections):
    text = b"SLA1"
    for link, replies in enumerate(connections):
        text += link.to_bytes(4, "little") + len(replies).to_bytes(4, "little") + replies
    return text


def note(requests, admitted, turns, units):
    return f"requests {requests} admitted {admitted} started {admitted} turns {turns} units {units}\n".encode()


def one(*pieces):
    """One connection of tenant 0 on which these pieces arrive at moment 0."""
    return recordings.recording([recordings.begin(0, 0, 0), *(recordings.piece(0, 0, piece) for piece in pieces)])


# An echo of two bytes, then a request that closes, then bytes that are not looked at.
TWO = b"POST /echo HTTP/1.1\r\nHost: x\r\nContent-Length: 2\r\n\r\nhiGET /nil HTTP/1.1\r\nHost: x\r\nConnection: close\r\n\r\nrest"
TWO_ANSWERS = answers(reply("200 OK", "text/plain", b"hi") + reply("200 OK", "application/octet-stream", b"", CLOSE))
assert len(TWO) == 106 and len(TWO_ANSWERS) == 175

FILL_ANSWERS = answers(NIL + reply("200 OK", "application/octet-stream", bytes(16)))
FILL = one(b"GET /fill HTTP/1.1\r\nHost: x\r\n\r\nGET /zero HTTP/1.1\r\nHost: x\r\n\r\n")

# Single requests, each on a connection that then ends, with the one reply.
SINGLE = [
    ("no host", b"GET /nil HTTP/1.1\r\n\r\n", reply("400 Bad Request", "text/plain", b"bad request: host", CLOSE), 0),
    ("another method", b"PUT /nil HTTP/1.1\r\nHost: x\r\n\r\n",
     b"HTTP/1.1 405 Method Not Allowed\r\nAllow: GET, HEAD, POST\r\nContent-Type: text/plain\r\nContent-Length: 18\r\n\r\nmethod not allowed", 0),
    ("no route", b"GET /no HTTP/1.1\r\nHost: x\r\n\r\n", reply("404 Not Found", "text/plain", b"no route"), 0),
    ("too long", b"POST /nil HTTP/1.1\r\nHost: x\r\nContent-Length: 1048577\r\n\r\n",
     reply("413 Payload Too Large", "text/plain", b"payload too large", CLOSE), 0),
    ("cut body", b"POST /nil HTTP/1.1\r\nHost: x\r\nContent-Length: 5\r\n\r\nabc",
     reply("400 Bad Request", "text/plain", b"bad request: cut body", CLOSE), 0),
    ("head in absolute form", b"HEAD http://x/nil?q HTTP/1.0\r\n\r\n", reply("200 OK", "application/octet-stream", b"", CLOSE), 1),
    ("empty lines", b"\r\n\r\n", b"", None),
    ("an empty stream", b"", b"", None),
]  # fmt: skip

HEX_REFUSALS = [
    ("no end", "53 4C 52 31", 71),
    ("a moment that falls", "53 4C 52 31 01 05 00 00 00 00 00 00 00 00 00 00 00 03 04 00 00 00 00 00 00 00 00", 73),
    ("an unknown tenant", "53 4C 52 31 01 00 00 00 00 00 00 00 00 01 00 00 00 00", 75),
    ("another link", "53 4C 52 31 01 00 00 00 00 01 00 00 00 01 00 00 00 00", 74),
    ("bytes behind the end", "53 4C 52 31 00 00", 78),
    ("another magic", "53 4C 41 31 00", 70),
    ("no bytes", "", 70),
    ("an unknown kind", "53 4C 52 31 04", 72),
]


def cases():
    """Name, configuration, recording, exit status, output and notes."""
    yield "two requests", CONFIG, one(TWO), 0, TWO_ANSWERS, note(2, 2, 2, 70)
    for place in range(len(TWO) + 1):
        yield "two requests cut at %d" % place, CONFIG, one(TWO[:place], TWO[place:]), 0, TWO_ANSWERS, note(2, 2, 2, 70)
    yield "two requests byte by byte", CONFIG, one(*(TWO[at : at + 1] for at in range(len(TWO)))), 0, TWO_ANSWERS, note(2, 2, 2, 70)
    yield "two requests in short turns", changed(CONFIG, quantum=30), one(TWO), 0, TWO_ANSWERS, note(2, 2, 4, 70)
    yield "fill and zero", FILLING, FILL, 0, FILL_ANSWERS, note(2, 2, 2, 180237)
    yield "fill and zero in turns of 1", changed(FILLING, quantum=1), FILL, 0, FILL_ANSWERS, note(2, 2, 180236, 180237)
    for workers in (1, 4, 64):
        for policy in ("rr", "edf"):
            for quantum, turns in ((1, 180236), (1000000, 2)):
                config = changed(FILLING, workers=workers, berths=workers, policy=policy, quantum=quantum)
                name = "fill and zero, %d workers, %s, in turns of %d" % (workers, policy, quantum)
                yield name, config, FILL, 0, FILL_ANSWERS, note(2, 2, turns, 180237)
    asks = [recordings.piece(moment, 0, b"GET /nil HTTP/1.1\r\nHost: x\r\n\r\n") for moment in (0, 0, 19, 20)]
    metered = recordings.recording([recordings.begin(0, 0, 0), *asks])
    yield "a meter", METERED, metered, 0, answers(NIL + SPENT + SPENT + NIL), note(4, 2, 2, 0)
    yield "no connection", CONFIG, recordings.recording([]), 0, b"SLA1", note(0, 0, 0, 0)
    for name, spelling, number in HEX_REFUSALS:
        yield name, CONFIG, bytes.fromhex(spelling), 6, b"", b"recording %d\n" % number
    for name, stream, text, admitted in SINGLE:
        requests = 0 if admitted is None else 1
        yield name, CONFIG, one(stream), 0, answers(text), note(requests, admitted or 0, admitted or 0, 0)
    late = [recordings.begin(0, 0, 0), recordings.begin(0, 1, 0), recordings.piece(1, 1, b"GET /nil HTTP/1.1\r\nHost: x\r\n\r\n"),
            recordings.piece(2, 0, TWO), recordings.close(3, 0)]  # fmt: skip
    yield "the first connection last", CONFIG, recordings.recording(late), 0, answers(TWO_ANSWERS[12:], NIL), note(3, 3, 3, 70)
    flood = [recordings.begin(0, 0, 1), recordings.begin(0, 1, 0), recordings.piece(0, 0, 100 * b"GET /nil HTTP/1.1\r\nHost: x\r\n\r\n"),
             recordings.piece(0, 1, TWO)]  # fmt: skip
    yield "a neighbour's flood", TWO_TENANTS, recordings.recording(flood), 0, answers(100 * SPENT, TWO_ANSWERS[12:]), note(102, 2, 2, 70)


def record_of(words):
    kind, moment, link, rest = words[0], int(words[1]), int(words[2]), words[3:]
    what = {"begin": lambda: int(rest[0]), "piece": lambda: bytes.fromhex(rest[0].strip("-")), "close": lambda: None}[kind]()
    return moment, link, what


def example():
    """The answers to examples/replay and the note, reckoned from its configuration and from what each of its lines asks."""
    folder = os.path.join(TOP, "examples", "replay")
    with open(os.path.join(folder, "config.json"), "rb") as file:
        config = json.load(file)
    tenant = config["tenants"][0]
    routes = [Route(r["path"], r["module"], r["budget"], r["pages"], r["estimate"], r.get("content_type", "application/octet-stream"))
              for r in tenant["routes"]]  # fmt: skip
    for route in routes:
        with open(os.path.join(TOP, route.module), "rb") as file:
            MODULES[route.module] = file.read()
    first = [request(b"POST", b"/echo", b"hello"), request(b"GET", b"/none"), request(b"GET", b"/echo")]
    second = [request(b"GET", b"/trap"), request(b"POST", b"/sums", b"a,b\n1,2\n3,4\n"), request(b"HEAD", b"/echo", minor=0)]
    for item in first + second:
        item.data = item.data.replace(b"Host: x", b"Host: example")
    connections = [Connection(0, first, b"PUT /echo", Item(b"", number=1, keep=False)), Connection(0, second)]
    with open(os.path.join(folder, "recording"), "rb") as file:
        data = file.read()
    records = [record_of(line.split(" ")) for line in recordings.read(data, 1)]
    assert [b"".join(what for _, at, what in records if at == link and isinstance(what, bytes)) for link in (0, 1)] == [c.data for c in connections]
    return due([Tenant(tenant["capacity"], tenant["rate"], routes)], config["quantum"], connections, records)


REPLAY = ["replay", "config", "recording"]

# words, exit status, notes
WORDS = [
    ("replay config", 2, b"usage\n"),
    ("replay config none", 3, b"read none\n"),
    ("replay none recording", 3, b"read none\n"),
    ("replay recording recording", 4, b"config 60\n"),
    ("replay config long", 6, b"recording 76\n"),
    ("replay config most", 6, b"recording 70\n"),
    # The configuration comes before its modules, and they before the recording.
    ("replay broken none", 5, b"module 15 0 0\n"),
]


def with_files(folder):
    """Each case with its files, what it must leave, and what it leaves."""
    for name, config, recording, *wanted in cases():
        lay(folder, {"config": json.dumps(config).encode(), "recording": recording})
        yield name, tuple(wanted), run(REPLAY, folder)


def with_words(folder):
    """The same of other words beside the files of the two requests."""
    tenant = CONFIG["tenants"][0]
    broken = changed(CONFIG, tenants=[changed(tenant, routes=[changed(tenant["routes"][1], module="config")])])
    lay(folder, {"broken": json.dumps(broken).encode(), "long": bytes((32 << 20) + 1), "most": bytes(32 << 20)})
    for words, status, notes in WORDS:
        yield words, (status, b"", notes), run(words.split(" "), folder)


def with_faults(folder):
    """The same where an output is full, or where a folder stands in the place of a file that the two requests' replay reads."""
    with open("/dev/full", "wb") as full:
        yield "an output that is full", (7, None, b""), run(REPLAY, folder, stdout=full)
        yield "notes that are full", (7, TWO_ANSWERS, None), run(REPLAY, folder, stderr=full)
    for name in ("config", "echo", "nil", "recording"):
        path = os.path.join(folder, name)
        os.rename(path, path + ".kept")
        os.mkdir(path)
        yield "a read that fails of " + name, (3, b"", b"read %s\n" % name.encode()), run(REPLAY, folder)
        os.rmdir(path)
        os.rename(path + ".kept", path)


def with_the_example():
    with open(os.path.join(TOP, "examples", "replay", "answers"), "rb") as file:
        stored = file.read()
    yield "examples/replay", example(), run(["replay", "examples/replay/config.json", "examples/replay/recording"], TOP)
    yield "examples/replay/answers", example()[1], stored


def main(words):
    usage.none(words, __doc__)
    build()
    with tempfile.TemporaryDirectory() as folder:
        lay(folder, MODULES)
        results = [differs(*result) for result in with_files(folder)]
        lay(folder, {"config": json.dumps(CONFIG).encode(), "recording": one(TWO)})
        results += [differs(*result) for results_of in (with_words, with_faults) for result in results_of(folder)]
    results += [differs(*result) for result in with_the_example()]
    print("%d passed, %d failed" % (len(results) - sum(results), sum(results)))
    return any(results)


if __name__ == "__main__":
    sys.exit(main(sys.argv[1:]))
