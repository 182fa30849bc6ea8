#!/usr/bin/env python3
"""Runs `tools/show` on recordings and answers, and compares what it says with what is right.

    tools_show.py [PROGRAM]      PROGRAM is the built program; where none is named, that of this checkout is built where it is not

Recordings and answers are made here, and what stands in each row was written out by hand from docs/FORMATS.md; units and turns are
those of the interpreter in Python. Recordings made at random have the summary that is reckoned apart (tests/lib/replays.py).
"""

import json
import os
import random
import re
import subprocess
import sys
import tempfile

from lib import interpreter, recordings, usage
from lib.recordings import begin, close, piece, recording
from lib.replays import MODULES, ran
from lib.running import PROGRAM, TOP, build, differs, lay
from random_replays import made_case

LIMIT = 300  # seconds
SHOW = os.path.join(TOP, "tools", "show")
RANDOM_CASES, SEED = 12, 47


def ended(words, folder=None):
    """Exit status, standard output and standard error of a tool."""
    done = subprocess.run(words, cwd=folder, stdin=subprocess.DEVNULL, stdout=subprocess.PIPE, stderr=subprocess.PIPE, timeout=LIMIT)
    return done.returncode, done.stdout.decode(), done.stderr.decode()


# ---- what is shown

CONFIG = {
    "workers": 1, "quantum": 20, "policy": "rr", "berths": 1,
    "tenants": [
        {"name": "a", "port": 8080, "capacity": 100, "rate": 1, "routes": [
            {"path": "/echo", "module": "echo", "budget": 1000, "pages": 2, "estimate": 60, "deadline": 50, "content_type": "text/plain"},
            {"path": "/trap", "module": "trap", "budget": 10, "pages": 1, "estimate": 0, "deadline": 50},
            {"path": "/loop", "module": "loop", "budget": 50, "pages": 1, "estimate": 0, "deadline": 50}]},
        {"name": "b", "port": 8081, "capacity": 0, "rate": 0, "routes": [
            {"path": "/exit", "module": "exit", "budget": 10, "pages": 1, "estimate": 0, "deadline": 50},
            {"path": "/never", "module": "nil", "budget": 10, "pages": 1, "estimate": 1, "deadline": 50}]},
    ],
}  # fmt: skip
HOST = b"Host: x\r\n\r\n"
RECORDS = [
    begin(0, 0, 0),
    piece(0, 0, b"POST /echo HTTP/1.1\r\nContent-Length: 2\r\n" + HOST + b"h"),
    begin(1, 1, 1),
    piece(5, 0, b"iHEAD /echo HTTP/1.1\r\n" + HOST + b"HEAD /none HTTP/1.1\r\n" + HOST),
    piece(24, 0, b"GET /echo?x HTTP/1.1\r\n" + HOST),
    piece(25, 0, b"HEAD /echo HTTP/1.1\r\n" + HOST + b"HEAD /trap HTTP/1.1\r\n" + HOST + b"GET /trap HTTP/1.1\r\n" + HOST),
    piece(30, 1, b"GET /exit HTTP/1.1\r\n" + HOST + b"GET /never HTTP/1.1\r\n" + HOST + b"PUT /exit HTTP/1.1\r\n" + HOST),
    piece(31, 1, b"HEAD /exit HTTP/1.0\r\n\r\nnothing reads this"),
    piece(40, 0, b"GET /loop HTTP/1.1\r\n" + HOST),
    piece(41, 0, b"HEAD /echo HTTP/1.1\r\n\r\n" + HOST),
    begin(50, 2, 0),
    piece(50, 2, b"POST /echo HTTP/1.1\r\nContent-Length: 9\r\n" + HOST + b"cut"),
    begin(51, 3, 0),
    close(52, 3),
]
RECORDING = recording(RECORDS)
# item, connection, moment, request, body; tenant, route, level, admitted; status, reply; the module, its body and its budget, of an admitted one; what
ROWS = [
    (0, 0, 5, "POST /echo HTTP/1.1", 2, "a", "/echo", 0, "yes", 200, "2", ("echo", b"hi", 1000), ""),
    (1, 0, 5, "HEAD /echo HTTP/1.1", 0, "a", "/echo", 60, "no", 503, "0 of 15", None, "admission spent: 60 + 60 is above 100"),
    (2, 0, 5, "HEAD /none HTTP/1.1", 0, "a", "-", "-", "-", 404, "0 of 8", None, "no route"),
    (3, 0, 24, "GET /echo?x HTTP/1.1", 0, "a", "/echo", 41, "no", 503, "15", None, "admission spent: 41 + 60 is above 100"),
    (4, 0, 25, "HEAD /echo HTTP/1.1", 0, "a", "/echo", 40, "yes", 200, "0 of 0", ("echo", b"", 1000), ""),
    (5, 0, 25, "HEAD /trap HTTP/1.1", 0, "a", "/trap", 100, "yes", 500, "0 of 17", ("trap", b"", 10), "trap: unreachable"),
    (6, 0, 25, "GET /trap HTTP/1.1", 0, "a", "/trap", 100, "yes", 500, "17", ("trap", b"", 10), "trap: unreachable"),
    (7, 1, 30, "GET /exit HTTP/1.1", 0, "b", "/exit", 0, "yes", 500, "7", ("exit", b"", 10), "exit: 3"),
    (8, 1, 30, "GET /never HTTP/1.1", 0, "b", "/never", 0, "no", 503, "15", None, "admission spent: 0 + 1 is above 0"),
    (9, 1, 30, "PUT /exit HTTP/1.1", 0, "b", "-", "-", "-", 405, "18", None, "method not allowed"),
    (10, 1, 31, "HEAD /exit HTTP/1.0", 0, "b", "/exit", 0, "yes", 500, "0 of 7", ("exit", b"", 10), "exit: 3"),
    (11, 0, 40, "GET /loop HTTP/1.1", 0, "a", "/loop", 85, "yes", 504, "12", ("loop", b"", 50), "budget spent"),
    (12, 0, 41, "HEAD /echo HTTP/1.1", 0, "a", "-", "-", "-", 400, "0 of 17", None, "bad request: host"),
    (13, 2, "end", "POST /echo HTTP/1.1", 0, "a", "-", "-", "-", 400, "21", None, "bad request: cut body"),
]
OVERVIEW = [
    "4 connections, 14 items, moments 0 to 52",
    "connection 0: 11 bytes behind its last item, which nothing reads",
    "connection 1: 18 bytes behind its last item, which nothing reads",
]
# requests and admitted of each route; items, admitted, spent, refused, estimates, highest level of each tenant
ROUTE_COUNTS = {"/echo": (4, 2), "/trap": (2, 2), "/loop": (1, 1), "/exit": (2, 2), "/never": (1, 0)}
TENANT_COUNTS = {"a": (10, 5, 2, 3, 120, 100), "b": (4, 2, 1, 1, 0, 0)}
DEADLINES = "Which replies would have come behind their deadlines is not told: a recording has no times of computing."


def cost(run):
    """Units and turns of an admitted item, by the interpreter."""
    _, prices = ran(*run, 2)
    return sum(prices), interpreter.turns(prices, CONFIG["quantum"])


def cells(line):
    return re.split(r" {2,}", line.strip())


def texts(row):
    return [str(cell) for cell in row if cell != ""]


def due_tables():
    """The blocks of lines that `tools/show` has to write with a configuration, each line as its cells."""
    rows, costs = [], {}
    for *front, status, reply, run, what in ROWS:
        units = cost(run) if run else ("-", "-")
        rows.append(texts([*front, status, reply, *units, what]))
        if run:
            costs.setdefault(front[6], []).append(units)
    routes, tenants = [], []
    for tenant in CONFIG["tenants"]:
        mine = [each for route in tenant["routes"] for each in costs.get(route["path"], [])]
        for route in tenant["routes"]:
            spent = [units for units, _ in costs.get(route["path"], [])]
            numbers = [min(spent), sum(spent) // len(spent), max(spent), sum(spent)] if spent else ["-", "-", "-", 0]
            turns = sum(turns for _, turns in costs.get(route["path"], []))
            routes.append(texts([tenant["name"], route["path"], *ROUTE_COUNTS[route["path"]], *numbers, turns, route["estimate"], route["budget"]]))
        *counts, highest = TENANT_COUNTS[tenant["name"]]
        tenants.append(texts([tenant["name"], *counts, sum(u for u, _ in mine), sum(t for _, t in mine), highest, tenant["capacity"]]))
    both = [each for mine in costs.values() for each in mine]
    summary = "requests 14 admitted 7 started 7 turns %d units %d" % (sum(t for _, t in both), sum(u for u, _ in both))
    return [[[line] for line in OVERVIEW], rows, routes, tenants, [[summary], [DEADLINES]]]


def blocks(text):
    """Blocks of lines, which empty lines separate, each line as its cells; those in the middle without their titles."""
    found = [[cells(line) for line in block.splitlines()] for block in text.split("\n\n")]
    return [block if at in (0, len(found) - 1) else block[1:] for at, block in enumerate(found)]


def plain_rows(with_answers):
    for item, link, moment, asked, body, *_, status, reply, _, what in ROWS:
        # A HEAD has no text that says what trapped; without answers only what the bytes say is known.
        if not with_answers:
            what = what if what.startswith(("bad", "method")) else ""
        elif status == 503:
            what = "admission spent"
        elif status == 500 and reply.startswith("0 of"):
            what = "a trap or an exit code"
        yield texts([item, link, moment, asked, body, *([status, reply] if with_answers else []), what])


def show_results(program, folder):
    """What is shown of the recording above: alone, with its answers, and with its configuration."""
    lay(folder, {**MODULES, "config": json.dumps(CONFIG).encode(), "recording": RECORDING})
    status, answers, note = replayed(program, folder)
    lay(folder, {"answers": answers})
    yield differs("the replay", (0, due_tables()[-1][0][0] + "\n"), (status, note))
    for words, with_answers in ((["recording"], False), (["recording", "answers"], True)):
        status, out, notes = ended([SHOW, *words], folder)
        found = blocks(out + "\n\n")[:2]
        yield differs("show %s" % " ".join(words), (0, "", [[[line] for line in OVERVIEW], list(plain_rows(with_answers))]), (status, notes, found))
    status, out, notes = ended([SHOW, "--program", program, "recording", "answers", "config"], folder)
    yield differs("show with a configuration", (0, "", due_tables()), (status, notes, blocks(out)))


def replayed(program, folder, config="config", data="recording"):
    done = subprocess.run([program, "replay", config, data], cwd=folder, stdout=subprocess.PIPE, stderr=subprocess.PIPE, timeout=LIMIT)
    return done.returncode, done.stdout, done.stderr.decode()


def random_results(program, folder):
    """Of recordings made at random: their answers are found to be those, and the summary is the one that is due."""
    chance = random.Random(SEED)
    for at in range(RANDOM_CASES):
        case = made_case(chance, "recording %d" % at)
        lay(folder, {**MODULES, "config": json.dumps(case.config).encode(), "recording": case.data, "answers": case.wanted[1]})
        status, out, notes = ended([SHOW, "--program", program, "recording", "answers", "config"], folder)
        lines = out.splitlines()
        yield differs(case.name, (0, case.wanted[2].decode().strip(), ""), (status, lines[-2] if len(lines) > 1 else out, notes))


# ---- what is refused

ONE = begin(0, 0, 0)
# a recording, and how its refusal is told
REFUSED = {
    "magic": (b"SLR2" + bytes([0]), "recording 70"),
    "of-answers": (b"SLA1" + bytes(8), "recording 70"),
    "empty": (b"", "recording 70"),
    "no-end": (recordings.MAGIC + ONE, "recording 71 at byte 17, behind 1 record"),
    "cut-record": (recordings.MAGIC + ONE + piece(3, 0, b"hello")[:7], "recording 71 at byte 17, behind 1 record"),
    "cut-piece": (recordings.MAGIC + ONE + piece(3, 0, b"hello")[:-1], "recording 71 at byte 17, behind 1 record"),
    "kind": (recordings.MAGIC + b"\x04", "recording 72 at byte 4, behind 0 records"),
    "moment": (recording([begin(9, 0, 0), piece(8, 0, b"a")]), "recording 73 at byte 17, behind 1 record"),
    "link": (recording([begin(0, 1, 0)]), "recording 74 at byte 4, behind 0 records"),
    "closed": (recording([ONE, close(0, 0), piece(1, 0, b"a")]), "recording 74 at byte 26, behind 2 records"),
    "tenant": (recording([ONE, begin(0, 1, 2)]), "recording 75 at byte 17, behind 1 record"),
    "large": (bytes(recordings.MOST_BYTES + 1), "recording 76"),
    "links": (recording([begin(0, link, 0) for link in range(1025)]), "recording 76 at byte 13316, behind 1024 records"),
    "rest": (recording([ONE]) + b"x", "recording 78 at byte 18, behind 1 record"),
    "many": (recording([ONE, piece(0, 0, b"GET / HTTP/1.1\r\nHost: x\r\n\r\n" * 4097)]), "recording 77; it has 4097 items, and may have 4096"),
}


def refused_results(program, folder):
    for name, (data, why) in REFUSED.items():
        lay(folder, {name: data})
        yield differs(name, (1, "", "show: %s is refused: %s\n" % (name, why)), ended([SHOW, "--program", program, name, "answers", "config"], folder))


def faulty_answers(answers):
    """Answers that are none of the recording, and how that is told."""
    first = int.from_bytes(answers[8:12], "little")
    head_with_body = answers.replace(b"Content-Length: 15\r\n\r\n", b"Content-Length: 15\r\n\r\nadmission spent", 1)
    longer = head_with_body[:8] + (first + 15).to_bytes(4, "little") + head_with_body[12:]
    return {
        "answers-magic": (b"SLR1" + answers[4:], "the file does not begin with SLA1, as answers do"),
        # Connection 3 has no items: its number and its length stand alone.
        "answers-cut": (answers[:-1], "the answers end before those of connection 3; the recording has 4"),
        "answers-within": (answers[:-9], "the answers end within those of connection 2"),
        "answers-short": (answers[: 12 + first], "the answers end before those of connection 1; the recording has 4"),
        "answers-order": (answers[:4] + b"\x01" + answers[5:], "the answers of connection 0 should stand at byte 4, and connection 1 does"),
        "answers-rest": (answers + b"x", "behind the answers of 4 connections, which are all of the recording, stand 1 bytes"),
        # A HEAD whose reply had a body: the next reply is not where it should be.
        "answers-head": (longer, "connection 0 has 9 items, and no reply to item 2 of it stands at byte"),
    }


def answers_results(program, folder):
    with open(os.path.join(folder, "answers"), "rb") as file:
        answers = file.read()
    for name, (data, why) in faulty_answers(answers).items():
        lay(folder, {name: data})
        status, out, notes = ended([SHOW, "recording", name], folder)
        due = "show: %s: %s" % (name, why)
        yield differs(name, (1, "", due, 1), (status, out, notes[: len(due)], notes.count("\n")))
    other = json.loads(json.dumps(CONFIG))
    other["tenants"][0]["capacity"] = 1000
    lay(folder, {"other": json.dumps(other).encode(), "changed": answers.replace(b"\r\n\r\nhi", b"\r\n\r\nho")})
    for words, why in (
        (["answers", "other"], "the reply to item 1 has the status 503, and 200 is due"),
        (["changed", "config"], "the reply to item 0 is another one"),
    ):
        status, out, notes = ended([SHOW, "--program", program, "recording", *words], folder)
        yield differs("show %s" % " ".join(words), (1, "show: the answers are not those of this configuration: %s\n" % why), (status, notes))


def other_results(program, folder):
    """Words, files, configurations and runs that go wrong."""
    lay(folder, {"no-config": b'{"workers": 1}', "lost": json.dumps(CONFIG).replace('"echo"', '"gone"').encode(), "endless": b"#!/bin/sh\nexec sleep 60\n"})
    os.chmod(os.path.join(folder, "endless"), 0o755)
    words = ["recording", "answers"]
    shapes = "the words are RECORDING, or RECORDING ANSWERS, or RECORDING ANSWERS CONFIG; --help says more"
    for given, why in (
        ([], shapes),
        ([*words, "config", "more"], shapes),
        (["none"], "none cannot be read: there is no such file"),
        (["."], ". cannot be read: it is a folder"),
        (["recording", "none"], "none cannot be read: there is no such file"),
        ([*words, "no-config"], "no-config is refused: config 62 (tools/explain check no-config says where)"),
        (["--program", program, *words, "lost"], "the program ends with status 3 for the route /echo: read gone"),
        (["--program", "./endless", "--seconds", "0.3", *words, "config"], "the program did not end within 0.3 seconds; --seconds N gives it more"),
    ):
        yield differs("show %s" % " ".join(given), (1, "", "show: %s\n" % why), ended([SHOW, *given], folder))
    status, out, notes = ended([SHOW, "--help"])
    yield differs("show --help", (0, "Shows a recording as text", ""), (status, out[:25], notes))


# ---- the whole


def main(given):
    usage.only([[], [os.path.isfile]], given, __doc__)
    program = os.path.abspath(given[0]) if given else PROGRAM
    if not given:
        build()
    with tempfile.TemporaryDirectory() as folder, tempfile.TemporaryDirectory() as other:
        results = [*show_results(program, folder), *random_results(program, other)]
        results += [*refused_results(program, folder), *answers_results(program, folder), *other_results(program, folder)]
    print("%d passed, %d failed" % (len(results) - sum(results), sum(results)))
    return any(results)


if __name__ == "__main__":
    sys.exit(main(sys.argv[1:]))
