#!/usr/bin/env python3
"""Runs the tools that make recordings, and compares what they leave with what is right.

    tools_recordings.py [PROGRAM]      PROGRAM is the built program; where none is named, that of this checkout is built where it is not

- `tools/record write`: recordings of lines, and of each wrong line the number and what is told. What is due is written out here by hand.
- `tools/record listen`: clients send through the proxy to a server that is made here; the recording has what each of them sent, and what it
  has at the limits is a recording.
- The rows of "Admission" in docs/FORMATS.md: they are reckoned here, and the program answers a recording of them with these statuses.
- Modules are found from the folder of the process on. The program names libc alone of libraries, and a copy of it runs by itself.
- docs/OPERATIONS.md: each command that stands behind `$` is run, and must say what stands below it. What the page says of units, answers
  and meters is reckoned here besides, by the interpreter in Python.
"""

import json
import os
import re
import shutil
import signal
import socket
import struct
import subprocess
import sys
import tempfile
import threading

from lib import operations_example as example
from lib import recordings, usage
from lib.recordings import begin, close, piece
from lib.running import PROGRAM, TOP, build, differs, lay
from lib.whole_modules import NOTHING

sys.path.insert(0, os.path.join(TOP, "tools"))

from recording import traffic  # noqa: E402

RECORD = os.path.join(TOP, "tools", "record")
LIMIT = 60  # seconds


def ran(words, folder, data=b""):
    """Exit status, standard output and standard error."""
    done = subprocess.run(words, cwd=folder, input=data, capture_output=True, timeout=LIMIT)
    return done.returncode, done.stdout, done.stderr.decode()


# ---- lines

CONFIG = b"""{"workers": 1, "quantum": 1, "policy": "rr", "berths": 1, "tenants": [
{"name": "ant", "port": 1, "capacity": 0, "rate": 0, "routes": [{"path": "/", "module": "m", "budget": 0, "pages": 1, "estimate": 0, "deadline": 0}]},
{"name": "bee", "port": 2, "capacity": 0, "rate": 0, "routes": [{"path": "/", "module": "m", "budget": 0, "pages": 1, "estimate": 0, "deadline": 0}]}]}"""
FILES = {"c": CONFIG, "wrong": b"{}", "body": b"\x00three\r\n"}

# lines, and the records that they spell
WRITTEN = [
    ("", []),
    ("# nothing\n\n \t\n  # nothing\n", []),
    ("begin 0 0 0", [begin(0, 0, 0)]),
    ("begin 4294967295 0 4294967295\n", [begin(2**32 - 1, 0, 2**32 - 1)]),
    ("begin 5 0 0\nbegin +0 1 2\r\n# between\nclose +7 0\nbegin 12 2 0\n", [begin(5, 0, 0), begin(5, 1, 2), close(12, 0), begin(12, 2, 0)]),
    ("begin 0 0 0\npiece 1 0", [begin(0, 0, 0), piece(1, 0, b"")]),
    ("begin 0 0 0\npiece 1 0 a  # b \\r\\n\\t\\\\\\x00\\xfF ", [begin(0, 0, 0), piece(1, 0, b"a  # b \r\n\t\\\x00\xff ")]),
    ("begin 0 0 0\npiece 1 0 \u00e9", [begin(0, 0, 0), piece(1, 0, b"\xc3\xa9")]),
    ("begin 0 0 0\nfile 1 0 body", [begin(0, 0, 0), piece(1, 0, b"\x00three\r\n")]),
    ("begin 0 0 0\nrequest 1 0 GET /a", [begin(0, 0, 0), piece(1, 0, b"GET /a HTTP/1.1\r\nHost: localhost\r\n\r\n")]),
    ("begin 0 0 0\nrequest 1 0 GET /a HTTP/1.0", [begin(0, 0, 0), piece(1, 0, b"GET /a HTTP/1.0\r\n\r\n")]),
    ("begin 0 0 0\nrequest 1 0 POST /a text ", [begin(0, 0, 0), piece(1, 0, b"POST /a HTTP/1.1\r\nHost: localhost\r\nContent-Length: 0\r\n\r\n")]),
    ("begin 0 0 0\nrequest 1 0 POST /a text a\\x00 \u00e9", [begin(0, 0, 0), piece(1, 0, b"POST /a HTTP/1.1\r\nHost: localhost\r\nContent-Length: 5\r\n\r\na\x00 \xc3\xa9")]),
    ("begin 0 0 0\nrequest 1 0 POST /a HTTP/1.0 file body\n  # a note\n\tx-tag:  1 \n\n  Connection: keep-alive\nclose +1 0",
     [begin(0, 0, 0), piece(1, 0, b"POST /a HTTP/1.0\r\nx-tag:  1\r\nConnection: keep-alive\r\nContent-Length: 8\r\n\r\n\x00three\r\n"), close(2, 0)]),
    ("begin 0 0 0\nrequest 1 0 HEAD /a?b HTTP/1.1\n  host: other", [begin(0, 0, 0), piece(1, 0, b"HEAD /a?b HTTP/1.1\r\nhost: other\r\n\r\n")]),
]  # fmt: skip

# the same where a configuration is given
NAMED = [("begin 0 0 bee\nbegin 0 1 0\nbegin 0 2 ant\nbegin 0 3 1", [begin(0, 0, 1), begin(0, 1, 0), begin(0, 2, 0), begin(0, 3, 1)])]

NUMBER = "is a number from 0 to 4294967295, and not"
# lines, and what is told of them: the number of the line, and what is wrong
FAULTS = [
    ("begin 0 0 0\n\n# c\nstart 1 0", "4: start begins no line; there are begin, request, piece, file, close"),
    ("begin 0 0", "1: it has not the shape begin MOMENT LINK TENANT"),
    ("begin 0 0 0 0", "1: no tenant has the name 0 0: no configuration is given"),
    ("begin 0  0 0", "1: it has not the shape begin MOMENT LINK TENANT"),
    ("begin x 0 0", "1: the moment %s x" % NUMBER),
    ("begin -1 0 0", "1: the moment %s -1" % NUMBER),
    ("begin 4294967296 0 0", "1: the moment %s 4294967296" % NUMBER),
    ("begin +x 0 0", "1: the moment behind + %s x" % NUMBER),
    ("begin 9 0 0\nclose +4294967287 0", "2: the moment would be 4294967296, and may be 4294967295"),
    ("begin 9 0 0\nclose 8 0", "2: the moment 8 is below that of the line before, 9"),
    ("begin 0 1 0", "1: the next connection has the link 0, and not 1"),
    ("begin 0 0 0\nbegin 0 0 0", "2: the next connection has the link 1, and not 0"),
    ("begin 0 0 ant", "1: no tenant has the name ant: no configuration is given"),
    ("piece 0 0 a", "1: no connection has begun with the link 0"),
    ("begin 0 0 0\nclose 0 0\nrequest 0 0 GET /", "3: the connection 0 is closed"),
    ("begin 0 0 0\nclose 0 0\nclose 0 0", "3: the connection 0 is closed"),
    ("begin 0 0 0\nclose 0 0 now", "2: it has not the shape close MOMENT LINK"),
    ("begin 0 0 0\npiece 0 0 a\\q", "2: \\q stands for no byte; there are \\r, \\n, \\t, \\\\ and \\xHH"),
    ("begin 0 0 0\npiece 0 0 a\\", "2: \\ stands for no byte; there are \\r, \\n, \\t, \\\\ and \\xHH"),
    ("begin 0 0 0\npiece 0 0 \\x0g", "2: \\x stands for no byte; there are \\r, \\n, \\t, \\\\ and \\xHH"),
    ("begin 0 0 0\nfile 0 0", "2: it has not the shape file MOMENT LINK NAME"),
    ("begin 0 0 0\nfile 0 0 none", "2: none cannot be read: there is no such file"),
    ("begin 0 0 0\nrequest 0 0 POST / file .", "2: . cannot be read: it is a folder"),
    ("begin 0 0 0\nrequest 0 0 GET", "2: it has not the shape request MOMENT LINK METHOD TARGET [HTTP/1.0] [text TEXT | file NAME]"),
    ("begin 0 0 0\nrequest 0 0 G(T /", "2: it has not the shape request MOMENT LINK METHOD TARGET [HTTP/1.0] [text TEXT | file NAME]"),
    ("begin 0 0 0\nrequest 0 0 GET / hello", "2: behind the target stands HTTP/1.0, text TEXT or file NAME, and not hello"),
    ("begin 0 0 0\nrequest 0 0 GET /\n  a: b\n\n  a b", "5: it is no header line, NAME: VALUE"),
    ("begin 0 0 0\nrequest 0 0 GET /\n  content-length: 5", "3: the Content-Length is counted; a request with another one is written as a piece"),
    (" begin 0 0 0", "1: a line behind blanks is a header line, and there is no request above it"),
    ("begin 0 0 0\n\n  a: b", "3: a line behind blanks is a header line, and there is no request above it"),
    (b"begin 0 0 0\n\n# \xff\n", "3: the line is no UTF-8"),
    ("".join("begin 0 %d 0\n" % link for link in range(1025)), "1025: a recording has at most 1024 connections"),
    ("begin 0 0 0\n" + "file 0 0 large\n" * 33, "33: with this line the recording has more than 33554432 bytes"),
]
NAMED_FAULTS = [
    ("begin 0 0 cat", "1: no tenant has the name cat: it has ant, bee"),
    ("begin 0 0 0\nbegin 0 1 2", "2: there is no tenant 2: the configuration has 2, from 0 on"),
]
# words, and the one line that is told
WRONG_WORDS = [
    ([], "no such words: none; --help shows those that there are"),
    (["write", "l"], "no such words: write l; --help shows those that there are"),
    (["listen", "r", "0", "1"], "no such words: listen r 0 1; --help shows those that there are"),
    (["write", "none", "r"], "none cannot be read: there is no such file"),
    (["write", "l", "."], ". cannot be written: it is a folder"),
    (["write", "l", "r", "wrong"], "wrong is refused: config 62; tools/explain check wrong says why"),
    (["lines", "c"], "c is refused: recording 70, at byte 0, record 0"),
    (["lines", "cut"], "cut is refused: recording 71, at byte 17, record 1"),
    (["listen", "r", "x", "9000", "9001"], "a tenant is a number from 0 to 63, and not x"),
    (["listen", "r", "0", "0", "9001"], "0 is no port from 1 to 65535, nor HOST:PORT"),
    (["--seconds", "0", "listen", "r", "0", "9000", "9001"], "--seconds is a number above 0, and not 0"),
]


def with_lines(folder):
    """Each file of lines with the recording that it must make, or what must be told, and what came of it."""
    target = os.path.join(folder, "r")
    cases = [(text, records, []) for text, records in WRITTEN] + [(text, records, ["c"]) for text, records in NAMED]
    for text, records, more in cases:
        lay(folder, {"l": text.encode()})
        done = ran([RECORD, "write", "l", "r", *more], folder)
        with open(target, "rb") as file:
            data = file.read()
        yield repr(text[:60]), ((0, b"", ""), recordings.recording(records)), (done, data)
        # The lines of a recording make it again.
        _, lines, _ = ran([RECORD, "lines", "r"], folder)
        again = ran([RECORD, "write", "-", "r"], folder, lines)
        with open(target, "rb") as file:
            yield "the lines of %r" % text[:60], ((0, b"", ""), data), (again, file.read())
    for text, told, more in [(*fault, []) for fault in FAULTS] + [(*fault, ["c"]) for fault in NAMED_FAULTS]:
        lay(folder, {"l": text if isinstance(text, bytes) else text.encode(), "r": b"as it was"})
        done = ran([RECORD, "write", "l", "r", *more], folder)
        with open(target, "rb") as file:
            yield repr(text[:60]), ((1, b"", "record: l:%s\n" % told), b"as it was"), (done, file.read())
    lay(folder, {"l": b""})
    for words, told in WRONG_WORDS:
        yield words, (1, b"", "record: %s\n" % told), ran([RECORD, *words], folder)


def with_the_example():
    """The lines of examples/replay make its recording, and are its lines."""
    folder = os.path.join(TOP, "examples", "replay")
    with open(os.path.join(folder, "lines"), "rb") as lines, open(os.path.join(folder, "recording"), "rb") as recording:
        yield "the lines of examples/replay", (0, lines.read(), ""), ran([RECORD, "lines", "recording"], folder)
        with tempfile.TemporaryDirectory() as other:
            done = ran([RECORD, "write", os.path.join(folder, "lines"), "r"], other)
            with open(os.path.join(other, "r"), "rb") as file:
                yield "examples/replay", ((0, b"", ""), recording.read()), (done, file.read())


def with_help():
    for tool in (RECORD,):
        status, out, notes = ran([tool, "--help"], TOP)
        yield "%s --help" % tool, (0, True, ""), (status, os.path.basename(tool).encode() in out, notes)


# ---- traffic

REPLY = b"HTTP/1.1 200 OK\r\nContent-Length: 2\r\n\r\nok"


def free_port():
    with socket.socket() as found:
        found.bind(("127.0.0.1", 0))
        return found.getsockname()[1]


def answer(connection):
    """Answers each request of a client, which ends in an empty line, and closes behind one that says `close`."""
    with connection:
        data = b""
        while b"close" not in data:
            while b"\r\n\r\n" not in data:
                got = connection.recv(1 << 16)
                if not got:
                    return
                data += got
            closes, data = b"close" in data, data.partition(b"\r\n\r\n")[2]
            connection.sendall(REPLY)
            if closes:
                return


def serve(listener):
    while True:
        try:
            connection, _ = listener.accept()
        except OSError:
            return
        threading.Thread(target=answer, args=(connection,), daemon=True).start()


def asked(client, *parts):
    """Sends the parts one after another, and takes the reply."""
    for part in parts:
        client.sendall(part)
    got = b""
    while len(got) < len(REPLY):
        more = client.recv(len(REPLY) - len(got))
        if not more:
            break
        got += more
    return got


def clients(ports):
    """What three clients and one whose server is not there are answered; they come one after another, and two are there at a time."""
    first = socket.create_connection(("127.0.0.1", ports[0]), LIMIT)
    got = [asked(first, b"GET /a HTTP/1.1\r\nHost: x\r\n\r\n")]
    second = socket.create_connection(("127.0.0.1", ports[1]), LIMIT)
    got += [asked(second, b"GET /b HTTP/1.1\r\nHo", b"st: y\r\nConnection: close\r\n\r\n"), second.recv(1)]
    got += [asked(first, b"HEAD /c HTTP/1.1\r\nHost: x\r\n\r\n")]
    first.shutdown(socket.SHUT_WR)
    got += [first.recv(1)]
    lost = socket.create_connection(("127.0.0.1", ports[2]), LIMIT)
    got += [lost.recv(1)]
    last = socket.create_connection(("127.0.0.1", ports[0]), LIMIT)
    got += [asked(last, b"GET /d HTTP/1.1\r\nHost: x\r\n\r\n")]
    # The last one stays open.
    for client in (first, second, lost):
        client.close()
    return got, last


SENT = [
    (0, b"GET /a HTTP/1.1\r\nHost: x\r\n\r\nHEAD /c HTTP/1.1\r\nHost: x\r\n\r\n", True),
    (7, b"GET /b HTTP/1.1\r\nHost: y\r\nConnection: close\r\n\r\n", True),
    (2, b"", True),
    (0, b"GET /d HTTP/1.1\r\nHost: x\r\n\r\n", False),
]


def connections(records):
    """Of each connection the tenant, the bytes, and whether it was closed."""
    found = []
    for kind, _, link, *rest in (record.split(" ") for record in records):
        if kind == "begin":
            found.append((int(rest[0]), b"", False))
        else:
            tenant, data, _ = found[int(link)]
            found[int(link)] = (tenant, data + (bytes.fromhex(rest[0]) if kind == "piece" else b""), kind == "close")
    return found


def with_traffic(folder):
    """What clients are answered through the proxy, what it says, and what it records."""
    listener = socket.create_server(("127.0.0.1", 0))
    threading.Thread(target=serve, args=(listener,), daemon=True).start()
    there, nowhere, ports = listener.getsockname()[1], free_port(), [free_port() for _ in range(3)]
    places = ["0", str(ports[0]), str(there), "7", "127.0.0.1:%d" % ports[1], "127.0.0.1:%d" % there, "2", str(ports[2]), str(nowhere)]
    proxy = subprocess.Popen([RECORD, "--seconds", str(LIMIT), "listen", "r", *places], cwd=folder, stderr=subprocess.PIPE)
    end = threading.Timer(LIMIT, proxy.kill)
    end.start()
    try:
        yield "listening", b"record: recording\n", proxy.stderr.readline()
        got, last = clients(ports)
        yield "replies through the proxy", [REPLY, REPLY, b"", REPLY, b"", b"", REPLY], got
        yield "a port that is taken", (1, b"", "record: 127.0.0.1:%d cannot be listened at: address already in use\n" % ports[0]), \
            ran([RECORD, "listen", "other", *places[:3]], folder)  # fmt: skip
        proxy.send_signal(signal.SIGTERM)
        told = "record: 127.0.0.1:%d cannot be reached: connection refused\nrecord: 4 connections, %d bytes\n"
        yield "what the proxy says", (told % (nowhere, sum(len(data) for _, data, _ in SENT)), 0), (proxy.stderr.read().decode(), proxy.wait(LIMIT))
        last.close()
    finally:
        end.cancel()
        proxy.kill()
        proxy.wait(LIMIT)
        listener.close()
    with open(os.path.join(folder, "r"), "rb") as file:
        yield "what was recorded", SENT, connections(recordings.read(file.read(), 8))


def with_limits():
    """A recorder at the limits: what it has recorded is a recording, which ends where it was full."""
    told = []
    recorder = traffic.Recorder([], told.append)
    links = [recorder.begin(0) for _ in range(1026)]
    recorder.piece(5, b"late")
    full = "1024 connections are recorded; what comes from now on is passed on, and is not in it"
    yield "connections past the limit", (list(range(1024)) + [None] * 2, [full], 1024), (links, told, len(recordings.read(recorder.recording(), 1)))
    told.clear()
    recorder = traffic.Recorder([], told.append)
    link, part = recorder.begin(0), bytes(1 << 20)
    for _ in range(32):
        recorder.piece(link, part)
    recorder.piece(link, b"small")
    recorder.close(link)
    full = "the recording is full; what comes from now on is passed on, and is not in it"
    found = connections(recordings.read(recorder.recording(), 1))
    yield "bytes past the limit", ([(0, bytes(31 << 20), False)], [full], 31 << 20), (found, told, recorder.received)


# ---- the rows of a page

CAPACITY, RATE, ESTIMATES = 1000, 10, {"/a": 400, "/b": 700}


def reckoned(asked):
    """The row of each request, a moment and a path: the level before and with the estimate, what comes, and the level behind."""
    level, last, rows = 0, 0, []
    for moment, path in asked:
        if path not in ESTIMATES:
            rows.append(("", "", "404", level))
            continue
        before, last = max(0, level - RATE * (moment - last)), moment
        enters = before + ESTIMATES[path] <= CAPACITY
        level = before + ESTIMATES[path] if enters else before
        rows.append((before, before + ESTIMATES[path], "enters" if enters else "503", level))
    return rows


def with_rows(folder, program):
    """The rows of "Admission", and what the program answers to a recording of their requests, which come on a connection each."""
    with open(os.path.join(TOP, "docs", "FORMATS.md"), encoding="utf-8") as file:
        section = file.read().split("\n## Admission\n")[1].split("\n## ")[0]
    row = r"^\| (\d+) \| `(/\w+)` \| (\d*) ?\| (\d*) ?\| (enters|503|404)[^|]* \| (\d+) \|$"
    rows = [(int(moment), path, *rest) for moment, path, *rest in re.findall(row, section, re.M)]
    asked = [(moment, path) for moment, path, *_ in rows]
    yield "the rows of Admission", [tuple(map(str, row)) for row in reckoned(asked)], [tuple(row[2:]) for row in rows]
    yield "all rows are looked at", len(re.findall(r"^\| \d", section, re.M)), len(rows)
    routes = [{"path": path, "module": "nil", "budget": 10, "pages": 1, "estimate": estimate, "deadline": 5} for path, estimate in ESTIMATES.items()]
    tenant = {"name": "a", "port": 1, "capacity": CAPACITY, "rate": RATE, "routes": routes}
    config = {"workers": 1, "quantum": 10, "policy": "rr", "berths": 1, "tenants": [tenant]}
    lines = ["begin 0 %d 0" % link for link in range(len(asked))]
    lines += ["request %d %d GET %s" % (moment, link, path) for link, (moment, path) in enumerate(asked)]
    lay(folder, {"l": "\n".join(lines).encode(), "nil": NOTHING, "rows": json.dumps(config).encode()})
    yield "a recording of the rows", (0, b"", ""), ran([RECORD, "write", "l", "r", "rows"], folder)
    _, answers, note = ran([program, "replay", "rows", "r"], folder)
    admitted = sum(row[4] == "enters" for row in rows)
    yield "their summary", "requests %d admitted %d started %d turns %d units 0\n" % (len(rows), admitted, admitted, admitted), note
    statuses = {"enters": "200", "503": "503", "404": "404"}
    yield "their answers", [statuses[row[4]] for row in rows], re.findall(r"HTTP/1\.1 (\d+)", answers.decode())


def with_folders(folder, program):
    """Modules are found from the folder of the process on, and not from that of the configuration."""
    route = {"path": "/", "module": "m", "budget": 1, "pages": 1, "estimate": 0, "deadline": 1}
    tenant = {"name": "a", "port": 1, "capacity": 0, "rate": 0, "routes": [route]}
    config = json.dumps({"workers": 1, "quantum": 1, "policy": "rr", "berths": 1, "tenants": [tenant]}).encode()
    inner = os.path.join(folder, "inner")
    os.mkdir(inner)
    lay(inner, {"config": config, "m": NOTHING})
    yield "a module beside its configuration, from there", (0, b"tenants 1 routes 1\n", ""), ran([program, "check", "config"], inner)
    yield "a module beside its configuration, from above", (3, b"", "read m\n"), ran([program, "check", "inner/config"], folder)
    lay(inner, {"config": config.replace(b'"m"', json.dumps(os.path.join(inner, "m")).encode())})
    yield "a module that begins with /", (0, b"tenants 1 routes 1\n", ""), ran([program, "check", "inner/config"], folder)


# ---- the program's own file

LOAD, DYNAMIC = 1, 2
NEEDED, STRINGS = 1, 5


def needed(data):
    """The libraries that a program of ELF (64 bits, the lowest byte first) names, after the System V ABI, chapter 5."""
    start, size, count = struct.unpack_from("<Q", data, 32)[0], *struct.unpack_from("<HH", data, 54)
    segments = [struct.unpack_from("<IIQQQQ", data, start + at * size) for at in range(count)]
    entries = [struct.iter_unpack("<QQ", data[offset : offset + length]) for kind, _, offset, _, _, length in segments if kind == DYNAMIC]
    found = [entry for segment in entries for entry in segment]
    address = next(value for tag, value in found if tag == STRINGS)
    strings = next(address - at + offset for kind, _, offset, at, _, length in segments if kind == LOAD and at <= address < at + length)
    places = [strings + value for tag, value in found if tag == NEEDED]
    return [data[place : data.index(b"\0", place)].decode() for place in places]


def with_the_program(program):
    with open(program, "rb") as file:
        yield "the libraries of the program", ["libc.so.6"], needed(file.read())
    with tempfile.TemporaryDirectory() as folder:
        shutil.copy(program, os.path.join(folder, "copy"))
        done = subprocess.run(["./copy", "--version"], cwd=folder, env={}, capture_output=True, timeout=LIMIT)
        yield "a copy of the program", (0, b"Cavundel 0.1.0\n", b""), (done.returncode, done.stdout, done.stderr)


# ---- the example of docs/OPERATIONS.md


def with_page(program):
    """The page's commands are run in a folder that looks like the top of the repository."""
    with open(os.path.join(TOP, "docs", "OPERATIONS.md"), encoding="utf-8") as file:
        page = file.read()
    yield from example.with_tables(page)
    due = {
        "first.json recording >answers": example.summary(example.config("first.json")) + "\n",
        "better.json recording >answers": example.summary(example.config("better.json")) + "\n",
    }
    with tempfile.TemporaryDirectory() as folder:
        for name, target in (("sledge", program), *((name, os.path.join(TOP, name)) for name in ("examples", "tests", "tools"))):
            os.symlink(target, os.path.join(folder, name))
        found = example.commands(page)
        yield "how many commands the page has", 6, len(found)
        for command, told in found:
            _, out, notes = ran(["bash", "-c", command], folder)
            yield "docs/OPERATIONS.md: %s" % command, told, out.decode() + notes
            yield from (("what is reckoned of %s" % end, line, told) for end, line in due.items() if command.endswith(end))
        with open(os.path.join(folder, "recording"), "rb") as file:
            data = file.read()
        yield "the recording of the example", example.recording(), data
        yield "examples/operations/recording", data, example.content("recording")


def main(words):
    usage.only([[], [os.path.isfile]], words, __doc__)
    program = os.path.abspath(words[0]) if words else PROGRAM
    if not words:
        build()
    with tempfile.TemporaryDirectory() as folder:
        lay(folder, {**FILES, "large": bytes(1 << 20), "cut": recordings.recording([begin(0, 0, 0)])[:-1]})
        results = [differs(*result) for results_of in (with_lines, with_traffic) for result in results_of(folder)]
        results += [differs(*result) for results_of in (with_rows, with_folders) for result in results_of(folder, program)]
    results += [differs(*result) for results_of in (with_the_example, with_help, with_limits) for result in results_of()]
    results += [differs(*result) for results_of in (with_the_program, with_page) for result in results_of(program)]
    print("%d passed, %d failed" % (len(results) - sum(results), sum(results)))
    return any(results)


if __name__ == "__main__":
    sys.exit(main(sys.argv[1:]))
