#!/usr/bin/env python3
"""Streams of HTTP/1.1 requests by a reader of their own (tests/lib/http_reader.py), and replies by a table of their own.

The rows below are written out by hand. The program reads the streams in pieces, and nothing here is taken from it.

    http_table.py [check|make]      compares crates/server_tables/data/http and what stdout there has of it with them, or writes them (tests/lib/tables.py)
"""

import random
import re
import sys

from lib import tables
from lib.http_reader import MOST_BODY, REFUSALS, items_of, mark_of

# Replies.

OUTCOMES = (
    [("bytes", body.hex(), "200 OK", "text/html", body) for body in (b"", b"hi", b"ab\r\nc\0\xff", b"x" * 1000)]
    + [("exit", code, "500 Internal Server Error", "text/plain", b"exit: " + code.encode()) for code in ("1", "10", "4294967295")]
    + [
        ("trap", "-", "500 Internal Server Error", "text/plain", b"trap: unreachable"),
        ("spent", "-", "504 Gateway Timeout", "text/plain", b"budget spent"),
    ]
    + [("refused", str(number), status, "text/plain", body.encode()) for number, (status, body) in REFUSALS.items()]
)


def reply_rows():
    for outcome, value, status, content_type, body in OUTCOMES:
        for head in ("head", "whole"):
            for keep in ("keep", "close"):
                text = "HTTP/1.1 " + status + "\r\n"
                if status.startswith("405"):
                    text += "Allow: GET, HEAD, POST\r\n"
                text += "Content-Type: %s\r\nContent-Length: %d\r\n" % (content_type, len(body))
                if keep == "close":
                    text += "Connection: close\r\n"
                whole = (text + "\r\n").encode() + (body if head == "whole" else b"")
                yield "reply %s %s %s %s" % (outcome, value, head, keep), " " + whole.hex()


# Streams whose items are written out by hand: the stream, whether it ends, and its items.

ECHO_AND_NIL = (
    b"POST /echo HTTP/1.1\r\nHost: x\r\nContent-Length: 2\r\n\r\nhi"
    b"GET /nil HTTP/1.1\r\nHost: x\r\nConnection: close\r\n\r\nrest"
)
ECHO_AND_NIL_ITEMS = "POST /echo keep 2:%d; GET /nil close 0:0;" % (ord("h") * 31 + ord("i"))


def get(lines=b"", target=b"/", version=b"1.1", host=b"Host: x\r\n", method=b"GET"):
    return method + b" " + target + b" HTTP/" + version + b"\r\n" + host + lines + b"\r\n"


def padded(size):
    """A GET whose head has this size."""
    front, back = b"GET / HTTP/1.1\r\nHost: x\r\nPad: ", b"\r\n\r\n"
    return front + b"p" * (size - len(front) - len(back)) + back


OK = "GET / keep 0:0;"
CLOSED = "GET / close 0:0;"

ROWS = [
    (b"", False, ""),
    (b"", True, ""),
    (ECHO_AND_NIL, False, ECHO_AND_NIL_ITEMS),
    # Single requests, each on a connection that then ends.
    (b"GET /nil HTTP/1.1\r\n\r\n", True, "2 whole close;"),
    (b"PUT /nil HTTP/1.1\r\nHost: x\r\n\r\n", True, "8 whole keep;"),
    (b"GET /no HTTP/1.1\r\nHost: x\r\n\r\n", True, "GET /no keep 0:0;"),
    (b"POST /nil HTTP/1.1\r\nHost: x\r\nContent-Length: 1048577\r\n\r\n", True, "5 whole close;"),
    (b"POST /nil HTTP/1.1\r\nHost: x\r\nContent-Length: 5\r\n\r\nabc", True, "6 whole close;"),
    (b"HEAD http://x/nil?q HTTP/1.0\r\n\r\n", True, "HEAD /nil close 0:0;"),
    (b"\r\n\r\n", True, ""),
    # Empty lines alone.
    (b"\r\n" * 4095, True, ""),
    (b"\r\n" * 4095, False, ""),
    (b"\r\n" * 4096, True, "1 whole close;"),
    (b"\r\n" * 4096, False, "1 whole close;"),
    (b"\n", True, "1 whole close;"),
    (b"\r\n\r", True, "1 whole close;"),
    (b"\r\n\n\r\n" + get(), True, OK),
    # The limits of a head.
    (padded(8192), False, OK),
    (padded(8193), False, "1 whole close;"),
    (padded(8193)[:8191], False, ""),
    (padded(8193)[:8191], True, "1 whole close;"),
    (b"A" * 8192, False, "1 whole close;"),
    (get(b"A: b\r\n" * 127), False, OK),
    (get(b"A: b\r\n" * 128), True, "1 whole close;"),
    (get(b"A: b\r\n" * 128), False, ""),
    (get(b"A: b\r\n" * 128) + b"x" * 8192, False, "1 whole close;"),
    # Hosts.
    (get(b"HOST:\r\n"), True, "2 whole close;"),
    (get(host=b"hOsT : x\r\n"), True, "1 whole close;"),
    (get(host=b"", method=b"HEAD"), True, "2 head close;"),
    (get(host=b"", version=b"1.0"), True, CLOSED),
    (get(b"Host: y\r\n", version=b"1.0"), True, CLOSED),
    # Bodies.
    (get(b"Transfer-Encoding: chunked\r\nContent-Length: 3\r\n") + b"abc", True, "3 whole close;"),
    (get(b"transfer-encoding:\r\n", version=b"1.0"), True, "3 whole close;"),
    (get(b"Content-Length: +1\r\n") + b"a", True, "4 whole close;"),
    (get(b"Content-Length: -0\r\n"), True, "4 whole close;"),
    (get(b"Content-Length:\r\n"), True, "4 whole close;"),
    (get(b"Content-Length: \t \r\n"), True, "4 whole close;"),
    (get(b"Content-Length: 1 1\r\n") + b"a", True, "4 whole close;"),
    (get(b"Content-Length: 1,1\r\n") + b"a", True, "4 whole close;"),
    (get(b"Content-Length: 0x1\r\n") + b"a", True, "4 whole close;"),
    (get(b"Content-Length: 007\r\n") + b"1234567", True, "GET / keep 7:%d;" % mark_of(b"1234567")),
    (get(b"Content-Length:\t3 \r\n") + b"abc" + get(), True, "GET / keep 3:%d; " % mark_of(b"abc") + OK),
    (get(b"Content-Length: 3\r\nCONTENT-LENGTH: 3\r\n") + b"abc", True, "4 whole close;"),
    (get(b"Content-Length: 18446744073709551616\r\n"), True, "5 whole close;"),
    (get(b"Content-Length: 18446744073709551617\r\n", method=b"HEAD") + b"a", True, "5 head close;"),
    (get(b"Content-Length: 0001048577\r\n"), True, "5 whole close;"),
    (get(b"Content-Length: " + b"0" * 8000 + b"1\r\n") + b"a", True, "GET / keep 1:97;"),
    (get(b"Content-Length: " + b"9" * 8000 + b"\r\n"), True, "5 whole close;"),
    (get(b"Content-Length: 2\r\n", method=b"HEAD") + b"a", True, "6 head close;"),
    (get(b"Content-Length: 2\r\n", method=b"PUT") + b"a", True, "6 whole close;"),
    (get(b"Content-Length: 2\r\n", method=b"PUT") + b"ab" + get(), True, "8 whole keep; " + OK),
    # Targets.
    (get(target=b"/a/b?c?d/e"), True, "GET /a/b keep 0:0;"),
    (get(target=b"/?"), True, OK),
    (get(target=b"//a"), True, "GET //a keep 0:0;"),
    (get(target=b"HtTp://h:80/a?b"), True, "GET /a keep 0:0;"),
    (get(target=b"http://h"), True, OK),
    (get(target=b"http://h?a/b"), True, OK),
    (get(target=b"http:///a"), True, "7 whole close;"),
    (get(target=b"http://"), True, "7 whole close;"),
    (get(target=b"http://?a"), True, "7 whole close;"),
    (get(target=b"http:/a"), True, "7 whole close;"),
    (get(target=b"https://h/a", method=b"HEAD"), True, "7 head close;"),
    (get(target=b"*", method=b"OPTIONS"), True, "7 whole close;"),
    (get(target=b"h:80", method=b"CONNECT"), True, "7 whole close;"),
    (get(target=b"/a b"), True, "1 whole close;"),
    (get(target=b"/\xc3\xa9"), True, "7 whole close;"),
    (get(target=b"/\xc3"), True, "1 whole close;"),
    (get(target=b"/\xed\xa0\x80"), True, "1 whole close;"),
    (get(target=b"/\x7f"), True, "1 whole close;"),
    # Methods.
    (get(method=b"get"), True, "8 whole keep;"),
    (get(method=b"PUT", version=b"1.0"), True, "8 whole close;"),
    (get(b"Connection: close\r\n", method=b"DELETE") + get(), True, "8 whole close;"),
    (get(method=b"G(T"), True, "1 whole close;"),
    # Whether the connection is kept.
    (get(b"Connection: keep-alive\r\n") + get(), True, OK + " " + OK),
    (get(b"Connection: keep-alive , \t CLOSE\t\r\n") + get(), True, CLOSED),
    (get(b"Connection: closed\r\nconnection: a\r\n") + get(), True, OK + " " + OK),
    (get(b"Connection: a,,\r\nconnection:close\r\n") + get(), True, CLOSED),
    (get(b"Connection: keep-alive\r\n", version=b"1.0") + get(), True, CLOSED),
    # Line ends, folded lines, tabs and empty values.
    (get().replace(b"\r\n", b"\n"), True, OK),
    (b"GET / HTTP/1.1\nHost: x\r\n\n", True, OK),
    (b"GET / HTTP/1.1\r\nHost: x\r\r\n\r\n", True, "1 whole close;"),
    (get(b"A: b\r\n c\r\n"), True, "1 whole close;"),
    (get(b"A: b\tc\r\n"), True, OK),
    (get(b"A:\r\nB:  \r\n"), True, OK),
    (get(b"A: \x00\r\n"), True, "1 whole close;"),
    (get(b"A: \x80\xff\r\n"), True, OK),
    (get(b"A\r\n"), True, "1 whole close;"),
    (get(b": b\r\n"), True, "1 whole close;"),
    (get(version=b"1.2"), True, "1 whole close;"),
    (get(version=b"2.0"), True, "1 whole close;"),
    (b"GET  / HTTP/1.1\r\nHost: x\r\n\r\n", True, "1 whole close;"),
    (b"GET /\r\n", True, "1 whole close;"),
    # Many requests in a row.
    (get() * 100, True, " ".join([OK] * 100)),
]

# The most that a body may have, by repetition: the line, and its items.
LONG_HEAD = get(b"Content-Length: 1048576\r\n", method=b"POST")
LONG_ROWS = [
    ("ended %s+1048576*61" % LONG_HEAD.hex(), "POST / keep 1048576:%d;" % mark_of(b"a" * MOST_BODY)),
    ("ended %s 1000000*61 48576*61+%s" % (LONG_HEAD.hex(), get().hex()), "POST / keep 1048576:%d; " % mark_of(b"a" * MOST_BODY) + OK),
    ("ended %s+1048575*61" % LONG_HEAD.hex(), "6 whole close;"),
    ("open %s+1048575*61" % LONG_HEAD.hex(), ""),
    ("open 8191*41 41", "1 whole close;"),
    ("open 8191*41 42*41", "1 whole close;"),
    ("times 3 1 %s" % (get() + get(method=b"HEAD")).hex(), "6"),
]


def cut(stream, places):
    """The stream in pieces, which end at these places."""
    ends = [0] + sorted(places) + [len(stream)]
    return [stream[start:end] for start, end in zip(ends, ends[1:])]


def word_of(piece):
    """The piece as the program reads it, with long repetitions told by their count."""
    parts, start = [], 0
    for run in re.finditer(rb"(.{1,6}?)\1{15,}", piece, re.DOTALL):
        parts.append(piece[start : run.start()].hex())
        parts.append("%d*%s" % (len(run[0]) // len(run[1]), run[1].hex()))
        start = run.end()
    parts.append(piece[start:].hex())
    return "+".join(part for part in parts if part)


def line_of(pieces, ended):
    return ("ended " if ended else "open ") + " ".join(word_of(piece) for piece in pieces)


def row_lines():
    """Each row whole, and cut byte by byte or in two."""
    for stream, ended, items in ROWS:
        yield line_of([stream], ended), items
        if len(stream) < 2000:
            yield line_of(cut(stream, range(1, len(stream))), ended), items
        else:
            for place in (1, len(stream) // 2, len(stream) - 1):
                yield line_of(cut(stream, [place]), ended), items
    yield from LONG_ROWS
    for place in range(len(ECHO_AND_NIL) + 1):
        yield line_of(cut(ECHO_AND_NIL, [place]), True), ECHO_AND_NIL_ITEMS
    chance = random.Random(3)
    for _ in range(300):
        places = [chance.randrange(len(ECHO_AND_NIL) + 1) for _ in range(2)]
        yield line_of(cut(ECHO_AND_NIL, places), True), ECHO_AND_NIL_ITEMS
    for place in range(len(ECHO_AND_NIL)):
        stream = ECHO_AND_NIL[:place]
        yield line_of(cut(stream, [place // 2]), True), " ".join(items_of(stream, True))


# Streams that are made and changed at random.

METHODS = [b"GET", b"GET", b"GET", b"HEAD", b"POST", b"PUT", b"get", b"OPTIONS"]
TARGETS = [b"/", b"/a", b"/a?b", b"http://h/a", b"HTTP://h", b"http://h?q", b"*", b"/\xc3\xa9", b"/\xff", b"http://", b"//?"]
LINES = [
    b"Host: y", b"host:", b"Connection: close", b"Connection: a, Close ,b", b"connection:\tkeep-alive", b"Accept: */*",
    b"X:", b"Y: \x80", b"Z:\t a\tb \t", b"Transfer-Encoding: chunked", b"Content-Length: 3", b"Content-Length: x", b"Bad Line: 1",
]
CHANGES = b"\r\n \t:/?,.0123456789HTPhost\x00\x7f\x80\xc3\xa9GETclose"


def made_request(chance):
    ending = lambda: chance.choice([b"\r\n", b"\r\n", b"\r\n", b"\n"])
    request = b"".join(ending() for _ in range(chance.choice([0, 0, 0, 1, 2])))
    version = chance.choice([b"1.1", b"1.1", b"1.1", b"1.0", b"1.2"] if chance.random() < 0.2 else [b"1.1"])
    request += chance.choice(METHODS) + b" " + chance.choice(TARGETS) + b" HTTP/" + version + ending()
    lines = [b"Host: x"] if chance.random() < 0.95 else []
    lines += [chance.choice(LINES) for _ in range(chance.choice([0, 0, 1, 2]) if chance.random() < 0.6 else 0)]
    body = bytes(chance.choice(CHANGES) for _ in range(chance.choice([0, 0, 1, 3, 7, 20])))
    if body or chance.random() < 0.2:
        lines.append(b"Content-Length: " + b"0" * chance.choice([0, 0, 2]) + str(len(body)).encode())
    chance.shuffle(lines)
    return request + b"".join(line + ending() for line in lines) + ending() + body


def made_stream(chance):
    stream = b"".join(made_request(chance) for _ in range(chance.choice([1, 1, 2, 3, 4])))
    for _ in range(chance.choice([0, 0, 1, 2])):
        place = chance.randrange(len(stream) + 1)
        kind = chance.randrange(3)
        if kind == 0:
            stream = stream[:place] + bytes([chance.choice(CHANGES)]) + stream[place + 1 :]
        elif kind == 1:
            stream = stream[:place] + bytes([chance.choice(CHANGES)]) + stream[place:]
        else:
            stream = stream[:place] + stream[place + chance.choice([1, 1, 2, 10]) :]
    if chance.random() < 0.2:
        stream = stream[: chance.randrange(len(stream) + 1)]
    return stream


def made_lines():
    chance = random.Random(9112)
    for _ in range(3000):
        stream = made_stream(chance)
        ended = chance.random() < 0.7
        count = chance.choice([0, 1, 2, 3, 10])
        places = [chance.randrange(len(stream) + 1) for _ in range(count)]
        yield line_of(cut(stream, places), ended), " ".join(items_of(stream, ended))


def all_lines():
    """Each line of the program's input, and of its output."""
    for stream, ended, items in ROWS:
        found = " ".join(items_of(stream, ended))
        assert found == items, "a row and the reader differ: %r: %s" % (stream[:200], found)
    for line, items in list(row_lines()) + list(made_lines()):
        yield line, " " + items if items else ""
    yield from reply_rows()


def files():
    lines, answers = zip(*all_lines())
    return tables.text(lines), tables.text(answers)


if __name__ == "__main__":
    sys.exit(tables.main("http", files, sys.argv[1:]))
