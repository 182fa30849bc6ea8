#!/usr/bin/env python3
"""Recordings: cases, and what a reader apart from the repository's code says of them (tests/lib/recordings.py).

    recording_table.py [check|make]      compares crates/server_tables/data/recording and what stdout there has of it with them, or writes them (tests/lib/tables.py)
"""

import random
import struct
import sys

from lib import tables
from lib.recordings import BEGIN, MAGIC, MOST_CONNECTIONS, PIECE, CLOSE, answer, begin, close, piece, recording

# ---- the cases: a name, the number of tenants, the bytes

OPEN = begin(5, 0, 0)
REQUEST = (
    b"POST /echo HTTP/1.1\r\nHost: x\r\nContent-Length: 2\r\n\r\nhi"
    b"GET /nil HTTP/1.1\r\nHost: x\r\nConnection: close\r\n\r\nrest"
)


def rows():
    yield "no bytes", 1, b""
    yield "three bytes", 1, b"SLR"
    yield "another magic", 1, b"SLR2\0"
    yield "magic alone", 1, b"SLR1"
    yield "empty", 1, b"SLR1\0"
    yield "empty for no tenants", 0, b"SLR1\0"
    yield "moment that falls", 1, MAGIC + bytes.fromhex("01050000000000000000000000030400000000000000") + b"\0"
    yield "tenant 1 of 1", 1, MAGIC + bytes.fromhex("01000000000000000001000000") + b"\0"
    yield "tenant 1 of 2", 2, MAGIC + bytes.fromhex("01000000000000000001000000") + b"\0"
    yield "tenant 1 of 1, link 1", 1, MAGIC + bytes.fromhex("01000000000100000001000000") + b"\0"
    yield "byte behind the end", 1, b"SLR1\0\0"
    yield "one connection, one piece", 1, recording([begin(0, 0, 0), piece(0, 0, REQUEST)])
    yield "kind 4", 1, recording([OPEN, b"\4"])
    yield "kind 255", 1, recording([b"\xff"])
    yield "close of a link that never began", 1, recording([close(0, 0)])
    yield "second begin of one link", 1, recording([OPEN, OPEN])
    yield "begin of a link too far", 1, recording([begin(0, 1, 0)])
    yield "piece of the next link", 1, recording([OPEN, piece(5, 1, b"x")])
    yield "piece after a close", 1, recording([OPEN, close(5, 0), piece(5, 0, b"x")])
    yield "second close", 1, recording([OPEN, close(5, 0), close(5, 0)])
    yield "begin again after a close", 1, recording([OPEN, close(5, 0), OPEN])
    yield "next link after a close", 1, recording([OPEN, close(5, 0), begin(5, 1, 0), piece(6, 1, b"x")])
    yield "closed in another order", 1, recording([OPEN, begin(5, 1, 0), close(6, 1), piece(6, 0, b"x"), close(7, 0)])
    yield "empty piece", 1, recording([OPEN, piece(5, 0, b"")])
    yield "greatest moment", 1, recording([OPEN, piece(2**32 - 1, 0, b"x"), close(2**32 - 1, 0)])
    yield "first moment above 0", 1, recording([begin(2**32 - 1, 0, 0)])
    yield "greatest tenant", 2**32 - 1, recording([begin(0, 0, 2**32 - 2)])
    yield "tenant as many as there are", 2**32 - 1, recording([begin(0, 0, 2**32 - 1)])
    yield "length past the end", 1, MAGIC + OPEN + piece(5, 0, b"xy")[:-1]
    yield "greatest length", 1, recording([OPEN, struct.pack("<BIII", PIECE, 5, 0, 2**32 - 1), b"x"])
    yield "length that takes the end", 1, MAGIC + OPEN + struct.pack("<BIII", PIECE, 5, 0, 1) + b"\0"
    most = [begin(0, link, 0) for link in range(MOST_CONNECTIONS)]
    yield "as many connections as there may be", 1, recording(most)
    yield "one connection more", 1, recording([*most, begin(0, MOST_CONNECTIONS, 0)])
    yield "one connection more, cut in its tenant", 1, MAGIC + b"".join(most) + begin(0, MOST_CONNECTIONS, 0)[:12]
    yield "one connection more, of the next link but one", 1, recording([*most, begin(0, MOST_CONNECTIONS + 1, 0)])


def two_faults():
    """Records with one fault, and with it and the next one that is looked for: the first must win."""
    both = {
        "kind above 3, cut behind it": b"\4",
        "bytes behind the end, a kind among them": b"\0\4",
        "cut in the link, moment fell": begin(4, 1, 0)[:8],
        "cut in the moment, which fell": begin(4, 1, 0)[:4],
        "moment fell, link in no order": begin(4, 7, 0),
        "moment fell, piece of no link": piece(4, 7, b"x"),
        "moment fell, close of no link": close(4, 7),
        "moment fell, tenant cut": begin(4, 1, 0)[:12],
        "link in no order, tenant cut": begin(5, 7, 0)[:12],
        "link in no order, length cut": piece(5, 7, b"x")[:11],
        "link in no order, bytes cut": piece(5, 7, b"xyz")[:15],
        "link too large and in no order": begin(5, 1024, 9),
        "link in no order, tenant unknown": begin(5, 7, 9),
        "tenant cut": begin(5, 1, 9)[:12],
        "tenant unknown": begin(5, 1, 9),
        "tenant unknown, then a kind above 3": begin(5, 1, 9) + b"\4",
    }
    for name, record in both.items():
        yield name, 1, MAGIC + OPEN + record


def dozens(chance, count):
    """A recording of so many records, all of them right."""
    moment, open_links, begun, records = 0, [], 0, []
    while len(records) < count:
        moment += chance.choice([0, 0, 1, 7, 300])
        kind = chance.choice([BEGIN, PIECE, PIECE, PIECE, CLOSE])
        if kind == BEGIN or not open_links:
            records.append(begin(moment, begun, chance.randrange(3)))
            open_links.append(begun)
            begun += 1
        elif kind == PIECE:
            data = bytes(chance.randrange(256) for _ in range(chance.choice([0, 1, 2, 5])))
            records.append(piece(moment, chance.choice(open_links), data))
        else:
            link = chance.choice(open_links)
            open_links.remove(link)
            records.append(close(moment, link))
    return records


def changed(chance):
    """Small recordings, most of them with a byte or two changed, taken out or put in."""
    for number in range(600):
        data = bytearray(recording(dozens(chance, chance.randrange(1, 6))))
        for _ in range(chance.choice([0, 1, 1, 1, 2])):
            at = chance.randrange(4, len(data))
            what = chance.randrange(4)
            if what == 0:
                del data[at]
            elif what == 1:
                data.insert(at, chance.randrange(5))
            else:
                data[at] = chance.choice([0, 1, 2, 3, 4, data[at] ^ 1, chance.randrange(256)])
        yield "changed %d" % number, chance.choice([1, 2, 3, 3, 3]), bytes(data)


def cases():
    chance = random.Random(1)
    for made in (rows(), two_faults(), changed(chance)):
        for name, tenants, data in made:
            yield "read", name, tenants, data
    yield "cuts", "each cut of 40 records", 3, recording(dozens(chance, 40))


def case_lines():
    for word, name, tenants, data in cases():
        yield "%s %d %s %s" % (word, tenants, data.hex() or "-", name)


def table_lines():
    for word, name, tenants, data in cases():
        if word == "read":
            yield name + ":" + answer(data, tenants)
        else:
            ends = [answer(data[:size], tenants) for size in range(len(data))]
            yield name + ":" + "".join(end.replace(" refused", "") for end in ends)


def files():
    return tables.text(case_lines()), tables.text(table_lines())


if __name__ == "__main__":
    sys.exit(tables.main("recording", files, sys.argv[1:]))
