#!/usr/bin/env python3
"""Sessions over links in memory, and what they must write: the items of each stream by the reader of tests/lib/http_reader.py, the
verdicts by the interpreter, the meters and the texts of replies by tests/lib/replays.py.

    sessions_table.py [check|make]      compares crates/server_tables/data/sessions and what stdout there has of it with them, or writes them (tests/lib/tables.py)

A group is a server with its sessions, one after the other, so that its meters go on from one to the next. A link gives a piece a read
as long as it has at most 16,384 bytes, and each reply is one write. Two groups have their replies written out by hand, and the reader's must be the same.
"""

import json
import random
import sys

import http_table
from lib import interpreter, replays, tables
from lib.http_reader import heard_of
from lib.replays import Route, Tenant

MOST_PIECE = 16_384


class Session:
    """A peer's pieces, and the calls of its link that fail: numbers of reads, and how many bytes each write with a number lets pass."""

    def __init__(self, pieces, tenant=0, moment=0, reads=(), cuts=None):
        self.pieces, self.tenant, self.moment, self.reads, self.cuts = pieces, tenant, moment, list(reads), dict(cuts or {})

    def line(self):
        reads = ",".join(map(str, self.reads)) or "-"
        cuts = ",".join("%d:%d" % cut for cut in self.cuts.items()) or "-"
        return " ".join(["%d %d %s %s" % (self.tenant, self.moment, reads, cuts), *(piece.hex() or "-" for piece in self.pieces)])


class Server:
    """What a server serves, and where its meters stand."""

    def __init__(self, tenants, quantum=1000, policy="rr", berths=2):
        self.tenants, self.meters = tenants, [[0, 0] for _ in tenants]
        self.configuration = replays.configuration(tenants, quantum, workers=1, policy=policy, berths=berths)

    def line(self):
        names = sorted({route.module for tenant in self.tenants for route in tenant.routes})
        modules = ["%s:%s" % (name, replays.MODULES[name].hex()) for name in names]
        return " ".join([json.dumps(self.configuration, separators=(",", ":")).encode().hex(), *modules])

    def enters(self, number, moment, estimate):
        tenant, meter = self.tenants[number], self.meters[number]
        later = max(meter[1], moment)
        meter[0], meter[1] = max(0, meter[0] - tenant.rate * (later - meter[1])), later
        if meter[0] + estimate > tenant.capacity:
            return False
        meter[0] += estimate
        return True

    def reply(self, session, item):
        route = None if item.number else self.tenants[session.tenant].route(item.path.decode())
        if route is None:
            return replays.refusal(item.number or 9, item)
        if not self.enters(session.tenant, session.moment, route.estimate):
            return replays.refusal(10, item)
        verdict, _ = replays.ran(route.module, item.body, route.budget, route.pages)
        return interpreter.reply_text(verdict, route.kind, item.head, item.keep)

    def served(self, session):
        """How the session ends, and what it has written."""
        pieces = [piece for piece in session.pieces if piece]
        assert all(len(piece) <= MOST_PIECE for piece in pieces)
        written, count = b"", 0
        for read in range(len(pieces) + 1):
            if read in session.reads:
                return "fault", written
            ended = read == len(pieces)
            items = list(heard_of(b"".join(pieces[: read + 1]), ended))
            for item in items[count:]:
                reply = self.reply(session, item)
                if count in session.cuts:
                    return "fault", written + reply[: session.cuts[count]]
                written, count = written + reply, count + 1
                if not item.keep:
                    return "done", written
        return "done", written


def group(server, sessions):
    """The lines of a group, and those that must be printed of it."""
    printed = ["%s %s" % (end, written.hex()) for end, written in map(server.served, sessions)]
    return [server.line(), *(session.line() for session in sessions), ""], printed


def cut(chance, stream):
    return http_table.cut(stream, [chance.randrange(len(stream) + 1) for _ in range(chance.choice([0, 0, 1, 2, 3, 10]))])


# ---- groups whose replies are written out by hand

ECHO, NIL = Route("/echo", "echo", 100_000, 2, 500, "text/plain"), Route("/nil", "nil", 10, 1, 10)
HI = b"POST /echo HTTP/1.1\r\nHost: x\r\nContent-Length: 2\r\n\r\nhi"
HI_REPLY = b"HTTP/1.1 200 OK\r\nContent-Type: text/plain\r\nContent-Length: 2\r\n\r\nhi"
NIL_REPLY = b"HTTP/1.1 200 OK\r\nContent-Type: application/octet-stream\r\nContent-Length: 0\r\nConnection: close\r\n\r\n"
SPENT = b"HTTP/1.1 503 Service Unavailable\r\nContent-Type: text/plain\r\nContent-Length: 15\r\n\r\nadmission spent"
TWO = http_table.ECHO_AND_NIL  # the second closes, and more bytes stand behind it


def two_requests():
    """One stream, whole and cut; then with each of its reads, and each of its writes, failing in turn."""
    server, both = Server([Tenant(1_000_000, 1000, [ECHO, NIL])]), HI_REPLY + NIL_REPLY
    assert len(both) == 163
    thirds = http_table.cut(TWO, [20, len(HI), len(HI) + 9])
    rows = [(Session([TWO]), "done", both), (Session(thirds), "done", both)]
    # The first request is whole with the second piece, and the last with the fourth, behind which nothing is read.
    rows += [(Session(thirds, reads=[read]), "fault", HI_REPLY if read > 1 else b"") for read in range(4)]
    rows.append((Session(thirds, reads=[4]), "done", both))
    rows.append((Session([TWO], cuts={0: 0}), "fault", b""))
    rows += [(Session([TWO], cuts={0: count}), "fault", HI_REPLY[:count]) for count in (1, 65, 66)]
    rows += [(Session([TWO], cuts={1: count}), "fault", HI_REPLY + NIL_REPLY[:count]) for count in (0, 1, 96)]
    rows.append((Session([TWO], cuts={2: 0}), "done", both))
    return server, rows


def spent_capacity():
    """Two sessions at one moment, of which the first takes all that the tenant may use."""
    return Server([Tenant(500, 0, [ECHO, NIL])]), [(Session([HI]), "done", HI_REPLY), (Session([HI]), "done", SPENT)]


def by_hand(server, rows):
    lines, printed = group(server, [row[0] for row in rows])
    due = ["%s %s" % (end, written.hex()) for _, end, written in rows]
    assert printed == due, "a row and the reader differ: %r" % [pair for pair in zip(printed, due) if pair[0] != pair[1]][:1]
    return lines, due


# ---- streams of the table of requests, and streams that ask for all kinds of verdicts, cut at random

# The paths of those streams are / and /a; the second tenant is soon refused, and more comes in as its clock goes on.
TENANTS = [
    Tenant(1 << 40, 0, [Route("/", "echo", 100_000, 2, 500, "text/plain"), Route("/a", "trap", 100, 1, 1)]),
    Tenant(60, 1, [Route("/", "exit", 100, 1, 20), Route("/a", "loop", 3000, 1, 31)]),
    Tenant(1 << 40, 0, [Route("/a", "zero", 1000, 1, 1, "text/html"), Route("/echo", "echo", 300, 2, 1), Route("/fill", "fill", 2000, 1, 7),
                        Route("/loop", "loop", 5000, 1, 9), Route("/exit", "exit", 2, 1, 3), Route("/trap", "trap", 100, 1, 1)]),
]  # fmt: skip
PATHS = [b"/a", b"/echo", b"/echo?x", b"/fill", b"/loop", b"/exit", b"/trap", b"/no"]


def asked(chance):
    """A stream of requests without a fault, to the third tenant."""
    stream = b""
    for _ in range(chance.randrange(1, 7)):
        body = bytes(chance.randrange(256) for _ in range(chance.choice([0, 1, 5, 40])))
        lines = (b"Connection: close",) if chance.random() < 0.1 else ()
        stream += replays.request(chance.choice([b"GET", b"HEAD", b"POST"]), chance.choice(PATHS), body, lines=lines).data
    return stream


def faults(chance):
    """Mostly none; else some of the first calls of the link."""
    if chance.random() < 0.8:
        return {}
    if chance.random() < 0.5:
        return {"reads": [chance.randrange(4)]}
    return {"cuts": {chance.randrange(4): chance.choice([0, 1, 17, 60, 1000])}}


def at_random():
    chance = random.Random(2616)
    streams = [(stream, chance.randrange(2)) for stream, ended, _ in http_table.ROWS if ended and len(stream) < 600]
    streams += [(http_table.made_stream(chance), chance.randrange(2)) for _ in range(400)]
    streams += [(asked(chance), 2) for _ in range(200)]
    chance.shuffle(streams)
    moment, sessions = 0, []
    for stream, tenant in streams:
        moment += chance.choice([0, 0, 1, 10, 25])
        sessions.append(Session(cut(chance, stream), tenant, max(0, moment - chance.choice([0, 0, 0, 40])), **faults(chance)))
    half = len(sessions) // 2
    yield group(Server(TENANTS, quantum=7, berths=1), sessions[:half])
    yield group(Server(TENANTS, quantum=1000, policy="edf"), sessions[half:])


def files():
    groups = [by_hand(*two_requests()), by_hand(*spent_capacity()), *at_random()]
    return tables.text(line for lines, _ in groups for line in lines), tables.text(line for _, printed in groups for line in printed)


if __name__ == "__main__":
    sys.exit(tables.main("sessions", files, sys.argv[1:]))
