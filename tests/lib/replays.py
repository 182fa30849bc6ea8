"""What a replay is asked and what it must write: tenants and routes, items and connections, and the text and the summary that are due,
reckoned by docs/FORMATS.md alone. Whoever makes an item says what becomes of it, so nothing here reads HTTP; the interpreter in
Python says what the functions do.
"""

import functools
import struct

from lib import interpreter, module_validator, recordings
from lib.http_reader import REFUSALS
from lib.module_writer import module
from lib.whole_modules import ECHO, ENDLESS, NOTHING, PAGE_FILLER, UNREACHABLE, ZERO_READER

START = "06 5F 73 74 61 72 74 00"
MOST_ITEMS = 4096

EXITS = "16 77 61 73 69 5F 73 6E 61 70 73 68 6F 74 5F 70 72 65 76 69 65 77 31 09 70 72 6F 63 5F 65 78 69 74 00 00"
MODULES = {
    "nil": NOTHING,
    "trap": UNREACHABLE,
    "loop": ENDLESS,
    "exit": module(types=["60 01 7F 00", "60 00 00"], imports=[EXITS], functions=["01"], exports=[START + "01"], bodies=["41 03 10 00"]),
    "echo": ECHO,
    "fill": PAGE_FILLER,
    "zero": ZERO_READER,
}


# ---- what is served


class Route:
    def __init__(self, path, name, budget, pages, estimate, kind="application/octet-stream"):
        self.path, self.module, self.budget, self.pages, self.estimate, self.kind = path, name, budget, pages, estimate, kind

    def written(self):
        return {"path": self.path, "module": self.module, "budget": self.budget, "pages": self.pages, "estimate": self.estimate,
                "deadline": 50, "content_type": self.kind}  # fmt: skip


class Tenant:
    def __init__(self, capacity, rate, routes):
        self.capacity, self.rate, self.routes = capacity, rate, routes

    def written(self, number):
        return {"name": "t%d" % number, "port": 8000 + number, "capacity": self.capacity, "rate": self.rate,
                "routes": [route.written() for route in self.routes]}  # fmt: skip

    def route(self, path):
        return next((route for route in self.routes if route.path == path), None)


def configuration(tenants, quantum, workers=2, policy="rr", berths=2):
    written = [tenant.written(number) for number, tenant in enumerate(tenants)]
    return {"workers": workers, "quantum": quantum, "policy": policy, "berths": berths, "tenants": written}


# ---- what is asked: the bytes of an item, and what it is


class Item:
    """A request for a path, or the refusal with this number; where it ends in its bytes, and whether its connection is kept."""

    def __init__(self, data, path=None, body=b"", number=None, head=False, keep=True):
        self.data, self.path, self.body, self.number, self.head, self.keep = data, path, body, number, head, keep


def request(method, path, body=b"", minor=1, lines=(), keep=True):
    host = [b"Host: x"] if minor else []
    sized = [b"Content-Length: %d" % len(body)] if body else []
    head = b"\r\n".join([b"%s %s HTTP/1.%d" % (method, path, minor), *host, *lines, *sized]) + b"\r\n\r\n"
    keep = keep and minor == 1
    number = None if method in (b"GET", b"HEAD", b"POST") else 8
    return Item(head + body, path.decode().split("?")[0], body, number, method == b"HEAD", keep)


class Connection:
    """The bytes of a connection, and its items, each with the number of bytes that completes it, or none where the end of the stream does."""

    def __init__(self, tenant, items=(), rest=b"", last=None):
        self.tenant, self.items, self.data = tenant, [], b""
        for item in items:
            self.data += item.data
            self.items.append((len(self.data), item))
        self.data += rest
        if last is not None:
            self.items.append((None, last))


# ---- the recording


def spelt(records):
    made = []
    for moment, link, what in records:
        if what is None:
            made.append(recordings.close(moment, link))
        elif isinstance(what, int):
            made.append(recordings.begin(moment, link, what))
        else:
            made.append(recordings.piece(moment, link, what))
    return recordings.recording(made)


# ---- what is due


@functools.lru_cache(maxsize=None)
def ran(name, body, budget, pages):
    return interpreter.run(module_validator.decode(MODULES[name]), body, budget, pages)


def refusal(number, item):
    status, text = REFUSALS[number]
    allow = "Allow: GET, HEAD, POST\r\n" if number == 8 else ""
    close = "" if item.keep else "Connection: close\r\n"
    shown = "" if item.head else text
    return f"HTTP/1.1 {status}\r\n{allow}Content-Type: text/plain\r\nContent-Length: {len(text)}\r\n{close}\r\n{shown}".encode()


def arrived(connections, records):
    """The completed items as (link, place, item, moment), by record and then by place in the stream."""
    came, next_item = [0] * len(connections), [0] * len(connections)
    for moment, link, what in records:
        if isinstance(what, bytes):
            came[link] += len(what)
            items = connections[link].items
            while next_item[link] < len(items) and items[next_item[link]][0] is not None and items[next_item[link]][0] <= came[link]:
                yield link, next_item[link], items[next_item[link]][1], moment
                next_item[link] += 1


def due(tenants, quantum, connections, records):
    """Exit status, text and note."""
    total = sum(len(c.items) for c in connections)
    if total > MOST_ITEMS:
        return 6, b"", b"recording 77\n"
    replies = {}
    meters = [[0, 0] for _ in tenants]
    admitted = turns = units = 0
    for link, place, item, moment in arrived(connections, records):
        tenant, meter = tenants[connections[link].tenant], meters[connections[link].tenant]
        route = None if item.number else tenant.route(item.path)
        if item.number or route is None:
            replies[link, place] = refusal(item.number or 9, item)
            continue
        later = max(meter[1], moment)
        meter[0], meter[1] = max(0, meter[0] - tenant.rate * (later - meter[1])), later
        if meter[0] + route.estimate > tenant.capacity:
            replies[link, place] = refusal(10, item)
            continue
        meter[0] += route.estimate
        verdict, prices = ran(route.module, item.body, route.budget, route.pages)
        replies[link, place] = interpreter.reply_text(verdict, route.kind, item.head, item.keep)
        admitted, turns, units = admitted + 1, turns + interpreter.turns(prices, quantum), units + sum(prices)
    text = b"SLA1"
    for link, connection in enumerate(connections):
        joined = b"".join(replies.get((link, place)) or refusal(item.number, item) for place, (_, item) in enumerate(connection.items))
        text += struct.pack("<II", link, len(joined)) + joined
    note = f"requests {total} admitted {admitted} started {admitted} turns {turns} units {units}\n"
    return 0, text, note.encode()
