#!/usr/bin/env python3
"""Recordings made at random, and what `replay` must write of them, reckoned apart from the program (tests/lib/replays.py).

    random_replays.py [COUNT [SEED]]      builds the program where it is not built, and replays so many recordings

Each recording is made of requests and of faulty bytes whose fate is known as they are made, so nothing here reads
HTTP: where each ends in its stream, and whether it closes the connection. The streams are cut into pieces at
random, and the pieces of all connections are mixed. From that the arrivals, the meters, the replies, the text and
the summary are reckoned by docs/FORMATS.md alone; the interpreter in Python says what the functions do.

Where there are several tenants, the recording is replayed again for each of them, without the connections of all
others: its replies must be the same.
"""

import json
import os
import random
import struct
import sys
import tempfile
from concurrent.futures import ThreadPoolExecutor

from lib import usage
from lib.replays import MODULES, MOST_ITEMS, Connection, Item, Route, Tenant, configuration, due, request, spelt
from lib.running import build, differs, lay, run


# ---- what is asked


def made_item(chance, paths):
    """An item that leaves its connection open or closes it."""
    path = chance.choice(paths + ["/none"]).encode()
    roll = chance.random()
    if roll < 0.55:
        method = chance.choice([b"GET", b"POST", b"HEAD"])
        body = chance.randbytes(chance.choice([0, 0, 1, 5, 64, 70, 1100, 3000])) if method != b"HEAD" else b""
        return request(method, path + chance.choice([b"", b"?q"]), body)
    if roll < 0.65:
        return request(b"PUT", path, chance.randbytes(chance.choice([0, 3])))
    if roll < 0.75:
        return request(b"POST", path, b"hi", lines=[b"Connection: close"], keep=False)
    if roll < 0.85:
        return request(b"GET", path, minor=0)
    close = {"keep": False}
    return chance.choice(
        [
            Item(b"GET / HTTP/1.1\r\n\r\n", number=2, **close),
            Item(b"HEAD / HTTP/1.0\r\nTransfer-Encoding: x\r\n\r\n", number=3, head=True, **close),
            Item(b"GET / HTTP/1.0\r\nContent-Length: -1\r\n\r\n", number=4, **close),
            Item(b"POST / HTTP/1.0\r\nContent-Length: 1048577\r\n\r\n", number=5, **close),
            Item(b"GET * HTTP/1.0\r\n\r\n", number=7, **close),
            Item(b"A" * 8192, number=1, **close),
        ]
    )


def made_connection(chance, tenants):
    tenant = chance.randrange(len(tenants))
    paths = [route.path for route in tenants[tenant].routes]
    items = []
    for _ in range(chance.choice([0, 1, 2, 3, 6])):
        items.append(made_item(chance, paths))
        if not items[-1].keep:
            return Connection(tenant, items, chance.choice([b"", b"rest", b"GET / HTTP/1.1\r\n"]))
    end = chance.random()
    if end < 0.6:
        return Connection(tenant, items, chance.choice([b"", b"", b"\r\n\r\n"]))
    if end < 0.8:
        return Connection(tenant, items, b"GET /nil HTTP/1.1\r\nHo", Item(b"", number=1, keep=False))
    cut = b"HEAD / HTTP/1.1\r\nHost: x\r\nContent-Length: 9\r\n\r\nabc"
    return Connection(tenant, items, cut, Item(b"", number=6, head=True, keep=False))


# ---- the recording


def pieces_of(chance, data):
    places = sorted(chance.sample(range(len(data) + 1), min(len(data), chance.choice([0, 0, 1, 2, 8]))))
    return [data[a:b] for a, b in zip([0, *places], [*places, len(data)])]


def mixed(chance, connections):
    """Records as (moment, link, what), where what is a tenant, bytes, or None for a close; connections begin in order."""
    queues = [[c.tenant, *pieces_of(chance, c.data), *([None] if chance.random() < 0.5 else [])] for c in connections]
    records, moment, begun = [], chance.choice([0, 5]), 0
    while any(queues):
        moment += chance.choice([0, 0, 0, 1, 7, 30])
        open_links = [link for link in range(begun) if queues[link]]
        if begun < len(queues) and (not open_links or chance.random() < 0.4):
            link, begun = begun, begun + 1
        else:
            link = chance.choice(open_links)
        records.append((moment, link, queues[link].pop(0)))
    return records


# ---- the program


class Case:
    def __init__(self, name, tenants, quantum, connections, records, **others):
        self.name, self.config, self.data = name, configuration(tenants, quantum, **others), spelt(records)
        self.wanted = due(tenants, quantum, connections, records)
        self.owners, self.records = [connection.tenant for connection in connections], records

    def tenants(self):
        """Those that are replayed alone: all, where there are several."""
        several = len(self.config["tenants"])
        return range(several) if several > 1 else ()


def replayed(folder, name, config, data):
    names = ["%s-%s" % (kind, name) for kind in ("config", "recording")]
    lay(folder, dict(zip(names, (json.dumps(config).encode(), data))))
    return run(["replay", *names], folder)


def alone(records, tenant):
    """The records of this tenant's connections, which are numbered anew, in order."""
    numbers, kept = {}, []
    for moment, link, what in records:
        if isinstance(what, int) and what == tenant:
            numbers[link] = len(numbers)
        if link in numbers:
            kept.append((moment, numbers[link], what))
    return kept


def read_back(text):
    """The replies of each connection that a text tells, in order."""
    replies, place = [], 4
    while place < len(text):
        link, size = struct.unpack_from("<II", text, place)
        assert link == len(replies)
        replies.append(text[place + 8 : place + 8 + size])
        place += 8 + size
    return replies


def compared(folder, number, case):
    """How many comparisons were made, and how many of them differ: of the whole, and then of each tenant with its replies alone."""
    got = replayed(folder, number, case.config, case.data)
    made, failed = 1, differs(case.name, case.wanted, got)
    for tenant in case.tenants() if got[0] == 0 else ():
        status, text, _ = replayed(folder, "%d-of-%d" % (number, tenant), case.config, spelt(alone(case.records, tenant)))
        own = [replies for owner, replies in zip(case.owners, read_back(got[1])) if owner == tenant]
        made, failed = made + 1, failed + differs("%s, tenant %d alone" % (case.name, tenant), (0, own), (status, read_back(text)))
    return made, failed


def compare(cases):
    """Prints each comparison that differs, and answers how many did."""
    build()
    with tempfile.TemporaryDirectory() as folder, ThreadPoolExecutor(os.cpu_count()) as pool:
        lay(folder, MODULES)
        made, failed = map(sum, zip(*pool.map(lambda item: compared(folder, *item), enumerate(cases))))
    print("%d passed, %d failed" % (made - failed, failed))
    return failed


def made_tenants(chance):
    tenants = []
    for _ in range(chance.choice([1, 2, 3, 4])):
        capacity = chance.choice([0, 100, 1000, 10**6])
        names = chance.sample(list(MODULES), chance.randrange(1, len(MODULES) + 1))
        routes = [Route("/" + name, name, chance.choice([0, 5, 77, 1000, 10**6] if name != "loop" else [0, 5, 2000]), 2,
                        chance.choice([0, 1, 40, 60]), chance.choice(["text/plain", "application/octet-stream"])) for name in names]  # fmt: skip
        tenants.append(Tenant(capacity, chance.choice([0, 1, 1000]), routes))
    return tenants


def made_case(chance, name):
    tenants = made_tenants(chance)
    connections = [made_connection(chance, tenants) for _ in range(chance.choice([0, 1, 2, 3, 8, 24]))]
    workers = chance.choice([1, 2, 4, 64])
    others = {"workers": workers, "policy": chance.choice(["rr", "edf"]), "berths": workers + chance.choice([0, 3])}
    return Case(name, tenants, chance.choice([1, 7, 30, 1000]), connections, mixed(chance, connections), **others)


def limit_cases():
    """As many items as there may be, and one more: on one connection and on two, and with a refusal that its end is; and by many workers."""
    tenants = [Tenant(10**6, 0, [Route("/nil", "nil", 10, 1, 0)])]
    ask = request(b"GET", b"/nil")
    cut_head = b"GET /nil HTTP/1.1\r\nHo", Item(b"", number=1, keep=False)

    def case(*connections, **others):
        begun = [(0, link, 0) for link in range(len(connections))]
        arrived_at_once = [(0, link, connection.data) for link, connection in enumerate(connections)]
        counts = " and ".join(str(len(connection.items)) for connection in connections)
        return Case("%s items" % counts, tenants, 100, connections, begun + arrived_at_once, **others)

    for over in (0, 1):
        yield case(Connection(0, [ask] * (MOST_ITEMS + over)))
        yield case(Connection(0, [ask] * (MOST_ITEMS - 1 + over), *cut_head))
        yield case(Connection(0, [ask] * 2048), Connection(0, [ask] * (2048 + over)))
        yield case(Connection(0, [ask] * (MOST_ITEMS - 1)), Connection(0, [ask] * over, *cut_head))
    yield case(Connection(0, [ask] * MOST_ITEMS), workers=64, policy="edf", berths=256)


def main(words):
    usage.counts(words, __doc__)
    count, seed = [int(word) for word in words + ["300", "11"][len(words) :]]
    chance = random.Random(seed)
    cases = [made_case(chance, "recording %d of seed %d" % (place, seed)) for place in range(count)]
    return compare(cases + list(limit_cases())) != 0


if __name__ == "__main__":
    sys.exit(main(sys.argv[1:]))
