"""What a recording is made of, and what becomes of it, reckoned by docs/FORMATS.md alone: its connections, the requests and refusals on
them in the order in which they arrive, the tenants' meters, and the answers, taken apart again.
"""

import re
import struct

from lib import recordings
from lib.http_reader import REFUSALS, heard_of

MOST_ITEMS = 4096
NO_ROUTE, ADMISSION_SPENT = 9, 10
ANSWERS_MAGIC = b"SLA1"
REPLY_HEAD = re.compile(rb"HTTP/1\.1 (?P<status>[0-9]{3}) [^\r\n]*\r\n(?P<lines>(?:[^\r\n]+\r\n)*)\r\n")


class Misfit(Exception):
    """Answers that are none, or not those of this recording: why, in one line."""


# ---- what arrives


class Connection:
    """Its tenant's index, its bytes, and all that they ask."""

    def __init__(self, tenant):
        self.tenant, self.stream, self.items = tenant, b"", []


class Arrived:
    """An item: its connection, its place among the connection's items, and the moment at which it was whole; None where the stream's end made it so."""

    def __init__(self, link, place, moment, heard):
        self.link, self.place, self.moment, self.heard = link, place, moment, heard


def connections_of(records):
    """The connections in the order of their links."""
    found, pieces = [], []
    for kind, _, link, value in records:
        if kind == recordings.BEGIN:
            found.append(Connection(value))
            pieces.append([])
        elif kind == recordings.PIECE:
            pieces[link].append(value)
    for connection, parts in zip(found, pieces):
        connection.stream = b"".join(parts)
        connection.items = list(heard_of(connection.stream, True))
    return found


def arrivals(connections, records):
    """All items: by the record of the piece that completes them, then by their place; behind these the ones that the ends of the streams complete."""
    came, following = [0] * len(connections), [0] * len(connections)
    for kind, moment, link, value in records:
        if kind != recordings.PIECE:
            continue
        came[link] += len(value)
        items = connections[link].items
        while following[link] < len(items) and items[following[link]].end is not None and items[following[link]].end <= came[link]:
            yield Arrived(link, following[link], moment, items[following[link]])
            following[link] += 1
    for link, connection in enumerate(connections):
        for place in range(following[link], len(connection.items)):
            yield Arrived(link, place, None, connection.items[place])


# ---- what becomes of it


class Meter:
    """A tenant's meter. `ask` answers the level that a request found, and whether it entered."""

    def __init__(self, capacity, rate):
        self.capacity, self.rate, self.level, self.last = capacity, rate, 0, 0

    def ask(self, moment, estimate):
        later = max(self.last, moment)
        self.level, self.last = max(0, self.level - self.rate * (later - self.last)), later
        found, enters = self.level, self.level + estimate <= self.capacity
        self.level += estimate if enters else 0
        return found, enters


class Fate:
    """The number of the refusal, or None; the route, where the request has one; the level that it found, where a meter was asked."""

    def __init__(self, number=None, route=None, level=None):
        self.number, self.route, self.level = number, route, level


def route_of(tenant, path):
    return next((route for route in tenant["routes"] if route["path"].encode() == path), None)


def fates(config, connections, arrived):
    """The fate of each item, in the order of their arrival."""
    meters = [Meter(tenant["capacity"], tenant["rate"]) for tenant in config["tenants"]]
    for item in arrived:
        owner = connections[item.link].tenant
        route = None if item.heard.number else route_of(config["tenants"][owner], item.heard.path)
        if route is None:
            yield Fate(item.heard.number or NO_ROUTE)
        else:
            level, enters = meters[owner].ask(item.moment, route["estimate"])
            yield Fate(None if enters else ADMISSION_SPENT, route, level)


# ---- the answers


class Reply:
    """Its status, the type and the length of its body, whether it closes the connection, and its body, which one to HEAD has not (None)."""

    def __init__(self, status, kind, length, closes, body):
        self.status, self.kind, self.length, self.closes, self.body = status, kind, length, closes, body

    def whole(self):
        """All of it but the body that a HEAD leaves out."""
        return self.status, self.kind, self.length, self.closes


def refusal_reply(number, heard):
    """The reply that a refusal has."""
    status, text = REFUSALS[number]
    return Reply(int(status.split(" ")[0]), "text/plain", len(text), not heard.keep, None if heard.head else text.encode())


def answers_of(data, connections):
    """The bytes of the replies of each connection."""
    if data[:4] != ANSWERS_MAGIC:
        raise Misfit("the file does not begin with SLA1, as answers do")
    at, found = 4, []
    for link in range(connections):
        if at + 8 > len(data):
            raise Misfit("the answers end before those of connection %d; the recording has %d" % (link, connections))
        written, length = struct.unpack_from("<II", data, at)
        if written != link:
            raise Misfit("the answers of connection %d should stand at byte %d, and connection %d does" % (link, at, written))
        if at + 8 + length > len(data):
            raise Misfit("the answers end within those of connection %d" % link)
        found.append(data[at + 8 : at + 8 + length])
        at += 8 + length
    if at < len(data):
        raise Misfit("behind the answers of %d connections, which are all of the recording, stand %d bytes" % (connections, len(data) - at))
    return found


def reply_at(text, at, head):
    """The reply at this place, and the place behind it; or None."""
    match = REPLY_HEAD.match(text, at)
    if match is None:
        return None
    lines = dict(line.split(b": ", 1) for line in match["lines"].split(b"\r\n") if b": " in line)
    length = lines.get(b"Content-Length", b"-")
    if not length.isdigit():
        return None
    end = match.end() + (0 if head else int(length))
    body = None if head else text[match.end() : end]
    reply = Reply(int(match["status"]), lines.get(b"Content-Type", b"").decode("latin-1"), int(length), b"Connection" in lines, body)
    return (reply, end) if end <= len(text) else None


def replies_of(text, link, items):
    """The replies to the items of a connection, in order."""
    at, found = 0, []
    for place, item in enumerate(items):
        got = reply_at(text, at, item.head)
        if got is None:
            raise Misfit("connection %d has %d items, and no reply to item %d of it stands at byte %d of its answers" % (link, len(items), place, at))
        found.append(got[0])
        at = got[1]
    if at < len(text):
        raise Misfit("connection %d has %d items, and %d bytes stand behind the replies to them" % (link, len(items), len(text) - at))
    return found
