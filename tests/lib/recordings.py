#!/usr/bin/env python3
"""Recordings, as docs/FORMATS.md describes them: a writer, and a reader apart from the repository's code.

    recordings.py      reads lines of words, and writes the recording that they spell

The lines are `begin MOMENT LINK TENANT`, `piece MOMENT LINK TEXT`, where `\\r`, `\\n`, `\\\\` and `\\xHH` in TEXT
stand for single bytes, and `close MOMENT LINK`. The end is written behind the last line. Nothing is checked, so that a
recording that must be refused can be written too.
"""

import codecs
import struct
import sys

MAGIC = b"SLR1"
END, BEGIN, PIECE, CLOSE = range(4)
NAMES = ("end", "begin", "piece", "close")
MOST_BYTES = 32 * 1024 * 1024
MOST_CONNECTIONS = 1024


# ---- the writer


def begin(moment, link, tenant):
    return struct.pack("<BIII", BEGIN, moment, link, tenant)


def piece(moment, link, data):
    return struct.pack("<BIII", PIECE, moment, link, len(data)) + data


def close(moment, link):
    return struct.pack("<BII", CLOSE, moment, link)


def recording(records):
    return MAGIC + b"".join(records) + bytes([END])


def record_of_line(line):
    words = line.split(" ", 3)
    kind, numbers, rest = words[0], [int(word) for word in words[1:3]], words[3:]
    if kind == "begin":
        return begin(*numbers, int(rest[0]))
    if kind == "piece":
        text = rest[0] if rest else ""
        return piece(*numbers, codecs.escape_decode(text.encode())[0])
    if kind == "close" and not rest:
        return close(*numbers)
    raise ValueError("no record: %s" % line)


# ---- the reader: the records, or the number of the first refusal


class Refused(Exception):
    """The number; the place of the byte that is looked at, from 0 on; the number of its record; and further facts by names."""

    def __init__(self, number, at=0, record=0, **facts):
        super().__init__(number)
        self.number, self.at, self.record, self.facts = number, at, record, facts


def read_records(data, tenants):
    """Each record as its kind, moment and link, and its tenant, its bytes or None."""
    if len(data) > MOST_BYTES:
        raise Refused(76, size=len(data))
    if data[:4] != MAGIC:
        raise Refused(70)
    at, last, open_links, records = 4, 0, [], []

    def refuse(number, place, **facts):
        raise Refused(number, place, len(records), **facts)

    while True:
        if at == len(data):
            refuse(71, at, part="the end")
        kind = data[at]
        if kind > 3:
            refuse(72, at, kind=kind)
        if kind == END:
            if at + 1 < len(data):
                refuse(78, at + 1, rest=len(data) - at - 1)
            return records
        if at + 9 > len(data):
            refuse(71, at, part="a record")
        moment, link = struct.unpack_from("<II", data, at + 1)
        if moment < last:
            refuse(73, at, moment=moment, last=last)
        if kind == BEGIN:
            if link != len(open_links):
                refuse(74, at, link=link, next=len(open_links))
        elif link >= len(open_links) or not open_links[link]:
            refuse(74, at, link=link, kind=kind, begun=link < len(open_links))
        number, end = None, at + 9
        if kind != CLOSE:
            if at + 13 > len(data):
                refuse(71, at, part="a record")
            (number,) = struct.unpack_from("<I", data, at + 9)
            end = at + 13
        if kind == PIECE:
            end += number
            if end > len(data):
                refuse(71, at, part="a piece", length=number, left=len(data) - at - 13)
        if link >= MOST_CONNECTIONS:
            refuse(76, at, link=link)
        if kind == BEGIN and number >= tenants:
            refuse(75, at, link=link, tenant=number, tenants=tenants)
        if kind == BEGIN:
            open_links.append(True)
            records.append((BEGIN, moment, link, number))
        elif kind == PIECE:
            records.append((PIECE, moment, link, data[at + 13 : end]))
        else:
            open_links[link] = False
            records.append((CLOSE, moment, link, None))
        at, last = end, moment


def told(kind, moment, link, value):
    """A record in words."""
    rest = {BEGIN: lambda: " %d" % value, PIECE: lambda: " " + (value.hex() or "-"), CLOSE: lambda: ""}[kind]()
    return "%s %d %d%s" % (NAMES[kind], moment, link, rest)


def read(data, tenants):
    return [told(*record) for record in read_records(data, tenants)]


def answer(data, tenants):
    try:
        return "".join(" %s;" % record for record in read(data, tenants))
    except Refused as refused:
        return " refused %d" % refused.args[0]


def main():
    lines = sys.stdin.read().splitlines()
    sys.stdout.buffer.write(recording(record_of_line(line) for line in lines if line))


if __name__ == "__main__":
    main()
