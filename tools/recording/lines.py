"""Recordings as lines that people write, and the lines of a recording. What they may be is in the help of `tools/record`."""

import os
import re

from lib import recordings, tool

MOST_NUMBER = (1 << 32) - 1
ESCAPES = {"r": b"\r", "n": b"\n", "t": b"\t", "\\": b"\\"}
METHOD = re.compile(r"[!#$%&'*+\-.^_`|~0-9A-Za-z]+")
HEADER = re.compile(r"[!#$%&'*+\-.^_`|~0-9A-Za-z]+:.*")
SHAPES = {
    "begin": "begin MOMENT LINK TENANT",
    "request": "request MOMENT LINK METHOD TARGET [HTTP/1.0] [text TEXT | file NAME]",
    "piece": "piece MOMENT LINK TEXT",
    "file": "file MOMENT LINK NAME",
    "close": "close MOMENT LINK",
}


class Fault(Exception):
    """What is wrong with a line, and its number where it is not the one that is read."""

    def __init__(self, text, number=None):
        super().__init__(text)
        self.number = number


# ---- texts


def unescaped(text):
    """The bytes that a text stands for."""
    found, at = [], 0
    while at < len(text):
        if text[at] != "\\":
            found.append(text[at].encode())
            at += 1
        elif text[at + 1 : at + 2] in ESCAPES:
            found.append(ESCAPES[text[at + 1]])
            at += 2
        elif re.fullmatch("x[0-9a-fA-F]{2}", text[at + 1 : at + 4]):
            found.append(bytes.fromhex(text[at + 2 : at + 4]))
            at += 4
        else:
            raise Fault("\\%s stands for no byte; there are \\r, \\n, \\t, \\\\ and \\xHH" % text[at + 1 : at + 2])
    return b"".join(found)


def escaped(data):
    """The text that stands for the bytes. A blank at an end is spelt, so that nobody loses it."""
    names = {byte[0]: "\\" + letter for letter, byte in ESCAPES.items()}
    found = [names.get(byte) or (chr(byte) if 0x20 <= byte < 0x7F else "\\x%02x" % byte) for byte in data]
    for end in (0, -1):
        if found and found[end] == " ":
            found[end] = "\\x20"
    return "".join(found)


# ---- one recording


class Writer:
    """The records so far, and what the next line is held against."""

    def __init__(self, folder, names):
        self.folder, self.names = folder, names
        self.records, self.size, self.moment, self.open_links = [], len(recordings.recording([])), 0, []

    def number(self, word, what):
        if not re.fullmatch("[0-9]+", word) or len(word) > 20 or int(word) > MOST_NUMBER:
            raise Fault("%s is a number from 0 to %d, and not %s" % (what, MOST_NUMBER, word))
        return int(word)

    def later(self, word):
        """The moment of a line, which is never below the one before."""
        if word.startswith("+"):
            moment = self.moment + self.number(word[1:], "the moment behind +")
        else:
            moment = self.number(word, "the moment")
        if moment < self.moment:
            raise Fault("the moment %d is below that of the line before, %d" % (moment, self.moment))
        if moment > MOST_NUMBER:
            raise Fault("the moment would be %d, and may be %d" % (moment, MOST_NUMBER))
        return moment

    def open_link(self, word):
        link = self.number(word, "the link")
        if link >= len(self.open_links):
            raise Fault("no connection has begun with the link %d" % link)
        if not self.open_links[link]:
            raise Fault("the connection %d is closed" % link)
        return link

    def tenant(self, word):
        if self.names is not None and word in self.names:
            return self.names.index(word)
        if not re.fullmatch("[0-9]+", word):
            known = "no configuration is given" if self.names is None else "it has " + ", ".join(self.names)
            raise Fault("no tenant has the name %s: %s" % (word, known))
        tenant = self.number(word, "the tenant")
        if self.names is not None and tenant >= len(self.names):
            raise Fault("there is no tenant %d: the configuration has %d, from 0 on" % (tenant, len(self.names)))
        return tenant

    def content(self, name):
        try:
            return tool.content(os.path.join(self.folder, name))
        except tool.Wrong as wrong:
            raise Fault(str(wrong)) from None

    def add(self, moment, record):
        if self.size + len(record) > recordings.MOST_BYTES:
            raise Fault("with this line the recording has more than %d bytes" % recordings.MOST_BYTES)
        self.size += len(record)
        self.records.append(record)
        self.moment = moment

    # ---- a line of each kind: its moment, the word behind it, and the rest

    def begin(self, moment, link, rest):
        link, due = self.number(link, "the link"), len(self.open_links)
        if link != due:
            raise Fault("the next connection has the link %d, and not %d" % (due, link))
        if link >= recordings.MOST_CONNECTIONS:
            raise Fault("a recording has at most %d connections" % recordings.MOST_CONNECTIONS)
        self.add(moment, recordings.begin(moment, link, self.tenant(rest)))
        self.open_links.append(True)

    def piece(self, moment, link, rest):
        self.add(moment, recordings.piece(moment, self.open_link(link), unescaped(rest)))

    def file(self, moment, link, rest):
        self.add(moment, recordings.piece(moment, self.open_link(link), self.content(rest)))

    def close(self, moment, link, rest):
        link = self.open_link(link)
        self.add(moment, recordings.close(moment, link))
        self.open_links[link] = False

    def request(self, moment, link, rest, headers):
        link = self.open_link(link)
        self.add(moment, recordings.piece(moment, link, request(self, rest, headers)))

    def line(self, text, headers):
        """Takes one line, with the header lines below it."""
        kind, *words = text.split(" ", 3)
        if kind not in SHAPES:
            raise Fault("%s begins no line; there are %s" % (kind, ", ".join(SHAPES)))
        if headers and kind != "request":
            raise Fault("a line behind blanks is a header line, and there is no request above it", headers[0][0])
        if kind == "piece" and len(words) == 2:
            words.append("")
        if len(words) != (2 if kind == "close" else 3) or not all(words[:2]) or not (words[-1] or kind == "piece"):
            raise Fault("it has not the shape %s" % SHAPES[kind])
        moment, rest = self.later(words[0]), (words + [""])[2]
        if kind == "request":
            self.request(moment, words[1], rest, headers)
        else:
            getattr(self, kind)(moment, words[1], rest)


# ---- a request


def parts(writer, text):
    """Method, target, version, and the body or None, of what a request's line has behind its link."""
    method, _, text = text.partition(" ")
    target, _, text = text.partition(" ")
    if not METHOD.fullmatch(method) or not target:
        raise Fault("it has not the shape %s" % SHAPES["request"])
    version = "HTTP/1.1"
    if text.split(" ", 1)[0] in ("HTTP/1.0", "HTTP/1.1"):
        version, _, text = text.partition(" ")
    kind, _, rest = text.partition(" ")
    if kind == "text":
        return method, target, version, unescaped(rest)
    if kind == "file" and rest:
        return method, target, version, writer.content(rest)
    if text:
        raise Fault("behind the target stands HTTP/1.0, text TEXT or file NAME, and not %s" % text)
    return method, target, version, None


def checked_header(number, text):
    if not HEADER.fullmatch(text):
        raise Fault("it is no header line, NAME: VALUE", number)
    if text.lower().startswith("content-length:"):
        raise Fault("the Content-Length is counted; a request with another one is written as a piece", number)
    return text


def request(writer, text, headers):
    """The bytes of a request that is written in words."""
    method, target, version, body = parts(writer, text)
    own = [checked_header(*header) for header in headers]
    host = [] if version == "HTTP/1.0" or any(line.lower().startswith("host:") for line in own) else ["Host: localhost"]
    sized = [] if body is None else ["Content-Length: %d" % len(body)]
    head = ["%s %s %s" % (method, target, version), *host, *own, *sized]
    return "".join(line + "\r\n" for line in head).encode() + b"\r\n" + (body or b"")


# ---- the lines of a file


def grouped(texts):
    """The lines that say something, each with its number and the header lines below it, which have numbers too."""
    group = None
    for number, text in enumerate(texts, 1):
        text = text.removesuffix("\r")
        bare = text.strip(" \t")
        if not bare or bare.startswith("#"):
            continue
        if text[0] not in " \t":
            if group:
                yield group
            group = number, text, []
        elif group is None:
            raise Fault("a line behind blanks is a header line, and there is no request above it", number)
        else:
            group[2].append((number, bare))
    if group:
        yield group


def recording(source, data, names):
    """The recording that the lines of a file spell, whose tenants have these names, if they are known."""
    try:
        texts = data.decode().split("\n")
    except UnicodeDecodeError as error:
        raise tool.Wrong("%s:%d: the line is no UTF-8" % (source, data.count(b"\n", 0, error.start) + 1)) from None
    writer = Writer("" if source == "-" else os.path.dirname(source), names)
    number = 0
    try:
        for number, text, headers in grouped(texts):
            writer.line(text, headers)
    except Fault as fault:
        raise tool.Wrong("%s:%d: %s" % (source, fault.number or number, fault)) from None
    return recordings.recording(writer.records)


# ---- the lines of a recording


def line_of(record):
    """The line of a record that the reader in `tests/lib/recordings.py` tells."""
    words = record.split(" ")
    if words[0] != "piece":
        return record
    text = escaped(bytes.fromhex(words[3].strip("-")))
    return " ".join(words[:3] + [text] * bool(text))
