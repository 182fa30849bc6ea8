"""A reader of streams of HTTP/1.1 requests, written from docs/FORMATS.md ("HTTP") and RFC 9112 alone, over a whole stream at once,
and the refusals of requests. Nothing here is taken from the repository's code, which reads its streams in pieces.
"""

import re

MOST_HEAD = 8192
MOST_LINES = 128
MOST_BODY = 1048576

HEAD = re.compile(
    rb"(?:\r?\n)*"
    rb"(?P<method>[!#$%&'*+\-.^_`|~0-9A-Za-z]+) (?P<target>[\x21-\x7e\x80-\xff]+) HTTP/1\.(?P<minor>[01])\r?\n"
    rb"(?P<lines>(?:[!#$%&'*+\-.^_`|~0-9A-Za-z]+:[\t\x20-\x7e\x80-\xff]*\r?\n)*)"
    rb"\r?\n"
)
EMPTY_LINES = re.compile(rb"(?:\r\n)*")
LINE_END = re.compile(rb"\r?\n")
LINE = re.compile(rb"(?P<name>[^:]+):(?P<value>[^\r\n]*)\r?\n")
TARGET = re.compile(rb"(?:(?=/)|[hH][tT][tT][pP]://[^/?]+(?=[/?]|$))(?P<path>[^?]*)")


class Heard:
    """A request for a path, or the refusal with this number. `line` is its first line, where its bytes have a head. It is whole with so many
    bytes of its stream (`end`), or with the end of the stream (None)."""

    def __init__(self, end, number=None, line=None, method=None, path=None, keep=False, body=b""):
        self.end, self.number, self.line, self.method, self.path, self.keep, self.body = end, number, line, method, path, keep, body
        self.head = method == b"HEAD"

    def written(self):
        if self.number:
            return "%d %s %s;" % (self.number, "head" if self.head else "whole", "keep" if self.keep else "close")
        keep = "keep" if self.keep else "close"
        return "%s %s %s %d:%d;" % (self.method.decode(), self.path.decode(), keep, len(self.body), mark_of(self.body))


def head_at(stream, at):
    """The match of the head at this place of the stream, if there is one."""
    match = HEAD.match(stream, at, at + MOST_HEAD)
    if match is None:
        return None
    if match["lines"].count(b"\n") > MOST_LINES:
        return None
    try:
        match["target"].decode("utf-8")
    except UnicodeDecodeError:
        return None
    return match


def mark_of(body):
    mark = 0
    for byte in body:
        mark = (mark * 31 + byte) % (1 << 32)
    return mark


def heard_of(stream, ended):
    """What the stream asks, item by item."""
    at = 0
    while True:
        match, left = head_at(stream, at), len(stream) - at
        if match is None:
            if left == 0 or (ended and left < MOST_HEAD and EMPTY_LINES.fullmatch(stream, at)):
                return
            if left >= MOST_HEAD or ended:
                yield Heard(at + MOST_HEAD if left >= MOST_HEAD else None, 1)
            return
        at = match.end()
        method = match["method"]
        asked = {"line": LINE_END.split(stream[match.start("method") : at], maxsplit=1)[0], "method": method}
        lines = [(line["name"].lower(), line["value"].strip(b" \t")) for line in LINE.finditer(match["lines"])]
        old = match["minor"] == b"0"
        if not old and [name for name, _ in lines].count(b"host") != 1:
            yield Heard(at, 2, **asked)
            return
        if any(name == b"transfer-encoding" for name, _ in lines):
            yield Heard(at, 3, **asked)
            return
        lengths = [value for name, value in lines if name == b"content-length"]
        if len(lengths) > 1 or not all(re.fullmatch(rb"[0-9]+", value) for value in lengths):
            yield Heard(at, 4, **asked)
            return
        digits = lengths[0].lstrip(b"0") if lengths else b""
        if len(digits) > 7 or (digits and int(digits) > MOST_BODY):
            yield Heard(at, 5, **asked)
            return
        size = int(digits or b"0")
        if len(stream) - at < size:
            if ended:
                yield Heard(None, 6, **asked)
            return
        body, at = stream[at : at + size], at + size
        words = b",".join(value for name, value in lines if name == b"connection").split(b",")
        keep = not old and not any(word.strip(b" \t").lower() == b"close" for word in words)
        target = match["target"]
        form = TARGET.match(target) if re.fullmatch(rb"[\x21-\x7e]+", target) else None
        if form is None:
            yield Heard(at, 7, **asked)
            return
        if method not in (b"GET", b"HEAD", b"POST"):
            yield Heard(at, 8, keep=keep, **asked)
        else:
            yield Heard(at, keep=keep, path=form["path"] or b"/", body=body, **asked)
        if not keep:
            return


def items_of(stream, ended):
    """The same, each item as a text."""
    return (item.written() for item in heard_of(stream, ended))


# The status and the body of each refusal.
REFUSALS = {
    1: ("400 Bad Request", "bad request: head"),
    2: ("400 Bad Request", "bad request: host"),
    3: ("501 Not Implemented", "not implemented: transfer coding"),
    4: ("400 Bad Request", "bad request: content length"),
    5: ("413 Payload Too Large", "payload too large"),
    6: ("400 Bad Request", "bad request: cut body"),
    7: ("400 Bad Request", "bad request: target"),
    8: ("405 Method Not Allowed", "method not allowed"),
    9: ("404 Not Found", "no route"),
    10: ("503 Service Unavailable", "admission spent"),
}
