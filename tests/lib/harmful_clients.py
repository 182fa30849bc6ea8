"""Clients of a server that do harm, to themselves and to those who wait behind them."""

import socket
import time

from lib.replays import request
from lib.serving import HOST, LIMIT, PATIENCE, connected, reply_from, rest_of, sent

DEAF = 400  # requests of 64 KiB each, which is more than the system keeps of them
WAITS = 4  # A write that the system takes a part of is gone on with, and may wait again.


def silent(link, data=b""):
    """Sends something, and then nothing; answers what comes and how long it took until the end."""
    begun = time.monotonic()
    link.sendall(data)
    return rest_of(link), time.monotonic() - begun


def dripping(link, seconds):
    """Sends a head of which a byte comes each second."""
    last = time.monotonic() + seconds
    for byte in request(b"GET", b"/nil").data[:-1]:
        if time.monotonic() >= last or not sent(link, bytes([byte])):
            return
        time.sleep(1)


def deaf(link, count):
    """Asks for more than the system keeps for it, and reads nothing."""
    link.settimeout(WAITS * PATIENCE + LIMIT)
    try:
        sent(link, request(b"GET", b"/large").data * count)
    except socket.timeout:
        pass


def later(port, data, limit):
    """How long a client waits for its reply that comes behind others."""
    begun = time.monotonic()
    with connected(port) as link:
        link.settimeout(limit + LIMIT)
        link.sendall(data)
        return reply_from(link), time.monotonic() - begun


def deaf_link(port):
    """A connection with little room for what comes."""
    link = socket.socket()
    link.setsockopt(socket.SOL_SOCKET, socket.SO_RCVBUF, 4096)
    link.settimeout(LIMIT)
    link.connect((HOST, port))
    return link
