"""The built program as a server of sockets: it is started on free ports, asked, watched from outside, and ended by its process id.

Nothing here waits without a limit. A server is ended where its `with` ends, and by the system where the process that started it ends.
"""

import contextlib
import ctypes
import json
import os
import random
import re
import signal
import socket
import struct
import subprocess
import tempfile
import threading
import time

from lib.arrivals import reply_at
from lib.running import PROGRAM, TOP

HOST = "127.0.0.1"
FILES = "/proc/%d/%s"
TICKS = os.sysconf("SC_CLK_TCK")
PARENT_DEATH_SIGNAL = 1  # of prctl(2)
PORTS = 10000, 32000
HANDED_OUT, HANDING_OUT = set(), threading.Lock()
C_LIBRARY = ctypes.CDLL(None)


def patience():
    """The seconds for which a connection of the server waits for its peer, as its sources say: what `main` sets, or else the adapters."""
    for path in ("crates/sledge/src/main.rt", "crates/outside_links/src/tcp_ports.rt"):
        with open(os.path.join(TOP, path), encoding="utf-8") as file:
            told = re.search(r"PATIENCE_SECONDS: u64 = (\d+);", file.read())
        if told:
            return int(told[1])
    raise RuntimeError("no source says for how long a connection waits")


PATIENCE = patience()
# Seconds that a connection of ours may stand still, and that a server may take to listen or to end: more than it waits itself.
LIMIT = PATIENCE + 30


# ---- ports and configurations


def is_listened_at(number):
    with socket.socket() as one:
        one.settimeout(LIMIT)
        return one.connect_ex((HOST, number)) == 0


def free_ports(count):
    """Numbers at which nothing listens, none of them twice. They lie below those that the system gives to clients. None is bound to find out:
    a process that is started meanwhile would hold it for a moment."""
    found = []
    with HANDING_OUT:
        while len(found) < count:
            number = random.SystemRandom().randrange(*PORTS)
            if number not in HANDED_OUT and not is_listened_at(number):
                HANDED_OUT.add(number)
                found.append(number)
    return found


def on_free_ports(config, **others):
    """The configuration with these keys, each of its tenants on a free port."""
    tenants = [{**tenant, "port": port} for tenant, port in zip(config["tenants"], free_ports(len(config["tenants"])))]
    return {**config, "tenants": tenants, **others}


# ---- the server


def dies_with_us(number=signal.SIGKILL):
    """In a child: the system sends it this signal when the thread that started it ends."""
    C_LIBRARY.prctl(PARENT_DEATH_SIGNAL, number)


class Server:
    """A server of this configuration, which runs in a folder that has its modules."""

    def __init__(self, folder, config):
        self.ports = [tenant["port"] for tenant in config["tenants"]]
        self.out, self.notes = tempfile.TemporaryFile(), tempfile.TemporaryFile()
        name = "serve-%d.json" % self.ports[0]
        with open(os.path.join(folder, name), "w") as file:
            json.dump(config, file)
        self.child = subprocess.Popen([PROGRAM, "serve", name], cwd=folder, stdin=subprocess.DEVNULL, stdout=self.out, stderr=self.notes, preexec_fn=dies_with_us)

    def __enter__(self):
        try:
            for port in self.ports:
                self.await_port(port)
        except BaseException:
            self.end()
            raise
        return self

    def __exit__(self, *_):
        self.end()

    def await_port(self, port):
        """Until it listens there."""
        last = time.monotonic() + LIMIT
        while True:
            with contextlib.suppress(ConnectionRefusedError), connected(port):
                return
            if self.child.poll() is not None or time.monotonic() > last:
                raise RuntimeError("the server does not listen at %d: status %s, %r" % (port, self.child.poll(), self.said()))
            time.sleep(0.02)

    def end(self):
        """Ends it as a system does that stops a service, and by force where that has no effect; answers its exit status."""
        self.child.terminate()
        try:
            return self.child.wait(LIMIT)
        except subprocess.TimeoutExpired:
            self.child.kill()
            return self.child.wait(LIMIT)

    def said(self):
        """What it wrote to standard output and to standard error so far."""
        return tuple(os.pread(stream.fileno(), 1 << 20, 0) for stream in (self.out, self.notes))

    # What the system knows of it.

    def descriptors(self):
        return len(os.listdir(FILES % (self.child.pid, "fd")))

    def status(self, key):
        with open(FILES % (self.child.pid, "status")) as file:
            return int(re.search(r"^%s:\s+(\d+)" % key, file.read(), re.M)[1])

    def resident(self):
        """Its memory, in KiB."""
        return self.status("VmRSS")

    def threads(self):
        return self.status("Threads")

    def processor_time(self):
        """The seconds that it has run on a processor."""
        with open(FILES % (self.child.pid, "stat")) as file:
            fields = file.read().rpartition(")")[2].split()
        return (int(fields[11]) + int(fields[12])) / TICKS


# ---- clients


def connected(port):
    link = socket.create_connection((HOST, port), LIMIT)
    link.setsockopt(socket.IPPROTO_TCP, socket.TCP_NODELAY, 1)
    return link


def sent(link, data):
    """Whether all of it could be sent: a peer that has refused what came before may be gone."""
    try:
        link.sendall(data)
        return True
    except (BrokenPipeError, ConnectionResetError):
        return False


def rest_of(link):
    """All that still comes, up to the end of the connection; a reset ends it too, and is told by a None behind it."""
    got = []
    try:
        while data := link.recv(1 << 16):
            got.append(data)
    except ConnectionResetError:
        return b"".join(got), None
    return b"".join(got)


def none_of(link):
    """What has come, and `-` where nothing has."""
    try:
        return link.recv(100)
    except BlockingIOError:
        return b"-"


def exchanged(port, pieces, chance=None):
    """What comes back on a connection of its own, on which the pieces are sent, now and then with a short pause, and whose end is told behind them."""
    with connected(port) as link:
        for piece in pieces:
            if not sent(link, piece):
                break
            if chance and chance.random() < 0.2:
                time.sleep(0.001)
        with contextlib.suppress(OSError):
            link.shutdown(socket.SHUT_WR)
        return rest_of(link)


def reply_from(link, head=False):
    """The bytes of one reply, or those that came before the connection ended. More than one reply is all told."""
    got = b""
    while reply_at(got, 0, head) is None:
        data = link.recv(1 << 16)
        if not data:
            break
        got += data
    return got


def asked(port, data, head=False):
    """The reply to a request on a connection of its own, and the seconds that it took."""
    begun = time.monotonic()
    with connected(port) as link:
        link.sendall(data)
        return reply_from(link, head), time.monotonic() - begun


def vanished(link):
    """Ends a connection as a client that crashes: by a reset."""
    link.setsockopt(socket.SOL_SOCKET, socket.SO_LINGER, struct.pack("ii", 1, 0))
    link.close()


def cut(chance, stream):
    """The stream in pieces, cut at places by chance."""
    count = chance.choice([0, 1, 2, 3, 10, len(stream) if len(stream) < 200 else 30])
    places = sorted(random.Random(chance.random()).choices(range(len(stream) + 1), k=count))
    return [stream[start:end] for start, end in zip([0, *places], [*places, len(stream)])]
