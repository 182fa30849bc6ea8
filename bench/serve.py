#!/usr/bin/env python3
"""Measures how many requests a second the built program serves over sockets, and how that grows with its workers.

    serve.py [SECONDS]      builds the program where it is not built; each load lasts so many seconds, 3 where nothing is said

A function that does nothing, and one that echoes 1,000 bytes, each with 1, 2 and 4 workers, and asked on 1, 4 and 16 kept connections at
a time, a request behind the reply to the last one. The load comes from `wrk` where it is installed, else from processes of Python, which
are slower than the server: then the figures are of the load too, as the first line says. Where `nginx` is installed, it serves a file
of 1,000 bytes to the same load, by as many processes as there are workers, and the ratio to that is printed.

Server and load share the processors: measure on a machine that does nothing else, and compare lines of one run.
"""

import functools
import multiprocessing
import os
import re
import shutil
import signal
import socket
import subprocess
import sys
import tempfile
import time

sys.path.insert(0, os.path.join(os.path.dirname(os.path.abspath(__file__)), "..", "tests"))

from lib import replays  # noqa: E402
from lib.replays import Route, Tenant, configuration, request  # noqa: E402
from lib.running import build, lay  # noqa: E402
from lib.serving import HOST, Server, connected, dies_with_us, free_ports, on_free_ports, reply_from  # noqa: E402

WORKERS, CONNECTIONS, SIZE = (1, 2, 4), (1, 4, 16), 1000
ROUTES = [Route("/nil", "nil", 10, 1, 0), Route("/echo", "echo", 100000, 2, 0)]
LOADS = {"nothing": request(b"GET", b"/nil"), "echo": request(b"POST", b"/echo", b"x" * SIZE)}
WRK = shutil.which("wrk")
NGINX = shutil.which("nginx") or shutil.which("nginx", path="/usr/sbin")
AGAINST = """daemon off; worker_processes %(workers)d; pid %(folder)s/pid; error_log stderr error; %(user)s
events { worker_connections 256; }
http {
  access_log off; keepalive_requests 1000000000; sendfile on; tcp_nopush on;
  client_body_temp_path %(folder)s/a; proxy_temp_path %(folder)s/b; fastcgi_temp_path %(folder)s/c; uwsgi_temp_path %(folder)s/d; scgi_temp_path %(folder)s/e;
  server { listen %(port)d; root %(folder)s/files; }
}
"""


# ---- loads


def by_wrk(folder, port, item, connections, seconds):
    """Requests a second that wrk counts. It fails where a reply is none of 200."""
    method, path = item.data.split(b" ", 2)[:2]
    script = 'wrk.method = "%s"\n' % method.decode() + ('wrk.body = string.rep("x", %d)\n' % len(item.body) if item.body else "")
    lay(folder, {"load.lua": script.encode()})
    words = [WRK, "--threads", str(min(connections, 2)), "--connections", str(connections), "--duration", "%ds" % seconds,
             "--script", os.path.join(folder, "load.lua"), "http://%s:%d%s" % (HOST, port, path.decode())]  # fmt: skip
    told = subprocess.run(words, stdout=subprocess.PIPE, stderr=subprocess.STDOUT, timeout=seconds + 60).stdout.decode()
    if "Non-2xx" in told or "Socket errors" in told or "Requests/sec" not in told:
        sys.exit("wrk: %s" % told)
    return float(re.search(r"Requests/sec:\s+([\d.]+)", told)[1])


def ask_on(port, item, seconds, results):
    """Asks on one kept connection until the time is over, and tells how often it was answered."""
    with connected(port) as link:
        link.sendall(item.data)
        size, asked, last = len(reply_from(link)), 0, time.monotonic() + seconds
        while time.monotonic() < last:
            link.sendall(item.data)
            left = size
            while left:
                left -= len(link.recv(left))
            asked += 1
    results.put(asked)


def by_python(folder, port, item, connections, seconds):
    results = multiprocessing.Queue()
    askers = [multiprocessing.Process(target=ask_on, args=(port, item, seconds, results), daemon=True) for _ in range(connections)]
    for asker in askers:
        asker.start()
    total = sum(results.get(timeout=seconds + 60) for _ in askers)
    for asker in askers:
        asker.join(60)
    return total / seconds


load = by_wrk if WRK else by_python


# ---- servers


def config_of(workers):
    config = configuration([Tenant(10**12, 0, ROUTES)], 10000, workers=workers, berths=16)
    return on_free_ports(config, clerks=16)


class Files:
    """nginx, which serves a file."""

    def __init__(self, folder, workers):
        self.port, self.folder = free_ports(1)[0], folder
        os.makedirs(os.path.join(folder, "files"), exist_ok=True)
        lay(os.path.join(folder, "files"), {"file": b"x" * SIZE})
        words = {"workers": workers, "folder": folder, "port": self.port, "user": "user root;" if os.geteuid() == 0 else ""}
        lay(folder, {"nginx.conf": (AGAINST % words).encode()})

    def __enter__(self):
        words = [NGINX, "-p", self.folder, "-c", os.path.join(self.folder, "nginx.conf")]
        # Its first process ends the others when it is told to end, and not when it is killed.
        ends = functools.partial(dies_with_us, signal.SIGTERM)
        self.child = subprocess.Popen(words, stdin=subprocess.DEVNULL, stdout=subprocess.DEVNULL, stderr=subprocess.DEVNULL, preexec_fn=ends)
        last = time.monotonic() + 30
        while time.monotonic() < last and self.child.poll() is None:
            with socket.socket() as link:
                if link.connect_ex((HOST, self.port)) == 0:
                    return self
            time.sleep(0.02)
        self.__exit__()
        sys.exit("nginx does not listen")

    def __exit__(self, *_):
        self.child.terminate()
        try:
            self.child.wait(30)
        except subprocess.TimeoutExpired:
            self.child.kill()
            self.child.wait(30)


# ---- the table


def measured(folder, seconds):
    """Requests a second by load, workers and connections."""
    found = {}
    for workers in WORKERS:
        with Server(folder, config_of(workers)) as server:
            for name, item in LOADS.items():
                for connections in CONNECTIONS:
                    found[name, workers, connections] = load(folder, server.ports[0], item, connections, seconds)
        if NGINX:
            with Files(folder, workers) as files:
                for connections in CONNECTIONS:
                    found["file", workers, connections] = load(folder, files.port, request(b"GET", b"/file"), connections, seconds)
    return found


def line_of(found, name, workers, connections):
    here = found[name, workers, connections]
    line = "%-8s %d workers, %2d connections: %7.0f a second, %.2f of those with 1 worker" % (name, workers, connections, here, here / found[name, 1, connections])
    return line + (", %.2f of nginx" % (here / found["file", workers, connections]) if NGINX and name != "file" else "")


def main(words):
    seconds = int(words[0]) if words else 3
    build()
    print("load by %s, %d processors, load average %s" % ("wrk" if WRK else "Python, which is slower than the server", os.cpu_count(), "%.1f" % os.getloadavg()[0]))
    if not NGINX:
        print("nginx is not installed: no ratios to it")
    with tempfile.TemporaryDirectory() as folder:
        os.chmod(folder, 0o755)
        lay(folder, {name: replays.MODULES[name] for name in ("nil", "echo")})
        found = measured(folder, seconds)
    for name, workers, connections in found:
        print(line_of(found, name, workers, connections))


if __name__ == "__main__":
    main(sys.argv[1:])
