#!/usr/bin/env python3
"""Times the built program `server_tables` on streams of 64 MiB and of half that size.

    http_front.py        the program has to be built (`rt run` in crates/server_tables does it)

For each kind of stream it prints the bytes a second and how the time of the whole is to that of half:
where the work is linear, the ratio is 2. A time is the least of several runs.
"""

import os
import subprocess
import sys
import tempfile
import time

TOP = os.path.join(os.path.dirname(os.path.abspath(__file__)), "..")
PROGRAM = os.path.join(TOP, "crates", "server_tables", "out", "server_tables")
RUNS = 3
WHOLE = 64 << 20

SMALL = b"GET /nil HTTP/1.1\r\nHost: x\r\n\r\n"
LARGE = b"POST /echo HTTP/1.1\r\nHost: x\r\nContent-Length: 1048576\r\n\r\n"

# The kind, its piece as the program reads it, the piece's size, its requests, and in parts of how many bytes it is fed.
KINDS = [
    ("small pipelined requests", "2048*%s" % SMALL.hex(), 2048 * len(SMALL), 2048, 65536),
    ("bodies of 1 MiB", "%s+1048576*61" % LARGE.hex(), len(LARGE) + 1048576, 1, 65536),
    ("requests cut into single bytes", "2048*%s" % SMALL.hex(), 2048 * len(SMALL), 2048, 1),
]


def seconds(count, step, piece, items):
    times = []
    with tempfile.TemporaryDirectory() as folder:
        with open(os.path.join(folder, "cases"), "w", encoding="ascii") as file:
            file.write("times %d %d %s\n" % (count, step, piece))
        for _ in range(RUNS):
            start = time.monotonic()
            done = subprocess.run([PROGRAM, "http", "cases"], cwd=folder, capture_output=True, check=True, timeout=600)
            times.append(time.monotonic() - start)
            assert done.stdout == b" %d\n" % items, done.stdout[:100]
    return min(times)


def main():
    for kind, piece, size, requests, step in KINDS:
        count = WHOLE // size
        whole = seconds(count, step, piece, count * requests)
        half = seconds(count // 2, step, piece, count // 2 * requests)
        print("%-32s %7.1f MB a second, ratio %.2f" % (kind, count * size / whole / 1e6, whole / half))
    return 0


if __name__ == "__main__":
    sys.exit(main())
