#!/usr/bin/env python3
"""Times replays by the built program: how their time grows with the recording, and how many requests it answers a second.

    replay.py [REPEATS]      builds the program where it is not built

4,096 requests of a function that does nothing, and as many of one that echoes 1,000 bytes, are each replayed against half
as many. Processor time is counted, the least of the repeats, and that of a replay of no request is taken off, which is
for reading the configuration and the modules. A replay takes time in the length of its recording where the ratio is about 2.
"""

import json
import os
import resource
import subprocess
import sys
import tempfile

sys.path.insert(0, os.path.join(os.path.dirname(os.path.abspath(__file__)), "..", "tests"))

from lib.recordings import begin, piece, recording  # noqa: E402
from lib.replays import MODULES, Route, Tenant, configuration, request  # noqa: E402
from lib.running import PROGRAM, build  # noqa: E402

MOST = 4096
ROUTES = [Route("/nil", "nil", 10, 1, 0), Route("/echo", "echo", 100000, 2, 0)]
LOADS = {"nothing": request(b"GET", b"/nil"), "an echo of 1,000 bytes": request(b"POST", b"/echo", bytes(1000))}


def used():
    """The processor time of all children so far."""
    usage = resource.getrusage(resource.RUSAGE_CHILDREN)
    return usage.ru_utime + usage.ru_stime


def seconds(folder, repeats):
    """The least processor time of a replay of the recording in the folder."""
    least = float("inf")
    for _ in range(repeats):
        before = used()
        subprocess.run([PROGRAM, "replay", "config", "recording"], cwd=folder, check=True, stdout=subprocess.DEVNULL, stderr=subprocess.DEVNULL, timeout=600)
        least = min(least, used() - before)
    return least


def timed(folder, item, count, repeats):
    with open(os.path.join(folder, "recording"), "wb") as file:
        file.write(recording([begin(0, 0, 0), *(piece(0, 0, item.data) for _ in range(count))]))
    return seconds(folder, repeats)


def main(words):
    repeats = int(words[0]) if words else 9
    build()
    with tempfile.TemporaryDirectory() as folder:
        for name, data in MODULES.items():
            with open(os.path.join(folder, name), "wb") as file:
                file.write(data)
        with open(os.path.join(folder, "config"), "w") as file:
            json.dump(configuration([Tenant(10**12, 0, ROUTES)], 1000), file)
        none = timed(folder, LOADS["nothing"], 0, repeats)
        for name, item in LOADS.items():
            half, whole = (timed(folder, item, count, repeats) - none for count in (MOST // 2, MOST))
            print("%s: %d requests in %.3f s, %d in %.3f s, ratio %.2f, %d requests a second" % (name, MOST // 2, half, MOST, whole, whole / half, MOST / whole))


if __name__ == "__main__":
    main(sys.argv[1:])
