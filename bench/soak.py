#!/usr/bin/env python3
"""Times `soak` of the built program on 1,000 and on 4,000 requests.

    soak.py [ROUNDS]         builds the program where it is not built, by the script `sledge` at the top

It prints the requests a second of both, and how the times are to one another: where the work is linear, the ratio is 4. A time is
that of the processor, so that other programs on the machine disturb it little; the least of the rounds counts, without that of a run
of one request. The start is the same in each, so the requests of the smaller run are the first ones of the larger.
"""

import os
import resource
import subprocess
import sys

sys.path.insert(0, os.path.join(os.path.dirname(os.path.abspath(__file__)), "..", "tests"))

from lib.running import PROGRAM, build  # noqa: E402

START = 1


def spent():
    """The processor seconds of all runs so far."""
    used = resource.getrusage(resource.RUSAGE_CHILDREN)
    return used.ru_utime + used.ru_stime


def seconds(count, rounds):
    times = []
    for _ in range(rounds):
        begun = spent()
        done = subprocess.run([PROGRAM, "soak", str(START), str(count)], capture_output=True, timeout=600)
        times.append(spent() - begun)
        if done.returncode != 0 or not done.stdout.startswith(b"requests %d " % count):
            sys.exit("soak %d %d: %r" % (START, count, done))
    return min(times)


def main(words):
    rounds = int(words[0]) if words else 15
    build()
    none = seconds(1, rounds)
    times = [seconds(count, rounds) - none for count in (1000, 4000)]
    for count, taken in zip((1000, 4000), times):
        print("%5d requests %7.1f ms, %7.0f requests a second" % (count, taken * 1000, count / taken))
    print("ratio of the times %.2f" % (times[1] / times[0]))
    return 0


if __name__ == "__main__":
    sys.exit(main(sys.argv[1:]))
