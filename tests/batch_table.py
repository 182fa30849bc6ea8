#!/usr/bin/env python3
"""Batches of requests by several workers: batches, and what an interpreter apart from the repository's code says of their answers.

    batch_table.py [check|make]      compares crates/wasm_tables/data/batch and what stdout there has of it with them, or writes them (tests/lib/tables.py)

Whatever the workers, the policy and the berths of a batch, the answer to each of its requests is that of the request alone: verdict
and units are its own, and its turns are those of its prices in the batch's quantum (docs/DEFINITIONS.md).
"""

import functools
import sys

from lib import in_turns, interpreter, tables
from lib.in_turns import BY_ZERO, DEEP, ENDS_WELL, EXITS, GROWS, NOPS, TWO_ENTRIES
from lib.whole_modules import ECHO, ENDLESS, NOTHING, PAGE_FILLER, UNREACHABLE, ZERO_READER

WORKERS, QUANTA, POLICIES = [1, 2, 4, 64], [1, 7, 100, 1_000_000], ["rr", "edf"]
# The pages of a batch's berths and of the caller's, at most.
MOST_PAGES = 16_384
LARGE = bytes(number * number % 251 for number in range(15_000))

# a module that has at most two pages, a body and a budget
MIXED = [
    (ECHO, b"", 1000),
    (ECHO, b"a few bytes", 1000),
    (ENDLESS, b"", 1000),
    (BY_ZERO, b"", 10),
    (EXITS, b"", 100),
    (ZERO_READER, b"", 100),
    (NOTHING, b"", 0),
    (ENDLESS, b"", 0),
    (NOPS, b"", 2),
    (DEEP, b"", 3000),
    (ECHO, bytes(range(256)), 60),
    (UNREACHABLE, b"unread", 10),
    (TWO_ENTRIES, b"", 100),
    (ENDS_WELL, b"", 100),
    (ENDLESS, b"", 7777),
]
DIRTY = [(PAGE_FILLER, b"", 200_000), (ZERO_READER, b"", 100), (PAGE_FILLER, b"", 1000), (ZERO_READER, b"", 100)]
HELD = [(ENDLESS, b"", 1000)] * 4
TAKEN_OVER = "worker 1 took over what worker 0 began, while worker 0 was held"


@functools.lru_cache(None)
def became(data, body, budget, pages):
    return in_turns.became(data, body, budget, pages)


def taken(requests, count):
    """So many requests, from the first again where there are too few."""
    return [requests[place % len(requests)] for place in range(count)]


def due(place):
    """Deadlines that are not in the order of the places, two by two the same."""
    return place // 2 * 29 % 41


def lines_of(gate, workers, quantum, policy, berths, pages, requests, due=due):
    """The lines of a batch, and those that must be printed of it."""
    answers = [in_turns.answer(*became(*request, pages), quantum) for request in requests]
    read = ["%s %d %d %s %d %d" % (gate, workers, quantum, policy, berths, pages)]
    read += ["%s %s %d %d" % (data.hex(), body.hex() or "-", budget, due(place)) for place, (data, body, budget) in enumerate(requests)]
    return read, ["answers %d" % len(requests), *answers]


def sizes():
    """Batches without a request, and of one."""
    for workers, quantum, policy, berths in [(1, 1, "rr", 1), (64, 100, "edf", 64)]:
        yield lines_of("open", workers, quantum, policy, berths, 1, [])
    for workers, request in zip(WORKERS, MIXED):
        yield lines_of("open", workers, 7, POLICIES[workers % 2], workers, 2, [request])


def mixed():
    """Each number of workers with each quantum, by both policies in turn, with as many berths as workers and with more."""
    for at, workers in enumerate(WORKERS):
        for step, quantum in enumerate(QUANTA):
            policy, more = POLICIES[(at + step) % 2], 3 * ((at + step) // 2 % 2)
            yield lines_of("open", workers, quantum, policy, workers + more, 2, taken(MIXED[at + step :] + MIXED[: at + step], 40))


def berths():
    """Memories that are left dirty, on few berths; fewer berths than workers; more pages; bodies that are large."""
    for workers, quantum, policy in [(1, 100, "rr"), (2, 1_000_000, "edf"), (4, 100, "rr")]:
        yield lines_of("open", workers, quantum, policy, workers, 1, taken(DIRTY, 16))
    yield lines_of("open", 4, 7, "edf", 1, 2, taken(MIXED, 20))
    yield lines_of("open", 2, 7, "rr", 2, 3, taken([(GROWS, b"", 100)], 4))
    yield lines_of("open", 2, 7, "rr", 2, 256, taken([(GROWS, b"", 100)], 4))
    yield lines_of("open", 2, 100, "rr", 3, 2, taken([(ECHO, LARGE, 3000), (ECHO, b"", 3000), (ECHO, LARGE, 500)], 3))


def refused():
    """Settings past the limits and hardly settings; requests of modules that are refused, and that are none."""
    whole = lines_of("open", 2, 7, "rr", 2, 1, taken([(ENDLESS, b"", 100), (ZERO_READER, b"", 100)], 3))
    for head in ["0 7 rr 2 1", "65 7 rr 2 1", "2 0 rr 2 1", "2 7 rr 0 1", "2 7 rr 2 0", "2 7 fifo 2 1", "2 7 rr 2"]:
        yield ["open " + head, *whole[0][1:]], ["no batch"]
    yield ["open 1 7 rr %d 1" % MOST_PAGES], ["no batch"]
    yield ["shut 2 7 rr 2 1"], ["no batch"]
    first, *others = whole[0]
    none = [NOTHING[:-1].hex() + " - 10 0", ECHO.hex() + " - 10 0", "0 - 10 0", NOTHING.hex() + " - %d 0" % (2**40 + 1), NOTHING.hex()]
    yield [first, none[0], others[0], *none[1:3], *others[1:], *none[3:]], whole[1]


def held():
    """Four requests, of which one is taken over by force. Each worker passes the gate once for each turn that it runs."""
    read, wanted = lines_of("held", 2, 100, "rr", 4, 1, HELD)
    passes = sum(interpreter.turns(became(*request, 1)[1], 100) for request in HELD)
    assert (wanted[1:], passes) == (["spent, units 1000, turns 11"] * 4, 44)
    yield read, [*wanted, "passes %d, %s" % (passes, TAKEN_OVER)]


def order(policy, quantum, berths, pages, deadlines, requests):
    """The places of the turns, one by one, where there is a single worker: while a berth is free and a request waits, the next one begins; else one goes on that was stopped, the one that waits longest or the one whose deadline is next."""
    waits, stopped, free, passed = list(range(len(requests))), [], berths, []
    left = [interpreter.turns(became(*request, pages)[1], quantum) for request in requests]
    while waits or stopped:
        if free and waits:
            place, free = waits.pop(0), free - 1
        else:
            place = stopped[0] if policy == "rr" else min(stopped, key=lambda place: (deadlines[place], place))
            stopped.remove(place)
        passed.append(place)
        left[place] -= 1
        if left[place]:
            stopped.append(place)
        else:
            free += 1
    return " ".join(map(str, passed))


# what a worker alone passes with four endless requests on three berths, by each policy
IN_TURN = "0 1 2 0 1 2 0 1 2 0 3 1 2 3 3 3"
BY_DEADLINE = "0 1 2 1 1 1 3 3 3 3 2 2 2 0 0 0"


def noted():
    """The order of the turns of one worker, by both policies: with deadlines two of which are the same, in the order of the places, against it, and with requests of different lengths."""
    endless, deadlines = [(ENDLESS, b"", 300)] * 4, [9, 5, 5, 1]
    assert [order(policy, 100, 3, 2, deadlines, endless) for policy in POLICIES] == [IN_TURN, BY_DEADLINE]
    longer = [(ENDLESS, b"", budget) for budget in (500, 0, 300, 100, 700, 200)]
    for requests, berths, deadlines in [
        (endless, 3, deadlines),
        (endless, 4, [1, 2, 3, 4]),
        (endless, 2, [4, 3, 2, 1]),
        (longer, 3, [30, 2**64 - 1, 20, 20, 0, 10]),
        (taken(MIXED, 12), 5, [due(place) for place in range(12)]),
    ]:
        for policy in POLICIES:
            read, wanted = lines_of("noted", 1, 100, policy, berths, 2, requests, deadlines.__getitem__)
            yield read, [*wanted, "places " + order(policy, 100, berths, 2, deadlines, requests)]


def batches():
    """The lines of each batch, and what must be printed of it."""
    for made in (sizes(), mixed(), berths(), refused(), held(), noted()):
        yield from made


def files():
    read, wanted = zip(*batches())
    stdin, stdout = "".join(tables.text(lines) + "\n" for lines in read), "".join(map(tables.text, wanted))
    return stdin, stdout


if __name__ == "__main__":
    sys.exit(tables.main("batch", files, sys.argv[1:]))
