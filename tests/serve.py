#!/usr/bin/env python3
"""Runs `serve` of the built program, and asks it over real connections.

    serve.py      builds the program where it is not built, by the script `sledge` at the top

What is due is reckoned by docs/FORMATS.md (tests/lib/replays.py), or is what `replay` writes of the same streams with the same
configuration. `curl`, `wrk` and `nginx` are tried where they are installed, and left out with a line where they are not. The groups
run side by side, each with a server of its own, which is ended by its process id whatever happens. All of it takes up to four times
the time limit of a connection, since as long a client that never reads may keep its clerk.
"""

import contextlib
import json
import os
import random
import re
import shlex
import shutil
import socket
import subprocess
import sys
import tempfile
import threading
import time
from concurrent.futures import ThreadPoolExecutor

from http_table import ECHO_AND_NIL, ROWS, made_stream
from lib import interpreter, recordings, replays, usage
from lib.arrivals import answers_of
from lib.harmful_clients import DEAF, WAITS, deaf, deaf_link, dripping, later, silent
from lib.module_writer import module
from lib.proxying import NGINX, Proxy
from lib.replays import EXITS, START, Item, Route, Tenant, configuration, refusal, request
from lib.running import PROGRAM, TOP, build, differs, lay
from lib.serving import (
    HOST, LIMIT, PATIENCE, Server, asked, connected, cut, exchanged, is_listened_at, none_of, on_free_ports, reply_from, vanished,
)  # fmt: skip

SLACK = 10  # seconds that a machine with other work may take besides
AMPLE = 10**12
WRITES = "16 77 61 73 69 5F 73 6E 61 70 73 68 6F 74 5F 70 72 65 76 69 65 77 31 08 66 64 5F 77 72 69 74 65 00 00"

MODULES = {
    **replays.MODULES,
    # It replies with the most that a reply may have: 65,536 bytes, by one fd_write of an iovec at 65,536 that spans the first page.
    "large": module(
        types=["60 04 7F 7F 7F 7F 01 7F", "60 00 00"], imports=[WRITES], functions=["01"], memories=["00 02"], exports=[START + "01"],
        bodies=["41 84 80 04 41 80 80 04 36 02 00 41 01 41 80 80 04 41 01 41 88 80 04 10 00 1A"],
    ),
}  # fmt: skip
LARGE = bytes(65536)


def route(path, name, budget=AMPLE // 10, pages=2, estimate=0, kind="application/octet-stream"):
    return Route(path, name, budget, pages, estimate, kind)


def reply(item, verdict=("reply", b""), kind="application/octet-stream"):
    return interpreter.reply_text(verdict, kind, item.head, item.keep)


def within(seconds, took):
    """A time that is compared with its limit: the limit alone where it was kept."""
    return "within %.1f s" % seconds if took <= seconds else "%.1f s" % took


# ---- refusals, before any connection


def ended(folder, words):
    """The status and the outputs of a call that ends by itself."""
    done = subprocess.run([PROGRAM, *words], cwd=folder, stdin=subprocess.DEVNULL, stdout=subprocess.PIPE, stderr=subprocess.PIPE, timeout=LIMIT)
    return done.returncode, done.stdout, done.stderr


def with_refusals(folder):
    config = on_free_ports(configuration([Tenant(AMPLE, 0, [route("/nil", "nil")])], 1000))
    files = {
        "unknown-key": {**config, "color": 1},
        "no-module": {**config, "tenants": [{**config["tenants"][0], "routes": [{**config["tenants"][0]["routes"][0], "module": "none"}]}]},
        "no-wasm": {**config, "tenants": [{**config["tenants"][0], "routes": [{**config["tenants"][0]["routes"][0], "module": "unknown-key"}]}]},
    }
    lay(folder, {name: json.dumps(content).encode() for name, content in files.items()})
    rows = [
        (["serve"], 2, "usage"), (["serve", "a", "b"], 2, "usage"), (["serve", "missing"], 3, "read missing"), (["serve", "unknown-key"], 4, "config 61"),
        (["serve", "no-module"], 3, "read none"), (["serve", "no-wasm"], 5, "module 15 0 0"),
    ]  # fmt: skip
    for words, status, note in rows:
        yield " ".join(words), (status, b"", note + "\n"), (lambda got: (got[0], got[1], got[2].decode()))(ended(folder, words))


def with_a_taken_port(folder):
    config = on_free_ports(configuration([Tenant(AMPLE, 0, [route("/nil", "nil")])] * 2, 1000))
    lay(folder, {"taken": json.dumps(config).encode()})
    with socket.create_server(("", config["tenants"][1]["port"])):
        status, out, notes = ended(folder, ["serve", "taken"])
    yield "a port that is taken", (10, b"", b"door"), (status, out, notes.splitlines()[-1])
    yield "and the port before it is free again", False, is_listened_at(config["tenants"][0]["port"])


# ---- requests and replies


def plain_tenants():
    many = [
        route("/nil", "nil"), route("/echo", "echo", kind="text/plain"), route("/trap", "trap"), route("/exit", "exit"),
        route("/loop", "loop", budget=5000), route("/zero", "zero"), route("/large", "large", budget=10**6),
    ]  # fmt: skip
    few = [route("/nil", "nil", estimate=40)]
    return [Tenant(AMPLE, 0, many), Tenant(100, 0, few), Tenant(AMPLE, 0, [route("/echo", "echo", kind="text/html")])]


def rows_of_requests():
    """A name, the item, and the reply that is due."""
    def get(path, **others):
        return request(b"GET", path, **others)

    echo, head = request(b"POST", b"/echo", b"hi"), request(b"HEAD", b"/nil")
    yield "a function that does nothing", get(b"/nil"), lambda item: reply(item)
    yield "an echo", echo, lambda item: reply(item, ("reply", b"hi"), "text/plain")
    yield "a query", Item(b"GET /echo?a=b HTTP/1.1\r\nHost: x\r\n\r\n"), lambda item: reply(item, kind="text/plain")
    yield "a HEAD", head, lambda item: reply(item)
    yield "a HEAD of a reply with a body", request(b"HEAD", b"/zero"), lambda item: reply(item, ("reply", bytes(16)))
    yield "the greatest reply", get(b"/large"), lambda item: reply(item, ("reply", LARGE))
    yield "a trap", get(b"/trap"), lambda item: reply(item, ("trap", "unreachable"))
    yield "an exit code", get(b"/exit"), lambda item: reply(item, ("exit", 3))
    yield "a spent budget", get(b"/loop"), lambda item: reply(item, ("spent",))
    yield "a path without a route", get(b"/none"), lambda item: refusal(9, item)
    yield "a method that is not served", request(b"PUT", b"/nil"), lambda item: refusal(8, item)
    yield "a body that is too long", Item(b"POST /nil HTTP/1.1\r\nHost: x\r\nContent-Length: 1048577\r\n\r\n", keep=False), lambda item: refusal(5, item)
    yield "no Host", Item(b"GET /nil HTTP/1.1\r\n\r\n", keep=False), lambda item: refusal(2, item)
    yield "a body in chunks", Item(b"POST /nil HTTP/1.1\r\nHost: x\r\nTransfer-Encoding: chunked\r\n\r\n", keep=False), lambda item: refusal(3, item)
    yield "HTTP/1.0", get(b"/nil", minor=0), lambda item: reply(item)
    yield "a connection that is to close", get(b"/nil", lines=[b"Connection: close"], keep=False), lambda item: reply(item)


def with_requests(port):
    """Each on a connection of its own; those that keep it all on one, one after another; and all of these at once."""
    kept = [(item, due(item)) for _, item, due in rows_of_requests() if item.keep]
    for name, item, due in rows_of_requests():
        yield name, due(item), asked(port, item.data, item.head)[0]
        if not item.keep:
            yield name + ", and then the end", due(item), exchanged(port, [item.data])
    with connected(port) as link:
        for item, due in kept:
            link.sendall(item.data)
            yield "%r on a kept connection" % item.data[:40], due, reply_from(link, item.head)
    whole = b"".join(item.data for item, _ in kept)
    yield "pipelined requests", b"".join(due for _, due in kept), exchanged(port, [whole])
    many = request(b"GET", b"/nil")
    yield "a thousand pipelined requests", reply(many) * 1000, exchanged(port, [many.data * 1000])


def with_admission(port):
    """A capacity of 100 and an estimate of 40, and nothing leaks: two are let in, by all connections together."""
    item = request(b"GET", b"/nil")
    got = [asked(port, item.data)[0] for _ in range(4)]
    yield "admission", [reply(item)] * 2 + [refusal(10, item)] * 2, got


def at_once(chance, port, kind, count, failed):
    """A client that sends echoes on kept connections, and keeps what was answered with something else."""
    for _ in range(count // 20):
        with connected(port) as link:
            for _ in range(20):
                body = chance.randbytes(chance.choice([0, 1, 100, 1000, 20000]))
                item = request(b"POST", b"/echo", body)
                link.sendall(item.data)
                got = reply_from(link)
                if got != reply(item, ("reply", body), kind):
                    failed.append((kind, body[:40], got[:200]))


def with_clients_at_once(first, second, third):
    """Four clients on three tenants, two of them on one."""
    failed = []
    clients = [(first, "text/plain"), (first, "text/plain"), (second, "text/html"), (third, "text/css")]
    threads = [threading.Thread(target=at_once, args=(random.Random(place), *client, 400, failed)) for place, client in enumerate(clients)]
    for thread in threads:
        thread.start()
    for thread in threads:
        thread.join(3 * LIMIT)
    yield "four clients at once on three tenants", ([], False), (failed, any(thread.is_alive() for thread in threads))


def with_rest(server):
    """A server that nobody asks takes next to no processor time."""
    time.sleep(1)
    before = server.processor_time()
    time.sleep(3)
    used = server.processor_time() - before
    yield "processor time of three seconds at rest", "at most 0.03 s", "at most 0.03 s" if used <= 0.03 else "%.2f s" % used


def with_plain(folder):
    tenants = plain_tenants()
    tenants.append(Tenant(AMPLE, 0, [route("/echo", "echo", kind="text/css")]))
    config = on_free_ports(configuration(tenants, 1000, workers=2, berths=4))
    with Server(folder, config) as server:
        first, few, second, third = server.ports
        yield from with_requests(first)
        yield from with_admission(few)
        yield from with_clients_at_once(first, second, third)
        yield from with_curl(folder, first)
        yield from with_wrk(first)
        yield from with_nginx(folder, first)
        yield from with_rest(server)
        yield "standard output of a server", b"", server.said()[0]
        yield "a server that is told to stop", -15, server.end()


# ---- what others have made to talk to servers


def left_out(what, why):
    print("%s is not installed: %s is left out" % (what, why))


def curled(*words):
    done = subprocess.run(["curl", "--silent", "--show-error", "--max-time", str(LIMIT), *words], stdout=subprocess.PIPE, stderr=subprocess.STDOUT, timeout=2 * LIMIT)
    return done.stdout


def with_curl(folder, port):
    if not shutil.which("curl"):
        left_out("curl", "asking by it")
        return
    at = "http://%s:%d" % (HOST, port)
    lay(folder, {"body": b"b" * 60000, "too-long": bytes(1048577)})
    told = "%{http_code} %{num_connects}\n"
    yield "curl", b"", curled(at + "/nil")
    yield "curl --data", b"hi", curled("--data", "hi", at + "/echo")
    yield "curl of a long body", b"b" * 60000, curled("--data-binary", "@" + os.path.join(folder, "body"), at + "/echo")
    yield "curl --head", reply(request(b"HEAD", b"/zero"), ("reply", bytes(16))), curled("--head", at + "/zero")
    yield "curl of three on one connection", b"200 1\n404 0\n200 0\n", curled(*["--output", os.devnull] * 3, "--write-out", told, *(at + path for path in ("/nil", "/none", "/nil")))
    yield "curl --request PUT", b"method not allowed405", curled("--request", "PUT", "--write-out", "%{http_code}", at + "/nil")
    yield "curl of a body that is too long", b"payload too large413", curled("--data-binary", "@" + os.path.join(folder, "too-long"), "--write-out", "%{http_code}", at + "/nil")
    yield "curl of a body in chunks", b"not implemented: transfer coding501", curled("--header", "Transfer-Encoding: chunked", "--data", "hi", "--write-out", "%{http_code}", at + "/nil")
    yield "curl by HTTP/1.0", b"hi", curled("--http1.0", "--data", "hi", at + "/echo")


def with_wrk(port):
    if not shutil.which("wrk"):
        left_out("wrk", "a load by it")
        return
    words = ["wrk", "--threads", "2", "--connections", "4", "--duration", "1s", "http://%s:%d/nil" % (HOST, port)]
    told = subprocess.run(words, stdout=subprocess.PIPE, stderr=subprocess.STDOUT, timeout=LIMIT).stdout.decode()
    faults = [line.strip() for line in told.splitlines() if "Socket errors" in line or "Non-2xx" in line]
    yield "a load by wrk", ([], True), (faults, "Requests/sec" in told)


def told_of(reply_bytes):
    """The status line and the body of a reply, of which a proxy changes the other lines."""
    head, _, body = reply_bytes.partition(b"\r\n\r\n")
    return head.split(b"\r\n")[0], body


def with_nginx(folder, port):
    if not NGINX:
        left_out("nginx", "the proxy in front")
        return
    with tempfile.TemporaryDirectory(dir=folder) as inside, Proxy(inside, port) as proxy:
        for name, item, due in rows_of_requests():
            # A proxy repairs or refuses these by itself.
            if name not in ("no Host", "a body in chunks", "a body that is too long", "HTTP/1.0"):
                yield name + ", behind nginx", told_of(due(item)), told_of(asked(proxy.here, item.data, item.head)[0])
        chunked = b"POST /echo HTTP/1.1\r\nHost: x\r\nTransfer-Encoding: chunked\r\nConnection: close\r\n\r\n2\r\nhi\r\n0\r\n\r\n"
        yield "a body in chunks, which nginx joins", (b"HTTP/1.1 200 OK", b"hi"), told_of(silent(connected(proxy.here), chunked)[0])
        echo = request(b"POST", b"/echo", b"x" * 1000)

        def ask(_):
            return told_of(asked(proxy.here, echo.data)[0])

        with ThreadPoolExecutor(8) as pool:
            got = list(pool.map(ask, range(200)))
        yield "200 echoes of eight clients behind nginx", [(b"HTTP/1.1 200 OK", b"x" * 1000)] * 200, got


# ---- streams, byte for byte what `replay` gives


def streams(chance):
    yield from (stream for stream, _, _ in ROWS)
    yield from (ECHO_AND_NIL[:place] for place in range(0, len(ECHO_AND_NIL) + 1, 5))
    yield b"POST / HTTP/1.1\r\nHost: x\r\nContent-Length: 1048576\r\n\r\n" + bytes(1048576) + b"GET /a HTTP/1.1\r\nHost: x\r\n\r\n"
    yield from (made_stream(chance) for _ in range(250))


def replayed(folder, config, every):
    """The replies that a replay gives to each stream, all on connections of tenant 0."""
    records = [part for link, stream in enumerate(every) for part in (recordings.begin(0, link, 0), recordings.piece(0, link, stream))]
    lay(folder, {"streams.json": json.dumps(config).encode(), "streams": recordings.recording(records)})
    status, text, notes = ended(folder, ["replay", "streams.json", "streams"])
    assert status == 0, notes
    return answers_of(text, len(every))


def with_streams(folder):
    chance = random.Random(1999)
    routes = [route("/", "echo"), route("/a", "echo", kind="text/plain"), route("/a/b", "trap"), route("//a", "exit"), route("/echo", "echo"), route("/nil", "zero")]
    config = on_free_ports(configuration([Tenant(AMPLE, 0, routes)], 100, workers=2, berths=4), clerks=16)
    every = list(streams(chance))
    due = replayed(folder, config, every)
    cuts = [(cut(chance, stream), random.Random(place)) for place, stream in enumerate(every)]
    with Server(folder, config) as server, ThreadPoolExecutor(8) as pool:
        got = pool.map(lambda one: exchanged(server.ports[0], *one), cuts)
        for stream, wanted, came in zip(every, due, got):
            yield "the stream %r" % stream[:120], wanted, came


# ---- clients that do harm to themselves


CLERKS = 2
DRIPS = 3  # seconds for which the slow clients send


def with_harm(folder):
    """Each tenant has two clerks, and two clients that hold them; the last one has none of these."""
    tenants = [Tenant(AMPLE, 0, [route("/nil", "nil"), route("/large", "large", budget=10**6)]) for _ in range(5)]
    config = on_free_ports(configuration(tenants, 1000, workers=2, berths=4), clerks=CLERKS)
    item = request(b"GET", b"/nil")
    with Server(folder, config) as server, ThreadPoolExecutor(16) as pool:
        gone, idle, slow, mute, well = server.ports
        halves = [b"GET /nil HTTP/1.1\r\nHo", b"POST /nil HTTP/1.1\r\nHost: x\r\nContent-Length: 5\r\n\r\nabc", item.data]
        links = {port: [connected(port) for _ in range(CLERKS)] for port in (idle, slow)}
        links[mute] = [deaf_link(mute) for _ in range(CLERKS)]
        came = [pool.submit(silent, link, half) for link, half in zip(links[idle], halves)]
        drips = [pool.submit(dripping, link, DRIPS) for link in links[slow]]
        stuck = [pool.submit(deaf, link, DEAF) for link in links[mute]]
        for turn in range(20):
            link = connected(gone)
            link.sendall(halves[turn % 3])
            vanished(link)
        behind = {
            "clients that vanish": pool.submit(later, gone, item.data, 0),
            "clients that fall silent": pool.submit(later, idle, item.data, PATIENCE),
            "clients that send a byte a second": pool.submit(later, slow, item.data, DRIPS + PATIENCE),
            "clients that never read": pool.submit(later, mute, item.data, WAITS * PATIENCE),
        }
        limits = [SLACK, PATIENCE + SLACK, DRIPS + PATIENCE + 1 + SLACK, WAITS * PATIENCE + 1 + SLACK]
        for _ in range(20):
            got, took = asked(well, item.data)
            yield "another tenant meanwhile", (reply(item), within(SLACK, 0)), (got, within(SLACK, took))
            time.sleep(0.1)
        for (name, one), limit in zip(behind.items(), limits):
            got, took = one.result(limit + 3 * LIMIT)
            yield "one that comes behind " + name, (reply(item), within(limit, 0)), (got, within(limit, took))
        closing = Item(b"", keep=False)
        for number, one in zip((1, 6), came):
            got, took = one.result(PATIENCE + LIMIT)
            yield "a client that falls silent", (refusal(number, closing), within(PATIENCE + SLACK, 0)), (got, within(PATIENCE + SLACK, took))
        got, took = silent(connected(idle), item.data)
        yield "a kept connection without a request", (reply(item), within(PATIENCE + SLACK, 0)), (got, within(PATIENCE + SLACK, took))
        for every in links.values():
            for link in every:
                link.close()
        for one in drips + stuck:
            one.result(WAITS * PATIENCE + 2 * LIMIT)


# ---- many connections, one after another

MOST_GROWN = 512  # KiB that a thousand connections may add


def one_after_another(port, count):
    """The connections of as many clients, most of which ask and close; some vanish, some send half, some nothing."""
    closing = request(b"GET", b"/nil", lines=[b"Connection: close"], keep=False)
    echo = request(b"POST", b"/echo", bytes(1000))
    wrong = 0
    for place in range(count):
        if place % 10 == 0:
            vanished(connected(port))
        elif place % 10 == 1:
            wrong += exchanged(port, [echo.data[:60]]) != refusal(6, Item(b"", keep=False))
        elif place % 10 == 2:
            wrong += asked(port, echo.data)[0] != reply(echo, ("reply", bytes(1000)))
        else:
            wrong += exchanged(port, [closing.data]) != reply(closing)
    return wrong


def settled(server, descriptors):
    """The number of descriptors, as soon as it is that of before, or after a while."""
    last = time.monotonic() + PATIENCE + SLACK
    while server.descriptors() > descriptors and time.monotonic() < last:
        time.sleep(0.1)
    return server.descriptors()


def with_many(folder):
    config = on_free_ports(configuration([Tenant(AMPLE, 0, [route("/nil", "nil"), route("/echo", "echo")])], 1000))
    with Server(folder, config) as server:
        time.sleep(0.5)
        descriptors, threads = server.descriptors(), server.threads()
        wrong = one_after_another(server.ports[0], 500)
        # Threads come to what they keep for themselves; what is lost with each connection is lost in every series.
        grown = []
        while len(grown) < 3 and min(grown, default=MOST_GROWN) >= MOST_GROWN:
            resident = server.resident()
            wrong += one_after_another(server.ports[0], 1000)
            grown.append(server.resident() - resident)
        yield "replies to a thousand connections one after another", 0, wrong
        yield "descriptors behind them", descriptors, settled(server, descriptors)
        yield "threads behind them", threads, server.threads()
        yield "memory behind them", [], grown if min(grown) >= MOST_GROWN else []


# ---- requests that never end


def with_endless(folder, policy="rr"):
    """Fifteen of them on each of two tenants with sixteen clerks, and more berths than can be taken. By `edf` they have time, and the others have not."""
    routes = [route("/loop", "loop", budget=2**40, pages=1), route("/nil", "nil"), route("/echo", "echo", budget=10**6)]
    config = on_free_ports(configuration([Tenant(2**40, 0, routes) for _ in range(3)], 500, workers=2, policy=policy, berths=48), clerks=16)
    for tenant in config["tenants"]:
        tenant["routes"][0]["deadline"] = 2**32 - 1
    endless, short, echo = request(b"GET", b"/loop"), request(b"GET", b"/nil"), request(b"POST", b"/echo", bytes(20000))
    with Server(folder, config) as server, contextlib.ExitStack() as stack:
        links = [stack.enter_context(connected(port)) for port in server.ports[:2] for _ in range(15)]
        for link in links:
            link.sendall(endless.data)
        time.sleep(1)
        for port in server.ports:
            for item, due in ((short, reply(short)), (echo, reply(echo, ("reply", bytes(20000))))) * 3:
                got, took = asked(port, item.data)
                yield "a short request beside thirty that never end, by " + policy, (due, within(SLACK, 0)), (got, within(SLACK, took))
        for link in links:
            link.setblocking(False)
        yield "those that never end have no reply", [b"-"] * 30, [none_of(link) for link in links]


def with_endless_by_deadline(folder):
    return with_endless(folder, "edf")


# ---- what the documents show


def shown(page):
    """The command of README.md that asks the example's server, and what it must show."""
    lines = page.splitlines()
    at = next(place for place, line in enumerate(lines) if line.startswith("    curl --include"))
    block = lines[at + 4 : next(place for place in range(at + 4, len(lines)) if lines[place] and not lines[place].startswith("    "))]
    return lines[at].strip(), "\n".join(line[4:] for line in block).strip("\n")


def with_documents(folder):
    with open(os.path.join(TOP, "docs", "OPERATIONS.md"), encoding="utf-8") as file:
        told = re.search(r"waits for its client for (\d+) seconds", file.read())
    yield "the time limit in docs/OPERATIONS.md", str(PATIENCE), told and told[1]
    with open(os.path.join(TOP, "examples", "config", "server.json")) as file:
        config = json.load(file)
    number, config = config["tenants"][0]["port"], on_free_ports(config)
    os.symlink(os.path.join(TOP, "examples"), os.path.join(folder, "examples"))
    with open(os.path.join(TOP, "README.md"), encoding="utf-8") as file:
        command, due = shown(file.read())
    if not shutil.which("curl"):
        left_out("curl", "the command of README.md")
        return
    with Server(folder, config) as server:
        words = shlex.split(command.replace(":%d/" % number, ":%d/" % server.ports[0]))
        yield "README.md: " + command, due, curled(*words[1:]).decode().replace("\r\n", "\n")


GROUPS = [with_harm, with_plain, with_streams, with_many, with_endless, with_endless_by_deadline, with_refusals, with_a_taken_port, with_documents]


def passed_and_failed(folder, group):
    own = os.path.join(folder, group.__name__)
    os.mkdir(own)
    lay(own, MODULES)
    made = failed = 0
    try:
        for name, wanted, got in group(own):
            made, failed = made + 1, failed + differs(name, wanted, got)
    except (OSError, RuntimeError, AssertionError, subprocess.SubprocessError, TimeoutError) as error:
        made, failed = made + 1, failed + 1
        print("%s: %s: %s" % (group.__name__, type(error).__name__, error))
    return made, failed


def main(words):
    usage.none(words, __doc__)
    build()
    with tempfile.TemporaryDirectory() as folder, ThreadPoolExecutor(len(GROUPS)) as pool:
        made, failed = map(sum, zip(*pool.map(lambda group: passed_and_failed(folder, group), GROUPS)))
    print("%d passed, %d failed" % (made - failed, failed))
    return failed != 0


if __name__ == "__main__":
    sys.exit(main(sys.argv[1:]))
