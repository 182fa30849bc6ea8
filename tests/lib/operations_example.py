"""The example of docs/OPERATIONS.md, reckoned by docs/FORMATS.md alone: its requests, what its meters let in, and what its functions
take by the interpreter in Python; and how the page's commands and tables are found.
"""

import os
import re

from lib import config_reader, interpreter, module_validator, recordings, replays
from lib.recordings import begin, close, piece
from lib.running import TOP

OPERATIONS = os.path.join(TOP, "examples", "operations")
# The tenants in their order, each with the bodies that it sends usually and at most.
TENANTS = {"weather": ("day", "week"), "archive": ("letter", "report"), "shop": ("order", "bulk")}


def content(name):
    with open(os.path.join(OPERATIONS, name), "rb") as file:
        return file.read()


def config(name):
    """A configuration of the example, whose modules are laid for the interpreter."""
    config = config_reader.read(content(name))
    for route in config_reader.routes_of(config):
        with open(os.path.join(TOP, route["module"]), "rb") as file:
            replays.MODULES[route["module"]] = file.read()
    return config


def requests():
    """Moment, link and item of each request of the example's lines, which are read word by word here."""
    for line in content("lines").decode().splitlines():
        words = line.split(" ", 6)
        if words[0] == "request":
            body = content(words[6]) if words[5] == "file" else words[6].replace("\\n", "\n").encode()
            item = replays.request(words[3].encode(), words[4].encode(), body)
            item.data = item.data.replace(b"Host: x", b"Host: localhost")
            yield int(words[1]), int(words[2]), item


def recording():
    records = [begin(0, link, link) for link in range(3)]
    records += [piece(moment, link, item.data) for moment, link, item in requests()]
    return recordings.recording(records + [close(1000, link) for link in range(3)])


def account(tenant, asked):
    """What becomes of the requests (a moment and an item) of a tenant with one route: how many there are, the statuses of the replies, the
    estimates that are let in, and the prices of each request that is."""
    route, level, last, statuses, let_in, spent = tenant["routes"][0], 0, 0, [], 0, []
    for moment, item in asked:
        level, last = max(0, level - tenant["rate"] * (moment - last)), moment
        if level + route["estimate"] > tenant["capacity"]:
            statuses.append(503)
            continue
        level, let_in = level + route["estimate"], let_in + route["estimate"]
        verdict, prices = replays.ran(route["module"], item.body, route["budget"], route["pages"])
        statuses.append(200 if verdict[0] == "reply" else 504 if verdict[0] == "spent" else 500)
        spent.append(prices)
    return len(statuses), statuses, let_in, spent


def accounts(config):
    asked = list(requests())
    return [account(tenant, [(moment, item) for moment, at, item in asked if at == link]) for link, tenant in enumerate(config["tenants"])]


def summary(config):
    """The note that a replay of the example must leave."""
    found = accounts(config)
    spent = [prices for _, _, _, requests in found for prices in requests]
    total, turns, units = sum(count for count, *_ in found), sum(interpreter.turns(prices, config["quantum"]) for prices in spent), sum(map(sum, spent))
    return "requests %d admitted %d started %d turns %d units %d" % (total, len(spent), len(spent), turns, units)


def units(name, body):
    return sum(interpreter.run(module_validator.decode(replays.MODULES["examples/%s/%s.wasm" % (name, name)]), body, 10**9)[1])


def page_rows(page, heading):
    """The rows of the tables below a heading of the page, without commas in numbers."""
    section = page.split("\n### %s\n" % heading)[1].split("\n## ")[0].split("\n### ")[0]
    rows = [[cell.strip(" `") for cell in line.strip("|").split("|")] for line in section.splitlines() if line.startswith("| `")]
    return [[re.sub(r"(?<=\d),(?=\d{3})", "", cell) for cell in row] for row in rows]


def commands(page):
    """Each command of the page behind `$`, and what stands below it."""
    found, within = [], False
    for line in page.splitlines():
        if line.startswith("    $ "):
            found.append((line[6:], []))
            within = True
        elif within and line.startswith("    "):
            found[-1][1].append(line[4:] + "\n")
        else:
            within = False
    return [(command, "".join(told)) for command, told in found]


def wishes(page):
    """Of each tenant how many requests it wishes at once, and in a second."""
    return [(int(row[4]), int(row[5])) for row in page_rows(page, "What they wish")]


# ---- the tables of the page: a name, what is reckoned, and what the page says


def with_measures(page, first):
    sizes = [[units(name, content(body)) for body in bodies] for name, bodies in zip(("csv", "sha256", "json"), TENANTS.values())]
    decoded = [module_validator.decode(replays.MODULES[route["module"]]) for route in config_reader.routes_of(first)]
    due = [[name, *map(str, size), str(module.memories[0][0])] for name, size, module in zip(TENANTS, sizes, decoded)]
    yield "units and pages of the example", due, page_rows(page, "What a request takes")


def with_first(page, first):
    rows = []
    for tenant, (at_once, second) in zip(first["tenants"], wishes(page)):
        budget, estimate = (tenant["routes"][0][key] for key in ("budget", "estimate"))
        capacity = "%d × %d = %d" % (at_once, estimate, at_once * estimate)
        rate = "%d × %d / 1000 = %d" % (second, estimate, second * estimate // 1000)
        rows.append([tenant["name"], str(budget), capacity, rate])
        yield "the numbers of first.json", [budget, at_once * budget, second * budget // 1000], [estimate, tenant["capacity"], tenant["rate"]]
    yield "the first configuration", rows, page_rows(page, "A first configuration")


def with_answers(page, first):
    rows = []
    for name, (count, statuses, let_in, spent) in zip(TENANTS, accounts(first)):
        total = sum(map(sum, spent))
        rows.append([name, *map(str, [count, *(statuses.count(status) for status in (200, 500, 503)), let_in, total, round(total / len(spent))])])
    yield "the answers of the example", rows, page_rows(page, "Its answers")


def with_bounds(page, better):
    rows = []
    for tenant in better["tenants"]:
        ratio = tenant["routes"][0]["budget"] / tenant["routes"][0]["estimate"]
        rows.append([tenant["name"], str(tenant["rate"]), "%.3g" % ratio, "%.0f" % (tenant["rate"] * ratio)])
    yield "what better estimates may cost", rows, page_rows(page, "Better estimates")


def with_tables(page):
    first, better = config("first.json"), config("better.json")
    for rows_of in (with_measures, with_first, with_answers):
        yield from rows_of(page, first)
    yield from with_bounds(page, better)
