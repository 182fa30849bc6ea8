#!/usr/bin/env python3
"""Configurations, as docs/FORMATS.md describes them: cases, and what a reader apart from the repository's code says of them.

    config_table.py [check|make]      compares crates/server_tables/data/config and what stdout there has of it with them, or writes them (tests/lib/tables.py)

A case is a line: `read HEX NAME` asks for the configuration of these bytes, `size COUNT HEX NAME` for
that of these bytes with blanks behind them up to so many bytes, and `find TENANT HEX` for the route
of the path in the last configuration that was read. Texts of a configuration are printed in hexadecimal.
"""

import copy
import json
import random
import sys

from lib import config_reader, tables

FIRST = {
    "workers": 2, "quantum": 1000, "policy": "rr", "berths": 2,
    "tenants": [{
        "name": "a", "port": 8080, "capacity": 1000000, "rate": 1000,
        "routes": [
            {"path": "/echo", "module": "e", "budget": 100000, "pages": 2, "estimate": 500, "deadline": 50, "content_type": "text/plain"},
            {"path": "/nil", "module": "m0", "budget": 10, "pages": 1, "estimate": 10, "deadline": 50},
        ],
    }],
}
SECOND = {
    "workers": 1, "quantum": 1000000, "policy": "rr", "berths": 1,
    "tenants": [{
        "name": "a", "port": 8080, "capacity": 1000000, "rate": 1000,
        "routes": [
            {"path": "/fill", "module": "f", "budget": 200000, "pages": 1, "estimate": 1, "deadline": 50},
            {"path": "/zero", "module": "z", "budget": 100, "pages": 1, "estimate": 1, "deadline": 50},
        ],
    }],
}
GONE = object()


class Raw:
    """A value that is written as this very text."""

    def __init__(self, text):
        self.text = text


def written(value):
    if isinstance(value, Raw):
        return value.text
    if isinstance(value, dict):
        return "{" + ",".join(json.dumps(key) + ":" + written(item) for key, item in value.items()) + "}"
    if isinstance(value, list):
        return "[" + ",".join(map(written, value)) + "]"
    return json.dumps(value)


def changed(config, *changes):
    """The configuration with each (path of keys, value) in it; GONE takes a key away."""
    config = copy.deepcopy(config)
    for path, value in changes:
        holder = config
        for key in path[:-1]:
            holder = holder[key]
        if value is GONE:
            holder.pop(path[-1], None)
        else:
            holder[path[-1]] = value
    return config


TENANT, ROUTE = ("tenants", 0), ("tenants", 0, "routes", 1)
LISTS = {(): config_reader.TOP, TENANT: config_reader.TENANT, ROUTE: config_reader.ROUTE}
NUMBERS = {
    "workers": (1, 64), "quantum": (1, 2**32 - 1), "berths": (2, 256), "clerks": (1, 16), "port": (1, 65535),
    "capacity": (0, 2**40), "rate": (0, 2**32 - 1), "budget": (0, 2**40), "pages": (1, 1024),
    "estimate": (0, 2**40), "deadline": (0, 2**32 - 1),
}
TEXTS = {"name": 64, "path": 256, "module": 256, "content_type": 128}
NO_NUMBERS = ["-0", "-1", "1.0", "1e0", "1E+0", "18446744073709551616", "1e308", "null", "true", '"1"', "[1]", "{}"]
NO_TEXTS = ["null", "false", "1", '["a"]', '{"a":"a"}']


def route(path, **others):
    return {"path": path, "module": "m", "budget": 1, "pages": 1, "estimate": 1, "deadline": 1, **others}


def tenant(name, port, routes):
    return {"name": name, "port": port, "capacity": 1, "rate": 1, "routes": routes}


def top(tenants, **others):
    return {"workers": 1, "quantum": 1, "policy": "edf", "berths": 1, **others, "tenants": tenants}


def key_cases():
    """Each number in each object and key where it can come."""
    for place, table in LISTS.items():
        yield "unknown key", changed(FIRST, (place + ("color",), 1))
        yield "key in capitals", changed(FIRST, (place + (table[0][0].upper(),), 1))
        for key, _, _ in table:
            path = place + (key,)
            yield "without " + key, changed(FIRST, (path, GONE))
            if key in NUMBERS:
                least, most = NUMBERS[key]
                for value in sorted({0, least, least + 1, most, most + 1, 2**63, 2**64 - 1} | ({least - 1} if least else set())):
                    yield "%s %d" % (key, value), changed(FIRST, (path, value))
                for value in NO_NUMBERS:
                    yield "%s %s" % (key, value), changed(FIRST, (path, Raw(value)))
            if key in TEXTS:
                first = "/" if key == "path" else "a"
                for count in (0, 1, 2, TEXTS[key], TEXTS[key] + 1):
                    yield "%s of %d" % (key, count), changed(FIRST, (path, (first + "a" * count)[:count]))
                for value in NO_TEXTS:
                    yield "%s %s" % (key, value), changed(FIRST, (path, Raw(value)))
            if key in ("tenants", "routes", "policy"):
                for value in NO_TEXTS[:3] + ['"rr"', "{}", "[]", "[1]", "[null]", "[[]]", "[{}]"]:
                    yield "%s %s" % (key, value), changed(FIRST, (path, Raw(value)))
    for value in ("edf", "RR", "rr ", "", "fifo"):
        yield "policy " + value, changed(FIRST, (("policy",), value))


def letter_cases():
    """Letters at the edges of what a name, a path and a content type may have."""
    for letter in "az09_-AZ`{/:.@ [^\u00e9\u0000\u007f":
        yield "name with %r" % letter, changed(FIRST, (TENANT + ("name",), "a" + letter))
    for letter in "!~{}:*?/#%\\\" \u007f\u00e9\u0000|za.":
        yield "path with %r" % letter, changed(FIRST, (ROUTE + ("path",), "/a" + letter))
    for path in ("a", "/", "//", "a/", " /", "\u20ac"):
        yield "path %r" % path, changed(FIRST, (ROUTE + ("path",), path))
    for letter in " ~!;\"\\\u007f\u001f\u00e9\t\n":
        yield "content type with %r" % letter, changed(FIRST, (ROUTE + ("content_type",), "a" + letter))
        yield "module with %r" % letter, changed(FIRST, (ROUTE + ("module",), "a" + letter))
    for count in (63, 64, 85, 86):
        yield "%d letters of three bytes" % count, changed(FIRST, (ROUTE + ("module",), "\u20ac" * count))
    for text in ('"\\u0061"', '"\\/a"', '"\\ud83d\\ude00"', '"\\ud83d"', '"\\ude00"', '"\\ud83da"', '"\\u00zz"', '"\\x61"', '"a\nb"', '"a\\nb"', '"a'):
        for key in ("module", "path"):
            yield "%s %r" % (key, text), changed(FIRST, (ROUTE + (key,), Raw(text)))


WALK = [
    ("no object", (), Raw("[]")), ("unknown key", ("color",), 1), ("workers", ("workers",), 65), ("quantum", ("quantum",), -1),
    ("policy", ("policy",), "x"), ("berths", ("berths",), GONE), ("clerks", ("clerks",), 0), ("tenants", ("tenants",), 1),
]
IN_TENANT = [
    ("tenant's unknown key", TENANT + ("x",), 1), ("name", TENANT + ("name",), ""), ("port", TENANT + ("port",), GONE),
    ("capacity", TENANT + ("capacity",), Raw("1.0")), ("rate", TENANT + ("rate",), 2**32), ("routes", TENANT + ("routes",), GONE),
]
IN_ROUTE = [
    ("route's unknown key", ROUTE + ("x",), 1), ("path", ROUTE + ("path",), 1), ("module", ROUTE + ("module",), GONE),
    ("budget", ROUTE + ("budget",), 2**41), ("pages", ROUTE + ("pages",), 0), ("estimate", ROUTE + ("estimate",), GONE),
    ("deadline", ROUTE + ("deadline",), Raw("null")), ("content type", ROUTE + ("content_type",), ""),
]
AFTER = [
    ("a name twice", ("tenants", 1), tenant("a", 1, [route("/z")])),
    ("a bad path", ROUTE + ("path",), "x"),
    ("a bad content type", ROUTE + ("content_type",), "\u00e9"),
    ("too large a region", ROUTE + ("pages",), 1024),
]


def with_two(one, two):
    config = changed(FIRST, (("tenants",), FIRST["tenants"] + [tenant("b", 2, [route("/b")])]), (("berths",), 16))
    return changed(config, one, two)


def pair_cases():
    """Two faults in one file, at every two places that follow one another in the walk."""
    for table in (WALK[1:], IN_TENANT, IN_ROUTE, AFTER):
        for (one, at, value), (two, other, last) in zip(table, table[1:]):
            yield one + " and " + two, with_two((at, value), (other, last))
            yield two + " alone", with_two((other, last), (other, last))
    yield "tenants and a tenant", changed(FIRST, (("tenants",), [1] * 65))
    yield "routes and a route", changed(FIRST, (TENANT + ("routes",), [1] * 65))
    yield "second route before later tenant", with_two((ROUTE + ("pages",), 0), (("tenants", 1, "port"), 0))
    yield "tenant's routes before next tenant", with_two((ROUTE + ("path",), ""), (("tenants", 1), 7))
    yield "walk before the whole", with_two((ROUTE + ("path",), "x"), (("tenants", 1, "routes", 0, "deadline"), -1))
    yield "no JSON before all", Raw(written(changed(FIRST, (("color",), 1))) + "x")
    same = route("/same")
    yield "a port twice", changed(FIRST, (("tenants",), FIRST["tenants"] + [tenant("b", 8080, [route("/b")])]))
    yield "a path twice", changed(FIRST, (TENANT + ("routes",), [same, same]))
    yield "a path in two tenants", top([tenant("a", 1, [same]), tenant("b", 2, [same])])
    yield "a name before a bad path", top([tenant("a", 1, [route("x")]), tenant("a", 2, [same])])
    yield "a bad path before a path twice", top([tenant("a", 1, [same, same, route("x")])])
    yield "a path twice before a content type", top([tenant("a", 1, [route("/x", content_type="\u00e9"), same, same])])
    yield "a content type before a region", top([tenant("a", 1, [route("/x", content_type="\u00e9", pages=1024)])], berths=200)


def size_cases():
    """Numbers of tenants and routes, and regions."""
    for count in (63, 64, 65):
        yield "%d tenants" % count, top([tenant("t%d" % place, place + 1, [route("/")]) for place in range(count)])
        yield "%d routes" % count, top([tenant("t", 1, [route("/%d" % place) for place in range(count)])])
    halves = lambda first, second: top([
        tenant("a", 1, [route("/%d" % place) for place in range(first)]),
        tenant("b", 2, [route("/%d" % place) for place in range(second)]),
    ])
    yield "64 routes in two", halves(32, 32)
    yield "65 routes in two", halves(33, 32)
    yield "65 routes before a name twice", top([
        tenant("a", 1, [route("/%d" % place) for place in range(64)]), tenant("a", 1, [route("/")])])
    for berths, pages in ((15, 1024), (16, 1024), (255, 64), (256, 63), (256, 64), (63, 256), (64, 256)):
        yield "%d berths of %d" % (berths, pages), top([tenant("a", 1, [route("/a"), route("/b", pages=pages), route("/c")])], berths=berths)
    for workers, berths in ((5, 4), (5, 5), (64, 64), (64, 63)):
        yield "%d workers and %d berths" % (workers, berths), top([tenant("a", 1, [route("/")])], workers=workers, berths=berths)


def text_cases():
    """Files that are no JSON, or JSON that is written in another way."""
    first = written(FIRST)
    for name, text in (
        ("nothing", ""), ("a blank", " "), ("a brace", "{"), ("an array", "[]"), ("a number", "1"), ("null", "null"), ("an empty object", "{}"),
        ("blanks around", " \t\r\n" + first + "\n "), ("a comma behind", first + ","), ("two", first + first), ("a comma at the end", first[:-1] + ",}"),
        ("a comment", "/* */" + first), ("one quote", first.replace('"', "'")), ("a byte order mark", "\ufeff" + first),
        ("a form feed", "\f" + first), ("infinity", first.replace("1000000", "1e400")), ("not a number", first.replace("1000000", "NaN")),
        ("a zero in front", first.replace("1000000", "01")), ("a plus", first.replace("1000000", "+1")), ("a point at the end", first.replace("1000000", "1.")),
        ("a key twice, the last one bad", first.replace('"workers":2', '"workers":2,"workers":99')),
        ("a key twice, the first one bad", first.replace('"workers":2', '"workers":99,"workers":2')),
        ("a key written otherwise", first.replace('"workers"', '"\\u0077orkers"')),
        ("an unknown key twice", first.replace('"workers":2', '"workers":2,"x":1,"x":2')),
        ("nested deeply", "[" * 127 + "]" * 127), ("nested too deeply", "[" * 128 + "]" * 128),
        ("nested too deeply at an unknown key", first[:-1] + ',"x":' + "[" * 127 + "]" * 127 + "}"),
        ("nested deeply at an unknown key", first[:-1] + ',"x":' + "[" * 126 + "]" * 126 + "}"),
        ("true for a file", "true"), ("tru", "tru"), ("a text for a file", '"a"'),
    ):
        yield name, Raw(text)
    mixed = {key: FIRST[key] for key in reversed(FIRST)}
    mixed["tenants"] = [{key: one[key] for key in reversed(one)} for one in FIRST["tenants"]]
    yield "keys in another order", mixed


def byte_cases():
    first = written(FIRST).encode()
    for name, data in (
        ("no UTF-8", first.replace(b'"e"', b'"\xff"')), ("cut UTF-8", first.replace(b'"e"', b'"\xe2\x82"')),
        ("overlong UTF-8", first.replace(b'"e"', b'"\xc0\x80"')), ("a surrogate in UTF-8", first.replace(b'"e"', b'"\xed\xa0\x80"')),
        ("UTF-8 of four bytes", first.replace(b'"e"', b'"\xf0\x9f\x98\x80"')), ("a byte behind", first + b"\xff"),
    ):
        yield name, data
    for cut in range(0, len(first), 7):
        yield "cut at %d" % cut, first[:cut]


def random_config(pick):
    """A configuration that is mostly accepted, with now and then a fault."""
    used = iter(range(1, 200))
    paths = ["/" + "".join(pick.choice("ab/-.~") for _ in range(pick.randrange(5))) for _ in range(30)]
    tenants = []
    for _ in range(pick.randrange(1, 5)):
        number = next(used)
        mine = list(dict.fromkeys(pick.sample(paths, pick.randrange(1, 8))))
        routes = [
            route(path, module="m%d" % pick.randrange(3), budget=pick.randrange(2**40), pages=pick.choice((1, 2, 256)),
                  estimate=pick.randrange(2**20), deadline=pick.randrange(2**32))
            for path in mine
        ]
        for one in routes:
            if pick.random() < 0.3:
                one["content_type"] = pick.choice(("text/plain", "text/html; charset=utf-8", "a"))
        tenants.append(tenant("t%d" % number, number, routes))
    config = top(tenants, workers=pick.randrange(1, 9), quantum=pick.randrange(1, 2**32), policy=pick.choice(("rr", "edf")), berths=pick.randrange(8, 62))
    if pick.random() < 0.5:
        config["clerks"] = pick.randrange(1, 17)
    if pick.random() < 0.4:
        holder = pick.choice([config] + tenants + [one for each in tenants for one in each["routes"]])
        key = pick.choice(list(holder))
        if pick.random() < 0.3:
            del holder[key]
        else:
            holder[key] = pick.choice((0, 1, 2**16, 2**40, 2**40 + 1, "", "/a", "a", None, [], {}, True))
    return config


def reads():
    for name, config in (("the first", FIRST), ("the second", SECOND)):
        yield name, written(config).encode()
    for cases in (key_cases, letter_cases, pair_cases, size_cases, text_cases):
        for name, config in cases():
            yield name, written(config).encode()
    yield from byte_cases()
    pick = random.Random(7)
    for place in range(100):
        yield "at random %d" % place, written(random_config(pick)).encode()


def near(path):
    """The path, and paths that are nearly it."""
    yield from (path, path + "/", path + "a", path[:-1], path[:-1] + "~", path.upper(), path + "?a", "/" + path, path + "\u00e9", "")


def find_config():
    """64 routes that share beginnings, in three tenants."""
    words = ["/", "/a", "/a/", "/ab", "/a/b", "/a/b/", "/abc", "/abd", "/b", "/b/a", "/B", "/a%62", "/a.b", "/a-b", "/-", "/~", "/a/b/c", "/a/c", "/ba", "/bab", "/babb"]
    more = ["/prefix/" + "x" * count for count in range(1, 20)]
    return top([
        tenant("one", 1, [route(path) for path in words]), tenant("two", 2, [route(path) for path in more]),
        tenant("three", 3, [route("/" + "/".join("abc"[:count % 3 + 1]) + "/%d" % count) for count in range(64 - len(words) - len(more))]),
    ])


def finds(config):
    seen = set()
    for place, one in enumerate(config["tenants"]):
        for each in one["routes"]:
            for asked in range(len(config["tenants"])):
                for path in near(each["path"]) if asked == place else (each["path"],):
                    if (asked, path) not in seen:
                        seen.add((asked, path))
                        yield asked, path


SIZES = [config_reader.MOST_BYTES - 1, config_reader.MOST_BYTES, config_reader.MOST_BYTES + 1]


def cases():
    """The lines of the cases, each with what must be printed of it."""
    for name, data in reads():
        yield "read %s %s" % (data.hex() or "-", name), answer(data)
    for count in SIZES:
        for config in (written(FIRST), "{"):
            data = config.encode()
            yield "size %d %s %s" % (count, data.hex(), "of so many bytes"), answer(data + b" " * (count - len(data)))
    for config in (FIRST, find_config()):
        data = written(config).encode()
        yield "read %s to find in" % data.hex(), answer(data)
        for asked, path in finds(config):
            found = config_reader.find(config, asked, path)
            yield "find %d %s" % (asked, path.encode().hex() or "-"), "none" if found is None else "route %d" % found


def hexadecimal(text):
    return text.encode().hex()


def line_of(config):
    words = [config[key] for key in ("workers", "quantum", "policy", "berths", "clerks")]
    for one in config["tenants"]:
        words += ["tenant", hexadecimal(one["name"])] + [one[key] for key in ("port", "capacity", "rate")]
        for each in one["routes"]:
            words += ["route", hexadecimal(each["path"]), hexadecimal(each["module"])]
            words += [each[key] for key in ("budget", "pages", "estimate", "deadline")] + [hexadecimal(each["content_type"])]
    return " ".join(map(str, words))


def answer(data):
    try:
        return line_of(config_reader.read(data))
    except config_reader.Refused as refused:
        return "refused %d" % refused.number


def files():
    lines, answers = zip(*cases())
    return tables.text(lines), tables.text(answers)


if __name__ == "__main__":
    sys.exit(tables.main("config", files, sys.argv[1:]))
