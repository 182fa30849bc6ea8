#!/usr/bin/env python3
"""Runs `check` of the built program on real files and compares exit status, standard output and standard error.

    check_command.py     builds the program where it is not built, by the script `sledge` at the top

Each expected text is written out here from the formats of docs/FORMATS.md. What a configuration is refused for, key
by key, `tests/config_table.py` compares.
"""

import copy
import json
import sys
import tempfile

from lib import usage
from lib.running import TOP, build, differs, lay, run
from lib.whole_modules import ECHO, NOTHING

CONFIG = {
    "workers": 2,
    "quantum": 1000,
    "policy": "rr",
    "berths": 2,
    "tenants": [
        {
            "name": "a",
            "port": 8080,
            "capacity": 1000000,
            "rate": 1000,
            "routes": [
                {
                    "path": "/echo",
                    "module": "e",
                    "budget": 100000,
                    "pages": 2,
                    "estimate": 500,
                    "deadline": 50,
                    "content_type": "text/plain",
                },
                {"path": "/nil", "module": "m0", "budget": 10, "pages": 1, "estimate": 10, "deadline": 50},
            ],
        }
    ],
}

TENANT = ("tenants", 0)
FIRST, SECOND = (*TENANT, "routes", 0), (*TENANT, "routes", 1)
GONE = object()
LIMIT = 1 << 20  # bytes of a configuration
MODULE_LIMIT = 4 << 20  # bytes of a module

# modules that are refused: each by another layer
CUT = NOTHING[:30]  # as a module
UNTYPED = NOTHING[:30] + bytes.fromhex("0A 05 01 03 00 1A 0B")  # by validation: drop without an operand
UNLINKED = NOTHING[:14]  # by linking: it exports nothing


def changed(*changes):
    """The configuration with other values at these paths through its keys."""
    config = copy.deepcopy(CONFIG)
    for path, value in changes:
        place = config
        for key in path[:-1]:
            place = place[key]
        if value is GONE:
            del place[path[-1]]
        else:
            place[path[-1]] = value
    return json.dumps(config).encode()


def padded(size):
    """The configuration behind blanks, in so many bytes."""
    return changed().rjust(size)


def counts(tenants, routes):
    return 0, f"tenants {tenants} routes {routes}\n".encode(), b""


def refused(status, note):
    return status, b"", f"{note}\n".encode()


def other_tenant(modules):
    """A second tenant with a route for each of these modules."""
    routes = [{**CONFIG["tenants"][0]["routes"][1], "path": f"/{place}", "module": name} for place, name in enumerate(modules)]
    return {"name": "b", "port": 8081, "capacity": 0, "rate": 0, "routes": routes}


def two_tenants(modules):
    return changed((("tenants",), [CONFIG["tenants"][0], other_tenant(modules)]))


WHOLE = {"c": changed(), "e": ECHO, "m0": NOTHING}


def files(**others):
    """The files of the configuration, with these in their places."""
    return {name: data for name, data in {**WHOLE, **others}.items() if data is not GONE}


# a name, the files, and what `check c` leaves
CASES = [
    ("as it is", files(), counts(1, 2)),
    # The configuration is missing, or is refused; its modules are not looked at.
    ("no configuration", files(c=GONE), refused(3, "read c")),
    ("no modules either", {}, refused(3, "read c")),
    ("not JSON", {"c": b"{"}, refused(4, "config 60")),
    ("no bytes", {"c": b""}, refused(4, "config 60")),
    ("another key", {"c": changed((("color",), 1))}, refused(4, "config 61")),
    ("no rate", {"c": changed(((*TENANT, "rate"), GONE))}, refused(4, "config 62")),
    ("a rate below 0", {"c": changed(((*TENANT, "rate"), -1))}, refused(4, "config 63")),
    ("fewer berths than workers", {"c": changed((("berths",), 1))}, refused(4, "config 64")),
    ("one name of two tenants", {"c": changed((("tenants",), [CONFIG["tenants"][0], CONFIG["tenants"][0]]))}, refused(4, "config 65")),
    ("one path twice", {"c": changed(((*FIRST, "path"), "/nil"))}, refused(4, "config 66")),
    ("a path of no slash", {"c": changed(((*FIRST, "path"), "echo"))}, refused(4, "config 67")),
    ("too many pages", {"c": changed(((*FIRST, "pages"), 1024), (("berths",), 16))}, refused(4, "config 68")),
    ("a content type of two lines", {"c": changed(((*FIRST, "content_type"), "a\nb"))}, refused(4, "config 69")),
    ("a configuration at its limit", files(c=padded(LIMIT)), counts(1, 2)),
    ("a configuration above its limit", files(c=padded(LIMIT + 1)), refused(4, "config 64")),
    ("far above it, and no JSON", {"c": b"{" * (3 * LIMIT)}, refused(4, "config 64")),
    # A module is missing, or is refused, with the number of its route. Routes behind it are not looked at.
    ("no first module", files(e=GONE), refused(3, "read e")),
    ("no second module", files(m0=GONE), refused(3, "read m0")),
    ("too few pages", files(c=changed(((*FIRST, "pages"), 1))), refused(5, "module 56 0 0")),
    ("a second module that is cut", files(m0=CUT), refused(5, "module 20 1 30")),
    ("a second module that breaks a rule", files(m0=UNTYPED), refused(5, "module 32 1 0")),
    ("a second module that is not linked", files(m0=UNLINKED), refused(5, "module 53 1 0")),
    ("both are refused", files(e=CUT, m0=UNLINKED), refused(5, "module 20 0 30")),
    ("the first is refused, and the second missing", files(e=UNTYPED, m0=GONE), refused(5, "module 32 0 0")),
    ("the first is missing, and the second refused", files(e=GONE, m0=CUT), refused(3, "read e")),
    ("an empty module", files(e=b""), refused(5, "module 1 0 0")),
    ("a module above its limit", files(m0=NOTHING.ljust(MODULE_LIMIT + 1)), refused(5, "module 21 1 0")),
    # Each route has pages of its own, also with one module. Routes are counted through all tenants.
    ("one module of two routes", files(c=changed(((*SECOND, "module"), "e"), ((*SECOND, "pages"), 2))), counts(1, 2)),
    ("one module, and too few pages behind", files(c=changed(((*SECOND, "module"), "e"))), refused(5, "module 56 1 0")),
    ("two tenants", files(c=two_tenants(["m0", "m0", "m0"])), counts(2, 5)),
    ("a module of the second tenant", files(c=two_tenants(["m0", "m0", "x"]), x=CUT), refused(5, "module 20 4 30")),
    ("a missing one of the second tenant", files(c=two_tenants(["m0", "x"])), refused(3, "read x")),
    ("64 routes", files(c=changed((("tenants",), [other_tenant(["m0"] * 64)]))), counts(1, 64)),
    ("65 routes", files(c=two_tenants(["m0"] * 63)), refused(4, "config 64")),
]

# words, and what they leave beside the files of the configuration
WORDS = [
    (["check"], refused(2, "usage")),
    (["check", "c", "c"], refused(2, "usage")),
    (["Check", "c"], refused(2, "usage")),
    (["check", "check"], refused(3, "read check")),
    (["check", ""], refused(3, "read ")),
    (["check", "."], refused(3, "read .")),
    (["check", "e"], refused(4, "config 60")),
]

# the example that README.md shows, from the top of the repository
EXAMPLE = (["check", "examples/config/server.json"], counts(1, 2))


def main(words):
    usage.none(words, __doc__)
    build()
    failed = 0
    for name, contents, wanted in CASES:
        with tempfile.TemporaryDirectory() as folder:
            lay(folder, contents)
            failed += differs(name, wanted, run(["check", "c"], folder))
    with tempfile.TemporaryDirectory() as folder:
        lay(folder, WHOLE)
        for given, wanted in WORDS:
            failed += differs(given, wanted, run(given, folder))
        with open("/dev/full", "wb") as full:
            failed += differs("an output that is full", (7, None, b""), run(["check", "c"], folder, stdout=full))
    failed += differs("the example", EXAMPLE[1], run(EXAMPLE[0], TOP))
    runs = len(CASES) + len(WORDS) + 2
    print(f"{runs - failed} passed, {failed} failed")
    return failed != 0


if __name__ == "__main__":
    sys.exit(main(sys.argv[1:]))
