"""A reader of configurations, written from docs/FORMATS.md alone, apart from the repository's code.

`read(data)` answers the configuration as nested dictionaries, or raises `Refused` with the number and what is known of the fault: the
path of keys, what stands there and what may stand there. For 60 it is the place of the first byte that is no JSON.
"""

import re

MOST_BYTES = 1024 * 1024
MOST_DEPTH = 127
MOST_ROUTES, MOST_REGION = 64, 16384
NOT_JSON, UNKNOWN_KEY, MISSING_KEY, WRONG_KIND, OUT_OF_RANGE = 60, 61, 62, 63, 64
DOUBLE_NAME, DOUBLE_ROUTE, BAD_ROUTE, REGION_TOO_LARGE, BAD_CONTENT_TYPE = 65, 66, 67, 68, 69

NUMBER = re.compile(r"-?(0|[1-9][0-9]*)(\.[0-9]+)?([eE][+-]?[0-9]+)?")
# What a number may begin with.
BEGINNING = re.compile(r"-?((0|[1-9][0-9]*)(\.([0-9]+([eE][+-]?[0-9]*)?)?|[eE][+-]?[0-9]*)?)?")
ESCAPES = {'"': '"', "\\": "\\", "/": "/", "b": "\b", "f": "\f", "n": "\n", "r": "\r", "t": "\t"}
LITERALS = {"true": True, "false": False, "null": None}


class Refused(Exception):
    """The number; the path, as a tuple of keys and indices; and further facts by names. `document` is the JSON that was read, if it was."""

    def __init__(self, number, path=(), **facts):
        super().__init__(number)
        self.number, self.path, self.facts, self.document = number, path, facts, None


# ---- JSON (RFC 8259): numbers are whole (0 to 2^64 - 1) or else a float


class Json:
    """A text, and how far it is read. `spans` has the first letter and the end of the value at each path, and `keys` the first letter of each key."""

    def __init__(self, text):
        self.text, self.at, self.spans, self.keys, self.root = text, 0, {}, {}, None

    def fail(self, why, at=None):
        """No JSON text goes on with the letter that stands there (`why` says what was to come), or the text ends there."""
        raise Refused(NOT_JSON, at=self.at if at is None else at, why=why, text=self.text)

    def blank(self):
        while self.at < len(self.text) and self.text[self.at] in " \t\n\r":
            self.at += 1

    def peek(self, why):
        return self.text[self.at] if self.at < len(self.text) else self.fail(why)

    def take(self, wanted, why):
        for letter in wanted:
            if not self.text.startswith(letter, self.at):
                self.fail(why)
            self.at += 1

    def whole(self):
        self.blank()
        self.root = self.value(0, ())
        self.blank()
        if self.at < len(self.text):
            self.fail("the end")
        return self.root

    def value(self, depth, path):
        begun = self.at
        found = self.bare_value(depth, path)
        self.spans[path] = begun, self.at
        return found

    def bare_value(self, depth, path):
        first = self.peek("a value")
        if first in "{[":
            if depth == MOST_DEPTH:
                self.fail("less depth")
            return self.object(depth + 1, path) if first == "{" else self.array(depth + 1, path)
        if first == '"':
            return self.string("a value")
        for word, value in LITERALS.items():
            if first == word[0]:
                self.take(word, "a value")
                return value
        return self.number()

    def number(self):
        found = NUMBER.match(self.text, self.at)
        if not found or self.text[found.end() : found.end() + 1] in (".", "e", "E"):
            self.fail("a value", BEGINNING.match(self.text, self.at).end())
        # Python makes no number of more than some thousand digits; one of more than 20 is above 2^64.
        if not (found[2] or found[3] or found[0][0] == "-") and len(found[0]) <= 20 and int(found[0]) < 1 << 64:
            self.at = found.end()
            return int(found[0])
        value = float(found[0])
        if value in (float("inf"), float("-inf")):
            self.fail("a smaller number")
        self.at = found.end()
        return value

    def hex4(self):
        begun = self.at
        for _ in range(4):
            if self.peek("an escape") not in "0123456789abcdefABCDEF":
                self.fail("an escape")
            self.at += 1
        return int(self.text[begun : self.at], 16)

    def escape(self):
        begun = self.at - 1
        letter = self.peek("an escape")
        if letter in ESCAPES:
            self.at += 1
            return ESCAPES[letter]
        self.take("u", "an escape")
        high = self.hex4()
        if not 0xD800 <= high < 0xE000:
            return chr(high)
        if high >= 0xDC00:
            self.fail("a pair of escapes", begun)
        self.take("\\u", "a pair of escapes")
        low = self.hex4()
        if not 0xDC00 <= low < 0xE000:
            self.fail("a pair of escapes", begun)
        return chr(0x10000 + ((high - 0xD800) << 10) + (low - 0xDC00))

    def string(self, why):
        self.take('"', why)
        found = []
        while True:
            letter = self.peek("a quotation mark")
            if letter < " ":
                self.fail("a quotation mark")
            self.at += 1
            if letter == '"':
                return "".join(found)
            found.append(self.escape() if letter == "\\" else letter)

    def array(self, depth, path):
        self.take("[", "a value")
        self.blank()
        items = []
        if self.peek("a value") == "]":
            self.at += 1
            return items
        while True:
            self.blank()
            items.append(self.value(depth, (*path, len(items))))
            self.blank()
            if self.peek("a comma") == "]":
                self.at += 1
                return items
            self.take(",", "a comma")

    def object(self, depth, path):
        self.take("{", "a value")
        self.blank()
        members = {}
        if self.peek("a key") == "}":
            self.at += 1
            return members
        while True:
            self.blank()
            begun = self.at
            key = self.string("a key")
            self.keys[(*path, key)] = begun
            self.blank()
            self.take(":", "a colon")
            self.blank()
            members[key] = self.value(depth, (*path, key))
            self.blank()
            if self.peek("a comma") == "}":
                self.at += 1
                return members
            self.take(",", "a comma")


def parsed(data):
    """The JSON of a file's bytes."""
    try:
        document = Json(data.decode("utf-8"))
    except UnicodeDecodeError as error:
        document = Json(data[: error.start].decode("utf-8"))
        try:
            document.whole()
        except Refused as refused:
            if refused.facts["at"] < len(document.text):
                raise
        document.fail("UTF-8", len(document.text))
    document.whole()
    return document


# ---- the tables: a row is a key, a reader of its value, and what stands where it is missing


def number(least, most):
    def read_number(value, before, path):
        low = before[least] if isinstance(least, str) else least
        wanted = "a number from %d to %d" % (low, most)
        if type(value) is not int:
            raise Refused(WRONG_KIND, path, wanted=wanted)
        if not low <= value <= most:
            raise Refused(OUT_OF_RANGE, path, wanted=wanted, bound=least)
        return value

    return read_number


def text(most, letters=None):
    def read_text(value, before, path):
        wanted = "a text of 1 to %d bytes" % most
        if type(value) is not str:
            raise Refused(WRONG_KIND, path, wanted=wanted)
        if not 1 <= len(value.encode()) <= most:
            raise Refused(OUT_OF_RANGE, path, wanted=wanted, size=len(value.encode()))
        if letters and not re.fullmatch("(?:%s)*" % letters, value):
            raise Refused(OUT_OF_RANGE, path, wanted=wanted, letter=next(place for place, letter in enumerate(value) if not re.fullmatch(letters, letter)))
        return value

    return read_text


def policy(value, before, path):
    wanted = 'the text "rr" or "edf"'
    if type(value) is not str:
        raise Refused(WRONG_KIND, path, wanted=wanted)
    if value not in ("rr", "edf"):
        raise Refused(OUT_OF_RANGE, path, wanted=wanted)
    return value


def objects(table, most):
    def read_objects(value, before, path):
        wanted = "an array of 1 to %d objects" % most
        if type(value) is not list:
            raise Refused(WRONG_KIND, path, wanted=wanted)
        if not 1 <= len(value) <= most:
            raise Refused(OUT_OF_RANGE, path, wanted=wanted, count=len(value))
        return [read_object(table, item, (*path, place)) for place, item in enumerate(value)]

    return read_objects


ROUTE = [
    ("path", text(256), None),
    ("module", text(256), None),
    ("budget", number(0, 1 << 40), None),
    ("pages", number(1, 1024), None),
    ("estimate", number(0, 1 << 40), None),
    ("deadline", number(0, (1 << 32) - 1), None),
    ("content_type", text(128), "application/octet-stream"),
]
TENANT = [
    ("name", text(64, "[a-z0-9_-]"), None),
    ("port", number(1, 65535), None),
    ("capacity", number(0, 1 << 40), None),
    ("rate", number(0, (1 << 32) - 1), None),
    ("routes", objects(ROUTE, 64), None),
]
TOP = [
    ("workers", number(1, 64), None),
    ("quantum", number(1, (1 << 32) - 1), None),
    ("policy", policy, None),
    ("berths", number("workers", 256), None),
    ("clerks", number(1, 16), 4),
    ("tenants", objects(TENANT, 64), None),
]


def read_object(table, value, path=()):
    if type(value) is not dict:
        raise Refused(WRONG_KIND, path, wanted="an object")
    known = [key for key, _, _ in table]
    if set(value) - set(known):
        raise Refused(UNKNOWN_KEY, path, keys=[key for key in value if key not in known])
    found = {}
    for key, read_value, default in table:
        if key in value:
            found[key] = read_value(value[key], found, (*path, key))
        elif default is None:
            raise Refused(MISSING_KEY, path, key=key, keys=[each for each, _, otherwise in table if otherwise is None and each not in value])
        else:
            found[key] = default
    return found


# ---- what is looked at over the whole configuration


def routes_of(config):
    return [route for tenant in config["tenants"] for route in tenant["routes"]]


def route_paths(config):
    """The path of keys of each route, through all tenants."""
    return [("tenants", at, "routes", place) for at, tenant in enumerate(config["tenants"]) for place in range(len(tenant["routes"]))]


def repeated(items):
    """The first two places with one item, or None."""
    return next(((items.index(item), place) for place, item in enumerate(items) if item in items[:place]), None)


def bad_letter(path):
    """The place of the first letter that a path may not have, or None."""
    wrong = (place for place, letter in enumerate(path) if not "!" <= letter <= "~" or letter in "{}:*?")
    return 0 if path[:1] != "/" else next(wrong, None)


def bad_blank(name):
    """The place of the first letter that a content type may not have, or None."""
    return next((place for place, letter in enumerate(name) if not " " <= letter <= "~"), None)


def look_over(config):
    tenants, routes, places = config["tenants"], routes_of(config), route_paths(config)
    if len(routes) > MOST_ROUTES:
        raise Refused(OUT_OF_RANGE, ("tenants",), routes=len(routes))
    for key in ("name", "port"):
        pair = repeated([tenant[key] for tenant in tenants])
        if pair:
            raise Refused(DOUBLE_NAME, ("tenants", pair[1], key), other=("tenants", pair[0], key))
    for route, place in zip(routes, places):
        if bad_letter(route["path"]) is not None:
            raise Refused(BAD_ROUTE, (*place, "path"), letter=bad_letter(route["path"]))
    for at, tenant in enumerate(tenants):
        pair = repeated([route["path"] for route in tenant["routes"]])
        if pair:
            raise Refused(DOUBLE_ROUTE, ("tenants", at, "routes", pair[1], "path"), other=("tenants", at, "routes", pair[0], "path"))
    for route, place in zip(routes, places):
        if bad_blank(route["content_type"]) is not None:
            raise Refused(BAD_CONTENT_TYPE, (*place, "content_type"), letter=bad_blank(route["content_type"]))
    most = max(range(len(routes)), key=lambda place: routes[place]["pages"])
    if (config["berths"] + 1) * routes[most]["pages"] > MOST_REGION:
        raise Refused(REGION_TOO_LARGE, (*places[most], "pages"), berths=config["berths"], pages=routes[most]["pages"])


def read(data):
    if len(data) > MOST_BYTES:
        raise Refused(OUT_OF_RANGE, size=len(data))
    document = parsed(data)
    try:
        config = read_object(TOP, document.root)
        look_over(config)
    except Refused as refused:
        refused.document = document
        raise
    return config


def find(config, tenant, path):
    """The number of the tenant's route with this path, through all tenants, or None."""
    number = sum(len(before["routes"]) for before in config["tenants"][:tenant])
    for place, route in enumerate(config["tenants"][tenant]["routes"]):
        if route["path"] == path:
            return number + place
    return None
