"""What a refused configuration has wrong: `config N`, over the reader of `tests/lib/config_reader.py`."""

import difflib

from explaining.report import Report, counted, joined, shortened
from lib import config_reader

MEANINGS = {
    60: "the file is no JSON text",
    61: "an object has a key that it may not have",
    62: "an object has not a key that it must have",
    63: "a value is of another kind than its key takes",
    64: "a value is out of its range",
    65: "two tenants have one name, or one port",
    66: "two routes of one tenant have one path",
    67: "a path is none that a request can ask for",
    68: "the memories of the functions would be more than 1 GiB",
    69: "a content type has a letter that may not stand there",
}
TABLES = (("the whole", config_reader.TOP), ("a tenant", config_reader.TENANT), ("a route", config_reader.ROUTE))
WANTED = {
    "a value": "a value: a text in double quotes, a number, an object or an array",
    "a key": "a key in double quotes",
    "a colon": "a colon between the key and its value",
    "a comma": "a comma, or the bracket that closes",
    "a quotation mark": "the quotation mark that ends the text",
    "an escape": 'an escape of JSON: \\", \\\\, \\/, \\b, \\f, \\n, \\r, \\t, or \\u and four hexadecimal digits',
    "a pair of escapes": "a whole character: D800 to DFFF stand in pairs, the high half first",
    "a smaller number": "a number that fits",
    "less depth": "at most %d arrays and objects in one another" % config_reader.MOST_DEPTH,
    "the end": "the end of the file: one value is all that it has",
    "UTF-8": "text in UTF-8",
}


def path_text(path):
    """As in `tenants[1].routes[0].pages`."""
    text = "".join("[%d]" % part if isinstance(part, int) else "." + part for part in path)
    return text.lstrip(".") or "the whole file"


def position(text, at):
    """The line and the column of a letter, from 1 on."""
    before = text[:at]
    return before.count("\n") + 1, at - before.rfind("\n")


def place_text(name, text, at):
    return "%s, line %d, column %d" % (name, *position(text, at))


# ---- 60: the usual causes


def letter_name(letter):
    return "the letter %s" % letter if "!" <= letter <= "~" else "the character U+%04X" % ord(letter)


def opened(text):
    """The first letter of the inmost array or object that is open at the end of a text, or None."""
    open_places, in_text, escaped = [], False, False
    for place, letter in enumerate(text):
        if in_text:
            in_text, escaped = escaped or letter != '"', letter == "\\" and not escaped
        elif letter == '"':
            in_text = True
        elif letter in "[{":
            open_places.append(place)
        elif letter in "]}" and open_places:
            open_places.pop()
    return open_places[-1] if open_places else None


def cut(name, text):
    place = opened(text)
    if not text.strip():
        return "the file is empty", "Write a configuration: examples/config/server.json is one to begin with."
    inside = " within what opens at line %d, column %d" % position(text, place) if place is not None else ""
    return "the file ends" + inside, "It was cut off, or a closing bracket or quotation mark is missing."


def quoted_key(text, at):
    end = at
    while end < len(text) and (text[end].isalnum() or text[end] == "_"):
        end += 1
    return text[at:end]


def cause(name, text, at, why):
    """What is there, and what to do about it."""
    if at == len(text):
        return cut(name, text)
    letter, rest, before = text[at], text[at:], text[:at].rstrip(" \t\r\n")
    comma = before[-1:] == ","
    if letter == "\ufeff":
        return "a byte order mark", "Save the file as UTF-8 without a byte order mark."
    if rest.startswith(("//", "/*")) or letter == "#":
        return "a comment", "JSON has no comments: take it out."
    if letter in "]}" and comma:
        return "a comma behind the last item", "Take out the comma before %s." % letter
    if letter == "," and why in ("a key", "a value"):
        return "a comma where none may stand", "Take out the comma."
    if letter == "'":
        return "a single quote", 'Texts and keys stand in double quotes: ".".'
    if why == "a quotation mark":
        what = "a line break" if letter in "\r\n" else "a tab" if letter == "\t" else letter_name(letter)
        return "%s within a text" % what, "End the text with a quotation mark before it, or spell it by an escape (\\n, \\t)."
    if why == "a key" and quoted_key(text, at):
        return "a key without quotes", 'Write "%s".' % quoted_key(text, at)
    return other_cause(text, at, why)


def other_cause(text, at, why):
    letter, rest, before = text[at], text[at:], text[:at]
    word = quoted_key(text, at)
    if why == "a comma" and before[-1:] == "0" and letter.isdigit():
        return "a number with a zero in front", "Leave the zero out."
    if why == "a comma" and letter in '"{[':
        return "a value, and no comma before it", "Put a comma between the items."
    if why == "a colon":
        return letter_name(letter), "A colon stands between a key and its value."
    if why == "the end":
        return "something behind the value", "Take it out: a file has one value."
    if why == "a smaller number":
        return "a number that is too large for a float", "Write a number within the range of its key, with digits alone."
    if why == "less depth":
        return "brackets that nest too deep", "No configuration needs more than five in one another."
    if why == "a value" and word[:1].isalpha():
        spelt = {"true": "true", "false": "false", "none": "null", "null": "null"}.get(word.lower())
        return "the word %s" % word, "Of words JSON has true, false and null alone%s; texts stand in double quotes." % (", in small letters" if spelt else "")
    if why == "a value" and letter == "+":
        return "a plus sign", "Leave it out: numbers have digits alone."
    if why == "a value" and before[-1:] in tuple(".eE-") and before[-1:]:
        return "a number that is not ended", "Write a number with digits alone."
    return letter_name(letter), "Let a JSON tool read the file, as python3 -m json.tool FILE."


def explain_json(report, name, data, refused):
    text, at, why = (refused.facts[key] for key in ("text", "at", "why"))
    offset = len(text[:at].encode())
    report.add("where", "%s (byte %d)" % (place_text(name, text, at), offset))
    if why == "UTF-8":
        wide = data[:2] in (b"\xff\xfe", b"\xfe\xff")
        report.add("found", "the byte %02X, which is no UTF-8%s" % (data[offset], ": the file is UTF-16" if wide else ""))
        report.add("wanted", WANTED[why])
        report.add("do", "Save the file as UTF-8 without a byte order mark.")
        return
    found, advice = cause(name, text, at, why)
    report.add("found", found)
    report.add("wanted", WANTED[why])
    report.add("do", advice)


# ---- keys


def table_of(path):
    """What an object at this path is, and its table."""
    return TABLES[sum(isinstance(part, int) for part in path)]


def nearest(key, table):
    known = [name for name, _, _ in table]
    plain = key.lower().replace("-", "_").replace(" ", "_")
    return plain if plain in known else next(iter(difflib.get_close_matches(plain, known, 1)), None)


def advice_for_key(key, path):
    title, table = table_of(path)
    near = nearest(key, table)
    if near:
        return "Write %s: keys are spelt so, in small letters." % near
    homes = [other for other, rows in TABLES if rows is not table and nearest(key, rows)]
    if homes:
        return "It is a key of %s: put it there." % joined(homes, "or")
    return "Take it out: the keys of %s are %s." % (title, joined(name for name, _, _ in table))


def explain_unknown_key(report, name, document, refused):
    for key in refused.facts["keys"]:
        report.add("where", "%s (%s)" % (path_text((*refused.path, key)), place_text(name, document.text, document.keys[(*refused.path, key)])))
        report.add("do", advice_for_key(key, refused.path))


def explain_missing_key(report, name, document, refused):
    title, table = table_of(refused.path)
    begun, _ = document.spans[refused.path]
    report.add("where", "%s (%s)" % (path_text(refused.path), place_text(name, document.text, begun)))
    report.add("missing", ", ".join(refused.facts["keys"]))
    for key, read_value, _ in table:
        if key in refused.facts["keys"]:
            report.add("wanted", "%s: %s" % (key, wanted_by(read_value)))
    report.add("do", "Give %s %s." % (title, "this key" if len(refused.facts["keys"]) == 1 else "these keys"))


def wanted_by(read_value):
    """What a key takes, by asking its reader for what is of no kind."""
    try:
        read_value(None, {"workers": 1}, ())
    except config_reader.Refused as refused:
        return refused.facts["wanted"]
    raise AssertionError


# ---- values


def value_at(document, path):
    value = document.root
    for part in path:
        value = value[part]
    return value


def written(document, path):
    begun, end = document.spans[path]
    return shortened(document.text[begun:end])


def add_value(report, name, document, path, label="where"):
    report.add(label, "%s (%s)" % (path_text(path), place_text(name, document.text, document.spans[path][0])))
    report.add("found", written(document, path))


def kind_advice(value, spelt, wanted):
    if wanted.startswith("a number") and isinstance(value, str):
        return "Write the number without quotes." if value.strip().isdigit() else "Write a number, with digits alone."
    if wanted.startswith("a number") and isinstance(value, float):
        if spelt.isdigit():
            return "Write a smaller number: this one is above 2^64 - 1."
        return "Write digits alone: no sign, no fraction and no exponent."
    if value is None:
        return "Write a value: null is none, also where a key may be left out."
    if wanted.startswith("an array") and isinstance(value, dict):
        return "Put the object in brackets: [ .. ], also where there is one alone."
    if wanted.startswith(("a text", "the text")):
        return "Write a text, in double quotes."
    return "Write %s." % wanted


def explain_kind(report, name, document, refused):
    value, wanted = value_at(document, refused.path), refused.facts["wanted"]
    add_value(report, name, document, refused.path)
    report.add("wanted", wanted)
    report.add("do", kind_advice(value, written(document, refused.path), wanted))


def explain_range(report, name, document, refused):
    facts = refused.facts
    if "routes" in facts:
        report.add("where", "%s (%s)" % (path_text(refused.path), name))
        report.add("found", "%d routes of all tenants together" % facts["routes"])
        report.add("wanted", "at most %d" % config_reader.MOST_ROUTES)
        report.add("do", "Serve some of them by another process.")
        return
    value = value_at(document, refused.path)
    add_value(report, name, document, refused.path)
    report.add("wanted", facts["wanted"] + (", of the letters a to z, 0 to 9, _ and -" if "letter" in facts else ""))
    if "letter" in facts:
        report.add("do", "Write the name without %s, its letter %d." % (letter_name(value[facts["letter"]]), facts["letter"] + 1))
    elif "size" in facts:
        report.add("do", "It has %s of UTF-8: make it %s." % (counted(facts["size"], "byte"), "shorter" if facts["size"] else "longer"))
    elif "count" in facts:
        report.add("do", "It has %s: there must be %s." % (counted(facts["count"], "item"), "fewer" if facts["count"] else "one at least"))
    elif facts.get("bound") == "workers" and value < document.root["workers"]:
        report.add("do", "Let there be as many berths as workers (%d), or more." % document.root["workers"])
    else:
        report.add("do", "Write %s." % facts["wanted"])


# ---- the whole


def explain_pair(report, name, document, refused):
    add_value(report, name, document, refused.path)
    report.add("also", "%s (%s)" % (path_text(refused.facts["other"]), place_text(name, document.text, document.spans[refused.facts["other"]][0])))
    report.add("do", "Give each %s its own %s." % ("route of a tenant" if refused.number == 66 else "tenant", refused.path[-1]))


def explain_path(report, name, document, refused):
    path, at = value_at(document, refused.path), refused.facts["letter"]
    add_value(report, name, document, refused.path)
    report.add("wanted", "/ and visible ASCII letters but { } : * and ?")
    if at == 0 and path[:1] != "/":
        report.add("do", "Let the path begin with /.")
    elif path[at] in "{}:*":
        report.add("do", "Write the path itself, without %s (its letter %d): there are no patterns." % (letter_name(path[at]), at + 1))
    elif path[at] == "?":
        report.add("do", "Leave out the query from its letter %d on: it is no part of a path." % (at + 1))
    else:
        spelt = "".join("%%%02X" % each for each in path[at].encode())
        report.add("do", "Write %s in place of %s, its letter %d." % (spelt, letter_name(path[at]), at + 1))


def explain_content_type(report, name, document, refused):
    value, at = value_at(document, refused.path), refused.facts["letter"]
    add_value(report, name, document, refused.path)
    report.add("wanted", "blanks and visible ASCII letters")
    report.add("do", "Take out %s, its letter %d." % (letter_name(value[at]), at + 1))


def explain_region(report, name, document, refused):
    berths, pages, most = refused.facts["berths"], refused.facts["pages"], config_reader.MOST_REGION
    add_value(report, name, document, refused.path)
    report.add("also", "berths (%s): %d" % (place_text(name, document.text, document.spans[("berths",)][0]), berths))
    report.add("wanted", "(berths + 1) times the largest pages of at most %d; here (%d + 1) * %d = %d" % (most, berths, pages, (berths + 1) * pages))
    fewer = most // pages - 1
    cures = ["at most %d berths" % fewer] if fewer >= document.root["workers"] else []
    report.add("do", "Write %s." % joined([*cures, "at most %d pages" % (most // (berths + 1))], "or"))


EXPLAINED = {
    61: explain_unknown_key, 62: explain_missing_key, 63: explain_kind, 64: explain_range, 65: explain_pair,
    66: explain_pair, 67: explain_path, 68: explain_region, 69: explain_content_type,
}  # fmt: skip


def explain(number, name, data):
    """What is told of the refusal with this number, which the program gave to the file of these bytes."""
    report = Report()
    report.add("what", MEANINGS.get(number, "the configuration is refused"))
    try:
        config_reader.read(data)
        refused = None
    except config_reader.Refused as found:
        refused = found
    if refused is None or refused.number != number:
        other = "takes it" if refused is None else "finds %d, %s" % (refused.number, MEANINGS[refused.number])
        report.add("but", "the reader in Python %s: the file has changed meanwhile, or one of the two has a fault" % other)
        return report
    if number == 60:
        explain_json(report, name, data, refused)
    elif refused.document is None:
        report.add("where", "%s as a whole" % name)
        report.add("found", counted(refused.facts["size"], "byte"))
        report.add("wanted", "at most %d" % config_reader.MOST_BYTES)
        report.add("do", "Make it smaller; no configuration of 64 routes needs so much.")
    else:
        EXPLAINED[number](report, name, refused.document, refused)
    return report


def warnings(data):
    """What an accepted configuration does that is hardly meant."""
    config = config_reader.read(data)
    for place, route in zip(config_reader.route_paths(config), config_reader.routes_of(config)):
        tenant = config["tenants"][place[1]]
        if route["estimate"] > tenant["capacity"]:
            yield "%s (%s): its estimate, %d, is above the capacity of its tenant, %d: each request to it is answered with 503" % (
                path_text(place), route["path"], route["estimate"], tenant["capacity"])  # fmt: skip
