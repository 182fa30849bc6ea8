"""What stands where in a file of WebAssembly, also in one that is refused: sections, functions, their names, and operators with their places.

It reads more than the program takes (floating point, and what later versions of WebAssembly added), and stops where it cannot go on:
then it knows what stood before. After WebAssembly Core 1.0 and 2.0, chapter 5 and appendix "Custom Sections".
"""

import re

I32, I64, F32, F64 = 0x7F, 0x7E, 0x7D, 0x7C
TYPE_NAMES = {I32: "i32", I64: "i64", F32: "f32", F64: "f64", 0x7B: "v128", 0x70: "funcref", 0x6F: "externref", 0x40: "no result"}
FLOATS = (F32, F64)
KINDS = ("function", "table", "memory", "global", "tag")
SECTIONS = ("custom", "types", "imports", "functions", "tables", "memories", "globals", "exports", "start", "elements", "bodies", "data", "data count", "tags")

COMPARISONS = "eqz eq ne lt_s lt_u gt_s gt_u le_s le_u ge_s ge_u".split()
ARITHMETIC = "clz ctz popcnt add sub mul div_s div_u rem_s rem_u and or xor shl shr_s shr_u rotl rotr".split()
FLOAT_COMPARISONS = "eq ne lt gt le ge".split()
FLOAT_ARITHMETIC = "abs neg ceil floor trunc nearest sqrt add sub mul div min max copysign".split()
CONVERSIONS = """i32.wrap_i64 i32.trunc_f32_s i32.trunc_f32_u i32.trunc_f64_s i32.trunc_f64_u i64.extend_i32_s i64.extend_i32_u
    i64.trunc_f32_s i64.trunc_f32_u i64.trunc_f64_s i64.trunc_f64_u f32.convert_i32_s f32.convert_i32_u f32.convert_i64_s f32.convert_i64_u
    f32.demote_f64 f64.convert_i32_s f64.convert_i32_u f64.convert_i64_s f64.convert_i64_u f64.promote_f32 i32.reinterpret_f32
    i64.reinterpret_f64 f32.reinterpret_i32 f64.reinterpret_i64 i32.extend8_s i32.extend16_s i64.extend8_s i64.extend16_s i64.extend32_s""".split()
ACCESSES = """i32.load i64.load f32.load f64.load i32.load8_s i32.load8_u i32.load16_s i32.load16_u i64.load8_s i64.load8_u i64.load16_s
    i64.load16_u i64.load32_s i64.load32_u i32.store i64.store f32.store f64.store i32.store8 i32.store16 i64.store8 i64.store16
    i64.store32""".split()
PREFIXED = """i32.trunc_sat_f32_s i32.trunc_sat_f32_u i32.trunc_sat_f64_s i32.trunc_sat_f64_u i64.trunc_sat_f32_s i64.trunc_sat_f32_u
    i64.trunc_sat_f64_s i64.trunc_sat_f64_u memory.init data.drop memory.copy memory.fill table.init elem.drop table.copy table.grow
    table.size table.fill""".split()

# The name of each byte, and what stands behind it: b a block type, n a number, v a vector of numbers and one more, m a memory
# argument, s a signed number, 4 and 8 so many bytes, t a vector of types.
NAMES = {0x00: "unreachable", 0x01: "nop", 0x05: "else", 0x0B: "end", 0x0F: "return", 0x1A: "drop", 0x1B: "select", 0xD1: "ref.is_null"}
BEHIND = {}
for code, name, behind in (
    (0x02, "block", "b"), (0x03, "loop", "b"), (0x04, "if", "b"), (0x0C, "br", "n"), (0x0D, "br_if", "n"), (0x0E, "br_table", "v"),
    (0x10, "call", "n"), (0x11, "call_indirect", "nn"), (0x12, "return_call", "n"), (0x13, "return_call_indirect", "nn"),
    (0x06, "try", "b"), (0x07, "catch", "n"), (0x08, "throw", "n"), (0x09, "rethrow", "n"), (0x18, "delegate", "n"), (0x19, "catch_all", ""),
    (0x1C, "select", "t"), (0x20, "local.get", "n"), (0x21, "local.set", "n"), (0x22, "local.tee", "n"), (0x23, "global.get", "n"),
    (0x24, "global.set", "n"), (0x25, "table.get", "n"), (0x26, "table.set", "n"), (0x3F, "memory.size", "n"), (0x40, "memory.grow", "n"),
    (0x41, "i32.const", "s"), (0x42, "i64.const", "s"), (0x43, "f32.const", "4"), (0x44, "f64.const", "8"), (0xD0, "ref.null", "n"), (0xD2, "ref.func", "n"),
):  # fmt: skip
    NAMES[code], BEHIND[code] = name, behind
for first, prefix, names in (
    (0x28, "", ACCESSES), (0x45, "i32.", COMPARISONS), (0x50, "i64.", COMPARISONS), (0x5B, "f32.", FLOAT_COMPARISONS), (0x61, "f64.", FLOAT_COMPARISONS),
    (0x67, "i32.", ARITHMETIC), (0x79, "i64.", ARITHMETIC), (0x8B, "f32.", FLOAT_ARITHMETIC), (0x99, "f64.", FLOAT_ARITHMETIC), (0xA7, "", CONVERSIONS),
):  # fmt: skip
    NAMES.update({first + place: prefix + name for place, name in enumerate(names)})
BEHIND.update({0x28 + place: "m" for place in range(len(ACCESSES))})
PREFIXED_BEHIND = {8: "nn", 9: "n", 10: "nn", 11: "n", 12: "nn", 13: "n", 14: "nn", 15: "n", 16: "n", 17: "n"}


class Lost(Exception):
    """The file cannot be read on."""


def is_float(name):
    return "f32" in name or "f64" in name


class Scan:
    """Bytes from a place up to an end."""

    def __init__(self, data, at, end):
        self.data, self.at, self.end = data, at, end

    def take(self, count):
        if self.at + count > self.end:
            raise Lost
        self.at += count
        return self.data[self.at - count : self.at]

    def byte(self):
        return self.take(1)[0]

    def number(self):
        value = 0
        for place in range(10):
            byte = self.byte()
            value |= (byte & 0x7F) << 7 * place
            if not byte & 0x80:
                return value
        raise Lost

    def name(self):
        return self.take(self.number()).decode("utf-8", "replace")

    def limits(self):
        return [self.number() for _ in range(2 if self.byte() & 1 else 1)]

    def constant(self):
        """The operators of a constant."""
        found = []
        while not found or found[-1].name != "end":
            found.append(operator(self))
        return found


class Operator:
    def __init__(self, place, end, name, index=None):
        self.place, self.end, self.name, self.index = place, end, name, index


def behind(scan, kinds):
    """Passes by what stands behind an operator; answers its first number, if it has one."""
    first = None
    for kind in kinds:
        if kind in "ns":
            number = scan.number()
            first = number if first is None else first
        elif kind == "b":
            first = scan.number()
        elif kind in "48":
            scan.take(int(kind))
        elif kind == "m":
            scan.number(), scan.number()
        elif kind == "v":
            for _ in range(scan.number() + 1):
                scan.number()
        else:
            scan.take(scan.number())
    return first


def vector_kinds(number):
    """What stands behind an operator on vectors with this number."""
    if number in (12, 13):
        return "88"
    return "m" if number <= 11 or number in (92, 93) else "m1" if 84 <= number <= 91 else "1" if 21 <= number <= 34 else ""


def operator(scan):
    place = scan.at
    code = scan.byte()
    if code == 0xFC:
        number = scan.number()
        if number >= len(PREFIXED):
            raise Lost
        behind(scan, PREFIXED_BEHIND.get(number, ""))
        return Operator(place, scan.at, PREFIXED[number])
    if code == 0xFD:
        number = scan.number()
        for kind in vector_kinds(number):
            scan.take(1) if kind == "1" else behind(scan, kind)
        return Operator(place, scan.at, "an operator on vectors (number %d)" % number)
    if code == 0xFE:
        number = scan.number()
        behind(scan, "n" if number == 3 else "m")
        return Operator(place, scan.at, "an atomic operator (number %d)" % number)
    if code not in NAMES:
        raise Lost
    index = behind(scan, BEHIND.get(code, ""))
    return Operator(place, scan.at, NAMES[code], index)


RUST_ESCAPES = {"$LT$": "<", "$GT$": ">", "$u20$": " ", "$RF$": "&", "$BP$": "*", "$C$": ",", "$LP$": "(", "$RP$": ")", "$u7b$": "{", "$u7d$": "}", "..": "::"}


def plain(name):
    """The name of a function of Rust as it stands in its source, of a name that rustc has mangled (its older form); each other name as it is."""
    mangled = re.match(r"_ZN(.*?)17h[0-9a-f]{16}E", name)
    parts, rest = [], mangled[1] if mangled else ""
    while rest:
        size = re.match(r"[0-9]{1,4}", rest)
        end = size.end() + int(size[0]) if size else len(rest) + 1
        if end > len(rest):
            return name
        part = rest[size.end() : end]
        parts.append(part[1:] if part.startswith("_$") else part)
        rest = rest[end:]
    found = "::".join(parts) or name
    for escape, letter in RUST_ESCAPES.items() if mangled else ():
        found = found.replace(escape, letter)
    return found


class Section:
    def __init__(self, number, place, begin, end):
        self.number, self.place, self.begin, self.end, self.custom = number, place, begin, end, None

    def title(self):
        if self.number == 0:
            return "the custom section %s" % (self.custom or "without a name")
        return "the section of %s" % SECTIONS[self.number] if self.number < len(SECTIONS) else "the section with id %d" % self.number


class Body:
    """A body: where it is, its groups of locals as (place, count, type), its operators, and whether they are all of them."""

    def __init__(self, begin, end):
        self.begin, self.end, self.groups, self.operators, self.whole = begin, end, [], [], False


class Survey:
    """All that could be read of a file."""

    def __init__(self, data):
        self.data = data
        self.sections, self.types, self.imports, self.functions, self.globals, self.exports, self.bodies = ([] for _ in range(7))
        self.counts, self.names = {}, {}
        self.is_module = data[:4] == b"\0asm"
        try:
            self.find_sections()
        except Lost:
            pass
        for section in self.sections:
            try:
                self.read_section(section)
            except Lost:
                pass

    def find_sections(self):
        file = Scan(self.data, 8, len(self.data))
        while self.is_module and file.at < file.end:
            place = file.at
            number = file.byte()
            size = file.number()
            begin = file.at
            self.sections.append(Section(number, place, begin, min(begin + size, len(self.data))))
            file.take(size)

    def read_section(self, section):
        scan = Scan(self.data, section.begin, section.end)
        if section.number == 0:
            section.custom = scan.name()
            if section.custom == "name":
                self.read_names(scan)
            return
        readers = {1: self.read_type, 2: self.read_import, 3: self.read_function, 6: self.read_global, 7: self.read_export, 10: self.read_body}
        if section.number in readers:
            count = self.counts[section.number] = scan.number()
            for _ in range(count):
                readers[section.number](scan)
        elif section.number in (11, 12):
            self.counts[section.number] = scan.number()

    def read_type(self, scan):
        place = scan.at
        scan.byte()
        self.types.append((list(scan.take(scan.number())), list(scan.take(scan.number())), place))

    def read_import(self, scan):
        place, names, kind = scan.at, (scan.name(), scan.name()), scan.byte()
        if kind == 0:
            described = scan.number()
        elif kind in (1, 2):
            described = (scan.byte() if kind == 1 else None, scan.limits())
        else:
            described = (scan.byte(), scan.byte())
        self.imports.append((names, kind, described, place))

    def read_function(self, scan):
        self.functions.append(scan.number())

    def read_global(self, scan):
        place, kind, mutable = scan.at, scan.byte(), scan.byte()
        self.globals.append((place, kind, mutable, scan.constant(), scan.at))

    def read_export(self, scan):
        place, name, kind, index = scan.at, scan.name(), scan.byte(), scan.number()
        self.exports.append((name, kind, index, place))

    def read_body(self, scan):
        size = scan.number()
        body = Body(scan.at, min(scan.at + size, scan.end))
        self.bodies.append(body)
        try:
            self.read_operators(body)
        except Lost:
            pass
        scan.take(size)

    def read_operators(self, body):
        scan = Scan(self.data, body.begin, body.end)
        for _ in range(scan.number()):
            place = scan.at
            body.groups.append((place, scan.number(), scan.byte(), scan.at))
        while scan.at < scan.end:
            body.operators.append(operator(scan))
        body.whole = True

    def read_names(self, scan):
        while scan.at < scan.end:
            kind, size = scan.byte(), scan.number()
            part = Scan(self.data, scan.at, min(scan.at + size, scan.end))
            scan.take(size)
            if kind == 1:
                for _ in range(part.number()):
                    index = part.number()
                    self.names[index] = part.name()

    # -- functions

    def imported(self):
        return [item for item in self.imports if item[1] == 0]

    def function_name(self, index):
        """Its number, and its name where there is one: of the name section, of an export, or of the import."""
        name = self.names.get(index)
        name = name or next((name for name, kind, other, _ in self.exports if kind == 0 and other == index), None)
        imported = self.imported()
        if not name and index < len(imported):
            name = imported[index][0][1]
        return "function %d%s" % (index, " <%s>" % plain(name) if name else "")

    def type_of(self, index):
        """The type of a function: its parameters and its results, or None."""
        imported = self.imported()
        at = imported[index][2] if index < len(imported) else self.functions[index - len(imported)] if index - len(imported) < len(self.functions) else None
        return self.types[at][:2] if at is not None and at < len(self.types) else None

    def own(self):
        """Each function that has a body, by its number."""
        first = len(self.imported())
        return [(first + place, body) for place, body in enumerate(self.bodies)]

    def callers(self, index):
        """The functions that call it by its number."""
        return [own for own, body in self.own() if any(each.name in ("call", "return_call") and each.index == index for each in body.operators)]

    # -- places

    def section_at(self, place):
        return next((section for section in self.sections if section.place <= place < section.end), None)

    def body_at(self, place):
        return next(((index, body) for index, body in self.own() if body.begin <= place < body.end), None)

    def operator_at(self, body, place):
        """The number of the operator within a body that has the byte, and the operator; or None."""
        return next(((number, each) for number, each in enumerate(body.operators) if each.place <= place < each.end), None)

    # -- floating point

    def floats(self):
        """What has floating point, in the order of the file's sections, each in a line."""
        for place, (names, kind, described, _) in enumerate(self.imports):
            if kind == 3 and described[0] in FLOATS:
                yield "import %d, the global %s of %s: %s" % (place, names[1], names[0], TYPE_NAMES[described[0]])
            if kind == 0 and described < len(self.types) and set(FLOATS) & {*self.types[described][0], *self.types[described][1]}:
                yield "import %d, the function %s of %s: its type is %s" % (place, names[1], names[0], type_text(self.types[described]))
        for number, (_, kind, _, _, _) in enumerate(self.globals):
            if kind in FLOATS:
                yield "global %d of this module: %s" % (number, TYPE_NAMES[kind])
        for index, body in self.own():
            parts = list(self.float_parts(index, body))
            if parts:
                yield "%s: %s" % (self.function_name(index), ", ".join(parts))

    def float_parts(self, index, body):
        kind = self.type_of(index)
        if kind and set(FLOATS) & {*kind[0], *kind[1]}:
            yield "its type is %s" % type_text(kind)
        count = sum(count for _, count, kind, _ in body.groups if kind in FLOATS)
        if count:
            yield "%d %s of floats" % (count, "local" if count == 1 else "locals")
        found = [each for each in body.operators if is_float(each.name) or each.name in ("block", "loop", "if") and each.index in FLOATS]
        if found:
            yield "%d %s, the first %s at byte %d" % (len(found), "float operator" if len(found) == 1 else "float operators", found[0].name, found[0].place)
        if not body.whole:
            yield "its bytes from %d on are not read" % (body.operators[-1].end if body.operators else body.begin)


def type_text(kind):
    sides = [" ".join(TYPE_NAMES.get(each, "type %02X" % each) for each in side) or "nothing" for side in kind[:2]]
    return "(%s) -> (%s)" % tuple(sides)
