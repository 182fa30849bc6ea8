"""What a refused module has wrong: `module N R P`, over the readers of `tests/lib` and the survey beside this file."""

from explaining.report import Report, byte, counted, joined, shortened
from explaining.survey import TYPE_NAMES, Scan, Survey, type_text
from lib import interpreter, module_reader, module_validator

MOST_LISTED = 12
RULES = {
    1: "the file, or a body, ends too early",
    2: "a number has more bytes than it may",
    3: "a number has spare bits that are set",
    4: "a name is no UTF-8",
    5: "a float operator",
    6: "a byte of no operator that is known here",
    7: "a float type",
    8: "a byte that is no type of WebAssembly Core 1.0",
    9: "an else without its if",
    10: "more than 1,000 blocks in one another",
    11: "more than 1,024 locals of one function",
    12: "more than 4,096 labels of one br_table",
    13: "a table or a memory other than the first",
    14: "bytes behind the end of a body",
    15: "the file is no binary module",
    16: "the file is of another version, or a component",
    17: "sections in another order, or one twice",
    18: "the size of a section does not fit what it holds",
    19: "a section of no kind that is known here",
    20: "two counts that differ",
    21: "a limit is passed",
    22: "an unknown kind of an import or an export, or mutability",
    23: "limits of an unknown form",
    24: "a constant of an unknown form",
    30: "an index of something that is not there",
    31: "an operand of another type",
    32: "an operand too few, or too many",
    33: "an alignment above the width of the access",
    34: "a label of no block",
    35: "an if with a result and without an else",
    36: "a global is set that may not be",
    37: "two exports with one name",
    38: "a second memory",
    39: "a second table",
    40: "limits that do not fit",
    41: "a start function with a parameter or a result",
    42: "labels of a br_table that take different results",
    43: "a constant of another type",
    50: "an import that is none of the host's three",
    51: "a call of the host with another type",
    52: "an import that is no function",
    53: "there is no export _start",
    54: "_start has another type, or is no function",
    55: "a segment ends past the table or the memory",
    56: "more first pages than the function is given",
}
ADVICE = {
    1: "Copy the file again, or build it again: a part of it is missing.",
    2: "Whatever wrote the file has a fault.",
    3: "Whatever wrote the file has a fault.",
    4: "Name it in UTF-8.",
    8: "Compile for WebAssembly Core 1.0: for LLVM's compilers -mcpu=mvp.",
    9: "Whatever wrote the file has a fault.",
    10: "Divide the function.",
    11: "Divide the function, or let the compiler optimise it (-O2).",
    12: "Divide the switch.",
    13: "Compile for WebAssembly Core 1.0: for LLVM's compilers -mcpu=mvp.",
    14: "Whatever wrote the file has a fault.",
    17: "Put the sections in the order of their ids, and join those of one id.",
    18: "Build the file again; where a tool changed it, the tool has a fault.",
    20: "Give each function its body; a file without bodies is no whole module.",
    22: "Compile for WebAssembly Core 1.0: for LLVM's compilers -mcpu=mvp.",
    23: "Leave out what asks for shared memories or those of 64 bits (-pthread, -matomics, --target=wasm64).",
    24: "Write the number itself: a constant may not read an imported global here.",
    30: "Look at the index: imported items count first, and parameters come before locals.",
    31: "Convert the operand, or mend what wrote the file.",
    32: "Give the block a result, or drop what it does not need.",
    33: "Write an alignment of at most the width.",
    34: "Count the blocks outwards from 0.",
    35: "Write the else.",
    36: "Make the global mutable.",
    37: "Name one of them otherwise.",
    38: "Use one memory.",
    39: "Use one table.",
    40: "Let the least size be at most the greatest, and a memory have at most 65,536 pages.",
    41: "Start a function of neither.",
    42: "Give the blocks one result.",
    43: "Write a constant of the type.",
}
NO_FLOATS = "Compute in whole numbers, and call nothing that needs floats; of wasi-libc printf, sscanf, strtod and assert do (docs/FUNCTIONS.md has a printf without)."
IMPORT_ADVICE = (
    (("fd_close", "fd_seek", "fd_fdstat_get"), "The buffers of the C library want it (<stdio.h>: puts, printf, fgets): link examples/stdio_stubs.c, which answers it, or read and write by read(0, ..) and write(1, ..)."),
    (("args_get", "args_sizes_get"), "There are no arguments: declare main without parameters."),
    (("environ_get", "environ_sizes_get"), "There is no environment: take out what reads it (getenv); Rust's standard library asks as it starts, and examples/letters answers it."),
    (("clock_time_get", "clock_res_get"), "There is no clock: take out what asks for the time."),
    (("random_get",), "There are no random numbers: take out what asks for them; in Rust the usual HashMap does, and a BTreeMap or the map of examples/letters does not."),
    (("poll_oneoff", "sched_yield"), "There is nothing to wait for: take out what sleeps."),
)
BEGINNINGS = (
    (b"\x7fELF", "a program or an object of this machine (ELF)", "Compile with --target=wasm32."),
    (b"BC\xc0\xde", "bitcode of LLVM", "Compile without -flto and -emit-llvm, and link."),
    (b"!<arch>", "an archive of objects", "Link it to a module."),
    (b"\x1f\x8b", "a file compressed by gzip", "Decompress it."),
    (b"PK\x03\x04", "a ZIP archive", "Take the module out of it."),
    (b"MZ", "a program of Windows", "Compile with --target=wasm32."),
)


# ---- 1 to 24: the bytes


def section_sizes(survey):
    """The sections, the largest first, with debug sections as one."""
    sizes = {}
    for section in survey.sections:
        debug = section.number == 0 and (section.custom or "").startswith((".debug_", "reloc..debug_"))
        title = "debug sections (custom, .debug_*)" if debug else section.title()
        sizes[title] = sizes.get(title, 0) + section.end - section.place
    return sorted(sizes.items(), key=lambda item: -item[1])


def explain_size(report, survey):
    data = survey.data
    report.add("found", "%d bytes, of which a file may have %d" % (len(data), module_reader.MOST_BYTES))
    sizes = section_sizes(survey)
    for title, size in sizes[:MOST_LISTED]:
        report.add("room", "%d bytes: %s" % (size, title))
    custom = sum(section.end - section.place for section in survey.sections if section.number == 0)
    if not survey.is_module:
        report.add("do", "It is no module at all.")
    elif len(data) - custom <= module_reader.MOST_BYTES and any(title.startswith("debug") for title, _ in sizes):
        report.add("do", "Leave the debug sections out: link with -Wl,--strip-debug (Rust: -C strip=debuginfo), or compile without -g.")
    elif len(data) - custom <= module_reader.MOST_BYTES:
        report.add("do", "Leave the custom sections out: link with -Wl,--strip-all.")
    else:
        report.add("do", "Make the module smaller: -Os, less data in the source, fewer libraries.")


COUNT_LIMITS = {1: "1,000 types, each of 1,000 parameters and one result", 2: "10,000 functions and 1,000 globals, imported ones counted, and tables of 10,000 elements",
                3: "10,000 functions, imported ones counted", 4: "tables of 10,000 elements", 6: "1,000 globals, imported ones counted"}  # fmt: skip


def explain_count(report, survey, place):
    section = survey.section_at(place)
    add_place(report, survey, place)
    if section and section.number in COUNT_LIMITS and section.number != 2:
        report.add("found", "the number %d" % Scan(survey.data, place, len(survey.data)).number())
    report.add("wanted", "at most %s" % COUNT_LIMITS.get(section and section.number, "what docs/FORMATS.md has, \"Whole modules\""))
    report.add("do", "Make the module smaller.")


def explain_beginning(report, survey, number):
    data = survey.data
    report.add("found", "the bytes %s" % data[:8].hex(" ").upper() if data else "no bytes")
    if number == 16:
        component = data[4:8] == b"\x0d\x00\x01\x00"
        report.add("do", "It is a component: make a core module (wasm32-wasi, wasm32-wasip1) and no component." if component else "Make a module of version 1.")
        return
    for beginning, what, advice in BEGINNINGS:
        if data.startswith(beginning):
            report.add("means", "it is %s" % what)
            report.add("do", advice)
            return
    text = data[:400].decode("utf-8", "ignore").lstrip()
    if text.startswith(("(module", "(component", ";;", "(;")):
        report.add("means", "it is a module in the text format")
        report.add("do", "Assemble it first: wat2wasm NAME.wat -o NAME.wasm.")
    elif text.isprintable() or "\n" in text and text.replace("\n", "").replace("\t", "").isprintable():
        report.add("means", "it is a text that begins with %r" % shortened(text)[:30])
        report.add("do", "Name the module that was built of it, and not its source.")
    else:
        report.add("do", "Name the file of a module.")


def add_place(report, survey, place):
    """The byte, the section, and in a body the function, the operator and its number."""
    section, found = survey.section_at(place), survey.body_at(place)
    if place >= len(survey.data):
        report.add("where", "%s, the end of the file" % byte(place))
    elif section:
        report.add("where", "%s, in %s" % (byte(place), section.title()))
    else:
        report.add("where", byte(place))
    if found:
        index, body = found
        report.add("in", survey.function_name(index))
        part = survey.operator_at(body, place)
        if part:
            report.add("operator", "%s, number %d of its body" % (part[1].name, part[0]))
        elif any(begin <= place < end for begin, _, _, end in body.groups):
            report.add("part", "the locals of the function")


def add_floats(report, survey):
    lines = list(survey.floats())
    for line in lines[:MOST_LISTED]:
        report.add("floats", line)
    if len(lines) > MOST_LISTED:
        report.add("floats", "and %d more" % (len(lines) - MOST_LISTED))


def type_place(survey, place):
    """The number of the function type with this byte, or None."""
    section = survey.section_at(place)
    begins = [begin for _, _, begin in survey.types]
    if not section or section.number != 1 or not begins:
        return None
    return max((number for number, begin in enumerate(begins) if begin <= place), default=None)


def explain_float(report, survey, place):
    add_place(report, survey, place)
    number = type_place(survey, place)
    if number is not None:
        report.add("part", "type %d: %s" % (number, type_text(survey.types[number])))
    add_floats(report, survey)
    report.add("do", NO_FLOATS)


def explain_unknown_operator(report, survey, place):
    add_place(report, survey, place)
    code = survey.data[place]
    report.add("found", "the byte %02X" % code)
    found = survey.body_at(place)
    name = found and survey.operator_at(found[1], place)
    feature = feature_of(code, name and name[1].name)
    if feature:
        report.add("means", "%s of a later version of WebAssembly" % feature[0])
    report.add("do", "Compile for WebAssembly Core 1.0: for LLVM's compilers -mcpu=mvp%s." % (", and without %s" % feature[1] if feature else ""))


def feature_of(code, name):
    if code == 0xFC and name and name.startswith("memory"):
        return "bulk memory", "-mbulk-memory"
    if code == 0xFD:
        return "vectors", "-msimd128"
    if code == 0xFE:
        return "atomic operators", "-matomics and -pthread"
    if code in (0xD0, 0xD1, 0xD2, 0x1C, 0x25, 0x26) or code == 0xFC:
        return "references and tables", "-mreference-types"
    if code in (0x12, 0x13):
        return "tail calls", "-mtail-call"
    return ("exceptions", "-fwasm-exceptions") if code in (0x06, 0x07, 0x08, 0x09, 0x18, 0x19) else None


def add_object(report, survey):
    """Tells where it is an object file; answers whether it is one."""
    is_object = any(section.custom == "linking" for section in survey.sections)
    if is_object:
        report.add("means", "it is an object file, which was compiled and not linked (it has the custom section linking)")
        report.add("do", "Link it: clang --target=wasm32 -nostdlib -Wl,--no-entry,--stack-first,--strip-debug NAME.o -o NAME.wasm")
    return is_object


def explain_section(report, survey, place):
    add_place(report, survey, place)
    report.add("found", "a section with the id %d%s" % (survey.data[place], ", the tags of exceptions" if survey.data[place] == 13 else ""))
    if not add_object(report, survey):
        report.add("do", "Compile for WebAssembly Core 1.0: for LLVM's compilers -mcpu=mvp (13 comes of exceptions).")


def explain_counts(report, survey, place):
    """Two counts that differ: those of functions and bodies, or that of the data segments and what the section of data count says."""
    add_place(report, survey, place)
    section, counts = survey.section_at(place), survey.counts
    functions, bodies = counts.get(3, 0), counts.get(10, 0)
    if functions != bodies and not (section and section.number == 11):
        report.add("found", "%s and %s" % (counted(functions, "function"), counted(bodies, "body", "bodies")))
        report.add("do", ADVICE[20])
    else:
        report.add("found", "%s, where the section of data count says %d" % (counted(counts.get(11, 0), "data segment"), counts[12]))
        report.add("do", "Take the section of data count out, or write the number of data segments there: whatever wrote the file has a fault.")


def explain_cut(report, survey, place):
    add_place(report, survey, place)
    last = survey.sections[-1] if survey.sections else None
    if place == len(survey.data):
        report.add("found", counted(len(survey.data), "byte") + (", and %s goes past them" % last.title() if last and last.end == place else ""))
    report.add("do", ADVICE[1] if place == len(survey.data) else "The size of the body is wrong: whatever wrote the file has a fault.")


def explain_bytes(report, survey, number, place):
    if number == 21 and place == 0:
        explain_size(report, survey)
    elif number == 21:
        explain_count(report, survey, place)
    elif number in (15, 16):
        explain_beginning(report, survey, number)
    elif number in (5, 7):
        explain_float(report, survey, place)
    elif number == 6:
        explain_unknown_operator(report, survey, place)
    elif number == 19:
        explain_section(report, survey, place)
    elif number == 20:
        explain_counts(report, survey, place)
    elif number == 1:
        explain_cut(report, survey, place)
    else:
        add_place(report, survey, place)
        if place < len(survey.data):
            report.add("found", "the byte %02X" % survey.data[place])
        report.add("do", ADVICE[number])


# ---- 30 to 43: rules


LISTS = {"imports": "import", "functions": "function", "tables": "table", "memories": "memory", "globals": "global", "exports": "export",
         "element segments": "element segment", "data segments": "data segment"}  # fmt: skip


def explain_rule(report, survey, number, item):
    broken = module_validator.broken(module_validator.decode(survey.data))
    if broken.part == "bodies":
        index = len(survey.imported()) + broken.function
        operator = survey.bodies[broken.function].operators[item]
        report.add("in", survey.function_name(index))
        report.add("operator", "%s%s, number %d of its body, at %s" % (
            operator.name, "" if operator.index is None else " %d" % operator.index, item, byte(operator.place)))  # fmt: skip
    elif broken.part in LISTS:
        report.add("where", "%s %d of the file, from 0 on" % (LISTS[broken.part], item))
        if broken.part == "exports":
            report.add("found", "the export %s" % survey.exports[item][0])
    else:
        report.add("where", broken.part)
    if broken.types:
        report.add("found", "%s, where %s has to stand" % tuple(TYPE_NAMES[kind] for kind in broken.types))
    report.add("do", ADVICE[number])


# ---- 50 to 56: linking


def import_text(survey, item):
    names, kind, described, _ = survey.imports[item]
    what = ("function", "table", "memory", "global")[kind]
    shown = " of type %s" % type_text(survey.types[described]) if kind == 0 else ""
    return "import %d, the %s %s of the module %s%s" % (item, what, names[1], names[0], shown)


def add_callers(report, survey, item):
    """Which functions call an imported function; its number among functions is not that of the import where others stand between."""
    index = sum(kind == 0 for _, kind, _, _ in survey.imports[:item])
    callers = [survey.function_name(own) for own in survey.callers(index)]
    shown = callers[:MOST_LISTED] + (["%d more" % (len(callers) - MOST_LISTED)] if len(callers) > MOST_LISTED else [])
    report.add("callers", joined(shown) if shown else "no function by its number (it may stand in the table)")


def explain_import(report, survey, number, item):
    names, kind, _, _ = survey.imports[item]
    report.add("where", import_text(survey, item))
    if kind == 0:
        add_callers(report, survey, item)
    if number == 52:
        option = {1: "-Wl,--import-table", 2: "-Wl,--import-memory", 3: "what imports it (an object that is not linked does)"}[kind]
        if not add_object(report, survey):
            report.add("do", "Leave out %s: the module has its own." % option)
    elif number == 51:
        report.add("wanted", type_text(interpreter.HOSTS[names[1].encode()]))
        report.add("do", "Copy the declarations of examples/host.h.")
    else:
        report.add("do", import_advice(*names))


def import_advice(module, name):
    if module == "env":
        return "No source or library defines %s: define it, or link the library that does (-lc); leave out -Wl,--allow-undefined, and the linker says so." % name
    if module != "wasi_snapshot_preview1":
        return "Do without it: the host has fd_read, fd_write and proc_exit of wasi_snapshot_preview1 alone."
    known = next((advice for listed, advice in IMPORT_ADVICE if name in listed), None)
    return known or "Do without it: a function has no files, clock, random numbers, arguments or environment."


def explain_link(report, survey, number, item, pages):
    if number in (50, 51, 52):
        explain_import(report, survey, number, item)
        return
    module = module_validator.decode(survey.data)
    if number == 53:
        names = [name for name, kind, _, _ in survey.exports if kind == 0]
        report.add("found", "exported functions: %s" % (joined(names[:MOST_LISTED]) if names else "none"))
        report.add("do", 'Export it: __attribute__((export_name("_start"))) before void start(void), or a main with wasi-libc%s.' % (
            "; a reactor has _initialize and no _start, so leave out -mexec-model=reactor" if "_initialize" in names else ""))  # fmt: skip
    elif number == 54:
        kind, index = next((kind, index) for name, kind, index, _ in survey.exports if name == "_start")
        found = "%s of type %s" % (survey.function_name(index), type_text(survey.type_of(index))) if kind == 0 else "a %s" % ("table", "memory", "global")[kind - 1]
        report.add("found", "_start is %s" % found)
        report.add("do", "Declare it as void start(void).")
    elif number == 55:
        explain_segment(report, module, item)
    else:
        first = interpreter.first_size(module.memories)
        report.add("found", "%s at first" % counted(first, "page"))
        report.add("wanted", "at most %d" % pages)
        report.add("do", "Smaller static arrays or a smaller stack (-Wl,-z,stack-size=BYTES), or a route with pages of %d or more." % first)


def explain_segment(report, module, item):
    size = interpreter.first_size(module.tables)
    is_element = item < len(module.elements) and module.elements[item][1][1] % 2**32 + len(module.elements[item][2]) > size
    segments, size, kind, unit = (
        (module.elements, size, "element", "elements") if is_element
        else (module.segments, interpreter.first_size(module.memories) * interpreter.PAGE, "data", "bytes")
    )  # fmt: skip
    offset, length = segments[item][1][1] % 2**32, len(segments[item][2])
    report.add("where", "%s segment %d" % (kind, item))
    report.add("found", "%d %s from %d on" % (length, unit, offset))
    report.add("wanted", "an end of at most %d" % size)
    report.add("do", "Make the %s larger at first, or the offset smaller." % ("table" if is_element else "memory"))


# ---- all


def found_by_readers(data, pages):
    """The number and the place of the first refusal, or None."""
    refusal = module_reader.refusal(data)
    if refusal:
        return refusal
    module = module_validator.decode(data)
    broken = module_validator.broken(module)
    return (broken.number, broken.item) if broken else interpreter.link_refusal(module, pages)


def explain(number, place, title, data, pages):
    """What is told of a refusal of a module; the title names its file, and for a route the route."""
    report = Report()
    report.add("what", RULES.get(number, "the module is refused"))
    report.add("file", title)
    found = found_by_readers(data, pages)
    if found != (number, place):
        other = "%d at %d, %s" % (*found, RULES[found[0]]) if found else "nothing wrong"
        report.add("but", "the readers in Python find %s: the file has changed meanwhile, or one of the two has a fault" % other)
        return report
    survey = Survey(data)
    if number < 30:
        explain_bytes(report, survey, number, place)
    elif number < 50:
        explain_rule(report, survey, number, place)
    else:
        explain_link(report, survey, number, place, pages)
    return report
