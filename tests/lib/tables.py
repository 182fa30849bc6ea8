"""The files of the programs that print tables, and one command line for the checks of such files.

A program of `PROGRAMS` prints several tables, each below its headline: `rt ci` runs it on a file of cases for each, `data/TABLE`, and it
must print what `stdout` has. The program `command_table` prints one table: its cases are `stdin`, and there is no headline. Neither
cases nor what must be printed come of a program: `tests/NAME_table.py` makes both for the table of its name apart from the repository's code.

    NAME_table.py [check [FOLDER]]     compares what stands in FOLDER with what is made here; it is the program's own where none is named
    NAME_table.py make [FOLDER]        writes it there, and leaves the other tables as they are
"""

import os

TOP = os.path.join(os.path.dirname(os.path.abspath(__file__)), "..", "..")
SHOWN = 300  # letters of a line that differs

# The tables of each program, in the order in which it prints them.
PROGRAMS = {
    "wasm_tables": ["integer", "body", "module", "validity", "turns", "batch"],
    "server_tables": ["http", "recording", "config", "links", "sessions"],
}


def text(lines):
    """The text of a file with these lines."""
    return "".join(line + "\n" for line in lines)


def program_of(table):
    """The program that prints the table, and where its cases stand in the program's folder."""
    for program, tables in PROGRAMS.items():
        if table in tables:
            return program, os.path.join("data", table)
    return table + "_table", "stdin"


def headline(table):
    return "== %s ==\n" % table


def read(path):
    """The text of a file, or None where there is none."""
    if not os.path.exists(path):
        return None
    with open(path, encoding="utf-8", newline="") as file:
        return file.read()


def parts_of(program, printed):
    """What stands below the headline of each of the program's tables; all under None where it has no headlines."""
    headlines = {headline(table): table for table in PROGRAMS.get(program, [])}
    parts, lines = {}, []
    if not headlines:
        return {None: printed}
    for line in printed.splitlines(keepends=True):
        if line in headlines:
            lines = parts.setdefault(headlines[line], [])
        else:
            lines.append(line)
    return {table: "".join(lines) for table, lines in parts.items()}


def written(folder, table, cases, printed):
    program, place = program_of(table)
    output = os.path.join(folder, "stdout")
    files = {os.path.join(folder, place): cases} if cases is not None else {}
    if program in PROGRAMS:
        parts = {**parts_of(program, read(output) or ""), table: printed}
        files[output] = "".join(headline(name) + parts[name] for name in PROGRAMS[program] if name in parts)
    else:
        files[output] = printed
    for path, wanted in files.items():
        os.makedirs(os.path.dirname(path), exist_ok=True)
        with open(path, "w", encoding="utf-8", newline="") as file:
            file.write(wanted)
        print("%s: written" % os.path.normpath(path))
    return 0


def first_difference(wanted, found):
    """The number of the first line that differs, and both lines; None stands for a line that is not there."""
    pairs = [lines.split("\n")[:-1] + [None] for lines in (wanted, found)]
    return next((number, *pair) for number, pair in enumerate(zip(*pairs), 1) if pair[0] != pair[1])


def shown(line):
    return "no line" if line is None else repr(line[:SHOWN])


def agrees(what, wanted, found):
    if found is None:
        print("%s: not there" % what)
    elif found != wanted:
        number, due, other = first_difference(wanted, found)
        print("%s, line %d:\n  wanted %s\n  has    %s" % (what, number, shown(due), shown(other)))
    return found == wanted


def checked(folder, table, cases, printed):
    program, place = program_of(table)
    output = os.path.join(folder, "stdout")
    part = table if program in PROGRAMS else None
    found = parts_of(program, read(output) or "").get(part)
    below = " below the headline of %s" % table if part else ""
    same = [agrees(os.path.normpath(output) + below, printed, found)]
    if cases is not None:
        path = os.path.join(folder, place)
        same.append(agrees(os.path.normpath(path), cases, read(path)))
    print("%d lines" % printed.count("\n") if all(same) else "%d of %d texts differ" % (same.count(False), len(same)))
    return not all(same)


def main(table, made, words):
    """Does what the words ask for with what `made` answers, the text of the cases (or None) and what must be printed of them; answers the
    exit status."""
    if len(words) > 2 or words[:1] not in ([], ["check"], ["make"]):
        print("usage: tests/%s_table.py [check|make [FOLDER]]" % table)
        return 0 if words == ["--help"] else 2
    folder = words[1] if len(words) == 2 else os.path.join(TOP, "crates", program_of(table)[0])
    return (written if words[:1] == ["make"] else checked)(folder, table, *made())
