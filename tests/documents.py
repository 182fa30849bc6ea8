#!/usr/bin/env python3
"""Compares the documents with the sources: what they name exists, and the crates stand in one order.

    documents.py

- Each path between back quotes in a document, or in a comment of the code, is there; so are the targets of links, and their headings.
- Each must-fail edit that docs/PROMISES.md has in a column of edits is a file, and it names each edit. Its clauses are clauses.
- Each other name of code between back quotes stands somewhere in the sources.
- crates.txt, docs/ARCHITECTURE.md, its picture and docs/PROVED.md have the same crates, under the same headings and in the same order.
  Each crate has a line, stands on crates above it, and names each of its libraries in one of its files.
- README.md keeps within its limits.
"""

import fnmatch
import functools
import os
import re
import sys

from lib import usage

TOP = os.path.normpath(os.path.join(os.path.dirname(os.path.abspath(__file__)), ".."))
MOST_LINES, MOST_PARAGRAPH, MOST_CELL = 150, 700, 200

FOLDERS = ("bench", "crates", "docs", "examples", "tests", "tools")
ENDINGS = r"\.(antt|c|edit|h|json|md|py|rt|sh|svg|txt|wasm)$"
# Words that stand for any name in a path.
ANY = r"\b(NAME|CRATE|FILE|FOLDER)(?![a-zA-Z0-9])"
# These two documents are full of names of other people's code: their paths alone are looked at.
OF_OTHERS = ("docs/FORMATS.md", "docs/FUNCTIONS.md")
# Names that a document has because the sources do not: wrong bodies that no contract can refuse, and clauses that went.
ABSENT = {"always_out_of_memory", "all_in_one_thread", "one_lock_for_all", "caused", "not_built", "Wait"}


def files():
    """All files and folders of the repository, but for what is built."""
    for folder, folders, names in os.walk(TOP):
        folders[:] = [name for name in folders if name not in ("out", ".git", "__pycache__")]
        yield from (os.path.relpath(os.path.join(folder, name), TOP) for name in names + folders)


@functools.cache
def read(path):
    with open(os.path.join(TOP, path), encoding="utf-8", errors="replace") as file:
        return file.read()


ALL = set(files())
TAILS = {"/".join(parts[at:]) for parts in (path.split("/") for path in ALL) for at in range(len(parts))}
DOCUMENTS = [path for path in sorted(ALL) if path.endswith(".md")]
SOURCES = [path for path in sorted(ALL) if path.endswith((".rt", ".antt", ".py", ".sh", ".c", ".h", ".edit")) and not path.endswith("tests/documents.py")]
EDITS = {os.path.basename(path)[:-5] for path in ALL if path.endswith(".edit")}
WORDS = {word for path in SOURCES for word in re.findall(r"\w+", read(path))} | {part for path in ALL for part in re.split(r"[/.]", path)}


def quoted(line):
    """What stands between back quotes. Indented lines are examples."""
    return [] if line.startswith("    ") else re.findall(r"`([^`]+)`", line)


# ---- paths, links and names


def is_there(path):
    path = re.sub(ANY, "*", path.rstrip("/").removeprefix("./"))
    if path.split("/")[0] in FOLDERS:
        return "*" in path and ("/out" in path or any(fnmatch.fnmatch(known, path) for known in ALL)) or path in ALL
    return path in TAILS or "*" in path and any(fnmatch.fnmatch(tail, path) for tail in TAILS)


def paths_of(code):
    for word in code.split():
        word = word.rstrip(",.:;)").lstrip("(")
        if re.fullmatch(r"(\./|\.ci/)?[\w*][\w./*-]*", word) and (re.search(ENDINGS, word) or word.split("/")[0] in FOLDERS and "/" in word):
            yield word


def missing_paths():
    for path in DOCUMENTS + SOURCES:
        for number, line in enumerate(read(path).splitlines(), 1):
            for code in quoted(line.strip() if path in SOURCES else line):
                yield from ("%s:%d: there is no %s" % (path, number, word) for word in paths_of(code) if not is_there(word))


def anchors(path):
    """The anchors of a document's headings."""
    headings = re.findall(r"^#+ (.*)$", read(path), re.M)
    return {re.sub(r"[^\w\- ]", "", heading.lower()).replace(" ", "-") for heading in headings}


def missing_targets():
    for path in DOCUMENTS:
        for target in re.findall(r"\]\(([^)]+)\)", read(path)):
            name, _, anchor = target.partition("#")
            there = os.path.normpath(os.path.join(os.path.dirname(path), name)) if name else path
            if there not in ALL or anchor and anchor not in anchors(there):
                yield "%s: the link %s has no target" % (path, target)


def unknown_names():
    for path in DOCUMENTS:
        if path in OF_OTHERS:
            continue
        for number, line in enumerate(read(path).splitlines(), 1):
            for code in quoted(line):
                is_code = re.fullmatch(r"[\w:., <>=]+", code) and not code.startswith(("rt ", "grep "))
                names = re.findall(r"\b[A-Za-z]\w*_\w+\b|\b[a-z]\w{3,}\b|\b[A-Z]\w*[a-z]\w*\b", code) if is_code else []
                yield from ("%s:%d: nothing has the name %s" % (path, number, name) for name in names if name not in WORDS | ABSENT)


# ---- promises


def columns(path):
    """Each row of each table, as its line and its cells by the titles of their columns."""
    titles = None
    for number, line in enumerate(read(path).splitlines(), 1):
        cells = [cell.strip() for cell in line.strip().strip("|").split("|")] if line.startswith("|") else None
        if cells is None:
            titles = None
        elif titles is None:
            titles = cells
        elif not set(line) <= set("|-: "):
            yield number, dict(zip(titles, cells))


def wrong_promises():
    path, named, crates = "docs/PROMISES.md", set(), set(listed()[1])
    # A law of a trait is a ghost item, and a cell may name the call of its row.
    clause = r"\b(?:ensures|ghost|fn)\s+(\w+)"
    clauses = {name for source in SOURCES if source.endswith(".rt") for name in re.findall(clause, read(source))}
    for number, row in columns(path):
        edits = [name for title in ("Edit", "Must-fail edits") for name in re.findall(r"`([^`]+)`", row.get(title, ""))]
        named |= set(edits)
        edits = [name for name in edits if re.fullmatch(r"[a-z]\w*_\w+", name)]
        yield from ("%s:%d: there is no must-fail edit %s" % (path, number, name) for name in edits if name not in EDITS | crates)
        told = [name for title in ("Clause", "Clauses") for name in re.findall(r"`([a-z]\w*)`", row.get(title, ""))]
        yield from ("%s:%d: no clause has the name %s" % (path, number, name) for name in told if name not in clauses)
    # One that makes no public clause false stands in the prose.
    named |= set(re.findall(r"`([^`]+)`", read(path)))
    yield from ("%s: it does not have the must-fail edit %s" % (path, name) for name in sorted(EDITS - named))


# ---- crates


def listed():
    """The groups of crates.txt, each with its crates, and the libraries of each crate."""
    groups, libraries = [], {}
    for line in read("crates.txt").split("\n\n", 1)[1].splitlines():
        if line.startswith("# "):
            groups.append((line[2:], []))
        elif line:
            name, _, below = line.partition(":")
            groups[-1][1].append(name)
            libraries[name] = below.split()
    return groups, libraries


def told(path, pattern):
    """The groups of a document: its headings that are titles of groups, each with the crates that the lines below it begin with."""
    titles, found = [title for title, _ in listed()[0]], []
    for line in read(path).splitlines():
        if line.startswith("### ") and line[4:] in titles:
            found.append((line[4:], []))
        elif line.startswith(("## ", "### ")):
            found.append((None, []))
        elif found and re.match(pattern, line):
            found[-1][1].extend(re.findall(r"`(\w+)`", line.split("|")[1] if line.startswith("|") else line))
    return [group for group in found if group[0]]


def wrong_crates():
    groups, libraries = listed()
    for path, pattern in (("docs/ARCHITECTURE.md", r"\| `"), ("docs/PROVED.md", r"#### `|\| `")):
        for here, there in zip(groups + [None], told(path, pattern) + [None]):
            if here != there:
                yield "%s: crates.txt has %s, and here is %s" % (path, here, there)
                break
    folders = [path.split("/")[1] for path in ALL if re.fullmatch(r"crates/\w+", path)]
    yield from ("crates.txt: %s is a folder or a line, and not both" % name for name in sorted(set(folders) ^ set(libraries)))
    drawn = re.findall(r"\w+", re.sub(r"<[^>]*>", " ", read("docs/pictures/crates.svg")))
    yield from ("docs/pictures/crates.svg: it does not have %s" % name for name in libraries if name not in drawn)
    above = []
    for name, below in libraries.items():
        yield from ("crates.txt: %s stands on %s, which comes behind it" % (name, other) for other in below if other in libraries and other not in above)
        above.append(name)
        texts = "".join(read(path) for path in SOURCES if re.match(r"crates/%s/(src|specs|proofs)/" % name, path))
        yield from ("crates.txt: no file of %s names its library %s" % (name, other) for other in below if not re.search(r"\b%s\b" % other, texts))


# ---- the front page


def wrong_front_page():
    text = read("README.md")
    lines = text.splitlines()
    if len(lines) > MOST_LINES:
        yield "README.md: it has %d lines, and may have %d" % (len(lines), MOST_LINES)
    for number, line in enumerate(lines, 1):
        most = max(map(len, line.split("|"))) if line.startswith("|") else len(line)
        if most > (MOST_CELL if line.startswith("|") else MOST_PARAGRAPH):
            yield "README.md:%d: a paragraph or a cell of %d letters" % (number, most)


def main(words):
    usage.none(words, __doc__)
    looks = (missing_paths, missing_targets, unknown_names, wrong_promises, wrong_crates, wrong_front_page)
    wrong = [line for look in looks for line in look()]
    print("\n".join(wrong + ["%d names that do not fit" % len(wrong) if wrong else "%d documents" % len(DOCUMENTS)]))
    return bool(wrong)


if __name__ == "__main__":
    sys.exit(main(sys.argv[1:]))
