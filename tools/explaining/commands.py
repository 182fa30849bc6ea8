"""What is wrong with the words of a command, with a file that cannot be read, with a recording, or with an output."""

import os
import stat

from explaining.report import Report, byte, counted
from lib import config_reader, recordings
from lib.tool import reason

SHAPES = {
    "invoke": ("MODULE", "BODY", "BUDGET"),
    "check": ("CONFIG",),
    "replay": ("CONFIG", "RECORDING"),
    "soak": ("START", "COUNT"),
    "serve": ("CONFIG",),
    "--help": (),
    "--version": (),
}
NUMBERS = {"BUDGET": (0, 1 << 40), "START": (0, (1 << 64) - 1), "COUNT": (1, 4096)}
MOST_DIGITS = 20
MOST_BODY = 1 << 20


# ---- usage


def shape_text(command):
    return " ".join((command, *SHAPES[command]))


def number_fault(kind, word):
    """What is wrong with the word of a number, or None."""
    least, most = NUMBERS[kind]
    if not word:
        return "it is empty"
    wrong = next((letter for letter in word if letter not in "0123456789"), None)
    if wrong is not None:
        return "it has %r, and digits alone may stand there" % wrong
    if len(word) > MOST_DIGITS:
        return "it has %d digits, and may have %d" % (len(word), MOST_DIGITS)
    if not least <= int(word) <= most:
        return "it is not from %d to %d" % (least, most)
    return None


def add_words(report, words):
    report.add("words", " ".join(repr(word) if not word or set(word) & set(" \n\t") else word for word in words) or "none")


def is_utf8(word):
    try:
        word.encode()
    except UnicodeEncodeError:
        return False
    return True


def explain_usage(words):
    report = Report()
    report.add("what", "the words are those of no command")
    bad = next((place for place, word in enumerate(words) if not is_utf8(word)), None)
    if bad is not None:
        report.add("where", "word %d is not UTF-8: %r" % (bad + 1, os.fsencode(words[bad])))
        report.add("do", "Give the file a name in UTF-8.")
        return report
    add_words(report, words)
    if not words or words[0] not in SHAPES:
        near = next((name for name in SHAPES if words and name.strip("-") == words[0].lower().strip("-")), None)
        report.add("where", "the first word%s" % (": there is no command %s" % words[0] if words else " is missing"))
        report.add("do", "Write %s." % near if near else "Begin with one of %s." % ", ".join(SHAPES))
        return report
    shape = SHAPES[words[0]]
    if len(words) - 1 != len(shape):
        report.add("where", "behind %s: %s, and there must be %s" % (words[0], counted(len(words) - 1, "word"), len(shape) or "none"))
        report.add("do", "Write %s; a name with blanks stands in quotes." % shape_text(words[0]))
        return report
    for kind, word in zip(shape, words[1:]):
        fault = number_fault(kind, word) if kind in NUMBERS else None
        if fault:
            report.add("where", "%s, which is %r: %s" % (kind, word, fault))
            report.add("do", "Write a number from %d to %d, with digits alone." % NUMBERS[kind])
    return report


# ---- read NAME


def cause_of(path):
    """Why a file cannot be read, or None where it can."""
    try:
        with open(path, "rb") as file:
            file.read(1)
    except OSError as error:
        return reason(error)
    except ValueError:
        return "it is no name of a file"
    return None


def folder_of(name, config):
    """The folder of the configuration, or the nearest one above it, from which a relative name is that of a file; or None."""
    folder = os.path.dirname(os.path.abspath(config))
    while not os.path.isfile(os.path.join(folder, name)):
        if folder == os.path.dirname(folder):
            return None
        folder = os.path.dirname(folder)
    return folder


def explain_read(name, role, config=None):
    """The file of this role in the command, and the configuration that names it, where one does."""
    report = Report()
    report.add("what", "a file cannot be read: %s" % role)
    report.add("where", "%s, which is %s" % (name or "an empty name", os.path.abspath(name)))
    cause = cause_of(name)
    report.add("found", cause or "it can be read now: it was not there, or could not be read, when the program ran")
    parent = os.path.dirname(os.path.abspath(name))
    other = folder_of(name, config) if config and name and not os.path.isabs(name) else None
    if other:
        report.add("but", "in the folder %s it is that of a file" % other)
        report.add("do", "Names of modules are relative to the folder in which the program is started, here %s: start it in %s, or write the path from here." % (os.getcwd(), other))
    elif cause == "it is a folder":
        report.add("do", "Name a file in it.")
    elif cause == "there is no such file" and not os.path.isdir(parent):
        report.add("do", "The folder %s is not there either: look at the path, and at the folder in which the program is started, here %s." % (parent, os.getcwd()))
    elif cause == "there is no such file":
        report.add("do", "Look at the name; it is relative to the folder in which the program is started, here %s." % os.getcwd())
    elif cause:
        report.add("do", "Let this user read it (chmod, chown), and pass through the folders above it.")
    else:
        report.add("do", "Run the command again.")
    return report


# ---- recording N


def record_text(number, at):
    return "record %d, which begins at %s" % (number, byte(at))


def recording_fault(report, refused, data):
    number, facts = refused.number, refused.facts
    if number == 70:
        report.add("found", "the first bytes are %s" % (data[:4].hex(" ").upper() or "none"))
        report.add("wanted", "53 4C 52 31 (SLR1)")
        answers = data[:4] == b"SLA1"
        report.add("do", "These are answers, and no recording: name the recording." if answers else "Make a recording of lines of words by tests/lib/recordings.py.")
        return
    if number == 76 and "size" in facts:
        report.add("found", counted(facts["size"], "byte"))
        report.add("wanted", "at most %d" % recordings.MOST_BYTES)
        report.add("do", "Divide it into several recordings.")
        return
    report.add("where", byte(refused.at) + ", behind the end" if number == 78 else record_text(refused.record, refused.at))
    found, advice = RECORD_FAULTS[number](facts)
    report.add("found", found)
    report.add("do", advice)


def cut_fault(facts):
    if facts["part"] == "a piece":
        found = "a piece says that it has %d bytes, and %d are left" % (facts["length"], facts["left"])
    else:
        found = "the file ends %s" % ("where a record has to begin" if facts["part"] == "the end" else "within a record")
    return found, "Let the last record be the end, the byte 00; else the file was cut off, or a length is wrong."


def link_fault(facts):
    if "next" in facts:
        return "a connection begins with the link %d" % facts["link"], "Links are given in order: this one has to be %d." % facts["next"]
    kind = "a piece" if facts["kind"] == recordings.PIECE else "a close"
    if facts["begun"]:
        return "%s of the link %d, which has been closed" % (kind, facts["link"]), "Begin a new connection: links are not used again."
    return "%s of the link %d, which has not begun" % (kind, facts["link"]), "Begin the connection before it."


RECORD_FAULTS = {
    71: cut_fault,
    72: lambda facts: ("the kind %d" % facts["kind"], "Kinds are 0 (end), 1 (begin), 2 (piece) and 3 (close): the record before may have a wrong length."),
    73: lambda facts: ("the moment %d behind the moment %d" % (facts["moment"], facts["last"]), "Put the records in the order of their moments."),
    74: link_fault,
    75: lambda facts: (
        "a connection of tenant %d, and the configuration has %s" % (facts["tenant"], counted(facts["tenants"], "tenant")),
        "Tenants are counted from 0 on: name one of 0 to %d, or use the configuration that the recording was made for." % (facts["tenants"] - 1),
    ),
    76: lambda facts: ("the link %d" % facts["link"], "A recording has at most %d connections: divide it." % recordings.MOST_CONNECTIONS),
    78: lambda facts: ("%d bytes behind the end" % facts["rest"], "Nothing follows the byte 00 of the end: take it out where more is to come."),
}
MEANINGS = {
    70: "the file is no recording", 71: "the recording ends too early", 72: "a record of an unknown kind", 73: "a moment is before the one of the record before",
    74: "a record of a connection that is not open, or out of order", 75: "a connection of a tenant that there is not", 76: "the recording is too large",
    77: "the recording has too many requests", 78: "bytes stand behind the end of the recording",
}  # fmt: skip


def explain_recording(number, name, data, config):
    report = Report()
    report.add("what", MEANINGS.get(number, "the recording is refused"))
    report.add("file", name)
    if number == 77:
        report.add("found", "more than 4096 requests and refusals of all connections together")
        report.add("do", "Divide it into several recordings; each begins with empty meters.")
        return report
    try:
        recordings.read(data, len(config["tenants"]))
        report.add("but", "the reader in Python takes it: the file has changed meanwhile, or one of the two has a fault")
    except recordings.Refused as refused:
        if refused.number == number:
            recording_fault(report, refused, data)
        else:
            report.add("but", "the reader in Python finds %d, %s: the file has changed meanwhile, or one of the two has a fault" % (refused.number, MEANINGS[refused.number]))
    return report


def explain_body(name, size):
    report = Report()
    report.add("what", "the body of the request is too long")
    report.add("file", name)
    report.add("found", counted(size, "byte"))
    report.add("wanted", "at most %d" % MOST_BODY)
    report.add("do", "Give it a shorter body; a connection that sends so much is answered with 413.")
    return report


# ---- 7, 8


def output_text(descriptor):
    try:
        found = os.fstat(descriptor)
        path = os.readlink("/proc/self/fd/%d" % descriptor)
    except OSError:
        return None, "it is closed"
    if stat.S_ISFIFO(found.st_mode):
        return found, "it is a pipe"
    if stat.S_ISSOCK(found.st_mode):
        return found, "it is a socket"
    return found, "it is %s%s" % ("the device " if stat.S_ISCHR(found.st_mode) else "the file ", path)


def explain_output():
    report = Report()
    report.add("what", "the output could not be written")
    found, text = output_text(1)
    report.add("where", "standard output: %s" % text)
    if found and stat.S_ISFIFO(found.st_mode):
        report.add("found", "whoever read from it is gone")
    elif found and stat.S_ISREG(found.st_mode):
        room = os.fstatvfs(1)
        report.add("found", "%d bytes are free there" % (room.f_bavail * room.f_frsize))
    report.add("means", "what was written is a part of the text, or nothing: use none of it")
    report.add("do", "Let the output go where there is room, and run the command again: it answers the same.")
    return report


def explain_memory(config):
    report = Report()
    report.add("what", "memory ran out")
    if config:
        pages = max(route["pages"] for route in config_reader.routes_of(config))
        report.add("found", "berths and one more, times the largest pages, are (%d + 1) * %d * 64 KiB, %d KiB" % (
            config["berths"], pages, (config["berths"] + 1) * pages * 64))  # fmt: skip
    report.add("do", "Give the process more memory (ulimit -v; the limit of its container)%s." % (", or fewer berths" if config else ""))
    return report
