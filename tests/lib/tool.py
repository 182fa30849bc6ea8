"""What the tools of `tools/` share: their options, an error in one line, and the program, which is run with a time limit.

A tool is `main(NAME, HELP, work, words)` over a function `work(options, words)`, which answers the exit status. The options stand
in front of its own words:

    --help             shows HELP on standard output
    --program FILE     the built program; where none is named, it is that of this checkout, which is built where it is not
    --seconds N        how long one run of the program may take, 600 where nothing is said

What goes wrong is raised as `Wrong`, and told as `NAME: WHAT` on standard error, with status 1, which the program never has.
"""

import errno
import os
import subprocess
import sys

from lib.running import BUILD_LIMIT, PROGRAM, SCRIPT

FAILED = 1
SECONDS = 600
REASONS = {
    errno.ENOENT: "there is no such file",
    errno.EISDIR: "it is a folder",
    errno.ENOTDIR: "a part of its path is a file and no folder",
    errno.EACCES: "this user may not read it",
    errno.EPERM: "this user may not read it",
    errno.ELOOP: "its links lead in a circle",
    errno.ENAMETOOLONG: "the name is too long",
}


class Wrong(Exception):
    """What went wrong, in one line."""


class Options:
    """The program, or None for that of this checkout; and how many seconds one run of it may take."""

    def __init__(self):
        self.program, self.seconds = None, SECONDS


# ---- files


def reason(error):
    """Why a file could not be read or written, in words."""
    return REASONS.get(error.errno) or (error.strerror or str(error)).lower()


def content(path, most=None):
    """The bytes of a file, or of its beginning."""
    try:
        with open(path, "rb") as file:
            return file.read() if most is None else file.read(most)
    except OSError as error:
        raise Wrong("%s cannot be read: %s" % (path, reason(error))) from None
    except ValueError:
        raise Wrong("%r is no name of a file" % path) from None


def write(path, data):
    """Writes a file."""
    try:
        with open(path, "wb") as file:
            file.write(data)
    except OSError as error:
        raise Wrong("%s cannot be written: %s" % (path, reason(error))) from None


# ---- the program


def program(options):
    """The path of the program. That of this checkout is built first where it is not; its script says so on standard error."""
    if options.program:
        return options.program
    try:
        done = subprocess.run([SCRIPT, "--version"], stdout=subprocess.DEVNULL, timeout=BUILD_LIMIT)
    except subprocess.TimeoutExpired:
        raise Wrong("the build did not end within %d seconds" % BUILD_LIMIT) from None
    except OSError as error:
        raise Wrong("%s cannot be run: %s" % (SCRIPT, reason(error))) from None
    if done.returncode:
        raise Wrong("there is no program to run (the lines above); --program FILE names another one")
    return PROGRAM


def run(options, words, folder=None, stdout=subprocess.PIPE):
    """Exit status, standard output (None where it goes elsewhere) and standard error of the program with these words. Its standard
    input is empty. It is ended where it takes longer than it may."""
    path = os.path.abspath(program(options)) if folder else program(options)
    try:
        done = subprocess.run([path, *words], cwd=folder, stdin=subprocess.DEVNULL, stdout=stdout, stderr=subprocess.PIPE, timeout=options.seconds)
    except subprocess.TimeoutExpired:
        raise Wrong("the program did not end within %g seconds; --seconds N gives it more" % options.seconds) from None
    except ValueError:
        raise Wrong("a word has a zero byte, and no program can be given one") from None
    except OSError as error:
        raise Wrong("%s cannot be run: %s" % (path, reason(error))) from None
    return done.returncode, done.stdout, done.stderr


# ---- a tool


def seconds(word):
    try:
        value = float(word)
    except ValueError:
        value = 0
    if not 0 < value < float("inf"):
        raise Wrong("--seconds is a number above 0, and not %s" % word)
    return value


def split(words):
    """The options, and the tool's own words behind them."""
    options, words = Options(), list(words)
    while words and words[0] in ("--program", "--seconds"):
        if len(words) == 1:
            raise Wrong("%s wants a word behind it" % words[0])
        option, value = words[:2]
        if option == "--program":
            options.program = value
        else:
            options.seconds = seconds(value)
        words = words[2:]
    return options, words


def one_line(text):
    return " ".join(str(text).split())


def main(name, help_text, work, words):
    """Does what the words ask for; answers the exit status."""
    try:
        if words[:1] == ["--help"]:
            sys.stdout.write(help_text)
            sys.stdout.flush()
            return 0
        status = work(*split(words))
        sys.stdout.flush()
        return status
    except Wrong as wrong:
        print("%s: %s" % (name, one_line(wrong)), file=sys.stderr)
    except BrokenPipeError:
        # Whoever read the output is gone; nothing is written at the end either.
        os.dup2(os.open(os.devnull, os.O_WRONLY), sys.stdout.fileno())
    except OSError as error:
        print("%s: %s" % (name, one_line(error.filename and "%s: %s" % (error.filename, reason(error)) or reason(error))), file=sys.stderr)
    except KeyboardInterrupt:
        print("%s: interrupted" % name, file=sys.stderr)
    return FAILED
