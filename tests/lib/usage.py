"""The words of a check of `tests/`, which are looked at before anything is built or run."""

import os
import sys


def only(shapes, words, text):
    """Ends the check where its words are none of these shapes: after `--help` with its text and status 0, else with one line and status 2.
    A shape is a list of kinds, each a call that answers whether a word is of it."""
    if words == ["--help"]:
        print(text.strip())
        sys.exit(0)
    if not any(len(shape) == len(words) and all(kind(word) for kind, word in zip(shape, words)) for shape in shapes):
        print("%s: no such words: %s; --help shows those that there are" % (os.path.basename(sys.argv[0]), " ".join(words)), file=sys.stderr)
        sys.exit(2)


def none(words, text):
    """The check takes no words."""
    only([[]], words, text)


def is_number(word):
    return word.isascii() and word.isdigit()


def counts(words, text):
    """The check takes a count and a seed, or a count, or nothing."""
    only([[], [is_number], [is_number, is_number]], words, text)
