"""What is told of a refusal: lines with a word in front that says what each is."""

SHOWN = 60  # letters of a text that is shown


class Report:
    def __init__(self):
        self.lines = []

    def add(self, label, text):
        self.lines.append((label, printable(text)))

    def text(self):
        return "".join("  %-9s %s\n" % (label, text) for label, text in self.lines)


def printable(text):
    """A text in which each character that cannot be shown stands as an escape: names come from files that others wrote."""
    return "".join(letter if letter.isprintable() else letter.encode("unicode_escape", "surrogatepass").decode() for letter in text)


def shortened(text):
    """A text in one line, and its beginning where it is long."""
    line = " ".join(text.split())
    return line if len(line) <= SHOWN else line[:SHOWN] + " .."


def counted(count, one, many=None):
    return "%d %s" % (count, one if count == 1 else many or one + "s")


def joined(items, word="and"):
    items = list(items)
    return items[0] if len(items) == 1 else "%s %s %s" % (", ".join(items[:-1]), word, items[-1])


def byte(place):
    return "byte %d (hexadecimal %X)" % (place, place)
