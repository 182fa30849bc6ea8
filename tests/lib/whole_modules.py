"""Whole modules that several tests run, in bytes."""


def text(*sections):
    return bytes.fromhex("00 61 73 6D 01 00 00 00" + "".join(sections))


# The type of a function that takes and gives nothing, one function of it, and its export as `_start`.
TAKES_NOTHING, ONE_FUNCTION, START = "01 04 01 60 00 00", "03 02 01 00", "07 0A 01 06 5F 73 74 61 72 74 00 00"

NOTHING = text(TAKES_NOTHING, ONE_FUNCTION, START, "0A 04 01 02 00 0B")
UNREACHABLE = text(TAKES_NOTHING, ONE_FUNCTION, START, "0A 05 01 03 00 00 0B")
ENDLESS = text(TAKES_NOTHING, ONE_FUNCTION, START, "0A 09 01 07 00 03 40 0C 00 0B 0B")

# It fills its page with FF, in 16,384 rounds of 11 operators.
PAGE_FILLER = text(
    TAKES_NOTHING, ONE_FUNCTION, "05 03 01 00 01", START,
    "0A 1E 01 1C 01 01 7F 03 40 20 00 41 7F 36 02 00 20 00 41 04 6A 22 00 41 80 80 04 49 0D 00 0B 0B",
)  # fmt: skip


def calls(depth):
    """`_start` calls a function with this number (in hexadecimal, as it is spelt), which calls itself with one less until it is 0."""
    return text(
        "01 08 02 60 00 00 60 01 7F 00 03 03 02 00 01", START,
        "0A 18 02 07 00 41", depth, "10 01 0B 0E 00 20 00 04 40 20 00 41 01 6B 10 01 0B 0B",
    )  # fmt: skip


# 4,094 and 4,095: with the frame of `_start` and that of the call with 0 just as many frames as may be live, and one more.
MOST_FRAMES, TOO_MANY_FRAMES = calls("FE 1F"), calls("FF 1F")

# A module of a compiler: it has two pages of memory, reads the body in pieces of 1,024 bytes, and writes each to the reply.
ECHO = text(
    """01 0C 02 60 04 7F 7F 7F 7F 01 7F 60 00 00 02 44 02 16 77 61 73 69 5F 73 6E 61 70 73 68 6F 74 5F 70 72 65 76 69 65
    77 31 07 66 64 5F 72 65 61 64 00 00 16 77 61 73 69 5F 73 6E 61 70 73 68 6F 74 5F 70 72 65 76 69 65 77 31 08 66 64 5F
    77 72 69 74 65 00 00 03 02 01 01 05 03 01 00 02 06 08 01 7F 01 41 80 88 04 0B 07 13 02 06 6D 65 6D 6F 72 79 02 00 06
    5F 73 74 61 72 74 00 02 0A 77 01 75 01 01 7F 23 80 80 80 80 00 41 10 6B 22 00 24 80 80 80 80 00 02 40 03 40 20 00 41
    80 08 36 02 08 20 00 41 80 08 36 02 0C 41 00 20 00 41 08 6A 41 01 20 00 41 04 6A 10 80 80 80 80 00 0D 01 20 00 28 02
    04 45 0D 01 20 00 20 00 28 02 04 36 02 0C 41 01 20 00 41 08 6A 41 01 20 00 41 04 6A 10 81 80 80 80 00 45 0D 00 0B 0B
    20 00 41 10 6A 24 80 80 80 80 00 0B 00 10 04 6E 61 6D 65 01 09 01 02 06 5F 73 74 61 72 74"""
)

# It replies with 16 bytes of memory that nothing has written to.
ZERO_READER = text(
    """01 0C 02 60 04 7F 7F 7F 7F 01 7F 60 00 00 02 23 01 16 77 61 73 69 5F 73 6E 61 70 73 68 6F 74 5F 70 72 65 76 69 65
    77 31 08 66 64 5F 77 72 69 74 65 00 00 03 02 01 01 05 03 01 00 01 07 0A 01 06 5F 73 74 61 72 74 00 01 0A 1E 01 1C 00
    41 00 41 80 08 36 02 00 41 00 41 10 36 02 04 41 01 41 00 41 01 41 08 10 00 1A 0B"""
)
