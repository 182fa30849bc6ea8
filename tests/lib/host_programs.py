"""Modules that call the host: how a call, its iovecs and what it leaves are written. Nothing is checked, so that a call that the
host must refuse can be written too.
"""

from lib.interpreter import PAGE
from lib.module_writer import body, module, number, signed, text

WASI = text("16") + b"wasi_snapshot_preview1"
TYPES = ["60 04 7F 7F 7F 7F 01 7F", "60 01 7F 00", "60 00 00"]
IMPORTS = [WASI + b"\x07fd_read\x00\x00", WASI + b"\x08fd_write\x00\x00", WASI + b"\x09proc_exit\x00\x01"]
READ, WRITE, EXIT, FIRST = range(4)
START = [b"\x06_start\x00\x03"]
ANSWER = PAGE - 4


def const(value):
    return b"\x41" + signed(value - (1 << 32) if value >> 31 else value)


def call(function, *arguments):
    return b"".join(map(const, arguments)) + b"\x10" + number(function)


def through(place, of_type, *arguments):
    """A call of the function at a place of the table."""
    return b"".join(map(const, (*arguments, place))) + b"\x11" + number(of_type) + b"\x00"


def store(at, value):
    return const(at) + const(value) + text("36 00 00")


def laid(at, buffers):
    """Stores an array of iovecs."""
    return b"".join(store(at + 8 * place + 4 * part, pair[part]) for place, pair in enumerate(buffers) for part in (0, 1))


def told(code):
    """Stores the result of a call, and writes it into the reply by an iovec behind all else."""
    return const(ANSWER) + code + text("36 00 00") + laid(ANSWER - 8, [(ANSWER, 4)]) + call(WRITE, 1, ANSWER - 8, 1, ANSWER - 12) + b"\x1a"


def shown(at, count):
    """Writes a part of the memory into the reply."""
    return laid(ANSWER - 8, [(at, count)]) + call(WRITE, 1, ANSWER - 8, 1, ANSWER - 12) + b"\x1a"


def program(code, memories=("00 01",), segments=(), functions=("02",), more=(), **parts):
    return module(types=TYPES, imports=IMPORTS, functions=list(functions), memories=list(memories), exports=START, bodies=[body(code), *more], segments=list(segments), **parts)


def expects(code, errno):
    return code + const(errno) + text("46 45 04 40 00 0B")


def filled(count):
    """Writes so many bytes of the memory into the reply."""
    return laid(1024, [(0, count)]) + call(WRITE, 1, 1024, 1, 1032) + b"\x1a"
