"""Marks, limits and numbers of the formats, and what is raised when bytes break them."""

import hashlib

LEDGER, COPIES = "ledger.aea", ("ledger-2.aea", "ledger-3.aea")
LEDGER_MARK, COPY_MARK, CELL_MARK = b"AEALEDG1", b"AEACOPY1", b"AEB1"
OBJECT, FENCE, OBJECT_IN_PARTS, RAISE = 1, 2, 3, 4
LIMIT, RAISED, MOST_OBJECTS, MOST_FENCES = 65536, 1048576, 65536, 16
HEADER, CELL_HEAD, DIGEST = 17, 16, 32
CELL_MORE = CELL_HEAD + DIGEST
GREATEST_COPY, GREATEST_LINE = 1 << 58, 1 << 24
LETTERS = "dhrl"
DATA, HORIZ, RIGHT, LEFT = range(4)


class NotThere(Exception):
    """There is no archive, or no ledger that a command could use."""


class Bad(Exception):
    """Bytes break their format: `place` is an offset, or the number of a line."""

    def __init__(self, place):
        super().__init__(place)
        self.place = place


def number(width, value):
    return value.to_bytes(width, "big")


def value(bytes, at, width):
    return int.from_bytes(bytes[at:at + width], "big")


def is_name(name):
    """Whether these bytes may name an object."""
    try:
        name.decode()
    except UnicodeDecodeError:
        return False
    return 0 < len(name) < 256 and not any(byte < 32 or byte == 127 for byte in name)


def is_shape(alpha, s, p):
    return (s, p) == (1, 0) if alpha == 1 else alpha in (2, 3) and 2 <= s <= 16 and s <= p <= 64


def nodes_for(length, block):
    return -(-length // block)


def digest_of(head_and_payload):
    return hashlib.sha256(head_and_payload).digest()


def xor(pieces):
    """The XOR of pieces of one length."""
    total, length = 0, 0
    for piece in pieces:
        total, length = total ^ int.from_bytes(piece, "big"), len(piece)
    return total.to_bytes(length, "big")
