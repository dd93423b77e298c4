"""The ledger: its header and its records, read and written."""

import bisect
import hashlib

from .basics import (DIGEST, FENCE, HEADER, LEDGER_MARK, LIMIT, MOST_FENCES, MOST_OBJECTS, OBJECT, OBJECT_IN_PARTS, RAISE, RAISED, Bad, NotThere,
                     is_name, nodes_for, number, value)
from .cells import Homes
from .lattice import Lattice


class Object:
    """An object: its name, its length in bytes, the SHA-256 of these, and its parts, each a first node and a number of nodes. Its record
    adds `new` nodes, and is of the kind `kind`."""

    def __init__(self, name, length, digest, parts, new=0, kind=OBJECT):
        self.name, self.length, self.digest, self.parts, self.new, self.kind = name, length, digest, parts, new, kind

    @property
    def count(self):
        return sum(count for _, count in self.parts)

    def nodes(self):
        for first, count in self.parts:
            yield from range(first, first + count)


class Fields:
    """Fields of bytes, one after the other; one that is not whole, or not valid, is bad at its first offset."""

    def __init__(self, bytes, at):
        self.bytes, self.at, self.began = bytes, at, at

    def take(self, width):
        if self.at + width > len(self.bytes):
            raise Bad(self.at)
        self.began, self.at = self.at, self.at + width
        return self.bytes[self.began:self.at]

    def number(self, width):
        return int.from_bytes(self.take(width), "big")

    def skip(self, width):
        """Goes past a field whose bytes may be any."""
        if self.at + width > len(self.bytes):
            raise Bad(self.at)
        self.began, self.at = self.at, self.at + width

    def must(self, holds):
        if not holds:
            raise Bad(self.began)


class Ledger:
    """What the bytes of a ledger say. `end` is the offset of the gate that ends it, `text` the bytes before that gate, and `gates` the
    offsets of the open gates, and `records` what is behind each: an object, `("fence", node)` or `("upgraded", limit)`. `Bad` is raised unless `lenient`: then `bad` is the offset, and what is before it stands."""

    def __init__(self, bytes, lenient=False):
        if len(bytes) < HEADER + 1 or bytes[0] != 1:
            raise NotThere("no ledger: it is too short, or its first byte is not 1")
        self.bytes, self.objects, self.fences, self.nodes, self.limit = bytes, [], [], 0, LIMIT
        self.gates, self.records, self.runs, self.names, self.bad = [], [], [], set(), None
        self.read_header()
        gate = HEADER
        try:
            while self.is_open(gate):
                fields = Fields(bytes, gate + 1)
                self.read_record(fields)
                self.gates.append(gate)
                gate = fields.at
        except Bad as why:
            if not lenient:
                raise
            self.bad = why.place
        self.end = gate
        self.lattice = Lattice(self.alpha, self.s, self.p, self.nodes, self.fences)
        self.homes = Homes(self.sites, self.block, self.lattice.blocks)
        self.blocks = self.lattice.blocks

    @property
    def text(self):
        return self.bytes[:self.end]

    def seal(self, end=None):
        return hashlib.sha256(memoryview(self.bytes)[:self.end if end is None else end]).hexdigest()

    def is_open(self, gate):
        if gate >= len(self.bytes):
            raise Bad(gate)
        if self.bytes[gate] != 1:
            return False
        if len(self.objects) == MOST_OBJECTS and self.bytes[gate + 1:gate + 2] in (b"\1", b"\3"):
            raise Bad(gate)
        return True

    def read_header(self):
        fields = Fields(self.bytes, 1)
        fields.must(fields.take(8) == LEDGER_MARK)
        self.alpha = fields.number(1)
        fields.must(1 <= self.alpha <= 3)
        self.s = fields.number(1)
        fields.must(self.s == 1 if self.alpha == 1 else 2 <= self.s <= 16)
        self.p = fields.number(1)
        fields.must(self.p == 0 if self.alpha == 1 else self.s <= self.p <= 64)
        self.sites = fields.number(1)
        fields.must(1 <= self.sites <= 64)
        self.block = fields.number(4)
        fields.must(16 <= self.block <= 65536)
        self.classes = 1 + self.alpha

    def read_record(self, fields):
        kind = fields.number(1)
        fields.must(kind in (OBJECT, FENCE, RAISE) or kind == OBJECT_IN_PARTS and self.limit == RAISED)
        length, at = fields.number(4), fields.began
        if kind in (OBJECT, OBJECT_IN_PARTS):
            keep = self.read_object(fields, kind)
        else:
            keep = self.read_mark(fields, kind)
        if fields.at - at - 4 != length:
            raise Bad(at)
        keep()

    def read_mark(self, fields, kind):
        what = fields.number(4)
        if kind == FENCE:
            fields.must(what == self.nodes >= 1 and what not in self.fences and len(self.fences) < MOST_FENCES)
            return lambda: self.keep_fence(what)
        fields.must(what == RAISED and self.limit != RAISED)
        return lambda: self.keep_raise(what)

    def read_object(self, fields, kind):
        width = fields.number(2)
        fields.must(1 <= width <= 255)
        name = fields.take(width)
        fields.must(is_name(name) and name not in self.names)
        length, digest = fields.number(8), fields.take(DIGEST)
        first = fields.number(4)
        fields.must(first == self.nodes + 1)
        count = fields.number(4)
        fields.must(self.nodes + count <= self.limit and (kind == OBJECT_IN_PARTS or count == nodes_for(length, self.block)))
        parts = [(first, count)] if count else []
        if kind == OBJECT_IN_PARTS:
            parts = self.read_parts(fields, nodes_for(length, self.block), self.nodes + count)
        fields.skip(DIGEST * self.classes * count)
        return lambda: self.keep_object(Object(name, length, digest, parts, count, kind), first, fields.began)

    def read_parts(self, fields, count, nodes):
        many = fields.number(4)
        fields.must(many <= RAISED)
        bytes, last, parts = fields.take(8 * many), 0, []
        for at in range(0, len(bytes), 8):
            first, part = value(bytes, at, 4), value(bytes, at + 4, 4)
            fields.must(last < first and part >= 1 and first + part - 1 <= nodes)
            last = first + part - 1
            parts.append((first, part))
        fields.must(sum(part for _, part in parts) == count)
        return parts

    def keep_object(self, object, first, offset):
        self.records.append(object)
        self.objects.append(object)
        self.names.add(object.name)
        self.nodes += object.new
        if object.new:
            self.runs.append(((first - 1) * self.classes, offset))

    def keep_fence(self, node):
        self.records.append(("fence", node))
        self.fences.append(node)

    def keep_raise(self, limit):
        self.records.append(("upgraded", limit))
        self.limit = limit

    def digest(self, block):
        """The digest that the ledger has of a block."""
        first, offset = self.runs[bisect.bisect_right(self.runs, (block, 1 << 63)) - 1]
        at = offset + DIGEST * (block - first)
        return bytes(self.bytes[at:at + DIGEST])

    def records_behind(self):
        """How many whole records are behind the gate that ends the ledger, read as if that gate were open."""
        opened = bytearray(self.bytes)
        if self.end >= len(opened):
            return 0
        opened[self.end] = 1
        try:
            return len(Ledger(bytes(opened), lenient=True).gates) - len(self.gates)
        except (Bad, NotThere):
            return 0


def header_of(alpha, s, p, sites, block):
    return b"\1" + LEDGER_MARK + bytes([alpha, s, p, sites]) + number(4, block)


def record_of(kind, fields):
    """An open gate, and a record of this kind behind it."""
    return b"\1" + bytes([kind]) + number(4, len(fields)) + fields


def object_record(object, first, digests):
    """The record of an object whose new nodes are those from `first` on, with the digests of their blocks."""
    fields = number(2, len(object.name)) + object.name + number(8, object.length) + object.digest + number(4, first) + number(4, object.new)
    if object.kind == OBJECT_IN_PARTS:
        fields += number(4, len(object.parts)) + b"".join(number(4, it) for part in object.parts for it in part)
    return record_of(object.kind, fields + digests)
