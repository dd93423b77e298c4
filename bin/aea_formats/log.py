"""The log of an archive: the lines that its commands printed, oldest first. Before that of an object in parts, which is not of new nodes
alone, a line `parts NEW FIRST COUNT ..` tells how many nodes its record added, and the first node and the number of nodes of each part. The
last line of a log that was made of a ledger is `nodes N`, with the number of all nodes: so it tells of each record."""

import re

from .basics import OBJECT, OBJECT_IN_PARTS, RAISED, is_name, is_shape, nodes_for
from .ledger import Object

LEAST_BLOCK, MOST_BLOCK, MOST_SITES = 16, 65536, 64


def lines_of(ledger):
    """The lines of the log of a ledger."""
    yield f"created {ledger.alpha} {ledger.s} {ledger.p} {ledger.block} {ledger.sites}".encode()
    for record in ledger.records:
        if not isinstance(record, Object):
            yield b"%s %d" % (record[0].encode(), record[1])
            continue
        if record.kind == OBJECT_IN_PARTS:
            yield b" ".join([b"parts %d" % record.new, *(b"%d %d" % part for part in record.parts)])
        yield b"stored %d %d %s " % (record.count, record.length, record.digest.hex().encode()) + record.name
    yield b"nodes %d" % ledger.nodes


class Log:
    """What the bytes of a log tell: `shape`, that of its line `created`; `records`, as those of a ledger; and `passed_over`, the numbers of
    lines that are none of a log, or whose object is there already. `is_whole` says that it ends with a fitting line `nodes`. Of an object without
    a line `parts` its `parts` are None, and its `new` nodes as many as it has; if the log is not whole, it may be one in parts all the same."""

    def __init__(self, bytes):
        self.shape, self.records, self.passed_over, self.names, self.next, self.is_whole = None, [], [], set(), None, False
        for at, line in enumerate(bytes.split(b"\n"), 1):
            if line and not self.read(line):
                self.passed_over.append(at)

    @property
    def objects(self):
        return [it for it in self.records if isinstance(it, Object)]

    @property
    def fences(self):
        return [it[1] for it in self.records if not isinstance(it, Object) and it[0] == "fence"]

    @property
    def nodes(self):
        """How many nodes the records add."""
        return sum(it.new for it in self.objects)

    def read(self, line):
        """Whether the line is one of a log."""
        parts, self.next, self.is_whole = self.next, None, False
        match = re.fullmatch(rb"nodes (\d{1,9})", line)
        if match:
            self.is_whole = int(match[1]) == self.nodes
            return self.is_whole
        match = re.fullmatch(rb"created( \d{1,9}){5}", line)
        if match:
            return self.read_shape(tuple(int(it) for it in line.split()[1:]))
        match = re.fullmatch(rb"parts (\d{1,9})((?: \d{1,9} \d{1,9})*)", line)
        if match:
            numbers = [int(it) for it in match[2].split()]
            self.next = int(match[1]), list(zip(numbers[::2], numbers[1::2]))
            return True
        match = re.fullmatch(rb"stored (\d{1,9}) (\d{1,18}) ([0-9a-f]{64}) (.+)", line)
        if match:
            return self.read_object(int(match[1]), int(match[2]), bytes.fromhex(match[3].decode()), match[4], parts)
        match = re.fullmatch(rb"(fence|upgraded) (\d{1,9})", line)
        if match and (match[1] == b"fence" or int(match[2]) == RAISED):
            self.records.append((match[1].decode(), int(match[2])))
            return True
        return re.fullmatch(rb"end \d+", line) is not None

    def read_shape(self, shape):
        alpha, s, p, block, sites = shape
        if self.shape or not is_shape(alpha, s, p) or not LEAST_BLOCK <= block <= MOST_BLOCK or not 1 <= sites <= MOST_SITES:
            return False
        self.shape = shape
        return True

    def read_object(self, count, length, digest, name, parts):
        new, parts = parts or (count, None)
        is_whole = parts is None or sum(it for _, it in parts) == count
        if not is_name(name) or name in self.names or not is_whole or self.shape and count != nodes_for(length, self.shape[3]):
            return False
        self.names.add(name)
        self.records.append(Object(name, length, digest, parts, new, OBJECT if parts is None else OBJECT_IN_PARTS))
        return True
