"""Loss reports."""

import re

from .basics import GREATEST_LINE, RAISED, Bad, is_shape
from .lattice import Lattice

NUMBER = rb"(0|[1-9][0-9]{0,9})"


class Report:
    """A loss report: `shape` and `nodes` of its lattice, `seal` (None for `none`), `counts`, and `lines`, each a word, a block and nodes.
    `Bad` is raised with the first line that breaks the grammar."""

    def __init__(self, bytes):
        self.lines, last = [], -1
        lines = bytes.split(b"\n")
        for at, line in enumerate(lines[:-1], 1):
            if len(line) > GREATEST_LINE:
                raise Bad(at)
            if at <= 4:
                (self.read_mark, self.read_lattice, self.read_seal, self.read_counts)[at - 1](line, at)
                continue
            word, block, nodes = self.read_line(line, at)
            if block <= last:
                raise Bad(at)
            last = block
            self.lines.append((word, block, nodes))
        if lines[-1] or len(lines) < 5:
            raise Bad(len(lines))

    @staticmethod
    def read_mark(line, at):
        if line != b"aea-report 1":
            raise Bad(at)

    def read_lattice(self, line, at):
        match = re.fullmatch(rb"lattice " + rb" ".join([NUMBER] * 4), line)
        if not match:
            raise Bad(at)
        alpha, s, p, nodes = (int(it) for it in match.groups())
        if not is_shape(alpha, s, p) or nodes > RAISED:
            raise Bad(at)
        self.lattice = Lattice(alpha, s, p, nodes)

    def read_seal(self, line, at):
        match = re.fullmatch(rb"ledger (none|[0-9a-f]{64})", line)
        if not match:
            raise Bad(at)
        self.seal = None if match[1] == b"none" else match[1].decode()

    def read_counts(self, line, at):
        match = re.fullmatch(rb"counts " + rb" ".join([NUMBER] * 4), line)
        if not match or any(int(it) > 4294967295 for it in match.groups()):
            raise Bad(at)
        self.counts = tuple(int(it) for it in match.groups())

    def read_line(self, line, at):
        match = re.fullmatch(rb"(?:(peeled|solved) (\w+)|(lost) (\w+) by ((?:[1-9][0-9]*)(?: [1-9][0-9]*)*))", line)
        if not match:
            raise Bad(at)
        block = self.lattice.block_of((match[2] or match[4]).decode("ascii", "replace"))
        nodes = [int(it) for it in match[5].split()] if match[5] else []
        if block is None or any(a >= b for a, b in zip(nodes, nodes[1:])) or nodes and nodes[-1] > self.lattice.nodes:
            raise Bad(at)
        return (match[1] or match[3]).decode(), block, nodes
