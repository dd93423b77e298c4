"""The lattice: neighbours on the strands, equations, and the texts and numbers of blocks."""

import bisect
import re

from .basics import DATA, HORIZ, LETTERS, RIGHT


class Lattice:
    """A lattice AE(alpha, s, p) of `nodes` nodes, whose strands begin again after each node of `fences`."""

    def __init__(self, alpha, s, p, nodes, fences=()):
        self.alpha, self.s, self.p, self.nodes, self.fences, self.classes = alpha, s, p, nodes, sorted(fences), 1 + alpha

    @property
    def blocks(self):
        return self.nodes * self.classes

    def number(self, node, kind):
        return (node - 1) * self.classes + kind

    def node_and_class(self, block):
        node, kind = divmod(block, self.classes)
        return node + 1, kind

    def text(self, block):
        node, kind = self.node_and_class(block)
        return f"{LETTERS[kind]}{node}"

    def block_of(self, text):
        """The number of the block with this text; None if the lattice has no such block."""
        match = re.fullmatch(r"([dhrl])([1-9][0-9]{0,9})", text)
        if not match or LETTERS.index(match[1]) > self.alpha or int(match[2]) > self.nodes:
            return None
        return self.number(int(match[2]), LETTERS.index(match[1]))

    def step(self, node, kind, way):
        """The node before (way -1) or after (way 1) on the strand of a class, as if it had no end."""
        s, p, row = self.s, self.p, (node - 1) % self.s
        is_top, is_bottom = row == 0, row == s - 1
        if kind == HORIZ:
            return node + way * s
        if kind == RIGHT:
            turns = is_top if way < 0 else is_bottom
            return node + way * (s * p - (s * s - 1) if turns else s + 1)
        turns = is_bottom if way < 0 else is_top
        return node + way * (s * p - (s - 1) ** 2 if turns else s - 1)

    def is_cut(self, first, last):
        """Whether a fence lies after `first` and before `last`."""
        at = bisect.bisect_left(self.fences, first)
        return at < len(self.fences) and self.fences[at] < last

    def before(self, node, kind):
        """The node whose parity of this class enters `node`; None if the strand begins there."""
        other = self.step(node, kind, -1)
        return other if other >= 1 and not self.is_cut(other, node) else None

    def after(self, node, kind):
        """The node that the parity of this class enters; None if the parity is the last of its strand."""
        other = self.step(node, kind, 1)
        return other if other <= self.nodes and not self.is_cut(node, other) else None

    def equation(self, node, kind):
        """The blocks that add up to nothing: the data block, its parity of this class, and the parity before it on the strand."""
        other = self.before(node, kind)
        blocks = (self.number(node, DATA), self.number(node, kind))
        return blocks if other is None else blocks + (self.number(other, kind),)

    def equations(self):
        for node in range(1, self.nodes + 1):
            for kind in range(1, self.classes):
                yield self.equation(node, kind)

    def equations_of(self, block):
        """The equations that contain a block."""
        node, kind = self.node_and_class(block)
        if kind == DATA:
            return [self.equation(node, it) for it in range(1, self.classes)]
        other = self.after(node, kind)
        return [self.equation(node, kind)] + ([self.equation(other, kind)] if other else [])
