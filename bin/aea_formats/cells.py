"""Cells, and their homes in the files of the sites."""

from .basics import CELL_HEAD, CELL_MARK, CELL_MORE, DIGEST, LEFT, digest_of, number, value


def cell_head(node, kind):
    return CELL_MARK + bytes([kind, 0, 0, 0]) + number(8, node)


def cell_of(node, kind, payload):
    body = cell_head(node, kind) + payload
    return body + digest_of(body)


def read_cell(cell):
    """The node, the class and the payload that a whole cell says of itself; None if it is no cell of any block."""
    if len(cell) < CELL_MORE or cell[:4] != CELL_MARK or cell[5:8] != bytes(3) or cell[4] > LEFT:
        return None
    if digest_of(cell[:-DIGEST]) != cell[-DIGEST:]:
        return None
    return value(cell, 8, 8), cell[4], cell[CELL_HEAD:-DIGEST]


class Homes:
    """The homes of `blocks` blocks of `block` bytes on `sites` sites."""

    def __init__(self, sites, block, blocks):
        self.sites, self.cell, self.blocks = sites, block + CELL_MORE, blocks

    def home(self, block):
        """The site of a block, and its cell there."""
        row, column = divmod(block, self.sites)
        return 1 + (column + row) % self.sites, row

    def block_at(self, site, row):
        return row * self.sites + (site - 1 - row) % self.sites

    def cells_of(self, site):
        """How many cells of the archive are on a site."""
        rows = self.blocks // self.sites
        return rows + (self.block_at(site, rows) < self.blocks)


def site_folder(site):
    return f"site-{site:02}"


def site_file(site):
    return f"site-{site:02}/blocks.aea"
