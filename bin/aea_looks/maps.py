"""`look map`: where on the sites the blocks are that a scrub or a report names."""

import sys

from . import archive_here
from .damage import blocks_of_input


class Strips:
    """The files of the sites in at most `width` strips of cells each, and how many cells of a strip are named."""

    def __init__(self, ledger, found, width):
        self.homes = ledger.homes
        self.rows = max(1, -(-ledger.blocks // ledger.sites))
        self.width = min(width, self.rows)
        self.most = -(-self.rows // self.width)
        self.bad = {}
        for block in found:
            site, row = self.homes.home(block)
            self.bad.setdefault(site, []).append(row)

    def edge(self, strip):
        return strip * self.rows // self.width

    def of_site(self, site):
        """The first cell of each strip, that behind it, how many of its cells are named, and how many there are."""
        cells = self.homes.cells_of(site)
        counts = [0] * self.width
        for row in self.bad.get(site, ()):
            counts[((row + 1) * self.width - 1) // self.rows] += 1
        for strip, bad in enumerate(counts):
            first, end = self.edge(strip), min(self.edge(strip + 1), cells)
            yield first, end, bad, max(0, end - first)

    def damaged(self, site):
        return len(self.bad.get(site, ()))


def show_map(form=None):
    ledger = archive_here().ledger
    word, found = blocks_of_input(ledger)
    if form == "--svg":
        from .picture import picture
        sys.stdout.write(picture(ledger, word, found))
    else:
        show_marks(ledger, found)
    return 1 if found else 0


def show_marks(ledger, found):
    """A line for each site, of at most 64 marks."""
    strips = Strips(ledger, found, 64)
    cells = strips.most
    size = "one cell" if cells == 1 else f"at most {cells} cells"
    print(f"each mark is {size}, {cells * ledger.homes.cell} bytes: . intact, 1 to 9 tenths damaged, # all damaged")
    for site in range(1, ledger.sites + 1):
        marks = "".join(mark_of(bad, of) for _, _, bad, of in strips.of_site(site))
        print(f"{site:2} |{marks}| {strips.damaged(site)} of {ledger.homes.cells_of(site)}")


def mark_of(bad, of):
    return " " if not of else "." if not bad else "#" if bad == of else str(max(1, bad * 10 // of))
