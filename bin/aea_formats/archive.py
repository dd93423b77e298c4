"""An archive in a folder, and the copies of its ledger."""

import os

from .basics import COPIES, COPY_MARK, DIGEST, GREATEST_COPY, HEADER, LEDGER, NotThere, digest_of, value
from .cells import read_cell, site_file
from .ledger import Ledger


def is_copy_begun(copy):
    return len(copy) >= 10 and copy[0] == 1


def judge_copy(copy):
    """The text of a copy and None, if it is good; otherwise the text of its whole entries, and the offset at which it is bad."""
    if not is_copy_begun(copy):
        return b"", 0
    if copy[1:9] != COPY_MARK:
        return b"", 1
    pieces, link, gate = [], bytes(32), 9
    while copy[gate:gate + 1] == b"\1":
        length = value(copy, gate + 1, 4)
        piece, end = copy[gate + 5:gate + 5 + length], gate + 37 + length
        wanted = 6 + value(piece, 2, 4) if pieces else HEADER
        link = digest_of(link + copy[gate + 1:gate + 5 + length])
        if end > len(copy) or end > GREATEST_COPY or length != wanted or piece[:1] != b"\1" or copy[end - 32:end] != link:
            return b"".join(pieces), gate
        pieces.append(piece)
        gate = end
    return b"".join(pieces), None if pieces and gate < len(copy) else gate


class Archive:
    """An archive in a folder: its three ledgers as they are, and the one by which the next command goes. Reads, and changes nothing."""

    def __init__(self, folder="."):
        self.folder, self.opened = folder, {}
        self.files = {name: self.read(name) for name in (LEDGER, *COPIES)}
        self.copies = {name: judge_copy(self.files[name]) for name in COPIES if is_copy_begun(self.files[name] or b"")}
        self.ledger = Ledger(self.bytes_that_count())

    def path(self, name):
        return os.path.join(self.folder, name)

    def read(self, name):
        try:
            with open(self.path(name), "rb") as file:
                return file.read()
        except FileNotFoundError:
            return None

    def bytes_that_count(self):
        """The ledger by which the next command goes, with its closed gate: the text that the copies keep if one of them is begun."""
        if not self.copies:
            if self.files[LEDGER] is None:
                raise NotThere("there is no ledger.aea, and no copy of it")
            return self.files[LEDGER]
        good = sorted((text for text, bad in self.copies.values() if bad is None), key=len)
        if not good:
            raise NotThere("no copy of the ledger is good")
        if not good[-1].startswith(good[0]):
            raise NotThere("the copies of the ledger differ")
        return good[-1] + b"\0"

    def read_cell(self, block):
        """The bytes at the home of a block; fewer if the file ends before its cell does. A file that is missing has none."""
        site, row = self.ledger.homes.home(block)
        cell = self.ledger.homes.cell
        file = self.file_of(site)
        return os.pread(file.fileno(), cell, row * cell) if file else b""

    def file_of(self, site):
        """The file of a site, opened for reading; None if it is missing."""
        if site not in self.opened:
            try:
                self.opened[site] = open(self.path(site_file(site)), "rb")
            except (FileNotFoundError, NotADirectoryError):
                self.opened[site] = None
        return self.opened[site]

    def judge(self, block):
        """What is at the home of a block: `intact`, `missing`, `zeros`, `changed`, `another block's`, or a cell of this very block that
        the ledger does not have."""
        cell = self.read_cell(block)
        if len(cell) < self.ledger.homes.cell:
            return "missing"
        node, kind = self.ledger.lattice.node_and_class(block)
        said = read_cell(cell)
        if said and said[:2] == (node, kind):
            return "intact" if cell[-DIGEST:] == self.ledger.digest(block) else "another archive's or an older state's"
        if said:
            return "another block's"
        return "changed" if any(cell) else "zeros"
