"""Reads the files of an archive, by docs/FORMATS.md alone: the ledger, its copies, cells, the lattice, loss reports and logs.

For Python 3.9 or later; needs nothing else and writes no file. Blocks are numbers, as FORMATS counts them; bytes are bytes.

    archive = aea_formats.Archive(".")                  the archive of a folder, by the ledger by which the next command goes
    archive.ledger.objects                              its objects: name, length, digest, parts
    aea_formats.Ledger(bytes), judge_copy(bytes)        the bytes of a ledger, or of a copy, judged
    ledger.lattice.equations_of(number)                 the equations that a block is in
    archive.judge(number)                               what is at the home of a block
    aea_formats.Report(bytes)                           a loss report
    aea_formats.lines_of(ledger), Log(bytes)            the log of a ledger, and what the bytes of one tell

`Bad` is raised with the offset, or the line of a report, at which bytes break their format; `NotThere` says that there is no archive."""

from .archive import Archive, is_copy_begun, judge_copy
from .basics import (CELL_HEAD, CELL_MARK, CELL_MORE, COPIES, COPY_MARK, DATA, DIGEST, FENCE, HEADER, HORIZ, LEDGER, LEDGER_MARK, LEFT, LETTERS,
                     LIMIT, MOST_FENCES, MOST_OBJECTS, OBJECT, OBJECT_IN_PARTS, RAISE, RAISED, RIGHT, Bad, NotThere, digest_of, is_name, is_shape,
                     nodes_for, number, value, xor)
from .cells import Homes, cell_head, cell_of, read_cell, site_file, site_folder
from .lattice import Lattice
from .ledger import Ledger, Object, header_of, object_record, record_of
from .log import Log, lines_of
from .reports import Report
