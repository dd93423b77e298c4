"""`look damage`: the blocks that a scrub or a report names, by sites, files, causes and objects, and what to do next."""

import errno
import os
import sys

import aea_formats as formats
from . import WrongInput, archive_here, print_name


# of the blocks that a scrub or a report names


def blocks_of_scrub(bytes, ledger):
    """The damaged blocks of a whole output of a scrub of this archive."""
    lines = bytes.split(b"\n")
    found = []
    for line in lines[:-2]:
        word, _, text = line.partition(b" ")
        block = ledger.lattice.block_of(text.decode("ascii", "replace")) if word == b"damaged" else None
        if block is None or found and block <= found[-1]:
            raise WrongInput("the input is no output of `aea scrub` of this archive")
        found.append(block)
    if lines[-1] or lines[-2:-1] != [f"total {ledger.blocks} damaged {len(found)}".encode()]:
        raise WrongInput("the input is no whole output of `aea scrub` of this archive as it is")
    return found


def blocks_of_report(bytes, ledger):
    """The blocks of the `lost` lines of a whole report of this archive as it is."""
    try:
        report = formats.Report(bytes)
    except formats.Bad as why:
        raise WrongInput(f"the input is a report that is bad at line {why.place}") from None
    lattice, kinds = report.lattice, [word for word, _, _ in report.lines]
    if (lattice.alpha, lattice.s, lattice.p, lattice.nodes) != (ledger.alpha, ledger.s, ledger.p, ledger.nodes):
        raise WrongInput("the input is the report of another archive, or of an older state")
    if report.seal != ledger.seal():
        raise WrongInput("the input is a report with another seal than that of this archive as it is")
    if report.counts != (len(kinds), kinds.count("peeled"), kinds.count("solved"), kinds.count("lost")):
        raise WrongInput("the input is no whole report: its counts are not those of its lines")
    return [block for word, block, _ in report.lines if word == "lost"]


def blocks_of_input(ledger):
    """`damaged` or `lost`, by which input it is, and the blocks that it names so."""
    bytes = sys.stdin.buffer.read()
    if not bytes:
        raise WrongInput("the input is empty: `aea scrub` said on standard error why")
    if bytes.startswith(b"aea-report"):
        return "lost", blocks_of_report(bytes, ledger)
    return "damaged", blocks_of_scrub(bytes, ledger)


def cause_of(archive, block):
    """What is at the home of a block that is named."""
    try:
        return archive.judge(block)
    except OSError as why:
        return "unreadable" if why.errno == errno.EIO else f"can't be read: {why.strerror}"


def runs_of(numbers):
    """The first and the last of each run of numbers that follow each other."""
    runs = []
    for it in sorted(numbers):
        if runs and runs[-1][1] + 1 == it:
            runs[-1][1] = it
        else:
            runs.append([it, it])
    return runs


def damage():
    archive = archive_here()
    ledger = archive.ledger
    word, found = blocks_of_input(ledger)
    print(f"blocks {ledger.blocks} {word} {len(found)}")
    if not found:
        print("next: nothing" if word == "damaged" else "next: nothing; all that was damaged is restored")
        return 0
    sites = {}
    for block in found:
        site, row = ledger.homes.home(block)
        sites.setdefault(site, {})[row] = cause_of(archive, block)
    for site, cells in sorted(sites.items()):
        show_site(archive, site, cells, word)
    show_objects(ledger, found, word)
    causes = {cause for cells in sites.values() for cause in cells.values()}
    whole = [site for site, cells in sorted(sites.items()) if len(cells) == ledger.homes.cells_of(site)]
    for line in advice(ledger, word, whole, causes):
        print(f"next: {line}")
    return 1


def show_site(archive, site, cells, word):
    """A line for a site, and one for each run of cells that have one cause."""
    homes = archive.ledger.homes
    state = state_of_site(archive, site)
    print(f"site {site} {word} {len(cells)} of {homes.cells_of(site)}" + (f": {state}" if state else ""))
    runs = [(first, last, cause) for cause in set(cells.values()) if not (cause == "missing" and state)
            for first, last in runs_of(row for row in cells if cells[row] == cause)]
    for first, last, cause in sorted(runs):
        print(f"  bytes {first * homes.cell} to {(last + 1) * homes.cell - 1} of {formats.site_file(site)}: {cause}")


def show_objects(ledger, found, word):
    """A line for each object with blocks that are named, in the order of names, and one for the blocks in no object."""
    kinds, held, hurt = {}, set(), 0
    for block in found:
        node, kind = ledger.lattice.node_and_class(block)
        kinds.setdefault(node, []).append(kind)
    for object in sorted(ledger.objects, key=lambda it: it.name):
        mine = [node for node in object.nodes() if node in kinds]
        held.update(mine)
        data = sum(formats.DATA in kinds[node] for node in mine)
        others = sum(len(kinds[node]) for node in mine) - data
        hurt += data > 0
        if mine:
            print_name(f"object data {data} of {object.count} parities {others}: ", object.name)
    free = sum(len(kinds[node]) for node in kinds.keys() - held)
    if free:
        print(f"in no object {free}")
    print(f"objects {len(ledger.objects)}, with {word} data {hurt}")


def advice(ledger, word, whole, causes):
    """What to do next."""
    if word == "lost":
        yield "bring back a site that has a block of a `lost` line or of one of its nodes, and repair again;"
        yield "the objects with lost data can't be read until then; put them again under another name from elsewhere"
        return
    if {"another archive's or an older state's", "another block's"} & causes:
        yield "do NOT repair: these cells are whole, and are another archive's, an older state's, or another site's. See whether links"
        yield "lead to the wrong disks, and whether the ledger went back (`aea-look ledgers`, `aea-look since MARK`); keep a copy of all files"
        return
    if causes == {"intact"}:
        yield "scrub again: all of these blocks are intact now; if they were mended meanwhile, all is well"
        return
    if any(cause.startswith("can't be read") for cause in causes):
        yield "see to it that the files can be read, and scrub again"
        return
    if "unreadable" in causes:
        yield "copy the file that can't be read, with zeros in the gaps (manual, \"unreadable sector\"), and then repair"
    for site in whole:
        yield f"all of site {site} is gone: if its disk is only not mounted, mount it; else give it a new folder, and then repair"
    yield "copy ledger*.aea elsewhere; see what a repair would bring back; then `flock . aea repair > report`:"
    if ledger.fences or ledger.nodes > formats.LIMIT:
        yield "  aea fetch NAME > /dev/null      (status 0: it can be read)"
    else:
        yield f"  aea scrub | sed -n 's/^damaged //p' | aea drill {ledger.alpha} {ledger.s} {ledger.p} {ledger.nodes} | sed -n 4p"


def state_of_site(archive, site):
    """What is wrong with a site's folder or the length of its file; nothing otherwise."""
    folder, file = archive.path(formats.site_folder(site)), archive.path(formats.site_file(site))
    if os.path.islink(folder) and not os.path.exists(folder):
        return f"its link leads to {os.readlink(folder)}, where nothing is"
    if not os.path.exists(folder):
        return "its folder is missing"
    if not os.path.exists(file):
        return "its file is missing"
    size, wanted = os.stat(file).st_size, archive.ledger.homes.cells_of(site) * archive.ledger.homes.cell
    return f"its file has {size} of {wanted} bytes" if size < wanted else ""
