"""`look space`: how many bytes and nodes an archive can have, has, and has left, and how many its disks have room for."""

import os

import aea_formats as formats
from . import WrongInput, archive_here, count_with_commas


def space(*words):
    if words:
        try:
            alpha, s, p, block, sites = (int(it) for it in words)
        except ValueError:
            raise WrongInput("A S P B M are five numbers") from None
        if not formats.is_shape(alpha, s, p) or not 16 <= block <= 65536 or not 1 <= sites <= 64:
            raise WrongInput("there is no archive of this shape: see `aea create`")
        show_limits(alpha, s, p, block, sites, formats.LIMIT)
        return 0
    ledger = archive_here().ledger
    show_limits(ledger.alpha, ledger.s, ledger.p, ledger.block, ledger.sites, ledger.limit)
    of, block, left = count_with_commas, ledger.block, ledger.limit - ledger.nodes
    print(f"used: {of(ledger.nodes)} nodes, {of(ledger.nodes * block)} bytes, by {of(len(ledger.objects))} of 65,536 objects with "
          f"{of(sum(it.length for it in ledger.objects))} bytes")
    print(f"left: {of(left)} nodes, {of(left * block)} bytes")
    for free, places in site_and_its_links(ledger.sites):
        fits = free // (len(places) * ledger.homes.cell) * ledger.sites // ledger.classes
        less = ", which is less than is left" if fits < left else ""
        print(f"disk of site {', '.join(str(it) for it in places)}: {of(free)} bytes free, enough for {of(fits)} nodes{less}")
    return 0


def show_limits(alpha, s, p, block, sites, limit):
    of, classes = count_with_commas, 1 + alpha
    print(f"AE({alpha},{s},{p}), blocks of {of(block)} bytes, {sites} sites; an object takes its length rounded up to {of(block)} bytes")
    for name, most in (("at most", formats.LIMIT), ("after upgrade", formats.RAISED)):
        if most >= limit:
            name = "at most" if most == limit else name
            print(f"{name}: {of(most)} nodes, {of(most * block)} bytes of objects, "
                  f"{of(-(-most * classes // sites) * (block + formats.CELL_MORE))} on each site, {of(formats.DIGEST * classes * most)} in the ledger")


def site_and_its_links(sites):
    """For each disk its free bytes, and the sites that are on it; a site without a folder will be on the disk of this folder."""
    disks = {}
    for site in range(1, sites + 1):
        folder = formats.site_folder(site)
        place = folder if os.path.isdir(folder) else None if os.path.lexists(folder) else "."
        if place:
            disks.setdefault(os.stat(place).st_dev, (place, []))[1].append(site)
    for place, members in disks.values():
        about = os.statvfs(place)
        yield about.f_bavail * about.f_frsize, members
