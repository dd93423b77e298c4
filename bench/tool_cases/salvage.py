"""Cases of salvage; bench/salvage tries it over archives by chance."""

import hashlib
import shutil

from trying import PHOTOS, case, content, holds, same, unchanged


@case(("salvage", "waiting.discard(number)", "pass"), ("salvage", "return b\"\".join(writer.out) + b\"\\0\", 1 if unknown or writer.wrong or log and log.passed_over else 0", "return b\"\".join(writer.out) + b\"\\0\", 0"),
      ("salvage", "formats.FENCE if what", "formats.RAISE if what"), ("salvage", "if is_at_home((site, row, node, kind), alpha, sites)", ""), ("salvage", "if is_open else log.nodes", "if is_open else max(shown, log.nodes)"),
      ("salvage", "if many > 1 or best[0]", "if best[0]"))
@unchanged
def salvage(room):
    log = room.top / "the log"
    for word in ("--help", "-h"):
        room.run("aea-salvage", word)
    for words in (["none"], ["a", "b"], ["--no"]):
        room.run("aea-salvage", *words, status=2)
    room.run("aea-salvage", status=3)
    room.create(3, 2, 5, 16, 10)
    for name, bytes_ in PHOTOS[:3]:
        room.run("aea-guard", "put", name, input=bytes_)
    room.run("aea-guard", "fence")
    room.run("aea-guard", "put", "empty")
    room.run("aea-guard", "put", "after", input=bytes(range(200)))
    log.write_bytes((next((room.top / "state").iterdir()) / "log").read_bytes())
    ledger = (room.here / "ledger.aea").read_bytes()
    (room.here / "ledger.aea").unlink()
    room.keep()
    room.here.chmod(0o555)
    same(room.run("aea-salvage", str(log), is_other=True), ledger)
    room.here.chmod(0o755)
    # what is gone is computed, and what is not at its home is as if it were gone
    shutil.rmtree(room.here / "site-02")
    shutil.copy(room.here / "site-05" / "blocks.aea", room.here / "site-06" / "blocks.aea")
    room.change("site-01/blocks.aea", 70, b"xyz")
    room.change("site-10/blocks.aea", 0, room.formats().cell_of(1, 0, b"\1" * 16))
    room.keep()
    same(room.run("aea-salvage", str(log)), ledger)
    # what a put left that was cut off lies behind the end
    formats = room.formats()
    ours = formats.Ledger(ledger)
    node = ours.nodes + 5
    site, row = ours.homes.home((node - 1) * 4)
    file = room.here / f"site-{site:02}" / "blocks.aea"
    with open(file, "r+b") as opened:
        opened.seek(row * 64), opened.write(formats.cell_of(node, 0, bytes(16)))
    room.keep()
    same(room.run("aea-salvage", str(log)), ledger)
    holds(f"left out: the cells of 5 nodes behind the {ours.nodes}" in room.told, room.told)
    lines = log.read_bytes()
    log.write_bytes(lines.replace(b"stored 7 100", b"stored 7 101"))
    room.run("aea-salvage", str(log), status=1)
    log.write_bytes(lines.replace(b"fence 39", b"fence 38"))
    room.run("aea-salvage", str(log), status=1)
    log.write_bytes(lines.replace(b"created 3 2 5 16", b"created 3 2 5 17"))
    room.run("aea-salvage", str(log), status=3)
    log.write_bytes(lines + b"a note\n")
    same(room.run("aea-salvage", str(log), status=1), ledger)
    # without a log: the shape by the cells, and one object
    room.create(3, 2, 5, 64, 10, objects=[("a", content(2000))])
    shutil.rmtree(room.here / "site-03")
    room.keep()
    one = room.formats().Ledger(room.run("aea-salvage"))
    whole = room.formats().Archive(str(room.here)).ledger
    same((one.nodes, [it.name for it in one.objects], one.lattice.p, one.sites, one.block), (32, [b"salvaged-1"], 5, 10, 64))
    same({one.digest(it) == whole.digest(it) for it in range(one.blocks)}, {True})
    # more than the lattice bears
    log.write_bytes(room.run("aea-look", "log"))
    for site in (4, 5, 6, 7, 8, 9):
        shutil.rmtree(room.here / f"site-{site:02}")
    room.keep()
    room.run("aea-salvage", status=3)
    room.run("aea-salvage", str(log), status=1)
    holds("0 blocks are not known" not in room.told, room.told)
    # a node or two show no one shape, and the log does
    room.create(3, 2, 5, 64, 10, objects=[("a", b"abc")])
    log.write_bytes(room.run("aea-look", "log"))
    room.keep()
    room.run("aea-salvage", status=3)
    same(room.run("aea-salvage", str(log)), (room.here / "ledger.aea").read_bytes())
    # and of none it has the header
    room.create(3, 2, 5, 64, 10)
    log.write_bytes(room.run("aea-look", "log"))
    room.keep()
    same(room.run("aea-salvage", str(log)), (room.here / "ledger.aea").read_bytes())


@case(("salvage", "skipped = self.skipped_before(object) if self.may_skip", "skipped = self.skipped_before(object) if False"), ("aea_formats/log.py", "new, parts = parts or (count, None)", "new, parts = count, None"))
@unchanged
def salvage_of_a_session(room):
    """Objects in parts, by the ledger's log; and by lines that do not tell of which nodes an object is."""
    log = room.top / "log"
    room.create(1, 1, 0, 16, 2, objects=[("first", content(100))])
    room.run("aea", "upgrade")
    chunk = b"\0\0\0\x10" + b"q" * 16
    room.run("aea", "session", input=b"\1\0\0\1a" + b"\1\1\0\1b" + b"\1\2\0\1e" + b"\2\1" + chunk + b"\2\0" + chunk + b"\2\1" + chunk + b"\3\0\3\1\3\2")
    log.write_bytes(room.run("aea-look", "log"))
    holds(b"\nparts 3 9 1\nstored" in log.read_bytes() and b"\nparts 0 8 1 10 1\nstored" in log.read_bytes() and b"\nparts 0\nstored" in log.read_bytes(), log.read_bytes())
    room.keep()
    same(room.run("aea-salvage", str(log)), (room.here / "ledger.aea").read_bytes())
    # an object behind the block of one that was dropped
    room.create(1, 1, 0, 16, 2)
    room.run("aea", "upgrade")
    room.run("aea", "session", input=b"\1\0\0\1a" + b"\1\1\0\1b" + b"\2\1" + chunk + b"\2\0\0\0\0\x20" + b"r" * 32 + b"\3\0" + b"\4\1")
    log.write_bytes(b"created 1 1 0 16 2\nupgraded 1048576\n" + f"stored 2 32 {hashlib.sha256(b'r' * 32).hexdigest()} a\n".encode())
    room.keep()
    same(room.run("aea-salvage", str(log)), (room.here / "ledger.aea").read_bytes())
