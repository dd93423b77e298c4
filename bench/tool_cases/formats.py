"""Cases of the module aea_formats: against the files that the program wrote, and against what it says of broken ones."""

import hashlib
import re
import shutil

from trying import PHOTOS, case, holds, same


@case(("aea_formats/lattice.py", "s * p - (s * s - 1) if", "s * p - (s * s) if"), ("aea_formats/cells.py", "1 + (column + row) %", "1 + (column + 2 * row) %"),
      ("aea_formats/lattice.py", "self.fences[at] < last", "self.fences[at] > last"), ("aea_formats/cells.py", "body = cell_head(node, kind) + payload", "body = payload"))
def formats_cells_and_lattice(room):
    for shape in ((3, 2, 5, 16, 10), (1, 1, 0, 16, 1), (2, 3, 4, 32, 3)):
        room.create(*shape, objects=PHOTOS[:2])
        room.run("aea", "fence")
        room.run("aea", "put", "c", input=bytes(range(250)))
        formats = room.formats()
        archive = formats.Archive(str(room.here))
        ledger, lattice = archive.ledger, archive.ledger.lattice
        same({archive.judge(block) for block in range(ledger.blocks)}, {"intact"})
        payloads = [formats.read_cell(archive.read_cell(block))[2] for block in range(ledger.blocks)]
        for equation in lattice.equations():
            holds(not any(formats.xor([payloads[it] for it in equation])), f"{shape} {equation}")
        for block, payload in enumerate(payloads):
            same(formats.cell_of(*lattice.node_and_class(block), payload), archive.read_cell(block))
            same(lattice.block_of(lattice.text(block)), block)
            for equation in lattice.equations_of(block):
                holds(block in equation)
            site, row = ledger.homes.home(block)
            same(ledger.homes.block_at(site, row), block)
        same(sum(ledger.homes.cells_of(site) for site in range(1, ledger.sites + 1)), ledger.blocks)
        for object in ledger.objects:
            content = b"".join(payloads[lattice.number(node, 0)] for node in object.nodes())[:object.length]
            same(hashlib.sha256(content).digest(), object.digest)


@case(("aea_formats/ledger.py", "if fields.at - at - 4 != length:", "if False:"), ("aea_formats/ledger.py", "what not in self.fences and", ""), ("aea_formats/ledger.py", "if gate >= len(self.bytes):\n            raise Bad(gate)", "if gate >= len(self.bytes):\n            return False"))
def formats_bad_places(room):
    room.create(1, 1, 0, 16, 1, objects=[("a", b"abc")])
    room.run("aea", "fence")
    room.run("aea", "upgrade")
    formats, ledger = room.formats(), (room.here / "ledger.aea").read_bytes()
    twice = ledger[:-11] + ledger[-21:-11] + ledger[-11:]
    spoiled = [ledger[:at] + bytes([ledger[at] ^ 3]) + ledger[at + 1:] for at in [*range(31), *range(58, 75), *range(130, len(ledger))]]
    for bytes_ in [ledger, twice, *spoiled, *(ledger[:at] for at in range(0, len(ledger), 5)), ledger[:-1]]:
        (room.here / "ledger.aea").write_bytes(bytes_)
        room.run("aea", "stat", status=None)
        try:
            formats.Ledger(bytes_)
            told = ""
        except formats.NotThere:
            told = "refused: no archive"
        except formats.Bad as why:
            told = f"refused: ledger bad at {why.place}"
        said = room.told.splitlines()
        same(said[-1] if said and "refused" in said[-1] else "", told)


@case(("aea_formats/archive.py", "link = digest_of(link +", "link = digest_of("), ("aea_formats/archive.py", "if copy[1:9] != COPY_MARK:\n        return b\"\", 1", "if False:\n        return b\"\", 1"))
def formats_copies(room):
    room.create(1, 1, 0, 16, 1, objects=[("a", b"abc")])
    room.run("aea", "copies")
    formats, copy = room.formats(), (room.here / "ledger-2.aea").read_bytes()
    same(formats.judge_copy(copy), (formats.Archive(str(room.here)).ledger.text, None))
    room.change("ledger-3.aea", 1, b"x")
    for at in [*range(0, 70, 3), len(copy) - 33, len(copy) - 1]:
        bad = copy[:at] + bytes([copy[at] ^ 1]) + copy[at + 1:]
        place = formats.judge_copy(bad)[1]
        if place is None:
            # a gate that is closed now: a good copy, of fewer records
            same(at, 63)
            continue
        (room.here / "ledger-2.aea").write_bytes(bad)
        room.run("aea", "stat", status=3)
        same(room.told.splitlines()[-1], f"refused: copies bad at {place} and 1")


@case(("aea_formats/reports.py", "if block <= last:", "if False:"), ("aea_formats/reports.py", "if lines[-1] or len(lines) < 5:", "if False:"))
def formats_reports(room):
    room.create(1, 1, 0, 16, 1, objects=[("a", b"abc" * 20)])
    shutil.rmtree(room.here / "site-01")
    report = room.run("aea", "repair", status=1)
    formats, lines = room.formats(), report.splitlines(keepends=True)
    same(formats.Report(report).counts[0], 8)
    same([word for word, _, _ in formats.Report(report).lines], ["lost"] * 8)
    spoiled = [b"".join(lines[:at]) for at in range(5)] + [report[:-1], report + lines[-1], report.replace(b"lost", b"last"), report.replace(b" by", b"  by", 1)]
    for text in spoiled:
        room.run("aea", "verify", input=text, status=None)
        try:
            formats.Report(text)
            told = ""
        except formats.Bad as why:
            told = str(why.place)
        same((re.findall(r"refused: bad line (\d+)", room.told) or [""])[-1], told)


@case(("aea_formats/log.py", "if record.kind == OBJECT_IN_PARTS:", "if False:"), ("aea_formats/log.py", 'yield b"%s %d" % (record[0].encode(), record[1])', "pass"),
      ("aea_formats/log.py", "or name in self.names or not is_whole", ""), ("aea_formats/log.py", "parts, self.next, self.is_whole = self.next, None, False", "parts, self.is_whole = self.next, False"))
def formats_log(room):
    room.create(3, 2, 5, 16, 4)
    said = [b"created 3 2 5 16 4"]
    for words, input in ((["put", "a b"], b"abc"), (["fence"], b""), (["upgrade"], b""), (["put", "c"], bytes(40)), (["put", "empty"], b"")):
        said += room.run("aea", *words, input=input).splitlines()
    # two uploads, a block of each in its turn, so that both have parts; a third is dropped
    chunk = b"\0\0\0\x10" + b"q" * 16
    message = b"\1\0\0\1d" + b"\1\1\0\1e" + b"\1\2\0\1f" + b"\2\0" + chunk + b"\2\1" + chunk + b"\2\2" + chunk + b"\2\0" + chunk + b"\3\0\3\1\4\2"
    room.run("aea", "session", input=message)
    said += [b"parts 4 5 1 8 1", b"stored 2 32 %s d" % hashlib.sha256(b"q" * 32).hexdigest().encode()]
    said += [b"parts 0 6 1", b"stored 1 16 %s e" % hashlib.sha256(b"q" * 16).hexdigest().encode()]
    formats = room.formats()
    ledger = formats.Archive(str(room.here)).ledger
    same(list(formats.lines_of(ledger)), [*said, b"nodes %d" % ledger.nodes])
    log = formats.Log(b"\n".join(said))
    same((log.shape, log.passed_over, log.fences, log.nodes, log.is_whole), ((3, 2, 5, 16, 4), [], [1], ledger.nodes, False))
    holds(formats.Log(b"\n".join([*said, b"nodes 8"])).is_whole)
    same([vars(it) for it in log.objects if it.parts], [vars(it) for it in ledger.objects[3:]])
    for more in (b"nodes 7", b"stored 1 16 %s e" % hashlib.sha256(b"q" * 16).hexdigest().encode(), b"parts 1 2", b"upgraded 5", b"created 3 2 5 16 5", b"stored 2 16 " + b"0" * 64 + b" g",
                 b"stored 1 16 " + b"0" * 64 + b" a\x7f", b"parts 1 1 2\nstored 1 16 " + b"0" * 64 + b" g"):
        same(len(formats.Log(b"\n".join([*said, more])).passed_over), 1)
    same(formats.Log(b"\n".join([*said, b"parts 2 1 1", b"end 3", b"stored 1 16 " + b"0" * 64 + b" g"])).objects[-1].parts, None)
