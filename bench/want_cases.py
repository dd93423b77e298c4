"""The archives of `bench/want` and the commands that run over them. It is no program by itself."""

import hashlib
import shutil
from dataclasses import dataclass, field
from pathlib import Path
from typing import Callable

from plain_archive import RAISED, frame, number, parts_record, text_of
from sessions import CHUNK, CLOSE, GREATEST_CHUNK, OPEN
from sizes import LINE, Place, long_name, many_frames


@dataclass
class Call:
    """A command: its words, the folder that it begins in, its input, its kind where it may print or write before it wants memory, the objects
    that it stores, its status where that is not 0 or 1, and bytes of address space that it takes besides."""

    words: list
    start: Path
    source: object = None
    kind: str = ""
    objects: list = field(default_factory=list)
    status: int = 0
    spare: int = 0

    @property
    def prints(self):
        return {"stream": "lines", "session": "replies", "sites": "lines"}.get(self.kind)

    @property
    def grows(self):
        """Whether cells may stand behind the archive after it wanted memory."""
        return self.kind in ("put", "stream", "session")

    def stored(self, out, before=0):
        """How many objects this output tells of, where so many were stored before."""
        if self.kind == "stream":
            return out.count(b"stored ")
        if self.kind != "session":
            return 0
        left = len(out) - 2 * sum(1 + len(pieces(content)) for _, content in self.objects[before:])
        return max(0, min(-(-left // 46), len(self.objects) - before))

    def rest(self, stored):
        """The input that stores the objects that are left."""
        return (stream if self.kind == "stream" else messages)(self.objects[stored:])


@dataclass
class Setting:
    """A size: its word, what it is, what makes its commands, and the seconds that it may take."""

    size: str
    what: str
    make: Callable
    guess: float


def pieces(content):
    return [content[at:at + GREATEST_CHUNK] for at in range(0, len(content), GREATEST_CHUNK)]


def stream(objects):
    return b"".join(frame(name, len(content), content) for name, content in objects)


def messages(objects):
    """A session that opens an upload for each object, sends their chunks and closes them."""
    text = b"".join(bytes([OPEN, slot]) + number(2, len(name)) + name for slot, (name, _) in enumerate(objects))
    for slot, (_, content) in enumerate(objects):
        text += b"".join(bytes([CHUNK, slot]) + number(4, len(piece)) + piece for piece in pieces(content))
    return text + b"".join(bytes([CLOSE, slot]) for slot in range(len(objects)))


def some(count, size):
    """So many objects of some bytes."""
    return [(b"new %d" % k, (hashlib.sha256(b"%d" % k).digest() * (size // 32 + 1))[:size]) for k in range(count)]


def variants(place, name):
    """Folders with the archive whole, upgraded, and with a site lost; and the report of the repair of the last."""
    whole, raised, hurt, empty = (place.room / it for it in ("whole", "raised", "hurt", "empty"))
    empty.mkdir()
    shutil.copytree(place.folder, whole)
    if place.run(["stat"], (0, lambda out: None, b"")) and not place.raised:
        place.run(["upgrade"], (0, b"upgraded 1048576\n", b""))
    place.folder.rename(raised)
    shutil.copytree(whole, hurt)
    for site in (2, 3)[:max(1, place.shape[4] // 32)]:
        (hurt / f"site-{site:02}" / "blocks.aea").unlink()
    place.folder = place.room / "archive"
    shutil.copytree(hurt, place.folder)
    report = place.run(["repair"], (0, lambda out: None, b"")).read_bytes()
    return whole, raised, hurt, empty, report


def commands(place, name, first, sizes=(16, 1000)):
    """All eighteen commands over an archive whose object of this name has its first lost datum at this node."""
    whole, raised, hurt, empty, report = variants(place, name)
    shape, (small, large) = place.shape, sizes
    every = b"".join(text_of(k, 2).encode() + b"\n" for k in range(1, 131072, 3))
    yield Call(["drill", "1", "1", "0", "65536"], empty, every)
    yield Call(["create", *map(str, shape)], empty)
    for words in (["stat"], ["list"], ["get", name]):
        yield Call(words, whole)
    yield Call(["put", "new"], whole, bytes(large), "put")
    objects = some(8, small)
    yield Call(["ingest"], whole, stream(objects), "stream", objects)
    objects = some(16, small)
    yield Call(["session"], raised, messages(objects), "session", objects)
    yield Call(["get", name], hurt, status=3)
    for words in (["fetch", name], ["scrub"], ["explain", f"d{first}"], ["repair"]):
        yield Call(words, hurt)
    yield Call(["verify"], whole, report)
    yield Call(["verify"], whole, b"x" * LINE + b"\n", status=3)
    yield Call(["rehearse", "1", "2000", "600"], empty, spare=224 << 20)
    yield Call(["sites"], whole, kind="sites")
    yield Call(["fence"], whole)
    yield Call(["upgrade"], whole, status=3 if place.raised else 0)
    yield Call(["copies"], whole)


def begun(program, measure, room, shape, raised=False):
    place = Place(program, measure, room, "archive")
    place.create(shape, raised)
    place.raised = raised
    return place


def blocks(program, measure, room):
    place = begun(program, measure, room, (1, 1, 0, 65536, 4))
    place.put("a", place.source(65536 * 8))
    yield from commands(place, "a", place.on_sites({2}, 8)[1], (65536, 65536 * 3))


def nodes(count):
    def make(program, measure, room):
        place = begun(program, measure, room, (1, 1, 0, 16, 4), count > 65536)
        place.put("a", place.source(16 * count))
        yield from commands(place, "a", place.on_sites({2}, 40)[1], (48, 160))
    return make


def objects(program, measure, room):
    place = begun(program, measure, room, (1, 1, 0, 16, 4))
    place.put("a", place.source(16 * 40))
    source, lines = many_frames(place.room / "frames", 65519)
    place.run(["ingest"], (0, lines, b""), source)
    yield from commands(place, "a", place.on_sites({2}, 40)[1], (16, 160))


def parts(count):
    def make(program, measure, room):
        place = begun(program, measure, room, (1, 1, 0, 16, 4), True)
        source = place.source(16 * count)
        place.put("whole", source)
        lay_parts(place, source.read_bytes(), count)
        yield from commands(place, "parts", place.on_sites({2}, 40)[1], (48, 160))
    return make


def lay_parts(place, content, count):
    """Adds an object to the ledger, by hand, that has each node as a part."""
    ledger = place.folder / "ledger.aea"
    ledger.write_bytes(ledger.read_bytes()[:-1] + parts_record(b"parts", content, count, [(node, 1) for node in range(1, count + 1)]) + b"\x00")


def sites(program, measure, room):
    place = begun(program, measure, room, (3, 2, 5, 16, 64))
    place.put("a", place.source(16 * 400))
    yield from commands(place, "a", place.on_sites({2, 3}, 400)[1], (16, 160))


def settings(is_long):
    """The sizes, without those that take long or with them."""
    return [Setting("blocks", "blocks of 65,536 bytes", blocks, 20), Setting("sites", "64 sites", sites, 20),
            *([Setting("nodes", "1,048,512 nodes", nodes(RAISED - 64), 1200), Setting("parts", "an object of 1,048,512 parts", parts(RAISED - 64), 1200)] if is_long
              else [Setting("nodes", "65,472 nodes", nodes(65472), 100), Setting("parts", "an object of 60,000 parts", parts(60000), 100)]),
            Setting("objects", "65,520 objects with names of 255 bytes", objects, 200)]


def fetched(program, measure, room):
    """An object of which more than 512 blocks are lost and determined, and a small archive all of whose blocks are lost."""
    place = begun(program, measure, room, (1, 1, 0, 16, 4))
    place.put("a", place.source(16 * 4800))
    place.site(2).unlink()
    yield Call(["fetch", "a"], place.folder)


def drilled(program, measure, room):
    yield Call(["drill", "1", "1", "0", "65536"], Place(program, measure, room, "archive").folder, b"d1\n")


def lost(program, measure, room):
    place = begun(program, measure, room, (1, 1, 0, 16, 4))
    place.put("a", place.source(16 * 2000))
    for site in range(1, 5):
        place.site(site).unlink()
    yield Call(["repair"], place.folder)


# wrong bodies: what it is, the edit, the setting that has to find it, and what its failure says
FAULTS = [
    ("a fetch that wants memory where it has more than 512 fates",
     ("crates/aea_degraded/src/first.rt", "        Ok(fates) => Ok(plan_of(search, fates)),", "        Ok(fates) if fates.len() > 512 => Err(SearchFault::NoMemory),\n        Ok(fates) => Ok(plan_of(search, fates)),"),
     Setting("control", "fates", fetched, 30), "with ample memory"),
    ("a drill that wants memory for a large lattice",
     ("crates/aea_command_loss/src/drill/plan.rt", "    let plan = Plan::new(alloc, &known)?;", "    if lattice.n() > 60_000 {\n        return Err(AllocError);\n    }\n    let plan = Plan::new(alloc, &known)?;"),
     Setting("control", "lattice", drilled, 30), "with ample memory"),
    ("room for a list of lost words that is far too large",
     ("crates/aea_sweep/src/sweep.rt", "    let most = known.unmarked().min(lattice.n()) as usize;", "    let most = known.unmarked().min(lattice.n()) as usize * 65_536;"),
     Setting("control", "words", lost, 30), "where it may have"),
]
