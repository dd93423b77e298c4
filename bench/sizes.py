"""Archives at the limits of sizes, and runs over them that are measured and judged. `bench/limits` and `bench/want` share it; it is no
program by itself. Each archive has one size at its limit and all others as small as they can be: nodes with blocks of 16 bytes, blocks of
65,536 bytes with few nodes."""

import filecmp
import hashlib
import itertools
import os
import shutil
import subprocess
import sys
from pathlib import Path

from measuring import compiled, fill
from plain_archive import LIMIT, frame, ledger_head, object_record, parts_record, site_file
from plain_archive import RAISE as RAISE_RECORD

LINE = 16777216
NO_COMMAND = 2, b"", b"words: no such command\n"


def refused(why):
    """The answer to a command that is refused."""
    return 3, b"", f"refused: {why}\n".encode()


def digest_of(path):
    """The SHA-256 of a file."""
    whole = hashlib.sha256()
    with open(path, "rb") as file:
        for piece in iter(lambda: file.read(1 << 20), b""):
            whole.update(piece)
    return whole.hexdigest()


def stored(path, block, name):
    """The line of an object whose bytes are those of a file."""
    size = path.stat().st_size
    return f"stored {-(-size // block)} {size} {digest_of(path)} {name}\n".encode()


def first_lines(path, count=1):
    """The first lines of a file."""
    with open(path, "rb") as file:
        return [line.rstrip(b"\n") for line in itertools.islice(file, count)]


def last_line(path):
    """The last line of a file."""
    with open(path, "rb") as file:
        file.seek(max(0, path.stat().st_size - (1 << 16)))
        return file.read().rstrip(b"\n").rsplit(b"\n", 1)[-1]


def lines_of(path):
    """How many lines a file has."""
    with open(path, "rb") as file:
        return sum(piece.count(b"\n") for piece in iter(lambda: file.read(1 << 20), b""))


class Wrong(Exception):
    """What differs from what the formats say."""


class Place:
    """A folder with an archive, in which the program runs, and what its runs took."""

    def __init__(self, program, measure, room, name):
        self.program, self.measure, self.room = program, measure, Path(room)
        self.folder = self.room / name
        shutil.rmtree(self.folder, ignore_errors=True)
        self.folder.mkdir()
        self.runs, self.seconds, self.memory = 0, 0.0, 0

    # runs

    def input_of(self, source):
        """The path of the input: of a file that is there, or of one with these bytes."""
        if isinstance(source, Path):
            return source
        if source is None:
            return os.devnull
        path = self.room / "input"
        path.write_bytes(source)
        return path

    def run(self, words, wanted=(0, b"", b""), source=None):
        """Runs a command and compares how it ended. What it printed has to be these bytes, or those of this file, or what a function
        of the file's path finds nothing wrong with."""
        out = self.room / "output"
        call = [self.measure, "1", self.input_of(source), out, self.program, *words]
        ran = subprocess.run([str(it) if isinstance(it, Path) else it for it in call], cwd=self.folder, capture_output=True)
        seconds, memory, status = ran.stdout.split()
        self.runs, self.seconds, self.memory = self.runs + 1, self.seconds + float(seconds), max(self.memory, int(memory))
        told = " ".join(it if isinstance(it, str) else it[:20].decode(errors="replace") for it in words)[:80]
        if (int(status), ran.stderr) != (wanted[0], wanted[2]):
            raise Wrong(f"{told}: status {int(status)}, {ran.stderr[:200]!r}; wanted {wanted[0]}, {wanted[2][:200]!r}")
        if isinstance(wanted[1], bytes):
            if out.stat().st_size != len(wanted[1]) or out.read_bytes() != wanted[1]:
                raise Wrong(f"{told}: printed {out.read_bytes()[:200]!r}; wanted {wanted[1][:200]!r}")
        elif isinstance(wanted[1], Path):
            if not filecmp.cmp(out, wanted[1], shallow=False):
                raise Wrong(f"{told}: what it printed is not {wanted[1].name}")
        else:
            wrong = wanted[1](out)
            if wrong:
                raise Wrong(f"{told}: {wrong}")
        return out

    # archives

    def create(self, shape, raised=False):
        """Makes an archive, with a raise of the limit or without."""
        self.shape = shape
        self.run(["create", *map(str, shape)], (0, f"created {' '.join(map(str, shape))}\n".encode(), b""))
        if raised:
            self.run(["upgrade"], (0, b"upgraded 1048576\n", b""))

    def source(self, size, name="source"):
        """A file of so many bytes by chance, outside of the archive."""
        path = self.room / name
        if not path.exists() or path.stat().st_size != size:
            fill(path, size)
        return path

    def put(self, name, path):
        """Stores a file as an object."""
        self.run(["put", name], (0, stored(path, self.shape[3], name), b""), path)

    def stat(self, nodes, objects):
        """Compares the line of the archive."""
        alpha, s, p, block, sites = self.shape
        line = f'{{"alpha":{alpha},"block":{block},"nodes":{nodes},"objects":{objects},"p":{p},"s":{s},"sites":{sites}}}\n'
        self.run(["stat"], (0, line.encode(), b""))

    def filled(self, shape, nodes):
        """Makes an archive that is filled to this node, with an object of all nodes but the last, and one of the last. Gives both files."""
        self.create(shape, nodes > LIMIT)
        most, last = self.source((nodes - 1) * shape[3]), self.source(shape[3], "last")
        self.put("most", most)
        self.put("last", last)
        self.stat(nodes, 2)
        return most, last

    def site(self, site):
        return self.folder / site_file(site)

    # damage

    def lose(self, site):
        """Takes away the file of a site, which is kept beside the archive, and gives its path there."""
        kept = self.room / f"kept-{site}"
        self.site(site).replace(kept)
        return kept

    def on_sites(self, sites, nodes):
        """How many blocks have their homes on these sites, and the first node whose datum has."""
        classes, count, first = 1 + self.shape[0], 0, None
        m = self.shape[4]
        for k in range(nodes * classes):
            if 1 + (k % m + k // m) % m in sites:
                count += 1
                if first is None and k % classes == 0:
                    first = k // classes + 1
        return count, first

    def hurt_and_mend(self, nodes, name, source, site=2):
        """Loses a site, which the others determine; looks, fetches, explains, repairs, verifies and gets. The site has to be as before."""
        count, first = self.on_sites({site}, nodes)
        kept, blocks = self.lose(site), nodes * (1 + self.shape[0])
        total = f"total {blocks} damaged {count}".encode()
        self.run(["scrub"], (1, lambda out: None if last_line(out) == total else f"ended {last_line(out)!r} and not {total!r}", b""))
        self.run(["get", name], refused(f"damaged d{first}"))
        self.run(["fetch", name], (0, source, b""))
        self.run(["explain", f"d{first}"], (0, lambda out: None if first_lines(out) == [f"damaged d{first}".encode()] else "it is not damaged", b""))
        report = self.repaired(nodes, count)
        if not filecmp.cmp(kept, self.site(site), shallow=False):
            raise Wrong(f"the file of site {site} is not what it was")
        kept.unlink()
        self.run(["verify"], (0, b"accepted\n", b""), report)
        self.run(["scrub"], (0, f"total {blocks} damaged 0\n".encode(), b""))
        self.run(["get", name], (0, source, b""))

    def repaired(self, nodes, count, lost=0):
        """Repairs; the report, which is kept, has so many lines of blocks, and says that so many are lost."""
        def judge(out):
            head = [line.split() for line in first_lines(out, 4)]
            if head[1] != f"lattice {' '.join(map(str, self.shape[:3]))} {nodes}".encode().split():
                return f"the report begins {head}"
            counts = list(map(int, head[3][1:]))
            if counts[0] != count or counts[3] != lost or lines_of(out) != count + 4:
                return f"the counts are {counts}, and there are {lines_of(out)} lines; wanted {count} damaged and {lost} lost"
            return None
        out = self.run(["repair"], (1 if lost else 0, judge, b""))
        report = self.room / "report"
        out.replace(report)
        return report

    # ledgers by hand

    def lay_ledger(self, shape, records):
        """Writes a ledger with these records, which are made one by one."""
        self.shape = shape
        with open(self.folder / "ledger.aea", "wb") as file:
            file.write(ledger_head(shape))
            for it in records:
                file.write(it)
            file.write(b"\x00")


def long_name(k, length=255):
    """A name of the greatest length, by a number."""
    return f"{k:0{length}}".encode()


def even_records(shape, nodes, objects, digest=hashlib.sha256(b"").digest()):
    """The records of a ledger with so many nodes, which objects with the longest names share out evenly; the digests are of no blocks."""
    if nodes > LIMIT:
        yield RAISE_RECORD
    first = 1
    for k in range(objects):
        count = (nodes - first + 1) // (objects - k)
        yield object_record(long_name(k), count * shape[3], digest, first, count, digest * ((1 + shape[0]) * count))
        first += count


def parted_records(shape, nodes, objects):
    """The records of an object of all nodes, and of objects in the most parts: each node is a part."""
    yield from even_records(shape, nodes, 1)
    content = bytes(nodes * shape[3])
    for k in range(objects):
        yield parts_record(f"parts {k}".encode(), content, nodes, [(node, 1) for node in range(1, nodes + 1)])


def many_frames(path, count, name=long_name):
    """Writes a stream of so many objects without bytes, and the lines that are printed of them; gives the paths of both."""
    lines, nothing = path.with_name("lines"), hashlib.sha256(b"").hexdigest().encode()
    with open(path, "wb") as file, open(lines, "wb") as told:
        for k in range(count):
            file.write(frame(name(k), 0, b""))
            told.write(b"stored 0 0 " + nothing + b" " + name(k) + b"\n")
        told.write(b"end %d\n" % count)
    return path, lines
