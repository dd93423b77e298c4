"""Another reader and writer of archives, written from docs/FORMATS.md alone. It shares nothing with the program, with `bin/aea_formats.py` or
with `plain_archive.py`, so that a slip of one of these does not hide in it. `bench/interoperate` uses it; it is no program by itself.

It reads slowly and in memory: an archive is a table of files, by their names."""

import hashlib
import re
import struct

KINDS = "dhrl"
MOST_NODES, MOST_NODES_RAISED = 1 << 16, 1 << 20


class Broken(Exception):
    """Bytes that break their format, and where."""


def need_that(is_so, what):
    if not is_so:
        raise Broken(what)


def sha(content):
    return hashlib.sha256(content).digest()


class Reading:
    """A place in some bytes, from which fields are taken."""

    def __init__(self, content, at=0):
        self.content, self.at = content, at

    def take(self, count):
        need_that(self.at + count <= len(self.content), f"{count} bytes at {self.at}")
        self.at += count
        return self.content[self.at - count:self.at]

    def number(self, width):
        return int.from_bytes(self.take(width), "big")


class Book:
    """A ledger that was read: the shape, the objects by name, the fences, and the digest of each block."""

    def __init__(self, content):
        it = Reading(content)
        need_that(it.take(9) == b"\x01AEALEDG1", "the head")
        self.alpha, self.s, self.p, self.sites, self.block = *it.take(4), it.number(4)
        need_that((self.s, self.p) == (1, 0) if self.alpha == 1 else self.alpha in (2, 3) and 2 <= self.s <= 16 and self.s <= self.p <= 64, "the lattice")
        need_that(1 <= self.sites <= 64 and 16 <= self.block <= 65536, "sites or blocks")
        self.width, self.objects, self.fences, self.digests, self.most = 1 + self.alpha, {}, [], [], MOST_NODES
        while it.take(1) == b"\x01":
            kind, size = it.number(1), it.number(4)
            body = Reading(it.take(size))
            {1: self.whole, 2: self.fence, 3: self.parts, 4: self.rise}.get(kind, self.unknown)(body)
            need_that(body.at == size, f"the record that ends at {it.at}")
        self.text = content[:it.at - 1]

    @property
    def nodes(self):
        return len(self.digests) // self.width

    def unknown(self, _):
        raise Broken("the kind of a record")

    def name_and_length(self, body):
        name = body.take(body.number(2))
        need_that(1 <= len(name) <= 255 and name not in self.objects and min(name) >= 32 and 127 not in name, "a name")
        name.decode()
        length, digest, first, count = body.number(8), body.take(32), body.number(4), body.number(4)
        need_that(first == self.nodes + 1 and self.nodes + count <= self.most, "the nodes of an object")
        return name, length, digest, first, count

    def add_digests(self, body, count):
        self.digests += [body.take(32) for _ in range(count * self.width)]

    def whole(self, body):
        name, length, digest, first, count = self.name_and_length(body)
        need_that(count == -(-length // self.block), "the count of an object")
        self.add_digests(body, count)
        self.objects[name] = length, digest, list(range(first, first + count))

    def parts(self, body):
        need_that(self.most == MOST_NODES_RAISED, "parts before a raise")
        name, length, digest, _, count = self.name_and_length(body)
        nodes = []
        for _ in range(body.number(4)):
            first, many = body.number(4), body.number(4)
            need_that(many >= 1 and first > (nodes[-1] if nodes else 0), "a part")
            nodes += range(first, first + many)
        need_that(len(nodes) == -(-length // self.block) and (not nodes or nodes[-1] <= self.nodes + count), "the parts")
        self.add_digests(body, count)
        self.objects[name] = length, digest, nodes

    def fence(self, body):
        need_that(body.number(4) == self.nodes and self.nodes and self.nodes not in self.fences and len(self.fences) < 16, "a fence")
        self.fences.append(self.nodes)

    def rise(self, body):
        need_that(body.number(4) == MOST_NODES_RAISED and self.most == MOST_NODES, "a raise")
        self.most = MOST_NODES_RAISED

    def strand(self, node, kind):
        """The strand of a node on a class, between two fences."""
        column, row = divmod(node - 1, self.s)
        place = row if kind == 1 else (column + (row if kind == 3 else -row)) % self.p
        return kind, place, sum(1 for fence in self.fences if fence < node)

    def equations(self):
        """Each equation: a datum, its parity, and the parity before it on the strand."""
        last = {}
        for node in range(1, self.nodes + 1):
            datum = (node - 1) * self.width
            for kind in range(1, self.width):
                strand = self.strand(node, kind)
                yield [datum, datum + kind, *([last[strand]] if strand in last else [])]
                last[strand] = datum + kind

    def text_of(self, k):
        return f"{KINDS[k % self.width]}{k // self.width + 1}"


def home(k, sites, size):
    """The file of a block's home, and the place in it."""
    row, column = k // sites, k % sites
    return f"site-{(column + row) % sites + 1:02}/blocks.aea", row * size


def head_of_cell(k, width):
    return struct.pack(">4sB3xQ", b"AEB1", k % width, k // width + 1)


class Archive:
    """An archive that was read of its files."""

    def __init__(self, files):
        self.files, self.book = files, Book(files["ledger.aea"])
        book = self.book
        self.payloads = {}
        for k, digest in enumerate(book.digests):
            name, at = home(k, book.sites, book.block + 48)
            cell = files.get(name, b"")[at:at + book.block + 48]
            if cell[:16] == head_of_cell(k, book.width) and cell[-32:] == digest and len(cell) == book.block + 48 and sha(cell[:-32]) == digest:
                self.payloads[k] = cell[16:-32]

    @property
    def damaged(self):
        return sorted(set(range(len(self.book.digests))) - set(self.payloads))

    def wrong(self):
        """What of the intact blocks is not as the lattice has it, or none."""
        for equation in self.book.equations():
            if all(k in self.payloads for k in equation):
                total = 0
                for k in equation:
                    total ^= int.from_bytes(self.payloads[k], "big")
                if total:
                    return f"the equation of {[self.book.text_of(k) for k in equation]}"
        return next((f"the object {name!r}" for name in self.book.objects if (self.content(name) or b"") and sha(self.content(name)) != self.book.objects[name][1]), None)

    def content(self, name):
        """The bytes of an object, or none where a datum is damaged."""
        length, _, nodes = self.book.objects[name]
        blocks = [self.payloads.get((node - 1) * self.book.width) for node in nodes]
        return None if None in blocks else b"".join(blocks)[:length]

    def listed(self):
        return b"".join(b"%d %s %s\n" % (length, digest.hex().encode(), name) for name, (length, digest, _) in sorted(self.book.objects.items()))

    def scrubbed(self):
        lines = [f"damaged {self.book.text_of(k)}\n" for k in self.damaged]
        return "".join([*lines, f"total {len(self.book.digests)} damaged {len(lines)}\n"]).encode()

    def codeword(self, nodes):
        nodes, odd, word = set(nodes), set(), set()
        for node in range(1, self.book.nodes + 1):
            datum = (node - 1) * self.book.width
            if node in nodes:
                word.add(datum)
            for kind in range(1, self.book.width):
                strand = self.book.strand(node, kind)
                odd ^= {strand} if node in nodes else set()
                word |= {datum + kind} if strand in odd else set()
        return word

    def verdict(self, report):
        """What is said of a report: a line of `verify`, or none where it is no report."""
        try:
            shape, seal, counts, lines = read_report(report)
        except Broken:
            return None
        book = self.book
        if shape != (book.alpha, book.s, book.p, book.nodes):
            return b"rejected 2 other-archive\n"
        if seal != sha(book.text).hex():
            return b"rejected 3 other-archive\n"
        at, before, damaged = 4, -1, set(self.damaged)
        for at, (kind, k, nodes) in enumerate(lines, 5):
            left = min((it for it in damaged if before < it < k), default=None)
            word = self.codeword(nodes) if kind == "lost" else set()
            if left is not None:
                why = f"missing {book.text_of(left)}"
            elif kind != "lost":
                why = f"still-bad {book.text_of(k)}" if k in damaged else ""
            elif k not in damaged:
                why = f"not-damaged {book.text_of(k)}"
            elif k not in word:
                why = f"word-misses {book.text_of(k)}"
            else:
                why = f"word-touches {book.text_of(min(word - damaged))}" if word - damaged else ""
            if why:
                return f"rejected {at} {why}\n".encode()
            before = k
        left = min((it for it in damaged if before < it), default=None)
        if left is not None:
            return f"rejected {at + 1} missing {book.text_of(left)}\n".encode()
        kinds = [kind for kind, _, _ in lines]
        return b"accepted\n" if counts == [len(lines), *map(kinds.count, ("peeled", "solved", "lost"))] else b"rejected 4 wrong-count\n"


def read_report(text):
    """The shape, the seal, the counts and the lines of a report."""
    lines = text.decode("latin-1").split("\n")
    need_that(len(lines) > 4 and lines.pop() == "" and lines[0] == "aea-report 1", "the first or the last line")
    number = "(?:0|[1-9][0-9]*)"
    need_that(re.fullmatch(f"lattice {number} {number} {number} {number}", lines[1]) and re.fullmatch("ledger (none|[0-9a-f]{64})", lines[2])
              and re.fullmatch(f"counts {number} {number} {number} {number}", lines[3]), "the head")
    shape, counts = tuple(map(int, lines[1].split()[1:])), list(map(int, lines[3].split()[1:]))
    alpha, s, p, nodes = shape
    need_that(((s, p) == (1, 0) if alpha == 1 else alpha in (2, 3) and 2 <= s <= 16 and s <= p <= 64) and nodes <= MOST_NODES_RAISED and max(counts) < 1 << 32, "the head")
    blocks, before = [], -1
    for line in lines[4:]:
        need_that(" " in line, "a line")
        word, block, *rest = line.split(" ")
        need_that(re.fullmatch("[dhrl][1-9][0-9]*", block) and (word in ("peeled", "solved") and not rest or word == "lost" and len(rest) > 1 and rest[0] == "by"), "a line")
        need_that(all(re.fullmatch("[1-9][0-9]*", it) for it in rest[1:]), "a node")
        k, listed = (int(block[1:]) - 1) * (1 + alpha) + KINDS.index(block[0]), list(map(int, rest[1:]))
        need_that(KINDS.index(block[0]) <= alpha and int(block[1:]) <= nodes and k > before, "a block")
        need_that(listed == sorted(set(listed)) and (not listed or listed[-1] <= nodes), "the nodes")
        blocks.append((word, k, listed))
        before = k
    return shape, lines[2].split()[1], counts, blocks


def copy_of(text):
    """A copy of a ledger, of whose text all is given up to its last gate."""
    out, link, at = b"\x01AEACOPY1", bytes(32), 0
    while at < len(text):
        size = 17 if not at else 6 + int.from_bytes(text[at + 2:at + 6], "big")
        piece = struct.pack(">I", size) + text[at:at + size]
        link = sha(link + piece)
        out, at = out + b"\x01" + piece + link, at + size
    return out + b"\x00"


class Writer:
    """Writes an archive: objects one after the other, fences, a raise, objects in parts of nodes that are there."""

    def __init__(self, alpha, s, p, block, sites):
        self.block, self.sites, self.width, self.text = block, sites, 1 + alpha, b"\x01AEALEDG1" + struct.pack(">4BI", alpha, s, p, sites, block)
        self.book, self.heads, self.files, self.data = None, {}, {}, []
        self.read_again()

    def read_again(self):
        self.book = Book(self.text + b"\x00")

    def record(self, kind, body):
        self.text += struct.pack(">2BI", 1, kind, len(body)) + body
        self.read_again()

    def fence(self):
        self.record(2, struct.pack(">I", self.book.nodes))

    def rise(self):
        self.record(4, struct.pack(">I", MOST_NODES_RAISED))

    def put(self, name, content):
        count, first = -(-len(content) // self.block), self.book.nodes + 1
        digests = b"".join(self.weave(first + at, content[at * self.block:(at + 1) * self.block].ljust(self.block, b"\0")) for at in range(count))
        self.record(1, struct.pack(">H", len(name)) + name + struct.pack(">Q", len(content)) + sha(content) + struct.pack(">2I", first, count) + digests)

    def put_parts(self, name, parts):
        content = b"".join(self.data[node - 1] for first, many in parts for node in range(first, first + many))
        body = struct.pack(">H", len(name)) + name + struct.pack(">Q", len(content)) + sha(content) + struct.pack(">3I", self.book.nodes + 1, 0, len(parts))
        self.record(3, body + b"".join(struct.pack(">2I", *part) for part in parts))
        return content

    def weave(self, node, payload):
        """Writes the cells of a node, and gives their digests."""
        self.data.append(payload)
        digests = b""
        for kind in range(self.width):
            total = payload
            if kind:
                strand = self.book.strand(node, kind)
                total = bytes(a ^ b for a, b in zip(payload, self.heads.get(strand, bytes(self.block))))
                self.heads[strand] = total
            k = (node - 1) * self.width + kind
            body = head_of_cell(k, self.width) + total
            name, at = home(k, self.sites, self.block + 48)
            file = self.files.setdefault(name, bytearray())
            file.extend(bytes(max(0, at + self.block + 48 - len(file))))
            file[at:at + self.block + 48] = body + sha(body)
            digests += sha(body)
        return digests

    def all_files(self, with_copies=False):
        copies = dict.fromkeys(("ledger-2.aea", "ledger-3.aea"), copy_of(self.text)) if with_copies else {}
        return {"ledger.aea": self.text + b"\x00", **copies, **{name: bytes(file) for name, file in self.files.items()}}
