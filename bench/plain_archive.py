"""A plain archive, written from docs/FORMATS.md alone: its ledger, the copies of that, its cells and where they stand, the lattice,
what the known blocks determine and by what, and what is told of a loss report. `bench/torture` compares the program with it, and the other
scripts take from it what stands in files. It is no program by itself; SHA-256 is that of hashlib, and sets of blocks and of
equations are numbers whose bits are theirs."""

import hashlib
import itertools
import random
import re
from dataclasses import dataclass, field

LETTERS = "dhrl"
LEDGER, COPIES = "ledger.aea", ("ledger-2.aea", "ledger-3.aea")
LIMIT, RAISED = 65536, 1048576
MOST_FENCES = 16
NUMBER = rb"(0|[1-9][0-9]*)"


def number(width, value):
    return value.to_bytes(width, "big")


def is_name(name):
    """Whether these bytes may name an object."""
    try:
        name.decode()
    except UnicodeDecodeError:
        return False
    return 0 < len(name) < 256 and not any(byte < 32 or byte == 127 for byte in name)


def is_shape(alpha, s, p):
    return (s, p) == (1, 0) if alpha == 1 else alpha in (2, 3) and 2 <= s <= 16 and s <= p <= 64


def name_by_chance(chance):
    """A name: 1 to 255 bytes of UTF-8 without control characters."""
    letters = ["a", "b", "z", "A", "0", " ", "/", ".", "~", "\u0080", "\u00e4", "\u4e2d", "\U0001f600", "\uffff"]
    return "".join(chance.choice(letters) for _ in range(chance.choice([1, 2, 3, 8, 300]))).encode()[:255].decode(errors="ignore").encode()


# of ledgers


def ledger_head(shape):
    """What stands in a ledger before its first gate."""
    alpha, s, p, block, sites = shape
    return b"\x01AEALEDG1" + bytes([alpha, s, p, sites]) + number(4, block)


def record(kind, rest):
    """An open gate and a record of this kind behind it."""
    return b"\x01" + bytes([kind]) + number(4, len(rest)) + rest


def object_record(name, length, digest, first, count, digests):
    """The record of an object that has so many nodes of its own, from this one on, with the digests of their blocks."""
    return record(1, number(2, len(name)) + name + number(8, length) + digest + number(4, first) + number(4, count) + digests)


def parts_record(name, content, nodes, parts, new=0, digests=b""):
    """The record of an object in parts, each a first node and a number of nodes: of the nodes that are there, and of so many new ones,
    with the digests of their blocks."""
    rest = number(2, len(name)) + name + number(8, len(content)) + hashlib.sha256(content).digest()
    rest += number(4, nodes + 1) + number(4, new) + number(4, len(parts))
    return record(3, rest + b"".join(number(4, it) for part in parts for it in part) + digests)


def parts_of(nodes):
    """The longest runs of nodes that follow each other, each by its first node and their number."""
    parts = []
    for node in nodes:
        if parts and sum(parts[-1]) == node:
            parts[-1] = parts[-1][0], parts[-1][1] + 1
        else:
            parts.append((node, 1))
    return parts


def fence_record(node):
    return record(2, number(4, node))


RAISE = record(4, number(4, RAISED))


# of copies of a ledger


def piece_ends(text):
    """Where the header of a ledger and each of its records ends. All is given that stands before the gate that ends it."""
    ends = [17]
    while ends[-1] < len(text):
        ends.append(ends[-1] + 6 + int.from_bytes(text[ends[-1] + 2:ends[-1] + 6], "big"))
    return ends


def copy_of(text):
    """A whole copy of a ledger, of which all is given that stands before the gate that ends it."""
    parts, link, at = [b"\x01AEACOPY1"], bytes(32), 0
    for end in piece_ends(text):
        entry = number(4, end - at) + text[at:end]
        link = hashlib.sha256(link + entry).digest()
        parts.append(b"\x01" + entry + link)
        at = end
    return b"".join(parts) + b"\x00"


def is_copy_begun(copy):
    """Whether these bytes of a copy's file begin one."""
    return len(copy) >= 10 and copy[0] == 1


def judged_copy(copy):
    """What is told of the bytes of a copy's file: its text and none where it is good, else none and the place where it is bad."""
    if not is_copy_begun(copy):
        return None, 0
    if copy[1:9] != b"AEACOPY1":
        return None, 1
    pieces, link, gate = [], bytes(32), 9
    while copy[gate:gate + 1] == b"\x01":
        size = int.from_bytes(copy[gate + 1:gate + 5], "big")
        entry, end = copy[gate + 1:gate + 5 + size], gate + 37 + size
        wanted = 17 if not pieces else 6 + int.from_bytes(entry[6:10], "big")
        link = hashlib.sha256(link + entry).digest()
        if len(copy) < end or size != wanted or entry[4:5] != b"\x01" or copy[end - 32:end] != link:
            return None, gate
        pieces.append(entry[4:])
        gate = end
    return (b"".join(pieces), None) if pieces and len(copy) > gate else (None, gate)


def adopted(ledger, copies):
    """What a run makes of the files of the ledger and of its copies before it does anything else: what it is refused for, or none, and
    the three files then. Of a file that is not there the bytes are none."""
    files = [ledger, *copies]
    if not any(is_copy_begun(copy or b"") for copy in copies):
        return None, files
    judged = [judged_copy(copy or b"") for copy in copies]
    short, kept = sorted((text or b"" for text, _ in judged), key=len)
    if not kept:
        return f"copies bad at {judged[0][1]} and {judged[1][1]}", files
    if not kept.startswith(short):
        return f"copies differ at {next(at for at, (a, b) in enumerate(zip(short, kept)) if a != b)}", files
    has = (ledger or b"")[:len(kept)] == kept and len(ledger) > len(kept)
    files[0] = ledger if has and ledger[len(kept)] != 1 else kept + b"\x00" + (ledger[len(kept) + 1:] if has else b"")
    files[1:] = [copy if text == kept else copy_of(kept) for copy, (text, _) in zip(copies, judged)]
    return None, files


def adopted_in(files):
    """The same of all files of an archive, by their names: what it is refused for, or none, and all files then."""
    refused, three = adopted(files.get(LEDGER), [files.get(name) for name in COPIES])
    return refused, {**files, **{name: file for name, file in zip((LEDGER, *COPIES), three) if file is not None}}


def with_copies(files):
    """The files with two copies of the ledger, which ends with its closed gate."""
    return {**files, **dict.fromkeys(COPIES, copy_of(files[LEDGER][:-1]))}


def has_copies(files):
    """Whether copies are on in these files."""
    return any(is_copy_begun(files.get(name, b"")) for name in COPIES)


def grown(file, whole):
    """A file to which entries were added after the gate that ended it, so that this is what it has up to the new one: what stands
    behind that stays."""
    return whole + file[len(whole):]


# of blocks, their cells and the files of sites


def even_ledger(shape, nodes, objects, seed):
    """The bytes of a ledger of so many nodes, which its objects share out evenly; the digests are by chance. More nodes than the limit
    stand behind a raise of it."""
    chance = random.Random(seed)
    parts = [ledger_head(shape)]
    if nodes > LIMIT:
        parts.append(RAISE)
    first = 1
    for k in range(objects):
        name, count = f"object {k}".encode(), (nodes - first + 1) // (objects - k)
        digest = hashlib.sha256(name).digest()
        parts.append(object_record(name, count * shape[3], digest, first, count, chance.randbytes(32 * (1 + shape[0]) * count)))
        first += count
    return b"".join(parts) + b"\x00"


def text_of(k, classes):
    """The text of a block, by its number."""
    return f"{LETTERS[k % classes]}{k // classes + 1}"


def home_of(k, sites, size):
    """The site of a block's home, and its place in the file of the site, for cells of this size."""
    row, column = divmod(k, sites)
    return 1 + (column + row) % sites, row * size


def site_file(site):
    return f"site-{site:02}/blocks.aea"


def cell_head(kind, node):
    """The head of the cell of a node's block of this class."""
    return b"AEB1" + bytes([kind, 0, 0, 0]) + number(8, node)


def strand_of(node, kind, s, p):
    """The strand of a node on a class of parities."""
    column, row = divmod(node - 1, s)
    return kind, (row, (column - row) % (p or 1), (column + row) % (p or 1))[kind - 1]


# of what is read and printed


def frame(name, length, content):
    """The frame of an object in a stream, or of so many bytes the first ones."""
    return number(2, len(name)) + name + number(8, length) + content


def frames(objects):
    """The stream of these objects, names and bytes."""
    return b"".join(frame(name, len(content), content) for name, content in objects)


def stored_line(name, content, block):
    return f"stored {-(-len(content) // block)} {len(content)} {hashlib.sha256(content).hexdigest()} ".encode() + name + b"\n"


@dataclass
class Plain:
    """An archive as it is where nothing is damaged. A block is told by its number; `cells` has the cell of each."""

    shape: tuple
    ledger: bytes = b""
    objects: dict = field(default_factory=dict)
    cells: list = field(default_factory=list)
    equations: list = field(default_factory=list)
    heads: dict = field(default_factory=dict)
    fences: list = field(default_factory=list)
    raised: bool = False
    # where in the ledger the digest of each block stands
    places: list = field(default_factory=list)

    def __post_init__(self):
        alpha, _, _, block, sites = self.shape
        self.classes, self.block, self.sites, self.size = 1 + alpha, block, sites, block + 48
        if not self.ledger:
            self.ledger = ledger_head(self.shape)

    def copy(self):
        return Plain(self.shape, self.ledger, dict(self.objects), list(self.cells), list(self.equations), dict(self.heads),
                     list(self.fences), self.raised, list(self.places))

    @property
    def nodes(self):
        return len(self.cells) // self.classes

    @property
    def limit(self):
        return RAISED if self.raised else LIMIT

    def seal(self):
        return hashlib.sha256(self.ledger).hexdigest()

    # texts and places

    def text(self, k):
        return text_of(k, self.classes)

    def number_of(self, text):
        """The number of the block with this text, or none."""
        told = re.fullmatch(rb"([dhrl])([1-9][0-9]*)", text)
        if told is None:
            return None
        kind, node = LETTERS.index(told[1].decode()), int(told[2])
        return (node - 1) * self.classes + kind if kind < self.classes and node <= self.nodes else None

    def home(self, k):
        """The site of a block's home, and its place in the file of the site."""
        return home_of(k, self.sites, self.size)

    def strand(self, node, kind):
        return strand_of(node, kind, self.shape[1], self.shape[2])

    # what the commands add

    def add(self, name, content):
        """Stores an object, as `put` does."""
        first, count = self.nodes + 1, -(-len(content) // self.block)
        digests = b""
        for k in range(count):
            digests += self.weave(content[k * self.block:(k + 1) * self.block].ljust(self.block, b"\x00"))
        self.ledger += object_record(name, len(content), hashlib.sha256(content).digest(), first, count, digests)
        self.places += range(len(self.ledger) - len(digests), len(self.ledger), 32)
        self.objects[name] = content, list(range(first, first + count))

    def weave(self, payload):
        """Adds a node with this datum; gives the digests of its blocks."""
        node, datum = self.nodes + 1, len(self.cells)
        sums, digests = [payload], b""
        for kind in range(1, self.classes):
            strand = self.strand(node, kind)
            equation = [datum, datum + kind]
            total = int.from_bytes(payload, "big")
            if strand in self.heads:
                equation.append(self.heads[strand])
                total ^= int.from_bytes(self.cells[self.heads[strand]][16:-32], "big")
            self.equations.append(equation)
            self.heads[strand] = datum + kind
            sums.append(total.to_bytes(self.block, "big"))
        for kind, total in enumerate(sums):
            body = cell_head(kind, node) + total
            digest = hashlib.sha256(body).digest()
            self.cells.append(body + digest)
            digests += digest
        return digests

    def add_fence(self):
        self.ledger += fence_record(self.nodes)
        self.fences.append(self.nodes)
        self.heads = {}

    def add_raise(self):
        self.ledger += RAISE
        self.raised = True

    def add_woven(self, name, content, nodes, recorded):
        """Adds an object of these nodes, as a session does, where so many nodes have a record and the others are woven already."""
        digests = b"".join(cell[-32:] for cell in self.cells[recorded * self.classes:])
        self.ledger += parts_record(name, content, recorded, parts_of(nodes), self.nodes - recorded, digests)
        self.places += range(len(self.ledger) - len(digests), len(self.ledger), 32)
        self.objects[name] = content, list(nodes)

    def add_in_parts(self, name, parts):
        """Adds an object of nodes that are there, in parts, each a first node and a number of nodes."""
        places = [node for first, count in parts for node in range(first, first + count)]
        content = b"".join(self.cells[(node - 1) * self.classes][16:-32] for node in places)
        self.ledger += parts_record(name, content, self.nodes, parts)
        self.objects[name] = content, places

    # what a command is refused for

    def head_damaged(self, intact):
        """The least last parity of a strand that is not intact, or none."""
        return min((k for k in self.heads.values() if k not in intact), default=None)

    # lines

    def stat(self):
        alpha, s, p, block, sites = self.shape
        return f'{{"alpha":{alpha},"block":{block},"nodes":{self.nodes},"objects":{len(self.objects)},"p":{p},"s":{s},"sites":{sites}}}\n'.encode()

    def listed(self):
        return b"".join(f"{len(content)} {hashlib.sha256(content).hexdigest()} ".encode() + name + b"\n"
                        for name, (content, _) in sorted(self.objects.items()))

    def scrubbed(self, damaged):
        lines = [f"damaged {self.text(k)}\n" for k in sorted(damaged)]
        return "".join([*lines, f"total {len(self.cells)} damaged {len(damaged)}\n"]).encode()

    # what is determined

    def peeled(self, damaged):
        """The damaged blocks that single equations give, one after the other."""
        left, of_block = set(damaged), {}
        for place, equation in enumerate(self.equations):
            for k in equation:
                if k in left:
                    of_block.setdefault(k, []).append(place)
        waiting = list(range(len(self.equations)))
        while waiting:
            one = [k for k in self.equations[waiting.pop()] if k in left]
            if len(one) == 1:
                left.remove(one[0])
                waiting += of_block[one[0]]
        return set(damaged) - left

    def fates(self, unknown):
        """Of each block that is not known: none where the known ones determine it, else the nodes that the rules of choice list."""
        order = sorted(unknown)
        bit = {k: len(order) - 1 - place for place, k in enumerate(order)}
        rows = []
        for equation in self.equations:
            row = 0
            for k in equation:
                if k in bit:
                    row |= 1 << bit[k]
            if row:
                rows.append(row)
        reduced = reduce_rows(rows)
        words = {k: [k] for k in order if bit[k] not in reduced}
        least = {}
        for lead, row in reduced.items():
            rest, ends = row ^ 1 << lead, []
            while rest:
                top = rest.bit_length() - 1
                ends.append(order[len(order) - 1 - top])
                rest ^= 1 << top
            k = order[len(order) - 1 - lead]
            least[k] = min(ends, default=None)
            for end in ends:
                words[end].append(k)
        nodes = {end: sorted(k // self.classes + 1 for k in word if k % self.classes == 0) for end, word in words.items()}
        return {k: nodes[k] if k in words else None if least[k] is None else nodes[least[k]] for k in order}

    def fates_of_damaged(self, damaged):
        """The fates where these are damaged: what is known is what is intact; where that leaves much to be reduced, what single
        equations give is known too, which changes no word, and has no fate here."""
        return self.fates(damaged if len(damaged) <= 200 else set(damaged) - self.peeled(damaged))

    def report(self, damaged):
        """The report of a repair where these are damaged, and the blocks that it restores."""
        peeled, fates = self.peeled(damaged), self.fates_of_damaged(damaged)
        lines, counts = [], [0, 0, 0]
        for k in sorted(damaged):
            nodes = fates.get(k)
            kind = 0 if k in peeled else 1 if nodes is None else 2
            counts[kind] += 1
            lines.append([f"peeled {self.text(k)}\n", f"solved {self.text(k)}\n", f"lost {self.text(k)} by {' '.join(map(str, nodes or []))}\n"][kind])
        alpha, s, p, _, _ = self.shape
        head = f"aea-report 1\nlattice {alpha} {s} {p} {self.nodes}\nledger {self.seal()}\ncounts {len(lines)} {' '.join(map(str, counts))}\n"
        lost = {k for k, nodes in fates.items() if nodes is not None and k not in peeled}
        return (head + "".join(lines)).encode(), set(damaged) - lost, counts

    def explained(self, damaged, k):
        """What is printed of a block where these are damaged, and the status."""
        unknown = sorted(set(damaged) | {k})
        used = [place for place, equation in enumerate(self.equations) if not set(unknown).isdisjoint(equation)]
        columns = [("block", it) for it in unknown] + [("equation", place) for place in reversed(used)]
        bit = {column: len(columns) - 1 - at for at, column in enumerate(columns)}
        rows = []
        for place in used:
            row = 1 << bit["equation", place]
            for it in self.equations[place]:
                if ("block", it) in bit:
                    row |= 1 << bit["block", it]
            rows.append(row)
        row = reduce_rows(rows).get(bit["block", k])
        text = f"{'damaged' if k in damaged else 'intact'} {self.text(k)}\n"
        if row is not None and row ^ 1 << bit["block", k] < 1 << len(used):
            by = sorted(place for kind, place in columns if kind == "equation" and row >> bit[kind, place] & 1)
            return f"{text}sum {' '.join(self.text(self.equations[place][1]) for place in by)}\n".encode(), 0
        return f"{text}word {' '.join(map(str, self.fates(set(unknown))[k]))}\n".encode(), 1

    def site_losses(self):
        """What is printed of what the loss of each site, and of each two, would cost."""
        sites, lines = range(1, self.sites + 1), []
        on_site = {site: {k for k in range(len(self.cells)) if self.home(k)[0] == site} for site in sites}
        for a, b in [*((a, a) for a in sites), *itertools.combinations(sites, 2)]:
            gone = on_site[a] | on_site[b]
            # what single equations give is known too, which changes no word
            fates = self.fates(gone - self.peeled(gone))
            lost = [k for k in sorted(fates) if fates[k] is not None]
            line = f"{f'site {a}' if a == b else f'pair {a} {b}'} lost {len(lost)}"
            lines.append(f"{line} first {self.text(lost[0])} by {' '.join(map(str, fates[lost[0]]))}\n" if lost else f"{line}\n")
        return "".join(lines).encode()

    def codeword(self, nodes):
        """The blocks of the codeword of these nodes."""
        word, odd, nodes = set(), set(), set(nodes)
        for node in range(1, self.nodes + 1):
            datum = (node - 1) * self.classes
            if node in nodes:
                word.add(datum)
            for kind in range(1, self.classes):
                strand = self.strand(node, kind)
                if node in nodes:
                    odd ^= {strand}
                if strand in odd:
                    word.add(datum + kind)
            if node in self.fences:
                odd = set()
        return word

    # reports

    def judged(self, text, damaged):
        """What `verify` tells of a text: status, output and error."""
        head, lines, bad = self.read_report(text)
        if bad:
            return 3, b"", f"refused: bad line {bad}\n".encode()
        told = self.rejected(head, lines, set(damaged))
        return (1, f"rejected {told}\n".encode(), b"") if told else (0, b"accepted\n", b"")

    def read_report(self, text):
        """Shape, seal, counts and lines of a report, or the first line that is bad."""
        pieces = text.split(b"\n")
        whole, rest = pieces[:-1], pieces[-1]
        shape = seal = counts = None
        lines, before = [], -1
        for at, line in enumerate(whole, 1):
            if at == 1:
                well = line == b"aea-report 1"
            elif at == 2:
                told = re.fullmatch(b"lattice " + b" ".join([NUMBER] * 4), line)
                shape = told and tuple(map(int, told.groups()))
                well = told and is_shape(*shape[:3]) and shape[3] <= RAISED
            elif at == 3:
                told = re.fullmatch(rb"ledger (none|[0-9a-f]{64})", line)
                seal, well = told and told[1], told
            elif at == 4:
                told = re.fullmatch(b"counts " + b" ".join([NUMBER] * 4), line)
                counts = told and tuple(map(int, told.groups()))
                well = told and max(counts) < 1 << 32
            else:
                told = re.fullmatch(rb"(?:(peeled|solved) ([dhrl])([1-9][0-9]*)|(lost) ([dhrl])([1-9][0-9]*) by((?: [1-9][0-9]*)+))", line)
                well = False
                if told:
                    kind, letter, node = told[1] or told[4], told[2] or told[5], int(told[3] or told[6])
                    nodes = list(map(int, (told[7] or b"").split()))
                    k = (node - 1) * (1 + shape[0]) + LETTERS.index(letter.decode())
                    well = LETTERS.index(letter.decode()) <= shape[0] and node <= shape[3] and k > before
                    well = well and all(a < b for a, b in zip(nodes, nodes[1:])) and (not nodes or nodes[-1] <= shape[3])
                    before = k
                    lines.append((kind.decode(), k, nodes))
            if not well:
                return None, None, at
        if rest or len(whole) < 4:
            return None, None, len(whole) + 1
        return (shape, seal, counts), lines, None

    def rejected(self, head, lines, damaged):
        """The first rule that a report breaks, or none."""
        shape, seal, counts = head
        if shape != (*self.shape[:3], self.nodes):
            return "2 other-archive"
        if seal.decode() != self.seal():
            return "3 other-archive"
        missing = sorted(damaged)
        for at, (kind, k, nodes) in enumerate(lines, 5):
            while missing and missing[0] < k:
                return f"{at} missing {self.text(missing[0])}"
            if missing and missing[0] == k:
                missing.pop(0)
            if kind != "lost":
                if k in damaged:
                    return f"{at} still-bad {self.text(k)}"
                continue
            if k not in damaged:
                return f"{at} not-damaged {self.text(k)}"
            word = self.codeword(nodes)
            if k not in word:
                return f"{at} word-misses {self.text(k)}"
            touched = word - damaged
            if touched:
                return f"{at} word-touches {self.text(min(touched))}"
        if missing:
            return f"{len(lines) + 5} missing {self.text(missing[0])}"
        kinds = [kind for kind, _, _ in lines]
        if counts != (len(lines), *(kinds.count(kind) for kind in ("peeled", "solved", "lost"))):
            return "4 wrong-count"
        return None


def reduce_rows(rows):
    """The reduced rows, each by its lead, the greatest bit: it is in no other row."""
    leads = {}
    for row in rows:
        while row:
            top = row.bit_length() - 1
            if top not in leads:
                leads[top] = row
                break
            row ^= leads[top]
    mask = sum(1 << top for top in leads)
    for top in sorted(leads):
        row = leads[top]
        others = row & mask ^ 1 << top
        while others:
            other = others.bit_length() - 1
            row ^= leads[other]
            others ^= 1 << other
        leads[top] = row
    return leads


def judged_ledger(b):
    """What is told of the bytes of a ledger: 'no archive', the place where it is bad, or none where it is in the grammar."""
    if len(b) < 18 or b[0] != 1:
        return "no archive"

    def at(place, width):
        return int.from_bytes(b[place:place + width], "big") if len(b) >= place + width else None

    if b[1:9] != b"AEALEDG1":
        return 1
    alpha, s, p = b[9], b[10], b[11]
    for place, well in ((9, 1 <= alpha <= 3), (10, s == 1 if alpha == 1 else 2 <= s <= 16), (11, p == 0 if alpha == 1 else s <= p <= 64),
                        (12, 1 <= b[12] <= 64), (13, 16 <= at(13, 4) <= 65536)):
        if not well:
            return place
    block, classes = at(13, 4), 1 + alpha
    g, nodes, names, fences, limit = 17, 0, set(), [], LIMIT
    while True:
        if len(b) <= g:
            return g
        if b[g] != 1:
            return None
        kind, length = at(g + 1, 1), at(g + 2, 4)
        if kind not in ((1, 2, 4) if limit == LIMIT else (1, 2, 3, 4)):
            return g + 1
        if length is None:
            return g + 2
        if kind in (2, 4):
            value = at(g + 6, 4)
            if kind == 2 and (value is None or value != nodes or nodes == 0 or nodes in fences or len(fences) >= MOST_FENCES):
                return g + 6
            if kind == 4 and (value != RAISED or limit == RAISED):
                return g + 6
            if length != 4:
                return g + 2
            if kind == 2:
                fences.append(nodes)
            else:
                limit = RAISED
            g += 10
            continue
        size = at(g + 6, 2)
        if size is None or not 1 <= size <= 255:
            return g + 6
        name = b[g + 8:g + 8 + size]
        if len(name) < size or not is_name(name) or name in names:
            return g + 8
        place = g + 8 + size
        whole = at(place, 8)
        if whole is None:
            return place
        if len(b) < place + 40:
            return place + 8
        if at(place + 40, 4) != nodes + 1:
            return place + 40
        count = at(place + 44, 4)
        if count is None or nodes + count > limit or kind == 1 and count != -(-whole // block):
            return place + 44
        end = place + 48
        if kind == 3:
            parts = at(end, 4)
            if parts is None or parts > RAISED:
                return end
            end += 4
            if len(b) < end + 8 * parts:
                return end
            behind, total = 0, 0
            for k in range(parts):
                first, many = at(end + 8 * k, 4), at(end + 8 * k + 4, 4)
                if first < 1 or many < 1 or first <= behind or first + many - 1 > nodes + count:
                    return end
                behind, total = first + many - 1, total + many
            if total != -(-whole // block):
                return end
            end += 8 * parts
        if len(b) < end + 32 * count * classes:
            return end
        end += 32 * count * classes
        if length != end - g - 6:
            return g + 2
        names.add(name)
        nodes += count
        g = end
