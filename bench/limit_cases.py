"""The cases of `bench/limits`: each makes an archive with one size at its limit, and runs commands over it. It is no program by itself."""

import collections
import hashlib
import random
from dataclasses import dataclass
from typing import Callable

from plain_archive import LIMIT, RAISED, frame, number, strand_of, text_of
from sessions import CHUNK, CLOSE, OPEN, PATROL, SLOTS
from sizes import LINE, NO_COMMAND, Wrong, even_records, first_lines, last_line, lines_of, long_name, many_frames, parted_records, refused

CASES = []
SMALL, WIDE = (1, 1, 0, 16, 4), (3, 2, 5, 16, 5)
EMPTY = hashlib.sha256(b"").hexdigest()


@dataclass
class Case:
    """A row: its part, what is at its limit, what tries it, the seconds that it may take, and the bytes of disk."""

    part: str
    what: str
    run: Callable
    guess: float
    room: int

    @property
    def is_short(self):
        return self.guess <= 10


def case(part, what, guess=1, room=1 << 26):
    """Adds a case."""
    def add(run):
        CASES.append(Case(part, what, run, guess, room))
        return run
    return add


# blocks


@case("blocks", "blocks of 16 bytes")
def least_blocks(it):
    it.run(["create", "1", "1", "0", "15", "1"], NO_COMMAND)
    it.create((3, 2, 5, 16, 5))
    it.put("a", it.source(16 * 20 - 1))
    it.hurt_and_mend(20, "a", it.source(16 * 20 - 1))


@case("blocks", "blocks of 65,536 bytes")
def greatest_blocks(it):
    it.run(["create", "1", "1", "0", "65537", "1"], NO_COMMAND)
    it.create((3, 2, 5, 65536, 5))
    source = it.source(65536 * 20 + 1)
    it.put("a", source)
    it.hurt_and_mend(21, "a", source)


# nodes


def fill_and_mend(it, shape, nodes):
    """Fills an archive to its last node, is refused at the next, and loses a site."""
    most, last = it.filled(shape, nodes)
    it.run(["put", "next"], refused(f"full at {nodes} nodes"), b"x")
    it.run(["ingest"], refused(f"full at {nodes} nodes"), frame(b"next", 1, b"x"))
    it.run(["put", "none"], (0, f"stored 0 0 {EMPTY} none\n".encode(), b""))
    it.hurt_and_mend(nodes, "most", most)
    it.run(["get", "last"], (0, last, b""))
    it.run(["fence"], (0, f"fence {nodes}\n".encode(), b""))
    it.run(["fence"], refused(f"already fenced at {nodes}"))
    it.stat(nodes, 3)


@case("nodes", "65,536 nodes of AE(1,1,0)", 4)
def nodes_of_one_class(it):
    fill_and_mend(it, SMALL, LIMIT)


@case("nodes", "65,536 nodes of AE(3,2,5), and an upgrade", 8, 1 << 28)
def nodes_of_three_classes(it):
    fill_and_mend(it, WIDE, LIMIT)
    it.run(["upgrade"], (0, b"upgraded 1048576\n", b""))
    it.put("behind", it.source(16, "behind"))
    it.run(["get", "behind"], (0, it.source(16, "behind"), b""))


@case("raised", "1,048,576 nodes of AE(1,1,0)", 40, 1 << 29)
def raised_of_one_class(it):
    fill_and_mend(it, SMALL, RAISED)


@case("raised", "1,048,576 nodes of AE(3,2,5), with copies of the ledger", 120, 1 << 30)
def raised_of_three_classes(it):
    fill_and_mend(it, WIDE, RAISED)
    it.run(["copies"], (0, b"copies on\n", b""))
    (it.folder / "ledger.aea").unlink()
    it.stat(RAISED, 3)


@case("raised", "1,048,576 nodes of AE(3,16,64)", 120, 1 << 30)
def raised_of_most_strands(it):
    fill_and_mend(it, (3, 16, 64, 16, 7), RAISED)


# ledgers


@case("ledger", "65,536 objects with names of 255 bytes over 1,048,576 nodes", 40, 1 << 30)
def most_objects_and_nodes(it):
    it.lay_ledger((3, 2, 5, 16, 1), even_records((3, 2, 5, 16, 1), RAISED, LIMIT))
    it.stat(RAISED, LIMIT)
    it.run(["list"], (0, lambda out: None if lines_of(out) == LIMIT and last_line(out).endswith(long_name(LIMIT - 1)) else "the list is another", b""))
    it.run(["get", long_name(LIMIT - 1)], refused(f"damaged d{RAISED - 15}"))
    it.run(["put", "next"], refused("catalog full"))
    it.run(["copies"], (0, b"copies on\n", b""))
    (it.folder / "ledger.aea").unlink()
    it.stat(RAISED, LIMIT)


@case("ledger", "4 objects of 1,048,576 parts each", 40, 1 << 29)
def most_parts(it):
    it.lay_ledger((1, 1, 0, 16, 1), parted_records((1, 1, 0, 16, 1), RAISED, 4))
    it.stat(RAISED, 5)
    it.run(["get", "parts 3"], refused("damaged d1"))
    it.run(["copies"], (0, b"copies on\n", b""))


@case("ledger", "65,536 objects of 1,048,576 parts each", 0, 550 * 10 ** 9)
def greatest_ledger(_):
    raise Wrong("not written")


@case("ledger", "16 fences")
def most_fences(it):
    it.create((3, 2, 5, 16, 5))
    for k in range(16):
        it.run(["put", f"{k}"], (0, lambda out: None, b""), b"x")
        it.run(["fence"], (0, f"fence {k + 1}\n".encode(), b""))
    it.run(["put", "next"], (0, lambda out: None, b""), b"x")
    it.run(["fence"], refused("too many fences"))


# objects


@case("objects", "objects of no byte, of one block and of all blocks", 2)
def least_and_greatest_objects(it):
    it.create(SMALL)
    it.put("none", it.source(0, "none"))
    it.put("one", it.source(16, "one"))
    it.put("rest", it.source(16 * (LIMIT - 1), "rest"))
    for name in ("none", "one", "rest"):
        it.run(["get", name], (0, it.room / name, b""))


@case("objects", "names of 1 and 255 bytes")
def least_and_greatest_names(it):
    it.create(SMALL)
    it.run(["put", ""], refused("bad name"))
    for name in (b"a", long_name(1), "ä".encode() * 127 + b"a"):
        it.run(["put", name], (0, b"stored 1 1 " + hashlib.sha256(b"x").hexdigest().encode() + b" " + name + b"\n", b""), b"x")
        it.run(["get", name], (0, b"x", b""))
    it.run(["put", long_name(1, 256)], refused("bad name"))


@case("objects", "65,536 objects with names of 255 bytes", 10, 1 << 28)
def most_objects(it):
    it.create((1, 1, 0, 16, 1), raised=True)
    source, lines = many_frames(it.room / "frames", LIMIT)
    it.run(["ingest"], (0, lines, b""), source)
    it.run(["put", "next"], refused("catalog full"))
    it.run(["ingest"], refused("catalog full"), frame(b"next", 0, b""))
    it.run(["session"], (0, bytes([OPEN, 0, CLOSE, 8]), b""), bytes([OPEN, 0, 0, 1]) + b"n" + bytes([CLOSE, 0]))
    it.run(["get", long_name(0)])
    it.run(["list"], (0, lambda out: None if lines_of(out) == LIMIT else "the list is another", b""))


# the large object


@case("large", "frames of 2^32 + 1 and 2^64 - 1 bytes, refused before their bytes")
def large_frames(it):
    it.create((1, 1, 0, 65536, 4))
    for length in ((1 << 32) + 1, (1 << 64) - 1):
        it.run(["ingest"], refused("full at 0 nodes"), frame(b"large", length, b""))


@case("large", "an object of 2^32 + 1 bytes", 900, 17 * 10 ** 9)
def large_object(it):
    it.create((1, 1, 0, 65536, 4))
    source, size = it.room / "large", (1 << 32) + 1
    with open(source, "wb") as file:
        file.write(b"first")
        file.truncate(size - 4)
        file.seek(size - 4)
        file.write(b"last")
    it.run(["put", "large"], refused("full at 0 nodes"), source)
    it.run(["upgrade"], (0, b"upgraded 1048576\n", b""))
    it.put("large", source)
    it.stat(LIMIT + 1, 1)
    it.hurt_and_mend(LIMIT + 1, "large", source)


# sites


@case("sites", "64 sites, one and two of them lost", 4)
def most_sites(it):
    it.run(["create", "3", "2", "5", "16", "65"], NO_COMMAND)
    it.create((3, 2, 5, 16, 64))
    source = it.source(16 * 1024)
    it.put("a", source)
    it.run(["sites"], (0, lambda out: None if lines_of(out) == 64 + 64 * 63 // 2 else f"{lines_of(out)} lines", b""))
    for site in (1, 64):
        it.hurt_and_mend(1024, "a", source, site)
    count = it.on_sites({1, 2}, 1024)[0]
    kept = [(site, it.lose(site)) for site in (1, 2)]
    it.repaired(1024, count)
    for site, path in kept:
        if path.read_bytes() != it.site(site).read_bytes():
            raise Wrong(f"the file of site {site} is not what it was")


@case("sites", "1 site, lost")
def least_sites(it):
    it.create((1, 1, 0, 16, 1))
    it.put("a", it.source(16 * 10))
    it.run(["sites"], (0, b"site 1 lost 20 first d1 by 1 2\n", b""))
    it.lose(1)
    report = it.repaired(10, 20, lost=20)
    it.run(["verify"], (0, b"accepted\n", b""), report)


# reports


def word_without_smaller(shape, nodes):
    """Most of so many nodes, whose codeword contains no smaller one, and the blocks of that: on each strand the nodes go by twos, of which
    the first makes the parities odd and the second even again. Both stand in a codeword within it, or none. So does all that is joined by
    such twos, over all strands."""
    chance = random.Random(f"word {nodes}")
    joined = {node: node for node in range(1, nodes + 1) if chance.random() < 0.95}

    def first_of(node):
        while joined[node] != node:
            node = joined[node]
        return node

    waiting = {}
    for node in list(joined):
        for kind in (1, 2, 3):
            strand = strand_of(node, kind, *shape[1:3])
            if strand not in waiting:
                waiting[strand] = node
            else:
                joined[first_of(waiting.pop(strand))] = first_of(node)
    groups = collections.defaultdict(list)
    for node in joined:
        groups[first_of(node)].append(node)
    word = max(groups.values(), key=len)
    odd, blocks = set(), []
    for node in range(1, nodes + 1):
        is_in = node in joined and first_of(node) == first_of(word[0])
        blocks += [4 * (node - 1)] if is_in else []
        for kind in (1, 2, 3):
            strand = strand_of(node, kind, *shape[1:3])
            odd ^= {strand} if is_in else set()
            blocks += [4 * (node - 1) + kind] if strand in odd else []
    return word, blocks


def longest_word(it, nodes):
    """Damages exactly the blocks of such a codeword: each line has all of its nodes."""
    it.create((3, 16, 64, 16, 1))
    it.put("a", it.source(16 * nodes))
    word, damaged = word_without_smaller(it.shape, nodes)
    cells = bytearray(it.site(1).read_bytes())
    for k in damaged:
        cells[64 * k + 16] ^= 1
    it.site(1).write_bytes(cells)
    report, by = it.repaired(nodes, len(damaged), lost=len(damaged)), " ".join(map(str, word))
    if len(word) < 0.9 * nodes or first_lines(report, len(damaged) + 5)[4:] != [f"lost {text_of(k, 4)} by {by}".encode() for k in damaged]:
        raise Wrong("the lines are others")
    it.run(["verify"], (0, b"accepted\n", b""), report)
    it.run(["explain", f"d{word[0]}"], (1, f"damaged d{word[0]}\nword {by}\n".encode(), b""))


@case("reports", "lines of most of 256 nodes, of a codeword that contains no smaller one", 2)
def long_lines(it):
    longest_word(it, 256)


@case("reports", "lines of most of 4,096 nodes, of a codeword that contains no smaller one", 60, 1 << 30)
def longer_lines(it):
    longest_word(it, 4096)


def all_lost(it, shape, nodes):
    """Loses all blocks, and verifies the report; gives it."""
    it.filled(shape, nodes)
    for site in range(1, shape[4] + 1):
        it.site(site).unlink()
    blocks = nodes * (1 + shape[0])
    report = it.repaired(nodes, blocks, lost=blocks)
    it.run(["verify"], (0, b"accepted\n", b""), report)
    return report


@case("reports", "all blocks of 65,536 nodes lost", 6)
def report_of_all(it):
    all_lost(it, SMALL, LIMIT)


@case("reports", "all blocks of 1,048,576 nodes of AE(3,2,5) lost", 200, 3 << 30)
def report_of_all_raised(it):
    all_lost(it, WIDE, RAISED)


@case("reports", "the longest `lost` line that fits, of 1,048,576 nodes", 60, 1 << 30)
def longest_fitting_line(it):
    report = all_lost(it, SMALL, RAISED)
    changed = it.room / "changed"
    with open(report, "rb") as old, open(changed, "wb") as new:
        for at, line in enumerate(old, 1):
            new.write(line if at != 5 else b"lost d1 by " + b" ".join(b"%d" % node for node in range(1, RAISED + 1)) + b"\n")
    it.run(["verify"], (0, b"accepted\n", b""), changed)


@case("reports", "lines of 16,777,216 and 16,777,217 bytes", 3, 1 << 27)
def longest_lines(it):
    it.create(SMALL)
    it.put("a", it.source(16))
    head = it.run(["repair"], (0, lambda out: None, b"")).read_bytes()
    for at, text in ((1, b""), (5, head)):
        it.run(["verify"], refused(f"bad line {at}"), text + b"x" * LINE + b"\n")
        it.run(["verify"], refused(f"bad line {at}"), text + b"x" * LINE)
        it.run(["verify"], refused(f"line too long {at}"), text + b"x" * (LINE + 1))
        it.run(["verify"], refused(f"line too long {at}"), text + b"x" * (LINE + 1) + b"\n")


# sessions


def opened(slot, name):
    return bytes([OPEN, slot]) + number(2, len(name)) + name


def chunked(slot, piece):
    return bytes([CHUNK, slot]) + number(4, len(piece)) + piece


@case("session", "chunks of 65,536 bytes")
def greatest_chunks(it):
    it.create((1, 1, 0, 16, 1), raised=True)
    piece = it.source(65536).read_bytes()
    stored = bytes([CLOSE, 0]) + number(4, 4096) + number(8, 65536) + hashlib.sha256(piece).digest()
    begun = opened(0, b"a") + chunked(0, piece)
    it.run(["session"], (0, bytes([OPEN, 0, CHUNK, 0]) + stored, b""), begun + bytes([CLOSE, 0]))
    it.run(["get", "a"], (0, piece, b""))
    place = len(opened(0, b"b")) + 2
    it.run(["session"], (3, bytes([OPEN, 0]), f"refused: bad message at {place}\n".encode()), opened(0, b"b") + chunked(0, piece + b"x"))


@case("session", "patrols of 4,096 blocks")
def greatest_patrols(it):
    it.create((3, 2, 5, 16, 1), raised=True)
    it.put("a", it.source(16 * 1025))
    asked = [(0, 4096), (4, 4096), (0, 4097), (5, 4096), (0, 0)]
    wanted = [bytes([PATROL, 0]) + number(4, 0)] * 2 + [bytes([PATROL, 11])] * 3
    it.run(["session"], (0, b"".join(wanted), b""), b"".join(bytes([PATROL]) + number(4, a) + number(4, b) for a, b in asked))
    it.lose(1)
    listed = number(4, 4096) + b"".join(number(4, k) for k in range(4096))
    it.run(["fence"], (0, b"fence 1025\n", b""))
    it.run(["session"], (0, bytes([PATROL, 0]) + listed, b""), bytes([PATROL]) + number(4, 0) + number(4, 4096))


def uploads(it, shape, size, pieces):
    """Sixteen uploads that take all nodes between them, in turns by chunks of this size, and one more chunk that is refused."""
    it.create(shape, raised=True)
    contents = [it.source(size * pieces, f"upload {slot}").read_bytes()[slot:] + bytes(slot) for slot in range(SLOTS)]
    source, replies = it.room / "messages", it.room / "replies"
    with open(source, "wb") as file, open(replies, "wb") as told:
        for slot in range(SLOTS):
            file.write(opened(slot, b"%d" % slot))
            told.write(bytes([OPEN, 0]))
        for at in range(0, size * pieces, size):
            for slot in range(SLOTS):
                file.write(chunked(slot, contents[slot][at:at + size]))
                told.write(bytes([CHUNK, 0]))
        file.write(chunked(0, bytes(16)))
        told.write(bytes([CHUNK, 7]) + number(4, RAISED))
        for slot, content in enumerate(contents):
            file.write(bytes([CLOSE, slot]))
            told.write(bytes([CLOSE, 0]) + number(4, RAISED // SLOTS) + number(8, len(content)) + hashlib.sha256(content).digest())
    it.run(["session"], (0, replies, b""), source)
    it.stat(RAISED, SLOTS)
    for slot in (0, SLOTS - 1):
        it.run(["get", f"{slot}"], (0, contents[slot], b""))


@case("session", "sixteen uploads that take 1,048,576 nodes, by chunks of 65,536 bytes", 60, 1 << 29)
def greatest_uploads(it):
    uploads(it, (1, 1, 0, 16, 4), 65536, 16)


@case("session", "sixteen uploads that take 1,048,576 nodes, each node a part", 120, 1 << 29)
def most_parted_uploads(it):
    uploads(it, (1, 1, 0, 16, 4), 16, 65536)


@case("session", "16,777,217 messages", 60, 1 << 28)
def most_messages(it):
    it.create((1, 1, 0, 16, 1), raised=True)
    source, replies = it.room / "messages", it.room / "replies"
    source.write_bytes(bytes([4, 0]) * ((1 << 24) + 1))
    replies.write_bytes(bytes([4, 3]) * (1 << 24))
    it.run(["session"], (3, replies, b"refused: too many messages\n"), source)
    source.write_bytes(bytes([4, 0]) * (1 << 24))
    it.run(["session"], (0, replies, b""), source)


# frames


@case("frames", "frames of each greatest and least length")
def frame_lengths(it):
    it.create(SMALL)
    it.run(["ingest"], refused("bad name"), number(2, 0))
    it.run(["ingest"], refused("bad name"), number(2, 256) + bytes(300))
    it.run(["ingest"], refused("bad name"), number(2, 65535))
    for name in (b"a", long_name(2)):
        line = b"stored 0 0 " + EMPTY.encode() + b" " + name + b"\nend 1\n"
        it.run(["ingest"], (0, line, b""), frame(name, 0, b""))
    it.run(["ingest"], (0, b"end 0\n", b""))
    content = it.source(16 * LIMIT).read_bytes()
    it.run(["ingest"], refused("full at 0 nodes"), frame(b"more", len(content) + 1, content + b"x"))
    line = f"stored {LIMIT} {len(content)} {hashlib.sha256(content).hexdigest()} all\nend 1\n".encode()
    it.run(["ingest"], (0, line, b""), frame(b"all", len(content), content))
    it.run(["ingest"], refused(f"full at {LIMIT} nodes"), frame(b"more", 1, b"x"))


# words


def all_peeled(out, count):
    counts = first_lines(out, 4)[3]
    return None if counts == f"counts {count} {count} 0 0".encode() and lines_of(out) == count + 4 else f"{counts!r}"


@case("words", "a drill of 65,536 nodes")
def greatest_drill(it):
    it.run(["drill", "1", "1", "0", "65537"], NO_COMMAND)
    it.run(["drill", "3", "16", "64", "65536"], (0, lambda out: all_peeled(out, 0), b""))
    it.run(["drill", "3", "16", "64", "65536"], (0, lambda out: all_peeled(out, 1), b""), b"d65536\n")
    it.run(["drill", "3", "16", "64", "65536"], refused("bad block at line 1"), b"d65537\n")


@case("words", "drills of 4,194,304 bytes and one more, and of all blocks", 5)
def greatest_lists(it):
    text = b"d1\n" * (4194304 // 3) + b"d"
    it.run(["drill", "1", "1", "0", "2"], refused(f"bad block at line {4194304 // 3 + 1}"), text)
    it.run(["drill", "1", "1", "0", "2"], refused("input too long"), text + b"1")
    it.run(["drill", "1", "1", "0", "2"], (0, lambda out: all_peeled(out, 1), b""), b"d1\n" * (4194304 // 3))
    listed = b"".join(text_of(k, 4).encode() + b"\n" for k in range(4 * LIMIT))
    it.run(["drill", "3", "2", "5", "65536"], (1, lambda out: None if lines_of(out) == 4 * LIMIT + 4 else "too few lines", b""), listed)


@case("words", "rehearsals of 1 and 2,000 nodes", 5)
def greatest_rehearsals(it):
    for words in (["0", "2001", "0"], ["0", "0", "0"], ["0", "1", "1001"], [str(1 << 64), "1", "0"]):
        it.run(["rehearse", *words], NO_COMMAND)
    top = str((1 << 64) - 1)
    it.run(["rehearse", top, "1", "1000"], (1, b"nodes 1 blocks 4 damaged 4 peeled 0 solved 0 lost 4 accepted\n", b""))
    it.run(["rehearse", top, "2000", "1000"], (1, b"nodes 2000 blocks 8000 damaged 8000 peeled 0 solved 0 lost 8000 accepted\n", b""))
    it.run(["rehearse", "0", "2000", "0"], (0, b"nodes 2000 blocks 8000 damaged 0 peeled 0 solved 0 lost 0 accepted\n", b""))
