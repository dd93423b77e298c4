"""A session of many uploads over a plain archive (`plain_archive.py`), by docs/FORMATS.md: what it is told, what it replies, and what it
leaves; and messages by chance. `bench/torture` and the two scripts of power cuts take sessions from here. It is no program by itself."""

import hashlib

from plain_archive import is_name, number

OPEN, CHUNK, CLOSE, ABORT, READ, PATROL = range(1, 7)
SLOTS, GREATEST_CHUNK, GREATEST_PATROL, MOST_OBJECTS = 16, 65536, 4096, 65536
NO_NAMES = [b"", b"\x00", b"a\nb", b"\x7f", b"\xff\xfe", b"\xed\xa0\x80", b"\xe4\xb8", b"a" * 256, b"a" * 65535]


class Machine:
    """A session over a plain archive, of which these blocks are damaged: the messages so far, as `source`, and the replies to them."""

    def __init__(self, plain, damaged):
        # the archive with what was woven since the last close
        self.now, self.damaged, self.recorded = plain.copy(), set(damaged), plain.nodes
        self.slots = {}
        # the archive at first and after each close, and what each of these stored
        self.states, self.objects = [plain], []
        self.source, self.replies = b"", []

    def answer(self, kind, fields, code, body=b"", is_stored=False):
        self.source += bytes([kind]) + fields
        self.replies.append((bytes([kind, code]) + body, is_stored))
        return code

    # the messages

    def open(self, slot, name):
        fields = bytes([slot]) + number(2, len(name)) + name
        if slot >= SLOTS:
            return self.answer(OPEN, fields, 1)
        if slot in self.slots:
            return self.answer(OPEN, fields, 2)
        if not is_name(name):
            return self.answer(OPEN, fields, 4)
        if name in self.now.objects:
            return self.answer(OPEN, fields, 5)
        if any(other == name for other, _, _ in self.slots.values()):
            return self.answer(OPEN, fields, 6)
        self.slots[slot] = name, b"", []
        return self.answer(OPEN, fields, 0)

    def without(self, slot):
        """The code where no upload is in the slot, or 0."""
        return 1 if slot >= SLOTS else 0 if slot in self.slots else 3

    def is_full(self, more):
        return self.now.nodes + more > self.now.limit

    def chunk(self, slot, piece):
        fields, block = bytes([slot]) + number(4, len(piece)) + piece, self.now.block
        if self.without(slot):
            return self.answer(CHUNK, fields, self.without(slot))
        name, content, nodes = self.slots[slot]
        filled, content = len(content) // block, content + piece
        if self.is_full(len(content) // block - filled):
            return self.answer(CHUNK, fields, 7, number(4, self.now.nodes))
        self.slots[slot] = name, content, nodes + [self.weave(content[k * block:(k + 1) * block]) for k in range(filled, len(content) // block)]
        return self.answer(CHUNK, fields, 0)

    def weave(self, payload):
        self.now.weave(payload)
        return self.now.nodes

    def close(self, slot):
        fields, block = bytes([slot]), self.now.block
        if self.without(slot):
            return self.answer(CLOSE, fields, self.without(slot))
        if len(self.now.objects) == MOST_OBJECTS:
            return self.answer(CLOSE, fields, 8)
        name, content, nodes = self.slots[slot]
        rest = content[len(content) // block * block:]
        if rest and self.is_full(1):
            return self.answer(CLOSE, fields, 7, number(4, self.now.nodes))
        if rest:
            nodes = nodes + [self.weave(rest.ljust(block, b"\x00"))]
        self.now.add_woven(name, content, nodes, self.recorded)
        del self.slots[slot]
        self.recorded = self.now.nodes
        self.states.append(self.now)
        self.objects.append((name, content))
        self.now = self.now.copy()
        return self.answer(CLOSE, fields, 0, number(4, len(nodes)) + number(8, len(content)) + hashlib.sha256(content).digest(), True)

    def abort(self, slot):
        code = self.without(slot)
        if not code:
            del self.slots[slot]
        return self.answer(ABORT, bytes([slot]), code)

    def read(self, name):
        fields = number(2, len(name)) + name
        if name not in self.now.objects:
            return self.answer(READ, fields, 9)
        content, nodes = self.now.objects[name]
        data = ((node - 1) * self.now.classes for node in nodes)
        first = next((k for k in data if k in self.damaged), None)
        if first is not None:
            return self.answer(READ, fields, 10, number(4, first))
        return self.answer(READ, fields, 0, number(8, len(content)) + content)

    def patrol(self, first, count):
        fields = number(4, first) + number(4, count)
        if not 1 <= count <= GREATEST_PATROL or first + count > self.recorded * self.now.classes:
            return self.answer(PATROL, fields, 11)
        damaged = [k for k in range(first, first + count) if k in self.damaged]
        return self.answer(PATROL, fields, 0, number(4, len(damaged)) + b"".join(number(4, k) for k in damaged))

    def store(self, name, content, slot=0):
        """Stores an object by the messages for it alone."""
        self.open(slot, name)
        for at in range(0, len(content), GREATEST_CHUNK):
            self.chunk(slot, content[at:at + GREATEST_CHUNK])
        self.close(slot)

    # what comes of them

    def out(self):
        return b"".join(reply for reply, _ in self.replies)

    def lines(self):
        """The replies that tell of an object that is stored."""
        return [reply for reply, is_stored in self.replies if is_stored]

    def said(self, out):
        """What of these stands in a first part of the output."""
        return said_of(self.replies, out)

    # messages by chance

    def slot_by_chance(self, chance, with_upload):
        fitting = [slot for slot in range(SLOTS) if (slot in self.slots) == with_upload]
        if chance.random() < 0.1 or not fitting:
            return chance.choice([chance.randrange(SLOTS), chance.randrange(SLOTS), chance.randrange(16, 256)])
        return chance.choice(fitting)

    def name_by_chance(self, chance, fresh):
        """A name: mostly a fresh one, by this call."""
        open_names = [name for name, _, _ in self.slots.values()]
        what = chance.random()
        if what < 0.06 and self.now.objects:
            return chance.choice(list(self.now.objects))
        if what < 0.12 and open_names:
            return chance.choice(open_names)
        return chance.choice(NO_NAMES) if what < 0.18 else fresh()

    def message_by_chance(self, chance, fresh, content):
        """A message: `fresh()` gives a name that no object has, and `content()` some bytes of an object."""
        what = chance.choices(range(1, 7), [25, 40, 12, 4, 11, 8])[0]
        if what == OPEN:
            self.open(self.slot_by_chance(chance, False), self.name_by_chance(chance, fresh))
        elif what == CHUNK:
            self.chunk(self.slot_by_chance(chance, True), content()[:GREATEST_CHUNK])
        elif what == CLOSE:
            self.close(self.slot_by_chance(chance, True))
        elif what == ABORT:
            self.abort(self.slot_by_chance(chance, True))
        elif what == READ:
            known = list(self.now.objects)
            self.read(chance.choice(known) if known and chance.random() < 0.7 else self.name_by_chance(chance, fresh))
        else:
            blocks = self.recorded * self.now.classes
            first = chance.randrange(blocks + 1)
            odd = [(first, 0), (0, GREATEST_PATROL + 1), (blocks, 1), ((1 << 32) - 1, (1 << 32) - 1)]
            self.patrol(*(chance.choice(odd) if chance.random() < 0.3 else (first, chance.randrange(1, min(blocks - first, GREATEST_PATROL) + 2))))

    def end_by_chance(self, chance):
        """How the input ends, which is added to it: the status, and the line on standard error."""
        at, what = len(self.source), chance.random()
        if what < 0.1:
            self.source += bytes([chance.choice([0, 7, 255])]) + chance.randbytes(chance.randrange(20))
            return 3, f"refused: bad message at {at}\n".encode()
        if what < 0.15:
            self.source += bytes([CHUNK, chance.randrange(20)]) + number(4, chance.choice([65537, (1 << 32) - 1])) + chance.randbytes(chance.randrange(20))
            return 3, f"refused: bad message at {at + 2}\n".encode()
        if what < 0.3:
            whole = chance.choice([bytes([CLOSE, 0]), bytes([CHUNK, 0]) + number(4, 20) + bytes(20), bytes([OPEN, 0]) + number(2, 3) + b"abc",
                                   bytes([READ]) + number(2, 300) + bytes(300), bytes([PATROL]) + bytes(8)])
            self.source += whole[:chance.randrange(1, len(whole))]
            return 3, f"refused: bad stream at {len(self.source)}\n".encode()
        return 0, b""


def said_of(replies, out):
    """What stands in a first part of the output of the replies that tell of an object that is stored."""
    said = b""
    for reply, is_stored in replies:
        if is_stored:
            said += out[:len(reply)]
        out = out[len(reply):]
    return said
