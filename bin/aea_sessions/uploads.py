"""Files that become objects over a session, up to sixteen at once."""

import errno
import hashlib
import json
import os
import stat
import subprocess

from aea_formats import RAISED
from . import Ended, Failed, NoOutput, Stopped, TooMany, path_below, print_line, tell

SLOTS, PIECE = 16, 65536


class Nodes:
    """How many nodes are left of an upgraded archive beside those of the files that are open; all where `stat` does not say it."""

    def __init__(self, program):
        self.block, self.left, self.used = 1, None, 0
        said = subprocess.run([program, "stat"], stdin=subprocess.DEVNULL, stdout=subprocess.PIPE, stderr=subprocess.DEVNULL)
        try:
            about = json.loads(said.stdout)
            self.block, self.left = int(about["block"]), RAISED - int(about["nodes"])
        except (ValueError, KeyError, TypeError):
            pass

    def of(self, length):
        return -(-length // self.block)

    def take(self, length):
        """Takes the nodes of a file of this length."""
        if self.left is not None and self.of(length) > self.left:
            raise Failed(f"refused: full at {RAISED - self.left} nodes")
        self.give(-self.of(length))

    def give(self, count):
        if self.left is not None:
            self.left += count


class Upload:
    """A file that is stored in a slot."""

    def __init__(self, session, nodes, slot, path, name):
        self.session, self.nodes, self.slot, self.name, self.hash = session, nodes, slot, name, hashlib.sha256()
        self.is_closing, self.is_other = False, False
        try:
            # a pipe or a device would let it wait
            self.file = os.open(path, os.O_RDONLY | os.O_NONBLOCK)
        except OSError as why:
            too_many = why.errno in (errno.EMFILE, errno.ENFILE)
            raise (TooMany if too_many else Failed)(f"not read: {why.strerror}:") from None
        try:
            about = os.fstat(self.file)
            if not stat.S_ISREG(about.st_mode):
                raise Failed("not read: not a file:")
            self.length = self.left = about.st_size
            nodes.take(self.length)
            try:
                session.open(slot, name)
            except Failed:
                nodes.give(nodes.of(self.length))
                raise
        except BaseException:
            os.close(self.file)
            raise

    def go_on(self):
        """Sends the next piece. Behind the last one it stores the object, and gives its line."""
        if self.left:
            piece = self.next_piece()
            self.left -= len(piece)
            self.hash.update(piece)
            self.session.chunk(self.slot, piece)
            return None
        self.is_closing = True
        nodes, length, digest = self.session.close(self.slot)
        self.is_closing = False
        self.is_other = (length, digest) != (self.length, self.hash.hexdigest())
        return f"stored {nodes} {length} {digest} ".encode() + self.name + b"\n"

    def drop(self):
        """Drops it. The nodes that it filled are used."""
        self.nodes.give(self.nodes.of(self.length) - (self.length - self.left) // self.nodes.block)
        self.session.abort(self.slot)

    def next_piece(self):
        try:
            piece = os.read(self.file, min(self.left, PIECE))
        except OSError as why:
            raise Failed(f"not read: {why.strerror}:") from None
        if not piece:
            raise Failed("not read: it has become shorter:")
        return piece


class Uploads:
    """Files that are stored, up to sixteen at once, each a piece in its turn."""

    def __init__(self, session, nodes, folder, names):
        self.session, self.nodes, self.folder = session, nodes, folder
        self.waiting, self.running, self.whole = names[::-1], {}, True

    def failed(self, why, name):
        self.whole = False
        tell(str(why), name)

    def begin(self):
        """Begins files while there are slots."""
        while self.waiting and len(self.running) < SLOTS:
            name, slot = self.waiting[-1], next(it for it in range(SLOTS) if it not in self.running)
            try:
                self.running[slot] = Upload(self.session, self.nodes, slot, path_below(self.folder, name), name)
            except Failed as why:
                if isinstance(why, TooMany) and self.running:
                    # when one of those that are open is stored
                    return
                self.failed(why, name)
            self.waiting.pop()

    def turn(self, slot, upload):
        """Lets a file have its turn."""
        line = None
        try:
            line = upload.go_on()
            if not line:
                return
        except Failed as why:
            self.failed(why, upload.name)
            upload.drop()
        os.close(upload.file)
        del self.running[slot]
        if upload.is_other:
            self.failed("stored with other bytes than were read:", upload.name)
        if line:
            print_line(line)

    def all(self):
        """Stores all, and says whether nothing failed."""
        try:
            while self.waiting or self.running:
                self.begin()
                for slot, upload in list(self.running.items()):
                    self.turn(slot, upload)
        except (Ended, NoOutput, Stopped):
            self.tell_of_the_rest()
            raise
        return self.whole

    def tell_of_the_rest(self):
        """Says what is left where all ends before it is done."""
        closing = [upload.name for upload in self.running.values() if upload.is_closing]
        left = len(self.waiting) + len(self.running) - len(closing)
        for name in closing:
            tell("stored or not, which `aea list` says:", name)
        if left:
            tell(f"{left} {'file was' if left == 1 else 'files were'} not stored")


def files_below(folder):
    """The names of all files below a folder, and whether each folder there could be read."""
    names, faults = [], []
    for place, _, files in os.walk(folder, onerror=faults.append):
        for file in files:
            path = os.path.join(place, file)
            if os.path.isfile(path) and not os.path.islink(path):
                names.append(os.path.relpath(path, folder))
    for fault in faults:
        tell(f"not read: {fault.strerror}:", fault.filename)
    return sorted(names), not faults
