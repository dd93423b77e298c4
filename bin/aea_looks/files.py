"""`look files`: whether each file below a folder is an object of the archive."""

import hashlib
import os
import stat

from . import WrongInput, archive_here, print_name


def digest_of_file(path):
    """The length and the SHA-256 of a file's bytes."""
    hash, length = hashlib.sha256(), 0
    with open(path, "rb") as file:
        while True:
            piece = file.read(1 << 20)
            if not piece:
                return length, hash.digest()
            length += len(piece)
            hash.update(piece)


def files(folder):
    """Whether each file below a folder is an object of its path, byte for byte."""
    objects = {it.name: (it.length, it.digest) for it in archive_here().ledger.objects}
    if not os.path.isdir(folder):
        raise WrongInput(f"not a folder: {folder}")
    counts = {"the same": 0, "missing": 0, "differs": 0, "not read": 0, "no file": 0, "empty": 0}
    look_below(os.fsencode(folder), b"", objects, counts)
    total = sum(counts[it] for it in ("the same", "missing", "differs", "not read"))
    print(f"files {total} the same {counts['the same']}")
    return 0 if total == counts["the same"] else 1


def look_below(folder, short, objects, counts):
    def say(word, name):
        counts[word] += 1
        if word != "the same":
            print_name(f"{word} ", name)
    try:
        names = sorted(os.listdir(os.path.join(folder, short)))
    except OSError as why:
        return say("not read", short + b": " + why.strerror.encode())
    if not names and short:
        say("empty", short + b"/")
    for name in names:
        path = os.path.join(short, name)
        place = os.path.join(folder, path)
        try:
            mode = os.lstat(place).st_mode
            if stat.S_ISDIR(mode):
                look_below(folder, path, objects, counts)
            elif not stat.S_ISREG(mode):
                say("no file", path)
            else:
                is_same = objects.get(path) == digest_of_file(place)
                say("the same" if is_same else "differs" if path in objects else "missing", path)
        except OSError as why:
            say("not read", path + b": " + why.strerror.encode())
