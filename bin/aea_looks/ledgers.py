"""`look ledgers`, `names`, `log`, `mark` and `since`: what the ledger and its copies have, and whether the archive went back."""

import os
import re
import sys

import aea_formats as formats
from . import NoLedger, WrongInput, archive_here


def ledgers():
    """What the ledger and each copy have by themselves, and where they part."""
    begun, wrong, texts, there = [], False, {}, False
    for name in (formats.LEDGER, *formats.COPIES):
        line, text, is_wrong = look_at_ledger(name)
        there = there or not line.startswith(("missing", "no "))
        where = f" -> {os.readlink(name)}" if os.path.islink(name) else ""
        print(f"{name}{where}: {line}")
        wrong = wrong or is_wrong
        if text:
            texts[name] = text
        if name != formats.LEDGER and formats.is_copy_begun(bytes_of(name) or b""):
            begun.append(name)
    wrong = compare(texts, begun) or wrong
    print("copies are " + ("on" if begun else "off"))
    if not there:
        raise NoLedger("neither a ledger nor a copy of one is begun")
    return 1 if wrong or not texts else 0


def bytes_of(name):
    try:
        with open(name, "rb") as file:
            return file.read()
    except OSError:
        return None


def look_at_ledger(name):
    """What to say of one of the three files, its text if it is whole, and whether something is wrong."""
    is_copy = name != formats.LEDGER
    try:
        with open(name, "rb") as file:
            bytes = file.read()
    except FileNotFoundError:
        return "missing", b"", not is_copy or os.path.islink(name)
    except OSError as why:
        return f"can't be read: {why.strerror}; each command ends with status 4", b"", True
    if not is_copy:
        return look_at_text(bytes)
    if not formats.is_copy_begun(bytes):
        return f"no copy, {len(bytes)} bytes", b"", False
    text, bad = formats.judge_copy(bytes)
    line, whole, is_wrong = look_at_text(text + b"\0")
    if bad is not None:
        return f"BAD at {bad}; before it {line}", b"", True
    return line, whole, is_wrong


def look_at_text(bytes):
    try:
        ledger = formats.Ledger(bytes, lenient=True)
    except formats.NotThere:
        return f"no ledger, {len(bytes)} bytes", b"", True
    except formats.Bad as why:
        return f"BAD at {why.place}", b"", True
    about = f"{len(ledger.objects)} objects, {ledger.nodes} nodes, {ledger.end} bytes, seal {ledger.seal()[:16]}"
    if ledger.bad is not None:
        return f"BAD at {ledger.bad}; before the gate at {ledger.end}: {about}", b"", True
    behind = ledger.records_behind()
    if behind:
        about += f"; behind the gate at {ledger.end}: {behind} more record{'s' * (behind > 1)}"
    if behind > 1:
        about += ", so the ledger WENT BACK: write nothing; manual, \"undo\""
    return about, ledger.text, behind > 1


def compare(texts, begun):
    """Says where the texts part, or which one has less; whether they differ."""
    longest = max(texts.values(), key=len, default=b"")
    for name, text in texts.items():
        if not longest.startswith(text):
            place = next(at for at in range(len(text)) if text[at] != longest[at])
            print(f"{name} and the longest one part at byte {place}: keep all three, and see which one the cells fit")
        elif len(text) < len(longest):
            print(f"{name} has less than the longest one; the next command goes by " + ("the copies" if begun else "ledger.aea"))
    return any(text != longest for text in texts.values())


def names():
    """The names of the objects, in the order of their bytes."""
    for name in sorted(it.name for it in archive_here().ledger.objects):
        sys.stdout.buffer.write(name + b"\n")
    return 0


def log():
    """The lines that the commands printed by which the ledger came about: from them `salvage` makes it again."""
    for line in formats.lines_of(archive_here().ledger):
        sys.stdout.buffer.write(line + b"\n")
    return 0


def mark():
    archive = archive_here()
    ledger = archive.ledger
    print(f"aea-mark {ledger.end} {ledger.seal()} nodes {ledger.nodes} objects {len(ledger.objects)} copies {len(archive.copies)}")
    return 0


def read_mark(path):
    try:
        with open(path, "rb") as file:
            text = file.read(4096).decode("ascii", "replace")
    except OSError as why:
        raise WrongInput(f"{path}: {why.strerror}") from None
    match = re.fullmatch(r"aea-mark (\d+) ([0-9a-f]{64}) nodes (\d+) objects (\d+) copies ([0-2])\n", text)
    if not match:
        raise WrongInput(f"{path} is no mark")
    return int(match[1]), match[2], int(match[4]), int(match[5])


def since(path):
    """Whether the ledger by which the next command goes begins as it did at the mark."""
    end, seal, objects, copies = read_mark(path)
    archive = archive_here()
    ledger, there, status = archive.ledger, len(archive.copies), 0
    if ledger.end < end or ledger.seal(end) != seal:
        print(f"the next command GOES BACK, or works on another archive: there were {objects} objects, and it would see {len(ledger.objects)}")
        status = 1
    if not there and copies:
        print(f"the copies are off: there were {copies}; `aea copies` begins them")
        status = 1
    elif there < copies:
        print(f"there were {copies} copies, and there is {there}: the next command makes the other one")
    if not status:
        print(f"all is there that was there then, and {len(ledger.objects) - objects} objects more")
    return status
