"""`look progress`: how far an `aea` that runs has come, by what the system says of its reads and writes."""

import os
import re
import stat
import time

import aea_formats as formats
from . import WrongInput, archive_here, count_with_commas

EVERY = 5


def progress(pid):
    """A line every five seconds, until the run ends."""
    if not pid.isdigit():
        raise WrongInput(f"not the number of a process: {pid}")
    try:
        words = words_of(pid)[1:]
        os.chdir(f"/proc/{pid}/cwd")
        count_of(pid, "rchar")
    except (OSError, ValueError, KeyError) as why:
        raise WrongInput(f"no process of that number can be looked at: {pid}: {getattr(why, 'strerror', why)}") from None
    if not words:
        raise WrongInput(f"that process has no command of aea: {pid}")
    archive = archive_here()
    command, began, first = words[0].decode("ascii", "replace"), time.monotonic(), None
    while True:
        try:
            done, total, more = state_of(archive, pid, words)
        except (OSError, ValueError, KeyError):
            print("it has ended")
            return 0
        first = done if first is None else first
        passed = time.monotonic() - began
        print(line_of(command, done, total, (done - first) / passed if passed else 0) + more, flush=True)
        time.sleep(EVERY)


def words_of(pid):
    """The words of a process; none if it has ended, and its parent does not know it."""
    with open(f"/proc/{pid}/cmdline", "rb") as file:
        return file.read().split(b"\0")[:-1]


def state_of(archive, pid, words):
    """How many bytes a run has read of cells, or of its input; of how many; and what else to say."""
    if not words_of(pid):
        raise ValueError
    if words[0] in (b"put", b"ingest", b"session"):
        return (*input_of(pid), "")
    ledgers = sum(len(archive.files[it] or b"") for it in (formats.LEDGER, *archive.copies))
    done, total = max(0, count_of(pid, "rchar") - ledgers), total_of(archive, words)
    if words[0] == b"repair" and done >= total:
        return total, total, f", {count_with_commas(count_of(pid, 'wchar'))} bytes written"
    return done, total, ""


def total_of(archive, words):
    """How many bytes of cells a command reads in all; None if that can't be said."""
    ledger = archive.ledger
    if words[0] in (b"scrub", b"verify", b"repair"):
        return ledger.blocks * ledger.homes.cell
    if words[0] in (b"get", b"fetch") and len(words) == 2:
        return 2 * sum(it.count for it in ledger.objects if it.name == words[1]) * ledger.homes.cell or None
    return None


def line_of(command, done, total, pace):
    of = count_with_commas
    if not total:
        return f"{command}: {of(done)} bytes, {of(int(pace))} a second"
    left = "" if pace <= 0 or done >= total else f", {of(int(pace))} a second, {of(int(max(0, total - done) / pace))} s left"
    return f"{command}: {of(done)} bytes of {of(total)}, {min(100, done * 100 // total)} %{left}"


def count_of(pid, what):
    """How many bytes a process has read (`rchar`) or written (`wchar`)."""
    with open(f"/proc/{pid}/io") as file:
        return int(dict(line.split(": ") for line in file.read().splitlines())[what])


def input_of(pid):
    """How many bytes of its input a process has read, and how many that is of a file."""
    with open(f"/proc/{pid}/fdinfo/0") as file:
        position = int(re.search(r"pos:\s*(\d+)", file.read())[1])
    about = os.stat(f"/proc/{pid}/fd/0")
    return (position, about.st_size) if stat.S_ISREG(about.st_mode) else (count_of(pid, "rchar"), None)
