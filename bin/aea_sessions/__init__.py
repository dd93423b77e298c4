"""What bin/session is made of, beside its client of the messages: what may end it, and how it says a line."""

import os

CLOSED = set()


class Failed(Exception):
    """Something that was asked for was not done, for this reason; the others go on."""


class TooMany(Failed):
    """So many files can't be open at once."""


class Ended(Exception):
    """The program ended, or gives replies that are none."""


class NoOutput(Exception):
    """What is stored can't be told."""


class Stopped(Exception):
    """A signal ended it."""


def write_all(file, bytes):
    left = memoryview(bytes)
    while left:
        left = left[os.write(file, left):]


def tell(line, name=b""):
    """Says a line on standard error, where there is one."""
    try:
        write_all(2, line.encode() + (b" " if name else b"") + name + b"\n")
    except OSError:
        pass


def print_line(line):
    try:
        if 1 in CLOSED:
            raise OSError
        write_all(1, line)
    except OSError:
        raise NoOutput from None


def path_below(folder, name):
    if name.startswith(b"/") or b".." in name.split(b"/"):
        raise Failed("its path leads out of the folder:")
    return os.path.join(folder, name)


def look_at_streams():
    """Notes which standard streams are closed, in `CLOSED`. What is opened later does not come in their place."""
    for number in range(3):
        try:
            os.fstat(number)
        except OSError:
            CLOSED.add(number)
            os.open(os.devnull, os.O_RDWR)
