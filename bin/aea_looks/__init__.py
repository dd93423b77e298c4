"""What bin/look says: common to all of its calls. Changes nothing."""

import sys

import aea_formats as formats


class WrongInput(Exception):
    """An input is not what it should be: status 2."""


class NoLedger(Exception):
    """There is no ledger here by which a command could go: status 3."""


def tell(line):
    print(line, file=sys.stderr)


def count_with_commas(count):
    return f"{count:,}"


def one_line(name):
    """A name as it may stand in a line."""
    return name.replace(b"\n", b"\\n")


def print_name(before, name):
    sys.stdout.flush()
    sys.stdout.buffer.write(before.encode() + one_line(name) + b"\n")
    sys.stdout.buffer.flush()


def archive_here():
    try:
        return formats.Archive(".")
    except formats.NotThere as why:
        raise NoLedger(why) from None
    except formats.Bad as why:
        raise NoLedger(f"it is bad at {why.place}") from None
    except OSError as why:
        raise NoLedger(f"{why.filename}: {why.strerror}") from None
