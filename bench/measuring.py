"""What the scripts of bench/ share: which build of `aea` is tried, what else is compiled, rooms for files, archives by chance, how a
run is measured and how its calls of the system are listed, tables, and how a script ends. It is no program by itself. What an
archive is, by docs/FORMATS.md, stands in plain_archive.py.

A script says `sys.dont_write_bytecode = True` before it imports one of the two, so that nothing compiled is left in bench/."""

import contextlib
import filecmp
import os
import random
import re
import shutil
import signal
import statistics
import subprocess
import sys
import tempfile
from pathlib import Path

from plain_archive import COPIES, LEDGER, LIMIT, home_of, site_file

TOP = Path(__file__).resolve().parent.parent
SEED = 20181
# an edit of the sources by which the cells of blocks stand on other sites than the formats say, for `program_without`
OTHER_SITES = "crates/aea_place/src/homes.rt", "    let column = k % count;", "    let column = (k + 1) % count;"


# what is tried, and what it takes


def need(*commands):
    """Ends the script with status 77 where one of these commands is not on the path."""
    missing = [it for it in commands if not shutil.which(it)]
    if missing:
        print(f"bench/{Path(sys.argv[0]).name} can't run: not on the path: {', '.join(missing)}", file=sys.stderr)
        sys.exit(77)


def chosen_program(words):
    """The build of `aea` that the first of these words names; without a word the proved one, which is made where it is not there."""
    if words:
        return str(Path(words[0]).resolve())
    subprocess.run([TOP / "bin/prove"], check=True)
    return str(TOP / "out/aea")


def program_without(room, *edits):
    """A program that is compiled without proofs from these sources, of which some texts are others: each edit is a file, what stands there
    once, and what is to stand there. It shows that a script finds what the program would do wrong without that."""
    copy = Path(tempfile.mkdtemp(dir=room))
    for part in ("crates", "bin"):
        shutil.copytree(TOP / part, copy / part, ignore=shutil.ignore_patterns("out"))
    shutil.copy(TOP / "crates.txt", copy)
    for name, old, new in edits:
        text = (copy / name).read_text()
        if text.count(old) != 1:
            sys.exit(f"{name} has {text.count(old)} times: {old}")
        (copy / name).write_text(text.replace(old, new))
    subprocess.run([copy / "bin/aea", "no", "command"], cwd=room, stdin=subprocess.DEVNULL, stdout=subprocess.DEVNULL, stderr=subprocess.DEVNULL)
    return str(copy / "out/trial")


def number_at(words, place, otherwise):
    """The word at this place as a number, or another number where there are fewer words."""
    return int(words[place]) if len(words) > place else otherwise


def called():
    """The words of the call: whether one seed is to be tried, the minutes, the seed, and the program or none."""
    words = sys.argv[1:]
    one = words[:1] == ["--one"]
    if one:
        words = ["0", *words[1:]]
        if len(words) < 2:
            sys.exit("which seed?")
    return one, float(words[0]) if words else 1, words[1] if len(words) > 1 else os.urandom(4).hex(), words[2] if len(words) > 2 else None


def compiled(room, name):
    """Compiles a Rust program of bench/ into a room, and gives its path."""
    path = f"{room}/{name}"
    subprocess.run(["rustc", "-O", "-o", path, TOP / f"bench/{name}.rs"], check=True)
    return path


def call_bench(name="aea_gauss_bench", *words):
    """The program of this crate, which runs calls of lower crates by themselves; it is proved and compiled first, and run once with
    these words in the folder of its crate."""
    crate = TOP / f"crates/{name}"
    subprocess.run(["rt", "run", "--", *(words or ("fill", "1", "64"))], cwd=crate, stdout=subprocess.DEVNULL, check=True)
    return str(crate / f"out/{name}")


def library(room, name):
    """Compiles a C file of bench/ into a library that is loaded before a program, and gives its path."""
    path = f"{room}/{name}.so"
    subprocess.run(["cc", "-shared", "-fPIC", "-O1", "-o", path, TOP / f"bench/{name}.c"], check=True)
    return path


# rooms


@contextlib.contextmanager
def new_room(place=None):
    """A new folder below this one, or below that for temporary files (`TMPDIR`), that is named after the script. It is removed at the
    end, also where the script is ended by SIGTERM or SIGHUP."""
    for ending in (signal.SIGTERM, signal.SIGHUP):
        signal.signal(ending, lambda which, _: sys.exit(128 + which))
    with tempfile.TemporaryDirectory(prefix=f"{Path(sys.argv[0]).name}-", dir=place) as folder:
        yield folder


@contextlib.contextmanager
def rooms():
    """A room in memory, and one on a disk."""
    with new_room("/dev/shm") as memory, new_room() as disk:
        yield memory, disk


def roomy_place(size):
    """The folder in memory where it has so many bytes left, or else none."""
    memory = Path("/dev/shm")
    return memory if memory.is_dir() and os.access(memory, os.W_OK) and shutil.disk_usage(memory).free > size else None


# runs


class Runs:
    """What the runs of one program took, on one thing: processor seconds, that of the system for it among them, and KiB of memory, of
    the whole process."""

    def __init__(self):
        self.all_seconds, self.all_memory = [], []

    def add(self, ran):
        seconds, memory = ran
        self.all_seconds.append(seconds)
        self.all_memory.append(memory)

    @property
    def seconds(self):
        """The least time of a run."""
        return min(self.all_seconds, default=float("inf"))

    @property
    def middle(self):
        """The middle of the times."""
        return statistics.median(self.all_seconds)

    @property
    def memory(self):
        """The most memory of a run."""
        return max(self.all_memory, default=0)

    @property
    def least_memory(self):
        return min(self.all_memory, default=sys.maxsize)


class Programs:
    """A build of `aea`, the plain Rust program beside it where there is one, and how a run of either is measured, by measure.rs."""

    def __init__(self, room, aea, plain=None):
        self.aea, self.measure = aea, compiled(room, "measure")
        self.plain = compiled(room, plain) if plain else None

    def measured(self, words, folder, stdin=os.devnull, stdout=os.devnull, runs=1, most_status=0):
        """The least processor seconds of so many runs, their most memory in KiB, and the greatest status, which may be so much."""
        call = [self.measure, str(runs), stdin, stdout, *words]
        ran = subprocess.run(call, cwd=folder, capture_output=True, text=True, check=True)
        seconds, memory, status = ran.stdout.split()
        if int(status) > most_status:
            sys.exit(f"{words} ended with status {status}: {ran.stderr}")
        return float(seconds), int(memory), int(status)

    def run(self, words, folder, stdin=os.devnull, stdout=os.devnull, runs=1, most_status=0):
        """The least processor seconds of so many runs, and their most memory in KiB."""
        return self.measured(words, folder, stdin, stdout, runs, most_status)[:2]

    def make_archive(self, folder, shape, raised=False):
        """Makes a folder and an archive of this shape in it, with a raise of the limit or without."""
        folder.mkdir()
        self.run([self.aea, "create", *map(str, shape)], folder)
        if raised:
            self.run([self.aea, "upgrade"], folder)

    def make_filled_archive(self, folder, shape, size, raised=False):
        """Makes an archive with one object by chance, of so many bytes, with a raise of the limit also where it needs one. The file
        with these bytes is given, and stands in its folder."""
        self.make_archive(folder, shape, raised or -(-size // shape[3]) > LIMIT)
        source = folder / "source"
        fill(source, size)
        self.run([self.aea, "put", "object"], folder, source)
        return source


def traced(words, folder, calls=None, stdin=subprocess.DEVNULL, stdout=subprocess.PIPE):
    """Runs a program by strace. Gives how it ended, and its calls of the system, or those with these names, a line each: with the
    paths of open files, with no bytes, and without the number of the process."""
    log = f"{folder}.calls"
    some = ["--seccomp-bpf", "-e", f"trace={calls}"] if calls else []
    call = ["strace", "-f", "-y", "-s", "0", *some, "-o", log, *words]
    ran = subprocess.run(call, cwd=folder, stdin=stdin, stdout=stdout, stderr=subprocess.PIPE)
    lines = [re.sub(r"^\d+ +", "", line) for line in Path(log).read_text().splitlines()]
    Path(log).unlink()
    return ran, lines


# files


def lay(folder, files):
    """Puts files into a folder, by their names, and the folders below it that they need."""
    for name, content in files.items():
        path = Path(folder) / name
        path.parent.mkdir(exist_ok=True)
        path.write_bytes(content)


def lay_ledgers(folder, files):
    """Puts the ledger and its copies into a folder as they are among these files, and takes those away that are not."""
    for name in (LEDGER, *COPIES):
        (Path(folder) / name).unlink(missing_ok=True)
    lay(folder, {name: files[name] for name in (LEDGER, *COPIES) if name in files})


def bytes_read(words, folder):
    """What a run prints, and how many bytes it reads, by the system's count."""
    child = subprocess.Popen(words, cwd=folder, stdin=subprocess.DEVNULL, stdout=subprocess.PIPE)
    printed = child.stdout.read()
    os.waitid(os.P_PID, child.pid, os.WEXITED | os.WNOWAIT)
    counts = Path(f"/proc/{child.pid}/io").read_text()
    child.wait()
    return printed, int(counts.split("rchar: ")[1].split()[0])


def fill(path, size):
    """Makes a file of so many bytes by chance."""
    chance = random.Random(SEED)
    with open(path, "wb") as it:
        for first in range(0, size, 1 << 24):
            it.write(chance.randbytes(min(1 << 24, size - first)))


def rot(folder, shape, nodes, permille, first_node=1):
    """Changes a byte in so many of a thousand cells, by chance, of this node and later ones. Gives the numbers of their blocks."""
    classes, sites, size = 1 + shape[0], shape[4], shape[3] + 48
    chance, numbers = random.Random(SEED), range((first_node - 1) * classes, nodes * classes)
    damaged = sorted(chance.sample(numbers, len(numbers) * permille // 1000))
    files = {site: open(folder / site_file(site), "r+b", buffering=0) for site in range(1, sites + 1)}
    for k in damaged:
        site, place = home_of(k, sites, size)
        place += chance.randrange(size)
        byte = os.pread(files[site].fileno(), 1, place)[0]
        os.pwrite(files[site].fileno(), bytes([byte ^ chance.randrange(1, 256)]), place)
    for file in files.values():
        file.close()
    return damaged


def unlike(ours, theirs, sites):
    """The first file of two archives on so many sites that differs, or none."""
    names = ["ledger.aea", *(site_file(site) for site in range(1, sites + 1))]
    return next((name for name in names if not filecmp.cmp(ours / name, theirs / name, shallow=False)), None)


# what is printed


def least_to_most(counts):
    """The least and the most of some counts, or the one that all of them are."""
    least, most = min(counts, default=0), max(counts, default=0)
    return f"{least}" if least == most else f"{least} to {most}"


def show_table(head, rows):
    """Prints a table: the line of its head, and each row as soon as it is made."""
    print(head)
    print("|" + "---|" * (head.count("|") - 1), flush=True)
    for row in rows:
        print(row, flush=True)


def rows_of(pairs, failures):
    """The row of each pair of a row and what is wrong with it, which is added to the failures."""
    for row, wrong in pairs:
        failures += wrong
        yield row


def end(count, what="failures"):
    """Ends a script with the number of its failures; the status is 0 only where there are none."""
    print(f"{count} {what}")
    sys.exit(1 if count else 0)


def tell_and_end(failures, what="failures"):
    """Prints the failures, and ends the script."""
    print()
    for failure in failures:
        print(failure)
    end(len(failures), what)
