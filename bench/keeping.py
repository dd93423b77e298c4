"""Keeps the result of a run of a script as one small file in bench/results/, and prints how far a run is. It is no program by itself.

A result file is JSON: which script it was and its words, the day and time at which it began, the machine, how many processors it has, the
commit of the sources and whether files differed from it, the SHA-256 of the program that was tried, the seconds of the run, the number of
failures, the lines of the result, and of each failure a line and its seed. A later run of the same name replaces the file. `AEA_RESULTS` is
another folder for these files, or the word `none`, and then no file is written.

It does not show that the program was proved: that is told by the sum of the program (`bin/prove`)."""

import hashlib
import json
import os
import platform
import subprocess
import sys
import time
from datetime import datetime, timezone
from pathlib import Path

TOP = Path(__file__).resolve().parent.parent


def said(*words):
    """What a command prints in this checkout, or nothing where it can't be run."""
    try:
        return subprocess.run(words, cwd=TOP, capture_output=True, text=True).stdout.strip()
    except OSError:
        return ""


def processor():
    """The name of the processor, as far as the system says it."""
    try:
        lines = Path("/proc/cpuinfo").read_text().splitlines()
    except OSError:
        lines = []
    return next((line.split(":", 1)[1].strip() for line in lines if line.startswith("model name")), platform.processor() or "unknown")


def digest_of_file(path):
    """The SHA-256 of a file."""
    sum_, size = hashlib.sha256(), 1 << 20
    with open(path, "rb") as file:
        for piece in iter(lambda: file.read(size), b""):
            sum_.update(piece)
    return sum_.hexdigest()


def span(seconds):
    """A time in words: seconds, or minutes from two on."""
    return f"{seconds:.0f} s" if seconds < 120 else f"{seconds / 60:.0f} minutes"


class Kept:
    """The result of a run: its lines, its failures, and how far it is."""

    def __init__(self, name, program=None):
        self.name, self.program = name, program
        self.began, self.day = time.monotonic(), datetime.now(timezone.utc).strftime("%Y-%m-%d %H:%M UTC")
        self.lines, self.failures = [], []
        # the guesses of the parts that are left, in seconds
        self.left, self.done = {}, 0

    # how far it is

    def expect(self, guesses):
        """Says how many seconds each part of the run may take: pairs of a part and its guess."""
        self.left = dict(guesses)

    def progress(self, part):
        """Prints that a part begins, and when the run may end; what was done so far tells how good the guesses are."""
        took, rest = time.monotonic() - self.began, sum(self.left.values())
        self.expected = self.left.pop(part, 0)
        rate = took / self.done if self.done and took > 5 else 1
        print(f"[{span(took)}] {part}; about {span(rest * rate)} left", file=sys.stderr, flush=True)
        self.done += self.expected

    # what it has

    def line(self, text, shown=True):
        """Keeps a line of the result, and prints it."""
        self.lines.append(text)
        if shown:
            print(text, flush=True)

    def fail(self, text, seed=None):
        """Keeps a failure with its seed, and prints it."""
        self.failures.append({"what": text, "seed": seed} if seed is not None else {"what": text})
        print(f"FAILED {text}" + (f" (seed {seed})" if seed is not None else ""), flush=True)

    def contents(self):
        """What the result file has."""
        return {
            "script": self.name, "words": sys.argv[1:], "began": self.day, "seconds": round(time.monotonic() - self.began, 1),
            "machine": platform.platform(), "processor": processor(), "processors": os.cpu_count(),
            "commit": said("git", "rev-parse", "HEAD"), "differs": bool(said("git", "status", "--porcelain", "--", "crates", "bin", "bench", ":!bench/results")),
            "program": digest_of_file(self.program) if self.program else None,
            "failures": self.failures, "lines": self.lines,
        }

    def write(self):
        """Writes the result file, and gives its path, or none."""
        folder = os.environ.get("AEA_RESULTS", TOP / "bench/results")
        if folder == "none":
            return None
        folder = Path(folder)
        folder.mkdir(parents=True, exist_ok=True)
        path, new = folder / f"{self.name}.json", folder / f".{self.name}.new"
        new.write_text(json.dumps(self.contents(), indent=1, ensure_ascii=False) + "\n")
        new.replace(path)
        return path

    def end(self):
        """Writes the result file, prints the number of failures and ends the script; the status is 0 only where there are none."""
        path = self.write()
        if path:
            print(f"result: {path}")
        print(f"{len(self.failures)} failures")
        sys.exit(1 if self.failures else 0)
