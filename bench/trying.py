"""How bench/tools tries the tools around the program: rooms with a copy of them, of which a line may be broken, and cases with their
controls. It is no program by itself."""

import importlib.util
import os
import shutil
import signal
import stat
import subprocess
import sys
import tempfile
import time
from pathlib import Path

TOP = Path(__file__).resolve().parent.parent
TOOLS = ("frames", "guard", "look", "salvage", "scrub", "session")
MODULES = ("aea_formats", "aea_looks", "aea_sessions")
CASES = []
# a user who is not root
OTHER = 65534


def case(*controls):
    """A case, and the lines that are broken for it: a file, its text, and what stands for it."""
    def keep(function):
        CASES.append((function, controls))
        return function
    return keep


def unchanged(function):
    """A case in which the archive's files stay as they are from the moment at which `room.keep()` is called."""
    def tried(room):
        kept = []
        room.keep = lambda: kept.append(room.files())
        function(room)
        same(room.files(), kept[-1])
    tried.__name__ = function.__name__
    return tried


def same(got, wanted):
    if got != wanted:
        raise AssertionError(f"{got!r}\n    and not {wanted!r}")


def holds(what, said=""):
    if not what:
        raise AssertionError(said or "does not hold")


class NotBroken(Exception):
    """The line of a control is not there once: it breaks nothing."""


class Room:
    """A folder with the tools, one of which may be broken, and an empty folder to work in, whose name has a blank and a newline."""

    def __init__(self, program, broken=None):
        self.top = Path(tempfile.mkdtemp(prefix="tools-"))
        self.top.chmod(0o755)
        self.tools, self.path, self.here = self.top / "tools", self.top / "path", self.top / "an\narchive of 5%"
        for it in (self.tools, self.path, self.here):
            it.mkdir()
        for name in (*TOOLS, "layout.bash", "install"):
            shutil.copy2(TOP / "bin" / name, self.tools / name)
        shutil.copy2(TOP / "package" / "aea.bash", self.tools)
        for name in MODULES:
            shutil.copytree(TOP / "bin" / name, self.tools / name, ignore=shutil.ignore_patterns("__pycache__"))
        for name in TOOLS:
            (self.path / f"aea-{name}").symlink_to(self.tools / name)
        (self.path / "aea").symlink_to(program)
        if broken:
            file, old, new = broken
            self.edit(file, old, new)
        self.env = {**os.environ, "PATH": f"{self.path}:{os.environ['PATH']}", "AEA_STATE": str(self.top / "state"), "PYTHONDONTWRITEBYTECODE": "1"}

    def edit(self, file, old, new):
        text = (self.tools / file).read_text()
        if text.count(old) != 1:
            raise NotBroken(f"{old!r} is {text.count(old)} times in {file}")
        (self.tools / file).write_text(text.replace(old, new))

    # calls

    def of_other(self):
        """What lets a call be one of a user who has no right to what is root's; root's own rights have no end."""
        if os.getuid():
            return {"env": self.env}
        return {"env": {**self.env, "PATH": f"{self.path}:/usr/bin:/bin"}, "user": OTHER, "group": OTHER, "extra_groups": []}

    def run(self, *words, input=b"", status=0, cwd=None, is_other=False, timeout=60):
        """What a call prints; its status has to be this one, or any where it is None."""
        who = self.of_other() if is_other else {"env": self.env}
        done = subprocess.run([os.fsencode(it) for it in words], input=input, cwd=cwd or self.here, stdout=subprocess.PIPE, stderr=subprocess.PIPE, timeout=timeout, **who)
        if status is not None and done.returncode != status:
            raise AssertionError(f"{words} has status {done.returncode} and not {status}: {done.stdout[-300:]!r} {done.stderr[-600:]!r}")
        self.status, self.told = done.returncode, done.stderr.decode(errors="replace")
        if "Traceback" in self.told:
            raise AssertionError(f"{words}: {self.told[-600:]}")
        return done.stdout

    def pipe(self, first, second, status=None, is_other=False):
        """What the second of two calls prints, which reads what the first writes; their statuses have to be these."""
        who = self.of_other() if is_other else {"env": self.env}
        one = subprocess.Popen(first, cwd=self.here, stdout=subprocess.PIPE, stderr=subprocess.PIPE, **who)
        two = subprocess.run(second, cwd=self.here, env=self.env, stdin=one.stdout, stdout=subprocess.PIPE, stderr=subprocess.PIPE, timeout=120)
        one.stdout.close()
        self.told = one.stderr.read().decode(errors="replace") + two.stderr.decode(errors="replace")
        one.stderr.close()
        got = (one.wait(), two.returncode)
        if status:
            holds(got == status, f"{first} {got} and not {status}: {self.told}")
        return two.stdout

    def shell(self, text, status=0):
        return self.run("bash", "-c", text, status=status)

    def interrupted(self, words, is_there, status, number=signal.SIGINT, stdin=subprocess.DEVNULL, env=None):
        """Runs a call in a group of its own until something is there, and sends a signal to all of the group, as a terminal does."""
        run = subprocess.Popen(words, cwd=self.here, env=env or self.env, stdin=stdin, stdout=subprocess.PIPE, stderr=subprocess.PIPE, start_new_session=True,
                               preexec_fn=lambda: signal.signal(signal.SIGINT, signal.default_int_handler))
        self.until(is_there)
        os.killpg(run.pid, number)
        out, err = run.communicate(timeout=60)
        self.told = err.decode(errors="replace")
        holds(run.returncode == status, f"{words} has status {run.returncode} and not {status}: {out[-300:]!r} {self.told[-600:]}")
        return out

    def until(self, is_there):
        for _ in range(3000):
            if is_there():
                return
            time.sleep(0.01)
        raise AssertionError("it did not come so far within 30 seconds")

    # archives

    def formats(self):
        """The module aea_formats of this room."""
        about = importlib.util.spec_from_file_location("aea_formats", self.tools / "aea_formats/__init__.py")
        module = importlib.util.module_from_spec(about)
        for name in [it for it in sys.modules if it.split(".")[0] == "aea_formats"]:
            del sys.modules[name]
        sys.modules["aea_formats"] = module
        about.loader.exec_module(module)
        return module

    def create(self, *shape, objects=()):
        """An archive of this shape and these objects, in place of another one."""
        shutil.rmtree(self.here), self.here.mkdir()
        self.run("aea", "create", *(str(it) for it in shape))
        for name, content in objects:
            self.run("aea", "put", name, input=content)

    def files(self):
        """All files below the archive's folder, and what they have."""
        return {it.relative_to(self.here): it.read_bytes() for it in sorted(self.here.rglob("*")) if it.is_file()}

    def lay(self, files):
        """Puts files there as they were; others stay."""
        for name, content in files.items():
            (self.here / name).write_bytes(content)

    def change(self, file, place, bytes):
        with open(self.here / file, "r+b") as opened:
            opened.seek(place)
            opened.write(bytes)

    def lock(self):
        """A process that has the lock of the archive's folder."""
        holder = subprocess.Popen(["flock", ".", "sh", "-c", "echo; exec sleep 60"], cwd=self.here, stdout=subprocess.PIPE)
        holder.stdout.readline()
        return holder

    def remove(self):
        for it in self.top.rglob("*"):
            if it.is_dir() and not it.is_symlink():
                it.chmod(stat.S_IRWXU)
        shutil.rmtree(self.top)


def content(length):
    """Bytes of which no two blocks are the same."""
    return bytes((7 * length + at * at + at // 251) % 251 for at in range(length))


PHOTOS = [(f"beach {k}.jpg", content(k * 100)) for k in range(1, 7)]
LEDGERS = [Path(it) for it in ("ledger.aea", "ledger-2.aea", "ledger-3.aea")]


def tried(function, program, broken=None):
    """Why a case failed; nothing where it did not."""
    room = None
    try:
        room = Room(program, broken)
        function(room)
        return ""
    except NotBroken:
        raise
    except Exception as why:  # those of the module too, whose classes are new in each room
        return f"{type(why).__name__}: {why}"
    finally:
        if room:
            room.remove()


def try_all(program, chosen):
    """Tries the cases whose names begin with one of these words, and their controls; the status."""
    cases, controls, failures = 0, 0, 0
    for function, lines in CASES:
        if chosen and not any(function.__name__.startswith(it) for it in chosen):
            continue
        why = tried(function, program)
        cases, failures = cases + 1, failures + bool(why)
        print(("FAILED  " if why else "ok      ") + function.__name__ + (f"\n    {why}" if why else ""), flush=True)
        for line in lines if not why else ():
            try:
                why = "" if tried(function, program, line) else "it was not seen"
            except NotBroken as broken:
                why = str(broken)
            controls, failures = controls + 1, failures + bool(why)
            print(("FAILED  " if why else "ok      ") + f"control of {function.__name__}: {line[0]}: {line[1].strip().splitlines()[0]}" + (f"\n    {why}" if why else ""), flush=True)
    print(f"{cases} cases, {controls} controls, {failures} failures")
    return 1 if failures or not cases else 0
