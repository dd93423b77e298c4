"""What `bench/powercut` and `bench/images` share: archives by chance with runs of each command that writes, what has to stand where
one of them was cut by a power cut, and that it goes on from there; and how such a script is called. It is no program by itself."""

import collections
import hashlib
import os
import random
import shutil
import signal
import subprocess
import sys
import tempfile
import time
import traceback
from dataclasses import dataclass, field
from pathlib import Path

from judging import Archive, Wrong, frame, shortened
from measuring import called
from plain_archive import LEDGER, Plain, adopted, stored_line
from sessions import said_of

TOP = Path(__file__).resolve().parent.parent
# what is in each archive besides its create and its first put, in an order by chance; what comes behind `copies` has these on
RUNS = ["put", "ingest", "session", "fence", "upgrade", "repair", "copies", "put", "session", "repair"]
# what may stand in the place of a ledger or of a copy and is none, and in which share of the folders such files stand
NO_LEDGERS = [None, b"", b"\x07" * 40, b"\x01AEALEDG1"]
NO_COPIES = [None, b"", bytes(40), b"\x01AEACOPY1", b"\x02AEACOPY1" + bytes(range(200))]
SHARE = 0.4
# where copies are on, the ledger or a copy is damaged before so many of a hundred runs, which have to mend it
HURT = 30
# of so many failures the folders are kept, so many are printed, and a line is printed after so many minutes
KEPT, PRINTED, EACH = 10, 200, 10
SHAPES = [(1, 1, 0), (2, 2, 2), (2, 2, 3), (3, 2, 2), (3, 2, 5), (3, 3, 4)]


@dataclass
class Run:
    """A run of a command that writes: what it has to tell, and what may stand where it is stopped. Behind the first state, `first`
    are of a run of the same command before it that was killed, and of them it acknowledged `sure`. Of a session there are its replies,
    of which `lines` are those that tell of an object, and the archive with all that it wove."""

    words: list
    source: bytes = b""
    wanted: tuple = ()
    states: list = field(default_factory=list)
    lines: list = field(default_factory=list)
    objects: list = field(default_factory=list)
    report: bytes = b""
    restored: set = field(default_factory=set)
    first: int = 0
    sure: int = 0
    replies: list | None = None
    woven: Plain | None = None

    def said(self, out):
        """What stands of its lines in what it printed."""
        return out if self.replies is None else said_of(self.replies, out)

    def whole_lines(self, out):
        """How many of its lines stand whole in what it printed."""
        said, count = self.said(out), 0
        while count < len(self.lines) and said.startswith(b"".join(self.lines[:count + 1])):
            count += 1
        return count

    def briefly(self):
        return f"{self.words[0]} {shortened(b' '.join(it.encode() if isinstance(it, str) else it for it in self.words[1:]), 20)!r}"


class Story(Archive):
    """An archive by chance that commands write to, and what it has to hold after a power cut in one of them. Where `asks` is off, the
    files alone are judged, and no program is run for it."""

    def __init__(self, folder, program, seed, counts):
        chance = random.Random(f"shape {seed}")
        shape = (*chance.choice(SHAPES), chance.choice([16, 17, 64, 300, 1000, 5000]), chance.choice([1, 2, 3, 4, 5, 6, 11]))
        super().__init__(folder, program, shape, counts)
        self.seed, self.asks, self.hurting = seed, True, HURT

    def told(self, words, wanted, source=b""):
        if self.asks:
            super().told(words, wanted, source)

    def again_in(self, folder):
        """The same archive where its files stand in another folder, or will."""
        other = object.__new__(Story)
        other.__dict__ |= self.__dict__
        other.folder, other.files, other.copies, other.log = folder, dict(self.files), list(self.copies), []
        return other

    def lay_no_archive(self, chance, share=SHARE):
        """Puts there, in this share of the folders, what is no ledger and no copy of one."""
        if chance.random() < share:
            self.lay_ledgers(chance.choice(NO_LEDGERS), [chance.choice(NO_COPIES) for _ in range(2)])

    # the runs

    def plan(self, what, chance):
        """The next run of this command."""
        if what == "create":
            return Run(["create", *map(str, self.shape)], wanted=(0, self.made(), b""))
        if what == "repair":
            report, restored, counts = self.plain.report(self.damaged())
            return Run(["repair"], wanted=(1 if counts[2] else 0, report, b""), report=report, restored=restored)
        if what == "copies":
            return Run(["copies"], wanted=self.expected_copies())
        objects = []
        for _ in range({"put": 1, "ingest": chance.randrange(1, 4), "session": chance.randrange(1, 4)}.get(what, 0)):
            length = chance.choice([0, 1, self.plain.block, chance.randrange(3 * self.plain.block + 2)])
            objects.append((self.fresh_name(chance, [name for name, _ in objects]), chance.randbytes(length)))
        return self.plan_of(what, objects, chance)

    def plan_session(self, objects, chance=None):
        """The session that stores these objects: one after the other, or in turns with others between them."""
        machine, refused = self.session()
        if machine is None:
            return Run(["session"], wanted=refused, states=[self.plain], objects=objects, replies=[])
        if chance is None:
            for name, content in objects:
                machine.store(name, content)
        else:
            self.tell_by_chance(machine, objects, chance)
        return Run(["session"], machine.source, (0, machine.out(), b""), machine.states, machine.lines(), machine.objects, replies=machine.replies,
                   woven=machine.now)

    def tell_by_chance(self, machine, objects, chance):
        """Messages that store these objects in turns, with another upload that is dropped or is never closed, and what is only asked."""
        left = {slot: it for slot, it in zip(chance.sample(range(16), len(objects) + 1), [*objects, (b"not stored", b"")])}
        other = [slot for slot, (name, _) in left.items() if name == b"not stored"][0]
        for slot, (name, _) in left.items():
            machine.open(slot, name)
        while left:
            slot = chance.choice(list(left))
            name, rest = left[slot]
            what = chance.random()
            if what < 0.1:
                machine.read(chance.choice([*machine.now.objects, b"unknown"]))
            elif what < 0.2:
                machine.patrol(0, machine.recorded * machine.now.classes)
            elif slot == other:
                machine.chunk(slot, chance.randbytes(chance.randrange(machine.now.block + 2)))
                if chance.random() < 0.5:
                    del left[slot]
                    if chance.random() < 0.5:
                        machine.abort(slot)
            elif rest:
                many = chance.randrange(1, len(rest) + 1)
                machine.chunk(slot, rest[:many])
                left[slot] = name, rest[many:]
            else:
                machine.close(slot)
                del left[slot]

    def plan_of(self, what, objects, chance=None):
        """The run that adds these objects, a fence or a raise to the archive as it stands."""
        if what == "session":
            return self.plan_session(objects, chance)
        if what == "ingest":
            source, states, lines = b"", [self.plain], []
            head = self.plain.head_damaged(set(range(len(self.plain.cells))) - self.damaged()) if objects else None
            for name, content in objects:
                source += frame(name, len(content), content)
                if head is None:
                    states.append(states[-1].copy())
                    states[-1].add(name, content)
                    lines.append(stored_line(name, content, self.plain.block))
            status, out, err = (0, f"end {len(lines)}\n".encode(), b"") if head is None else self.refused(f"head damaged {self.plain.text(head)}")
            return Run(["ingest"], source, (status, b"".join(lines) + out, err), states, lines, objects)
        if what == "put":
            wanted, after = self.expected_put(*objects[0])
            words, source = ["put", objects[0][0]], objects[0][1]
        else:
            wanted, after = self.expected_fence() if what == "fence" else self.expected_upgrade()
            words, source = [what], b""
        return Run(words, source, wanted, [self.plain, after] if after else [self.plain], [wanted[1]] if after else [], objects)

    def plan_again(self, run, told):
        """The run of the same command where this one was killed and had printed this, and the files are as it left them: what was
        under way may stand there, and is not sure yet. No program is run meanwhile, which would make it so."""
        now = self.again_in(self.folder)
        now.asks = False
        now.judge(run, told)
        if run.words[0] == "create":
            return Run(run.words, wanted=(0, self.made(), b"") if now.plain is None else self.refused("occupied"))
        if run.words[0] == "repair":
            again = now.plan("repair", None)
            return Run(run.words, wanted=again.wanted, report=again.report, restored=run.restored)
        if run.words[0] == "copies":
            return now.plan("copies", None)
        at = next(k for k, it in enumerate(run.states) if it.ledger == now.plain.ledger)
        again = now.plan_of(run.words[0], run.objects[at:] if run.words[0] in ("ingest", "session") else run.objects)
        again.states, again.first, again.sure = [*run.states[:at], *again.states], at, run.whole_lines(told[1])
        return again

    def harm(self, what, chance):
        """Does to the files what a run of this command has to mend, and says whether anything was done to them."""
        if what == "repair":
            self.damage(chance)
        is_hurt = self.is_on() and chance.randrange(100) < self.hurting and self.hurt(chance)
        return is_hurt or what == "repair"

    def damage(self, chance):
        """Takes away and changes some of the files of the sites, and says which folders were changed."""
        for _ in range(chance.choice([1, 1, 2])):
            site = chance.choice(list(self.files))
            content, folder = self.files[site], self.site(site).parent
            what = chance.choice(["gone", "gone", "cut", "rot", "rot"])
            if what == "gone" or not content:
                self.lay(site, None)
                if folder.is_dir() and not folder.is_symlink() and chance.random() < 0.5:
                    shutil.rmtree(folder)
            elif what == "cut":
                self.lay(site, content[:chance.randrange(len(content))])
            else:
                content = bytearray(content)
                for place in range(chance.randrange(self.plain.size), len(content), self.plain.size * chance.choice([1, 1, 2])):
                    content[place] ^= chance.randrange(1, 256)
                self.lay(site, bytes(content))

    # what has to stand

    def judge(self, run, told, how="cut"):
        """Judges what stands where this run printed this and was stopped; its status is none where it had not ended."""
        if told[0] is not None:
            self.compare(run.words, told, run.wanted)
        if run.words[0] == "create":
            if not self.made_or_not(told, how, run.wanted[2]) and told[0] is not None:
                raise Wrong(f"{run.words} has ended, and there is no archive")
        elif run.words[0] == "repair":
            self.mended_or_not(told, run.report, run.restored, how, torn=True)
            self.stat_and_list()
        elif run.words[0] == "copies":
            self.copied_or_not(told, how, run.wanted)
        else:
            self.first_part(run.words, told, run.wanted, how)
            self.land(run.words, told, run.states, run.lines, how, run.first, run.sure, run.said(told[1]))

    def finish(self, run, told):
        """Judges what a whole run left, as it reads, and takes it."""
        whole = self.with_cells(self.plain, run.restored) if run.restored else None
        found = [self.read_file(LEDGER), *self.read_copies()]
        if adopted(found[0], found[1:]) != (None, found):
            raise Wrong(f"{run.words} has ended, and the ledger and its copies are {[shortened(it or b'gone') for it in found]}")
        self.judge(run, told, "whole")
        self.files = whole or self.files
        self.look()

    def go_on(self, run):
        """The command goes on from what stands, and then the archive has to hold all of it, and to grow."""
        what = run.words[0]
        if what == "create":
            again = Run(run.words, wanted=(0, self.made(), b"") if self.plain is None else self.refused("occupied"))
            self.plain = self.plain or Plain(self.shape)
            self.told(again.words, again.wanted)
            self.ledger = self.plain.ledger + b"\x00"
        elif what == "repair":
            self.repaired()
        elif what == "copies":
            self.told(["copies"], self.expected_copies())
            if not self.is_on():
                self.begin_copies()
        else:
            standing = len(self.plain.objects) - len(run.states[0].objects)
            again = self.plan_of(what, run.objects[standing:] if what in ("ingest", "session") else run.objects)
            self.told(again.words, again.wanted, again.source)
            if again.woven:
                self.files = self.with_cells(again.woven, range(len(self.plain.cells), len(again.woven.cells)))
            self.commit(again.states[-1])
        self.look()
        wanted, after = self.expected_put(b"behind the cut", b"it grows")
        self.told(["put", b"behind the cut"], wanted, b"it grows")
        if after:
            self.commit(after)
        self.look()
        self.scrubbed()
        damaged = self.damaged()
        for name in sorted(self.plain.objects):
            self.got(name, damaged)
        self.look()


def runs_by_chance(chance, first=None):
    """The commands of an archive, and where one is asked for that one first behind its create and its first put; one of the sessions comes
    behind the raise that it needs."""
    runs = sorted(chance.sample(RUNS, len(RUNS)), key=lambda what: what != first)
    last, raised = len(runs) - 1 - runs[::-1].index("session"), runs.index("upgrade")
    if last < raised:
        runs[last], runs[raised] = runs[raised], runs[last]
    return ["create", "put", *runs]


# how the scripts are called

class Bench:
    """A script that tries archives for some minutes, each with a seed of its own, by `tried(bench, seed)`."""

    def __init__(self, name, program, room):
        self.name, self.program, self.room = name, program, room
        self.counts, self.failures, self.stopped = collections.Counter(), 0, 0
        for it in (signal.SIGTERM, signal.SIGINT, signal.SIGHUP):
            signal.signal(it, self.stop)

    def stop(self, number, _):
        """Ends the script at a signal."""
        self.stopped = number
        sys.exit(128 + number)

    def failed(self, what, wrong):
        if self.stopped:
            # an end in the middle of a call may come here as another exception
            sys.exit(128 + self.stopped)
        self.failures += 1
        if self.failures > PRINTED:
            return
        print(f"FAILED {what}: {wrong}")
        if not isinstance(wrong, Wrong):
            traceback.print_exception(wrong, file=sys.stdout)
        sys.stdout.flush()

    def keep(self, folder, seed):
        """Keeps the folder of a failure, where it is among the first ones."""
        kept = Path("/tmp") / f"{self.name}-{seed}-{self.failures}"
        if self.failures <= KEPT:
            shutil.rmtree(kept, ignore_errors=True)
            shutil.copytree(folder, kept, ignore_dangling_symlinks=True)
            print(f"  its folder: {kept}", flush=True)

    def show(self, minutes):
        print(f"\n{minutes:.1f} minutes, kernel {os.uname().release}\n\n| what | how often |\n|---|---|")
        for what in sorted(self.counts):
            print(f"| {what} | {self.counts[what]} |")
        print(f"\n{self.failures} failures", flush=True)


def lacks(tools):
    """Says what is missing, and ends with status 77, where this machine can't run the script."""
    missing = [tool for tool in tools if shutil.which(tool) is None]
    if sys.platform != "linux":
        missing.append("Linux")
    elif os.geteuid() != 0:
        missing.append("to be root")
    elif not missing and subprocess.run(["unshare", "--mount", "mount", "-t", "tmpfs", "none", "/tmp"], capture_output=True).returncode != 0:
        missing.append("the right to mount")
    if missing:
        print(f"not tried: needs {', '.join(missing)}")
        sys.exit(77)


def in_a_room_of_its_own():
    """Begins the script once more where its mounts are its own, so that they go with it however it ends."""
    if sys.argv[1:2] != ["--inside"]:
        os.execvp("unshare", ["unshare", "--mount", "--propagation", "private", sys.executable, sys.argv[0], "--inside", *sys.argv[1:]])
    del sys.argv[1]


def try_seeds(bench, one, minutes, first, tried):
    """Tries the archives of one seed after the other, until the minutes are over."""
    began, told, k = time.monotonic(), EACH, 0
    while k == 0 or not one and time.monotonic() - began < 60 * minutes:
        seed = first if one else hashlib.sha256(f"{first} {k}".encode()).hexdigest()[:12]
        before = bench.failures
        try:
            tried(bench, seed)
        except Exception as wrong:
            bench.failed(f"seed {seed}", wrong)
        if bench.failures > before:
            print(f"  bench/{bench.name} --one {seed} {bench.program}", flush=True)
        k += 1
        bench.counts["seeds"] = k
        if time.monotonic() - began > 60 * told:
            print(f"{told} minutes: {k} seeds, {bench.counts['runs']} runs, {bench.failures} failures", flush=True)
            told += EACH


def main(name, begin, tried, control):
    """`begin(bench)` makes ready, `control(bench)` shows that the script can fail, and `tried(bench, seed)` tries the archives of a seed.
    All of it is in a folder in memory, which no other process sees."""
    one, minutes, first, program = called()
    for it in (signal.SIGTERM, signal.SIGINT, signal.SIGHUP):
        signal.signal(it, lambda number, _: sys.exit(128 + number))
    room = Path(tempfile.mkdtemp(prefix=f"{name}-"))
    try:
        subprocess.run(["mount", "-t", "tmpfs", "-o", "size=75%", "none", room], check=True)
        bench = Bench(name, Path(program).resolve() if program else TOP / "out/aea", room)
        begin(bench)
        if not program:
            subprocess.run([TOP / "bin/prove"], check=True)
        began = time.monotonic()
        print(f"seed {first}", flush=True)
        try:
            if not one:
                control(bench)
        except Exception as wrong:
            bench.failed("the control", wrong)
        try:
            try_seeds(bench, one, minutes - (time.monotonic() - began) / 60, first, tried)
        except SystemExit:
            print("stopped by a signal", flush=True)
            raise
        finally:
            bench.show((time.monotonic() - began) / 60)
    finally:
        subprocess.run(["umount", "-l", "-R", room], check=False)
        room.rmdir()
    sys.exit(1 if bench.failures else 0)
