"""What an archive in a folder has to hold, by a plain one (`plain_archive.py`): what its commands have to tell and to leave, and what
may stand after a stop of a command that writes. `bench/torture` judges kills by it, `bench/powercut` and `bench/images` power cuts.
It is no program by itself.

Where an archive has copies of its ledger, each run first adopts them: so the ledger that stands after a stop is the one that the next
run makes of the three files, and each copy is whole after that run.

A kill leaves the files as the calls before it made them. A power cut may take back, or leave in any part, what was not made sure:
so where a repair was cut the homes of the blocks that it restores may hold anything (`torn`). All else has to hold after both: the
ledger is the one before or one with what was under way, what was acknowledged is there, and an intact block stays."""

import subprocess
import time

from measuring import lay_ledgers
from plain_archive import (COPIES, LEDGER, MOST_FENCES, Plain, adopted, copy_of, grown, is_copy_begun, is_name, judged_copy, judged_ledger, number, piece_ends,
                           stored_line)
from sessions import Machine

SECONDS = 300


class Wrong(Exception):
    """What differs from the plain archive."""


def name_by_chance(chance):
    letters = ["a", "b", "z", "A", "0", " ", "/", ".", "~", "\u0080", "\u00e4", "\u4e2d", "\U0001f600", "\uffff"]
    return "".join(chance.choice(letters) for _ in range(chance.choice([1, 2, 3, 8, 300]))).encode()[:255].decode(errors="ignore").encode()


def frame(name, length, content):
    return number(2, len(name)) + name + number(8, length) + content


def shortened(text, most=300):
    return text if len(text) < 2 * most else text[:most] + b" .. " + text[-most:]


class Archive:
    """An archive in a folder: what it is (`plain`), and what its files hold, or have to."""

    def __init__(self, folder, program, shape, counts):
        self.folder, self.program, self.shape, self.counts = folder, program, shape, counts
        self.plain = None
        self.files, self.ledger, self.copies = dict.fromkeys(range(1, shape[4] + 1)), None, [None, None]
        self.took, self.log = {}, []

    # the folder

    def site(self, site):
        return self.folder / f"site-{site:02}" / "blocks.aea"

    def read(self):
        files = {}
        for site in self.files:
            try:
                files[site] = self.site(site).read_bytes()
            except FileNotFoundError:
                files[site] = None
        return files, self.read_file(LEDGER)

    def read_file(self, name):
        path = self.folder / name
        return path.read_bytes() if path.exists() else None

    def read_copies(self):
        return [self.read_file(name) for name in COPIES]

    def lay_ledgers(self, ledger, copies):
        """Puts the files of the ledger and of both copies there, or takes them away."""
        self.ledger, self.copies = ledger, list(copies)
        lay_ledgers(self.folder, {name: content for name, content in zip((LEDGER, *COPIES), (ledger, *copies)) if content is not None})

    def lay(self, site, content):
        """Puts a site's file there as it is to be, or takes it away."""
        if content is None:
            self.site(site).unlink(missing_ok=True)
        else:
            self.site(site).parent.mkdir(exist_ok=True)
            self.site(site).write_bytes(content)
        self.files[site] = content

    def at_home(self, k, files=None):
        site, place = self.plain.home(k)
        return ((files or self.files)[site] or b"")[place:place + self.plain.size]

    def damaged(self):
        return {k for k, cell in enumerate(self.plain.cells) if self.at_home(k) != cell}

    def with_cells(self, plain, numbers):
        """The files with the cells of these blocks written to their homes."""
        files = {}
        for k in numbers:
            site, place = plain.home(k)
            if site not in files:
                files[site] = bytearray(self.files[site] or b"")
            if len(files[site]) < place:
                files[site].extend(bytes(place - len(files[site])))
            files[site][place:place + plain.size] = plain.cells[k]
        return {site: bytes(files[site]) if site in files else self.files[site] for site in self.files}

    def look(self):
        """Compares all files with what they have to be."""
        files, ledger = self.read()
        for name, told, wanted in zip((LEDGER, *COPIES), (ledger, *self.read_copies()), (self.ledger, *self.copies)):
            if told != wanted:
                raise Wrong(f"{name} is {shortened(told or b'gone')!r} and not {shortened(wanted or b'gone')!r}")
        for site, content in files.items():
            if content != self.files[site]:
                told, wanted = content or b"", self.files[site] or b""
                at = next((k for k, (a, b) in enumerate(zip(told, wanted)) if a != b), min(len(told), len(wanted)))
                raise Wrong(f"site {site} differs at {at}: {told[at:at + 80]!r} and not {wanted[at:at + 80]!r}; {len(told)} bytes and not {len(wanted)}")
        others = {path.name for path in self.folder.iterdir()} - {LEDGER, *COPIES} - {f"site-{site:02}" for site in self.files}
        if others:
            raise Wrong(f"the folder has {others}")

    def settle(self, plain, new=()):
        """Takes the files as they are where cells may stand behind those of the archive; its blocks have to be as before, and the new
        ones whole."""
        files, _ = self.read()
        old = set(range(len(self.plain.cells)))
        for k in old:
            before, now = self.at_home(k), self.at_home(k, files)
            if now[:len(before)] != before or any(now[len(before):]):
                raise Wrong(f"the home of {self.plain.text(k)} was changed from {shortened(before)!r} to {shortened(now)!r}")
        for k in new:
            site, place = plain.home(k)
            if (files[site] or b"")[place:place + plain.size] != plain.cells[k]:
                raise Wrong(f"{plain.text(k)} is not intact after its commit")
        self.files = files

    # copies of the ledger

    def is_on(self):
        """Whether copies are on."""
        return any(is_copy_begun(copy or b"") for copy in self.copies)

    def adopt(self):
        """Takes the files of the ledger and its copies as a run leaves them that adopts them; gives what it is refused for, or none."""
        refused, (self.ledger, *self.copies) = adopted(self.ledger, self.copies)
        return refused

    def adopt_found(self):
        """The same, of the files as they are. They may not be refused."""
        self.ledger, self.copies = self.read_file(LEDGER), self.read_copies()
        refused = self.adopt()
        if refused:
            raise Wrong(f"{refused}, of {shortened(self.ledger or b'gone')!r} and {[shortened(it or b'gone') for it in self.copies]}")

    def begin_copies(self):
        self.copies = [copy_of(self.plain.ledger)] * 2

    def hurt(self, chance):
        """Damages some of the three files as they are, but for a copy that is good, and has all that the archive has. Says whether there is
        one, and so something that can be mended."""
        files = [self.read_file(LEDGER), *self.read_copies()]
        good = [k for k in (1, 2) if (judged_copy(files[k] or b"")[0] or b"").startswith(self.plain.ledger)]
        if not good:
            return False
        kept = chance.choice(good)
        for k in chance.choice([[0], [3 - kept], [3 - kept], [0, 3 - kept]]):
            what, content = self.damaged_file(chance, files[k] or b"", k > 0)
            text = judged_copy(content or b"")[0] if k else None
            # where a gate was opened before an entry that was never there, the copy is not damaged but another one
            files[k] = content if text is None or self.plain.ledger.startswith(text) else None
            self.counts[f"damages of {'a copy' if k else 'a ledger with copies'}: {what}"] += 1
        self.lay_ledgers(files[0], files[1:])
        return True

    def damaged_file(self, chance, content, is_copy):
        """The bytes of the ledger or of a copy after damage, and which it is."""
        what = chance.choice(["gone", "gone", "emptied", "cut", "rot", "rot", "rot", "zeros", "grown", "older", "others", "gate"])
        if what == "gone":
            return what, None
        if what == "older":
            older = self.plain.ledger[:chance.choice(piece_ends(self.plain.ledger))]
            return what, copy_of(older) if is_copy else older + bytes([chance.choice([0, 1])]) + chance.randbytes(chance.choice([0, 30]))
        if what == "others" or not content:
            return "others", chance.choice([bytes(300), chance.randbytes(300), b"\x01AEACOPY1\x00", b"\x01AEACOPY1" + chance.randbytes(60),
                                            b"\x01AEALEDG1" + chance.randbytes(60), Plain((1, 1, 0, 99, 5)).ledger + b"\x00"])
        content, place = bytearray(content), chance.randrange(len(content))
        if what == "emptied":
            content.clear()
        elif what == "cut":
            del content[place:]
        elif what == "rot":
            for _ in range(chance.choice([1, 1, 2, 5])):
                content[chance.randrange(len(content))] ^= chance.randrange(1, 256)
        elif what == "zeros":
            many = min(chance.randrange(1, 200), len(content) - place)
            content[place:place + many] = bytes(many)
        elif what == "grown":
            content += chance.randbytes(chance.randrange(1, 300))
        else:
            # the gate of all, the first one, or the last byte, which often is one
            content[chance.choice([0, min(9 if is_copy else 17, len(content) - 1), len(content) - 1])] = chance.choice([0, 1, 2, 255])
        return what, bytes(content)

    # runs

    def run(self, words, source=b""):
        began = time.monotonic()
        ran = subprocess.run([self.program, *words], cwd=self.folder, input=source, capture_output=True, timeout=SECONDS)
        self.took[words[0] if words else ""] = time.monotonic() - began
        self.counts["runs"] += 1
        return ran.returncode, ran.stdout, ran.stderr

    def told(self, words, wanted, source=b""):
        """Runs a command, which has to end so. One that is a command adopts copies first."""
        if wanted[0] != 2:
            self.adopt()
        self.log.append(f"{words} < {len(source)} bytes")
        self.compare(words, self.run(words, source), wanted)

    def compare(self, words, told, wanted):
        if told != wanted:
            parts = [f"{what} {it if isinstance(it, int) else shortened(it)!r}" for what, it in zip(("status", "output", "error"), told)]
            others = [f"{what} {it if isinstance(it, int) else shortened(it)!r}" for what, it in zip(("status", "output", "error"), wanted)]
            raise Wrong(f"{words}: {', '.join(parts)}; wanted {', '.join(others)}")
        status, _, err = wanted
        if status == 3:
            kind = err.decode().split(":")[1].split()
            self.counts["refused: " + " ".join(it for it in kind if not it[-1].isdigit() and it != "nodes")] += 1
        elif status == 2:
            self.counts["no command"] += 1

    def refused(self, line):
        return 3, b"", f"refused: {line}\n".encode()

    # what commands have to tell, and what they leave

    def made(self):
        """The line of a create."""
        return f"created {' '.join(map(str, self.shape))}\n".encode()

    def expected_put(self, name, content):
        """The answer to a put, and the archive after it."""
        damaged = self.damaged()
        head = self.plain.head_damaged(set(range(len(self.plain.cells))) - damaged)
        if not is_name(name):
            return self.refused("bad name"), None
        if name in self.plain.objects:
            return self.refused("name taken"), None
        if head is not None:
            return self.refused(f"head damaged {self.plain.text(head)}"), None
        after = self.plain.copy()
        after.add(name, content)
        return (0, stored_line(name, content, self.plain.block), b""), after

    def expected_fence(self):
        nodes, fences = self.plain.nodes, self.plain.fences
        if nodes == 0 or nodes in fences:
            return self.refused(f"already fenced at {nodes}"), None
        if len(fences) >= MOST_FENCES:
            return self.refused("too many fences"), None
        after = self.plain.copy()
        after.add_fence()
        return (0, f"fence {nodes}\n".encode(), b""), after

    def expected_upgrade(self):
        if self.plain.raised:
            return self.refused("already upgraded"), None
        after = self.plain.copy()
        after.add_raise()
        return (0, b"upgraded 1048576\n", b""), after

    def expected_copies(self):
        return self.refused("copies are on") if self.is_on() else (0, b"copies on\n", b"")

    def session(self):
        """The machine of a session over the archive as it is, and none; or no machine, and the refusal."""
        damaged = self.damaged()
        head = self.plain.head_damaged(set(range(len(self.plain.cells))) - damaged)
        if not self.plain.raised:
            return None, self.refused("not upgraded")
        if head is not None:
            return None, self.refused(f"head damaged {self.plain.text(head)}")
        return Machine(self.plain, damaged), None

    def had_session(self, machine):
        """The archive is that behind this session from now on; the cells of blocks that were woven behind it stand too."""
        self.files = self.with_cells(machine.now, range(len(self.plain.cells), len(machine.now.cells)))
        self.commit(machine.states[-1])

    def commit(self, after):
        """The archive is this one from now on, whose cells and records were written."""
        if after.ledger == self.plain.ledger:
            return
        files = self.with_cells(after, range(len(self.plain.cells), len(after.cells)))
        self.ledger = grown(self.ledger, after.ledger + b"\x00")
        if self.is_on():
            self.copies = [grown(copy, copy_of(after.ledger)) for copy in self.copies]
        self.plain, self.files = after, files

    def fresh_name(self, chance, others=()):
        while True:
            name = name_by_chance(chance)
            if name not in self.plain.objects and name not in others:
                return name

    def stat_and_list(self):
        self.told(["stat"], (0, self.plain.stat(), b""))
        self.told(["list"], (0, self.plain.listed(), b""))

    def got(self, name, damaged):
        if name not in self.plain.objects:
            self.told(["get", name], self.refused("unknown name"))
            return
        content, places = self.plain.objects[name]
        first = next((node for node in places if (node - 1) * self.plain.classes in damaged), None)
        self.told(["get", name], (0, content, b"") if first is None else self.refused(f"damaged d{first}"))
        self.counts["objects got" if first is None else "gets of damaged objects"] += 1

    def fetched(self, name, damaged, fates, clash=None):
        """Fetches an object where these blocks are damaged and have these fates. Where a datum of it clashes, this is told once it is
        sure that none is lost."""
        content, places = self.plain.objects[name]
        data = [(node - 1) * self.plain.classes for node in places]
        lost = next((k for k in data if k in damaged and fates.get(k) is not None), None)
        if lost is not None:
            word = self.plain.codeword(fates[lost])
            if lost not in word or not word <= damaged:
                raise Wrong(f"the plain archive names {fates[lost]} for {self.plain.text(lost)}: {sorted(map(self.plain.text, word))}")
            self.told(["fetch", name], self.refused(f"undetermined {self.plain.text(lost)} by {' '.join(map(str, fates[lost]))}"))
            self.counts["fetches of objects that are lost"] += 1
        elif clash is not None:
            self.told(["fetch", name], clash)
            self.counts["fetches that clash"] += 1
        else:
            self.told(["fetch", name], (0, content, b""))
            self.counts["damaged objects fetched" if damaged.intersection(data) else "objects fetched"] += 1

    def scrubbed(self):
        damaged = self.damaged()
        self.told(["scrub"], (1 if damaged else 0, self.plain.scrubbed(damaged), b""))

    def repaired(self):
        """Repairs; gives the report and what is lost. The report has to be the plain one, its codewords have to contain their blocks and
        no intact one, `verify` has to accept it, and another repair has to change nothing."""
        damaged = self.damaged()
        report, restored, counts = self.plain.report(damaged)
        self.told(["repair"], (1 if counts[2] else 0, report, b""))
        self.files = self.with_cells(self.plain, restored)
        self.look()
        for what, many in zip(("blocks peeled", "blocks solved", "blocks lost"), counts):
            self.counts[what] += many
        lost = damaged - restored
        for line in report.decode().splitlines()[4:]:
            kind, text, *rest = line.split()
            if kind == "lost":
                word = self.plain.codeword(map(int, rest[1:]))
                if self.plain.number_of(text.encode()) not in word or not word <= lost:
                    raise Wrong(f"{line}: the codeword is {sorted(map(self.plain.text, word))}")
        self.told(["verify"], (0, b"accepted\n", b""), report)
        again, restored, _ = self.plain.report(lost)
        if restored:
            raise Wrong(f"the plain archive restores {restored} by a second repair")
        self.told(["repair"], (1 if lost else 0, again, b""))
        self.look()
        return report, lost

    # what may stand after a stop; what was told then has no status

    def land(self, words, told, states, lines, how="killed", first=0, sure=0, said=None):
        """Finds out which of the archives the ledger has, of those that may be there after what was printed. Behind the state that
        the archive had, `first` states are of a run before this one that was stopped; `sure` of them it acknowledged, and the others
        may be gone after a power cut until this run prints something. Where it prints more than these lines, `said` is what it printed
        of them."""
        self.adopt_found()
        ledger = self.ledger or b""
        at = [k for k, it in enumerate(states) if ledger.startswith(it.ledger) and ledger[len(it.ledger):len(it.ledger) + 1] not in (b"", b"\x01")]
        if len(at) != 1:
            raise Wrong(f"{words}, {how}: the ledger is {shortened(ledger)!r}, none of {len(states)} that may be there")
        at, whole, printed = at[0], 0, told[1] if said is None else said
        for line in lines:
            if not printed.startswith(line):
                break
            whole, printed = whole + 1, printed[len(line):]
        # a byte of a further line says that its object is there
        least = whole + 1 if printed and whole < len(lines) else whole
        least, most = first + least if told[1] or told[2] else sure, min(first + whole + 1, len(states) - 1)
        if told[0] is not None:
            least = most = len(states) - 1
        if not least <= at <= most:
            raise Wrong(f"{words}, {how}: {whole} whole lines of {len(lines)} were printed, and {at} records were added")
        after = states[at]
        if told[0] is None and at > first + whole:
            self.counts["records that were added and not acknowledged"] += 1
        self.counts[f"objects of {how} runs"] += len(after.objects) - len(self.plain.objects)
        self.settle(after, range(len(self.plain.cells), len(after.cells)))
        self.plain = after
        self.stat_and_list()

    def first_part(self, words, told, wanted, how="killed"):
        """What a run that was stopped printed has to be the first part of what it would have."""
        if not wanted[1].startswith(told[1]) or not wanted[2].startswith(told[2]):
            raise Wrong(f"{words}, {how}: printed {shortened(told[1])!r} {told[2]!r}; wanted the first part of {shortened(wanted[1])!r} {wanted[2]!r}")

    def copied_or_not(self, told, how="killed", wanted=(0, b"copies on\n", b"")):
        """Takes the files as a `copies` left them that was stopped where no copy was begun, or where a `copies` before it was stopped: none is,
        or the first one is whole; and both are where it had printed or ended."""
        before, one = self.ledger, copy_of(self.plain.ledger)
        self.first_part(["copies"], told, wanted, how)
        found = self.read_copies()
        is_done, is_on = told[0] is not None or bool(told[1]) or bool(told[2]), any(is_copy_begun(copy or b"") for copy in found)
        self.adopt_found()
        if self.ledger != before or is_on and found[0] != one or is_done and found != [one, one]:
            raise Wrong(f"copies, {how}: the files are {shortened(self.ledger or b'gone')!r} and {[shortened(it or b'gone') for it in found]}")
        self.stat_and_list()

    def made_or_not(self, told, how="killed", wanted=b""):
        """Whether the whole empty archive stands after a create that was stopped, which would have printed this as its error; else
        there has to be none."""
        if not self.made().startswith(told[1]) or not wanted.startswith(told[2]):
            raise Wrong(f"create, {how}: printed {told[1]!r} {told[2]!r}")
        files, _ = self.read()
        self.adopt_found()
        if any(content is not None for content in files.values()):
            raise Wrong("create made a file of a site")
        empty = Plain(self.shape)
        if judged_ledger(self.ledger or b"") == "no archive":
            if told[1] or told[2]:
                raise Wrong(f"create, {how}: its line was begun, and there is no archive")
            self.told(["stat"], self.refused("no archive"))
            self.look()
            return False
        if self.ledger != empty.ledger + b"\x00":
            raise Wrong(f"create, {how}: the ledger is {self.ledger!r}")
        self.plain = empty
        return True

    def mended_or_not(self, told, report, restored, how="killed", torn=False):
        """Takes the files as a repair left them that was stopped, and would print this report and restore these blocks."""
        if not report.startswith(told[1]) or told[2]:
            raise Wrong(f"repair, {how}: printed {shortened(told[1])!r} {told[2]!r}; wanted the first part of {shortened(report)!r}")
        files, done = self.part_of_repair(restored, how, torn)
        if told[1] and done < len(restored):
            raise Wrong(f"repair, {how}: the report was begun, and a block is not restored")
        self.counts[f"blocks restored by {how} repairs"] += done
        self.files = files

    def part_of_repair(self, restored, how, torn=False):
        """The files as they are, which have to be those of a repair that stopped after some of these blocks or in one of them; and how
        many are restored."""
        files, before = self.read()[0], self.ledger
        self.adopt_found()
        # where a ledger was made of a copy nothing may stand behind its records
        end = len(self.plain.ledger)
        if self.ledger != before and not (self.is_on() and self.ledger[:end] == self.plain.ledger and self.ledger[end:end + 1] not in (b"", b"\x01")):
            raise Wrong(f"repair, {how}: the ledger was changed")
        done, whole = 0, self.with_cells(self.plain, restored)
        for k, cell in enumerate(self.plain.cells):
            before, now = self.at_home(k), self.at_home(k, files)
            if k in restored:
                # the first part of the cell over the former bytes, which go on with zeros where the file grew
                former = before.ljust(len(now), b"\x00")
                same = next((at for at, (a, b) in enumerate(zip(now, cell)) if a != b), min(len(now), len(cell)))
                if now[same:] != former[same:] and not torn:
                    raise Wrong(f"repair, {how}: the home of {self.plain.text(k)} is {shortened(now)!r}")
                done += now == cell
            elif now[:len(before)] != before or any(now[len(before):]):
                raise Wrong(f"repair, {how}: the home of {self.plain.text(k)} was changed")
        for site, content in files.items():
            if content is not None and len(content) > len(whole[site] or b""):
                raise Wrong(f"repair, {how}: site {site} has {len(content)} bytes")
        return files, done
