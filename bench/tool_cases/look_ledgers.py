"""Cases of `look ledgers`, `mark`, `since`, `log` and `names`, and of the words of `look`."""

import shutil

from trying import LEDGERS, PHOTOS, case, holds, same, unchanged

SOURCE = "aea_looks/ledgers.py"


@case((SOURCE, "ledger.end < end or ledger.seal(end) != seal", "ledger.end < 17"), (SOURCE, "if not there and copies:", "if False:"),
      ("aea_formats/archive.py", "return good[-1] + b\"\\0\"", "return self.files[LEDGER]"))
@unchanged
def look_since(room):
    room.create(3, 2, 5, 64, 4, objects=PHOTOS[:2])
    old = room.files()
    room.run("aea", "copies")
    copies = room.files()
    room.run("aea", "put", "c", input=b"x")
    (room.top / "mark").write_bytes(room.run("aea-look", "mark"))
    since = ("aea-look", "since", str(room.top / "mark"))
    same(room.run(*since), b"all is there that was there then, and 0 objects more\n")
    room.keep()
    now = room.files()
    # older copies beside the ledger of now
    room.lay({it: copies[it] for it in LEDGERS[1:]})
    holds(b"GOES BACK" in room.run(*since, status=1))
    holds(b"the next command goes by the copies" in room.run("aea-look", "ledgers", status=1))
    # one copy alone is mended, and both gone are off
    (room.here / LEDGERS[1]).write_bytes(now[LEDGERS[1]]), (room.here / LEDGERS[2]).unlink()
    room.run(*since)
    (room.here / LEDGERS[1]).unlink()
    holds(b"the copies are off" in room.run(*since, status=1))
    # an older ledger alone: the records stand behind its gate
    gate = room.formats().Ledger(old[LEDGERS[0]]).end
    room.change("ledger.aea", gate, b"\0")
    holds(b"GOES BACK" in room.run(*since, status=1))
    holds(f"behind the gate at {gate}: 1 more record".encode() in room.run("aea-look", "ledgers"), room.told)
    room.change("ledger.aea", gate, b"\1")
    room.change("ledger.aea", 30, b"\xff")
    room.run(*since, status=3)
    holds(b"ledger.aea: BAD at" in room.run("aea-look", "ledgers", status=1))
    room.lay({it: now[it] for it in LEDGERS})
    (room.top / "mark").write_bytes(b"no mark\n")
    room.run(*since, status=2)
    room.run("aea-look", "since", "none", status=2)


@case((SOURCE, 'raise NoLedger("neither', '(lambda it: None)("neither'), (SOURCE, "return 1 if wrong or not texts else 0", "return 0"), (SOURCE, "if not longest.startswith(text):", "if False:"),
      (SOURCE, 'return f"BAD at {bad}; before it', 'return f"BAD; before it'), (SOURCE, "if behind > 1:", "if False:"))
@unchanged
def look_ledgers(room):
    for words in ([], ["no"], ["mark", "x"], ["since"], ["files"], ["log", "x"], ["progress"], ["damage", "x"]):
        room.run("aea-look", *words, status=2)
    for word in ("--help", "-h"):
        holds(room.run("aea-look", word).startswith(b"Says in sites"))
    # no ledger: there is none, or one whose create was cut off
    for word in ("ledgers", "mark", "log", "names", "space"):
        room.run("aea-look", word, status=3)
    (room.here / "ledger.aea").write_bytes(b"\0" + b"AEALEDG1" + bytes(9))
    same(room.run("aea-look", "ledgers", status=3).splitlines()[0], b"ledger.aea: no ledger, 18 bytes")
    room.create(3, 2, 5, 64, 4, objects=PHOTOS[:3])
    alone = room.files()[LEDGERS[0]]
    line = room.run("aea-look", "ledgers").splitlines()[0]
    seal, end = room.formats().Ledger(alone).seal()[:16], len(alone) - 1
    same(line.decode(), f"ledger.aea: 3 objects, 11 nodes, {end} bytes, seal {seal}")
    # it went back: two records are behind the gate
    room.change("ledger.aea", 17, b"\0")
    holds(b"behind the gate at 17: 3 more records, so the ledger WENT BACK" in room.run("aea-look", "ledgers", status=1))
    room.lay({LEDGERS[0]: alone})
    room.run("aea", "copies")
    whole = room.files()
    same([it.split(b": ")[1] for it in room.run("aea-look", "ledgers").splitlines()[:3]], [line.split(b": ")[1]] * 3)
    room.change("ledger-2.aea", 70, b"xyz")
    holds(b"\nledger-2.aea: BAD at 63; before it" in room.run("aea-look", "ledgers", status=1))
    (room.here / "ledger-2.aea").unlink(), (room.here / "ledger-2.aea").symlink_to("/nowhere")
    holds(b"\nledger-2.aea -> /nowhere: missing" in room.run("aea-look", "ledgers", status=1))
    (room.here / "ledger-2.aea").unlink()
    # the ledger alone is lost: that is wrong, and the next command mends it
    room.lay(whole)
    (room.here / "ledger.aea").unlink()
    same(room.run("aea-look", "ledgers", status=1).splitlines()[0], b"ledger.aea: missing")
    # one that went on elsewhere
    there = room.top / "there"
    shutil.copytree(room.here, there)
    for folder, input in ((room.here, b"one"), (there, b"other")):
        room.run("aea", "put", "d", input=input, cwd=folder)
    shutil.copy(there / "ledger-3.aea", room.here / "ledger-3.aea")
    # in the length of its object
    said = room.run("aea-look", "ledgers", status=1).decode()
    holds(f"ledger-3.aea and the longest one part at byte {end + 16}" in said, said)
    room.here.chmod(0o555)
    room.run("aea-look", "ledgers", status=1, is_other=True)
    room.here.chmod(0o755)
    room.keep()


@case((SOURCE, "formats.lines_of(archive_here().ledger)", "formats.lines_of(formats.Ledger(open('ledger.aea', 'rb').read()))"), (SOURCE, 'sys.stdout.buffer.write(line + b"\\n")', "pass"))
@unchanged
def look_log(room):
    room.run("aea", "create", "3", "2", "5", "16", "10")
    lines = [b"created 3 2 5 16 10\n"]
    for words, input in ((["put", "a  b"], b"abc"), (["fence"], b""), (["copies"], None), (["put", "c"], bytes(50)), (["upgrade"], b"")):
        said = room.run("aea", *words, input=input or b"")
        lines += [] if input is None else [said]
    (room.here / "ledger.aea").unlink()
    room.keep()
    same(room.run("aea-look", "log"), b"".join([*lines, b"nodes 5\n"]))
