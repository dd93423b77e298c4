"""Cases of guard."""

import os
import signal

from trying import LEDGERS, case, content, holds, same


def state_of(room):
    return next((room.top / "state").iterdir())


@case(("guard", 'has_not_gone_back "$1"\ntrap', "trap"), ("guard", "status=$?\n# the mark", "status=0\n# the mark"), 
      ("guard", 'flock -w "$wait" 9 ||', "true ||"), ("guard", '[ "$status" -eq 2 ] && exit 77', ":"), ("guard", 'if [ "$owner" != "$(id -u)" ]', "if false"))
def guard(room):
    room.run("aea-guard", status=2)
    for word in ("--help", "-h"):
        room.run("aea-guard", word)
    for words in (["-w", "x", "stat"], ["-w"], ["-w", "5"]):
        room.run("aea-guard", *words, status=2)
    same(room.run("aea-guard", "create", "3", "2", "5", "64", "4"), b"created 3 2 5 64 4\n")
    line = room.run("aea-guard", "put", "a b", input=b"abc")
    room.run("aea-guard", "put", "a b", status=3)
    same(room.told, "refused: name taken\n")
    same(room.run("aea-guard", "get", "a b"), b"abc")
    room.run("aea-guard", "drill", "3", "2", "5", "1")
    state = state_of(room)
    same((state / "log").read_bytes(), b"created 3 2 5 64 4\n" + line + b"nodes 1\n")
    holds((state / "mark").read_text().endswith("nodes 1 objects 1 copies 0\n"))
    same(sorted(it.name for it in state.iterdir()), ["log", "mark"])
    mark = (state / "mark").read_bytes()
    (state / "mark").write_bytes(b"no mark\n")
    room.run("aea-guard", "list", status=77)
    (state / "mark").write_bytes(mark)
    holder = room.lock()
    try:
        room.run("aea-guard", "-w", "0", "list", status=75)
    finally:
        holder.kill(), holder.wait(), holder.stdout.close()
    room.shell("until flock -n . true; do sleep 0.01; done")
    if os.getuid() == 0:
        room.run("aea-guard", "-w", "0", "list", status=77, is_other=True)
        os.chown(room.here / "ledger.aea", 12345, -1)
        room.run("aea-guard", "-w", "0", "list", status=77)
        holds("the archive is that of #12345" in room.told, room.told)


@case(("guard", 'has_not_gone_back "$1"\ntrap', "trap"), ("guard", '"$look" since "$state/mark" >/dev/null 2>&1 9>&- || return 1', "true"),
      ("aea_looks/ledgers.py", "if not there and copies:", "if False:"), ("guard", '[ "$1" != create ] && return 0', "return 0"))
def guard_refuses_each_rollback(room):
    room.run("aea-guard", "create", "3", "2", "5", "64", "4")
    room.run("aea-guard", "put", "a", input=b"abc")
    state, old = state_of(room), room.files()
    room.run("aea-guard", "put", "b", input=b"x")
    room.run("aea-guard", "copies")
    before = room.files()
    room.run("aea-guard", "put", "c", input=b"y")
    new, mark = room.files(), (state / "mark").read_bytes()

    def refused(*calls):
        kept = room.files()
        for words in calls or (["list"], ["put", "d"], ["session"], ["create", "3", "2", "5", "64", "4"]):
            room.run("aea-guard", *words, status=78)
        same((room.files(), (state / "mark").read_bytes()), (kept, mark))
        room.lay({it: new[it] for it in LEDGERS})

    # both copies older than the ledger; both gone; one older and the other one bad
    room.lay({it: before[it] for it in LEDGERS[1:]})
    refused()
    for it in LEDGERS[1:]:
        (room.here / it).unlink()
    refused()
    room.lay({LEDGERS[1]: before[LEDGERS[1]]}), room.change("ledger-3.aea", 40, b"xyz"), (room.here / "ledger.aea").unlink()
    refused()
    # copies of another archive
    there = room.top / "there"
    there.mkdir()
    for words in (["create", "3", "2", "5", "64", "4"], ["put", "a"], ["copies"]):
        room.run("aea", *words, cwd=there)
    room.lay({it: (there / it).read_bytes() for it in LEDGERS[1:]})
    refused()
    # an older ledger, and none, without copies
    for it in LEDGERS[1:]:
        (room.here / it).unlink()
    room.lay({LEDGERS[0]: old[LEDGERS[0]]})
    refused()
    for it in LEDGERS:
        (room.here / it).unlink()
    refused(["create", "3", "2", "5", "64", "4"])
    # what the program itself refuses has its status, and changes nothing
    for it in LEDGERS:
        (room.here / it).unlink()
    room.run("aea-guard", "list", status=3)
    room.lay({it: new[it] for it in LEDGERS})
    for it in ("ledger-2.aea", "ledger-3.aea"):
        room.change(it, 40, b"\xff\xff")
    room.run("aea-guard", "list", status=3)
    holds("copies bad" in room.told, room.told)
    room.lay({it: new[it] for it in LEDGERS})
    # one copy that is older is mended
    room.lay({LEDGERS[1]: before[LEDGERS[1]]})
    room.run("aea-guard", "list")
    same(room.files()[LEDGERS[1]], new[LEDGERS[1]])
    # a run that itself goes back leaves the mark and the log as they were
    (room.path / "aea").rename(room.path / "real")
    (room.path / "aea").write_text("#!/bin/sh\nrm ledger-?.aea; printf '\\0' | dd of=ledger.aea bs=1 seek=17 conv=notrunc status=none\nexit 5\n")
    (room.path / "aea").chmod(0o755)
    log = (state / "log").read_bytes()
    room.run("aea-guard", "stat", status=5)
    same(((state / "mark").read_bytes(), (state / "log").read_bytes()), (mark, log))
    holds("the mark was not renewed" in room.told, room.told)


@case(("guard", '"$look" log >', 'true || "$look" log >'), ("guard", '|| ! cmp -s "$state/mark" "$state/mark.new"', ""), ("guard", 'cp "$state/log" "$state/log.old"', "true"), ("guard", "folder=${folder//$'\\n'/%0A}\n", ""))
def guard_log(room):
    """The log has what sessions stored, what came about without guard, and what a kill kept from being logged; and nothing half."""
    room.run("aea-guard", "create", "3", "2", "5", "16", "4")
    state = state_of(room)
    holds("%0A" in state.name and "%2F" in state.name, state.name)
    room.run("aea", "put", "without guard", input=b"abc")
    room.run("aea-guard", "fence")
    room.run("aea-guard", "upgrade")
    folder = room.top / "files"
    folder.mkdir()
    for name, length in (("one", 16), ("two", 40), ("three", 0)):
        (folder / name).write_bytes(content(length))
    lines = room.run("aea-session", "--program", "aea-guard", "put", str(folder)).splitlines()
    log = (state / "log").read_bytes()
    same(log, room.run("aea-look", "log"))
    same(log.splitlines()[2:4], [b"fence 1", b"upgraded 1048576"])
    same([it for it in log.splitlines()[4:] if it.startswith(b"stored ")], lines)
    # a put whose guard is killed before it keeps the mark: the next call does it
    (room.path / "aea").rename(room.path / "real")
    (room.path / "aea").write_text('#!/bin/sh\nreal "$@"; kill -KILL $PPID\n')
    (room.path / "aea").chmod(0o755)
    room.run("aea-guard", "put", "killed", input=b"xyz", status=-signal.SIGKILL)
    same((state / "log").read_bytes(), log)
    (room.path / "real").rename(room.path / "aea")
    room.run("aea-guard", "list")
    holds((state / "log").read_bytes().endswith(b" killed\nnodes 6\n"), (state / "log").read_bytes())
    # a put that is interrupted while it waits for its input
    read, write = os.pipe()
    ready = room.top / "ready"
    (room.path / "aea").rename(room.path / "real")
    (room.path / "aea").write_text(f'#!/bin/sh\n: > {ready}\nexec real "$@"\n')
    (room.path / "aea").chmod(0o755)
    room.interrupted(["aea-guard", "put", "interrupted"], ready.exists, 130, stdin=read)
    os.close(read), os.close(write)
    (room.path / "real").rename(room.path / "aea")
    same((room.run("aea-guard", "list").count(b"interrupted"), sorted(it.name for it in state.iterdir())), (0, ["log", "mark"]))
    # without a mark it begins anew, and the log of before stays
    log = (state / "log").read_bytes()
    (state / "mark").unlink()
    room.create(3, 2, 5, 16, 3)
    room.run("aea-guard", "list")
    same(((state / "log").read_bytes(), (state / "log.old").read_bytes()), (b"created 3 2 5 16 3\nnodes 0\n", log))
