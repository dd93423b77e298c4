"""Cases of scrub."""

from trying import case, holds, same, unchanged, PHOTOS


@case(("scrub", '[ "$new" -gt 0 ] || exit 0', "exit 0"), ("scrub", "*) say \"$said\" && exit 78 ;;", "*) ;;"),
      ("scrub", "(echo \"$damaged\") <(echo \"$known\") | grep -c .)\ngone", "(echo \"$damaged\") /dev/null | grep -c .)\ngone"),
      ("scrub", '[ "$status" -le 1 ] || exit "$status"', "true"), ("scrub", 'flock -w "${AEA_WAIT:-3600}" 9 ||', "true ||"), ("scrub", "2) say \"$said\" && exit 77 ;;", ""),
      ("scrub", "trap 'rm -f \"$found\"' EXIT", "true"))
@unchanged
def scrub(room):
    state = room.top / "scrubs of\n5%"
    for words in ([], ["-x"], ["a", "b"], [""]):
        room.run("aea-scrub", *words, status=2)
    for word in ("--help", "-h"):
        room.run("aea-scrub", word)
    room.create(3, 2, 5, 64, 4, objects=PHOTOS[:2])
    old = (room.here / "ledger.aea").read_bytes()
    room.run("aea", "put", "c", input=b"x")
    same(room.run("aea-scrub", str(state)), b"total 28 damaged 0\nknown 0 new 0 no longer damaged 0\n")
    room.change("site-01/blocks.aea", 20, b"xyz")
    lines = room.run("aea-scrub", str(state), status=1).splitlines()
    same(lines[:3], [b"total 28 damaged 1", b"known 0 new 1 no longer damaged 0", b"blocks 28 damaged 1"])
    (state / "known").write_bytes(b"d1\nh3\n")
    same(room.run("aea-scrub", str(state)), b"total 28 damaged 1\nknown 2 new 0 no longer damaged 1\n")
    now, mark = (room.here / "ledger.aea").read_bytes(), (state / "mark").read_bytes()
    (room.here / "ledger.aea").write_bytes(old)
    same(room.run("aea-scrub", str(state), status=78), b"")
    (room.here / "ledger.aea").write_bytes(b"\0" + old[1:])
    room.run("aea-scrub", str(state), status=3)
    same((state / "mark").read_bytes(), mark)
    (room.here / "ledger.aea").write_bytes(now)
    (state / "mark").write_bytes(b"no mark\n")
    room.run("aea-scrub", str(state), status=77)
    (state / "mark").write_bytes(mark)
    holder = room.lock()
    try:
        room.env["AEA_WAIT"] = "0"
        same(room.run("aea-scrub", str(state), status=75), b"")
    finally:
        holder.kill(), holder.wait(), holder.stdout.close()
    room.shell("until flock -n . true; do sleep 0.01; done")
    # a folder that can't be written is enough, and a state that can't be is not
    room.here.chmod(0o555)
    room.run("aea-scrub", str(state), status=77, is_other=True)
    state.chmod(0o777), (state / "mark").chmod(0o666), (state / "known").chmod(0o666)
    room.run("aea-scrub", str(state), is_other=True)
    room.here.chmod(0o755)
    # a scrub that is interrupted, or ended, leaves nothing beside the mark and what is known
    ready = room.top / "ready"
    (room.path / "aea").rename(room.path / "real")
    (room.path / "aea").write_text(f"#!/bin/sh\n: > {ready}\nexec sleep 30\n")
    (room.path / "aea").chmod(0o755)
    for number, status in ((2, 130), (15, 143)):
        room.interrupted(["aea-scrub", str(state)], ready.exists, status, number)
        ready.unlink()
        same(sorted(it.name for it in state.iterdir()), ["known", "mark"])
    (room.path / "aea").unlink(), (room.path / "real").rename(room.path / "aea")
    holds(room.run("aea-scrub", str(state)).startswith(b"total 28 damaged 1\n"))
    room.keep()
