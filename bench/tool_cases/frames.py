"""Cases of frames."""

import os
import signal

from trying import case, holds, same


@case(("frames", "    if files.failed and not is_going:\n        spoil(out)", "    if files.failed and not is_going:\n        pass"),
      ("frames", "            if not sys.stdout.isatty():\n                spoil(out)", "            pass"),
      ("frames", 'or b".." in path.split(b"/")', ""), ("frames", "    if has_archive(files):", "    if False:"),
      ("frames", 'if bytes and not bytes.endswith(b"\\0"):', "if False:"), ("frames", "return 0 if sys.stdout.isatty() else spoil(out) or 0", "return 0"))
def frames(room):
    folder = room.top / "files"
    (folder / "x" / "empty").mkdir(parents=True)
    for name, content in (("a", b"1"), ("b b", b""), ("x/c", b"333")):
        (folder / name).write_bytes(content)
    (folder / "link").symlink_to("a")
    os.mkfifo(folder / "pipe")
    room.create(3, 2, 5, 64, 4)
    words, ingest = ["aea-frames", str(folder)], ["aea", "ingest"]
    lines = room.pipe(words, ingest, (0, 0)).splitlines()
    same([it.split(b" ", 4)[4] for it in lines[:-1]], [b"a", b"b b", b"x/c"])
    for it in ("left out, a link: link", "left out, no file: pipe", "left out, an empty folder: x/empty", "frames: 3 files written, 3 left out, 0 failed"):
        holds(it in room.told.splitlines(), room.told)
    for more, status in ((["none"], 1), (["../x"], 2), (["x/../../x"], 2), (["/x"], 2), (["--no"], 1)):
        room.pipe(words + more, ingest, (status, 3))
    for whole in (["aea-frames"], ["aea-frames", str(folder / "none")], ["aea-frames", "--no", str(folder)], ["aea-frames", "."], ["aea-frames", "--from", "none", str(folder)],
                  ["aea-frames", "--from"], ["aea-frames", str(folder / "a")]):
        room.pipe(whole, ingest, (2, 3))
    holds("refused: bad stream at 1" in room.told, room.told)
    for word in ("--help", "-h"):
        room.pipe(["aea-frames", word], ingest, (0, 3))
        holds("Writes files below FOLDER" in room.told, room.told)
    # a folder stands for its files, and a path is taken once
    (folder / "x" / "d").write_bytes(b"4"), (folder / "x" / "c").unlink()
    same(room.pipe(words + ["x", "x/d", "./x//d"], ingest, (0, 0)).splitlines()[-1], b"end 1")
    # names of which none can be an object's
    (folder / "new").write_bytes(b"1")
    for name in (b"n\nn", b"l" * 100 + b"/" + b"m" * 155, b"no \xff utf-8"):
        path = os.fsencode(folder) + b"/" + name
        os.makedirs(os.path.dirname(path), exist_ok=True)
        open(path, "wb").close()
        room.pipe(words + ["new", name], ingest, (1, 3))
        holds("no name for an object" in room.told, room.told)
    same(room.pipe(["aea-frames", "--keep-going", str(folder), "new", "n\nn", "none"], ingest, (1, 0)).splitlines()[-1], b"end 1")
    holds("frames: 1 files written, 0 left out, 2 failed" in room.told, room.told)
    (folder / "newer").write_bytes(b"1")
    room.run("sh", "-c", f"printf 'newer' | aea-frames --from - '{folder}' | aea ingest", status=3)
    room.run("sh", "-c", f"printf 'newer\\0' | aea-frames --from - '{folder}' | aea ingest")
    same(room.run("aea", "get", "newer"), b"1")
    # a sparse file is stored in full
    os.truncate(folder / "newer", 3000)
    (folder / "newer").rename(folder / "sparse")
    room.pipe(words + ["sparse"], ingest, (0, 0))
    same(room.run("aea", "get", "sparse"), b"1" + bytes(2999))


@case(("frames", 'self.fail(f"not read: {why.strerror}", path)', "pass"), ("frames", "                os.close(os.open(self.place(path), os.O_RDONLY))\n", ""))
def frames_that_can_not_be_read(room):
    """A file and a folder without the right to read, of three: nothing is stored, and with --keep-going the others are."""
    folder = room.top / "files"
    (folder / "d").mkdir(parents=True)
    for name in ("a", "b", "c", "d/e"):
        (folder / name).write_bytes(b"1")
    room.create(3, 2, 5, 64, 4)
    for name in ("b", "d"):
        (folder / name).chmod(0)
        room.pipe(["aea-frames", str(folder)], ["aea", "ingest"], (1, 3), is_other=True)
        holds(f"not read: Permission denied: {name}\n" in room.told and "frames: 0 files written, 0 left out, " in room.told, room.told)
        same(room.run("aea", "list"), b"")
    lines = room.pipe(["aea-frames", "--keep-going", str(folder)], ["aea", "ingest"], (1, 0), is_other=True).splitlines()
    same([it.split(b" ")[-1] for it in lines], [b"a", b"c", b"2"])
    (folder / "d").chmod(0o755), (folder / "b").chmod(0o644)


@case(("frames", "held = piece[-1:]", "held = piece[-1:]; taken(held); held = b''"), ("frames", "    if not expected[2]:\n        copy(files.place(name), expected, len)\n", "    if not expected[2]:\n"))
def frames_of_a_changing_file(room):
    """A file that grows, is rewritten or becomes shorter after its folder was read: by a break in the tool itself."""
    folder = room.top / "files"
    folder.mkdir()
    room.create(3, 2, 5, 64, 4)
    text = (room.tools / "frames").read_text()
    for content, change in ((b"12345", "open(p, 'ab').write(b'6')"), (b"12345", "open(p, 'wb').write(b'54321')"),
                            (b"12345", "os.truncate(p, 2)"), (b"", "open(p, 'ab').write(b'6')")):
        for going, status in (([], (1, 3)), (["--keep-going"], (1, 0))):
            (folder / "a").write_bytes(content)
            os.utime(folder / "a", (1, 1))
            # changed when its first piece was read, which for an empty file is before it is opened
            where = "            left -= len(piece)\n" if content else "            go_on()\n            write(out"
            called = f"            changed(files.place(name) if 'files' in dir() else place)\n{where}"
            (room.tools / "frames").write_text(text.replace(where, called).replace("class Files:", f"def changed(p):\n    {change}\n\n\nclass Files:"))
            room.pipe(["aea-frames", *going, str(folder)], ["aea", "ingest"], status)
        same(room.run("aea", "list"), b"")
    (room.tools / "frames").write_text(text)


@case(("frames", "            spoil(out, files)\n            files.fail(\"interrupted\"", "            files.fail(\"interrupted\""),
      ("frames", 'tell("frames: the stream is not read to its end")\n        status = 1', 'status = 0'))
def frames_that_end_early(room):
    """Ctrl-C in the middle, a reader that goes away, and a stream that can't be written."""
    folder = room.top / "files"
    folder.mkdir()
    room.create(3, 2, 5, 64, 4)
    (folder / "a").write_bytes(b"1"), (folder / "large").write_bytes(bytes(3000000))
    room.shell(f"set -o pipefail; aea-frames '{folder}' large | head -c 10 > ../part", status=1)
    room.shell(f"aea-frames '{folder}' > /dev/full", status=1)
    # each piece takes its time, so that the signal comes between two
    room.edit("frames", "            left -= len(piece)\n", "            left -= len(piece)\n            import time; open(os.environ['READY'], 'w').close(); time.sleep(1)\n")
    ready = room.top / "ready"
    stored = room.top / "stored"
    for number, status in ((signal.SIGINT, 130), (signal.SIGTERM, 143)):
        room.env["READY"] = str(ready)
        out = room.interrupted(["bash", "-c", f"trap : INT TERM; aea-frames '{folder}' large | (trap '' INT TERM; aea ingest; echo $? > {stored}); exit ${{PIPESTATUS[0]}}"], ready.exists, status, number)
        holds("frames: 0 files written, 0 left out, 1 failed" in room.told, f"it said {room.told}")
        same((out, stored.read_text(), room.run("aea", "list")), (b"", "3\n", b""))
        ready.unlink()
