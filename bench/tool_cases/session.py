"""Cases of session."""

import os
import signal

from trying import case, content, holds, same

UPLOADS, FILES = "aea_sessions/uploads.py", "aea_sessions/new_files.py"


@case((UPLOADS, "nodes.take(self.length)", "pass"), (FILES, "        os.fsync(self.file)\n", ""), (FILES, "        sync_folder(os.path.dirname(self.path))\n\n", "\n"),
      (FILES, "        for folder in self.made:\n            sync_folder(folder)\n", ""))
def session(room):
    for words in ([], ["put"], ["get", "x"], ["no", "x"], ["put", "none"], ["--program", "none", "put", "."], ["put", "."], ["put", "/", "a\nb"]):
        room.run("aea-session", *words, status=2)
    for word in ("--help", "-h"):
        holds(room.run("aea-session", word).startswith(b"Stores files"))
    folder = room.top / "files"
    folder.mkdir()
    room.create(3, 2, 5, 16, 4)
    room.run("aea-session", "put", str(folder), status=3)
    room.run("aea", "upgrade")
    stub = room.path / "almost-full"
    stub.write_text('#!/bin/sh\nif [ "$1" = stat ]; then echo \'{"block":16,"nodes":1048573}\'; else exec aea "$@"; fi\n')
    stub.chmod(0o755)
    for name, size in (("a", 32), ("b", 17), ("c", 16), ("d d", 0)):
        (folder / name).write_bytes(bytes(size))
    lines = room.run("aea-session", "--program", "almost-full", "put", str(folder), status=1).splitlines()
    same(sorted(it.split(b" ", 4)[4] for it in lines), [b"a", b"c", b"d d"])
    holds("refused: full at 1048575 nodes b" in room.told, room.told)
    room.run("aea-session", "put", str(folder), "a", status=1)
    holds("refused: name taken a" in room.told, room.told)
    # the calls that make a file sure, in their order: its bytes, the folders that were made, its name
    (room.top / "site").mkdir()
    (room.top / "site" / "sitecustomize.py").write_text("import os\n" + "".join(
        f"def told_{it}(*words, call=os.{it}, **more):\n    os.write(2, b'call {it}' + (b' file' if type(words[0]) is int and os.fstat(words[0]).st_mode & 0o100000 else b'') + b'\\n')\n    return call(*words, **more)\nos.{it} = told_{it}\n" for it in ("fsync", "link")))
    room.env["PYTHONPATH"] = str(room.top / "site")
    room.run("aea-session", "get", str(room.top / "back" / "x"), "a")
    calls = [it[5:] for it in room.told.splitlines() if it.startswith("call ")]
    same(calls, ["fsync file", "fsync", "fsync", "link", "fsync"])
    same((room.top / "back" / "x" / "a").read_bytes(), bytes(32))
    # a file that is there stays
    (room.top / "back" / "c").write_bytes(b"mine")
    room.run("aea-session", "get", str(room.top / "back"), "c", "none", status=1)
    same(((room.top / "back" / "c").read_bytes(), sorted(os.listdir(room.top / "back"))), (b"mine", ["c", "x"]))


@case((FILES, "                os.unlink(self.part)", "                pass"), (UPLOADS, "            self.tell_of_the_rest()\n            raise", "            raise"))
def session_that_is_interrupted(room):
    """Ctrl-C while files are stored, and while an object is written: nothing is half made."""
    folder, back, ready = room.top / "files", room.top / "back", room.top / "ready"
    folder.mkdir()
    for k in range(3):
        (folder / f"f {k}").write_bytes(content(300000))
    room.create(1, 1, 0, 4096, 4)
    room.run("aea", "upgrade")
    room.run("aea-session", "put", str(folder), "f 0")
    # each piece takes its time
    (room.top / "site").mkdir()
    (room.top / "site" / "sitecustomize.py").write_text(f"import io, os, time\n\ndef slow(call):\n    def called(file, *words):\n        done = call(file, *words)\n        if file > 2 and os.path.isfile(f'/proc/self/fd/{{file}}'):\n"
                                                        f"            open({str(ready)!r}, 'w').close()\n            time.sleep(0.5)\n        return done\n    return called\nos.read, os.write = slow(os.read), slow(os.write)\n")
    slow = {**room.env, "PYTHONPATH": str(room.top / "site")}
    for number in (signal.SIGINT, signal.SIGTERM):
        ready.unlink(missing_ok=True)
        room.interrupted(["aea-session", "put", str(folder), "f 1", "f 2"], ready.exists, 128 + number, number, env=slow)
        holds("2 files were not stored" in room.told, room.told)
        same([it.split(b" ", 2)[2] for it in room.run("aea", "list").splitlines()], [b"f 0"])
        ready.unlink(missing_ok=True)
        room.interrupted(["aea-session", "get", str(back), "f 0"], ready.exists, 128 + number, number, env=slow)
        same(os.listdir(back), [])
    room.run("aea-session", "get", str(back), "f 0")
    same((back / "f 0").read_bytes(), content(300000))
