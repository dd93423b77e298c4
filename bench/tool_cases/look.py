"""Cases of `look damage`, `map`, `space`, `files` and `progress`."""

import os
import re
import shutil
import subprocess
import sys
import xml.dom.minidom

from trying import PHOTOS, case, content, holds, same, unchanged

DAMAGE = "aea_looks/damage.py"


def looked(room, scrub, *lines):
    """What `look damage` says, which has to have these lines."""
    said = room.run("aea-look", "damage", input=scrub, status=1).decode()
    for line in lines:
        holds(line in said.splitlines(), f"no line {line!r} in {said}")
    return said


def refuses_each_first_part(room, text):
    lines = text.splitlines(keepends=True)
    for at in range(len(lines)):
        room.run("aea-look", "damage", input=b"".join(lines[:at]), status=2)
    room.run("aea-look", "damage", input=text[:-1], status=2)


@case((DAMAGE, "if lines[-1] or lines[-2:-1] != [", "if False and lines[-2:-1] != ["), (DAMAGE, "if report.seal != ledger.seal():", "if False:"),
      (DAMAGE, "if report.counts != (", "if False and report.counts != ("), (DAMAGE, "len(cells) == ledger.homes.cells_of(site)]", "len(cells) != ledger.homes.cells_of(site)]"),
      (DAMAGE, "| sed -n 4p", "| sed -n 3p"), (DAMAGE, 'for word, block, _ in report.lines if word == "lost"', "for word, block, _ in report.lines"))
@unchanged
def look_damage(room):
    room.create(3, 2, 5, 64, 10, objects=PHOTOS)
    room.keep()
    same(room.run("aea-look", "damage", input=room.run("aea", "scrub")), b"blocks 144 damaged 0\nnext: nothing\n")
    shutil.rmtree(room.here / "site-02")
    os.symlink("/nowhere", room.here / "site-02")
    room.change("site-07/blocks.aea", 3 * 112, bytes(2 * 112))
    room.change("site-07/blocks.aea", 9 * 112 + 20, b"xyz")
    room.keep()
    scrub = room.run("aea", "scrub", status=1)
    # the objects have these nodes, one after the other
    owners = [name for (name, _), count in zip(PHOTOS, (2, 4, 5, 7, 8, 10)) for _ in range(count)]
    hurt = len({owners[int(it) - 1] for it in re.findall(r"damaged d(\d+)", scrub.decode())})
    said = looked(room, scrub, "blocks 144 damaged 17", "site 2 damaged 14 of 14: its link leads to /nowhere, where nothing is", "site 7 damaged 3 of 15",
                  "  bytes 336 to 559 of site-07/blocks.aea: zeros", "  bytes 1008 to 1119 of site-07/blocks.aea: changed", f"objects 6, with damaged data {hurt}")
    holds("next: all of site 2 is gone" in said and "site 7 is gone" not in said and ": beach 6.jpg" in said, said)
    preview = room.shell(re.search(r"next:   (aea scrub .*)", said)[1])
    refuses_each_first_part(room, scrub)
    os.unlink(room.here / "site-02")
    report = room.run("aea", "repair")
    room.keep()
    same(report.splitlines()[3], preview.strip())
    same(room.run("aea-look", "damage", input=report).splitlines()[1][:13], b"next: nothing")
    refuses_each_first_part(room, report)
    # an empty object has no node: the seal alone is another one
    room.run("aea", "put", "another")
    room.keep()
    room.run("aea-look", "damage", input=report, status=2)
    room.create(3, 2, 5, 64, 9, objects=PHOTOS)
    room.keep()
    room.run("aea-look", "damage", input=report, status=2)
    room.run("aea-look", "damage", input=scrub.replace(b"h", b"x"), status=2)


@case((DAMAGE, 'return "unreadable" if', 'return "changed" if'), ("aea_formats/archive.py", 'return "another block\'s"', 'return "changed"'),
      (DAMAGE, '{"another archive\'s or an older state\'s", "another block\'s"} & causes', "False"), (DAMAGE, 'if causes == {"intact"}:', "if False:"),
      ("aea_formats/archive.py", 'else "another archive\'s or an older state\'s"', 'else "changed"'), (DAMAGE, 'return f"its file has', 'return "" and f"its file has'))
@unchanged
def look_causes(room):
    room.create(3, 2, 5, 64, 10, objects=[("a", content(640))])
    other = room.files()
    room.create(3, 2, 5, 64, 10, objects=[("a", content(641)[1:])])
    # links that are exchanged
    whole = room.files()
    three, four = (room.here / f"site-0{it}/blocks.aea" for it in (3, 4))
    three.write_bytes(whole[four.relative_to(room.here)]), four.write_bytes(whole[three.relative_to(room.here)])
    room.keep()
    said = looked(room, room.run("aea", "scrub", status=1), "  bytes 0 to 447 of site-03/blocks.aea: another block's")
    holds("do NOT repair" in said and "flock . aea repair" not in said, said)
    # a site of another archive of this shape
    room.lay(whole)
    three.write_bytes(other[three.relative_to(room.here)])
    room.keep()
    said = looked(room, room.run("aea", "scrub", status=1), "  bytes 0 to 447 of site-03/blocks.aea: another archive's or an older state's")
    holds("do NOT repair" in said and "flock . aea repair" not in said, said)
    # a file that is cut, one that is missing, a folder that is missing; a disk that is back meanwhile
    room.lay(whole)
    os.truncate(three, 300), four.unlink(), shutil.rmtree(room.here / "site-05")
    room.keep()
    scrub = room.run("aea", "scrub", status=1)
    looked(room, scrub, "site 3 damaged 2 of 4: its file has 300 of 448 bytes", "site 4 damaged 4 of 4: its file is missing", "site 5 damaged 4 of 4: its folder is missing")
    (room.here / "site-05").mkdir(), room.lay(whole)
    room.keep()
    holds("scrub again" in looked(room, scrub, "  bytes 0 to 447 of site-05/blocks.aea: intact"))
    # a medium that gives an error
    (room.top / "errors").mkdir()
    (room.top / "errors" / "sitecustomize.py").write_text("import os, errno\ncall = os.pread\ndef pread(file, count, place):\n"
                                                          "    if place == 224: raise OSError(errno.EIO, os.strerror(errno.EIO))\n    return call(file, count, place)\nos.pread = pread\n")
    room.change("site-03/blocks.aea", 130, b"xyz"), room.change("site-03/blocks.aea", 240, b"xyz")
    room.keep()
    scrub = room.run("aea", "scrub", status=1)
    room.env["PYTHONPATH"] = str(room.top / "errors")
    holds("unreadable sector" in looked(room, scrub, "  bytes 112 to 223 of site-03/blocks.aea: changed", "  bytes 224 to 335 of site-03/blocks.aea: unreadable"))


@case((DAMAGE, "for node in object.nodes() if node in kinds", "for node in range(object.parts[0][0], object.parts[0][0] + object.count) if node in kinds"),
      (DAMAGE, "kinds.keys() - held", "()"), (DAMAGE, "if ledger.fences or ledger.nodes", "if ledger.nodes"))
@unchanged
def look_objects_in_parts(room):
    for sites in (1, 3, 10):
        room.create(2, 2, 3, 16, sites)
        room.run("aea", "upgrade")
        # d has the nodes 1 and 4, e has 2; node 3 is in no object, and a read-only folder is enough
        chunk = b"\0\0\0\x10" + b"q" * 16
        room.run("aea", "session", input=b"\1\0\0\1d" + b"\1\1\0\3e e" + b"\1\2\0\1f" + b"\2\0" + chunk + b"\2\1" + chunk + b"\2\2" + chunk + b"\2\0" + chunk + b"\3\0\3\1\4\2")
        room.run("aea", "fence")
        for site in room.here.glob("site-??/blocks.aea"):
            site.write_bytes(bytes(site.stat().st_size))
        room.keep()
        scrub = room.run("aea", "scrub", status=1)
        room.here.chmod(0o555)
        said = room.run("aea-look", "damage", input=scrub, status=1, is_other=True).decode().splitlines()
        room.here.chmod(0o755)
        same([it for it in said if "object" in it], ["object data 2 of 2 parities 4: d", "object data 1 of 1 parities 2: e e", "in no object 3", "objects 2, with damaged data 2"])
        same(len([it for it in said if it.startswith("site ")]), sites)
        holds("next:   aea fetch NAME > /dev/null      (status 0: it can be read)" in said, said)


@case(("aea_looks/maps.py", "((row + 1) * self.width - 1) // self.rows", "row * self.width // self.rows + 1"), ("aea_looks/maps.py", '"#" if bad == of', '"#" if bad'),
      ("aea_looks/picture.py", "return escape(text)", "return text"), ("aea_looks/picture.py", "        if bad:\n            yield mark", "        if False:\n            yield mark"))
@unchanged
def look_map(room):
    for sites in (1, 3, 10):
        room.create(3, 2, 5, 16, sites, objects=[("<a> & b", bytes(range(200)) * 2)])
        room.keep()
        same(set("".join(it.split("|")[1] for it in room.run("aea-look", "map", input=room.run("aea", "scrub")).decode().splitlines()[1:])) - {" "}, {"."})
        room.change("site-01/blocks.aea", 64 * 2 + 1, b"x")
        if sites > 1:
            shutil.rmtree(room.here / f"site-{sites:02}")
        room.keep()
        scrub = room.run("aea", "scrub", status=1)
        lines = room.run("aea-look", "map", input=scrub, status=1).decode().splitlines()[1:]
        same(len(lines), sites)
        holds(all(len(it.split("|")[1]) <= 64 for it in lines))
        damaged = int(scrub.split()[-1])
        same(sum(int(it.split("|")[2].split()[0]) for it in lines), damaged)
        if sites > 1:
            same(set(lines[-1].split("|")[1].strip()), {"#"})
            holds(lines[0].split("|")[1].startswith("..#."), lines[0])
        else:
            same(lines[0].split("|")[1][:3], ".5.")
        picture = room.run("aea-look", "map", "--svg", input=scrub, status=1)
        marks = [it.getAttribute("class") for it in xml.dom.minidom.parseString(picture).getElementsByTagName("path")]
        holds(b"href" not in picture and b"url(" not in picture and b"&lt;a&gt; &amp; b" in picture)
        damaged = picture.count(b'class="all"') + picture.count(b'class="some"') + picture.count(b'class="hurt"')
        # each has a mark beside its colour
        holds(damaged > 2 and marks == ["mark"] * damaged, f"{damaged} {marks}")
    room.run("aea-look", "map", "--png", status=2)


@case(("aea_looks/space.py", "-(-most * classes // sites)", "(most * classes // sites)"), ("aea_looks/space.py", "-(-most * classes // sites) * (block + formats.CELL_MORE)", "-(-most * classes // sites) * block"),
      ("aea_looks/space.py", "left = count_with_commas, ledger.block, ledger.limit - ledger.nodes", "left = count_with_commas, ledger.block, formats.LIMIT - ledger.nodes"))
@unchanged
def look_space(room):
    room.create(3, 2, 5, 64, 7, objects=PHOTOS[:1])
    said = room.run("aea-look", "space").decode()
    holds("used: 2 nodes, 128 bytes, by 1 of 65,536 objects with 100 bytes" in said and "left: 65,534 nodes, 4,194,176 bytes" in said, said)
    holds("at most: 65,536 nodes, 4,194,304 bytes of objects" in said and "after upgrade: 1,048,576 nodes, 67,108,864 bytes of objects" in said, said)
    free = os.statvfs(room.here)
    told = re.search(r"disk of site 1, 2, 3, 4, 5, 6, 7: ([\d,]+) bytes free, enough for ([\d,]+) nodes", said)
    of = [int(it.replace(",", "")) for it in told.groups()]
    holds(abs(of[0] - free.f_bavail * free.f_frsize) < 1 << 30 and of[1] == of[0] // (7 * 112) * 7 // 4, said)
    room.run("aea", "upgrade")
    room.keep()
    said = room.run("aea-look", "space").decode()
    holds("at most: 1,048,576 nodes" in said and "after upgrade" not in said and "left: 1,048,574 nodes" in said, said)
    said = room.run("aea-look", "space", "3", "2", "5", "4096", "7").decode()
    holds("at most: 65,536 nodes, 268,435,456 bytes of objects, 155,192,800 on each site, 8,388,608 in the ledger" in said, said)
    for words in (["1"], ["3", "1", "5", "4096", "7"], ["3", "2", "5", "15", "7"], ["a", "2", "5", "16", "7"], ["3", "2", "5", "16", "65"]):
        room.run("aea-look", "space", *words, status=2)
    room.run("aea-look", "space", cwd=room.top, status=3)


@case(("aea_looks/files.py", "objects.get(path) == digest_of_file(place)", "path in objects"), ("aea_looks/files.py", "total == counts[\"the same\"]", "True"),
      ("aea_looks/files.py", "            say(\"not read\", path", "            say(\"no file\", path"))
@unchanged
def look_files(room):
    folder = room.top / "files"
    (folder / "x" / "empty").mkdir(parents=True)
    for name, bytes_ in (("a", b"1"), ("b b", b"2"), ("x/c", b"3")):
        (folder / name).write_bytes(bytes_)
    (folder / "link").symlink_to("a")
    room.create(3, 2, 5, 64, 4, objects=[("a", b"1"), ("b b", b"2"), ("x/c", b"3")])
    room.keep()
    same(room.run("aea-look", "files", str(folder)), b"no file link\nempty x/empty/\nfiles 3 the same 3\n")
    (folder / "a").write_bytes(b"0"), (folder / "n\nn").write_bytes(b"")
    same(room.run("aea-look", "files", str(folder), status=1), b"differs a\nno file link\nmissing n\\nn\nempty x/empty/\nfiles 4 the same 2\n")
    (folder / "a").write_bytes(b"1"), (folder / "n\nn").unlink()
    (folder / "b b").chmod(0), (folder / "x" / "empty").chmod(0)
    said = room.run("aea-look", "files", str(folder), status=1, is_other=True)
    same(said, b"not read b b: Permission denied\nno file link\nnot read x/empty: Permission denied\nfiles 4 the same 2\n")
    room.run("aea-look", "files", str(folder / "none"), status=2)
    same(room.run("aea-look", "names"), b"a\nb b\nx/c\n")


@case(("aea_looks/progress.py", "if not pid.isdigit():", "if False:"), ("aea_looks/progress.py", 'if words[0] in (b"put", b"ingest", b"session"):', "if False:"), ("aea_looks/progress.py", "if not words_of(pid):", "if False:"),
      ("aea_looks/progress.py", "return 2 * sum(", "return sum("), ("aea_looks/progress.py", 'if words[0] == b"repair" and done >= total:', "if False:"))
def look_progress(room):
    room.run("aea-look", "progress", "self", status=2)
    room.run("aea-look", "progress", "999999999", status=2)
    room.create(3, 2, 5, 64, 4, objects=PHOTOS[:1])
    size = 8 * 112
    (room.top / "object").write_bytes(bytes(1000))
    # runs that wait, with the words of the program
    waits = "import sys, time; sys.stdout.write('read'); sys.stdout.flush(); time.sleep(30)"
    for word, more, line in (("put", "x", rb"put: 250 bytes of 1,000, 25 %\n"), ("scrub", "", b"scrub: [0-9,]+ bytes of 896, 100 %\n"),
                             ("get", PHOTOS[0][0], b"get: [0-9,]+ bytes of 448, 100 %\n"), ("repair", "", b"repair: 896 bytes of 896, 100 %, [0-9,]+ bytes written\n"),
                             ("list", "", b"list: [0-9,]+ bytes, 0 a second\n")):
        (room.here / word).write_text(waits)
        with open(room.top / "object", "rb") as file:
            file.seek(250)
            run = subprocess.Popen([sys.executable, word, *([more] if more else [])], stdin=file, stdout=subprocess.PIPE, cwd=room.here)
            run.stdout.read(4)
            look = subprocess.Popen(["aea-look", "progress", str(run.pid)], cwd=room.here, env=room.env, stdout=subprocess.PIPE)
            try:
                said = look.stdout.readline()
                holds(re.fullmatch(line, said), f"{said!r} and not {line!r}, {size}")
            finally:
                for it in (run, look):
                    it.kill(), it.wait(), it.stdout.close()
    run = subprocess.Popen(["sleep", "30"], cwd=room.top)
    try:
        room.run("aea-look", "progress", str(run.pid), status=3)
    finally:
        run.kill(), run.wait()
    # one that ends, and nobody waits for it
    run = subprocess.Popen(["sleep", "1"], cwd=room.here)
    holds(room.run("aea-look", "progress", str(run.pid), timeout=20).endswith(b"\nit has ended\n"))
    run.wait()
