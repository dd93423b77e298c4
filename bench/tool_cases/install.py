"""Cases of the list of files that bin/install and bin/package have, of the pages and the completion, and of install."""

import re
import shutil

from trying import MODULES, TOOLS, TOP, case, holds, same


@case(("layout.bash", "tools=(frames guard look salvage scrub session)", "tools=(frames look salvage scrub session)"),
      ("layout.bash", "modules=(aea_formats aea_looks aea_sessions)", "modules=(aea_formats aea_looks)"))
def list_of_files(room):
    room.shell(f'self={TOP}/bin/install; source {TOP}/bin/program.bash; source {room.tools}/layout.bash; sums() {{ echo sums; }}; umask 022; lay_out {room.top}/tree /usr "/usr/bin/env python3" plain {room.path}/aea')
    tree = room.top / "tree"
    tools = sorted(it.name for it in (tree / "bin").iterdir())
    same(tools, ["aea", *(f"aea-{it}" for it in TOOLS)])
    for name in tools[1:]:
        room.run(str(tree / "bin" / name), "--help", status=0)
        holds("No module" not in room.told, room.told)
        holds(not re.search(r"bin/(frames|guard|look|salvage|scrub|session)\b", (tree / "bin" / name).read_text()), name)
        holds(list((tree / "share" / "man").rglob(name + ".[18]")), f"{name} has no page")
        holds((tree / "share" / "bash-completion" / "completions" / name).exists(), name)
    packages = tree / "lib" / "python3" / "dist-packages"
    same(sorted(str(it.relative_to(packages)) for it in packages.rglob("*.py")), sorted(str(it.relative_to(TOP / "bin")) for it in (TOP / "bin").glob("*/*.py")))
    same(sorted(it.name for it in packages.iterdir()), sorted(MODULES))
    room.run("sh", "-c", f"PYTHONPATH={packages} python3 -c 'import aea_formats; print(aea_formats.Archive, aea_formats.Report)'")
    # what is installed works: each tool finds its modules
    room.create(3, 2, 5, 16, 4)
    same(room.run(str(tree / "bin" / "aea-look"), "names"), b"")
    room.run("aea", "upgrade")
    room.run(str(tree / "bin" / "aea-session"), "put", str(TOP / "package"), "README")
    room.run("sh", "-c", f"{tree}/bin/aea-frames {TOP}/package copyright | aea ingest")


@case(("install", "umask 022", "true"), ("install", '"${DESTDIR:-}$prefix/$file" || exit 1\n    else', '"$prefix/$file" || exit 1\n    else'), ("install", "rmdir", "true"), ("install", "-h | --help) usage", "-x) usage"))
def install(room):
    """Into a folder of a packager and out of it again, of a checkout whose program counts as proved."""
    top = room.top / "checkout"
    (top / "out").mkdir(parents=True)
    shutil.copytree(room.tools, top / "bin", ignore=shutil.ignore_patterns("__pycache__"))
    shutil.copy(TOP / "bin" / "program.bash", top / "bin")
    for name in ("docs", "package"):
        (top / name).symlink_to(TOP / name)
    shutil.copy((room.path / "aea").resolve(), top / "out" / "aea")
    (top / "bin" / "prove").write_text("#!/bin/sh\n")
    (top / "bin" / "prove").chmod(0o755)
    call, to = str(top / "bin" / "install"), room.top / "made" / "opt" / "aea"
    for words in ([], ["opt"], ["/a", "/b"], ["--remove"], ["--no"]):
        room.run(call, *words, status=2)
    for word in ("--help", "-h"):
        holds(b"Installs below PREFIX" in room.run(call, word))
    room.env["DESTDIR"] = str(room.top / "made")
    room.shell(f"umask 077; {call} /opt/aea")
    same({oct(it.stat().st_mode & 0o777) for it in to.rglob("*") if it.is_dir()}, {"0o755"})
    same({oct(it.stat().st_mode & 0o777) for it in to.rglob("*") if it.is_file()}, {"0o755", "0o644"})
    same(sorted(it.name for it in (to / "bin").iterdir()), ["aea", *(f"aea-{it}" for it in TOOLS)])
    room.create(3, 2, 5, 16, 4)
    room.run(str(to / "bin" / "aea-look"), "ledgers")
    (to / "bin" / "mine").write_bytes(b"")
    room.run(call, "--remove", "/opt/aea")
    same([str(it.relative_to(to)) for it in to.rglob("*") if it.is_file()], ["bin/mine"])
    same([it for it in to.rglob("*") if it.name.startswith("aea")], [])


@case(("aea.bash", "<(aea-look names", "<(aea list"), ("aea.bash", "files log names", "files names"), ("aea.bash", "_aea_session 3", "_aea_session 1"), ("aea.bash", "printf -v name %q", "printf -v name %s"))
def completion(room):
    """What bash completes: each word that a tool's own help names; names of objects by look, which changes nothing."""
    room.create(3, 2, 5, 16, 4, objects=[("notes", b"1"), ("no te", b"2"), ("other", b"")])
    room.run("aea", "copies")
    # a list would mend this copy
    room.change("ledger-2.aea", 40, b"xyz")
    kept = room.files()

    def words(*given):
        call = 'words() { COMP_WORDS=("$@"); COMP_CWORD=$(($# - 1)); _aea 2>/dev/null; printf "%s\\n" "${COMPREPLY[@]}"; }; words "$@"'
        return [it for it in room.run("bash", "-c", f"source {room.tools}/aea.bash; {call}", "", *given).decode().splitlines() if it]

    help = {it: room.run(f"aea-{it}", "--help").decode() + room.told for it in TOOLS}
    named = dict.fromkeys(re.findall(r"bin/look (\w+)", help["look"]))
    same(sorted(words("aea-look", "")), sorted([*named, "--help"]))
    commands = words("aea", "")
    same(commands, re.findall(r"(?m)^\.Cm ([a-z]+)", re.search(r"(?s)SYNOPSIS.*?DESCRIPTION", (TOP / "docs" / "aea.1").read_text())[0]))
    same(words("aea-guard", ""), ["-w", "--help", *commands])
    same(words("aea-guard", "-w", "5", "sc"), ["scrub"])
    for given in (["aea", "get", "no"], ["aea-guard", "fetch", "no"], ["aea-guard", "-w", "5", "get", "no"], ["aea-session", "get", "back", "no"], ["aea-session", "--program", "aea", "get", "back", "no"]):
        same(words(*given), ["no\\ te", "notes"])
    same((words("aea-session", "p"), words("aea-session", "--program", "aea", "")), (["put"], ["put", "get"]))
    same((words("aea-frames", "--"), words("aea-look", "map", "")), (["--keep-going", "--from", "--help"], ["--svg"]))
    same((words("aea-scrub", "-"), sorted(words("aea-salvage", "ledger-"))), (["--help"], ["ledger-2.aea", "ledger-3.aea"]))
    same(room.files(), kept)
    # the pages name the same words
    page = (TOP / "package" / "aea-look.1").read_text()
    same(re.findall(r"(?m)^\.It Cm (\w+)", page), list(named))
    for name in TOOLS:
        for status in sorted({int(it) for it in re.findall(r"(?:Status|\.) (\d+): ", " ".join(help[name].split()))}):
            section = next((TOP / "package").glob(f"aea-{name}.[18]")).read_text()
            holds(re.search(rf"(?m)^\.It {status}\b", section), f"the page of {name} has no status {status}")
