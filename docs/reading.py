"""What docs/check looks at in the text of the documents: links, clauses that are cited in pairs, sizes, and how long sentences are."""

import re
from pathlib import Path

TOP = Path(__file__).resolve().parent.parent
# the greatest size of each document that has its final form
SIZES = {
    "README.md": 14500, "docs/ARCHITECTURE.md": 19800, "docs/DECISIONS.md": 28600, "docs/DISK.md": 13200, "docs/FIRST-HOUR.md": 11000,
    "docs/FORMATS.md": 29700, "docs/PROOF.md": 55000, "docs/SHAPES.md": 10450, "docs/STYLE.md": 6600, "docs/WORKING.md": 13200,
}
PAIR = re.compile(r"`([A-Za-z_]\w*(?:::\w+)?)`: ((?:`\w+`(?:, )?)+)")
LINK = re.compile(r"\]\(([^)\s]+)\)")
DECLARED = re.compile(r"(?:(?:pub|abbrev|record|data|mutual|opaque) )+(\w+)")
FIELD = re.compile(r"  (?:pub )?(\w+) :")
CLAUSE = re.compile(r"(?:ensures|requires|invariant|ghost)\b[^{]*?(\w+) \{|^\s*(?:pub(?:\(crate\))? )?(\w+) \{")


def anchors_of(path):
    """The anchors of the headings of a document."""
    heads = re.findall(r"^#+ (.*)$", re.sub(r"```.*?```", "", path.read_text(), flags=re.S), flags=re.M)
    return {re.sub(r"[^\w\- ]", "", head.lower()).replace(" ", "-") for head in heads}


def check_links(documents):
    """Prints each link within the tree that leads nowhere."""
    failures = 0
    for document in documents:
        for link in LINK.findall(re.sub(r"```.*?```", "", document.read_text(), flags=re.S)):
            if re.match(r"\w+:", link):
                continue
            path, _, anchor = link.partition("#")
            target = (document.parent / path).resolve() if path else document
            if not target.exists() or anchor and target.suffix == ".md" and anchor not in anchors_of(target):
                failures += 1
                print(f"{document.relative_to(TOP)}: the link {link} leads nowhere")
    return failures


def parts_of_the_tree():
    """The functions, traits and definitions of the tree, each with the names of its clauses, fields and cited definitions."""
    parts = {}
    for path in TOP.glob("crates/*/specs/**/*.antt"):
        owner = None
        for line in path.read_text().splitlines():
            if DECLARED.match(line):
                owner = DECLARED.match(line)[1]
                parts.setdefault(owner, set())
            if owner:
                field = FIELD.match(line)
                parts[owner].update([field[1]] if field else [], re.findall(r"\b[A-Z]\w+", line))
    for path in TOP.glob("crates/*/src/**/*.rt"):
        function = kind = None
        for line in path.read_text().splitlines():
            function = (re.search(r"\bfn (\w+)", line) or [None, function])[1]
            kind = (re.search(r"\b(?:struct|trait|enum) (\w+)|\bfor (\w+)(?:<.*)? \{", line) or [None, kind, None])[1] or kind
            for found in CLAUSE.findall(line):
                for owner in filter(None, (function, kind)):
                    parts.setdefault(owner, set()).update(filter(None, found))
    return parts


def check_pairs(documents):
    """Prints each `A`: `b` where A has no clause, field or cited definition b."""
    parts, failures = parts_of_the_tree(), 0
    for document in documents:
        for line in document.read_text().splitlines():
            for owner, names in PAIR.findall(line):
                known = set().union(*(parts.get(it, set()) for it in owner.split("::")))
                for name in re.findall(r"`(\w+)`", names) if known else []:
                    if name not in known:
                        failures += 1
                        print(f"{document.relative_to(TOP)}: `{owner}` has no `{name}`: {line.strip()[:80]}")
    return failures


def check_sizes():
    """Prints each document that is larger than it may be."""
    failures = 0
    for name, most in SIZES.items():
        size = (TOP / name).stat().st_size
        if size > most:
            failures += 1
            print(f"{name}: {size} bytes, and {most} at most")
    return failures


def sentences_of(document):
    """How many words each sentence of the running text has; tables, lists of names, code and headings are left out."""
    text = re.sub(r"```.*?```|<!-- begin.*?<!-- end -->", "", document.read_text(), flags=re.S)
    lines = [line for line in text.splitlines() if line and not re.match(r"[|#!>]", line)]
    text = re.sub(r"`[^`]*`", "x", re.sub(r"\]\([^)]*\)", "]", "\n".join(re.sub(r"^(?:[-*]|\d+\.) ", "", line) for line in lines)))
    return [len(re.findall(r"[\w’'-]+", it)) for it in re.split(r"(?<=[.:?])\s+|\n", text) if it.strip()]


def tell_measures(documents):
    """Prints for each document its size, its sentences, and how long they are."""
    for document in documents:
        lengths = sentences_of(document) or [0]
        over = sum(it > 40 for it in lengths)
        print(f"{document.relative_to(TOP)}: {document.stat().st_size} bytes, {len(lengths)} sentences, {sum(lengths) / len(lengths):.1f} words each, "
              f"{max(lengths)} in the longest, {over} over 40")
