"""The picture of `look map --svg`: one file that refers to no other.

A row for each site, with the cells of its file across; above them the objects, whose names a browser shows under the pointer. Damage has
a colour and a mark too: a cross where all cells of a strip are named, and a stroke where some are. What is to be read stands at the left, so
that it shows in a narrow window too."""

from xml.sax.saxutils import escape

from .maps import Strips

LEFT, TOP, WIDE, ROW, GAP, STRIPS, LEGEND = 190, 58, 896, 16, 4, 128, 22

STYLE = """
svg { color-scheme: light dark; font: 12px system-ui, sans-serif; }
.ground { fill: #ffffff; } text { fill: #1c1c1c; } .quiet { fill: #5c5c5c; }
.whole { fill: #d5dde6; } .some { fill: #f2b66d; } .all { fill: #d5452b; } .mark { stroke: #1c1c1c; stroke-width: 1.4; fill: none; }
.object { fill: #8aa9c8; } .odd { fill: #a9bfd5; } .hurt { fill: #d5452b; }
rect:not(.ground):hover { stroke: #1c1c1c; stroke-width: 1; }
@media (prefers-color-scheme: dark) {
.ground { fill: #15181c; } text { fill: #ececec; } .quiet { fill: #a5a5a5; }
.whole { fill: #34404d; } .some { fill: #a8691a; } .all { fill: #e5604a; } .mark { stroke: #ffffff; }
.object { fill: #56799c; } .odd { fill: #3f5d7b; } .hurt { fill: #e5604a; } rect:not(.ground):hover { stroke: #ffffff; }
}
"""


def name_of(object):
    """A name as XML has it: what it can't have, or what would be taken for markup, is written otherwise."""
    text = "".join(letter if letter.isprintable() else f"\\u{ord(letter):04x}" for letter in object.name.decode())
    return escape(text)


def rect(left, top, width, height, kind, title):
    return (f'<rect x="{left:.2f}" y="{top}" width="{max(width, 0.6):.2f}" height="{height}" class="{kind}">'
            f"<title>{title}</title></rect>")


def mark(left, top, width, is_all):
    middle, half = left + width / 2, min(4, max(width / 2 - 1, width / 4))
    strokes = f"M{middle - half:.2f} {top + 12}L{middle + half:.2f} {top + 4}"
    if is_all:
        strokes += f"M{middle - half:.2f} {top + 4}L{middle + half:.2f} {top + 12}"
    return f'<path class="mark" d="{strokes}"/>'


def picture(ledger, word, found):
    """The text of the picture of these blocks, which are named by this word."""
    strips = Strips(ledger, found, STRIPS)
    scale = WIDE / strips.rows
    width, below = LEFT + WIDE + 12, TOP + ledger.sites * (ROW + GAP) + 14
    height = below + 4 * LEGEND
    lines = [f'<svg xmlns="http://www.w3.org/2000/svg" viewBox="0 0 {width} {height}" width="{width}" height="{height}" role="img">',
             f"<title>{len(found)} of {ledger.blocks} blocks {word}</title>", f"<style>{STYLE}</style>",
             '<rect class="ground" width="100%" height="100%"/>',
             f'<text x="4" y="18">{len(found)} of {ledger.blocks} blocks {word}: AE({ledger.alpha},{ledger.s},{ledger.p}), '
             f'{ledger.nodes} nodes, {len(ledger.objects)} objects</text>', f'<text class="quiet" x="4" y="{TOP - 12}">objects</text>']
    lines += objects_of(ledger, found, scale)
    for site in range(1, ledger.sites + 1):
        lines += row_of(ledger, strips, site, word, scale)
    lines += legend(below, word)
    return "\n".join([*lines, "</svg>", ""])


def objects_of(ledger, found, scale):
    hurt = {ledger.lattice.node_and_class(block)[0] for block in found if block % ledger.classes == 0}
    for at, object in enumerate(sorted(ledger.objects, key=lambda it: it.parts)):
        for first, count in object.parts:
            is_hurt = any(node in hurt for node in range(first, first + count))
            left = LEFT + (first - 1) * ledger.classes / ledger.sites * scale
            width = count * ledger.classes / ledger.sites * scale
            title = f"{name_of(object)}: {object.length} bytes, nodes {first} to {first + count - 1}" + (", data named" if is_hurt else "")
            yield rect(left, TOP - 24, width, ROW, "hurt" if is_hurt else ("object", "odd")[at % 2], title)
            if is_hurt:
                yield mark(left, TOP - 24, width, True)


def names_of(ledger, site, first, end):
    """The names of some objects with a block in these cells of a site."""
    low, high = (ledger.lattice.node_and_class(ledger.homes.block_at(site, row))[0] for row in (first, max(first, end - 1)))
    names = [name_of(it) for it in ledger.objects if any(a <= high and low < a + count for a, count in it.parts)]
    return ", ".join(names[:5]) + (f" and {len(names) - 5} more" if len(names) > 5 else "")


def row_of(ledger, strips, site, word, scale):
    top, cell = TOP + (site - 1) * (ROW + GAP), ledger.homes.cell
    yield f'<text x="4" y="{top + 12}">site {site}</text>'
    for first, end, bad, of in strips.of_site(site):
        if not of:
            continue
        left, width = LEFT + first * scale, (end - first) * scale
        kind = "whole" if not bad else "all" if bad == of else "some"
        title = f"site {site}, bytes {first * cell} to {end * cell - 1}: {bad} of {of} cells {word}; {names_of(ledger, site, first, end)}"
        yield rect(left, top, width, ROW, kind, title)
        if bad:
            yield mark(left, top, width, bad == of)
    yield f'<text class="quiet" x="60" y="{top + 12}">{strips.damaged(site)} of {ledger.homes.cells_of(site)}</text>'


def legend(top, word):
    for at, (kind, text) in enumerate((("whole", "not " + word), ("some", "some cells " + word), ("all", "all cells " + word), ("hurt", "an object with " + word + " data"))):
        y = top + at * LEGEND
        yield f'<rect x="4" y="{y}" width="16" height="{ROW}" class="{kind}"/>'
        if at:
            yield mark(4, y, 16, kind != "some")
        yield f'<text x="26" y="{y + 12}">{text}</text>'
