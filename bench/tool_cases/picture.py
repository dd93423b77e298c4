"""The case of the picture of `look map --svg` in a browser without a window, where one is installed: that colours and marks show, at two
widths, in light and in dark."""

import shutil
import struct
import subprocess
import zlib

from trying import PHOTOS, case, holds, same

BROWSERS = ("chromium", "chromium-browser", "google-chrome")
DARK = ("--force-dark-mode", "--enable-features=WebUIDarkMode")
HEIGHT = 300


def colours_of(png):
    """How often each colour is in a PNG of eight bits a channel that is not interlaced, its width and its height."""
    at, bytes_ = 8, b""
    while at < len(png):
        length, kind = struct.unpack(">I4s", png[at:at + 8])
        if kind == b"IHDR":
            width, height, depth, colour = struct.unpack(">IIBB", png[at + 8:at + 18])
        bytes_ += png[at + 8:at + 8 + length] if kind == b"IDAT" else b""
        at += length + 12
    wide, raw, above, counts = {2: 3, 6: 4}[colour], zlib.decompress(bytes_), bytes(width * 4), {}
    for row in range(height):
        kind, line = raw[row * (width * wide + 1)], bytearray(raw[row * (width * wide + 1) + 1:(row + 1) * (width * wide + 1)])
        for k in range(len(line)):
            a, b, c = line[k - wide] if k >= wide else 0, above[k], above[k - wide] if k >= wide else 0
            near = min((abs(b - c), 0, a), (abs(a - c), 1, b), (abs(a + b - 2 * c), 2, c))[2]
            line[k] = (line[k] + (0, a, b, (a + b) // 2, near)[kind]) & 255
        above = line
        for k in range(0, len(line), wide):
            colour = "#" + line[k:k + 3].hex()
            counts[colour] = counts.get(colour, 0) + 1
    return counts, width, height


@case(("aea_looks/picture.py", ".whole { fill: #34404d; }", ""), ("aea_looks/picture.py", ".mark { stroke: #ffffff; }", ".mark { stroke: #e5604a; }"), ("aea_looks/picture.py", ".ground { fill: #15181c; }", ""))
def look_map_in_a_browser(room):
    browser = next((it for it in BROWSERS if shutil.which(it)), None)
    if not browser:
        print("left out: the picture in a browser, since none is installed")
        return
    room.create(3, 2, 5, 16, 4, objects=PHOTOS[:4])
    shutil.rmtree(room.here / "site-02")
    room.change("site-03/blocks.aea", 64 * 2 + 20, b"xyz")
    picture = room.top / "map.svg"
    picture.write_bytes(room.run("aea-look", "map", "--svg", input=room.run("aea", "scrub", status=1), status=1))
    # the ground, damage, part of a strip, whole cells, marks and texts; and what is quiet, which has to show in the narrow one too
    for more, wanted in (((), ("#ffffff", "#d5452b", "#d5dde6", "#1c1c1c", "#5c5c5c")), (DARK, ("#15181c", "#e5604a", "#34404d", "#ffffff", "#a5a5a5"))):
        for width in (420, 1200):
            to = room.top / "map.png"
            subprocess.run([browser, "--headless=new", "--no-sandbox", "--disable-gpu", "--hide-scrollbars", f"--user-data-dir={room.top}/browser", *more, f"--window-size={width},{HEIGHT}",
                            f"--screenshot={to}", picture.as_uri()], stdout=subprocess.DEVNULL, stderr=subprocess.DEVNULL, timeout=100, check=True)
            counts, *size = colours_of(to.read_bytes())
            same(size, [width, HEIGHT])
            few = [it for it in wanted if counts.get(it, 0) < 8]
            holds(not few, f"{few} at {width}: {sorted(counts.items(), key=lambda it: -it[1])[:12]}")
