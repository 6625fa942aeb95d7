"""browser.py CHROMIUM FOLDER: the pictures that picture.py left in FOLDER, drawn by a browser: marks have their colours where the SVG puts them, the texts are
there, and the paper between them is white."""

import struct
import subprocess
import sys
import zlib
from pathlib import Path

import checks
from checks import check, equal
from drawing import Drawing, start_of

CHROMIUM, FOLDER = sys.argv[1], Path(sys.argv[2]).resolve()
HEIGHT = 1100  # pixels from the top: the legend and the panels of two sensors
WHITE = (255, 255, 255)


def unfiltered(kind, row, before, size):
    """A row of a PNG, by the row before it; size is the bytes of a pixel."""
    for at in range(len(row)):
        left = row[at - size] if at >= size else 0
        up = before[at]
        corner = before[at - size] if at >= size else 0
        if kind == 1:
            guess = left
        elif kind == 2:
            guess = up
        elif kind == 3:
            guess = (left + up) // 2
        else:
            near = sorted((left, up, corner), key=lambda value: abs(left + up - corner - value))
            guess = near[0]
        row[at] = (row[at] + guess) & 0xFF
    return row


def rows_of(data):
    """The rows of a PNG of 8 bits without interlace, and the bytes of a pixel."""
    assert data[:8] == b"\x89PNG\r\n\x1a\n"
    at, packed, size, width, height = 8, b"", 0, 0, 0
    while at < len(data):
        length, kind = struct.unpack(">I4s", data[at : at + 8])
        part = data[at + 8 : at + 8 + length]
        if kind == b"IHDR":
            width, height, depth, colour, _, _, interlace = struct.unpack(">IIBBBBB", part)
            assert (depth, interlace) == (8, 0) and colour in (2, 6)
            size = 3 if colour == 2 else 4
        elif kind == b"IDAT":
            packed += part
        at += length + 12
    plain, rows, before = zlib.decompress(packed), [], bytearray(width * size)
    for y in range(height):
        start = y * (width * size + 1)
        row = bytearray(plain[start + 1 : start + 1 + width * size])
        kind = plain[start]
        if kind:
            row = unfiltered(kind, row, before, size)
        rows.append(row)
        before = row
    return rows, size


class Screen:
    def __init__(self, path):
        self.rows, self.size = rows_of(path.read_bytes())
        self.width, self.height = len(self.rows[0]) // self.size, len(self.rows)

    def at(self, x, y):
        return tuple(self.rows[y][x * self.size : x * self.size + 3])

    def colours(self, left, top, right, bottom):
        return [self.at(x, y) for y in range(int(top), int(bottom)) for x in range(int(left), int(right))]


def shot(name, width):
    """Why the browser made no picture of the upper part; None where it did."""
    path = FOLDER / f"{name}.png"
    words = [CHROMIUM, "--headless", "--no-sandbox", "--disable-gpu", "--disable-dev-shm-usage", "--hide-scrollbars", "--force-device-scale-factor=1"]
    words += [f"--user-data-dir={FOLDER}/profile", f"--screenshot={path}", f"--window-size={width:.0f},{HEIGHT}"]
    try:
        done = subprocess.run([*words, (FOLDER / f"{name}.svg").as_uri()], capture_output=True, timeout=120)
    except (OSError, subprocess.TimeoutExpired) as error:
        return str(error)
    return None if done.returncode == 0 and path.exists() else f"exit status {done.returncode}: {done.stderr[-300:]}"


def colour_of(text):
    digits = text[1:] if len(text) == 7 else "".join(2 * digit for digit in text[1:])
    return tuple(bytes.fromhex(digits))


def drawn(name):
    drawing = Drawing((FOLDER / f"{name}.svg").read_bytes())
    fault = shot(name, drawing.width)
    if not check(fault is None, f"{name}: {CHROMIUM} made no picture, {fault}"):
        return
    screen = Screen(FOLDER / f"{name}.png")
    if not equal((screen.width, screen.height), (int(drawing.width), HEIGHT), f"{name}: the picture's size"):
        return
    sample = [screen.at(x, y) for y in range(0, HEIGHT, 3) for x in range(0, screen.width, 3)]
    check(len(set(sample)) >= 12, f"{name}: {len(set(sample))} colours")
    white = sample.count(WHITE) / len(sample)
    check(0.3 < white < 0.9, f"{name}: {white:.0%} of the picture are white")
    marks(name, drawing, screen)
    texts(name, drawing, screen)


def marks(name, drawing, screen):
    """The middle of a mark has its colour, unless a later one lies over it."""
    found, count = 0, 0
    for panel in drawing.panels.values():
        places = [start_of(point) for point in panel.points]
        for at, (x, y) in enumerate(places):
            if y + 10 > HEIGHT or any(abs(x - a) < 9 and abs(y - b) < 9 for a, b in places[at + 1 :]):
                continue
            count += 1
            wanted = colour_of(panel.points[at].get("fill"))
            around = [screen.at(round(x) + i, round(y) + j) for i in (-1, 0, 1) for j in (-1, 0, 1)]
            found += wanted in around
    check(count >= 4 and found == count, f"{name}: {found} of {count} marks have their colour")


def texts(name, drawing, screen):
    """Where the SVG has a text there are dark pixels."""
    blank = []
    for text, (left, top, right, bottom) in drawing.texts():
        if bottom < HEIGHT and not any(sum(colour) < 300 for colour in screen.colours(left, top, right, bottom)):
            blank.append(text)
    equal(blank, [], f"{name}: texts that aren't drawn")


# A browser that can't draw an empty picture says nothing of these.
(FOLDER / "empty-svg.svg").write_text('<svg xmlns="http://www.w3.org/2000/svg" width="9" height="9"/>')
unable = shot("empty-svg", 100)
if unable:
    print(f"SKIPPED: {CHROMIUM} draws nothing on this machine, not an empty picture either ({unable})")
    print("pictures in a browser: none drawn")
    sys.exit()
for each in ("one", "thirty", "thousand"):
    drawn(each)
checks.ended("pictures in a browser")
