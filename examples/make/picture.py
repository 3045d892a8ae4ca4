#!/usr/bin/env python3
"""Draws a card file as a PNG: its modules and references in the colours that the camera saw.

    python3 picture.py OUT.png FILE.card [--drawn FILE] [--near FILE] [LISTING ..]

Each listing adds a panel of the bits read, light where the bit is 1. With `--drawn`, the file of the bits drawn that
card.py writes, a module that was read wrong is red. With `--near`, what `oracle nearest` prints, only the references and
the module are drawn: the module white in a frame, its nearest kept references framed, those that were not kept crossed out.
"""
import argparse
import struct
import zlib

PIXELS = 14  # a module's side
PAPER, WRONG, BITS = (236, 236, 232), (214, 40, 40), [(26, 30, 38), (250, 250, 246)]
FRAME = (20, 90, 220)


def sections(file):
    """The five sections of a card file that is laid out well."""
    pairs = struct.unpack("<10I", file[:40])
    return [file[at : at + length] for at, length in zip(pairs[::2], pairs[1::2])]


def srgb(linear):
    """The bytes of a linear colour, clipped."""
    clipped = [min(max(v, 0.0), 1.0) for v in linear]
    return tuple(round(255 * (12.92 * v if v <= 0.0031308 else 1.055 * v ** (1 / 2.4) - 0.055)) for v in clipped)


def camera(file):
    """The side, and the colour of each place that has a module or a reference."""
    settings, _, references, modules, _ = sections(file)
    squares = {}
    for r in struct.iter_unpack("<8f", references):
        squares[int(r[0] // 1), int(r[1] // 1)] = srgb(r[2:5])
    for x, y, *colour in struct.iter_unpack("<hh3f", modules):
        squares[x, y] = srgb(colour)
    return struct.unpack("<H", settings[:2])[0], squares


def luma(path):
    """The bit of each module in a listing, or in a file of drawn bits."""
    with open(path) as lines:
        words = [line.split() for line in lines]
    return {(int(w[1]), int(w[2])): int(w[-1]) for w in words if w[0] == "L"}


def panel(side, squares):
    """Rows of pixels: the grid, and three modules around it."""
    edge = range(-3, side + 3)
    rows = []
    for y in edge:
        row = [squares.get((x, y), PAPER) for x in edge]
        rows += [[colour for colour in row for _ in range(PIXELS)]] * PIXELS
    return rows


def near(file, path):
    """A panel of the references, with what is near a module."""
    side, squares = camera(file)
    places = [(int(r[0] // 1), int(r[1] // 1)) for r in struct.iter_unpack("<8f", sections(file)[2])]
    rows = [list(row) for row in panel(side, {at: squares[at] for at in places})]
    with open(path) as lines:
        words = [line.split() for line in lines]
    for kind, *numbers in words:
        at = tuple(int(float(v) // 1) for v in numbers[-2:])
        x, y = ((v + 3) * PIXELS for v in at)
        for i in range(PIXELS):
            for j in range(PIXELS):
                edge = min(i, j, PIXELS - 1 - i, PIXELS - 1 - j) < 2
                cross = abs(i - j) < 2 or abs(i + j - PIXELS + 1) < 2
                if kind == "M" or kind == "N" and edge or kind == "R" and cross:
                    rows[y + i][x + j] = WRONG if kind == "R" else FRAME if edge else BITS[1]
    return rows


def png(rows):
    """An image of rows of (red, green, blue)."""
    raw = b"".join(b"\0" + bytes(v for pixel in row for v in pixel) for row in rows)
    part = lambda name, body: struct.pack(">I", len(body)) + name + body + struct.pack(">I", zlib.crc32(name + body))
    head = struct.pack(">IIBBBBB", len(rows[0]), len(rows), 8, 2, 0, 0, 0)
    return b"\x89PNG\r\n\x1a\n" + part(b"IHDR", head) + part(b"IDAT", zlib.compress(raw, 9)) + part(b"IEND", b"")


def picture(file, listings, drawn):
    side, squares = camera(file)
    panels = [panel(side, squares)]
    truth = luma(drawn) if drawn else {}
    for listing in listings:
        read = luma(listing)
        panels.append(panel(side, {at: BITS[b] if truth.get(at, b) == b else WRONG for at, b in read.items()}))
    gap = [PAPER] * PIXELS
    return [sum((gap + row for row in rows[1:]), rows[0]) for rows in zip(*panels)]


def main():
    p = argparse.ArgumentParser(description="Draws a card file as a PNG.")
    p.add_argument("out", help="the PNG to write")
    p.add_argument("card", help="a card file")
    p.add_argument("listings", nargs="*", help="listings, a panel each")
    p.add_argument("--drawn", help="the bits drawn")
    p.add_argument("--near", help="a module and its nearest references")
    o = p.parse_intermixed_args()
    with open(o.card, "rb") as file:
        rows = near(file.read(), o.near) if o.near else picture(file.read(), o.listings, o.drawn)
    with open(o.out, "wb") as out:
        out.write(png(rows))


if __name__ == "__main__":
    main()
