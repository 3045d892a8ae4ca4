#!/usr/bin/env python3
"""Makes a card file: draws random bits as a colour card, and lets a lamp and a camera change its colours.

    python3 card.py OUT.card [--side 16] [--hues 4] [--corners 4] [--ring] [--glare 8,8,0.3,3] [--noise 0.01] ..

`--help` lists the options. With `--drawn FILE` the bits drawn are written too, in the order of the listing and in its
form without the scores, `L x y b` and `C i b`. The same options make the same bytes on every machine.
"""
import argparse
import random
import struct
import sys

# Hue angles of 1, 2 and 4 hues are the Rust's, as points of the unit circle; those of 8 and 16 go round evenly.
TWO = [(-0.7193, 0.6947), (0.8290, -0.5592)]
FOUR = [(0.3256, 0.9455), (-0.8339, 0.5519), (0.1736, -0.9848), (0.9969, -0.0785)]
QUARTER = [(1.0, 0.0), (0.9239, 0.3827), (0.7071, 0.7071), (0.3827, 0.9239)]
ROUND = [p for t in range(4) for a, b in QUARTER for p in [[(a, b), (-b, a), (-a, -b), (b, -a)][t]]]
HUES = {1: [(0.0, 0.0)], 2: TWO, 4: FOUR, 8: ROUND[::2], 16: ROUND}
LEVELS = {1: (10.0, 95.0), 2: (32.0, 78.0), 4: (30.0, 74.0), 8: (30.0, 74.0), 16: (30.0, 74.0)}
CHROMA = {1: 0.0, 2: 55.0, 4: 40.0, 8: 40.0, 16: 40.0}

WHITE = (0.95047, 1.0, 1.08883)
TO_LINEAR = [(3.2404542, -1.5371385, -0.4985314), (-0.9692660, 1.8760108, 0.0415560), (0.0556434, -0.2040259, 1.0572252)]


def linear_of_lab(l, a, b):
    """Linear light of a Lab colour (CIE, white D65)."""
    t = (l + 16) / 116
    inverse = lambda f: f * f * f if f > 6 / 29 else 3 * (6 / 29) * (6 / 29) * (f - 4 / 29)
    xyz = [w * inverse(f) for w, f in zip(WHITE, (t + a / 500, t, t - b / 200))]
    return tuple(sum(m * v for m, v in zip(row, xyz)) for row in TO_LINEAR)


def luma_mask(number, x, y):
    """Whether mask `number` turns the module at (x, y)."""
    product = y * x
    return [
        (y + x) % 2 == 0,
        y % 2 == 0,
        x % 3 == 0,
        (y + x) % 3 == 0,
        (y // 2 + x // 3) % 2 == 0,
        product % 2 + product % 3 == 0,
        (product % 2 + product % 3) % 2 == 0,
        ((y + x) % 2 + product % 3) % 2 == 0,
    ][number % 8]


def gray_inverse(g):
    """The number whose Gray code is g."""
    n = 0
    while g:
        n ^= g
        g >>= 1
    return n


class Palette:
    """Two levels and k hues, each colour with the Lab of its level and its hue."""

    def __init__(self, hues, levels=None):
        self.hues = hues
        self.levels = levels or LEVELS[hues]
        self.points = [(round(CHROMA[hues] * a, 2), round(CHROMA[hues] * b, 2)) for a, b in HUES[hues]]
        self.colours = [(l, a, b) for l in self.levels for a, b in self.points]

    def linear(self, light, hue):
        return linear_of_lab(*self.colours[light * self.hues + hue])

    def floats(self):
        flat = list(self.levels)
        for entry in self.points + self.colours:
            flat += entry
        return flat


class Channel:
    """What the lamp, the lens and the sensor do to a colour at a place."""

    def __init__(self, options, rng):
        self.o, self.rng = options, rng

    def observe(self, x, y, colour):
        o = self.o
        shade = 1 + o.slope[0] * (x / o.side - 0.5) + o.slope[1] * (y / o.side - 0.5)
        gx, gy, strength, width = o.glare
        glare = strength / (1 + ((x - gx) * (x - gx) + (y - gy) * (y - gy)) / (width * width))
        # the sum of 12 uniform numbers is near enough to a normal one, and the same on every machine
        normal = lambda: sum(self.rng.random() for _ in range(12)) - 6
        return [c * g * shade + o.flare + glare + o.noise * normal() for c, g in zip(colour, o.gain)]


class Card:
    """A card's settings and lists; `file` is its bytes."""

    def __init__(self, side, version, hues, size, mask, grid, palette):
        self.side, self.version, self.hues, self.size, self.mask, self.grid = side, version, hues, size, mask, grid
        self.palette, self.references, self.modules, self.cells = palette, [], [], []

    def sections(self):
        settings = struct.pack("<HBBBBH", self.side, self.version, self.hues, self.size, self.mask, self.grid)
        floats = lambda flat: struct.pack("<%df" % len(flat), *flat)
        references = b"".join(struct.pack("<8f", *r) for r in self.references)
        modules = b"".join(struct.pack("<hh3f", x, y, *c) for x, y, c in self.modules)
        cells = b"".join(struct.pack("<HH3f", x, y, *c) for x, y, c in self.cells)
        return [settings, floats(self.palette), references, modules, cells]

    def file(self):
        at, directory, sections = 40, b"", self.sections()
        for section in sections:
            directory += struct.pack("<II", at, len(section))
            at += len(section)
        return directory + b"".join(sections)


def corner(o, x, y):
    """Whether (x, y) lies in one of the four corner squares, whose colours are known."""
    near = lambda v: v < o.corners or v >= o.side - o.corners
    return near(x) and near(y)


def references(o, palette, channel, rng):
    """A reference for each module of the corners: all palette colours, white and black in turn; some are covered."""
    colours = [palette.linear(i % 2, i // 2) for i in range(2 * o.hues)] + [(1.0, 1.0, 1.0), (0.0, 0.0, 0.0)]
    places = [(x, y) for y in range(o.side) for x in range(o.side) if corner(o, x, y)]
    covered = set(rng.sample(range(len(places)), o.outliers))
    made = []
    for i, (x, y) in enumerate(places):
        nominal = colours[(x + 3 * y) % len(colours)]
        seen = channel.observe(x + 0.5, y + 0.5, nominal)
        if i in covered:
            seen = [v + 0.8 for v in seen]
        made.append([x + 0.5, y + 0.5, *seen, *nominal])
    return made


def symbol_bits(symbol, hues):
    """A symbol's bits, the high one first."""
    return [symbol >> i & 1 for i in reversed(range(hues.bit_length() - 1))]


def draw(o):
    """A card by the options, and the lines that say what was drawn."""
    rng = random.Random(o.seed)
    palette = Palette(o.hues, o.levels)
    channel = Channel(o, rng)
    card = Card(o.side, o.version, o.hues, o.size, o.mask, 0, palette.floats())
    card.references = references(o, palette, channel, rng)
    luma, chroma, hue_of = [], [], {}
    grid = [(x, y) for y in range(o.side) for x in range(o.side) if not corner(o, x, y)]
    for cx, cy in sorted({(x // o.size, y // o.size) for x, y in grid}, key=lambda c: (c[1], c[0])):
        symbol = rng.randrange(o.hues)
        chroma += symbol_bits(symbol, o.hues)
        hue_of[cx, cy] = (gray_inverse(symbol) + cx + cy) % o.hues
    light_of = {}
    for x, y in grid:
        bit = rng.randrange(2)
        light_of[x, y] = bit ^ luma_mask(o.mask, x, y)
        luma.append((x, y, bit))
        colour = palette.linear(light_of[x, y], hue_of[x // o.size, y // o.size])
        card.modules.append((x, y, channel.observe(x + 0.5, y + 0.5, colour)))
    card.grid = len(grid)
    edge = range(-2, o.side + 2)
    ring = [(x, y) for y in edge for x in edge if o.ring and (x in (-2, o.side + 1) or y in (-2, o.side + 1))]
    for x, y in ring:
        bit, symbol = rng.randrange(2), rng.randrange(o.hues)
        luma.append((x, y, bit))
        if o.size == 1:
            chroma += symbol_bits(symbol, o.hues)
        card.modules.append((x, y, channel.observe(x + 0.5, y + 0.5, palette.linear(bit, gray_inverse(symbol)))))
    for (cx, cy), hue in hue_of.items() if o.hues > 1 else ():
        light = next(light_of[p] for p in grid if (p[0] // o.size, p[1] // o.size) == (cx, cy))
        place = [c * o.size + o.size / 2 for c in (cx, cy)]
        card.cells.append((cx, cy, channel.observe(*place, palette.linear(light, hue))))
    lines = ["L %d %d %d" % m for m in luma] + ["C %d %d" % c for c in enumerate(chroma)]
    return card, "".join(line + "\n" for line in lines)


def numbers(count):
    def read(text):
        values = tuple(float(v) for v in text.split(","))
        if len(values) != count:
            raise ValueError
        return values

    return read


def options(words):
    p = argparse.ArgumentParser(description="Makes a card file of random bits, as a camera would see it.")
    p.add_argument("out", help="the card file to write")
    p.add_argument("--drawn", help="a file for the bits drawn")
    p.add_argument("--seed", type=int, default=1, help="another seed, other bits and noise")
    p.add_argument("--side", type=int, default=16, help="modules a side, 1 to 64 (16)")
    p.add_argument("--version", type=int, default=1, help="from 10 on the fit has 9 terms, else 4 (1)")
    p.add_argument("--hues", type=int, default=1, choices=sorted(HUES), help="1, 2, 4, 8 or 16 (1)")
    p.add_argument("--levels", type=numbers(2), help="L of the dark and of the light colours (by the hues)")
    p.add_argument("--size", type=int, default=1, help="modules a chroma cell's side (1)")
    p.add_argument("--mask", type=int, default=0, help="luma mask, 0 to 7 (0)")
    p.add_argument("--corners", type=int, default=0, help="side of the four corner squares, one reference a module (0)")
    p.add_argument("--outliers", type=int, default=0, help="references that something covers (0)")
    p.add_argument("--ring", action="store_true", help="a ring of modules two outside the grid")
    p.add_argument("--gain", type=numbers(3), default=(1.0, 1.0, 1.0), help="the lamp's red, green, blue (1,1,1)")
    p.add_argument("--slope", type=numbers(2), default=(0.0, 0.0), help="the lamp's change over x and y (0,0)")
    p.add_argument("--flare", type=float, default=0.0, help="light added everywhere (0)")
    p.add_argument("--glare", type=numbers(4), default=(0.0, 0.0, 0.0, 1.0), help="a bright spot: x,y,strength,width")
    p.add_argument("--noise", type=float, default=0.0, help="the sensor's deviation in linear light (0)")
    return p.parse_args(words)


def main(words=None):
    o = options(words)
    card, drawn = draw(o)
    file = card.file()
    if len(file) > 16384:
        sys.exit("the card would have %d bytes, and a card file has at most 16,384" % len(file))
    with open(o.out, "wb") as out:
        out.write(file)
    if o.drawn:
        with open(o.drawn, "w") as out:
            out.write(drawn)


if __name__ == "__main__":
    main()
