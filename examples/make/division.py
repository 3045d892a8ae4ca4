#!/usr/bin/env python3
"""Draws how a palette divides the colours, from the counts that the library gave.

    python3 division.py OUT.svg INK.. --counts N..

The inks are hexadecimal, the dark ones by hue and then the light ones; the counts are those of `colour_counts` at nominal
noise, as bindings/c/margin.c prints them. Each of the 32,768 sRGB colours whose bytes are multiples of 8 is drawn twice: as
it is, and in the ink of the class that it falls to (grey: neither dark nor light). A square is one blue value; red rises to
the right, green downwards. The bars are the counts. Where the classes that are drawn do not add up to the counts, nothing
is written.

Standard library only. Each operation is rounded to an f32: sums, products and quotients of two f32 in f64 round right, and
the cube root is f64's, rounded.
"""
import argparse
import base64
import struct
import sys
import zlib

SINGLE = struct.Struct("f")
GREY = (128, 128, 128)


def f32(x):
    return SINGLE.unpack(SINGLE.pack(x))[0]


def linear(v):
    s = v / 255
    return f32(s / 12.92 if s <= 0.04045 else ((s + 0.055) / 1.055) ** 2.4)


LINEAR = [linear(v) for v in range(256)]
ROWS = ((0.4124564, 0.3575761, 0.1804375), (0.2126729, 0.7151522, 0.0721750), (0.0193339, 0.1191920, 0.9503041))
MATRIX = [[f32(x) for x in row] for row in ROWS]
WHITE = [f32(0.95047), 1.0, f32(1.08883)]
BORDER, SLOPE, SHIFT = f32(216 / 24389), f32(841 / 108), f32(4 / 29)


def curve(t):
    return f32(t ** (1 / 3)) if t > BORDER else f32(f32(t * SLOPE) + SHIFT)


def lab(colour):
    """An sRGB colour's Lab."""
    c = [LINEAR[v] for v in colour]
    f = []
    for row, white in zip(MATRIX, WHITE):
        t = f32(f32(f32(row[0] * c[0]) + f32(row[1] * c[1])) + f32(row[2] * c[2]))
        f.append(curve(f32(t / white)))
    return (f32(f32(116 * f[1]) - 16), f32(500 * f32(f[0] - f[1])), f32(200 * f32(f[1] - f[2])))


def palette(inks):
    """Each level's mean L, and each hue's mean a and b, as bindings/c/inks.h takes them."""
    k = len(inks) // 2
    levels, points = [0.0, 0.0], [[0.0, 0.0] for _ in range(k)]
    for i, ink in enumerate(inks):
        l, a, b = lab(ink)
        levels[i // k] = f32(levels[i // k] + f32(l / k))
        point = points[i % k]
        point[0], point[1] = f32(point[0] + a / 2), f32(point[1] + b / 2)
    return levels, points


def class_of(sample, levels, points):
    """Dark by hue, light by hue, or the last: the sign of luma_llr, and the likeliest hue, the lowest on equality. At
    nominal noise nothing is a NaN."""
    k, (l0, l1) = len(points), levels
    product = f32(f32(l1 - l0) * f32(f32(l0 + l1) - f32(2 * sample[0])))
    if product == 0:
        return 2 * k
    best, most = 0, None
    for h, (a, b) in enumerate(points):
        da, db = f32(sample[1] - a), f32(sample[2] - b)
        value = f32(-f32(f32(da * da) + f32(db * db)) / 72)
        if most is None or value > most:
            best, most = h, value
    return best + (0 if product > 0 else k)


def png(width, height, rows):
    def chunk(name, data):
        return struct.pack(">I", len(data)) + name + data + struct.pack(">I", zlib.crc32(name + data))

    data = b"".join(b"\0" + bytes(v for pixel in row for v in pixel) for row in rows)
    head = chunk(b"IHDR", struct.pack(">IIBBBBB", width, height, 8, 2, 0, 0, 0))
    return b"\x89PNG\r\n\x1a\n" + head + chunk(b"IDAT", zlib.compress(data, 9)) + chunk(b"IEND", b"")


def squares(colour):
    """32 squares of 32 x 32, eight in a row, with a gap of 2."""
    width, height = 8 * 34 - 2, 4 * 34 - 2
    rows = [[(255, 255, 255)] * width for _ in range(height)]
    for b in range(32):
        for g in range(32):
            for r in range(32):
                rows[b // 8 * 34 + g][b % 8 * 34 + r] = colour(r, g, b)
    return "data:image/png;base64," + base64.b64encode(png(width, height, rows)).decode()


def picture(inks, classes, counts):
    k, top = len(inks) // 2, 330
    paint = inks + [GREY]
    yield '<svg xmlns="http://www.w3.org/2000/svg" width="1140" height="%d" font-family="sans-serif" font-size="14">' % (
        top + 24 * len(counts))
    yield '<rect width="100%" height="100%" fill="#ffffff"/>'
    yield '<text x="10" y="22">the colours</text><text x="580" y="22">the inks that they fall to</text>'
    seen = squares(lambda r, g, b: (8 * r, 8 * g, 8 * b))
    fallen = squares(lambda r, g, b: paint[classes[r, g, b]])
    for x, image in ((10, seen), (580, fallen)):
        yield '<image x="%d" y="32" width="540" height="268" style="image-rendering:pixelated" href="%s"/>' % (x, image)
    for c, n in enumerate(counts):
        name = "dark, hue %d" % c if c < k else "light, hue %d" % (c - k) if c < 2 * k else "neither"
        y, width = top + 24 * c, n / 32768 * 900
        yield '<text x="10" y="%d">%s</text>' % (y, name)
        yield '<rect x="120" y="%d" width="%.1f" height="16" fill="#%02x%02x%02x"/>' % (y - 13, width, *paint[c])
        yield '<text x="%.1f" y="%d">%d</text>' % (128 + width, y, n)
    yield "</svg>"


def main():
    words = argparse.ArgumentParser(description=__doc__, formatter_class=argparse.RawDescriptionHelpFormatter)
    words.add_argument("out")
    words.add_argument("inks", nargs="+", type=lambda w: tuple(bytes.fromhex(w)))
    words.add_argument("--counts", nargs="+", type=int, required=True)
    words = words.parse_args()
    levels, points = palette(words.inks)
    steps = range(32)
    classes = {(r, g, b): class_of(lab((8 * r, 8 * g, 8 * b)), levels, points) for r in steps for g in steps for b in steps}
    drawn = [0] * (len(words.inks) + 1)
    for c in classes.values():
        drawn[c] += 1
    if drawn != words.counts:
        sys.exit("what is drawn adds up to other counts: " + " ".join(map(str, drawn)))
    with open(words.out, "w") as out:
        out.write("\n".join(picture(words.inks, classes, words.counts)) + "\n")


if __name__ == "__main__":
    main()
