#!/usr/bin/env python3
"""Makes every example of the folder again: card files, what the oracle's reader lists for them, and pages.

    python3 examples/make/examples.py           writes them
    python3 examples/make/examples.py --check   compares them with the stored ones

The oracle must be built (oracle/build). The files that the gate replays lie with the programs that do so
(crates/readcard, crates/card_vectors/data), and examples/ has copies of them, which the gate compares.
"""
import math
import os
import struct
import subprocess
import sys
from fractions import Fraction

sys.dont_write_bytecode = True
import card

ROOT = os.path.dirname(os.path.dirname(os.path.dirname(os.path.abspath(__file__))))
ORACLE = os.environ.get("ORACLE", os.path.join(ROOT, "target/oracle/proper-release/oracle"))

FOUR_HUES = "--side 16 --hues 4 --corners 4 --ring --version 10 --mask 3 --gain 0.95,0.85,0.7 --slope 0.4,-0.3"
FOUR_HUES += " --flare 0.02 --noise 0.004 --outliers 2 --seed 5"
# without references the noise is nominal, sigmas 6: half a sigma off a score is 29 * (29 - 6) / 72, which is 9.26
NEAR = "--side 12 --hues 2 --levels 40,69 --ring --mask 2 --noise 0.0012 --glare 6,5,0.006,4 --seed 3"
GLARE = "--side 16 --hues 2 --size 2 --corners 3 --ring --mask 5 --gain 0.9,0.8,0.7 --noise 0.006 --glare 9,7,0.5,5"


def two_modules(**changed):
    """The case of the scope: a black module and a white one; each refused card changes one thing of it."""
    made = card.Card(side=21, version=1, hues=1, size=1, mask=0, grid=2, palette=[0, 100, 0, 0, 0, 0, 0, 100, 0, 0])
    made.modules = [(0, 0, (0, 0, 0)), (1, 0, (1, 1, 1))]
    for name, value in changed.items():
        setattr(made, name, value)
    return made


def erasures():
    """A grey module halfway between the levels, a black one, and a white cell halfway between the hues."""
    dark, light = [0, 50, 0, 0, -50, 0], [100, 50, 0, 100, -50, 0]
    made = card.Card(side=21, version=1, hues=2, size=1, mask=0, grid=2, palette=[0, 100, 50, 0, -50, 0] + dark + light)
    grey = struct.unpack("<f", struct.pack("<I", 0x3E3C9B60))[0]  # its L is exactly 50
    made.modules = [(0, 0, (grey, grey, grey)), (1, 0, (0, 0, 0))]
    made.cells = [(0, 0, (1, 1, 1))]
    return made


def eight(dark, light, nominal):
    """Eight references on a diagonal, seen dark and light in turn, of which every second one is not black."""
    return [[i, i, *[(dark, light)[i % 2]] * 3, *[nominal * (i % 2)] * 3] for i in range(8)]


def refused():
    """A card file for each number that the program can print, but for its name."""
    nan = float("nan")
    late = two_modules().file()
    yield 1, late[:36] + struct.pack("<I", 16) + late[40:]  # the last section is said to be longer than it is
    yield 2, two_modules(side=0).file()
    yield 3, two_modules(hues=3, palette=[0, 100] + [0] * 24).file()
    yield 4, two_modules(size=0).file()
    yield 6, two_modules(grid=3).file()
    yield 7, two_modules(modules=[(0, 0, (0, 0, 0)), (21, 0, (1, 1, 1))]).file()
    yield 8, two_modules(modules=[(0, 0, (0, 0, 0)), (1, 0, (1, nan, 1))]).file()
    yield 11, two_modules(references=eight(0.5, 0.5, 1e38)).file()
    yield 12, two_modules(references=eight(0, 0.01, 1.0), modules=[(0, 0, (0, 0, 0)), (1, 0, (1e6, 1e6, 1e6))]).file()


def oracle(call, file):
    return subprocess.run([ORACLE, *call.split()], input=file, stdout=subprocess.PIPE, check=True).stdout


def season(listings):
    """The totals of all cards that were read, from their listings, in whole numbers."""
    read = [text for text in listings if not text.startswith("refused")]
    words = [line.split()[3] for text in read for line in text.splitlines() if line.startswith("L ")]
    scores = [abs(struct.unpack(">f", bytes.fromhex(word))[0]) for word in words]
    undecided, under = sum(v == 0 for v in scores), sum(v < 12 for v in scores)
    parts = sum(round(65536 * Fraction(v)) for v in scores)  # a tie to the even one
    most = math.gcd(parts, len(scores))
    counts = (len(read), len(scores), undecided, under, parts, parts // most, len(scores) // most, len(listings) - len(read))
    return "cards %d\nmodules %d\nundecided %d\nunder 12 %d\nsum %d\nmean %d/%d\nleft out %d\n" % counts


# the copies in examples/ that have another name than what they are copied from
COPIES = {"crates/readcard/stdin": "two-modules.card", "crates/readcard/stdout": "two-modules.txt"}


def examples():
    """Every stored file, by its path."""
    made = {}

    def put(file, card_path, listing_path):
        made[card_path], made[listing_path] = file, oracle("readcard", file)

    data = "crates/card_vectors/data/%s.%s"
    put(two_modules().file(), "crates/readcard/stdin", "crates/readcard/stdout")
    for name, words in (("four-hues", FOUR_HUES), ("glare", GLARE), ("near-levels", NEAR)):
        drawn, lines = card.draw(card.options(["-"] + words.split()))
        put(drawn.file(), data % (name, "card"), data % (name, "txt"))
        made["examples/%s.drawn" % name] = lines.encode()
    put(erasures().file(), data % ("erasures", "card"), data % ("erasures", "txt"))
    for name in ("four-hues", "erasures"):
        made["examples/%s.page" % name] = oracle("page", made[data % (name, "card")])
    made["examples/glare.unrefined.txt"] = oracle("unrefined", made[data % ("glare", "card")])
    made["examples/four-hues.near.txt"] = oracle("nearest 1 8", made[data % ("four-hues", "card")])
    for number, file in refused():
        name = "refused-%d" % number
        put(file, data % (name, "card"), data % (name, "txt"))
    listings = [text.decode() for path, text in made.items() if path.startswith("crates/") and path.endswith((".txt", "stdout"))]
    made["examples/season.txt"] = season(listings).encode()
    for path in [p for p in made if p.startswith("crates/")]:
        made["examples/" + COPIES.get(path, os.path.basename(path))] = made[path]
    return made


def main():
    differ = []
    for path, content in examples().items():
        path = os.path.join(ROOT, path)
        if sys.argv[1:] == ["--check"]:
            with open(path, "rb") as stored:
                differ += [path] if stored.read() != content else []
        else:
            os.makedirs(os.path.dirname(path), exist_ok=True)
            with open(path, "wb") as out:
                out.write(content)
    if differ:
        sys.exit("these differ: " + " ".join(differ))


if __name__ == "__main__":
    main()
