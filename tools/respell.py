#!/usr/bin/env python3
"""Gives the definitions and lemmas of specs/ and proofs/ the library's spelling: words in snake case.

usage: tools/respell.py [--say]      at the top of the repository; --say prints the names and changes nothing

A name that is declared in an .antt file, and that no .rt file declares, is respelled part by part, the parts being what dashes
join: `forUp` is `for_up`. A dash stays where it joins two names, as in `count_up-for_up`, and is `_` before or after a plain
word. Types, facts and modules keep their capital. Names that Rattle makes (goals, steps, fields of `c`) and names of src/ keep
their spelling. Where two names would fall together the older spelling of the part stays, and --say lists it.
"""
import collections
import glob
import re
import sys

TOKEN = re.compile(r"[^\s(){}\[\].,;:λ∙×→⊎⌜⌝`\"|?]+")
SIGNATURE = re.compile(r"^(\s*)((?:pub |abbrev |unfoldable )*)([^\s:(){}.,;]+(?: [^\s:(){}.,;]+)*) :( .*|)$")
HEAD = re.compile(r"^\s*(?:pub )?(?:record|data|ruleset) ([^\s({:]+)")
# Names that would fall together with another in plain snake case, and facts that had no capital.
OWN = {
    "allLive": "live_marks", "goesOn": "goes_further", "heldModules": "held_module_count", "isOne": "is_set",
    "laidOut": "laid_out_bytes", "levelIn": "level_within", "listAt": "list_entry", "noBits": "no_bits_read",
    "oneMore": "one_more_at", "oneUp": "one_larger", "positionAt": "position_of", "readAt": "read_score_at",
    "sameBytes": "equal_bytes", "takeAt": "taken_at", "promised": "IsPromised", "radiusSquared": "IsRadiusSquared",
}
PLAIN = {"one", "two", "sum", "of", "at", "in", "to", "on", "by", "all", "end", "ends", "last", "first", "same", "bits", "step"}


def read(path):
    with open(path, encoding="utf-8") as f:
        return f.read()


def snake(part):
    """A part of a name in snake case; a part that begins with a capital is a type's or a fact's name, and stays."""
    if not part or part[0].isupper() or not re.search(r"[a-z0-9][A-Z]", part):
        return part
    part = re.sub(r"([a-z0-9])([A-Z])(?=[a-z0-9_']|$)", r"\1_\2", part)
    part = re.sub(r"([a-z0-9])([A-Z][A-Z]+)", r"\1_\2", part)
    return part.lower()


def declared(files):
    """The names that .antt files declare, and those among them that are goals or proofs of Rattle's own asking."""
    names, made = collections.Counter(), set()
    for path in files:
        for line in read(path).split("\n"):
            if line.lstrip().startswith("--"):
                continue
            m = SIGNATURE.match(line)
            if m:
                for n in m.group(3).split():
                    names[n] += 1
                    if re.search(r":\s*(tie|goal)\.", line) or "statement M" in line:
                        made.add(n)
            m = HEAD.match(line)
            if m:
                names[m.group(1)] += 1
    return names, made


def words(files):
    """What the .antt files import and declare without a dash: the names that a dash may join."""
    found = set()
    for path in files:
        text = read(path)
        for m in re.finditer(r"^use [^{\n]*\{([^}]*)\}", text, re.M):
            found.update(x.strip().split(" as ")[-1].strip() for x in m.group(1).split(","))
    return {w for w in found if "-" not in w}


def foreign(files):
    """The names that files import from the library, which keep its spelling."""
    own = {p.split("/")[1] for p in glob.glob("crates/*/src")}
    found = set()
    for path in files:
        for m in re.finditer(r"^(?:ghost )?use ([^{\n]*)\.\{([^}]*)\}", read(path), re.M):
            parts = m.group(1).split(".")
            if not (parts[0] == "Rattle" and parts[1] in own):
                found.update(x.strip().split(" as ")[0].strip() for x in m.group(2).split(","))
    return found


def respelled(name, known):
    parts = [snake(p) for p in name.split("-")]
    out = parts[0]
    for left, right in zip(parts, parts[1:]):
        joins = left in known and right in known or left[:1].isupper() or not left or not right
        out += ("-" if joins else "_") + right
    return out


def bare(text):
    """The words of a text that stand alone: no part of a path, so names and variables that are read where they stand."""
    return {m.group(0) for m in re.finditer(r"(?<![.\w])[^\s(){}\[\].,;:λ∙×→⊎`\"|?]+(?!\.\w)", re.sub(r"--.*", "", text))}


def hides(rust):
    """For each .rt file the words of its clauses, each with the parameters of the functions whose clauses have it."""
    found = []
    for path in rust:
        for m in re.finditer(r"\bfn \w+\s*(?:<[^>]*>)?\((.*?)\)(.*?)\n\s*\{\n", read(path), re.S):
            params = set(re.findall(r"(\w+)\s*:", m.group(1)))
            found.append((params, set(TOKEN.findall(m.group(2)))))
    return found


def renaming(antt, rust):
    names, made = declared(antt)
    known = words(antt) | {snake(n) for n in names if "-" not in n}
    known = {k for k in known if len(k) > 2} - PLAIN
    alone = [(bare(read(p)), p) for p in antt]
    clauses = hides(rust)
    imported = words(antt)
    library = foreign(antt + rust)
    turned, kept = {}, {}
    taken = set(names) | imported
    order = sorted(names, key=lambda n: ("-" in n, n))
    for n in order:
        if n in made or n in library or n[:1].isupper() or n.startswith("◌"):
            continue
        for m in (OWN.get(n) or respelled(n, known), "-".join(snake(p) for p in n.split("-"))):
            if m == n:
                break
            hidden = any(m in w and n in w for w, _ in alone) or any(m in ps and n in ws for ps, ws in clauses)
            if m in taken or hidden:
                kept.setdefault(n, []).append(m + (" hidden" if hidden else " taken"))
                continue
            turned[n] = m
            taken.add(m)
            break
    return turned, kept


def turn_words(text, turned):
    """Each word of a text; a clause's label is a name of src/ and stays."""
    def one(m):
        stays = text[:m.start()].endswith((".ensures.", ".requires."))
        return m.group(0) if stays else turned.get(m.group(0), m.group(0))
    return TOKEN.sub(one, text)


def turn_said(text, turned):
    """A comment or a page: only what cannot be a word of English, or stands between backticks."""
    def one(m):
        w = m.group(0)
        return turned.get(w, w) if re.search(r"[a-z0-9][A-Z]", w) else w
    text = TOKEN.sub(one, text)
    return re.sub(r"`[^`\n]+`", lambda m: turn_words(m.group(0), turned), text)


def turn_antt(text, turned):
    lines = []
    for line in text.split("\n"):
        lines.append(turn_said(line, turned) if line.lstrip().startswith("--") else turn_words(line, turned))
    return "\n".join(lines)


CLAUSE = re.compile(r"^\s*(?:ghost use |(?:requires|ensures|decreases|invariant)\*?(?: \w+)? \{)")


def turn_rust(text, turned):
    lines, depth = [], 0
    for line in text.split("\n"):
        if depth or CLAUSE.match(line):
            brace = 0 if depth or line.lstrip().startswith("ghost") else line.index("{")
            lines.append(line[:brace] + turn_words(line[brace:], turned))
            depth += line.count("{") - line.count("}")
        else:
            head, slashes, said = line.partition("//")
            lines.append(head + slashes + turn_said(said, turned) if slashes and '"' not in head else line)
    return "\n".join(lines)


def turn_edit(text, turned):
    rust = re.search(r"^file: .*\.rt", text, re.M)
    lines = []
    for line in text.split("\n"):
        lines.append((turn_said if rust else turn_words)(line, turned) if line.startswith(("old: ", "new: ")) else line)
    return "\n".join(lines)


def main():
    antt = sorted(glob.glob("crates/*/specs/**/*.antt", recursive=True) + glob.glob("crates/*/proofs/**/*.antt", recursive=True))
    rust = sorted(glob.glob("crates/*/src/**/*.rt", recursive=True))
    turned, kept = renaming(antt, rust)
    if "--say" in sys.argv:
        for n in sorted(turned):
            print("turned", n, turned[n])
        for n in sorted(kept):
            print("kept", n, *kept[n], "->", turned.get(n))
        return
    pages = ["README.md"] + sorted(glob.glob("docs/*.md"))
    edits = sorted(glob.glob("crates/*/must-fail/*.edit"))
    for turn, paths in ((turn_antt, antt), (turn_rust, rust), (turn_edit, edits), (turn_said, pages)):
        for path in paths:
            old = read(path)
            new = turn(old, turned)
            if new != old:
                with open(path, "w", encoding="utf-8") as f:
                    f.write(new)


if __name__ == "__main__":
    main()
