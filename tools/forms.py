#!/usr/bin/env python3
"""Counts, in crates/*/src, the places whose form docs/DESIGN-PASS.md speaks of, by point.

    tools/forms.py              counts of the files as they stand
    tools/forms.py COMMIT       counts of a commit
    tools/forms.py --list [..]  each place too, a line each

A place is found by its text alone: what a pattern finds need not be wrong. What is kept says why in a comment line that
begins with its point's word (WORDS): in the lines above the place or above its function, and of points 1, 2, 5 and 6 also at the
head of its section (`// ---- ..`), above its `impl` or at the head of its file; a fact's line stands once in its crate. For each
point: places found, kept with such a line, and left.
"""
import re
import subprocess
import sys
from collections import defaultdict


def sources(commit):
    """Path and text of each source file, in order."""
    if commit is None:
        names = subprocess.run(["git", "ls-files", "crates/*/src/*.rt"], capture_output=True, text=True, check=True).stdout.split()
        return [(name, open(name, encoding="utf-8").read()) for name in names]
    names = subprocess.run(["git", "ls-tree", "-r", "--name-only", commit, "crates"], capture_output=True, text=True, check=True).stdout.split()
    names = [name for name in names if re.fullmatch(r"crates/[^/]+/src/.*\.rt", name)]
    return [(name, subprocess.run(["git", "show", f"{commit}:{name}"], capture_output=True, text=True, check=True).stdout) for name in names]


def bare(text):
    """The text with comments and ghost clauses blanked, line for line."""
    text = re.sub(r"//[^\n]*", "", text)
    text = re.sub(r"ghost use [^\n]*", "", text)
    # a clause runs from its word to the brace that closes it
    out, i = [], 0
    for m in re.finditer(r"\b(requires|ensures\*?)\b[^{\n]*\{", text):
        if m.start() < i:
            continue
        out.append(text[i:m.start()])
        depth, j = 1, m.end()
        while depth and j < len(text):
            depth += {"{": 1, "}": -1}.get(text[j], 0)
            j += 1
        out.append("\n" * text.count("\n", m.start(), j))
        i = j
    out.append(text[i:])
    return "".join(out)


WORDS = {"1": "Structs of C|Number", "2": "Twin", "3": "By index", "4": "By hand", "5": "Slices|Facts", "6": "Slices", "7": "Switch"}


def is_kept(point, lines, number):
    """Whether a line that begins with the point's word stands where it speaks of line `number`, counted from 1."""
    word = re.compile(r"^\s*// (?:" + WORDS[point] + r"): ")
    above = number - 2
    spoken = [lines[number - 1]] + lines[max(0, number - 2):number - 1]
    # up to the comment of the function that the place is in
    i = above
    while i >= 0 and not re.match(r"\s*(pub )?(const )?(extern \"C\" )?fn |\s*(pub )?(struct|enum) |// ----", lines[i]):
        if lines[i].strip().startswith("//"):
            spoken.append(lines[i])
        i -= 1
    while i > 0 and re.match(r"\s*(//|#\[)", lines[i - 1]):
        spoken.append(lines[i - 1])
        i -= 1
    if point in "34":
        return any(word.match(line) for line in spoken)
    # above the `impl` that it is in, at the head of the section, and of the file
    j = i
    while j >= 0 and lines[j] != "}" and not lines[j].startswith("impl"):
        j -= 1
    if j >= 0 and lines[j].startswith("impl"):
        while j > 0 and lines[j - 1].startswith("//"):
            j -= 1
            spoken.append(lines[j])
    while i >= 0 and not lines[i].startswith("// ----"):
        i -= 1
    j = i + 1
    while i >= 0 and j < len(lines) and (lines[j].startswith("//") or not lines[j].strip()):
        spoken.append(lines[j])
        j += 1
    j = 0
    while j < len(lines) and lines[j].startswith("//"):
        spoken.append(lines[j])
        j += 1
    return any(word.match(line) for line in spoken)


FUNCTION = re.compile(r"(?:pub )?(?:const )?(?:extern \"C\" )?fn (\w+)")


def functions(path, text):
    """Name, line, parameters' text and body of each function."""
    for m in FUNCTION.finditer(text):
        i = text.find("(", m.end())
        depth, j = 1, i + 1
        while depth and j < len(text):
            depth += {"(": 1, ")": -1}.get(text[j], 0)
            j += 1
        k = text.find("{", j)
        semi = text.find(";", j)
        if k < 0 or 0 <= semi < k:
            continue
        depth, e = 1, k + 1
        while depth and e < len(text):
            depth += {"{": 1, "}": -1}.get(text[e], 0)
            e += 1
        yield m.group(1), text.count("\n", 0, m.start()) + 1, text[i + 1:j - 1], text[k:e], text[j:k]


def has_facts(crate, lines):
    """Whether a crate says why facts stand in its contracts: its line need not be above each of these."""
    return any(path.split("/")[1] == crate and any(re.match(r"\s*// Facts: ", line) for line in text) for path, text in lines.items())


def note(found, key, path, line, what):
    """One place: what is printed of it, and where it stands."""
    found[key].append((f"{path}:{line}: {what}", [(path, line)]))


def grep(found, key, path, text, pattern):
    for m in re.finditer(pattern, text, re.M):
        start = m.start() + len(m.group(0)) - len(m.group(0).lstrip())
        line = text.count("\n", 0, start) + 1
        note(found, key, path, line, text.splitlines()[line - 1].strip())


KEYWORDS = set("if else for in while return let mut match true false as fn pub self usize u8 u16 u32 u64 i16 i32 i64 f32 f64 bool".split())


def shape(body):
    """A body with its names numbered in the order in which they first stand, and its literals one."""
    names, out = {}, []
    for token in re.findall(r"0x[0-9a-f_]+|\d[\w.]*|\w+|[^\w\s]", body):
        if re.match(r"\d", token):
            out.append("0")
        elif token in KEYWORDS:
            out.append(token if token not in ("usize", "u8", "u16", "u32", "u64", "i16", "i32", "i64", "f32", "f64") else "T")
        elif re.match(r"\w", token):
            out.append(names.setdefault(token, f"n{len(names)}"))
        else:
            out.append(token)
    return out


def count(commit):
    found = defaultdict(list)
    shapes = defaultdict(list)
    facts = defaultdict(set)
    for path, text in sources(commit):
        code = bare(text)
        # 1: own enums and structs that say whether there is a value, and numbers for refusals
        grep(found, "1 enums with a refusal's number", path, code, r"Refused\(u32\)")
        grep(found, "1 enums of a value or nothing", path, code, r"enum \w+ \{\s*(None|NoSolution|Solved)\b")
        grep(found, "1 a flag or a number beside what it is about", path, code, r"^\s+(pub )?(solved|found|known|bad|number): (bool|u32),")
        for name, line, params, body, result in functions(path, code):
            if re.search(r"->\s*u32", result) and re.match(r"refused|number", name):
                note(found, "1 functions that answer a refusal's number", path, line, f"fn {name}")
            s = shape(body)
            if len(s) > 24:
                shapes[" ".join(s)].append((path, line, f"fn {name}"))
            names = re.findall(r"(\w+)\s*:", params)
            for pair in (("palette", "hues"), ("xs", "ys"), ("cxs", "cys"), ("flat", "n"), ("noise", "palette"), ("ata", "atb"), ("side", "grid"), ("text", "at")):
                if all(n in names for n in pair):
                    note(found, "5 parameters together: " + ", ".join(pair), path, line, f"fn {name}")
            if ("xs" in names and "ys" in names) or ("cxs" in names and "cys" in names):
                note(found, "6 parallel slices", path, line, f"fn {name}")
        # 3: loops
        for m in re.finditer(r"\bwhile\b[^{]*\{", code):
            depth, e = 1, m.end()
            while depth and e < len(code):
                depth += {"{": 1, "}": -1}.get(code[e], 0)
                e += 1
            block = code[m.end():e]
            tested = set(re.findall(r"\w+", code[m.start():m.end()]))
            steps = re.findall(r"^\s*(\w+) (?:\+=|-=) \w+;|^\s*(\w+) = (?:\w+ [+-] \w+);", block, re.M)
            if any((a or b) in tested for a, b in steps):
                note(found, "3 `while` that counts", path, code.count("\n", 0, m.start()) + 1, m.group(0))
        for m in re.finditer(r"\bfor (\w+) in ([^{;]*?\.\.[^{;]*?)\{", code):
            depth, e = 1, m.end()
            while depth and e < len(code):
                depth += {"{": 1, "}": -1}.get(code[e], 0)
                e += 1
            block = code[m.end():e]
            if ".iter" not in m.group(2) and re.search(r"\b" + m.group(1) + r"\b", block):
                note(found, "3 `for` over a range of indices", path, code.count("\n", 0, m.start()) + 1, m.group(0))
        # 4: by hand what a derive or a conversion gives
        grep(found, "4 widening `as`", path, code, r"\b\w+(\.\w+)? as (usize|u64|i64|f64)\b")
        grep(found, "4 structs and enums with no Debug", path, code, r"#\[derive\((?![^)]*Debug)[^)]*\)\]")
        grep(found, "4 exchange, copy and clear by hand", path, code, r"^\s*(?:pub )?fn (swap|copy|clear|fill)\w*\(")
        # 6: buffers with a length beside them
        grep(found, "6 buffers with a length beside them", path, code, r"^\s+(pub )?(count|len|used): usize,")
        # 7: chains that switch
        for name, line, params, body, result in functions(path, code):
            n = len(re.findall(r"\bif (\w+) == \d+ \{\s*return", body))
            if n > 2:
                note(found, "7 switches by tests on a number", path, line, f"fn {name} ({n})")
        # 5: facts that stand in the contracts of three functions or more
        for m in re.finditer(r"requires[^{\n]*\{ (.*) \}$", text, re.M):
            for fact in re.split(r" × ", m.group(1)):
                facts[(path.split("/")[1], fact.strip("() "))].add((path, text.count("\n", 0, m.start()) + 1))
    for key, places in shapes.items():
        if len(places) > 1:
            for place in places:
                note(found, "2 functions of one shape", *place)
    for (crate, fact), stands in sorted(facts.items()):
        if len(stands) > 2:
            found["5 facts in three contracts or more"].append((f"{crate}: {fact} ({len(stands)})", sorted(stands)))
    return found


def main():
    args = sys.argv[1:]
    listing = "--list" in args
    args = [a for a in args if a != "--list"]
    commit = args[0] if args else None
    found = count(commit)
    lines = {path: text.splitlines() for path, text in sources(commit)}
    for key in sorted(found):
        if key.startswith("5 facts"):
            kept = {place for place, _ in found[key] if has_facts(place.split(":")[0], lines)}
        else:
            kept = {place for place, stands in found[key] if all(is_kept(key[0], lines[path], line) for path, line in stands)}
        places = [place for place, _ in found[key]]
        print(f"{key}: {len(places)}, kept {sum(p in kept for p in places)}, left {sum(p not in kept for p in places)}")
        if listing:
            for place in places:
                print("    " + ("kept " if place in kept else "     ") + place)


main()
