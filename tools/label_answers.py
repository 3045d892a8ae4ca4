#!/usr/bin/env python3
"""Names the clauses that answers cite or prove by place: `.ensures.0` is `.ensures.low`, and a pair a record.

usage: tools/label_answers.py NAMES CRATE..     at the top of the repository, after tools/turn_proofs.py
"""
import glob
import json
import os
import re
import sys


def clauses():
    """The labels of each function's clauses, by crate and name."""
    found = {}
    for path in glob.glob("crates/*/src/**/*.rt", recursive=True):
        crate = path.split("/")[1]
        text = open(path, encoding="utf-8").read()
        for m in re.finditer(r"\bfn (\w+)\b(.*?)\n\s*\{\n", text, re.S):
            for kind in ("requires", "ensures"):
                labels = re.findall(r"^\s*" + kind + r"(?: (\w+))? \{", m.group(2), re.M)
                found.setdefault((crate, m.group(1)), {})[kind] = [x for x in labels if x]
    return found


def path_to_label(path, labels):
    """`.1.0` of three labels is the second's."""
    steps = re.findall(r"\.\d", path)
    k = 0
    while steps and steps[0] == ".1" and k < len(labels) - 1:
        steps.pop(0)
        k += 1
        if k == len(labels) - 1:
            break
    if k < len(labels) - 1:
        if not steps or steps[0] != ".0":
            return None
        steps.pop(0)
    return "." + labels[k] + "".join(steps)


def split_pair(text):
    """The parts of a parenthesised tuple, or None."""
    parts, depth, now = [], 0, ""
    for ch in text[1:-1]:
        if ch in "([{":
            depth += 1
        if ch in ")]}":
            depth -= 1
        if ch == "," and depth == 0:
            parts.append(now.strip())
            now = ""
        else:
            now += ch
    if now.strip():
        parts.append(now.strip())
    return parts if len(parts) > 1 else None


def flat(text, n):
    parts = split_pair(text)
    if parts is None:
        return None
    while len(parts) < n and parts[-1].startswith("(") and closes(parts[-1]):
        more = split_pair(parts[-1])
        if more is None:
            break
        parts = parts[:-1] + more
    return parts if len(parts) == n else None


def closes(text):
    depth = 0
    for i, ch in enumerate(text):
        depth += ch in "([{"
        depth -= ch in ")]}"
        if depth == 0:
            return i == len(text) - 1
    return False


def last_tuple(body):
    """Where the parenthesis that ends a body begins."""
    body = body.rstrip()
    if not body.endswith(")"):
        return None
    depth = 0
    for i in range(len(body) - 1, -1, -1):
        depth += body[i] in ")]}"
        depth -= body[i] in "([{"
        if depth == 0:
            before = body[:i].rstrip()
            return i if not before or before.endswith(("=", " in", "↦", "\nin")) or before == "in" else None
    return None


def main():
    names, crates = sys.argv[1], sys.argv[2:]
    table = clauses()
    for crate in crates:
        try:
            known = json.load(open(os.path.join(names, "crates", crate, "names.json")))
        except OSError:
            continue
        for folder, _, files in sorted(os.walk("crates/%s/proofs" % crate)):
            if "Answers.antt" not in files:
                continue
            rel = os.path.relpath(folder, "crates/%s/proofs" % crate).replace("/", ".")
            of = known.get("Rattle-%s-proofs.%s.Lts" % (crate, rel))
            if of is None:
                continue
            callee = {p[2][1]: p[3] for p in of["places"] if p[3]}
            path = os.path.join(folder, "Answers.antt")
            old = text = open(path, encoding="utf-8").read()

            def labels(step, kind):
                c = callee.get(step)
                if c is None:
                    return []
                parts = c.split("::")
                return table.get((parts[0], parts[-1]), {}).get(kind, [])

            def cited(m):
                ls = labels(m.group(1), "ensures")
                if len(ls) < 2:
                    return m.group(0)
                new = path_to_label(m.group(2), ls)
                return ".%s.ensures%s" % (m.group(1), new) if new else m.group(0)

            text = re.sub(r"\.([^\s.(){},;]+)\.ensures((?:\.\d)+)", cited, text)
            own = table.get((crate, rel.split(".")[-1]), {})

            def own_requires(m):
                ls = own.get("requires", [])
                if len(ls) < 2:
                    return m.group(0)
                new = path_to_label(m.group(1), ls)
                return ".requires" + new if new else m.group(0)

            text = re.sub(r"(?<=\bc)\.requires((?:\.\d)+)", own_requires, text)
            blocks = re.split(r"\n\n", text)
            for i, b in enumerate(blocks):
                m = re.search(r"(?m)^pub (\S+) : goal\.", b)
                if not m:
                    continue
                goal = m.group(1)
                if goal == "returns" or goal.startswith("returns-"):
                    ls = own.get("ensures", [])
                elif goal.endswith("-requires"):
                    ls = labels(goal[:-len("-requires")], "requires")
                else:
                    continue
                at = last_tuple(b)
                if len(ls) < 2 or at is None:
                    continue
                parts = flat(b.rstrip()[at:], len(ls))
                if parts is None:
                    continue
                blocks[i] = b[:at] + "record { " + "; ".join("%s = %s" % (l, p) for l, p in zip(ls, parts)) + " }"
            text = "\n\n".join(blocks)
            if not text.endswith("\n"):
                text += "\n"
            if text != old:
                open(path, "w", encoding="utf-8").write(text)
                print(path)


if __name__ == "__main__":
    main()
