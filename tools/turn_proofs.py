#!/usr/bin/env python3
"""Turns proofs that walk a generated `Tie` into Invariants.antt and Answers.antt.

usage: tools/turn_proofs.py NAMES CRATE..     at the top of the repository

NAMES is the folder that `rt names NAMES` wrote. In each CRATE every proofs/F/Proof.antt that closes by `tie.spec` becomes
Invariants.antt (its invariants and measures, over the record `l`) and Answers.antt (its lemmas, and the goals that it did
not leave to the plain search). What it could not turn by itself is printed.
"""
import json
import os
import re
import sys

WORD = r"[^\s(){}\[\].,;:λ∙×→`\"|]+"


def read(path):
    with open(path, encoding="utf-8") as f:
        return f.read()


def chunks(body):
    """The declarations of a file, each with the comment above it."""
    out, now = [], []
    for line in body.split("\n"):
        if line.strip() and not line[0].isspace() and line[0] != ")" and now and not now[-1].strip():
            out.append("\n".join(now).rstrip())
            now = []
        now.append(line)
    if any(x.strip() for x in now):
        out.append("\n".join(now).rstrip())
    return [x for x in (c.strip("\n") for c in out) if x.strip()]


def code(chunk):
    return "\n".join(x for x in chunk.split("\n") if not x.startswith("--"))


def name_of(chunk):
    m = re.match(r"(?:pub |abbrev |unfoldable )*(?:record |data )?(" + WORD + ")", code(chunk).strip())
    return m.group(1) if m else ""


def arguments(text):
    """The arguments of a call, split where no parenthesis is open."""
    out, depth, now = [], 0, ""
    for ch in text:
        if ch in "([{":
            depth += 1
        if ch in ")]}":
            depth -= 1
            if depth < 0:
                break
        if ch.isspace() and depth == 0:
            if now:
                out.append(now)
            now = ""
        else:
            now += " " if ch.isspace() else ch
    if now:
        out.append(now)
    return [re.sub(r"\s+", " ", x) for x in out]


def plain(name):
    return re.sub("[-_]", "", name)


def tokens(text):
    return set(re.findall(WORD, text)) | set(re.findall(r"[^\s\w(){}.,;]+", text))


def imports(uses, text):
    """The `use` lines that a text needs."""
    words = tokens(re.sub(r"^--.*$", "", text, flags=re.M))
    whole = re.sub(r"^--.*$", "", text, flags=re.M)
    out = []
    for line in uses:
        m = re.match(r"use ([^{]*)\.\{(.*)\}$", line)
        if not m:
            last = line.split(" as ")[-1].split(".")[-1].strip()
            if re.search(r"(?<![\w.-])" + re.escape(last) + r"\.", whole):
                out.append(line)
            continue
        kept = []
        for item in (x.strip() for x in m.group(2).split(",")):
            n = item.split(" as ")[-1].strip()
            parts = [p for p in n.split("◌") if p]
            if "◌" in n and all(p in words or p in whole for p in parts) or n in words or "→" in n and n in whole:
                kept.append(item)
        if kept:
            out.append("use %s.{%s}" % (m.group(1), ", ".join(kept)))
    return out


def parts(path):
    text = read(path)
    lines = text.split("\n")
    i = 0
    head, uses = [], []
    while i < len(lines) and (lines[i].startswith("--") or lines[i].startswith("use ") or not lines[i].strip()):
        if lines[i].startswith("use "):
            uses.append(lines[i])
        elif lines[i].startswith("--"):
            if uses or (head and not lines[i - 1].startswith("--")):
                break
            head.append(lines[i])
        i += 1
    return head, uses, "\n".join(lines[i:])


class Turned:
    def __init__(self, crate, folder, names):
        self.crate, self.folder, self.said = crate, folder, []
        rel = os.path.relpath(folder, "crates/%s/proofs" % crate)
        self.path = rel.replace("/", ".")
        self.names = names.get("Rattle-%s-proofs.%s.Lts" % (crate, self.path))
        self.head, self.uses, body = parts(os.path.join(folder, "Proof.antt"))
        self.uses = [u for u in self.uses if not re.search(r"\.(Statement\.\{|Tie\b)", u)]
        self.chunks = chunks(body)
        # Lemmas that take a whole record of the walk keep their way back through it.
        self.records = bool(re.search(r"\btie\.(?!Need-|invariant-|decreases-|close|spec)", body))

    def types(self, text):
        """The records of the walk that lemmas name, by their names of today."""
        turn = {plain(p[0]): n for p, n in zip(self.names["places"], self.names["places_by_name"])}
        return re.sub(r"tie\.(" + WORD + r")(?: (?:invariant-loop|Inv)\S* (?:decreases-loop|μ)\S*)?", lambda m: "goal." + turn.get(plain(m.group(1)), m.group(1)), text)

    def say(self, text):
        self.said.append("%s/%s: %s" % (self.crate, self.path, text))

    def steps(self, text):
        """Paths through `c`: the steps by their names of today, with no way back through `.before`."""
        turn = {plain(old): new for _, _, (old, new), *_ in self.names["places"] if old}
        for old, new in (x[0] if isinstance(x[0][0], str) else x[0][0] for x in self.names["loops"]):
            turn[plain(old)] = new
            turn[plain(old + "-test")] = new + "-test"
        if self.records:
            text = self.types(text)
        else:
            text = re.sub(r"(\.before)+(?![\w-])", "", text)

        def one(m):
            new = turn.get(plain(m.group(1)))
            return "." + new if new and new != m.group(1) else m.group(0)

        return re.sub(r"(?<=[\w)'])\.(" + WORD + ")", one, text)

    def invariants(self, order):
        loops = self.names["loops"]
        out = []
        for j, n in enumerate(order):
            chunk = next((c for c in self.chunks if name_of(c) == n), None)
            if chunk is None:
                self.say("no " + n)
                continue
            loop = loops[j // 2] if j // 2 < len(loops) else None
            if loop is None:
                self.say("more invariants than loops")
                continue
            kind = "invariant" if j % 2 == 0 else "decreases"
            changed = self.names["changed"][j // 2]
            places = ["l.initial." + v if ch else "l." + v for v, ch in zip(loop[1], changed)] + ["l." + v for v, ch in zip(loop[1], changed) if ch]
            new = "%s-%s" % (kind, loop[0][1] if isinstance(loop[0][0], str) else loop[0][0][1])
            comment = "\n".join(x for x in chunk.split("\n") if x.startswith("--"))
            m = re.match(r"(?s)(.*?)" + re.escape(n) + r" : tie\.\S+\n((?:unfolding[^\n]*\n)?)" + re.escape(n) + r"((?: [^\s=]+)*) =(.*)", code(chunk))
            if not m:
                self.say("invariant of another form: " + n)
                continue
            given = m.group(3).split()
            if len(given) > len(places):
                self.say("invariant takes %d and not %d" % (len(given), len(places)))
                continue
            turn = dict(zip(given, places))
            body = re.sub(r"(?<![.\w'])(" + "|".join(re.escape(g) for g in sorted(given, key=len, reverse=True)) + r")(?![\w'₀-₉-])", lambda x: turn[x.group(1)], m.group(4)) if given else m.group(4)
            out.append((comment + "\n" if comment else "") + "abbrev pub %s : goal.%s\n%s%s l =%s" % (new, new, m.group(2), new, body))
        return out

    def run(self):
        spec = next((c for c in self.chunks if "tie.close" in c), None)
        if self.names is None or spec is None:
            self.say("left" + (": no names" if self.names is None else ""))
            return False
        m = re.search(r"tie\.spec\b(.*)", spec, re.S)
        args = arguments(m.group(1))
        own = {name_of(c): c for c in self.chunks}
        order = []
        while args and len(order) < len(args) and args[len(order)] in own and re.search(r": tie\.(invariant|decreases)-", own[args[len(order)]]):
            order.append(args[len(order)])
        args = args[len(order):]
        needs = [n[1] for n in self.names["needs"]]
        if len(args) != len(needs):
            self.say("%d answers and %d goals: %s" % (len(args), len(needs), " ".join(needs)))
        invariants = self.invariants(order)
        answers, used = [], set(order)
        opened = re.search(r"(?m)^unfolding [^\n]*$", code(spec))
        opened = opened.group(0) + "\n" if opened else ""
        new_name = {a: g for a, g in zip(args, needs) if a in own}
        for arg, goal in zip(args, needs):
            if arg in own and ": tie.Need-" in own[arg]:
                used.add(arg)
                chunk = own[arg]
                comment = "\n".join(x for x in chunk.split("\n") if x.startswith("--"))
                text = code(chunk)
                text = re.sub(r"(?s)^" + re.escape(arg) + r" : tie\.Need-.*?(?=\n(?:unfolding|" + re.escape(arg) + r" ))", "pub %s : goal.%s" % (goal, goal), text, count=1)
                text = re.sub(r"(?m)^" + re.escape(arg) + r" (\S+)(?: κs)? =", goal + r" \1 =", text)
                body = text.split("=", 1)[-1].strip()
                if body in ("search rules", "omega arith") and "unfolding" not in text:
                    continue
                lead, body = text.split("\n", 1)
                body = self.renamed(body, {a: g for a, g in new_name.items() if a != arg})
                answers.append((self.chunks.index(chunk), (comment + "\n" if comment else "") + lead + "\n" + self.steps(body)))
            else:
                b = re.match(r"\(λ (\S+)(?: κs)?\. (.*)\)$", arg)
                if b and b.group(2) in ("search rules", "omega arith") and not opened:
                    continue
                if b:
                    answers.append((len(self.chunks), self.steps("pub %s : goal.%s\n%s%s %s = %s" % (goal, goal, opened, goal, b.group(1), b.group(2)))))
                elif arg.startswith("("):
                    answers.append((len(self.chunks), self.steps("pub %s : goal.%s\n%s%s = %s" % (goal, goal, opened, goal, arg))))
                else:
                    self.say("answer " + arg)
        for c in self.chunks:
            if ": tie.Need-" in c and name_of(c) not in used:
                self.say("not used: " + name_of(c))
        turn = self.steps if self.records else (lambda t: t)
        helpers = [turn(c) for c in self.chunks if c is not spec and name_of(c) not in used and ": tie.Need-" not in c]
        self.write(invariants, [a for _, a in sorted(answers, key=lambda x: x[0])], helpers)
        return True

    def write(self, invariants, answers, helpers):
        module = "Rattle.%s.proofs.%s" % (self.crate, self.path)
        need = tokens("\n".join(invariants))
        moved, again = [], True
        while again:
            again = False
            for h in helpers:
                if h not in moved and name_of(h) in need and name_of(h) not in ("module", ""):
                    moved.append(h)
                    need |= tokens(code(h))
                    again = True
        lead = "\n".join(self.head)
        if invariants:
            shared = [h if re.match(r"(abbrev |unfoldable )?pub ", code(h)) else re.sub(r"(?m)^(?!--)(abbrev |unfoldable |)(?=\S)", r"\1pub ", h, count=1) for h in helpers if h in moved]
            text = "\n\n".join(shared + invariants)
            uses = imports(self.uses, text) + ["use %s.Given as goal" % module]
            self.put("Invariants.antt", lead, uses, text)
        helpers = [h for h in helpers if h not in moved]
        text = "\n\n".join(helpers + answers)
        helpers_only = not answers
        if answers or helpers:
            uses = imports(self.uses, text) + ["use %s.Goals as goal" % module]
            if moved:
                uses.append("use %s.Invariants.{%s}" % (module, ", ".join(name_of(h) for h in moved)))
            if helpers_only:
                self.say("lemmas and no answer")
            self.put("Answers.antt", lead, uses, text)
        if "tie." in text:
            self.say("still names tie.")
        os.remove(os.path.join(self.folder, "Proof.antt"))

    def renamed(self, text, names):
        """The words of a text that name other answers, by the goals that these answer."""
        return re.sub(r"(?<![.\w'\n-])(?<!^)" + WORD, lambda m: names.get(m.group(0), m.group(0)), text)

    def put(self, name, lead, uses, text):
        with open(os.path.join(self.folder, name), "w", encoding="utf-8") as f:
            f.write((lead + "\n" if lead else "") + "\n".join(uses) + "\n\n" + text + "\n")


def main():
    names, crates = sys.argv[1], sys.argv[2:]
    for crate in crates:
        with open(os.path.join(names, "crates", crate, "names.json")) as f:
            table = json.load(f)
        for folder, _, files in sorted(os.walk("crates/%s/proofs" % crate)):
            if "Proof.antt" not in files:
                continue
            t = Turned(crate, folder, table)
            t.run()
            for s in t.said:
                print(s)


if __name__ == "__main__":
    main()
