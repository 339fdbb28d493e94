#!/usr/bin/env python3
"""Spells the repository's own definitions and lemmas in snake case, once, behind port.py.

usage: tools/snake_names.py [--check]      at the top of the repository

What turns: names that .antt files of crates/ declare (definitions, lemmas, constructors, fields), where they have a dash or a capital behind a small
first letter. What stays: names of the library, the goals of a function's proof (their types begin with 'tie.' or 'statement') and what stands behind
a dot, if it is no field of ours and no path of ours; types, modules, functions of src/, strings. In comments, pages and edits only code turns.
Where a lemma would meet a definition, as 'sum-after' and 'sumAfter', it gets '_holds' behind its name. Lines 'look:' name spellings that fall together
in a file all the same.
"""

import os
import re
import sys

WORD = re.compile(r'[^\s(){}.;,@"«»]+')
TOKEN = re.compile(r'"(?:[^"\\\n]|\\.)*"|[^\s(){}.;,@"«»]+|\s+|.', re.S)
DECLARED = re.compile(
    r"(?m)^( *)((?:pub |abbrev |unfoldable |let |in |\| )*)([^\s(){}.;,@\"«»]+)"
    r"((?: \{[^{}\n]*\}| \([^()\n]*(?:\([^()\n]*\)[^()\n]*)*\))*) :(?=\s)(.*)$"
)
BLOCK = re.compile(r"^( *)(?:pub )?(record|data|module) ")
USE = re.compile(r"(?m)\buse ([^\s;{]+?)\.?(?:\{([^}]*)\})?(?=;|\s*$)")
SPAN = re.compile(r"`[^`\n]+`")


def snake(name):
    return re.sub(r"(?<=[a-z0-9])([A-Z])", lambda m: "_" + m[1].lower(), name).replace("-", "_")


def turns(name):
    return name[:1].islower() and ("-" in name.rstrip("-") or re.search(r"[a-z0-9][A-Z]", name) is not None) and re.fullmatch(r"[\w'₀-₉-]+", name) is not None


def files(root, ending):
    for folder, dirs, names in os.walk(root):
        dirs[:] = sorted(d for d in dirs if d not in ("out", ".git", "target"))
        for f in sorted(names):
            if f.endswith(ending):
                yield os.path.join(folder, f)


def read(path):
    with open(path, encoding="utf-8") as f:
        return f.read()


def own_names(crates):
    """The names that these crates declare, and the fields among them."""
    declared, fields = set(), set()
    for path in (p for c in sorted(crates) for p in files("crates/" + c, ".antt")):
        text = read(path)
        inside = None
        for line in text.split("\n"):
            block = BLOCK.match(line)
            if block:
                inside = (block[2], len(block[1]))
                continue
            if inside and line.strip() and len(line) - len(line.lstrip()) <= inside[1]:
                inside = None
            m = DECLARED.match(line)
            if m and inside and inside[0] == "record":
                fields.add(m[3])
        for m in DECLARED.finditer(text):
            if not re.match(r"\s*(tie\.|statement\b|\{M : Type 1\} → statement)", m[5]):
                declared.add(m[3])
        for names in re.findall(r"(?m)^ *let ([^\s(){}.;,@\"«»]+)", text):
            declared.add(names)
    return declared, fields


def spellings(declared, standing):
    """The new spelling of each of these names, beside those that stand."""
    old = {n for n in declared if turns(n)}
    taken = {snake(n) for n in old | standing if "-" not in n and turns(n)} | {n for n in declared | standing if "_" in n}
    return {n: snake(n) + ("_holds" if "-" in n and snake(n) in taken else "") for n in old}


# Lemmas that port.py has spelled so already, where a definition comes to the same name.
TURNED = {
    "crates/cuts/proofs/CirculantCuts.antt": "in_field",
    "crates/cuts/proofs/HadamardCuts.antt": "in_field",
    "crates/matrix/proofs/Masks.antt": "none_between",
    "crates/walk/proofs/EightSmallest.antt": "bound_of",
    "crates/walk/proofs/Told.antt": "bound_of",
    "crates/walk/proofs/Begun.antt": "bound_of|walk_at",
    "crates/walk/proofs/best_yet/Proof.antt": "walk_at",
}


class Turner:
    def __init__(self):
        self.crates = {c for c in os.listdir("crates") if os.path.isdir("crates/" + c)}
        listed = set(re.findall(r"(?m)^(\w+):", read("crates.txt"))) & self.crates
        names, fields = own_names(listed)
        more, more_fields = own_names(self.crates - listed)  # begun and not listed: they give way to the others
        self.table = {**spellings(more, names), **spellings(names, set())}
        self.declared, self.fields, self.said = set(self.table), {n for n in fields | more_fields if turns(n)}, []

    def code(self, text, kept):
        """A text of code with the names turned."""
        out, path, last = [], [], ""
        for m in TOKEN.finditer(text):
            t = m[0]
            if t == ".":
                path.append(last)
            elif WORD.fullmatch(t):
                if last != ".":
                    path = []
                    new = t in self.declared and t not in kept
                else:
                    ours = len(path) > 1 and path[0] == "Rattle" and path[1] in self.crates
                    new = t in self.fields or (ours and t in self.declared)
                if new:
                    t = self.table[t]
            if t == "." and last.isspace():
                path = []
            out.append(t)
            last = t if not t.startswith(".") else "."
        return "".join(out)

    def items(self, text):
        """The names that a file imports from libraries."""
        kept = set()
        for path, names in USE.findall(text):
            steps = path.split(".")
            if steps[0] == "Rattle" and len(steps) > 1 and steps[1] in self.crates:
                continue
            kept.update(WORD.findall(names))
        return kept

    def uses(self, text):
        """The lists of use lines from our own modules, turned."""

        def one(m):
            steps = m[1].split(".")
            if m[2] is None or not (steps[0] == "Rattle" and len(steps) > 1 and steps[1] in self.crates):
                return m[0]
            return m[0].replace("{" + m[2] + "}", "{" + WORD.sub(lambda w: self.table.get(w[0], w[0]), m[2]) + "}")

        return USE.sub(one, text)

    def clash(self, path, text, kept):
        words = set(WORD.findall(text))
        for name in sorted(words & self.declared - kept):
            new = self.table[name]
            if new in words:
                self.said.append(f"look: {path}: {name} and {new}")
            others = [w for w in words if w != name and w in self.declared and self.table[w] == new]
            if others:
                self.said.append(f"look: {path}: {name} and {others}")

    def antt(self, path, text):
        if path in TURNED:
            text = re.sub(rf"(?<![^\s(){{}}.;,])({TURNED[path]})(?![^\s(){{}}.;,])", r"\1_holds", text)
        kept = self.items(text)
        self.clash(path, text, kept)
        out = []
        for line in text.split("\n"):
            at = re.search(r"(?:^|\s)--(?:\s|$)", line)
            head, tail = (line[: at.start()], line[at.start() :]) if at else (line, "")
            out.append(self.code(head, kept) + SPAN.sub(lambda m: self.code(m[0][1:-1], set()).join("``"), tail))
        return self.uses("\n".join(out))

    def rt(self, path, text):
        kept = self.items(text)
        self.clash(path, text, kept)
        out = []
        for line in text.split("\n"):
            at = re.search(r"(?:^|\s)//", line)
            head, tail = (line[: at.start()], line[at.start() :]) if at else (line, "")
            out.append(self.code(head, kept) + SPAN.sub(lambda m: self.code(m[0][1:-1], set()).join("``"), tail))
        return self.uses("\n".join(out))

    def edit(self, path, text):
        lines = [
            line[:5] + self.code(line[5:], set()) if re.match(r"(old|new): ", line) else SPAN.sub(lambda m: self.code(m[0][1:-1], set()).join("``"), line)
            for line in text.split("\n")
        ]
        return "\n".join(lines)

    def page(self, path, text):
        out, fenced = [], False
        for line in text.split("\n"):
            if line.lstrip().startswith("```"):
                fenced = not fenced
            out.append(line if fenced else SPAN.sub(lambda m: self.code(m[0][1:-1], set()).join("``"), line))
        return "\n".join(out)


def main():
    check = "--check" in sys.argv
    it, changed = Turner(), 0
    jobs = [(p, it.antt) for p in files("crates", ".antt")] + [(p, it.rt) for p in files("crates", ".rt")]
    jobs += [(p, it.edit) for p in files("crates", ".edit")] + [(p, it.page) for p in files(".", ".md")]
    for path, turn in jobs:
        text = read(path)
        new = turn(path, text)
        if new != text:
            changed += 1
            if not check:
                with open(path, "w", encoding="utf-8") as f:
                    f.write(new)
    print("\n".join(it.said))
    print(f"{len(it.declared)} names, {changed} files")


main()
