#!/usr/bin/env python3
"""Respells the repository's own definitions and lemmas, once, after the kit's port.py: words in snake case, a dash only
between the names of two definitions. Names of functions, types, fields of the code, exported names, strings, inputs and
outputs stay. Run at the top of the checkout; prints each name that changes, old and new, and each that it left."""
import os
import re
import sys

SPLIT = re.compile(r"([\s(){}\[\].,;|\"]+)")
DECLARED = re.compile(r"^\s*(?:(?:abbrev|unfoldable|record|data|pub|ruleset|let)\s+)*([^\s:(){}\[\]=.,;|\"]+)((?: *[({][^(){}]*[)}])*) *:(?!=)\s")
OUTSIDE = re.compile(r"^\s*(?:ghost )?(?:pub )?use (?!Rattle\.(?!std))[^{;]*\{([^}]*)\}")
# Lemmas and a constructor that would fall together with a definition once that is respelled: where, what, and what they are called.
FIRST = [
    (r"", "same_view", "same_view_lem"),
    (r"crates/(proposing/proofs/Laws/Numbers|pictures/proofs/Laws/Proposals)\.antt$", "size_in", "size_in_lem"),
    (r"crates/pictures/", "no_room", "without_room"),
    (r"crates/pictures/", "no-picture", "not_a_picture"),
    (r"crates/pictures/", "bad-size", "size_is_bad"),
]


def files(root, *endings):
    for folder, dirs, names in os.walk(root):
        dirs[:] = sorted(d for d in dirs if d not in ("out", ".git", "target"))
        for n in sorted(names):
            if n.endswith(endings):
                yield os.path.join(folder, n)


def read(p):
    with open(p, encoding="utf-8") as f:
        return f.read()


def bare(line):
    """A line of antt or Rattle without its comment."""
    return "" if re.match(r"\s*(--|//)", line) else line


def snake(w):
    return re.sub(r"(?<=[a-z0-9])([A-Z])", lambda m: "_" + m.group(1).lower(), w) if w[:1].islower() else w


def main():
    for p in files("crates", ".antt"):
        old = read(p)
        now = {a: b for where, a, b in FIRST if re.search(where, p)}
        new = "".join(now.get(x, x) for x in SPLIT.split(old))
        if new != old:
            with open(p, "w", encoding="utf-8") as f:
                f.write(new)
    declared, words, functions, outside, tokens = set(), set(), set(), set(), set()
    for p in files("crates", ".antt", ".rt"):
        for line in map(bare, read(p).splitlines()):
            tokens.update(t for t in SPLIT.split(line) if t)
            m = OUTSIDE.match(line)
            if m:
                outside.update(x.strip() for x in m.group(1).split(","))
            if p.endswith(".rt"):
                m = re.search(r"\bfn (\w+)", line)
                if m:
                    functions.add(m.group(1))
            elif not p.endswith("/Proof.antt"):
                m = DECLARED.match(line)
                if m and not re.match(r"\s*use ", line):
                    declared.add(m.group(1))
                    if "/specs/" in p:
                        words.add(snake(m.group(1)))
    words |= functions | {"le", "lt", "eq", "zero", "suc", "and", "or", "not", "cond", "take", "drop", "length", "set", "min", "max"}
    change, left = {}, []
    for n in sorted(declared - outside, key=lambda n: ("-" in n, n)):
        parts = n.split("-")
        if not all(parts) or not re.match(r"[a-z]", n):
            continue
        new = [snake(x) for x in parts]
        to = ("-" if all(x in words for x in new) else "_").join(new)
        taken = set(change.values()) | (functions if "-" in n else set()) | (tokens - functions)
        if to != n and to in taken:
            to += "_lem"
        if to == n:
            continue
        if to in taken or not re.fullmatch(r"[\w'-]+", to):
            left.append((n, to))
            continue
        change[n] = to

    def turned(text):
        return "".join(change.get(t, t) for t in SPLIT.split(text))

    for p in files("crates", ".antt", ".rt", ".edit"):
        old = read(p)
        new = "\n".join(l if p.endswith(".edit") and not re.match(r"(old|new):", l) else turned(l) for l in old.split("\n"))
        if new != old:
            with open(p, "w", encoding="utf-8") as f:
                f.write(new)
    for p in [*files("docs", ".md"), "README.md"]:
        old = read(p)
        new = re.sub(r"`[^`\n]*`|(?m:^    .*$)", lambda m: "".join(change.get(t, t) for t in re.split(r"([\s(){}\[\].,;|\"`]+)", m.group(0))), old)
        if new != old:
            with open(p, "w", encoding="utf-8") as f:
                f.write(new)
    for a, b in change.items():
        print(a, b)
    for a, b in left:
        print("left:", a, "is not", b, "since that is taken", file=sys.stderr)


main()
