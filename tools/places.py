#!/usr/bin/env python3
"""Counts in crates/*/src the places that docs/DESIGN-PASS.md speaks of, point by point: places.py [-l] [DIR]. -l lists them."""
import re
import sys
from collections import defaultdict
from difflib import SequenceMatcher
from pathlib import Path

listing = "-l" in sys.argv
root = Path([a for a in sys.argv[1:] if a != "-l"][0] if [a for a in sys.argv[1:] if a != "-l"] else ".")
places = defaultdict(list)


def functions(text):
    """Name, head (with the contract), body and line of each function."""
    for m in re.finditer(r"^( *)(?:pub )?(?:extern \"C\" )?fn (\w+)", text, re.M):
        brace = re.search(r"\n" + m[1] + r"\{\n|\{\n", text[m.end():])
        if not brace:
            continue
        opened = re.search(r"^" + m[1] + r"\{$", text[m.end():], re.M)
        single = re.match(r"[^\n]*\{\n", text[m.end():])
        start = m.end() + (single.end() if single else opened.end() if opened else brace.end())
        closed = re.search(r"^" + m[1] + r"\}$", text[start:], re.M)
        yield m[2], text[m.start():start], text[start:start + closed.start()], text[:m.start()].count("\n") + 1


def shape(body):
    """A body's tokens with names and numbers left out."""
    return re.findall(r"\w+|[^\w\s]", re.sub(r"\b(?!(?:if|while|for|let|mut|return|match|loop|in|as)\b)\w+\b", "x", re.sub(r"//.*", "", body)))


# Parameters that travel together: the point, what a head of a function then has, and what that is.
PARAMETERS = [
    (5, r"form: u(?:8|32), span: u(?:8|32)", "form and box size as parameters"),
    (5, r"me: u8, (?:r: Rank, )?row: \[u8; 64\]", "rank and row as parameters"),
    (5, r"marks: u64, (?:mut )?table: \[u8; 64\]", "marks and table as parameters"),
    (6, r"(?:text|out): &mut \[\w+\], at: usize", "buffer with a place beside it"),
    (6, r"(?:net|file|events|answers|numbers): &?(?:mut )?\[[^]]*\], (?:count|got|total|events|start)\b", "buffer with a length beside it"),
    (7, r"(?:edges|leaves|dies): bool", "switch as a parameter"),
]

bodies, clauses = [], defaultdict(lambda: defaultdict(list))
for file in sorted(root.glob("crates/*/src/*.rt")):
    crate = file.parts[-3]
    text = file.read_text()
    where = f"{crate}/{file.name}"

    def find(point, pattern, what):
        for m in re.finditer(pattern, text, re.M):
            places[point, what].append(f"{where}:{text[:m.start()].count(chr(10)) + 1} {m[0].strip()}")

    # 1: an answer's number beside what is answered; functions that answer a number or 0; sentinels; kinds as numbers
    find(1, r"^ *pub answer: u32,", "field with a refusal's number")
    find(1, r"^pub const [A-Z]+: u(?:8|32) = \d+;", "constant of a kind")
    find(1, r"^ *pub (?:kind|phase|form): u\d+,", "field with a kind")
    find(1, r"^ *pub (?:inside|hidden|open|last|same): bool,", "flag beside a value")
    for m in re.finditer(r"pub enum (\w+) \{(.*?)\n\}", text, re.S):
        if re.search(r"\w\(.*\),", m[2]) and re.search(r"^ *\w+,$", m[2], re.M):
            places[1, "enum of the shape of Result"].append(f"{where} {m[1]}")
    # 3: loops
    for m in re.finditer(r"^( *)while (\w+)(?: \+ 1)? < [^\n]*\{$(.*?)^\1\}$", text, re.M | re.S):
        if re.search(rf"\b{m[2]} \+= 1;", m[3]):
            places[3, "loop over an index"].append(f"{where}:{text[:m.start()].count(chr(10)) + 1} {m[0].splitlines()[0].strip()}")
    # 4: what a derive or a trait does
    find(4, r"\(\w+(?:\.\w+)? == 0\)(?=\s*& |$)", "part of an equality with zero")
    find(4, r"fn (?:same|short_at|number_at|longer|put_number|is_digit|verdict|number_of|name)\(", "equality, conversion or printing")
    # 5 and 6: parameters that travel together
    for name, head, body, line in functions(text):
        flat = " ".join(head.split())
        at = f"{where}:{line} {name}"
        for point, pattern, what in PARAMETERS:
            if re.search(pattern, flat):
                places[point, what].append(at)
        if re.search(r"-> u32\b", flat) and re.search(r"^\s*(?:return )?(?:[1-9]|[1-5]\d);?$", body, re.M) and re.search(r"refus|misshapen|number_of|accepted|answer", flat):
            places[1, "function that answers a refusal's number"].append(at)
        if re.search(r"-> u8\b", flat) and re.search(r"NONE|\b255\b|none", flat + body):
            places[1, "function that answers 255 for none"].append(at)
        for clause in re.findall(r"requires (?:\w+ )?\{ (.*?) \}$", head, re.M):
            clauses[crate][clause].append(name)
        if len(body.splitlines()) >= 4:
            bodies.append((at, shape(body)))
for crate, texts in clauses.items():
    for clause, names in texts.items():
        if len(names) >= 3 and not re.fullmatch(r"\w+ (?:<|≤) \w+", clause):
            places[5, "clause in three or more functions"].append(f"{crate}: {clause} ({', '.join(names)})")
for i, (at, a) in enumerate(bodies):
    for other, b in bodies[i + 1:]:
        if min(len(a), len(b)) * 1.25 >= max(len(a), len(b)) >= 25 and SequenceMatcher(None, a, b, False).ratio() >= 0.9:
            places[2, "pair of like bodies"].append(f"{at} ~ {other}")
for (point, what), found in sorted(places.items()):
    print(f"{point} {what}: {len(found)}")
    if listing:
        for place in found:
            print(f"    {place}")
