#!/usr/bin/env python3
"""Brings the repository's own definitions, lemmas and record fields to snake case: isWithin to is_within, below-full to below_full.

usage: python3 tools/respell.py      at the top of the repository, once, right after the port's script

A name that Rattle makes for a goal of a function keeps its dashes, and so does a name of the libraries. Where a lemma would meet
a definition, the lemma gets `_lem`. Rust's code, strings and the texts of programs keep their names.
"""

import collections
import os
import re

WORD = r"[^\s(){}.;,@\"«»`]+"
MODS = r"(?:(?:pub|abbrev|unfoldable|record|data|module|infix|infixl|infixr|ruleset|let|where) +)*"
DECL = re.compile(rf"^( *){MODS}({WORD})((?: \{{[^{{}}]*\}}| \([^()]*\))*) :(?: |$)(.*)")
GOAL = re.compile(r"\btie\.(Need|Ties|Given|After)")
# Names that a definition has already, or that a library's name would meet.
APART = {
    "words-of": "words_of_lem",
    "side-by-side": "side_by_side_lem",
    "value-at": "value_at_lem",
    "value_in": "value_in_lem",
    "field-of": "field_of_lem",
    "outOfRange": "is_out_of_range",
}
# One name in two crates that do not meet.
SHARED = {"one-sidedly", "one-sided", "words-at"}
STRING = re.compile(r'b?"(?:\\.|[^"\\])*"', re.S)


def snake(name):
    if name[0].islower():
        name = re.sub(r"(?<=[a-z0-9])[A-Z]", lambda m: "_" + m[0].lower(), name)
    return name.replace("-", "_")


def files(ending, top="crates"):
    for root, dirs, names in os.walk(top):
        dirs[:] = sorted(d for d in dirs if d not in ("out", "target", ".git"))
        for n in sorted(names):
            if n.endswith(ending):
                yield os.path.join(root, n)


def table():
    declared, goals = collections.Counter(), set()
    for path in files(".antt"):
        proof = path.endswith("/Proof.antt")
        with open(path, encoding="utf-8") as f:
            for line in f:
                m = DECL.match(line)
                if not m or line.lstrip().startswith("--"):
                    continue
                if proof and not m[1] and GOAL.search(m[4]):
                    goals.add(m[2])
                elif re.match(r"(invariant|decreases|returns)-", m[2]):
                    goals.add(m[2])
                else:
                    declared[m[2]] += 1
    rows = {n: snake(n) for n in declared if n not in goals and snake(n) != n}
    rows |= {n: to for n, to in APART.items() if n in declared}
    met = collections.defaultdict(list)
    for n, to in rows.items():
        met[to].append(n)
    for to, names in met.items():
        if len(names) > 1:
            for n in names:
                if "-" in n and n not in SHARED:
                    rows[n] = to + "_lem"
    return rows


def turned(text, rows):
    """Whole words alone; behind a dot too, where they are fields."""
    return re.sub(WORD, lambda m: rows.get(m[0], m[0]), text)


def spans(text, rows):
    return re.sub(r"`[^`\n]+`", lambda m: turned(m[0], rows), text)


def commented(text, rows, mark):
    """A comment's prose keeps words with dashes, as one-sided."""
    plain = {n: to for n, to in rows.items() if "-" not in n}
    out = []
    for line in text.splitlines(keepends=True):
        m = re.search(rf"(?:^|(?<=\s)){mark}(?=\s)", line)
        code, comment = (line[: m.start()], line[m.start() :]) if m else (line, "")
        out.append(turned(code, rows) + turned(spans(comment, rows), plain))
    return "".join(out)


def write(path, new, old):
    if new != old:
        with open(path, "w", encoding="utf-8") as f:
            f.write(new)


def main():
    rows = table()
    for path in files(".antt"):
        with open(path, encoding="utf-8") as f:
            text = f.read()
        write(path, commented(text, rows, "--"), text)
    for path in files(".rt"):
        with open(path, encoding="utf-8") as f:
            text = f.read()
        parts, at = [], 0
        for m in STRING.finditer(text):
            parts += [commented(text[at : m.start()], rows, "//"), m[0]]
            at = m.end()
        write(path, "".join(parts) + commented(text[at:], rows, "//"), text)
    # What the port's script has respelled already stands in edits and pages under its old name.
    now = {m[2] for path in files(".antt") for m in map(DECL.match, open(path, encoding="utf-8")) if m}
    asked = set()
    for path in [*files(".edit"), *files(".md", ".")]:
        with open(path, encoding="utf-8") as f:
            asked |= set(re.findall(WORD, f.read()))
    rows |= {n: snake(n) for n in asked if n not in now and snake(n) != n and snake(n) in now and n not in rows}
    for path in files(".edit"):
        with open(path, encoding="utf-8") as f:
            text = f.read()
        new = "".join(turned(l, rows) if l.startswith(("old:", "new:")) else l for l in text.splitlines(keepends=True))
        write(path, new, text)
    for path in [p for p in files(".md", ".") if not p.startswith("./crates/")]:
        with open(path, encoding="utf-8") as f:
            text = f.read()
        write(path, spans(text, rows), text)
    print(f"respell: {len(rows)} names")


main()
