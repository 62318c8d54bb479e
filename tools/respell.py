#!/usr/bin/env python3
"""Brings the repository's own words to one spelling: snake case, for definitions, lemmas, fields and variables of the
antt files and where clauses cite them. Types, facts and modules keep their camel case; names of the library, of what the
checker generates and of functions in src/ keep their spelling.

usage: python3 tools/respell.py [--dry]      at the top of the repository, once, after /opt/rattle/port/port.py
"""
import collections
import glob
import os
import re
import sys

# Names that fall together with another in snake case: what each is called instead.
APART = {
    "add-on-seat": "finds_add_on_seat",
    "change-of": "change_of_change_code",
    "control-of": "control_of_control_code",
    "due-at": "due_at_found",
    "entry-at": "entry_at_encoded",
    "first-from": "first_from_found",
    "first-wrong": "first_wrong_found",
    "kind-code": "kind_code_kind_of",
    "kind-of": "kind_of_kind_code",
    "set-up": "of_set_up",
    "tariff-seat": "finds_tariff_seat",
    "unless-known": "unless_known_same",
    "usage-code": "usage_code_usage_of",
    "usage-of": "usage_of_usage_code",
}

WORD = r"[^\W\d][\w]*(?:-[\w]+)*'*"
ANTT = re.compile(r"(?P<skip>--(?=\s|$)[^\n]*)|(?P<dot>\.)?(?P<word>" + WORD + ")")
RUST = re.compile(r"(?P<skip>//[^\n]*|b?\"(?:\\.|[^\"\\])*\"|b?'(?:\\.|[^'\\])')|(?P<dot>\.)?(?P<word>" + WORD + ")")
IMPORT = re.compile(r"^\s*(?:pub |ghost )*use ([^\s{;]+?)\.?(?:\{([^}]*)\})?(?: as (\S+?))?;?$", re.M)
NAMED = re.compile(r"^\s*(?:(?:abbrev|unfoldable|pub)\s+)*(" + WORD + r")\s*(?:\{[^}]*\}\s*)?:(?:\s|$)", re.M)


def snake(name):
    if name in APART:
        return APART[name]
    if not name[0].islower():
        return name
    out = re.sub(r"(?<=[a-z0-9])(?=[A-Z])", "_", name.replace("-", "_"))
    out = re.sub(r"(?<=[A-Za-z])(?=\d+$)", "_", out) if out != name.replace("-", "_") else out
    return out.lower()


def odd(name):
    return name[0].islower() and ("-" in name or re.search("[a-z0-9][A-Z]", name))


def own(path, crates):
    parts = path.split(".")
    return parts[0] == "Rattle" and len(parts) > 1 and parts[1] in crates


def main(dry):
    crates = set(os.listdir("crates"))
    antt = sorted(glob.glob("crates/*/specs/**/*.antt", recursive=True) + glob.glob("crates/*/proofs/**/*.antt", recursive=True))
    rust = sorted(glob.glob("crates/*/src/**/*.rt", recursive=True))
    read = {p: open(p, encoding="utf-8").read() for p in antt + rust}
    library, declared, goals = set(), set(), set()
    for p, t in read.items():
        for m in IMPORT.finditer(t):
            names = re.findall(r"[^\s,{}]+", m.group(2) or "")
            generated = m.group(1).endswith((".Goals", ".Given")) and ".proofs." in m.group(1)
            if generated or not own(m.group(1), crates):
                library.update(names)
        if p in antt:
            for m in NAMED.finditer(t):
                line = t[m.start():t.find("\n", m.end())]
                (goals if re.search(r":\s+goal\.", line) else declared).add(m.group(1))
            for m in re.finditer(r"\bdata\b[^\n]*where\n((?:\s+.*\n)+)", t):
                declared.update(re.findall(r"^\s+(?:pub )?(" + WORD + r")\s*:", m.group(1), re.M))
    for n in sorted(library & declared):
        print("look: also a name of the library:", n)
    for n in sorted(goals & declared):
        print("look: also a goal:", n)
    seen = collections.defaultdict(set)
    for p, t in read.items():
        def put(m):
            w = m.group("word")
            if w is None or not odd(w) or w in library or w in goals:
                return m.group(0)
            if m.group("dot") and re.search(r"(?<![\w'-])[cl]$", t[:m.start()]):
                return m.group(0)  # a step of the code, as the checker names it
            if (m.group("dot") or p in rust) and w not in declared:
                return m.group(0)
            seen[snake(w)].add(w)
            return (m.group("dot") or "") + snake(w)
        new = (RUST if p in rust else ANTT).sub(put, t)
        if new != t and not dry:
            open(p, "w", encoding="utf-8").write(new)
    # what falls together, in any file: two words that had two spellings and now have one
    for p, t in read.items():
        words = collections.defaultdict(set)
        for m in (RUST if p in rust else ANTT).finditer(t):
            w = m.group("word")
            if w:
                words[snake(w) if odd(w) and w not in library and w not in goals else w].add(w)
        for n, ws in sorted(words.items()):
            if len(ws) > 1:
                print(f"look: {p}: {', '.join(sorted(ws))} are all {n}")
    if not dry:
        pages = ["README.md"] + sorted(glob.glob("docs/*.md"))
        for p in pages:
            t = open(p, encoding="utf-8").read()
            new = re.sub(r"`[^`\n]*`", lambda q: re.sub(WORD, lambda m: snake(m.group(0)) if odd(m.group(0)) and m.group(0) in declared else m.group(0), q.group(0)), t)
            if new != t:
                open(p, "w", encoding="utf-8").write(new)


main("--dry" in sys.argv[1:])
