#!/usr/bin/env python3
"""Brings the names of goals and steps in the functions' proof files to the source's own spelling, as `in_default-broken_use`
for `in-default-broken-use`: the checker once wrote a hyphen for each `_` of the source.

usage: python3 tools/goal_names.py      at the top of the repository, once, after tools/respell.py
"""
import glob
import os
import re

WORD = re.compile(r"[^\W\d][\w]*(?:-[\w]+)+'*")
IMPORT = re.compile(r"^\s*(?:pub )?use ([^\s{;]+?)\.?\{([^}]*)\}$", re.M)
KEPT = {"in_default", "in_ok", "in_err", "from_residual", "way_copy_out", "slice_bounds", "In_ok", "In_err", "In_default", "overflow_add", "overflow_sub", "overflow_mul", "overflow_cast", "invariant_of", "type_inv"}

for crate in sorted(os.listdir("crates")):
    idents = set(KEPT)
    for p in glob.glob(f"crates/{crate}/src/**/*.rt", recursive=True):
        text = re.sub(r"//[^\n]*", "", open(p, encoding="utf-8").read())
        idents |= {w for w in re.findall(r"\b[a-z]\w*", text) if "_" in w.strip("_")}
    turned = sorted(((i.replace("_", "-"), i) for i in idents), key=lambda e: -len(e[0]))
    files = glob.glob(f"crates/{crate}/proofs/**/Answers.antt", recursive=True) + glob.glob(f"crates/{crate}/proofs/**/Invariants.antt", recursive=True)
    for p in sorted(files):
        text = open(p, encoding="utf-8").read()
        library = set()
        for m in IMPORT.finditer(text):
            if not m.group(1).endswith((".Goals", ".Given")):
                library |= set(re.findall(r"[^\s,]+", m.group(2)))

        def put(m):
            w = m.group(0)
            if w in library:
                return w
            for old, new in turned:
                w = re.sub(r"(?<![^-])" + re.escape(old) + r"(?![^-])", new, w)
            return w

        new = re.sub(r"\.-(?=[a-z])", "._", WORD.sub(put, text))
        if new != text:
            open(p, "w", encoding="utf-8").write(new)
