#!/usr/bin/env python3
"""Lists the places in src/ (and, for proofs, in proofs/) that docs/DESIGN-PASS.md counts, one line each, by point.

    tools/design_places.py            the counts
    tools/design_places.py 3          the places of one point
    tools/design_places.py --all      the places of all

It goes by text: a place is a candidate, and the page says what became of it.
"""

import re
import sys
from collections import defaultdict
from pathlib import Path

ROOT = Path(__file__).resolve().parent.parent
FILES = sorted(ROOT.glob("crates/*/src/**/*.rt"))


def where(path, line):
    return f"{path.relative_to(ROOT / 'crates')}:{line}"


def lines_matching(*patterns):
    tests = [re.compile(p) for p in patterns]
    for path in FILES:
        for number, text in enumerate(path.read_text().splitlines(), 1):
            code = re.sub(r"//.*", "", text)
            if any(t.search(code) for t in tests):
                yield f"{where(path, number)}: {text.strip()}"


FN = re.compile(r"^( *)(?:pub(?:\(crate\))? )?fn (\w+)", re.M)


def functions():
    """Each function with a body: file, line, name, signature with contract, body."""
    for path in FILES:
        text = path.read_text()
        for m in FN.finditer(text):
            indent = m.group(1)
            brace = re.search(rf"^{indent}\{{\n|(?<=\S) \{{\n", text[m.start():], re.M)
            end = re.search(rf"^{indent}\}}", text[m.start():], re.M)
            if not brace or not end or end.start() < brace.start():
                continue
            head = text[m.start():m.start() + brace.start()]
            body = text[m.start() + brace.end():m.start() + end.start()]
            yield path, text.count("\n", 0, m.start()) + 1, m.group(2), head, body


def code_of(body):
    return re.sub(r"//.*", "", body)


# 1: enums of two cases with a value in one; a bool or a number that stands for a state; enums compared as numbers
def point1():
    for path in FILES:
        text = path.read_text()
        for m in re.finditer(r"^(?:pub(?:\(crate\))? )?enum (\w+)[^{]*\{\n(.*?)^\}", text, re.M | re.S):
            cases = re.findall(r"^    (\w+)(\(|\b)", re.sub(r"//.*", "", m.group(2)), re.M)
            if len(cases) == 2 and any(opened == "(" for _, opened in re.findall(r"^    (\w+)(\(?)", m.group(2), re.M)):
                yield f"{where(path, text.count(chr(10), 0, m.start()) + 1)}: enum {m.group(1)} has two cases, and a value in one"
    yield from lines_matching(
        r"-> io::Result<bool>",
        r"(?:==|!=|<=|>=|<|>) *\w+(?:::\w+)? as u8",
        r"\bthis <= 1\b|at - 4\)\)\) > 1|\bflag > 1\b",
        r"LIMIT \+ 1",
        r"\bEcho\(u8",
    )
    for path, line, name, head, body in functions():
        if re.search(r"-> u(?:8|16|32|64|size)\b", head) and re.search(r"return 0;|=> 0,", code_of(body)):
            yield f"{where(path, line)}: fn {name} answers 0 in some case"


# 2: functions whose bodies are the same but for names and numbers
def point2():
    groups = defaultdict(list)
    for path, line, name, head, body in functions():
        shape = re.sub(r"\b(?!let|mut|match|if|else|for|in|return|Some|None|Ok|Err|self\b)\w+", "x", code_of(body))
        shape = re.sub(r"\s+", " ", shape).strip()
        if len(shape) > 24:
            groups[shape].append(f"{where(path, line)} {name}")
    for members in groups.values():
        if len(members) > 1:
            yield f"{len(members)} of one shape: " + ", ".join(members)


# 3: loops over a range or with a count, loops that search or add up, elements by index, arrays taken apart by hand
def point3():
    for path in FILES:
        text = path.read_text()
        for m in re.finditer(r"^( *)(for|while|loop)\b(.*)\{\n", text, re.M):
            end = re.search(rf"^{m.group(1)}\}}", text[m.end():], re.M)
            body = text[m.end():m.end() + end.start()]
            counts = ".." in m.group(3) or "enumerate()" in m.group(3) or m.group(2) != "for"
            searches = re.search(r"return (?:Some\(|false|0;)", body)
            adds = re.search(r"(\w+) (?:\+= |= .*\b\1\b)", body)
            if counts or searches or adds:
                kind = "counts" if counts else "searches" if searches else "adds up"
                yield f"{where(path, text.count(chr(10), 0, m.start()) + 1)}: {m.group(0).strip()} ({kind})"
    yield from lines_matching(r"let \[a, b, c, d\] = seats", r"closed\.line\(\d\)")
    for path, line, name, head, body in functions():
        if re.search(r"\w\[(?:\w+|\d \* \w+(?: \+ 1)?)\](?! *:)", code_of(body)):
            yield f"{where(path, line)}: fn {name} reads or writes by an index"


# 4: functions that are one match, from a value to a word, a number or another type; equality letter by letter
def point4():
    for path, line, name, head, body in functions():
        code = code_of(body).strip()
        if re.match(r"match \*?[\w.]+ \{", code) and code.endswith("}") and code.count("match ") == 1:
            yield f"{where(path, line)}: fn {name} is one match"
    yield from lines_matching(r"== b'\w' && ", r"a == 0 && b == 0", r"struct \w+\(pub (?:Mark|Term|Charge|Fault)\)")


# 5: clauses that stand three times or more but for names and numbers; parameters that three functions take together
def point5():
    clauses = defaultdict(list)
    together = defaultdict(list)
    for path, line, name, head, body in functions():
        crate = path.relative_to(ROOT / "crates").parts[0]
        for clause in re.findall(r"(?:requires|ensures)(?: \w+)? \{ (.*?) \}\s*$", head, re.M):
            clauses[crate, re.sub(r"\d+", "0", re.sub(r"\s+", " ", clause))].append(f"{where(path, line)} {name}")
        params = re.search(r"\((.*?)\)(?: ->|\s)", head, re.S)
        names = sorted(re.findall(r"(\w+): ", params.group(1))) if params else []
        for i, a in enumerate(names):
            for b in names[i + 1:]:
                together[crate, a, b].append(f"{where(path, line)} {name}")
    for (crate, clause), members in sorted(clauses.items()):
        if len(members) > 2:
            yield f"{crate}: {{ {clause} }} in {len(members)}: " + ", ".join(members)
    for (crate, a, b), members in sorted(together.items()):
        if len(members) > 2:
            yield f"{crate}: ({a}, {b}) in {len(members)}: " + ", ".join(members)


# 6: arrays in fields and locals, and lengths beside them
def point6():
    yield from lines_matching(
        r"\w+: \[[\w:<>]+; \w+\],?$",
        r"^\s*(?:pub(?:\(crate\))? )?(?:len|count|taken): usize,$",
        r"let mut \w+ = \[",
        r"^\s*(?:Tariff|AddOn)\(usize\),$",
    )


# 7: a value that says which step to run; function pointers
def point7():
    yield from lines_matching(r"match event", r"\bfn\(", r"\bEvent::")


# 8: what is written of proofs, by file
def point8():
    for path in sorted(ROOT.glob("crates/*/proofs/**/*.antt")):
        text = path.read_text()
        kind = path.name if path.name in ("Answers.antt", "Invariants.antt", "Proof.antt") else "lemmas"
        if path.name == "Lib.antt":
            continue
        yield f"{path.relative_to(ROOT / 'crates')}: {kind}, {len(text.splitlines())} lines"


POINTS = [point1, point2, point3, point4, point5, point6, point7, point8]


def main():
    wanted = sys.argv[1:]
    for number, point in enumerate(POINTS, 1):
        places = list(point())
        if "--all" in wanted or str(number) in wanted:
            print(f"point {number}: {len(places)}")
            for place in places:
                print("  " + place)
        elif not wanted:
            extra = ""
            if number == 8:
                lines = sum(int(re.search(r", (\d+) lines", p).group(1)) for p in places)
                extra = f" files, {lines} lines"
            print(f"point {number}: {len(places)}{extra}")


main()
