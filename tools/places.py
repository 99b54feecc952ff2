#!/usr/bin/env python3
"""places.py [POINT]: counts, in crates/*/src, the places that docs/DESIGN-PASS.md speaks of, and lists them.

  1  enums of two cases, of which one holds a value: the shape of Option or Result
  3  loops by `while`
  4  functions whose body is one short expression: candidates for a method of the library
  5  facts that the `requires` of three functions or more state
  6  parameters that travel together in five functions or more
"""
import glob
import re
import sys
from collections import defaultdict


def sources():
    for path in sorted(glob.glob("crates/*/src/*.rt")):
        with open(path, encoding="utf-8") as f:
            yield path.split("/")[1], path, f.read()


def enums():
    for crate, path, text in sources():
        for m in re.finditer(r"^(?:pub )?enum (\w+) \{\n(.*?)^\}", text, re.S | re.M):
            body = re.sub(r"//[^\n]*", "", m.group(2))
            cases = [c.strip() for c in re.findall(r"^    (\w[^\n]*?),?$", body, re.M)]
            if len(cases) == 2 and any("(" in c for c in cases):
                yield f"{crate}::{m.group(1)} ({', '.join(cases)})"


def loops():
    for crate, path, text in sources():
        for i, line in enumerate(text.split("\n"), 1):
            if re.match(r"\s*while ", line):
                yield f"{path}:{i} {line.strip()}"


def functions():
    pattern = r"^(\s*)(?:pub )?fn (\w+)(?:<[^>]*>)?\(([^)]*)\)[^\n]*((?:\n\s+(?:requires|ensures)[^\n]*)*)\s*\{\n(.*?)\n\1\}"
    for crate, path, text in sources():
        for m in re.finditer(pattern, text, re.S | re.M):
            yield crate, m.group(2), m.group(3), m.group(4), m.group(5).strip()


def short():
    for crate, name, _, _, body in functions():
        if "\n" not in body and len(body) < 60:
            yield f"{crate}::{name}: {body}"


def split(text, mark):
    parts, depth, now = [], 0, ""
    for c in text:
        depth += (c in "([{") - (c in ")]}")
        if c == mark and depth == 0:
            parts.append(now.strip())
            now = ""
        else:
            now += c
    return parts + [now.strip()]


def facts(text):
    while text.startswith("(") and len(split(text[1:-1] + ")", ")")) >= 1 and closes(text):
        text = text[1:-1].strip()
    parts = split(text, "×")
    return [text] if len(parts) == 1 else [f for p in parts for f in facts(p)]


def closes(text):
    depth = 0
    for i, c in enumerate(text):
        depth += (c == "(") - (c == ")")
        if depth == 0:
            return i == len(text) - 1
    return False


def repeated():
    where = defaultdict(list)
    for crate, name, _, clauses, _ in functions():
        for m in re.finditer(r"requires(?: \w+)? \{ (.*?) \}(?=\n|$)", clauses):
            for fact in facts(m.group(1)):
                where[fact].append(f"{crate}::{name}")
    for fact, names in sorted(where.items(), key=lambda x: -len(x[1])):
        if len(names) >= 3:
            yield f"{len(names)} {fact}: {' '.join(names)}"


def together():
    where = defaultdict(list)
    for crate, name, args, _, _ in functions():
        args = [re.sub(r"\s+", " ", a.strip()) for a in args.split(",") if ":" in a]
        for i, a in enumerate(args):
            for b in args[i + 1:]:
                where[f"{a}, {b}"].append(f"{crate}::{name}")
    for pair, names in sorted(where.items(), key=lambda x: -len(x[1])):
        if len(names) >= 5:
            yield f"{len(names)} ({pair})"


POINTS = {"1": enums, "3": loops, "4": short, "5": repeated, "6": together}

if __name__ == "__main__":
    if any(a not in POINTS for a in sys.argv[1:]):
        sys.exit(__doc__)
    for point in sys.argv[1:] or POINTS:
        rows = list(POINTS[point]())
        print(f"point {point}: {len(rows)}")
        for row in rows:
            print("  " + row)
