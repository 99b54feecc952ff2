#!/usr/bin/env python3
"""Brings the names of this repository's own definitions and lemmas to the spelling of the library: words in snake case, a dash only after a type.

usage: tools/respell.py [FOLDER]      respells crates/, the README and docs/ of the checkout (by default the one that this file stands in)
       tools/respell.py --list [FOLDER]     prints old and new names, and writes nothing

Run once, on the tree that the toolchain's own scripts have turned. A name is respelled everywhere at once, in definitions, proofs, clauses, comments and edits.
Names of functions, fields and types in src/ stay, and so do strings, inputs and outputs.
"""

import os
import re
import sys

# a word of antt: what stands between blanks, brackets, dots and commas
WORD = re.compile(r"[^\s(){}\[\];,.\"`⌜⌝λ]+")
DECLARED = re.compile(r"^\s*(?:(?:unfoldable|abbrev|pub|opaque)\s+)*([^\s(){}\[\];,.\"`]+)((?:\s+(?:\([^)]*\)|\{[^}]*\}|[^\s(){}:]+))*)\s+:\s")
NAMED = re.compile(r"^\s*(?:(?:unfoldable|abbrev|pub|opaque)\s+)*(?:record|data|ruleset)\s+([^\s(){}\[\];,.\"`]+)")
CAMEL = re.compile(r"^[a-z][A-Za-z0-9₀-₉'-]*$")
# spelled by the kit's rule for the proof of a function
PROOF = re.compile(r"-spec$")


def texts(root, *endings):
    for folder, dirs, files in os.walk(os.path.join(root, "crates")):
        dirs[:] = sorted(d for d in dirs if d != "out")
        for f in sorted(files):
            if f.endswith(endings):
                yield os.path.join(folder, f)


def read(path):
    with open(path, encoding="utf-8") as f:
        return f.read()


def snake(name):
    name = re.sub(r"([A-Z])D(?=[-_]|$)", r"\1d", name)
    return re.sub(r"(?<=[a-z0-9])([A-Z])", lambda m: "_" + m.group(1).lower(), name)


def declared(root):
    """The names that specs/ and proofs/ declare: of definitions, of lemmas, and of the proofs of functions."""
    words, lemmas, proofs = set(), set(), set()
    for p in texts(root, ".antt"):
        specs = "/specs/" in p
        walk = p.endswith("/Proof.antt")
        for line in read(p).split("\n"):
            m = DECLARED.match(line) or NAMED.match(line)
            if not m:
                continue
            name = m.group(1)
            if walk:
                if PROOF.search(name):
                    proofs.add(name)
            elif specs:
                words.add(name)
            else:
                lemmas.add(name)
    return words, lemmas, proofs


def renamed(root):
    words, lemmas, proofs = declared(root)
    turned = {}

    def joined(name):
        """A dash stays after a type alone."""
        first, _, rest = name.partition("-")
        return first + "-" + rest.replace("-", "_") if first[:1].isupper() else name.replace("-", "_")

    for name in sorted(words | lemmas):
        new = name
        if re.match(r"^[A-Za-z#][\w'₀-₉-]*$", name) and "-" in name:
            new = joined(name)
        new = "-".join(part if part[:1].isupper() else snake(part) for part in new.split("-"))
        if name[:1].isupper() and "-" not in name:
            continue
        if new != name:
            turned[name] = new
    for name in sorted(proofs):
        turned[name] = snake(name).replace("-", "_")
    # a lemma that would have the name of a definition, or of a word of the library, gets _lem
    taken = {turned.get(w, w) for w in words} | imported(root)
    for name in sorted(lemmas - words):
        new = turned.get(name, name)
        if new in taken and (name in turned or name not in imported(root)):
            turned[name] = new + "_lem"
    # and one that would have the name of another lemma
    count = {}
    for name in sorted(lemmas | words, key=lambda n: (n in turned, n)):
        new = turned.get(name, name)
        if new in count and count[new] != name and name in lemmas and name in turned:
            turned[name] = new + "_lem"
        count.setdefault(turned.get(name, name), name)
    return turned


def imported(root, found=set()):
    """The names that files take from the library."""
    if not found:
        own = {c for c in os.listdir(os.path.join(root, "crates"))}
        for p in texts(root, ".antt", ".rt"):
            for m in re.finditer(r"(?m)^(?:ghost )?(?:pub )?use ([\w.'+-]+)\.\{([^}]*)\}", read(p)):
                path = m.group(1).split(".")
                if path[0] == "Rattle" and path[1] in own:
                    continue
                for n in m.group(2).split(","):
                    found.add(n.strip().split(" as ")[-1])
    return found


def turn_antt(text, turned):
    def one(m):
        w = m.group(0)
        if w not in turned:
            return w
        if "-" in w and m.start() and text[m.start() - 1] == ".":
            # behind a dot stands a name that the toolchain makes, or a field; a name of ours only behind a module
            before = WORD.findall(text[max(0, m.start() - 60):m.start() - 1])
            if not before or not (before[-1][:1].isupper() or before[-1] in ALIASES):
                return w
        return turned[w]

    return WORD.sub(one, text)


ALIASES = set()


def aliases(root):
    for p in texts(root, ".antt"):
        for m in re.finditer(r"(?m)^use (Rattle\.\S+) as ([a-z]\S*)$", read(p)):
            if ".specs." in m.group(1) or re.search(r"\.proofs\.[A-Z]\w*$", m.group(1)):
                ALIASES.add(m.group(2))


def turn_rt(text, turned):
    # strings stay
    parts = re.split(r'(b?"(?:[^"\\\n]|\\.)*")', text)
    return "".join(p if i % 2 else turn_antt(p, turned) for i, p in enumerate(parts))


def turn_page(text, turned):
    """A page: code between backticks, and fenced blocks."""
    parts = re.split(r"(```.*?```|`[^`\n]*`)", text, flags=re.S)
    return "".join(turn_antt(p, turned) if i % 2 else p for i, p in enumerate(parts))


def main(argv):
    only = "--list" in argv
    argv = [a for a in argv if a != "--list"]
    root = argv[0] if argv else os.path.join(os.path.dirname(os.path.realpath(__file__)), "..")
    turned = renamed(root)
    aliases(root)
    if only:
        for a, b in turned.items():
            print(a, b)
        return 0
    jobs = [(p, turn_antt) for p in texts(root, ".antt", ".edit")] + [(p, turn_rt) for p in texts(root, ".rt")]
    pages = [os.path.join(root, "README.md"), os.path.join(root, "CONTRIBUTING.md")]
    for folder, _, files in os.walk(os.path.join(root, "docs")):
        pages += [os.path.join(folder, f) for f in sorted(files) if f.endswith(".md") and not f.startswith("PORT")]
    jobs += [(p, turn_page) for p in pages if os.path.exists(p)]
    n = 0
    for p, how in jobs:
        old = read(p)
        new = how(old, turned)
        if new != old:
            n += 1
            with open(p, "w", encoding="utf-8") as f:
                f.write(new)
    print(f"respell: {len(turned)} names, {n} files")
    return 0


if __name__ == "__main__":
    raise SystemExit(main(sys.argv[1:]))
