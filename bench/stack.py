#!/usr/bin/env python3
"""stack.py OBJECT: the bytes of stack that one call of each entry point needs, as a Markdown table.

OBJECT is the x86-64 object of `replay_measure` that tools/build.sh leaves (crates/replay_measure/out/replay_measure.o). Its machine code is read: a
function's frame is what it pushes and takes off the stack pointer, a call adds its return address and the callee's need, and the
deepest way counts; of a question of one type, the deepest that such a segment takes. Where a walk calls itself, once for
each of up to 32 steps, its frame counts 33 times; the compiler may have made a loop of it. The C library's functions,
which copy and clear, are counted as none.
"""

import re
import subprocess
import sys

OBJDUMP = "x86_64-linux-gnu-objdump"
WALK = "chain::walking::walk"
STEPS = {WALK: 33}
# The functions that a way leaves out: the chain; Hermite, where no segment has type 13; the tests themselves, where a segment plainly fits.
CHAIN = {WALK}
HERMITE = {"hermite::hermite_at", "hermite::axis_at"}
TESTS = {"segment::evaluate_any", "segment::evaluating::evaluate_any"}
# What is called, its function, and what it leaves out.
ENTRIES = [
    ("a question (`state`), whatever is asked", "lent::state", set()),
    ("of it, one segment of type 2 that plainly fits", "lent::state", CHAIN | TESTS),
    ("of it, one segment of type 9", "lent::state", CHAIN | HERMITE),
    ("of it, one segment of type 13", "lent::state", CHAIN),
    ("of it, the evaluation of a segment", "segment::evaluate", set()),
    ("of it, a chain of 32 steps", WALK, set()),
    ("a question through an index", "indexed::state", set()),
    ("an orientation (`orient`)", "lent::orient", HERMITE),
    ("of it, a segment that plainly fits", "lent::orient", TESTS),
    ("an opening: the plan", "opening::plan_of", set()),
    ("an opening: the table filled", "lent::fill", set()),
    ("an opening: the table and its index filled", "indexed::carry_out", set()),
]


class Function:
    def __init__(self):
        self.frame, self.calls = 0, set()


def functions(text):
    """Each function's frame, and the functions that it calls."""
    out, current, depth, probe = {}, None, 0, 0
    for line in text.splitlines():
        head = re.match(r"[0-9a-f]+ <(.+)>:$", line)
        if head:
            current, depth, probe = out.setdefault(head[1], Function()), 0, 0
            continue
        reloc = re.search(r"R_X86_64_(?:PLT|PC)32\s+(?:\.text\.(?:unlikely\.)?)?(\S+?)-0x4", line)
        if reloc and current:
            current.calls.add(reloc[1])
            continue
        word = line.split("\t")[1:]
        if not word or not current:
            continue
        code = word[0]
        far = re.match(r"sub +\$0x([0-9a-f]+),%r11", code)
        sub = re.match(r"sub +\$0x([0-9a-f]+),%rsp", code)
        near = re.match(r"call +[0-9a-f]+ <([^+]+)>$", code)
        if far:
            # a large frame is taken page by page, in a loop: that many bytes in all
            probe = int(far[1], 16)
            depth += probe
        elif sub and not (probe and sub[1] == "1000"):
            depth += int(sub[1], 16)
        elif code.startswith("push"):
            depth += 8
        elif near and near[1] in out:
            current.calls.add(near[1])
        current.frame = max(current.frame, depth)
    return out


def plain(name):
    """The name of a generic function, without what it was compiled for."""
    return re.sub(r"::<#[0-9a-f]+>$", "", name)


def need(table, name, seen=()):
    """The bytes of the deepest way from a call on that calls none of the functions seen, its return address included, and that way."""
    here = table[name]
    best, way = 0, []
    for callee in here.calls:
        if callee in table and callee != name and plain(callee) not in seen:
            n, w = need(table, callee, seen + (plain(name),))
            if n > best:
                best, way = n, w
    times = STEPS.get(plain(name), 1) if name in here.calls else 1
    return times * (8 + here.frame) + best, [(plain(name), here.frame)] + way


def main():
    text = subprocess.run([OBJDUMP, "-d", "-r", "--no-show-raw-insn", sys.argv[1]], check=True, capture_output=True, text=True).stdout
    table = functions(text)
    print("| one call of | bytes of stack | deepest way, with each frame |")
    print("|---|---|---|")
    for what, name, left_out in ENTRIES:
        compiled = [f for f in table if plain(f) == name]
        if compiled:
            # of a function that was compiled for the lent table and for an index the deeper one
            n, way = max(need(table, f, tuple(left_out)) for f in compiled)
            print(f"| {what} | {n:,} | {', '.join(f'`{w}` {f:,}' for w, f in way)} |")
        else:
            print(f"| {what} | | `{name}` has no frame of its own: it is part of its caller |")


if __name__ == "__main__":
    main()
