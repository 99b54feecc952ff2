#!/usr/bin/env python3
"""stored.py FOLDER [--seed N]: a sample of the Rust's answers for the gate, which has no Rust.

Writes what the program `replay_cases` (FOLDER is crates/replay_cases) is run on: data/0.cases, data/1.cases, ... of at most 65,536
bytes each, their names in `args`, and `stdout`: the lines that it must print. A file is a run of blocks: four words
of four bytes (0 ask, 1 ask in a frame, 2 orient, 3 segments alone, 4 those of a PCK; the lengths of the kernel that the
table is made from, 0 if it is the kernel itself, of the kernel and of the questions), if in a frame 72 bytes of matrix and
the frame's number in four, and the three parts; all little-endian. A block's lines are what `ask` or `orient` prints about
it, or `forward S` of a segment alone. The kernels are small ones of gen.py's kinds: every type, every way, chains of 32 and
33 steps, tables of another kernel, one kernel for each opening refusal, and one whose questions are no records. Answers are
the Rust's; refusals as in compare.py. Segments of a PCK alone, and segments in other frames than 1, are added after these
with the second program's lines: tests/vectors/alone.py, tests/vectors/frames.py.
"""

import argparse
import os
import struct
import tempfile

import damaged
import opening
from compare import HERE, Case, Comparison
from gen import Cases, eclip, of_others, turn
from kernels import Chance, Kernel, Layout, Segment, ask_record, double, orient_record
from valid import BODIES, alone, mixed, orientations, pck_mixed, questions, states, wide_segment

TYPES = [2, 3, 9, 13] * 3 + [5]
LIMIT = 65536
opening.PLACES = 256  # the program `replay_cases` stands for a small host


def system(chance):
    """Bodies about 0 and others about them, in small segments."""
    pairs = [(1, 0), (2, 0), (3, 0), (10, 0), (199, 1), (301, 3), (399, 3), (3, 0), (301, 399), (0, 4)]
    made = [wide_segment(chance, t, c, chance.pick(TYPES), 70) for t, c in pairs]
    return Kernel("spk", made, Layout(cut=True))


def line(steps):
    """A chain of so many steps in segments of nine doubles."""
    made = []
    for k in range(steps):
        center = 1001 + k if k < steps - 1 else 0
        doubles = [50.0, 50.0, 1.0 + k, 0.5 * k, -0.25 * k, 0.0, 100.0, 5.0, 1.0]
        made.append(Segment((1000 + k, center, 1, 2), 0.0, 100.0, doubles))
    return Kernel("spk", made, Layout(cut=True))


def crowded():
    """257 summaries of nothing, each summary record the name record of the one before: 8 in 13 records."""
    out = bytearray(13 * 1024)
    out[:1024] = Kernel("spk", []).bytes
    out[76:80] = struct.pack("<I", 2)
    for k in range(11):
        out[1024 * (k + 1) : 1024 * (k + 1) + 8] = double(k + 3.0 if k < 10 else 0.0)
        out[1024 * (k + 1) + 16 : 1024 * (k + 1) + 24] = double(25.0 if k < 10 else 7.0)
    return out


def answered(cases, chance):
    for _ in range(6):
        k = system(chance)
        cases.spk("system", k.bytes, questions(chance, k.segments, 220, [1, 2, 3, 10, 199, 301, 399, 0, 4]))
    for i in range(6):
        k = mixed(chance, 9, TYPES, BODIES[:5], 600, Layout(cut=True), (1,) if i % 3 else (1, 1, 17, -3))
        cases.spk("mixed", k.bytes, questions(chance, k.segments, 180, BODIES), matrix=(None, eclip(), turn(chance))[i % 3])
    for steps in (32, 33):
        asked = b"".join(ask_record(1000, c, 50.0) for c in (0, 1001, 1002, 2000)) + ask_record(0, 1000, 50.0)
        cases.spk("line", line(steps).bytes, asked)
    for data_type in (9, 13):
        s = states(chance, (399, 3, 1, data_type), 101, 7.0, "plain")
        cases.spk("states", Kernel("spk", [s], Layout(cut=True)).bytes, questions(chance, [s], 60, BODIES))
    for _ in range(4):
        k = pck_mixed(chance, 6, [2], 500, Layout(cut=True))
        cases.pck("pck", k.bytes, orientations(chance, k.segments, 120))
    for _ in range(2):
        k = mixed(chance, 6, TYPES, BODIES[:5], 500, Layout(cut=True))
        cases.spk("alone", k.bytes, alone(chance, k.segments, 120), program="alone")
    of_others(cases, chance, 2, 400, 40)


def refused(cases, chance):
    """The smallest kernel that each family of damage has for a refusal's number."""
    for kind, add, asked in (("spk", cases.spk, ask_record(399, 3, 1.0)), ("pck", cases.pck, orient_record(3000, 1.0))):
        smallest = {}
        for family in damaged.ON_PURPOSE:
            for kernel, aimed in family(chance, kind):
                key = (family.__name__ if kind == "spk" else "", (aimed or "").split(" ")[1:2])
                if aimed and opening.opening(kernel, kind) == aimed and len(kernel) < len(smallest.get(str(key), (bytes(LIMIT), ""))[0]):
                    smallest[str(key)] = (kernel, aimed)
        for kernel, aimed in smallest.values():
            add("refused", kernel, asked, aimed)
    cases.spk("refused", crowded(), ask_record(399, 3, 1.0), "refused 8 0")
    for asked in (ask_record(1000, 0, 1.0)[:-1], orient_record(1000, 1.0), ask_record(1000, 0, 1.0) + b"\xa5"):
        cases.add("refused", "ask", line(1).bytes, asked, "refused 19 0")


def main():
    parser = argparse.ArgumentParser(description=__doc__, formatter_class=argparse.RawDescriptionHelpFormatter)
    parser.add_argument("folder")
    parser.add_argument("--seed", type=int, default=1)
    parser.add_argument("--oracle", default=os.path.join(HERE, "target/release/oracle"))
    options = parser.parse_args()
    comparison = Comparison(options)
    files, lines, blocks = [b""], [], 0
    with tempfile.TemporaryDirectory() as work:
        cases = Cases(work)
        answered(cases, Chance(options.seed))
        refused(cases, Chance(options.seed + 1))
        for case in (Case(work, text) for text in cases.lines):
            if case.expect == "accepted":
                lines += comparison.wanted(case)
            else:
                comparison.count(case.expect, case)
                lines.append(case.expect)
            files = files if len(files[-1]) + len(case.block()) <= LIMIT else files + [b""]
            files[-1] += case.block()
            blocks += 1
    if comparison.failures:
        raise SystemExit("the Rust's answers don't fit the tags")
    os.makedirs(os.path.join(options.folder, "data"), exist_ok=True)
    for i, data in enumerate(files):
        with open(os.path.join(options.folder, "data", f"{i}.cases"), "wb") as f:
            f.write(data)
    for name, written in (("args", [f"{i}.cases" for i in range(len(files))]), ("stdout", lines)):
        with open(os.path.join(options.folder, name), "w") as f:
            f.write("".join(text + "\n" for text in written))
    counts = ", ".join(f"{n} {name}" for name, n in sorted(comparison.counts.items()) if n)
    print(f"{blocks} blocks in {len(files)} files, {len(lines)} lines: {counts}")


if __name__ == "__main__":
    main()
