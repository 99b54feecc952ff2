#!/usr/bin/env python3
"""Adds to what crates/replay_cases is run on: segments of a PCK by their numbers, with the lines of the second program.

data/alone.cases: blocks of kind 4 (tests/oracle/stored.py describes a block). The kernel is that of orient.py: every segment is asked, covering or
not, and numbers that no segment has; then with the table of another kernel, whose trailers differ or which is shorter; then what is refused before
any question. Run it after stored.py, and frames.py after it.
"""
import os
import struct
import sys

HERE = os.path.dirname(os.path.abspath(__file__))
sys.path[0:0] = [HERE, os.path.join(HERE, "..", "second"), os.path.join(HERE, "..", "oracle")]
import cases  # noqa: E402
import orient  # noqa: E402

NAN, INF = float("nan"), float("inf")
NAME = "alone.cases"


def record(number, et):
    return b"\xa5\x5d" + struct.pack("<Id", number, et)


def block(kernel, asked, origin=b""):
    return struct.pack("<4I", 4, len(origin), len(kernel), len(asked)) + origin + kernel + asked


def questions():
    count = len(list(orient.segments()))
    epochs = (-1e9, -10.0, -0.0, 0.0, 0.999, 1.0, 1.25, 1.5, 5e-324, 2.5, 9.999999999999998, 10.0, 13.0, 20.000000000000004, 1e300, INF, -INF, NAN)
    asked = [record(i, et) for i in range(count) for et in epochs]
    return b"".join(asked + [record(i, et) for i in (count, 255, 256, 4096, 2**31, 2**32 - 1) for et in (0.0, NAN)])


def blocks():
    kernel, asked = orient.kernel(), questions()
    yield block(kernel, asked)
    other = bytearray(kernel)
    for start, doubles in places():
        # another INIT in every second segment, another coefficient in the others
        at = 8 * (start + len(doubles) - 4 - 1) if start % 2 else 8 * (start + 2 - 1)
        other[at : at + 8] = struct.pack("<d", 0.75)
    yield block(bytes(other), asked, kernel)
    yield block(kernel[: 8 * (places()[2][0] + 3)], asked, kernel)
    yield block(kernel[:1023], asked)
    yield block(kernel.replace(b"DAF/PCK ", b"NAIF/DAF", 1), asked)
    yield block(kernel, asked + b"\xa5")
    yield block(kernel, asked.replace(b"\xa5\x5d", b"\xa5\x5c", 1))


def places():
    """First address and doubles of the segments that have data."""
    found, start = [], 385
    for *_, doubles in orient.segments():
        if doubles:
            found.append((start, doubles))
        start += len(doubles)
    return found


def add(name, made, folder="crates/replay_cases"):
    """The blocks made as the last file of the folder, with the second program's lines, which must give the lines before them too."""
    with open(os.path.join(folder, "data", name), "wb") as f:
        f.write(b"".join(made))
    with open(os.path.join(folder, "args")) as f:
        names = [other for other in f.read().split() if other != name]
    with open(os.path.join(folder, "stdout")) as f:
        stored = f.read().splitlines()
    lines, before = [], 0
    for each in names + [name]:
        before = len(lines)
        with open(os.path.join(folder, "data", each), "rb") as f:
            lines += [line for b in cases.blocks(f.read()) for line in cases.block_lines(*b)]
    if lines[:before] != stored[:before]:
        sys.exit("the stored lines are others")
    for file, written in (("args", names + [name]), ("stdout", lines)):
        with open(os.path.join(folder, file), "w") as f:
            f.write("".join(text + "\n" for text in written))
    print(before, "lines before,", len(lines) - before, "added")


if __name__ == "__main__":
    add(NAME, blocks(), *sys.argv[1:])
