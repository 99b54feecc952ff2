#!/usr/bin/env python3
"""Writes what crates/replay_places is run on and what it must write: kernels of 0 to 4,097 summaries, and a model of a table that is lent to two openings; then
openings by value, which remember nothing.

Kernel c's segment i has target i + 1, center 0, type 1, which is none that is handled, no data, and the last epoch 10,000 c + i + 1: no two kernels have
an epoch in common, so that a place which an opening wrote, cleared or left shows in the sum. Summary records follow each other; what stands where names
should is no matter here.
"""
import os
import struct

HERE = os.path.dirname(os.path.abspath(__file__))
INTO = os.path.join(HERE, "..", "..", "crates", "replay_places")
KERNELS = [("none", 0), ("one", 1), ("some", 256), ("more", 257), ("most", 4096), ("many", 4097)]
PLACES = (0, 256, 257, 4096, 4097)
PAIRS = [(1, 1), (1, 2), (2, 1), (4, 2), (4, 3), (3, 4), (6, 2), (6, 5), (5, 6), (5, 2)]  # by number, from 1
LIMIT = 4096
OWNED = 256  # the places of a table by value
BY_VALUE = (1, 2, 3, 4)


def epochs(c):
    """The last epochs of kernel c's segments."""
    return [10000.0 * c + i + 1 for i in range(KERNELS[c - 1][1])]


def kernel(c):
    """File record, summary records of up to 25, and one record more for the last one's names."""
    lasts = epochs(c)
    blocks = [lasts[i : i + 25] for i in range(0, len(lasts), 25)]
    out = bytearray(1024 * (1 + len(blocks) + (1 if blocks else 0)))
    out[0:8] = b"DAF/SPK "
    out[8:16] = struct.pack("<2I", 2, 6)
    out[76:80] = struct.pack("<I", 2 if blocks else 0)  # FWARD
    out[88:96] = b"LTL-IEEE"
    for k, block in enumerate(blocks):
        at = 1024 * (k + 1)
        out[at : at + 24] = struct.pack("<3d", k + 3.0 if k + 1 < len(blocks) else 0.0, 0.0, len(block))  # NEXT, PREV, NSUM
        for j, last in enumerate(block):
            summary = struct.pack("<2d6i", 0.0, last, 25 * k + j + 1, 0, 1, 1, 0, 0)
            out[at + 24 + 40 * j : at + 64 + 40 * j] = summary
    return bytes(out)


def opened(table, c):
    """Opens kernel c into the table: its outcome, 8 or a count, and how many segments there are."""
    lasts = epochs(c)
    if len(lasts) > min(len(table), LIMIT):
        return 8, 0
    table[: len(lasts)] = lasts
    return len(lasts), len(lasts)


def asked(places, n):
    """Target 1 about 0 at 0.5: 14 by the count, 11 of no segment, 12 of the first, whose type is unsupported."""
    if n > min(places, LIMIT):
        return 14
    return 12 if n else 11


def lines():
    for first, second in PAIRS:
        for places in PLACES:
            table = [0.0] * places
            came, _ = opened(table, first)
            then, n = opened(table, second)
            total = 0.0
            for i, last in enumerate(table):
                total += (i + 1.0) * last
            answers = [asked(places, count) for count in (n, places + 1, LIMIT + 1)]
            yield " ".join(map(str, [places, came, then, struct.pack(">d", total).hex()] + answers)) + "\n"
    for c in BY_VALUE:
        came, n = opened([0.0] * OWNED, c)
        yield f"value {came} 0 {asked(OWNED, n)}\n"


def main():
    for c, (name, _) in enumerate(KERNELS, 1):
        with open(os.path.join(INTO, "data", f"{name}.bsp"), "wb") as f:
            f.write(kernel(c))
    with open(os.path.join(INTO, "stdout"), "w") as f:
        f.writelines(lines())


if __name__ == "__main__":
    main()
