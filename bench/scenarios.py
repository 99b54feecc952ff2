#!/usr/bin/env python3
"""scenarios.py FOLDER: the kernels and questions that both sides are measured on, and their list.

Writes NAME.kernel and NAME.questions, and list.tsv: name, mode, what is measured. Sixteen questions each, in
several records; every question is answered. Numbers are of ordinary size, the same in every run. A kernel that is
opened in each pass is asked for a body about itself; `open-0`, not in the list, has no segments. And usage files as
NAME.kernel beside an empty NAME.questions, with usage.tsv: name, what it is.
"""

import os
import struct
import sys

sys.path.insert(0, os.path.join(os.path.dirname(os.path.abspath(__file__)), "../tests/oracle"))
from kernels import Chance, Kernel, Segment, ask_record, orient_record  # noqa: E402

SPAN = 3200.0


def series(chance, numbers, coefficients):
    """A type 2 or 3 segment of four records of so many coefficients over the span."""
    channels, out = 6 if numbers[-1] == 3 else 3, []
    for k in range(4):
        out += [400.0 + 800.0 * k, 400.0] + [chance.spread(1e6) for _ in range(channels * coefficients)]
    return Segment(numbers, 0.0, SPAN, out + [0.0, 800.0, 2.0 + channels * coefficients, 4.0])


def states(chance, numbers, degree):
    """A type 9 or 13 segment of fifty states at unequal steps."""
    epochs = [64.0 * i + chance.spread(10.0) for i in range(50)]
    doubles = [chance.spread(1e6) for _ in range(300)] + epochs + [float(degree), 50.0]
    return Segment(numbers, 0.0, SPAN, doubles)


def many(chance, count):
    """So many segments of nine doubles, each of a pair of its own, but for the one in the middle."""
    out = []
    for i in range(count):
        head = (1000 + i, 0, 1, 2)
        small = Segment(head, 0.0, SPAN, [1600.0, 1600.0, 1.0, 2.0, 3.0, 0.0, SPAN, 5.0, 1.0])
        out.append(series(chance, head, 14) if i == count // 2 else small)
    return out


class Packed:
    """A kernel of so many segments, each of a pair of its own, in less than 200,000 bytes: the summary records stand one after another, each the name
    record of the one before, and one run of nine doubles serves all but the segment in the middle."""

    def __init__(self, chance, count):
        records = (count + 24) // 25
        out = bytearray(Kernel("spk", []).bytes[:1024])
        out[76:80] = struct.pack("<I", 2)
        address = 128 * (2 + records) + 1
        small = [1600.0, 1600.0, 1.0, 2.0, 3.0, 0.0, SPAN, 5.0, 1.0]
        large = series(chance, (0, 0, 1, 2), 14).doubles
        for r in range(records):
            held = min(25, count - 25 * r)
            record = bytearray(1024)
            struct.pack_into("<3d", record, 0, 3.0 + r if r + 1 < records else 0.0, 0.0, float(held))
            for j in range(held):
                i = 25 * r + j
                start, size = (address + 9, len(large)) if i == count // 2 else (address, 9)
                struct.pack_into("<2d6i", record, 24 + 40 * j, 0.0, SPAN, 1000 + i, 0, 1, 2, start, start + size - 1)
            out += record
        out += bytes(1024)
        self.bytes = bytes(out) + struct.pack(f"<{9 + len(large)}d", *small, *large)


def planets(chance):
    """Fourteen segments as of a planetary kernel: ten about 0, four about those."""
    pairs = [(k, 0) for k in range(1, 11)] + [(301, 3), (399, 3), (199, 1), (299, 2)]
    return [series(chance, pair + (1, 2), 14) for pair in pairs]


def scenarios(chance):
    """Name, mode, what it is, kernel, pair asked."""
    one = [series(chance, (399, 3, 1, 2), 14)]
    fourteen, full = many(chance, 14), many(chance, 256)
    yield "remembered-1", "remember", "type 2, 14 coefficients, remembered, 1 segment", one, (399, 3)
    yield "remembered-14", "remember", "the same of 14 segments", fourteen, (1007, 0)
    yield "remembered-256", "remember", "the same of 256 segments", full, (1128, 0)
    yield "fresh-1", "forget", "not remembered, 1 segment", one, (399, 3)
    yield "fresh-14", "forget", "not remembered, 14 segments", fourteen, (1007, 0)
    yield "fresh-256", "forget", "not remembered, 256 segments", full, (1128, 0)
    yield "fresh-4096", "forget", "not remembered, 4,096 segments", Packed(Chance(3), 4096), (1000 + 2048, 0)
    yield "reversed-14", "remember", "reversed, 14 segments", fourteen, (0, 1007)
    yield "chain", "remember", "chain of 2+2, 14 segments", planets(chance), (301, 199)
    yield "type3", "remember", "type 3, 14 coefficients, remembered", [series(chance, (399, 3, 1, 3), 14)], (399, 3)
    yield "type9-7", "remember", "type 9, degree 7, 50 states, remembered", [states(chance, (399, 3, 1, 9), 7)], (399, 3)
    yield "type9-15", "remember", "type 9, degree 15, remembered", [states(chance, (399, 3, 1, 9), 15)], (399, 3)
    yield "type13", "remember", "type 13, window 8, 50 states, remembered", [states(chance, (399, 3, 1, 13), 7)], (399, 3)
    yield "type13-32", "remember", "type 13, window 32, remembered", [states(Chance(4), (399, 3, 1, 13), 31)], (399, 3)
    yield "pck", "orient", "PCK type 2, 14 coefficients, 1 segment", [series(chance, (3000, 1, 2), 14)], (3000,)
    yield "open-0", "open", "opening, no segments", [], (399, 399)
    yield "open-14", "open", "opening, 14 segments", fourteen, (399, 399)
    yield "open-256", "open", "opening, 256 segments", full, (399, 399)
    yield "open-4096", "open", "opening, 4,096 segments", Packed(Chance(3), 4096), (399, 399)


def usage_files(chance):
    """Name, what it is, suppliers: 8,192 records of 512 suppliers, in the order in which they are named."""
    suppliers = [8388608 * i + chance.below(8388608) for i in range(512)]
    drawn = [suppliers[chance.below(512)] for _ in range(7680)] + suppliers
    for i in range(len(drawn) - 1, 0, -1):
        j = chance.below(i + 1)
        drawn[i], drawn[j] = drawn[j], drawn[i]
    yield "usage-drawn", "in an order drawn by lot", drawn
    yield "usage-rising", "rising, sixteen times over", suppliers * 16
    yield "usage-falling", "falling, sixteen times over", suppliers[::-1] * 16


def usage_record(supplier):
    return b"\xa5\x5a" + struct.pack("<HI", supplier % 4096, supplier)


def main():
    folder = sys.argv[1]
    os.makedirs(folder, exist_ok=True)
    lines = []
    for name, mode, what, segments, pair in scenarios(Chance(1)):
        kernel = segments if isinstance(segments, Packed) else Kernel("pck" if mode == "orient" else "spk", segments)
        record = orient_record if mode == "orient" else ask_record
        asked = b"".join(record(*pair, 50.0 + 190.0 * i) for i in range(16))
        for suffix, data in (("kernel", kernel.bytes), ("questions", asked)):
            with open(os.path.join(folder, f"{name}.{suffix}"), "wb") as f:
                f.write(data)
        if segments:
            lines.append(f"{name}\t{mode}\t{what}\n")
    with open(os.path.join(folder, "list.tsv"), "w") as f:
        f.writelines(lines)
    with open(os.path.join(folder, "usage.tsv"), "w") as f:
        for name, what, suppliers in usage_files(Chance(2)):
            with open(os.path.join(folder, f"{name}.kernel"), "wb") as out:
                out.write(b"".join(map(usage_record, suppliers)))
            with open(os.path.join(folder, f"{name}.questions"), "wb"):
                pass
            f.write(f"{name}\t{what}\n")


if __name__ == "__main__":
    main()
