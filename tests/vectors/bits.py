#!/usr/bin/env python3
"""Writes what crates/replay_bits is run on and what it must write, from the meaning of each number and not from its code.

stdin: 500 patterns of 8 bytes, edges first, then a fixed pseudo-random run. stdout: for each pattern the pattern itself, the signed 32-bit number
of its first four bytes (0 where negative), the double cut at 64 and at 32 bits, the record index among 7, and whether it is 1.0, as 16 hex digits.
"""
import math
import random
import struct
import sys

EDGES = [
    0.0, -0.0, 1.0, -1.0, 0.5, 0.9, 1.5, 2.75, 6.0, 6.999, 7.0, 8.0, -0.5, 2.0**31, 2.0**32 - 1, 2.0**32, 2.0**52, 2.0**53,
    2.0**63, 2.0**64 - 2048, 2.0**64, 1e300, -1e300, 5e-324, 2.2250738585072014e-308, math.inf, -math.inf,
]
PATTERNS = [0x7FF8000000000000, 0x7FF0000000000001, 0xFFF8000000000001, 0xFFFFFFFFFFFFFFFF]


def patterns():
    out = [struct.unpack("<Q", struct.pack("<d", x))[0] for x in EDGES] + PATTERNS
    rng = random.Random(20261115)
    while len(out) < 500:
        if rng.random() < 0.5:
            x = rng.choice([-1, 1]) * rng.random() * 2.0 ** rng.randint(-4, 70)
            out.append(struct.unpack("<Q", struct.pack("<d", x))[0])
        else:
            out.append(rng.getrandbits(64))
    return out


def cut(x, width):
    if x != x or x <= 0:
        return 0
    top = 2**width - 1
    return top if x == math.inf else min(int(x), top)


def record(x, n):
    if x != x:
        return 0
    if math.isinf(x):
        return 0 if x < 0 else n - 1
    return max(0, min(math.floor(x), n - 1))


def line(p):
    x = struct.unpack("<d", struct.pack("<Q", p))[0]
    low = struct.unpack("<i", struct.pack("<Q", p)[:4])[0]
    return "".join(
        "%016x " % v for v in (p, max(low, 0), cut(x, 64), cut(x, 32), record(x, 7), int(p == 0x3FF0000000000000))
    )


def main(folder):
    ps = patterns()
    with open(folder + "/stdin", "wb") as f:
        f.write(b"".join(struct.pack("<Q", p) for p in ps))
    with open(folder + "/stdout", "w") as f:
        f.write("".join(line(p) + "\n" for p in ps))


if __name__ == "__main__":
    main(sys.argv[1] if len(sys.argv) > 1 else "crates/replay_bits")
