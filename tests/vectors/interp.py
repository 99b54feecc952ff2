#!/usr/bin/env python3
"""Writes what crates/replay_interp is run on and what it must write: random blocks, and what the given Rust makes of them.

usage, from the repository's top: tests/vectors/interp.py [FUNCTIONS]
FUNCTIONS is the program of that name of tests/oracle, which takes the functions from the given spk.rs; it is asked for `type9` and `type13`, the
whole evaluation of a segment, and for `pick_window`. By default tests/oracle/target/release/functions.

A block: the count n, the type, six unused bytes, the degree (8 bytes), the epoch (a double); 6n doubles of states; n epochs. A third of the blocks
have odd epochs: repeated, unsorted, equal, NaN, infinite, zeros of both signs, subnormal. A line of the output: where the window starts, and the
six numbers as bits.
"""
import math
import random
import struct
import subprocess
import sys

BLOCKS = 300
ODD = [math.nan, math.inf, -math.inf, 0.0, -0.0, 5e-324, -2.5e-310, 1e300, -1e300, 1.7976931348623157e308]


def bits(x):
    return struct.unpack("<Q", struct.pack("<d", x))[0]


def epochs(rng, n):
    kind = rng.choice(["steps"] * 4 + ["even"] * 2 + ["repeated", "unsorted", "odd"])
    step = 10.0 ** rng.randint(-3, 4)
    at = rng.uniform(-50, 50) * step
    out = []
    for _ in range(n):
        out.append(at)
        at += step if kind == "even" else step * rng.uniform(0.1, 2)
    if kind == "repeated":
        for _ in range(1 + n // 3):
            out[rng.randrange(n)] = rng.choice(out)
        out.sort()
    if kind == "unsorted":
        rng.shuffle(out)
    if kind == "odd":
        for _ in range(1 + n // 4):
            out[rng.randrange(n)] = rng.choice(ODD)
    return out


def asked(rng, times):
    """An epoch at, between, before or after the stored ones, or an odd one."""
    kind = rng.random()
    if kind < 0.2:
        return rng.choice(times)
    if kind < 0.27:
        return rng.choice(ODD)
    low, high = times[0], times[-1]
    x = low + (high - low) * rng.uniform(-0.2, 1.2)
    return x if x == x else 1.0


def block(rng):
    n = rng.choice([1, 2, 3, 4, 5, 6, 7, 8, 9, 12])
    if rng.random() < 0.03:
        n = rng.choice([31, 32, 33])
    name = rng.choice(["type9", "type13"])
    degree = rng.randint(1, n)
    if rng.random() < 0.1:
        degree = rng.choice([31, 2**53, 2**63])
    if name == "type9" and rng.random() < 0.1:
        degree = 0
    if min(degree + 1, n) > 32:
        degree = 7
    times = epochs(rng, n)
    states = [rng.uniform(-1, 1) * 10.0 ** rng.randint(-2, 8) for _ in range(6 * n)]
    if rng.random() < 0.15:
        for _ in range(1 + n // 2):
            states[rng.randrange(6 * n)] = rng.choice(ODD)
    return n, name, degree, asked(rng, times), states, times


def ask(functions, name, lines):
    out = subprocess.run([functions, name], input="".join(lines), capture_output=True, text=True, check=True)
    return iter(out.stdout.splitlines())


def main():
    functions = sys.argv[1] if len(sys.argv) > 1 else "tests/oracle/target/release/functions"
    rng = random.Random(9013)
    blocks = [block(rng) for _ in range(BLOCKS)]
    data, lines, windows = bytearray(), {"type9": [], "type13": []}, []
    for n, name, degree, et, states, times in blocks:
        data += struct.pack("<BB6xQd", n, int(name[4:]), degree, et)
        data += struct.pack(f"<{7 * n}d", *states, *times)
        words = [f"{bits(x):016x}" for x in states + times]
        lines[name].append(" ".join([str(n), f"{bits(et):016x}", str(degree)] + words) + "\n")
        windows.append(" ".join([str(n), f"{bits(et):016x}", str(degree + 1)] + words[6 * n:]) + "\n")
    answers = {name: ask(functions, name, some) for name, some in lines.items()}
    starts = ask(functions, "pick_window", windows)
    text = ""
    for n, name, degree, et, states, times in blocks:
        start = next(starts).split()[0]
        six = next(answers[name]).split()
        assert len(six) == 6, six
        shown = ["nan" if int(w, 16) % 2**63 > 0x7FF0000000000000 else w for w in six]
        text += " ".join([start] + shown) + "\n"
    open("crates/replay_interp/stdin", "wb").write(bytes(data))
    open("crates/replay_interp/stdout", "w").write(text)


main()
