#!/usr/bin/env python3
"""Writes what crates/replay_cheby is run on and what it must write: random Chebyshev segments, and the given Rust's answers to questions about them.

    cheby.py [ORACLE]     ORACLE is the driver that tests/oracle/setup.sh builds, by default tests/oracle/target/release/oracle

stdin: blocks. A block is a segment with three questions: a byte each for the type, the coefficients of a series and the records less one, five zeros; INIT, INTLEN;
three epochs; the records. stdout: a line for each question, six numbers as 16 hex digits (`nan` for any NaN), or `no radius`.
The whole segments are put into an SPK kernel, which the Rust opens and evaluates segment by segment, choice of the record included. Type 2 segments are
also put into a PCK kernel: the answers of the Rust's two readers must be the same.
"""
import math
import random
import struct
import subprocess
import sys
import tempfile
from pathlib import Path

ROOT = Path(__file__).resolve().parents[2]
SPECIAL = [0.0, -0.0, 1.0, -1.0, 5e-324, -5e-324, 2.2250738585072014e-308, 1e300, -1e300, 1.7976931348623157e308, math.inf, -math.inf, math.nan]
rng = random.Random(20261115)


def doubles(values):
    return struct.pack(f"<{len(values)}d", *values)


def wild():
    """A special number, any pattern of bits, or an ordinary number."""
    case = rng.random()
    if case < 0.4:
        return rng.choice(SPECIAL)
    if case < 0.6:
        return struct.unpack("<d", rng.getrandbits(64).to_bytes(8, "little"))[0]
    return rng.uniform(-1e3, 1e3)


def record(kind, n, middle, radius, tame):
    """MID, RADIUS and the series: coefficients that fall off, or with wild ones among them."""
    series = [rng.uniform(-1, 1) * 1e8 * 0.2 ** k for _ in range(3 if kind == 2 else 6) for k in range(n)]
    if not tame:
        series = [wild() if rng.random() < 0.15 else c for c in series]
        middle = wild() if rng.random() < 0.2 else middle
        radius = rng.choice([0.0, -0.0, wild(), radius])
    return [middle, radius] + series


def epoch(init, intlen, count):
    """Inside a record, at an edge between two, outside, or wild."""
    case = rng.random()
    if case < 0.4:
        return init + intlen * rng.uniform(0, count)
    if case < 0.6:
        return init + intlen * rng.randint(0, count)
    if case < 0.8:
        return init + intlen * rng.uniform(-3, count + 3)
    return wild()


def segment(number):
    kind, count, tame = rng.choice([2, 3]), rng.randint(1, 3), rng.random() < 0.5
    n = 14 if number == 0 else min(rng.randint(1, 14), rng.randint(1, 14), rng.randint(1, 14))
    init, intlen = rng.choice([0.0, -1e6, rng.uniform(-1e9, 1e9)]), rng.choice([10.0, 691200.0, rng.uniform(0.1, 1e6)])
    records = [record(kind, n, init + intlen * (r + 0.5), intlen / 2, tame) for r in range(count)]
    if rng.random() < 0.1:
        init = wild()
    if rng.random() < 0.1:
        intlen = rng.choice([5e-324, 1e308, math.inf, math.nan])
    return kind, n, init, intlen, records, [epoch(init, intlen, count) for _ in range(3)]


def block(kind, n, init, intlen, records, epochs):
    return bytes([kind, n, len(records) - 1, 0, 0, 0, 0, 0]) + doubles([init, intlen] + epochs) + b"".join(map(doubles, records))


def kernel(word, parts):
    """A kernel of these segments, (whole numbers, doubles) each, 25 to a summary record, the data after the last name record."""
    pairs = (len(parts) + 24) // 25
    out = bytearray(1024 * (1 + 2 * pairs))
    out[0:16] = word + struct.pack("<II", 2, len(parts[0][0]) + 2)
    out[76:84], out[88:96] = struct.pack("<II", 2, 2 * pairs), b"LTL-IEEE"
    for i, (numbers, values) in enumerate(parts):
        base, place, more = 1024 * (1 + 2 * (i // 25)), i % 25, i // 25 + 1 < pairs
        out[base : base + 24] = doubles([base // 1024 + 3 if more else 0, 0, 25 if more else len(parts) - 25 * (pairs - 1)])
        start, at = len(out) // 8 + 1, base + 24 + 40 * place
        whole = numbers + [start, start + len(values) - 1]
        out[at : at + 16 + 4 * len(whole)] = doubles([-math.inf, math.inf]) + struct.pack(f"<{len(whole)}i", *whole)
        out += doubles(values)
    return bytes(out)


def ask(oracle, command, kernel_bytes, mark, questions):
    """The answers' words after the question's number."""
    with tempfile.TemporaryDirectory() as there:
        files = [Path(there, "kernel"), Path(there, "questions")]
        files[0].write_bytes(kernel_bytes)
        files[1].write_bytes(b"".join(bytes([0xA5, mark]) + struct.pack("<id", i, et) for i, et in questions))
        lines = subprocess.run([oracle, command, *map(str, files)], capture_output=True, text=True, check=True).stdout.splitlines()
    assert lines[0].startswith("opened "), lines[0]
    assert len(lines) == 1 + len(questions)
    return [line.split()[1:] for line in lines[1:]]


def line(words):
    if words[:2] == ["error", "radius"]:
        return "no radius\n"
    words = words[2:] if words[0] == "forward" else words
    assert len(words) == 6, words
    nan = lambda w: math.isnan(struct.unpack(">d", bytes.fromhex(w))[0])
    return "".join("nan " if nan(w) else w + " " for w in words) + "\n"


def main():
    oracle = sys.argv[1] if len(sys.argv) > 1 else str(ROOT / "tests/oracle/target/release/oracle")
    segments = [segment(i) for i in range(120)]
    whole = lambda s: [d for r in s[4] for d in r] + [s[2], s[3], len(s[4][0]), len(s[4])]
    questions = [(i, et) for i, s in enumerate(segments) for et in s[5]]
    answers = [line(w) for w in ask(oracle, "alone", kernel(b"DAF/SPK ", [([399, 3, 1, s[0]], whole(s)) for s in segments]), 0x5D, questions)]

    asked = [k for k, (i, _) in enumerate(questions) if segments[i][0] == 2]
    angles = kernel(b"DAF/PCK ", [([i, 1, 2], whole(s)) for i, s in enumerate(segments) if s[0] == 2])
    for k, words in zip(asked, ask(oracle, "orient", angles, 0x5C, [questions[k] for k in asked])):
        assert line(words if words[0] == "error" else words[1:]) == answers[k], questions[k]

    data = b"".join(block(*s) for s in segments)
    assert len(data) <= 65536, len(data)
    (ROOT / "crates/replay_cheby/stdin").write_bytes(data)
    (ROOT / "crates/replay_cheby/stdout").write_text("".join(answers))


if __name__ == "__main__":
    main()
