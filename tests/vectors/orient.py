#!/usr/bin/env python3
"""Writes what crates/orient is run on and what it must write.

data/kernel: a PCK made from the format in RULES, "Kernels", whose segments overlap, are of an unsupported type, have no RADIUS, or give numbers that are not
finite. data/questions: epochs at the edges of its segments and records. stdout: what tests/second, written from the rules alone, prints.
With the driver of tests/oracle as second argument the Rust's answers are held against it too.
"""
import os
import struct
import sys

HERE = os.path.dirname(os.path.abspath(__file__))
sys.path[0:0] = [os.path.join(HERE, "..", "second"), os.path.join(HERE, "..", "oracle")]
import compare  # noqa: E402
import second  # noqa: E402

NAN, INF = float("nan"), float("inf")


def record(mid, radius, *series):
    """A record: MID, RADIUS, then the series of the three angles."""
    return [mid, radius, *(c for s in series for c in s)]


def trailer(init, intlen, records):
    return [x for r in records for x in r] + [init, intlen, float(len(records[0])), float(len(records))]


def segments():
    """(first, last, body frame, reference frame, type, doubles) in file order."""
    angles = ([0.1, -2.5, 1.0 / 3], [1.4, 1e-3, -7e-9], [4.9, 6.3, 1e-17])
    two = [record(5.0, 5.0, *angles), record(15.0, 5.0, *reversed(angles))]
    yield 0.0, 20.0, 3000, 17, 2, trailer(0.0, 10.0, two)
    # a later one of the same body frame, about another reference frame
    yield 12.0, 14.0, 3000, 1, 2, trailer(12.0, 2.0, [record(13.0, 1.0, [1.0], [-0.0], [5e-324])])
    # an unsupported type covers a part of a handled segment's span
    yield -10.0, 10.0, 31006, 1, 2, trailer(-10.0, 20.0, [record(0.0, 10.0, [1.0, 2.0], [3.0, 4.0], [5.0, 6.0])])
    yield 2.0, 4.0, 31006, 1, 3, []
    # no RADIUS in the second record
    yield 0.0, 2.0, -5, 17, 2, trailer(0.0, 1.0, [record(0.5, 0.5, [1.0], [2.0], [3.0]), record(1.5, -0.0, [1.0], [2.0], [3.0])])
    # a rate is not finite beyond s = 1.25
    yield 0.0, 9.0, 7, -99, 2, trailer(0.0, 9.0, [record(0.0, 1.0, [0.0, 3e307, 3e307], [0.0, 1.0, 2.0], [0.0, 1.0, 2.0])])
    # the records end before the span does: the last one is stretched
    yield -100.0, 100.0, 8, 1, 2, trailer(0.0, 1.0, [record(0.5, 0.5, *angles), record(1.5, 0.5, *angles)])
    # it covers nothing
    yield 5.0, -5.0, 9, 1, 2, trailer(0.0, 1.0, [record(0.5, 0.5, [1.0], [2.0], [3.0])])


def kernel():
    found = list(segments())
    head = bytearray(1024)
    head[0:8] = b"DAF/PCK "
    head[8:16] = struct.pack("<II", 2, 5)
    head[76:80] = struct.pack("<I", 2)
    head[88:96] = b"LTL-IEEE"
    summaries, names, data = struct.pack("<ddd", 0.0, 0.0, float(len(found))), b"", b""
    for i, (first, last, body, frame, kind, doubles) in enumerate(found):
        start = 385 + len(data) // 8
        # a summary of 40 bytes holds six whole numbers' room, of which a PCK's last is unused
        summaries += struct.pack("<dd6i", first, last, body, frame, kind, start, start + len(doubles) - 1, 0)
        names += (b"SEGMENT %d" % i).ljust(40)
        data += struct.pack("<%dd" % len(doubles), *doubles)
    data += bytes(-len(data) % 1024)
    return bytes(head) + summaries.ljust(1024, b"\0") + names.ljust(1024) + data


def questions():
    for et in (-0.0, 0.0, 5e-324, 2.5, 10.0, 9.999999999999998, 11.999, 12.0, 13.0, 14.0, 14.000000000000002, 20.0, 20.000000000000004, -1e-300):
        yield 3000, et
    for et in (NAN, INF, -INF):
        yield 3000, et
    for et in (-10.0, 1.999, 2.0, 3.0, 4.0, 4.001, 10.0):
        yield 31006, et
    for et in (0.0, 0.999, 1.0, 2.0):
        yield -5, et
    for et in (0.0, 1.0, 1.25, 1.5, 9.0):
        yield 7, et
    for et in (-100.0, -1.0, 0.0, 1.0, 1.5, 2.0, 99.0):
        yield 8, et
    for body in (9, 3, 0, -2147483648, 2147483647):
        yield body, 0.0


def main(folder, oracle=None):
    files = {"kernel": kernel(), "questions": b"".join(b"\xa5\x5c" + struct.pack("<id", *q) for q in questions())}
    paths = [os.path.join(folder, "data", name) for name in files]
    os.makedirs(os.path.join(folder, "data"), exist_ok=True)
    for path, data in zip(paths, files.values()):
        with open(path, "wb") as f:
            f.write(data)
    with open(os.path.join(folder, "args"), "w") as f:
        f.write("kernel\nquestions\n")
    lines = second.run(["orient"] + paths)
    with open(os.path.join(folder, "stdout"), "w") as f:
        f.write("".join(line + "\n" for line in lines))
    print(len(files["kernel"]), "bytes,", len(lines), "questions")
    if oracle:
        rust = compare.run([oracle, "orient"] + paths)[1:]
        words = [line.split(" ")[-7:][0] for line in lines]
        held = [compare.expected(i, (False, False, et, None), line, word) for i, ((_, et), line, word) in enumerate(zip(questions(), rust, words))]
        if held != lines:
            sys.exit("the Rust's answers are others")
        print("the Rust gives the same")


if __name__ == "__main__":
    main(*(sys.argv[1:] or ["crates/orient"]))
