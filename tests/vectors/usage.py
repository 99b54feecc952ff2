#!/usr/bin/env python3
"""Writes what crates/statement and crates/replay_statement are run on and what they must write.

crates/statement: stdin, a usage file of five suppliers. crates/replay_statement: data/files, blocks of a length and a usage file each, at the edges of the
rules. stdout of both is what tests/second, written from the rules alone, prints.
"""
import os
import random
import struct
import sys

HERE = os.path.dirname(os.path.abspath(__file__))
sys.path[0:0] = [os.path.join(HERE, "..", "second")]
import second  # noqa: E402

MARK = b"\xa5\x5a"


def record(supplier, segment=1, mark=MARK):
    return mark + struct.pack("<HI", segment, supplier)


def of(*suppliers):
    return b"".join(record(s, i % 65536) for i, s in enumerate(suppliers))


def edges():
    """Usage files at the edges of the rules, the largest last."""
    draw = random.Random(1)
    broken = record(9, mark=b"\xa5\x5b")
    many = draw.sample(range(2**32), 514)
    full, over = of(*many[:512]), of(*many[:513])
    yield b""
    yield of(0)
    yield of(2**32 - 1, 0, 2**32 - 1)
    yield of(0x01020304, 0x04030201)
    yield of(*[7] * 300)
    yield of(5, 4, 3, 2, 1, 1, 2, 3, 4, 5)
    for rest in range(1, 8):
        yield of(1, 2) + record(3)[:rest]
    for mark in (b"\x5a\xa5", b"\xa5\x5b", b"\xa4\x5a", b"\x00\x00"):
        yield of(1) + record(2, mark=mark) + of(3)
    yield broken
    yield full
    yield of(*sorted(many[:512])) + of(*sorted(many[:512], reverse=True))
    yield of(*many[:512], *many[:512])
    yield over
    yield full + record(many[0])[:7]
    yield over + b"\xa5"
    # a fault before, in and after the record of the 513th supplier
    yield of(*many[:100]) + broken + of(*many[100:513])
    yield full + record(many[512], mark=b"\xa5\x5b")
    yield full + broken + of(many[512])
    yield over + broken
    yield full + of(many[3]) + of(many[512])


def sample():
    return of(7, 3, 7, 2**32 - 1, 3, 7, 0, *[1000] * 12)


def write(path, data):
    path = os.path.join(HERE, "..", "..", "crates", path)
    os.makedirs(os.path.dirname(path), exist_ok=True)
    with open(path, "wb") as out:
        out.write(data)


def text(usage):
    return "".join(line + "\n" for line in second.statement_lines(usage)).encode()


def main():
    files = list(edges())
    blocks = b"".join(struct.pack("<I", len(f)) + f for f in files)
    if len(blocks) > 65536:
        sys.exit(f"{len(blocks)} bytes of blocks are more than replay_statement takes")
    write("replay_statement/data/files", blocks)
    write("replay_statement/args", b"files\n")
    write("replay_statement/stdout", b"".join(text(f) for f in files))
    write("statement/stdin", sample())
    write("statement/stdout", text(sample()))
    print(f"{len(files)} usage files, {len(blocks)} bytes")


if __name__ == "__main__":
    main()
