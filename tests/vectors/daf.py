#!/usr/bin/env python3
"""Writes what crates/replay_daf is run on and what it must write.

stdin: kernels whose walk, counts and names go to the edges of the rules (RULES, "Kernels" and "Opening"), each after its length in four bytes. stdout: what tests/second, written
from the rules alone, makes of each, as an SPK and as a PCK: first record, records, summaries and the name after the first, or the refusal. No
segment here is of a handled type, so that refusal 9 does not come in.
"""
import os
import struct
import sys

HERE = os.path.dirname(os.path.abspath(__file__))
sys.path.insert(0, os.path.join(HERE, "..", "second"))
import second  # noqa: E402

second.MOST_SEGMENTS = 256  # the program `replay_daf` stands for a small host

NAN = float("nan")


def file_record(fward, ni=6, nd=2, idword=b"DAF/SPK ", form=b"LTL-IEEE"):
    rec = bytearray(1024)
    rec[0:8] = idword
    rec[8:16] = struct.pack("<II", nd, ni)
    rec[76:80] = struct.pack("<I", fward)
    rec[88:96] = form
    return bytes(rec)


def summary_record(nxt, nsum, held=None):
    """A summary record with this NEXT and NSUM; the summaries that fit are of the unsupported type 1."""
    rec = bytearray(struct.pack("<ddd", nxt, 0.0, nsum))
    n = int(nsum) if held is None else held
    for i in range(min(n, 25)):
        rec += struct.pack("<dd6i", 0.0, 1.0 + i, 10 + i, 0, 1, 1, 1, 2)
    return bytes(rec.ljust(1024, b"\0"))


def names(first=b"NAME"):
    return first.ljust(40, b" ") + b" " * 984


def chain(counts, ni=6):
    """Summary records at 2, 4, 6, .. with these counts."""
    out = file_record(2, ni)
    for j, n in enumerate(counts):
        nxt = 0.0 if j + 1 == len(counts) else 2.0 * j + 4
        out += summary_record(nxt, float(n)) + names(b"SEGMENT %d" % j)
    return out


def pair(nxt, nsum=1.0, name=b"NAME"):
    return file_record(2) + summary_record(nxt, nsum) + names(name)


def kernels():
    yield b""
    yield chain([1])[:1023]
    yield file_record(0)
    yield file_record(0, idword=b"NAIF/DAF")
    yield file_record(0, form=b"BIG-IEEE")
    yield file_record(0, nd=3)
    yield file_record(0, ni=5)
    yield file_record(0, ni=4)
    yield file_record(1)
    yield file_record(0xFFFFFFFF)
    yield chain([1])
    yield chain([1])[:3071]
    yield chain([1])[:3072]
    yield chain([25, 0, 3])
    yield chain([2, 1], ni=5)
    yield chain([26])
    yield chain([1, 26, 1])
    yield chain([25] * 10 + [6])
    yield chain([25] * 10 + [7])
    # the walk: a record twice, rings, and what NEXT is cut to
    yield pair(2.0, 0.0)
    yield pair(2.0)
    yield file_record(2) + summary_record(4.0, 1.0) + names() + summary_record(2.0, 1.0) + names()
    yield file_record(2) + summary_record(4.0, 1.0) + names() + summary_record(4.0, 0.0) + names()
    yield file_record(2) + summary_record(3.0, 1.0) + summary_record(0.0, 1.0) + names()
    for nxt in (NAN, -1.0, -0.0, 0.9, 2.9, 3.0, 1e300, float("inf"), 4294967296.0):
        yield pair(nxt)
    for nsum in (NAN, -3.0, 0.9, 25.9, 26.0, 1e300, float("-inf")):
        yield file_record(2) + summary_record(0.0, nsum, held=0) + names()
    # names
    yield pair(0.0, name=b"AB \0 \0" + b"\0" * 34)
    yield pair(0.0, name=b"\0" * 40)
    yield pair(0.0, name=b"A\t\n\x0b\x0c\r \0\0" + b"\0" * 31)
    yield pair(0.0, name=b"A\x1c\x08" + b"\0" * 37)
    yield pair(0.0, name=b"CAF\xc3\xa9" + b" " * 35)
    yield pair(0.0, name=b"X" * 40)


def opened(kernel, pck):
    table = second.open_pck(kernel) if pck else second.open_spk(kernel)
    if isinstance(table, second.Refusal):
        return b"refused %d\n" % table.number
    fward = struct.unpack_from("<I", kernel, 76)[0]
    walked, r = 0, fward
    while r:
        walked += 1
        x = struct.unpack_from("<d", kernel, 1024 * (r - 1))[0]
        r = int(x) if x == x and 0 <= x < 2.0**32 else 0
    name = b""
    if 1024 * fward + 40 <= len(kernel):
        name = name_at(kernel, 1024 * fward)
    return b"%d %d %d [%s]\n" % (fward, walked, table.count, name)


def name_at(kernel, at):
    raw = kernel[at : at + 40]
    if len(raw) < 40 or any(b >= 128 for b in raw):
        return b""
    return raw.rstrip(b"\0").rstrip(b"\t\n\x0b\x0c\r ")


def main(folder):
    ks = list(kernels())
    with open(folder + "/stdin", "wb") as f:
        f.write(b"".join(struct.pack("<I", len(k)) + k for k in ks))
    with open(folder + "/stdout", "wb") as f:
        f.write(b"".join(opened(k, pck) for k in ks for pck in (False, True)))
    print(len(ks), "kernels,", sum(len(k) + 4 for k in ks), "bytes")


if __name__ == "__main__":
    main(sys.argv[1] if len(sys.argv) > 1 else "crates/replay_daf")
