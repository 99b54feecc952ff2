#!/usr/bin/env python3
"""gen.py FOLDER [SEED [SCALE]]: kernels with questions, the same from the same seed.

Writes N.kernel, N.questions and where there is one N.matrix, and index.tsv with a line for each case:
number, family, program, what RULES, "Opening", demands of the opening (`accepted`, `refused N D`, or the whole
output of a program that refuses its input), and a note: `degree wraps`, where the Rust is asked about N.twin
with a degree that doesn't; or `unfit` and numbers of segments, where the table is made from N.origin and
these segments then don't fit N.kernel (the Rust's kernel is N.twin, whose trailers and length are the origin's); or `framed`
and the argument FRAME, or nothing, where segments are in several frames, states are asked in one, and the second program
is asked in the Rust's place: the Rust turns every state as from J2000.
A case whose opening is accepted and that isn't framed lies in demand 2's domain: each answer of six finite numbers must have the Rust's bits.
"""

import os
import struct
import subprocess
import sys

import damaged
import forged
from kernels import INF, NAN, Chance, Kernel, ask_record, double, orient_record
from opening import opening, unwrapped
from valid import (BODIES, UNSUPPORTED, alone, chain, layout_of, mixed, orientations, overlaps, pck_mixed, planets,
                   questions, reframed, segment, states)

HANDLED = [2, 3, 9, 13]
LIMIT = 65536
WIDE = 200000  # what the program `replay_wide` takes
ORACLE = os.path.join(os.path.dirname(os.path.abspath(__file__)), "target/release/oracle")


class Cases:
    """The folder being filled, and its index."""

    def __init__(self, folder):
        self.folder, self.lines = folder, []
        os.makedirs(folder, exist_ok=True)

    def file(self, suffix, data):
        with open(os.path.join(self.folder, f"{len(self.lines)}.{suffix}"), "wb") as f:
            f.write(data)

    def add(self, family, program, kernel, asked, expect, note="", **more):
        """`more` is what there is of matrix, twin and origin."""
        for suffix, data in {"kernel": kernel, "questions": asked, **more}.items():
            if data is not None:
                self.file(suffix, data)
        self.lines.append("\t".join((str(len(self.lines)), family, program, expect, note)))

    def spk(self, family, kernel, asked, aimed=None, program="ask", note="", **more):
        """A case whose tag comes from the bytes and must be the one aimed at."""
        expect = opening(kernel, "spk")
        check(family, aimed, expect, kernel, WIDE if program == "wide" else LIMIT)
        twin = unwrapped(kernel) if expect == "accepted" else None
        self.add(family, program, kernel, asked, expect, "degree wraps" if twin else note, twin=twin, **more)

    def pck(self, family, kernel, asked, aimed=None):
        expect = opening(kernel, "pck")
        check(family, aimed, expect, kernel)
        self.add(family, "orient", kernel, asked, expect)

    def close(self):
        with open(os.path.join(self.folder, "index.tsv"), "w") as f:
            f.write("\n".join(self.lines) + "\n")


def check(family, aimed, expect, kernel, limit=LIMIT):
    if len(kernel) > limit:
        raise SystemExit(f"{family}: a kernel of {len(kernel)} bytes")
    if aimed != "any" and expect != (aimed or "accepted"):
        raise SystemExit(f"{family}: aimed at {aimed}, the bytes say {expect}")


def turn(chance):
    """A matrix to turn states with: any nine numbers, the sign of zero among them."""
    shape = chance.below(8)
    if shape == 0:
        return b"".join(double(chance.pick([0.0, -0.0, 1.0, -1.0])) for _ in range(9))
    if shape == 1:
        return b"".join(double(chance.pick([1e308, -1e308, INF, NAN, 1.0, 0.0])) for _ in range(9))
    return b"".join(double(chance.spread(1.0)) for _ in range(9))


def eclip():
    """The Rust's own matrix, as `oracle matrix` writes it."""
    s, c = 0x3FD9752E50F4B399, 0x3FED5C0357681EF3
    one, minus = 0x3FF0000000000000, s | 1 << 63
    return struct.pack("<9Q", one, 0, 0, 0, c, s, 0, minus, c)


def accepted_spk(cases, chance, scale):
    for data_type in HANDLED:
        for _ in range(16 * scale):
            k = mixed(chance, chance.between(1, 4), [data_type], BODIES[:4])
            cases.spk(f"type {data_type}", k.bytes, questions(chance, k.segments, 160, BODIES))
    for _ in range(60 * scale):
        k = mixed(chance, chance.between(1, 25), HANDLED * 3 + [chance.pick(UNSUPPORTED)], BODIES[: chance.between(3, 10)])
        cases.spk("mixed", k.bytes, questions(chance, k.segments, 200, BODIES))
    for i in range(40 * scale):
        k = mixed(chance, chance.between(1, 12), HANDLED * 3 + [chance.pick(UNSUPPORTED)], BODIES[:6], frames=(1,))
        asked = questions(chance, k.segments, 160, BODIES)
        cases.spk("turned", k.bytes, asked, matrix=eclip() if i % 2 else turn(chance))
    for i in range(40 * scale):
        k = planets(chance)
        bodies = [s.numbers[0] for s in k.segments] + [0]
        asked = questions(chance, k.segments, 250, bodies)
        cases.spk("planets", k.bytes, asked, matrix=eclip() if i % 4 == 0 else None)
    for _ in range(24 * scale):
        k = overlaps(chance)
        cases.spk("overlapping", k.bytes, questions(chance, k.segments, 200, BODIES))
    for _ in range(20 * scale):
        count = chance.between(1, 30)
        k = mixed(chance, count, HANDLED, BODIES[:6], 3500, layout_of(chance, count))
        cases.spk("layout", k.bytes, questions(chance, k.segments, 80, BODIES))


def framed(cases, chance, scale):
    """Segments in one frame or in several, asked in each of them, in one that none has, and with FRAME left out."""
    for i in range(8 * scale):
        many = HANDLED * 3 + [chance.pick(UNSUPPORTED)]
        for k in (mixed(chance, chance.between(1, 8), many, BODIES[:5]), planets(chance), overlaps(chance), chain(chance, chance.between(2, 9), "forked")):
            k = reframed(chance, k, chance.pick([(1,), (17,), (13,), (1, 17), (1, 1, 1, 17), (17, 17, 17, 13), (1, 17, 13)]))
            bodies = [s.numbers[0] for s in k.segments] + [0]
            for frame in ("", "17", "1", "13", "-5"):
                asked = questions(chance, k.segments, 60, bodies)
                cases.spk("framed", k.bytes, asked, matrix=eclip() if i % 2 else turn(chance), note=f"framed {frame}".strip())


def by_number(cases, chance, scale):
    for _ in range(30 * scale):
        k = mixed(chance, chance.between(1, 12), HANDLED * 3 + [chance.pick(UNSUPPORTED)], BODIES[:6])
        cases.spk("alone", k.bytes, alone(chance, k.segments, 160), program="alone")


def of_others(cases, chance, rounds, room=1500, count=160):
    """Tables of another kernel; two kernels of so many doubles and the questions go into one block."""
    for _ in range(rounds):
        for program, origin, kernel, twin, asked, unfit in forged.forgeries(chance, room, count):
            kind = "pck" if program == "orient" else "spk"
            check("forged", None, opening(origin, kind), origin)
            note = " ".join(["unfit", *map(str, sorted(unfit))])
            cases.add(f"forged {program}", program, kernel, asked, "accepted", note, twin=twin, origin=origin)


def chains(cases, chance, scale):
    for steps in [1, 2, 3, 5, 31, 32, 33, 34] * scale:
        for shape in ("line", "start", "ring", "forked", "holed"):
            k = chain(chance, steps, shape)
            asked = ask_record(1000, 0, 50.0) + ask_record(0, 1000, 50.0) + ask_record(1000, 7001, 50.0)
            cases.spk(f"chain {shape}", k.bytes, asked + questions(chance, k.segments, 100, BODIES))


def packed(chance, n):
    """A kernel of n type 2 segments: the summary records stand one after another, and sixteen runs of doubles serve them all."""
    records = (n + 24) // 25
    doubles = [[10.0 * i, 5.0, chance.spread(1e8), chance.spread(1e6), chance.spread(1e4), 10.0 * i - 5.0, 10.0, 5.0, 1.0] for i in range(16)]
    out = bytearray(Kernel("spk", []).bytes[:1024])
    out[76:80] = struct.pack("<I", 2)
    address = 128 * (2 + records) + 1
    segments = []
    for r in range(records):
        held = min(25, n - 25 * r)
        record = bytearray(1024)
        struct.pack_into("<3d", record, 0, 3.0 + r if r + 1 < records else 0.0, 0.0, float(held))
        for j in range(held):
            run, pair = chance.below(16), (1 + chance.below(400), chance.pick([0, 0, 0, 1, 2, 3]))
            start = address + 9 * run
            struct.pack_into("<2d6i", record, 24 + 40 * j, 10.0 * run - 5.0, 10.0 * run + 5.0, *pair, 1, 2, start, start + 8)
            segments.append((pair, run))
        out += record
    out += bytes(1024)
    for run in doubles:
        out += struct.pack("<9d", *run)
    return bytes(out), segments


def wide(cases, chance):
    """More segments than fit into 65,536 bytes, up to 4,096."""
    for n in (777, 1500, 2048, 4095, 4096):
        kernel, segments = packed(chance, n)
        asked = b""
        for _ in range(600):
            (target, center), run = chance.pick(segments)
            et = 10.0 * run + chance.spread(6.0)
            if chance.one_in(3):
                target, center = center, target
            if chance.one_in(4):
                center = chance.pick(segments)[0][0]
            asked += ask_record(target, center, et)
        cases.spk(f"{n} segments", kernel, asked, program="wide")
    cases.spk("4,097 segments", packed(chance, 4097)[0], b"", "refused 8 0", program="wide")


def large(cases, chance):
    """256 and 400 segments, a thousand states, a full file of questions."""
    for _ in range(3):
        made = [segment(chance, (chance.pick(BODIES[:5]), chance.pick(BODIES[:5]), 1), 2, 18) for _ in range(256)]
        k = Kernel("spk", [s if len(s.doubles) < 20 else damaged.tiny(chance, "spk", i) for i, s in enumerate(made)])
        for s in k.segments:
            s.edges = s.edges or [s.first, s.last]
        cases.spk("256 segments", k.bytes, questions(chance, k.segments, 800, BODIES[:5]))
    k = Kernel("spk", [damaged.tiny(chance, "spk", i) for i in range(400)])
    for s in k.segments:
        s.edges = s.edges or [s.first, s.last]
    cases.spk("400 segments", k.bytes, questions(chance, k.segments, 800, list(range(1000, 1040)) + [0]))
    for data_type in (9, 13):
        k = Kernel("spk", [states(chance, (399, 3, 1, data_type), 1000, 7.0, "plain")])
        cases.spk(f"type {data_type}", k.bytes, questions(chance, k.segments, 400, BODIES))
    k = mixed(chance, 10, HANDLED, BODIES[:5], frames=(1,))
    cases.spk("full", k.bytes, questions(chance, k.segments, 3640, BODIES[:6]))
    cases.spk("full", k.bytes, questions(chance, k.segments, 3640, BODIES[:6]), matrix=eclip())
    k = pck_mixed(chance, 10, [2])
    cases.pck("full", k.bytes, orientations(chance, k.segments, 4681))


def wrapped(cases, chance):
    """A degree of 2^64 or more, which wraps in the Rust."""
    for data_type in (9, 13):
        for degree in (1.8446744073709552e19, 1e300, INF):
            s = states(chance, (399, 3, 1, data_type), 9, degree, "plain")
            k = Kernel("spk", [s])
            asked = questions(chance, [s], 60, BODIES)
            cases.spk(f"type {data_type}", k.bytes, asked)


def accepted_pck(cases, chance, scale):
    for _ in range(60 * scale):
        k = pck_mixed(chance, chance.between(1, 12), [2])
        cases.pck("pck", k.bytes, orientations(chance, k.segments, 240))
    for _ in range(12 * scale):
        count = chance.between(1, 30)
        k = pck_mixed(chance, count, [2], 3500, layout_of(chance, count))
        cases.pck("pck layout", k.bytes, orientations(chance, k.segments, 80))


def refusals(cases, chance, scale):
    for kind, add, record in (("spk", cases.spk, ask_record), ("pck", cases.pck, orient_record)):
        bodies = (399, 3) if kind == "spk" else (3000,)
        asked = b"".join(record(*bodies, et) for et in (0.0, 5.0, 1e9, NAN))
        for family in damaged.ON_PURPOSE:
            for kernel, aimed in family(chance, kind):
                add(f"{kind} {family.__name__}", kernel, asked, aimed)
        for kernel, aimed in damaged.flips(chance, kind, 150 * scale):
            add(f"{kind} flips", kernel, flip_questions(chance, kernel, kind), aimed)


def written(cases, chance, scale):
    """Kernels that the given Rust wrote; with 100 states it refuses its own."""
    path = os.path.join(cases.folder, "written")
    for _ in range(30 * scale):
        subprocess.run([ORACLE, "write", str(chance.bits()), path], check=True)
        with open(path, "rb") as f:
            kernel = f.read()
        cases.spk("written", kernel, flip_questions(chance, kernel, "spk"), "any")
    os.remove(path)


def flip_questions(chance, kernel, kind):
    """Questions about the pairs that stand where summaries usually do."""
    out = b""
    for i in range(min(25, (len(kernel) - 1064) // 40)):
        first, last = struct.unpack_from("<2d", kernel, 1048 + 40 * i)
        target, center = struct.unpack_from("<2i", kernel, 1064 + 40 * i)
        if (first, last, target, center) == (0.0, 0.0, 0, 0):
            break
        inside = [first + (last - first) * chance.unit() for _ in range(4)]
        for et in [first, last, (first + last) / 2, 0.0] + inside:
            out += ask_record(target, center, et) if kind == "spk" else orient_record(target, et)
    return out


def programs(cases, chance):
    """18 and 19: inputs that a program refuses itself."""
    k, p = mixed(chance, 3, [2], room=600), pck_mixed(chance, 3, [2], 600)
    for program, good, record in (("ask", k.bytes, ask_record(399, 3, 1.0)), ("orient", p.bytes, orient_record(3000, 1.0))):
        big = good + bytes(LIMIT + 1 - len(good))
        many = record * (LIMIT // len(record) + 1)
        bad = bytes([good[0] ^ 1]) + good[1:]
        cases.add("18", program, big, record, "refused 18 0")
        cases.add("18", program, good, many, "refused 18 0")
        cases.add("18", program, bad, many, "refused 18 0")
        cases.add("18", program, big, record[:-1], "refused 18 0")
        cases.add("empty", program, good, b"", "")
        for spoilt in (record[:-1], record[:1], record + record[:5], record * 3 + b"\xa5\x5a" + record[2:], b"\xa4" + record[1:] + record, record * 2 + b"\xa5", record[2:] + record[:2]):
            cases.add("19", program, good, spoilt, "refused 19 0")
            cases.add("19 after 2", program, bad, spoilt, "refused 2 0")
        cases.add("19", program, good, orient_record(1, 1.0) if program == "ask" else ask_record(1, 2, 1.0), "refused 19 0")
    cases.add("18", "ask", k.bytes, ask_record(399, 3, 1.0), "refused 18 0", matrix=bytes(LIMIT + 1))


def main():
    folder = sys.argv[1]
    seed = int(sys.argv[2]) if len(sys.argv) > 2 else 1
    scale = int(sys.argv[3]) if len(sys.argv) > 3 else 3
    cases = Cases(folder)
    families = [lambda c: accepted_spk(cases, c, scale), lambda c: chains(cases, c, scale), lambda c: large(cases, c), lambda c: wrapped(cases, c)]
    families += [lambda c: accepted_pck(cases, c, scale), lambda c: refusals(cases, c, scale), lambda c: programs(cases, c)]
    families += [lambda c: written(cases, c, scale), lambda c: by_number(cases, c, scale), lambda c: of_others(cases, c, 20 * scale), lambda c: wide(cases, c)]
    families += [lambda c: framed(cases, c, scale)]
    for i, family in enumerate(families):
        family(Chance(seed * 1000 + i))
    cases.close()
    print(f"{len(cases.lines)} cases in {folder}, seed {seed}, scale {scale}")


if __name__ == "__main__":
    main()
