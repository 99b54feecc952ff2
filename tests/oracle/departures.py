#!/usr/bin/env python3
"""departures.py [--ask PROGRAM] [--orient PROGRAM] [--run WORDS]: where the Rust or NAIF departs from RULES, each with a small input.

What RULES demands is held against our program where one is given; what the Rust does is held against the
Rust, so that a departure which is gone shows. An expected line may be the beginning of the line printed.
A case may have a matrix after its lines; `ask` is then asked in ECLIPJ2000.
"""

import argparse
import os
import shlex
import sys
import tempfile

from compare import HERE, run
from kernels import INF, NAN, RECORD, Kernel, Segment, ask_record, double, orient_record

ONE = [5.0, 5.0, 1.0, 2.0, 3.0]  # a record of one coefficient: MID, RADIUS, x, y, z
SIX = "3ff0000000000000 4000000000000000 4008000000000000 0000000000000000 0000000000000000 0000000000000000"
WRAPPED = 2.0**64
QUARTER = b"".join(map(double, (0.0, 1.0, 0.0, -1.0, 0.0, 0.0, 0.0, 0.0, 1.0)))  # a turn of (x, y, z) to (y, -x, z)
TURNED = "4000000000000000 bff0000000000000 4008000000000000 0000000000000000 0000000000000000 0000000000000000"
MALFORMED = ["refused 9 0"]


def series(record=ONE, init=0.0, intlen=10.0, rsize=5.0, n=1.0):
    return record + [init, intlen, rsize, n]


def states(n, degree):
    """n states and epochs with no directory."""
    return [float(i) for i in range(6 * n)] + [float(i) for i in range(n)] + [degree, float(n)]


def segment(doubles, data_type=2, first=0.0, last=10.0, pair=(399, 3), **more):
    return Segment(pair + (1, data_type), first, last, doubles, **more)


def spk(*segments):
    return Kernel("spk", list(segments))


def trailers():
    """Name, kernel, question, our lines, the Rust's lines: numbers of a segment's end."""
    at = ask_record(399, 3, 1.0)
    yield "type 9, degree 2^64: d + 1 wraps to 0", spk(segment(states(2, WRAPPED), 9)), at, ["0 forward 0"], ["opened 1", "0 error window 0"]
    yield "type 13, degree 2^64: the same at the opening", spk(segment(states(2, WRAPPED), 13)), at, ["0 forward 0"], ["opening error malformed"]
    yield "NAIF: 100 states have no directory entry", spk(segment(states(100, 3.0), 9)), at, MALFORMED, ["opening error malformed"]
    wrapped = spk(segment([3.0, 100 * 2.0**32], 9))
    yield "type 9, N 100 * 2^32 in two doubles: the length wraps in 32 bits", wrapped, at, MALFORMED, ["opened 1", "0 error address"]
    yield "a window of 33 records", spk(segment(states(33, 32.0), 9)), at, MALFORMED, ["opened 1", "0 forward 0"]
    for n in (0.0, NAN, INF):
        yield f"N {n}", spk(segment(series(n=n))), at, MALFORMED, ["opened 1", "0 panic"]
    yield "RSIZE 2^32 + 1", spk(segment(series(rsize=2.0**32 + 1))), at, MALFORMED, ["opened 1", "0 panic"]
    yield "INTLEN NaN", spk(segment(series(intlen=NAN))), at, MALFORMED, ["opened 1", f"0 forward 0 {SIX}"]
    yield "INIT infinite", spk(segment(series(init=INF))), at, MALFORMED, ["opened 1", f"0 forward 0 {SIX}"]


def addresses():
    """The same: a segment's bounds."""
    other = segment(series([5.0, 5.0, 7.0, 8.0, 9.0]), pair=(301, 3))
    beyond = spk(segment(series(n=3.0), last=30.0), other)
    theirs = ["opened 2", "0 forward 0 4020000000000000 4022000000000000"]
    yield "N past the segment: the next supplier's 8 and 9", beyond, ask_record(399, 3, 20.0), MALFORMED, theirs
    at = ask_record(399, 3, 1.0)
    low = spk(segment(series(intlen=1.0, n=9.0), start=-4))
    yield "start -4: the file record is read", low, at, MALFORMED, ["opened 1", "0 forward 0"]
    short = spk(segment(series(), start=393))
    yield "one double: the trailer before it is read", short, at, MALFORMED, ["opened 1", "0 error radius 0"]


def epochs():
    """The same: limits and epochs that are NaN, numbers that are not finite."""
    chained = spk(segment(series(), first=NAN), segment(series(), pair=(3, 0)))
    yield "a NaN limit covers every epoch in a chain", chained, ask_record(399, 0, 1.0), MALFORMED, ["opened 2", "0 chained"]
    two = spk(segment(series(), pair=(399, 0)), segment(series(), pair=(301, 0)))
    yield "a NaN epoch over a chain", two, ask_record(399, 301, NAN), ["0 refused 10 0"], ["opened 2", "0 chained"]
    hot = spk(segment(series([5.0, 5.0, INF, 2.0, 3.0])))
    yield "a number that is not finite", hot, ask_record(399, 3, 1.0), ["0 refused 15 0"], ["opened 1", "0 forward 0 7ff0000000000000"]


def walks():
    """The same: file record and summary records."""
    at = ask_record(399, 3, 1.0)
    yield "NEXT names its own record", spk(segment(series())).put(RECORD, double(2.0)), at, ["refused 6 0"], ["opening endless"]
    yield "NI 5 for an SPK", spk(segment(series())).put(12, b"\x05"), at, ["refused 4 0"], ["opened 0", "0 error coverage 399"]
    yield "NSUM 26", spk(segment(series())).put(RECORD + 16, double(26.0)), at, ["refused 7 0"], ["opening error summary"]
    yield "1,024 bytes, FWARD 2^32 - 1", spk().put(76, b"\xff" * 4), at, ["refused 5 0"], ["opening error"]
    yield "an ID word that goes on otherwise", spk(segment(series())).put(4, b"XYZ "), at, [f"0 forward 0 no {SIX}"], ["opened 1", f"0 forward 0 {SIX}"]


def frames():
    """The same: a segment's own frame, with no frame asked and in ECLIPJ2000."""
    at, plain, turned = ask_record(399, 3, 1.0), [f"0 forward 0 no {SIX}"], [f"0 forward 0 no {TURNED}"]
    for frame, ours in ((1, turned), (17, plain), (13, ["0 refused 21 0"])):
        kernel = spk(Segment((399, 3, frame, 2), 0.0, 10.0, series()))
        yield f"a segment in frame {frame}, asked with no frame", kernel, at, plain, ["opened 1", f"0 forward 0 {SIX}"]
        yield f"a segment in frame {frame}, asked in ECLIPJ2000", kernel, at, ours, ["opened 1", f"0 forward 0 {TURNED}"], QUARTER
    mixed = spk(segment(series(), pair=(399, 0)), Segment((301, 0, 17, 2), 0.0, 10.0, series()))
    yield "a chain of frames 1 and 17, asked in ECLIPJ2000", mixed, ask_record(399, 301, 1.0), ["0 refused 21 0"], ["opened 2", "0 chained"], QUARTER


def orientations():
    """The same for PCK kernels."""
    pck = lambda doubles, last: Kernel("pck", [Segment((3000, 1, 2), 0.0, last, doubles)])  # noqa: E731
    answer = ["opened 1", f"0 1 {SIX}"]
    yield "PCK: a NaN limit covers every epoch", pck(series(), NAN), orient_record(3000, 99.0), MALFORMED, answer
    yield "PCK: a NaN epoch is answered", pck(series(), 10.0), orient_record(3000, NAN), ["0 refused 10 0"], answer
    yield "PCK: N 0", pck(series(n=0.0), 10.0), orient_record(3000, 1.0), MALFORMED, ["opened 1", "0 panic"]


def fits(want, got):
    return len(want) == len(got) and all(g.startswith(w) for w, g in zip(want, got))


def report(side, name, want, got):
    good = fits(want, got)
    print(f"{'as listed' if good else 'NOT SO'}: {side}: {name}: {'; '.join(got)[:110]}")
    return good


def main():
    parser = argparse.ArgumentParser(description=__doc__, formatter_class=argparse.RawDescriptionHelpFormatter)
    parser.add_argument("--ask")
    parser.add_argument("--orient")
    parser.add_argument("--run", default="")
    options = parser.parse_args()
    oracle, good = os.path.join(HERE, "target/release/oracle"), True
    with tempfile.TemporaryDirectory() as folder:

        def write(*files):
            """The files' paths, once they are written."""
            paths = [os.path.join(folder, name) for name in ("kernel", "questions", "matrix")][: len(files)]
            for path, data in zip(paths, files):
                with open(path, "wb") as f:
                    f.write(data)
            return paths

        for program, families in (("ask", (trailers, addresses, epochs, walks, frames)), ("orient", (orientations,))):
            for name, kernel, question, ours, rust, *matrix in (case for family in families for case in family()):
                paths = write(kernel.bytes if isinstance(kernel, Kernel) else kernel, question, *matrix)
                good &= report("the Rust", name, rust, run([oracle, program, *paths]))
                if getattr(options, program):
                    words = shlex.split(options.run) + shlex.split(getattr(options, program))
                    good &= report("ours", name, ours, run([*words, *paths]))
        paths = write(spk(segment(series(), name="é".encode())).bytes)
        good &= report("the Rust", "a name that is not ASCII is kept", ["opened 1", "0 c3a9"], run([oracle, "names", *paths]))
    sys.exit(0 if good else 1)


if __name__ == "__main__":
    main()
