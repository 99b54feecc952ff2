#!/usr/bin/env python3
"""Adds to what crates/replay_cases is run on: states asked in a frame, with the lines of the second program.

data/frames.cases: blocks of kinds 0 and 1 (tests/oracle/stored.py describes a block). A kernel of small systems with segments in frames 1, 17, 13
and -5: one segment, chains in one frame and in several, chains that pass a segment of another frame over, -0 in a state, states that are refused.
It is asked with no frame and in each of these, then by the matrix that leaves a state where it is and by one that overflows. Run it after alone.py.
"""
import os
import struct
import sys

HERE = os.path.dirname(os.path.abspath(__file__))
sys.path[0:0] = [HERE, os.path.join(HERE, "..", "oracle")]
import alone  # noqa: E402
from kernels import Kernel, Layout, Segment, ask_record  # noqa: E402

NAN, INF = float("nan"), float("inf")
NAME = "frames.cases"
STATE, ZEROS, INFINITE, NONE = range(4)  # which doubles a segment has
SIXES = [(1.5, -2.25, 3.0, 0.125, -0.5, 7.0), (-0.0, 0.0, -0.0, 0.0, -0.0, 1.0), (INF, 1.0, 2.0, 3.0, 4.0, 5.0)]
FIRST = 128 * 5 + 1  # the address of the first double, after two summary records
TURN = (0.36, 0.48, -0.8, -0.8, 0.6, 0.0, 0.48, 0.64, 0.6)
ONE = (1.0, 0.0, 0.0, 0.0, 1.0, 0.0, 0.0, 0.0, 1.0)
OVER = (1e308,) * 9
FRAMES = (1, 17, 13, -5)


def systems():
    """Of each system of bodies its segments, which are target, center, frame and the place of its doubles, and the pairs that are asked."""
    for frame in FRAMES:
        yield [(399, 3, frame, STATE), (301, 3, frame, ZEROS)], [(399, 3), (3, 399), (301, 3), (3, 301), (3, 3)]
    for first, then in ((1, 1), (17, 17), (13, 13), (1, 17), (17, 1), (17, 13)):
        yield [(399, 3, first, STATE), (3, 0, then, STATE), (301, 0, first, ZEROS)], [(399, 0), (0, 399), (399, 301), (301, 399)]
    # evaluated and passed over: before the one about 0, and after the first where none is about 0
    yield [(399, 3, 17, STATE), (399, 0, 1, STATE), (301, 0, 1, ZEROS)], [(399, 301), (301, 399)]
    yield [(399, 3, 17, STATE), (399, 4, 1, STATE), (3, 0, 17, STATE)], [(399, 0), (0, 399)]
    # the state's own refusals stand before 21
    yield [(399, 3, 13, INFINITE), (301, 3, 13, NONE)], [(399, 3), (301, 3), (3, 301), (5, 3)]


def body(system, number):
    """A body of a system; body 0 is in all of them."""
    return 1000 * system + number if number else 0


def kernel():
    """One kernel of all systems. The first segments have the doubles, one each; those of the systems name these places."""
    made = [Segment((9000 + i, 9999, 1, 3), 0.0, 10.0, [5.0, 5.0, *six, 0.0, 10.0, 8.0, 1.0]) for i, six in enumerate(SIXES)]
    for i, (segments, _) in enumerate(systems(), 1):
        for target, center, frame, place in segments:
            start, data_type = (1, 5) if place == NONE else (FIRST + 12 * place, 3)
            made.append(Segment((body(i, target), body(i, center), frame, data_type), 0.0, 10.0, [], start=start, end=start + 11))
    return bytes(Kernel("spk", made, Layout(cut=True)).bytes)


def questions():
    asked = [ask_record(body(i, target), body(i, center), 1.0) for i, (_, pairs) in enumerate(systems(), 1) for target, center in pairs]
    return b"".join(asked + [ask_record(body(3, 399), body(3, 3), et) for et in (11.0, NAN)])


def block(kernel, asked, frame=None, matrix=()):
    turn = b"" if frame is None else struct.pack("<9di", *matrix, frame)
    return struct.pack("<4I", 0 if frame is None else 1, 0, len(kernel), len(asked)) + turn + kernel + asked


def blocks():
    made, asked = kernel(), questions()
    yield block(made, asked)
    for frame in FRAMES:
        yield block(made, asked, frame, TURN)
    for frame in (1, 17):
        yield block(made, asked, frame, ONE)
        yield block(made, asked, frame, OVER)


if __name__ == "__main__":
    alone.add(NAME, blocks(), *sys.argv[1:])
