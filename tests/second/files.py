#!/usr/bin/env python3
"""Holds what `ask` prints for files of every length against second.py.

    files.py PROGRAM...

PROGRAM may be several words, an emulator in front for example.  It is run on
every combination of the kernels, files of questions and matrix files below,
without a matrix file too, and with each FRAME on two kernels and all matrix
files.  Its standard output must be second.py's, byte for byte: nothing at all
where second.py can't take its files or FRAME, and then PROGRAM must say why
on the error output, where else it must write nothing.

Fails where something differs and where an outcome had no case.
"""

import itertools
import os
import subprocess
import sys
import tempfile
from collections import Counter

import second

HERE = os.path.dirname(os.path.abspath(__file__))
SAMPLE = os.path.join(HERE, "..", "sample")
OUTCOMES = ("answers", "nothing", "refused 18", "refused 19", "refused 1",
            "refused 2")


def contents(name):
    with open(os.path.join(SAMPLE, name), "rb") as opened:
        return opened.read()


KERNEL = contents("de405.bsp")
QUESTIONS = contents("de405.questions")
MATRIX = contents("eclipj2000.matrix")

KERNELS = {
    "kernel": KERNEL,
    "short-kernel": KERNEL[:1000],
    "no-kernel": bytes(65536),
    "long-kernel": bytes(65537),
}
FILES = {
    "questions": QUESTIONS,
    "no-questions": b"",
    "cut-questions": QUESTIONS[:-1],
    "most-questions": (QUESTIONS * 281)[:18 * 3640],
    "long-questions": bytes(65537),
}
MATRICES = {"matrix-%d" % n: (MATRIX * 911)[:n]
            for n in (0, 1, 71, 72, 73, 144, 65536, 65537)}
MISSING = "missing"
FRAMES = ["17", "1", "13", "-5", "0", "-0", "0017", "2147483647",
          "-2147483648", "0" * 4094 + "17",
          "", "-", "+17", "--5", "17 ", " 17", "1x", "x", "0x11", "1.0",
          "2147483648", "-2147483649", "4294967313", "18446744073709551633",
          "9" * 4096, "0" * 4095 + "17"]


def calls():
    """The names of the files of each call, and FRAME where it is given."""
    for names in itertools.product([*KERNELS, MISSING], [*FILES, MISSING],
                                   [None, *MATRICES, MISSING]):
        yield names, []
    for names in itertools.product(["kernel", "short-kernel"], ["questions"],
                                   MATRICES):
        for frame in FRAMES:
            yield names, [frame]


def wanted(words):
    """Standard output, and whether the error output has anything."""
    try:
        return "".join(line + "\n"
                       for line in second.run(["ask"] + words)).encode(), False
    except second.Misused:
        return b"", True


def outcome(output, complaint):
    if complaint:
        return "nothing"
    line = output.split(b"\n")[0].decode()
    return " ".join(line.split()[:2]) if line.startswith("refused") else "answers"


def main(program):
    if not program:
        sys.stderr.write("files.py PROGRAM...\n")
        return 2
    counts, failed = Counter(), 0
    with tempfile.TemporaryDirectory() as folder:
        for name, text in {**KERNELS, **FILES, **MATRICES}.items():
            with open(os.path.join(folder, name), "wb") as opened:
                opened.write(text)
        for names, frame in calls():
            words = [os.path.join(folder, name) for name in names if name]
            expected, complaint = wanted(words + frame)
            ran = subprocess.run(program + words + frame,
                                 stdin=subprocess.DEVNULL,
                                 capture_output=True, check=False)
            counts[outcome(expected, complaint)] += 1
            if ran.stdout != expected or bool(ran.stderr) != complaint:
                failed += 1
                print("%s: %d bytes for %d, error output %r" % (
                    " ".join([name for name in names if name] + frame)[:90],
                    len(ran.stdout), len(expected), ran.stderr))
    for name in OUTCOMES:
        print("%5d %s" % (counts[name], name))
        failed += not counts[name]
    print("%d runs, %d failures" % (sum(counts.values()), failed))
    return 1 if failed else 0


if __name__ == "__main__":
    sys.exit(main(sys.argv[1:]))
