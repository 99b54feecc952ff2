#!/usr/bin/env python3
"""ask.py [ORACLE]: writes what crates/ask is run on and what it must write.

data/ and args: the sample kernel, its questions and its matrix (tests/sample). stdout: the given Rust's answers, by tests/oracle's driver ORACLE,
with the refusals as tests/oracle holds them; tests/second, which knows nothing of either, must say the same.
"""
import argparse
import os
import shutil
import subprocess
import sys

HERE = os.path.dirname(os.path.abspath(__file__))
TESTS = os.path.join(HERE, "..")
sys.path.insert(0, os.path.join(TESTS, "oracle"))
from compare import Case, Comparison  # noqa: E402

FILES = ["de405.bsp", "de405.questions", "eclipj2000.matrix"]


class Sample(Case):
    """The sample as a case of the comparison."""

    def __init__(self, paths):
        self.number, self.family, self.program, self.expect, self.note, self.unfit, self.framed = "0", "sample", "ask", "accepted", "", set(), False
        self.paths = dict(zip(("kernel", "questions", "matrix"), paths))

    def path(self, suffix):
        return self.paths.get(suffix, os.devnull + "." + suffix)


def main():
    into = os.path.join(TESTS, "..", "crates", "ask")
    paths = [os.path.join(TESTS, "sample", name) for name in FILES]
    oracle = sys.argv[1] if len(sys.argv) > 1 else os.path.join(TESTS, "oracle", "target", "release", "oracle")
    comparison = Comparison(argparse.Namespace(oracle=oracle))
    lines = comparison.wanted(Sample(paths))
    second = subprocess.run([sys.executable, os.path.join(TESTS, "second", "second.py"), "ask", *paths], capture_output=True, check=True)
    if comparison.failures or second.stdout.decode().splitlines() != lines:
        raise SystemExit("the Rust and the second program differ")
    os.makedirs(os.path.join(into, "data"), exist_ok=True)
    for path in paths:
        shutil.copy(path, os.path.join(into, "data"))
    with open(os.path.join(into, "args"), "w") as f:
        f.write("".join(name + "\n" for name in FILES))
    with open(os.path.join(into, "stdout"), "w") as f:
        f.write("".join(line + "\n" for line in lines))
    print(len(lines), "lines")


if __name__ == "__main__":
    main()
