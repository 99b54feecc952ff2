#!/usr/bin/env python3
"""times.py OURS RUST FOLDER: nanoseconds per question of both sides on this machine, as a Markdown table.

OURS and RUST are programs for the machine at hand (native.sh; the oracle's native bench), FOLDER holds what scenarios.py
wrote. Both sides are run in turn, so that both see the same minutes; what stands in the table is the median of RUNS runs
(default 7) of the processor's time, less that of the loop that asks nothing. The Rust's opening maps the file each time,
ours reads bytes that are there.
"""

import os
import resource
import statistics
import subprocess
import sys

RUNS = int(os.environ.get("RUNS", "7"))
LENGTH = 0.25  # seconds of a run
INDEXED = ("remember", "forget", "open")  # the modes that an index has too


def seconds(command):
    """The processor's time of a program, its calls of the system included."""
    before = resource.getrusage(resource.RUSAGE_CHILDREN)
    subprocess.run(command, check=True, stdout=subprocess.DEVNULL)
    after = resource.getrusage(resource.RUSAGE_CHILDREN)
    return after.ru_utime - before.ru_utime + after.ru_stime - before.ru_stime


class Side:
    """A program in one mode on one pair of files."""

    def __init__(self, program, mode, files):
        self.words = [program, mode, *files]
        self.passes = 8
        while self.run() < LENGTH / 4:
            self.passes *= 4
        self.times = []

    def run(self, passes=None):
        return seconds(self.words + [str(passes or self.passes)])

    def time(self):
        """A pass, in nanoseconds: a long run less a short one, so that starting up doesn't count."""
        few = self.passes // 4
        self.times.append(1e9 * (self.run(self.passes + few) - self.run(few)) / self.passes)


def medians(sides):
    """Each side's median, the sides taking turns."""
    for _ in range(RUNS):
        for side in sides:
            side.time()
    return [statistics.median(side.times) for side in sides]


class Table:
    """Both programs on what a folder holds."""

    def __init__(self, ours, rust, folder):
        self.ours, self.rust, self.folder = ours, rust, folder
        self.loops = dict(zip((ours, rust), medians([self.side(p, "nothing", "remembered-1") for p in (ours, rust)])))
        # our pass that opens makes the table's places first: that is what opening no segments takes
        modes = ("open", "indexed-open")
        self.places = dict(zip(modes, (t - self.loops[ours] for t in medians([self.side(ours, m, "open-0") for m in modes]))))

    def side(self, program, mode, name):
        return Side(program, mode, [os.path.join(self.folder, f"{name}.{suffix}") for suffix in ("kernel", "questions")])

    def row(self, name, mode, what):
        """Nanoseconds with a lent table, through an index (or none), and of the Rust."""
        asked = [(self.ours, mode), (self.rust, mode)]
        if mode in INDEXED:
            asked.append((self.ours, "indexed-" + mode))
        times = medians([self.side(program, m, name) for program, m in asked])
        ours, rust, *indexed = (t - self.loops[p] - (self.places.get(m, 0) if p == self.ours else 0) for t, (p, m) in zip(times, asked))
        x = indexed[0] if indexed else None
        cells = [what, f"{ours:.0f}", f"{x:.0f}" if indexed else "", f"{rust:.0f}", f"{ours / rust:.2f}", f"{x / rust:.2f}" if indexed else ""]
        print("| " + " | ".join(cells) + " |", flush=True)


def main():
    table = Table(*sys.argv[1:])
    print("| question | lent table, ns | through an index, ns | the Rust, ns | lent beside the Rust | through an index beside the Rust |")
    print("|---|---|---|---|---|---|")
    with open(os.path.join(table.folder, "list.tsv")) as f:
        for line in f:
            table.row(*line.rstrip("\n").split("\t"))


if __name__ == "__main__":
    main()
