#!/usr/bin/env python3
"""compare.py FOLDER [--ask PROGRAM] [--orient PROGRAM] [--listing PROGRAM] [--cases PROGRAM] [--wide PROGRAM] [--run WORDS] [--oracle PROGRAM]

Holds our programs against the given Rust on the cases that gen.py wrote to FOLDER. WORDS start a program
for x86-64 where the machine is another; PROGRAM may be several words. Without a program its part is only tried on the
Rust's side, the counts say so, and no answer of it is counted as compared. Segments asked by their number, and tables of
another kernel, go through `replay_cases`, kernels of over 65,536 bytes through `replay_wide`. What our programs have to print comes from the tag and the Rust's lines:

- opening tagged refused: that refusal line alone, whatever the Rust does; its doing is counted.
- NaN epoch: 10. A segment asked by its number that doesn't exist: 17. One that the table doesn't fit: 14. The Rust's error of coverage, type, RADIUS: 11, 12, 13 with the detail it names.
- six numbers of which one is not finite: 15. Six finite numbers: the Rust's own line, to the bit, with the second program's word (tests/second) before
  them, since the Rust doesn't say whether a record was stretched.
- a case with frames: the second program's lines (tests/second), since the Rust turns every state as from J2000. They are counted by themselves.
- anything else of the Rust on an accepted kernel (a panic, another error) is a failure of the comparison.
  Where a degree would wrap in it, it is asked about the twin that gen.py wrote.
"""

import argparse
import collections
import math
import os
import shlex
import struct
import subprocess
import sys
import tempfile

from opening import summaries, walk

HERE = os.path.dirname(os.path.abspath(__file__))
sys.path.append(os.path.join(HERE, "..", "second"))
import second  # noqa: E402


class Case:
    """A line of the index and its files."""

    def __init__(self, folder, line):
        self.number, self.family, self.program, self.expect, self.note = line.split("\t")
        self.base = os.path.join(folder, self.number)
        self.unfit = set(map(int, self.note.split()[1:])) if self.note.startswith("unfit") else set()
        self.framed = self.note.startswith("framed")

    def path(self, suffix):
        return f"{self.base}.{suffix}"

    def read(self, suffix):
        """A file's bytes, none if it isn't there."""
        if not os.path.exists(self.path(suffix)):
            return b""
        with open(self.path(suffix), "rb") as f:
            return f.read()

    def matrix(self):
        return [self.path("matrix")] if os.path.exists(self.path("matrix")) else []

    def frame(self):
        """The argument FRAME, where there is one."""
        return self.note.split()[1:] if self.framed else []

    def forged(self):
        return os.path.exists(self.path("origin"))

    def block(self):
        """This case as the program `replay_cases` reads it."""
        parts = [self.read(suffix) for suffix in ("origin", "kernel", "questions")]
        kind = {"orient": 2, "alone": 3}.get(self.program, 1 if self.matrix() else 0)
        frame = struct.pack("<i", *map(int, self.frame() or [17])) if kind == 1 else b""
        return struct.pack("<4I", kind, *map(len, parts)) + self.read("matrix") + frame + b"".join(parts)

    def rust_kernel(self):
        twin = self.path("twin")
        return twin if os.path.exists(twin) else self.path("kernel")

    def questions(self, count):
        """(same body, segment that doesn't exist, epoch, the segment if the question tells) of each question to a kernel of so many segments."""
        data = self.read("questions")
        if self.program in ("ask", "wide"):
            return [(target == center, False, et, None) for _, _, target, center, et in struct.iter_unpack("<BBiid", data)]
        if self.program == "alone":
            return [(False, number >= count, et, number) for _, _, number, et in struct.iter_unpack("<BBId", data)]
        chosen = chooser(self.read("origin")) if self.unfit else lambda body, et: None
        return [(False, False, et, chosen(body, et)) for _, _, body, et in struct.iter_unpack("<BBid", data)]


def chooser(kernel):
    """The last covering segment of a body frame in a PCK kernel: a line of `orient` doesn't tell."""
    held = [struct.unpack_from("<2di", kernel, place) for place in summaries(kernel, walk(kernel))]

    def chosen(body, et):
        covering = [i for i, (first, last, frame) in enumerate(held) if frame == body and first <= et <= last]
        return covering[-1] if covering else None

    return chosen


def run(words, stdin=None):
    """What a program prints, line by line; its error output after it if it fails."""
    done = subprocess.run(words, input=stdin, capture_output=True, timeout=120)
    lines = done.stdout.decode(errors="replace").split("\n")
    if lines[-1] != "":
        lines.append("(no newline at the end)")
    lines.pop()
    if done.stderr:
        lines.append("standard error: " + done.stderr.decode(errors="replace").strip()[:200])
    return lines


def finite(words):
    numbers = (struct.unpack(">d", bytes.fromhex(w))[0] for w in words)
    return all(map(math.isfinite, numbers))


WAYS = ("same", "forward", "reversed", "chained")
REFUSED = {"coverage": 11, "type": 12, "radius": 13}


def refusal(index, number, detail=0):
    """A refused question's line: it begins with the question's number, which the line of a whole run refused has not."""
    return f"{index} refused {number} {detail}"


def refuses_fit(words, segment, unfit):
    """The segment that the Rust's line is about doesn't fit the table; a type that is not supported, or no segment, comes before that."""
    if words[1] in ("forward", "reversed") or words[1:3] == ["error", "radius"]:
        segment = int(words[3] if words[1] == "error" else words[2])
    return segment in unfit and words[1:3] not in (["error", "type"], ["error", "coverage"])


def stretched(case):
    """Whether a record was stretched, `yes` or `no`, for each question of a case, by the second program; `refused` where it refuses."""
    kernel, program = case.read("kernel"), "ask" if case.program == "wide" else case.program
    table = (second.open_pck if program == "orient" else second.open_spk)(case.read("origin") or kernel)
    memory = None
    for asked in second.question_records(program, case.read("questions")):
        if program == "ask":
            answer, memory = second.state(kernel, table, memory, *asked)
        else:
            answer = (second.orientation if program == "orient" else second.alone)(kernel, table, *asked)
        yield "refused" if isinstance(answer, second.Refusal) else "yes" if answer.stretched else "no"


def expected(index, question, rust, word, unfit=frozenset()):
    """Our line for a question from the Rust's line and the word, or None where the Rust says nothing that counts."""
    same, missing, et, segment = question
    if math.isnan(et) and not same:
        return refusal(index, 10)
    if missing:
        return refusal(index, 17)
    words = rust.split(" ")
    if words[0] != str(index):
        return None
    if refuses_fit(words, segment, unfit):
        return refusal(index, 14)
    if words[1] == "error" and words[2] in REFUSED and len(words) == 4:
        return refusal(index, REFUSED[words[2]], words[3])
    if words[1] in ("error", "panic"):
        return None
    return " ".join(words[:-6] + [word] + words[-6:]) if finite(words[-6:]) else refusal(index, 15)


class Comparison:
    def __init__(self, options):
        self.options = options
        self.counts = collections.Counter()
        self.departures = collections.Counter()
        self.failures = 0

    def fail(self, case, text):
        self.failures += 1
        if self.failures <= 20:
            print(f"case {case.number} ({case.family}): {text}")

    def has(self, case):
        """Whether there is a program of ours for a case."""
        return getattr(self.options, "cases" if case.forged() or case.program == "alone" else case.program, None)

    def count(self, line, case):
        """An expected line into the counts."""
        if "refused " in line:
            self.counts[f"refusal {line.split('refused ')[1].split(' ')[0]}"] += 1
            return
        self.counts["answers compared" if self.has(case) else "answers of the Rust alone"] += 1
        way = line.split(" ")[1]
        self.counts[f"answers: {'segments alone' if case.program == 'alone' else way if way in WAYS else case.program}"] += 1
        self.counts["answers: stretched"] += line.split(" ")[-7] == "yes"
        self.counts["answers: turned"] += bool(case.matrix())
        self.counts["answers: with a degree that wraps in the Rust"] += case.note == "degree wraps"
        self.counts["answers: with the table of another kernel"] += case.forged()

    def rust(self, *words):
        return run([self.options.oracle, *words])

    def ours(self, program, words, stdin=None):
        name = getattr(self.options, program)
        return run([*shlex.split(self.options.run), *shlex.split(name), *words], stdin) if name else None

    def replayed(self, case):
        """What our program prints about a case: its own program, or `replay_cases` where that takes no such input."""
        if not case.forged() and case.program != "alone":
            return self.ours(case.program, [case.path("kernel"), case.path("questions"), *case.matrix(), *case.frame()])
        with tempfile.NamedTemporaryFile() as f:
            f.write(case.block())
            f.flush()
            if f.tell() > 65536:
                self.fail(case, "a block of more than 65,536 bytes")
            return self.ours("cases", [f.name])

    def hold(self, case, program, want, got):
        """Our lines against the expected ones."""
        if got is None:
            self.counts[f"{program} lines without our program"] += len(want)
            return
        self.counts[f"{program} lines held"] += len(want)
        if len(want) != len(got):
            self.fail(case, f"{program}: {len(got)} lines for {len(want)}: {(got or ['nothing'])[-1]}")
        for w, g in zip(want, got):
            if w is not None and w != g:
                self.fail(case, f"{program}: expected {w}\n    got {g}")
                break

    def asked_rust(self, case):
        """What the Rust prints about a case's questions; the first line is the opening. A table of another kernel: the Rust has the file
        that it opened mapped, and the kernel's bytes are written over it."""
        if not case.forged():
            return self.rust("ask" if case.program == "wide" else case.program, case.rust_kernel(), case.path("questions"), *case.matrix())
        with tempfile.NamedTemporaryFile() as f:
            f.write(case.read("origin"))
            f.flush()
            return self.rust("forged", case.rust_kernel(), case.program, f.name, case.path("questions"))

    def wanted(self, case):
        """Our lines for an accepted kernel."""
        rust = self.asked_rust(case)
        if not rust[0].startswith("opened "):
            self.fail(case, f"accepted, but the Rust: {rust[0]}")
            return []
        lines = []
        for i, (question, word) in enumerate(zip(case.questions(int(rust[0].split(" ")[1])), stretched(case))):
            said = rust[i + 1] if i + 1 < len(rust) else ""
            line = expected(i, question, said, word, case.unfit)
            if line is None:
                self.fail(case, f"question {i}, the Rust: {said or rust[-1]}")
            else:
                self.count(line, case)
            lines.append(line)
        return lines

    def by_second(self, case):
        """The second program's lines for a case with frames."""
        lines = second.answer_lines(case.program, *map(case.read, ("kernel", "questions", "matrix")), *case.frame())
        for line in lines:
            said = line.split(" ")
            self.counts[f"in a frame, by the second program: {f'refusal {said[2]}' if said[1] == 'refused' else said[1]}"] += 1
        return lines

    def refused(self, case):
        """Our line for a kernel that RULES, "Opening", refuses; the Rust's doing is counted beside it."""
        number = case.expect.split(" ")[1]
        said = self.asked_rust(case)
        doing = " ".join(said[0].split(" ")[:3]) if not said[0].startswith("opened") else "opens"
        answers = sum(1 for line in said[1:] if " error " not in line and not line.endswith("panic"))
        panics = sum(1 for line in said[1:] if line.endswith("panic"))
        if doing == "opens":
            doing += ", then panics" if panics else ", then answers" if answers else ", then answers nothing"
        self.departures[(int(number), case.program, doing)] += 1
        self.count(case.expect, case)
        return [case.expect]

    def listing(self, case):
        if case.program in ("orient", "wide") or case.forged():
            return
        want = [case.expect]
        if case.expect == "accepted":
            want = self.rust("listing", case.rust_kernel())
            if not want[0].startswith("segments "):
                self.fail(case, f"the Rust's listing: {want[0]}")
        self.hold(case, "listing", want, self.ours("listing", [], case.read("kernel")))

    def case(self, case):
        by_program = case.expect == "" or case.expect.split(" ")[1:2] in (["18"], ["19"]) or case.family.startswith("19")
        if by_program:
            want = [case.expect] if case.expect else []
            self.counts["refused by the program itself"] += len(want)
        elif case.framed:
            want = self.by_second(case)
        elif case.expect == "accepted":
            want = self.wanted(case)
        else:
            want = self.refused(case)
        self.hold(case, case.program, want, self.replayed(case))
        if not by_program:
            self.listing(case)

    def report(self):
        for name, n in sorted(self.counts.items()):
            print(f"{n:8} {name}")
        print("What the Rust does where the rules refuse the opening:")
        for (number, program, doing), n in sorted(self.departures.items()):
            print(f"{n:8} refusal {number}, {program}: {doing}")
        print(f"{self.counts['answers compared']} answers compared bit for bit, {self.failures} failures")


def main():
    parser = argparse.ArgumentParser(description=__doc__, formatter_class=argparse.RawDescriptionHelpFormatter)
    parser.add_argument("folder")
    for program in ("ask", "orient", "listing", "cases", "wide"):
        parser.add_argument(f"--{program}")
    parser.add_argument("--run", default="")
    parser.add_argument("--oracle", default=os.path.join(HERE, "target/release/oracle"))
    options = parser.parse_args()
    comparison = Comparison(options)
    with open(os.path.join(options.folder, "index.tsv")) as f:
        for line in f:
            comparison.case(Case(options.folder, line.rstrip("\n")))
    comparison.report()
    sys.exit(1 if comparison.failures else 0)


if __name__ == "__main__":
    main()
