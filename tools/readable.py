#!/usr/bin/env python3
# Not proved. This file and questions.py are the only programs between a date and a printed decimal that are not; what the proved programs
# themselves leave to tests stands in docs/PROMISES.md.
"""Turns the lines of `listing`, `ask` and `orient` into something to read.

  listing <KERNEL | tools/readable.py
  ask KERNEL QUESTIONS | tools/readable.py --questions QUESTIONS
  ask KERNEL QUESTIONS MATRIX | tools/readable.py -q QUESTIONS --frame ECLIPJ2000
  ask KERNEL QUESTIONS MATRIX 1 | tools/readable.py -q QUESTIONS --frame J2000
  orient KERNEL QUESTIONS | tools/readable.py -q QUESTIONS

A double is printed as the shortest decimal that gives the same double, with
its unit (km, km/s, rad, rad/s), and its sixteen hexadecimal digits beside it,
as the program wrote them. Epochs are seconds past J2000 TDB, and dates are TDB
in the Gregorian calendar; a date with a ~ is not exact, the seconds beside it
are. The way of an answer is `same` (target equals center), `forward` (that
segment answers), `reversed` (a segment of the swapped pair, negated) or
`chained` (target and center, each by way of body 0). Where the epoch lies beyond
the records' own span it is said that a record was stretched to it. The lines
don't tell the frame of a state: --frame does, and without it a state is called
`as it stands`, which is in the frame of its segments. Refusals are given in the
words of docs/RULES.md. With the question file each answer stands under its
question. A line that no program writes is named on the error output, and then
nothing is printed.

This program is not proved; it and questions.py are the only ones between a
date and a printed decimal that are not."""

import argparse
import math
import os
import re
import struct
import sys
from collections import namedtuple
from fractions import Fraction

sys.dont_write_bytecode = True
import questions  # noqa: E402

# docs/RULES.md, "Refusals": when each is given, and what its detail is where it is not 0.
REFUSALS = {
    1: "the kernel has under 1,024 or over 1,073,741,824 bytes",
    2: "bytes 0..3 are not DAF/",
    3: "bytes 88..95 are not LTL-IEEE",
    4: "ND, NI are not 2, 6 (SPK) or 2, 5 (PCK)",
    5: "a summary record, or the name record after it, ends past the kernel",
    6: "the walk comes to a record a second time",
    7: "a summary count over 25",
    8: "more summaries than the table has places, or than 4,096",
    9: "a malformed segment",
    10: "the epoch is NaN",
    11: "no coverage",
    12: "the type is unsupported",
    13: "RADIUS zero in type 2",
    14: "the table doesn't fit the kernel",
    15: "a number of the final six is not finite",
    16: "a window of no records",
    17: "no segment of that number",
    18: "a program's input is over 65,536 bytes",
    19: "a record of a program's input doesn't begin with its mark, or is cut short",
    20: "a usage file names a 513th supplier",
    21: "a state is asked in a frame that it can't be turned to",
}
DETAILS = {9: "segment", 11: "body", 12: "type", 13: "segment", 16: "segment"}
# Refusals of a whole run: those of the opening and of the input of these three programs. A question never has them, and a run never has another.
OF_RUN = {*range(1, 10), 18, 19}

# NAIF's numbers for the bodies asked for most. A number that is not here is printed alone.
PLANETS = ["Mercury", "Venus", "Earth", "Mars", "Jupiter", "Saturn", "Uranus", "Neptune", "Pluto"]
BODIES = {0: "solar system barycenter", 3: "Earth-Moon barycenter", 10: "Sun", 301: "Moon", 401: "Phobos", 402: "Deimos"}
BODIES.update({i: f"{name} barycenter" for i, name in enumerate(PLANETS, 1) if i != 3})
BODIES.update({100 * i + 99: name for i, name in enumerate(PLANETS, 1)})
BODIES.update({501: "Io", 502: "Europa", 503: "Ganymede", 504: "Callisto", 602: "Enceladus", 606: "Titan", 801: "Triton", 901: "Charon"})
BODIES.update({2000001: "Ceres", 2000004: "Vesta", 2000433: "Eros"})
FRAMES = {1: "J2000", 17: "ECLIPJ2000"}

# docs/RULES.md, "Opening": when a segment is marked.
MARKS = {"yes": "marked (no other of the pair overlaps it)", "no": "unmarked (another of the pair overlaps it)"}

WORD = "[0-9a-f]{16}"
SIX = rf"((?: {WORD}){{6}})"
WHOLE = r"(-?\d{1,20})"
COUNT = r"(\d{1,20})"
SEGMENTS = re.compile(f"segments {COUNT}", re.ASCII)
SEGMENT = re.compile(f"{COUNT} {WHOLE} {WHOLE} {WHOLE} {WHOLE} ({WORD}) ({WORD}) {WHOLE} {WHOLE} (yes|no)", re.ASCII)
STATE = re.compile(rf"{COUNT} (same|chained|forward \d+|reversed \d+) (yes|no){SIX}", re.ASCII)
ORIENTATION = re.compile(f"{COUNT} {WHOLE} (yes|no){SIX}", re.ASCII)
REFUSED = re.compile(f"{COUNT} refused {COUNT} {WHOLE}", re.ASCII)  # of a question, its number first
RUN_REFUSED = re.compile(f"refused {COUNT} {WHOLE}", re.ASCII)

STRETCHED = {"yes": ", a record stretched to the epoch", "no": ""}

Question = namedtuple("Question", "bodies epoch")  # two bodies to an SPK, one body frame to a PCK


class Bad(Exception):
    """What is wrong with a line or a file."""


def named(number, names):
    return f"{names[number]} ({number})" if number in names else str(number)


def double(word):
    return struct.unpack(">d", bytes.fromhex(word))[0]


# ---- dates


def calendar(number):
    """Year, month and day of a day's number (questions.day_number)."""
    era, day = divmod(number, 146097)
    year = (day - day // 1460 + day // 36524 - day // 146096) // 365
    day -= 365 * year + year // 4 - year // 100
    month = (5 * day + 2) // 153
    after = month > 9
    return 400 * era + year + after, month + (-9 if after else 3), day - (153 * month + 2) // 5 + 1


def date_text(seconds, decimals):
    """The date of exact seconds past J2000, rounded to so many decimals of a second."""
    ticks = round((seconds + questions.J2000) * 10**decimals)
    whole, part = divmod(ticks, 10**decimals)
    days, second = divmod(whole, 86400)
    year, month, day = calendar(days)
    sign = "-" if year < 0 else ""
    text = f"{sign}{abs(year):04}-{month:02}-{day:02}T{second // 3600:02}:{second // 60 % 60:02}:{second % 60:02}"
    return f"{text}.{part:0{decimals}}" if decimals else text


def date_of(epoch):
    """The date that gives the same double with the fewest decimals, nine at most; else a rounded one with a ~; none beyond year 999,999."""
    if not math.isfinite(epoch) or abs(epoch) > 3.1e13:
        return "no date"
    for decimals in range(10):
        text = date_text(Fraction(epoch), decimals)
        if questions.epoch_of(text) == epoch:
            return text + " TDB"
    return "~" + text + " TDB"


def moment(epoch):
    return f"{date_of(epoch)} ({epoch!r} s past J2000)" if math.isfinite(epoch) else f"epoch {epoch!r}"


# ---- questions


def questions_in(data):
    """The questions of a file, and what is wrong with it where a record has no mark or is cut short."""
    form, size = ("<2id", 18) if data[:2] == b"\xa5\x5b" else ("<id", 14)
    mark, found = data[:2], []
    if data and mark not in (b"\xa5\x5b", b"\xa5\x5c"):
        return [], "record 0 of the question file doesn't begin with a mark"
    for at in range(0, len(data), size):
        record = data[at : at + size]
        if record[:2] != mark or len(record) < size:
            return found, f"record {len(found)} of the question file doesn't begin with its mark, or is cut short"
        *bodies, epoch = struct.unpack(form, record[2:])
        found.append(Question(bodies, epoch))
    return found, ""


def question_text(question):
    if len(question.bodies) == 1:
        return f"body frame {question.bodies[0]}, {moment(question.epoch)}"
    target, center = (named(body, BODIES) for body in question.bodies)
    return f"{target} relative to {center}, {moment(question.epoch)}"


# ---- lines


def columns(labels, units, words):
    """Three lines: a number of the first half and one of the second, each with its unit and its bits."""
    values = [repr(double(word)) for word in words]
    wide = [max(len(value) for value in values[half : half + 3]) for half in (0, 3)]
    for i, label in enumerate(labels):
        halves = (f"{values[j]:>{wide[j // 3]}} {units[j // 3]}  {words[j]}" for j in (i, i + 3))
        yield f"    {label}  " + "    ".join(halves)


def refusal_text(number, detail, is_frame):
    if number not in REFUSALS:
        raise Bad(f"there is no refusal {number}")
    text = f"refused {number} {detail}: {REFUSALS[number]}"
    kind = DETAILS.get(number)
    if kind == "body":
        return text + (f" (body frame {detail})" if is_frame else f" (the body without a way: {named(detail, BODIES)})")
    return text + (f" ({kind} {detail})" if kind else "")


def answer_text(line, is_frame, frame):
    """The question's number, its answer in words, and the lines of its numbers."""
    found = STATE.fullmatch(line)
    if found and not is_frame:
        way = re.sub(r" (\d+)", r", segment \1", found.group(2)) + (f", in {frame}" if frame else ", as it stands") + STRETCHED[found.group(3)]
        return int(found.group(1)), way, list(columns("xyz", ("km", "km/s"), found.group(4).split()))
    found = ORIENTATION.fullmatch(line)
    if found and is_frame:
        about = f"angles about reference frame {named(int(found.group(2)), FRAMES)}" + STRETCHED[found.group(3)]
        return int(found.group(1)), about, list(columns("123", ("rad", "rad/s"), found.group(4).split()))
    found = REFUSED.fullmatch(line)
    if found and int(found.group(2)) not in OF_RUN:
        return int(found.group(1)), refusal_text(int(found.group(2)), int(found.group(3)), is_frame), []
    raise Bad(f"no line of {'orient' if is_frame else 'listing or ask'} stands here")


def segment_text(line):
    found = SEGMENT.fullmatch(line)
    if not found:
        raise Bad("no line of a segment stands here")
    first, last = found.group(6), found.group(7)
    number, target, center, frame, kind, start, end = (int(found.group(i)) for i in (1, 2, 3, 4, 5, 8, 9))
    return number, [
        f"segment {number}: {named(target, BODIES)} relative to {named(center, BODIES)}",
        f"    type {kind}, frame {named(frame, FRAMES)}, addresses {start} to {end}, {MARKS[found.group(10)]}",
        f"    from {moment(double(first))}  {first}",
        f"    to   {moment(double(last))}  {last}",
    ]


def listing_text(lines):
    """A listing: the first line has the count, and the others the segments from 0 on."""
    count = int(SEGMENTS.fullmatch(lines[0]).group(1))
    out = [f"{count} segment{'' if count == 1 else 's'}"]
    for i, line in enumerate(lines[1:]):
        try:
            number, text = segment_text(line)
            if number != i:
                raise Bad(f"segment {number} where {i} is due")
        except Bad as bad:
            raise Bad(f"line {i + 2}: {bad}") from None
        out += text
    if count != len(lines) - 1:
        raise Bad(f"the first line says {count} segments, and {len(lines) - 1} follow")
    return out


def run_refused(lines):
    """The refusal of a whole run: a single line without a question's number, of a refusal that no question has."""
    found = len(lines) == 1 and RUN_REFUSED.fullmatch(lines[0])
    return found and int(found.group(1)) in OF_RUN and found


def answers_text(lines, asked, frame):
    """The answers, each under its question where these are known. Every line is a question's, in their order, and begins with its number."""
    is_frame = len(asked[0].bodies) == 1 if asked else any(ORIENTATION.fullmatch(line) for line in lines)
    out = []
    for i, line in enumerate(lines):
        try:
            number, answer, numbers = answer_text(line, is_frame, frame)
            if number != i:
                raise Bad(f"question {number} where {i} is due")
        except Bad as bad:
            raise Bad(f"line {i + 1}: {bad}") from None
        out += [f"question {i}: {question_text(asked[i])}", f"    {answer}"] if i < len(asked) else [f"question {i}: {answer}"]
        out += numbers
    if asked and len(asked) != len(lines):
        raise Bad(f"{len(asked)} questions and {len(lines)} lines")
    return out


def text_of(lines, data, frame):
    """What is printed for the lines of a program, and the bytes of the question file where there is one."""
    asked, fault = questions_in(data) if data is not None else ([], "")
    refused = run_refused(lines)
    if refused:
        out = ["the whole run was " + refusal_text(int(refused.group(1)), int(refused.group(2)), False)]
        return out + ([f"    {fault}"] if fault and int(refused.group(1)) == 19 else [])
    if lines and SEGMENTS.fullmatch(lines[0]):
        return listing_text(lines)
    if fault:
        raise Bad(fault)
    return answers_text(lines, asked, frame)


def arguments():
    parser = argparse.ArgumentParser(description=__doc__, formatter_class=argparse.RawDescriptionHelpFormatter)
    parser.add_argument("lines", nargs="?", metavar="LINES", help="the lines; standard input where none is given")
    parser.add_argument("-q", "--questions", metavar="FILE", help="the question file that the lines answer")
    parser.add_argument("--frame", metavar="NAME", help="what the frame of the states is called: ECLIPJ2000 where a matrix was given without FRAME")
    return parser.parse_args()


def read(path):
    if path is None:
        return sys.stdin.buffer.read()
    with open(path, "rb") as file:
        return file.read()


def main():
    given = arguments()
    try:
        lines = read(given.lines).decode("ascii", "replace").split("\n")
        data = read(given.questions) if given.questions else None
        if lines.pop():
            raise Bad("the last line has no end")
        print("".join(line + "\n" for line in text_of(lines, data, given.frame)), end="", flush=True)
    except BrokenPipeError:
        os.dup2(os.open(os.devnull, os.O_WRONLY), sys.stdout.fileno())
    except Bad as bad:
        sys.exit(f"readable.py: {bad}")
    except OSError as error:
        sys.exit(f"readable.py: {error.filename or 'standard input'}: {error.strerror}")


if __name__ == "__main__":
    main()
