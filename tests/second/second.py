#!/usr/bin/env python3
"""A second reader and evaluator of SPK and PCK kernels, for comparison.

Written from the rules alone, for plainness and not for speed.  Numbers in
words below (refusal 9, 14 and so on) are those of RULES, "Refusals".

    second.py listing < KERNEL
    second.py ask KERNEL QUESTIONS [MATRIX [FRAME]]
    second.py orient KERNEL QUESTIONS
    second.py alone KERNEL NUMBERS-AND-EPOCHS
    second.py statement < USAGE

As a library: open_spk, open_pck, state, state_in, orientation, alone,
alone_pck, name, turn, turn_back, frame_number, statement.  A table is plain data: anybody
may build or change one.
"""

import math
import os
import re
import struct
import sys
from collections import namedtuple
from dataclasses import dataclass, field

RECORD_LENGTH = 1024
SMALLEST_KERNEL = 1024
LARGEST_KERNEL = 1073741824
MOST_SUMMARIES_OF_A_RECORD = 25
MOST_SEGMENTS = 4096  # the places that a program lends; a small host has 256, see cases.py
LARGEST_WINDOW = 32
MOST_STEPS = 32
LARGEST_INPUT = 65536
LONGEST_ARGUMENT = 4096
MOST_SUPPLIERS = 512
SUMMARY_LENGTH = 40
NAME_LENGTH = 40

J2000 = 1
ECLIPJ2000 = 17

SPK = "spk"
PCK = "pck"
INTEGERS = {SPK: 6, PCK: 5}
HANDLED = {SPK: (2, 3, 9, 13), PCK: (2,)}

SAME = "same"
FORWARD = "forward"
REVERSED = "reversed"
CHAINED = "chained"

# A refusal: its number and detail in RULES, "Refusals".
Refusal = namedtuple("Refusal", "number detail")

# What a segment gives: the six numbers, and whether a record was stretched.
Value = namedtuple("Value", "six stretched")

# A state's answer: its way, the segment's number where the way has one, the
# six numbers, the set of the frames that they are in, and whether a record
# was stretched.
Answer = namedtuple("Answer", "way segment six frames stretched",
                    defaults=(False,))

# A PCK answer: reference frame, the six numbers, and whether a record was
# stretched.
Orientation = namedtuple("Orientation", "frame six stretched",
                         defaults=(False,))

# A usage statement: (supplier, count) pairs in order of number, and the
# total.
Statement = namedtuple("Statement", "suppliers total")

# The kinds of segment: types 2 and 3, types 9 and 13; None is unsupported.
Chebyshev = namedtuple("Chebyshev", "type init intlen rsize n")
Discrete = namedtuple("Discrete", "type degree n")
UNSUPPORTED = None

ZEROS = (0.0, 0.0, 0.0, 0.0, 0.0, 0.0)


@dataclass
class Segment:
    """A segment of the table; as it stands without arguments, the empty one.

    In a PCK table `target` is the body frame, `frame` the reference frame,
    and `center` is 0.
    """

    first: float = 0.0
    last: float = 0.0
    target: int = 0
    center: int = 0
    frame: int = 0
    type: int = 0
    start: int = 0
    end: int = 0
    kind: tuple = UNSUPPORTED
    marked: bool = False
    name_place: int = 0


@dataclass
class Table:
    """Count and segments; a place past the list holds the empty segment."""

    count: int = 0
    segments: list = field(default_factory=list)

    def segment(self, number):
        if number < len(self.segments):
            return self.segments[number]
        return Segment()


class Refused(Exception):
    """Carries a refusal out of an evaluation."""

    def __init__(self, number, detail=0):
        super().__init__(number, detail)
        self.refusal = Refusal(number, detail)


# Numbers from bytes

def unsigned32(kernel, place):
    return struct.unpack_from("<I", kernel, place)[0]


def signed32(kernel, place):
    return struct.unpack_from("<i", kernel, place)[0]


def double(kernel, place):
    return struct.unpack_from("<d", kernel, place)[0]


def double_at(kernel, address):
    """The double of an address: addresses count doubles from 1."""
    return double(kernel, 8 * (address - 1))


def doubles_at(kernel, address, count):
    return struct.unpack_from("<%dd" % count, kernel, 8 * (address - 1))


def bits(x):
    return struct.unpack("<Q", struct.pack("<d", x))[0]


def hexadecimal(x):
    return format(bits(x), "016x")


def cut(x, width=64):
    """A whole number by dropping the fraction; NaN and negatives give 0,
    values too large the largest of `width` bits."""
    if math.isnan(x) or x < 0.0:
        return 0
    if x >= 2.0 ** width:
        return 2 ** width - 1
    return int(x)


def divide(a, b):
    """IEEE division: Python raises at a zero divisor, IEEE doesn't."""
    if b != 0.0:
        return a / b
    if a == 0.0 or math.isnan(a):
        return math.nan
    return math.copysign(math.inf, a) * math.copysign(1.0, b)


def all_finite(six):
    return all(math.isfinite(x) for x in six)


# Opening

def open_spk(kernel):
    """The table of an SPK kernel, or a Refusal."""
    return _open(kernel, SPK)


def open_pck(kernel):
    """The table of a PCK kernel, or a Refusal."""
    return _open(kernel, PCK)


def _open(kernel, sort):
    try:
        check_file_record(kernel, sort)
        records = walk(kernel)
        counts = summary_counts(kernel, records)
        segments = read_segments(kernel, sort, records, counts)
    except Refused as refused:
        return refused.refusal
    if sort == SPK:
        mark(segments)
    return Table(len(segments), segments)


def check_file_record(kernel, sort):
    """Refusals 1, 2, 3 and 4, in that order."""
    if not SMALLEST_KERNEL <= len(kernel) <= LARGEST_KERNEL:
        raise Refused(1)
    if bytes(kernel[0:4]) != b"DAF/":
        raise Refused(2)
    if bytes(kernel[88:96]) != b"LTL-IEEE":
        raise Refused(3)
    if unsigned32(kernel, 8) != 2 or unsigned32(kernel, 12) != INTEGERS[sort]:
        raise Refused(4)


def record_place(record):
    return RECORD_LENGTH * (record - 1)


def walk(kernel):
    """The summary records in the order of the walk; refusals 5 and 6."""
    records = []
    seen = set()
    record = unsigned32(kernel, 76)
    while record != 0:
        if record in seen:
            raise Refused(6)
        # The name record is the next one; it ends where record + 2 begins.
        if record_place(record + 2) > len(kernel):
            raise Refused(5)
        seen.add(record)
        records.append(record)
        record = cut(double(kernel, record_place(record)), 32)
    return records


def summary_counts(kernel, records):
    """Every record's count; refusal 7 over all of them, then 8."""
    counts = [cut(double(kernel, record_place(r) + 16)) for r in records]
    if any(count > MOST_SUMMARIES_OF_A_RECORD for count in counts):
        raise Refused(7)
    if sum(counts) > MOST_SEGMENTS:
        raise Refused(8)
    return counts


def read_segments(kernel, sort, records, counts):
    """The segments in file order; refusal 9 at the first malformed one."""
    segments = []
    for record, count in zip(records, counts):
        for i in range(count):
            place = record_place(record) + 24 + SUMMARY_LENGTH * i
            segment = read_summary(kernel, sort, place)
            segment.name_place = record_place(record + 1) + NAME_LENGTH * i
            well_formed, segment.kind = examine(
                kernel, sort, segment.type, segment)
            if not well_formed:
                raise Refused(9, len(segments))
            segments.append(segment)
    return segments


def read_summary(kernel, sort, place):
    first, last = double(kernel, place), double(kernel, place + 8)
    whole = [signed32(kernel, place + 16 + 4 * k)
             for k in range(INTEGERS[sort])]
    if sort == SPK:
        target, center, frame, type_number, start, end = whole
    else:
        target, frame, type_number, start, end = whole
        center = 0
    return Segment(first, last, target, center, frame, type_number,
                   start, end)


def examine(kernel, sort, type_number, segment):
    """The tests of refusal 9 with the given type: whether the segment passes
    them, and its kind with the trailer numbers found in the kernel."""
    malformed = (False, UNSUPPORTED)
    if math.isnan(segment.first) or math.isnan(segment.last):
        return malformed
    if type_number not in HANDLED[sort]:
        return True, UNSUPPORTED
    start, end = segment.start, segment.end
    if start < 1 or end < start or end > len(kernel) // 8:
        return malformed
    length = end - start + 1
    if type_number in (2, 3):
        kind = chebyshev_trailer(kernel, type_number, end, length)
    else:
        kind = discrete_trailer(kernel, type_number, end, length)
    if kind is None:
        return malformed
    return True, kind


def chebyshev_trailer(kernel, type_number, end, length):
    """The kind of a type 2 or 3 segment, None if it is malformed."""
    if length < 4:
        return None
    init = double_at(kernel, end - 3)
    intlen = double_at(kernel, end - 2)
    rsize = cut(double_at(kernel, end - 1))
    n = cut(double_at(kernel, end))
    series = 3 if type_number == 2 else 6
    if rsize < 2 + series or (rsize - 2) % series != 0:
        return None
    if not intlen > 0.0:
        return None
    if not (math.isfinite(init) and math.isfinite(intlen)):
        return None
    if n == 0 or n * rsize + 4 > length:
        return None
    return Chebyshev(type_number, init, intlen, rsize, n)


def discrete_trailer(kernel, type_number, end, length):
    """The kind of a type 9 or 13 segment, None if it is malformed."""
    if length < 2:
        return None
    degree = cut(double_at(kernel, end - 1))
    n = cut(double_at(kernel, end))
    if n == 0 or length != 7 * n + n // 100 + 2:
        return None
    if type_number == 13 and degree == 0:
        return None
    if min(degree + 1, n) > LARGEST_WINDOW:
        return None
    return Discrete(type_number, degree, n)


def mark(segments):
    """Mark each segment that no other of its target and center overlaps."""
    for i, a in enumerate(segments):
        a.marked = not any(
            i != k
            and (a.target, a.center) == (b.target, b.center)
            and a.first <= b.last and b.first <= a.last
            for k, b in enumerate(segments))


def name(kernel, table, number):
    """The name of a segment: a part of the kernel, or nothing."""
    if table.count > MOST_SEGMENTS or number >= table.count:
        return b""
    place = table.segment(number).name_place
    if place + NAME_LENGTH > len(kernel):
        return b""
    whole = bytes(kernel[place:place + NAME_LENGTH])
    if any(byte >= 128 for byte in whole):
        return b""
    return whole.rstrip(b"\0").rstrip(bytes([9, 10, 11, 12, 13, 32]))


# Evaluating a segment

def evaluate(kernel, sort, segment, number, et):
    """The Value of one segment; raises refusals 12, 14, 13, 16."""
    kind = segment.kind
    if kind is UNSUPPORTED:
        raise Refused(12, segment.type)
    if kind.type != segment.type or kind.type not in HANDLED[sort]:
        raise Refused(14)
    well_formed, found = examine(kernel, sort, kind.type, segment)
    if not well_formed or not same_kind(found, kind):
        raise Refused(14)
    if kind.type == 2:
        return Value(type_2(kernel, segment, number, et),
                     is_off_records(et, kind))
    if kind.type == 3:
        return Value(type_3(kernel, segment, et), is_off_records(et, kind))
    start, c = window(kernel, segment, number, et)
    xs, rows = discrete_records(kernel, segment, start, c)
    six = (type_9 if kind.type == 9 else type_13)(xs, rows, et)
    return Value(six, is_off_epochs(kernel, segment, et))


def is_off_records(et, kind):
    """Whether floor((et - INIT)/INTLEN) is below 0 or above N-1; NaN is
    inside, an infinity is past the end on its side."""
    q = divide(et - kind.init, kind.intlen)
    if math.isnan(q):
        return False
    if math.isinf(q):
        return True
    return not 0 <= math.floor(q) <= kind.n - 1


def is_off_epochs(kernel, segment, et):
    """Whether first <= et doesn't hold, or last < et does, of the stored
    epochs."""
    epochs = segment.start + 6 * segment.kind.n
    first = double_at(kernel, epochs)
    last = double_at(kernel, epochs + segment.kind.n - 1)
    return not first <= et or last < et


def same_kind(a, b):
    """Whether two kinds of one type carry the same numbers; INIT and INTLEN
    are compared by their bits."""
    if isinstance(a, Chebyshev) and isinstance(b, Chebyshev):
        return (a.type == b.type and a.rsize == b.rsize and a.n == b.n
                and bits(a.init) == bits(b.init)
                and bits(a.intlen) == bits(b.intlen))
    if isinstance(a, Discrete) and isinstance(b, Discrete):
        return a == b
    return False


def record_index(et, init, intlen, n):
    """The whole number at or below (et - INIT)/INTLEN, within 0..N-1."""
    q = divide(et - init, intlen)
    if math.isnan(q):
        return 0
    if math.isinf(q):
        return n - 1 if q > 0.0 else 0
    return min(max(math.floor(q), 0), n - 1)


def chebyshev_record(kernel, segment, et):
    """MID, RADIUS and the series of the record for an epoch."""
    kind = segment.kind
    index = record_index(et, kind.init, kind.intlen, kind.n)
    at = segment.start + index * kind.rsize
    numbers = doubles_at(kernel, at, kind.rsize)
    series = 3 if kind.type == 2 else 6
    c = (kind.rsize - 2) // series
    return numbers[0], numbers[1], [
        numbers[2 + c * k:2 + c * (k + 1)] for k in range(series)]


def chebyshev(c, s):
    """Value and derivative of one series at s."""
    if len(c) == 1:
        return c[0], 0.0
    t_before, t = 1.0, s
    d_before, d = 0.0, 1.0
    two_s = 2.0 * s
    value = c[0] * t_before + c[1] * t
    derivative = c[1] * d
    for k in range(2, len(c)):
        t_next = two_s * t - t_before
        d_next = 2.0 * t + two_s * d - d_before
        value = value + c[k] * t_next
        derivative = derivative + c[k] * d_next
        t_before, t = t, t_next
        d_before, d = d, d_next
    return value, derivative


def type_2(kernel, segment, number, et):
    mid, radius, series = chebyshev_record(kernel, segment, et)
    if radius == 0.0:
        raise Refused(13, number)
    s = divide(et - mid, radius)
    scale = divide(1.0, radius)
    pairs = [chebyshev(c, s) for c in series]
    return tuple([value for value, _ in pairs]
                 + [derivative * scale for _, derivative in pairs])


def type_3(kernel, segment, et):
    mid, radius, series = chebyshev_record(kernel, segment, et)
    s = divide(et - mid, radius)
    return tuple(chebyshev(c, s)[0] for c in series)


def window_start(left, c, n):
    """Where a window of c of n records starts for the left index."""
    return min(max(left - (c - 1) // 2, 0), n - c)


def window(kernel, segment, number, et):
    """Start and length of the window for an epoch."""
    n = segment.kind.n
    c = min(segment.kind.degree + 1, n)
    if c == 0:
        raise Refused(16, number)
    epochs = segment.start + 6 * n
    low, high = 0, n
    while low < high:
        middle = (low + high) // 2
        if double_at(kernel, epochs + middle) <= et:
            low = middle + 1
        else:
            high = middle
    return window_start(max(low - 1, 0), c, n), c


def discrete_records(kernel, segment, start, c):
    """Epochs and states of a window."""
    epochs = segment.start + 6 * segment.kind.n
    xs = doubles_at(kernel, epochs + start, c)
    rows = [doubles_at(kernel, segment.start + 6 * (start + i), 6)
            for i in range(c)]
    return xs, rows


def lagrange(xs, ys, x):
    """Barycentric sum, with the shortcut at an exact epoch."""
    for i in range(len(xs)):
        if xs[i] == x:
            return ys[i]
    weights = []
    for i in range(len(xs)):
        w = 1.0
        for j in range(len(xs)):
            if i != j:
                w = w * (xs[i] - xs[j])
        weights.append(divide(1.0, w))
    num = 0.0
    den = 0.0
    for i in range(len(xs)):
        term = divide(weights[i], x - xs[i])
        num = num + term * ys[i]
        den = den + term
    return divide(num, den)


def hermite(xs, ys, slopes, x):
    """Value and derivative by divided differences on doubled epochs."""
    m = 2 * len(xs)
    z = [xs[i // 2] for i in range(m)]
    f = [ys[i // 2] for i in range(m)]
    column = []
    for i in range(m - 1):
        if i % 2 == 0:
            column.append(slopes[i // 2])
        else:
            column.append(divide(f[i + 1] - f[i], z[i + 1] - z[i]))
    coefficients = [f[0], column[0]]
    for k in range(2, m):
        column = [divide(column[i + 1] - column[i], z[i + k] - z[i])
                  for i in range(m - k)]
        coefficients.append(column[0])
    value = coefficients[0]
    derivative = 0.0
    product = 1.0
    slope = 0.0
    for k in range(1, m):
        difference = x - z[k - 1]
        slope = product + difference * slope
        product = difference * product
        value = value + coefficients[k] * product
        derivative = derivative + coefficients[k] * slope
    return value, derivative


def type_9(xs, rows, et):
    return tuple(lagrange(xs, [row[k] for row in rows], et)
                 for k in range(6))


def type_13(xs, rows, et):
    pairs = [hermite(xs, [row[k] for row in rows],
                     [row[k + 3] for row in rows], et) for k in range(3)]
    return tuple([value for value, _ in pairs]
                 + [derivative for _, derivative in pairs])


def alone(kernel, table, number, et):
    """One segment of an SPK table alone: a Value or a Refusal."""
    return _alone(kernel, SPK, table, number, et)


def alone_pck(kernel, table, number, et):
    """One segment of a PCK table alone: an Orientation or a Refusal."""
    value = _alone(kernel, PCK, table, number, et)
    if isinstance(value, Refusal):
        return value
    return Orientation(table.segment(number).frame, *value)


def _alone(kernel, sort, table, number, et):
    if table.count > MOST_SEGMENTS:
        return Refusal(14, 0)
    if math.isnan(et):
        return Refusal(10, 0)
    if number >= table.count:
        return Refusal(17, 0)
    try:
        value = evaluate(kernel, sort, table.segment(number), number, et)
    except Refused as refused:
        return refused.refusal
    if not all_finite(value.six):
        return Refusal(15, 0)
    return value


# Questions

def covers(segment, et):
    return segment.first <= et <= segment.last


def is_of_pair(segment, target, center):
    return segment.target == target and segment.center == center


def last_covering(table, target, center, et):
    """The number of the pair's last covering segment, or None."""
    for number in reversed(range(table.count)):
        segment = table.segment(number)
        if is_of_pair(segment, target, center) and covers(segment, et):
            return number
    return None


def recalled(table, memory, target, center, et):
    """Whether the remembered segment serves this question."""
    if memory is None or memory >= table.count:
        return False
    segment = table.segment(memory)
    return (segment.marked and is_of_pair(segment, target, center)
            and covers(segment, et))


def state(kernel, table, memory, target, center, et):
    """The answer or Refusal to one question, and the memory after it.

    The memory is a segment's number, or None.
    """
    if target == center:
        return Answer(SAME, None, ZEROS, frozenset([J2000])), memory
    if table.count > MOST_SEGMENTS:
        return Refusal(14, 0), memory
    if math.isnan(et):
        return Refusal(10, 0), memory
    number = None
    if recalled(table, memory, target, center, et):
        number = memory
    else:
        number = last_covering(table, target, center, et)
        if number is not None and table.segment(number).marked:
            memory = number
    try:
        answer = _answer(kernel, table, number, target, center, et)
    except Refused as refused:
        return refused.refusal, memory
    if not all_finite(answer.six):
        return Refusal(15, 0), memory
    return answer, memory


def _answer(kernel, table, number, target, center, et):
    """Forward with the segment chosen, else reversed, else chained."""
    if number is not None:
        segment = table.segment(number)
        six, stretched = evaluate(kernel, SPK, segment, number, et)
        return Answer(FORWARD, number, six, frozenset([segment.frame]),
                      stretched)
    number = last_covering(table, center, target, et)
    if number is not None:
        segment = table.segment(number)
        six, stretched = evaluate(kernel, SPK, segment, number, et)
        return Answer(REVERSED, number, tuple(-x for x in six),
                      frozenset([segment.frame]), stretched)
    to_target, of_target, first = towards_zero(kernel, table, target, et)
    to_center, of_center, second = towards_zero(kernel, table, center, et)
    return Answer(CHAINED, None,
                  tuple(a - b for a, b in zip(to_target, to_center)),
                  frozenset(of_target | of_center), first or second)


def towards_zero(kernel, table, body, et):
    """A body's state to body 0, in at most 32 steps, the frames of the
    segments that the steps took, and whether one of those was stretched."""
    total = ZEROS
    frames = set()
    stretched = False
    current = body
    for _ in range(MOST_STEPS):
        if current == 0:
            return total, frames, stretched
        value, segment = step(kernel, table, current, et)
        total = tuple(a + b for a, b in zip(total, value.six))
        frames.add(segment.frame)
        stretched = stretched or value.stretched
        current = segment.center
        if current == body:
            raise Refused(11, body)
    if current == 0:
        return total, frames, stretched
    raise Refused(11, body)


def step(kernel, table, current, et):
    """The segment that the current body takes, with its value."""
    taken = None
    for number in range(table.count):
        segment = table.segment(number)
        if segment.target != current or not covers(segment, et):
            continue
        value = evaluate(kernel, SPK, segment, number, et)
        if segment.center == 0:
            return value, segment
        if taken is None:
            taken = value, segment
    if taken is None:
        raise Refused(11, current)
    return taken


# Frames

def turn_vector(rows, v):
    """A 3 by 3 matrix times a vector; the sums start with a product."""
    return [row[0] * v[0] + row[1] * v[1] + row[2] * v[2] for row in rows]


def turn(rows, six):
    """A state from J2000 to ECLIPJ2000 by the matrix given row by row."""
    return tuple(turn_vector(rows, six[0:3]) + turn_vector(rows, six[3:6]))


def transpose(rows):
    return [[rows[j][i] for j in range(3)] for i in range(3)]


def turn_back(rows, six):
    """A state from ECLIPJ2000 to J2000: by the transpose."""
    return turn(transpose(rows), six)


def matmul3(a, b):
    """The product of two 3 by 3 matrices; the sums start at +0."""
    product = [[0.0] * 3 for _ in range(3)]
    for i in range(3):
        for j in range(3):
            total = 0.0
            for k in range(3):
                total = total + a[i][k] * b[k][j]
            product[i][j] = total
    return product


def add3(a, b):
    return [[a[i][j] + b[i][j] for j in range(3)] for i in range(3)]


def sxform_from_rotation(r, dr):
    """The 6 by 6 state matrix: the rotation twice on the diagonal, its
    derivative below, zeros above."""
    zeros = [0.0, 0.0, 0.0]
    return ([list(row) + zeros for row in r]
            + [list(low) + list(row) for low, row in zip(dr, r)])


def invert_sxform(m):
    """The inverse of such a matrix: each 3 by 3 block transposed, zeros
    above."""
    rotation = transpose([row[0:3] for row in m[0:3]])
    derivative = transpose([row[0:3] for row in m[3:6]])
    return sxform_from_rotation(rotation, derivative)


def turned(answer, frame, rows):
    """An answer in another frame, or refusals 21 and 15; in the frame of its
    own numbers as it stands."""
    if len(answer.frames) != 1:
        raise Refused(21)
    own, = answer.frames
    if own == frame:
        return answer
    if (own, frame) == (J2000, ECLIPJ2000):
        six = turn(rows, answer.six)
    elif (own, frame) == (ECLIPJ2000, J2000):
        six = turn_back(rows, answer.six)
    else:
        raise Refused(21)
    if not all_finite(six):
        raise Refused(15)
    return answer._replace(six=six, frames=frozenset([frame]))


def state_in(kernel, table, memory, target, center, et, frame=None,
             rows=None):
    """As state, the answer given in the frame of a number; None is as it
    stands."""
    answer, memory = state(kernel, table, memory, target, center, et)
    if frame is None or isinstance(answer, Refusal):
        return answer, memory
    try:
        return turned(answer, frame, rows), memory
    except Refused as refused:
        return refused.refusal, memory


# PCK

def orientation(kernel, table, body_frame, et):
    """Reference frame and six numbers of a body frame, or a Refusal."""
    if table.count > MOST_SEGMENTS:
        return Refusal(14, 0)
    if math.isnan(et):
        return Refusal(10, 0)
    for number in reversed(range(table.count)):
        segment = table.segment(number)
        if segment.target == body_frame and covers(segment, et):
            break
    else:
        return Refusal(11, body_frame)
    try:
        value = evaluate(kernel, PCK, segment, number, et)
    except Refused as refused:
        return refused.refusal
    if not all_finite(value.six):
        return Refusal(15, 0)
    return Orientation(segment.frame, *value)


# Usage statements

USAGE_MARK = b"\xa5\x5a"
USAGE_LENGTH = 8


def statement(usage):
    """The Statement of a usage file of any length, or a Refusal for its
    first fault in file order."""
    counts = {}
    for place in range(0, len(usage), USAGE_LENGTH):
        record = usage[place:place + USAGE_LENGTH]
        if len(record) < USAGE_LENGTH or bytes(record[0:2]) != USAGE_MARK:
            return Refusal(19, 0)
        supplier = unsigned32(record, 4)
        if supplier not in counts:
            if len(counts) == MOST_SUPPLIERS:
                return Refusal(20, 0)
            counts[supplier] = 0
        counts[supplier] += 1
    return Statement(sorted(counts.items()), len(usage) // USAGE_LENGTH)


# Programs

class Misused(Exception):
    """What is wrong with a call, for the error output."""


MARKS = {"ask": b"\xa5\x5b", "orient": b"\xa5\x5c", "alone": b"\xa5\x5d",
         "alone_pck": b"\xa5\x5d"}
LAYOUTS = {"ask": "<2siid", "orient": "<2sid", "alone": "<2sId",
           "alone_pck": "<2sId"}


def refused_line(refusal):
    """The one line of a run that is refused whole."""
    return "refused %d %d" % refusal


def answer_line(number, words, answer):
    """The line of an answer: its words, whether a record was stretched, its
    six numbers."""
    return " ".join([str(number)] + words
                    + ["yes" if answer.stretched else "no"]
                    + [hexadecimal(x) for x in answer.six])


def refused_answer_line(number, refusal):
    """The line of a refused question, which begins with its number."""
    return "%d %s" % (number, refused_line(refusal))


def listing_lines(kernel):
    """The lines of the listing program."""
    if len(kernel) > LARGEST_INPUT:
        return [refused_line(Refusal(18, 0))]
    table = open_spk(kernel)
    if isinstance(table, Refusal):
        return [refused_line(table)]
    lines = ["segments %d" % table.count]
    for number, s in enumerate(table.segments):
        lines.append(" ".join(
            str(word) for word in (
                number, s.target, s.center, s.frame, s.type,
                hexadecimal(s.first), hexadecimal(s.last), s.start, s.end,
                "yes" if s.marked else "no")))
    return lines


def question_records(program, contents):
    """The records of a questions file, or None where one is malformed."""
    layout, found = struct.Struct(LAYOUTS[program]), []
    for place in range(0, len(contents), layout.size):
        record = contents[place:place + layout.size]
        if len(record) < layout.size or record[0:2] != MARKS[program]:
            return None
        found.append(layout.unpack(record)[1:])
    return found


def frame_argument(word):
    """The text of the argument FRAME; one that is too long is no number."""
    return word if len(os.fsencode(word)) <= LONGEST_ARGUMENT else ""


def frame_number(text):
    """The frame that an argument names, or None where it is no number."""
    if not re.fullmatch("-?[0-9]+", text):
        return None
    digits = text.lstrip("-").lstrip("0") or "0"
    if len(digits) > len(str(2 ** 31)):
        return None
    number = -int(digits) if text[0] == "-" else int(digits)
    return number if -2 ** 31 <= number < 2 ** 31 else None


def matrix_rows(contents):
    numbers = struct.unpack("<9d", contents)
    return [list(numbers[3 * i:3 * i + 3]) for i in range(3)]


def answer_lines(program, kernel, questions, matrix=None, frame="17"):
    """The lines of ask, orient and alone; the frame is the argument's text."""
    files = [kernel, questions] + ([] if matrix is None else [matrix])
    if any(len(contents) > LARGEST_INPUT for contents in files):
        return [refused_line(Refusal(18, 0))]
    if matrix is not None and len(matrix) != 72:
        raise Misused("the matrix file has %d bytes, not 72" % len(matrix))
    if matrix is not None and frame_number(frame) is None:
        raise Misused("the frame is no number of 32 bits")
    table = open_pck(kernel) if program == "orient" else open_spk(kernel)
    if isinstance(table, Refusal):
        return [refused_line(table)]
    records = question_records(program, questions)
    if records is None:
        return [refused_line(Refusal(19, 0))]
    if program == "ask":
        if matrix is None:
            return ask_lines(kernel, table, records)
        return ask_lines(kernel, table, records, frame_number(frame),
                         matrix_rows(matrix))
    if program == "orient":
        return orient_lines(kernel, table, records)
    return alone_lines(kernel, table, records)


def ask_lines(kernel, table, records, frame=None, rows=None):
    lines, memory = [], None
    for number, (target, center, et) in enumerate(records):
        answer, memory = state_in(kernel, table, memory, target, center, et,
                                  frame, rows)
        if isinstance(answer, Refusal):
            lines.append(refused_answer_line(number, answer))
            continue
        words = [answer.way]
        if answer.segment is not None:
            words.append(str(answer.segment))
        lines.append(answer_line(number, words, answer))
    return lines


def orient_lines(kernel, table, records):
    return turned_lines(orientation, kernel, table, records)


def alone_pck_lines(kernel, table, records):
    return turned_lines(alone_pck, kernel, table, records)


def turned_lines(function, kernel, table, records):
    lines = []
    for number, (asked, et) in enumerate(records):
        answer = function(kernel, table, asked, et)
        if isinstance(answer, Refusal):
            lines.append(refused_answer_line(number, answer))
        else:
            lines.append(answer_line(number, [str(answer.frame)], answer))
    return lines


def alone_lines(kernel, table, records):
    lines = []
    for number, (segment, et) in enumerate(records):
        value = alone(kernel, table, segment, et)
        if isinstance(value, Refusal):
            lines.append(refused_answer_line(number, value))
        else:
            lines.append(answer_line(number, [], value))
    return lines


def statement_lines(usage):
    """The lines of the statement program."""
    if len(usage) > LARGEST_INPUT:
        return [refused_line(Refusal(18, 0))]
    found = statement(usage)
    if isinstance(found, Refusal):
        return [refused_line(found)]
    return (["%d %d" % pair for pair in found.suppliers]
            + ["total %d" % found.total])


def read_file(path):
    try:
        with open(path, "rb") as opened:
            return opened.read()
    except OSError as error:
        raise Misused("%s can't be read: %s" % (path, error.strerror))


def run(arguments):
    """The lines of a call's standard output."""
    counts = {"listing": (0,), "ask": (2, 3, 4), "orient": (2,),
              "alone": (2,), "statement": (0,)}
    if not arguments or arguments[0] not in counts:
        raise Misused("the first argument is listing, ask, orient, alone or "
                      "statement")
    program, words = arguments[0], arguments[1:]
    if len(words) not in counts[program]:
        raise Misused("%s takes %s arguments, not %d" % (
            program, " or ".join(map(str, counts[program])), len(words)))
    if program == "listing":
        return listing_lines(sys.stdin.buffer.read())
    if program == "statement":
        return statement_lines(sys.stdin.buffer.read())
    files = [read_file(path) for path in words[:3]]
    return answer_lines(program, *files, *map(frame_argument, words[3:]))


def main(arguments):
    try:
        lines = run(arguments)
    except Misused as misused:
        sys.stderr.write("second.py: %s\n" % misused)
        return 2
    sys.stdout.write("".join(line + "\n" for line in lines))
    return 0


if __name__ == "__main__":
    sys.exit(main(sys.argv[1:]))
