"""Random segments, kernels that RULES, "Opening", accepts, and questions about them."""

import math

from kernels import INF, NAN, TINY, Layout, Kernel, Segment, after, alone_record, ask_record, before, orient_record

BODIES = [0, 3, 10, 301, 399, 5, -31, 2000001, 2**31 - 1, -(2**31)]
UNSUPPORTED = [0, 1, 5, 8, 10, 12, 14, 17, 18, 19, 20, 21, -1, -2, 2**31 - 1, -(2**31)]
SMALL = [0.0, -0.0, TINY, -TINY, 2.2250738585072014e-308, -2.225073858507201e-308, 1.0, -1.0, 0.5]
HOT = [INF, -INF, NAN, 1.7976931348623157e308, -1.7976931348623157e308, 1e300, 1e-300]
NANS = [b.to_bytes(8, "little") for b in (0x7FF8000000000000, 0xFFF8000000000000, 0x7FF0000000000001, 2**64 - 1)]


def number(chance, flavour):
    """A coefficient or a state's number: plain, wide, zeros or hot."""
    if flavour == "zeros":
        return chance.pick(SMALL)
    if flavour == "hot" and chance.one_in(6):
        return chance.pick(HOT) if chance.one_in(2) else chance.any_double()
    if flavour == "wide":
        return chance.spread(10.0 ** chance.between(-100, 100))
    return chance.spread(10.0 ** chance.between(-3, 9))


def flavour_of(chance):
    return chance.pick(["plain"] * 7 + ["wide", "zeros", "hot"])


def coverage(chance, low, high):
    """A segment's limits around the span of its data: mostly that span, sometimes not; never NaN."""
    first, last = limits(chance, low, high)
    return -INF if math.isnan(first) else first, INF if math.isnan(last) else last


def limits(chance, low, high):
    span = high - low
    shape = chance.below(20)
    if shape < 11:
        return low, high
    if shape < 14:
        return low - span * chance.unit(), high + span * chance.unit()
    if shape < 16:
        return low + span * 0.3 * chance.unit(), high - span * 0.3 * chance.unit()
    return [(-INF, INF), (low, INF), (high, low), (low + span / 2, low + span / 2)][shape - 16]


def near(epochs):
    """Each epoch with its neighbours on both sides."""
    return [e for at in epochs for e in (before(at), at, after(at))]


def interval(chance, records, around):
    """INIT and INTLEN, mostly of ordinary size; the records fill the span `around` if it is given."""
    if around:
        return around[0], (around[1] - around[0]) / records
    init = chance.pick([0.0, -0.0, chance.spread(1e9), chance.spread(1e9), chance.spread(1.0)])
    shape = chance.below(24)
    if shape == 0:
        return init, chance.pick([TINY, 1e-310, 1e-300, 1e300, 1e308])
    if shape < 8:
        return init, float(chance.between(1, 1000000))
    return init, 10.0 ** chance.between(-2, 6) * (0.5 + chance.unit())


def series(chance, numbers, coefficients, records, flavour, odd=False, around=None):
    """A type 2 or 3 segment, SPK or PCK; `odd` lets RADIUS and MID be anything."""
    channels = 6 if numbers[-1] == 3 else 3
    init, intlen = interval(chance, records, around)
    doubles, middles = [], []
    for k in range(records):
        mid, radius = init + (k + 0.5) * intlen, intlen / 2
        if odd and chance.one_in(3):
            radius = chance.pick([0.0, -0.0, -radius, 1.0, TINY, INF, NAN, chance.spread(1e6)])
        if odd and chance.one_in(6):
            mid = chance.pick([0.0, INF, NAN, chance.spread(1e9)])
        middles.append(mid)
        doubles += [mid, radius] + [number(chance, flavour) for _ in range(channels * coefficients)]
    doubles += [7.0] * (chance.below(9) if chance.one_in(6) else 0)
    rsize, count = float(2 + channels * coefficients), float(records)
    if chance.one_in(8):
        rsize, count = rsize + chance.unit() * 0.99, count + chance.unit() * 0.99
    doubles += [init, intlen, rsize, count]
    first, last = around or coverage(chance, init, init + records * intlen)
    borders = [init + k * intlen for k in range(records + 1)]
    edges = near([first, last] + borders[:40]) + middles[:20] + near(borders[-2:])
    return Segment(numbers, first, last, doubles, edges)


def epochs_of(chance, n, flavour, around):
    """Increasing epochs; sometimes some alike, out of order or not finite."""
    at = chance.pick([0.0, -5.0, chance.spread(1e8)])
    step = 10.0 ** chance.between(-1, 4)
    if around:
        at, step = around[0], (around[1] - around[0]) / n
    out = []
    for _ in range(n):
        out.append(at)
        at += step * (0.25 + chance.unit())
    shape = chance.below(24)
    if shape == 0:
        out = [e if i % 3 else out[max(i - 1, 0)] for i, e in enumerate(out)]
    if shape == 1:
        out[chance.below(n)] = chance.pick(out)
    if shape == 2 and flavour == "hot":
        out[chance.below(n)] = chance.pick(HOT)
    if shape == 3:
        out[0] = -0.0
    return out


def states(chance, numbers, n, degree, flavour, around=None):
    """A type 9 or 13 segment of n states; the directory has n/100 entries, as the Rust reads it."""
    epochs = epochs_of(chance, n, flavour, around)
    doubles = [number(chance, flavour) for _ in range(6 * n)] + epochs
    doubles += [epochs[100 * k + 99] for k in range(n // 100)]
    count = float(n) + (chance.unit() * 0.99 if chance.one_in(8) else 0.0)
    doubles += [degree, count]
    first, last = around or coverage(chance, min(epochs[0], epochs[-1]), max(epochs[0], epochs[-1]))
    some = epochs if n <= 40 else [epochs[i] for i in (0, 1, 2, 98, 99, 100, 101, n // 2, n - 3, n - 2, n - 1) if i < n]
    edges = near([first, last] + some) + [(a + b) / 2 for a, b in zip(some, some[1:])]
    return Segment(numbers, first, last, doubles, edges)


def unsupported(chance, numbers, around=None):
    """A segment of no handled type, with any addresses at all."""
    low = chance.spread(1e6)
    first, last = around or coverage(chance, low, low + 1e6)
    wild = [0, -1, 1, 385, 2**31 - 1, -(2**31)]
    return Segment(numbers, first, last, [1.0, 2.0], near([first, last]), b"", chance.pick(wild), chance.pick(wild))


def degree_of(chance, data_type, n):
    """A degree with min(d + 1, n) at most 32, mostly odd and small; far above n where n allows it."""
    low = 1 if data_type == 13 else 0
    if n <= 32 and chance.one_in(4):
        return chance.pick([31.0, 32.0, 100.0, 2.0**31, 2.0**32, 2.0**53, 1e18, float(n)])
    d = chance.pick([1, 3, 5, 7, 7, 9, 11, 15]) if chance.one_in(2) else chance.between(low, 31)
    return float(max(d, low)) + (chance.unit() * 0.99 if chance.one_in(8) else 0.0)


def segment(chance, head, data_type, room, around=None):
    """A segment of a type within so many doubles; head: the numbers before the type; around: its limits."""
    numbers, flavour = head + (data_type,), flavour_of(chance)
    calm = around and chance.below(8)  # so that most chains of several segments are answered
    if calm and flavour == "hot":
        flavour = "plain"
    if data_type in (2, 3):
        coefficients = chance.pick([1, 1, 2, 3, 5, 8, 13, 14, chance.between(1, 20)])
        size = 2 + (3 if data_type == 2 else 6) * coefficients
        records = max(1, min((room - 16) // size, chance.between(1, 12)))
        return series(chance, numbers, coefficients, records, flavour, chance.one_in(5) and not calm, around)
    if data_type in (9, 13):
        n = max(1, min((room - 12) // 8, chance.pick([1, 2, 3, 4, 8, 9, 16, 33, 40, chance.between(1, 60)])))
        return states(chance, numbers, n, degree_of(chance, data_type, n), flavour, around)
    return unsupported(chance, numbers, around)


def questions(chance, segments, count, bodies):
    """Questions about a kernel: all ways, at edges, inside and anywhere."""
    out = b""
    for _ in range(count):
        s, t = chance.pick(segments), chance.pick(segments)
        target, center = s.numbers[0], s.numbers[1]
        way = chance.below(20)
        if 11 <= way < 14:
            target, center = center, target
        if 14 <= way < 17:
            target, center = target, t.numbers[0]
        if way == 17:
            target, center = target, 0
        if way >= 18:
            target, center = chance.pick(bodies), chance.pick(bodies)
        out += ask_record(target, center, epoch(chance, s))
    return out


def epoch(chance, s):
    """An epoch for a question about a segment."""
    shape = chance.below(40)
    if shape == 0:
        return chance.pick(NANS)
    if shape == 1:
        return chance.pick([0.0, -0.0, INF, -INF, TINY, 1e308, chance.any_double()])
    if shape < 18:
        return chance.pick(s.edges)
    low, high = s.first, s.last
    if not (low <= high and high - low < INF):
        return chance.pick(s.edges)
    return low + (high - low) * chance.unit()


def mixed(chance, count, types, bodies=BODIES, room=6400, layout=None, frames=(1, 1, 17, -3)):
    """An SPK kernel of so many random segments of these types and in these frames."""
    share = room // count
    made = []
    for _ in range(count):
        target = chance.pick(bodies)
        others = [b for b in bodies if b != target or chance.one_in(20)]
        head = (target, chance.pick(others), chance.pick(frames))
        made.append(segment(chance, head, chance.pick(types), share))
    return Kernel("spk", made, layout)


def overlaps(chance):
    """Segments of few pairs with touching, equal, nested and separate limits; some reversed pairs."""
    marks = [float(10 * k) for k in range(9)]
    made = []
    for _ in range(chance.between(2, 14)):
        head = chance.pick([(399, 3), (3, 399), (10, 0), (301, 3)]) + (1,)
        s = segment(chance, head, chance.pick([2, 2, 3, 9, 13, 5]), 300)
        low, high = chance.pick(marks), chance.pick(marks)
        s.first, s.last = min(low, high), max(low, high)
        s.edges = near([s.first, s.last]) + [s.first + 5.0, s.last - 5.0]
        made.append(s)
    return Kernel("spk", made)


def chain(chance, steps, shape):
    """A line of so many steps towards body 0; shape: line, start (back to its start), ring, forked or holed."""
    bodies = [1000 + k for k in range(steps)] + [0]
    ends = {"start": bodies[0], "ring": bodies[steps // 2]}
    made = []
    for k in range(steps):
        center = bodies[k + 1] if k < steps - 1 else ends.get(shape, 0)
        if shape == "forked" and chance.one_in(3):
            made.append(wide_segment(chance, bodies[k], 5000 + k, chance.pick([2, 2, 3, 5])))
        made.append(wide_segment(chance, bodies[k], center, chance.pick([2, 2, 3])))
        if shape == "forked" and chance.one_in(4):
            made.append(wide_segment(chance, bodies[k], chance.pick([0, 6000 + k]), chance.pick([2, 3, 5])))
    if shape == "holed":
        made.pop(chance.below(len(made)))
    made.append(wide_segment(chance, 7000, bodies[steps // 2], 2))
    made.append(wide_segment(chance, 7001, 0, 2))
    return Kernel("spk", made)


def wide_segment(chance, target, center, data_type, room=60):
    """A segment that covers 0 to 100."""
    return segment(chance, (target, center, 1), data_type, room, (0.0, 100.0))


def planets(chance):
    """Bodies about 0, moons about them: most pairs go over a chain. Some segments are there twice."""
    pairs = [(k, 0) for k in range(1, 11)] + [(100 * k + j, k) for k in range(1, 6) for j in (1, 2, 99)]
    kept = [pair for pair in pairs if chance.below(6)]
    kept += [chance.pick(kept) for _ in range(chance.below(4))]
    kinds = [2, 2, 3, 9, 13] * 8 + [5]
    return Kernel("spk", [wide_segment(chance, t, c, chance.pick(kinds), 250) for t, c in kept])


def reframed(chance, kernel, frames):
    """An SPK kernel of the same segments in these frames."""
    for s in kernel.segments:
        s.numbers[2] = chance.pick(frames)
    return Kernel("spk", kernel.segments, kernel.layout)


def pck_mixed(chance, count, types, room=6400, layout=None):
    """A PCK kernel of random segments: body frame, reference frame, type."""
    made = []
    for _ in range(count):
        head = (chance.pick([3000, 3000, 31006, -7]), chance.pick([1, 17, 0, -4]))
        if chance.one_in(8):
            made.append(unsupported(chance, head + (chance.pick([0, 1, 3, 9, 13, 20, -2]),)))
        else:
            made.append(segment(chance, head, chance.pick(types), room // count))
    return Kernel("pck", made, layout)


def orientations(chance, segments, count):
    """Questions about a PCK kernel."""
    out = b""
    for _ in range(count):
        s = chance.pick(segments)
        frame = s.numbers[0] if chance.below(12) else chance.pick([0, 3000, 31006, 99])
        out += orient_record(frame, epoch(chance, s))
    return out


def alone(chance, segments, count):
    """Questions about segments by their number, some of which don't exist."""
    out = b""
    for _ in range(count):
        i = chance.below(len(segments))
        number = i if chance.below(25) else chance.pick([len(segments), len(segments) + 1, 255, 256, 2**31, 2**32 - 1])
        out += alone_record(number, epoch(chance, segments[i]))
    return out


def layout_of(chance, count):
    """The parts of a kernel of so many segments in other places than usual."""
    return Layout(
        held=chance.between(1 + count // 5, 25),
        comments=chance.pick([0, 0, 1, 3]),
        hollow=chance.one_in(3),
        backward=chance.one_in(2),
        tail=bytes(chance.below(9)),
        gap=chance.below(4),
        cut=chance.one_in(2),
    )
