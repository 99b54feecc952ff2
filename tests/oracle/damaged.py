"""Kernels damaged on purpose. Each function yields (kernel, refusal aimed at) or, aimed at None, a near miss that opens."""

import struct

from kernels import INF, NAN, RECORD, TINY, Kernel, Layout, Segment, double
from valid import mixed, pck_mixed, segment, states

NUMBERS = (399, 3, 1)


def sample(chance, kind, count=3):
    """An accepted kernel of some segments of handled types."""
    if kind == "pck":
        return pck_mixed(chance, count, [2], 900)
    return mixed(chance, count, [2, 3, 9, 13], room=900)


def word(n):
    return struct.pack("<I", n)


def lengths(chance, kind):
    """1: too short."""
    k = sample(chance, kind)
    for n in (0, 1, 3, 8, 95, 96, 727, 1022, 1023):
        yield k.bytes[:n], "refused 1 0"
    if kind == "spk":
        yield Kernel(kind, []).bytes[:RECORD], None


def identities(chance, kind):
    """2, 3: the ID word's first four bytes, the format word."""
    k = sample(chance, kind)
    for place in range(4):
        yield k.put(place, bytes([k.bytes[place] ^ (1 << chance.below(8))])), "refused 2 0"
    yield k.put(0, b"NAIF/DAF"), "refused 2 0"
    yield k.put(0, b"daf/SPK "), "refused 2 0"
    yield k.put(4, b"CK  "), None
    yield k.put(4, bytes(4)), None
    for place in range(88, 96):
        yield k.put(place, bytes([k.bytes[place] ^ (1 << chance.below(8))])), "refused 3 0"
    for text in (b"BIG-IEEE", b"VAX-GFLT", bytes(8), b"        "):
        yield k.put(88, text), "refused 3 0"
    yield k.put(0, b"DAG")[:88] + b"BIG-IEEE" + k.bytes[96:], "refused 2 0"


def sizes(chance, kind):
    """4: ND and NI."""
    k = sample(chance, kind)
    other = 5 if kind == "spk" else 6
    for nd, ni in ((2, other), (2, 0), (0, 0), (0, 6), (1, 8), (3, 6), (3, 4), (2, 7), (2, 250), (124, 2), (6, 2), (5, 2), (2**32 - 1, 6), (2, 2**32 - 1), (2, 2**31 + 6)):
        yield k.put(8, word(nd) + word(ni)), "refused 4 0"
    yield k.put(8, word(2) + word(9))[:88] + b"BIG-IEEE" + k.bytes[96:], "refused 3 0"


def records(chance, kind):
    """5: a summary record or its name record past the end."""
    k = Kernel(kind, sample(chance, kind, 4).segments, Layout(held=2))
    held = len(k.bytes) // RECORD
    for n in (held, held + 1, 2**31, 2**32 - 1):
        yield k.put(76, word(n)), "refused 5 0"
        yield k.put(k.records[0], double(float(n))), "refused 5 0"
    for d in (1e300, INF, held + 0.9, 4294967296.0):
        yield k.put(k.records[1], double(d)), "refused 5 0"
    yield k.bytes[: k.records[1] + 2 * RECORD - 1], "refused 5 0"
    yield k.bytes[: k.records[1] + RECORD], "refused 5 0"
    yield k.put(8, word(9))[: k.records[1]], "refused 4 0"
    yield k.put(76, word(held))[:16] + bytes(60) + word(0) + k.bytes[80:], None
    for d in (NAN, -INF, -1.0, -0.0, 0.999, TINY):
        yield k.put(k.records[1], double(d)), None


def rounds(chance, kind):
    """6: the walk comes to a record again."""
    k = Kernel(kind, sample(chance, kind, 6).segments, Layout(held=2, backward=chance.one_in(2)))
    number = [place // RECORD + 1 for place in k.records]
    for source in range(3):
        for goal in range(source + 1):
            for fraction in (0.0, 0.75):
                yield k.put(k.records[source], double(number[goal] + fraction)), "refused 6 0"
    empty = Kernel(kind, [], None)
    once = empty.bytes + bytes(2 * RECORD)
    once[76:80] = word(2)
    yield once, None
    yield once[:RECORD] + double(2.0) + once[RECORD + 8 :], "refused 6 0"
    loop = once[:RECORD] + double(1.0) + once[RECORD + 8 :]
    yield loop, "refused 7 0"  # the file record as a summary record: the internal name is its count
    yield loop[:16] + bytes(60) + loop[76:], None


def counts(chance, kind):
    """7: 26 summaries in a record. More than 256 in all open: the programs lend 4,096 places."""
    k = Kernel(kind, sample(chance, kind, 4).segments, Layout(held=2))
    for place in k.records:
        for d in (26.0, 26.5, 100.0, 1e18, 1.8446744073709552e19, 1e300, INF):
            yield k.put(place + 16, double(d)), "refused 7 0"
        for d in (NAN, -1.0, -INF, 0.0, -0.0, 1.999):
            yield k.put(place + 16, double(d)), None
    again = k.put(k.records[1], double(float(k.records[0] // RECORD + 1)))
    again[k.records[0] + 16 : k.records[0] + 24] = double(26.0)
    yield again, "refused 6 0"
    for count in (256, 257, 400):
        small = [tiny(chance, kind, i) for i in range(count)]
        yield Kernel(kind, small).bytes, None
    small[3].first = NAN
    yield Kernel(kind, small).bytes, "refused 9 3"
    full = Kernel(kind, [tiny(chance, kind, i) for i in range(25)])
    yield full.bytes, None
    yield full.put(full.records[0] + 16, double(25.999)), None
    yield full.put(full.records[0] + 16, double(26.0)), "refused 7 0"


def tiny(chance, kind, i):
    """A segment of nine doubles."""
    head = (1000 + i % 40, 0, 1) if kind == "spk" else (3000 + i % 40, 1)
    mid = float(10 * i)
    return Segment(head + (2,), mid - 5.0, mid + 5.0, [mid, 5.0, chance.unit(), 1.0, 2.0, mid - 5.0, 10.0, 5.0, 1.0])


def amid(chance, kind, bad):
    """A kernel with one bad segment among good ones, and the refusal that names it; sometimes a worse one after it."""
    good = [tiny(chance, kind, i) for i in range(4)]
    place = chance.below(5)
    if chance.one_in(4):
        spoilt = tiny(chance, kind, 9)
        spoilt.last = NAN
        good.append(spoilt)
    return Kernel(kind, good[:place] + [bad] + good[place:]).bytes, f"refused 9 {place}"


def limits(chance, kind):
    """9: limits that are NaN (any type), addresses."""
    head = NUMBERS if kind == "spk" else (3000, 1)
    types = [2, 3, 9, 13, 5, -1] if kind == "spk" else [2, 3, 20]
    for data_type in types:
        for first, last in ((NAN, 1.0), (0.0, NAN), (NAN, NAN)):
            s = segment(chance, head, data_type, 100)
            s.first, s.last = first, last
            yield amid(chance, kind, s)
    for data_type in [2, 3, 9, 13] if kind == "spk" else [2]:
        for start, end in ((0, None), (-1, None), (-(2**31), None), (None, 0), (None, 2**31 - 1), (400, 399), (2**31 - 1, 2**31 - 1), (None, -1), (0, 0)):
            s = segment(chance, head, data_type, 100)
            s.start, s.end = start, end
            yield amid(chance, kind, s)


def last_place(chance, kind):
    """9: the segment's last double is the kernel's last whole one, or half of it is cut off."""
    head = NUMBERS if kind == "spk" else (3000, 1)
    for data_type in [2, 3, 9, 13] if kind == "spk" else [2]:
        k = Kernel(kind, [tiny(chance, kind, 0), segment(chance, head, data_type, 100)], Layout(cut=True))
        yield k.bytes, None
        yield k.bytes[:-1], "refused 9 1"
        yield k.bytes[:-8], "refused 9 1"
        yield k.bytes + bytes(7), None


def trailer(init, intlen, rsize, n, doubles):
    return [1.0] * doubles + [init, intlen, rsize, n]


def series_trailers(chance, kind):
    """9: types 2 and 3, trailer numbers."""
    head = NUMBERS if kind == "spk" else (3000, 1)
    for data_type, size in ((2, 5), (3, 8)) if kind == "spk" else ((2, 5),):
        step = size - 2
        bad = [(i, 10.0, size, 1.0) for i in (NAN, INF, -INF)]
        bad += [(0.0, i, size, 1.0) for i in (0.0, -0.0, -1.0, -TINY, NAN, INF, -INF)]
        bad += [(0.0, 10.0, r, 1.0) for r in (0.0, 1.0, 2.0, 2.9, 3.0, 4.0, size - 0.1, size + 1.0, size + 2.0, -5.0, NAN, -INF)]
        bad += [(0.0, 10.0, r, 1.0) for r in (INF, 1e300, 2.0**32 + 1.0, 2.0**63, float(size + 4 * step))]
        bad += [(0.0, 10.0, size, n) for n in (0.0, -0.0, 0.99, -1.0, NAN, -INF)]
        bad += [(0.0, 10.0, size, n) for n in (3.0, 100.0, 2.0**32, 2.0**53, 1e300, INF, 2.0**61, 2.0**64 / size)]
        for init, intlen, rsize, n in bad:
            yield amid(chance, kind, Segment(head + (data_type,), 0.0, 10.0, trailer(init, intlen, rsize, n, 2 * size)))
        for doubles in range(4):
            s = Segment(head + (data_type,), 0.0, 10.0, trailer(0.0, 10.0, size, 1.0, 0)[4 - doubles :] or [1.0])
            s.end = None if doubles else 0
            yield amid(chance, kind, s)
        short = Segment(head + (data_type,), 0.0, 10.0, trailer(0.0, 10.0, size, 2.0, 2 * size - 1))
        yield amid(chance, kind, short)
        exact = Segment(head + (data_type,), 0.0, 10.0, trailer(0.0, 10.0, size + 0.7, 2.9, 2 * size))
        yield Kernel(kind, [tiny(chance, kind, 0), exact]).bytes, None


def state_trailers(chance, kind):
    """9: types 9 and 13, degree, count, length, window."""
    if kind == "pck":
        return
    for data_type in (9, 13):
        numbers = NUMBERS + (data_type,)
        for n in (NAN, 0.0, -0.0, 0.5, -3.0, 4.0, 6.0, 1e300, INF, 2.0**32 + 5.0, 2.0**64 / 7):
            yield amid(chance, kind, Segment(numbers, 0.0, 10.0, [float(i) for i in range(35)] + [3.0, n]))
        for doubles in (1, 2, 3):
            yield amid(chance, kind, Segment(numbers, 0.0, 10.0, [1.0] * (doubles - 1) + [0.0]))
        for n, entries in ((100, 0), (99, 1), (200, 1), (101, 0), (100, 2)):
            s = Segment(numbers, 0.0, 10.0, [float(i) for i in range(7 * n + entries)] + [3.0, float(n)])
            yield amid(chance, kind, s)
        for degree in (32.0, 33.0, 39.0, 1e300, INF):
            yield amid(chance, kind, states(chance, numbers, 40, degree, "plain"))
        for n, degree in ((33, 32.0), (33, 31.0), (32, 32.0), (32, 1e6), (31, 1e6), (99, 3.0), (100, 3.0), (101, 3.0), (200, 7.0), (40, 31.999)):
            s = states(chance, numbers, n, degree, "plain")
            if min(int(degree) + 1, n) > 32:
                yield amid(chance, kind, s)
            else:
                yield Kernel(kind, [tiny(chance, kind, 0), s]).bytes, None
        for degree in (0.0, 0.99, -0.0, -7.0, NAN):
            s = states(chance, numbers, 5, degree, "plain")
            if data_type == 13:
                yield amid(chance, kind, s)
            else:
                yield Kernel(kind, [tiny(chance, kind, 0), s]).bytes, None


def flips(chance, kind, count):
    """Chance damage to summaries, trailers and control numbers; the tag is worked out from the bytes."""
    for _ in range(count):
        k = sample(chance, kind, chance.between(1, 5))
        out = bytearray(k.bytes)
        for _ in range(chance.pick([1, 1, 1, 2, 4])):
            places = [chance.below(96), chance.pick(k.records) + chance.below(24), chance.pick(k.summaries) + chance.below(40)]
            places += [chance.pick(k.trailers) - 1 - chance.below(32)] * 2
            place = chance.pick(places)
            out[place] = chance.pick([out[place] ^ (1 << chance.below(8)), 0, 0xFF, 0x7F, chance.below(256)])
        if chance.one_in(12):
            out = out[: chance.below(len(out))]
        yield out, "any"


ON_PURPOSE = [lengths, identities, sizes, records, rounds, counts, limits, last_place, series_trailers, state_trailers]
