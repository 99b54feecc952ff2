"""Tables that were not made from the kernel which is asked: the table of one kernel on the bytes of another."""

import math

from kernels import INF, NAN, Kernel, Layout, double
from opening import WORD, cut
from valid import BODIES, UNSUPPORTED, alone, ask_record, epoch, mixed, orientations, pck_mixed, questions

HANDLED = [2, 3, 9, 13]


def handled(kernel, i):
    return kernel.segments[i].numbers[-1] in (HANDLED if kernel.kind == "spk" else [2])


def trailer_of(segment):
    """How many doubles a segment ends with that are no data: its trailer, and for types 9 and 13 epochs and directory."""
    if segment.numbers[-1] in (2, 3):
        return 4
    n = int(segment.doubles[-1])
    return n + n // 100 + 2


def other_values(chance, kernel):
    """The kernel's bytes with other coefficients and states, and with summaries and file record gone."""
    out = bytearray(kernel.bytes)
    for i, segment in enumerate(kernel.segments):
        for k in range(len(segment.doubles) - trailer_of(segment) if handled(kernel, i) else 0):
            if chance.one_in(3):
                hot = chance.one_in(200)
                value = chance.pick([INF, NAN, 1e300] if hot else [chance.spread(1e6), chance.spread(1.0), 0.0, -0.0, 1.0])
                place = kernel.trailers[i] - 8 * (len(segment.doubles) - k)
                out[place : place + 8] = double(value)
    if chance.one_in(2):
        head = min(kernel.trailers[i] - 8 * len(s.doubles) for i, s in enumerate(kernel.segments))
        out[:head] = bytes(chance.below(256) for _ in range(head))
    return out


def other_number(chance, kept, whole):
    """Another double for a trailer; the fraction of one that is made whole doesn't count."""
    if whole:
        return chance.pick([kept + 1.0, kept + 3.0, 0.0, NAN, -1.0, 2.0**64, math.floor(min(kept, 1e15)) + 0.75, kept])
    return chance.pick([math.nextafter(kept, INF), math.nextafter(kept, -INF), NAN, INF, -kept, kept])


def other_trailers(chance, kernel, out):
    """Some trailers changed; the numbers of the segments that the table then no longer fits."""
    unfit = set()
    for i, segment in enumerate(kernel.segments):
        if not handled(kernel, i) or chance.one_in(2):
            continue
        size = 4 if segment.numbers[-1] in (2, 3) else 2
        k = chance.below(size)
        whole = size == 2 or k >= 2
        kept = segment.doubles[k - size]
        other = other_number(chance, kept, whole)
        place = kernel.trailers[i] - 8 * (size - k)
        out[place : place + 8] = double(other)
        if (cut(kept, WORD) != cut(other, WORD)) if whole else (double(kept) != double(other)):
            unfit.add(i)
    return unfit


def shortened(chance, kernel, out):
    """The bytes cut off before the end of some segment; the numbers of those that no longer lie within."""
    i = chance.below(len(kernel.segments))
    length = kernel.trailers[i] - chance.between(1, 40)
    return out[:length], {k for k, place in enumerate(kernel.trailers) if place > length // 8 * 8 and handled(kernel, k)}


def direct(chance, segments, count):
    """Questions that no chain answers, where every center is 0."""
    out = b""
    for _ in range(count):
        s = chance.pick(segments)
        pair = (s.numbers[0], 0) if chance.below(4) else (0, s.numbers[0])
        out += ask_record(*pair, epoch(chance, s))
    return out


def about_zero(chance, room):
    """An SPK kernel whose segments all go to body 0."""
    kernel = mixed(chance, chance.between(1, 8), HANDLED * 3 + [chance.pick(UNSUPPORTED)], BODIES[1:5], room, Layout(cut=True))
    for s in kernel.segments:
        s.numbers[0], s.numbers[1] = (s.numbers[0] or 5), 0
    return Kernel("spk", kernel.segments, Layout(cut=True))


def kernels(chance, room, count):
    """Program, kernel of the table, questions, and whether trailers may differ."""
    some = lambda: mixed(chance, chance.between(1, 8), HANDLED * 3 + [chance.pick(UNSUPPORTED)], BODIES[:5], room, Layout(cut=True))  # noqa: E731
    k = some()
    yield "ask", k, questions(chance, k.segments, count, BODIES), False
    k = about_zero(chance, room)
    yield "ask", k, direct(chance, k.segments, count), True
    k = some()
    yield "alone", k, alone(chance, k.segments, count), True
    k = pck_mixed(chance, chance.between(1, 6), [2], room, Layout(cut=True))
    yield "orient", k, orientations(chance, k.segments, count), True


def forgeries(chance, room, count):
    """Program, origin, kernel, the kernel for the Rust (never shorter than the origin), questions, unfit segments."""
    for program, origin, asked, trailers in kernels(chance, room, count):
        out, unfit = other_values(chance, origin), set()
        yield program, origin.bytes, out, out, asked, unfit
        if trailers:
            changed = bytearray(out)
            unfit = other_trailers(chance, origin, changed)
            yield program, origin.bytes, changed, out, asked, unfit
            short, unfit = shortened(chance, origin, out)
            yield program, origin.bytes, short, out, asked, unfit
