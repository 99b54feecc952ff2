"""The opening of RULES, "Opening", read off the bytes: what a kernel's tag is worked out with."""

import math
import struct

WORD = 2**64 - 1
HALF = 2**32 - 1
PLACES = 4096  # of the table that a program lends


def cut(d, largest):
    """A double made whole: the fraction dropped, NaN and negatives 0, too large the largest."""
    if math.isnan(d) or d <= 0.0:
        return 0
    return largest if d >= largest else int(d)


class Refused(Exception):
    """A refusal's number and detail."""

    def __init__(self, number, detail=0):
        super().__init__(number, detail)
        self.number, self.detail = number, detail


def double_at(kernel, place):
    return struct.unpack_from("<d", kernel, place)[0]


def walk(kernel):
    """The summary records' places in the walk's order, or refusal 5 or 6."""
    record = struct.unpack_from("<I", kernel, 76)[0]
    places, seen = [], set()
    while record != 0:
        if record in seen:
            raise Refused(6)
        place = 1024 * (record - 1)
        if place + 2048 > len(kernel):
            raise Refused(5)
        seen.add(record)
        places.append(place)
        record = cut(double_at(kernel, place), HALF)
    return places


def file_record(kernel, kind):
    if not 1024 <= len(kernel) <= 1073741824:
        raise Refused(1)
    if kernel[0:4] != b"DAF/":
        raise Refused(2)
    if kernel[88:96] != b"LTL-IEEE":
        raise Refused(3)
    if struct.unpack_from("<2I", kernel, 8) != (2, 6 if kind == "spk" else 5):
        raise Refused(4)


def malformed(kernel, kind, summary):
    """Refusal 9's tests for one summary."""
    first, last = struct.unpack_from("<2d", kernel, summary)
    if math.isnan(first) or math.isnan(last):
        return True
    numbers = struct.unpack_from("<6i" if kind == "spk" else "<5i", kernel, summary + 16)
    data_type, start, end = numbers[-3:]
    if data_type not in ((2, 3, 9, 13) if kind == "spk" else (2,)):
        return False
    if start < 1 or end < start or end > len(kernel) // 8:
        return True
    length = end - start + 1
    return (bad_series if data_type in (2, 3) else bad_states)(kernel, data_type, end, length)


def bad_series(kernel, data_type, end, length):
    if length < 4:
        return True
    init, intlen, rsize, n = struct.unpack_from("<4d", kernel, 8 * (end - 4))
    rsize, n = cut(rsize, WORD), cut(n, WORD)
    step = 3 if data_type == 2 else 6
    if rsize < 2 + step or (rsize - 2) % step != 0:
        return True
    if not intlen > 0.0 or not math.isfinite(init) or not math.isfinite(intlen):
        return True
    return n == 0 or n * rsize + 4 > length


def bad_states(kernel, data_type, end, length):
    if length < 2:
        return True
    d, n = (cut(x, WORD) for x in struct.unpack_from("<2d", kernel, 8 * (end - 2)))
    if n == 0 or length != 7 * n + n // 100 + 2:
        return True
    return (data_type == 13 and d == 0) or min(d + 1, n) > 32


def summaries(kernel, places):
    """The places of all summaries, or refusal 7 or 8."""
    counts = [cut(double_at(kernel, place + 16), WORD) for place in places]
    if any(n > 25 for n in counts):
        raise Refused(7)
    if sum(counts) > PLACES:
        raise Refused(8)
    return [place + 24 + 40 * i for place, n in zip(places, counts) for i in range(n)]


def opening(kernel, kind):
    """`accepted`, or `refused N D`."""
    kernel = bytes(kernel)
    try:
        file_record(kernel, kind)
        for number, summary in enumerate(summaries(kernel, walk(kernel))):
            if malformed(kernel, kind, summary):
                raise Refused(9, number)
    except Refused as r:
        return f"refused {r.number} {r.detail}"
    return "accepted"


def unwrapped(kernel):
    """An accepted SPK kernel with each degree of 2^64 or more made 2^53, if there is one: a window of all
    states either way, but the Rust's d + 1 then doesn't wrap to 0."""
    kernel, found = bytearray(kernel), False
    for summary in summaries(kernel, walk(kernel)):
        data_type, _, end = struct.unpack_from("<3i", kernel, summary + 28)
        place = 8 * (end - 2)
        if data_type in (9, 13) and cut(double_at(kernel, place), WORD) == WORD:
            struct.pack_into("<d", kernel, place, 2.0**53)
            found = True
    return kernel if found else None
