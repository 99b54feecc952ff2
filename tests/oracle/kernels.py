"""Kernels and questions as bytes, and chance that is the same everywhere."""

import math
import struct

INF = math.inf
NAN = math.nan
TINY = 5e-324
RECORD = 1024


class Chance:
    """A stream of numbers from a seed (splitmix64), the same in every version of Python."""

    def __init__(self, seed):
        self.state = seed & (2**64 - 1)

    def bits(self):
        self.state = (self.state + 0x9E3779B97F4A7C15) & (2**64 - 1)
        z = self.state
        z = ((z ^ (z >> 30)) * 0xBF58476D1CE4E5B9) & (2**64 - 1)
        z = ((z ^ (z >> 27)) * 0x94D049BB133111EB) & (2**64 - 1)
        return z ^ (z >> 31)

    def below(self, n):
        return self.bits() % n

    def between(self, low, high):
        return low + self.below(high - low + 1)

    def one_in(self, n):
        return self.below(n) == 0

    def pick(self, things):
        return things[self.below(len(things))]

    def unit(self):
        return (self.bits() >> 11) / 2.0**53

    def spread(self, size):
        """A number between -size and size."""
        return (2.0 * self.unit() - 1.0) * size

    def any_double(self):
        """A finite double, every exponent alike."""
        while True:
            d = from_bits(self.bits())
            if math.isfinite(d):
                return d


def from_bits(b):
    return struct.unpack("<d", struct.pack("<Q", b))[0]


def double(d):
    return struct.pack("<d", d)


def after(d):
    return math.nextafter(d, INF)


def before(d):
    return math.nextafter(d, -INF)


class Segment:
    """A segment to be written: limits, the summary's whole numbers but the addresses, doubles.

    `edges` are epochs worth asking about. Start and end may be overruled, to damage them."""

    def __init__(self, numbers, first, last, doubles, edges=(), name=b"", start=None, end=None):
        self.numbers = list(numbers)
        self.first, self.last = first, last
        self.doubles = list(doubles)
        self.edges = list(edges)
        self.name = name
        self.start, self.end = start, end


class Layout:
    """Where a kernel's parts stand; what is not said is as usual."""

    def __init__(self, held=25, comments=0, hollow=False, backward=False, tail=b"", gap=0, cut=False):
        self.held = held  # summaries to a summary record
        self.comments = comments  # comment records before the first summary record
        self.hollow = hollow  # a summary record of no summaries after each
        self.backward = backward  # the walk goes from the last place to the first
        self.tail = tail  # bytes after the data
        self.gap = gap  # unused doubles before each segment
        self.cut = cut  # the last record ends with the data


class Kernel:
    """A kernel as written, with the places that damage needs."""

    def __init__(self, kind, segments, layout=None):
        self.kind, self.segments = kind, segments
        self.layout = layout or Layout()
        self.bytes = bytearray()
        self.records = []  # places of the summary records, in the walk's order
        self.summaries = []  # place of each segment's summary
        self.trailers = []  # place after each segment's last double
        self.write()

    def groups(self):
        held = self.layout.held
        out = []
        for i in range(0, len(self.segments), held):
            out.append(list(range(i, min(i + held, len(self.segments)))))
            if self.layout.hollow:
                out.append([])
        return out

    def write(self):
        layout, groups = self.layout, self.groups()
        first = 1 + layout.comments
        head = first + 2 * len(groups)
        self.bytes = bytearray(RECORD * head)
        places = [RECORD * (first + 2 * k) for k in range(len(groups))]
        self.records = places[::-1] if layout.backward else places
        for place in range(RECORD, RECORD * first):
            self.bytes[place] = 65 + place % 26
        starts = self.write_data()
        numbers = [place // RECORD + 1 for place in self.records] + [0]
        for k, group in enumerate(groups):
            place = self.records[k]
            previous = numbers[k - 1] if k else 0
            self.bytes[place : place + 24] = struct.pack("<3d", numbers[k + 1], previous, len(group))
            for j, i in enumerate(group):
                self.write_summary(place + 24 + 40 * j, self.segments[i], *starts[i])
                name = self.segments[i].name[:40]
                at = place + RECORD + 40 * j
                self.bytes[at : at + len(name)] = name
        self.write_file_record(numbers, len(self.bytes) // 8 + 1)
        self.bytes += layout.tail
        if not layout.cut:
            self.bytes += bytes(-len(self.bytes) % RECORD)

    def write_data(self):
        starts = []
        for s in self.segments:
            self.bytes += bytes([0x5A] * (8 * self.layout.gap))
            start = len(self.bytes) // 8 + 1
            self.bytes += b"".join(map(double, s.doubles))
            self.trailers.append(len(self.bytes))
            end = start + len(s.doubles) - 1
            starts.append((start if s.start is None else s.start, end if s.end is None else s.end))
        return starts

    def write_summary(self, place, s, start, end):
        self.summaries.append(place)
        packed = struct.pack("<2d", s.first, s.last) + struct.pack(f"<{len(s.numbers) + 2}i", *s.numbers, start, end)
        self.bytes[place : place + len(packed)] = packed

    def write_file_record(self, numbers, free):
        spk = self.kind == "spk"
        self.bytes[0:8] = b"DAF/SPK " if spk else b"DAF/PCK "
        self.bytes[8:16] = struct.pack("<2I", 2, 6 if spk else 5)
        self.bytes[16:76] = b"made for the comparison".ljust(60)
        self.bytes[76:88] = struct.pack("<3I", numbers[0], numbers[-2] if len(numbers) > 1 else 0, free)
        self.bytes[88:96] = b"LTL-IEEE"
        self.bytes[699:727] = b"FTPSTR:\r:\n:\r\n:\r\x00:\x81:\x10\xce:ENDFTP"

    def put(self, place, packed):
        """This kernel's bytes with some of them replaced."""
        out = bytearray(self.bytes)
        out[place : place + len(packed)] = packed
        return out


def ask_record(target, center, et):
    """A question to `ask`; the epoch as a double or as its eight bytes."""
    epoch = et if isinstance(et, bytes) else double(et)
    return b"\xa5\x5b" + struct.pack("<2i", target, center) + epoch


def orient_record(body_frame, et):
    epoch = et if isinstance(et, bytes) else double(et)
    return b"\xa5\x5c" + struct.pack("<i", body_frame) + epoch


def alone_record(segment, et):
    """A question about one segment by its number; no program of ours takes it, the second program does."""
    epoch = et if isinstance(et, bytes) else double(et)
    return b"\xa5\x5d" + struct.pack("<I", segment) + epoch
