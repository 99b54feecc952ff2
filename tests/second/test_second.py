#!/usr/bin/env python3
"""Tests of second.py: the worked numbers, every refusal with its
smallest input, and the edges of each rule.

    python3 test_second.py
"""

import contextlib
import io
import math
import mmap
import os
import random
import struct
import subprocess
import sys
import tempfile
import unittest
from fractions import Fraction

sys.path.insert(0, os.path.dirname(os.path.abspath(__file__)))

import second
from second import (Answer, Chebyshev, Discrete, Orientation, Refusal,
                    Segment, Statement, Table)

NAN = math.nan
INF = math.inf
PROGRAM = os.path.join(os.path.dirname(os.path.abspath(__file__)),
                       "second.py")


# Kernels in bytes

def file_record(ni=6, nd=2, fward=2, word=b"DAF/SPK ", form=b"LTL-IEEE"):
    record = bytearray(1024)
    record[0:8] = word
    struct.pack_into("<II", record, 8, nd, ni)
    struct.pack_into("<I", record, 76, fward)
    record[88:96] = form
    return record


def pck_file_record(**more):
    return file_record(ni=5, word=b"DAF/PCK ", **more)


def summary_record(next_record=0.0, count=0.0, summaries=()):
    record = bytearray(1024)
    struct.pack_into("<ddd", record, 0, next_record, 0.0, count)
    for i, summary in enumerate(summaries):
        record[24 + 40 * i:24 + 40 * i + len(summary)] = summary
    return record


def spk_summary(target=399, center=3, first=0.0, last=10.0, frame=1,
                type_number=2, start=0, end=0):
    return struct.pack("<ddiiiiii", first, last, target, center, frame,
                       type_number, start, end)


def pck_summary(target=3000, first=0.0, last=10.0, frame=17, type_number=2,
                start=0, end=0):
    return struct.pack("<ddiiiii", first, last, target, frame, type_number,
                       start, end)


def doubles(numbers):
    return struct.pack("<%dd" % len(numbers), *numbers)


class Piece:
    """A segment to be put into a kernel: its data and its summary."""

    def __init__(self, data=(), target=399, center=3, first=0.0, last=10.0,
                 frame=1, type_number=2, name=b"", start=None, end=None):
        self.data = list(data)
        self.target, self.center, self.frame = target, center, frame
        self.first, self.last = first, last
        self.type_number = type_number
        self.name = name
        self.start, self.end = start, end


def build(pieces, sort=second.SPK):
    """A kernel: file record, pairs of summary and name record, data."""
    groups = [pieces[i:i + 25] for i in range(0, len(pieces), 25)] or [[]]
    data = []
    base = 128 * (1 + 2 * len(groups))
    kernel = file_record() if sort == second.SPK else pck_file_record()
    for g, group in enumerate(groups):
        summaries, names = [], bytearray(1024)
        for i, piece in enumerate(group):
            start = base + len(data) + 1
            data += piece.data
            end = base + len(data)
            start = start if piece.start is None else piece.start
            end = end if piece.end is None else piece.end
            if sort == second.SPK:
                summaries.append(spk_summary(
                    piece.target, piece.center, piece.first, piece.last,
                    piece.frame, piece.type_number, start, end))
            else:
                summaries.append(pck_summary(
                    piece.target, piece.first, piece.last, piece.frame,
                    piece.type_number, start, end))
            names[40 * i:40 * i + len(piece.name)] = piece.name
        following = 0.0 if g + 1 == len(groups) else float(4 + 2 * g)
        kernel += summary_record(following, float(len(group)), summaries)
        kernel += names
    kernel += doubles(data)
    kernel += bytes(-len(kernel) % 1024)
    return bytes(kernel)


def constant(x, y=0.0, z=0.0, mid=5.0, radius=5.0):
    """A type 2 segment of one record with one coefficient a component."""
    return [mid, radius, x, y, z, 0.0, 10.0, 5.0, 1.0]


def constant_3(six, mid=5.0, radius=5.0):
    return [mid, radius] + list(six) + [0.0, 10.0, 8.0, 1.0]


def discrete(rows, epochs, degree):
    """Type 9 or 13 data, its directory counted as in RULES, "Opening"."""
    data = [x for row in rows for x in row] + list(epochs)
    data += [epochs[100 * (k + 1) - 1] for k in range(len(epochs) // 100)]
    return data + [degree, float(len(epochs))]


def line(n):
    """N states on a straight line, a second apart."""
    rows = [[float(i), 2.0 * i, 3.0 * i, 1.0, 2.0, 3.0] for i in range(n)]
    return rows, [float(i) for i in range(n)]


def example():
    """The example kernel of the listing program."""
    kernel = bytearray(4096)
    kernel[0:1024] = file_record()
    kernel[1024:2048] = summary_record(0.0, 1.0, [spk_summary(
        399, 3, 0.0, 10.0, 1, 2, 385, 393)])
    kernel[3072:3144] = doubles(constant(1.0, 2.0, 3.0))
    return bytes(kernel)


def usage(suppliers, segment=0):
    """A usage file, one record for each supplier given."""
    return b"".join(b"\xa5\x5a" + struct.pack("<HI", segment, supplier)
                    for supplier in suppliers)


def patched(kernel, place, new):
    return kernel[:place] + new + kernel[place + len(new):]


def bits6(six):
    return [second.hexadecimal(x) for x in six]


class Base(unittest.TestCase):
    def refuses(self, got, number, detail=0):
        self.assertEqual(got, Refusal(number, detail))

    def opens(self, kernel, count=None):
        table = second.open_spk(kernel)
        self.assertIsInstance(table, Table)
        if count is not None:
            self.assertEqual(table.count, count)
        return table

    def same_bits(self, got, expected):
        self.assertEqual(bits6(got), bits6(expected))

    def ask(self, kernel, target, center, et, memory=None):
        table = self.opens(kernel)
        return second.state(kernel, table, memory, target, center, et)[0]


class EveryRefusal(Base):
    """Each number with its smallest input; 16 has none."""

    def header(self, following=0, count=0.0, first=0.0):
        """Record 1 as its own summary record."""
        record = file_record(fward=1)
        record[4:8] = struct.pack("<I", following)
        struct.pack_into("<dd", record, 16, count, first)
        return bytes(record)

    def segment(self, data):
        """A kernel of one segment's doubles alone, and its table."""
        kind = Chebyshev(2, 0.0, 10.0, 5, 1)
        return doubles(data), Table(1, [Segment(
            0.0, 10.0, 1, 0, 1, 2, 1, len(data), kind)])

    def test_opening(self):
        # NEXT's high half: 2 and a fraction, then one by one.
        chain = self.header(0x40000000, 25.0)
        for record in range(2, 166):
            following = 0.0 if record == 165 else record + 1.0
            chain += summary_record(following, 22.0 if record == 165 else 25.0)
        chain += bytes(1024)
        for kernel, refusal in (
                (b"", Refusal(1, 0)),
                (bytes(1024), Refusal(2, 0)),
                (b"DAF/" + bytes(1020), Refusal(3, 0)),
                (bytes(file_record(nd=0, ni=0)), Refusal(4, 0)),
                (self.header(), Refusal(5, 0)),
                (self.header(0x3FF00000) + bytes(1024), Refusal(6, 0)),
                (self.header(count=26.0) + bytes(1024), Refusal(7, 0)),
                (chain, Refusal(8, 0)),
                (self.header(count=1.0, first=NAN) + bytes(1024),
                 Refusal(9, 0))):
            self.assertEqual(second.open_spk(kernel), refusal)
        self.assertEqual(len(chain), 169984)
        self.opens(self.header(count=25.0) + bytes(1024), 25)

    def test_questions(self):
        def ask(kernel, table, et):
            return second.state(kernel, table, None, 1, 0, et)[0]

        self.refuses(ask(b"", Table(), NAN), 10)
        self.refuses(ask(b"", Table(), 0.0), 11, 1)
        self.refuses(second.alone(b"", Table(1), 0, 0.0), 12, 0)
        self.refuses(ask(*self.segment(constant(1.0, radius=0.0)), 0.0),
                     13, 0)
        self.refuses(ask(b"", Table(4097), 0.0), 14)
        self.refuses(ask(*self.segment(constant(INF)), 0.0), 15)
        self.refuses(second.alone(b"", Table(), 0, 0.0), 17)
        self.assertEqual(second.listing_lines(bytes(65537)),
                         ["refused 18 0"])
        self.refuses(second.statement(b"\0"), 19)
        self.refuses(second.statement(usage(range(513))), 20)
        self.refuses(second.state_in(b"", Table(), None, 0, 0, 0.0, 13)[0],
                     21)
        self.assertIsInstance(ask(*self.segment(constant(1.0)), 0.0), Answer)


class Cutting(Base):
    def test_whole_numbers(self):
        cases = [(NAN, 0), (-1.0, 0), (-0.0, 0), (0.0, 0), (0.9, 0),
                 (-0.5, 0), (-INF, 0), (1.0, 1), (25.999, 25),
                 (5e-324, 0), (2.0 ** 53, 2 ** 53),
                 (9007199254740991.5, 9007199254740992), (1e19, 10 ** 19),
                 (2.0 ** 64, 2 ** 64 - 1), (1e300, 2 ** 64 - 1),
                 (INF, 2 ** 64 - 1),
                 (18446744073709549568.0, 18446744073709549568)]
        for x, whole in cases:
            self.assertEqual(second.cut(x), whole)

    def test_next_has_32_bits(self):
        self.assertEqual(second.cut(4294967295.5, 32), 4294967295)
        self.assertEqual(second.cut(4294967296.0, 32), 4294967295)
        self.assertEqual(second.cut(1e300, 32), 4294967295)
        self.assertEqual(second.cut(INF, 32), 4294967295)
        self.assertEqual(second.cut(NAN, 32), 0)

    def test_division(self):
        self.assertEqual(second.divide(1.0, 0.0), INF)
        self.assertEqual(second.divide(1.0, -0.0), -INF)
        self.assertEqual(second.divide(-1.0, 0.0), -INF)
        self.assertEqual(second.divide(INF, -0.0), -INF)
        self.assertTrue(math.isnan(second.divide(0.0, 0.0)))
        self.assertTrue(math.isnan(second.divide(NAN, 0.0)))
        self.assertTrue(math.isnan(second.divide(INF, INF)))
        self.assertEqual(second.divide(1.0, 5e-324), INF)
        self.assertEqual(second.hexadecimal(second.divide(-0.0, 3.0)),
                         "8000000000000000")


class FileRecord(Base):
    def test_1_length(self):
        self.refuses(second.open_spk(b""), 1)
        self.refuses(second.open_pck(b""), 1)
        self.refuses(second.open_spk(bytes(file_record(fward=0))[:1023]), 1)
        self.opens(bytes(file_record(fward=0)), 0)

    def test_1_largest(self):
        for length, accepted in ((1073741824, True), (1073741825, False)):
            kernel = mmap.mmap(-1, length)
            kernel[0:1024] = bytes(file_record(fward=0))
            got = second.open_spk(kernel)
            kernel.close()
            if accepted:
                self.assertEqual(got, Table(0, []))
            else:
                self.refuses(got, 1)

    def test_2_3_4(self):
        self.refuses(second.open_spk(bytes(1024)), 2)
        self.refuses(second.open_spk(bytes(file_record(word=b"NAIF/DAF"))), 2)
        self.refuses(second.open_spk(bytes(file_record(form=b"BIG-IEEE"))), 3)
        self.refuses(second.open_spk(b"DAF/" + bytes(1020)), 3)
        self.refuses(second.open_spk(bytes(file_record(nd=3))), 4)
        self.refuses(second.open_spk(bytes(file_record(nd=0x10002))), 4)
        self.refuses(second.open_spk(bytes(pck_file_record())), 4)
        self.refuses(second.open_pck(bytes(file_record())), 4)

    def test_words_after_daf_are_free(self):
        self.opens(bytes(file_record(fward=0, word=b"DAF/XYZ?")), 0)
        got = second.open_pck(bytes(file_record(ni=5, fward=0)))
        self.assertEqual(got, Table(0, []))

    def test_order(self):
        self.refuses(second.open_spk(
            bytes(file_record(word=b"xxxx    ", form=b"x" * 8, nd=9))), 2)
        self.refuses(second.open_spk(
            bytes(file_record(form=b"x" * 8, nd=9))), 3)
        self.refuses(second.open_spk(bytes(file_record(nd=9, fward=9))), 4)


class Walk(Base):
    def test_5_record_ends_past(self):
        header = bytes(file_record(fward=1))
        self.refuses(second.open_spk(header), 5)
        self.refuses(second.open_spk(header + bytes(1023)), 5)
        self.opens(header + bytes(1024), 0)
        self.refuses(second.open_spk(
            bytes(file_record(fward=4294967295)) + bytes(4096)), 5)
        self.refuses(second.open_spk(
            bytes(file_record(fward=2147483648)) + bytes(4096)), 5)

    def test_5_name_record_ends_past(self):
        kernel = bytes(file_record()) + bytes(summary_record()) + bytes(1024)
        self.opens(kernel, 0)
        self.refuses(second.open_spk(kernel[:-1]), 5)
        self.refuses(second.open_spk(kernel[:2048]), 5)

    def test_6_self_ring(self):
        kernel = (bytes(file_record()) + bytes(summary_record(2.0))
                  + bytes(1024))
        self.refuses(second.open_spk(kernel), 6)

    def test_6_smallest(self):
        # Record 1 as its own summary record: NEXT is 1 and a fraction.
        header = file_record(fward=1)
        header[4:8] = struct.pack("<I", 0x3FF00000)
        self.refuses(second.open_spk(bytes(header) + bytes(1024)), 6)

    def test_6_ring_of_two(self):
        kernel = bytes(file_record() + summary_record(4.0) + bytes(1024)
                       + summary_record(2.0) + bytes(1024))
        self.refuses(second.open_spk(kernel), 6)

    def test_6_ring_that_misses_the_start(self):
        kernel = bytes(file_record() + summary_record(4.0) + bytes(1024)
                       + summary_record(4.9) + bytes(1024))
        self.refuses(second.open_spk(kernel), 6)

    def test_next(self):
        for following in (NAN, -1.0, -INF, 0.9, -0.0, 5e-324):
            kernel = bytes(file_record() + summary_record(following)
                           + bytes(1024))
            self.opens(kernel, 0)
        for following in (1e300, INF, 4294967296.0, 4294967295.0, 3.0):
            kernel = bytes(file_record() + summary_record(following)
                           + bytes(1024))
            self.refuses(second.open_spk(kernel), 5)

    def test_next_to_the_name_record(self):
        # Record 3 is a name record and, by NEXT, a summary record as well.
        kernel = bytes(file_record() + summary_record(3.0) + bytes(2048))
        self.opens(kernel, 0)

    def test_records_may_be_walked_backwards(self):
        unsupported = spk_summary(type_number=1)
        kernel = bytes(
            file_record(fward=4)
            + summary_record(0.0, 1.0, [unsupported]) + bytes(1024)
            + summary_record(2.0, 1.0, [spk_summary(1, 0, type_number=1)])
            + bytes(1024))
        table = self.opens(kernel, 2)
        self.assertEqual([s.target for s in table.segments], [1, 399])
        self.assertEqual([s.name_place for s in table.segments],
                         [4096, 2048])

    def test_walk_before_counts(self):
        kernel = bytes(file_record() + summary_record(2.0, 26.0)
                       + bytes(1024))
        self.refuses(second.open_spk(kernel), 6)
        kernel = bytes(file_record() + summary_record(9.0, 26.0)
                       + bytes(1024))
        self.refuses(second.open_spk(kernel), 5)

    def test_fward_0(self):
        self.assertEqual(second.open_spk(bytes(file_record(fward=0))),
                         Table(0, []))


class Counts(Base):
    def kernel(self, count):
        return bytes(file_record() + summary_record(0.0, count)
                     + bytes(1024))

    def test_25_and_26(self):
        self.opens(self.kernel(25.0), 25)
        self.opens(self.kernel(25.99), 25)
        self.refuses(second.open_spk(self.kernel(26.0)), 7)
        self.refuses(second.open_spk(self.kernel(1e300)), 7)
        self.refuses(second.open_spk(self.kernel(INF)), 7)
        for count in (NAN, -3.0, -INF, 0.9):
            self.opens(self.kernel(count), 0)

    def many(self, counts):
        kernel = file_record()
        for i, count in enumerate(counts):
            last = i + 1 == len(counts)
            kernel += summary_record(0.0 if last else 4.0 + 2 * i, count)
            kernel += bytes(1024)
        return bytes(kernel)

    def test_4096_and_4097(self):
        self.opens(self.many([25.0] * 163 + [21.0]), 4096)
        self.refuses(second.open_spk(self.many([25.0] * 163 + [22.0])), 8)

    def test_7_before_8(self):
        self.refuses(second.open_spk(self.many([25.0] * 164 + [26.0])), 7)

    def test_8_before_9(self):
        kernel = self.many([25.0] * 163 + [22.0])
        kernel = patched(kernel, 1024 + 24, doubles([NAN]))
        self.refuses(second.open_spk(kernel), 8)


class Malformed(Base):
    def good(self, data, type_number=2):
        table = self.opens(build([Piece(data, type_number=type_number)]), 1)
        return table.segments[0].kind

    def bad(self, data, type_number=2):
        kernel = build([Piece(data, type_number=type_number)])
        self.refuses(second.open_spk(kernel), 9, 0)

    def test_nan_limits_of_any_type(self):
        for type_number in (0, 1, 2, 3, 9, 13, -1, 20):
            for limits in ((NAN, 0.0), (0.0, NAN)):
                kernel = bytes(file_record() + summary_record(
                    0.0, 1.0, [spk_summary(first=limits[0], last=limits[1],
                                           type_number=type_number)])
                    + bytes(1024))
                self.refuses(second.open_spk(kernel), 9, 0)

    def test_infinite_and_reversed_limits_open(self):
        for limits in ((-INF, INF), (INF, -INF), (10.0, 0.0)):
            self.opens(build([Piece(constant(1.0), first=limits[0],
                                    last=limits[1])]), 1)

    def test_unsupported_types_have_no_other_test(self):
        for type_number in (0, 1, 5, 8, 12, 14, 21, -2, 2 ** 31 - 1):
            table = self.opens(build([Piece(
                type_number=type_number, start=-5, end=-2 ** 31)]), 1)
            self.assertIsNone(table.segments[0].kind)

    def test_the_first_malformed_in_file_order(self):
        pieces = [Piece(type_number=1) for _ in range(30)]
        pieces[27].first = NAN
        pieces[29].first = NAN
        self.refuses(second.open_spk(build(pieces)), 9, 27)

    def test_addresses(self):
        for type_number in (2, 3, 9, 13):
            for start, end in ((0, 20), (-1, 20), (-2 ** 31, 2 ** 31 - 1),
                               (20, 19), (1, -1), (1, 0), (1, 513),
                               (1, 2 ** 31 - 1)):
                kernel = build([Piece([0.0] * 128, type_number=type_number,
                                      start=start, end=end)])
                self.assertEqual(len(kernel), 4096)
                self.refuses(second.open_spk(kernel), 9, 0)

    def test_whole_doubles(self):
        kernel = build([Piece(constant(1.0))])
        kernel = kernel[:3072 + 72]
        self.opens(kernel, 1)
        self.opens(kernel + bytes(7), 1)
        self.refuses(second.open_spk(kernel[:-1]), 9, 0)

    def test_2_and_3_fewer_than_4(self):
        for type_number in (2, 3):
            for start, end in ((390, 390), (389, 390), (388, 390)):
                kernel = build([Piece([1.0] * 9, type_number=type_number,
                                      start=start, end=end)])
                self.refuses(second.open_spk(kernel), 9, 0)

    def test_2_smallest(self):
        self.assertEqual(self.good(constant(1.0)),
                         Chebyshev(2, 0.0, 10.0, 5, 1))
        self.bad(constant(1.0), 3)
        self.bad(constant(1.0)[1:])

    def test_2_rsize(self):
        for rsize, good in ((5.0, True), (5.9, True), (8.0, True),
                            (11.0, True), (2.0, False), (0.0, False),
                            (3.0, False), (4.0, False), (6.0, False),
                            (7.0, False), (-5.0, False), (NAN, False),
                            (INF, False), (1e300, False)):
            data = [1.0] * 11 + [0.0, 10.0, rsize, 1.0]
            self.assertEqual(
                isinstance(second.open_spk(build([Piece(data)])), Table),
                good, rsize)

    def test_3_rsize(self):
        for rsize, good in ((8.0, True), (14.0, True), (5.0, False),
                            (2.0, False), (11.0, False), (20.0, False)):
            data = [1.0] * 14 + [0.0, 10.0, rsize, 1.0]
            piece = Piece(data, type_number=3)
            self.assertEqual(
                isinstance(second.open_spk(build([piece])), Table),
                good, rsize)

    def test_intlen_and_init(self):
        for type_number in (2, 3):
            for init, intlen, good in (
                    (0.0, 10.0, True), (-0.0, 5e-324, True),
                    (-1e308, 1e308, True), (0.0, 0.0, False),
                    (0.0, -0.0, False), (0.0, -1.0, False),
                    (0.0, NAN, False), (0.0, INF, False),
                    (0.0, -INF, False), (NAN, 10.0, False),
                    (INF, 10.0, False), (-INF, 10.0, False)):
                data = [1.0] * 8 + [init, intlen, 8.0, 1.0]
                if good:
                    self.good(data, type_number)
                else:
                    self.bad(data, type_number)

    def test_n_and_room(self):
        for n, good in ((1.0, True), (2.0, True), (2.99, True),
                        (3.0, False), (0.0, False), (0.5, False),
                        (-1.0, False), (NAN, False), (INF, False),
                        (2.0 ** 62, False), (3689348814741910323.0, False)):
            data = [1.0] * 10 + [0.0, 10.0, 5.0, n]
            if good:
                self.good(data)
            else:
                self.bad(data)
        # Slack between the records and the trailer is no fault.
        self.good([1.0] * 12 + [0.0, 10.0, 5.0, 2.0])

    def test_9_and_13_fewer_than_2(self):
        for type_number in (9, 13):
            kernel = build([Piece([1.0], type_number=type_number)])
            self.refuses(second.open_spk(kernel), 9, 0)

    def test_9_smallest(self):
        rows, epochs = line(1)
        self.assertEqual(self.good(discrete(rows, epochs, 0.0), 9),
                         Discrete(9, 0, 1))
        self.assertEqual(self.good(discrete(rows, epochs, 1.0), 13),
                         Discrete(13, 1, 1))
        self.bad(discrete(rows, epochs, 0.0), 13)
        self.bad(discrete(rows, epochs, 0.9), 13)
        self.bad(discrete(rows, epochs, NAN), 13)
        self.bad(discrete(rows, epochs, -2.0), 13)

    def test_n_zero(self):
        for type_number in (9, 13):
            self.bad([1.0, 0.0], type_number)
            self.bad([1.0, NAN], type_number)
            self.bad([1.0, -1.0], type_number)
            self.bad([1.0, INF], type_number)

    def test_directory(self):
        for n, length in ((99, 695), (100, 703), (101, 710), (200, 1404)):
            rows, epochs = line(n)
            data = discrete(rows, epochs, 3.0)
            self.assertEqual(len(data), length)
            self.good(data, 9)
            self.good(data, 13)
            self.bad([0.0] + data, 9)
            self.bad(data[1:], 13)

    def test_directory_as_spk_counts_it(self):
        # (N - 1)/100 entries: none at 100, one at 200.
        for n in (100, 200):
            rows, epochs = line(n)
            self.bad(discrete(rows, epochs, 3.0)[1:], 9)

    def test_window_32_and_33(self):
        for type_number in (9, 13):
            rows, epochs = line(40)
            self.good(discrete(rows, epochs, 31.0), type_number)
            self.good(discrete(rows, epochs, 31.9), type_number)
            self.bad(discrete(rows, epochs, 32.0), type_number)
            self.bad(discrete(rows, epochs, INF), type_number)
            rows, epochs = line(32)
            for degree in (32.0, 1e19, 1e300, INF):
                self.good(discrete(rows, epochs, degree), type_number)
            rows, epochs = line(33)
            self.good(discrete(rows, epochs, 31.0), type_number)
            for degree in (32.0, 1e19, 1e300, INF):
                self.bad(discrete(rows, epochs, degree), type_number)

    def test_large_degree(self):
        rows, epochs = line(2)
        for degree, cut in ((1e19, 10 ** 19), (INF, 2 ** 64 - 1)):
            self.assertEqual(self.good(discrete(rows, epochs, degree), 9),
                             Discrete(9, cut, 2))
            got = self.ask(build([Piece(discrete(rows, epochs, degree),
                                        type_number=9)]), 399, 3, 0.5)
            self.assertEqual(got.six, (0.5, 1.0, 1.5, 1.0, 2.0, 3.0))

    def test_pck_handles_2_alone(self):
        table = second.open_pck(build(
            [Piece(constant(1.0), target=3000),
             Piece(target=3000, type_number=3, start=-1, end=-1),
             Piece(target=3000, type_number=9),
             Piece(target=3000, type_number=13)], second.PCK))
        self.assertEqual([s.kind for s in table.segments],
                         [Chebyshev(2, 0.0, 10.0, 5, 1), None, None, None])
        self.assertEqual([s.marked for s in table.segments], [False] * 4)
        kernel = build([Piece([0.0] * 9, target=3000)], second.PCK)
        self.refuses(second.open_pck(kernel), 9, 0)
        kernel = build([Piece(type_number=7, last=NAN)], second.PCK)
        self.refuses(second.open_pck(kernel), 9, 0)


class Marks(Base):
    def marks(self, *pieces):
        table = self.opens(build([
            Piece(type_number=1, target=t, center=c, first=a, last=b)
            for t, c, a, b in pieces]))
        return [s.marked for s in table.segments]

    def test_overlaps(self):
        self.assertEqual(self.marks((1, 0, 0.0, 1.0)), [True])
        self.assertEqual(self.marks((1, 0, 0.0, 1.0), (1, 0, 2.0, 3.0)),
                         [True, True])
        self.assertEqual(self.marks((1, 0, 0.0, 1.0), (1, 0, 1.0, 3.0)),
                         [False, False])
        self.assertEqual(self.marks((1, 0, 0.0, -0.0), (1, 0, -0.0, 3.0)),
                         [False, False])
        self.assertEqual(self.marks((1, 0, 0.0, 1.0), (2, 0, 0.0, 1.0),
                                    (1, 3, 0.0, 1.0), (0, 1, 0.0, 1.0)),
                         [True] * 4)
        self.assertEqual(self.marks((1, 0, 0.0, 9.0), (1, 0, 4.0, 5.0),
                                    (1, 0, 8.0, 12.0), (1, 0, 13.0, 14.0)),
                         [False, False, False, True])

    def test_reversed_limits(self):
        # Limits the wrong way round: the rule as written.
        self.assertEqual(self.marks((1, 0, 5.0, 1.0)), [True])
        self.assertEqual(self.marks((1, 0, 5.0, 1.0), (1, 0, 0.0, 9.0)),
                         [False, False])
        self.assertEqual(self.marks((1, 0, 5.0, 1.0), (1, 0, 2.0, 3.0)),
                         [True, True])

    def test_infinite_limits(self):
        self.assertEqual(self.marks((1, 0, -INF, INF), (1, 0, INF, INF)),
                         [False, False])


class Names(Base):
    def name(self, name, cut=None):
        kernel = build([Piece(constant(1.0), name=name)])
        table = self.opens(kernel)
        return second.name(kernel[:cut], table, 0)

    def test_trailing(self):
        self.assertEqual(self.name(b"AB \0 \0"), b"AB \0")
        self.assertEqual(self.name(b"AB"), b"AB")
        self.assertEqual(self.name(b""), b"")
        self.assertEqual(self.name(b" " * 40), b"")
        self.assertEqual(self.name(b" AB\t\n\v\f\r "), b" AB")
        self.assertEqual(self.name(b"AB\x08\x0e"), b"AB\x08\x0e")
        self.assertEqual(self.name(b"AB\x1f \0"), b"AB\x1f")
        self.assertEqual(self.name(b"A" * 40), b"A" * 40)
        self.assertEqual(self.name(b"AB\0 "), b"AB\0")
        self.assertEqual(self.name(b"\0" * 39 + b"\x7f"),
                         b"\0" * 39 + b"\x7f")

    def test_not_ascii(self):
        self.assertEqual(self.name(b"AB\x80"), b"")
        self.assertEqual(self.name(b"\0" * 39 + b"\xff"), b"")
        self.assertEqual(self.name(b"AB" + b"\0" * 38 + b"\xff"), b"AB")

    def test_kernel_ends(self):
        self.assertEqual(self.name(b"AB", 2048 + 40), b"AB")
        self.assertEqual(self.name(b"AB", 2048 + 39), b"")
        self.assertEqual(self.name(b"AB", 0), b"")

    def test_no_such_segment(self):
        kernel = build([Piece(constant(1.0), name=b"AB")])
        table = self.opens(kernel)
        self.assertEqual(second.name(kernel, table, 1), b"")
        self.assertEqual(second.name(kernel, table, 2 ** 64 - 1), b"")
        table.count = 4097
        self.assertEqual(second.name(kernel, table, 0), b"")
        table.count = 4096
        self.assertEqual(second.name(kernel, table, 0), b"AB")

    def test_forged_place(self):
        kernel = build([Piece(constant(1.0), name=b"AB")])
        table = self.opens(kernel)
        for place in (len(kernel), len(kernel) - 39, 2 ** 64 - 1):
            table.segments[0].name_place = place
            self.assertEqual(second.name(kernel, table, 0), b"")
        table.segments[0].name_place = 0
        self.assertEqual(second.name(kernel, table, 0),
                         b"DAF/SPK \x02\0\0\0\x06")

    def test_several(self):
        pieces = [Piece(type_number=1, name=b"N%d" % i) for i in range(60)]
        kernel = build(pieces)
        table = self.opens(kernel, 60)
        for i in range(60):
            self.assertEqual(second.name(kernel, table, i), b"N%d" % i)


class ChebyshevNumbers(Base):
    def test_series(self):
        self.assertEqual(second.chebyshev([1.0, 2.0, 3.0], 0.5), (0.5, 8.0))

    def test_radius_2(self):
        data = [1.0, 2.0] + [1.0, 2.0, 3.0] * 3 + [0.0, 10.0, 11.0, 1.0]
        got = self.ask(build([Piece(data)]), 399, 3, 2.0)
        self.assertEqual(got, Answer("forward", 0, (0.5,) * 3 + (4.0,) * 3,
                                     {1}))

    def test_one_coefficient(self):
        self.same_bits(second.chebyshev([-0.0], NAN), (-0.0, 0.0))
        got = self.ask(build([Piece(constant(1.0, -0.0, 3.0, radius=-5.0))]),
                       399, 3, 2.0)
        self.same_bits(got.six, (1.0, -0.0, 3.0, -0.0, -0.0, -0.0))

    def test_sums_start_with_a_product(self):
        value, derivative = second.chebyshev([-0.0, -0.0], 0.5)
        self.same_bits((value, derivative), (-0.0, -0.0))

    def test_record(self):
        for et, record in ((-5.0, 0), (9.0, 0), (10.0, 1), (30.0, 2),
                           (19.999999999999996, 1), (20.0, 2),
                           (29.0, 2), (1e300, 2), (-1e300, 0), (INF, 2),
                           (-INF, 0), (NAN, 0), (-0.0, 0), (0.0, 0)):
            self.assertEqual(second.record_index(et, 0.0, 10.0, 3), record)
        # The difference overflows.
        self.assertEqual(
            second.record_index(1e308, -1.7e308, 1e-300, 7), 6)
        self.assertEqual(
            second.record_index(-1e308, 1.7e308, 1e-300, 7), 0)
        self.assertEqual(
            second.record_index(2.0 ** 63, 0.0, 1.0, 2 ** 64 - 1), 2 ** 63)

    def test_records_in_the_kernel(self):
        data = []
        for i in range(3):
            data += [10.0 * i + 5.0, 5.0, float(i), 10.0 + i, 20.0 + i]
        kernel = build([Piece(data + [99.0] + [0.0, 10.0, 5.0, 3.0],
                              first=-50.0, last=50.0)])
        for et, record in ((-5.0, 0), (9.0, 0), (10.0, 1), (30.0, 2),
                           (50.0, 2)):
            self.assertEqual(self.ask(kernel, 399, 3, et).six[0:3],
                             (record, 10.0 + record, 20.0 + record))

    def test_against_exact(self):
        chance = random.Random(1)
        for _ in range(50):
            c = [float(chance.randint(-9, 9)) for _ in
                 range(chance.randint(2, 7))]
            s = chance.randint(-8, 8) / 8.0
            t, d = [Fraction(1), Fraction(s)], [Fraction(0), Fraction(1)]
            for _ in range(2, len(c)):
                d.append(2 * t[-1] + 2 * Fraction(s) * d[-1] - d[-2])
                t.append(2 * Fraction(s) * t[-1] - t[-2])
            value = sum(Fraction(a) * b for a, b in zip(c, t))
            slope = sum(Fraction(a) * b for a, b in zip(c, d))
            self.assertEqual(second.chebyshev(c, s),
                             (float(value), float(slope)))

    def test_13_radius_zero(self):
        for radius in (0.0, -0.0):
            kernel = build([Piece(type_number=1, target=5),
                            Piece(constant(1.0, radius=radius))])
            self.refuses(self.ask(kernel, 399, 3, 2.0), 13, 1)
            self.refuses(self.ask(kernel, 3, 399, 2.0), 13, 1)

    def test_radius_not_zero(self):
        kernel = build([Piece(constant(1.0, radius=INF))])
        self.same_bits(self.ask(kernel, 399, 3, 2.0).six,
                       (1.0, 0.0, 0.0, 0.0, 0.0, 0.0))
        for radius in (NAN, 5e-324):
            kernel = build([Piece(constant(1.0, radius=radius))])
            self.refuses(self.ask(kernel, 399, 3, 2.0), 15)

    def test_type_3(self):
        data = [1.0, 2.0]
        for k in range(6):
            data += [1.0, 2.0, 3.0 + k]
        data += [0.0, 10.0, 20.0, 1.0]
        got = self.ask(build([Piece(data, type_number=3)]), 399, 3, 2.0)
        self.assertEqual(got.six, tuple(2.0 - 0.5 * (3 + k)
                                        for k in range(6)))

    def test_type_3_radius_zero(self):
        six = (1.0, -0.0, 3.0, 4.0, -5.0, 6.0)
        for radius in (0.0, -0.0):
            for et in (2.0, 5.0):
                kernel = build([Piece(constant_3(six, radius=radius),
                                      type_number=3)])
                self.same_bits(self.ask(kernel, 399, 3, et).six, six)
                data = [5.0, radius] + [1.0, 0.0] * 6 + [0.0, 10.0, 14.0, 1.0]
                kernel = build([Piece(data, type_number=3)])
                self.refuses(self.ask(kernel, 399, 3, et), 15)

    def test_infinite_epoch(self):
        kernel = build([Piece(constant(1.0), first=-INF, last=INF)])
        for et in (INF, -INF):
            self.same_bits(self.ask(kernel, 399, 3, et).six,
                           (1.0, 0.0, 0.0, 0.0, 0.0, 0.0))
        data = [5.0, 5.0] + [1.0, 0.0] * 3 + [0.0, 10.0, 8.0, 1.0]
        kernel = build([Piece(data, first=-INF, last=INF)])
        self.refuses(self.ask(kernel, 399, 3, INF), 15)


class DiscreteNumbers(Base):
    def test_window(self):
        self.assertEqual(second.window_start(5, 4, 10), 4)
        self.assertEqual(second.window_start(0, 4, 10), 0)
        self.assertEqual(second.window_start(9, 4, 10), 6)
        self.assertEqual(second.window_start(5, 5, 10), 3)
        self.assertEqual(second.window_start(0, 1, 1), 0)
        # The half is taken from the window, not from a larger d + 1.
        self.assertEqual(second.window_start(2, 3, 3), 0)

    def search(self, epochs, degree, et):
        rows = [[0.0] * 6 for _ in epochs]
        kernel = build([Piece(discrete(rows, epochs, degree),
                              type_number=9)])
        table = self.opens(kernel)
        return second.window(kernel, table.segments[0], 0, et)

    def test_search(self):
        epochs = [float(i) for i in range(10)]
        self.assertEqual(self.search(epochs, 3.0, 5.5), (4, 4))
        self.assertEqual(self.search(epochs, 3.0, 5.0), (4, 4))
        self.assertEqual(self.search(epochs, 3.0, -1.0), (0, 4))
        self.assertEqual(self.search(epochs, 3.0, 0.0), (0, 4))
        self.assertEqual(self.search(epochs, 3.0, 9.0), (6, 4))
        self.assertEqual(self.search(epochs, 3.0, 99.0), (6, 4))
        self.assertEqual(self.search(epochs, 4.0, 5.5), (3, 5))
        self.assertEqual(self.search(epochs, 0.0, 5.5), (5, 1))
        self.assertEqual(self.search(epochs, 31.0, 5.5), (0, 10))

    def test_search_in_disorder(self):
        # The halving search, where a scan would find another index.
        epochs = [9.0, 1.0, 2.0, 3.0, NAN]
        self.assertEqual(self.search(epochs, 0.0, 5.0), (3, 1))
        self.assertEqual(self.search([1.0, 9.0, 3.0], 0.0, 5.0), (0, 1))
        self.assertEqual(self.search([NAN, NAN, NAN], 0.0, 5.0), (0, 1))
        self.assertEqual(self.search([2.0, 2.0, 2.0], 0.0, 2.0), (2, 1))

    def test_16_window_of_no_records(self):
        # No table passes the tests with such a window: see README.md.
        segment = Segment(kind=Discrete(9, 0, 0), start=1, end=2, type=9)
        with self.assertRaises(second.Refused) as caught:
            second.window(b"", segment, 7, 1.0)
        self.refuses(caught.exception.refusal, 16, 7)

    def test_lagrange(self):
        self.assertEqual(second.lagrange([0.0, 2.0], [10.0, 20.0], 1.0),
                         15.0)
        self.same_bits([second.lagrange([1.0, -0.0], [3.0, -0.0], 0.0)],
                       [-0.0])
        self.assertEqual(second.lagrange([1.0, 1.0], [3.0, 4.0], 1.0), 3.0)
        self.assertEqual(second.lagrange([4.0], [3.0], 1.0), 3.0)
        self.assertTrue(math.isnan(
            second.lagrange([1.0, 1.0], [3.0, 4.0], 2.0)))

    def test_lagrange_sum_starts_at_plus_zero(self):
        # -0 over the sum of the terms: +0 + -0 is +0.
        self.same_bits([second.lagrange([0.0], [-0.0], 1.0)], [0.0])
        self.same_bits([second.lagrange([2.0], [0.0], 1.0)], [-0.0])

    def test_lagrange_against_exact(self):
        chance = random.Random(2)
        for _ in range(50):
            n = chance.randint(2, 6)
            xs = sorted(chance.sample(range(20), n))
            ys = [chance.randint(-50, 50) for _ in range(n)]
            x = Fraction(chance.randint(0, 39), 2)
            exact = sum(
                ys[i] * math.prod(Fraction(x - xs[j], xs[i] - xs[j])
                                  for j in range(n) if j != i)
                for i in range(n))
            got = second.lagrange([float(a) for a in xs],
                                  [float(a) for a in ys], float(x))
            self.assertLess(abs(got - float(exact)),
                            1e-8 * (1 + abs(float(exact))))

    def test_hermite(self):
        self.assertEqual(
            second.hermite([0.0, 2.0], [0.0, 8.0], [0.0, 12.0], 1.0),
            (1.0, 3.0))
        self.assertEqual(second.hermite([4.0], [3.0], [2.0], 5.0),
                         (5.0, 2.0))
        value, derivative = second.hermite([1.0, 1.0], [3.0, 4.0],
                                           [0.0, 0.0], 2.0)
        self.assertFalse(math.isfinite(value))

    def test_hermite_against_exact(self):
        # A polynomial of degree 2n - 1 is given back.
        chance = random.Random(3)
        for _ in range(50):
            n = chance.randint(1, 4)
            xs = sorted(chance.sample(range(8), n))
            c = [chance.randint(-5, 5) for _ in range(2 * n)]

            def value(x):
                return sum(a * x ** k for k, a in enumerate(c))

            def slope(x):
                return sum(k * a * x ** (k - 1)
                           for k, a in enumerate(c) if k)

            x = Fraction(chance.randint(0, 15), 2)
            got = second.hermite([float(a) for a in xs],
                                 [float(value(a)) for a in xs],
                                 [float(slope(a)) for a in xs], float(x))
            for one, exact in zip(got, (value(x), slope(x))):
                self.assertLess(abs(one - float(exact)),
                                1e-6 * (1 + abs(float(exact))))

    def test_types_in_a_kernel(self):
        rows, epochs = line(10)
        for type_number in (9, 13):
            kernel = build([Piece(discrete(rows, epochs, 3.0),
                                  type_number=type_number)])
            got = self.ask(kernel, 399, 3, 5.5).six
            for one, exact in zip(got, (5.5, 11.0, 16.5, 1.0, 2.0, 3.0)):
                self.assertLess(abs(one - exact), 1e-12)

    def test_type_13_takes_velocities_as_slopes(self):
        rows = [[0.0, 1.0, 0.0, 0.0, 0.0, 7.0],
                [8.0, 1.0, 14.0, 12.0, 0.0, 7.0]]
        kernel = build([Piece(discrete(rows, [0.0, 2.0], 1.0),
                              type_number=13)])
        self.assertEqual(self.ask(kernel, 399, 3, 1.0).six,
                         (1.0, 1.0, 7.0, 3.0, 0.0, 7.0))

    def test_window_in_a_kernel(self):
        # Only the window's records are read: the others are no numbers.
        rows, epochs = line(10)
        for i in (0, 1, 2, 3, 8, 9):
            rows[i] = [NAN] * 6
        for type_number in (9, 13):
            kernel = build([Piece(discrete(rows, epochs, 3.0),
                                  type_number=type_number)])
            self.assertIsInstance(self.ask(kernel, 399, 3, 5.5), Answer)
            self.refuses(self.ask(kernel, 399, 3, 6.5), 15)
            self.refuses(self.ask(kernel, 399, 3, 4.5), 15)


class Evaluating(Base):
    """Tables that don't fit the kernel, and segments alone."""

    def setUp(self):
        rows, epochs = line(3)
        self.kernel = build([
            Piece(constant(1.0), target=1, center=0),
            Piece(constant_3((1.0,) * 6), target=2, center=0, type_number=3),
            Piece(discrete(rows, epochs, 1.0), target=3, center=0,
                  type_number=9),
            Piece(discrete(rows, epochs, 1.0), target=4, center=0,
                  type_number=13),
            Piece(target=5, center=0, type_number=1)])
        self.table = self.opens(self.kernel, 5)

    def alone(self, number, et=2.0):
        return second.alone(self.kernel, self.table, number, et)

    def test_alone(self):
        self.same_bits(self.alone(0).six, (1.0, 0.0, 0.0, 0.0, 0.0, 0.0))
        self.same_bits(self.alone(1).six, (1.0,) * 6)
        self.same_bits(self.alone(2).six, (2.0, 4.0, 6.0, 1.0, 2.0, 3.0))
        self.same_bits(self.alone(3).six, (2.0, 4.0, 6.0, 1.0, 2.0, 3.0))
        self.refuses(self.alone(4), 12, 1)

    def test_alone_covering_or_not(self):
        self.same_bits(self.alone(0, -1e9).six, (1.0,) + (0.0,) * 5)
        self.same_bits(self.alone(0, INF).six, (1.0,) + (0.0,) * 5)
        self.table.segments[0].first = 9.0
        self.table.segments[0].last = 1.0
        self.same_bits(self.alone(0).six, (1.0,) + (0.0,) * 5)

    def test_alone_order(self):
        self.refuses(self.alone(5), 17)
        self.refuses(self.alone(4294967295), 17)
        self.refuses(self.alone(5, NAN), 10)
        self.refuses(self.alone(4, NAN), 10)
        self.table.count = 4097
        self.refuses(self.alone(0, NAN), 14)
        self.table.count = 4096
        self.refuses(self.alone(255), 12, 0)
        self.refuses(self.alone(4096), 17)
        self.table.count = 0
        self.refuses(self.alone(0), 17)

    def test_alone_15(self):
        kernel = build([Piece(constant(INF))])
        table = self.opens(kernel)
        self.refuses(second.alone(kernel, table, 0, 1.0), 15)

    def test_alone_13(self):
        kernel = build([Piece(type_number=1),
                        Piece(constant(NAN, radius=-0.0))])
        table = self.opens(kernel)
        self.refuses(second.alone(kernel, table, 1, 1.0), 13, 1)

    def test_empty_segment(self):
        self.refuses(second.alone(b"", Table(1, []), 0, 0.0), 12, 0)

    def test_12_comes_first(self):
        segment = self.table.segments[0]
        segment.kind = None
        self.refuses(self.alone(0), 12, 2)
        segment.first = NAN
        segment.start = -1
        segment.type = -77
        self.refuses(self.alone(0), 12, -77)
        self.refuses(second.alone(b"", self.table, 0, 0.0), 12, -77)

    def test_kind_and_type_disagree(self):
        for type_number in (0, 1, 3, 9, 13, 20):
            self.table.segments[0].type = type_number
            self.refuses(self.alone(0), 14)
        self.table.segments[0].type = 2
        self.assertIsInstance(self.alone(0), tuple)
        self.table.segments[2].type = 13
        self.refuses(self.alone(2), 14)
        self.table.segments[2].type = 9
        self.table.segments[2].kind = Discrete(13, 1, 3)
        self.refuses(self.alone(2), 14)
        self.table.segments[2].type = 13
        self.assertNotIsInstance(self.alone(2), Refusal)

    def test_limits(self):
        for limits in ((NAN, 1.0), (1.0, NAN)):
            self.table.segments[0].first = limits[0]
            self.table.segments[0].last = limits[1]
            self.refuses(self.alone(0), 14)

    def test_addresses(self):
        good = self.table.segments[0]
        for start, end in ((0, good.end), (-1, good.end),
                           (good.start, good.start - 1),
                           (good.start, 2 ** 31 - 1),
                           (good.end - 2, good.end),
                           (good.start + 1, good.end),
                           (good.start, good.end + 1)):
            self.table.segments[0] = Segment(
                0.0, 10.0, 1, 0, 1, 2, start, end, good.kind)
            self.refuses(self.alone(0), 14)
        # One more double in front leaves room for the records.
        self.table.segments[0] = Segment(
            0.0, 10.0, 1, 0, 1, 2, good.start - 1, good.end, good.kind)
        self.assertNotEqual(self.alone(0), Refusal(14, 0))

    def test_trailer_numbers(self):
        segment = self.table.segments[0]
        for kind in (Chebyshev(2, -0.0, 10.0, 5, 1),
                     Chebyshev(2, 1.0, 10.0, 5, 1),
                     Chebyshev(2, 0.0, 10.000000000000002, 5, 1),
                     Chebyshev(2, 0.0, 10.0, 8, 1),
                     Chebyshev(2, 0.0, 10.0, 5, 2),
                     Chebyshev(2, 0.0, 10.0, 5, 0),
                     Chebyshev(2, NAN, 10.0, 5, 1)):
            segment.kind = kind
            self.refuses(self.alone(0), 14)
        segment = self.table.segments[2]
        for kind in (Discrete(9, 0, 3), Discrete(9, 2, 3),
                     Discrete(9, 1, 2), Discrete(9, 1, 0)):
            segment.kind = kind
            self.refuses(self.alone(2), 14)

    def test_other_kernel(self):
        for number in range(4):
            self.refuses(second.alone(b"", self.table, number, 2.0), 14)
            self.refuses(second.alone(bytes(len(self.kernel)), self.table,
                                      number, 2.0), 14)
        self.refuses(second.alone(b"", self.table, 4, 2.0), 12, 1)

    def test_only_the_segment_is_tested(self):
        # The lent kernel has no file record any more; nobody looks.
        kernel = bytes(1024) + self.kernel[1024:]
        self.same_bits(second.alone(kernel, self.table, 0, 2.0).six,
                       (1.0, 0.0, 0.0, 0.0, 0.0, 0.0))
        kernel = self.kernel[:8 * self.table.segments[0].end]
        self.same_bits(second.alone(kernel, self.table, 0, 2.0).six,
                       (1.0, 0.0, 0.0, 0.0, 0.0, 0.0))
        self.refuses(second.alone(kernel[:-1], self.table, 0, 2.0), 14)

    def test_pck_kind_other_than_2(self):
        for number in (1, 2, 3):
            self.refuses(second.alone_pck(self.kernel, self.table, number,
                                          2.0), 14)
        self.refuses(second.alone_pck(self.kernel, self.table, 4, 2.0),
                     12, 1)
        answer = second.alone_pck(self.kernel, self.table, 0, 2.0)
        self.assertEqual(answer.frame, self.table.segments[0].frame)
        self.same_bits(answer.six, (1.0, 0.0, 0.0, 0.0, 0.0, 0.0))


class Questions(Base):
    def test_same_body(self):
        table = Table(4097, [])
        for et in (0.0, NAN, INF):
            for body in (0, 399, -5):
                got, memory = second.state(b"", table, 7, body, body, et)
                self.assertEqual(got.way, "same")
                self.same_bits(got.six, (0.0,) * 6)
                self.assertEqual(memory, 7)

    def test_14_before_10(self):
        got, memory = second.state(b"", Table(4097, []), 3, 1, 2, NAN)
        self.refuses(got, 14)
        self.assertEqual(memory, 3)
        got, memory = second.state(b"", Table(4096, []), 3, 1, 2, NAN)
        self.refuses(got, 10)

    def test_10_before_11(self):
        self.refuses(self.ask(build([]), 1, 2, NAN), 10)

    def test_11(self):
        self.refuses(self.ask(build([]), 1, 2, 0.0), 11, 1)
        self.refuses(self.ask(build([]), 0, 2, 0.0), 11, 2)
        self.refuses(self.ask(build([]), -4, 0, 0.0), 11, -4)

    def test_covering(self):
        kernel = build([Piece(constant(1.0), target=1, center=2)])
        for et in (0.0, -0.0, 5.0, 10.0):
            self.assertEqual(self.ask(kernel, 1, 2, et).way, "forward")
        for et in (-5e-324, 10.000000000000002, INF, -INF):
            self.refuses(self.ask(kernel, 1, 2, et), 11, 1)

    def test_last_in_file_order(self):
        kernel = build([
            Piece(constant(1.0), target=1, center=2),
            Piece(constant(2.0), target=1, center=2, last=5.0),
            Piece(constant(3.0), target=1, center=3)])
        got = self.ask(kernel, 1, 2, 3.0)
        self.assertEqual((got.segment, got.six[0]), (1, 2.0))
        got = self.ask(kernel, 1, 2, 7.0)
        self.assertEqual((got.segment, got.six[0]), (0, 1.0))

    def test_unsupported_is_chosen(self):
        kernel = build([Piece(constant(1.0), target=1, center=2),
                        Piece(target=1, center=2, type_number=21)])
        self.refuses(self.ask(kernel, 1, 2, 3.0), 12, 21)
        self.refuses(self.ask(kernel, 2, 1, 3.0), 12, 21)

    def test_reversed(self):
        kernel = build([Piece(constant(1.0, -0.0, 0.0), target=1, center=2),
                        Piece(constant(2.0), target=1, center=2, last=1.0)])
        got = self.ask(kernel, 2, 1, 3.0)
        self.assertEqual((got.way, got.segment), ("reversed", 0))
        self.same_bits(got.six, (-1.0, 0.0, -0.0, -0.0, -0.0, -0.0))
        self.assertEqual(self.ask(kernel, 2, 1, 0.5).segment, 1)

    def test_forward_before_reversed(self):
        kernel = build([Piece(constant(1.0), target=1, center=2),
                        Piece(constant(2.0), target=2, center=1)])
        self.assertEqual(self.ask(kernel, 1, 2, 3.0).segment, 0)
        self.assertEqual(self.ask(kernel, 2, 1, 3.0).segment, 1)

    def test_15(self):
        kernel = build([Piece(constant(1.0, INF), target=1, center=2)])
        self.refuses(self.ask(kernel, 1, 2, 3.0), 15)
        self.refuses(self.ask(kernel, 2, 1, 3.0), 15)

    def test_two_bodies_are_no_chain_through_0(self):
        kernel = build([Piece(constant(1.0), target=1, center=0),
                        Piece(constant(5.0), target=2, center=0)])
        got = self.ask(kernel, 1, 2, 3.0)
        self.assertEqual((got.way, got.segment, got.six[0]),
                         ("chained", None, -4.0))
        self.assertEqual(self.ask(kernel, 0, 1, 3.0).way, "reversed")
        self.assertEqual(self.ask(kernel, 1, 0, 3.0).way, "forward")


class Memory(Base):
    def setUp(self):
        self.kernel = build([
            Piece(constant(1.0), target=1, center=2, first=0.0, last=5.0),
            Piece(constant(2.0), target=1, center=2, first=6.0, last=10.0),
            Piece(constant(3.0), target=4, center=5),
            Piece(constant(4.0), target=4, center=5),
            Piece(constant(5.0, radius=0.0), target=6, center=7),
            Piece(constant(INF), target=8, center=9),
            Piece(target=10, center=11, type_number=1),
            Piece(constant(6.0), target=12, center=0)])
        self.table = self.opens(self.kernel)

    def ask_with(self, memory, target, center, et=1.0):
        return second.state(self.kernel, self.table, memory, target, center,
                            et)

    def test_marks(self):
        self.assertEqual([s.marked for s in self.table.segments],
                         [True, True, False, False, True, True, True, True])

    def test_forward_marked_is_remembered(self):
        for memory in (None, 0, 1, 2, 99, 2 ** 64 - 1):
            self.assertEqual(self.ask_with(memory, 1, 2)[1], 0)
            self.assertEqual(self.ask_with(memory, 1, 2, 7.0)[1], 1)

    def test_unmarked_is_not(self):
        got, memory = self.ask_with(0, 4, 5)
        self.assertEqual((got.segment, memory), (3, 0))
        self.assertIsNone(self.ask_with(None, 4, 5)[1])

    def test_remembered_even_if_refused(self):
        got, memory = self.ask_with(None, 6, 7)
        self.refuses(got, 13, 4)
        self.assertEqual(memory, 4)
        got, memory = self.ask_with(None, 8, 9)
        self.refuses(got, 15)
        self.assertEqual(memory, 5)
        got, memory = self.ask_with(None, 10, 11)
        self.refuses(got, 12, 1)
        self.assertEqual(memory, 6)
        got, memory = second.state(b"", self.table, None, 1, 2, 1.0)
        self.refuses(got, 14)
        self.assertEqual(memory, 0)

    def test_all_else_leaves_it(self):
        for target, center, et in ((2, 1, 1.0), (1, 1, 1.0), (1, 2, NAN),
                                   (1, 2, 5.5), (12, 1, 1.0), (0, 12, 1.0),
                                   (77, 78, 1.0), (7, 6, 1.0), (4, 5, 1.0)):
            self.assertEqual(self.ask_with(5, target, center, et)[1], 5)
            self.assertIsNone(self.ask_with(None, target, center, et)[1])

    def test_remembered_goes_before_the_last(self):
        # A forged mark: the table decides, not the overlap.
        self.table.segments[2].marked = True
        got, memory = self.ask_with(2, 4, 5)
        self.assertEqual(got, Answer("forward", 2, (3.0,) + (0.0,) * 5, {1}))
        self.assertEqual(memory, 2)
        got, memory = self.ask_with(0, 4, 5)
        self.assertEqual((got.segment, memory), (3, 0))

    def test_remembered_must_be_marked(self):
        got, memory = self.ask_with(2, 4, 5)
        self.assertEqual((got.segment, memory), (3, 2))

    def test_remembered_must_serve(self):
        self.table.segments[2].marked = True
        self.assertEqual(self.ask_with(2, 5, 4)[0].way, "reversed")
        self.assertEqual(self.ask_with(2, 5, 4)[0].segment, 3)
        self.table.segments[2].last = 0.5
        self.assertEqual(self.ask_with(2, 4, 5)[0].segment, 3)
        self.table.segments[2].last = 10.0
        self.table.segments[2].center = 6
        self.assertEqual(self.ask_with(2, 4, 5)[0].segment, 3)

    def test_remembered_below_the_count(self):
        self.table.segments[3].marked = True
        self.table.count = 3
        self.assertEqual(self.ask_with(3, 4, 5)[0].segment, 2)
        self.table.count = 4
        self.assertEqual(self.ask_with(3, 4, 5)[0].segment, 3)

    def test_remembered_refusal(self):
        self.table.segments[2].marked = True
        self.table.segments[2].kind = None
        got, memory = self.ask_with(2, 4, 5)
        self.refuses(got, 12, 2)
        self.assertEqual(memory, 2)

    def test_memory_of_0_is_a_memory(self):
        self.table.segments[0].last = 10.0
        self.assertEqual(self.ask_with(0, 1, 2, 7.0)[0].segment, 0)
        self.assertEqual(self.ask_with(None, 1, 2, 7.0)[0].segment, 1)


class Chains(Base):
    def straight(self, steps):
        return build([Piece(constant(float(k)), target=k, center=k - 1)
                      for k in range(1, steps + 1)])

    def test_32_and_33(self):
        got = self.ask(self.straight(32), 32, 0, 1.0)
        self.assertEqual((got.way, got.six[0]), ("chained", 528.0))
        self.refuses(self.ask(self.straight(33), 33, 0, 1.0), 11, 33)
        self.refuses(self.ask(self.straight(33), 0, 33, 1.0), 11, 33)
        self.assertEqual(self.ask(self.straight(33), 33, 1, 1.0),
                         Refusal(11, 33))
        self.assertEqual(self.ask(self.straight(32), 32, 2, 1.0).six[0],
                         525.0)

    def test_cycles(self):
        kernel = build([Piece(constant(1.0), target=5, center=6),
                        Piece(constant(1.0), target=6, center=5),
                        Piece(constant(1.0), target=4, center=5),
                        Piece(constant(1.0), target=7, center=7)])
        self.refuses(self.ask(kernel, 5, 0, 1.0), 11, 5)
        self.refuses(self.ask(kernel, 6, 0, 1.0), 11, 6)
        self.refuses(self.ask(kernel, 4, 0, 1.0), 11, 4)
        self.refuses(self.ask(kernel, 7, 0, 1.0), 11, 7)
        self.refuses(self.ask(kernel, 0, 5, 1.0), 11, 5)
        self.refuses(self.ask(kernel, 4, 7, 1.0), 11, 4)

    def test_no_coverage_names_the_current_body(self):
        kernel = build([Piece(constant(1.0), target=5, center=6),
                        Piece(constant(1.0), target=6, center=8),
                        Piece(constant(1.0), target=9, center=0)])
        self.refuses(self.ask(kernel, 5, 0, 1.0), 11, 8)
        self.refuses(self.ask(kernel, 9, 5, 1.0), 11, 8)
        self.refuses(self.ask(kernel, 5, 77, 1.0), 11, 8)
        self.refuses(self.ask(kernel, 9, 77, 1.0), 11, 77)
        self.refuses(self.ask(kernel, 9, 0, 11.0), 11, 9)

    def test_steps_take_the_first(self):
        kernel = build([Piece(constant(1.0), target=5, center=6),
                        Piece(constant(2.0), target=5, center=7),
                        Piece(constant(10.0), target=6, center=0),
                        Piece(constant(20.0), target=7, center=0)])
        self.assertEqual(self.ask(kernel, 5, 0, 1.0).six[0], 11.0)

    def test_steps_prefer_center_0(self):
        kernel = build([Piece(constant(1.0), target=5, center=6),
                        Piece(constant(2.0), target=5, center=0),
                        Piece(constant(3.0), target=5, center=0),
                        Piece(constant(7.0), target=8, center=0)])
        self.assertEqual(self.ask(kernel, 5, 8, 1.0).six[0], -5.0)

    def test_a_refusal_ends_all(self):
        pieces = [Piece(constant(1.0), target=5, center=6),
                  Piece(target=5, center=7, type_number=1),
                  Piece(constant(2.0), target=5, center=0),
                  Piece(constant(7.0), target=8, center=0)]
        self.refuses(self.ask(build(pieces), 5, 8, 1.0), 12, 1)
        # Behind the one that is taken nobody looks.
        pieces[1], pieces[2] = pieces[2], pieces[1]
        self.assertEqual(self.ask(build(pieces), 5, 8, 1.0).six[0], -5.0)
        # The one about 0 is evaluated as well.
        pieces[1] = Piece(constant(2.0, radius=0.0), target=5, center=0)
        self.refuses(self.ask(build(pieces), 5, 8, 1.0), 13, 1)
        # Without one about 0 the whole list is.
        pieces[1] = Piece(constant(2.0), target=5, center=9)
        self.refuses(self.ask(build(pieces), 5, 8, 1.0), 12, 1)

    def test_target_before_center(self):
        kernel = build([Piece(target=5, center=0, type_number=1),
                        Piece(target=6, center=0, type_number=8)])
        self.refuses(self.ask(kernel, 5, 6, 1.0), 12, 1)
        self.refuses(self.ask(kernel, 6, 5, 1.0), 12, 8)

    def test_a_step_of_body_0_is_never_taken(self):
        kernel = build([Piece(constant(1.0), target=0, center=5),
                        Piece(constant(2.0), target=5, center=0),
                        Piece(constant(4.0), target=7, center=0)])
        self.assertEqual(self.ask(kernel, 7, 5, 1.0).six[0], 2.0)
        self.assertEqual(self.ask(kernel, 0, 5, 1.0).way, "forward")

    def test_intermediate_numbers_may_be_infinite(self):
        # Only the final six are tested; an infinity stays one, though.
        kernel = build([Piece(constant(1e308), target=5, center=6),
                        Piece(constant(1e308), target=6, center=0),
                        Piece(constant(1e308), target=7, center=0)])
        self.refuses(self.ask(kernel, 5, 7, 1.0), 15)
        self.refuses(self.ask(kernel, 5, 0, 1.0), 15)

    def test_sums_start_at_plus_zero(self):
        kernel = build([Piece(constant(-0.0, -0.0, 1.0), target=5, center=6),
                        Piece(constant(-0.0, -0.0, -1.0), target=6,
                              center=0)])
        got = self.ask(kernel, 5, 0, 1.0)
        self.same_bits(got.six, (0.0,) * 6)
        # +0 - +0 is +0; the swapped question has no minus zero either.
        got = self.ask(kernel, 0, 5, 1.0)
        self.same_bits(got.six, (0.0,) * 6)

    def test_start_on_the_way_of_the_other(self):
        # Only a walk's own start ends it.
        kernel = build([Piece(constant(1.0), target=5, center=6),
                        Piece(constant(2.0), target=6, center=8),
                        Piece(constant(4.0), target=8, center=0)])
        self.assertEqual(self.ask(kernel, 5, 8, 1.0).six[0], 3.0)
        self.assertEqual(self.ask(kernel, 8, 5, 1.0).six[0], -3.0)

    def test_empty_segments_of_a_forged_count(self):
        # 0 about 0, from 0 to 0: of no pair, and no step starts at 0.
        table = Table(4096, [])
        got, _ = second.state(b"", table, None, 1, 0, 0.0)
        self.refuses(got, 11, 1)


class Stretched(Base):
    """Whether a record was stretched to the epoch."""

    def says(self, kernel, target, center, et, frame=None):
        table = self.opens(kernel)
        got, _ = second.state_in(kernel, table, None, target, center, et,
                                 frame, Frames.ROWS)
        return got.stretched

    def three(self, type_number, **words):
        """Three records of 10 from 0 on, or three stored epochs."""
        if type_number in (9, 13):
            return Piece(discrete([(float(k),) * 6 for k in range(3)],
                                  [0.0, 10.0, 20.0], 1.0),
                         type_number=type_number, first=-100.0, last=100.0,
                         **words)
        size = {2: 5.0, 3: 8.0}[type_number]
        records = [x for k in range(3)
                   for x in [10.0 * k + 5.0, 5.0] + [1.0] * int(size - 2)]
        return Piece(records + [0.0, 10.0, size, 3.0],
                     type_number=type_number, first=-100.0, last=100.0,
                     **words)

    def test_records(self):
        # The worked numbers: -5, 9, 10 and 30, the right end.
        for type_number in (2, 3):
            kernel = build([self.three(type_number)])
            for et, word in ((-5.0, True), (9.0, False), (10.0, False),
                             (30.0, True), (0.0, False), (-0.0, False),
                             (-1e-300, True), (29.999999999999996, False),
                             # its quotient is rounded to -0
                             (-5e-324, False)):
                self.assertEqual(self.says(kernel, 399, 3, et), word, et)

    def test_pck(self):
        kernel = build([self.three(2, target=3000, frame=17)], second.PCK)
        table = second.open_pck(kernel)
        for et, word in ((-5.0, True), (9.0, False), (30.0, True)):
            got = second.orientation(kernel, table, 3000, et)
            self.assertEqual(got.stretched, word)
            got = second.alone_pck(kernel, table, 0, et)
            self.assertEqual(got.stretched, word)

    def test_infinite(self):
        kernel = build([self.three(2)])
        table = self.opens(kernel)
        for et in (INF, -INF):
            self.assertTrue(second.alone(kernel, table, 0, et).stretched)

    def test_epochs(self):
        # The last stored epoch itself is inside.
        for type_number in (9, 13):
            kernel = build([self.three(type_number)])
            for et, word in ((-1.0, True), (-0.0, False), (0.0, False),
                             (10.5, False), (20.0, False),
                             (20.000000000000004, True)):
                self.assertEqual(self.says(kernel, 399, 3, et), word, et)

    def test_quotients(self):
        for init, intlen, n, et, word in (
                (0.0, 10.0, 3, NAN, False),
                (0.0, 10.0, 3, INF, True),
                (0.0, 10.0, 3, -INF, True),
                # et - INIT is too large for a double, and so is the quotient
                (-1e308, 10.0, 3, 1e308, True),
                (1e308, 10.0, 3, -1e308, True),
                (0.0, 1e-300, 3, 1e300, True),
                (0.0, 1e-300, 3, -1e300, True),
                # the smallest quotient below 0, then one that is -0
                (0.0, 1.0, 3, -5e-324, True),
                (0.0, 2.0, 3, -5e-324, False),
                (0.0, 10.0, 3, -0.0, False),
                (-0.0, 10.0, 3, 0.0, False),
                # the last record's first epoch, and the right end
                (0.0, 10.0, 3, 20.0, False),
                (7.0, 10.0, 3, 36.99999999999999, False),
                (7.0, 10.0, 3, 37.0, True),
                (0.0, 10.0, 1, 9.0, False),
                (0.0, 10.0, 1, 10.0, True),
                # before the right end, and rounded to it
                (-1.0, 1.0, 1, -5e-324, True),
                (-1.0, 1.0, 1, -2.0 ** -53, False)):
            kind = Chebyshev(2, init, intlen, 5, n)
            self.assertEqual(second.is_off_records(et, kind), word,
                             (kind, et))

    def test_stored_epochs(self):
        for epochs, et, word in (
                # one that is NaN is at or below none, and below none
                ([NAN, 10.0, 20.0], 30.0, True),
                ([NAN, 10.0, 20.0], 15.0, True),
                ([0.0, 10.0, NAN], 30.0, False),
                ([0.0, 10.0, NAN], -1.0, True),
                ([0.0, NAN, 20.0], 15.0, False),
                ([0.0, 10.0, 20.0], NAN, True),
                # one stored epoch is the first and the last
                ([4.0], 3.0, True),
                ([4.0], 4.0, False),
                ([4.0], 5.0, True),
                ([0.0], -0.0, False),
                ([-0.0], 0.0, False),
                # out of order: the first and the last decide
                ([0.0, 20.0, 10.0], 15.0, True),
                ([10.0, 0.0, 20.0], 5.0, True),
                ([20.0, 10.0, 0.0], 10.0, True),
                # infinite ones
                ([0.0, 10.0, 20.0], INF, True),
                ([0.0, 10.0, 20.0], -INF, True),
                ([0.0, 10.0, INF], INF, False),
                ([0.0, 10.0, INF], 1e308, False),
                ([-INF, 10.0, 20.0], -INF, False),
                ([-INF, 10.0, 20.0], -1e308, False)):
            n = len(epochs)
            segment = Segment(start=1, end=7 * n, kind=Discrete(9, 0, n))
            kernel = doubles([0.0] * 6 * n + epochs)
            self.assertEqual(second.is_off_epochs(kernel, segment, et), word,
                             (epochs, et))

    def test_epochs_before_a_directory(self):
        # The last epoch is number N - 1, and no directory entry.
        for n in (99, 100, 101, 200, 250):
            for type_number in (9, 13):
                kernel = build([Piece(discrete(*line(n), 3.0),
                                      type_number=type_number,
                                      first=-1e9, last=1e9)])
                for et, word in ((-0.5, True), (0.0, False),
                                 (n - 1.5, False), (n - 1.0, False),
                                 (n - 0.5, True)):
                    self.assertEqual(self.says(kernel, 399, 3, et), word,
                                     (n, et))

    def test_remembered(self):
        for type_number in (2, 3, 9, 13):
            kernel = build([self.three(type_number)])
            table = self.opens(kernel)
            for et, word in ((-5.0, True), (9.0, False), (40.0, True)):
                got, memory = second.state(kernel, table, 0, 399, 3, et)
                self.assertEqual((got.stretched, memory), (word, 0))

    def test_alone_covering_or_not(self):
        for type_number in (2, 3, 9, 13):
            piece = self.three(type_number)
            piece.first, piece.last = 0.0, 5.0
            kernel = build([piece])
            table = self.opens(kernel)
            for et, word in ((-5.0, True), (2.0, False), (9.0, False),
                             (40.0, True)):
                got = second.alone(kernel, table, 0, et)
                self.assertEqual(got.stretched, word)

    def test_refusals(self):
        # A stretched state that is refused after all: with 15, with 21,
        # or with 11 of the center's walk.
        def line(program, kernel, *question):
            record = struct.pack(second.LAYOUTS[program],
                                 second.MARKS[program], *question)
            framed = {"matrix": doubles([1.0] * 9), "frame": "13"}
            return second.answer_lines(
                program, kernel, record, **framed if program == "ask" else {})

        infinite = self.three(2)
        infinite.data[2] = INF
        self.assertEqual(line("ask", build([infinite]), 399, 3, -5.0),
                         ["0 refused 15 0"])
        self.assertEqual(line("alone", build([infinite]), 0, -5.0),
                         ["0 refused 15 0"])
        self.assertEqual(line("ask", build([self.three(2)]), 399, 3, -5.0),
                         ["0 refused 21 0"])
        home = build([self.three(2, target=5, center=0)])
        self.assertEqual(line("ask", home, 5, 8, -5.0), ["0 refused 11 8"])
        turned = self.three(2, target=3000, frame=17)
        turned.data[2] = INF
        self.assertEqual(
            line("orient", build([turned], second.PCK), 3000, -5.0),
            ["0 refused 15 0"])

    def test_reversed_and_in_a_frame(self):
        kernel = build([self.three(3)])
        for et, word in ((-5.0, True), (9.0, False)):
            self.assertEqual(self.says(kernel, 3, 399, et), word)
            for frame in (1, 17):
                self.assertEqual(self.says(kernel, 399, 3, et, frame), word)
                self.assertEqual(self.says(kernel, 3, 399, et, frame), word)

    def test_chain(self):
        near = {"first": -100.0, "last": 100.0}
        inside = constant(1.0)[:-4] + [-100.0, 200.0, 5.0, 1.0]
        off = self.three(2, target=5, center=6)
        on = Piece(inside, target=5, center=6, **near)
        home = Piece(inside, target=6, center=0, **near)
        off_home = self.three(2, target=6, center=0)
        other = Piece(inside, target=8, center=0, **near)
        for pieces, word in (
                ([off, home, other], True),        # the first step
                ([on, off_home, other], True),     # the last step
                ([on, home, other], False),
                ([on, self.three(2, target=5, center=7), home, other],
                 False),                           # passed over for the first
                ([off, Piece(inside, target=5, center=0, **near), home,
                  other], False),                  # passed over for body 0
                ([off, Piece(inside, target=5, center=7, **near), home,
                  other], True),                   # taken, not passed over
                ([on, self.three(2, target=5, center=0), home, other],
                 True),                            # taken for body 0
                ([Piece(inside, target=5, center=4, **near),
                  self.three(9, target=4, center=6), home, other],
                 True)):                           # a step in the middle
            self.assertEqual(self.says(build(pieces), 5, 8, -5.0), word)
            self.assertEqual(self.says(build(pieces), 8, 5, -5.0), word)

    def test_same_body(self):
        self.assertFalse(self.says(build([self.three(2)]), 399, 399, -5.0))


class Frames(Base):
    ROWS = [[0.0, 1.0, 0.0], [-1.0, 0.0, 0.0], [0.0, 0.0, 1.0]]
    NANS = [[NAN] * 3] * 3
    SIX = (1.0, 2.0, 3.0, 4.0, 5.0, 6.0)
    TURNED = (2.0, -1.0, 3.0, 5.0, -4.0, 6.0)
    BACK = (-2.0, 1.0, 3.0, -5.0, 4.0, 6.0)

    def test_turn(self):
        self.assertEqual(second.turn(self.ROWS, (1, 2, 3, 4, 5, 6)),
                         (2, -1, 3, 5, -4, 6))
        self.assertEqual(second.turn_back(self.ROWS, (2, -1, 3, 5, -4, 6)),
                         (1, 2, 3, 4, 5, 6))

    def test_sum_starts_with_a_product(self):
        ones = [[1.0] * 3] * 3
        self.same_bits(second.turn(ones, (-0.0,) * 6), (-0.0,) * 6)
        product = second.matmul3(ones, [[-0.0] * 3] * 3)
        self.same_bits([x for row in product for x in row], (0.0,) * 9)

    def kernel(self, *pieces, six=SIX):
        """A kernel of type 3 segments, each a target, a center and a
        frame."""
        return build([Piece(constant_3(six), target=target, center=center,
                            frame=frame, type_number=3)
                      for target, center, frame in pieces])

    def asked(self, kernel, target, center, frame=None, rows=ROWS, et=1.0):
        return second.state_in(kernel, self.opens(kernel), None, target,
                               center, et, frame, rows)[0]

    def test_frames_1_and_17(self):
        # Own frame, the other one by the matrix or its transpose, no third.
        for own, other, turned in ((1, 17, self.TURNED), (17, 1, self.BACK)):
            kernel = self.kernel((399, 3, own))
            for frame in (None, own):
                self.assertEqual(
                    self.asked(kernel, 399, 3, frame, self.NANS),
                    Answer("forward", 0, self.SIX, {own}))
            self.assertEqual(self.asked(kernel, 399, 3, other),
                             Answer("forward", 0, turned, {other}))
            self.assertEqual(self.asked(kernel, 3, 399, other), Answer(
                "reversed", 0, tuple(-x for x in turned), {other}))
            for frame in (13, -5, 0, 2 ** 31 - 1, -2 ** 31):
                self.refuses(self.asked(kernel, 399, 3, frame), 21)

    def test_frame_13(self):
        for own in (13, -5, 0, 2 ** 31 - 1, -2 ** 31):
            kernel = self.kernel((399, 3, own))
            for frame in (None, own):
                self.assertEqual(
                    self.asked(kernel, 399, 3, frame, self.NANS),
                    Answer("forward", 0, self.SIX, {own}))
            for frame in (1, 17, own ^ 2):
                self.refuses(self.asked(kernel, 399, 3, frame), 21)

    def test_forward_and_back(self):
        # Any numbers: each sum starts with its first product.
        rows = [[0.1, 0.2, 0.3], [0.4, 0.5, 0.6], [0.7, 0.8, 0.9]]
        six = (1.1, 2.2, 3.3, 4.4, 5.5, 6.6)
        for own, frame, matrix in ((1, 17, rows),
                                   (17, 1, second.transpose(rows))):
            got = self.asked(self.kernel((399, 3, own), six=six), 399, 3,
                             frame, rows)
            self.same_bits(got.six, [
                row[0] * six[k] + row[1] * six[k + 1] + row[2] * six[k + 2]
                for k in (0, 3) for row in matrix])

    def test_minus_zero_stands(self):
        # A turn by the matrix that leaves everything where it is would
        # give +0.
        one = [[1.0, 0.0, 0.0], [0.0, 1.0, 0.0], [0.0, 0.0, 1.0]]
        six = (-0.0, 1.0, 0.0, 1.0, -0.0, -0.0)
        for own in (1, 17, 13):
            kernel = self.kernel((399, 3, own), six=six)
            for frame in (None, own):
                got = self.asked(kernel, 399, 3, frame, one)
                self.same_bits(got.six, six)
                got = self.asked(kernel, 3, 399, frame, one)
                self.same_bits(got.six, [-x for x in six])
        got = self.asked(self.kernel((399, 3, 17), six=six), 399, 3, 1, one)
        self.same_bits(got.six, (0.0, 1.0, 0.0, 1.0, 0.0, 0.0))

    def test_chains(self):
        twice = tuple(2 * x for x in self.SIX)
        there = tuple(2 * x for x in self.TURNED)
        back = tuple(2 * x for x in self.BACK)
        for a, b, wanted in (
                (1, 1, {None: twice, 1: twice, 17: there, 13: None}),
                (17, 17, {None: twice, 1: back, 17: twice, 13: None}),
                (13, 13, {None: twice, 1: None, 17: None, 13: twice}),
                (1, 17, {None: twice, 1: None, 17: None, 13: None}),
                (17, 13, {None: twice, 1: None, 17: None, 13: None})):
            for first, then in ((a, b), (b, a)):
                kernel = self.kernel((399, 3, first), (3, 0, then))
                for frame, six in wanted.items():
                    got = self.asked(kernel, 399, 0, frame)
                    if six is None:
                        self.refuses(got, 21)
                        continue
                    frames = {a, b} if frame is None else {frame}
                    self.assertEqual(got, Answer("chained", None, six,
                                                 frames))

    def test_both_walks_of_a_chain(self):
        # The target's steps are in one frame, the center's in another.
        kernel = self.kernel((399, 0, 1), (301, 0, 17))
        self.assertEqual(self.asked(kernel, 399, 301),
                         Answer("chained", None, (0.0,) * 6, {1, 17}))
        for frame in (1, 17, 13):
            self.refuses(self.asked(kernel, 399, 301, frame), 21)
        kernel = self.kernel((399, 0, 17), (301, 0, 17))
        self.same_bits(self.asked(kernel, 399, 301, 17).six, (0.0,) * 6)
        self.assertEqual(self.asked(kernel, 399, 301, 1).frames, {1})

    def test_numbers_that_cancel_still_count(self):
        # A step whose numbers are all zeros, or are taken off again.
        kernel = build([Piece(constant_3((0.0,) * 6), target=399, center=3,
                              frame=17, type_number=3),
                        Piece(constant_3(self.SIX), target=3, center=0,
                              type_number=3)])
        self.refuses(self.asked(kernel, 399, 0, 1), 21)
        kernel = self.kernel((399, 3, 1), (301, 3, 1), (3, 0, 17))
        self.refuses(self.asked(kernel, 399, 301, 1), 21)

    def test_passed_over(self):
        # Evaluated and passed over: another that covers, before the one
        # about 0; and one after the first, where none is about 0.
        kernel = self.kernel((399, 3, 17), (399, 0, 1), (301, 0, 1))
        self.assertEqual(self.asked(kernel, 399, 301, 17).frames, {17})
        self.assertEqual(self.asked(kernel, 399, 301).frames, {1})
        kernel = self.kernel((399, 3, 17), (399, 4, 1), (3, 0, 17))
        self.assertEqual(self.asked(kernel, 399, 0, 17).six,
                         tuple(2 * x for x in self.SIX))
        # Not even evaluated: after the one about 0.
        kernel = self.kernel((399, 0, 1), (399, 3, 17), (301, 0, 1))
        self.assertEqual(self.asked(kernel, 399, 301).frames, {1})
        # Of the pair, and not the one that is chosen.
        kernel = self.kernel((399, 3, 1), (399, 3, 17))
        self.assertEqual(self.asked(kernel, 399, 3, 17),
                         Answer("forward", 1, self.SIX, {17}))

    def test_same_body(self):
        minus = [[-1.0, -1.0, -1.0]] + [[0.0] * 3] * 2
        for frame in (None, 1):
            got, _ = second.state_in(b"", Table(), None, 3, 3, NAN, frame,
                                     minus)
            self.same_bits(got.six, (0.0,) * 6)
            self.assertEqual(got.frames, {1})
        got, _ = second.state_in(b"", Table(), None, 3, 3, NAN, 17, minus)
        self.same_bits(got.six, (-0.0, 0.0, 0.0, -0.0, 0.0, 0.0))
        for frame in (13, -5, 0):
            got, memory = second.state_in(b"", Table(4097), 7, 3, 3, NAN,
                                          frame, minus)
            self.refuses(got, 21)
            self.assertEqual(memory, 7)
        # Whatever frames the segments have.
        kernel = self.kernel((3, 0, 17))
        self.assertEqual(self.asked(kernel, 3, 3, 17), Answer(
            "same", None, second.turn(self.ROWS, (0.0,) * 6), {17}))

    def test_state_then_21_then_15(self):
        pieces = [Piece(constant(1.0, radius=0.0), frame=13),
                  Piece(constant(INF), target=5, frame=13),
                  Piece(constant(1.0), target=6, frame=13),
                  Piece(constant(1.0), target=7, frame=17),
                  Piece(constant(1.0), target=7, frame=17, first=20.0,
                        last=30.0, type_number=1)]
        kernel = build(pieces)
        for question, refusal in (((399, 3, 1.0), Refusal(13, 0)),
                                  ((399, 3, NAN), Refusal(10, 0)),
                                  ((8, 3, 1.0), Refusal(11, 8)),
                                  ((7, 3, 25.0), Refusal(12, 1)),
                                  ((5, 3, 1.0), Refusal(15, 0)),
                                  ((6, 3, 1.0), Refusal(21, 0)),
                                  ((7, 3, 1.0), Refusal(15, 0))):
            target, center, et = question
            self.assertEqual(
                self.asked(kernel, target, center, 1, self.NANS, et), refusal)
        table = self.opens(kernel)
        table.count = 4097
        got, _ = second.state_in(kernel, table, None, 6, 3, 1.0, 1, self.NANS)
        self.refuses(got, 14)

    def test_memory_is_the_same_with_a_frame(self):
        kernel = self.kernel((399, 3, 13))
        for frame in (None, 13, 1, 17):
            _, memory = second.state_in(kernel, self.opens(kernel), None, 399,
                                        3, 1.0, frame, self.NANS)
            self.assertEqual(memory, 0)

    def test_frame_of_a_forged_table(self):
        # The table's frame is believed, whatever the kernel's summary says.
        kernel = self.kernel((399, 3, 1))
        table = self.opens(kernel)
        table.segments[0].frame = 17
        got, _ = second.state_in(kernel, table, None, 399, 3, 1.0, 17,
                                 self.NANS)
        self.assertEqual(got.six, self.SIX)

    def test_numbers_of_frames(self):
        for text, number in (
                ("17", 17), ("1", 1), ("0", 0), ("-0", 0), ("-5", -5),
                ("013", 13), ("-0005", -5), ("0" * 5000, 0),
                ("0" * 5000 + "17", 17), ("2147483647", 2147483647),
                ("-2147483648", -2147483648), ("002147483647", 2147483647)):
            self.assertEqual(second.frame_number(text), number)
        for text in ("", "-", "+5", "--5", "5-", " 5", "5 ", "5\n", "0x11",
                     "1.0", "1e3", "J2000", "1 7", "1_7", "\u0661", "\u00b2",
                     "2147483648", "-2147483649", "4294967297", "9" * 5000,
                     "-" + "9" * 5000, "18446744073709551633"):
            self.assertIsNone(second.frame_number(text))

    def test_same_body_may_be_15(self):
        got, _ = second.state_in(b"", Table(), 7, 3, 3, 0.0,
                                 second.ECLIPJ2000, [[INF] * 3] * 3)
        self.refuses(got, 15)

    def test_refusals_of_the_state_come_first(self):
        kernel = build([Piece(constant(1.0, radius=0.0)),
                        Piece(constant(1e308, 1e308), target=5)])
        table = self.opens(kernel)
        nans = [[NAN] * 3] * 3
        for question, refusal in (((399, 3, 1.0), Refusal(13, 0)),
                                  ((399, 3, NAN), Refusal(10, 0)),
                                  ((8, 3, 1.0), Refusal(11, 8)),
                                  ((5, 3, 1.0), Refusal(15, 0))):
            got, _ = second.state_in(kernel, table, None, *question,
                                     second.ECLIPJ2000, nans)
            self.assertEqual(got, refusal)
        got, memory = second.state_in(kernel, table, None, 5, 3, 1.0,
                                      second.ECLIPJ2000, [[1.0] * 3] * 3)
        self.refuses(got, 15)
        self.assertEqual(memory, 1)

    def test_six_by_six(self):
        dr = [[7.0, 8.0, 9.0]] * 3
        m = second.sxform_from_rotation(self.ROWS, dr)
        self.assertEqual(m[0], [0.0, 1.0, 0.0, 0.0, 0.0, 0.0])
        self.assertEqual(m[3], [7.0, 8.0, 9.0, 0.0, 1.0, 0.0])
        inverse = second.invert_sxform(m)
        self.assertEqual(inverse[0], [0.0, -1.0, 0.0, 0.0, 0.0, 0.0])
        self.assertEqual(inverse[3], [7.0, 7.0, 7.0, 0.0, -1.0, 0.0])
        self.assertEqual(second.add3(self.ROWS, self.ROWS)[1],
                         [-2.0, 0.0, 0.0])


class Pck(Base):
    def setUp(self):
        angles = [1.0, 2.0] + [1.0, 2.0, 3.0] * 3 + [0.0, 10.0, 11.0, 1.0]
        self.kernel = build([
            Piece(constant(1.0), target=3000, frame=1),
            Piece(angles, target=3000, frame=17, last=5.0),
            Piece(constant(1.0), target=3001),
            Piece(target=3001, type_number=3, last=5.0),
            Piece(constant(1.0, radius=-0.0), target=3002),
            Piece(constant(1.0, INF), target=3003)], second.PCK)
        self.table = second.open_pck(self.kernel)

    def orient(self, body_frame, et):
        return second.orientation(self.kernel, self.table, body_frame, et)

    def test_answers(self):
        self.assertEqual(self.orient(3000, 2.0),
                         Orientation(17, (0.5,) * 3 + (4.0,) * 3))
        self.assertEqual(self.orient(3000, 5.5),
                         Orientation(1, (1.0,) + (0.0,) * 5))
        self.assertEqual(self.orient(3001, 6.0).frame, 1)

    def test_refusals(self):
        self.refuses(self.orient(3001, 2.0), 12, 3)
        self.refuses(self.orient(3000, NAN), 10)
        self.refuses(self.orient(3000, 11.0), 11, 3000)
        self.refuses(self.orient(-7, 1.0), 11, -7)
        self.refuses(self.orient(3002, 1.0), 13, 4)
        self.refuses(self.orient(3003, 1.0), 15)
        self.table.count = 4097
        self.refuses(self.orient(3000, NAN), 14)

    def test_forged(self):
        kinds = (Chebyshev(3, 0.0, 10.0, 5, 1), Discrete(9, 1, 1),
                 Discrete(13, 1, 1))
        for kind in kinds:
            self.table.segments[2].kind = kind
            self.refuses(self.orient(3001, 6.0), 14)
            self.table.segments[2].type = kind.type
            self.refuses(self.orient(3001, 6.0), 14)
            self.table.segments[2].type = 2
        self.table.segments[2].kind = None
        self.refuses(self.orient(3001, 6.0), 12, 2)

    def test_empty_segment_of_a_forged_count(self):
        got = second.orientation(b"", Table(1, []), 0, 0.0)
        self.refuses(got, 12, 0)


class Usage(Base):
    def states(self, file, suppliers):
        """The file is good, and its statement has these pairs."""
        self.assertEqual(second.statement(file), Statement(
            suppliers, sum(count for _, count in suppliers)))

    def test_empty(self):
        self.states(b"", [])

    def test_one_record(self):
        self.states(b"\xa5\x5a\x00\x00\x07\x00\x00\x00", [(7, 1)])

    def test_any_bytes(self):
        for kind in (bytes, bytearray, memoryview):
            self.states(kind(usage([2, 1, 2])), [(1, 1), (2, 2)])
            self.refuses(second.statement(kind(usage([2])[:7])), 19)

    def test_order_of_number(self):
        self.states(usage([9, 4]), [(4, 1), (9, 1)])
        self.states(usage([9, 4, 9, 9, 4]), [(4, 2), (9, 3)])
        # As numbers, not as their decimals or their bytes.
        self.states(usage([10, 9, 256, 1, 255]),
                    [(1, 1), (9, 1), (10, 1), (255, 1), (256, 1)])
        # Unsigned.
        self.states(usage([2 ** 31, 2 ** 31 - 1, 2 ** 32 - 1, 0]),
                    [(0, 1), (2 ** 31 - 1, 1), (2 ** 31, 1),
                     (2 ** 32 - 1, 1)])

    def test_little_endian(self):
        self.states(b"\xa5\x5a\x00\x00\x01\x02\x03\x04", [(0x04030201, 1)])
        self.states(usage([1, 0x01000000]), [(1, 1), (0x01000000, 1)])

    def test_segment_is_not_looked_at(self):
        for segment in (0, 1, 256, 257, 0x5AA5, 65535):
            self.states(usage([3, 3], segment), [(3, 2)])
        self.states(usage([3], 0) + usage([3], 65535) + usage([2], 9),
                    [(2, 1), (3, 2)])

    def test_ends_of_the_numbers(self):
        self.states(usage([2 ** 32 - 1, 0, 2 ** 32 - 1]),
                    [(0, 1), (2 ** 32 - 1, 2)])

    def test_19_mark(self):
        good = usage([1])
        for mark in (b"\x5a\xa5", b"\xa5\x5b", b"\xa5\x5c", b"\xa5\x5d",
                     b"\xa4\x5a", b"\x00\x5a", b"\xa5\x00", b"\x00\x00",
                     b"\xa5\xa5", b"\x5a\x5a"):
            broken = patched(good, 0, mark)
            for file in (broken, good + broken, broken + good,
                         good + broken + good):
                self.refuses(second.statement(file), 19)

    def test_19_cut_short(self):
        for whole in (b"", usage([1]), usage([1, 2, 1])):
            for left in range(1, 8):
                self.refuses(second.statement(whole + usage([1])[:left]), 19)
                self.refuses(second.statement(whole + bytes(left)), 19)

    def test_19_records_stand_every_8_bytes(self):
        # A mark elsewhere begins no record.
        self.refuses(second.statement(b"\0" + usage([1, 2])), 19)
        self.refuses(second.statement(usage([1]) + b"\xa5" + usage([2])), 19)
        self.states(usage([0x5AA55AA5], 0x5AA5), [(0x5AA55AA5, 1)])

    def test_20_512_and_513(self):
        chance = random.Random(6)
        numbers = chance.sample(range(2 ** 32), 513)
        for order in (sorted(numbers), sorted(numbers, reverse=True),
                      numbers):
            pairs = [(number, 1) for number in sorted(order[:512])]
            self.states(usage(order[:512]), pairs)
            self.refuses(second.statement(usage(order)), 20)
            # Known suppliers may go on.
            pairs = [(number, 2) for number in sorted(order[:512])]
            self.states(usage(order[:512] + order[511::-1]), pairs)
            self.refuses(second.statement(
                usage(order[:512] * 2 + order[512:])), 20)

    def test_first_fault_counts(self):
        full = usage(range(512))
        over = full + usage([512])
        broken = b"\xa5\x5b" + usage([0])[2:]
        for file, number in (
                (patched(over, 0, b"\0"), 19),
                (patched(over, 8 * 511, b"\0"), 19),
                (full + broken + usage([512]), 19),
                (patched(over, 8 * 512, b"\0"), 19),
                (patched(over, 8 * 512 + 1, b"\0"), 19),
                (over + broken, 20),
                (over + usage([0]) + broken, 20),
                (broken + over + broken, 19)):
            self.refuses(second.statement(file), number)
        for left in range(1, 8):
            self.refuses(second.statement(over + usage([0])[:left]), 20)
            self.refuses(second.statement(over[:-left]), 19)

    def test_any_length(self):
        # The function has no largest file; 18 is the program's.
        self.states(usage([5]) * 8193, [(5, 8193)])
        self.states(usage([1, 2]) * 50000, [(1, 50000), (2, 50000)])

    def test_laws(self):
        chance = random.Random(7)
        for _ in range(200):
            a, b = ([chance.randrange(20) << chance.randrange(28)
                     for _ in range(chance.randrange(60))] for _ in "ab")
            both = second.statement(usage(a) + usage(b))
            self.assertEqual(both.total, len(a) + len(b))
            self.assertEqual(both.suppliers, [
                (number, a.count(number) + b.count(number))
                for number in sorted(set(a + b))])
            mixed = a + b
            chance.shuffle(mixed)
            self.assertEqual(second.statement(usage(mixed)), both)

    def test_every_flipped_bit(self):
        file = usage([0x01020304, 0x01020304], 5)
        for bit in range(8 * len(file)):
            damaged = bytearray(file)
            damaged[bit // 8] ^= 1 << bit % 8
            got = second.statement(bytes(damaged))
            place = bit // 8 % 8
            if place < 2:
                self.refuses(got, 19)
            elif place < 4:
                self.states(bytes(damaged), [(0x01020304, 2)])
            else:
                other = 0x01020304 ^ 1 << bit % 64 - 32
                self.states(bytes(damaged), sorted([(0x01020304, 1),
                                                    (other, 1)]))


class Damaged(Base):
    """Nothing escapes but answers of six finite numbers and refusals."""

    NUMBERS = {10, 11, 12, 13, 14, 15, 17}
    EPOCHS = (0.0, -0.0, 1.0, 5.0, 10.0, 11.0, -3.0, INF, -INF, NAN, 1e300)

    def kernels(self):
        rows, epochs = line(7)
        series = [5.0, 5.0] + [1.0, 2.0, 3.0] * 6
        return [build([
            Piece(constant(1.0), target=1, center=0),
            Piece(series[:11] + [0.0, 10.0, 11.0, 1.0], target=2, center=1),
            Piece(series + [0.0, 10.0, 20.0, 1.0], target=3, center=2,
                  type_number=3),
            Piece(discrete(rows, epochs, 3.0), target=4, center=3,
                  type_number=9),
            Piece(discrete(rows, epochs, 3.0), target=4, center=1,
                  type_number=13),
            Piece(target=1, center=4, type_number=1, last=0.5)], sort)
            for sort in (second.SPK, second.PCK)]

    def check(self, got):
        if isinstance(got, Refusal):
            self.assertIn(got.number, self.NUMBERS)
            return
        self.assertEqual(len(got.six), 6)
        self.assertTrue(second.all_finite(got.six))
        self.assertIn(got.stretched, (True, False))

    def questions(self, chance, kernel, table):
        memory = chance.choice((None, 0, 3, 255, 2 ** 64 - 1))
        for _ in range(6):
            target, center = chance.randint(-1, 5), chance.randint(-1, 5)
            et = chance.choice(self.EPOCHS)
            got, memory = second.state(kernel, table, memory, target,
                                       center, et)
            self.check(got)
            self.check(second.orientation(kernel, table, target, et))
            number = chance.choice((0, 1, 2, 3, 4, 5, 6, 4096))
            self.check(second.alone(kernel, table, number, et))
            self.check(second.alone_pck(kernel, table, number, et))
            second.name(kernel, table, number)

    def test_damaged_kernels(self):
        chance = random.Random(4)
        opened = 0
        whole = self.kernels()
        for _ in range(1500):
            sort = chance.randint(0, 1)
            kernel = bytearray(whole[sort])
            for _ in range(chance.randint(0, 4)):
                place = chance.choice((
                    chance.randrange(96), 1024 + chance.randrange(270),
                    3072 + chance.randrange(1200)))
                kernel[place] = chance.choice((
                    0, 1, 2, 9, 13, 0x7F, 0x80, 0xF0, 0xFF,
                    chance.randrange(256)))
            kernel = bytes(kernel[:chance.choice((
                None, None, None, chance.randrange(len(kernel))))])
            table = (second.open_spk, second.open_pck)[sort](kernel)
            if isinstance(table, Refusal):
                self.assertIn(table.number, range(1, 10))
                continue
            opened += 1
            self.questions(chance, kernel, table)
        self.assertGreater(opened, 300)

    def test_forged_tables(self):
        chance = random.Random(5)
        for _ in range(1500):
            kernel = self.kernels()[0]
            table = second.open_spk(kernel)
            table.count = chance.choice((6, 6, 6, 3, 0, 4096, 4097, 2 ** 64))
            segment = chance.choice(table.segments)
            field = chance.choice(("first", "last", "type", "start", "end",
                                   "kind", "marked", "name_place",
                                   "target", "center"))
            forged = {
                "kind": (None, Chebyshev(2, 0.0, 10.0, 5, 1),
                         Chebyshev(3, 0.0, 10.0, 20, 1),
                         Chebyshev(2, NAN, -0.0, 2 ** 64 - 1, 2 ** 64 - 1),
                         Discrete(9, 3, 7), Discrete(13, 3, 7),
                         Discrete(9, 2 ** 64 - 1, 0)),
                "first": self.EPOCHS, "last": self.EPOCHS,
                "marked": (True, False),
                "name_place": (0, 2 ** 64 - 1),
            }.get(field, (0, 1, 2, 3, 9, 13, -1, 385, 393, 2 ** 31 - 1,
                          -2 ** 31))
            setattr(segment, field, chance.choice(forged))
            kernel = chance.choice((kernel, kernel, kernel[:3500], b""))
            self.questions(chance, kernel, table)


class Programs(Base):
    def question(self, target, center, et):
        return b"\xa5\x5b" + struct.pack("<iid", target, center, et)

    def run_program(self, *arguments, stdin=b""):
        done = subprocess.run([sys.executable, PROGRAM, *arguments],
                              input=stdin, stdout=subprocess.PIPE,
                              stderr=subprocess.PIPE, check=False)
        return done.returncode, done.stdout, done.stderr

    def with_files(self, program, *contents, words=()):
        with tempfile.TemporaryDirectory() as place:
            paths = []
            for i, one in enumerate(contents):
                paths.append(os.path.join(place, "f%d" % i))
                with open(paths[-1], "wb") as opened:
                    opened.write(one)
            return self.run_program(program, *paths, *words)

    def test_listing_example(self):
        self.assertEqual(len(example()), 4096)
        self.assertEqual(
            self.run_program("listing", stdin=example()),
            (0, b"segments 1\n0 399 3 1 2 0000000000000000 "
                b"4024000000000000 385 393 yes\n", b""))

    def test_listing_refusals(self):
        self.assertEqual(second.listing_lines(b""), ["refused 1 0"])
        self.assertEqual(second.listing_lines(bytes(65536)),
                         ["refused 2 0"])
        self.assertEqual(second.listing_lines(bytes(65537)),
                         ["refused 18 0"])
        large = example() + bytes(65536 - 4096)
        self.assertEqual(second.listing_lines(large)[0], "segments 1")
        self.assertEqual(second.listing_lines(large + b"\0"),
                         ["refused 18 0"])
        pieces = [Piece(type_number=1), Piece([0.0] * 9)]
        self.assertEqual(second.listing_lines(build(pieces)),
                         ["refused 9 1"])
        self.assertEqual(second.listing_lines(bytes(file_record(fward=0))),
                         ["segments 0"])

    def test_listing_signs(self):
        kernel = build([Piece(type_number=-1, target=-82, center=-2 ** 31,
                              frame=-3, first=-0.0, last=INF, start=-7,
                              end=2 ** 31 - 1)] * 2)
        self.assertEqual(second.listing_lines(kernel)[1:], [
            "%d -82 -2147483648 -3 -1 8000000000000000 7ff0000000000000 "
            "-7 2147483647 no" % i for i in range(2)])

    def test_ask(self):
        kernel = build([Piece(constant(1.0), target=1, center=2),
                        Piece(constant(2.0), target=3, center=0),
                        Piece(constant(4.0), target=4, center=0)])
        questions = b"".join(self.question(*q) for q in (
            (1, 1, NAN), (1, 2, 0.0), (2, 1, 0.0), (3, 4, 10.0),
            (1, 2, NAN), (9, 2, 1.0)))
        zero = " 0000000000000000"
        minus = " 8000000000000000"
        self.assertEqual(self.with_files("ask", kernel, questions), (0, (
            "0 same no" + zero * 6 + "\n"
            "1 forward 0 no 3ff0000000000000" + zero * 5 + "\n"
            "2 reversed 0 no bff0000000000000" + minus * 5 + "\n"
            "3 chained yes c000000000000000" + zero * 5 + "\n"
            "4 refused 10 0\n"
            "5 refused 11 9\n").encode(), b""))

    def test_ask_matrix(self):
        kernel = build([Piece(constant_3((1.0, 2.0, 3.0, 4.0, 5.0, 6.0)),
                              type_number=3)])
        matrix = doubles([x for row in Frames.ROWS for x in row])
        lines = second.answer_lines(
            "ask", kernel, self.question(399, 3, 1.0)
            + self.question(3, 3, 1.0), matrix)
        self.assertEqual(lines[0], "0 forward 0 no " + " ".join(
            bits6((2.0, -1.0, 3.0, 5.0, -4.0, 6.0))))
        self.assertEqual(lines[1], "1 same no" + " 0000000000000000" * 6)

    def test_ask_frame(self):
        pieces = [Piece(constant_3(Frames.SIX), target=frame, center=0,
                        frame=frame, type_number=3) for frame in (1, 17, 13)]
        asked = b"".join(self.question(*pair, 1.0) for pair in (
            (1, 0), (17, 0), (13, 0), (0, 17), (1, 17), (5, 5), (5, 0)))
        matrix = doubles([x for row in Frames.ROWS for x in row])

        def six(numbers):
            return "no " + " ".join(bits6(numbers))

        plain = ["0 forward 0 " + six(Frames.SIX),
                 "1 forward 1 " + six(Frames.SIX),
                 "2 forward 2 " + six(Frames.SIX),
                 "3 reversed 1 " + six([-x for x in Frames.SIX]),
                 "4 chained " + six((0.0,) * 6), "5 same " + six((0.0,) * 6),
                 "6 refused 11 5"]
        refused = ["%d refused 21 0" % i for i in range(6)] + plain[6:]

        def lines(**framed):
            """The plain lines of some questions, 21 of the others."""
            return [framed.get("q%d" % i, line)
                    for i, line in enumerate(refused)]

        ecliptic = lines(q0="0 forward 0 " + six(Frames.TURNED), q1=plain[1],
                         q3=plain[3], q5=plain[5])
        equator = lines(q0=plain[0], q1="1 forward 1 " + six(Frames.BACK),
                        q3="3 reversed 1 " + six([-x for x in Frames.BACK]),
                        q5=plain[5])
        longest = "0" * 4094 + "17"
        for words, expected in (((), ecliptic), (("17",), ecliptic),
                                ((longest,), ecliptic),
                                (("1",), equator), (("0001",), equator),
                                (("13",), lines(q2=plain[2])),
                                (("-5",), refused), (("0",), refused)):
            self.assertEqual(
                self.with_files("ask", build(pieces), asked, matrix,
                                words=words),
                (0, "".join(x + "\n" for x in expected).encode(), b""))
        self.assertEqual(second.answer_lines("ask", build(pieces), asked),
                         plain)

    def test_ask_frame_that_is_none(self):
        good, large = bytes(72), bytes(65537)
        for text in ("", "x", "2147483648", "+17", "17 ", "0" * 4095 + "17"):
            # Before the opening's refusal and 19, after 18 and the matrix.
            for files in ((build([]), b"", good), (b"", b"", good),
                          (build([]), b"x", good)):
                code, out, error = self.with_files("ask", *files,
                                                   words=(text,))
                self.assertEqual((code, out), (2, b""))
                self.assertIn(b"frame", error)
            for files in ((large, b"", good), (b"", large, good),
                          (b"", b"", large)):
                self.assertEqual(self.with_files("ask", *files,
                                                 words=(text,)),
                                 (0, b"refused 18 0\n", b""))
            code, out, error = self.with_files("ask", build([]), b"",
                                               bytes(71), words=(text,))
            self.assertEqual((code, out), (2, b""))
            self.assertIn(b"matrix", error)

    def test_ask_memory_goes_on(self):
        # Segment 0 is marked; the later empty-handed questions leave it.
        kernel = build([Piece(constant(1.0), target=1, center=2)])
        seen = []
        inner = second.state

        def watching(*arguments):
            answer, memory = inner(*arguments)
            seen.append((arguments[2], memory))
            return answer, memory

        second.state = watching
        try:
            second.answer_lines("ask", kernel, b"".join(
                self.question(*q) for q in (
                    (2, 1, 0.0), (1, 2, 0.0), (5, 6, 0.0), (1, 2, 3.0))))
        finally:
            second.state = inner
        self.assertEqual(seen, [(None, None), (None, 0), (0, 0), (0, 0)])

    def test_question_records(self):
        kernel = build([])
        good = self.question(1, 1, 0.0)
        for program, questions, expected in (
                ("ask", b"", []),
                ("ask", good[:-1], ["refused 19 0"]),
                ("ask", good + b"\xa5", ["refused 19 0"]),
                ("ask", good + good[:17], ["refused 19 0"]),
                ("ask", good + b"\xa5\x5c" + good[2:], ["refused 19 0"]),
                ("ask", b"\x5b\xa5" + good[2:], ["refused 19 0"]),
                ("alone", good, ["refused 19 0"])):
            self.assertEqual(second.answer_lines(program, kernel, questions),
                             expected)

    def test_order_of_program_refusals(self):
        large = bytes(65537)
        for files in ((large, b""), (b"", large), (b"", b"", large)):
            self.assertEqual(second.answer_lines("ask", *files),
                             ["refused 18 0"])
        self.assertEqual(second.answer_lines("ask", b"", b"x"),
                         ["refused 1 0"])
        self.assertEqual(second.answer_lines("orient", b"", b"x"),
                         ["refused 1 0"])
        self.assertEqual(second.answer_lines("ask", build([]), b"x"),
                         ["refused 19 0"])
        self.assertEqual(second.answer_lines("orient", build([]), b"x"),
                         ["refused 4 0"])

    def test_orient(self):
        kernel = build([Piece(constant(1.0), target=3000, frame=17)],
                       second.PCK)
        questions = b"".join(b"\xa5\x5c" + struct.pack("<id", *q) for q in (
            (3000, 1.0), (3000, 11.0), (-1, NAN), (3000, 0.0)))
        answer = " 17 no 3ff0000000000000" + " 0000000000000000" * 5 + "\n"
        self.assertEqual(
            self.with_files("orient", kernel, questions),
            (0, ("0" + answer + "1 refused 11 3000\n2 refused 10 0\n3" + answer)
             .encode(), b""))

    def test_alone(self):
        kernel = build([Piece(type_number=8), Piece(constant(1.0))])
        questions = b"".join(b"\xa5\x5d" + struct.pack("<Id", *q) for q in (
            (1, 1e9), (0, 1.0), (2, 1.0), (4294967295, 1.0), (1, NAN)))
        self.assertEqual(
            self.with_files("alone", kernel, questions),
            (0, ("0 yes 3ff0000000000000" + " 0000000000000000" * 5 + "\n"
                 "1 refused 12 8\n2 refused 17 0\n3 refused 17 0\n"
                 "4 refused 10 0\n")
             .encode(), b""))

    def test_statement(self):
        file = usage([4294967295, 7, 0, 7], 3)
        self.assertEqual(self.run_program("statement", stdin=file), (
            0, b"0 1\n7 2\n4294967295 1\ntotal 4\n", b""))
        self.assertEqual(self.run_program("statement"), (
            0, b"total 0\n", b""))
        self.assertEqual(self.run_program("statement", stdin=file[:-1]), (
            0, b"refused 19 0\n", b""))
        # Bytes that a text reader would change.
        file = usage([0x0A0D0A0D, 0x1A1A1A1A], 0x0A0D)
        self.assertEqual(self.run_program("statement", stdin=file), (
            0, b"168626701 1\n437918234 1\ntotal 2\n", b""))

    def test_statement_refusals(self):
        for file, expected in (
                (b"x", "refused 19 0"),
                (usage(range(513)), "refused 20 0"),
                (bytes(65536), "refused 19 0"),
                (bytes(65537), "refused 18 0"),
                (usage(range(8192)), "refused 20 0"),
                (usage(range(8192)) + b"\xa5", "refused 18 0"),
                (usage([1]) * 8193, "refused 18 0"),
                (usage([1]) * 8192 + b"\xa5", "refused 18 0"),
                ((usage([1]) * 8192)[:-1], "refused 19 0")):
            self.assertEqual(second.statement_lines(file), [expected])
        self.assertEqual(second.statement_lines(usage([1]) * 8192),
                         ["1 8192", "total 8192"])
        self.assertEqual(second.statement_lines(usage(range(512)) * 16),
                         ["%d 16" % i for i in range(512)] + ["total 8192"])

    def test_numbered_refusals(self):
        # A question's line begins with its number, a run's doesn't.
        asked = self.question(1, 2, NAN)
        self.assertEqual(second.answer_lines("ask", build([]), asked),
                         ["0 refused 10 0"])
        self.assertEqual(second.answer_lines("ask", b"", asked),
                         ["refused 1 0"])

    def test_misuse(self):
        for arguments in ([], ["list"], ["listing", "x"], ["ask"],
                          ["ask", "a"], ["ask", "a", "b", "c", "d", "e"],
                          ["orient", "a", "b", "c"], ["alone", "a"],
                          ["statement", "x"],
                          ["ask", "/nonexistent/a", "/nonexistent/b"]):
            code, out, error = self.run_program(*arguments)
            self.assertNotEqual(code, 0)
            self.assertEqual(out, b"")
            self.assertEqual(error.count(b"\n"), 1)
        code, out, error = self.with_files("ask", build([]), b"", bytes(71))
        self.assertEqual((code, out), (2, b""))

    def test_main(self):
        with contextlib.redirect_stderr(io.StringIO()) as said:
            self.assertEqual(second.main(["listing", "x"]), 2)
        self.assertIn("listing", said.getvalue())


if __name__ == "__main__":
    unittest.main()
