#!/usr/bin/python3
"""make.py FOLDER: writes de405.bsp, a type 2 SPK kernel of JPL's DE405 coefficients, and questions about it.

Needs Debian's casacore-data-jpl-de405 and python3-casacore (which serves Debian's own Python). A row of that
table is 32 days of Chebyshev coefficients in km; six rows from 1969 March 24 on make a kernel under 64 KB.
"""

import os
import struct
import sys

TABLE = "/usr/share/casacore/data/ephemerides/DE405"
FIRST_DAY, ROWS = 40304, 6  # modified Julian date of the first row taken: 1969 March 24.0 TDB
DAY, J2000 = 86400.0, 51544.5
NAME = b"DE-0405LE-0405"

# target, center, place in a row, coefficients, intervals of a row
SERIES = [
    (1, 0, 0, 14, 4),
    (2, 0, 168, 10, 2),
    (3, 0, 228, 13, 2),
    (4, 0, 306, 11, 1),
    (5, 0, 339, 8, 1),
    (6, 0, 363, 7, 1),
    (7, 0, 384, 6, 1),
    (8, 0, 402, 6, 1),
    (9, 0, 420, 6, 1),
    (10, 0, 750, 11, 2),
    (301, 3, 438, 13, 8),
    (399, 3, 438, 13, 8),
]


def seconds(day):
    """TDB seconds past J2000 of a modified Julian date."""
    return (day - J2000) * DAY


def factor(target, emrat):
    """The Moon's series is about the Earth; about their barycenter each has its part of it."""
    return {301: emrat / (1.0 + emrat), 399: -1.0 / (1.0 + emrat)}.get(target, 1.0)


def segment(rows, emrat, target, place, coefficients, intervals):
    """A type 2 segment's doubles: MID, RADIUS and three series to a record; INIT, INTLEN, RSIZE, N."""
    intlen = 32.0 * DAY / intervals
    part, size, out = factor(target, emrat), 3 * coefficients, []
    for r, row in enumerate(rows):
        for k in range(intervals):
            begin = seconds(FIRST_DAY + 32 * r) + k * intlen
            numbers = row[place + k * size : place + (k + 1) * size]
            out += [begin + intlen / 2, intlen / 2] + [part * float(c) for c in numbers]
    return out + [seconds(FIRST_DAY), intlen, 2.0 + size, float(len(rows) * intervals)]


def kernel(rows, emrat):
    """File record, summary record, name record, data."""
    first, last = seconds(FIRST_DAY), seconds(FIRST_DAY + 32 * ROWS)
    summaries, names, data = struct.pack("<3d", 0.0, 0.0, len(SERIES)), b"", []
    for target, center, place, coefficients, intervals in SERIES:
        start = 385 + len(data)
        data += segment(rows, emrat, target, place, coefficients, intervals)
        summaries += struct.pack("<2d6i", first, last, target, center, 1, 2, start, 384 + len(data))
        names += NAME.ljust(40)
    head = b"DAF/SPK " + struct.pack("<2I", 2, 6) + b"DE405, 1969 March 24 to October 2".ljust(60)
    head += struct.pack("<3I", 2, 2, 385 + len(data)) + b"LTL-IEEE"
    head = head.ljust(699, b"\0") + b"FTPSTR:\r:\n:\r\n:\r\x00:\x81:\x10\xce:ENDFTP"
    body = struct.pack(f"<{len(data)}d", *data)
    records = [head.ljust(1024, b"\0"), summaries.ljust(1024, b"\0"), names.ljust(1024, b" ")]
    return b"".join(records) + body + bytes(-len(body) % 1024)


def questions():
    """Every way, at JPL's own epoch 1969 June 28.0, and a few refusals."""
    et = seconds(40400.0)
    asked = [(399, 10, et), (301, 399, et), (1, 0, et), (0, 4, et), (10, 10, et), (301, 3, et), (3, 399, et)]
    asked += [(5, 6, et), (9, 0, seconds(40304.0)), (2, 0, seconds(40496.0)), (2, 0, seconds(40496.0) + 1.0)]
    asked += [(499, 0, et), (4, 0, float("nan"))]
    return b"".join(b"\xa5\x5b" + struct.pack("<2id", t, c, e) for t, c, e in asked)


def main():
    from casacore.tables import table

    source = table(TABLE, ack=False)
    days = [float(d) for d in source.getcol("MJD")]
    start = days.index(float(FIRST_DAY))
    rows = [source.getcell("x", start + r) for r in range(ROWS)]
    for name, data in (("de405.bsp", kernel(rows, source.getkeyword("EMRAT"))), ("de405.questions", questions())):
        with open(os.path.join(sys.argv[1], name), "wb") as f:
            f.write(data)
        print(f"{name}: {len(data)} bytes")


if __name__ == "__main__":
    main()
