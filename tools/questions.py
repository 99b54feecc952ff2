#!/usr/bin/env python3
# Not proved. This file and readable.py are the only programs between a date and a printed decimal that are not; what the proved programs
# themselves leave to tests stands in docs/PROMISES.md.
"""Makes a file of questions from a table of bodies and dates.

  tools/questions.py TABLE >QUESTIONS           for `ask`:    target center date
  tools/questions.py --orient TABLE >QUESTIONS  for `orient`: body-frame date

A line of the table is a question: whole numbers for the bodies, then the date.

  399 10 1969-07-20T20:17:40          Earth relative to the Sun
  301 399 1969-07-20T20:17:40.25 TDB  Moon relative to Earth
  399 10 -960910940.0                 the epoch as seconds past J2000

Dates are TDB, in the Gregorian calendar, which is carried on before 1582 and
to years before 1 (0000, -0001); J2000 is 2000-01-01T12:00:00. Seconds, and the
time with its T, may be left out. UTC is not taken: it needs a table of leap
seconds. A number alone is seconds past J2000; nan and inf are taken too. The
epoch of a question is the double nearest to the seconds written. Empty lines
and what follows a # are passed over. Where a line is bad each bad line is
named on the error output and nothing is written.

This program is not proved; it and readable.py are the only ones between a
date and a printed decimal that are not."""

import argparse
import re
import struct
import sys
from fractions import Fraction

LIMIT = 65536  # bytes of a file that the programs take (docs/RULES.md, "Programs")
DATE = re.compile(r"([+-]?\d{4,6})-(\d\d)-(\d\d)(?:T(\d\d):(\d\d)(?::(\d\d)(?:\.(\d{1,99}))?)?)?", re.ASCII)
NUMBER = re.compile(r"[+-]?(?:\d+\.?\d*|\.\d+)(?:[eE][+-]?\d+)?|nan|[+-]?inf", re.ASCII)
WHOLE = re.compile(r"[+-]?\d{1,20}", re.ASCII)


class Bad(Exception):
    """What is wrong with a line."""


def day_number(year, month, day):
    """Days since 0000-03-01: years begin in March here, so that a leap day is the last of its year."""
    year, month = (year, month - 3) if month > 2 else (year - 1, month + 9)
    return 365 * year + year // 4 - year // 100 + year // 400 + (153 * month + 2) // 5 + day - 1


J2000 = 86400 * day_number(2000, 1, 1) + 43200


def is_leap(year):
    return year % 4 == 0 and (year % 100 != 0 or year % 400 == 0)


def days_in(year, month):
    return 28 + is_leap(year) if month == 2 else 30 + (month in (1, 3, 5, 7, 8, 10, 12))


def seconds_of(date):
    """The seconds past J2000 of a date, exactly; the date has no other form than that of DATE."""
    found = DATE.fullmatch(date)
    if not found:
        raise Bad(f"{date!r} is neither a date like 1969-07-20T20:17:40 nor a number of seconds past J2000")
    year, month, day, hour, minute, second = (int(part or 0) for part in found.groups()[:6])
    if not 1 <= month <= 12:
        raise Bad(f"{date}: there is no month {month}")
    if not 1 <= day <= days_in(year, month):
        raise Bad(f"{date}: the month has no day {day}")
    if hour > 23 or minute > 59:
        raise Bad(f"{date}: there is no time {hour:02}:{minute:02}")
    if second > 59:
        raise Bad(f"{date}: there is no second {second} (TDB has no leap seconds)")
    whole = 86400 * day_number(year, month, day) + 3600 * hour + 60 * minute + second - J2000
    digits = found.group(7) or "0"
    return whole + Fraction(int(digits), 10 ** len(digits))


def epoch_of(word):
    """The double nearest to a date's seconds past J2000, or to a number."""
    if not NUMBER.fullmatch(word):
        seconds = seconds_of(word)
        return seconds.numerator / seconds.denominator  # Python rounds a quotient of whole numbers once, to the nearest double
    epoch = float(word)
    if epoch in (float("inf"), float("-inf")) and "inf" not in word:
        raise Bad(f"{word} is too large for a double")
    return epoch


def body_of(word):
    if not WHOLE.fullmatch(word):
        raise Bad(f"{word!r} is no whole number")
    if not -(2**31) <= int(word) < 2**31:
        raise Bad(f"{word} has more than 32 bits")
    return int(word)


def record_of(line, bodies):
    """The record of a line with so many bodies: its mark, the bodies, the epoch, little-endian."""
    words = line.split()
    scale = words[bodies + 1 :]
    if len(words) < bodies + 1:
        raise Bad(f"{bodies} bod{'y' if bodies == 1 else 'ies'} and a date are needed, and {len(words)} words stand here")
    if len(scale) > 1:
        raise Bad(f"{len(words)} words stand here, where {bodies} bod{'y' if bodies == 1 else 'ies'} and a date are needed")
    if words[bodies].endswith("Z"):
        raise Bad("dates are TDB: UTC and other time scales are not taken")
    if scale not in ([], ["TDB"]):
        raise Bad(f"{scale[0]!r} stands after the date, where only TDB may (a T joins date and time; UTC and other time scales are not taken)")
    numbers = [body_of(word) for word in words[:bodies]]
    mark = b"\xa5\x5b" if bodies == 2 else b"\xa5\x5c"
    return mark + struct.pack(f"<{bodies}id", *numbers, epoch_of(words[bodies]))


def records_of(text, bodies):
    """The records of a table, and what is wrong with it: (line number, what) for each bad line."""
    records, wrong = [], []
    for number, line in enumerate(text.split("\n"), 1):
        line = line.split("#")[0]
        if line.strip():
            try:
                records.append(record_of(line, bodies))
            except Bad as bad:
                wrong.append((number, str(bad)))
    return records, wrong


def arguments():
    parser = argparse.ArgumentParser(description=__doc__, formatter_class=argparse.RawDescriptionHelpFormatter)
    parser.add_argument("table", nargs="?", metavar="TABLE", help="the table; standard input where none is given")
    parser.add_argument("--orient", action="store_true", help="questions to a PCK kernel: a body frame and a date")
    parser.add_argument("-o", "--output", metavar="FILE", help="where the questions go; standard output where none is given")
    return parser.parse_args()


def write(path, data):
    if path:
        with open(path, "wb") as file:
            file.write(data)
    elif sys.stdout.isatty():
        sys.exit("questions.py: a question file is not text: send it to a file, with > or -o")
    else:
        sys.stdout.buffer.write(data)


def main():
    given = arguments()
    name = given.table or "standard input"
    try:
        if given.table:
            with open(given.table, "rb") as file:
                data = file.read()
        else:
            data = sys.stdin.buffer.read()
        records, wrong = records_of(data.decode("utf-8-sig", "replace"), 1 if given.orient else 2)
        for number, what in wrong:
            print(f"{name}, line {number}: {what}", file=sys.stderr)
        if wrong:
            sys.exit(1)
        write(given.output, b"".join(records))
    except OSError as error:
        sys.exit(f"questions.py: {error.filename or name}: {error.strerror}")
    if records and len(records) * len(records[0]) > LIMIT:
        most = LIMIT // len(records[0])
        print(f"questions.py: {len(records)} questions; the programs take {most} in a file and refuse this one with 18", file=sys.stderr)


if __name__ == "__main__":
    main()
