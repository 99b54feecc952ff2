#!/usr/bin/env python3
"""Tests of tools/questions.py and tools/readable.py: dates there and back, bits kept, bad lines, refusals of questions and of runs."""

import datetime
import os
import random
import re
import struct
import subprocess
import sys
import unittest
from fractions import Fraction

HERE = os.path.dirname(os.path.abspath(__file__))
ROOT = os.path.join(HERE, "..", "..")
sys.dont_write_bytecode = True
sys.path.insert(0, os.path.join(ROOT, "tools"))
import questions  # noqa: E402
import readable  # noqa: E402

NOON = datetime.datetime(2000, 1, 1, 12)
SIX = " 3ff0000000000000 8000000000000000 0000000000000001 7fefffffffffffff bff0000000000000 0000000000000000"


def bits(number):
    return struct.pack(">d", number)


def tool(name, *words, data=b""):
    done = subprocess.run([sys.executable, os.path.join(ROOT, "tools", name), *words], input=data, capture_output=True)
    return done.returncode, done.stdout, done.stderr.decode()


def path(*names):
    return os.path.join(ROOT, *names)


def stored(name):
    with open(path(*name.split("/")), "rb") as file:
        return file.read()


class Dates(unittest.TestCase):
    def test_days_are_python_s(self):
        """Every thirteenth day of the years 1 to 9999 against the standard library, which counts them by itself."""
        shift = questions.day_number(1, 1, 1) - 1
        for ordinal in range(1, datetime.date.max.toordinal() + 1, 13):
            day = datetime.date.fromordinal(ordinal)
            self.assertEqual(questions.day_number(day.year, day.month, day.day) - shift, ordinal)
            self.assertEqual(readable.calendar(ordinal + shift), (day.year, day.month, day.day))

    def test_400_years_repeat(self):
        for year in (-9999, -401, -400, -1, 0, 4, 100, 1600, 1900, 2000):
            for month, day in ((1, 1), (2, 28), (3, 1), (12, 31)):
                number = questions.day_number(year, month, day)
                self.assertEqual(readable.calendar(number), (year, month, day))
                self.assertEqual(questions.day_number(year + 400, month, day) - number, 146097)

    def test_known_epochs(self):
        for date, seconds in (
            ("2000-01-01T12:00:00", 0),
            ("2000-01-01", -43200),
            ("2000-01-01T12:00", 0),
            ("1969-07-20T20:17:40", -960910940),
            ("1969-06-28", -962884800),
            ("1999-12-31T23:59:59", -43201),
            ("2000-02-29T12:00:00", 59 * 86400),
            ("2000-03-01T12:00:00", 60 * 86400),
            ("1900-03-01T12:00:00", -36465 * 86400),
            ("1900-02-28T12:00:00", -36466 * 86400),
            ("-4713-11-24T12:00:00", -2451545 * 86400),  # Julian day 0
            ("0000-02-29T12:00:00", (1721119 - 2451545) * 86400),
        ):
            self.assertEqual(bits(questions.epoch_of(date)), bits(float(seconds)), date)

    def test_against_datetime(self):
        draw = random.Random(1)
        for _ in range(20000):
            micros = draw.randrange(-63082324800000000 + 43200000000, 252455572800000000)
            date = NOON + datetime.timedelta(microseconds=micros)
            epoch = questions.epoch_of(date.isoformat())
            self.assertEqual(bits(epoch), bits(float(Fraction(micros, 10**6))))

    def test_nearest_double(self):
        """A date's epoch is no further from its seconds than the doubles beside it."""
        draw = random.Random(2)
        for _ in range(5000):
            digits = "".join(draw.choice("0123456789") for _ in range(draw.randrange(1, 40)))
            date = f"{draw.randrange(1600, 2400)}-02-28T23:59:59.{digits}"
            exact, epoch = questions.seconds_of(date), questions.epoch_of(date)
            (number,) = struct.unpack(">q", bits(epoch))
            for beside in (number - 1, number + 1):
                (other,) = struct.unpack(">d", struct.pack(">q", beside))
                self.assertLessEqual(abs(Fraction(epoch) - exact), abs(Fraction(other) - exact))

    def test_there_and_back(self):
        """A date printed without a ~ is read as the same double; one with a ~ is within half a nanosecond."""
        draw = random.Random(3)
        edges = [0.0, -0.0, 0.5, -0.5, -43200.0, -43199.999, -43200.001, 59 * 86400 - 43200.0, 59 * 86400 - 43200.5, 1e13, -1e13, 0.1, -1e-9]
        for epoch in edges + [draw.uniform(-1e10, 1e10) for _ in range(3000)] + [draw.randrange(-(10**12), 10**12) / 1000 for _ in range(3000)]:
            text = readable.date_of(epoch)
            self.assertTrue(text.endswith(" TDB"))
            back = questions.seconds_of(text.replace(" TDB", "").lstrip("~"))
            if text.startswith("~"):
                self.assertLessEqual(abs(back - Fraction(epoch)), Fraction(1, 2 * 10**9))
            else:
                self.assertEqual(float(back), epoch)

    def test_shortest(self):
        self.assertEqual(readable.date_of(0.25), "2000-01-01T12:00:00.25 TDB")
        self.assertEqual(readable.date_of(-43200.5), "1999-12-31T23:59:59.5 TDB")
        self.assertEqual(readable.date_of(5e-324), "~2000-01-01T12:00:00.000000000 TDB")
        self.assertEqual(readable.date_of(questions.epoch_of("-0001-12-31")), "-0001-12-31T00:00:00 TDB")
        for epoch in (float("nan"), float("inf"), float("-inf"), 1e300, -1e300):
            self.assertEqual(readable.date_of(epoch), "no date")


class Questions(unittest.TestCase):
    def test_ask(self):
        code, out, _ = tool("questions.py", data=b"# a table\n399 10 1969-07-20T20:17:40\n\n-301\t399  0.1 TDB # a comment\n10 10 nan\r\n")
        want = [(399, 10, -960910940.0), (-301, 399, 0.1), (10, 10, float("nan"))]
        self.assertEqual((code, out), (0, b"".join(b"\xa5\x5b" + struct.pack("<2id", *q) for q in want)))

    def test_orient(self):
        code, out, _ = tool("questions.py", "--orient", data=b"31006 1969-07-20T20:17:40\n-2147483648 -0.0")
        want = [(31006, -960910940.0), (-2147483648, -0.0)]
        self.assertEqual((code, out), (0, b"".join(b"\xa5\x5c" + struct.pack("<id", *q) for q in want)))

    def test_sample_made_again(self):
        """The sample's question file, from dates."""
        day = "1969-06-28"
        pairs = ["399 10", "301 399", "1 0", "0 4", "10 10", "301 3", "3 399", "5 6"]
        lines = [f"{pair} {day}" for pair in pairs] + ["9 0 1969-03-24", "2 0 1969-10-02", "2 0 1969-10-02T00:00:01", f"499 0 {day}", "4 0 nan"]
        self.assertEqual(tool("questions.py", data="\n".join(lines).encode())[1], stored("tests/sample/de405.questions"))

    def test_bad_lines(self):
        bad = [
            "399 10", "399 10 1969-02-29", "399 10 1900-02-29", "399 10 1969-13-01", "399 10 1969-00-01", "399 10 1969-01-00",
            "399 10 1969-01-01T24:00", "399 10 1969-01-01T00:60", "399 10 1998-12-31T23:59:60", "399 10 1969-07-20 20:17:40", "399 10 69-07-20",
            "399 10 1969-07-20T20:17:40Z", "399 10 0 UTC", "399 10 0 TDB TDB", "2147483648 0 0", "-2147483649 0 0", "3.0 0 0", "399 10 1e999",
            "399 10 0x10", "399 10 1_000", "399 10 infinity", "399 10 \u0661", "\u0661 10 0", "399 10 1969-07-20T20", "399 10 1969-07-20T20:17:40.",
        ]  # fmt: skip
        for line in bad:
            code, out, errors = tool("questions.py", data=f"1 2 3\n\n{line}\n4 5 6\n".encode())
            self.assertEqual((code, out), (1, b""), line)
            self.assertRegex(errors, r"\Astandard input, line 3: [^\n]+\n\Z", line)

    def test_bad_lines_write_nothing(self):
        target = os.path.join(os.environ.get("TMPDIR", "/tmp"), f"test_tools.{os.getpid()}")
        self.assertEqual(tool("questions.py", "-o", target, data=b"1 2\n")[0], 1)
        self.assertFalse(os.path.exists(target))

    def test_all_bad_lines_are_named(self):
        errors = tool("questions.py", data=b"x\n1 2 3\ny\n")[2]
        self.assertEqual(re.findall(r"line (\d+)", errors), ["1", "3"])

    def test_long_files_are_said(self):
        self.assertEqual(tool("questions.py", data=b"1 2 3\n" * 3640)[2], "")
        code, out, errors = tool("questions.py", data=b"1 2 3\n" * 3641)
        self.assertEqual((code, len(out)), (0, 65538))
        self.assertIn("3640", errors)

    def test_missing_file(self):
        for name in ("questions.py", "readable.py"):
            want = (1, b"", f"{name}: /no/such/file: No such file or directory\n")
            self.assertEqual(tool(name, "/no/such/file"), want)


class Readable(unittest.TestCase):
    def shown(self, lines, asked=None, frame="J2000"):
        return readable.text_of(lines, asked, frame)

    def test_refusals_are_those_of_the_rules(self):
        rows = re.findall(r"^\| (\d+) \| (.*) \| (.*) \|$", stored("docs/RULES.md").decode(), re.M)
        self.assertEqual({int(n): when.replace("`", "") for n, when, _ in rows}, readable.REFUSALS)
        self.assertEqual({int(n) for n, _, detail in rows if detail != "0"}, set(readable.DETAILS))

    def test_bits_are_kept(self):
        """Each decimal gives its bits back, and these stand beside it as they came, infinities and NaN too."""
        draw = random.Random(4)
        words = ["%016x" % draw.randrange(2**64) for _ in range(3000)]
        words += ["8000000000000000", "0000000000000001", "7ff0000000000000", "fff0000000000000", "7ff8000000000000", "7fefffffffffffff"]
        for i in range(0, len(words), 6):
            lines = self.shown(["0 chained no " + " ".join(words[i : i + 6])])[1:]
            found = [re.findall(r"(\S+) km(?:/s)?  ([0-9a-f]{16})", line) for line in lines]
            pairs = [line[0] for line in found] + [line[1] for line in found]
            self.assertEqual([word for _, word in pairs], words[i : i + 6])
            for decimal, word in pairs:
                number = readable.double(word)
                self.assertTrue(bits(float(decimal)).hex() == word or number != number)

    def test_ways(self):
        for line, want in (("same", "same"), ("chained", "chained"), ("forward 12", "forward, segment 12"), ("reversed 0", "reversed, segment 0")):
            self.assertEqual(self.shown([f"0 {line} no{SIX}"])[0], f"question 0: {want}, in J2000")
            self.assertEqual(self.shown([f"0 {line} yes{SIX}"])[0], f"question 0: {want}, in J2000, a record stretched to the epoch")

    def test_orientation(self):
        self.assertEqual(self.shown([f"0 forward 3 no{SIX}"], frame=None)[0], "question 0: forward, segment 3, as it stands")
        self.assertEqual(self.shown([f"0 17 no{SIX}"])[0], "question 0: angles about reference frame ECLIPJ2000 (17)")
        self.assertEqual(self.shown([f"0 17 yes{SIX}"])[0], "question 0: angles about reference frame ECLIPJ2000 (17), a record stretched to the epoch")
        self.assertIn("rad/s", self.shown([f"0 -99 no{SIX}"])[1])

    def test_refused_questions(self):
        shown = self.shown(["0 refused 11 499", f"1 same no{SIX}", "2 refused 10 0"])
        self.assertEqual(shown[0], "question 0: refused 11 499: no coverage (the body without a way: Mars (499))")
        self.assertEqual(shown[-1], "question 2: refused 10 0: the epoch is NaN")

    def test_refused_runs(self):
        for number in (*range(1, 10), 18, 19):
            self.assertTrue(self.shown([f"refused {number} 0"])[0].startswith(f"the whole run was refused {number} 0: "))
        self.assertIn("(segment 3)", self.shown(["refused 9 3"])[0])
        asked = stored("tests/sample/de405.questions")
        self.assertEqual(len(self.shown(["refused 19 0"], asked[:-1])), 2)
        self.assertEqual(len(self.shown(["refused 19 0"], b"\xa5\x5b" * 9 + b"\0")), 2)
        self.assertEqual(len(self.shown(["refused 18 0"], asked)), 1)

    def test_stored_runs(self):
        asked = stored("tests/sample/de405.questions")
        lines = stored("crates/ask/stdout").decode().splitlines()
        shown = self.shown(lines, asked, "ECLIPJ2000")
        self.assertEqual(shown[0], "question 0: Earth (399) relative to Sun (10), 1969-06-28T00:00:00 TDB (-962884800.0 s past J2000)")
        self.assertEqual(sum(line.startswith("question") for line in shown), 13)
        turned = self.shown(stored("crates/orient/stdout").decode().splitlines(), stored("crates/orient/data/questions"))
        self.assertEqual(sum(line.startswith("question") for line in turned), len(stored("crates/orient/data/questions")) // 14)
        code, out, _ = tool("readable.py", path("crates", "listing", "stdout"))
        self.assertEqual((code, out.decode().splitlines()[1]), (0, "segment 0: Earth (399) relative to Earth-Moon barycenter (3)"))

    def test_bad_lines_print_nothing(self):
        asked = path("tests", "sample", "de405.questions")
        bad = ["hello", f"1 same no{SIX}", f"0 same no{SIX[:-1]}", f"0 sideways no{SIX}", f"0 forward no{SIX}", "0 refused 18 0", f"0 same no{SIX}\nrefused 2 0"]
        bad += [f"0 same{SIX}", f"0 same maybe{SIX}", f"0 17{SIX}", f"0 same{SIX} no"]
        bad += ["refused 11 499", f"0 same no{SIX}\nrefused 10 0", "1 refused 10 0", "0 refused 22 0", "refused 20 0", "refused 22 0", "segments 2\n0 1 2 1 2 0000000000000000 0000000000000000 1 2 yes", "segments 1\n0 1 2", f"0 same no{SIX}\n1 17 no{SIX}"]
        for line in bad:
            code, out, errors = tool("readable.py", data=line.encode() + b"\n")
            self.assertEqual((code, out), (1, b""), line)
            self.assertNotIn("Traceback", errors)
        self.assertEqual(tool("readable.py", "-q", asked, data=f"0 same no{SIX}\n".encode())[0], 1)
        self.assertEqual(tool("readable.py", data=f"0 same no{SIX}".encode())[0], 1)

    def test_nothing_asked(self):
        self.assertEqual(tool("readable.py", data=b"")[:2], (0, b""))

    def test_help(self):
        for name in ("questions.py", "readable.py"):
            code, out, _ = tool(name, "--help")
            self.assertEqual(code, 0)
            self.assertIn("not proved", out.decode())


if __name__ == "__main__":
    unittest.main()
