#!/usr/bin/env python3
"""Holds a program that writes usage statements against second.py.

    usage.py PROGRAM... [--seed N] [--scale N]

PROGRAM may be several words, an emulator in front for example.  It is run on
each usage file made here, the file on its standard input, and its standard
output must be what second.py gives, byte for byte.  The output is also held
against what a statement must be whatever second.py says: its form, its sums,
the merge law and the shuffle law.

Fails with the file written to `target` beside this program where something
differs, where the program can't be run, is ended by a signal or writes to
the error output, and where a class of files, an outcome or a law had no
case.
"""

import os
import random
import re
import struct
import subprocess
import sys
import tempfile
from collections import Counter, namedtuple
from concurrent.futures import ThreadPoolExecutor

import second

HERE = os.path.dirname(os.path.abspath(__file__))
LONGEST_RUN = 120  # seconds
TASKS_AT_ONCE = 64

MARK = b"\xa5\x5a"
LENGTH = 8
LARGEST = 65536
MOST_RECORDS = LARGEST // LENGTH
MOST_SUPPLIERS = 512
NUMBERS = 2 ** 32

STATEMENT, TOO_LONG, MALFORMED, TOO_MANY = "statement", "18", "19", "20"
OUTCOMES = (STATEMENT, TOO_LONG, MALFORMED, TOO_MANY)

WRONG_MARKS = (b"\x5a\xa5", b"\xa5\x5b", b"\xa5\x5c", b"\xa5\x5d",
               b"\xa5\x5e", b"\xa4\x5a", b"\x25\x5a", b"\xa5\xda",
               b"\x00\x5a", b"\xa5\x00", b"\x00\x00", b"\xff\xff",
               b"\xa5\xa5", b"\x5a\x5a", b"\xa5\x59")

# Files that are run one after the other; `law` is held against their outputs
# together, `outcome` is the one that the files were made for, None where the
# maker doesn't know it.
Task = namedtuple("Task", "sort name files law outcome opened")


class Failed(Exception):
    """What is wrong, and the usage files that show it."""

    def __init__(self, text, files=()):
        super().__init__(text)
        self.files = list(files)


# Making files

def usage(chance, suppliers):
    """A usage file with a record for each supplier, segments at random."""
    segments = chance.choice((
        lambda: chance.randrange(65536), lambda: chance.randrange(256),
        lambda: 0, lambda: 65535, lambda: 0x5AA5))
    return b"".join(struct.pack("<2sHI", MARK, segments(), supplier)
                    for supplier in suppliers)


def reversed_bytes(number):
    return int.from_bytes(number.to_bytes(4, "little"), "big")


def pool(chance, count):
    """So many suppliers' numbers, no two the same, in no order."""
    kind = chance.randrange(6) if count <= 1024 else 5
    if kind == 0:
        start = chance.choice((0, 1, chance.randrange(1000000)))
        found = range(start, start + count)
    elif kind == 1:
        found = range(NUMBERS - count, NUMBERS)
    elif kind == 2:
        found = range(2 ** 31 - count // 2, 2 ** 31 - count // 2 + count)
    elif kind == 3:
        # Alike but for one or two bytes.
        shift = chance.choice((8, 16, 22))
        start = chance.randrange(256)
        found = [start + (i << shift) for i in range(count)]
    elif kind == 4:
        # Each number with its bytes reversed.
        found = set()
        while len(found) < count:
            number = chance.randrange(NUMBERS)
            found |= {number, reversed_bytes(number)}
        found = sorted(found)[:count]
    else:
        found = chance.sample(range(NUMBERS), count)
    found = list(found)
    chance.shuffle(found)
    return found


def length(chance):
    """A number of records, often small, up to the most."""
    return chance.randint(0, chance.choice(
        (3, 3, 40, 40, 600, 600, 2000, MOST_RECORDS)))


def drawn(chance, numbers, count):
    """So many suppliers from a pool: evenly, mostly the first ones, or in
    runs."""
    way = chance.randrange(3)
    if way == 0:
        return chance.choices(numbers, k=count)
    if way == 1:
        return [numbers[int(len(numbers) * chance.random() ** 4)]
                for _ in range(count)]
    found = []
    while len(found) < count:
        found += [chance.choice(numbers)] * chance.randint(1, 20)
    return found[:count]


def some_suppliers(chance):
    """The suppliers of a file without a fault but, at times, too many."""
    count = chance.choice((
        1, 2, 3, chance.randint(4, 13), chance.randint(14, 300),
        chance.randint(300, 512), chance.randint(513, 2000)))
    records = (length(chance) if count < 300 or chance.random() < 0.5 else
               chance.randint(count, min(5 * count, MOST_RECORDS)))
    return drawn(chance, pool(chance, count), records)


def close_suppliers(chance):
    """508 to 516 suppliers that all appear, in some order."""
    numbers = pool(chance, chance.randint(508, 516))
    order = chance.randrange(4)
    if order == 0:
        numbers.sort()
    elif order == 1:
        numbers.sort(reverse=True)
    if order < 3:
        # Each at its first appearance may be followed by known ones.
        found = []
        for i, number in enumerate(numbers):
            found.append(number)
            while chance.random() < 0.3:
                found.append(numbers[chance.randint(0, i)])
        return found
    found = numbers + drawn(chance, numbers, chance.randint(0, 1500))
    chance.shuffle(found)
    return found


def crossing(suppliers):
    """The place of the record that names the 513th supplier, or None."""
    seen = set()
    for i, supplier in enumerate(suppliers):
        seen.add(supplier)
        if len(seen) > MOST_SUPPLIERS:
            return LENGTH * i
    return None


def damage_place(chance, suppliers):
    """A byte of a file; if it has too many suppliers often one close to the
    513th's record."""
    size = LENGTH * len(suppliers)
    place = crossing(suppliers)
    if place is None or chance.random() < 0.3:
        return chance.randrange(size)
    return min(max(place + chance.randint(-24, 31), 0), size - 1)


def change(chance, file, place):
    """A bit flipped, or a byte written over."""
    new = bytearray(file)
    new[place] ^= chance.choice((1 << chance.randrange(8),
                                 chance.randint(1, 255)))
    return bytes(new)


def cut_off(chance, file, place):
    """Bytes cut off at the end: a few, or all from a place on."""
    if chance.random() < 0.5:
        return file[:-chance.randint(1, min(len(file), 20))]
    return file[:place]


def insert(chance, file, place):
    count = chance.choice((1, 2, 4, 7, 8, 8, 16, chance.randint(1, 16)))
    if chance.random() < 0.5:
        place -= place % LENGTH
    new = chance.choice((chance.randbytes(count), bytes(count),
                         (MARK * count)[:count], (file * 2)[:count]))
    return file[:place] + new + file[place:]


def take_out(chance, file, place):
    count = chance.choice((1, 2, 4, 7, 8, 8, 16, chance.randint(1, 16)))
    return file[:place] + file[place + count:]


def other_mark(chance, file, place):
    place -= place % LENGTH
    return file[:place] + chance.choice(WRONG_MARKS) + file[place + 2:]


DAMAGES = (("a byte changed", change), ("bytes cut off", cut_off),
           ("bytes inserted", insert), ("bytes taken out", take_out),
           ("another mark", other_mark))


# Edge files

def edge_files(chance):
    """(name, file, outcome) of each edge."""
    return (short_files(chance) + number_files(chance)
            + supplier_files(chance) + fault_files(chance)
            + long_files(chance))


def short_files(chance):
    one, two = usage(chance, [7]), usage(chance, [7, 3])
    found = [("no bytes", b"", STATEMENT), ("8 bytes", one, STATEMENT),
             ("8 zeros", bytes(8), MALFORMED), ("16 bytes", two, STATEMENT)]
    for left in range(1, 8):
        found += [("%d bytes" % left, one[:left], MALFORMED),
                  ("%d zeros" % left, bytes(left), MALFORMED),
                  ("%d bytes" % (8 + left), two[:8 + left], MALFORMED),
                  ("8 bytes and %d zeros" % left, one + bytes(left),
                   MALFORMED)]
    for mark in WRONG_MARKS:
        found += [("mark " + mark.hex(), mark + one[2:], MALFORMED),
                  ("second mark " + mark.hex(), one + mark + one[2:],
                   MALFORMED)]
    found.append(("a byte before the mark", b"\0" + two, MALFORMED))
    found.append(("a byte between records", one + b"\0" + one, MALFORMED))
    return found


def number_files(chance):
    """Files of few suppliers, for the numbers that are printed."""
    tens = [10 ** k for k in range(10)]
    bits = [1 << k for k in range(32)]
    sets = [[0], [NUMBERS - 1], [0, NUMBERS - 1], [NUMBERS - 1, 0],
            [1, 1 << 24], [1 << 24, 1], [255, 256, 65535, 65536],
            [2 ** 31, 2 ** 31 - 1], [0x01020304, 0x04030201],
            [0x5AA55AA5, 0xA55AA55A], [0x0A0D0A0D, 0x1A1A1A1A],
            tens, [x - 1 for x in tens], bits, [x - 1 for x in bits]]
    found = [("suppliers " + " ".join(map(str, s[:3])), usage(chance, s),
              STATEMENT) for s in sets]
    for supplier in (0, 1, NUMBERS - 1):
        for count in (9, 10, 99, 100, 255, 256, 999, 1000, 4096):
            found.append(("%d records of supplier %d" % (count, supplier),
                          usage(chance, [supplier] * count), STATEMENT))
    one = b"".join(struct.pack("<2sHI", MARK, 8 * i, 5)
                   for i in range(MOST_RECORDS))
    found.append(("a segment in each record", one, STATEMENT))
    return found


def orders(chance, numbers):
    return (("rising", sorted(numbers)),
            ("falling", sorted(numbers, reverse=True)),
            ("random", chance.sample(numbers, len(numbers))))


def supplier_files(chance):
    """Files of about 512 suppliers."""
    found = []
    for many, outcome in ((511, STATEMENT), (512, STATEMENT),
                          (513, TOO_MANY), (514, TOO_MANY)):
        for numbers in (list(range(many)), pool(chance, many),
                        chance.sample(range(NUMBERS), many)):
            for word, order in orders(chance, numbers):
                found.append(("%d suppliers, %s" % (many, word),
                              usage(chance, order), outcome))
    numbers = chance.sample(range(1, NUMBERS - 1), 512)
    full = usage(chance, numbers)
    for word, known in (("first", numbers[0]), ("last", numbers[-1]),
                        ("least", min(numbers)), ("largest", max(numbers))):
        found.append(("512 suppliers, then the %s again" % word,
                      full + usage(chance, [known]), STATEMENT))
    middle = next(n for n in range(sorted(numbers)[255] + 1, NUMBERS)
                  if n not in numbers)
    for word, new in (("least", 0), ("middle", middle),
                      ("largest", NUMBERS - 1)):
        found.append(("the 513th is the %s" % word,
                      full + usage(chance, [new]), TOO_MANY))
        found.append(("the 513th is the %s, after others" % word,
                      full * 2 + usage(chance, [new]) + full,
                      TOO_MANY))
    found.append(("8192 suppliers", usage(chance, chance.sample(
        range(NUMBERS), MOST_RECORDS)), TOO_MANY))
    return found


def fault_files(chance):
    """A fault before, in and after the 513th supplier's record."""
    numbers = chance.sample(range(NUMBERS), 513)
    full, last = usage(chance, numbers[:512]), usage(chance, numbers[512:])
    known = usage(chance, numbers[:1])
    over = full + last
    found = []
    for mark in WRONG_MARKS[:6]:
        broken = mark + known[2:]
        word = "mark %s " % mark.hex()
        found += [
            (word + "in the first", mark + over[2:], MALFORMED),
            (word + "before", full + broken + last, MALFORMED),
            (word + "in the 512th's", full[:-8] + mark + full[-6:] + last,
             MALFORMED),
            (word + "in the 513th's", full + mark + last[2:], MALFORMED),
            (word + "after", over + broken, TOO_MANY),
            (word + "well after", over + known * 9 + broken, TOO_MANY),
            (word + "before and after", broken + over + broken, MALFORMED)]
    for left in range(1, 8):
        found += [("the 513th's cut to %d" % left, full + last[:left],
                   MALFORMED),
                  ("cut to %d after the 513th" % left, over + known[:left],
                   TOO_MANY),
                  ("cut to %d after 512" % left, full + known[:left],
                   MALFORMED)]
    return found


def long_files(chance):
    """Files of about 65,536 bytes, and much longer ones."""
    one = usage(chance, [9] * 8200)
    many = usage(chance, list(range(512)) * 17)
    over = usage(chance, [0] * (MOST_RECORDS - 1) + [1] * 20)
    late = usage(chance, [i % 512 for i in range(MOST_RECORDS - 1)] + [600])
    found = []
    for word, file in (("one supplier", one), ("512 suppliers", many),
                       ("two suppliers", over)):
        for size in (65528, 65529, 65535, 65536, 65537, 65543, 65544, 65545):
            outcome = (TOO_LONG if size > LARGEST else
                       MALFORMED if size % LENGTH else STATEMENT)
            found.append(("%d bytes, %s" % (size, word), file[:size],
                          outcome))
    found += [
        ("65536 bytes, the 513th last", late, TOO_MANY),
        ("65537 bytes, the 513th last", late + MARK[:1], TOO_LONG),
        ("65536 bytes, the last mark broken", late[:-8] + b"\xa5\x5b"
         + late[-6:], MALFORMED),
        ("65536 bytes, the first mark broken", b"\0" + late[1:], MALFORMED),
        ("65537 bytes, the first mark broken", b"\0" + late[1:] + b"\0",
         TOO_LONG),
        ("65536 zeros", bytes(65536), MALFORMED),
        ("65537 zeros", bytes(65537), TOO_LONG),
        ("65544 bytes, too many suppliers", usage(chance, range(8193)),
         TOO_LONG),
        ("131072 bytes", one[:LARGEST] * 2, TOO_LONG),
        ("131080 bytes", one[:LARGEST] * 2 + one[:8], TOO_LONG),
        ("1048576 bytes", one[:LARGEST] * 16, TOO_LONG)]
    return found


# Laws

FORM = re.compile(rb"(?:(?:0|[1-9][0-9]*) [1-9][0-9]*\n)*"
                  rb"total (?:0|[1-9][0-9]*)\n")
REFUSED = re.compile(rb"refused (18|19|20) 0\n")


def outcome_of(output):
    """Which of the outcomes an output is; fails where it has none's form."""
    refused = REFUSED.fullmatch(output)
    if refused:
        return refused.group(1).decode()
    if FORM.fullmatch(output):
        return STATEMENT
    raise Failed("neither a statement nor a refusal of a usage file")


def read_statement(output):
    """Counts by supplier, and the total, of a statement."""
    if outcome_of(output) != STATEMENT:
        raise Failed("not a statement")
    *lines, last = output.decode().splitlines()
    pairs = [tuple(map(int, line.split())) for line in lines]
    if any(a >= b for (a, _), (b, _) in zip(pairs, pairs[1:])):
        raise Failed("suppliers out of order, or twice")
    return dict(pairs), int(last.split()[1])


def check_sums(file, output):
    """A statement's counts add up to its total, the number of records."""
    counts, total = read_statement(output)
    if len(counts) > MOST_SUPPLIERS or any(n >= NUMBERS for n in counts):
        raise Failed("too many suppliers, or too large a number")
    if sum(counts.values()) != total or LENGTH * total != len(file):
        raise Failed("the counts, the total and the records don't agree")


def merge_law(files, outputs):
    """Of two good files and the one after the other: the counts are the
    sums, unless that is too long or has too many suppliers."""
    (a, total_a), (b, total_b) = map(read_statement, outputs[:2])
    outcome = outcome_of(outputs[2])
    if len(files[2]) > LARGEST:
        if outcome != TOO_LONG:
            raise Failed("two files together are too long, yet not 18")
        return "merged: 18"
    if len(set(a) | set(b)) > MOST_SUPPLIERS:
        if outcome != TOO_MANY:
            raise Failed("two files together have over 512, yet not 20")
        return "merged: 20"
    both, total = read_statement(outputs[2])
    sums = {n: a.get(n, 0) + b.get(n, 0) for n in set(a) | set(b)}
    if both != sums or total != total_a + total_b:
        raise Failed("the counts of two files together are not the sums")
    return "merged: sums"


def shuffle_law(files, outputs):
    """Of a file of whole records, the same shuffled, and that with other
    segments: the outputs are the same."""
    if outputs[1] != outputs[0]:
        raise Failed("shuffling the records changes the output")
    if outputs[2] != outputs[0]:
        raise Failed("other segment numbers change the output")
    return "shuffled: " + outcome_of(outputs[0])


LAWS = ("merged: sums", "merged: 18", "merged: 20", "shuffled: statement",
        "shuffled: 20")


def merge_files(chance, which):
    """Two good files and the one after the other; `which` chooses what
    becomes of them together."""
    if which == 0:
        numbers = pool(chance, chance.randint(520, 1000))
        parts = numbers[:chance.randint(260, 510)], numbers[-400:]
        a, b = (part + drawn(chance, part, chance.randint(0, 300))
                for part in parts)
    elif which == 1:
        numbers = pool(chance, chance.randint(1, 300))
        a, b = (drawn(chance, numbers, chance.randint(4097, 6000))
                for _ in "ab")
    else:
        numbers = pool(chance, chance.randint(1, 512))
        parts = [numbers[:chance.randint(1, len(numbers))],
                 numbers[chance.randrange(len(numbers)):]]
        chance.shuffle(parts)
        a, b = (drawn(chance, part, min(length(chance), MOST_RECORDS // 2))
                for part in parts)
    a, b = usage(chance, a), usage(chance, b)
    return [a, b, a + b]


def shuffle_files(chance):
    suppliers = (some_suppliers(chance) if chance.random() < 0.6
                 else close_suppliers(chance))
    file = usage(chance, suppliers)
    records = [file[i:i + LENGTH] for i in range(0, len(file), LENGTH)]
    chance.shuffle(records)
    other = [record[:2] + chance.randbytes(2) + record[4:]
             for record in records]
    return [file, b"".join(records), b"".join(other)]


# The comparison

SORTS = (("edges", "random", "close to 512", "close to 65536")
         + tuple(word for word, _ in DAMAGES) + ("merged", "shuffled"))


def tasks(seed, scale):
    """All that is to be run.  Edge files come twice: through a pipe, and as
    an opened file; the others through a pipe."""
    def chance_for(word):
        return random.Random("%d %s" % (seed, word))

    chance = chance_for("edges")
    for name, file, outcome in edge_files(chance):
        for opened in (False, True):
            yield Task("edges", name, [file], None, outcome, opened)
    for sort, count, make in (("random", 800, some_suppliers),
                              ("close to 512", 240, close_suppliers)):
        chance = chance_for(sort)
        for i in range(count * scale):
            yield Task(sort, i, [usage(chance, make(chance))], None, None,
                       False)
    chance = chance_for("close to 65536")
    for i in range(80 * scale):
        numbers = pool(chance, chance.choice((1, 40, 512, 513)))
        size = chance.choice((65520, 65528, 65536, 65544,
                              chance.randint(65500, 65600)))
        file = usage(chance, drawn(chance, numbers, 8200))
        yield Task("close to 65536", i, [file[:size]], None, None, False)
    for sort, damage in DAMAGES:
        chance = chance_for(sort)
        for i in range(160 * scale):
            suppliers = (some_suppliers(chance) if chance.random() < 0.6
                         else close_suppliers(chance)) or [i]
            file = damage(chance, usage(chance, suppliers),
                          damage_place(chance, suppliers))
            yield Task(sort, i, [file], None, None, False)
    chance = chance_for("merged")
    for i in range(80 * scale):
        yield Task("merged", i, merge_files(chance, i % 8), merge_law, None,
                   False)
    chance = chance_for("shuffled")
    for i in range(80 * scale):
        yield Task("shuffled", i, shuffle_files(chance), shuffle_law, None,
                   False)


def run(program, file, opened):
    """What the program writes for a usage file."""
    try:
        if opened:
            with tempfile.TemporaryFile() as given:
                given.write(file)
                given.seek(0)
                done = subprocess.run(program, stdin=given,
                                      capture_output=True, check=False,
                                      timeout=LONGEST_RUN)
        else:
            done = subprocess.run(program, input=file, capture_output=True,
                                  check=False, timeout=LONGEST_RUN)
    except OSError as error:
        raise Failed("the program can't be run: %s" % error)
    except subprocess.TimeoutExpired:
        raise Failed("the program takes over %d seconds" % LONGEST_RUN,
                     [file])
    if done.returncode < 0:
        raise Failed("the program was ended by signal %d" % -done.returncode,
                     [file])
    if done.stderr:
        raise Failed("the program writes to the error output: %r"
                     % done.stderr[:200], [file])
    return done.stdout


def expected_output(file):
    return "".join(line + "\n"
                   for line in second.statement_lines(file)).encode()


def compare(file, output):
    """Fails where the output is not the second program's."""
    expected = expected_output(file)
    if output == expected:
        return
    ours, theirs = (text.splitlines(keepends=True)
                    for text in (expected, output))
    place = next((i for i, pair in enumerate(zip(ours, theirs))
                  if pair[0] != pair[1]), min(len(ours), len(theirs)))
    said = [ascii(b"".join(lines[place:place + 2])[:80])[1:]
            for lines in (ours, theirs)]
    raise Failed("other bytes from line %d on: second.py has %s, the program "
                 "%s" % (place + 1, *said), [file])


def check(task, outputs, counts, laws):
    """Fails where a task's outputs are not what they must be."""
    for file, output in zip(task.files, outputs, strict=True):
        try:
            compare(file, output)
            outcome = outcome_of(output)
            if task.outcome not in (None, outcome):
                raise Failed("the outcome is %s, and the file was made for "
                             "%s" % (outcome, task.outcome))
            if outcome == STATEMENT:
                check_sums(file, output)
        except Failed as failed:
            failed.files = [file]
            raise
        counts[task.sort, outcome] += 1
    if task.law is not None:
        try:
            laws[task.law(task.files, outputs)] += 1
        except Failed as failed:
            failed.files = task.files
            raise


def batches(items, size):
    batch = []
    for item in items:
        batch.append(item)
        if len(batch) == size:
            yield batch
            batch = []
    if batch:
        yield batch


def compare_all(program, seed, scale):
    """Runs all tasks in order; the counts by sort and outcome, and of the
    laws."""
    counts, laws = Counter(), Counter()

    def outputs_of(task):
        try:
            return [run(program, file, task.opened) for file in task.files]
        except Failed as failed:
            return failed

    with ThreadPoolExecutor(os.cpu_count() or 1) as threads:
        for batch in batches(tasks(seed, scale), TASKS_AT_ONCE):
            for task, outputs in zip(batch, threads.map(outputs_of, batch)):
                try:
                    if isinstance(outputs, Failed):
                        raise outputs
                    check(task, outputs, counts, laws)
                except Failed as failed:
                    raise Failed("%s, %s: %s" % (task.sort, task.name,
                                                 failed), failed.files)
    return counts, laws


def report(counts, laws, seed, scale):
    """Prints the counts; fails where one of them is of nothing."""
    print("%-16s %9s" % ("", "files") + "".join("%10s" % o for o in OUTCOMES))
    for sort in SORTS:
        row = [counts[sort, outcome] for outcome in OUTCOMES]
        print("%-16s %9d" % (sort, sum(row)) + "".join("%10d" % n
                                                       for n in row))
    totals = {outcome: sum(counts[sort, outcome] for sort in SORTS)
              for outcome in OUTCOMES}
    print("laws held: " + ", ".join("%s %d" % (law, laws[law])
                                    for law in LAWS))
    print("seed %d, scale %d: %d files compared; %d statements, refused "
          "with 18: %d, 19: %d, 20: %d" % (
              seed, scale, sum(counts.values()),
              *[totals[outcome] for outcome in OUTCOMES]))
    missing = [sort for sort in SORTS
               if not any(counts[sort, outcome] for outcome in OUTCOMES)]
    missing += [outcome for outcome in OUTCOMES if not totals[outcome]]
    missing += [law for law in LAWS if not laws[law]]
    if missing:
        raise Failed("no case of: " + ", ".join(missing))
    print("the same bytes for every file")


def write_out(files):
    """The paths that the files of a failure were written to."""
    folder = os.path.join(HERE, "target")
    os.makedirs(folder, exist_ok=True)
    paths = []
    for i, file in enumerate(files):
        paths.append(os.path.join(folder, "differs-%d.usage" % (i + 1)))
        with open(paths[-1], "wb") as opened:
            opened.write(file)
    return paths


def arguments(words):
    """Program, seed and scale: the options stand before or after it."""
    options = {"--seed": 1, "--scale": 1}
    try:
        while len(words) >= 2 and words[-2] in options:
            options[words[-2]] = int(words[-1])
            words = words[:-2]
        while len(words) >= 2 and words[0] in options:
            options[words[0]] = int(words[1])
            words = words[2:]
    except ValueError:
        return None
    if not words or set(words) & set(options) or options["--scale"] < 1:
        return None
    return words, options["--seed"], options["--scale"]


def main(words):
    found = arguments(words)
    if found is None:
        sys.stderr.write("usage.py PROGRAM... [--seed N] [--scale N]\n")
        return 2
    program, seed, scale = found
    try:
        report(*compare_all(program, seed, scale), seed, scale)
    except Failed as failed:
        print("failed: %s" % failed)
        for path in write_out(failed.files):
            print("written out: %s" % path)
        return 1
    return 0


if __name__ == "__main__":
    sys.exit(main(sys.argv[1:]))
