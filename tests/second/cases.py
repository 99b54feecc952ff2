#!/usr/bin/env python3
"""cases.py FILE...: the second program's lines about blocks, as the program `replay_cases` writes them; tests/oracle/stored.py describes a block."""

import struct
import sys

import second

# the program `replay_cases` stands for a small host
second.MOST_SEGMENTS = 256

PROGRAMS = {0: "ask", 1: "ask", 2: "orient", 3: "alone", 4: "alone_pck"}


def numbered(lines, records):
    """Lines of segments alone, with the segment after the question's number."""
    for line, (segment, _) in zip(lines, records):
        number, _, rest = line.partition(" ")
        yield line if rest.startswith("refused") else f"{number} forward {segment} {rest}"


def block_lines(program, origin, kernel, questions, turn):
    """What is said of the questions to a kernel with the table of `origin`."""
    table = second.open_pck(origin) if program in ("orient", "alone_pck") else second.open_spk(origin)
    if isinstance(table, second.Refusal):
        return [second.refused_line(table)]
    records = second.question_records(program, questions)
    if records is None:
        return [second.refused_line(second.Refusal(19, 0))]
    if program == "ask":
        framed = (second.signed32(turn, 72), second.matrix_rows(turn[:72])) if turn else ()
        return second.ask_lines(kernel, table, records, *framed)
    if program == "orient":
        return second.orient_lines(kernel, table, records)
    if program == "alone_pck":
        return second.alone_pck_lines(kernel, table, records)
    return numbered(second.alone_lines(kernel, table, records), records)


def blocks(data):
    """Program, table's kernel, kernel, questions, and matrix with frame, of each block."""
    at = 0
    while at < len(data):
        kind, *lengths = struct.unpack_from("<4I", data, at)
        places = [at + 16, at + 16 + (76 if kind == 1 else 0)]
        for n in lengths:
            places.append(places[-1] + n)
        turn, origin, kernel, questions = (data[a:b] for a, b in zip(places, places[1:]))
        yield PROGRAMS[kind], origin or kernel, kernel, questions, turn
        at = places[-1]


def main():
    for path in sys.argv[1:]:
        with open(path, "rb") as f:
            for block in blocks(f.read()):
                for line in block_lines(*block):
                    print(line)


if __name__ == "__main__":
    main()
