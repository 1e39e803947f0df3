#!/usr/bin/env python3
"""Writes long_1024.proof: a ring of sixteen implications makes each of its letters imply each other.

Premises (a>b), (b>c), .., (o>p), (p>a): 16 lines. Then, for each distance 2 to 15 and each letter x,
(x>y) by a box of three lines: 14 * 16 * 4 = 896 lines. Then the last 113 of these implications are
joined by &, two neighbours at a time: 112 lines. Together 1,024.
"""
import os

letters = "abcdefghijklmnop"
size = len(letters)
records = ["M\tI"]
lines = 0


def line(*fields):
    global lines
    records.append("\t".join(fields))
    lines += 1
    return lines


def letter(i):
    return letters[i % size]


def arrow(i, distance):
    return "(%s>%s)" % (letter(i), letter(i + distance))


at = {}  # (start, distance) -> line
for i in range(size):
    at[i, 1] = line("P", arrow(i, 1))
derived = []
for distance in range(2, size):
    for i in range(size):
        box = line("A", letter(i))
        halfway = line("S", letter(i + distance - 1), ">E", str(at[i, distance - 1]), str(box))
        line("S", letter(i + distance), ">E", str(at[(i + distance - 1) % size, 1]), str(halfway))
        records.append("Z")
        at[i, distance] = line("S", arrow(i, distance), ">I", str(box))
        derived.append((arrow(i, distance), at[i, distance]))

row = derived[-113:]
while len(row) > 1:
    joined = []
    for k in range(0, len(row) - 1, 2):
        text = "(%s&%s)" % (row[k][0], row[k + 1][0])
        joined.append((text, line("S", text, "&I", str(row[k][1]), str(row[k + 1][1]))))
    if len(row) % 2:
        joined.append(row[-1])
    row = joined

assert lines == 1024, lines
where = os.path.join(os.path.dirname(os.path.abspath(__file__)), "long_1024.proof")
with open(where, "w", newline="") as out:
    out.write("".join(record + "\n" for record in records))
