#!/usr/bin/env python3
"""Writes the inputs that tools/bench/run.sh measures, to a folder.

  inputs.py FOLDER

steps_N: a derivation of N lines, a premise and the others by R. texts_N: N lines by |1, each with a formula that adds five records to
the store; 813 of them leave room for four. known: a store half full, and then a long formula that it has, again and again, up to 65,536
bytes; the last record is wrong in form, so that all before it is read. short: the same size with short records. deep and
brackets: the deepest formula, and the most brackets. A .weigh has its proof file weighed in a frame of 12 worlds in a row.
"""
import itertools
import os
import sys

folder = sys.argv[1]
os.makedirs(folder, exist_ok=True)


def put(name, text):
    with open(os.path.join(folder, name), "w") as file:
        file.write(text)


def steps(lines):
    return "M\tI\nP\tp\n" + "S\tp\tR\t1\n" * (lines - 1)


def pairs():
    letters = "abcdefghijklmnopqrstuvwxyz"
    return (f"({x}{sign}{y})" for sign in "&|>" for x, y in itertools.product(letters, letters))


def texts(lines):
    return "M\tI\nP\ta\n" + "".join(f"S\t(a|~~~{pair})\t|1\t1\n" for pair in itertools.islice(pairs(), lines))


def up_to_the_limit(text, row):
    text += row * ((65536 - len(text) - 1) // len(row))
    return text + "z" * (65536 - len(text))


def joined(parts):
    while len(parts) > 1:
        parts = [f"({parts[i]}&{parts[i + 1]})" if i + 1 < len(parts) else parts[i] for i in range(0, len(parts), 2)]
    return parts[0]


FRAME = "=\nK\t12\n" + "".join(f"L\t{u}\t{u + 1}\n" for u in range(11))

for lines in (128, 256, 512, 1024):
    put(f"steps_{lines}.proof", steps(lines))
    put(f"steps_{lines}.weigh", steps(lines) + FRAME)
for lines in (100, 200, 400, 813):
    put(f"texts_{lines}.proof", texts(lines))
    put(f"texts_{lines}.weigh", texts(lines) + FRAME)
long = joined(list(itertools.islice(pairs(), 128)))
put("known.proof", up_to_the_limit(texts(350), f"S\t{long}\tR\t1\n"))
put("short.proof", up_to_the_limit("M\tI\n", "S\t(p&(q|(r>~s)))\t>E\t1\t2\n"))
put("deep.proof", "M\tI\nP\t" + "~" * 32 + "p\n")
put("brackets.proof", "M\tI\nP\t" + "(" * 1024 + "\n")
