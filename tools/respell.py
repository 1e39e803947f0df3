#!/usr/bin/env python3
"""Spells the repository's own definitions and lemmas as today's Rattle does: types and facts in camel case, everything else in snake case.

usage: python3 tools/respell.py [--list]     at the top of the repository, right after the kit's port.py

Only names that files of specs/ and proofs/ define are turned, in .antt files and in the clauses of .rt files; names that the
prover makes (goals, steps), the library's names and the functions of src/ keep theirs. Two names that would fall together stop it.
"""
import collections
import os
import re
import sys

WORD = re.compile(r"[A-Za-z◌⊑'·][A-Za-z0-9_'ℕ·◌⊑]*(?:-[A-Za-z0-9_'ℕ<≤≡*+∷]+)*")
NAME = r"[A-Za-z][A-Za-z0-9_'ℕ-]*"
HEAD = re.compile(r"\s*(?:(?:abbrev|unfoldable|pub|data|record|ruleset)\s+)*(" + NAME + "(?: " + NAME + ")*) *(?:[({].*)?:")
LOCAL = re.compile(r"\b(?:let|as) (" + NAME + r")(?= *[=:,}])")
LIBRARY = re.compile(r"\s*(?:ghost )?use (?:Rattle\.std|borrow|native|Prim|denote|lib|mathlib|logic|core)[\w.]*\.\{(.*)\}")
STRING = re.compile(r'b?"(?:[^"\\]|\\.)*"')
# a lemma that would have the name of the function that it is about
LEMMAS = {"box-cited": "box_cited_lem", "conclusions-follow": "conclusions_follow_lem", "meets-are-greatest": "meets_are_greatest_lem"}
# modules, variables of tests and names of other crates, which nothing confuses with these
APART = {"EnteringLaws", "FirstPlaces", "TextLaws", "implies_at", "is_joined", "premise_places", "too_deep"}
ANSWERS = ("Answers.antt", "Invariants.antt", "Proof.antt")


def files():
    for folder, dirs, names in os.walk("crates"):
        dirs[:] = sorted(d for d in dirs if d != "out")
        for name in sorted(names):
            if name.endswith((".antt", ".rt")):
                yield os.path.join(folder, name)


def code(path, line):
    """The part of a line in which names are turned, and the rest."""
    mark = "--" if path.endswith(".antt") else "//"
    at = line.find(mark)
    if mark == "--" and at > 0 and line[at - 1] not in " \t":
        at = -1
    return (line, "") if at < 0 else (line[:at], line[at:])


def respelled(path, text, turned):
    turn = lambda part: WORD.sub(lambda m: turned.get(m.group(0), m.group(0)), part)
    if path.endswith(".antt"):
        return turn(text)
    strings = STRING.findall(text)
    parts = STRING.split(text)
    return "".join(turn(part) + string for part, string in zip(parts, strings + [""]))


def spelled(name):
    parts = name.split("-")
    if name[0].isupper():
        return "".join(p[0].upper() + p[1:] for p in parts)
    return "_".join(parts)


def main():
    defined, goals, library, all_words = set(), set(), set(), collections.Counter()
    for path in files():
        answers = os.path.basename(path) in ANSWERS
        for line in open(path, encoding="utf-8"):
            text, _ = code(path, line)
            all_words.update(WORD.findall(text))
            taken = LIBRARY.match(text)
            if taken:
                library.update(w for w in WORD.findall(taken.group(1)))
            head = HEAD.match(text)
            if head and path.endswith(".antt") and not text.lstrip().startswith("use "):
                if answers and re.search(r":\s*goal\.", text):
                    goals.update(head.group(1).split())
                else:
                    defined.update(head.group(1).split())
            if path.endswith(".antt") or "ghost use" in text:
                defined.update(LOCAL.findall(text))
    own = {n for n in defined if "-" in n} - goals - library
    turned = {n: LEMMAS.get(n, spelled(n)) for n in sorted(own)}
    together = collections.defaultdict(set)
    for old, new in turned.items():
        together[new].add(old)
    for new in list(together):
        if new in all_words and new not in APART:
            together[new].add(new)
    clash = {new: olds for new, olds in together.items() if len(olds) > 1}
    if "--list" in sys.argv:
        for old, new in turned.items():
            print(old, new)
        for new, olds in clash.items():
            print("falls together:", new, sorted(olds))
        return
    if clash:
        sys.exit(f"names that fall together: {sorted(clash)}")
    for path in files():
        lines = open(path, encoding="utf-8").readlines()
        out = []
        for line in lines:
            text, rest = code(path, line)
            out.append(respelled(path, text, turned) + rest)
        if out != lines:
            with open(path, "w", encoding="utf-8") as f:
                f.writelines(out)


main()
