#!/usr/bin/env python3
"""Translates a proof file to a Coq file with one term.

  to_coq.py NAME.proof     the Coq file to standard output, status 0
                           or the reason why there is no term to standard error, status 3

Record n of the proof file stands in line n of the Coq file, so that an error of Coq names the record.
Line n of the derivation is `ln`, a closed box is the function `bn`, and both are in scope exactly as
Coq's `let .. in` and `fun` have it. No rule is checked here: the citations are followed blindly, a
number as `l..` or `b..` as the rule takes it, and Coq is the judge. Nothing is said of a name that is
not in scope, of a type that does not fit, or of `dne` in mode I, where no such hypothesis is given.
"""
import os
import re
import sys

SIGNS = {"&": "/\\", "|": "\\/", ">": "->"}
DNE = "(dne : forall P : Prop, ((P -> False) -> False) -> P)"
TERMS = {  # places, term; {0} {1} {2} the citations, {f} the line's formula
    "R": ("l", "{0}"),
    "&I": ("ll", "conj {0} {1}"),
    "&1": ("l", "proj1 {0}"),
    "&2": ("l", "proj2 {0}"),
    "|1": ("l", "or_introl {0}"),
    "|2": ("l", "or_intror {0}"),
    "|E": ("lbb", "match {0} return {f} with or_introl case1 => {1} case1 | or_intror case2 => {2} case2 end"),
    ">I": ("b", "{0}"),
    ">E": ("ll", "{0} {1}"),
    "#E": ("l", "False_ind {f} {0}"),
    "RA": ("b", "dne {f} {0}"),
}


class NoTerm(Exception):
    pass


def formula(text):
    """A formula's text as a Coq type, fully bracketed."""
    def part(i):
        c = text[i:i + 1]
        if c == "#":
            return "False", i + 1
        if c == "~":
            a, i = part(i + 1)
            return "(%s -> False)" % a, i
        if c == "(":
            a, i = part(i + 1)
            sign = SIGNS.get(text[i:i + 1])
            if sign is None:
                raise NoTerm("no formula: " + text)
            b, i = part(i + 1)
            if text[i:i + 1] != ")":
                raise NoTerm("no formula: " + text)
            return "(%s %s %s)" % (a, sign, b), i + 1
        if re.fullmatch("[a-z]", c):
            return c, i + 1
        raise NoTerm("no formula: " + text)

    done, i = part(0)
    if i != len(text):
        raise NoTerm("no formula: " + text)
    return done


def translate(name, data):
    records = [r.split("\t") for r in data.split("\n")[:-1]]
    if not records or records[0][0] != "M" or records[0][1:] not in (["I"], ["C"]):
        raise NoTerm("no mode")
    letters = sorted({c for r in records if r[0] in "PAS" for c in r[1] if "a" <= c <= "z"})
    out = ["Definition %s%s%s" % (
        name, " (%s : Prop)" % " ".join(letters) if letters else "", " " + DNE if records[0][1] == "C" else "")]
    turn = "PASZ"
    count = 0
    head = 0          # the place in `out` after which the conclusion's type goes
    ends = [None]     # the last line written directly at the top level and in each open box
    conclusion = None
    for fields in records[1:]:
        kind = fields[0]
        if kind not in ("P", "A", "S", "Z") or kind not in turn:
            raise NoTerm("a record out of turn: " + kind)
        if kind != "P":
            turn = "ASZ"
        if kind == "Z":
            if len(ends) == 1:
                raise NoTerm("a close without an open box")
            out.append("  l%d in" % ends.pop())
            continue
        count += 1
        f = formula(fields[1])
        if kind == "P":
            out.append("  (l%d : %s)" % (count, f))
            head = len(out) - 1
        elif kind == "A":
            out.append("  let b%d := fun l%d : %s =>" % (count, count, f))
            ends.append(count)
        else:
            if fields[2] not in TERMS:
                raise NoTerm("no rule: " + fields[2])
            places, term = TERMS[fields[2]]
            if len(fields) - 3 != len(places):
                raise NoTerm("%s has %d citations" % (fields[2], len(fields) - 3))
            out.append("  let l%d : %s := %s in" % (
                count, f, term.format(*[p + n for p, n in zip(places, fields[3:])], f=f)))
        ends[-1] = count
        if len(ends) == 1:
            conclusion = f
    if len(ends) > 1:
        raise NoTerm("a box is open at the end")
    if conclusion is None:
        raise NoTerm("no line at the top level")
    out[head] += " : %s :=" % conclusion
    out.append("  l%d." % ends[0])
    out.append("Print Assumptions %s." % name)
    return "\n".join(out) + "\n"


if __name__ == "__main__":
    sys.setrecursionlimit(10000)
    path = sys.argv[1]
    try:
        sys.stdout.write(translate(os.path.basename(path)[:-len(".proof")], open(path, encoding="latin-1", newline="").read()))
    except NoTerm as reason:
        sys.stderr.write("%s\n" % reason)
        sys.exit(3)
