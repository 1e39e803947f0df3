#!/usr/bin/env python3
"""Compares two programs with second.py on made inputs.

    differ.py --check PROGRAM --weigh PROGRAM --cases N [--seed S] [--saved FOLDER] [--threads T]
    differ.py --self-test

PROGRAM may be a path or a command with arguments. Case i of seed S is always the same input: --case I runs it alone.
"""
import argparse
import collections
import concurrent.futures
import os
import random
import shlex
import subprocess
import sys
import traceback

import second
import table

# ---------------------------------------------------------------- formulas and their texts

SIGNS = '&|>'


def no(a):
    return ('>', a, '#')


def some_formula(rng, depth=2, letters='ppqqrs'):
    if depth == 0 or rng.random() < .4:
        return '#' if rng.random() < .12 else rng.choice(letters)
    if rng.random() < .25:
        return no(some_formula(rng, depth - 1, letters))
    return (rng.choice(SIGNS), some_formula(rng, depth - 1, letters), some_formula(rng, depth - 1, letters))


def text_of(rng, formula, brackets=.2):
    """One of the formula's texts."""
    if isinstance(formula, str):
        return formula
    sign, a, b = formula
    if (sign, b) == ('>', '#') and rng.random() >= brackets:
        return '~' + text_of(rng, a, brackets)
    return '(' + text_of(rng, a, brackets) + sign + text_of(rng, b, brackets) + ')'


def size(formula):
    return 1 if isinstance(formula, str) else 1 + size(formula[1]) + size(formula[2])


def parts_of(formula):
    yield formula
    if not isinstance(formula, str):
        yield from parts_of(formula[1])
        yield from parts_of(formula[2])


def tree(rng, atoms, deep=False):
    """These atoms joined by random signs, balanced or somewhat leaning."""
    if len(atoms) == 1:
        return atoms[0]
    half = len(atoms) // 2
    if deep and len(atoms) > 3:
        half = rng.choice((1, half, len(atoms) - 1))
    return '(' + tree(rng, atoms[:half], deep) + rng.choice(SIGNS) + tree(rng, atoms[half:], deep) + ')'


def text_of_length(rng, length):
    """A formula's text of exactly this length, nesting little if it can."""
    joints, tildes = divmod(length - 1, 4)
    atoms = [rng.choice('pqrst#') for _ in range(joints + 1)]
    for _ in range(tildes):
        place = rng.randrange(len(atoms))
        atoms[place] = '~' + atoms[place]
    return tree(rng, atoms)


def text_of_nesting(rng, nesting):
    text = rng.choice('pq#')
    for _ in range(nesting):
        other = rng.choice('pqr#') if rng.random() < .8 else '~' + rng.choice('pq')
        if len(other) == 2 and text in 'pqr#':
            other = 'p'
        way = rng.randrange(3)
        text = ('~' + text if way == 0 else '(' + text + rng.choice(SIGNS) + other + ')' if way == 1
                else '(' + other + rng.choice(SIGNS) + text + ')')
    return text


# ---------------------------------------------------------------- derivations, built forward by rules that fit

class Proof:
    """Records under way. Every line is right when it is written; nothing is checked."""

    def __init__(self, rng, mode):
        self.rng, self.mode = rng, mode
        self.records = [[b'M', mode.encode()]]
        self.lines, self.open, self.shut = [], [], []       # (formula, path), first lines, (first line, path around)

    def write(self, kind, formula, *more):
        text = text_of(self.rng, formula, .15)
        self.records.append([kind, text.encode(), *(str(field).encode() for field in more)])
        self.lines.append((formula, tuple(self.open)))
        return len(self.lines)

    def premise(self, formula):
        return self.write(b'P', formula)

    def assume(self, formula):
        self.open.append(len(self.lines) + 1)
        return self.write(b'A', formula)

    def step(self, formula, rule, *cited):
        return self.write(b'S', formula, rule, *cited)

    def close(self):
        self.records.append([b'Z'])
        first = self.open.pop()
        self.shut.append((first, tuple(self.open)))
        return first

    def formula(self, line):
        return self.lines[line - 1][0]

    def reachable(self):
        opened = set(self.open)
        return [n for n, (_, path) in enumerate(self.lines, 1) if opened.issuperset(path)]

    def boxes(self):
        opened = set(self.open)
        return [first for first, around in self.shut if opened.issuperset(around)]

    def end(self, box):
        return next(formula for formula, path in reversed(self.lines) if path[-1:] == (box,))

    def pick(self, fits=lambda formula: True):
        found = [n for n in self.reachable() if fits(self.formula(n)) and size(self.formula(n)) < 60]
        return self.rng.choice(found) if found else None


def is_a(sign):
    return lambda formula: formula[0] == sign


def is_no(formula):
    return formula[0] == '>' and formula[2] == '#'


def one_step(proof, rule):
    """One line by this rule, if some citations fit."""
    rng, pick, at = proof.rng, proof.pick, proof.formula
    other = lambda: some_formula(rng, 1)
    if rule == 'R' and (i := pick()):
        proof.step(at(i), rule, i)
    elif rule == '&I' and (i := pick()):
        j = pick()
        proof.step(('&', at(i), at(j)), rule, i, j)
    elif rule in ('&1', '&2') and (i := pick(is_a('&'))):
        proof.step(at(i)[int(rule[1])], rule, i)
    elif rule == '|1' and (i := pick()):
        proof.step(('|', at(i), other()), rule, i)
    elif rule == '|2' and (i := pick()):
        proof.step(('|', other(), at(i)), rule, i)
    elif rule == '>E' and (i := pick(is_a('>'))):
        j = pick(lambda formula: formula == at(i)[1])
        if j:
            proof.step(at(i)[2], rule, i, j)
    elif rule == '#E' and (i := pick(lambda formula: formula == '#')):
        proof.step(other(), rule, i)
    elif rule in ('>I', 'RA') and (boxes := proof.boxes()):
        box = rng.choice(boxes)
        new = ('>', at(box), proof.end(box))
        if rule == '>I' and size(new) < 60:
            proof.step(new, rule, box)
        if rule == 'RA' and proof.mode == 'C' and is_no(at(box)) and new[2] == '#':
            proof.step(at(box)[1], rule, box)
    elif rule == '|E' and (i := pick(is_a('|'))):
        fitting = [(b, c) for b in proof.boxes() for c in proof.boxes()
                   if at(b) == at(i)[1] and at(c) == at(i)[2] and proof.end(b) == proof.end(c)]
        if fitting:
            b, c = rng.choice(fitting)
            proof.step(proof.end(b), rule, i, b, c)


def by_cases(proof):
    i = proof.pick(is_a('|'))
    if not i:
        return
    _, a, b = proof.formula(i)
    way, j = proof.rng.randrange(3), proof.pick()
    new = ('|', b, a) if way == 0 else proof.formula(j) if way == 1 else no(no(('|', a, b)))
    boxes = []
    for assumed, rule in ((a, '|2'), (b, '|1')):
        first = proof.assume(assumed)
        if way == 0:
            proof.step(new, rule, first)
        elif way == 1 and assumed != new:
            proof.step(new, 'R', j)
        elif way == 2:
            denied = proof.assume(no(('|', a, b)))
            both = proof.step(('|', a, b), '|1' if rule == '|2' else '|2', first)
            proof.step('#', '>E', denied, both)
            proof.step(new, '>I', proof.close())
        boxes.append(proof.close())
    proof.step(new, '|E', i, *boxes)


def refute(proof):
    """~A is assumed where A is at hand: A by RA, or ~~A."""
    i = proof.pick()
    if i:
        a = proof.formula(i)
        proof.step('#', '>E', proof.assume(no(a)), i)
        box = proof.close()
        proof.step(a, 'RA', box) if proof.mode == 'C' else proof.step(no(no(a)), '>I', box)


def excluded_middle(proof):
    a = some_formula(proof.rng, proof.rng.choice((0, 0, 1, 2)))
    either = ('|', a, no(a))
    denied = proof.assume(no(either))
    first = proof.assume(a)
    proof.step('#', '>E', denied, proof.step(either, '|1', first))
    negated = proof.step(no(a), '>I', proof.close())
    proof.step('#', '>E', denied, proof.step(either, '|2', negated))
    box = proof.close()
    proof.step(either, 'RA', box) if proof.mode == 'C' else proof.step(no(no(either)), '>I', box)


def undeny(proof):
    i = proof.pick(lambda formula: is_no(formula) and is_no(formula[1]))
    if i and proof.mode == 'C':
        a = proof.formula(i)[1][1]
        proof.step('#', '>E', i, proof.assume(no(a)))
        proof.step(a, 'RA', proof.close())


def peirce(proof):
    p, q = some_formula(proof.rng, 1), some_formula(proof.rng, 1)
    i = proof.pick(lambda formula: formula[0] == '>' and formula[1][0] == '>' and formula[1][1] == formula[2])
    box = None
    if i:
        _, (_, p, q), _ = proof.formula(i)
    else:
        box = i = proof.assume(('>', ('>', p, q), p))
    if proof.mode == 'C':
        denied = proof.assume(no(p))
        absurd = proof.step('#', '>E', denied, proof.assume(p))
        proof.step(q, '#E', absurd)
        inner = proof.step(('>', p, q), '>I', proof.close())
        proof.step('#', '>E', denied, proof.step(p, '>E', i, inner))
        proof.step(p, 'RA', proof.close())
    if box:
        end = proof.end(box)
        proof.close()
        proof.step(('>', proof.formula(box), end), '>I', box)


def modus_tollens(proof):
    i = proof.pick(is_a('>'))
    if i:
        _, a, b = proof.formula(i)
        denied = proof.assume(no(b))
        first = proof.assume(a)
        proof.step('#', '>E', denied, proof.step(b, '>E', i, first))
        proof.step(no(a), '>I', proof.close())
        proof.close()
        proof.step(('>', no(b), no(a)), '>I', denied)


def a_box(proof):
    if len(proof.open) < 14:
        first = proof.assume(proof.rng.choice((some_formula(proof.rng), no(some_formula(proof.rng, 1)))))
        depth = len(proof.open)
        for _ in range(proof.rng.randrange(4)):
            one_move(proof, depth)
        while len(proof.open) >= depth:
            proof.close()
        if size(new := ('>', proof.formula(first), proof.end(first))) < 60 and proof.rng.random() < .7:
            proof.step(new, '>I', first)


MOVES = (by_cases, refute, excluded_middle, undeny, peirce, modus_tollens, a_box)


def one_move(proof, depth=0):
    rng, chance = proof.rng, proof.rng.random()
    if len(proof.lines) > 300:
        one_step(proof, 'R')
    elif chance < .1 and len(proof.open) < 12:
        proof.assume(some_formula(rng))
    elif chance < .2 and len(proof.open) > depth:
        proof.close()
    elif chance < .38 and len(proof.open) < 12:
        rng.choice(MOVES)(proof)
    else:
        one_step(proof, rng.choice(list(second.RULES)))


def premise_for_use(rng, letters):
    a, b = some_formula(rng, 1, letters), some_formula(rng, 1, letters)
    return rng.choice((a, no(a), no(no(a)), ('&', a, b), ('|', a, b), ('>', a, b), ('>', ('>', a, b), a),
                       some_formula(rng, 3, letters)))


def a_proof(rng):
    """The records of an accepted proof file."""
    proof = Proof(rng, rng.choice('IC'))
    letters = rng.choice(('ppqqrs', 'pq', 'p', 'abcxyz'))
    for _ in range(rng.choice((0, 0, 1, 1, 2, 3, 6))):
        proof.premise(premise_for_use(rng, letters))
    for _ in range(rng.choice((1, 3, 6, 12, 25))):
        one_move(proof)
    while proof.open:
        proof.close()
    if rng.random() < .6:
        rng.choice((excluded_middle, excluded_middle, peirce, undeny) if proof.mode == 'C' else MOVES[1:])(proof)
    if not any(not path for _, path in proof.lines):
        excluded_middle(proof)
    return proof.records


def a_weighty_proof(rng):
    """A short proof file, whose formulas have many values; a classical one may fail."""
    proof = Proof(rng, rng.choice('IC'))
    letters = rng.choice(('pqr', 'pq', 'pqrst'))
    if proof.mode == 'C' and rng.random() < .7:
        if rng.random() < .5:
            proof.premise(no(no(some_formula(rng, rng.choice((0, 1, 2)), letters))))
            undeny(proof)
        else:
            rng.choice((excluded_middle, excluded_middle, peirce))(proof)
        return proof.records
    for _ in range(rng.choice((1, 1, 1, 2))):
        proof.premise(some_formula(rng, rng.choice((1, 2, 3, 4)), letters))
    first, last = proof.formula(1), proof.formula(len(proof.lines))
    other, rule = some_formula(rng, rng.choice((2, 3, 4, 5)), letters), rng.choice(('|1', '|2', 'R', '&I'))
    if rule == '&I':
        proof.step(('&', first, last), rule, 1, len(proof.lines))
    else:
        proof.step({'R': first, '|1': ('|', first, other), '|2': ('|', other, first)}[rule], rule, 1)
    return proof.records


# ---------------------------------------------------------------- mutated proofs

def mutated(rng, records):
    records = [list(record) for record in records]
    for _ in range(rng.choice((1, 1, 1, 2, 3))):
        steps = [record for record in records if record[0] == b'S' and len(record) > 3]
        texts = [record for record in records if len(record) > 1 and record[0] in b'PAS']
        place = rng.randrange(1, len(records)) if len(records) > 1 else 0
        way = rng.choice(('cite', 'cite', 'rule', 'rule', 'formula', 'formula', 'move', 'drop', 'drop close',
                          'double', 'close', 'more', 'less', 'mode', 'mode', 'mode', 'swap', 'kind', 'end'))
        if way == 'cite' and steps:
            record = rng.choice(steps)
            for at in range(3, len(record)) if rng.random() < .3 else [rng.randrange(3, len(record))]:
                near = int(record[at]) + rng.choice((-2, -1, 1, 2))
                record[at] = str(max(0, rng.choice((near, rng.randrange(len(records) + 3))))).encode()
        elif way == 'rule' and steps:
            record = rng.choice(steps)
            alike = [name for name, (kinds, _) in second.RULES.items() if len(kinds) == len(record) - 3] or ['R']
            record[2] = rng.choice(alike if rng.random() < .7 else list(second.RULES)).encode()
        elif way == 'formula' and texts:
            record = rng.choice(texts)
            record[1] = rng.choice((altered(rng, record[1]), rng.choice(texts)[1], b'~' + record[1],
                                    record[1][1:], text_of(rng, some_formula(rng)).encode()))
        elif way == 'move':
            records.insert(rng.randrange(1, len(records) + 1), records.pop(place))
        elif way == 'drop':
            records.pop(place)
        elif way == 'drop close' and [b'Z'] in records:
            closes = [at for at, record in enumerate(records) if record == [b'Z']]
            records.pop(rng.choice(closes))
        elif way == 'double':
            records.insert(place, list(records[place]))
        elif way == 'close':
            records.insert(rng.randrange(1, len(records) + 1), [b'Z'])
        elif way == 'more' and steps:
            rng.choice(steps).append(str(rng.randrange(1, len(records) + 1)).encode())
        elif way == 'less' and steps:
            rng.choice(steps).pop()
        elif way == 'mode':
            records[0] = [b'M', rng.choice((b'I', b'I', b'C'))]
        elif way == 'swap' and steps:
            record = rng.choice(steps)
            cited = record[3:]
            rng.shuffle(cited)
            record[3:] = cited
        elif way == 'kind' and texts:
            record = rng.choice(texts)
            if record[0] != b'S' or rng.random() < .2:
                record[0] = rng.choice((b'P', b'A'))
        elif way == 'end':
            del records[place + 1:]
        if not records:
            records = [[b'M', b'I']]
    return records


def altered(rng, text):
    """Another text nearby, a formula's or not."""
    if not text:
        return b'p'
    at = rng.randrange(len(text))
    alike = next((group for group in (b'&|>', b'pqrs#', b'(~') if text[at] in group), bytes(range(32, 127)))
    group = alike if rng.random() < .8 else bytes(range(256)).translate(None, b'\t\n')
    return text[:at] + bytes([rng.choice(group)]) + text[at + 1:]


# ---------------------------------------------------------------- algebras

def closure(pairs, some):
    """The number of the least set with these worlds that has with each world all above it."""
    chosen, grown = set(some), True
    while grown:
        grown = False
        for u, v in pairs:
            if u in chosen and v not in chosen:
                chosen.add(v)
                grown = True
    return sum(2 ** u for u in chosen)


def a_frame(rng, worlds):
    count = rng.choice((0, worlds // 2, worlds - 1, worlds, 2 * worlds))
    shape = rng.randrange(4)
    if shape == 0:                                                       # a chain, perhaps a ring
        order = rng.sample(range(worlds), worlds)
        pairs = list(zip(order, order[1:])) + ([(order[-1], order[0])] if rng.random() < .4 else [])
    elif shape == 1:                                                     # a tree
        pairs = [(rng.randrange(v), v) for v in range(1, worlds)]
    else:
        pairs = [(rng.randrange(worlds), rng.randrange(worlds)) for _ in range(count)]
    if shape == 2 and pairs:                                             # with rings
        pairs += [(v, u) for u, v in rng.sample(pairs, rng.randrange(1, len(pairs) + 1))]
    rng.shuffle(pairs)
    return pairs


def arrow(worlds, up, a, b):
    return sum(2 ** u for u in range(worlds) if up[u] & a & ~b == 0)


def an_algebra(rng, letters, faults=True):
    """The records of an algebra file; some have a fault of the algebra, none of the form."""
    fault = rng.choice(('worlds', 'worlds', 'pair', 'pair', 'product', 'layer', 'letter', 'letter')) \
        if faults and rng.random() < .3 else None
    sizes = [rng.choice((1, 2, 2, 3, 3, 3, 4, 4, 4)) if rng.random() < .85 else rng.randrange(1, 13)]
    if rng.random() < (.6 if fault in ('pair', 'worlds') else .35) or fault == 'product':
        sizes.append(rng.choice((1, 2, 2, 3)) if rng.random() < .8 else rng.randrange(1, 13))
    if fault == 'product':
        sizes = rng.choice(([12, 5], [12, 12], [8, 9], [9, 8], [5, 12], [11, 6]))
    elif sum(sizes) > 16 or (len(sizes) == 2 and rng.random() < .04):
        sizes = rng.choice(([12, 4], [8, 8], [4, 12], [7, 9]))
    frames = [a_frame(rng, worlds) for worlds in sizes]
    records = []
    for worlds, pairs in zip(sizes, frames):
        told, shown = worlds, list(pairs)
        if fault == 'worlds' and rng.random() < .6:
            told = rng.choice((0, 13, 13, 14, 16, 99999))
        if fault == 'pair' or (fault == 'worlds' and rng.random() < .3):
            for _ in range(rng.choice((1, 1, 2))):
                wrong = rng.choice((worlds, worlds, worlds + 1, 12, 13, 65536, 99999))
                shown.insert(rng.randrange(len(shown) + 1),
                             rng.choice(((wrong, 0), (0, wrong), (wrong, wrong), (worlds - 1, wrong))))
        records.append([b'K', told])
        records += [[b'L', u, v] for u, v in shown]
    worlds, pairs = sizes[0], frames[0]
    if len(sizes) == 2:
        pairs = [(u + sizes[1], v + sizes[1]) for u, v in pairs] + frames[1]
        worlds += sizes[1]
    a_member = lambda: closure(pairs, (u for u in range(worlds) if rng.random() < rng.choice((.2, .5))))
    no_member = lambda: rng.choice((rng.randrange(2 ** worlds), 2 ** worlds, 2 ** worlds + 1, 65535, 65536, 99999))
    fixed = lambda x: x
    if rng.random() < .4 or fault == 'layer':
        a = rng.choice((0, a_member(), closure(pairs, [rng.randrange(worlds)])))
        records.append([b'N', no_member() if fault == 'layer' else a])
        up = [closure(pairs, [u]) for u in range(worlds)]
        fixed = lambda x: arrow(worlds, up, arrow(worlds, up, x, a), a)
    given = [letter for letter in letters if rng.random() < .85]
    given += [rng.choice('abcdefghijklmnopqrstuvwxyz') for _ in range(rng.choice((0, 0, 1, 3)))]
    rng.shuffle(given)
    for letter in given:
        number = fixed(a_member())
        if fault == 'letter' and rng.random() < .4:
            number = rng.choice((no_member(), a_member()))
        elif rng.random() < .02:
            number = no_member()
        records.append([b'V', letter.encode(), number])
        if rng.random() < .06:
            records.insert(-1, [b'V', letter.encode(), no_member()])       # the last counts
    return [[str(min(field, 99999)).encode() if isinstance(field, int) else field for field in record]
            for record in records]


def letters_in(records):
    texts = b''.join(record[1] for record in records if record[0] in (b'P', b'A', b'S') and len(record) > 1)
    return sorted(set(texts.decode('latin-1')) & set(second.ATOMS[1:]))


# ---------------------------------------------------------------- inputs at the limits

def limit_formula(rng):
    return rng.choice((
        lambda: text_of_nesting(rng, rng.randrange(31, 35)),
        lambda: text_of_nesting(rng, rng.randrange(32, 34)),
        lambda: '~' * rng.randrange(31, 35) + 'p',
        lambda: '~' * rng.randrange(1, 1025) + rng.choice(('p', 'P', '')),
        lambda: text_of_length(rng, rng.randrange(1021, 1028)),
        lambda: text_of_length(rng, rng.randrange(1024, 1026)),
        lambda: altered(rng, text_of_length(rng, rng.randrange(1023, 1027)).encode()).decode('latin-1'),
        lambda: rng.choice('(~#)') * rng.randrange(1023, 1027),
        lambda: text_of_nesting(rng, rng.randrange(33, 60)) + rng.choice(('', 'p', ')')),
        lambda: text_of_nesting(rng, rng.randrange(20, 40))[:-1],
        lambda: tree(rng, [rng.choice('pq#') for _ in range(rng.randrange(30, 250))], deep=True),
        lambda: rng.choice(('', '()', '(p)', 'p&q', '~', '(p&q)r', '(p&&q)', '~)', '((p>q)', '(p>q))', 'pq', '&')),
    ))()


def at_formula_limit(rng):
    text = limit_formula(rng).encode('latin-1')
    records = [[b'M', rng.choice((b'I', b'C'))]]
    where = rng.randrange(3)
    if where == 0:
        records += [[b'P', text], [b'S', text, b'R', b'1']]
    elif where == 1:
        records += [[b'A', text], [b'Z'], [b'S', b'(' + text + b'>' + text + b')', b'>I', b'1']]
    else:
        records += [[b'P', b'#'], [b'S', text, b'#E', b'1']]
    return records


def at_premise_limit(rng):
    count = rng.choice((31, 32, 32, 33, 34))
    records = [[b'M', b'I']] + [[b'P', text_of(rng, some_formula(rng, 1)).encode()] for _ in range(count)]
    if rng.random() < .5:
        records.append([b'S', records[1][1], b'R', b'1'])
    return records


def at_box_limit(rng):
    records, opened, lines = [[b'M', b'C']], 0, 0
    for _ in range(rng.choice((0, 0, 3, 10))):
        way = rng.random() < .6 or opened == 0
        records.append([b'A', b'p'] if way else [b'Z'])
        opened += 1 if way else -1
        lines += way
    aim = rng.choice((15, 16, 16, 17))
    for _ in range(aim - opened):
        records.append([b'A', rng.choice((b'p', b'q', b'~p'))])
        if rng.random() < .1:
            records.append([b'S', records[-1][1], b'R', str(1 + sum(r[0] != b'Z' for r in records[1:-1])).encode()])
    if rng.random() < .3:
        records += [[b'Z'], [b'A', b'q']]
        if rng.random() < .3:
            records.append([b'A', b'q'])
    records += [[b'Z']] * (aim - rng.choice((0, 0, 0, 0, 1, -1)))
    first = records[1][1]
    records.append([b'S', b'(' + first + b'>' + first + b')', b'>I', b'1'])
    return records


def at_line_limit(rng):
    proof = Proof(rng, 'I')
    proof.premise('p')
    aim = rng.choice((1022, 1023, 1024, 1024, 1025, 1025, 1026))
    while len(proof.lines) < aim - 1:
        chance = rng.random()
        if chance < .05 and len(proof.open) < 10:
            proof.assume(rng.choice('pq'))
        elif chance < .12 and proof.open:
            proof.close()
        else:
            cited = rng.choice(proof.reachable()) if chance > .95 else 1
            proof.step(proof.formula(cited), 'R', cited)
    while proof.open and rng.random() < .97:
        proof.close()
    a_step = [b'S', b'p', b'R', b'1']
    proof.records.append(rng.choice(([b'A', b'p'], a_step, a_step, [b'S', b'q', b'R', b'1'], a_step + [b'1'], [b'Z'],
                                     [b'S', b'p', b'R', str(aim).encode()])))
    proof.records += [[b'Z']] * rng.choice((0, 0, 1)) + [a_step] * rng.choice((0, 0, 1))
    return proof.records


def at_store_limit(rng):
    """Premises of different formulas until the store is full, or nearly."""
    store, records = {}, [[b'M', b'I']]
    signs = lambda text: sum(text.count(sign) for sign in '~&|>')
    room = lambda: second.RECORDS - 27 - len(store)
    while room() > 300:
        text = tree(rng, [rng.choice(second.ATOMS) for _ in range(rng.randrange(200, 257))])
        if signs(text) <= room() and len(text) <= second.TEXT:
            second.read(text.encode(), store, 0)
            records.append([b'P', text.encode()])
    left = room() + rng.choice((-1, 0, 0, 1))
    if left > 255:
        text = tree(rng, [rng.choice(second.ATOMS) for _ in range(200)])
        records.append([b'P', text.encode()])
        second.read(text.encode(), store, 0)
        left = room() + rng.choice((-1, 0, 0, 1))
    text = tree(rng, [rng.choice(second.ATOMS) for _ in range(left + 1)])
    records.append([b'P', text.encode()])
    if rng.random() < .6:
        records.append(rng.choice(([b'P', b'p'], [b'P', b'~p'], [b'S', b'p', b'R', b'1'], [b'S', b'(p', b'R', b'1'],
                                   [b'A', records[1][1]], [b'P', b'(p&q)'], [b'S', b'#', b'#E', b'1'])))
    return records


def at_size_limit(rng, rest):
    """A proof file that has with the rest a size at or about the limit."""
    aim = second.SIZE + rng.choice((-1, 0, 0, 0, 1, 1, 2)) - len(rest)
    formula = tree(rng, [rng.choice('pqr#') for _ in range(rng.randrange(180, 250))])
    data = f'M\t{rng.choice("IC")}\nP\t{formula}\nP\tp\n'.encode()
    for line in (f'S\t{formula}\tR\t1\n'.encode(), b'S\tp\tR\t2\n'):
        data += line * ((aim - 13 - len(data)) // len(line))
    text = text_of_length(rng, aim - len(data) - 12)
    data += f'S\t(p|{text})\t|1\t2\n'.encode()                    # 13 to 20 bytes
    return damaged_bytes(rng, data) if rng.random() < .15 else data


def over_long(rng):
    unit = rng.choice((b'M\tI\n', b'\n', b'p', b'\t', b'P\tp\n', bytes([rng.randrange(256)]), b'M\tI\nP\tp\n'))
    return (unit * (rng.choice((65537, 65536, 70000, 131073, 200000)) // len(unit) + 1))[:rng.choice((65536, 65537, 10 ** 6))]


# ---------------------------------------------------------------- damaged inputs

def joined(records):
    return b''.join(b'\t'.join(record) + b'\n' for record in records)


def damaged_fields(rng, records):
    records = [list(record) for record in records] or [[b'M', b'I']]
    record = rng.choice(records)
    at = rng.randrange(len(record))
    way = rng.randrange(13)
    if way == 0:
        record[at] = b''
    elif way == 1:
        record.append(rng.choice((b'', b'', b'1', b'p', b'0')))
    elif way == 2:
        record.pop(at)
    elif way == 3:
        record.insert(at, rng.choice((b'', b'1', b'p')))
    elif way in (4, 5, 6):                                             # numbers
        numbers = [(r, i) for r in records for i, field in enumerate(r) if field.isdigit()]
        if numbers:
            record, at = rng.choice(numbers)
            n = record[at]
            record[at] = rng.choice((b'0' + n, b'00' + n, n + b'00000', b'100000', b'99999', b'65536', b'00', b'', b'-1',
                                     b'+' + n, b' ' + n, n + b' ', n + b'\r', n + b'.', b'0x1', b'1_0', b'4294967297',
                                     b'18446744073709551617', b'\xd9\xa1', n + b'a', b'/', b':', b'999999', b'00001'))
    elif way == 7:                                                     # kinds
        record[0] = rng.choice((record[0].lower(), record[0] * 2, b'', b' ' + record[0], record[0] + b' ', b'\xef\xbb\xbfM',
                                b'=', b'K', b'L', b'N', b'V', b'M', b'P', b'A', b'S', b'Z', b'X', b'\x00', b'#'))
    elif way == 8:                                                     # names, modes, letters
        record[min(2, len(record) - 1)] = rng.choice((b'r', b'RA ', b'ra', b'&3', b'&', b'|', b'|I', b'>', b'E>', b'#', b'#I',
                                                      b'RR', b'I', b'C', b'ic', b'IC', b'A', b'pp', b'{', b'`', b'&1'))
        if len(record) > 1 and rng.random() < .4:
            record[1] = rng.choice((b'i', b'c', b'CI', b'', b'A', b'{', b'`', b'pq', b'#', b'~p', b'C', b'I', b'a', b'z'))
    elif way == 9:                                                     # out of turn
        records.insert(rng.randrange(len(records) + 1), list(rng.choice(records)))
    elif way == 10:
        i, j = rng.randrange(len(records)), rng.randrange(len(records))
        records[i], records[j] = records[j], records[i]
    elif way == 11:
        records.insert(rng.randrange(len(records) + 1), rng.choice((
            [b''], [b'='], [b'Z'], [b'Z', b''], [b'=', b''], [b'M', b'I'], [b'K', b'2'], [b'N', b'0'], [b'L', b'0', b'0'],
            [b'V', b'p', b'0'], [b'P', b'p'], [b'A', b'p'], [b'S', b'p', b'R', b'1'], [b'', b''], [b'#'], [b'K'], [b'V'])))
    else:
        del records[rng.randrange(len(records)):]
    return records


def damaged_bytes(rng, data):
    for _ in range(rng.choice((1, 1, 1, 2, 4))):
        at = rng.randrange(len(data) + 1)
        way = rng.randrange(11)
        if way == 0 and data:
            at = rng.randrange(len(data))
            data = data[:at] + bytes([data[at] ^ 1 << rng.randrange(8)]) + data[at + 1:]
        elif way == 1:
            data = data[:at] + bytes([rng.randrange(256)]) + data[at + 1:]
        elif way == 2:
            data = data[:at] + rng.choice((b'\t', b'\n', b'\t\t', b'\n\n', b' ', b'\r', b'\0', b'~', b'(', b')')) + data[at:]
        elif way in (3, 4):
            lost = [i for i, byte in enumerate(data) if byte == (9 if way == 3 else 10)]
            if lost:
                at = rng.choice(lost)
                data = data[:at] + data[at + 1:]
        elif way == 5:
            data = data[:at]
        elif way == 6:
            data = data[:-1]
        elif way == 7:
            data = data[:at] + data[at + rng.randrange(1, 6):]
        elif way == 8:
            data = rng.choice((b'\xef\xbb\xbf' + data, data.replace(b'\n', b'\r\n'), b'\n' + data, data + b'\n', data + b'\t',
                               data + b' ', data + data, data.lower(), data.replace(b'\t', b' '), data[::-1], b''))
        elif way == 9:
            data += rng.choice((b'=\n', b'K\t1\n', b'P\tp\n', b'Z\n', b'S\tp\tR\t1', b'V\tp\t0\n', b'M\tI\n', b'A\t(', b'='))
        else:
            lines = data.split(b'\n')
            rng.shuffle(lines)
            data = b'\n'.join(lines)
    return data


# ---------------------------------------------------------------- one case

def make(rng, program):
    """An input for a program."""
    way = rng.choices(('valid', 'mutated', 'fields', 'bytes', 'limit', 'size'),
                      (35, 27, 13, 12, 12, 1) if program == 'check' else (66, 7, 10, 8, 8, 1))[0]
    if way == 'limit':
        limits = (at_formula_limit, at_premise_limit, at_box_limit, at_line_limit, at_store_limit)
        records = rng.choices(limits, (8, 2, 3, 2, 2))[0](rng)
    else:
        records = (a_weighty_proof if program == 'weigh' and rng.random() < .55 else a_proof)(rng)
    if way == 'mutated' or (way in ('fields', 'bytes', 'limit') and rng.random() < .1):
        records = mutated(rng, records)
    rest = []
    if program == 'weigh':
        rest = [[b'=']] + an_algebra(rng, letters_in(records))
    if way == 'size':
        rest = joined(rest)
        return over_long(rng) + rest if rng.random() < .2 else at_size_limit(rng, rest) + rest
    if way == 'fields':
        whole = records + rest
        if rest and rng.random() < .6:
            return joined(records) + joined(damaged_fields(rng, rest))
        return joined(damaged_fields(rng, whole))
    if way == 'bytes':
        if rng.random() < .03:
            return bytes(rng.randrange(256) for _ in range(rng.randrange(60)))
        if rest and rng.random() < .5:
            return joined(records) + damaged_bytes(rng, joined(rest))
        return damaged_bytes(rng, joined(records + rest))
    return joined(records + rest)


def kind_of(answer):
    fields = answer.rstrip(b'\n').split(b'\t')
    return f'NO {int(fields[3]):2}' if fields[0] == b'NO' else fields[0].decode()


def run(seed, case, commands):
    """Kind of answer, and what differs if anything does."""
    program = ('check', 'weigh')[case % 2]
    data = b''
    try:
        data = make(random.Random(f'{seed}/{case}'), program)
        due = getattr(second, program)(data)
        kind = f'{program} {kind_of(due)}'
    except Exception:
        return 'second.py or differ.py failed', program, data, traceback.format_exc()
    if kind == 'weigh FAILS' and data.startswith(b'M\tI'):
        return kind, program, data, 'second.py lets a constructive sequent fail'
    if commands[program] is None:
        return kind, program, data, None
    try:
        done = subprocess.run(commands[program], input=data, stdout=subprocess.PIPE, stderr=subprocess.DEVNULL, timeout=60)
        got, status = done.stdout, done.returncode
    except (subprocess.TimeoutExpired, OSError) as error:
        got, status = b'', str(error)
    if (got, status) == (due, 0):
        return kind, program, data, None
    return kind, program, data, f'due {due!r}, got {got[:300]!r}, status {status}'


def main():
    parser = argparse.ArgumentParser(description=__doc__, formatter_class=argparse.RawDescriptionHelpFormatter)
    parser.add_argument('--check')
    parser.add_argument('--weigh')
    parser.add_argument('--cases', type=int, default=1000)
    parser.add_argument('--seed', type=int, default=None)
    parser.add_argument('--case', type=int, default=None)
    parser.add_argument('--threads', type=int, default=os.cpu_count())
    parser.add_argument('--saved', default='differences')
    parser.add_argument('--self-test', action='store_true')
    asked = parser.parse_args()
    if asked.self_test:
        return table.self_test()
    seed = random.SystemRandom().randrange(10 ** 9) if asked.seed is None else asked.seed
    print('seed', seed, flush=True)
    commands = {name: shlex.split(path) if (path := getattr(asked, name)) else None for name in ('check', 'weigh')}
    counts, differences = collections.Counter(), 0
    cases = range(asked.cases) if asked.case is None else [asked.case]
    with concurrent.futures.ThreadPoolExecutor(asked.threads) as pool:
        for case, result in zip(cases, pool.map(lambda case: run(seed, case, commands), cases)):
            kind, program, data, difference = result
            counts[kind] += 1
            if difference or asked.case is not None:
                os.makedirs(asked.saved, exist_ok=True)
                path = os.path.join(asked.saved, f'{seed}-{case}.{program}')
                with open(path, 'wb') as file:
                    file.write(data)
                print(f'case {case}, {program} < {path}: {difference or kind}', flush=True)
            differences += bool(difference)
    print('cases', len(cases))
    for kind in sorted(counts):
        print(f'{counts[kind]:8} {kind}')
    print('differences', differences)
    return 1 if differences else 0


if __name__ == '__main__':
    sys.exit(main())
