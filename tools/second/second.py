#!/usr/bin/env python3
"""The line that `check` and `weigh` print for an input, written from the documentation alone.

    second.py check < file        second.py weigh < file

A formula is '#', a letter, or (sign, A, B); equal formulas of one input are one object. The boxes that
contain a line are kept as the line's path. An algebra is one set of worlds with an order (a product is both
frames side by side), its elements are sets of worlds, and a value is found by forcing, world by world.
"""
import re
import sys

SIZE, TEXT, NESTING = 65536, 1024, 32
RECORDS, PREMISES, LINES, BOXES, WORLDS = 4096, 32, 1024, 16, 12
ATOMS = '#abcdefghijklmnopqrstuvwxyz'


class Refused(Exception):
    """Record, layer, number, place."""


# ---------------------------------------------------------------- rules: what they cite (l line, b box), what fits

RULES = {
    'R': ('l', lambda new, i: i == new),
    '&I': ('ll', lambda new, i, j: new == ('&', i, j)),
    '&1': ('l', lambda new, i: i[:2] == ('&', new)),
    '&2': ('l', lambda new, i: i[::2] == ('&', new)),
    '|1': ('l', lambda new, i: new[:2] == ('|', i)),
    '|2': ('l', lambda new, i: new[::2] == ('|', i)),
    '|E': ('lbb', lambda new, i, b, c: i == ('|', b[0], c[0]) and b[1] == new and c[1] == new),
    '>I': ('b', lambda new, b: new == ('>', b[0], b[1])),
    '>E': ('ll', lambda new, i, j: i == ('>', j, new)),
    '#E': ('l', lambda new, i: i == '#'),
    'RA': ('b', lambda new, b: b == (('>', new, '#'), '#')),
}

# ---------------------------------------------------------------- records: which may follow, and their fields

TURNS = {  # what may come, and what is awaited then
    'mode': {b'M': 'premises'},
    'premises': {b'P': 'premises', b'A': 'lines', b'S': 'lines', b'Z': 'lines', b'=': 'base'},
    'lines': {b'A': 'lines', b'S': 'lines', b'Z': 'lines', b'=': 'base'},
    'base': {b'K': 'first'},
    'first': {b'L': 'first', b'K': 'second', b'N': 'letters', b'V': 'letters'},
    'second': {b'L': 'second', b'N': 'letters', b'V': 'letters'},
    'letters': {b'V': 'letters'},
}
ENDS = {'check': ('premises', 'lines'), 'weigh': ('first', 'second', 'letters')}

NUMBER = rb'0|[1-9][0-9]{0,4}'
ANY = rb'[^\t\n]*'
RULE = b'|'.join(re.escape(name.encode()) for name in RULES)
FIELDS = {  # kind: the forms of the fields after it, and how many of them must be there
    b'M': ([rb'[IC]'], 1), b'P': ([ANY], 1), b'A': ([ANY], 1), b'S': ([ANY, RULE, NUMBER, NUMBER, NUMBER], 3),
    b'Z': ([], 0), b'=': ([], 0), b'K': ([NUMBER], 1), b'L': ([NUMBER, NUMBER], 2), b'N': ([NUMBER], 1),
    b'V': ([rb'[a-z]', NUMBER], 2),
}


def wrong_field(fields):
    """The first field that is wrong, missing or surplus, from 1; None if there is none."""
    forms, least = FIELDS[fields[0]]
    for place, form in enumerate(forms, 2):
        if len(fields) < place:
            return place if place <= least + 1 else None
        if not re.fullmatch(form, fields[place - 1]):
            return place
    return len(forms) + 2 if len(fields) > len(forms) + 1 else None


def records_of(data, program):
    """All records as (number, kind, fields after it), with each formula read."""
    if len(data) > SIZE:
        raise Refused(0, 'T', 28, 0)
    *ended, unended = data.split(b'\n')
    state, store, found = 'mode', {}, []
    for number, record in enumerate(ended + ([unended] if unended else []), 1):
        fields = record.split(b'\t')
        kind = fields[0]
        if number > len(ended):
            raise Refused(number, 'T', 29, len(fields))
        if kind not in TURNS[state] or (kind == b'=' and program == 'check'):
            raise Refused(number, 'T', 29, 1)
        state = TURNS[state][kind]
        if wrong_field(fields):
            raise Refused(number, 'T', 29, wrong_field(fields))
        values = fields[1:]
        if kind in (b'P', b'A', b'S'):
            values[0] = read(values[0], store, number)
        found.append((number, kind.decode(), values))
    if state not in ENDS[program]:
        raise Refused(len(ended) + 1, 'T', 29, 1)
    return found


# ---------------------------------------------------------------- formulas

def scan(text):
    """The place of the first wrong byte, or None, and the nesting. What is due next is kept on a pile."""
    due, nesting = [('formula', 0)], 0
    for place, byte in enumerate(text):
        what, depth = due.pop() if due else ('', 0)
        sign = chr(byte)
        if what == 'formula' and sign == '~':
            due.append(('formula', depth + 1))
        elif what == 'formula' and sign == '(':
            due += [(')', 0), ('formula', depth + 1), ('&|>', 0), ('formula', depth + 1)]
        elif what == 'formula' and sign in ATOMS:
            nesting = max(nesting, depth)
        elif what == 'formula' or sign not in what:
            return place, 0
    return (len(text) if due else None), nesting


def grow(text, at, store):
    """The formula whose text begins at a place, and the place after it."""
    if text[at] == '~':
        part, at = grow(text, at + 1, store)
        new = ('>', part, '#')
    elif text[at] == '(':
        left, sign = grow(text, at + 1, store)
        right, at = grow(text, sign + 1, store)
        new, at = (text[sign], left, right), at + 1
    else:
        return text[at], at + 1
    return store.setdefault(new, new), at


def read(text, store, number):
    """The formula of a text. `store` holds the joined formulas; 27 records more are in use."""
    if len(text) > TEXT:
        raise Refused(number, 'F', 2, 0)
    place, nesting = scan(text)
    if place is not None:
        raise Refused(number, 'F', 3, place)
    if nesting > NESTING:
        raise Refused(number, 'F', 4, 0)
    if len(ATOMS) + len(store) + sum(text.count(sign) for sign in b'~&|>') > RECORDS:
        raise Refused(number, 'F', 5, 0)
    return grow(text.decode(), 0, store)[0]


def write(formula):
    if isinstance(formula, str):
        return formula
    sign, left, right = formula
    return '~' + write(left) if (sign, right) == ('>', '#') else '(' + write(left) + sign + write(right) + ')'


# ---------------------------------------------------------------- derivations

def derive(records):
    """Mode, number of lines, conclusion and premises of a proof file."""
    lines = []          # formula and path: the boxes that contain the line, from without, by their first lines
    inside = ()         # the path of the place where the next line is written
    premises = []
    mode = records[0][2][0].decode()
    for number, kind, fields in records[1:]:
        def refuse(fault, place=0):
            raise Refused(number, 'D', fault, place)

        if kind == 'Z':
            if not inside:
                refuse(16)
            inside = inside[:-1]
            continue
        new = fields[0]
        if kind == 'P':
            if len(premises) == PREMISES:
                refuse(8)
            premises.append(new)
        elif kind == 'A':
            if len(inside) == BOXES:
                refuse(10)
        else:
            rule = fields[1].decode()
            check_step(lines, set(inside), mode, new, rule, [int(field) for field in fields[2:]], refuse)
        if len(lines) == LINES:
            refuse(9)
        if kind == 'A':
            inside += (len(lines) + 1,)
        lines.append((new, inside))
    if inside:
        raise Refused(records[-1][0], 'D', 17, 0)
    top = [formula for formula, path in lines if not path]
    if not top:
        raise Refused(records[-1][0], 'D', 18, 0)
    return mode, len(lines), top[-1], premises


def check_step(lines, opened, mode, new, rule, citations, refuse):
    kinds, fits = RULES[rule]
    if len(citations) != len(kinds):
        refuse(11)
    for place, cited in enumerate(citations, 1):
        if not 1 <= cited <= len(lines):
            refuse(12, place)
    for place, (kind, cited) in enumerate(zip(kinds, citations), 1):
        path = lines[cited - 1][1]
        if kind == 'b' and (path[-1:] != (cited,) or cited in opened):
            refuse(13, place)                               # no box, or an open one
        if not opened.issuperset(path if kind == 'l' else path[:-1]):
            refuse(13, place)
    if rule == 'RA' and mode == 'I':
        refuse(14)
    if not fits(new, *(what_is_cited(lines, kind, cited) for kind, cited in zip(kinds, citations))):
        refuse(15)


def what_is_cited(lines, kind, cited):
    """A line's formula, or what a box assumes and ends with."""
    formula = lines[cited - 1][0]
    if kind == 'l':
        return formula
    return formula, next(end for end, path in reversed(lines) if path[-1:] == (cited,))


# ---------------------------------------------------------------- algebras

def closed(worlds, pairs):
    """For each world the set of those at or above it (Warshall)."""
    up = [{u} | {v for w, v in pairs if w == u} for u in range(worlds)]
    for middle in range(worlds):
        for u in range(worlds):
            if middle in up[u]:
                up[u] |= up[middle]
    return up


class Algebra:
    """The sets of worlds closed upwards; with a nucleus, the fixed ones among them."""

    def __init__(self, up):
        self.up, self.all, self.nucleus = up, frozenset(range(len(up))), None

    def element(self, number):
        """The element with this number, or None."""
        if number >= 2 ** len(self.up):
            return None
        chosen = frozenset(u for u in self.all if number >> u & 1)
        below = all(self.up[u] <= chosen for u in chosen)
        return chosen if below and self.j(chosen) == chosen else None

    def j(self, some):
        """(some > a) > a: above each world at or above u, outside a, there is one of `some`, outside a."""
        if self.nucleus is None:
            return some
        outside = self.all - self.nucleus
        return frozenset(u for u in self.all if all(self.up[v] & some & outside for v in self.up[u] & outside))

    def value(self, formula, letters, known):
        if id(formula) in known:
            return known[id(formula)]
        if isinstance(formula, str):
            found = letters.get(formula, self.j(frozenset()))
        else:
            a, b = (self.value(part, letters, known) for part in formula[1:])
            forced = {
                '&': lambda u: u in a and u in b,
                '|': lambda u: u in a or u in b,
                '>': lambda u: all(v in b for v in self.up[u] if v in a),
            }[formula[0]]
            found = frozenset(filter(forced, self.all))
            if formula[0] == '|':
                found = self.j(found)
        known[id(formula)] = found
        return found


def numbered(element):
    return sum(2 ** u for u in element)


def algebra_of(records):
    """The algebra and the elements of the letters that have a V."""
    bases, layer, given = [], None, {}
    for number, kind, fields in records:
        if kind == 'K':
            bases.append((number, int(fields[0]), []))
        elif kind == 'L':
            bases[-1][2].append((number, int(fields[0]), int(fields[1])))
        elif kind == 'N':
            layer = number, int(fields[0])
        else:
            given[fields[0].decode()] = number, int(fields[1])
    for number, worlds, pairs in bases:
        if not 1 <= worlds <= WORLDS:
            raise Refused(number, 'A', 19, 0)
        for place, (where, u, v) in enumerate(pairs, 1):
            if max(u, v) >= worlds:
                raise Refused(where, 'A', 20, place)
    if sum(worlds for _, worlds, _ in bases) > 16:          # a span of more than 2 ** 16
        raise Refused(bases[1][0], 'A', 23, 0)
    side_by_side, worlds = [], 0                            # the last frame has the low bits
    for _, its_worlds, pairs in reversed(bases):
        side_by_side += [(u + worlds, v + worlds) for _, u, v in pairs]
        worlds += its_worlds
    algebra = Algebra(closed(worlds, side_by_side))
    if layer:
        number, element = layer
        nucleus = algebra.element(element)
        if nucleus is None:
            raise Refused(number, 'A', 24, 0)
        algebra.nucleus = nucleus
    letters = {}
    for letter, (number, element) in sorted(given.items()):
        letters[letter] = algebra.element(element)
        if letters[letter] is None:
            raise Refused(number, 'A', 26, ATOMS.index(letter))
    return algebra, letters


# ---------------------------------------------------------------- the two programs

def answered(program):
    def answer(data):
        try:
            fields = program(data)
        except Refused as refused:
            fields = ('NO', *refused.args)
        return '\t'.join(map(str, fields)).encode() + b'\n'
    return answer


@answered
def check(data):
    mode, lines, conclusion, premises = derive(records_of(data, 'check'))
    return 'OK', mode, lines, write(conclusion), *map(write, premises)


@answered
def weigh(data):
    records = records_of(data, 'weigh')
    parting = [kind for _, kind, _ in records].index('=')
    _, _, conclusion, premises = derive(records[:parting])
    algebra, letters = algebra_of(records[parting + 1:])
    known = {}
    meet = algebra.all.intersection(*(algebra.value(premise, letters, known) for premise in premises))
    value = algebra.value(conclusion, letters, known)
    return 'HOLDS' if meet <= value else 'FAILS', numbered(meet), numbered(value)


if __name__ == '__main__':
    if sys.argv[1:] not in (['check'], ['weigh']):
        sys.exit('second.py check < file, or second.py weigh < file')
    sys.stdout.buffer.write({'check': check, 'weigh': weigh}[sys.argv[1]](sys.stdin.buffer.read()))
