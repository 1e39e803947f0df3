"""Inputs and their answers, derived by hand from the documentation.

In the short form a space stands for a tab and a semicolon for byte 10, in inputs and in answers.
"""
import second


def store_full(last):
    """15 premises of 255 signs, all different, then one of 244, which fills the store: 27 + 3825 + 244 = 4096."""
    atoms = '#abcdefghijklmnopqrstuvwxyz'
    pairs = iter([f'({x}{sign}{y})' for sign in '&|>' for x in atoms for y in atoms])

    def joined(count):
        texts = [next(pairs) for _ in range(count)]
        while len(texts) > 1:
            texts = ['(' + '&'.join(texts[at:at + 2]) + ')' if at + 1 < len(texts) else texts[at]
                     for at in range(0, len(texts), 2)]
        return texts[0]

    premises = [joined(128) for _ in range(15)] + ['~' + joined(122)]       # 128 + 127, and 1 + 122 + 121
    return 'M I;' + ''.join(f'P {text};' for text in premises) + last


PP = 'M I;P p;'                                     # p from p
SUM = 'M I;P p;S (p|q) |1 1;'                       # (p|q) from p
PQ = 'M I;P p;P q;S (p|q) |1 1;'                    # (p|q) from p and q
DN = 'M C;P ~~p;A ~p;S # >E 1 2;Z;S p RA 2;'        # p from ~~p
EM = ('M C;A ~(p|~p);A p;S (p|~p) |1 2;S # >E 1 3;Z;S ~p >I 2;S (p|~p) |2 5;S # >E 1 6;Z;S (p|~p) RA 1;')
FILE = 'M I;P p;A q;S p R 1;Z;'
CASES = 'M I;P (p|q);A p;S (q|p) |2 2;Z;A q;S (q|p) |1 4;Z;'
FORK = '=;K 3;L 0 1;L 0 2;'                         # 0, 2, 4, 6, 7
CHAIN = '=;K 2;L 0 1;'                              # 0, 2, 3

CHECK = [
    # records and fields
    ('', 'NO 1 T 29 1'),
    (';', 'NO 1 T 29 1'),
    ('M I;', 'NO 1 D 18 0'),
    ('M I', 'NO 1 T 29 2'),
    ('M', 'NO 1 T 29 1'),
    ('M;', 'NO 1 T 29 2'),
    ('M X;', 'NO 1 T 29 2'),
    ('M X ;', 'NO 1 T 29 2'),
    ('M I ;', 'NO 1 T 29 3'),
    ('m I;', 'NO 1 T 29 1'),
    ('MM I;', 'NO 1 T 29 1'),
    ('P p;', 'NO 1 T 29 1'),
    ('M I;P p q;', 'NO 2 T 29 3'),
    ('M I;P;', 'NO 2 T 29 2'),
    ('M I;M I;P p;', 'NO 2 T 29 1'),
    ('M I;A p;P p;', 'NO 3 T 29 1'),
    ('M I;P p;=;', 'NO 3 T 29 1'),
    ('M I;P p;K 2;', 'NO 3 T 29 1'),
    ('M I;P p;Z ;', 'NO 3 T 29 2'),
    ('M I;P p;S p R;', 'NO 3 T 29 4'),
    ('M I;P p;S p ra 1;', 'NO 3 T 29 3'),
    ('M I;P p;S p R 1 ;', 'NO 3 T 29 5'),
    ('M I;P p;S p R 1 1 1 1;', 'NO 3 T 29 7'),
    ('M I;P p;S p R 01;', 'NO 3 T 29 4'),
    ('M I;P p;S p R 100000;', 'NO 3 T 29 4'),
    ('M I;P p;S p R 01 1 1', 'NO 3 T 29 6'),
    ('M I;P (;A (p;P q;', 'NO 2 F 3 1'),
    ('M I;Z;P (;', 'NO 3 T 29 1'),
    ('M I;Z;A (;', 'NO 3 F 3 1'),
    ('M I;Z;S (p XX 1;', 'NO 3 T 29 3'),
    # formulas
    ('M I;P ;', 'NO 2 F 3 0'),
    ('M I;P p&q;', 'NO 2 F 3 1'),
    ('M I;P (p&q;', 'NO 2 F 3 4'),
    ('M I;P (p)q;', 'NO 2 F 3 2'),
    ('M I;P ' + '~' * 32 + 'p;', 'OK I 1 ' + '~' * 32 + 'p ' + '~' * 32 + 'p'),
    ('M I;P ' + '~' * 33 + 'p;', 'NO 2 F 4 0'),
    ('M I;P ' + '~' * 33 + 'p);', 'NO 2 F 3 34'),
    ('M I;P ' + '(' * 1024 + ';', 'NO 2 F 3 1024'),
    ('M I;P ' + '(' * 1025 + ';', 'NO 2 F 2 0'),
    (store_full('P p;'), None),
    (store_full('P ~p;'), 'NO 18 F 5 0'),
    # derivations
    (PP, 'OK I 1 p p'),
    ('M C;P (p>#);P ((q>#)>#);', 'OK C 2 ~~q ~p ~~q'),
    (FILE + 'S (q>p) >I 2;', 'OK I 4 (q>p) p'),
    (FILE + 'S p RA 2;', 'NO 6 D 14 0'),
    (FILE + 'S (q>p) >I;', 'NO 6 T 29 4'),
    (FILE + 'S (q>p >I 2;', 'NO 6 F 3 4'),
    (PP + 'Z;', 'NO 3 D 16 0'),
    ('M I;A p;', 'NO 2 D 17 0'),
    ('M I;A p;Z;', 'NO 3 D 18 0'),
    ('M I;A p;Z;S (p>p) >I 1;', 'OK I 2 (p>p)'),
    ('M I;A p;A q;Z;Z;S (p>q) >I 1;', 'NO 6 D 15 0'),
    ('M I;A p;A q;Z;Z;S (p>p) >I 1;', 'OK I 3 (p>p)'),
    ('M I;A p;A q;Z;Z;S (q>q) >I 2;', 'NO 6 D 13 1'),
    ('M I;A p;A q;Z;S p R 1;Z;S (p>p) >I 1;', 'OK I 4 (p>p)'),
    ('M I;A p;S (p>p) >I 1;', 'NO 3 D 13 1'),
    ('M I;A p;Z;S p R 1;', 'NO 4 D 13 1'),
    (PP + 'S p >I 1;', 'NO 3 D 13 1'),
    (PP + 'S p R 0 9;', 'NO 3 D 11 0'),
    (PP + 'S p R 0;', 'NO 3 D 12 1'),
    (PP + 'S p R 2;', 'NO 3 D 12 1'),
    (PP + 'S (p&p) &I 1 99999;', 'NO 3 D 12 2'),
    (PP + 'A q;Z;S p >E 2 4;', 'NO 5 D 12 2'),
    (PP + 'S (p&p) &I 1 1;', 'OK I 2 (p&p) p'),
    (PP + 'S q R 1;', 'NO 3 D 15 0'),
    (PP + 'A ~q;S p RA 1;', 'NO 4 D 13 1'),
    ('M I;P #;S (p>q) #E 1;', 'OK I 2 (p>q) #'),
    ('M I;P (p&q);S q &2 1;S q &1 1;', 'NO 4 D 15 0'),
    (CASES + 'S (q|p) |E 1 2 4;', 'OK I 6 (q|p) (p|q)'),
    (CASES + 'S (q|p) |E 1 4 2;', 'NO 9 D 15 0'),
    (CASES + 'S (q|p) |E 1 2 5;', 'NO 9 D 13 3'),
    (DN, 'OK C 4 p ~~p'),
    (EM, 'OK C 8 (p|~p)'),
    ('M I' + EM[3:], 'NO 11 D 14 0'),
    ('M I;' + 'P p;' * 32, 'OK I 32 p' + ' p' * 32),
    ('M I;' + 'P p;' * 33, 'NO 34 D 8 0'),
    ('M I;' + 'A p;' * 16 + 'Z;' * 16 + 'S (p>p) >I 1;', 'OK I 17 (p>p)'),
    ('M I;' + 'A p;' * 17 + 'Z;' * 17, 'NO 18 D 10 0'),
    (PP + 'S p R 1;' * 1023, 'OK I 1024 p p'),
    (PP + 'S p R 1;' * 1024, 'NO 1026 D 9 0'),
    (PP + 'S p R 1;' * 1023 + 'S q R 1;', 'NO 1026 D 15 0'),
    (PP + 'S p R 1;' * 1023 + 'A q;', 'NO 1026 D 9 0'),
    ('Z;' * 32768, 'NO 1 T 29 1'),
    ('Z;' * 32768 + 'Z', 'NO 0 T 28 0'),
]

WEIGH = [
    # records and fields
    ('', 'NO 1 T 29 1'),
    ('=;K 1;', 'NO 1 T 29 1'),
    (PP, 'NO 3 T 29 1'),
    (PP + '=;', 'NO 4 T 29 1'),
    (PP + '= ;', 'NO 3 T 29 2'),
    (PP + '=', 'NO 3 T 29 1'),
    (PP + '=;V p 0;', 'NO 4 T 29 1'),
    (PP + '=;K;', 'NO 4 T 29 2'),
    (PP + '=;K 1;=;', 'NO 5 T 29 1'),
    (PP + '=;K 1;K 1;K 1;', 'NO 6 T 29 1'),
    (PP + '=;K 1;V p 0;N 0;', 'NO 6 T 29 1'),
    (PP + '=;K 1;N 0;N 0;', 'NO 6 T 29 1'),
    (PP + '=;K 1;N 0;L 0 0;', 'NO 6 T 29 1'),
    (PP + '=;K 1;P p;', 'NO 5 T 29 1'),
    (PP + '=;K 1;V pq 0;', 'NO 5 T 29 2'),
    (PP + '=;K 1;V p;', 'NO 5 T 29 3'),
    (PP + '=;K 1;L 0;', 'NO 5 T 29 3'),
    # which fault comes first
    (PP + 'Z;=;K 0;V p;', 'NO 6 T 29 3'),
    (PP + 'Z;=;K 0;', 'NO 3 D 16 0'),
    ('M I;A p;=;K 0;', 'NO 2 D 17 0'),
    (PP + '=;K 2;L 0 2;K 0;', 'NO 5 A 20 1'),
    (PP + '=;K 12;K 13;L 0 99;', 'NO 5 A 19 0'),
    (PP + CHAIN + 'N 1;V p 1;', 'NO 6 A 24 0'),
    # frames
    (PP + '=;K 1;', 'HOLDS 0 0'),
    (PP + '=;K 1;V p 1;', 'HOLDS 1 1'),
    (PP + '=;K 1;V p 2;', 'NO 5 A 26 16'),
    (PP + '=;K 13;', 'NO 4 A 19 0'),
    (PP + '=;K 2;L 0 1;L 0 2;', 'NO 6 A 20 2'),
    (PP + '=;K 12;K 4;', 'HOLDS 0 0'),
    (PP + '=;K 12;K 5;', 'NO 5 A 23 0'),
    (FILE + 'S (q>p) >I 2;' + CHAIN + 'V p 2;', 'HOLDS 2 3'),
    (FILE + 'S (q>p) >I 2;' + CHAIN + 'V p 1;', 'NO 10 A 26 16'),
    ('M I;A p;Z;S (p>p) >I 1;=;K 3;', 'HOLDS 7 7'),
    (PP + CHAIN + 'V p 1;V p 2;', 'HOLDS 2 2'),
    (PP + CHAIN + 'V p 2;V z 1;V a 1;V p 1;', 'NO 8 A 26 1'),
    (PP + CHAIN + 'L 1 0;V p 2;', 'NO 7 A 26 16'),
    (PP + CHAIN + 'L 1 0;V p 3;', 'HOLDS 3 3'),
    (PP + '=;K 3;L 2 0;L 0 1;V p 4;', 'NO 7 A 26 16'),
    (PP + '=;K 3;L 2 0;L 0 1;V p 2;', 'HOLDS 2 2'),
    (DN + CHAIN + 'V p 2;', 'FAILS 3 2'),
    (EM + CHAIN + 'V p 2;', 'FAILS 3 2'),
    (EM + CHAIN + 'L 1 0;V p 3;', 'HOLDS 3 3'),
    # products: first * 4 + second
    (PP + '=;K 1;K 2;L 0 1;V p 6;', 'HOLDS 6 6'),
    (PP + '=;K 1;K 2;L 0 1;V p 5;', 'NO 7 A 26 16'),
    (PP + '=;K 2;L 0 1;K 1;V p 5;', 'HOLDS 5 5'),
    (DN + '=;K 1;K 2;L 0 1;V p 2;', 'FAILS 3 2'),
    # layers
    (PP + CHAIN + 'N 2;', 'HOLDS 2 2'),
    (PP + CHAIN + 'N 2;V p 0;', 'NO 7 A 26 16'),
    (PP + CHAIN + 'N 3;V p 2;', 'NO 7 A 26 16'),
    (PP + CHAIN + 'N 3;', 'HOLDS 3 3'),
    (PQ + FORK + 'V p 2;V q 4;', 'HOLDS 0 6'),
    (SUM + FORK + 'V p 2;V q 4;', 'HOLDS 2 6'),
    (SUM + FORK + 'N 0;V p 2;V q 4;', 'HOLDS 2 7'),
    (SUM + FORK + 'N 0;V p 6;', 'NO 9 A 26 16'),
    (EM + FORK + 'N 0;V p 2;', 'HOLDS 7 7'),
    ('M I;P #;S ~p #E 1;' + FORK + 'N 2;V p 6;', 'NO 9 A 26 16'),
    ('M I;P #;S ~p #E 1;' + FORK + 'N 2;V p 7;', 'HOLDS 2 2'),
    ('M I;P #;S ~p #E 1;' + FORK + 'N 2;', 'HOLDS 2 7'),
]


def self_test():
    wrong = 0
    for program, rows in (('check', CHECK), ('weigh', WEIGH)):
        for given, answer in rows:
            data = given.replace(' ', '\t').replace(';', '\n').encode()
            got = getattr(second, program)(data).decode().replace('\t', ' ').rstrip('\n')
            if answer is None:                              # too long to write down: accepted, with 17 premises
                good = got.startswith('OK I 17 p ') and len(got.split(' ')) == 4 + 17
            else:
                good = got == answer
            if not good:
                wrong += 1
                print(f'{given[:200]!r}: {program}: due {answer}, got {got[:200]}')
    print(len(CHECK) + len(WEIGH), 'inputs,', wrong, 'wrong')
    return 1 if wrong else 0
