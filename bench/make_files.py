#!/usr/bin/env python3
"""A file of about so many bytes, of constraints that are read whole and then refused, or of points.

    bench/make_files.py small|long|fractions|points BYTES

Rows of six numbers, of one digit or of up to 37, or of fractions of one digit over one digit. The linearity line names a row
behind the last one, so that all that is measured is reading: the refusal, fault 20, comes after every token was read and
every number was tested. `points` are the points of a V-file, with coordinates of one digit over 2, 3 or 4; they are read whole
and not refused, so that they can be written.
"""
import random
import sys

DRAW = random.Random(1)


def number(kind):
    if kind == 'fractions':
        return f'{DRAW.randint(-9, 9)}/{DRAW.randint(1, 9)}'
    bound = 9 if kind == 'small' else 10 ** 37
    return str(DRAW.randint(-bound, bound))


def row_of(kind):
    if kind == 'points':
        return ' '.join(['1'] + [f'{DRAW.randint(-9, 9)}/{DRAW.randint(2, 4)}' for _ in range(5)])
    return ' '.join(number(kind) for _ in range(6))


def main():
    kind = sys.argv[1]
    rows, size = [], 0
    while size < int(sys.argv[2]) - 60:
        rows.append(row_of(kind))
        size += len(rows[-1]) + 1
    number_type = 'rational' if kind in ('fractions', 'points') else 'integer'
    head = ['V-representation'] if kind == 'points' else ['H-representation', f'linearity 1 {len(rows) + 1}']
    print(*head, 'begin', f'{len(rows)} 6 {number_type}', *rows, 'end', sep='\n')


main()
