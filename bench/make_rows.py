#!/usr/bin/env python3
"""Rows for the benchmarks of the conversion: the homogeneous rows of a polyhedron, the row d >= 0 first.

make_rows.py cube N | cross N | cyclic DIM POINTS | birkhoff N | random ROWS DIM SEED

The first line is the width. Each other line is a row: `=` or `>=`, and its entries. A row stands for the vectors on
which it is 0, or at least 0.
"""
import itertools
import random
import sys


def above(entries):
    return ">=", entries


def equal(entries):
    return "=", entries


def cube(n):
    rows = [above([0] * n + [1])]
    for i in range(n):
        rows.append(above([1 if j == i else 0 for j in range(n)] + [0]))
        rows.append(above([-1 if j == i else 0 for j in range(n)] + [1]))
    return rows


def cross(n):
    rows = [above([0] * n + [1])]
    for signs in itertools.product((1, -1), repeat=n):
        rows.append(above(list(signs) + [1]))
    return rows


def cyclic(dim, points):
    """The rows of the cone of points on the moment curve: its facets are the vectors that are searched for."""
    return [above([t ** j for j in range(dim, -1, -1)]) for t in range(1, points + 1)]


def birkhoff(n):
    """Matrices of numbers that are at least 0, with the sum 1 in each row and in each column but the last."""
    size = n * n
    rows = [above([0] * size + [1])]
    for i in range(n):
        rows.append(equal([1 if j // n == i else 0 for j in range(size)] + [-1]))
    for i in range(n - 1):
        rows.append(equal([1 if j % n == i else 0 for j in range(size)] + [-1]))
    for i in range(size):
        rows.append(above([1 if j == i else 0 for j in range(size)] + [0]))
    return rows


def random_rows(count, n, seed):
    source = random.Random(seed)
    rows = [above([0] * n + [1])]
    for _ in range(count):
        rows.append(above([source.randint(-9, 9) for _ in range(n)] + [source.randint(1, 100)]))
    return rows


KINDS = {"cube": cube, "cross": cross, "cyclic": cyclic, "birkhoff": birkhoff, "random": random_rows}


def main():
    rows = KINDS[sys.argv[1]](*map(int, sys.argv[2:]))
    print(len(rows[0][1]))
    for mark, entries in rows:
        print(mark, *entries)


if __name__ == "__main__":
    main()
