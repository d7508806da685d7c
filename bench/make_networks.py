#!/usr/bin/env python3
"""Pairs of temporal networks and of shapes, in the format of cdd: make_networks.py FOLDER.

A network bounds differences of two of its variables, or one variable, by whole numbers, so that a random point meets
all of them; the two of a pair have one point. A sparse one has three bounds a variable, a dense one a bound for half of
all ordered pairs. A shape of fractions is as a sparse one, with a factor from 1 to 4 for each row, so that its bounds
are fractions.
"""
import os
import random
import sys

from make_polytopes import text

SIZES = (10, 20, 30, 40, 50, 63)
KINDS = ("sparse", "dense", "fractions")


def bounds(dim, kind, point, draw):
    places = dim + 1
    pairs = [(i, j) for i in range(places) for j in range(places) if i != j]
    count = len(pairs) // 2 if kind == "dense" else 3 * dim
    rows = []
    for i, j in draw.sample(pairs, min(count, len(pairs))):
        factor = draw.randint(1, 4) if kind == "fractions" else 1
        row = [factor * (point[i] - point[j]) + draw.randint(0, 100)] + [0] * dim
        if i > 0:
            row[i] = -factor
        if j > 0:
            row[j] = factor
        rows.append((">=", row))
    return rows


def group(sizes=SIZES, kinds=KINDS):
    found = {}
    for kind in kinds:
        for dim in sizes:
            draw = random.Random(f"{kind} {dim}")
            point = [0] + [draw.randint(0, 1000) for _ in range(dim)]
            found[f"{kind}-{dim}"] = (dim, bounds(dim, kind, point, draw), bounds(dim, kind, point, draw))
    return found


def pair_text(name, first, second):
    return text(f"{name}-first.ine", first) + "%\n" + text(f"{name}-second.ine", second)


def main():
    folder = sys.argv[1]
    os.makedirs(folder, exist_ok=True)
    for name, (_, first, second) in group().items():
        with open(os.path.join(folder, name), "w") as file:
            file.write(pair_text(name, first, second))


if __name__ == "__main__":
    main()
