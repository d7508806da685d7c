#!/usr/bin/env python3
"""Files of loops as relations, in the format of cdd: make_relations.py FOLDER.

The variables of a relation are those of a state and then those of its successor. The loops of the literature have
one disjunct each; the random ones are a box or a few half planes, and an update of each variable.
"""
import os
import random
import sys

from make_polytopes import text


def row(mark, constant, before, after):
    return mark, [constant] + list(before) + list(after)


def loop(size, guards, updates):
    """Guards are (constant, {variable: coefficient}) >= 0; updates give each changed variable as (constant, {..}) and
    the marks of its comparison."""
    rows = []
    for constant, places in guards:
        rows.append(row(">=", constant, [places.get(j, 0) for j in range(size)], [0] * size))
    for j in range(size):
        for mark, constant, places in updates.get(j, [("=", 0, {j: 1})]):
            rows.append(row(mark, constant, [places.get(k, 0) for k in range(size)], [-int(k == j) for k in range(size)]))
    return rows


def literature():
    one = {}
    # while x >= 1: x := x - 1
    one["countdown"] = loop(1, [(-1, {0: 1})], {0: [("=", -1, {0: 1})]})
    # while x >= 0: x := x + y; y := y - 1 has none; with y <= -1 kept it has one (Podelski, Rybalchenko 2004)
    one["constant_slope"] = loop(2, [(0, {0: 1}), (-1, {1: -1})], {0: [("=", 0, {0: 1, 1: 1})], 1: [("=", -1, {1: 1})]})
    # while i - j >= 1: i := i - n; j := j + p, with n, p >= 0 of which one is positive (Podelski, Rybalchenko 2004)
    one["two_counters"] = loop(2, [(-1, {0: 1, 1: -1})], {0: [(">=", 0, {0: 1})], 1: [("=", 1, {1: 1})]})
    # while x >= y: y := y + z + 1, z kept and at least 0
    one["rising_bound"] = loop(3, [(0, {0: 1, 1: -1}), (0, {2: 1})], {1: [("=", 1, {1: 1, 2: 1})]})
    # greatest common divisor by subtraction: a > b >= 1: a := a - b
    one["subtraction"] = loop(2, [(-1, {0: 1, 1: -1}), (-1, {1: 1})], {0: [("=", 0, {0: 1, 1: -1})]})
    # the loop of merge sort's predicate: sizes halve, by 2b <= a (Mesnard, Serebrenik 2008)
    one["halving"] = [row(">=", -2, [1], [0]), row(">=", 0, [1], [-2])]
    # x + y >= 1, x' <= x, y' <= y - 1 and sums fall (Colon, Sipma 2001)
    one["falling_sum"] = [row(">=", -1, [1, 1], [0, 0]), row(">=", -1, [1, 1], [-1, -1])]
    # while x >= 0: x := x - 1, or x kept: none
    one["none"] = [row(">=", 0, [1], [0]), row(">=", 0, [1], [-1]), row(">=", 1, [-1], [1])]
    return one


def random_loop(size, seed):
    choose = random.Random(1000 * size + seed)
    falling = choose.randrange(size)
    guards = [(-choose.randint(0, 9), {falling: 1})]
    guards += [(choose.randint(5, 20), {j: -1}) for j in range(size) if choose.random() < 0.5]
    guards += [(choose.randint(0, 9), {j: choose.randint(1, 3), choose.randrange(size): -1}) for j in range(size) if choose.random() < 0.4]
    updates = {falling: [("=", -choose.randint(1, 3), {falling: 1})]}
    for j in range(size):
        if j == falling:
            continue
        other = choose.randrange(size)
        constant = choose.randint(-3, 3)
        if choose.random() < 0.5:
            updates[j] = [("=", constant, {j: 1, other: choose.choice([-1, 1, 2])} if other != j else {j: 1})]
        else:
            updates[j] = [(">=", constant + 2, {j: 1}), ("lower", constant, {j: 1})]
    rows = []
    for mark, entries in loop(size, guards, updates):
        if mark == "lower":
            mark, entries = ">=", [-x for x in entries]
        rows.append((mark, entries))
    return rows


def files():
    group = {f"{name}.ine": rows for name, rows in literature().items()}
    for size in range(2, 9):
        for seed in range(4):
            group[f"random{2 * size}_{seed}.ine"] = random_loop(size, seed)
    return group


def main():
    folder = sys.argv[1]
    os.makedirs(folder, exist_ok=True)
    for name, rows in files().items():
        with open(os.path.join(folder, name), "w") as file:
            file.write(text(name, rows))


if __name__ == "__main__":
    main()
