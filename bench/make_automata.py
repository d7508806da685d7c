#!/usr/bin/env python3
"""A linear hybrid automaton for programs/bench_hybrid.txt: make_automata.py tank, ring LOCATIONS or random DIM [SEED].

tank: the water level and a clock of the pump's delay (four locations). ring: LOCATIONS locations, in each of which one
of two variables grows while a clock runs to a bound. random: 10 locations and 20 transitions, of which the first ten
make a ring; invariants are upper bounds, flows are boxes of small velocities.

Rows are as in files of constraints: the constant and then the coefficients, at least 0.
"""
import random
import sys


def listed(dim, rows):
    """A file of constraints; a row is marked as an equality by True."""
    equal = [str(i + 1) for i, (_, eq) in enumerate(rows) if eq]
    lines = ["H-representation"]
    if equal:
        lines.append(" ".join(["linearity", str(len(equal)), *equal]))
    lines += ["begin", f"{len(rows)} {dim + 1} integer"]
    return "\n".join(lines + [" ".join(map(str, row)) for row, _ in rows] + ["end", ""])


def row(dim, constant, entries, eq=False):
    cells = [constant] + [0] * dim
    for at, value in entries:
        cells[at + 1] += value
    return (cells, eq)


def is_value(dim, at, value):
    return row(dim, -value, [(at, 1)], True)


def most(dim, at, value):
    return row(dim, value, [(at, -1)])


def least(dim, at, value):
    return row(dim, -value, [(at, 1)])


def stays(dim, at):
    return row(2 * dim, 0, [(at, -1), (dim + at, 1)], True)


def resets(dim, at, value):
    return is_value(2 * dim, dim + at, value)


def text(dim, locations, parts):
    return "".join([f"{dim} {locations}\n*\n"] + [f"{head}\n{listed(width, rows)}*\n" for head, width, rows in parts])


def tank():
    """Halbwachs, Proy and Roumanoff: level A rises by 1 or falls by 2, and the pump follows two seconds later."""
    parts = [("init 0", 2, [is_value(2, 0, 1), is_value(2, 1, 0)])]
    bounds = [most(2, 0, 10), most(2, 1, 2), least(2, 0, 5), most(2, 1, 2)]
    rates = [1, 1, -2, -2]
    guards = [is_value(4, 0, 10), is_value(4, 1, 2), is_value(4, 0, 5), is_value(4, 1, 2)]
    for l in range(4):
        clock = [resets(2, 1, 0)] if l % 2 == 0 else [stays(2, 1)]
        parts.append((f"trans {l} {(l + 1) % 4}", 4, [guards[l], stays(2, 0)] + clock))
    for l in range(4):
        parts.append((f"inv {l}", 2, [bounds[l]]))
        parts.append((f"flow {l}", 2, [is_value(2, 0, rates[l]), is_value(2, 1, 1)]))
    return text(2, 4, parts)


def ring(locations):
    parts = [("init 0", 3, [is_value(3, i, 0) for i in range(3)])]
    for l in range(locations):
        parts.append((f"trans {l} {(l + 1) % locations}", 6, [least(6, 2, 1), stays(3, 0), stays(3, 1), resets(3, 2, 0)]))
    for l in range(locations):
        parts.append((f"inv {l}", 3, [most(3, 2, 2)]))
        parts.append((f"flow {l}", 3, [is_value(3, l % 2, 1), is_value(3, 1 - l % 2, 0), is_value(3, 2, 1)]))
    return text(3, locations, parts)


def some(dim, seed):
    choose = random.Random(seed)
    locations, transitions = 10, 20
    parts = [("init 0", dim, [is_value(dim, i, 0) for i in range(dim)])]
    for k in range(transitions):
        source = k % locations if k < locations else choose.randrange(locations)
        target = (k + 1) % locations if k < locations else choose.randrange(locations)
        guard, reset = choose.randrange(dim), choose.randrange(dim)
        rows = [least(2 * dim, guard, choose.randint(0, 3))]
        rows += [resets(dim, i, choose.randint(0, 2)) if i == reset else stays(dim, i) for i in range(dim)]
        parts.append((f"trans {source} {target}", 2 * dim, rows))
    for l in range(locations):
        bound = choose.randrange(dim)
        parts.append((f"inv {l}", dim, [most(dim, bound, choose.randint(5, 20))]))
        rows = []
        for i in range(dim):
            low = choose.randint(0, 2)
            rows += [least(dim, i, low), most(dim, i, low + choose.randint(0, 1))]
        parts.append((f"flow {l}", dim, rows))
    return text(dim, locations, parts)


def main():
    kind, *words = sys.argv[1:]
    if kind == "tank":
        print(tank(), end="")
    elif kind == "ring":
        print(ring(int(words[0])), end="")
    else:
        print(some(int(words[0]), int(words[1]) if len(words) > 1 else 1), end="")


main()
