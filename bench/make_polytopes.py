#!/usr/bin/env python3
"""Files of polytopes in the format of cdd, for the comparison of conversions: make_polytopes.py FOLDER [large].

With `large` the files that take some converter a tenth of a second to a minute.
"""
import itertools
import math
import os
import random
import sys

from make_rows import birkhoff, cross, cube


def constraints(rows):
    """The rows of make_rows.py without the first one, each as its mark and a row of cdd."""
    return [(mark, [row[-1]] + row[:-1]) for mark, row in rows[1:]]


def unit(size, places):
    return [places.get(j, 0) for j in range(size)]


def at_least(constant, size, places):
    return ">=", [constant] + unit(size, places)


def exactly(constant, size, places):
    return "=", [constant] + unit(size, places)


def product_of_simplices(dims):
    size = sum(dims)
    rows = []
    start = 0
    for dim in dims:
        rows += [at_least(0, size, {start + j: 1}) for j in range(dim)]
        rows.append(at_least(1, size, {start + j: -1 for j in range(dim)}))
        start += dim
    return rows


def order_polytope(size, below):
    """x_i <= x_j for each pair (i, j), and then 0 <= x <= 1: with the box first there are 2^size rays halfway."""
    rows = [at_least(0, size, {j: 1, i: -1}) for i, j in below]
    rows += [at_least(0, size, {i: 1}) for i in range(size)]
    return rows + [at_least(1, size, {i: -1}) for i in range(size)]


def zigzag(size):
    return order_polytope(size, [(i, i + 1) if i % 2 == 0 else (i + 1, i) for i in range(size - 1)])


def grid(width, height):
    place = lambda i, j: i * height + j
    pairs = [(place(i, j), place(i + 1, j)) for i in range(width - 1) for j in range(height)]
    pairs += [(place(i, j), place(i, j + 1)) for i in range(width) for j in range(height - 1)]
    return order_polytope(width * height, pairs)


def transportation(supplies, demands):
    m, n = len(supplies), len(demands)
    size = m * n
    rows = [exactly(-supplies[i], size, {i * n + j: 1 for j in range(n)}) for i in range(m)]
    rows += [exactly(-demands[j], size, {i * n + j: 1 for i in range(m)}) for j in range(n - 1)]
    return rows + [at_least(0, size, {k: 1}) for k in range(size)]


def random_points(count, dim, seed):
    source = random.Random(seed)
    return [(">=", [1] + [source.randint(-20, 20) for _ in range(dim)]) for _ in range(count)]


def redundant_points(count, more, dim, seed):
    """Random points, and points halfway between two of them, in a random order."""
    source = random.Random(seed)
    rows = [(">=", [1] + [2 * x for x in point[1:]]) for _, point in random_points(count, dim, seed)]
    for _ in range(more):
        a, b = source.sample(rows[:count], 2)
        rows.append((">=", [1] + [(x + y) // 2 for x, y in zip(a[1][1:], b[1][1:])]))
    source.shuffle(rows)
    return rows


def moment_points(dim, points):
    return [(">=", [1] + [t ** j for j in range(1, dim + 1)]) for t in range(1, points + 1)]


def signed_units(dim):
    return [(">=", [1] + unit(dim, {i: sign})) for i, sign in itertools.product(range(dim), (1, -1))]


def direction(source, dim, length):
    """A vector of integers that is about so long, in a random direction."""
    while True:
        vector = [source.gauss(0, 1) for _ in range(dim)]
        norm = math.sqrt(sum(x * x for x in vector))
        if norm > 1e-9:
            return [round(length * x / norm) for x in vector]


def directions(dim, count, seed):
    """Different such vectors, shorter in high dimensions, so that the numbers of a conversion keep below 128 bits."""
    source = random.Random(seed)
    length = 1000 if dim <= 5 else 100
    found = {}
    while len(found) < count:
        found.setdefault(tuple(direction(source, dim, length)))
    return length, list(found)


def sphere(dim, count, seed=1):
    """Points near a sphere."""
    _, points = directions(dim, count, seed)
    return [(">=", [1] + list(point)) for point in points]


def tangents(dim, count, seed=2):
    """Half-spaces that nearly touch a ball."""
    length, normals = directions(dim, count, seed)
    return [(">=", [length] + [-x for x in normal]) for normal in normals]


def corners(dim, count, seed=1):
    """Different points of which all coordinates are 0 or 1."""
    source = random.Random(seed)
    numbers = source.sample(range(2 ** dim), count)
    return [(">=", [1] + [number >> j & 1 for j in range(dim)]) for number in numbers]


def knapsack(size, seed=1):
    """Points of the unit cube of at most half of the greatest weight."""
    source = random.Random(seed)
    weights = [source.randint(10, 99) for _ in range(size)]
    box = [row for j in range(size) for row in (at_least(0, size, {j: 1}), at_least(1, size, {j: -1}))]
    return box + [(">=", [sum(weights) // 2] + [-weight for weight in weights])]


def permutahedron(size):
    """The hull of the orders of 1 to size: each few coordinates have at least the sum of as many least numbers."""
    rows = [exactly(-size * (size + 1) // 2, size, {j: 1 for j in range(size)})]
    for count in range(1, size):
        least = -count * (count + 1) // 2
        rows += [at_least(least, size, {j: 1 for j in some}) for some in itertools.combinations(range(size), count)]
    return rows


def voronoi(dim, count, seed=1):
    """The points above all planes that touch the paraboloid above a site: its faces are the Voronoi cells."""
    source = random.Random(seed)
    sites = {}
    while len(sites) < count:
        sites.setdefault(tuple(source.randint(-50, 50) for _ in range(dim)))
    return [(">=", [sum(x * x for x in site)] + [-2 * x for x in site] + [1]) for site in sites]


def dwarfed_cube(size):
    """A cube of which a half-space leaves only one corner and its neighbourhood (Avis, Bremner, Seidel, 1997)."""
    box = [row for j in range(size) for row in (at_least(0, size, {j: 1}), at_least(2, size, {j: -2}))]
    return box + [(">=", [3] + [-2] * size)]


# files that take a converter some milliseconds, so that the start of its process doesn't decide
GROUP = {
    **{f"cube-{n}.ine": constraints(cube(n)) for n in (8, 10, 12)},
    **{f"cross-{n}.ine": constraints(cross(n)) for n in (8, 9, 10)},
    **{f"cross-{n}.ext": signed_units(n) for n in (10, 12)},
    **{f"cyclic-{d}-{n}.ext": moment_points(d, n) for d, n in ((4, 30), (4, 60), (6, 20), (8, 16), (8, 20))},
    **{f"simplices-{d}x{k}.ine": product_of_simplices([d] * k) for d, k in ((4, 4), (3, 5))},
    "zigzag-12.ine": zigzag(12),
    "zigzag-16.ine": zigzag(16),
    "grid-4x4.ine": grid(4, 4),
    "grid-4x6.ine": grid(4, 6),
    "transportation-4x4.ine": transportation([7, 9, 13, 11], [5, 8, 16, 11]),
    "transportation-4x5.ine": transportation([7, 9, 13, 11], [5, 8, 9, 11, 7]),
    "birkhoff-5.ine": constraints(birkhoff(5)),
    **{f"random-{n}-{d}.ext": random_points(n, d, 1) for n, d in ((100, 4), (60, 5), (40, 6))},
    "redundant-4.ext": redundant_points(60, 120, 4, 2),
    "redundant-5.ext": redundant_points(40, 80, 5, 3),
}

# files that take some converter a tenth of a second to a minute
LARGE = {
    "birkhoff-6.ine": lambda: constraints(birkhoff(6)),
    "cube-16.ine": lambda: constraints(cube(16)),
    "cross-13.ine": lambda: constraints(cross(13)),
    "cyclic-4-300.ext": lambda: moment_points(4, 300),
    "cyclic-5-100.ext": lambda: moment_points(5, 100),
    "cyclic-6-36.ext": lambda: moment_points(6, 36),
    "cyclic-8-24.ext": lambda: moment_points(8, 24),
    "dwarfed-16.ine": lambda: dwarfed_cube(16),
    "knapsack-15.ine": lambda: knapsack(15),
    "permutahedron-7.ine": lambda: permutahedron(7),
    "corners-8-100.ext": lambda: corners(8, 100),
    "corners-9-100.ext": lambda: corners(9, 100),
    "corners-10-60.ext": lambda: corners(10, 60),
    "sphere-4-1000.ext": lambda: sphere(4, 1000),
    "sphere-5-400.ext": lambda: sphere(5, 400),
    "sphere-6-200.ext": lambda: sphere(6, 200),
    "sphere-8-60.ext": lambda: sphere(8, 60),
    "tangents-5-400.ine": lambda: tangents(5, 400),
    "tangents-6-200.ine": lambda: tangents(6, 200),
    "transportation-4x6.ine": lambda: transportation([17, 19, 23, 21], [15, 8, 16, 11, 17, 13]),
    "transportation-5x5.ine": lambda: transportation([17, 19, 23, 21, 14], [15, 18, 16, 21, 24]),
    "voronoi-4-500.ine": lambda: voronoi(4, 500),
}


def text(name, rows):
    kind = "V" if name.endswith(".ext") else "H"
    marks = [i for i, (mark, _) in enumerate(rows, 1) if mark == "="]
    lines = [f"* {name}", f"{kind}-representation"]
    if marks:
        lines.append(" ".join(map(str, ["linearity", len(marks)] + marks)))
    lines += ["begin", f"{len(rows)} {len(rows[0][1])} integer"]
    lines += [" ".join(map(str, row)) for _, row in rows]
    return "\n".join(lines + ["end", ""])


def files(large):
    """The names of the files with their rows."""
    return ((name, rows()) for name, rows in LARGE.items()) if large else iter(GROUP.items())


def main():
    folder = sys.argv[1]
    os.makedirs(folder, exist_ok=True)
    for name, rows in files(sys.argv[2:] == ["large"]):
        with open(os.path.join(folder, name), "w") as file:
            file.write(text(name, rows))


if __name__ == "__main__":
    main()
