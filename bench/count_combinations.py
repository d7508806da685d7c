#!/usr/bin/env python3
"""The number of combinations that the double description method makes of rows on standard input, in the form of make_rows.py.

The number is a matter of the rows alone: with a row that isn't 0 on some line, one combination for each other vector
that isn't 0 on it; otherwise one for each pair of adjacent rays on its two sides. This script counts them with
integers without a bound, by rules of its own, for comparison with the benchmark's table.
"""
import math
import sys


def primitive(v):
    g = 0
    for x in v:
        g = math.gcd(g, x)
    return tuple(x // g for x in v) if g > 1 else tuple(v)


def dot(u, v):
    return sum(a * b for a, b in zip(u, v))


def combine(left, u, right, v):
    g = math.gcd(u, v)
    first = -(v // g) if u > 0 else v // g
    return primitive([abs(u) // g * b + first * a for a, b in zip(left, right)])


def convert(width, rows):
    lines = [tuple(1 if j == i else 0 for j in range(width)) for i in range(width)]
    rays = []
    zeros = []
    counts = []
    sizes = []
    for k, (equality, row) in enumerate(rows):
        made = 0
        values = [dot(row, l) for l in lines]
        crossing = [i for i, u in enumerate(values) if u]
        if crossing:
            e = crossing[-1]
            line, u = lines[e], values[e]
            new_lines = []
            for i, l in enumerate(lines):
                if i != e:
                    if values[i]:
                        made += 1
                        l = combine(line, u, l, values[i])
                    new_lines.append(l)
            new_rays = []
            for r in rays:
                v = dot(row, r)
                if v:
                    made += 1
                    r = combine(line, u, r, v)
                new_rays.append(r)
            lines = new_lines
            rays = new_rays
            zeros = [z | {k} for z in zeros]
            if not equality:
                rays.append(line if u > 0 else tuple(-x for x in line))
                zeros.append(set(range(k)))
        else:
            v = [dot(row, r) for r in rays]
            kept = [i for i in range(len(rays)) if v[i] == 0 or (v[i] > 0 and not equality)]
            new_rays = [rays[i] for i in kept]
            new_zeros = [zeros[i] | ({k} if v[i] == 0 else set()) for i in kept]
            for p in range(len(rays)):
                if v[p] <= 0:
                    continue
                for n in range(len(rays)):
                    if v[n] >= 0:
                        continue
                    both = zeros[p] & zeros[n]
                    if any(both <= zeros[i] for i in range(len(rays)) if i not in (p, n)):
                        continue
                    made += 1
                    new_rays.append(combine(rays[p], v[p], rays[n], v[n]))
                    new_zeros.append(both | {k})
            rays, zeros = new_rays, new_zeros
        counts.append(made)
        sizes.append(len(lines) + len(rays))
    return lines, rays, counts, sizes


def main():
    width = int(next(sys.stdin))
    rows = []
    for line in sys.stdin:
        mark, *words = line.split()
        rows.append((mark == "=", list(map(int, words))))
    lines, rays, counts, sizes = convert(width, rows)
    print(f"lines {len(lines)} rays {len(rays)} combinations {sum(counts)} bound {sum(sizes)}")
    assert all(c <= s for c, s in zip(counts, sizes))


if __name__ == "__main__":
    main()
