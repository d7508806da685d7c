#!/usr/bin/env python3
"""Pairs of unions of boxes, for the comparison of covers: make_unions.py FOLDER.

A union is a list of boxes, and a box a pair of numbers for each axis. The first line of a file is the dimension; a line
`s` or `t` begins a box of the first or of the second union.
"""
import itertools
import os
import random
import sys


def cells(dim, size):
    return [[(x, x + 1) for x in corner] for corner in itertools.product(range(size), repeat=dim)]


def random_boxes(dim, count, seed, least, most, width):
    draw = random.Random(seed)

    def side():
        low = draw.randint(least, most - 1)
        return low, min(most, low + draw.randint(1, width))

    return [[side() for _ in range(dim)] for _ in range(count)]


def without(boxes, index):
    return boxes[:index] + boxes[index + 1 :]


def group():
    found = {}
    for size in (2, 4, 6, 8, 10, 12):
        square = [[(0, size)] * 2]
        all_cells = cells(2, size)
        found[f"{size} x {size} cells"] = (2, all_cells, square)
        found[f"{size} x {size} cells, one missing"] = (2, without(all_cells, len(all_cells) // 2), square)
    for dim in (2, 3, 4, 5):
        for count in (4, 8, 12):
            first = random_boxes(dim, count, 100 * dim + count, 0, 12, 8)
            parts = [[(max(a, c), min(b, d)) for (a, b), (c, d) in zip(p, q)] for p, q in zip(first, first[1:])]
            parts = [box for box in parts if all(low < high for low, high in box)]
            halves = [half for box in first for half in halved(box)]
            second = random_boxes(dim, count, 100 * dim + count + 50, 2, 10, 4)
            found[f"dimension {dim}, {count} boxes, their halves"] = (dim, halves, first)
            found[f"dimension {dim}, {count} boxes, other boxes"] = (dim, first, second)
            if parts:
                found[f"dimension {dim}, {count} boxes, common parts"] = (dim, first, parts)
    return found


def halved(box):
    axis = max(range(len(box)), key=lambda j: box[j][1] - box[j][0])
    low, high = box[axis]
    if high - low < 2:
        return [box]
    middle = (low + high) // 2
    return [box[:axis] + [(low, middle)] + box[axis + 1 :], box[:axis] + [(middle, high)] + box[axis + 1 :]]


def rows(box):
    for axis, (low, high) in enumerate(box):
        for sign, constant in ((1, -low), (-1, high)):
            row = [0] * len(box) + [constant]
            row[axis] = sign
            yield " ".join([">=", *map(str, row)])


def text(dim, first, second):
    lines = [str(dim)]
    for mark, boxes in (("s", first), ("t", second)):
        for box in boxes:
            lines.append(mark)
            lines.extend(rows(box))
    return "\n".join(lines + [""])


def main():
    folder = sys.argv[1]
    os.makedirs(folder, exist_ok=True)
    for name, (dim, first, second) in group().items():
        with open(os.path.join(folder, name.replace(",", "").replace(" ", "_")), "w") as file:
            file.write(text(dim, first, second))


if __name__ == "__main__":
    main()
