#!/usr/bin/env python3
"""The combinations of the commands `add`, `meet` and `hull` in a script of make_loops.py: loop_combinations.py POLYCALC DIM [LOOPS].

POLYCALC prints the stored systems of the operands before each of these lines. From them this script counts, by the
rules of count_combinations.py, what two conversions of the whole list make (as before the stored pair was used), and
what its further rows and the second system by saturation make.
"""
import re
import subprocess
import sys

from count_combinations import convert, dot, primitive

HERE = sys.path[0]
NAMES = "ABCDEFGHIJKLMNOPQRSTUVWXYZ"


def terms(text, dim):
    """The coefficients of an expression, and its constant behind them."""
    row = [0] * (dim + 1)
    for sign, number, name in re.findall(r"([+-]?)\s*(\d+)?\*?([A-Z])?", text):
        if number or name:
            row[NAMES.index(name) if name else dim] += (-1 if sign == "-" else 1) * int(number or 1)
    return row


def constraint(text, dim):
    left, mark, right = re.fullmatch(r"(.*?) (>=|<=|=) (.*)", text.strip()).groups()
    row = [a - b for a, b in zip(terms(left, dim), terms(right, dim))]
    return mark == "=", [-x for x in row] if mark == "<=" else row


def generator(text, dim):
    kind, body, divisor = re.fullmatch(r"([plr])\(\(?(.*?)\)?(?:/(\d+))?\)", text.strip()).groups()
    row = terms(body, dim)
    row[dim] = int(divisor or 1) if kind == "p" else 0
    return kind == "l", row


def listed(text, read, dim):
    return [read(one, dim) for one in text.split(", ")] if text not in ("true", "false", "none") else []


def echelon(rows, made):
    """A reduced basis, and the number of combinations with those before."""
    basis = []
    for row in rows:
        row, more = reduced(row, basis)
        made += more
        if any(row):
            pivot = next(i for i, x in enumerate(row) if x)
            made += sum(1 for line, _ in basis if line[pivot])
            basis = [(cleared(line, row, pivot), p) for line, p in basis] + [(row, pivot)]
    return basis, made


def cleared(row, line, pivot):
    return primitive([line[pivot] * a - row[pivot] * b for a, b in zip(row, line)]) if row[pivot] else row


def reduced(row, basis):
    made = 0
    for line, pivot in basis:
        if row[pivot]:
            made += 1
            row = cleared(row, line, pivot)
    return row, made


def by_saturation(rows, rays):
    flat = [row for _, row in rows if all(dot(row, ray) == 0 for ray in rays)]
    basis, made = echelon(flat, 0)
    zeros = {}
    for _, row in rows:
        at = frozenset(i for i, ray in enumerate(rays) if dot(row, ray) == 0)
        if len(at) < len(rays):
            zeros[at] = row
    greatest = [row for at, row in zeros.items() if not any(at < other for other in zeros)]
    return made + sum(reduced(row, basis)[1] for row in greatest)


def counts(rows, taken):
    width = len(rows[0][1])
    lines, rays, steps, _ = convert(width, rows)
    second = [(True, list(line)) for line in lines] + [(False, list(ray)) for ray in rays]
    return sum(steps) + sum(convert(width, second)[2]), sum(steps[taken:]) + by_saturation(rows, rays)


def main():
    polycalc, dim = sys.argv[1], int(sys.argv[2])
    loops = sys.argv[3] if len(sys.argv) > 3 else "10"
    script = subprocess.run([f"{HERE}/make_loops.py", str(dim), "closed", loops], capture_output=True, check=True).stdout.decode()
    lines, wanted = [], []
    for line in script.splitlines():
        words = line.split()
        if words[0] in ("add", "meet", "hull"):
            operands = words[1:2] if words[0] == "add" else words[2:4]
            side = "gens" if words[0] == "hull" else "cons"
            for operand in operands:
                lines += [f"print {side} {operand}", f"print gens {operand}"]
            wanted.append((len(lines), line, len(operands)))
        lines.append(line)
    replies = subprocess.run([polycalc, "run"], input="\n".join(lines + [""]).encode(), capture_output=True, check=False).stdout.decode().splitlines()
    if len(replies) != len(lines):
        raise SystemExit(f"{len(lines)} lines and {len(replies)} replies")
    totals = {}
    for at, line, operands in wanted:
        command = line.split()[0]
        shown = replies[at - 2 * operands:at]
        if "none" in shown or any(text == "false" for text in shown):
            continue
        if command == "hull":
            parts = [listed(text, generator, dim) for text in shown[::2]]
            rows, taken = sum(parts, []), len(parts[0])
        else:
            parts = [listed(text, constraint, dim) for text in shown[::2]]
            if command == "add":
                parts.append([constraint(one, dim) for one in line.split(" : ")[1].split(",")])
            rows = [(False, [0] * dim + [1])] + sum(parts, [])
            taken = 1 + len(parts[0])
        before, after = counts(rows, taken)
        total = totals.setdefault(command, [0, 0, 0])
        for i, more in enumerate((1, before, after)):
            total[i] += more
    print("| Command | Lines | From the first row | From the stored pair |\n|---|---|---|---|")
    for command, (number, before, after) in totals.items():
        print(f"| `{command}` | {number} | {before:,} | {after:,} |")


if __name__ == "__main__":
    main()
