#!/usr/bin/env python3
"""Rows as make_rows.py writes them, as a list of constraints."""
import sys


def variable(j):
    return chr(65 + j % 26) + (str(j // 26) if j >= 26 else "")


def expression(row):
    terms = []
    for j, a in enumerate(row):
        if a:
            sign = "-" if a < 0 else "+"
            terms.append((sign, f"{abs(a)}*{variable(j)}"))
    if not terms:
        return "0"
    text = ("-" if terms[0][0] == "-" else "") + terms[0][1]
    for sign, term in terms[1:]:
        text += f" {sign} {term}"
    return text


def main():
    next(sys.stdin)
    constraints = []
    for line in sys.stdin:
        mark, *words = line.split()
        row = list(map(int, words))
        constraints.append(f"{expression(row[:-1])} {mark} {-row[-1]}")
    print(", ".join(constraints), end="")


if __name__ == "__main__":
    main()
