#!/usr/bin/env python3
"""Lines of one command, with random names, numbers and parts: make_commands.py KIND COUNT, or the kinds: make_commands.py kinds

KIND is a command word of the table in docs/LANGUAGE.md, or `comment`, or one of `short_copy`, `short_has`, `short_add`,
`short_max` for COUNT times the same line. The dimension is at most 8.
"""
import pathlib
import random
import re
import sys

TABLE = pathlib.Path(__file__).resolve().parent.parent / "docs" / "LANGUAGE.md"
VARIABLES = "ABCDEFGH"


def forms():
    """The forms of each command in the order of the table: `meet` has the one form `meet OUT P Q`."""
    by_word = {}
    for row in re.findall(r"^\| (`.*?) \| ", TABLE.read_text().split("## All commands")[1], re.M):
        for form in re.findall(r"`([a-z][^`]*)`", row):
            by_word.setdefault(form.split()[0], []).append(form)
        if row.startswith("`names`"):
            break
    return by_word


def name(source, dim):
    return "".join(source.choice("abcdefghpqxyz") for _ in range(source.randint(1, 3)))


def digit(source, dim):
    return str(source.randint(0, 9))


def expression(source, dim):
    terms = []
    for variable in VARIABLES[:dim]:
        if source.random() < 0.35:
            factor = source.choice([1, 1, 1, 2, 3, 5, 12])
            terms.append((source.choice("+-"), (f"{factor}*" if factor > 1 else "") + variable))
    if not terms:
        terms = [("+", source.choice(VARIABLES[:dim]))]
    text = ("-" if terms[0][0] == "-" else "") + terms[0][1]
    return text + "".join(f" {sign} {term}" for sign, term in terms[1:])


def constraint(source, dim):
    return f"{expression(source, dim)} {source.choice(['>=', '<=', '>=', '='])} {source.choice([0, 1, 2, 7, 10, -3, 100])}"


def generator(source, dim, kinds="pppr"):
    kind = source.choice(kinds)
    text = expression(source, dim)
    if kind == "p" and source.random() < 0.25:
        return f"p(({text})/{source.randint(2, 9)})"
    return f"{kind}({text})"


def several(item):
    """One to five of them."""
    return lambda source, dim: ", ".join(item(source, dim) for _ in range(source.randint(1, 5)))


def fraction(source, dim):
    text = expression(source, dim)
    return f"({text})/{source.randint(2, 9)}" if source.random() < 0.25 else text


# what stands for each word of a form that is written in capital letters
PARTS = {
    **dict.fromkeys(["OUT", "P", "Q", "R", "S", "T", "H", "PREFIX"], name),
    **dict.fromkeys(["LOC", "LOC2", "DELAY", "I"], digit),
    "TOP": lambda s, d: "closed",
    "N": lambda s, d: str(d),
    "L": lambda s, d: str(s.randint(1, 20)),
    "V": lambda s, d: s.choice(VARIABLES[:d]),
    "FORM": lambda s, d: s.choice(["ine", "ext"]),
    "POINT": lambda s, d: generator(s, d, "p"),
    "CONSTRAINT": constraint,
    "CONSTRAINTS": several(constraint),
    "GENERATORS": several(generator),
    "EXPRESSION": expression,
    "FRACTION": fraction,
    "VARIABLES": lambda s, d: ", ".join(s.sample(VARIABLES[:d], s.randint(1, d))),
}

# lines that stand for no row of the table
FURTHER = {
    "comment": lambda s, d: "# " + "text " * s.randint(1, 8),
    "short_copy": lambda s, d: "copy a b",
    "short_has": lambda s, d: "has a : p(A)",
    "short_add": lambda s, d: "add a : A >= 0",
    "short_max": lambda s, d: "max a : A",
}


def line(form, source, dim):
    """A line of the form."""
    return " ".join(PARTS[word](source, dim) if word in PARTS else word for word in form.split())


def main():
    kind = sys.argv[1]
    commands = forms()
    if kind == "kinds":
        print("\n".join([*commands, *FURTHER]))
        return
    source = random.Random(1)
    for _ in range(int(sys.argv[2])):
        dim = source.randint(3, 8)
        print(FURTHER[kind](source, dim) if kind in FURTHER else line(source.choice(commands[kind]), source, dim))


if __name__ == "__main__":
    main()
