"""What a program needs that asks polycalc about models with their own names: linear relations, read exactly and written
as constraints, replies told in these names, and the calculator that is there. To be copied, as client.py.

    rows = relation("0.5 <= x < 2*(y + 1)", {"x": {"x": Fraction(1)}, "y": {"y": Fraction(1)}})
    print(*(constraint(row, {"x": "A", "y": "B"}) for row in rows), sep=", ")  # 2*A >= 1, 2*B - A >= -2

An expression is a dictionary: the factor of each name, and the constant under the empty name. A row is an expression
with whole numbers, and "=" or ">=", which compares it with 0; a strict relation gives a row that isn't strict.
"""
import ast
import math
import os
import re
import shutil
from fractions import Fraction

NUMBER = r"\d{1,39}(?:\.\d{1,39})?"
ATOM = re.compile(rf"{NUMBER}(?![\w.])|(?<![\w.])[A-Za-z_][\w.]*'?", re.ASCII)
COLUMNS = [chr(65 + number % 26) + str(number // 26 or "") for number in range(64)]


def refuse_if(wrong, why):
    """Refuses what is read."""
    if wrong:
        raise ValueError(why)


def look_up(table, key, what):
    """What a name stands for in a table."""
    refuse_if(key not in table, f"there is no {what} {key or 'here'}")
    return table[key]


def added(one, other, factor=1):
    """One expression and the other one times the factor."""
    return {name: one.get(name, 0) + factor * other.get(name, 0) for name in {**one, **other}}


def linear(node, atoms):
    """The expression of a node of Python's syntax, whose names are those of the atoms."""
    if isinstance(node, ast.Name):
        return atoms[node.id]
    if isinstance(node, ast.UnaryOp):
        return added({}, linear(node.operand, atoms), -1 if isinstance(node.op, ast.USub) else 1)
    refuse_if(not isinstance(node, ast.BinOp), "this can't be read")
    left, right = linear(node.left, atoms), linear(node.right, atoms)
    if isinstance(node.op, (ast.Add, ast.Sub)):
        return added(left, right, -1 if isinstance(node.op, ast.Sub) else 1)
    if isinstance(node.op, ast.Mult) and set(left) == {""}:
        left, right = right, left
    refuse_if(not isinstance(node.op, (ast.Mult, ast.Div)) or set(right) != {""}, "this isn't linear")
    if isinstance(node.op, ast.Mult):
        return added({}, left, right[""])
    refuse_if(not right[""], "a division by zero")
    return added({}, left, 1 / right[""])


def expression(text, meanings):
    """The expression that a text spells. Python reads it, with a plain name for each number and each name."""
    atoms = {}

    def stand_in(match):
        is_number = match[0][0].isdigit()
        refuse_if(not is_number and match[0] not in meanings, f"{match[0]} has no meaning here")
        atoms[f"_{len(atoms)}"] = {"": Fraction(match[0])} if is_number else meanings[match[0]]
        return f" _{len(atoms) - 1} "

    code = ATOM.sub(stand_in, " ".join(text.split())).strip()
    refuse_if(re.search(r"[^ \w+*/()-]", code, re.ASCII), "this can't be read")
    try:
        return linear(ast.parse(code, mode="eval").body, atoms)
    except (SyntaxError, RecursionError, MemoryError) as error:
        raise ValueError("this can't be read") from error


def relation(text, meanings):
    """The rows of a chain of relations; `meanings` has the expression of each name that may stand in it."""
    words = re.split("([<>=]=|[<>=])", "0 >= 1" if text == "false" else text)
    refuse_if(len(words) == 1, "this is no relation")
    sides, rows = [expression(word, meanings) for word in words[::2]], []
    for left, sign, right in zip(sides, words[1::2], sides[1:]):
        row = added(right, left, -1) if sign[0] == "<" else added(left, right, -1)
        whole = math.lcm(*(value.denominator for value in row.values()))
        refuse_if(any(abs(value * whole) >= 2**127 for value in row.values()), "a number is too large")
        rows.append(({name: int(value * whole) for name, value in row.items()}, "=" if sign[0] == "=" else ">="))
    return rows


def constraint(row, columns):
    """A row as a constraint; `columns` has the calculator's variable of each name."""
    terms = [(columns[name], factor) for name, factor in row[0].items() if name]
    text = " ".join(f"{'-' if factor < 0 else '+'} {abs(factor)}*{column}" for column, factor in terms)
    text = re.sub(r"(?<!\d)1\*", "", text.removeprefix("+ "))
    return f"{text or 0} {row[1]} {-row[0].get('', 0)}"


def in_names(reply, names):
    """A reply with names in place of the variables, whose order is that of the columns."""
    return re.sub(r"[A-Z]\d*", lambda column: names[COLUMNS.index(column[0])], reply)


def point_of(reply, names):
    """The point at the end of a reply to `max`, as the values of the names."""
    terms, divisor = re.search(r"p\(\(?([^()]*)\)?/?(\d*)\)$", reply).groups()
    factors = re.findall(r"(-?) ?(?:(\d+)\*)?([A-Z]\d*)", terms)
    found = {column: int(sign + (factor or "1")) for sign, factor, column in factors}
    values = (Fraction(found.get(column, 0), int(divisor or 1)) for column in COLUMNS)
    return ", ".join(f"{name} = {value}" for name, value in zip(names, values))


def calculator():
    """The calculator that the environment names, or that is built, or that is on the path. A launcher on the path isn't
    taken, since it may have to prove and build the calculator first."""
    on_path = os.path.realpath(shutil.which("polycalc") or "")
    folders = [os.path.realpath(os.path.join(__file__, "..", "..")), os.path.dirname(on_path)]
    files = [os.path.join(folder, "out", "polycalc") for folder in folders]
    files += [] if os.path.exists(os.path.join(folders[1], "crates.txt")) else [on_path]
    built = [file for file in files if os.path.isfile(file) and os.access(file, os.X_OK)]
    return os.environ.get("POLYCALC") or (built + ["./polycalc, which isn't built"])[0]
