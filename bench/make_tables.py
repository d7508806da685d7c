#!/usr/bin/env python3
"""Makes the tables of the machines that decide forms of text, and the texts that name their states.

    bench/make_tables.py FOLDER

Written are, in FOLDER as they stand in the repository, `src/tables.rt` of `grammar` and of `line_forms`, and for each
machine its file of proofs/, with the texts and the lemma that its table decides its form. `examples/made` compares them
with those that stand, and writes them in their places.

A form, below, is an expression over the definitions of crates/grammar/specs/Grammar.antt, for lines also of
crates/line_forms/specs/Layouts.antt. A definition may have several clauses, over [] and x ∷ xs, None and Some x. The
forms of one table of the classes of bytes share it: at most 32 classes.
The states of a machine are the sets of rows that come behind a text, found breadth first, texts in the order of bytes.
Nothing here need be trusted: each lemma compares each entry of its tables with the forms.
"""
import os
import re
import sys

TOP = os.path.dirname(os.path.dirname(os.path.abspath(__file__)))
GRAMMAR = 'crates/grammar/specs/Grammar.antt'
LAYOUTS = 'crates/line_forms/specs/Layouts.antt'

# Each machine of `grammar` and its form.
TEXTS = {
    'CLASSES': {
        'EXPR': 'alone expr',
        'FRAC': 'alone frac',
        'CON': 'alone con',
        'CONS': 'alone cons',
        'POINT': 'alone point',
        'GENS': 'alone gens',
    }
}

# Each machine of `line_forms` and its form: what stands behind a command word, and NOTHING, a whole line without one.
# FILE has a table of its own, since with the letters of its form one table would have more than 32 classes of bytes.
LINES = {
    'CLASSES': {
        'CONS': 'words_form (name ∷ top ∷ nat ∷ []) · tail_form (Some cons) · perhaps comment',
        'GENS': 'words_form (name ∷ top ∷ nat ∷ []) · tail_form (Some gens) · perhaps comment',
        'SPACE': 'words_form (name ∷ top ∷ nat ∷ []) · tail_form None · perhaps comment',
        'TWO_NAMES': 'words_form (name ∷ name ∷ []) · tail_form None · perhaps comment',
        'ONE_NAME': 'words_form (name ∷ []) · tail_form None · perhaps comment',
        'ADD': 'words_form (name ∷ []) · tail_form (Some cons) · perhaps comment',
        'ADDGEN': 'words_form (name ∷ []) · tail_form (Some gens) · perhaps comment',
        'HAS': 'words_form (name ∷ []) · tail_form (Some point) · perhaps comment',
        'PRINT': 'words_form (stored_list ∷ name ∷ []) · tail_form None · perhaps comment',
        'NO_WORDS': 'words_form [] · tail_form None · perhaps comment',
        'NOTHING': 'blanks · perhaps comment',
        'THREE_NAMES': 'words_form (name ∷ name ∷ name ∷ []) · tail_form None · perhaps comment',
        'RELATION': 'words_form (name ∷ []) · tail_form (Some con) · perhaps comment',
        'OPTIMUM': 'words_form (name ∷ []) · tail_form (Some expr) · perhaps comment',
        'IMAGE': 'words_form (name ∷ name ∷ var ∷ []) · related_form frac · perhaps comment',
        'TWO_NAMES_NAT': 'words_form (name ∷ name ∷ nat ∷ []) · tail_form None · perhaps comment',
        'REMOVE': 'words_form (name ∷ name ∷ []) · tail_form (Some vars) · perhaps comment',
        'NAME_NAT_NAT': 'words_form (name ∷ nat ∷ nat ∷ []) · tail_form None · perhaps comment',
        'NAME_NAT_NAME': 'words_form (name ∷ nat ∷ name ∷ []) · tail_form None · perhaps comment',
        'NAME_NAT_NAT_NAME': 'words_form (name ∷ nat ∷ nat ∷ name ∷ []) · tail_form None · perhaps comment',
        'NAME_NAT_PREFIX': 'words_form (name ∷ nat ∷ prefix ∷ []) · tail_form None · perhaps comment',
        'BOUNDS': 'words_form (name ∷ nat ∷ []) · tail_form (Some cons) · perhaps comment',
    },
    'FILE_CLASSES': {
        'FILE': 'words_form (name ∷ format ∷ []) · tail_form None · perhaps comment',
    },
}

DEAD = 255
WIDTH = 32
TOKEN = re.compile(r'"(?:[^"\\]|\\.)*"|[0-9]+|[A-Za-z_][A-Za-z0-9_]*|[()\[\]·⋯∣∷]')
INFIX = {'·': '◌·◌', '⋯': '◌⋯◌', '∣': '◌∣◌', '∷': '◌∷◌'}
POWER = {'∣': 20, '∷': 25, '·': 30, '⋯': 30}


class Parser:
    """Expressions as nested tuples: numbers, bytes, ('name', x) and ('apply', f, x)."""

    def __init__(self, text):
        self.tokens = TOKEN.findall(text)
        self.at = 0

    def peek(self):
        return self.tokens[self.at] if self.at < len(self.tokens) else None

    def take(self):
        self.at += 1
        return self.tokens[self.at - 1]

    def expression(self, power=0):
        left = self.application()
        while self.peek() in POWER and POWER[self.peek()] >= power:
            sign = self.take()
            right = self.expression(POWER[sign])
            left = ('apply', ('apply', ('name', INFIX[sign]), left), right)
        return left

    def application(self):
        left = self.atom()
        while self.peek() is not None and self.peek() not in POWER and self.peek() not in (')', ']'):
            left = ('apply', left, self.atom())
        return left

    def atom(self):
        token = self.take()
        if token == '(':
            inner = self.expression()
            assert self.take() == ')'
            return inner
        if token == '[':
            assert self.take() == ']'
            return ('name', '[]')
        if token[0] == '"':
            return tuple(token[1:-1].encode())
        return int(token) if token[0].isdigit() else ('name', token)


def read_definitions(path, clauses):
    """Adds the clauses `name pattern.. = expression` of the file, and of infix definitions `x · y = expression`."""
    lines = [line.split('--')[0].rstrip() for line in open(path, encoding='utf-8')]
    # (a line that is indented goes on with the one before it)
    for line in re.sub(r'\n +', ' ', '\n'.join(lines)).split('\n'):
        if ' = ' not in line or ' : ' in line:
            continue
        left, right = line.split(' = ', 1)
        if not TOKEN.search(right):
            continue
        left = Parser(left).expression()
        patterns = []
        while left[0] == 'apply':
            patterns.insert(0, left[2])
            left = left[1]
        clauses.setdefault(left[1], []).append((patterns, Parser(right).expression()))


BUILT_IN = {
    'word': lambda cs: ('word', cs),
    'byte': lambda low: lambda high: ('byte', low, high),
    'seq': lambda f: lambda g: ('seq', f, g),
    'alt': lambda f: lambda g: ('alt', f, g),
    'many': lambda f: ('many', f),
    'upto': lambda k: lambda f: ('upto', k, f),
    'codes': lambda text: text,
    '[]': (),
    '◌∷◌': lambda x: lambda xs: (x,) + xs,
    'None': (),
    'Some': lambda x: (x,),
}


class Definitions:
    def __init__(self, paths):
        self.clauses = {}
        for path in paths:
            read_definitions(path, self.clauses)

    def value(self, expression, local):
        if not isinstance(expression, tuple) or not expression or not isinstance(expression[0], str):
            return expression
        if expression[0] == 'apply':
            return self.value(expression[1], local)(self.value(expression[2], local))
        name = expression[1]
        if name in local:
            return local[name]
        if name in self.clauses:
            return self.defined(name, [], len(self.clauses[name][0][0]))
        return BUILT_IN[name]

    def defined(self, name, arguments, more):
        if more:
            return lambda x: self.defined(name, arguments + [x], more - 1)
        for patterns, body in self.clauses[name]:
            local = {}
            if all(self.fits(p, x, local) for p, x in zip(patterns, arguments)):
                return self.value(body, local)
        raise ValueError(f'no clause of {name} fits')

    def fits(self, pattern, x, local):
        if pattern in (('name', '[]'), ('name', 'None')):
            return x == ()
        if pattern[0] == 'name':
            local[pattern[1]] = x
            return True
        if pattern[1] == ('name', 'Some'):
            return x != () and self.fits(pattern[2], x[0], local)
        return x != () and self.fits(pattern[1][2], x[0], local) and self.fits(pattern[2], x[1:], local)


def nullable(f):
    kind = f[0]
    if kind == 'word':
        return f[1] == ()
    if kind == 'seq':
        return nullable(f[1]) and nullable(f[2])
    if kind == 'alt':
        return nullable(f[1]) or nullable(f[2])
    return kind in ('many', 'upto')


def after(b, f, row):
    """What may come behind the byte, where a text of the form and then of the row begins with it."""
    kind = f[0]
    if kind == 'word':
        return [(('word', f[1][1:]),) + row] if f[1] and f[1][0] == b else []
    if kind == 'byte':
        return [row] if f[1] <= b <= f[2] else []
    if kind == 'seq':
        return after(b, f[1], (f[2],) + row) + (after(b, f[2], row) if nullable(f[1]) else [])
    if kind == 'alt':
        return after(b, f[1], row) + after(b, f[2], row)
    if kind == 'many':
        return after(b, f[1], (f,) + row)
    return after(b, f[2], (('upto', f[1] - 1, f[2]),) + row) if f[1] else []


def after_row(b, row):
    if not row:
        return []
    return after(b, row[0], row[1:]) + (after_row(b, row[1:]) if nullable(row[0]) else [])


class Machine:
    """The states of a form: its sets of rows, a shortest text that leads to each, and the states behind each byte."""

    def __init__(self, form):
        self.rows = [frozenset({(form,)})]
        self.texts = [()]
        self.steps = []
        known = {self.rows[0]: 0}
        while len(self.steps) < len(self.rows):
            state = len(self.steps)
            row = []
            for b in range(256):
                rows = frozenset(new for old in self.rows[state] for new in after_row(b, old))
                if rows and rows not in known:
                    known[rows] = len(self.rows)
                    self.rows.append(rows)
                    self.texts.append(self.texts[state] + (b,))
                row.append(known[rows] if rows else DEAD)
            self.steps.append(row)
        assert len(self.rows) <= DEAD, f'{len(self.rows)} states'
        self.ends = [any(all(nullable(f) for f in row) for row in rows) for rows in self.rows]


def classes_of(machines):
    """The class of each byte: bytes that go the same way in all machines share one."""
    ways = {}
    classes = []
    for b in range(256):
        way = tuple(row[b] for machine in machines for row in machine.steps)
        classes.append(ways.setdefault(way, len(ways)))
    assert len(ways) <= WIDTH, f'{len(ways)} classes'
    return classes


def constant(name, kind, entries):
    lines, line = [], '   '
    for entry in entries:
        if len(line) + len(entry) + 2 > 100:
            lines.append(line)
            line = '   '
        line += f' {entry},'
    body = '\n'.join(lines + [line])
    return f'const {name}: [{kind}; {len(entries)}] = [\n{body}\n];\n'


def steps_of(machine, classes):
    entries = []
    for row in machine.steps:
        cells = [DEAD] * WIDTH
        for b in range(256):
            cells[classes[b]] = row[b]
        entries += cells
    return entries


def codes(text):
    return ''.join(f'{b} ∷ ' for b in text) + '[]'


def definitions_of(path):
    """The names that a file of definitions has, in its order, each with whether a proof must ask for its value."""
    found = re.findall(r'^(abbrev|unfoldable) pub (\S+) :', open(os.path.join(TOP, path), encoding='utf-8').read(), re.M)
    return {name: kind == 'unfoldable' for kind, name in found}


def names_in(form, clauses):
    """The names of definitions that a form's text has, and those that its value is made of."""
    written = {INFIX.get(token, token) for token in TOKEN.findall(form)}
    meant, new = set(), written
    while new:
        meant |= new
        bodies = [body for name in new for patterns, body in clauses.get(name, [])]
        new = {name for body in bodies for name in names_of(body)} - meant
    return written, meant


def names_of(expression):
    if isinstance(expression, tuple) and expression and isinstance(expression[0], str):
        if expression[0] == 'name':
            return {expression[1]}
        return {name for part in expression[1:] for name in names_of(part)}
    return set()


def rust_of(title, use, tables):
    """A file of tables: for each table of classes its machines."""
    parts = [f'//! {title}\n\n{use}\n']
    for classes_name, (forms, machines, classes) in tables.items():
        parts.append('// The class of each byte.\n' + constant(classes_name, 'u8', [str(c) for c in classes]))
        for name, machine in machines.items():
            parts.append(constant(f'{name}_STEPS', 'u8', [str(s) for s in steps_of(machine, classes)]))
            parts.append(constant(f'{name}_ENDS', 'bool', [str(end).lower() for end in machine.ends]))
            parts.append(
                f"/// The machine of `{forms[name]}`.\npub const {name}: Machine<'static> = Machine {{\n"
                f'    classes: &{classes_name},\n    steps: &{name}_STEPS,\n    ends: &{name}_ENDS,\n}};\n'
            )
    return '\n'.join(parts)


def lemma_of(crate, name, form, classes_name, machine, clauses, definitions):
    """A file of proofs/: the texts that name the machine's states, and that its table decides its form."""
    written, meant = names_in(form, clauses)
    low = name.lower()
    tables = f'{classes_name} {name}_STEPS {name}_ENDS ({form})'
    common = ', '.join(['ℕ', 'List', '[]', '◌∷◌'] + [option for option in ('Some', 'None') if option in written] + ['refl'])
    asked = {path: [x for x, hidden in names.items() if x in written or hidden and x in meant] for path, names in definitions.items()}
    hidden = [x for x, hidden in definitions[GRAMMAR].items() if hidden and x in meant]
    lines = ['-- The machine decides its form.', f'use Rattle.std.proofs.Common.{{{common}}}']
    for path, module in ((GRAMMAR, 'grammar.specs.Grammar'), (LAYOUTS, 'line_forms.specs.Layouts')):
        if asked.get(path):
            lines.append(f'use Rattle.{module}.{{{", ".join(asked[path])}}}')
    lines.append('use Rattle.grammar.specs.Machine.{Decides}')
    lines.append('use Rattle.grammar.proofs.TableLaws.{decides_by}')
    lines.append(f'use Rattle.{crate}.specs.declared.tables.TheConstants.{{{classes_name}, {name}_STEPS, {name}_ENDS}}')
    texts = ''.join(f'({codes(text)}) ∷ ' for text in machine.texts[1:])
    lines += ['', f'abbrev pub {low}_texts : List (List ℕ)', f'{low}_texts =', f'    {texts}[]', '']
    lines.append(f'pub {low}_decides : Decides {tables}')
    lines += [f'unfolding {" ".join(hidden)}'] if hidden else []
    lines.append(f'{low}_decides = decides_by {tables} {low}_texts refl')
    return '\n'.join(lines) + '\n'


def write(folder, path, text):
    path = os.path.join(folder, path)
    os.makedirs(os.path.dirname(path), exist_ok=True)
    with open(path, 'w', encoding='utf-8') as file:
        file.write(text)


def make(folder, crate, title, use, paths, groups):
    known = Definitions([os.path.join(TOP, path) for path in paths])
    definitions = {path: definitions_of(path) for path in paths}
    tables = {}
    for classes_name, forms in groups.items():
        machines = {name: Machine(known.value(Parser(form).expression(), {})) for name, form in forms.items()}
        tables[classes_name] = (forms, machines, classes_of(machines.values()))
        for name, machine in machines.items():
            lemma = lemma_of(crate, name, forms[name], classes_name, machine, known.clauses, definitions)
            write(folder, f'crates/{crate}/proofs/{name.title().replace("_", "")}Table.antt', lemma)
    write(folder, f'crates/{crate}/src/tables.rt', rust_of(title, use, tables))


def main():
    if len(sys.argv) != 2:
        sys.exit(__doc__)
    title = 'The tables of the forms that are decided by a machine; `bench/make_tables.py` makes them.'
    make(sys.argv[1], 'grammar', title, 'use crate::machine::Machine;', [GRAMMAR], TEXTS)
    title = 'The tables of what stands behind a command word; `bench/make_tables.py` makes them.'
    make(sys.argv[1], 'line_forms', title, 'use grammar::Machine;', [GRAMMAR, LAYOUTS], LINES)


if __name__ == '__main__':
    main()
