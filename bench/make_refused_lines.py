#!/usr/bin/env python3
"""Lines that are near to commands, and what the calculator replies where they spell none.

    bench/make_refused_lines.py lines     the lines
    bench/make_refused_lines.py replies   `fault 1 Syntax C` for each

Of one line of each command every token is left out, doubled and has a byte that can't stand there, at each of its
places. The column comes from a recognizer of its own: the grammar as an automaton, and the states that it can be in
after each byte. A line that still spells a command is left out.
"""
import sys


class Automaton:
    """States with moves over ranges of bytes and moves over none."""

    def __init__(self):
        self.moves, self.free = [], []

    def state(self):
        self.moves.append([])
        self.free.append([])
        return len(self.moves) - 1


A = Automaton()


def byte(low, high=None):
    def build(start):
        end = A.state()
        A.moves[start].append((low, high or low, end))
        return end
    return build


def word(text):
    return seq(*[byte(b) for b in text.encode()])


def seq(*parts):
    def build(start):
        for part in parts:
            start = part(start)
        return start
    return build


def alt(*parts):
    def build(start):
        end = A.state()
        for part in parts:
            begin = A.state()
            A.free[start].append(begin)
            A.free[part(begin)].append(end)
        return end
    return build


def many(part):
    def build(start):
        begin, end = A.state(), A.state()
        A.free[start].append(begin)
        A.free[begin].append(end)
        A.free[part(begin)].append(begin)
        return end
    return build


def perhaps(part):
    return alt(seq(), part)


def upto(count, part):
    return seq() if count == 0 else perhaps(lambda start: upto(count - 1, part)(part(start)))


BLANK = alt(byte(32), byte(9))
BLANKS = many(BLANK)
GAP = seq(BLANK, BLANKS)


def apart(*parts):
    spaced = []
    for part in parts:
        spaced += [BLANKS, part]
    return seq(*spaced[1:])


def list_of(part):
    return seq(part, many(seq(BLANKS, apart(word(','), part))))


DIGIT = byte(48, 57)
NAT = seq(DIGIT, many(DIGIT))


def name_of(more):
    return seq(byte(97, 122), upto(more, alt(byte(97, 122), DIGIT, byte(95))))


VAR = alt(byte(65, 90), seq(byte(65, 90), byte(49, 57), many(DIGIT)))
VTERM = alt(apart(NAT, word('*'), VAR), VAR)
TERM = alt(VTERM, NAT)


def sum_of(part):
    return seq(alt(part, apart(word('-'), part)), many(seq(BLANKS, alt(apart(word('+'), part), apart(word('-'), part)))))


def over(part):
    return alt(part, apart(word('('), part, word(')'), word('/'), NAT))


EXPR = sum_of(TERM)
VEXPR = alt(word('0'), sum_of(VTERM))
CON = apart(EXPR, alt(word('='), word('>='), word('<='), word('>'), word('<')), EXPR)
POINT = apart(word('p('), over(VEXPR), word(')'))
GEN = alt(POINT, apart(word('c('), over(VEXPR), word(')')), apart(word('r('), VEXPR, word(')')), apart(word('l('), VEXPR, word(')')))
FORMS = {
    'NAME': name_of(31), 'NAT': NAT, 'VAR': VAR,
    'TOP': alt(word('closed'), word('nnc')), 'SIDE': alt(word('cons'), word('gens')), 'FORM': alt(word('ine'), word('ext')),
    'CONS': alt(word('true'), word('false'), list_of(CON)), 'GENS': alt(word('none'), list_of(GEN)),
    'CON': CON, 'EXPR': EXPR, 'FRAC': over(EXPR), 'POINT': POINT, 'VARS': list_of(VAR),
}
COMMENT = seq(byte(35), many(byte(0, 255)))

# A command, the forms of its words and of the part behind a colon, and a line of it, token by token.
COMMANDS = [
    ('cons NAME TOP NAT : CONS', 'cons out closed 2 : 2 * A - B >= 0 , A < 10'),
    ('gens NAME TOP NAT : GENS', 'gens out nnc 2 : p( ( A - 2 * B ) / 3 ) , c( 0 ) , r( B ) , l( A )'),
    ('universe NAME TOP NAT', 'universe out closed 31'),
    ('empty NAME TOP NAT', 'empty out nnc 007'),
    ('copy NAME NAME', 'copy out copy'),
    ('drop NAME', 'drop p_1'),
    ('add NAME : CONS', 'add p_1 : A1 = - 3'),
    ('addgen NAME : GENS', 'addgen p_1 : r( - A )'),
    ('has NAME : POINT', 'has p_1 : p( ( 9 * A ) / 2 )'),
    ('size NAME', 'size p_1'),
    ('print SIDE NAME', 'print gens p_1'),
    ('names', 'names'),
    ('meet NAME NAME NAME', 'meet out p_1 q'),
    ('hull NAME NAME NAME', 'hull out p_1 q'),
    ('closure NAME NAME', 'closure out p_1'),
    ('contains NAME NAME', 'contains p_1 q'),
    ('equal NAME NAME', 'equal p_1 q'),
    ('disjoint NAME NAME', 'disjoint p_1 q'),
    ('isempty NAME', 'isempty p_1'),
    ('relation NAME : CON', 'relation p_1 : A <= B'),
    ('max NAME : EXPR', 'max p_1 : A + 2 * B'),
    ('min NAME : EXPR', 'min p_1 : 7'),
    ('image NAME NAME VAR : FRAC', 'image out p_1 B2 : ( A + 1 ) / 2'),
    ('preimage NAME NAME VAR : FRAC', 'preimage out p_1 A : B'),
    ('embed NAME NAME NAT', 'embed out p_1 3'),
    ('project NAME NAME NAT', 'project out p_1 3'),
    ('remove NAME NAME : VARS', 'remove out p_1 : A , B1'),
    ('concat NAME NAME NAME', 'concat out p_1 q'),
    ('elapse NAME NAME NAME', 'elapse out p_1 q'),
    ('widen NAME NAME NAME', 'widen out p_1 q'),
    ('read NAME FORM', 'read out ine'),
    ('write NAME FORM', 'write p_1 ext'),
]


def line_form(forms):
    words = forms.split()
    parts = [BLANKS, word(words[0])]
    for form in words[1:]:
        if form == ':':
            parts += [BLANKS, word(':'), BLANKS]
        elif parts[-1] is BLANKS and len(parts) > 3:
            parts += [FORMS[form]]
        else:
            parts += [GAP, FORMS[form]]
    return seq(*parts, BLANKS, perhaps(COMMENT))


START = A.state()
END = A.state()
for form in [seq(BLANKS, perhaps(COMMENT))] + [line_form(forms) for forms, _ in COMMANDS]:
    begin = A.state()
    A.free[START].append(begin)
    A.free[form(begin)].append(END)


def closed(states):
    found, todo = set(states), list(states)
    while todo:
        for state in A.free[todo.pop()]:
            if state not in found:
                found.add(state)
                todo.append(state)
    return found


def refusal(line):
    """The column at which the line goes wrong, or none where it is in the grammar."""
    states = closed({START})
    for column, b in enumerate(line.encode(), 1):
        states = closed({to for state in states for low, high, to in A.moves[state] if low <= b <= high})
        if not states:
            return column
    return None if END in states else len(line.encode()) + 1


def near(line):
    tokens = line.split()
    for i in range(len(tokens)):
        yield ' '.join(tokens[:i] + tokens[i + 1:])
        yield ' '.join(tokens[:i] + [tokens[i]] + tokens[i:])
    for i, c in enumerate(line):
        if c != ' ':
            yield line[:i] + '$' + line[i + 1:]


def main():
    seen = set()
    for _, line in COMMANDS:
        assert refusal(line) is None, line
        for other in near(line):
            column = refusal(other)
            if column is not None and other not in seen:
                seen.add(other)
                print(other if sys.argv[1] == 'lines' else f'fault 1 Syntax {column}')


main()
