"""Random scripts over all commands of the language, for the benches that need some that nobody chose.

A script has a main dimension and topology, so that most operands fit each other. Sets are made around points with small coordinates,
so they touch, contain and miss each other. The maker keeps what each name stands for, and about one line in four is spoilt: a wrong
name, kind, dimension, variable, number or byte. What a spoilt line makes, if it is accepted, the maker doesn't know.
"""
import random
import re

POLYHEDRA = ["a", "b", "c", "d", "e", "f"]
SYSTEMS, POWERSETS, SHAPES, AUTOMATA = ["s", "t"], ["u", "v", "w"], ["k", "l", "m"], ["y", "z"]
MOST_LOCATIONS = 4
NAMES = POLYHEDRA + SYSTEMS + POWERSETS + SHAPES + AUTOMATA + [f"x{location}" for location in range(MOST_LOCATIONS)]
MOST_DIMENSION = 6
MOST_ROWS = 12
MOST = 2 ** 127 - 1

# what is written in place of what, as a mistake: patterns and texts
MISTAKES = [
    (" closed ", [" nnc "]),
    (" nnc ", [" closed "]),
    ("A", ["Z", "A1", "K2", "L2", "A99999999999"]),
    (" >= ", [" > ", " < ", " == "]),
    ("1", [str(MOST), str(MOST + 1)]),
    (r"p\(", ["r(", "c(", "r(0*"]),
    (r"\)/\d+", [")/0", ")/007"]),
]

# how large numbers are; `mixed` scripts have one of the other kinds each
NUMBERS = ("small", "middle", "ends", "mixed")
ENDS = [MOST, MOST - 1, MOST // 2, MOST // 3, 2 ** 126, 2 ** 64, 2 ** 63 - 1, 2 ** 47, 10 ** 18]


def variable(number):
    """The name of a variable, counted from 0."""
    return "ABCDEFGHIJKLMNOPQRSTUVWXYZ"[number % 26] + (str(number // 26) if number >= 26 else "")


def sum_text(factors, constant=0):
    """The text of a sum, of the variables' factors and a constant."""
    terms = [(factor, variable(number)) for number, factor in enumerate(factors) if factor]
    parts = [("-" if factor < 0 else "+", name if abs(factor) == 1 else f"{abs(factor)}*{name}") for factor, name in terms]
    if constant or not parts:
        parts.append(("-" if constant < 0 else "+", str(abs(constant))))
    first = ("-" if parts[0][0] == "-" else "") + parts[0][1]
    return first + "".join(f" {sign} {part}" for sign, part in parts[1:])


class Script:
    """The commands of one script, each a list of lines: one, or those of a file as well."""

    def __init__(self, seed, numbers="mixed"):
        self.random = random.Random(seed)
        self.numbers = numbers if numbers != "mixed" else self.random.choice(["small"] * 7 + ["middle"] * 2 + ["ends"])
        self.dimension = self.random.choices(range(1, MOST_DIMENSION + 1), [2, 5, 4, 2, 1, 1])[0]
        self.topology = self.random.choice(["closed", "closed", "nnc"])
        self.kinds = {}
        self.made = []
        # the boundaries of sets pass by these points
        self.middles = [[self.random.randint(-3, 3) for _ in range(2 * MOST_DIMENSION)] for _ in range(3)]

    def commands(self, count):
        makers = list(MAKERS)
        weights = [MAKERS[maker] for maker in makers]
        while len(self.made) < count:
            self.random.choices(makers, weights)[0](self)
        return self.made[:count]

    # What a command is made of.

    def chance(self, part):
        return self.random.random() < part

    def integer(self, most=4):
        """A number of the script's size, of either sign."""
        size = self.random.randint(0, most)
        if self.numbers == "middle" and self.chance(0.3):
            size = self.random.randint(0, 10 ** self.random.randint(1, 9))
        elif self.numbers == "ends" and self.chance(0.15):
            size = self.random.choice(ENDS)
        return size if self.chance(0.5) else -size

    def factors(self, dim):
        """The factors of a sum: one variable, a difference, or up to three."""
        factors = [0] * dim
        for number in self.random.sample(range(dim), min(dim, self.random.choice([1, 1, 1, 2, 2, 3]))):
            factors[number] = self.integer(3) or 1
        return factors

    def divisor(self):
        return abs(self.integer(4)) or 1

    def expression(self, dim, has_constant=True):
        return sum_text(self.factors(dim), self.integer() if has_constant and self.chance(0.5) else 0)

    def fraction(self, dim, has_constant=True):
        text = self.expression(dim, has_constant)
        return f"({text})/{self.divisor()}" if self.chance(0.25) else text

    def row(self, dim, topology, around=None):
        """A constraint: one that the point `around` satisfies, or that passes by it, or any."""
        factors = self.factors(dim)
        constant = self.integer()
        relation = self.random.choice([">=", ">=", ">=", ">=", "="] + [">", ">", ">"] * (topology == "nnc"))
        if around and self.chance(0.93):
            at = sum(factor * value for factor, value in zip(factors, around))
            slack = self.random.choice([0, 1, 1, 2, 3]) if relation != "=" else 0
            constant = max(-MOST, min(MOST, at - (slack or relation == ">")))
        if self.chance(0.4):
            factors, constant = [-factor for factor in factors], -constant
            relation = relation.replace(">", "<")
        if self.chance(0.2):
            return f"{constant} {relation.translate(str.maketrans('<>', '><'))} {sum_text(factors)}"
        return f"{sum_text(factors)} {relation} {constant}"

    def rows(self, dim, topology, most=MOST_ROWS):
        if not dim or self.chance(0.05):
            return self.random.choice(["true", "true", "false"])
        around = self.random.choice(self.middles) if self.chance(0.95) else None
        count = min(most, self.random.choice([1, 2, 2, 3, 3, 4, 4, 5, 6, 7, 9, MOST_ROWS]))
        return ", ".join(self.row(dim, topology, around) for _ in range(count))

    def point(self, dim):
        """The inside of a point's brackets."""
        middle = self.random.choice(self.middles)
        factors = [value if self.chance(0.5) else self.integer() for value in middle[:dim]]
        text = sum_text(factors)
        return f"({text})/{self.divisor()}" if self.chance(0.25) else text

    def generators(self, dim, topology, has_point=True):
        kinds = ["p"] * has_point + self.random.choices("ppprl" + "cc" * (topology == "nnc"), k=self.random.randint(0, min(8, 2 * dim + 1)))
        if not dim:
            kinds = ["p"] * len(kinds)
        self.random.shuffle(kinds)
        if not kinds:
            return "none"
        return ", ".join(f"{kind}({self.point(dim) if kind in 'pc' else sum_text(self.factors(dim))})" for kind in kinds)

    def step(self, dim):
        """Constraints of a relation: a guard, and what each variable becomes."""
        guard = [self.row(dim, "closed", self.random.choice(self.middles)) for _ in range(self.random.randint(0, 2))]
        falling = self.random.randrange(2 * dim)
        if falling < dim:
            guard.append(f"{variable(falling)} >= {self.random.randint(-3, 3)}")
        for number in range(dim):
            target = variable(dim + number)
            if number == falling:
                guard.append(f"{target} = {sum_text([int(other == number) for other in range(dim)], -self.random.randint(1, 3))}")
                continue
            kind = self.random.randint(0, 5)
            if kind <= 2:
                guard.append(f"{target} = {sum_text([int(other == number) for other in range(dim)], self.random.randint(-2, 2))}")
            elif kind == 3:
                guard.append(f"{target} = {self.expression(dim)}")
            elif kind == 4:
                guard.append(f"{target} {self.random.choice(['>=', '<='])} {self.expression(dim)}")
        return ", ".join(guard) or "true"

    def difference(self, dim):
        """A constraint of a shape."""
        factor, first, second = self.random.choice([1, 1, 2, 3]), self.random.randrange(dim), self.random.randrange(dim)
        factors = [0] * dim
        factors[first] = factor
        if second != first and self.chance(0.5):
            factors[second] = -factor
        middle = self.random.choice(self.middles)
        at = sum(one * value for one, value in zip(factors, middle))
        relation = self.random.choice([">=", "<=", ">=", "<=", "="])
        slack = {">=": -1, "<=": 1, "=": 0}[relation] * abs(self.integer(3))
        return f"{sum_text(factors)} {relation} {max(-MOST, min(MOST, at + slack))}"

    def file(self, form, columns):
        """The lines of a file."""
        count = self.random.randint(0, 6)
        rational = self.chance(0.3)
        around = self.random.choice(self.middles)
        table = []
        for number in range(count):
            row = self.factors(columns - 1) if columns > 1 else []
            if form == "ine":
                first = self.random.choice([0, 1, 2, 3]) - sum(factor * value for factor, value in zip(row, around))
            else:
                first = self.random.choice([1, 1, 1, 2, 0]) if number else 1
            table.append([max(-MOST, min(MOST, first)), *row])
        lines = ["H-representation" if form == "ine" else "V-representation"]
        lines_of_table = [number + 1 for number, row in enumerate(table) if form == "ine" or not row[0]]
        if lines_of_table and self.chance(0.2):
            lines.append(f"linearity 1 {self.random.choice(lines_of_table)}")
        lines += ["begin", f"{count} {columns} {'rational' if rational else 'integer'}"]
        for row in table:
            entries = [str(row[0])]
            entries += [f"{entry}/{self.random.randint(2, 5)}" if rational and self.chance(0.3) else str(entry) for entry in row[1:]]
            lines.append(" ".join(entries))
        return lines + ["end"]

    # What names stand for.

    def named(self, kind, *parts):
        """A name of this kind; parts that aren't None are as given."""
        fit = [name for name, found in self.kinds.items() if found[0] == kind and all(part in (None, have) for part, have in zip(parts, found[1:]))]
        return self.random.choice(fit) if fit else None

    def polyhedron(self, topology=None, dim=None):
        """A polyhedron's name; one is made if none fits."""
        found = self.named("polyhedron", topology, dim)
        if not found:
            line, found, kind = self.new_polyhedron(topology, dim)
            self.give(line, found, kind)
        return found

    def pair(self, topology=None):
        """Two polyhedra of the same topology and dimension, mostly different ones."""
        first = self.polyhedron(topology)
        second = self.polyhedron(*self.kinds[first][1:])
        if second == first and self.chance(0.8):
            line, second, kind = self.new_polyhedron(*self.kinds[first][1:])
            self.give(line, second, kind)
        return first, second

    def new_polyhedron(self, topology=None, dim=None):
        """A line that makes a polyhedron, its name and its kind."""
        topology = topology or (self.topology if self.chance(0.9) else self.random.choice(["closed", "nnc"]))
        if dim is None:
            dim = self.dimension if self.chance(0.9) else self.random.randint(1, MOST_DIMENSION)
        name = self.random.choice(POLYHEDRA)
        if self.chance(0.65):
            line = f"cons {name} {topology} {dim} : {self.rows(dim, topology)}"
        elif self.chance(0.85):
            line = f"gens {name} {topology} {dim} : {self.generators(dim, topology)}"
        else:
            line = f"{self.random.choice(['universe', 'empty'])} {name} {topology} {dim}"
        return line, name, ("polyhedron", topology, dim)

    def relation(self, dim):
        """A closed polyhedron of pairs of states."""
        found = self.named("polyhedron", "closed", 2 * dim)
        if found and self.chance(0.3):
            return found
        name = self.random.choice(POLYHEDRA)
        self.give(f"cons {name} closed {2 * dim} : {self.step(dim)}", name, ("polyhedron", "closed", 2 * dim))
        return name

    def system(self):
        found = self.named("system")
        if found and self.chance(0.9):
            return found
        name, dim, locations = self.random.choice(SYSTEMS), self.random.choice([1, 1, 2, 2, 3]), self.random.randint(1, MOST_LOCATIONS)
        self.give(f"system {name} {dim} {locations}", name, ("system", dim, locations))
        return name

    def automaton(self):
        found = self.named("automaton")
        if found and self.chance(0.9):
            return found
        system, name = self.system(), self.random.choice(AUTOMATA)
        self.give(f"hybrid {name} {system}", name, ("automaton", *self.kinds[system][1:]))
        return name

    def powerset(self, topology=None, dim=None):
        found = self.named("powerset", topology, dim)
        if found and self.chance(0.9):
            return found
        return self.new_powerset(topology, dim)

    def new_powerset(self, topology, dim):
        set_name, name = self.polyhedron(topology, dim), self.random.choice(POWERSETS)
        self.give(f"pset {name} {set_name}", name, ("powerset", *self.kinds[set_name][1:], 1))
        return name

    def two_powersets(self):
        first = self.powerset()
        second = self.powerset(*self.kinds[first][1:3])
        if second == first and self.chance(0.8):
            second = self.new_powerset(*self.kinds[first][1:3])
        return first, second

    def shape(self, dim=None):
        found = self.named("shape", dim)
        if found and self.chance(0.8):
            return found
        name, dim = self.random.choice(SHAPES), self.dimension if dim is None else dim
        bounds = ", ".join(self.difference(dim) for _ in range(self.random.randint(1, 6))) if dim else "true"
        self.give(f"bounds {name} {dim} : {bounds}", name, ("shape", dim))
        return name

    def two_shapes(self):
        first = self.shape()
        return first, self.shape(self.kinds[first][1])

    def tell(self, line, name=None, kind=None, file=()):
        """One more command; the name stands for what it makes, unless the line is spoilt."""
        if self.chance(0.4):
            self.made.append([self.spoilt(line), *file])
        else:
            self.give(line, name, kind, file)

    def give(self, line, name=None, kind=None, file=()):
        """One more command, which isn't spoilt."""
        if name:
            self.kinds[name] = kind
        self.made.append([line, *file])

    # Lines with a mistake.

    def spoilt(self, line):
        """The line with one mistake: of a kind for which it has a place."""
        mistakes = [self.other_name] * 4 + [self.other_number] * 3 + [self.other_byte]
        for before, after in MISTAKES:
            mistakes.append(lambda line, before=before, after=after: re.sub(before, self.random.choice(after), line))
        while True:
            made = self.random.choice(mistakes)(line)
            if made != line:
                return made

    def other_word(self, line, is_changed, words):
        parts = line.split(" ")
        places = [place for place in range(1, len(parts)) if is_changed(parts[place])]
        if places:
            parts[self.random.choice(places)] = str(self.random.choice(words))
        return " ".join(parts)

    def other_name(self, line):
        return self.other_word(line, lambda word: word in NAMES, ["nobody", *NAMES])

    def other_number(self, line):
        return self.other_word(line, str.isdigit, [0, 1, 2, 4, 5, 12, 63, 64, 1_000_001, 10 ** 20])

    def other_byte(self, line):
        place = self.random.randrange(len(line))
        byte = self.random.choice(" \t:,()*/+-<>=#019AZaz_")
        return line[:place] + self.random.choice([byte, ""]) + line[place + self.random.randint(0, 1):]

    # The commands.

    def make(self):
        self.tell(*self.new_polyhedron())

    def copied(self):
        name, p = self.random.choice(POLYHEDRA), self.polyhedron()
        self.tell(f"{self.random.choice(['copy', 'closure'])} {name} {p}", name, self.kinds[p])

    def dropped(self):
        if len(self.kinds) > 4:
            name = self.random.choice(list(self.kinds))
            self.tell(f"drop {name}")
            del self.kinds[name]

    def added(self):
        p = self.polyhedron()
        _, topology, dim = self.kinds[p]
        if self.chance(0.6):
            self.tell(f"add {p} : {self.rows(dim, topology, 3)}")
        else:
            self.tell(f"addgen {p} : {self.generators(dim, topology, self.chance(0.8))}")

    def combined(self):
        name, (p, q) = self.random.choice(POLYHEDRA), self.pair()
        self.tell(f"{self.random.choice(['meet', 'hull', 'hull', 'elapse'])} {name} {p} {q}", name, self.kinds[p])

    def widened(self):
        p, q = self.pair("closed")
        name = self.random.choice(POLYHEDRA)
        if self.chance(0.8):
            self.tell(f"hull {q} {p} {q}", q, self.kinds[p])
        self.tell(f"widen {name} {p} {q}", name, self.kinds[p])

    def multiplied(self):
        small = [it for it, kind in self.kinds.items() if kind[0] == "polyhedron" and kind[2] <= MOST_DIMENSION // 2]
        if not small:
            return
        p = self.random.choice(small)
        topology, dim = self.kinds[p][1:]
        fits = [it for it in small if self.kinds[it][1] == topology]
        q, name = self.random.choice(fits), self.random.choice(POLYHEDRA)
        self.tell(f"concat {name} {p} {q}", name, ("polyhedron", topology, dim + self.kinds[q][2]))

    def assigned(self):
        p, name = self.polyhedron(), self.random.choice(POLYHEDRA)
        _, topology, dim = self.kinds[p]
        if dim:
            relation = self.random.choice([":", ":", "=", ">=", "<="] + ["<", ">"] * (topology == "nnc"))
            word = self.random.choice(["image", "preimage"])
            self.tell(f"{word} {name} {p} {variable(self.random.randrange(dim))} {relation} {self.fraction(dim)}", name, self.kinds[p])

    def widened_space(self):
        p, name = self.polyhedron(), self.random.choice(POLYHEDRA)
        _, topology, dim = self.kinds[p]
        more = self.random.randint(0, max(0, min(2, MOST_DIMENSION - dim)))
        self.tell(f"{self.random.choice(['embed', 'project'])} {name} {p} {more}", name, ("polyhedron", topology, dim + more))

    def projected(self):
        p, name = self.polyhedron(), self.random.choice(POLYHEDRA)
        _, topology, dim = self.kinds[p]
        if dim > self.random.randint(0, 1):
            gone = [self.random.randrange(dim) for _ in range(self.random.choice([1, 1, 1, 2]))]
            self.tell(f"remove {name} {p} : {', '.join(map(variable, gone))}", name, ("polyhedron", topology, dim - len(set(gone))))

    def initial(self):
        s = self.system()
        _, dim, locations = self.kinds[s]
        p = self.polyhedron("closed", dim)
        self.tell(f"init {s} {self.random.randrange(locations)} {p}")

    def transition(self):
        s = self.system()
        _, dim, locations = self.kinds[s]
        r = self.relation(dim)
        self.tell(f"trans {s} {self.random.randrange(locations)} {self.random.randrange(locations)} {r}")

    def invariant_or_flow(self):
        h = self.automaton()
        _, dim, locations = self.kinds[h]
        p = self.polyhedron("closed", dim)
        self.tell(f"{self.random.choice(['inv', 'flow'])} {h} {self.random.randrange(locations)} {p}")

    def run(self):
        of = self.system() if self.chance(0.6) else self.automaton()
        kind, dim, locations = self.kinds[of]
        word = "fixpoint" if kind == "system" else "reach"
        self.tell(f"{word} {of} {self.random.randint(0, 4)} x", "x0", ("polyhedron", "closed", dim))
        for location in range(locations):
            self.kinds[f"x{location}"] = ("polyhedron", "closed", dim)

    def united(self):
        if self.chance(0.4):
            p, name = self.polyhedron(), self.random.choice(POWERSETS)
            self.tell(f"pset {name} {p}", name, ("powerset", *self.kinds[p][1:], 1))
            return
        (first, second), name = self.two_powersets(), self.random.choice(POWERSETS)
        one, two = self.kinds[first][3], self.kinds[second][3]
        word = self.random.choice(["join", "join", "pmeet"])
        members = one + two if word == "join" else one * two
        if members <= 6:
            self.tell(f"{word} {name} {first} {second}", name, (*self.kinds[first][:3], members))

    def chosen(self):
        u, name = self.powerset(), self.random.choice(POLYHEDRA)
        _, topology, dim, members = self.kinds[u]
        self.tell(f"member {name} {u} {self.random.randint(1, members)}", name, ("polyhedron", topology, dim))

    def asked_of_powersets(self):
        first, second = self.two_powersets()
        self.tell(f"covers {first} {second}" if self.chance(0.6) else f"psize {first}")

    def ranked(self):
        r = self.relation(self.random.choice([1, 1, 2, 2, 3]))
        dim = self.kinds[r][2] // 2
        name = self.random.choice(POLYHEDRA)
        if self.chance(0.5):
            self.tell(f"rank {name} {r}", name, ("polyhedron", "closed", dim + 1))
        else:
            self.tell(f"ranking {r}")

    def shaped(self):
        name = self.random.choice(SHAPES)
        kind = self.random.randint(0, 3)
        if kind == 0:
            self.shape()
        elif kind == 1:
            p = self.polyhedron("closed")
            self.tell(f"shape {name} {p}", name, ("shape", self.kinds[p][2]))
        else:
            first, second = self.two_shapes()
            self.tell(f"{self.random.choice(['smeet', 'shull'])} {name} {first} {second}", name, self.kinds[first])

    def asked_of_shapes(self):
        first, second = self.two_shapes()
        kind = self.random.randint(0, 2)
        if kind == 0:
            self.tell(f"scontains {first} {second}")
        elif kind == 1:
            self.tell(f"sprint {first}")
        else:
            name = self.random.choice(POLYHEDRA)
            self.tell(f"spoly {name} {first}", name, ("polyhedron", "closed", self.kinds[first][1]))

    def from_file(self):
        name, form, columns = self.random.choice(POLYHEDRA), self.random.choice(["ine", "ext"]), self.random.choice([2, 3, 3, 4])
        self.tell(f"read {name} {form}", name, ("polyhedron", "closed", columns - 1), self.file(form, columns))

    def to_file(self):
        p = self.polyhedron("closed")
        self.tell(f"write {p} {self.random.choice(['ine', 'ext'])}")

    def asked(self):
        p, q = self.pair()
        kind = self.random.randint(0, 4)
        self.tell([f"contains {p} {q}", f"equal {p} {q}", f"disjoint {p} {q}", f"isempty {p}", f"size {p}"][kind])

    def asked_of_points(self):
        p = self.polyhedron()
        _, topology, dim = self.kinds[p]
        kind = self.random.randint(0, 3)
        if kind == 0:
            self.tell(f"has {p} : p({self.point(dim)})")
        elif kind == 1:
            self.tell(f"relation {p} : {self.row(dim, 'nnc', self.random.choice(self.middles))}")
        else:
            self.tell(f"{self.random.choice(['max', 'min'])} {p} : {self.expression(dim)}")

    def printed(self):
        p = self.polyhedron()
        self.tell(f"print {self.random.choice(['cons', 'gens'])} {p}")

    def listed(self):
        self.tell("names")


# how often each comes, in proportion
MAKERS = {
    Script.make: 12, Script.copied: 3, Script.dropped: 2, Script.added: 8, Script.combined: 12, Script.widened: 4, Script.multiplied: 2,
    Script.assigned: 10, Script.widened_space: 3, Script.projected: 4, Script.initial: 3, Script.transition: 5, Script.invariant_or_flow: 4,
    Script.run: 5, Script.united: 7, Script.chosen: 3, Script.asked_of_powersets: 4, Script.ranked: 4, Script.shaped: 5,
    Script.asked_of_shapes: 5, Script.from_file: 3, Script.to_file: 2, Script.asked: 7, Script.asked_of_points: 7, Script.printed: 6,
    Script.listed: 1,
}


def text_of(commands):
    return "".join(f"{line}\n" for command in commands for line in command)
