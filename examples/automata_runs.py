"""Random runs of automata in SpaceEx's format, with which automata_check.py compares what examples/spaceex tells. The
models are read here once more, by other means: Python evaluates their relations, in states of fractions."""
import re
from fractions import Fraction
from itertools import product
from types import SimpleNamespace
from xml.etree import ElementTree

TRIES = 40
ATOM = r"\d+(\.\d+)?(?![\w.])|[A-Za-z_][\w.]*'?"
COMPARISONS = {"<": lambda a, b: a <= b, ">": lambda a, b: a >= b, "=": lambda a, b: a == b}


class Relation:
    """A chain of relations; a name stands for a variable of the system, or for the number that it is bound to."""

    def __init__(self, text, names):
        words = re.split("([<>=]=?)", re.sub(r"^\s*(\w+)'?\s*:=", r"\1' =", text))
        self.compare = [COMPARISONS[sign[0]] for sign in words[1::2]]
        self.is_equality = words[1][0] == "="
        self.keys, self.sides = [], []
        for word in words[::2]:
            code = re.sub(ATOM, lambda atom: self.atom(atom[0], names), word.strip())
            self.sides.append(compile(code, word, "eval"))
            self.keys.append(code[3:-2] if re.fullmatch(r's\["[^"]*"\]', code) else None)

    def atom(self, text, names):
        """A number or a name as Python's expression of a state `s`."""
        value = Fraction(text) if text[0].isdigit() else names[text.rstrip("'")]
        prime = "'" * text.endswith("'")
        return f's["{value}{prime}"]' if isinstance(value, str) else f"Fraction({str(value)!r})"

    def values(self, state):
        """The values of the sides."""
        return [eval(side, {"Fraction": Fraction, "s": state}) for side in self.sides]

    def gaps(self, state):
        """The differences of the sides that are compared."""
        values = self.values(state)
        return [one - other for one, other in zip(values, values[1:])]

    def holds(self, state):
        """Whether it holds; of strict relations the boundary is allowed."""
        values = self.values(state)
        return all(compare(*pair) for compare, pair in zip(self.compare, zip(values, values[1:])))


def relations(text, names):
    """The relations of a conjunction."""
    return [Relation(piece, names) for piece in re.split("&+", text or "") if piece.strip()]


def hold(those, state):
    """Whether all of some relations hold."""
    return all(relation.holds(state) for relation in those)


def solved(those, state, keys, chance):
    """The state with other values of some keys, so that the relations hold; nothing if none were found."""
    for _ in range(TRIES):
        new = dict(state)
        for relation in those * 2:
            for place, key in enumerate(relation.keys):
                if key in keys:
                    values = relation.values(new)
                    others = values[:place] + values[place + 1 :]
                    new[key] = min(others) + (max(others) - min(others)) * Fraction(chance.randint(0, 4), 4)
                    if len(others) == 1 and not relation.is_equality:
                        new[key] += chance.choice([0, 1, -1]) * Fraction(chance.randint(0, 99), 10)
        if hold(those, new):
            return new
    return None


class Automaton:
    """The base components of a model under the names of the whole system, and the settings."""

    def __init__(self, model, settings):
        with open(settings, encoding="utf-8") as file:
            self.settings = dict(re.findall(r'^([\w-]+) = "(.*)"$', file.read(), re.MULTILINE))
        self.parts, self.variables = [], []
        nodes = ElementTree.parse(model).getroot().findall("{*}component")
        self.add({node.get("id"): node for node in nodes}, self.settings["system"], "", None)

    def add(self, nodes, name, path, given):
        """Adds a component and what it binds."""
        node, names = nodes[name], {}
        params = node.findall("{*}param")
        for param in params:
            key = param.get("name")
            is_own = given is None or param.get("local") == "true"
            names[key] = path + key if is_own else given[key]
            self.variables += [path + key] if is_own and param.get("type") == "real" else []
        for bind in node.findall("{*}bind"):
            maps = {entry.get("key"): entry.text for entry in bind.findall("{*}map")}
            inner = {key: names[text] if text in names else Fraction(text) for key, text in maps.items()}
            self.add(nodes, bind.get("component"), f"{path}{bind.get('as')}.", inner)
        if node.find("{*}location") is not None:
            part = SimpleNamespace(title=path[:-1] or name, places={}, moves=[])
            part.labels = {names[param.get("name")] for param in params if param.get("type") == "label"}
            for place in node.findall("{*}location"):
                texts = [relations(place.findtext("{*}" + tag), names) for tag in ("invariant", "flow")]
                made = SimpleNamespace(name=place.get("name"), invariant=texts[0], flow=texts[1])
                part.places[place.get("id")] = made
            for edge in node.findall("{*}transition"):
                move = SimpleNamespace(source=edge.get("source"), target=edge.get("target"))
                move.label = names.get(edge.findtext("{*}label"), f"{part.title}.")
                move.guard = relations(edge.findtext("{*}guard"), names)
                move.jump = relations(edge.findtext("{*}assignment"), names)
                part.moves.append(move)
            part.labels.add(f"{part.title}.")
            self.parts.append(part)

    def start(self, chance):
        """Initial locations and values."""
        text, where = self.settings["initially"], []
        for part in self.parts:
            name = re.search(rf"loc\({re.escape(part.title)}\)==(\w+)", text)[1]
            where += [key for key, place in part.places.items() if place.name == name]
        those = relations(re.sub(r"loc\([\w.]*\)==\w+\s*&?", "", text), {name: name for name in self.variables})
        return where, solved(those, dict.fromkeys(self.variables, Fraction(0)), self.variables, chance)

    def places(self, where):
        """The locations of the parts."""
        return [part.places[key] for part, key in zip(self.parts, where)]

    def title(self, where):
        """How examples/spaceex tells a location of the product."""
        pairs = zip(self.parts, self.places(where))
        return " & ".join(f"loc({part.title})=={place.name}" for part, place in pairs)

    def after_time(self, where, state, chance):
        """The state after some time: often the time at which a relation begins or ceases to hold."""
        places = self.places(where)
        flow = [relation for place in places for relation in place.flow]
        keys = [f"{name}'" for name in self.variables]
        speed = solved(flow, {**state, **dict.fromkeys(keys, Fraction(0))}, keys, chance)

        def moved(time):
            return {name: state[name] + time * speed[f"{name}'"] for name in self.variables}

        invariant = [relation for place in places for relation in place.invariant]
        moves = [move for part, key in zip(self.parts, where) for move in part.moves if move.source == key]
        times = [Fraction(chance.randint(0, 40), 4)]
        for relation in invariant + [relation for move in moves for relation in move.guard]:
            now, later = relation.gaps(state), relation.gaps(moved(1))
            times += [gap / (gap - then) for gap, then in zip(now, later) if gap != then and gap / (gap - then) >= 0]
        ends = [moved(time * part) for time in times for part in (1, Fraction(chance.randint(0, 8), 8))]
        return chance.choice([end for end in ends if hold(invariant, end)] or [state])

    def after_jump(self, where, state, chance):
        """Locations and values after a jump, or the same if none was found."""
        ready = [[move for move in part.moves if move.source == key] for part, key in zip(self.parts, where)]
        ways = []
        for label in sorted({label for part in self.parts for label in part.labels}):
            sharing = [n for n, part in enumerate(self.parts) if label in part.labels]
            ways += [
                dict(zip(sharing, moves))
                for moves in product(*([move for move in ready[n] if move.label == label] for n in sharing))
                if all(hold(move.guard, state) for move in moves)
            ]
        chance.shuffle(ways)
        for way in ways:
            jump = [relation for move in way.values() for relation in move.jump]
            keys = {key for relation in jump for key in relation.keys if key and key.endswith("'")}
            new = solved(jump, {**state, **{f"{name}'": state[name] for name in self.variables}}, keys, chance)
            target = [way[n].target if n in way else key for n, key in enumerate(where)]
            after = new and {name: new[f"{name}'"] for name in self.variables}
            if new and hold([relation for place in self.places(target) for relation in place.invariant], after):
                return target, after
        return where, state

    def run(self, steps, chance):
        """A run: the locations, as examples/spaceex tells them, and the states."""
        where, state = self.start(chance)
        yield self.title(where), state
        for _ in range(steps):
            state = self.after_time(where, state, chance)
            yield self.title(where), state
            where, state = self.after_jump(where, state, chance)
            yield self.title(where), state


def told_sets(written, variables):
    """The relations of each location in what examples/spaceex writes."""
    names = {name: name for name in variables}
    lines = [line.partition(": ") for line in written.splitlines() if line.startswith("loc(")]
    return {title: [Relation(text, names) for text in rest.partition(";")[0].split(", ")] for title, _, rest in lines}
