"""The automata of examples/models_check: what examples/spaceex writes on the models of examples/models, on small ones
that stand here, and on wrong ones."""
import glob
import importlib.util
import os
import random
import re
import resource
import subprocess
from xml.sax.saxutils import escape

from automata_runs import Automaton, hold, told_sets
from client import Calculator

HERE = os.path.dirname(os.path.realpath(__file__))
RUNS, STEPS = 15, 20
HEAD = '<?xml version="1.0" encoding="UTF-8"?>\n<sspaceex version="0.2" math="SpaceEx">\n'


def component(name, params, *inner):
    """A component; its params are words such as `x`, `x:local`, `x:uncontrolled`, `c:const` and `go:label`."""
    lines = [f'<component id="{name}">']
    for title, *kinds in (word.split(":") for word in params.split()):
        kind, dynamics = "label" if "label" in kinds else "real", "const" if "const" in kinds else "any"
        words = f'name="{title}" type="{kind}" dynamics="{dynamics}"'
        local, controlled = str("local" in kinds).lower(), str("uncontrolled" not in kinds).lower()
        lines.append(f'<param {words} local="{local}" controlled="{controlled}"/>')
    return "\n".join([*lines, *inner, "</component>", ""])


def texts(**parts):
    """The elements of a location or a transition."""
    return "".join(f"<{tag}>{escape(text)}</{tag}>" for tag, text in parts.items())


def location(name, **parts):
    """A location, whose name is its id."""
    return f'<location id="{name}" name="{name}">{texts(**parts)}</location>'


def move(source, target, **parts):
    """A transition."""
    return f'<transition source="{source}" target="{target}">{texts(**parts)}</transition>'


def bind(name, title, maps=""):
    """A bind, whose maps are words such as `x=y`."""
    entries = (word.split("=") for word in maps.split())
    inner = "".join(f'<map key="{key}">{value}</map>' for key, value in entries)
    return f'<bind component="{name}" as="{title}">{inner}</bind>'


WALK = [
    location("near", flow="x' == 1", invariant="x <= 2"),
    location("far", flow="x' == 0"),
    move("near", "far", label="go", guard="x >= 1", assignment="x := x + 10"),
]
WALKER = component("walker", "x go:label", *WALK)
GATE = [location("shut", flow="t' == 1", invariant="t <= 3"), location("open", flow="t' == 0")]
OPENS = move("shut", "open", label="go", guard="t >= 2", assignment="t := 0")
BOTH = bind("walker", "w", "x=x go=go") + bind("gate", "g", "t=t go=go")
AT_FIRST = 'initially = "loc(w)==near & loc(g)==shut & x==0 & t==0.5"\n'
STAYS, ARRIVED = (location(name, flow="x' == 0 & y' == 0") for name in ("here", "there"))
AUTOMATA = [
    (
        "decimals, fractions, parentheses and chains",
        component(
            "c",
            "x y",
            location(
                "here",
                flow="x' == (1 + 0.5)/3 & -1 <= 3*y' <= 0.25*(2 - 1)",
                invariant="x <= 0.1 + 2*(x - 1)/4 + 1 & true",
            ),
        ),
        'initially = "0.125 <= x <= 1/3 & y == -(0.5)"\n',
        ["loc(c)==here: 8*x + 12*y >= -5, 8*x - 48*y >= 25, -5*x >= -6", "safe"],
    ),
    (
        "a label is taken by all that have it",
        WALKER + component("gate", "t go:label", *GATE, OPENS) + component("both", "x t go:label", BOTH),
        AT_FIRST + 'forbidden = "loc(w)==far & loc(g)==shut"\n',
        [
            "loc(w)==near & loc(g)==shut: 2*x - 2*t = -1, 2*t >= 1, -2*t >= -5",
            "loc(w)==far & loc(g)==open: t = 0, 2*x >= 23, -x >= -12",
            "safe",
        ],
    ),
    (
        "a label that a component never takes is never taken",
        WALKER + component("gate", "t go:label", *GATE) + component("both", "x t go:label", BOTH),
        AT_FIRST,
        ["loc(w)==near & loc(g)==shut: 2*x - 2*t = -1, 2*t >= 1, -2*t >= -5", "safe"],
    ),
    (
        "a local label is taken alone",
        WALKER
        + component("gate", "t go:label:local", *GATE, OPENS)
        + component("both", "x t go:label", bind("walker", "w", "x=x go=go"), bind("gate", "g", "t=t")),
        AT_FIRST,
        [
            "loc(w)==near & loc(g)==shut: 2*x - 2*t = -1, 2*t >= 1, -2*t >= -5",
            "loc(w)==far & loc(g)==shut: x >= 11, -t >= -3, -x >= -12, -2*x + 2*t >= -19",
            "loc(w)==near & loc(g)==open: t = 0, 2*x >= 3, -x >= -2",
            "loc(w)==far & loc(g)==open: t = 0, x >= 11, -x >= -12",
            "safe",
        ],
    ),
    (
        "local variables and constants of two components are kept apart",
        component("clock", "x:local rate:const", location("here", flow="x' == rate", invariant="x <= 10*rate"))
        + component("both", "", bind("clock", "one", "rate=1"), bind("clock", "two", "rate=-0.5")),
        'initially = "one.x==0 & two.x==-5"\n',
        ["loc(one)==here & loc(two)==here: one.x + 2*two.x = -10, two.x >= -10, -two.x >= 5", "safe"],
    ),
    (
        "a label is no constant, whatever its dynamics",
        component("c", "x yx:label:const", location("here", flow="x' == 1"), move("here", "here", label="yx")),
        'initially = "x==0"\n',
        ["loc(c)==here: x >= 0", "safe"],
    ),
    (
        "nested networks pass names and numbers on",
        component("clock", "x rate:const", location("here", flow="x' == rate"))
        + component("inner", "y:local z r:const", bind("clock", "c", "x=y rate=r"), bind("clock", "d", "x=z rate=2"))
        + component("outer", "z", bind("inner", "n", "z=z r=3")),
        'initially = "n.y==0 & z==0 & loc(n.c)==here"\n',
        ["loc(n.c)==here & loc(n.d)==here: 3*z - 2*n.y = 0, n.y >= 0", "safe"],
    ),
    (
        "a variable that nothing controls does anything, in flows and in jumps",
        component(
            "c", "x:uncontrolled y", location("here", flow="y' == 0"), ARRIVED, move("here", "there", guard="x >= 5")
        ),
        'initially = "loc(c)==here & x==0 & y==1"\n',
        [
            "loc(c)==here: y = 1",
            "loc(c)==there: y = 1",
            "safe",
        ],
    ),
    (
        "a variable that another component controls keeps its value",
        component("owner", "x", location("here", flow="x' == 0"))
        + component(
            "user",
            "x:uncontrolled y",
            location("here", flow="y' == 0"),
            location("there", flow="y' == 0"),
            move("here", "there", guard="x >= 1", assignment="y := x"),
        )
        + component("both", "x y", bind("owner", "o", "x=x"), bind("user", "u", "x=x y=y")),
        'initially = "loc(u)==here & 0<=x<=2 & y==0"\n',
        [
            "loc(o)==here & loc(u)==here: y = 0, x >= 0, -x >= -2",
            "loc(o)==here & loc(u)==there: x - y = 0, y >= 1, -y >= -2",
            "safe",
        ],
    ),
    (
        "an assignment changes no variable that another component alone controls",
        component("owner", "x", location("here", flow="x' == 0"))
        + component(
            "user",
            "x:uncontrolled",
            location("here", flow="true"),
            location("there", flow="true"),
            move("here", "there", assignment="x' >= 5"),
        )
        + component("both", "x", bind("owner", "o", "x=x"), bind("user", "u", "x=x")),
        'initially = "loc(u)==here & 0<=x<=6"\n',
        [
            "loc(o)==here & loc(u)==here: x >= 0, -x >= -6",
            "loc(o)==here & loc(u)==there: x >= 5, -x >= -6",
            "safe",
        ],
    ),
    (
        "a controlled variable that no flow names does anything, and a constant stays",
        component(
            "c",
            "x y c:const",
            location("here", flow="x' == 1"),
            move("here", "here", guard="x >= c", assignment="x := 0"),
        ),
        'initially = "x==0 & y==0 & c==2"\n',
        ["loc(c)==here: c = 2, x >= 0", "safe"],
    ),
    (
        "a relation of two derivatives",
        component("c", "x y", location("here", flow="x' + y' == 3 & x' >= 1 & y' >= 1")),
        'initially = "x==0 & y==0"\n',
        ["loc(c)==here: 2*x - y >= 0, -x + 2*y >= 0", "safe"],
    ),
    (
        "values are exchanged at once",
        component("c", "x y", STAYS, ARRIVED, move("here", "there", assignment="x := y & y' := x")),
        'initially = "loc(c)==here & x==1 & y==2"\n',
        [
            "loc(c)==here: x = 1, y = 2",
            "loc(c)==there: x = 2, y = 1",
            "safe",
        ],
    ),
    (
        "next values that are bounded",
        component("c", "x y", STAYS, ARRIVED, move("here", "there", assignment="x <= x' <= x + 1 & y' >= 2000")),
        'initially = "loc(c)==here & x==1 & y==2"\n',
        [
            "loc(c)==here: x = 1, y = 2",
            "loc(c)==there: x >= 1, y >= 2000, -x >= -2",
            "safe",
        ],
    ),
    (
        "where the flow is false no time passes, and strict relations are told",
        component(
            "c",
            "x",
            location("here", flow="false", invariant="x < 3"),
            location("there", flow="x' == 1", invariant="x <= 4"),
            move("here", "there", guard="x > 1"),
        ),
        'initially = "loc(c)==here & 0<=x<=2"\nforbidden = "loc(c)==there & x==4"  # as far as it comes\n',
        [
            "model.xml:5: taken as not strict: x < 3",
            "model.xml:7: taken as not strict: x > 1",
            "loc(c)==here: x >= 0, -x >= -2",
            "loc(c)==there: x >= 1, -x >= -4; meets the forbidden states",
            "may be reached in loc(c)==there at x = 4",
        ],
    ),
    (
        "alternatives of forbidden states, and a state with fractions",
        component("c", "x y", location("here", flow="2*x' == 1 & 3*y' == -1", invariant="x <= 1")),
        'initially = "x==0 & y==0"\nforbidden = "x>=2 | 4*x == 1 & loc(c)==here | y <= -1"\n',
        [
            "loc(c)==here: 2*x + 3*y = 0, 3*y >= -2, -y >= 0; meets the forbidden states",
            "may be reached in loc(c)==here at x = 1/4, y = -1/6",
        ],
    ),
    (
        "some variables alone are told, and all locations are initial where none is named",
        component("c", "x y", STAYS, location("there", flow="x' == 1 & y' == 1", invariant="y <= 7")),
        'initially = "x==0 & y==5"\noutput-variables = "y"\n',
        [
            "loc(c)==here: y = 5",
            "loc(c)==there: y >= 5, -y >= -7",
            "safe",
        ],
    ),
    (
        "states outside of the invariant aren't reached",
        component("c", "x y", location("here", flow="x' == 1 & y' == 1", invariant="x <= 2")),
        'initially = "x==5 & y==0"\nforbidden = "y>=0"\n',
        ["no state is reached", "safe"],
    ),
    (
        "a move of one part leaves the locations and the variables of the others",
        component(
            "toggle",
            "x:local",
            location("off", flow="x' == 0"),
            location("on", flow="x' == 0"),
            move("off", "on", assignment="x := x + 1", guard="x <= 0"),
        )
        + component("both", "", bind("toggle", "p"), bind("toggle", "q")),
        'initially = "loc(p)==off & loc(q)==off & p.x==0 & q.x==0"\nforbidden = "p.x==1 & q.x==1 & loc(q)==off"\n',
        [
            "loc(p)==off & loc(q)==off: p.x = 0, q.x = 0",
            "loc(p)==on & loc(q)==off: p.x = 1, q.x = 0",
            "loc(p)==off & loc(q)==on: p.x = 0, q.x = 1",
            "loc(p)==on & loc(q)==on: p.x = 1, q.x = 1",
            "safe",
        ],
    ),
]


# Automata that are refused: a piece of this one is replaced by another

TANK = """<?xml version="1.0" encoding="UTF-8"?>
<sspaceex xmlns="http://www-verimag.imag.fr/xml-namespaces/sspaceex" version="0.2" math="SpaceEx">
  <component id="tank">
    <param name="x" type="real" local="false" d1="1" d2="1" dynamics="any" controlled="true"/>
    <param name="rate" type="real" local="false" d1="1" d2="1" dynamics="const"/>
    <param name="full" type="label" local="false"/>
    <location id="1" name="filling">
      <invariant>x &lt;= 10</invariant>
      <flow>x' == rate</flow>
    </location>
    <location id="2" name="resting">
      <flow>x' == 0</flow>
    </location>
    <transition source="1" target="2">
      <label>full</label>
      <guard>x &lt;= 10
             &amp; x &gt;= 5</guard>
      <assignment>x := x - 1</assignment>
    </transition>
  </component>
  <component id="system">
    <param name="level" type="real" local="false" d1="1" d2="1" dynamics="any"/>
    <param name="full" type="label" local="true"/>
    <bind component="tank" as="tank">
      <map key="x">level</map>
      <map key="rate">0.5</map>
      <map key="full">full</map>
    </bind>
  </component>
</sspaceex>
"""
TANK_SETTINGS = """system = "system"
initially = "loc(tank)==filling & level==0"
forbidden = "level>=11"
output-variables = "level"
"""
LOOP = '</bind>\n    <bind component="system" as="again"><map key="level">level</map></bind>'
WRONG_AUTOMATA = [
    # binds and maps
    ('<map key="x">level</map>', "", "xml:24: no real is bound to x of tank"),
    ('<map key="full">full</map>', "", "xml:24: no label is bound to full of tank"),
    ('<map key="x">level</map>', '<map key="x">full</map>', "xml:24: no real is bound to x of tank"),
    ('<map key="x">', '<map key="y">1</map><map key="x">', "xml:24: tank has no param y"),
    ('<map key="x">', '<map key="x">1</map><map key="x">', "xml:25: two maps of x"),
    ('<map key="x">level</map>', '<map key="x">depth</map>', "xml:25: there is no param or number depth"),
    (">0.5<", ">5e-1<", "xml:26: there is no param or number 5e-1"),
    (">0.5<", "><", "xml:26: there is no param or number here"),
    ('component="tank" as', 'component="tanks" as', "xml:24: there is no component tanks"),
    ('component="tank" as', "as", "xml:24: there is no component here"),
    ("</bind>", LOOP, "xml:29: a cycle of binds: system system"),
    (
        "</bind>",
        '</bind>\n<bind component="tank" as="tank"><map key="x">1</map></bind>',
        "xml:29: a bind without a new name: tank",
    ),
    (' as="tank"', "", "xml:24: a bind without a new name:"),
    ("</bind>", '</bind><location id="1"/>', "xml:24: system has both locations and binds"),
    # components, params, locations and transitions
    ('component id="system"', 'component id="tank"', "xml:21: two components tank"),
    ('name="x" type="real"', 'name="x" type="int"', "xml:4: there is no type int"),
    ('name="x" type="real"', 'name="rate" type="real"', "xml:5: a param without a new name: rate"),
    ('name="x" type="real"', 'type="real"', "xml:4: a param without a new name:"),
    (
        'name="x" type="real" local="false" d1="1"',
        'name="x" type="real" local="false" d1="2"',
        "xml:4: a vector or a matrix: x",
    ),
    ('local="true"', 'local="True"', "xml:23: local and controlled are true or false: full"),
    ('controlled="true"', 'controlled="no"', "xml:4: local and controlled are true or false: x"),
    ('id="2" name="resting"', 'id="1" name="resting"', "xml:11: two locations 1 resting"),
    ('id="2" name="resting"', 'id="2" name="filling"', "xml:11: two locations 2 filling"),
    ('id="2" name="resting"', 'name="resting"', "xml:11: there is no attribute id"),
    ('target="2"', 'target="3"', "xml:14: there is no location 3"),
    (' source="1"', "", "xml:14: there is no location here"),
    ("<label>full<", "<label>empty<", "xml:14: there is no label empty"),
    ("<label>full<", "<label>rate<", "xml:14: there is no label rate"),
    # relations
    ("x' == rate", "x' == x + 1", "xml:9: x has no meaning here: x' == x + 1"),
    ("x' == rate", "x' == rate &amp; rate' == 1", "xml:9: rate' has no meaning here: rate' == 1"),
    ("x &lt;= 10\n", "x*x &lt;= 10\n", "xml:16: this isn't linear: x*x <= 10"),
    ("x &lt;= 10\n", "[1]*x &lt;= 10\n", "xml:16: this can't be read: [1]*x <= 10"),
    ("x &gt;= 5", "x &gt;= 5e0", "xml:17: this can't be read: x >= 5e0"),
    ("x &gt;= 5", "x &gt;= 1/(x - x)", "xml:17: this isn't linear: x >= 1/(x - x)"),
    ("x &gt;= 5", "x &gt;= 1/0", "xml:17: a division by zero: x >= 1/0"),
    ("x &gt;= 5", "x' &gt;= 5", "xml:17: x' has no meaning here: x' >= 5"),
    ("x &gt;= 5", "y &gt;= 5", "xml:17: y has no meaning here: y >= 5"),
    ("x &gt;= 5", "", "xml:17: this can't be read: x <= 10 &"),
    ("x &gt;= 5", "x", "xml:17: this is no relation: x"),
    ("x &gt;= 5", "x != 5", "xml:17: this can't be read: x != 5"),
    ("x &gt;= 5", "(x &gt;= 5", "xml:17: this can't be read: (x >= 5"),
    ("x &gt;= 5", "x &gt;= 2**3", "xml:17: this isn't linear: x >= 2**3"),
    (
        "x &gt;= 5",
        f"x &gt;= {10**38} * 2",
        "xml:17: a number is too large: x >= 100000000000000000000000000000000000000 * 2",
    ),
    (
        "x &gt;= 5",
        f"x &gt;= {'(' * 300}5{')' * 300}",
        f"xml:17: this can't be read: x >= {'(' * 95}",
    ),
    (
        "x &gt;= 5",
        f"x &gt;= 0{' + 1' * 3000}",
        "xml:17: this can't be read: " + f"x >= 0{' + 1' * 3000}"[:100],
    ),
    ("x := x - 1", "x == x - 1", "xml:18: no variable with a prime is assigned: x == x - 1"),
    ("x := x - 1", "rate := 1", "xml:18: rate' has no meaning here: rate := 1"),
    # XML
    ("</bind>", "</bnd>", "xml:28: mismatched tag: line 28, column 6"),
    ("</sspaceex>", "", "xml:30: no element found: line 31, column 0"),
    ("UTF-8", "UTF-9", "xml:1: unknown encoding: UTF-9"),
    (TANK, "", "xml:1: no element found: line 1, column 0"),
    (TANK, "<sspaceex/>", "cfg:1: there is no component system"),
]
WRONG_SETTINGS = [
    ('system = "system"', 'system = "systems"', "cfg:1: there is no component systems"),
    ("loc(tank)==filling", "loc(pump)==filling", "cfg:2: there is no component pump: loc(pump)==filling"),
    ("loc(tank)==filling", "loc(tank)==emptying", "cfg:2: there is no location emptying: loc(tank)==emptying"),
    ("loc(tank)==filling", "loc(tank)==filling & loc(tank)==resting", "cfg:2: no location is initial"),
    ("level==0", "tank.x==0", "cfg:2: tank.x has no meaning here: tank.x==0"),
    ("level==0", "level==0 | level==1", "cfg:2: alternatives of initial states"),
    ("level==0", "level'==0", "cfg:2: level' has no meaning here: level'==0"),
    ("level>=11", "level>=11 |", "cfg:3: an alternative without a text"),
    (
        'system = "system"',
        'system = "system"\nforbidden = ""\nforbidden = "level>=11"\nforbidden = "level>=12"',
        "cfg:4: a second setting forbidden",
    ),
    ("level>=11", 'level>=11\n | level<=-1', "cfg:3: a text in quotes that goes on in the next line"),
    ('= "level"', '= "level, depth"', "cfg:4: there is no variable depth"),
]


def ring(size):
    """A component that goes around some locations, each with its own times."""
    places = [
        location(f"s{n}", flow="1 <= x' <= 2", invariant=f"x <= {n + 2}")
        + move(f"s{n}", f"s{(n + 1) % size}", guard=f"x >= {n + 1}", assignment="x := 0")
        for n in range(size)
    ]
    return component(f"ring{size}", "x:local", *places)


def network(*sizes):
    """A network of rings, and its settings; its product has as many locations as the product of the sizes."""
    binds = [bind(f"ring{size}", f"r{n}") for n, size in enumerate(sizes)]
    text = "".join(map(ring, sorted({*sizes}))) + component("net", "", *binds)
    start = " & ".join(f"loc(r{n})==s0 & r{n}.x==0" for n in range(len(sizes)))
    return f"{HEAD}{text}</sspaceex>\n", f'initially = "{start}"\n'


def processor_time():
    """The seconds that the processes have taken that were run from here."""
    used = resource.getrusage(resource.RUSAGE_CHILDREN)
    return used.ru_utime + used.ru_stime


class Automata:
    """The checks: `check` counts a case, and `run` gives what a program of this folder does with a calculator."""

    def __init__(self, check, run, folder):
        self.check, self.run, self.stem = check, run, os.path.join(folder, "model")

    def answer(self, program, model, settings, *words):
        """The exit code on a model and its settings, and what is written and said, without the name of the folder."""
        for ending, text in ((".xml", model), (".cfg", settings)):
            with open(self.stem + ending, "w", encoding="utf-8") as file:
                file.write(text)
        code, written, said = self.run("spaceex", program, self.stem + ".xml", *words)
        return code, written.replace(self.stem, "model"), said.replace(self.stem, "model")

    def check_model(self, program, path):
        """What is written on the settings NAME.cfg or NAME-CASE.cfg, with the delay that stands in them."""
        name = os.path.basename(path)
        model = os.path.join(os.path.dirname(path), name[:-4].partition("-")[0] + ".xml")
        with open(path, encoding="utf-8") as file:
            delay = re.findall(r"--delay|(?<=--delay )\d+", file.read())
        code, written, said = self.run("spaceex", program, model, path, *delay)
        with open(path[:-3] + "found", encoding="utf-8") as file:
            self.check(name, written == file.read() and not said, written, said)
        self.check(f"{name}, its exit code", code == (0 if written.endswith("\nsafe\n") else 1), code)

    def check_runs(self, path):
        """Whether random runs stay in the sets that are told; and they come to most of the locations."""
        model = os.path.join(os.path.dirname(path), os.path.basename(path)[:-4].partition("-")[0] + ".xml")
        automaton, chance, seen, outside = Automaton(model, path), random.Random(69), set(), []
        with open(path[:-3] + "found", encoding="utf-8") as file:
            sets = told_sets(file.read(), automaton.variables)
        for _ in range(RUNS):
            for title, state in automaton.run(STEPS, chance):
                seen.add(title)
                outside += [] if title in sets and hold(sets[title], state) else [f"{title}: {state}"]
        name = os.path.basename(path)
        self.check(f"{name}, by runs", not outside, *outside[:1])
        self.check(f"{name}, locations of runs", 2 * len(seen) > len(sets), f"{len(seen)} of {len(sets)}")

    def check_small(self, program):
        """What is written on the small models."""
        for name, model, settings, wanted in AUTOMATA:
            code, written, said = self.answer(program, f"{HEAD}{model}</sspaceex>\n", settings)
            lines = [line.removesuffix("; meets no forbidden state") for line in written.splitlines()]
            self.check(name, (code, lines, said) == (wanted[-1] != "safe", wanted, ""), code, written, said)

    def check_wrong(self, program):
        """What is said of models that are refused: one line, with the place."""
        self.check("the tank", self.answer(program, TANK, TANK_SETTINGS)[0] == 0)
        cases = [(TANK.replace(old, new, 1), TANK_SETTINGS, wanted) for old, new, wanted in WRONG_AUTOMATA]
        cases += [(TANK, TANK_SETTINGS.replace(old, new, 1), wanted) for old, new, wanted in WRONG_SETTINGS]
        many = component("many", " ".join(f"x{n}" for n in range(32)), location("here"))
        cases.append((f"{HEAD}{many}</sspaceex>\n", "", "xml:38: 32 variables, above 31"))
        cases.append((*network(6, 17), "cfg:1: more than 100 of the product's 102 locations"))
        for model, settings, wanted in cases:
            found = self.answer(program, model, settings)
            self.check(wanted, found == (2, "", f"spaceex: model.{wanted}\n"), *found)
        for words in (["missing.xml"], [self.stem + ".xml", "missing.cfg"], [os.path.dirname(self.stem)]):
            code, written, said = self.run("spaceex", program, *words)
            good = (code, written, said.count("\n")) == (2, "", 1) and said.startswith("spaceex: ")
            self.check(words, good, code, written, said)

    def check_page(self):
        """Whether docs/GUIDE.md has the model that it shows, and what is written of it."""
        with open(os.path.join(HERE, "..", "docs", "GUIDE.md"), encoding="utf-8") as file:
            page = file.read()
        for ending in ("xml", "cfg", "found"):
            with open(os.path.join(HERE, "models", f"thermostat.{ending}"), encoding="utf-8") as file:
                self.check(f"thermostat.{ending} in docs/GUIDE.md", f"\n{file.read()}```\n" in page)

    def check_script(self, program):
        """The script alone needs no calculator; without an answer of one the exit code is 3."""
        missing = os.path.join(os.path.dirname(self.stem), "missing")
        for other in ("true", missing):
            code, written, said = self.answer(other, TANK, TANK_SETTINGS)
            good = (code, written, said.count("\n")) == (3, "", 1) and said.startswith(f"spaceex: {other}: ")
            self.check(f"no answer of {other}", good, code, written, said)
        code, script, said = self.answer(missing, TANK, TANK_SETTINGS, "--script")
        lines = [line for line in script.splitlines() if not line.startswith("#")]
        replies = [reply for reply in Calculator(program).ask_all(lines) if reply != "ok"]
        wanted = ["empty", "A >= 0, -A >= -10", "empty", "A >= 4, -A >= -9"]
        self.check("the script", (code, said, replies) == (0, "", wanted), code, said, replies)
        grows = component("c", "x y", STAYS, move("here", "here", assignment=f"x := {10**30}*x + 1"))
        code, _, said = self.answer(program, f"{HEAD}{grows}</sspaceex>\n", 'initially = "x==0"', "--delay", "9")
        self.check("an overflow", code == 3 and said.startswith(f"spaceex: {program}: overflow "), code, said)

    def check_picture(self, program):
        """A picture is drawn if matplotlib is there; if not, the exit code is 3."""
        picture, model = self.stem + ".svg", os.path.join(HERE, "models", "thermostat.xml")
        code, written, said = self.run("spaceex", program, model, "--plot", "x", "h", picture)
        wanted = (3, False) if importlib.util.find_spec("matplotlib") is None else (0, True)
        self.check("a picture", (code, os.path.exists(picture)) == wanted, code, written, said)

    def check_large(self, program):
        """Products of 100 locations are answered, within ten seconds of a processor's time."""
        for sizes in ((10, 10), (5, 5, 4)):
            code, written, said = self.answer(program, *network(*sizes))
            self.check(f"a product of {sizes}", code == 0 and len(written.splitlines()) == 101, code, said)
            began = processor_time()
            script = self.answer(program, *network(*sizes), "--script")[1]
            subprocess.run([program, "run"], input=script.encode(), stdout=subprocess.DEVNULL, check=False)
            spent = processor_time() - began
            self.check(f"the time of a product of {sizes}", spent < 10, f"{spent:.1f} s")


def check_automata(program, check, run, folder):
    """All checks of examples/spaceex."""
    automata = Automata(check, run, folder)
    for path in sorted(glob.glob(os.path.join(HERE, "models", "*.cfg"))):
        automata.check_model(program, path)
        automata.check_runs(path)
    automata.check_small(program)
    automata.check_wrong(program)
    automata.check_page()
    automata.check_script(program)
    automata.check_picture(program)
    automata.check_large(program)
