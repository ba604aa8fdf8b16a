# SPDX-License-Identifier: Apache-2.0
"""A program of the construction language as polynomials in coordinates, as it is stated to provers by polynomials.

The coordinates of point number i are xi and yi. A point that is met by equations has two unknown coordinates; any other point is put
in directly, but where a coordinate would have many terms it is an unknown with an equation, and so is a number with many terms. Numbers are t0, t1
and so on, as they come: of param and online commands, the inverses of divisors, the ratios of segments. In the frame `full` each free point has two coordinates; in the frame `fixed` the first two are (0, 0) and (1, 0), which leaves
out that they coincide.
"""
import functools
import math
from dataclasses import dataclass, field
from fractions import Fraction

import theorems  # noqa: F401, which says where the next modules are
from forms import COMMANDS
from formulas import function, functions
from language import read_program
from polynomials import Polynomial, integer, variable_of

FRAMES = ("full", "fixed")
MANY = 8


@dataclass
class Goal:
    """Polynomials that are 0 wherever the statement holds, given the equations of the goal's own numbers."""

    text: str
    polynomials: list
    equations: list = field(default_factory=list)
    numbers: list = field(default_factory=list)


@dataclass
class Theorem:
    """Where the equations are 0 and no condition is, the goals are to be 0. Variables are tuples, as ("x", 3)."""

    free: list = field(default_factory=list)
    made: list = field(default_factory=list)
    equations: list = field(default_factory=list)
    conditions: dict = field(default_factory=dict)
    goals: list = field(default_factory=list)
    numbers: int = 0


def whole(polynomial):
    """The polynomial with whole coefficients that have no common divisor."""
    amounts = [Fraction(amount) for amount in polynomial.terms.values()]
    up = math.lcm(*(amount.denominator for amount in amounts)) if amounts else 1
    down = math.gcd(*(int(amount * up) for amount in amounts)) or 1
    return Polynomial({monomial: int(Fraction(amount) * up / down) for monomial, amount in polynomial.terms.items()})


def is_constant(polynomial):
    return all(not monomial for monomial in polynomial.terms)


def part(a, b):
    """The number a / b."""
    return integer(Fraction(a, b))


@functools.cache
def formulas_here():
    """The functions of tools/forms and tools/page/formulas over polynomials, which are divided by whole numbers alone."""
    return functions(divided=lambda above, below: part(1, below) * above)


def here(word, kind):
    return formulas_here()[word, kind]


along, cross, dot, minus, turned, middle = (here(word, "helper") for word in ("along", "cross", "dot", "minus", "turned", "middle"))


@functools.cache
def equations_of(word):
    """What a command asks of its new point X, by this and the points behind it: none where the point is put in by its place."""
    form = COMMANDS[word]
    helpers = {name: value for (name, kind), value in formulas_here().items() if kind == "helper"}
    return [function(form.letters, formula, helpers) for formula in form.listed("met")]


def square(p, q):
    v = minus(q, p)
    return dot(v, v)


CONDITIONS = {
    "different": square,
    "not_collinear": lambda a, b, c: cross(minus(b, a), minus(c, a)),
    "not_parallel": lambda a, b, c, d: cross(minus(b, a), minus(d, c)),
}


def on_one_circle(a, b, c, d):
    """The determinant of the rows (x^2 + y^2, x, y, 1)."""
    rows = [minus(p, d) for p in (a, b, c)]
    return sum((dot(rows[i], rows[i]) * cross(rows[i - 2], rows[i - 1]) for i in range(3)), integer(0))


STATEMENTS = {
    "collinear": lambda a, b, c: [cross(minus(b, a), minus(c, a))],
    "parallel": lambda a, b, c, d: [cross(minus(b, a), minus(d, c))],
    "perpendicular": lambda a, b, c, d: [dot(minus(b, a), minus(d, c))],
    "identical": lambda a, b: list(minus(a, b)),
    "midpoint": lambda m, a, b: list(minus(m, middle(a, b))),
    "same_length": lambda a, b, c, d: [square(a, b) - square(c, d)],
    "concyclic": lambda a, b, c, d: [on_one_circle(a, b, c, d)],
}


class Translation:
    """Reads a program into a theorem."""

    def __init__(self, text, frame):
        self.theorem = Theorem()
        self.points, self.lines, self.params = {}, {}, {}
        self.inverses = {}
        self.count = 0
        self.fixed = [(integer(0), integer(0)), (integer(1), integer(0))] if frame == "fixed" else []
        self.goal = Goal("statement", [])
        program = read_program(text)
        for command in program.commands:
            self.add(command)
        self.state(program.statement)

    # Variables

    def number(self, numbers):
        """A new number; it is added to these."""
        numbers.append(("t", self.theorem.numbers))
        self.theorem.numbers += 1
        return variable_of(*numbers[-1])

    def coordinates(self, variables):
        """The coordinates of the next point, as new variables that are added to these."""
        pair = [(letter, self.count) for letter in "xy"]
        variables += pair
        return tuple(variable_of(*variable) for variable in pair)

    # Commands

    def add(self, command):
        word, name = command.word, command.name
        if word == "param":
            self.params[name] = self.number(self.theorem.free)
        elif word == "assume":
            self.add_condition([command.args[0].word, *command.args[0].args])
        elif command.is_line:
            self.lines[name] = self.line(word, command.args)
        else:
            self.points[name] = self.point(word, command.args)
            self.count += 1
        if word not in ("param", "assume", "point"):
            self.add_conditions(word, [name, *command.args])

    def line(self, word, args):
        """A point of the line, and its direction."""
        return here(word, "command")(*map(self.argument, args))

    def argument(self, argument):
        """The point, the line or the number behind a command's word."""
        if isinstance(argument, str):
            return self.points[argument] if argument in self.points else self.lines[argument]
        return self.value(argument)

    def point(self, word, args):
        if word == "point":
            return self.fixed.pop(0) if self.fixed else self.coordinates(self.theorem.free)
        values, equations, place = list(map(self.argument, args)), equations_of(word), None
        if not equations:
            own = [self.number(self.theorem.free)] if "number" in COMMANDS[word].said else []
            place = here(word, "command")(*values, *own)
            if max(map(len, place)) <= MANY:
                return place
        x = self.coordinates(self.theorem.made)
        self.theorem.equations += minus(x, place) if place else [equation(x, *values) for equation in equations]
        return x

    # Conditions

    def add_conditions(self, word, names):
        """The conditions of a command, with these names in the places of its letters."""
        named = dict(zip(COMMANDS[word].letters, names))
        for condition in COMMANDS[word].listed("conditions"):
            kind, *letters = condition.split()
            self.add_condition([kind, *(named[letter] for letter in letters)])

    def add_condition(self, words):
        kind, *names = words
        if kind == "crossing":
            value = cross(*(self.lines[name][1] for name in names))
        else:
            value = CONDITIONS[kind](*(self.points[name] for name in names))
        if not (value and is_constant(value)):
            self.theorem.conditions.setdefault(" ".join(words), value)

    # Expressions

    def value(self, e):
        """An expression as a polynomial."""
        kind, *parts = e
        if kind == "number":
            return integer(parts[0])
        if kind == "name":
            return self.params[parts[0]]
        if kind in ("signed_area3", "pythagoras_difference3", "sratio"):
            return self.quantity(kind, parts)
        values = [self.value(p) for p in parts]
        if kind == "neg":
            return -values[0]
        if kind == "div":
            return self.short(values[0] * self.inverse(values[1]))
        return self.short({"sum": Polynomial.__add__, "sub": Polynomial.__sub__, "mult": Polynomial.__mul__}[kind](*values))

    def short(self, value):
        """The value, or where it has many terms a new number that is equal to it."""
        if len(value) <= MANY:
            return value
        in_goal = not set(self.goal.numbers).isdisjoint(value.variables())
        numbers, equations = (self.goal.numbers, self.goal.equations) if in_goal else (self.theorem.made, self.theorem.equations)
        number = self.number(numbers)
        equations.append(number - value)
        return number

    def quantity(self, kind, names):
        a, b, c, *d = (self.points[name] for name in names)
        if kind == "signed_area3":
            return self.short(part(1, 2) * cross(minus(b, a), minus(c, a)))
        if kind == "pythagoras_difference3":
            return self.short(2 * dot(minus(a, b), minus(c, b)))
        return self.ratio(names)

    def inverse(self, divisor):
        """1 over the divisor: a number, or a new unknown, whose equation says too that the divisor is not 0."""
        if divisor and is_constant(divisor):
            return part(1, divisor.terms[()])
        known = frozenset(divisor.terms.items())
        if known not in self.inverses:
            self.inverses[known] = self.number(self.theorem.made)
            self.theorem.equations.append(self.inverses[known] * divisor - integer(1))
        return self.inverses[known]

    def ratio(self, names):
        """The ratio of two segments: a number of the goal, with its equations; that they are parallel is a goal of its own."""
        self.add_condition(["different", *names[2:]])
        self.theorem.goals.append(Goal(" ".join(["parallel", *names]), STATEMENTS["parallel"](*(self.points[name] for name in names))))
        a, b, c, d = (self.points[name] for name in names)
        number = self.number(self.goal.numbers)
        self.goal.equations += [one - number * other for one, other in zip(minus(b, a), minus(d, c))]
        return number

    # The statement

    def state(self, statement):
        word, args = statement.word, statement.args
        if word == "equal":
            self.goal.polynomials = [self.value(args[0]) - self.value(args[1])]
        elif word == "harmonic":
            a, b, c, d = args
            self.goal.polynomials = [self.ratio([a, c, c, b]) - self.ratio([a, d, b, d])]
        else:
            self.goal.polynomials = STATEMENTS[word](*(self.points[name] for name in args))
        self.theorem.goals.append(self.goal)


def translated(text, frame):
    """The theorem of a program, with whole coefficients."""
    theorem = Translation(text, frame).theorem
    theorem.equations = [whole(p) for p in theorem.equations]
    theorem.conditions = {text: whole(p) for text, p in theorem.conditions.items()}
    for goal in theorem.goals:
        goal.polynomials = [whole(p) for p in goal.polynomials]
        goal.equations = [whole(p) for p in goal.equations]
    return theorem
