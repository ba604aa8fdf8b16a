"""Where the points of a program are, at given values: exact with fractions, quick with floating point."""
# SPDX-License-Identifier: Apache-2.0
import subprocess
from fractions import Fraction

from formulas import NoFigure, functions
from language import VALUED_COMMANDS

MOST_BITS = 4096


class Figure:
    """Points, lines (a point and a direction) and numbers by name; `values` are the numbers that may be changed."""

    def __init__(self):
        self.points = {}
        self.lines = {}
        self.numbers = {}
        self.values = {}

    def evaluated(self, kind, word, args, *more):
        """The formula of this word at these names and expressions."""
        return functions()[word, kind](*(self.argument(a) for a in args), *more)

    def argument(self, a):
        if isinstance(a, str):
            return self.points[a] if a in self.points else self.lines[a]
        return self.expression(a)

    def expression(self, e):
        if e[0] == "number":
            return e[1]
        return self.numbers[e[1]] if e[0] == "name" else self.evaluated("expression", e[0], e[1:])

    def add(self, command, value):
        """Makes the point, line or number of a command; `value` is what the sample has for it."""
        word, name = command.word, command.name
        if word in VALUED_COMMANDS:
            self.values[name] = value
        if word == "param":
            self.numbers[name] = value
        elif word == "point":
            self.points[name] = value
        elif command.is_line:
            self.lines[name] = tuple(map(tuple, self.evaluated("command", word, command.args)))
        elif word != "assume":
            own = [value] if word in VALUED_COMMANDS and all(isinstance(a, str) for a in command.args) else []
            self.points[name] = bounded(self.evaluated("command", word, command.args, *own))

    def differs(self, condition):
        """The number that is not 0 where the condition is met."""
        return self.evaluated("condition", condition.word, condition.args)

    def holds(self, statement):
        """Whether the statement holds here; for exact numbers."""
        try:
            return self.evaluated("prove", statement.word, statement.args) == 0
        except NoFigure:
            return False


def bounded(p):
    """A point whose numbers are not too long to go on with."""
    for number in p:
        if isinstance(number, Fraction) and max(number.numerator.bit_length(), number.denominator.bit_length()) > MOST_BITS:
            raise NoFigure
    return tuple(p)


def evaluated(program, values):
    """The figure at these values: the coordinates of the free points, then the numbers, as in the sample of a log."""
    places = iter([tuple(values[2 * k : 2 * k + 2]) for k in range(len(program.free()))])
    numbers = iter(values[2 * len(program.free()) :])
    figure = Figure()
    for command in program.commands:
        if command.word == "point":
            figure.add(command, next(places))
        else:
            figure.add(command, next(numbers) if command.word in VALUED_COMMANDS else None)
    return figure


def placed(program, text, values, binary):
    """The figure at exact values; its points are those of the program's word `place`, where it has that word and the values are whole.
    `text` is the canonical program."""
    figure = evaluated(program, [Fraction(v) for v in values])
    if binary and all(Fraction(v).denominator == 1 for v in values):
        line = "at " + " ".join(str(int(v)) for v in values) + "\n"
        run = subprocess.run([binary, "place"], input=line + text, capture_output=True, text=True)
        if run.returncode == 13:
            for row in run.stdout.splitlines()[:-1]:
                name, x, y, w = row.split(" ")
                figure.points[name] = (Fraction(int(x), int(w)), Fraction(int(y), int(w)))
    return figure
