"""Figures at random numbers modulo a prime: what is true of one is true of nearly all, and what is not is false at most numbers."""
# SPDX-License-Identifier: Apache-2.0
from fractions import Fraction

from canonical import VALUED_COMMANDS, parts_of  # first, since it tells where the modules of tools/page are
from figure import Figure
from formulas import NoFigure, helper

along, cross, dot, minus, mirrored, turned = map(helper, ("along", "cross", "dot", "minus", "mirrored", "turned"))
PRIME = (1 << 61) - 1


class Residue:
    """A number modulo the prime, for the formulas of tools/page/formulas; where it has any, with its derivatives by the free numbers."""

    __slots__ = ("n", "d")

    def __init__(self, n, d=()):
        self.n, self.d = n % PRIME, d

    def plus(self, other, k):
        """Self and k times other."""
        a, b = self.d, getattr(other, "d", ())
        return Residue(self.n + k * plain(other), [x + k * y for x, y in zip(a, b)] if a and b else a or [k * y for y in b])

    def __mul__(self, other):
        n, a, b = plain(other), self.d, getattr(other, "d", ())
        d = [(x * n + self.n * y) % PRIME for x, y in zip(a, b)] if a and b else [x * n for x in a] or [self.n * y for y in b]
        return Residue(self.n * n, d)

    def upside_down(self):
        n = inverse(self.n)
        return Residue(n, [-x * n * n % PRIME for x in self.d])

    def __add__(self, other):
        return self.plus(other, 1)

    def __sub__(self, other):
        return self.plus(other, -1)

    def __rsub__(self, other):
        return (-self).plus(other, 1)

    def __neg__(self):
        return self * -1

    def __truediv__(self, other):
        return self * (other.upside_down() if isinstance(other, Residue) else inverse(plain(other)))

    def __rtruediv__(self, other):
        return self.upside_down() * other

    def __eq__(self, other):
        return self.n == plain(other) % PRIME

    __radd__, __rmul__ = __add__, __mul__


def plain(value):
    if isinstance(value, Fraction):
        return value.numerator * inverse(value.denominator)
    return value.n if isinstance(value, Residue) else value


def inverse(n):
    return pow(n, -1, PRIME)


def random_figure(commands, dice, with_derivatives=False):
    """The figure of commands where what is free in them is random. NoFigure: there is none."""
    figure, count = Figure(), sum(2 if c.word == "point" else c.word in VALUED_COMMANDS for c in commands)
    units = ([int(k == j) for j in range(count)] for k in range(count))

    def number():
        return Residue(dice.getrandbits(60), next(units) if with_derivatives else ())

    for c in commands:
        figure.add(c, (number(), number()) if c.word == "point" else number() if c.word in VALUED_COMMANDS else None)
    return figure


class Freedom:
    """How free the points of a figure with derivatives are beside one another. A tie has a factor for each number of these points, so that
    the derivatives with these factors have the sum 0; what no tie has of a point is free."""

    def __init__(self, figure, names):
        numbers = {**figure.points, **{name: (v,) for name, v in figure.numbers.items()}}
        self.places, rows = {}, []
        for name in names:
            self.places[name] = range(len(rows), len(rows) + len(numbers[name]))
            rows += [[a % PRIME for a in v.d] for v in numbers[name]]
        self.ties = ties(rows)

    def of(self, x):
        """How many of the two numbers of the point X are free where the others stay."""
        j, k = self.places[x]
        held = next((tie for tie in self.ties if tie[j] or tie[k]), None)
        if held is None:
            return 2
        return int(all((tie[j] * held[k] - tie[k] * held[j]) % PRIME == 0 for tie in self.ties))

    def without(self, x):
        """The same beside the others."""
        other = object.__new__(type(self))
        other.places, other.ties = self.places, self.ties
        for k in self.places[x]:
            other.ties = cleared(other.ties, k)
        return other


def cleared(rows, k):
    """Sums of the rows that span all those with 0 in the place k."""
    pivot = next((row for row in rows if row[k]), None)
    if pivot is None:
        return rows
    upside_down = inverse(pivot[k])
    factors = [(row, row[k] * upside_down % PRIME) for row in rows if row is not pivot]
    return [[(a - f * b) % PRIME for a, b in zip(row, pivot)] if f else row for row, f in factors]


def ties(rows):
    """Vectors that span those whose product with the rows is 0."""
    size, found = len(rows), [[*row, *(int(j == k) for j in range(len(rows)))] for k, row in enumerate(rows)]
    for k in range(len(rows[0]) if rows else 0):
        found = cleared(found, k)
    return [row[len(row) - size :] for row in found]


def holds(statement, figure):
    """Whether the statement holds; a ratio has a value only where its segments are parallel."""
    at = places(figure)
    ratios = [r for e in statement.args if statement.word == "equal" for r in parts_of(e, "sratio")]
    try:
        return not any(cross(minus(at[b], at[a]), minus(at[d], at[c])) % PRIME for _, a, b, c, d in ratios) and figure.holds(statement)
    except NoFigure:
        return False


# Points as pairs of plain numbers, for the search for relations, which looks at many of them.


def place(x, y):
    return (plain(x) % PRIME, plain(y) % PRIME)


def places(figure):
    return {name: place(*p) for name, p in figure.points.items()}


def square(p, q):
    v = minus(p, q)
    return dot(v, v) % PRIME


def area(p, q, r):
    return cross(minus(q, p), minus(r, p)) % PRIME


def is_right(p, q, r, s):
    return dot(minus(q, p), minus(s, r)) % PRIME == 0
