# SPDX-License-Identifier: Apache-2.0
"""The quantities of points in their sorted forms, and fractions of polynomials (docs/LEMMAS.md, "Quantities", "Terms multiplied out")."""
from polynomials import integer, variable_of


def area(a, b, c):
    """The signed area S_ABC: points sorted, with the sign of the permutation."""
    if len({a, b, c}) < 3:
        return integer(0)
    sign = (1 if a < b else -1) * (1 if b < c else -1) * (1 if a < c else -1)
    return sign * variable_of("S", *sorted((a, b, c)))


def difference(a, b, c):
    """The Pythagoras difference P_ABC: its ends sorted; of P_ABA the lower point first."""
    if b in (a, c):
        return integer(0)
    if a == c:
        return variable_of("P", min(a, b), max(a, b), min(a, b))
    return variable_of("P", min(a, c), b, max(a, c))


def ratio(a, b, c, d):
    """The ratio AB/CD: both pairs sorted, with a sign for each pair that is exchanged."""
    if a == b or c == d:
        return integer(0)
    sign = (1 if a < b else -1) * (1 if c < d else -1)
    pairs = sorted((a, b)), sorted((c, d))
    return integer(sign) if pairs[0] == pairs[1] else sign * variable_of("R", *pairs[0], *pairs[1])


class Fraction:
    """A numerator over a denominator, which are never reduced: a log wants the numerator as the rules make it."""

    def __init__(self, numerator, denominator=integer(1)):
        self.numerator = numerator
        self.denominator = denominator

    def __add__(self, other):
        crossed = self.numerator * other.denominator + other.numerator * self.denominator
        return Fraction(crossed, self.denominator * other.denominator)

    def __neg__(self):
        return Fraction(-self.numerator, self.denominator)

    def __sub__(self, other):
        return self + -other

    def __mul__(self, other):
        return Fraction(self.numerator * other.numerator, self.denominator * other.denominator)

    def __truediv__(self, other):
        return Fraction(self.numerator * other.denominator, self.denominator * other.numerator)
