# SPDX-License-Identifier: Apache-2.0
"""Polynomials with whole coefficients, in the variables of a log, and their text (docs/LEMMAS.md, "Order"; docs/LOG.md, "Lines").

A variable is a tuple: ("R", a, b, c, d), ("S", a, b, c), ("P", a, b, c), ("x", i), ("y", i) or ("t", i). A monomial is a tuple of
pairs of a variable and its exponent, in the order of variables. A polynomial has its monomials with their coefficients, none of them 0.
"""
import functools

KINDS = {"R": 0, "S": 1, "P": 2, "x": 3, "y": 3, "t": 4}


class TooMuch(Exception):
    """This writer does not go on: a polynomial gets too large for it."""


@functools.cache
def place(variable):
    """The key by which variables are ordered: R, S, P, then x0, y0, x1, y1 and so on, then t0, t1 and so on."""
    kind, *numbers = variable
    return (KINDS[kind], *numbers, kind)


def name(variable):
    """A variable as a log writes it."""
    kind, *numbers = variable
    return kind + ".".join(map(str, numbers))


def compare(left, right):
    """Below 0 where the monomial `left` stands before `right`: its exponent is greater at the first variable in which they differ."""
    ours, theirs = dict(left), dict(right)
    for variable in sorted(ours.keys() | theirs.keys(), key=place):
        exponents = ours.get(variable, 0), theirs.get(variable, 0)
        if exponents[0] != exponents[1]:
            return exponents[1] - exponents[0]
    return 0


def times(left, right):
    """The product of two monomials."""
    exponents = dict(left)
    for variable, exponent in right:
        exponents[variable] = exponents.get(variable, 0) + exponent
    return tuple(sorted(exponents.items(), key=lambda pair: place(pair[0])))


class Polynomial:
    """A sum of monomials with whole coefficients."""

    def __init__(self, terms):
        self.terms = {monomial: amount for monomial, amount in terms.items() if amount}

    def __add__(self, other):
        total = dict(self.terms)
        for monomial, amount in other.terms.items():
            total[monomial] = total.get(monomial, 0) + amount
        return Polynomial(total)

    def __neg__(self):
        return Polynomial({monomial: -amount for monomial, amount in self.terms.items()})

    def __sub__(self, other):
        return self + -other

    def __mul__(self, other):
        if isinstance(other, int):
            return self * integer(other)
        total = {}
        for left, some in self.terms.items():
            for right, more in other.terms.items():
                monomial = times(left, right)
                total[monomial] = total.get(monomial, 0) + some * more
        return Polynomial(total)

    __rmul__ = __mul__

    def __pow__(self, exponent):
        product = integer(1)
        for _ in range(exponent):
            product = product * self
        return product

    def __bool__(self):
        return bool(self.terms)

    def __len__(self):
        return len(self.terms)

    def variables(self):
        """All variables, in their order."""
        return sorted({variable for monomial in self.terms for variable, _ in monomial}, key=place)

    def norm(self):
        """The sum of the absolute coefficients."""
        return sum(map(abs, self.terms.values()))

    def value(self, values):
        """The value where each variable has the whole number that `values` gives."""
        total = 0
        for monomial, amount in self.terms.items():
            for variable, exponent in monomial:
                amount *= values[variable] ** exponent
            total += amount
        return total

    def __str__(self):
        ordered = sorted(self.terms, key=functools.cmp_to_key(compare))
        return " ".join(monomial_text(monomial, self.terms[monomial]) for monomial in ordered) or "0"


def monomial_text(monomial, amount):
    """A monomial with its coefficient, as `-2*S0.1.2*t0^3`."""
    powers = [name(variable) + (f"^{exponent}" if exponent > 1 else "") for variable, exponent in monomial]
    return "*".join([f"{amount:+d}", *powers])


def integer(number):
    """The polynomial that is a whole number."""
    return Polynomial({(): number})


def variable_of(*variable):
    """The polynomial that is one variable."""
    return Polynomial({((variable, 1),): 1})
