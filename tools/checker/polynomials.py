"""Polynomials, as a mapping from monomials to coefficients; a monomial is a sorted tuple of variables with exponents.

A variable is a tuple, its kind first, and sorts as docs/LEMMAS.md has it: (RATIO, A, B, C, D), (AREA, A, B, C), (DIFFERENCE, A, B, C),
(COORDINATE, A, 0) and (COORDINATE, A, 1) for x and y of A, (PARAMETER, T).
"""
# SPDX-License-Identifier: Apache-2.0

# The kinds of variables in their order.
RATIO, AREA, DIFFERENCE, COORDINATE, PARAMETER = range(5)
QUANTITIES = (RATIO, AREA, DIFFERENCE)


def integer(number):
    return {(): number} if number else {}


def variable(name, sign=1):
    return {((name, 1),): sign}


def add_term(total, monomial, coefficient):
    """Adds a term, not 0, in place."""
    amount = total.get(monomial, 0) + coefficient
    if amount:
        total[monomial] = amount
    else:
        del total[monomial]


def combined(left, right, factor):
    """left + factor right"""
    total = dict(left)
    for monomial, coefficient in right.items():
        add_term(total, monomial, factor * coefficient)
    return total


def plus(left, right):
    return combined(left, right, 1)


def minus(left, right):
    return combined(left, right, -1)


def joined(left, right):
    """The product of two monomials."""
    if not left or not right:
        return left or right
    exponents = dict(left)
    for name, exponent in right:
        exponents[name] = exponents.get(name, 0) + exponent
    return tuple(sorted(exponents.items()))


def times(left, right):
    total = {}
    for monomial, coefficient in left.items():
        for other, amount in right.items():
            add_term(total, joined(monomial, other), coefficient * amount)
    return total


def powers(base, most):
    """The powers of a polynomial from 0 up to the greatest one."""
    out = [integer(1)]
    while len(out) <= most:
        out.append(times(out[-1], base))
    return out


def variables(polynomial):
    return {name for monomial in polynomial for name, _ in monomial}


def points_of(name):
    """The points of a ratio, an area or a difference."""
    return name[1:] if name[0] in QUANTITIES else ()


def replaced(polynomial, rows, den):
    """The polynomial with rows {variable: (num, power)} put in, over one power of den (docs/LEMMAS.md, "A move")."""
    parts = []
    for monomial, coefficient in polynomial.items():
        power, kept, nums = 0, [], []
        for name, exponent in monomial:
            if name in rows:
                num, one = rows[name]
                power += one * exponent
                nums += [num] * exponent
            else:
                kept.append((name, exponent))
        parts.append((power, {tuple(kept): coefficient}, nums))
    most = max((power for power, _, _ in parts), default=0)
    dens, total = powers(den, most), {}
    for power, part, nums in parts:
        for num in nums:
            part = times(part, num)
        total = plus(total, times(part, dens[most - power]))
    return total


def divided(polynomial, number, monomial):
    """The exact quotient by a factor, or None."""
    total = {}
    for product, coefficient in polynomial.items():
        exponents = dict(product)
        for name, exponent in monomial:
            exponents[name] = exponents.get(name, 0) - exponent
        if coefficient % number or any(exponent < 0 for exponent in exponents.values()):
            return None
        total[tuple(sorted(item for item in exponents.items() if item[1]))] = coefficient // number
    return total


def value(polynomial, values):
    total = 0
    for monomial, product in polynomial.items():
        for name, exponent in monomial:
            product *= values[name] ** exponent
        total += product
    return total


# Quantities: a sign times a variable, or a number (docs/LEMMAS.md, "Quantities").


def area(a, b, c):
    if len({a, b, c}) < 3:
        return {}
    return variable((AREA, *sorted((a, b, c))), -1 if (a > b) ^ (b > c) ^ (a > c) else 1)


def difference(a, b, c):
    if b in (a, c):
        return {}
    return variable((DIFFERENCE, min(a, b), max(a, b), min(a, b)) if a == c else (DIFFERENCE, min(a, c), b, max(a, c)))


def ratio(a, b, c, d):
    if a == b or c == d:
        return {}
    sign = (1 if a < b else -1) * (1 if c < d else -1)
    first, second = sorted((a, b)), sorted((c, d))
    return integer(sign) if first == second else variable((RATIO, *first, *second), sign)


def coordinate(point, axis):
    return variable((COORDINATE, point, axis))


def parameter(number):
    return variable((PARAMETER, number))
