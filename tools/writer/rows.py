# SPDX-License-Identifier: Apache-2.0
"""The rows of the lemma table (docs/LEMMAS.md, "Rows"). A row is a numerator, a denominator and a power: the variable times the
denominator to the power is the numerator."""
from polynomials import integer, variable_of
from quantities import area, difference, ratio


def point_row(variable, point, step):
    """The row of an area or a Pythagoras difference that contains the point."""
    kind, *points = variable
    if kind == "S":
        others = {points[0]: points[1:], points[1]: [points[2], points[0]], points[2]: points[:2]}[point]
        return linear_row(step, "area", lambda x: area(*others, x), others)
    a, b, c = points
    if a == c:
        b = b if point == a else a
        a = c = b
    elif b == point:
        b = c
    else:
        a = c if a == point else a
        return linear_row(step, "difference", lambda x: difference(a, b, x), (a, b))
    return quadratic_row(step, lambda x: difference(a, x, b), (a, b))


def linear_row(step, quantity, g, others):
    """The row of a quantity G(Y) that is linear in the point: the area S_ABY or the difference P_ABY."""
    a, b = others
    if step[0] == "INTER":
        _, u, v, p, q = step
        left, right = area(u, p, q), area(v, p, q)
        return left * g(v) - right * g(u), left - right, 1
    if step[0] == "FOOT":
        _, p, u, v = step
        return difference(p, u, v) * g(v) + difference(p, v, u) * g(u), difference(u, v, u), 1
    if step[0] == "PRATIO":
        _, w, u, v, r = step
        n, d = r.numerator, r.denominator
        return d * g(w) + n * g(v) - n * g(u), d, 1
    if step[0] == "WEIGHTS":
        _, o, u, v, *_ = step
        at_o, at_u, at_v, whole = weights_of(step)
        return at_o * g(o) + at_u * g(u) + at_v * g(v), whole, 1
    _, u, v, r = step
    n, d = r.numerator, r.denominator
    if quantity == "area":
        return 4 * d * area(a, b, u) - n * (difference(u, a, b) - difference(v, a, b)), 4 * d, 1
    return 4 * d * difference(a, b, u) - 16 * n * (area(u, a, b) - area(v, a, b)), 4 * d, 1


def quadratic_row(step, g, ends):
    """The row of the difference G(Y) = P_AYB."""
    a, b = ends
    if step[0] == "INTER":
        _, u, v, p, q = step
        left, right = area(u, p, q), area(v, p, q)
        return (left * g(v) - right * g(u)) * (left - right) + left * right * difference(u, v, u), left - right, 2
    if step[0] == "FOOT":
        _, p, u, v = step
        first, second = difference(p, u, v), difference(p, v, u)
        return first * g(v) + second * g(u) - first * second, difference(u, v, u), 1
    if step[0] == "PRATIO":
        _, w, u, v, r = step
        n, d = r.numerator, r.denominator
        turned = g(v) - g(u) + 2 * difference(w, u, v)
        return d * d * g(w) + n * d * turned - n * (d - n) * difference(u, v, u), d, 2
    if step[0] == "WEIGHTS":
        _, o, u, v, *_ = step
        at_o, at_u, at_v, whole = weights_of(step)
        pairs = at_o * at_u * difference(o, u, o) + at_o * at_v * difference(o, v, o) + at_u * at_v * difference(u, v, u)
        return whole * (at_o * g(o) + at_u * g(u) + at_v * g(v)) - pairs, whole, 2
    _, u, v, r = step
    n, d = r.numerator, r.denominator
    return (
        16 * d * d * g(u) + 16 * n * n * difference(u, v, u) - 64 * n * d * (area(a, u, v) + area(b, u, v)),
        4 * d,
        2,
    )


def weights_of(step):
    """The weights of O, U and V in a WEIGHTS step, and what they add up to: its numbers r and s with one denominator."""
    r, s = step[4:]
    at_u, at_v = r.numerator * s.denominator, s.numerator * r.denominator
    whole = r.denominator * s.denominator
    return whole - at_u - at_v, at_u, at_v, whole


def ratio_rows(variable, steps):
    """The lemmas that fit a ratio at its constructed points, as (lemma, point, row), and then lemma 0."""
    _, a, b, c, d = variable
    for other, point, sign in ((a, b, 1), (b, a, -1)):
        for fitting in rows_at(other, point, sign, (c, d), steps[point]):
            yield fitting
    yield 0, None, (difference(b, c, d) - difference(a, c, d), difference(c, d, c), 1)


def rows_at(a, y, sign, below, step):
    """The rows of the ratio AY/CD at Y, with the sign of the way in which it is written; C, D are the points below."""
    kind = step[0]
    if y in below and kind == "INTER":
        _, u, v, p, q = step
        other, turned = (below[0], 1) if below[1] == y else (below[1], -1)
        if other in (u, v):
            yield 21, y, (sign * turned * area(a, p, q), area(other, p, q), 1)
        elif other in (p, q):
            yield 22, y, (sign * turned * area(a, u, v), area(other, u, v), 1)
    elif y not in below and kind == "INTER":
        _, u, v, p, q = step
        if same_pair(below, (u, v)):
            yield 11, y, (sign * sense(below, (u, v)) * area(a, p, q), area(u, p, q) - area(v, p, q), 1)
        if same_pair(below, (p, q)):
            yield 12, y, (sign * sense(below, (p, q)) * area(a, u, v), area(p, u, v) - area(q, u, v), 1)
    elif y not in below and kind == "PRATIO" and same_pair(below, step[2:4]):
        _, w, u, v, r = step
        written = sign * sense(below, (u, v))
        yield 3, y, (written * (r.denominator * ratio(a, w, u, v) + r.numerator), r.denominator, 1)
    elif y not in below and kind == "FOOT" and same_pair(below, step[2:]):
        _, p, u, v = step
        yield 4, y, (sign * sense(below, (u, v)) * (difference(p, u, v) - difference(a, u, v)), difference(u, v, u), 1)


def same_pair(pair, other):
    return sorted(pair) == sorted(other)


def sense(pair, other):
    """1 where both pairs are the same, -1 where one is the other turned round."""
    return 1 if tuple(pair) == tuple(other) else -1


def free_row(variable):
    """The row of an area or a Pythagoras difference of free points."""
    kind, a, b, c = variable
    x, y = (lambda i: variable_of("x", i)), (lambda i: variable_of("y", i))
    if kind == "S":
        cross = x(a) * y(b) - x(a) * y(c) - y(a) * x(b) + y(a) * x(c) + x(b) * y(c) - y(b) * x(c)
        return cross, integer(2), 1
    dot = sum_of(z(a) * z(c) - z(a) * z(b) - z(b) * z(c) + z(b) * z(b) for z in (x, y))
    return 2 * dot, integer(2), 0


def sum_of(polynomials):
    total = integer(0)
    for polynomial in polynomials:
        total = total + polynomial
    return total
