# SPDX-License-Identifier: Apache-2.0
"""Writing a log (docs/LOG.md). The order is another than the prover's: first all ratios; then, of the points from which no other point of
the polynomial is made, that one goes which stands in the fewest monomials. A cut is made where the coefficients have a common
divisor, and the sample is a figure by chance."""
import math
import random

from polynomials import Polynomial, TooMuch
from rows import free_row, point_row, ratio_rows

HEADER = "geolog 2"
# How many monomials this writer makes in one move.
MOST_PRODUCTS = 100_000
# The most that the absolute coefficients of a line may add up to.
MOST_NORM = 2**127 - 1


def replaced(polynomial, rows):
    """The result of a move that replaces the variables of `rows`: docs/LEMMAS.md, "A move"."""
    powers = {
        monomial: sum(rows[variable][2] * exponent for variable, exponent in monomial if variable in rows)
        for monomial in polynomial.terms
    }
    most = max(powers.values())
    denominator = next(iter(rows.values()))[1]
    total = {}
    products = 0
    for monomial, amount in polynomial.terms.items():
        piece = denominator ** (most - powers[monomial]) * amount
        for variable, exponent in monomial:
            piece = piece * (rows[variable][0] ** exponent if variable in rows else Polynomial({((variable, exponent),): 1}))
        products += len(piece)
        if products > MOST_PRODUCTS:
            raise TooMuch
        for kind, number in piece.terms.items():
            total[kind] = total.get(kind, 0) + number
    result = Polynomial(total)
    if result.norm() > MOST_NORM:
        raise TooMuch
    return result


def has_point(variable, point):
    return variable[0] in "SP" and point in variable[1:]


def next_point(polynomial, program):
    """The constructed point that goes next; None where no area and no difference has one."""
    points = {point for variable in polynomial.variables() if variable[0] in "SP" for point in variable[1:]}
    constructed = {point for point in points if program.steps[point] != ("free",)}
    used = {part for point in constructed for part in program.steps[point][1:] if isinstance(part, int)}
    last = constructed - used
    if not last:
        return None

    def touched(point):
        return sum(any(has_point(variable, point) for variable, _ in monomial) for monomial in polynomial.terms), point

    return min(last, key=touched)


def next_move(polynomial, program):
    """The head of the next move's line and its rows; None where nothing is left to replace."""
    variables = polynomial.variables()
    if variables and variables[0][0] == "R":
        lemma, point, row = next(ratio_rows(variables[0], program.steps))
        at = "" if point is None else f" at {point}"
        name = "R" + ".".join(map(str, variables[0][1:]))
        return f"ratio {name} by {lemma}{at}", {variables[0]: row}
    point = next_point(polynomial, program)
    if point is not None:
        replaced_here = [variable for variable in variables if has_point(variable, point)]
        return f"point {point}", {variable: point_row(variable, point, program.steps[point]) for variable in replaced_here}
    quantities = [variable for variable in variables if variable[0] in "SP"]
    return ("coords", {variable: free_row(variable) for variable in quantities}) if quantities else None


def chain(polynomial, program, lines):
    """Writes a chain behind its header; the polynomial with which it ends."""
    lines.append(f"start : {polynomial}")
    while (move := next_move(polynomial, program)) is not None:
        head, rows = move
        polynomial = replaced(polynomial, rows)
        lines.append(f"{head} : {polynomial}")
        divisor = math.gcd(*polynomial.terms.values()) if polynomial else 1
        if divisor > 1:
            polynomial = Polynomial({monomial: amount // divisor for monomial, amount in polynomial.terms.items()})
            lines.append(f"cut {divisor} : {polynomial}")
    lines.append("end")
    return polynomial


def sample_line(program, ends):
    """Whole numbers for all coordinates and parameters, at which no end of a chain is 0."""
    free = [point for point, step in enumerate(program.steps) if step == ("free",)]
    variables = [(axis, point) for point in free for axis in "xy"] + [("t", k) for k in range(program.numbers)]
    chance = random.Random(1)
    for tries in range(1, 10_000):
        values = {variable: chance.randint(-8 - tries, 8 + tries) for variable in variables}
        if all(end.value(values) for end in ends):
            return "sample" + "".join(f" {kind}{number}={value}" for (kind, number), value in values.items())
    raise TooMuch


def log_of(program):
    """The lines of a log of the program."""
    lines = [HEADER, *(f"| {line}" for line in program.lines)]
    ends = []
    for number, (text, term) in enumerate(program.conditions.items(), 1):
        lines.append(f"condition {number} {text}")
        ends.append(chain(term, program, lines))
        if not ends[-1]:
            return [*lines, f"verdict impossible {number}"]
    verdict = "verdict proved"
    for number, (text, term) in enumerate(program.goals.items(), 1):
        lines.append(f"goal {number} {text}")
        end = chain(term, program, lines)
        if end:
            ends.append(end)
            verdict = f"verdict false {number}"
            break
    return [*lines, sample_line(program, ends), verdict]
