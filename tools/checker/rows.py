"""The rows of the lemma table at a program's steps (docs/LEMMAS.md): what stands for a variable, and over which denominator."""
# SPDX-License-Identifier: Apache-2.0
from pages import FREE_ROWS, POINT_ROWS, RATIO_ROWS
from polynomials import AREA, DIFFERENCE, area, difference, integer, points_of, times


def letters_of(row, step):
    """What the letters of a step are: its points, and n, d, m and e of its numbers."""
    letters = dict(zip(row.letters, step[1:]))
    for number, (num, den) in (("r", "nd"), ("s", "me")):
        if number in letters:
            letters[num], letters[den] = letters[number]
    return letters


def point_row(step, name, y):
    """The numerator and the power of an area or a difference with the point y, and the denominator."""
    rows = POINT_ROWS[step[0]]
    if name[0] == AREA:
        k = name[1:].index(y)
        a, b = name[1 + (k + 1) % 3], name[1 + (k + 2) % 3]
        kind, quantity = "area", area
    else:
        a, b, c = name[1:]
        if b != y and a != c:
            a = c if a == y else a
            kind, quantity = "linear difference", difference
        else:
            a, b = (a, c) if b == y else (b, b)
            kind, quantity = "quadratic", difference
    row = rows.get(kind) or rows["linear"]
    letters = {**letters_of(row, step), "A": a, "B": b}
    return row.num.at(letters, lambda point: quantity(a, b, point)), row.power, row.den.at(letters)


def rows_at(program, polynomial_variables, y):
    """The rows of all areas and differences with the point y, and their denominator."""
    step, rows, den = program.steps[y], {}, integer(1)
    for name in polynomial_variables:
        if name[0] in (AREA, DIFFERENCE) and y in points_of(name):
            num, power, den = point_row(step, name, y)
            rows[name] = num, power
    return rows, den


def free_rows(program, polynomial_variables):
    """The rows of all areas and differences of free points; their denominator is 2."""
    rows = {}
    for name in polynomial_variables:
        if name[0] in (AREA, DIFFERENCE) and set(points_of(name)) <= set(program.free):
            row = FREE_ROWS["S" if name[0] == AREA else "P"]
            rows[name] = row.num.at(dict(zip("ABC", points_of(name)))), row.power
    return rows


def other_end(a, b, y):
    """The sign and the point A with which the pair a, b is A, Y."""
    return (1, a) if b == y else (-1, b) if a == y else None


def ratio_row(program, name, lemma, y):
    """The numerator and the denominator of a ratio by a lemma at y, or None where none fits."""
    kind, row = RATIO_ROWS.get(lemma, (None, None))
    a, b, c, d = points_of(name)
    if row is None:
        return None
    if lemma == 0:
        letters = dict(zip("ABCD", (a, b, c, d)))
        return row.num.at(letters), row.den.at(letters)
    if y >= len(program.steps) or program.steps[y][0] != kind or not other_end(a, b, y):
        return None
    sign, left = other_end(a, b, y)
    letters = {**letters_of(row, program.steps[y]), "A": left}
    form, ends = row.form
    if form.endswith("/DY"):
        fits = other_end(c, d, y)
        if not fits or fits[1] not in [letters[end] for end in ends]:
            return None
        letters["D"] = fits[1]
        sign *= fits[0]
    else:
        if y in (c, d):
            return None
        first, second = (letters[letter] for letter in form[-2:])
        if (c, d) == (second, first):
            sign = -sign
        elif (c, d) != (first, second):
            return None
    return times(integer(sign), row.num.at(letters)), row.den.at(letters)
