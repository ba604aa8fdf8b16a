"""Constructions of a point: commands that would make it where it is. Each rule looks at what is true of the figure at random numbers.

What a formulation says by a construction is shown at the figure by `cite`, so a rule has to be right about this one figure only; a wrong
one costs time and nothing else."""
# SPDX-License-Identifier: Apache-2.0
from itertools import combinations, permutations

from residues import PRIME, along, dot, inverse, is_right, minus, mirrored, place, square, turned
from canonical import Command

SIMPLE = {("number", -1), ("number", 2), ("div", ("number", 1), ("number", 2))}


def ends_on(r, line, x):
    """Two points of a line other than X, in two places."""
    return [(a, b) for a, b in combinations([p for p in line if p != x], 2) if r.at[a] != r.at[b]]


def by_line(r, x):
    """X on the line of two others."""
    return [("online", t) for line in r.lines_of(x) for t in ends_on(r, line, x)]


def by_circle(r, x):
    """X on a circle around a known centre."""
    return [("oncircle", (o, a)) for o, on in r.circles_of(x) for a in on if a != x]


def by_two_lines(r, x):
    """X on two lines."""
    return [("inter", s + t) for a, b in combinations(r.lines_of(x), 2) for s in ends_on(r, a, x) for t in ends_on(r, b, x)]


def by_foot(r, x):
    """X on a line, below a point whose perpendicular it is on."""
    for line in r.lines_of(x):
        for a, b in ends_on(r, line, x):
            yield from (("foot", (p, a, b)) for p in r.points if p not in line and is_right(r.at[x], r.at[p], r.at[a], r.at[b]))


def by_line_and_circle(r, x):
    """X on a line and a circle that have another known point in common."""
    for line in r.lines_of(x):
        for o, on in r.circles_of(x):
            for a in [p for p in on if p in line and r.at[p] != r.at[x]]:
                yield from (("second", (a, b, o)) for b in line if b not in (a, x) and r.at[a] != r.at[b])


def by_two_circles(r, x):
    """X on two circles that have another known point in common; or this point mirrored in the line of the centres."""
    for (o, on), (p, other) in combinations(r.circles_of(x), 2):
        if r.at[o] != r.at[p]:
            for a in [a for a in on if a in other and r.at[a] != r.at[x]]:
                yield from (("cc", (o, p, a)), ("reflect", (a, o, p)))


def by_vectors(r, x):
    """X by a midpoint, a half-turn or a translation."""
    for a, b in permutations([p for p in r.points if p != x], 2):
        if r.at[a] == r.at[b]:
            continue
        if a < b and r.at[b] == place(*mirrored(r.at[a], r.at[x])):
            yield "midpoint", (a, b)
        if r.at[x] == place(*mirrored(r.at[a], r.at[b])):
            yield "symmetric", (a, b)
        for c in r.there.get(place(*along(r.at[x], 1, minus(r.at[a], r.at[b]))), ()):
            if c not in (x, a, b) and b < c:
                yield "translate", (a, b, c)


def by_ratio(r, x):
    """X on a line, in a simple ratio."""
    for line in r.lines_of(x):
        for a, b in [t for s in ends_on(r, line, x) for t in (s, s[::-1])]:
            u, v = minus(r.at[x], r.at[a]), minus(r.at[b], r.at[a])
            number = r.ratios.get(dot(u, v) * inverse(dot(v, v)) % PRIME)
            if number and number not in SIMPLE:
                yield "lratio", (a, b, number)


def by_quarter(r, x):
    """X by a quarter-turn."""
    for a in r.points:
        for k in (1, -1) if r.at[a] != r.at[x] else ():
            for b in r.there.get(place(*along(r.at[a], -k, turned(minus(r.at[x], r.at[a])))), ()):
                if b not in (x, a):
                    yield "tratio", (a, b, ("number", k))


def by_centre(r, x):
    """X as the centre of a circle through three points."""
    return [("circumcenter", t) for o, on in r.circles if o == x for t in combinations(on, 3) if len({r.at[p] for p in t}) == 3]


def by_altitudes(r, x):
    """X where the altitudes of three others meet."""
    for a, b, c in combinations([p for p in r.points if r.at[p] != r.at[x]], 3):
        if is_right(r.at[x], r.at[a], r.at[b], r.at[c]) and is_right(r.at[x], r.at[b], r.at[a], r.at[c]) and len({r.at[a], r.at[b], r.at[c]}) == 3:
            yield "orthocenter", (a, b, c)


def by_inversion(r, x):
    """X by an inversion."""
    for line in r.lines_of(x):
        for o, p in permutations([p for p in line if p != x], 2):
            if len({r.at[o], r.at[p], r.at[x]}) == 3:
                power = dot(minus(r.at[x], r.at[o]), minus(r.at[p], r.at[o])) % PRIME
                yield from (("inverse", (p, o, a)) for a in r.points if a not in (x, p) and square(r.at[o], r.at[a]) == power)


# The rules, and how much of X each one fixes: one of its two numbers, or both.
RULES = {by_line: 1, by_circle: 1, by_two_lines: 2, by_foot: 2, by_line_and_circle: 2, by_two_circles: 2, by_vectors: 2}
RULES |= {by_ratio: 2, by_quarter: 2, by_centre: 2, by_altitudes: 2, by_inversion: 2}
MOST_OF_A_RULE = 30


def constructions(relations, commands, dice):
    """For each point its constructions, each with how much it fixes; the command of the figure among them."""
    own, made = {c.name: c for c in commands}, {}
    for x in relations.points:
        found = {}
        for rule, fixed in RULES.items():
            some = list(dict.fromkeys(rule(relations, x)))
            some = dice.sample(some, MOST_OF_A_RULE) if len(some) > MOST_OF_A_RULE else some
            found.update({Command(word, x, args): fixed for word, args in some})
        if own[x].word not in ("point", "online", "oncircle"):
            found[own[x]] = 2
        made[x] = found
    return made
