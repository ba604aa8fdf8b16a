"""How heavy a formulation is for the prover, by what was seen of its time: by its constructions, and by the degrees of its points in the
free numbers. Some that one of both finds heavy are proved at once."""
# SPDX-License-Identifier: Apache-2.0
from math import log

from canonical import conditions, names_in

# The weights of constructions.
WEIGHT = {"point": 4, "param": 0, "online": 1, "oncircle": 2.5, "midpoint": 1, "translate": 1, "symmetric": 1, "lratio": 1, "pratio": 1.5}
WEIGHT |= {"tratio": 1, "weights": 3, "centroid": 1.5, "inverse": 2, "foot": 2.5, "inter": 3, "second": 3, "reflect": 3, "cc": 3.5}
WEIGHT |= {"circumcenter": 6, "orthocenter": 6}
# What the degree of a constructed point is: how often that of each of its points, and how much more.
DEGREES = {"online": ((1, 1), 1), "oncircle": ((1, 1), 2), "inter": ((1, 1, 1, 1), 2), "foot": ((1, 2, 2), 2), "reflect": ((1, 2, 2), 2)}
DEGREES |= {"cc": ((2, 2, 1), 2), "second": ((2, 2, 1), 2), "inverse": ((2, 2, 2), 2)}
DEGREES |= {"circumcenter": ((2, 2, 2), 2), "orthocenter": ((2, 2, 2), 2)}


def degrees(form):
    """The degree of each point's denominator, as it comes of its construction; the numerators have one more."""
    found = {}
    for c in form:
        factors, more = DEGREES.get(c.word, ((1,) * len(c.args), 0))
        points = [found.get(x, 0) for x in c.args if isinstance(x, str)]
        numbers = sum(found.get(x, 0) + 1 for a in c.args if not isinstance(a, str) for x in names_in([a]))
        found[c.name] = sum(f * d for f, d in zip(factors, points)) + more + numbers
    return found


def weight(form):
    """A formulation is light where its constructions are."""
    return sum(WEIGHT[c.word] for c in form)


def degree(form, statement):
    """A formulation is light where its statement and its conditions have low degrees, and where few of its points are free."""
    known = degrees(form)
    asked = [statement.args, *(c[1:] for c in conditions(form, statement) if c[0] != "nonzero")]
    sum_of_all = sum(known.get(x, 0) + 1 for args in asked for x in names_in(args))
    return 10 * log(sum_of_all) + 4 * sum(c.word == "point" for c in form) + len(form)
