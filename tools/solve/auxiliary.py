"""Auxiliary points: each rule gives commands that may stand behind a program. A command makes its point wherever its conditions hold, and
the answer has these."""
# SPDX-License-Identifier: Apache-2.0
from itertools import combinations, product

from constructions import by_foot, by_line_and_circle, by_ratio, by_two_circles, by_two_lines, by_vectors
from residues import NoFigure, Residue, place
from figure import Figure
from canonical import names_in

ONE = ("number", 1)


def middles(ground, facts):
    """Midpoints of two points that a command or the statement names beside each other."""
    words = ("circumcenter", "orthocenter", "centroid", "foot", "oncircle")
    for args in [c.args for c in ground.commands if c.word in words] + [ground.statement.args]:
        points = [x for x in dict.fromkeys(names_in(args)) if x in ground.at]
        yield from (("midpoint", t) for t in combinations(points, 2))


def triangle(ground, facts):
    """The circumcenter, the orthocenter and the feet of the altitudes of a triangle that has a centre, of the first three points of a circle,
    and of the first free points."""
    found, on = [c.args for c in ground.commands if c.word in ("circumcenter", "orthocenter")], {}
    for c in ground.commands:
        if c.word == "oncircle":
            on.setdefault(c.args[0], [c.args[1]]).append(c.name)
    first = [points[:3] for points in (*on.values(), [c.name for c in ground.commands if c.word == "point"])]
    for a, b, c in dict.fromkeys(found + [tuple(three) for three in first if len(three) == 3]):
        yield from (("circumcenter", (a, b, c)), ("orthocenter", (a, b, c)), ("foot", (a, b, c)), ("foot", (b, c, a)), ("foot", (c, a, b)))


def touching(ground, facts):
    """Where a reflection X of A in PQ made PQ a bisector: the feet of the perpendiculars from Q to both arms, also where a point is there.
    And points of the tangents at feet."""
    for c in ground.commands:
        if c.word == "reflect":
            yield from (("foot", (c.args[2], c.args[1], arm), True) for arm in (c.name, c.args[0]))
        if c.word == "foot":
            yield "tratio", (c.name, c.args[0], ONE)


def perpendiculars(ground, facts):
    """A perpendicular to AB through P without its foot: B turned a quarter about A, and moved from A to P. So the line has low degrees."""
    for sides in facts.known.directions:
        for p, q in product(*(sorted(map(sorted, side)) for side in sides)):
            yield from (("tratio", (*line, ONE), x) for points, line in ((p, q), (q, p)) for x in points if x not in line)


def mirrors(ground, facts):
    """Where two points are mirrored in one line: the point of it that is on the line of both, and so on the line of the images; by that of
    the two which the program has. And the midpoints of points and their images."""
    for one, other in combinations([c for c in ground.commands if c.word == "reflect"], 2):
        if one.args[1:] == other.args[1:]:
            images = (one.name, other.name)
            yield "inter", (*one.args[1:], *(images if frozenset(images) in facts.pairs else (one.args[0], other.args[0])))
    yield from (("midpoint", (c.args[0], c.name)) for c in ground.commands if c.word == "reflect")


def chords(ground, facts):
    """The midpoints of chords, as feet: the second point of a line on a circle is the first one mirrored in it."""
    yield from (("foot", (c.args[2], *c.args[:2])) for c in ground.commands if c.word == "second")


def again(ground, facts):
    """A point of the statement again, by another construction: it is proved of this one, and carried over."""
    rules = (by_vectors, by_line_and_circle, by_two_lines, by_foot, by_ratio, by_two_circles)
    for x in dict.fromkeys(names_in(ground.statement.args)):
        if x in ground.at:
            yield from ((*construction, True) for rule in rules for construction in rule(facts, x))


# What smaller statements and the rounds of the search take, and how many points at most.
FOR_SMALLER = [((), 0), ((triangle,), 6), ((triangle, middles), 8), ((touching,), 12)]
POOLS = [((), 0), ((mirrors, chords), 6), ((middles,), 6), ((touching,), 12), ((triangle,), 6), ((again,), 3)]
POOLS += [((triangle, middles), 8), ((triangle, again), 8), ((perpendiculars, touching), 6)]


def pool(ground, rules, most):
    """Auxiliary commands of these rules, chosen at random, about so many; none at a place where a point is, if it is not to be there again."""
    facts, dice, found = ground.relations(), ground.dice, []
    offers = []
    for rule in rules:
        some = list(dict.fromkeys(rule(ground, facts)))
        offers += dice.sample(some, min(len(some), 3 * most))
    dice.shuffle(offers)
    figure, there = Figure(), set(ground.at.values())
    figure.points, figure.numbers = dict(ground.real.points), ground.real.numbers
    for word, args, *more in offers:
        for command in with_next(ground, word, args, more) if len(found) < most else ():
            if command not in found and command not in ground.commands:
                if not has_place(figure, command, there, more == [True]):
                    break
                found.append(command)
    return found


def with_next(ground, word, args, more):
    """The command of an offer. Behind some feet stands a quarter-turn, and behind the quarter-turn of a perpendicular its other point."""
    first = ground.names.command(word, *args)
    yield first
    if word == "foot" and not more and ground.dice.random() < 0.5:
        yield ground.names.command("tratio", first.name, args[1], ONE)
    if word == "tratio" and more and first.name not in more:
        yield ground.names.command("translate", args[0], first.name, *more)


def has_place(figure, command, there, twice):
    """Makes the point of a command, where there is one."""
    try:
        figure.add(command, Residue(0))
    except NoFigure:
        return False
    where = place(*figure.points[command.name])
    if where in there and not twice:
        return False
    there.add(where)
    return True
