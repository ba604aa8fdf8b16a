"""What makes points: a function for each maker of the table `elements`. Each takes the scribe, what is made, and what the row wants."""
# SPDX-License-Identifier: Apache-2.0
from fractions import Fraction

from model import Circle, Combination, Length, Line, Number, Unsaid, expression, sum_of
from scribe import near

CENTERS = {2: "centroid", 3: "circumcenter", 4: "orthocenter"}


def on_line(s, out, a):
    x = s.point("online", out.label, s.two(a), out.place)
    if a.is_segment:
        s.note(f"{x.name} is any point of the whole line, not of the segment alone")
    a.on.add(x)
    return [x]


def on_line_through(s, out, a, b):
    return on_line(s, out, s.line("two", a, b))


def on_segment(s, out, a, b):
    return on_line(s, out, s.line("two", a, b, is_segment=True))


def on_circle(s, out, k):
    x = s.point("oncircle", out.label, [s.center(k), k.through], out.place)
    k.on.add(x)
    return [x]


def on_circle_around(s, out, o, a):
    k = Circle(a, None, o)
    s.curves.append(k)
    return on_circle(s, out, k)


def midpoint(s, out, a, b):
    return [s.point("midpoint", out.label, [a, b], out.place)]


def middle(s, out, line):
    x = s.point("midpoint", out.label, [line.a, line.b], out.place)
    line.on.add(x)
    return [x]


def center_of(s, out, k):
    return [s.alias(out.label, s.center(k))]


def first_end(s, out, line):
    return [s.alias(out.label, line.a)]


def second_end(s, out, line):
    return [s.alias(out.label, line.b)]


def meet(s, out, a, b):
    if a.is_segment or b.is_segment:
        s.note(f"{out.label or 'a meeting point'} is on the whole lines, not on the segments alone")
    return [s.crossing(out.label, a, b, out.place)]


def meet_of_pairs(s, out, a, b, c, d):
    return meet(s, out, s.line("two", a, b), s.line("two", c, d))


def foot(s, out, p, base):
    x = s.point("foot", out.label, [p, *s.two(base)], out.place)
    base.on.add(x)
    return [x]


def line_circle(s, out, a, k, *_):
    """The meeting points of a line and a circle of which one is known."""
    return second_points(s, out, (a, k), "the line and the circle", "second", lambda p: [*s.two(a, p), s.center(k)])


def two_circles(s, out, k, m, *_):
    return second_points(s, out, (k, m), "the two circles", "cc", lambda p: [s.center(k), s.center(m), p])


def line_circle_again(s, out, a, k, p):
    return again(s, out, (a, k), p, "second", lambda: [*s.two(a, p), s.center(k)])


def two_circles_again(s, out, k, m, p):
    return again(s, out, (k, m), p, "cc", lambda: [s.center(k), s.center(m), p])


def again(s, out, curves, p, word, args):
    """The meeting point other than P, which the file says to be on both."""
    for curve in curves:
        if p not in curve.on:
            raise Unsaid(f"that {p.name} is on the line and the circle, or on both circles, is not known by its making")
    x = s.point(word, out.label, args(), out.place)
    return [kept_on(x, curves)]


def kept_on(x, curves):
    for curve in curves:
        curve.on.add(x)
    return x


def second_points(s, out, curves, what, word, args):
    """Of two meeting points one is known, and the other one is made. Which output is which the places in the file tell."""
    common = [p for p in curves[0].on if p in curves[1].on]
    if not common:
        raise Unsaid(f"it needs a square root: no common point of {what} is known")
    common.sort(key=lambda p: p.name)
    places = out.places or [None] * len(out.labels)
    if any(place is None or p.at is None for place in places for p in common):
        raise Unsaid(f"which of the two meeting points it is cannot be told; one is {common[0].name}")
    made = []
    for label, place in zip(out.labels, places):
        old = next((p for p in common if near(place, p.at)), None)
        if old:
            made.append(s.alias(label, old))
        elif len(common) > 1:
            raise Unsaid("it is none of the known common points")
        else:
            x = s.point(word, label, args(common[0]), place)
            s.note(f"{x.name} is the meeting point other than {common[0].name}, in each figure")
            made.append(kept_on(x, curves))
    return made


# what moves points


def moved(s, out, a, u):
    return [sum_point(s, out, sum_of(a).plus(u))]


def moved_by(s, out, a, b, c):
    return [s.point("translate", out.label, [a, b, c], out.place)]


def stretched(s, out, a, r, o):
    return [s.point("lratio", out.label, [o, a, s.factor(r)], out.place)]


def part_of(s, out, a, b, r):
    return [s.point("lratio", out.label, [a, b, s.factor(r)], out.place)]


def turned(s, out, a, r, o):
    quarters = r.quarters()
    if quarters == 0:
        return [s.alias(out.label, a)]
    if quarters == 2:
        return mirrored_at(s, out, a, o)
    return [s.point("tratio", out.label, [o, a, "1" if quarters == 1 else "-1"], out.place)]


def turned_degrees(s, out, a, r, o):
    return turned(s, out, a, Number(r.text, degrees=r.fraction()), o)


def mirrored_at(s, out, a, o):
    return [s.point("symmetric", out.label, [a, o], out.place)]


def mirrored_in(s, out, a, line):
    return [s.point("reflect", out.label, [a, *s.two(line)], out.place)]


def inverted(s, out, a, k):
    return [s.point("inverse", out.label, [a, s.center(k), k.through], out.place)]


def triangle_center(s, out, a, b, c, n):
    word = CENTERS.get(n.about())
    if n.is_slider or not word:
        raise Unsaid(f"the triangle's centre {n.label or n.text}")
    return [s.point(word, out.label, [a, b, c], out.place)]


def centroid_of(s, out, p):
    if len(p.corners) != 3:
        raise Unsaid("the centroid of a polygon with more than three corners")
    return [s.point("centroid", out.label, p.corners, out.place)]


def numbered(things, n):
    """The thing with this number, counted from 0."""
    if n.is_slider or n.about() not in range(len(things)):
        raise Unsaid(f"its number {n.text} is none of the polygon")
    return things[int(n.about())]


def corner(s, out, p, n):
    return [s.alias(out.label, numbered(p.corners, n))]


def length_of(s, out, side):
    return [Length(side.a, side.b)]


def sum_point(s, out, sum_):
    """The point that is a sum of points: its coefficients add up to 1."""
    if sum_.total() != 1:
        raise Unsaid("as a sum of points it depends on the origin of the coordinates")
    parts = sorted(sum_.parts.items(), key=lambda part: -part[1])
    points, weights = [p for p, _ in parts], [r for _, r in parts]
    if len(parts) == 1:
        return s.alias(out.label, points[0])
    word, args = command_of(points, weights)
    return s.point(word, out.label, args, out.place)


def command_of(points, weights):
    """The command for a sum of points, the greatest weight first."""
    if weights == [1, 1, -1]:
        return "translate", [points[2], points[1], points[0]]
    if weights == [Fraction(1, 2)] * 2:
        return "midpoint", points
    if weights == [2, -1]:
        return "symmetric", [points[1], points[0]]
    if len(points) == 2:
        return "lratio", [*points, expression(weights[1])]
    if weights == [Fraction(1, 3)] * 3:
        return "centroid", points
    if len(points) == 3:
        return "weights", [*points, expression(weights[1]), expression(weights[2])]
    raise Unsaid("it is a sum of more than three points")


def vector(s, out, a, b):
    return [Combination({b: Fraction(1)}).plus(Combination({a: Fraction(1)}), -1)]


def line_of_vector(s, u):
    """The line that a vector between two points runs along."""
    if isinstance(u, Line):
        return u
    if sorted(u.parts.values()) != [-1, 1]:
        raise Unsaid("a vector that is not one between two points")
    a, b = sorted(u.parts, key=lambda p: u.parts[p])
    return s.line("two", a, b)
