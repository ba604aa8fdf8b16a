"""What makes lines, circles and polygons: a function for each maker of the table `elements`, as in points.py."""
# SPDX-License-Identifier: Apache-2.0
from model import Circle, Length, Line, Number, Out, Polygon, Unsaid, sum_of
from points import line_of_vector, numbered, sum_point


def line(s, out, a, b):
    return [s.line("two", a, b, out.label)]


def segment(s, out, a, b):
    return [s.line("two", a, b, out.label, True)]


def line_along(s, out, a, u):
    return [s.line("parallel", a, line_of_vector(s, u), out.label)]


def parallel(s, out, p, a):
    return [s.line("parallel", p, a, out.label)]


def perpendicular(s, out, p, a):
    return [s.line("perp", p, a, out.label)]


def perpendicular_to(s, out, p, u):
    return perpendicular(s, out, p, line_of_vector(s, u))


def bisector(s, out, a, b):
    return [s.line("med", a, b, out.label)]


def bisector_of(s, out, side):
    return [s.line("med", side.a, side.b, out.label)]


def sides(s, corners, labels):
    """The sides of a polygon, with these labels."""
    labels = [*labels, *[""] * (len(corners) - len(labels))]
    return [s.line("two", a, b, label, True) for a, b, label in zip(corners, corners[1:] + corners[:1], labels)]


def polygon(s, out, *corners):
    corners = list(corners)
    return [Polygon(corners), *sides(s, corners, out.labels[1:])]


def side(s, out, p, n):
    return [numbered(sides(s, p.corners, []), n)]


def square(s, out, a, b, n):
    """A square on AB: of what is made the points are its other corners, the first one opposite to A."""
    if n.is_slider or n.about() != 4:
        raise Unsaid(f"it needs a square root: a regular polygon with {n.about():g} corners")
    outputs = list(zip(out.labels, out.places, out.kinds))[1:]
    new = [Out([label], [place]) for label, place, kind in outputs if kind == "point"]
    new += [Out([""], [None]) for _ in range(2 - len(new))]
    d = s.point("tratio", new[1].label, [a, b, "1"], new[1].place)
    c = s.point("translate", new[0].label, [a, b, d], new[0].place)
    corners = [a, b, c, d]
    rims = iter(sides(s, corners, [label for label, _, kind in outputs if kind != "point"]))
    points = iter([c, d])
    return [Polygon(corners), *(next(points, None) if kind == "point" else next(rims, None) for _, _, kind in outputs)]


def tangent(s, out, p, k):
    if p not in k.on:
        raise Unsaid("it needs a square root: the tangents from a point that is not on the circle")
    return [s.line("perp", p, s.line("two", s.center(k), p), out.label)]


def polar(s, out, p, k):
    """The polar of P is the perpendicular of OP at the inverse point of P."""
    o = s.center(k)
    inverse = s.point("inverse", "I", [p, o, k.through], is_hidden=True)
    return [s.line("perp", inverse, s.line("two", o, p), out.label)]


def given_line(s, out, p, q):
    """A line that is given by its equation, and goes through these places: any line here."""
    s.note(f"{out.label} is given by its equation, and any line here")
    return [s.line("two", s.free("P", p, True), s.free("P", q, True), out.label)]


# circles


def kept(s, k):
    s.curves.append(k)
    return [k]


def circle(s, out, o, a):
    return kept(s, Circle(a, None, o, out.label))


def circle_of_length(s, out, o, length):
    return circle(s, out, o, carried(s, o, length))


def carried(s, o, length):
    """The point that is as far from O as a length says."""
    if isinstance(length, Number):
        if length.degrees is not None:
            raise Unsaid("an angle is no radius")
        a, b = s.length(length)
    elif isinstance(length, Length) or isinstance(length, Line) and length.is_segment:
        a, b = length.a, length.b
    else:
        raise Unsaid("its radius is no length that is known")
    if o in (a, b):
        return b if a is o else a
    return s.point("translate", "T", [a, b, o], is_hidden=True)


def circle_through(s, out, a, b, c):
    def make():
        return s.point("circumcenter", out.center or "O", [a, b, c], is_hidden=not out.center)

    return kept(s, Circle(a, make, None, out.label, (a, b, c)))


def whole(s, out):
    s.note(f"{out.label or 'an arc'} is the whole circle")


def semicircle(s, out, a, b):
    def make():
        return s.point("midpoint", out.center or "O", [a, b], is_hidden=not out.center)

    whole(s, out)
    k = Circle(a, make, None, out.label)
    k.on.add(b)
    return kept(s, k)


def arc(s, out, o, a, b):
    whole(s, out)
    return circle(s, out, o, a)


def arc_through(s, out, a, b, c):
    whole(s, out)
    return circle_through(s, out, a, b, c)


def given_circle(s, out, o, a):
    """A circle that is given by its equation, with its centre and a point of it at these places: any circle here."""
    s.note(f"{out.label} is given by its equation, and any circle here")
    center = s.free(out.center, o) if out.center else s.free("O", o, True)
    return circle(s, out, center, s.free("R", a, True))


# mirrored and moved ones


def ends(s, curve):
    return s.two(curve) if isinstance(curve, Line) else (s.center(curve), curve.through)


def image(s, out, curve, a, b):
    """The line or the circle of the images of its two points."""
    if isinstance(curve, Line):
        return [s.line("two", a, b, out.label, curve.is_segment)]
    return circle(s, out, a, b)


def line_mirrored_at(s, out, curve, o):
    return image(s, out, curve, *(s.point("symmetric", "I", [p, o], is_hidden=True) for p in ends(s, curve)))


def line_mirrored_in(s, out, curve, axis):
    pair = s.two(axis)
    return image(s, out, curve, *(s.point("reflect", "I", [p, *pair], is_hidden=True) for p in ends(s, curve)))


def line_moved(s, out, curve, u):
    return image(s, out, curve, *(sum_point(s, Out([""], []), sum_of(p).plus(u)) for p in ends(s, curve)))


circle_mirrored_at, circle_mirrored_in, circle_moved = line_mirrored_at, line_mirrored_in, line_moved
