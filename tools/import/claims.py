"""What statements say: a function for each row of the table `elements` that is one. Each takes the scribe and what the row wants, and
gives the statement in the language's words."""
# SPDX-License-Identifier: Apache-2.0
from model import Circle, Line, Unsaid


def named(word, *points):
    return " ".join([word, *(p.name for p in points)])


def collinear(s, *points):
    return named("collinear", *points)


def concyclic(s, *points):
    return named("concyclic", *points)


def one_point(s, a, b):
    return named("identical", a, b)


def right_angle(s, a, b, c):
    return named("perpendicular", a, b, b, c)


def equal_lengths(s, one, other):
    return named("same_length", one.a, one.b, other.a, other.b)


def equal_circles(s, k, m):
    return named("same_length", s.center(k), k.through, s.center(m), m.through)


def equal_distances(s, o, a, b):
    return named("same_length", o, a, o, b)


def are_parallel(s, a, b):
    return named("parallel", *s.two(a), *s.two(b))


def are_perpendicular(s, a, b):
    return named("perpendicular", *s.two(a), *s.two(b))


def concurrent(s, a, b, c):
    """That the third line goes through the meeting point of the others, which is made where it is not there."""
    x = next((p for p in s.points if p in a.on and p in b.on), None)
    return lies_on_line(s, x or s.crossing("", a, b, None), c)


def lies_on_line(s, x, a):
    if a.kind == "two":
        return named("collinear", a.a, a.b, x)
    if a.kind == "med":
        return named("same_length", x, a.a, x, a.b)
    return named("parallel" if a.kind == "parallel" else "perpendicular", a.a, x, *s.two(a.b))


def lies_on_circle(s, x, k):
    if k.three:
        return named("concyclic", *k.three, x)
    o = s.center(k)
    return named("same_length", o, x, o, k.through)


def lies_on(s, x, curve):
    if not isinstance(curve, Line | Circle):
        raise Unsaid("a point is on a line or a circle alone")
    return lies_on_line(s, x, curve) if isinstance(curve, Line) else lies_on_circle(s, x, curve)
