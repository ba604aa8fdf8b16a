"""What a drawing shows: a made point that lies on a line or a circle which it was not made for. That is a guess, for the prover to decide."""
# SPDX-License-Identifier: Apache-2.0
import math

from claims import lies_on
from model import Line
from scribe import CLOSE, near

MOST_LOOKED_AT = 600
MOST_SHOWN = 20


def shown_by(s):
    """The statements, as functions that make them; what was drawn last comes first, since that is what it was drawn for."""
    size = extent([p.at for p in s.points if p.at])
    if max(len(s.points), len(s.curves)) > MOST_LOOKED_AT or not size:
        return
    spread(s)
    count = 0
    for curve in reversed(s.curves):
        for x in reversed([p for p in s.points if may_tell(p, curve)]):
            if is_at(s, x, curve, size):
                yield lambda x=x, curve=curve: lies_on(s, x, curve)
                count += 1
                if count == MOST_SHOWN:
                    return


def extent(places):
    """How large the figure is: the diagonal of its box."""
    if not places:
        return 0.0
    xs, ys = [x for x, _ in places], [y for _, y in places]
    return math.hypot(max(xs) - min(xs), max(ys) - min(ys))


def may_tell(x, curve):
    """Whether it would tell something that this point is on this curve: it is made, and lies apart from the curve's own points."""
    if x.at is None or x.is_free or x.is_hidden or x in curve.on:
        return False
    return not any(y.at and near(x.at, y.at) for y in curve.on)


def spread(s):
    """Puts each point on the lines that it is on by its own making."""
    lines = [curve for curve in s.curves if isinstance(curve, Line)]
    for x in s.points:
        word, p = x.made
        pairs = own_pairs(word, p)
        for line in lines:
            if any(set(pair) <= line.on for pair in pairs) or word == "midpoint" and line.kind == "med" and {line.a, line.b} == set(p):
                line.on.add(x)


def own_pairs(word, p):
    if word == "inter":
        return [p[:2], p[2:]]
    if word == "foot":
        return [p[1:]]
    return [p[:2]] if word in ("midpoint", "online", "lratio", "symmetric", "second") else []


def is_at(s, x, curve, size):
    try:
        return at_line(x.at, curve, size) if isinstance(curve, Line) else at_circle(s, x, curve, size)
    except (TypeError, ArithmeticError):
        return False


def at_line(at, line, size):
    p, v = line.place()
    length = math.hypot(*v)
    return length > CLOSE * size and abs(v[0] * (at[1] - p[1]) - v[1] * (at[0] - p[0])) / length < CLOSE * size


def at_circle(s, x, k, size):
    o = k.center.at if k.center else s.reckon("circumcenter", list(k.three)) if k.three else None
    if x is k.center or None in (o, k.through.at):
        return False
    return abs(math.dist(x.at, o) - math.dist(k.through.at, o)) < CLOSE * size
