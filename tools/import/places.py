"""Where commands put points and lines, in floating point, by the figures of tools/page; None where there is no such place."""
# SPDX-License-Identifier: Apache-2.0
import math

import paths  # noqa: F401
from figure import Figure, NoFigure
from language import Command


def added(command, points, lines):
    """The figure of these points and lines with what the command makes; None where there is none."""
    figure = Figure()
    figure.points.update(points)
    figure.lines.update(lines)
    try:
        figure.add(command, None)
    except (NoFigure, ArithmeticError, ValueError, TypeError):
        return None
    return figure


def point_place(word, places, numbers):
    """Where a command with these points and numbers puts its point."""
    points = {f"P{k}": place for k, place in enumerate(places)}
    figure = added(Command(word, "X", [*points, *(("number", number) for number in numbers)]), points, {})
    return finite(figure and figure.points["X"])


def line_place(kind, a, b):
    """A point and the direction of a line by two points, a "med" of two points, or a "parallel" or "perp" of a point and a line's place."""
    if a is None or b is None:
        return None
    if kind in ("line", "med"):
        figure = added(Command(kind, "l", ["A", "B"]), {"A": a, "B": b}, {})
    else:
        figure = added(Command(kind, "l", ["A", "b"]), {"A": a}, {"b": b})
    return figure and figure.lines["l"]


def meet_place(one, other):
    """Where two lines meet, each a point and a direction."""
    if one is None or other is None:
        return None
    figure = added(Command("intersec", "X", ["a", "b"]), {}, {"a": one, "b": other})
    return finite(figure and figure.points["X"])


def finite(place):
    """A place of two finite numbers, else None."""
    if not place:
        return None
    place = tuple(float(x) for x in place)
    return place if all(map(math.isfinite, place)) else None
