"""Which values a picture is drawn at: the sketch numbers, the sample, or values that this tool chooses for a clear picture."""
# SPDX-License-Identifier: Apache-2.0
import math
import random
from fractions import Fraction

from figure import evaluated
from formulas import NoFigure

TRIANGLE = [(0, 0), (40, 4), (14, 30), (-6, 18), (34, 26), (22, -10), (46, 18), (4, 36)]
NUMBERS = [Fraction(2, 5), Fraction(3, 5), Fraction(3, 2), Fraction(1, 3), Fraction(-1, 2), Fraction(2), Fraction(3, 4)]
TURNS = [Fraction(2), Fraction(-1, 3), Fraction(2, 3), Fraction(-5, 2), Fraction(-1, 4), Fraction(5), Fraction(-6, 5), Fraction(1, 4)]
TRIES, MOST_POINTS = 300, 6000


def sketched(program):
    """The free points' sketch numbers, where each has them."""
    places = [command.sketch for command in program.free()]
    return places if places and all(places) else None


def sampled(log):
    """The values of the log's sample."""
    for line in log:
        if line.startswith("sample"):
            return [Fraction(part.split("=")[1]) for part in line.split()[1:]]
    return None


def meets(program, conditions, values):
    """The figure at these values, or None where they meet none."""
    try:
        figure = evaluated(program, values)
        if any(figure.differs(condition) == 0 for condition in conditions):
            return None
        return figure
    except (NoFigure, ZeroDivisionError, OverflowError):
        return None


def clarity(program, figure):
    """How clear a picture is: the greater the clearer. Two points in one place count against it."""
    points = [(float(x), float(y)) for x, y in figure.points.values()]
    free = [figure.points[command.name] for command in program.free()]
    if len(points) < 2:
        return 1.0
    size, flat = extent(points)
    for command in program.commands:
        if command.word == "oncircle":
            size = max(size, 2 * math.dist(*(figure.points[name] for name in command.args)))
    if not math.isfinite(size) or size == 0:
        return -float(len(points) ** 2)
    apart = [d for d in distances(points) if d > size * 1e-9]
    same = len(points) * (len(points) - 1) // 2 - len(apart)
    near = min(apart, default=0.0) / size
    spread = extent([(float(x), float(y)) for x, y in free])[0] / size if len(free) > 1 else 1.0
    return -same + min(near, 0.16) * 14 + min(flat, 0.5) / 0.5 + min(spread, 0.6) / 0.6


def extent(points):
    """The diagonal of the box around the points, and how square the box is."""
    width = max(x for x, _ in points) - min(x for x, _ in points)
    height = max(y for _, y in points) - min(y for _, y in points)
    return math.hypot(width, height), min(width, height) / max(width, height) if max(width, height) > 0 else 0.0


def distances(points):
    return [math.dist(points[i], points[j]) for i in range(len(points)) for j in range(i)]


def is_clear(figure):
    """Whether no two points are in one place, and the figure is not flat."""
    points = [(float(x), float(y)) for x, y in figure.points.values()]
    size, flat = extent(points)
    return size > 0 and flat > 0.1 and min(distances(points), default=1.0) > size * 0.02


def candidates(program, places):
    """Values to try, always the same ones, each with what speaks for it beside its clarity: the first have the usual triangle. Of a
    figure with many points there are fewer."""
    dice = random.Random(1)
    count = len(program.free())
    for k in range(max(8, min(TRIES, MOST_POINTS // (len(program.points()) + 1)))):
        usual = k < 60 and count <= len(TRIANGLE)
        if places:
            free = places
        elif usual:
            free = TRIANGLE[:count]
        else:
            free = [(dice.randint(-10, 50), dice.randint(-10, 40)) for _ in range(count)]
        numbers = [dice.choice(TURNS if c.word == "oncircle" else NUMBERS) for c in program.valued()]
        yield [Fraction(v) for place in free for v in place] + numbers, 1.5 * usual


def chosen(program, conditions, places, fails):
    """The clearest of the candidates, with the sketched places of the free points where there are any. Where the statement is false,
    one at which it `fails`. None where no candidate is a figure."""
    best, best_clarity = None, -math.inf
    for values, bonus in candidates(program, places):
        figure = meets(program, conditions, [float(v) for v in values])
        if figure is None or (now := clarity(program, figure) + bonus) <= best_clarity:
            continue
        if is_wanted(program, conditions, values, fails):
            best, best_clarity = values, now
            if places and not program.valued():
                break
    return best


def is_wanted(program, conditions, values, fails):
    """Whether these values make a figure, exactly; and one at which the statement fails, where that is wanted."""
    figure = meets(program, conditions, values)
    return figure is not None and not (fails and figure.holds(program.statement))
