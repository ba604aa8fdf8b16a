"""The picture of a program at a figure, as SVG."""
# SPDX-License-Identifier: Apache-2.0
import html
import math

from drawing import TOLD, shapes_of
from formulas import NoFigure, functions, helper
from words import split_name

WIDTH, MOST_HEIGHT, MARGIN, FARTHEST = 640.0, 520.0, 50.0, 20000.0
cross, dot, minus = helper("cross"), helper("dot"), helper("minus")


class Drawn:
    """The shapes of a program at a figure, in floating point: segments by their ends, circles, and lines without ends."""

    def __init__(self, program, figure):
        self.places = {name: (float(x), float(y)) for name, (x, y) in figure.points.items()}
        self.lines = {name: tuple((float(x), float(y)) for x, y in line) for name, line in figure.lines.items()}
        self.segments, self.circles, self.endless = {}, {}, {}
        for shape in shapes_of(program):
            getattr(self, shape.kind)(shape.names, shape.style)

    def segment(self, names, style):
        names = list(dict.fromkeys(names))
        pairs = [(a, b) for k, a in enumerate(names) for b in names[k + 1 :]]
        ends = max(pairs, key=lambda pair: math.dist(self.places[pair[0]], self.places[pair[1]]))
        self.segments[frozenset(ends)] = style

    def circle(self, names, style):
        self.keep_circle(self.places[names[0]], self.places[names[1]], style)

    def round(self, names, style):
        """The circle through the first three of these points that make a triangle."""
        for k in range(len(names) - 2):
            a, b, c = (self.places[name] for name in names[k : k + 3])
            v, w = minus(b, a), minus(c, a)
            if abs(cross(v, w)) > 5e-10 * (dot(v, v) + dot(w, w)):
                self.keep_circle(functions()["circumcenter", "command"](a, b, c), a, style)
                return

    def keep_circle(self, center, p, style):
        radius = math.dist(center, p)
        self.circles[round(center[0], 6), round(center[1], 6), round(radius, 6)] = style

    def line(self, names, style):
        self.endless[names[0]] = style

    def box(self):
        """The corners of what is drawn. A circle counts where it is not much larger than the points."""
        xs = [x for x, _ in self.places.values()] or [0.0]
        ys = [y for _, y in self.places.values()] or [0.0]
        size = max(max(xs) - min(xs), max(ys) - min(ys))
        for x, y, radius in self.circles:
            if radius <= size:
                xs += [x - radius, x + radius]
                ys += [y - radius, y + radius]
        return min(xs), min(ys), max(xs), max(ys)

    def view(self):
        """The scale of the picture, its height, and the place in its middle."""
        left, low, right, high = self.box()
        scales = [(WIDTH - 2 * MARGIN) / (right - left)] if right > left else []
        scales += [(MOST_HEIGHT - 2 * MARGIN) / (high - low)] if high > low else []
        scale = min(scales, default=1.0)
        if not 0 < scale < math.inf or not math.isfinite(left + low + right + high):
            raise NoFigure
        return scale, max((high - low) * scale, 60.0) + 2 * MARGIN, (left + right) / 2, (low + high) / 2


def picture(drawn, words):
    """The picture; `words` say it to a reader who does not see it."""
    scale, height, middle_x, middle_y = drawn.view()

    def seat(p):
        return (WIDTH / 2 + (p[0] - middle_x) * scale, height / 2 - (p[1] - middle_y) * scale)

    body = [*circles(drawn, seat, scale), *lines(drawn, seat, height), *segments(drawn, seat), *dots(drawn, seat)]
    return (
        f'<svg viewBox="0 0 {WIDTH:.0f} {height:.0f}" role="img" xmlns="http://www.w3.org/2000/svg">'
        f'<title>{html.escape(words)}</title>{"".join(body)}</svg>'
    )


def label(names):
    """Names for SVG: digits and what stands behind `_` are set lower, and what follows is raised again."""
    text, is_low = "", False
    for name in names:
        if text:
            text += '<tspan dy="-4"> = </tspan>' if is_low else " = "
        stem, low = split_name(name)
        is_low = bool(low)
        text += html.escape(stem) + (f'<tspan class="low" dy="4">{html.escape(low)}</tspan>' if low else "")
    return text


def circles(drawn, seat, scale):
    for (x, y, radius), style in drawn.circles.items():
        cx, cy = seat((x, y))
        if radius * scale < FARTHEST:
            yield f'<circle class="{style}" cx="{cx:.1f}" cy="{cy:.1f}" r="{radius * scale:.1f}"/>'


def lines(drawn, seat, height):
    for name, style in drawn.endless.items():
        p, v = drawn.lines[name]
        length = math.hypot(*v)
        if length == 0:
            continue
        x, y = seat(p)
        u = (v[0] / length, -v[1] / length)
        far = 2 * (WIDTH + height)
        yield f'<line class="{style}" x1="{x - far * u[0]:.1f}" y1="{y - far * u[1]:.1f}" x2="{x + far * u[0]:.1f}" y2="{y + far * u[1]:.1f}"/>'


def segments(drawn, seat):
    for key, style in sorted(drawn.segments.items(), key=lambda item: item[1] == TOLD):
        a, b = (seat(drawn.places[name]) for name in sorted(key))
        yield f'<line class="{style}" x1="{a[0]:.1f}" y1="{a[1]:.1f}" x2="{b[0]:.1f}" y2="{b[1]:.1f}"/>'


def dots(drawn, seat):
    """The points; those in one place share a label, which stands where no line goes."""
    groups = {}
    for name, p in drawn.places.items():
        x, y = seat(p)
        groups.setdefault((round(x, 1), round(y, 1)), []).append(name)
    count = max(len(groups), 1)
    middle = (sum(x for x, _ in groups) / count, sum(y for _, y in groups) / count)
    spans = [tuple(seat(drawn.places[name]) for name in key) for key in drawn.segments]
    labels, marks = [], []
    for (x, y), names in groups.items():
        u = free_direction((x, y), spans, middle)
        anchor = "start" if u[0] > 0.4 else "end" if u[0] < -0.4 else "middle"
        labels.append(f'<text x="{x + 12 * u[0]:.1f}" y="{y + 17 * u[1] + 6:.1f}" text-anchor="{anchor}">{label(names)}</text>')
        marks.append(f'<circle class="dot" cx="{x:.1f}" cy="{y:.1f}" r="3.5"/>')
    return labels + marks


def free_direction(p, spans, middle):
    """The direction from a point, of sixteen, that is farthest from the lines there; else away from the middle of the picture."""
    taken = []
    for a, b in spans:
        for q in (a, b):
            if math.dist(p, q) > 1 and is_near(p, a, b):
                taken.append(math.atan2(q[1] - p[1], q[0] - p[0]))
    away = math.atan2(p[1] - middle[1], p[0] - middle[0]) if math.dist(p, middle) > 1 else -math.pi / 2

    def gap(angle, other):
        return abs(math.remainder(angle - other, 2 * math.pi))

    angles = [k * math.pi / 8 for k in range(16)]
    best = max(angles, key=lambda angle: min([gap(angle, t) for t in taken], default=math.pi) - 0.1 * gap(angle, away))
    return math.cos(best), math.sin(best)


def is_near(p, a, b):
    """Whether a point is on a segment, as far as one sees."""
    v, length = minus(b, a), math.dist(a, b)
    if length == 0:
        return False
    t = dot(minus(p, a), v) / length**2
    return -0.01 <= t <= 1.01 and abs(cross(v, minus(p, a))) / length < 3
