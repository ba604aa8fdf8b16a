"""A figure as a TikZ picture."""
# SPDX-License-Identifier: Apache-2.0
import math

import paths  # noqa: F401
from labels import HEIGHT, placed, width_of
from picture import Drawn
from tex import name_tex
from words import split_name

WIDTH, HIGHEST, MARGIN, FARTHEST = 9.0, 7.0, 0.6, 150.0


class Picture:
    """The shapes of a program at a figure, in centimetres."""

    def __init__(self, program, figure):
        drawing = Drawn(program, figure)
        self.drawing = drawing
        left, low, right, high = drawing.box()
        scale = min(WIDTH / (right - left) if right > left else math.inf, HIGHEST / (high - low) if high > low else math.inf)
        self.scale = scale if math.isfinite(scale) else 1.0
        self.corner = (left, low)
        self.size = self.seat((right, high))
        self.spans = [(*(self.seat(drawing.places[name]) for name in sorted(key)), kind) for key, kind in drawing.segments.items()]
        self.spans += [(*ends, kind) for ends, kind in self.lines()]
        self.rounds = [(self.seat((x, y)), r * self.scale, kind) for (x, y, r), kind in drawing.circles.items() if r * self.scale < FARTHEST]
        self.dots = self.grouped()
        points = [(p, (sum(width_of(*split_name(n)) + 0.3 for n in names) - 0.3, HEIGHT)) for p, names in self.dots]
        self.boxes = placed(points, [span[:2] for span in self.spans], [circle[:2] for circle in self.rounds])

    def seat(self, p):
        return ((p[0] - self.corner[0]) * self.scale, (p[1] - self.corner[1]) * self.scale)

    def lines(self):
        """Whole lines, as far as the picture goes and farther."""
        far = sum(self.size) + 2
        for name, kind in self.drawing.endless.items():
            p, v = self.drawing.lines[name]
            length, (x, y) = math.hypot(*v), self.seat(p)
            if length and abs(x) + abs(y) < FARTHEST:
                u = (v[0] / length * far, v[1] / length * far)
                yield ((x - u[0], y - u[1]), (x + u[0], y + u[1])), kind

    def grouped(self):
        """The points; those in one place share a label."""
        groups = {}
        for name, p in self.drawing.places.items():
            x, y = self.seat(p)
            if abs(x) + abs(y) < FARTHEST:
                groups.setdefault((round(x, 2), round(y, 2)), []).append(name)
        return list(groups.items())

    def tex(self):
        corner = (self.size[0] + MARGIN, self.size[1] + MARGIN)
        strong_last = sorted(self.spans, key=lambda span: span[2] == "told")
        labels = [f"\\node at {at(((b[0] + b[2]) / 2, (b[1] + b[3]) / 2))} {{${'='.join(map(name_tex, n))}$}};" for b, (_, n) in zip(self.boxes, self.dots)]
        rows = [
            r"\begin{tikzpicture}[line join=round, fine/.style={gray, line width=.4pt}, told/.style={orange!80!black, line width=1.2pt}]",
            rf"\begin{{scope}}\clip {at((-MARGIN, -MARGIN))} rectangle {at(corner)};",
            *(rf"\draw[{kind}] {at(o)} circle[radius={radius:.3f}];" for o, radius, kind in self.rounds),
            *(rf"\draw[{kind}] {at(a)} -- {at(b)};" for a, b, kind in strong_last),
            r"\end{scope}",
            *(rf"\fill {at(p)} circle[radius=1.4pt];" for p, _ in self.dots),
            *labels,
            r"\end{tikzpicture}",
        ]
        return "\n".join(rows) + "\n"


def at(p):
    return f"({p[0]:.3f},{p[1]:.3f})"
