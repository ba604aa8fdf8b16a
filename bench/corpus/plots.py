# SPDX-License-Identifier: Apache-2.0
"""The plot of docs/PERFORMANCE.md: the time of each program against that of the reference, and how many theorems each prover has
proved by a time."""
import csv
import math
from html import escape

WIDTH, HEIGHT = 980, 470
PANELS = {"left": (70, 60, 360, 330), "right": (540, 60, 260, 330)}
VERDICTS = {"proved": "#0072B2", "false": "#D55E00", "impossible": "#009E73"}
PROVERS = {
    "jarduzki": ("Jarduzki", "#0072B2"),
    "singular": ("Singular, slimgb", "#D55E00"),
    "giac": ("giac, gbasis", "#E69F00"),
    "lift": ("Singular, lift", "#CC79A7"),
    "coq": ("Coq, nsatz", "#009E73"),
    "hol": ("HOL Light", "#56B4E9"),
    "z3": ("z3", "#555555"),
}
LEAST, MOST = 1e-3, 10.0
SHORTEST = 0.0002


def rows_of(path):
    """The rows of a table whose comments begin with #."""
    lines = [line for line in path.read_text().splitlines() if not line.startswith("#")] if path.exists() else []
    return list(csv.DictReader(lines, delimiter="\t"))


class Panel:
    """A plot with a logarithmic axis of seconds to the right, and an axis upwards."""

    def __init__(self, place, across, up):
        self.left, self.top, self.width, self.height = PANELS[place]
        self.across, self.up = across, up
        self.parts = []

    def x(self, value):
        return self.left + self.width * self.across(value)

    def y(self, value):
        return self.top + self.height * (1 - self.up(value))

    def text(self, x, y, words, more=""):
        self.parts.append(f'<text x="{x:.1f}" y="{y:.1f}" {more}>{escape(words)}</text>')

    def line(self, x1, y1, x2, y2, more):
        self.parts.append(f'<line x1="{x1:.1f}" y1="{y1:.1f}" x2="{x2:.1f}" y2="{y2:.1f}" {more}/>')

    def ticks_across(self, values, label):
        for value, words in values:
            self.line(self.x(value), self.top, self.x(value), self.top + self.height, 'stroke="#dddddd"')
            self.text(self.x(value), self.top + self.height + 18, words, 'text-anchor="middle"')
        self.text(self.left + self.width / 2, self.top + self.height + 42, label, 'text-anchor="middle"')

    def ticks_up(self, values, label):
        for value, words in values:
            self.line(self.left, self.y(value), self.left + self.width, self.y(value), 'stroke="#dddddd"')
            self.text(self.left - 8, self.y(value) + 4, words, 'text-anchor="end"')
        middle = self.top + self.height / 2
        self.text(0, 0, label, f'text-anchor="middle" transform="translate({self.left - 50} {middle:.1f}) rotate(-90)"')

    def head(self, words):
        self.text(self.left, self.top - 22, words, 'font-weight="bold"')

    def frame(self):
        self.parts.append(f'<rect x="{self.left}" y="{self.top}" width="{self.width}" height="{self.height}" fill="none" stroke="#333333"/>')


def logarithmic(least, most):
    return lambda value: (math.log10(value) - math.log10(least)) / (math.log10(most) - math.log10(least))


def spoken(value):
    """A time as the axes have it."""
    return f"{value * 1000:g} ms" if value < 1 else f"{value:g} s"


def decades(least, most):
    exponents = range(math.ceil(math.log10(least) - 1e-9), math.floor(math.log10(most) + 1e-9) + 1)
    return [(10.0**k, spoken(10.0**k)) for k in exponents]


def scatter(rows):
    """The programs with a verdict, by the time of the reference and of the prover."""
    points = [(max(float(row["reference"]), SHORTEST), max(float(row["seconds"]), SHORTEST), row["verdict"], row["program"])
              for row in rows if row["reference"] != "-" and row["verdict"] in VERDICTS]
    top = 10 ** math.ceil(math.log10(max((max(x, y) for x, y, _, _ in points), default=1)) + 1e-9)
    axis = logarithmic(SHORTEST / 1.3, top)
    panel = Panel("left", axis, axis)
    panel.head(f"Time of {len(points)} programs against the reference")
    ticks = decades(SHORTEST, top)
    panel.ticks_across(ticks, "the plain reference, which is not proved")
    panel.ticks_up(ticks, "the proved program")
    for factor, words in ((1, "as long"), (2, "twice as long")):
        end = top / factor
        panel.line(panel.x(SHORTEST), panel.y(SHORTEST * factor), panel.x(end), panel.y(top), 'stroke="#888888" stroke-dasharray="4 3"')
        panel.text(panel.x(end) - 8, panel.y(top) + (28 if factor == 1 else 14), words, 'text-anchor="end" fill="#555555" font-size="11"')
    for x, y, verdict, name in points:
        place = f'cx="{panel.x(x):.1f}" cy="{panel.y(y):.1f}" r="2.6"'
        panel.parts.append(f'<circle {place} fill="{VERDICTS[verdict]}" fill-opacity="0.55"><title>{escape(name)}</title></circle>')
    for k, (verdict, color) in enumerate(VERDICTS.items()):
        y = panel.top + panel.height - 48 + 16 * k
        panel.parts.append(f'<circle cx="{panel.left + panel.width - 90}" cy="{y - 4}" r="4" fill="{color}"/>')
        panel.text(panel.left + panel.width - 80, y, verdict)
    panel.frame()
    return panel


def least_times(rows):
    """How many theorems there are; and of each prover that was measured on all of them, the times of those that it proves, each in the
    quicker frame, the shortest first."""
    others = {row["theorem"] for row in rows if row["prover"] == "jarduzki" and row["result"] in ("false", "impossible")}
    theorems = {row["theorem"] for row in rows} - others
    asked, best = {prover: set() for prover in PROVERS}, {}
    for row in rows:
        if row["theorem"] in theorems:
            asked[row["prover"]].add(row["theorem"])
            if row["result"] == "proved":
                key = row["prover"], row["theorem"]
                best[key] = min(best.get(key, math.inf), float(row["seconds"]))
    whole = [prover for prover in PROVERS if asked[prover] == theorems]
    return len(theorems), {prover: sorted(time for (who, _), time in best.items() if who == prover) for prover in whole}


def steps(panel, times):
    """The line that goes up by one at each time."""
    points = [(panel.left, panel.y(0))]
    for k, time in enumerate(times):
        x = panel.x(min(max(time, LEAST), MOST))
        points += [(x, panel.y(k)), (x, panel.y(k + 1))]
    points.append((panel.left + panel.width, panel.y(len(times))))
    return " ".join(f"{x:.1f},{y:.1f}" for x, y in points)


def spread(places, least):
    """The places from above, moved down where two are nearer than `least`."""
    moved = []
    for place in places:
        moved.append(max(place, moved[-1] + least) if moved else place)
    return moved


def cactus(rows):
    """How many theorems each prover has proved by a time."""
    count, times = least_times(rows)
    panel = Panel("right", logarithmic(LEAST, MOST), lambda value: value / max(count, 1))
    panel.head(f"Theorems proved by a time, of {count}")
    panel.ticks_across(decades(LEAST, MOST), "processor time without the start, at least 1 ms")
    panel.ticks_up([(value, str(value)) for value in range(0, count + 1, 10)], "theorems")
    present = sorted((prover for prover in times if times[prover]), key=lambda prover: -len(times[prover]))
    heights = spread([panel.y(len(times[prover])) for prover in present], 16)
    for prover, height in zip(present, heights):
        title, color = PROVERS[prover]
        wide = 3 if prover == "jarduzki" else 1.8
        panel.parts.append(f'<polyline points="{steps(panel, times[prover])}" fill="none" stroke="{color}" stroke-width="{wide}"/>')
        panel.text(panel.left + panel.width + 8, height + 4, f"{title}: {len(times[prover])}", f'fill="{color}"')
    panel.frame()
    return panel


def figure(table, peers):
    """The plot as SVG."""
    panels = [scatter(rows_of(table)), cactus(rows_of(peers))]
    head = f'<svg xmlns="http://www.w3.org/2000/svg" viewBox="0 0 {WIDTH} {HEIGHT}" width="{WIDTH}" height="{HEIGHT}"'
    lines = [head + ' font-family="sans-serif" font-size="12">', "<!-- SPDX-License-Identifier: Apache-2.0 -->",
             f'<rect width="{WIDTH}" height="{HEIGHT}" fill="white"/>']
    for panel in panels:
        lines += panel.parts
    return "\n".join([*lines, "</svg>"]) + "\n"
