"""Which theorems of the library have an instance among the points of a figure: candidates, found in floating point at one placement.
Whether they can be cited is for the program to say."""
# SPDX-License-Identifier: Apache-2.0
import math
import random

from formulas import NoFigure, helper
from language import Statement
from page import Page
from subjects import shared
from values import meets
from words import condition_html, statement_html

LIBRARY = shared("examples") / "library"
MOST, MOST_OF_ONE, MOST_NODES = 60, 6, 300_000
cross, dot, minus = helper("cross"), helper("dot"), helper("minus")
ASSUMED = ("different", "not_collinear", "not_parallel")


def theorems():
    for log in sorted(LIBRARY.glob("*.log")):
        source = log.with_suffix(".geo").read_text()
        yield log, Page(log.name, source, log.read_text().splitlines(), [], "")


def placement(page):
    """The figure at a random placement, with no point in the place of another but where that is always so."""
    dice = random.Random(7)
    count = 2 * len(page.program.free())
    for _ in range(50):
        values = [dice.uniform(-10, 10) for _ in range(count)] + [dice.uniform(0.2, 2) for _ in page.program.valued()]
        figure = meets(page.program, page.conditions, values)
        if figure:
            return figure
    return None


class Search:
    """Gives the points of a theorem names of the figure, command by command."""

    def __init__(self, figure):
        self.figure = figure
        self.size = max((abs(c) for p in figure.points.values() for c in p), default=1.0)
        self.nodes = 0

    def is_near(self, a, b):
        return abs(a - b) <= 1e-7 * max(1.0, abs(a), abs(b))

    def choices(self, command, names):
        """The names that the new point or number of a command may have."""
        points, word = self.figure.points, command.word
        if word == "param":
            return list(self.figure.numbers)
        behind = [points[names[a]] for a in command.args if isinstance(a, str)]
        if word == "point":
            return list(points)
        if word == "online":
            a, v = behind[0], minus(behind[1], behind[0])
            return [n for n, p in points.items() if abs(cross(v, minus(p, a))) <= 1e-9 * max(1.0, dot(v, v))]
        if word == "oncircle":
            radius = math.dist(*behind)
            return [n for n, p in points.items() if self.is_near(math.dist(p, behind[0]), radius)]
        place = self.figure.evaluated("command", word, [renamed(a, names) for a in command.args])
        return [n for n, p in points.items() if math.dist(p, place) <= 1e-7 * self.size]

    def found(self, commands, names):
        self.nodes += 1
        if self.nodes > MOST_NODES:
            return
        if not commands:
            yield dict(names)
            return
        first, rest = commands[0], commands[1:]
        if first.word == "assume":
            yield from self.found(rest, names)
            return
        try:
            choices = self.choices(first, names)
        except (NoFigure, ZeroDivisionError, OverflowError):
            return
        for name in choices:
            if name not in names.values():
                yield from self.found(rest, {**names, first.name: name})


def renamed(e, names):
    """An expression, statement or condition with other names."""
    if isinstance(e, Statement):
        return Statement(e.word, [renamed(a, names) for a in e.args])
    if isinstance(e, str):
        return names.get(e, e)
    return e if e[0] == "number" else (e[0], *(renamed(part, names) for part in e[1:]))


def text(e):
    """As the program writes it."""
    if isinstance(e, Statement):
        braced = e.word in ("equal", "nonzero")
        return " ".join([e.word, *(f"{{ {text(a)} }}" if braced else a for a in e.args)])
    if e[0] in ("number", "name"):
        return str(e[1])
    braced = e[0] in ("neg", "sum", "sub", "mult", "div")
    return " ".join([e[0], *(f"{{ {text(a)} }}" if braced else a for a in e[1:])])


def candidates(page):
    """Citations to try: the program's own statement first, then those that assume the least; each statement of a theorem once."""
    figure = placement(page)
    if figure is None:
        return []
    listed = []
    for log, theorem in theorems():
        sets, search = set(), Search(figure)
        for names in search.found(theorem.program.commands, {}):
            if len(sets) == MOST_OF_ONE:
                break
            if frozenset(names.values()) not in sets:
                sets.add(frozenset(names.values()))
                listed.append(citation(page, log.stem, theorem, names))
    listed.sort(key=lambda one: (not one["own"], len(one["missing"])))
    once = {}
    for one in listed:
        once.setdefault((one["title"], one["html"]), one)
    return list(once.values())[:MOST]


def citation(page, log, theorem, names):
    """What is asked of the program, and what the page tells of it. Conditions that the figure lacks are assumed."""
    known = {text(c) for c in page.conditions}
    commands = page.canonical[: page.canonical.rindex("prove {")]
    missing = [c for c in (renamed(c, names) for c in theorem.conditions) if c.word in ASSUMED and text(c) not in known]
    statement = renamed(theorem.program.statement, names)
    tail = "".join(f"assume {text(c)}\n" for c in missing) + f"prove {{ {text(statement)} }}\n"
    return {
        "log": log,
        "with": " ".join(names[c.name] for c in theorem.program.commands if c.is_point or c.word == "param"),
        "program": commands + tail,
        "tail": tail,
        "title": theorem.title(),
        "html": statement_html(statement),
        "missing": [condition_html(c) for c in missing],
        "own": text(statement) == text(page.program.statement),
    }
