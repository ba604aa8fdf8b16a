"""The program that a figure makes: points, parameters and declared lines, each as a command of docs/LANGUAGE.md.

A reader asks a Scribe for the objects of its file, one after another; what the language cannot say raises Unsaid with the reason.
"""
# SPDX-License-Identifier: Apache-2.0
import math
import re
from dataclasses import dataclass
from fractions import Fraction

from model import Line, Point, Unsaid, expression
from names import Names
from places import meet_place, point_place

CLOSE = 1e-6


@dataclass
class Written:
    """A command: its word, the new name, what stands behind, where it comes from, and where a free point is."""

    word: str
    name: str
    args: list
    source: str
    at: tuple | None = None

    def text(self, scale):
        sketch = [str(round(scale * x)) for x in self.at] if self.at and max(map(abs, self.at)) * scale < 1e9 else []
        return " ".join([self.word, self.name, *self.args, *sketch])

    def names(self):
        """The names that the command wants."""
        return [word for arg in self.args for word in arg.split() if word[0].isalpha()]


class Scribe:
    def __init__(self):
        self.commands = []
        self.names = Names()
        self.notes = []
        self.points = []
        self.curves = []
        self.made = {}
        self.source = ""

    # what is written

    def note(self, text):
        if text not in self.notes:
            self.notes.append(text)

    def write(self, word, name, args, at=None, source=None):
        self.commands.append(Written(word, name, [named(a) for a in args], source or self.source, at))

    def point(self, word, label, args, at=None, is_hidden=False):
        """A constructed point. `at` is where the file has it: it has to be where the command puts it. A hidden one that is made already
        is not made again."""
        texts = [named(a) for a in args]
        made = (word, *(sorted(texts) if word == "midpoint" else texts))
        if is_hidden and made in self.made:
            return self.made[made]
        computed = self.reckon(word, args) if word not in ("online", "oncircle", "intersec") else None
        if computed and at and not near(computed, at):
            raise Unsaid(f"the file has it at {shown(at)}, and '{word}' would put it at {shown(computed)}")
        name = self.names.fresh(label) if is_hidden else self.names.new(label)
        self.write(word, name, args)
        x = Point(name, at or computed, False, is_hidden, (word, tuple(a for a in args if isinstance(a, Point))))
        self.made.setdefault(made, x)
        self.points.append(x)
        return x

    def reckon(self, word, args):
        """Where the command puts its point, by the places of its points."""
        places = [a.at for a in args if isinstance(a, Point)]
        numbers = [constant(a) for a in args if not isinstance(a, Point)]
        if any(p is None for p in places) or any(n is None for n in numbers):
            return None
        return point_place(word, places, numbers)

    def free(self, label, at, is_hidden=False):
        name = self.names.fresh(label) if is_hidden else self.names.new(label)
        self.write("point", name, [], at)
        x = Point(name, at, True, is_hidden)
        self.points.append(x)
        return x

    def factor(self, number):
        """A number as the expression of a step; a slider is a parameter."""
        if not number.is_slider or number.degrees is not None:
            return expression(number.fraction())
        if number.name is None:
            number.name = self.names.new(number.label)
            self.write("param", number.name, [])
        return number.name

    def length(self, number):
        """Two points that have this number as their distance: it is any number here."""
        if number.ends is None:
            self.note(f"the number {number.label or number.text} is any length here")
            ends = (0.0, 0.0), (abs(number.about()) or 1.0, 0.0)
            number.ends = tuple(self.free("R", end, True) for end in ends)
        return number.ends

    def alias(self, label, point):
        if label and label != point.name:
            self.note(f"{label} is the point {point.name}")
        return point

    # lines

    def line(self, kind, a, b, label="", is_segment=False):
        if kind in ("two", "med") and a is b:
            raise Unsaid("a line wants two points")
        line = Line(kind, a, b, label, self.source, is_segment=is_segment)
        self.curves.append(line)
        return line

    def declared(self, line):
        """The name of a line, which is declared now if it is not yet."""
        if line.name is None:
            base = self.declared(line.b) if isinstance(line.b, Line) else line.b.name
            line.name = self.names.new(line.label) if line.label else self.names.fresh("l")
            self.write(line.word, line.name, [line.a, base], source=line.source)
        return line.name

    def two(self, line, start=None):
        """Two points of a line, the first one `start` where that is on it. Helping points are made where they are wanted."""
        if start is None or start not in line.on:
            if line.kind == "two":
                return line.a, line.b
            start = self.point("midpoint", "M", [line.a, line.b], is_hidden=True) if line.kind == "med" else line.a
        if line.kind == "two" and start in (line.a, line.b):
            return start, line.b if start is line.a else line.a
        return start, self.beyond(line, start)

    def beyond(self, line, start):
        """A second point of a line through `start`: as far off as the line's own two points are, so never the same one."""
        a, b = self.two(line.b) if isinstance(line.b, Line) else (line.a, line.b)
        shifted = self.point("pratio", "Q", [start, a, b, "1"], is_hidden=True)
        if line.kind in ("perp", "med"):
            return self.point("tratio", "R", [start, shifted, "1"], is_hidden=True)
        return shifted

    def crossing(self, label, one, other, at):
        """The meeting point of two lines."""
        place = meet_place(one.place(), other.place())
        if place and at and not near(place, at):
            raise Unsaid(f"the file has it at {shown(at)}, and the lines meet at {shown(place)}")
        x = self.cross(label, one, other, at or place)
        one.on.add(x)
        other.on.add(x)
        return x

    def cross(self, label, one, other, at):
        """The same by the command with the fewest hidden points."""
        for line, base in ((one, other), (other, one)):
            if line.kind == "perp" and line.b is base and base.kind == "two":
                return self.point("foot", label, [line.a, base.a, base.b], at)
            if line.kind == "med" and base.kind == "two" and {line.a, line.b} == {base.a, base.b}:
                return self.point("midpoint", label, [base.a, base.b], at)
        if one.kind == other.kind == "two":
            return self.point("inter", label, [one.a, one.b, other.a, other.b], at)
        return self.point("intersec", label, [self.declared(one), self.declared(other)], at)

    def center(self, circle):
        if circle.center is None:
            circle.center = circle.make()
        return circle.center


def named(argument):
    return argument.name if isinstance(argument, Point) else argument


def constant(text):
    """The number of an expression that has no names, else None."""
    if re.fullmatch("-?[0-9]+", text):
        return Fraction(int(text))
    parts = re.fullmatch(r"div \{ (-?[0-9]+) \} \{ ([0-9]+) \}", text)
    return Fraction(int(parts[1]), int(parts[2])) if parts else None


def near(p, q):
    scale = 1 + max(abs(c) for c in (*p, *q))
    return math.dist(p, q) < CLOSE * scale


def shown(at):
    return f"({at[0]:.4g}, {at[1]:.4g})"
