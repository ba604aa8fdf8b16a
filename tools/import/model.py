"""What a figure that is brought from elsewhere is made of: points, lines, circles, sums of points, numbers and lengths."""
# SPDX-License-Identifier: Apache-2.0
from dataclasses import dataclass, field
from fractions import Fraction

from places import line_place

GREATEST = 2**127 - 1


class Unsaid(Exception):
    """The language has no words for this; the reason is the text. `causes` are the elements left out that it rests on."""

    def __init__(self, reason, causes=()):
        super().__init__(reason)
        self.causes = list(causes)


@dataclass(eq=False)
class Left:
    """An element of the file that is left out, and why. `causes` are the elements that it wants and that are left out themselves."""

    labels: list
    line: int
    call: str
    reason: str
    causes: list = field(default_factory=list)

    @property
    def name(self):
        return ", ".join(self.labels)

    def told(self):
        return f"{self.call if self.name in self.call else f'{self.name} ({self.call})'}: {self.reason}"


@dataclass
class Out:
    """What an element of the file makes: the labels, and where the file has the points. `center` is the label of a circle's centre,
    `kinds` are those that the file tells."""

    labels: list
    places: list
    center: str = ""
    kinds: list = field(default_factory=list)

    @property
    def label(self):
        return self.labels[0] if self.labels else ""

    @property
    def place(self):
        return self.places[0] if self.places else None


@dataclass(eq=False)
class Point:
    """`made` is the command's word and its points."""

    name: str
    at: tuple | None = None
    is_free: bool = False
    is_hidden: bool = False
    made: tuple = ("point", ())


@dataclass(eq=False)
class Line:
    """`kind` is "two" (points a, b), "med" (points a, b), "parallel" or "perp" (a point and a line)."""

    kind: str
    a: Point
    b: object
    label: str = ""
    source: str = ""
    name: str | None = None
    is_segment: bool = False
    on: set = field(default_factory=set)

    def __post_init__(self):
        if self.kind == "two":
            self.on |= {self.a, self.b}
        elif self.kind != "med":
            self.on.add(self.a)

    def place(self):
        """A point of it and its direction, in numbers; None where they are not known."""
        b = self.b.place() if isinstance(self.b, Line) else self.b.at
        return line_place(self.word, self.a.at, b)

    @property
    def word(self):
        """The command that declares it."""
        return "line" if self.kind == "two" else self.kind


@dataclass(eq=False)
class Circle:
    """Its centre is made when it is first asked for; `make` makes it."""

    through: Point
    make: object
    center: Point | None = None
    label: str = ""
    three: tuple | None = None
    on: set = field(default_factory=set)

    def __post_init__(self):
        self.on |= set(self.three or (self.through,))


@dataclass(eq=False)
class Polygon:
    """A polygon by its corners."""

    corners: list


@dataclass
class Combination:
    """A sum of points with coefficients: a point where they add up to 1, a vector where they add up to 0."""

    parts: dict

    def total(self):
        return sum(self.parts.values(), Fraction(0))

    def plus(self, other, factor=1):
        parts = dict(self.parts)
        for point, r in other.parts.items():
            parts[point] = parts.get(point, Fraction(0)) + factor * r
        return Combination({point: r for point, r in parts.items() if r})

    def times(self, r):
        return Combination({point: r * s for point, s in self.parts.items() if r * s})


def sum_of(value):
    """A point as a sum of points."""
    return value if isinstance(value, Combination) else Combination({value: Fraction(1)})


@dataclass(eq=False)
class Number:
    """A number of the file: a slider, or one that is fixed; `text` is how it is written, `degrees` is set for an angle."""

    text: str
    label: str = ""
    is_slider: bool = False
    degrees: Fraction | float | None = None
    name: str | None = None
    ends: tuple | None = None

    def fraction(self):
        if self.degrees is not None:
            raise Unsaid("an angle is no factor")
        if self.is_slider:
            raise Unsaid(f"the slider {self.label} is no plain number")
        return fraction_of(self.text)

    def about(self):
        """Roughly how much it is."""
        try:
            return float(self.text)
        except ValueError:
            return 1.0

    def quarters(self):
        """How many quarter turns an angle is."""
        turns = None if self.is_slider or self.degrees is None else self.degrees / 90
        if turns is None or abs(turns) > 1e6 or abs(turns - round(turns)) > 1e-11:
            raise Unsaid("a turn by another angle than quarters needs a square root, or more")
        return round(turns) % 4


def fraction_of(text):
    """The number that is written, exactly."""
    try:
        number = Fraction(text) if len(text) <= 60 and abs(float(text)) < 1e39 else None
    except (ValueError, ZeroDivisionError, OverflowError):
        raise Unsaid(f"'{text[:60]}' is no plain number") from None
    if number is None or max(abs(number.numerator), number.denominator) > GREATEST:
        raise Unsaid(f"the number {text[:20]} is larger than the language has")
    return number


@dataclass
class Length:
    """The distance of two points."""

    a: Point
    b: Point


def expression(r):
    """A rational number as an expression of the language."""
    r = Fraction(r)
    if max(abs(r.numerator), r.denominator) > GREATEST:
        raise Unsaid("a number is larger than the language has")
    return str(r.numerator) if r.denominator == 1 else f"div {{ {r.numerator} }} {{ {r.denominator} }}"
