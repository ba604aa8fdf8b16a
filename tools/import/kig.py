"""Kig's files: an XML text with a hierarchy of objects (.kig), also compressed (.kigz)."""
# SPDX-License-Identifier: Apache-2.0
import math

from markup import parsed
from model import Circle, Line, Number, Out, Unsaid
from places import finite
from reader import BadFile, Reader as AnyReader

WANTED = set("KigDocument Hierarchy Data Object Property Parent View Draw".split())
PLACED = ("ConstrainedPoint", "ConicLineIntersection", "CircleCircleIntersection")


class Reader(AnyReader):
    """Goes through the hierarchy. An object has a number; its name is that of its label, where it has one."""

    tool = "Kig"

    def __init__(self, data):
        super().__init__()
        document = parsed(data, WANTED)
        hierarchy = document.first("Hierarchy")
        if hierarchy is None:
            raise BadFile("it has no element Hierarchy")
        self.nodes = hierarchy.children
        self.data = {node.get("id"): node.text.strip() for node in self.nodes if node.tag == "Data"}
        self.labels = labels_of(document, self.nodes, self.data)
        self.scribe.names.expect(self.labels.values())

    def read(self):
        for id_, text in self.data.items():
            self.objects[id_] = Number(text)
        for node in self.nodes:
            if node.tag in ("Object", "Property"):
                kind = node.get("type") or node.get("which")
                parents = [child.get("id") for child in node.all("Parent")]
                self.take(node, node.get("id"), kind, parents)

    def take(self, node, id_, kind, parents):
        if kind in self.forms.passed:
            return
        call = f"{kind} of {', '.join(map(self.called, parents))}"
        self.begin(node.line, f"{self.labels[id_]} = {call}" if id_ in self.labels else call)
        try:
            self.make(node, id_, kind, parents)
        except Unsaid as unsaid:
            self.leave(node.line, [id_], call, unsaid)
            self.objects[id_].labels = [self.called(id_)]

    def make(self, node, id_, kind, parents):
        if kind in self.forms.statements:
            self.all_found(parents)
            self.state(node.line, f"the test {kind} of {', '.join(map(self.called, parents))}", lambda: self.stated(kind, parents))
            return
        out = Out([self.labels.get(id_, "")], [None])
        if kind == "FixedPoint":
            self.objects[id_] = self.scribe.free(out.label, self.put_down(parents))
            return
        values = self.all_found(parents) if kind in self.forms.makers else []
        if kind in PLACED:
            out.places = [placed(self.scribe, values)]
        self.objects[id_] = self.forms.made(self.scribe, kind, values, out)[0]

    def put_down(self, parents):
        """Where a point was put down."""
        numbers = self.all_found(parents)
        if len(numbers) != 2 or not all(isinstance(number, Number) for number in numbers):
            raise Unsaid("a point without two numbers")
        return finite(tuple(number.about() for number in numbers))

    def stated(self, kind, parents):
        return self.forms.stated(self.scribe, kind, self.all_found(parents))

    def called(self, id_):
        """How an object is spoken of."""
        return self.labels.get(id_) or (self.data.get(id_, "")[:20] if id_ in self.data else f"object {id_}")


def labels_of(document, nodes, data):
    """The labels of objects: those that Draw elements name, and texts that are attached to points."""
    labels = {}
    for view in document.all("View"):
        for draw in view.all("Draw"):
            if name := data.get(draw.get("namecalcer")):
                labels[draw.get("object")] = name
    places = {node.get("id"): node for node in nodes if node.get("type") == "RelativePoint"}
    for node in nodes:
        parents = [child.get("id") for child in node.all("Parent")]
        if node.get("type") == "Label" and len(parents) > 2 and parents[1] in places and parents[2] in data:
            for target in places[parents[1]].all("Parent")[-1:]:
                labels.setdefault(target.get("id"), data[parents[2]])
    return labels


# where a number of the file puts a point


def placed(s, values):
    """Where the parameter of a point on a curve, or the side of a meeting point, puts it."""
    try:
        if isinstance(values[0], Number):
            return finite(on_curve(s, values[1], values[0].about()))
        if isinstance(values[1], Line):
            return finite(of_side(s, values[0], values[1], values[2].about()))
    except (IndexError, AttributeError, TypeError, ArithmeticError):
        pass
    return None


def on_curve(s, curve, t):
    """A point on a circle by its angle in turns, on a segment by its part."""
    if isinstance(curve, Circle):
        o = s.center(curve).at
        radius = math.dist(o, curve.through.at)
        return (o[0] + radius * math.cos(2 * math.pi * t), o[1] + radius * math.sin(2 * math.pi * t))
    if curve.is_segment:
        a, b = curve.a.at, curve.b.at
        return (a[0] + t * (b[0] - a[0]), a[1] + t * (b[1] - a[1]))
    return None


def of_side(s, curve, line, side):
    """The meeting point of this side: the one that comes later along the line has the side 1."""
    o, a = s.center(curve).at, curve.through.at
    p, v = line.place()
    length = math.hypot(*v)
    u = (v[0] / length, v[1] / length)
    nearest = (o[0] - p[0]) * u[0] + (o[1] - p[1]) * u[1]
    square = math.dist(o, a) ** 2 - ((o[0] - p[0]) * u[1] - (o[1] - p[1]) * u[0]) ** 2
    if square < 0:
        raise Unsaid("the line and the circle do not meet where the file has them")
    t = nearest + math.copysign(math.sqrt(square), side)
    return (p[0] + t * u[0], p[1] + t * u[1])
