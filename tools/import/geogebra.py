"""GeoGebra's files: a zip archive with geogebra.xml (.ggb) or geogebra_macro.xml (.ggt), or one of these texts itself."""
# SPDX-License-Identifier: Apache-2.0
import math
from fractions import Fraction

from calls import call, number, pair
from claims import one_point
from curves import given_circle, given_line
from equalities import equality, length
from markup import parsed
from model import Combination, Left, Length, Number, Out, Point, Unsaid, sum_of
from nodes import call_of, circle_of, inputs_of, line_of, outputs_of, place_of, real
from points import sum_point
from reader import BadFile, Reader as AnyReader, gathered
from sums import Sum

FIGURE, TOOLS = "geogebra.xml", "geogebra_macro.xml"
WANTED = set("geogebra construction macro element command expression input output coords value slider fixed matrix".split())
QUIET = {"numeric", "angle", "boolean", "text", "button", "textfield", "image", "list", "polygon", ""}
SIGNS = ("∥", "⟂", "⊥", "∈", "≟", "==")
AXES = {"xAxis": "x", "yAxis": "y", "x-axis": "x", "y-axis": "y", "xAchse": "x", "yAchse": "y"}


class Reader(AnyReader):
    tool = "GeoGebra"

    def __init__(self, data, part):
        super().__init__()
        self.part = part
        self.nodes = self.construction(parsed(data, WANTED)).children
        elements = {node.get("label"): node for node in self.nodes if node.tag == "element"}
        self.places = {label: place_of(node) for label, node in elements.items() if node.get("type") == "point"}
        self.types = {label: node.get("type") for label, node in elements.items()}
        self.values = {label: node.first("value").get("val") for label, node in elements.items() if node.first("value")}
        self.scribe.names.expect(elements)
        self.centers = {}
        for node in self.nodes:
            if node.get("name") in ("Center", "Midpoint") and len(inputs_of(node)) == 1 and outputs_of(node):
                self.centers[inputs_of(node)[0]] = outputs_of(node)[0]

    def construction(self, root):
        """The construction of a figure; of several tools that of the first."""
        figures = root.all("construction")
        tools = [(macro.get("cmdName"), macro.first("construction")) for macro in root.all("macro") if macro.first("construction")]
        if figures or not tools:
            return figures[0] if figures else self.missing()
        self.scribe.note(f"it is the construction of the tool {tools[0][0]}")
        if len(tools) > 1:
            self.scribe.note(f"not read: the tools {', '.join(name for name, _ in tools[1:])}")
        return tools[0][1]

    def missing(self):
        raise BadFile("it has no construction")

    def read(self):
        for node in self.nodes:
            if node.tag not in ("command", "expression", "element") or node.tag == "element" and node.get("label") in self.objects:
                continue
            self.begin(node.line, call_of(node))
            try:
                self.take(node)
            except Unsaid as unsaid:
                self.leave_node(node, unsaid)
            except RecursionError:
                self.leave_node(node, Unsaid("it is nested too deeply"))

    def leave_node(self, node, unsaid):
        labels = [label for label in outputs_of(node) if label] if node.tag == "command" else [node.get("label")]
        told = [label for label in labels if self.types.get(label, "") not in QUIET]
        self.leave(node.line, [label for label in labels if label not in told], call_of(node), unsaid, False)
        if told:
            self.leave(node.line, told, call_of(node), unsaid)

    def take(self, node):
        label = node.get("label")
        if node.tag == "command":
            self.command(node)
        elif node.tag == "expression":
            self.expression(node, label, node.get("exp"))
        else:
            self.element(node, label, node.get("type"))

    # free elements

    def element(self, node, label, kind):
        if kind == "point":
            fixed = node.first("fixed")
            if fixed and fixed.get("val") == "true":
                self.scribe.note(f"{label} is fixed in the file, and any point here")
            self.objects[label] = self.scribe.free(label, place_of(node))
        elif kind in ("numeric", "angle"):
            self.objects[label] = self.numeric(node, label, kind)
        elif kind == "line":
            self.objects[label] = given_line(self.scribe, Out([label], []), *line_of(node))[0]
        elif kind == "conic":
            self.objects[label] = given_circle(self.scribe, Out([label], [], self.centers.get(label)), *circle_of(node))[0]
        else:
            raise Unsaid(f"a {kind} that is given by its numbers alone" if kind in ("vector", "segment") else f"a {kind} is no part of a figure")

    def numeric(self, node, label, kind):
        text = self.values.get(label, "")
        degrees = real(text) * 180 / math.pi if kind == "angle" else None
        return Number(text, label, node.first("slider") is not None, degrees)

    def expression(self, node, label, text):
        kind = node.get("type") or self.types.get(label, "")
        if any(sign in text for sign in SIGNS) or kind == "boolean":
            self.state_text(node, text)
        elif kind in ("point", "vector", "line", "segment", ""):
            self.objects[label] = self.made(label, text, kind)
        elif kind == "numeric" and label not in self.objects:
            value = Sum(text, self.term).read()
            self.objects[label] = Number(str(value), label) if isinstance(value, Fraction) else self.no_number(text)

    def no_number(self, text):
        raise Unsaid(f"'{text[:80]}' is a number that is reckoned")

    def made(self, label, text, kind):
        """What an expression makes: a point with two numbers, or a sum of points."""
        if (at := pair(text)) and kind != "vector":
            self.scribe.note(f"{label} is fixed in the file, and any point here")
            return self.scribe.free(label, at)
        sum_ = Sum(text, self.term).read()
        if not isinstance(sum_, Combination):
            raise Unsaid(f"'{text[:80]}' is no point")
        if sum_.total() == 0:
            return sum_
        return sum_point(self.scribe, Out([label], [self.places.get(label)]), sum_)

    def term(self, label):
        value = self.value(label)
        if isinstance(value, Point | Combination):
            return sum_of(value)
        if isinstance(value, Number):
            return value.fraction()
        raise Unsaid(f"'{label[:80]}' is no point and no plain number")

    # commands

    def command(self, node):
        name, inputs, outputs = node.get("name"), inputs_of(node), outputs_of(node)
        if name in ("Prove", "ProveDetails"):
            self.state_text(node, inputs[0] if inputs else "")
        elif name in self.forms.statements:
            self.state(node.line, call_of(node), lambda: self.stated(name, inputs))
        elif name in self.forms.passed:
            self.measure(node, name, inputs, outputs)
        else:
            places = [self.places.get(label) for label in outputs]
            kinds = [self.types.get(label, "") for label in outputs]
            results = self.run(name, inputs, Out(outputs, places, self.centers.get(outputs[0]) if outputs else "", kinds))
            self.objects.update((label, value) for label, value in zip(outputs, results) if label and value is not None)

    def run(self, name, inputs, out):
        if name in self.forms.reasons or name not in self.forms.makers:
            return self.forms.made(self.scribe, name, [], out)
        return self.forms.made(self.scribe, name, self.all_values(inputs), out)

    def measure(self, node, name, inputs, outputs):
        """Numbers of the figure are left out; a distance may stand in a statement, and a right angle is what the drawing shows."""
        if name == "Distance" and len(inputs) == 2 and outputs:
            self.objects[outputs[0]] = Length(*(self.typed(text, Point) for text in inputs))
            return
        for label in outputs:
            self.leave(node.line, [label], call_of(node), Unsaid(f"{name} measures, and makes no point"), False)
        if name == "Angle" and len(inputs) == 3 and outputs and abs(abs(real(self.values.get(outputs[0], ""))) - math.pi / 2) < 1e-9:
            text = f"the angle {outputs[0]} is drawn as a right one"
            a, b, c = inputs
            self.state(node.line, text, lambda: self.stated("right_angle", [a, b, c]), False)

    def value(self, text):
        """What an argument is: a label, an axis, two coordinates, a number, a command inside, or a sum."""
        text = text.strip()
        if text in self.objects:
            return self.found(text)
        if text in AXES:
            return self.axis(AXES[text])
        if at := pair(text):
            return self.scribe.free("P", at, True)
        if plain := number(text):
            return plain
        if inner := call(text):
            return self.inside(*inner)
        if any(c in text for c in "+-*/ "):
            sum_ = Sum(text, self.term).read()
            return sum_ if isinstance(sum_, Combination) else Number(str(sum_))
        raise Unsaid(f"'{text[:80]}' is not known")

    def inside(self, name, inputs):
        """What a command inside an expression makes."""
        if name in ("Distance", "Length") and inputs:
            return length(self.scribe, Length(*(self.typed(text, Point) for text in inputs)) if len(inputs) == 2 else self.value(inputs[0]))
        return self.run(name, inputs, Out([""], [None]))[0]

    def all_values(self, texts):
        return gathered([lambda text=text: self.value(text) for text in texts])

    def typed(self, text, kind):
        value = self.value(text)
        if not isinstance(value, kind):
            raise Unsaid(f"{text[:80]} is no {kind.__name__.lower()}")
        return value

    def axis(self, letter):
        """The axes are two lines at right angles, of any place."""
        if "x-axis" not in self.objects:
            s = self.scribe
            s.note("the axes are any two lines at right angles")
            o, e = s.free("Origin", (0.0, 0.0), True), s.free("Unit", (1.0, 0.0), True)
            self.objects["x-axis"] = s.line("two", o, e)
            self.objects["y-axis"] = s.line("perp", o, self.objects["x-axis"])
        return self.objects[f"{letter}-axis"]

    # statements: each is worked out when it is asked for

    def stated(self, name, texts):
        if name == "right_angle":
            a, b, c = gathered([lambda text=text: self.typed(text, Point) for text in texts])
            return f"perpendicular {a.name} {b.name} {b.name} {c.name}"
        return self.forms.stated(self.scribe, name, self.all_values(texts))

    def state_text(self, node, text):
        self.state(node.line, text, lambda: self.statement_of(text))

    def statement_of(self, text):
        inner = call(text)
        if inner and inner[0] in self.forms.statements:
            return self.stated(*inner)
        for sign in SIGNS:
            if sign in text and not inner:
                left, right = (part.strip() for part in text.split(sign, 1))
                return self.equal(left, right) if sign in ("≟", "==") else self.stated(sign, [left, right])
        raise Unsaid(f"the statement '{text[:80]}' has no counterpart")

    def equal(self, left, right):
        """Points that are one, or sums of lengths that are equal."""
        pair_ = [self.objects.get(text) for text in (left, right)]
        if any(isinstance(value, Left) for value in pair_):
            self.all_found([left, right])
        if all(isinstance(value, Point) for value in pair_):
            return one_point(self.scribe, *pair_)
        return equality(self, left, right)
