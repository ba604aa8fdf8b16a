"""Writes small figures as the files of GeoGebra, GCLC and Kig, for the tests of `geo import`."""
# SPDX-License-Identifier: Apache-2.0
import html
import io
import zipfile

POINTS = {"A": (0, 0), "B": (4, 0), "C": (1, 3), "D": (5, 4), "O": (3, 1), "P": (3, -1)}


def split(text):
    """The word of a call and its arguments."""
    word, _, inside = text.partition("[")
    parts, depth = [""], 0
    for c in inside.removesuffix("]"):
        depth += (c == "[") - (c == "]")
        if c == "," and depth == 0:
            parts.append("")
        else:
            parts[-1] += c
    return word, [part.strip() for part in parts]


class GeoGebra:
    """The text geogebra.xml of a construction, element by element."""

    def __init__(self):
        self.lines = []

    def element(self, label, kind, place=None, inside=""):
        coords = f'<coords x="{place[0]}" y="{place[1]}" z="1.0"/>' if place else ""
        self.lines.append(f'<element type="{kind}" label="{html.escape(label)}">{coords}{inside}</element>')

    def point(self, label, place):
        self.element(label, "point", place)

    def number(self, label, value, is_slider=False):
        self.element(label, "numeric", None, f'<value val="{value}"/>' + '<slider min="-5" max="5"/>' * is_slider)

    def make(self, call, outputs):
        """A command; the outputs are labels, each with its kind and, for a point, its place."""
        word, inputs = split(call)
        given = " ".join(f'a{k}="{html.escape(text)}"' for k, text in enumerate(inputs))
        made = " ".join(f'a{k}="{html.escape(label)}"' for k, (label, *_) in enumerate(outputs))
        self.lines.append(f'<command name="{word}"><input {given}/>' + (f"<output {made}/>" if made else "") + "</command>")
        for label, kind, *place in outputs:
            self.element(label, kind, *place)

    def expression(self, label, text, kind):
        self.lines.append(f'<expression label="{html.escape(label)}" exp="{html.escape(text)}" type="{kind}"/>')

    def xml(self):
        body = "\n".join(self.lines)
        return f'<?xml version="1.0" encoding="utf-8"?>\n<geogebra format="5.0">\n<construction title="">\n{body}\n</construction>\n</geogebra>\n'

    def file(self):
        return zipped({"geogebra.xml": self.xml()})


def zipped(parts):
    """An archive of these texts."""
    out = io.BytesIO()
    with zipfile.ZipFile(out, "w", zipfile.ZIP_DEFLATED) as archive:
        for name, text in parts.items():
            archive.writestr(name, text)
    return out.getvalue()


class Kig:
    """The text of a file of Kig."""

    def __init__(self):
        self.count = 0
        self.ids = {}
        self.hierarchy, self.view = [], []

    def data(self, kind, value):
        self.count += 1
        self.hierarchy.append(f'<Data type="{kind}" id="{self.count}">{html.escape(str(value))}</Data>')
        return self.count

    def point(self, label, place):
        self.make(f"FixedPoint {place[0]} {place[1]}", label)

    def make(self, call, label=""):
        """An object of this type and these parents: labels, or numbers."""
        word, *parents = call.split()
        ids = [self.ids.get(p) or self.data("double", p) for p in parents]
        self.count += 1
        own = self.count
        tag, attribute = ("Property", "which") if word[0].islower() else ("Object", "type")
        inside = "".join(f'<Parent id="{p}"/>' for p in ids)
        self.hierarchy.append(f'<{tag} {attribute}="{word}" id="{own}">{inside}</{tag}>')
        if label:
            self.ids[label] = own
            look = 'width="-1" point-style="Round" style="SolidLine" shown="true" color="#0000ff"'
            self.view.append(f'<Draw {look} namecalcer="{self.data("string", label)}" object="{own}"/>')

    def xml(self):
        head = '<?xml version="1.0" encoding="utf-8"?>\n<!DOCTYPE KigDocument>\n<KigDocument Version="22.12.3" CompatibilityVersion="0.7.0" grid="1" axes="1">'
        rows, view = "\n".join(self.hierarchy), "\n".join(self.view)
        return f"{head}\n<CoordinateSystem>Euclidean</CoordinateSystem>\n<Hierarchy>\n{rows}\n</Hierarchy>\n<View>\n{view}\n</View>\n</KigDocument>\n"


def geogebra_stock():
    """The figure before each element: see elements.tsv."""
    figure = GeoGebra()
    for label, place in POINTS.items():
        figure.point(label, place)
    for label, call in {"a": "Line[A, B]", "b": "Line[C, D]", "c": "Line[O, P]"}.items():
        figure.make(call, [(label, "line")])
    for label, call in {"s": "Segment[A, B]", "t": "Segment[C, D]"}.items():
        figure.make(call, [(label, "segment")])
    for label, call in {"k": "Circle[O, A]", "m": "Circle[P, A]"}.items():
        figure.make(call, [(label, "conic")])
    figure.make("Polygon[A, B, C]", [("p", "polygon")])
    figure.make("Vector[C, D]", [("u", "vector")])
    figure.number("r", "2.0")
    figure.number("n", "2.0")
    return figure


def kig_stock():
    figure = Kig()
    for label, place in POINTS.items():
        figure.point(label, place)
    calls = {
        "a": "LineAB A B", "b": "LineAB C D", "c": "LineAB O P", "s": "SegmentAB A B", "t": "SegmentAB C D", "k": "CircleBCP O A",
        "m": "CircleBCP P A", "p": "TriangleB3P A B C", "u": "Vector C D",
    }  # fmt: skip
    for label, call in calls.items():
        figure.make(call, label)
    return figure


def gclc_stock():
    lines = [f"point {label} {10 * x} {10 * y}" for label, (x, y) in POINTS.items()]
    return [*lines, "line a A B", "line b C D", "circle k O A", "circle m P A", "number r 90"]
