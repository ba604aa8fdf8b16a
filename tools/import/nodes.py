"""What stands in an element of GeoGebra's text: numbers, places, the inputs and outputs of a command."""
# SPDX-License-Identifier: Apache-2.0
import math
import re

from markup import Node
from model import Unsaid


def real(text):
    """The number of a text; not a number where it is none."""
    try:
        return float(text)
    except ValueError:
        return math.nan


def coords_of(node):
    coords = node.first("coords") or Node("coords", {}, 0)
    return [real(coords.get(c)) for c in "xyz"]


def place_of(node):
    x, y, z = coords_of(node)
    return (x / z, y / z) if z and math.isfinite(x / z) and math.isfinite(y / z) else None


def line_of(node):
    """Two places of a line x X + y Y + z = 0."""
    x, y, z = coords_of(node)
    square = x * x + y * y
    if not 0 < square < math.inf or not math.isfinite(z):
        raise Unsaid("a line without an equation")
    p = (-x * z / square, -y * z / square)
    return p, (p[0] - y, p[1] + x)


def circle_of(node):
    """The centre of a circle, and a place of it, by its matrix."""
    matrix = node.first("matrix") or Node("matrix", {}, 0)
    a, b, c, d, e, f = (real(matrix.get(f"A{k}")) for k in range(6))
    if a != b or d or not a:
        raise Unsaid("a conic that is given by its equation, and no circle")
    o = (-e / a, -f / a)
    square = o[0] * o[0] + o[1] * o[1] - c / a
    if not 0 < square < math.inf:
        raise Unsaid("a circle without points")
    return o, (o[0] + math.sqrt(square), o[1])


def numbered(node, tag):
    inner = node.first(tag)
    keys = sorted((key for key in inner.attributes if re.fullmatch("a[0-9]{1,5}", key)), key=lambda key: int(key[1:])) if inner else []
    return [inner.get(key) for key in keys]


def inputs_of(node):
    return numbered(node, "input")


def outputs_of(node):
    return numbered(node, "output")


def call_of(node):
    """How an element is written in the file."""
    label = node.get("label")
    if node.tag == "command":
        made = ", ".join(output for output in outputs_of(node) if output)
        return (f"{made} = " if made else "") + f"{node.get('name')}[{', '.join(inputs_of(node))}]"
    if node.get("exp"):
        return f"{label} = {node.get('exp')}"
    at = place_of(node) if node.get("type") == "point" else None
    return f"{label} = ({at[0]:.6g}, {at[1]:.6g})" if at else f"{label}, a {node.get('type')}"
