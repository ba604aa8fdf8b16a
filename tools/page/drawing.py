"""What is drawn of a program: shapes over the names of its points, whatever the places of these are."""
# SPDX-License-Identifier: Apache-2.0
from dataclasses import dataclass

from forms import COMMANDS

FINE, TOLD = "fine", "told"


@dataclass(frozen=True)
class Shape:
    """A shape over names: `circle` around a point through another, `round` through three of these points, `line`, or `segment`, which
    goes as far as the farthest two of these points. What the statement tells of is drawn strongly, the rest finely."""

    kind: str
    names: tuple
    style: str = FINE


def shapes_of(program):
    """The shapes of a program, each once; those that are drawn later cover the others."""
    free = [command.name for command in program.free()]
    shapes = triangle(*free) if len(free) == 3 else []
    for command in program.commands:
        shapes += of_command(command)
    shapes += of_statement(program.statement)
    once = {}
    for shape in shapes:
        key = (shape.kind, frozenset(shape.names) if shape.kind == "segment" else shape.names)
        if shape.style == TOLD or key not in once:
            once[key] = shape
    order = ["circle", "round", "line", "segment"]
    return sorted(once.values(), key=lambda shape: (shape.style == TOLD, order.index(shape.kind)))


def segment(*names, style=FINE):
    return [Shape("segment", names, style)] if len(set(names)) > 1 else []


def circle(center, a):
    return [Shape("circle", (center, a))]


def triangle(a, b, c, style=FINE):
    return segment(a, b, style=style) + segment(b, c, style=style) + segment(c, a, style=style)


DRAWN = {"segment": segment, "circle": circle, "triangle": triangle}


def of_command(command):
    """The lines and circles that a command speaks of."""
    if command.is_line:
        return [Shape("line", (command.name,))]
    if command.word == "assume":
        return []
    form = COMMANDS[command.word]
    at = form.named(command)
    rows = [row.split() for row in form.listed("drawn")]
    return [shape for kind, *letters in rows for shape in DRAWN[kind](*(at[letter] for letter in letters))]


def of_statement(statement):
    """What the statement is about."""
    n = statement.args
    shapes = {
        "equal": lambda: of_expression(n[0]) + of_expression(n[1]),
        "collinear": lambda: segment(*n, style=TOLD),
        "midpoint": lambda: segment(*n[1:], style=TOLD),
        "harmonic": lambda: segment(*n[:2], style=TOLD),
        "concyclic": lambda: [Shape("round", tuple(n), TOLD)],
        "identical": lambda: [],
    }
    two = lambda: segment(*n[:2], style=TOLD) + segment(*n[2:], style=TOLD)  # noqa: E731
    return shapes.get(statement.word, two)()


def of_expression(e):
    if e[0] in ("number", "name"):
        return []
    if e[0] == "signed_area3":
        return triangle(*e[1:], style=TOLD)
    if e[0] == "pythagoras_difference3":
        return segment(*e[1:3], style=TOLD) + segment(*e[2:], style=TOLD)
    if e[0] == "sratio":
        return segment(*e[1:3], style=TOLD) + segment(*e[3:], style=TOLD)
    return [shape for part in e[1:] for shape in of_expression(part)]
