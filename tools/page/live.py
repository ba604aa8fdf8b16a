"""What a page needs for a figure that moves: the commands, the shapes and the statement as JSON, the script, and its controls."""
# SPDX-License-Identifier: Apache-2.0
import functools
import html
import json
import re
from pathlib import Path

import formulas
from drawing import shapes_of
from picture import WIDTH
from words import name_html, split_name, statement_html

SCRIPTS = [Path(__file__).parent / name for name in ("figure.js", "sketch.js", "live.js")]
START = """
const page = { figure: document.querySelector("figure.live"), conditions: document.querySelectorAll(".verdict li") };
new LiveFigure(page.figure, JSON.parse(document.getElementById("figure-data").textContent), {
  onChange: ({ failing }) => page.conditions.forEach((item, k) => item.classList.toggle("fails", failing.includes(k + 1))),
});
"""


def plain(e):
    """An expression as lists, with numbers of the script."""
    if isinstance(e, str):
        return e
    if e[0] == "number":
        return ["number", float(e[1])]
    return [e[0], *(plain(part) for part in e[1:])]


def described(program, figure, drawn, conditions):
    """All that the script has to know."""
    commands = [
        {"word": c.word, "name": c.name, "args": [plain(a) for a in c.args], "value": value_of(c, figure)}
        for c in program.commands
        if c.word != "assume"
    ]
    scale, height, middle_x, middle_y = drawn.view()
    said = plain_text(statement_html(program.statement))
    return {
        "commands": commands,
        "statement": [program.statement.word, *(plain(a) for a in program.statement.args)],
        "conditions": [[c.word, *(plain(a) for a in c.args)] for c in conditions],
        "shapes": [[shape.kind, shape.names, shape.style] for shape in shapes_of(program)],
        "labels": {name: split_name(name) for name in figure.points},
        "view": [WIDTH, height, scale, middle_x, middle_y],
        "words": {"holds": f"Here: {said}.", "fails": f"Not here: {said}.", "none": "No figure here: a condition is not met."},
    }


def value_of(command, figure):
    """The number or the place that may be changed, at the figure; None of what is constructed."""
    if command.word == "point":
        return [float(x) for x in figure.points[command.name]]
    return float(figure.values[command.name]) if command.name in figure.values else None


def plain_text(text):
    """HTML without its elements; a raised 2 is that sign."""
    return html.unescape(re.sub(r"<[^>]*>", "", text.replace("<sup>2</sup>", "&sup2;")))


def controls(program, figure):
    """A line of words, a slider for each parameter, and two buttons: shown where the script runs."""
    sliders = "".join(
        f'<label>{name_html(c.name)} <input type="range" name="{c.name}" min="{v - 3:g}" max="{v + 3:g}" step="any" value="{v:g}"></label>'
        for c in program.commands
        if c.word == "param"
        for v in [float(figure.values[c.name])]
    )
    return (
        f'<div class="controls"><p class="here"><span role="status"></span><span></span></p>{sliders}'
        '<button type="button" class="fit">Fit</button><button type="button" class="back">As it was</button></div>'
    )


def data(described):
    """The data in a page, as an element that is no script."""
    text = json.dumps(described, separators=(",", ":")).replace("<", "\\u003c")
    return f'<script type="application/json" id="figure-data">{text}</script>'


@functools.cache
def script():
    """The code that a page runs."""
    code = "".join(path.read_text() for path in SCRIPTS)
    return f'\n(() => {{\n"use strict";\n{formulas.script()}{code}{START}}})();\n'
