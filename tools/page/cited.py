"""A theorem that is cited: the formulation that was proved beside the program at which it is cited, and what the verdict rests on."""
# SPDX-License-Identifier: Apache-2.0
import html
import re

from language import read_program
from words import command_html

RESTS = (
    "The prover stops at the program as it stands. It proves the formulation on the right: <code>prove</code>. Of the points of the figure it "
    "shows all that the formulation asks, at the program on the left: <code>cite</code>. There is such a figure: <code>place</code>."
)
ADDED = (
    " What is marked is added to the program, to cite the formulation. It is no part of the theorem: by a law that is proved, a statement that is "
    "cited where something is added, and that some figure meets, holds without what is added. That nothing but this is added was compared by the "
    "tool that makes this page."
)


class Cited:
    """What the input of `cite` has: the log of the formulation, and a program of `own` commands and what is added to them."""

    def __init__(self, citation, own):
        log, figure = re.split(r"^with .*\n", citation, maxsplit=1, flags=re.M)
        self.log = log.split("\n")[:-1]
        self.form = read_program("".join(line[2:] + "\n" for line in self.log if line.startswith("| ")))
        self.figure, self.own = read_program(figure), own

    def html(self):
        """Both side by side."""
        added = self.figure.commands[self.own :]
        sides = side("The program", self.figure.commands[: self.own], added) + side("The formulation", self.form.commands, [])
        return f'<h2>Another formulation</h2><p>{RESTS}{ADDED if added else ""}</p><div class="sides">{sides}</div>'


def side(title, commands, added):
    rows = "".join(f"<li>{command_html(command)}</li>" for command in commands)
    rows += "".join(f'<li class="added">{"assumed: " * (command.word == "assume")}{command_html(command)}</li>' for command in added)
    return f"<div><h3>{html.escape(title)}</h3><ul>{rows}</ul></div>"
