"""The table tools/forms: how each command, statement and condition is written, and what the tools know of it."""
# SPDX-License-Identifier: Apache-2.0
import re
from dataclasses import dataclass, field
from pathlib import Path

TABLE = Path(__file__).parent.parent / "forms"
MAKES = {"a": "line", "r": "parameter"}


@dataclass
class Form:
    """How one is written, and what stands below it, by its word in front of the colon."""

    line: str
    said: dict = field(default_factory=dict)

    @property
    def kind(self):
        """`prove` for a statement, `assume` for a condition, else `command`."""
        first = self.line.split()[0]
        return first if first in ("prove", "assume") else "command"

    @property
    def word(self):
        return self.line.split()[0 if self.kind == "command" else 1]

    @property
    def letters(self):
        """What stands behind the word, the letter of the new name first."""
        return self.line.split()[1 if self.kind == "command" else 2 :]

    @property
    def makes(self):
        """What a command makes: a line, a parameter or a point."""
        return MAKES.get(self.letters[0], "point")

    @property
    def step_kinds(self):
        """The kinds of the steps of a command, as FOOT."""
        return ["free" if step == "free" else re.search(r"= ([A-Z]+)\(", step)[1] for step in self.listed("steps")]

    @property
    def points(self):
        """How many points a command counts as in the limit of the language."""
        return int(self.said.get("counts", len(self.step_kinds)))

    def listed(self, key):
        """The parts of what is said, none where nothing is."""
        return self.said[key].split("; ") if key in self.said else []

    def named(self, command):
        """The new name and the arguments of a command of this form, by their letters."""
        return dict(zip(self.letters, [command.name, *command.args]))


def read_forms():
    """The forms in the order of the table."""
    forms = []
    for line in TABLE.read_text(encoding="utf-8").splitlines():
        if line.startswith("  "):
            key, said = line.strip().split(": ", 1)
            forms[-1].said[key] = said
        elif line and not line.startswith("#"):
            forms.append(Form(line))
    return forms


FORMS = read_forms()
COMMANDS = {form.word: form for form in FORMS if form.kind == "command"}
