"""The table `elements`: what each element of a file becomes, by format.

    table.py        writes the rows as the Markdown tables of docs/BRIDGES.md
"""
# SPDX-License-Identifier: Apache-2.0
import re
from dataclasses import dataclass
from pathlib import Path

import paths  # noqa: F401
import claims
import curves
import points
from model import Circle, Combination, Length, Line, Number, Point, Polygon, Unsaid

FORMATS = ["GeoGebra", "GCLC", "Kig"]
FORM = re.compile(r"([\w-]+)(?:\[(.*)\]|(.*))$")
SIGN = re.compile(r"(\w) ([∥⟂⊥∈≟=]+) (\w)$")
KINDS = {"a": "line", "s": "segment", "k": "circle", "p": "polygon", "u": "vector", "r": "number", "n": "number"}
LETTERS = {"b": "a", "c": "a", "t": "s", "m": "k"}


@dataclass
class Form:
    """How a format writes an element: the word, the letters of its arguments, and of what is made; `order` is where each thing that
    the maker wants stands."""

    word: str
    letters: list
    made: int
    order: list
    is_open: bool

    def takes(self, values):
        letters = self.letters + self.letters[-1:] * (len(values) - len(self.letters)) if self.is_open else self.letters
        return len(values) == len(letters) and all(is_of(kind_of(letter), value) for letter, value in zip(letters, values))

    def arguments(self, values):
        return values if self.is_open else [values[k] for k in self.order]

    def told(self):
        return ", ".join(KINDS.get(kind_of(letter), "point") for letter in self.letters)


@dataclass
class Row:
    maker: str
    words: str
    cells: list
    here: str
    part: str

    def is_statement(self):
        return self.part == "Statements"


def kind_of(letter):
    """The letter that stands for a kind; "A" for points."""
    return "A" if letter.isupper() else LETTERS.get(letter, letter)


def is_of(kind, value):
    if kind == "A":
        return isinstance(value, Point)
    if kind == "s":
        return isinstance(value, Line) and value.is_segment or isinstance(value, Length)
    classes = {"a": Line, "k": Circle, "p": Polygon, "u": Combination, "r": (Number, Length), "n": Number}
    return isinstance(value, classes[kind])


def rows_of(text):
    rows, part = [], ""
    for line in text.splitlines():
        if line.startswith("@ "):
            part = line[2:]
        elif line and not line.startswith("#"):
            maker, words, *cells, here = (cell.strip() for cell in line.split("|"))
            rows.append(Row(maker, words, cells, here, part))
    return rows


ROWS = rows_of((Path(__file__).parent / "elements").read_text(encoding="utf-8"))


def forms_of(cell, wanted):
    """The forms of a cell that are read here; those in parentheses are the reader's own."""
    for text in [] if cell.startswith("(") else filter(None, (part.strip() for part in cell.split(";"))):
        if sign := SIGN.match(text):
            yield form(sign[2], [sign[1], sign[3]], wanted)
            continue
        parts = FORM.match(text)
        inside = parts[2] if parts[2] is not None else parts[3]
        yield form(parts[1], inside.replace(",", " ").split(), wanted)


def form(word, letters, wanted):
    is_open = bool(letters) and letters[-1].endswith("..")
    letters = [letter.removesuffix("..") for letter in letters]
    behind = [letter for letter in letters if letter not in "XY"]
    order = [] if is_open else order_of(behind, wanted)
    return Form(word, behind, len(letters) - len(behind), order, is_open)


def order_of(behind, wanted):
    """Where each thing that the maker wants stands in a form: by its letter, or else the next of its kind."""
    if wanted and wanted[-1].endswith(".."):
        return list(range(len(behind)))
    free = list(range(len(behind)))
    order = []
    for letter in wanted:
        same = [k for k in free if behind[k] == letter] or [k for k in free if kind_of(behind[k]) == kind_of(letter)] or free
        order += same[:1]
        free = [k for k in free if k not in same[:1]]
    return order


class Forms:
    """All forms of one format, by their words."""

    def __init__(self, format_):
        column = FORMATS.index(format_)
        self.makers, self.statements, self.reasons, self.passed = {}, {}, {}, set()
        for row in ROWS:
            wanted = row.maker.split()
            for form_ in forms_of(row.cells[column], wanted[1:]):
                if wanted[0] in ("root", "other"):
                    self.reasons[form_.word] = row.words
                elif wanted[0] == "passed":
                    self.passed.add(form_.word)
                else:
                    kind = self.statements if row.is_statement() else self.makers
                    kind.setdefault(form_.word, []).append((wanted[0], form_))

    def knows(self, word):
        return word in self.makers or word in self.statements or word in self.reasons or word in self.passed

    def made(self, scribe, word, values, out):
        """What this element of the file makes."""
        maker, form_ = self.fitting(self.makers, word, values)
        function = getattr(points, maker, None) or getattr(curves, maker)
        return function(scribe, out, *form_.arguments(values))

    def stated(self, scribe, word, values):
        """The statement that this is."""
        maker, form_ = self.fitting(self.statements, word, values)
        return getattr(claims, maker)(scribe, *form_.arguments(values))

    def fitting(self, table, word, values):
        if word in self.reasons:
            raise Unsaid(self.reasons[word])
        if word not in table:
            raise Unsaid(f"{word} has no counterpart")
        for maker, form_ in table[word]:
            if form_.takes(values):
                return maker, form_
        known = " or ".join(dict.fromkeys(f"({form_.told()})" for _, form_ in table[word]))
        raise Unsaid(f"{word} is read with {known} behind it alone")


def markdown():
    """The rows as tables, a heading for each part."""
    lines, part = [], ""
    for row in ROWS:
        if row.part != part:
            part = row.part
            lines += ["", f"### {part}", "", "| | GeoGebra | GCLC | Kig | Here |", "|---|---|---|---|---|"]
        lines.append("| " + " | ".join([row.words, *map(cell_text, row.cells), row.here]) + " |")
    return "\n".join(lines[1:]) + "\n"


def cell_text(cell):
    """A cell as it stands on the page."""
    if cell.startswith("("):
        return f"`{cell[1:-1]}`" if cell.isascii() or "°" in cell else cell
    return ", ".join(f"`{part.strip()}`" for part in cell.split(";") if part.strip())


if __name__ == "__main__":
    print(markdown(), end="")
