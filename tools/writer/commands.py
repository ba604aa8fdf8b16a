# SPDX-License-Identifier: Apache-2.0
"""The commands: what their arguments, conditions and steps are, by the table tools/forms in the words of docs/LANGUAGE.md ("Commands") and
docs/LOG.md ("The steps of a program"), and the terms of conditions and goals (docs/LOG.md, "The terms of conditions and goals")."""
import sys
from pathlib import Path

from quantities import area, difference, ratio

sys.path.append(str(Path(__file__).resolve().parent.parent / "page"))
from forms import FORMS  # noqa: E402


class Command:
    """How a command is read, and what it stands for. Capital letters are points, small ones lines, r and s are expressions; behind a line's
    letter stand the letters of its pair."""

    def __init__(self, form):
        pairs = {line: ":" + ",".join(pair) for line, *pair in (given.split() for given in form.listed("given"))}
        self.form = [letter + pairs.get(letter, "") for letter in form.letters if letter not in "mn"]
        steps = form.listed("steps")
        self.is_free = steps == ["free"]
        self.points = [] if self.is_free else steps
        self.conditions = form.listed("conditions")
        self.pair = form.said.get("pair", "").split(", ")


COMMANDS = {f"assume {form.word}" if form.kind == "assume" else form.word: Command(form) for form in FORMS if form.kind != "prove"}
# The commands that take a number of their own, t.
HAVE_NUMBERS = {form.word for form in FORMS if "number" in form.said}


def parallel_term(a, b, c, d):
    """S_ACD - S_BCD"""
    return area(a, c, d) - area(b, c, d)


def midpoint_term(m, a, b):
    """2 P_AMA + 2 P_BMB - P_ABA"""
    return 2 * difference(a, m, a) + 2 * difference(b, m, b) - difference(a, b, a)


def circle_term(a, b, c, d):
    """S_CAD P_CBD - P_CAD S_CBD"""
    return area(c, a, d) * difference(c, b, d) - difference(c, a, d) * area(c, b, d)


# The terms of conditions and goals on points; those on expressions are made where these are read. Of `crossing` the points are those of
# both pairs.
CONDITION_TERMS = {
    "different": lambda a, b: difference(a, b, a),
    "not_collinear": area,
    "not_parallel": parallel_term,
    "crossing": parallel_term,
}
GOAL_TERMS = {
    "collinear": area,
    "parallel": parallel_term,
    "perpendicular": lambda a, b, c, d: difference(a, c, d) - difference(b, c, d),
    "identical": lambda a, b: difference(a, b, a),
    "midpoint": midpoint_term,
    "same_length": lambda a, b, c, d: difference(a, b, a) - difference(c, d, c),
    "harmonic": lambda a, b, c, d: ratio(a, c, c, b) - ratio(a, d, b, d),
    "concyclic": circle_term,
}

