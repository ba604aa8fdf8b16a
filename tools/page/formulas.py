"""The formulas of the commands, from the table tools/forms, and of expressions, conditions and statements, from the table `formulas`: as
functions, and as a script."""
# SPDX-License-Identifier: Apache-2.0
import functools
import re
from fractions import Fraction
from pathlib import Path

from forms import COMMANDS

TABLE = Path(__file__).parent / "formulas"
HELPER = re.compile(r"([a-z]+)\(([a-z, ]*)\)")


class NoFigure(Exception):
    """A condition fails, or a number is not defined."""


def divided(a, b):
    if b == 0:
        raise NoFigure
    return Fraction(a, b) if isinstance(a, int) and isinstance(b, int) else a / b


def ratio(v, w):
    """The k with v = k w, exactly."""
    if v[0] * w[1] != v[1] * w[0]:
        raise NoFigure
    return divided(v[0], w[0]) if w[0] != 0 else divided(v[1], w[1])


@functools.cache
def rows():
    """The formulas by what they are of, as ("minus", "helper"), ("different", "condition") or ("inter", "command"): the names that one
    takes, and the formula. The helpers come first."""
    helpers, others = {}, {}
    for line in TABLE.read_text().splitlines():
        if line[:1] in ("", "#"):
            continue
        left, formula = line.split(" = ", 1)
        helper = HELPER.fullmatch(left)
        if helper:
            helpers[helper[1], "helper"] = helper[2].split(", "), formula
        else:
            kind, word, *names = left.split(" ")
            others[word, kind] = names, formula
    return helpers | places() | others


def places():
    """The formulas of the commands; behind its arguments one takes its own number."""
    found = {}
    for word, form in COMMANDS.items():
        if "place" in form.said:
            found[word, "command"] = (form.letters[1:] + form.listed("number"), form.said["place"])
    return found


def function(names, formula, known):
    """A formula as a function of these names, over functions that are known."""
    return eval(f"lambda {', '.join(names)}: {formula}", known)


@functools.cache
def functions(divided=divided, ratio=ratio):
    """The functions of the tables, by word and kind, for numbers that are divided so."""
    known = {"divided": divided, "ratio": ratio}
    found = {}
    for (word, kind), (names, formula) in rows().items():
        found[word, kind] = function(names, formula, known)
        if kind == "helper":
            known[word] = found[word, kind]
    return found


def helper(word):
    return functions()[word, "helper"]


def script():
    """The same functions for a browser, where `divided` and `ratio` are its own: `formulas.command.inter` and the like."""
    helpers, kinds = [], {}
    for (word, kind), (names, formula) in rows().items():
        arrow = f"({', '.join(names)}) => {formula}"
        if kind == "helper":
            helpers.append(f"const {word} = {arrow};")
        else:
            kinds.setdefault(kind, []).append(f"{word}: {arrow}")
    tables = ", ".join(f"{kind}: {{ {', '.join(listed)} }}" for kind, listed in kinds.items())
    return "\n".join([*helpers, f"const formulas = {{ {tables} }};"]) + "\n"
