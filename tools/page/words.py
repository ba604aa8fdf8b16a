"""Names, expressions, conditions and statements in words and in HTML."""
# SPDX-License-Identifier: Apache-2.0
import html
import re

from forms import COMMANDS

LETTERS = re.compile(r"\b(?P<factor>[rs]) (?=[A-Z]{2}\b)|\b(?:[A-Z]+|[abrs])\b")


def split_name(name):
    """A name, and what of it is set lower: digits, and what stands behind `_`."""
    parts = re.fullmatch(r"([A-Za-z]+)_?([0-9]*(?:_[A-Za-z0-9_]*)?|[A-Za-z0-9_]*)", name)
    if parts and (parts[2] or "_" not in name) and not name.endswith("_"):
        return parts[1], parts[2].lstrip("_")
    return name, ""


def name_html(name):
    stem, low = split_name(name)
    return f"<var>{html.escape(stem)}</var>" + (f"<sub>{html.escape(low)}</sub>" if low else "")


def segment(a, b):
    return name_html(a) + name_html(b)


def fraction(above, below):
    return f'<span class="fraction"><span>{above}</span><span class="slash">/</span><span>{below}</span></span>'


def number_html(value):
    text = str(abs(value)) if value.denominator == 1 else fraction(abs(value.numerator), value.denominator)
    return ("&minus;" if value < 0 else "") + text


class Term:
    """An expression in HTML, with what decides on parentheses: 0 a sum, 1 a product or a sign, 2 anything closed."""

    def __init__(self, text, level=2):
        self.text = text
        self.level = level

    def at_least(self, level):
        return self.text if self.level >= level else f"({self.text})"


def term(e):
    kind = e[0]
    if kind == "number":
        return Term(str(e[1])) if e[1] >= 0 else Term(f"&minus;{-e[1]}", 0)
    if kind == "name":
        return Term(name_html(e[1]))
    if kind == "signed_area3":
        return Term(f'area&#8239;{"".join(name_html(name) for name in e[1:])}')
    if kind == "pythagoras_difference3":
        if e[1] == e[3]:
            return Term(f"2&#8239;{segment(e[1], e[2])}<sup>2</sup>", 1)
        return Term(f"<i>P</i><sub>{''.join(name_html(name) for name in e[1:])}</sub>")
    if kind == "sratio":
        return Term(fraction(segment(e[1], e[2]), segment(e[3], e[4])))
    if kind == "neg":
        return Term("&minus;" + term(e[1]).at_least(1), 0)
    a, b = term(e[1]), term(e[2])
    if kind == "sum":
        return Term(f"{a.text} + {b.at_least(0) if e[2][0] != 'neg' else b.at_least(1)}", 0)
    if kind == "sub":
        return Term(f"{a.text} &minus; {b.at_least(1)}", 0)
    if kind == "mult":
        return Term(f"{a.at_least(1)} &middot; {b.at_least(1)}", 1)
    return Term(fraction(a.text, b.text))


def condition_html(condition):
    names = [name_html(a) if isinstance(a, str) else "" for a in condition.args]
    if condition.word == "different":
        return f"{names[0]} and {names[1]} differ"
    if condition.word == "not_collinear":
        return f"{names[0]}, {names[1]} and {names[2]} are not on one line"
    if condition.word == "not_parallel":
        return f"the lines {names[0]}{names[1]} and {names[2]}{names[3]} are not parallel"
    if condition.word == "crossing":
        return f"the lines {names[0]} and {names[1]} are not parallel"
    return f"{term(condition.args[0]).text} is not 0"


def statement_html(statement):
    if statement.word == "equal":
        return f"{term(statement.args[0]).text} = {term(statement.args[1]).text}"
    n = [name_html(name) for name in statement.args]
    first, last = "".join(n[:2]), "".join(n[-2:])
    return {
        "collinear": lambda: f"{n[0]}, {n[1]} and {n[2]} are on one line",
        "parallel": lambda: f"{first} is parallel to {last}",
        "perpendicular": lambda: f"{first} is perpendicular to {last}",
        "identical": lambda: f"{n[0]} and {n[1]} are the same point",
        "midpoint": lambda: f"{n[0]} is the midpoint of {last}",
        "same_length": lambda: f"{first} is as long as {last}",
        "harmonic": lambda: f"{n[0]}, {n[1]} and {n[2]}, {n[3]} are harmonic",
        "concyclic": lambda: f"{n[0]}, {n[1]}, {n[2]} and {n[3]} are on one circle or line",
    }[statement.word]()


def command_html(command):
    """What a command makes, in the words of tools/forms."""
    if command.word == "assume":
        return condition_html(command.args[0])
    form = COMMANDS[command.word]
    shown = {letter: name_html(a) if isinstance(a, str) else term(a).at_least(1) for letter, a in form.named(command).items()}
    return LETTERS.sub(lambda found: lettered(found, shown), form.said["words"])


def lettered(found, shown):
    """What stands in the place of letters: a factor in front of two points, or names side by side. Other words stay."""
    if found["factor"]:
        factor = shown[found["factor"]]
        return "" if factor == "1" else f"{factor}&#8239;"
    return "".join(shown[letter] for letter in found[0]) if set(found[0]) <= set(shown) else found[0]
