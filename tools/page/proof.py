"""The readable proof in HTML: names are typeset, and each equation is linked to its row of the lemma table."""
# SPDX-License-Identifier: Apache-2.0
import html
import re
from dataclasses import dataclass, field

from forms import COMMANDS
from words import command_html, condition_html, fraction, name_html, statement_html
from language import read_statement

SHOWN, SHOWN_SHORT = 24, 12
QUANTITY = re.compile(r"([SPRxy])\(([^)]*)\)")


def steps_of(program):
    """The kind of each point's step, its name in a readable proof, and its command; hidden points are counted."""
    steps = []
    for command in program.commands:
        kinds = COMMANDS[command.word].step_kinds if command.word in COMMANDS else []
        for k, kind in enumerate(kinds):
            named = command.is_point and k == len(kinds) - 1
            steps.append((kind, command.name if named else f"#{len(steps)}", command))
    return steps


def letters(names):
    """Names side by side, with thin blanks where one is longer than a letter."""
    names = names.split(",")
    return ("" if all(len(name) == 1 for name in names) else "&#8239;").join(name_html(name) for name in names)


def quantity_html(match):
    kind, inside = match[1], match[2]
    if kind == "R":
        above, below = inside.split(";")
        return fraction(letters(above), letters(below))
    return f"<i>{kind}</i><sub>{letters(inside)}</sub>"


def factor_html(factor):
    base, _, power = factor.partition("^")
    match = QUANTITY.fullmatch(base)
    text = quantity_html(match) if match else name_html(base)
    return text + (f"<sup>{power}</sup>" if power else "")


def monomial_html(monomial, first):
    sign, rest = ("-", monomial[1:]) if monomial.startswith("-") else ("+", monomial.lstrip("+"))
    number, *factors = rest.split("*")
    if not number.isdigit():
        number, factors = "1", [number, *factors]
    text = "&#8201;".join(factor_html(factor) for factor in factors)
    if number != "1" or not factors:
        text = number + ("&#8239;" if factors else "") + text
    if first:
        return ("&minus;" if sign == "-" else "") + text
    return f" {'&minus;' if sign == '-' else '+'} " + text


def polynomial_html(text):
    monomials = text.split(" ")
    shown = "".join(monomial_html(m, k == 0) for k, m in enumerate(monomials[:SHOWN]))
    more = len(monomials) - SHOWN
    return shown + (f' <span class="more">&hellip; and {more} more terms</span>' if more > 0 else "")


def row_key(name, move, steps):
    """Which row of the lemma table an equation for this quantity is, by the log's line of the move."""
    words = move.split(" ")
    kind, inside = name[0], name[2:-1]
    if words[0] == "coords":
        return f"free {kind}"
    if words[0] == "ratio":
        return f"ratio {words[3]}"
    step, point, _ = steps[int(words[1])]
    names = inside.split(",")
    quadratic = kind == "P" and (names[1] == point or names[0] == names[2] == point)
    if quadratic:
        return f"{step} quadratic"
    if step == "TRATIO":
        return "TRATIO area" if kind == "S" else "TRATIO linear difference"
    return f"{step} linear"


def table_rows(text):
    """The rows of docs/LEMMAS.md by their keys: the titles of the columns, and the cells."""
    rows, titles, step, section = {}, [], "", ""
    for line in text.splitlines():
        if line.startswith("#"):
            section = line.lstrip("# ")
        if not line.startswith("|") or line.startswith("|---"):
            continue
        cells = [cell.strip() for cell in line.strip("|").split("|")]
        if cells[0] in ("Step of Y", "Lemma", "Variable"):
            titles = cells
        elif section == "Areas and Pythagoras differences":
            step = cells[0] or step
            rows[f"{step.split('(')[0]} {cells[1]}"] = (titles, [step, *cells[1:]])
        elif section == "Ratios" and cells[0].isdigit():
            rows[f"ratio {cells[0]}"] = (titles, cells)
        elif section == "Free points" and cells[0].startswith("`"):
            rows[f"free {cells[0][1]}"] = (titles, cells)
    return rows


def anchor(key):
    return "lemma-" + key.replace(" ", "-").lower()


def code_html(cell):
    return re.sub(r"`([^`]*)`", r"<code>\1</code>", html.escape(cell))


def lemmas_html(used, rows):
    """The rows of the lemma table that the proof uses."""
    parts = []
    for key in sorted(used):
        titles, cells = rows[key]
        lines = "".join(f"<tr><th>{html.escape(t)}</th><td>{code_html(c)}</td></tr>" for t, c in zip(titles, cells) if c)
        parts.append(f'<table id="{anchor(key)}"><caption>{html.escape(key)}</caption>{lines}</table>')
    return "".join(parts)


@dataclass
class Step:
    """One move of a chain: what it takes away, in HTML, its equations, each with the key of its lemma, and the lines that follow."""

    move: str = ""
    equations: list = field(default_factory=list)
    lines: list = field(default_factory=list)


@dataclass
class Section:
    """The chain of a condition or a goal. The main ones are what the verdict rests on: the goals, or the condition that is never met."""

    head: str
    is_main: bool
    steps: list


class Proof:
    """Walks through the readable text and the log beside it."""

    def __init__(self, program, log, text, rows):
        self.points = steps_of(program)
        self.moves = iter([line for line in log if line.split(" ")[0] in ("point", "ratio", "coords")])
        self.lines = text
        self.rows = rows
        self.used = set()

    def sections(self):
        sections, move = [], ""
        for line in self.lines:
            if line.startswith(("Condition ", "Goal ")):
                sections.append(Section(head_html(line), line.startswith("Goal "), [Step()]))
            elif line.startswith("  ") and sections:
                steps = sections[-1].steps
                if " = (" in line and (steps[-1].lines or not steps[-1].move):
                    move = next(self.moves)
                    steps.append(Step(self.move_html(move)))
                if " = (" in line:
                    steps[-1].equations.append(self.equation(line.strip(), move))
                else:
                    steps[-1].lines.append(line.strip())
        if sections and not any(section.is_main for section in sections):
            sections[-1].is_main = True
        return sections

    def html(self, is_short=False):
        """The sections, as they stand in a page. With `is_short` the chains of the conditions are left out, and of a move with a long
        outcome all but that it is made."""
        return "".join(self.section_html(section, is_short) for section in self.sections() if section.is_main or not is_short)

    def section_html(self, section, is_short):
        body = "".join(self.step_html(step, is_short) for step in section.steps)
        return f"<details{' open' * section.is_main}><summary>{section.head}</summary>{body}</details>"

    def step_html(self, step, is_short):
        is_long = is_short and any(terms_of(line) > SHOWN_SHORT for line in step.lines)
        move = f'<p class="move">{step.move}:</p>' if step.move else ""
        equations = [] if is_long else step.equations
        self.used |= {key for key, _ in equations if key}
        lines = [line_html(line, is_long) for line in step.lines if not (is_long and line.startswith("divide by "))]
        return move + "".join(self.equation_html(*equation) for equation in equations) + "".join(lines)

    def equation_html(self, key, text):
        link = f' <a class="lemma" href="#{anchor(key)}">{html.escape(key)}</a>' if key else ""
        return f'<p class="equation">{text}{link}</p>'

    def move_html(self, move):
        """What a move takes away."""
        words = move.split(" ")
        if words[0] == "coords":
            return "The quantities of free points by their coordinates"
        if words[0] == "ratio" and "at" not in words:
            return "A ratio by Pythagoras differences"
        _, name, command = self.points[int(words[words.index("at") + 1] if "at" in words else words[1])]
        if name.startswith("#"):
            return f"Without the auxiliary point {name_html(name)} (of: {command_html(command)})"
        return f"Without {name_html(name)} ({command_html(command)})"

    def equation(self, line, move):
        """The key of an equation's lemma, where the table has it, and the equation."""
        name, rest = line.split(" = ", 1)
        key = row_key(name, move, self.points)
        above, _, below = rest.partition(" / ")
        value = polynomial_html(above[1:-1])
        if below and not below.startswith("(+1)"):
            close = below.rindex(")")
            lower = polynomial_html(below[1:close])
            if below[close + 1 :]:
                lower = f"({lower})<sup>{below[close + 2 :]}</sup>"
            value = fraction(value, lower)
        return key if key in self.rows else "", f"{factor_html(name)} = {value}"


def head_html(line):
    head, text = line.split(": ", 1)
    statement = read_statement(text)
    return f"<b>{head}</b>: {condition_html(statement) if head.startswith('Condition') else statement_html(statement)}"


def polynomial_of(line):
    """The polynomial of a line of a chain that is no equation, or nothing."""
    if line in ("zero", "not zero"):
        return ""
    return line.split(": ", 1)[1] if line.startswith("divide by ") else line.removeprefix("gives ")


def terms_of(line):
    text = polynomial_of(line)
    return len(text.split(" ")) if text else 0


def line_html(line, is_counted=False):
    """A line of a chain that is no equation; where `is_counted` the terms of its polynomial are told by their number."""
    if line in ("zero", "not zero"):
        return f'<p class="end">{"This is 0." if line == "zero" else "This is a polynomial other than 0."}</p>'
    words, text = ("begin with", "which gives")[line.startswith("gives ")], polynomial_html(polynomial_of(line))
    if is_counted and terms_of(line) > SHOWN_SHORT:
        text = f'<span class="more">a polynomial of {terms_of(line)} terms</span>'
    if line.startswith("divide by "):
        factor = line[10:].split(": ", 1)[0]
        words, text = "divided by", f"{monomial_html(factor, True)}<span>, which is not 0:</span> {text}"
    return f'<p class="gives"><span>{words}</span> {text}</p>'
