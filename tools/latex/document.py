"""A readable proof as LaTeX: the theorem, its conditions, the figure, the goals point by point, the conditions, and the lemmas used."""
# SPDX-License-Identifier: Apache-2.0
import re
from pathlib import Path

import paths  # noqa: F401
from language import read_program, read_statement
from proof import row_key, steps_of, table_rows
from tex import code, factor, mixed, monomial, name_tex, polynomial
from tikz import Picture
from values import chosen, is_clear, meets, sampled
from words import command_html, condition_html, statement_html

HEAD = r"""\documentclass[11pt]{article}
\usepackage[utf8]{inputenc}
\usepackage[a4paper,margin=25mm]{geometry}
\usepackage{amsmath,tikz}
\begin{document}
"""
MACROS = r"""\begingroup
\setlength{\parindent}{0pt}\setlength{\parskip}{3pt plus 2pt}
\def\step#1{\par\medskip{\itshape #1}\par\nopagebreak}
\def\row#1{\par\hangindent=2.2em\hangafter=1\noindent\hspace*{1.2em}#1\par}
\raggedright\lineskiplimit=3pt\lineskip=4pt\relpenalty=9999\binoppenalty=50
"""
TITLES = {"proved": "Theorem", "false": "A false statement", "impossible": "A figure that does not exist"}
LEMMAS = Path(__file__).parent.parent.parent / "docs" / "LEMMAS.md"
MOST_IN_A_FRACTION = 4
KEY = re.compile(r"\(<([^<>]*)>\)")


class Document:
    """The log, its readable text, and of a polynomial at most so many terms."""

    def __init__(self, log, text, most):
        self.log, self.text, self.most = log, text, most
        self.program = read_program("".join(line[2:] + "\n" for line in log if line.startswith("| ")))
        self.conditions = [read_statement(line.split(" ", 2)[2]) for line in log if line.startswith("condition ")]
        self.goals = [read_statement(line.split(" ", 2)[2]) for line in log if line.startswith("goal ")]
        self.end = log[-1].split(" ")
        self.verdict = self.end[1]
        self.steps = steps_of(self.program)
        self.moves = iter([line for line in log if line.split(" ")[0] in ("point", "ratio", "coords")])
        self.move = None
        self.rows = table_rows(LEMMAS.read_text(encoding="utf-8")) if LEMMAS.exists() else {}
        self.used = []

    def tex(self, is_body):
        parts = [self.theorem(), self.figure(), self.notation(), *self.proof()]
        text = KEY.sub(self.number, "\n".join(part for part in parts if part))
        body = f"{MACROS}{text}\n{self.lemmas()}\\par\\endgroup\n"
        return body if is_body else HEAD + body + "\\end{document}\n"

    # the theorem

    def theorem(self):
        free = [f"${name_tex(c.name)}$" for c in self.program.free()]
        given = [f"{', '.join(free)} {'are any points' if len(free) > 1 else 'is any point'}"] if free else []
        given += [mixed(command_html(c)) for c in self.program.commands if c.word != "point"]
        lines = [rf"\textbf{{{TITLES[self.verdict]}.}} {'; '.join(given)}."] if given else [rf"\textbf{{{TITLES[self.verdict]}.}}"]
        return "\n\n".join([*lines, self.said(), *self.listed()]) + "\n"

    def said(self):
        statement = mixed(statement_html(self.program.statement))
        if self.verdict == "impossible":
            return rf"\textbf{{It is never so that}} {mixed(condition_html(self.conditions[int(self.end[2]) - 1]))}: there is no such figure."
        if self.verdict == "false":
            goal = mixed(statement_html(self.goals[int(self.end[2]) - 1]))
            return rf"\textbf{{It is not always so that}} {goal}."
        return rf"\textbf{{Then}} {statement}{', wherever' if self.conditions else '.'}"

    def listed(self):
        """The conditions in words."""
        if not self.conditions or self.verdict == "impossible":
            return []
        rows = "\n".join(rf"\item {mixed(condition_html(c))}{'.' if c is self.conditions[-1] else ','}" for c in self.conditions)
        before = "" if self.verdict == "proved" else "Its conditions are that\n"
        return [before + "\\begin{itemize}\\setlength{\\itemsep}{0pt}\\setlength{\\parskip}{0pt}\n" + rows + "\n\\end{itemize}"]

    # the figure

    def figure(self):
        if self.verdict == "impossible":
            return ""
        figure, caption = self.chosen()
        if figure is None:
            return ""
        return "\\begin{center}\n" + Picture(self.program, figure).tex() + (rf"\par\small {caption}" + "\n" if caption else "") + "\\end{center}\n"

    def chosen(self):
        """The figure that is drawn: the sample's where that is clear, else a clear one; where the statement is false it fails there."""
        is_false = self.verdict == "false"
        sample = sampled(self.log)
        figure = meets(self.program, self.conditions, sample) if sample else None
        if figure and is_clear(figure):
            return figure, "The counterexample." if is_false else ""
        values = chosen(self.program, self.conditions, None, is_false)
        clear = meets(self.program, self.conditions, values) if values else None
        if clear is None:
            return figure, "The counterexample." if is_false else ""
        return clear, "A figure in which the statement fails." if is_false else ""

    def notation(self):
        return (
            r"$S_{ABC}$ is the signed area of the triangle, $P_{ABC} = \overline{AB}^2 + \overline{CB}^2 - \overline{AC}^2$. Each quantity is "
            "replaced, last point first, by its lemma; the number behind an equation is that of its lemma in the table at the end.\n"
        )

    # the proof

    def proof(self):
        """The goals, the last line, and then the conditions, of which few readers want more than the text."""
        parts = []
        for line in self.text:
            if line.startswith(("Condition ", "Goal ")):
                parts.append((line.startswith("Goal "), [self.header(line)]))
            elif line.startswith("  ") and parts:
                parts[-1][1].append(self.line(line.strip()))
        for is_goal in (True, False):
            yield from (row for part in parts if part[0] == is_goal for row in part[1])
            if is_goal:
                yield self.last()

    def header(self, line):
        head, text = line.split(": ", 1)
        words = condition_html if head.startswith("Condition") else statement_html
        words = mixed(words(read_statement(text)))
        return rf"\par\bigskip\textbf{{{head}.}} {words[:1].upper()}{words[1:]}."

    def line(self, line):
        if " = (" in line:
            before = "" if self.move else self.opened()
            return before + self.equation(line)
        self.move = None
        if line.startswith("gives "):
            return rf"\row{{$\Longrightarrow\quad {polynomial(line[6:], self.most)}$}}"
        if line.startswith("divide by "):
            divisor, rest = line[10:].split(": ", 1)
            return rf"Divided by ${monomial(divisor, True)}$, which is not $0$:\row{{${polynomial(rest, self.most)}$}}"
        if line in ("zero", "not zero"):
            return rf"This is {'$0$' if line == 'zero' else 'a polynomial other than $0$'}.\par"
        return rf"\row{{${polynomial(line, self.most)}$}}"

    def opened(self):
        """The words before a move: which point it takes away."""
        self.move = next(self.moves)
        words = self.move.split(" ")
        if words[0] == "coords":
            return r"\step{The quantities of free points by their coordinates:}"
        if words[0] == "ratio" and "at" not in words:
            return r"\step{A ratio by Pythagoras differences:}"
        _, name, made = self.steps[int(words[words.index("at") + 1] if "at" in words else words[1])]
        if name.startswith("#"):
            return rf"\step{{Without the auxiliary point $\mathord{{\#{name[1:]}}}$ ({mixed(command_html(made))}):}}"
        return rf"\step{{Without ${name_tex(name)}$ ({mixed(command_html(made))}):}}"

    def equation(self, line):
        """A lemma's equation with its number; as a product where the fraction would be too wide for a line."""
        name, rest = line.split(" = ", 1)
        above, _, below = rest.partition(" / ")
        close = below.rindex(")") if below else 0
        tex = self.sides(factor(name), above[1:-1], below[1:close], below[close + 2 :])
        key = row_key(name, self.move, self.steps)
        return rf"\row{{${tex}$\quad{{\footnotesize (<{key}>)}}}}" if key in self.rows else rf"\row{{${tex}$}}"

    def sides(self, left, upper, lower, power):
        if lower in ("", "+1") or upper == "0":
            return f"{left} = {polynomial(upper, self.most)}"
        if max(len(upper.split(" ")), len(lower.split(" "))) <= MOST_IN_A_FRACTION and len(upper + lower) < 200:
            under = polynomial(lower, 0)
            under = f"{under if under.isdigit() else f'({under})'}^{{{power}}}" if power else under
            return rf"{left} = \dfrac{{{polynomial(upper, 0)}}}{{{under}}}"
        if lower[1:].isdigit() and not power:
            return rf"{lower[1:]}\,{left} = {polynomial(upper, self.most)}"
        under = f"({polynomial(lower, self.most)})" + (f"^{{{power}}}" if power else "")
        return rf"{left} \cdot {under} = {polynomial(upper, self.most)}"

    def number(self, match):
        """The number of a lemma: in the order in which they are first read."""
        if match[1] not in self.used:
            self.used.append(match[1])
        return f"({self.used.index(match[1]) + 1})"

    def last(self):
        sample = next((line for line in self.text if line.startswith("At ")), "")
        at = ", ".join(f"${factor(name)} = {value}$" for name, value in (part.split("=") for part in sample[3:].split(" "))) if sample else ""
        if self.verdict == "proved":
            return rf"\par\medskip {f'The conditions hold, for example, at {at}.' if at else ''}\hfill\rule{{1ex}}{{1ex}}"
        if self.verdict == "false":
            return rf"\par\medskip \textbf{{The counterexample:}} {at}. There goal {self.end[2]} fails: its polynomial is not $0$."
        return rf"\par\medskip Condition {self.end[2]} is never met: there is no such figure."

    def lemmas(self):
        """The table of the lemmas that are used, each once."""
        if not self.used:
            return ""
        rows = "\n".join(self.lemma(k + 1, key) for k, key in enumerate(self.used))
        widths = r"@{}rp{.24\linewidth}p{.14\linewidth}p{.44\linewidth}@{}"
        head = r"& \textit{step of Y} & \textit{quantity} & \textit{what it is} \tabularnewline[3pt]"
        return (
            r"\par\bigskip\begin{minipage}{\linewidth}\raggedright\textbf{The lemmas.} $Y$ is the point that goes; $n$ and $d$ are the numerator and the denominator of its number, "
            r"$m$ and $e$ those of a second one; $G(X)$ is the quantity with $X$ for $Y$.\par\medskip"
            + f"\n{{\\footnotesize\\begin{{tabular}}{{{widths}}}\n{head}\n{rows}\n\\end{{tabular}}}}\\end{{minipage}}\n"
        )

    def lemma(self, number, key):
        row = dict(zip(*self.rows[key]))
        which = row.get("form") or row["Variable"]
        below, power = row.get("den", "2").strip("`"), row.get("power", "1")
        over = "" if below == "1" or power == "0" else f", over {code(f'`{below}`')}" + (f" to the power {power}" if power != "1" else "")
        cells = [f"({number})", code(row.get("Step of Y", "free points")), code(which), code(row["num"]) + over]
        return r" & \raggedright ".join(cells) + r"\tabularnewline[3pt]"
