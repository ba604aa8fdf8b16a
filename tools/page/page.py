"""A page of a program: the figure, the statement, the verdict and the proof.

The verdict and the proof are the prover's. The picture and the words are this tool's, and nothing is proved of them.
"""
# SPDX-License-Identifier: Apache-2.0
import base64
import hashlib
import html
import re
from fractions import Fraction
from pathlib import Path

from cited import Cited
from figure import placed
from formulas import NoFigure
from language import read_program, read_statement
from live import controls, data, described, plain_text, script
from picture import Drawn, picture
from proof import Proof, lemmas_html, table_rows
from values import chosen, is_clear, meets, sampled, sketched
from words import command_html, condition_html, name_html, number_html, statement_html

HERE = Path(__file__).parent
GENERATOR = '<meta name="generator" content="Jarduzki">'


class Page:
    """All that is known of a program when its page is made. `at` is a line of numbers at which the statement fails, as `place` says, where
    the log has no verdict. `citation` is the input of `cite` where another formulation is cited; then `log` is the answer of solve, and
    `text` the proof of the formulation. `is_short` leaves long lines of the proof out; `is_recorded`: the gate's record has the prover as
    proved."""

    def __init__(self, name, source, log, text, binary, at="", citation="", is_short=False, is_recorded=False):
        self.name = name
        self.log = log
        self.text = text
        self.binary = binary
        self.source = source
        self.is_short = is_short
        self.is_recorded = is_recorded
        self.sketch = read_program(source)
        self.canonical = "".join(line[2:] + "\n" for line in log if line.startswith("| "))
        self.program = read_program(self.canonical)
        for command, sketch in zip(self.program.free(), self.sketch.free()):
            command.sketch = sketch.sketch
        self.conditions = [read_statement(line.split(" ", 2)[2]) for line in log if line.startswith("condition ")]
        self.goals = [read_statement(line.split(" ", 2)[2]) for line in log if line.startswith("goal ")]
        self.end = log[-1].split(" ")
        self.tried = [Fraction(number) for number in at.split(" ")[1:]]
        self.verdict = self.end[1] if self.end[0] == "verdict" else "false" if self.tried else "open" if self.end == ["open"] else "undecided"
        self.cited = Cited(citation, len(self.program.commands)) if citation else None
        self.live = self.drawn = None

    def title(self):
        """What the first comment begins with, where that is short and a parenthesis follows; else the name of the file."""
        head = re.match(r"([^(.:]{1,40}) \(", " ".join(self.sketch.comments))
        stem = Path(self.name).stem.replace("_", " ")
        return head[1] if head else stem[:1].upper() + stem[1:] if self.name != "<stdin>" else "A program"

    def html(self, links=""):
        """The page; `links` lead to others, where there are any."""
        parts = [links, self.lead(), self.box(), self.picture(), self.brought(), self.counterexample(), self.construction()]
        parts += [self.cited.html() if self.cited else "", self.proof(), self.footer(), links]
        return document(self.title(), "\n".join(part for part in parts if part), self.live)

    def lead(self):
        comment = html.escape(" ".join(self.sketch.comments))
        return f"<h1>{html.escape(self.title())}</h1>" + (f"<p>{comment}</p>" if comment else "")

    def box(self):
        statement = statement_html(self.program.statement)
        listed = "".join(f"<li>{condition_html(c)}</li>" for c in self.conditions)
        if self.verdict == "proved":
            words = f"<p><b>Proved.</b> {statement}{' wherever' if listed else '.'}</p>"
            words += f"<ul>{listed}</ul>" if listed else ""
        elif self.tried:
            words = f"<p><b>False.</b> It is not always so that {statement}: it fails at {self.tried_numbers()}, as the word <code>place</code> "
            words += f"says. There is no log: the prover stopped, {self.stop()}.</p>"
        elif self.verdict == "false":
            goal = self.goals[int(self.end[2]) - 1]
            words = f"<p><b>False.</b> It is not always so that {statement_html(goal)}{' where' if listed else '.'}</p>"
            words += f"<ul>{listed}</ul>" if listed else ""
        elif self.verdict == "impossible":
            condition = self.conditions[int(self.end[2]) - 1]
            words = f"<p><b>Impossible.</b> It is never so that {condition_html(condition)}: there is no such figure.</p>"
        elif self.verdict == "open":
            words = f"<p><b>Open.</b> {statement}? The prover stopped, and no other formulation was found that can be cited.</p>"
        else:
            words = f"<p><b>Undecided.</b> {statement}? The prover stopped: {self.stop()}.</p>"
        return f'<section class="verdict {self.verdict}">{words}</section>'

    def tried_numbers(self):
        """What is free, with its numbers at the figure that was tried."""
        points, rest = self.program.free(), [number_html(number) for number in self.tried]
        places = [f"{name_html(c.name)} = ({rest[2 * k]}, {rest[2 * k + 1]})" for k, c in enumerate(points)]
        valued = zip(self.program.valued(), rest[2 * len(points) :])
        return ", ".join(places + [f"{name_html(c.name) if c.word == 'param' else f't({name_html(c.name)})'} = {number}" for c, number in valued])

    def stop(self):
        if self.end[0] != "stop":
            return "the log would be too long" if self.end == ["too", "long"] else "at the end of its time"
        if self.end[1] == "spent":
            return f"out of steps at line {self.end[2]} of its log"
        return f"a {'degree' if self.end[3] == 'degree' else 'number'} past the limit at line {self.end[2]} of its log"

    def figure(self, values):
        """The figure at these values and what is drawn of it; nothing where there is none, or none that can be drawn."""
        try:
            figure = placed(self.program, self.canonical, values, self.binary)
            drawn = Drawn(self.program, figure)
            drawn.view()
            return figure, drawn
        except (NoFigure, ZeroDivisionError, OverflowError):
            return None

    def picture(self):
        if self.verdict == "impossible" or not self.program.points():
            return ""
        values, caption = self.values()
        found = self.figure(values) if values else None
        if found is None:
            return '<p class="note">No picture: no values were found that meet the figure.</p>'
        figure, drawn = found
        self.drawn = values
        self.live = data(described(self.program, figure, drawn, self.conditions))
        still = picture(drawn, self.told()).replace("<svg ", '<svg class="still" ', 1)
        return (
            f'<figure class="live">{still}<svg class="moving" role="group" aria-label="The figure, to be moved"></svg>{controls(self.program, figure)}'
            f'<figcaption>{caption}<span class="moved"> What has a ring can be pulled, or moved by the arrow keys. The moving figure is '
            "reckoned in floating point, and proves nothing.</span></figcaption></figure>"
        )

    def values(self):
        """The values of the picture, and where they come from."""
        places, sample = sketched(self.program), self.tried or sampled(self.log)
        fails = self.verdict == "false"
        if places:
            values = chosen(self.program, self.conditions, places, False)
            if values:
                return values, "The free points are where the program's numbers put them."
        if sample and fails:
            figure = meets(self.program, self.conditions, sample)
            if figure and is_clear(figure):
                return sample, "The figure of the counterexample." if self.tried else "The figure of the log's sample."
        values = chosen(self.program, self.conditions, None, fails)
        more = "A figure in which the statement fails, chosen for a clear picture." if fails else "Free points and numbers are chosen for a clear picture."
        return (values, more) if values else (sample, "The figure of the log's sample.")

    def brought(self):
        """The program as it was made of another tool's figure, with its comments."""
        if not any(", a figure of " in comment for comment in self.sketch.comments[:1]):
            return ""
        return f"<details><summary>The program that was made of this figure</summary><pre>{html.escape(self.source)}</pre></details>"

    def counterexample(self):
        """Its points, and where the picture is another figure its own picture."""
        values = self.tried or sampled(self.log)
        found = self.figure(values) if self.verdict == "false" and self.program.points() else None
        if found is None:
            return ""
        figure, drawn = found
        rows = "".join(
            f"<tr><td>{name_html(name)}</td><td>({number_html(Fraction(x))}, {number_html(Fraction(y))})</td></tr>"
            for name, (x, y) in figure.points.items()
        )
        rows += "".join(f"<tr><td>{name_html(n)}</td><td>{number_html(Fraction(v))}</td></tr>" for n, v in figure.numbers.items())
        title = "The counterexample" if self.tried else "The counterexample of the log"
        shown = "" if values == self.drawn else f"<figure>{picture(drawn, self.told())}</figure>"
        return f'<h2>{title}</h2>{shown}<table class="points">{rows}</table>'

    def told(self):
        """The picture in plain words, for a reader who does not see it."""
        parts = ["A figure with " + ", ".join(command.name for command in self.program.commands if command.name)]
        parts += [command_html(command) for command in self.program.commands if command.word not in ("point", "param")]
        parts += [("Fails: " if self.verdict == "false" else "Drawn thicker: ") + statement_html(self.program.statement)]
        return plain_text("; ".join(parts))

    def construction(self):
        rows = "".join(f"<li>{command_html(command)}</li>" for command in self.program.commands)
        return f"<h2>The figure</h2><ul>{rows}</ul><p>Statement: {statement_html(self.program.statement)}.</p>"

    def proof(self):
        if not self.text:
            return ""
        lemmas = HERE.parent.parent / "docs" / "LEMMAS.md"
        rows = table_rows(lemmas.read_text()) if lemmas.exists() else {}
        proof = Proof(self.cited.form, self.cited.log, self.text, rows) if self.cited else Proof(self.program, self.log, self.text, rows)
        body = proof.html(self.is_short)
        title = "The proof of the formulation" if self.cited else "The proof" if self.verdict == "proved" else "Why"
        used = f"<h2>The lemmas of these equations</h2>{lemmas_html(proof.used, rows)}" if proof.used else ""
        short = " Its longest lines and the chains of its conditions are left out here." if self.is_short else ""
        return (
            f"<h2>{title}</h2><p class='note'><i>S</i><sub>ABC</sub> is the signed area of the triangle, <i>P</i><sub>ABC</sub> is "
            f"AB&sup2; + CB&sup2; &minus; AC&sup2;. Each quantity is replaced, last point first, by its lemma.{short}</p>{body}{used}"
        )

    def footer(self):
        prover = ", which is itself proved" if self.is_recorded else "; of this build of it no record says that it is proved"
        return (
            f"<h2>The program</h2><pre>{html.escape(self.canonical)}</pre><footer>The verdict and the proof are the prover's{prover}. "
            "The picture and the words of this page are made by a tool that is not.</footer>"
        )


def document(title, body, live=None):
    """A page that loads nothing: its style stands in it, and its script, where it has the data of a figure that moves."""
    style = "\n" + (HERE / "style.css").read_text()
    code = script() if live else ""
    return (
        '<!DOCTYPE html>\n<html lang="en">\n<head>\n<meta charset="utf-8">\n'
        f'<meta http-equiv="Content-Security-Policy" content="{policy(style, code)}">\n'
        f'<meta name="viewport" content="width=device-width, initial-scale=1">\n{GENERATOR}\n'
        f"<title>{html.escape(title)}</title>\n<style>{style}</style>\n</head>\n<body>\n<main>\n{body}\n</main>\n"
        + (f"{live}\n<script>{code}</script>\n" if live else "")
        + "</body>\n</html>\n"
    )


def policy(style, code):
    """A content security policy: nothing but this style and this code, by their hashes."""

    def source(text):
        return f"'sha256-{base64.b64encode(hashlib.sha256(text.encode()).digest()).decode()}'" if text else "'none'"

    return f"default-src 'none'; style-src {source(style)}; script-src {source(code)}; base-uri 'none'; form-action 'none'"
