"""The tables of docs/LANGUAGE.md, docs/LOG.md and docs/LEMMAS.md: what commands make, ask and count for, and the rows of the lemmas.

The checker has no tables of its own. So the pages are tested with it, and say all that a checker needs.
"""
# SPDX-License-Identifier: Apache-2.0
import re
from pathlib import Path

from formulas import Formula

DOCS = Path(__file__).parent.parent.parent / "docs"
STEP = re.compile(r"(\w) = ([A-Z]+)\(([^)]*)\)")


def page(name):
    return (DOCS / name).read_text(encoding="utf-8")


def tables(text, heading):
    """The rows of the tables behind a heading, without their heads, a list of cells each."""
    _, found, behind = text.partition(f"\n{heading}\n")
    if not found:
        raise ValueError(f"no heading {heading}")
    behind = re.split(r"\n#+ ", behind)[0]
    out = []
    for table in re.findall(r"(?:^\|.*\n)+", behind, re.M):
        rows = [[cell.strip() for cell in line.strip().strip("|").split(" | ")] for line in table.splitlines()]
        out.append(rows[2:])
    return out


def ticked(text):
    """What stands between backticks."""
    return re.findall(r"`([^`]*)`", text)


def forms(cell):
    """The words of a form between backticks, such as `inter X A B C D`."""
    return ticked(cell)[0].split()


class Command:
    """A command of the language: the letters behind its word, its points and its pair in a log of either version, its conditions."""

    def __init__(self, letters, counted, conditions):
        self.letters, self.counted, self.conditions = letters, counted, conditions
        self.steps, self.pair, self.given_pairs = [], [], {}
        self.first_steps = None

    @property
    def has_number(self):
        """Whether it takes a number of its own, t: a parameter is one, and has no points."""
        return self.letters == ["r"] or any("t" in arguments.split(",") for _, _, arguments in self.steps)

    def steps_of(self, version):
        return self.first_steps if version == 1 and self.first_steps else self.steps


def word_of(form):
    """The word of a command, for `assume` with that of its condition, and what stands behind."""
    return (" ".join(form[:2]), form[2:]) if form[0] == "assume" else (form[0], form[1:])


def read_commands():
    commands = {}
    for form, _, _, counted, conditions in tables(page("LANGUAGE.md"), "## Commands")[0]:
        word, letters = word_of(forms(form))
        commands[word] = Command(letters, int(counted), [text.split() for text in ticked(conditions)])
    log = page("LOG.md")
    for form, steps, pair in tables(log, "## The steps of a program")[0]:
        word, letters = word_of(forms(form))
        command = commands[word]
        command.steps = STEP.findall(steps.replace("`", ""))
        command.is_free = steps.endswith(", free")
        command.pair = pair.split(", ") if pair else []
        lines = [letter for letter in letters if letter in "ab" and (letter != letters[0] or not command.pair)]
        command.given_pairs = dict(zip(lines, re.findall(r"([A-Z]), ([A-Z])", form.rpartition("`")[2])))
    first = re.search(r"In a log of version 1 the points of `(\w+)[^`]*` are (.*)\.", log)
    commands[first[1]].first_steps = STEP.findall(first[2])
    return commands


def read_terms():
    """The terms of conditions and of goals: the letters of their points, and the formula; none where these are expressions."""
    both = []
    for table in tables(page("LOG.md"), "## The terms of conditions and goals"):
        terms = {}
        for form, term in table:
            word, *letters = forms(form)
            if word == "harmonic" or "`" in term:
                pairs = [letter for pair in re.findall(r"([A-Z]), ([A-Z])", form.rpartition("`")[2]) for letter in pair]
                terms[word] = (pairs or letters, Formula(ticked(term)[0]))
        both.append(terms)
    return both


class Row:
    """A row of the lemma table: the letters of its step, its numerator, denominator and power."""

    def __init__(self, letters, num, den, power, form=None):
        self.letters, self.num, self.den, self.power, self.form = letters, Formula(num), Formula(den), power, form


def step_form(cell):
    kind, letters = re.match(r"([A-Z]+)\(([\w,]+)\)", cell).groups()
    return kind, letters.split(",")


def read_rows():
    """The rows of areas and differences: {kind of step: {kind of variable: row}}; those of ratios by lemma; those of free points."""
    text = page("LEMMAS.md")
    weight = re.search(r"`a` stands for `([^`]*)`", text)[1]
    points, kind, letters = {}, "", []
    for step, variable, num, den, power, _ in tables(text, "### Areas and Pythagoras differences")[0]:
        if step:
            kind, letters = step_form(step)
        num = re.sub(r"\ba\b", f"({weight})", ticked(num)[0])
        points.setdefault(kind, {})[variable] = Row(letters, num, den.strip("`"), int(power))
    ratios = {}
    for lemma, step, form, num, den, _ in tables(text, "### Ratios")[0]:
        kind, letters = step_form(step) if "(" in step else (None, [])
        ends = form.partition(", D is ")[2].split(" or ")
        ratios[int(lemma)] = (kind, Row(letters, ticked(num)[0], den.strip("`"), 1, (ticked(form)[0], ends)))
    free = {}
    for variable, num, power, _ in tables(text, "### Free points")[0]:
        free[ticked(variable)[0][0]] = Row([], ticked(num)[0], "2", int(power))
    return points, ratios, free


def read_reserved():
    paragraph = page("LANGUAGE.md").partition("**Reserved words**")[2].partition("The\nwords of conditions")[0]
    return {word for words in ticked(paragraph) for word in words.split()}


COMMANDS = read_commands()
CONDITION_TERMS, GOAL_TERMS = read_terms()
POINT_ROWS, RATIO_ROWS, FREE_ROWS = read_rows()
RESERVED = read_reserved()
