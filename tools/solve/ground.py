"""The ground of a search: a program, auxiliary points behind it, and the figures at which other formulations are cited."""
# SPDX-License-Identifier: Apache-2.0
from dataclasses import dataclass

from relations import Relations
from residues import NoFigure, holds, places, random_figure
from canonical import Command, Names, command_conditions, conditions, needed, renamed, spellings, without_lines

ASSUMED = ("different", "not_collinear", "not_parallel")


@dataclass
class Try:
    """A formulation, and the figure at which it is to be cited: the program, auxiliary commands and assumptions. And what came of it."""

    rule: str
    form: list
    figure: list
    own_form: list
    stage: int = 0
    far: float = 0
    outcome: str = ""
    log: str = ""
    placed: object = None

    def citation(self, figure_text):
        """The input of `cite`: the log, the line `with`, which has the names as they are, and the figure."""
        return self.log + " ".join(["with", *(c.name for c in self.form if c.name)]) + "\n" + figure_text


class Ground:
    """A program without its lines, auxiliary points behind it, and a figure of them at random numbers."""

    def __init__(self, book, statement, names, dice):
        self.book, self.statement, self.names, self.dice = book, statement, names, dice
        self.commands, self.helpers = without_lines(book, names)
        self.own = set(conditions(book, statement))
        self.load_added([])

    def load_added(self, added):
        """Takes these auxiliary commands, and places the figure anew. NoFigure: they make none."""
        self.added = added
        self.real = random_figure(self.commands + added, self.dice, True)
        self.at = places(self.real)

    def with_added(self, added):
        other = object.__new__(type(self))
        other.__dict__.update(self.__dict__)
        other.load_added(self.added + [c for c in added if c not in self.added and c not in self.helpers])
        return other

    def relations(self):
        return Relations(self.at, self.commands, self.added)

    def spelled(self, form):
        """The same constructions, with points of lines and circles in the order in which the program's own conditions have them."""
        return [c if c in self.commands else min(spellings(c), key=self.new_conditions) for c in form]

    def new_conditions(self, command):
        return sum(c not in self.own for c in command_conditions(command))

    def attempt(self, rule, own_form):
        """The try of a formulation: what it needs of the auxiliary points, by names of its own as low as can be, and what it assumes."""
        own_form = self.spelled(own_form)
        behind = needed(self.helpers + self.added, [c.name for c in own_form])
        taken, names = {c.name for c in self.book}, {}
        for c in behind:
            names[c.name] = Names.free(taken)
            taken.add(names[c.name])
        form, behind = ([Command(c.word, names.get(c.name, c.name), renamed(c.args, names)) for c in some] for some in (own_form, behind))
        have = set(conditions(self.book + behind, self.statement))
        asked = [c for c in conditions(form, self.statement) if c not in have and c[0] in ASSUMED]
        return Try(rule, form, self.book + behind + [Command("assume", "", c) for c in asked], own_form)

    def is_true(self, form):
        """Whether a formulation is true at random numbers of its own."""
        try:
            return holds(self.statement, random_figure(form, self.dice))
        except NoFigure:
            return False
