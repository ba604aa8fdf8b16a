"""The figure and the statement of a program in the words of coq/Plane.v, with a variable for each point and each number."""
# SPDX-License-Identifier: Apache-2.0
import sys
from pathlib import Path

TOOLS = Path(__file__).parent.parent
sys.path[1:1] = [str(TOOLS / "page"), str(TOOLS / "writer")]

from forms import COMMANDS  # noqa: E402
from language import read_program  # noqa: E402

# Words that no variable may be: Coq's own, those of coq/Plane.v that a statement may have, and those of a made file's proofs. The words of
# commands are no names of a program either.
KEYWORDS = set("""_ Axiom CoFixpoint Definition Fixpoint Hypothesis Parameter Prop SProp Set Theorem Type Variable as at by cofix else end exists
exists2 fix for forall fun if IF in let match mod return then using where with""".split())
TAKEN = set("""K field car zero one add mul sub opp div inv num point At px py cross dot dist2 signed_area3 pythagoras_difference3 sratio
different not_collinear not_parallel collinear parallel perpendicular identical is_midpoint same_length norm2 minor concyclic has_ratio
harmonic through along upright bisector direction on crossing middle figure statement rationals reals text about_text said_is placing
true_in_words impossible_in_words""".split())
SIGNS = {"sum": "+", "sub": "-", "mult": "*", "div": "/"}


def is_number(expression):
    """Whether an expression has numbers alone, which tell no field."""
    return expression[0] == "number" or (expression[0] in ("neg", *SIGNS) and all(map(is_number, expression[1:])))


class Statement:
    """What is said of a program's points."""

    def __init__(self, lines):
        self.program = read_program("\n".join(lines))
        self.names, self.lines = {}, {}
        self.points, self.numbers = [], []
        self.figure, self.conditions = [], []
        for command in self.program.commands:
            self.add(command)
        statement = self.program.statement
        if statement.word == "equal":
            self.require(self.of_expressions(statement.args))
        if statement.word == "harmonic":
            _, b, c, d = statement.args
            self.require([("different", c, b), ("different", b, d)])

    # names

    def new_name(self, name):
        """A name for Coq: that of the program, with `_` behind it where it means something else."""
        shown = name
        while shown in KEYWORDS or shown in TAKEN or shown in self.names.values():
            shown += "_"
        self.names[name] = shown
        return shown

    def number_name(self, command):
        return self.new_name(command.name if command.word == "param" else f"t_{command.name}")

    # expressions

    def expression(self, e):
        word, *rest = e
        if word == "number":
            return f"(num {rest[0]})" if rest[0] >= 0 else f"(num ({rest[0]}))"
        if word == "name":
            return self.names[rest[0]]
        if word == "neg":
            return f"(- {self.expression(rest[0])})"
        if word in SIGNS:
            return f"({self.expression(rest[0])} {SIGNS[word]} {self.expression(rest[1])})"
        return f"({' '.join([word, *(self.names[name] for name in rest)])})"

    def typed(self, e):
        return f"({self.expression(e)} : K)" if is_number(e) else self.expression(e)

    def of_expressions(self, expressions):
        """The conditions of expressions, from left to right and each after those of its parts."""
        found = []
        for e in expressions:
            if e[0] == "sratio":
                found.append(("different", e[3], e[4]))
            if e[0] in ("neg", *SIGNS):
                found += self.of_expressions(e[1:])
            if e[0] == "div" and not (e[2][0] == "number" and e[2][1] != 0):
                found.append(("nonzero", e[2]))
        return found

    # the figure

    def require(self, conditions):
        for condition in conditions:
            if condition not in self.conditions:
                self.conditions.append(condition)
                self.figure.append((self.condition(condition), f"condition {len(self.conditions)}"))

    def condition(self, condition):
        word, *rest = condition
        if word == "nonzero":
            return f"{self.typed(rest[0])} <> zero"
        return " ".join([word, *(self.lines.get(name) or self.names[name] for name in rest)])

    def argument(self, argument):
        if isinstance(argument, tuple):
            return self.expression(argument)
        return self.lines.get(argument) or self.names[argument]

    def add(self, command):
        """Adds what a command says, and its conditions behind it."""
        if command.word == "assume":
            assumed = command.args[0]
            return self.require([(assumed.word, *assumed.args)])
        form = COMMANDS[command.word]
        shown = [self.argument(argument) for argument in command.args]
        if command.is_line:
            self.lines[command.name] = f"({' '.join([form.said['coq'], *shown])})"
        if command.is_point:
            self.points.append(command.name)
            shown.insert(0, self.new_name(command.name))
        if "number" in form.said:
            self.numbers.append((command.name, self.number_name(command)))
            shown.append(self.numbers[-1][1])
        if command.is_point and command.word != "point":
            self.figure.append((" ".join([command.word, *shown]), ""))
        letters = form.named(command)
        conditions = [text.split() for text in form.listed("conditions")]
        self.require(self.of_expressions(a for a in command.args if isinstance(a, tuple)))
        self.require([(word, *(letters[letter] for letter in rest)) for word, *rest in conditions])

    # the statement

    def ratios(self, e):
        if e[0] == "sratio":
            return [e[1:]]
        return [ratio for part in e[1:] for ratio in self.ratios(part)] if e[0] in ("neg", *SIGNS) else []

    def goals(self):
        """The goals of the statement, each once."""
        word, args = self.program.statement.word, self.program.statement.args
        shown = []
        if word == "equal":
            shown = [("parallel", *ratio) for side in args for ratio in self.ratios(side)]
        if word == "harmonic":
            a, b, c, d = args
            shown = [("parallel", a, c, c, b), ("parallel", a, d, b, d)]
        shown = [self.condition(goal) for goal in shown]
        if word == "equal":
            shown.append(f"{self.typed(args[0])} = {self.typed(args[1])}")
        else:
            shown.append(self.condition(({"midpoint": "is_midpoint"}.get(word, word), *args)))
        return list(dict.fromkeys(shown))

    # variables

    def binders(self, field):
        """The variables with their types, over a field."""
        points = " ".join(self.names[name] for name in self.points)
        numbers = " ".join(shown for _, shown in self.numbers)
        return (f" ({points} : point {field})" if points else "") + (f" ({numbers} : {field})" if numbers else "")

    def variables(self):
        return "".join(f" {name}" for name in [*(self.names[name] for name in self.points), *(shown for _, shown in self.numbers)])
