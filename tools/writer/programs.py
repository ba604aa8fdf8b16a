# SPDX-License-Identifier: Apache-2.0
"""Reading a program: its canonical lines, steps, conditions and goals (docs/LANGUAGE.md; docs/LOG.md). It trusts that the text is a
program: `geo_cli prove` tells where one is not."""
import re

from commands import COMMANDS, CONDITION_TERMS, GOAL_TERMS, HAVE_NUMBERS
from polynomials import integer, variable_of
from quantities import Fraction, area, difference, ratio

# How many points each step names; its numbers stand behind them.
STEP_POINTS = {"INTER": 4, "FOOT": 3, "PRATIO": 3, "TRATIO": 2, "WEIGHTS": 3}


class Program:
    """A program. A step is a tuple: ("free",), ("INTER", U, V, P, Q), ("FOOT", P, U, V), ("PRATIO", W, U, V, r), ("TRATIO", U, V, r) or
    ("WEIGHTS", O, U, V, r, s), with the numbers of points and with fractions r and s. A condition or goal is its text and the numerator
    of its term, each text once."""

    def __init__(self, text):
        self.lines = []
        self.steps = []
        self.conditions = {}
        self.goals = {}
        self.numbers = 0
        self.points = {}
        self.pairs = {}
        self.params = {}
        self.tokens = re.findall(r"[{}]|[^\s{}%]+", re.sub(r"%[^\n]*", "", text))
        self.next = 0
        while self.peek() != "prove":
            self.read_command()
        self.read_statement()

    # Tokens

    def peek(self):
        return self.tokens[self.next]

    def take(self):
        self.next += 1
        return self.tokens[self.next - 1]

    def since(self, start):
        """The canonical text of the tokens from `start` on."""
        return " ".join(str(int(token)) if is_number(token) else token for token in self.tokens[start : self.next])

    # Commands

    def read_command(self):
        start = self.next
        word = self.take()
        if word == "assume":
            word += f" {self.take()}"
        command = COMMANDS[word]
        names, known = {}, {}
        letters = iter(command.form)
        new = None if word.startswith("assume ") else self.take()
        if new is not None:
            names[next(letters)] = new
        for letter in letters:
            self.read_argument(letter, names, known)
        self.lines.append(self.since(start))
        if word == "point" and is_number(self.peek()):
            self.take(), self.take()
        self.add_conditions(command.conditions[:1], names, known)
        if word in HAVE_NUMBERS:
            known["t"] = Fraction(variable_of("t", self.numbers))
            self.numbers += 1
        self.add_points(command, known)
        if new is not None:
            self.declare(word, command, new, known)
        self.add_conditions(command.conditions[1:], names, known)

    def read_argument(self, letter, names, known):
        """Reads one argument: a point, a line, of which the letters of its pair become known, or an expression."""
        if letter in "rs":
            known[letter] = self.expression()
            return
        letter, _, pair = letter.partition(":")
        names[letter] = self.take()
        if pair:
            known.update(zip(pair.split(","), self.pairs[names[letter]]))
        else:
            known[letter] = self.points[names[letter]]

    def add_points(self, command, known):
        """Adds the steps of a command; its points become known by the letters that the steps give them."""
        if command.is_free:
            self.steps.append(("free",))
            known["X"] = len(self.steps) - 1
        for point in command.points:
            letter, kind, arguments = re.fullmatch(r"(\w) = (\w+)\((.*)\)", point).groups()
            arguments = arguments.split(",")
            points, numbers = arguments[: STEP_POINTS[kind]], arguments[STEP_POINTS[kind] :]
            self.steps.append((kind, *(known[a] for a in points), *(number_of(a, known) for a in numbers)))
            known[letter] = len(self.steps) - 1

    def declare(self, word, command, new, known):
        if word == "param":
            self.params[new] = known["t"]
        elif command.pair != [""]:
            self.pairs[new] = tuple(known[letter] for letter in command.pair)
        else:
            self.points[new] = known["X"]

    def add_conditions(self, conditions, names, known):
        for condition in conditions:
            word, *letters = condition.split()
            text = " ".join([word, *(names[letter] for letter in letters)])
            if word == "crossing":
                points = [point for letter in letters for point in self.pairs[names[letter]]]
            else:
                points = [known[letter] for letter in letters]
            self.conditions.setdefault(text, CONDITION_TERMS[word](*points))

    # Expressions

    def braced(self):
        self.take()
        value = self.expression()
        self.take()
        return value

    def expression(self):
        """Reads an expression: its value as a fraction. Its conditions and its goals are added on the way."""
        word = self.take()
        if word in self.params:
            return self.params[word]
        if is_number(word):
            return Fraction(integer(int(word)))
        if word in ("signed_area3", "pythagoras_difference3"):
            quantity = area if word == "signed_area3" else difference
            return Fraction(quantity(*(self.points[self.take()] for _ in range(3))))
        if word == "sratio":
            return self.ratio([self.take() for _ in range(4)])
        if word == "neg":
            return -self.braced()
        left = self.braced()
        start = self.next
        right = self.braced()
        if word == "div":
            self.add_divisor(self.since(start), right)
            return left / right
        return left + right if word == "sum" else left - right if word == "sub" else left * right

    def ratio(self, names):
        a, b, c, d = (self.points[name] for name in names)
        self.conditions.setdefault(f"different {names[2]} {names[3]}", difference(c, d, c))
        self.add_goal("parallel", names)
        return Fraction(ratio(a, b, c, d))

    def add_divisor(self, braced, value):
        inner = braced[2:-2]
        if not is_number(inner) or int(inner) == 0:
            self.conditions.setdefault(f"nonzero {braced}", value.numerator)

    # Statements

    def add_goal(self, word, names):
        points = [self.points[name] for name in names]
        self.goals.setdefault(" ".join([word, *names]), GOAL_TERMS[word](*points))

    def read_statement(self):
        prove = self.next
        self.take(), self.take()
        start = self.next
        word = self.take()
        if word == "equal":
            value = self.braced() - self.braced()
            self.goals.setdefault(self.since(start), value.numerator)
        else:
            names = []
            while self.peek() != "}":
                names.append(self.take())
            if word == "harmonic":
                a, b, c, d = names
                for left, right in ((c, b), (b, d)):
                    self.conditions.setdefault(f"different {left} {right}", CONDITION_TERMS["different"](self.points[left], self.points[right]))
                self.add_goal("parallel", [a, c, c, b])
                self.add_goal("parallel", [a, d, b, d])
            self.add_goal(word, names)
        self.take()
        self.lines.append(self.since(prove))


def is_number(token):
    return token.lstrip("-").isdigit()


def number_of(text, known):
    """A number of a step: r, s, t, a whole number, a quotient of two, or a quotient of squares P_ABA / P_CDC."""
    if text in ("r", "s", "t"):
        return known[text]
    parts = []
    for part in re.split(" ?/ ?", text):
        points = [known[letter] for letter in part[2:]] if part.startswith("P_") else None
        parts.append(Fraction(difference(*points) if points else integer(int(part))))
    return parts[0] if len(parts) == 1 else parts[0] / parts[1]
