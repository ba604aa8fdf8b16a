"""Programs from the lines of their canonical text, with their conditions, goals and steps. A text that is none raises ValueError."""
# SPDX-License-Identifier: Apache-2.0
import re

from formulas import Formula
from pages import COMMANDS, CONDITION_TERMS, GOAL_TERMS, RESERVED
from polynomials import area, difference, integer, minus, parameter, plus, ratio, times

MOST = 2**127 - 1
NUMBER = re.compile("0|-?[1-9][0-9]*")
QUANTITIES = {"signed_area3": (3, area), "pythagoras_difference3": (3, difference), "sratio": (4, ratio)}
OPERANDS = {"neg": 1, "sum": 2, "sub": 2, "mult": 2, "div": 2}
# How many points a step names; its numbers stand behind them.
STEP_POINTS = {"INTER": 4, "FOOT": 3, "PRATIO": 3, "TRATIO": 2, "WEIGHTS": 3}
DEPTH = 128
POINTS = 512


def refuse():
    raise ValueError


def fraction(word, left, right):
    """A numerator and a denominator (docs/LEMMAS.md, "Terms multiplied out")."""
    (n1, d1), (n2, d2) = left, right
    if word in ("sum", "sub"):
        return (plus if word == "sum" else minus)(times(n1, d2), times(n2, d1)), times(d1, d2)
    return (times(n1, n2), times(d1, d2)) if word == "mult" else (times(n1, d2), times(d1, n2))


class Program:
    """The steps are tuples: their kind, points by number, numbers as fractions. A condition or a goal is a text with its start."""

    def __init__(self, lines, version):
        self.version = version
        self.kinds, self.points, self.pairs, self.params = {}, {}, {}, {}
        self.steps, self.free, self.numbers, self.counted = [], [], 0, 0
        self.conditions, self.goals = {}, {}
        for text in lines[:-1]:
            self.words = text.split(" ")
            self.command()
        self.words = lines[-1].split(" ") if lines else []
        self.statement()

    # words

    def take(self):
        return self.words.pop(0) if self.words else refuse()

    def expect(self, *words):
        for word in words:
            if self.take() != word:
                refuse()

    def name(self, kind):
        word = self.take()
        return word if self.kinds.get(word) == kind else refuse()

    def new_name(self):
        word = self.take()
        if not re.fullmatch("[A-Za-z][A-Za-z0-9_]*", word) or len(word) > 64 or word in RESERVED or word in self.kinds:
            refuse()
        return word

    # expressions: a fraction, and the text

    def expression(self, ratios, depth=DEPTH):
        word = self.take()
        if NUMBER.fullmatch(word):
            return (integer(int(word)), integer(1)), word if abs(int(word)) <= MOST else refuse()
        if word in QUANTITIES:
            return self.leaf(word, ratios)
        if word not in OPERANDS:
            return (self.params[word], integer(1)) if word in self.params else refuse(), word
        parts = [self.braced(ratios and not (word == "div" and k == 1), depth - 1) for k in range(OPERANDS[word])]
        text = " ".join([word, *(f"{{ {part} }}" for _, part in parts)])
        if word == "neg":
            (n, d), _ = parts[0]
            return (minus({}, n), d), text
        (left, _), (right, divisor) = parts
        if word == "div" and (not NUMBER.fullmatch(divisor) or divisor == "0"):
            self.conditions.setdefault(f"nonzero {{ {divisor} }}", right[0])
        return fraction(word, left, right), text

    def leaf(self, word, ratios):
        count, quantity = QUANTITIES[word]
        names = [self.name("point") for _ in range(count)] if ratios or word != "sratio" else refuse()
        if word == "sratio":
            self.require(["different", *names[2:]])
            self.add_goal("parallel", names)
        return (quantity(*(self.points[name] for name in names)), integer(1)), " ".join([word, *names])

    def braced(self, ratios, depth):
        if depth < 0:
            refuse()
        self.expect("{")
        value = self.expression(ratios, depth)
        self.expect("}")
        return value

    # conditions and goals

    def term(self, terms, word, points):
        letters, formula = terms[word]
        return formula.at(dict(zip(letters, points)))

    def require(self, condition):
        word, *names = condition
        points = [point for name in names for point in self.pairs.get(name) or (self.points[name],)]
        self.conditions.setdefault(" ".join(condition), self.term(CONDITION_TERMS, word, points))

    def add_goal(self, word, names):
        start = self.term(GOAL_TERMS, word, [self.points[name] for name in names])
        self.goals.setdefault(" ".join([word, *names]), start)

    # commands

    def command(self):
        word = self.take()
        if word == "assume":
            word += f" {self.take()}"
        command = COMMANDS.get(word) or refuse()
        names, known = {}, {}
        letters = list(command.letters)
        new = None
        if not word.startswith("assume "):
            new = names[letters.pop(0)] = self.new_name()
        for letter in letters:
            self.argument(command, letter, names, known)
        if self.words:
            refuse()
        self.counted += command.counted
        if self.counted > POINTS:
            refuse()
        if command.has_number:
            known["t"] = parameter(self.numbers), integer(1)
            self.numbers += 1
        self.make(command, known)
        self.declare(word, command, new, known)
        for condition, *rest in command.conditions:
            self.require([condition, *(names[letter] for letter in rest)])

    def argument(self, command, letter, names, known):
        if letter in "rs":
            known[letter], _ = self.expression(False)
        elif letter in command.given_pairs:
            names[letter] = self.name("line")
            known.update(zip(command.given_pairs[letter], self.pairs[names[letter]]))
        else:
            names[letter] = self.name("point")
            known[letter] = self.points[names[letter]]

    def make(self, command, known):
        """Adds the points of a command; they are known by the letters of their steps."""
        if command.is_free:
            self.free.append(len(self.steps))
            known["X"] = len(self.steps)
            self.steps.append(("free",))
        for letter, kind, arguments in command.steps_of(self.version):
            arguments = arguments.split(",")
            points, numbers = arguments[: STEP_POINTS[kind]], arguments[STEP_POINTS[kind] :]
            step = (kind, *(known[point] for point in points), *(self.number(number, known) for number in numbers))
            known[letter] = len(self.steps)
            self.steps.append(step)

    def number(self, text, known):
        """A number of a step: r, s, t, or a quotient of formulas."""
        if text in ("r", "s", "t"):
            return known[text]
        above, _, below = text.partition("/")
        letters = {letter: known[letter] for letter in re.findall("[A-Z]", text.replace("P_", ""))}
        return Formula(above.strip()).at(letters), Formula(below.strip()).at(letters) if below else integer(1)

    def declare(self, word, command, new, known):
        if new is None:
            return
        if word == "param":
            self.kinds[new], self.params[new] = "param", known["t"][0]
        elif command.pair:
            self.kinds[new], self.pairs[new] = "line", tuple(known[letter] for letter in command.pair)
        else:
            self.kinds[new], self.points[new] = "point", known["X"]

    def statement(self):
        self.expect("prove", "{")
        word = self.take()
        if word == "equal":
            (left, first), (right, second) = self.braced(True, DEPTH), self.braced(True, DEPTH)
            self.goals.setdefault(f"equal {{ {first} }} {{ {second} }}", fraction("sub", left, right)[0])
        elif word in GOAL_TERMS:
            names = [self.name("point") for _ in GOAL_TERMS[word][0]]
            if word == "harmonic":
                a, b, c, d = names
                self.require(["different", c, b])
                self.require(["different", b, d])
                self.add_goal("parallel", [a, c, c, b])
                self.add_goal("parallel", [a, d, b, d])
            self.add_goal(word, names)
        else:
            refuse()
        self.expect("}")
        if self.words:
            refuse()
