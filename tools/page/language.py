"""Programs of the construction language: commands, statements and expressions as docs/LANGUAGE.md has them."""
# SPDX-License-Identifier: Apache-2.0
import itertools
import re
from dataclasses import dataclass, field

from forms import COMMANDS, FORMS as TABLE

TOKEN = re.compile(r"%[^\n]*|[A-Za-z][A-Za-z0-9_]*|-?[0-9]+|[{}]")
LINE_COMMANDS = {word for word, form in COMMANDS.items() if form.makes == "line"}
VALUED_COMMANDS = {word for word, form in COMMANDS.items() if "number" in form.said}


@dataclass
class Command:
    """A command: its word, the new name, the names and expressions behind it, and the two numbers of a free point."""

    word: str
    name: str
    args: list = field(default_factory=list)
    sketch: tuple | None = None

    @property
    def is_line(self):
        return self.word in LINE_COMMANDS

    @property
    def is_point(self):
        return not self.is_line and self.word not in ("param", "assume")


@dataclass
class Statement:
    """A statement or a condition: its word, and names or expressions."""

    word: str
    args: list


@dataclass
class Program:
    """A program that the prover has read without a fault; `comments` are those before its first command."""

    commands: list
    statement: Statement
    comments: list

    def points(self):
        return [c.name for c in self.commands if c.is_point]

    def free(self):
        return [c for c in self.commands if c.word == "point"]

    def valued(self):
        """The commands with a number of their own, in the order of the sample."""
        return [c for c in self.commands if c.word in VALUED_COMMANDS]


def integer(word):
    """The number that a word spells, with any count of leading zeros: Python reads 4,300 digits at most."""
    number = int(word.lstrip("-").lstrip("0") or "0")
    return -number if word.startswith("-") else number


def kind_of(letter):
    if letter in "rsef":
        return "expression"
    if letter in "mn":
        return "sketch"
    return letter if letter in "{}" else "name"


# The kinds of the arguments of each word; behind that of a command stands a mark, since some are words of statements too.
FORMS = {form.word + "!": [kind_of(letter) for letter in form.letters[1:]] for form in COMMANDS.values()}
FORMS |= {form.word: [kind_of(letter) for letter in form.letters] for form in TABLE if form.kind != "command"}
OPERANDS = {"neg": 1, "sum": 2, "sub": 2, "mult": 2, "div": 2}
QUANTITIES = {"signed_area3": 3, "pythagoras_difference3": 3, "sratio": 4}


class Reader:
    """Takes the tokens of a text one after another."""

    def __init__(self, text):
        tokens = TOKEN.findall(text)
        leading = itertools.takewhile(lambda token: token.startswith("%"), tokens)
        self.comments = [token[1:].strip() for token in leading]
        self.tokens = [token for token in tokens if not token.startswith("%")]
        self.at = 0

    def peek(self):
        return self.tokens[self.at] if self.at < len(self.tokens) else ""

    def take(self):
        self.at += 1
        return self.tokens[self.at - 1]

    def expression(self):
        word = self.take()
        if word in OPERANDS:
            return (word, *(self.braced() for _ in range(OPERANDS[word])))
        if word in QUANTITIES:
            return (word, *(self.take() for _ in range(QUANTITIES[word])))
        return ("number", integer(word)) if word.lstrip("-").isdigit() else ("name", word)

    def braced(self):
        self.take()
        value = self.expression()
        self.take()
        return value

    def arguments(self, kinds):
        args = []
        for kind in kinds:
            if kind == "name":
                args.append(self.take())
            elif kind == "expression":
                args.append(self.expression())
            elif kind in "{}":
                self.take()
        return args

    def statement(self):
        word = self.take()
        if word == "nonzero":
            return Statement(word, [self.braced()])
        if word == "crossing":
            return Statement(word, [self.take(), self.take()])
        return Statement(word, self.arguments(FORMS[word]))

    def command(self):
        word = self.take()
        if word == "assume":
            condition = self.statement()
            return Command(word, "", [condition])
        name = self.take()
        args = self.arguments(FORMS[word + "!"])
        sketch = None
        if word == "point" and self.peek().lstrip("-").isdigit():
            sketch = (integer(self.take()), integer(self.take()))
        return Command(word, name, args, sketch)


def read_program(text):
    """The program that a text spells; the text is one that the prover has read."""
    reader = Reader(text)
    commands = []
    while reader.peek() != "prove":
        commands.append(reader.command())
    reader.take()
    reader.take()
    statement = reader.statement()
    return Program(commands, statement, reader.comments)


def read_statement(text):
    """A statement or condition as the log has it."""
    return Reader(text).statement()
