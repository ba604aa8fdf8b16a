"""Programs as values: commands and a statement that can be compared and put in sets, their canonical texts and their conditions."""
# SPDX-License-Identifier: Apache-2.0
import sys
from functools import lru_cache
from pathlib import Path
from typing import NamedTuple

TOOLS = Path(__file__).resolve().parent
sys.path[1:1] = [str(TOOLS / "page"), str(TOOLS / "writer")]
from forms import COMMANDS  # noqa: E402
from language import LINE_COMMANDS, QUANTITIES, VALUED_COMMANDS, read_program  # noqa: E402


class Command(NamedTuple):
    """A command: its word, the new name, and names and expressions. An assumption has no name, and a condition behind it."""

    word: str
    name: str
    args: tuple

    @property
    def is_line(self):
        return self.word in LINE_COMMANDS

    @property
    def is_point(self):
        return self.word not in LINE_COMMANDS and self.word not in ("param", "assume")


class Statement(NamedTuple):
    word: str
    args: tuple


def read(text):
    """The commands and the statement of a text that the prover has read without a fault."""
    program = read_program(text)
    commands = []
    for c in program.commands:
        args = (c.args[0].word, *c.args[0].args) if c.word == "assume" else tuple(c.args)
        commands.append(Command(c.word, c.name, args))
    return commands, Statement(program.statement.word, tuple(program.statement.args))


def expression_text(e):
    if e[0] in ("number", "name"):
        return str(e[1])
    if e[0] in QUANTITIES:
        return " ".join(e)
    return e[0] + "".join(f" {{ {expression_text(part)} }}" for part in e[1:])


def line_of(command):
    """A command as the canonical text has it."""
    args = [a if isinstance(a, str) else expression_text(a) for a in command.args]
    return " ".join([command.word, *([command.name] if command.name else []), *args])


def statement_text(statement):
    args = [a if isinstance(a, str) else f"{{ {expression_text(a)} }}" for a in statement.args]
    return " ".join([statement.word, *args])


def program_text(commands, statement):
    return "".join(line_of(c) + "\n" for c in commands) + f"prove {{ {statement_text(statement)} }}\n"


def names_in(args):
    """The names in arguments, those of expressions too."""
    for a in args:
        if isinstance(a, str):
            yield a
        elif a[0] == "name":
            yield a[1]
        elif a[0] != "number":
            yield from names_in(a[1:])


def parts_of(e, word):
    """The parts of an expression that begin with a word, in post-order."""
    if isinstance(e, str) or e[0] in ("number", "name"):
        return []
    found = [] if e[0] in QUANTITIES else [p for part in e[1:] for p in parts_of(part, word)]
    return found + [e] * (e[0] == word)


def expression_conditions(e, with_ratios):
    """The conditions of an expression: its divisors, and in a statement its ratios."""
    divisors = [d[2] for d in parts_of(e, "div") if d[2][0] != "number" or d[2][1] == 0]
    ratios = parts_of(e, "sratio") if with_ratios else []
    return [("nonzero", expression_text(d)) for d in divisors] + [("different", r[3], r[4]) for r in ratios]


@lru_cache(maxsize=100_000)
def command_conditions(command):
    """The conditions of one command, as tools/forms has them."""
    found = [c for a in command.args if not isinstance(a, str) for c in expression_conditions(a, False)]
    if command.word == "assume":
        return [command.args]
    form = COMMANDS[command.word]
    named = form.named(command)
    return found + [(word, *(named[x] for x in letters)) for word, *letters in map(str.split, form.listed("conditions"))]


def conditions(commands, statement=None):
    """The list of conditions of a program, each once."""
    found = [c for command in commands for c in command_conditions(command)]
    if statement and statement.word == "equal":
        found += [c for e in statement.args for c in expression_conditions(e, True)]
    if statement and statement.word == "harmonic":
        a, b, c, d = statement.args
        found += [("different", c, b), ("different", b, d)]
    return list(dict.fromkeys(found))


def condition_text(c):
    return f"nonzero {{ {c[1]} }}" if c[0] == "nonzero" else " ".join(c)


def same(condition):
    """What a condition says, the same in each of its spellings."""
    word, *a = condition
    if word == "not_parallel":
        return (word, frozenset((frozenset(a[:2]), frozenset(a[2:]))))
    return (word, frozenset(a))


def needed(commands, names):
    """Those of the commands that the names need, in their order, without assumptions."""
    wanted, kept = set(names), []
    for c in reversed(commands):
        if c.name in wanted:
            kept.append(c)
            wanted.update(names_in(c.args))
    return kept[::-1]


def renamed(args, names):
    """Arguments with other names."""
    return tuple(
        names.get(a, a)
        if isinstance(a, str)
        else ("name", names.get(a[1], a[1]))
        if a[0] == "name"
        else a
        if a[0] == "number"
        else (a[0], *renamed(a[1:], names))
        for a in args
    )


def spellings(command):
    """The same construction with its points in other orders, itself first."""
    if command.word == "assume":
        return [command]
    form = COMMANDS[command.word]
    named = form.named(command)
    return [command, *(command._replace(args=tuple(named[letter] for letter in row.split())) for row in form.listed("same"))]


class Names:
    """Names of auxiliary points: the same command has the same name in a whole search, and no other."""

    def __init__(self, taken):
        self.taken, self.given = set(taken), {}

    def command(self, word, *args):
        key = (word, args)
        if key not in self.given:
            self.given[key] = self.free(self.taken)
            self.taken.add(self.given[key])
        return Command(word, self.given[key], args)

    @staticmethod
    def free(taken):
        return next(f"Z{k}" for k in range(1, len(taken) + 2) if f"Z{k}" not in taken)


def without_lines(commands, names):
    """The commands without lines: a line is two of its points, and where it has not two, auxiliary points are made."""
    made, pairs, helpers = [], {}, []

    def helper(word, *args):
        command = names.command(word, *args)
        if command not in helpers:
            helpers.append(command)
            made.append(command)
        return command.name

    for c in commands:
        if c.word == "line":
            pairs[c.name] = c.args
        elif c.word == "med":
            middle = helper("midpoint", *c.args)
            pairs[c.name] = (middle, helper("tratio", middle, c.args[0], ("number", 1)))
        elif c.is_line:
            p, line = c.args
            end = helper("translate", *pairs[line], p)
            pairs[c.name] = (p, end if c.word == "parallel" else helper("tratio", p, end, ("number", 1)))
        elif c.word == "intersec":
            made.append(Command("inter", c.name, pairs[c.args[0]] + pairs[c.args[1]]))
        else:
            made.append(c)
    return made, helpers
