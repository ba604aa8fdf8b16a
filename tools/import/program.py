"""The program of a figure that was read: the statement is chosen, the commands and comments are written, or all is refused by name."""
# SPDX-License-Identifier: Apache-2.0
from pathlib import Path

import paths  # noqa: F401
from files import reader_of
from forms import COMMANDS
from language import FORMS, LINE_COMMANDS, OPERANDS, QUANTITIES, TOKEN, Reader as StatementReader
from model import Left, Unsaid
from reader import Stated, printable, roots_of, short
from shown import shown_by

MOST_POINTS = 512
MOST_TOLD = 20
WORDS = {word.rstrip("!") for word in FORMS} | set(OPERANDS) | set(QUANTITIES)


class Refused(Exception):
    """The figure cannot be brought; each line says where and why."""

    def __init__(self, *lines):
        super().__init__("\n".join(lines))


class Import:
    """A file, with what was read of it."""

    def __init__(self, name, data):
        self.name = name
        self.reader = reader_of(data)
        self.reader.read()
        self.scribe = self.reader.scribe
        shown = [Stated(0, "the drawing shows it: a guess, to be decided", make, False) for make in shown_by(self.scribe)]
        self.statements = sorted(self.reader.statements, key=lambda stated: not stated.is_told) + shown

    # the statement

    def choose(self, goal):
        """The statement with this number, else the first that can be said; one of the file that cannot be is refused."""
        for k in [goal - 1] if goal else range(len(self.statements)):
            if not 0 <= k < len(self.statements):
                break
            try:
                return k, self.statements[k].make()
            except Unsaid as unsaid:
                if self.statements[k].is_told or goal:
                    raise self.refusal(self.statements[k], unsaid) from None
        raise self.no_statement(goal)

    def refusal(self, stated, unsaid):
        return Refused(f"{self.at(stated.line)}: {stated.text}: {unsaid}", *self.told(roots_of(unsaid.causes)))

    def no_statement(self, goal):
        asked = f"it has no statement {goal}, only {len(self.statements)}" if goal and self.statements else "it has no statement"
        reason = " that can be said, and these elements are left out:" if self.reader.left and not self.statements else ""
        advice = f'{self.name}: give a statement by --statement "collinear A B C"'
        return Refused(f"{self.name}: {asked}{reason}", *self.told(roots_of(self.reader.left)), advice)

    def told(self, roots):
        lines = [f"{self.at(left.line)}: {left.told()}" for left in roots[:MOST_TOLD]]
        return lines + [f"{self.name}: and {len(roots) - MOST_TOLD} more"] * (len(roots) > MOST_TOLD)

    def at(self, line):
        """A place of the file, as errors begin with it."""
        part = self.reader.part
        return self.name if not line else f"{self.name}: {part} line {line}" if part else f"{self.name}:{line}"

    def given(self, text):
        """A statement of the command line, with the file's labels in the place of names."""
        changed = dict(self.scribe.names.changed)
        known = {command.name for command in self.scribe.commands}
        words, causes, unknown = [], [], []
        for word in text.replace("{", " { ").replace("}", " } ").split():
            name = changed.get(word, word)
            found = self.reader.objects.get(word)
            if isinstance(found, Left):
                causes.append(found)
            elif not TOKEN.fullmatch(name) or name[0].isalpha() and name not in known and name not in WORDS:
                unknown.append(word)
            words.append(name)
        if unknown:
            raise Refused(f"{self.name}: the statement wants {', '.join(unknown)}, which is no point or number of the file")
        if causes:
            wanted = ", ".join(left.name for left in causes)
            raise Refused(f"{self.name}: the statement wants {wanted}, which cannot be said", *self.told(roots_of(causes)))
        statement = " ".join(words)
        if not is_statement(statement, {c.name: c.word for c in self.scribe.commands}):
            raise Refused(f"{self.name}: '{text}' is no statement of the language")
        return statement

    def idle(self):
        """A statement that holds in each figure."""
        if not self.scribe.points:
            left = roots_of(self.reader.left)
            raise Refused(f"{self.name}: it has no point that can be said" + (", and these elements are left out:" if left else ""), *self.told(left))
        name = self.scribe.points[0].name
        return f"identical {name} {name}"

    # the program

    def program(self, goal=None, text=None, is_idle=False, only_needed=False):
        """The text of the program, and in a few words where its statement is from."""
        others = []
        if text is not None or is_idle:
            statement = self.idle() if is_idle else self.given(text)
            source = "none: this one always holds" if is_idle else "given by --statement"
            commands = list(self.scribe.commands)
        else:
            k, statement = self.choose(goal)
            source = self.source(self.statements[k])
            commands = list(self.scribe.commands)
            others = self.others(k)
        if only_needed or cost(commands) > MOST_POINTS:
            commands = needed(commands, statement)
        if cost(commands) > MOST_POINTS:
            raise Refused(f"{self.name}: its figure has more than {MOST_POINTS} points, those of constructions counted")
        head = "".join(f"% {printable(note).removesuffix('.')}.\n" for note in [*self.notes(commands), f"Statement: {source}", *others])
        return head + self.body(commands) + f"prove {{ {statement} }}\n", f"{statement} ({source})"

    def source(self, stated):
        """Where a statement is from."""
        if not stated.line:
            return stated.text
        return f"line {stated.line}: {stated.text}" if stated.is_told else f"line {stated.line}: {stated.text}: a guess, to be decided"

    def others(self, k):
        """The other statements that were found; each may want helping points of its own, which the program does not get."""
        lines = []
        for n, stated in enumerate(self.statements[:MOST_TOLD]):
            try:
                lines += [f"Or --goal {n + 1}: {stated.make()} ({stated.text})"] if n != k else []
            except Unsaid:
                pass
        return lines

    def notes(self, commands):
        names = {command.name for command in commands}
        changed = ", ".join(f"{label} is {name}" for label, name in self.scribe.names.changed if name in names)
        skipped = len(self.scribe.commands) - len(commands)
        return [
            f"From {short(Path(self.name).name)}, a figure of {self.reader.tool}{self.reader.part and f'; lines are those of {self.reader.part}'}",
            *([f"Names: {changed}"] if changed else []),
            *self.scribe.notes,
            *(f"Left out, line {left.line}: {left.told()}" for left in self.reader.left),
            *([f"Not needed by the statement, and not here: {skipped} commands"] if skipped > 0 else []),
        ]

    def body(self, commands):
        scale = scale_of([command.at for command in commands if command.at])
        return "".join(f"{command.text(scale)} % {command.source}\n" for command in commands)

    def summary(self):
        """What was read, in a few words."""
        left = len(self.reader.left)
        more = f", {left} of them left out" if left else ""
        return f"a figure of {self.reader.tool}, {self.reader.count} element{'s' * (self.reader.count != 1)}{more}"


def is_statement(text, words):
    """Whether this reads as a statement of the language; `words` has the command that made each name."""
    reader = StatementReader(text)
    try:
        statement = reader.statement()
    except (LookupError, ValueError, RecursionError):
        return False
    return reader.at == len(reader.tokens) and all(is_said(argument, words) for argument in statement.args)


def is_said(e, words):
    """Whether a point, or an expression of points and parameters, has the names that it should."""
    if isinstance(e, str):
        return e in words and words[e] not in LINE_COMMANDS | {"param"}
    if e[0] in ("number", "name"):
        return e[0] == "number" or words.get(e[1]) == "param"
    return all(is_said(part, words) for part in e[1:])


def needed(commands, statement):
    """The commands that a statement needs, directly or through others."""
    wanted = set(statement.split())
    kept = []
    for command in reversed(commands):
        if command.name in wanted:
            kept.append(command)
            wanted.update(command.names())
    return kept[::-1]


def cost(commands):
    """How many points the commands count for in the language's limit."""
    return sum(COMMANDS[command.word].points for command in commands if command.word in COMMANDS)


def scale_of(places):
    """The power of ten by which coordinates become whole numbers that draw the figure as it was."""
    extent = max((max(p[k] for p in places) - min(p[k] for p in places) for k in (0, 1)), default=0.0) if places else 0.0
    scale = 1.0
    while 0 < extent * scale < 300 and scale < 1e12:
        scale *= 10
    while extent * scale > 1e6 and scale > 1e-12:
        scale /= 10
    return scale
