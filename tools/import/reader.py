"""What the readers of all formats have in common: the objects by label, what is left out, and the statements of the file."""
# SPDX-License-Identifier: Apache-2.0
from dataclasses import dataclass

from model import Left, Unsaid
from scribe import Scribe
from table import Forms

MOST_ELEMENTS = 10_000


class BadFile(Exception):
    """The file cannot be read; the text says why."""


@dataclass
class Stated:
    """A statement that is found: its line in the file, how it is written there, and what makes it. `is_told` where the file has it."""

    line: int
    text: str
    make: object
    is_told: bool = True


class Reader:
    """`objects` has what each label is, or why it is left out; `part` names the part of an archive that is read."""

    tool = ""
    part = ""

    def __init__(self):
        self.scribe = Scribe()
        self.forms = Forms(self.tool)
        self.objects = {}
        self.left = []
        self.statements = []
        self.count = 0
        self.read_count = 0

    def begin(self, line, call):
        """What is made from here on comes from this element."""
        self.count += 1
        if self.count > MOST_ELEMENTS:
            raise BadFile(f"line {line}: it has more than {MOST_ELEMENTS:,} elements")
        self.scribe.source = f"line {line}: {short(call)}"

    def leave(self, line, labels, call, unsaid, is_told=True):
        """An element is left out. It is told, but where it makes no point, line or circle."""
        left = Left(labels, line, short(call), str(unsaid), unsaid.causes)
        for label in labels:
            self.objects[label] = left
        if is_told:
            self.left.append(left)

    def found(self, label):
        """What a label is; where it is left out, that is why the one who asks is too."""
        value = self.objects.get(label)
        if isinstance(value, Left):
            raise Unsaid(f"it wants {label}, which is left out", [value])
        if value is None:
            raise Unsaid(f"{label[:60]} is not declared before it")
        return value

    def all_found(self, labels):
        """The same for several; all that are left out are named."""
        return gathered([lambda label=label: self.found(label) for label in labels])

    def state(self, line, text, make, is_told=True):
        self.statements.append(Stated(line, short(text), make, is_told))


def gathered(makers):
    """What these make; where some cannot, all causes together."""
    values, faults = [], []
    for make in makers:
        try:
            values.append(make())
        except Unsaid as unsaid:
            faults.append(unsaid)
    if faults:
        causes = list(dict.fromkeys(cause for fault in faults for cause in fault.causes))
        own = [str(fault) for fault in faults if not fault.causes]
        wanted = ", ".join(cause.name for cause in causes)
        reason = "; ".join(own) or f"it wants {wanted}, which {'is' if len(causes) == 1 else 'are'} left out"
        raise Unsaid(reason, causes)
    return values


def roots_of(causes):
    """The elements that are left out by themselves, and that these rest on."""
    roots, seen, todo = [], set(), list(causes)
    while todo:
        left = todo.pop(0)
        if id(left) in seen:
            continue
        seen.add(id(left))
        if left.causes:
            todo += left.causes
        else:
            roots.append(left)
    return roots


def printable(text):
    """A text on one line, without signs that a terminal would follow."""
    return "".join(c for c in " ".join(text.split()) if c.isprintable())


def short(text):
    """A piece of the file, on one line of a comment."""
    text = printable(text)
    return text if len(text) <= 120 else text[:117] + ".."
