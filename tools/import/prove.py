"""The statements of GCLC's prover in the words of the language."""
# SPDX-License-Identifier: Apache-2.0
import re

from language import FORMS, OPERANDS, QUANTITIES
from model import Unsaid, expression, fraction_of

OPERATIONS = {"ratio": "div", "mult": "mult", "sum": "sum", "sub": "sub", "difference": "sub"}
DEEPEST = 100


class Statement:
    """Reads one statement. GCLC's names of quantities are ours but for `segment`, `ratio`, `signed_area4` and `pythagoras_difference4`."""

    def __init__(self, reader, words):
        self.reader = reader
        self.words = words
        self.at = 0
        self.depth = 0

    def take(self):
        if self.at >= len(self.words):
            raise Unsaid("the statement ends too soon")
        self.at += 1
        return self.words[self.at - 1]

    def names(self, count):
        return [point.name for point in self.reader.points([self.take() for _ in range(count)])]

    def read(self):
        self.reader.all_found(self.left_out())
        word = self.take()
        kinds = FORMS.get(word)
        if word == "equal":
            if self.words.count("segment") == 2 and len(self.words) == 11:
                self.words = [w for w in self.words if w not in ("equal", "segment", "{", "}")]
                self.at = 0
                return " ".join(["same_length", *self.names(4)])
            return f"equal {{ {self.braced()} }} {{ {self.braced()} }}"
        if not kinds or set(kinds) != {"name"}:
            raise Unsaid(f"the statement {word[:60]} has no counterpart")
        return " ".join([word, *self.names(len(kinds))])

    def left_out(self):
        """The labels of the statement that the file has, so that all that are left out are named at once."""
        return [word for word in self.words if word in self.reader.objects]

    def braced(self):
        """An expression in braces; GCLC has numbers without."""
        word = self.take()
        if word != "{":
            return expression(fraction_of(word))
        self.depth += 1
        if self.depth > DEEPEST:
            raise Unsaid("the statement is nested too deeply")
        value = self.expression()
        self.depth -= 1
        if self.take() != "}":
            raise Unsaid("a brace of the statement is not closed")
        return value

    def expression(self):
        word = self.take()
        if word in OPERATIONS:
            return f"{OPERATIONS[word]} {{ {self.braced()} }} {{ {self.braced()} }}"
        if word in QUANTITIES:
            return " ".join([word, *self.names(QUANTITIES[word])])
        if word in OPERANDS:
            return " ".join([word, *(f"{{ {self.braced()} }}" for _ in range(OPERANDS[word]))])
        if word == "signed_area4":
            a, b, c, d = self.names(4)
            return f"sum {{ signed_area3 {a} {b} {c} }} {{ signed_area3 {a} {c} {d} }}"
        if word == "pythagoras_difference4":
            a, b, c, d = self.names(4)
            return f"sub {{ pythagoras_difference3 {a} {b} {d} }} {{ pythagoras_difference3 {c} {b} {d} }}"
        if re.match(r"[-.0-9]", word):
            return expression(fraction_of(word))
        raise Unsaid(f"'{word[:60]}' is no quantity of the language")
