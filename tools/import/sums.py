"""Sums of points, as `(A + B) / 2` or `A + 2 u`, read into combinations; and plain numbers, exactly."""
# SPDX-License-Identifier: Apache-2.0
import re
from fractions import Fraction

from model import Combination, Unsaid, fraction_of

TOKEN = re.compile(r"\s*([0-9]+(?:\.[0-9]*)?|\.[0-9]+|[^\W\d][\w']*(?:_\{[^}]*\})?'*|\S)")
LONGEST = 1000


class Sum:
    """Reads one expression; `find` gives a combination or a number for a name."""

    def __init__(self, text, find):
        if len(text) > LONGEST:
            raise Unsaid("its expression is too long")
        self.tokens = TOKEN.findall(text)
        self.at = 0
        self.find = find
        self.text = text

    def read(self):
        value = self.total()
        if self.at < len(self.tokens):
            raise self.no_sum()
        return value

    def no_sum(self):
        return Unsaid(f"'{self.text[:80]}' is no sum of points")

    def peek(self):
        return self.tokens[self.at] if self.at < len(self.tokens) else ""

    def took(self, *tokens):
        if self.peek() in tokens and self.peek():
            self.at += 1
            return self.tokens[self.at - 1]
        return ""

    def total(self):
        value = self.product()
        while sign := self.took("+", "-", "\u2212"):
            value = self.added(value, self.product(), 1 if sign == "+" else -1)
        return value

    def added(self, a, b, factor):
        if isinstance(a, Combination) and isinstance(b, Combination):
            return a.plus(b, factor)
        if isinstance(a, Fraction) and isinstance(b, Fraction):
            return a + factor * b
        raise Unsaid(f"'{self.text[:80]}' adds a number to a point")

    def product(self):
        value = self.factor()
        while self.peek() and self.peek() not in "+-\u2212)":
            if self.took("/"):
                value = self.times(value, self.inverse(self.factor()))
            else:
                self.took("*")
                value = self.times(value, self.factor())
        return value

    def inverse(self, r):
        if not isinstance(r, Fraction) or r == 0:
            raise Unsaid(f"'{self.text[:80]}' divides by what is no number other than 0")
        return 1 / r

    def times(self, a, b):
        if isinstance(a, Fraction) and isinstance(b, Fraction):
            return a * b
        if isinstance(a, Fraction):
            return b.times(a)
        if isinstance(b, Fraction):
            return a.times(b)
        raise Unsaid(f"'{self.text[:80]}' is not linear")

    def factor(self):
        if self.took("-", "\u2212"):
            return self.times(Fraction(-1), self.factor())
        if self.took("("):
            value = self.total()
            if not self.took(")"):
                raise self.no_sum()
            return value
        token = self.peek()
        self.at += 1
        if re.match(r"[0-9.]", token):
            return fraction_of(token)
        if re.match(r"[^\W\d]", token):
            return self.find(token)
        raise self.no_sum()
