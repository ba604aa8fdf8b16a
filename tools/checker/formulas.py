"""Formulas as the pages write them, such as `d d P_AWB + n d (P_AVB - P_AUB + 2 P_WUV)`: letters beside one another are a product."""
# SPDX-License-Identifier: Apache-2.0
import re

from polynomials import area, coordinate, difference, integer, minus, plus, ratio, times

TOKEN = re.compile(r"\s*(S_[A-Z]{3}|P_[A-Z]{3}|[A-Z]{2}/[A-Z]{2}|G\([A-Z]\)|[xy][A-Z]|[a-z]|\d+|[-+()])")


class Formula:
    """A formula; `at` gives its polynomial where capital letters are points and small ones polynomials. `G` is the variable's quantity
    with another point in the place of Y."""

    def __init__(self, text):
        self.tokens = []
        end = 0
        while end < len(text):
            found = TOKEN.match(text, end)
            if not found:
                raise ValueError(f"no formula: {text}")
            self.tokens.append(found[1])
            end = found.end()

    def at(self, letters, quantity=None):
        self.letters, self.quantity, self.next = letters, quantity, 0
        return self.sum()

    def peek(self):
        return self.tokens[self.next] if self.next < len(self.tokens) else ")"

    def take(self):
        self.next += 1
        return self.tokens[self.next - 1]

    def sum(self):
        total = self.product()
        while self.peek() in "+-":
            combine = plus if self.take() == "+" else minus
            total = combine(total, self.product())
        return total

    def product(self):
        total = self.factor()
        while self.peek() not in ("+", "-", ")"):
            total = times(total, self.factor())
        return total

    def factor(self):
        token = self.take()
        if token == "(":
            total = self.sum()
            self.take()
            return total
        if token.isdigit():
            return integer(int(token))
        points = [self.letters[letter] for letter in re.sub(r"^[SPGxy]_?(?=.*[A-Z])", "", token) if letter.isupper()]
        if token[0] == "G":
            return self.quantity(*points)
        if token[0] in "xy":
            return coordinate(points[0], "xy".index(token[0]))
        if "_" in token:
            return (area if token[0] == "S" else difference)(*points)
        return ratio(*points) if "/" in token else self.letters[token]
