"""GeoGebra's equalities of lengths: `a == 2 b`, `a^2 + b^2 == c^2`."""
# SPDX-License-Identifier: Apache-2.0
import re
from fractions import Fraction

from claims import equal_lengths
from model import Circle, Length, Line, Unsaid, expression, fraction_of

TERM = re.compile(r"\s*([0-9]+(?:\.[0-9]+)?)?\s*\*?\s*(\w+\s*[\[(][^\])]*[\])]|[^\s^*]+)\s*(\^\s*2)?\s*")


def equality(reader, left, right):
    """The statement that two sums of lengths, or of their squares, are equal."""
    (one, is_square), (other, is_other) = terms(reader, left), terms(reader, right)
    if is_square != is_other:
        raise Unsaid("it has a length on one side and a square on the other")
    if len(one) == len(other) == 1 and one[0][0] == other[0][0] == 1:
        return equal_lengths(reader.scribe, one[0][1], other[0][1])
    return f"equal {{ {added(one)} }} {{ {added(other)} }}"


def terms(reader, text):
    """The squares of a side, each with its factor, a single length squared; and whether the side is a sum of squares as it stands."""
    found, degrees = [], set()
    parts = text.replace("²", "^2").split("+")
    for part in parts:
        match = TERM.fullmatch(part)
        if not match or (len(parts) > 1 and not match[3]):
            raise Unsaid(f"'{text[:80]}' is no length with a factor, and no sum of squares of lengths")
        factor = fraction_of(match[1] or "1")
        degrees.add(bool(match[3]))
        found.append((factor if match[3] else factor * factor, length(reader.scribe, reader.value(match[2]))))
    if len(degrees) > 1:
        raise Unsaid(f"'{text[:80]}' adds a length to a square")
    return found, degrees == {True}


def length(scribe, value):
    """The two points whose distance a value is."""
    if isinstance(value, Length):
        return value
    if isinstance(value, Circle):
        return Length(scribe.center(value), value.through)
    if isinstance(value, Line) and value.is_segment:
        return Length(value.a, value.b)
    raise Unsaid("it speaks of what is no point, segment or circle")


def added(squares):
    """The sum as an expression: the square of AB is half of P(A, B, A)."""
    texts = []
    for factor, side in squares:
        square = f"pythagoras_difference3 {side.a.name} {side.b.name} {side.a.name}"
        texts.append(square if factor == 1 else f"mult {{ {expression(Fraction(factor))} }} {{ {square} }}")
    whole = texts[0]
    for text in texts[1:]:
        whole = f"sum {{ {whole} }} {{ {text} }}"
    return whole
