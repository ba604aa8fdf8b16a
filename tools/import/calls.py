"""Commands and numbers inside the texts of GeoGebra's files, as `Line[A, B]`, `(1, 2)`, `90°`."""
# SPDX-License-Identifier: Apache-2.0
import re
from fractions import Fraction

from model import Number, Unsaid, fraction_of

LONGEST = 1000
REAL = r"-?(?:[0-9]+\.?[0-9]*|\.[0-9]+)(?:E-?[0-9]{1,3})?"
PAIR = re.compile(rf"\(\s*({REAL})\s*,\s*({REAL})\s*\)$")
NUMBER = re.compile(rf"\(?\s*({REAL})\s*\*?\s*(°?)\s*\)?$")
TURN = re.compile(r"\(?\s*(-?)\s*(?:([0-9]+)\s*\*?\s*)?(?:π|pi)\s*(?:/\s*([0-9]+))?\s*\)?$")


def split(text):
    """The arguments of a command, at the commas outside brackets."""
    parts, depth, start = [], 0, 0
    for k, c in enumerate(text):
        depth += (c in "[({") - (c in "])}")
        if c == "," and depth == 0:
            parts.append(text[start:k].strip())
            start = k + 1
    last = text[start:].strip()
    return [*parts, last] if last or parts else []


def call(text):
    """The word and the arguments of a text that is one command, as `Line[A, B]`; else None."""
    if len(text) > LONGEST:
        raise Unsaid("its expression is too long")
    match = re.match(r"(\w+)\s*[\[(]", text)
    if not match or not text.endswith(("]", ")")):
        return None
    depth = 0
    for k in range(match.end() - 1, len(text)):
        depth += (text[k] in "[({") - (text[k] in "])}")
        if depth == 0 and k < len(text) - 1:
            return None
    return match[1], split(text[match.end() : -1])


def pair(text):
    """The two numbers of a text that is a pair of coordinates."""
    match = PAIR.match(text.strip())
    return match and (float(match[1]), float(match[2]))


def number(text):
    """The number that a text is, an angle with its degrees; else None."""
    text = text.strip()
    if plain := NUMBER.match(text):
        return Number(plain[1], degrees=fraction_of(plain[1]) if plain[2] else None)
    if turn := TURN.match(text):
        return Number(text, degrees=180 * Fraction(int(turn[1] + (turn[2] or "1")[:9]), int((turn[3] or "1")[:9]) or 1))
    return None
