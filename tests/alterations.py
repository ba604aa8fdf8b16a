"""Alterations of logs, for tests that want them refused: one place of a log is another, at random."""
# SPDX-License-Identifier: Apache-2.0
import re

VERDICTS = ["proved", "false 1", "false 2", "impossible 1"]


def another(choose, text, pattern, change):
    """The text with one of the places that a pattern finds changed."""
    places = list(re.finditer(pattern, text))
    if not places:
        return text
    place = choose.choice(places)
    return text[: place.start()] + change(place[0]) + text[place.end() :]


def other_name(choose, text):
    """Another point in a program line, of those that the program has, or none of them."""
    names = re.findall(r"^\| point (\w+)", text, re.M)
    pattern = r"(?<=^\| )[^\n]*"
    return another(choose, text, "(?m)" + pattern, lambda line: another(choose, line, r"\b[A-Z]\w*", lambda _: choose.choice([*names, "Z"])))


def other_lines(choose, text):
    """A line left out, doubled, or exchanged with the one before it."""
    lines = text.split("\n")[:-1]
    k = choose.randrange(1, len(lines))
    lines = choose.choice([lines[:k] + lines[k + 1 :], lines[:k] + lines[k - 1 :], lines[: k - 1] + [lines[k], lines[k - 1]] + lines[k + 1 :]])
    return "\n".join(lines) + "\n"


def no_end(choose, text):
    """The log up to one of its lines."""
    lines = text.splitlines(keepends=True)
    return "".join(lines[: choose.randrange(1, len(lines))])


def other_byte(choose, text):
    place = choose.randrange(len(text))
    return text[:place] + choose.choice("0 +-*.xyRS|{}\r") + text[place + 1 :]


def other_verdict(choose, text):
    return f"{text[: text.rindex('verdict ')]}verdict {choose.choice(VERDICTS)}\n"


def altered(choose, text):
    """The log with one alteration: of its lines, a sign, a coefficient, a monomial, a polynomial, a variable, a move, a cut, the sample, the verdict, a
    program line, any number or any byte, or its end is missing."""
    digit = str(choose.randrange(9))
    kinds = [
        other_lines,
        no_end,
        other_byte,
        other_verdict,
        other_name,
        lambda choose, text: another(choose, text, r"(?<= )[+-](?=\d)", lambda sign: "-" if sign == "+" else "+"),
        lambda choose, text: another(choose, text, r"(?<=[+-])\d+", lambda number: str(int(number) + 1)),
        lambda choose, text: another(choose, text, r" [+-]\d[^ \n]*(?=\n| )", lambda monomial: ""),
        lambda choose, text: another(choose, text, r"(?<=: )[+-][^\n]*", lambda polynomial: "0"),
        lambda choose, text: another(choose, text, r"(?<=\*)[RSP][\d.]+", lambda name: re.sub(r"\d+$", digit, name)),
        lambda choose, text: another(choose, text, r"(?:(?<=point )|(?<=at )|(?<=by ))\d+", lambda number: digit),
        lambda choose, text: another(choose, text, r"(?<=cut )-?\d+", lambda number: str(int(number) + 3)),
        lambda choose, text: another(choose, text, r"(?<==)-?\d+", lambda number: str(int(number) - 1)),
        lambda choose, text: another(choose, text, r"\d+", lambda number: digit),
    ]
    return choose.choice(kinds)(choose, text)
