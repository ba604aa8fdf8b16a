"""The lines of a log, read as docs/LOG.md has them ("Lines"): a tuple, its kind first. What is no line raises ValueError."""
# SPDX-License-Identifier: Apache-2.0
import re

from polynomials import AREA, COORDINATE, DIFFERENCE, PARAMETER, RATIO, area, difference, ratio, variable

MOST = 2**127 - 1
DEGREE = 65535
NUMBER = "(?:0|[1-9][0-9]*)"
INTEGER = re.compile("0|-?[1-9][0-9]*")
NAME = re.compile(rf"([RSPxyt])({NUMBER}(?:\.{NUMBER})*)")
CHAIN = re.compile(rf"(condition|goal) ({NUMBER}) (.*)", re.S)
VERDICT = re.compile(rf"verdict (?:(proved)|(false|impossible) ({NUMBER}))")
STOP = re.compile(rf"stop (?:too_large ({NUMBER}) (?:norm|degree)|spent ({NUMBER}))")
RATIO_LINE = re.compile(rf"ratio (\S+) by (?:(0)|({NUMBER}) at ({NUMBER}))")
POINT_LINE = re.compile(rf"point ({NUMBER})")
CUT_LINE = re.compile(r"cut (\S+)")
# How many numbers a variable has, and the quantity that it has to be the sorted form of.
QUANTITIES = {"R": (RATIO, 4, ratio), "S": (AREA, 3, area), "P": (DIFFERENCE, 3, difference)}


def refuse():
    raise ValueError


def small(text):
    return int(text) if int(text) < 2**32 else refuse()


def numbered(text):
    """The number of a condition, a goal or a chain."""
    return small(text) or refuse()


def integer(text):
    return int(text) if INTEGER.fullmatch(text) and abs(int(text)) <= MOST else refuse()


def read_name(text):
    """A variable by its name; only the sorted form of a quantity is one."""
    letter, numbers = (NAME.fullmatch(text) or refuse()).groups()
    numbers = [small(number) for number in numbers.split(".")]
    if letter in QUANTITIES:
        kind, count, quantity = QUANTITIES[letter]
        name = (kind, *numbers)
        return name if len(numbers) == count and quantity(*numbers) == variable(name) else refuse()
    if len(numbers) > 1:
        refuse()
    return (PARAMETER, numbers[0]) if letter == "t" else (COORDINATE, numbers[0], "xy".index(letter))


def read_powers(parts):
    """A monomial without its coefficient: variables in order, each once, with exponents that add up to at most the degree."""
    powers = []
    for part in parts:
        name, hat, exponent = part.partition("^")
        if hat and not re.fullmatch("[2-9]|[1-9][0-9]+", exponent):
            refuse()
        powers.append((read_name(name), int(exponent or 1)))
    names = [name for name, _ in powers]
    if names != sorted(set(names)) or sum(exponent for _, exponent in powers) > DEGREE:
        refuse()
    return tuple(powers)


def rank(monomial):
    """Where a monomial stands in a polynomial: the greater exponent at the first variable in which two differ comes first."""
    return [(name, -exponent) for name, exponent in monomial] + [((PARAMETER + 1,), 0)]


def read_polynomial(text):
    polynomial, last = {}, None
    for item in [] if text == "0" else text.split(" "):
        coefficient, *parts = item.split("*")
        if not re.fullmatch("[+-][1-9][0-9]*", coefficient):
            refuse()
        monomial = read_powers(parts)
        if last is not None and not rank(last) < rank(monomial):
            refuse()
        polynomial[monomial] = int(coefficient)
        last = monomial
    return polynomial if sum(map(abs, polynomial.values())) <= MOST else refuse()


def read_sample(text):
    values = []
    for item in text.split(" ")[1:]:
        name, equals, number = item.partition("=")
        values.append((read_name(name), integer(number)) if equals else refuse())
    return ("sample", values)


def read_step(head, text):
    """A start, a move or a cut, with its polynomial."""
    polynomial = read_polynomial(text)
    if head in ("start", "coords"):
        return (head, polynomial)
    if found := POINT_LINE.fullmatch(head):
        return ("point", small(found[1]), polynomial)
    if found := RATIO_LINE.fullmatch(head):
        name = read_name(found[1])
        lemma, place = (0, None) if found[2] else (small(found[3]), small(found[4]))
        return ("ratio", name, lemma, place, polynomial) if name[0] == RATIO and (found[2] or lemma) else refuse()
    coefficient, *parts = (CUT_LINE.fullmatch(head) or refuse())[1].split("*")
    return ("cut", integer(coefficient) or refuse(), read_powers(parts), polynomial)


def read_line(text):
    if text in ("geolog 1", "geolog 2"):
        return ("header", int(text[-1]))
    if text.startswith("| "):
        return ("program", text[2:])
    if text == "end":
        return ("end",)
    if found := CHAIN.fullmatch(text):
        return ("chain", found[1], numbered(found[2]), found[3])
    if found := VERDICT.fullmatch(text):
        return ("verdict", found[1] or found[2], small(found[3]) if found[3] else 0)
    if found := STOP.fullmatch(text):
        return ("stop",) if int(found[1] or found[2]) < 2**64 else refuse()
    if re.match("sample(?= |$)", text):
        return read_sample(text)
    head, colon, polynomial = text.partition(" : ")
    return read_step(head, polynomial) if colon else refuse()
