"""What a log tells a proof in Coq: the whole numbers of its sample, and the moves of its chains with a checksum for each polynomial."""
# SPDX-License-Identifier: Apache-2.0
import re

VARIABLE = re.compile(r"([RSPxyt])(\d+(?:\.\d+)*)")
KINDS = {"R": "VR", "S": "VS", "P": "VP", "x": "VX", "y": "VY", "t": "VT"}


def variable(name):
    """The letter and the numbers of a variable's name."""
    letter, numbers = VARIABLE.fullmatch(name).groups()
    return letter, [int(number) for number in numbers.split(".")]


def powers(parts):
    """The variables of `*S0.1.2^2*t0`, each as often as it stands."""
    for part in parts:
        name, _, exponent = part.partition("^")
        yield from [name] * int(exponent or 1)


def weight(name):
    """The weight of a variable, as `weigh` of coq/Chains.v has it."""
    letter, numbers = variable(name)
    total = 0
    for number in reversed(numbers):
        total = 31 * total + number
    return list(KINDS).index(letter) + 1 + 6 * total


def checksum(polynomial):
    """The checksum of a polynomial's text, as `checksum` of coq/Chains.v has it."""
    total = 0
    for monomial in [] if polynomial == "0" else polynomial.split(" "):
        coefficient, *parts = monomial.split("*")
        product = 1
        for name in powers(parts):
            product = 3 * product + weight(name)
        total += int(coefficient) * product * product
    return total


def shown_variable(name):
    letter, numbers = variable(name)
    return " ".join([KINDS[letter], *map(str, numbers)])


def shown_move(head):
    """A move in the words of coq/Chains.v, from what stands before the colon of its line."""
    word, *rest = head.split(" ")
    if word == "point":
        return f"MPoint {rest[0]}"
    if word == "coords":
        return "MCoords"
    if word == "cut":
        coefficient, *parts = rest[0].split("*")
        return f"MCut ({coefficient}) [{'; '.join(shown_variable(name) for name in powers(parts))}]"
    points = " ".join(map(str, variable(rest[0])[1]))
    return f"MRatio0 {points}" if rest[2] == "0" else f"MRatio {points} {rest[2]} {rest[4]}"


class Chain:
    """A chain of a log: whether it is that of a condition or of a goal, its number, and its lines."""

    def __init__(self, kind, number):
        self.kind, self.number = kind, int(number)
        self.lines = []

    def shown(self):
        (_, start), *moves = self.lines
        told = "; ".join(f"({shown_move(head)}, {checksum(polynomial)})" for head, polynomial in moves)
        return f"({checksum(start)}, [{told}])"


class Log:
    """A log that `check` accepts."""

    def __init__(self, text):
        lines = text.split("\n")
        self.is_first = lines[0] == "geolog 1"
        self.program = [line[2:] for line in lines if line.startswith("| ")]
        self.chains, self.sample = [], []
        for line in lines[1 + len(self.program) :]:
            self.add(line)

    def add(self, line):
        word, _, rest = line.partition(" ")
        head, colon, polynomial = line.partition(" : ")
        if word in ("condition", "goal"):
            self.chains.append(Chain(word, rest.split(" ")[0]))
        elif word == "sample":
            self.sample = [value.split("=")[1] for value in rest.split(" ") if value]
        elif word == "verdict":
            self.verdict, _, number = rest.partition(" ")
            self.number = int(number or 0)
        elif colon:
            self.chains[-1].lines.append((head, polynomial))

    def used(self):
        """The chains that end in 0 and prove something: those of the goals that hold, or that of the condition that is never met."""
        if self.verdict == "impossible":
            return [chain for chain in self.chains if chain.number == self.number]
        failing = self.number if self.verdict == "false" else None
        return [chain for chain in self.chains if chain.kind == "goal" and chain.number != failing]

    def shown(self):
        version = "true" if self.is_first else "false"
        chains = ";\n   ".join(chain.shown() for chain in self.used())
        return f"Log {version} values\n  [{chains}]%Z"
