"""Takes what the program's word `discover` writes, as it comes: the relations, and how far the work is."""
# SPDX-License-Identifier: Apache-2.0
import math
import time

from language import read_program, read_statement
from words import statement_html

EACH = 0.1


class Relations:
    """`log` is that of the program, without its chains; `send` takes a line of the answer."""

    def __init__(self, log, send):
        program = read_program("\n".join(line[2:] for line in log if line.startswith("| ")))
        self.places = {name: k for k, name in enumerate(program.points())}
        self.send = send
        self.found, self.rest, self.done, self.sent = [], b"", 0, 0.0

    def take(self, part):
        *lines, self.rest = (self.rest + part).split(b"\n")
        for line in lines:
            word, _, text = line.decode().partition(" ")
            if word in ("relation", "open"):
                statement = read_statement(text)
                self.done = rank(statement, self.places)
                self.found.append({word: text, "html": statement_html(statement), "kind": statement.word})
            elif word in ("relations", "impossible", "stop"):
                self.found.append({"end": line.decode()})
        if part and time.monotonic() < self.sent + EACH:
            return
        self.sent = time.monotonic()
        self.send({"found": self.found, "done": self.done, "of": sum(sizes(len(self.places)).values())})
        self.found = []


def combination(n, chosen):
    """How many choices of as many of n come before this one, in the order of the dictionary."""
    k = len(chosen)
    return math.comb(n, k) - 1 - sum(math.comb(n - 1 - p, k - i) for i, p in enumerate(chosen))


def sizes(n):
    """How many candidates `discover` has of each kind for n points (docs/DISCOVERY.md)."""
    pairs, four = math.comb(math.comb(n, 2), 2), math.comb(n, 4)
    return {"collinear": math.comb(n, 3), "parallel": 3 * four, "perpendicular": pairs, "same_length": pairs, "concyclic": four}


def rank(statement, places):
    """How many candidates come before this one; of the parallels about."""
    n, p, kinds = len(places), [places[name] for name in statement.args], list(sizes(len(places)))
    before = sum(size for kind, size in sizes(n).items() if kinds.index(kind) < kinds.index(statement.word))
    if statement.word in ("collinear", "concyclic"):
        return before + combination(n, p)
    pairs = math.comb(n, 2)
    part = combination(pairs, [combination(n, p[:2]), combination(n, p[2:])])
    return before + (part if statement.word != "parallel" else part * sizes(n)["parallel"] // math.comb(pairs, 2))
