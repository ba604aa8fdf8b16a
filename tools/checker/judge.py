"""Whether a log is accepted (docs/LOG.md, "Accepted logs" and "Reasons of rejection"), but for charges and sizes."""
# SPDX-License-Identifier: Apache-2.0
from lines import read_line
from pages import page, tables
from polynomials import COORDINATE, PARAMETER, QUANTITIES, divided, integer, replaced, value, variables
from programs import Program
from rows import free_rows, ratio_row, rows_at

REASONS = {name: int(number) for number, name, _ in tables(page("LOG.md"), "## Reasons of rejection")[0]}
MOVES = ("point", "ratio", "coords", "cut", "end")


class Rejected(Exception):
    def __init__(self, line, reason):
        super().__init__(f"rejected {line} {REASONS[reason]}")


class Judge:
    """Takes the lines of a log one after another; `at` is the number of the line that is judged."""

    def __init__(self, data):
        self.whole = data.endswith("\n")
        self.lines = (data[:-1] if self.whole else data).split("\n") if data else []
        self.at = 0
        self.known, self.ends = set(), []

    def reject(self, reason):
        raise Rejected(self.at, reason)

    def line(self, *kinds):
        """The next line, which has to be of one of these kinds."""
        self.at += 1
        if self.at > len(self.lines):
            self.reject("Unfinished")
        if self.at == len(self.lines) and not self.whole:
            self.reject("BadLine")
        try:
            line = read_line(self.lines[self.at - 1])
        except ValueError:
            self.reject("BadLine")
        return line if line[0] in kinds else self.reject("WrongLine")

    def verdict(self):
        _, version = self.line("header")
        self.program = self.read_program(version)
        shown = self.chains()
        if shown[0] != "impossible":
            self.sample()
        if self.line("verdict")[1:] != shown:
            self.reject("WrongVerdict")
        if self.at < len(self.lines):
            self.line()
        return shown

    def read_program(self, version):
        texts = []
        ends = len(self.lines) - (not self.whole)
        while self.at < ends and self.lines[self.at].startswith("| "):
            texts.append(self.lines[self.at][2:])
            self.at += 1
        if self.at >= len(self.lines):
            self.at += 1
            self.reject("Unfinished")
        try:
            return Program(texts, version)
        except ValueError:
            raise Rejected(2, "WrongProgram") from None

    def chains(self):
        """The verdict that the chains give."""
        for k, (text, start) in enumerate(self.program.conditions.items(), 1):
            end = self.chain("condition", k, text, start)
            if not end:
                return "impossible", k
            self.ends.append(end)
            if len(start) == 1 and [exponent for monomial in start for _, exponent in monomial] == [1]:
                self.known |= variables(start)
        for k, (text, start) in enumerate(self.program.goals.items(), 1):
            end = self.chain("goal", k, text, start)
            if end:
                self.ends.append(end)
                return "false", k
        return "proved", 0

    def chain(self, word, k, text, start):
        """The polynomial at the end of a chain."""
        if self.line("chain")[1:] != (word, k, text):
            self.reject("WrongChain")
        if self.line("start")[1] != start:
            self.reject("WrongStart")
        polynomial = start
        while True:
            kind, *told = self.line(*MOVES)
            if kind == "end":
                break
            if self.moved(polynomial, kind, *told[:-1]) != told[-1]:
                self.reject("WrongPoly")
            polynomial = told[-1]
        if any(name[0] in QUANTITIES for name in variables(polynomial)):
            self.reject("NotEnded")
        return polynomial

    def moved(self, polynomial, kind, *told):
        """What a move or a cut makes of a polynomial."""
        if kind == "cut":
            number, monomial = told
            if any(name not in self.known for name, _ in monomial):
                self.reject("WrongCut")
            quotient = divided(polynomial, number, monomial)
            return self.reject("WrongCut") if quotient is None else quotient
        rows, den = self.rows(variables(polynomial), kind, *told)
        return replaced(polynomial, rows, den) if rows else self.reject("NoRow")

    def rows(self, names, kind, *told):
        if kind == "coords":
            return free_rows(self.program, names), integer(2)
        if kind == "point":
            constructed = told[0] < len(self.program.steps) and told[0] not in self.program.free
            return rows_at(self.program, names, told[0]) if constructed else ({}, None)
        name, lemma, place = told
        row = ratio_row(self.program, name, lemma, place) if name in names else None
        return ({name: (row[0], 1)}, row[1]) if row else ({}, None)

    def sample(self):
        values = self.line("sample")[1]
        wanted = [(COORDINATE, point, axis) for point in self.program.free for axis in (0, 1)]
        wanted += [(PARAMETER, number) for number in range(self.program.numbers)]
        if [name for name, _ in values] != wanted or any(value(end, dict(values)) == 0 for end in self.ends):
            self.reject("WrongSample")
