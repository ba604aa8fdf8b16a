"""Figures of a program at whole numbers, found by the proved word `place`.

    figures.py PROGRAM FILE

PROGRAM is the built prover, FILE a program of the language. Ten figures are tried. Where the statement fails at one, the line `at` of
the first such figure is written, and the status is 1: `place` shows it, so the statement is false. Where it held at all of them, or none
was a figure, nothing is written and the status is 0. Status 3: FILE cannot be read; 4: it is no program.
"""
# SPDX-License-Identifier: Apache-2.0
import random
import re
import sys
from dataclasses import dataclass
from pathlib import Path

sys.path.append(str(Path(__file__).resolve().parent / "page"))
from language import VALUED_COMMANDS  # noqa: E402
from prover import DONE, Prover  # noqa: E402

FIGURES = 10
TRIES = 60
BOUNDS = (9, 9, 9, 6, 4, 12, 3, 5, 2)
NUMBERS = (2, -2, 3, -3, 4, -1, 5, 1, -4)
SYNTAX = 4


@dataclass
class Placed:
    """A line `at`, and what `place` answers: its lines, the last of them `holds` or `fails`."""

    line: str
    rows: list

    def words(self, text):
        """The numbers with the names of what is free: A = (1, 6), r = 3."""
        values = self.line.split()[1:]
        points, numbers = free_names(text)
        told = [f"{name} = ({values[2 * k]}, {values[2 * k + 1]})" for k, name in enumerate(points)]
        told += [f"{name} = {value}" for name, value in zip(numbers, values[2 * len(points) :])]
        return ", ".join(told)


def free_names(text):
    """The free points of a program, and the names of its other numbers. The words are reserved, so each is a command."""
    words = re.findall(r"[A-Za-z]\w*", re.sub(r"%[^\n]*", "", text))
    made = list(zip(words, words[1:]))
    points = [name for word, name in made if word == "point"]
    numbers = [name if word == "param" else f"t({name})" for word, name in made if word in VALUED_COMMANDS]
    return points, numbers


def pick(dice, some):
    """One of some; `random` alone gives the same numbers in each version of Python."""
    return some[int(dice.random() * len(some))]


def is_flat(points, p):
    """Whether P is one of the points, or on a line with two of them."""
    pairs = [(a, b) for k, a in enumerate(points) for b in points[:k]]
    return p in points or any((b[0] - a[0]) * (p[1] - a[1]) == (b[1] - a[1]) * (p[0] - a[0]) for a, b in pairs)


def scattered(dice, count, bound):
    """So many points; as long as there is room for it no two are in one place, and no three on one line."""
    points = []
    for _ in range(count):
        side = range(-bound, bound + 1)
        p = (pick(dice, side), pick(dice, side))
        for _ in range(20 if len(points) < 12 else 0):
            if not is_flat(points, p):
                break
            p = (pick(dice, side), pick(dice, side))
        points.append(p)
    return points


def value_lines(text, tries=TRIES):
    """Lines `at` for a program, the same ones on each run; the first have room, later ones smaller numbers, which fit more often."""
    points, numbers = free_names(text)
    dice = random.Random(1)
    for k in range(tries):
        values = [x for p in scattered(dice, len(points), BOUNDS[k % len(BOUNDS)]) for x in p]
        values += [pick(dice, NUMBERS) for _ in numbers]
        yield " ".join(["at", *map(str, values)])


def figure_where(wanted, prover, text, figures=FIGURES, tries=TRIES):
    """The first figure at which the statement `holds` or `fails`, of so many figures; None where there is none."""
    found = 0
    for line in value_lines(text, tries):
        status, rows = prover.place(line, text)
        if status == SYNTAX:
            raise ValueError(rows[-1])
        if status == DONE and rows:
            found += 1
            if rows[-1] == wanted:
                return Placed(line, rows)
            if found == figures:
                return None
    return None


def main(words):
    if len(words) != 2:
        print("usage: python3 -B tools/figures.py PROGRAM FILE", file=sys.stderr)
        return 3
    try:
        with open(words[1], encoding="utf-8", errors="surrogateescape") as file:
            text = file.read()
        figure = figure_where("fails", Prover(words[0]), text)
    except OSError as error:
        print(f"figures: cannot read '{error.filename}': {error.strerror}", file=sys.stderr)
        return 3
    except ValueError:
        return 4
    if figure is None:
        return 0
    print(figure.line)
    return 1


if __name__ == "__main__":
    sys.exit(main(sys.argv[1:]))
