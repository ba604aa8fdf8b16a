# SPDX-License-Identifier: Apache-2.0
"""Made inputs that are costly for their bytes and charges, for `bench/hostile`.

Numbers of steps with many nodes, negations in a row, many conditions over one step, products of areas that are 0, many divisors, many
assumptions, many tries of a sample, high powers; logs with many cuts, which are free; and what a stranger may pick so that it
is hard to look up: integers with one hash, long names that differ at their ends, many names and many variables of a log, many
names that a citation gives; and searches for relations, of free points alone, with and without steps, and beside many lines and parameters.
"""
import itertools
import math
from collections.abc import Callable
from typing import NamedTuple

PROVED, FALSE, TOO_LARGE, SPENT, REJECTED, DONE = 0, 1, 6, 7, 11, 13
MULTIPLIER = 0x9E3779B97F4A7C15  # of the hasher in the toolchain's library: integers with it in their upper half have one hash


def tree(word, parts):
    """An operation of many parts, nested as little as can be."""
    if len(parts) == 1:
        return parts[0]
    middle = len(parts) // 2
    return f"{word} {{ {tree(word, parts[:middle])} }} {{ {tree(word, parts[middle:])} }}"


def program(lines, statement):
    return "\n".join([*lines, f"prove {{ {statement} }}"]) + "\n"


def free(count):
    return [f"point P{k}" for k in range(count)]


def pairs(count):
    return [(i, j) for i in range(count) for j in range(i + 1, count)]


def enough(count):
    """The least number of points that have so many pairs."""
    return next(points for points in range(2, count + 2) if points * (points - 1) // 2 >= count)


def flat_areas(points, count):
    """So many areas that are 0 by their names."""
    return [f"signed_area3 P{i} P{i} P{j}" for i, j in pairs(points)[:count]]


def rows(points, count):
    """A statement with so many areas of the point X, and so many rows of its step."""
    return f"equal {{ {tree('sum', [f'signed_area3 P{i} P{j} X' for i, j in pairs(points)[:count]])} }} {{ 0 }}"


def negated(times, inside):
    return "neg{" * times + inside + "}" * times


def numbers(size):
    """The number of a step has as many nodes, and as many rows want it."""
    points = enough(size)
    return program([*free(points), f"pratio X P0 P0 P1 {tree('mult', flat_areas(points, size))}"], rows(points, size))


def negations(size):
    """The number of a step has 240 negations, which are free; as many rows want it."""
    points = max(enough(size), 3)
    number = tree("sum", [negated(120, area) for area in flat_areas(points, 2)])
    return program([*free(points), f"pratio X P0 P0 P1 {number}"], rows(points, size))


def conditions(size):
    """As many conditions have a move at one step, whose number has a hundred negations."""
    lines = [*free(size + 2), "param t", f"pratio X P0 P0 P1 {negated(100, 't')}", *(f"online Y{k} X P{k + 2}" for k in range(size))]
    return program(lines, "collinear P0 P1 X")


def zeros(size):
    """The statement multiplies as many areas that are 0."""
    points = enough(size)
    return program(free(points), f"equal {{ {tree('mult', flat_areas(points, size))} }} {{ 0 }}")


def divisors(size):
    """As many divisors, each with a condition of its own; their product is then too large."""
    return program([], f"equal {{ {tree('sum', [f'div {{ 1 }} {{ neg {{ {k} }} }}' for k in range(1, size + 1)])} }} {{ 0 }}")


def assumed(size):
    """Any two of as many points differ."""
    return program([*free(size), *(f"assume different P{i} P{j}" for i, j in pairs(size))], "collinear P0 P1 P0")


def tries(size):
    """A product of two sums of as many parameters; its sample tries each of them."""
    first, second = ([f"{letter}{k}" for k in range(size)] for letter in "ab")
    product = f"mult {{ {tree('sum', first)} }} {{ {tree('sum', second)} }}"
    return program([f"param {name}" for name in first + second], f"equal {{ {product} }} {{ 0 }}")


def powers(size):
    """An area of two midpoints, to an even power."""
    both = (tree("mult", [f"signed_area3 X Y {name}"] * size) for name in ("P0", "P1"))
    return program([*free(4), "midpoint X P0 P1", "midpoint Y P2 P3"], "equal { " + " } { ".join(both) + " }")


def cuts(size):
    """A log with as many cuts of a line of forty areas by -1."""
    points = enough(40)
    names = [f"S0.{i + 1}.{j + 1}" for i, j in pairs(points)[:40]]
    statement = f"equal {{ {tree('sum', [f'signed_area3 P0 P{i + 1} P{j + 1}' for i, j in pairs(points)[:40]])} }} {{ 0 }}"
    texts = [*free(points + 1), f"prove {{ {statement} }}"]
    turn = ["cut -1 : " + " ".join(f"{sign}1*{name}" for name in names) for sign in "-+"]
    start = "start : " + " ".join(f"+1*{name}" for name in names)
    return "\n".join(["geolog 2", *(f"| {text}" for text in texts), f"goal 1 {statement}", start, *(turn * (size // 2)), "end"]) + "\n"


def log_of(lines, chain, sample, verdict):
    return "\n".join(["geolog 2", *(f"| {line}" for line in lines), *chain, *sample, f"verdict {verdict}"]) + "\n"


def params(names):
    return [f"param {name}" for name in names]


def zero_log(names):
    """A log of these parameters, in which nothing is to be shown."""
    sample = "sample" + "".join(f" t{k}=0" for k in range(len(names)))
    return log_of([*params(names), "prove { equal { 0 } { 0 } }"], ["goal 1 equal { 0 } { 0 }", "start : 0", "end"], [sample], "proved")


def sum_of(upper_halves):
    """A sum of integers with these upper halves, which are below 0 and differ in their lower halves."""
    return f"equal {{ {tree('sum', [str((upper << 64 | k) - 2**128) for k, upper in enumerate(upper_halves)])} }} {{ 0 }}"


def colliding(size):
    """So many integers with one hash, in one sum."""
    return sum_of([MULTIPLIER] * size)


def spread(size):
    """So many integers of the same length, each with a hash of its own."""
    return sum_of([MULTIPLIER ^ k * 2654435761 % 2**40 for k in range(size)])


def log_of_sum(statement):
    return log_of([f"prove {{ {statement} }}"], [f"goal 1 {statement}", "start : 0", "end"], [], "proved")


def integers(size):
    """A program with as many integers of one hash."""
    return program([], colliding(size))


def integers_spread(size):
    """A program with as many others."""
    return program([], spread(size))


def log(size):
    """A log with as many of one hash, which the program of the log has."""
    return log_of_sum(colliding(size))


def log_spread(size):
    """A log with as many others."""
    return log_of_sum(spread(size))


def words(size):
    """As many parameters whose names of 60 letters differ at their ends."""
    return program(params([f"{'p' * 54}{k:06}" for k in range(size)]), "equal { 0 } { 1 }")


def product(size):
    """A product of as many parameters, whose sample tries each of them."""
    names = [f"p{k}" for k in range(size)]
    return program(params(names), f"equal {{ {tree('mult', names)} }} {{ 0 }}")


def products(size):
    """Thirty divisors, each a product of as many parameters."""
    names = [f"p{k}" for k in range(size)]
    steps = [f"lratio X{i} A B div {{ 1 }} {{ mult {{ q{i} }} {{ {tree('mult', names)} }} }}" for i in range(30)]
    return program(["point A", "point B", *params(names), *params([f"q{i}" for i in range(30)]), *steps], "identical A A")


def names(size):
    """The log of a program with as many parameters."""
    return zero_log([f"p{k}" for k in range(size)])


def citation(size, given):
    """A theorem with as many parameters, and the program of itself where they have the names given."""
    own = [f"p{k}" for k in range(size)]
    return zero_log(own) + "with " + " ".join(given) + "\n" + program(params(own), "equal { 0 } { 0 }")


def cited(size):
    """A theorem with as many parameters, cited at itself with all its names."""
    return citation(size, [f"p{k}" for k in range(size)])


def cited_by_one(size):
    """The same, with one name for all its parameters."""
    return citation(size, ["p0"] * size)


def all_triples(size):
    """Of the least number of points that is enough the first so many triples."""
    count = next(n for n in range(3, size + 4) if math.comb(n, 3) >= size)
    return count, list(itertools.islice(itertools.combinations(range(count), 3), size))


def sum_of_areas(triples):
    return f"equal {{ {tree('sum', [f'signed_area3 P{a} P{b} P{c}' for a, b, c in triples])} }} {{ 0 }}"


def area_sum(size):
    """The program of the next log."""
    count, triples = all_triples(size)
    return program(free(count), sum_of_areas(triples))


def areas(size):
    """A log with as many areas in a line that is cut ten times."""
    count, triples = all_triples(size)
    statement = sum_of_areas(triples)
    turn = [" ".join(f"{sign}1*S{a}.{b}.{c}" for a, b, c in triples) for sign in "-+"]
    sums = {}
    for a, b, c in triples:
        for u, v, sign in ((a, b, 1), (a, c, -1), (b, c, 1)):
            for x, y, turned in ((f"x{u}", f"y{v}", sign), (f"y{u}", f"x{v}", -sign)):
                sums[x, y] = sums.get((x, y), 0) + turned
    order = sorted((k for k in sums if sums[k]), key=lambda k: [(int(v[1:]), v[0]) for v in k])
    coords = " ".join(f"{sums[k]:+d}*{k[0]}*{k[1]}" for k in order)
    chain = [f"goal 1 {statement}", f"start : {turn[1]}", *[f"cut -1 : {t}" for t in turn * 5], f"coords : {coords}", "end"]
    sample = "sample" + "".join(f" x{k}={k * k % 97} y{k}={k * k * k % 89}" for k in range(count))
    return log_of([*free(count), f"prove {{ {statement} }}"], chain, [sample], "false 1")


def short_cuts(size):
    """A log with as many cuts of one area by -1, which ends with 0 at its coordinates."""
    lines, statement = [*free(3), "midpoint M P0 P1"], "equal { signed_area3 P0 P1 M } { 0 }"
    cuts = ["cut -1 : -1*S0.1.3", "cut -1 : +1*S0.1.3"] * (size // 2)
    sample = "sample" + "".join(f" {letter}{k}=0" for k in range(3) for letter in "xy")
    return log_of([*lines, f"prove {{ {statement} }}"], [f"goal 1 {statement}", "start : +1*S0.1.3", *cuts, "point 3 : 0", "end"], [sample], "proved")


def bare_cuts(size):
    """A log with as many cuts of nothing."""
    statement = "equal { 0 } { 0 }"
    return log_of([f"prove {{ {statement} }}"], [f"goal 1 {statement}", "start : 0", *["cut 7 : 0"] * size, "end"], [], "proved")


def bare_lines(size):
    """As many lines of a log's program, and nothing else."""
    return "geolog 2\n" + "| point A\n" * size


def assumed_of(points, size):
    """As many assumptions on so many points."""
    return program([*free(points), *(f"assume different P{i} P{j}" for i, j in pairs(points)[:size])], "identical P0 P0")


def assumed_pairs(size):
    """As many assumptions on 129 points."""
    return assumed_of(129, size)


def assumed_of_512(size):
    """As many assumptions on 512 points."""
    return assumed_of(512, size)


def candidates(count):
    """How many candidates of a search so many points have."""
    return math.comb(count, 3) + 4 * math.comb(count, 4) + 2 * math.comb(math.comb(count, 2), 2)


def of_six(_size):
    """How many those of six points are."""
    return candidates(6)


def found(size):
    """As many free points, of whose candidates none is a relation."""
    return program(free(size), "identical P0 P0")


def lines_of_two(count):
    return [f"line l{k} P0 P1" for k in range(count)]


def beside_lines(size):
    """The same, and lines, which make no candidate, four times as many as there are candidates."""
    return program([*free(size), *lines_of_two(4 * candidates(size))], "identical P0 P0")


def many_lines(size):
    """Six free points, and as many lines."""
    return program([*free(6), *lines_of_two(size)], "identical P0 P0")


def many_params(size):
    """Six free points, and as many parameters."""
    return program([*free(6), *params([f"p{k}" for k in range(size)])], "identical P0 P0")


def once(_size):
    return 1


class Charges(NamedTuple):
    """The charge of an input, and fewer steps with the line at which the run stops with them. Where charges have no part in it there is
    none, and the run has one step."""

    whole: int | None = None
    steps: int | None = None
    line: int | None = None


class Family(NamedTuple):
    """Inputs of three sizes for a word, the status with which all end, and how many times the steps are taken."""

    make: Callable[[int], str]
    word: str
    status: int
    sizes: dict[int, Charges]
    tried: Callable[[int], int] = once


def free_of_charge(*sizes):
    return {size: Charges() for size in sizes}


def charged(charges):
    return {size: Charges(charge) for size, charge in charges.items()}


def stopped(charges):
    return {size: Charges(*row) for size, row in charges.items()}


PRODUCT = charged({2500: 10001, 5000: 20001, 10000: 40001})
PRODUCTS = charged({250: 31920, 500: 61920, 1000: 121920})
AREAS = charged({2500: 135676, 5000: 277266, 10000: 561918})
FAMILIES = [
    Family(numbers, "prove", FALSE, stopped({400: (40909, 12290, 35), 800: (94937, 25378, 47), 1600: (225528, 52354, 64)})),
    Family(negations, "prove", FALSE, stopped({160: (15156, 6311, 25), 320: (34469, 12935, 32), 640: (78030, 26503, 43)})),
    Family(conditions, "prove", PROVED, stopped({60: (35632, 35631, 491), 120: (110842, 110841, 971), 240: (380062, 380061, 1931)})),
    Family(zeros, "prove", PROVED, stopped({2000: (4001, 4000, 68), 4000: (8001, 8000, 94), 8000: (16001, 16000, 131)})),
    Family(divisors, "prove", TOO_LARGE, stopped({5000: (81809, 81808, 20004), 10000: (173617, 173616, 40004), 20000: (367233, 367232, 80004)})),
    Family(assumed, "prove", PROVED, stopped({16: (59020, 59019, 742), 32: (822616, 822615, 3014), 48: (4004964, 4004963, 6822)})),
    Family(assumed_pairs, "prove", PROVED, charged({500: 884460, 1000: 3085820, 2000: 11391384})),
    Family(assumed_of_512, "prove", PROVED, charged({500: 1166750, 1000: 4047561, 2000: 13650576})),
    Family(tries, "prove", FALSE, stopped({40: (37374, 37373, 86), 80: (276506, 276505, 166), 160: (2127730, 2127729, 326)})),
    Family(product, "prove", FALSE, PRODUCT),
    Family(products, "prove", PROVED, PRODUCTS),
    Family(powers, "prove", PROVED, stopped({6: (81755, 10258, 11), 8: (1181095, 118158, 11), 10: (15589059, 1299146, 11)})),
    Family(cuts, "check", REJECTED, charged({1000: 297, 2000: 297, 4000: 297})),
    Family(short_cuts, "check", PROVED, charged({100000: 27, 200000: 27, 400000: 27})),
    Family(short_cuts, "text", DONE, charged({100000: 27, 200000: 27, 400000: 27})),
    Family(bare_cuts, "check", REJECTED, charged({50000: 3, 100000: 3, 200000: 3})),
    Family(bare_lines, "check", REJECTED, free_of_charge(50000, 100000, 200000)),
    Family(integers, "prove", SPENT, free_of_charge(2000, 4000, 8000)),
    Family(integers_spread, "prove", SPENT, free_of_charge(2000, 4000, 8000)),
    Family(log, "check", SPENT, free_of_charge(2000, 4000, 8000)),
    Family(log, "text", SPENT, free_of_charge(2000, 4000, 8000)),
    Family(log_spread, "check", SPENT, free_of_charge(2000, 4000, 8000)),
    Family(words, "prove", SPENT, free_of_charge(3750, 7500, 15000)),
    Family(names, "check", PROVED, charged({25000: 3, 50000: 3, 100000: 3})),
    Family(names, "text", DONE, charged({25000: 3, 50000: 3, 100000: 3})),
    Family(area_sum, "prove", FALSE, charged({2500: 134437, 5000: 275225, 10000: 558725})),
    Family(areas, "check", FALSE, AREAS),
    Family(areas, "text", DONE, AREAS),
    Family(cited, "cite", DONE, charged({10000: 3, 20000: 3, 40000: 3})),
    Family(cited_by_one, "cite", DONE, charged({10000: 3, 20000: 3, 40000: 3})),
    Family(found, "discover", DONE, charged({8: 912, 12: 1296, 16: 1680}), candidates),
    Family(found, "discover", SPENT, free_of_charge(12, 18, 25), candidates),
    Family(beside_lines, "discover", DONE, charged({6: 846, 8: 1042, 11: 1336}), candidates),
    # The candidates of six points are the same for each size, so they count once.
    Family(many_lines, "discover", DONE, charged({8000: 846, 16000: 846, 32000: 846})),
    Family(many_params, "discover", DONE, charged({2000: 2720, 4000: 4720, 8000: 8720}), of_six),
    Family(many_params, "discover", SPENT, free_of_charge(8000, 16000, 32000), of_six),
]
