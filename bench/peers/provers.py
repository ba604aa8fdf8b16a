# SPDX-License-Identifier: Apache-2.0
"""The provers that are measured: how each is told a theorem, how it is run, and what its output says.

Each is asked for one polynomial after another that is to be 0. Those that know equations alone are told a condition c as z c = 1 with a new
number z, and decide whether 1 is in the ideal of the equations and of w p = 1, where p is the polynomial that is to be 0.
"""
import re
from dataclasses import dataclass
from typing import Callable

import theorems  # noqa: F401, which says where the next module is
from polynomials import integer, name, variable_of

PROVED, OPEN = "proved", "open"


@dataclass
class Question:
    """One polynomial that is to be 0, with all that is given for it."""

    variables: list
    unknown: list
    equations: list
    conditions: list
    polynomial: object


@dataclass
class Prover:
    """`write` makes the input of the questions of a theorem, `judge` takes the output and how many questions there were."""

    key: str
    title: str
    package: str
    program: str
    ending: str
    run: list
    write: Callable
    judge: Callable


def questions(theorem):
    """The polynomials of all goals, one after another."""
    for goal in theorem.goals:
        for polynomial in goal.polynomials:
            unknown = [*reversed(theorem.made), *goal.numbers]
            equations = [*theorem.equations, *goal.equations]
            yield Question([*unknown, *theorem.free], unknown, equations, list(theorem.conditions.values()), polynomial)


# Polynomials as text


def infix(polynomial, power="{}^{}", number="{}", times="*", minus="- "):
    """As 3*x0^2*y1 - x2, with other forms of powers, numbers, products and a leading sign where they are given."""
    text = ""
    for monomial, amount in polynomial.terms.items():
        factors = [name(variable) if exponent == 1 else power.format(name(variable), exponent) for variable, exponent in monomial]
        if abs(amount) != 1 or not factors:
            factors.insert(0, number.format(abs(amount)))
        sign = (" - " if amount < 0 else " + ") if text else minus if amount < 0 else ""
        text += sign + times.join(factors)
    return text or number.format(0)


def repeated(polynomial):
    """With x*x in the place of a power."""
    text = infix(polynomial)
    return re.sub(r"(\w+)\^(\d+)", lambda found: "*".join([found[1]] * int(found[2])), text)


def prefix(polynomial):
    """As (+ (* 3 x0 x0 y1) (* (- 1) x2))."""
    terms = []
    for monomial, amount in polynomial.terms.items():
        factors = [name(variable) for variable, exponent in monomial for _ in range(exponent)]
        if amount != 1 or not factors:
            factors.insert(0, str(amount) if amount >= 0 else f"(- {-amount})")
        terms.append(factors[0] if len(factors) == 1 else f"(* {' '.join(factors)})")
    return "0" if not terms else terms[0] if len(terms) == 1 else f"(+ {' '.join(terms)})"


# Refutation by equations


def inverses(question, goal):
    """New numbers, the equations that make each the inverse of a condition, and with `goal` one more for the polynomial."""
    wanted = question.conditions + ([question.polynomial] if goal else [])
    first = 1 + max((variable[1] for variable in question.variables if variable[0] == "t"), default=-1)
    numbers = [("t", first + k) for k in range(len(wanted))]
    return numbers, [variable_of(*number) * polynomial - integer(1) for number, polynomial in zip(numbers, wanted)]


def refutation(question):
    """The variables and the equations that contradict each other where the polynomial is 0 as it is to be."""
    numbers, equations = inverses(question, True)
    return [name(variable) for variable in [*reversed(numbers), *question.variables]], [*question.equations, *equations]


def singular(theorem, body):
    text = "option(redSB);\n"
    for k, question in enumerate(questions(theorem)):
        variables, equations = refutation(question)
        text += f"ring R{k} = 0,({','.join(variables)}),dp;\n"
        text += f"ideal I{k} = {', '.join(map(infix, equations))};\n" + body.replace("@", str(k))
        text += f'if (D{k}) {{ print("goal proved"); }} else {{ print("goal open"); }}\n'
    return text + "quit;\n"


def singular_basis(theorem):
    return singular(theorem, "ideal G@ = slimgb(I@);\nint D@ = (G@[1] == 1);\n")


def singular_lift(theorem):
    """The cofactors of 1 are found, and multiplied out again."""
    return singular(theorem, "matrix T@ = lift(I@, ideal(1));\nmatrix Q@ = matrix(I@)*T@;\nint D@ = (Q@[1,1] == 1);\n")


def giac(theorem):
    text = ""
    for question in questions(theorem):
        variables, equations = refutation(question)
        text += f"G:=gbasis([{', '.join(map(infix, equations))}],[{','.join(variables)}],revlex):;\n"
        text += 'print(ifte(G==[1] or G==[-1],"goal proved","goal open")):;\n'
    return text


def coq(theorem):
    text = "Require Import Reals Nsatz.\nOpen Scope R_scope.\n"
    for k, question in enumerate(questions(theorem)):
        numbers, equations = inverses(question, False)
        variables = " ".join(name(variable) for variable in [*reversed(question.variables), *numbers])
        text += f"Lemma g{k} :" + (f" forall {variables} : R,\n" if variables else "\n")
        text += "".join(f"  {repeated(p)} = 0 ->\n" for p in [*question.equations, *equations])
        text += f"  {repeated(question.polynomial)} = 0.\nProof. intros. nsatz. Qed.\n"
    return text


def hol(theorem):
    """One line a question; `hol.ml` has what reads it."""
    text = ""
    for question in questions(theorem):
        terms = [f"({hol_term(p)} = &0)" for p in question.equations] + [f"~({hol_term(p)} = &0)" for p in question.conditions]
        variables = " ".join(f"({name(variable)}:real)" for variable in reversed(question.variables))
        body = (" /\\ ".join(terms) + " ==> " if terms else "") + f"({hol_term(question.polynomial)} = &0)"
        text += f"peer_goal `{f'!{variables}. ' if variables else ''}{body}`;;\n"
    return text


def hol_term(polynomial):
    return infix(polynomial, power="{} pow {}", number="&{}", times=" * ", minus="-- ")


def smt(theorem):
    text = "(set-logic QF_NRA)\n"
    for question in questions(theorem):
        text += "(push 1)\n" + "".join(f"(declare-const {name(variable)} Real)\n" for variable in question.variables)
        text += "".join(f"(assert (= {prefix(p)} 0))\n" for p in question.equations)
        text += "".join(f"(assert (not (= {prefix(p)} 0)))\n" for p in question.conditions)
        text += f"(assert (not (= {prefix(question.polynomial)} 0)))\n(check-sat)\n(pop 1)\n"
    return text


# Verdicts


def by_goals(status, output, count):
    """`goal proved` or `goal open` for each question."""
    proved, left = len(re.findall(r'^\W*goal proved', output, re.M)), len(re.findall(r'^\W*goal open', output, re.M))
    return OPEN if left else PROVED if status == 0 and proved == count else "error"


def by_status(status, output, count):
    return PROVED if status == 0 else OPEN if "not in the ideal" in output or "nsatz" in output.lower() else "error"


def by_models(status, output, count):
    words = output.split()
    if "sat" in words:
        return "refuted"
    return PROVED if words.count("unsat") == count else OPEN if "unknown" in words else "error"


PROVERS = [
    Prover("coq", "Coq, nsatz", "coq", "coqc", ".v", ["coqc", "-q"], coq, by_status),
    Prover("hol", "HOL Light, REAL_RING", "hol-light", "hol-light", ".ml", ["hol-light"], hol, by_goals),
    Prover("singular", "Singular, slimgb", "singular-ui", "Singular", ".sing", ["Singular", "-q", "--no-rc"], singular_basis, by_goals),
    Prover("lift", "Singular, lift", "singular-ui", "Singular", ".sing", ["Singular", "-q", "--no-rc"], singular_lift, by_goals),
    Prover("giac", "giac, gbasis", "xcas", "giac", ".giac", ["giac"], giac, by_goals),
    Prover("z3", "z3, QF_NRA", "z3", "z3", ".smt2", ["z3"], smt, by_models),
]
