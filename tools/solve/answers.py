"""What is told of an answer: exactly what was shown. An answer has the lines of a log, and some kinds more, which tools/solve.awk has."""
# SPDX-License-Identifier: Apache-2.0
import os
import subprocess

from canonical import TOOLS, condition_text, conditions, line_of, program_text, same, statement_text

PROVED, OPEN = 0, 18


def in_words(name, answer):
    """An answer as geo tells it."""
    scripts = (x for script in ("words.awk", "sample.awk", "decide.awk", "solve.awk") for x in ("-f", TOOLS / script))
    known = {**os.environ, "name": name, "again": "", "at": "", "seconds": ""}
    return subprocess.run(["awk", *scripts], input=answer, capture_output=True, text=True, env=known).stdout


def program_lines(commands, statement):
    """The program, its conditions and its goal."""
    told = [f"condition {k} {condition_text(c)}" for k, c in enumerate(conditions(commands, statement), 1)]
    return [*(f"| {row}" for row in program_text(commands, statement).splitlines()), *told, f"goal 1 {statement_text(statement)}"]


def false_answer(commands, statement, line, stop="stop"):
    """The figure that was tried and at which the statement fails, behind where `prove` stopped."""
    return text_of(f"known at {line}", *program_lines(commands, statement), stop)


def proved_answer(book, statement, figure, line, form):
    """The program's conditions, and what is added to it in the figure at which the formulation is cited: auxiliary points, and conditions
    that are there besides. That what is added may go is the law of docs/LIBRARY.md."""
    own = conditions(book, statement)
    known = {same(c) for c in own}
    besides = [c for c in conditions(figure, statement) if c not in own and same(c) not in known]
    return text_of(
        *program_lines(book, statement),
        " v=".join(["sample", *line.split()[1:]]),
        *(f"form {line_of(c)}" for c in form),
        *(f"auxiliary {line_of(c)}" for c in figure[len(book) :] if c.word != "assume"),
        *(f"besides {k} {condition_text(c)}" for k, c in enumerate(besides, 1)),
        "cited" if len(figure) == len(book) else "cited with more",
        "verdict proved",
    )


def open_answer(search):
    """What was tried, and a formulation that was proved and not carried back."""
    lost = search.proved[0] if search.proved else None
    return text_of(
        *program_lines(search.book, search.statement),
        f"note {search.tried} formulations were tried; {len(search.proved)} were proved and not carried back",
        *([f"form {line_of(c)}" for c in lost.form] + [f"note cite answers: {lost.outcome}"] if lost else []),
        "open",
    )


def text_of(*lines):
    return "".join(f"{row}\n" for row in lines)
