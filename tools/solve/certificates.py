"""Certificates: NAME.cite is the input of `cite`, NAME.at that of `place`. The proved program checks both; what they show is told here."""
# SPDX-License-Identifier: Apache-2.0
import re
from pathlib import Path

from answers import false_answer, proved_answer, text_of
from canonical import line_of, program_text, read
from prover import DONE, Prover

ADDED = "% added\n"


class Refused(Exception):
    """A certificate that does not show what it should; the text says why."""


def with_mark(figure, book, statement):
    """The text of a figure, with a comment where what is added to the program begins."""
    own, rest = program_text(book, statement), program_text(figure[len(book) :], statement)
    return own[: own.rindex("prove {")] + (ADDED if len(figure) > len(book) else "") + rest


def stem_of(name):
    return re.sub(r"\.geo$", "", Path(name).name).replace("<stdin>", "stdin")


def write(folder, name, parts):
    """Writes the parts of a certificate, a text for each ending, in the place of an older one."""
    Path(folder).mkdir(parents=True, exist_ok=True)
    Path(folder, f"{stem_of(name)}.cite").unlink(missing_ok=True)
    for ending, text in parts.items():
        Path(folder, f"{stem_of(name)}.{ending}").write_text(text)


def canonical_of(log):
    """The canonical program of a log."""
    return "".join(line[2:] + "\n" for line in log.split("\ngoal ")[0].splitlines() if line.startswith("| "))


def canonical(program, path):
    """The canonical text of the program in a file."""
    text = canonical_of(Prover(program).ask("prove", file_text(path, path), steps=1).text)
    if not text:
        raise Refused(f"'{path}' is no program")
    return text


def file_text(path, name):
    try:
        return Path(path).read_text(encoding="utf-8", errors="surrogateescape")
    except OSError as error:
        raise Refused(f"cannot read {name}: {error.strerror}") from error


def shown(program, folder, name, path=None):
    """What a certificate shows, as an answer: of the program in the file, or of its own whole program, which is told then."""
    prover, book = Prover(program), None if path is None else read(canonical(program, path))
    line, _, figure = file_text(Path(folder, f"{name}.at"), f"{name}.at").partition("\n")
    is_cited = Path(folder, f"{name}.cite").exists()
    check_place(prover, line, figure, name, "holds" if is_cited else "fails")
    commands, statement = read(figure)
    form = cited_form(prover, Path(folder, f"{name}.cite"), commands, statement) if is_cited else []
    if book:
        check_book(is_cited, name, commands, statement, *book)
    own = book[0] if book else commands
    told = "" if book else text_of(*(f"program {line_of(c)}" for c in commands))
    return told + (proved_answer(own, statement, commands, line, form) if is_cited else false_answer(own, statement, line))


def check_place(prover, line, figure, name, wanted):
    """`place` has this figure, and the statement holds or fails there."""
    status, rows = prover.place(line, figure)
    if status != DONE:
        raise Refused(f"place answers {rows[-1] if rows else status} to {name}.at")
    if rows[-1] != wanted:
        raise Refused(f"place answers {rows[-1]} to {name}.at, and {wanted} is due")


def cited_form(prover, path, commands, statement):
    """The commands of the formulation that `cite` shows at the program that `place` has."""
    citation = file_text(path, path.name)
    cited = prover.ask("cite", citation)
    if cited.status != DONE:
        raise Refused(f"cite answers {cited.last} to {path.name}")
    if read(citation[re.search(r"^with .*\n", citation, re.M).end() :]) != (commands, statement):
        raise Refused(f"{path.name} and {path.stem}.at are of two programs")
    return read(canonical_of(citation))[0]


def check_book(is_cited, name, commands, statement, book, goal):
    """The certificate's program is the one that is asked for, and behind it at most auxiliary commands and assumptions."""
    if commands[: len(book)] != book or statement != goal or not is_cited and len(commands) > len(book):
        raise Refused(f"{name}.at is of another program")
