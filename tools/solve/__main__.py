"""Decides a program, and searches for another formulation where `prove` stops; or checks certificates:

    solve PROGRAM [--name NAME] [--seconds N] [--jobs N] [--tries N] [--certificate FOLDER] [--quiet] FILE
    solve PROGRAM --check FOLDER [FILE..]

PROGRAM is the built prover. What is told was shown by its words; docs/SOLVING.md says what the answers mean. The first form writes an
answer in lines, as answers.py has them; the second one tells in words what certificates show.
"""
# SPDX-License-Identifier: Apache-2.0
import argparse
import os
import signal
import sys
import time
from pathlib import Path

sys.path.insert(1, str(Path(__file__).resolve().parent.parent))
import certificates  # noqa: E402
from answers import OPEN, PROVED, false_answer, in_words, open_answer, proved_answer  # noqa: E402
from canonical import read  # noqa: E402
from figures import figure_where  # noqa: E402
from prover import MOST, Prover  # noqa: E402
from search import Search  # noqa: E402

SECONDS, FIRST_SHARE = 30, 1 / 8
DEFAULT_STEPS = 100_000_000
STOPS = (6, 7, 12)
FALSE, BAD_WORDS, BAD_WRITE, NOT_ACCEPTED, CUT_OFF = 1, 3, 9, 11, 70


def options(words):
    parser = argparse.ArgumentParser(prog="solve")
    parser.add_argument("program")
    for name in ("name", "certificate", "check"):
        parser.add_argument(f"--{name}")
    for name, value in (("seconds", SECONDS), ("jobs", max(1, (os.cpu_count() or 2) - 1)), ("tries", None)):
        parser.add_argument(f"--{name}", type=int, default=value)
    parser.add_argument("--quiet", action="store_true")
    parser.add_argument("files", nargs="*")
    return parser.parse_intermixed_args(words)


class Solver:
    """One file: what is tried, in this order, and the answer in lines."""

    def __init__(self, given, text):
        self.given, self.text, self.answer, self.search, self.found = given, text, "", None, None
        self.name = given.name or given.files[0]
        self.prover = Prover(given.program, None if given.tries else given.seconds)

    def solve(self):
        """The status of the answer."""
        for step in (self.decided, self.refuted, self.decided_with_the_most, self.searched):
            status = step()
            if status is not None:
                return status

    def decided(self, steps=DEFAULT_STEPS, known=""):
        """The verdict of `prove`; none where it stops."""
        answer = self.prover.ask("prove", self.text, int(FIRST_SHARE * self.given.seconds) + 1, steps)
        self.canonical, self.stop = certificates.canonical_of(answer.text), answer.last
        if answer.status in (None, *STOPS) and self.canonical:
            return None
        self.answer = known + answer.text
        return CUT_OFF if answer.status is None else answer.status

    def decided_with_the_most(self):
        return self.decided(MOST, "known again yes\n")

    def refuted(self):
        """Ten figures: a false statement mostly fails at the first."""
        figure = figure_where("fails", self.prover, self.canonical)
        if not figure:
            return None
        self.keep(at=f"{figure.line}\n{self.canonical}")
        self.answer = false_answer(*read(self.canonical), figure.line, self.stop)
        return FALSE

    def searched(self):
        book, statement = read(self.canonical)
        search = self.search = Search(book, statement, self.prover, self.given.jobs, self.given.tries, self.progress())
        found = self.found = search.run()
        if not found:
            self.answer = open_answer(search)
            return OPEN
        text = certificates.with_mark(found.figure, book, statement)
        self.keep(cite=found.citation(text), at=f"{found.placed.line}\n{text}")
        self.answer = proved_answer(book, statement, found.figure, found.placed.line, found.form)
        return PROVED

    def keep(self, **parts):
        if self.given.certificate:
            certificates.write(self.given.certificate, self.name, parts)

    def progress(self):
        """A function that shows on a terminal how far the search is, or none."""
        begun = time.monotonic()

        def show(text):
            sys.stderr.write(f"\r{self.name}: {time.monotonic() - begun:.0f} s, {text}\x1b[K" if text else "\r\x1b[K")
            sys.stderr.flush()

        return show if sys.stderr.isatty() and not self.given.quiet else None


def check(given):
    """Tells what the certificates of a folder show; those of the files, or all."""
    paths = {certificates.stem_of(path): path for path in given.files}
    names = paths or sorted(path.stem for path in Path(given.check).glob("*.at"))
    worst = 0 if names else BAD_WORDS
    for name in names:
        try:
            told = in_words(name, certificates.shown(given.program, given.check, name, paths.get(name)))
        except certificates.Refused as refusal:
            told, worst = f"{name}: refused: {refusal}\n", NOT_ACCEPTED
        sys.stdout.write(told)
    if not names:
        print(f"solve: no certificate in '{given.check}'", file=sys.stderr)
    return worst


def end_on_signals(prover):
    """Ctrl-C and the like end the words that run, and then this program as they would have."""

    def end(number, _):
        prover.stop()
        signal.signal(number, signal.SIG_DFL)
        os.kill(os.getpid(), number)

    for number in (signal.SIGINT, signal.SIGTERM, signal.SIGHUP):
        signal.signal(number, end)


def main(words):
    given = options(words)
    if given.check:
        return check(given)
    try:
        solver = Solver(given, Path(given.files[0]).read_text(encoding="utf-8", errors="surrogateescape"))
        end_on_signals(solver.prover)
        status = solver.solve()
        sys.stdout.write(solver.answer)
        sys.stdout.flush()
        return status
    except BrokenPipeError:
        os._exit(BAD_WRITE)
    except OSError as error:
        print(f"solve: '{error.filename}': {error.strerror}", file=sys.stderr)
        return BAD_WRITE


if __name__ == "__main__":
    sys.exit(main(sys.argv[1:]))
