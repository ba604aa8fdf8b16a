"""What the prover answers, in words for the page."""
# SPDX-License-Identifier: Apache-2.0
import collections
import json
import re
import sys
import threading
import time
from dataclasses import dataclass
from fractions import Fraction
from pathlib import Path

TOOLS = Path(__file__).parent.parent
sys.path += [str(TOOLS / "page"), str(TOOLS)]

from figures import figure_where  # noqa: E402
from meanings import meaning, refusal  # noqa: E402
from page import Page  # noqa: E402
from relations import Relations  # noqa: E402
from runs import TooLong  # noqa: E402
from subjects import shared  # noqa: E402
from words import condition_html, name_html, number_html  # noqa: E402

STEPS, MOST_STEPS = 100_000_000, 1_000_000_000_000
SECONDS, MORE_SECONDS, FIGURE_SECONDS, TRYING_SECONDS, RELATIONS_SECONDS = 10, 120, 5, 5, 600
KEPT, KEPT_BYTES, PART = 4, 8 << 20, 30
HELPER = [sys.executable, "-SsEB", str(Path(__file__).parent / "sheet.py")]
DECIDED, SYNTAX, TOO_LARGE, SPENT, TOO_LONG, DONE, UNMET = (0, 1, 2), 4, 6, 7, 12, 13, 15
OTHERWISE = '<p class="note">More steps do not help: say it in another way (docs/GUIDE.md).</p>'
MISTAKE = {"note": "The program has a mistake: see its mark."}
LIBRARY = shared("examples") / "library"
TELLING = re.compile(rb"\| |condition |goal |sample|verdict|stop")


@dataclass
class Worked:
    """What the prover made of a program: its log as far as it came, and its status, none where its time was over. Where it stopped, `at` has
    the numbers of a figure that was tried, and at which the statement fails."""

    log: bytes
    status: int | None
    at: str = ""

    def has_program(self):
        """Whether the lines of the program are whole."""
        return self.status != SYNTAX and b"\n| prove " in self.log

    def is_stopped(self):
        return self.status in (TOO_LARGE, SPENT, TOO_LONG, None) and self.has_program()

    def told(self):
        """The lines without the chains, as text; behind them that the log would be too long."""
        lines = [line.decode() for line in self.log.splitlines() if TELLING.match(line)]
        return lines + ["too long"] * (self.status == TOO_LONG) or [""]


class Placing:
    """The word `place` as the figures that are tried want it."""

    def __init__(self, answers, asked, seconds):
        self.answers, self.asked, self.end = answers, asked, time.monotonic() + seconds

    def place(self, line, text):
        words = [self.answers.program.path, "place"]
        out, status = self.answers.runs.run(self.asked, words, f"{line}\n{text}".encode(), self.end - time.monotonic())
        return status, out.decode().splitlines()


class Answers:
    """Answers the questions of pages. Each takes what was asked and a question of `runs`, and gives lines as they come."""

    def __init__(self, program, runs, steps=STEPS, seconds=SECONDS):
        self.program = program
        self.runs = runs
        self.steps = steps
        self.seconds = seconds
        self.known = collections.OrderedDict()
        self.lock = threading.Lock()
        runs.prepare(HELPER)

    def worked(self, asked, text, more=False):
        """What the prover makes of a program; the last few are kept."""
        with self.lock:
            found = self.known.get((text, more))
        if found is None:
            found = self.work(asked, text, more)
            with self.lock:
                self.known[text, more] = found
                while len(self.known) > KEPT or sum(len(one.log) for one in self.known.values()) > KEPT_BYTES and len(self.known) > 1:
                    self.known.popitem(last=False)
        return found

    def work(self, asked, text, more):
        words = [self.program.path, "prove", "--steps", str(MOST_STEPS if more else self.steps)]
        try:
            worked = Worked(*self.runs.run(asked, words, text.encode(), self.time(more)))
        except TooLong as late:
            log = late.args[0]
            worked = Worked(log[: log.rfind(b"\n") + 1], None)
        if worked.is_stopped():
            try:
                figure = figure_where("fails", Placing(self, asked, TRYING_SECONDS), text)
                worked.at = figure.line if figure else ""
            except TooLong:
                pass
        return worked

    def time(self, more):
        return MORE_SECONDS if more else self.seconds

    def sheet(self, asked, job, seconds, **given):
        """What the helper makes: a picture, a proof or a page. It runs beside the studio, so that it can be stopped."""
        try:
            out, status = self.runs.run(asked, HELPER, json.dumps({"job": job, **given}).encode(), seconds)
        finally:
            self.runs.prepare(HELPER)
        return json.loads(out) if status == 0 else {"note": "This could not be made."}

    def ask(self, body, asked):
        """The verdict, and then the figure."""
        yield from self.program.waited(asked.look)
        if not self.program.path:
            return
        text, more, begun = body["text"], body["more"], time.monotonic()
        is_known = (text, more) in self.known
        worked = self.worked(asked, text, more)
        if worked.status == SYNTAX:
            yield refusal(text, worked.log)
        elif worked.has_program() and (worked.status in DECIDED or worked.is_stopped()):
            page = Page("", text, worked.told(), [], "", at=worked.at)
            took = None if is_known else round((time.monotonic() - begun) * 1000)
            is_open = not more and (worked.status is None or worked.status == SPENT and self.steps < MOST_STEPS)
            told = verdict(page, worked, late(self.time(more)) if worked.status is None else "", is_open)
            yield {**told, "lines": worked.log.count(b"\n"), "ms": took, "recorded": self.program.is_recorded}
            if page.verdict != "impossible":
                yield self.figure(asked, text, worked)
        elif worked.status is None:
            yield {"state": "undecided", "html": f"<p><b>Undecided.</b></p>{late(self.time(more))}", "more": not more}
        else:
            yield {"state": "error", "html": "", "note": meaning("status", worked.status) or f"The prover ended with status {worked.status}."}

    def figure(self, asked, text, worked):
        try:
            return self.sheet(asked, "figure", FIGURE_SECONDS, name="", source=text, log=worked.told(), text=[], at=worked.at)
        except TooLong:
            return {"note": "No picture: to choose one took too long."}

    def decided(self, body, asked):
        """What the prover makes of a program, and where that has a verdict its readable proof."""
        worked = self.worked(asked, body["text"], body["more"])
        if worked.status not in DECIDED:
            return worked, ""
        return worked, self.runs.run(asked, [self.program.path, "text", "--steps", str(MOST_STEPS)], worked.log, SECONDS)[0].decode()

    def proof(self, body, asked):
        """The sections of the proof, a few steps at a time."""
        try:
            worked, text = self.decided(body, asked)
            lines = worked.log.decode().splitlines()
            made = self.sheet(asked, "proof", SECONDS, name="", source=body["text"], log=lines, text=text.splitlines())
        except TooLong:
            made = {"note": "The proof takes too long to show. It can be saved as a log."}
        if "note" in made:
            yield made
            return
        for section in made["sections"]:
            steps = section.pop("steps")
            yield {"section": section}
            for k in range(0, len(steps), PART):
                yield {"steps": steps[k : k + PART]}
        yield {"lemmas": made["lemmas"]}

    def saved(self, body, asked):
        """The log, or the page, to be saved."""
        try:
            worked, text = self.decided(body, asked)
            log = worked.log.decode()
            if body["as"] == "log":
                yield {"text": log}
            elif not worked.has_program():
                yield MISTAKE if worked.status == SYNTAX else {"note": "There is nothing to make a page of."}
            else:
                given = {"source": body["text"], "log": log.splitlines(), "text": text.splitlines(), "at": worked.at}
                yield self.sheet(asked, "page", MORE_SECONDS, name=body["name"], is_recorded=self.program.is_recorded, **given)
        except TooLong:
            yield {"note": "This takes too long here: use geo page in a shell."}

    def place(self, body, asked):
        """The points at given whole numbers, exactly."""
        if not all(re.fullmatch(r"-?[0-9]{1,40}", n) for n in body["numbers"]):
            yield {"note": "Whole numbers are due in all fields."}
            return
        line = "at" + "".join(f" {int(n)}" for n in body["numbers"])
        try:
            out, status = self.runs.run(asked, [self.program.path, "place"], f"{line}\n{body['text']}".encode(), SECONDS)
        except TooLong:
            yield {"note": f"The run was stopped at its time, {SECONDS} s."}
            return
        lines = out.decode().splitlines()
        if status == DONE:
            yield {"rows": [place_row(*line.split(" ")) for line in lines[:-1]], "holds": lines[-1] == "holds"}
        elif status == UNMET:
            yield self.unmet(body["text"], int(lines[-1].split(" ")[1]), asked)
        elif status == SYNTAX:
            yield {"note": f"Not placed: {meaning('syntax', lines[-1].split(' ')[1])}."}
        else:
            yield {"note": "These numbers are too large for this figure: smaller ones may help." if status == TOO_LARGE else meaning("status", status)}

    def unmet(self, text, number, asked):
        conditions = Page("", text, self.worked(asked, text).told(), [], "").conditions
        words = condition_html(conditions[number - 1]) if number <= len(conditions) else f"condition {number}"
        return {"html": f"No figure has these numbers. This is not met: {words}."}

    def cites(self, body, asked):
        """The theorems of the library that can be cited at the figure: each is shown by the program itself."""
        try:
            worked = self.worked(asked, body["text"])
            if not worked.has_program():
                yield MISTAKE
                return
            found = self.sheet(asked, "cites", SECONDS, name="", source=body["text"], log=worked.told(), text=[])
            for one in found.get("listed", []):
                theorem = (LIBRARY / f"{one['log']}.log").read_bytes()
                given = theorem + f"with {one['with']}\n{one['program']}".encode()
                if self.runs.run(asked, [self.program.path, "cite"], given, SECONDS)[1] == DONE:
                    yield {"cited": {key: one[key] for key in ("title", "html", "missing", "own", "tail")}}
        except TooLong:
            yield {"note": f"The search was stopped at its time, {SECONDS} s."}

    def relations(self, body, asked):
        """All relations, as they are found, and how far the work is."""
        try:
            worked = self.worked(asked, body["text"])
            if not worked.has_program():
                yield MISTAKE
                return
            found = Relations(worked.told(), body["send"])
            self.runs.run(asked, [self.program.path, "discover"], body["text"].encode(), RELATIONS_SECONDS, found.take)
            found.take(b"")
        except TooLong:
            yield {"note": f"The work was stopped at its time, {RELATIONS_SECONDS // 60} minutes."}


def late(seconds):
    return f'<p class="note">The run was stopped at its time, {seconds} s.</p>'


def verdict(page, worked, note, is_open):
    """What is told of a verdict or a stop, with a note behind it; where it is open, more steps and more time are offered."""
    is_undecided = page.verdict == "undecided"
    return {
        "state": page.verdict,
        "html": page.box() + (note or (OTHERWISE if is_undecided and not is_open else "")),
        "more": is_undecided and is_open,
        "proof": worked.status in DECIDED,
        "names": [command.name for command in page.program.commands if command.name],
        "numbers": due_numbers(page),
    }


def due_numbers(page):
    """What the line `at` of this program wants, with the numbers of the sample, or of the figure that was tried."""
    sample = next((line.split()[1:] for line in page.log if line.startswith("sample")), [])
    values = [str(number) for number in page.tried] or [part.split("=")[1] for part in sample]
    due = [(f"{name_html(c.name)} {axis}", [c.name, k]) for c in page.program.free() for k, axis in enumerate("xy")]
    due += [(("" if c.word == "param" else "t of ") + name_html(c.name), [c.name, None]) for c in page.program.valued()]
    return [{"html": label, "of": of, "value": value} for (label, of), value in zip(due, values + ["0"] * len(due))]


def place_row(name, x, y, w):
    x, y = Fraction(int(x), int(w)), Fraction(int(y), int(w))
    return f"<td>{name_html(name)}</td><td>{number_html(x)}</td><td>{number_html(y)}</td>"
