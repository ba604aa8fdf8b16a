"""Makes a picture, a proof or a page of what the studio sends on standard input: a job (figure, proof, page, cites) and what
Page takes, as JSON. Answers with JSON."""
# SPDX-License-Identifier: Apache-2.0
import json
import sys
from pathlib import Path

TOOLS = Path(__file__).parent.parent
sys.path.append(str(TOOLS / "page"))

from cites import candidates  # noqa: E402
from formulas import NoFigure  # noqa: E402
from live import controls, described  # noqa: E402
from page import Page  # noqa: E402
from picture import Drawn  # noqa: E402
from proof import Proof, code_html, line_html, table_rows  # noqa: E402
from values import meets  # noqa: E402

NO_PICTURE = {"note": "No picture: no values were found that meet the figure."}


def figure(page):
    if not page.program.points():
        return {"note": "No picture: there are no points."}
    places, caption = page.values()
    figure = meets(page.program, page.conditions, [float(v) for v in places]) if places else None
    try:
        drawn = figure and Drawn(page.program, figure)
        shown = figure and described(page.program, figure, drawn, page.conditions)
    except (NoFigure, OverflowError, ValueError):
        return NO_PICTURE
    return {"figure": shown, "controls": controls(page.program, figure), "caption": caption} if figure else NO_PICTURE


def proof(page):
    """The sections of the proof with their steps, and the rows of the lemmas that these name."""
    lemmas = TOOLS.parent / "docs" / "LEMMAS.md"
    rows = table_rows(lemmas.read_text()) if lemmas.exists() else {}
    sections = Proof(page.program, page.log, page.text, rows).sections()
    used = {key for section in sections for step in section.steps for key, _ in step.equations if key}
    return {
        "sections": [{"head": section.head, "main": section.is_main, "steps": [step_of(step) for step in section.steps]} for section in sections],
        "lemmas": {key: [[title, code_html(cell)] for title, cell in zip(*rows[key]) if cell] for key in used},
    }


def step_of(step):
    return {"move": step.move, "equations": step.equations, "lines": "".join(map(line_html, step.lines))}


JOBS = {"figure": figure, "proof": proof, "page": lambda page: {"text": page.html()}, "cites": lambda page: {"listed": candidates(page)}}


def main():
    given = json.load(sys.stdin)
    job = JOBS[given.pop("job")]
    json.dump(job(Page(binary="", **given)), sys.stdout)


if __name__ == "__main__":
    main()
