"""The figures of pages in a real browser: pulled by mouse, finger and keys, and their formulas compared with `place`. Used by tests/page."""
# SPDX-License-Identifier: Apache-2.0
import json
import os
import random
import subprocess
import sys
import tempfile
from pathlib import Path

from browser import Browser, installed

TOP = Path(__file__).resolve().parent.parent
TOOLS = TOP / "tools" / "page"
sys.path.append(str(TOOLS))
import formulas  # noqa: E402
from live import described  # noqa: E402
from page import Page  # noqa: E402
from picture import Drawn  # noqa: E402
from values import meets, sampled  # noqa: E402

PROGRAMS, DEGENERATE, GENERAL = 125, 1, 3
PULLED = (
    "altitudes", "areas_by_weights", "ceva", "inversion_keeps_midpoints", "midline_meets_the_base", "monge", "simson_line", "varignon_as_a_rectangle",
)  # fmt: skip
HERE = "document.querySelector('.here')"
ASK = """(data, placements) => placements.map((values) => {
  const g = new Geometry(data), f = g.figure(new Map(values));
  return { points: [...f.points].map(([n, p]) => [n, ...p.map(String)]), failing: g.failing(f), gap: String(g.gap(f)) };
})"""


def run(binary, want):
    if not installed("chromium", "chromium"):
        print("the pages in a browser: not run without Debian's package chromium")
        return
    browser = Browser()
    try:
        with tempfile.TemporaryDirectory() as room:
            subprocess.run([TOP / "geo", "page", *(TOP / "examples" / f"{name}.geo" for name in PULLED), "--into", room], env={**os.environ, "GEO_PROGRAM": binary})
            for name in PULLED:
                opened(browser, want, binary, name, Path(room, f"{name}.html"))
            ways_to_pull(browser, want, Path(room, "altitudes.html"))
            broken(browser, want, Path(room, "monge.html"))
            printed(browser, want, Path(room, "ceva.html"))
        placements(browser, want, binary)
    finally:
        browser.close()


def dots(browser, picture):
    """The places of the points of a picture."""
    return browser.js(f"[...document.querySelectorAll('svg.{picture} .dot')].map((e) => [+e.getAttribute('cx'), +e.getAttribute('cy')]).sort((a, b) => a[0] - b[0] || a[1] - b[1])")


def opened(browser, want, binary, name, path):
    """A page opens without an error; the moving figure begins as the still one, and after a pull its points are those of `place`."""
    browser.open(path.as_uri())
    want(f"{name}: console", not browser.errors(), str(browser.errors())[:300])
    if name == "midline_meets_the_base":
        want(f"{name}: no figure", not browser.js("!!document.querySelector('svg')"))
        return
    still, moving = dots(browser, "still"), dots(browser, "moving")
    want(f"{name}: begins as the still picture", len(moving) >= len(still) and all(near(p, moving, 0.11) for p in still), f"{still} {moving}")
    proved = browser.js("document.querySelector('.verdict').classList.contains('proved')")
    want(f"{name}: the statement at first", browser.js(f"{HERE}.dataset.state") == ("holds" if proved else "fails"))
    pull(browser, 60, -45)
    want(f"{name}: console after a pull", not browser.errors(), str(browser.errors())[:300])
    want(f"{name}: the statement after a pull", not proved or browser.js(f"{HERE}.dataset.state") == "holds", browser.js(f"{HERE}.innerText"))
    placed(browser, want, binary, name)
    browser.js("document.querySelector('button.back').click()")
    want(f"{name}: as it was", dots(browser, "moving") == moving)


def near(p, others, most):
    return any(abs(p[0] - q[0]) <= most and abs(p[1] - q[1]) <= most for q in others)


def pull(browser, dx, dy):
    browser.js("document.querySelector('svg.moving').scrollIntoView({ block: 'center' })")
    x, y = browser.middle(".free")
    browser.drag(x, y, x + dx, y + dy)


def placed(browser, want, binary, name):
    """Where a program has free points alone, its points in the pulled picture are those of `place` at the same free points."""
    source = (TOP / "examples" / f"{name}.geo").read_text()
    page = Page(name, source, prove(binary, source), [], "")
    if page.program.valued():
        return
    seats = dict(browser.js("[...document.querySelectorAll('svg.moving .dot')].map((e) => [e.dataset.name, [+e.getAttribute('cx'), +e.getAttribute('cy')]])"))
    numbers = [round(10 * c) * (1 - 2 * k) for command in page.program.free() for k, c in enumerate(seats[command.name])]
    said = subprocess.run([binary, "place"], input=f"at {' '.join(map(str, numbers))}\n{page.canonical}", capture_output=True, text=True).stdout
    exact = {n: (int(x) / int(w) / 10, -int(y) / int(w) / 10) for n, x, y, w in (row.split() for row in said.splitlines()[:-1])}
    off = max((abs(seats[n][k] - exact[n][k]) for n in seats for k in (0, 1)), default=9.0)
    want(f"{name}: pulled points are where place puts them", off < 0.6, f"off by {off} pixels")


def ways_to_pull(browser, want, path):
    """A finger, the arrow keys; the page does not scroll under a finger on a point."""
    browser.open(path.as_uri())
    pull(browser, 0, 0)
    x, y = browser.middle("[data-point=A]")
    browser.finger(x, y, x - 40, y + 30)
    want("a finger", browser.comes("[data-point=A]", x - 40, y + 30), f"{x, y} {browser.middle('[data-point=A]')}")
    browser.js("document.querySelector('[data-point=B]').focus()")
    x, y = browser.middle("[data-point=B]")
    browser.key("ArrowUp", 38)
    browser.key("ArrowRight", 39, modifiers=8)
    to = browser.middle("[data-point=B]")
    want("the arrow keys", to[0] > x + 10 and to[1] < y - 2, f"{x, y} {to}")
    want("a name for those who do not see it", browser.js("document.activeElement.getAttribute('aria-label')") == "point B")


def broken(browser, want, path):
    """A condition that fails is told, and the points that do not exist are faded."""
    browser.open(path.as_uri())
    browser.js("for (const e of document.querySelectorAll('input[type=range]')) { e.value = 1; e.dispatchEvent(new Event('input')); }")
    want("a failing condition: its lines", browser.js("document.querySelectorAll('.verdict li.fails').length") == 3)
    want("a failing condition: words", browser.js(f"{HERE}.innerText").startswith("No figure here: a condition is not met."))
    faded = browser.js("[...document.querySelectorAll('svg .dot.missing')].map((e) => e.dataset.name).sort().join()")
    want("a failing condition: faded points", faded == "X,Y,Z", faded)


def printed(browser, want, path):
    """In print, and without scripts, the page has the still picture alone."""
    shown = "['.still', '.moving', '.controls', '.moved'].map((s) => getComputedStyle(document.querySelector(s)).display !== 'none').join()"
    browser.open(path.as_uri())
    want("on the screen", browser.js(shown) == "false,true,true,true", browser.js(shown))
    browser.media("print")
    want("in print", browser.js(shown) == "true,false,false,false", browser.js(shown))
    browser.media()
    browser.call("Emulation.setScriptExecutionDisabled", value=True)
    browser.open(path.as_uri())
    browser.call("Emulation.setScriptExecutionDisabled", value=False)
    want("without scripts", browser.js(shown) == "true,false,false,false", browser.js(shown))


def prove(binary, source):
    return subprocess.run([binary, "prove"], input=source, capture_output=True, text=True).stdout.splitlines()


def placements(browser, want, binary):
    """The script's points, conditions and statement against `place`, at random values, a quarter of them degenerate."""
    browser.js(formulas.script() + (TOOLS / "figure.js").read_text() + "; Object.assign(window, { Geometry }); 0")
    dice, points, unmet, worst = random.Random(1), 0, 0, 0.0
    paths = dice.sample(sorted((TOP / "examples").glob("*.geo")), PROGRAMS)
    for path in paths:
        source = path.read_text()
        page = Page(path.name, source, prove(binary, source), [], "")
        sample = sampled(page.log)
        figure = meets(page.program, page.conditions, [float(v) for v in sample]) if sample else None
        if figure is None or not page.program.points():
            continue
        data = described(page.program, figure, Drawn(page.program, figure), page.conditions)
        chosen = [random_values(page.program, dice, most) for most in [1] * DEGENERATE + [40] * GENERAL]
        answers = browser.js(f"({ASK})({json.dumps(data)}, {json.dumps(chosen)})")
        for values, answer in zip(chosen, answers):
            line = "at " + " ".join(str(x) for _, v in values for x in (v if isinstance(v, list) else [v]))
            run = subprocess.run([binary, "place"], input=f"{line}\n{page.canonical}", capture_output=True, text=True)
            off = compared(want, f"{path.stem} {line}", run, answer)
            unmet += off is None
            points += len(answer["points"]) * (off is not None)
            worst = max(worst, off or 0.0)
    want("placements: points and unmet conditions", points > 2000 and unmet > 20, f"{points} {unmet}")
    want("placements: the worst point", worst < 1e-9, str(worst))


def random_values(program, dice, most):
    free = [[c.name, [dice.randint(-most, most), dice.randint(-most, most)]] for c in program.free()]
    return free + [[c.name, dice.randint(-3, 3)] for c in program.valued()]


def compared(want, name, run, answer):
    """The worst distance of a point, as a part of the figure; None where a condition is not met, which both have to say."""
    if run.returncode == 15:
        want(f"{name}: an unmet condition", int(run.stdout.split()[-1]) in answer["failing"], str(answer["failing"]))
        return None
    if run.returncode != 13:
        return 0.0
    *rows, end = run.stdout.splitlines()
    exact = {n: (int(x) / int(w), int(y) / int(w)) for n, x, y, w in (row.split() for row in rows)}
    size = max(1.0, *(abs(v) for p in exact.values() for v in p))
    off = max(max(abs(float(x) - exact[n][0]), abs(float(y) - exact[n][1])) / size for n, x, y in answer["points"])
    want(f"{name}: its points", off < 1e-9, f"off by {off}")
    want(f"{name}: no condition fails", not answer["failing"], str(answer["failing"]))
    want(f"{name}: {end}", (float(answer["gap"]) < 1e-7) == (end == "holds"), answer["gap"])
    return off
