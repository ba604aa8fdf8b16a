"""The studio in a real browser, by real keys and a real mouse. Used by tests/studio."""
# SPDX-License-Identifier: Apache-2.0
import json
import random
import tempfile
from pathlib import Path

from browser import Browser
from studio_run import SLOW, TOP, Studio

VERDICT = "document.getElementById('verdict').innerText"
STATE = "document.querySelector('.here').dataset.state"
IDLE = "!document.body.classList.contains('waits')"
GRIP = """(() => {
  const grips = [...document.querySelectorAll('svg .free')].filter((e) => e.getAttribute('visibility') !== 'hidden');
  if (!grips.length) return null;
  const box = grips[Math.floor(Math.random() * grips.length)].getBoundingClientRect();
  return [box.x + box.width / 2, box.y + box.height / 2];
})()"""


def run(binary, want, has_editor, programs):
    with tempfile.TemporaryDirectory() as room:
        file = Path(room, "altitudes.geo")
        file.write_text((TOP / "examples" / "altitudes.geo").read_text())
        studio, browser = Studio(binary, file), Browser(1280, 860)
        try:
            browser.open(studio.address)
            first(browser, studio, want)
            typed(browser, want, has_editor)
            pulled(browser, want)
            held(browser, want)
            panels(browser, studio, want)
            saved(browser, studio, want, file)
            gallery(browser, want, programs)
            narrow(browser, want)
            errors = browser.errors()
            want("no error on the console", not errors, errors)
        finally:
            browser.close()
            status, is_left = studio.end()
            want("the studio ends with 0, and all its runs", status == 0 and not is_left, status)


def settled(browser, words):
    """The answers to the present text are there, and the verdict has these words."""
    return browser.wait(f"window.studio && {IDLE}", 60) and words in browser.js(VERDICT)


def put(browser, text):
    """Another text in the place of the present one, as if it were pasted."""
    browser.js(f"studio.editor.replace(0, studio.editor.get().length, {json.dumps(text)})")


def first(browser, studio, want):
    want("the studio's address stands soon", studio.started < 10, studio.started)
    want("the first verdict", settled(browser, "CH is perpendicular to AB"), browser.js(VERDICT))
    want("and its conditions", browser.js("document.querySelectorAll('#verdict li').length") == 3)


def typed(browser, want, has_editor):
    """A theorem is typed; a mistake is marked at its place, with the words of geo; and mended."""
    browser.js("studio.editor.set('')")
    browser.js("studio.editor.focus()")
    browser.type("point A\npoint B\npoint C\nmidpoint M A B\nmidpoint N B C\nprove { parallel M N A C }")
    want("a theorem that is typed", settled(browser, "MN is parallel to AC"), browser.js(VERDICT))
    browser.type("\nx")
    want("a mistake is told", settled(browser, "Line 7: nothing may stand behind the statement"), browser.js(VERDICT))
    if has_editor:
        marked = browser.js("document.querySelector('.wrong')?.innerText")
        want("and marked at its place", marked == "x", marked)
    else:
        want("and marked", browser.js("document.querySelector('textarea').getAttribute('aria-invalid')") == "true")
    browser.key("Backspace", 8)
    browser.key("Backspace", 8)
    want("and mended", settled(browser, "MN is parallel to AC") and not browser.js("!!document.querySelector('.wrong')"), browser.js(VERDICT))
    if has_editor:
        browser.type("\nmidp")
        browser.key(" ", 32, modifiers=2)
        want("a word is completed", browser.wait("studio.editor.get().endsWith('\\nmidpoint')"), browser.js("studio.editor.get()"))
    put(browser, "point A\npoint B\npoint C\nmidpoint M A B\nmidpoint N B C\nprove { parallel M N A C }\n")
    settled(browser, "MN is parallel to AC")


def pulled(browser, want):
    """A corner is pulled, and the midpoints go where they are due; what was moved stays when the statement changes."""
    want("five points", browser.js("document.querySelectorAll('svg .dot').length") == 5)
    b = browser.middle("svg [data-name=B]")
    browser.drag(*b, b[0] - 90, b[1] - 60)
    want("a point is pulled", browser.comes("svg [data-name=B]", b[0] - 90, b[1] - 60), f"{b} {browser.middle('svg [data-name=B]')}")
    places = {name: browser.middle(f"svg [data-name={name}]") for name in "ABCMN"}
    for name, ends in (("M", "AB"), ("N", "BC")):
        middle = [(places[ends[0]][k] + places[ends[1]][k]) / 2 for k in (0, 1)]
        want(f"and the midpoint {name} follows", all(abs(p - q) < 0.3 for p, q in zip(places[name], middle)), places)
    put(browser, "point A\npoint B\npoint C\nmidpoint M A B\nmidpoint N B C\nprove { parallel M N A B }\n")
    want("a false statement", settled(browser, "False."), browser.js(VERDICT))
    want("the pulled point stays", browser.middle("svg [data-name=B]") == places["B"])
    want("and the figure tells it", browser.js(STATE) == "fails", browser.js("document.querySelector('.here').innerText"))
    browser.js("document.querySelector('button.back').click()")
    want("as it was", browser.middle("svg [data-name=B]") != places["B"])


def held(browser, want):
    """An answer that comes while a point is held lays the figure out when it is let go: the point stays under the mouse."""
    put(browser, "point A\npoint B\npoint C\nmidpoint M A B\nprove { collinear A M B }\n")
    settled(browser, "A, M and B are on one line")
    b = browser.middle("svg [data-name=B]")
    browser.mouse("mousePressed", *b, clickCount=1)
    put(browser, "point A\npoint B\npoint C\nmidpoint M A B\nmidpoint N A C\nprove { parallel M N B C }\n")
    want("a verdict while a point is held", browser.wait(f"{VERDICT}.includes('MN is parallel to BC')", 60), browser.js(VERDICT))
    browser.mouse("mouseMoved", b[0] - 40, b[1] + 30, buttons=1)
    want("the point that is held follows", browser.comes("svg [data-name=B]", b[0] - 40, b[1] + 30), f"{b} {browser.middle('svg [data-name=B]')}")
    want("the figure waits", not browser.js("!!document.querySelector('svg [data-name=N]')") and not browser.js(IDLE))
    browser.mouse("mouseReleased", b[0] - 40, b[1] + 30, clickCount=1)
    want("and is laid out", settled(browser, "MN is parallel to BC") and browser.js("!!document.querySelector('svg [data-name=N]')"))
    want("with the point where it was let go", browser.comes("svg [data-name=B]", b[0] - 40, b[1] + 30), f"{b} {browser.middle('svg [data-name=B]')}")
    put(browser, "point A\npoint B\nparam r\nlratio X A B r\nprove { collinear A B X }\n")
    settled(browser, "A, B and X are on one line")
    x, y = browser.middle("input[type=range]")
    before = browser.js("document.querySelector('input[type=range]').value")
    browser.mouse("mousePressed", x, y, clickCount=1)
    put(browser, "point A\npoint B\nparam r\nlratio X A B r\nprove { collinear X A B }\n")
    want("a verdict while a slider is held", browser.wait(f"{VERDICT}.includes('X, A and B')", 60), browser.js(VERDICT))
    browser.mouse("mouseMoved", x + 30, y, buttons=1)
    value = browser.js("document.querySelector('input[type=range]').value")
    browser.mouse("mouseReleased", x + 30, y, clickCount=1)
    kept = settled(browser, "X, A and B") and browser.js("document.querySelector('input[type=range]').value")
    want("the slider that is held follows, and stays", value != before and kept == value and browser.js("studio.figure.values.get('r')") == float(value), f"{before} {value} {kept}")


def panels(browser, studio, want):
    put(browser, SLOW)
    settled(browser, "X, Y and Z")
    want("the proof, folded", browser.wait("document.querySelectorAll('#panel-proof .step').length > 5", 30), browser.js("document.getElementById('panel-proof').innerText.slice(0, 300)"))
    goal = "#panel-proof > details[open]"
    browser.wait(f"!!document.querySelector('{goal} .step summary')")
    browser.js(f"document.querySelector('{goal} .step details').open = true; document.querySelector('{goal} .step [open] .lemma').click()")
    want("a lemma", browser.js(f"document.querySelector('{goal} .row th')?.textContent") not in (None, ""))
    browser.js(f"document.querySelector('{goal} .step summary').scrollIntoView({{ block: 'center' }})")

    def lit():
        # what was laid out meanwhile may have moved the line
        browser.mouse("mouseMoved", 1, 1)
        browser.mouse("mouseMoved", *browser.middle(f"{goal} .step summary"))
        return browser.wait("document.querySelectorAll('svg .lit').length > 0", 3)

    want("the points of a line are lit", any(lit() for _ in range(5)))
    browser.js("document.getElementById('tab-relations').click(); document.getElementById('discover').click()")
    want("relations come", browser.wait("document.querySelectorAll('#relations li').length > 9", 60))
    want("by one run", studio.searches() == 1, studio.children())
    browser.js("document.getElementById('discover').click()")
    want("and stop", browser.wait("document.getElementById('told').innerText.startsWith('Stopped')"))
    want("with their run", studio.wait(lambda: studio.searches() == 0, 5), studio.children())
    browser.js("document.querySelector('#relations button').click()")
    want("a relation is made the statement", settled(browser, "Proved."), browser.js(VERDICT))
    put(browser, "point A\npoint B\npoint C\nmidpoint D B C\nmidpoint E C A\nmidpoint F A B\nfoot H A B C\nprove { concyclic D E F H }\n")
    settled(browser, "are on one circle or line")
    browser.js("document.getElementById('tab-cites').click()")
    want("theorems to cite", browser.wait("document.getElementById('panel-cites').innerText.includes('Thales')", 60), browser.js("document.getElementById('panel-cites').innerText"))
    browser.js("document.getElementById('tab-place').click(); document.querySelector('#numbers button[type=submit]').click()")
    want("points at the sample's numbers", browser.wait("document.getElementById('places').innerText.startsWith('Here the statement holds')"), browser.js("document.getElementById('places').innerText"))


def saved(browser, studio, want, file):
    """Ctrl-S writes the file; it is there after a reload; a file that another program changed is not written over without a question."""
    put(browser, "point A\npoint B\nmidpoint M A B\nprove { collinear A B M }\n")
    settled(browser, "A, B and M are on one line")
    want("not written before", "collinear A B M" not in file.read_text())
    browser.call("Input.dispatchKeyEvent", type="keyDown", key="s", code="KeyS", windowsVirtualKeyCode=83, modifiers=2)
    want("saved", browser.wait("document.getElementById('saved').innerText === 'saved'") and "collinear A B M" in file.read_text())
    errors = browser.errors()
    want("no error on the console before the reload", not errors, errors)
    browser.open(studio.address)
    want("there after a reload", settled(browser, "A, B and M are on one line"), browser.js(VERDICT))
    file.write_text("% another\n")
    browser.js("confirm = (words) => { window.asked = words; return false; }; document.getElementById('save').click()")
    want("not written over another's changes", browser.wait("!!window.asked") and file.read_text() == "% another\n")


def gallery(browser, want, count):
    """Programs of the gallery by the list of examples, each with its verdict, and pulled twice."""
    verdicts = {line.split()[0]: line.split()[2] for line in (TOP / "examples" / "verdicts").read_text().splitlines()}
    dice = random.Random(7)
    for name in sorted(dice.sample(sorted(verdicts), min(count, len(verdicts)))):
        put(browser, (TOP / "examples" / f"{name}.geo").read_text())
        settled(browser, "")
        seen = browser.js("document.querySelector('#verdict .verdict')?.className")
        want(f"{name} in the studio", seen == f"verdict {verdicts[name]}", seen)
        for _ in range(2):
            grip = browser.js(GRIP)
            if grip is None:
                break
            browser.drag(*grip, grip[0] + dice.randint(-80, 80), grip[1] + dice.randint(-60, 60), 3)
            state = browser.js(STATE)
            want(f"{name} pulled in the studio", verdicts[name] != "proved" or state == "holds", state)
    browser.js("document.getElementById('examples').click(); document.getElementById('search').value = 'monge'; document.getElementById('search').dispatchEvent(new Event('input'))")
    want("the examples, searched", browser.js("document.querySelectorAll('#list button').length") in (1, 2, 3))
    browser.js("confirm = () => true; document.querySelector('#list button').click()")
    want("an example is opened", browser.wait("document.getElementById('name').innerText.startsWith('monge')"), browser.js("document.getElementById('name').innerText"))
    want("and decided", settled(browser, "Proved."), browser.js(VERDICT))


def narrow(browser, want):
    """On a narrow window nothing is wider than it; and the keyboard alone reaches all parts."""
    browser.window(390, 800, True)
    want("narrow: nothing is wider", browser.js("document.documentElement.scrollWidth") <= 390, browser.js("document.documentElement.scrollWidth"))
    browser.window(1280, 860)
    browser.js("document.querySelector('#name').focus(); document.getElementById('save').focus()")
    reached = set()
    for _ in range(40):
        browser.key("Tab", 9)
        reached.add(browser.js("(document.activeElement.closest('header, #program, #picture, #panels, #verdict') || {}).id || document.activeElement.closest('header')?.tagName || ''"))
    want("by the Tab key", {"program", "picture", "panels", "HEADER"} <= reached, reached)
