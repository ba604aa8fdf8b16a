"""Each form of the table of elements, tried on the figure of elements.tsv."""
# SPDX-License-Identifier: Apache-2.0
import io
import zipfile

from judge import HERE, TOP, BadFile, Import, Refused, proved, want
from model import Circle, Combination, Left, Length, Line, Polygon
from table import FORMATS, ROWS, Forms, markdown
from writers import POINTS, geogebra_stock, gclc_stock, kig_stock

SIGNS = ("∈", "∥", "⟂", "⊥", "≟", "==")
PLACES = {"second": [(0, 0), (6, 0)], "cc": [(0, 0), (6, 0)]}


def rows():
    text = (HERE / "elements.tsv").read_text(encoding="utf-8")
    return [line.split("\t") for line in text.splitlines() if not line.startswith("#")]


def geogebra(call, wanted):
    """The file with this call; where the place of what is made has to stand in the file, it is one that the wanted command gives."""
    figure = geogebra_stock()
    if any(sign in call for sign in SIGNS):
        figure.expression("X", call, "boolean")
        return figure.file()
    places = PLACES.get(wanted.split()[0])
    two = places and " Y " in wanted
    outputs = [("X", "point", places[0]), ("Y", "point", places[1])] if two else [("X", "point", places[1])] if places else [("X", "object")]
    figure.make(call, outputs if "prove " not in wanted else [("X", "boolean")])
    return figure.file()


def follow_geogebra(data, kind):
    calls = {Line: ("Point[X]", "point"), Circle: ("Point[X]", "point"), Polygon: ("Centroid[X]", "point"), Combination: ("Translate[C, X]", "point")}
    if kind not in calls:
        return data
    call, made = calls[kind]
    figure = geogebra_stock()
    figure.lines += last_lines(data)
    figure.make(call, [("Z", made)])
    return figure.file()


def last_lines(data):
    """The lines of a file behind those of the first figure."""
    text = zipfile.ZipFile(io.BytesIO(data)).read("geogebra.xml").decode()
    inside = text.split('<construction title="">\n')[1].split("\n</construction>")[0]
    return inside.split("\n")[len(geogebra_stock().lines) :]


def kig(call, kind=None):
    figure = kig_stock()
    word, *parents = call.split()
    number = {"r": "1", "n": "2"}
    figure.make(" ".join([word, *(number.get(p, p) for p in parents)]), "X")
    after = {Line: "ConstrainedPoint 0.5 X", Circle: "ConstrainedPoint 0.2 X", Polygon: "polygon-center-of-mass X", Combination: "Translation C X"}
    if kind is Length:
        figure.make("CircleBPR O X", "W")
        figure.make("ConstrainedPoint 0.2 W", "Z")
    elif kind in after:
        figure.make(after[kind], "Z")
    return figure.xml().encode()


def gclc(call, kind=None):
    after = {Line: ["foot Z P X"], Circle: ["getcenter Z X"]}
    return "\n".join([*gclc_stock(), call, *after.get(kind, [])]).encode() + b"\n"


def outcome(tool, call, wanted):
    """What an element comes out as, in the words of elements.tsv."""
    first = {"GeoGebra": lambda: geogebra(call, wanted), "GCLC": lambda: gclc(call), "Kig": lambda: kig(call)}[tool]()
    figure = Import("figure", first)
    if "prove " in wanted:
        statement = figure.statements[0].make()
        stated = Import("figure", first)
        want(f"{tool} {call}: a program", proved(stated.program(1)[0])[1] != 4)
        return "; ".join([*made_by(figure), f"prove {statement}"])
    made = figure.reader.objects.get(own_id(figure) if tool == "Kig" else "X")
    if isinstance(made, Left):
        return f"refused: {made.reason}"
    kind = type(made)
    again = {"GeoGebra": lambda: follow_geogebra(first, kind), "GCLC": lambda: gclc(call, kind), "Kig": lambda: kig(call, kind)}[tool]()
    figure = Import("figure", again)
    text = figure.program(is_idle=True)[0]
    want(f"{tool} {call}: a program", proved(text)[0] == "verdict proved" or "verdict impossible" in proved(text)[0], text)
    return "; ".join([*made_by(figure), *(note for note in figure.scribe.notes if " is the point " in note)])


def own_id(figure):
    return next((id_ for id_, label in figure.reader.labels.items() if label == "X"), "")


def made_by(figure):
    return [f"{c.word} {' '.join([c.name, *c.args])}" for c in figure.scribe.commands if c.name not in POINTS]


def run():
    tried = set()
    for tool, form, call, wanted in rows():
        try:
            got = outcome(tool, call, wanted)
        except (Refused, BadFile) as refused:
            got = f"not read: {refused}"
        want(f"{tool} {call}: wanted '{wanted}',", got == wanted, f"got '{got}'")
        tried.add((tool, form))
    for tool in FORMATS:
        for form in forms_of(tool):
            want(f"{tool} {form}: it has no row in elements.tsv", (tool, form) in tried)
    page = (TOP / "docs" / "BRIDGES.md").read_text(encoding="utf-8")
    want("docs/BRIDGES.md has the table of elements, as tools/import/table.py writes it", markdown() in page)


def forms_of(tool):
    """The forms of the table that make something or state something."""
    column = FORMATS.index(tool)
    for row in ROWS:
        if row.maker.split()[0] not in ("root", "other", "passed") and not row.cells[column].startswith("("):
            yield from (form.strip() for form in row.cells[column].split(";") if form.strip())
    want(f"{tool}: its forms are read", bool(Forms(tool).makers))
