"""Figures of theorems and of false statements: what is read of each, and what the program says of it; and how files are read by geo."""
# SPDX-License-Identifier: Apache-2.0
import html
import io
import re
import tempfile
import zipfile
from pathlib import Path

from judge import HERE, TOP, BadFile, Import, Refused, geo, proved, want
from writers import GeoGebra, Kig, zipped


def rows():
    text = (HERE / "figures.tsv").read_text(encoding="utf-8")
    return [line.split("\t") for line in text.splitlines() if not line.startswith("#")]


def with_prove(data, statement):
    """A file of GeoGebra with a command Prove, as the ones from version 4.2 on have it."""
    xml = zipfile.ZipFile(io.BytesIO(data)).read("geogebra.xml").decode()
    command = f'<command name="Prove"><input a0="{html.escape(statement)}"/><output a0="proved"/></command>'
    return zipped({"geogebra.xml": xml.replace("</construction>", f'{command}<element type="boolean" label="proved"/></construction>')})


def known():
    """Each row of figures.tsv."""
    for name, goal, statement, verdict in rows():
        data = (HERE / name).read_bytes()
        if goal.startswith("Prove "):
            figure = Import(name, with_prove(data, goal[6:]))
            k = next(k for k, stated in enumerate(figure.statements) if stated.text == goal[6:])
        else:
            figure, k = Import(name, data), int(goal) - 1
        text = figure.program(k + 1)[0]
        want(f"{name}, {goal}: the statement", text.splitlines()[-1] == f"prove {{ {statement} }}", text.splitlines()[-1])
        end = proved(text)[0]
        want(f"{name}, {goal}: the verdict", end.split()[:2] == ["verdict", verdict], end)
        needed = figure.program(k + 1, only_needed=True)[0]
        want(f"{name}, {goal}: what is needed", proved(needed)[0].split()[:2] == ["verdict", verdict] and len(needed) <= len(text) + 100)


def comments():
    """Each command tells its line and its element, and the head the names that are changed and what is left out."""
    text = geo("import", HERE / "pappus.gcl")[1]
    want("the names that are changed", "% Names: A' is Ap, B' is Bp, C' is Cp.\n" in text, text)
    want("an element's line", "inter X A Bp Ap B % line 7: intersec X A B' A' B\n" in text, text)
    text = geo("import", HERE / "thales.ggb")[1]
    want("what is more general", "P is any point" in text or "oncircle P O A % line" in text, text)
    body = [line for line in text.splitlines() if line[0] != "%" and not line.startswith("prove")]
    want("each command has its line", body and all(re.search(r" % line \d+: ", line) for line in body), text)


def names():
    """Names that our language does not have, and such as would be one."""
    figure = GeoGebra()
    labels = ["A", "A'", "Ap", "M_{12}", "α", "É", "line", "prove", "different", "x" * 70, "点", "1st"]
    for k, label in enumerate(labels):
        figure.point(label, (k, k * k))
    text = Import("names", figure.file()).program(is_idle=True)[0]
    made = [line.split()[1] for line in text.splitlines() if line.startswith("point ")]
    want("names", made == ["A", "Ap", "Ap_2", "M_12", "alpha", "E", "line_", "prove_", "different", "x" * 48, "P", "P1st"], str(made))
    want("each change is told", "A' is Ap, Ap is Ap_2, M_{12} is M_12, α is alpha, É is E, line is line_, prove is prove_" in text, text)
    want("names are a program", proved(text)[1] == 0, text)


def numbers():
    """Typed numbers stay exact, also decimals; a slider is a parameter, as a radius any length."""
    figure = GeoGebra()
    for label, place in {"A": (0, 0), "B": (1, 0), "O": (3, 0)}.items():
        figure.point(label, place)
    figure.number("q", "0.1")
    figure.number("v", "3.0", is_slider=True)
    figure.make("Dilate[A, q, B]", [("C", "point")])
    figure.make("Dilate[A, 2.25, B]", [("D", "point")])
    figure.make("Dilate[A, v, B]", [("E", "point")])
    figure.make("Rotate[A, v, B]", [("F", "point")])
    figure.make("Circle[O, v]", [("k", "conic")])
    figure.make("Point[k]", [("G", "point")])
    figure.expression("H", "(A + 2 B) / 3", "point")
    figure.expression("I", "A + B - O", "point")
    text = Import("numbers", figure.file()).program(is_idle=True)[0]
    lines = {line.split()[1]: line.split(" %")[0] for line in text.splitlines() if line[0] != "%"}
    wanted = {
        "C": "lratio C B A div { 1 } { 10 }", "D": "lratio D B A div { 9 } { 4 }", "E": "lratio E B A v", "v": "param v", "T1": "translate T1 R1 R2 O",
        "G": "oncircle G O T1", "H": "lratio H B A div { 1 } { 3 }", "I": "translate I O B A",
    }  # fmt: skip
    for name, line in wanted.items():
        want(f"numbers: {name}", lines.get(name) == line, str(lines.get(name)))
    want("a turn by a slider is left out", "F" not in lines and "Left out, line 15: F = Rotate[A, v, B]" in text, text)


def square():
    """A square on AB, as GeoGebra writes it: C is opposite to A."""
    figure = GeoGebra()
    figure.point("A", (0, 0))
    figure.point("B", (2, 0))
    outputs = [("q", "polygon"), ("f", "segment"), ("g", "segment"), ("C", "point", (2, 2)), ("D", "point", (0, 2)), ("h", "segment"), ("i", "segment")]
    figure.make("Polygon[A, B, 4]", outputs)
    figure.make("ArePerpendicular[g, h]", [("z", "boolean")])
    text = Import("square", figure.file()).program()[0]
    want("a square", "tratio D A B 1 %" in text and "translate C A B D %" in text and text.endswith("prove { perpendicular B C C D }\n"), text)
    want("a square: the verdict", proved(text)[0] == "verdict proved")


def net():
    """A point that the file has elsewhere than our command puts it is left out, and so is what needs it."""
    figure = GeoGebra()
    for label, place in {"A": (0, 0), "B": (4, 0), "C": (1, 3)}.items():
        figure.point(label, place)
    figure.make("Midpoint[A, B]", [("M", "point", (2.1, 0))])
    figure.make("Midpoint[M, C]", [("N", "point", (1.5, 1.5))])
    figure.make("AreCollinear[M, N, C]", [("z", "boolean")])
    try:
        want("the net", False, Import("net.ggb", figure.file()).program()[0])
    except Refused as refused:
        said = str(refused)
        want("the net: both places", "the file has it at (2.1, 0), and 'midpoint' would put it at (2, 0)" in said, said)
        want("the net: who needs it", "it wants M, N, which are left out" in said and said.count("\n") == 1, said)


def tools():
    """A file of tools has the construction of the first; the others are named."""
    construction = GeoGebra()
    construction.point("A", (0, 0))
    construction.point("B", (2, 4))
    construction.make("Midpoint[A, B]", [("M", "point", (1, 2))])
    inside = construction.xml().split("<geogebra format=\"5.0\">")[1].split("</geogebra>")[0]
    macros = "".join(f'<macro cmdName="{name}">{inside}</macro>' for name in ("Middle", "Other"))
    data = zipped({"geogebra_macro.xml": f"<geogebra>{macros}</geogebra>"})
    text = Import("tool.ggt", data).program(text="collinear A M B")[0]
    want("a tool", "midpoint M A B %" in text and "% it is the construction of the tool Middle.\n% not read: the tools Other.\n" in text, text)


def unlabeled():
    """Objects of Kig without labels get letters, and none that a label has."""
    figure = Kig()
    figure.make("FixedPoint 1 2")
    figure.point("A", (0, 0))
    figure.ids["first"] = 3
    figure.make("MidPoint first A", "B")
    text = Import("figure.kig", figure.xml().encode()).program(is_idle=True)[0]
    want("a point without a label", "point C " in text and "midpoint B C A %" in text, text)


def words():
    """decide, page, discover and import, from files and from a pipe; a line tells what was read."""
    with tempfile.TemporaryDirectory() as folder:
        disguised = Path(folder, "figure.txt")
        disguised.write_bytes((HERE / "altitudes.ggb").read_bytes())
        status, out, said = geo("decide", disguised, TOP / "examples/ceva.geo", HERE / "equal_medians_false.ggb")
        want("decide: the verdicts", status == 1 and f"{disguised}: proved, wherever" in out and "ceva.geo: proved" in out and "false" in out, out)
        want("decide: what was read", said.startswith(f"geo: {disguised}: a figure of GeoGebra, 10 elements; statement perpendicular C H A B"), said)
        want("decide: a guess", "a guess, to be decided" in said and said.count("geo: ") == 2, said)
        want("decide -q", geo("decide", "-q", disguised)[2] == "")
    status, out, said = geo("decide", "-", given=(HERE / "ceva.gcl").read_bytes())
    want("decide -", status == 0 and out.startswith("<stdin>: proved") and "a figure of GCLC" in said, out + said)
    status, out, said = geo("decide", "--statement", "collinear A B C", HERE / "medians.kig")
    want("decide --statement", status == 1 and "false" in out, out)
    status, out, said = geo("discover", HERE / "thales.gcl")
    want("discover", status == 0 and "relation perpendicular" in out and "this one always holds" in said, out[:200] + said)
    status, out, said = geo("page", HERE / "pappus.ggb")
    shown = re.search("</figure>\n<details><summary>The program that was made of this figure</summary><pre>(.*?)</pre></details>", out, re.DOTALL)
    want("page: the verdict", status == 0 and "<b>Proved.</b>" in out, said)
    want("page: the program that was made", shown and html.unescape(shown[1]) == geo("import", HERE / "pappus.ggb")[1], out[:200])
    status, out, said = geo("import", HERE / "pappus.ggb", HERE / "nothing.ggb", HERE / "medians.kig")
    want("import of several files", status == 3 and out.count("prove {") == 2 and "nothing.ggb': No such file" in said, said)
    want("our own program is no figure", geo("import", TOP / "examples/nine_point_circle.geo")[0] == 4)


def texts():
    """A text is ours wherever it reads as a program; else it is GCLC's where a line begins with a word that GCLC has alone."""
    ours = "point\ndim\npoint area 1 2\nmidpoint\ncircle dim area\nprove { collinear dim area circle }\n"
    want("a program with names that are words of GCLC", geo("decide", "-", given=ours.encode())[:2][0] == 0)
    status, out, said = geo("decide", "-", given=b"point A\npoint B\nmidpont M A B\nprove { collinear A B M }\n")
    want("a typing error is ours", status == 4 and "refusal" in said and "GCLC" not in said, said)
    status, out, said = geo("decide", "-", given=b"point A 0 0\npoint B 1 0\ncircle k A B\noncircle C A B\nprove { same_length A B A C }\n")
    want("GCLC from a pipe", status == 0 and "a figure of GCLC" in said, said)


def gclc():
    """Words of GCLC that are not known are left out, and take no point away; numbers of a statement stand with braces or without."""
    text = """dim 100 100 % the picture
point A 20 10 point B 90 10
point C 40 60 3 4
unknown A B
midpoint M A B  cmark_b M
printat_t C {the point M, as midpoint M A B}
bis w A C B
towards T A B 0.25
prove {equal {ratio {signed_area3 A M C} {signed_area3 A B C}} 0.5}
"""
    figure = Import("figure.gcl", text.encode())
    made = [line.split(" %")[0] for line in figure.program()[0].splitlines() if line[0] != "%"]
    wanted = ["point A 200 100", "point B 900 100", "point C 400 600", "midpoint M A B", "lratio T A B div { 1 } { 4 }"]
    statement = "prove { equal { div { signed_area3 A M C } { signed_area3 A B C } } { div { 1 } { 2 } } }"
    want("GCLC: what is made", made == [*wanted, statement], str(made))
    want("GCLC: what is left out", [left.told()[:20] for left in figure.reader.left] == ["unknown A B: unknown", "bis w A C B: it need"], str(figure.reader.left))
    want("GCLC: the verdict", proved(figure.program()[0])[0] == "verdict proved")


def run():
    for part in (known, gclc, comments, names, numbers, square, net, tools, unlabeled, words, texts):
        try:
            part()
        except (Refused, BadFile) as refused:
            want(part.__name__, False, str(refused))
