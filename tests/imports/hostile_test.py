"""What is refused, and how: figures that cannot be said, and files that are broken, too large or hostile."""
# SPDX-License-Identifier: Apache-2.0
import gzip
import io
import tarfile
import tempfile
import time
from pathlib import Path

import markup
from judge import HERE, TOP, BadFile, Import, geo, want
from writers import GeoGebra, Kig, geogebra_stock, zipped

ENTITIES = '<?xml version="1.0"?><!DOCTYPE geogebra [<!ENTITY a "aaaaaaaaaa">{}]><geogebra><construction>&j;</construction></geogebra>'
LAUGHS = "".join(f'<!ENTITY {b} "{("&" + a + ";") * 10}">' for a, b in zip("abcdefghi", "bcdefghij"))
OUTSIDE = '<!DOCTYPE geogebra [<!ENTITY e SYSTEM "file:///etc/passwd">]><geogebra><construction><element label="&e;"/></construction></geogebra>'


def refused():
    """All that the statement wants and that cannot be said is named with its place, at once."""
    status, out, said = geo("import", HERE / "incenter_refused.gcl")
    lines = said.splitlines()
    want("GCLC: status", status == 4 and out == "")
    want("GCLC: the statement", "incenter_refused.gcl:11: prove { same_length I X I Y }: it wants I, X, Y, which are left out" in lines[0], said)
    want("GCLC: both bisectors", ":4: bis s_a B A C: " in lines[1] and ":5: bis s_b A B C: " in lines[2] and len(lines) == 3, said)
    status, out, said = geo("decide", HERE / "incenter_refused.ggb")
    want("GeoGebra: three bisectors", status == 4 and out == "" and [said.count(f"w_{k} = AngularBisector") for k in "abc"] == [1, 1, 1], said)
    status, out, said = geo("decide", "--statement", "collinear A B C", HERE / "incenter_refused.ggb")
    want("what the statement does not rest on is left out", status == 1 and "left out" in said, said)
    status, out, said = geo("import", "--statement", "collinear A B Q", HERE / "altitudes.ggb")
    want("a statement with a name that is not there", status == 4 and "the statement wants Q" in said, said)
    figure = Kig()
    for label, place in {"A": (0, 0), "B": (1, 0), "C": (0, 1)}.items():
        figure.point(label, place)
    figure.make("Angle A B C", "w")
    figure.make("angle-bisector w", "l")
    figure.make("ContainsTest A l", "t")
    text = Import("figure.kig", figure.xml().encode())
    want("Kig: a bisector", [left.name for left in text.reader.left] == ["l", "t"], str([left.told() for left in text.reader.left]))


def words():
    for call in (["--goal", "x"], ["--goal", "1", "--statement", "collinear A B C"], ["--nothing"], []):
        status, out, said = geo("import", *call, *([HERE / "pappus.ggb"] if call else []))
        want(f"wrong words {call}", status == 3 and out == "" and said.startswith("geo: ") and "Traceback" not in said, said)
    want("an option that another word does not take", geo("check", "--goal", "1", HERE / "pappus.ggb")[0] == 3)
    for text in ("collinear A B", "collinear A B C D", "lies A B C", "collinear A B { C", "collinear A B C; x", "equal { A } { 1 }", ""):
        status, out, said = geo("import", "--statement", text, HERE / "altitudes.ggb")
        want(f"no statement: '{text}'", status == 4 and out == "" and "statement" in said, f"{status} {out} {said}")
    status, out, said = geo("decide", "--goal", "1", TOP / "examples/ceva.geo")
    want("an option for figures, and a program", status == 3 and out == "" and "it is no figure of another tool" in said, said)
    status, out, said = geo("import", "--goal", "9", HERE / "altitudes.ggb")
    want("a statement that is not there", status == 4 and "it has no statement 9, only 1" in said, said)


def too_many():
    figure = GeoGebra()
    for k in range(10_001):
        figure.point(f"A_{k}", (k, 0))
    return figure.file()


def tarred(name, data):
    out = io.BytesIO()
    with tarfile.open(fileobj=out, mode="w") as archive:
        member = tarfile.TarInfo(name)
        member.size = len(data)
        archive.addfile(member, io.BytesIO(data))
    return gzip.compress(out.getvalue())


def files():
    """Broken and hostile files, each with a part of what is said of it."""
    good = (HERE / "altitudes.ggb").read_bytes()
    return {
        "empty": (b"", "it is no figure"),
        "noise": (bytes(range(256)) * 40, "it is no figure"),
        "a cut archive": (good[:700], "its archive cannot be read"),
        "an archive without a figure": (zipped({"other.txt": "x"}), "it is an archive without geogebra.xml"),
        "a figure without a construction": (zipped({"geogebra.xml": "<geogebra/>"}), "it has no construction"),
        "XML that does not end": (zipped({"geogebra.xml": "<geogebra><construction>"}), "line 1: "),
        "a zip bomb": (zipped({"geogebra.xml": "<geogebra>" + " " * 9_000_000 + "</geogebra>"}), "unpacks to more than 200 times its size"),
        "a larger zip bomb": (zipped({"geogebra.xml": " " * 11_000_000}), "it is larger than 10 MB"),
        "many files": (zipped({f"{k}": "" for k in range(1100)}), "more than 1,000 files"),
        "a gzip bomb": (gzip.compress(b" " * 50_000_000), "it is larger than 10 MB"),
        "a cut gzip": (gzip.compress((HERE / "thales.kig").read_bytes())[:200], "its archive cannot be read"),
        "a large file": (b"%" * 10_000_001, "it is larger than 10 MB"),
        "entities": (ENTITIES.format(LAUGHS).encode(), "entit"),
        "an outer entity": (OUTSIDE.encode(), "entit"),
        "nested XML": (b"<geogebra>" * 200_000, "nested deeper than 100"),
        "nested brackets": (zipped({"geogebra.xml": deep()}), "left out"),
        "many elements": (too_many(), "more than 10,000 elements"),
        "no hierarchy": (b"<KigDocument/>", "it has no element Hierarchy"),
        "a GCLC file that ends too soon": (b"dim 10 10\nprove { collinear A", "it ends inside a command"),
    }


def deep():
    figure = geogebra_stock()
    figure.make("Midpoint[" * 60 + "A" + ", B]" * 60, [("X", "point")])
    figure.expression("Y", "(" * 900 + "A" + ")" * 900, "point")
    figure.make("AreCollinear[X, Y, A]", [("z", "boolean")])
    return figure.xml()


def broken():
    with tempfile.TemporaryDirectory() as folder:
        for name, (data, part) in files().items():
            path = Path(folder, "figure")
            path.write_bytes(data)
            begin = time.monotonic()
            status, out, said = geo("import", path)
            want(f"{name}: status and word", status == 4 and out == "" and part in said, f"{status} {said[:300]}")
            want(f"{name}: no more than a word", "Traceback" not in said and len(said) < 5000 and time.monotonic() - begin < 60, said[:300])


def parsers():
    """Both parsers of XML refuse entities, and read the same; the library's where it is installed."""
    feeds = [markup.feed_plainly] + [markup.feed_by_library] * (markup.make_parser is not None)
    read = []
    for feed in feeds:
        for text in (ENTITIES.format(LAUGHS), OUTSIDE):
            try:
                feed(markup.Tree({"geogebra", "construction", "element"}), text.encode())
                want(f"{feed.__name__}: entities", False, "are read")
            except BadFile as bad:
                want(f"{feed.__name__}: entities", "declares an entity" in str(bad), str(bad))
        tree = markup.Tree({"KigDocument", "Hierarchy", "Object", "Parent", "Data"})
        feed(tree, (HERE / "thales.kig").read_bytes())
        read.append([(node.tag, node.line, node.attributes, node.text.strip()) for node in tree.open[0].children[0].children[0].children])
    want("a document type without entities is read", len(read[0]) == 20 and all(nodes == read[0] for nodes in read), str(read[0])[:200])


def packed():
    """A figure of Kig, compressed and in a compressed archive."""
    plain = (HERE / "thales.kig").read_bytes()
    wanted = Import("figure", plain).program()[0]
    want("a figure in gzip", Import("figure", gzip.compress(plain)).program()[0] == wanted)
    want("a figure in a tar", Import("figure", tarred("a.kig", plain)).program()[0] == wanted)


def run():
    for part in (refused, words, broken, parsers, packed):
        part()
