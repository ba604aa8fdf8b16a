# SPDX-License-Identifier: Apache-2.0
"""The page docs/COMPARISON.md: the text of page.md, with tables made from results.tsv in the places of its lines @runs, @sums, @times and
@verdicts."""
import csv
import statistics

import theorems
from provers import PROVERS
from translation import FRAMES

PAGE = theorems.ROOT / "docs/COMPARISON.md"
OWN = "jarduzki"
NAMES = {prover.key: prover.title for prover in PROVERS}


class Results:
    """The rows by theorem, prover and frame, and what was noted about the runs."""

    def __init__(self):
        path = theorems.HERE / "results.tsv"
        lines = path.read_text().splitlines() if path.exists() else []
        self.notes = [line[2:].split(" ", 1) for line in lines if line.startswith("# ")]
        rows = csv.DictReader((line for line in lines if not line.startswith("#")), delimiter="\t")
        self.rows = {(row["theorem"], row["prover"], row["frame"]): row for row in rows}
        self.programs = theorems.listed()
        wanted = {name: self.word(name, OWN, "full") for name in (program.name for program in self.programs)}
        self.other = [p for p in self.programs if wanted[p.name] in ("false", "impossible")]
        self.true = [p for p in self.programs if p not in self.other]

    def row(self, name, prover, frame):
        return self.rows.get((name, prover, frame))

    def word(self, name, prover, frame):
        row = self.row(name, prover, frame)
        return row["result"] if row else "-"

    def noted(self, kind):
        return [text for word, text in self.notes if word == kind]

    def best(self, name, prover):
        """The quicker of the frames in which the prover proves it."""
        rows = [self.row(name, prover, frame) for frame in FRAMES]
        proved = [row for row in rows if row and row["result"] == "proved"]
        return min(proved, key=lambda row: float(row["seconds"]), default=None)


def table(head, rows):
    """A table of Markdown."""
    lines = [head, ["---"] * len(head), *rows]
    return "".join(f"| {' | '.join(line)} |\n" for line in lines)


def seconds(row):
    return f"{float(row['seconds']):.3f}"


def cell(results, name, prover):
    """What a prover took at its best, or how it ended."""
    row = results.best(name, prover)
    if row is None:
        words = {results.word(name, prover, frame) for frame in FRAMES}
        return next((text for word, text in (("time", "over"), ("memory", "memory"), ("open", "open"), ("error", "error")) if word in words), "-")
    return f"{seconds(row)}{'°' if row['frame'] == 'full' else ''} · {row['megabytes']}"


def own_cell(results, name):
    row = results.row(name, OWN, "full")
    if row is None:
        return "-"
    return f"{float(row['seconds']):.4f} · {row['megabytes']}" if row["result"] == "proved" else "over" if row["result"] == "time" else row["result"]


def times(results):
    """A row a theorem."""
    head = ["Theorem", "Jarduzki", *NAMES.values()]
    rows = []
    for program in results.true:
        link = f"[{program.name}](../{program.place}.geo)"
        rows.append([link, own_cell(results, program.name), *(cell(results, program.name, key) for key in NAMES)])
    return table(head, rows)


def sum_row(title, frame, rows):
    """How many a prover proves, and what these take."""
    proved = [row for row in rows if row and row["result"] == "proved"]
    measured = [row for row in rows if row]
    if not measured:
        return [title, frame, "not measured", "", "", "", ""]
    used = [float(row["seconds"]) for row in proved]
    most = max((float(row["megabytes"]) for row in proved if row["megabytes"] != "-"), default=0.0)
    over = sum(row["result"] == "time" for row in measured)
    told = f"{len(proved)} of {len(measured)}"
    return [title, frame, told, str(over), f"{statistics.median(used):.4f}" if used else "", f"{sum(used):.2f}" if used else "", f"{most:.0f}"]


def sums(results):
    """A row a prover and frame."""
    head = ["Prover", "Frame", "Proved", "Over the limit", "Median, s", "Sum, s", "Most memory, MB"]
    names = [program.name for program in results.true]
    rows = [sum_row("Jarduzki", "full", [results.row(name, OWN, "full") for name in names])]
    for key, title in NAMES.items():
        for frame in FRAMES:
            rows.append(sum_row(title, frame, [results.row(name, key, frame) for name in names]))
    return table(head, rows)


def verdict_cell(results, name, prover):
    """What a prover says in the two frames."""
    words = [results.word(name, prover, frame).replace("time", "over") for frame in FRAMES]
    return words[0] if words[0] == words[1] else " / ".join(words)


def verdicts(results):
    """A row for each program that is no theorem."""
    head = ["Program", "Jarduzki", *NAMES.values()]
    rows = []
    for program in results.other:
        row = results.row(program.name, OWN, "full")
        own = f"{row['result']}, {float(row['seconds']):.4f} s"
        rows.append([f"[{program.name}](../{program.place}.geo)", own, *(verdict_cell(results, program.name, key) for key in NAMES)])
    return table(head, rows)


def runs(results):
    """When and where it was measured, with which versions."""
    limit = results.noted("limits")
    lines = [f"- Each run had {limit[0].split()[0]} seconds of processor time and {limit[0].split()[1]} MB."] if limit else []
    lines += [f"- Run of {text}." for text in results.noted("run")]
    packages = dict(text.split(" ", 2)[1:] for text in results.noted("version"))
    lines += [f"- Debian's packages: {', '.join(f'`{name}` {number}' for name, number in sorted(packages.items()))}."] if packages else []
    return "\n".join(lines) + "\n"


def page():
    """The page."""
    results = Results()
    text = (theorems.HERE / "page.md").read_text()
    for name, made in (("runs", runs), ("sums", sums), ("times", times), ("verdicts", verdicts)):
        text = text.replace(f"@{name}\n", made(results))
    return text
