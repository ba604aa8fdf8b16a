"""A folder of pages with links between them, and an index."""
# SPDX-License-Identifier: Apache-2.0
import collections
import functools
import html
import os
from pathlib import Path
from urllib.parse import quote

from page import GENERATOR, document
from subjects import read_subjects

INDEX = "index.html"
VERDICTS = ("proved", "false", "impossible", "undecided", "open")


class Refused(Exception):
    """The folder cannot be taken, in words."""


def file_names(names):
    """The file of each program's page: its own name, with a number behind it where that is taken."""
    taken, files = {INDEX}, []
    for name in names:
        stem, number = "stdin" if name == "<stdin>" else Path(name).stem or "page", 1
        file = f"{stem}.html"
        while file.lower() in taken:
            number += 1
            file = f"{stem}-{number}.html"
        taken.add(file.lower())
        files.append(file)
    return files


def write_folder(folder, names, pages):
    """Writes the page of each program, and then the index. A file that is no page of ours is not written over."""
    folder, files = Path(folder), file_names(names)
    if folder.exists() and not folder.is_dir():
        raise Refused(f"'{folder}' is no folder")
    for file in [*files, INDEX]:
        if not is_ours(folder / file):
            raise Refused(f"'{folder / file}' is there, and was not made by geo page")
    folder.mkdir(parents=True, exist_ok=True)
    entries = []
    for k, page in enumerate(pages):
        (folder / files[k]).write_text(page.html(links(files, k)), encoding="utf-8")
        entries.append((files[k], Path(names[k]), page.title(), page.verdict, " ".join(page.sketch.comments)))
    (folder / INDEX).write_text(index(entries), encoding="utf-8")


def is_ours(path):
    if not path.exists():
        return True
    with open(path, encoding="utf-8", errors="replace") as file:
        return GENERATOR in file.read(4096)


def links(files, k):
    """To the page before, to the index, and to the next page."""

    def link(file, text, rel):
        return f'<a rel="{rel}" href="{address(file)}">{text}</a>'

    before = link(files[k - 1], "&larr; before", "prev") if k else "<span></span>"
    after = link(files[k + 1], "next &rarr;", "next") if k + 1 < len(files) else "<span></span>"
    return f'<nav aria-label="Pages">{before}{link(INDEX, "all", "index")}{after}</nav>'


def address(file):
    """A file's name as an address."""
    return "./" + quote(os.fsencode(file))


def index(entries):
    """The page of all, by subject where a list of subjects stands beside the programs."""
    counts = collections.Counter(verdict for _, _, _, verdict, _ in entries)
    told = ", ".join(f"{counts[verdict]} {verdict}" for verdict in VERDICTS if counts[verdict])
    sections = {}
    for entry in entries:
        sections.setdefault(subject_of(entry[1]), []).append(entry)
    body = f"<h1>Theorems</h1><p>{len(entries)} program{'s' * (len(entries) != 1)}: {told}.</p>"
    for (_, subject), listed in sorted(sections.items()):
        rows = "".join(row(*entry) for entry in sorted(listed, key=lambda entry: entry[2].lower()))
        body += (f"<h2>{html.escape(subject)}</h2>" if subject else "") + f'<table class="index">{rows}</table>'
    return document("Theorems", body)


def row(file, _, title, verdict, comment):
    cells = f'<td><a href="{address(file)}">{html.escape(title)}</a></td><td class="{verdict}">{verdict}</td><td>{html.escape(comment)}</td>'
    return f"<tr>{cells}</tr>"


def subject_of(path):
    """The number and the title of a program's subject; of a program without one the last number, and no title."""
    known = subjects_in(path.parent)
    return known.get(path.stem, (len(known), "Others" if known else ""))


@functools.cache
def subjects_in(folder):
    try:
        found = read_subjects(folder)
    except (OSError, ValueError, IndexError):
        return {}
    return {name: (k, subject) for k, (subject, programs) in enumerate(found) for name, _ in programs}
