"""The list of subjects that stands beside programs, and where the programs of the gallery are."""
# SPDX-License-Identifier: Apache-2.0
from pathlib import Path

HOME = Path(__file__).parent.parent.parent


def shared(name):
    """A folder of the repository, which `make install` puts elsewhere."""
    places = [HOME / name, HOME.parent.parent / "share" / "doc" / "jarduzki" / name]
    return next((place for place in places if place.is_dir()), places[0])


def read_subjects(folder):
    """The subjects of the file `subjects` of a folder, each with the names and titles of its programs: a line `# SUBJECT`, and below it a
    line `NAME: TITLE` for each program."""
    found = []
    for line in (Path(folder) / "subjects").read_text().splitlines():
        if line.startswith("# "):
            found.append((line[2:], []))
        else:
            name, title = line.split(": ", 1)
            found[-1][1].append((name, title))
    return found
