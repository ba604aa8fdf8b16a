# SPDX-License-Identifier: Apache-2.0
"""The programs that are measured, and where the modules are that read programs."""
import pathlib
import sys
from dataclasses import dataclass

HERE = pathlib.Path(__file__).resolve().parent
ROOT = HERE.parent.parent
sys.path += [str(ROOT / "tools/page"), str(ROOT / "tools/writer")]


@dataclass
class Row:
    """A program, by its path without the ending."""

    place: str

    @property
    def name(self):
        return self.place.rpartition("/")[2]

    @property
    def path(self):
        return ROOT / f"{self.place}.geo"

    @property
    def stops(self):
        """Whether the default steps are too few."""
        return "/stopped/" in self.place


def listed():
    """The rows of the list."""
    lines = (HERE / "theorems").read_text().splitlines()
    return [Row(line) for line in lines if line and not line.startswith("#")]
