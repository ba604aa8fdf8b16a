# SPDX-License-Identifier: Apache-2.0
"""Crates copied to a folder of their own, beside a program that times them."""
import pathlib
import shutil

CRATES = pathlib.Path(__file__).resolve().parent.parent / "crates"


def below(line):
    """The lines of crates.txt for the crates that the line names and those below them, lowest first."""
    listed = [line.split("#")[0] for line in (CRATES.parent / "crates.txt").read_text().splitlines() if ":" in line]
    wanted = set(line.split(":")[1].split())
    found = []
    for line in reversed(listed):
        name, stands_on = line.split(":")
        if name in wanted:
            wanted.update(stands_on.split())
            found.insert(0, line)
    return found


def copied(folder, line, program):
    """The folder of the program's crate, among copies of the crates that its line of crates.txt stands on."""
    lines = below(line)
    (folder / "crates.txt").write_text("\n".join(lines + [line]) + "\n")
    for name in (line.split(":")[0] for line in lines):
        shutil.copytree(CRATES / name, folder / "crates" / name, ignore=shutil.ignore_patterns("out", "must-fail"))
    crate = folder / "crates" / line.split(":")[0]
    (crate / "src").mkdir(parents=True)
    (crate / "src" / "main.rt").write_text(program)
    return crate
