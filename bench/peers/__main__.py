# SPDX-License-Identifier: Apache-2.0
"""The prover beside other provers, on the same theorems.

    python3 -B bench/peers measure [--seconds N] [--megabytes N] [--frame FRAME] [--binary PROGRAM] [--jobs N] [PROVER ..]
    python3 -B bench/peers write FOLDER
    python3 -B bench/peers page

`measure` runs the program and the provers that are installed, or those that are named, on the theorems of bench/peers/theorems, each run a
process of its own, and keeps a row for each in bench/peers/results.tsv; what it has is not measured again, so a run that was interrupted goes
on. Each run has 5 seconds of processor time and 2,000 megabytes, both frames are measured, and one run at a time, where nothing else is said.
`write` writes what the provers are told into a folder. `page` writes docs/COMPARISON.md from the results.
"""
import argparse
import pathlib
import sys

import comparison
import measuring
import theorems
from provers import PROVERS
from translation import FRAMES, translated


def arguments():
    parser = argparse.ArgumentParser(prog="python3 -B bench/peers", description=__doc__, formatter_class=argparse.RawDescriptionHelpFormatter)
    words = parser.add_subparsers(dest="word", required=True)
    measure = words.add_parser("measure")
    measure.add_argument("--seconds", type=int, default=5)
    measure.add_argument("--megabytes", type=int, default=2000)
    measure.add_argument("--frame", choices=FRAMES)
    measure.add_argument("--binary", default=str(theorems.ROOT / "crates/geo_cli/out/geo_cli"))
    measure.add_argument("--jobs", type=int, default=1)
    measure.add_argument("prover", nargs="*")
    words.add_parser("write").add_argument("folder", type=pathlib.Path)
    words.add_parser("page")
    given = parser.parse_args()
    unknown = set(getattr(given, "prover", [])) - {prover.key for prover in PROVERS}
    if unknown:
        parser.error(f"no such prover: {', '.join(sorted(unknown))}; there are {', '.join(prover.key for prover in PROVERS)}")
    return given


def write(folder):
    """What each prover is told of each theorem."""
    for row in theorems.listed():
        for frame in FRAMES:
            theorem = translated(row.path.read_text(), frame)
            for prover in PROVERS:
                place = folder / prover.key / f"{row.name}_{frame}{prover.ending}"
                place.parent.mkdir(parents=True, exist_ok=True)
                place.write_text(prover.write(theorem))


def main():
    given = arguments()
    if given.word == "measure":
        binary = pathlib.Path(given.binary).resolve()
        if not binary.exists():
            sys.exit(f"bench/peers: there is no program {binary}")
        frames = [given.frame] if given.frame else FRAMES
        measuring.measure(str(binary), given.prover, (given.seconds, given.megabytes), theorems.listed(), frames, given.jobs)
    elif given.word == "write":
        write(given.folder)
    else:
        comparison.PAGE.write_text(comparison.page())


main()
