# SPDX-License-Identifier: Apache-2.0
"""All programs of examples/ and tests/cases, by verdict, time, lines and greatest line, and the plot of docs/PERFORMANCE.md.

    python3 -B bench/corpus measure [--binary PROGRAM] [REFERENCE ..]
    python3 -B bench/corpus plot

`measure` runs `prove` with the default steps on each program and writes docs/corpus.tsv. REFERENCE, the words of a command, is run beside
it in turn, and has to write the same bytes. A time is the least processor time of three runs, less that of a run which only starts and ends.
`plot` writes docs/performance.svg from docs/corpus.tsv and bench/peers/results.tsv.
"""
import argparse
import datetime
import hashlib
import os
import pathlib
import sys
import tempfile

HERE = pathlib.Path(__file__).resolve().parent
ROOT = HERE.parent.parent
sys.path[:0] = [str(HERE.parent / "peers")]

import limits  # noqa: E402
import plots  # noqa: E402

TABLE = ROOT / "docs/corpus.tsv"
PLOT = ROOT / "docs/performance.svg"
COLUMNS = ["program", "verdict", "seconds", "reference", "lines", "greatest_line", "bytes"]
BOUNDS = (60, 4000)
TURNS = 3
STARTS = 15


def programs():
    """The programs, by their paths below the top."""
    return sorted([*(ROOT / "examples").glob("*.geo"), *(ROOT / "examples/stopped").glob("*.geo"), *(ROOT / "tests/cases").glob("*.geo")])


def verdict_of(log):
    """The verdict, or what stands in its place: `spent`, `too_large`, `syntax`, `too_long`."""
    words = log.rstrip("\n").rpartition("\n")[2].split()
    return "too_long" if words == ["too", "long"] else words[1] if words[0] in ("verdict", "stop") else words[0]


def start(command, folder):
    """The least time of a run that only starts and ends."""
    return min(limits.limited([*command, "no", "command"], folder, *BOUNDS).seconds for _ in range(STARTS))


def compared(commands, path, starts, folder):
    """The log, and the least time of each command; they run in turn."""
    turns = [[limits.limited([*command, "prove"], folder, *BOUNDS, path) for command in commands] for _ in range(TURNS)]
    if len({(run.ended, run.output) for turn in turns for run in turn}) > 1:
        sys.exit(f"bench/corpus: {path}: the reference answers otherwise")
    return turns[0][0].output, [max(min(run.seconds for run in runs) - begin, 0) for runs, begin in zip(zip(*turns), starts)]


def row(path, log, times):
    """A line of the table; the greatest line is that of a chain with the most bytes."""
    lines = log.splitlines()
    greatest = max((len(line) for line in lines if not line.startswith("|")), default=0)
    used = [f"{time:.5f}" for time in times] + ["-"] * (2 - len(times))
    return [str(path.relative_to(ROOT)), verdict_of(log), *used, str(len(lines)), str(greatest), str(len(log))]


def measure(binary, reference):
    """Writes the table."""
    commands = [[binary]] + ([reference] if reference else [])
    date = datetime.datetime.now(datetime.timezone.utc).strftime("%Y-%m-%d %H:%M")
    processor = next(line.split(":")[1].strip() for line in open("/proc/cpuinfo") if line.startswith("model name"))
    lines = [f"# {date} UTC; {processor}, {os.cpu_count()} processors, load {os.getloadavg()[0]:.1f}; "
             f"program {hashlib.sha256(pathlib.Path(binary).read_bytes()).hexdigest()}", "\t".join(COLUMNS)]
    with tempfile.TemporaryDirectory() as folder:
        starts = [start(command, folder) for command in commands]
        for path in programs():
            lines.append("\t".join(row(path, *compared(commands, path, starts, folder))))
    TABLE.write_text("\n".join(lines) + "\n")


def main():
    parser = argparse.ArgumentParser(prog="python3 -B bench/corpus", description=__doc__, formatter_class=argparse.RawDescriptionHelpFormatter)
    words = parser.add_subparsers(dest="word", required=True)
    measuring = words.add_parser("measure")
    measuring.add_argument("--binary", default=str(ROOT / "crates/geo_cli/out/geo_cli"))
    measuring.add_argument("reference", nargs="*")
    words.add_parser("plot")
    given = parser.parse_args()
    if given.word == "plot":
        PLOT.write_text(plots.figure(TABLE, HERE.parent / "peers/results.tsv"))
    elif not pathlib.Path(given.binary).exists():
        sys.exit(f"bench/corpus: there is no program {given.binary}")
    else:
        measure(str(pathlib.Path(given.binary).resolve()), given.reference)


main()
