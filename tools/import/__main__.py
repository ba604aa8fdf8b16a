"""Brings figures of GeoGebra, GCLC and Kig into programs of docs/LANGUAGE.md.

    python3 -B tools/import [--goal K | --statement TEXT | --no-statement] [--needed] [--name NAME] [--told] [--if-known] FILE..

The programs go to standard output, with comments that tell where each command comes from, what was changed and what was left out. With
--told a line on standard error says what was read. What the statement wants and the language cannot say is refused, all of it, with its
place: status 4, as for a file that is broken or too large. A file that is not there: 3. With --if-known a text that may be one of our own
language is left alone: status 20, and nothing is written.
"""
# SPDX-License-Identifier: Apache-2.0
import argparse
import os
import resource
import signal
import sys

from program import Import, Refused
from files import MOST, is_foreign
from reader import BadFile

SECONDS = 4
NOT_KNOWN = 20
MEMORY = 280_000_000


class Words(argparse.ArgumentParser):
    def error(self, message):
        """Wrong words end with the status that they have elsewhere."""
        print(f"geo: import: {message}", file=sys.stderr)
        sys.exit(3)


def parsed_words():
    parser = Words(prog="geo import", add_help=False, allow_abbrev=False)
    which = parser.add_mutually_exclusive_group()
    which.add_argument("--goal", type=int)
    which.add_argument("--statement")
    which.add_argument("--no-statement", action="store_true")
    parser.add_argument("--needed", action="store_true")
    parser.add_argument("--name")
    parser.add_argument("--told", action="store_true")
    parser.add_argument("--if-known", action="store_true")
    parser.add_argument("files", nargs="+")
    return parser.parse_args()


def limited():
    """No file takes long, or much memory: this ends with a word, and not the machine with none."""

    def stop(*_):
        raise BadFile(f"it takes more than {SECONDS} seconds to read")

    signal.signal(signal.SIGPROF, stop)
    signal.setitimer(signal.ITIMER_PROF, SECONDS)
    resource.setrlimit(resource.RLIMIT_AS, (MEMORY, MEMORY))


def read(path):
    if path == "-":
        return sys.stdin.buffer.read(MOST + 1)
    with open(path, "rb") as file:
        return file.read(MOST + 1)


def brought(path, words):
    """Writes the program of a file; the status."""
    name = words.name or ("<stdin>" if path == "-" else path)
    try:
        data = read(path)
    except OSError as error:
        print(f"geo: cannot read '{path}': {error.strerror}", file=sys.stderr)
        return 3
    try:
        if words.if_known and not is_foreign(data):
            return NOT_KNOWN
        figure = Import(name, data)
        text, statement = figure.program(words.goal, words.statement, words.no_statement, words.needed)
    except (Refused, BadFile, RecursionError, MemoryError) as error:
        return refused(name, error)
    if words.told:
        print(f"geo: {name}: {figure.summary()}; statement {statement}", file=sys.stderr)
    sys.stdout.write(text)
    return 0


def refused(name, error):
    """Tells why a file is refused."""
    if isinstance(error, Refused):
        lines = str(error).split("\n")
    elif isinstance(error, BadFile):
        lines = [f"{name}: {error}"]
    else:
        lines = [f"{name}: it is {'nested too deeply' if isinstance(error, RecursionError) else 'too large'}"]
    for line in lines:
        print("geo: " + "".join(c if c.isprintable() else "?" for c in line), file=sys.stderr)
    return 4


def main():
    words = parsed_words()
    limited()
    status = max(brought(path, words) for path in words.files)
    try:
        sys.stdout.flush()
    except OSError:
        os._exit(9)
    return status


if __name__ == "__main__":
    try:
        sys.exit(main())
    except Exception as fault:  # a fault of this tool: 1, which Python would end with, means False
        print(f"geo: import: {type(fault).__name__}: {fault}", file=sys.stderr)
        sys.exit(70)
