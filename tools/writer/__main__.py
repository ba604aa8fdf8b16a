# SPDX-License-Identifier: Apache-2.0
"""A small writer of logs, as an example for whoever writes logs by a tool of their own:

    python3 tools/writer PROGRAM.geo > LOG

It was made from docs/LANGUAGE.md, docs/LOG.md and docs/LEMMAS.md alone, and needs Python's standard library; its table of commands is
tools/forms, which tests/writer compares with these pages. `geo_cli check` accepts its
logs, and with the most steps where the default is spent. It works on small programs. It ends with 0 where it wrote a log, whatever its
verdict is, 3 where the file cannot be read, 4 where the text is no program, and 7 where a polynomial gets too large for it; the program
is not looked through as `geo_cli` does it.
"""
import sys

from logs import log_of
from polynomials import TooMuch
from programs import Program


def main():
    if len(sys.argv) != 2:
        print("usage: python3 tools/writer PROGRAM.geo > LOG", file=sys.stderr)
        return 3
    try:
        with open(sys.argv[1], encoding="utf-8", errors="replace") as file:
            text = file.read()
    except OSError as error:
        print(f"writer: cannot read '{sys.argv[1]}': {error.strerror}", file=sys.stderr)
        return 3
    try:
        program = Program(text)
    except (KeyError, IndexError, ValueError):
        print(f"writer: '{sys.argv[1]}' is no program; geo prove says where it is wrong", file=sys.stderr)
        return 4
    try:
        print("\n".join(log_of(program)))
    except TooMuch:
        print("writer: a polynomial gets too large", file=sys.stderr)
        return 7
    return 0


sys.exit(main())
