"""A second checker of logs, apart from the proved program: python3 tools/checker LOG.., or python3 tools/checker < LOG

It was made from docs/LANGUAGE.md, docs/LOG.md and docs/LEMMAS.md alone, and reads its tables there. Of each log it writes a line, as
`geo_cli check` ends: `accepted proved`, `accepted false 1`, `accepted impossible 1`, or `rejected LINE REASON`. It leaves out the
charges and sizes of lines: a log that is spent or too large it judges like any other. It ends with 0 where each log is accepted, 11
where one is not, and 3 where a file cannot be read.
"""
# SPDX-License-Identifier: Apache-2.0
import sys

from judge import Judge, Rejected


def answer(data):
    """The line about a log, and whether it is accepted."""
    try:
        word, number = Judge(data.decode("latin-1")).verdict()
    except Rejected as rejected:
        return str(rejected), False
    return f"accepted {word}" + (f" {number}" if number else ""), True


def main():
    worst = 0
    for path in sys.argv[1:] or ["-"]:
        try:
            if path == "-":
                data = sys.stdin.buffer.read()
            else:
                with open(path, "rb") as file:
                    data = file.read()
        except OSError as error:
            print(f"checker: cannot read '{path}': {error.strerror}", file=sys.stderr)
            worst = max(worst, 3)
            continue
        line, accepted = answer(data)
        print(line)
        worst = max(worst, 0 if accepted else 11)
    return worst


sys.setrecursionlimit(10000)
if __name__ == "__main__":
    sys.exit(main())
