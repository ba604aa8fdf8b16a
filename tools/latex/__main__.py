"""Makes a LaTeX document of a readable proof, with the figure in TikZ.

    python3 -B tools/latex [--body] [--terms N] LOG TEXT

LOG is a log, TEXT the readable proof that the program made of it. The proof is the program's; the words and the picture are this tool's,
and nothing is proved of them. The document wants the packages amsmath and tikz; with --body it is a part of one that has them.
"""
# SPDX-License-Identifier: Apache-2.0
import argparse
import os
import sys
from pathlib import Path

import paths  # noqa: F401
from document import Document


class Words(argparse.ArgumentParser):
    def error(self, message):
        """Wrong words end with the status that they have elsewhere."""
        print(f"geo: latex: {message}", file=sys.stderr)
        sys.exit(3)


def main():
    parser = Words(prog="geo latex", add_help=False, allow_abbrev=False)
    parser.add_argument("--body", action="store_true")
    parser.add_argument("--terms", type=int, default=24)
    parser.add_argument("log")
    parser.add_argument("text")
    words = parser.parse_args()
    log, text = (Path(path).read_text(encoding="utf-8").splitlines() for path in (words.log, words.text))
    made = Document(log, text, max(words.terms, 0)).tex(words.body).encode()
    try:
        sys.stdout.buffer.write(made)
        sys.stdout.buffer.flush()
    except OSError:
        os._exit(9)
    return 0


if __name__ == "__main__":
    try:
        sys.exit(main())
    except Exception as fault:  # a fault of this tool: 1, which Python would end with, means False
        print(f"geo: latex: {type(fault).__name__}: {fault}", file=sys.stderr)
        sys.exit(70)
