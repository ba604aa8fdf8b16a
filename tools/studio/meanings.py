"""What an answer of the program means, and where a program is refused, in the words of `geo`."""
# SPDX-License-Identifier: Apache-2.0
import os
import subprocess
import tempfile
from pathlib import Path

from language import TOKEN

TOOLS = Path(__file__).parent.parent
EXPLAIN = 'home=$0; . "$home/tools/explain.bash"; explain_refusal x "$1" "$2" "$3"'


def meaning(kind, number):
    for line in (TOOLS / "answers").read_text().splitlines():
        if line.startswith(f"{kind}\t{number}\t"):
            return line.split("\t")[2]
    return ""


def refusal(text, log):
    """Where a program is refused, in lines and columns of UTF-16 from 0, as the editor counts, and why."""
    _, number, _, place = log.split()[-4:]
    number, place, data = number.decode(), int(place), text.encode()
    before = data[:place].decode(errors="replace")
    token = TOKEN.match(text[len(before) :])
    return {
        "state": "error",
        "line": before.count("\n"),
        "column": len(before.rpartition("\n")[2].encode("utf-16-le", "surrogatepass")) // 2,
        "length": len(token[0]) if token and not token[0].startswith("%") else 1,
        "words": meaning("syntax", number),
        "hint": hint(data, number, place),
    }


def hint(data, number, place):
    """What `geo` says behind the place, or nothing."""
    with tempfile.NamedTemporaryFile() as file:
        file.write(data)
        file.flush()
        words = ["bash", "-c", EXPLAIN, str(TOOLS.parent), file.name, number, str(place)]
        try:
            said = subprocess.run(words, stdin=subprocess.DEVNULL, capture_output=True, timeout=5, env={"PATH": os.environ.get("PATH", "/usr/bin:/bin")})
        except (OSError, subprocess.TimeoutExpired):
            return ""
    lines = said.stdout.decode(errors="replace").splitlines()
    carets = [k for k, line in enumerate(lines) if line.strip() == "^"]
    return " ".join(line.strip() for line in lines[(carets[0] if carets else 0) + 1 :])
