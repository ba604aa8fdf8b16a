"""What the parts of tests/bridges share: counts, the program, and imports within this process."""
# SPDX-License-Identifier: Apache-2.0
import os
import subprocess
import sys
from pathlib import Path

HERE = Path(__file__).resolve().parent
TOP = HERE.parent.parent
sys.path.insert(0, str(TOP / "tests"))
from tested import program as program_of  # noqa: E402

BINARY = program_of(*sys.argv[1:2])
sys.path.insert(0, str(TOP / "tools/import"))
from program import Import, Refused  # noqa: E402,F401
from reader import BadFile  # noqa: E402,F401

results = [0, 0]


def want(name, condition, shown=""):
    results[0 if condition else 1] += 1
    if not condition:
        print(f"bridges {name} {shown}".rstrip())


def counts():
    return results


def geo(*words, given=None):
    """A call of geo: its status, standard output and standard error."""
    environment = {**os.environ, "GEO_PROGRAM": BINARY}
    run = subprocess.run([TOP / "geo", *map(str, words)], input=given, capture_output=True, env=environment, timeout=100)
    return run.returncode, run.stdout.decode(), run.stderr.decode()


def proved(text):
    """The last line of the log of a program, and the status."""
    run = subprocess.run([BINARY, "prove"], input=text, capture_output=True, text=True)
    return run.stdout.splitlines()[-1], run.returncode
