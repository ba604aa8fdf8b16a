"""The program that a test runs, for the tests in Python: `tests/program` names it."""
# SPDX-License-Identifier: Apache-2.0
import pathlib
import subprocess
import sys


def program(*named):
    """The path of the program: the one that is named, or the one that is there."""
    run = subprocess.run([pathlib.Path(__file__).with_name("program"), *named], stdout=subprocess.PIPE, text=True)
    if run.returncode != 0:
        sys.exit(3)
    return run.stdout.rstrip("\n")
