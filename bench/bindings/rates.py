#!/usr/bin/env python3
"""How often Ceva's theorem is proved, checked and printed in a second of processor time: bench/bindings/rates.py BINARY CALLS

By calls in one process from C (CALLS is calls.c built with the library) and from Python, and by one process each (BINARY is the
program). The best of five tries is told.
"""

import pathlib
import resource
import struct
import subprocess
import sys

HERE = pathlib.Path(__file__).resolve().parents[2]
sys.path.insert(0, str(HERE / "bindings" / "python"))
import jarduzki  # noqa: E402

binary, calls = sys.argv[1:3]
program = (HERE / "examples" / "ceva.geo").read_bytes()
log = jarduzki.prove(program).log
given = {"prove": program, "check": log, "text": log}


def best(count, who, work):
    """The most rounds of work for a second of processor time, of five tries, where each does `count`."""
    seconds = []
    for _ in range(5):
        before = resource.getrusage(who)
        work()
        after = resource.getrusage(who)
        seconds.append(after.ru_utime + after.ru_stime - before.ru_utime - before.ru_stime)
    return count / min(seconds)


def by_c(word, count):
    request = word[0].encode() + struct.pack("<3Q", jarduzki.STEPS, len(given[word]), 65536) + given[word]
    subprocess.run([calls], input=request * count, stdout=subprocess.DEVNULL, check=True)


def by_python(word, count):
    call = getattr(jarduzki, word)
    for _ in range(count):
        call(given[word])


def by_processes(word, count):
    for _ in range(count):
        subprocess.run([binary, word], input=given[word], stdout=subprocess.DEVNULL)


ways = ((by_c, 1000, resource.RUSAGE_CHILDREN), (by_python, 300, resource.RUSAGE_SELF), (by_processes, 100, resource.RUSAGE_CHILDREN))
print("calls for a second of processor time:  C  Python  one process each")
for word in given:
    found = [best(count, who, lambda: way(word, count)) for way, count, who in ways]
    print(f"{word}: " + "  ".join(f"{rate:,.0f}" for rate in found))
