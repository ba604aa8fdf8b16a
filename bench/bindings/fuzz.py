#!/usr/bin/env python3
"""Calls the library on random and altered bytes, under valgrind, and compares with the program.

    bench/bindings/fuzz.py BINARY CALLS [COUNT [SEED]]

BINARY is the program, CALLS is calls.c built with the library. It makes COUNT byte strings (100,000): random bytes, random words
of the language, and programs and logs of the gallery with bytes, words and lines altered. Each is given to one call, with a buffer
that is too short, just right or longer, and to a run of the program with the same steps. The last line is `N agree, M differ`;
valgrind tells of each read or write outside a block, each use of a value that was never set, and each block that is not freed.
"""

import concurrent.futures
import pathlib
import random
import struct
import subprocess
import sys

ROOT = pathlib.Path(__file__).resolve().parents[2]
EXAMPLES = ROOT / "examples"
sys.path.append(str(ROOT / "tools/page"))
from language import FORMS, OPERANDS, QUANTITIES  # noqa: E402

OTHERS = "prove assume { } A B C D X r 0 1 2 -7 % 170141183460469231731687303715884105727".split()
WORDS = [*dict.fromkeys(word.rstrip("!") for word in FORMS), *QUANTITIES, *OPERANDS, *OTHERS]
LINES = ["end", "verdict proved", "verdict false 1", "coords : 0", "point 3 : 0", "start : 0", "cut 2 : +1", "sample", "goal 1 collinear A B C"]
WHOLE = 2**64 - 1


def altered(chance, given):
    """The bytes with one to three changes."""
    given = bytearray(given)
    for _ in range(chance.randint(1, 3)):
        at = chance.randrange(len(given) + 1)
        kind = chance.randrange(7)
        if kind == 0:
            given[at : at + 1] = bytes([chance.randrange(256)])
        elif kind == 1:
            del given[at : at + chance.randint(1, 8)]
        elif kind == 2:
            given[at:at] = chance.choice(WORDS).encode() + b" "
        elif kind == 3:
            given = given[:at]
        elif kind == 4:
            given[at : at + 1] = bytes([chance.choice(b"0123456789+-*^. \n|:ABCPSRxyt")])
        else:
            lines = bytes(given).split(b"\n")
            i, j = chance.randrange(len(lines)), chance.randrange(len(lines))
            if kind == 5:
                lines[i], lines[j] = lines[j], lines[i]
            else:
                lines[i] = chance.choice(LINES).encode()
            given = bytearray(b"\n".join(lines))
    return bytes(given)


def asked(chance, programs, logs):
    """A word, the steps, the room of the buffer, and the bytes."""
    kind = chance.randrange(10)
    if kind == 0:
        word, given = chance.choice("pct"), chance.randbytes(chance.randrange(200))
    elif kind == 1:
        word, given = "p", " ".join(chance.choice(WORDS) for _ in range(chance.randrange(40))).encode()
    elif kind < 5:
        word, given = "p", altered(chance, chance.choice(programs))
    elif kind < 9:
        word, given = chance.choice("cct"), altered(chance, chance.choice(logs))
    else:
        word, given = chance.choice("ct"), chance.choice(logs)
    steps = chance.choice([1, 30, 1000, 20000, 20000, 20000])
    return word, steps, chance.choice([0, 1, 40, 4096, WHOLE, WHOLE]), given


def run(binary, ask):
    """The status and the bytes of the program."""
    word, steps, _, given = ask
    words = [binary, {"p": "prove", "c": "check", "t": "text"}[word], "--steps", str(steps)]
    ran = subprocess.run(words, input=given, stdout=subprocess.PIPE)
    return ran.returncode, ran.stdout


def line_of(status, at, reason):
    """The line that the program writes where a call has no text."""
    return {
        4: b"syntax %d at %d\n" % (reason, at),
        6: b"stop too_large %d %s\n" % (at, [b"", b"norm", b"degree"][min(reason, 2)]),
        7: b"stop spent %d\n" % at,
        11: b"rejected %d %d\n" % (at, reason),
        12: b"too long\n",
    }.get(status, b"")


def agrees(ask, told, text, wanted):
    """Whether an answer is what the program wrote."""
    status, length, at, reason = told
    if length == 0:
        return wanted == (status, line_of(status, at, reason))
    return status == wanted[0] and length == len(wanted[1]) and wanted[1].startswith(text) and len(text) == min(length, ask[2])


def main():
    binary, calls = sys.argv[1:3]
    count = int(sys.argv[3]) if len(sys.argv) > 3 else 100_000
    chance = random.Random(int(sys.argv[4]) if len(sys.argv) > 4 else 1)
    programs = [path.read_bytes() for path in sorted(EXAMPLES.glob("*.geo"))]
    with concurrent.futures.ThreadPoolExecutor(2) as pool:
        logs = list(pool.map(lambda program: run(binary, ("p", 20000, 0, program))[1], programs))
        asks = [asked(chance, programs, logs) for _ in range(count)]
        wanted = list(pool.map(lambda ask: run(binary, ask), asks))
    requests = b"".join(b"%s" % ask[0].encode() + struct.pack("<3Q", ask[1], len(ask[3]), ask[2]) + ask[3] for ask in asks)
    guard = ["valgrind", "-q", "--error-exitcode=99", "--leak-check=full", "--show-leak-kinds=all"]
    ran = subprocess.run([*guard, calls], input=requests, stdout=subprocess.PIPE)
    at = differ = 0
    statuses = {}
    for ask, due in zip(asks, wanted):
        told = struct.unpack_from("<4Q", ran.stdout, at)
        held = min(told[1], ask[2])
        text = ran.stdout[at + 32 : at + 32 + held]
        at += 32 + held
        statuses[due[0]] = statuses.get(due[0], 0) + 1
        if not agrees(ask, told, text, due):
            differ += 1
            print(f"{ask}: {told}, {text!r} in place of {due}")
    print("statuses:", ", ".join(f"{status}: {statuses[status]}" for status in sorted(statuses)))
    print(f"valgrind ended with {ran.returncode}; {len(ran.stdout) - at} bytes too many")
    print(f"{count - differ} agree, {differ} differ")
    return int(differ > 0 or ran.returncode != 0 or at != len(ran.stdout))


if __name__ == "__main__":
    sys.exit(main())
