"""The prover of plane geometry, the checker of its logs and the printer of readable proofs.

    import jarduzki
    proof = jarduzki.prove("point A point B midpoint M A B prove { collinear A M B }")
    proof.verdict, proof.log
    jarduzki.check(proof.log).program
    jarduzki.text(proof.log)

The module calls a shared object over `ctypes`. `bindings/build` links it. It is the one that the variable JARDUZKI_LIBRARY names, or
`bindings/out/libgeo_c.so`, or the `libgeo_c.so` that the system finds.
"""
# SPDX-License-Identifier: Apache-2.0

from __future__ import annotations

import ctypes
import ctypes.util
import operator
import os
import pathlib
import subprocess
from dataclasses import dataclass
from typing import Dict, NoReturn, Optional, Tuple, Union

Text = Union[str, bytes, bytearray, memoryview]

STEPS = 100_000_000
PROGRAM_LIMIT = 1_048_576
LOG_LIMIT = 67_108_864

PROVED, FALSE, IMPOSSIBLE = "proved", "false", "impossible"

# the tools of `geo`: in a checkout, and where `make install` puts them
_HERE = pathlib.Path(__file__).resolve().parent
_TOOLS = [_HERE.parent.parent / "tools", _HERE.parent.parent / "jarduzki" / "tools"]

_VERDICTS = {0: PROVED, 1: FALSE, 2: IMPOSSIBLE}
_SYNTAX, _TOO_LARGE, _SPENT, _NO_MEMORY, _REJECTED, _TOO_LONG, _DONE = 4, 6, 7, 10, 11, 12, 13

_REFUSALS = {
    1: "a byte that begins no token",
    2: "a number past 2^127 - 1",
    3: "a word longer than 64 bytes",
    4: "another token than may stand here",
    5: "a word that is neither reserved nor declared",
    6: "a word that is declared already",
    7: "a name of another kind",
    8: "a ratio in a step's number or in a divisor",
    9: "a brace that opens the 129th level inside an expression",
    10: "more than 512 points",
    11: "the end of the text where a command or `prove` is due",
    12: "a token after the statement",
}

_REASONS = {
    21: "no line of a log, or one without its line feed",
    22: "a line of a kind that may not stand here",
    23: "the lines of the program are no canonical text",
    24: "the header of another chain than the next one",
    25: "another start",
    26: "a move that replaces nothing",
    27: "another polynomial than the move or the cut gives",
    28: "a cut by a variable that is not known, or with a rest",
    29: "the end of a chain where a quantity of points is left",
    30: "a sample with other variables, or at which a listed polynomial is zero",
    31: "another verdict than the evidence gives",
    32: "no line where one is due",
}


class GeoError(Exception):
    """Why a call has no result."""

    def __reduce__(self):
        """How it is handed to another process: its class, words and members, without a call of the constructor."""
        return _remade, (type(self), self.args, self.__dict__)


def _remade(kind, args, members):
    error = kind.__new__(kind, *args)
    error.args = args
    error.__dict__.update(members)
    return error


class SyntaxRefused(GeoError):
    """The text spells no program.

    text     the text, as bytes
    refusal  its number, 1 to 12
    place    where the refused token begins, in bytes from 0
    line     the same as a line, counted from 1, and
    column   a character of that line, counted from 1
    hint     what to write there, in the words of `geo`
    """

    def __init__(self, text, place, refusal):
        before = text[:place].split(b"\n")
        self.text = text
        self.refusal = refusal
        self.place = place
        self.line = len(before)
        self.column = len(before[-1].decode(errors="replace")) + 1
        super().__init__(f"line {self.line}, column {self.column}: {_REFUSALS[refusal]}")

    @property
    def hint(self) -> str:
        """It is asked for by awk each time. It is empty where there is nothing to say, or where awk or the tools of `geo` are not there."""
        tools = next((folder for folder in _TOOLS if (folder / "refusal.awk").is_file()), None)
        if tools is None:
            return ""
        words = ["awk", "-v", f"refusal={self.refusal}", "-v", f"place={self.place}", "-v", "alone=1"]
        words += [word for name in ("near", "advice", "refusal") for word in ("-f", str(tools / f"{name}.awk"))]
        given = {"input": self.text.replace(b"\0", b"?"), "stdout": subprocess.PIPE, "stderr": subprocess.DEVNULL}
        try:
            return subprocess.run([*words, str(tools / "forms"), "-"], env={**os.environ, "LC_ALL": "C"}, **given).stdout.decode(errors="replace").strip()
        except OSError:
            return ""


class Rejected(GeoError):
    """The log is not accepted: the number of its line, counted from 1, and that of the reason, 21 to 32."""

    def __init__(self, line, reason):
        self.line = line
        self.reason = reason
        super().__init__(f"line {line}: {_REASONS[reason]}")


class Stopped(GeoError):
    """Work stopped at a line of the log.

    line  the number of the line, counted from 1
    log   where the log is one that `prove` made, the lines up to that of the stop; else None
    """

    def __init__(self, line, log, why):
        self.line = line
        self.log = log
        super().__init__(f"line {line}: {why}")


class Spent(Stopped):
    """The charges pass the steps."""

    def __init__(self, line, log):
        super().__init__(line, log, "the charges pass the steps")


class TooLarge(Stopped):
    """A polynomial passes a limit, which is "norm" or "degree"."""

    def __init__(self, line, log, limit):
        self.limit = limit
        super().__init__(line, log, f"the {limit} passes its limit")


class TooLong(GeoError):
    """The bytes that were given, or the log that is to be written, are longer than their limit."""

    def __init__(self, log):
        self.log = log
        super().__init__("longer than the limit")


@dataclass(frozen=True)
class Proof:
    """What `prove` gives.

    verdict  PROVED, FALSE or IMPOSSIBLE
    number   of FALSE the goal that fails, of IMPOSSIBLE the condition that is never met, counted from 1; else None
    log      the log, as bytes
    """

    verdict: str
    number: Optional[int]
    log: bytes

    def _texts(self, kind: str) -> Tuple[str, ...]:
        """The texts of the lines of this kind, in order."""
        rows = (line.split(" ", 2) for line in self.log.decode("ascii").splitlines())
        return tuple(row[2] for row in rows if row[0] == kind)

    @property
    def conditions(self) -> Tuple[str, ...]:
        """The conditions of the program, in order, up to the one that is never met."""
        return self._texts("condition")

    @property
    def goals(self) -> Tuple[str, ...]:
        """The goals of the statement, in order, up to the one that fails."""
        return self._texts("goal")

    @property
    def figure(self) -> Optional[Figure]:
        """The figure of the log's sample: an example of PROVED, the counterexample of FALSE; None for IMPOSSIBLE."""
        points, numbers, values = [], [], []
        for row in (line.split(" ") for line in self.log.decode("ascii").splitlines()):
            if row[:2] == ["|", "point"]:
                points.append(row[2])
            elif row[0] == "|" and row[1] in ("param", "online", "oncircle"):
                numbers.append(row[2])
            elif row[0] == "sample":
                values = [int(word.partition("=")[2]) for word in row[1:]]
        if self.verdict == IMPOSSIBLE:
            return None
        pairs = zip(values[0 : 2 * len(points) : 2], values[1 : 2 * len(points) : 2])
        return Figure(dict(zip(points, pairs)), dict(zip(numbers, values[2 * len(points) :])))


@dataclass(frozen=True)
class Figure:
    """Numbers that fix a figure.

    points   the coordinates of each free point, by its name
    numbers  the number of each parameter, and of each point on a line or a circle, by its name
    """

    points: Dict[str, Tuple[int, int]]
    numbers: Dict[str, int]


@dataclass(frozen=True)
class Accepted:
    """What `check` gives of an accepted log.

    verdict     PROVED, FALSE or IMPOSSIBLE
    number      as in `Proof`
    program     the program that the verdict speaks of, in its canonical text
    conditions  the conditions of the program, in order
    told        the text that the program `geo_cli check` writes, as bytes
    """

    verdict: str
    number: Optional[int]
    program: str
    conditions: Tuple[str, ...]
    told: bytes


class _Answer(ctypes.Structure):
    _fields_ = [("length", ctypes.c_uint64), ("at", ctypes.c_uint64), ("reason", ctypes.c_uint64)]


def _load():
    beside = _HERE.parent / "out" / "libgeo_c.so"
    name = os.environ.get("JARDUZKI_LIBRARY") or (str(beside) if beside.exists() else ctypes.util.find_library("geo_c") or str(beside))
    try:
        library = ctypes.CDLL(name)
        calls = (library.geo_prove, library.geo_check, library.geo_text)
        library.geo_version.restype = ctypes.c_char_p
    except (OSError, AttributeError) as error:
        raise ImportError(f"{error}; bindings/build makes the library, and JARDUZKI_LIBRARY names one at another place") from None
    for call in calls:
        call.restype = ctypes.c_uint32
        call.argtypes = [
            ctypes.c_char_p,
            ctypes.c_size_t,
            ctypes.c_uint64,
            ctypes.POINTER(ctypes.c_char),
            ctypes.c_size_t,
            ctypes.POINTER(_Answer),
        ]
    return library


_library = _load()
__version__: str = _library.geo_version().decode("ascii")


def _bytes_of(text: Text) -> bytes:
    if isinstance(text, str):
        return text.encode()
    if isinstance(text, (bytes, bytearray, memoryview)):
        return bytes(text)
    raise TypeError(f"str or bytes are due, not {type(text).__name__}")


def _call(call, given: bytes, steps: int) -> Tuple[int, _Answer, bytes]:
    """The status, the answer and the text of a call. A second one is made where the text did not fit."""
    steps = operator.index(steps)
    if not 0 <= steps < 2**64:
        raise ValueError("steps are a number from 0 to 2^64 - 1")
    answer = _Answer(65536, 0, 0)
    while True:
        room = max(answer.length, 1)
        buffer = ctypes.create_string_buffer(room)
        status = call(given, len(given), steps, buffer, room, ctypes.byref(answer))
        if answer.length <= room:
            return status, answer, buffer.raw[: answer.length]


def _refuse(status: int, answer: _Answer, given: bytes, log: Optional[bytes] = None) -> NoReturn:
    """Raises what a status without a result stands for."""
    if status == _SYNTAX:
        raise SyntaxRefused(given, answer.at, answer.reason)
    if status == _REJECTED:
        raise Rejected(answer.at, answer.reason)
    if status == _SPENT:
        raise Spent(answer.at, log)
    if status == _TOO_LARGE:
        raise TooLarge(answer.at, log, {1: "norm", 2: "degree"}[answer.reason])
    if status == _TOO_LONG:
        raise TooLong(log)
    if status == _NO_MEMORY:
        raise MemoryError("the prover ran out of memory")
    raise GeoError(f"status {status}")


def prove(text: Text, *, steps: int = STEPS) -> Proof:
    """Proves the program that a text (str or bytes) spells, with so many steps."""
    given = _bytes_of(text)
    status, answer, log = _call(_library.geo_prove, given, steps)
    if status not in _VERDICTS:
        _refuse(status, answer, given, log or None)
    return Proof(_VERDICTS[status], answer.at or None, log)


def check(log: Text, *, steps: int = STEPS) -> Accepted:
    """Checks a log (str or bytes), whoever wrote it, with so many steps.

    The verdict speaks of the program that is told: compare it with your own.
    """
    given = _bytes_of(log)
    status, answer, told = _call(_library.geo_check, given, steps)
    if status not in _VERDICTS:
        _refuse(status, answer, given)
    lines = told.decode("ascii").splitlines()
    conditions = [line.split(" ", 2)[2] for line in lines if line.startswith("condition ")]
    program = lines[: len(lines) - 1 - len(conditions)]
    return Accepted(_VERDICTS[status], answer.at or None, "\n".join(program) + "\n", tuple(conditions), told)


def text(log: Text, *, steps: int = STEPS) -> str:
    """Writes a log (str or bytes), which is checked first, as a proof that a person reads."""
    given = _bytes_of(log)
    status, answer, proof = _call(_library.geo_text, given, steps)
    if status != _DONE:
        _refuse(status, answer, given)
    return proof.decode("ascii")
