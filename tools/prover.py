"""The words of the proved program, with limits on time, steps and memory; what runs can be stopped from any thread."""
# SPDX-License-Identifier: Apache-2.0
import os
import resource
import subprocess
import tempfile
import threading
import time
from dataclasses import dataclass
from math import ceil
from pathlib import Path

MOST = 1_000_000_000_000
MINUTE, ROOM = 60, 3 << 30
SHORTEST = 0.02
DONE, TOO_LONG = 13, 12
CUT_OFF = "cut off"


class Stopped(Exception):
    """Nothing is started any more."""


@dataclass
class Answer:
    """What a word wrote, and its status; None: it was cut off."""

    text: str
    status: int | None

    @property
    def last(self):
        """The last line, or why there is none."""
        if self.status is None:
            return CUT_OFF
        return "too long" if self.status == TOO_LONG else self.text.rstrip("\n").rpartition("\n")[2]


def processor_seconds(pid):
    """The processor time of a process that was started here; 0 where it is gone."""
    try:
        times = Path(f"/proc/{pid}/stat").read_text().rpartition(")")[2].split()[11:13]
    except OSError:
        return 0
    return sum(map(int, times)) / os.sysconf("SC_CLK_TCK")


class Prover:
    """The program. With `seconds` for all, each run has its own limit on processor time. Without, it may take a minute, so that an answer
    does not depend on the machine."""

    def __init__(self, program, seconds=None):
        self.program, self.seconds = program, seconds
        self.until = self.deadline(1)
        self.live, self.lock, self.stopped = set(), threading.RLock(), False

    now = staticmethod(time.monotonic)

    def deadline(self, share):
        """The end of a part of the time."""
        return None if self.seconds is None else self.now() + share * self.seconds

    def is_past(self, until):
        return until is not None and self.now() > until

    def left(self):
        return None if self.until is None else self.until - self.now()

    def ask(self, word, text, seconds=MINUTE, steps=MOST):
        """The answer of a word; it may take so many seconds of processor time, and no longer than the time that is left."""
        if self.is_past(self.until):
            return Answer("", None)
        limit = MINUTE if self.until is None else seconds
        with tempfile.TemporaryFile() as given:
            given.write(text.encode(errors="surrogateescape"))
            given.seek(0)
            child = self.start([self.program, word, *([] if word == "place" else ["--steps", str(steps)])], given, limit)
        try:
            text = self.written(child, limit)
        finally:
            with self.lock:
                self.live.discard(child)
        return Answer(text.decode("ascii", "replace"), child.returncode if child.returncode >= 0 else None)

    def written(self, child, limit):
        """What the child writes in so much processor time, and in the time that is left; then it is killed."""
        rest = limit
        while True:
            left = self.left()
            try:
                return child.communicate(timeout=max(SHORTEST, rest if left is None else min(rest, left)))[0]
            except subprocess.TimeoutExpired:
                rest = limit - processor_seconds(child.pid)
                if rest <= 0 or self.is_past(self.until):
                    child.kill()

    def start(self, words, given, limit):
        """Runs a word on a file, with a limit on memory, and one on time that holds also where this program is killed."""
        with self.lock:
            if self.stopped:
                raise Stopped
            child = subprocess.Popen(words, stdin=given, stdout=subprocess.PIPE, stderr=subprocess.DEVNULL)
            self.live.add(child)
        try:
            resource.prlimit(child.pid, resource.RLIMIT_AS, (ROOM, ROOM))
            resource.prlimit(child.pid, resource.RLIMIT_CPU, (ceil(limit) + 1, ceil(limit) + 1))
        except ProcessLookupError:
            pass
        return child

    def stop(self):
        """Ends what runs, and starts nothing more."""
        with self.lock:
            self.stopped = True
            for child in self.live:
                child.kill()

    def place(self, line, text):
        """What `place` answers at a line `at`: its status and its lines."""
        answer = self.ask("place", f"{line}\n{text}", 5)
        return answer.status, answer.text.splitlines()
