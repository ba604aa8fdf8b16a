"""Runs of the prover, and of the helper that draws: limited in time and memory, given up when the next question comes or nobody waits."""
# SPDX-License-Identifier: Apache-2.0
import contextlib
import itertools
import os
import resource
import select
import subprocess
import threading
import time

MEMORY = 2 << 30
LOOKS, TELLS = 0.02, 0.2


class GivenUp(Exception):
    """The next question came, nobody waits, or the studio ends."""


class TooLong(Exception):
    """The time is spent; with what came until then."""


class Question:
    """A question of a page: its kind, its number, and whether somebody still waits for its answer."""

    def __init__(self, runs, key, number, is_gone):
        self.runs, self.key, self.number, self.is_gone = runs, key, number, is_gone

    def look(self):
        """Goes on where the answer is still wanted."""
        if self.runs.is_closed or self.runs.newest.get(self.key) != self.number or self.is_gone():
            raise GivenUp


class Runs:
    """For each page at most one run of each kind, and of all no more than there are processors; of those that take long one less."""

    def __init__(self):
        count = max(2, os.cpu_count() or 2)
        self.lock = threading.Lock()
        self.room = threading.BoundedSemaphore(count)
        self.long_room = threading.BoundedSemaphore(count - 1)
        self.numbers = itertools.count()
        self.newest = {}
        self.alive = set()
        self.spares = {}
        self.is_closed = False

    @contextlib.contextmanager
    def question(self, page, kind, is_gone):
        """A new question of this kind: the one before it of the same page is given up."""
        asked = Question(self, (page, kind), next(self.numbers), is_gone)
        self.newest[asked.key] = asked.number
        try:
            yield asked
        finally:
            with self.lock:
                if self.newest.get(asked.key) == asked.number:
                    del self.newest[asked.key]

    def give_up(self, page, kind):
        self.newest.pop((page, kind), None)

    def run(self, asked, words, text, seconds, each=None):
        """The output and the status of a program that reads this text. `each` takes the output as it comes, or nothing every 0.2 s; a run
        with it may take long."""
        with contextlib.ExitStack() as rooms:
            for room in [self.long_room, self.room] if each else [self.room]:
                while not room.acquire(timeout=LOOKS):
                    asked.look()
                rooms.callback(room.release)
            return self.started(asked, words, text, time.monotonic() + seconds, each)

    def started(self, asked, words, text, end, each):
        with self.lock:
            asked.look()
            run = self.spares.pop(tuple(words), None) or process(words)
            self.alive.add(run)
        try:
            # the program waits for its text, so the limits stand before it works; they hold where the studio itself is killed, too
            resource.prlimit(run.pid, resource.RLIMIT_AS, (MEMORY, MEMORY))
            seconds = int(end - time.monotonic()) + 2
            resource.prlimit(run.pid, resource.RLIMIT_CPU, (seconds, seconds))
            threading.Thread(target=feed, args=(run.stdin, text), daemon=True).start()
            return collected(asked, run, end, each)
        finally:
            run.kill()
            run.wait()
            run.stdout.close()
            with self.lock:
                self.alive.discard(run)

    def prepare(self, words):
        """Starts a program ahead; it waits for its text, and the next run of it is that one."""
        with self.lock:
            if not self.is_closed and tuple(words) not in self.spares:
                self.spares[tuple(words)] = process(words)

    def close(self):
        """Ends all runs, and waits for them."""
        self.is_closed = True
        with self.lock:
            alive = [*self.alive, *self.spares.values()]
        for run in alive:
            run.kill()
        for run in alive:
            run.wait()


def collected(asked, run, end, each):
    parts, out = [], run.stdout.fileno()
    while True:
        ready = select.select([out], [], [], TELLS if each else LOOKS)[0]
        part = os.read(out, 1 << 16) if ready else None
        if part == b"":
            return b"".join(parts), run.wait()
        if each:
            each(part or b"")
        elif part:
            parts.append(part)
        asked.look()
        if time.monotonic() > end:
            raise TooLong(b"".join(parts))


def process(words):
    return subprocess.Popen(words, stdin=subprocess.PIPE, stdout=subprocess.PIPE, stderr=subprocess.DEVNULL, cwd="/", start_new_session=True)


def feed(pipe, text):
    with contextlib.suppress(OSError):
        pipe.write(text)
        pipe.close()
