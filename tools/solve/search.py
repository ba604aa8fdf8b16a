"""The search for another formulation of a program's theorem: which are tried, in which order, and what is believed of them.

Nothing is believed of the search itself. A statement is told as false where `place` shows a figure in which it fails, and as proved where
`cite` shows the proved formulation at the figure, and `place` shows that there is one."""
# SPDX-License-Identifier: Apache-2.0
import random
from collections import deque
from concurrent.futures import ThreadPoolExecutor, TimeoutError
from itertools import chain, count

from auxiliary import FOR_SMALLER, POOLS, pool
from frames import frames, smaller, touching_first
from ground import Ground
from orders import Orders
from prover import CUT_OFF, DONE
from residues import NoFigure
from canonical import Names, program_text
from figures import figure_where

# The seconds of processor time that a proof has, and a citation: most that can be proved are proved at once.
STAGES = ((0.15, 0.3), (1, 2), (5, 5))
# How many of a round's orders are tried, and of those that came farthest in all rounds so far how many are tried again at each stage.
ORDERS, AGAIN = 24, (3, 1)
# Into how many frames an order goes.
FRAMED = 2
# The parts of the time that frames, smaller statements, and one list of a round have.
FRAMES_SHARE, SMALLER_SHARE, ROUND_SHARE = 1 / 8, 1 / 20, 1 / 10
SAMPLES = 200
CARRIED_BACK = "carried back"


class Search:
    def __init__(self, commands, statement, prover, jobs, tries=None, show=None, seed=1):
        self.book, self.statement, self.prover = commands, statement, prover
        self.jobs, self.tries, self.show = jobs, tries, show
        self.tried, self.proved, self.done = 0, [], set()
        self.cut_off = []
        self.names = Names(c.name for c in commands)
        self.dice = random.Random(seed)

    def batches(self):
        """Lists of tries, each with its part of the time. Behind each list their outcomes are known."""
        try:
            ground = Ground(self.book, self.statement, self.names, self.dice)
        except NoFigure:
            return
        yield self.fitting(chain(touching_first(ground), frames(ground, ground.commands, "frame", 6))), FRAMES_SHARE
        yield self.farther(1, 6), FRAMES_SHARE
        for rules, most in FOR_SMALLER:
            wider = ground.with_added(pool(ground, rules, most)) if rules else ground
            yield self.fitting(smaller(wider, 40)), SMALLER_SHARE
        for k in count():
            rules, most = POOLS[k % len(POOLS)]
            added = pool(ground, rules, most)
            if not most or added:
                yield from self.round(ground.with_added(added), k >= len(POOLS))

    def fitting(self, tries):
        """The tries that were not made before, without those that make no figure."""
        found = []
        while True:
            try:
                attempt = next(tries, None)
            except NoFigure:
                continue
            if attempt is None:
                return found
            text = program_text(attempt.form, self.statement) + program_text(attempt.figure, self.statement)
            if text not in self.done:
                self.done.add(text)
                found.append(attempt)

    def round(self, ground, is_later):
        """Orders of one ground; the lightest and the farthest of them in frames; then those that came farthest of all so far, with more time."""
        some = self.fitting(iter(Orders(ground).batch(ORDERS)))
        yield some, ROUND_SHARE
        some = [attempt for attempt in some if not attempt.log]
        best = some[:1] + sorted(some[1:], key=lambda attempt: attempt.far, reverse=True)[:1]
        framed = (attempt for one in best for attempt in frames(ground, one.own_form, "frame of an order", FRAMED))
        yield self.fitting(framed), ROUND_SHARE
        for stage, most in enumerate(AGAIN[: 1 + is_later], 1):
            yield self.farther(stage, most), ROUND_SHARE

    def farther(self, stage, most):
        """Those that came farthest of the tries that were cut off at the stage before."""
        some = sorted((t for t in self.cut_off if t.stage == stage - 1), key=lambda t: (bool(t.log), t.far), reverse=True)[:most]
        for attempt in some:
            self.cut_off.remove(attempt)
            attempt.stage = stage
        return some

    def run(self):
        """The first formulation, in the order of the search, that is cited at a figure that there is; None: there is none."""
        with ThreadPoolExecutor(self.jobs) as workers:
            try:
                for batch, share in self.batches():
                    found = self.first(workers, iter(batch), self.prover.deadline(share))
                    if found or self.is_over():
                        return found
            finally:
                self.prover.stop()
                if self.show:
                    self.show("")

    def is_over(self):
        return self.prover.is_past(self.prover.until) or self.tries is not None and self.tried >= self.tries

    def first(self, workers, queue, until):
        """The first of the queue that is carried back."""
        waiting = deque()
        while True:
            while len(waiting) < self.jobs and not self.is_over() and not self.prover.is_past(until) and (attempt := next(queue, None)):
                self.tried += 1
                waiting.append(workers.submit(self.prove_and_cite, attempt))
            if not waiting:
                return None
            attempt = self.result(waiting.popleft())
            if attempt.outcome == CARRIED_BACK:
                return attempt
            if attempt.outcome == CUT_OFF:
                self.cut_off.append(attempt)
            if attempt.log and attempt not in self.proved:
                self.proved.append(attempt)

    def result(self, waiting):
        """The outcome of a try; on a terminal the seconds are told meanwhile."""
        while self.show:
            self.show(f"{self.tried} formulations tried, {len(self.proved)} proved and not carried back")
            try:
                return waiting.result(0.5)
            except TimeoutError:
                pass
        return waiting.result()

    def prove_and_cite(self, attempt):
        """The try, with what came of it."""
        for_proof, for_citation = STAGES[attempt.stage]
        if not attempt.log and not self.prove(attempt, for_proof):
            return attempt
        figure = program_text(attempt.figure, self.statement)
        cited = self.prover.ask("cite", attempt.citation(figure), for_citation)
        attempt.outcome = cited.last
        if cited.status == DONE:
            attempt.placed = figure_where("holds", self.prover, figure, SAMPLES, SAMPLES)
            attempt.outcome = CARRIED_BACK if attempt.placed else "no figure was found"
        return attempt

    def prove(self, attempt, seconds):
        """Whether the formulation is proved in so much time."""
        answer = self.prover.ask("prove", program_text(attempt.form, self.statement), seconds)
        attempt.outcome = answer.last
        if answer.status == 0:
            attempt.log = answer.text
        else:
            attempt.far = reach(answer.text)
        return answer.status == 0


def reach(log):
    """How far a proof came: the points that went out of its last goal, beside those that are left, and a little for a short rest."""
    goals = log.count("\ngoal ")
    rows = [row.split(" ", 2) for row in log.rpartition("\ngoal ")[2].splitlines() if row.startswith("point ")]
    if not goals or not rows:
        return goals + log.count("\ncondition ") / 1000
    return goals + 1 - int(rows[-1][1]) / (int(rows[0][1]) + 1) - len(log) / 1e9
