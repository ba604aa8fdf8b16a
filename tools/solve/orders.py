"""The points of a figure in other orders. One after another is taken away, by a construction that leaves it as free beside the points that
are left as it is in the figure; backwards these are a formulation that has all relations of the figure."""
# SPDX-License-Identifier: Apache-2.0
from dataclasses import dataclass, field

from canonical import Command, names_in, needed, program_text
from constructions import constructions
from relations import ON_LINES
from residues import Freedom
from weights import WEIGHT, degree, weight

# How many orders are drawn, and how many are made of the lightest of those by another place for some points.
DRAWN, VARIED, LIGHTEST = 60, 140, 4
# How many orders with the same weights are tried: they are mostly the same with other names.
ALIKE = 2
# How often an order that leads nowhere is taken back by some points.
STEPS_BACK = 12


@dataclass
class Order:
    """The points that it has, the place of each, the constructions that it likes, and the formulation that came of it."""

    points: list
    places: dict
    style: dict
    liked: dict = field(default_factory=dict)
    form: list = None
    weights: tuple = ()


class Orders:
    """The orders of the points of a ground."""

    def __init__(self, ground):
        self.ground, self.dice = ground, ground.dice
        self.facts = ground.relations()
        self.made = constructions(self.facts, ground.commands + ground.added, self.dice)
        self.needs = {c: frozenset(names_in(c.args)) for made in self.made.values() for c in made}
        own = {*ground.commands, *ground.added}
        self.known = {c: c in own or self.facts.known.says(c) for c in self.needs}
        self.others = {c: self.other_lines(c) for c in self.needs}
        self.params = [c for c in ground.commands if c.word == "param"]
        self.freedom, self.place = Freedom(ground.real, [c.name for c in self.params] + self.facts.points), {}
        for c in ground.commands + ground.added:
            own = len(self.place) / len(ground.commands)
            self.place[c.name] = max((self.place.get(x, 0) for x in names_in(c.args)), default=0) if c in ground.added else own
        self.named = set(names_in(ground.statement.args))
        self.goal = [x for x in dict.fromkeys(names_in(ground.statement.args)) if x in ground.at]

    def batch(self, size):
        """So many formulations that are true at random numbers, each once; in turn the next one that is light by the first of the weights, and
        one by the other."""
        found, lightest = {}, ([], [])
        for k in range(DRAWN + VARIED):
            some = self.dice.choice(lightest)
            one = self.drawn() if k < DRAWN or not some else self.varied(self.dice.choice(some))
            if self.peel(one) and self.ground.is_true(one.form):
                if found.setdefault(program_text(one.form, self.ground.statement), one) is one:
                    lightest = tuple(sorted([*some, one], key=lambda one: one.weights[w])[:LIGHTEST] for w, some in enumerate(lightest))
        return [self.ground.attempt("order", one.form) for one in self.in_turn(list(found.values()))[:size]]

    @staticmethod
    def in_turn(found):
        """Orders by both weights in turn; of those with the same weights only some."""
        by_both = zip(*(sorted(found, key=lambda one: one.weights[w]) for w in (0, 1)))
        alike, kept = {}, []
        for one in {id(one): one for pair in by_both for one in pair}.values():
            alike[one.weights] = alike.get(one.weights, 0) + 1
            if alike[one.weights] <= ALIKE:
                kept.append(one)
        return kept

    def drawn(self):
        """An order with the points of the statement and some of the others: that of the program, more or less mixed."""
        share, style = self.dice.choice((0.3, 0.6, 1)), self.style()
        points = [x for x in self.facts.points if x not in self.facts.added or x in self.goal or self.dice.random() < share]
        return Order(points, self.mixed(style), style)

    def mixed(self, style):
        return {x: self.place[x] + style["mixed"] * self.dice.random() for x in self.facts.points}

    def style(self):
        """How much one order likes each construction, and other ways of it."""
        style = {word: self.dice.choice((0.2, 1, 5)) / (1 + weight) for word, weight in WEIGHT.items()}
        style["untold"], style["left out"] = map(self.dice.choice, ((0, 0, 0.05), (0, 0, 0.1, 0.5)))
        style["unused"], style["mixed"] = map(self.dice.choice, ((0, 0, 0.3), (0.3, 0.5, 1, 2)))
        style["other line"] = self.dice.choice((0.2, 0.2, 1))
        return style

    def varied(self, one):
        """An order with other places for some of its points, and with one auxiliary point more or less."""
        style, moved = self.style(), set(self.dice.sample(one.points, self.dice.randrange(1, 4)))
        points, others = list(one.points), [x for x in self.facts.added if x not in self.goal]
        if others and self.dice.random() < 0.3:
            x = self.dice.choice(sorted(others))
            points = [y for y in points if y != x] if x in points else [*points, x]
        places = {x: self.dice.random() if x in moved else one.places.get(x, self.dice.random()) for x in self.facts.points}
        liked = {x: c for x, c in one.liked.items() if x not in moved and self.dice.random() < 0.9}
        return Order(points, places, style, liked)

    def peel(self, one):
        """Whether all points can be taken away in this order; then it has a formulation."""
        numbers = [c.name for c in self.params if c.name in self.named or one.style["untold"]]
        left, taken, back, freedom = list(one.points), [], STEPS_BACK, self.freedom
        for x in [c.name for c in self.params if c.name not in numbers] + [x for x in self.facts.points if x not in left]:
            freedom = freedom.without(x)
        while left:
            command = self.last(one, left, freedom, [c for c, *_ in taken], numbers)
            if command:
                taken.append((command, left, freedom))
                left, freedom = [x for x in left if x != command.name], freedom.without(command.name)
            elif back and taken:
                back -= 1
                for _ in range(min(len(taken), self.dice.randrange(1, 5))):
                    _, left, freedom = taken.pop()
                one.places = self.mixed(one.style)
            else:
                return False
        made = [c for c, *_ in taken[::-1]]
        one.form, one.liked = needed(self.params + made, self.goal), {c.name: c for c in made}
        one.places = {c.name: k / len(made) for k, c in enumerate(made)}
        one.weights = weight(one.form), degree(one.form, self.ground.statement)
        return True

    def last(self, one, left, freedom, taken, numbers):
        """The construction that is taken away next: of the first point in this order that has one."""
        used = set(self.goal).union(*(self.needs.get(c, ()) for c in taken))
        there = {*left, *numbers}
        for x in sorted(left, key=lambda x: one.places[x] + one.style["unused"] * (x not in used), reverse=True):
            command = self.construction(one, x, there - {x}, freedom, x not in used)
            if command:
                return command
        return None

    def construction(self, one, x, there, freedom, is_unused):
        """A construction of X by points that are there. A point that nothing needs may also be left out."""
        free, liked = freedom.of(x), one.liked.get(x)
        leaves_out = is_unused and (liked and liked.word == "point" or self.dice.random() < one.style["left out"])
        if free == 2 or leaves_out:
            return Command("point", x, ())
        if self.made[x].get(liked) == 2 - free and self.needs[liked] <= there:
            return liked
        untold = 0 if x in self.goal else one.style["untold"]
        can = [c for c, fixed in self.made[x].items() if fixed == 2 - free and (untold or self.known[c]) and self.needs[c] <= there]
        weights = [one.style[c.word] * one.style["other line"] ** self.others[c] * (1 if self.known[c] else untold) for c in can]
        return self.dice.choices(can, weights)[0] if can else None

    def other_lines(self, command):
        """By how many lines of which the program has other points: what it says itself is shown at once."""
        pairs = [frozenset((command.args[i], command.args[j])) for i, j in ON_LINES.get(command.word, ())]
        return sum(pair not in self.facts.pairs for pair in pairs)
