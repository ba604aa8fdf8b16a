"""What is true of the points of a figure at random numbers, and what its commands say of them themselves."""
# SPDX-License-Identifier: Apache-2.0
from functools import reduce
from itertools import combinations
from math import gcd

from residues import PRIME, area, inverse, square
from canonical import names_in

# The two points of a line on which a command puts its point; and of the circles: the centres, and another point on them.
ON_LINES = {"inter": ((0, 1), (2, 3)), "foot": ((1, 2),), "inverse": ((0, 1),)}
ON_LINES |= {word: ((0, 1),) for word in ("online", "lratio", "midpoint", "symmetric", "second")}
ON_CIRCLES = {"oncircle": ((0, 1),), "cc": ((0, 2), (1, 2)), "second": ((2, 0),), "symmetric": ((1, 0),), "reflect": ((1, 0), (2, 0))}
CENTRES = {"circumcenter": (0, 1, 2), "midpoint": (0, 1)}
# The two right angles of a command's point and the ends of a line; of an orthocenter there are three.
RIGHT = {"foot": ((0, (1, 2)),), "reflect": ((0, (1, 2)),), "tratio": ((0, (0, 1)),), "orthocenter": ((0, (1, 2)), (1, (0, 2)), (2, (0, 1)))}
# Pairs of points that have one direction: 0 is the new point, 1 the first argument.
PARALLEL = {"pratio": (((0, 1), (2, 3)),), "translate": (((0, 3), (1, 2)), ((0, 2), (1, 3)))}
RATIOS = [(n, d) for d in (1, 2, 3, 4) for n in (-3, -2, -1, 1, 2, 3, 4) if gcd(n, d) == 1 and n != d]


def one_each(some, are_one, both):
    """Those that are one are made one, in place."""
    size = None
    while size != len(some):
        size, found = len(some), []
        for thing in some:
            same = [other for other in found if are_one(other, thing)]
            found = [other for other in found if other not in same] + [reduce(both, same, thing)]
        some[:] = found


class Told:
    """What commands say themselves, and what follows of it at once: lines, circles (a centre and points), and directions (each of pairs of
    points, beside that of a quarter-turn)."""

    def __init__(self, commands):
        self.lines, self.circles, self.directions = [], [], []
        for word, name, args in commands:
            self.lines += [frozenset((name, args[i], args[j])) for i, j in ON_LINES.get(word, ())]
            self.circles += [(args[i], frozenset((name, args[j]))) for i, j in ON_CIRCLES.get(word, ())]
            if word in CENTRES:
                self.circles.append((name, frozenset(args[i] for i in CENTRES[word])))
            for angle in RIGHT.get(word, ()):
                self.join(*self.right(name, args, angle), True)
            for pairs in PARALLEL.get(word, ()):
                self.join(*(frozenset((name, *args)[k] for k in pair) for pair in pairs), False)
        self.close()
        self.follow({x for c in commands for x in (c.name, *names_in(c.args))}, commands)

    def join(self, p, q, turned):
        """Two pairs of points have one direction, or are at right angles."""
        self.directions.append(({p}, {q}) if turned else ({p, q}, set()))

    def close(self):
        """Lines with two points in common are one, and parallels through one point; so are directions that have a line in common."""
        size = None
        while size != (len(self.lines), sum(map(len, self.lines)), len(self.directions)):
            size = (len(self.lines), sum(map(len, self.lines)), len(self.directions))
            self.merge()
            for one, other in combinations(self.directions, 2):
                turns = [t for t in (0, 1) if any(self.is_same(p, q) for k in (0, 1) for p in one[k] for q in other[k ^ t])]
                if turns:
                    both = tuple(one[k] | other[k ^ turns[0]] for k in (0, 1))
                    self.directions = [d for d in self.directions if d not in (one, other)] + [both]
                    break
            pairs = [pair for sides in self.directions for some in sides for pair in combinations(some, 2) if not self.is_same(*pair)]
            self.lines += [p | q for p, q in pairs if self.line_of(p) & self.line_of(q)]

    def follow(self, names, commands):
        """Circles that follow: a point of a mirror is equally far from both sides of it, the foot from a centre from both ends of a chord, and a
        right angle stands on a circle over its chord. And lines: that of two images meets the mirror where that of the points does."""
        for one, other in combinations([c for c in commands if c.word == "reflect"], 2):
            self.lines += [frozenset((one.name, other.name, m)) for m in self.on_mirror(one, other)]
        self.merge()
        middles = [(c.name, c.args[:2]) for c in commands if c.word == "midpoint"]
        for word, x, a in commands:
            if word == "reflect":
                axis, chord = self.line_of(frozenset(a[1:])), self.line_of(frozenset((x, a[0])))
                self.circles += [(o, frozenset((x, a[0]))) for o in axis]
                middles += [(m, (x, a[0])) for m in axis & chord]
                self.circles += [(o, frozenset((f, g))) for p in a[1:] for o in axis for f in self.feet_of(o, p, a[0]) for g in self.feet_of(o, p, x)]
            if word == "foot":
                chord = self.line_of(frozenset((x, *a[1:])))
                self.circles += [(x, on & chord) for o, on in self.circles if o == a[0] and len(on & chord) > 1]
        for m, (a, b) in middles:
            self.circles += [(m, frozenset((a, x))) for x in names - {a, b} if self.is_right(frozenset((x, a)), frozenset((x, b)))]
        self.merge()

    def merge(self):
        """Lines with two points in common are one, and circles with their centre and a point in common."""
        one_each(self.lines, lambda p, q: len(p & q) > 1, frozenset.union)
        one_each(self.circles, lambda c, d: c[0] == d[0] and c[1] & d[1], lambda c, d: (c[0], c[1] | d[1]))

    def on_mirror(self, one, other):
        """The points of a common mirror that are on the line of both points that are mirrored: they are on the line of the images, too."""
        axis = self.line_of(frozenset(one.args[1:]))
        return axis & self.line_of(frozenset((one.args[0], other.args[0]))) if set(other.args[1:]) <= axis else ()

    def feet_of(self, o, p, q):
        """The points of the line PQ below O."""
        line = frozenset((p, q))
        return [f for f in self.line_of(line) if f != o and self.is_right(frozenset((o, f)), line)]

    @staticmethod
    def right(name, args, angle):
        i, (j, k) = angle
        return (frozenset((name, args[i])), frozenset((args[j], args[k])))

    def on_line(self, points):
        return any(points <= line for line in self.lines)

    def line_of(self, pair):
        return next((line for line in self.lines if pair <= line), pair)

    def on_circle(self, centre, *points):
        return any(centre == c and set(points) <= on for c, on in self.circles)

    def is_same(self, p, q):
        return p == q or self.on_line(p | q)

    def is_right(self, p, q):
        """Whether the pairs of points are perpendicular, also by other points of their lines."""
        return any(self.has(one, p) and self.has(other, q) or self.has(one, q) and self.has(other, p) for one, other in self.directions)

    def has(self, some, p):
        return any(self.is_same(p, q) for q in some)

    def says(self, command):
        """Whether what a construction says of lines, circles and directions is told by these commands."""
        word, x, a = command
        lines = all(self.on_line(frozenset((x, a[i], a[j]))) for i, j in ON_LINES.get(word, ()))
        circles = all(self.on_circle(a[i], x, a[j]) for i, j in ON_CIRCLES.get(word, ()))
        if word in CENTRES:
            return lines and self.on_circle(x, *(a[i] for i in CENTRES[word]))
        if word == "foot":
            return lines and self.is_right(*self.right(x, a, RIGHT[word][0]))
        if word == "orthocenter":
            return sum(self.is_right(*self.right(x, a, angle)) for angle in RIGHT[word]) > 1
        if word == "translate":
            pairs = [frozenset((x, *a)[k] for k in pair) for some in PARALLEL[word] for pair in some]
            return all(any(self.has(d[k], p) and self.has(d[k], q) for d in self.directions for k in (0, 1)) for p, q in (pairs[:2], pairs[2:]))
        return word in ("point", "online", "oncircle", "inter", "second", "cc", "reflect", "symmetric") and lines and circles


class Relations:
    """The points of a figure modulo the prime, with the lines, circles and ratios that are true there."""

    def __init__(self, at, program, added):
        self.at, self.points = at, list(at)
        self.there = {}
        for x in self.points:
            self.there.setdefault(at[x], []).append(x)
        self.lines, self.circles = self.true_lines(), self.true_circles()
        self.ratios = {n * inverse(d) % PRIME: ("number", n) if d == 1 else ("div", ("number", n), ("number", d)) for n, d in RATIOS}
        self.known, self.added = Told(program + added), {c.name for c in added}
        self.pairs = {frozenset((c.args[i], c.args[j])) for c in program for i, j in ON_LINES.get(c.word, ())}

    def true_lines(self):
        lines, seen = [], set()
        for a, b in combinations(self.points, 2):
            if self.at[a] != self.at[b] and (a, b) not in seen:
                line = [x for x in self.points if area(self.at[a], self.at[b], self.at[x]) == 0]
                seen.update(combinations(line, 2))
                if len(line) > 2:
                    lines.append(line)
        return lines

    def true_circles(self):
        circles = []
        for o in self.points:
            by_radius = {}
            for x in self.points:
                by_radius.setdefault(square(self.at[o], self.at[x]), []).append(x)
            circles += [(o, on) for radius, on in by_radius.items() if radius and len(on) > 1]
        return circles

    def lines_of(self, x):
        return [line for line in self.lines if x in line]

    def circles_of(self, x):
        return [(o, on) for o, on in self.circles if x in on]
