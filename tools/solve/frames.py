"""Frames, and smaller statements: formulations that are written down at once."""
# SPDX-License-Identifier: Apache-2.0
from itertools import combinations, permutations, product

from residues import along, inverse, minus, place, square
from canonical import Command, needed, names_in
from auxiliary import ONE
from relations import ON_LINES


def framed(commands, names, a, b):
    """A rectangular frame: A and B stay, V is B turned a quarter about A, and each other free point is the corner of a rectangle with two
    sides on AB and AV. The areas of free points are gone then. Gives auxiliary commands and a formulation."""
    v = names.command("tratio", a, b, ONE)
    return in_rectangles(commands, names, (a, b, v.name), [v], [*free(a, b), v])


def framed_by_altitude(commands, names, a, b, c):
    """The same with Z, the foot of the altitude from A on BC; B is a point of the altitude, turned a quarter about Z."""
    z = names.command("foot", a, b, c)
    t = names.command("tratio", z.name, b, ONE)
    form = [*free(z.name, a), Command("online", t.name, (a, z.name)), Command("tratio", b, (z.name, t.name, ("number", -1)))]
    commands = [on_axis(command, {b, c}, (b, z.name)) for command in commands]
    return in_rectangles(commands, names, (z.name, a, b), [z, t], [*form, Command("online", c, (b, z.name))])


def on_axis(command, pair, axis):
    """The command with the axis in the place of a line through these two points."""
    args = list(command.args)
    for i, j in ON_LINES.get(command.word, ()) if command.word in ("online", "inter", "foot") else ():
        if {args[i], args[j]} == pair:
            args[i], args[j] = axis
    return Command(command.word, command.name, tuple(args))


def in_rectangles(commands, names, axes, added, form):
    """Each other free point is the corner of a rectangle with two sides on AB and AV."""
    a, b, v = axes
    for x in [c.name for c in commands if c.word == "point" and c.name not in [d.name for d in form]]:
        p, q = names.command("foot", x, a, b), names.command("foot", x, a, v)
        added += [p, q]
        form += [Command("online", p.name, (a, b)), Command("online", q.name, (a, v)), Command("translate", x, (a, p.name, q.name))]
    made = {c.name for c in form}
    return added, form + [c for c in commands if c.word != "assume" and c.name not in made]


def frames(ground, commands, rule, most):
    """Frames of the commands in an order at random; those on a side that the conditions of the program have come first. Half as many are by
    an altitude."""
    points = [c.name for c in commands if c.word == "point"]
    sides = {frozenset(c[1:]) for c in ground.own if c[0] == "different"}
    pairs = list(permutations(points, 2)) if len(points) > 2 else []
    pairs = sorted(ground.dice.sample(pairs, len(pairs)), key=lambda pair: frozenset(pair) not in sides)
    offers = [framed(commands, ground.names, a, b) for a, b in pairs[:most]]
    for b, c in [pair for pair in pairs if pair[0] < pair[1]][: most // 2]:
        a = ground.dice.choice([x for x in points if x not in (b, c)])
        offers.insert(0, framed_by_altitude(commands, ground.names, a, b, c))
    for added, form in offers:
        yield ground.with_added(added).attempt(rule, needed(form, names_in(ground.statement.args)))


def incenters(commands):
    """(A, I, B, X, C, Y): the lines BX and CY meet in A, and are BC mirrored in IB and in IC; so I is a centre of a circle that touches."""
    mirrored = {c.name: (c.args[0], {*c.args[1:]}) for c in commands if c.word == "reflect"}
    for a, ends in [(c.name, c.args) for c in commands if c.word == "inter"]:
        for (b, x), (c, y) in product((ends[:2], ends[1::-1]), (ends[2:], ends[:1:-1])):
            if x in mirrored and y in mirrored and mirrored[x][0] == c and mirrored[y][0] == b and b in mirrored[x][1] and c in mirrored[y][1]:
                yield from ((a, i, b, x, c, y) for i in mirrored[x][1] & mirrored[y][1])


def touching_first(ground):
    """A triangle by its incircle: the touching points first, and the corners as the inverses of their midpoints."""
    make = ground.names.command
    for a, i, b, x, c, y in incenters(ground.commands):
        known = [f for f in ground.commands if f.word == "foot" and f.args[0] == i and {*f.args[1:]} == {b, c}]
        d, e, f = known[0] if known else make("foot", i, b, c), make("foot", i, c, y), make("foot", i, b, x)
        middles = [make("midpoint", p.name, q.name) for p, q in ((e, f), (f, d), (d, e))]
        form = [*free(i, d.name), *(Command("oncircle", p.name, (i, d.name)) for p in (e, f)), *middles]
        form += [Command("inverse", p, (m.name, i, d.name)) for p, m in zip((a, b, c), middles)]
        form += [p for p in ground.commands if p.name not in (a, b, c, x, y, i, d.name) and p.word != "assume"]
        added = [p for p in (d, e, f) if p not in known] + middles
        yield ground.with_added(added).attempt("touching points first", needed(form, names_in(ground.statement.args)))


# Smaller statements. Each rule gives auxiliary commands and a formulation that has the statement; what is left to be shown is what the
# commands of the formulation say.


def free(*points):
    return [Command("point", x, ()) for x in dict.fromkeys(points)]


def smaller_identical(ground, facts):
    """Two points are one where both are on two lines: what is left are areas, and no squares."""
    x, y = ground.statement.args
    both = [[p for p in line if p not in (x, y)] for line in facts.lines if x in line and y in line]
    for s, t in combinations(both, 2):
        for p in combinations(s, 2):
            for q in combinations(t, 2):
                if ground.at[p[0]] != ground.at[p[1]] and ground.at[q[0]] != ground.at[q[1]]:
                    yield [], [*free(*p, *q), Command("inter", x, p + q), Command("inter", y, p + q)]


def smaller_centres(ground, facts):
    """Two points are one where both are equally far from three points."""
    x, y = ground.statement.args
    for (o, on), (p, other) in permutations(facts.circles, 2):
        for three in combinations([a for a in on if a in other], 3) if (o, p) == (x, y) else ():
            if len({ground.at[a] for a in three}) == 3:
                yield [], [*free(*three), Command("circumcenter", x, three), Command("circumcenter", y, three)]


def smaller_midpoint(ground, facts):
    """M is the midpoint of PQ where Q is P mirrored in the perpendicular to MP at M; or where Q is on a line, and so is P mirrored in M."""
    m, *ends = ground.statement.args
    for p, q in (ends, ends[::-1]):
        turn = ground.names.command("tratio", m, p, ONE)
        yield [turn], [*free(m, p), turn, Command("reflect", q, (p, m, turn.name))]
        half = ground.names.command("symmetric", p, m)
        for line in facts.lines_of(q):
            if m not in line:
                for c, d in combinations([x for x in line if x != q], 2):
                    if ground.at[c] != ground.at[d]:
                        online = Command("online", d, (c, half.name))
                        yield [half], [*free(m, p), half, *free(c), online, Command("inter", q, (m, p, c, d))]


def smaller_same_length(ground, facts):
    """P is as far from B as from C where it is on the perpendicular to BC at the midpoint."""
    a = ground.statement.args
    for p in sorted(set(a[:2]) & set(a[2:])):
        b, c = next((x for x in a[:2] if x != p), p), next((x for x in a[2:] if x != p), p)
        if len({p, b, c}) == 3:
            middle = ground.names.command("midpoint", b, c)
            turn = ground.names.command("tratio", middle.name, b, ONE)
            yield [middle, turn], [*free(b, c), middle, turn, Command("online", p, (middle.name, turn.name))]


def smaller_circle(ground, facts):
    """Four points are on one circle where they are equally far from a known point, or from the midpoint of two."""
    a = ground.statement.args
    for o, on in facts.circles:
        if set(a) <= set(on):
            for p in a:
                yield [], [*free(o, p), *(Command("oncircle", q, (o, p)) for q in a if q != p)]
    for p, q in combinations(facts.points, 2):
        middle = place(*along(ground.at[p], inverse(2), minus(ground.at[q], ground.at[p])))
        if len({square(middle, ground.at[x]) for x in a}) == 1:
            o = ground.names.command("midpoint", p, q)
            yield [o], [*free(o.name, a[0]), *(Command("oncircle", x, (o.name, a[0])) for x in a[1:])]


def smaller_circumcenter(ground, facts):
    """Four points are on one circle where the fourth is as far from the circumcenter of three as these."""
    for three in combinations(ground.statement.args, 3):
        fourth = next(x for x in ground.statement.args if x not in three)
        centre = ground.names.command("circumcenter", *three)
        circle = [Command("oncircle", q, (centre.name, three[0])) for q in three[1:] + (fourth,)]
        yield [centre], [*free(centre.name, three[0]), *circle]


def smaller_power(ground, facts):
    """Four points are on one circle by the power of a point: MP MQ = MR MT."""
    a, at = ground.statement.args, ground.at
    lines = [set(line) for line in facts.lines]
    for p, q, r, t in [o for o in permutations(a) if o[0] < o[1] and o[0] < o[2]]:
        for m in facts.points:
            if m in a or at[m] in (at[r], at[p]) or not all(any({m, *pair} <= line for line in lines) for pair in ((p, q), (r, t))):
                continue
            ratio = ("div", ("pythagoras_difference3", p, m, q), ("pythagoras_difference3", r, m, r))
            form = [*free(m, p), Command("online", q, (m, p)), *free(r), Command("lratio", t, (m, r, ratio))]
            yield [ground.names.command("lratio", m, r, ratio)], form


SMALLER = {
    "identical": [smaller_identical, smaller_centres],
    "midpoint": [smaller_midpoint],
    "same_length": [smaller_same_length],
    "concyclic": [smaller_circle, smaller_circumcenter, smaller_power],
}


def smaller(ground, most):
    """The smaller statements of a ground in an order at random; what they ask is true of its figure, so far as `holds` tells."""
    facts = ground.relations()
    offers = [(rule, *o) for rule in SMALLER.get(ground.statement.word, ()) for o in rule(ground, facts)]
    for rule, added, form in ground.dice.sample(offers, min(len(offers), most)):
        yield ground.with_added(added).attempt(rule.__name__, form)
