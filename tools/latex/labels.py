"""Where the labels of a picture stand: beside their points, on no other label, on no point, and where no line goes if there is such a place."""
# SPDX-License-Identifier: Apache-2.0
import math

DIRECTIONS = 16
DISTANCES = (0.08, 0.2, 0.4, 0.7, 1.1)
HEIGHT, LETTER, LOW = 0.36, 0.26, 0.17


def width_of(stem, low):
    """About how wide a name is set, in centimetres."""
    return LETTER * len(stem) + LOW * len(low)


def placed(points, spans, rounds):
    """For each point (its place, the size of its label) the box of the label: left, low, right, high. `spans` are segments, `rounds`
    circles with their radii."""
    boxes = []
    for place, size in points:
        others = [p for p, _ in points if p != place]
        candidates = [box for box in boxes_at(place, size) if not any(meets(box, taken) for taken in boxes)]
        best = min(candidates, key=lambda box: badness(box, place, others, spans, rounds), default=None)
        boxes.append(best or shifted(place, size, boxes))
    return boxes


def boxes_at(place, size):
    """The places that a label may have around its point, the near ones first."""
    for distance in DISTANCES:
        for k in range(DIRECTIONS):
            angle = math.pi / 4 + 2 * math.pi * k / DIRECTIONS
            u = (math.cos(angle), math.sin(angle))
            x = place[0] + u[0] * (distance + size[0] / 2)
            y = place[1] + u[1] * (distance + size[1] / 2)
            yield (x - size[0] / 2, y - size[1] / 2, x + size[0] / 2, y + size[1] / 2)


def shifted(place, size, boxes):
    """Where no place around is free: to the right, as far as is needed."""
    x = place[0] + DISTANCES[-1]
    while True:
        box = (x, place[1], x + size[0], place[1] + size[1])
        hit = next((taken for taken in boxes if meets(box, taken)), None)
        if hit is None:
            return box
        x = hit[2] + DISTANCES[0]


def badness(box, place, others, spans, rounds):
    middle = ((box[0] + box[2]) / 2, (box[1] + box[3]) / 2)
    points = sum(inside(box, p, 0.05) for p in others)
    lines = sum(crosses(box, span) for span in spans)
    circles = sum(crosses_round(box, *circle) for circle in rounds)
    return 100 * points + 10 * (lines + circles) + math.dist(middle, place)


def meets(one, other):
    return one[0] < other[2] and other[0] < one[2] and one[1] < other[3] and other[1] < one[3]


def inside(box, p, margin=0.0):
    return box[0] - margin <= p[0] <= box[2] + margin and box[1] - margin <= p[1] <= box[3] + margin


def crosses(box, span):
    """Whether a segment goes through a box: cut by each pair of its sides in turn."""
    (x, y), (a, b) = span
    low, high = 0.0, 1.0
    for start, way, least, most in ((x, a - x, box[0], box[2]), (y, b - y, box[1], box[3])):
        if way == 0:
            if not least <= start <= most:
                return False
            continue
        near, far = sorted(((least - start) / way, (most - start) / way))
        low, high = max(low, near), min(high, far)
    return low <= high


def crosses_round(box, center, radius):
    """Whether a circle goes through a box: some of the box is inside and some outside."""
    nearest = [min(max(center[k], box[k]), box[k + 2]) for k in (0, 1)]
    corners = [math.dist(center, (x, y)) for x in (box[0], box[2]) for y in (box[1], box[3])]
    return math.dist(center, nearest) <= radius <= max(corners)
