"""The ways that an arrow may take, the plainest first: straight, bent a little, through the rows that it passes, bent more."""

import math

from showing.strokes import toward

FAR = 10000.0
# how far beside the middles of its outlines an arrow may aim at its start and at its end, the nearest first
ASIDE = (0.0, 0.35, -0.35, 0.7, -0.7)
SIDEWAYS = sorted(((one, other) for one in ASIDE for other in ASIDE), key=lambda pair: abs(pair[0]) + abs(pair[1]))
LITTLE, MORE = (0.25, -0.25, 0.5, -0.5), (0.8, -0.8, 1.2, -1.2, 1.7, -1.7, 2.2, -2.2)
LOOP_ANGLES = (-45, -135, 45, 135, 0, 180, -90, 90, -20, -65, 20, 65, 155, -155)
LOOP_OPENING, LOOP_BULGE = 26, 24


def beside(p, q, length):
    """The vector of this length across the way from p to q."""
    away = math.dist(p, q) or 1.0
    return (-(q[1] - p[1]) * length / away, (q[0] - p[0]) * length / away)


def moved(p, by, times=1.0):
    return (p[0] + times * by[0], p[1] + times * by[1])


def aside(shape, start, end, part):
    """A point in the outline, beside its middle as one looks along the way, by this part of its lesser half."""
    return moved(shape.middle, beside(start, end, part * min(shape.width, shape.height) / 2))


def straight(one, other, sideways):
    """The line from middle to middle, or from and to points beside them."""
    start = aside(one, one.middle, other.middle, sideways[0])
    end = aside(other, one.middle, other.middle, sideways[1])
    return [one.crossing(start, end), other.crossing(end, start)]


def bent(one, other, bend):
    """A curve that is drawn to a point beside the middle of the straight way, by this part of its length."""
    across = beside(one.middle, other.middle, bend * math.dist(one.middle, other.middle))
    aim = moved(moved(one.middle, across), (other.middle[0] - one.middle[0], other.middle[1] - one.middle[1]), 0.5)
    start = one.crossing(one.middle, toward(one.middle, aim, FAR))
    end = other.crossing(other.middle, toward(other.middle, aim, FAR))
    return [start, toward(start, aim, 2 / 3 * math.dist(start, aim)), toward(end, aim, 2 / 3 * math.dist(end, aim)), end]


def rounded(stops):
    """A curve through these points, at each of which it goes in the direction from the one before to the one behind."""
    points = stops[:1]
    for before, one, other, behind in zip(stops[:1] + stops, stops, stops[1:], stops[2:] + stops[-1:]):
        leaving = ((other[0] - before[0]) / 6, (other[1] - before[1]) / 6)
        meeting = ((behind[0] - one[0]) / 6, (behind[1] - one[1]) / 6)
        points += [moved(one, leaving), moved(other, meeting, -1.0), other]
    return points


def through(one, other, passed, sideways):
    """A curve past the nodes of the rows between, where there is room for it."""
    stops = [(x, y) for x, y, _ in passed]
    start = aside(one, one.middle, stops[0], sideways[0])
    end = aside(other, stops[-1], other.middle, sideways[1])
    return rounded([one.crossing(start, stops[0])] + stops + [other.crossing(end, stops[-1])])


def ways(one, other, passed):
    """The ways of an arrow between these outlines, which passes these rows."""
    yield from (straight(one, other, sideways) for sideways in SIDEWAYS)
    yield from (bent(one, other, bend) for bend in LITTLE)
    yield from (through(one, other, passed, sideways) for sideways in SIDEWAYS if passed)
    yield from (bent(one, other, bend) for bend in MORE)


def loop(shape, angle):
    """A loop at the outline, in this direction, in degrees from the right downward; at a box, near one of its corners."""
    out = (math.cos(math.radians(angle)), math.sin(math.radians(angle)))
    room = min(shape.width, shape.height) / 2
    inward = math.copysign(shape.width / 2 - room, out[0]), math.copysign(shape.height / 2 - room, out[1])
    middle, ends = moved(shape.middle, inward), []
    for turn in (-LOOP_OPENING, LOOP_OPENING):
        a = math.radians(angle + turn)
        ends.append(shape.crossing(middle, moved(middle, (math.cos(a), math.sin(a)), FAR)))
    inner = [moved(toward(end, middle, -LOOP_BULGE), out, 8.0) for end in ends]
    return [ends[0]] + inner + [ends[1]]


def loops(shape, outward):
    """The loops that may be drawn; where the outline stands on a ring, first the one that points away from its middle."""
    angles = LOOP_ANGLES
    if outward != (0.0, 0.0):
        angles = (math.degrees(math.atan2(outward[1], outward[0])),) + angles
    return (loop(shape, angle) for angle in angles)
