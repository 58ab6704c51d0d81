"""Where nodes stand that reach one another: on a ring, so that a straight arrow between any two passes no other."""

import math

MANY, WIDER = 12, 1.4


def order_of(nodes, arrows):
    """The nodes in an order in which each, where it can be, is seen from the one before it."""
    after = {i: sorted(w for v, w in arrows if v == i) for i in nodes}
    order, left = [], set(nodes)
    while left:
        fitting = [w for w in after[order[-1]] if w in left] if order else []
        order.append(min(fitting or left))
        left.remove(order[-1])
    return order


def radius_of(count, size, gap):
    """The radius of a ring on which so many nodes of this size are apart; where they aren't many, no arrow past one touches it."""
    beside = (size + WIDER * gap) / (2 * math.sin(math.pi / count))
    return max(beside, (size / 2 + 10) / (1 - math.cos(2 * math.pi / count))) if 3 < count <= MANY else beside


def places_of(nodes, sizes, arrows, gap):
    """The offset of each node from the ring's middle, the first at the top; two stand side by side."""
    if len(nodes) == 1:
        return {nodes[0]: (0.0, 0.0)}
    size = max(math.hypot(*sizes[i]) if sizes[i][0] != sizes[i][1] else sizes[i][0] for i in nodes)
    radius = radius_of(len(nodes), size, gap)
    start = math.pi if len(nodes) == 2 else -math.pi / 2
    turn = 2 * math.pi / len(nodes)
    return {
        i: (radius * math.cos(start + turn * at), radius * math.sin(start + turn * at))
        for at, i in enumerate(order_of(nodes, arrows))
    }


def extent(places, sizes):
    """The left, top, right and lower bounds of the nodes in these places."""
    lefts = [x - sizes[i][0] / 2 for i, (x, _) in places.items()]
    tops = [y - sizes[i][1] / 2 for i, (_, y) in places.items()]
    rights = [x + sizes[i][0] / 2 for i, (x, _) in places.items()]
    lows = [y + sizes[i][1] / 2 for i, (_, y) in places.items()]
    return min(lefts), min(tops), max(rights), max(lows)
