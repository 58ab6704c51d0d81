"""Worlds in layers: each arrow goes down to a later layer, or stays within a row of worlds that reach one another."""


def successors_of(count, arrows):
    found = [[] for _ in range(count)]
    for v, w in arrows:
        if v != w:
            found[v].append(w)
    return found


def finishing_order(successors):
    """The worlds in the order in which a search in depth is done with them; it takes later worlds first, so that the
    order turned round has the earlier ones first."""
    order, known = [], set()
    for root in reversed(range(len(successors))):
        if root in known:
            continue
        known.add(root)
        path = [(root, reversed(successors[root]))]
        while path:
            world, rest = path[-1]
            following = next((v for v in rest if v not in known), None)
            if following is None:
                order.append(world)
                path.pop()
            else:
                known.add(following)
                path.append((following, reversed(successors[following])))
    return order


def knots_of(count, arrows):
    """The worlds in lists of those that reach one another, each list behind those from which it is reached (Kosaraju)."""
    forward = successors_of(count, arrows)
    backward = successors_of(count, [(w, v) for v, w in arrows])
    knots, known = [], set()
    for root in reversed(finishing_order(forward)):
        if root in known:
            continue
        known.add(root)
        knot, waiting = [], [root]
        while waiting:
            world = waiting.pop()
            knot.append(world)
            fresh = [v for v in backward[world] if v not in known]
            known.update(fresh)
            waiting += fresh
        knots.append(sorted(knot))
    return knots


def layer_of_each(count, arrows, knots):
    """The layer of each world, from 0: the longest way down to it through other knots."""
    forward = successors_of(count, arrows)
    layer = [0] * count
    for knot in knots:
        own = max(layer[w] for w in knot)
        for w in knot:
            layer[w] = own
        for v in {v for w in knot for v in forward[w]} - set(knot):
            layer[v] = max(layer[v], own + 1)
    return layer
