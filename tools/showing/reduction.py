"""The arrows of a model that are drawn: all, or without those that follow from the logic's class."""

from certificates import models
from showing import reasons

LEFT_OUT = {
    "k": None,
    "kt": "reflexive arrows: each world sees itself",
    "k4": "transitive arrows: each world sees all that is seen from what it sees",
    "kd": None,
    "s4": "reflexive and transitive arrows: each world sees itself and all that is seen from what it sees",
    "s5": "reflexive, symmetric and transitive arrows: each world sees itself, is seen from what it sees, and sees all that is seen from there",
    "gl": "transitive arrows: each world sees all that is seen from what it sees",
    "grz": "reflexive and transitive arrows: each world sees itself and all that is seen from what it sees",
}
PROPERTIES = {
    "serial": models.is_serial,
    "reflexive": models.is_reflexive,
    "irreflexive": models.is_irreflexive,
    "symmetric": models.is_symmetric,
    "antisymmetric": models.is_antisymmetric,
    "transitive": models.is_transitive,
}
# the logics whose reduced arrows a model without a logic may have, where its relation is one of theirs
FROM_MOST = ("s5", "s4", "kt", "k4", "k")


def properties(sees):
    """The names of the relation's properties; a reflexive relation is serial anyhow."""
    sets = [set(row) for row in sees]
    found = [name for name, holds in PROPERTIES.items() if holds(sets)]
    return [name for name in found if name != "serial" or "reflexive" not in found]


def logic_of(sees):
    """The logic by whose class arrows are left out where a model names none: the one whose arrows are fewest."""
    return next(logic for logic in FROM_MOST if models.in_class(logic, sees))


def without_loops(sees):
    return [(w, v) for w, row in enumerate(sees) for v in row if v != w]


def clusters_of(rows):
    """The worlds of a transitive relation, in lists of those that see each other; each list is in order."""
    found, known = [], set()
    for w, row in enumerate(rows):
        if w not in known:
            cluster = [w] + [v for v in sorted(row) if v > w and w in rows[v]]
            known.update(cluster)
            found.append(cluster)
    return found


def covering(rows):
    """The least arrows whose transitive closure is the relation, loops aside: within a cluster those between neighbours in
    its list, there and back; between clusters, from the last world of one to the first of each next one."""
    clusters = clusters_of(rows)
    first_of = {w: cluster[0] for cluster in clusters for w in cluster}
    drawn = []
    for cluster in clusters:
        for v, w in zip(cluster, cluster[1:]):
            drawn += [(v, w), (w, v)]
        above = {first_of[v] for v in rows[cluster[0]]} - {cluster[0]}
        beyond = set().union(*(above & rows[v] - {v} for v in above))
        drawn += [(cluster[-1], v) for v in sorted(above - beyond)]
    return sorted(drawn)


def covering_with_loops(sees):
    """The covering arrows, and the loops that don't follow: those of worlds that see themselves, and that no other world in
    their sight sees."""
    rows = [set(row) for row in sees]
    alone = [cluster[0] for cluster in clusters_of(rows) if len(cluster) == 1]
    return sorted(covering(rows) + [(w, w) for w in alone if w in rows[w]])


def every_arrow(sees):
    return [(w, v) for w, row in enumerate(sees) for v in row]


def covering_alone(sees):
    return covering([set(row) for row in sees])


# the arrows from which the relation follows by the logic's class
REDUCED = {
    "k": every_arrow,
    "kt": without_loops,
    "k4": covering_with_loops,
    "kd": every_arrow,
    "s4": covering_alone,
    "s5": covering_alone,
    "gl": covering_alone,
    "grz": covering_alone,
}


def drawn_arrows(logic, sees, is_reduced):
    """The pairs that are drawn, and in words what is left out, if anything is."""
    if not is_reduced or LEFT_OUT[logic] is None or reasons.of_class(logic, sees):
        return every_arrow(sees), None
    return REDUCED[logic](sees), LEFT_OUT[logic]
