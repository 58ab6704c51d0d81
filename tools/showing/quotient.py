"""The bisimulation quotient of a model: one world for each class of worlds that no formula tells apart (Blackburn, de Rijke
and Venema, Modal Logic, section 2.2). It is the smallest model that is equal to it at each of its worlds."""


def numbered(keys):
    """The number of each key, in the order in which they come first."""
    numbers = {}
    return [numbers.setdefault(key, len(numbers)) for key in keys]


def classes_of(sees, facts):
    """The class of each world: worlds with the same variables, split by the classes that they see until nothing changes."""
    places = numbered(frozenset(names) for names in facts)
    while True:
        finer = numbered((places[w], frozenset(places[v] for v in row)) for w, row in enumerate(sees))
        if max(finer) == max(places):
            return finer
        places = finer


def smallest(model):
    """The bisimulation quotient, with the place of the refuting world, and the places of all worlds."""
    sees, facts, refuted = model
    places = classes_of(sees, facts)
    rows = [set() for _ in range(max(places) + 1)]
    names = [None] * len(rows)
    for w, row in enumerate(sees):
        rows[places[w]] |= {places[v] for v in row}
        names[places[w]] = facts[w]
    return ([sorted(row) for row in rows], names, places[refuted]), places
