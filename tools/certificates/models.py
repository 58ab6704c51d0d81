"""Finite models, from the fourth section of docs/CERTIFICATES.md."""


def is_reflexive(sets):
    return all(w in row for w, row in enumerate(sets))


def is_irreflexive(sets):
    return all(w not in row for w, row in enumerate(sets))


def is_serial(sets):
    return all(sets)


def is_symmetric(sets):
    return all(w in sets[v] for w, row in enumerate(sets) for v in row)


def is_antisymmetric(sets):
    return all(v == w or w not in sets[v] for w, row in enumerate(sets) for v in row)


def is_transitive(sets):
    return all(sets[v] <= row for row in sets for v in row)


CLASSES = {
    "k": [],
    "kt": [is_reflexive],
    "kd": [is_serial],
    "k4": [is_transitive],
    "s4": [is_reflexive, is_transitive],
    "s5": [is_reflexive, is_symmetric, is_transitive],
    "gl": [is_transitive, is_irreflexive],
    "grz": [is_reflexive, is_transitive, is_antisymmetric],
}


def in_class(logic, sees):
    """Whether the relation is one of the logic's. Raises KeyError where the logic has no row."""
    sets = [set(row) for row in sees]
    return all(test(sets) for test in CLASSES[logic])


def true_worlds(sees, facts, a, known):
    """The worlds at which the formula is true."""
    if a in known:
        return known[a]
    worlds = set(range(len(sees)))
    parts = [true_worlds(sees, facts, b, known) for b in a[1:]] if a[0] != "letter" else []
    if a[0] == "letter":
        result = {w for w in worlds if a[1] in facts[w]}
    elif a[0] == "true":
        result = worlds
    elif a[0] == "false":
        result = set()
    elif a[0] == "~":
        result = worlds - parts[0]
    elif a[0] == "&":
        result = parts[0] & parts[1]
    elif a[0] == "v":
        result = parts[0] | parts[1]
    elif a[0] == "->":
        result = (worlds - parts[0]) | parts[1]
    elif a[0] == "<->":
        result = worlds - (parts[0] ^ parts[1])
    elif a[0] == "box":
        result = {w for w in worlds if all(v in parts[0] for v in sees[w])}
    else:
        result = {w for w in worlds if any(v in parts[0] for v in sees[w])}
    known[a] = result
    return result
