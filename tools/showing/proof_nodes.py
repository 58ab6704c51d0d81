"""The nodes of a proof that is drawn as a tree: at each what is new in its set, and its rule."""

from showing import reasons
from showing.places import closing, kind, visits, with_ends
from showing.words import counted, signed

# from so many steps on a set that is closed for a second time is drawn without its proof
FOLDED_FROM = 200


class Node:
    """A step in the tree: what was visited, and where its set is closed already the number of the step that closes it."""

    def __init__(self, visit, cited):
        self.visit, self.cited, self.below = visit, cited, []


def is_folded(steps):
    return len(steps) >= FOLDED_FROM


def note(closed_by, ended):
    """Notes under each set the first step that closes it whole."""
    for visit in ended:
        closed_by.setdefault(visit.have, visit.number)


def drawn(steps, fold):
    """The steps that are drawn, with the number that each cites or None. A set cites a step that is closed whole before it."""
    closed_by, folded = {}, None
    for visit, ended in steps:
        if folded is None:
            cited = closed_by.get(visit.have) if fold else None
            yield visit, cited
            folded = visit if cited is not None else None
        if folded in ended:
            folded = None
        note(closed_by, ended)


def nodes(logic, goal, steps):
    """The nodes in the order of their steps, each before those below it, up to the step that breaks its rule."""
    found = {}
    for visit, cited in drawn(with_ends(visits(logic, goal, steps)), is_folded(steps)):
        found[visit.number] = Node(visit, cited)
        if visit.place.above:
            found[visit.place.above].below.append(found[visit.number])
    return list(found.values())


def rule_line(node, form):
    """The rule, its principal with its kind, and of a step without premises why its set is closed."""
    visit = node.visit
    if node.cited is not None:
        return "%d. closed as at %d" % (visit.number, node.cited)
    told = "%d. %s %s%s" % (visit.number, visit.rule, kind(visit.principal), signed(visit.principal, form))
    return told + closing(visit, lambda s: signed(s, form)) if visit.left == [] else told


def faults(logic, goal, node, form):
    """Why the step breaks its rule, where it does."""
    visit = node.visit
    if visit.left is None:
        why = reasons.of_step(logic, goal, visit.have, visit.rule, visit.principal, form)
        return ["breaks its rule: %s" % why]
    return []


def told_size(found, steps):
    """How much of the proof is drawn."""
    folded = sum(1 for node in found if node.cited is not None)
    told = counted(len(steps), "step")
    if folded:
        told += ", of which %d are drawn; in %s a set was closed before, and cites the step that closed it" % (
            len(found) - folded,
            "1 further box" if folded == 1 else "%d further boxes" % folded,
        )
    return told
