"""The families for KT, after the subjects of the comparison's. A rule at a level holds at all levels before it too."""

from families.building import P, axiom_4, axiom_5, box, dia, implies, levels, negation
from families.k import dum, grz
from families.shared import branch, path, pigeons, polygon


def euclid(number, provable):
    """4 and 5 level by level carry on whether box p holds. Without the last level they don't: a chain with p at its end."""
    rules = [("&", axiom_4(P), axiom_5(P))] * (number + 1 if provable else number)
    lacks = negation(box(P))
    carried = ("&", implies(box(P), box(P, number + 1)), implies(lacks, box(lacks, number + 1)))
    return implies(levels(rules), carried)


def depth(number, provable):
    """T makes boxes fewer and diamonds more; boxes aren't made more: a chain with p but at its end."""
    if provable:
        return ("&", implies(box(P, number + 1), box(P, number)), implies(dia(P, number), dia(P, number + 1)))
    return implies(box(P, number), box(P, number + 1))


def t4p(number, provable):
    """4 level by level carries p on; without the last level it doesn't: a chain with p but at its end."""
    rules = [axiom_4(P)] * (number if provable else number - 1)
    return implies(("&", box(P), levels(rules)), box(P, number + 1))


FAMILIES = {
    "45": euclid, "branch": branch, "dum": dum, "grz": grz, "md": depth, "path": path, "ph": pigeons, "poly": polygon,
    "t4p": t4p,
}
