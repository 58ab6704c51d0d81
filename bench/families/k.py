"""The families for K, after the subjects of the comparison's."""

from families.building import (
    P, axiom_4, axiom_d, axiom_dum, axiom_grz, axiom_h, axiom_t, box, conjunction, dia, grz_body, implies, letters, levels,
    negation,
)
from families.shared import branch, path, pigeons, polygon


def d4(number, provable):
    """D and 4 level by level make a path. Without D at the last level the path may end there: a chain, p everywhere."""
    rules = [("&", axiom_4(P), axiom_d(P)) for _ in range(number)] + ([axiom_d(P)] if provable else [])
    return implies(("&", levels(rules), box(P)), dia(P, number + 1))


def dum(number, provable):
    """Grz gives Dum; Dum doesn't give Grz: a chain with p but at its end, or in KT an end that sees u, which sees t without
    p, and p at u and before the end."""
    given, wanted = (axiom_grz, axiom_dum) if provable else (axiom_dum, axiom_grz)
    return implies(levels([given(P)] * (number + 1)), box(wanted(P), number))


def grz(number, provable):
    """With 4 for what Grz's axiom has under its box, Grz gives box p from it, and without 4 it doesn't: a chain with p, whose
    end sees v without p, which sees s without p and u with p, which sees t without p."""
    rule = ("&", axiom_grz(P), axiom_4(grz_body(P))) if provable else axiom_grz(P)
    return implies(levels([rule] * (number + 2)), box(implies(box(grz_body(P)), box(P)), number))


def lin(number, provable):
    """Of p1, p2, .. none sees the next one, so linear order turns each pair round; not the pair whose axiom is missing: a
    world for each variable, that sees one for the variable before, but for that pair."""
    p, out = letters("p", number + 1), number // 2
    linear = [axiom_h(p[i], p[i + 1]) for i in range(number) if provable or i != out]
    apart = [box(implies(p[i], negation(("v", p[i + 1], dia(p[i + 1]))))) for i in range(number)]
    turned = conjunction(dia(("&", p[i + 1], dia(p[i]))) for i in range(number))
    return implies(conjunction(linear + [dia(a) for a in p] + apart), turned)


def t4p(number, provable):
    """T and 4 level by level carry p on. Without 4 half way a chain shows that they don't: p up to the level behind it."""
    both, one = ("&", axiom_t(P), axiom_4(P)), axiom_t(P)
    rules = [both if provable or i != number // 2 else one for i in range(number + 1)]
    return implies(("&", box(P), levels(rules)), levels([P] * (number + 2)))


FAMILIES = {
    "branch": branch, "d4": d4, "dum": dum, "grz": grz, "lin": lin, "path": path, "ph": pigeons, "poly": polygon, "t4p": t4p,
}
