"""The families for S4, after the subjects of the comparison's."""

from families.building import P, axiom_5, box, conjunction, dia, implies, letter, letters, word
from families.shared import branch, grz_letters, mckinsey, path, pigeons, split


def euclid(number, provable):
    """5 for each variable brings back what is always true somewhere; without 5 for one, a world without it that sees one with
    all shows that it doesn't."""
    p = letters("p", number)
    rules = [box(axiom_5(a)) for i, a in enumerate(p) if provable or i != number // 2]
    return implies(conjunction(rules + [dia(conjunction(box(a) for a in p))]), box(conjunction(p)))


def goedel(a):
    """Goedel's translation of an intuitionistic formula of variables, `&` and `->`."""
    if a[0] == "letter":
        return box(a)
    inner = (a[0], goedel(a[1]), goedel(a[2]))
    return box(inner) if a[0] == "->" else inner


def ipc(number, provable):
    """De Bruijn's formulas: if each two neighbours of a ring that are equivalent give all, all hold. Intuitionistic logic
    proves it for rings of odd length; colours that alternate round an even one refute it classically."""
    p = letters("p", 2 * number + 1 if provable else 2 * number)
    whole, rules = conjunction(p), []
    for i, a in enumerate(p):
        b = p[(i + 1) % len(p)]
        rules.append(implies(("&", implies(a, b), implies(b, a)), whole))
    return goedel(implies(conjunction(rules), whole))


def depth(number, provable):
    """Words of modalities: (box dia)^n p is box dia p, and McKinsey's formula fails in a cluster."""
    if provable:
        return ("<->", word(["box", "dia"], number, P), box(dia(P)))
    return mckinsey(number, True)


def s5(number, provable):
    """What S5 proves of disjunctions, from 5 for each variable; without 5 for q1, a world with p that sees one with q1."""
    rules = [box(axiom_5(a)) for a in letters("q", number)[0 if provable else 1 :]]
    return implies(conjunction(rules), split(number, True))


def t4p(number, provable):
    """Each variable gives the next for ever, the first none for itself: two worlds, the first with p0, both with the others."""
    rules = conjunction(implies(letter("p", i), box(letter("p", i + 1))) for i in range(number))
    return implies(("&", box(rules), letter("p", 0)), box(letter("p", number if provable else 0)))


FAMILIES = {
    "45": euclid, "branch": branch, "grz": grz_letters, "ipc": ipc, "md": depth, "path": path, "ph": pigeons, "s5": s5,
    "t4p": t4p,
}
