"""Families of our own for Grz."""

from families.building import axiom_grz, box, conjunction, grz_body, implies, letter, letters
from families.shared import mckinsey, path


def axiom(number, provable):
    """Grz's axiom for a conjunction; with another conclusion one world with the conjunction alone refutes it."""
    a = conjunction(letters("p", number))
    return axiom_grz(a) if provable else implies(box(grz_body(a)), letter("p", number + 1))


FAMILIES = {"axiom": axiom, "mckinsey": mckinsey, "path": path}
