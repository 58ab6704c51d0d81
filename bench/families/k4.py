"""Families of our own for K4."""

from families.building import P, box, implies
from families.shared import grz_letters, path


def boxes(number, provable):
    """Boxes are made more, not fewer: a world that sees one without p, which sees none."""
    return implies(box(P), box(P, number + 1)) if provable else implies(box(P, number + 1), box(P))


FAMILIES = {"boxes": boxes, "grz": grz_letters, "path": path}
