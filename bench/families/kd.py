"""Families of our own for KD."""

from families.building import P, axiom_4, box, dia, implies, levels
from families.shared import path


def serial(number, provable):
    """What is at all worlds of a level is at one; not the other way: two worlds of a level, one with p."""
    return implies(box(P, number), dia(P, number)) if provable else implies(dia(P, number), box(P, number))


def d4(number, provable):
    """4 level by level carries p on to a world; without the last level a chain with p but at its end shows that it doesn't."""
    rules = [axiom_4(P)] * (number if provable else number - 1)
    return implies(("&", levels(rules), box(P)), dia(P, number + 1))


FAMILIES = {"d4": d4, "path": path, "serial": serial}
